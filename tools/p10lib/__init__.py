"""What the companions of p10 share. They are unproved: what counts is what p10 itself answers.

Of all of them
  program      finding and running p10, its answers, trouble with a status, outputs that are whole or absent
  commands     sources and options from the command line or from compile_commands.json
  words        a source cut into words, with places
  preprocess   directives and macros, as docs/profile.md says them
  expressions  expressions as trees, with the first word at which they go wrong
  trees        declarations, functions and statements likewise
  shapes       types of trees, sizes, and constants

Of p10-lint, and of p10-report where something is refused
  findings     all refusals that can be told: what is refused is set aside in a copy, and p10 asked again
  copies       that copy, with the way back to places in the real files
  mends        what is set aside for a refusal: an expression, a statement, a body, a declaration
  special      what is set aside by the refusal's code, where less will do
  lexical      the same of words and directives, by the text alone
  stubs        definitions for what a program only declares
  formats      findings as gcc's lines, SARIF, GitLab's code quality and JUnit

Of p10-report, and the first two of p10-stack
  costs        steps, and where they are spent, as docs/meaning.md says them
  model        a program with its certificate, and which function calls which
  certificate  the text of a certificate
  kinds        of which kind a loop without a bound is, in the words of docs/writing-loops.md
  page         the page, with page.css
"""
VERSION = "1.0"
