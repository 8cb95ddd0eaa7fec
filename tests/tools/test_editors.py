"""docs/editors.md: each block and each form of a line as they stand there, on what the programs really answer."""
import json
import os
import re
import subprocess

import schema
from common import TOOLS, Case
from documents import Document, needs

PAGE = Document("editors.md")
REFUSED = "int main(void)\n{\n    int i = 0;\n    i = i++;\n    return i;\n}\n"
BROKEN = "int main(void)\n{\n    return 0;\n}\n"
STOPPED = "int main(void)\n{\n    int i = 0;\n    return 1 / i;\n}\n"
FAILED = "#include <assert.h>\nint main(void)\n{\n    int i = 0;\n    assert(i > 0);\n    return i;\n}\n"
WRONG = "int main(void)\n{\n    int i = 0;\n    i = (i + 1;\n    return i;\n}\n"
SHORT = "p10cert 1\nfunc main rank 0 steps 1 calls 1 bytes 0 alloc 0\nresult 0 0\ntotal prefix 1 turn 0 calls 1 bytes 0\nend\n"
# The places in the answers: (file, line, column, severity, code).
OF_REFUSED = [("sub/refused.c", 4, 9, "error", "S7")]
OF_WRONG = [("sub/wrong.c", 1, 1, "error", "G1"), ("sub/wrong.c", 4, 9, "note", None), ("sub/wrong.c", 4, 15, "note", None)]
LINT = [("broken.c", 1, 5, "warning", "rule 5.1")] + OF_REFUSED + OF_WRONG
CHECK = [("broken.c", 1, 5, "error", "5.1"), ("sub/refused.c", 1, 5, "error", "5.1"), ("sub/refused.c", 4, 9, "error", "S7"),
         ("sub/wrong.c", 1, 1, "error", "G1")]
VERIFY = [("main.c", 1, 5, "error", "K11")]
RUN = [("failed.c", 5, 5, "error", None), ("stopped.c", 4, 12, "error", None)]
PLACES = sorted({place[:3] for place in LINT + CHECK + VERIFY + RUN})


class Editor(Case):
    def setUp(self):
        super().setUp()
        self.put("sub/refused.c", REFUSED)
        self.put("sub/wrong.c", WRONG)
        self.write(broken_c=BROKEN, stopped_c=STOPPED, failed_c=FAILED, main_c=BROKEN, main_p10=SHORT, motor_c=REFUSED)
        self.put("bin/p10", f'#!/bin/sh\nexec "{os.environ["P10"]}" "$@"\n').chmod(0o755)
        self.environment = {**os.environ, "PATH": f"{self.folder / 'bin'}:{TOOLS}:{os.environ['PATH']}", "HOME": str(self.folder)}

    def answers(self):
        """What the programs answer, a line each."""
        given = [self.p10("check", "sub/refused.c"), self.p10("check", "sub/wrong.c"), self.p10("check", "broken.c"),
                 self.p10("verify", "--cert", "main.p10", "main.c"), self.p10("run", "stopped.c"), self.p10("run", "failed.c"),
                 self.p10("run", "broken.c"), self.p10("run", "--cert", "main.p10", "main.c"), self.p10("check", "absent.c"),
                 self.run_tool("p10-lint", "--library", "sub/refused.c", "sub/wrong.c"), self.run_tool("p10-lint", "broken.c")]
        return "".join(out + err for out, err, _ in given)

    @staticmethod
    def unknown():
        """An answer of each of the two forms that editors don't know."""
        return "refused: K11 main.c:1:5\np10: undefined U1 at stopped.c:4:12\n"

    @staticmethod
    def named_without_it(editor, *files):
        """The names of files that the page says these become in an editor that isn't told of them, sorted."""
        said = re.search(r"without what stands here (.+?)\.\s", PAGE.text, re.DOTALL)[1]
        names = re.findall(r"`([^`]+)`", re.search(rf"{editor} takes them for places in ([^,]+)", said.replace("\n", " "))[1])
        return sorted(name.replace("FILE:LINE", "FILE").replace("FILE", file) for name, file in zip(names, files))

    def edit(self, *words):
        """Runs an editor in the folder without a terminal; gives what it writes."""
        done = subprocess.run(words, cwd=self.folder, env=self.environment, stdin=subprocess.DEVNULL, stdout=subprocess.PIPE, stderr=subprocess.PIPE,
                              timeout=900, check=False)
        return done.stdout.decode("utf-8", "replace") + done.stderr.decode("utf-8", "replace")


class Page(Editor):
    def test_each_block_has_its_test(self):
        self.assertEqual(PAGE.untried(Vim, VsCode, Emacs), [])

    def test_each_form_of_a_line_is_answered_and_no_other_has_a_place(self):
        lines = self.answers().strip().split("\n")
        forms = []
        for told, _ in PAGE.rows("Line"):
            for template in re.findall(r"`([^`]+)`", told):
                form = re.escape(template.replace(".. ", "FILE:LINE:COLUMN: "))
                for word, pattern in (("FILE", "[a-z/.]+"), ("LINE", r"\d+"), ("COLUMN", r"\d+"), ("TEXT", ".+"), ("S7", r"[XDGS]\d+"),
                                      (r"6\.1", r"\d+\.\d+"), ("K11", r"[KC]\d+"), ("U1", r"U\d+")):
                    form = form.replace(word, pattern)
                forms.append(form)
                self.assertTrue(any(re.fullmatch(form, line) for line in lines), f"{template} is answered by none")
        self.assertEqual(len(forms), 8)
        for line in lines:
            if re.search(r":\d+:\d+", line):
                self.assertTrue(any(re.fullmatch(form, line) for form in forms), line)


class Vim(Editor):
    def vim(self, script):
        """Runs a script of lines as one types them."""
        self.put("script.vim", script)
        return self.edit("vim", "-es", "-N", "-u", "NONE", "-i", "NONE", "--cmd", f"set runtimepath^={self.folder}/.vim", "-c", "source script.vim", "-c", "qall!")

    @staticmethod
    def written(name):
        """The line that writes the list of places to a file."""
        return f"call writefile(map(filter(getqflist(), 'v:val.valid'), 'join([bufname(v:val.bufnr), v:val.lnum, v:val.col], \"|\")'), '{name}')\n"

    def listed(self, name):
        rows = {tuple(line.split("|")) for line in (self.folder / name).read_text().strip().split("\n")}
        return sorted((file, int(line), int(column)) for file, line, column in rows)

    @needs("vim")
    @PAGE.tries("vim", "vim", 0)
    def test_the_compiler(self, text):
        """Its forms on all answers; then the commands of the text: the compiler, `:make`, and from place to place."""
        self.put(".vim/compiler/p10.vim", text)
        self.put("answers", self.answers())
        compiler, make, following = re.search(r"Then `(:compiler[^`]+)` once, and `(:make)` in a source; `(:cnext)` goes", PAGE.text).groups()
        said = self.vim(f"{compiler}\ncgetfile answers\n{self.written('all')}edit sub/wrong.c\n{make}\n{self.written('made')}"
                        f"cfirst\n{following}\ncall writefile([join([expand('%'), line('.'), col('.')], '|')], 'at')\n")
        self.assertEqual(self.listed("all"), PLACES, said)
        self.assertEqual(self.listed("made"), [place[:3] for place in OF_WRONG])
        self.assertEqual(self.listed("at"), [OF_WRONG[2][:3]])

    @needs("vim")
    @PAGE.tries("vim", "vim", 1)
    def test_another_command(self, text):
        self.put(".vim/compiler/p10.vim", PAGE.blocks["vim", "vim", 0])
        said = self.vim(f"compiler! p10\nedit main.c\n{text}{self.written('verified')}")
        self.assertEqual(self.listed("verified"), [place[:3] for place in VERIFY], said)

    @needs("vim")
    def test_what_vim_knows_without_it(self):
        self.put("answers", self.unknown())
        said = self.vim(f"cgetfile answers\n{self.written('all')}")
        self.assertEqual([place[0] for place in self.listed("all")], self.named_without_it("vim", "main.c", "stopped.c"), said)


class VsCode(Editor):
    def matchers(self, text):
        return [[dict(matcher) for matcher in task["problemMatcher"]] for task in json.loads(text)["tasks"]]

    @PAGE.tries("VS Code", "json", 0)
    def test_members(self, text):
        """The members that VS Code's documentation asks for; groups that are there; folders in which the files are."""
        tasks = json.loads(text)
        self.assertEqual(schema.faults(tasks, "vscode-tasks"), [])
        owners = []
        for task in tasks["tasks"]:
            for matcher in task["problemMatcher"]:
                owners.append(matcher["owner"])
                groups = re.compile(matcher["pattern"]["regexp"]).groups
                named = [group for member, group in matcher["pattern"].items() if member != "regexp"]
                self.assertEqual(sorted(named), list(range(1, groups + 1)), "each group is named once")
                self.assertEqual(matcher["fileLocation"], ["autoDetect", task["options"]["cwd"]])
                self.assertTrue(("severity" in matcher) != ("severity" in matcher["pattern"]))
        self.assertEqual(len(set(owners)), len(owners))

    @PAGE.tries("VS Code", "json", 0)
    def test_tasks(self, text):
        """The commands of the tasks, as they stand there, and what their expressions find in it by Python's re."""
        lint, verify = json.loads(text)["tasks"]
        given = {"${relativeFile}": "sub/refused.c", "${workspaceFolder}": str(self.folder)}
        for task, places in ((lint, OF_REFUSED), (verify, VERIFY)):
            words = [given.get(word, word) for word in [task["command"]] + task["args"]]
            done = subprocess.run(words, cwd=given[task["options"]["cwd"]], env=self.environment, stdout=subprocess.PIPE, stderr=subprocess.STDOUT, check=False)
            self.assertEqual(self.found(task["problemMatcher"], done.stdout.decode(), self.by_python), places)

    @PAGE.tries("VS Code", "json", 0)
    def test_expressions_by_python(self, text):
        self.compare(text, self.by_python)

    @needs("node")
    @PAGE.tries("VS Code", "json", 0)
    def test_expressions_by_javascript(self, text):
        self.compare(text, self.by_node)

    def compare(self, text, match):
        """What each matcher finds in all answers."""
        lint, verify = [task["problemMatcher"] for task in json.loads(text)["tasks"]]
        answers = self.answers()
        self.assertEqual(self.found(lint, answers, match), LINT)
        for matcher, places in zip(verify, (CHECK, VERIFY, RUN)):
            self.assertEqual(self.found([matcher], answers, match), places, matcher["owner"])

    @staticmethod
    def found(matchers, text, match):
        """The problems of a text, as VS Code takes them from the groups: (file, line, column, severity, code)."""
        found = set()
        for matcher in matchers:
            pattern = matcher["pattern"]
            for groups in match(pattern["regexp"], text.strip().split("\n")):
                assert groups[pattern["message"]]
                severity = groups[pattern["severity"]] if "severity" in pattern else matcher["severity"]
                found.add((groups[pattern["file"]], int(groups[pattern["line"]]), int(groups[pattern["column"]]), severity,
                           groups[pattern["code"]] if "code" in pattern else None))
        return sorted(found, key=lambda place: place[:3])

    @staticmethod
    def by_python(expression, lines):
        return [[match[0], *match.groups()] for match in map(re.compile(expression).search, lines) if match]

    @staticmethod
    def by_node(expression, lines):
        script = "const [e, l] = JSON.parse(process.argv[1]); console.log(JSON.stringify(l.map(x => new RegExp(e).exec(x)).filter(x => x)))"
        done = subprocess.run(["node", "-e", script, json.dumps([expression, lines])], stdout=subprocess.PIPE, check=True, timeout=900)
        return json.loads(done.stdout)


LOOK = """(require 'compile)
(defun look ()
  "Tells the places of the buffer."
  (compilation--ensure-parse (point-max))
  (goto-char (point-min))
  (let (seen)
    (while (< (point) (point-max))
      (let ((message (get-text-property (point) 'compilation-message)))
        (when (and message (not (memq message seen)))
          (push message seen)
          (let* ((place (compilation--message->loc message)) (file (caar (compilation--loc->file-struct place))))
            (princ (format "at %s|%s|%s\\n" file (compilation--loc->line place) (compilation--loc->col place))))))
      (goto-char (next-single-property-change (point) 'compilation-message nil (point-max))))))
"""
ANSWERS = '(with-temp-buffer (insert-file-contents "answers") (compilation-mode) (look))\n'
COMPILE = """(let ((buffer (compile "%s")))
  (while (get-buffer-process buffer) (accept-process-output nil 0.1))
  (with-current-buffer buffer (look)))
"""


class Emacs(Editor):
    def emacs(self, *parts):
        """The places that Emacs sees."""
        self.put("look.el", LOOK + "".join(parts))
        said = self.edit("emacs", "-Q", "--batch", "-l", "look.el")
        places = re.findall(r"^at (.+)\|(\d+)\|(\d+|nil)$", said, re.MULTILINE)
        return sorted({(file, int(line), 0 if column == "nil" else int(column)) for file, line, column in places}), said

    @needs("emacs")
    @PAGE.tries("Emacs", "elisp", 0)
    def test_the_forms(self, text):
        """On all answers, and after `M-x compile`."""
        self.put("answers", self.answers())
        places, said = self.emacs(text, ANSWERS)
        self.assertEqual(places, PLACES, said)
        places, said = self.emacs(text, COMPILE % "p10 verify --cert main.p10 main.c; p10 run stopped.c")
        self.assertEqual(places, sorted(place[:3] for place in VERIFY + RUN[1:]), said)

    @needs("emacs")
    def test_what_emacs_knows_without_them(self):
        command = re.search(r"`M-x compile` with `([^`]+)` needs nothing of it", PAGE.text)[1]
        places, said = self.emacs(COMPILE % command)
        self.assertEqual(places, [("motor.c", 4, 9)], said)
        self.put("answers", self.unknown())
        places, said = self.emacs(ANSWERS)
        self.assertEqual([place[0] for place in places], self.named_without_it("Emacs", "main.c", "stopped.c:4"), said)
