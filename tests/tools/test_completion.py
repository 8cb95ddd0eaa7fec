"""The completions of bash and zsh: what they offer at a cursor, and that they know each option that --help tells."""
import re
import shutil
import subprocess
import unittest

from common import TOOLS, Case

FOLDER = TOOLS / "completion"
COMPANIONS = sorted(path.name for path in TOOLS.iterdir() if path.name.startswith("p10-"))


class Completions(Case):
    def setUp(self):
        super().setUp()
        self.write(main_c="", other_h="", main_p10="", main_su="")
        (self.folder / "inc").mkdir()

    CASES = [("p10 ", {"check", "derive", "verify", "run", "gen", "migrate", "recheck"}), ("p10 ver", {"verify"}), ("p10 recheck --s", {"--since"}),
             ("p10 recheck --since m", {"main.p10"}), ("p10 verify --c", {"--clean", "--cert"}),
             ("p10 derive --c", {"--cert-version"}), ("p10 derive --d", {"--diff"}), ("p10 derive --cert-version ", {"1", "2"}), ("p10 migrate --cert m", {"main.p10"}),
             ("p10 check --format ", {"text", "json"}), ("p10 check m", {"main.c"}), ("p10 verify --cert m", {"main.p10"}),
             ("p10 run --t", {"--turns"}), ("p10-lint --format s", {"sarif"}), ("p10-lint --fo", {"--format"}), ("p10-report --ti", {"--title"}),
             ("p10-stack --no", {"--no-interrupts"}), ("p10-stack m", {"main.c"}), ("p10-lint --include i", {"inc"})]

    @unittest.skipUnless(shutil.which("bash"), "no bash")
    def test_bash(self):
        for line, wanted in self.CASES:
            words = line.split(" ")
            script = (f'source "{FOLDER}/p10.bash"; COMP_WORDS=({" ".join(repr(w) for w in words)}); COMP_CWORD={len(words) - 1}; _p10; '
                      'printf "%s\\n" "${COMPREPLY[@]}"')
            done = subprocess.run(["bash", "--norc", "-c", script], cwd=self.folder, stdout=subprocess.PIPE, stderr=subprocess.PIPE, check=False)
            offered = set(done.stdout.decode().split())
            self.assertEqual({o for o in offered if o != "inc"} if wanted != {"inc"} else offered, wanted, line + done.stderr.decode())

    @unittest.skipUnless(shutil.which("zsh"), "no zsh")
    def test_zsh(self):
        """In a terminal of zsh's own: each line, a tab, and the words that are offered then."""
        self.put("look.zsh", LOOK)
        done = subprocess.run(["zsh", "-f", "look.zsh", str(FOLDER)] + [line for line, _ in self.CASES], cwd=self.folder, stdout=subprocess.PIPE,
                              stderr=subprocess.PIPE, timeout=900, check=False)
        offers = done.stdout.decode().split("\n")
        for (line, wanted), words in zip(self.CASES, offers):
            offered = {word.rstrip("/") for word in words.split()}
            self.assertEqual(offered - ({"inc"} if wanted != {"inc"} else set()), wanted, line + done.stderr.decode())
        self.assertEqual(len(offers), len(self.CASES) + 1)

    def test_each_option_is_known(self):
        bash, zsh = (FOLDER / "p10.bash").read_text(), (FOLDER / "_p10").read_text()
        for tool in COMPANIONS:
            options = set(re.findall(r"^  (?:-\w(?: \w+)?, )?(--[a-z0-9-]+)", self.run_tool(tool, "--help")[0], re.MULTILINE))
            self.assertGreater(len(options), 5)
            offered = re.search(rf"^ +{tool}:\*\) options='([^']*)'", bash, re.MULTILINE)[1].split()
            self.assertEqual(set(offered), options, tool)
            part = zsh[zsh.index(f"\n{tool})"):].split(";;")[0] + zsh[:zsh.index("case $service")]
            for option in options:
                self.assertIn(option, part, tool)


LOOK = r"""
zmodload zsh/zpty
folder=$1
shift
# What would be offered is written to a file, too; a tab writes one that says that it is done.
print -r -- 'fpath=('${(q)folder}' $fpath); autoload -Uz compinit; compinit -u -d ./zcompdump; PS1=; setopt nobeep
compadd() {
    if [[ ${@[1,(i)(-|--)]} == *-(O|A|D)\ * ]]; then builtin compadd "$@"; return; fi
    typeset -a hits; builtin compadd -A hits "$@"; (( $#hits )) && print -r -l -- $hits >> ./offers
    builtin compadd "$@"
}
look() { zle complete-word; zle kill-whole-line; : > ./done }
zle -N look
bindkey "^I" look
: > ./done' > ./init.zsh
wait_for_it() { for i in {1..600}; do [[ -e ./done ]] && break; sleep 0.1; done; rm -f ./done }
zpty shell zsh -f -i
zpty -w shell "cd ${(q)PWD} && source ./init.zsh"
wait_for_it
for line; do
    : > ./offers
    zpty -w -n shell "$line"$'\t'
    wait_for_it
    print -r -- ${(u)${(f)"$(<./offers)"}}
done
zpty -d shell
"""
