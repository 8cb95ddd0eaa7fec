"""docs/ci.md: each block and each command as it stands there, on the program of examples/flight."""
import json
import os
import re
import subprocess
import xml.etree.ElementTree

import schema
import small_yaml
from common import ROOT, TOOLS, Case
from documents import Document, needs

PAGE = Document("ci.md")
FLIGHT = ROOT / "examples" / "flight"


class Firmware(Case):
    """The folder that the page describes."""

    def setUp(self):
        super().setUp()
        for name in ("downlink.c", "queue.c"):
            self.put(f"src/{name}", (FLIGHT / name).read_text())
        self.put("inc/queue.h", (FLIGHT / "queue.h").read_text())
        self.put("firmware.p10", (FLIGHT / "downlink.p10").read_text())
        self.put("bin/p10", f'#!/bin/sh\nexec "{os.environ["P10"]}" "$@"\n').chmod(0o755)
        self.environment = {**os.environ, "PATH": f"{self.folder / 'bin'}:{TOOLS}:{os.environ['PATH']}", "CI_PROJECT_DIR": str(self.folder),
                            "GITHUB_WORKSPACE": str(self.folder), "GITHUB_PATH": str(self.folder / "github-path")}

    def shell(self, *words, status=0):
        """Runs a command in the folder; gives what it writes. Any status but 0 does where None is given."""
        done = subprocess.run(words, cwd=self.folder, env=self.environment, stdin=subprocess.DEVNULL, stdout=subprocess.PIPE,
                              stderr=subprocess.STDOUT, check=False)
        out = done.stdout.decode("utf-8", "replace")
        if status is None:
            self.assertNotEqual(done.returncode, 0, out)
        else:
            self.assertEqual(done.returncode, status, out)
        return out

    def script(self, lines, status=0):
        """Runs lines as a pipeline's shell does."""
        return self.shell("bash", "-eo", "pipefail", "-c", "\n".join(lines), status=status)

    def spoil(self, name):
        """Puts something refused into a file, with a newer time."""
        path = self.folder / name
        path.write_text(path.read_text().replace("#endif", "static float spoiled;\n#endif") if name.endswith(".h") else
                        path.read_text() + "static float spoiled;\n")
        later = path.stat().st_mtime + 5
        os.utime(path, (later, later))


class Page(Firmware):
    def test_each_block_has_its_test(self):
        self.assertEqual(PAGE.untried(Builds, Pipelines), [])

    def test_each_command_of_the_table(self):
        commands = [row[0].strip("`") for row in PAGE.rows("Command")]
        self.assertEqual(len(commands), 4)
        self.script(commands)
        self.assertIn("Bounded", (self.folder / "report.html").read_text())
        (self.folder / "firmware.p10").unlink()
        self.script([command for command in commands if ">" in command])
        self.assertEqual((self.folder / "firmware.p10").read_text().split("\n")[0], "p10cert 1")

    def test_a_budget(self):
        """A dearer turn is refused until the claim is raised."""
        path = self.folder / "src" / "downlink.c"
        verify = next(row[0].strip("`") for row in PAGE.rows("Command") if "verify" in row[0])
        path.write_text(path.read_text().replace("    (void)putchar(", "    (void)putchar(0);\n    (void)putchar(", 1))
        self.assertRegex(self.shell("bash", "-c", verify, status=1), r"refused: K\d+ src/downlink\.c:")

    def test_each_status_of_p10_lint(self):
        self.write(clean_c=(FLIGHT / "downlink.c").read_text(), broken_c="int main(void) { return 0; }\n", refused_c="float x;\n",
                   limit_c="/*" + "x" * (1 << 20) + "*/\n")
        shown = {"0": "--include inc clean.c src/queue.c", "1": "broken.c", "3": "refused.c", "2": "--format xml broken.c", "5": ".", "8": "limit.c",
                 "9": "absent.c"}
        told = [status for row in PAGE.rows("Status of `p10-lint`") for status in row[0].split(", ")]
        self.assertEqual(sorted(told), sorted(list(shown) + ["7"]))
        for status, words in shown.items():
            self.shell("p10-lint", *words.split(" "), status=int(status))
        self.put("bin/p10", '#!/bin/sh\necho "p10: out of memory" >&2\nexit 7\n').chmod(0o755)
        self.environment["P10"] = str(self.folder / "bin" / "p10")
        self.assertIn("broken.c: p10: out of memory", self.shell("p10-lint", "broken.c", status=7))


class Builds(Firmware):
    @needs("make")
    @PAGE.tries("make", "make")
    def test_make(self, text):
        self.put("Makefile", text)
        self.shell("make")
        self.assertIn("Bounded", (self.folder / "report.html").read_text())
        self.assertIn("inc/queue.h", (self.folder / "firmware.checked.d").read_text())
        self.assertIn("Nothing to be done", self.shell("make", "all"))
        self.spoil("inc/queue.h")
        self.assertIn("error: [S19]", self.shell("make", status=None))
        self.assertFalse((self.folder / "firmware.checked").exists())
        self.assertIn("error: [S19]", self.shell("make", status=None))

    @needs("cmake", "cc", "make")
    @PAGE.tries("CMake", "cmake")
    def test_cmake_with_make(self, text):
        self.build_twice(text, "Unix Makefiles")

    @needs("cmake", "cc", "ninja")
    @PAGE.tries("CMake", "cmake")
    def test_cmake_with_ninja(self, text):
        self.build_twice(text, "Ninja")

    def build_twice(self, text, generator):
        """A build, and one after a header has become refused."""
        self.put("CMakeLists.txt", text)
        self.shell("cmake", "-G", generator, "-B", "build", "-S", ".")
        self.shell("cmake", "--build", "build")
        self.assertTrue((self.folder / "build" / "firmware.verified").exists())
        self.spoil("inc/queue.h")
        self.assertIn("error: [S19]", self.shell("cmake", "--build", "build", status=None))

    @needs("cmake", "cc", "make")
    @PAGE.tries("CMake", "sh")
    def test_compile_commands_of_cmake(self, text):
        setting = re.search(r"`(set\(CMAKE_EXPORT_COMPILE_COMMANDS ON\))`", PAGE.text)[1]
        self.put("CMakeLists.txt", f"cmake_minimum_required(VERSION 3.20)\nproject(firmware C)\n{setting}\n"
                 "add_library(firmware src/downlink.c src/queue.c)\ntarget_include_directories(firmware PRIVATE inc)\n")
        self.shell("cmake", "-G", "Unix Makefiles", "-B", "build", "-S", ".")
        self.script([text])
        self.spoil("src/queue.c")
        self.script([text], status=3)

    @needs("git")
    @PAGE.tries("A hook for git", "bash")
    def test_a_hook_for_git(self, text):
        self.shell("git", "init", "-q", ".")
        for name, value in (("user.email", "a@b.c"), ("user.name", "a"), ("core.hooksPath", ".git/hooks")):
            self.shell("git", "config", name, value)
        self.put(".git/hooks/pre-commit", text).chmod(0o755)
        self.put("src/bad one.c", "int f(int x) { return x = 1; }\n")
        self.shell("git", "add", "src/downlink.c", "inc", "firmware.p10")
        self.shell("git", "commit", "-q", "-m", "clean")
        self.shell("git", "add", "src/bad one.c")
        self.assertIn("src/bad one.c:1:23: error: [S7]", self.shell("git", "commit", "-q", "-m", "bad", status=None))
        self.put("src/bad one.c", "/* mended, but not staged */\n")
        self.assertIn("error: [S7]", self.shell("git", "commit", "-q", "-m", "bad", status=None))


class Pipelines(Firmware):
    @PAGE.tries("GitHub", "yaml")
    def test_members_of_github(self, text):
        """As GitHub's documentation wants them; the file that is sent is the one that a step has written."""
        workflow = self.members(text, "github-workflow")
        steps = workflow["jobs"]["p10"]["steps"]
        written = " ".join(step.get("run", "") for step in steps)
        sent = [value for step in steps for name, value in step.get("with", {}).items() if name in ("sarif_file", "path")]
        self.assertEqual(len(sent), 2)
        for name in sent:
            self.assertIn(f"-o {name} ", written)
        self.assertEqual(workflow["permissions"]["security-events"], "write")  # what upload-sarif asks for

    @PAGE.tries("GitHub", "yaml")
    def test_steps_of_github(self, text):
        steps = [step["run"] for step in small_yaml.read(text)["jobs"]["p10"]["steps"] if "run" in step]
        self.assertEqual(len(steps), 5)
        for step in steps:
            self.script([step])
        log = json.loads((self.folder / "p10.sarif").read_text())
        self.assertEqual(log["runs"][0]["results"], [])
        self.assertEqual((self.folder / "github-path").read_text(), "".join(f"{self.folder}/third_party/p10{end}\n" for end in ("", "/tools")))
        self.assertTrue((self.folder / "report.html").exists())
        self.spoil("src/queue.c")
        self.script([step for step in steps if step.startswith("p10-lint")], status=3)
        log = json.loads((self.folder / "p10.sarif").read_text())
        self.assertEqual(log["runs"][0]["results"][0]["ruleId"], "S19")
        self.assertEqual(schema.faults(log, "sarif-2.1.0"), [])

    @PAGE.tries("GitLab", "yaml")
    def test_members_of_gitlab(self, text):
        """As GitLab's documentation wants them; each artifact is a file that the script has written."""
        job = self.members(text, "gitlab-ci")["p10"]
        written = " ".join(job["script"])
        for name in job["artifacts"]["paths"] + list(job["artifacts"]["reports"].values()):
            self.assertIn(f"-o {name} ", written)

    @PAGE.tries("GitLab", "yaml")
    def test_script_of_gitlab(self, text):
        job = small_yaml.read(text)["p10"]
        lines = job["before_script"] + job["script"]
        self.assertEqual(len(lines), 5)
        self.script(lines)
        self.assertEqual(json.loads((self.folder / "gl-code-quality-report.json").read_text()), [])
        self.assertEqual(xml.etree.ElementTree.parse(self.folder / "p10.xml").getroot().find("testsuite").get("failures"), "0")
        self.spoil("src/queue.c")
        self.script(lines, status=3)
        report = json.loads((self.folder / "gl-code-quality-report.json").read_text())
        self.assertEqual(schema.faults(report, "gitlab-code-quality"), [])
        self.assertIn("S19", [issue["check_name"] for issue in report])

    def members(self, text, name):
        """The value of a block, which has the members of this schema."""
        value = small_yaml.read(text)
        self.assertEqual(schema.faults(value, name), [])
        return value

    def test_the_reader_reads_as_pyyaml(self):
        try:
            import yaml
        except ImportError:
            self.skipTest("no PyYAML")
        for key, text in PAGE.blocks.items():
            if key[1] == "yaml":
                self.assertEqual(small_yaml.read(text), yaml.load(text, Loader=yaml.BaseLoader))

    def test_the_reader_refuses_what_it_doesnt_know(self):
        for text in ("a: 'x'\n", "a: b: c\n", "a:\n", "a: b\na: c\n", "- a\nb: c\n", "a: {b: c}\n", "a: |\n  b\n", "a: b # c\n", "a: b\n  c: d\n", "a: &b c\n"):
            self.assertRaises(ValueError, small_yaml.read, text)

    def test_the_schemas_refuse_what_is_wrong(self):
        """A member that isn't known, one that is absent, and a value that isn't allowed, put into the pages' blocks."""
        github, gitlab = PAGE.blocks["GitHub", "yaml", 0], PAGE.blocks["GitLab", "yaml", 0]
        for name, text, old, new in (("github-workflow", github, "runs-on:", "run-on:"), ("github-workflow", github, "on: [push,", "on: [pushed,"),
                                     ("github-workflow", github, "- uses: actions/checkout@v4", "- uses: checkout"), ("github-workflow", github, "jobs:", "job:"),
                                     ("github-workflow", github, "        if: always()", "        run: true"), ("github-workflow", github, "contents: read", "contents: all"),
                                     ("gitlab-ci", gitlab, "  script:", "  scripts:"), ("gitlab-ci", gitlab, "when: always", "when: sometimes"),
                                     ("gitlab-ci", gitlab, "codequality:", "code_quality:"), ("gitlab-ci", gitlab, "artifacts:", "artifact:")):
            self.assertIn(old, text)
            self.assertTrue(schema.faults(small_yaml.read(text.replace(old, new)), name), new)
