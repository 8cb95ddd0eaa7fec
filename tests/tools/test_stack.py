"""p10-stack: chains counted by hand, what is asked for, and of which input it says that it is bad."""
import shutil
import subprocess
import unittest

from common import ROOT, Case

SOURCE = """#include <stdio.h>

static int leaf(int x)
{
    return x;
}

static int deep(int x)
{
    return leaf(x);
}

void timer(void)
{
    (void)leaf(1);
}

int main(void)
{
    int a = deep(1);
    (void)putchar(a);
    return 0;
}
"""
FRAMES = "a.c:3:12:leaf\t24\tstatic\na.c:8:12:deep\t40\tstatic\na.c:13:6:timer\t16\tstatic\na.c:18:5:main\t32\tstatic\n"
ALL = ["--library", "putchar=100", "--runtime", "0", "--no-interrupts"]


class Chains(Case):
    def setUp(self):
        super().setUp()
        self.write(a_c=SOURCE)
        self.put("a.su", FRAMES)

    def told(self, *words, status=0):
        out, _, _ = self.run_tool("p10-stack", "--su", "a.su", *words, "a.c", status=status)
        return out

    def test_the_deepest_chain(self):
        out = self.told(*ALL)
        self.assertIn("main: 132 bytes\n", out)  # 32 + 100 of putchar, where 32 + 40 + 24 is less
        self.assertRegex(out, r"    main +32  a\.c:18\n    putchar +100  --library\n")
        out = self.told("--library", "putchar=10", "--runtime", "0", "--no-interrupts")
        self.assertIn("main: 96 bytes\n", out)
        self.assertRegex(out, r"    main +32  a\.c:18\n    deep +40  a\.c:8\n    leaf +24  a\.c:3\n")

    def test_what_the_compiler_puts_in_comes_at_the_end_of_each_chain(self):
        self.assertIn("main: 104 bytes\n", self.told("--library", "putchar=10", "--runtime", "8", "--no-interrupts"))

    def test_interrupts_come_on_top(self):
        out = self.told("--library", "putchar=10", "--runtime", "0", "--interrupt", "timer=32")
        self.assertIn("interrupt timer: 72 bytes, of which the hardware pushes 32\n", out)  # 16 + 24 + 32
        self.assertIn("main: 96 bytes; with interrupts 168 bytes\n", out)

    def test_another_entry_point(self):
        self.assertIn("note: timer is called by nothing", self.told(*ALL))
        out = self.told(*ALL, "--entry", "timer")
        self.assertIn("timer: 40 bytes\n", out)
        self.assertNotIn("called by nothing", out)

    def test_what_isnt_said_is_asked_for(self):
        out = self.told(status=1)
        for option in ("--library putchar=BYTES", "--runtime BYTES", "--interrupt NAME=BYTES, or --no-interrupts"):
            self.assertIn(option, out)

    def test_a_function_without_a_line(self):
        self.put("a.su", FRAMES.replace("a.c:8:12:deep\t40\tstatic\n", ""))
        self.assertIn("missing: deep has no line in the .su files; if it is put into its callers: --inlined deep", self.told(*ALL, status=1))
        self.assertIn("main: 132 bytes", self.told(*ALL, "--inlined", "deep"))

    def test_frames_that_are_dynamic_or_bounded(self):
        self.put("a.su", FRAMES.replace("leaf\t24\tstatic", "leaf\t24\tdynamic"))
        self.assertIn("missing: leaf has a dynamic frame, which its .su line doesn't bound (24 bytes and more)", self.told(*ALL, status=1))
        self.put("a.su", FRAMES.replace("leaf\t24\tstatic", "leaf\t24\tdynamic,bounded"))
        self.assertIn("note: leaf has a dynamic frame that gcc bounds by 24 bytes", self.told(*ALL))

    def test_clones_and_parts(self):
        self.put("a.su", FRAMES.replace(":leaf\t24", ":leaf.constprop.0\t80") + "a.c:8:12:deep.part.0\t8\tstatic\n")
        self.assertIn("main: 160 bytes\n", self.told("--library", "putchar=10", "--runtime", "0", "--no-interrupts"))  # 32 + 40 + 8 + 80

    @unittest.skipUnless(shutil.which("gcc"), "no gcc")
    def test_what_gcc_writes(self):
        subprocess.run(["gcc", "-O0", "-fstack-usage", "-c", "a.c", "-o", "x.o"], cwd=self.folder, check=True)
        frames = {line.split("\t")[0].split(":")[3]: int(line.split("\t")[1]) for line in (self.folder / "x.su").read_text().strip().split("\n")}
        out, _, _ = self.run_tool("p10-stack", "--su", "x.su", "--library", "putchar=1", "--runtime", "0", "--no-interrupts", "a.c", status=0)
        self.assertIn(f"main: {frames['main'] + frames['deep'] + frames['leaf']} bytes\n", out)

    def test_a_certificate(self):
        self.put("a.p10", self.p10("derive", "a.c")[0])
        self.assertIn("main: 132 bytes", self.told(*ALL, "--cert", "a.p10"))
        self.put("a.p10", (ROOT / "examples" / "bounds" / "sum.p10").read_text())
        self.one_line(self.run_tool("p10-stack", "--su", "a.su", "--cert", "a.p10", "a.c", status=2)[1], "doesn't accept the certificate", "K1")

    def test_recursion_has_no_certificate(self):
        self.write(a_c="static int f(int x) { return x > 0 ? f(x - 1) : 0; }\nint main(void) { return f(1); }\n")
        self.one_line(self.run_tool("p10-stack", "--su", "a.su", *ALL, "a.c", status=2)[1], "derive finds no certificate", "1.3")


class BadInput(Case):
    def setUp(self):
        super().setUp()
        self.write(a_c=SOURCE)
        self.put("a.su", FRAMES)

    def bad(self, said, *words, status=2):
        self.one_line(self.run_tool("p10-stack", *words, status=status)[1], said)

    def test_lines_that_say_what_is_wrong(self):
        self.bad("absent: b.su", "--su", "b.su", "a.c", status=9)
        self.bad("absent: b.c", "--su", "a.su", "b.c", status=9)
        self.bad("absent: c.p10", "--su", "a.su", "--cert", "c.p10", "a.c", status=9)
        self.bad("no program 'nowhere'", "--p10", "nowhere", "--su", "a.su", "a.c")
        self.bad("NAME=BYTES is wanted", "--su", "a.su", "--library", "putchar", "a.c")
        self.bad("a number of bytes is wanted", "--su", "a.su", "--runtime", "1x", "a.c")
        self.bad("no function nothing in the sources", "--su", "a.su", "--entry", "nothing", "a.c")
        (self.folder / "empty").mkdir()
        self.bad("no .su file in empty", "--su", "empty", "a.c")
        self.put("b.su", "a.c:3:12:leaf 24 static\n")
        self.bad("b.su:1: no line of -fstack-usage", "--su", "b.su", "a.c")
        self.put("big.c", "/*" + "x" * (1 << 20) + "*/\n")
        self.bad("limit M1", "--su", "a.su", "big.c", status=8)
        self.bad("read fault", "--su", "a.su", "--cert", ".", "a.c", status=5)
        self.run_tool("p10-stack", "a.c", status=2)

    def test_lines_of_other_sources(self):
        self.put("a.su", FRAMES.replace("a.c:3:12", "a.c:4:12"))
        self.bad("of other sources: leaf stands at a.c:4 there, and at a.c:3 here", "--su", "a.su", *ALL, "a.c")

    def test_names_with_blanks_and_other_letters(self):
        self.put("größe 1.c", SOURCE)
        self.put("größe 1.su", FRAMES.replace("a.c:", "größe 1.c:"))
        self.assertIn("main: 132 bytes", self.run_tool("p10-stack", "--su", "größe 1.su", *ALL, "größe 1.c", status=0)[0])
