"""p10-lint: what it tells, in which forms, and of which input it says that it is bad."""
import json
import os
import re
import subprocess
import xml.etree.ElementTree
from pathlib import Path

import schema
from common import ROOT, Case

PORTING = ROOT / "tests" / "porting"
LINE = re.compile(r"^(.+):(\d+):(\d+): (error|warning|note): (?:\[([^\]]+)\] )?(.+)$")
CLEAN = """#include <assert.h>
int main(void) {
    int x = 1;
    assert(x > 0);
    assert(x < 2);
    return x;
}
"""
TWO = """static int g(int a) { if (a = 1) { return a; } return 0; }
static float h(int a) { return a; }
int main(void) { int i = 0; i = i++; return g(i) + (int)h(i); }
"""


def found(out):
    """The lines as (file, line, column, kind, code)."""
    return [(m[1], int(m[2]), int(m[3]), m[4], m[5]) for m in map(LINE.match, out.strip().split("\n"))]


class Refusals(Case):
    def test_one_run_tells_most_refusals_of_firmware(self):
        """At least four fifths of what is met one at a time by hand (tests/porting/rounds), which stands in tests/porting/met."""
        met = {tuple(line.split(" ")[1:]) for line in (PORTING / "met").read_text().strip().split("\n")}
        modules = sorted(path.name for path in PORTING.glob("*.c"))
        self.assertEqual(len(modules), 12)
        out, _, _ = self.run_tool("p10-lint", "--library", *modules, folder=PORTING, status=3)
        told = {(f"{file}:{line}:{column}", code) for file, line, column, kind, code in found(out) if kind == "error"}
        self.assertGreaterEqual(len(met & told), 0.8 * len(met), sorted(met - told))
        self.assertGreater(len(met), 125)

    def test_the_list_of_what_is_met_is_fresh(self):
        """Two modules again, one refusal after the other; `tests/porting/rounds PROGRAM` does all."""
        done = subprocess.run([str(PORTING / "rounds"), os.environ["P10"], "crc", "fixed"], stdout=subprocess.PIPE, check=True)
        kept = [line for line in (PORTING / "met").read_text().strip().split("\n") if line.split(" ")[0] in ("crc", "fixed")]
        self.assertEqual(done.stdout.decode().strip().split("\n"), kept)

    def test_first_refusals_of_all_functions_at_their_places(self):
        self.write(a_c=TWO)
        out, err, _ = self.run_tool("p10-lint", "a.c", status=3)
        errors = [f for f in found(out) if f[3] == "error"]
        self.assertEqual(errors, [("a.c", 1, 27, "error", "S7"), ("a.c", 2, 8, "error", "S19"), ("a.c", 3, 33, "error", "S7"),
                                  ("a.c", 3, 45, "error", "S9")])
        self.assertIn("4 refusals", err)

    def test_what_p10_tells_is_told_too(self):
        self.write(a_c=TWO)
        first = re.search(r"^(a\.c:\d+:\d+): refused (\w+): (.*)$", self.p10("check", "a.c")[0], re.MULTILINE)
        self.assertIn(f"{first[1]}: error: [{first[2]}] {first[3]}\n", self.run_tool("p10-lint", "a.c")[0])

    def test_violations_of_what_is_left(self):
        self.write(a_c=CLEAN.replace("int x = 1;", "int x = 1;\n    int unused;\n    goto end;\nend:\n    x = x++;"))
        out, _, _ = self.run_tool("p10-lint", "a.c", status=3)
        told = {(line, code) for _, line, _, _, code in found(out)}
        self.assertLessEqual({(4, "rule 10.1"), (5, "S29"), (5, "rule 1.1"), (6, "rule 1.1"), (7, "S7")}, told)

    def test_nothing_comes_of_what_was_set_aside(self):
        self.write(a_c=CLEAN.replace("int x = 1;", "int x = 1;\n    double y = 2;\n    float z[2] = {y, x};\n    y = z[0];"))
        out, _, _ = self.run_tool("p10-lint", "a.c", status=3)
        self.assertEqual([f[1:] for f in found(out)], [(4, 5, "error", "S19"), (5, 5, "error", "S19")])

    def test_a_register_in_a_macro_is_told_where_it_is_used_and_where_it_is_defined(self):
        """What stands round the use isn't told, as `& 4u` would be if the use were dropped."""
        self.write(a_c="""#define STATUS (*(volatile unsigned *)0x40011000u)
#define IO volatile
static struct { IO unsigned control; } port;
int main(void) {
    if (STATUS & 4u) { return 1; }
    STATUS |= 1u;
    return port.control > 1u;
}
""")
        out, _, _ = self.run_tool("p10-lint", "a.c", status=3)
        self.assertEqual([f for f in found(out) if f[3] != "warning"], [
            ("a.c", 3, 17, "error", "S22"), ("a.c", 2, 9, "note", None), ("a.c", 5, 9, "error", "S22"), ("a.c", 1, 9, "note", None),
            ("a.c", 6, 5, "error", "S22"), ("a.c", 1, 9, "note", None)])
        self.assertIn("macro `STATUS` is defined here", out)

    def test_what_isnt_c_goes_alone(self):
        """An attribute after `struct`, and an assertion of C11 with its `;`."""
        self.write(a_c="""typedef struct __attribute__((packed)) { int a; } pair;
_Static_assert(sizeof(pair) == 4, "size");
int main(void) { pair p = {1}; return p.a; }
""")
        out, _, _ = self.run_tool("p10-lint", "a.c", status=3)
        self.assertEqual([f[:3] + f[4:] for f in found(out) if f[3] == "error"], [("a.c", 1, 51, "G1"), ("a.c", 2, 1, "G1")])

    def test_a_name_in_a_macro_that_was_set_aside_isnt_told(self):
        self.write(a_c="""#define LENGTH(a) (sizeof(a) / sizeof((a)[0]))
extern int table[];
int main(void) { return LENGTH(table) > 1u; }
""")
        out, _, _ = self.run_tool("p10-lint", "a.c", status=3)
        self.assertEqual([f[4] for f in found(out) if f[3] == "error"], ["S25"])

    def test_several_types_that_nothing_declares_in_one_function(self):
        """Each is told by a note; what is refused since they are taken for `int` isn't told."""
        self.write(a_c="""int load(FILE *from, int level)
{
    handle_t handle;
    handle.level = level;
    return level++;
}
int main(void) { return 0; }
""")
        out, _, _ = self.run_tool("p10-lint", "a.c", status=3)
        self.assertEqual([f for f in found(out) if f[3] != "warning"], [
            ("a.c", 1, 1, "error", "G1"), ("a.c", 1, 10, "note", None), ("a.c", 3, 14, "note", None), ("a.c", 5, 12, "error", "S7")])
        self.assertIn("nothing declares `FILE`", out)
        self.assertIn("nothing declares `handle_t`", out)

    def test_a_parameter_list_that_no_type_mends(self):
        self.write(a_c="int load(FILE *from @ int level) { return level; }\nint main(void) { return 0; }\n")
        self.assertIn("[X1]", self.run_tool("p10-lint", "a.c", status=3)[0])
        self.write(a_c="int load(FILE *from; int level)\n{ int a; return a + ; }\nint main(void) { return 0; }\n")
        self.assertIn("[G1]", self.run_tool("p10-lint", "a.c", status=3)[0])

    def test_a_qualifier_that_nothing_declares(self):
        self.write(a_c="""static int last(z_const unsigned char *text, int count)
{
    return text[count--];
}
int main(void) { return 0; }
""")
        out, _, _ = self.run_tool("p10-lint", "a.c", status=3)
        self.assertEqual([f[:3] + f[4:] for f in found(out) if f[3] == "error"], [("a.c", 1, 1, "G1"), ("a.c", 3, 17, "S7")])

    def test_a_clean_program_and_statuses(self):
        self.write(a_c=CLEAN, b_c="int main(void) { return 0; }\n")
        self.assertEqual(self.run_tool("p10-lint", "-q", "a.c", status=0)[:2], ("", ""))
        self.assertEqual(self.run_tool("p10-lint", "-q", "b.c", status=1)[0],
                         "b.c:1:5: warning: [rule 5.1] fewer than two assertions per function\n")

    def test_violations_are_those_of_check(self):
        rules = ROOT / "examples" / "rules"
        wanted = self.p10("check", "watch.c", folder=rules)[0].strip().split("\n")
        out, _, _ = self.run_tool("p10-lint", "-q", "watch.c", folder=rules, status=1)
        self.assertEqual([re.sub(r"warning: \[rule ([\d.]+)\]", r"rule \1:", line) for line in out.strip().split("\n")], wanted)

    def test_a_hint_where_the_grammar_ends(self):
        self.write(a_c="int f(void) {\n    int x = 3;\n    x = (x + 1;\n    return x;\n}\nint main(void) { return f(); }\n")
        out, _, _ = self.run_tool("p10-lint", "a.c", status=3)
        self.assertIn(("a.c", 1, 1, "error", "G1"), found(out))
        self.assertRegex(out, r"a\.c:3:15: note: it goes wrong at `;`")
        self.assertIn("a.c:3:9: note: this `(` has no partner", out)
        self.write(a_c="int f(void) {\n    int x = 3);\n    return x;\n}\nint main(void) { return f(); }\n")
        self.assertIn("a.c:2:14: note: this `)` has no partner", self.run_tool("p10-lint", "a.c", status=3)[0])
        self.write(a_c="int main(void) {\n    if (1) {\n    return 0;\n}\n")
        self.assertIn("a.c:1:16: note: this `{` has no partner", self.run_tool("p10-lint", "a.c", status=3)[0])

    def test_a_library_needs_no_main_and_no_other_module(self):
        self.write(a_c="int other(int x);\nint f(int x) { return other(x) + (x = 1); }\n")
        out, _, _ = self.run_tool("p10-lint", "--library", "a.c", status=3)
        self.assertEqual([f[4] for f in found(out) if f[3] == "error"], ["S7"])
        out, _, _ = self.run_tool("p10-lint", "a.c", status=3)
        self.assertEqual(sorted(f[4] for f in found(out) if f[3] == "error"), ["S27", "S28", "S7"])

    def test_a_library_isnt_told_of_what_other_modules_may_do(self):
        self.write(a_c="int shared;\nstatic int own;\nint f(void) { own = 1; shared = own; return 1; }\n")
        out, _, _ = self.run_tool("p10-lint", "--library", "a.c", status=1)
        self.assertEqual([f[1:] for f in found(out)], [(2, 12, "warning", "rule 6.1")])
        self.assertEqual([f[4] for f in found(self.run_tool("p10-lint", "a.c")[0]) if f[4] in ("rule 6.1", "rule 5.1")],
                         ["rule 6.1", "rule 6.1", "rule 5.1"])

    def test_a_header_is_told_once(self):
        self.write(t_h="struct t { float x; };\n", a_c='#include "t.h"\n', b_c='#include "t.h"\n')
        out, _, _ = self.run_tool("p10-lint", "--library", "a.c", "b.c", status=3)
        self.assertEqual([f for f in found(out) if f[3] == "error"], [("t.h", 1, 12, "error", "S19")])

    def test_includes_from_directories_beside_and_above(self):
        self.put("inc/lib.h", "struct lib { double x; };\n")
        self.put("src/sub/near.h", '#include "../../top.h"\n#include <lib.h>\n')
        self.put("top.h", "union u { int a; };\n")
        self.put("src/a.c", '#include "sub/near.h"\n')
        out, _, _ = self.run_tool("p10-lint", "--library", "-I", "inc", "src/a.c", status=3)
        self.assertEqual([(os.path.normpath(f[0]), f[4]) for f in found(out) if f[3] == "error"], [("top.h", "S20"), ("inc/lib.h", "S19")])

    def test_an_include_by_its_whole_name(self):
        header = self.put("whole.h", "struct t { float x; };\n")
        self.write(a_c=f'#include "{header}"\nint f(int x) {{ return x = 1; }}\n')
        out, _, _ = self.run_tool("p10-lint", "--library", "a.c", status=3)
        self.assertEqual([f[:3] + f[4:] for f in found(out) if f[3] == "error"], [("a.c", 2, 23, "S7"), (str(header), 1, 12, "S19")])

    def test_a_macro_of_the_command_line(self):
        self.write(a_c="#if SPEED == 3\nint f(void) { return SPEED = 1; }\n#endif\n")
        self.assertNotIn("error", self.run_tool("p10-lint", "--library", "a.c")[0])
        self.assertIn("a.c:2:22: error:", self.run_tool("p10-lint", "--library", "-DSPEED=3", "a.c", status=3)[0])


def members(value):
    """Each object or list in a value, with each of its keys."""
    if isinstance(value, (dict, list)):
        for key, member in list(value.items() if isinstance(value, dict) else enumerate(value)):
            yield value, key
            yield from members(member)


class Forms(Case):
    def setUp(self):
        super().setUp()
        self.write(a_c=TWO, wrong_c="int main(void) {\n    return (1;\n}\n")
        self.put('b "é\'.c', "/* é */ static int f(int x) { return x = 1; }\n")

    def test_lines_as_gcc_has_them(self):
        out, _, _ = self.run_tool("p10-lint", "--library", "a.c", 'b "é\'.c', status=3)
        self.assertTrue(all(LINE.match(line) for line in out.strip().split("\n")), out)

    def log(self):
        return json.loads(self.run_tool("p10-lint", "--library", "--format", "sarif", "a.c", 'b "é\'.c', "wrong.c", status=3)[0])

    def test_sarif_has_what_its_schema_requires(self):
        """Also of a log without results."""
        log = self.log()
        self.assertEqual(schema.faults(log, "sarif-2.1.0"), [])
        self.assertTrue(any("relatedLocations" in result for result in log["runs"][0]["results"]))
        self.write(ok_c=CLEAN)
        log = json.loads(self.run_tool("p10-lint", "--library", "--format", "sarif", "ok.c", status=0)[0])
        self.assertEqual(schema.faults(log, "sarif-2.1.0"), [])
        self.assertEqual(log["runs"][0]["results"], [])

    def test_the_schema_refuses_what_is_wrong(self):
        """Each value of a log made null, and each object with a member of another name; then values that aren't allowed."""
        log = self.log()
        for holder, key in list(members(log)):
            kept, holder[key] = holder[key], None
            self.assertTrue(schema.faults(log, "sarif-2.1.0"), key)
            holder[key] = kept
            if isinstance(kept, dict):
                kept["another"] = 1
                self.assertTrue(schema.faults(log, "sarif-2.1.0"), key)
                del kept["another"]
        run, result = log["runs"][0], log["runs"][0]["results"][0]
        place = result["locations"][0]["physicalLocation"]
        for holder, key, wrong in ((log, "version", "2.0.0"), (run, "columnKind", "bytes"), (result, "level", "fatal"), (result, "message", {}),
                                   (place["region"], "startLine", 0), (place["region"], "startColumn", 0), (place, "region", {"startColumn": 1}),
                                   (place["artifactLocation"], "uri", "a b.c"), (run["tool"]["driver"], "rules", [{"id": "S7"}] * 2)):
            kept, holder[key] = holder[key], wrong
            self.assertTrue(schema.faults(log, "sarif-2.1.0"), key)
            holder[key] = kept
        for holder, key in ((log, "version"), (log, "runs"), (run, "tool"), (run["tool"], "driver"), (run["tool"]["driver"], "name"),
                            (run["tool"]["driver"]["rules"][0], "id"), (result, "message"), (result["message"], "text"), (place, "artifactLocation")):
            kept = holder.pop(key)
            self.assertTrue(schema.faults(log, "sarif-2.1.0"), key)
            holder[key] = kept
        self.assertEqual(schema.faults(log, "sarif-2.1.0"), [])

    def test_sarif_says_what_is_meant(self):
        """What the standard's text asks for besides: rules by their index, places from 1 in characters, and fingerprints that differ."""
        run = self.log()["runs"][0]
        rules = run["tool"]["driver"]["rules"]
        self.assertEqual(len({rule["id"] for rule in rules}), len(rules))
        self.assertGreater(len(run["results"]), 3)
        for result in run["results"]:
            self.assertTrue(result["message"]["text"])
            self.assertEqual(rules[result["ruleIndex"]]["id"], result["ruleId"])
            self.assertEqual(result["level"], "warning" if result["ruleId"].startswith("rule") else "error")
        self.assertEqual(len({r["partialFingerprints"]["p10/v1"] for r in run["results"]}), len(run["results"]))
        places = [(result["ruleId"], result["locations"][0]["physicalLocation"]) for result in run["results"]]
        columns = [place["region"]["startColumn"] for code, place in places if code == "S7" and "%22" in place["artifactLocation"]["uri"]]
        self.assertEqual(columns, [38])  # in characters, where p10 counts 39 bytes

    def test_code_quality_of_gitlab(self):
        """The fields that its documentation requires."""
        issues = json.loads(self.run_tool("p10-lint", "--library", "--format", "gitlab", "a.c", status=3)[0])
        self.assertEqual(schema.faults(issues, "gitlab-code-quality"), [])
        self.assertGreater(len(issues), 3)
        self.assertEqual({issue["location"]["path"] for issue in issues}, {"a.c"})
        self.assertEqual(len({issue["fingerprint"] for issue in issues}), len(issues))

    def test_fingerprints_stay_when_lines_are_added(self):
        before = json.loads(self.run_tool("p10-lint", "--library", "--format", "gitlab", "a.c")[0])
        self.write(a_c="\n\n" + TWO)
        after = json.loads(self.run_tool("p10-lint", "--library", "--format", "gitlab", "a.c")[0])
        self.assertEqual([i["fingerprint"] for i in before], [i["fingerprint"] for i in after])

    def test_junit(self):
        self.write(ok_c=CLEAN)
        out, _, _ = self.run_tool("p10-lint", "--library", "--format", "junit", "ok.c", 'b "é\'.c', status=3)
        suite = xml.etree.ElementTree.fromstring(out).find("testsuite")
        self.assertEqual((suite.get("tests"), suite.get("failures")), ("2", "1"))
        self.assertEqual([(c.get("name"), c.find("failure") is not None) for c in suite], [("ok.c", False), ('b "é\'.c', True)])

    def test_an_output_file(self):
        self.run_tool("p10-lint", "--library", "--format", "sarif", "-o", "out é.sarif", "a.c", status=3)
        self.assertEqual(json.loads((self.folder / "out é.sarif").read_text())["version"], "2.1.0")


class CompileCommands(Case):
    def setUp(self):
        super().setUp()
        self.put("inc dir/conf.h", "#define LIMIT 4\n")
        self.put("src/a.c", '#include "conf.h"\n#ifdef MODE\nint f(int x) { return x = LIMIT + MODE; }\n#endif\n')
        self.put("src/b.c", "int g(int x) { return x = 2; }\nint main(void) { return 0; }\n")
        self.put("src/c.cpp", "class x {};\n")

    def commands(self, *entries):
        self.put("build/compile_commands.json", json.dumps(entries))

    def test_sources_includes_and_definitions(self):
        base = {"directory": str(self.folder / "build")}
        self.commands({**base, "file": "../src/a.c", "command": "cc -I'../inc dir' -DMODE=2 -Wall -c ../src/a.c -o a.o"},
                      {**base, "file": "../src/b.c", "arguments": ["cc", "-c", "../src/b.c"]},
                      {**base, "file": "../src/c.cpp", "command": "c++ -c ../src/c.cpp"})
        out, _, _ = self.run_tool("p10-lint", "-p", "build", status=3)
        errors = [(f[0], f[1], f[2], f[4]) for f in found(out) if f[3] == "error"]
        self.assertEqual(errors, [("src/a.c", 3, 23, "S7"), ("src/b.c", 1, 23, "S7")])
        out, _, _ = self.run_tool("p10-lint", "-p", "build/compile_commands.json", "--library", "src/b.c", status=3)
        self.assertEqual({f[0] for f in found(out)}, {"src/b.c"})

    def test_broken_ones(self):
        self.put("build/compile_commands.json", "[{")
        self.one_line(self.run_tool("p10-lint", "-p", "build", status=2)[1], "compile_commands.json is no JSON")
        self.put("build/compile_commands.json", "[" * 100000)
        self.one_line(self.run_tool("p10-lint", "-p", "build", status=2)[1], "compile_commands.json is no JSON")
        command = {"command": "cc -c a.c"}
        for entries, said in (({}, "is no list"), ([{"file": "a\0.c", **command}], "command 1 has no `file`"),
                              ([{"file": "\ud800.c", **command}], "command 1 has no `file`"),
                              ([{"directory": 5, "file": "a.c", **command}], "`directory` that is no name"), ([{}], "command 1 has no `file`"), ([{"file": "a.c"}], "neither `command` nor"),
                              ([{"file": "a.c", "command": "cc 'a"}], "can't be split"), ([], "names no C source")):
            self.put("build/compile_commands.json", json.dumps(entries))
            self.one_line(self.run_tool("p10-lint", "-p", "build", status=2)[1], said)
        self.one_line(self.run_tool("p10-lint", "-p", "nowhere", status=5)[1], "can't read nowhere")
        self.commands({"directory": ".", "file": "gone.c", "command": "cc -c gone.c"})
        self.one_line(self.run_tool("p10-lint", "-p", "build", status=9)[1], "absent file", "gone.c")
        self.commands({"directory": str(self.folder), "file": "src/b.c", "command": "cc -c src/b.c"})
        self.one_line(self.run_tool("p10-lint", "-p", "build", "src/a.c", status=2)[1], "doesn't name all of src/a.c")


class BadInput(Case):
    def setUp(self):
        super().setUp()
        self.write(a_c=TWO)

    def test_no_p10(self):
        self.one_line(self.run_tool("p10-lint", "--p10", "./nothing", "a.c", status=2)[1], "no program './nothing'")
        self.one_line(self.run_tool("p10-lint", "a.c", status=2, environment={"P10": "/no/p10"})[1], "no program '/no/p10'")

    def test_a_program_that_is_no_p10(self):
        self.one_line(self.run_tool("p10-lint", "--p10", "true", "a.c", status=5)[1], "gave no report of p10 check")

    def test_files_that_are_absent_or_no_files(self):
        self.one_line(self.run_tool("p10-lint", "a.c", "b.c", status=9)[1], "absent: b.c")
        self.one_line(self.run_tool("p10-lint", ".", status=5)[1], "can't read .")
        self.run_tool("p10-lint", status=2)
        self.run_tool("p10-lint", "--format", "xml", "a.c", status=2)
        self.one_line(self.run_tool("p10-lint", "-I", "a:", "a.c", status=2)[1], "include directory")

    def test_an_output_that_cant_be_written(self):
        self.one_line(self.run_tool("p10-lint", "-o", "no/folder/out", "a.c", status=5)[1], "can't write no/folder/out")
        self.put("kept", "as it was")
        self.one_line(self.run_tool("p10-lint", "-o", "/dev/full", "a.c", status=5)[1], "can't write /dev/full")
        self.assertEqual(sorted(p.name for p in self.folder.iterdir()), ["a.c", "kept"])

    def test_an_output_that_is_a_link_stays_one(self):
        self.put("kept", "as it was")
        (self.folder / "link").symlink_to("kept")
        self.run_tool("p10-lint", "-o", "link", "a.c", status=3)
        self.assertTrue((self.folder / "link").is_symlink())
        self.assertIn("error: [S7]", (self.folder / "kept").read_text())

    def test_deep_nesting(self):
        """300 pairs of parentheses, which p10 takes, and the trees here too."""
        self.put("deep.c", "int main(void) { int i = 0; i = " + "(" * 300 + "i++" + ")" * 300 + "; return i; }\nfloat x;\n")
        self.assertEqual([f[4] for f in found(self.run_tool("p10-lint", "deep.c", status=3)[0]) if f[3] == "error"], ["S7", "S19"])

    def test_names_with_blanks_quotes_colons_and_other_letters(self):
        for name in ("two words.c", "it's \"quoted\".c", "größe:1:2.c", "-begins.c", "日本.c"):
            self.put(name, "int main(void) { int i = 0; i = i++; return i; }\n")
            word = "./" + name if name.startswith("-") else name
            out, _, _ = self.run_tool("p10-lint", word, status=3)
            self.assertIn(f"{word}:1:33: error: [S7] ", out)

    def test_a_limit(self):
        self.put("big.c", "/*" + "x" * (1 << 20) + "*/\n")
        _, err, _ = self.run_tool("p10-lint", "-q", "big.c", status=8)
        self.one_line(err, "limit M1")

    def test_no_source_is_changed_and_nothing_is_left(self):
        before = (self.folder / "a.c").read_bytes()
        made = self.folder / "tmp"
        made.mkdir()
        self.run_tool("p10-lint", "a.c", status=3, environment={"TMPDIR": str(made)})
        self.assertEqual((self.folder / "a.c").read_bytes(), before)
        self.assertEqual(list(made.iterdir()), [])

    def test_help_and_version(self):
        for tool in sorted(p.name for p in Path(ROOT / "tools").iterdir() if p.is_file() and p.name.startswith("p10-")):
            self.assertRegex(self.run_tool(tool, "--version", status=0)[0], rf"^{tool} \d+\.\d+")
            out = self.run_tool(tool, "--help", status=0)[0]
            self.assertIn("status:", out)
            self.assertIn("examples:", out)
