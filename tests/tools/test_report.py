"""p10-report: the numbers on the page are the certificate's, the page needs nothing else, and it fits at three widths."""
import hashlib
import html
import html.parser
import json
import re
import shutil
import subprocess
import unittest

from common import ROOT, Case

EXAMPLES = ROOT / "examples"
FLIGHT = [(["flight/downlink.c", "flight/queue.c"], "flight/downlink.p10"), (["flight/crc.c"], None), (["flight/pid.c"], None),
          (["flight/position.c"], None), (["flight/reading.c"], None), (["bounds/sum.c"], "bounds/sum.p10"),
          (["bounds/letters.c"], "bounds/letters.p10")]


class Reader(html.parser.HTMLParser):
    """The tables of a page by their section, the margins by line, and all attributes that name something elsewhere."""

    def __init__(self, page):
        super().__init__()
        self.tables, self.margins, self.references, self.ids = {}, {}, [], []
        self.section, self.cell, self.line, self.stack = "", None, None, []
        self.feed(page)

    def handle_starttag(self, tag, attributes):
        given = dict(attributes)
        self.ids += [given["id"]] if "id" in given else []
        self.references += [given[name] for name in ("src", "href", "srcset", "action", "data") if name in given]
        if tag == "section":
            self.section = given["id"]
        elif tag == "tr":
            self.tables.setdefault(self.section, []).append([])
        elif tag in ("td", "th"):
            self.cell = ""
        elif tag == "div" and given.get("class", "").split(" ")[0] == "l":
            self.line = given["id"]
        elif tag == "span" and given.get("class", "").split(" ")[0] == "m":
            self.margins[self.line] = self.cell = ""

    def handle_endtag(self, tag):
        if tag in ("td", "th"):
            self.tables[self.section][-1].append(self.cell)
            self.cell = None
        elif tag == "span" and self.line in self.margins and self.cell is not None and self.section == "source":
            self.margins[self.line], self.cell = self.cell, None

    def handle_data(self, data):
        if self.cell is not None:
            self.cell += data

    def rows(self, section):
        heads, *rows = self.tables[section]
        return [dict(zip(heads, row)) for row in rows]


def number(text):
    return int(text.replace(",", "").replace("\u2212", "-"))


class Numbers(Case):
    def test_numbers_are_those_of_the_certificate(self):
        for files, cert in FLIGHT:
            with self.subTest(files=files):
                text = (EXAMPLES / cert).read_text() if cert else self.p10("derive", *files, folder=EXAMPLES)[0]
                words = ["--cert", cert] if cert else []
                out, _, _ = self.run_tool("p10-report", *words, *files, folder=EXAMPLES, status=0)
                self.compare(Reader(out), out, text)

    def compare(self, page, out, text):
        lines = [line.split(" ") for line in text.strip().split("\n")]
        claims = {line[1]: line for line in lines if line[0] == "func"}
        rows = {row["function"]: row for row in page.rows("functions")}
        self.assertEqual(set(rows), set(claims))
        for name, line in claims.items():
            self.assertEqual([number(rows[name][head]) for head in ("steps", "calls", "bytes")], [int(line[i]) for i in (5, 7, 9)], name)
            self.assertEqual(rows[name]["allocates"], "yes" if line[11] == "1" else "")
        total = lines[-2]
        prefix, turn = int(total[2]), int(total[4])
        shown = dict(re.findall(r"<dt>([^<]+)</dt><dd>([^<]+)</dd>", out))
        self.assertEqual(number(shown["steps before the task loop" if turn else "steps of a run"]), prefix)
        self.assertEqual(number(shown.get("steps of a turn", "0")), turn)
        self.assertEqual((number(shown["calls open at once"]), number(shown["bytes of stack"])), (int(total[6]), int(total[8])))
        turns = [int(line[-1]) for line in lines if line[0] == "loop"]
        margins = [re.match(r"([\d,]+) turns? ·", margin) for margin in page.margins.values()]
        self.assertEqual(sorted(number(m[1]) for m in margins if m), sorted(turns))
        heads = [re.match(r"([\d,]+) steps? · ([\d,]+) calls? · ([\d,]+) B$", margin) for margin in page.margins.values()]
        self.assertEqual(sorted([number(m[i]) for i in (1, 2, 3)] for m in heads if m), sorted([int(line[i]) for i in (5, 7, 9)] for line in claims.values()))

    def test_shares_of_all_functions_are_the_whole(self):
        """What the functions spend themselves comes to the certificate's total, at the start and in a turn."""
        from p10lib import certificate, model
        for files, cert in FLIGHT:
            text = (EXAMPLES / cert).read_text() if cert else self.p10("derive", *files, folder=EXAMPLES)[0]
            claimed = certificate.parse(text, "c")
            program = model.read([str(EXAMPLES / name) for name in files], [], claimed)
            self.assertTrue(all(cost.exact for cost in program.functions), files)
            count = range(len(program.functions))
            self.assertEqual(sum(program.spent(i, False) for i in count), claimed.prefix, files)
            self.assertEqual(sum(program.spent(i, True) for i in count), claimed.turn, files)

    def test_loops_by_hand(self):
        """A loop of 4 turns in one of 3. Each time the inner one takes 1, 2 for its first clause, 5 tests of 3, and 4 turns of a
        statement of 6 and a step of 4: 58."""
        self.write(a_c="""int main(void) {
    int s = 0;
    for (int i = 0; i < 3; i++) {
        for (int j = 0; j < 4; j++) {
            s = s % 9 + 1;
        }
    }
    return s;
}
""")
        rows = Reader(self.run_tool("p10-report", "a.c", status=0)[0]).rows("loops")
        inner = next(row for row in rows if row["place"] == "a.c:4")
        self.assertEqual([number(inner[head]) for head in ("turns", "steps each", "times", "steps in all")], [4, 58, 3, 174])


class Pages(Case):
    def test_refusals_and_violations_in_place(self):
        self.write(a_c="int main(void) {\n    int x = 1;\n    x = x++;\n    return x;\n}\n")
        out, _, _ = self.run_tool("p10-report", "a.c", status=0)
        self.assertIn("Refused: 1 place isn&#x27;t in p10&#x27;s language", out)
        self.assertRegex(out, r'id="f0L3">.*?</div><div class="say bad">S7: assignment or step as an operand</div>')
        self.assertRegex(out, r'id="f0L1">.*?</div><div class="say warn">rule 5.1: fewer than two assertions per function</div>')

    def test_loops_without_a_bound_in_red_with_their_kind(self):
        kinds = {"while (low < high) { if (low > 3) { low++; } else { high--; } }": "Two variables that approach each other",
                 "for (int i = 9; i != 0; i--) { low = 1; }": "Unequal on a signed variable",
                 "for (unsigned mask = 1; mask < 256; mask *= 2) { low = 1; }": "A product or a shift to the left",
                 "for (place = 0; place < 9; place++) { low = 1; }": "An object as the counter",
                 "for (;;) { if (low > high) { break; } }": "A guard within the body",
                 "while (low < 9) { if (getchar() > 0) { low++; } }": "A way back without a step"}
        for text, kind in kinds.items():
            self.write(a_c=f"#include <stdio.h>\nstatic int place;\nint main(void) {{\n    int low = getchar(); int high = getchar();\n    {text}\n    "
                           f"return low + high + place;\n}}\n")
            out, _, _ = self.run_tool("p10-report", "a.c", status=0)
            self.assertIn("No certificate: 1 loop without a bound", out)
            self.assertRegex(out, r'<div class="l un" id="f0L5"><span class="m un"><b>no bound</b>')
            self.assertRegex(out, re.escape(kind) + "(</a>)?: ")
            if (ROOT / "docs" / "writing-loops.md").exists():
                self.assertRegex(out, r'href="[^"]*docs/writing-loops\.md#')

    def test_a_refused_certificate(self):
        out, _, _ = self.run_tool("p10-report", "--cert", "first/a-short.p10", "first/a.c", folder=EXAMPLES, status=0)
        self.assertIn("Certificate refused: K11", out)
        self.assertIn("claims that p10 doesn", out)

    def test_a_certificate_of_version_2(self):
        digest = hashlib.sha256(b"int\nmain\n(\nvoid\n)\n{\nreturn\n0\n;\n}\n").hexdigest()
        sealed = ("p10cert 2\nfunc main rank 0 steps 3 calls 1 bytes 0 alloc 0\ndigest {}\nresult 0 0\noutside " + "0" * 64 +
                  "\ntotal prefix 3 turn 0 calls 1 bytes 0\nsection notes 2\nend\nfunc\nend\n")
        self.put("a.c", "int main(void) { return 0; }\n")
        plain, _, _ = self.run_tool("p10-report", "a.c", status=0)
        self.put("a.p10", sealed.format(digest))
        out, _, _ = self.run_tool("p10-report", "--cert", "a.p10", "a.c", status=0)
        self.assertIn("accepted clean: prefix 3", out)
        self.assertEqual(out.replace("a.p10", "the derived certificate"), plain)
        self.put("a.p10", sealed.format("f" * 64))
        out, _, _ = self.run_tool("p10-report", "--cert", "a.p10", "a.c", status=0)
        self.assertIn("Certificate refused: K0", out)
        self.assertIn("of other words of this function", out)

    def test_clean_or_not(self):
        self.assertIn("Clean: no run", self.run_tool("p10-report", "bounds/letters.c", folder=EXAMPLES)[0])
        self.assertIn("Not clean: C1 at ", self.run_tool("p10-report", "bounds/sum.c", folder=EXAMPLES)[0])

    def test_it_needs_nothing_from_elsewhere_and_links_lead_somewhere(self):
        for words in (["--cert", "flight/downlink.p10", "flight/downlink.c", "flight/queue.c"], ["rules/watch.c"], ["bounds/endless.c"]):
            out, _, _ = self.run_tool("p10-report", *words, folder=EXAMPLES, status=0)
            page = Reader(out)
            self.assertNotRegex(out, r"https?://|url\(|@import|<link|<img|<iframe|<script [^>]*src")
            inner = {reference[1:] for reference in page.references if reference.startswith("#")}
            self.assertEqual(inner - set(page.ids), set())
            self.assertTrue(all(r.startswith("#") or "writing-loops.md" in r for r in page.references), page.references)

    def test_names_and_texts_are_escaped(self):
        self.put("<b>&\"é'.c", "/* </script><script>alert(1)</script> & é */\nint main(void) { return '<' < 1 && \"é<\"[0]; }\n")
        out, _, _ = self.run_tool("p10-report", "<b>&\"é'.c", status=0)
        self.assertEqual(out.count("<script"), 1)
        self.assertNotIn("<b>&\"", out)
        self.assertIn("&lt;/script&gt;&lt;script&gt;alert(1)", out)
        self.assertIn(html.escape("<b>&\"é'.c"), out)

    def test_the_same_page_each_time(self):
        first = self.run_tool("p10-report", "flight/pid.c", folder=EXAMPLES)[0]
        self.assertEqual(first, self.run_tool("p10-report", "flight/pid.c", folder=EXAMPLES)[0])

    def test_ten_thousand_lines(self):
        parts = [f"static int f{i}(int x) {{\n    int s = 0;\n    for (int i = 0; i < {1 + i % 9}; i++) {{\n        s = s % 7 + x % 3;\n    }}\n"
                 f"    return s;\n}}\n" + "/* .. */\n" * 13 for i in range(500)]
        calls = "".join(f"    s = f{i}(s);\n" for i in range(500))
        self.write(a_c="".join(parts) + "int main(void) {\n    int s = 0;\n" + calls + "    return s;\n}\n")
        self.run_tool("p10-report", "-o", "a.html", "a.c", status=0)
        page = (self.folder / "a.html").read_text()
        self.assertEqual(page.count('<div class="l"'), 500 * 20 + 504)
        self.assertIn("content-visibility: auto", page)
        self.assertLess(len(page), 4_000_000)


class InABrowser(Case):
    @unittest.skipUnless(shutil.which("chromium"), "no chromium (Debian: apt-get install chromium)")
    def test_it_fits_at_three_widths_in_light_and_dark_and_printed(self):
        """Chromium shows the page in frames of three widths, and as it is printed on A4: no part is wider than its frame, and the
        colours are of the scheme."""
        page, _, _ = self.run_tool("p10-report", "--cert", "flight/downlink.p10", "flight/downlink.c", "flight/queue.c", folder=EXAMPLES, status=0)
        shown = [(width, page) for width in (400, 900, 1500)] + [(718, page.replace("@media print", "@media all").replace("@media screen", "@media none"))]
        frames = "".join(f'<iframe style="width:{width}px;height:900px;border:0" srcdoc="{html.escape(text)}"></iframe>' for width, text in shown)
        script = """<script>onload = () => { document.title = JSON.stringify([...document.querySelectorAll('iframe')].map(f => {
            const d = f.contentDocument, e = d.documentElement, s = f.contentWindow.getComputedStyle(d.body);
            return [e.scrollWidth, e.clientWidth, s.backgroundColor, d.querySelectorAll('.l').length]; })); };</script>"""
        outer = self.put("frames.html", f"<!DOCTYPE html><title>no</title>{script}{frames}")
        for scheme, background in ((1, "rgb(255, 255, 255)"), (0, "rgb(20, 24, 29)")):
            done = subprocess.run(["chromium", "--headless", "--no-sandbox", "--disable-gpu", "--hide-scrollbars", "--window-size=1600,1000",
                                   f"--user-data-dir={self.folder / 'profile'}", f"--blink-settings=preferredColorScheme={scheme}", "--dump-dom",
                                   outer.as_uri()], stdout=subprocess.PIPE, stderr=subprocess.DEVNULL, timeout=900, check=False)
            title = re.search(r"<title>(\[.*?\])</title>", done.stdout.decode())
            self.assertIsNotNone(title, "chromium has shown nothing")
            shown = json.loads(html.unescape(title[1]))
            self.assertEqual([frame[1] for frame in shown], [400, 900, 1500, 718])
            for scroll, client, colour, lines in shown:
                self.assertLessEqual(scroll, client)
                self.assertEqual(colour, background if client != 718 else "rgb(255, 255, 255)")
                self.assertGreater(lines, 80)


class BadInput(Case):
    def setUp(self):
        super().setUp()
        self.write(a_c="int main(void) { return 0; }\n")

    def test_absent_things(self):
        self.one_line(self.run_tool("p10-report", "b.c", status=9)[1], "absent: b.c")
        self.one_line(self.run_tool("p10-report", "--cert", "c.p10", "a.c", status=9)[1], "can't read c.p10")
        self.one_line(self.run_tool("p10-report", "--p10", "nowhere", "a.c", status=2)[1], "no program 'nowhere'")
        self.run_tool("p10-report", status=2)

    def test_a_certificate_of_other_sources(self):
        cert = self.put("c.p10", (EXAMPLES / "bounds" / "sum.p10").read_text())
        self.one_line(self.run_tool("p10-report", "-o", "out.html", "--cert", str(cert), "a.c", status=2)[1], "of other sources", "K1")
        self.assertFalse((self.folder / "out.html").exists())

    def test_a_text_that_is_no_certificate(self):
        self.put("c.p10", "p10cert 1\nfunc main\n")
        self.one_line(self.run_tool("p10-report", "--cert", "c.p10", "a.c", status=2)[1], "c.p10", "line 2")

    def test_an_output_that_cant_be_written(self):
        for name in ("no/out.html", "/dev/full", "."):
            self.one_line(self.run_tool("p10-report", "-o", name, "a.c", status=5)[1], f"can't write {name}")
        self.assertEqual([p.name for p in self.folder.iterdir()], ["a.c"])

    def test_names_with_blanks_and_other_letters(self):
        for name in ("two words.c", "größe.c", "日本 \"x\".c"):
            self.put(name, "int main(void) { return 0; }\n")
            self.run_tool("p10-report", "-o", name + ".html", name, status=0)
            self.assertIn("Bounded", (self.folder / (name + ".html")).read_text())
