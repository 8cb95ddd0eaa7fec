"""The page of a report: HTML that needs nothing from elsewhere."""
import os
import re
from dataclasses import dataclass, field
from html import escape

from .expressions import KEYWORDS
from .formats import shown_code
from .program import counted, readable
from .words import PIECE

CHUNK = 60
TREE_MOST = 3000  # functions in the tree of calls
SHOWN = 25  # calls of one function that are shown at once
LIMITS = {"_Bool": (0, 1), "char": (-128, 127), "unsigned char": (0, 255), "short": (-2 ** 15, 2 ** 15 - 1), "unsigned short": (0, 2 ** 16 - 1),
          "int": (-2 ** 31, 2 ** 31 - 1), "unsigned": (0, 2 ** 32 - 1), "long": (-2 ** 63, 2 ** 63 - 1), "unsigned long": (0, 2 ** 64 - 1)}
ANY = {limits: name for name, limits in LIMITS.items() if name != "_Bool"}
SCRIPT = """
for (const table of document.querySelectorAll('table')) for (const head of table.querySelectorAll('th')) head.onclick = () => {
  const at = [...head.parentNode.children].indexOf(head), body = table.tBodies[0], key = row => {
    const cell = row.children[at], number = cell.dataset.v; return number === undefined ? cell.textContent : Number(number); };
  const up = head.dataset.up = head.dataset.up === '1' ? '' : '1';
  [...body.rows].sort((a, b) => { const x = key(a), y = key(b), o = x < y ? -1 : x > y ? 1 : 0; return up ? -o : o; }).forEach(r => body.append(r)); };
for (const field of document.querySelectorAll('input')) field.oninput = () => { for (const row of field.nextElementSibling.querySelectorAll('tbody tr'))
  row.hidden = !row.textContent.toLowerCase().includes(field.value.toLowerCase()); };
addEventListener('beforeprint', () => { for (const d of document.querySelectorAll('details')) d.open = true; });
"""


@dataclass
class Report:
    """What a page shows. `verdicts` are (class, text); `unbounded` has for a loop's (file, line) what is said of it."""

    title: str
    program: object
    findings: list
    verdicts: list
    lines: list  # what p10 has answered
    notes: list = field(default_factory=list)
    unbounded: dict = field(default_factory=dict)


def html_of(text):
    """A text as HTML."""
    return escape(readable(text))


def number(value):
    """A number with commas between thousands."""
    return f"{value:,}".replace("-", "\u2212")


def percent(part, whole):
    """A share, with a digit after the point where it is small."""
    share = 100 * part / whole if whole else 0
    return "0 %" if part == 0 else "< 0.1 %" if share < 0.1 else f"{share:.1f} %" if share < 10 else f"{share:.0f} %"


def range_text(pair):
    """A claimed range; that of a type by its name."""
    if pair in ("*", "void"):
        return "a pointer" if pair == "*" else "none"
    if tuple(pair) in ANY:
        return "any " + ANY[tuple(pair)]
    return number(pair[0]) if pair[0] == pair[1] else f"{number(pair[0])} \u2026 {number(pair[1])}"


class Page:
    """Makes the page of a report."""

    def __init__(self, report):
        self.report, self.program = report, report.program
        self.files = {source.name: i for i, source in enumerate(self.program.sources)}
        certificate = self.program.certificate
        self.wholes = [(True, certificate.turn, "turn"), (False, certificate.prefix, "start" if certificate.turn else "run")] if certificate else []
        self.wholes = [whole for whole in self.wholes if whole[1]]  # (whether it is a turn, its steps, its name)

    def html(self):
        """The whole page."""
        parts = [("loops", "Dearest loops", self.loops()), ("rules", "Rules and refusals", self.rules()), ("functions", "Functions", self.functions()),
                 ("calls", "Calls by cost", self.calls()), ("source", "Source", self.source())]
        parts = [part for part in parts if part[2]]
        with open(os.path.join(os.path.dirname(__file__), "page.css"), encoding="utf-8") as file:
            style = file.read()
        links = "".join(f'<a href="#{name}">{text}</a>' for name, text, _ in parts)
        body = "".join(f'<section id="{name}"><h2>{text}</h2>{inner}</section>' for name, text, inner in parts)
        title = html_of(self.report.title)
        plain = "" if self.program.certificate or self.report.unbounded else ' class="plain"'  # nothing stands in the margin
        return (f'<!DOCTYPE html>\n<html lang="en"><head><meta charset="utf-8"><meta name="viewport" content="width=device-width,initial-scale=1">'
                f'<title>{title}: p10</title><style>\n{style}</style></head><body{plain}><header><div><h1>{title}</h1>{self.head()}</div></header>'
                f'<nav><div>{links}</div></nav><main>{body}<footer>Made by p10-report, a companion of p10 that isn\u2019t proved: what p10 itself '
                f'answers counts. A step is a unit of p10\u2019s profile of C, not of a machine.</footer></main><script>{SCRIPT}</script></body></html>\n')

    def head(self):
        made = ["<p>" + "".join(f'<span class="verdict {kind}">{self.verdict(text)}</span>' for kind, text in self.report.verdicts) + "</p>"]
        made += [f'<p class="mono soft">{html_of(line)}</p>' for line in self.report.lines]
        made += [f'<p class="soft">{html_of(note)}</p>' for note in self.report.notes]
        certificate, program = self.program.certificate, self.program
        loops = sum(len(function.loops) for function in program.functions)
        totals = []
        if certificate:
            totals += [("steps of a turn", certificate.turn)] if certificate.turn else []
            totals += [("steps before the task loop" if certificate.turn else "steps of a run", certificate.prefix)]
            totals += [("calls open at once", certificate.calls), ("bytes of stack", certificate.bytes)]
        refused = sum(finding.refused for finding in self.report.findings)
        totals += [("functions", len(program.functions)), ("loops", loops), ("refusals", refused),
                   ("violations", len(self.report.findings) - refused)]
        return made[0] + "".join(made[1:]) + '<dl class="totals">' + "".join(
            f"<div><dt>{name}</dt><dd>{number(value)}</dd></div>" for name, value in totals) + "</dl>"

    def verdict(self, text):
        """A verdict; the place at its end is a link."""
        place = re.search(r"(?s) at ((.*):(\d+):\d+)$", text)
        return escape(text[:place.start()]) + " at " + self.link(place[2], int(place[3]), place[1]) if place else html_of(text)

    # Places.

    def link(self, name, line, text=None):
        """A link to a line of the source, or its name where that isn't shown."""
        text = html_of(text or f"{name}:{line}")
        return f'<a href="#f{self.files[name]}L{line}">{text}</a>' if name in self.files else text

    def place_of(self, cost, index):
        """The file and line of a word of a function's root."""
        word = cost.unit.words[index]
        return word.source.name, word.line

    def name_of(self, index):
        cost = self.program.functions[index]
        name, line = self.place_of(cost, cost.function.at)
        return self.link(name, line, cost.function.name)

    # Tables.

    def table(self, heads, rows):
        """A table; heads that begin with `#` are of numbers. A cell is HTML, or (number, HTML)."""
        made = "".join(f'<th class="n">{h[1:]}</th>' if h.startswith("#") else f"<th>{h}</th>" for h in heads)
        body = ""
        for row in rows:
            body += "<tr>" + "".join(self.cell(head, cell) for head, cell in zip(heads, row)) + "</tr>\n"
        return f'<div class="wide"><table><thead><tr>{made}</tr></thead><tbody>{body}</tbody></table></div>'

    @staticmethod
    def cell(head, cell):
        kind = ' class="n"' if head.startswith("#") else ' class="share"' if head.startswith("share") else ""
        return f'<td{kind} data-v="{cell[0]}">{cell[1]}</td>' if isinstance(cell, tuple) else f"<td{kind}>{cell}</td>"

    @staticmethod
    def bar(part, whole):
        width = 100 * part / whole if whole else 0
        return (width, f'<span class="bar"><i style="width:{width:.2f}%"></i><b>{percent(part, whole)}</b></span>')

    def loops(self):
        """The loops by their share of the whole, a row for the start and one for a turn."""
        rows = []
        for index, cost in enumerate(self.program.functions):
            for loop in cost.loops if cost.sum is not None else []:
                for turn, whole, of in self.wholes:
                    steps = self.program.loop_steps(index, loop, turn)
                    if steps == 0 or loop.claim.kind == "task":
                        continue
                    name, line = self.place_of(cost, loop.node.first)
                    rows.append([self.bar(steps, whole), of, f'<span class="place">{self.link(name, line)}</span>', self.name_of(index),
                                 f'<div class="code">{html_of(self.loop_text(cost, loop))}</div>', (loop.claim.turns, number(loop.claim.turns)),
                                 (loop.steps, number(loop.steps)), (steps // loop.steps, number(steps // loop.steps)), (steps, number(steps))])
        rows.sort(key=lambda row: (-row[0][0], row[2]))
        heads = ["share", "of the", "place", "function", "loop", "#turns", "#steps each", "#times", "#steps in all"]
        if not rows:
            return "<p class=\"soft\">No loop but the task loop takes steps.</p>" if self.program.certificate else ""
        return self.table(heads, rows)

    @staticmethod
    def loop_text(cost, loop):
        """The head of a loop, as its line has it."""
        word = cost.unit.words[loop.node.first]
        return word.source.text[word.start:].split("\n", 1)[0].split("{")[0].strip().encode("latin-1", "replace").decode("utf-8", "replace")

    def rules(self):
        rows = []
        for f in self.report.findings:
            kind = "bad" if f.refused else "warn"
            rows.append([f'<span class="place">{self.link(f.file, f.line)}:{f.column}</span>', f'<span class="{kind} place">{shown_code(f)}</span>',
                         escape(f.text)])
        if not rows:
            return '<p>Nothing is refused, and no rule is broken.</p>'
        return '<input placeholder="filter: a file, a code, a word" aria-label="filter">' + self.table(["place", "code", "what"], rows)

    def functions(self):
        rows, certificate = [], self.program.certificate
        if certificate is None:
            return ""
        for index, cost in enumerate(self.program.functions):
            name, line = self.place_of(cost, cost.function.at)
            claim = cost.claim
            row = [self.name_of(index), f'<span class="place">{self.link(name, line)}</span>', (claim.steps, number(claim.steps)),
                   (claim.calls, number(claim.calls)), (claim.bytes, number(claim.bytes)),
                   (self.program.frame(index), number(self.program.frame(index)))]
            for turn, whole, _ in self.wholes:
                times = (self.program.in_turn if turn else self.program.before).get(index, 0)
                row += [(times, number(times)), self.bar(self.program.spent(index, turn), whole) if cost.exact else (0, "\u2014")]
            rows.append(row + ["yes" if claim.allocates else "", f'<span class="line">{escape(self.ranges(cost))}</span>'])
        rows.sort(key=lambda row: [-share for share, _ in row[7:6 + 2 * len(self.wholes):2]])
        heads = ["function", "place", "#steps", "#calls", "#bytes", "#own frame"]
        for _, _, of in self.wholes:
            heads += [f"#times, {of}", f"share of the {of}"]
        heads += ["allocates", "ranges"]
        return self.table(heads, rows) if rows else ""

    @staticmethod
    def ranges(cost):
        """The claimed ranges of parameters and the result."""
        given = ", ".join(f"{name or '_'}: {range_text(pair)}" for (name, _, _), pair in zip(cost.function.parameters, cost.claim.parameters))
        result = "" if cost.claim.result == "void" else f"result: {range_text(cost.claim.result)}"
        return given + (", " if given and result else "") + result

    # The tree of calls.

    def calls(self):
        main = next((i for i, cost in enumerate(self.program.functions) if cost.function.name == "main"), None)
        if not self.program.certificate or main is None:
            return ""
        made = ""
        for turn, whole, of in self.wholes:
            self.left, self.opened = TREE_MOST, set()
            made += f'<div class="tree"><ul>{self.branch(main, 1, 1, whole, turn, of)}</ul></div>'
        return made

    def branch(self, index, times, each, whole, turn, of):
        """A function in the tree: called `each` times by its caller, `times` in all, with what it calls by cost."""
        cost = self.program.functions[index]
        at_top = cost.function.name == "main"
        steps = whole if at_top else times * cost.claim.steps
        text = f'{self.name_of(index)} <span class="soft">{percent(steps, whole)} \u00b7 {number(steps)} steps' + (
            f" of the {of}" if at_top else f" \u00b7 {number(each)} \u00d7 {number(cost.claim.steps)}") + "</span>"
        self.left -= 1
        calls = cost.turn_calls if turn and at_top else cost.calls
        others = [callee for callee in cost.callees if callee not in calls]
        if not calls and not (others and not at_top) or self.left < 0:
            return f'<li class="leaf">{text}</li>'
        if index in self.opened:
            return f'<li class="leaf">{text} <span class="soft">(as above)</span></li>'
        self.opened.add(index)
        below = sorted(calls.items(), key=lambda call: -call[1] * self.program.functions[call[0]].claim.steps)
        made = [self.branch(callee, times * n, n, whole, turn, of) for callee, n in below]
        inner = "".join(made[:SHOWN])
        if made[SHOWN:]:
            inner += f'<li><details><summary>{len(made) - SHOWN} more calls</summary><ul>{"".join(made[SHOWN:])}</ul></details></li>'
        if others and not at_top:
            inner += '<li class="leaf soft">not on the dearest way: ' + ", ".join(self.name_of(callee) for callee in others) + "</li>"
        return f"<li><details open><summary>{text}</summary><ul>{inner}</ul></details></li>"

    # The source.

    def source(self):
        margins, sayings = self.margins(), {}
        for f in self.report.findings:
            kind = "bad" if f.refused else "warn"
            said = f'<div class="say {kind}">{shown_code(f)}: {escape(f.text)}</div>'
            said += "".join(f'<div class="say {kind}">{html_of(f"{line}:{column}: {text}")}</div>' for _, line, column, text in f.hints)
            sayings.setdefault((f.file, f.line), []).append(said)
        for key, text in self.report.unbounded.items():
            sayings.setdefault(key, []).append(f'<div class="say bad">{text}</div>')
        return "".join(self.file(source, margins, sayings) for source in self.program.sources)

    def margins(self):
        """For each (file, line) the margin's HTML and the claimed ranges."""
        made = {}
        for index, cost in enumerate(self.program.functions):
            if cost.claim is None:
                continue
            claim = cost.claim
            words = f"{counted(claim.steps, 'step')} \u00b7 {counted(claim.calls, 'call')} \u00b7 {number(claim.bytes)} B"
            made.setdefault(self.place_of(cost, cost.function.at), []).append((f"<b>{words}</b>", self.ranges(cost)))
            for loop in cost.loops:
                if loop.claim is not None:
                    made.setdefault(self.place_of(cost, loop.node.first), []).append(self.loop_margin(index, cost, loop))
        return made

    def loop_margin(self, index, cost, loop):
        shares = [(self.program.loop_steps(index, loop, turn), whole) for turn, whole, _ in self.wholes]
        part, whole = max(shares, key=lambda share: share[0] / share[1], default=(0, 0))
        claim = loop.claim
        words = f"{counted(claim.steps, 'step')} a turn" if claim.kind == "task" else counted(claim.turns, "turn")
        if cost.sum is not None and claim.kind != "task":
            words += f" \u00b7 {counted(loop.steps, 'step')} \u00b7 {percent(part, whole)}"
        names = [name for name, _, _ in cost.function.variables]
        said = ", ".join(f"{names[v] if v < len(names) else v}: {range_text(pair)}" for v, pair in claim.ranges.items())
        if claim.kind in ("up", "down") and claim.variable < len(names):
            said = f"{names[claim.variable]} goes {claim.kind} to {number(claim.limit)}" + ("; " + said if said else "")
        width = 100 * part / whole if whole and claim.kind != "task" else 0
        return f'<i style="width:{width:.1f}%"></i><b>{words}</b>', said

    def file(self, source, margins, sayings):
        at, shown = self.files[source.name], []
        for n, code in enumerate(coloured(source.text), 1):
            key = (source.name, n)
            own = margins.get(key, [])
            claims = "".join(f'<div class="say rng">{html_of(said)}</div>' for _, said in own if said)
            red = key in self.report.unbounded
            margin = "<b>no bound</b>" if red else own[0][0] if own else ""
            shown.append(f'<div class="l{" un" if red else ""}" id="f{at}L{n}"><span class="m{" un" if red else ""}">{margin}</span>'
                         f'<a href="#f{at}L{n}">{n}</a><span class="c">{code}</span></div>{claims}' + "".join(sayings.get(key, [])))
        chunks = "".join(f'<div class="chunk">{"".join(shown[i:i + CHUNK])}</div>' for i in range(0, len(shown), CHUNK))
        count = source.text.count("\n") + (not source.text.endswith("\n"))
        return (f'<details class="file" open><summary><h3>{html_of(source.name)}</h3> <span class="soft">{number(count)} lines</span></summary>'
                f'<div class="lines">{chunks}</div></details>')


def coloured(text):
    """The lines of a source as HTML, with keywords, literals and comments marked."""
    made, at = [], 0
    while at < len(text):
        match = PIECE.match(text, at)
        kind, piece = match.lastgroup, match.group()
        mark = "o" if kind == "comment" else "q" if kind in ("string", "char") else "k" if kind == "name" and piece in KEYWORDS else ""
        shown = escape(piece.encode("latin-1", "replace").decode("utf-8", "replace"), quote=False)
        made.append("\n".join(f'<span class="{mark}">{line}</span>' if line else "" for line in shown.split("\n")) if mark else shown)
        at = match.end()
    lines = "".join(made).replace("\r\n", "\n").replace("\f", " ").replace("\v", " ").split("\n")
    return lines[:-1] if lines and not lines[-1] else lines
