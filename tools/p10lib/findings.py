"""All refusals that can be told of a program, and the violations of what is left.

p10 tells the first refusal. Here what is refused is then set aside in a copy, as little of it as p10 goes on from, and p10 is asked
again. What is refused because something was set aside isn't told."""
from dataclasses import dataclass, field, replace

from .copies import MAIN, Copy
from .lexical import spans
from .mends import View, grammar, unknown_type
from .program import Finding
from .special import sets_for
from .stubs import definition
from .words import Source, cut, first_unbalanced

ROUNDS = 5000
BY_TEXT = ("8.", "9.", "1.1", "1.2", "4.", "5.2", "5.3", "5.4", "5.5")  # these rows hold of trees and directives, whatever else is aside
OF_USES = ("10.1", "10.2", "6.1", "6.2", "7.2")  # and these may come of uses that were set aside


@dataclass
class Found:
    """Findings in the order of files and places, p10's status, its text for another answer, how many parts were set aside, and the
    files that were read."""

    findings: list = field(default_factory=list)
    status: int = 0
    trouble: str = ""
    aside: int = 0
    files: list = field(default_factory=list)


@dataclass
class Attempt:
    """A refusal that is being mended, at an offset of the real file: `wrong` is where it goes wrong, which for G1 isn't the place, `left`
    are the sets of edits that weren't tried, `spans` what the one that was replaced in real files, `saved` the texts before it."""

    refusal: Finding
    name: str
    origin: int
    wrong: int
    left: list
    spans: list = field(default_factory=list)
    saved: dict = field(default_factory=dict)


class Search:
    """Asks p10 about a copy until nothing is refused."""

    def __init__(self, p10, copy, library):
        self.p10, self.copy, self.library = p10, copy, library
        self.refusals, self.violations = [], {}
        self.gone, self.units, self.attempt, self.done = set(), {}, None, 0
        self.seen, self.aside = {}, set()  # how often a refusal came at a place, and the words that were set aside
        self.types = set()  # the types that were put in as `int`, since nothing declares them

    def run(self):
        """Found: with status 3 where something is refused, else p10's."""
        for _ in range(ROUNDS):
            self.copy.write()
            rows, refusal, answer = self.p10.check(self.copy.roots, self.copy.includes, self.copy.folder)
            self._note(rows, last=refusal is None)
            if refusal is None or not self._mend(refusal):
                break
        status = answer.status if answer.status not in (0, 1, 3) else 3 if self.refusals else int(bool(self.violations))
        trouble = "" if answer.status in (0, 1, 3) else (answer.err or answer.out).strip()
        order = list(dict.fromkeys(self.copy.real_name(name) for name in self.copy.texts))
        found = self.refusals + list(self.violations.values())
        found.sort(key=lambda f: (order.index(f.file), f.line, f.column, not f.refused))
        return Found(found, status, trouble, self.done, [name for name in order if name not in self.copy.made])

    # Violations.

    def _note(self, rows, last):
        self.aside = {word.text for kept in self.copy.texts.values() for text in kept.aside for word in cut(Source("", text))}
        for row in rows:
            if row.file not in self.copy.texts:
                continue
            if not last and not row.code.startswith(BY_TEXT):
                continue
            real = self._real(row)
            if real is not None and not (self.library and self._is_of_program(row)) and not (self.done and self._is_doubtful(row)):
                self.violations.setdefault((real.file, real.line, real.column, real.code), real)

    def _real(self, row):
        """A finding at its real place; None where it is about what was put in."""
        kept = self.copy.texts[row.file]
        offset = kept.now.offset(row.line, row.column)
        made = self.copy.made.get(kept.real.name)
        if made is not None:
            return replace(row, file=made, line=1, column=1, text=row.text + " (in what the command line defines)")
        if kept.origin[offset] == len(kept.real.text) and kept.real.text:
            if row.code != "5.1":
                return None
            unit = self._unit(row.file)
            first = next((f for f in unit.functions if unit.words[f.at].source.name == row.file), None)
            if first is None or first.name == "main":  # the file has no function of its own
                return None
            offset = unit.words[first.at].start
        line, column = kept.real.place(kept.origin[offset])
        return replace(row, file=kept.real.name, line=line, column=column)

    def _is_of_program(self, row):
        """Whether a row may not hold once the other sources of the program are there: 5.1, and those on uses of what they can use."""
        if row.code not in ("6.1", "10.1"):
            return row.code == "5.1"
        found = self._view(row.file, self.copy.texts[row.file].now.offset(row.line, row.column))
        if found is None or found[0].function(found[1]) is not None:
            return False
        first, end = found[0].item(found[1])
        return all(word.text != "static" for word in found[0].words[first:end])

    def _is_doubtful(self, row):
        """Whether a row may hold only since something was set aside."""
        if row.code in OF_USES:
            kept = self.copy.texts[row.file]
            offset = kept.now.offset(row.line, row.column)
            word = cut(Source("", kept.text[offset:offset + 200]))
            return bool(word) and word[0].text in self.aside
        if row.code == "5.1":
            return bool(self.aside & {"assert", "c_assert"})
        return row.code in ("2.1", "10.8", "10.7", "1.3", "3.1") and self._touched(row)

    def _touched(self, row):
        """Whether something was set aside in the function in which a row is."""
        kept = self.copy.texts[row.file]
        offset = kept.now.offset(row.line, row.column)
        view = self._view(row.file, offset)
        function = view[0].function(view[1]) if view else None
        if function is None:
            return False
        span = view[0].cover(function.first, function.end, "")
        if not span:
            return True
        start, end = span[0][1], min(span[0][2], len(kept.text))
        return kept.origin[end] - kept.origin[start] != end - start or any(
            kept.origin[i + 1] - kept.origin[i] != 1 for i in range(start, end - 1))

    # Refusals.

    def _mend(self, refusal):
        """Notes a refusal and sets aside what is refused. False where nothing can be set aside any more."""
        name = refusal.file
        if name not in self.copy.texts:
            return False
        offset = self.copy.texts[name].now.offset(refusal.line, refusal.column)
        if self.attempt is not None and self._has_failed(refusal, name, offset):
            for changed, saved in self.attempt.saved.items():
                self.copy.texts[changed].restore(saved)
            self._forget(self.attempt.saved)
            return self._try_next()
        hints, sets, quiet = self._sets(refusal, name, offset)
        real = self._real(refusal)
        origin, wrong = self.copy.texts[name].origin[offset], self._goes_wrong(refusal, name, offset)
        key = (name, wrong, refusal.code)
        before = self.seen[key] = self.seen.get(key, -1) + 1
        sets = sets[before:] or sets[-1:] if before < 5 else []
        if real is not None and not quiet and not before:
            self._tell(replace(real, hints=hints))
        self.attempt = Attempt(refusal, name, origin, wrong, sets)
        return self._try_next()

    def _tell(self, finding):
        """Notes a refusal; one at a place where there is one already adds its hints."""
        same = next((f for f in self.refusals if (f.file, f.line, f.column, f.code) == (finding.file, finding.line, finding.column, finding.code)), None)
        if same is None:
            self.refusals.append(finding)
        else:
            self.refusals[self.refusals.index(same)] = replace(same, hints=same.hints + tuple(h for h in finding.hints if h not in same.hints))

    def _goes_wrong(self, refusal, name, offset):
        """The offset in the real file at which a declaration or function goes wrong; of what isn't G1, or goes wrong elsewhere, its place."""
        origin = self.copy.texts[name].origin
        found = self._view(name, offset) if refusal.code == "G1" else None
        error = self._error(*found) if found is not None else None
        word = found[0].words[min(error[0], len(found[0].words) - 1)] if error is not None else None
        return origin[word.start] if word is not None and word.source.name == name else origin[offset]

    def _try_next(self):
        attempt = self.attempt
        if not attempt.left:
            return False
        before = self._names()
        by_file = {}
        for name, start, end, text in attempt.left.pop(0):
            by_file.setdefault(name, []).append((start, end, text))
            if text.startswith("typedef int "):
                self.types.add(text.split()[2].rstrip(";"))
        attempt.saved = {name: self.copy.texts[name].saved() for name in by_file}
        attempt.spans = []
        for name, edits in by_file.items():
            origin = self.copy.texts[name].origin
            attempt.spans += [(name, origin[start], origin[end]) for start, end, _ in edits if start < end]
            self.copy.texts[name].edit(edits)
        self._forget(by_file)
        self.done += bool(attempt.spans)
        self.gone |= before - self._names()
        return True

    def _has_failed(self, refusal, name, offset):
        """Whether what p10 says now comes of the edits: it stands in them, or at or before the refusal that they were for."""
        attempt = self.attempt
        now, then = _phase(refusal.code), _phase(attempt.refusal.code)
        if now != then or name != attempt.name:
            return now < then
        origin = self.copy.texts[name].origin[offset]
        if origin <= attempt.origin:
            return origin < attempt.origin or self._goes_wrong(refusal, name, offset) <= attempt.wrong
        return self._put_in(name, offset) and any(span[0] == name and span[1] <= origin < span[2] for span in attempt.spans)

    def _put_in(self, name, offset):
        """Whether a byte of the copy was put in rather than kept."""
        origin = self.copy.texts[name].origin
        return offset + 1 < len(origin) and origin[offset + 1] - origin[offset] != 1

    def _sets(self, refusal, name, offset):
        """Hints, the sets of edits to try, and whether the refusal comes of what was set aside before."""
        text = self.copy.texts[name].text
        if refusal.code[0] in "XD":
            return (), [[(name,) + span] for span in spans(refusal.code, text, offset)], False
        found = self._view(name, offset)
        if refusal.code == "S28":
            own = found is not None and next((f for f in found[0].unit.functions if f.name == "main"), None)
            return (), self._another_main(found[0] if own else None, own, name), self.library and not own
        if found is None:
            return (), [[(name,) + span] for span in spans("D1", text, offset)], False
        view, i = found
        word = view.words[i].text
        if refusal.code == "G1":
            return self._grammar(view, i, name)
        if refusal.code == "S27":
            return (), self._definition(view, i, name), self.library or word in self.gone
        return self._of_macro(view, i), sets_for(refusal.code, view, i), self._comes_of_gone(refusal.code, view, i)

    def _comes_of_gone(self, code, view, i):
        """Whether names, members or types are lacking only since something was set aside, or a type was put in."""
        if code in ("S2", "S4", "S12") and view.is_declared_as(i, self.types):
            return True
        first, end = view.of_use(i)
        near = view.words[first:end] if not view.alone(i) else view.words[i:i + 1] if code == "S1" else view.words[i:i + 3]
        return code in ("S1", "S12", "S25") and any(w.kind == "name" and w.text in self.gone for w in near)

    def _of_macro(self, view, i):
        """A hint at the definition of the macro whose use is refused."""
        word = view.words[i]
        macro = view.unit.macros.get(word.source.text[word.start:word.end].split("(")[0].strip()) if word.hidden else None
        if macro is None or macro.at.source.name not in self.copy.texts:
            return ()
        return (self._hint(macro.at.source.name, macro.at.start, f"macro `{macro.name}` is defined here"),)

    def _grammar(self, view, i, name):
        """G1 at the item that begins at a word: where it goes wrong, by the trees made here."""
        error = self._error(view, i)
        if error is None:
            first, end = view.item(i)
            return (), [s for s in (view.cover(first, end, ""),) if s], False
        at, wanted, first = error
        hints = []
        at = min(at, len(view.words) - 1)
        word = view.words[at]
        unknown = unknown_type(view, at, first)
        lacking = f"; nothing declares `{view.words[unknown].text}`" if unknown is not None else ""
        hints.append(self._hint(word.source.name, word.start, f"it goes wrong at `{word.text}`, where {wanted} was expected{lacking}"))
        cut_words = cut(self.copy.texts[name].now)
        unbalanced = first_unbalanced(cut_words)
        if unbalanced is not None:
            word = cut_words[unbalanced]
            hints.append(self._hint(name, word.start, f"this `{word.text}` has no partner"))
        near = {w.text for w in view.words[max(first, at - 1):at + 1]}
        return tuple(hints), grammar(view, at, first), bool(near & self.gone)

    @staticmethod
    def _error(view, i):
        """Where the item in which a word stands goes wrong by the trees made here, or None."""
        return next((e for e in view.unit.errors if e[2] <= i < view.item(e[2])[1]), None)

    def _hint(self, name, offset, text):
        kept = self.copy.texts[name]
        return (kept.real.name,) + kept.real.place(kept.origin[min(offset, len(kept.text))]) + (text,)

    def _another_main(self, view, own, name):
        """S28: a `main` of another form gets another name, and one is put at the end."""
        end = len(self.copy.texts[name].text)
        put = (name, end, end, "\n" + MAIN)
        renamed = view.cover(own.at, own.at + 1, "main_of_another_form") if own else []
        return [renamed + [put]]

    def _definition(self, view, i, name):
        """S27: what isn't defined gets a definition at the end, or else isn't used."""
        end = len(self.copy.texts[name].text)
        text = definition(view, i)
        return ([[(name, end, end, "\n" + text)]] if text else []) + sets_for("S1", view, i)

    # Trees.

    def _forget(self, names):
        """Drops the trees of roots that read a file of these."""
        self.units = {root: unit for root, unit in self.units.items() if not unit[1] & set(names)}

    def _unit(self, root):
        if root not in self.units:
            unit = self.copy.unit(root)
            self.units[root] = (unit, {w.source.name for w in unit.words} | {root})
        return self.units[root][0]

    def _view(self, name, offset):
        """The view of a root that reads a place, and the index of the word there, or None."""
        for root in self.copy.roots:
            view = View(self._unit(root))
            i = view.index(name, offset)
            if i is not None:
                return view, i
        return None

    def _names(self):
        """All names that are declared: of file scope, of members, of macros."""
        names = set()
        for root in self.copy.roots:
            unit = self._unit(root)
            names |= set(unit.names) | {member for members in unit.structs.values() for member, _ in members}
            names |= {variable for f in unit.functions for variable, _, _ in f.variables}
            names |= set(unit.macros)
        return names


def _phase(code):
    """The number of the phase in which a refusal is told: of one phase they come in the order of the text."""
    return {"S27": 4, "S28": 5}.get(code, "XDGS".index(code[0]))


def search(p10, roots, library):
    """Found of a program of these roots; with `library` each root gets a `main` where it has none."""
    includes = list(dict.fromkeys(d for root in roots for d in root.includes))
    with Copy(roots, includes) as copy:
        return Search(p10, copy, library).run()
