"""What is set aside for a refusal, so that p10 goes on after it: sets of edits, the smallest first.

An edit is (file in the copy, start, end, text). A set is tried, and where p10 then refuses the same place again, the next one is."""
from .expressions import KEYWORDS
from .words import NESTING, partner

EXTENSIONS = {"__attribute__", "__attribute", "__asm__", "__asm", "asm", "__extension__", "__inline", "__inline__", "__volatile__",
              "__volatile", "__restrict", "__restrict__", "__const", "_Static_assert", "static_assert", "_Noreturn", "_Alignas",
              "__packed", "__weak", "__interrupt", "__irq", "__declspec", "__forceinline", "_Atomic", "_Thread_local", "__thread"}
ASSERTIONS = {"_Static_assert", "static_assert"}
STATEMENT_KINDS = {"if", "while", "do", "switch", "for", "return", "expression", "declaration", "variable", "static", "goto", "break",
                   "continue", "empty"}
TYPE_WORDS = {"unsigned", "signed", "char", "short", "int", "long", "void", "struct", "union", "enum", "float", "double"}
FLOATING = {"float", "double", "_Complex"}


class View:
    """The words and trees of a root, with the way from a place to the tree there."""

    def __init__(self, unit):
        self.unit, self.words = unit, unit.words

    def index(self, name, offset):
        """The index of the word at an offset of a file, or None where the root doesn't read it."""
        at = None
        for i, word in enumerate(self.words):
            if word.source.name == name and word.start <= offset < word.end:
                return i
            if at is None and word.source.name == name and word.start > offset:
                at = i
        return at

    def function(self, i):
        """The function in which a word stands, or None."""
        return next((f for f in self.unit.functions if f.first <= i < f.end), None)

    def item(self, i):
        """The span of the declaration or function in which a word stands."""
        return next(((a, b) for a, b in self.unit.items if a <= i < b), (i, i + 1))

    def path(self, i):
        """The trees of a function's body or of an initialiser in which a word stands, the outermost first."""
        function = self.function(i)
        trees = []
        here = [function.body] if function else self.unit.values
        while here:
            node = next((n for n in here if n is not None and n.first <= i < n.end), None)
            if node is None:
                break
            trees.append(node)
            here = node.parts
        return trees

    def cover(self, first, end, text):
        """The edit that puts text in the place of words; none where they come from several files."""
        if first >= end:
            return []
        one, last = self.words[first], self.words[end - 1]
        if one.source.name != last.source.name or one.start >= last.end:
            return []
        return [(one.source.name, one.start, last.end, text)]

    def of_use(self, i):
        """The span of the words that came of the same use of a macro as a word; of another word, itself."""
        first, end, word = i, i + 1, self.words[i]
        while first > 0 and word.hidden and self._same_use(self.words[first - 1], word):
            first -= 1
        while end < len(self.words) and word.hidden and self._same_use(self.words[end], word):
            end += 1
        return first, end

    @staticmethod
    def _same_use(one, other):
        return bool(one.hidden) and one.source is other.source and one.start == other.start

    def alone(self, i):
        """Whether a word is all that is written at its place."""
        return self.of_use(i) == (i, i + 1)

    def is_declared_as(self, i, types):
        """Whether the name that stands at a word, or after brackets and operators there, is declared with one of these types."""
        while i + 1 < len(self.words) and self.words[i].text in ("(", "*", "&"):
            i += 1
        for j in range(len(self.words) - 1):
            if self.words[j].text in types:
                at = next((k for k in range(j + 1, len(self.words)) if self.words[k].text not in ("*", "const")), j)
                if self.words[at].kind == "name" and self.words[at].text == self.words[i].text:
                    return True
        return False

    def text(self, first, end):
        """The text of words, as it stands in the copy."""
        edit = self.cover(first, end, "")
        return self.words[first].source.text[edit[0][1]:edit[0][2]] if edit else " ".join(w.text for w in self.words[first:end])

    def outer(self, i, opening):
        """The index of the nearest bracket of this kind that is open at a word, or None."""
        depth = 0
        for at in range(i - 1, -1, -1):
            text = self.words[at].text
            if text == opening and depth == 0:
                return at
            depth = max(0, depth - NESTING.get(text, 0))
        return None


def statement_around(view, i, low, high):
    """The span of the simple statement or member around a word, by brackets alone: after `;`, `{` or `}`, up to a `;`."""
    words, first, depth = view.words, i, 0
    while first > low and (depth > 0 or words[first - 1].text not in (";", "{", "}")):
        first -= 1
        depth -= NESTING.get(words[first].text, 0)
    depth = 0
    for end in range(i, high):
        depth += NESTING.get(words[end].text, 0)
        if depth < 0:
            return first, end
        if depth == 0 and words[end].text == ";":
            return first, end + 1
    return first, high


def body_span(view, first, end):
    """The span between the braces of a function that begins at `first`, by brackets alone, or None."""
    for i in range(first, end):
        if view.words[i].text == "{" and i > first and view.words[i - 1].text == ")":
            close = partner(view.words, i)
            return (i + 1, close) if close is not None else None
    return None


def empty_body(view, first, end):
    """A function's body without its statements."""
    span = body_span(view, first, end)
    if span is None or span[0] >= span[1]:
        return []
    head = [w.text for w in view.words[first:span[0]]]
    head = head[:head.index("(")] if "(" in head else head
    returns = "void" not in head or "*" in head
    return view.cover(span[0], span[1], "return 0;" if returns else "")


def grammar(view, at, first):
    """Sets of edits for a declaration or function from `first` on that goes wrong at `at`."""
    words, end = view.words, view.item(first)[1]
    sets = []
    for i in (at, at - 1, opened_before(words, at) - 1):
        if first <= i < end and words[i].text in EXTENSIONS:
            sets.append(view.cover(i, end_of_extension(words, i, end), ""))
    sets.append(designators(view, first, end, at))
    unknown = unknown_type(view, at, first)
    if unknown is not None and unknown + 1 < end and words[unknown + 1].text in TYPE_WORDS:
        sets.append(view.cover(unknown, unknown + 1, ""))  # a qualifier, as an empty macro is
    elif unknown is not None:
        head = words[first]
        sets.append([(head.source.name, head.start, head.start, f"typedef int {words[unknown].text}; ")])
    span = body_span(view, first, end)
    inside = span if span and span[0] <= at < span[1] else None
    if at < end:
        low, high = inside or (first, end)
        one = statement_around(view, at, low, high)
        if one != (first, end) and (one[1] >= end or words[one[1]].text != ")"):  # no half of a list of parameters
            sets.append(view.cover(one[0], one[1], ";" if inside else ""))
    sets += [empty_body(view, first, end), view.cover(first, end, "")]
    return [s for s in sets if s]


def opened_before(words, at):
    """The index of the bracket that is closed directly before a word, or 0."""
    depth = 0
    for i in range(at - 1, -1, -1):
        depth -= NESTING.get(words[i].text, 0)
        if depth <= 0:
            return i if depth == 0 and i < at - 1 else 0
    return 0


def end_of_extension(words, i, end):
    """The index after an extension that begins at a word, with what stands in parentheses after it; of an assertion, with its `;`."""
    for j in range(i + 1, min(i + 3, end)):
        if words[j].text == "(":
            after = (partner(words, j) or i) + 1
            return after + (words[i].text in ASSERTIONS and after < len(words) and words[after].text == ";")
        if words[j].text not in ("volatile", "goto", "__volatile__"):
            break
    return i + 1


def unknown_type(view, at, first):
    """The index of a name that nothing declares where an item goes wrong, or None; of two, as in `handle_t handle;`, the first is the type."""
    near = [i for i in (at - 1, at) if first <= i < view.item(first)[1] and view.words[i].kind == "name" and _unknown(view, i)]
    return near[0] if near and view.words[near[0]].text not in EXTENSIONS else None


def _unknown(view, i):
    return view.words[i].text not in KEYWORDS and view.words[i].text not in view.unit.names


def designators(view, first, end, at):
    """All designators of an item, where it goes wrong at one."""
    edits, i = [], first
    if not (first < at < end and view.words[at].text in (".", "[") and view.words[at - 1].text in ("{", ",")):
        return []
    while i < end:
        if view.words[i].text in (".", "[") and view.words[i - 1].text in ("{", ","):
            stop = i
            while stop < end and view.words[stop].text not in ("=", ";", "}"):
                stop += 1
            if stop < end and view.words[stop].text == "=":
                edits += view.cover(i, stop + 1, "")
                i = stop
        i += 1
    return edits


def generic(view, i):
    """The expression, the statement, the body, the item around a word."""
    sets, path = [], view.path(i)
    statements = [n for n in path if n.kind in STATEMENT_KINDS]
    inner = statements[-1] if statements else None
    if inner is not None:
        sets += _of_statement(view, inner, i)
        for node in reversed(statements[:-1] if inner.kind in ("variable", "static") else statements):
            if node.kind in ("declaration", "expression", "return", "goto", "break", "continue"):
                sets.append(view.cover(node.first, node.end, "" if node.kind == "declaration" else ";"))
            break
    first, end = view.item(i)
    function = view.function(i)
    if function is not None and i >= function.body.first:
        sets.append(empty_body(view, first, end))
    elif function is None:
        sets += _of_declaration(view, first, end, i)
    sets.append(view.cover(first, end, ""))
    return [s for s in sets if s]


def _of_statement(view, node, i):
    """Edits that set an expression of a statement aside."""
    part = next((p for p in node.parts if p is not None and p.first <= i < p.end), None)
    if part is None or node.kind != "for" and part is not node.parts[0]:
        return []
    if node.kind == "for" and part is node.parts[1]:
        return []
    if node.kind in ("variable", "static"):
        return [view.cover(part.first - 1, part.end, "")]
    if node.kind == "expression":
        return [view.cover(node.first, node.end, ";")]
    if node.kind == "for" and part is not node.parts[0]:
        return [view.cover(part.first, part.end, "")] if part.kind != "declaration" else []
    return [view.cover(part.first, part.end, "0")]


def _of_declaration(view, first, end, i):
    """Edits of a declaration outside functions: a member aside, an initialiser aside."""
    sets = []
    brace = view.outer(i, "{")
    equals = next((j for j in range(first, end) if view.words[j].text == "="), None)
    if brace is not None and brace >= first and (equals is None or brace < equals) and view.words[i].text != "}":
        one = statement_around(view, i, brace + 1, partner(view.words, brace) or end)
        sets.append(view.cover(one[0], one[1], ""))
    elif equals is not None:
        sets.append(view.cover(equals, end - 1, ""))
    return sets
