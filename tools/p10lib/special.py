"""What is set aside for refusals of each code: less than the whole expression or statement, where that may do."""
from .expressions import bare
from .mends import FLOATING, generic, statement_around
from .words import partner

EXPRESSIONS = {"name", "number", "char", "string", "index", "call", "member", "arrow", "dereference", "address", "unary", "binary", "logic",
               "conditional", "cast", "sizeof", "assign", "step", "paren", "comma"}


def starting(view, i, kinds):
    """The expressions of these kinds that begin at a word, the outermost first; parentheses before them count."""
    return [bare(n) for n in view.path(i) if n.kind in EXPRESSIONS and n.first == i and bare(n).kind in kinds]


def made_by_macro(view, first, end):
    """Whether a macro gave some of these words, so that no single one of them can be edited."""
    return any(word.hidden for word in view.words[first:end])


def without(view, first, end):
    """The edit that removes words, none where a macro gave them."""
    return [] if made_by_macro(view, first, end) else view.cover(first, end, "")


def replaced(view, node, text="0"):
    """The edit that puts text in the place of an expression."""
    return view.cover(node.first, node.end, text)


def step_or_assignment(view, i):
    """S7: `x++` becomes `x`, and `x = e` becomes `e`; but `a = b, c = d;` two statements."""
    sets = comma(view, i)
    for node in starting(view, i, {"step", "assign"}):
        if node.kind == "assign":
            sets.append(without(view, node.first, node.parts[1].first))
        else:
            at = node.first if view.words[node.first].text in ("++", "--") else node.end - 1
            sets.append(without(view, at, at + 1))
    return sets


def comma(view, i):
    """S8: the statement `a, b;` becomes `{ a; b; }`."""
    path = view.path(i)
    statement = next((n for n in reversed(path) if n.kind == "expression"), None)
    if statement is None or statement.parts[0].kind != "comma" or made_by_macro(view, statement.first, statement.end):
        return [replaced(view, n, "0") for n in starting(view, i, {"comma"})]
    edits = []
    parts = statement.parts[0].parts
    for before, after in zip(parts, parts[1:]):
        edits += view.cover(before.end, after.first, ";")
    first, last = view.words[statement.first], view.words[statement.end - 1]
    name = first.source.name
    return [[(name, first.start, first.start, "{")] + edits + [(name, last.end, last.end, "}")]] if edits else []


def calls_in(node):
    """The outermost calls of an expression."""
    if node.kind == "call":
        return [node]
    return [call for part in node.parts if part is not None for call in calls_in(part)]


def unordered(view, i):
    """S9: the calls of the expression become 0; of a call with unordered arguments, those in its arguments."""
    sets = []
    for node in starting(view, i, {"binary", "assign", "index", "call", "conditional", "logic", "dereference"}):
        calls = [c for part in (node.parts[1:] if node.kind == "call" else [node]) for c in calls_in(part)]
        sets.append([e for call in calls for e in replaced(view, call)])
    return sets


def cast(view, i):
    """S10: the cast is dropped."""
    sets = []
    for node in starting(view, i, {"cast"}):
        sets.append(without(view, node.first, node.parts[0].first))
        sets.append(replaced(view, node))
    return sets


def floating(view, i):
    """S19: a floating type becomes int."""
    near = [j for j in (i, i + 1, i + 2) if j < len(view.words) and view.words[j].text in FLOATING]
    edits = [e for j in near[:1] for e in view.cover(j, j + 1, "int")]
    double_long = near and any(view.words[j].text == "long" for j in (near[0] - 1, near[0] + 1) if 0 <= j < len(view.words))
    return [[e[:3] + ("",) for e in edits] if double_long else edits]


def union(view, i):
    """S20: a union becomes a structure, and the width of a bit-field is dropped."""
    if view.words[i].text == "union":
        return [view.cover(i, i + 1, "struct")]
    colon = next((j for j in range(i, min(i + 3, len(view.words))) if view.words[j].text == ":"), None)
    if colon is None:
        return []
    end = colon
    while end < len(view.words) and view.words[end].text not in (",", ";"):
        end += 1
    return [view.cover(colon, end, "")]


def specifier(view, i):
    """S22: the words that the subset doesn't have are dropped; of a cast to `volatile`, the expression becomes 0."""
    dropped = ("volatile", "register", "auto", "restrict", "inline", "extern")
    first, end = view.item(i)
    low, high = statement_around(view, i, first, end)
    own = view.cover(i, i + 1, "") if view.words[i].text in dropped and view.alone(i) else []
    near = [e for j in range(low, high) if view.words[j].text in dropped and view.alone(j) and _same_declaration(view, i, j)
            for e in view.cover(j, j + 1, "")]
    return [own, near] + smallest(view, i)


def _same_declaration(view, i, j):
    return not any(view.words[k].text in ("{", "}", ";", ")") for k in range(min(i, j), max(i, j)))


def prototype(view, i):
    """S23: `()` becomes `(void)`, and `...` is dropped."""
    for at in (i, i + 1):
        if at < len(view.words) and view.words[at].text == "(":
            close = partner(view.words, at)
            if close == at + 1:
                return [view.cover(at, close + 1, "(void)")]
            if close is not None and view.words[close - 1].text == "...":
                return [view.cover(close - 2, close, "")]
    return []


def pointer(view, i):
    """S24: a pointer to void becomes one to unsigned char, one to a function an int, and a function's name 0."""
    words = view.words
    if words[i].text != "*":
        return [replaced(view, n) for n in starting(view, i, {"name", "paren"})]
    base = i - 1
    while base > 0 and words[base].text in ("const", "volatile", "*"):
        base -= 1
    sets = []
    if words[base].text == "void":
        sets.append(view.cover(base, base + 1, "unsigned char"))
    if words[i - 1].text == "(":
        close = partner(words, i - 1)
        if close is not None and close + 1 < len(words) and words[close + 1].text == "(":
            last = partner(words, close + 1)
            edits = view.cover(i - 1, i + 1, " ") + (view.cover(close, last + 1, "") if last else [])
            before = i - 2
            while before > 0 and words[before].text in ("const", "*"):
                before -= 1
            sets.append(edits + (view.cover(before, before + 1, "int") if words[before].text == "void" else []))
    return sets


def array_length(view, i):
    """S21: the array gets one element."""
    at = next((j for j in range(i, min(i + 3, len(view.words))) if view.words[j].text == "["), None)
    close = partner(view.words, at) if at is not None else None
    return [] if close is None else [view.cover(at, close + 1, "[1]")]


def unknown(view, i):
    """S1: a type gets a definition, and the expression that begins with the name becomes 0."""
    words, sets = view.words, []
    after = words[i + 1].text if i + 1 < len(words) else ""
    further = words[i + 2] if i + 2 < len(words) else None
    if after == "*" and further is not None and further.kind == "name" and words[i - 1].text in ("{", "}", ";", "("):
        head = words[view.item(i)[0]]
        sets.append([(head.source.name, head.start, head.start, f"typedef int {words[i].text}; ")])
    return sets + arguments_kept(view, i) + smallest(view, i)


def arguments_kept(view, i):
    """A call that is a statement becomes its arguments, each cast to void."""
    statement = next((n for n in reversed(view.path(i)) if n.kind == "expression"), None)
    call = bare(statement.parts[0]) if statement is not None else None
    if call is None or call.kind != "call" or not call.first <= i < call.parts[0].end or made_by_macro(view, call.first, call.end):
        return []
    kept = [part for part in call.parts[1:] if part.kind not in ("name", "number", "char", "string")]
    if not kept:
        return []
    edits = view.cover(statement.first, kept[0].first, "{ (void)(")
    for before, after in zip(kept, kept[1:]):
        edits += view.cover(before.end, after.first, "); (void)(")
    return [edits + view.cover(kept[-1].end, statement.end, "); }")]


def smallest(view, i):
    """Expressions that begin at a word become 0, the smallest first; a call with the name that it calls."""
    nodes = [n for n in view.path(i) if n.kind in EXPRESSIONS and n.first == i]
    nodes = [n for n in nodes if not any(m.kind in ("call", "member", "arrow", "index") and m.parts[0] is n for m in nodes)]
    return [replaced(view, n) for n in reversed(nodes)]


def value_aside(view, i):
    """S2 to S6, S11 to S18: the value of an assignment becomes 0, or the expression that begins here does."""
    sets = [replaced(view, n.parts[1]) for n in starting(view, i, {"assign"})]
    return sets + list(reversed(smallest(view, i)))[:1] + smallest(view, i)


def called(view, i):
    """S6: the call becomes its arguments, or 0."""
    return arguments_kept(view, i) + value_aside(view, i)


def label(view, i):
    """S29: a label is dropped, and a jump becomes nothing."""
    words = view.words
    if words[i].kind == "name" and i + 1 < len(words) and words[i + 1].text == ":":
        return [view.cover(i, i + 2, "")]
    return []


SPECIAL = {
    "S1": unknown, "S6": called, "S7": step_or_assignment, "S8": comma, "S9": unordered, "S10": cast, "S19": floating, "S20": union, "S21": array_length,
    "S22": specifier, "S23": prototype, "S24": pointer, "S29": label,
}


def sets_for(code, view, i):
    """The sets of edits for a refusal at a word, the smallest first."""
    own = SPECIAL.get(code, value_aside if code.startswith("S") else lambda view, i: [])(view, i)
    kept = []
    for edits in own + generic(view, i):
        if edits and edits not in kept:
            kept.append(edits)
    return kept
