"""Of which kind a loop is for which p10 finds no bound, in the words of docs/writing-loops.md. A guess by its text."""
from .expressions import bare
from .shapes import constant, type_of

ADVICE = {
    "Two variables that approach each other": "no single variable moves in each turn; count the turns as well",
    "A list": "nothing says that it ends; count up to its greatest length as well",
    "A guard within the body": "only the loop\u2019s condition is read; write the bound there",
    "A way back without a step": "there may be a turn in which nothing moves; count the tries as well",
    "An object as the counter": "nothing is known of objects; count by a local variable, and store it",
    "A product or a shift to the left": "how far the variable moves isn\u2019t followed; count the bits",
    "A step that may wrap": "an unsigned counter may pass the bound and begin anew; bound the end first",
    "Unequal on a signed variable": "write < or > in the place of !=",
    "Guards with ||": "neither side bounds it; write a count beside them, with &&",
    "A loop that is meant never to end": "mark it by #pragma p10 task_loop, in main",
}
COMPARED = ("<", "<=", ">", ">=", "!=")


def parts_of(node, kinds):
    """All trees of these kinds in a tree."""
    if node is None:
        return []
    found = [node] if node.kind in kinds else []
    return found + [n for part in node.parts for n in parts_of(part, kinds)]


def conjuncts(guard):
    """The parts of a guard between its outermost `&&`."""
    guard = bare(guard)
    return conjuncts(guard.parts[0]) + conjuncts(guard.parts[1]) if guard.kind == "logic" and guard.text == "&&" else [guard]


def kind_of(loop, cost):
    """The kind of a loop's node in a FunctionCost: a key of ADVICE."""
    guard, body = loop.parts[:2]
    names = {name: ("object", made) for name, made, _ in cost.function.variables}
    if guard is None or constant(guard, cost.unit.names, cost.unit):
        return "A guard within the body" if parts_of(body, ("break", "return")) else "A loop that is meant never to end"
    parts = conjuncts(guard)
    if any(part.kind == "logic" and part.text == "||" for part in parts):
        return "Guards with ||"
    moved = _moved(loop)
    kinds = [_of_part(part, names, moved, cost.unit) for part in parts]
    return next((kind for kind in kinds if kind), "A way back without a step")


def _moved(loop):
    """What a loop assigns: a name, or None of an object, with the trees that do."""
    moved = {}
    for part in loop.parts[1:2] + loop.parts[3:]:
        for node in parts_of(part, ("assign", "step")):
            target = bare(node.parts[0])
            moved.setdefault(target.text if target.kind == "name" else None, []).append(node)
    return moved


def _of_part(part, names, moved, unit):
    """The kind that one part of a guard makes likely, or None."""
    sides = [bare(side) for side in part.parts] if part.kind == "binary" and part.text in COMPARED else [part]
    if not parts_of(part, ("name",)) or (part.kind == "binary" and part.text not in COMPARED):
        return None
    variables = [side.text for side in sides if side.kind == "name" and side.text in names]
    if len([v for v in variables if v in moved]) == 2:
        return "Two variables that approach each other"
    types = [type_of(side, names, unit) for side in sides]
    if any(made[0] == "pointer" for made in types):
        return "A list"
    if any(side.kind in ("member", "arrow", "index", "dereference") or side.kind == "name" and side.text not in names
           and unit.names.get(side.text, ("",))[0] == "object" for side in sides):
        return "An object as the counter"
    steps = [node for v in variables for node in moved.get(v, [])]
    if any(node.text in ("*=", "<<=") for node in steps):
        return "A product or a shift to the left"
    signed = [v for v in variables if names[v][1][0] == "int" and "unsigned" not in names[v][1][1]]
    if part.kind == "binary" and part.text == "!=" and signed:
        return "Unequal on a signed variable"
    if any(node.text in ("+=", "-=") for node in steps) and not signed:
        return "A step that may wrap"
    return None
