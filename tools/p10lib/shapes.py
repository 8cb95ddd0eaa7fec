"""Types of trees, sizes, numbers of scalars, and constants, in the profile's widths. None stands for what isn't known."""
import re

SIZES = {"_Bool": 1, "char": 1, "short": 2, "long": 8, "float": 4, "double": 8}
ESCAPES = {"n": 10, "t": 9, "r": 13, "0": 0, "\\": 92, "'": 39, '"': 34, "a": 7, "b": 8, "f": 12, "v": 11, "?": 63}


def size(made, unit):
    """The bytes of an object of this type."""
    kind = made[0]
    if kind == "int":
        return next((SIZES[word] for word in made[1].split() if word in SIZES), 4)
    if kind == "pointer":
        return 8
    if kind == "array":
        count, one = made[2] and constant(made[2], unit.names, unit), size(made[1], unit)
        return None if count is None or one is None else count * one
    if kind == "struct" and made[1] in unit.structs:
        total, widest = 0, 1
        for _, member in unit.structs[made[1]]:
            bytes_, to = size(member, unit), alignment(member, unit)
            if bytes_ is None:
                return None
            total += -total % to + bytes_
            widest = max(widest, to)
        return total + -total % widest
    return None


def alignment(made, unit):
    """The bytes to whose multiples an object of this type is moved."""
    if made[0] == "array":
        return alignment(made[1], unit)
    if made[0] == "struct":
        return max([alignment(m, unit) for _, m in unit.structs.get(made[1], [])] or [1])
    return size(made, unit) or 1


def scalars(made, unit):
    """How many scalars an object of this type has."""
    if made[0] == "array":
        count, one = made[2] and constant(made[2], unit.names, unit), scalars(made[1], unit)
        return None if count is None or one is None else count * one
    if made[0] == "struct":
        counts = [scalars(member, unit) for _, member in unit.structs.get(made[1], [])]
        return None if None in counts or not counts else sum(counts)
    return 1


def type_of(node, names, unit):
    """The type of an expression as far as members, elements and targets of pointers need it."""
    kind = node.kind
    if kind == "paren":
        return type_of(node.parts[0], names, unit)
    if kind == "name":
        found = names.get(node.text) or unit.names.get(node.text)
        return found[1] if found and found[0] in ("object", "function") else ("unknown",)
    if kind in ("index", "dereference", "arrow"):
        made = type_of(node.parts[0], names, unit)
        made = made[1] if made[0] in ("array", "pointer") else ("unknown",)
        return member(made, node.text, unit) if kind == "arrow" else made
    if kind == "member":
        return member(type_of(node.parts[0], names, unit), node.text, unit)
    if kind == "call":
        made = type_of(node.parts[0], names, unit)
        return made[1] if made[0] == "function" else ("unknown",)
    if kind == "cast":
        return node.type
    if kind == "address":
        return ("pointer", type_of(node.parts[0], names, unit))
    if kind == "binary" and node.text in "+-":
        return next((t for t in (type_of(p, names, unit) for p in node.parts) if t[0] in ("pointer", "array")), ("int", "int"))
    return ("int", "int")


def member(made, name, unit):
    """The type of a structure's member."""
    return next((t for n, t in unit.structs.get(made[1], []) if n == name), ("unknown",)) if made[0] == "struct" else ("unknown",)


def number(text):
    """The value of an integer constant, or None."""
    digits = re.fullmatch(r"(0[xX][0-9a-fA-F]+|[0-9]+)[uUlL]*", text)
    if not digits:
        return None
    digits = digits.group(1)
    if digits[:2] in ("0x", "0X"):
        return int(digits, 16)
    try:
        return int(digits, 8 if digits[0] == "0" else 10)
    except ValueError:
        return None


def character(text):
    """The value of a character constant."""
    if text[1] != "\\":
        return ord(text[1])
    if text[2] == "x":
        return int(text[3:-1], 16)
    return int(text[2:-1], 8) if text[2].isdigit() else ESCAPES.get(text[2])


def divided(a, b):
    """C's quotient, toward zero."""
    return None if b == 0 else abs(a) // abs(b) * (1 if (a < 0) == (b < 0) else -1)


BINARY = {
    "+": lambda a, b: a + b, "-": lambda a, b: a - b, "*": lambda a, b: a * b, "/": divided,
    "%": lambda a, b: None if b == 0 else a - b * divided(a, b), "<<": lambda a, b: a << b if 0 <= b < 64 else None,
    ">>": lambda a, b: a >> b if 0 <= b < 64 else None, "&": lambda a, b: a & b, "|": lambda a, b: a | b, "^": lambda a, b: a ^ b,
    "==": lambda a, b: int(a == b), "!=": lambda a, b: int(a != b), "<": lambda a, b: int(a < b), ">": lambda a, b: int(a > b),
    "<=": lambda a, b: int(a <= b), ">=": lambda a, b: int(a >= b), "&&": lambda a, b: int(bool(a and b)), "||": lambda a, b: int(bool(a or b)),
}


def constant(node, names, unit=None):
    """The value of a constant expression, or None. Wrapping isn't followed."""
    kind = node.kind
    if kind == "number":
        return number(node.text)
    if kind == "char":
        return character(node.text)
    if kind == "name":
        found = names.get(node.text) or (unit.names.get(node.text) if unit else None)
        return enumerator(node.text, names if node.text in names else unit.names, unit) if found and found[0] == "enum" else None
    if kind == "sizeof" and unit:
        return size(node.type or type_of(node.parts[0], names, unit), unit)
    values = [constant(part, names, unit) for part in node.parts]
    if None in values or not values:
        return None
    if kind in ("paren", "cast"):
        return values[0]
    if kind == "unary":
        return {"-": -values[0], "+": values[0], "~": ~values[0], "!": int(not values[0])}[node.text]
    if kind in ("binary", "logic"):
        return BINARY[node.text](*values)
    if kind == "conditional":
        return values[1] if values[0] else values[2]
    return None


def enumerator(name, names, unit):
    """The value of an enumerator, found along the row of those before it."""
    steps, found = 0, names.get(name)
    while found and found[0] == "enum":
        if found[1] is not None:
            value = constant(found[1], names, unit)
            return None if value is None else value + steps
        if found[2] is None:
            return steps
        steps, found = steps + 1, names.get(found[2])
    return None
