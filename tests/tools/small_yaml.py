"""The YAML of the pipelines of docs/ci.md: maps and lists by their indentation, lists between brackets, and plain scalars, which stay texts.

Any other form is a ValueError: no page of ours needs more, and what isn't understood isn't taken for something else."""
import re

KEY = re.compile(r"([A-Za-z_][A-Za-z0-9_-]*):(?: +(.*))?")
ITEM = re.compile(r"-(?: +(.*))?")


def read(text):
    """The value of a document."""
    lines = [(len(line) - len(line.lstrip(" ")), line.strip()) for line in text.split("\n") if line.strip() and not line.strip().startswith("#")]
    value, rest = _block(lines)
    if rest:
        raise ValueError(f"the line {rest[0][1]!r} belongs to nothing")
    return value


def _block(lines):
    """The map or list whose first line comes first, and the lines after it."""
    indent, first = lines[0]
    is_list = ITEM.fullmatch(first) is not None
    made = [] if is_list else {}
    while lines and lines[0][0] == indent and (ITEM.fullmatch(lines[0][1]) is not None) == is_list:
        text = lines[0][1]
        if is_list:
            value, lines = _item(ITEM.fullmatch(text)[1], lines)
            made.append(value)
            continue
        match = KEY.fullmatch(text)
        if match is None or match[1] in made:
            raise ValueError(f"{text!r} is no member, or stands twice")
        made[match[1]], lines = _member(match[2], lines)
    return made, lines


def _item(text, lines):
    """What stands after a `-`: a map that begins on this line, or a scalar."""
    indent = lines[0][0]
    if text is not None and KEY.fullmatch(text):
        return _block([(indent + lines[0][1].index(text), text)] + lines[1:])
    return _member(text, lines)


def _member(text, lines):
    """A value on this line, or the deeper block after it."""
    if text is not None:
        return _scalar(text), lines[1:]
    if len(lines) < 2 or lines[1][0] <= lines[0][0]:
        raise ValueError(f"{lines[0][1]!r} has no value")
    return _block(lines[1:])


def _scalar(text):
    if text.startswith("[") and text.endswith("]"):
        return [_scalar(part.strip()) for part in text[1:-1].split(",")]
    if not text or text[0] in "-?:,[]{}#&*!|>'\"%@`" or re.search(r": | #|:$", text):
        raise ValueError(f"{text!r} is no plain scalar")
    return text
