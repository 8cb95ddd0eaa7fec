"""What is set aside for refusals of words and directives (X1 to X6, D1 to D8), by the text alone."""
import re

CONSTANT = re.compile(r"L?'(?:\\.|[^'\\\n])*'?|L?\"|\.?[0-9](?:[eEpP][+-]|[0-9A-Za-z_.])*", re.DOTALL)
NUMBER = re.compile(r"([0-9]+)\.?[0-9]*(?:[eE][+-]?[0-9]+)?[fFlL]?")
USE = re.compile(r"[A-Za-z_][A-Za-z0-9_]*")


def line_end(text, offset):
    """The offset of the end of the line with its splices."""
    while True:
        end = text.find("\n", offset)
        if end < 0:
            return len(text)
        if text[offset:end].rstrip("\r").endswith("\\"):
            offset = end + 1
        else:
            return end


def line_start(text, offset):
    """The offset at which the line begins, splices before it included."""
    while True:
        start = text.rfind("\n", 0, offset) + 1
        if start >= 2 and text[:start - 1].rstrip("\r").endswith("\\"):
            offset = start - 1
        else:
            return start


def group_end(text, offset):
    """The offset after the `( .. )` that follows a name, or after the name."""
    at = offset
    while at < len(text) and text[at] in " \t":
        at += 1
    if at >= len(text) or text[at] != "(":
        return offset
    depth = 0
    for i in range(at, len(text)):
        depth += {"(": 1, ")": -1}.get(text[i], 0)
        if depth == 0:
            return i + 1
    return offset


def spans(code, text, offset):
    """Parts to replace, as (start, end, text), the first try first."""
    whole = (line_start(text, offset), line_end(text, offset))
    if code in ("X1", "X5"):
        return [(offset, offset + (3 if code == "X5" else 1), " ")]
    if code == "X2":
        return [(offset, len(text), "")]
    if code == "X4":
        match = CONSTANT.match(text, offset)
        end = match.end() if match else offset + 1
        value = NUMBER.fullmatch(text, offset, end)
        made = "'0'" if match and "'" in match.group() else str(int(value.group(1))) if value else "0"
        return [(offset, end, made if made else "0"), (*whole, "")]
    if code in ("X3", "X6"):
        return [(offset, line_end(text, offset), "0;"), (*whole, "")]
    if code == "D3":
        word = re.compile(r"\s*#\s*(elif|if)").match(text, whole[0])
        return [(whole[0], whole[1], f"#{word.group(1)} 0" if word else "")]
    if code in ("D6", "D7", "D8"):
        match = USE.match(text, offset)
        end = match.end() if match else offset + 1
        return [(offset, group_end(text, end), "0"), (offset, end, "0"), (*whole, "")]
    return [(*whole, "")]
