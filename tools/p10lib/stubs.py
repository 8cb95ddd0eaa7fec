"""Definitions for what a program declares and uses, and doesn't define."""
from .words import NESTING


def definition(view, i):
    """A definition of the function or object that the word at `i` names, or an empty text where its declaration isn't found."""
    name = view.words[i].text
    found = view.unit.names.get(name)
    if found is None:
        return ""
    for first, end in view.unit.items:
        words = view.words[first:end]
        texts = [word.text for word in words]
        if not any(word.text == name and word.kind == "name" for word in words) or not _declares_one(texts):
            continue
        text = " ".join(text for text in texts[:-1] if text != "extern")
        if found[0] != "function":
            return text + ";\n"
        if found[1][2] and not all(parameter for parameter, _, _ in found[1][2]):
            return ""
        return text + (" { return 0; }\n" if found[1][1] != ("void",) else " { }\n")
    return ""


def _declares_one(texts):
    """Whether words are a declaration of one name without an initialiser, so that they become a definition as they stand."""
    depth = 0
    for text in texts:
        depth += NESTING.get(text, 0)
        if text in ("typedef", "{", "=") or text == "," and depth == 0:
            return False
    return texts[-1] == ";"
