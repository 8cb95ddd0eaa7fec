"""Expressions, by the grammar of docs/profile.md, with the first word at which they go wrong.

A tree is a Node: `kind`, the indices of its first word and of the one after its last, its `parts`, and its `text` (an operator, a
name). Types are tuples: ("int", name), ("pointer", to), ("array", of, length tree or None), ("function", result, parameters),
("struct", tag), ("void",), ("unknown",)."""
from dataclasses import dataclass, field

STORAGE = {"typedef", "extern", "static", "auto", "register"}
QUALIFIERS = {"const", "volatile", "restrict", "inline"}
TYPE_WORDS = {"void", "char", "short", "int", "long", "float", "double", "signed", "unsigned", "_Bool", "_Complex"}
STATEMENTS = {"if", "else", "switch", "while", "do", "for", "goto", "break", "continue", "return", "case", "default"}
KEYWORDS = STORAGE | QUALIFIERS | TYPE_WORDS | STATEMENTS | {"struct", "union", "enum", "sizeof"}
LEVELS = [{"||"}, {"&&"}, {"|"}, {"^"}, {"&"}, {"==", "!="}, {"<", ">", "<=", ">="}, {"<<", ">>"}, {"+", "-"}, {"*", "/", "%"}]
LEVEL = {operator: level for level, operators in enumerate(LEVELS) for operator in operators}
ASSIGNMENTS = {"=", "+=", "-=", "*=", "/=", "%=", "&=", "|=", "^=", "<<=", ">>="}


class ParseError(Exception):
    """The word at index `at` doesn't go on; `wanted` says what could."""

    def __init__(self, at, wanted):
        super().__init__(wanted)
        self.at, self.wanted = at, wanted


@dataclass
class Node:
    kind: str
    first: int
    end: int = 0
    parts: list = field(default_factory=list)
    text: str = ""
    type: tuple = ()


def bare(node):
    """An expression without the parentheses around it."""
    while node.kind == "paren":
        node = node.parts[0]
    return node


class Expressions:
    """A recursive descent over words; `scopes` tell which names are types. `type_name` is the Parser's."""

    def __init__(self, words):
        self.words, self.at = words, 0
        self.scopes = [{}]

    # Words.

    def text(self, ahead=0):
        at = self.at + ahead
        if at >= len(self.words) or self.words[at].kind in ("string", "char"):
            return ""
        return self.words[at].text

    def kind(self, ahead=0):
        at = self.at + ahead
        return self.words[at].kind if at < len(self.words) else "end"

    def take(self, text, wanted=None):
        if self.text() != text:
            raise ParseError(self.at, wanted or f"`{text}`")
        self.at += 1

    def accept(self, *texts):
        if self.text() in texts and self.kind() != "end":
            self.at += 1
            return True
        return False

    def name(self, wanted="a name"):
        if self.kind() != "name" or self.text() in KEYWORDS:
            raise ParseError(self.at, wanted)
        self.at += 1
        return self.words[self.at - 1].text

    def node(self, kind, first, parts=(), text="", type=()):
        return Node(kind, first, self.at, list(parts), text, type)

    def look_up(self, name):
        for scope in reversed(self.scopes):
            if name in scope:
                return scope[name]
        return None

    # Expressions.

    def comma(self, wanted="an expression"):
        first = self.at
        parts = [self.assign(wanted)]
        while self.accept(","):
            parts.append(self.assign())
        return parts[0] if len(parts) == 1 else self.node("comma", first, parts)

    def assign(self, wanted="an expression"):
        first = self.at
        target = self.conditional(wanted)
        if self.text() in ASSIGNMENTS and target.kind not in ("binary", "logic", "conditional", "cast"):
            operator = self.text()
            self.at += 1
            return self.node("assign", first, [target, self.assign()], operator)
        return target

    def conditional(self, wanted="an expression"):
        first = self.at
        value = self.binary(0, wanted)
        if not self.accept("?"):
            return value
        chosen = self.comma()
        self.take(":")
        return self.node("conditional", first, [value, chosen, self.conditional()])

    def binary(self, level, wanted="an expression"):
        """An operator of this level or of one that binds more closely, with its operands."""
        first = self.at
        left = self.cast(wanted)
        while self.kind() == "punct" and LEVEL.get(self.text(), -1) >= level:
            operator = self.text()
            self.at += 1
            right = self.binary(LEVEL[operator] + 1)
            left = self.node("logic" if LEVEL[operator] < 2 else "binary", first, [left, right], operator)
        return left

    def cast(self, wanted):
        first = self.at
        if self.text() == "(" and self.starts_type(1):
            self.at += 1
            made = self.type_name()
            self.take(")")
            return self.node("cast", first, [self.cast("an operand")], type=made)
        return self.unary(wanted)

    def unary(self, wanted):
        first, text = self.at, self.text()
        if text in ("++", "--"):
            self.at += 1
            return self.node("step", first, [self.unary("an operand")], text)
        if text in ("&", "*", "+", "-", "~", "!"):
            self.at += 1
            kind = {"&": "address", "*": "dereference"}.get(text, "unary")
            return self.node(kind, first, [self.cast("an operand")], text)
        if text == "sizeof":
            self.at += 1
            if self.text() == "(" and self.starts_type(1):
                self.at += 1
                made = self.type_name()
                self.take(")")
                return self.node("sizeof", first, type=made)
            return self.node("sizeof", first, [self.unary("an operand")])
        return self.postfix(wanted)

    def postfix(self, wanted):
        first = self.at
        value = self.primary(wanted)
        while True:
            if self.accept("["):
                value = self.node("index", first, [value, self.comma()])
                self.take("]", "an operator or `]`")
            elif self.accept("("):
                parts = []
                while not self.accept(")"):
                    if parts:
                        self.take(",", "an operator, `,` or `)`")
                    parts.append(self.assign())
                value = self.node("call", first, [value] + parts)
            elif self.text() in (".", "->"):
                kind = "member" if self.text() == "." else "arrow"
                self.at += 1
                value = self.node(kind, first, [value], self.name("a member"))
            elif self.text() in ("++", "--"):
                self.at += 1
                value = self.node("step", first, [value], self.words[self.at - 1].text)
            else:
                value.end = max(value.end, self.at)
                return value

    def primary(self, wanted):
        first, kind = self.at, self.kind()
        if kind == "name" and self.text() not in KEYWORDS:
            found = self.look_up(self.text())
            if found is None or found[0] != "type":
                self.at += 1
                return self.node("name", first, text=self.words[first].text, type=found or ())
        elif kind in ("number", "char", "string"):
            self.at += 1
            while kind == "string" and self.kind() == "string":
                self.at += 1
            return self.node(kind, first, text=self.words[first].text)
        elif self.accept("("):
            value = self.comma()
            self.take(")", "an operator or `)`")
            return self.node("paren", first, [value])
        raise ParseError(self.at, wanted)
