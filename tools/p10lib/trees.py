"""Declarations, functions and statements, by the grammar of docs/profile.md, with the first word at which they go wrong."""
from dataclasses import dataclass, field

from .expressions import QUALIFIERS, KEYWORDS, STATEMENTS, STORAGE, TYPE_WORDS, Expressions, Node, ParseError
from .words import NESTING


@dataclass
class Function:
    """A definition: `variables` has the parameters and then the automatic variables, in order, as (name, type, word index)."""

    name: str
    at: int
    result: tuple
    parameters: list
    body: Node
    first: int
    end: int
    variables: list
    static: bool


@dataclass
class Unit:
    """A root: `items` are the spans of its declarations and functions, `errors` the places at which one goes wrong."""

    words: list
    functions: list = field(default_factory=list)
    names: dict = field(default_factory=dict)  # of file scope: ("type", T), ("enum", value tree), ("object", T), ("function", T)
    structs: dict = field(default_factory=dict)  # a tag: the members, as (name, type)
    items: list = field(default_factory=list)
    errors: list = field(default_factory=list)  # (index of the word, what was wanted, index of the item's first word)
    values: list = field(default_factory=list)  # the initialisers of file scope
    macros: dict = field(default_factory=dict)


class Parser(Expressions):
    """The trees of a root, after its macros are replaced."""

    def __init__(self, words):
        super().__init__(words)
        self.unit = Unit(words)
        self.scopes = [self.unit.names]
        self.variables, self.unnamed = None, 0

    # Declarations.

    def parse(self):
        """All declarations and functions; one that goes wrong is passed over."""
        while self.at < len(self.words):
            first = self.at
            try:
                self.external()
            except (ParseError, RecursionError) as error:
                at, wanted = (error.at, error.wanted) if isinstance(error, ParseError) else (first, "less nesting")
                self.unit.errors.append((at, wanted, first))
                self.scopes, self.variables = self.scopes[:1], None
                self.at = item_end(self.words, first)
            self.unit.items.append((first, self.at))
        return self.unit

    def starts_type(self, ahead=0):
        text = self.text(ahead)
        if self.kind(ahead) != "name":
            return False
        if text in STORAGE or text in QUALIFIERS or text in TYPE_WORDS or text in ("struct", "union", "enum"):
            return True
        found = self.look_up(text)
        return found is not None and found[0] == "type"

    def external(self):
        first = self.at
        storage, base = self.specifiers("a declaration or a function")
        if self.accept(";"):
            return
        while True:
            name, made, at = self.declarator(base)
            if made[0] == "function" and self.text() == "{":
                return self.function(first, name, at, made, storage)
            self.declare(name, made, storage, at)
            if self.accept("="):
                self.unit.values.append(self.initializer())
            if self.accept(";"):
                return
            self.take(",", "`=`, `,`, `;` or the body of a function")

    def function(self, first, name, at, made, storage):
        self.unit.names[name] = ("function", made)
        self.scopes.append({p: ("object", t) for p, t, _ in made[2]})
        self.variables = list(made[2])
        body = self.block(own=False)
        self.scopes.pop()
        self.unit.functions.append(Function(name, at, made[1], made[2], body, first, self.at, self.variables, "static" in storage))
        self.variables = None

    def declare(self, name, made, storage, at):
        """Puts a declared name in scope, and a variable among those of the function."""
        kind = "type" if "typedef" in storage else "function" if made[0] == "function" else "object"
        self.scopes[-1][name] = (kind, made)
        if self.variables is not None and kind == "object" and not storage & {"static", "extern"}:
            self.variables.append((name, made, at))

    def specifiers(self, wanted):
        """The storage words, and the type."""
        storage, words, base, first = set(), [], None, self.at
        while self.kind() == "name":
            text = self.text()
            if text in STORAGE or text in QUALIFIERS:
                storage.add(text)
            elif text in TYPE_WORDS:
                words.append(text)
            elif text in ("struct", "union"):
                base = self.structure()
                continue
            elif text == "enum":
                base = self.enumeration()
                continue
            elif base is None and not words and self.starts_type():
                base = self.look_up(text)[1]
            else:
                break
            self.at += 1
        if self.at == first:
            raise ParseError(self.at, wanted)
        if base is None and not words:
            raise ParseError(self.at, "a type (the name isn't one here)" if self.kind() == "name" else "a type")
        return storage, base or (("void",) if words == ["void"] else ("int", " ".join(words)))

    def structure(self):
        self.at += 1
        tag = self.name() if self.kind() == "name" else None
        if tag is None:
            self.unnamed += 1
            tag = f"({self.unnamed})"
        if self.text() != "{":
            return ("struct", tag)
        self.at += 1
        members = []
        while not self.accept("}"):
            _, base = self.specifiers("a member or `}`")
            while True:
                name, made, _ = self.declarator(base)
                members.append((name, made))
                if self.accept(":"):
                    self.conditional()
                if self.accept(";"):
                    break
                self.take(",", "`,` or `;` after a member")
        self.unit.structs[tag] = members
        return ("struct", tag)

    def enumeration(self):
        self.at += 1
        if self.kind() == "name":
            self.name()
        if self.accept("{"):
            before = None
            while True:
                name, value = self.name(), None
                if self.accept("="):
                    value = self.conditional()
                self.scopes[-1][name] = ("enum", value, before)
                before = name
                if self.accept("}") or (self.accept(",") and self.accept("}")):
                    break
                if self.words[self.at - 1].text != ",":
                    raise ParseError(self.at, "`=`, `,` or `}` in an enumeration")
        return ("int", "int")

    def declarator(self, base, abstract=False):
        """A name, its type, and the index of its word. The name of an abstract one may be empty."""
        while self.accept("*"):
            while self.text() in QUALIFIERS:
                self.at += 1
            base = ("pointer", base)
        inner, name, at = None, "", self.at
        if self.text() == "(" and not (abstract and (self.starts_type(1) or self.text(1) == ")")):
            self.at += 1
            inner = self.at
            _, _, at = self.declarator(("unknown",), abstract)
            self.take(")")
        elif self.kind() == "name" and (not abstract or self.text() not in KEYWORDS):
            name = self.name("a declarator")
        elif not abstract:
            raise ParseError(self.at, "a declared name")
        made = self.suffixes(base)
        if inner is not None:  # the inner declarator again, now with what it is declared with
            after, self.at = self.at, inner
            name, made, at = self.declarator(made, abstract)
            self.at = after
        return name, made, at

    def suffixes(self, base):
        if self.accept("["):
            length = None if self.text() == "]" else self.conditional()
            self.take("]")
            return ("array", self.suffixes(base), length)
        if self.accept("("):
            parameters = self.parameters()
            return ("function", self.suffixes(base), parameters)
        return base

    def parameters(self):
        if self.accept(")"):
            return []
        parameters = []
        while True:
            if parameters and self.accept("..."):
                self.take(")")
                return parameters
            _, base = self.specifiers("a parameter")
            name, made, at = self.declarator(base, abstract=True)
            if made[0] == "array":
                made = ("pointer", made[1])
            if made != ("void",):
                parameters.append((name, made, at))
            if self.accept(")"):
                return parameters
            self.take(",", "`,` or `)` after a parameter")

    def initializer(self):
        first = self.at
        if not self.accept("{"):
            return self.assign()
        parts = [self.initializer()]
        while not self.accept("}"):
            self.take(",", "`,` or `}` in an initialiser")
            if self.accept("}"):
                break
            parts.append(self.initializer())
        return self.node("list", first, parts)

    # Statements.

    def block(self, own=True):
        first = self.at
        self.take("{")
        if own:
            self.scopes.append({})
        parts = []
        while not self.accept("}"):
            if self.kind() == "end":
                raise ParseError(self.at, "`}`")
            parts.append(self.item())
        if own:
            self.scopes.pop()
        return self.node("block", first, parts)

    def item(self):
        first = self.at
        if self.kind() == "mark":
            self.at += 1
            return self.node("mark", first, text=self.words[first].text)
        if self.starts_type() and self.text(1) != ":":
            return self.declaration()
        return self.statement()

    def declaration(self):
        first = self.at
        storage, base = self.specifiers("a declaration")
        parts = []
        while not self.accept(";"):
            if parts:
                self.take(",", "`=`, `,` or `;` after a declared name")
            begin = self.at
            name, made, at = self.declarator(base)
            self.declare(name, made, storage, at)
            value = [self.initializer()] if self.accept("=") else []
            automatic = self.scopes[-1][name][0] == "object" and not storage & {"static", "extern"}
            parts.append(self.node("variable" if automatic else "static", begin, value, name, made))
        return self.node("declaration", first, parts)

    def statement(self):
        first, text = self.at, self.text()
        if text == "{":
            return self.block()
        if text in ("break", "continue"):
            self.at += 1
            self.take(";")
            return self.node(text, first)
        control = getattr(self, "_" + text, None) if text in STATEMENTS else None
        if control:
            self.at += 1
            return control(first)
        if self.kind() == "name" and self.text(1) == ":" and text not in KEYWORDS:
            self.at += 2
            return self.node("label", first, [self.statement()], text)
        if self.accept(";"):
            return self.node("empty", first)
        value = self.comma("a statement or `}`")
        self.take(";", "an operator or `;`")
        return self.node("expression", first, [value])

    def condition(self):
        self.take("(")
        value = self.comma()
        self.take(")", "an operator or `)`")
        return value

    def _if(self, first):
        parts = [self.condition(), self.statement()]
        if self.accept("else"):
            parts.append(self.statement())
        return self.node("if", first, parts)

    def _switch(self, first):
        return self.node("switch", first, [self.condition(), self.statement()])

    def _while(self, first):
        return self.node("while", first, [self.condition(), self.statement()])

    def _do(self, first):
        body = self.statement()
        self.take("while")
        test = self.condition()
        self.take(";")
        return self.node("do", first, [test, body])

    def _for(self, first):
        self.take("(")
        self.scopes.append({})
        if self.starts_type():
            begin = self.declaration()
        else:
            begin = None if self.text() == ";" else self.comma()
            self.take(";", "an operator or `;`")
        test = None if self.text() == ";" else self.comma()
        self.take(";", "an operator or `;`")
        step = None if self.text() == ")" else self.comma()
        self.take(")", "an operator or `)`")
        body = self.statement()
        self.scopes.pop()
        return self.node("for", first, [test, body, begin, step])

    def _case(self, first):
        self.conditional()
        self.take(":")
        return self.node("case", first, [self.statement()])

    def _default(self, first):
        self.take(":")
        return self.node("case", first, [self.statement()])

    def _goto(self, first):
        self.name("a label")
        self.take(";")
        return self.node("goto", first)

    def _return(self, first):
        parts = [] if self.text() == ";" else [self.comma()]
        self.take(";", "an operator or `;`")
        return self.node("return", first, parts)

    def type_name(self):
        _, base = self.specifiers("a type")
        return self.declarator(base, abstract=True)[1]


def item_end(words, first):
    """The index after the declaration or function that begins at `first`, by brackets alone."""
    depth = 0
    for i in range(first, len(words)):
        text = words[i].text
        depth += NESTING.get(text, 0)
        if depth <= 0 and (text == ";" or text == "}" and _may_begin_item(words[i + 1:i + 2])):
            return i + 1
    return len(words)


def _may_begin_item(after):
    """Whether a declaration or function may begin with the word after a `}`, if there is one: it begins a line with a name."""
    return not after or after[0].kind == "name" and after[0].first
