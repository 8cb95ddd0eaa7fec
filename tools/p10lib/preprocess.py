"""Directives and macros as docs/profile.md says them, leniently: what p10 refuses is dropped here, and goes on."""
import os
from dataclasses import dataclass

from .words import NESTING, Source, Word, cut, file_name

INTEGERS = {"int8_t": "signed char", "int16_t": "short", "int32_t": "int", "int64_t": "long", "uint8_t": "unsigned char",
            "uint16_t": "unsigned short", "uint32_t": "unsigned int", "uint64_t": "unsigned long"}


def _limits(prefix, names, suffix=""):
    """Definitions of the least and greatest values of integer types: names with their number of bits."""
    lines = []
    for name, bits in names:
        small = bits < 32
        lines.append(f"#define {prefix}{name}_MIN (-{2 ** (bits - 1)})" if small else
                     f"#define {prefix}{name}_MIN (-{2 ** (bits - 1) - 1} - 1)")
        lines.append(f"#define {prefix}{name}_MAX {2 ** (bits - 1) - 1}")
        lines.append(f"#define U{prefix}{name}_MAX {2 ** bits - 1}{'' if small else 'u' + suffix}")
    return "\n".join(lines) + "\n"


STDDEF = "typedef unsigned long size_t;\n#define NULL 0\n"
BUILT_IN = {
    "stdint.h": "".join(f"typedef {t} {n};\n" for n, t in INTEGERS.items())
    + _limits("INT", [("8", 8), ("16", 16), ("32", 32), ("64", 64)]),
    "stdbool.h": "#define bool _Bool\n#define true 1\n#define false 0\n",
    "stddef.h": STDDEF,
    "stdlib.h": STDDEF,
    "stdio.h": STDDEF + "#define EOF (-1)\n",
    "limits.h": "#define CHAR_BIT 8\n#define SCHAR_MIN (-128)\n#define SCHAR_MAX 127\n#define CHAR_MIN (-128)\n#define CHAR_MAX 127\n"
    "#define UCHAR_MAX 255\n" + _limits("", [("SHRT", 16), ("INT", 32), ("LONG", 64), ("LLONG", 64)]),
    "assert.h": "",
    "p10.h": "",
}


@dataclass
class Macro:
    """A definition: `parameters` is None for a macro without parameters."""

    name: str
    parameters: list
    body: list
    at: Word


@dataclass
class Expanded:
    """A root after its directives: its words, the files that were read in order, and the macros at the end."""

    words: list
    sources: list
    macros: dict


def read_source(name):
    """The file of this name. OSError where it can't be read."""
    with open(name, "rb") as file:
        return Source(name, file.read().decode("latin-1"))


def find_include(directory, name, angled, includes, exists=os.path.isfile):
    """The file for which an include stands: its name, `built-in`, or None. `directory` is the includer's name up to its last `/`."""
    if not name:
        return None
    if name.startswith("/"):
        return name if exists(name) else None
    if angled and name in BUILT_IN:
        return "built-in"
    places = ([] if angled else [directory]) + [d + "/" for d in includes]
    for place in places:
        if exists(place + name):
            return place + name
    return "built-in" if name in BUILT_IN else None


def lines_of(words):
    """Words cut before each word that begins a directive line and before each that follows one: (is a directive, words)."""
    parts, i = [], 0
    while i < len(words):
        end = i + 1
        if words[i].first and words[i].text == "#":
            while end < len(words) and not words[end].first:
                end += 1
            parts.append((True, words[i:end]))
        else:
            while end < len(words) and not (words[end].first and words[end].text == "#"):
                end += 1
            parts.append((False, words[i:end]))
        i = end
    return parts


class Preprocessor:
    """Reads a root and what it includes. `load` gives the Source of a name, or raises OSError."""

    def __init__(self, includes, load=read_source):
        self.includes, self.load = includes, load
        self.macros, self.once, self.built = {}, set(), set()
        self.result = Expanded([], [], self.macros)

    def root(self, name):
        """The words of the root. OSError where it or a file that it includes can't be read."""
        self._file(self.load(name), 0)
        return self.result

    def _exists(self, name):
        try:
            self.load(name)
        except OSError:
            return False
        return True

    def _file(self, source, depth, user=True):
        if user and source not in self.result.sources:
            self.result.sources.append(source)
        conditions = []  # of each open conditional: [this group is read, one was read]
        for directive, words in lines_of(cut(source)):
            if directive:
                self._directive(source, words, conditions, depth)
            elif all(c[0] for c in conditions):
                self.result.words += self.expand(words)

    def _directive(self, source, words, conditions, depth):
        name = words[1].text if len(words) > 1 else ""
        rest = words[2:]
        reading = all(c[0] for c in conditions)
        if name in ("if", "ifdef", "ifndef"):
            outer = reading
            truth = outer and self._condition(name, rest)
            conditions.append([truth, truth or not outer])
        elif name in ("elif", "else") and conditions:
            outer = all(c[0] for c in conditions[:-1])
            truth = outer and not conditions[-1][1] and (name == "else" or self._condition("if", rest))
            conditions[-1] = [truth, conditions[-1][1] or truth]
        elif name == "endif" and conditions:
            conditions.pop()
        elif reading:
            self._obey(source, name, words, rest, depth)

    def _obey(self, source, name, words, rest, depth):
        if name == "define" and rest and rest[0].kind == "name":
            self._define(rest)
        elif name == "undef" and rest:
            self.macros.pop(rest[0].text, None)
        elif name == "pragma" and rest and rest[0].text == "once":
            self.once.add(source.name)
        elif name == "pragma" and len(rest) == 2 and rest[0].text == "p10":
            at = rest[1]
            self.result.words.append(Word("mark", at.text, source, at.start, at.end, False))
        elif name == "include" and rest and rest[0].kind in ("string", "header"):
            self._include(source, rest[0], depth)

    def _include(self, source, word, depth):
        directory = source.name[: source.name.rfind("/") + 1]
        name = file_name(word)
        found = find_include(directory, name, word.kind == "header", self.includes, self._exists)
        if found == "built-in":
            if name not in self.built:
                self.built.add(name)
                self._file(Source("<" + name + ">", BUILT_IN[name]), depth, user=False)
        elif found is not None and found not in self.once and depth < 64:
            self._file(self.load(found), depth + 1)

    def _define(self, rest):
        parameters, body = None, rest[1:]
        if body and body[0].text == "(" and not body[0].spaced:
            close = next((i for i, w in enumerate(body) if w.text == ")"), len(body))
            parameters = [w.text for w in body[1:close] if w.kind == "name" or w.text == "..."]
            body = body[close + 1:]
        self.macros[rest[0].text] = Macro(rest[0].text, parameters, body, rest[0])

    def _condition(self, name, rest):
        if name != "if":
            return bool(rest) and (rest[0].text in self.macros) == (name == "ifdef")
        from .trees import Parser, ParseError  # here, since trees stands on words alone
        from .shapes import constant
        words, i = [], 0
        while i < len(rest):
            if rest[i].text == "defined" and i + 1 < len(rest):
                bracket = rest[i + 1].text == "(" and i + 3 < len(rest)
                asked = rest[i + 2 if bracket else i + 1]
                words.append(Word("number", str(int(asked.text in self.macros)), asked.source, asked.start, asked.end, False))
                i += 4 if bracket else 2
            else:
                words += self.expand([rest[i]]) if rest[i].kind != "name" or not self._takes(rest[i]) else self.expand(rest[i:])
                i = i + 1 if rest[i].kind != "name" or not self._takes(rest[i]) else len(rest)
        words = [Word("number", "0", w.source, w.start, w.end, False) if w.kind == "name" else w for w in words]
        try:
            parser = Parser(words)
            tree = parser.comma()
            return parser.at == len(words) and bool(constant(tree, {}))
        except ParseError:
            return False

    def _takes(self, word):
        macro = self.macros.get(word.text)
        return macro is not None and macro.parameters is not None

    def expand(self, words):
        """The words with their macros replaced; a made word has the place of the outermost use, with its arguments."""
        done, rest = [], list(reversed(words))
        while rest:
            word = rest.pop()
            macro = self.macros.get(word.text) if word.kind == "name" else None
            if macro is None or macro.name in word.hidden:
                done.append(word)
                continue
            arguments, end = None, word.end
            if macro.parameters is not None:
                arguments, close = self._arguments(rest)
                if arguments is None:
                    done.append(word)
                    continue
                if close.source is word.source:
                    end = max(end, close.end)
            hidden = word.hidden | {macro.name}
            made = self._replacement(macro, arguments)
            rest += [Word(w.kind, w.text, word.source, word.start, end, False, w.spaced, w.hidden | hidden) for w in reversed(made)]
        return done

    @staticmethod
    def _arguments(rest):
        """Takes `( .. )` from the end of `rest`, which is reversed: the arguments and the last word; where there is none, nothing."""
        if not rest or rest[-1].text != "(":
            return None, None
        depth, arguments, taken = 0, [[]], []
        while rest:
            word = rest.pop()
            taken.append(word)
            depth += NESTING.get(word.text, 0)
            if depth == 0:
                return arguments, word
            if depth == 1 and word.text == ",":
                arguments.append([])
            elif depth > 1 or len(taken) > 1:
                arguments[-1].append(word)
        rest += reversed(taken)
        return None, None

    def _replacement(self, macro, arguments):
        if arguments is None:
            return macro.body
        given = {p: self.expand(a) for p, a in zip(macro.parameters, arguments)}
        made = []
        for word in macro.body:
            made += given.get(word.text, [word]) if word.kind == "name" else [word]
        return made
