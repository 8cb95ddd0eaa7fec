"""A source cut into words, with places. Bytes are read as Latin-1, so an offset in a text counts bytes, as p10's columns do."""
import bisect
import re
from dataclasses import dataclass, field

PIECE = re.compile(
    r"(?P<space>[ \t\v\f\r\n]+|\\\r?\n)"
    r"|(?P<comment>/\*.*?\*/|//(?:\\\r?\n|[^\n])*)"
    r"|(?P<name>[A-Za-z_][A-Za-z0-9_]*)"
    r"|(?P<number>\.?[0-9](?:[eEpP][+-]|[0-9A-Za-z_.])*)"
    r"|(?P<char>'(?:\\.|[^'\\\n])*')"
    r'|(?P<string>"(?:\\.|[^"\\\n])*")'
    r"|(?P<punct>\.\.\.|<<=|>>=|->|\+\+|--|<<|>>|[<>=!]=|&&|\|\||[-+*/%&^|]=|##|[][(){}.&*+~!/%<>^|?:;=,#-])"
    r"|(?P<bad>.)",
    re.DOTALL,
)
HEADER = re.compile(r"<[^>\n]*>")


@dataclass
class Source:
    """A file: its name as p10 is told it, and its text."""

    name: str
    text: str
    words: list = field(default=None, compare=False, repr=False)  # once it is cut

    def __post_init__(self):
        self.starts = [0] + [match.end() for match in re.finditer("\n", self.text)]

    def place(self, offset):
        """The line and column of an offset, both from 1."""
        line = bisect.bisect_right(self.starts, offset)
        return line, offset - self.starts[line - 1] + 1

    def offset(self, line, column):
        """The offset of a place; places outside the text are moved to its ends."""
        if line < 1 or line > len(self.starts):
            return len(self.text)
        return min(self.starts[line - 1] + column - 1, len(self.text))


@dataclass(frozen=True)
class Word:
    """A preprocessing word: `start` and `end` are offsets in `source`; a macro's words have the place of the outermost use."""

    kind: str  # name, number, char, string, punct, header, mark, bad
    text: str
    source: Source
    start: int
    end: int
    first: bool  # whether it begins a line
    spaced: bool = False  # whether white space stands before it
    hidden: frozenset = frozenset()  # the macros in whose replacement it was made

    @property
    def line(self):
        return self.source.place(self.start)[0]


def file_name(word):
    """The name of a file that an include's word has."""
    return word.text[1:-1].encode("latin-1").decode("utf-8", "surrogateescape")


def as_bytes(text):
    """Text as it stands in a Source, a character a byte."""
    return text.encode("utf-8", "surrogateescape").decode("latin-1")


def cut(source):
    """The words of a source, comments and white space left out. What begins no word has the kind `bad`."""
    if source.words is not None:
        return source.words
    words, text, offset = [], source.text, 0
    first, spaced = True, False
    while offset < len(text):
        after_include = len(words) > 1 and words[-1].text == "include" and words[-2].text == "#" and words[-2].first
        match = HEADER.match(text, offset) if after_include else None
        kind = "header" if match else None
        if match is None:
            match = PIECE.match(text, offset)
            kind = match.lastgroup
        piece = match.group()
        if kind == "space":
            first = first or ("\n" in piece and not piece.startswith("\\"))
            spaced = True
        elif kind == "comment":
            spaced = True
        else:
            words.append(Word(kind, piece, source, offset, match.end(), first, spaced))
            first = spaced = False
        offset = match.end()
    source.words = words
    return words


CLOSING = {"(": ")", "[": "]", "{": "}"}
NESTING = {**dict.fromkeys(CLOSING, 1), **dict.fromkeys(CLOSING.values(), -1)}  # by how much each bracket changes the depth


def partner(words, at):
    """The index of the bracket that closes the one at `at`, or None."""
    depth = 0
    for i in range(at, len(words)):
        depth += NESTING.get(words[i].text, 0)
        if depth == 0:
            return i
    return None


def first_unbalanced(words):
    """The index of the first bracket that is seen to have no partner, or None: a closing one that closes nothing open, or the
    innermost open one where another is closed before it."""
    opened = []
    for i, word in enumerate(words):
        if word.text in CLOSING:
            opened.append(i)
        elif word.text in NESTING:
            wanted = [CLOSING[words[at].text] for at in opened]
            if word.text not in wanted:
                return i
            if word.text != wanted[-1]:
                return opened[-1]
            opened.pop()
    return opened[0] if opened else None
