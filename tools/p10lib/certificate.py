"""The text of a certificate (docs/certificates.md)."""
from dataclasses import dataclass, field

from .program import Trouble


@dataclass
class Loop:
    """A loop's claim: `kind` is up, down, one or task; of a task `turns` is None and `steps` those of a turn."""

    kind: str
    variable: int
    limit: int
    turns: int
    steps: int
    ranges: dict = field(default_factory=dict)  # a variable's number: (least, greatest)


@dataclass
class Claim:
    """What is claimed of a function. A range is a pair, `*` of a pointer, or `void`."""

    name: str
    rank: int
    steps: int
    calls: int
    bytes: int
    allocates: bool
    parameters: list = field(default_factory=list)
    result: object = "void"
    loops: list = field(default_factory=list)


@dataclass
class Certificate:
    functions: list  # Claims in program order
    prefix: int = 0
    turn: int = 0
    calls: int = 0
    bytes: int = 0


def _range(words):
    return words[0] if len(words) == 1 else (int(words[0]), int(words[1]))


def parse(text, name):
    """The certificate of a text that p10 takes for one, without its digests and sections. Trouble where a line has another form."""
    made = Certificate([])
    lines = text.split("\n")
    if lines[0] not in ("p10cert 1", "p10cert 2"):
        raise Trouble(f"{name} is no certificate of version 1 or 2")
    claim, last_of_section = None, 0
    for number, line in enumerate(lines[1:], 2):
        if number <= last_of_section:
            continue
        words = line.split(" ")
        try:
            if words[0] == "func":
                claim = Claim(words[1], int(words[3]), int(words[5]), int(words[7]), int(words[9]), words[11] == "1")
                made.functions.append(claim)
            elif words[0] == "param":
                claim.parameters.append(_range(words[1:]))
            elif words[0] == "result":
                claim.result = _range(words[1:])
            elif words[0] == "loop" and words[2] == "one":
                claim.loops.append(Loop("one", -1, 0, int(words[4]), 0))
            elif words[0] == "loop":
                claim.loops.append(Loop(words[2], int(words[3]), int(words[4]), int(words[6]), 0))
            elif words[0] == "task":
                claim.loops.append(Loop("task", -1, 0, None, int(words[2])))
            elif words[0] == "var":
                claim.loops[-1].ranges[int(words[1])] = (int(words[2]), int(words[3]))
            elif words[0] == "total":
                made.prefix, made.turn, made.calls, made.bytes = (int(words[i]) for i in (2, 4, 6, 8))
            elif words[0] == "section":
                last_of_section = number + int(words[2])
            elif words[0] in ("digest", "outside"):
                continue
            elif words[0] == "end":
                return made
            else:
                raise ValueError(line)
        except (ValueError, IndexError, AttributeError) as error:
            raise Trouble(f"{name}:{number}: no line of a certificate: {line!r}") from error
    raise Trouble(f"{name} ends without `end`")
