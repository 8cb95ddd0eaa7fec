"""Steps and where they are spent, counted as docs/meaning.md counts them and as certificates claim them.

p10 alone decides what a certificate bounds; these sums only share its numbers out over loops and calls. Where the sum of a function
isn't what the certificate claims of it, its shares aren't told."""
from dataclasses import dataclass, field

from .expressions import bare
from .shapes import scalars, type_of

LOOPS = ("while", "do", "for")
LIBRARY = ("assert", "c_assert", "getchar", "putchar", "malloc", "calloc", "free")


class Unknown(Exception):
    """A cost can't be told here: of an unknown function, of an object of unknown size, of a statement that the subset doesn't have."""


@dataclass
class LoopCost:
    """A loop of a function: its node, its claim or None, its steps each time that it is come to, and how often it is come to along
    the dearest way of a call and of a turn of the task loop."""

    node: object
    claim: object
    steps: int = 0
    times: int = 0
    turn_times: int = 0


@dataclass
class FunctionCost:
    """A function: its sum, its loops in the order of the text, the calls along the dearest way of a call and of a turn (a callee's
    number: times), and the numbers of all its callees."""

    function: object
    unit: object
    claim: object = None
    sum: int = None
    turn: int = 0
    loops: list = field(default_factory=list)
    calls: dict = field(default_factory=dict)
    turn_calls: dict = field(default_factory=dict)
    callees: list = field(default_factory=list)
    trouble: str = ""

    @property
    def exact(self):
        """Whether the sum is what the certificate claims."""
        return self.claim is not None and self.sum == self.claim.steps


def loops_of(node):
    """The loops of a tree in the order of the text."""
    if node is None:
        return []
    found = [node] if node.kind in LOOPS else []
    for part in reversed(node.parts) if node.kind == "do" else node.parts:  # the body of a `do` stands before the test
        found += loops_of(part)
    return found


def called_names(node):
    """The names that a tree calls, in the order of the text (a dict's keys)."""
    found = {}
    if node is None:
        return found.keys()
    if node.kind == "call":
        found[_called(node)] = True
    for part in node.parts:
        found.update(dict.fromkeys(called_names(part)))
    return found.keys()


def _called(node):
    target = bare(node.parts[0])
    return target.text if target.kind == "name" else ""


class Counter:
    """Counts a function with its claim, or None. `visible` has for each function's name that is seen there its number and its claim."""

    def __init__(self, function, unit, claim, visible):
        self.function, self.unit, self.visible = function, unit, visible
        self.names = {name: ("object", made) for name, made, _ in function.variables}
        self.result = FunctionCost(function, unit, claim)
        self.in_turn = False

    def count(self):
        """FunctionCost. Its `trouble` says why there is no sum."""
        result, body = self.result, self.function.body
        result.callees = [self.visible[name][0] for name in called_names(body) if name in self.visible]
        found = loops_of(body)
        claims = result.claim.loops if result.claim else []
        if result.claim is not None and len(found) != len(claims):
            result.trouble = f"{len(found)} loops are seen here, and the certificate claims {len(claims)}"
            claims = []
        result.loops = [LoopCost(node, claims[i] if claims else None) for i, node in enumerate(found)]
        self.loop_of = {id(loop.node): loop for loop in result.loops}
        if result.claim is None or result.trouble:
            return result
        try:
            result.sum = 1 + self.items(body.parts)
            for loop in result.loops:
                loop.steps = self.task(loop) if loop.claim.kind == "task" else self.statement(loop.node)
            self.spend(body, 1, result.calls)
            task = next((loop for loop in result.loops if loop.claim.kind == "task"), None)
            if task is not None:
                result.turn = task.steps
                self.in_turn, task.turn_times = True, 1
                self.spend_turn(task, result.turn_calls)
        except (Unknown, RecursionError) as error:
            result.sum, result.trouble = None, str(error) or "too deep"
        return result

    def task(self, loop):
        """The steps of a turn of the task loop."""
        test, body = loop.node.parts[:2]
        return (self.value(test) if loop.node.kind == "while" else 0) + self.statement(body)

    def items(self, items):
        """Statements one after the other; what stands after a task loop is never executed."""
        total = 0
        for item in items:
            total += self.statement(item)
            if item is not None and item.kind in LOOPS and self.loop_of[id(item)].claim.kind == "task":
                break
        return total

    # Statements.

    def statement(self, node):
        """The most steps of a statement."""
        kind, parts = node.kind, node.parts
        if kind == "block":
            return self.items(parts)
        if kind in ("mark", "static", "typedef"):
            return 0
        if kind == "declaration":
            return sum(self.statement(part) for part in parts)
        if kind == "variable":
            return 1 + (self.initial(parts[0], node.type) if parts else 0)
        if kind in ("empty", "break", "continue"):
            return 1
        if kind == "expression":
            return self.expression(parts[0])
        if kind == "return":
            return 1 + sum(self.value(part) for part in parts)
        if kind == "if":
            return 1 + self.value(parts[0]) + max(self.statement(part) for part in parts[1:])
        if kind == "switch":
            return 1 + self.value(parts[0]) + self.statement(parts[1])
        if kind == "case":
            return self.statement(parts[0])
        if kind in LOOPS:
            return self.loop(node)
        raise Unknown(f"a statement of the kind {kind}")

    def loop(self, node):
        claim = self.loop_of[id(node)].claim
        if claim.kind == "task":
            return 1
        test, body = node.parts[:2]
        turns = claim.turns
        tested = self.value(test) if test is not None else 1
        if node.kind == "do":
            return 1 + turns * (self.statement(body) + tested)
        begin, step = node.parts[2:] if node.kind == "for" else (None, None)
        return 1 + self.clause(begin) + (turns + 1) * tested + turns * (self.statement(body) + self.clause(step))

    def clause(self, node):
        """A clause of a `for`: each piece of a comma list is a statement."""
        if node is None:
            return 0
        if node.kind == "declaration":
            return self.statement(node)
        return sum(self.expression(part) for part in (node.parts if node.kind == "comma" else [node]))

    def initial(self, node, made):
        """What initialises an object of this type."""
        if node.kind == "list" or (node.kind == "string" and made[0] == "array"):
            return self.listed(node) + self.scalars(made, node)
        if made[0] == "struct":
            return self.place(node) + self.scalars(made)
        return self.value(node)

    def listed(self, node):
        if node.kind == "list":
            return sum(self.listed(part) for part in node.parts)
        return 0 if node.kind == "string" else self.value(node)

    def scalars(self, made, initialiser=None):
        count = scalars(made, self.unit)
        if count is None and made[0] == "array" and made[2] is None and initialiser is not None:
            length = len(initialiser.parts) if initialiser.kind == "list" else len(initialiser.text) - 1
            one = scalars(made[1], self.unit)
            count = None if one is None else length * one
        if count is None:
            raise Unknown("an object of a size that isn't seen here")
        return count

    def expression(self, node):
        """An expression as a statement."""
        node = bare(node)
        if node.kind == "assign":
            target, value = node.parts
            made = type_of(target, self.names, self.unit)
            if node.text == "=" and made[0] == "struct":
                return 1 + self.place(target) + self.place(value) + self.scalars(made)
            return 1 + self.place(target) + self.value(value) + (0 if node.text == "=" else 2)
        if node.kind == "step":
            return 1 + self.place(node.parts[0]) + 3
        if node.kind == "call" and _called(node) == "assert":
            return 1 + self.value(node.parts[1])
        return 1 + self.value(node)

    # Values and places.

    def value(self, node):
        """The most steps of a value."""
        kind, parts = node.kind, node.parts
        if kind == "paren":
            return self.value(parts[0])
        if kind in ("number", "char", "string", "sizeof", "name"):
            return 1
        if kind in ("index", "member", "arrow", "dereference"):
            return 1 + self.place(node)
        if kind == "address":
            return 1 + self.place(parts[0])
        if kind in ("unary", "cast"):
            return 1 + self.value(parts[0])
        if kind in ("binary", "logic"):
            return 1 + self.value(parts[0]) + self.value(parts[1])
        if kind == "conditional":
            return 1 + self.value(parts[0]) + max(self.value(parts[1]), self.value(parts[2]))
        if kind == "call":
            return self.call(node)
        raise Unknown(f"an expression of the kind {kind}")

    def call(self, node):
        name = _called(node)
        claim = self.visible[name][1] if name in self.visible else None
        if claim is None and name in ("malloc", "calloc"):
            return 1 + self.requested(node)
        if claim is None and name not in LIBRARY:
            raise Unknown(f"a call of {name or 'something'}")
        return 1 + sum(self.value(part) for part in node.parts[1:]) + (claim.steps if claim else 0)

    def requested(self, node):
        """The number of elements of an allocation; a written sizeof in it costs nothing."""
        wanted = bare(node.parts[1])
        if _called(node) == "calloc":
            return self.value(wanted)
        if wanted.kind == "sizeof":
            return 0
        return next((self.value(part) for part in wanted.parts if part.kind != "sizeof"), 0)

    def place(self, node):
        """The most steps of a place."""
        kind, parts = node.kind, node.parts
        if kind == "paren":
            return self.place(parts[0])
        if kind in ("name", "string"):
            return 0
        if kind == "index":
            return 1 + self.value(parts[0]) + self.value(parts[1])
        if kind == "member":
            return 1 + self.place(parts[0])
        if kind == "arrow":
            return 2 + self.value(parts[0])
        if kind == "dereference":
            return 1 + self.value(parts[0])
        return self.value(node)

    # Where the steps go.

    def spend(self, node, times, calls):
        """Notes how often loops are come to and functions called along the dearest way, with `times` at this tree."""
        if node is None or times == 0:
            return
        if node.kind == "block":
            for item in node.parts:
                self.spend(item, times, calls)
                if item.kind in LOOPS and self.loop_of[id(item)].claim.kind == "task":
                    return
            return
        if node.kind == "if" and len(node.parts) == 3:
            self.spend(node.parts[0], times, calls)
            self.spend(max(node.parts[1:], key=self.statement), times, calls)
            return
        if node.kind == "conditional":
            self.spend(node.parts[0], times, calls)
            self.spend(max(node.parts[1:], key=self.value), times, calls)
            return
        if node.kind in LOOPS:
            self.spend_loop(node, times, calls)
            return
        if node.kind == "call" and _called(node) in self.visible:
            callee = self.visible[_called(node)][0]
            calls[callee] = calls.get(callee, 0) + times
        if node.kind != "sizeof":
            for part in node.parts:
                self.spend(part, times, calls)

    def spend_loop(self, node, times, calls):
        loop = self.loop_of[id(node)]
        if loop.claim.kind == "task":
            return
        if self.in_turn:
            loop.turn_times += times
        else:
            loop.times += times
        turns = loop.claim.turns
        test, body = node.parts[:2]
        begin, step = node.parts[2:] if node.kind == "for" else (None, None)
        self.spend(begin, times, calls)
        self.spend(test, times * (turns if node.kind == "do" else turns + 1), calls)
        self.spend(body, times * turns, calls)
        self.spend(step, times * turns, calls)

    def spend_turn(self, task, calls):
        test, body = task.node.parts[:2]
        if task.node.kind == "while":
            self.spend(test, 1, calls)
        self.spend(body, 1, calls)
