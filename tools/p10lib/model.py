"""A program with its certificate: what each function and loop costs, and its share of the whole."""
from dataclasses import dataclass, field

from .costs import Counter
from .preprocess import Preprocessor, read_source
from .program import FAULT, Trouble, reason
from .trees import Parser


@dataclass
class Program:
    """The functions in program order as FunctionCosts, the files in the order of reading, and how often each function is called,
    at most, before the task loop and in a turn of it."""

    functions: list
    sources: list
    certificate: object = None
    before: dict = field(default_factory=dict)
    in_turn: dict = field(default_factory=dict)

    def callers(self):
        """For each function's number those of the functions that call it."""
        found = {number: [] for number in range(len(self.functions))}
        for number, function in enumerate(self.functions):
            for callee in function.callees:
                found[callee].append(number)
        return found

    def frame(self, number):
        """The bytes of a function's own frame: what is claimed of it without its dearest callee."""
        function = self.functions[number]
        below = [self.functions[callee].claim.bytes for callee in function.callees]
        return function.claim.bytes - max(below, default=0)

    def spent(self, number, turn):
        """The steps that a function's own statements take in all, without those of its callees."""
        function = self.functions[number]
        times = (self.in_turn if turn else self.before).get(number, 0)
        if function.sum is None:
            return 0
        calls = function.calls
        own = times * (function.sum - sum(n * self.functions[callee].claim.steps for callee, n in calls.items()))
        if turn and function.turn:
            own += function.turn - sum(n * self.functions[callee].claim.steps for callee, n in function.turn_calls.items())
        return own

    def loop_steps(self, number, loop, turn):
        """The steps of a loop in all, with all that is in it."""
        times = (self.in_turn if turn else self.before).get(number, 0) * loop.times
        return (times + (loop.turn_times if turn else 0)) * loop.steps


def read(names, includes, certificate=None):
    """The Program of these roots. Trouble where a source can't be read, or where the certificate isn't of its functions."""
    units, sources = [], []
    for name in names:
        try:
            expanded = Preprocessor(includes, _cached(sources)).root(name)
        except OSError as error:
            raise Trouble(f"can't read {error.filename}: {reason(error)}", FAULT) from error
        units.append(Parser(expanded.words).parse())
        sources += [s for s in expanded.sources if s.name not in {known.name for known in sources}]
    pairs = [(unit, function) for unit in units for function in unit.functions]
    claims = certificate.functions if certificate else [None] * len(pairs)
    if certificate and [claim.name for claim in claims] != [function.name for _, function in pairs]:
        raise Trouble("the certificate is of other functions than those of these sources")
    seen_everywhere = {f.name: (i, claims[i]) for i, (_, f) in enumerate(pairs) if not f.static}
    program = Program([], sources, certificate)
    for i, (unit, function) in enumerate(pairs):
        own = {f.name: (j, claims[j]) for j, (u, f) in enumerate(pairs) if u is unit}
        program.functions.append(Counter(function, unit, claims[i], {**seen_everywhere, **own}).count())
    if certificate:
        _count_calls(program)
    return program


def _cached(sources):
    known = {source.name: source for source in sources}
    return lambda name: known.get(name) or read_source(name)


def _count_calls(program):
    """How often functions are called, from those that call to those that are called."""
    order = sorted(range(len(program.functions)), key=lambda i: -program.functions[i].claim.rank)
    main = next((i for i, f in enumerate(program.functions) if f.function.name == "main"), None)
    if main is None:
        return
    program.before[main] = 1
    for callee, times in program.functions[main].turn_calls.items():
        program.in_turn[callee] = program.in_turn.get(callee, 0) + times
    for number in order:
        for times_of in (program.before, program.in_turn):
            times = times_of.get(number, 0)
            for callee, n in program.functions[number].calls.items():
                if times:
                    times_of[callee] = times_of.get(callee, 0) + times * n
