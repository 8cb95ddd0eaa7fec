"""Finding and running p10, its answers, trouble with a status, and outputs that are whole or absent."""
import json
import os
import re
import shutil
import subprocess
import sys
import tempfile
from dataclasses import dataclass

from . import VERSION

USAGE, FAULT, LIMIT, ABSENT = 2, 5, 8, 9  # statuses, as p10's
REFUSED = re.compile(r"(?s)(.*):(\d+):(\d+): refused ([XDGS]\d+): (.*)")
CONDITION = re.compile(r"(?s)refused: ([KC]\d+) (.*):(\d+):(\d+)(?: kept [0-9a-f]{64} found [0-9a-f]{64})?\n?")
STACK = 80 << 20  # what the script p10 gives the program, too
DEPTH = 10_000  # calls of Python that are open at once: a level of nesting in C takes some eight, and Python's own limit is 1,000


class Trouble(Exception):
    """What ends a tool: a line for standard error, and the status."""

    def __init__(self, text, status=USAGE):
        super().__init__(text)
        self.text, self.status = text, status


@dataclass(frozen=True)
class Finding:
    """A refusal or a violation at its place. `hints` are further places: (file, line, column, text)."""

    file: str
    line: int
    column: int
    code: str  # S7, or 6.1 of a violation
    text: str
    refused: bool
    hints: tuple = ()


@dataclass(frozen=True)
class Answer:
    """What p10 has answered."""

    status: int
    out: str
    err: str


class P10:
    """The program. `given` is its name from the command line, or None: then P10 of the environment, the PATH, or the script beside tools/."""

    def __init__(self, given=None):
        self.words = [self._find(given or os.environ.get("P10"))]
        _more_stack()

    @staticmethod
    def _find(given):
        if given:
            found = shutil.which(given)
            if found is None:
                raise Trouble(f"no program {given!r} (--p10 PROGRAM, or P10 in the environment)")
            return os.path.abspath(found)
        found = shutil.which("p10")
        if found:
            return os.path.abspath(found)
        root = os.path.dirname(os.path.dirname(os.path.dirname(os.path.realpath(__file__))))
        for built in ("build/p10", "crates/p10/out/p10"):
            if os.access(os.path.join(root, built), os.X_OK):
                return os.path.join(root, "p10") if os.access(os.path.join(root, "p10"), os.X_OK) else os.path.join(root, built)
        raise Trouble("no p10 on the PATH; name it by --p10 PROGRAM or in the environment's P10, or run ./p10 once, which builds it")

    def run(self, arguments, folder=None):
        """Runs p10 with these arguments in a folder. Trouble where it can't be started or is ended by a signal."""
        try:
            done = subprocess.run(self.words + arguments, cwd=folder, stdin=subprocess.DEVNULL, stdout=subprocess.PIPE,
                                  stderr=subprocess.PIPE, check=False)
        except (OSError, ValueError) as error:
            raise Trouble(f"can't run {self.words[0]}: {reason(error)}") from error
        if done.returncode < 0 or done.returncode == 125:
            raise Trouble(f"{self.words[0]} ended with {done.returncode}: {tail(_text(done.stderr))}", FAULT)
        return Answer(done.returncode, _text(done.stdout), _text(done.stderr))

    def check(self, files, includes=(), folder=None):
        """Violations and the refusal, as Findings, and the status and the text of another answer where there is one."""
        answer = self.run(["check", "--format", "json"] + include_words(includes) + ["--"] + list(files), folder)
        if answer.status not in (0, 1, 3):
            return [], None, answer
        try:
            report = json.loads(answer.out)
            found = [Finding(v["file"], v["line"], v["col"], v["rule"], v["text"], False) for v in report["violations"]]
            refusal = report["refusal"]
            match = REFUSED.fullmatch(refusal) if refusal is not None else None
            refused = Finding(match[1], int(match[2]), int(match[3]), match[4], match[5], True) if refusal is not None else None
        except (ValueError, KeyError, TypeError) as error:
            raise Trouble(f"{self.words[0]} gave no report of p10 check: {tail(answer.out or answer.err)}", FAULT) from error
        return found, refused, answer


def includes_of(given):
    """The directories that the command line names by --include."""
    return [directory for directories in given.include for directory in directories.split(":")]


def include_words(includes):
    """The option --include for these directories."""
    for directory in includes:
        if ":" in directory or not directory or directory.startswith("-"):
            raise Trouble(f"p10 takes no include directory {directory!r}: its name is empty, has `:` or begins with `-`")
    return ["--include", ":".join(includes)] if includes else []


def _more_stack():
    """Lets the programs that are started from here have the stack that the script p10 gives."""
    try:
        import resource
    except ImportError:  # no Unix
        return
    soft, hard = resource.getrlimit(resource.RLIMIT_STACK)
    wanted = STACK if hard == resource.RLIM_INFINITY else min(STACK, hard)
    if soft != resource.RLIM_INFINITY and soft < wanted:
        resource.setrlimit(resource.RLIMIT_STACK, (wanted, hard))


def _text(raw):
    return raw.decode("utf-8", "surrogateescape")


def tail(text):
    """The last line that says something."""
    lines = [line for line in text.strip().split("\n") if line.strip()]
    return lines[-1] if lines else "(nothing)"


def counted(number, what):
    """A number of things, with commas between thousands."""
    return f"{number:,} {what}{'' if number == 1 else 's'}"


def readable(text):
    """Text as others can read it: bytes of names that are no UTF-8 become U+FFFD."""
    return text.encode("utf-8", "surrogateescape").decode("utf-8", "replace")


def reason(error):
    """What an OSError says, without its number."""
    return getattr(error, "strerror", None) or str(error)


def read_text(name, status=FAULT):
    """A text file. Trouble where it is absent or can't be read."""
    try:
        with open(name, "rb") as file:
            return file.read().decode("utf-8", "surrogateescape")
    except OSError as error:
        raise Trouble(f"can't read {name}: {reason(error)}", status) from error


def write_whole(name, text):
    """Writes a file at once, or leaves what was there; `-` is standard output. A link stays one. Trouble where it can't be written."""
    raw = text.encode("utf-8", "surrogateescape")
    try:
        if name == "-":
            sys.stdout.flush()
            sys.stdout.buffer.write(raw)
            sys.stdout.buffer.flush()
            return
        if os.path.exists(name) and not os.path.isfile(name):  # a device, a pipe; a folder can't be written
            with open(name, "wb") as file:
                file.write(raw)
            return
        real = os.path.realpath(name)
        made, beside = tempfile.mkstemp(prefix=".p10-", dir=os.path.dirname(real))
        try:
            with os.fdopen(made, "wb") as file:
                file.write(raw)
            mask = os.umask(0)
            os.umask(mask)
            os.chmod(beside, 0o666 & ~mask)
            os.replace(beside, real)
        except BaseException:
            os.unlink(beside)
            raise
    except OSError as error:
        raise Trouble(f"can't write {'standard output' if name == '-' else name}: {reason(error)}", FAULT) from error


def main_of(tool, main):
    """Runs a tool's `main(words)`, and ends with its status; trouble is told in a line on standard error."""
    sys.setrecursionlimit(DEPTH)
    for stream in (sys.stdout, sys.stderr):
        stream.reconfigure(encoding="utf-8", errors="surrogateescape")
    try:
        status = main(sys.argv[1:])
        sys.stdout.flush()
    except Trouble as trouble:
        print(f"{tool}: {trouble.text}", file=sys.stderr)
        status = trouble.status
    except RecursionError:
        print(f"{tool}: the sources are nested too deeply for this tool", file=sys.stderr)
        status = LIMIT
    except BrokenPipeError:
        os.dup2(os.open(os.devnull, os.O_WRONLY), sys.stdout.fileno())
        status = FAULT
    except OSError as error:
        print(f"{tool}: {reason(error)}{': ' + str(error.filename) if error.filename else ''}", file=sys.stderr)
        status = FAULT
    except KeyboardInterrupt:
        status = 130
    sys.exit(status)


def add_common(parser, tool):
    """The options that all tools have: --include, --p10 and --version."""
    parser.add_argument("--include", action="append", default=[], metavar="DIRECTORIES", help="search includes here, as p10 does: "
                        "directories between `:`; may be given again")
    parser.add_argument("--p10", metavar="PROGRAM", help="the p10 to ask; without it that of the environment's P10, of the PATH, or "
                        "the one that ./p10 has built")
    parser.add_argument("--version", action="version", version=f"{tool} {VERSION}, a companion of p10 (unproved)")
