"""What is to be read: sources and include directories from the command line, or from compile_commands.json."""
import json
import os
import shlex
from dataclasses import dataclass, field

from .program import ABSENT, FAULT, Trouble, read_text

TAKES_VALUE = {"-I": "include", "-isystem": "include", "-iquote": "include", "-idirafter": "include", "-D": "define", "-U": "undefine",
               "-include": "before", "-imacros": "before"}
SEPARATE = {"-o", "-x", "-MF", "-MT", "-MQ", "-target", "--param", "-Xlinker", "-L", "-T", "-l", "-u", "-arch", "--sysroot", "-isysroot"}


@dataclass
class Root:
    """A source with what its compiler is told: `defines` are (name, value), `before` the files included before it."""

    name: str
    defines: list = field(default_factory=list)
    includes: list = field(default_factory=list)
    before: list = field(default_factory=list)


def define(text):
    """A definition as -D has it: `NAME`, `NAME=VALUE` or `NAME(A)=VALUE`."""
    name, equal, value = text.partition("=")
    if not name:
        raise Trouble(f"no name is defined by -D {text!r}")
    return name, value if equal else "1"


def roots_of_words(files, includes, defines):
    """The roots of a command line. Trouble where a file is absent or can't be read (as p10 does)."""
    for name in files:
        if not os.path.exists(name):
            raise Trouble(f"absent: {name}", ABSENT)
        if not os.path.isfile(name) or not os.access(name, os.R_OK):
            raise Trouble(f"can't read {name}", FAULT)
    return [Root(name, [define(d) for d in defines], list(includes)) for name in files]


def roots_of_compile_commands(path):
    """The C sources of a compile_commands.json, each once, by the names that they have from here.

    Trouble where it can't be read, is no list of commands, names no C source, or names one that is absent."""
    if os.path.isdir(path):
        path = os.path.join(path, "compile_commands.json")
    try:
        entries = json.loads(read_text(path))
    except (ValueError, RecursionError) as error:
        raise Trouble(f"{path} is no JSON: {error}") from error
    if not isinstance(entries, list):
        raise Trouble(f"{path} is no list of commands")
    roots = {}
    for number, entry in enumerate(entries, 1):
        root = _root(entry, f"{path}, command {number}", os.path.dirname(os.path.abspath(path)))
        if root is not None and root.name not in roots:
            roots[root.name] = root
    if not roots:
        raise Trouble(f"{path} names no C source")
    return list(roots.values())


def _root(entry, where, folder):
    """The root of an entry, or None where it is no C source."""
    if not isinstance(entry, dict) or not _is_name(entry.get("file")):
        raise Trouble(f"{where} has no `file`")
    if not _is_name(entry.get("directory", "")):
        raise Trouble(f"{where} has a `directory` that is no name")
    words = _words(entry, where)
    if not entry["file"].endswith((".c", ".C", ".i")):
        return None
    directory = os.path.join(folder, entry.get("directory", ""))
    name = _from_here(directory, entry["file"])
    if not os.path.isfile(name):
        raise Trouble(f"{where} names an absent file: {name}", ABSENT)
    root = Root(name)
    for kind, value in _options(words):
        if kind == "include":
            root.includes.append(_from_here(directory, value))
        elif kind == "define":
            root.defines.append(define(value))
        elif kind == "undefine":
            root.defines = [d for d in root.defines if d[0] != value]
        else:
            root.before.append(os.path.normpath(os.path.join(directory, value)))
    root.includes = list(dict.fromkeys(root.includes))
    return root


def _words(entry, where):
    """The words of an entry's command."""
    words = entry.get("arguments")
    if words is None and isinstance(entry.get("command"), str):
        try:
            words = shlex.split(entry["command"])
        except ValueError as error:
            raise Trouble(f"{where} can't be split into words: {error}") from error
    if not isinstance(words, list) or not all(_is_name(word) for word in words):
        raise Trouble(f"{where} has neither `command` nor `arguments`")
    return words


def _is_name(value):
    """Whether a value of JSON is a text that the system can take: JSON can write halves of characters, and NUL."""
    try:
        return isinstance(value, str) and b"\0" not in os.fsencode(value)
    except UnicodeEncodeError:
        return False


def _options(words):
    """The options that matter, as (kind, value), in order."""
    found, i = [], 1
    while i < len(words):
        word = words[i]
        taken = next((o for o in sorted(TAKES_VALUE, key=len, reverse=True) if word.startswith(o)), None)
        if word in TAKES_VALUE or word in SEPARATE:
            i += 1
            if word in TAKES_VALUE and i < len(words):
                found.append((TAKES_VALUE[word], words[i]))
        elif taken in ("-I", "-D", "-U", "-isystem", "-iquote"):
            found.append((TAKES_VALUE[taken], word[len(taken):]))
        i += 1
    return found


def _from_here(directory, name):
    """The name of a file from the current folder: relative where it lies below it."""
    path = os.path.normpath(os.path.join(directory, name))
    here = os.getcwd()
    if path == here:
        return "."
    return path[len(here) + 1:] if path.startswith(here + "/") else path
