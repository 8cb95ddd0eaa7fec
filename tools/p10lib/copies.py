"""A copy of sources in a temporary folder, in which parts can be set aside while places stay those of the real files."""
import os
import shutil
import tempfile

from .preprocess import Preprocessor, cut, find_include, read_source
from .program import FAULT, Trouble, reason
from .trees import Parser
from .words import Source, as_bytes, file_name

MAIN = "int main(void)\n{\n    return 0;\n}\n"


class Text:
    """A file as it is in the copy. `origin` has for each byte the offset in the real file from which it comes."""

    def __init__(self, source, name):
        self.real = source
        self.text = source.text
        self.origin = list(range(len(self.text) + 1))
        self.aside = []  # what was set aside, as texts
        self.now = Source(name, source.text)  # the text as it is now, by its name in the copy

    def edit(self, edits):
        """Replaces parts, given as (start, end, text) in the copy, that don't overlap."""
        for start, end, text in sorted(edits, reverse=True):
            if start < end:
                self.aside.append(self.text[start:end])
            self.text = self.text[:start] + text + self.text[end:]
            self.origin[start:end] = [self.origin[start]] * len(text)
        self.now = Source(self.now.name, self.text)

    def saved(self):
        return self.text, list(self.origin), list(self.aside), self.now

    def restore(self, saved):
        self.text, self.origin, self.aside, self.now = saved


class Copy:
    """The copy of roots and of all files that they include. As a context manager it is removed at the end.

    The p10 that is asked in `folder` takes the same names as here; those that begin with `/` get the copy's name before them."""

    def __init__(self, roots, includes):
        self.top = tempfile.mkdtemp(prefix="p10-")
        self.base = os.path.join(self.top, *"deep below so that `..` stays inside".split())
        self.folder = self.base + os.getcwd()
        self.includes = [self._name(directory) for directory in includes]
        self.texts, self.written, self.roots, self.made = {}, {}, [], {}
        try:
            self._gather([name for root in roots for name in [root.name] + root.before])
            for root in roots:
                self._make_root(root)
        except OSError as error:
            self.__exit__()
            raise Trouble(f"can't read {error.filename}: {reason(error)}", FAULT) from error

    def __enter__(self):
        return self

    def __exit__(self, *_):
        shutil.rmtree(self.top, ignore_errors=True)

    def _name(self, name):
        return self.base + name if name.startswith("/") else name

    def real_name(self, name):
        """The real file's name for one that p10 has told."""
        return name[len(self.base):] if name.startswith(self.base) else name

    def _gather(self, names):
        """Reads files and then what they include, in p10's order."""
        waiting = list(names)
        while waiting:
            name = waiting.pop(0)
            if self._name(name) in self.texts:
                continue
            source = read_source(name)
            kept = self.texts[self._name(name)] = Text(Source(name, source.text), self._name(name))
            kept.edit([(word.start + 1, word.start + 1, as_bytes(self.base)) for word in include_names(source) if word.text[1] == "/"])
            waiting += included(source, [self.real_name(d) for d in self.includes])

    def _make_root(self, root):
        """A root that defines and includes what the command line says, where it says something; else the source itself."""
        made = root.name
        if root.defines or root.before:
            lines = [f"#define {name} {value}\n" for name, value in root.defines]
            lines += [f'#include "{self._name(before)}"\n' for before in root.before]
            made = root.name + ".p10-lint.c"
            text = "".join(lines) + f'#include "{os.path.basename(root.name)}"\n'
            self.texts[self._name(made)] = Text(Source(made, as_bytes(text)), self._name(made))
            self.made[made] = root.name
        self.roots.append(self._name(made))

    def write(self):
        """Writes the files that have changed. Trouble where that can't be done."""
        try:
            for name, kept in self.texts.items():
                if self.written.get(name) != kept.text:
                    path = os.path.join(self.folder, name)
                    self._make_folders(os.path.dirname(path))
                    with open(path, "wb") as file:
                        file.write(kept.text.encode("latin-1"))
                    self.written[name] = kept.text
            os.makedirs(self.folder, exist_ok=True)
        except OSError as error:
            raise Trouble(f"can't write a copy in {self.top}: {reason(error)}", FAULT) from error

    @staticmethod
    def _make_folders(path):
        """Makes each folder that the path passes, also those from which `..` leads up again."""
        at = ""
        for part in path.split("/")[1:]:
            at += "/" + part
            os.makedirs(os.path.normpath(at), exist_ok=True)

    def load(self, name):
        """The Source of a name in the copy. OSError where it has none."""
        if name not in self.texts:
            raise FileNotFoundError(name)
        return self.texts[name].now

    def unit(self, root):
        """The trees of a root as it is now."""
        read = Preprocessor(self.includes, self.load).root(root)
        unit = Parser(read.words).parse()
        unit.macros = read.macros
        return unit


def include_names(source):
    """The words of include lines that name a file, also those of skipped groups."""
    words = cut(source)
    return [words[i + 2] for i in range(len(words) - 2) if words[i].first and words[i].text == "#" and words[i + 1].text == "include"
            and words[i + 2].kind in ("string", "header")]


def included(source, includes):
    """The names of the files for which the include lines of a source stand."""
    directory = source.name[: source.name.rfind("/") + 1]
    found = [find_include(directory, file_name(word), word.kind == "header", includes) for word in include_names(source)]
    return [name for name in found if name not in (None, "built-in")]
