"""The blocks between the fences of a document, each with the test that tries it."""
import re
import shutil
import unittest

from common import ROOT

BLOCK = re.compile(r"^## (?P<heading>[^\n]+)$|^```(?P<language>\S*)[^\n]*\n(?P<text>.*?)^```$", re.MULTILINE | re.DOTALL)


class Document:
    """A page of docs/: its text, and its blocks by (heading, language, number), numbered from 0 below each heading."""

    def __init__(self, name):
        self.text = (ROOT / "docs" / name).read_text()
        self.blocks, heading = {}, ""
        for match in BLOCK.finditer(self.text):
            if match["heading"]:
                heading = match["heading"]
                continue
            number = sum(key[:2] == (heading, match["language"]) for key in self.blocks)
            self.blocks[heading, match["language"], number] = match["text"]

    def tries(self, heading, language, number=0):
        """Makes a method the test of a block; it is given the block's text, as it stands there now."""
        def mark(test):
            def run(case):
                key = heading, language, number
                case.assertIn(key, self.blocks, "the document has no such block")
                test(case, self.blocks[key])
            run.__name__, run.__doc__, run.tried = test.__name__, test.__doc__, (heading, language, number)
            return run
        return mark

    def untried(self, *cases):
        """The blocks that no test of these classes tries."""
        tried = [test.tried for case in cases for test in vars(case).values() if hasattr(test, "tried")]
        return [key for key in self.blocks if key not in tried]

    def rows(self, head):
        """The rows of the table whose first heading this is, as lists of cells."""
        lines = self.text.split("\n")
        at = next(i for i, line in enumerate(lines) if line.startswith(f"| {head} |"))
        rows = []
        for line in lines[at + 2:]:
            if not line.startswith("|"):
                break
            rows.append([cell.strip() for cell in line.strip("|").split(" | ")])
        return rows


def needs(*programs):
    """Skips a test where one of these programs isn't installed."""
    absent = [program for program in programs if shutil.which(program) is None]
    return unittest.skipIf(absent, "no " + ", ".join(absent))
