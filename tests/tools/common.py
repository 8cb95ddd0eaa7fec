"""What the tests of the tools share: running a tool in a folder of files, and comparing what it answers."""
import os
import subprocess
import sys
import tempfile
import unittest
from pathlib import Path

ROOT = Path(__file__).resolve().parent.parent.parent
TOOLS = ROOT / "tools"


class Case(unittest.TestCase):
    """A test in a folder of its own, which is removed at the end."""

    def setUp(self):
        kept = tempfile.TemporaryDirectory(prefix="p10 tools é")
        self.addCleanup(kept.cleanup)
        self.folder = Path(kept.name)

    def write(self, **files):
        """Writes files; in a keyword `_c` stands for `.c`, `_h` for `.h`, `_p10` for `.p10`."""
        for name, text in files.items():
            self.put(name.replace("_c", ".c").replace("_h", ".h").replace("_p10", ".p10"), text)

    def put(self, name, text):
        path = self.folder / name
        path.parent.mkdir(parents=True, exist_ok=True)
        path.write_text(text)
        return path

    def run_tool(self, tool, *words, folder=None, status=None, environment=None):
        """Runs a tool; gives its standard output, standard error and status, which is compared where one is given."""
        done = subprocess.run([sys.executable, str(TOOLS / tool)] + list(words), cwd=folder or self.folder, stdout=subprocess.PIPE,
                              stderr=subprocess.PIPE, env={**os.environ, **(environment or {})}, check=False)
        out, err = done.stdout.decode("utf-8", "surrogateescape"), done.stderr.decode("utf-8", "surrogateescape")
        if status is not None:
            self.assertEqual(done.returncode, status, out + err)
        return out, err, done.returncode

    def p10(self, *words, folder=None):
        """What p10 itself answers: standard output, standard error, status."""
        done = subprocess.run([os.environ["P10"]] + list(words), cwd=folder or self.folder, stdout=subprocess.PIPE, stderr=subprocess.PIPE,
                              check=False)
        return done.stdout.decode(), done.stderr.decode(), done.returncode

    def one_line(self, err, *parts):
        """Sees that standard error is one line that says these parts."""
        self.assertEqual(len(err.strip().split("\n")), 1, err)
        for part in parts:
            self.assertIn(part, err)
