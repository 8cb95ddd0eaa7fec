"""The files of the companions: small, of Python 3.8, and with its standard library alone."""
import ast
import sys
import unittest

from common import TOOLS

COMPANIONS = sorted(path for path in TOOLS.glob("p10-*"))
MODULES = sorted(TOOLS.glob("p10lib/*.py"))
LIBRARY = {"argparse", "bisect", "concurrent", "dataclasses", "hashlib", "html", "json", "os", "re", "resource", "shlex", "shutil", "subprocess", "sys",
           "tempfile", "urllib", "xml"}


class Files(unittest.TestCase):
    def test_each_file_has_at_most_400_lines_and_each_function_40(self):
        self.assertEqual(len(COMPANIONS), 3)
        for path in COMPANIONS + MODULES + sorted(TOOLS.glob("p10lib/*.css")) + sorted(TOOLS.glob("completion/*")):
            self.assertLessEqual(len(path.read_text().split("\n")) - 1, 400, path.name)
        for path in COMPANIONS + MODULES:
            for node in ast.walk(ast.parse(path.read_text())):
                if isinstance(node, ast.FunctionDef):
                    self.assertLessEqual(node.end_lineno - node.lineno + 1, 40, f"{path.name}: {node.name}")

    def test_they_are_python_3_8_with_its_standard_library(self):
        for path in COMPANIONS + MODULES:
            tree = ast.parse(path.read_text(), feature_version=(3, 8))
            for node in ast.walk(tree):
                names = [alias.name for alias in node.names] if isinstance(node, ast.Import) else [
                    node.module] if isinstance(node, ast.ImportFrom) and not node.level else []
                for name in names:
                    self.assertIn(name.split(".")[0], LIBRARY | {"p10lib"}, path.name)
        if hasattr(sys, "stdlib_module_names"):
            self.assertLessEqual(LIBRARY, sys.stdlib_module_names)
