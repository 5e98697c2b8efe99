"""What a type checker and `help` see of the package: types of all public calls, and what each takes, returns and raises."""

import glob
import inspect
import os
import re
import shutil
import subprocess
import sys
import tempfile
import unittest

import cbgrid

HERE = os.path.dirname(os.path.abspath(__file__))
PACKAGE = os.path.dirname(os.path.abspath(cbgrid.__file__))
CONFIGURED = os.path.join(HERE, "..", "pyproject.toml")
# What a caller writes, with the types of the results, and then what the checker has to refuse, by line.
CALLS = '''import numpy as np, scipy.sparse
import cbgrid

graph = scipy.sparse.csr_array(np.eye(2, dtype=np.int64))
kept = cbgrid.Matrix(graph, "or-and")
product: cbgrid.Matrix = kept.multiply(kept, mask=kept, threads=4)
vertices, levels = cbgrid.bfs_given(graph, [0], [0])
count: int = cbgrid.triangles(kept)
shape: tuple[int, int] = kept.T.shape
written: bytes = cbgrid.text(cbgrid.add(kept, kept))
line: "int | None" = cbgrid.CbgridError(13, "text", 2).line
entry: "int | None" = cbgrid.CbgridError(9, "value", entry=2).entry
'''
REFUSED = '''cbgrid.multiply(graph)
cbgrid.multiply(graph, graph, semiring=1)
kept.select("lower", k="one")
wrong: str = cbgrid.triangles(kept)
kept.nothing()
'''


def public_calls():
    """The functions of the package, and the methods of its class, by their names."""
    for name in cbgrid.__all__:
        it = getattr(cbgrid, name)
        if inspect.isfunction(it):
            yield name, it
    for name, it in vars(cbgrid.Matrix).items():
        it = it.__func__ if isinstance(it, classmethod) else it
        if not name.startswith("_") and inspect.isfunction(it):
            yield f"Matrix.{name}", it


def faults(path):
    """The lines of a file that the type checker refuses, and what it says of the package, which is installed."""
    words = ["mypy", "--config-file", CONFIGURED, "--no-error-summary", "--cache-dir", os.path.dirname(path)]
    words += ["--python-executable", sys.executable, path, *sorted(glob.glob(os.path.join(PACKAGE, "*.py")))]
    said = subprocess.run(words, stdout=subprocess.PIPE, text=True).stdout
    lines = [int(it) for it in re.findall(r"caller\.py:(\d+): error", said)]
    return lines, [it for it in said.splitlines() if "caller.py" not in it]


class Types(unittest.TestCase):
    def test_each_call_has_types(self):
        for name, it in public_calls():
            with self.subTest(name):
                signature = inspect.signature(it)
                self.assertIsNot(signature.return_annotation, signature.empty)
                for parameter in list(signature.parameters.values())[name.startswith("Matrix.") :]:
                    self.assertIsNot(parameter.annotation, parameter.empty)

    def test_marked(self):
        self.assertTrue(os.path.isfile(os.path.join(PACKAGE, "py.typed")))

    @unittest.skipUnless(shutil.which("mypy"), "mypy isn't installed")
    @unittest.skipUnless("site-packages" in PACKAGE, "the package isn't installed")
    def test_checker(self):
        first = CALLS.count("\n") + 1
        with tempfile.TemporaryDirectory() as folder:
            path = os.path.join(folder, "caller.py")
            with open(path, "w") as file:
                file.write(CALLS + REFUSED)
            self.assertEqual(faults(path), ([*range(first, first + REFUSED.count("\n"))], []))


class Help(unittest.TestCase):
    def test_each_call_has_its_sections(self):
        for name, it in public_calls():
            with self.subTest(name):
                text = inspect.getdoc(it)
                taken = len(inspect.signature(it).parameters) - name.startswith("Matrix.")
                wanted = ["Parameters"] * (taken > 0) + ["Returns", "Examples"]
                wanted += ["Raises"] * (not name.startswith("Matrix."))
                for section in wanted:
                    self.assertIn(f"{section}\n{'-' * len(section)}\n", text)


if __name__ == "__main__":
    unittest.main()
