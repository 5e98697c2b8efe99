"""Runs the Python examples of the pages and of the package, and compares what they return with what is written there."""

import doctest
import os
import unittest

import cbgrid
import cbgrid._matrix

TOP = os.path.abspath(os.path.join(os.path.dirname(__file__), "..", "..", ".."))
PAGES = ("README.md", "bindings/README.md", "docs/COMPARED.md")


class Examples(unittest.TestCase):
    def assert_runs(self, ran):
        self.assertGreater(ran.attempted, 0)
        self.assertEqual(ran.failed, 0)

    def test_pages(self):
        here = os.getcwd()
        os.chdir(TOP)
        self.addCleanup(os.chdir, here)
        for page in PAGES:
            with self.subTest(page):
                self.assert_runs(doctest.testfile(os.path.join(TOP, page), module_relative=False, encoding="utf-8"))

    def test_package(self):
        for module in (cbgrid, cbgrid._matrix):
            with self.subTest(module.__name__):
                self.assert_runs(doctest.testmod(module))


if __name__ == "__main__":
    unittest.main()
