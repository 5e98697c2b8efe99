"""Tests of calls by several threads, beside the same by one."""

import threading
import unittest

import numpy as np
import scipy.sparse as sp

import cbgrid
from test_cbgrid import SEMIRINGS, random_matrix

THREADS = (1, 2, 3, 8, 1000)
# Rows, inner side, columns, and how many entries each factor is drawn with: no sides, no entries, few products and many,
# and more threads than columns.
FACTORS = ((0, 0, 0, 0), (5, 0, 6, 0), (0, 6, 5, 0), (300, 60, 300, 0), (9, 9, 9, 30), (300, 300, 300, 30000), (400, 400, 2, 60000))


class Threads(unittest.TestCase):
    def setUp(self):
        self.rng = np.random.default_rng(20261127)

    def factor(self, nrows, ncols, count, semiring):
        count = count if nrows and ncols else 0
        rows, columns = self.rng.integers(0, max(nrows, 1), count), self.rng.integers(0, max(ncols, 1), count)
        values = np.ones(count, np.uint64) if semiring == "or-and" else self.rng.integers(1, 2**63, count, np.uint64)
        return cbgrid.Matrix.from_triples(rows, columns, values, (nrows, ncols), semiring)

    def test_products(self):
        for semiring in SEMIRINGS:
            for nrows, inner, ncols, count in FACTORS:
                a, b = self.factor(nrows, inner, count, semiring), self.factor(inner, ncols, count, semiring)
                want = (a @ b).to_triples()
                for threads in THREADS:
                    for made in (a.multiply(b, threads=threads), cbgrid.multiply(a, b, threads=threads)):
                        self.assertEqual(made.shape, (nrows, ncols))
                        self.assertTrue(all(np.array_equal(x, y) for x, y in zip(made.to_triples(), want)))

    def test_scipy(self):
        a = sp.csc_array(random_matrix(self.rng, 400, 400, 16000, 1, 9, np.int64))
        made = cbgrid.Matrix(a).multiply(a, threads=4).to_scipy("csc", np.int64)
        self.assertEqual((made != a @ a).nnz, 0)
        self.assertEqual((cbgrid.multiply(a, a, threads=4) != a @ a).nnz, 0)

    def test_masks(self):
        for semiring in SEMIRINGS:
            for nrows, inner, ncols, count in FACTORS:
                a, b = self.factor(nrows, inner, count, semiring), self.factor(inner, ncols, count, semiring)
                mask = self.factor(nrows, ncols, nrows * ncols // 4, semiring)
                product = a @ b
                rest = product.exclude(mask)
                self.assertEqual(rest.nnz + a.multiply(b, mask).nnz, product.nnz)
                for threads in THREADS:
                    self.assertEqual(a.multiply(b, mask, threads=threads), a.multiply(b, mask))
                    self.assertEqual(cbgrid.multiply(a, b, mask=mask, complement=True, threads=threads), rest)

    def test_masks_of_transposes(self):
        a = self.factor(300, 300, 30000, "plus-times")
        mask = self.factor(300, 300, 900, "plus-times")
        made = a.multiply(a, mask, transpose_left=True, threads=4)
        self.assertEqual(made, a.T.multiply(a, mask))
        self.assertEqual(a.multiply(a, mask, True, True, threads=4), (a.T @ a).exclude(mask))

    def test_many_callers(self):
        a = self.factor(300, 300, 30000, "min-plus")
        want, made = a @ a, []
        callers = [threading.Thread(target=lambda: made.append(a.multiply(a, threads=3))) for _ in range(6)]
        for it in callers:
            it.start()
        for it in callers:
            it.join()
        self.assertEqual([it == want for it in made], [True] * 6)

    def test_calls_by_set_threads(self):
        calls = (
            lambda a, b: a @ b, lambda a, b: a + b, lambda a, b: a * b, lambda a, b: cbgrid.prune(a, "below", 9),
            lambda a, b: a.sums("columns"), lambda a, b: a.sums("rows"), lambda a, b: a @ a.sums("rows"), lambda a, b: a.sum(),
            lambda a, b: a.triu(-1), lambda a, b: a.apply("sum", 1), lambda a, b: a.exclude(b),
            lambda a, b: a.update(b, accumulate=True), lambda a, b: b.update(a, a.tril(), complement=True, replace=True),
            lambda a, b: a[0:300:2, np.arange(20000) % 300], lambda a, b: a[:, np.arange(20000) % 7],
            lambda a, b: a[::-3, np.arange(20000) % 300], lambda a, b: b[1:300:2, :],
            lambda a, b: a.kron(b[0:4, 0:3]), lambda a, b: a ** 3,
        )
        for semiring in SEMIRINGS:
            for rows, count, other in ((300, 900, 30000), (300, 90000, 30000), (400, 400000, 3000)):
                a, b = self.factor(rows, rows, count, semiring), self.factor(rows, rows, other, semiring)
                want = [call(a, b) for call in calls]
                try:
                    for threads in THREADS:
                        cbgrid.set_threads(threads)
                        self.assertEqual([call(a, b) for call in calls], want)
                        self.assertEqual(a.multiply(b, threads=2), want[0])
                finally:
                    cbgrid.set_threads(1)

    def test_refusals(self):
        self.assertRaises(ValueError, cbgrid.set_threads, 0)
        self.assertRaises(TypeError, cbgrid.set_threads, 1.5)
        a = self.factor(3, 4, 5, "plus-times")
        for threads in (0, -1):
            self.assertRaises(ValueError, a.multiply, a.T, threads=threads)
        self.assertRaises(TypeError, a.multiply, a.T, threads=1.5)
        with self.assertRaises(cbgrid.CbgridValueError) as shapes:
            a.multiply(a, threads=2)
        self.assertEqual(shapes.exception.code, 10)
        with self.assertRaises(cbgrid.CbgridValueError) as mixed:
            a.multiply(self.factor(4, 3, 5, "min-plus"), threads=2)
        self.assertEqual(mixed.exception.code, 3)
        for complement in (False, True):
            with self.assertRaises(cbgrid.CbgridValueError) as shapes:
                a.multiply(a.T, a, complement, threads=2)
            self.assertEqual(shapes.exception.code, 10)
            with self.assertRaises(cbgrid.CbgridValueError) as mixed:
                a.multiply(a, self.factor(3, 3, 5, "min-plus"), complement, threads=2)
            self.assertEqual(mixed.exception.code, 3)


if __name__ == "__main__":
    unittest.main()
