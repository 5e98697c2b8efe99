"""Tests of what graph libraries build on: matrices updated under masks, products of transposes, powers and degrees: against
scipy and numpy, and of what is refused."""

import unittest

import numpy as np
import scipy.sparse as sp

import cbgrid
from test_cbgrid import ARITHMETIC, INFINITY, LIMIT, SEMIRINGS, dense_product, random_matrix

ROUNDS = 300


class Updates(unittest.TestCase):
    def setUp(self):
        self.rng = np.random.default_rng(20261127)

    def sides(self, count=2):
        return [int(it) for it in self.rng.integers(0, 12, count)]

    def pair(self, m, n):
        """A random matrix of scipy, and the same kept over plus-times."""
        like = random_matrix(self.rng, m, n, int(self.rng.integers(0, 40)) if m and n else 0, 1, 9, np.uint64)
        return like.tocsr(), cbgrid.Matrix(like)

    def over(self, semiring, m, n):
        """A random array with many zeros of a semiring, and the same kept."""
        whole = self.rng.integers(0, 2 if semiring == "or-and" else 9, (m, n)).astype(np.uint64)
        whole[self.rng.random((m, n)) < 0.5] = ARITHMETIC[semiring][0]
        return whole, cbgrid.Matrix(whole, semiring)

    def product(self, x, y, semiring):
        """The product of two arrays, computed with integers of Python."""
        return dense_product(x.astype(object), y.astype(object), semiring)

    def same(self, made, want):
        """Whether a kept matrix is one of scipy or numpy."""
        want = want.toarray() if sp.issparse(want) else np.asarray(want)
        self.assertEqual(made.shape, want.shape)
        self.assertTrue((made.to_numpy() == want).all())

    def refused(self, code, message, call):
        with self.assertRaises(cbgrid.CbgridValueError) as raised:
            call()
        self.assertEqual(raised.exception.code, code)
        self.assertIn(message, str(raised.exception))

    def test_updates(self):
        for _ in range(ROUNDS):
            semiring = SEMIRINGS[self.rng.integers(4)]
            zero, plus, _product = ARITHMETIC[semiring]
            m, n = self.sides()
            (x, old), (y, new), (z, mask) = (self.over(semiring, m, n) for _ in range(3))
            how = dict(zip(("complement", "accumulate", "replace"), (bool(it) for it in self.rng.integers(0, 2, 3))))
            total = np.array([[plus(int(x[i, j]), int(y[i, j])) for j in range(n)] for i in range(m)], object).reshape(m, n)
            for kept, covered in ((mask, z != zero), (None, np.ones((m, n), bool))):
                allowed = covered != how["complement"]
                want = np.where(allowed, total if how["accumulate"] else y, zero if how["replace"] else x)
                self.same(old.update(new, kept, **how), want)
            self.assertEqual(old.update(y, z, **how), old.update(new, mask, **how))
            self.same(old, x)

    def test_updates_by_hand(self):
        a = cbgrid.Matrix(np.array([[1, 0], [2, 3]]))
        b = cbgrid.Matrix(np.array([[5, 6], [0, 7]]))
        mask = np.array([[1, 0], [1, 0]])
        self.same(a.update(b, mask), [[5, 0], [0, 3]])
        self.same(a.update(b, mask, accumulate=True), [[6, 0], [2, 3]])
        self.same(a.update(b, mask, replace=True), [[5, 0], [0, 0]])
        self.same(a.update(b, mask, complement=True), [[1, 6], [2, 7]])
        self.assertEqual(a.update(b), b)
        self.assertEqual(a.update(b, accumulate=True), a + b)
        self.assertEqual(a.update(b, complement=True), a)

    def test_products_of_transposes(self):
        for _ in range(ROUNDS):
            semiring = SEMIRINGS[self.rng.integers(4)]
            m, k, n = self.sides(3)
            x, y = self.over(semiring, m, k)[0], self.over(semiring, k, n)[0]
            want = self.product(x, y, semiring)
            for left in (False, True):
                for right in (False, True):
                    a = cbgrid.Matrix(np.ascontiguousarray(x.T) if left else x, semiring)
                    b = cbgrid.Matrix(np.ascontiguousarray(y.T) if right else y, semiring)
                    turns = {"transpose_left": left, "transpose_right": right}
                    made = a.multiply(b, **turns)
                    self.same(made, want)
                    mask = self.over(semiring, m, n)[1]
                    self.assertEqual(a.multiply(b, mask, **turns), made.exclude(made.exclude(mask)))
                    self.assertEqual(a.multiply(b, mask, complement=True, **turns), made.exclude(mask))

    def test_powers(self):
        for _ in range(ROUNDS):
            semiring = SEMIRINGS[self.rng.integers(4)]
            m = int(self.rng.integers(0, 8))
            x, a = self.over(semiring, m, m)
            want, factors = x, int(self.rng.integers(1, 6))
            for _factor in range(1, factors):
                want = self.product(want, x, semiring)
            self.same(a.power(factors), want)
            self.assertEqual(a ** np.int32(factors), a.power(factors))
        pairs = np.array([[1, 1], [1, 0]], np.uint64)
        self.same(cbgrid.Matrix(pairs) ** 30, np.linalg.matrix_power(pairs, 30))
        paths = cbgrid.Matrix.from_triples([0, 0, 1, 2, 3], [1, 2, 3, 3, 4], [1] * 5, (5, 5), "plus-pair")
        self.assertEqual((paths**3)[0, 4], 1)
        self.assertEqual((paths @ paths**2)[0, 4], 2)

    def test_degrees(self):
        for _ in range(ROUNDS):
            like, made = self.pair(*self.sides())
            for axis in (0, 1):
                self.same(made.degrees(axis), like.getnnz(axis=axis).reshape(-1, 1))
            self.assertEqual(made.degrees().semiring, "plus-times")
            rows, columns, values = made.to_triples()
            zeros = cbgrid.Matrix.from_triples(rows, columns, 0 * values, made.shape, "min-plus")
            self.assertEqual(zeros.degrees(), made.degrees(1))
        last = LIMIT - 1
        few = cbgrid.Matrix.from_triples([last, last], [5, last], [INFINITY, 1], (LIMIT, LIMIT))
        self.assertEqual((few.degrees()[last, 0], few.degrees(0).nnz), (2, 2))

    def test_refused(self):
        a = cbgrid.Matrix(np.array([[1, 1, 0], [0, 1, 1]]), "or-and")
        other, turned = cbgrid.Matrix(np.ones((2, 3), int)), a.T
        self.refused(3, "other semirings", lambda: a.update(other))
        self.refused(3, "other semirings", lambda: a.update(a, other))
        self.refused(10, "shapes", lambda: a.update(turned))
        self.refused(10, "shapes", lambda: a.update(a, turned))
        self.refused(10, "shapes", lambda: a.multiply(a))
        self.refused(10, "shapes", lambda: a.multiply(turned, transpose_left=True))
        self.refused(3, "other semirings", lambda: a.multiply(other, transpose_right=True))
        self.refused(2, "factors: 1 to 2^32 - 1", lambda: a.power(0))
        self.refused(2, "factors: 1 to 2^32 - 1", lambda: a ** -1)
        self.refused(2, "factors: 1 to 2^32 - 1", lambda: a ** 2**32)
        self.refused(11, "not square", lambda: a.power(1))
        self.assertRaises(TypeError, a.update, 3)
        self.assertRaises(TypeError, a.update, a, 3)
        self.assertRaises(TypeError, a.power, 1.5)
        self.assertRaises(TypeError, lambda: a ** 1.5)
        self.assertRaises(ValueError, a.degrees, 2)


if __name__ == "__main__":
    unittest.main()
