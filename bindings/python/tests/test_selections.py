"""Tests of parts of kept matrices, of values replaced, Kronecker products, parts assigned, complements of masks and
sums: against scipy and numpy, and of what is refused."""

import unittest

import numpy as np
import scipy.sparse as sp

import cbgrid
from test_cbgrid import ARITHMETIC, INFINITY, LIMIT, SEMIRINGS, random_matrix

ROUNDS = 300


class Selections(unittest.TestCase):
    def setUp(self):
        self.rng = np.random.default_rng(20261126)

    def sides(self, least=0):
        return [int(it) for it in self.rng.integers(least, 12, 2)]

    def pair(self, m, n):
        """A random matrix of scipy, and the same kept over plus-times."""
        like = random_matrix(self.rng, m, n, int(self.rng.integers(0, 40)) if m and n else 0, 1, 9, np.uint64)
        return like.tocsr(), cbgrid.Matrix(like)

    def numbers(self, below):
        return self.rng.integers(0, below, self.rng.integers(0, 9)) if below else np.empty(0, np.int64)

    def same(self, made, want):
        """Whether a kept matrix is one of scipy or numpy."""
        want = want.toarray() if sp.issparse(want) else np.asarray(want)
        self.assertEqual(made.shape, want.shape)
        self.assertTrue((made.to_numpy() == want).all())

    def refused(self, code, message, call):
        with self.assertRaises(cbgrid.CbgridValueError) as raised:
            call()
        self.assertEqual(raised.exception.code, code)
        self.assertIn(message, str(raised.exception))

    def test_regions(self):
        for _ in range(ROUNDS):
            like, made = self.pair(*self.sides())
            k = int(self.rng.integers(-12, 13))
            whole = like.toarray()
            rows, columns = np.indices(whole.shape)
            self.same(made.tril(k), np.tril(whole, k))
            self.same(made.triu(k), np.triu(whole, k))
            self.same(made.select("diagonal", k), whole * (columns - rows == k))
            self.same(made.select("off-diagonal", k), whole * (columns - rows != k))
        self.same(made.tril(2**80), whole)
        self.same(made.triu(-(2**80)), whole)

    def test_functions(self):
        for _ in range(ROUNDS):
            semiring = SEMIRINGS[self.rng.integers(4)]
            zero, plus, product = ARITHMETIC[semiring]
            top = 2 if semiring == "or-and" else 9
            m, n = self.sides(1)
            whole = self.rng.integers(0, top, (m, n)).astype(np.uint64)
            whole[self.rng.random((m, n)) < 0.5] = zero
            made, number = cbgrid.Matrix(whole, semiring), int(self.rng.integers(0, top))
            functions = {
                "constant": lambda x, i, j: number,
                "sum": lambda x, i, j: plus(x, number),
                "left-product": lambda x, i, j: product(number, x),
                "right-product": lambda x, i, j: product(x, number),
            }
            if semiring != "or-and":
                functions.update(row=lambda x, i, j: i, column=lambda x, i, j: j)
            for name, call in functions.items():
                want = [[zero if x == zero else call(int(x), i, j) for j, x in enumerate(row)] for i, row in enumerate(whole)]
                self.same(made.apply(name, number), np.array(want, object))

    def test_diagonals(self):
        for _ in range(ROUNDS):
            like, made = self.pair(*self.sides())
            diagonal = made.diagonal()
            self.same(diagonal, like.diagonal().reshape(-1, 1))
            self.same(cbgrid.Matrix.from_diagonal(diagonal), np.diag(like.diagonal()))
            self.assertEqual(cbgrid.Matrix.from_diagonal(like.diagonal()), cbgrid.Matrix.from_diagonal(diagonal))
        self.assertEqual(cbgrid.Matrix.from_diagonal([]).shape, (0, 0))
        self.assertEqual(cbgrid.Matrix.from_diagonal([0, INFINITY], "min-plus")[0, 0], 0)
        self.assertEqual(cbgrid.Matrix.from_diagonal([0, INFINITY], "min-plus").nnz, 1)

    def test_rows_and_columns(self):
        for _ in range(ROUNDS):
            like, made = self.pair(*self.sides())
            whole = like.toarray()
            rows, columns = (self.numbers(it) for it in whole.shape)
            want = whole[rows][:, columns]
            self.same(made.extract(rows, columns), want)
            self.same(made[rows, columns], want)
            self.same(made[np.ix_(rows, columns)], want)
            self.same(made[rows.tolist(), columns - whole.shape[1]], want)

    def test_slices(self):
        for _ in range(ROUNDS):
            like, made = self.pair(*self.sides())
            whole = like.toarray()
            cuts = []
            for _axis in range(2):
                start, stop = (None if it > 14 else it for it in self.rng.integers(-15, 16, 2).tolist())
                step = int(self.rng.choice([1, 1, 1, 2, -1, -3]))
                cuts.append(slice(start, stop, step))
            self.same(made[cuts[0], cuts[1]], whole[cuts[0], cuts[1]])
            rows, columns = (self.numbers(it) for it in whole.shape)
            self.same(made[rows, cuts[1]], whole[rows][:, cuts[1]])
            self.same(made[cuts[0], columns], whole[cuts[0]][:, columns])
            self.same(made[:, :], whole)
            self.same(made[:, columns], whole[:, columns])
            self.same(made[rows, :], whole[rows])
            for i in range(-whole.shape[0], whole.shape[0]):
                self.same(made[i, cuts[1]], whole[i, cuts[1]].reshape(1, -1))
            for j in range(whole.shape[1]):
                self.same(made[cuts[0], j], whole[cuts[0], j].reshape(-1, 1))

    def test_kronecker_products(self):
        for _ in range(ROUNDS):
            a, left = self.pair(*self.sides())
            b, right = self.pair(*self.sides())
            self.same(left.kron(right), np.kron(a.toarray(), b.toarray()))
            self.assertEqual(left.kron(b), left.kron(right))

    def test_parts_assigned(self):
        for _ in range(ROUNDS):
            like, made = self.pair(*self.sides())
            whole = like.toarray()
            m, n = (int(self.rng.integers(0, it + 1)) for it in whole.shape)
            i, j = (int(self.rng.integers(0, it + 1)) for it in (whole.shape[0] - m, whole.shape[1] - n))
            part, kept = self.pair(m, n)
            whole[i : i + m, j : j + n] = part.toarray()
            self.same(made.assign(i, j, kept), whole)
            self.assertEqual(made.assign(i, j, part), made.assign(i, j, kept))
            self.same(made, like)

    def test_complements(self):
        for _ in range(ROUNDS):
            like, made = self.pair(*self.sides())
            other, mask = self.pair(*like.shape)
            self.same(made.exclude(mask), like.toarray() * (other.toarray() == 0))
            self.assertEqual(made.exclude(other), made.exclude(mask))
            right, factor = self.pair(like.shape[1], int(self.rng.integers(0, 12)))
            other, mask = self.pair(like.shape[0], right.shape[1])
            want = (like @ right).toarray() * (other.toarray() == 0)
            self.same(made.multiply(factor, mask, complement=True), want)
            self.same(cbgrid.multiply(made, factor, mask=other, complement=True), want)
            self.assertRaises(TypeError, made.multiply, factor, complement=True)

    def test_sums(self):
        for _ in range(ROUNDS):
            like, made = self.pair(*self.sides())
            whole = like.toarray()
            self.assertEqual(made.sum(), whole.sum())
            self.same(made.sum(axis=0), whole.sum(axis=0).reshape(1, -1))
            self.same(made.sum(axis=1), whole.sum(axis=1).reshape(-1, 1))
        self.assertIs(type(made.sum()), int)
        for semiring, want in {"plus-times": 1, "min-plus": 2, "max-min": INFINITY}.items():
            self.assertEqual(cbgrid.Matrix.from_triples([0, 1], [1, 0], [2, INFINITY], (2, 2), semiring).sum(), want)
        self.assertEqual(cbgrid.Matrix.from_triples([], [], [], (3, 0), "min-plus").sum(), INFINITY)

    def test_few_entries(self):
        last = LIMIT - 1
        made = cbgrid.Matrix.from_triples([0, 5, last], [last, 7, 3], [1, 2, 3], (LIMIT, LIMIT))
        self.assertEqual(made[:, last].shape, (LIMIT, 1))
        self.assertEqual(made[5, :][0, 7], 2)
        self.assertEqual(made[[last, 5], :][0, 3], 3)
        self.assertEqual(made[[last, 5], :].shape, (2, LIMIT))
        self.assertEqual(made[::-1, [7, 3]][last - 5, 0], 2)
        self.assertEqual(made[::-1, [7, 3]].nnz, 2)
        self.assertEqual(made[5::7, 1::2].nnz, 1)
        self.assertEqual(made[5::7, 1::2][0, 3], 2)
        self.assertEqual(made.triu(1).nnz, 2)
        self.assertEqual(made.diagonal().shape, (LIMIT, 1))
        self.assertEqual(cbgrid.Matrix.from_diagonal(made[:, 3])[last, last], 3)
        self.assertEqual(made.assign(last, last, [[5]] * np.ones((1, 1), int)).nnz, 4)
        self.assertEqual(made.exclude(made.triu(1)).nnz, 1)
        self.assertEqual(made.sum(), 6)
        self.assertEqual(made.apply("row").sum(), 5 + last)
        self.assertEqual(cbgrid.Matrix.from_triples([0], [0], [INFINITY], (1, 1)).apply("sum", 1).nnz, 0)

    def test_refused(self):
        a = cbgrid.Matrix(np.array([[1, 1, 0], [0, 1, 1], [1, 0, 1]]), "or-and")
        huge = cbgrid.Matrix.from_triples([], [], [], (LIMIT, 1), "or-and")
        self.refused(2, "region: one of", lambda: a.select("left"))
        self.refused(2, "function: one of", lambda: a.apply("square"))
        self.refused(9, "number: 0 to 2^64 - 1", lambda: a.apply("sum", -1))
        self.refused(9, "number: 0 to 2^64 - 1", lambda: a.apply("sum", 2**64))
        self.refused(9, "not a value", lambda: a.apply("constant", 2))
        self.refused(9, "not a value", lambda: a.apply("row"))
        self.refused(16, "not a column", lambda: cbgrid.Matrix.from_diagonal(a))
        self.refused(8, "rows: entry 1 is 3", lambda: a.extract([0, 3], [0]))
        self.refused(8, "columns: entry 0 is -1", lambda: a.extract([0], [-1]))
        self.refused(3, "other semirings", lambda: a.kron(cbgrid.Matrix(np.eye(2, dtype=int))))
        self.refused(5, "more than", lambda: huge.kron(a))
        self.refused(3, "other semirings", lambda: a.assign(0, 0, cbgrid.Matrix(np.eye(2, dtype=int))))
        self.refused(8, "", lambda: a.assign(1, 0, a))
        self.refused(8, "row, column", lambda: a.assign(0, -1, a))
        self.refused(8, "row, column", lambda: a.assign(2**32, 0, a))
        self.refused(3, "other semirings", lambda: a.exclude(cbgrid.Matrix(np.eye(3, dtype=int))))
        self.refused(10, "shapes", lambda: a.exclude(huge))
        self.assertRaises(TypeError, a.assign, 0, 0, 3)
        self.assertRaises(TypeError, a.assign, 0.5, 0, a)
        self.assertRaises(TypeError, a.exclude, None)
        eye = sp.csc_array(np.eye(3, dtype=np.int64))
        self.assertEqual(cbgrid.multiply(eye, eye, mask=eye, complement=True).nnz, 0)
        self.assertRaises(ValueError, a.sum, 2)
        self.assertRaises(TypeError, cbgrid.Matrix.from_diagonal, [[1]])
        self.assertRaises(TypeError, cbgrid.Matrix.from_diagonal, [1.5])
        self.assertRaises(TypeError, a.kron, 3)
        self.assertRaises(TypeError, a.select, "lower", 0.5)
        for wrong in ((0, 3), (-4, 0), ([0, 3], 0), (0, [-4]), ([3], [0])):
            self.assertRaises(IndexError, lambda: a[wrong])
        for wrong in (0, (0,), (0, 1, 2), ([True, False, True], 0), ([0.5], 0), ("a", 0), ([[0]], 0)):
            self.assertRaises(TypeError, lambda: a[wrong])


if __name__ == "__main__":
    unittest.main()
