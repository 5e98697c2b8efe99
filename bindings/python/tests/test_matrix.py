"""Tests of matrices that are kept: against scipy, against dense sums, and of what is refused."""

import copy
import gc
import pickle
import threading
import unittest

import numpy as np
import scipy.sparse as sp

import cbgrid
from test_cbgrid import ARITHMETIC, CLASSES, INFINITY, LIMIT, SEMIRINGS, dense, dense_product, random_matrix

INTEGERS = (bool, np.int8, np.uint8, np.int16, np.uint16, np.int32, np.uint32, np.int64, np.uint64)
ROUNDS = 300


def random_numbers(rng, nrows, ncols, semiring, kind):
    """A matrix whose values are of the semiring."""
    made = random_matrix(rng, nrows, ncols, int(rng.integers(0, 40)), 1, 9, np.int64)
    made.data = np.minimum(made.data, 1 if semiring == "or-and" else 9)
    return kind(made)


def as_dense(matrix):
    return dense(matrix.to_scipy("coo"), matrix.zero)


class Kept(unittest.TestCase):
    def setUp(self):
        self.rng = np.random.default_rng(20261126)

    def pair(self, semiring, m, k, n):
        return [cbgrid.Matrix(random_numbers(self.rng, *sides, semiring, sp.csc_array), semiring) for sides in ((m, k), (k, n))]

    def test_products(self):
        for _ in range(ROUNDS):
            semiring = SEMIRINGS[self.rng.integers(4)]
            a, b = self.pair(semiring, *(int(it) for it in self.rng.integers(1, 12, 3)))
            want = dense_product(as_dense(a), as_dense(b), semiring)
            self.assertTrue((as_dense(a @ b) == want).all())
            self.assertTrue((as_dense(b.T @ a.T) == want.T).all())

    def test_placewise(self):
        for _ in range(ROUNDS):
            semiring = SEMIRINGS[self.rng.integers(4)]
            zero, plus, product = ARITHMETIC[semiring]
            m, n = (int(it) for it in self.rng.integers(1, 12, 2))
            a, b = (cbgrid.Matrix(random_numbers(self.rng, m, n, semiring, sp.csc_array), semiring) for _ in "ab")
            x, y = as_dense(a), as_dense(b)
            for made, call in ((a + b, plus), (a * b, product)):
                want = np.array([[call(x[i, j], y[i, j]) for j in range(n)] for i in range(m)], object).reshape(m, n)
                self.assertTrue((as_dense(made) == want).all())
            self.assertTrue((as_dense(a.T) == x.T).all())
            kept = cbgrid.prune(a, "above", 4)
            self.assertTrue((as_dense(kept) == np.where(x > 4, zero, x)).all())

    def test_integer_types(self):
        for dtype in INTEGERS:
            for kind in CLASSES:
                top = int(dtype is bool or np.iinfo(dtype).max)
                like = sp.coo_array((np.array([1, top], dtype), ([0, 2], [1, 0])), shape=(3, 4))
                made = cbgrid.Matrix(kind(like))
                self.assertEqual((made.shape, made.nnz, made[0, 1], made[2, 0], made[2, 3]), ((3, 4), 2, 1, top, 0))
                self.assertEqual(cbgrid.Matrix(like.toarray()), made)

    def test_round_trips(self):
        for kind in CLASSES:
            like = random_matrix(self.rng, 9, 7, 30, 1, 9, np.uint64, kind)
            made = cbgrid.Matrix(like)
            for format in ("csc", "csr", "coo"):
                self.assertTrue((made.to_scipy(format).toarray() == like.toarray()).all())
            self.assertTrue((made.to_numpy() == like.toarray()).all())
            again = cbgrid.Matrix.from_triples(*made.to_triples(), made.shape)
            self.assertEqual(again, made)
            self.assertEqual(pickle.loads(pickle.dumps(made)), made)
            self.assertIs(copy.deepcopy(made), made)
            self.assertEqual(cbgrid.Matrix(made), made)

    def test_triples_are_added_up(self):
        rows, columns, values = [1, 0, 1, 1], [2, 0, 2, 2], [5, 1, 7, 6]
        sums = {"plus-times": 18, "min-plus": 5, "max-min": 7}
        for semiring, want in sums.items():
            made = cbgrid.Matrix.from_triples(rows, columns, values, (2, 3), semiring)
            self.assertEqual((made[1, 2], made.nnz), (want, 2))
        made = cbgrid.Matrix.from_triples([0, 0], [0, 0], [2**63, 2**63], (1, 1))
        self.assertEqual(made.nnz, 0)

    def test_values_at_the_top(self):
        for semiring in ("plus-times", "max-min"):
            made = cbgrid.Matrix.from_triples([0], [0], [INFINITY], (1, 1), semiring)
            self.assertEqual(made[0, 0], INFINITY)
            self.assertRaises(OverflowError, made.to_scipy, "csc", np.int64)
        self.assertEqual(cbgrid.Matrix.from_triples([0], [0], [INFINITY], (1, 1), "min-plus").nnz, 0)

    def test_sides(self):
        for semiring in SEMIRINGS:
            none = cbgrid.Matrix.from_triples([], [], [], (0, 0), semiring)
            self.assertEqual((none @ none).shape, (0, 0))
            empty = cbgrid.Matrix.from_triples([], [], [], (LIMIT, 3), semiring)
            self.assertEqual((empty.T.shape, empty.nnz, empty[LIMIT - 1, 2]), ((3, LIMIT), 0, empty.zero))
        huge = cbgrid.Matrix.from_triples([LIMIT - 1], [LIMIT - 1], [3], (LIMIT, LIMIT))
        self.assertEqual((huge @ huge)[-1, -1], 9)

    def test_operands_of_scipy_and_numpy(self):
        a = cbgrid.Matrix(np.array([[1, 2], [0, 3]]))
        b = sp.csr_array(np.array([[0, 1], [4, 0]]))
        want = a.to_numpy().astype(int) @ b.toarray()
        self.assertTrue(((a @ b).to_numpy() == want).all())
        self.assertTrue((cbgrid.multiply(a, b).to_numpy() == want).all())
        self.assertTrue((a @ np.array([1, 1]) == [3, 3]).all())
        self.assertTrue((cbgrid.multiply(a, b, mask=b).to_numpy() == want * (b.toarray() != 0)).all())

    def test_functions_of_the_module(self):
        graph = cbgrid.Matrix(np.array([[0, 7, 2], [0, 0, 0], [0, 4, 0]]), "min-plus")
        self.assertEqual(graph.nnz, 9)
        roads = sp.csr_array(np.array([[0, 7, 2], [0, 0, 0], [0, 4, 0]]))
        for got, want in zip(cbgrid.relax(cbgrid.Matrix(roads, "min-plus"), 0), cbgrid.relax(roads, 0)):
            self.assertTrue((got == want).all())
        ones = cbgrid.Matrix(roads.minimum(1), "or-and")
        for got, want in zip(cbgrid.bfs(ones, 2), cbgrid.bfs(roads, 2)):
            self.assertTrue((got == want).all())
        made = cbgrid.Matrix(roads)
        self.assertEqual(cbgrid.text(made), cbgrid.text(roads))
        for name in ("add", "times"):
            got = getattr(cbgrid, name)(made, made).to_scipy()
            self.assertTrue((got.toarray() == getattr(cbgrid, name)(roads, roads).toarray()).all())
        self.assertTrue((cbgrid.transpose(made).to_numpy() == roads.toarray().T).all())

    def test_refused(self):
        a, b = (cbgrid.Matrix(np.array([[1]]), semiring) for semiring in ("plus-times", "or-and"))
        for call in (lambda: a @ b, lambda: a + b, lambda: b * a, lambda: cbgrid.multiply(a, a, "or-and"), lambda: cbgrid.bfs(a, 0)):
            with self.assertRaises(cbgrid.CbgridValueError) as raised:
                call()
            self.assertEqual(raised.exception.code, 3)
        wrong = (
            (lambda: cbgrid.Matrix(np.array([[1, 2], [-3, 4]])), 9, "source: entry 2 is -3"),
            (lambda: cbgrid.Matrix.from_triples([0], [0], [2**64], (1, 1)), 9, "values: entry 0 is 18446744073709551616"),
            (lambda: cbgrid.Matrix.from_triples([0, 3], [0, 0], [1, 1], (2, 2)), 8, "rows: entry 1 is 3"),
            (lambda: cbgrid.Matrix.from_triples([0], [0, 1], [1], (2, 2)), 6, "lengths"),
            (lambda: cbgrid.Matrix.from_triples([], [], [], (LIMIT + 1, 2)), 5, "more than"),
            (lambda: cbgrid.Matrix(np.array([[2]]), "or-and"), 9, "not a value"),
            (lambda: cbgrid.Matrix(np.array([[2]]), "none"), 1, "no such semiring"),
            (lambda: a @ cbgrid.Matrix(np.array([[1], [1]])), 10, f"shapes don't agree: {a.shape[0]} by {a.shape[1]}, 2 by 1"),
            (lambda: a + cbgrid.Matrix(a, "min-plus"), 3, "plus-times, min-plus"),
            (lambda: a.multiply(a.T, cbgrid.Matrix(np.array([[1, 1]]))), 10, f", {a.shape[1]} by {a.shape[0]}, 1 by 2"),
            (lambda: cbgrid.Matrix(np.array([[1, 1]])).power(2), 11, "square: 1 by 2"),
        )
        for call, code, message in wrong:
            with self.assertRaises(cbgrid.CbgridValueError) as raised:
                call()
            self.assertEqual(raised.exception.code, code)
            self.assertIn(message, str(raised.exception))
        self.assertRaises(TypeError, cbgrid.Matrix, np.array([[1.5]]))
        self.assertRaises(TypeError, cbgrid.Matrix, [[1]])
        self.assertRaises(IndexError, lambda: a[0, 1])
        self.assertRaises(TypeError, lambda: a @ 3)

    def test_repr_and_equality(self):
        a = cbgrid.Matrix(np.array([[1, 0]]), "max-min")
        self.assertEqual(repr(a), "<cbgrid.Matrix of 1 by 2 over max-min, 1 entries>")
        self.assertNotEqual(a, cbgrid.Matrix(np.array([[1, 0]])))
        self.assertNotEqual(a, cbgrid.Matrix(np.array([[2, 0]]), "max-min"))
        self.assertNotEqual(a, a.T)
        self.assertFalse(a == 3)
        self.assertEqual(cbgrid.__version__, "0.1.0")

    def test_threads_and_freeing(self):
        a = cbgrid.Matrix(random_matrix(self.rng, 50, 50, 300, 1, 9, np.uint64))
        want, wrong = a @ a, []

        def often():
            for _ in range(50):
                if a @ a != want:
                    wrong.append(1)

        threads = [threading.Thread(target=often) for _ in range(4)]
        for it in threads:
            it.start()
        for it in threads:
            it.join()
        self.assertEqual(wrong, [])
        del a
        gc.collect()

    def refused(self, code, entry, call, *arguments):
        """A call raises an error with a code, about an entry."""
        with self.assertRaises(cbgrid.CbgridValueError) as raised:
            call(*arguments)
        fault = raised.exception
        self.assertEqual((fault.code, fault.entry), (code, entry))
        self.assertEqual(str(fault), fault.message if entry is None else f"entry {entry}: {fault.message}")
        again = pickle.loads(pickle.dumps(fault))
        self.assertEqual((again.code, again.entry, str(again)), (code, entry, str(fault)))

    def test_entries_of_errors(self):
        rows, columns, shape = np.repeat(np.arange(3000), 2), np.tile((1, 4), 3000), (3000, 7)
        starts = np.arange(0, 6001, 2, dtype=np.int32)
        for n in (0, 1, 2999, 5998, 5999):
            values = np.ones(6000, np.int64)
            values[n], values[-1] = 2, 3
            csr = sp.csr_array((values, columns.astype(np.int32), starts), shape=shape)
            self.refused(9, n, cbgrid.Matrix, csr, "or-and")
            self.refused(9, n, cbgrid.Matrix, csr.T, "or-and")
            self.refused(9, None, cbgrid.Matrix, csr.tocoo(), "or-and")
            self.refused(9, n, cbgrid.Matrix.from_triples, rows, columns, values, shape, "or-and")
            sources = np.zeros(6000, np.int64)
            sources[n], sources[-1] = 7, 8
            self.refused(12, n, cbgrid.bfs, sp.csr_array((7, 7), dtype=np.int64), sources)
            self.refused(12, n, cbgrid.relax, sp.csc_array((7, 7), dtype=np.int64), sources)
        for n in (1, 2999, 5999):
            csr = sp.csr_array((np.ones(6000, np.int64), columns.astype(np.int32), starts), shape=shape)
            csr.indices[n] = 7
            self.refused(8, n, cbgrid.Matrix, csr)
        a = cbgrid.Matrix(np.ones((2, 3), np.int64))
        self.refused(10, None, a.multiply, a)


if __name__ == "__main__":
    unittest.main()
