"""Tests of cbgrid for Python: against scipy, against dense sums, and of what is refused."""

import os
import pickle
import tempfile
import threading
import unittest
from functools import reduce

import numpy as np
import scipy.sparse as sp
from scipy.sparse import csgraph

import cbgrid

CLASSES = (sp.csc_matrix, sp.csr_matrix, sp.coo_matrix, sp.csc_array, sp.csr_array, sp.coo_array)
DTYPES = (np.int64, np.uint64)
SEMIRINGS = (
    "plus-times min-plus or-and max-min plus-pair plus-min plus-first plus-second "
    "min-first min-second max-first max-second max-plus min-max"
).split()
INFINITY = 2**64 - 1
LIMIT = 2**31 - 1
ROUNDS = 2000


def random_matrix(rng, nrows, ncols, count, low=-9, high=10, dtype=np.int64, kind=sp.csc_matrix):
    """Entries at random places; doubled ones are summed."""
    rows, columns = rng.integers(0, nrows, count), rng.integers(0, ncols, count)
    values = rng.integers(low, high, count, dtype=dtype)
    return kind(sp.coo_matrix((values, (rows, columns)), shape=(nrows, ncols)).tocsc())


def random_shape(rng):
    return [int(it) for it in rng.integers(1, 25, 3)]


def random_pair(rng, m, k, n, kind=None):
    """Two matrices that meet, with small values or with ones that wrap."""
    low, high = (-(2**62), 2**62) if rng.integers(4) == 0 else (-9, 10)
    dtype = DTYPES[rng.integers(2)]
    if dtype == np.uint64:
        low, high = 0, 2**63 if high > 10 else 10
    kinds = (kind, kind) if kind else [CLASSES[i] for i in rng.integers(0, 6, 2)]
    a = random_matrix(rng, m, k, int(rng.integers(0, 60)), low, high, dtype, kinds[0])
    b = random_matrix(rng, k, n, int(rng.integers(0, 60)), low, high, dtype, kinds[1])
    return a, b


def dense(matrix, zero):
    """The values at all places, in Python's own numbers."""
    made = np.full(matrix.shape, zero, object)
    matrix = matrix.tocoo()
    for row, column, value in zip(matrix.row, matrix.col, matrix.data):
        made[row, column] = int(value)
    return made


ARITHMETIC = {
    "plus-times": (0, lambda x, y: (x + y) % 2**64, lambda x, y: x * y % 2**64),
    "min-plus": (INFINITY, min, lambda x, y: min(x + y, INFINITY)),
    "or-and": (0, max, min),
    "max-min": (0, max, min),
}


def other_product(name, product):
    """The sum of a semiring with another product, which is zero where one of the two is."""
    zero, plus, _ = ARITHMETIC[name]
    return zero, plus, lambda x, y: zero if zero in (x, y) else product(x, y)


OPERATORS = {
    "pair": lambda x, y: 1,
    "first": lambda x, y: x,
    "second": lambda x, y: y,
    "plus": lambda x, y: min(x + y, INFINITY),
    "min": min,
    "max": max,
}
for name in SEMIRINGS[4:]:
    head, word = name.split("-")
    ARITHMETIC[name] = other_product({"plus": "plus-times", "min": "min-plus", "max": "max-min"}[head], OPERATORS[word])


def dense_product(a, b, semiring):
    zero, plus, product = ARITHMETIC[semiring]
    made = np.full((a.shape[0], b.shape[1]), zero, object)
    for i in range(a.shape[0]):
        for j in range(b.shape[1]):
            for k in range(a.shape[1]):
                made[i, j] = plus(made[i, j], product(a[i, k], b[k, j]))
    return made


class Test(unittest.TestCase):
    def setUp(self):
        self.rng = np.random.default_rng(20120601)

    def assert_is_answer(self, got, like, shape):
        self.assertIs(type(got), type(like))
        self.assertEqual(got.dtype, like.dtype)
        self.assertEqual(got.shape, shape)
        if got.format == "coo":
            turn = np.lexsort((got.row, got.col))
            self.assertTrue((turn == np.arange(got.nnz)).all())
            self.assertTrue((0 <= got.row).all() and (got.row < shape[0]).all())
            self.assertTrue((0 <= got.col).all() and (got.col < shape[1]).all())
            return
        got.check_format(full_check=True)
        fresh = type(got)((got.data, got.indices, got.indptr), shape=shape)
        self.assertTrue(fresh.has_canonical_format)

    def assert_same(self, got, want, like):
        """The entries of an answer are those of scipy's that aren't zero."""
        self.assert_is_answer(got, like, want.shape)
        got, want = sp.csc_matrix(got), sp.csc_matrix(want)
        want.sum_duplicates()
        want.eliminate_zeros()
        self.assertTrue(np.array_equal(got.indptr, want.indptr))
        self.assertTrue(np.array_equal(got.indices, want.indices))
        self.assertTrue(np.array_equal(got.data.view(np.uint64), want.data.view(np.uint64)))

    def assert_dense(self, got, want, zero, like):
        self.assert_is_answer(got, like, want.shape)
        self.assertTrue((dense(got, zero) == want).all())
        self.assertEqual(got.nnz, int((want != zero).sum()))

    def assert_refused(self, code, call, *arguments, **named):
        with self.assertRaises(cbgrid.CbgridError) as raised:
            call(*arguments, **named)
        self.assertEqual(raised.exception.code, code)
        self.assertIsInstance(raised.exception, ValueError)
        return raised.exception


class AgainstScipy(Test):
    def test_products(self):
        for turn in range(ROUNDS):
            m, k, n = random_shape(self.rng)
            a, b = random_pair(self.rng, m, k, n)
            self.assert_same(cbgrid.multiply(a, b), sp.csc_matrix(a) @ sp.csc_matrix(b), a)

    def test_masks(self):
        for turn in range(ROUNDS):
            m, k, n = random_shape(self.rng)
            a, b = random_pair(self.rng, m, k, n)
            mask = random_matrix(self.rng, m, n, 40, -1, 2, kind=CLASSES[turn % 6])
            where = (sp.csc_matrix(mask) != 0).astype(a.dtype)
            want = (sp.csc_matrix(a) @ sp.csc_matrix(b)).multiply(where)
            self.assert_same(cbgrid.multiply(a, b, mask=mask), want, a)

    def test_sums_and_placewise_products(self):
        for turn in range(ROUNDS):
            m, n, _ = random_shape(self.rng)
            a, _ = random_pair(self.rng, m, n, n)
            b = random_matrix(self.rng, m, n, 30, 0, 9, a.dtype, CLASSES[turn % 6])
            self.assert_same(cbgrid.add(a, b), sp.csc_matrix(a) + sp.csc_matrix(b), a)
            want = sp.csc_matrix(a).multiply(sp.csc_matrix(b))
            self.assert_same(cbgrid.times(a, b), want, a)

    def test_transposes(self):
        for turn in range(ROUNDS):
            m, k, _ = random_shape(self.rng)
            a, _ = random_pair(self.rng, m, k, k)
            self.assert_same(cbgrid.transpose(a), sp.csc_matrix(a).T, a)

    def test_reductions(self):
        for turn in range(ROUNDS):
            m, k, _ = random_shape(self.rng)
            a, _ = random_pair(self.rng, m, k, k)
            whole = a.toarray()
            rows, columns = whole.sum(axis=1, dtype=a.dtype), whole.sum(axis=0, dtype=a.dtype)
            self.assert_same(cbgrid.reduce(a), sp.csc_matrix(rows.reshape(m, 1)), a)
            self.assert_same(cbgrid.reduce(a, "columns"), sp.csc_matrix(columns.reshape(1, k)), a)
        self.assertRaises(ValueError, cbgrid.reduce, a, "diagonals")

    def test_vectors(self):
        for turn in range(ROUNDS):
            m, k, _ = random_shape(self.rng)
            a, x = random_pair(self.rng, m, k, 1)
            want = sp.csc_matrix(a) @ sp.csc_matrix(x)
            self.assert_same(cbgrid.spmv(a, x), want, x)
            array = x.toarray()[:, 0]
            got = cbgrid.spmv(a, array)
            self.assertEqual(got.dtype, a.dtype)
            self.assertTrue(np.array_equal(got, want.toarray()[:, 0]))

    def test_levels(self):
        for turn in range(ROUNDS):
            n = int(self.rng.integers(1, 40))
            graph = random_matrix(self.rng, n, n, int(self.rng.integers(0, 3 * n)), 1, 9, kind=CLASSES[turn % 6])
            source = int(self.rng.integers(n))
            hops = csgraph.dijkstra(sp.csr_matrix(graph).astype(float), unweighted=True, indices=source)
            vertices, levels = cbgrid.bfs(graph, source)
            self.assertTrue(np.array_equal(vertices, np.flatnonzero(np.isfinite(hops))))
            self.assertTrue(np.array_equal(levels, hops[vertices]))
            reached = csgraph.breadth_first_order(sp.csr_matrix(graph), source, return_predecessors=False)
            self.assertTrue(np.array_equal(np.sort(reached), vertices))

    def test_distances(self):
        for turn in range(ROUNDS):
            n = int(self.rng.integers(1, 40))
            count, dtype = int(self.rng.integers(0, 3 * n)), DTYPES[turn % 2]
            graph = random_matrix(self.rng, n, n, count, 1, 50, dtype, CLASSES[turn % 6])
            source = int(self.rng.integers(n))
            want = csgraph.dijkstra(sp.csr_matrix(graph).astype(float), indices=source)
            vertices, distances = cbgrid.relax(graph, source)
            self.assertEqual(distances.dtype, dtype)
            self.assertTrue(np.array_equal(vertices, np.flatnonzero(np.isfinite(want))))
            self.assertTrue(np.array_equal(distances, want[vertices]))


class AgainstDenseSums(Test):
    def test_semirings(self):
        for turn in range(300):
            semiring = SEMIRINGS[turn % len(SEMIRINGS)]
            zero, plus, product = ARITHMETIC[semiring]
            m, k, n = [int(it) for it in self.rng.integers(1, 7, 3)]
            high = 2 if semiring == "or-and" else (9, 2**64 - 1)[turn % 3 == 0]
            kinds = [CLASSES[i] for i in self.rng.integers(0, 6, 3)]
            a, b, c = (
                random_matrix(self.rng, *shape, 12, 0, 9, np.uint64, kind)
                for shape, kind in zip(((m, k), (k, n), (m, k)), kinds)
            )
            for it in a, b, c:
                it.data[:] = self.rng.integers(0, high, len(it.data), dtype=np.uint64)
            left, right, other = dense(a, zero), dense(b, zero), dense(c, zero)
            self.assert_dense(cbgrid.multiply(a, b, semiring), dense_product(left, right, semiring), zero, a)
            self.assert_dense(cbgrid.add(a, c, semiring), np.vectorize(plus, [object])(left, other), zero, a)
            self.assert_dense(cbgrid.times(a, c, semiring), np.vectorize(product, [object])(left, other), zero, a)
            self.assert_dense(cbgrid.transpose(a, semiring), left.T, zero, a)
            rows = np.array([[reduce(plus, row, zero)] for row in left.tolist()], object)
            columns = np.array([[reduce(plus, column, zero) for column in left.T.tolist()]], object)
            self.assert_dense(cbgrid.reduce(a, "rows", semiring), rows, zero, a)
            self.assert_dense(cbgrid.reduce(a, "columns", semiring), columns, zero, a)
            x = dense(b, zero)[:, 0]
            got = cbgrid.spmv(a, x.astype(np.uint64), semiring)
            self.assertTrue((got == dense_product(left, right[:, :1], semiring)[:, 0].astype(np.uint64)).all())
            bound = int(self.rng.integers(0, 5))
            for test, drops in ("below", left < bound), ("above", left > bound), ("equal", left == bound):
                want = np.where(drops.astype(bool), zero, left)
                self.assert_dense(cbgrid.prune(a, test, bound, semiring), want, zero, a)

    def test_texts(self):
        for turn in range(200):
            semiring = SEMIRINGS[turn % len(SEMIRINGS)]
            a = random_matrix(self.rng, 9, 7, 20, 1, 2 if semiring == "or-and" else 99, np.uint64, CLASSES[turn % 6])
            a.data[:] = np.minimum(a.data, 1) if semiring == "or-and" else a.data
            written = cbgrid.text(a, semiring)
            for form in "csc", "csr", "coo":
                again = cbgrid.read(written, semiring, form)
                self.assertEqual(again.format, form)
                self.assertTrue((again.toarray() == a.toarray()).all())
        with tempfile.TemporaryDirectory() as folder:
            path = os.path.join(folder, "a.mtx")
            with open(path, "wb") as file:
                file.write(written)
            self.assertTrue((cbgrid.read(path, semiring).toarray() == a.toarray()).all())
        self.assertRaises(OSError, cbgrid.read, path)

    def test_signs_in_texts(self):
        a = sp.csc_array(np.array([[-1, 2], [0, -(2**63)]]))
        self.assertTrue((cbgrid.read(cbgrid.text(a), dtype=np.int64).toarray() == a.toarray()).all())
        big = b"%%MatrixMarket matrix coordinate integer general\n1 1 1\n1 1 18446744073709551614\n"
        self.assertEqual(cbgrid.read(big, "max-min").data[0], 2**64 - 2)
        self.assertRaises(OverflowError, cbgrid.read, big, "max-min", dtype=np.int64)


class Lists(Test):
    def test_sides_at_the_limit(self):
        last = LIMIT - 1
        a = sp.coo_matrix((np.array([3, 5]), ([last, 0], [last, 7])), shape=(LIMIT, LIMIT))
        square = cbgrid.multiply(a, a)
        self.assertEqual((square.row.tolist(), square.col.tolist(), square.data.tolist()), ([last], [last], [9]))
        turned = cbgrid.transpose(a)
        self.assertEqual((turned.row.tolist(), turned.col.tolist()), ([7, last], [0, last]))
        sums = cbgrid.reduce(a)
        self.assertEqual((sums.row.tolist(), sums.data.tolist(), sums.shape), ([0, last], [5, 3], (LIMIT, 1)))
        sums = cbgrid.reduce(a, "columns")
        self.assertEqual((sums.col.tolist(), sums.data.tolist(), sums.shape), ([7, last], [5, 3], (1, LIMIT)))
        self.assertEqual([it.tolist() for it in cbgrid.bfs(a, 0)], [[0, 7], [0, 1]])
        self.assertEqual([it.tolist() for it in cbgrid.relax(a, last)], [[last], [0]])
        self.assertEqual(cbgrid.read(cbgrid.text(a), format="coo").col.tolist(), [7, last])
        wide = sp.csc_matrix((np.array([2]), np.array([LIMIT - 1]), np.array([0, 1])), shape=(LIMIT, 1))
        self.assertEqual(cbgrid.add(wide, wide).data.tolist(), [4])

    def test_unsorted_and_doubled(self):
        for kind in sp.csc_matrix, sp.csr_matrix:
            data, indices, indptr = np.array([1, 2, 3, 4, 5]), np.array([2, 0, 0, 1, 1]), np.array([0, 3, 5, 5])
            a = kind((data, indices, indptr), shape=(3, 3))
            want = sp.csc_matrix(a.toarray())
            self.assert_same(cbgrid.multiply(a, a), want @ want, a)
            self.assert_same(cbgrid.add(a, kind(want)), want + want, a)
            self.assertEqual(cbgrid.text(a), cbgrid.text(want))
            self.assertEqual(a.indices.tolist(), [2, 0, 0, 1, 1])
            self.assertEqual(a.data.tolist(), [1, 2, 3, 4, 5])
        a = sp.coo_matrix((np.array([1, 2, 2**63 - 1, 1]), ([2, 0, 1, 1], [0, 1, 1, 1])), shape=(3, 3))
        self.assert_same(cbgrid.transpose(a), sp.csc_matrix(a.toarray().T), a)

    def test_lists_of_other_widths(self):
        a = random_matrix(self.rng, 12, 9, 40)
        want = (a @ a.T).tocsc()
        wide = sp.csc_matrix(a)
        wide.indices, wide.indptr = wide.indices.astype(np.int64), wide.indptr.astype(np.int64)
        turned = sp.csc_matrix(a.T)
        self.assert_same(cbgrid.multiply(wide, turned), want, wide)
        wide.indptr = wide.indptr.astype(np.int32)
        self.assert_same(cbgrid.multiply(wide, turned), want, wide)
        wide.indices[3] = 2**32  # row 0, if it were cut to 32 bits
        self.assert_refused(8, cbgrid.multiply, wide, turned)
        wide.indices[3] = -1
        self.assert_refused(8, cbgrid.multiply, wide, turned)

    def test_lists_with_gaps_and_room(self):
        a = random_matrix(self.rng, 12, 12, 40)
        gaps = sp.csc_matrix(a)
        for name in "data", "indices", "indptr":
            array = getattr(gaps, name)
            spread = np.zeros(2 * len(array), array.dtype)
            spread[::2] = array
            setattr(gaps, name, spread[::2])
        self.assert_same(cbgrid.multiply(gaps, gaps), a @ a, gaps)
        room = sp.csc_matrix(a)
        room.data, room.indices = np.append(room.data, [7, 7]), np.append(room.indices, [99, 99]).astype(np.int32)
        self.assert_same(cbgrid.multiply(room, room), a @ a, room)
        self.assert_same(cbgrid.multiply(sp.csr_matrix(a), room), a @ a, sp.csr_matrix(a))
        unaligned = sp.csc_matrix(a)
        shifted = np.frombuffer(b"\0" + a.data.tobytes(), np.uint8)[1:].view(np.int64)
        self.assertFalse(shifted.flags.aligned)
        unaligned.data = shifted
        self.assert_same(cbgrid.multiply(unaligned, unaligned), a @ a, unaligned)
        frozen = sp.csc_matrix(a)
        for array in frozen.data, frozen.indices, frozen.indptr:
            array.flags.writeable = False
        self.assert_same(cbgrid.multiply(frozen, frozen), a @ a, frozen)

    def test_lists_are_lent_where_they_lie(self):
        a = random_matrix(self.rng, 300, 300, 5000)
        for kind in sp.csc_matrix, sp.csr_matrix:
            from cbgrid import _lists

            matrix = kind(a)
            lent = _lists.lend(matrix, kind is sp.csr_matrix, False)
            for address, array in zip((lent.starts32, lent.rows, lent.values), (matrix.indptr, matrix.indices, matrix.data)):
                self.assertEqual(address, array.ctypes.data)

    def test_empty_matrices(self):
        for kind in CLASSES:
            for shape in (0, 0), (0, 3), (3, 0), (3, 3):
                a = kind(shape, dtype=np.int64)
                self.assert_same(cbgrid.transpose(a), sp.csc_matrix(shape[::-1], dtype=np.int64), a)
                self.assert_same(cbgrid.add(a, a), sp.csc_matrix(shape, dtype=np.int64), a)
                got = cbgrid.multiply(a, kind(shape[::-1], dtype=np.int64))
                self.assert_same(got, sp.csc_matrix((shape[0],) * 2, dtype=np.int64), a)
                self.assertEqual(cbgrid.spmv(a, np.zeros(shape[1], np.int64)).tolist(), [0] * shape[0])

    def test_answers_last(self):
        """A long answer's lists are the library's own: they last as long as an array shows them, and can be changed."""
        a = random_matrix(self.rng, 300, 300, 6000)
        data = cbgrid.multiply(a, a).data
        copies = [cbgrid.multiply(a, a) for _ in range(20)]
        want = (a @ a).tocsc()
        want.eliminate_zeros()
        want.sort_indices()
        self.assertTrue(np.array_equal(data, want.data))
        copies[0].data *= 2
        self.assert_same(copies[1], want, a)
        self.assert_same(cbgrid.multiply(copies[1], copies[2]), want @ want, a)

    def test_the_same_matrix(self):
        for kind in CLASSES:
            a = random_matrix(self.rng, 20, 20, 80, kind=kind)
            want = (sp.csc_matrix(a) @ sp.csc_matrix(a)).multiply((sp.csc_matrix(a) != 0).astype(np.int64))
            self.assert_same(cbgrid.multiply(a, a, mask=a), want, a)

    def test_threads(self):
        a = random_matrix(self.rng, 400, 400, 4000)
        want, failed = (a @ a).tocsc(), []

        def work(turn):
            try:
                for _ in range(10):
                    self.assert_same(cbgrid.multiply(a, a), want.copy(), a)
                    self.assert_same(cbgrid.transpose(a), a.T, a)
            except BaseException as fault:
                failed.append(fault)

        threads = [threading.Thread(target=work, args=(turn,)) for turn in range(8)]
        for it in threads:
            it.start()
        for it in threads:
            it.join()
        self.assertEqual(failed, [])


def coordinates(rows, columns, values, shape, kind=sp.coo_array, dtype=np.int32):
    """A coo matrix of these very lists."""
    made = kind(shape, dtype=values.dtype)
    made.row, made.col, made.data = np.array(rows, dtype), np.array(columns, dtype), values
    return made


def sums(matrix):
    """What a coo matrix has at each place, modulo 2^64, column by column: in Python's own numbers."""
    made = {}
    for row, column, value in zip(matrix.row.tolist(), matrix.col.tolist(), matrix.data.tolist()):
        made[column, row] = (made.get((column, row), 0) + value) % 2**64
    return [(row, column, made[column, row]) for column, row in sorted(made) if made[column, row]]


class Coordinates(Test):
    def entries(self, got):
        self.assertEqual(got.format, "coo")
        return list(zip(got.row.tolist(), got.col.tolist(), got.data.view(np.uint64).tolist()))

    def assert_summed(self, a):
        """That a matrix is read as its sums in order, and left as it is."""
        before = a.row, a.col, a.data, a.row.tolist(), a.col.tolist(), a.data.tolist()
        none = type(a)(a.shape, dtype=a.dtype)
        want = sums(a)
        self.assertEqual(self.entries(cbgrid.add(a, none)), want)
        self.assertEqual(self.entries(cbgrid.add(none, a)), want)
        turned = sorted(((column, row, value) for row, column, value in want), key=lambda it: it[1::-1])
        self.assertEqual(self.entries(cbgrid.transpose(a)), turned)
        for now, then in zip((a.row, a.col, a.data), before):
            self.assertIs(now, then)
        self.assertEqual((a.row.tolist(), a.col.tolist(), a.data.tolist()), before[3:])

    def test_any_order_with_doubled_places(self):
        for turn in range(600):
            sides = (6, 6), (40, 40), (5, 1000), (5, 1001), (LIMIT, 3), (3, LIMIT), (LIMIT, LIMIT)
            nrows, ncols = sides[self.rng.integers(len(sides))]
            count = int(self.rng.integers(0, 3000 if turn % 50 == 0 else 30))
            rows, columns = self.rng.integers(0, nrows, count), self.rng.integers(0, ncols, count)
            if count and turn % 3 == 0:
                again = self.rng.integers(0, (count + 1) // 2, count)
                rows, columns = rows[again], columns[again]
            if turn % 4 == 0:
                order = np.lexsort((rows, columns))
                rows, columns = rows[order], columns[order]
            values = self.rng.integers(-(2**63), 2**63, count) if turn % 7 else self.rng.integers(-1, 2, count)
            values, width = values.astype(DTYPES[turn % 2]), (np.int32, np.int64)[turn // 2 % 2]
            self.assert_summed(coordinates(rows, columns, values, (nrows, ncols), dtype=width))

    def test_both_halves_of_a_place_count(self):
        last = LIMIT - 1
        rows, columns = [last, 0, last, 0, 1, 0, last], [0, 1, last, last, 0, 0, 1]
        a = coordinates(rows, columns, np.arange(1, 8), (LIMIT, LIMIT))
        want = [(0, 0, 6), (1, 0, 5), (last, 0, 1), (0, 1, 2), (last, 1, 7), (0, last, 4), (last, last, 3)]
        self.assertEqual(sums(a), want)
        self.assert_summed(a)
        # A row and a column whose bits would meet if a half ran over.
        self.assert_summed(coordinates([2**16, 2**30, 1, 2**15], [1, 0, 2**16, 2], np.arange(1, 5), (LIMIT, LIMIT)))

    def test_long_lists(self):
        for count in 999, 1000, 1001, 1002, 5000:
            columns, rows = np.divmod(np.arange(count), 37)
            values, shape = self.rng.integers(-(2**63), 2**63, count), (40, 200)
            self.assert_summed(coordinates(rows, columns, values, shape))
            self.assert_summed(coordinates(rows[::-1], columns[::-1], values, shape))
            turn = self.rng.permutation(count)
            self.assert_summed(coordinates(rows[turn], columns[turn], values, shape))
            rows[-1], columns[-1] = rows[-2], columns[-2]
            self.assert_summed(coordinates(rows, columns, values, shape))

    def test_doubled_places_that_cancel(self):
        a = coordinates([1, 0, 1, 0, 1], [0, 1, 0, 1, 0], np.array([5, 2**63 - 1, -7, 1, 2]), (2, 2))
        self.assertEqual(sums(a), [(0, 1, 2**63)])
        self.assert_summed(a)
        self.assertEqual(cbgrid.multiply(a, a).nnz, 0)
        self.assertEqual(cbgrid.bfs(a, 0)[0].tolist(), [0, 1])
        self.assertEqual(cbgrid.bfs(a, 1)[0].tolist(), [1])
        wrapped = coordinates([0, 0], [0, 0], np.array([2**63, 2**63], np.uint64), (1, 1))
        self.assertEqual(sums(wrapped), [])
        self.assert_summed(wrapped)
        self.assertEqual(cbgrid.text(wrapped), cbgrid.text(sp.csc_array((1, 1), dtype=np.uint64)))

    def test_values_are_refused_by_their_sums(self):
        for kind in sp.coo_array, sp.coo_matrix:
            a = coordinates([0, 0, 1], [1, 1, 0], np.array([-1, 3, 4]), (2, 2), kind)
            self.assertEqual([it.tolist() for it in cbgrid.relax(a, 0)], [[0, 1], [0, 2]])
            self.assertEqual(cbgrid.transpose(a, "max-min").toarray().tolist(), [[0, 4], [2, 0]])
            self.assertEqual(cbgrid.prune(a, "below", 3).data.tolist(), [4])
            one = coordinates([0, 0], [0, 0], np.array([-1, 2]), (1, 1), kind)
            self.assertEqual(cbgrid.multiply(one, one, "or-and").data.tolist(), [1])
            none = coordinates([0, 0], [0, 0], np.array([-1, 1]), (1, 1), kind)
            self.assertEqual(cbgrid.multiply(none, none, "or-and").nnz, 0)
            for values in [1, -2], [2**62, 2**62]:
                below = coordinates([0, 0], [0, 0], np.array(values), (1, 1), kind)
                for semiring in "min-plus", "max-min", "or-and":
                    self.assert_refused(9, cbgrid.transpose, below, semiring)
                self.assert_refused(9, cbgrid.relax, below, 0)

    def test_stored_zeros(self):
        a = coordinates([0, 1, 0], [0, 0, 1], np.array([0, 3, 0], np.uint64), (2, 2))
        self.assert_summed(a)
        self.assertEqual(cbgrid.transpose(a).nnz, 1)
        self.assertEqual(self.entries(cbgrid.transpose(a, "min-plus")), [(0, 0, 0), (1, 0, 0), (0, 1, 3)])
        self.assertEqual([it.tolist() for it in cbgrid.relax(a, 0)], [[0, 1], [0, 0]])
        self.assertEqual(cbgrid.bfs(a, 0)[0].tolist(), [0])

    def test_empty(self):
        for shape in (0, 0), (0, 3), (3, 0), (LIMIT, LIMIT):
            for width in np.int32, np.int64:
                for dtype in DTYPES:
                    self.assert_summed(coordinates([], [], np.zeros(0, dtype), shape, dtype=width))
        nothing = coordinates([], [], np.zeros(0, np.int64), (3, 3))
        twice = coordinates([0, 0], [0, 0], np.array([1, 1]), (3, 3))
        self.assertEqual(cbgrid.multiply(nothing, twice).nnz, 0)  # the kernel finds the second out of order
        self.assertEqual(cbgrid.add(nothing, twice).data.tolist(), [2])

    def test_beside_other_formats(self):
        for turn in range(200):
            m, k, n = random_shape(self.rng)
            lists = [self.rng.integers(0, it, 60) for it in (m, k, k, n)]
            a = coordinates(lists[0], lists[1], self.rng.integers(-9, 9, 60), (m, k))
            b = coordinates(lists[2], lists[3], self.rng.integers(-9, 9, 60), (k, n))
            for left, right in (a, b.tocsr()), (a, b.tocsc()), (a.tocsr(), b), (a.tocsc(), b), (a, b):
                self.assert_same(cbgrid.multiply(left, right), sp.csc_matrix(a) @ sp.csc_matrix(b), left)

    def test_what_is_outside_the_shape(self):
        for width in np.int32, np.int64:
            for row, column in (-1, 0), (0, -1), (2, 0), (0, 3), (-1, -1), (-(2**31), 0), (0, -(2**31)), (LIMIT, LIMIT):
                for rows, columns in ([0, row, 1], [0, column, 2]), ([row, row, 1], [column, column, 2]):
                    bad = coordinates(rows, columns, np.array([1, 2, 3]), (2, 3), dtype=width)
                    self.assert_refused(8, cbgrid.transpose, bad)
                    self.assert_refused(8, cbgrid.transpose, bad, "min-plus")
                    bad.data = -bad.data
                    self.assert_refused(8, cbgrid.transpose, bad, "min-plus")
        for row in 2**32, 2**31, -(2**32), 2**62, -(2**63):
            for rows, columns in ([row], [0]), ([0], [row]):
                self.assert_refused(8, cbgrid.transpose, coordinates(rows, columns, np.array([1]), (2, 3), dtype=np.int64))
        self.assertRaises(TypeError, cbgrid.transpose, coordinates([0.5], [0], np.array([1]), (2, 3), dtype=np.float64))


class Transposed(Test):
    """Matrices that the kernel transposes first: graphs and texts of csr, and operands of csc beside csr."""

    def test_graphs(self):
        for turn in range(300):
            n, count = int(self.rng.integers(1, 30)), int(self.rng.integers(0, 60))
            a = random_matrix(self.rng, n, n, count, -2 if turn % 2 else 0, 5)
            graph = sp.csr_array(a)
            source = int(self.rng.integers(n))
            for left, right in zip(cbgrid.bfs(graph, source), cbgrid.bfs(a, source)):
                self.assertTrue(np.array_equal(left, right))
            if turn % 2 == 0:
                for left, right in zip(cbgrid.relax(graph, source), cbgrid.relax(a, source)):
                    self.assertTrue(np.array_equal(left, right))
            self.assertEqual(cbgrid.text(graph), cbgrid.text(a))

    def test_unsorted_and_doubled(self):
        lists = np.array([1, 2, 3, 4, 5]), np.array([2, 0, 0, 1, 1]), np.array([0, 3, 5, 5])
        a, b = sp.csr_array(lists, shape=(3, 3)), sp.csc_array(lists, shape=(3, 3))
        want = sp.csc_array(a.toarray())
        self.assertEqual([it.tolist() for it in cbgrid.bfs(a, 0)], [[0, 2], [0, 1]])
        self.assertEqual([it.tolist() for it in cbgrid.relax(a, 0)], [it.tolist() for it in cbgrid.relax(want, 0)])
        self.assertEqual(cbgrid.text(a), cbgrid.text(want))
        self.assert_same(cbgrid.multiply(a, b), want @ want.T, a)
        self.assert_same(cbgrid.multiply(b, a, mask=a), (want.T @ want).multiply(want != 0), b)
        self.assertEqual(a.indices.tolist(), [2, 0, 0, 1, 1])

    def test_zeros_of_the_semiring(self):
        a = sp.csr_array((np.array([0, 7], np.uint64), np.array([1, 0]), np.array([0, 1, 2])), shape=(2, 2))
        self.assertEqual([it.tolist() for it in cbgrid.relax(a, 0)], [[0, 1], [0, 0]])
        self.assertEqual(cbgrid.bfs(a, 0)[0].tolist(), [0])
        self.assertEqual(cbgrid.multiply(a.tocsc(), a, "min-plus").toarray().tolist(), [[7, 0], [0, 7]])
        a.data[0] = INFINITY
        self.assertEqual(cbgrid.relax(a, 0)[0].tolist(), [0])
        self.assertEqual(cbgrid.add(a.tocsc(), a).data.tolist(), [14, 2**64 - 2])


class Refused(Test):
    def test_arguments(self):
        a, b = random_matrix(self.rng, 3, 4, 6), random_matrix(self.rng, 3, 4, 6)
        square = random_matrix(self.rng, 4, 4, 6)
        for kind in CLASSES:
            left = kind(a)
            self.assert_refused(10, cbgrid.multiply, left, kind(b))
            self.assert_refused(10, cbgrid.multiply, left, square, mask=square)
            self.assert_refused(10, cbgrid.add, left, square)
            self.assert_refused(10, cbgrid.times, left, square)
            self.assert_refused(10, cbgrid.spmv, left, np.zeros(3, np.int64))
            self.assert_refused(10, cbgrid.spmv, left, square)
            self.assert_refused(11, cbgrid.bfs, left, 0)
            self.assert_refused(11, cbgrid.relax, abs(left), 0)
            for source in -1, 4, 2**31, 2**32, 2**70:
                self.assert_refused(12, cbgrid.bfs, kind(square), source)
                self.assert_refused(12, cbgrid.relax, abs(kind(square)), source)
        self.assert_refused(1, cbgrid.multiply, square, square, "plus")
        self.assert_refused(2, cbgrid.prune, square, "under", 1)
        for value in -1, 2**64:
            self.assert_refused(9, cbgrid.prune, abs(square), "below", value)

    def test_values(self):
        a = sp.csc_matrix(np.array([[1, -2], [0, 3]]))
        for semiring in "min-plus", "max-min", "or-and":
            for call in cbgrid.multiply, cbgrid.add, cbgrid.times:
                self.assert_refused(9, call, a, a, semiring)
            self.assert_refused(9, cbgrid.spmv, a, a[:, 0], semiring)
            self.assert_refused(9, cbgrid.text, a, semiring)
        self.assert_refused(9, cbgrid.relax, a, 0)
        self.assertEqual(cbgrid.bfs(a, 0)[1].tolist(), [0, 1])
        self.assert_refused(9, cbgrid.prune, a, "below", 1)
        self.assert_refused(9, cbgrid.prune, a, "above", 1)
        self.assertEqual(cbgrid.prune(a, "equal", -2).data.tolist(), [1, 3])
        self.assert_refused(9, cbgrid.multiply, abs(a), abs(a), "or-and")
        large = sp.csc_matrix(np.array([[2**62 + 5]]))
        self.assertRaises(OverflowError, cbgrid.multiply, large, large, "min-plus")
        self.assertRaises(OverflowError, cbgrid.times, large, large, "min-plus")
        self.assertEqual(cbgrid.multiply(large.astype(np.uint64), large.astype(np.uint64), "min-plus")[0, 0], 2**63 + 10)
        self.assertRaises(TypeError, cbgrid.spmv, abs(a), np.zeros(2, np.int64), "min-plus")

    def test_types(self):
        a = sp.csc_matrix(np.eye(3, dtype=np.int64))
        for dtype in "float64", "int32", "bool", "uint8", "complex128", ">i8":
            with self.assertRaisesRegex(TypeError, np.dtype(dtype).str.strip("<|").replace(">", ".")):
                other = sp.csc_matrix(np.eye(3), dtype="int64")
                other.data = other.data.astype(dtype)
                cbgrid.multiply(a, other)
        with self.assertRaisesRegex(TypeError, "int64 and uint64"):
            cbgrid.multiply(a, a.astype(np.uint64))
        for form in "bsr", "lil", "dok", "dia":
            with self.assertRaisesRegex(TypeError, form):
                cbgrid.multiply(a.asformat(form), a)
        for other in np.eye(3, dtype=np.int64), [[1]], None:
            self.assertRaises(TypeError, cbgrid.multiply, a, other)

    def test_torn_matrices(self):
        def torn(kind=sp.csc_matrix, **lists):
            made = kind(sp.csc_matrix(np.array([[1, 0, 2], [3, 4, 0], [0, 0, 5]])))
            for name, array in lists.items():
                setattr(made, name, np.array(array, getattr(made, name).dtype))
            return made

        for kind in sp.csc_matrix, sp.csr_matrix:
            whole = torn(kind)
            for lists, codes in (
                ({"indptr": [0, 2, 3]}, [6]),
                ({"indptr": []}, [6]),
                ({"indptr": [0, 2, 3, 9]}, [6]),
                ({"indptr": [0, 2, 3, -1]}, [6, 7]),
                ({"indptr": [0, 4, 3, 5]}, [6, 7]),
                ({"indptr": [1, 2, 3, 5]}, [6, 7]),
                ({"indptr": [0, 2**31 - 1, 3, 5]}, [6, 7]),
                ({"data": [1, 2, 3]}, [6]),
                ({"indices": [0, 1, 1]}, [6]),
                ({"indices": [0, 3, 1, 0, 2]}, [7, 8]),
                ({"indices": [0, -1, 1, 0, 2]}, [7, 8]),
            ):
                bad = torn(kind, **lists)
                for left, right in (bad, whole), (whole, bad), (bad, bad):
                    with self.assertRaises(cbgrid.CbgridValueError) as raised:
                        cbgrid.multiply(left, right)
                    self.assertIn(raised.exception.code, codes, lists)
                # scipy would have to convert it.
                self.assertRaises(cbgrid.CbgridValueError, cbgrid.multiply, whole.asformat("csr"), bad)
                self.assertRaises(cbgrid.CbgridValueError, cbgrid.multiply, whole.asformat("csc"), bad)
                self.assertRaises(cbgrid.CbgridValueError, cbgrid.text, bad)
                self.assertRaises(cbgrid.CbgridValueError, cbgrid.bfs, bad, 0)
                self.assertRaises(cbgrid.CbgridValueError, cbgrid.relax, bad, 0)
        for lists in {"row": [0, 1, 3, 0, 2]}, {"col": [0, 0, 1, -1, 2]}:
            self.assert_refused(8, cbgrid.transpose, torn(sp.coo_matrix, **lists))
        self.assert_refused(6, cbgrid.transpose, torn(sp.coo_matrix, data=[1, 2]))

    def test_texts(self):
        head = b"%%MatrixMarket matrix coordinate integer general\n"
        for text, line in (b"", 1), (b"none", 1), (head, 2), (head + b"2 2 1\n3 1 1\n", 3), (head + b"2 2 2\n1 1 1\n", 4):
            fault = self.assert_refused(13, cbgrid.read, text)
            self.assertEqual(fault.line, line)
            self.assertIn(f"line {line}:", str(fault))

    def test_errors_travel(self):
        fault = self.assert_refused(13, cbgrid.read, b"none")
        again = pickle.loads(pickle.dumps(fault))
        self.assertEqual((type(again), again.code, again.line, str(again)), (type(fault), 13, 1, str(fault)))
        self.assertTrue(issubclass(cbgrid.CbgridMemoryError, MemoryError))


if __name__ == "__main__":
    unittest.main()
