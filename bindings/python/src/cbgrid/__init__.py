"""Sparse matrices over semirings, computed by a kernel that is proved to do what its contracts say.

All functions accept matrices of `scipy.sparse` with values of dtype int64 or uint64, in the formats csc, csr
and coo. A result that is a matrix has the class, the format and the dtype of the first one. Its entries are
sorted, without duplicates, and none is the semiring's zero. Functions of graphs return arrays, or a number.

===============  ================  ==============  =====================  ==============
semiring         values            sum             product                zero
===============  ================  ==============  =====================  ==============
``plus-times``   0 to 2**64 - 1    modulo 2**64    modulo 2**64           0
``min-plus``     0 to 2**64 - 1    the least       sum, at most 2**64-1   2**64 - 1
``or-and``       0 and 1           or              and                    0
``max-min``      0 to 2**64 - 1    the greatest    the least              0
``plus-pair``    0 to 2**64 - 1    modulo 2**64    1                      0
``plus-min``     0 to 2**64 - 1    modulo 2**64    the least              0
``plus-first``   0 to 2**64 - 1    modulo 2**64    the first              0
``plus-second``  0 to 2**64 - 1    modulo 2**64    the second             0
``min-first``    0 to 2**64 - 1    the least       the first              2**64 - 1
``min-second``   0 to 2**64 - 1    the least       the second             2**64 - 1
``max-first``    0 to 2**64 - 1    the greatest    the first              0
``max-second``   0 to 2**64 - 1    the greatest    the second             0
``max-plus``     0 to 2**64 - 1    the greatest    sum, at most 2**64-1   0
``min-max``      0 to 2**64 - 1    the least       the greatest           2**64 - 1
===============  ================  ==============  =====================  ==============

In every semiring a product with zero is zero. For the last ten, the table gives the product of two values other
than zero.

A place that a matrix doesn't store has the semiring's zero. A stored value other than that zero is an entry,
for example 0 in ``min-plus``. Duplicate entries are added up as integers, as everywhere in scipy, whatever the
semiring.

**int64.** Arithmetic in ``plus-times``, ``plus-pair``, ``plus-first`` and ``plus-second`` is modulo 2**64, so
int64 results wrap as numpy's do, and have the right signs. The other semirings compare values as unsigned
numbers and refuse negative ones. ``min-plus`` and ``max-plus`` raise OverflowError if an int64 result is above
2**63 - 1.

**Formats.** The arrays of a csc matrix are passed as they are. The kernel reads and checks them in place,
copies their entries once into a block of its own, and writes nothing to them. Two things are converted first:
row numbers of 64 bits are copied to 32 bits, and unsorted entries are sorted in a copy. A csr matrix is passed
as the csc of its transpose: the product of two is the transpose of the product of their transposes. The kernel
itself transposes a csc matrix that meets a csr one, a csr graph, and a csr matrix that is written as a text. A
coo matrix is sorted in a copy, and costs what its entries cost, whatever its shape; csc and csr need an array
as long as one of their sides.

**Matrix.** A `Matrix` is kept by the library, over one semiring. It is built once from a matrix of scipy or
numpy, and never changes. Operations on it, except for searches, copy no operand, unless it was made by several
`threads` and is needed in one piece. All functions except `read`
also accept a `Matrix` as their first matrix. They then work over its semiring, the other operands may be
matrices of scipy, and a result that is a matrix is a `Matrix`. Functions of graphs need a `Matrix` over
``or-and``; `relax` and `relax_given` need one over ``min-plus``.

**Errors.** An invalid argument raises a `CbgridValueError` (a ValueError), and failure to allocate memory a
`CbgridMemoryError` (a MemoryError). Both are `CbgridError` and have a code. A wrong type or dtype raises
TypeError.

**Threads.** Calls release the interpreter's lock. Any number of them may run at once, also on the same
matrices, as long as no thread writes to those matrices. A call runs on the caller's thread alone, unless
`set_threads`, or the `threads` of a product, let it use more.
"""

from __future__ import annotations

import operator
import os
from collections.abc import Callable
from typing import Any, TypeVar

import numpy as np
import scipy.sparse

from . import _lists
from ._matrix import Matrix, kept, number_of, read_matrix, thread_count
from ._calls import LIMIT, MIXED, SEMIRINGS, SHAPES, SOURCE, TEST, TESTS, VALUE
from ._library import CbgridError, CbgridMemoryError, CbgridValueError, error, library

__all__ = [
    "CbgridError",
    "CbgridMemoryError",
    "CbgridValueError",
    "Matrix",
    "add",
    "bfs",
    "bfs_given",
    "components",
    "multiply",
    "parents",
    "prune",
    "read",
    "reduce",
    "relax",
    "relax_given",
    "set_threads",
    "spmv",
    "text",
    "times",
    "transpose",
    "triangles",
]
__version__ = library.cbgrid_version().decode("ascii")

# A bound lets the type checker see inside what only a caller knows.
Sparse = TypeVar("Sparse", bound=Any)
Vector = TypeVar("Vector", bound=Any)

_SIDES = ("rows", "columns")
_MIN_PLUS, _OR_AND = SEMIRINGS["min-plus"], SEMIRINGS["or-and"]
# Semirings that allow negative values, modulo 2**64.
_SIGNED = frozenset(SEMIRINGS[name] for name in ("plus-times", "plus-pair", "plus-first", "plus-second"))
# Semirings in which they are refused here: in or-and the kernel refuses them itself.
_UNSIGNED = tuple(number not in _SIGNED and number != _OR_AND for number in range(len(SEMIRINGS)))
# Semirings whose products are saturating sums: a result may not fit int64.
_SUMS = frozenset(number for name, number in SEMIRINGS.items() if name.endswith("-plus"))
# Semirings whose zero is 2**64 - 1.
_INFINITE = frozenset(number for name, number in SEMIRINGS.items() if name.startswith("min-"))


def _turned_name(name: str) -> str:
    """The semiring in which the product of the transposes, in reverse order, is the transpose of the product."""
    half = {"first": "second", "second": "first"}
    head, _, tail = name.partition("-")
    return f"{head}-{half.get(tail, tail)}"


_TURNED = tuple(SEMIRINGS[_turned_name(name)] for name in SEMIRINGS)


def _semiring(name: str | None) -> int:
    return number_of("plus-times" if name is None else name)


def _of_kept(matrix: Matrix, semiring: str | None) -> Any:
    """A kept matrix, unless a call names another semiring than its own."""
    if semiring is not None and number_of(semiring) != number_of(matrix.semiring):
        raise error(MIXED)
    return matrix


def _source(vertex: int) -> int:
    vertex = operator.index(vertex)
    if not 0 <= vertex < LIMIT:
        raise error(SOURCE)
    return vertex


def _sources(vertices: Any) -> np.ndarray:
    vertices = np.asarray(vertices)
    if vertices.dtype.kind not in "iu" and vertices.size or vertices.ndim != 1:
        raise TypeError("source: a whole number or a list of whole numbers is wanted")
    if vertices.size and not (vertices.min() >= 0 and vertices.max() < LIMIT):
        raise error(SOURCE)
    return np.ascontiguousarray(vertices, np.uint32)


def _kept(operands: tuple, number: int, **how: bool) -> list[Matrix]:
    """Keeps operands over the semiring of a number. An operand that is also the first one is kept only once."""
    first = kept(operands[0], number, **how)
    return [first, *[first if it is operands[0] else kept(it, number, **how) for it in operands[1:]]]


def _result(made: Matrix, like: Any, turned: bool, number: int) -> Any:
    """A result as a matrix of the class and dtype of `like`."""
    matrix = _lists.matrix_of(made._lists(), like, turned)
    if number in _SUMS:
        _lists.check_signed(matrix.data)
    return matrix


def _placed(call: Callable[..., Matrix], number: int, operands: tuple, unsigned: bool = False) -> Any:
    """Computes an operation, on the transposes if the first operand is a csr matrix."""
    turned = operands[0].format == "csr"
    made = call(*_kept(operands, number, turned=turned, unsigned=unsigned or _UNSIGNED[number]))
    return _result(made, operands[0], turned, number)


def _check_pair(a: Any, b: Any) -> None:
    _lists.check_matrix(a, "a")
    _lists.check_matrix(b, "b")
    if a.dtype != b.dtype:
        raise TypeError(f"a and b: values of one dtype are wanted, not {a.dtype} and {b.dtype}")


def set_threads(count: int) -> None:
    """Sets how many threads each call may use from now on, the caller's among them: at first 1, at most 256.

    Products, powers, element-wise sums, prunes and sums of rows, of columns and of all values use them, and so do `kron`,
    `extract`, `select`, `tril`, `triu`, `apply`, `assign`, `exclude`, `update` and slices of a `Matrix`, as far as each thread gets
    enough to do. They are started when a call first needs them, and sleep between calls.

    Parameters
    ----------
    count : int
        1 or more.

    Returns
    -------
    None

    Raises
    ------
    ValueError
        `count` is less than 1.

    Examples
    --------
    >>> import cbgrid
    >>> cbgrid.set_threads(4)
    >>> cbgrid.set_threads(1)
    """
    library.cbgrid_threads(thread_count(count))


def multiply(
    a: Sparse,
    b: Any,
    semiring: str | None = None,
    mask: Any = None,
    complement: bool = False,
    threads: int | None = None,
) -> Sparse:
    """Product of two matrices.

    Parameters
    ----------
    a, b : csc, csr or coo matrix or array of scipy.sparse, of int64 or uint64
        `a` has as many columns as `b` has rows. Both may be the same object.
    semiring : str
        A name from the table of semirings above.
    mask : sparse matrix of the product's shape, optional
        Keeps only the entries of the product at places where the mask has an entry, whatever its value. A stored
        value that is the semiring's zero isn't an entry.
    complement : bool
        Whether to keep only the entries at places where the mask has none.
    threads : int, optional
        How many threads may compute the product, 1 or more, instead of those of `set_threads`; at most 256 are used.
        The result is the same.

    Returns
    -------
    sparse matrix
        Of the class and dtype of `a`.

    Raises
    ------
    CbgridValueError
        The shapes don't agree, a value isn't one of the semiring, or another argument isn't as described above.
    CbgridMemoryError
        Out of memory.
    OverflowError
        An int64 result of ``min-plus`` or ``max-plus`` is above 2**63 - 1.

    Examples
    --------
    >>> import numpy as np, scipy.sparse, cbgrid
    >>> a = scipy.sparse.csc_array(np.array([[1, 2], [0, 3]]))
    >>> cbgrid.multiply(a, a).toarray()
    array([[1, 8],
           [0, 9]])
    """
    if isinstance(a, Matrix):
        return _of_kept(a, semiring).multiply(b, mask, complement, threads=threads)
    _check_pair(a, b)
    turned = a.format == "csr"
    operands: tuple = (b, a) if turned else (a, b)
    if mask is not None:
        _lists.check_matrix(mask, "mask")
        operands += (mask,)
    number = _semiring(semiring)
    unsigned, product = _UNSIGNED[number], _TURNED[number] if turned else number
    left, right, *masks = _kept(operands, product, turned=turned, unsigned=unsigned)
    made = left.multiply(right, masks[0] if masks else None, complement, threads=threads)
    return _result(made, a, turned, number)


def spmv(a: Any, x: Vector, semiring: str | None = None) -> Vector:
    """Product of a matrix and a vector.

    Parameters
    ----------
    a : csc, csr or coo matrix or array of scipy.sparse, of int64 or uint64
    x : numpy array of one dimension, or sparse matrix of one column, of the dtype of `a`
        With as many elements as `a` has columns. A sparse `x` costs the entries of `a` that its own entries meet. In
        the semirings whose zero is 2**64 - 1, an array has this value at each place without an entry, so its dtype
        must be uint64.
    semiring
        As in `multiply`.

    Returns
    -------
    numpy array or sparse matrix of one column
        Of the kind of `x`.

    Raises
    ------
    CbgridValueError, CbgridMemoryError, OverflowError
        As `multiply`.

    Examples
    --------
    >>> import numpy as np, scipy.sparse, cbgrid
    >>> a = scipy.sparse.csc_array(np.array([[1, 2], [0, 3]]))
    >>> cbgrid.spmv(a, np.array([5, 7]))
    array([19, 21])
    """
    if isinstance(a, Matrix):
        return _of_kept(a, semiring) @ x
    _lists.check_matrix(a, "a")
    number = _semiring(semiring)
    is_array = isinstance(x, np.ndarray)
    _check_vector(a, x, number, is_array)
    turned, unsigned = a.format == "csr", _UNSIGNED[number]
    column = _lists.lend_array(x, turned, unsigned) if is_array else x
    operands = (column, a) if turned else (a, column)
    left, right = _kept(operands, _TURNED[number] if turned else number, turned=turned, unsigned=unsigned)
    places, values = _lists.column_of(left.multiply(right)._lists(), turned, a.dtype)
    if number in _SUMS:
        _lists.check_signed(values)
    if not is_array:
        return _lists.column_like(x, a.shape[0], places, values)
    made: Any = np.zeros(a.shape[0], x.dtype)
    if number in _INFINITE:
        made.fill(2**64 - 1)
    made[places] = values
    return made


def _check_vector(a: Any, x: Any, semiring: int, is_array: bool) -> None:
    if is_array:
        _lists.check_dtype(x.dtype, "x")
    else:
        _lists.check_matrix(x, "x")
    if x.dtype != a.dtype:
        raise TypeError(f"a and x: values of one dtype are wanted, not {a.dtype} and {x.dtype}")
    if is_array and semiring in _INFINITE and x.dtype.kind == "i":
        raise TypeError("x: an array of int64 can't say infinity, 2**64 - 1: give uint64, or a sparse column")
    if x.shape != ((a.shape[1],) if is_array else (a.shape[1], 1)):
        raise error(SHAPES)


def transpose(a: Sparse, semiring: str | None = None) -> Sparse:
    """Transpose of a matrix, in the format of the matrix. Unlike scipy's, the transpose of a csc matrix is csc.

    Parameters
    ----------
    a : csc, csr or coo matrix or array of scipy.sparse, of int64 or uint64
    semiring
        As in `multiply`. Stored values that are the semiring's zero are dropped.

    Returns
    -------
    sparse matrix
        Of the class and dtype of `a`.

    Raises
    ------
    CbgridValueError, CbgridMemoryError
        As `multiply`.

    Examples
    --------
    >>> import numpy as np, scipy.sparse, cbgrid
    >>> a = scipy.sparse.csc_array(np.array([[1, 2], [0, 3]]))
    >>> cbgrid.transpose(a).toarray()
    array([[1, 0],
           [2, 3]])
    """
    if isinstance(a, Matrix):
        return _of_kept(a, semiring).T
    _lists.check_matrix(a, "a")
    return _placed(lambda it: it.T, _semiring(semiring), (a,))


def reduce(a: Sparse, by: str = "rows", semiring: str | None = None) -> Sparse:
    """Sum of each row of a matrix, or of each column.

    Parameters
    ----------
    a : csc, csr or coo matrix or array of scipy.sparse, of int64 or uint64
    by : {"rows", "columns"}
        What to add up.
    semiring
        As in `multiply`.

    Returns
    -------
    sparse matrix
        One column with as many rows as `a`, or one row with as many columns, of the class and dtype of `a`. A sum
        that is the semiring's zero isn't stored.

    Raises
    ------
    CbgridValueError, CbgridMemoryError
        As `multiply`.
    ValueError
        `by` is neither "rows" nor "columns".

    Examples
    --------
    >>> import numpy as np, scipy.sparse, cbgrid
    >>> a = scipy.sparse.csc_array(np.array([[1, 2], [0, 3]]))
    >>> cbgrid.reduce(a, by="columns").toarray()
    array([[1, 5]])
    """
    if isinstance(a, Matrix):
        return _of_kept(a, semiring).sums(by)
    _lists.check_matrix(a, "a")
    if by not in _SIDES:
        raise ValueError(f"by: one of {_SIDES} is wanted, not {by!r}")
    # a csr matrix is passed as its transpose, whose columns are its rows
    side = _SIDES[_SIDES.index(by) ^ (a.format == "csr")]
    return _placed(lambda it: it.sums(side), _semiring(semiring), (a,))


def add(a: Sparse, b: Any, semiring: str | None = None) -> Sparse:
    """Element-wise sum of two matrices of one shape.

    The sum is the semiring's: the lesser of two values in ``min-plus``, the greater in ``max-min``, and the union in
    ``or-and``. A place that only one of the two stores keeps its value.

    Parameters
    ----------
    a, b, semiring
        As in `multiply`.

    Returns
    -------
    sparse matrix
        Of the class and dtype of `a`.

    Raises
    ------
    CbgridValueError, CbgridMemoryError, OverflowError
        As `multiply`; the shapes must be the same.

    Examples
    --------
    >>> import numpy as np, scipy.sparse, cbgrid
    >>> a = scipy.sparse.csc_array(np.array([[1, 2], [0, 3]]))
    >>> cbgrid.add(a, a, semiring="max-min").toarray()
    array([[1, 2],
           [0, 3]])
    """
    if isinstance(a, Matrix):
        return _of_kept(a, semiring) + b
    _check_pair(a, b)
    return _placed(operator.add, _semiring(semiring), (a, b))


def times(a: Sparse, b: Any, semiring: str | None = None) -> Sparse:
    """Element-wise product of two matrices of one shape.

    Only places that both store can have an entry. In ``or-and`` it is the intersection.

    Parameters
    ----------
    a, b, semiring
        As in `multiply`.

    Returns
    -------
    sparse matrix
        Of the class and dtype of `a`.

    Raises
    ------
    CbgridValueError, CbgridMemoryError, OverflowError
        As `multiply`; the shapes must be the same.

    Examples
    --------
    >>> import numpy as np, scipy.sparse, cbgrid
    >>> a = scipy.sparse.csc_array(np.array([[1, 2], [0, 3]]))
    >>> b = scipy.sparse.csc_array(np.array([[0, 5], [4, 0]]))
    >>> cbgrid.times(a, b).toarray()
    array([[ 0, 10],
           [ 0,  0]])
    """
    if isinstance(a, Matrix):
        return _of_kept(a, semiring) * b
    _check_pair(a, b)
    return _placed(operator.mul, _semiring(semiring), (a, b))


def prune(a: Sparse, test: str, value: int, semiring: str | None = None) -> Sparse:
    """A matrix without the entries whose value passes a test.

    Parameters
    ----------
    a : csc, csr or coo matrix or array of scipy.sparse, of int64 or uint64
        For "below" and "above" without negative values.
    test : {"below", "above", "equal"}
        Drops values that are strictly below `value`, strictly above it, or equal to it.
    value : int
        0 to 2**64 - 1. With "equal" and int64 it may be negative.
    semiring
        As in `multiply`.

    Returns
    -------
    sparse matrix
        Of the class and dtype of `a`.

    Raises
    ------
    CbgridValueError, CbgridMemoryError
        As `multiply`; also if there is no such test, or `value` is out of range.

    Examples
    --------
    >>> import numpy as np, scipy.sparse, cbgrid
    >>> a = scipy.sparse.csc_array(np.array([[1, 2], [0, 3]]))
    >>> cbgrid.prune(a, "above", 2).toarray()
    array([[1, 2],
           [0, 0]])
    """
    number = TESTS.get(test)
    if number is None:
        raise error(TEST)
    bound = operator.index(value)
    if isinstance(a, Matrix):
        if not 0 <= bound < 2**64:
            raise error(VALUE, "value not 0 to 2^64 - 1")
        return _of_kept(a, semiring)._pruned(number, bound)
    _lists.check_matrix(a, "a")
    is_equal = test == "equal"
    if not (-(2**63) if is_equal and a.dtype.kind == "i" else 0) <= bound < 2**64:
        raise error(VALUE, "value not 0 to 2^64 - 1")
    return _placed(lambda it: it._pruned(number, bound % 2**64), _semiring(semiring), (a,), unsigned=not is_equal)


def bfs(graph: Any, source: Any) -> Any:
    """Levels of the vertices of a graph, by breadth-first search.

    Parameters
    ----------
    graph : csc, csr or coo matrix or array of scipy.sparse, of int64 or uint64
        Square. An entry at row i and column j is an edge from i to j, whatever its value. A stored 0 isn't an edge.
    source : int, or list or numpy array of integers
        The vertex to start from, counted from 0; or several, in any order, with repetitions.

    Returns
    -------
    vertices : numpy array of int32
        The vertices that the source reaches, including itself, in ascending order.
    levels : numpy array of int64
        The least number of edges from the source to each of them.
    csr_array of int64, or a `Matrix` over min-plus if `graph` is a `Matrix`
        Returned instead for several sources: a row for each, as from `scipy.sparse.csgraph.dijkstra` with `indices`,
        but with entries only for the vertices that are reached. The 0 of the source itself is stored.

    Raises
    ------
    CbgridValueError
        The graph isn't square, or `source` isn't one of its vertices.
    CbgridMemoryError
        Out of memory.

    Examples
    --------
    >>> import numpy as np, scipy.sparse, cbgrid
    >>> roads = scipy.sparse.csr_array(np.array([[0, 7, 2], [0, 0, 0], [0, 4, 0]]))
    >>> cbgrid.bfs(roads, 2)
    (array([1, 2], dtype=int32), array([1, 0]))
    >>> cbgrid.bfs(roads, [0, 2]).toarray()
    array([[0, 1, 1],
           [0, 1, 0]])
    """
    if np.ndim(source):
        return _walks(graph, source, is_levels=True)
    vertices, levels = _graph(graph)._walk(True, _source(source))
    return vertices, levels.view(np.int64)


def relax(graph: Any, source: Any) -> Any:
    """Distances of the vertices of a graph from a source.

    Parameters
    ----------
    graph : csc, csr or coo matrix or array of scipy.sparse, of int64 or uint64
        Square. An entry at row i and column j is an edge from i to j, and its value is the length of the edge, which
        isn't negative. A stored 0 is an edge of length 0.
    source
        As in `bfs`.

    Returns
    -------
    vertices : numpy array of int32
        The vertices that the source reaches, including itself, in ascending order.
    distances : numpy array of the graph's dtype
        The length of a shortest path from the source to each of them. A vertex at a distance of 2**64 - 1 or more
        counts as not reached.
    csr_array of the graph's dtype, or a `Matrix` over min-plus
        Returned instead for several sources, as in `bfs`.

    Raises
    ------
    CbgridValueError
        The graph isn't square, a length is negative, or `source` isn't one of its vertices.
    CbgridMemoryError
        Out of memory.
    OverflowError
        A distance in a graph of int64 is above 2**63 - 1.

    Examples
    --------
    >>> import numpy as np, scipy.sparse, cbgrid
    >>> roads = scipy.sparse.csr_array(np.array([[0, 7, 2], [0, 0, 0], [0, 4, 0]]))
    >>> cbgrid.relax(roads, 0)
    (array([0, 1, 2], dtype=int32), array([0, 6, 2]))
    """
    if np.ndim(source):
        return _walks(graph, source, is_levels=False)
    if isinstance(graph, Matrix):
        return graph._walk(False, _source(source))
    _lists.check_matrix(graph, "graph")
    vertices, distances = kept(graph, _MIN_PLUS, unsigned=True)._walk(False, _source(source))
    distances = distances.view(graph.dtype)
    _lists.check_signed(distances)
    return vertices, distances


def bfs_given(graph: Any, vertices: Any, numbers: Any) -> tuple[np.ndarray, np.ndarray]:
    """Levels of the vertices of a graph, from initial values that some of them have.

    Parameters
    ----------
    graph : csc, csr or coo matrix or array of scipy.sparse, of int64 or uint64, or a `Matrix` over or-and
        Square. Its edges are those of `bfs`.
    vertices, numbers : lists or numpy arrays of one length
        Some vertices, in any order, and the initial value of each, 0 to 2**64 - 1. For a vertex that is named more than
        once, its least value counts. A value of 2**64 - 1 is ignored.

    Returns
    -------
    vertices : numpy array of int32
        The vertices that walks from these reach, in ascending order.
    levels : numpy array of uint64
        For each of them the least sum of an initial value and the number of edges of a walk from its vertex. A vertex
        whose least sum is 2**64 - 1 or more counts as not reached.

    Raises
    ------
    CbgridValueError
        The graph isn't square, a vertex isn't one of it, a number isn't 0 to 2**64 - 1, or the lists differ in length.
    CbgridMemoryError
        Out of memory.

    Examples
    --------
    >>> import numpy as np, scipy.sparse, cbgrid
    >>> roads = scipy.sparse.csr_array(np.array([[0, 7, 2], [0, 0, 0], [0, 4, 0]]))
    >>> cbgrid.bfs_given(roads, [0, 1], [0, 5])
    (array([0, 1, 2], dtype=int32), array([0, 1, 1], dtype=uint64))
    """
    reached, levels = _graph(graph)._walk_given(True, vertices, numbers)
    return reached.astype(np.int32), levels


def relax_given(graph: Any, vertices: Any, numbers: Any) -> tuple[np.ndarray, np.ndarray]:
    """Distances of the vertices of a graph, from initial values that some of them have.

    Parameters
    ----------
    graph : csc, csr or coo matrix or array of scipy.sparse, of int64 or uint64, or a `Matrix` over min-plus
        Square. Its edges and their lengths are those of `relax`.
    vertices, numbers
        As in `bfs_given`.

    Returns
    -------
    vertices : numpy array of int32
        The vertices that walks from these reach, in ascending order.
    distances : numpy array of uint64
        For each of them the least sum of an initial value and the length of a walk from its vertex. A vertex whose
        least sum is 2**64 - 1 or more counts as not reached.

    Raises
    ------
    CbgridValueError
        The graph isn't square, a length is negative, a vertex isn't one of it, a number isn't 0 to 2**64 - 1, or the
        lists differ in length.
    CbgridMemoryError
        Out of memory.

    Examples
    --------
    >>> import numpy as np, scipy.sparse, cbgrid
    >>> roads = scipy.sparse.csr_array(np.array([[0, 7, 2], [0, 0, 0], [0, 4, 0]]))
    >>> cbgrid.relax_given(roads, [0, 1], [0, 5])
    (array([0, 1, 2], dtype=int32), array([0, 5, 2], dtype=uint64))
    """
    if not isinstance(graph, Matrix):
        _lists.check_matrix(graph, "graph")
        graph = Matrix(graph, "min-plus")
    reached, distances = graph._walk_given(False, vertices, numbers)
    return reached.astype(np.int32), distances


def _walks(graph: Any, sources: Any, is_levels: bool) -> Any:
    """The levels or distances from several sources, a row for each: of the kind of the graph."""
    vertices = _sources(sources)
    if isinstance(graph, Matrix):
        return graph._walks(is_levels, vertices)
    _lists.check_matrix(graph, "graph")
    made = (_graph(graph) if is_levels else Matrix(graph, "min-plus"))._walks(is_levels, vertices)
    return made.to_scipy("csr", np.int64 if is_levels else graph.dtype)


def _graph(graph: Any) -> Matrix:
    """A graph, kept over or-and."""
    if isinstance(graph, Matrix):
        return graph
    _lists.check_matrix(graph, "graph")
    return kept(graph, _OR_AND, nonzero=True)


def parents(graph: Any, source: int) -> tuple[np.ndarray, np.ndarray]:
    """Breadth-first search tree of a graph.

    Parameters
    ----------
    graph : csc, csr or coo matrix or array of scipy.sparse, of int64 or uint64, or a `Matrix` over or-and
        Square. Its edges are those of `bfs`.
    source : int
        The vertex to start from, counted from 0.

    Returns
    -------
    vertices : numpy array of int32
        The vertices that the source reaches, without itself, in ascending order.
    parents : numpy array of int64
        For each of them the least vertex that precedes it on a shortest path from the source.

    Raises
    ------
    CbgridValueError
        The graph isn't square, or `source` isn't one of its vertices.
    CbgridMemoryError
        Out of memory.

    Examples
    --------
    >>> import numpy as np, scipy.sparse, cbgrid
    >>> roads = scipy.sparse.csr_array(np.array([[0, 7, 2], [0, 0, 0], [0, 4, 0]]))
    >>> cbgrid.parents(roads, 0)
    (array([1, 2], dtype=int32), array([0, 0]))
    """
    vertices, before = _graph(graph).parents(_source(source))
    return vertices.astype(np.int32), before.view(np.int64)


def components(graph: Any) -> tuple[np.ndarray, np.ndarray]:
    """Connected components of a graph. Its edges count in both directions.

    Parameters
    ----------
    graph
        As in `parents`.

    Returns
    -------
    vertices : numpy array of int32
        The vertices that have an edge, in ascending order.
    components : numpy array of int64
        For each of them the least vertex of its component.

    Raises
    ------
    CbgridValueError
        The graph isn't square.
    CbgridMemoryError
        Out of memory.

    Examples
    --------
    >>> import numpy as np, scipy.sparse, cbgrid
    >>> roads = scipy.sparse.csr_array(np.array([[0, 0, 2, 0], [0, 0, 0, 0], [0, 0, 0, 0], [0, 0, 0, 5]]))
    >>> cbgrid.components(roads)
    (array([0, 2, 3], dtype=int32), array([0, 0, 3]))
    """
    vertices, least = _graph(graph).components()
    return vertices.astype(np.int32), least.view(np.int64)


def triangles(graph: Any) -> int:
    """Number of triangles in a graph. Its edges count in both directions.

    Parameters
    ----------
    graph
        As in `parents`. Loops don't count.

    Returns
    -------
    int
        At most 2**64 - 1.

    Raises
    ------
    CbgridValueError
        The graph isn't square.
    CbgridMemoryError
        Out of memory.

    Examples
    --------
    >>> import numpy as np, scipy.sparse, cbgrid
    >>> roads = scipy.sparse.csr_array(np.array([[0, 7, 2], [0, 0, 0], [0, 4, 0]]))
    >>> cbgrid.triangles(roads)
    1
    """
    return _graph(graph).triangles()


def read(source: Any, semiring: str = "plus-times", format: str = "csc", dtype: Any = np.uint64) -> Any:
    """Read the matrix of a Matrix Market text.

    Parameters
    ----------
    source : bytes, str or os.PathLike
        Bytes are the text itself; a str or a path is the name of a file.
    semiring : str
        Duplicate entries are added up in it. In ``or-and`` every number but 0 becomes 1.
    format : {"csc", "csr", "coo"}
        The format of the result. csc and csr need an array as long as one of the sides; coo doesn't.
    dtype : {numpy.uint64, numpy.int64}
        The dtype of the result. For int64, values in ``plus-times``, ``plus-pair``, ``plus-first`` and ``plus-second``
        are taken modulo 2**64, so -1 is read as -1. In the others a value above 2**63 - 1 raises OverflowError.

    Returns
    -------
    csc_array, csr_array or coo_array

    Raises
    ------
    CbgridValueError
        The text doesn't follow the profile of docs/FORMAT.md. The error has code 13 and the `line` of the first fault.
    OSError
        The file can't be read.

    Examples
    --------
    >>> import numpy as np, scipy.sparse, cbgrid
    >>> text = b"%%MatrixMarket matrix coordinate integer general\\n2 2 1\\n1 2 7\\n"
    >>> cbgrid.read(text, dtype=np.int64).toarray()
    array([[0, 7],
           [0, 0]])
    """
    number = _semiring(semiring)
    dtype = np.dtype(dtype)
    _lists.check_dtype(dtype, "dtype")
    if format not in ("csc", "csr", "coo"):
        raise TypeError(f"format: csc, csr or coo is wanted, not {format}")
    contents = _contents(source)
    matrix = read_matrix(contents, number)
    like = (scipy.sparse.csc_array if format == "csc" else scipy.sparse.coo_array)((0, 0), dtype=dtype)
    made = _lists.matrix_of(matrix._lists(), like, turned=False)
    if number not in _SIGNED:
        _lists.check_signed(made.data)
    return made.tocsr() if format == "csr" else made


def _contents(source: Any) -> bytes:
    if isinstance(source, (bytes, bytearray, memoryview)):
        return bytes(source)
    with open(os.fspath(source), "rb") as file:
        return file.read()


def text(matrix: Any, semiring: str | None = None) -> bytes:
    """Matrix Market text of a matrix, by column and then by row.

    Parameters
    ----------
    matrix : csc, csr or coo matrix or array of scipy.sparse, of int64 or uint64
        In ``plus-times`` negative values are written modulo 2**64, and `read` with dtype int64 reads them back.
    semiring
        As in `read`. In ``or-and`` the text is a ``pattern`` file.

    Returns
    -------
    bytes

    Raises
    ------
    CbgridValueError, CbgridMemoryError
        As `multiply`.

    Examples
    --------
    >>> import numpy as np, scipy.sparse, cbgrid
    >>> a = scipy.sparse.csc_array(np.array([[1, 2], [0, 3]]))
    >>> print(cbgrid.text(a).decode(), end="")
    %%MatrixMarket matrix coordinate integer general
    2 2 3
    1 1 1
    1 2 2
    2 2 3
    """
    if isinstance(matrix, Matrix):
        return _of_kept(matrix, semiring).text()
    _lists.check_matrix(matrix, "matrix")
    number = _semiring(semiring)
    return kept(matrix, number, unsigned=_UNSIGNED[number]).text()
