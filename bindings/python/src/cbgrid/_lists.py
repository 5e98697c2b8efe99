"""Matrices of scipy as lists of compressed columns, and results as matrices of scipy.

A csr matrix is passed as the csc of its transpose, which has the same three lists. So an operation on csr
matrices is computed on their transposes, and its result is the transpose of the wanted one: again the lists of
a csr matrix. `turned` says that this is so.
"""

from __future__ import annotations

from ctypes import addressof, c_char, string_at
from typing import Any

import numpy as np

from ._calls import LENGTHS, LIMIT, ORDER, PLACE, TOO_LARGE, VALUE
from ._library import Columns, error, library

_DCSC, _CSC = 0, 1
_SHORT = 1000  # elements: a shorter list is quicker to copy or sort than to share or check
_NUMBERS = np.arange(_SHORT + 1, dtype=np.uint32)
_from_buffer: Any = c_char.from_buffer  # an array has a buffer
_INT32, _INT64 = np.dtype(np.int32), np.dtype(np.int64)
_SIGNED = frozenset((_INT32, _INT64))
_DTYPES = frozenset((_INT64, np.dtype(np.uint64)))


def check_matrix(matrix: Any, name: str) -> None:
    """Raises an error unless an argument is a matrix of an accepted format and dtype."""
    form = getattr(matrix, "format", None)
    if form not in ("csc", "csr", "coo") or len(matrix.shape) != 2:
        what = f"format {form}" if isinstance(form, str) else type(matrix).__name__
        raise TypeError(f"{name}: a csc, csr or coo matrix of scipy.sparse is wanted, not {what}")
    if matrix.dtype not in _DTYPES:
        check_dtype(matrix.dtype, name)
    nrows, ncols = matrix.shape
    if nrows > LIMIT or ncols > LIMIT:
        raise error(TOO_LARGE)


def check_dtype(dtype: np.dtype, name: str) -> None:
    """Raises an error unless values are integers of 64 bits."""
    if dtype not in _DTYPES:
        raise TypeError(f"{name}: values of dtype int64 or uint64 are wanted, not {dtype} ({dtype.str})")


def _has_negative(values: np.ndarray) -> bool:
    return values.dtype.kind == "i" and len(values) > 0 and bool(values.min() < 0)


def check_unsigned(values: np.ndarray) -> None:
    """Raises an error if one of the values is negative."""
    if _has_negative(values):
        raise error(VALUE, "negative value, where values are read as 0 to 2^64 - 1")


def check_signed(values: np.ndarray) -> None:
    """Raises an error if a result of int64 operands is too large for int64."""
    if _has_negative(values):
        raise OverflowError("a value of the answer is above 2^63 - 1: use uint64")


def _placed(array: np.ndarray) -> np.ndarray:
    """The array, or a copy if it isn't aligned or has gaps."""
    flags = array.flags
    return array if flags.carray or flags.c_contiguous and flags.aligned else array.copy()


def _address(array: np.ndarray) -> int | None:
    """The address of the elements of an array that is aligned and has no gaps."""
    if not len(array):
        return None
    try:
        return addressof(_from_buffer(array))
    except TypeError:  # the array is read-only
        return array.ctypes.data


def _index32(array: np.ndarray, limit: int) -> np.ndarray:
    """Row numbers of 32 bits: a copy, unless scipy's have 32 bits."""
    if array.dtype == _INT32:
        return array
    if not _are_below(array, limit):
        raise error(PLACE)
    return array.astype(np.int32, casting="same_kind")


def _are_below(numbers: np.ndarray, limit: int) -> bool:
    """Whether all numbers are 0 or more and below a limit."""
    if not len(numbers):
        return True
    return bool(numbers.min() >= 0 and numbers.max() < limit)


def _lend_lists(
    nrows: int, ncols: int, columns: np.ndarray | None, starts: np.ndarray, rows: np.ndarray, values: np.ndarray
) -> Columns:
    """Passes lists: `columns` is None for csc, and `starts` has 32 or 64 bits."""
    lent = Columns(nrows, ncols, _CSC if columns is None else _DCSC, starts.itemsize == 8)
    if lent.wide:
        lent.starts64, lent.starts64_len = _address(starts), len(starts)
    else:
        lent.starts32, lent.starts32_len = _address(starts), len(starts)
    if columns is not None:
        lent.columns, lent.columns_len = _address(columns), len(columns)
    lent.rows, lent.rows_len = _address(rows), len(rows)
    lent.values, lent.values_len = _address(values), len(values)
    lent.kept = (columns, starts, rows, values)
    return lent


def lend(matrix: Any, turned: bool, unsigned: bool, nonzero: bool = False, in_order: bool = False) -> Columns:
    """Passes a matrix, or its transpose if `turned`, as lists: of columns or, if scipy lists the others, of rows.

    `unsigned` refuses negative values. `nonzero` passes 1 for each value that isn't 0. `in_order` sorts the entries and
    adds up duplicates; without it the kernel may find that they aren't sorted.
    """
    if isinstance(matrix, Columns):
        return matrix
    form = matrix.format
    if form == "coo":
        return _lend_coordinates(matrix, turned, unsigned, nonzero, in_order)
    if form != ("csr" if turned else "csc"):
        lent = lend(matrix, not turned, unsigned, nonzero, in_order)
        lent.by_rows = True
        return lent
    if in_order:
        matrix = _checked(matrix).copy()
        matrix.sum_duplicates()
    nrows, ncols = reversed(matrix.shape) if turned else matrix.shape
    starts, rows, values = matrix.indptr, matrix.indices, matrix.data
    length = int(starts[-1]) if len(starts) else 0
    if length != len(rows) or length != len(values):  # scipy allows lists that are longer than the last start says
        rows, values = rows[:length], values[:length]
    if starts.dtype not in _SIGNED:
        starts = starts.astype(np.int64)
    if unsigned:
        check_unsigned(values)
    rows, values = _placed(_index32(rows, nrows)), _ones(values) if nonzero else _placed(values)
    return _lend_lists(nrows, ncols, None, _placed(starts), rows, values)


def _ones(values: np.ndarray) -> np.ndarray:
    """1 for each value that isn't 0."""
    return (values != 0).astype(np.uint64)


def _lend_coordinates(matrix: Any, turned: bool, unsigned: bool, nonzero: bool, summed: bool) -> Columns:
    """Passes a coo matrix. With many columns, they are doubly compressed, so that the shape costs nothing."""
    nrows, ncols = reversed(matrix.shape) if turned else matrix.shape
    rows, columns = (matrix.col, matrix.row) if turned else (matrix.row, matrix.col)
    if not len(rows) == len(columns) == len(matrix.data):
        raise error(LENGTHS)
    # As unsigned numbers, negative ones are outside every shape, and the kernel refuses them.
    rows, columns = _index32(rows, nrows).view(np.uint32), _index32(columns, ncols).view(np.uint32)
    rows, columns, values = _in_order(rows, columns, matrix.data, summed)
    if unsigned and _has_negative(values):
        if not summed:  # a sum may have a negative part
            return _lend_coordinates(matrix, turned, unsigned, nonzero, True)
        if not (_are_below(rows, nrows) and _are_below(columns, ncols)):
            raise error(PLACE)
        check_unsigned(values)
    if nonzero:
        values = _ones(values)
    if ncols <= _SHORT:
        starts = columns.searchsorted(_NUMBERS[: ncols + 1])
        if starts.item(-1) != len(columns):
            raise error(PLACE)
        return _lend_lists(nrows, ncols, None, starts, rows, values)
    starts = _starts(columns)
    return _lend_lists(nrows, ncols, columns[starts[:-1]], starts, rows, values)


def _in_order(rows: np.ndarray, columns: np.ndarray, values: np.ndarray, summed: bool) -> tuple[np.ndarray, ...]:
    """Coordinates and values, sorted by column and then by row.

    If `summed`, and in long lists, duplicates are added up, as scipy does.
    """
    if len(values) <= _SHORT:
        order = np.lexsort((rows, columns))
    else:
        places = _places(rows, columns)
        if (places[1:] > places[:-1]).all():
            return _placed(rows), _placed(columns), _placed(values)
        order = places.argsort()
        summed = True  # quick beside the sort, which is then not repeated
    rows, columns, values = rows[order], columns[order], values[order]
    if not summed:
        return rows, columns, values
    firsts = _starts(_places(rows, columns))[:-1]
    return rows[firsts], columns[firsts], np.add.reduceat(values, firsts)


def _places(rows: np.ndarray, columns: np.ndarray) -> np.ndarray:
    """Numbers of 64 bits, made of column and row, which sort as the entries do."""
    places = np.empty(len(rows), np.uint64)
    halves = places.view(np.uint32)
    halves[::2] = rows
    halves[1::2] = columns
    return places


def _starts(numbers: np.ndarray) -> np.ndarray:
    """The first index of each distinct number of a sorted list, and then the length of the list."""
    is_start = np.empty(len(numbers) + 1, bool)
    is_start[0] = is_start[-1] = True
    np.not_equal(numbers[1:], numbers[:-1], out=is_start[1:-1])
    return is_start.nonzero()[0]


def _checked(matrix: Any) -> Any:
    """The matrix, if its lists are safe for scipy: scipy's calls follow wrong starts and rows anywhere."""
    sides = matrix.shape if matrix.format == "csr" else matrix.shape[::-1]
    starts, rows = matrix.indptr, matrix.indices
    if len(starts) != sides[0] + 1 or starts[0] != 0 or not 0 <= starts[-1] <= min(len(rows), len(matrix.data)):
        raise error(LENGTHS)
    if (starts[1:] < starts[:-1]).any():
        raise error(ORDER)
    if not _are_below(rows[: starts[-1]], sides[1]):
        raise error(PLACE)
    return matrix


class _List:
    """A list of a result, by numpy's array interface. The array keeps this object alive, and this object the result."""

    __slots__ = ("answer", "__array_interface__")

    def __init__(self, answer: Answer, address: int, length: int, dtype: np.dtype) -> None:
        self.answer = answer
        interface = {"data": (address, False), "shape": (length,), "typestr": dtype.str, "version": 3}
        self.__array_interface__ = interface


class Answer:
    """The lists of a result. They are freed once no array refers to them."""

    __slots__ = ("columns",)

    def __init__(self) -> None:
        self.columns = Columns()

    def __del__(self, free: Any = library.cbgrid_free_columns) -> None:
        free(self.columns)

    def _array(self, address: int, length: int, dtype: np.dtype) -> np.ndarray:
        if length > _SHORT:
            return np.asarray(_List(self, address, length, dtype))
        if not length:
            return np.empty(0, dtype)
        return np.frombuffer(bytearray(string_at(address, length * dtype.itemsize)), dtype)  # a bytearray is writable

    def stored(self) -> np.ndarray:
        return self._array(self.columns.columns, self.columns.columns_len, _INT32)

    def starts(self) -> np.ndarray:
        return self._array(self.columns.starts64, self.columns.starts64_len, _INT64)

    def rows(self) -> np.ndarray:
        return self._array(self.columns.rows, self.columns.rows_len, _INT32)

    def values(self, dtype: np.dtype) -> np.ndarray:
        return self._array(self.columns.values, self.columns.values_len, dtype)


def _compressed_starts(answer: Answer) -> np.ndarray:
    """The starts of all columns, from those of the columns that have entries."""
    ncols, stored = answer.columns.ncols, answer.columns.columns_len
    dtype: Any = _INT32 if answer.columns.rows_len <= LIMIT else _INT64
    starts = answer.starts()
    if stored and stored == ncols:
        return starts.astype(dtype)
    made = np.zeros(ncols + 1, dtype)
    if stored:
        made[1:][answer.stored()] = starts[1:] - starts[:-1]
        np.add.accumulate(made, out=made)
    return made


def matrix_of(answer: Answer, like: Any, turned: bool) -> Any:
    """The matrix of a result, of the class and dtype of `like`."""
    nrows, ncols = answer.columns.nrows, answer.columns.ncols
    made = _bare(like, (ncols, nrows) if turned else (nrows, ncols))
    rows, made.data = answer.rows(), answer.values(like.dtype)
    if like.format == "coo":
        starts = answer.starts()
        columns = answer.stored().repeat(starts[1:] - starts[:-1])
        made.row, made.col = (columns, rows) if turned else (rows, columns)
    else:
        made.indices, made.indptr = rows, _compressed_starts(answer)
    made.has_canonical_format = True
    return made


def _bare(like: Any, shape: tuple[int, int]) -> Any:
    """A matrix of the class of `like`, whose lists the caller then sets.

    It is a copy of the object: scipy's constructor checks all lists, which takes longer than a small call.
    """
    kind: Any = type(like)
    made = kind.__new__(kind)
    made.__dict__.update(like.__dict__)
    if made.shape != shape:
        made._shape = shape
    return made if made.shape == shape else kind(shape, dtype=like.dtype)


def lend_array(x: np.ndarray, turned: bool, unsigned: bool) -> Columns:
    """Passes an array as a column, or as a row if `turned`."""
    length = len(x)
    if unsigned:
        check_unsigned(x)
    x = _placed(x)
    numbers = np.arange(length + 1, dtype=np.int32)
    if turned:
        return _lend_lists(1, length, None, numbers, np.zeros(length, np.int32), x)
    return _lend_lists(length, 1, None, np.array((0, length), np.int32), numbers[:length], x)


def column_of(answer: Answer, turned: bool, dtype: np.dtype) -> tuple[np.ndarray, np.ndarray]:
    """The places of the entries of a column (of a row if `turned`), and their values."""
    return answer.stored() if turned else answer.rows(), answer.values(dtype)


def column_like(x: Any, length: int, places: np.ndarray, values: np.ndarray) -> Any:
    """A sparse column of the class of x."""
    made = _bare(x, (length, 1))
    made.data = values
    if x.format == "coo":
        made.row, made.col = places, np.zeros_like(places)
    elif x.format == "csc":
        made.indices, made.indptr = places, np.array([0, len(places)], np.int32)
    else:
        starts = np.zeros(length + 1, np.int32)
        starts[1:][places] = 1
        made.indices, made.indptr = np.zeros_like(places), starts.cumsum(dtype=np.int32)
    made.has_canonical_format = True
    return made
