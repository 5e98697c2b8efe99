"""Kept matrices: matrices in the library's memory, each over one semiring, which never change."""

from __future__ import annotations

import ctypes
import operator
from typing import Any

import numpy as np
import scipy.sparse

from . import _lists
from ._calls import FORMAT, FUNCTIONS, LENGTHS, LIMIT, MIXED, NOT_COLUMN, NOT_SQUARE, ORDER, PLACE, REGIONS
from ._calls import SEMIRING, SEMIRINGS, SHAPES, SOURCE, TEST, TOO_LARGE, VALUE
from ._library import ALL, How, Text, error, library, message_of

_NAMES = tuple(SEMIRINGS)  # in the order of their numbers
_ZEROS = tuple(2**64 - 1 if name.startswith("min-") else 0 for name in _NAMES)
_OR_AND = SEMIRINGS["or-and"]
_TRIPLE = np.dtype([("row", np.uint32), ("column", np.uint32), ("value", np.uint64)])
_UINT64 = np.dtype(np.uint64)
_void, _byref = ctypes.c_void_p, ctypes.byref


def number_of(name: str) -> int:
    """The number of a semiring."""
    number = SEMIRINGS.get(name)
    if number is None:
        raise error(SEMIRING)
    return number


def whole_numbers(values: Any, name: str) -> np.ndarray:
    """Values of bool or any integer type as uint64, without a copy if possible.

    A value that isn't 0 to 2**64 - 1 raises an error that names it.
    """
    given, values = values, np.asarray(values)
    if values.dtype.kind == "f" and all(type(it) is int for it in given):
        values = np.array(given, object)  # numpy makes floats of a list of integers below and above 2**63
    kind = values.dtype.kind
    if kind in "bu":
        return values.astype(_UINT64, copy=False)
    if kind == "O" and all(isinstance(it, (int, np.integer)) for it in values.flat):
        for n, it in enumerate(values.flat):
            if not 0 <= it < 2**64:
                raise error(VALUE, f"{name}: entry {n} is {it}, not 0 to 2^64 - 1")
        return values.astype(_UINT64)
    if kind != "i":
        raise TypeError(f"{name}: values of bool or of an integer type are wanted, not {values.dtype}")
    if values.size and values.min() < 0:
        n = int(np.argmax(values.ravel() < 0))
        raise error(VALUE, f"{name}: entry {n} is {values.ravel()[n]}, not 0 to 2^64 - 1")
    return values.view(_UINT64) if values.dtype.itemsize == 8 and values.dtype.isnative else values.astype(_UINT64)


def thread_count(count: int) -> int:
    """How many threads are wanted, as the library takes it."""
    count = operator.index(count)
    if count < 1:
        raise ValueError(f"threads: 1 or more is wanted, not {count}")
    return min(count, 2**32 - 1)


def _sides(shape: Any) -> tuple[int, int]:
    nrows, ncols = (operator.index(it) for it in shape)
    if nrows < 0 or ncols < 0 or nrows > LIMIT or ncols > LIMIT:
        raise error(TOO_LARGE)
    return nrows, ncols


def _numbers32(numbers: Any, limit: int, name: str) -> np.ndarray:
    """Row or column numbers below a limit."""
    numbers = np.asarray(numbers)
    if numbers.dtype.kind not in "iu" and numbers.size:
        raise TypeError(f"{name}: whole numbers are wanted, not {numbers.dtype}")
    if numbers.ndim != 1:
        raise TypeError(f"{name}: a list of numbers is wanted")
    if numbers.size and not (numbers.min() >= 0 and numbers.max() < limit):
        n = int(np.argmax((numbers < 0) | (numbers >= limit)))
        raise error(PLACE, f"{name}: entry {n} is {numbers[n]}, not 0 to {limit - 1}")
    return numbers


def _told(code: int, operands: list[Matrix]) -> str | None:
    """A code in words, with what it is about of the operands: their shapes or their semirings. None for other codes."""
    if code in (SHAPES, NOT_SQUARE, NOT_COLUMN):
        about = ["{} by {}".format(*it.shape) for it in operands]
    elif code == MIXED:
        about = [it.semiring for it in operands]
    else:
        return None
    return f"{message_of(code)}: {', '.join(about)}"


class Matrix:
    """A matrix over a semiring, kept by the library. It is built once, never changes, and is freed with the object.

    Operations on it convert nothing, and their result is another Matrix.

    Parameters
    ----------
    source : csc, csr or coo matrix or array of scipy.sparse, numpy array of two dimensions, or Matrix
        Of bool or any integer type. Values are converted exactly; if one is negative or above 2**64 - 1, an error says
        which. Duplicate entries are added up as integers, as everywhere in scipy. Each element of a numpy array that
        isn't the semiring's zero becomes an entry.
    semiring : str, optional
        A name from the table of `help(cbgrid)`; ``plus-times`` by default. For a Matrix the default is its own.

    Examples
    --------
    >>> import numpy as np, cbgrid
    >>> a = cbgrid.Matrix(np.array([[1, 2], [0, 3]]))
    >>> (a @ a)[0, 1]
    8
    >>> a @ a == a
    False
    """

    __slots__ = ("_at", "_number", "__weakref__")
    _at: int | None
    _number: int

    def __init__(self, source: Any, semiring: str | None = None) -> None:
        self._at = None
        if isinstance(source, Matrix):
            if semiring is not None and semiring != source.semiring:
                source = source.to_scipy("coo")
            else:
                self._number = source._number
                self._at = _kept_again(source)
                return
        self._number = number_of("plus-times" if semiring is None else semiring)
        self._at = _kept(source, self._number)

    @classmethod
    def _of(cls, at: int | None, number: int) -> Matrix:
        made = cls.__new__(cls)
        made._at, made._number = at, number
        return made

    @classmethod
    def from_triples(cls, rows: Any, columns: Any, values: Any, shape: Any, semiring: str = "plus-times") -> Matrix:
        """The matrix of triples, in any order. Values at one place are added up in the semiring.

        Parameters
        ----------
        rows, columns, values : lists or numpy arrays of one length
            An error says which list has a row, column or value that isn't allowed, and where.
        shape : (int, int)
        semiring
            As in `Matrix`.

        Returns
        -------
        Matrix

        Raises
        ------
        CbgridValueError
            Code 5 if the shape is too large, 6 if the lists differ in length, 8 if a row or a column is outside the shape, 9 if a
            value isn't one of the semiring.

        Examples
        --------
        >>> import cbgrid
        >>> cbgrid.Matrix.from_triples([0, 0], [1, 1], [2, 3], (2, 2))[0, 1]
        5
        """
        number = number_of(semiring)
        nrows, ncols = _sides(shape)
        rows, columns = _numbers32(rows, nrows, "rows"), _numbers32(columns, ncols, "columns")
        values = whole_numbers(values if len(values) else np.empty(0, _UINT64), "values")
        if not len(rows) == len(columns) == len(values):
            raise error(LENGTHS)
        triples = np.empty(len(rows), _TRIPLE)
        triples["row"], triples["column"], triples["value"] = rows, columns, values
        at, out = ctypes.c_uint64(), _void()
        code = library.cbgrid_matrix_of_triples(number, nrows, ncols, triples.ctypes.data, len(triples), at, _byref(out))
        if code:
            raise error(code, entry=at.value if code in (PLACE, VALUE) else None)
        return cls._of(out.value, number)

    def _give(self) -> int | None:
        """The address of the kept matrix, which this object gives up."""
        at, self._at = self._at, None
        return at

    def __del__(self, free: Any = library.cbgrid_matrix_free) -> None:
        at = getattr(self, "_at", None)
        if at:
            self._at = None
            free(at)

    def __reduce__(self) -> tuple:
        return _from_triples, (*self.to_triples(), self.shape, self.semiring)

    def __copy__(self) -> Matrix:
        return self

    def __deepcopy__(self, memo: Any) -> Matrix:
        return self

    @property
    def semiring(self) -> str:
        """The name of the semiring."""
        return _NAMES[self._number]

    @property
    def shape(self) -> tuple[int, int]:
        """The number of rows and of columns."""
        return library.cbgrid_matrix_nrows(self._at), library.cbgrid_matrix_ncols(self._at)

    @property
    def nnz(self) -> int:
        """The number of stored entries: values other than the semiring's zero."""
        return library.cbgrid_matrix_entries(self._at)

    @property
    def zero(self) -> int:
        """The semiring's zero, the value at each place without an entry."""
        return _ZEROS[self._number]

    def __getitem__(self, place: Any) -> Any:
        """The value at a place, or the Matrix of some rows and columns.

        Two integers give a value, as an int. A slice or a list of integers gives a Matrix of those rows or columns, in
        their order; an integer beside it gives one row or one column. Two lists give each of the rows in each of the
        columns, as in GraphBLAS and as `a[numpy.ix_(rows, columns)]`; numpy would take pairs. Negative integers count
        from the end.

        Raises
        ------
        IndexError
            The matrix doesn't have a row or a column. The message says which list names it, and where.
        TypeError
            The index isn't a pair of integers, slices and lists of integers.
        """
        if not isinstance(place, tuple) or len(place) != 2:
            raise TypeError("a matrix takes a row and a column: a[i, j]")
        rows, columns = place
        if _is_grid(rows, columns):
            rows, columns = rows[:, 0], columns[0]
        nrows, ncols = self.shape
        rows, columns = _indices(rows, nrows, "rows"), _indices(columns, ncols, "columns")
        if isinstance(rows, int) and isinstance(columns, int):
            value = ctypes.c_uint64()
            library.cbgrid_matrix_value(self._at, rows, columns, value)
            return value.value
        return self._taken(*(range(it, it + 1) if isinstance(it, int) else it for it in (rows, columns)))

    def _taken(self, rows: Any, columns: Any) -> Matrix:
        """The rows and columns of ranges or lists of numbers."""
        if all(isinstance(it, range) and it.step == 1 for it in (rows, columns)):
            ends = ((it.start, max(it.start, it.stop)) for it in (rows, columns))
            return self._made(library.cbgrid_matrix_part, *(end for pair in ends for end in pair))
        row_numbers, row_places = self._listed(rows, 0)
        column_numbers, column_places = self._listed(columns, 1)
        made = self._extracted(row_numbers, column_numbers)
        if row_places is None and column_places is None:
            return made
        at_rows, at_columns, values = made.to_triples()
        at_rows = at_rows if row_places is None else row_places[at_rows]
        at_columns = at_columns if column_places is None else column_places[at_columns]
        return Matrix.from_triples(at_rows, at_columns, values, (len(rows), len(columns)), self.semiring)

    def _listed(self, numbers: Any, axis: int) -> tuple[np.ndarray | None, np.ndarray | None]:
        """The numbers of a list or a range, or None for all, and None.

        For a range that is much longer than the number of entries: its rows or columns that have entries, and their
        places in the range.
        """
        if not isinstance(numbers, range):
            return numbers, None
        if numbers == range(self.shape[axis]):
            return None, None
        if len(numbers) <= 2 * self.nnz + 1000:
            return np.arange(numbers.start, numbers.stop, numbers.step, np.int64).astype(np.uint32), None
        present = np.unique(self.to_triples()[axis]).astype(np.int64)
        places, rest = np.divmod(present - numbers.start, numbers.step)
        inside = (rest == 0) & (places >= 0) & (places < len(numbers))
        return present[inside].astype(np.uint32), places[inside]

    def _extracted(self, rows: np.ndarray | None, columns: np.ndarray | None) -> Matrix:
        """The rows and columns of lists; None stands for all."""
        lists = [None if it is None else np.ascontiguousarray(it, np.uint32) for it in (rows, columns)]
        pairs = [(None, ALL) if it is None else (it.ctypes.data, len(it)) for it in lists]
        return self._made(library.cbgrid_matrix_extract, *pairs[0], *pairs[1], None)

    def _lists(self) -> _lists.Answer:
        """A copy of the lists of the columns."""
        answer = _lists.Answer()
        code = library.cbgrid_matrix_columns(self._at, answer.columns)
        if code:
            raise error(code)
        return answer

    def to_scipy(self, format: str = "csc", dtype: Any = np.uint64) -> Any:
        """The matrix as a csc_array, csr_array or coo_array of uint64 or int64.

        For int64 a value above 2**63 - 1 raises OverflowError.

        Parameters
        ----------
        format : {"csc", "csr", "coo"}
            csc and csr need an array as long as one of the sides; coo doesn't.
        dtype : {numpy.uint64, numpy.int64}

        Returns
        -------
        csc_array, csr_array or coo_array

        Raises
        ------
        OverflowError
            A value is above 2**63 - 1, and `dtype` is int64.
        TypeError
            There is no such format, or another dtype.

        Examples
        --------
        >>> import numpy as np, cbgrid
        >>> a = cbgrid.Matrix(np.array([[1, 2], [0, 3]]))
        >>> a.to_scipy("csr", np.int64).toarray()
        array([[1, 2],
               [0, 3]])
        """
        dtype = np.dtype(dtype)
        _lists.check_dtype(dtype, "dtype")
        if format not in ("csc", "csr", "coo"):
            raise TypeError(f"format: csc, csr or coo is wanted, not {format}")
        if format == "csr":
            like = scipy.sparse.csr_array((0, 0), dtype=dtype)
            made = _lists.matrix_of(self.T._lists(), like, turned=True)
        else:
            like = (scipy.sparse.csc_array if format == "csc" else scipy.sparse.coo_array)((0, 0), dtype=dtype)
            made = _lists.matrix_of(self._lists(), like, turned=False)
        _lists.check_signed(made.data)
        return made

    def to_triples(self) -> tuple[np.ndarray, np.ndarray, np.ndarray]:
        """The rows, the columns and the values of the entries, by column and then by row.

        Returns
        -------
        rows, columns, values : numpy arrays of one length, of int32, int32 and uint64

        Examples
        --------
        >>> import numpy as np, cbgrid
        >>> a = cbgrid.Matrix(np.array([[1, 2], [0, 3]]))
        >>> [it.tolist() for it in a.to_triples()]
        [[0, 0, 1], [0, 1, 1], [1, 2, 3]]
        """
        answer = self._lists()
        starts = answer.starts()
        columns = answer.stored().repeat(starts[1:] - starts[:-1]) if len(starts) else answer.stored()
        return answer.rows(), columns, answer.values(_UINT64)

    def to_numpy(self) -> np.ndarray:
        """The matrix as an array, with the semiring's zero at each place without an entry.

        Returns
        -------
        numpy array of uint64
            Of the shape of the matrix. It takes memory for each place, not for each entry.

        Examples
        --------
        >>> import numpy as np, cbgrid
        >>> a = cbgrid.Matrix(np.array([[1, 2], [0, 3]]))
        >>> a.to_numpy().tolist()
        [[1, 2], [0, 3]]
        """
        made = np.full(self.shape, self.zero, _UINT64)
        rows, columns, values = self.to_triples()
        made[rows, columns] = values
        return made

    @property
    def T(self) -> Matrix:
        """The transpose."""
        return self._made(library.cbgrid_matrix_transpose)

    def sums(self, by: str = "rows") -> Matrix:
        """The sum of each row, in one column, or of each column, in one row. `by` is "rows" or "columns".

        Parameters
        ----------
        by : {"rows", "columns"}

        Returns
        -------
        Matrix

        Raises
        ------
        ValueError
            `by` is another word.

        Examples
        --------
        >>> import numpy as np, cbgrid
        >>> a = cbgrid.Matrix(np.array([[1, 2], [0, 3]]))
        >>> a.sums("columns").to_numpy().tolist()
        [[1, 5]]
        """
        calls = {"rows": library.cbgrid_matrix_row_sums, "columns": library.cbgrid_matrix_column_sums}
        if by not in calls:
            raise ValueError(f"by: one of {tuple(calls)} is wanted, not {by!r}")
        return self._made(calls[by])

    def sum(self, axis: int | None = None) -> Any:
        """The sum of all values in the semiring, as an int; or the sums along an axis, as a Matrix.

        Parameters
        ----------
        axis : {None, 0, 1}
            None adds up all values; the sum of no values is the semiring's zero. 0 adds up each column and gives one
            row; 1 adds up each row and gives one column. Any other axis raises ValueError.

        Returns
        -------
        int or Matrix

        Examples
        --------
        >>> import numpy as np, cbgrid
        >>> a = cbgrid.Matrix(np.array([[1, 2], [0, 3]]))
        >>> a.sum()
        6
        """
        if axis is not None:
            if axis not in (0, 1):
                raise ValueError(f"axis: None, 0 or 1 is wanted, not {axis!r}")
            return self.sums("rows" if axis else "columns")
        total = ctypes.c_uint64()
        code = library.cbgrid_matrix_reduce_all(self._at, _byref(total))
        if code:
            raise error(code)
        return total.value

    def select(self, region: str, k: int = 0) -> Matrix:
        """The entries in a region.

        Parameters
        ----------
        region : {"lower", "upper", "diagonal", "off-diagonal"}
            The lower triangle (diagonal k and everything below it), the upper triangle (diagonal k and everything above
            it), diagonal k, or everything but diagonal k. Any other name raises a CbgridValueError with code 2.
        k : int
            The number of a diagonal: 0 is the main diagonal, 1 the one above it, -1 the one below it. Any integer is
            allowed; a diagonal outside the matrix has no entries.

        Returns
        -------
        Matrix

        Raises
        ------
        CbgridValueError
            Code 3 if there is no such region.

        Examples
        --------
        >>> import numpy as np, cbgrid
        >>> a = cbgrid.Matrix(np.array([[1, 2], [0, 3]]))
        >>> a.select("off-diagonal").to_numpy().tolist()
        [[0, 2], [0, 0]]
        """
        if region not in REGIONS:
            raise error(TEST, f"region: one of {tuple(REGIONS)} is wanted, not {region!r}")
        diagonal = max(-LIMIT, min(operator.index(k), LIMIT))
        return self._made(library.cbgrid_matrix_select, REGIONS[region], diagonal)

    def tril(self, k: int = 0) -> Matrix:
        """The entries on diagonal k and below it, as `scipy.sparse.tril`.

        Parameters
        ----------
        k : int
            As in `select`.

        Returns
        -------
        Matrix

        Examples
        --------
        >>> import numpy as np, cbgrid
        >>> a = cbgrid.Matrix(np.array([[1, 2], [0, 3]]))
        >>> a.tril().to_numpy().tolist()
        [[1, 0], [0, 3]]
        """
        return self.select("lower", k)

    def triu(self, k: int = 0) -> Matrix:
        """The entries on diagonal k and above it, as `scipy.sparse.triu`.

        Parameters
        ----------
        k : int
            As in `select`.

        Returns
        -------
        Matrix

        Examples
        --------
        >>> import numpy as np, cbgrid
        >>> a = cbgrid.Matrix(np.array([[1, 2], [0, 3]]))
        >>> a.triu(1).to_numpy().tolist()
        [[0, 2], [0, 0]]
        """
        return self.select("upper", k)

    def apply(self, function: str, number: int = 0) -> Matrix:
        """The matrix with a function of each entry in place of its value. A value that becomes zero isn't stored.

        Parameters
        ----------
        function : {"constant", "sum", "left-product", "right-product", "row", "column"}
            `number` itself; the semiring's sum of the value and `number`; its product of `number` and the value, or of
            the value and `number`; the row of the entry, or its column, counted from 0. Any other name raises a
            CbgridValueError with code 2.
        number : int
            A value of the semiring, 0 to 2**64 - 1; any other raises a CbgridValueError with code 9. "row" and "column"
            ignore it, but raise the same error if the number of the last row or column isn't a value of the semiring:
            ``or-and`` has only 0 and 1.

        Returns
        -------
        Matrix

        Raises
        ------
        CbgridValueError
            Code 3 or 9, as above.

        Examples
        --------
        >>> import numpy as np, cbgrid
        >>> a = cbgrid.Matrix(np.array([[1, 2], [0, 3]]))
        >>> a.apply("sum", 10).to_numpy().tolist()
        [[11, 12], [0, 13]]
        """
        if function not in FUNCTIONS:
            raise error(TEST, f"function: one of {tuple(FUNCTIONS)} is wanted, not {function!r}")
        number = operator.index(number)
        if not 0 <= number < 2**64:
            raise error(VALUE, f"number: 0 to 2^64 - 1 is wanted, not {number}")
        return self._made(library.cbgrid_matrix_apply, FUNCTIONS[function], number)

    def diagonal(self) -> Matrix:
        """The main diagonal, in one column with as many rows as the matrix has rows or columns, whichever are fewer.

        Returns
        -------
        Matrix

        Examples
        --------
        >>> import numpy as np, cbgrid
        >>> a = cbgrid.Matrix(np.array([[1, 2], [0, 3]]))
        >>> a.diagonal().to_numpy().tolist()
        [[1], [3]]
        """
        return self._made(library.cbgrid_matrix_diagonal)

    @classmethod
    def from_diagonal(cls, values: Any, semiring: str | None = None) -> Matrix:
        """The square matrix with some values on its main diagonal.

        Parameters
        ----------
        values : list or numpy array of one dimension, or Matrix or scipy.sparse matrix of one column
            Of bool or any integer type. Each element of an array that isn't the semiring's zero becomes an entry. A
            matrix that doesn't have one column raises a CbgridValueError with code 16.
        semiring
            As in `Matrix`.

        Returns
        -------
        Matrix

        Raises
        ------
        CbgridValueError
            Code 16, as above.

        Examples
        --------
        >>> import cbgrid
        >>> cbgrid.Matrix.from_diagonal([5, 7]).to_numpy().tolist()
        [[5, 0], [0, 7]]
        """
        if not isinstance(values, Matrix) and not scipy.sparse.issparse(values):
            if np.ndim(values) != 1:
                raise TypeError(f"values: an array of one dimension is wanted, not of {np.ndim(values)}")
            values = whole_numbers(values if len(values) else np.empty(0, _UINT64), "values").reshape(-1, 1)
        return cls(values, semiring)._made(library.cbgrid_matrix_diagonal_matrix)

    def extract(self, rows: Any, columns: Any) -> Matrix:
        """The matrix whose row i and column j are row `rows[i]` and column `columns[j]` of this one.

        Parameters
        ----------
        rows, columns : lists or numpy arrays of integers
            Counted from 0, in any order, with repetitions. If the matrix doesn't have one of them, a CbgridValueError
            with code 8 says which list names it, and where. `a[rows, columns]` also takes slices and negative integers.

        Returns
        -------
        Matrix

        Raises
        ------
        CbgridValueError
            Code 8, as above.

        Examples
        --------
        >>> import numpy as np, cbgrid
        >>> a = cbgrid.Matrix(np.array([[1, 2], [0, 3]]))
        >>> a.extract([1, 0], [1]).to_numpy().tolist()
        [[3], [2]]
        """
        nrows, ncols = self.shape
        return self._extracted(_numbers32(rows, nrows, "rows"), _numbers32(columns, ncols, "columns"))

    def kron(self, other: Any) -> Matrix:
        """The Kronecker product: each value is replaced by its products with all of the other matrix.

        Parameters
        ----------
        other : Matrix or scipy.sparse matrix, or numpy array of two dimensions
            A Matrix over another semiring raises a CbgridValueError with code 3; a product with more than 2**31 - 1
            rows or columns raises one with code 5.

        Returns
        -------
        Matrix

        Raises
        ------
        CbgridValueError
            Code 5 or 3, as above.

        Examples
        --------
        >>> import numpy as np, cbgrid
        >>> a = cbgrid.Matrix(np.array([[1, 2], [0, 3]]))
        >>> a.kron(np.array([[1, 10]])).to_numpy().tolist()
        [[1, 10, 2, 20], [0, 0, 3, 30]]
        """
        operand = self._wanted(other, "other")
        return self._made(library.cbgrid_matrix_kron, operand)

    def assign(self, row: int, column: int, part: Any) -> Matrix:
        """The matrix with another in place of a part of it. The entries in that part are dropped, also where the other
        matrix has none.

        Parameters
        ----------
        row, column : int
            Where the part begins, counted from 0. If it ends beyond this matrix, a CbgridValueError with code 8 is
            raised.
        part : Matrix or scipy.sparse matrix, or numpy array of two dimensions
            A Matrix over another semiring raises a CbgridValueError with code 3.

        Returns
        -------
        Matrix

        Raises
        ------
        CbgridValueError
            Code 8 or 3, as above.

        Examples
        --------
        >>> import numpy as np, cbgrid
        >>> a = cbgrid.Matrix(np.array([[1, 2], [0, 3]]))
        >>> a.assign(0, 0, np.array([[9]])).to_numpy().tolist()
        [[9, 2], [0, 3]]
        """
        corner = operator.index(row), operator.index(column)
        operand = self._wanted(part, "part")
        if not all(0 <= it <= LIMIT for it in corner):
            raise error(PLACE, f"row, column: a place of the matrix is wanted, not {corner}")
        return self._made(library.cbgrid_matrix_assign, *corner, operand)

    def exclude(self, mask: Any) -> Matrix:
        """The entries at the places where a mask has none: a complemented mask.

        Parameters
        ----------
        mask : Matrix or scipy.sparse matrix, or numpy array of two dimensions
            Its values don't matter. A mask of another shape raises a CbgridValueError with code 10, and a Matrix over
            another semiring one with code 3.

        Returns
        -------
        Matrix

        Raises
        ------
        CbgridValueError
            Code 10 or 3, as above.

        Examples
        --------
        >>> import numpy as np, cbgrid
        >>> a = cbgrid.Matrix(np.array([[1, 2], [0, 3]]))
        >>> a.exclude(np.array([[1, 0], [0, 0]])).to_numpy().tolist()
        [[0, 2], [0, 3]]
        """
        operand = self._wanted(mask, "mask")
        return self._made(library.cbgrid_matrix_exclude, operand)

    def update(
        self, new: Any, mask: Any = None, complement: bool = False, accumulate: bool = False, replace: bool = False
    ) -> Matrix:
        """This matrix with another one written to it at the places that a mask allows, as GraphBLAS writes each result.

        At an allowed place the result has the value of the new matrix, or none. At any other place it has the value of
        this one.

        Parameters
        ----------
        new : Matrix or scipy.sparse matrix, or numpy array of two dimensions
        mask : the same, optional
            Allows the places where it has an entry, whatever its value. Without a mask all places are allowed.
        complement : bool
            Whether the mask allows the places where it has no entry; without a mask, none.
        accumulate : bool
            Whether a new value is added to that of this matrix by the semiring's sum. Then entries of this matrix at
            allowed places stay where the new one has none.
        replace : bool
            Whether the entries of this matrix at places that aren't allowed are dropped.

        Returns
        -------
        Matrix

        Raises
        ------
        CbgridValueError
            Code 10 if the shapes differ, code 3 if the semirings differ.

        Examples
        --------
        >>> import numpy as np, cbgrid
        >>> a = cbgrid.Matrix(np.array([[1, 2], [0, 3]]))
        >>> a.update(a, accumulate=True).to_numpy().tolist()
        [[2, 4], [0, 6]]
        """
        written = self._wanted(new, "new")
        kept = None if mask is None else self._wanted(mask, "mask")
        flags = bool(accumulate) + 2 * bool(complement) + 4 * bool(replace)
        return self._made(library.cbgrid_matrix_update, written, kept, flags)

    def power(self, factors: int) -> Matrix:
        """The power with this many factors, 1 or more, multiplied from the left. `a ** n` is the same.

        Parameters
        ----------
        factors : int

        Returns
        -------
        Matrix

        Raises
        ------
        CbgridValueError
            Code 2 if there are no factors, or more than 2**32 - 1; code 11 if the matrix isn't square.

        Examples
        --------
        >>> import numpy as np, cbgrid
        >>> a = cbgrid.Matrix(np.array([[1, 2], [0, 3]]))
        >>> a.power(2).to_numpy().tolist()
        [[1, 8], [0, 9]]
        """
        factors = operator.index(factors)
        if not 0 < factors < 2**32:
            raise error(TEST, f"factors: 1 to 2^32 - 1 are wanted, not {factors}")
        return self._made(library.cbgrid_matrix_power, factors)

    def __pow__(self, factors: Any) -> Any:
        return self.power(factors) if hasattr(factors, "__index__") else NotImplemented

    def degrees(self, axis: int = 1) -> Matrix:
        """The number of entries of each row or column, in one column over ``plus-times``, as `getnnz` of scipy counts.

        Parameters
        ----------
        axis : {1, 0}
            1 counts the entries of each row: the edges that leave a vertex. 0 counts those of each column: the edges
            that lead to it. Any other axis raises ValueError.

        Returns
        -------
        Matrix

        Raises
        ------
        ValueError
            `axis` is another number.

        Examples
        --------
        >>> import numpy as np, cbgrid
        >>> a = cbgrid.Matrix(np.array([[1, 2], [0, 3]]))
        >>> a.degrees().to_numpy().tolist()
        [[2], [1]]
        """
        if axis not in (0, 1):
            raise ValueError(f"axis: 0 or 1 is wanted, not {axis!r}")
        call = library.cbgrid_matrix_row_degrees if axis else library.cbgrid_matrix_column_degrees
        return self._made(call, number=SEMIRINGS["plus-times"])

    def _made(self, call: Any, *arguments: Any, mask: Matrix | None = None, number: int | None = None, at: Any = None) -> Matrix:
        """What a call makes of this matrix and of the matrices among its arguments. `mask` is one that another argument names."""
        out = _void()
        code = call(self._at, *(it._at if isinstance(it, Matrix) else it for it in arguments), _byref(out))
        if code:
            operands = [it for it in (self, *arguments, mask) if isinstance(it, Matrix)]
            raise error(code, _told(code, operands), entry=at.value if at is not None and code == SOURCE else None)
        return Matrix._of(out.value, self._number if number is None else number)

    def _operand(self, other: Any) -> Matrix | None:
        """An operand as a Matrix: other matrices are kept over the semiring of this one. None for anything else."""
        if isinstance(other, Matrix):
            return other
        if scipy.sparse.issparse(other) or isinstance(other, np.ndarray) and other.ndim == 2:
            return Matrix(other, self.semiring)
        return None

    def _pair(self, call: Any, other: Any) -> Any:
        operand = self._operand(other)
        return NotImplemented if operand is None else self._made(call, operand)

    def __matmul__(self, other: Any) -> Any:
        if isinstance(other, np.ndarray) and other.ndim == 1:
            return self._by_array(other)
        operand = self._operand(other)
        return NotImplemented if operand is None else self.multiply(operand)

    def _by_array(self, x: np.ndarray) -> np.ndarray:
        """The product with an array of one dimension, as an array."""
        if len(x) != self.shape[1]:
            raise error(SHAPES)
        column = Matrix(whole_numbers(x, "x").reshape(-1, 1), self.semiring)
        return self.multiply(column).to_numpy()[:, 0]

    def __rmatmul__(self, other: Any) -> Any:
        operand = self._operand(other)
        return NotImplemented if operand is None else operand @ self

    def __add__(self, other: Any) -> Any:
        return self._pair(library.cbgrid_matrix_add, other)

    __radd__ = __add__

    def __mul__(self, other: Any) -> Any:
        return self._pair(library.cbgrid_matrix_times, other)

    __rmul__ = __mul__
    __array_ufunc__ = None  # so that numpy leaves operators to the methods above

    def multiply(
        self,
        other: Any,
        mask: Any = None,
        complement: bool = False,
        transpose_left: bool = False,
        transpose_right: bool = False,
        threads: int | None = None,
    ) -> Matrix:
        """The product, at the places where the mask has an entry if there is one.

        With `complement`, the product at the places where the mask has no entry. With `transpose_left` or
        `transpose_right` this matrix or the other one is transposed first.

        The product is computed by up to `threads` threads, 1 or more, of which at most 256 are used, or by those of
        `set_threads`; the result is the same.

        Parameters
        ----------
        other, mask : Matrix or scipy.sparse matrix, or numpy array of two dimensions
        complement : bool
            Whether to keep the places where the mask has no entry.
        transpose_left, transpose_right : bool
            Whether this matrix, or the other one, is transposed first.
        threads : int, optional
            How many threads may compute the product.

        Returns
        -------
        Matrix

        Raises
        ------
        CbgridValueError
            Code 10 if the shapes don't agree, code 3 if the semirings differ.

        Examples
        --------
        >>> import numpy as np, cbgrid
        >>> a = cbgrid.Matrix(np.array([[1, 2], [0, 3]]))
        >>> a.multiply(a, transpose_left=True).to_numpy().tolist()
        [[1, 2], [2, 13]]
        """
        count = 0 if threads is None else thread_count(threads)
        operand = self._wanted(other, "b")
        kept = None if mask is None else self._wanted(mask, "mask")
        if complement and kept is None:
            raise TypeError("complement: a mask is wanted")
        covered = None if kept is None else kept._at
        how = How(covered, bool(complement), bool(transpose_left), bool(transpose_right), count)
        return self._made(library.cbgrid_matrix_multiply, operand, how, mask=kept)

    def _wanted(self, other: Any, name: str) -> Matrix:
        operand = self._operand(other)
        if operand is None:
            raise TypeError(f"{name}: a Matrix or a matrix of scipy.sparse is wanted, not {type(other).__name__}")
        return operand

    def _pruned(self, test: int, bound: int) -> Matrix:
        return self._made(library.cbgrid_matrix_prune, test, bound)

    def _walk(self, is_levels: bool, source: int) -> tuple[np.ndarray, np.ndarray]:
        """The vertices that a source reaches, and their levels or distances."""
        call = library.cbgrid_matrix_levels if is_levels else library.cbgrid_matrix_distances
        rows, _columns, values = self._made(call, source, number=1).to_triples()
        return rows, values

    def _walks(self, is_levels: bool, sources: np.ndarray) -> Matrix:
        """The levels or distances from several sources, over min-plus: a row for each source."""
        call = library.cbgrid_matrix_levels_from if is_levels else library.cbgrid_matrix_distances_from
        at = ctypes.c_uint64()
        return self._made(call, sources.ctypes.data, len(sources), at, number=1, at=at).T

    def _walk_given(self, is_levels: bool, vertices: Any, numbers: Any) -> tuple[np.ndarray, np.ndarray]:
        """The vertices that are reached from initial values, and their levels or distances from these."""
        call = library.cbgrid_matrix_levels_given if is_levels else library.cbgrid_matrix_distances_given
        column = np.zeros(len(vertices), np.uint32)
        given = Matrix.from_triples(vertices, column, numbers, (self.shape[0], 1), "min-plus")
        rows, _columns, values = self._made(call, given, number=1).to_triples()
        return rows, values

    def keep_transpose(self) -> None:
        """Keeps the transpose of this matrix beside it, once: searches from sources then don't make their own.

        A graph that is searched more than once is searched faster, and takes twice the memory. No other thread may use this
        matrix meanwhile.

        Returns
        -------
        None

        Raises
        ------
        CbgridMemoryError
            Memory for the transpose is refused: nothing changes.

        Examples
        --------
        >>> import numpy as np, cbgrid
        >>> roads = cbgrid.Matrix(np.array([[0, 1, 1], [0, 0, 0], [0, 1, 0]]), "or-and")
        >>> roads.keep_transpose()
        >>> [it.tolist() for it in cbgrid.bfs(roads, 0)]
        [[0, 1, 2], [0, 1, 1]]
        """
        code = library.cbgrid_matrix_keep_transpose(self._at)
        if code:
            raise error(code)

    def parents(self, source: int) -> tuple[np.ndarray, np.ndarray]:
        """The vertices that a source reaches, without itself, and the parent of each.

        Parameters
        ----------
        source : int
            The vertex to start from, counted from 0.

        Returns
        -------
        vertices, parents : numpy arrays of int32 and uint64

        Raises
        ------
        CbgridValueError
            Code 11 if the matrix isn't square, 12 if the source isn't a vertex, 16 if the semiring isn't ``or-and``.

        Examples
        --------
        >>> import numpy as np, cbgrid
        >>> roads = cbgrid.Matrix(np.array([[0, 1, 1], [0, 0, 0], [0, 1, 0]]), "or-and")
        >>> [it.tolist() for it in roads.parents(0)]
        [[1, 2], [0, 0]]
        """
        rows, _columns, values = self._made(library.cbgrid_matrix_parents, source, number=1).to_triples()
        return rows, values

    def components(self) -> tuple[np.ndarray, np.ndarray]:
        """The vertices that have entries, and the least vertex of the component of each.

        Returns
        -------
        vertices, components : numpy arrays of int32 and uint64

        Raises
        ------
        CbgridValueError
            Code 11 if the matrix isn't square, 16 if the semiring isn't ``or-and``.

        Examples
        --------
        >>> import numpy as np, cbgrid
        >>> roads = cbgrid.Matrix(np.array([[0, 1, 1], [0, 0, 0], [0, 1, 0]]), "or-and")
        >>> [it.tolist() for it in roads.components()]
        [[0, 1, 2], [0, 0, 0]]
        """
        rows, _columns, values = self._made(library.cbgrid_matrix_components, number=1).to_triples()
        return rows, values

    def triangles(self) -> int:
        """The number of triangles of the graph.

        Returns
        -------
        int
            At most 2**64 - 1.

        Raises
        ------
        CbgridValueError
            Code 11 if the matrix isn't square, 16 if the semiring isn't ``or-and``.

        Examples
        --------
        >>> import numpy as np, cbgrid
        >>> roads = cbgrid.Matrix(np.array([[0, 1, 1], [0, 0, 0], [0, 1, 0]]), "or-and")
        >>> roads.triangles()
        1
        """
        count = ctypes.c_uint64()
        code = library.cbgrid_matrix_triangles(self._at, _byref(count))
        if code:
            raise error(code)
        return count.value

    def text(self) -> bytes:
        """The Matrix Market text.

        Returns
        -------
        bytes

        Examples
        --------
        >>> import numpy as np, cbgrid
        >>> a = cbgrid.Matrix(np.array([[1, 2], [0, 3]]))
        >>> a.text().splitlines()[1]
        b'2 2 3'
        """
        made = Text()
        code = library.cbgrid_matrix_text(self._at, made)
        if code:
            raise error(code)
        try:
            return ctypes.string_at(made.bytes, made.len)
        finally:
            library.cbgrid_free_text(made)

    def __eq__(self, other: Any) -> Any:
        """Whether two matrices have the same semiring, shape and entries."""
        if not isinstance(other, Matrix):
            return NotImplemented
        if self is other:
            return True
        if self._number != other._number or self.shape != other.shape or self.nnz != other.nnz:
            return False
        return all(np.array_equal(x, y) for x, y in zip(self.to_triples(), other.to_triples()))

    __hash__ = None  # type: ignore[assignment]

    def __repr__(self) -> str:
        nrows, ncols = self.shape
        return f"<cbgrid.Matrix of {nrows} by {ncols} over {self.semiring}, {self.nnz} entries>"


def _is_grid(rows: Any, columns: Any) -> bool:
    """Whether a pair of indices is a grid of `numpy.ix_`."""
    pair = (rows, columns)
    return all(isinstance(it, np.ndarray) and it.ndim == 2 for it in pair) and rows.shape[1] == columns.shape[0] == 1


def _indices(index: Any, length: int, name: str) -> Any:
    """An index as an int, a range, or an array of numbers below a length."""
    if isinstance(index, slice):
        return range(*index.indices(length))
    if isinstance(index, (list, tuple, np.ndarray)) and np.ndim(index):
        numbers = np.asarray(index)
        if numbers.dtype.kind not in "iu" and numbers.size:
            raise TypeError(f"{name}: whole numbers are wanted, not {numbers.dtype}")
        if numbers.ndim != 1:
            raise TypeError(f"{name}: a list of numbers is wanted")
        if numbers.dtype.kind == "i":
            numbers = numbers.astype(np.int64)
            numbers = np.where(numbers < 0, numbers + length, numbers)
        if numbers.size and not (numbers.min() >= 0 and numbers.max() < length):
            n = int(np.argmax((numbers < 0) | (numbers >= length)))
            raise IndexError(f"{name}: entry {n} is {index[n]}, not {-length} to {length - 1}")
        return numbers
    number = operator.index(index)
    if not -length <= number < length:
        raise IndexError(f"{name}: {number} is not {-length} to {length - 1}")
    return number % length


def _from_triples(rows: Any, columns: Any, values: Any, shape: Any, semiring: str) -> Matrix:
    """Rebuilds a Matrix from a pickle."""
    return Matrix.from_triples(rows, columns, values, shape, semiring)


def _kept_again(matrix: Matrix) -> int | None:
    """The address of a copy, which is the transpose of the transpose."""
    return matrix.T.T._give()


def _kept(source: Any, number: int) -> int | None:
    """Keeps a matrix of scipy or numpy, and returns its address."""
    if isinstance(source, np.ndarray):
        source = _coordinates(source, number)
    form = getattr(source, "format", None)
    if form not in ("csc", "csr", "coo") or len(source.shape) != 2:
        what = f"format {form}" if isinstance(form, str) else type(source).__name__
        raise TypeError(f"source: a csc, csr or coo matrix of scipy.sparse, or a numpy array, is wanted, not {what}")
    _sides(source.shape)
    values = whole_numbers(source.data, "source")
    if values is not source.data:
        shown = source.copy() if form == "coo" else type(source)(source.shape, dtype=_UINT64)
        if form == "coo":
            shown.data = values
        else:
            shown.indptr, shown.indices, shown.data = source.indptr, source.indices, values
        source = shown
    return kept(source, number)._give()


def kept(matrix: Any, number: int, turned: bool = False, unsigned: bool = False, nonzero: bool = False) -> Matrix:
    """Keeps a matrix of scipy, or its transpose if `turned`, over the semiring of a number (`_lists.lend`).

    Only if the kernel finds that its entries aren't sorted, sorts a copy and calls again.
    """
    code, at, out = ORDER, ctypes.c_uint64(), _void()
    for in_order in (False, True):
        if code == ORDER:
            lent = _lists.lend(matrix, turned, unsigned, nonzero, in_order)
            call = library.cbgrid_matrix_of_rows if lent.by_rows else library.cbgrid_matrix_of_columns
            code = call(number, lent, at, _byref(out))
            is_given = not in_order and getattr(matrix, "format", "coo") != "coo"
    if code:
        raise error(code, entry=at.value if is_given and code in (PLACE, VALUE) else None)
    return Matrix._of(out.value, number)


def read_matrix(text: bytes, number: int) -> Matrix:
    """Reads the matrix of a Matrix Market text over the semiring of a number."""
    line, out = ctypes.c_uint64(), _void()
    code = library.cbgrid_matrix_read(number, text, len(text), line, _byref(out))
    if code:
        raise error(code, line=line.value if code == FORMAT else None)
    return Matrix._of(out.value, number)


def _coordinates(array: np.ndarray, number: int) -> Any:
    """The elements of an array that aren't the semiring's zero, as a coo matrix."""
    if array.ndim != 2:
        raise TypeError(f"source: an array of two dimensions is wanted, not of {array.ndim}")
    values = whole_numbers(array, "source")
    columns, rows = np.nonzero(values.T != np.uint64(_ZEROS[number]))
    return scipy.sparse.coo_array((values[rows, columns], (rows, columns)), shape=array.shape)
