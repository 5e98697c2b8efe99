"""libcbgrid.so as ctypes sees it: the structs of cbgrid.h, its calls, and its codes as exceptions."""

from __future__ import annotations

import ctypes
import os

from ._calls import CALLS, MEMORY

ALL = ctypes.c_size_t(-1).value  # in place of the length of a list of rows or columns


class Columns(ctypes.Structure):
    """`struct cbgrid_columns`. As an operand, it holds references to the arrays that it points to, and says whether they list rows."""

    _fields_ = [
        ("nrows", ctypes.c_uint32),
        ("ncols", ctypes.c_uint32),
        ("kind", ctypes.c_uint32),
        ("wide", ctypes.c_uint32),
        ("columns", ctypes.c_void_p),
        ("columns_len", ctypes.c_size_t),
        ("starts32", ctypes.c_void_p),
        ("starts32_len", ctypes.c_size_t),
        ("starts64", ctypes.c_void_p),
        ("starts64_len", ctypes.c_size_t),
        ("rows", ctypes.c_void_p),
        ("rows_len", ctypes.c_size_t),
        ("values", ctypes.c_void_p),
        ("values_len", ctypes.c_size_t),
    ]
    kept: tuple = ()
    by_rows: bool = False


class Text(ctypes.Structure):
    """`struct cbgrid_text`."""

    _fields_ = [("bytes", ctypes.c_void_p), ("len", ctypes.c_size_t)]


class How(ctypes.Structure):
    """`struct cbgrid_how`."""

    _fields_ = [
        ("mask", ctypes.c_void_p),
        ("complement", ctypes.c_int),
        ("transpose_a", ctypes.c_int),
        ("transpose_b", ctypes.c_int),
        ("threads", ctypes.c_uint32),
    ]


_at, _number = ctypes.c_void_p, ctypes.POINTER(ctypes.c_uint64)
# The types of cbgrid.h. A matrix, and lists of numbers that a call only reads, are passed by their address.
_TYPES = {
    "void": None,
    "int": ctypes.c_int,
    "int64_t": ctypes.c_int64,
    "uint32_t": ctypes.c_uint32,
    "uint64_t": ctypes.c_uint64,
    "size_t": ctypes.c_size_t,
    "const char *": ctypes.c_char_p,
    "const void *": ctypes.c_char_p,
    "const uint32_t *": _at,
    "const uint64_t *": _at,
    "uint64_t *": _number,
    "struct cbgrid_columns": Columns,
    "const struct cbgrid_columns *": ctypes.POINTER(Columns),
    "struct cbgrid_columns *": ctypes.POINTER(Columns),
    "struct cbgrid_text *": ctypes.POINTER(Text),
    "const struct cbgrid_triple *": _at,
    "struct cbgrid_triple *": _at,
    "const struct cbgrid_how *": ctypes.POINTER(How),
    "const struct cbgrid_matrix *": _at,
    "struct cbgrid_matrix *": _at,
    "struct cbgrid_matrix **": ctypes.POINTER(_at),
}


def _load() -> ctypes.CDLL:
    library = ctypes.CDLL(os.path.join(os.path.dirname(os.path.abspath(__file__)), "libcbgrid.so"))
    for name, (result, arguments) in CALLS.items():
        function = getattr(library, name)
        function.argtypes = [_TYPES[it] for it in arguments]
        function.restype = _TYPES[result]
    return library


library = _load()


class CbgridError(Exception):
    """A call failed. It is raised as a `CbgridValueError` or a `CbgridMemoryError`.

    Attributes
    ----------
    code : int
        The code of cbgrid.h, 1 to 16.
    message : str
        The code in a few words; of shapes or semirings that don't fit, also those of the operands.
    line : int or None
        The line of the first fault of a text that can't be read, counted from 1.
    entry : int or None
        Which triple, entry of a csc or csr matrix, or source of several is the first that isn't allowed, counted from 0.
    """

    def __init__(self, code: int, message: str, line: int | None = None, entry: int | None = None) -> None:
        places = [f"{name} {it}: " for name, it in (("line", line), ("entry", entry)) if it is not None]
        super().__init__("".join(places) + message)
        self.code = code
        self.message = message
        self.line = line
        self.entry = entry

    def __reduce__(self) -> tuple:
        return type(self), (self.code, self.message, self.line, self.entry)


class CbgridValueError(CbgridError, ValueError):
    """An argument is invalid."""


class CbgridMemoryError(CbgridError, MemoryError):
    """Memory could not be allocated."""


def message_of(code: int) -> str:
    """A code in a few words."""
    return library.cbgrid_message(code).decode("ascii")


def error(code: int, message: str | None = None, line: int | None = None, entry: int | None = None) -> CbgridError:
    """The exception of a code, with the library's message or a more specific one."""
    kind = CbgridMemoryError if code == MEMORY else CbgridValueError
    return kind(code, message or message_of(code), line, entry)
