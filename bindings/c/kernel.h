/*
 * The layouts of what the proved library crates/cb_ffi takes, and its exports. Its references are pointers that are never
 * null.
 */
#ifndef CBGRID_KERNEL_H
#define CBGRID_KERNEL_H

#include "cbgrid.h"

/* The layouts of crates/cb_ffi, where a slice is a pointer and a length. */
struct slice32 {
    const uint32_t *at;
    size_t len;
};
struct slice64 {
    const uint64_t *at;
    size_t len;
};
struct kernel_columns {
    uint32_t nrows, ncols, kind, wide;
    struct slice32 columns, starts32;
    struct slice64 starts64;
    struct slice32 rows;
    struct slice64 values;
};
struct kernel_text {
    struct {
        const unsigned char *at;
        size_t len;
    } bytes;
};

#define SAME(field, inner) \
    _Static_assert(offsetof(struct cbgrid_columns, field) == offsetof(struct kernel_columns, inner), #field)
#define STANDS(field, offset, type) \
    _Static_assert(offsetof(struct cbgrid_columns, field) == (offset), #field); \
    _Static_assert(sizeof(((struct cbgrid_columns *)0)->field) == sizeof(type), #field)

_Static_assert(sizeof(void *) == 8 && sizeof(size_t) == 8, "x86-64");
_Static_assert(sizeof(struct slice32) == 16 && sizeof(struct slice64) == 16, "slices");
_Static_assert(sizeof(struct cbgrid_columns) == 96 && sizeof(struct kernel_columns) == 96, "columns");
_Static_assert(_Alignof(struct cbgrid_columns) == 8 && _Alignof(struct kernel_columns) == 8, "columns");
STANDS(nrows, 0, uint32_t);
STANDS(ncols, 4, uint32_t);
STANDS(kind, 8, uint32_t);
STANDS(wide, 12, uint32_t);
STANDS(columns, 16, void *);
STANDS(columns_len, 24, size_t);
STANDS(starts32, 32, void *);
STANDS(starts32_len, 40, size_t);
STANDS(starts64, 48, void *);
STANDS(starts64_len, 56, size_t);
STANDS(rows, 64, void *);
STANDS(rows_len, 72, size_t);
STANDS(values, 80, void *);
STANDS(values_len, 88, size_t);
SAME(nrows, nrows);
SAME(ncols, ncols);
SAME(kind, kind);
SAME(wide, wide);
SAME(columns, columns.at);
SAME(columns_len, columns.len);
SAME(starts32, starts32.at);
SAME(starts32_len, starts32.len);
SAME(starts64, starts64.at);
SAME(starts64_len, starts64.len);
SAME(rows, rows.at);
SAME(rows_len, rows.len);
SAME(values, values.at);
SAME(values_len, values.len);
_Static_assert(sizeof(struct cbgrid_text) == 16 && sizeof(struct kernel_text) == 16, "text");
_Static_assert(offsetof(struct cbgrid_text, bytes) == offsetof(struct kernel_text, bytes.at), "bytes");
_Static_assert(offsetof(struct cbgrid_text, len) == offsetof(struct kernel_text, bytes.len), "len");

/* A kept matrix is passed by its address, whether the call borrows it or owns it. */
struct owned {
    struct cbgrid_matrix *at;
};
struct borrowed {
    const struct cbgrid_matrix *at;
};
struct summary {
    uint32_t nrows, ncols, semiring;
    uint64_t entries;
};
/* A computation by its number, and what it takes. */
struct choice {
    uint32_t number, row, row_end, column, column_end, factors;
    uint64_t value;
};
_Static_assert(sizeof(struct choice) == 32 && offsetof(struct choice, value) == 24, "choice");
_Static_assert(sizeof(struct owned) == 8 && sizeof(struct borrowed) == 8, "kept matrices");
_Static_assert(sizeof(struct summary) == 24 && offsetof(struct summary, entries) == 16, "summary");
_Static_assert(sizeof(struct cbgrid_triple) == 16 && offsetof(struct cbgrid_triple, value) == 8, "triple");

typedef struct borrowed kept;
typedef const struct cbgrid_columns *lent;

/* The calls, as ../declare finds them in crates/cb_ffi. */
#include "exports.h"

#endif
