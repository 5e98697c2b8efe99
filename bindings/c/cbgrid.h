/*
 * cbgrid: sparse matrices over semirings. It multiplies, adds, transposes, reduces, prunes and selects, reads and
 * writes Matrix Market texts, and finds levels, distances, parents, components and triangles of graphs.
 *
 * A matrix is kept by the library, over one semiring. You make it once, of compressed columns or rows, of triples or of a
 * text, and free it once. It never changes, and a call that makes a matrix of others makes a new one.
 *
 *     uint32_t starts[] = {0, 1, 3}, rows[] = {0, 0, 1};
 *     uint64_t values[] = {1, 2, 3};
 *     struct cbgrid_columns lists = cbgrid_csc32(2, 2, starts, rows, values, 3);
 *     struct cbgrid_matrix *a = NULL, *square = NULL;
 *     int code = cbgrid_matrix_of_columns(CBGRID_PLUS_TIMES, &lists, NULL, &a);
 *     if (!code) code = cbgrid_matrix_multiply(a, a, NULL, &square);
 *     if (code) fprintf(stderr, "%s\n", cbgrid_message(code));
 *     ..
 *     cbgrid_matrix_free(square);
 *     cbgrid_matrix_free(a);
 *
 * Counting. Rows, columns and vertices count from 0. The lines and the entries of a text count from 1, as in every
 * Matrix Market text. A length is a number of elements; the length of a text is in bytes.
 *
 * Errors. A call returns CBGRID_OK (0) if it has written its result. Otherwise it returns the code of the first
 * fault and leaves `out` as it was. It looks for null pointers first, and then, unless its comment gives another order, for
 * the other faults in the order of their codes. CBGRID_MEMORY means that there is no other fault, except while a text is
 * read: then it may come before a fault of the text is found. The operands don't change. No call prints, exits or aborts,
 * and none keeps anything for the next but sleeping threads. The library needs no initialization and no shutdown.
 *
 * Each call may return CBGRID_NULL_POINTER and, if it makes something, CBGRID_MEMORY; CBGRID_SEMIRING if it takes a semiring;
 * and CBGRID_MIXED if it takes several matrices and they are over different semirings. The comments name the other codes.
 *
 * A call that takes `at` writes to it at CBGRID_ORDER, CBGRID_PLACE, CBGRID_VALUE and CBGRID_SOURCE, and only then, which
 * element of a list the code is about, unless `at` is a null pointer.
 *
 * Memory. A matrix that a call writes to `out` is new and yours; free it with cbgrid_matrix_free. Lists and texts are
 * malloc'ed; free them with cbgrid_free_columns and cbgrid_free_text. A call only writes to `out`: if `out` still holds a
 * result, free that result first. Unless its comment says otherwise, a call copies no operand; one that
 * several threads made may first be copied into one piece. The same matrix may be
 * passed for several operands.
 *
 * Threads. Any number of threads may call any function at once, also on the same matrices, as long as no thread writes to
 * lists or structs that a running call reads. Free a matrix, or keep its transpose, only when no running call uses it. A call
 * runs on the caller's thread alone, unless cbgrid_threads or a struct cbgrid_how asks for more. Don't call a function from a
 * signal handler.
 *
 * What is proved. For every input, each call is proved to stay within the lists that you pass, to terminate, and to
 * give exactly the result that its comment describes. The proofs run whenever libcb_ffi.a is built (docs/PROMISES.md).
 * Not proved are this header and cbgrid.c (null pointers, messages, freeing; that compressed rows are the compressed
 * columns of the transpose; the triples of a matrix; which place stands for a diagonal; which of the proved products a
 * struct cbgrid_how asks for; that threads make each range of columns once, and that all are put side by side, or added up, in
 * order), the C compiler, malloc and POSIX threads.
 *
 * What the library relies on. Pointers are aligned for their type and lead to as many elements as the length says.
 * Nobody changes these elements while a call runs. Matrices haven't been freed.
 *
 * The code needs x86-64-v2 (any x86-64 processor since about 2009), and doesn't check for it.
 */
#ifndef CBGRID_H
#define CBGRID_H

#include <stddef.h>
#include <stdint.h>

#ifdef __cplusplus
extern "C" {
#endif

/* The version of the library, which cbgrid_version returns. */
#define CBGRID_VERSION "0.1.0"

/* The most rows or columns that a matrix can have. */
#define CBGRID_LIMIT 2147483647u
/* In place of the length of a list of rows or of columns: all of them, in order. */
#define CBGRID_ALL SIZE_MAX

/* The most threads that one call uses. */
#define CBGRID_MOST_THREADS 256u

/* Sets how many threads each call may use from now on, the caller's among them: at first 1, at most CBGRID_MOST_THREADS; 0 is
 * 1. Products, powers, Kronecker products, sums and products element-wise, prunes, sums of rows, of columns and of all values,
 * transposes, cbgrid_matrix_select, _apply, _part, _extract, _assign, _exclude, _update and _triples use them, as far as each thread gets
 * enough to do; the others use the caller's. The library starts threads when it first needs them, and they sleep between calls. */
void cbgrid_threads(uint32_t count);

/*
 * How values are added and multiplied. A place without an entry has the semiring's zero.
 *
 *                     values           sum               product                        zero
 *   PLUS_TIMES        0 to 2^64 - 1    modulo 2^64       modulo 2^64                    0
 *   MIN_PLUS          0 to 2^64 - 1    the least         the sum, at most 2^64 - 1      2^64 - 1
 *   OR_AND            0 and 1          or                and                            0
 *   MAX_MIN           0 to 2^64 - 1    the greatest      the least                      0
 *   PLUS_PAIR         0 to 2^64 - 1    modulo 2^64       1                              0
 *   PLUS_MIN          0 to 2^64 - 1    modulo 2^64       the least                      0
 *   PLUS_FIRST        0 to 2^64 - 1    modulo 2^64       the first                      0
 *   PLUS_SECOND       0 to 2^64 - 1    modulo 2^64       the second                     0
 *   MIN_FIRST         0 to 2^64 - 1    the least         the first                      2^64 - 1
 *   MIN_SECOND        0 to 2^64 - 1    the least         the second                     2^64 - 1
 *   MAX_FIRST         0 to 2^64 - 1    the greatest      the first                      0
 *   MAX_SECOND        0 to 2^64 - 1    the greatest      the second                     0
 *   MAX_PLUS          0 to 2^64 - 1    the greatest      the sum, at most 2^64 - 1      0
 *   MIN_MAX           0 to 2^64 - 1    the least         the greatest                   2^64 - 1
 *
 * In every semiring a product with zero is zero. For the last ten, the table gives the product of two values other
 * than zero.
 */
enum cbgrid_semiring {
    CBGRID_PLUS_TIMES = 0,
    CBGRID_MIN_PLUS = 1,
    CBGRID_OR_AND = 2,
    CBGRID_MAX_MIN = 3,
    CBGRID_PLUS_PAIR = 4,
    CBGRID_PLUS_MIN = 5,
    CBGRID_PLUS_FIRST = 6,
    CBGRID_PLUS_SECOND = 7,
    CBGRID_MIN_FIRST = 8,
    CBGRID_MIN_SECOND = 9,
    CBGRID_MAX_FIRST = 10,
    CBGRID_MAX_SECOND = 11,
    CBGRID_MAX_PLUS = 12,
    CBGRID_MIN_MAX = 13
};

/* Which values cbgrid_matrix_prune drops: those strictly below a bound, strictly above it, or equal to it. */
enum cbgrid_test {
    CBGRID_BELOW = 0,
    CBGRID_ABOVE = 1,
    CBGRID_EQUAL = 2
};

/*
 * Which entries cbgrid_matrix_select keeps. Diagonal k consists of the places whose column is k more than their
 * row: 0 is the main diagonal, 1 the one above it, -1 the one below.
 */
enum cbgrid_region {
    CBGRID_LOWER = 0,        /* on diagonal k and below it: the lower triangle */
    CBGRID_UPPER = 1,        /* on diagonal k and above it: the upper triangle */
    CBGRID_DIAGONAL = 2,     /* on diagonal k */
    CBGRID_OFF_DIAGONAL = 3  /* everywhere else */
};

/* What cbgrid_matrix_apply puts in place of a value x at row i and column j. It takes a number n. */
enum cbgrid_function {
    CBGRID_CONSTANT = 0,       /* n */
    CBGRID_SUM = 1,            /* the semiring's sum of x and n */
    CBGRID_LEFT_PRODUCT = 2,   /* its product of n and x, in this order */
    CBGRID_RIGHT_PRODUCT = 3,  /* its product of x and n */
    CBGRID_ROW = 4,            /* i; it ignores n */
    CBGRID_COLUMN = 5          /* j; it ignores n */
};

/* How cbgrid_matrix_update writes: a sum of flags. */
enum cbgrid_update {
    CBGRID_ACCUMULATE = 1,  /* a new value is added to the old one by the semiring's sum; otherwise it takes its place */
    CBGRID_COMPLEMENT = 2,  /* the mask allows the places where it has no entry; otherwise those where it has one */
    CBGRID_REPLACE = 4      /* old entries at places that aren't allowed are dropped; otherwise they stay */
};

/* What a call returns: CBGRID_OK, or the first fault. cbgrid_message describes each in words. */
enum cbgrid_code {
    CBGRID_OK = 0,
    CBGRID_SEMIRING = 1,      /* no such semiring */
    CBGRID_TEST = 2,          /* no such test, region, function, flag or power */
    CBGRID_MIXED = 3,         /* the semirings of matrices differ, or a call needs another semiring */
    CBGRID_FORM = 4,          /* `kind` or `wide` is above 1 */
    CBGRID_TOO_LARGE = 5,     /* more rows or columns than CBGRID_LIMIT */
    CBGRID_LENGTHS = 6,       /* the lists' lengths don't agree, or the starts don't go from 0 to rows_len */
    CBGRID_ORDER = 7,         /* starts descend, or columns, or rows in a column, don't ascend strictly */
    CBGRID_PLACE = 8,         /* an entry, row or column is outside the shape */
    CBGRID_VALUE = 9,         /* not a value of the semiring */
    CBGRID_SHAPES = 10,       /* the shapes of the operands don't agree */
    CBGRID_NOT_SQUARE = 11,   /* the matrix of a graph or of a power isn't square */
    CBGRID_SOURCE = 12,       /* the graph has no such vertex */
    CBGRID_FORMAT = 13,       /* not a Matrix Market text of the profile (docs/FORMAT.md) */
    CBGRID_MEMORY = 14,       /* out of memory */
    CBGRID_NULL_POINTER = 15, /* an argument, or a list that isn't empty, is a null pointer */
    CBGRID_NOT_COLUMN = 16    /* the matrix doesn't have exactly one column */
};

/* What `kind` and `wide` of struct cbgrid_columns may be. */
enum { CBGRID_DCSC = 0, CBGRID_CSC = 1 };
enum { CBGRID_STARTS_32 = 0, CBGRID_STARTS_64 = 1 };

/*
 * A matrix in compressed columns: what matrices are made of, and what they give back.
 *
 * The entries are listed column by column, and by row in each column: the nth entry is in row rows[n] and has the
 * value values[n]. The entries of the kth stored column are those from starts[k] up to starts[k + 1]. In
 * CBGRID_CSC every column is stored, and the kth is column k. In CBGRID_DCSC (doubly compressed columns) the kth
 * stored column is column columns[k], so a matrix with huge sides costs what its entries cost.
 *
 *   nrows, ncols    at most CBGRID_LIMIT each.
 *   kind            CBGRID_DCSC or CBGRID_CSC.
 *   wide            CBGRID_STARTS_32: the starts are starts32; CBGRID_STARTS_64: they are starts64.
 *                   A call ignores the other list.
 *   columns         DCSC only: strictly ascending, below ncols. CSC ignores them.
 *   starts          one more than there are stored columns: ncols + 1 in CSC. They begin with 0, never
 *                   descend, and end with rows_len. In DCSC without stored columns they may be empty.
 *   rows            strictly ascending in each column, below nrows.
 *   values          as many as rows; values of the semiring.
 *
 * A call checks the lists where they are, and writes nothing to them. It ignores an entry whose value is the semiring's
 * zero. A stored column may have no entries. A list of length 0 may have a null pointer.
 *
 * The lists that a matrix gives back are CBGRID_DCSC with CBGRID_STARTS_64, name only columns that have entries, and have no
 * zero.
 */
struct cbgrid_columns {
    uint32_t nrows;
    uint32_t ncols;
    uint32_t kind;
    uint32_t wide;
    const uint32_t *columns;
    size_t columns_len;
    const uint32_t *starts32;
    size_t starts32_len;
    const uint64_t *starts64;
    size_t starts64_len;
    const uint32_t *rows;
    size_t rows_len;
    const uint64_t *values;
    size_t values_len;
};

/* The bytes of a Matrix Market text. No zero byte ends them. */
struct cbgrid_text {
    const unsigned char *bytes;
    size_t len;
};

/*
 * Return a matrix over lists of your own, which must outlive it. These functions allocate, copy and check nothing;
 * the call that gets the matrix checks its lists. `len` is the length of rows and of values. starts has ncols + 1
 * elements in CSC and stored + 1 in DCSC, where `stored` is the number of stored columns (none if stored is 0 and
 * starts is a null pointer).
 */
struct cbgrid_columns cbgrid_csc32(uint32_t nrows, uint32_t ncols, const uint32_t *starts, const uint32_t *rows,
                                   const uint64_t *values, size_t len);
struct cbgrid_columns cbgrid_csc64(uint32_t nrows, uint32_t ncols, const uint64_t *starts, const uint32_t *rows,
                                   const uint64_t *values, size_t len);
struct cbgrid_columns cbgrid_dcsc32(uint32_t nrows, uint32_t ncols, const uint32_t *columns, size_t stored,
                                    const uint32_t *starts, const uint32_t *rows, const uint64_t *values, size_t len);
struct cbgrid_columns cbgrid_dcsc64(uint32_t nrows, uint32_t ncols, const uint32_t *columns, size_t stored,
                                    const uint64_t *starts, const uint32_t *rows, const uint64_t *values, size_t len);

/* Free the lists of a result, or its bytes, and leave it empty, so that a second call does nothing. Never pass lists of
 * your own. A null pointer is allowed. */
void cbgrid_free_columns(struct cbgrid_columns *lists);
void cbgrid_free_text(struct cbgrid_text *text);

/* A matrix over a semiring, kept by the library. */
struct cbgrid_matrix;

/* An entry: its row, its column and its value. */
struct cbgrid_triple {
    uint32_t row;
    uint32_t column;
    uint64_t value;
};

/* Makes a matrix of lists, over a semiring. Copies the lists once; they stay yours. CBGRID_FORM to CBGRID_VALUE. At
 * CBGRID_ORDER, CBGRID_PLACE or CBGRID_VALUE the call writes to `at` what the code is about: the nth entry (n), or the kth
 * stored column (rows_len + k). For CBGRID_ORDER it is the first column that ends before it starts or isn't after the column
 * before it, or, if there is none, the first entry whose row isn't after that of the entry before it; for CBGRID_PLACE the
 * first column that is outside the shape, or else the first entry; for CBGRID_VALUE the first entry. Costs a walk over the
 * entries and the stored columns (in CSC all columns). */
int cbgrid_matrix_of_columns(uint32_t semiring, const struct cbgrid_columns *lists, uint64_t *at, struct cbgrid_matrix **out);

/* The same from compressed rows (CSR, or doubly compressed). `rows` has the lists of the transpose: its nrows is the
 * number of columns of the matrix, its columns are the stored rows, and its rows are the columns of the entries.
 * Also costs a transpose. */
int cbgrid_matrix_of_rows(uint32_t semiring, const struct cbgrid_columns *rows, uint64_t *at, struct cbgrid_matrix **out);

/* Makes a matrix of `len` triples, in any order. Values at one place are added up in the semiring, and a sum that is zero
 * isn't stored. CBGRID_TOO_LARGE; CBGRID_PLACE and CBGRID_VALUE, where the call writes to `at` which triple is the first that
 * is outside the shape or has no value of the semiring. With a length of 0, `triples` may be a null pointer. Costs a sort of
 * the triples, or one walk if they ascend by column and then by row. */
int cbgrid_matrix_of_triples(uint32_t semiring, uint32_t nrows, uint32_t ncols, const struct cbgrid_triple *triples,
                             size_t len, uint64_t *at, struct cbgrid_matrix **out);

/* Copy the lists of a matrix: its compressed columns, or its compressed rows, which are the compressed columns of the
 * transpose. Free them with cbgrid_free_columns. cbgrid_matrix_rows also costs a transpose. */
int cbgrid_matrix_columns(const struct cbgrid_matrix *a, struct cbgrid_columns *out);
int cbgrid_matrix_rows(const struct cbgrid_matrix *a, struct cbgrid_columns *out);

/* Writes the entries of a matrix, by column and then by row, to `out`, which has room for cbgrid_matrix_entries
 * triples. It copies the lists first, so it may return CBGRID_MEMORY. */
int cbgrid_matrix_triples(const struct cbgrid_matrix *a, struct cbgrid_triple *out);

/* Return the shape, the semiring (enum cbgrid_semiring) and the number of stored entries of a matrix, or 0 for a null
 * pointer. */
uint32_t cbgrid_matrix_nrows(const struct cbgrid_matrix *a);
uint32_t cbgrid_matrix_ncols(const struct cbgrid_matrix *a);
uint32_t cbgrid_matrix_semiring(const struct cbgrid_matrix *a);
uint64_t cbgrid_matrix_entries(const struct cbgrid_matrix *a);

/* Writes the value at a place to `out`: the semiring's zero if the place has no entry. CBGRID_PLACE if the place is
 * outside the shape. Costs two binary searches for each thread that made the matrix, and takes no memory. */
int cbgrid_matrix_value(const struct cbgrid_matrix *a, uint32_t row, uint32_t column, uint64_t *out);

/*
 * How two matrices are multiplied. A null pointer, or a struct of which each member is 0, asks for the plain product on the
 * caller's thread. Name the members that you set, as in (struct cbgrid_how){.threads = 4}: the others are then 0.
 */
struct cbgrid_how {
    const struct cbgrid_matrix *mask; /* makes the product only at the places where this matrix has an entry, whatever its
                                         value; a null pointer: everywhere */
    int complement;                   /* not 0: only at the places where the mask has no entry */
    int transpose_a, transpose_b;     /* not 0: multiplies the transpose of a, or of b */
    uint32_t threads;                 /* by up to this many threads instead of those of cbgrid_threads; 0: by those */
};

/*
 * Multiplies a and b: the entry at row i and column j is the sum over k of a(i, k) times b(k, j). A sum that is zero isn't
 * stored. b may be a vector, a matrix of one column. CBGRID_NULL_POINTER also for the complement of a mask that isn't given.
 * CBGRID_SHAPES if the first factor doesn't have as many columns as the second has rows, or the mask doesn't have the
 * product's shape.
 *
 * Costs the products of matching entries. A transposed factor also costs the transpose. Under a mask only what the mask
 * allows is computed: it costs the mask's entries and the products of matching entries in the mask's columns. Outside a mask
 * it costs at most the product and a walk over the mask, and nothing is stored at the mask's places on the way.
 *
 * Each thread makes some columns. All make about the same number of products of matching entries, also of those that a mask
 * spares, and about 65536 or more: a small product takes fewer threads. The caller's thread also does what no new thread can
 * be started for. Besides the products, several threads cost a pass over the entries of b, and an index of the columns of a for
 * each. The columns that each thread made stay where they are: a call that needs such a matrix in one piece copies it.
 *
 * If b has one column, and there is no mask, each thread multiplies some columns of a instead, and their results are added up. Each
 * gets about as many entries of a, 32768 or more, and more than one for each row; it costs a list with a number for each row, and
 * a copy of its columns if a is in several pieces.
 */
int cbgrid_matrix_multiply(const struct cbgrid_matrix *a, const struct cbgrid_matrix *b, const struct cbgrid_how *how,
                           struct cbgrid_matrix **out);

/* Transposes a. Costs a few walks over the entries, or a sort of them if a has more than four rows for each entry. */
int cbgrid_matrix_transpose(const struct cbgrid_matrix *a, struct cbgrid_matrix **out);

/* Adds up each row of a. The result is one column with as many rows as a. A sum that is zero isn't stored. Costs a
 * walk over the entries and the rows, or a transpose of a if it has more than four rows for each entry. Each of several threads
 * adds up some columns, as in a product with one column. */
int cbgrid_matrix_row_sums(const struct cbgrid_matrix *a, struct cbgrid_matrix **out);

/* Adds up each column of a. The result is one row with as many columns as a. A sum that is zero isn't stored. Costs a walk
 * over the entries. */
int cbgrid_matrix_column_sums(const struct cbgrid_matrix *a, struct cbgrid_matrix **out);

/* Writes the semiring's sum of all values of a to `out`: its zero if a has no entries. Costs a walk over the values,
 * and needs no memory. Each of several threads adds up some columns. */
int cbgrid_matrix_reduce_all(const struct cbgrid_matrix *a, uint64_t *out);

/* Adds two matrices element-wise: a place that only one of them stores keeps its value. CBGRID_SHAPES if their shapes
 * differ. Costs a walk over the entries of both. */
int cbgrid_matrix_add(const struct cbgrid_matrix *a, const struct cbgrid_matrix *b, struct cbgrid_matrix **out);

/* Multiplies two matrices element-wise: only places that both store can have an entry. CBGRID_SHAPES if their shapes
 * differ. Costs a walk over the entries of both. */
int cbgrid_matrix_times(const struct cbgrid_matrix *a, const struct cbgrid_matrix *b, struct cbgrid_matrix **out);

/* Drops the entries of a whose value passes the test (enum cbgrid_test) against the bound. CBGRID_TEST if there is no
 * such test. Values are compared as whole numbers from 0 to 2^64 - 1. Costs a walk over the entries. */
int cbgrid_matrix_prune(const struct cbgrid_matrix *a, uint32_t test, uint64_t bound, struct cbgrid_matrix **out);

/*
 * Selects the entries of a in a region (enum cbgrid_region) of diagonal k = `diagonal`. CBGRID_TEST if there is no such
 * region. A diagonal outside a is allowed, and has no entries. Costs a walk over the entries.
 */
int cbgrid_matrix_select(const struct cbgrid_matrix *a, uint32_t region, int64_t diagonal, struct cbgrid_matrix **out);

/*
 * Replaces the value of each entry by a function (enum cbgrid_function), which takes `number`. CBGRID_TEST if there is
 * no such function. CBGRID_VALUE if what it takes isn't a value of the semiring: the number, or for CBGRID_ROW and
 * CBGRID_COLUMN the number of the last row or column of a, if there is one. A value that becomes zero isn't stored. Costs a
 * walk over the entries.
 */
int cbgrid_matrix_apply(const struct cbgrid_matrix *a, uint32_t function, uint64_t number, struct cbgrid_matrix **out);

/* Takes the main diagonal of a, as one column with as many rows as a has rows or columns, whichever are fewer. Costs a
 * binary search for each column that has entries. */
int cbgrid_matrix_diagonal(const struct cbgrid_matrix *a, struct cbgrid_matrix **out);

/* Makes the square matrix with the column a on its main diagonal. CBGRID_NOT_COLUMN if a doesn't have exactly one column.
 * Costs a walk over the entries. */
int cbgrid_matrix_diagonal_matrix(const struct cbgrid_matrix *a, struct cbgrid_matrix **out);

/* Cuts out the rows of a from `row` up to, but not including, `row_end`, and the columns from `column` up to
 * `column_end`. Row `row` and column `column` become row 0 and column 0. CBGRID_PLACE if a range descends or ends
 * beyond a. Costs the entries of the part, and two binary searches for each of its columns that has entries in a. */
int cbgrid_matrix_part(const struct cbgrid_matrix *a, uint32_t row, uint32_t row_end, uint32_t column,
                       uint32_t column_end, struct cbgrid_matrix **out);

/* Makes the matrix whose row i and column j are row rows[i] and column columns[j] of a, in any order, with repetitions. With
 * CBGRID_ALL for row_count or column_count it has all rows or all columns, whatever that list is. CBGRID_TOO_LARGE if a list has
 * more than CBGRID_LIMIT elements, then CBGRID_PLACE if a doesn't have such a row or column: then the call writes to `at` where
 * the first one is, n for rows[n], or row_count + n for columns[n] (n if it has all rows). A list of length 0, or of all, may be a
 * null pointer. Costs a binary search for each column, the elements of `rows`, and the entries of these columns. If the rows
 * don't ascend, it also costs a sort of the entries of each column; if a row is repeated, or if a has more than four rows for
 * each of them and for each of these entries, a binary search for each row, and two transposes. Each of several threads makes as
 * many columns, and reads both lists. */
int cbgrid_matrix_extract(const struct cbgrid_matrix *a, const uint32_t *rows, size_t row_count,
                          const uint32_t *columns, size_t column_count, uint64_t *at, struct cbgrid_matrix **out);

/* Makes the Kronecker product: each value of a is replaced by its products with all of b. CBGRID_TOO_LARGE if the result has
 * more than CBGRID_LIMIT rows or columns. Costs the entries of a times those of b. Each of several threads makes the columns of as
 * many columns of a. */
int cbgrid_matrix_kron(const struct cbgrid_matrix *a, const struct cbgrid_matrix *b, struct cbgrid_matrix **out);

/* Makes a copy of a in which `part` replaces the part of its shape that begins at (row, column). All entries of a in
 * that part are dropped, whether or not `part` has an entry in their places. CBGRID_PLACE if the part ends beyond a. Costs a
 * walk over the entries of both. */
int cbgrid_matrix_assign(const struct cbgrid_matrix *a, uint32_t row, uint32_t column,
                         const struct cbgrid_matrix *part, struct cbgrid_matrix **out);

/* Selects the entries of a at the places where the mask has none: a complemented mask. The values of the mask don't
 * matter. CBGRID_SHAPES if their shapes differ. Costs a walk over the entries of both. */
int cbgrid_matrix_exclude(const struct cbgrid_matrix *a, const struct cbgrid_matrix *mask, struct cbgrid_matrix **out);

/*
 * Writes the result of any call back to a matrix, as GraphBLAS does at the end of each operation.
 * The new matrix is made of a and of b, which has the shape of a:
 *
 *   at a place that is allowed      the value of b or, with CBGRID_ACCUMULATE, the sum of that of a and that of b
 *   at any other place              the value of a or, with CBGRID_REPLACE, none
 *
 * A place is allowed if the mask has an entry there, whatever its value; with CBGRID_COMPLEMENT, if it has none. If the
 * mask is a null pointer, all places are allowed; with CBGRID_COMPLEMENT, none. At an allowed place where b has no
 * entry, the entry of a is dropped, unless the call accumulates.
 *
 * `flags` is a sum of enum cbgrid_update, or 0. CBGRID_TEST if it is above 7, then CBGRID_MIXED, then CBGRID_SHAPES if the
 * shapes of the three differ. Costs a few walks over the entries of the three.
 */
int cbgrid_matrix_update(const struct cbgrid_matrix *a, const struct cbgrid_matrix *b, const struct cbgrid_matrix *mask,
                         uint32_t flags, struct cbgrid_matrix **out);

/* Makes the power of a with this many factors, multiplied from the left: ((a a) a) a and so on. (In some semirings the
 * product isn't associative.) CBGRID_TEST if there are no factors, then CBGRID_NOT_SQUARE. Costs one product less than
 * there are factors. Several threads share each product. */
int cbgrid_matrix_power(const struct cbgrid_matrix *a, uint32_t factors, struct cbgrid_matrix **out);

/* Count the entries of each row, and of each column, whatever the values are. The result is one column over PLUS_TIMES,
 * with as many rows as a has rows, or columns; a count of 0 isn't stored. In a graph these are the edges that leave a
 * vertex, and those that lead to it. cbgrid_matrix_row_degrees costs a walk over the entries and the rows, or a transpose
 * if there are more than four rows for each entry; cbgrid_matrix_column_degrees a walk over the columns that have
 * entries. */
int cbgrid_matrix_row_degrees(const struct cbgrid_matrix *a, struct cbgrid_matrix **out);
int cbgrid_matrix_column_degrees(const struct cbgrid_matrix *a, struct cbgrid_matrix **out);

/* Keeps the transpose of a beside it. Searches from sources (levels, distances, parents) then don't make their own, so only the
 * first in a graph pays for it. Takes as much memory as a, until a is freed; if that is refused, a is as it was. No other call may
 * use a at the same time. */
int cbgrid_matrix_keep_transpose(struct cbgrid_matrix *a);

/*
 * Breadth-first search: finds the least number of edges from the source to each vertex of a graph over OR_AND. An entry at row
 * i and column j is an edge from i to j. CBGRID_MIXED if a is over another semiring, then CBGRID_NOT_SQUARE, then
 * CBGRID_SOURCE if the source isn't a vertex. The result is one column over MIN_PLUS with an entry for each vertex that the
 * source reaches. The source has level 0, which is stored: the zero of MIN_PLUS is 2^64 - 1. Costs a few looks for each entry
 * if most vertices are a few edges away, and otherwise what cbgrid_matrix_distances costs.
 */
int cbgrid_matrix_levels(const struct cbgrid_matrix *a, uint32_t source, struct cbgrid_matrix **out);

/*
 * Shortest paths: finds the least sum of edge lengths from the source to each vertex of a graph over MIN_PLUS. The value of an
 * entry is the length of its edge. The codes are those of cbgrid_matrix_levels. A vertex at a distance of 2^64 - 1 or more has
 * no entry. Costs a transpose of a, unless that is kept, then at most 16 rounds over the edges of the vertices whose distance fell, and for the
 * rest Dijkstra's algorithm with a heap.
 */
int cbgrid_matrix_distances(const struct cbgrid_matrix *a, uint32_t source, struct cbgrid_matrix **out);

/* The same from each of `count` sources, in any order, with repetitions: column j of the result is that of sources[j].
 * CBGRID_MIXED, then CBGRID_NOT_SQUARE, then CBGRID_TOO_LARGE if there are more than CBGRID_LIMIT sources, then
 * CBGRID_SOURCE if one of them isn't a vertex: then the call writes to `at` which of them is the first. With a count of 0,
 * `sources` may be a null pointer. Transposes the graph once for all sources, unless its transpose is kept, and then searches from
 * each. */
int cbgrid_matrix_levels_from(const struct cbgrid_matrix *a, const uint32_t *sources, size_t count, uint64_t *at,
                              struct cbgrid_matrix **out);
int cbgrid_matrix_distances_from(const struct cbgrid_matrix *a, const uint32_t *sources, size_t count, uint64_t *at,
                                 struct cbgrid_matrix **out);

/* The same from initial values: `given` is a column over MIN_PLUS, and its entry in row u is the initial value of vertex
 * u. The result has for each vertex the least sum of an initial value and the level or distance from its vertex, over
 * all vertices that have an initial value; sums stop at 2^64 - 1, which isn't stored. CBGRID_MIXED, then
 * CBGRID_NOT_SQUARE, as above; then CBGRID_MIXED if `given` isn't over MIN_PLUS, then CBGRID_SHAPES if it isn't a column
 * with a place for each vertex. Transposes the graph, and then searches once. */
int cbgrid_matrix_levels_given(const struct cbgrid_matrix *a, const struct cbgrid_matrix *given,
                               struct cbgrid_matrix **out);
int cbgrid_matrix_distances_given(const struct cbgrid_matrix *a, const struct cbgrid_matrix *given,
                                  struct cbgrid_matrix **out);

/*
 * Calls on a graph over OR_AND. CBGRID_MIXED if it is over another semiring, then CBGRID_NOT_SQUARE, then, for
 * parents, CBGRID_SOURCE.
 *
 *   parents     for each vertex that the source reaches, other than the source: the least vertex one level nearer
 *               that has an edge to it. One column over MIN_PLUS; its values are vertices. Costs a search, and a
 *               look-up for some entries of each column.
 *   components  for each vertex that has an entry in its row or its column: the least vertex of its component, where
 *               an entry joins two vertices in both directions. One column over MIN_PLUS; its values are vertices.
 *               Costs a walk over the entries, and a transpose and a sum unless each entry is there in both directions.
 *   triangles   writes the number of sets of three vertices that are joined to one another, by entries in either
 *               direction, to `out`; at most 2^64 - 1. Costs in the order of m^1.5 steps for m entries.
 */
int cbgrid_matrix_parents(const struct cbgrid_matrix *a, uint32_t source, struct cbgrid_matrix **out);
int cbgrid_matrix_components(const struct cbgrid_matrix *a, struct cbgrid_matrix **out);
int cbgrid_matrix_triangles(const struct cbgrid_matrix *a, uint64_t *out);

/* Reads the matrix of a Matrix Market text of `len` bytes, in the profile of docs/FORMAT.md. CBGRID_FORMAT if the text
 * has a fault: then, and only then, the call writes the line of the first fault, counted from 1, to `line`, unless
 * `line` is a null pointer. Costs one walk over the text. If the entries don't ascend by column and then by row, it also costs
 * a sort, and memory for a list of them, 16 bytes for each, until it returns. */
int cbgrid_matrix_read(uint32_t semiring, const void *text, size_t len, uint64_t *line, struct cbgrid_matrix **out);

/* Writes the Matrix Market text of a, by column and then by row: `pattern` in OR_AND, `integer` in the others.
 * cbgrid_matrix_read reads the same matrix back if it has at most 2147483647 entries. Free the text with
 * cbgrid_free_text. */
int cbgrid_matrix_text(const struct cbgrid_matrix *a, struct cbgrid_text *out);

/* Frees a matrix. Call it once for each. A null pointer is allowed. */
void cbgrid_matrix_free(struct cbgrid_matrix *a);

/* Returns the version of the library, such as "0.1.0": a static string, which you don't free. */
const char *cbgrid_version(void);

/* Returns a description of a code in a few words of English, or "no such code" for any other number: a static string,
 * which you don't free. */
const char *cbgrid_message(int code);

#ifdef __cplusplus
}
#endif
#endif
