/* Random matrices, passed in each form and kept in each way; and looks at results. */
#include "check.h"

uint64_t random_state = 88172645463325252u;

uint32_t draw(uint32_t below) {
    random_state ^= random_state << 13;
    random_state ^= random_state >> 7;
    random_state ^= random_state << 17;
    return (uint32_t)((random_state >> 20) % below);
}

/* A number of rows, of columns or of what a list has: with LARGE the most there may be. */
uint32_t draw_to(uint32_t least, uint32_t most) {
#ifdef LARGE
    (void)least;
    return most;
#else
    return least + draw(most + 1 - least);
#endif
}

uint64_t value_of(uint32_t semiring) {
    if (semiring == CBGRID_OR_AND) return draw(2);
    return draw(4) ? draw(9) : UINT64_MAX - draw(3) * (UINT64_MAX / 2);
}

struct dense random_dense(uint32_t semiring, uint32_t nrows, uint32_t ncols) {
    struct dense made = blank(semiring, nrows, ncols);
    uint32_t one_of = 1 + draw(SIDE < 100 ? 4 : 2);
    for (uint32_t i = 0; i < nrows; i++) {
        for (uint32_t j = 0; j < ncols; j++) {
            if (!draw(one_of)) made.at[i][j] = value_of(semiring);
        }
    }
    return made;
}

/* Lists some places without an entry with the semiring's zero, and some columns without entries. */
struct cbgrid_columns lend(uint32_t semiring, const struct dense *a, struct lists *to) {
    uint32_t form = draw(4), stored = 0, len = 0;
    int is_csc = form < 2;
    for (uint32_t j = 0; j < a->ncols; j++) {
        uint32_t before = len;
        for (uint32_t i = 0; i < a->nrows; i++) {
            if (a->at[i][j] == zero_of(semiring) && draw(8)) continue;
            to->rows[len] = i, to->values[len++] = a->at[i][j];
        }
        if (!is_csc && len == before && draw(4)) continue;
        to->columns[stored] = j;
        to->starts32[stored] = before, to->starts64[stored++] = before;
    }
    to->starts32[stored] = len, to->starts64[stored] = len;
    if (form == 0) return cbgrid_csc32(a->nrows, a->ncols, to->starts32, to->rows, to->values, len);
    if (form == 1) return cbgrid_csc64(a->nrows, a->ncols, to->starts64, to->rows, to->values, len);
    if (form == 2) {
        return cbgrid_dcsc32(a->nrows, a->ncols, to->columns, stored, to->starts32, to->rows, to->values, len);
    }
    return cbgrid_dcsc64(a->nrows, a->ncols, to->columns, stored, to->starts64, to->rows, to->values, len);
}

/* Whether a result has the form that cbgrid.h promises. */
int is_answer(uint32_t semiring, const struct cbgrid_columns *made) {
    size_t stored = made->columns_len;
    if (made->kind != CBGRID_DCSC || made->wide != CBGRID_STARTS_64) return 0;
    if (made->rows_len != made->values_len) return 0;
    if (!stored && !made->rows_len) return made->starts64_len == 0 || made->starts64[0] == 0;
    if (made->starts64_len != stored + 1 || made->starts64[0] != 0) return 0;
    if (made->starts64[stored] != made->rows_len) return 0;
    for (size_t k = 0; k < stored; k++) {
        if (made->starts64[k] >= made->starts64[k + 1] || made->columns[k] >= made->ncols) return 0;
        if (k && made->columns[k - 1] >= made->columns[k]) return 0;
        for (uint64_t n = made->starts64[k]; n < made->starts64[k + 1]; n++) {
            if (made->values[n] == zero_of(semiring) || made->rows[n] >= made->nrows) return 0;
            if (n > made->starts64[k] && made->rows[n - 1] >= made->rows[n]) return 0;
        }
    }
    return 1;
}

/* Whether a result equals a dense matrix. */
int is_dense(uint32_t semiring, const struct cbgrid_columns *made, const struct dense *want) {
    if (made->nrows != want->nrows || made->ncols != want->ncols || !is_answer(semiring, made)) return 0;
    struct dense got = blank(semiring, want->nrows, want->ncols);
    for (size_t k = 0; k < made->columns_len; k++) {
        for (uint64_t n = made->starts64[k]; n < made->starts64[k + 1]; n++) {
            got.at[made->rows[n]][made->columns[k]] = made->values[n];
        }
    }
    return !memcmp(&got, want, sizeof got);
}

/* Keeps a dense matrix: from columns, from rows, or from triples in another order. */
static int keep_alone(uint32_t semiring, const struct dense *a, int way, struct cbgrid_matrix **out) {
    struct lists lists;
    if (way == 0) {
        struct cbgrid_columns columns = lend(semiring, a, &lists);
        return cbgrid_matrix_of_columns(semiring, &columns, NULL, out);
    }
    if (way == 1) {
        struct dense rows_of = turned(a);
        struct cbgrid_columns rows = lend(semiring, &rows_of, &lists);
        return cbgrid_matrix_of_rows(semiring, &rows, NULL, out);
    }
    struct cbgrid_triple triples[2 * SIDE * SIDE];
    size_t len = 0;
    for (uint32_t i = a->nrows; i-- > 0;) {
        for (uint32_t j = 0; j < a->ncols; j++) {
            uint64_t x = a->at[i][j], zero = zero_of(semiring);
            /* A value in two parts: the sum of plus-times, the least and the greatest of the others. */
            if (semiring == CBGRID_PLUS_TIMES && x > 2) triples[len++] = (struct cbgrid_triple){i, j, x - 2}, x = 2;
            else if (way == 3) triples[len++] = (struct cbgrid_triple){i, j, zero};
            triples[len++] = (struct cbgrid_triple){i, j, x};
        }
    }
    return cbgrid_matrix_of_triples(semiring, a->nrows, a->ncols, triples, len, NULL, out);
}

/* The same, every other time with the transpose. */
int keep(uint32_t semiring, const struct dense *a, int way, struct cbgrid_matrix **out) {
    struct cbgrid_matrix *made;
    int is_alone = (int)draw(2), code = keep_alone(semiring, a, way, &made);
    if (code) return code;
    if (!is_alone) code = cbgrid_matrix_keep_transpose(made);
    if (code) cbgrid_matrix_free(made);
    else *out = made;
    return code;
}

/* Checks a kept matrix by each call that reads it. Returns the code. */
int look(uint32_t semiring, const struct cbgrid_matrix *made, const struct dense *want) {
    struct cbgrid_columns lists;
    int code = cbgrid_matrix_columns(made, &lists);
    if (code) return code;
    EXPECT(is_dense(semiring, &lists, want));
    EXPECT(cbgrid_matrix_nrows(made) == want->nrows && cbgrid_matrix_ncols(made) == want->ncols);
    EXPECT(cbgrid_matrix_entries(made) == lists.rows_len && cbgrid_matrix_semiring(made) == semiring);
    cbgrid_free_columns(&lists);
    uint64_t value = 0;
    for (uint32_t i = 0; i < want->nrows; i++) {
        for (uint32_t j = 0; j < want->ncols; j++) {
            EXPECT(cbgrid_matrix_value(made, i, j, &value) == CBGRID_OK && value == want->at[i][j]);
        }
    }
    EXPECT(cbgrid_matrix_value(made, want->nrows, 0, &value) == CBGRID_PLACE);
    EXPECT(cbgrid_matrix_value(made, 0, want->ncols, &value) == CBGRID_PLACE);
    struct dense rows_of = turned(want);
    code = cbgrid_matrix_rows(made, &lists);
    if (code) return code;
    EXPECT(is_dense(semiring, &lists, &rows_of));
    cbgrid_free_columns(&lists);
    struct cbgrid_triple triples[SIDE * SIDE];
    code = cbgrid_matrix_triples(made, triples);
    if (code) return code;
    struct dense got = blank(semiring, want->nrows, want->ncols);
    for (size_t n = 0; n < cbgrid_matrix_entries(made); n++) got.at[triples[n].row][triples[n].column] = triples[n].value;
    EXPECT(!memcmp(&got, want, sizeof got));
    return CBGRID_OK;
}

/* A kept matrix in which one of so many places has a random value (0: none has). */
struct cbgrid_matrix *random_kept(uint32_t semiring, uint32_t nrows, uint32_t ncols, uint32_t one_of) {
    struct cbgrid_triple *triples = __real_malloc((size_t)(nrows * ncols + 1) * sizeof *triples);
    struct cbgrid_matrix *made;
    size_t len = 0;
    for (uint32_t j = 0; j < ncols; j++) {
        for (uint32_t i = 0; i < nrows; i++) {
            if (one_of && !draw(one_of)) triples[len++] = (struct cbgrid_triple){i, j, value_of(semiring)};
        }
    }
    EXPECT(cbgrid_matrix_of_triples(semiring, nrows, ncols, triples, len, NULL, &made) == CBGRID_OK);
    __real_free(triples);
    return made;
}

/* Whether two lists are the same bytes. An empty list may be anywhere. */
static int is_same_list(const void *x, size_t x_len, const void *y, size_t y_len, size_t size) {
    return x_len == y_len && (!x_len || !memcmp(x, y, x_len * size));
}

int is_same(const struct cbgrid_matrix *a, const struct cbgrid_matrix *b) {
    struct cbgrid_columns x, y;
    if (cbgrid_matrix_columns(a, &x) || cbgrid_matrix_columns(b, &y)) return 0;
    int same = x.nrows == y.nrows && x.ncols == y.ncols && cbgrid_matrix_semiring(a) == cbgrid_matrix_semiring(b)
               && is_same_list(x.columns, x.columns_len, y.columns, y.columns_len, sizeof *x.columns)
               && is_same_list(x.starts64, x.starts64_len, y.starts64, y.starts64_len, sizeof *x.starts64)
               && is_same_list(x.rows, x.rows_len, y.rows, y.rows_len, sizeof *x.rows)
               && is_same_list(x.values, x.values_len, y.values, y.values_len, sizeof *x.values);
    cbgrid_free_columns(&x);
    cbgrid_free_columns(&y);
    return same;
}
