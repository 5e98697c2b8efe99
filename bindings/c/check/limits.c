/* Shapes whose sides are the limit or 0, results without entries, and matrices that stand for several. */
#include "check.h"

static const struct cbgrid_triple last = {CBGRID_LIMIT - 1, CBGRID_LIMIT - 1, 3};

/* Whether a matrix has just this entry. It is freed. */
static int is_one(struct cbgrid_matrix *made, uint32_t nrows, uint32_t ncols, struct cbgrid_triple entry) {
    struct cbgrid_triple got = {0, 0, 0};
    int holds = cbgrid_matrix_nrows(made) == nrows && cbgrid_matrix_ncols(made) == ncols
                && cbgrid_matrix_entries(made) == 1 && cbgrid_matrix_triples(made, &got) == CBGRID_OK
                && got.row == entry.row && got.column == entry.column && got.value == entry.value;
    cbgrid_matrix_free(made);
    return holds;
}

/* Shapes whose sides are the limit cost what the entries cost. */
static void test_huge_sides(void) {
    static const uint32_t at[] = {CBGRID_LIMIT - 1}, one[] = {0, 1};
    static const uint64_t three[] = {3};
    struct cbgrid_columns lists = cbgrid_dcsc32(CBGRID_LIMIT, CBGRID_LIMIT, at, 1, one, at, three, 1);
    struct cbgrid_triple nine = {last.row, last.column, 9};
    struct cbgrid_matrix *a, *lengths, *made;
    EXPECT(cbgrid_matrix_of_columns(0, &lists, NULL, &a) == CBGRID_OK);
    EXPECT(cbgrid_matrix_of_columns(CBGRID_MIN_PLUS, &lists, NULL, &lengths) == CBGRID_OK);
    EXPECT(cbgrid_matrix_multiply(a, a, NULL, &made) == CBGRID_OK && is_one(made, CBGRID_LIMIT, CBGRID_LIMIT, nine));
    EXPECT(cbgrid_matrix_transpose(a, &made) == CBGRID_OK && is_one(made, CBGRID_LIMIT, CBGRID_LIMIT, last));
    EXPECT(cbgrid_matrix_row_sums(a, &made) == CBGRID_OK);
    EXPECT(is_one(made, CBGRID_LIMIT, 1, (struct cbgrid_triple){last.row, 0, 3}));
    EXPECT(cbgrid_matrix_column_sums(a, &made) == CBGRID_OK);
    EXPECT(is_one(made, 1, CBGRID_LIMIT, (struct cbgrid_triple){0, last.column, 3}));
    EXPECT(cbgrid_matrix_distances(lengths, CBGRID_LIMIT - 1, &made) == CBGRID_OK);
    EXPECT(is_one(made, CBGRID_LIMIT, 1, (struct cbgrid_triple){last.row, 0, 0}));
    cbgrid_matrix_free(a);
    cbgrid_matrix_free(lengths);
    EXPECT(live == 0);
}

/* A matrix may be all operands of a call, and its own mask. */
static void test_same_matrix(void) {
    static const struct cbgrid_triple triples[] = {{0, 0, 1}, {0, 1, 1}, {1, 0, 1}};
    struct cbgrid_matrix *a, *square, *fourth;
    EXPECT(cbgrid_matrix_of_triples(0, 2, 2, triples, 3, NULL, &a) == CBGRID_OK);
    EXPECT(cbgrid_matrix_multiply(a, a, NULL, &square) == CBGRID_OK);
    EXPECT(cbgrid_matrix_multiply(square, square, NULL, &fourth) == CBGRID_OK);
    /* [1 1; 1 0] to the fourth is [5 3; 3 2]. */
    struct dense want = {2, 2, {{5, 3}, {3, 2}}}, under = {2, 2, {{2, 1}, {1, 0}}};
    EXPECT(look(0, fourth, &want) == CBGRID_OK);
    cbgrid_matrix_free(square);
    EXPECT(cbgrid_matrix_multiply(a, a, &(struct cbgrid_how){.mask = a}, &square) == CBGRID_OK);
    EXPECT(look(0, square, &under) == CBGRID_OK);
    cbgrid_matrix_free(a);
    cbgrid_matrix_free(square);
    cbgrid_matrix_free(fourth);
    EXPECT(live == 0);
}

/* Products that are 0 modulo 2^64 leave a result without entries, whose lists are nothing to free. */
static void test_products_that_vanish(void) {
    static const struct cbgrid_triple half = {0, 0, (uint64_t)1 << 63}, two = {0, 0, 2};
    struct cbgrid_matrix *a, *b, *made;
    struct cbgrid_columns out;
    EXPECT(cbgrid_matrix_of_triples(0, 1, 1, &half, 1, NULL, &a) == CBGRID_OK);
    EXPECT(cbgrid_matrix_of_triples(0, 1, 1, &two, 1, NULL, &b) == CBGRID_OK);
    EXPECT(cbgrid_matrix_multiply(a, b, NULL, &made) == CBGRID_OK);
    long before = live;
    EXPECT(cbgrid_matrix_columns(made, &out) == CBGRID_OK && live == before);
    EXPECT(out.columns_len == 0 && out.starts64_len == 0 && out.rows_len == 0 && out.values_len == 0);
    cbgrid_free_columns(&out);
    cbgrid_matrix_free(a);
    cbgrid_matrix_free(b);
    cbgrid_matrix_free(made);
    EXPECT(live == 0);
}

/* No sides and no entries. */
static void test_empty_shapes(void) {
    struct cbgrid_matrix *none, *empty, *made;
    EXPECT(cbgrid_matrix_of_triples(0, 0, 0, NULL, 0, NULL, &none) == CBGRID_OK);
    EXPECT(cbgrid_matrix_multiply(none, none, NULL, &made) == CBGRID_OK && cbgrid_matrix_entries(made) == 0);
    cbgrid_matrix_free(made);
    EXPECT(cbgrid_matrix_of_triples(0, 5, 6, NULL, 0, NULL, &empty) == CBGRID_OK);
    EXPECT(cbgrid_matrix_transpose(empty, &made) == CBGRID_OK && cbgrid_matrix_nrows(made) == 6);
    cbgrid_matrix_free(made);
    EXPECT(cbgrid_matrix_triples(empty, NULL) == CBGRID_OK);
    cbgrid_matrix_free(none);
    cbgrid_matrix_free(empty);
    EXPECT(live == 0);
}

void test_limits(void) {
    test_same_matrix();
    test_products_that_vanish();
    test_huge_sides();
    test_empty_shapes();
}
