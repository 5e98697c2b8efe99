/* The codes of calls on matrices, null pointers, and the messages of codes. */
#include "check.h"

/* A kept matrix of 2 x 3, and one over or-and. */
static void test_codes_of_kept(void) {
    static const struct cbgrid_triple triples[] = {{0, 0, 1}, {1, 0, 1}, {0, 2, 1}}, two = {0, 0, 2};
    static const struct cbgrid_triple far_row = {2, 0, 1}, far_column = {0, 3, 1};
    struct cbgrid_matrix *a, *b, *unset = NULL, *const was = (struct cbgrid_matrix *)&unset, *out = was;
    struct cbgrid_columns lists = cbgrid_dcsc32(2, 3, NULL, 0, NULL, NULL, NULL, 0);
    uint64_t value = 77, line = 77;
    EXPECT(cbgrid_matrix_of_triples(CBGRID_PLUS_TIMES, 2, 3, triples, 3, NULL, &a) == CBGRID_OK);
    EXPECT(cbgrid_matrix_of_triples(CBGRID_OR_AND, 2, 3, triples, 3, NULL, &b) == CBGRID_OK);
    EXPECT(cbgrid_matrix_of_triples(SEMIRINGS, 2, 3, triples, 3, NULL, &out) == CBGRID_SEMIRING);
    EXPECT(cbgrid_matrix_of_triples(0, CBGRID_LIMIT + 1, 3, triples, 3, NULL, &out) == CBGRID_TOO_LARGE);
    EXPECT(cbgrid_matrix_of_triples(0, 2, UINT32_MAX, triples, 3, NULL, &out) == CBGRID_TOO_LARGE);
    EXPECT(cbgrid_matrix_of_triples(0, 2, 3, &far_row, 1, NULL, &out) == CBGRID_PLACE);
    EXPECT(cbgrid_matrix_of_triples(0, 2, 3, &far_column, 1, NULL, &out) == CBGRID_PLACE);
    EXPECT(cbgrid_matrix_of_triples(CBGRID_OR_AND, 2, 3, &two, 1, NULL, &out) == CBGRID_VALUE);
    EXPECT(cbgrid_matrix_of_triples(0, 2, 3, NULL, 1, NULL, &out) == CBGRID_NULL_POINTER);
    EXPECT(cbgrid_matrix_of_columns(SEMIRINGS, &lists, NULL, &out) == CBGRID_SEMIRING);
    EXPECT(cbgrid_matrix_of_rows(SEMIRINGS, &lists, NULL, &out) == CBGRID_SEMIRING);
    EXPECT(cbgrid_matrix_add(a, b, &out) == CBGRID_MIXED);
    EXPECT(cbgrid_matrix_times(b, a, &out) == CBGRID_MIXED);
    EXPECT(cbgrid_matrix_levels(a, 9, &out) == CBGRID_MIXED);
    EXPECT(cbgrid_matrix_distances(b, 9, &out) == CBGRID_MIXED);
    EXPECT(cbgrid_matrix_levels(b, 9, &out) == CBGRID_NOT_SQUARE);
    EXPECT(cbgrid_matrix_parents(a, 9, &out) == CBGRID_MIXED);
    EXPECT(cbgrid_matrix_parents(b, 9, &out) == CBGRID_NOT_SQUARE);
    EXPECT(cbgrid_matrix_components(a, &out) == CBGRID_MIXED);
    EXPECT(cbgrid_matrix_components(b, &out) == CBGRID_NOT_SQUARE);
    EXPECT(cbgrid_matrix_triangles(a, &value) == CBGRID_MIXED && value == 77);
    EXPECT(cbgrid_matrix_triangles(b, &value) == CBGRID_NOT_SQUARE && value == 77);
    EXPECT(cbgrid_matrix_triangles(b, NULL) == CBGRID_NULL_POINTER);
    EXPECT(cbgrid_matrix_prune(a, 3, 0, &out) == CBGRID_TEST);
    EXPECT(cbgrid_matrix_read(0, "", 0, &line, &out) == CBGRID_FORMAT && line == 1);
    EXPECT(cbgrid_matrix_value(a, 2, 0, &value) == CBGRID_PLACE && value == 77);
    EXPECT(cbgrid_matrix_columns(NULL, &lists) == CBGRID_NULL_POINTER);
    EXPECT(cbgrid_matrix_columns(a, NULL) == CBGRID_NULL_POINTER);
    EXPECT(cbgrid_matrix_rows(NULL, &lists) == CBGRID_NULL_POINTER);
    EXPECT(cbgrid_matrix_triples(a, NULL) == CBGRID_NULL_POINTER);
    EXPECT(cbgrid_matrix_nrows(NULL) == 0 && cbgrid_matrix_entries(NULL) == 0);
    EXPECT(out == was);
    cbgrid_matrix_free(a);
    cbgrid_matrix_free(b);
    cbgrid_matrix_free(NULL);
    EXPECT(live == 0);
    EXPECT(!strcmp(cbgrid_version(), CBGRID_VERSION));
}

/* Sources that are no vertices of a square graph. */
static void test_sources(void) {
    struct cbgrid_matrix *roads, *lengths, *unset = NULL, *const was = (struct cbgrid_matrix *)&unset, *out = was;
    EXPECT(cbgrid_matrix_of_triples(CBGRID_OR_AND, 2, 2, NULL, 0, NULL, &roads) == CBGRID_OK);
    EXPECT(cbgrid_matrix_of_triples(CBGRID_MIN_PLUS, 2, 2, NULL, 0, NULL, &lengths) == CBGRID_OK);
    EXPECT(cbgrid_matrix_levels(roads, 2, &out) == CBGRID_SOURCE);
    EXPECT(cbgrid_matrix_parents(roads, 2, &out) == CBGRID_SOURCE);
    EXPECT(cbgrid_matrix_distances(lengths, UINT32_MAX, &out) == CBGRID_SOURCE);
    EXPECT(out == was);
    cbgrid_matrix_free(roads);
    cbgrid_matrix_free(lengths);
    EXPECT(live == 0);
}

/* Each pointer null in calls that are right otherwise. */
static void test_null_matrices(void) {
    static const struct cbgrid_triple one = {0, 0, 1};
    struct cbgrid_matrix *a, *out = NULL;
    struct cbgrid_text text = {NULL, 5};
    EXPECT(cbgrid_matrix_of_triples(CBGRID_OR_AND, 1, 1, &one, 1, NULL, &a) == CBGRID_OK);
    int codes[] = {
        cbgrid_matrix_transpose(NULL, &out),      cbgrid_matrix_transpose(a, NULL),
        cbgrid_matrix_row_sums(NULL, &out),       cbgrid_matrix_row_sums(a, NULL),
        cbgrid_matrix_column_sums(NULL, &out),    cbgrid_matrix_column_sums(a, NULL),
        cbgrid_matrix_add(NULL, a, &out),         cbgrid_matrix_add(a, NULL, &out),
        cbgrid_matrix_add(a, a, NULL),            cbgrid_matrix_times(NULL, a, &out),
        cbgrid_matrix_times(a, NULL, &out),       cbgrid_matrix_times(a, a, NULL),
        cbgrid_matrix_prune(NULL, 0, 0, &out),    cbgrid_matrix_prune(a, 0, 0, NULL),
        cbgrid_matrix_levels(NULL, 0, &out),      cbgrid_matrix_levels(a, 0, NULL),
        cbgrid_matrix_distances(NULL, 0, &out),   cbgrid_matrix_distances(a, 0, NULL),
        cbgrid_matrix_parents(NULL, 0, &out),     cbgrid_matrix_parents(a, 0, NULL),
        cbgrid_matrix_components(NULL, &out),     cbgrid_matrix_components(a, NULL),
        cbgrid_matrix_text(NULL, &text),          cbgrid_matrix_text(a, NULL),
        cbgrid_matrix_keep_transpose(NULL),
    };
    for (size_t n = 0; n < sizeof codes / sizeof *codes; n++) EXPECT(codes[n] == CBGRID_NULL_POINTER);
    EXPECT(!out && text.len == 5);
    cbgrid_matrix_free(a);
    EXPECT(live == 0);
}

static void test_messages(void) {
    for (int code = 0; code <= CBGRID_NOT_COLUMN; code++) {
        EXPECT(strlen(cbgrid_message(code)) > 3 && strcmp(cbgrid_message(code), "no such code"));
        for (int other = 0; other < code; other++) EXPECT(strcmp(cbgrid_message(code), cbgrid_message(other)));
    }
    EXPECT(!strcmp(cbgrid_message(-1), "no such code"));
    EXPECT(!strcmp(cbgrid_message(CBGRID_NOT_COLUMN + 1), "no such code"));
    EXPECT(!strcmp(cbgrid_message(CBGRID_MEMORY), "out of memory"));
    EXPECT(!strcmp(cbgrid_message(CBGRID_SHAPES), "shapes don't agree"));
    EXPECT(!strcmp(cbgrid_message(CBGRID_NOT_COLUMN), "matrix not a column"));
}

void test_kept_codes(void) {
    test_messages();
    test_codes_of_kept();
    test_null_matrices();
    test_sources();
}
