/* The codes of lists, in the order of the checks; null lists and null pointers; the faults of texts. */
#include "check.h"

/* Codes: a matrix of 2 x 3 with entries (0, 0), (1, 0) and (0, 2), and what is wrong with others. */
static const uint32_t starts[] = {0, 2, 2, 3}, rows[] = {0, 1, 0}, columns[] = {0, 2}, few_starts[] = {0, 2, 3};
static const uint64_t values[] = {1, 1, 1};
static const uint64_t far_starts[] = {0, UINT64_MAX, 2, 3};

static struct cbgrid_columns good(void) {
    return cbgrid_csc32(2, 3, starts, rows, values, 3);
}

/* Expects `code` from each call that makes a matrix of `bad`. */
static void expect_of_all(struct cbgrid_columns bad, int code, const char *what) {
    struct cbgrid_matrix *made = NULL;
    int of_columns = cbgrid_matrix_of_columns(CBGRID_OR_AND, &bad, NULL, &made);
    int of_rows = cbgrid_matrix_of_rows(CBGRID_OR_AND, &bad, NULL, &made);
    expect(of_columns == code && of_rows == code, what, __FILE__, __LINE__);
    if (of_columns != code || of_rows != code) fprintf(stderr, "  %d and %d, not %d\n", of_columns, of_rows, code);
    EXPECT(!made);
}

static void test_codes_of_lists(void) {
    static const uint32_t descending[] = {0, 3, 2, 3}, from_one[] = {1, 2, 2, 3}, same_row[] = {0, 0, 0};
    static const uint32_t past_row[] = {0, 2, 0}, past_column[] = {0, 3}, same_column[] = {2, 2};
    static const uint32_t short_end[] = {0, 2, 2, 2}, last_column_first[] = {2, 0}, last_row_first[] = {1, 0, 0};
    static const uint64_t two[] = {1, 2, 1};
    struct cbgrid_columns bad = good();
    bad.kind = 2, expect_of_all(bad, CBGRID_FORM, "kind 2");
    bad = good(), bad.wide = 2, expect_of_all(bad, CBGRID_FORM, "wide 2");
    bad = good(), bad.nrows = CBGRID_LIMIT + 1, expect_of_all(bad, CBGRID_TOO_LARGE, "too many rows");
    bad = good(), bad.ncols = CBGRID_LIMIT + 1, expect_of_all(bad, CBGRID_TOO_LARGE, "a column too many");
    bad = cbgrid_dcsc32(2, UINT32_MAX, columns, 2, few_starts, rows, values, 3);
    expect_of_all(bad, CBGRID_TOO_LARGE, "too many columns");
    bad = good(), bad.values_len = 2, expect_of_all(bad, CBGRID_LENGTHS, "a value is missing");
    bad = good(), bad.rows_len = 2, expect_of_all(bad, CBGRID_LENGTHS, "a row is missing");
    bad = good(), bad.starts32_len = 3, expect_of_all(bad, CBGRID_LENGTHS, "a start is missing");
    bad = good(), bad.starts32_len = 0, expect_of_all(bad, CBGRID_LENGTHS, "no starts");
    bad = cbgrid_dcsc32(2, 3, columns, 1, few_starts, rows, values, 3);
    expect_of_all(bad, CBGRID_LENGTHS, "more rows than the last start");
    bad = cbgrid_csc32(2, 3, short_end, rows, values, 3), expect_of_all(bad, CBGRID_LENGTHS, "the last start is 2");
    bad = cbgrid_csc32(2, 3, descending, rows, values, 3), expect_of_all(bad, CBGRID_ORDER, "starts descend");
    bad = cbgrid_csc64(2, 3, far_starts, rows, values, 3), expect_of_all(bad, CBGRID_ORDER, "a start is past all");
    bad = cbgrid_csc32(2, 3, from_one, rows, values, 3), expect_of_all(bad, CBGRID_LENGTHS, "starts from 1");
    bad = cbgrid_csc32(2, 3, starts, same_row, values, 3), expect_of_all(bad, CBGRID_ORDER, "a row twice");
    bad = cbgrid_dcsc32(2, 3, same_column, 2, few_starts, rows, values, 3);
    expect_of_all(bad, CBGRID_ORDER, "a column twice");
    bad = cbgrid_csc32(2, 3, starts, last_row_first, values, 3), expect_of_all(bad, CBGRID_ORDER, "rows descend");
    bad = cbgrid_dcsc32(2, 3, last_column_first, 2, few_starts, rows, values, 3);
    expect_of_all(bad, CBGRID_ORDER, "columns descend");
    bad = cbgrid_csc32(2, 3, starts, past_row, values, 3), expect_of_all(bad, CBGRID_PLACE, "a row past the end");
    bad = cbgrid_dcsc32(2, 3, past_column, 2, few_starts, rows, values, 3);
    expect_of_all(bad, CBGRID_PLACE, "a column past the end");
    bad = cbgrid_csc32(2, 3, starts, rows, two, 3), expect_of_all(bad, CBGRID_VALUE, "2 in or-and");
}

/* A number that no semiring has comes before all faults of lists, triples and texts. */
static void test_codes_of_semirings(void) {
    static const struct cbgrid_triple outside = {9, 9, 1};
    struct cbgrid_columns bad = good();
    struct cbgrid_matrix *made = NULL;
    uint64_t line = 77;
    bad.kind = 2;
    for (uint32_t s = SEMIRINGS; s < SEMIRINGS + 5; s++) {
        EXPECT(cbgrid_matrix_of_columns(s, &bad, NULL, &made) == CBGRID_SEMIRING);
        EXPECT(cbgrid_matrix_of_rows(s, &bad, NULL, &made) == CBGRID_SEMIRING);
        EXPECT(cbgrid_matrix_of_triples(s, UINT32_MAX, 1, &outside, 1, NULL, &made) == CBGRID_SEMIRING);
        EXPECT(cbgrid_matrix_read(s, "", 0, &line, &made) == CBGRID_SEMIRING);
    }
    EXPECT(line == 77 && !made);
}

static void test_read_faults(void) {
    static const struct {
        const char *text;
        uint64_t line;
    } faulty[] = {
        {"", 1},
        {"%%nonsense\n", 1},
        {"%%MatrixMarket matrix coordinate integer general\n", 2},
        {"%%MatrixMarket matrix coordinate integer general\n%\n2 2 1\n3 1 1\n", 4},
        {"%%MatrixMarket matrix coordinate integer general\n2 2 1\n1 1 x\n", 3},
        {"%%MatrixMarket matrix coordinate integer general\n2 2 2\n1 1 1\n", 4},
    };
    struct cbgrid_matrix *made = NULL;
    for (size_t i = 0; i < sizeof faulty / sizeof *faulty; i++) {
        uint64_t line = 77;
        size_t len = strlen(faulty[i].text);
        EXPECT(cbgrid_matrix_read(0, faulty[i].text, len, &line, &made) == CBGRID_FORMAT);
        EXPECT(line == faulty[i].line);
        EXPECT(cbgrid_matrix_read(0, faulty[i].text, len, NULL, &made) == CBGRID_FORMAT);
    }
    EXPECT(!made);
}

/* A text without a fault leaves the number of a line as it was. */
static void test_line_without_fault(void) {
    static const char text[] = "%%MatrixMarket matrix coordinate integer general\n2 3 2\n1 1 5\n2 3 6\n";
    struct cbgrid_matrix *made;
    uint64_t line = 77;
    EXPECT(cbgrid_matrix_read(0, text, sizeof text - 1, &line, &made) == CBGRID_OK && line == 77);
    EXPECT(cbgrid_matrix_entries(made) == 2);
    cbgrid_matrix_free(made);
    EXPECT(live == 0);
}

/* Each pointer that isn't to a matrix null, in a call that is right otherwise. */
static void test_null_pointers(void) {
    struct cbgrid_columns a = good();
    struct cbgrid_matrix *made = NULL;
    uint64_t line = 77;
    EXPECT(cbgrid_matrix_of_columns(0, NULL, NULL, &made) == CBGRID_NULL_POINTER);
    EXPECT(cbgrid_matrix_of_columns(0, &a, NULL, NULL) == CBGRID_NULL_POINTER);
    EXPECT(cbgrid_matrix_of_rows(0, NULL, NULL, &made) == CBGRID_NULL_POINTER);
    EXPECT(cbgrid_matrix_of_rows(0, &a, NULL, NULL) == CBGRID_NULL_POINTER);
    EXPECT(cbgrid_matrix_of_triples(0, 2, 3, NULL, 1, NULL, &made) == CBGRID_NULL_POINTER);
    EXPECT(cbgrid_matrix_of_triples(0, 2, 3, NULL, 0, NULL, NULL) == CBGRID_NULL_POINTER);
    EXPECT(cbgrid_matrix_read(0, NULL, 1, &line, &made) == CBGRID_NULL_POINTER);
    EXPECT(cbgrid_matrix_read(0, NULL, 0, &line, NULL) == CBGRID_NULL_POINTER && line == 77);
    EXPECT(cbgrid_matrix_read(0, NULL, 0, &line, &made) == CBGRID_FORMAT && line == 1);
    EXPECT(!made);
    cbgrid_free_columns(NULL);
    cbgrid_free_text(NULL);
}

static void test_null_lists(void) {
    struct cbgrid_columns bad = good(), made;
    struct cbgrid_matrix *a;
    bad.rows = NULL, expect_of_all(bad, CBGRID_NULL_POINTER, "null rows");
    bad = good(), bad.values = NULL, expect_of_all(bad, CBGRID_NULL_POINTER, "null values");
    bad = good(), bad.starts32 = NULL, expect_of_all(bad, CBGRID_NULL_POINTER, "null starts of 32 bits");
    bad = cbgrid_csc64(2, 3, NULL, rows, values, 3), expect_of_all(bad, CBGRID_NULL_POINTER, "null starts of 64 bits");
    bad = cbgrid_dcsc32(2, 3, NULL, 2, few_starts, rows, values, 3);
    expect_of_all(bad, CBGRID_NULL_POINTER, "null columns");

    /* Lists that a call ignores may be anything. */
    struct cbgrid_columns odd = good();
    odd.columns = NULL, odd.columns_len = 5, odd.starts64 = NULL, odd.starts64_len = 9;
    EXPECT(cbgrid_matrix_of_columns(0, &odd, NULL, &a) == CBGRID_OK && cbgrid_matrix_entries(a) == 3);
    cbgrid_matrix_free(a);

    /* Empty lists may be null pointers. */
    struct cbgrid_columns none[] = {
        {6, 5, CBGRID_DCSC, CBGRID_STARTS_64, NULL, 0, NULL, 0, NULL, 0, NULL, 0, NULL, 0},
        cbgrid_dcsc32(6, 5, NULL, 0, NULL, NULL, NULL, 0),
    };
    struct dense zeros = blank(0, 6, 5);
    for (int n = 0; n < 2; n++) {
        EXPECT(cbgrid_matrix_of_columns(0, &none[n], NULL, &a) == CBGRID_OK && cbgrid_matrix_columns(a, &made) == CBGRID_OK);
        EXPECT(is_dense(0, &made, &zeros));
        cbgrid_free_columns(&made);
        cbgrid_matrix_free(a);
    }
    bad = cbgrid_csc32(5, 0, starts, NULL, NULL, 0);
    EXPECT(cbgrid_matrix_of_rows(0, &bad, NULL, &a) == CBGRID_OK && cbgrid_matrix_nrows(a) == 0 && cbgrid_matrix_ncols(a) == 5);
    cbgrid_matrix_free(a);
    EXPECT(live == 0);
}

void test_codes(void) {
    test_null_pointers();
    test_null_lists();
    test_codes_of_lists();
    test_codes_of_semirings();
    test_read_faults();
    test_line_without_fault();
}
