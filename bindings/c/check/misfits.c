/* What a code is about: which entry, stored column, triple, row, column or source. */
#include "check.h"

#define UNTOLD 12345678901u
#define STORED 2000u
#define ENTRIES (2 * STORED)

/* Column 3 k has the rows 2 and 5, in doubly compressed columns; a form with all columns has them side by side. */
struct parts {
    uint32_t columns[STORED], starts32[STORED + 1], rows[ENTRIES];
    uint64_t starts64[STORED + 1], values[ENTRIES];
};

static struct parts good_parts(void) {
    struct parts it;
    for (uint32_t k = 0; k < STORED; k++) {
        it.columns[k] = 3 * k;
        it.rows[2 * k] = 2, it.rows[2 * k + 1] = 5;
        it.values[2 * k] = it.values[2 * k + 1] = 1;
    }
    for (uint32_t k = 0; k <= STORED; k++) it.starts32[k] = 2 * k, it.starts64[k] = 2 * k;
    return it;
}

/* Expects a code, and what it is about, of all forms: as columns and as rows, with starts of both widths, and, unless the code is
 * about listed columns, with all columns stored. */
static void expect_misfit(const struct parts *it, uint32_t ncols, int is_listed, int code, uint64_t want) {
    struct cbgrid_columns forms[] = {
        cbgrid_dcsc32(7, ncols, it->columns, STORED, it->starts32, it->rows, it->values, ENTRIES),
        cbgrid_dcsc64(7, ncols, it->columns, STORED, it->starts64, it->rows, it->values, ENTRIES),
        cbgrid_csc32(7, STORED, it->starts32, it->rows, it->values, ENTRIES),
        cbgrid_csc64(7, STORED, it->starts64, it->rows, it->values, ENTRIES),
    };
    for (size_t n = 0; n < (is_listed ? 2 : sizeof forms / sizeof *forms); n++) {
        struct cbgrid_matrix *made = NULL;
        uint64_t at = UNTOLD;
        EXPECT(cbgrid_matrix_of_columns(CBGRID_OR_AND, &forms[n], &at, &made) == code && at == want && !made);
        at = UNTOLD;
        EXPECT(cbgrid_matrix_of_rows(CBGRID_OR_AND, &forms[n], &at, &made) == code && at == want && !made);
        EXPECT(cbgrid_matrix_of_columns(CBGRID_OR_AND, &forms[n], NULL, &made) == code && !made);
    }
}

/* The first, the second, one in the middle, and the last two of the stored columns. */
static const uint32_t places[] = {0, 1, STORED / 2, STORED - 2, STORED - 1};
#define PLACES (sizeof places / sizeof *places)

static void test_misfits_of_lists(void) {
    const uint32_t ncols = 3 * STORED, last = STORED - 1;
    struct parts it;
    for (size_t n = 0; n < PLACES; n++) {
        uint32_t k = places[n];
        for (uint32_t e = 2 * k; e < 2 * k + 2; e++) {
            it = good_parts(), it.values[e] = 2, it.values[ENTRIES - 1] = 3;
            expect_misfit(&it, ncols, 0, CBGRID_VALUE, e);
        }
        it = good_parts(), it.rows[2 * k + 1] = 7, it.rows[ENTRIES - 1] = UINT32_MAX;
        expect_misfit(&it, ncols, 0, CBGRID_PLACE, 2 * k + 1);
        it = good_parts(), it.rows[2 * k + 1] = 2, it.rows[ENTRIES - 1] = 0;
        expect_misfit(&it, ncols, 0, CBGRID_ORDER, 2 * k + 1);
        it = good_parts(), it.rows[2 * k] = it.rows[2 * k + 1];
        expect_misfit(&it, ncols, 0, CBGRID_ORDER, 2 * k + 1);
        expect_misfit(&it, 0, 1, CBGRID_ORDER, 2 * k + 1);
        it = good_parts();
        expect_misfit(&it, it.columns[k], 1, CBGRID_PLACE, ENTRIES + k);
        if (k) {
            it.columns[k] = it.columns[k - 1], it.rows[1] = 0;
            expect_misfit(&it, ncols, 1, CBGRID_ORDER, ENTRIES + k);
        }
        if (k < last) {
            it = good_parts(), it.starts32[k + 1] = it.starts64[k + 1] = 2 * k + 5, it.rows[1] = 0;
            expect_misfit(&it, ncols, 0, CBGRID_ORDER, ENTRIES + k + 1);
        }
    }
}

/* Other codes, and none, leave the number as it was. */
static void test_untold(void) {
    struct parts it = good_parts();
    struct cbgrid_columns lists = cbgrid_csc32(7, STORED, it.starts32, it.rows, it.values, ENTRIES);
    struct cbgrid_matrix *made = NULL;
    uint64_t at = UNTOLD;
    EXPECT(cbgrid_matrix_of_columns(SEMIRINGS, &lists, &at, &made) == CBGRID_SEMIRING);
    EXPECT(cbgrid_matrix_of_columns(CBGRID_OR_AND, NULL, &at, &made) == CBGRID_NULL_POINTER);
    left = 0;
    EXPECT(cbgrid_matrix_of_columns(CBGRID_OR_AND, &lists, &at, &made) == CBGRID_MEMORY);
    left = -1;
    lists.kind = 2;
    EXPECT(cbgrid_matrix_of_columns(CBGRID_OR_AND, &lists, &at, &made) == CBGRID_FORM);
    lists.kind = CBGRID_CSC, lists.nrows = UINT32_MAX;
    EXPECT(cbgrid_matrix_of_rows(CBGRID_OR_AND, &lists, &at, &made) == CBGRID_TOO_LARGE);
    lists.nrows = 7, lists.ncols = UINT32_MAX / 2;
    EXPECT(cbgrid_matrix_of_rows(CBGRID_OR_AND, &lists, &at, &made) == CBGRID_LENGTHS);
    lists.ncols = STORED;
    EXPECT(!made && at == UNTOLD);
    EXPECT(cbgrid_matrix_of_columns(CBGRID_OR_AND, &lists, &at, &made) == CBGRID_OK && at == UNTOLD);
    cbgrid_matrix_free(made);
    EXPECT(live == 0);
}

static void test_misfits_of_triples(void) {
    static struct cbgrid_triple triples[ENTRIES];
    struct cbgrid_matrix *made = NULL;
    for (size_t n = 0; n < PLACES; n++) {
        for (int kind = 0; kind < 3; kind++) {
            uint64_t at = UNTOLD;
            for (uint32_t k = 0; k < ENTRIES; k++) triples[k] = (struct cbgrid_triple){k % 7, k % 9, 1};
            struct cbgrid_triple *it = &triples[2 * places[n]], *last = &triples[ENTRIES - 1];
            if (kind == 0) it->row = 7, last->row = 9;
            if (kind == 1) it->column = 9, last->row = 7;
            if (kind == 2) it->value = 2, last->value = 3;
            int code = kind == 2 ? CBGRID_VALUE : CBGRID_PLACE;
            EXPECT(cbgrid_matrix_of_triples(CBGRID_OR_AND, 7, 9, triples, ENTRIES, &at, &made) == code && at == 2 * places[n]);
            EXPECT(cbgrid_matrix_of_triples(CBGRID_OR_AND, 7, 9, triples, ENTRIES, NULL, &made) == code && !made);
            at = UNTOLD;
            EXPECT(cbgrid_matrix_of_triples(CBGRID_OR_AND, UINT32_MAX, 9, triples, ENTRIES, &at, &made) == CBGRID_TOO_LARGE);
            EXPECT(at == UNTOLD && !made);
        }
    }
}

/* Rows, columns and sources of a matrix of 40 x 40. */
static void test_misfits_of_numbers(void) {
    static uint32_t rows[ENTRIES], columns[ENTRIES];
    struct cbgrid_matrix *graph = random_kept(CBGRID_OR_AND, 40, 40, 3), *lengths = random_kept(CBGRID_MIN_PLUS, 40, 40, 3);
    struct cbgrid_matrix *made = NULL;
    for (size_t n = 0; n < PLACES; n++) {
        uint64_t of_row = UNTOLD, of_column = UNTOLD, of_level = UNTOLD, of_distance = UNTOLD;
        for (uint32_t k = 0; k < ENTRIES; k++) rows[k] = columns[k] = k % 40;
        columns[places[n]] = 40, columns[ENTRIES - 1] = 41;
        EXPECT(cbgrid_matrix_extract(graph, rows, ENTRIES, columns, ENTRIES, &of_column, &made) == CBGRID_PLACE);
        EXPECT(of_column == ENTRIES + places[n]);
        rows[places[n]] = UINT32_MAX, rows[ENTRIES - 1] = 40;
        EXPECT(cbgrid_matrix_extract(graph, rows, ENTRIES, columns, ENTRIES, &of_row, &made) == CBGRID_PLACE);
        EXPECT(cbgrid_matrix_levels_from(graph, rows, ENTRIES, &of_level, &made) == CBGRID_SOURCE);
        EXPECT(cbgrid_matrix_distances_from(lengths, rows, ENTRIES, &of_distance, &made) == CBGRID_SOURCE);
        EXPECT(of_row == places[n] && of_level == places[n] && of_distance == places[n]);
        EXPECT(cbgrid_matrix_extract(graph, rows, ENTRIES, columns, ENTRIES, NULL, &made) == CBGRID_PLACE);
        EXPECT(cbgrid_matrix_levels_from(graph, rows, ENTRIES, NULL, &made) == CBGRID_SOURCE);
        EXPECT(cbgrid_matrix_distances_from(lengths, rows, ENTRIES, NULL, &made) == CBGRID_SOURCE);
        of_level = UNTOLD;
        EXPECT(cbgrid_matrix_levels_from(lengths, rows, ENTRIES, &of_level, &made) == CBGRID_MIXED && of_level == UNTOLD);
    }
    EXPECT(!made);
    cbgrid_matrix_free(graph);
    cbgrid_matrix_free(lengths);
    EXPECT(live == 0);
}

void test_misfits(void) {
    test_misfits_of_lists();
    test_untold();
    test_misfits_of_triples();
    test_misfits_of_numbers();
}
