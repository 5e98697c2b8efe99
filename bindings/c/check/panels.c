/*
 * Tests of what products by several threads are made of, by worked examples: where ranges of a product's columns end, the
 * panel of a range, without a mask, under one and outside one, and two panels joined; the codes of each, in the order of the
 * checks; each call on a matrix of several panels; and each call in ranges of its columns.
 */
#include "../kernel.h"
#include "check.h"

/* A matrix by its triples. */
struct example {
    uint32_t nrows, ncols;
    const struct cbgrid_triple *triples;
    size_t len;
};

static const struct cbgrid_triple left_triples[] = {{0, 0, 1}, {1, 0, 2}, {1, 2, 3}};
static const struct cbgrid_triple right_triples[] = {{0, 0, 1}, {0, 1, 2}, {2, 1, 3}};
static const struct cbgrid_triple product_triples[] = {{0, 0, 1}, {1, 0, 2}, {0, 1, 2}, {1, 1, 13}};
static const struct cbgrid_triple far_triple = {CBGRID_LIMIT - 1, CBGRID_LIMIT - 1, 7};
static const struct cbgrid_triple far_square_triple = {CBGRID_LIMIT - 1, CBGRID_LIMIT - 1, 49};

/* Two factors; their product, each of its columns in the shape of the whole, and none of them. */
static const struct example left_factor = {2, 3, left_triples, 3}, right_factor = {3, 2, right_triples, 3};
static const struct example whole = {2, 2, product_triples, 4}, empty = {2, 2, NULL, 0};
static const struct example first_column = {2, 2, product_triples, 2}, last_column = {2, 2, product_triples + 2, 2};

/* A mask; what it allows of the product, and the rest; columns of these. */
static const struct cbgrid_triple mask_triples[] = {{1, 0, 9}, {0, 1, 9}}, rest_triples[] = {{0, 0, 1}, {1, 1, 13}};
static const struct cbgrid_triple under_triples[] = {{1, 0, 2}, {0, 1, 2}};
static const struct example mask_of_whole = {2, 2, mask_triples, 2};
static const struct example under = {2, 2, under_triples, 2}, rest = {2, 2, rest_triples, 2};
static const struct example under_first = {2, 2, under_triples, 1}, under_last = {2, 2, under_triples + 1, 1};
static const struct example rest_first = {2, 2, rest_triples, 1}, rest_last = {2, 2, rest_triples + 1, 1};

/* A graph with all its edges, and its columns. */
static const struct cbgrid_triple ones_triples[] = {{0, 0, 1}, {1, 0, 1}, {0, 1, 1}, {1, 1, 1}};
static const struct example ones = {2, 2, ones_triples, 4};
static const struct example ones_first = {2, 2, ones_triples, 2}, ones_last = {2, 2, ones_triples + 2, 2};

/* A matrix with sides at the limit, and its square; a matrix without sides. */
static const struct example far = {CBGRID_LIMIT, CBGRID_LIMIT, &far_triple, 1}, none = {0, 0, NULL, 0};
static const struct example far_square = {CBGRID_LIMIT, CBGRID_LIMIT, &far_square_triple, 1};
static const struct example far_empty = {CBGRID_LIMIT, CBGRID_LIMIT, NULL, 0};

static struct cbgrid_matrix *kept_of(uint32_t semiring, const struct example *it) {
    struct cbgrid_matrix *made = NULL;
    EXPECT(cbgrid_matrix_of_triples(semiring, it->nrows, it->ncols, it->triples, it->len, NULL, &made) == CBGRID_OK);
    return made;
}

/* The columns of a range of a product, of one under a mask, and of one outside it. Numbers are those of crates/cb_operations. */
static uint32_t panel_of(kept a, kept b, uint32_t first, uint32_t end, struct owned *made) {
    struct choice multiply = {.number = 0};
    return cbgrid_kernel_computation(&multiply, a, b, a, first, end, made);
}
static uint32_t masked_panel_of(kept a, kept b, kept mask, uint32_t first, uint32_t end, struct owned *made) {
    struct choice multiply_masked = {.number = 1};
    return cbgrid_kernel_computation(&multiply_masked, a, b, mask, first, end, made);
}
static uint32_t outside_panel_of(kept a, kept b, kept mask, uint32_t first, uint32_t end, struct owned *made) {
    struct choice multiply_outside = {.number = 28};
    return cbgrid_kernel_computation(&multiply_outside, a, b, mask, first, end, made);
}

static void test_panels(void) {
    static const struct {
        const struct example *left, *right;
        uint32_t first, end;
        const struct example *want;
    } rows[] = {
        {&left_factor, &right_factor, 0, 2, &whole},
        {&left_factor, &right_factor, 0, 1, &first_column},
        {&left_factor, &right_factor, 1, 2, &last_column},
        {&left_factor, &right_factor, 1, UINT32_MAX, &last_column},
        {&left_factor, &right_factor, 1, 1, &empty},
        {&left_factor, &right_factor, 2, 0, &empty},
        {&far, &far, CBGRID_LIMIT - 1, CBGRID_LIMIT, &far_square},
        {&none, &none, 0, 7, &none},
    };
    for (size_t n = 0; n < sizeof rows / sizeof *rows; n++) {
        struct cbgrid_matrix *a = kept_of(0, rows[n].left), *b = kept_of(0, rows[n].right), *want = kept_of(0, rows[n].want);
        struct owned made = {NULL};
        EXPECT(panel_of((kept){a}, (kept){b}, rows[n].first, rows[n].end, &made) == CBGRID_OK);
        EXPECT(is_same(made.at, want));
        cbgrid_matrix_free(made.at);
        cbgrid_matrix_free(a);
        cbgrid_matrix_free(b);
        cbgrid_matrix_free(want);
        EXPECT(live == 0);
    }
}

static void test_masked_panels(void) {
    static const struct {
        const struct example *left, *right, *mask;
        uint32_t first, end;
        const struct example *under, *rest;
    } rows[] = {
        {&left_factor, &right_factor, &mask_of_whole, 0, 2, &under, &rest},
        {&left_factor, &right_factor, &mask_of_whole, 0, 1, &under_first, &rest_first},
        {&left_factor, &right_factor, &mask_of_whole, 1, UINT32_MAX, &under_last, &rest_last},
        {&left_factor, &right_factor, &mask_of_whole, 2, 0, &empty, &empty},
        {&left_factor, &right_factor, &whole, 0, 1, &first_column, &empty},
        {&left_factor, &right_factor, &last_column, 0, 1, &empty, &first_column},
        {&left_factor, &right_factor, &empty, 1, 2, &empty, &last_column},
        {&far, &far, &far, CBGRID_LIMIT - 1, CBGRID_LIMIT, &far_square, &far_empty},
        {&none, &none, &none, 0, 7, &none, &none},
    };
    for (size_t n = 0; n < sizeof rows / sizeof *rows; n++) {
        struct cbgrid_matrix *a = kept_of(0, rows[n].left), *b = kept_of(0, rows[n].right), *mask = kept_of(0, rows[n].mask);
        struct cbgrid_matrix *want_under = kept_of(0, rows[n].under), *want_rest = kept_of(0, rows[n].rest);
        uint32_t first = rows[n].first, end = rows[n].end;
        struct owned made_under = {NULL}, made_rest = {NULL};
        EXPECT(masked_panel_of((kept){a}, (kept){b}, (kept){mask}, first, end, &made_under) == CBGRID_OK);
        EXPECT(outside_panel_of((kept){a}, (kept){b}, (kept){mask}, first, end, &made_rest) == CBGRID_OK);
        EXPECT(is_same(made_under.at, want_under) && is_same(made_rest.at, want_rest));
        struct cbgrid_matrix *all[] = {a, b, mask, want_under, want_rest, made_under.at, made_rest.at};
        for (size_t k = 0; k < sizeof all / sizeof *all; k++) cbgrid_matrix_free(all[k]);
        EXPECT(live == 0);
    }
}

/* The result of joining two matrices is where the first was. */
static void test_joins(void) {
    static const struct {
        const struct example *front, *back, *want;
    } rows[] = {
        {&first_column, &last_column, &whole}, {&empty, &whole, &whole}, {&whole, &empty, &whole}, {&none, &none, &none},
    };
    for (size_t n = 0; n < sizeof rows / sizeof *rows; n++) {
        struct owned front = {kept_of(0, rows[n].front)}, back = {kept_of(0, rows[n].back)}, made = {NULL};
        struct cbgrid_matrix *want = kept_of(0, rows[n].want);
        EXPECT(cbgrid_kernel_kept_join(front, back, &made) == CBGRID_OK && made.at == front.at);
        free(back.at);
        EXPECT(is_same(made.at, want));
        cbgrid_matrix_free(made.at);
        cbgrid_matrix_free(want);
        EXPECT(live == 0);
    }
}

/* Semirings that differ come first, then shapes, then columns that aren't after those of the first. At a fault the lists of
 * both are freed. */
static void test_codes_of_joins(void) {
    static const struct {
        const struct example *front;
        uint32_t semiring;
        const struct example *back;
        uint32_t code;
    } rows[] = {
        {&first_column, CBGRID_MIN_PLUS, &left_factor, CBGRID_MIXED}, {&first_column, 0, &left_factor, CBGRID_SHAPES},
        {&last_column, 0, &first_column, CBGRID_ORDER},               {&first_column, 0, &first_column, CBGRID_ORDER},
        {&whole, 0, &last_column, CBGRID_ORDER},
    };
    for (size_t n = 0; n < sizeof rows / sizeof *rows; n++) {
        struct owned front = {kept_of(0, rows[n].front)}, back = {kept_of(rows[n].semiring, rows[n].back)}, made = {NULL};
        EXPECT(cbgrid_kernel_kept_join(front, back, &made) == rows[n].code && !made.at);
        free(front.at);
        free(back.at);
        EXPECT(live == 0);
    }
}

/* All columns of a small product are in the first range. */
static void test_ends(void) {
    static const struct {
        const struct example *left, *right;
        size_t count;
    } rows[] = {
        {&left_factor, &right_factor, 0}, {&left_factor, &right_factor, 1}, {&left_factor, &right_factor, 3},
        {&far, &far, 2},                  {&none, &none, 2},
    };
    for (size_t n = 0; n < sizeof rows / sizeof *rows; n++) {
        struct cbgrid_matrix *a = kept_of(0, rows[n].left), *b = kept_of(0, rows[n].right);
        uint32_t ends[4] = {77, 77, 77, 77};
        EXPECT(cbgrid_kernel_kept_ends(1, (kept){a}, (kept){b}, ends, rows[n].count) == CBGRID_OK);
        for (size_t k = 0; k < 4; k++) EXPECT(ends[k] == (k < rows[n].count ? rows[n].right->ncols : 77));
        cbgrid_matrix_free(a);
        cbgrid_matrix_free(b);
        EXPECT(live == 0);
    }
}

/* Semirings that differ come before shapes that have no product, in ranges and in panels, before any memory is taken. */
static void test_codes_of_factors(void) {
    static const uint32_t codes[] = {CBGRID_SHAPES, CBGRID_MIXED};
    for (uint32_t semiring = CBGRID_PLUS_TIMES; semiring <= CBGRID_MIN_PLUS; semiring++) {
        struct cbgrid_matrix *a = kept_of(0, &left_factor), *b = kept_of(semiring, &left_factor);
        struct owned made = {NULL};
        uint32_t ends[2] = {77, 77};
        left = 0;
        EXPECT(cbgrid_kernel_kept_ends(1, (kept){a}, (kept){b}, ends, 2) == codes[semiring]);
        EXPECT(panel_of((kept){a}, (kept){b}, 0, 1, &made) == codes[semiring]);
        EXPECT(left == 0 && ends[0] == 77 && ends[1] == 77 && !made.at);
        left = -1;
        cbgrid_matrix_free(a);
        cbgrid_matrix_free(b);
        EXPECT(live == 0);
    }
}

/* The same of three operands. */
static void test_codes_of_masked_factors(void) {
    static const struct {
        const struct example *right, *mask;
        uint32_t semiring, code;
    } rows[] = {
        {&right_factor, &left_factor, CBGRID_MIN_PLUS, CBGRID_MIXED},
        {&left_factor, &mask_of_whole, CBGRID_MIN_PLUS, CBGRID_MIXED},
        {&left_factor, &mask_of_whole, CBGRID_PLUS_TIMES, CBGRID_SHAPES},
        {&right_factor, &left_factor, CBGRID_PLUS_TIMES, CBGRID_SHAPES},
    };
    for (size_t n = 0; n < sizeof rows / sizeof *rows; n++) {
        struct cbgrid_matrix *a = kept_of(0, &left_factor), *b = kept_of(0, rows[n].right);
        struct cbgrid_matrix *mask = kept_of(rows[n].semiring, rows[n].mask);
        struct owned made = {NULL};
        left = 0;
        EXPECT(masked_panel_of((kept){a}, (kept){b}, (kept){mask}, 0, 1, &made) == rows[n].code);
        EXPECT(outside_panel_of((kept){a}, (kept){b}, (kept){mask}, 0, 1, &made) == rows[n].code);
        EXPECT(left == 0 && !made.at);
        left = -1;
        cbgrid_matrix_free(a);
        cbgrid_matrix_free(b);
        cbgrid_matrix_free(mask);
        EXPECT(live == 0);
    }
}

/* ---- A matrix of two panels, as threads leave it, in each call: the answer is that of the same matrix in one panel. */

/* The whole matrix over a semiring, in a panel for each column. */
static struct cbgrid_matrix *two_panels(uint32_t semiring) {
    struct owned front = {kept_of(semiring, &first_column)}, back = {kept_of(semiring, &last_column)}, made = {NULL};
    EXPECT(cbgrid_kernel_kept_join(front, back, &made) == CBGRID_OK);
    free(back.at);
    return made.at;
}

static int by_square(const struct cbgrid_matrix *a, struct cbgrid_matrix **out) {
    return cbgrid_matrix_multiply(a, a, NULL, out);
}
static int by_square_under(const struct cbgrid_matrix *a, struct cbgrid_matrix **out) {
    return cbgrid_matrix_multiply(a, a, &(struct cbgrid_how){.mask = a}, out);
}
static int by_square_outside(const struct cbgrid_matrix *a, struct cbgrid_matrix **out) {
    return cbgrid_matrix_multiply(a, a, &(struct cbgrid_how){.mask = a, .complement = 1}, out);
}
static int by_square_of_transposes(const struct cbgrid_matrix *a, struct cbgrid_matrix **out) {
    return cbgrid_matrix_multiply(a, a, &(struct cbgrid_how){.transpose_a = 1, .transpose_b = 1}, out);
}
static int by_square_of_threads(const struct cbgrid_matrix *a, struct cbgrid_matrix **out) {
    return cbgrid_matrix_multiply(a, a, &(struct cbgrid_how){.threads = 2}, out);
}
static int by_add(const struct cbgrid_matrix *a, struct cbgrid_matrix **out) { return cbgrid_matrix_add(a, a, out); }
static int by_times(const struct cbgrid_matrix *a, struct cbgrid_matrix **out) { return cbgrid_matrix_times(a, a, out); }
static int by_prune(const struct cbgrid_matrix *a, struct cbgrid_matrix **out) { return cbgrid_matrix_prune(a, CBGRID_ABOVE, 2, out); }
static int by_select(const struct cbgrid_matrix *a, struct cbgrid_matrix **out) { return cbgrid_matrix_select(a, CBGRID_LOWER, 0, out); }
static int by_apply(const struct cbgrid_matrix *a, struct cbgrid_matrix **out) { return cbgrid_matrix_apply(a, CBGRID_COLUMN, 0, out); }
static int by_part(const struct cbgrid_matrix *a, struct cbgrid_matrix **out) { return cbgrid_matrix_part(a, 1, 2, 0, 2, out); }
static int by_extract(const struct cbgrid_matrix *a, struct cbgrid_matrix **out) {
    static const uint32_t rows[] = {1, 0, 1}, columns[] = {1, 0};
    return cbgrid_matrix_extract(a, rows, 3, columns, 2, NULL, out);
}
static int by_kron(const struct cbgrid_matrix *a, struct cbgrid_matrix **out) { return cbgrid_matrix_kron(a, a, out); }
static int by_assign(const struct cbgrid_matrix *a, struct cbgrid_matrix **out) { return cbgrid_matrix_assign(a, 0, 0, a, out); }
static int by_exclude(const struct cbgrid_matrix *a, struct cbgrid_matrix **out) { return cbgrid_matrix_exclude(a, a, out); }
static int by_update(const struct cbgrid_matrix *a, struct cbgrid_matrix **out) {
    return cbgrid_matrix_update(a, a, a, CBGRID_ACCUMULATE, out);
}
static int by_update_of_all(const struct cbgrid_matrix *a, struct cbgrid_matrix **out) {
    return cbgrid_matrix_update(a, a, NULL, CBGRID_ACCUMULATE, out);
}
static int by_power(const struct cbgrid_matrix *a, struct cbgrid_matrix **out) { return cbgrid_matrix_power(a, 3, out); }
static int by_levels(const struct cbgrid_matrix *a, struct cbgrid_matrix **out) { return cbgrid_matrix_levels(a, 0, out); }
static int by_distances(const struct cbgrid_matrix *a, struct cbgrid_matrix **out) { return cbgrid_matrix_distances(a, 0, out); }
static int by_parents(const struct cbgrid_matrix *a, struct cbgrid_matrix **out) { return cbgrid_matrix_parents(a, 0, out); }
static int by_levels_from(const struct cbgrid_matrix *a, struct cbgrid_matrix **out) {
    static const uint32_t sources[] = {1, 0};
    return cbgrid_matrix_levels_from(a, sources, 2, NULL, out);
}

static void test_calls_on_panels(void) {
    static const struct {
        uint32_t semiring;
        int (*call)(const struct cbgrid_matrix *a, struct cbgrid_matrix **out);
    } rows[] = {
        {CBGRID_PLUS_TIMES, by_square}, {CBGRID_PLUS_TIMES, by_square_under}, {CBGRID_PLUS_TIMES, by_square_outside},
        {CBGRID_PLUS_TIMES, by_square_of_transposes}, {CBGRID_PLUS_TIMES, by_square_of_threads},
        {CBGRID_PLUS_TIMES, cbgrid_matrix_transpose}, {CBGRID_PLUS_TIMES, cbgrid_matrix_row_sums},
        {CBGRID_PLUS_TIMES, cbgrid_matrix_column_sums}, {CBGRID_PLUS_TIMES, by_add}, {CBGRID_PLUS_TIMES, by_times},
        {CBGRID_PLUS_TIMES, by_prune}, {CBGRID_PLUS_TIMES, by_select}, {CBGRID_PLUS_TIMES, by_apply},
        {CBGRID_PLUS_TIMES, cbgrid_matrix_diagonal}, {CBGRID_PLUS_TIMES, by_part}, {CBGRID_PLUS_TIMES, by_extract},
        {CBGRID_PLUS_TIMES, by_kron}, {CBGRID_PLUS_TIMES, by_assign}, {CBGRID_PLUS_TIMES, by_exclude},
        {CBGRID_PLUS_TIMES, by_update}, {CBGRID_PLUS_TIMES, by_update_of_all}, {CBGRID_PLUS_TIMES, by_power},
        {CBGRID_PLUS_TIMES, cbgrid_matrix_row_degrees}, {CBGRID_PLUS_TIMES, cbgrid_matrix_column_degrees},
        {CBGRID_MIN_PLUS, by_add}, {CBGRID_MIN_PLUS, by_distances},
    };
    for (size_t n = 0; n < sizeof rows / sizeof *rows; n++) {
        struct cbgrid_matrix *panels = two_panels(rows[n].semiring), *one = kept_of(rows[n].semiring, &whole);
        struct cbgrid_matrix *made = NULL, *want = NULL;
        EXPECT(is_same(panels, one));
        EXPECT(rows[n].call(panels, &made) == CBGRID_OK && rows[n].call(one, &want) == CBGRID_OK);
        EXPECT(is_same(made, want));
        struct cbgrid_matrix *all[] = {panels, one, made, want};
        for (size_t k = 0; k < sizeof all / sizeof *all; k++) cbgrid_matrix_free(all[k]);
        EXPECT(live == 0);
    }
}

/* Searches over or-and, where each value is 1; and what a call reads of a matrix without making one. */
static void test_graphs_in_panels(void) {
    static int (*const calls[])(const struct cbgrid_matrix *a, struct cbgrid_matrix **out) = {
        by_levels, by_parents, by_levels_from, cbgrid_matrix_components,
    };
    struct cbgrid_matrix *numbers = two_panels(0), *one_numbers = kept_of(0, &whole), *panels = NULL, *one = NULL;
    uint64_t value = 0, total = 0, one_total = 0, triangles = 7, one_triangles = 0;
    struct cbgrid_text text, one_text;
    for (uint32_t row = 0; row < 2; row++) {
        for (uint32_t column = 0; column < 2; column++) {
            uint64_t one_value = 0;
            EXPECT(cbgrid_matrix_value(numbers, row, column, &value) == CBGRID_OK);
            EXPECT(cbgrid_matrix_value(one_numbers, row, column, &one_value) == CBGRID_OK && value == one_value);
        }
    }
    EXPECT(cbgrid_matrix_reduce_all(numbers, &total) == CBGRID_OK && cbgrid_matrix_reduce_all(one_numbers, &one_total) == CBGRID_OK);
    EXPECT(total == one_total && total == 18 && cbgrid_matrix_entries(numbers) == 4);
    EXPECT(cbgrid_matrix_text(numbers, &text) == CBGRID_OK && cbgrid_matrix_text(one_numbers, &one_text) == CBGRID_OK);
    EXPECT(text.len == one_text.len && !memcmp(text.bytes, one_text.bytes, text.len));
    cbgrid_free_text(&text);
    cbgrid_free_text(&one_text);
    struct owned front = {kept_of(CBGRID_OR_AND, &ones_first)}, back = {kept_of(CBGRID_OR_AND, &ones_last)}, made = {NULL};
    EXPECT(cbgrid_kernel_kept_join(front, back, &made) == CBGRID_OK);
    free(back.at);
    panels = made.at;
    one = kept_of(CBGRID_OR_AND, &ones);
    for (size_t n = 0; n < sizeof calls / sizeof *calls; n++) {
        struct cbgrid_matrix *found = NULL, *want = NULL;
        EXPECT(calls[n](panels, &found) == CBGRID_OK && calls[n](one, &want) == CBGRID_OK && is_same(found, want));
        cbgrid_matrix_free(found);
        cbgrid_matrix_free(want);
    }
    EXPECT(cbgrid_matrix_triangles(panels, &triangles) == CBGRID_OK && cbgrid_matrix_triangles(one, &one_triangles) == CBGRID_OK);
    EXPECT(triangles == one_triangles);
    struct cbgrid_matrix *all[] = {numbers, one_numbers, panels, one};
    for (size_t k = 0; k < sizeof all / sizeof *all; k++) cbgrid_matrix_free(all[k]);
    EXPECT(live == 0);
}

/* ---- Each call whose result is a matrix, in ranges of its columns: all of them are the whole, and the parts are joined to it. */

/* How many computations have numbers, and how many other calls there are. */
#define COMPUTATIONS 29u
#define OTHERS 4u
enum { MULTIPLY_VECTOR = 2, DIAGONAL_MATRIX = 22, KRONECKER = 24, ASSIGN, EXCLUDE, POWER };

/* What calls are made of: a square matrix, a mask of its shape, a column, and a matrix that is smaller. */
struct operands {
    kept square, mask, column, small;
};

/* Makes columns of the result of a call by its number. */
static uint32_t columns_of(const struct operands *of, uint32_t n, uint32_t first, uint32_t end, struct owned *made) {
    static const uint32_t rows[] = {1, 0, 1, 5}, columns[] = {4, 0, 4};
    kept a = of->square;
    struct choice choice = {n, 1, 3, 1, 4, 3, 2};
    if (n < COMPUTATIONS) {
        kept b = n == MULTIPLY_VECTOR ? of->column : n == KRONECKER || n == ASSIGN ? of->small : n == EXCLUDE ? of->mask : a;
        return cbgrid_kernel_computation(&choice, n == DIAGONAL_MATRIX ? of->column : a, b, of->mask, first, end, made);
    }
    switch (n - COMPUTATIONS) {
    case 0: return cbgrid_kernel_kept_update(a, of->mask, 0, a, CBGRID_ACCUMULATE, first, end, made);
    case 1: return cbgrid_kernel_kept_update(a, of->mask, 1, of->mask, CBGRID_REPLACE | CBGRID_COMPLEMENT, first, end, made);
    case 2: return cbgrid_kernel_kept_extract(a, 0, rows, 4, 0, columns, 3, first, end, made);
    default: return cbgrid_kernel_kept_extract(a, 0, rows, 4, 1, columns, 0, first, end, made);
    }
}

/* The columns before one, and those from it on, are joined to the whole. No columns have no entries. */
static void expect_parts(const struct operands *of, uint32_t n, uint32_t at, const struct cbgrid_matrix *want) {
    struct owned front = {NULL}, back = {NULL}, made = {NULL}, none = {NULL};
    EXPECT(columns_of(of, n, 0, at, &front) == CBGRID_OK && columns_of(of, n, at, UINT32_MAX, &back) == CBGRID_OK);
    EXPECT(columns_of(of, n, at, at, &none) == CBGRID_OK && cbgrid_matrix_entries(none.at) == 0);
    EXPECT(cbgrid_matrix_nrows(none.at) == cbgrid_matrix_nrows(want) && cbgrid_matrix_ncols(none.at) == cbgrid_matrix_ncols(want));
    EXPECT(cbgrid_kernel_kept_join(front, back, &made) == CBGRID_OK);
    free(back.at);
    EXPECT(is_same(made.at, want));
    cbgrid_matrix_free(made.at);
    cbgrid_matrix_free(none.at);
}

/* Each allocation of a range is refused in turn, and nothing is lost. */
static void expect_refusals(const struct operands *of, uint32_t n, uint32_t first, uint32_t end) {
    long before = live;
    uint32_t code = CBGRID_MEMORY;
    for (long refused = 0; code == CBGRID_MEMORY && refused < 1000; refused++) {
        struct owned made = {NULL};
        left = refused;
        code = columns_of(of, n, first, end, &made);
        left = -1;
        EXPECT(code == CBGRID_OK || (code == CBGRID_MEMORY && !made.at && live == before));
        cbgrid_matrix_free(made.at);
    }
    EXPECT(code == CBGRID_OK && live == before);
}

static void test_ranges(void) {
    struct cbgrid_matrix *all[] = {
        random_kept(0, 6, 6, 2), random_kept(0, 6, 6, 2), random_kept(0, 6, 1, 2), random_kept(0, 3, 2, 2),
    };
    struct operands of = {{all[0]}, {all[1]}, {all[2]}, {all[3]}};
    for (uint32_t n = 0; n < COMPUTATIONS + OTHERS; n++) {
        struct owned want = {NULL}, same = {NULL};
        EXPECT(columns_of(&of, n, 0, UINT32_MAX, &want) == CBGRID_OK);
        uint32_t columns = cbgrid_matrix_ncols(want.at);
        EXPECT(columns_of(&of, n, 0, columns, &same) == CBGRID_OK && is_same(same.at, want.at));
        cbgrid_matrix_free(same.at);
        for (uint32_t at = 0; at <= columns; at++) expect_parts(&of, n, at, want.at);
        expect_refusals(&of, n, 0, UINT32_MAX);
        expect_refusals(&of, n, 1, columns);
        cbgrid_matrix_free(want.at);
    }
    for (size_t k = 0; k < sizeof all / sizeof *all; k++) cbgrid_matrix_free(all[k]);
    EXPECT(live == 0);
}

/* No computation or sum has another number, and no power has no factors. No memory is taken. */
static void test_other_numbers(void) {
    struct cbgrid_matrix *a = kept_of(0, &whole);
    struct owned made = {NULL};
    struct slice64 sums = {NULL, 0};
    struct choice unknown[] = {{.number = COMPUTATIONS}, {.number = UINT32_MAX}, {.number = POWER}};
    left = 0;
    for (size_t n = 0; n < sizeof unknown / sizeof *unknown; n++) {
        EXPECT(cbgrid_kernel_computation(&unknown[n], (kept){a}, (kept){a}, (kept){a}, 0, 1, &made) == CBGRID_TEST);
        EXPECT(cbgrid_kernel_computation(&unknown[n], (kept){a}, (kept){a}, (kept){a}, 0, UINT32_MAX, &made) == CBGRID_TEST);
    }
    EXPECT(cbgrid_kernel_kept_share(0, (kept){a}, (kept){a}, 0, 1, &sums) == CBGRID_TEST);
    EXPECT(left == 0 && !made.at && !sums.at);
    left = -1;
    cbgrid_matrix_free(a);
    EXPECT(live == 0);
}

int main(void) {
    test_panels();
    test_masked_panels();
    test_joins();
    test_codes_of_joins();
    test_ends();
    test_codes_of_factors();
    test_codes_of_masked_factors();
    test_calls_on_panels();
    test_graphs_in_panels();
    test_ranges();
    test_other_numbers();
    return report();
}
