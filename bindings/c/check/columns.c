/* Calls on columns and on diagonals of some thousands of entries, and on lists of as many numbers. */
#include "check.h"

#define COUNT 6000

/* The nth entry of a matrix. */
typedef struct cbgrid_triple entry(uint32_t n);

static struct cbgrid_triple in_column(uint32_t n) { return (struct cbgrid_triple){n, 0, n + 1}; }
static struct cbgrid_triple in_row(uint32_t n) { return (struct cbgrid_triple){0, n, n + 1}; }
static struct cbgrid_triple next_in_column(uint32_t n) { return (struct cbgrid_triple){n, 0, n + 2}; }
static struct cbgrid_triple twice_in_column(uint32_t n) { return (struct cbgrid_triple){n, 0, 2 * n + 2}; }
static struct cbgrid_triple square_in_column(uint32_t n) {
    return (struct cbgrid_triple){n, 0, (uint64_t)(n + 1) * (n + 1)};
}
static struct cbgrid_triple one_in_column(uint32_t n) { return (struct cbgrid_triple){n, 0, 1}; }
static struct cbgrid_triple on_diagonal(uint32_t n) { return (struct cbgrid_triple){n, n, n + 1}; }
static struct cbgrid_triple back_on_diagonal(uint32_t n) { return (struct cbgrid_triple){n, n, COUNT - n}; }
static struct cbgrid_triple zero_on_diagonal(uint32_t n) { return (struct cbgrid_triple){n, n, 0}; }
static struct cbgrid_triple one_on_diagonal(uint32_t n) { return (struct cbgrid_triple){n, n, 1}; }
/* A path from vertex 0, whose edges have the length 1 or 2, and what searches find from there. */
static struct cbgrid_triple step(uint32_t n) { return (struct cbgrid_triple){n, n + 1, 1}; }
static struct cbgrid_triple road(uint32_t n) { return (struct cbgrid_triple){n, n + 1, 2}; }
static struct cbgrid_triple level(uint32_t n) { return (struct cbgrid_triple){n, 0, n}; }
static struct cbgrid_triple distance(uint32_t n) { return (struct cbgrid_triple){n, 0, 2 * n}; }
static struct cbgrid_triple parent(uint32_t n) { return (struct cbgrid_triple){n + 1, 0, n}; }
static struct cbgrid_triple first(uint32_t n) { return (struct cbgrid_triple){n, 0, 0}; }

static struct cbgrid_matrix *kept_of(uint32_t semiring, uint32_t nrows, uint32_t ncols, entry *nth, uint32_t count) {
    static struct cbgrid_triple triples[COUNT];
    struct cbgrid_matrix *made = NULL;
    for (uint32_t n = 0; n < count; n++) triples[n] = nth(n);
    EXPECT(cbgrid_matrix_of_triples(semiring, nrows, ncols, triples, count, NULL, &made) == CBGRID_OK);
    return made;
}

/* Whether a call has made the matrix with these entries, which it then frees. */
static int makes(int code, struct cbgrid_matrix **made, uint32_t semiring, uint32_t nrows, uint32_t ncols, entry *nth,
                 uint32_t count) {
    struct cbgrid_matrix *want = kept_of(semiring, nrows, ncols, nth, count);
    int holds = code == CBGRID_OK && is_same(*made, want);
    cbgrid_matrix_free(want);
    cbgrid_matrix_free(*made);
    *made = NULL;
    return holds;
}

#define MAKES(call, semiring, nrows, ncols, nth, count) \
    EXPECT(makes((call), &made, (semiring), (nrows), (ncols), (nth), (count)))
#define COLUMN(call, nth) MAKES(call, CBGRID_PLUS_TIMES, COUNT, 1, nth, COUNT)
#define FOUND(call, nth, count) MAKES(call, CBGRID_MIN_PLUS, COUNT, 1, nth, count)

static void test_long_columns(void) {
    struct cbgrid_matrix *made = NULL;
    struct cbgrid_matrix *d = kept_of(0, COUNT, COUNT, on_diagonal, COUNT), *x = kept_of(0, COUNT, 1, in_column, COUNT);
    struct cbgrid_matrix *row = kept_of(0, 1, COUNT, in_row, COUNT), *one = kept_of(0, 1, 1, one_on_diagonal, 1);
    struct cbgrid_matrix *none = kept_of(0, COUNT, 1, in_column, 0);
    static uint32_t all[COUNT], back[COUNT], zero[] = {0};
    uint64_t total = 0;
    for (uint32_t n = 0; n < COUNT; n++) all[n] = n, back[n] = COUNT - 1 - n;
    COLUMN(cbgrid_matrix_multiply(d, x, NULL, &made), square_in_column);
    COLUMN(cbgrid_matrix_diagonal(d, &made), in_column);
    COLUMN(cbgrid_matrix_row_sums(d, &made), in_column);
    COLUMN(cbgrid_matrix_transpose(row, &made), in_column);
    COLUMN(cbgrid_matrix_add(x, x, &made), twice_in_column);
    COLUMN(cbgrid_matrix_times(x, x, &made), square_in_column);
    COLUMN(cbgrid_matrix_prune(x, CBGRID_EQUAL, 0, &made), in_column);
    COLUMN(cbgrid_matrix_select(x, CBGRID_LOWER, 0, &made), in_column);
    COLUMN(cbgrid_matrix_apply(x, CBGRID_SUM, 1, &made), next_in_column);
    COLUMN(cbgrid_matrix_part(x, 0, COUNT, 0, 1, &made), in_column);
    COLUMN(cbgrid_matrix_extract(x, all, COUNT, zero, 1, NULL, &made), in_column);
    COLUMN(cbgrid_matrix_kron(x, one, &made), in_column);
    COLUMN(cbgrid_matrix_kron(one, x, &made), in_column);
    COLUMN(cbgrid_matrix_assign(none, 0, 0, x, &made), in_column);
    COLUMN(cbgrid_matrix_exclude(x, none, &made), in_column);
    COLUMN(cbgrid_matrix_update(x, x, x, CBGRID_ACCUMULATE, &made), twice_in_column);
    COLUMN(cbgrid_matrix_update(x, x, NULL, CBGRID_ACCUMULATE, &made), twice_in_column);
    COLUMN(cbgrid_matrix_multiply(d, x, &(struct cbgrid_how){.mask = none, .complement = 1}, &made), square_in_column);
    COLUMN(cbgrid_matrix_multiply(d, x, &(struct cbgrid_how){.mask = x}, &made), square_in_column);
    COLUMN(cbgrid_matrix_multiply(d, row, &(struct cbgrid_how){.transpose_a = 1, .transpose_b = 1}, &made), square_in_column);
    COLUMN(cbgrid_matrix_multiply(d, row, &(struct cbgrid_how){.mask = x, .transpose_b = 1, .threads = 3}, &made),
           square_in_column);
    COLUMN(cbgrid_matrix_row_degrees(d, &made), one_in_column);
    COLUMN(cbgrid_matrix_column_degrees(d, &made), one_in_column);
    MAKES(cbgrid_matrix_column_sums(d, &made), 0, 1, COUNT, in_row, COUNT);
    MAKES(cbgrid_matrix_power(d, 1, &made), 0, COUNT, COUNT, on_diagonal, COUNT);
    MAKES(cbgrid_matrix_diagonal_matrix(x, &made), 0, COUNT, COUNT, on_diagonal, COUNT);
    MAKES(cbgrid_matrix_extract(d, back, COUNT, back, COUNT, NULL, &made), 0, COUNT, COUNT, back_on_diagonal, COUNT);
    EXPECT(cbgrid_matrix_reduce_all(x, &total) == CBGRID_OK && total == (uint64_t)COUNT * (COUNT + 1) / 2);
    cbgrid_matrix_free(d);
    cbgrid_matrix_free(x);
    cbgrid_matrix_free(row);
    cbgrid_matrix_free(one);
    cbgrid_matrix_free(none);
    EXPECT(live == 0);
}

static void test_long_searches(void) {
    struct cbgrid_matrix *made = NULL, *loops = kept_of(CBGRID_OR_AND, COUNT, COUNT, one_on_diagonal, COUNT);
    struct cbgrid_matrix *lengths = kept_of(CBGRID_MIN_PLUS, COUNT, COUNT, on_diagonal, COUNT);
    struct cbgrid_matrix *steps = kept_of(CBGRID_OR_AND, COUNT, COUNT, step, COUNT - 1);
    struct cbgrid_matrix *roads = kept_of(CBGRID_MIN_PLUS, COUNT, COUNT, road, COUNT - 1);
    struct cbgrid_matrix *given = kept_of(CBGRID_MIN_PLUS, COUNT, 1, in_column, COUNT);
    static uint32_t all[COUNT];
    uint64_t triangles = 77;
    for (uint32_t n = 0; n < COUNT; n++) all[n] = n;
    FOUND(cbgrid_matrix_levels(steps, 0, &made), level, COUNT);
    FOUND(cbgrid_matrix_distances(roads, 0, &made), distance, COUNT);
    FOUND(cbgrid_matrix_levels_given(steps, given, &made), in_column, COUNT);
    FOUND(cbgrid_matrix_distances_given(roads, given, &made), in_column, COUNT);
    FOUND(cbgrid_matrix_parents(steps, 0, &made), parent, COUNT - 1);
    FOUND(cbgrid_matrix_components(steps, &made), first, COUNT);
    MAKES(cbgrid_matrix_levels_from(loops, all, COUNT, NULL, &made), CBGRID_MIN_PLUS, COUNT, COUNT, zero_on_diagonal, COUNT);
    MAKES(cbgrid_matrix_distances_from(lengths, all, COUNT, NULL, &made), CBGRID_MIN_PLUS, COUNT, COUNT, zero_on_diagonal,
          COUNT);
    EXPECT(cbgrid_matrix_triangles(steps, &triangles) == CBGRID_OK && triangles == 0);
    cbgrid_matrix_free(loops);
    cbgrid_matrix_free(lengths);
    cbgrid_matrix_free(steps);
    cbgrid_matrix_free(roads);
    cbgrid_matrix_free(given);
    EXPECT(live == 0);
}

/* Lists of as many columns, and of as many rows, there and back. */
static void test_long_lists(void) {
    struct cbgrid_matrix *made = NULL, *d = kept_of(0, COUNT, COUNT, on_diagonal, COUNT);
    struct cbgrid_matrix *x = kept_of(0, COUNT, 1, in_column, COUNT);
    struct cbgrid_columns of_d, of_x;
    EXPECT(!cbgrid_matrix_columns(d, &of_d) && !cbgrid_matrix_columns(x, &of_x));
    MAKES(cbgrid_matrix_of_columns(0, &of_d, NULL, &made), 0, COUNT, COUNT, on_diagonal, COUNT);
    MAKES(cbgrid_matrix_of_rows(0, &of_d, NULL, &made), 0, COUNT, COUNT, on_diagonal, COUNT);
    COLUMN(cbgrid_matrix_of_columns(0, &of_x, NULL, &made), in_column);
    MAKES(cbgrid_matrix_of_rows(0, &of_x, NULL, &made), 0, 1, COUNT, in_row, COUNT);
    cbgrid_free_columns(&of_d);
    cbgrid_free_columns(&of_x);
    cbgrid_matrix_free(d);
    cbgrid_matrix_free(x);
    EXPECT(live == 0);
}

void test_columns(void) {
    test_long_columns();
    test_long_searches();
    test_long_lists();
}
