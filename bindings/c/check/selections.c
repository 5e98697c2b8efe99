/*
 * Kept matrices: selections, rows and columns by their numbers, totals, searches from several sources and from
 * initial values.
 */
#include "check.h"

enum choice {
    SELECT, APPLY, DIAGONAL, DIAGONAL_MATRIX, PART, EXTRACT, KRON, ASSIGN, EXCLUDE, REDUCE_ALL, LEVELS_FROM,
    DISTANCES_FROM, LEVELS_GIVEN, DISTANCES_GIVEN, CHOICES
};

struct selection {
    enum choice choice;
    uint32_t semiring, number; /* of a region or function */
    int64_t diagonal;
    uint64_t value;
    uint32_t row, row_end, column, column_end, rows[SIDE], columns[SIDE];
    size_t row_count, column_count;
    int all_rows, all_columns; /* so that the lists are those of all */
    struct dense a, b, want;
    uint64_t total;
    int code; /* what the call returns, with memory */
};

static int is_search(const struct selection *job) { return job->choice >= LEVELS_FROM; }

static int is_given(const struct selection *job) { return job->choice >= LEVELS_GIVEN; }

static int counts_edges(enum choice choice) { return choice == LEVELS_FROM || choice == LEVELS_GIVEN; }

static int is_in(const struct selection *job, uint32_t i, uint32_t j) {
    int64_t k = (int64_t)j - i;
    switch (job->number) {
        case CBGRID_LOWER: return k <= job->diagonal;
        case CBGRID_UPPER: return k >= job->diagonal;
        case CBGRID_DIAGONAL: return k == job->diagonal;
        default: return k != job->diagonal;
    }
}

static uint64_t replaced(const struct selection *job, uint32_t i, uint32_t j) {
    uint64_t x = job->a.at[i][j];
    switch (job->number) {
        case CBGRID_CONSTANT: return job->value;
        case CBGRID_SUM: return sum(job->semiring, x, job->value);
        case CBGRID_LEFT_PRODUCT: return product(job->semiring, job->value, x);
        case CBGRID_RIGHT_PRODUCT: return product(job->semiring, x, job->value);
        case CBGRID_ROW: return i;
        default: return j;
    }
}

/* The value at a place of a, unless it is in the part that b replaces. */
static uint64_t assigned(const struct selection *job, uint32_t i, uint32_t j) {
    uint32_t down = i - job->row, right = j - job->column;
    int is_covered = i >= job->row && j >= job->column && down < job->b.nrows && right < job->b.ncols;
    return is_covered ? job->b.at[down][right] : job->a.at[i][j];
}

/* The levels or distances from each source, side by side. */
static struct dense searched(const struct selection *job) {
    struct dense made = blank(CBGRID_MIN_PLUS, job->a.nrows, (uint32_t)job->column_count);
    for (uint32_t j = 0; j < made.ncols; j++) {
        struct dense column = dense_distances(&job->a, job->columns[j], counts_edges(job->choice));
        for (uint32_t i = 0; i < made.nrows; i++) made.at[i][j] = column.at[i][0];
    }
    return made;
}

/* The expected result of a selection. */
static struct dense selected(const struct selection *job, uint32_t nrows, uint32_t ncols) {
    const struct dense *a = &job->a, *b = &job->b;
    uint64_t zero = zero_of(job->semiring);
    struct dense made = blank(job->semiring, nrows, ncols);
    for (uint32_t i = 0; i < nrows; i++) {
        for (uint32_t j = 0; j < ncols; j++) {
            uint64_t *at = &made.at[i][j];
            switch (job->choice) {
                case SELECT: *at = is_in(job, i, j) ? a->at[i][j] : zero; break;
                case APPLY: *at = a->at[i][j] == zero ? zero : replaced(job, i, j); break;
                case DIAGONAL: *at = a->at[i][i]; break;
                case DIAGONAL_MATRIX: *at = i == j ? a->at[i][0] : zero; break;
                case PART: *at = a->at[job->row + i][job->column + j]; break;
                case EXTRACT: *at = a->at[job->rows[i]][job->columns[j]]; break;
                case ASSIGN: *at = assigned(job, i, j); break;
                case EXCLUDE: *at = b->at[i][j] == zero ? a->at[i][j] : zero; break;
                default:
                    *at = product(job->semiring, a->at[i / b->nrows][j / b->ncols], b->at[i % b->nrows][j % b->ncols]);
            }
        }
    }
    return made;
}

static struct dense wanted_selection(const struct selection *job) {
    const struct dense *a = &job->a, *b = &job->b;
    switch (job->choice) {
        case DIAGONAL: return selected(job, (uint32_t)least(a->nrows, a->ncols), 1);
        case DIAGONAL_MATRIX: return selected(job, a->nrows, a->nrows);
        case PART: return selected(job, job->row_end - job->row, job->column_end - job->column);
        case EXTRACT: return selected(job, (uint32_t)job->row_count, (uint32_t)job->column_count);
        case KRON: return selected(job, a->nrows * b->nrows, a->ncols * b->ncols);
        case LEVELS_FROM:
        case DISTANCES_FROM: return searched(job);
        case LEVELS_GIVEN:
        case DISTANCES_GIVEN: return dense_relaxed(a, b, counts_edges(job->choice));
        default: return selected(job, a->nrows, a->ncols);
    }
}

/* Some numbers below a side, perhaps none. */
static size_t draw_numbers(uint32_t below, uint32_t *numbers) {
    size_t count = below ? draw_to(0, SIDE) : 0;
    for (size_t n = 0; n < count; n++) numbers[n] = draw(below);
    return count;
}

/* All numbers below a side. */
static size_t all_numbers(uint32_t below, uint32_t *numbers) {
    for (uint32_t n = 0; n < below; n++) numbers[n] = n;
    return below;
}

static void draw_range(uint32_t below, uint32_t *from, uint32_t *to) {
    *to = draw_to(0, below);
    *from = *to - draw_to(0, *to);
}

static void make_selection(struct selection *job, enum choice choice, uint32_t semiring) {
    uint32_t m = draw_to(0, SIDE), n = choice == DIAGONAL_MATRIX && draw(8) ? 1 : draw_to(0, SIDE);
    if (choice == KRON) m = draw_to(0, SIDE / 3), n = draw_to(0, SIDE / 3);
    if (choice >= LEVELS_FROM) n = m, semiring = counts_edges(choice) ? CBGRID_OR_AND : CBGRID_MIN_PLUS;
    job->choice = choice, job->semiring = semiring;
    job->number = draw(choice == APPLY ? 6 : 4);
    job->diagonal = draw(8) ? (int64_t)draw(15) - 7 : draw(2) ? INT64_MAX : INT64_MIN;
    job->value = value_of(semiring);
    job->a = random_dense(semiring, m, n);
    job->b = random_dense(semiring, draw_to(1, 3), draw_to(1, 3));
    if (choice == ASSIGN) job->b = random_dense(semiring, draw_to(0, m), draw_to(0, n));
    if (choice == EXCLUDE) job->b = random_dense(semiring, m, n);
    if (choice >= LEVELS_GIVEN) job->b = random_dense(CBGRID_MIN_PLUS, m, 1);
    draw_range(m, &job->row, &job->row_end);
    draw_range(n, &job->column, &job->column_end);
    if (choice == ASSIGN) job->row = draw(m - job->b.nrows + 1), job->column = draw(n - job->b.ncols + 1);
    job->row_count = draw_numbers(m, job->rows), job->column_count = draw_numbers(n, job->columns);
    job->all_rows = choice == EXTRACT && !draw(3), job->all_columns = choice == EXTRACT && !draw(3);
    if (job->all_rows) job->row_count = all_numbers(m, job->rows);
    if (job->all_columns) job->column_count = all_numbers(n, job->columns);
    job->code = CBGRID_OK;
    if (choice == DIAGONAL_MATRIX && n != 1) job->code = CBGRID_NOT_COLUMN;
    uint32_t last = job->number == CBGRID_ROW ? m : job->number == CBGRID_COLUMN ? n : 0;
    if (choice == APPLY && semiring == CBGRID_OR_AND && last > 2) job->code = CBGRID_VALUE;
    if (job->code == CBGRID_OK) job->want = wanted_selection(job);
    job->total = zero_of(semiring);
    for (uint32_t i = 0; i < m; i++) {
        for (uint32_t j = 0; j < n; j++) job->total = sum(semiring, job->total, job->a.at[i][j]);
    }
}

static int extract(const struct selection *job, const struct cbgrid_matrix *a, struct cbgrid_matrix **out) {
    const uint32_t *rows = job->row_count && !job->all_rows ? job->rows : NULL;
    const uint32_t *columns = job->column_count && !job->all_columns ? job->columns : NULL;
    size_t row_count = job->all_rows ? CBGRID_ALL : job->row_count;
    size_t column_count = job->all_columns ? CBGRID_ALL : job->column_count;
    return cbgrid_matrix_extract(a, rows, row_count, columns, column_count, NULL, out);
}

static int call_selection(const struct selection *job, const struct cbgrid_matrix *a, const struct cbgrid_matrix *b,
                          struct cbgrid_matrix **out, uint64_t *total) {
    const uint32_t *columns = job->column_count ? job->columns : NULL;
    switch (job->choice) {
        case SELECT: return cbgrid_matrix_select(a, job->number, job->diagonal, out);
        case APPLY: return cbgrid_matrix_apply(a, job->number, job->value, out);
        case DIAGONAL: return cbgrid_matrix_diagonal(a, out);
        case DIAGONAL_MATRIX: return cbgrid_matrix_diagonal_matrix(a, out);
        case PART: return cbgrid_matrix_part(a, job->row, job->row_end, job->column, job->column_end, out);
        case EXTRACT: return extract(job, a, out);
        case KRON: return cbgrid_matrix_kron(a, b, out);
        case ASSIGN: return cbgrid_matrix_assign(a, job->row, job->column, b, out);
        case EXCLUDE: return cbgrid_matrix_exclude(a, b, out);
        case LEVELS_FROM: return cbgrid_matrix_levels_from(a, columns, job->column_count, NULL, out);
        case DISTANCES_FROM: return cbgrid_matrix_distances_from(a, columns, job->column_count, NULL, out);
        case LEVELS_GIVEN: return cbgrid_matrix_levels_given(a, b, out);
        case DISTANCES_GIVEN: return cbgrid_matrix_distances_given(a, b, out);
        default: return cbgrid_matrix_reduce_all(a, total);
    }
}

/* Makes a selection with each allocation refused in turn. Returns how many were. */
static long run_selection(const struct selection *job) {
    struct cbgrid_matrix *a, *b, *made, *const was = (struct cbgrid_matrix *)&made;
    uint64_t total = 77;
    long refused = 0;
    EXPECT(keep(job->semiring, &job->a, (int)draw(4), &a) == CBGRID_OK);
    EXPECT(keep(is_given(job) ? CBGRID_MIN_PLUS : job->semiring, &job->b, (int)draw(4), &b) == CBGRID_OK);
    long before = live;
    for (long n = FIRST_REFUSED, more = 1; more; n++) {
        made = was, left = n;
        int code = call_selection(job, a, b, &made, &total);
        more = left < 0;
        left = -1;
        refused += code == CBGRID_MEMORY;
        EXPECT(code == job->code || (more && code == CBGRID_MEMORY));
        if (code || job->choice == REDUCE_ALL) {
            EXPECT(made == was);
        } else {
            EXPECT(look(is_search(job) ? CBGRID_MIN_PLUS : job->semiring, made, &job->want) == CBGRID_OK);
            cbgrid_matrix_free(made);
        }
        EXPECT(total == (job->choice == REDUCE_ALL ? job->total : 77));
        EXPECT(live == before);
    }
    EXPECT(look(job->semiring, a, &job->a) == CBGRID_OK);
    cbgrid_matrix_free(a);
    cbgrid_matrix_free(b);
    EXPECT(live == 0);
    return refused;
}

static void test_random_selections(int rounds) {
    static struct selection job;
    long refused = 0;
    for (int round = 0; round < rounds; round++) {
        for (int choice = 0; choice < CHOICES; choice++) {
            for (uint32_t semiring = 0; semiring < TRIED; semiring++) {
                make_selection(&job, (enum choice)choice, semiring);
                refused += run_selection(&job);
            }
        }
    }
    EXPECT((refused > 0) == !FIRST_REFUSED);
    printf("memory of selections was refused %ld times\n", refused);
}

/* The codes of a matrix of 2 x 3, in the order of the checks, before any memory is taken. */
static void test_selection_codes(void) {
    static const struct cbgrid_triple triples[] = {{0, 0, 1}, {1, 0, 1}, {0, 2, 1}};
    static const uint32_t good_rows[] = {1, 0}, bad_rows[] = {0, 2}, bad_columns[] = {3};
    struct cbgrid_matrix *a, *b, *huge, *square, *lengths, *one, *flat, *unset = NULL;
    struct cbgrid_matrix *const was = (struct cbgrid_matrix *)&unset, *out = was;
    uint64_t total = 77;
    EXPECT(cbgrid_matrix_of_triples(CBGRID_OR_AND, 2, 3, triples, 3, NULL, &a) == CBGRID_OK);
    EXPECT(cbgrid_matrix_of_triples(CBGRID_MIN_PLUS, 2, 3, triples, 3, NULL, &b) == CBGRID_OK);
    EXPECT(cbgrid_matrix_of_triples(CBGRID_OR_AND, CBGRID_LIMIT, 1, NULL, 0, NULL, &huge) == CBGRID_OK);
    EXPECT(cbgrid_matrix_of_triples(CBGRID_OR_AND, 2, 2, triples, 2, NULL, &square) == CBGRID_OK);
    EXPECT(cbgrid_matrix_of_triples(CBGRID_MIN_PLUS, 2, 2, triples, 2, NULL, &lengths) == CBGRID_OK);
    EXPECT(cbgrid_matrix_of_triples(CBGRID_MIN_PLUS, 1, 1, triples, 1, NULL, &one) == CBGRID_OK);
    EXPECT(cbgrid_matrix_of_triples(CBGRID_OR_AND, 0, 3, NULL, 0, NULL, &flat) == CBGRID_OK);
    left = 0;
    EXPECT(cbgrid_matrix_select(a, 4, 0, &out) == CBGRID_TEST);
    EXPECT(cbgrid_matrix_apply(a, 6, 2, &out) == CBGRID_TEST);
    EXPECT(cbgrid_matrix_apply(a, UINT32_MAX, 2, &out) == CBGRID_TEST);
    EXPECT(cbgrid_matrix_apply(a, CBGRID_CONSTANT, 2, &out) == CBGRID_VALUE);
    EXPECT(cbgrid_matrix_apply(a, CBGRID_SUM, 2, &out) == CBGRID_VALUE);
    EXPECT(cbgrid_matrix_apply(a, CBGRID_COLUMN, 0, &out) == CBGRID_VALUE);
    EXPECT(cbgrid_matrix_apply(huge, CBGRID_ROW, 0, &out) == CBGRID_VALUE);
    EXPECT(cbgrid_matrix_apply(flat, CBGRID_CONSTANT, 2, &out) == CBGRID_VALUE);
    EXPECT(cbgrid_matrix_apply(flat, CBGRID_LEFT_PRODUCT, 2, &out) == CBGRID_VALUE);
    EXPECT(cbgrid_matrix_apply(flat, CBGRID_COLUMN, 0, &out) == CBGRID_VALUE);
    EXPECT(cbgrid_matrix_diagonal_matrix(a, &out) == CBGRID_NOT_COLUMN);
    EXPECT(cbgrid_matrix_part(a, 0, 3, 0, 3, &out) == CBGRID_PLACE);
    EXPECT(cbgrid_matrix_part(a, 0, 2, 0, UINT32_MAX, &out) == CBGRID_PLACE);
    EXPECT(cbgrid_matrix_part(a, 2, 1, 0, 3, &out) == CBGRID_PLACE);
    EXPECT(cbgrid_matrix_part(a, 0, 2, 3, 0, &out) == CBGRID_PLACE);
    EXPECT(cbgrid_matrix_extract(a, bad_rows, 2, good_rows, 2, NULL, &out) == CBGRID_PLACE);
    EXPECT(cbgrid_matrix_extract(a, good_rows, 2, bad_columns, 1, NULL, &out) == CBGRID_PLACE);
    EXPECT(cbgrid_matrix_extract(a, NULL, CBGRID_ALL, bad_columns, 1, NULL, &out) == CBGRID_PLACE);
    EXPECT(cbgrid_matrix_extract(a, bad_rows, 2, NULL, CBGRID_ALL, NULL, &out) == CBGRID_PLACE);
    EXPECT(cbgrid_matrix_kron(a, b, &out) == CBGRID_MIXED);
    EXPECT(cbgrid_matrix_kron(huge, b, &out) == CBGRID_MIXED);
    EXPECT(cbgrid_matrix_kron(huge, a, &out) == CBGRID_TOO_LARGE);
    EXPECT(cbgrid_matrix_kron(huge, huge, &out) == CBGRID_TOO_LARGE);
    EXPECT(cbgrid_matrix_assign(a, 9, 9, b, &out) == CBGRID_MIXED);
    EXPECT(cbgrid_matrix_assign(a, 0, 1, a, &out) == CBGRID_PLACE);
    EXPECT(cbgrid_matrix_assign(a, 1, 0, a, &out) == CBGRID_PLACE);
    EXPECT(cbgrid_matrix_assign(a, UINT32_MAX, 0, a, &out) == CBGRID_PLACE);
    EXPECT(cbgrid_matrix_exclude(huge, b, &out) == CBGRID_MIXED);
    EXPECT(cbgrid_matrix_exclude(huge, a, &out) == CBGRID_SHAPES);
    EXPECT(cbgrid_matrix_levels_from(b, bad_rows, 2, NULL, &out) == CBGRID_MIXED);
    EXPECT(cbgrid_matrix_distances_from(a, bad_rows, 2, NULL, &out) == CBGRID_MIXED);
    EXPECT(cbgrid_matrix_levels_from(a, bad_rows, 2, NULL, &out) == CBGRID_NOT_SQUARE);
    EXPECT(cbgrid_matrix_distances_from(b, NULL, 0, NULL, &out) == CBGRID_NOT_SQUARE);
    EXPECT(cbgrid_matrix_levels_from(square, bad_rows, 2, NULL, &out) == CBGRID_SOURCE);
    EXPECT(cbgrid_matrix_distances_from(lengths, bad_rows, 2, NULL, &out) == CBGRID_SOURCE);
    EXPECT(cbgrid_matrix_levels_given(b, a, &out) == CBGRID_MIXED);
    EXPECT(cbgrid_matrix_distances_given(a, a, &out) == CBGRID_MIXED);
    EXPECT(cbgrid_matrix_levels_given(a, a, &out) == CBGRID_NOT_SQUARE);
    EXPECT(cbgrid_matrix_distances_given(b, a, &out) == CBGRID_NOT_SQUARE);
    EXPECT(cbgrid_matrix_levels_given(square, huge, &out) == CBGRID_MIXED);
    EXPECT(cbgrid_matrix_distances_given(lengths, square, &out) == CBGRID_MIXED);
    EXPECT(cbgrid_matrix_levels_given(square, b, &out) == CBGRID_SHAPES);
    EXPECT(cbgrid_matrix_levels_given(square, one, &out) == CBGRID_SHAPES);
    EXPECT(cbgrid_matrix_distances_given(lengths, b, &out) == CBGRID_SHAPES);
    EXPECT(cbgrid_matrix_distances_given(lengths, one, &out) == CBGRID_SHAPES);
    EXPECT(cbgrid_matrix_select(NULL, 0, 0, &out) == CBGRID_NULL_POINTER);
    EXPECT(cbgrid_matrix_select(a, 4, 0, NULL) == CBGRID_NULL_POINTER);
    EXPECT(cbgrid_matrix_apply(NULL, 0, 0, &out) == CBGRID_NULL_POINTER);
    EXPECT(cbgrid_matrix_apply(a, 6, 0, NULL) == CBGRID_NULL_POINTER);
    EXPECT(cbgrid_matrix_diagonal(NULL, &out) == CBGRID_NULL_POINTER);
    EXPECT(cbgrid_matrix_diagonal(a, NULL) == CBGRID_NULL_POINTER);
    EXPECT(cbgrid_matrix_diagonal_matrix(NULL, &out) == CBGRID_NULL_POINTER);
    EXPECT(cbgrid_matrix_diagonal_matrix(a, NULL) == CBGRID_NULL_POINTER);
    EXPECT(cbgrid_matrix_part(NULL, 0, 0, 0, 0, &out) == CBGRID_NULL_POINTER);
    EXPECT(cbgrid_matrix_part(a, 0, 9, 0, 0, NULL) == CBGRID_NULL_POINTER);
    EXPECT(cbgrid_matrix_extract(NULL, good_rows, 2, good_rows, 2, NULL, &out) == CBGRID_NULL_POINTER);
    EXPECT(cbgrid_matrix_extract(a, NULL, 2, bad_columns, 1, NULL, &out) == CBGRID_NULL_POINTER);
    EXPECT(cbgrid_matrix_extract(a, bad_rows, 2, NULL, 1, NULL, &out) == CBGRID_NULL_POINTER);
    EXPECT(cbgrid_matrix_extract(a, bad_rows, 2, good_rows, 2, NULL, NULL) == CBGRID_NULL_POINTER);
    EXPECT(cbgrid_matrix_kron(NULL, a, &out) == CBGRID_NULL_POINTER);
    EXPECT(cbgrid_matrix_kron(a, NULL, &out) == CBGRID_NULL_POINTER);
    EXPECT(cbgrid_matrix_kron(a, b, NULL) == CBGRID_NULL_POINTER);
    EXPECT(cbgrid_matrix_assign(NULL, 0, 0, a, &out) == CBGRID_NULL_POINTER);
    EXPECT(cbgrid_matrix_assign(a, 0, 0, NULL, &out) == CBGRID_NULL_POINTER);
    EXPECT(cbgrid_matrix_assign(a, 0, 0, b, NULL) == CBGRID_NULL_POINTER);
    EXPECT(cbgrid_matrix_exclude(NULL, a, &out) == CBGRID_NULL_POINTER);
    EXPECT(cbgrid_matrix_exclude(a, NULL, &out) == CBGRID_NULL_POINTER);
    EXPECT(cbgrid_matrix_exclude(a, b, NULL) == CBGRID_NULL_POINTER);
    EXPECT(cbgrid_matrix_levels_from(NULL, bad_rows, 2, NULL, &out) == CBGRID_NULL_POINTER);
    EXPECT(cbgrid_matrix_levels_from(a, NULL, 1, NULL, &out) == CBGRID_NULL_POINTER);
    EXPECT(cbgrid_matrix_levels_from(a, bad_rows, 2, NULL, NULL) == CBGRID_NULL_POINTER);
    EXPECT(cbgrid_matrix_distances_from(NULL, bad_rows, 2, NULL, &out) == CBGRID_NULL_POINTER);
    EXPECT(cbgrid_matrix_distances_from(b, NULL, 1, NULL, &out) == CBGRID_NULL_POINTER);
    EXPECT(cbgrid_matrix_distances_from(b, bad_rows, 2, NULL, NULL) == CBGRID_NULL_POINTER);
    EXPECT(cbgrid_matrix_levels_given(NULL, b, &out) == CBGRID_NULL_POINTER);
    EXPECT(cbgrid_matrix_levels_given(a, NULL, &out) == CBGRID_NULL_POINTER);
    EXPECT(cbgrid_matrix_levels_given(a, b, NULL) == CBGRID_NULL_POINTER);
    EXPECT(cbgrid_matrix_distances_given(NULL, b, &out) == CBGRID_NULL_POINTER);
    EXPECT(cbgrid_matrix_distances_given(b, NULL, &out) == CBGRID_NULL_POINTER);
    EXPECT(cbgrid_matrix_distances_given(b, b, NULL) == CBGRID_NULL_POINTER);
    EXPECT(cbgrid_matrix_reduce_all(NULL, &total) == CBGRID_NULL_POINTER && total == 77);
    EXPECT(cbgrid_matrix_reduce_all(a, NULL) == CBGRID_NULL_POINTER);
    EXPECT(cbgrid_matrix_reduce_all(a, &total) == CBGRID_OK && total == 1);
    EXPECT(left == 0 && out == was);
    left = -1;
    cbgrid_matrix_free(a);
    cbgrid_matrix_free(b);
    cbgrid_matrix_free(huge);
    cbgrid_matrix_free(square);
    cbgrid_matrix_free(lengths);
    cbgrid_matrix_free(one);
    cbgrid_matrix_free(flat);
    EXPECT(live == 0);
}

/* A matrix without rows and columns is a part of any other, at its last corner too. */
static void test_no_part(void) {
    static const struct cbgrid_triple last = {CBGRID_LIMIT - 1, CBGRID_LIMIT - 1, 7};
    struct cbgrid_matrix *huge, *none, *made, *out = NULL;
    EXPECT(cbgrid_matrix_of_triples(0, CBGRID_LIMIT, CBGRID_LIMIT, &last, 1, NULL, &huge) == CBGRID_OK);
    EXPECT(cbgrid_matrix_of_triples(0, 0, 0, NULL, 0, NULL, &none) == CBGRID_OK);
    EXPECT(cbgrid_matrix_assign(huge, CBGRID_LIMIT, 0, none, &made) == CBGRID_OK && is_same(made, huge));
    cbgrid_matrix_free(made);
    EXPECT(cbgrid_matrix_assign(huge, UINT32_MAX, 0, none, &out) == CBGRID_PLACE && !out);
    EXPECT(cbgrid_matrix_kron(huge, none, &made) == CBGRID_OK && is_same(made, none));
    cbgrid_matrix_free(made);
    EXPECT(cbgrid_matrix_part(none, 0, 0, 0, 0, &made) == CBGRID_OK && is_same(made, none));
    cbgrid_matrix_free(made);
    cbgrid_matrix_free(huge);
    cbgrid_matrix_free(none);
    EXPECT(live == 0);
}

/* A matrix whose sides are the limit costs what its one entry costs. */
static void test_huge_selections(void) {
    static const uint32_t last = CBGRID_LIMIT - 1, numbers[] = {0, CBGRID_LIMIT - 1};
    static const struct cbgrid_triple triples[] = {{CBGRID_LIMIT - 1, CBGRID_LIMIT - 1, UINT64_MAX}, {0, 0, 2}};
    struct cbgrid_matrix *a, *made, *square;
    uint64_t value;
    EXPECT(cbgrid_matrix_of_triples(0, CBGRID_LIMIT, CBGRID_LIMIT, triples, 2, NULL, &a) == CBGRID_OK);
    EXPECT(cbgrid_matrix_reduce_all(a, &value) == CBGRID_OK && value == 1);
    EXPECT(cbgrid_matrix_select(a, CBGRID_LOWER, -1, &made) == CBGRID_OK && cbgrid_matrix_entries(made) == 0);
    cbgrid_matrix_free(made);
    EXPECT(cbgrid_matrix_select(a, CBGRID_OFF_DIAGONAL, INT64_MIN, &made) == CBGRID_OK && cbgrid_matrix_entries(made) == 2);
    cbgrid_matrix_free(made);
    EXPECT(cbgrid_matrix_apply(a, CBGRID_SUM, 1, &made) == CBGRID_OK && cbgrid_matrix_entries(made) == 1);
    cbgrid_matrix_free(made);
    EXPECT(cbgrid_matrix_apply(a, CBGRID_ROW, 0, &made) == CBGRID_OK);
    EXPECT(cbgrid_matrix_value(made, last, last, &value) == CBGRID_OK && value == last);
    cbgrid_matrix_free(made);
    EXPECT(cbgrid_matrix_diagonal(a, &made) == CBGRID_OK && cbgrid_matrix_entries(made) == 2);
    EXPECT(cbgrid_matrix_diagonal_matrix(made, &square) == CBGRID_OK && cbgrid_matrix_ncols(square) == CBGRID_LIMIT);
    EXPECT(cbgrid_matrix_value(square, last, last, &value) == CBGRID_OK && value == UINT64_MAX);
    cbgrid_matrix_free(made);
    cbgrid_matrix_free(square);
    EXPECT(cbgrid_matrix_part(a, 1, CBGRID_LIMIT, last, CBGRID_LIMIT, &made) == CBGRID_OK);
    EXPECT(cbgrid_matrix_value(made, last - 1, 0, &value) == CBGRID_OK && value == UINT64_MAX);
    cbgrid_matrix_free(made);
    EXPECT(cbgrid_matrix_extract(a, numbers, 2, &last, 1, NULL, &made) == CBGRID_OK && cbgrid_matrix_entries(made) == 1);
    EXPECT(cbgrid_matrix_kron(made, made, &square) == CBGRID_OK && cbgrid_matrix_nrows(square) == 4);
    EXPECT(cbgrid_matrix_value(square, 3, 0, &value) == CBGRID_OK && value == 1);
    cbgrid_matrix_free(square);
    EXPECT(cbgrid_matrix_assign(a, 7, last, made, &square) == CBGRID_OK && cbgrid_matrix_entries(square) == 3);
    EXPECT(cbgrid_matrix_value(square, 8, last, &value) == CBGRID_OK && value == UINT64_MAX);
    cbgrid_matrix_free(made);
    EXPECT(cbgrid_matrix_exclude(square, a, &made) == CBGRID_OK && cbgrid_matrix_entries(made) == 1);
    cbgrid_matrix_free(made);
    cbgrid_matrix_free(square);
    cbgrid_matrix_free(a);
    EXPECT(live == 0);
}

void test_selections(int is_few) {
    test_selection_codes();
    test_no_part();
    test_huge_selections();
    test_random_selections(ROUNDS(is_few, 2, 100));
}
