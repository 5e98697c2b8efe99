/* Several threads on one matrix, and calls by several threads, beside the same by one. */
#define _POSIX_C_SOURCE 200809L

#include <pthread.h>
#include <sys/wait.h>
#include <unistd.h>

#include "check.h"

/* Several threads use one matrix. */
static struct cbgrid_matrix *shared;

static void *multiply_often(void *count) {
    for (int n = 0; n < 200; n++) {
        struct cbgrid_matrix *made;
        if (cbgrid_matrix_multiply(shared, shared, NULL, &made)) continue;
        *(uint64_t *)count += cbgrid_matrix_entries(made);
        cbgrid_matrix_free(made);
    }
    return NULL;
}

static void test_shared_matrix(void) {
    static const struct cbgrid_triple triples[] = {{0, 0, 1}, {0, 1, 1}, {1, 0, 1}};
    pthread_t threads[4];
    uint64_t counts[4] = {0, 0, 0, 0};
    EXPECT(cbgrid_matrix_of_triples(0, 2, 2, triples, 3, NULL, &shared) == CBGRID_OK);
    for (int i = 0; i < 4; i++) EXPECT(!pthread_create(&threads[i], NULL, multiply_often, &counts[i]));
    for (int i = 0; i < 4; i++) EXPECT(!pthread_join(threads[i], NULL) && counts[i] == 800);
    cbgrid_matrix_free(shared);
}

/* The sides of two factors (rows, inner side, columns), and one in how many places of each has an entry (0: none). */
struct factors {
    uint32_t nrows, inner, ncols, one_of_a, one_of_b;
};

/* No sides, no entries, one share, as many shares as columns or more, and columns of many products. */
static const struct factors factors[] = {
    {0, 0, 0, 0, 0}, {5, 0, 6, 0, 0}, {0, 6, 5, 0, 1}, {300, 60, 300, 1, 0}, {7, 7, 7, 2, 2}, {90, 90, 90, 1, 1},
    {70, 70, 70, 2, 1}, {400, 400, 2, 1, 1}, {400, 400, 1, 1, 1}, {200, 900, 600, 9, 8}, {1, 900, 900, 1, 3},
};

/* Two factors, a mask and a vector, and where the product of the factors is made: everywhere, under the mask, or outside it. */
enum places { EVERYWHERE, UNDER_MASK, OUTSIDE_MASK, PLACES };

struct operands {
    struct cbgrid_matrix *a, *b, *mask, *x;
};

static int by_threads(int places, const struct operands *of, uint32_t threads, struct cbgrid_matrix **out) {
    struct cbgrid_how how = {.threads = threads};
    if (places != EVERYWHERE) how.mask = of->mask;
    how.complement = places == OUTSIDE_MASK;
    return cbgrid_matrix_multiply(of->a, of->b, &how, out);
}

static int by_one(int places, const struct operands *of, struct cbgrid_matrix **out) {
    return by_threads(places, of, 0, out);
}

static void free_operands(struct operands *of) {
    cbgrid_matrix_free(of->a);
    cbgrid_matrix_free(of->b);
    cbgrid_matrix_free(of->mask);
    cbgrid_matrix_free(of->x);
}

/* Multiplies two factors by several numbers of threads. */
static void multiply_by_threads(int places, const struct operands *of) {
    static const uint32_t counts[] = {0, 1, 2, 3, 8, 1000};
    struct cbgrid_matrix *want, *made;
    EXPECT(by_one(places, of, &want) == CBGRID_OK);
    for (size_t n = 0; n < sizeof counts / sizeof *counts; n++) {
        made = NULL;
        EXPECT(by_threads(places, of, counts[n], &made) == CBGRID_OK && is_same(made, want));
        cbgrid_matrix_free(made);
    }
    cbgrid_matrix_free(want);
}

/* ---- Calls that use the threads of cbgrid_threads. */
/* The entries of an operand are at most so many. */
#define MOST_ENTRIES 270000u

static int product_of(const struct operands *of, struct cbgrid_matrix **out) {
    return cbgrid_matrix_multiply(of->a, of->b, NULL, out);
}
static int sum_of(const struct operands *of, struct cbgrid_matrix **out) { return cbgrid_matrix_add(of->a, of->b, out); }
static int times_of(const struct operands *of, struct cbgrid_matrix **out) { return cbgrid_matrix_times(of->a, of->b, out); }
static int pruned_of(const struct operands *of, struct cbgrid_matrix **out) {
    return cbgrid_matrix_prune(of->a, CBGRID_EQUAL, 1, out);
}
static int column_sums_of(const struct operands *of, struct cbgrid_matrix **out) {
    return cbgrid_matrix_column_sums(of->a, out);
}
static int row_sums_of(const struct operands *of, struct cbgrid_matrix **out) { return cbgrid_matrix_row_sums(of->a, out); }
static int vector_of(const struct operands *of, struct cbgrid_matrix **out) {
    return cbgrid_matrix_multiply(of->a, of->x, NULL, out);
}
/* The sum of all values, in a matrix of one place. */
static int total_of(const struct operands *of, struct cbgrid_matrix **out) {
    struct cbgrid_triple total = {0, 0, 0};
    int code = cbgrid_matrix_reduce_all(of->a, &total.value);
    return code ? code : cbgrid_matrix_of_triples(cbgrid_matrix_semiring(of->a), 1, 1, &total, 1, NULL, out);
}
/* The matrix of the triples. */
static int triples_of(const struct operands *of, struct cbgrid_matrix **out) {
    const struct cbgrid_matrix *a = of->a;
    static struct cbgrid_triple triples[MOST_ENTRIES];
    int code = cbgrid_matrix_triples(a, triples);
    if (code) return code;
    uint32_t rows = cbgrid_matrix_nrows(a), columns = cbgrid_matrix_ncols(a);
    return cbgrid_matrix_of_triples(cbgrid_matrix_semiring(a), rows, columns, triples, cbgrid_matrix_entries(a), NULL, out);
}
static int turned_of(const struct operands *of, struct cbgrid_matrix **out) { return cbgrid_matrix_transpose(of->a, out); }
static int upper_of(const struct operands *of, struct cbgrid_matrix **out) {
    return cbgrid_matrix_select(of->a, CBGRID_UPPER, -1, out);
}
static int applied_to(const struct operands *of, struct cbgrid_matrix **out) {
    return cbgrid_matrix_apply(of->a, CBGRID_SUM, 1, out);
}
/* All but a corner. */
static int part_of(const struct operands *of, struct cbgrid_matrix **out) {
    uint32_t rows = cbgrid_matrix_nrows(of->a), columns = cbgrid_matrix_ncols(of->a);
    return cbgrid_matrix_part(of->a, rows / 9, rows, columns / 9, columns, out);
}
/* The matrix with the half of the other in the middle. */
static int assigned_to(const struct operands *of, struct cbgrid_matrix **out) {
    struct cbgrid_matrix *half;
    if (!of->a || !of->b) return cbgrid_matrix_assign(of->a, 0, 0, of->b, out);
    uint32_t rows = cbgrid_matrix_nrows(of->a), columns = cbgrid_matrix_ncols(of->a);
    int code = cbgrid_matrix_part(of->b, 0, rows / 2, 0, columns / 2, &half);
    if (code) return code;
    code = cbgrid_matrix_assign(of->a, rows / 3, columns / 3, half, out);
    cbgrid_matrix_free(half);
    return code;
}
static int excluded_of(const struct operands *of, struct cbgrid_matrix **out) {
    return cbgrid_matrix_exclude(of->a, of->b, out);
}
static int updated_of(const struct operands *of, struct cbgrid_matrix **out) {
    return cbgrid_matrix_update(of->a, of->b, NULL, CBGRID_ACCUMULATE, out);
}
static int updated_under(const struct operands *of, struct cbgrid_matrix **out) {
    return cbgrid_matrix_update(of->a, of->b, of->mask, CBGRID_COMPLEMENT, out);
}

/* Every second number below a bound, over and over, ascending or not. */
#define MOST_NUMBERS 140000u
static void list_numbers(uint32_t bound, int descend, uint32_t *numbers, size_t count) {
    uint32_t half = (bound + 1) / 2;
    for (size_t n = 0; n < count; n++) numbers[n] = 2 * (uint32_t)(descend ? (count - 1 - n) % half : n % half);
}
/* Every second row, or all, and as many columns as give each of four threads a share, or all. */
static int extracted_of(const struct cbgrid_matrix *a, int descend, int all_rows, int all_columns, struct cbgrid_matrix **out) {
    static uint32_t rows[MOST_NUMBERS], columns[MOST_NUMBERS];
    uint32_t nrows = cbgrid_matrix_nrows(a), ncols = cbgrid_matrix_ncols(a);
    size_t row_count = (nrows + 1) / 2, column_count = 0;
    if (ncols) column_count = 131072 / (1 + cbgrid_matrix_entries(a) / ncols) + 7;
    if (nrows) list_numbers(nrows, descend, rows, row_count);
    if (ncols) list_numbers(ncols, 1, columns, column_count);
    if (all_rows) row_count = CBGRID_ALL;
    if (all_columns) column_count = CBGRID_ALL;
    return cbgrid_matrix_extract(a, rows, row_count, columns, column_count, NULL, out);
}
static int both_of(const struct operands *of, struct cbgrid_matrix **out) { return extracted_of(of->a, 0, 0, 0, out); }
static int turned_rows_of(const struct operands *of, struct cbgrid_matrix **out) { return extracted_of(of->a, 1, 0, 0, out); }
static int columns_of(const struct operands *of, struct cbgrid_matrix **out) { return extracted_of(of->a, 0, 1, 0, out); }
static int rows_of(const struct operands *of, struct cbgrid_matrix **out) { return extracted_of(of->a, 0, 0, 1, out); }
static int all_of(const struct operands *of, struct cbgrid_matrix **out) { return extracted_of(of->a, 0, 1, 1, out); }

/* The Kronecker product with a corner of the other operand. */
static int kronecker_of(const struct operands *of, struct cbgrid_matrix **out) {
    struct cbgrid_matrix *corner;
    if (!of->a || !of->b) return cbgrid_matrix_kron(of->a, of->b, out);
    uint32_t rows = cbgrid_matrix_nrows(of->b), columns = cbgrid_matrix_ncols(of->b);
    int code = cbgrid_matrix_part(of->b, 0, rows < 3 ? rows : 3, 0, columns < 4 ? columns : 4, &corner);
    if (code) return code;
    code = cbgrid_matrix_kron(of->a, corner, out);
    cbgrid_matrix_free(corner);
    return code;
}

/* The third power of a corner, if that is square. */
static int power_of(const struct operands *of, struct cbgrid_matrix **out) {
    struct cbgrid_matrix *corner;
    uint32_t rows = cbgrid_matrix_nrows(of->a), columns = cbgrid_matrix_ncols(of->a);
    if (!of->a || rows < 100 || columns < 100 || rows != columns) return cbgrid_matrix_power(of->a, 3, out);
    int code = cbgrid_matrix_part(of->a, 0, 100, 0, 100, &corner);
    if (code) return code;
    code = cbgrid_matrix_power(corner, 3, out);
    cbgrid_matrix_free(corner);
    return code;
}

enum {
    PRODUCT, SUM, TIMES, PRUNED, COLUMN_SUMS, ROW_SUMS, VECTOR, TOTAL, TURNED, UPPER, APPLIED, PART, ASSIGNED, EXCLUDED, UPDATED,
    UPDATED_UNDER, BOTH, TURNED_ROWS, COLUMNS, ROWS, ALL, KRONECKER, POWER, TRIPLES, CALLS
};
static int (*const calls[CALLS])(const struct operands *of, struct cbgrid_matrix **out) = {
    product_of, sum_of,    times_of, pruned_of, column_sums_of, row_sums_of, vector_of,
    total_of,   turned_of, upper_of, applied_to, part_of, assigned_to, excluded_of,   updated_of,  updated_under,
    both_of, turned_rows_of, columns_of, rows_of, all_of, kronecker_of, power_of, triples_of,
};

/* Operands of the same shape, and a share for each of several threads; a few entries less and a few more than are left to one
 * thread; a mask that has more entries than the others; a column, which can't be parted; enough entries for shares of the sum of
 * all. The product of those that aren't square is refused. */
static const struct factors operands_of_calls[] = {
    {300, 300, 300, 1, 1}, {700, 700, 700, 9, 3}, {128, 128, 128, 1, 1}, {128, 150, 150, 1, 1}, {400, 400, 400, 90, 9},
    {2, 60000, 60000, 1, 1}, {60000, 1, 1, 1, 1}, {0, 0, 0, 0, 0}, {300, 900, 900, 1, 1},
};

static struct operands same_shape(uint32_t semiring, const struct factors *f) {
    return (struct operands){
        random_kept(semiring, f->nrows, f->ncols, f->one_of_a),
        random_kept(semiring, f->nrows, f->ncols, f->one_of_b),
        random_kept(semiring, f->nrows, f->ncols, f->one_of_a ? 2 : 0),
        random_kept(semiring, f->ncols, 1, f->one_of_b),
    };
}

static void test_shared_calls(int is_few) {
    static const uint32_t counts[] = {0, 2, 3, 4, 1000};
    for (uint32_t semiring = 0; semiring < SEMIRINGS; semiring += is_few ? SEMIRINGS : 3) {
        for (size_t n = 0; n < sizeof operands_of_calls / sizeof *operands_of_calls; n++) {
            struct operands of = same_shape(semiring, &operands_of_calls[n]);
            for (size_t k = 0; k < CALLS; k++) {
                struct cbgrid_matrix *want = NULL;
                cbgrid_threads(1);
                int code = calls[k](&of, &want);
                for (size_t m = 0; m < sizeof counts / sizeof *counts; m++) {
                    struct cbgrid_matrix *made = NULL;
                    cbgrid_threads(counts[m]);
                    EXPECT(calls[k](&of, &made) == code && (code || is_same(made, want)));
                    cbgrid_matrix_free(made);
                }
                cbgrid_matrix_free(want);
            }
            free_operands(&of);
            EXPECT(live == 0);
        }
    }
    cbgrid_threads(1);
}

/* The threads that a call starts, refused: all of them, or all but one or two. It is this program's first call by threads. Then in
 * a child, which has none of its parent's; valgrind takes what they had for lost there. */
static void test_threads_refused(int is_few) {
    struct operands of = same_shape(0, &operands_of_calls[0]);
    struct cbgrid_matrix *want;
    EXPECT(sum_of(&of, &want) == CBGRID_OK);
    cbgrid_threads(4);
    for (long can_start = 0; can_start < 3; can_start++) {
        struct cbgrid_matrix *made = NULL;
        threads_left = can_start;
        EXPECT(sum_of(&of, &made) == CBGRID_OK && is_same(made, want) && threads_left == 0);
        cbgrid_matrix_free(made);
    }
    threads_left = -1;
    int status = 0;
    pid_t child = is_few ? 0 : fork();
    if (!is_few && child == 0) {
        struct cbgrid_matrix *made = NULL;
        _exit(sum_of(&of, &made) == CBGRID_OK && is_same(made, want) ? 7 : 1);
    }
    if (!is_few) EXPECT(child > 0 && waitpid(child, &status, 0) == child && WIFEXITED(status) && WEXITSTATUS(status) == 7);
    cbgrid_threads(1);
    cbgrid_matrix_free(want);
    free_operands(&of);
    EXPECT(live == 0);
}

/* Each allocation of a call by four threads refused in turn. */
static void test_calls_refused_memory(size_t k, int step) {
    struct operands of = same_shape(0, &operands_of_calls[0]);
    struct cbgrid_matrix *want, *made, *const was = (struct cbgrid_matrix *)&made;
    long refused = 0;
    EXPECT(calls[k](&of, &want) == CBGRID_OK);
    cbgrid_threads(4);
    long before = live;
    for (long n = 0, more = 1; more; n += step) {
        made = was, left = n;
        int code = calls[k](&of, &made);
        more = left < 0;
        left = -1;
        refused += code == CBGRID_MEMORY;
        EXPECT(code == CBGRID_OK || (more && code == CBGRID_MEMORY));
        EXPECT(code == CBGRID_OK ? is_same(made, want) : made == was);
        if (code == CBGRID_OK) cbgrid_matrix_free(made);
        EXPECT(live == before);
    }
    /* Where the first list is refused, some calls leave it all to one thread; a step may pass over the others. */
    EXPECT(refused > 0 || step > 1);
    printf("memory of a call by threads was refused %ld times\n", refused);
    cbgrid_threads(1);
    cbgrid_matrix_free(want);
    free_operands(&of);
    EXPECT(live == 0);
}

/* Each call by threads has the faults of the whole, also where the first allocation would be refused. */
static void test_calls_codes(void) {
    struct cbgrid_matrix *a = random_kept(0, 300, 300, 1), *wide = random_kept(0, 300, 301, 1);
    struct cbgrid_matrix *other = random_kept(1, 300, 301, 1), *flags = random_kept(CBGRID_OR_AND, 300, 300, 1);
    struct cbgrid_matrix *x = random_kept(0, 300, 1, 1), *other_x = random_kept(1, 301, 1, 1);
    const struct {
        size_t call;
        struct operands of;
        int code;
    } rows[] = {
        {PRODUCT, {a, other, NULL, NULL}, CBGRID_MIXED},    {PRODUCT, {wide, a, NULL, NULL}, CBGRID_SHAPES},
        {SUM, {a, other, NULL, NULL}, CBGRID_MIXED},        {SUM, {a, wide, NULL, NULL}, CBGRID_SHAPES},
        {TIMES, {wide, other, NULL, NULL}, CBGRID_MIXED},   {TIMES, {wide, a, NULL, NULL}, CBGRID_SHAPES},
        {EXCLUDED, {a, other, NULL, NULL}, CBGRID_MIXED},   {EXCLUDED, {a, wide, NULL, NULL}, CBGRID_SHAPES},
        {UPDATED, {a, other, NULL, NULL}, CBGRID_MIXED},    {UPDATED, {wide, a, NULL, NULL}, CBGRID_SHAPES},
        {UPDATED_UNDER, {a, wide, other, NULL}, CBGRID_MIXED}, {UPDATED_UNDER, {a, other, wide, NULL}, CBGRID_MIXED},
        {UPDATED_UNDER, {a, a, wide, NULL}, CBGRID_SHAPES}, {UPDATED_UNDER, {wide, a, a, NULL}, CBGRID_SHAPES},
        {SUM, {a, NULL, NULL, NULL}, CBGRID_NULL_POINTER},  {PRUNED, {NULL, a, NULL, NULL}, CBGRID_NULL_POINTER},
        {VECTOR, {.a = a, .x = other_x}, CBGRID_MIXED},  {VECTOR, {.a = wide, .x = x}, CBGRID_SHAPES},
        {VECTOR, {.a = a}, CBGRID_NULL_POINTER},         {ROW_SUMS, {.b = a}, CBGRID_NULL_POINTER},
        {TOTAL, {.b = a}, CBGRID_NULL_POINTER},
        {COLUMN_SUMS, {NULL, a, NULL, NULL}, CBGRID_NULL_POINTER}, {UPPER, {NULL, a, NULL, NULL}, CBGRID_NULL_POINTER},
        {TURNED, {NULL, a, NULL, NULL}, CBGRID_NULL_POINTER},
        {APPLIED, {NULL, a, NULL, NULL}, CBGRID_NULL_POINTER}, {EXCLUDED, {a, NULL, NULL, NULL}, CBGRID_NULL_POINTER},
        {UPDATED, {a, NULL, a, NULL}, CBGRID_NULL_POINTER},
        {BOTH, {.b = a}, CBGRID_NULL_POINTER}, {TRIPLES, {.b = a}, CBGRID_NULL_POINTER}, {KRONECKER, {.a = a}, CBGRID_NULL_POINTER},
        {POWER, {.b = a}, CBGRID_NULL_POINTER}, {POWER, {.a = wide, .b = a}, CBGRID_NOT_SQUARE},
    };
    struct cbgrid_matrix *out = NULL;
    cbgrid_threads(4);
    for (size_t n = 0; n < sizeof rows / sizeof *rows; n++) {
        for (left = -1; left < 1; left++) {
            long can_take = left;
            EXPECT(calls[rows[n].call](&rows[n].of, &out) == rows[n].code && !out);
            left = can_take;
        }
    }
    left = 0;
    EXPECT(cbgrid_matrix_prune(a, 7, 1, &out) == CBGRID_TEST && cbgrid_matrix_select(a, 4, 0, &out) == CBGRID_TEST);
    EXPECT(cbgrid_matrix_apply(a, 6, 0, &out) == CBGRID_TEST && cbgrid_matrix_update(a, other, wide, 8, &out) == CBGRID_TEST);
    EXPECT(cbgrid_matrix_apply(flags, CBGRID_CONSTANT, 2, &out) == CBGRID_VALUE && !out);
    EXPECT(cbgrid_matrix_kron(a, other, &out) == CBGRID_MIXED && cbgrid_matrix_power(a, 0, &out) == CBGRID_TEST && !out);
    static uint32_t numbers[1000];
    uint64_t at = 0;
    numbers[999] = 300;
    left = 0;
    EXPECT(cbgrid_matrix_extract(a, NULL, CBGRID_ALL, numbers, 1000, &at, &out) == CBGRID_PLACE && at == 999 && !out);
    EXPECT(cbgrid_matrix_extract(a, numbers, 1000, numbers, 900, &at, &out) == CBGRID_PLACE && at == 999 && !out);
    EXPECT(left == 0);
    EXPECT(cbgrid_matrix_extract(wide, numbers, 1, numbers, 1000, &at, &out) == CBGRID_MEMORY && !out);
    left = -1;
    cbgrid_threads(1);
    cbgrid_matrix_free(x);
    cbgrid_matrix_free(other_x);
    cbgrid_matrix_free(flags);
    cbgrid_matrix_free(a);
    cbgrid_matrix_free(wide);
    cbgrid_matrix_free(other);
    EXPECT(live == 0);
}

/* A mask has an entry in a quarter of the places. */
static struct operands random_operands(uint32_t semiring, const struct factors *f) {
    return (struct operands){
        random_kept(semiring, f->nrows, f->inner, f->one_of_a),
        random_kept(semiring, f->inner, f->ncols, f->one_of_b),
        random_kept(semiring, f->nrows, f->ncols, 4),
        NULL,
    };
}

static void test_shared_products(int is_few) {
    for (uint32_t semiring = 0; semiring < SEMIRINGS; semiring += is_few ? SEMIRINGS : 1) {
        for (size_t n = 0; n < sizeof factors / sizeof *factors; n++) {
            if (is_few && factors[n].nrows >= 100) continue;
            struct operands of = random_operands(semiring, &factors[n]);
            for (int places = 0; places < PLACES; places++) multiply_by_threads(places, &of);
            free_operands(&of);
            EXPECT(live == 0);
        }
    }
}

/* Each allocation of a product by four threads refused in turn, or some of them. */
static void test_threads_refused_memory(int places, int step) {
    static const struct factors dense = {65, 65, 65, 1, 1};
    struct operands of = random_operands(0, &dense);
    struct cbgrid_matrix *want, *made, *const was = (struct cbgrid_matrix *)&made;
    long refused = 0;
    EXPECT(by_one(places, &of, &want) == CBGRID_OK);
    long before = live;
    for (long n = 0, more = 1; more; n += step) {
        made = was, left = n;
        int code = by_threads(places, &of, 4, &made);
        more = left < 0;
        left = -1;
        refused += code == CBGRID_MEMORY;
        EXPECT(code == CBGRID_OK || (more && code == CBGRID_MEMORY));
        EXPECT(code == CBGRID_OK ? is_same(made, want) : made == was);
        if (code == CBGRID_OK) cbgrid_matrix_free(made);
        EXPECT(live == before);
    }
    EXPECT(refused > 0);
    printf("memory of products by threads was refused %ld times\n", refused);
    cbgrid_matrix_free(want);
    free_operands(&of);
    EXPECT(live == 0);
}

/* Null pointers come first, then semirings that differ, then shapes, of the factors and of the mask, then memory. The factors
 * of some rows have no fault without the mask. */
static void test_threads_codes(void) {
    struct cbgrid_matrix *a = random_kept(0, 2, 3, 1), *b = random_kept(0, 3, 2, 1), *unset = NULL;
    struct cbgrid_matrix *other = random_kept(1, 3, 2, 1), *mask = random_kept(0, 2, 2, 1);
    struct cbgrid_matrix *const was = (struct cbgrid_matrix *)&unset, *out = was;
    const struct {
        struct operands of;
        int code, masked_code;
    } rows[] = {
        {{a, other, mask, NULL}, CBGRID_MIXED, CBGRID_MIXED},
        {{b, b, mask, NULL}, CBGRID_SHAPES, CBGRID_SHAPES},
        {{b, b, other, NULL}, CBGRID_SHAPES, CBGRID_MIXED},
        {{a, b, other, NULL}, CBGRID_OK, CBGRID_MIXED},
        {{a, b, b, NULL}, CBGRID_OK, CBGRID_SHAPES},
        {{NULL, other, b, NULL}, CBGRID_NULL_POINTER, CBGRID_NULL_POINTER},
        {{a, NULL, b, NULL}, CBGRID_NULL_POINTER, CBGRID_NULL_POINTER},
    };
    for (size_t n = 0; n < sizeof rows / sizeof *rows; n++) {
        for (uint32_t threads = 0; threads < 4; threads++) {
            for (int places = rows[n].code ? EVERYWHERE : UNDER_MASK; places < PLACES; places++) {
                left = 0;
                int code = by_threads(places, &rows[n].of, threads, &out);
                EXPECT(code == (places == EVERYWHERE ? rows[n].code : rows[n].masked_code) && out == was);
                EXPECT(left == 0 || !rows[n].code);
                EXPECT(by_threads(places, &rows[n].of, threads, NULL) == CBGRID_NULL_POINTER);
            }
        }
    }
    left = -1;
    cbgrid_matrix_free(a);
    cbgrid_matrix_free(b);
    cbgrid_matrix_free(other);
    cbgrid_matrix_free(mask);
    EXPECT(live == 0);
}

void test_threads(int is_few) {
    test_threads_refused(is_few);
    test_shared_matrix();
    test_shared_products(is_few);
    for (int places = 0; places < PLACES; places++) test_threads_refused_memory(places, is_few ? 9 : 1);
    test_threads_codes();
    test_shared_calls(is_few);
    for (size_t k = SUM; k < CALLS; k++) test_calls_refused_memory(k, is_few ? 9 : 1);
    test_calls_codes();
}
