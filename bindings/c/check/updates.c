/* Updates, powers and degrees. */
#include "check.h"

enum building { UPDATE, UPDATE_ALL, POWER, ROW_DEGREES, COLUMN_DEGREES, BUILDINGS };

struct build {
    enum building building;
    uint32_t semiring, number; /* the flags of an update; how many factors */
    struct dense a, b, mask, want;
};

static uint32_t built_semiring(const struct build *job) {
    return job->building >= ROW_DEGREES ? CBGRID_PLUS_TIMES : job->semiring;
}

static struct dense dense_update(const struct build *job) {
    struct dense made = job->a;
    uint64_t zero = zero_of(job->semiring);
    for (uint32_t i = 0; i < made.nrows; i++) {
        for (uint32_t j = 0; j < made.ncols; j++) {
            uint64_t old = job->a.at[i][j], new = job->b.at[i][j];
            int is_covered = job->building == UPDATE_ALL || job->mask.at[i][j] != zero;
            int is_allowed = job->number & CBGRID_COMPLEMENT ? !is_covered : is_covered;
            uint64_t written = job->number & CBGRID_ACCUMULATE ? sum(job->semiring, old, new) : new;
            made.at[i][j] = is_allowed ? written : job->number & CBGRID_REPLACE ? zero : old;
        }
    }
    return made;
}

static struct dense dense_degrees(const struct build *job) {
    int by_rows = job->building == ROW_DEGREES;
    const struct dense *a = &job->a;
    struct dense made = blank(CBGRID_PLUS_TIMES, by_rows ? a->nrows : a->ncols, 1);
    for (uint32_t i = 0; i < a->nrows; i++) {
        for (uint32_t j = 0; j < a->ncols; j++) {
            made.at[by_rows ? i : j][0] += a->at[i][j] != zero_of(job->semiring);
        }
    }
    return made;
}

static struct dense wanted_build(const struct build *job) {
    struct dense left;
    switch (job->building) {
        case UPDATE:
        case UPDATE_ALL: return dense_update(job);
        case POWER:
            left = job->a;
            for (uint32_t n = 1; n < job->number; n++) left = dense_product(job->semiring, &left, &job->a);
            return left;
        default: return dense_degrees(job);
    }
}

static void make_build(struct build *job, enum building building, uint32_t semiring) {
    uint32_t m = draw_to(0, SIDE), k = building == POWER ? m : draw_to(0, SIDE);
    job->building = building, job->semiring = semiring;
    job->number = building == POWER ? 1 + draw(5) : draw(8);
    job->a = random_dense(semiring, m, k);
    job->b = random_dense(semiring, m, k);
    job->mask = random_dense(semiring, m, k);
    job->want = wanted_build(job);
}

static int call_build(const struct build *job, const struct cbgrid_matrix *a, const struct cbgrid_matrix *b,
                      const struct cbgrid_matrix *mask, struct cbgrid_matrix **out) {
    uint32_t number = job->number;
    switch (job->building) {
        case UPDATE: return cbgrid_matrix_update(a, b, mask, number, out);
        case UPDATE_ALL: return cbgrid_matrix_update(a, b, NULL, number, out);
        case POWER: return cbgrid_matrix_power(a, number, out);
        case ROW_DEGREES: return cbgrid_matrix_row_degrees(a, out);
        default: return cbgrid_matrix_column_degrees(a, out);
    }
}

/* Makes a call with each allocation refused in turn. Returns how many were. */
static long run_build(const struct build *job) {
    struct cbgrid_matrix *a, *b, *mask, *made, *const was = (struct cbgrid_matrix *)&made;
    long refused = 0;
    EXPECT(keep(job->semiring, &job->a, (int)draw(4), &a) == CBGRID_OK);
    EXPECT(keep(job->semiring, &job->b, (int)draw(4), &b) == CBGRID_OK);
    EXPECT(keep(job->semiring, &job->mask, (int)draw(4), &mask) == CBGRID_OK);
    long before = live;
    for (long n = FIRST_REFUSED, more = 1; more; n++) {
        made = was, left = n;
        int code = call_build(job, a, b, mask, &made);
        more = left < 0;
        left = -1;
        refused += code == CBGRID_MEMORY;
        EXPECT(code == CBGRID_OK || (more && code == CBGRID_MEMORY));
        if (code) {
            EXPECT(made == was);
        } else {
            EXPECT(look(built_semiring(job), made, &job->want) == CBGRID_OK);
            cbgrid_matrix_free(made);
        }
        EXPECT(live == before);
    }
    EXPECT(look(job->semiring, a, &job->a) == CBGRID_OK);
    EXPECT(look(job->semiring, b, &job->b) == CBGRID_OK);
    cbgrid_matrix_free(a);
    cbgrid_matrix_free(b);
    cbgrid_matrix_free(mask);
    EXPECT(live == 0);
    return refused;
}

static void test_builds(int rounds) {
    static struct build job;
    long refused = 0;
    for (int round = 0; round < rounds; round++) {
        for (int building = 0; building < BUILDINGS; building++) {
            for (uint32_t semiring = 0; semiring < TRIED; semiring++) {
                make_build(&job, (enum building)building, semiring);
                refused += run_build(&job);
            }
        }
    }
    EXPECT((refused > 0) == !FIRST_REFUSED);
    printf("memory of updates, powers and degrees was refused %ld times\n", refused);
}

/* The codes of a matrix of 2 x 3, in the order of the checks, before any memory is taken. */
static void test_build_codes(void) {
    static const struct cbgrid_triple triples[] = {{0, 0, 1}, {1, 0, 1}, {0, 2, 1}};
    struct cbgrid_matrix *a, *b, *c, *unset = NULL, *const was = (struct cbgrid_matrix *)&unset, *out = was;
    EXPECT(cbgrid_matrix_of_triples(CBGRID_OR_AND, 2, 3, triples, 3, NULL, &a) == CBGRID_OK);
    EXPECT(cbgrid_matrix_of_triples(CBGRID_MIN_PLUS, 2, 3, triples, 3, NULL, &b) == CBGRID_OK);
    EXPECT(cbgrid_matrix_of_triples(CBGRID_OR_AND, 3, 2, NULL, 0, NULL, &c) == CBGRID_OK);
    left = 0;
    EXPECT(cbgrid_matrix_update(a, b, c, 8, &out) == CBGRID_TEST);
    EXPECT(cbgrid_matrix_update(a, b, NULL, UINT32_MAX, &out) == CBGRID_TEST);
    EXPECT(cbgrid_matrix_update(a, b, c, 0, &out) == CBGRID_MIXED);
    EXPECT(cbgrid_matrix_update(a, c, b, 0, &out) == CBGRID_MIXED);
    EXPECT(cbgrid_matrix_update(a, b, NULL, 7, &out) == CBGRID_MIXED);
    EXPECT(cbgrid_matrix_update(a, c, a, 0, &out) == CBGRID_SHAPES);
    EXPECT(cbgrid_matrix_update(a, a, c, 0, &out) == CBGRID_SHAPES);
    EXPECT(cbgrid_matrix_update(a, c, NULL, 7, &out) == CBGRID_SHAPES);
    EXPECT(cbgrid_matrix_power(a, 0, &out) == CBGRID_TEST);
    EXPECT(cbgrid_matrix_power(a, 1, &out) == CBGRID_NOT_SQUARE);
    EXPECT(cbgrid_matrix_update(NULL, a, a, 0, &out) == CBGRID_NULL_POINTER);
    EXPECT(cbgrid_matrix_update(a, NULL, a, 8, &out) == CBGRID_NULL_POINTER);
    EXPECT(cbgrid_matrix_update(a, b, c, 8, NULL) == CBGRID_NULL_POINTER);
    EXPECT(cbgrid_matrix_power(NULL, 0, &out) == CBGRID_NULL_POINTER);
    EXPECT(cbgrid_matrix_power(a, 0, NULL) == CBGRID_NULL_POINTER);
    EXPECT(cbgrid_matrix_row_degrees(NULL, &out) == CBGRID_NULL_POINTER);
    EXPECT(cbgrid_matrix_row_degrees(a, NULL) == CBGRID_NULL_POINTER);
    EXPECT(cbgrid_matrix_column_degrees(NULL, &out) == CBGRID_NULL_POINTER);
    EXPECT(cbgrid_matrix_column_degrees(a, NULL) == CBGRID_NULL_POINTER);
    EXPECT(left == 0 && out == was);
    left = -1;
    cbgrid_matrix_free(a);
    cbgrid_matrix_free(b);
    cbgrid_matrix_free(c);
    EXPECT(live == 0);
}

/* A matrix whose sides are the limit costs what its one entry costs. */
static void test_huge_builds(void) {
    static const struct cbgrid_triple last = {CBGRID_LIMIT - 1, CBGRID_LIMIT - 1, 3};
    struct cbgrid_matrix *huge, *made = NULL;
    uint64_t value;
    EXPECT(cbgrid_matrix_of_triples(0, CBGRID_LIMIT, CBGRID_LIMIT, &last, 1, NULL, &huge) == CBGRID_OK);
    EXPECT(cbgrid_matrix_power(huge, 0, &made) == CBGRID_TEST && !made);
    EXPECT(cbgrid_matrix_update(huge, huge, huge, CBGRID_ACCUMULATE, &made) == CBGRID_OK);
    EXPECT(cbgrid_matrix_value(made, last.row, last.column, &value) == CBGRID_OK && value == 6);
    cbgrid_matrix_free(made);
    EXPECT(cbgrid_matrix_power(huge, 4, &made) == CBGRID_OK);
    EXPECT(cbgrid_matrix_value(made, last.row, last.column, &value) == CBGRID_OK && value == 81);
    cbgrid_matrix_free(made);
    EXPECT(cbgrid_matrix_row_degrees(huge, &made) == CBGRID_OK && cbgrid_matrix_nrows(made) == CBGRID_LIMIT);
    EXPECT(cbgrid_matrix_value(made, last.row, 0, &value) == CBGRID_OK && value == 1);
    cbgrid_matrix_free(made);
    cbgrid_matrix_free(huge);
    EXPECT(live == 0);
}

void test_updates(int is_few) {
    test_build_codes();
    test_huge_builds();
    test_builds(ROUNDS(is_few, 2, 100));
}
