/* Each operation beside the same on dense matrices; and each allocation of it refused. Products are in products.c. */
#include "check.h"

/* A call, with its operands and the expected result. */
enum operation { TRANSPOSE, ROW_SUMS, COLUMN_SUMS, ADD, TIMES, PRUNE, LEVELS, DISTANCES, READ, TEXT, OPERATIONS };

struct job {
    enum operation operation;
    uint32_t semiring, argument; /* the test of a prune; the source of a walk */
    uint64_t bound;
    struct dense dense[2], want;
    char text[128 + 32 * SIDE * SIDE];
    size_t text_len;
};

static uint32_t answer_semiring(const struct job *job) {
    return job->operation == LEVELS || job->operation == DISTANCES ? CBGRID_MIN_PLUS : job->semiring;
}

/* Operations place by place: sums and products of two matrices, transposes and prunes of one. */
static struct dense placewise(const struct job *job) {
    const struct dense *a = &job->dense[0], *b = &job->dense[1];
    int is_turned = job->operation == TRANSPOSE;
    struct dense made = blank(job->semiring, is_turned ? a->ncols : a->nrows, is_turned ? a->nrows : a->ncols);
    for (uint32_t i = 0; i < a->nrows; i++) {
        for (uint32_t j = 0; j < a->ncols; j++) {
            uint64_t x = a->at[i][j], y = b->at[i][j];
            int drops = job->argument == CBGRID_BELOW   ? x < job->bound
                        : job->argument == CBGRID_ABOVE ? x > job->bound
                                                        : x == job->bound;
            if (job->operation == TRANSPOSE) made.at[j][i] = x;
            if (job->operation == ADD) made.at[i][j] = sum(job->semiring, x, y);
            if (job->operation == TIMES) made.at[i][j] = product(job->semiring, x, y);
            if (job->operation == PRUNE && !drops) made.at[i][j] = x;
        }
    }
    return made;
}

/* The sums of the rows of a matrix, or of its columns. */
static struct dense sums(const struct job *job) {
    const struct dense *a = &job->dense[0];
    int by_rows = job->operation == ROW_SUMS;
    struct dense made = blank(job->semiring, by_rows ? a->nrows : 1, by_rows ? 1 : a->ncols);
    for (uint32_t i = 0; i < a->nrows; i++) {
        for (uint32_t j = 0; j < a->ncols; j++) {
            uint64_t *place = by_rows ? &made.at[i][0] : &made.at[0][j];
            *place = sum(job->semiring, *place, a->at[i][j]);
        }
    }
    return made;
}

static struct dense wanted(const struct job *job) {
    if (job->operation == LEVELS || job->operation == DISTANCES) {
        return dense_distances(&job->dense[0], job->argument, job->operation == LEVELS);
    }
    if (job->operation == READ || job->operation == TEXT) return job->dense[0];
    if (job->operation == ROW_SUMS || job->operation == COLUMN_SUMS) return sums(job);
    return placewise(job);
}

static void make_job(struct job *job, enum operation operation, uint32_t semiring) {
    uint32_t m = draw_to(1, SIDE), k = draw_to(1, SIDE);
    int is_walk = operation == LEVELS || operation == DISTANCES;
    if (is_walk) semiring = operation == LEVELS ? CBGRID_OR_AND : CBGRID_MIN_PLUS;
    job->operation = operation, job->semiring = semiring;
    job->argument = is_walk ? draw(m) : draw(3);
    job->bound = draw(9);
    job->dense[0] = random_dense(semiring, m, is_walk ? m : k);
    job->dense[1] = random_dense(semiring, m, k);
    job->want = wanted(job);
    job->text_len = dense_text(semiring, &job->dense[0], job->text);
}

/* Makes the call of a job whose result is a matrix. */
static int call(const struct job *job, struct cbgrid_matrix *const *kept, struct cbgrid_matrix **out) {
    switch (job->operation) {
        case TRANSPOSE: return cbgrid_matrix_transpose(kept[0], out);
        case ROW_SUMS: return cbgrid_matrix_row_sums(kept[0], out);
        case COLUMN_SUMS: return cbgrid_matrix_column_sums(kept[0], out);
        case ADD: return cbgrid_matrix_add(kept[0], kept[1], out);
        case TIMES: return cbgrid_matrix_times(kept[0], kept[1], out);
        case PRUNE: return cbgrid_matrix_prune(kept[0], job->argument, job->bound, out);
        case LEVELS: return cbgrid_matrix_levels(kept[0], job->argument, out);
        case DISTANCES: return cbgrid_matrix_distances(kept[0], job->argument, out);
        default: return cbgrid_matrix_read(job->semiring, job->text, job->text_len, NULL, out);
    }
}

/* Runs a job on matrices that are made in different ways, and checks its result and its operands. Returns the code. */
static int run(const struct job *job, int way) {
    struct cbgrid_matrix *kept[2] = {NULL, NULL}, *made = NULL;
    struct cbgrid_text text;
    int code = CBGRID_OK;
    for (int i = 0; i < 2 && !code; i++) code = keep(job->semiring, &job->dense[i], (way + i) % 4, &kept[i]);
    if (!code && job->operation == TEXT) {
        code = cbgrid_matrix_text(kept[0], &text);
        if (!code) {
            EXPECT(text.len == job->text_len && !memcmp(text.bytes, job->text, text.len));
            cbgrid_free_text(&text);
            cbgrid_free_text(&text);
            EXPECT(text.len == 0);
        }
    } else if (!code) {
        code = call(job, kept, &made);
        if (!code) code = look(answer_semiring(job), made, &job->want);
    }
    for (int i = 0; i < 2 && !code; i++) code = look(job->semiring, kept[i], &job->dense[i]);
    for (int i = 0; i < 2; i++) cbgrid_matrix_free(kept[i]);
    cbgrid_matrix_free(made);
    return code;
}

static void test_answers(int rounds) {
    static struct job job;
    for (int round = 0; round < rounds; round++) {
        for (int operation = 0; operation < OPERATIONS; operation++) {
            for (uint32_t semiring = 0; semiring < TRIED; semiring++) {
                make_job(&job, (enum operation)operation, semiring);
                EXPECT(run(&job, (int)draw(4)) == CBGRID_OK);
            }
        }
    }
    EXPECT(live == 0);
}

/* Each allocation of a call refused in turn: the right result or CBGRID_MEMORY, and no leak. */
static void test_refused_memory(int rounds) {
    static struct job job;
    long refused = 0;
    for (int round = 0; round < rounds; round++) {
        for (int operation = 0; operation < OPERATIONS; operation++) {
            make_job(&job, (enum operation)operation, draw(TRIED));
            uint64_t state = random_state;
            for (long n = FIRST_REFUSED, more = 1; more; n++) {
                random_state = state;
                left = n;
                int code = run(&job, round % 4);
                more = left < 0;
                left = -1;
                refused += code == CBGRID_MEMORY;
                EXPECT(code == CBGRID_MEMORY || code == CBGRID_OK);
                EXPECT(more || code == CBGRID_OK);
                EXPECT(live == 0);
            }
        }
    }
    EXPECT((refused > 0) == !FIRST_REFUSED);
    printf("memory was refused %ld times\n", refused);
}

void test_operations(int is_few) {
    test_answers(ROUNDS(is_few, 2, 150));
    test_refused_memory(ROUNDS(is_few, 1, 12));
}
