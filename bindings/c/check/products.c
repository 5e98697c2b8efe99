/* Products in each way that a struct cbgrid_how asks for, beside dense products; each allocation of them refused; codes. */
#include "check.h"

struct job {
    uint32_t semiring;
    struct cbgrid_how how; /* the mask is set when the matrices are made */
    int has_mask;
    struct dense a, b, mask, want;
};

/* The product of the factors as they are multiplied, without the places that the mask doesn't allow. */
static struct dense wanted(const struct job *job) {
    struct dense left = job->how.transpose_a ? turned(&job->a) : job->a;
    struct dense right = job->how.transpose_b ? turned(&job->b) : job->b;
    struct dense made = dense_product(job->semiring, &left, &right);
    uint64_t zero = zero_of(job->semiring);
    for (uint32_t i = 0; i < made.nrows && job->has_mask; i++) {
        for (uint32_t j = 0; j < made.ncols; j++) {
            if ((job->mask.at[i][j] != zero) == (job->how.complement != 0)) made.at[i][j] = zero;
        }
    }
    return made;
}

/* Each way has a number: 2 for the mask or its complement beside none, 2 for each factor, 2 for threads; a third of all
 * products are with a vector. */
enum { WAYS = 24 };

static void make_job(struct job *job, uint32_t way, uint32_t semiring) {
    uint32_t m = draw_to(0, SIDE), k = draw_to(0, SIDE), n = draw(3) ? draw_to(0, SIDE) : 1;
    uint32_t masks = way % 3;
    job->semiring = semiring;
    job->has_mask = masks > 0;
    job->how = (struct cbgrid_how){
        .complement = masks == 2, .transpose_a = way / 3 % 2 ? -1 : 0, .transpose_b = way / 6 % 2, .threads = way / 12 ? 3 : draw(2),
    };
    job->a = job->how.transpose_a ? random_dense(semiring, k, m) : random_dense(semiring, m, k);
    job->b = job->how.transpose_b ? random_dense(semiring, n, k) : random_dense(semiring, k, n);
    job->mask = random_dense(semiring, m, n);
    job->want = wanted(job);
}

/* Makes a product with each allocation refused in turn, from the nth on. Returns how many were. */
static long run(struct job *job, long first) {
    struct cbgrid_matrix *a, *b, *mask, *made, *const was = (struct cbgrid_matrix *)&made;
    long refused = 0;
    EXPECT(keep(job->semiring, &job->a, (int)draw(4), &a) == CBGRID_OK);
    EXPECT(keep(job->semiring, &job->b, (int)draw(4), &b) == CBGRID_OK);
    EXPECT(keep(job->semiring, &job->mask, (int)draw(4), &mask) == CBGRID_OK);
    job->how.mask = job->has_mask ? mask : NULL;
    long before = live;
    for (long n = first, more = 1; more; n++) {
        made = was, left = n;
        int code = cbgrid_matrix_multiply(a, b, &job->how, &made);
        more = left < 0;
        left = -1;
        refused += code == CBGRID_MEMORY;
        EXPECT(code == CBGRID_OK || (more && code == CBGRID_MEMORY));
        if (code) {
            EXPECT(made == was);
        } else {
            EXPECT(look(job->semiring, made, &job->want) == CBGRID_OK);
            cbgrid_matrix_free(made);
        }
        EXPECT(live == before);
    }
    EXPECT(look(job->semiring, a, &job->a) == CBGRID_OK);
    EXPECT(look(job->semiring, b, &job->b) == CBGRID_OK);
    cbgrid_matrix_free(a);
    cbgrid_matrix_free(b);
    cbgrid_matrix_free(mask);
    EXPECT(live == 0);
    return refused;
}

static void test_answers(int rounds) {
    static struct job job;
    for (int round = 0; round < rounds; round++) {
        for (uint32_t way = 0; way < WAYS; way++) {
            for (uint32_t semiring = 0; semiring < TRIED; semiring++) {
                make_job(&job, way, semiring);
                EXPECT(run(&job, LONG_MAX - 1) == 0);
            }
        }
    }
}

static void test_refused_memory(int rounds) {
    static struct job job;
    long refused = 0;
    for (int round = 0; round < rounds; round++) {
        for (uint32_t way = 0; way < WAYS; way++) {
            make_job(&job, way, draw(TRIED));
            refused += run(&job, FIRST_REFUSED);
        }
    }
    EXPECT((refused > 0) == !FIRST_REFUSED);
    printf("memory of products was refused %ld times\n", refused);
}

/* No struct is the same as one of zeros. */
static void test_plain(void) {
    struct cbgrid_matrix *a = random_kept(0, 5, 5, 2), *made, *same;
    struct cbgrid_how none = {NULL, 0, 0, 0, 0};
    EXPECT(cbgrid_matrix_multiply(a, a, NULL, &made) == CBGRID_OK);
    EXPECT(cbgrid_matrix_multiply(a, a, &none, &same) == CBGRID_OK && is_same(made, same));
    cbgrid_matrix_free(a);
    cbgrid_matrix_free(made);
    cbgrid_matrix_free(same);
    EXPECT(live == 0);
}

/* In each way: semirings that differ come before shapes, and both before any memory is taken, except that several threads divide
 * the columns of the factors before they look at a mask. The matrices are 2 x 3 and 3 x 2 over or-and, and 2 x 3 over
 * min-plus. */
static void test_codes_in_each_way(void) {
    struct cbgrid_matrix *a = random_kept(CBGRID_OR_AND, 2, 3, 1), *c = random_kept(CBGRID_OR_AND, 3, 2, 1);
    struct cbgrid_matrix *b = random_kept(CBGRID_MIN_PLUS, 2, 3, 1), *unset = NULL;
    struct cbgrid_matrix *const was = (struct cbgrid_matrix *)&unset, *out = was;
    for (int way = 0; way < 8; way++) {
        struct cbgrid_how how = {.transpose_a = way & 1, .transpose_b = way & 2, .threads = way & 4};
        /* a times c has 2 rows and columns, the product of both transposes 3. */
        struct cbgrid_matrix *first = a, *second = !(way & 1) == !(way & 2) ? c : a;
        left = 0;
        EXPECT(cbgrid_matrix_multiply(first, b, &how, &out) == CBGRID_MIXED);
        EXPECT(cbgrid_matrix_multiply(b, first, &how, &out) == CBGRID_MIXED);
        EXPECT(cbgrid_matrix_multiply(first, second == a ? c : a, &how, &out) == CBGRID_SHAPES);
        for (how.complement = 0; how.complement < 2; how.complement++) {
            how.mask = b;
            EXPECT(cbgrid_matrix_multiply(first, second, &how, &out) == CBGRID_MIXED);
            EXPECT(cbgrid_matrix_multiply(first, second == a ? c : a, &how, &out) == CBGRID_MIXED);
            how.mask = a;
            EXPECT(cbgrid_matrix_multiply(first, second, &how, &out) == CBGRID_SHAPES);
            EXPECT(cbgrid_matrix_multiply(first, b, &how, &out) == CBGRID_MIXED);
            EXPECT(cbgrid_matrix_multiply(NULL, b, &how, &out) == CBGRID_NULL_POINTER);
            EXPECT(cbgrid_matrix_multiply(first, NULL, &how, &out) == CBGRID_NULL_POINTER);
            EXPECT(cbgrid_matrix_multiply(first, b, &how, NULL) == CBGRID_NULL_POINTER);
        }
        how.mask = NULL, how.complement = 1;
        EXPECT(cbgrid_matrix_multiply(first, second, &how, &out) == CBGRID_NULL_POINTER);
        EXPECT((left == 0 || way == 4) && out == was);
        left = -1;
    }
    cbgrid_matrix_free(a);
    cbgrid_matrix_free(b);
    cbgrid_matrix_free(c);
    EXPECT(live == 0);
}

/* Matrices whose sides are the limit cost what their one entry costs, in each way. */
static void test_huge_products(void) {
    static const struct cbgrid_triple last = {CBGRID_LIMIT - 1, CBGRID_LIMIT - 1, 3};
    struct cbgrid_matrix *huge, *made;
    uint64_t value;
    EXPECT(cbgrid_matrix_of_triples(0, CBGRID_LIMIT, CBGRID_LIMIT, &last, 1, NULL, &huge) == CBGRID_OK);
    for (uint32_t way = 0; way < WAYS; way++) {
        struct cbgrid_how how = {
            way % 3 ? huge : NULL, way % 3 == 2, way / 3 % 2, way / 6 % 2, way / 12 ? 3 : 0,
        };
        EXPECT(cbgrid_matrix_multiply(huge, huge, &how, &made) == CBGRID_OK);
        EXPECT(cbgrid_matrix_nrows(made) == CBGRID_LIMIT && cbgrid_matrix_ncols(made) == CBGRID_LIMIT);
        EXPECT(cbgrid_matrix_value(made, last.row, last.column, &value) == CBGRID_OK && value == (how.complement ? 0 : 9));
        cbgrid_matrix_free(made);
    }
    cbgrid_matrix_free(huge);
    EXPECT(live == 0);
}

void test_products(int is_few) {
    test_plain();
    test_codes_in_each_way();
    test_huge_products();
    test_answers(ROUNDS(is_few, 1, 60));
    test_refused_memory(ROUNDS(is_few, 1, 6));
}
