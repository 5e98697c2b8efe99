/*
 * The C side of cbgrid. It looks for null pointers, replaces the null pointer of an empty list by a valid one, turns
 * the number of a diagonal into a place on it, picks the proved product that a struct cbgrid_how asks for, gives threads their
 * shares, calls the proved library crates/cb_ffi, and frees. Compressed rows are the compressed columns of the transpose:
 * calls on them make two proved calls. The library does everything else.
 */
#include "kernel.h"
#include "pool.h"

#include <stdbool.h>
#include <stdlib.h>

/* What an empty list points to: a slice is never null. */
static const uint64_t nothing = 0;
#define NOTHING32 ((const uint32_t *)&nothing)

/* A matrix without rows, columns and entries, as the proved calls take it. */
static struct cbgrid_columns no_columns(void) {
    struct cbgrid_columns none = {0, 0, CBGRID_DCSC, CBGRID_STARTS_64, NOTHING32, 0, NOTHING32, 0,
                                  &nothing, 0, NOTHING32, 0, &nothing, 0};
    return none;
}

/* Fills `to` with the lists of `from` that its `kind` and `wide` use, and empty lists for the others. Returns 0 if a
 * list that isn't empty is a null pointer. */
static int lend(struct cbgrid_columns *to, lent from) {
    if (!from) return 0;
    *to = no_columns();
    to->nrows = from->nrows, to->ncols = from->ncols;
    to->kind = from->kind, to->wide = from->wide;
    if (from->kind == CBGRID_DCSC && from->columns_len) {
        to->columns = from->columns, to->columns_len = from->columns_len;
    }
    if (from->wide == CBGRID_STARTS_32 && from->starts32_len) {
        to->starts32 = from->starts32, to->starts32_len = from->starts32_len;
    }
    if (from->wide == CBGRID_STARTS_64 && from->starts64_len) {
        to->starts64 = from->starts64, to->starts64_len = from->starts64_len;
    }
    if (from->rows_len) to->rows = from->rows, to->rows_len = from->rows_len;
    if (from->values_len) to->values = from->values, to->values_len = from->values_len;
    return to->columns && to->starts32 && to->starts64 && to->rows && to->values;
}

/* Writes lists to `out`, and returns the code. */
static int give(uint32_t code, struct cbgrid_columns made, struct cbgrid_columns *out) {
    if (code == CBGRID_OK) *out = made;
    return (int)code;
}

/* The lists of a result are malloc'ed, except for empty ones. */
static void give_back(const void *list, size_t len) {
    if (len) free((void *)list);
}

void cbgrid_free_columns(struct cbgrid_columns *lists) {
    if (!lists) return;
    give_back(lists->columns, lists->columns_len);
    give_back(lists->starts32, lists->starts32_len);
    give_back(lists->starts64, lists->starts64_len);
    give_back(lists->rows, lists->rows_len);
    give_back(lists->values, lists->values_len);
    *lists = no_columns();
}

void cbgrid_free_text(struct cbgrid_text *text) {
    if (!text) return;
    give_back(text->bytes, text->len);
    text->bytes = (const unsigned char *)&nothing;
    text->len = 0;
}

struct cbgrid_columns cbgrid_dcsc32(uint32_t nrows, uint32_t ncols, const uint32_t *columns, size_t stored,
                                    const uint32_t *starts, const uint32_t *rows, const uint64_t *values, size_t len) {
    struct cbgrid_columns made = no_columns();
    made.nrows = nrows, made.ncols = ncols, made.wide = CBGRID_STARTS_32;
    made.columns = columns, made.columns_len = stored;
    made.starts32 = starts, made.starts32_len = stored || starts ? stored + 1 : 0;
    made.rows = rows, made.rows_len = len;
    made.values = values, made.values_len = len;
    return made;
}

struct cbgrid_columns cbgrid_dcsc64(uint32_t nrows, uint32_t ncols, const uint32_t *columns, size_t stored,
                                    const uint64_t *starts, const uint32_t *rows, const uint64_t *values, size_t len) {
    struct cbgrid_columns made = cbgrid_dcsc32(nrows, ncols, columns, stored, NOTHING32, rows, values, len);
    made.wide = CBGRID_STARTS_64;
    made.starts32_len = 0;
    made.starts64 = starts, made.starts64_len = stored || starts ? stored + 1 : 0;
    return made;
}

struct cbgrid_columns cbgrid_csc32(uint32_t nrows, uint32_t ncols, const uint32_t *starts, const uint32_t *rows,
                                   const uint64_t *values, size_t len) {
    struct cbgrid_columns made = cbgrid_dcsc32(nrows, ncols, NOTHING32, 0, starts, rows, values, len);
    made.kind = CBGRID_CSC;
    made.starts32_len = (size_t)ncols + 1;
    return made;
}

struct cbgrid_columns cbgrid_csc64(uint32_t nrows, uint32_t ncols, const uint64_t *starts, const uint32_t *rows,
                                   const uint64_t *values, size_t len) {
    struct cbgrid_columns made = cbgrid_dcsc64(nrows, ncols, NOTHING32, 0, starts, rows, values, len);
    made.kind = CBGRID_CSC;
    made.starts64_len = (size_t)ncols + 1;
    return made;
}

/* Writes a matrix to `out`, and returns the code. */
static int hand(uint32_t code, struct owned made, struct cbgrid_matrix **out) {
    if (code == CBGRID_OK) *out = made.at;
    return (int)code;
}

/* Whether a fault is about one entry, row, column or source of a list. */
static int is_of_one(uint32_t code) {
    return code == CBGRID_ORDER || code == CBGRID_PLACE || code == CBGRID_VALUE || code == CBGRID_SOURCE;
}

int cbgrid_matrix_of_columns(uint32_t semiring, lent lists, uint64_t *at, struct cbgrid_matrix **out) {
    struct cbgrid_columns columns;
    struct owned made = {NULL};
    if (!out || !lend(&columns, lists)) return CBGRID_NULL_POINTER;
    uint32_t code = cbgrid_kernel_keep(semiring, &columns, &made);
    if (at && is_of_one(code)) *at = cbgrid_kernel_misfit_of_lists(semiring, &columns);
    return hand(code, made, out);
}

int cbgrid_matrix_of_rows(uint32_t semiring, lent rows, uint64_t *at, struct cbgrid_matrix **out) {
    struct cbgrid_matrix *turned, *made;
    if (!out) return CBGRID_NULL_POINTER;
    int code = cbgrid_matrix_of_columns(semiring, rows, at, &turned);
    if (code) return code;
    code = cbgrid_matrix_transpose(turned, &made);
    cbgrid_matrix_free(turned);
    if (code == CBGRID_OK) *out = made;
    return code;
}

int cbgrid_matrix_of_triples(uint32_t semiring, uint32_t nrows, uint32_t ncols, const struct cbgrid_triple *triples,
                             size_t len, uint64_t *at, struct cbgrid_matrix **out) {
    static const struct cbgrid_triple none = {0, 0, 0};
    struct owned made = {NULL};
    if (!out || (len && !triples)) return CBGRID_NULL_POINTER;
    uint32_t code = cbgrid_kernel_keep_triples(semiring, nrows, ncols, len ? triples : &none, len, &made);
    if (at && is_of_one(code)) *at = cbgrid_kernel_misfit_of_triples(semiring, nrows, ncols, triples, len);
    return hand(code, made, out);
}

int cbgrid_matrix_columns(const struct cbgrid_matrix *a, struct cbgrid_columns *out) {
    struct cbgrid_columns made = no_columns();
    if (!a || !out) return CBGRID_NULL_POINTER;
    return give(cbgrid_kernel_kept_lists((kept){a}, &made), made, out);
}

int cbgrid_matrix_rows(const struct cbgrid_matrix *a, struct cbgrid_columns *out) {
    struct cbgrid_matrix *turned;
    if (!a || !out) return CBGRID_NULL_POINTER;
    int code = cbgrid_matrix_transpose(a, &turned);
    if (code) return code;
    code = cbgrid_matrix_columns(turned, out);
    cbgrid_matrix_free(turned);
    return code;
}

static struct summary summary_of(const struct cbgrid_matrix *a) {
    struct summary made = {0, 0, 0, 0};
    if (a) cbgrid_kernel_kept_summary((kept){a}, &made);
    return made;
}

uint32_t cbgrid_matrix_nrows(const struct cbgrid_matrix *a) {
    return summary_of(a).nrows;
}

uint32_t cbgrid_matrix_ncols(const struct cbgrid_matrix *a) {
    return summary_of(a).ncols;
}

uint32_t cbgrid_matrix_semiring(const struct cbgrid_matrix *a) {
    return summary_of(a).semiring;
}

uint64_t cbgrid_matrix_entries(const struct cbgrid_matrix *a) {
    return summary_of(a).entries;
}

int cbgrid_matrix_value(const struct cbgrid_matrix *a, uint32_t row, uint32_t column, uint64_t *out) {
    if (!a || !out) return CBGRID_NULL_POINTER;
    struct summary shape = summary_of(a);
    if (row >= shape.nrows || column >= shape.ncols) return CBGRID_PLACE;
    *out = cbgrid_kernel_kept_value((kept){a}, row, column);
    return CBGRID_OK;
}

/* The numbers of tasks on graphs, as crates/cb_kept has them. */
enum task {
    LEVELS, DISTANCES, LEVELS_FROM, DISTANCES_FROM, LEVELS_GIVEN, DISTANCES_GIVEN, PARENTS, COMPONENTS, TRIANGLES,
    TRIANGLE_COUNTS, ROW_DEGREES, COLUMN_DEGREES
};

/* Makes the columns of a task on a graph, which reads the source and the initial values only if it takes them. */
static int compute(enum task task, const struct cbgrid_matrix *a, uint32_t source, const struct cbgrid_matrix *given,
                   struct cbgrid_matrix **out) {
    struct owned made = {NULL};
    uint64_t number = 0;
    if (!a || !given || !out) return CBGRID_NULL_POINTER;
    return hand(cbgrid_kernel_kept_graph(task, source, NOTHING32, 0, (kept){given}, (kept){a}, &made, &number), made, out);
}

/* The same from several sources. */
static int compute_from(enum task task, const struct cbgrid_matrix *a, const uint32_t *sources, size_t count, uint64_t *at,
                        struct cbgrid_matrix **out) {
    struct owned made = {NULL};
    uint64_t number = 0;
    if (!a || !out || (count && !sources)) return CBGRID_NULL_POINTER;
    if (!count) sources = NOTHING32;
    uint32_t code = cbgrid_kernel_kept_graph(task, 0, sources, count, (kept){a}, (kept){a}, &made, &number);
    if (at && is_of_one(code)) *at = cbgrid_kernel_first_outside(sources, count, cbgrid_matrix_nrows(a));
    return hand(code, made, out);
}

int cbgrid_matrix_row_degrees(const struct cbgrid_matrix *a, struct cbgrid_matrix **out) {
    return compute(ROW_DEGREES, a, 0, a, out);
}

int cbgrid_matrix_column_degrees(const struct cbgrid_matrix *a, struct cbgrid_matrix **out) {
    return compute(COLUMN_DEGREES, a, 0, a, out);
}

/* The library takes the matrix, and hands it out again at the same pointer. */
int cbgrid_matrix_keep_transpose(struct cbgrid_matrix *a) {
    struct owned same = {NULL};
    if (!a) return CBGRID_NULL_POINTER;
    return (int)cbgrid_kernel_keep_transpose((struct owned){a}, &same);
}

int cbgrid_matrix_levels(const struct cbgrid_matrix *a, uint32_t source, struct cbgrid_matrix **out) {
    return compute(LEVELS, a, source, a, out);
}

int cbgrid_matrix_distances(const struct cbgrid_matrix *a, uint32_t source, struct cbgrid_matrix **out) {
    return compute(DISTANCES, a, source, a, out);
}

int cbgrid_matrix_levels_from(const struct cbgrid_matrix *a, const uint32_t *sources, size_t count, uint64_t *at,
                              struct cbgrid_matrix **out) {
    return compute_from(LEVELS_FROM, a, sources, count, at, out);
}

int cbgrid_matrix_distances_from(const struct cbgrid_matrix *a, const uint32_t *sources, size_t count, uint64_t *at,
                                 struct cbgrid_matrix **out) {
    return compute_from(DISTANCES_FROM, a, sources, count, at, out);
}

int cbgrid_matrix_levels_given(const struct cbgrid_matrix *a, const struct cbgrid_matrix *given,
                               struct cbgrid_matrix **out) {
    return compute(LEVELS_GIVEN, a, 0, given, out);
}

int cbgrid_matrix_distances_given(const struct cbgrid_matrix *a, const struct cbgrid_matrix *given,
                                  struct cbgrid_matrix **out) {
    return compute(DISTANCES_GIVEN, a, 0, given, out);
}

int cbgrid_matrix_parents(const struct cbgrid_matrix *a, uint32_t source, struct cbgrid_matrix **out) {
    return compute(PARENTS, a, source, a, out);
}

int cbgrid_matrix_components(const struct cbgrid_matrix *a, struct cbgrid_matrix **out) {
    return compute(COMPONENTS, a, 0, a, out);
}

int cbgrid_matrix_triangles(const struct cbgrid_matrix *a, uint64_t *out) {
    struct owned made = {NULL};
    if (!a || !out) return CBGRID_NULL_POINTER;
    return (int)cbgrid_kernel_kept_graph(TRIANGLES, 0, NOTHING32, 0, (kept){a}, (kept){a}, &made, out);
}

int cbgrid_matrix_read(uint32_t semiring, const void *text, size_t len, uint64_t *line, struct cbgrid_matrix **out) {
    struct owned made = {NULL};
    uint64_t at = 0;
    if (!out || (len && !text)) return CBGRID_NULL_POINTER;
    const unsigned char *bytes = len ? (const unsigned char *)text : (const unsigned char *)&nothing;
    uint32_t code = cbgrid_kernel_kept_read(semiring, bytes, len, &at, &made);
    if (line && code == CBGRID_FORMAT) *line = at;
    return hand(code, made, out);
}

int cbgrid_matrix_text(const struct cbgrid_matrix *a, struct cbgrid_text *out) {
    struct cbgrid_text made = {(const unsigned char *)&nothing, 0};
    if (!a || !out) return CBGRID_NULL_POINTER;
    uint32_t code = cbgrid_kernel_kept_text((kept){a}, &made);
    if (code == CBGRID_OK) *out = made;
    return (int)code;
}

/* The library frees the lists; the block at the pointer, which is malloc'ed too, is freed here. */
void cbgrid_matrix_free(struct cbgrid_matrix *a) {
    if (!a) return;
    cbgrid_kernel_release((struct owned){a});
    free(a);
}

/*
 * ---- Calls that several threads share. For each the library parts the columns of the result, makes those of a range, and puts
 * ranges beside one another. Here they are given to threads; the range of all columns is the whole result. Where the result is a
 * sum over the columns of the first operand, the library makes a share of the sum of a range of these columns, and the shares are
 * added up.
 */

/* How many threads a call uses. */
static _Atomic uint32_t thread_count = 1;

void cbgrid_threads(uint32_t count) {
    thread_count = count < 1 ? 1 : count < CBGRID_MOST_THREADS ? count : CBGRID_MOST_THREADS;
}

/* The exports that make columns; and the numbers of computations, as crates/cb_operations has them. */
enum family { COMPUTATION, UPDATE, EXTRACT }; /* a computation, where a call names none */
enum computation {
    MULTIPLY, MULTIPLY_MASKED, MULTIPLY_VECTOR, TRANSPOSE, ROW_SUMS, COLUMN_SUMS, ADD, TIMES, PRUNE, SELECT = 11, APPLY = 15,
    DIAGONAL = 21, DIAGONAL_MATRIX, PART, KRONECKER, ASSIGN, EXCLUDE, POWER, MULTIPLY_OUTSIDE
};

/* The number of one of several tests, regions or functions, of which the first has the number `first`; or that of none. */
static uint32_t number_of(uint32_t first, uint32_t count, uint32_t n) {
    return n < count ? first + n : UINT32_MAX;
}

/* A call: its operands, and what else it takes; and where the ranges of its columns end, if threads share it. */
struct call {
    enum family family;
    struct choice choice; /* what is computed */
    uint32_t flags; /* of an update */
    uint32_t operands; /* how many there have to be, 1 or 2 */
    kept a, b, mask;
    const uint32_t *rows, *columns; /* lists of numbers, unless all are meant */
    size_t row_count, column_count;
    uint32_t all_rows, all_columns;
    uint32_t (*ends)(const struct call *it, uint32_t *ends, size_t count);
};

/* What is computed of one matrix, or of two. */
static struct call of_one(struct choice choice, const struct cbgrid_matrix *a) {
    return (struct call){.choice = choice, .a = {a}};
}
static struct call of_two(struct choice choice, const struct cbgrid_matrix *a, const struct cbgrid_matrix *b) {
    return (struct call){.choice = choice, .operands = 2, .a = {a}, .b = {b}};
}

/* What is computed. A product with one column has a number of its own, for vectors. */
static struct choice choice_of(const struct call *it) {
    struct choice choice = it->choice;
    if (choice.number == MULTIPLY && cbgrid_matrix_ncols(it->b.at) == 1) choice.number = MULTIPLY_VECTOR;
    return choice;
}

/* Makes the columns from `first` up to `end`. An operand that a call doesn't take is never read. */
static uint32_t make(const struct call *it, uint32_t first, uint32_t end, struct owned *made) {
    kept a = it->a, b = it->b.at ? it->b : a, mask = it->mask.at ? it->mask : a;
    struct choice choice = choice_of(it);
    switch (it->family) {
    case COMPUTATION: return cbgrid_kernel_computation(&choice, a, b, mask, first, end, made);
    case UPDATE: return cbgrid_kernel_kept_update(a, b, it->mask.at != NULL, mask, it->flags, first, end, made);
    default: break;
    }
    return cbgrid_kernel_kept_extract(a, it->all_rows, it->rows, it->row_count, it->all_columns, it->columns, it->column_count, first,
                                      end, made);
}

/* No matrix has this many columns. */
#define ALL_COLUMNS UINT32_MAX

static uint32_t make_all(const struct call *it, struct owned *made) {
    return make(it, 0, ALL_COLUMNS, made);
}

/* The columns from `first` up to `end` of the result of a call, or the share of a sum over these columns. */
struct range {
    const struct call *call;
    uint32_t first, end, code;
    struct owned made;
    struct slice64 share;
    uint64_t total;
};

static void make_columns(void *ranges, size_t n) {
    struct range *it = (struct range *)ranges + n;
    it->code = make(it->call, it->first, it->end, &it->made);
}

/* The ranges that have columns, or one without columns. Returns how many. */
static size_t ranges_of(const struct call *call, const uint32_t *ends, size_t count, struct range *ranges) {
    size_t used = 0;
    uint32_t first = 0;
    for (size_t n = 0; n < count; n++) {
        if (ends[n] == first && (used || n + 1 < count)) continue;
        ranges[used++] = (struct range){.call = call, .first = first, .end = ends[n]};
        first = ends[n];
    }
    return used;
}

/* Puts the columns of all ranges beside those of the first. Frees all of them if some weren't made or can't be joined. */
static uint32_t join_ranges(struct range *ranges, size_t count, struct owned *out) {
    uint32_t code = CBGRID_OK;
    for (size_t n = 0; n < count && !code; n++) code = ranges[n].code;
    struct owned whole = ranges[0].made;
    for (size_t n = 1; n < count; n++) {
        struct owned front = whole, back = ranges[n].made;
        if (code) {
            cbgrid_matrix_free(back.at);
            continue;
        }
        code = cbgrid_kernel_kept_join(front, back, &whole);
        free(back.at);
        if (code) free(front.at), whole.at = NULL;
    }
    if (code) cbgrid_matrix_free(whole.at);
    else *out = whole;
    return code;
}

static void make_share(void *ranges, size_t n) {
    struct range *it = (struct range *)ranges + n;
    kept a = it->call->a, x = it->call->b.at ? it->call->b : a;
    it->share = (struct slice64){&nothing, 0};
    it->code = cbgrid_kernel_kept_share(choice_of(it->call).number, a, x, it->first, it->end, &it->share);
}

static void add_up(void *ranges, size_t n) {
    struct range *it = (struct range *)ranges + n;
    it->total = cbgrid_kernel_kept_total(it->call->a, it->first, it->end);
}

/* Parts the columns of the first operand into ranges of about as many entries, at least two. Each adds up at least so many values,
 * and more than one for each number of the sum: otherwise adding up the shares would take as long as making them. Returns how
 * many there are, or 0 if one thread is to do it all. */
static size_t ranges_of_sum(const struct call *it, uint64_t numbers, uint64_t least, size_t threads, struct range *ranges) {
    uint32_t ends[CBGRID_MOST_THREADS];
    uint64_t added = cbgrid_matrix_entries(it->a.at), columns = cbgrid_matrix_ncols(it->a.at);
    /* A vector has a part of the columns, at most all of them. */
    if (it->b.at && columns) added = (uint64_t)((double)added * (double)cbgrid_matrix_entries(it->b.at) / (double)columns);
    uint64_t most = added / (numbers > least ? numbers : least);
    size_t count = threads < most ? threads : (size_t)most;
    if (count < 2 || cbgrid_kernel_kept_ends(0, it->a, it->a, ends, count)) return 0;
    size_t used = ranges_of(it, ends, count, ranges);
    return used < 2 ? 0 : used;
}

/* Adds the shares of all ranges to that of the first, in order, and makes the column of the sum. Frees all of them. */
static uint32_t add_ranges(struct range *ranges, size_t count, struct owned *out) {
    uint32_t code = CBGRID_OK;
    kept a = ranges->call->a;
    struct slice64 sum = ranges->share;
    for (size_t n = 0; n < count && !code; n++) code = ranges[n].code;
    for (size_t n = 1; n < count && !code; n++) {
        code = cbgrid_kernel_kept_add_share(a, (uint64_t *)sum.at, sum.len, ranges[n].share.at, ranges[n].share.len);
    }
    if (!code) code = cbgrid_kernel_kept_column_of_sums(a, sum.at, sum.len, out);
    for (size_t n = 0; n < count; n++) give_back(ranges[n].share.at, ranges[n].share.len);
    return code;
}

/* The fewest entries that are worth a thread. */
#define LEAST_ENTRIES 32768u

/* A column that is a sum over the columns of the first operand, with a number for each of its rows. */
static uint32_t by_shares(const struct call *it, size_t threads, struct owned *made) {
    struct range ranges[CBGRID_MOST_THREADS];
    size_t used = ranges_of_sum(it, cbgrid_matrix_nrows(it->a.at), LEAST_ENTRIES, threads, ranges);
    if (!used) return make_all(it, made);
    share_out(make_share, ranges, used);
    return add_ranges(ranges, used, made);
}

/* Whether the result is a sum over the columns of the first operand: the sums of rows, and a product with one column. */
static int is_sum(const struct call *it, uint32_t columns) {
    uint32_t number = it->choice.number;
    return it->family == COMPUTATION && (number == ROW_SUMS || (number == MULTIPLY && columns == 1));
}

/* If the columns can't be parted, one thread does it all: it finds the faults in their order. So it does if they are too few; if
 * the last operand that isn't a mask is one column, it isn't even asked where they part. */
static uint32_t by_threads(const struct call *it, uint32_t threads, struct owned *made) {
    struct range ranges[CBGRID_MOST_THREADS];
    uint32_t ends[CBGRID_MOST_THREADS];
    size_t count = threads < CBGRID_MOST_THREADS ? threads : CBGRID_MOST_THREADS;
    uint32_t columns = cbgrid_matrix_ncols(it->b.at ? it->b.at : it->a.at);
    if (is_sum(it, columns)) return by_shares(it, count, made);
    if (count < 2 || columns < 2 || !it->ends || it->ends(it, ends, count)) return make_all(it, made);
    size_t used = ranges_of(it, ends, count, ranges);
    if (used < 2) return make_all(it, made);
    share_out(make_columns, ranges, used);
    return join_ranges(ranges, used, made);
}

/* Makes the whole result of a call by threads, unless an operand or the place for it is missing. */
static int shared(struct call it, struct cbgrid_matrix **out) {
    struct owned made = {NULL};
    if (!it.a.at || (it.operands > 1 && !it.b.at) || !out) return CBGRID_NULL_POINTER;
    return hand(by_threads(&it, thread_count, &made), made, out);
}

/* The ranges of a call's columns have about as many entries of its operands: of three, of the two that have the most. */
static uint32_t ends_by_entries(const struct call *it, uint32_t *ends, size_t count) {
    kept a = it->a, b = it->b.at ? it->b : it->a, mask = it->mask;
    uint64_t in_a = cbgrid_matrix_entries(a.at), in_b = cbgrid_matrix_entries(b.at);
    uint64_t in_mask = cbgrid_matrix_entries(mask.at);
    if (in_mask > in_a && in_a <= in_b) a = mask;
    else if (in_mask > in_b) b = mask;
    return cbgrid_kernel_kept_ends(0, a, b, ends, count);
}

/* Makes the whole result of a call whose ranges of columns have about as many entries. */
static int shared_by_entries(struct call it, struct cbgrid_matrix **out) {
    it.ends = ends_by_entries;
    return shared(it, out);
}

int cbgrid_matrix_add(const struct cbgrid_matrix *a, const struct cbgrid_matrix *b, struct cbgrid_matrix **out) {
    return shared_by_entries(of_two((struct choice){.number = ADD}, a, b), out);
}

int cbgrid_matrix_times(const struct cbgrid_matrix *a, const struct cbgrid_matrix *b, struct cbgrid_matrix **out) {
    return shared_by_entries(of_two((struct choice){.number = TIMES}, a, b), out);
}

/* The ranges of a transpose have as many rows of the operand. Each thread reads all its entries, so few entries aren't shared. */
static uint32_t ends_by_rows(const struct call *it, uint32_t *ends, size_t count) {
    size_t rows = cbgrid_matrix_nrows(it->a.at), used = cbgrid_matrix_entries(it->a.at) / LEAST_ENTRIES;
    if (used < 2) return 1;
    if (used > count) used = count;
    for (size_t n = 0; n < count; n++) ends[n] = n + 1 < used ? rows / used * (n + 1) : rows;
    return 0;
}

static struct call transpose_of(const struct cbgrid_matrix *a) {
    struct call it = of_one((struct choice){.number = TRANSPOSE}, a);
    it.ends = ends_by_rows;
    return it;
}

int cbgrid_matrix_transpose(const struct cbgrid_matrix *a, struct cbgrid_matrix **out) {
    return shared(transpose_of(a), out);
}

int cbgrid_matrix_prune(const struct cbgrid_matrix *a, uint32_t test, uint64_t bound, struct cbgrid_matrix **out) {
    return shared_by_entries(of_one((struct choice){.number = number_of(PRUNE, 3, test), .value = bound}, a), out);
}

int cbgrid_matrix_select(const struct cbgrid_matrix *a, uint32_t region, int64_t diagonal, struct cbgrid_matrix **out) {
    /* Diagonal k goes through (0, k) or (-k, 0). No matrix has a place on diagonal CBGRID_LIMIT or beyond. */
    int64_t limit = CBGRID_LIMIT, k = diagonal > limit ? limit : diagonal < -limit ? -limit : diagonal;
    uint32_t row = k < 0 ? (uint32_t)-k : 0, column = k > 0 ? (uint32_t)k : 0;
    struct choice choice = {.number = number_of(SELECT, 4, region), .row = row, .column = column};
    return shared_by_entries(of_one(choice, a), out);
}

int cbgrid_matrix_apply(const struct cbgrid_matrix *a, uint32_t function, uint64_t number, struct cbgrid_matrix **out) {
    return shared_by_entries(of_one((struct choice){.number = number_of(APPLY, 6, function), .value = number}, a), out);
}

int cbgrid_matrix_diagonal(const struct cbgrid_matrix *a, struct cbgrid_matrix **out) {
    return shared(of_one((struct choice){.number = DIAGONAL}, a), out);
}

int cbgrid_matrix_diagonal_matrix(const struct cbgrid_matrix *a, struct cbgrid_matrix **out) {
    return shared(of_one((struct choice){.number = DIAGONAL_MATRIX}, a), out);
}

/* The ranges of a part, or of rows and columns by their numbers, have as many columns. A column has as many entries as the others. */
static uint32_t ends_by_numbers(const struct call *it, uint32_t *ends, size_t count) {
    if (it->all_columns) return ends_by_entries(it, ends, count);
    size_t numbers = it->column_count;
    if (numbers > CBGRID_LIMIT) return 1;
    uint64_t used = numbers * (1 + cbgrid_matrix_entries(it->a.at) / cbgrid_matrix_ncols(it->a.at)) / LEAST_ENTRIES;
    if (used > count) used = count;
    if (used < 2) return 1;
    for (size_t n = 0; n < count; n++) ends[n] = (uint32_t)(n + 1 < used ? numbers * (n + 1) / used : numbers);
    return 0;
}

int cbgrid_matrix_part(const struct cbgrid_matrix *a, uint32_t row, uint32_t row_end, uint32_t column,
                       uint32_t column_end, struct cbgrid_matrix **out) {
    struct call it = of_one((struct choice){PART, row, row_end, column, column_end, 0, 0}, a);
    it.column_count = column_end > column ? column_end - column : 0;
    it.ends = ends_by_numbers;
    return shared(it, out);
}

/* The ranges have about as many entries of the first operand. */
static uint32_t ends_by_first(const struct call *it, uint32_t *ends, size_t count) {
    return cbgrid_kernel_kept_ends(0, it->a, it->a, ends, count);
}

int cbgrid_matrix_assign(const struct cbgrid_matrix *a, uint32_t row, uint32_t column,
                         const struct cbgrid_matrix *part, struct cbgrid_matrix **out) {
    struct call it = of_two((struct choice){.number = ASSIGN, .row = row, .column = column}, a, part);
    it.ends = ends_by_first;
    return shared(it, out);
}

int cbgrid_matrix_exclude(const struct cbgrid_matrix *a, const struct cbgrid_matrix *mask, struct cbgrid_matrix **out) {
    return shared_by_entries(of_two((struct choice){.number = EXCLUDE}, a, mask), out);
}

int cbgrid_matrix_update(const struct cbgrid_matrix *a, const struct cbgrid_matrix *b, const struct cbgrid_matrix *mask,
                         uint32_t flags, struct cbgrid_matrix **out) {
    return shared_by_entries((struct call){.family = UPDATE, .flags = flags, .operands = 2, .a = {a}, .b = {b}, .mask = {mask}}, out);
}

int cbgrid_matrix_extract(const struct cbgrid_matrix *a, const uint32_t *rows, size_t row_count,
                          const uint32_t *columns, size_t column_count, uint64_t *at, struct cbgrid_matrix **out) {
    struct owned made = {NULL};
    bool all_rows = row_count == CBGRID_ALL, all_columns = column_count == CBGRID_ALL;
    if (all_rows) row_count = 0;
    if (all_columns) column_count = 0;
    if (!a || !out || (row_count && !rows) || (column_count && !columns)) return CBGRID_NULL_POINTER;
    if (!row_count) rows = NOTHING32;
    if (!column_count) columns = NOTHING32;
    struct call it = {.family = EXTRACT, .a = {a}, .rows = rows, .columns = columns, .row_count = row_count,
                      .column_count = column_count, .all_rows = all_rows, .all_columns = all_columns, .ends = ends_by_numbers};
    uint32_t code = by_threads(&it, thread_count, &made);
    if (at && is_of_one(code)) {
        *at = cbgrid_kernel_first_outside(rows, row_count, cbgrid_matrix_nrows(a));
        if (*at == row_count) *at += cbgrid_kernel_first_outside(columns, column_count, cbgrid_matrix_ncols(a));
    }
    return hand(code, made, out);
}

/* The ranges of a Kronecker product are made of as many columns of a. */
static uint32_t ends_by_outer(const struct call *it, uint32_t *ends, size_t count) {
    uint64_t outer = cbgrid_matrix_ncols(it->a.at), inner = cbgrid_matrix_ncols(it->b.at);
    uint64_t in_a = cbgrid_matrix_entries(it->a.at), in_b = cbgrid_matrix_entries(it->b.at);
    uint64_t used = in_b < LEAST_ENTRIES ? in_a * in_b / LEAST_ENTRIES : in_a;
    if (used > count) used = count;
    if (used > outer) used = outer;
    if (used < 2 || outer * inner > CBGRID_LIMIT) return 1;
    for (size_t n = 0; n < count; n++) ends[n] = (uint32_t)((n + 1 < used ? outer * (n + 1) / used : outer) * inner);
    return 0;
}

int cbgrid_matrix_kron(const struct cbgrid_matrix *a, const struct cbgrid_matrix *b, struct cbgrid_matrix **out) {
    struct call it = of_two((struct choice){.number = KRONECKER}, a, b);
    it.ends = ends_by_outer;
    return shared(it, out);
}

/* A sum takes less time than a thread takes to wake, unless there are many. */
#define LEAST_SUMMED 65536u

static uint32_t ends_of_sums(const struct call *it, uint32_t *ends, size_t count) {
    uint64_t most = cbgrid_matrix_entries(it->a.at) / LEAST_SUMMED;
    for (size_t n = 0; n < count; n++) ends[n] = cbgrid_matrix_ncols(it->a.at);
    return ends_by_entries(it, ends, count < most ? count : most);
}

int cbgrid_matrix_column_sums(const struct cbgrid_matrix *a, struct cbgrid_matrix **out) {
    struct call it = of_one((struct choice){.number = COLUMN_SUMS}, a);
    it.ends = ends_of_sums;
    return shared(it, out);
}

int cbgrid_matrix_row_sums(const struct cbgrid_matrix *a, struct cbgrid_matrix **out) {
    return shared(of_one((struct choice){.number = ROW_SUMS}, a), out);
}

int cbgrid_matrix_reduce_all(const struct cbgrid_matrix *a, uint64_t *out) {
    struct call it = {.a = {a}};
    struct range ranges[CBGRID_MOST_THREADS];
    if (!a || !out) return CBGRID_NULL_POINTER;
    size_t used = ranges_of_sum(&it, 1, LEAST_SUMMED, thread_count, ranges);
    if (!used) return *out = cbgrid_kernel_kept_total(it.a, 0, ALL_COLUMNS), CBGRID_OK;
    share_out(add_up, ranges, used);
    uint32_t code = CBGRID_OK;
    for (size_t n = 1; n < used && !code; n++) {
        code = cbgrid_kernel_kept_add_share(it.a, &ranges[0].total, 1, &ranges[n].total, 1);
    }
    if (!code) *out = ranges[0].total;
    return (int)code;
}

/* ---- Products: the ranges of their columns take about as many products of two values. */
static uint32_t ends_by_products(const struct call *it, uint32_t *ends, size_t count) {
    return cbgrid_kernel_kept_ends(1, it->a, it->b, ends, count);
}

/* The product that is asked for, of factors that aren't transposed. */
static struct call product_of(const struct cbgrid_matrix *a, const struct cbgrid_matrix *b, const struct cbgrid_how *how) {
    uint32_t number = !how->mask ? MULTIPLY : how->complement ? MULTIPLY_OUTSIDE : MULTIPLY_MASKED;
    struct call it = of_two((struct choice){.number = number}, a, b);
    it.mask.at = how->mask;
    it.ends = ends_by_products;
    return it;
}

/* The first fault of a product of which a factor is to be transposed: no memory is taken for that if there is one. A mask that
 * isn't given has no semiring and no shape. */
static uint32_t fault_of(const struct call *it, const struct cbgrid_how *how) {
    struct summary a = summary_of(it->a.at), b = summary_of(it->b.at), mask = summary_of(how->mask);
    if (a.semiring != b.semiring || (how->mask && a.semiring != mask.semiring)) return CBGRID_MIXED;
    uint32_t rows = how->transpose_a ? a.ncols : a.nrows, left = how->transpose_a ? a.nrows : a.ncols;
    uint32_t cols = how->transpose_b ? b.nrows : b.ncols, right = how->transpose_b ? b.ncols : b.nrows;
    if (left != right || (how->mask && (mask.nrows != rows || mask.ncols != cols))) return CBGRID_SHAPES;
    return CBGRID_OK;
}

/* The same product with the factors transposed that are to be. One thread makes a plain one by one call; otherwise they are
 * transposed here, and freed again. */
static uint32_t of_transposed(struct call it, const struct cbgrid_how *how, uint32_t threads, struct owned *made) {
    uint32_t turn_a = how->transpose_a != 0, turn_b = how->transpose_b != 0;
    if (!how->mask && threads < 2) return cbgrid_kernel_kept_multiply_turned(it.a, turn_a, it.b, turn_b, made);
    struct owned a = {NULL}, b = {NULL};
    uint32_t code = fault_of(&it, how);
    struct call turned_a = transpose_of(it.a.at), turned_b = transpose_of(it.b.at);
    if (!code && turn_a) code = make_all(&turned_a, &a);
    if (!code && turn_b) code = make_all(&turned_b, &b);
    if (a.at) it.a.at = a.at;
    if (b.at) it.b.at = b.at;
    if (!code) code = by_threads(&it, threads, made);
    cbgrid_matrix_free(a.at);
    cbgrid_matrix_free(b.at);
    return code;
}

int cbgrid_matrix_multiply(const struct cbgrid_matrix *a, const struct cbgrid_matrix *b, const struct cbgrid_how *how,
                           struct cbgrid_matrix **out) {
    static const struct cbgrid_how plain = {NULL, 0, 0, 0, 0};
    if (!how) how = &plain;
    if (!a || !b || !out || (how->complement && !how->mask)) return CBGRID_NULL_POINTER;
    struct call it = product_of(a, b, how);
    uint32_t threads = how->threads ? how->threads : thread_count;
    struct owned made = {NULL};
    int is_transposed = how->transpose_a || how->transpose_b;
    return hand(is_transposed ? of_transposed(it, how, threads, &made) : by_threads(&it, threads, &made), made, out);
}

/* A power by threads: they share each product. These are made in the order that the library makes them in: the product so far, times
 * the matrix. */
static uint32_t power_by_threads(kept a, uint32_t factors, uint32_t threads, struct owned *made) {
    struct call it = {.choice = {.number = MULTIPLY}, .a = a, .b = a, .ends = ends_by_products};
    uint32_t code = by_threads(&it, threads, made);
    for (uint32_t n = 2; n < factors && !code; n++) {
        struct owned before = *made;
        it.a.at = before.at;
        code = by_threads(&it, threads, made);
        cbgrid_matrix_free(before.at);
    }
    return code;
}

int cbgrid_matrix_power(const struct cbgrid_matrix *a, uint32_t factors, struct cbgrid_matrix **out) {
    struct owned made = {NULL};
    uint32_t threads = thread_count;
    int is_alone = threads < 2 || factors < 2 || cbgrid_matrix_nrows(a) != cbgrid_matrix_ncols(a);
    if (!a || !out || is_alone) return shared(of_one((struct choice){.number = POWER, .factors = factors}, a), out);
    return hand(power_by_threads((kept){a}, factors, threads, &made), made, out);
}

/* ---- Triples: threads write those of as many entries. */
struct entries {
    const struct cbgrid_columns *lists;
    size_t first, end;
    struct cbgrid_triple *out;
};

static void write_triples(void *shares, size_t n) {
    const struct entries *it = (const struct entries *)shares + n;
    const struct cbgrid_columns *lists = it->lists;
    size_t k = 0, end = lists->columns_len;
    while (end - k > 1) {
        size_t middle = k + (end - k) / 2;
        if (lists->starts64[middle] <= it->first) k = middle;
        else end = middle;
    }
    for (size_t at = it->first; at < it->end; k++) {
        size_t stop = lists->starts64[k + 1] < it->end ? lists->starts64[k + 1] : it->end;
        for (; at < stop; at++) it->out[at] = (struct cbgrid_triple){lists->rows[at], lists->columns[k], lists->values[at]};
    }
}

int cbgrid_matrix_triples(const struct cbgrid_matrix *a, struct cbgrid_triple *out) {
    struct cbgrid_columns lists;
    struct entries shares[CBGRID_MOST_THREADS];
    if (!a || (!out && cbgrid_matrix_entries(a))) return CBGRID_NULL_POINTER;
    int code = cbgrid_matrix_columns(a, &lists);
    if (code) return code;
    size_t len = lists.rows_len, used = len / LEAST_ENTRIES, threads = thread_count;
    if (used > threads) used = threads;
    if (!used) used = 1;
    for (size_t n = 0; n < used; n++) shares[n] = (struct entries){&lists, len / used * n, n + 1 < used ? len / used * (n + 1) : len, out};
    share_out(write_triples, shares, used);
    cbgrid_free_columns(&lists);
    return CBGRID_OK;
}

const char *cbgrid_version(void) {
    return CBGRID_VERSION;
}

const char *cbgrid_message(int code) {
    static const char *const messages[] = {
        "done",
        "no such semiring",
        "no such test, region, function, flag or power",
        "matrices over other semirings",
        "no such form of a matrix",
        "more than 2147483647 rows or columns",
        "lengths of the lists don't agree",
        "starts, columns or rows don't ascend",
        "entry outside the shape",
        "not a value of the semiring",
        "shapes don't agree",
        "matrix not square",
        "no such source",
        "not a Matrix Market text of this profile",
        "out of memory",
        "null pointer",
        "matrix not a column",
    };
    return code >= 0 && (size_t)code < sizeof messages / sizeof *messages ? messages[code] : "no such code";
}
