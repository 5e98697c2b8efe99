/* Dense matrices, and what the calls mean on them. */
#include "check.h"

uint64_t least(uint64_t x, uint64_t y) { return x < y ? x : y; }
static uint64_t greatest(uint64_t x, uint64_t y) { return x > y ? x : y; }
static uint64_t stopped(uint64_t x, uint64_t y) { return x > UINT64_MAX - y ? UINT64_MAX : x + y; }

uint64_t sum(uint32_t semiring, uint64_t x, uint64_t y) {
    switch (semiring) {
    case CBGRID_PLUS_TIMES:
    case CBGRID_PLUS_PAIR:
    case CBGRID_PLUS_MIN:
    case CBGRID_PLUS_FIRST:
    case CBGRID_PLUS_SECOND: return x + y;
    case CBGRID_MIN_PLUS:
    case CBGRID_MIN_FIRST:
    case CBGRID_MIN_SECOND:
    case CBGRID_MIN_MAX: return least(x, y);
    default: return greatest(x, y);
    }
}

/* 0 or the greatest value, whichever is neutral for the sum. */
uint64_t zero_of(uint32_t semiring) {
    return sum(semiring, UINT64_MAX, 1) == 1 ? UINT64_MAX : 0;
}

uint64_t product(uint32_t semiring, uint64_t x, uint64_t y) {
    if (x == zero_of(semiring) || y == zero_of(semiring)) return zero_of(semiring);
    switch (semiring) {
    case CBGRID_PLUS_TIMES: return x * y;
    case CBGRID_MIN_PLUS:
    case CBGRID_MAX_PLUS: return stopped(x, y);
    case CBGRID_PLUS_PAIR: return 1;
    case CBGRID_PLUS_FIRST:
    case CBGRID_MIN_FIRST:
    case CBGRID_MAX_FIRST: return x;
    case CBGRID_PLUS_SECOND:
    case CBGRID_MIN_SECOND:
    case CBGRID_MAX_SECOND: return y;
    case CBGRID_MIN_MAX: return greatest(x, y);
    default: return least(x, y);
    }
}

struct dense blank(uint32_t semiring, uint32_t nrows, uint32_t ncols) {
    struct dense made = {nrows, ncols, {{0}}};
    for (uint32_t i = 0; i < nrows; i++) {
        for (uint32_t j = 0; j < ncols; j++) made.at[i][j] = zero_of(semiring);
    }
    return made;
}

struct dense dense_product(uint32_t semiring, const struct dense *a, const struct dense *b) {
    struct dense made = blank(semiring, a->nrows, b->ncols);
    for (uint32_t i = 0; i < a->nrows; i++) {
        for (uint32_t j = 0; j < b->ncols; j++) {
            for (uint32_t k = 0; k < a->ncols; k++) {
                made.at[i][j] = sum(semiring, made.at[i][j], product(semiring, a->at[i][k], b->at[k][j]));
            }
        }
    }
    return made;
}

/* Rounds in which each edge may shorten the distance of the vertex that it leads to, until none does. */
struct dense dense_relaxed(const struct dense *graph, const struct dense *given, int edges_count_one) {
    struct dense made = *given, before = blank(CBGRID_MIN_PLUS, 0, 0);
    while (memcmp(&made, &before, sizeof made)) {
        before = made;
        for (uint32_t i = 0; i < graph->nrows; i++) {
            for (uint32_t j = 0; j < graph->nrows; j++) {
                uint64_t length = graph->at[i][j];
                if (edges_count_one) length = length ? 1 : UINT64_MAX;
                uint64_t through = product(CBGRID_MIN_PLUS, made.at[i][0], length);
                made.at[j][0] = sum(CBGRID_MIN_PLUS, made.at[j][0], through);
            }
        }
    }
    return made;
}

struct dense dense_distances(const struct dense *graph, uint32_t source, int edges_count_one) {
    struct dense given = blank(CBGRID_MIN_PLUS, graph->nrows, 1);
    given.at[source][0] = 0;
    return dense_relaxed(graph, &given, edges_count_one);
}

size_t dense_text(uint32_t semiring, const struct dense *a, char *text) {
    size_t count = 0, len = 0;
    const char *field = semiring == CBGRID_OR_AND ? "pattern" : "integer";
    for (uint32_t j = 0; j < a->ncols; j++) {
        for (uint32_t i = 0; i < a->nrows; i++) count += a->at[i][j] != zero_of(semiring);
    }
    len += sprintf(text + len, "%%%%MatrixMarket matrix coordinate %s general\n", field);
    len += sprintf(text + len, "%u %u %zu\n", a->nrows, a->ncols, count);
    for (uint32_t j = 0; j < a->ncols; j++) {
        for (uint32_t i = 0; i < a->nrows; i++) {
            if (a->at[i][j] == zero_of(semiring)) continue;
            len += sprintf(text + len, "%u %u", i + 1, j + 1);
            if (semiring != CBGRID_OR_AND) len += sprintf(text + len, " %" PRIu64, a->at[i][j]);
            len += sprintf(text + len, "\n");
        }
    }
    return len;
}

/* The transpose of a dense matrix, whose lists are the rows of the matrix. */
struct dense turned(const struct dense *a) {
    struct dense made = {a->ncols, a->nrows, {{0}}};
    for (uint32_t i = 0; i < a->nrows; i++) {
        for (uint32_t j = 0; j < a->ncols; j++) made.at[j][i] = a->at[i][j];
    }
    return made;
}
