/*
 * Times calls on a file: bench FILE [RUNS]
 *
 * FILE is a Matrix Market text of a square matrix. Prints the entries of the matrix and of its square over plus-times,
 * and the medians of RUNS calls (10 by default), in microseconds of the clock: the square, and freeing it; and, of the
 * matrix as a graph over or-and, the transpose, and the levels and the parents from the first vertex.
 */
#include <inttypes.h>
#include <stdio.h>
#include <stdlib.h>
#include <time.h>

#include "cbgrid.h"

static double now(void) {
    struct timespec at;
    timespec_get(&at, TIME_UTC);
    return (double)at.tv_sec * 1e6 + (double)at.tv_nsec / 1e3;
}

static int compare(const void *a, const void *b) {
    double x = *(const double *)a, y = *(const double *)b;
    return (x > y) - (x < y);
}

static double median(double *times, size_t count) {
    qsort(times, count, sizeof *times, compare);
    return (times[(count - 1) / 2] + times[count / 2]) / 2;
}

/* The bytes of a file, or a null pointer. */
static char *contents(const char *name, size_t *len) {
    FILE *file = fopen(name, "rb");
    char *bytes = NULL;
    if (!file) return NULL;
    long end = fseek(file, 0, SEEK_END) ? -1 : ftell(file);
    rewind(file);
    *len = end < 0 ? 0 : (size_t)end;
    if (end >= 0) bytes = malloc(*len + 1);
    if (bytes && fread(bytes, 1, *len, file) != *len) free(bytes), bytes = NULL;
    fclose(file);
    return bytes;
}

/* Times the square of the matrix of a text. Returns the code. */
static int time_square(const char *text, size_t len, size_t runs, double *products, double *frees) {
    struct cbgrid_matrix *matrix, *product;
    int code = cbgrid_matrix_read(CBGRID_PLUS_TIMES, text, len, NULL, &matrix);
    if (code) return code;
    uint64_t made = 0;
    for (size_t n = 0; n < runs && !code; n++) {
        double start = now();
        code = cbgrid_matrix_multiply(matrix, matrix, NULL, &product);
        double end = now();
        if (code) break;
        made = cbgrid_matrix_entries(product);
        products[n] = end - start;
        start = now();
        cbgrid_matrix_free(product);
        frees[n] = now() - start;
    }
    if (!code) {
        printf("%" PRIu64 " entries, %" PRIu64 " entries made\n", cbgrid_matrix_entries(matrix), made);
        printf("%.1f us a product, %.1f us to free it\n", median(products, runs), median(frees, runs));
    }
    cbgrid_matrix_free(matrix);
    return code;
}

typedef int call(const struct cbgrid_matrix *graph, struct cbgrid_matrix **out);

static int levels(const struct cbgrid_matrix *graph, struct cbgrid_matrix **out) {
    return cbgrid_matrix_levels(graph, 0, out);
}

static int parents(const struct cbgrid_matrix *graph, struct cbgrid_matrix **out) {
    return cbgrid_matrix_parents(graph, 0, out);
}

/* Times a call on a graph. Returns the code. */
static int time_call(const struct cbgrid_matrix *graph, const char *name, call *made, size_t runs, double *times) {
    struct cbgrid_matrix *out;
    int code = 0;
    for (size_t n = 0; n < runs && !code; n++) {
        double start = now();
        code = made(graph, &out);
        times[n] = now() - start;
        if (!code) cbgrid_matrix_free(out);
    }
    if (!code) printf("%.1f us %s\n", median(times, runs), name);
    return code;
}

/* Times the calls on the graph of a text. Returns the code. */
static int time_graph(const char *text, size_t len, size_t runs, double *times) {
    struct cbgrid_matrix *graph;
    int code = cbgrid_matrix_read(CBGRID_OR_AND, text, len, NULL, &graph);
    if (code) return code;
    code = time_call(graph, "a transpose", cbgrid_matrix_transpose, runs, times);
    if (!code) code = time_call(graph, "the levels from the first vertex", levels, runs, times);
    if (!code) code = time_call(graph, "the parents from the first vertex", parents, runs, times);
    cbgrid_matrix_free(graph);
    return code;
}

int main(int argc, char **argv) {
    size_t runs = argc > 2 ? strtoul(argv[2], NULL, 10) : 10, len = 0;
    char *text = argc > 1 ? contents(argv[1], &len) : NULL;
    double *products = calloc(runs, sizeof *products), *frees = calloc(runs, sizeof *frees);
    if (!text || !runs || !products || !frees) return fprintf(stderr, "usage: bench FILE [RUNS]\n"), 2;

    int code = time_square(text, len, runs, products, frees);
    if (!code) code = time_graph(text, len, runs, products);
    if (code) return fprintf(stderr, "%s\n", cbgrid_message(code)), 1;
    free(text), free(products), free(frees);
    return 0;
}
