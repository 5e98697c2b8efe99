/*
 * A product, distances, levels and components of a small road map.
 *
 *     cc roads.c $(pkg-config --cflags --libs cbgrid) -o roads && ./roads
 */
#include <inttypes.h>
#include <stdio.h>
#include <string.h>

#include "cbgrid.h"

/* An entry in row i and column j is a road from i to j; its value is the length. */
static const char text[] =
    "%%MatrixMarket matrix coordinate integer general\n"
    "5 5 6\n"
    "1 2 7\n"
    "1 3 2\n"
    "3 2 4\n"
    "2 4 1\n"
    "3 4 9\n"
    "5 1 3\n";

/* Prints the value of a new matrix at a place, unless there is none, and frees it. Rows and columns count from 0. */
static int print_value(const char *what, int code, struct cbgrid_matrix *made, uint32_t row, uint32_t column) {
    uint64_t value;
    if (!code) code = cbgrid_matrix_value(made, row, column, &value);
    if (!code) printf("%s: %" PRIu64 "\n", what, value);
    cbgrid_matrix_free(made);
    return code;
}

static int print_ways(const struct cbgrid_matrix *roads, const struct cbgrid_matrix *edges) {
    struct cbgrid_matrix *two = NULL, *far = NULL, *steps = NULL, *islands = NULL;
    int code = cbgrid_matrix_multiply(roads, roads, NULL, &two);
    code = print_value("from 1 to 4 by two roads", code, two, 0, 3);
    if (!code) code = cbgrid_matrix_distances(roads, 0, &far);
    code = print_value("from 1 to 4", code, far, 3, 0);
    if (!code) code = cbgrid_matrix_levels(edges, 0, &steps);
    code = print_value("roads from 1 to 4", code, steps, 3, 0);
    if (!code) code = cbgrid_matrix_components(edges, &islands);
    return print_value("island of 5", code, islands, 4, 0);
}

int main(void) {
    struct cbgrid_matrix *roads = NULL, *edges = NULL;
    uint64_t line;
    int code = cbgrid_matrix_read(CBGRID_MIN_PLUS, text, strlen(text), &line, &roads);
    if (!code) code = cbgrid_matrix_read(CBGRID_OR_AND, text, strlen(text), &line, &edges);
    if (!code) code = print_ways(roads, edges);
    cbgrid_matrix_free(edges);
    cbgrid_matrix_free(roads);
    if (code) fprintf(stderr, "%s\n", cbgrid_message(code));
    return code != 0;
}
