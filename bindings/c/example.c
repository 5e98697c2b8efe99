/*
 * Reads a Matrix Market text, multiplies the matrix by itself, and prints the product twice: entry by entry,
 * and as a text. How many walks of two roads lead from one town to another:
 *
 *     cc example.c $(pkg-config --cflags --libs cbgrid) -o example && ./example
 */
#include <inttypes.h>
#include <stdio.h>
#include <string.h>

#include "cbgrid.h"

static const char roads[] =
    "%%MatrixMarket matrix coordinate pattern general\n"
    "4 4 4\n"
    "1 2\n"
    "1 3\n"
    "2 4\n"
    "3 4\n";

/* The lists of a matrix name its stored columns, and where the entries of each start. */
static int print_entries(const struct cbgrid_matrix *matrix) {
    struct cbgrid_columns lists;
    int code = cbgrid_matrix_columns(matrix, &lists);
    if (code) return code;
    for (size_t k = 0; k < lists.columns_len; k++) {
        for (uint64_t n = lists.starts64[k]; n < lists.starts64[k + 1]; n++) {
            printf("%" PRIu32 " to %" PRIu32 ": %" PRIu64 " walks\n", lists.rows[n], lists.columns[k], lists.values[n]);
        }
    }
    cbgrid_free_columns(&lists);
    return code;
}

static int print_text(const struct cbgrid_matrix *matrix) {
    struct cbgrid_text text;
    int code = cbgrid_matrix_text(matrix, &text);
    if (code) return code;
    fwrite(text.bytes, 1, text.len, stdout);
    cbgrid_free_text(&text);
    return code;
}

int main(void) {
    struct cbgrid_matrix *graph = NULL, *walks = NULL;
    uint64_t line;
    int code = cbgrid_matrix_read(CBGRID_PLUS_TIMES, roads, strlen(roads), &line, &graph);
    if (code == CBGRID_FORMAT) fprintf(stderr, "line %" PRIu64 ": ", line);
    if (!code) code = cbgrid_matrix_multiply(graph, graph, NULL, &walks);
    if (!code) code = print_entries(walks);
    if (!code) code = print_text(walks);
    cbgrid_matrix_free(walks);
    cbgrid_matrix_free(graph);
    if (code) fprintf(stderr, "%s\n", cbgrid_message(code));
    return code != 0;
}
