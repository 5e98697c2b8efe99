/*
 * Levels and distances in a graph. Each process has its block of the transposed matrix, and of two columns: the numbers of the
 * vertices so far, and those that fell in the last round. A round is the product of the transposed matrix and the second column, by
 * the plan of an operation; then each process takes over the lower numbers of its own vertices.
 */
#include "driver.h"

/* The registers. An operation takes its operands from the first two. */
enum { FIRST, FELL, EDGES, KNOWN };

/* Goes on if all processes have begun a search in the graph in the first register. Otherwise all end as cbgrid does. */
static void begin(uint32_t source) {
    uint32_t code = cbgrid_process_begin_search(process, FIRST, source, KNOWN, FELL, &process);
    if (code == BAD_SHAPES) agree(SHAPES_STATUS, "matrix not square");
    else if (code == ABSENT) agree(SHAPES_STATUS, "no such source");
    else agree_on(code, 0);
}

/* Does an operation on the matrices in the first registers, and keeps the answer in another. */
static void compute(uint32_t operation, uint32_t answer) {
    uint32_t origin = 0;
    agree_on(cbgrid_process_operate(process, operation, 0, &process), 0);
    do_plan();
    agree_on(cbgrid_process_end(process, answer, &origin, &process), origin);
}

/* How many numbers fell in the last round, of all vertices. */
static uint64_t fallen(void) {
    uint64_t mine = 0, all;
    agree_on(cbgrid_process_count(process, FELL, &mine), 0);
    all_reduce(&mine, &all, 1, MPI_UINT64_T, MPI_SUM);
    return all;
}

/* Makes one round. */
static void make_round(void) {
    agree_on(cbgrid_process_copy(process, EDGES, FIRST, &process), 0);
    compute(MULTIPLY_VECTOR, FELL);
    agree_on(cbgrid_process_settle(process, KNOWN, FELL, &process), 0);
}

/* Finds the distance of each vertex from a source, in the graph in register 0. Returns the register of the column of distances. */
uint32_t search_from(uint32_t source) {
    begin(source);
    compute(TRANSPOSE, EDGES);
    while (fallen()) make_round();
    return KNOWN;
}
