/*
 * What the tests of cbgrid for C share. Each allocation and each thread of what they call can be refused: the programs
 * are linked with --wrap (Makefile).
 */
#ifndef CHECK_H
#define CHECK_H

#include <inttypes.h>
#include <limits.h>
#include <stdio.h>
#include <stdlib.h>
#include <string.h>

#include "../cbgrid.h"

/* ---- counts.c */

/* How many blocks are live, and after how many more allocations one is refused (-1: never). */
extern _Atomic long live, left;

/* How many more threads can be started (-1: all). */
extern long threads_left;

/* Memory of the tests themselves, which is neither counted nor refused. */
void *__real_malloc(size_t);
void __real_free(void *);

void expect(int holds, const char *what, const char *file, int line);
#define EXPECT(holds) expect((holds), #holds, __FILE__, __LINE__)

/* Prints how many checks there were, and how many failed. Returns the status of the program. */
int report(void);

/* ---- dense.c: dense matrices, and what the calls mean on them. With LARGE their sides are SIDE. */
#ifdef LARGE
#define SIDE 240
#else
#define SIDE 7
#endif
#define SEMIRINGS (CBGRID_MIN_MAX + 1)
struct dense {
    uint32_t nrows, ncols;
    uint64_t at[SIDE][SIDE];
};

uint64_t least(uint64_t x, uint64_t y);
uint64_t sum(uint32_t semiring, uint64_t x, uint64_t y);
uint64_t product(uint32_t semiring, uint64_t x, uint64_t y);
uint64_t zero_of(uint32_t semiring);
struct dense blank(uint32_t semiring, uint32_t nrows, uint32_t ncols);
struct dense turned(const struct dense *a);
struct dense dense_product(uint32_t semiring, const struct dense *a, const struct dense *b);
struct dense dense_relaxed(const struct dense *graph, const struct dense *given, int edges_count_one);
struct dense dense_distances(const struct dense *graph, uint32_t source, int edges_count_one);
size_t dense_text(uint32_t semiring, const struct dense *a, char *text);

/* ---- operands.c: random matrices, made in each way; and looks at results. */
extern uint64_t random_state;
uint32_t draw(uint32_t below);
uint32_t draw_to(uint32_t least, uint32_t most);
uint64_t value_of(uint32_t semiring);
struct dense random_dense(uint32_t semiring, uint32_t nrows, uint32_t ncols);

struct lists {
    uint32_t columns[SIDE], starts32[SIDE + 1], rows[SIDE * SIDE];
    uint64_t starts64[SIDE + 1], values[SIDE * SIDE];
};
struct cbgrid_columns lend(uint32_t semiring, const struct dense *a, struct lists *to);
int is_answer(uint32_t semiring, const struct cbgrid_columns *made);
int is_dense(uint32_t semiring, const struct cbgrid_columns *made, const struct dense *want);
int keep(uint32_t semiring, const struct dense *a, int way, struct cbgrid_matrix **out);
int look(uint32_t semiring, const struct cbgrid_matrix *made, const struct dense *want);
struct cbgrid_matrix *random_kept(uint32_t semiring, uint32_t nrows, uint32_t ncols, uint32_t one_of);
int is_same(const struct cbgrid_matrix *a, const struct cbgrid_matrix *b);

/* ---- The tests, each in a file of its own: some of the rounds if `is_few`, or all. With LARGE each call is made once, over the
 * first semiring if it takes one, and with ample memory: the first allocation that is refused comes after all others. */
#ifdef LARGE
#define ROUNDS(is_few, few, many) ((void)(is_few), 1)
#define TRIED 1
#define FIRST_REFUSED (LONG_MAX - 1)
#else
#define ROUNDS(is_few, few, many) ((is_few) ? (few) : (many))
#define TRIED SEMIRINGS
#define FIRST_REFUSED 0
#endif
void test_codes(void);
void test_kept_codes(void);
void test_limits(void);
void test_misfits(void);
void test_columns(void);
void test_operations(int is_few);
void test_products(int is_few);
void test_graphs(int is_few);
void test_selections(int is_few);
void test_updates(int is_few);
void test_threads(int is_few);

#endif
