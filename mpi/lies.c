/*
 * A test of the exports of crates/cb_mpi: letters that lie, and calls out of turn. Four processes of one grid are stepped here,
 * without MPI. Before a process takes a letter, it is given that letter with each field of its head and each of its lists
 * changed, one at a time. Each has to be refused and to change nothing, so in the end the answer is right.
 *
 * mpi/out/lies prints how many lies were refused. Exits with 1 at the first that wasn't.
 */
#include "process.h"

#include <stdio.h>
#include <stdlib.h>
#include <string.h>

enum { SIDE = 2, RANKS = SIDE * SIDE, LETTERS = 4096, PLUS_TIMES = 0, OR_AND = 2 };

/* A letter on its way. */
struct letter {
    struct message message;
    struct head head;
    struct columns lists;
};

static struct process processes[RANKS];
static struct letter letters[RANKS][RANKS][LETTERS];
static int posted[RANKS][RANKS], taken[RANKS][RANKS];
static uint32_t semiring;
static long lies;

static const char opening[] = "%%MatrixMarket matrix coordinate integer general\n4 4 6\n";
static const char *const pieces[RANKS] = {"1 1 1\n2 3 2\n", "4 4 3\n", "3 2 4\n1 4 5\n", "4 1 6\n"};

static void fail(const char *what, uint32_t code) {
    fprintf(stderr, "lies: %s: code %u\n", what, (unsigned)code);
    exit(1);
}

static void expect(uint32_t code, uint32_t expected, const char *what) {
    if (code != expected) fail(what, code);
}

/* Gives a process a letter that isn't the awaited one. */
static void lie(int me, const struct head *head, const struct columns *lists, const char *what) {
    expect(cbgrid_process_take(processes[me], head, lists, &processes[me]), STRAY, what);
    lies++;
}

/* The lists of a sheet, copied, so that each can be changed. */
struct copy {
    uint32_t *numbers, *rows;
    uint64_t *starts, *values;
    struct columns lists;
};

static void *copy_of(const void *at, size_t len, size_t size) {
    char *made = calloc(len + 1, size);
    if (!made) fail("memory", 0);
    if (len) memcpy(made, at, len * size);
    return made;
}

static struct copy copy_lists(const struct columns *lists) {
    struct copy c = {copy_of(lists->columns.at, lists->columns.len, 4), copy_of(lists->rows.at, lists->rows.len, 4),
                     copy_of(lists->starts64.at, lists->starts64.len, 8), copy_of(lists->values.at, lists->values.len, 8), *lists};
    c.lists.columns.at = c.numbers;
    c.lists.rows.at = c.rows;
    c.lists.starts64.at = c.starts;
    c.lists.values.at = c.values;
    return c;
}

static void free_copy(struct copy *c) {
    free(c->numbers);
    free(c->rows);
    free(c->starts);
    free(c->values);
}

/* The letter with each field of its head changed. */
static void lie_in_head(int me, const struct letter *it) {
    struct head head;
#define LIE(field, change)                                  \
    head = it->head;                                        \
    head.field change;                                      \
    lie(me, &head, &it->lists, "a changed " #field)
    LIE(number, += 1);
    LIE(number, = UINT64_MAX);
    LIE(from, ^= 1);
    LIE(from, += 65536);
    LIE(to, ^= 1);
    LIE(to, += 65536);
    LIE(tag, += 1);
    LIE(kind, = 3);
    LIE(kind, = it->head.kind == 2 ? 1 : 2);
    LIE(reserved, = 1);
    LIE(origin, = 65536);
#undef LIE
}

/* The letter with its shape or one of its lists changed: a place out of order, or out of the shape, or too few of them. */
static void lie_in_lists(int me, const struct letter *it) {
    size_t columns = it->lists.columns.len, entries = it->lists.rows.len;
    if (it->head.kind) return;
#define LIE(what, change)                                 \
    do {                                                  \
        struct copy c = copy_lists(&it->lists);           \
        change;                                           \
        lie(me, &it->head, &c.lists, what);               \
        free_copy(&c);                                    \
    } while (0)
    LIE("another height", c.lists.nrows++);
    LIE("another width", c.lists.ncols++);
    LIE("starts of no size", c.lists.wide = 2);
    LIE("columns of no kind", c.lists.kind = 2);
    if (!entries) return;
    LIE("a column outside", c.numbers[columns - 1] = c.lists.ncols);
    LIE("a row outside", c.rows[0] = c.lists.nrows);
    LIE("a start beyond the end", c.starts[columns]++);
    LIE("a first start that isn't 0", c.starts[0] = 1);
    LIE("too few values", c.lists.values.len--);
    LIE("too few rows", c.lists.rows.len--);
    LIE("too few columns", c.lists.columns.len--);
    LIE("too few starts", c.lists.starts64.len--);
    if (columns > 1) LIE("a column twice", c.numbers[1] = c.numbers[0]);
    if (it->lists.starts64.at[1] > 1) LIE("a row twice", c.rows[1] = c.rows[0]);
    if (semiring == OR_AND) LIE("a value that the semiring hasn't", c.values[0] = 2);
#undef LIE
}

/* A call that isn't this process's turn. */
static void refused(uint32_t code, const char *what) {
    expect(code, NOT_NOW, what);
    lies++;
}

static void call_out_of_turn(int me, uint32_t want) {
    struct process *p = &processes[me];
    const unsigned char *text = (const unsigned char *)opening;
    struct line_counts counts;
    struct message none = {NULL};
    uint32_t origin;
    refused(cbgrid_process_operate(*p, MULTIPLY, 0, p), "an operation in the middle of a plan");
    refused(cbgrid_process_gather(*p, 0, p), "a second plan");
    refused(cbgrid_process_read(*p, text, strlen(opening), text, 0, &counts, p), "a text in the middle of a plan");
    refused(cbgrid_process_end(*p, 0, &origin, p), "an early end");
    if (want != TO_WORK) refused(cbgrid_process_work(*p, p), "work out of turn");
    if (want != TO_POST && want != TO_SHUT) refused(cbgrid_process_post(*p, &none, p), "a post out of turn");
}

/* Calls of a process that was freed. */
static void call_freed(struct process *p) {
    uint32_t other;
    uint64_t count;
    expect(cbgrid_process_want(*p, &other), NOTHING, "what a freed process wants");
    expect(cbgrid_process_work(*p, p), ABSENT, "work of a freed process");
    expect(cbgrid_process_operate(*p, MULTIPLY, 0, p), ABSENT, "an operation of a freed process");
    expect(cbgrid_process_count(*p, 0, &count), ABSENT, "a register of a freed process");
    lies += 4;
}

static void post(int me, int to) {
    struct letter *it = &letters[me][to][posted[me][to]++];
    if (posted[me][to] == LETTERS) fail("too many letters", 0);
    expect(cbgrid_process_post(processes[me], &it->message, &processes[me]), DONE, "a post");
    expect(cbgrid_message_parts(it->message, &it->head, &it->lists), DONE, "a message's parts");
}

static int take(int me, int from) {
    if (taken[from][me] == posted[from][me]) return 0;
    struct letter *it = &letters[from][me][taken[from][me]++];
    lie_in_head(me, it);
    lie_in_lists(me, it);
    for (int other = 0; other < RANKS; other++)
        if (other != from && taken[other][me] < posted[other][me]) {
            struct letter *stray = &letters[other][me][taken[other][me]];
            lie(me, &stray->head, &stray->lists, "a letter of another lane");
        }
    if (taken[from][me] < posted[from][me]) lie(me, &it[1].head, &it[1].lists, "a later letter of the lane");
    expect(cbgrid_process_take(processes[me], &it->head, &it->lists, &processes[me]), DONE, "the awaited letter");
    if (cbgrid_process_take(processes[me], &it->head, &it->lists, &processes[me]) == DONE) fail("a letter taken twice", DONE);
    cbgrid_message_clear(it->message, &it->message);
    free(it->message.at);
    return 1;
}

/* Does a half of a process, if it can be done now. */
static int step(int me) {
    uint32_t other = 0, want = cbgrid_process_want(processes[me], &other);
    if (want == NOTHING) return 0;
    call_out_of_turn(me, want);
    if (want == TO_WORK) expect(cbgrid_process_work(processes[me], &processes[me]), DONE, "work");
    else if (want == TO_POST || want == TO_SHUT) post(me, (int)other);
    else return take(me, (int)other);
    return 1;
}

/* Does a plan to its end, and keeps what it leaves in a register. */
static void finish(uint32_t reg) {
    uint32_t origin;
    for (int moved = 1; moved;) {
        moved = 0;
        for (int me = 0; me < RANKS; me++) moved |= step(me);
    }
    for (int me = 0; me < RANKS; me++) expect(cbgrid_process_end(processes[me], reg, &origin, &processes[me]), DONE, "the end of a plan");
}

/* All processes read their pieces of the text. */
static void read_pieces(uint32_t reg) {
    struct line_counts counts;
    for (int me = 0; me < RANKS; me++)
        expect(cbgrid_process_read(processes[me], (const unsigned char *)opening, strlen(opening), (const unsigned char *)pieces[me],
                                   strlen(pieces[me]), &counts, &processes[me]), DONE, "a piece");
    finish(reg);
}

/* The lines of the square of the matrix, by the definition. In or-and they have no values. */
static void square(char *lines) {
    uint64_t a[4][4] = {{0}}, sum;
    for (int n = 0; n < RANKS; n++)
        for (const char *at = pieces[n]; *at; at = strchr(at, '\n') + 1) a[at[0] - '1'][at[2] - '1'] = (uint64_t)(at[4] - '0');
    for (int j = 0; j < 4; j++)
        for (int i = 0; i < 4; i++) {
            sum = 0;
            for (int k = 0; k < 4; k++) sum += a[i][k] * a[k][j];
            if (sum) lines += sprintf(lines, semiring == OR_AND ? "%d %d\n" : "%d %d %d\n", i + 1, j + 1, (int)sum);
        }
}

/* The square of the matrix, by all processes, over a semiring. */
static void run(void) {
    char answer[1024] = "", wanted[1024] = "";
    struct bytes lines;
    memset(posted, 0, sizeof posted);
    memset(taken, 0, sizeof taken);
    for (int me = 0; me < RANKS; me++)
        expect(cbgrid_process_open(semiring, SIDE, (uint32_t)me, &processes[me]), DONE, "a process");
    read_pieces(0);
    read_pieces(1);
    for (int me = 0; me < RANKS; me++) expect(cbgrid_process_operate(processes[me], MULTIPLY, 0, &processes[me]), DONE, "the product");
    finish(0);
    for (int me = 0; me < RANKS; me++) expect(cbgrid_process_gather(processes[me], 0, &processes[me]), DONE, "the panels");
    finish(0);
    /* By column of the grid, and in it by row, the processes have the lines in order. */
    for (int n = 0; n < RANKS; n++) {
        struct process *p = &processes[n % SIDE * SIDE + n / SIDE];
        expect(cbgrid_process_lines(*p, 0, &lines, p), DONE, "lines");
        strncat(answer, (const char *)lines.at, lines.len);
        if (lines.len) free((void *)lines.at);
        cbgrid_process_clear(*p, p);
        call_freed(p);
        free(p->at);
    }
    square(wanted);
    if (strcmp(answer, wanted)) fail("another answer", 0);
}

int main(void) {
    semiring = PLUS_TIMES;
    run();
    semiring = OR_AND;
    run();
    printf("lies: %ld letters that lie and calls out of turn, all refused\n", lies);
    return 0;
}
