/* The exports of the proved library crates/cb_mpi, and the layouts of what they take. Its references are never null. */
#ifndef CBGRID_PROCESS_H
#define CBGRID_PROCESS_H

#include <stddef.h>
#include <stdint.h>

/* A slice is a pointer and a length. */
struct bytes {
    const unsigned char *at;
    size_t len;
};
struct list32 {
    const uint32_t *at;
    size_t len;
};
struct list64 {
    const uint64_t *at;
    size_t len;
};

/* A matrix in compressed columns. */
struct columns {
    uint32_t nrows, ncols, kind, wide;
    struct list32 columns, starts32;
    struct list64 starts64;
    struct list32 rows;
    struct list64 values;
};

/* The head of a letter. */
struct head {
    uint64_t number;
    uint32_t from, to, tag, kind, origin, reserved;
};

/* How many lines of a piece have an entry, and how many entries its text announces. */
struct line_counts {
    uint32_t lines, announced;
};

_Static_assert(sizeof(void *) == 8 && sizeof(size_t) == 8, "64 bits");
_Static_assert(sizeof(struct columns) == 96 && sizeof(struct head) == 32 && sizeof(struct bytes) == 16, "layouts");

/* What a process wants. */
enum { NOTHING, TO_POST, TO_TAKE, TO_WORK, TO_SHUT, TO_END };

/* The codes of calls. */
enum { DONE, NOT_NOW, STRAY, ABSENT, BAD_TEXT, BAD_SHAPES, LOST, NO_MEMORY };

/* The operations. */
enum {
    MULTIPLY,
    MULTIPLY_MASKED,
    MULTIPLY_VECTOR,
    TRANSPOSE,
    ROW_SUMS,
    COLUMN_SUMS,
    ADD,
    TIMES,
    PRUNE_BELOW,
    PRUNE_ABOVE,
    PRUNE_EQUAL
};

/* The greatest side of a grid of processes. */
enum { LARGEST_SIDE = 64 };

/* One pointer each, passed by value. A call that changes what it points to takes it, and gives it back in `out`. */
struct process {
    void *at;
};
struct message {
    void *at;
};

uint32_t cbgrid_semiring_name(uint32_t semiring, struct bytes *out);
uint32_t cbgrid_text_opening(uint32_t semiring, const unsigned char *text, size_t len, size_t *out);
uint32_t cbgrid_text_fault(uint32_t semiring, const unsigned char *text, size_t len, uint64_t *line, struct bytes *words);
uint32_t cbgrid_process_open(uint32_t semiring, uint32_t side, uint32_t me, struct process *out);
void cbgrid_process_clear(struct process p, struct process *out);
uint32_t cbgrid_process_read(struct process p, const unsigned char *opening, size_t opening_len, const unsigned char *piece,
                             size_t piece_len, struct line_counts *counts, struct process *out);
uint32_t cbgrid_process_operate(struct process p, uint32_t operation, uint64_t value, struct process *out);
uint32_t cbgrid_process_gather(struct process p, uint32_t reg, struct process *out);
uint32_t cbgrid_process_copy(struct process p, uint32_t from, uint32_t to, struct process *out);
uint32_t cbgrid_process_weigh(struct process p, uint32_t reg, struct process *out);
uint32_t cbgrid_process_begin_search(struct process p, uint32_t graph, uint32_t source, uint32_t known, uint32_t fell,
                                     struct process *out);
uint32_t cbgrid_process_settle(struct process p, uint32_t known, uint32_t reached, struct process *out);
uint32_t cbgrid_process_vertex_lines(struct process p, uint32_t reg, struct bytes *lines);
uint32_t cbgrid_process_want(struct process p, uint32_t *other);
uint32_t cbgrid_process_post(struct process p, struct message *message, struct process *out);
uint32_t cbgrid_process_take(struct process p, const struct head *head, const struct columns *lists, struct process *out);
uint32_t cbgrid_process_work(struct process p, struct process *out);
uint32_t cbgrid_process_end(struct process p, uint32_t reg, uint32_t *origin, struct process *out);
uint32_t cbgrid_process_count(struct process p, uint32_t reg, uint64_t *out);
uint32_t cbgrid_process_head(struct process p, uint32_t reg, uint64_t entries, struct bytes *out);
uint32_t cbgrid_process_lines(struct process p, uint32_t reg, struct bytes *lines, struct process *out);
uint32_t cbgrid_message_parts(struct message m, struct head *head, struct columns *lists);
void cbgrid_message_clear(struct message m, struct message *out);

#endif
