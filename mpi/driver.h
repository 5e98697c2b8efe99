/* What the files of the driver share. */
#ifndef CBGRID_DRIVER_H
#define CBGRID_DRIVER_H

#include "process.h"

#include <mpi.h>
#include <sys/types.h>

/* The statuses with which a run ends, those of cbgrid. */
enum { OK_STATUS, USAGE_STATUS = 2, UNREADABLE_STATUS, TEXT_STATUS, SHAPES_STATUS, RANKS_STATUS, OUTPUT_STATUS };

/* This process's number, how many there are, the side of their grid, and how many letters a lane may hold. */
extern int me, ranks, side, lane;

/* The process of the proved library, and the number of its semiring. */
extern struct process process;
extern uint32_t semiring;

/* ends.c: waiting for others, and how a run ends. */
void await(MPI_Request *requests, int count);
void await_with(MPI_Request *request, MPI_Status *status);
void all_reduce(const void *mine, void *all, int count, MPI_Datatype type, MPI_Op op);
void meet(void);
void finish(int status);
void agree(int status, const char *line);
void agree_on(uint32_t code, uint32_t origin);
void must(uint32_t code, const char *what);
void *room(size_t bytes);
void print_named(const char *name, const char *rest);

/* letters.c: does the plan that was begun. */
extern uint64_t bytes_sent, letters_sent;
void open_lanes(void);
void do_plan(void);

/* texts.c: reads texts and writes answers. */
struct text {
    const char *name;
    int file;
    off_t size;
};
void open_texts(struct text *texts, int count);
void read_text(const struct text *text, uint32_t reg);
void write_answer(uint32_t reg, const char *name);
void write_vertices(uint32_t reg, const char *name);

/* searches.c: levels and distances in a graph. */
uint32_t search_from(uint32_t source);

#endif
