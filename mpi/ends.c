/* Waiting for other processes, and how a run ends: all processes with one status, and one line by rank 0. */
#include "driver.h"

#include <sched.h>
#include <stdio.h>
#include <stdlib.h>
#include <time.h>

/* Polls, then lets others run, then sleeps a little: a process that waits takes no core from those that compute. */
static void pause_for(unsigned turns) {
    struct timespec little = {0, 50000};
    if (turns > 4000) nanosleep(&little, NULL);
    else if (turns > 100) sched_yield();
}

void await_with(MPI_Request *request, MPI_Status *status) {
    int done = 0;
    for (unsigned turns = 0;; turns++) {
        MPI_Test(request, &done, status);
        if (done) return;
        pause_for(turns);
    }
}

void await(MPI_Request *requests, int count) {
    for (int n = 0; n < count; n++) await_with(&requests[n], MPI_STATUS_IGNORE);
}

void all_reduce(const void *mine, void *all, int count, MPI_Datatype type, MPI_Op op) {
    MPI_Request request;
    MPI_Iallreduce(mine, all, count, type, op, MPI_COMM_WORLD, &request);
    await(&request, 1);
}

void meet(void) {
    MPI_Request request;
    MPI_Ibarrier(MPI_COMM_WORLD, &request);
    await(&request, 1);
}

/* Ends the run. Every process calls it, with the same status. */
void finish(int status) {
    if (process.at) {
        cbgrid_process_clear(process, &process);
        free(process.at);
    }
    MPI_Finalize();
    exit(status);
}

/* Goes on if all processes have status 0. Otherwise all end with the greatest status; the first process that has it says the line
 * that rank 0 prints. */
void agree(int status, const char *line) {
    struct {
        int status, rank;
    } mine = {status, me}, worst;
    char said[256] = "";
    MPI_Request request;
    all_reduce(&mine, &worst, 1, MPI_2INT, MPI_MAXLOC);
    if (!worst.status) return;
    if (me == worst.rank) snprintf(said, sizeof said, "%s", line);
    MPI_Ibcast(said, sizeof said, MPI_CHAR, worst.rank, MPI_COMM_WORLD, &request);
    await(&request, 1);
    if (me == 0) fprintf(stderr, "cbgrid: %s\n", said);
    finish(worst.status);
}

/* The same for the code of a call; a block that was lost was lost at rank `origin`. */
void agree_on(uint32_t code, uint32_t origin) {
    char line[64];
    switch (code) {
        case DONE: agree(OK_STATUS, ""); return;
        case BAD_SHAPES: agree(SHAPES_STATUS, "shapes don't agree"); return;
        case NO_MEMORY: agree(RANKS_STATUS, "out of memory"); return;
        case LOST: snprintf(line, sizeof line, "lost at rank %u", (unsigned)origin); break;
        default: snprintf(line, sizeof line, "rank %d: call %u refused", me, (unsigned)code);
    }
    agree(RANKS_STATUS, line);
}

/* Ends all processes at once if a call in the middle of a plan isn't done. */
void must(uint32_t code, const char *what) {
    static const char *why[] = {"", "not now", "stray letter", "not there", "fault in a text", "shapes don't agree", "lost",
                                "out of memory"};
    /* mpirun has this long to pass the line on before it ends. */
    struct timespec tenth = {0, 100000000};
    if (code == DONE) return;
    fprintf(stderr, "cbgrid: rank %d: %s: %s\n", me, what, code <= NO_MEMORY ? why[code] : "unknown");
    nanosleep(&tenth, NULL);
    MPI_Abort(MPI_COMM_WORLD, RANKS_STATUS);
    exit(RANKS_STATUS);
}

/* Memory, of at least one byte. */
void *room(size_t bytes) {
    void *at = malloc(bytes ? bytes : 1);
    if (!at) must(NO_MEMORY, "a buffer");
    return at;
}

/* Prints a line about a file, with `?` in place of control characters in its name. */
void print_named(const char *name, const char *rest) {
    fputs("cbgrid: ", stderr);
    for (const unsigned char *c = (const unsigned char *)name; *c; c++) fputc(*c < 32 || *c == 127 ? '?' : *c, stderr);
    fprintf(stderr, "%s\n", rest);
}
