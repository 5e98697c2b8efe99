/*
 * Texts: each process loads its own range of bytes of a file, cut where lines end, and writes its own range of the answer's.
 */
#include "driver.h"

#include <errno.h>
#include <fcntl.h>
#include <stdio.h>
#include <stdlib.h>
#include <string.h>
#include <sys/stat.h>
#include <unistd.h>

/* Some bytes of a file, in memory. */
struct range {
    unsigned char *at;
    size_t len;
};

/* Loads a range of a file. Returns whether all of it is there. */
static int load(int file, off_t from, off_t to, struct range *range) {
    range->len = 0;
    range->at = room(to > from ? (size_t)(to - from) : 0);
    while (from + (off_t)range->len < to) {
        ssize_t got = pread(file, range->at + range->len, (size_t)(to - from) - range->len, from + (off_t)range->len);
        if (got < 0 && errno == EINTR) continue;
        if (got <= 0) return 0;
        range->len += (size_t)got;
    }
    return 1;
}

/* Ends the run if a process can't read a file: all report the first such file. */
static void agree_to_read(int unreadable, const struct text *texts, int count) {
    int first;
    all_reduce(&unreadable, &first, 1, MPI_INT, MPI_MIN);
    if (first == count) return;
    if (me == 0) print_named(texts[first].name, ": can't be read");
    finish(UNREADABLE_STATUS);
}

/* Ends the run if a number that describes a file isn't the same for all processes. */
static void agree_that_same(uint64_t number, const char *name) {
    uint64_t mine[2] = {number, ~number}, least[2];
    all_reduce(mine, least, 2, MPI_UINT64_T, MPI_MIN);
    if (least[0] == ~least[1]) return;
    if (me == 0) print_named(name, ": not the same for all processes");
    finish(UNREADABLE_STATUS);
}

/* Opens files, which must be the same for all processes: files of a disk, not pipes. */
void open_texts(struct text *texts, int count) {
    int unreadable = count;
    for (int n = 0; n < count; n++) {
        struct stat about;
        texts[n].file = open(texts[n].name, O_RDONLY);
        int there = texts[n].file >= 0 && !fstat(texts[n].file, &about) && S_ISREG(about.st_mode);
        texts[n].size = there ? about.st_size : 0;
        if (!there && n < unreadable) unreadable = n;
    }
    agree_to_read(unreadable, texts, count);
    for (int n = 0; n < count; n++) agree_that_same((uint64_t)texts[n].size, texts[n].name);
}

/* A number made of some bytes, which differs for most others (Fowler, Noll and Vo). */
static uint64_t sum_of(struct range range) {
    uint64_t sum = 14695981039346656037u;
    for (size_t n = 0; n < range.len; n++) sum = (sum ^ range.at[n]) * 1099511628211u;
    return sum;
}

/* Whether a text that begins with these lines has a fault in them, and not only lacks what comes after them. */
static int has_fault(struct range lines) {
    uint64_t line = 0, count = 0;
    struct bytes words;
    for (size_t n = 0; n < lines.len; n++) count += lines.at[n] == '\n';
    return cbgrid_text_fault(semiring, lines.at, lines.len, &line, &words) == BAD_TEXT && line <= count;
}

/* Loads the opening of a text: its first bytes, as far as the line of the first entry. The code is BAD_TEXT if it has none. */
static uint32_t load_opening(const struct text *text, struct range *opening) {
    for (off_t most = 1 << 16;; most *= 8) {
        off_t size = text->size < most ? text->size : most;
        size_t length;
        if (!load(text->file, 0, size, opening)) return ABSENT;
        while (size < text->size && opening->len && opening->at[opening->len - 1] != '\n') opening->len--;
        uint32_t code = cbgrid_text_opening(semiring, opening->at, opening->len, &length);
        if (code == DONE) opening->len = length;
        if (code == DONE || size == text->size || has_fault(*opening)) return code;
        free(opening->at);
    }
}

/* Where the first line that begins at or after a place begins. -1 if the file can't be read. */
static off_t line_at(const struct text *text, off_t place) {
    unsigned char some[4096];
    for (off_t from = place - 1; from < text->size;) {
        ssize_t got = pread(text->file, some, sizeof some, from);
        if (got < 0 && errno == EINTR) continue;
        if (got <= 0) return -1;
        unsigned char *end = memchr(some, '\n', (size_t)got);
        if (end) return from + (end - some) + 1;
        from += got;
    }
    return text->size;
}

/* Where the piece of process n begins, of the lines from a place on. */
static off_t piece_at(const struct text *text, off_t start, int n) {
    if (n == 0) return start;
    if (n == ranks) return text->size;
    return line_at(text, start + (off_t)((__int128)(text->size - start) * n / ranks));
}

/* Loads this process's piece, and begins to read it. */
static uint32_t begin_reading(const struct text *text, struct range opening, struct line_counts *counts) {
    off_t from = piece_at(text, (off_t)opening.len, me), to = piece_at(text, (off_t)opening.len, me + 1);
    struct range piece = {NULL, 0};
    if (from < 0 || to < 0 || !load(text->file, from, to, &piece)) return ABSENT;
    uint32_t code = cbgrid_process_read(process, opening.at, opening.len, piece.at, piece.len, counts, &process);
    free(piece.at);
    return code;
}

/* Ends the run with the first fault of a text. Rank 0 reads the whole of it, which no process does otherwise. */
static void report(const struct text *text) {
    int status = RANKS_STATUS;
    MPI_Request request;
    if (me == 0) {
        uint64_t line = 0;
        struct bytes words = {(const unsigned char *)"", 0};
        struct range whole;
        char rest[128];
        int there = load(text->file, 0, text->size, &whole);
        uint32_t code = there ? cbgrid_text_fault(semiring, whole.at, whole.len, &line, &words) : ABSENT;
        if (code == BAD_TEXT || code == NO_MEMORY) {
            status = code == BAD_TEXT ? TEXT_STATUS : RANKS_STATUS;
            snprintf(rest, sizeof rest, ":%llu: %.*s", (unsigned long long)line, (int)words.len, (const char *)words.at);
            print_named(text->name, rest);
        } else {
            /* The text has no fault, so some process was refused memory. */
            status = there ? RANKS_STATUS : UNREADABLE_STATUS;
            print_named(text->name, there ? ":1: out of memory" : ": can't be read");
        }
        free(whole.at);
    }
    MPI_Ibcast(&status, 1, MPI_INT, 0, MPI_COMM_WORLD, &request);
    await(&request, 1);
    finish(status);
}

/* Reads a text, of which this process keeps its block in a register. */
void read_text(const struct text *text, uint32_t reg) {
    struct line_counts counts = {0, 0};
    struct range opening = {NULL, 0};
    uint32_t code = load_opening(text, &opening), worst, origin = 0;
    agree_that_same(sum_of(opening), text->name);
    if (code == DONE) code = begin_reading(text, opening, &counts);
    free(opening.at);
    all_reduce(&code, &worst, 1, MPI_UINT32_T, MPI_MAX);
    uint64_t mine = counts.lines, all;
    all_reduce(&mine, &all, 1, MPI_UINT64_T, MPI_SUM);
    if (worst != DONE || all != counts.announced) report(text);
    do_plan();
    code = cbgrid_process_end(process, reg, &origin, &process);
    agree_on(code, origin);
}

/* Writes bytes at a place of a file, or after the last if the place is -1. Returns whether all were written. */
static int put(int file, const void *at, size_t len, off_t place) {
    for (size_t done = 0; done < len;) {
        const char *next = (const char *)at + done;
        ssize_t wrote = place < 0 ? write(file, next, len - done) : pwrite(file, next, len - done, place + (off_t)done);
        if (wrote < 0 && errno == EINTR) continue;
        if (wrote <= 0) return 0;
        done += (size_t)wrote;
    }
    return 1;
}

/* Ends the run if a process can't write; rank 0 removes what was written beside the answer's file. */
static void agree_to_write(int written, const char *beside) {
    int all;
    all_reduce(&written, &all, 1, MPI_INT, MPI_MIN);
    if (all) return;
    if (me == 0 && beside) unlink(beside);
    agree(OUTPUT_STATUS, "can't write");
}

/* Whether a file may be replaced: it is one of a disk, or there is none yet. */
static int is_replaceable(const char *name) {
    struct stat about;
    return stat(name, &about) ? errno == ENOENT : S_ISREG(about.st_mode);
}

/* Writes the answer to a file: beside it first, each process at its place, and renamed once all of it is on the disk. */
static void write_to_file(const char *name, struct bytes head, struct bytes lines, off_t place) {
    size_t length = strlen(name) + 32;
    char *beside = room(length);
    int number = (int)getpid(), file = -1, written = 1;
    MPI_Request request;
    MPI_Ibcast(&number, 1, MPI_INT, 0, MPI_COMM_WORLD, &request);
    await(&request, 1);
    snprintf(beside, length, "%s.cbgrid-%d", name, number);
    if (me == 0) {
        written = is_replaceable(name);
        if (written) file = open(beside, O_WRONLY | O_CREAT | O_EXCL, 0666);
        written = file >= 0;
    }
    agree_to_write(written, NULL);
    if (me > 0) file = open(beside, O_WRONLY);
    written = file >= 0 && put(file, lines.at, lines.len, (off_t)head.len + place);
    if (me == 0) written = written && put(file, head.at, head.len, 0);
    written = written && !fsync(file);
    if (file >= 0 && close(file)) written = 0;
    agree_to_write(written, beside);
    if (me == 0) written = !rename(beside, name);
    agree_to_write(written, beside);
    free(beside);
}

enum { CHUNK = 1 << 20 };

/* Sends this process's lines to rank 0. */
static void send_lines(struct bytes lines, MPI_Comm order) {
    int64_t left = (int64_t)lines.len;
    MPI_Request request;
    MPI_Isend(&left, 1, MPI_INT64_T, 0, 1, order, &request);
    await(&request, 1);
    for (const unsigned char *at = lines.at; at < lines.at + lines.len; at += CHUNK) {
        left = lines.at + lines.len - at;
        MPI_Issend(at, left < CHUNK ? (int)left : CHUNK, MPI_BYTE, 0, 1, order, &request);
        await(&request, 1);
    }
}

/* Writes the lines of process n to standard output, as long as that goes well. */
static int pass_lines(int n, MPI_Comm order, unsigned char *chunk, int written) {
    int64_t left;
    MPI_Request request;
    MPI_Irecv(&left, 1, MPI_INT64_T, n, 1, order, &request);
    for (await(&request, 1); left > 0; left -= CHUNK) {
        int next = left < CHUNK ? (int)left : CHUNK;
        MPI_Irecv(chunk, next, MPI_BYTE, n, 1, order, &request);
        await(&request, 1);
        written = written && put(1, chunk, (size_t)next, -1);
    }
    return written;
}

/* Writes the answer to standard output, by rank 0, which is first in the order of the lines. */
static void write_out(struct bytes head, struct bytes lines, MPI_Comm order) {
    int written = 1;
    if (me == 0) {
        unsigned char *chunk = room(CHUNK);
        written = put(1, head.at, head.len, -1) && put(1, lines.at, lines.len, -1);
        for (int n = 1; n < ranks; n++) written = pass_lines(n, order, chunk, written);
        free(chunk);
    } else {
        send_lines(lines, order);
    }
    agree_to_write(written, NULL);
}

/* Writes an answer, of which this process has these lines, to a file of this name, or to standard output if there is none. The lines
 * of a process come before those of each with a greater number `turn`. */
static void write_lines(struct bytes head, struct bytes lines, int turn, const char *name) {
    MPI_Comm order;
    int64_t length = (int64_t)lines.len, place = 0;
    MPI_Request request;
    MPI_Comm_split(MPI_COMM_WORLD, 0, turn, &order);
    MPI_Iexscan(&length, &place, 1, MPI_INT64_T, MPI_SUM, order, &request);
    await(&request, 1);
    if (me == 0) place = 0;
    if (name) write_to_file(name, head, lines, (off_t)place);
    else write_out(head, lines, order);
    MPI_Comm_free(&order);
    if (head.len) free((void *)head.at);
    if (lines.len) free((void *)lines.at);
}

/* Writes the matrix in a register. */
void write_answer(uint32_t reg, const char *name) {
    struct bytes head = {NULL, 0}, lines = {NULL, 0};
    uint64_t count = 0, all;
    uint32_t origin = 0, code = cbgrid_process_gather(process, reg, &process);
    agree_on(code, 0);
    do_plan();
    agree_on(cbgrid_process_end(process, reg, &origin, &process), origin);
    code = cbgrid_process_count(process, reg, &count);
    all_reduce(&count, &all, 1, MPI_UINT64_T, MPI_SUM);
    if (code == DONE) code = cbgrid_process_head(process, reg, all, &head);
    if (code == DONE) code = cbgrid_process_lines(process, reg, &lines, &process);
    agree_on(code, 0);
    /* By column of the grid, and in it by row, the processes have the lines in order. */
    write_lines(head, lines, me % side * side + me / side, name);
}

/* Writes the lines of the vertices of the column in a register, of which the processes have them in order. */
void write_vertices(uint32_t reg, const char *name) {
    struct bytes head = {NULL, 0}, lines = {NULL, 0};
    agree_on(cbgrid_process_vertex_lines(process, reg, &lines), 0);
    write_lines(head, lines, me, name);
}
