/*
 * Letters between processes. A letter is two messages: its head with the lengths of its lists, and then, if it has any, the lists
 * from where they lie, as one derived type. MPI keeps the order of messages from one process to another.
 *
 * Each message is sent synchronously and without waiting: the send ends once its receiver has begun to take it. So a lane holds the
 * letters whose sends haven't ended, and a process posts no more than a lane may hold.
 */
#include "driver.h"

#include <limits.h>
#include <stdlib.h>
#include <string.h>

/* The first message of a letter: its head, its shape, and how long its lists are. */
struct envelope {
    struct head head;
    uint32_t nrows, ncols;
    uint64_t columns, entries;
};
_Static_assert(sizeof(struct envelope) == 56, "no bytes without a meaning");

/* A letter whose sends may not have ended. */
struct sending {
    struct message message;
    struct envelope envelope;
    MPI_Request requests[2];
    struct sending *next;
};

/* The letters to a process, oldest first. */
struct lane {
    struct sending *oldest, **end;
    int letters;
};
static struct lane *lanes;
uint64_t bytes_sent, letters_sent;

void open_lanes(void) {
    lanes = room((size_t)ranks * sizeof *lanes);
    for (int to = 0; to < ranks; to++) lanes[to] = (struct lane){NULL, &lanes[to].oldest, 0};
}

/* A list of any length as one type: MPI counts by int, so a long one is whole chunks and a rest. */
static MPI_Datatype list_type(uint64_t length, MPI_Datatype of, size_t size) {
    MPI_Datatype made, chunk, parts[2];
    int ones[2] = {1, 1}, whole = (int)(length / INT_MAX), rest = (int)(length % INT_MAX);
    MPI_Aint at[2] = {0, (MPI_Aint)((uint64_t)whole * INT_MAX * size)};
    if (!whole) {
        MPI_Type_contiguous(rest, of, &made);
        return made;
    }
    MPI_Type_contiguous(INT_MAX, of, &chunk);
    MPI_Type_contiguous(whole, chunk, &parts[0]);
    MPI_Type_contiguous(rest, of, &parts[1]);
    MPI_Type_create_struct(2, ones, at, parts, &made);
    MPI_Type_free(&chunk);
    MPI_Type_free(&parts[0]);
    MPI_Type_free(&parts[1]);
    return made;
}

/* The four lists of a sheet as one type, by their addresses. */
static MPI_Datatype sheet_type(const struct columns *lists) {
    MPI_Datatype parts[4] = {
        list_type(lists->columns.len, MPI_UINT32_T, 4), list_type(lists->starts64.len, MPI_UINT64_T, 8),
        list_type(lists->rows.len, MPI_UINT32_T, 4), list_type(lists->values.len, MPI_UINT64_T, 8)};
    const void *where[4] = {lists->columns.at, lists->starts64.at, lists->rows.at, lists->values.at};
    int ones[4] = {1, 1, 1, 1};
    MPI_Aint at[4];
    MPI_Datatype made;
    for (int k = 0; k < 4; k++) MPI_Get_address(where[k], &at[k]);
    MPI_Type_create_struct(4, ones, at, parts, &made);
    MPI_Type_commit(&made);
    for (int k = 0; k < 4; k++) MPI_Type_free(&parts[k]);
    return made;
}

/* Frees the oldest letter to a process, whose sends have ended. */
static void drop_oldest(struct lane *lane) {
    struct sending *it = lane->oldest;
    lane->oldest = it->next;
    if (!lane->oldest) lane->end = &lane->oldest;
    lane->letters--;
    cbgrid_message_clear(it->message, &it->message);
    free(it->message.at);
    free(it);
}

/* Waits until a lane holds at most so many letters. */
static void wait_for_room(struct lane *lane, int most) {
    while (lane->letters > most) {
        await(lane->oldest->requests, 2);
        drop_oldest(lane);
    }
}

/* Waits until all letters of this process have been taken. */
static void wait_for_all(void) {
    for (int to = 0; to < ranks; to++) wait_for_room(&lanes[to], 0);
}

/* Sends a letter from where its lists lie. */
static void send(struct sending *it, const struct columns *lists, int to) {
    it->envelope.nrows = lists->nrows;
    it->envelope.ncols = lists->ncols;
    it->envelope.columns = lists->columns.len;
    it->envelope.entries = lists->rows.len;
    MPI_Issend(&it->envelope, sizeof it->envelope, MPI_BYTE, to, 0, MPI_COMM_WORLD, &it->requests[0]);
    it->requests[1] = MPI_REQUEST_NULL;
    if (it->envelope.entries) {
        MPI_Datatype type = sheet_type(lists);
        MPI_Issend(MPI_BOTTOM, 1, type, to, 0, MPI_COMM_WORLD, &it->requests[1]);
        MPI_Type_free(&type);
    }
    bytes_sent += sizeof it->envelope + 12 * (it->envelope.columns + it->envelope.entries);
    letters_sent++;
}

/* Does a Post or a Shut. */
static void post(int to) {
    struct lane *on = &lanes[to];
    struct sending *it = room(sizeof *it);
    struct columns lists;
    wait_for_room(on, lane - 1);
    memset(it, 0, sizeof *it);
    must(cbgrid_process_post(process, &it->message, &process), "post");
    must(cbgrid_message_parts(it->message, &it->envelope.head, &lists), "post");
    send(it, &lists, to);
    *on->end = it;
    on->end = &it->next;
    on->letters++;
}

/* Lays out lists of these lengths in memory, which is returned. */
static void *lay_out(const struct envelope *envelope, struct columns *lists) {
    uint64_t columns = envelope->columns, entries = envelope->entries, most = (uint64_t)1 << 56;
    if (columns > most || entries > most) must(STRAY, "a letter's lengths");
    char *at = room(8 * entries + 8 * (columns + 1) + 4 * entries + 4 * columns);
    lists->values = (struct list64){(void *)at, entries};
    lists->starts64 = (struct list64){(void *)(at + 8 * entries), columns + 1};
    lists->rows = (struct list32){(void *)(at + 8 * (entries + columns + 1)), entries};
    lists->columns = (struct list32){(void *)(at + 8 * (entries + columns + 1) + 4 * entries), columns};
    return at;
}

/* Receives a message, which must have this length. */
static void receive(void *at, MPI_Datatype type, int length, int from) {
    MPI_Request request;
    MPI_Status status;
    int count;
    MPI_Irecv(at, length, type, from, 0, MPI_COMM_WORLD, &request);
    await_with(&request, &status);
    MPI_Get_count(&status, type, &count);
    if (count != length) must(STRAY, "a letter's length");
}

/* Does a Take or an End. */
static void take(int from) {
    static const uint64_t nothing;
    const void *none = &nothing;
    struct envelope envelope;
    struct columns lists = {0, 0, 0, 1, {none, 0}, {none, 0}, {none, 0}, {none, 0}, {none, 0}};
    void *memory = NULL;
    receive(&envelope, MPI_BYTE, sizeof envelope, from);
    lists.nrows = envelope.nrows;
    lists.ncols = envelope.ncols;
    if (envelope.entries) {
        memory = lay_out(&envelope, &lists);
        MPI_Datatype type = sheet_type(&lists);
        receive(MPI_BOTTOM, type, 1, from);
        MPI_Type_free(&type);
    }
    must(cbgrid_process_take(process, &envelope.head, &lists, &process), "take");
    free(memory);
}

/*
 * Does the plan that was begun.
 *
 * A letter moves only while its sender is in a call of MPI. So before work that follows a take or other work, a process waits until
 * its letters have been taken: nobody waits for the letter of one that computes. That can't block. Of the first act in the plan's
 * order with a half that isn't done, all earlier letters were posted and taken, so the process of that half has none to wait for.
 */
void do_plan(void) {
    uint32_t other = 0, before = TO_POST;
    for (;;) {
        uint32_t want = cbgrid_process_want(process, &other);
        switch (want) {
            case NOTHING: wait_for_all(); return;
            case TO_POST:
            case TO_SHUT: post((int)other); break;
            case TO_TAKE:
            case TO_END: take((int)other); break;
            default:
                if (before == TO_TAKE || before == TO_WORK) wait_for_all();
                must(cbgrid_process_work(process, &process), "work");
        }
        before = want;
    }
}
