/*
 * cbgrid-mpi: operations on matrices, and searches in graphs, by MPI processes, a square number of them, each of which has a block
 * of each matrix.
 *
 * All that is computed and decided is in the proved library crates/cb_mpi. The driver loads each process's bytes of a file
 * (texts.c), carries letters (letters.c), makes the rounds of a search (searches.c), writes bytes at their place, and ends all
 * processes together (ends.c). This file has the words of the command line: those of cbgrid, and `-o`.
 */
#include "driver.h"

#include <errno.h>
#include <stdio.h>
#include <stdlib.h>
#include <string.h>

int me, ranks, side, lane = 2;
struct process process;
uint32_t semiring;

/* The commands that are no operation. */
enum { LEVELS = 1000, DISTANCES };

/* The commands, and how many files they take. */
static const struct command {
    const char *name;
    uint32_t operation;
    int files;
} commands[] = {{"multiply", MULTIPLY, 2}, {"spmv", MULTIPLY_VECTOR, 2}, {"transpose", TRANSPOSE, 1}, {"reduce", ROW_SUMS, 1},
                {"add", ADD, 2},           {"times", TIMES, 2},          {"prune", PRUNE_BELOW, 1}, {"bfs", LEVELS, 1},
                {"relax", DISTANCES, 1}};

/* What a command line asks for. */
struct job {
    uint32_t operation;
    uint64_t value;
    const char *files[3], *out;
    int count, times, has_test, has_value;
    uint32_t source;
};

/* Whether a command searches in a graph. */
static int searches(uint32_t operation) { return operation == LEVELS || operation == DISTANCES; }

/* Ends the run with what is wrong in the command line. */
static void refuse(const char *what, const char *word) {
    if (me == 0)
        fprintf(stderr,
                "cbgrid-mpi: %s%s\n\n"
                "usage: mpirun -n N cbgrid-mpi COMMAND FILES OPTIONS, with N = 1, 4, 9, 16 .. 4096, a square number\n"
                "  multiply A B [--mask FILE]; spmv A x; transpose A; reduce A [--by rows|columns]; add A B; times A B;\n"
                "  prune A --test below|above|equal --value NUMBER; bfs A --source VERTEX; relax A --source VERTEX\n"
                "  options: --semiring NAME, --lane NUMBER, -o FILE, --times\n",
                what, word);
    finish(USAGE_STATUS);
}

/* What follows the equals sign in an option's word, which is cut off there; or NULL. */
static const char *cut_value(char *word) {
    char *equals = strncmp(word, "--", 2) ? NULL : strchr(word, '=');
    if (!equals) return NULL;
    *equals = 0;
    return equals + 1;
}

/* The word after an option. */
static const char *value_of(char **words, int count, int *n) {
    if (*n + 1 >= count) refuse("no value after ", words[*n]);
    return words[++*n];
}

/* A number from `least` to `most`, in decimal. */
static uint64_t number_in(const char *word, uint64_t least, uint64_t most) {
    char *end;
    const char *digits = *word == '+' ? word + 1 : word;
    errno = 0;
    unsigned long long number = strtoull(digits, &end, 10);
    if (*digits < '0' || *digits > '9' || *end || errno || number < least || number > most) refuse("not such a number: ", word);
    return number;
}

/* The place of a word in a list that ends with NULL. */
static uint32_t place_of(const char *word, const char *const *list) {
    for (uint32_t n = 0; list[n]; n++)
        if (!strcmp(word, list[n])) return n;
    refuse("no such value: ", word);
    return 0;
}

/* The number of a semiring by its name. */
static uint32_t semiring_of(const char *word) {
    struct bytes name;
    for (uint32_t n = 0; cbgrid_semiring_name(n, &name) == DONE; n++)
        if (strlen(word) == name.len && !memcmp(word, name.at, name.len)) return n;
    refuse("no such semiring: ", word);
    return 0;
}

/* The command of a name. */
static const struct command *command_of(const char *word) {
    for (size_t n = 0; n < sizeof commands / sizeof *commands; n++)
        if (!strcmp(word, commands[n].name)) return &commands[n];
    refuse("processes don't compute ", word);
    return NULL;
}

/* Takes one word of the line, and what belongs to it. Each option may be given once. */
static void take_word(struct job *job, const struct command *command, char **words, int count, int *n) {
    static const char *const sides[] = {"rows", "columns", NULL}, *const tests[] = {"below", "above", "equal", NULL},
                            *const options[] = {"-o",     "--times", "--lane",  "--semiring", "--mask",
                                               "--by",   "--test",  "--value", "--source",   NULL};
    static unsigned given;
    const char *word = words[*n];
    if (*word != '-') {
        if (job->count == command->files) refuse("one file too many: ", word);
        job->files[job->count++] = word;
        return;
    }
    const char *value = cut_value(words[*n]);
    uint32_t option = place_of(word, options);
    if (given & 1u << option) refuse("given twice: ", word);
    given |= 1u << option;
    int prunes = command->operation == PRUNE_BELOW;
    if (option == 1 && value) refuse("no value belongs to ", word);
    if (option != 1 && !value) value = value_of(words, count, n);
    job->has_test |= option == 6;
    job->has_value |= option == 7;
    if (option == 0) job->out = value;
    else if (option == 1) job->times = 1;
    else if (option == 2) lane = (int)number_in(value, 1, 64);
    else if (option == 3 && !searches(command->operation)) semiring = semiring_of(value);
    else if (option == 4 && command->operation == MULTIPLY) job->files[2] = value;
    else if (option == 5 && command->operation == ROW_SUMS) job->operation = ROW_SUMS + place_of(value, sides);
    else if (option == 6 && prunes) job->operation = PRUNE_BELOW + place_of(value, tests);
    else if (option == 7 && prunes) job->value = number_in(value, 0, UINT64_MAX);
    else if (option == 8 && searches(command->operation)) job->source = (uint32_t)number_in(value, 1, INT32_MAX);
    else refuse("no option of this command: ", word);
}

/* The job of a command line. */
static struct job job_of(char **words, int count) {
    struct job job = {0};
    if (count < 2) refuse("no command", "");
    const struct command *command = command_of(words[1]);
    job.operation = command->operation;
    for (int n = 2; n < count; n++) take_word(&job, command, words, count, &n);
    if (job.count != command->files) refuse("too few files for ", command->name);
    if (command->operation == PRUNE_BELOW && !(job.has_test && job.has_value)) refuse("no --test or no --value for ", command->name);
    if (searches(command->operation)) {
        if (!job.source) refuse("no --source for ", command->name);
        semiring = semiring_of(command->operation == LEVELS ? "or-and" : "min-plus");
    }
    if (job.files[2]) {
        job.operation = MULTIPLY_MASKED;
        job.count = 3;
    }
    return job;
}

/* Prints how long the slowest process took for each part, and what was sent in all. */
static void print_times(const double *clock) {
    double mine[3] = {clock[1] - clock[0], clock[2] - clock[1], clock[3] - clock[2]}, most[3];
    uint64_t sent[2] = {letters_sent, bytes_sent}, all[2];
    all_reduce(mine, most, 3, MPI_DOUBLE, MPI_MAX);
    all_reduce(sent, all, 2, MPI_UINT64_T, MPI_SUM);
    if (me == 0)
        fprintf(stderr, "read %.0f ms, computed %.0f ms, wrote %.0f ms; %llu letters, %.1f MB\n", 1e3 * most[0], 1e3 * most[1],
                1e3 * most[2], (unsigned long long)all[0], (double)all[1] / 1e6);
}

/* Computes the answer from what the first registers have, and returns the register that then has it. */
static uint32_t compute(const struct job *job) {
    uint32_t origin = 0;
    /* The levels are the distances where each entry weighs 1. */
    if (job->operation == LEVELS) agree_on(cbgrid_process_weigh(process, 0, &process), 0);
    if (searches(job->operation)) return search_from(job->source - 1);
    agree_on(cbgrid_process_operate(process, job->operation, job->value, &process), 0);
    do_plan();
    agree_on(cbgrid_process_end(process, 0, &origin, &process), origin);
    return 0;
}

/* Reads the nth text of a job into the nth register. A file that is named before isn't read again. */
static void read_nth(const struct job *job, const struct text *texts, int n) {
    int same = 0;
    while (strcmp(job->files[same], job->files[n])) same++;
    if (same == n) read_text(&texts[n], (uint32_t)n);
    else agree_on(cbgrid_process_copy(process, (uint32_t)same, (uint32_t)n, &process), 0);
}

/* Does a job. */
static void run(const struct job *job) {
    struct text texts[3];
    double clock[4] = {MPI_Wtime()};
    for (int n = 0; n < job->count; n++) texts[n].name = job->files[n];
    open_texts(texts, job->count);
    agree_on(cbgrid_process_open(semiring, (uint32_t)side, (uint32_t)me, &process), 0);
    open_lanes();
    for (int n = 0; n < job->count; n++) read_nth(job, texts, n);
    clock[1] = MPI_Wtime();
    uint32_t answer = compute(job);
    clock[2] = MPI_Wtime();
    if (searches(job->operation)) write_vertices(answer, job->out);
    else write_answer(answer, job->out);
    clock[3] = MPI_Wtime();
    if (job->times) print_times(clock);
}

int main(int argc, char **argv) {
    MPI_Init(&argc, &argv);
    MPI_Comm_rank(MPI_COMM_WORLD, &me);
    MPI_Comm_size(MPI_COMM_WORLD, &ranks);
    while (side * side < ranks) side++;
    if (side * side != ranks || side > LARGEST_SIDE) refuse("the number of processes is none of these", "");
    struct job job = job_of(argv, argc);
    run(&job);
    finish(OK_STATUS);
}
