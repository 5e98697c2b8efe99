/*
 * Loaded before cbgrid-mpi (LD_PRELOAD), it lets each process wait for a random while before it posts or takes a letter, by MPI's
 * own profiling interface. DELAYS is the seed, and the longest wait is a millisecond.
 */
#include <mpi.h>
#include <stdlib.h>
#include <time.h>

static void wait_a_little(void) {
    static unsigned state;
    if (!state) {
        int rank;
        const char *seed = getenv("DELAYS");
        MPI_Comm_rank(MPI_COMM_WORLD, &rank);
        state = (seed ? (unsigned)atoi(seed) : 0) * 64 + (unsigned)rank + 1;
    }
    struct timespec little = {0, rand_r(&state) % 3 ? 0 : rand_r(&state) % 1000000};
    if (little.tv_nsec) nanosleep(&little, NULL);
}

int MPI_Issend(const void *at, int count, MPI_Datatype type, int to, int tag, MPI_Comm comm, MPI_Request *request) {
    wait_a_little();
    return PMPI_Issend(at, count, type, to, tag, comm, request);
}

int MPI_Irecv(void *at, int count, MPI_Datatype type, int from, int tag, MPI_Comm comm, MPI_Request *request) {
    wait_a_little();
    return PMPI_Irecv(at, count, type, from, tag, comm, request);
}
