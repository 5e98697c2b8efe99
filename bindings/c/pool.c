/*
 * The threads of cbgrid. A call with several shares puts its work into a list, and does shares of it like every thread that is
 * awake: so it ends even where no thread could be started, or after a fork, which leaves the child without these threads.
 */
#include "pool.h"

#include <pthread.h>
#include <signal.h>

#include "cbgrid.h"

struct work {
    void (*do_share)(void *of, size_t share);
    void *of;
    size_t count, begun, done;
    struct work *next;
};

/* The lock is held wherever one of these is used, or a member of a work that is listed. */
static pthread_mutex_t lock = PTHREAD_MUTEX_INITIALIZER;
static pthread_cond_t is_listed = PTHREAD_COND_INITIALIZER, is_done = PTHREAD_COND_INITIALIZER;

/* The works of which a share isn't begun yet, the oldest first. */
static struct work *listed;

/* The threads that have been started, and whether they are to end. */
static pthread_t threads[CBGRID_MOST_THREADS - 1];
static size_t started;
static int is_ending;

static void list(struct work *it) {
    struct work **at = &listed;
    while (*at) at = &(*at)->next;
    *at = it;
}

static void unlist(struct work *it) {
    struct work **at = &listed;
    while (*at != it) at = &(*at)->next;
    *at = it->next;
}

/* Does one share of a work that is listed, without the lock. */
static void do_next(struct work *it) {
    size_t share = it->begun++;
    if (it->begun == it->count) unlist(it);
    pthread_mutex_unlock(&lock);
    it->do_share(it->of, share);
    pthread_mutex_lock(&lock);
    if (++it->done == it->count) pthread_cond_broadcast(&is_done);
}

static void *help(void *unused) {
    pthread_mutex_lock(&lock);
    while (!is_ending) {
        if (listed) do_next(listed);
        else pthread_cond_wait(&is_listed, &lock);
    }
    pthread_mutex_unlock(&lock);
    return unused;
}

/* Starts threads until there are so many, or one can't be started. The program's signals go to its own threads. */
static void start(size_t wanted) {
    sigset_t all, old;
    if (started >= wanted) return;
    sigfillset(&all);
    pthread_sigmask(SIG_SETMASK, &all, &old);
    while (started < wanted && !pthread_create(&threads[started], NULL, help, NULL)) started++;
    pthread_sigmask(SIG_SETMASK, &old, NULL);
}

/* When the program ends or closes the library, the threads end. */
__attribute__((destructor)) static void end(void) {
    pthread_mutex_lock(&lock);
    size_t count = started;
    started = 0, is_ending = 1;
    pthread_cond_broadcast(&is_listed);
    pthread_mutex_unlock(&lock);
    for (size_t n = 0; n < count; n++) pthread_join(threads[n], NULL);
}

/* A fork leaves the child one thread, and nothing that others were doing. */
static void before_fork(void) {
    pthread_mutex_lock(&lock);
}
static void after_fork(void) {
    pthread_mutex_unlock(&lock);
}
static void in_child(void) {
    pthread_cond_init(&is_listed, NULL);
    pthread_cond_init(&is_done, NULL);
    listed = NULL;
    started = 0;
    pthread_mutex_unlock(&lock);
}
static void heed_forks(void) {
    pthread_atfork(before_fork, after_fork, in_child);
}

void share_out(void (*do_share)(void *of, size_t share), void *of, size_t count) {
    static pthread_once_t forks = PTHREAD_ONCE_INIT;
    struct work it = {do_share, of, count, 0, 0, NULL};
    if (count == 1) do_share(of, 0);
    if (count < 2) return;
    pthread_once(&forks, heed_forks);
    pthread_mutex_lock(&lock);
    start(count - 1);
    list(&it);
    pthread_cond_broadcast(&is_listed);
    while (it.begun < it.count) do_next(&it);
    while (it.done < it.count) pthread_cond_wait(&is_done, &lock);
    pthread_mutex_unlock(&lock);
}
