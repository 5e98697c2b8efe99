/* Allocations and threads, which are counted and refused; and the checks of the tests. */
#include <errno.h>
#include <pthread.h>

#include "check.h"

_Atomic long live, left = -1;
long threads_left = -1;

void *__real_calloc(size_t, size_t);
void *__real_realloc(void *, size_t);
int __real_pthread_create(pthread_t *, const pthread_attr_t *, void *(*)(void *), void *);

static int is_refused(void) {
    return left >= 0 && left-- == 0;
}

void *__wrap_malloc(size_t size) {
    void *at = is_refused() ? NULL : __real_malloc(size);
    live += at != NULL;
    return at;
}

void *__wrap_calloc(size_t n, size_t size) {
    void *at = is_refused() ? NULL : __real_calloc(n, size);
    live += at != NULL;
    return at;
}

void *__wrap_realloc(void *old, size_t size) {
    void *at = is_refused() ? NULL : __real_realloc(old, size);
    live += at != NULL && old == NULL;
    return at;
}

void __wrap_free(void *at) {
    live -= at != NULL;
    __real_free(at);
}

int __wrap_pthread_create(pthread_t *thread, const pthread_attr_t *how, void *(*run)(void *), void *argument) {
    if (threads_left == 0) return EAGAIN;
    if (threads_left > 0) threads_left--;
    return __real_pthread_create(thread, how, run, argument);
}

static long checks, faults;

void expect(int holds, const char *what, const char *file, int line) {
    checks++;
    if (!holds) {
        faults++;
        if (faults < 30) fprintf(stderr, "%s:%d: %s\n", file, line, what);
    }
}

int report(void) {
    printf("%ld checks, %ld failed\n", checks, faults);
    return faults != 0;
}
