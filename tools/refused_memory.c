/* Loaded before a program (LD_PRELOAD), it refuses one allocation, or one thread: the one whose number, from 1,
 * REFUSED_ALLOCATION or REFUSED_THREAD names. With REFUSED_ROW it refuses so many allocations, one after another. With
 * REFUSED_OWN it counts only those that the program itself asks for, not its libraries. Where it came to that it makes the
 * file that REFUSED_MARK names. */
#define _GNU_SOURCE
#include <dlfcn.h>
#include <errno.h>
#include <fcntl.h>
#include <limits.h>
#include <link.h>
#include <pthread.h>
#include <stdatomic.h>
#include <stddef.h>
#include <stdint.h>
#include <stdlib.h>
#include <unistd.h>

extern void *__libc_malloc(size_t);
extern void *__libc_calloc(size_t, size_t);
extern void *__libc_realloc(void *, size_t);
extern void *__libc_memalign(size_t, size_t);

typedef int starter(pthread_t *, const pthread_attr_t *, void *(*)(void *), void *);

static atomic_long allocations = LONG_MIN, threads = LONG_MIN;
static long row = 1;
static const char *mark;
static starter *start_thread;
/* Where the code lies whose allocations count. */
static uintptr_t code = 0, code_end = UINTPTR_MAX;

static long number_in(const char *name, long otherwise) {
    const char *number = getenv(name);
    return number ? atol(number) : otherwise;
}

/* The first object that is loaded is the program. */
static int take_program(struct dl_phdr_info *object, size_t size, void *given) {
    (void)size, (void)given;
    for (int n = 0; n < object->dlpi_phnum; n++) {
        const ElfW(Phdr) *part = &object->dlpi_phdr[n];
        if (part->p_type == PT_LOAD && part->p_flags & PF_X) {
            code = object->dlpi_addr + part->p_vaddr;
            code_end = code + part->p_memsz;
        }
    }
    return 1;
}

__attribute__((constructor)) static void begin(void) {
    if (getenv("REFUSED_OWN")) {
        dl_iterate_phdr(take_program, NULL);
    }
    start_thread = (starter *)dlsym(RTLD_NEXT, "pthread_create");
    mark = getenv("REFUSED_MARK");
    threads = number_in("REFUSED_THREAD", LONG_MIN);
    allocations = number_in("REFUSED_ALLOCATION", LONG_MIN);
    row = number_in("REFUSED_ROW", 1);
}

/* Whether it has come to the one that is `left` calls away, or to one of the `many` from there on. */
static int comes_to(atomic_long *left, long many) {
    if (*left <= -many) {
        return 0;
    }
    long now = atomic_fetch_sub(left, 1);
    if (now > 1 || now <= 1 - many) {
        return 0;
    }
    if (mark) {
        int made = open(mark, O_CREAT | O_WRONLY, 0600);
        if (made >= 0) {
            close(made);
        }
    }
    return 1;
}

static int is_refused_to(const void *caller) {
    uintptr_t at = (uintptr_t)caller;
    if (at < code || at >= code_end || !comes_to(&allocations, row)) {
        return 0;
    }
    errno = ENOMEM;
    return 1;
}

#define is_refused() is_refused_to(__builtin_return_address(0))

int pthread_create(pthread_t *thread, const pthread_attr_t *attributes, void *(*start)(void *), void *given) {
    return comes_to(&threads, 1) ? EAGAIN : start_thread(thread, attributes, start, given);
}

void *malloc(size_t size) {
    return is_refused() ? NULL : __libc_malloc(size);
}

void *calloc(size_t count, size_t size) {
    return is_refused() ? NULL : __libc_calloc(count, size);
}

void *realloc(void *old, size_t size) {
    return is_refused() ? NULL : __libc_realloc(old, size);
}

void *aligned_alloc(size_t align, size_t size) {
    return is_refused() ? NULL : __libc_memalign(align, size);
}

void *memalign(size_t align, size_t size) {
    return is_refused() ? NULL : __libc_memalign(align, size);
}

int posix_memalign(void **at, size_t align, size_t size) {
    void *made = is_refused() ? NULL : __libc_memalign(align, size);
    if (!made) {
        return ENOMEM;
    }
    *at = made;
    return 0;
}
