/* A library to preload: refuses one allocation of a program, or one of its threads, as REFUSE says: `allocation 5` or `thread 2`,
 * counted from 1. At the end, by whichever way the program ends, it writes to descriptor 3 how many of the kind there were. */
#define _GNU_SOURCE
#include <dlfcn.h>
#include <errno.h>
#include <pthread.h>
#include <stdio.h>
#include <stdlib.h>
#include <string.h>
#include <sys/syscall.h>
#include <unistd.h>

static long made;

/* Counts one of a kind: whether it is the one that is refused. */
static int is_refused(const char *kind) {
    const char *said = getenv("REFUSE");
    size_t length = strlen(kind);
    if (!said || strncmp(said, kind, length) != 0) return 0;
    return __atomic_add_fetch(&made, 1, __ATOMIC_RELAXED) == atol(said + length);
}

#define REAL(name, type) static __typeof__(type) real; if (!real) real = (__typeof__(type))dlsym(RTLD_NEXT, name)

void *malloc(size_t size) {
    REAL("malloc", void *(*)(size_t));
    if (is_refused("allocation")) { errno = ENOMEM; return NULL; }
    return real(size);
}

void *realloc(void *old, size_t size) {
    REAL("realloc", void *(*)(void *, size_t));
    if (is_refused("allocation")) { errno = ENOMEM; return NULL; }
    return real(old, size);
}

int posix_memalign(void **to, size_t align, size_t size) {
    REAL("posix_memalign", int (*)(void **, size_t, size_t));
    if (is_refused("allocation")) return ENOMEM;
    return real(to, align, size);
}

void *aligned_alloc(size_t align, size_t size) {
    REAL("aligned_alloc", void *(*)(size_t, size_t));
    if (is_refused("allocation")) { errno = ENOMEM; return NULL; }
    return real(align, size);
}

int pthread_create(pthread_t *thread, const pthread_attr_t *how, void *(*start)(void *), void *with) {
    REAL("pthread_create", int (*)(pthread_t *, const pthread_attr_t *, void *(*)(void *), void *));
    if (is_refused("thread")) return EAGAIN;
    return real(thread, how, start, with);
}

__attribute__((destructor)) static void tell(void) {
    dprintf(3, "%ld\n", made);
}

void _exit(int status) {
    tell();
    for (;;) syscall(SYS_exit_group, status);
}
