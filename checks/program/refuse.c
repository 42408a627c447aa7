/* Refuses allocations of a program into which this library is loaded, for checks/program/memory.

   REFUSED_NUMBER is the number of the allocation to refuse, from 1 on, or 0 for none. REFUSED_FROM and REFUSED_SIZE refuse by size
   instead. REFUSED_AFTER is the number of threads that can be started. The file REFUSED_MARK gets a byte for each refused allocation. */

#define _GNU_SOURCE
#include <dlfcn.h>
#include <errno.h>
#include <fcntl.h>
#include <pthread.h>
#include <stdatomic.h>
#include <stdlib.h>
#include <unistd.h>

void *__libc_malloc(size_t), *__libc_calloc(size_t, size_t), *__libc_realloc(void *, size_t), *__libc_memalign(size_t, size_t);

static atomic_long before_it;
static atomic_int counts, input_has_ended;
static size_t least, of_size;
static int (*real_main)(int, char **, char **);

/* Returns whether to refuse an allocation: by its number, or by its size once the input has ended, since the input may be large too. */
static int is_one(size_t n) {
    return least ? input_has_ended && (n == of_size || n >= least) : atomic_fetch_sub(&before_it, 1) == 1;
}

/* Returns whether to refuse n bytes. If so, the file REFUSED_MARK gets a byte. */
static int refused(size_t n) {
    if (!counts || !is_one(n)) return 0;
    int mark = open(getenv("REFUSED_MARK"), O_WRONLY | O_APPEND);
    if (mark < 0 || write(mark, "x", 1) != 1) _exit(99);
    close(mark);
    errno = ENOMEM;
    return 1;
}

void *malloc(size_t n) { return refused(n) ? NULL : __libc_malloc(n); }
void *calloc(size_t n, size_t size) { return refused(n * size) ? NULL : __libc_calloc(n, size); }
void *realloc(void *old, size_t n) { return refused(n) ? NULL : __libc_realloc(old, n); }
void *memalign(size_t to, size_t n) { return refused(n) ? NULL : __libc_memalign(to, n); }
void *aligned_alloc(size_t to, size_t n) { return refused(n) ? NULL : __libc_memalign(to, n); }

int posix_memalign(void **made, size_t to, size_t n) {
    if (refused(n)) return ENOMEM;
    *made = __libc_memalign(to, n);
    return *made ? 0 : ENOMEM;
}

/* A thread can't be started if its memory is refused, or if REFUSED_AFTER threads have been started. */
int pthread_create(pthread_t *thread, const pthread_attr_t *how, void *(*start)(void *), void *with) {
    int (*real)(pthread_t *, const pthread_attr_t *, void *(*)(void *), void *) = dlsym(RTLD_NEXT, "pthread_create");
    static atomic_long started;
    char *most = getenv("REFUSED_AFTER");
    if (refused(0) || (most && atomic_fetch_add(&started, 1) >= atol(most))) return EAGAIN;
    return real(thread, how, start, with);
}

ssize_t __read(int, void *, size_t);

ssize_t read(int stream, void *to, size_t n) {
    ssize_t got = __read(stream, to, n);
    if (stream == 0 && got == 0) input_has_ended = 1;
    return got;
}

/* Counts from the start of main on. With REFUSED_FROM, all allocations of that size or larger are refused, and those of REFUSED_SIZE. */
static int counted_main(int count, char **words, char **variables) {
    char *from = getenv("REFUSED_FROM"), *size = getenv("REFUSED_SIZE");
    least = from ? atol(from) : 0;
    of_size = size ? atol(size) : 0;
    before_it = atol(getenv("REFUSED_NUMBER"));
    counts = 1;
    return real_main(count, words, variables);
}

int __libc_start_main(int (*main)(int, char **, char **), int count, char **words, void (*init)(void), void (*fini)(void),
                      void (*rtld_fini)(void), void *stack) {
    int (*real)(int (*)(int, char **, char **), int, char **, void (*)(void), void (*)(void), void (*)(void), void *) =
        dlsym(RTLD_NEXT, "__libc_start_main");
    real_main = main;
    return real(counted_main, count, words, init, fini, rtld_fini, stack);
}
