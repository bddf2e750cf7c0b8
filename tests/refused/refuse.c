/* Preloaded into a program, this counts the growths of its memory, which are calls of malloc, calloc, realloc,
   aligned_alloc and posix_memalign by whichever thread, and refuses one of them.

   Calls count from this library's constructor on, which is before main. What the dynamic loader asks earlier tells
   nothing of the program. What the C library asks for itself, as where a thread is started, counts too.

   REFUSE_FILE names a file of the size of `struct seen`, which is mapped and shared, so that it is right however the
   program ends. REFUSE_AT is the number of the call that is refused: the first is 1, and 0 refuses none. */
#define _GNU_SOURCE
#include <dlfcn.h>
#include <errno.h>
#include <fcntl.h>
#include <pthread.h>
#include <stdint.h>
#include <stdlib.h>
#include <sys/mman.h>
#include <unistd.h>

/* The C library's own names for its functions: with these no look-up is needed, which would itself ask for memory. */
void *__libc_malloc(size_t);
void *__libc_calloc(size_t, size_t);
void *__libc_realloc(void *, size_t);
void *__libc_memalign(size_t, size_t);

static struct seen {
    uint64_t calls;   /* that were made */
    uint64_t refused; /* of these: 0 or 1 */
    uint64_t threads; /* that were started */
} *seen;

typedef int start_thread(pthread_t *, const pthread_attr_t *, void *(*)(void *), void *);

static start_thread *start;
static uint64_t at;

__attribute__((constructor)) static void begin(void) {
    const char *name = getenv("REFUSE_FILE"), *number = getenv("REFUSE_AT");
    start = (start_thread *)dlsym(RTLD_NEXT, "pthread_create");
    at = number ? strtoull(number, NULL, 10) : 0;
    int file = name ? open(name, O_RDWR) : -1;
    if (file < 0)
        return;
    void *shared = mmap(NULL, sizeof *seen, PROT_READ | PROT_WRITE, MAP_SHARED, file, 0);
    close(file);
    if (shared != MAP_FAILED)
        seen = shared;
}

/* Counts a call, and tells whether it is refused. */
static int refuses(void) {
    if (!seen || __atomic_add_fetch(&seen->calls, 1, __ATOMIC_RELAXED) != at)
        return 0;
    seen->refused = 1;
    errno = ENOMEM;
    return 1;
}

void *malloc(size_t size) {
    return refuses() ? NULL : __libc_malloc(size);
}

void *calloc(size_t count, size_t size) {
    return refuses() ? NULL : __libc_calloc(count, size);
}

void *realloc(void *old, size_t size) {
    return refuses() ? NULL : __libc_realloc(old, size);
}

void *aligned_alloc(size_t alignment, size_t size) {
    return refuses() ? NULL : __libc_memalign(alignment, size);
}

int posix_memalign(void **place, size_t alignment, size_t size) {
    void *found = refuses() ? NULL : __libc_memalign(alignment, size);
    if (!found)
        return ENOMEM;
    *place = found;
    return 0;
}

int pthread_create(pthread_t *thread, const pthread_attr_t *how, void *(*does)(void *), void *given) {
    int failed = start(thread, how, does, given);
    if (seen && !failed)
        __atomic_add_fetch(&seen->threads, 1, __ATOMIC_RELAXED);
    return failed;
}
