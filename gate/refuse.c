// Preloaded into a program by gate/hostile.py. Counts the calls by which the program asks for memory (a thread's stack is memory
// too), those that read and those that write, and has one of them fail. REFUSED names the kind and the number of the call, from 1,
// and `bytes` behind that, or alone with a 0, has each read and each write take one byte, and `none` has the refused call take
// none, in place of an error. REFUSED_COUNTS is a file of three counters of 8 bytes, one a kind.
#define _GNU_SOURCE
#include <dlfcn.h>
#include <errno.h>
#include <fcntl.h>
#include <pthread.h>
#include <stdarg.h>
#include <stdatomic.h>
#include <stdlib.h>
#include <string.h>
#include <sys/mman.h>
#include <sys/syscall.h>
#include <unistd.h>

enum kind { MEMORY, READ, WRITE, KINDS };
static const char *const names[KINDS] = {"memory", "read", "write"};

static _Atomic unsigned long *counts;
static unsigned long refused[KINDS];
static int by_bytes, takes_none;

extern void *__libc_malloc(size_t), *__libc_calloc(size_t, size_t), *__libc_realloc(void *, size_t), *__libc_memalign(size_t, size_t);

__attribute__((constructor)) static void begin(void) {
    const char *path = getenv("REFUSED_COUNTS"), *wanted = getenv("REFUSED");
    int file = path ? open(path, O_RDWR | O_CLOEXEC) : -1;
    void *shared = file < 0 ? MAP_FAILED : mmap(NULL, KINDS * sizeof *counts, PROT_READ | PROT_WRITE, MAP_SHARED, file, 0);
    const char *number = wanted ? strchr(wanted, ' ') : NULL;
    for (int kind = 0; number && kind < KINDS; kind++)
        if (!strncmp(wanted, names[kind], number - wanted))
            refused[kind] = strtoul(number, NULL, 10);
    by_bytes = wanted && strstr(wanted, "bytes");
    takes_none = wanted && strstr(wanted, "none");
    close(file);
    counts = shared == MAP_FAILED ? NULL : shared;
}

static int is_refused(enum kind kind) {
    return counts && atomic_fetch_add(&counts[kind], 1) + 1 == refused[kind];
}

static void *without_memory(void) {
    errno = ENOMEM;
    return NULL;
}

void *malloc(size_t size) { return is_refused(MEMORY) ? without_memory() : __libc_malloc(size); }

void *calloc(size_t count, size_t size) { return is_refused(MEMORY) ? without_memory() : __libc_calloc(count, size); }

void *realloc(void *block, size_t size) { return is_refused(MEMORY) ? without_memory() : __libc_realloc(block, size); }

void *memalign(size_t align, size_t size) { return is_refused(MEMORY) ? without_memory() : __libc_memalign(align, size); }

void *aligned_alloc(size_t align, size_t size) { return memalign(align, size); }

int posix_memalign(void **block, size_t align, size_t size) { return (*block = memalign(align, size)) ? 0 : ENOMEM; }

void *mmap(void *at, size_t size, int protection, int flags, int file, off_t offset) {
    if ((flags & MAP_ANONYMOUS) && is_refused(MEMORY)) {
        errno = ENOMEM;
        return MAP_FAILED;
    }
    return (void *)syscall(SYS_mmap, at, size, protection, flags, file, offset);
}

int pthread_create(pthread_t *thread, const pthread_attr_t *how, void *(*begins)(void *), void *with) {
    int (*create)(pthread_t *, const pthread_attr_t *, void *(*)(void *), void *) = dlsym(RTLD_NEXT, "pthread_create");
    return is_refused(MEMORY) ? EAGAIN : create(thread, how, begins, with);
}

// How many bytes a call takes; -1 where it is the one that fails with an error.
static size_t taken(enum kind kind, size_t size) {
    if (!is_refused(kind))
        return by_bytes && size ? 1 : size;
    errno = EIO;
    return takes_none ? 0 : (size_t)-1;
}

ssize_t read(int file, void *block, size_t size) {
    size_t most = taken(READ, size);
    return most == (size_t)-1 ? -1 : syscall(SYS_read, file, block, most);
}

ssize_t write(int file, const void *block, size_t size) {
    size_t most = taken(WRITE, size);
    return most == (size_t)-1 ? -1 : syscall(SYS_write, file, block, most);
}
