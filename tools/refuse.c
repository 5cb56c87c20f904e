// Refuses requests of a program: loaded before the C library, it counts the program's requests for memory, its reads, its writes to
// standard output and its starts of threads from the beginning of `main` on, and lets some of them fail.
//
// REFUSE is `KIND HOW N`: KIND is memory, read, write or thread; HOW is how it fails; N is the place of the first request of that
// kind that fails, counted from 1. REFUSE_COUNTS is a file of at least COUNTS words of 64 bits, where the counts are left.
#define _GNU_SOURCE
#include <dlfcn.h>
#include <errno.h>
#include <fcntl.h>
#include <pthread.h>
#include <stdatomic.h>
#include <stddef.h>
#include <stdio.h>
#include <stdlib.h>
#include <string.h>
#include <sys/mman.h>
#include <sys/syscall.h>
#include <unistd.h>

enum { MEMORY, READ, WRITE, THREAD, REFUSED, COUNTS };

static const char *const KINDS[] = {"memory", "read", "write", "thread"};

enum how {
    NEVER,
    ONCE,        // this request alone
    ONWARD,      // this one and all after it
    EIO_ONCE,    // a read or a write: EIO
    EINTR_ONCE,  // a read or a write: a signal interrupts it
    NOTHING,     // a write: takes nothing
    ONE_BYTE,    // a read or a write: one byte
};

static const char *const HOWS[] = {"never", "once", "onward", "EIO", "EINTR", "nothing", "one-byte"};

static _Atomic unsigned long local_counts[COUNTS];
static _Atomic unsigned long *counts = local_counts;
static int kind = -1;
static enum how how = NEVER;
static unsigned long place;
static int counting;

// The C library's own, by names that nothing comes before.
extern void *__libc_malloc(size_t);
extern void *__libc_calloc(size_t, size_t);
extern void *__libc_realloc(void *, size_t);
extern void *__libc_memalign(size_t, size_t);

static int (*real_pthread_create)(pthread_t *, const pthread_attr_t *, void *(*)(void *), void *);
static int (*real_main)(int, char **, char **);

static int number_of(const char *const *words, int len, const char *word) {
    for (int i = 0; i < len; i++)
        if (strcmp(words[i], word) == 0)
            return i;
    fprintf(stderr, "refuse.c: no such word: %s\n", word);
    _exit(125);
}

static void read_words(void) {
    const char *words = getenv("REFUSE");
    char kind_word[16], how_word[16];
    if (words == NULL || sscanf(words, "%15s %15s %lu", kind_word, how_word, &place) != 3)
        return;
    kind = number_of(KINDS, sizeof KINDS / sizeof *KINDS, kind_word);
    how = number_of(HOWS, sizeof HOWS / sizeof *HOWS, how_word);
}

static void map_counts(void) {
    const char *path = getenv("REFUSE_COUNTS");
    int file = path == NULL ? -1 : open(path, O_RDWR);
    if (file < 0)
        return;
    void *mapped = mmap(NULL, sizeof local_counts, PROT_READ | PROT_WRITE, MAP_SHARED, file, 0);
    close(file);
    if (mapped != MAP_FAILED)
        counts = mapped;
}

static int counted_main(int argc, char **argv, char **env) {
    counting = 1;
    int status = real_main(argc, argv, env);
    counting = 0;
    return status;
}

// What the program is started with. Requests of the loader come before it and aren't the program's.
int __libc_start_main(int (*program)(int, char **, char **), int argc, char **argv, void (*init)(void), void (*fini)(void),
                      void (*rtld_fini)(void), void *stack_end) {
    int (*start)(int (*)(int, char **, char **), int, char **, void (*)(void), void (*)(void), void (*)(void), void *) =
        dlsym(RTLD_NEXT, "__libc_start_main");
    real_pthread_create = dlsym(RTLD_NEXT, "pthread_create");
    real_main = program;
    read_words();
    map_counts();
    return start(counted_main, argc, argv, init, fini, rtld_fini, stack_end);
}

// Counts a request, and says how it is to fail.
static enum how count(int requested) {
    if (!counting)
        return NEVER;
    unsigned long number = atomic_fetch_add(&counts[requested], 1) + 1;
    if (requested != kind || !(number == place || (how == ONWARD && number > place)))
        return NEVER;
    atomic_fetch_add(&counts[REFUSED], 1);
    return how;
}

static int no_memory(void) {
    if (count(MEMORY) == NEVER)
        return 0;
    errno = ENOMEM;
    return 1;
}

void *malloc(size_t size) { return no_memory() ? NULL : __libc_malloc(size); }

void *calloc(size_t len, size_t size) { return no_memory() ? NULL : __libc_calloc(len, size); }

void *realloc(void *block, size_t size) { return no_memory() ? NULL : __libc_realloc(block, size); }

void *memalign(size_t align, size_t size) { return no_memory() ? NULL : __libc_memalign(align, size); }

void *aligned_alloc(size_t align, size_t size) { return no_memory() ? NULL : __libc_memalign(align, size); }

int posix_memalign(void **block, size_t align, size_t size) {
    void *got = no_memory() ? NULL : __libc_memalign(align, size);
    if (got == NULL)
        return ENOMEM;
    *block = got;
    return 0;
}

static ssize_t failed(int error) {
    errno = error;
    return -1;
}

ssize_t read(int file, void *buf, size_t len) {
    switch (count(READ)) {
    case EIO_ONCE:
        return failed(EIO);
    case EINTR_ONCE:
        return failed(EINTR);
    case ONE_BYTE:
        return syscall(SYS_read, file, buf, len < 1 ? len : 1);
    default:
        return syscall(SYS_read, file, buf, len);
    }
}

ssize_t write(int file, const void *buf, size_t len) {
    switch (file == STDOUT_FILENO ? count(WRITE) : NEVER) {
    case EIO_ONCE:
        return failed(EIO);
    case EINTR_ONCE:
        return failed(EINTR);
    case NOTHING:
        return 0;
    case ONE_BYTE:
        return syscall(SYS_write, file, buf, len < 1 ? len : 1);
    default:
        return syscall(SYS_write, file, buf, len);
    }
}

int pthread_create(pthread_t *thread, const pthread_attr_t *attr, void *(*routine)(void *), void *arg) {
    return count(THREAD) == NEVER ? real_pthread_create(thread, attr, routine, arg) : EAGAIN;
}
