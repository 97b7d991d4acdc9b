/* Loaded before the C library, it counts a program's requests for memory, reads and writes, and refuses those that it is told to:
     REFUSE_ALLOCATION=n   the nth request for memory; REFUSE_FROM=n: that one and all behind it
     REFUSE_READ=n         the nth read fails; REFUSE_WRITE=n: the nth write to standard output; REFUSE_ERROR=n: to standard error
     INTERRUPT=n           the nth read and the nth write to standard output are ended by a signal before a byte has moved
     REFUSE_THREAD=n       the nth start of a thread, and all behind it
     MOST=n                a read or write moves at most so many bytes
     COUNTS=file           where the three counts are written at the end, as numbers
   A number that isn't given is 0, which refuses nothing. */
#define _GNU_SOURCE
#include <dlfcn.h>
#include <errno.h>
#include <fcntl.h>
#include <pthread.h>
#include <stdatomic.h>
#include <stdio.h>
#include <stdlib.h>
#include <sys/syscall.h>
#include <unistd.h>

extern void *__libc_malloc(size_t);
extern void *__libc_calloc(size_t, size_t);
extern void *__libc_realloc(void *, size_t);
extern void *__libc_memalign(size_t, size_t);

static long refused_allocation, refused_from, refused_read, refused_write, refused_error, refused_thread, interrupted, most;
static atomic_long allocations, reads, writes, errors, threads;
static int (*start_thread)(pthread_t *, const pthread_attr_t *, void *(*)(void *), void *);
static int is_ready;

static long number(const char *name) {
    const char *value = getenv(name);
    return value ? atol(value) : 0;
}

__attribute__((constructor)) static void begin(void) {
    refused_allocation = number("REFUSE_ALLOCATION");
    refused_from = number("REFUSE_FROM");
    refused_read = number("REFUSE_READ");
    refused_write = number("REFUSE_WRITE");
    refused_error = number("REFUSE_ERROR");
    refused_thread = number("REFUSE_THREAD");
    interrupted = number("INTERRUPT");
    most = number("MOST");
    *(void **)&start_thread = dlsym(RTLD_NEXT, "pthread_create");
    is_ready = 1;
}

/* At the program's end, by exit or by _exit. */
__attribute__((destructor)) static void tell_counts(void) {
    const char *name = getenv("COUNTS");
    char text[80];
    int length = snprintf(text, sizeof text, "%ld %ld %ld\n", (long)allocations, (long)reads, (long)writes);
    long file = name ? syscall(SYS_open, name, O_WRONLY | O_CREAT | O_TRUNC, 0600) : -1;
    if (file >= 0) syscall(SYS_write, file, text, length);
}

void _exit(int status) {
    tell_counts();
    for (;;) syscall(SYS_exit_group, status);
}

static int is_refused(void) {
    if (!is_ready) return 0;
    long count = atomic_fetch_add(&allocations, 1) + 1;
    int refused = count == refused_allocation || (refused_from && count >= refused_from);
    if (refused) errno = ENOMEM;
    return refused;
}

void *malloc(size_t size) { return is_refused() ? NULL : __libc_malloc(size); }
void *calloc(size_t count, size_t size) { return is_refused() ? NULL : __libc_calloc(count, size); }
void *realloc(void *block, size_t size) { return is_refused() ? NULL : __libc_realloc(block, size); }
void *memalign(size_t boundary, size_t size) { return is_refused() ? NULL : __libc_memalign(boundary, size); }
void *aligned_alloc(size_t boundary, size_t size) { return memalign(boundary, size); }

int posix_memalign(void **block, size_t boundary, size_t size) {
    void *made = memalign(boundary, size);
    if (!made) return ENOMEM;
    *block = made;
    return 0;
}

int pthread_create(pthread_t *thread, const pthread_attr_t *attributes, void *(*work)(void *), void *given) {
    long count = atomic_fetch_add(&threads, 1) + 1;
    return refused_thread && count >= refused_thread ? EAGAIN : start_thread(thread, attributes, work, given);
}

/* Whether a call that is number `count` is ended: by its own number, or by the signal's. */
static int is_ended(long count, long refused, int fault) {
    errno = count == interrupted ? EINTR : fault;
    return count == interrupted || count == refused;
}

static size_t moved(size_t size) { return most && size > (size_t)most ? (size_t)most : size; }

ssize_t read(int file, void *buffer, size_t size) {
    if (file == 0 && is_ended(atomic_fetch_add(&reads, 1) + 1, refused_read, EIO)) return -1;
    return syscall(SYS_read, file, buffer, moved(size));
}

ssize_t write(int file, const void *buffer, size_t size) {
    if (file == 1 && is_ended(atomic_fetch_add(&writes, 1) + 1, refused_write, ENOSPC)) return -1;
    if (file == 2 && atomic_fetch_add(&errors, 1) + 1 == refused_error) {
        errno = EIO;
        return -1;
    }
    return syscall(SYS_write, file, buffer, moved(size));
}

ssize_t __write(int file, const void *buffer, size_t size) { return write(file, buffer, size); }
