/* Refuses one growth of memory of a program that it is preloaded into, or fails one of its reads and writes, and counts.
 *
 * REFUSE=K refuses the K-th call of malloc, calloc or realloc, counted from 1, by NULL, as the C library does where there is no memory.
 * FAIL=K fails the K-th read or write, but for writes to standard error, with EIO. With 0, or without these, nothing is refused and nothing fails.
 * With NARROW=1 each of those reads and writes moves one byte at the most.
 *
 * As the program ends, the file that COUNTS names gets five numbers and a line feed: how many such calls for memory there were, how many of them
 * were refused, the most bytes that were held at once, as the C library rounds them, how many such reads and writes there were, and how many of
 * them failed.
 */
#define _GNU_SOURCE
#include <errno.h>
#include <malloc.h>
#include <stdatomic.h>
#include <stdio.h>
#include <stdlib.h>
#include <sys/syscall.h>
#include <unistd.h>

extern void *__libc_malloc(size_t);
extern void *__libc_calloc(size_t, size_t);
extern void *__libc_realloc(void *, size_t);
extern void __libc_free(void *);

static atomic_long growths, refused, held, most, transfers, failed;
static atomic_long refuse, fail, narrow;

/* Whether a call is the one of this number, which is noted. */
static int is_hit(atomic_long *calls, atomic_long *wanted, atomic_long *hits, int fault) {
    long number = atomic_fetch_add(calls, 1) + 1;
    if (number != atomic_load(wanted)) return 0;
    atomic_fetch_add(hits, 1);
    errno = fault;
    return 1;
}

static int is_refused(void) {
    return is_hit(&growths, &refuse, &refused, ENOMEM);
}

/* So many bytes more are held, or fewer. */
static void hold(long bytes) {
    long now = atomic_fetch_add(&held, bytes) + bytes;
    long top = atomic_load(&most);
    while (now > top && !atomic_compare_exchange_weak(&most, &top, now)) {
    }
}

void *malloc(size_t size) {
    if (is_refused()) return NULL;
    void *at = __libc_malloc(size);
    if (at) hold((long)malloc_usable_size(at));
    return at;
}

void *calloc(size_t count, size_t size) {
    if (is_refused()) return NULL;
    void *at = __libc_calloc(count, size);
    if (at) hold((long)malloc_usable_size(at));
    return at;
}

void *realloc(void *old, size_t size) {
    if (is_refused()) return NULL;
    long before = old ? (long)malloc_usable_size(old) : 0;
    void *at = __libc_realloc(old, size);
    if (at) hold((long)malloc_usable_size(at) - before);
    return at;
}

void free(void *at) {
    if (at) hold(-(long)malloc_usable_size(at));
    __libc_free(at);
}

/* How many of some bytes are moved. */
static size_t moved(size_t count) {
    return atomic_load(&narrow) && count > 1 ? 1 : count;
}

ssize_t read(int from, void *to, size_t count) {
    if (is_hit(&transfers, &fail, &failed, EIO)) return -1;
    return syscall(SYS_read, from, to, moved(count));
}

ssize_t write(int to, const void *from, size_t count) {
    if (to == STDERR_FILENO) return syscall(SYS_write, to, from, count);
    if (is_hit(&transfers, &fail, &failed, EIO)) return -1;
    return syscall(SYS_write, to, from, moved(count));
}

/* The number that a variable of the environment has, or 0. */
static long number(const char *name) {
    const char *text = getenv(name);
    return text ? atol(text) : 0;
}

/* Only what comes from here on is counted: what the C library took for itself as the program was loaded is not the program's. */
__attribute__((constructor)) static void begin(void) {
    atomic_store(&growths, 0);
    atomic_store(&most, 0);
    atomic_store(&held, 0);
    atomic_store(&transfers, 0);
    atomic_store(&refuse, number("REFUSE"));
    atomic_store(&fail, number("FAIL"));
    atomic_store(&narrow, number("NARROW"));
}

/* Writes the numbers, for which no memory is refused any more. */
__attribute__((destructor)) static void tell(void) {
    long memory[3] = {atomic_load(&growths), atomic_load(&refused), atomic_load(&most)};
    long devices[2] = {atomic_load(&transfers), atomic_load(&failed)};
    const char *name = getenv("COUNTS");
    atomic_store(&refuse, 0);
    FILE *file = name ? fopen(name, "w") : NULL;
    if (file) {
        fprintf(file, "%ld %ld %ld %ld %ld\n", memory[0], memory[1], memory[2], devices[0], devices[1]);
        fclose(file);
    }
}

/* A program may end with no destructor called. */
void _exit(int status) {
    tell();
    for (;;) syscall(SYS_exit_group, status);
}
