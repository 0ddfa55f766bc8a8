/* Makes chosen calls of the C library fail or be short, in a program that preloads it.
 *
 * Each variable is N or N..: the N-th call alone, or that call and all behind it.
 *
 *     FAIL_ALLOC   malloc and realloc return no memory
 *     FAIL_READ    read from standard input fails
 *     SHORT_READ   read from standard input returns at most one byte
 *     FAIL_WRITE   write to standard output fails
 *     SHORT_WRITE  write to standard output takes at most one byte
 *     ZERO_WRITE   write to standard output takes no byte
 *
 * CALLS_FD is a file descriptor: at the end of the program it receives the numbers of allocations, reads and writes. */
#define _GNU_SOURCE
#include <errno.h>
#include <stdio.h>
#include <stdlib.h>
#include <string.h>
#include <sys/syscall.h>
#include <unistd.h>

extern void *__libc_malloc(size_t size);
extern void *__libc_calloc(size_t count, size_t size);
extern void *__libc_realloc(void *old, size_t size);
extern void __libc_free(void *block);

struct choice {
    unsigned long first;
    int is_open;
};

static struct choice fail_alloc, fail_read, short_read, fail_write, short_write, zero_write;
static unsigned long allocations, reads, writes;
/* Blocks that are allocated and not freed. */
static long blocks;
static int calls_fd = -1;

static struct choice choice_of(const char *name) {
    const char *text = getenv(name);
    struct choice choice = {0, 0};
    char *end;
    if (text != NULL) {
        choice.first = strtoul(text, &end, 10);
        choice.is_open = strcmp(end, "..") == 0;
    }
    return choice;
}

static int is_chosen(struct choice choice, unsigned long call) {
    return choice.first != 0 && (choice.is_open ? call >= choice.first : call == choice.first);
}

__attribute__((constructor)) static void start(void) {
    const char *fd = getenv("CALLS_FD");
    fail_alloc = choice_of("FAIL_ALLOC");
    fail_read = choice_of("FAIL_READ");
    short_read = choice_of("SHORT_READ");
    fail_write = choice_of("FAIL_WRITE");
    short_write = choice_of("SHORT_WRITE");
    zero_write = choice_of("ZERO_WRITE");
    if (fd != NULL) {
        calls_fd = atoi(fd);
    }
    allocations = 0;
}

__attribute__((destructor)) static void finish(void) {
    char line[100];
    int len = snprintf(line, sizeof line, "%lu %lu %lu %ld\n", allocations, reads, writes, blocks);
    if (calls_fd >= 0) {
        syscall(SYS_write, calls_fd, line, (size_t)len);
    }
}

static int allocation_fails(void) {
    allocations += 1;
    if (is_chosen(fail_alloc, allocations)) {
        errno = ENOMEM;
        return 1;
    }
    return 0;
}

void *malloc(size_t size) {
    void *block = allocation_fails() ? NULL : __libc_malloc(size);
    blocks += block != NULL;
    return block;
}

void *calloc(size_t count, size_t size) {
    void *block = __libc_calloc(count, size);
    blocks += block != NULL;
    return block;
}

void *realloc(void *old, size_t size) {
    void *block;
    if (allocation_fails()) {
        return NULL;
    }
    block = __libc_realloc(old, size);
    blocks += block != NULL;
    /* With no size, glibc frees the old block and returns none. */
    blocks -= old != NULL && (block != NULL || size == 0);
    return block;
}

void free(void *block) {
    blocks -= block != NULL;
    __libc_free(block);
}

ssize_t read(int fd, void *buf, size_t count) {
    if (fd == 0) {
        reads += 1;
        if (is_chosen(fail_read, reads)) {
            errno = EIO;
            return -1;
        }
        if (is_chosen(short_read, reads) && count > 1) {
            count = 1;
        }
    }
    return syscall(SYS_read, fd, buf, count);
}

ssize_t write(int fd, const void *buf, size_t count) {
    if (fd == 1) {
        writes += 1;
        if (is_chosen(fail_write, writes)) {
            errno = EIO;
            return -1;
        }
        if (is_chosen(zero_write, writes)) {
            return 0;
        }
        if (is_chosen(short_write, writes) && count > 1) {
            count = 1;
        }
    }
    return syscall(SYS_write, fd, buf, count);
}
