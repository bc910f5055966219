/* Preloaded into a program: has one call for memory fail. Not a part of the program; checks/memory builds it.

   FAIL_ALLOC=N      the N-th call of malloc, calloc or realloc (from 1) finds no memory
   ALLOCS=PATH       how many such calls there were is in the first eight bytes of this file */
#define _GNU_SOURCE
#include <errno.h>
#include <fcntl.h>
#include <stdint.h>
#include <stdlib.h>
#include <sys/mman.h>
#include <sys/syscall.h>
#include <unistd.h>

extern void *__libc_malloc(size_t);
extern void *__libc_calloc(size_t, size_t);
extern void *__libc_realloc(void *, size_t);

static uint64_t unseen, *count = &unseen, failing;
static int is_read;

/* What is asked for; nothing here takes memory. */
static void read_asked(void) {
    const char *number = getenv("FAIL_ALLOC"), *path = getenv("ALLOCS");
    is_read = 1;
    failing = number ? strtoull(number, NULL, 10) : 0;
    int file = path ? (int)syscall(SYS_openat, AT_FDCWD, path, O_RDWR | O_CREAT | O_TRUNC, 0600) : -1;
    if (file >= 0 && syscall(SYS_ftruncate, file, 8) == 0) {
        void *shared = mmap(NULL, 8, PROT_READ | PROT_WRITE, MAP_SHARED, file, 0);
        count = shared == MAP_FAILED ? &unseen : shared;
    }
    if (file >= 0)
        syscall(SYS_close, file);
}

static int fails(void) {
    if (!is_read)
        read_asked();
    if (__atomic_add_fetch(count, 1, __ATOMIC_SEQ_CST) != failing)
        return 0;
    errno = ENOMEM;
    return 1;
}

void *malloc(size_t size) { return fails() ? NULL : __libc_malloc(size); }
void *calloc(size_t many, size_t size) { return fails() ? NULL : __libc_calloc(many, size); }
void *realloc(void *block, size_t size) { return fails() ? NULL : __libc_realloc(block, size); }
