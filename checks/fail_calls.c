/* Preloaded into a program that has a store in files: has calls on these files fail, moves fewer bytes, is interrupted,
   records what is written, and gives another clock. Not a part of the program; checks/failing.py builds it and says how
   it is asked, by these variables of the environment:

   FAIL_CALL=FILE:CALL:N:HOW  the N-th CALL (from 1) on the file of this name fails. FILE is as 0.log0, or * for
                     the N-th one on each file; CALL is open, pread, pwrite, fdatasync, fsync, statx, ftruncate, or lookup for
                     a statx of a name; HOW is
                       once     this call alone answers EIO, and nothing is done
                       always   each call of that name from then on does so
                       each     every call on the file from then on does so
                       full     each call of that name from then on answers ENOSPC
                       half     a pwrite writes half of its bytes, and the next one answers EIO
                       lost     as once, and what the file was written since its last sync is as it was before
   SHORT_CALLS=N     no pread and no pwrite moves more than N bytes
   INTERRUPTED=N     each N-th pread, pwrite, fdatasync and ftruncate answers EINTR at first
   READ_ONLY=1       nothing can be opened for writing, or made: EROFS
   RECORD=PATH       a line for each pwrite, fdatasync and ftruncate that was done: its name, the file's, place, length, bytes
   CALLS=PATH        a line for each call on the files: its name, the file's, place and length; and FAILED where it failed so
   UNSYNCED=1        no file is synced in earnest, which is quicker
   CLOCK=N,N,..      the machine's clock gives these milliseconds, below 2^64, and then the last of them again and again
   CLOCK=N+STEP      it gives N, N + STEP, N + 2 STEP .., and stays at 2^64 - 1
   CLOCK=N-STEP      it gives N, N - STEP, N - 2 STEP .., which comes to lie before 1970 */
#define _GNU_SOURCE
#include <errno.h>
#include <fcntl.h>
#include <stdarg.h>
#include <stdint.h>
#include <stdio.h>
#include <stdlib.h>
#include <string.h>
#include <sys/stat.h>
#include <sys/syscall.h>
#include <time.h>
#include <unistd.h>

enum { FILES = 64, DESCRIPTORS = 4096, NAME = 32, TIMES = 64 };
static const char *const CALL_NAMES[] = {"open", "pread", "pwrite", "fdatasync", "fsync", "statx", "ftruncate", "lookup"};
enum call { OPEN, PREAD, PWRITE, FDATASYNC, FSYNC, STATX, FTRUNCATE, LOOKUP, CALL_COUNT };
enum how { ONCE, ALWAYS, EACH, FULL, HALF, LOST };
static const char *const HOW_NAMES[] = {"once", "always", "each", "full", "half", "lost"};

/* What was at a place of a file before a write that isn't synced. */
struct before {
    struct before *next;
    uint64_t at, length;
    unsigned char bytes[];
};

static struct file {
    char name[NAME];
    unsigned long counts[CALL_COUNT];
    struct before *unsynced;
    int is_cut, has_failed; /* the rest of a half write is to fail; each call is */
} files[FILES];
static struct file *file_of[DESCRIPTORS];

static struct {
    int is_read, is_failing, is_read_only, is_unsynced, calls, record, times;
    char name[NAME];
    enum call call;
    enum how how;
    unsigned long number, most, every, calls_done, asked;
    unsigned long long time[TIMES];
    long long step;
} wanted;

static int number_of(const char *const *names, int count, const char *word) {
    for (int i = 0; i < count; i++)
        if (!strcmp(names[i], word)) return i;
    static const char text[] = "fail_calls: a word of FAIL_CALL isn't known\n";
    if (write(2, text, sizeof text - 1)) {}
    _exit(125);
}

static int lines_to(const char *variable) {
    const char *path = getenv(variable);
    return path ? (int)syscall(SYS_openat, AT_FDCWD, path, O_WRONLY | O_CREAT | O_APPEND | O_CLOEXEC, 0644) : -1;
}

static void read_wanted(void) {
    if (wanted.is_read) return;
    wanted.is_read = 1;
    const char *text = getenv("FAIL_CALL");
    char call[16], how[16];
    if (text && sscanf(text, "%31[^:]:%15[^:]:%lu:%15s", wanted.name, call, &wanted.number, how) == 4) {
        wanted.is_failing = 1;
        wanted.call = number_of(CALL_NAMES, CALL_COUNT, call);
        wanted.how = number_of(HOW_NAMES, 6, how);
    }
    if ((text = getenv("SHORT_CALLS"))) wanted.most = strtoul(text, 0, 10);
    if ((text = getenv("INTERRUPTED"))) wanted.every = strtoul(text, 0, 10);
    wanted.is_read_only = getenv("READ_ONLY") != 0;
    wanted.is_unsynced = getenv("UNSYNCED") != 0;
    wanted.record = lines_to("RECORD");
    wanted.calls = lines_to("CALLS");
    if ((text = getenv("CLOCK"))) {
        char *end = 0;
        for (; *text && wanted.times < TIMES; text = *end == ',' ? end + 1 : end) {
            if (*text == '+' || *text == '-') {
                wanted.step = strtoll(text, 0, 10);
                break;
            }
            wanted.time[wanted.times++] = strtoull(text, &end, 10);
        }
    }
}

/* The file that a path names, where it is one of a store: its last part has a dot, or is `lock` or `store`. */
static struct file *find(const char *path) {
    const char *last = strrchr(path, '/');
    last = last ? last + 1 : path;
    if (strlen(last) >= NAME || !(strstr(last, ".log") || strstr(last, ".pages") || !strcmp(last, "lock") || !strcmp(last, "store"))) return 0;
    for (int i = 0; i < FILES; i++) {
        if (!files[i].name[0]) strcpy(files[i].name, last);
        if (!strcmp(files[i].name, last)) return &files[i];
    }
    return 0;
}

static struct file *known(int descriptor) {
    read_wanted();
    return descriptor >= 0 && descriptor < DESCRIPTORS ? file_of[descriptor] : 0;
}

static void tell(int to, enum call call, struct file *file, uint64_t at, uint64_t length, const unsigned char *bytes, const char *end) {
    if (to < 0) return;
    char *line = malloc(128 + 2 * (bytes ? length : 0));
    if (!line) return;
    int size = sprintf(line, "%s %s %llu %llu%s", CALL_NAMES[call], file->name, (unsigned long long)at, (unsigned long long)length, bytes ? " " : "");
    for (uint64_t i = 0; bytes && i < length; i++) size += sprintf(line + size, "%02x", bytes[i]);
    size += sprintf(line + size, "%s\n", end);
    if (syscall(SYS_write, to, line, size)) {}
    free(line);
}

enum fate { GOES_ON, FAILS, IS_HALVED };

/* What comes of a call; where it fails, errno says why. */
static enum fate fate_of(enum call call, struct file *file, uint64_t at, uint64_t length) {
    int may_be_interrupted = call == PREAD || call == PWRITE || call == FDATASYNC || call == FTRUNCATE;
    if (wanted.every && may_be_interrupted && __atomic_add_fetch(&wanted.calls_done, 1, __ATOMIC_RELAXED) % wanted.every == 0) {
        errno = EINTR;
        return FAILS;
    }
    unsigned long number = __atomic_add_fetch(&file->counts[call], 1, __ATOMIC_RELAXED);
    int is_named = wanted.is_failing && call == wanted.call && (!strcmp(wanted.name, "*") || !strcmp(file->name, wanted.name));
    int goes_on = wanted.how == ALWAYS || wanted.how == FULL || wanted.how == EACH;
    int comes = is_named && (goes_on ? number >= wanted.number : number == wanted.number);
    file->has_failed |= comes && wanted.how == EACH;
    int cut = call == PWRITE && file->is_cut;
    int has_failed = file->has_failed && call != LOOKUP; /* (a look at a name is no call on what was opened) */
    if (!comes && !has_failed && !cut) {
        tell(wanted.calls, call, file, at, length, 0, "");
        return GOES_ON;
    }
    tell(wanted.calls, call, file, at, length, 0, " FAILED");
    if (comes && wanted.how == HALF && length > 1) {
        file->is_cut = 1;
        return IS_HALVED;
    }
    file->is_cut = 0;
    errno = comes && wanted.how == FULL ? ENOSPC : EIO;
    return FAILS;
}

static void keep_before(int descriptor, struct file *file, uint64_t at, uint64_t length) {
    struct before *kept = calloc(1, sizeof *kept + length);
    if (!kept) return;
    long got = syscall(SYS_pread64, descriptor, kept->bytes, length, at);
    (void)got; /* (what isn't there yet counts as zeros) */
    kept->at = at, kept->length = length, kept->next = file->unsynced;
    file->unsynced = kept;
}

static void forget_before(struct file *file, int descriptor, int put_back) {
    while (file->unsynced) {
        struct before *kept = file->unsynced;
        if (put_back && syscall(SYS_pwrite64, descriptor, kept->bytes, kept->length, kept->at)) {}
        file->unsynced = kept->next;
        free(kept);
    }
}

static int opened(int folder, const char *path, int flags, int mode) {
    read_wanted();
    struct file *file = find(path);
    if (wanted.is_read_only && (flags & (O_WRONLY | O_RDWR | O_CREAT | O_TRUNC))) {
        errno = EROFS;
        return -1;
    }
    if (file && fate_of(OPEN, file, 0, 0) == FAILS) return -1;
    int descriptor = syscall(SYS_openat, folder, path, flags, mode);
    if (descriptor >= 0 && descriptor < DESCRIPTORS) file_of[descriptor] = file;
    return descriptor;
}

#define MODE(flags, mode) \
    int mode = 0; \
    if ((flags) & (O_CREAT | O_TMPFILE)) { \
        va_list more; \
        va_start(more, flags); \
        mode = va_arg(more, int); \
        va_end(more); \
    }

int open(const char *path, int flags, ...) { MODE(flags, mode) return opened(AT_FDCWD, path, flags, mode); }
int open64(const char *path, int flags, ...) { MODE(flags, mode) return opened(AT_FDCWD, path, flags, mode); }
int openat(int folder, const char *path, int flags, ...) { MODE(flags, mode) return opened(folder, path, flags, mode); }
int openat64(int folder, const char *path, int flags, ...) { MODE(flags, mode) return opened(folder, path, flags, mode); }

ssize_t pwrite64(int descriptor, const void *bytes, size_t length, off64_t at) {
    struct file *file = known(descriptor);
    if (file) {
        enum fate fate = fate_of(PWRITE, file, at, length);
        if (fate == FAILS) return -1;
        if (fate == IS_HALVED) length /= 2;
        if (wanted.most && length > wanted.most) length = wanted.most;
        if (wanted.is_failing && wanted.how == LOST) keep_before(descriptor, file, at, length);
        tell(wanted.record, PWRITE, file, at, length, bytes, "");
    }
    return syscall(SYS_pwrite64, descriptor, bytes, length, at);
}
ssize_t pwrite(int descriptor, const void *bytes, size_t length, off_t at) { return pwrite64(descriptor, bytes, length, at); }

ssize_t pread64(int descriptor, void *bytes, size_t length, off64_t at) {
    struct file *file = known(descriptor);
    if (file) {
        if (fate_of(PREAD, file, at, length) != GOES_ON) return -1;
        if (wanted.most && length > wanted.most) length = wanted.most;
    }
    return syscall(SYS_pread64, descriptor, bytes, length, at);
}
ssize_t pread(int descriptor, void *bytes, size_t length, off_t at) { return pread64(descriptor, bytes, length, at); }

static int synced(int descriptor, enum call call, long number) {
    struct file *file = known(descriptor);
    if (file) {
        if (fate_of(call, file, 0, 0) != GOES_ON) {
            if (errno != EINTR) forget_before(file, descriptor, wanted.how == LOST);
            return -1;
        }
        forget_before(file, descriptor, 0);
        tell(wanted.record, call, file, 0, 0, 0, "");
        if (wanted.is_unsynced) return 0;
    }
    return syscall(number, descriptor);
}
int fdatasync(int descriptor) { return synced(descriptor, FDATASYNC, SYS_fdatasync); }
int fsync(int descriptor) { return synced(descriptor, FSYNC, SYS_fsync); }

int ftruncate64(int descriptor, off64_t length) {
    struct file *file = known(descriptor);
    if (file) {
        if (fate_of(FTRUNCATE, file, length, 0) != GOES_ON) return -1;
        tell(wanted.record, FTRUNCATE, file, length, 0, 0, "");
    }
    return syscall(SYS_ftruncate, descriptor, length);
}
int ftruncate(int descriptor, off_t length) { return ftruncate64(descriptor, length); }

int statx(int descriptor, const char *path, int flags, unsigned mask, struct statx *into) {
    struct file *file = *path ? find(path) : known(descriptor);
    read_wanted();
    if (file && fate_of(*path ? LOOKUP : STATX, file, 0, 0) != GOES_ON) return -1;
    return syscall(SYS_statx, descriptor, path, flags, mask, into);
}

int clock_gettime(clockid_t clock, struct timespec *into) {
    read_wanted();
    if (clock != CLOCK_REALTIME || !wanted.times) return syscall(SYS_clock_gettime, clock, into);
    unsigned long asked = __atomic_fetch_add(&wanted.asked, 1, __ATOMIC_RELAXED);
    unsigned long last = wanted.times - 1;
    unsigned long long first = wanted.time[asked < last ? asked : last];
    __int128 time = (__int128)first + (__int128)wanted.step * asked;
    if (time > UINT64_MAX) time = UINT64_MAX;
    into->tv_sec = (time - (time % 1000 + 1000) % 1000) / 1000;
    into->tv_nsec = (time % 1000 + 1000) % 1000 * 1000000;
    return 0;
}

int close(int descriptor) {
    if (descriptor >= 0 && descriptor < DESCRIPTORS) file_of[descriptor] = 0;
    return syscall(SYS_close, descriptor);
}
