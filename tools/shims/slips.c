// Makes the program wrong, so that a test is seen to catch it: S38_SLIP names how. It lies before the other shims.
#define _GNU_SOURCE
#include <dlfcn.h>
#include <errno.h>
#include <fcntl.h>
#include <linux/futex.h>
#include <stdarg.h>
#include <stdio.h>
#include <stdlib.h>
#include <string.h>
#include <sys/file.h>
#include <sys/syscall.h>
#include <unistd.h>

#define BLOCK 528
#define EACH 2 // each so many wakings one is not done

static const char *slip = "";
static int store = -1, locked = -1, put_off = -1, wakings;

__attribute__((constructor)) static void begin(void) {
    const char *name = getenv("S38_SLIP");
    slip = name ? name : "";
}

static int is(const char *name) {
    return !strcmp(slip, name);
}

#define NEXT(name) ((__typeof__(&name))dlsym(RTLD_NEXT, #name))

// ---- want of memory

static void refused(void) {
    if (is("waits-for-memory"))
        for (;;)
            pause();
    if (is("spoils-the-store") && store >= 0)
        NEXT(pwrite)(store, "spoilt", 6, 2306L * BLOCK + 16);
}

void *malloc(size_t size) {
    void *made = NEXT(malloc)(size);
    if (!made)
        refused();
    return made;
}

void *realloc(void *place, size_t size) {
    void *made = NEXT(realloc)(place, size);
    if (!made)
        refused();
    return made;
}

ssize_t write(int file, const void *data, size_t size) {
    if (is("says-done") && size >= 10 && !memcmp((const char *)data + size - 10, "NO MEMORY\n", 10))
        return NEXT(write)(file, "DONE 0\n", 7) == 7 ? (ssize_t)size : -1;
    if (is("tells-what-was-not") && size >= 10 && !memcmp((const char *)data + size - 10, "NO MEMORY\n", 10))
        NEXT(write)(file, "9 ENQ OK\n", 9);
    return NEXT(write)(file, data, size);
}

void _exit(int status) {
    NEXT(_exit)(status == 7 && is("ends-with-0") ? 0 : status);
    __builtin_unreachable();
}

// ---- waking

long syscall(long number, ...) {
    va_list list;
    long words[6];
    va_start(list, number);
    for (int k = 0; k < 6; k++)
        words[k] = va_arg(list, long);
    va_end(list);
    if (number == SYS_futex && (words[1] & FUTEX_CMD_MASK) == FUTEX_WAKE && is("forgets-a-waking") &&
        __atomic_add_fetch(&wakings, 1, __ATOMIC_SEQ_CST) % EACH == 0)
        return 0;
    return NEXT(syscall)(number, words[0], words[1], words[2], words[3], words[4], words[5]);
}

// ---- the lock and the file

int open(const char *path, int flags, ...) {
    va_list list;
    va_start(list, flags);
    int mode = flags & O_CREAT ? va_arg(list, int) : 0;
    va_end(list);
    char other[4096];
    if (is("opens-another-file") && flags & O_CREAT) {
        snprintf(other, sizeof other, "%.4000s.other", path);
        path = other;
    }
    int file = NEXT(open)(path, flags, mode);
    if (file >= 0 && flags & O_CREAT && is("makes-a-second-file")) {
        snprintf(other, sizeof other, "%.4000s.lock", path);
        close(NEXT(open)(other, O_RDWR | O_CREAT, 0666));
    }
    store = file >= 0 && flags & O_CREAT ? file : store;
    return file;
}

int flock(int file, int how) {
    locked = file;
    if (is("locks-nothing"))
        return 0;
    if (is("locks-after-it-read")) {
        put_off = file;
        return 0;
    }
    if (is("shares-the-lock"))
        how = LOCK_SH | LOCK_NB;
    int done = NEXT(flock)(file, how);
    char block[BLOCK];
    if (done && is("reads-what-is-taken"))
        NEXT(pread)(file, block, BLOCK, 0);
    if (done && is("goes-on-without-the-lock"))
        return 0;
    return done;
}

ssize_t pread(int file, void *data, size_t size, off_t place) {
    ssize_t done = NEXT(pread)(file, data, size, place);
    if (put_off >= 0)
        NEXT(flock)(put_off, LOCK_EX | LOCK_NB);
    put_off = -1;
    return done;
}

ssize_t pwrite(int file, const void *data, size_t size, off_t place) {
    if (is("lets-go-at-a-write") && locked >= 0)
        NEXT(flock)(locked, LOCK_UN);
    return NEXT(pwrite)(file, data, size, place);
}

int fdatasync(int file) {
    if (is("lets-go-before-it-syncs") && locked >= 0)
        NEXT(flock)(locked, LOCK_UN);
    int done = NEXT(fdatasync)(file);
    if (is("lets-go-between-syncs") && locked >= 0) {
        NEXT(flock)(locked, LOCK_UN);
        NEXT(flock)(locked, LOCK_EX | LOCK_NB);
    }
    return done;
}
