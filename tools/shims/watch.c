// Notes the calls of a program on files, in order, in the file that S38_NOTED names: which file each path opened, what is locked,
// read, written, synced and closed. At a call on a block of a file another handle, and at a sync another process, tries to get its
// lock. A call is noted before it is made, but opening and locking after it, and a sync both times. Of many reads and writes on
// end each of the first ten is noted, and then each 64th.
#define _GNU_SOURCE
#include <dlfcn.h>
#include <errno.h>
#include <fcntl.h>
#include <stdarg.h>
#include <stdint.h>
#include <stdio.h>
#include <stdlib.h>
#include <string.h>
#include <sys/file.h>
#include <sys/mman.h>
#include <sys/stat.h>
#include <sys/wait.h>
#include <unistd.h>

#define ROOM (1L << 20)
#define NEXT(name) ((__typeof__(&name))dlsym(RTLD_NEXT, #name))

static char *notes;
static uint64_t noted;

__attribute__((constructor)) static void begin(void) {
    const char *path = getenv("S38_NOTED");
    int file = path ? NEXT(open)(path, O_RDWR | O_CLOEXEC) : -1;
    if (file < 0 || NEXT(ftruncate)(file, ROOM))
        return;
    notes = mmap(0, ROOM, PROT_READ | PROT_WRITE, MAP_SHARED, file, 0);
    notes = notes == MAP_FAILED ? 0 : notes;
    NEXT(close)(file);
}

static void note(const char *form, ...) {
    char line[4200];
    va_list list;
    va_start(list, form);
    int size = vsnprintf(line, sizeof line, form, list);
    va_end(list);
    if (!notes || size < 0)
        return;
    uint64_t place = __atomic_fetch_add(&noted, size, __ATOMIC_SEQ_CST);
    if (place + size < ROOM)
        memcpy(notes + place, line, size);
}

// The file of a handle, by its device and its number there.
static const char *named(int file, char *name) {
    struct stat found;
    if (fstat(file, &found) || !S_ISREG(found.st_mode))
        return 0;
    sprintf(name, "%lu:%lu", (unsigned long)found.st_dev, (unsigned long)found.st_ino);
    return name;
}

// Whether another hand gets the lock of a file: 1 if it does.
static int gets(int file) {
    char path[64];
    sprintf(path, "/proc/self/fd/%d", file);
    int other = NEXT(open)(path, O_RDWR | O_CLOEXEC), got = 0;
    if (other >= 0) {
        got = !NEXT(flock)(other, LOCK_EX | LOCK_NB);
        NEXT(close)(other);
    }
    return got;
}

// The same of another process.
static int other_gets(int file) {
    int status = 0;
    pid_t child = fork();
    if (!child)
        _exit(gets(file));
    return child > 0 && waitpid(child, &status, 0) == child && WIFEXITED(status) && WEXITSTATUS(status);
}

// Notes a call on the blocks of a file.
static void block(const char *call, int file, int syncs) {
    static uint64_t on_end;
    char name[64];
    int kept = errno;
    uint64_t place = syncs ? 0 : __atomic_fetch_add(&on_end, 1, __ATOMIC_SEQ_CST);
    if (syncs)
        __atomic_store_n(&on_end, 0, __ATOMIC_SEQ_CST);
    if ((place < 10 || place % 64 == 0) && named(file, name))
        note("%s %s %s\n", call, name, (syncs ? other_gets(file) : gets(file)) ? "free" : "kept");
    errno = kept;
}

// ---- paths and locks

int open(const char *path, int flags, ...) {
    va_list list;
    va_start(list, flags);
    int mode = flags & O_CREAT ? va_arg(list, int) : 0;
    va_end(list);
    int there = !access(path, F_OK), file = NEXT(open)(path, flags, mode), kept = errno;
    char name[64];
    if (file >= 0)
        note("%s %s %s\n", there ? "open" : "make", named(file, name) ? name : "-", path);
    errno = kept;
    return file;
}

int open64(const char *path, int flags, ...) {
    va_list list;
    va_start(list, flags);
    int mode = flags & O_CREAT ? va_arg(list, int) : 0;
    va_end(list);
    return open(path, flags, mode);
}

int flock(int file, int how) {
    char name[64];
    if (how & LOCK_UN && named(file, name))
        note("unlock %s\n", name);
    int done = NEXT(flock)(file, how), kept = errno;
    if (!(how & LOCK_UN) && named(file, name))
        note("%s %s\n", done ? "refused" : how & LOCK_EX ? "lock" : "share", name);
    errno = kept;
    return done;
}

int close(int file) {
    char name[64];
    if (named(file, name))
        note("close %s\n", name);
    return NEXT(close)(file);
}

// ---- blocks

ssize_t pread(int file, void *data, size_t size, off_t place) {
    block("pread", file, 0);
    return NEXT(pread)(file, data, size, place);
}

ssize_t pread64(int file, void *data, size_t size, off64_t place) {
    return pread(file, data, size, place);
}

ssize_t pwrite(int file, const void *data, size_t size, off_t place) {
    block("pwrite", file, 0);
    return NEXT(pwrite)(file, data, size, place);
}

ssize_t pwrite64(int file, const void *data, size_t size, off64_t place) {
    return pwrite(file, data, size, place);
}

ssize_t read(int file, void *data, size_t size) {
    if (file)
        block("read", file, 0);
    return NEXT(read)(file, data, size);
}

ssize_t write(int file, const void *data, size_t size) {
    if (file != 1 && file != 2)
        block("write", file, 0);
    return NEXT(write)(file, data, size);
}

int ftruncate(int file, off_t size) {
    block("ftruncate", file, 0);
    return NEXT(ftruncate)(file, size);
}

int fdatasync(int file) {
    block("fdatasync", file, 1);
    int done = NEXT(fdatasync)(file);
    block("synced", file, 1);
    return done;
}

int fsync(int file) {
    block("fsync", file, 1);
    int done = NEXT(fsync)(file);
    block("synced", file, 1);
    return done;
}
