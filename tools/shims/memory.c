// Refuses requests for memory: those from the S38_REFUSE_FROM-th to the S38_REFUSE_TO-th of a run. What was asked and refused,
// and how many writes and syncs of a file the program made, is counted in the file that S38_TOLD names. A sync is counted and
// not done, since no power is lost here.
#define _GNU_SOURCE
#include <dlfcn.h>
#include <errno.h>
#include <fcntl.h>
#include <stdint.h>
#include <stdlib.h>
#include <sys/mman.h>
#include <unistd.h>

extern void *__libc_malloc(size_t), *__libc_calloc(size_t, size_t);
extern void *__libc_realloc(void *, size_t), *__libc_memalign(size_t, size_t);

struct told {
    uint64_t asked, refused, moment;
};

static struct told own, *told = &own;
static uint64_t from = UINT64_MAX, to;

static uint64_t number(const char *name, uint64_t otherwise) {
    const char *text = getenv(name);
    return text ? strtoull(text, 0, 10) : otherwise;
}

__attribute__((constructor)) static void begin(void) {
    const char *path = getenv("S38_TOLD");
    int file = path ? open(path, O_RDWR | O_CLOEXEC) : -1;
    if (file < 0)
        return;
    void *place = mmap(0, sizeof own, PROT_READ | PROT_WRITE, MAP_SHARED, file, 0);
    close(file);
    if (place == MAP_FAILED)
        return;
    told = place;
    *told = (struct told){0};
    to = number("S38_REFUSE_TO", 0);
    from = number("S38_REFUSE_FROM", UINT64_MAX);
}

static int refuses(void) {
    uint64_t place = __atomic_add_fetch(&told->asked, 1, __ATOMIC_SEQ_CST);
    if (place < from || place > to)
        return 0;
    __atomic_add_fetch(&told->refused, 1, __ATOMIC_SEQ_CST);
    errno = ENOMEM;
    return 1;
}

// ---- memory

void *malloc(size_t size) {
    return refuses() ? 0 : __libc_malloc(size);
}

void *calloc(size_t count, size_t size) {
    return refuses() ? 0 : __libc_calloc(count, size);
}

void *realloc(void *place, size_t size) {
    return refuses() ? 0 : __libc_realloc(place, size);
}

void *memalign(size_t align, size_t size) {
    return refuses() ? 0 : __libc_memalign(align, size);
}

void *aligned_alloc(size_t align, size_t size) {
    return memalign(align, size);
}

int posix_memalign(void **place, size_t align, size_t size) {
    void *made = memalign(align, size);
    if (made)
        *place = made;
    return made ? 0 : ENOMEM;
}

// ---- writes and syncs

static void pass(void) {
    __atomic_add_fetch(&told->moment, 1, __ATOMIC_SEQ_CST);
}

ssize_t pwrite(int file, const void *data, size_t size, off_t place) {
    pass();
    return ((ssize_t(*)(int, const void *, size_t, off_t))dlsym(RTLD_NEXT, "pwrite"))(file, data, size, place);
}

ssize_t pwrite64(int file, const void *data, size_t size, off64_t place) {
    return pwrite(file, data, size, place);
}

int fdatasync(int file) {
    pass();
    return fcntl(file, F_GETFD) < 0 ? -1 : 0;
}

int fsync(int file) {
    return fdatasync(file);
}
