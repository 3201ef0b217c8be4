/* The limit of a put on a file, whatever makes it: peer_disk COUNT FILE
   It makes a file of 69 MB, and then does so often what a put cannot do without: it writes 528 bytes into the log, and to the
   gate, to a home, and to the gate again, and forces each to the disk before the next. It prints seconds. */
#define _GNU_SOURCE
#include <fcntl.h>
#include <stdio.h>
#include <stdlib.h>
#include <string.h>
#include <time.h>
#include <unistd.h>

enum { BLOCK = 528, GATE = 1, LOG = 2, HOME = 2306, BLOCKS = 131072 };

static void need(int is_good, const char *what)
{
    if (!is_good) {
        perror(what);
        exit(1);
    }
}

static double now(void)
{
    struct timespec at;
    clock_gettime(CLOCK_MONOTONIC, &at);
    return (double)at.tv_sec + (double)at.tv_nsec / 1e9;
}

static void put(int file, long block, char letter)
{
    char bytes[BLOCK];
    memset(bytes, letter, sizeof bytes);
    need(pwrite(file, bytes, sizeof bytes, block * BLOCK) == (ssize_t)sizeof bytes, "write");
}

int main(int argc, char **argv)
{
    long count = argc == 3 ? atol(argv[1]) : 0;
    need(count > 0, "peer_disk COUNT FILE");
    int file = open(argv[2], O_RDWR | O_CREAT | O_EXCL, 0600);
    need(file >= 0, argv[2]);
    for (long block = 0; block < BLOCKS; block++)
        put(file, block, 0);
    need(fsync(file) == 0, "fsync");
    static const long places[] = {LOG, GATE, HOME, GATE};
    double begun = now();
    for (long k = 0; k < count; k++)
        for (int place = 0; place < 4; place++) {
            put(file, places[place], (char)(k + place));
            need(fdatasync(file) == 0, "fdatasync");
        }
    printf("%.6f\n", now() - begun);
    return 0;
}
