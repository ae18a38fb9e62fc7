/* What disk.sh asks of a file by system calls alone: the seconds of each part on a line of its own. */
#define _GNU_SOURCE
#include <fcntl.h>
#include <stdio.h>
#include <stdlib.h>
#include <string.h>
#include <sys/stat.h>
#include <time.h>
#include <unistd.h>

static double now(void) {
    struct timespec t;
    clock_gettime(CLOCK_MONOTONIC, &t);
    return t.tv_sec + t.tv_nsec / 1e9;
}

static void need(int holds, const char *what) {
    if (!holds) {
        perror(what);
        exit(1);
    }
}

static void put(int file, const char *piece, size_t count, off_t at) {
    need(pwrite(file, piece, count, at) == (ssize_t)count, "pwrite");
}

static off_t length_of(int file) {
    struct stat told;
    need(fstat(file, &told) == 0, "fstat");
    return told.st_size;
}

int main(int argc, char **argv) {
    need(argc == 2, "usage: disk FILE");
    int file = open(argv[1], O_RDWR);
    need(file >= 0, "open");
    size_t whole = 32 << 20;
    char *piece = malloc(whole);
    need(piece != NULL, "malloc");
    memset(piece, 7, whole);
    double from = now();
    for (int i = 0; i < 64; i++) {
        put(file, piece, 21, length_of(file));
        need(fdatasync(file) == 0, "fdatasync");
    }
    printf("append %.6f\n", (now() - from) / 64);
    from = now();
    off_t end = length_of(file);
    for (int i = 0; i < 1000000; i++) put(file, piece, 21, end + 21L * i);
    need(fdatasync(file) == 0, "fdatasync");
    printf("million %.6f\n", now() - from);
    from = now();
    put(file, piece, whole, 0);
    need(fdatasync(file) == 0, "fdatasync");
    printf("large %.6f\n", now() - from);
    from = now();
    for (off_t at = 0; at < (off_t)whole; at += 65536)
        need(pread(file, piece + at, 65536, at) == 65536, "pread");
    printf("reads %.6f\n", now() - from);
    from = now();
    for (int i = 0; i < 64; i++) {
        put(file, piece, 1, 0);
        need(fdatasync(file) == 0, "fdatasync");
    }
    printf("sync %.6f\n", (now() - from) / 64);
    return 0;
}
