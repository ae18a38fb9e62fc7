/* Loaded before a program (LD_PRELOAD), it stands between the program and the journal whose file DISK_JOURNAL names, as a disk that writes down what
   is asked of it, that fails when it is told to, or that isn't honest. For programs of 64 bits on Linux.

   DISK_RECORD names a file to which each call of the disk and each write to the console is added behind it: a struct call, and the bytes that were
   to be written. DISK_REFUSE is the number of the call, from 1, that fails with the error of the number DISK_ERROR: a sync isn't made then, and a
   write is made by half. The syncs of the journal's folder count as calls too. DISK_SHORTEN divides the numbers of those writes that are made by half
   and say so, which is no failure.
   DISK_WRONG names what is wrong with the disk, or with the order in which it is called. What isn't made is answered as if it were, and isn't
   written down:
     no_first_sync    the sync behind a record isn't made
     no_second_sync   the sync behind a gate that was opened isn't made
     no_shut_gate     the gate in front of a record isn't closed, nor is that synced
     no_next_gate     the last byte in front of the sync behind a record, which is the next gate, isn't written
     gate_first       the gate is opened before its record is written
     lost_last        the last write in front of a sync isn't made
     late_gates       a gate is opened only when something is written next
     lost_gates       every fourth gate isn't opened
     lost_writes      every fourth write isn't made
     other_profiles   every fourth closing or opening is written with a profile more or less */
#include <errno.h>
#include <fcntl.h>
#include <pthread.h>
#include <stdint.h>
#include <stdlib.h>
#include <string.h>
#include <sys/stat.h>
#include <sys/syscall.h>
#include <sys/uio.h>
#include <unistd.h>

enum kind { WRITE = 1, SYNC, FOLDER_SYNC, CUT, PRINT };
/* CLOSING is how many bytes are written of a closing or an opening: its record but for the gate, and the next gate. */
enum { EVERY = 4, CLOSING = 21 };

struct call {
    uint64_t kind, place, count;
    int64_t result; /* how many bytes were written, or 0, or below 0 the number of the error */
};

struct piece {
    const void *bytes;
    uint64_t count, place;
};

/* What a write is for, as far as it shows: those in front of a sync are a gate, or a record with the next gate. */
enum role { OPENS, SHUTS, BEGINS, GOES_ON };

static pthread_mutex_t lock = PTHREAD_MUTEX_INITIALIZER;
static struct stat journal;
static int record = -1, is_behind_sync = 1;
static const char *wrong = "";
static unsigned long refused, error_number, shortening, calls, writes, counted;
static enum role role;
static struct piece held;

static unsigned long number_in(const char *name) {
    const char *text = getenv(name);
    return text ? strtoul(text, NULL, 10) : 0;
}

static int is_wrong(const char *name) { return !strcmp(wrong, name); }

static int is_journal(int file) {
    struct stat own;
    return journal.st_ino && !fstat(file, &own) && own.st_ino == journal.st_ino && own.st_dev == journal.st_dev;
}

static int is_folder(int file) {
    struct stat own;
    return journal.st_ino && !fstat(file, &own) && S_ISDIR(own.st_mode);
}

static int64_t reported(int64_t result) { return result < 0 ? -errno : result; }

/* What a caller gets of what was reported. */
static int64_t given(int64_t result) {
    if (result >= 0)
        return result;
    errno = (int)-result;
    return -1;
}

static int64_t write_down(enum kind kind, struct piece piece, int64_t result) {
    struct call call = {kind, piece.place, piece.count, result};
    struct iovec parts[] = {{&call, sizeof call}, {(void *)piece.bytes, piece.bytes ? piece.count : 0}};
    if (record >= 0 && writev(record, parts, 2) < 0)
        abort();
    return result;
}

static int64_t make_write(int file, struct piece piece) {
    if (shortening && ++writes % shortening == 0 && piece.count > 1)
        piece.count /= 2;
    return write_down(WRITE, piece, reported(syscall(SYS_pwrite64, file, piece.bytes, piece.count, piece.place)));
}

static int is_refused(void) { return ++calls == refused; }

static int64_t refuse_write(int file, struct piece piece) {
    if (piece.count > 1 && syscall(SYS_pwrite64, file, piece.bytes, piece.count / 2, piece.place) < 0)
        abort();
    is_behind_sync = 1;
    return write_down(WRITE, piece, -(int64_t)error_number);
}

/* Makes the write that was held back, where there is one, but for so many bytes at its end. */
static void make_held(int file, uint64_t but) {
    if (held.count > but)
        make_write(file, (struct piece){held.bytes, held.count - but, held.place});
    free((void *)held.bytes);
    held = (struct piece){NULL, 0, 0};
}

static int64_t hold_back(struct piece piece) {
    void *copy = malloc(piece.count);
    if (!copy)
        abort();
    held = (struct piece){memcpy(copy, piece.bytes, piece.count), piece.count, piece.place};
    return (int64_t)piece.count;
}

static enum role role_of(struct piece piece) {
    if (!is_behind_sync)
        return GOES_ON;
    char first = *(const char *)piece.bytes;
    return piece.count > 1 || (unsigned char)first > 1 ? BEGINS : first ? OPENS : SHUTS;
}

static int is_turn(void) { return ++counted % EVERY == 0; }

static int is_left_out(void) {
    if (is_wrong("lost_writes") || (is_wrong("lost_gates") && role == OPENS))
        return is_turn();
    return is_wrong("no_shut_gate") && role == SHUTS;
}

/* Whether a write waits for the next call. */
static int is_late(void) { return is_wrong("lost_last") || is_wrong("no_next_gate") || (is_wrong("late_gates") && role == OPENS); }

static int64_t write_other_profiles(int file, struct piece piece) {
    char other[CLOSING];
    memcpy(other, piece.bytes, CLOSING);
    other[CLOSING - 2] ^= 1; /* in front of the next gate */
    return make_write(file, (struct piece){other, CLOSING, piece.place});
}

static int64_t write_journal(int file, struct piece piece) {
    if (is_refused())
        return refuse_write(file, piece);
    role = role_of(piece);
    is_behind_sync = 0;
    make_held(file, 0);
    if (is_late())
        return hold_back(piece);
    if (is_wrong("other_profiles") && role == BEGINS && piece.count == CLOSING && is_turn())
        return write_other_profiles(file, piece);
    if (is_wrong("gate_first") && role == BEGINS)
        make_write(file, (struct piece){"\1", 1, piece.place - 1});
    return is_left_out() ? (int64_t)piece.count : make_write(file, piece);
}

static int is_unsynced(void) {
    if (is_wrong("no_first_sync"))
        return role == BEGINS || role == GOES_ON;
    return (is_wrong("no_second_sync") && role == OPENS) || (is_wrong("no_shut_gate") && role == SHUTS);
}

static int64_t sync_journal(int file) {
    int is_first = is_behind_sync;
    is_behind_sync = 1;
    if (is_refused())
        return write_down(SYNC, (struct piece){0}, -(int64_t)error_number);
    if (!is_wrong("late_gates"))
        make_held(file, is_wrong("lost_last") ? held.count : role == BEGINS || role == GOES_ON);
    if (!is_first && is_unsynced())
        return 0;
    return write_down(SYNC, (struct piece){0}, reported(syscall(SYS_fdatasync, file)));
}

static int64_t sync_folder(int file) {
    return write_down(FOLDER_SYNC, (struct piece){0}, is_refused() ? -(int64_t)error_number : reported(syscall(SYS_fsync, file)));
}

static int64_t locked(int64_t (*call)(int), int file) {
    pthread_mutex_lock(&lock);
    int64_t result = call(file);
    pthread_mutex_unlock(&lock);
    return given(result);
}

static ssize_t write_at(int file, struct piece piece) {
    pthread_mutex_lock(&lock);
    int64_t result = write_journal(file, piece);
    pthread_mutex_unlock(&lock);
    return given(result);
}

ssize_t pwrite(int file, const void *bytes, size_t count, off_t place) {
    return is_journal(file) ? write_at(file, (struct piece){bytes, count, place}) : syscall(SYS_pwrite64, file, bytes, count, place);
}

ssize_t pwrite64(int file, const void *bytes, size_t count, off64_t place) { return pwrite(file, bytes, count, place); }

ssize_t write(int file, const void *bytes, size_t count) {
    ssize_t result = syscall(SYS_write, file, bytes, count);
    if (file == STDOUT_FILENO)
        write_down(PRINT, (struct piece){bytes, count, 0}, result);
    return result;
}

int fdatasync(int file) { return is_journal(file) ? (int)locked(sync_journal, file) : (int)syscall(SYS_fdatasync, file); }

int fsync(int file) {
    if (is_journal(file))
        return (int)locked(sync_journal, file);
    return is_folder(file) ? (int)locked(sync_folder, file) : (int)syscall(SYS_fsync, file);
}

/* Nobody has a journal's length changed but by writes: the record shows who does. */
int ftruncate(int file, off_t length) {
    if (is_journal(file))
        write_down(CUT, (struct piece){NULL, 0, length}, 0);
    return (int)syscall(SYS_ftruncate, file, length);
}

int ftruncate64(int file, off64_t length) { return ftruncate(file, length); }

__attribute__((constructor)) static void begin(void) {
    const char *path = getenv("DISK_JOURNAL"), *kept = getenv("DISK_RECORD");
    if (getenv("DISK_WRONG"))
        wrong = getenv("DISK_WRONG");
    refused = number_in("DISK_REFUSE");
    error_number = number_in("DISK_ERROR");
    shortening = number_in("DISK_SHORTEN");
    if (path && stat(path, &journal))
        journal.st_ino = 0;
    if (kept)
        record = open(kept, O_WRONLY | O_CREAT | O_APPEND | O_CLOEXEC, 0600);
}
