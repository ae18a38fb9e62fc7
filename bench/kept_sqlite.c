/* What kept_hall.sh asks of SQLite: so many threads, each with a connection of its own, insert a row (worker, feature, set of profiles) again and
   again, each in a transaction of its own (journal_mode=WAL, synchronous=FULL), until so many seconds are over. Who finds the base locked waits
   for it. Prints the number of rows, as the base tells it then, and the seconds.
   usage: kept_sqlite FILE THREADS SECONDS   (FILE is not there yet) */
#define _GNU_SOURCE
#include <pthread.h>
#include <sqlite3.h>
#include <stdio.h>
#include <stdlib.h>
#include <string.h>
#include <time.h>

enum { MOST = 16, LONGEST_WAIT_MS = 60000 };

static const char *path;
static double end;

static double now(void) {
    struct timespec t;
    clock_gettime(CLOCK_MONOTONIC, &t);
    return t.tv_sec + t.tv_nsec / 1e9;
}

static void need(int holds, const char *what) {
    if (!holds) {
        fprintf(stderr, "kept_sqlite: %s\n", what);
        exit(1);
    }
}

static sqlite3 *open_base(void) {
    sqlite3 *base;
    int flags = SQLITE_OPEN_READWRITE | SQLITE_OPEN_CREATE | SQLITE_OPEN_NOMUTEX;
    need(sqlite3_open_v2(path, &base, flags, NULL) == SQLITE_OK, "open");
    sqlite3_busy_timeout(base, LONGEST_WAIT_MS);
    need(sqlite3_exec(base, "PRAGMA journal_mode=WAL", NULL, NULL, NULL) == SQLITE_OK, "journal_mode");
    need(sqlite3_exec(base, "PRAGMA synchronous=FULL", NULL, NULL, NULL) == SQLITE_OK, "synchronous");
    return base;
}

/* The first number of the first row. */
static long long asked(sqlite3 *base, const char *query) {
    sqlite3_stmt *statement;
    need(sqlite3_prepare_v2(base, query, -1, &statement, NULL) == SQLITE_OK, sqlite3_errmsg(base));
    need(sqlite3_step(statement) == SQLITE_ROW, sqlite3_errmsg(base));
    long long number = sqlite3_column_int64(statement, 0);
    sqlite3_finalize(statement);
    return number;
}

static void *work(void *given) {
    int worker = *(int *)given;
    sqlite3 *base = open_base();
    need(asked(base, "PRAGMA synchronous") == 2, "not FULL");
    sqlite3_stmt *insert;
    const char *text = "INSERT INTO changes VALUES (?, ?, ?)";
    need(sqlite3_prepare_v2(base, text, -1, &insert, NULL) == SQLITE_OK, sqlite3_errmsg(base));
    unsigned char feature[16] = {0};
    feature[15] = (unsigned char)worker;
    int set = 0;
    while (now() < end) {
        set = 3 - set;
        sqlite3_bind_int(insert, 1, worker);
        sqlite3_bind_blob(insert, 2, feature, sizeof feature, SQLITE_STATIC);
        sqlite3_bind_int(insert, 3, set);
        need(sqlite3_step(insert) == SQLITE_DONE, sqlite3_errmsg(base));
        sqlite3_reset(insert);
    }
    sqlite3_finalize(insert);
    need(sqlite3_close(base) == SQLITE_OK, "close");
    return NULL;
}

int main(int argc, char **argv) {
    need(argc == 4, "usage: kept_sqlite FILE THREADS SECONDS");
    path = argv[1];
    int threads = atoi(argv[2]);
    need(1 <= threads && threads <= MOST, "1 to 16 threads");
    sqlite3 *base = open_base();
    const char *table = "CREATE TABLE changes (worker INTEGER, feature BLOB, profiles INTEGER)";
    need(sqlite3_exec(base, table, NULL, NULL, NULL) == SQLITE_OK, sqlite3_errmsg(base));
    pthread_t made[MOST];
    int numbers[MOST];
    double from = now();
    end = from + atof(argv[3]);
    for (int i = 0; i < threads; i++) {
        numbers[i] = i + 1;
        need(pthread_create(&made[i], NULL, work, &numbers[i]) == 0, "pthread_create");
    }
    for (int i = 0; i < threads; i++) pthread_join(made[i], NULL);
    double seconds = now() - from;
    printf("%lld %.6f\n", asked(base, "SELECT count(*) FROM changes"), seconds);
    need(sqlite3_close(base) == SQLITE_OK, "close");
    return 0;
}
