/* What bench/embedding.py sets the library beside: a program and two pipes, and two stores of records.

     stores pipe PROGRAM IMAGE CAPABILITY COUNT     microseconds of a request by `serve`, one at a time
     stores lmdb FOLDER COUNT                       of a get and a durable put of 512 bytes, a transaction each
     stores sqlite FILE COUNT                       the same, by prepared statements; write-ahead mode, full sync */
#define _GNU_SOURCE
#include <stdint.h>
#include <stdio.h>
#include <stdlib.h>
#include <string.h>
#include <time.h>
#include <unistd.h>
#ifdef WITH_LMDB
#include <lmdb.h>
#endif
#ifdef WITH_SQLITE
#include <sqlite3.h>
#endif

enum { VALUES = 1000, BLOCK = 512 };

static double now(void) {
    struct timespec time;
    clock_gettime(CLOCK_MONOTONIC, &time);
    return (double)time.tv_sec * 1e6 + (double)time.tv_nsec / 1e3;
}

static void need(int is_so, const char *what) {
    if (!is_so) {
        fprintf(stderr, "stores: %s failed\n", what);
        exit(1);
    }
}

/* --- the program --- */

static void all(int file, uint8_t *bytes, size_t length, int writes) {
    while (length > 0) {
        ssize_t count = writes ? write(file, bytes, length) : read(file, bytes, length);
        need(count > 0, "a pipe");
        bytes += count;
        length -= (size_t)count;
    }
}

static void ask(const int *ends, const uint8_t *body, size_t length) {
    uint8_t frame[4200] = {(uint8_t)length, (uint8_t)(length >> 8)};
    memcpy(frame + 2, body, length);
    all(ends[1], frame, length + 2, 1);
    all(ends[0], frame, 2, 0);
    size_t answer = frame[0] | (size_t)frame[1] << 8;
    all(ends[0], frame, answer, 0);
    need(frame[0] != 8, "a request");
}

static void pipe_times(char **words, long count) {
    int to[2], from[2];
    need(pipe(to) == 0 && pipe(from) == 0, "a pipe");
    if (fork() == 0) {
        dup2(to[0], 0);
        dup2(from[1], 1);
        close(to[1]);
        close(from[0]);
        execl(words[0], words[0], words[1], "serve", "near", (char *)NULL);
        _exit(1);
    }
    int ends[2] = {from[0], to[1]};
    uint8_t open[5] = {1, 1}, free_count[1] = {7}, body[26 + BLOCK] = {3, 1, 0, 0, 0, 0, 0, 0, 0, 1};
    for (int at = 0; at < 16; at++) {
        unsigned value = 0;
        sscanf(words[2] + 2 * at, "%2x", &value);
        body[10 + at] = (uint8_t)value;
    }
    ask(ends, open, sizeof open);
    double start = now();
    for (long at = 0; at < count; at++) {
        ask(ends, body, 26);
    }
    double read = now();
    for (long at = 0; at < count; at++) {
        ask(ends, free_count, 1);
    }
    double free_end = now();
    body[0] = 4;
    for (long at = 0; at < count / 10; at++) {
        ask(ends, body, sizeof body);
    }
    printf("read %.3f\nfree %.3f\nwrite %.3f\n", (read - start) / (double)count, (free_end - read) / (double)count,
           (now() - free_end) / (double)(count / 10));
}

/* --- two stores --- */

#ifdef WITH_LMDB
static void lmdb_times(const char *folder, long count) {
    MDB_env *env;
    MDB_txn *txn;
    MDB_dbi all_values;
    static char bytes[BLOCK];
    need(mdb_env_create(&env) == 0 && mdb_env_set_mapsize(env, 1 << 26) == 0, "lmdb");
    need(mdb_env_open(env, folder, 0, 0600) == 0 && mdb_txn_begin(env, NULL, 0, &txn) == 0, "lmdb");
    need(mdb_dbi_open(txn, NULL, MDB_INTEGERKEY, &all_values) == 0, "lmdb");
    for (unsigned key = 0; key < VALUES; key++) {
        MDB_val k = {sizeof key, &key}, v = {BLOCK, bytes};
        need(mdb_put(txn, all_values, &k, &v, 0) == 0, "a put");
    }
    need(mdb_txn_commit(txn) == 0, "a commit");
    double start = now();
    for (long at = 0; at < count; at++) {
        unsigned key = (unsigned)(at % VALUES);
        MDB_val k = {sizeof key, &key}, v;
        need(mdb_txn_begin(env, NULL, MDB_RDONLY, &txn) == 0 && mdb_get(txn, all_values, &k, &v) == 0, "a get");
        memcpy(bytes, v.mv_data, BLOCK);
        mdb_txn_abort(txn);
    }
    double got = now();
    for (long at = 0; at < count / 10; at++) {
        unsigned key = (unsigned)(at % VALUES);
        MDB_val k = {sizeof key, &key}, v = {BLOCK, bytes};
        bytes[0]++;
        need(mdb_txn_begin(env, NULL, 0, &txn) == 0 && mdb_put(txn, all_values, &k, &v, 0) == 0, "a put");
        need(mdb_txn_commit(txn) == 0, "a commit");
    }
    printf("read %.3f\nwrite %.3f\n", (got - start) / (double)count, (now() - got) / (double)(count / 10));
    mdb_env_close(env);
}
#endif

#ifdef WITH_SQLITE
static void sqlite_times(const char *path, long count) {
    sqlite3 *base;
    sqlite3_stmt *get, *put;
    static char bytes[BLOCK];
    need(sqlite3_open(path, &base) == SQLITE_OK, "sqlite");
    static const char begin[] = "PRAGMA journal_mode=WAL; PRAGMA synchronous=FULL; "
                                "CREATE TABLE v(k INTEGER PRIMARY KEY, b BLOB); BEGIN";
    need(sqlite3_exec(base, begin, 0, 0, 0) == 0, "sqlite");
    need(sqlite3_prepare_v2(base, "INSERT OR REPLACE INTO v VALUES(?,?)", -1, &put, 0) == 0, "sqlite");
    need(sqlite3_prepare_v2(base, "SELECT b FROM v WHERE k=?", -1, &get, 0) == 0, "sqlite");
    for (long at = 0; at < VALUES; at++) {
        sqlite3_bind_int(put, 1, (int)(at % VALUES));
        sqlite3_bind_blob(put, 2, bytes, BLOCK, SQLITE_STATIC);
        need(sqlite3_step(put) == SQLITE_DONE && sqlite3_reset(put) == 0, "a put");
        if (at == VALUES - 1) {
            need(sqlite3_exec(base, "COMMIT", 0, 0, 0) == 0, "a commit");
        }
    }
    double start = now();
    for (long at = 0; at < count; at++) {
        sqlite3_bind_int(get, 1, (int)(at % VALUES));
        need(sqlite3_step(get) == SQLITE_ROW, "a get");
        memcpy(bytes, sqlite3_column_blob(get, 0), BLOCK);
        sqlite3_reset(get);
    }
    double got = now();
    for (long at = 0; at < count / 10; at++) {
        bytes[0]++;
        sqlite3_bind_int(put, 1, (int)(at % VALUES));
        sqlite3_bind_blob(put, 2, bytes, BLOCK, SQLITE_STATIC);
        need(sqlite3_step(put) == SQLITE_DONE && sqlite3_reset(put) == 0, "a put");
    }
    printf("read %.3f\nwrite %.3f\n", (got - start) / (double)count, (now() - got) / (double)(count / 10));
    sqlite3_finalize(get);
    sqlite3_finalize(put);
    sqlite3_close(base);
}
#endif

int main(int count, char **words) {
    if (count == 6 && strcmp(words[1], "pipe") == 0) {
        pipe_times(words + 2, atol(words[5]));
        return 0;
    }
#ifdef WITH_LMDB
    if (count == 4 && strcmp(words[1], "lmdb") == 0) {
        lmdb_times(words[2], atol(words[3]));
        return 0;
    }
#endif
#ifdef WITH_SQLITE
    if (count == 4 && strcmp(words[1], "sqlite") == 0) {
        sqlite_times(words[2], atol(words[3]));
        return 0;
    }
#endif
    return 2;
}
