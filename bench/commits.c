/* What `fdbrec apply --store sql --db FILE` does for the script of bench/commits, over the C library of SQLite: the
 * same tables and statements, one transaction a batch, a line for each that is flushed before the next one. FULL and a
 * write-ahead log: each commit syncs the log. */
#include <sqlite3.h>
#include <stdio.h>
#include <stdlib.h>
#include <string.h>

static sqlite3 *db;

static void done(int answer, int wanted) {
    if (answer == wanted) return;
    fprintf(stderr, "commits: %s\n", sqlite3_errmsg(db));
    exit(1);
}

static void run(const char *text) { done(sqlite3_exec(db, text, NULL, NULL, NULL), SQLITE_OK); }

static sqlite3_stmt *made(const char *text) {
    sqlite3_stmt *it = NULL;
    done(sqlite3_prepare_v3(db, text, -1, SQLITE_PREPARE_PERSISTENT, &it, NULL), SQLITE_OK);
    return it;
}

static void step(sqlite3_stmt *it) {
    done(sqlite3_step(it), SQLITE_DONE);
    done(sqlite3_reset(it), SQLITE_OK);
}

static void number(unsigned char *to, int size, unsigned long long it) {
    for (int i = size - 1; i >= 0; i--, it >>= 8) to[i] = it & 255;
}

int main(int count, char **words) {
    if (count != 4) return 2;
    unsigned long long commits = strtoull(words[2], NULL, 10), keys = strtoull(words[3], NULL, 10);
    done(sqlite3_open(words[1], &db), SQLITE_OK);
    run("PRAGMA locking_mode = EXCLUSIVE; PRAGMA journal_mode = WAL; PRAGMA synchronous = FULL");
    run("BEGIN");
    run("CREATE TABLE kv (k BLOB PRIMARY KEY NOT NULL, v BLOB NOT NULL) STRICT");
    run("CREATE TABLE undo (ver INTEGER NOT NULL, k BLOB NOT NULL, before BLOB, PRIMARY KEY (ver, k)) STRICT");
    run("CREATE TABLE meta (id INTEGER PRIMARY KEY CHECK (id = 1), applied INTEGER NOT NULL, floor INTEGER NOT NULL,"
        " state BLOB NOT NULL) STRICT");
    run("INSERT INTO meta VALUES (1, 0, 0, x'')");
    run("COMMIT");
    sqlite3_stmt *begin = made("BEGIN"), *commit = made("COMMIT");
    sqlite3_stmt *find = made("SELECT v FROM kv WHERE k = ?1");
    sqlite3_stmt *keep = made("INSERT INTO undo VALUES (?1, ?2, ?3)");
    sqlite3_stmt *insert = made("INSERT INTO kv VALUES (?1, ?2)"), *update = made("UPDATE kv SET v = ?2 WHERE k = ?1");
    sqlite3_stmt *stand = made("UPDATE meta SET applied = ?1, floor = ?2");
    for (unsigned long long version = 1; version <= commits; version++) {
        unsigned char key[4], value[8], before[8];
        int is_there, size = 0;
        number(key, 4, version * 7919 % keys);
        number(value, 8, version);
        step(begin);
        sqlite3_bind_blob(find, 1, key, 4, SQLITE_STATIC);
        is_there = sqlite3_step(find) == SQLITE_ROW;
        if (is_there) {
            size = sqlite3_column_bytes(find, 0);
            memcpy(before, sqlite3_column_blob(find, 0), size < 8 ? size : 8);
        }
        done(sqlite3_reset(find), SQLITE_OK);
        sqlite3_bind_int64(keep, 1, (sqlite3_int64)version);
        sqlite3_bind_blob(keep, 2, key, 4, SQLITE_STATIC);
        if (is_there) sqlite3_bind_blob(keep, 3, before, size, SQLITE_STATIC);
        else sqlite3_bind_null(keep, 3);
        step(keep);
        sqlite3_stmt *put = is_there ? update : insert;
        sqlite3_bind_blob(put, 1, key, 4, SQLITE_STATIC);
        sqlite3_bind_blob(put, 2, value, 8, SQLITE_STATIC);
        step(put);
        sqlite3_bind_int64(stand, 1, (sqlite3_int64)version);
        sqlite3_bind_int64(stand, 2, 0);
        step(stand);
        step(commit);
        printf("ok %llu floor 0 undo %llu\n", version, version);
        fflush(stdout);
    }
    sqlite3_stmt *all[] = {begin, commit, find, keep, insert, update, stand};
    for (int i = 0; i < 7; i++) sqlite3_finalize(all[i]);
    sqlite3_stmt *rows = made("SELECT k, v FROM kv ORDER BY k");
    while (sqlite3_step(rows) == SQLITE_ROW) {
        for (int column = 0; column < 2; column++) {
            const unsigned char *it = sqlite3_column_blob(rows, column);
            for (int i = 0; i < sqlite3_column_bytes(rows, column); i++) printf("%02x", it[i]);
            printf(column ? "\n" : " ");
        }
    }
    sqlite3_finalize(rows);
    done(sqlite3_close(db), SQLITE_OK);
    return 0;
}
