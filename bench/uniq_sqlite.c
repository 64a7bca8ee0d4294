/* Each line of standard input the first time it comes, by a table of SQLite in a file, with so many KiB of cache: what far_uniq is measured beside.
   cc -O2 uniq_sqlite.c -lsqlite3 -o uniq_sqlite; uniq_sqlite FILE KIB <INPUT */
#include <sqlite3.h>
#include <stdio.h>
#include <stdlib.h>

int main(int count, char **words) {
    if (count != 3) return 2;
    sqlite3 *base;
    sqlite3_stmt *put;
    char text[256];
    remove(words[1]);
    if (sqlite3_open(words[1], &base)) return 1;
    snprintf(text, sizeof text, "PRAGMA journal_mode=OFF; PRAGMA synchronous=OFF; PRAGMA locking_mode=EXCLUSIVE; PRAGMA cache_size=-%s; CREATE TABLE lines(line BLOB PRIMARY KEY) WITHOUT ROWID; BEGIN", words[2]);
    if (sqlite3_exec(base, text, 0, 0, 0)) return 1;
    if (sqlite3_prepare_v2(base, "INSERT OR IGNORE INTO lines VALUES(?)", -1, &put, 0)) return 1;
    char *line = 0;
    size_t room = 0;
    for (ssize_t len; (len = getline(&line, &room, stdin)) > 0;) {
        if (line[len - 1] == '\n') len--;
        sqlite3_bind_blob(put, 1, line, (int)len, SQLITE_STATIC);
        if (sqlite3_step(put) != SQLITE_DONE) return 1;
        if (sqlite3_changes(base)) fwrite(line, 1, len, stdout), putchar('\n');
        sqlite3_reset(put);
    }
    remove(words[1]);
    return 0;
}
