/* Each line of standard input the first time it comes, by LMDB in a file of at most so many MiB, in one transaction, without syncs: what far_uniq is
   measured beside. A line has at most 511 bytes. cc -O2 uniq_lmdb.c -llmdb -o uniq_lmdb; uniq_lmdb FILE MIB <INPUT */
#include <lmdb.h>
#include <stdio.h>
#include <stdlib.h>

int main(int count, char **words) {
    MDB_env *base;
    MDB_txn *all;
    MDB_dbi lines;
    if (count != 3) return 2;
    remove(words[1]);
    if (mdb_env_create(&base) || mdb_env_set_mapsize(base, (size_t)atol(words[2]) << 20)) return 1;
    if (mdb_env_open(base, words[1], MDB_NOSUBDIR | MDB_NOSYNC | MDB_NOLOCK | MDB_WRITEMAP, 0600)) return 1;
    if (mdb_txn_begin(base, NULL, 0, &all) || mdb_dbi_open(all, NULL, 0, &lines)) return 1;
    char *line = NULL;
    size_t room = 0;
    for (ssize_t len; (len = getline(&line, &room, stdin)) > 0;) {
        if (line[len - 1] == '\n') len--;
        MDB_val key = {(size_t)len, line}, value = {0, ""};
        int was = mdb_put(all, lines, &key, &value, MDB_NOOVERWRITE);
        if (was == 0) fwrite(line, 1, (size_t)len, stdout), putchar('\n');
        if (was != 0 && was != MDB_KEYEXIST) return 1;
    }
    mdb_txn_abort(all);
    remove(words[1]);
    return 0;
}
