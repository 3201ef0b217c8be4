/* The peer of queues, indexes, data spaces and units: a database of SQLite, in memory but where a file is named, by prepared
   statements on one connection, in one transaction but where it says otherwise. It prints seconds and the library's version.
   peer_sqlite traffic PAIRS        so many puts, each followed by a take. A put inserts a message; a take selects the
                                    oldest message and deletes it.
   peer_sqlite keyed COUNT PAIRS    the same by keys, where COUNT messages stay in the queue: a put inserts a message
                                    with a key; a take selects the oldest message of the least key that is not below it.
   peer_sqlite pairs COUNT PAIRS    inserts a new entry into a table of COUNT entries, and deletes it again, so often.
   peer_sqlite find COUNT FINDS     selects an entry of a table of COUNT entries, so often.
   peer_sqlite insert COUNT         inserts so many rows of 32 bytes into a table by row number; `update` updates each of them
                                    by its number, `read` selects all in their order, and `step` each by its number.
   peer_sqlite commit COUNT         updates a row in so many transactions, each of which is committed; `decommit` rolls
                                    each of them back.
   peer_sqlite rollback COUNT FILE  the same in a new file, each committed and forced to the disk, with a rollback journal;
   peer_sqlite wal COUNT FILE       with a log that is written ahead.
   peer_sqlite demo COUNT           reads a total, adds to it, and updates it, in so many transactions, each committed. */
#include <sqlite3.h>
#include <stdio.h>
#include <stdlib.h>
#include <string.h>
#include <time.h>

static sqlite3 *db;

static void need(int is_good, const char *what)
{
    if (!is_good) {
        fprintf(stderr, "peer_sqlite: %s: %s\n", what, db ? sqlite3_errmsg(db) : "");
        exit(1);
    }
}

static sqlite3_stmt *prepared(const char *text)
{
    sqlite3_stmt *statement;
    need(sqlite3_prepare_v2(db, text, -1, &statement, NULL) == SQLITE_OK, text);
    return statement;
}

static void once(const char *text)
{
    need(sqlite3_exec(db, text, NULL, NULL, NULL) == SQLITE_OK, text);
}

static double now(void)
{
    struct timespec at;
    clock_gettime(CLOCK_MONOTONIC, &at);
    return (double)at.tv_sec + (double)at.tv_nsec / 1e9;
}

static void done(sqlite3_stmt *statement)
{
    need(sqlite3_step(statement) == SQLITE_DONE, "step");
    sqlite3_reset(statement);
}

static const char message[3] = {'\xC1', '\xC2', '\xC3'};

/* Takes the message that a statement selects: its number, and its bytes. */
static void take(sqlite3_stmt *chosen, sqlite3_stmt *removal)
{
    char taken[sizeof message];
    need(sqlite3_step(chosen) == SQLITE_ROW, "a message");
    sqlite3_int64 id = sqlite3_column_int64(chosen, 0);
    const void *bytes = sqlite3_column_blob(chosen, 1);
    need(bytes != NULL && sqlite3_column_bytes(chosen, 1) == (int)sizeof taken, "message");
    memcpy(taken, bytes, sizeof taken);
    need(memcmp(taken, message, sizeof message) == 0, "message");
    sqlite3_reset(chosen);
    need(sqlite3_bind_int64(removal, 1, id) == SQLITE_OK, "bind");
    done(removal);
}

/* The key of a message, or an entry: five digits. With `behind` it has a letter more, so it stands behind the other. */
static void bind_key(sqlite3_stmt *statement, long number, int behind)
{
    char key[7];
    snprintf(key, sizeof key, "%05dA", (int)(number % 100000));
    need(sqlite3_bind_blob(statement, 1, key, 5 + behind, SQLITE_TRANSIENT) == SQLITE_OK, "bind");
}

static double traffic(long pairs)
{
    once("create table queue (id integer primary key, message blob)");
    sqlite3_stmt *put = prepared("insert into queue (message) values (?)");
    sqlite3_stmt *oldest = prepared("select id, message from queue order by id limit 1");
    sqlite3_stmt *removal = prepared("delete from queue where id = ?");
    once("begin");
    double begun = now();
    for (long k = 0; k < pairs; k++) {
        need(sqlite3_bind_blob(put, 1, message, sizeof message, SQLITE_STATIC) == SQLITE_OK, "bind");
        done(put);
        take(oldest, removal);
    }
    once("commit");
    return now() - begun;
}

static double keyed(long count, long pairs)
{
    once("create table queue (id integer primary key, key blob, message blob)");
    once("create index by_key on queue (key, id)");
    sqlite3_stmt *put = prepared("insert into queue (key, message) values (?, ?)");
    sqlite3_stmt *least = prepared("select id, message from queue where key >= ? order by key, id limit 1");
    sqlite3_stmt *removal = prepared("delete from queue where id = ?");
    need(sqlite3_bind_blob(put, 2, message, sizeof message, SQLITE_STATIC) == SQLITE_OK, "bind");
    once("begin");
    for (long k = 0; k < count; k++) {
        bind_key(put, k, 0);
        done(put);
    }
    double begun = now();
    for (long k = 0; k < pairs; k++) {
        bind_key(put, k * 7919 % count, 0);
        done(put);
        bind_key(least, k * 7919 % count, 0);
        take(least, removal);
    }
    once("commit");
    return now() - begun;
}

/* A table of the entries 0, 1 and so on. */
static void entries(long count)
{
    once("create table entries (entry blob primary key) without rowid");
    sqlite3_stmt *insertion = prepared("insert into entries values (?)");
    once("begin");
    for (long k = 0; k < count; k++) {
        bind_key(insertion, k, 0);
        done(insertion);
    }
    sqlite3_finalize(insertion);
}

static double insertions(long count, long pairs)
{
    entries(count);
    sqlite3_stmt *insertion = prepared("insert into entries values (?)");
    sqlite3_stmt *removal = prepared("delete from entries where entry = ?");
    double begun = now();
    for (long k = 0; k < pairs; k++) {
        bind_key(insertion, k * 7919 % count, 1);
        done(insertion);
        bind_key(removal, k * 7919 % count, 1);
        done(removal);
    }
    once("commit");
    return now() - begun;
}

static double finds(long count, long number)
{
    entries(count);
    sqlite3_stmt *search = prepared("select entry from entries where entry = ?");
    double begun = now();
    for (long k = 0; k < number; k++) {
        bind_key(search, k * 7919 % count, 0);
        need(sqlite3_step(search) == SQLITE_ROW && sqlite3_column_bytes(search, 0) == 5, "an entry");
        sqlite3_reset(search);
    }
    once("commit");
    return now() - begun;
}

static const char record[32] = "01234567890123456789012345678901";

/* A table of so many rows, and how long they took. */
static double inserted_rows(long count)
{
    once("create table records (id integer primary key, entry blob)");
    sqlite3_stmt *insertion = prepared("insert into records (entry) values (?)");
    once("begin");
    double begun = now();
    for (long k = 0; k < count; k++) {
        need(sqlite3_bind_blob(insertion, 1, record, sizeof record, SQLITE_STATIC) == SQLITE_OK, "bind");
        done(insertion);
    }
    return now() - begun;
}

/* Another entry of 32 bytes each time: SQLite does not write a row that stays as it was. */
static void bind_other(sqlite3_stmt *update, long number)
{
    char other[sizeof record];
    memcpy(other, record, sizeof record);
    for (int at = 0; at < 8; at++, number /= 10)
        other[at] = (char)('A' + number % 10);
    need(sqlite3_bind_blob(update, 1, other, sizeof other, SQLITE_TRANSIENT) == SQLITE_OK, "bind");
}

static double updated_rows(long count)
{
    inserted_rows(count);
    sqlite3_stmt *update = prepared("update records set entry = ? where id = ?");
    double begun = now();
    for (long k = 1; k <= count; k++) {
        bind_other(update, k);
        need(sqlite3_bind_int64(update, 2, k) == SQLITE_OK, "bind");
        done(update);
    }
    once("commit");
    return now() - begun;
}

static double read_rows(long count)
{
    inserted_rows(count);
    sqlite3_stmt *all = prepared("select entry from records order by id");
    char entry[sizeof record];
    double begun = now();
    for (long k = 0; k < count; k++) {
        need(sqlite3_step(all) == SQLITE_ROW && sqlite3_column_bytes(all, 0) == (int)sizeof entry, "a row");
        memcpy(entry, sqlite3_column_blob(all, 0), sizeof entry);
        need(memcmp(entry, record, sizeof record) == 0, "a row");
    }
    sqlite3_reset(all);
    once("commit");
    return now() - begun;
}

static double stepped_rows(long count)
{
    inserted_rows(count);
    sqlite3_stmt *one = prepared("select entry from records where id = ?");
    char entry[sizeof record];
    double begun = now();
    for (long k = 1; k <= count; k++) {
        need(sqlite3_bind_int64(one, 1, k) == SQLITE_OK, "bind");
        need(sqlite3_step(one) == SQLITE_ROW && sqlite3_column_bytes(one, 0) == (int)sizeof entry, "a row");
        memcpy(entry, sqlite3_column_blob(one, 0), sizeof entry);
        need(memcmp(entry, record, sizeof record) == 0, "a row");
        sqlite3_reset(one);
    }
    once("commit");
    return now() - begun;
}

/* A row that is updated in so many transactions, each of which ends so. */
static double transactions(long count, const char *end)
{
    inserted_rows(1);
    once("commit");
    sqlite3_stmt *beginning = prepared("begin");
    sqlite3_stmt *ending = prepared(end);
    sqlite3_stmt *update = prepared("update records set entry = ? where id = 1");
    double begun = now();
    for (long k = 0; k < count; k++) {
        done(beginning);
        bind_other(update, k);
        done(update);
        done(ending);
    }
    return now() - begun;
}

/* The same in a file, where each commit is forced to the disk. */
static double forced(long count, const char *mode)
{
    once(mode);
    once("pragma synchronous=full");
    return transactions(count, "commit");
}

/* A total to which so many transactions add, each what the job of its number adds. */
static double totals(long count)
{
    once("create table totals (id integer primary key, total integer)");
    once("insert into totals (total) values (0)");
    sqlite3_stmt *beginning = prepared("begin");
    sqlite3_stmt *ending = prepared("commit");
    sqlite3_stmt *reading = prepared("select total from totals where id = 1");
    sqlite3_stmt *update = prepared("update totals set total = ? where id = 1");
    double begun = now();
    for (long k = 1; k <= count; k++) {
        done(beginning);
        need(sqlite3_step(reading) == SQLITE_ROW, "a total");
        sqlite3_int64 total = sqlite3_column_int64(reading, 0) + 7 * k % 100 + 1;
        sqlite3_reset(reading);
        need(sqlite3_bind_int64(update, 1, total) == SQLITE_OK, "bind");
        done(update);
        done(ending);
    }
    return now() - begun;
}

int main(int argc, char **argv)
{
    const char *what = argc > 2 ? argv[1] : "";
    int on_file = strcmp(what, "rollback") == 0 || strcmp(what, "wal") == 0;
    long first = argc > 2 ? atol(argv[2]) : 0, second = argc > 3 && !on_file ? atol(argv[3]) : 0;
    double taken = 0;
    need(first > 0 && first <= 100000000 && (on_file ? argc == 4 : second > 0 || argc == 3), "a part and its numbers are wanted");
    need(sqlite3_open(on_file ? argv[3] : ":memory:", &db) == SQLITE_OK, "open");
    if (strcmp(what, "traffic") == 0)
        taken = traffic(first);
    else if (strcmp(what, "keyed") == 0)
        taken = keyed(first, second);
    else if (strcmp(what, "pairs") == 0)
        taken = insertions(first, second);
    else if (strcmp(what, "find") == 0)
        taken = finds(first, second);
    else if (strcmp(what, "insert") == 0)
        taken = inserted_rows(first);
    else if (strcmp(what, "update") == 0)
        taken = updated_rows(first);
    else if (strcmp(what, "read") == 0)
        taken = read_rows(first);
    else if (strcmp(what, "step") == 0)
        taken = stepped_rows(first);
    else if (strcmp(what, "rollback") == 0)
        taken = forced(first, "pragma journal_mode=delete");
    else if (strcmp(what, "wal") == 0)
        taken = forced(first, "pragma journal_mode=wal");
    else if (strcmp(what, "commit") == 0)
        taken = transactions(first, "commit");
    else if (strcmp(what, "decommit") == 0)
        taken = transactions(first, "rollback");
    else if (strcmp(what, "demo") == 0)
        taken = totals(first);
    else
        need(0, "no such part");
    printf("%.6f %s\n", taken, sqlite3_libversion());
    return 0;
}
