/* Files the positions of a file into a store with the check and into one without it, in turn, and asks menkhodur_key and length of each; the best
 * of the rounds counts, by the clock and in processor time. host/sqlite/speed builds and runs it. */
#define _POSIX_C_SOURCE 200809L
#include <sqlite3.h>
#include <stdio.h>
#include <stdlib.h>
#include <string.h>
#include <time.h>

enum { ROOM = 128, TRANSACTION = 10000, SINGLE = 5000 };

/* Without the check, and as host/sqlite/store.sql has it, which is read. */
static char store[8192];
static const char *const tables[2] = { "CREATE TABLE position (fen TEXT PRIMARY KEY NOT NULL) WITHOUT ROWID", store };
static char *lines;
static unsigned count;

/* Seconds by the clock, and of the processor for this program. */
struct times {
    double clock, processor;
};

static double seconds(clockid_t clock)
{
    struct timespec t;
    clock_gettime(clock, &t);
    return (double)t.tv_sec + (double)t.tv_nsec / 1e9;
}

/* The best so far of what began at `start` and ends now. */
static void end(struct times start, struct times *best)
{
    struct times took = { seconds(CLOCK_MONOTONIC) - start.clock, seconds(CLOCK_PROCESS_CPUTIME_ID) - start.processor };
    if (best->clock == 0 || took.clock < best->clock) best->clock = took.clock;
    if (best->processor == 0 || took.processor < best->processor) best->processor = took.processor;
}

static struct times begin(void)
{
    return (struct times){ seconds(CLOCK_MONOTONIC), seconds(CLOCK_PROCESS_CPUTIME_ID) };
}

static void must(int status, sqlite3 *db)
{
    if (status == SQLITE_OK || status == SQLITE_DONE || status == SQLITE_ROW) return;
    fprintf(stderr, "host/sqlite/speed: %s\n", sqlite3_errmsg(db));
    exit(1);
}

static sqlite3 *open_new(const char *file, const char *extension)
{
    sqlite3 *db;
    remove(file);
    must(sqlite3_open(file, &db), db);
    must(sqlite3_db_config(db, SQLITE_DBCONFIG_ENABLE_LOAD_EXTENSION, 1, NULL), db);
    must(sqlite3_load_extension(db, extension, NULL, NULL), db);
    must(sqlite3_exec(db, "PRAGMA journal_mode = WAL; PRAGMA synchronous = NORMAL; PRAGMA cache_size = -262144", NULL, NULL, NULL), db);
    return db;
}

/* The first lines, so many of them in each transaction. */
static void file_lines(sqlite3 *db, const char *table, unsigned most, unsigned each, struct times *best)
{
    sqlite3_stmt *insert;
    struct times start;
    must(sqlite3_exec(db, table, NULL, NULL, NULL), db);
    start = begin();
    must(sqlite3_prepare_v2(db, "INSERT INTO position VALUES (?) ON CONFLICT DO NOTHING", -1, &insert, NULL), db);
    for (unsigned i = 0; i < most; i++) {
        if (i % each == 0) must(sqlite3_exec(db, "BEGIN", NULL, NULL, NULL), db);
        must(sqlite3_bind_text(insert, 1, lines + (size_t)i * ROOM, -1, SQLITE_STATIC), db);
        must(sqlite3_step(insert), db);
        must(sqlite3_reset(insert), db);
        if (i % each == each - 1 || i == most - 1) must(sqlite3_exec(db, "COMMIT", NULL, NULL, NULL), db);
    }
    end(start, best);
    sqlite3_finalize(insert);
}

/* With the check, each position in a transaction of its own that is on the disk before the next begins. */
static void single(const char *file, const char *extension, struct times *best)
{
    sqlite3 *db = open_new(file, extension);
    must(sqlite3_exec(db, "PRAGMA synchronous = FULL", NULL, NULL, NULL), db);
    file_lines(db, tables[1], count < SINGLE ? count : SINGLE, 1, best);
    sqlite3_close(db);
}

static void ask(sqlite3 *db, const char *query, struct times *best)
{
    struct times start = begin();
    must(sqlite3_exec(db, query, NULL, NULL, NULL), db);
    end(start, best);
}

static void read_lines(const char *file)
{
    FILE *f = fopen(file, "r");
    if (!f) exit((perror(file), 1));
    for (unsigned room = 0; ; count++) {
        if (count == room && !(lines = realloc(lines, (size_t)(room = room ? 2 * room : 1024) * ROOM))) exit(1);
        if (!fgets(lines + (size_t)count * ROOM, ROOM, f)) break;
        lines[(size_t)count * ROOM + strcspn(lines + (size_t)count * ROOM, "\n")] = 0;
    }
    fclose(f);
}

static void read_store(const char *file)
{
    FILE *f = fopen(file, "r");
    if (!f) exit((perror(file), 1));
    store[fread(store, 1, sizeof store - 1, f)] = 0;
    fclose(f);
}

static void tell(const char *by, double without, double with)
{
    printf("%u positions filed, %s: %.3f s without the check, %.3f s with it, %.3f times; %.0f and %.0f a second\n", count, by, without, with,
           with / without, count / without, count / with);
}

int main(int arguments, char **argument)
{
    static const char *const queries[3] = { "SELECT count(length(fen)) FROM position", "SELECT count(menkhodur_key(fen)) FROM position",
                                            "SELECT count(menkhodur_is_key(fen)) FROM position" };
    struct times filed[2] = { 0 }, asked[3] = { 0 }, alone = { 0 };
    if (arguments != 6) return 2;
    read_lines(argument[3]);
    read_store(argument[5]);
    for (int round = 0, rounds = atoi(argument[4]); round < rounds; round++) {
        for (int with = 0; with < 2; with++) {
            sqlite3 *db = open_new(argument[2], argument[1]);
            file_lines(db, tables[with], count, TRANSACTION, &filed[with]);
            for (int q = 0; q < 3 && with; q++) ask(db, queries[q], &asked[q]);
            sqlite3_close(db);
        }
        single(argument[2], argument[1], &alone);
        fprintf(stderr, "host/sqlite/speed: round %d is done\n", round + 1);
    }
    tell("by the clock", filed[0].clock, filed[1].clock);
    tell("processor time", filed[0].processor, filed[1].processor);
    printf("each in a transaction of its own, with the check, by the clock: %.0f a second\n", (count < SINGLE ? count : SINGLE) / alone.clock);
    printf("a row, processor time: length %.0f ns, menkhodur_key %.0f ns, menkhodur_is_key %.0f ns\n", asked[0].processor / count * 1e9,
           asked[1].processor / count * 1e9, asked[2].processor / count * 1e9);
    return 0;
}
