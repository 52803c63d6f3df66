/* Does the work of a workload in SQLite, from C and in memory: a floor for the systems that have procedures.
 *
 *     sqlite HOW WORK ROWS COLUMNS ROW SUMS STATEMENT [OTHER]
 *
 * Makes a table t, unless COLUMNS is empty, fills it with the values ROW for ?1 from 1 to ROWS, and prints the seconds before and after
 * the work. The work is what HOW says:
 *
 *     each   STATEMENT for ?1 from 1 to WORK, with WORK as ?2
 *     or     the same, and OTHER where it fails
 *     undo   the same under a savepoint, to which it rolls back
 *     once   STATEMENT once, with WORK as ?1
 *     sent   the statements of the file STATEMENT, a line each, compiled one by one
 *
 * Last come the sum of the first column of all rows that were read, or for `undo` the number of times, and the row of SUMS, if it is a
 * statement.
 */
#include <sqlite3.h>
#include <stdio.h>
#include <stdlib.h>
#include <string.h>
#include <time.h>

static sqlite3 *db;

static void fail(const char *what) {
    fprintf(stderr, "%s: %s\n", what, sqlite3_errmsg(db));
    exit(1);
}

static void execute(const char *text) {
    if (sqlite3_exec(db, text, NULL, NULL, NULL) != SQLITE_OK) fail(text);
}

static sqlite3_stmt *prepare(const char *text) {
    sqlite3_stmt *made = NULL;
    if (sqlite3_prepare_v2(db, text, -1, &made, NULL) != SQLITE_OK) fail(text);
    return made;
}

/* Runs the statement with i and n, adds the first column of its rows to the sum, and returns whether it succeeded. */
static int run(sqlite3_stmt *it, long i, long n, long long *sum) {
    int status;
    sqlite3_bind_int64(it, 1, i);
    if (sqlite3_bind_parameter_count(it) > 1) sqlite3_bind_int64(it, 2, n);
    while ((status = sqlite3_step(it)) == SQLITE_ROW) *sum += sqlite3_column_int64(it, 0);
    sqlite3_reset(it);
    return status == SQLITE_DONE;
}

static void mark(const char *word) {
    struct timespec now;
    clock_gettime(CLOCK_MONOTONIC, &now);
    printf("%s %.6f\n", word, now.tv_sec + now.tv_nsec / 1e9);
}

static long long each(const char *how, long work, sqlite3_stmt *it, sqlite3_stmt *other) {
    sqlite3_stmt *save = prepare("SAVEPOINT u"), *undo = prepare("ROLLBACK TO u"), *release = prepare("RELEASE u");
    int is_undone = strcmp(how, "undo") == 0;
    long long sum = 0;
    for (long i = 1; i <= work; i++) {
        if (is_undone) run(save, 0, 0, &sum);
        if (!run(it, i, work, &sum) && !(other && run(other, i, work, &sum))) fail("the work");
        if (is_undone) {
            run(undo, 0, 0, &sum);
            run(release, 0, 0, &sum);
            sum++;
        }
    }
    return sum;
}

static void sent(const char *path) {
    char line[512];
    FILE *file = fopen(path, "r");
    if (!file) fail(path);
    while (fgets(line, sizeof line, file)) execute(line);
    fclose(file);
}

static void fill(const char *columns, const char *row, long rows) {
    char text[512];
    long long sum = 0;
    snprintf(text, sizeof text, "CREATE TABLE t (%s)", columns);
    execute(text);
    if (!rows) return;
    snprintf(text, sizeof text, "INSERT INTO t VALUES (%s)", row);
    sqlite3_stmt *put = prepare(text);
    execute("BEGIN");
    for (long i = 1; i <= rows; i++) run(put, i, rows, &sum);
    execute("COMMIT");
}

int main(int count, char **words) {
    if (count < 8) return 2;
    const char *how = words[1], *sums = words[6];
    long work = atol(words[2]);
    long long sum = 0;
    if (sqlite3_open(":memory:", &db) != SQLITE_OK) fail("open");
    if (*words[4]) fill(words[4], words[5], atol(words[3]));
    execute("BEGIN");
    sqlite3_stmt *it = strcmp(how, "sent") ? prepare(words[7]) : NULL, *other = count > 8 ? prepare(words[8]) : NULL;
    mark("START");
    if (!it) sent(words[7]);
    else if (strcmp(how, "once") == 0) run(it, work, work, &sum);
    else sum = each(how, work, it, other);
    mark("END");
    if (it) printf("%lld\n", sum);
    if (*sums) {
        sqlite3_stmt *row = prepare(sums);
        if (sqlite3_step(row) != SQLITE_ROW) fail(sums);
        printf("%s %s\n", (const char *)sqlite3_column_text(row, 0), (const char *)sqlite3_column_text(row, 1));
    }
    return 0;
}
