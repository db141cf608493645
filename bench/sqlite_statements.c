/* Runs statements on a database file by C SQLite, for tables_speed.py: each is prepared once, and run to its end.
 *
 * usage: sqlite_statements DB < SCRIPT
 *
 * A line of the script is
 *   t TEXT         the text of the next statement, numbered from 0 on;
 *   r N VALUE ..   a run of statement N with these values: numbers, texts behind a ', and - for null;
 *   .              the end of a command: a line is written, so that whoever reads it sees when.
 */
#include <sqlite3.h>
#include <stdio.h>
#include <stdlib.h>
#include <string.h>
#include <unistd.h>

static sqlite3 *db;
static sqlite3_stmt *statements[64];

static void must(int ok, const char *what)
{
    if (!ok) {
        fprintf(stderr, "%s: %s\n", what, db ? sqlite3_errmsg(db) : "no database");
        exit(1);
    }
}

static void bind(sqlite3_stmt *statement, int at, const char *value)
{
    int done;
    if (!strcmp(value, "-"))
        done = sqlite3_bind_null(statement, at);
    else if (value[0] == '\'')
        done = sqlite3_bind_text(statement, at, value + 1, -1, SQLITE_TRANSIENT);
    else
        done = sqlite3_bind_int64(statement, at, strtoll(value, NULL, 10));
    must(done == SQLITE_OK, "bind");
}

static void run(char *words)
{
    sqlite3_stmt *statement = statements[atoi(strtok(words, " "))];
    int at = 0, step;
    for (char *value; (value = strtok(NULL, " "));)
        bind(statement, ++at, value);
    while ((step = sqlite3_step(statement)) == SQLITE_ROW)
        ;
    must(step == SQLITE_DONE, sqlite3_sql(statement));
    sqlite3_reset(statement);
}

int main(int count, char **words)
{
    static const char settings[] = "PRAGMA journal_mode = WAL; PRAGMA synchronous = FULL; PRAGMA foreign_keys = ON";
    static char line[4096];
    int prepared = 0;
    must(count == 2 && sqlite3_open(words[1], &db) == SQLITE_OK, "open");
    must(sqlite3_exec(db, settings, NULL, NULL, NULL) == SQLITE_OK, settings);
    while (fgets(line, sizeof line, stdin)) {
        line[strcspn(line, "\n")] = 0;
        if (line[0] == 't') {
            must(prepared < 64, "too many statements");
            must(sqlite3_prepare_v2(db, line + 2, -1, &statements[prepared], NULL) == SQLITE_OK, line);
            prepared++;
        } else if (line[0] == 'r') {
            run(line + 2);
        } else {
            must(write(1, ".\n", 2) == 2, "write");
        }
    }
    for (int at = 0; at < prepared; at++)
        sqlite3_finalize(statements[at]);
    return sqlite3_close(db) == SQLITE_OK ? 0 : 1;
}
