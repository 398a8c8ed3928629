// The statements of single-use Tokenize commands over one file, and how libsqlite3 runs them: each is
// prepared once, and each code that the library gives is looked at.
#include <sqlite3.h>
#include <stdbool.h>
#include <stdint.h>
#include <stdio.h>
#include <stdlib.h>

// How many bytes of pages the log grows by before they are copied into the file.
enum { LOG_BYTES = 24576000 };

enum text {
    BEGIN,
    FIND_LIVES,
    FIND_COUNT,
    FIND_RIGHT,
    FIND_RECORD,
    FIND_ENTRY,
    FIND_CARD,
    SET_COUNT,
    ADD_CARD,
    SET_USES,
    ADD_ENTRY,
    ADD_RECORD,
    COMMIT,
    TEXTS
};

static const char *const texts[TEXTS] = {
    [BEGIN] = "BEGIN",
    [FIND_LIVES] = "SELECT single_life, multi_life, moment, lead_digits FROM merchants3 WHERE name = ?1",
    [FIND_COUNT] = "SELECT total, rowid FROM counts WHERE merchant = ?1 AND kind = ?2",
    [FIND_RIGHT] = "SELECT ends FROM rights4 WHERE caller = ?1 AND merchant = ?2 AND what = ?3",
    [FIND_RECORD] = "SELECT merchant, token, usage FROM records WHERE caller = ?1 AND request = ?2",
    [FIND_ENTRY] = "SELECT card, usage, birth, expires, revoked FROM entries2 "
                   "WHERE merchant = ?1 AND token = ?2",
    [FIND_CARD] = "SELECT id, uses FROM cards2 WHERE merchant = ?1 AND number = ?2",
    [SET_COUNT] = "UPDATE counts SET total = ?3 WHERE rowid = ?4 AND merchant = ?1 AND kind = ?2",
    [ADD_CARD] = "INSERT OR IGNORE INTO cards2 VALUES (NULL, ?1, ?2, 1)",
    [SET_USES] = "UPDATE cards2 SET uses = ?2 WHERE id = ?1",
    [ADD_ENTRY] = "INSERT INTO entries2 VALUES (?1, ?2, ?3, ?4, ?5, ?6, ?7)",
    [ADD_RECORD] = "INSERT INTO records VALUES (?1, ?2, ?3, ?4, ?5)",
    [COMMIT] = "COMMIT",
};

// The file, and its statements.
static sqlite3 *conn;
static sqlite3_stmt *statements[TEXTS];

// Ends the program.
static void fail(const char *why)
{
    fprintf(stderr, "same: %s\n", why);
    exit(1);
}

// Ends the program where the library gave another code than this.
static void want(int code, int wanted)
{
    if (code != wanted)
        fail(conn != NULL ? sqlite3_errmsg(conn) : sqlite3_errstr(code));
}

// Ends the program where this isn't so.
static void need(bool is_so, const char *otherwise)
{
    if (!is_so)
        fail(otherwise);
}

static void put_text(enum text which, int place, const char *value)
{
    want(sqlite3_bind_text(statements[which], place, value, -1, SQLITE_STATIC), SQLITE_OK);
}

static void put_number(enum text which, int place, int64_t value)
{
    want(sqlite3_bind_int64(statements[which], place, value), SQLITE_OK);
}

static int64_t number_in(enum text which, int column)
{
    return sqlite3_column_int64(statements[which], column);
}

// Goes on to the next row, and says whether there is one; behind the last one the statement may run again.
static bool next_row(enum text which)
{
    int code = sqlite3_step(statements[which]);
    if (code == SQLITE_ROW)
        return true;
    want(code, SQLITE_DONE);
    want(sqlite3_reset(statements[which]), SQLITE_OK);
    return false;
}

// Runs a statement that shows no row.
static void run(enum text which)
{
    need(!next_row(which), "a row where none was awaited");
}

// The number in the only row of a pragma, which may show none.
static int64_t pragma(const char *text)
{
    sqlite3_stmt *asked;
    int64_t found = 0;
    want(sqlite3_prepare_v2(conn, text, -1, &asked, NULL), SQLITE_OK);
    int code = sqlite3_step(asked);
    if (code == SQLITE_ROW) {
        found = sqlite3_column_int64(asked, 0);
        code = sqlite3_step(asked);
    }
    want(code, SQLITE_DONE);
    want(sqlite3_finalize(asked), SQLITE_OK);
    return found;
}

// Opens the file as the vault has it: a log, a sync at each commit, as much in memory, and as long a log.
static void open_file(const char *path)
{
    char text[64];
    want(sqlite3_open_v2(path, &conn, SQLITE_OPEN_READWRITE, NULL), SQLITE_OK);
    pragma("PRAGMA journal_mode = WAL");
    pragma("PRAGMA synchronous = FULL");
    pragma("PRAGMA locking_mode = EXCLUSIVE");
    pragma("PRAGMA cache_size = -16384");
    int64_t page = pragma("PRAGMA page_size");
    need(page >= 512, "no page size");
    snprintf(text, sizeof text, "PRAGMA wal_autocheckpoint = %d", (int)(LOG_BYTES / page));
    pragma(text);
    for (int which = 0; which < TEXTS; which++) {
        sqlite3_stmt **made = &statements[which];
        want(sqlite3_prepare_v3(conn, texts[which], -1, SQLITE_PREPARE_PERSISTENT, made, NULL), SQLITE_OK);
    }
}

static void close_file(void)
{
    for (int which = 0; which < TEXTS; which++)
        want(sqlite3_finalize(statements[which]), SQLITE_OK);
    want(sqlite3_close(conn), SQLITE_OK);
}
