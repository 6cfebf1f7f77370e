/* What the statements of a chair's request cost over SQLite itself, for bench/chair --sqlite.

   Reads the rows that a request of a chair asks for whom many members named: the appointments that name it, and of each member
   who gave one its register entry, its appointments and its endings. "each" asks three statements a member, as the desk does,
   each prepared once; "join" asks one statement for all; "none" opens the file alone. Each value is copied once.

   gcc -O2 -o chair-sqlite bench/chair-sqlite.c -lsqlite3          (the packages gcc and libsqlite3-dev of Debian) */
#include <sqlite3.h>
#include <stdio.h>
#include <stdlib.h>
#include <string.h>

#define APPOINTMENT "SELECT meeting, member, number, proxy, first, last, instructions, moment FROM appointments WHERE meeting = 'G1' AND "

static const char *const NAMING = APPOINTMENT "proxy = ?1 ORDER BY seq";
static const char *const OF_MEMBER[] = {
    "SELECT meeting, member, kind, name, shares, paid FROM register WHERE meeting = 'G1' AND member = ?1 ORDER BY rowid",
    APPOINTMENT "member = ?1 ORDER BY seq",
    "SELECT meeting, member, number, moment FROM endings WHERE meeting = 'G1' AND member = ?1 ORDER BY seq",
};
static const char *const JOINED =
    "SELECT a.member, a.number, a.first, a.last, a.instructions, a.moment, r.kind, r.name, r.shares, r.paid,"
    " b.number, b.proxy, b.first, b.last, b.instructions, b.moment, e.moment FROM appointments a"
    " LEFT JOIN register r ON r.meeting = a.meeting AND r.member = a.member"
    " LEFT JOIN appointments b ON b.meeting = a.meeting AND b.member = a.member"
    " LEFT JOIN endings e ON e.meeting = b.meeting AND e.member = b.member AND e.number = b.number"
    " WHERE a.meeting = 'G1' AND a.proxy = ?1 ORDER BY a.seq, b.seq";

static sqlite3 *tables;

static void stop(const char *why) {
    fprintf(stderr, "chair-sqlite: %s\n", why);
    exit(1);
}

static sqlite3_stmt *prepared(const char *text) {
    sqlite3_stmt *made;
    if (sqlite3_prepare_v2(tables, text, -1, &made, NULL) != SQLITE_OK) stop(sqlite3_errmsg(tables));
    return made;
}

/* Copies each value of a row, and frees the copy. */
static void take_row(sqlite3_stmt *row) {
    for (int column = 0; column < sqlite3_column_count(row); column++) {
        if (sqlite3_column_type(row, column) == SQLITE_TEXT) {
            char *copy = strdup((const char *)sqlite3_column_text(row, column));
            if (!copy) stop("no memory");
            free(copy);
        } else {
            sqlite3_column_int64(row, column);
        }
    }
}

/* Asks a statement by one name. Where `names` is there, the members of the rows are kept in it. Gives the number of rows. */
static size_t ask(sqlite3_stmt *asked, const char *name, char (*names)[17]) {
    size_t rows = 0;
    sqlite3_bind_text(asked, 1, name, -1, SQLITE_STATIC);
    for (; sqlite3_step(asked) == SQLITE_ROW; rows++) {
        take_row(asked);
        if (names) snprintf(names[rows], sizeof names[rows], "%s", sqlite3_column_text(asked, 1));
    }
    sqlite3_reset(asked);
    return rows;
}

int main(int count, char **words) {
    static char names[20000][17];
    if (count != 3) stop("a desk's file, and none, each or join");
    if (sqlite3_open_v2(words[1], &tables, SQLITE_OPEN_READWRITE, NULL) != SQLITE_OK) stop(sqlite3_errmsg(tables));
    sqlite3_exec(tables, "BEGIN", NULL, NULL, NULL);
    if (!strcmp(words[2], "each")) {
        sqlite3_stmt *of_member[3];
        for (int which = 0; which < 3; which++) of_member[which] = prepared(OF_MEMBER[which]);
        size_t named = ask(prepared(NAMING), "CHAIR", names);
        for (size_t member = 0; member < named; member++)
            for (int which = 0; which < 3; which++) ask(of_member[which], names[member], NULL);
    } else if (!strcmp(words[2], "join")) {
        ask(prepared(JOINED), "CHAIR", NULL);
    }
    sqlite3_exec(tables, "COMMIT", NULL, NULL, NULL);
    return 0;
}
