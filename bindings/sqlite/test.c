/* The extension within a program: that each statement below gives what is wanted, and that refused memory is told and none is
 * lost: test. */
#include <sqlite3.h>
#include <stdio.h>
#include <stdlib.h>
#include <string.h>

#include "jsonpath.h"

/* As SQLite declares the entry of an extension. */
int sqlite3_jsonpath_init(sqlite3 *database, char **error, const struct sqlite3_api_routines *routines);

#define ROOM 4096

static int failures;

/* How many requests for memory are granted, of those that the library and SQLite make. The linker puts these in the place of the
 * library's malloc and realloc (--wrap). */
static size_t granted = SIZE_MAX;
void *__real_malloc(size_t), *__real_realloc(void *, size_t);
void *__wrap_malloc(size_t length) {
    return granted && granted-- ? __real_malloc(length) : NULL;
}
void *__wrap_realloc(void *memory, size_t length) {
    return granted && granted-- ? __real_realloc(memory, length) : NULL;
}

/* The same for SQLite, over its own allocator. */
static sqlite3_mem_methods plain;
static void *counted_malloc(int length) {
    return granted && granted-- ? plain.xMalloc(length) : NULL;
}
static void *counted_realloc(void *memory, int length) {
    return granted && granted-- ? plain.xRealloc(memory, length) : NULL;
}

/* How many paths were compiled, and documents read to a handle, counted likewise. */
static int compiled, read;
uint8_t __real_jsonpath_path_new(const uint8_t *, size_t, uint8_t, jsonpath_path **, struct jsonpath_refusal *);
uint8_t __wrap_jsonpath_path_new(const uint8_t *text, size_t length, uint8_t numbers, jsonpath_path **path,
                                 struct jsonpath_refusal *refusal) {
    compiled++;
    return __real_jsonpath_path_new(text, length, numbers, path, refusal);
}
uint8_t __real_jsonpath_document_new(const uint8_t *, size_t, jsonpath_document **, size_t *);
uint8_t __wrap_jsonpath_document_new(const uint8_t *bytes, size_t length, jsonpath_document **document, size_t *position) {
    read++;
    return __real_jsonpath_document_new(bytes, length, document, position);
}

/* Prints what does not hold. */
static void holds(int condition, const char *what, const char *statement) {
    if (!condition) {
        failures++;
        printf("%s: %s\n", statement, what);
    }
}

/* A statement, and what it gives: the columns with `|` between them, each row ended by a blank. */
static const struct {
    const char *statement, *wanted;
} ROWS[] = {
    {"SELECT jsonpath_exists('{\"a\":1}', '$.a'), jsonpath_exists('{\"a\":1}', '$.b')", "1|0 "},
    {"SELECT jsonpath_count('[1,[2,3]]', '$..*')", "4 "},
    {"SELECT jsonpath_value('{\"a\":\"x\\ty\"}', '$.a')", "x\ty "},
    {"SELECT jsonpath_value('[8.95]', '$[0]') = 8.95", "1 "},
    {"SELECT jsonpath_values('[1,{\"a\":2}]', '$[*]')", "[1,{\"a\":2}] "},
    {"SELECT jsonpath_locations('{\"a\\\"\":[1]}', '$..*')", "[\"$['a\\\"']\",\"$['a\\\"'][0]\"] "},
    {"SELECT ordinal, location, pointer, type, value, json FROM jsonpath_each('{\"a\":[true,\"b\"]}', '$.a[*]')",
     "1|$['a'][0]|/a/0|true|1|true 2|$['a'][1]|/a/1|text|b|\"b\" "},
    {"SELECT doc, path, max_nodes FROM jsonpath_each('[[0]]', '$[?search(@[0], ''a'') || @[0] == 0]', 1)",
     "[[0]]|$[?search(@[0], 'a') || @[0] == 0]|1 "},
    {"SELECT jsonpath_valid('$.a'), jsonpath_valid('$.a b')", "1|0 "},
    {"SELECT jsonpath_error('$.a b')",
     "the path is refused at byte 4: text after the path\n  $.a b\n     ^\n"
     "  probably meant: `$['a b']`: such a name is quoted in brackets "},
    {"WITH p(path) AS (VALUES ('$[0]'), ('$[1]')) SELECT value FROM p, jsonpath_each('[5,6]', p.path)", "5 6 "},
};

/* A path of 601 selectors, each of which selects all items, so it selects more nodes than one list has. */
#define MANY "'$[' || replace(hex(zeroblob(300)), '0', '*,') || '*]'"
#define LONG "'[1,2]' || printf('%1024s', '')"

/* The same of queries of 1,202 nodes, and how many requests for memory lie between two that are refused, since most make many. */
static const struct {
    size_t step;
    const char *statement, *wanted;
} OF_MANY[] = {
    {3, "SELECT jsonpath_count('[1,2]', " MANY ")", "1202 "},
    {3, "SELECT jsonpath_count(" LONG ", " MANY ")", "1202 "},
    {41, "SELECT length(jsonpath_values(" LONG ", " MANY ", 1202, 2404))", "2405 "},
    {41, "SELECT length(jsonpath_locations('[1,2]', " MANY "))", "8415 "},
    {41, "SELECT count(*), sum(value), sum(ordinal), max(location) FROM jsonpath_each('[1,2]', " MANY ")", "1202|1803|723003|$[1] "},
    {11, "SELECT value FROM jsonpath_each('[1,2]', " MANY ") LIMIT 3", "1 2 1 "},
    {17, "WITH p(path) AS (VALUES (" MANY "), ('$[1]'), (" MANY ")) "
     "SELECT (SELECT value FROM jsonpath_each('[1,2]', p.path) WHERE ordinal > 1001 LIMIT 1) FROM p", "2 NULL 2 "},
};

/* Statements that end where an interrupt is seen: `stop` gives its argument, and interrupts. */
static const char *const INTERRUPTED[] = {
    "SELECT jsonpath_count('[1,2]', stop(" MANY "))",
    "SELECT jsonpath_count(" LONG ", stop(" MANY "))",
    "SELECT jsonpath_values('[1,2]', stop(" MANY "))",
    "SELECT jsonpath_locations(" LONG ", stop(" MANY "))",
    "SELECT count(*) FROM jsonpath_each('[1,2]', stop(" MANY "))",
};

/* Runs a statement and appends its rows. Returns the code with which it ends. */
static int run(sqlite3 *database, const char *statement, char *rows) {
    sqlite3_stmt *prepared = NULL;
    rows[0] = 0;
    int code = sqlite3_prepare_v2(database, statement, -1, &prepared, NULL);
    if (code == SQLITE_OK) code = SQLITE_ROW;
    while (code == SQLITE_ROW && (code = sqlite3_step(prepared)) == SQLITE_ROW) {
        for (int at = 0; at < sqlite3_column_count(prepared); at++) {
            const char *text = (const char *)sqlite3_column_text(prepared, at);
            sprintf(rows + strlen(rows), "%s%s", at ? "|" : "", text ? text : "NULL");
        }
        strcat(rows, " ");
    }
    int ended = sqlite3_finalize(prepared);
    return code == SQLITE_DONE ? ended : code;
}

/* A connection, to which SQLite adds the extension by itself. */
static sqlite3 *connected(void) {
    sqlite3 *database = NULL;
    holds(sqlite3_open(":memory:", &database) == SQLITE_OK, "no connection", ":memory:");
    return database;
}

/* Holds a statement to its rows. */
static void gives(const char *statement, const char *wanted) {
    char rows[ROOM];
    sqlite3 *database = connected();
    holds(run(database, statement, rows) == SQLITE_OK, sqlite3_errmsg(database), statement);
    holds(!strcmp(rows, wanted), rows, statement);
    sqlite3_close(database);
}

/* Refuses memory to a statement from the first request on, from a later one, and so on by a step, until it has enough. Each time its
 * answer is that, or it is right, as SQLite does without some requests. */
static void runs_out(const char *statement, const char *wanted, size_t step) {
    char rows[ROOM];
    int refused = 0, code = SQLITE_NOMEM;
    size_t left = 0;
    for (size_t grants = 0; left == 0 && grants < 5000; grants += step) {
        sqlite3 *database = connected();
        granted = grants;
        code = run(database, statement, rows);
        left = granted;
        granted = SIZE_MAX;
        holds(code == SQLITE_NOMEM || (code == SQLITE_OK && !strcmp(rows, wanted)), sqlite3_errmsg(database), statement);
        refused += code == SQLITE_NOMEM;
        holds(run(database, statement, rows) == SQLITE_OK && !strcmp(rows, wanted), "wrong once there is memory", statement);
        sqlite3_close(database);
    }
    holds(code == SQLITE_OK && refused > 1, "memory was not refused", statement);
}

/* Statements over documents that are refused, and what is told. */
static const struct {
    const char *statement, *told;
} REFUSED[] = {
    {"SELECT jsonpath_exists('{\"a\": 1,}', '$.a')",
     "the document is refused at byte 8, line 1, column 8: a comma with nothing after it\n  {\"a\": 1,}\n         ^"},
    {"SELECT jsonpath_count('[[1] 2' || printf('%1024s', ']'), '$.a')",
     "the document is refused at byte 6, line 1, column 6: a comma is missing before this\n"
     "  [[1] 2                           ...\n       ^"},
    {"SELECT value FROM jsonpath_each('', '$')",
     "the document is refused at byte 1, line 1, column 1: no document, the input is empty"},
};

/* Refuses memory to a statement that ends with an error in any case, as `runs_out` does: it tells of the one or of the other. Where
 * SQLite itself has no memory to keep what is told, it says that there is some error. */
static void is_told_without_memory(const char *statement, const char *told) {
    char rows[ROOM];
    int is_told = 0, code;
    for (size_t grants = 0; !is_told && grants < 5000; grants++) {
        sqlite3 *database = connected();
        granted = grants;
        code = run(database, statement, rows);
        granted = SIZE_MAX;
        is_told = code == SQLITE_ERROR && !strcmp(sqlite3_errmsg(database), told);
        int is_unsaid = code == SQLITE_ERROR && !strcmp(sqlite3_errmsg(database), sqlite3_errstr(SQLITE_ERROR));
        holds(is_told || is_unsaid || code == SQLITE_NOMEM, sqlite3_errmsg(database), statement);
        sqlite3_close(database);
    }
    holds(is_told, "not refused", statement);
}

/* Interrupts the statement that calls it, and gives its argument. */
static void stop(sqlite3_context *context, int count, sqlite3_value **values) {
    (void)count;
    sqlite3_interrupt(sqlite3_context_db_handle(context));
    sqlite3_result_value(context, values[0]);
}

/* Holds a statement to its end by an interrupt, after which another one can be run. */
static void is_interrupted(const char *statement) {
    char rows[ROOM];
    sqlite3 *database = connected();
    sqlite3_create_function(database, "stop", 1, SQLITE_UTF8, NULL, stop, NULL, NULL);
    holds(run(database, statement, rows) == SQLITE_INTERRUPT && !rows[0], "not interrupted", statement);
    holds(!strcmp(sqlite3_errmsg(database), "interrupted"), sqlite3_errmsg(database), statement);
    holds(run(database, OF_MANY[0].statement, rows) == SQLITE_OK && !strcmp(rows, OF_MANY[0].wanted), rows, statement);
    sqlite3_close(database);
}

/* Statements over three documents, and how many paths they compile and documents they read: of those that stay the same one. */
#define DOCUMENTS "WITH d(doc) AS (VALUES ('[1]'), ('[2]'), ('[3]')), p(path) AS (VALUES ('$[0]'), ('$[1]')) "
static const struct {
    const char *statement, *wanted;
    int compiled, read;
} KEPT[] = {
    {DOCUMENTS "SELECT jsonpath_value(doc, '$[0]') FROM d", "1 2 3 ", 1, 3},
    {DOCUMENTS "SELECT jsonpath_value(doc, '$[0]') FROM d WHERE jsonpath_exists(doc, '$[?@ > 1]')", "2 3 ", 2, 3},
    {DOCUMENTS "SELECT jsonpath_value(doc, '$[' || (jsonpath_value(doc, '$[0]') - 1) || ']') FROM d", "1 NULL NULL ", 4, 3},
    {DOCUMENTS "SELECT sum(jsonpath_count('[5]', path)) FROM d, p", "3 ", 6, 1},
    {DOCUMENTS "SELECT DISTINCT jsonpath_values(doc || printf('%1020s', ''), '$[1]') FROM d", "[] ", 1, 3},
    {DOCUMENTS "SELECT DISTINCT jsonpath_values(doc || printf('%1021s', ''), '$[1]') FROM d", "[] ", 1, 0},
    {"SELECT jsonpath_count(" LONG ", '$[*]')", "2 ", 1, 0},
    {"SELECT jsonpath_count(" LONG ", " MANY ")", "1202 ", 1, 1},
    {DOCUMENTS "SELECT value FROM d, jsonpath_each(d.doc, '$[0]')", "1 2 3 ", 1, 3},
    {DOCUMENTS "SELECT value FROM p CROSS JOIN d CROSS JOIN jsonpath_each(d.doc, p.path)", "1 2 3 ", 2, 6},
    {DOCUMENTS "SELECT value FROM d CROSS JOIN p CROSS JOIN jsonpath_each(d.doc, p.path)", "1 2 3 ", 6, 3},
    {"WITH p(path) AS (VALUES ('$.a'), ('$.ab')) SELECT value FROM p, jsonpath_each('{\"a\":1,\"ab\":2}', p.path)", "1 2 ", 2, 1},
};

/* Holds a statement to its rows, and to what it compiles and reads. */
static void keeps(const char *statement, const char *wanted, int paths, int documents) {
    compiled = read = 0;
    gives(statement, wanted);
    holds(compiled == paths, "another number of paths is compiled", statement);
    holds(read == documents, "another number of documents is read", statement);
}

/* A statement that is run again with another path bound to it. */
static void runs_again(void) {
    static const char *const paths[] = {"$[0]", "$[1]", "$[1]", "$[0]"};
    sqlite3 *database = connected();
    sqlite3_stmt *statement = NULL;
    const char *text = "SELECT jsonpath_value('[5,6]', ?1), value FROM jsonpath_each('[5,6]', ?1)";
    holds(sqlite3_prepare_v2(database, text, -1, &statement, NULL) == SQLITE_OK, "not prepared", text);
    for (int at = 0; at < 4; at++) {
        int wanted = !strcmp(paths[at], "$[0]") ? 5 : 6;
        sqlite3_bind_text(statement, 1, paths[at], -1, SQLITE_STATIC);
        holds(sqlite3_step(statement) == SQLITE_ROW, "no row", text);
        holds(sqlite3_column_int(statement, 0) == wanted && sqlite3_column_int(statement, 1) == wanted, paths[at], text);
        holds(sqlite3_step(statement) == SQLITE_DONE, "another row", text);
        sqlite3_reset(statement);
    }
    sqlite3_finalize(statement);
    sqlite3_close(database);
}

/* Refuses memory to the extension while it is added to a connection. */
static void is_added_without_memory(void) {
    sqlite3 *database = connected();
    int code = SQLITE_NOMEM;
    for (size_t grants = 0; code == SQLITE_NOMEM && grants < 1000; grants++) {
        granted = grants;
        code = sqlite3_jsonpath_init(database, NULL, NULL);
        granted = SIZE_MAX;
    }
    holds(code == SQLITE_OK, "not added", sqlite3_errmsg(database));
    sqlite3_close(database);
}

/* Refuses memory by the limit of SQLite itself. */
static void runs_out_by_limit(void) {
    char rows[ROOM];
    const char *statement = "SELECT length(jsonpath_values('[\"' || hex(zeroblob(100000)) || '\"]', '$'))";
    sqlite3 *database = connected();
    sqlite3_hard_heap_limit64(sqlite3_memory_used() + 700000);
    int code = run(database, statement, rows);
    sqlite3_hard_heap_limit64(0);
    holds(code == SQLITE_NOMEM, "the limit of the heap is passed over", statement);
    holds(run(database, statement, rows) == SQLITE_OK && !strcmp(rows, "200006 "), rows, statement);
    sqlite3_close(database);
}

int main(void) {
    sqlite3_config(SQLITE_CONFIG_GETMALLOC, &plain);
    sqlite3_mem_methods counted = plain;
    counted.xMalloc = counted_malloc, counted.xRealloc = counted_realloc;
    sqlite3_config(SQLITE_CONFIG_MALLOC, &counted);
    sqlite3_auto_extension((void (*)(void))sqlite3_jsonpath_init);
    for (size_t at = 0; at < sizeof ROWS / sizeof *ROWS; at++) {
        gives(ROWS[at].statement, ROWS[at].wanted);
        runs_out(ROWS[at].statement, ROWS[at].wanted, 1);
    }
    for (size_t at = 0; at < sizeof OF_MANY / sizeof *OF_MANY; at++) {
        gives(OF_MANY[at].statement, OF_MANY[at].wanted);
        runs_out(OF_MANY[at].statement, OF_MANY[at].wanted, OF_MANY[at].step);
    }
    for (size_t at = 0; at < sizeof REFUSED / sizeof *REFUSED; at++) is_told_without_memory(REFUSED[at].statement, REFUSED[at].told);
    for (size_t at = 0; at < sizeof INTERRUPTED / sizeof *INTERRUPTED; at++) is_interrupted(INTERRUPTED[at]);
    for (size_t at = 0; at < sizeof KEPT / sizeof *KEPT; at++) {
        keeps(KEPT[at].statement, KEPT[at].wanted, KEPT[at].compiled, KEPT[at].read);
    }
    runs_again();
    is_added_without_memory();
    runs_out_by_limit();
    sqlite3_reset_auto_extension();
    sqlite3_shutdown();
    printf(failures ? "%d failed\n" : "all hold\n", failures);
    return failures != 0;
}
