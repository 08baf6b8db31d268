/* A harness of libFuzzer over the extension for SQLite.
 *
 * The first byte of an input says how its document is bound. The rest is a path and a document, split at the first NUL; without a
 * NUL all of it is the path, and the document is empty. What SQL answers is held to what the calls of jsonpath.h answer of the same
 * bytes, and to itself. A fact that does not hold is printed, and ends the process. */
#include <sqlite3.h>
#include <stdio.h>
#include <stdlib.h>
#include <string.h>
#include <time.h>

#include "jsonpath.h"

/* What the first byte asks for. Its other bits are free. */
#define AS_BLOB 1 /* The document is a BLOB, else TEXT. */

#define MOST_NODES 3500   /* The extension lists a thousand at a time. */
#define MOST_BYTES 65536
#define MOST_SECONDS 0.05 /* A query that takes longer is not asked in SQL. */

#define HOLD(fact) ((fact) ? (void)0 : broken(#fact, __LINE__))

/* Ends the process, since a fact does not hold. */
static void broken(const char *fact, int line) {
    fprintf(stderr, "sqlite.c:%d: does not hold: %s\n", line, fact);
    abort();
}

/* What is asked in SQL of a document, ?1, and a path, ?2; ?3 is a limit of nodes. */
static const char *const QUERIES[] = {
    "SELECT jsonpath_valid(?2), jsonpath_error(?2)",
    "SELECT jsonpath_exists(?1, ?2), jsonpath_count(?1, ?2)",
    "SELECT jsonpath_values(?1, ?2), jsonpath_locations(?1, ?2)",
    "SELECT ordinal, json, location, pointer, type FROM jsonpath_each(?1, ?2)",
    "SELECT jsonpath_value(?1, ?2) IS value FROM jsonpath_each(?1, ?2) LIMIT 1",
    "SELECT json_valid(jsonpath_values(?1, ?2)), json_array_length(jsonpath_locations(?1, ?2))",
    "SELECT jsonpath_values(?1, ?2, ?3)",
    "SELECT count(*) FROM jsonpath_each(?1, ?2, ?3)",
};
enum { VALID, NUMBERS, ARRAYS, ROWS, FIRST, JSON, LIMITED, LIMITED_ROWS, COUNT };
static sqlite3 *database;
static sqlite3_stmt *statements[COUNT];

/* The entry of the extension, which is linked. */
int sqlite3_jsonpath_init(sqlite3 *database, char **error, const void *routines);

int LLVMFuzzerInitialize(int *count, char ***words) {
    (void)count, (void)words;
    HOLD(sqlite3_open(":memory:", &database) == SQLITE_OK);
    HOLD(sqlite3_jsonpath_init(database, NULL, NULL) == SQLITE_OK);
    for (int at = 0; at < COUNT; at++) {
        HOLD(sqlite3_prepare_v2(database, QUERIES[at], -1, &statements[at], NULL) == SQLITE_OK);
    }
    return 0;
}

/* Bytes that someone else holds. */
struct text {
    const uint8_t *bytes;
    size_t length;
};

/* What is asked, how many nodes there are, and their lines in two forms. */
struct question {
    struct text path, document;
    int as_blob;
    jsonpath_path *compiled;
    size_t count;
    struct text values, locations;
};

/* Binds what is asked to a query, and takes its first step. */
static int begin(const struct question *asked, int query, size_t limit) {
    sqlite3_stmt *statement = statements[query];
    const char *document = (const char *)asked->document.bytes;
    int length = (int)asked->document.length;
    if (asked->as_blob) {
        HOLD(sqlite3_bind_blob(statement, 1, document, length, SQLITE_STATIC) == SQLITE_OK);
    } else {
        HOLD(sqlite3_bind_text(statement, 1, document, length, SQLITE_STATIC) == SQLITE_OK);
    }
    HOLD(sqlite3_bind_text(statement, 2, (const char *)asked->path.bytes, (int)asked->path.length, SQLITE_STATIC) == SQLITE_OK);
    if (sqlite3_bind_parameter_count(statement) == 3) {
        HOLD(sqlite3_bind_int64(statement, 3, (sqlite3_int64)limit) == SQLITE_OK);
    }
    return sqlite3_step(statement);
}

/* Ends a query. */
static void end(int query) { sqlite3_reset(statements[query]); }

/* A column of a query's row as bytes. */
static struct text column(int query, int at) {
    const uint8_t *bytes = sqlite3_column_blob(statements[query], at);
    return (struct text){bytes == NULL ? (const uint8_t *)"" : bytes, (size_t)sqlite3_column_bytes(statements[query], at)};
}

/* Whether two texts are the same. */
static int same(struct text one, struct text other) {
    return one.length == other.length && memcmp(one.bytes, other.bytes, one.length) == 0;
}

/* Takes the first line, without its line feed, from those that are left. */
static struct text take_line(struct text *left) {
    const uint8_t *end = memchr(left->bytes, '\n', left->length);
    HOLD(end != NULL);
    struct text line = {left->bytes, (size_t)(end - left->bytes)};
    left->bytes += line.length + 1;
    left->length -= line.length + 1;
    return line;
}

/* An error of SQL has a text, and is the same for each query. */
static void check_refused(const struct question *asked) {
    for (int query = NUMBERS; query < COUNT; query++) {
        HOLD(begin(asked, query, 1) == SQLITE_ERROR && strlen(sqlite3_errmsg(database)) > 0);
        end(query);
    }
}

/* The lines of a form within the bounds of the harness, or a length of SIZE_MAX where there are more. */
static struct text lines_of(struct question *asked, uint8_t form, uint8_t *room) {
    const struct jsonpath_limits limits = {MOST_NODES, MOST_BYTES};
    size_t length = 0, position;
    uint8_t status = jsonpath_lines_in(asked->compiled, asked->document.bytes, asked->document.length, form, &limits, room,
                                       MOST_BYTES, &length, &position);
    return (struct text){room, status == JSONPATH_DONE ? length : SIZE_MAX};
}

/* The array of JSON has the lines as its elements. */
static void check_array(struct text array, struct text lines) {
    HOLD(array.length == (lines.length == 0 ? 2 : lines.length + 1));
    HOLD(array.bytes[0] == '[' && array.bytes[array.length - 1] == ']');
    for (size_t at = 0; at + 1 < lines.length; at++) {
        HOLD(array.bytes[at + 1] == (lines.bytes[at] == '\n' ? ',' : lines.bytes[at]));
    }
}

/* The table has a row for each line. */
static void check_rows(const struct question *asked) {
    struct text values = asked->values, locations = asked->locations;
    int step = begin(asked, ROWS, 0);
    for (size_t row = 1; row <= asked->count; row++) {
        HOLD(step == SQLITE_ROW && sqlite3_column_int64(statements[ROWS], 0) == (sqlite3_int64)row);
        HOLD(same(column(ROWS, 1), take_line(&values)) && same(column(ROWS, 2), take_line(&locations)));
        struct text pointer = column(ROWS, 3), type = column(ROWS, 4);
        HOLD((pointer.length == 0 || pointer.bytes[0] == '/') && type.length > 0);
        step = sqlite3_step(statements[ROWS]);
    }
    HOLD(step == SQLITE_DONE && values.length == 0 && locations.length == 0);
    end(ROWS);
}

/* A limit of nodes refuses a path that selects more. */
static void check_limits(const struct question *asked) {
    HOLD(begin(asked, LIMITED, asked->count) == SQLITE_ROW && begin(asked, LIMITED_ROWS, asked->count) == SQLITE_ROW);
    HOLD(sqlite3_column_int64(statements[LIMITED_ROWS], 0) == (sqlite3_int64)asked->count);
    end(LIMITED), end(LIMITED_ROWS);
    if (asked->count == 0) return;
    HOLD(begin(asked, LIMITED, asked->count - 1) == SQLITE_ERROR);
    HOLD(begin(asked, LIMITED_ROWS, asked->count - 1) == SQLITE_ERROR);
    end(LIMITED), end(LIMITED_ROWS);
}

/* Holds what SQL answers to the lines of the library. */
static void check_answers(const struct question *asked) {
    HOLD(begin(asked, NUMBERS, 0) == SQLITE_ROW);
    HOLD(sqlite3_column_int(statements[NUMBERS], 0) == (asked->count > 0));
    HOLD(sqlite3_column_int64(statements[NUMBERS], 1) == (sqlite3_int64)asked->count);
    HOLD(begin(asked, ARRAYS, 0) == SQLITE_ROW);
    check_array(column(ARRAYS, 0), asked->values);
    HOLD(begin(asked, JSON, 0) == SQLITE_ROW && sqlite3_column_int(statements[JSON], 0) == 1);
    HOLD(sqlite3_column_int64(statements[JSON], 1) == (sqlite3_int64)asked->count);
    check_rows(asked);
    HOLD(begin(asked, FIRST, 0) == (asked->count == 0 ? SQLITE_DONE : SQLITE_ROW));
    HOLD(asked->count == 0 || sqlite3_column_int(statements[FIRST], 0) == 1);
    end(NUMBERS), end(ARRAYS), end(JSON), end(FIRST);
    check_limits(asked);
}

/* Checks a path on a document, both of which are right. */
static void check_query(struct question *asked) {
    size_t position;
    uint8_t *rooms[] = {malloc(MOST_BYTES), malloc(MOST_BYTES)};
    clock_t start = clock();
    HOLD(rooms[0] != NULL && rooms[1] != NULL);
    asked->values = lines_of(asked, JSONPATH_VALUES, rooms[0]);
    asked->locations = lines_of(asked, JSONPATH_LOCATIONS, rooms[1]);
    int is_small = asked->values.length <= MOST_BYTES && asked->locations.length <= MOST_BYTES;
    if (is_small && (double)(clock() - start) / CLOCKS_PER_SEC < MOST_SECONDS) {
        HOLD(jsonpath_count_in(asked->compiled, asked->document.bytes, asked->document.length, &asked->count, &position) ==
             JSONPATH_DONE);
        check_answers(asked);
    }
    free(rooms[0]);
    free(rooms[1]);
}

/* Whether SQL takes a document for JSONB, and so refuses what may be a document. */
static int is_jsonb(const struct question *asked) {
    int is_error = asked->as_blob && begin(asked, NUMBERS, 0) == SQLITE_ERROR;
    int is_said = is_error && strstr(sqlite3_errmsg(database), "JSONB") != NULL;
    end(NUMBERS);
    return is_said;
}

/* Checks a path that is right on any bytes. */
static void check_bytes(struct question *asked) {
    jsonpath_document *document = NULL;
    size_t position;
    uint8_t status = jsonpath_document_new(asked->document.bytes, asked->document.length, &document, &position);
    if (status != JSONPATH_DONE || is_jsonb(asked)) {
        check_refused(asked);
    } else {
        check_query(asked);
    }
    jsonpath_document_free(&document);
}

int LLVMFuzzerTestOneInput(const uint8_t *bytes, size_t length) {
    if (length == 0) return 0;
    const uint8_t *path = bytes + 1, *nul = length == 1 ? NULL : memchr(path, 0, length - 1);
    size_t path_length = nul == NULL ? length - 1 : (size_t)(nul - path), skipped = path_length + (nul != NULL);
    struct question asked = {.path = {path, path_length},
                             .document = {path + skipped, length - 1 - skipped},
                             .as_blob = bytes[0] & AS_BLOB};
    struct jsonpath_refusal refusal;
    uint8_t status = jsonpath_path_new(path, path_length, JSONPATH_ALL_NUMBERS, &asked.compiled, &refusal);
    HOLD(begin(&asked, VALID, 0) == SQLITE_ROW);
    HOLD(sqlite3_column_int(statements[VALID], 0) == (status == JSONPATH_DONE));
    HOLD((sqlite3_column_type(statements[VALID], 1) == SQLITE_NULL) == (status == JSONPATH_DONE));
    end(VALID);
    if (status == JSONPATH_DONE) {
        check_bytes(&asked);
    } else {
        check_refused(&asked);
    }
    jsonpath_path_free(&asked.compiled);
    return 0;
}
