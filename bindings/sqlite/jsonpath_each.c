/* The table jsonpath_each(doc, path, max_nodes, max_bytes): a row for each node that a path selects from a document. */
#include <string.h>

#include "jsonpath_sqlite.h"
SQLITE_EXTENSION_INIT3

#define DECLARATION                                                                                          \
    "CREATE TABLE jsonpath_each(ordinal INTEGER, location TEXT, pointer TEXT, type TEXT, value, json TEXT, " \
    "doc HIDDEN, path HIDDEN, max_nodes HIDDEN, max_bytes HIDDEN)"

/* The columns. The hidden ones, from DOC on, are the table's arguments. */
enum { ORDINAL, LOCATION, POINTER, TYPE, VALUE, JSON, DOC, PATH, MAX_NODES, MAX_BYTES, COLUMNS };
enum { ARGUMENTS = COLUMNS - DOC };

/* What the planner takes a reading to cost, and to give. Tables that lack an argument come last. */
#define COST 1000.0
#define ROWS 10
#define NO_PLAN 1e99

/* The room that a cursor has for texts at first. */
#define FIRST_ROOM 256

static const struct outcome DONE = {SQLITE_OK, NULL}, NO_MEMORY = {SQLITE_NOMEM, NULL};

struct table {
    sqlite3_vtab base; /* First, as SQLite asks. */
    sqlite3 *database; /* The connection that it is of. */
};

struct cursor {
    sqlite3_vtab_cursor base;            /* First, as SQLite asks. */
    sqlite3_value *arguments[ARGUMENTS]; /* Copies, or NULL of one that is not given. */
    jsonpath_path *path;                 /* Of its argument, as the document; or empty. */
    jsonpath_document *document;
    struct jsonpath_sqlite_walk walk; /* Over both, so it ends before they are freed. */
    size_t at;                        /* Which node of its list is the row's. */
    uint8_t *room;                    /* For a text of a row. */
    size_t room_length;
};

static int connect_table(sqlite3 *database, void *unused, int count, const char *const *words, sqlite3_vtab **made, char **error) {
    (void)unused, (void)count, (void)words, (void)error;
    int code = sqlite3_declare_vtab(database, DECLARATION);
    if (code == SQLITE_OK) code = sqlite3_vtab_config(database, SQLITE_VTAB_INNOCUOUS);
    if (code != SQLITE_OK) return code;
    struct table *table = sqlite3_malloc(sizeof *table);
    if (!table) return SQLITE_NOMEM;
    memset(table, 0, sizeof *table);
    table->database = database;
    *made = &table->base;
    return SQLITE_OK;
}

static int free_table(sqlite3_vtab *base) {
    sqlite3_free((struct table *)base);
    return SQLITE_OK;
}

/* Whether the rows are asked for in the order in which they come anyway. */
static int asks_for_order(const sqlite3_index_info *info) {
    return info->nOrderBy == 1 && !info->aOrderBy[0].desc &&
           (info->aOrderBy[0].iColumn == ORDINAL || info->aOrderBy[0].iColumn == -1);
}

/* A plan is the set of the arguments that are given, which are handed over in order. */
static int best_index(sqlite3_vtab *table, sqlite3_index_info *info) {
    (void)table;
    int places[ARGUMENTS], given = 0, unusable = 0;
    for (int at = 0; at < info->nConstraint; at++) {
        int argument = info->aConstraint[at].iColumn - DOC;
        if (argument < 0 || info->aConstraint[at].op != SQLITE_INDEX_CONSTRAINT_EQ) continue;
        if (!info->aConstraint[at].usable) {
            unusable |= 1 << argument;
        } else {
            given |= 1 << argument;
            places[argument] = at;
        }
    }
    if (unusable & ~given) return SQLITE_CONSTRAINT;
    for (int argument = 0, index = 0; argument < ARGUMENTS; argument++) {
        if (!(given >> argument & 1)) continue;
        info->aConstraintUsage[places[argument]].argvIndex = ++index;
        info->aConstraintUsage[places[argument]].omit = 1;
    }
    int is_whole = (given & 3) == 3;
    info->idxNum = given;
    info->estimatedCost = is_whole ? COST : NO_PLAN;
    info->estimatedRows = ROWS;
    info->orderByConsumed = asks_for_order(info);
    return SQLITE_OK;
}

static int open_cursor(sqlite3_vtab *table, sqlite3_vtab_cursor **opened) {
    (void)table;
    struct cursor *cursor = sqlite3_malloc(sizeof *cursor);
    if (!cursor) return SQLITE_NOMEM;
    memset(cursor, 0, sizeof *cursor);
    cursor->room = sqlite3_malloc(cursor->room_length = FIRST_ROOM);
    *opened = &cursor->base;
    if (cursor->room) return SQLITE_OK;
    sqlite3_free(cursor);
    return SQLITE_NOMEM;
}

static int close_cursor(sqlite3_vtab_cursor *base) {
    struct cursor *cursor = (struct cursor *)base;
    jsonpath_sqlite_walk_end(&cursor->walk);
    for (int at = 0; at < ARGUMENTS; at++) sqlite3_value_free(cursor->arguments[at]);
    jsonpath_path_free(&cursor->path);
    jsonpath_document_free(&cursor->document);
    sqlite3_free(cursor->room);
    sqlite3_free(cursor);
    return SQLITE_OK;
}

/* The bytes of a TEXT, as UTF-8, or of a BLOB. */
static const void *bytes_of(sqlite3_value *value) {
    return sqlite3_value_type(value) == SQLITE_TEXT ? (const void *)sqlite3_value_text(value) : sqlite3_value_blob(value);
}

/* Whether an argument is the same TEXT or BLOB as one before, which may be NULL. */
static int is_same(sqlite3_value *before, sqlite3_value *given) {
    if (!before || sqlite3_value_type(before) != sqlite3_value_type(given)) return 0;
    if (sqlite3_value_type(given) != SQLITE_TEXT && sqlite3_value_type(given) != SQLITE_BLOB) return 0;
    const void *bytes = bytes_of(before), *other = bytes_of(given);
    int length = sqlite3_value_bytes(before);
    return bytes && other && length == sqlite3_value_bytes(given) && !memcmp(bytes, other, (size_t)length);
}

/* Copies the arguments. A document and a path that are the same as before are kept, and what was read or compiled of others is
 * freed. */
static struct outcome take_arguments(struct cursor *cursor, sqlite3_value **given) {
    int is_kept[ARGUMENTS] = {is_same(cursor->arguments[0], given[0]), is_same(cursor->arguments[PATH - DOC], given[PATH - DOC])};
    if (!is_kept[0]) jsonpath_document_free(&cursor->document);
    if (!is_kept[PATH - DOC]) jsonpath_path_free(&cursor->path);
    for (int at = 0; at < ARGUMENTS; at++) {
        if (is_kept[at]) continue;
        sqlite3_value_free(cursor->arguments[at]);
        cursor->arguments[at] = given[at] ? sqlite3_value_dup(given[at]) : NULL;
        if (given[at] && !cursor->arguments[at]) return NO_MEMORY;
    }
    return DONE;
}

/* Reads the document, unless it is kept. */
static struct outcome read_document(struct cursor *cursor) {
    if (cursor->document) return DONE;
    struct text document;
    struct outcome outcome = jsonpath_sqlite_document(cursor->arguments[0], &document);
    if (outcome.code) return outcome;
    size_t position = 1;
    uint8_t status = jsonpath_document_new(document.bytes, document.length, &cursor->document, &position);
    return jsonpath_sqlite_outcome(status, document, position);
}

/* Lists all nodes that the path selects, within limits. */
static struct outcome select_nodes(struct cursor *cursor, const struct jsonpath_limits *limits) {
    uint8_t status = jsonpath_select(cursor->path, cursor->document, 0, limits, &cursor->walk.nodes);
    struct outcome outcome = jsonpath_sqlite_outcome_of(status);
    if (outcome.code) return outcome;
    size_t length = 0;
    jsonpath_nodes_length(cursor->walk.nodes, &length);
    if (status == JSONPATH_CUT_SHORT) return jsonpath_sqlite_beyond(limits, length, "the names in the locations");
    cursor->walk.length = length;
    return DONE;
}

/* Goes on to the next list of nodes, where the last one has come to its end. With more nodes than there may be there is none. */
static struct outcome next_list(struct cursor *cursor) {
    struct jsonpath_sqlite_walk *walk = &cursor->walk;
    const struct jsonpath_limits limits = {walk->most, SIZE_MAX};
    cursor->at = 0;
    struct outcome outcome = jsonpath_sqlite_walk_next(((struct table *)cursor->base.pVtab)->database, walk);
    if (!outcome.code && walk->length > walk->most - walk->before) outcome = jsonpath_sqlite_beyond(&limits, walk->most, "");
    if (outcome.code) jsonpath_sqlite_walk_end(walk);
    return outcome;
}

/* Begins the rows of the path and the document that are there. With a limit of bytes all nodes are listed before the first row. */
static struct outcome begin_rows(struct cursor *cursor) {
    struct jsonpath_limits limits;
    struct outcome outcome =
        jsonpath_sqlite_limits(cursor->arguments[MAX_NODES - DOC], cursor->arguments[MAX_BYTES - DOC], &limits);
    if (outcome.code) return outcome;
    if (limits.bytes < SIZE_MAX) return select_nodes(cursor, &limits);
    outcome = jsonpath_sqlite_walk_begin(cursor->path, cursor->document, limits.nodes, &cursor->walk);
    return outcome.code ? outcome : next_list(cursor);
}

/* Begins the rows of some arguments. */
static struct outcome begin(struct cursor *cursor, sqlite3_value **given) {
    if (!given[0] || !given[PATH - DOC]) {
        return jsonpath_sqlite_error(sqlite3_mprintf("jsonpath_each needs a document and a path: jsonpath_each(doc, path)"));
    }
    if (jsonpath_sqlite_is_null(given[0]) || jsonpath_sqlite_is_null(given[PATH - DOC])) return DONE;
    struct outcome outcome = take_arguments(cursor, given);
    if (!outcome.code && !cursor->path) outcome = jsonpath_sqlite_path(cursor->arguments[PATH - DOC], &cursor->path);
    if (!outcome.code) outcome = read_document(cursor);
    return outcome.code ? outcome : begin_rows(cursor);
}

/* Tells SQLite what came of a step. */
static int told(struct cursor *cursor, struct outcome outcome) {
    sqlite3_vtab *table = cursor->base.pVtab;
    if (outcome.text) {
        sqlite3_free(table->zErrMsg);
        table->zErrMsg = outcome.text;
    }
    return outcome.code;
}

static int filter(sqlite3_vtab_cursor *base, int plan, const char *unused, int count, sqlite3_value **values) {
    (void)unused, (void)count;
    struct cursor *cursor = (struct cursor *)base;
    sqlite3_value *given[ARGUMENTS] = {NULL};
    for (int at = 0; at < ARGUMENTS; at++) {
        if (plan >> at & 1) given[at] = *values++;
    }
    cursor->at = 0;
    jsonpath_sqlite_walk_end(&cursor->walk);
    return told(cursor, begin(cursor, given));
}

static int next(sqlite3_vtab_cursor *base) {
    struct cursor *cursor = (struct cursor *)base;
    cursor->at++;
    return cursor->at < cursor->walk.length ? SQLITE_OK : told(cursor, next_list(cursor));
}

static int eof(sqlite3_vtab_cursor *base) {
    const struct cursor *cursor = (const struct cursor *)base;
    return cursor->at >= cursor->walk.length;
}

/* The number of the row, from 1. */
static sqlite3_int64 ordinal_of(const struct cursor *cursor) {
    return (sqlite3_int64)(cursor->walk.before + cursor->at + 1);
}

static int rowid(sqlite3_vtab_cursor *base, sqlite3_int64 *row) {
    *row = ordinal_of((struct cursor *)base);
    return SQLITE_OK;
}

/* A call that writes a text of a cursor's row. */
typedef uint8_t write_call(struct cursor *cursor, size_t *length);

static uint8_t write_location(struct cursor *cursor, size_t *length) {
    return jsonpath_node_location(cursor->walk.nodes, cursor->at, cursor->room, cursor->room_length, length);
}
static uint8_t write_pointer(struct cursor *cursor, size_t *length) {
    return jsonpath_node_pointer(cursor->walk.nodes, cursor->at, cursor->room, cursor->room_length, length);
}
static uint8_t write_text(struct cursor *cursor, size_t *length) {
    return jsonpath_node_text(cursor->walk.nodes, cursor->document, cursor->at, cursor->room, cursor->room_length, length);
}
static uint8_t write_json(struct cursor *cursor, size_t *length) {
    return jsonpath_node_json(cursor->walk.nodes, cursor->document, cursor->at, cursor->room, cursor->room_length, length);
}

/* Makes a text of the row the column's value. */
static void column_text(struct cursor *cursor, sqlite3_context *context, write_call *call) {
    size_t length = 0;
    uint8_t status;
    while ((status = call(cursor, &length)) == JSONPATH_NO_ROOM) {
        uint8_t *larger = sqlite3_realloc64(cursor->room, length);
        if (!larger) {
            sqlite3_result_error_nomem(context);
            return;
        }
        cursor->room = larger;
        cursor->room_length = length;
    }
    if (status == JSONPATH_DONE) {
        sqlite3_result_text64(context, (const char *)cursor->room, length, SQLITE_TRANSIENT, SQLITE_UTF8);
        if (call == write_json) sqlite3_result_subtype(context, JSON_SUBTYPE);
    } else {
        jsonpath_sqlite_report(context, jsonpath_sqlite_outcome_of(status));
    }
}

/* The types of nodes, as json_type names them. An integer beyond those of SQLite is one too. */
static const char *const TYPES[] = {"null", "false", "true", "integer", "integer", "real", "text", "array", "object"};

/* Makes the node what it is in SQL. */
static void column_value(struct cursor *cursor, sqlite3_context *context, const struct jsonpath_node *node) {
    switch (node->kind) {
        case JSONPATH_NULL: sqlite3_result_null(context); break;
        case JSONPATH_FALSE: sqlite3_result_int(context, 0); break;
        case JSONPATH_TRUE: sqlite3_result_int(context, 1); break;
        case JSONPATH_INTEGER: sqlite3_result_int64(context, node->integer); break;
        case JSONPATH_UNSIGNED: sqlite3_result_double(context, (double)node->unsigned_value); break;
        case JSONPATH_DOUBLE: sqlite3_result_double(context, node->number); break;
        case JSONPATH_STRING: column_text(cursor, context, write_text); break;
        default: column_text(cursor, context, write_json);
    }
}

static int column(sqlite3_vtab_cursor *base, sqlite3_context *context, int index) {
    struct cursor *cursor = (struct cursor *)base;
    struct jsonpath_node node = {0};
    if (index == TYPE || index == VALUE) jsonpath_node(cursor->walk.nodes, cursor->at, &node);
    switch (index) {
        case ORDINAL: sqlite3_result_int64(context, ordinal_of(cursor)); break;
        case LOCATION: column_text(cursor, context, write_location); break;
        case POINTER: column_text(cursor, context, write_pointer); break;
        case TYPE: sqlite3_result_text(context, TYPES[node.kind], -1, SQLITE_STATIC); break;
        case VALUE: column_value(cursor, context, &node); break;
        case JSON: column_text(cursor, context, write_json); break;
        default:
            if (cursor->arguments[index - DOC]) sqlite3_result_value(context, cursor->arguments[index - DOC]);
    }
    return SQLITE_OK;
}

/* Without xCreate the table is there in each connection, and can't be made under another name. */
static const sqlite3_module MODULE = {
    .xConnect = connect_table,
    .xBestIndex = best_index,
    .xDisconnect = free_table,
    .xOpen = open_cursor,
    .xClose = close_cursor,
    .xFilter = filter,
    .xNext = next,
    .xEof = eof,
    .xColumn = column,
    .xRowid = rowid,
};

int jsonpath_sqlite_add_each(sqlite3 *database) {
    return sqlite3_create_module(database, "jsonpath_each", &MODULE, NULL);
}
