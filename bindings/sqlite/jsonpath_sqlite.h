/* What the files of the extension for SQLite share. */
#ifndef JSONPATH_SQLITE_H
#define JSONPATH_SQLITE_H

#include <sqlite3ext.h>

#include "jsonpath.h"

/* What came of a step. */
struct outcome {
    int code;   /* SQLITE_OK, or which error it is. */
    char *text; /* Of SQLITE_ERROR why, in memory of sqlite3_malloc; else NULL. */
};

/* Bytes that SQLite lends. */
struct text {
    const uint8_t *bytes; /* Never NULL, also where there are none. */
    size_t length;
};

/* What a function is asked: a path, of a document, within limits. */
struct asked {
    sqlite3_context *context;
    const jsonpath_path *path;
    struct text document;
    const jsonpath_document *read; /* The same, or NULL of one that is not short. */
    struct jsonpath_limits limits;
};

/* Lines, after one byte, and with another one after them. They are all 0 at first. */
struct lines {
    uint8_t *memory;     /* Of sqlite3_malloc. */
    size_t length, room; /* How many bytes they have, and how many they may have there. */
};

/* The nodes that a path selects, a list at a time. It is all 0 at first, and once it has ended. */
struct jsonpath_sqlite_walk {
    jsonpath_walk *rest;   /* What comes after the list; NULL where nothing does. */
    jsonpath_nodes *nodes; /* The list. */
    size_t before, length; /* How many nodes came before it, and how many it has. */
    size_t most;           /* How many nodes there may be; the walk tells of one more. */
};

/* How many nodes a list has at most. Between two lists a query can be interrupted. */
#define LIST 1000

/* The subtype of a text that is JSON, by which the functions of SQLite take it as such. */
#define JSON_SUBTYPE 'J'

/* Whether a value is NULL in SQL. */
int jsonpath_sqlite_is_null(sqlite3_value *value);

/* Compiles the path that a value is. */
struct outcome jsonpath_sqlite_path(sqlite3_value *value, jsonpath_path **path);

/* Why a value is no path, in a text; of a path there is none. */
struct outcome jsonpath_sqlite_path_error(sqlite3_value *value);

/* Lends the bytes of the document that a value is. */
struct outcome jsonpath_sqlite_document(sqlite3_value *value, struct text *document);

/* The limits of nodes and of bytes that two values set; one that is not given or is NULL sets none. */
struct outcome jsonpath_sqlite_limits(sqlite3_value *nodes, sqlite3_value *bytes, struct jsonpath_limits *limits);

/* An error of SQL with that text, which may be NULL for lack of memory. */
struct outcome jsonpath_sqlite_error(char *text);

/* What a status stands for, by the document's bytes and the position in them where it is one of their refusals. */
struct outcome jsonpath_sqlite_outcome(uint8_t status, struct text document, size_t position);

/* The same of a status that tells of no document's bytes. */
struct outcome jsonpath_sqlite_outcome_of(uint8_t status);

/* Why a text is no path, shown with a caret under the place. */
struct outcome jsonpath_sqlite_refused(struct text path, const struct jsonpath_refusal *refusal);

/* Which limit there is more than, by how many nodes are within both. */
struct outcome jsonpath_sqlite_beyond(const struct jsonpath_limits *limits, size_t nodes, const char *bytes_of);

/* The JSON of the first node that is asked for, in a line, or no line where there is none. The memory of lines, here and below, is
 * the caller's to free, whatever comes of it. */
struct outcome jsonpath_sqlite_first_line(const struct asked *asked, struct lines *lines);

/* The lines of a form of all nodes that are asked for. It is an error if they are more, or longer, than the limits allow. */
struct outcome jsonpath_sqlite_lines(const struct asked *asked, uint8_t form, struct lines *lines);

/* How many nodes are asked for. */
struct outcome jsonpath_sqlite_count(const struct asked *asked, size_t *count);

/* Whether what runs on a connection is interrupted. */
int jsonpath_sqlite_is_interrupted(sqlite3 *database);

/* Begins a walk over the nodes that a path selects from a document, which both stay until it has ended. No list is there yet. */
struct outcome jsonpath_sqlite_walk_begin(const jsonpath_path *path, const jsonpath_document *document, size_t most,
                                          struct jsonpath_sqlite_walk *walk);

/* Goes on to the next list of a walk, which is empty after the last one. It is an error if what runs on the connection is
 * interrupted, unless that list is the first. */
struct outcome jsonpath_sqlite_walk_next(sqlite3 *database, struct jsonpath_sqlite_walk *walk);

/* Ends a walk, wherever it is. */
void jsonpath_sqlite_walk_end(struct jsonpath_sqlite_walk *walk);

/* Makes an outcome the answer of a function or of a column, and frees its text. */
void jsonpath_sqlite_report(sqlite3_context *context, struct outcome outcome);

/* Adds the table jsonpath_each to a connection. Returns a code of SQLite. */
int jsonpath_sqlite_add_each(sqlite3 *database);

#endif
