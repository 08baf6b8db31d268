/* What the values that SQL hands over are: paths, documents and limits. */
#include "jsonpath_sqlite.h"
SQLITE_EXTENSION_INIT3

static const struct outcome DONE = {SQLITE_OK, NULL}, NO_MEMORY = {SQLITE_NOMEM, NULL};

int jsonpath_sqlite_is_null(sqlite3_value *value) {
    return sqlite3_value_type(value) == SQLITE_NULL;
}

/* The text of a value, as UTF-8. */
static struct outcome text_of(sqlite3_value *value, struct text *text) {
    text->bytes = sqlite3_value_text(value);
    text->length = (size_t)sqlite3_value_bytes(value);
    return text->bytes ? DONE : NO_MEMORY;
}

/* What a value that is no text is called. */
static const char *name_of(sqlite3_value *value) {
    switch (sqlite3_value_type(value)) {
        case SQLITE_INTEGER: return "an INTEGER";
        case SQLITE_FLOAT: return "a REAL";
        case SQLITE_BLOB: return "a BLOB";
        default: return "NULL";
    }
}

/* The text of a value that has to be one to be a path. */
static struct outcome path_text(sqlite3_value *value, struct text *text) {
    if (sqlite3_value_type(value) == SQLITE_TEXT) return text_of(value, text);
    return jsonpath_sqlite_error(sqlite3_mprintf("the path is no TEXT: it is %s", name_of(value)));
}

struct outcome jsonpath_sqlite_path(sqlite3_value *value, jsonpath_path **path) {
    struct text text;
    struct outcome outcome = path_text(value, &text);
    if (outcome.code) return outcome;
    struct jsonpath_refusal refusal;
    uint8_t status = jsonpath_path_new(text.bytes, text.length, JSONPATH_ALL_NUMBERS, path, &refusal);
    return status == JSONPATH_PATH_REFUSED ? jsonpath_sqlite_refused(text, &refusal) : jsonpath_sqlite_outcome_of(status);
}

struct outcome jsonpath_sqlite_path_error(sqlite3_value *value) {
    struct text text;
    struct outcome outcome = path_text(value, &text);
    if (outcome.code) return outcome;
    struct jsonpath_refusal refusal;
    uint8_t status = jsonpath_check(text.bytes, text.length, JSONPATH_ALL_NUMBERS, &refusal);
    return status == JSONPATH_PATH_REFUSED ? jsonpath_sqlite_refused(text, &refusal) : jsonpath_sqlite_outcome_of(status);
}

/* The types of elements of JSONB, SQLite's binary form of JSON: from 0 on null, true and false, which have no content, and at the
 * end array and object, whose content is elements. */
#define LAST_CONSTANT 2
#define ARRAY 11
#define OBJECT 12

/* How many bytes the element of JSONB takes that begins some bytes, and how many of these are its head; 0 where none does. */
static size_t element(const uint8_t *bytes, size_t length, size_t *head) {
    uint8_t type = bytes[0] & 15, code = bytes[0] >> 4;
    size_t size = code;
    *head = code < 12 ? 1 : 1 + ((size_t)1 << (code - 12));
    if (type > OBJECT || length < *head) return 0;
    if (code >= 12) size = 0;
    for (size_t at = 1; at < *head; at++) size = size << 8 | bytes[at];
    if (size > length - *head || (type <= LAST_CONSTANT && size)) return 0;
    return *head + size;
}

/* Whether bytes have the form of JSONB, as far as the outermost array or object shows. */
static int is_jsonb(struct text text) {
    size_t at, head;
    if (!text.length || element(text.bytes, text.length, &at) != text.length) return 0;
    if ((text.bytes[0] & 15) < ARRAY) return 1;
    while (at < text.length) {
        size_t size = element(text.bytes + at, text.length - at, &head);
        if (!size) return 0;
        at += size;
    }
    return 1;
}

/* The bytes of a BLOB. One that is JSONB is refused, also where it reads as a JSON text too, as SQLite takes it as JSONB. */
static struct outcome blob_of(sqlite3_value *value, struct text *text) {
    text->bytes = sqlite3_value_blob(value);
    text->length = (size_t)sqlite3_value_bytes(value);
    if (!text->bytes && text->length) return NO_MEMORY;
    if (!text->bytes) text->bytes = (const uint8_t *)"";
    if (!is_jsonb(*text)) return DONE;
    return jsonpath_sqlite_error(sqlite3_mprintf("the document is JSONB, SQLite's binary form of JSON: hand over json(..) of it"));
}

struct outcome jsonpath_sqlite_document(sqlite3_value *value, struct text *document) {
    return sqlite3_value_type(value) == SQLITE_BLOB ? blob_of(value, document) : text_of(value, document);
}

/* The limit that a value sets. */
static struct outcome limit_of(sqlite3_value *value, const char *what, size_t *limit) {
    *limit = SIZE_MAX;
    if (!value || jsonpath_sqlite_is_null(value)) return DONE;
    sqlite3_int64 most = sqlite3_value_int64(value);
    if (sqlite3_value_type(value) != SQLITE_INTEGER || most < 0) {
        return jsonpath_sqlite_error(sqlite3_mprintf("the limit of %s is no INTEGER from 0 on", what));
    }
    *limit = (size_t)most;
    return DONE;
}

struct outcome jsonpath_sqlite_limits(sqlite3_value *nodes, sqlite3_value *bytes, struct jsonpath_limits *limits) {
    struct outcome outcome = limit_of(nodes, "nodes", &limits->nodes);
    return outcome.code ? outcome : limit_of(bytes, "bytes", &limits->bytes);
}
