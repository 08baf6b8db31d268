/* Lines of the nodes that a path selects, of which the functions make arrays, and how many there are. The lines of one list come by
 * one call, for which a document is read as far as the path can reach. If there are more nodes, all come from the start, a list at a
 * time, so that a query can be interrupted. */
#include "jsonpath_sqlite.h"
SQLITE_EXTENSION_INIT3

/* How much room lines find at first beyond the document's length: enough for most. */
#define MORE_ROOM 256
/* How much locations find that are only counted, of a document that is not short: enough for most lists of them. */
#define COUNTED_ROOM 65536

static const struct outcome DONE = {SQLITE_OK, NULL}, NO_MEMORY = {SQLITE_NOMEM, NULL}, TOO_LONG = {SQLITE_TOOBIG, NULL};

/* Writes lines by a call for what is asked. */
static uint8_t call_lines(const struct asked *asked, uint8_t form, const struct jsonpath_limits *limits, uint8_t *out, size_t room,
                          size_t *length, size_t *position) {
    if (asked->read) return jsonpath_lines(asked->path, asked->read, form, limits, out, room, length);
    return jsonpath_lines_in(asked->path, asked->document.bytes, asked->document.length, form, limits, out, room, length, position);
}

/* Writes the lines of a form, which find so much room at first. `*status` is that of the call. */
static struct outcome write_lines(const struct asked *asked, uint8_t form, const struct jsonpath_limits *limits, size_t room,
                                  struct lines *lines, uint8_t *status) {
    size_t position = 1;
    do {
        sqlite3_free(lines->memory);
        lines->memory = sqlite3_malloc64(room + 2);
        if (!lines->memory) return NO_MEMORY;
        lines->room = room;
        *status = call_lines(asked, form, limits, lines->memory + 1, room, &lines->length, &position);
        room = lines->length;
    } while (*status == JSONPATH_NO_ROOM);
    return jsonpath_sqlite_outcome(*status, asked->document, position);
}

/* How many lines there are. */
static size_t lines_in(const struct lines *lines) {
    size_t count = 0;
    for (size_t at = 1; at <= lines->length; at++) count += lines->memory[at] == '\n';
    return count;
}

struct outcome jsonpath_sqlite_first_line(const struct asked *asked, struct lines *lines) {
    const struct jsonpath_limits first = {1, SIZE_MAX};
    uint8_t status;
    return write_lines(asked, JSONPATH_VALUES, &first, asked->document.length + MORE_ROOM, lines, &status);
}

/* What is made of all nodes. */
struct made {
    const struct asked *asked;
    const jsonpath_document *document; /* Which is asked. */
    struct jsonpath_limits limits;
    uint8_t form;
    struct lines *lines; /* Of that form, within the limits. */
    size_t count;        /* How many nodes came. */
};

/* A call for each list of nodes. */
typedef struct outcome list_call(struct made *made, const struct jsonpath_sqlite_walk *walk);

/* Hands all nodes to a call, a list at a time. */
static struct outcome walk_lists(struct made *made, list_call *call) {
    sqlite3 *database = sqlite3_context_db_handle(made->asked->context);
    struct jsonpath_sqlite_walk walk = {0};
    struct outcome outcome = jsonpath_sqlite_walk_begin(made->asked->path, made->document, made->limits.nodes, &walk);
    while (!outcome.code && walk.rest) {
        outcome = jsonpath_sqlite_walk_next(database, &walk);
        if (!outcome.code) outcome = call(made, &walk);
    }
    jsonpath_sqlite_walk_end(&walk);
    return outcome;
}

/* The same, of a document that is read for it where that is not done. */
static struct outcome walk_document(struct made *made, list_call *call) {
    const struct asked *asked = made->asked;
    made->document = asked->read;
    if (asked->read) return walk_lists(made, call);
    jsonpath_document *document = NULL;
    size_t position = 1;
    uint8_t status = jsonpath_document_new(asked->document.bytes, asked->document.length, &document, &position);
    made->document = document;
    struct outcome outcome = jsonpath_sqlite_outcome(status, asked->document, position);
    if (!outcome.code) outcome = walk_lists(made, call);
    jsonpath_document_free(&document);
    return outcome;
}

static struct outcome count_list(struct made *made, const struct jsonpath_sqlite_walk *walk) {
    made->count += walk->length;
    return DONE;
}

struct outcome jsonpath_sqlite_count(const struct asked *asked, size_t *count) {
    const struct jsonpath_limits first = {LIST, SIZE_MAX};
    struct made made = {.asked = asked, .limits = {SIZE_MAX, SIZE_MAX}};
    struct lines lines = {0};
    size_t room = asked->read ? asked->document.length + MORE_ROOM : COUNTED_ROOM;
    uint8_t status = JSONPATH_DONE;
    struct outcome outcome = write_lines(asked, JSONPATH_LOCATIONS, &first, room, &lines, &status);
    if (!outcome.code && status == JSONPATH_DONE) made.count = lines_in(&lines);
    sqlite3_free(lines.memory);
    if (status == JSONPATH_CUT_SHORT) outcome = walk_document(&made, count_list);
    *count = made.count;
    return outcome;
}

/* Which limit there is more than, by how many nodes are within all. */
static struct outcome beyond(const struct made *made, size_t nodes) {
    if (nodes < made->limits.nodes && made->limits.bytes < made->asked->limits.bytes) return TOO_LONG;
    return jsonpath_sqlite_beyond(&made->limits, nodes, made->form == JSONPATH_VALUES ? "the values" : "the locations");
}

/* Makes room for so many bytes of lines, which are within the limit, or for twice as many as there was. */
static struct outcome make_room(const struct made *made, size_t length) {
    struct lines *lines = made->lines;
    size_t room = lines->room > length / 2 ? 2 * lines->room : length;
    if (room > made->limits.bytes) room = made->limits.bytes;
    uint8_t *larger = sqlite3_realloc64(lines->memory, room + 2);
    if (!larger) return NO_MEMORY;
    lines->memory = larger;
    lines->room = room;
    return DONE;
}

/* Writes what stands in the line of a node after the lines that are there. */
static uint8_t write_node(const struct made *made, const jsonpath_nodes *nodes, size_t index, size_t *length) {
    uint8_t *end = made->lines->memory + 1 + made->lines->length;
    size_t room = made->lines->room - made->lines->length;
    if (made->form == JSONPATH_LOCATIONS) return jsonpath_node_location(nodes, index, end, room, length);
    return jsonpath_node_json(nodes, made->document, index, end, room, length);
}

/* Appends the line of a node in a list. */
static struct outcome append_line(struct made *made, const struct jsonpath_sqlite_walk *walk, size_t index) {
    struct lines *lines = made->lines;
    size_t length = 0;
    uint8_t status;
    if (made->count == made->limits.nodes) return beyond(made, made->count);
    do {
        status = write_node(made, walk->nodes, index, &length);
        if (status != JSONPATH_DONE && status != JSONPATH_NO_ROOM) return jsonpath_sqlite_outcome_of(status);
        if (length >= made->limits.bytes - lines->length) return beyond(made, made->count);
        size_t all = lines->length + length + 1; /* With the line feed. */
        struct outcome outcome = all > lines->room ? make_room(made, all) : DONE;
        if (outcome.code) return outcome;
    } while (status == JSONPATH_NO_ROOM);
    lines->length += length + 1;
    lines->memory[lines->length] = '\n';
    made->count++;
    return DONE;
}

static struct outcome append_list(struct made *made, const struct jsonpath_sqlite_walk *walk) {
    struct outcome outcome = DONE;
    for (size_t at = 0; at < walk->length && !outcome.code; at++) outcome = append_line(made, walk, at);
    return outcome;
}

/* No text of SQLite is longer than its own limit, so the lines need not be either. */
struct outcome jsonpath_sqlite_lines(const struct asked *asked, uint8_t form, struct lines *lines) {
    size_t longest = (size_t)sqlite3_limit(sqlite3_context_db_handle(asked->context), SQLITE_LIMIT_LENGTH, -1);
    struct made made = {.asked = asked, .limits = asked->limits, .form = form, .lines = lines};
    if (made.limits.bytes > longest) made.limits.bytes = longest;
    struct jsonpath_limits first = made.limits;
    if (first.nodes > LIST) first.nodes = LIST;
    uint8_t status = JSONPATH_DONE;
    struct outcome outcome = write_lines(asked, form, &first, asked->document.length + MORE_ROOM, lines, &status);
    if (outcome.code || status != JSONPATH_CUT_SHORT) return outcome;
    size_t nodes = lines_in(lines);
    if (nodes < first.nodes || first.nodes == made.limits.nodes) return beyond(&made, nodes);
    lines->length = 0;
    return walk_document(&made, append_list);
}
