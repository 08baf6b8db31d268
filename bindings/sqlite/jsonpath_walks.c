/* Nodes a list at a time, and whether to go on to the next one. */
#include <string.h>

#include "jsonpath_sqlite.h"
SQLITE_EXTENSION_INIT3

/* The first version of SQLite that tells whether it is interrupted. */
#define TELLS_INTERRUPTS 3041000

static const struct outcome DONE = {SQLITE_OK, NULL}, INTERRUPTED = {SQLITE_INTERRUPT, NULL};

/* Whether a statement is interrupted on a connection where another one runs. Once that is, each is until it has ended. */
static int ends_at_once(sqlite3 *database) {
    sqlite3_stmt *statement = NULL;
    int code = sqlite3_prepare_v2(database, "SELECT 1", -1, &statement, NULL);
    if (code == SQLITE_OK) code = sqlite3_step(statement);
    sqlite3_finalize(statement);
    return code == SQLITE_INTERRUPT;
}

int jsonpath_sqlite_is_interrupted(sqlite3 *database) {
#if SQLITE_VERSION_NUMBER >= TELLS_INTERRUPTS
    if (sqlite3_libversion_number() >= TELLS_INTERRUPTS) return sqlite3_is_interrupted(database);
#endif
    return ends_at_once(database);
}

struct outcome jsonpath_sqlite_walk_begin(const jsonpath_path *path, const jsonpath_document *document, size_t most,
                                          struct jsonpath_sqlite_walk *walk) {
    walk->most = most;
    return jsonpath_sqlite_outcome_of(jsonpath_walk_new(path, document, &walk->rest));
}

struct outcome jsonpath_sqlite_walk_next(sqlite3 *database, struct jsonpath_sqlite_walk *walk) {
    size_t before = walk->before + walk->length, left = walk->most - before, most = left < LIST ? left + 1 : LIST;
    walk->before = before;
    walk->length = 0;
    if (!walk->rest) return DONE;
    if (before && jsonpath_sqlite_is_interrupted(database)) return INTERRUPTED;
    uint8_t status = jsonpath_walk_next(&walk->rest, most, &walk->nodes);
    if (status != JSONPATH_DONE) return jsonpath_sqlite_outcome_of(status);
    jsonpath_nodes_length(walk->nodes, &walk->length);
    if (walk->length < most) jsonpath_walk_free(&walk->rest);
    return DONE;
}

void jsonpath_sqlite_walk_end(struct jsonpath_sqlite_walk *walk) {
    jsonpath_walk_free(&walk->rest);
    jsonpath_nodes_free(&walk->nodes);
    memset(walk, 0, sizeof *walk);
}
