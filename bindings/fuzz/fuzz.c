/* A harness of libFuzzer over the calls of jsonpath.h.
 *
 * The first byte of an input says how it is asked. The rest is a path and a document, split at the first NUL; without a NUL all of
 * it is the path, and the document is empty. There is no second implementation: each call is held to the others, and to what the
 * header says of it. A fact that does not hold is printed, and ends the process. */
#include <ctype.h>
#include <pthread.h>
#include <stdatomic.h>
#include <stdio.h>
#include <stdlib.h>
#include <string.h>
#include <time.h>

#include "jsonpath.h"

/* What the first byte asks for. Its other bits are free. */
#define BY_ALL_NUMBERS 1 /* The rule for numbers. */
#define IN_TWO_THREADS 2 /* Meanwhile a second thread asks by the other rule, with handles of its own. */

#define MOST_NODES 1000
#define MOST_BYTES 65536
#define LONG 1024           /* Shorter documents are read whole. */
#define MOST_SECONDS 0.05   /* A query that takes longer is not asked again. */
#define GUARD 16            /* Bytes behind what a call may write. */
#define MARK 0xA5           /* What bytes hold that no call may write. */
#define UNTOUCHED ((size_t)0xA5A5A5A5)

#define HOLD(fact) ((fact) ? (void)0 : broken(#fact, __LINE__))

/* Ends the process, since a fact does not hold. */
static void broken(const char *fact, int line) {
    fprintf(stderr, "fuzz.c:%d: does not hold: %s\n", line, fact);
    abort();
}

static const struct jsonpath_limits NO_LIMITS = {SIZE_MAX, SIZE_MAX};

/* ---- What the fuzzer is told. The library counts no branches, so the harness says which inputs show something new. */

#define TOKENS "$@.*[]?(),:!&|=<>-'\"lcvmstfn"
#define CLASSES sizeof TOKENS /* The tokens, and any other. */
#define TRIPLES (CLASSES * CLASSES * CLASSES)
#define LETTERS 128
#define KINDS 32
#define SIZES 64
enum { PATHS = 0, REFUSALS = PATHS + TRIPLES, NODES = REFUSALS + KINDS * LETTERS, COUNTS = NODES + KINDS * SIZES };

/* Only the fuzzer reads them, which the compiler does not see. */
__attribute__((section("__libfuzzer_extra_counters"))) static volatile _Atomic uint8_t shown[COUNTS + SIZES];

/* Tells of a feature of the input, in either thread. */
static void show(size_t feature) { atomic_store_explicit(&shown[feature], 1, memory_order_relaxed); }

/* How many bits a size has. */
static size_t bits(size_t size) { return size == 0 ? 0 : SIZES - 1 - (size_t)__builtin_clzl(size); }

/* ---- Texts. */

/* Bytes in a block of their own, which whoever holds it frees. */
struct text {
    uint8_t *bytes;
    size_t length;
};

/* A block, which is never refused. */
static uint8_t *block(size_t length) {
    uint8_t *bytes = malloc(length == 0 ? 1 : length);
    HOLD(bytes != NULL);
    return bytes;
}

/* A copy with nothing behind it, so that reads beyond its end show. */
static struct text copy(const void *bytes, size_t length) {
    struct text copied = {block(length), length};
    memcpy(copied.bytes, bytes, length);
    return copied;
}

/* A copy with blanks behind it. A document that long is read only as far as the path can reach. */
static struct text with_blanks(struct text text) {
    struct text longer = {block(text.length + LONG), text.length + LONG};
    memcpy(longer.bytes, text.bytes, text.length);
    memset(longer.bytes + text.length, ' ', LONG);
    return longer;
}

/* Whether two texts are the same. */
static int same(struct text one, struct text other) {
    return one.length == other.length && memcmp(one.bytes, other.bytes, one.length) == 0;
}

/* Whether all bytes are as they were marked. */
static int is_marked(const uint8_t *bytes, size_t length) {
    for (size_t at = 0; at < length; at++) {
        if (bytes[at] != MARK) return 0;
    }
    return 1;
}

/* Takes a piece from the start of what is left, where it must be. */
static void take(struct text *left, const uint8_t *piece, size_t length) {
    HOLD(length <= left->length && memcmp(left->bytes, piece, length) == 0);
    left->bytes += length;
    left->length -= length;
}

/* Takes a piece, and a byte behind it. */
static void take_with(struct text *left, struct text piece, char end) {
    take(left, piece.bytes, piece.length);
    take(left, (const uint8_t *)&end, 1);
}

/* The bytes of the first line, with its line feed. */
static size_t line_length(struct text lines) {
    const uint8_t *end = memchr(lines.bytes, '\n', lines.length);
    HOLD(end != NULL);
    return (size_t)(end - lines.bytes) + 1;
}

/* Where the token ends that begins at a place: a string, a word, a number, or one byte. */
static size_t token_end(struct text path, size_t at) {
    uint8_t first = path.bytes[at++];
    int quoted = first == '\'' || first == '"';
    if (!quoted && !isalnum(first)) return at;
    while (at < path.length && (quoted ? path.bytes[at] != first : isalnum(path.bytes[at]))) {
        at += path.bytes[at] == '\\' ? 2 : 1;
    }
    return quoted ? at + 1 : at;
}

/* Tells which three tokens stand side by side in a path. */
static void show_path(struct text path) {
    size_t triple = 0;
    for (size_t at = 0; at < path.length; at = token_end(path, at)) {
        const char *token = memchr(TOKENS, path.bytes[at], CLASSES - 1);
        triple = (triple * CLASSES + (token == NULL ? CLASSES - 1 : (size_t)(token - TOKENS))) % TRIPLES;
        show(PATHS + triple);
    }
}

/* Tells of a refusal by its kind and the byte where it is. */
static void show_refusal(struct text path, struct jsonpath_refusal refusal) {
    if (refusal.position > path.length) return;
    uint8_t byte = path.bytes[refusal.position - 1];
    show(REFUSALS + refusal.kind * LETTERS + (byte < LETTERS ? byte : LETTERS - 1));
}

/* ---- Calls that write to `out`. */

/* What a call is asked; each reads what it needs. */
struct question {
    struct text path_text, document_text;
    const jsonpath_path *path;
    const jsonpath_document *document;
    const jsonpath_nodes *nodes;
    size_t index, position; /* The position is where the document is refused. */
    uint8_t form, numbers;
    struct jsonpath_limits limits;
};

typedef uint8_t writer(const struct question *asked, uint8_t *out, size_t out_length, size_t *length);

static uint8_t write_message(const struct question *asked, uint8_t *out, size_t out_length, size_t *length) {
    return jsonpath_message(asked->path_text.bytes, asked->path_text.length, asked->numbers, out, out_length, length);
}

static uint8_t write_hint(const struct question *asked, uint8_t *out, size_t out_length, size_t *length) {
    return jsonpath_hint(asked->path_text.bytes, asked->path_text.length, asked->numbers, out, out_length, length);
}

static uint8_t write_path(const struct question *asked, uint8_t *out, size_t out_length, size_t *length) {
    return jsonpath_path_text(asked->path, out, out_length, length);
}

static uint8_t write_lines(const struct question *asked, uint8_t *out, size_t out_length, size_t *length) {
    return jsonpath_lines(asked->path, asked->document, asked->form, &asked->limits, out, out_length, length);
}

static uint8_t write_lines_in(const struct question *asked, uint8_t *out, size_t out_length, size_t *length) {
    size_t position = UNTOUCHED;
    uint8_t status = jsonpath_lines_in(asked->path, asked->document_text.bytes, asked->document_text.length, asked->form,
                                       &asked->limits, out, out_length, length, &position);
    HOLD(position == asked->position);
    return status;
}

static uint8_t write_fault(const struct question *asked, uint8_t *out, size_t out_length, size_t *length) {
    return jsonpath_document_message(asked->document_text.bytes, asked->document_text.length, out, out_length, length);
}

static uint8_t write_location(const struct question *asked, uint8_t *out, size_t out_length, size_t *length) {
    return jsonpath_node_location(asked->nodes, asked->index, out, out_length, length);
}

static uint8_t write_pointer(const struct question *asked, uint8_t *out, size_t out_length, size_t *length) {
    return jsonpath_node_pointer(asked->nodes, asked->index, out, out_length, length);
}

static uint8_t write_string(const struct question *asked, uint8_t *out, size_t out_length, size_t *length) {
    return jsonpath_node_text(asked->nodes, asked->document, asked->index, out, out_length, length);
}

static uint8_t write_json(const struct question *asked, uint8_t *out, size_t out_length, size_t *length) {
    return jsonpath_node_json(asked->nodes, asked->document, asked->index, out, out_length, length);
}

/* The call with two texts of a form. Of a path that it takes, the refusal stays as it was. */
static uint8_t write_report(const struct question *asked, uint8_t *out, size_t out_length, size_t *length) {
    static uint8_t (*const calls[])(const uint8_t *, size_t, const uint8_t *, size_t, uint8_t *, size_t, size_t *,
                                    struct jsonpath_refusal *) = {jsonpath_report, jsonpath_values, jsonpath_locations};
    struct jsonpath_refusal refusal = {MARK, UNTOUCHED};
    uint8_t status = calls[asked->form](asked->path_text.bytes, asked->path_text.length, asked->document_text.bytes,
                                        asked->document_text.length, out, out_length, length, &refusal);
    HOLD(status == JSONPATH_PATH_REFUSED || (refusal.kind == MARK && refusal.position == UNTOUCHED));
    return status;
}

/* Asks with room for so many bytes, and holds the call to what it may write. */
static uint8_t ask(writer *call, const struct question *asked, size_t room, struct text *answer) {
    answer->bytes = block(room + GUARD);
    memset(answer->bytes, MARK, room + GUARD);
    answer->length = UNTOUCHED;
    uint8_t status = call(asked, answer->bytes, room, &answer->length);
    int answered = status == JSONPATH_DONE || status == JSONPATH_CUT_SHORT;
    HOLD(is_marked(answer->bytes + (answered ? room : 0), answered ? GUARD : room + GUARD));
    if (answered) {
        HOLD(answer->length <= room);
    } else if (status == JSONPATH_NO_ROOM) {
        HOLD(answer->length > room);
    } else {
        HOLD(answer->length == UNTOUCHED);
        answer->length = 0;
    }
    return status;
}

/* Asks with as much room as the call says that it needs. With none, or one byte less, it says the same. */
static uint8_t ask_all(writer *call, const struct question *asked, struct text *answer) {
    uint8_t status = ask(call, asked, 0, answer);
    if (status != JSONPATH_NO_ROOM) return status;
    size_t needed = answer->length;
    free(answer->bytes);
    HOLD(ask(call, asked, needed - 1, answer) == JSONPATH_NO_ROOM && answer->length == needed);
    free(answer->bytes);
    status = ask(call, asked, needed, answer);
    HOLD(answer->length == needed);
    return status;
}

/* The answer of a call that has one. */
static struct text answer_of(writer *call, const struct question *asked) {
    struct text answer;
    HOLD(ask_all(call, asked, &answer) == JSONPATH_DONE);
    return answer;
}

/* Holds a call to a status with which it writes nothing. */
static void hold_refused(writer *call, const struct question *asked, uint8_t wanted) {
    struct text answer;
    HOLD(ask_all(call, asked, &answer) == wanted);
    free(answer.bytes);
}

/* ---- Paths. */

/* Compiles a text, and holds the status and the refusal to what the header says. */
static uint8_t compile(struct text text, uint8_t numbers, jsonpath_path **path, struct jsonpath_refusal *refusal) {
    *refusal = (struct jsonpath_refusal){MARK, UNTOUCHED};
    uint8_t status = jsonpath_path_new(text.bytes, text.length, numbers, path, refusal);
    if (status == JSONPATH_PATH_REFUSED) {
        HOLD(refusal->kind >= JSONPATH_EXPECTED_ROOT && refusal->kind <= JSONPATH_FRACTION_TOO_LONG);
        HOLD(refusal->position >= 1 && refusal->position <= text.length + 1);
    } else {
        HOLD(status == JSONPATH_DONE || status == JSONPATH_NOT_UTF8);
        HOLD(refusal->kind == MARK && refusal->position == UNTOUCHED);
    }
    return status;
}

/* Compiles a text that must be a path by a rule for numbers. */
static jsonpath_path *compiled(struct text text, uint8_t numbers) {
    struct jsonpath_refusal refusal;
    jsonpath_path *path = NULL;
    HOLD(compile(text, numbers, &path, &refusal) == JSONPATH_DONE && path != NULL);
    return path;
}

/* Compiles the path of the document's root. */
static jsonpath_path *compiled_root(void) {
    uint8_t root = '$';
    return compiled((struct text){&root, 1}, JSONPATH_WHOLE_NUMBERS);
}

/* Holds the calls on a path's text to what compiling it answered. */
static void check_text(struct text text, uint8_t numbers, uint8_t status, struct jsonpath_refusal wanted) {
    struct question asked = {.path_text = text, .numbers = numbers};
    struct jsonpath_refusal refusal = {MARK, UNTOUCHED};
    struct text message, hint;
    HOLD(jsonpath_check(text.bytes, text.length, numbers, &refusal) == status);
    HOLD(refusal.kind == wanted.kind && refusal.position == wanted.position);
    uint8_t said = status == JSONPATH_NOT_UTF8 ? status : JSONPATH_DONE;
    HOLD(ask_all(write_message, &asked, &message) == said && message.length <= 100);
    HOLD(ask_all(write_hint, &asked, &hint) == said && hint.length <= 100);
    HOLD((message.length > 0) == (status == JSONPATH_PATH_REFUSED));
    HOLD(hint.length == 0 || status == JSONPATH_PATH_REFUSED);
    free(message.bytes);
    free(hint.bytes);
}

/* A text that is refused by a rule for numbers leaves an empty handle empty, and a full one as it was. */
static void check_refused(struct text text, uint8_t numbers, uint8_t status, const jsonpath_path *path) {
    struct jsonpath_refusal refusal;
    HOLD(path == NULL);
    hold_refused(write_path, &(struct question){.path = path}, JSONPATH_EMPTY_HANDLE);
    jsonpath_path *kept = compiled_root(), *before = kept;
    HOLD(compile(text, numbers, &kept, &refusal) == status && kept == before);
    struct text printed = answer_of(write_path, &(struct question){.path = kept});
    HOLD(printed.length == 1 && printed.bytes[0] == '$');
    free(printed.bytes);
    jsonpath_path_free(&kept);
    HOLD(kept == NULL);
}

/* What a path prints compiles by its rule for numbers to an equal path, which prints the same. */
static void check_printed(const jsonpath_path *path, uint8_t numbers) {
    uint8_t equal = MARK;
    struct text printed = answer_of(write_path, &(struct question){.path = path});
    jsonpath_path *again = compiled(printed, numbers);
    HOLD(jsonpath_path_equals(path, again, &equal) == JSONPATH_DONE && equal == 1);
    HOLD(jsonpath_path_equals(again, path, &equal) == JSONPATH_DONE && equal == 1);
    struct text printed_again = answer_of(write_path, &(struct question){.path = again});
    HOLD(same(printed, printed_again));
    show_path(printed);
    jsonpath_path_free(&again);
    free(printed.bytes);
    free(printed_again.bytes);
}

/* ---- Nodes. */

/* A list of the nodes of a question's path, of each location once where it is `unique`. */
static uint8_t choose(const struct question *asked, uint8_t unique, struct jsonpath_limits limits, jsonpath_nodes **nodes,
                      size_t *count) {
    uint8_t status = jsonpath_select(asked->path, asked->document, unique, &limits, nodes);
    HOLD(status == JSONPATH_DONE || status == JSONPATH_CUT_SHORT);
    HOLD(jsonpath_nodes_length(*nodes, count) == JSONPATH_DONE && *count <= limits.nodes);
    return status;
}

/* What is known of the node of a question. */
static struct jsonpath_node node_of(const struct question *asked) {
    struct jsonpath_node node;
    HOLD(jsonpath_node(asked->nodes, asked->index, &node) == JSONPATH_DONE && node.kind <= JSONPATH_OBJECT);
    HOLD(node.kind >= JSONPATH_STRING || node.length == 0);
    HOLD(node.kind == JSONPATH_INTEGER || node.integer == 0);
    HOLD(node.kind == JSONPATH_UNSIGNED ? node.unsigned_value > INT64_MAX : node.unsigned_value == 0);
    HOLD(node.kind == JSONPATH_DOUBLE || node.number == 0);
    show(NODES + node.kind * SIZES + bits(node.length));
    return node;
}

/* A location is a path that selects one node, the same. */
static void check_alone(const struct question *asked, struct text location, struct text json) {
    jsonpath_path *path = compiled(location, JSONPATH_WHOLE_NUMBERS);
    jsonpath_nodes *nodes = NULL;
    size_t count;
    struct question alone = {.path = path, .document = asked->document};
    HOLD(choose(&alone, 0, NO_LIMITS, &nodes, &count) == JSONPATH_DONE && count == 1);
    alone.nodes = nodes;
    struct text its_location = answer_of(write_location, &alone), its_json = answer_of(write_json, &alone);
    HOLD(same(its_location, location) && same(its_json, json));
    struct jsonpath_node wanted = node_of(asked), found = node_of(&alone);
    HOLD(found.kind == wanted.kind && found.length == wanted.length && found.integer == wanted.integer);
    HOLD(found.unsigned_value == wanted.unsigned_value);
    HOLD(memcmp(&found.number, &wanted.number, sizeof found.number) == 0);
    free(its_location.bytes);
    free(its_json.bytes);
    jsonpath_nodes_free(&nodes);
    jsonpath_path_free(&path);
}

/* The JSON of a node is a document, which prints the same. */
static void check_json(struct text json) {
    jsonpath_path *root = compiled_root();
    jsonpath_document *document = NULL;
    size_t position;
    HOLD(jsonpath_document_new(json.bytes, json.length, &document, &position) == JSONPATH_DONE);
    struct question asked = {
        .path = root, .document = document, .form = JSONPATH_VALUES, .limits = NO_LIMITS};
    struct text values = answer_of(write_lines, &asked), left = values;
    take_with(&left, json, '\n');
    HOLD(left.length == 0);
    free(values.bytes);
    jsonpath_document_free(&document);
    jsonpath_path_free(&root);
}

/* The pointer of the root is empty, and any other begins with a slash. A string has its bytes, and nothing else has any. */
static void check_pointer_and_string(const struct question *asked, struct text location) {
    struct jsonpath_node node = node_of(asked);
    struct text pointer = answer_of(write_pointer, asked);
    HOLD(location.length == 1 ? pointer.length == 0 : pointer.bytes[0] == '/');
    free(pointer.bytes);
    if (node.kind != JSONPATH_STRING) {
        hold_refused(write_string, asked, JSONPATH_NO_SUCH_NODE);
        return;
    }
    struct text string = answer_of(write_string, asked);
    HOLD(string.length == node.length);
    free(string.bytes);
}

/* Checks a node, and takes its lines from those that are left of each form. */
static void check_node(const struct question *asked, struct text left[3]) {
    struct text location = answer_of(write_location, asked), json = answer_of(write_json, asked);
    take_with(&left[JSONPATH_LINES], location, '\t');
    take_with(&left[JSONPATH_LINES], json, '\n');
    take_with(&left[JSONPATH_VALUES], json, '\n');
    take_with(&left[JSONPATH_LOCATIONS], location, '\n');
    check_alone(asked, location, json);
    check_json(json);
    check_pointer_and_string(asked, location);
    free(location.bytes);
    free(json.bytes);
}

/* There is no node behind the last, and nothing is written of it. */
static void check_no_node(struct question asked, size_t count) {
    struct jsonpath_node node;
    asked.index = count;
    HOLD(jsonpath_node(asked.nodes, count, &node) == JSONPATH_NO_SUCH_NODE);
    hold_refused(write_location, &asked, JSONPATH_NO_SUCH_NODE);
    hold_refused(write_pointer, &asked, JSONPATH_NO_SUCH_NODE);
    hold_refused(write_string, &asked, JSONPATH_NO_SUCH_NODE);
    hold_refused(write_json, &asked, JSONPATH_NO_SUCH_NODE);
}

/* Two nodes are the same one, whose location is a line without its end. */
static void check_same(const struct question *one, const struct question *other, struct text location) {
    struct jsonpath_node node = node_of(one), its_node = node_of(other);
    struct text its_location;
    HOLD(node.kind == its_node.kind && node.length == its_node.length);
    HOLD(node.integer == its_node.integer && node.unsigned_value == its_node.unsigned_value);
    HOLD(memcmp(&node.number, &its_node.number, sizeof node.number) == 0);
    HOLD(ask(write_location, one, location.length, &its_location) == JSONPATH_DONE && same(its_location, location));
    free(its_location.bytes);
}

/* The next nodes of a walk, and how many they are. */
static size_t walk_on(jsonpath_walk **walk, size_t most, jsonpath_nodes **nodes) {
    size_t length;
    HOLD(jsonpath_walk_next(walk, most, nodes) == JSONPATH_DONE && *walk != NULL);
    HOLD(jsonpath_nodes_length(*nodes, &length) == JSONPATH_DONE && length <= most);
    return length;
}

/* A walk gives the nodes of the list, none to seven at a time. Fewer are the last ones, and after them there are none. */
static void check_walk(struct question asked, struct text locations, size_t count) {
    struct question walked = asked;
    size_t most = count % 8, length;
    jsonpath_walk *walk = NULL;
    jsonpath_nodes *nodes = NULL;
    HOLD(jsonpath_walk_new(asked.path, asked.document, &walk) == JSONPATH_DONE);
    asked.index = 0;
    do {
        most = (most + 3) % 8;
        length = walk_on(&walk, most, &nodes);
        HOLD(length <= count - asked.index);
        walked.nodes = nodes;
        for (walked.index = 0; walked.index < length; walked.index++, asked.index++) {
            struct text line = {locations.bytes, line_length(locations) - 1};
            check_same(&walked, &asked, line);
            take_with(&locations, line, '\n');
        }
    } while (length == most);
    HOLD(asked.index == count && locations.length == 0 && walk_on(&walk, 3, &nodes) == 0);
    HOLD(jsonpath_walk_new(asked.path, asked.document, &walk) == JSONPATH_DONE);
    HOLD(walk_on(&walk, 2, &nodes) == (count < 2 ? count : 2));
    jsonpath_walk_free(&walk);
    HOLD(walk == NULL && jsonpath_walk_next(&walk, 1, &nodes) == JSONPATH_EMPTY_HANDLE);
    jsonpath_nodes_free(&nodes);
}

/* Checks each node of the list, and that their lines are the lines of the query. */
static void check_nodes(struct question asked, const struct text lines[3], size_t count) {
    struct text left[3] = {lines[0], lines[1], lines[2]};
    jsonpath_nodes *nodes = NULL;
    size_t listed;
    HOLD(choose(&asked, 0, NO_LIMITS, &nodes, &listed) == JSONPATH_DONE && listed == count);
    asked.nodes = nodes;
    for (asked.index = 0; asked.index < count; asked.index++) check_node(&asked, left);
    HOLD(left[0].length == 0 && left[1].length == 0 && left[2].length == 0);
    check_walk(asked, lines[JSONPATH_LOCATIONS], count);
    check_no_node(asked, count);
    jsonpath_nodes_free(&nodes);
}

/* Whether a line comes in what is before it. */
static int comes_before(struct text before, const uint8_t *line, size_t length) {
    while (before.length > 0) {
        size_t skipped = line_length(before);
        if (skipped == length && memcmp(before.bytes, line, length) == 0) return 1;
        take(&before, before.bytes, skipped);
    }
    return 0;
}

/* How many bytes the names in a location's line have. Each escape stands for one byte. */
static size_t name_bytes(const uint8_t *line, size_t length) {
    size_t bytes = 0;
    for (size_t at = 0, is_name = 0; at < length; at++) {
        if (line[at] == '\'') {
            is_name = !is_name;
        } else if (is_name) {
            bytes++;
            if (line[at] == '\\') at += line[at + 1] == 'u' ? 5 : 1;
        }
    }
    return bytes;
}

/* A list has the first nodes, as many as the limits allow, and where it is `unique` each location where it comes first. */
static void check_list(struct question asked, struct text locations, uint8_t unique, struct jsonpath_limits limits) {
    jsonpath_nodes *nodes = NULL;
    size_t listed;
    struct text left = locations;
    uint8_t status = choose(&asked, unique, limits, &nodes, &listed);
    asked.nodes = nodes;
    while (left.length > 0) {
        struct text before = {locations.bytes, (size_t)(left.bytes - locations.bytes)};
        size_t length = line_length(left), names = name_bytes(left.bytes, length);
        if (unique && comes_before(before, left.bytes, length)) {
            take(&left, left.bytes, length);
            continue;
        }
        if (limits.nodes == 0 || limits.bytes < names) break;
        struct text location = answer_of(write_location, &asked);
        take_with(&left, location, '\n');
        free(location.bytes);
        limits.nodes--, limits.bytes -= names, asked.index++;
    }
    HOLD(asked.index == listed);
    HOLD(status == (left.length > 0 ? JSONPATH_CUT_SHORT : JSONPATH_DONE));
    jsonpath_nodes_free(&nodes);
}

/* Lists with limits and without them. */
static void check_lists(struct question asked, struct text locations, size_t count) {
    check_list(asked, locations, 0, (struct jsonpath_limits){count / 2, SIZE_MAX});
    check_list(asked, locations, 0, (struct jsonpath_limits){count, locations.length});
    check_list(asked, locations, 0, (struct jsonpath_limits){SIZE_MAX, locations.length / 4});
    check_list(asked, locations, 1, NO_LIMITS);
    check_list(asked, locations, 1, (struct jsonpath_limits){count / 4, SIZE_MAX});
    check_list(asked, locations, 1, (struct jsonpath_limits){SIZE_MAX, locations.length / 8});
}

/* ---- Lines. */

/* How many bytes the lines have that come before the first one beyond the limits. */
static size_t within(struct text lines, struct jsonpath_limits limits) {
    size_t taken = 0;
    while (taken < lines.length && limits.nodes > 0) {
        size_t length = line_length((struct text){lines.bytes + taken, lines.length - taken});
        if (length > limits.bytes - taken) break;
        taken += length;
        limits.nodes--;
    }
    return taken;
}

/* With limits the lines are those before the first one beyond them. */
static void check_limits(struct question asked, struct text lines, struct jsonpath_limits limits) {
    struct text answer, wanted = {lines.bytes, within(lines, limits)};
    asked.limits = limits;
    writer *calls[] = {write_lines, write_lines_in};
    for (int at = 0; at < 2; at++) {
        uint8_t status = ask_all(calls[at], &asked, &answer);
        HOLD(status == (wanted.length < lines.length ? JSONPATH_CUT_SHORT : JSONPATH_DONE));
        HOLD(same(answer, wanted));
        free(answer.bytes);
    }
}

/* Holds the lines of a call of the document's text, as it is and with blanks behind it, which is read for the path. */
static void check_lines(writer *call, struct question asked, struct text lines) {
    struct text texts[] = {asked.document_text, with_blanks(asked.document_text)};
    for (int at = 0; at < 2; at++) {
        asked.document_text = texts[at];
        struct text answer = answer_of(call, &asked);
        HOLD(same(answer, lines));
        free(answer.bytes);
    }
    free(texts[1].bytes);
}

/* The lines of a form, without limits and with them. The call on bytes answers the same, and in the mode of whole numbers the
 * call with two texts. */
static struct text check_form(struct question asked, uint8_t form, uint8_t numbers, size_t count) {
    asked.form = form;
    struct text lines = answer_of(write_lines, &asked);
    check_limits(asked, lines, (struct jsonpath_limits){count, lines.length});
    check_limits(asked, lines, (struct jsonpath_limits){count / 2, SIZE_MAX});
    check_limits(asked, lines, (struct jsonpath_limits){SIZE_MAX, lines.length / 2});
    check_limits(asked, lines, (struct jsonpath_limits){SIZE_MAX, lines.length == 0 ? 0 : lines.length - 1});
    check_lines(write_lines_in, asked, lines);
    if (numbers == JSONPATH_WHOLE_NUMBERS) check_lines(write_report, asked, lines);
    return lines;
}

/* Whether a query answers within the bounds of the harness; what it answers is then no longer than they are. */
static int is_small(struct question asked) {
    struct text answer;
    clock_t start = clock();
    asked.limits = (struct jsonpath_limits){MOST_NODES, MOST_BYTES};
    uint8_t status = ask(write_lines, &asked, MOST_BYTES, &answer);
    HOLD(status == JSONPATH_DONE || status == JSONPATH_CUT_SHORT || status == JSONPATH_QUERY_REFUSED);
    HOLD(answer.length == within(answer, asked.limits));
    free(answer.bytes);
    return status == JSONPATH_DONE && (double)(clock() - start) / CLOCKS_PER_SEC < MOST_SECONDS;
}

/* Holds the calls that count in the document's text, as it is and with blanks behind it, to the number of nodes. */
static void check_counts(struct question asked, size_t wanted) {
    struct text texts[] = {asked.document_text, with_blanks(asked.document_text)};
    for (int at = 0; at < 2; at++) {
        struct text text = texts[at];
        size_t count = UNTOUCHED, position = UNTOUCHED;
        uint8_t exists = MARK;
        HOLD(jsonpath_count_in(asked.path, text.bytes, text.length, &count, &position) == JSONPATH_DONE && count == wanted);
        HOLD(jsonpath_exists_in(asked.path, text.bytes, text.length, &exists, &position) == JSONPATH_DONE);
        HOLD(exists == (wanted > 0) && position == UNTOUCHED);
    }
    free(texts[1].bytes);
}

/* Checks what a path selects of a document. */
static void check_query(struct question asked, uint8_t numbers) {
    size_t count = UNTOUCHED;
    uint8_t exists = MARK;
    if (!is_small(asked)) return;
    HOLD(jsonpath_count(asked.path, asked.document, &count) == JSONPATH_DONE && count <= MOST_NODES);
    HOLD(jsonpath_exists(asked.path, asked.document, &exists) == JSONPATH_DONE && exists == (count > 0));
    check_counts(asked, count);
    show(COUNTS + bits(count));
    asked.limits = NO_LIMITS;
    struct text lines[3] = {check_form(asked, JSONPATH_LINES, numbers, count),
                            check_form(asked, JSONPATH_VALUES, numbers, count),
                            check_form(asked, JSONPATH_LOCATIONS, numbers, count)};
    check_nodes(asked, lines, count);
    check_lists(asked, lines[JSONPATH_LOCATIONS], count);
    free(lines[JSONPATH_LINES].bytes);
    free(lines[JSONPATH_VALUES].bytes);
    free(lines[JSONPATH_LOCATIONS].bytes);
}

/* ---- Inputs. */

/* Reads a document. Of one that is refused the position is within the text or right behind it. */
static jsonpath_document *read_document(struct text text) {
    jsonpath_document *document = NULL;
    size_t position = UNTOUCHED;
    uint8_t status = jsonpath_document_new(text.bytes, text.length, &document, &position);
    if (status == JSONPATH_DONE) {
        HOLD(document != NULL);
    } else {
        HOLD(status == JSONPATH_DOCUMENT_REFUSED || status == JSONPATH_DOCUMENT_TOO_DEEP);
        HOLD(document == NULL && position >= 1 && position <= text.length + 1);
    }
    return document;
}

/* Holds the calls on a text that is no document to what reading it answers. */
static void check_refused_bytes(struct question asked) {
    struct text text = asked.document_text;
    jsonpath_document *none = NULL;
    size_t count = UNTOUCHED, position[2] = {UNTOUCHED, UNTOUCHED};
    uint8_t exists = MARK, status = jsonpath_document_new(text.bytes, text.length, &none, &asked.position);
    HOLD(status == JSONPATH_DOCUMENT_REFUSED || status == JSONPATH_DOCUMENT_TOO_DEEP);
    /* The call with two texts takes whole numbers, by which the path may be none. */
    if (asked.numbers == JSONPATH_WHOLE_NUMBERS) hold_refused(write_report, &asked, JSONPATH_DOCUMENT_REFUSED);
    for (asked.form = 0; asked.form <= JSONPATH_LOCATIONS; asked.form++) hold_refused(write_lines_in, &asked, status);
    HOLD(jsonpath_count_in(asked.path, text.bytes, text.length, &count, position) == status);
    HOLD(jsonpath_exists_in(asked.path, text.bytes, text.length, &exists, position + 1) == status);
    HOLD(count == UNTOUCHED && exists == MARK && position[0] == asked.position && position[1] == asked.position);
}

/* Nothing is asked of an empty document. */
static void check_no_document(struct question asked) {
    size_t count = UNTOUCHED;
    uint8_t exists = MARK;
    jsonpath_nodes *nodes = NULL;
    jsonpath_walk *walk = NULL;
    struct question longer = asked;
    longer.document_text = with_blanks(asked.document_text);
    check_refused_bytes(asked);
    check_refused_bytes(longer);
    free(longer.document_text.bytes);
    hold_refused(write_lines, &asked, JSONPATH_EMPTY_HANDLE);
    HOLD(jsonpath_count(asked.path, asked.document, &count) == JSONPATH_EMPTY_HANDLE);
    HOLD(jsonpath_exists(asked.path, asked.document, &exists) == JSONPATH_EMPTY_HANDLE);
    HOLD(jsonpath_select(asked.path, asked.document, 0, &NO_LIMITS, &nodes) == JSONPATH_EMPTY_HANDLE);
    HOLD(jsonpath_walk_new(asked.path, asked.document, &walk) == JSONPATH_EMPTY_HANDLE);
    HOLD(nodes == NULL && walk == NULL);
}

/* Something is told of bytes that are no document, and nothing of a document. */
static void check_fault(const struct question *asked) {
    struct text fault = answer_of(write_fault, asked);
    HOLD((fault.length == 0) == (asked->document != NULL) && fault.length <= 100);
    free(fault.bytes);
}

/* Checks a path, and what it selects of a document that may be empty. */
static void check_path(struct question asked, uint8_t numbers) {
    struct jsonpath_refusal refusal;
    jsonpath_path *path = NULL;
    asked.numbers = numbers;
    uint8_t status = compile(asked.path_text, numbers, &path, &refusal);
    asked.path = path;
    check_text(asked.path_text, numbers, status, refusal);
    if (status == JSONPATH_PATH_REFUSED) show_refusal(asked.path_text, refusal);
    if (status != JSONPATH_DONE) {
        check_refused(asked.path_text, numbers, status, path);
        hold_refused(write_report, &asked, status);
        hold_refused(write_lines_in, &asked, JSONPATH_EMPTY_HANDLE);
        return;
    }
    check_printed(path, numbers);
    if (asked.document == NULL) {
        check_no_document(asked);
    } else {
        check_query(asked, numbers);
    }
    jsonpath_path_free(&path);
    HOLD(path == NULL);
}

/* What a thread asks, and the document as it is read, or NULL where it is none. */
struct input {
    struct text path, document;
    jsonpath_document *read;
    uint8_t numbers;
};

/* Checks an input, with a path and texts of this thread's own. It frees its owner of the document. */
static void *check_input(void *given) {
    struct input *input = given;
    struct text path = copy(input->path.bytes, input->path.length);
    struct text text = copy(input->document.bytes, input->document.length);
    struct question asked = {.path_text = path, .document_text = text, .document = input->read, .position = UNTOUCHED};
    check_fault(&asked);
    check_path(asked, input->numbers);
    jsonpath_document_free(&input->read);
    HOLD(input->read == NULL);
    free(path.bytes);
    free(text.bytes);
    return NULL;
}

/* Checks an input in this thread, and by the other rule for numbers in another one meanwhile, of the same document. */
static void check_in_two_threads(struct input input) {
    struct input other = input;
    pthread_t thread;
    other.read = NULL;
    other.numbers = input.numbers == JSONPATH_ALL_NUMBERS ? JSONPATH_WHOLE_NUMBERS : JSONPATH_ALL_NUMBERS;
    uint8_t shared = jsonpath_document_share(input.read, &other.read);
    HOLD(shared == (input.read == NULL ? JSONPATH_EMPTY_HANDLE : JSONPATH_DONE) && !other.read == !input.read);
    HOLD(pthread_create(&thread, NULL, check_input, &other) == 0);
    check_input(&input);
    HOLD(pthread_join(thread, NULL) == 0);
}

int LLVMFuzzerTestOneInput(const uint8_t *bytes, size_t length) {
    if (length == 0) return 0;
    struct text texts = copy(bytes + 1, length - 1);
    const uint8_t *nul = length == 1 ? NULL : memchr(texts.bytes, 0, texts.length);
    size_t path_length = nul == NULL ? texts.length : (size_t)(nul - texts.bytes), skipped = path_length + (nul != NULL);
    struct input input = {.path = {texts.bytes, path_length},
                          .document = {texts.bytes + skipped, texts.length - skipped},
                          .read = read_document((struct text){texts.bytes + skipped, texts.length - skipped}),
                          .numbers = bytes[0] & BY_ALL_NUMBERS ? JSONPATH_ALL_NUMBERS : JSONPATH_WHOLE_NUMBERS};
    if (bytes[0] & IN_TWO_THREADS) {
        check_in_two_threads(input);
    } else {
        check_input(&input);
    }
    free(texts.bytes);
    return 0;
}
