/* What the calls of jsonpath.h answer, what they write, and what they leave alone: test [FILE].., where the files have cases in
 * the form of conformance/README.md. */
#include <pthread.h>
#include <stdio.h>
#include <stdlib.h>
#include <string.h>

#include "jsonpath.h"

#define UNTOUCHED 0xa5
#define ROOM 4096

typedef uint8_t lines_call(const uint8_t *, size_t, const uint8_t *, size_t, uint8_t *, size_t, size_t *,
                           struct jsonpath_refusal *);

static _Atomic int failures;

/* How many requests of a thread for memory are granted, and how many blocks it has that are not freed. The linker puts these in the
 * place of malloc, realloc and free (--wrap). */
static _Thread_local size_t granted = SIZE_MAX, blocks;
void *__real_malloc(size_t), *__real_realloc(void *, size_t), __real_free(void *);
void *__wrap_malloc(size_t length) {
    void *made = granted && granted-- ? __real_malloc(length) : NULL;
    blocks += made != NULL;
    return made;
}
void *__wrap_realloc(void *memory, size_t length) {
    void *made = granted && granted-- ? __real_realloc(memory, length) : NULL;
    blocks += made != NULL && memory == NULL;
    return made;
}
void __wrap_free(void *memory) {
    blocks -= memory != NULL;
    __real_free(memory);
}

/* Prints what does not hold. */
static void holds(int condition, const char *what, const char *path) {
    if (!condition) {
        failures++;
        printf("%s: %s\n", path, what);
    }
}

/* Whether each byte is as `fill` left it. */
static int is_untouched(const void *memory, size_t length) {
    const uint8_t *bytes = memory;
    size_t at = 0;
    while (at < length && bytes[at] == UNTOUCHED) at++;
    return at == length;
}

/* What a call was lent, and what it answered. The buffer is a block of its own, so that valgrind sees what is out of it. */
struct answer {
    uint8_t status;
    uint8_t *out;
    size_t room, length;
    struct jsonpath_refusal refusal;
};

static size_t grants = SIZE_MAX; /* `granted` during a call. */

static struct answer lent(size_t room) {
    struct answer answer;
    memset(&answer, UNTOUCHED, sizeof answer);
    answer.out = malloc(room ? room : 1);
    answer.room = room;
    memset(answer.out, UNTOUCHED, room ? room : 1);
    return answer;
}

/* A copy of a text in a block of exactly its size. */
static uint8_t *copied(const char *text, size_t length) {
    return memcpy(malloc(length ? length : 1), text, length);
}

/* Calls for lines, and holds what was written to what the header says of the status. */
static struct answer asked(lines_call *call, const char *path, const char *document, size_t document_length, size_t room) {
    struct answer answer = lent(room);
    uint8_t *path_copy = copied(path, strlen(path)), *document_copy = copied(document, document_length);
    granted = grants;
    answer.status = call(path_copy, strlen(path), document_copy, document_length, answer.out, room, &answer.length,
                         &answer.refusal);
    granted = SIZE_MAX;
    free(path_copy), free(document_copy);
    int is_done = answer.status == JSONPATH_DONE, tells_length = is_done || answer.status == JSONPATH_NO_ROOM;
    holds(is_done || is_untouched(answer.out, room), "out is written", path);
    holds(tells_length || is_untouched(&answer.length, sizeof answer.length), "length is written", path);
    holds(answer.status == JSONPATH_PATH_REFUSED || is_untouched(&answer.refusal, sizeof answer.refusal),
          "refusal is written", path);
    holds(!is_done || (answer.length <= room && is_untouched(answer.out + answer.length, room - answer.length)),
          "more than length is written", path);
    return answer;
}

/* Holds a call's lines to what is wanted, with room to spare, with just enough, with a byte too little and with none. */
static void gives(lines_call *call, const char *path, const char *document, const char *lines) {
    size_t length = strlen(lines), rooms[] = {ROOM, length, length - 1, 0};
    for (int at = 0; at < (length ? 4 : 2); at++) {
        struct answer answer = asked(call, path, document, strlen(document), rooms[at]);
        int fits = length <= rooms[at];
        holds(answer.status == (fits ? JSONPATH_DONE : JSONPATH_NO_ROOM), "status", path);
        holds(answer.length == length, "length", path);
        holds(!fits || !memcmp(answer.out, lines, length), "lines", path);
        free(answer.out);
    }
}

/* Holds the status of each call for lines. */
static void answers(uint8_t status, const char *path, const char *document, size_t document_length) {
    lines_call *calls[] = {jsonpath_report, jsonpath_values, jsonpath_locations};
    for (int at = 0; at < 3; at++) {
        struct answer answer = asked(calls[at], path, document, document_length, ROOM);
        holds(answer.status == status, "status of a refusal", path);
        free(answer.out);
    }
}

/* The rule of the calls with two texts. */
enum { WHOLE = JSONPATH_WHOLE_NUMBERS };

/* Holds what each call says of a path that is refused. */
static void refuses(const char *path, uint32_t kind, size_t position, const char *message) {
    struct answer answer = asked(jsonpath_report, path, "{", 1, ROOM);
    holds(answer.status == JSONPATH_PATH_REFUSED, "status of a path", path);
    holds(answer.refusal.kind == kind && answer.refusal.position == position, "refusal", path);
    struct jsonpath_refusal refusal;
    const uint8_t *bytes = (const uint8_t *)path;
    holds(jsonpath_check(bytes, strlen(path), WHOLE, &refusal) == JSONPATH_PATH_REFUSED, "status of a check", path);
    holds(refusal.kind == kind && refusal.position == position, "refusal of a check", path);
    size_t length = strlen(message), told = 0;
    memset(answer.out, UNTOUCHED, ROOM);
    holds(jsonpath_message(bytes, strlen(path), WHOLE, answer.out, length - 1, &told) == JSONPATH_NO_ROOM, "short room", path);
    holds(told == length && is_untouched(answer.out, ROOM), "short room is written", path);
    holds(jsonpath_message(bytes, strlen(path), WHOLE, answer.out, ROOM, &told) == JSONPATH_DONE, "status of a message", path);
    holds(told == length && !memcmp(answer.out, message, length), "message", path);
    holds(is_untouched(answer.out + length, ROOM - length), "message is too long", path);
    free(answer.out);
}

/* Holds the hint of a path to what is wanted, with room to spare, with just enough and with a byte too little. */
static void hints(const char *path, const char *hint) {
    const uint8_t *bytes = (const uint8_t *)path;
    size_t length = strlen(hint), rooms[] = {ROOM, length, length - 1};
    for (int at = 0; at < (length ? 3 : 2); at++) {
        struct answer answer = lent(rooms[at]);
        int fits = length <= rooms[at];
        uint8_t status = jsonpath_hint(bytes, strlen(path), WHOLE, answer.out, rooms[at], &answer.length);
        holds(status == (fits ? JSONPATH_DONE : JSONPATH_NO_ROOM), "status of a hint", path);
        holds(answer.length == length, "length of a hint", path);
        holds(!fits || !memcmp(answer.out, hint, length), "hint", path);
        holds(is_untouched(answer.out + (fits ? length : 0), rooms[at] - (fits ? length : 0)), "hint is too long", path);
        free(answer.out);
    }
}

/* Refuses memory from the first request on, from the second, and so on, until a call has enough. */
static void runs_out(lines_call *call, const char *path, const char *document) {
    uint8_t status = JSONPATH_NO_MEMORY;
    for (grants = 0; status == JSONPATH_NO_MEMORY && grants < 1000; grants++) {
        struct answer answer = asked(call, path, document, strlen(document), ROOM);
        status = answer.status;
        free(answer.out);
    }
    holds(status == JSONPATH_DONE && grants > 1, "status without memory", path);
    grants = SIZE_MAX;
}

/* What is accepted, what is not UTF-8, and bytes of 0. */
static void texts(void) {
    struct jsonpath_refusal refusal;
    size_t length = 1;
    memset(&refusal, UNTOUCHED, sizeof refusal);
    holds(jsonpath_check((const uint8_t *)"$..a", 4, WHOLE, &refusal) == JSONPATH_DONE, "accepted", "$..a");
    holds(jsonpath_check((const uint8_t *)"$\xff", 2, WHOLE, &refusal) == JSONPATH_NOT_UTF8, "not UTF-8", "$\\xff");
    holds(is_untouched(&refusal, sizeof refusal), "refusal is written by a check", "$..a");
    uint8_t out[1] = {UNTOUCHED};
    holds(jsonpath_message((const uint8_t *)"$", 1, WHOLE, out, 0, &length) == JSONPATH_DONE, "message of a path", "$");
    holds(length == 0, "message of a path is not empty", "$");
    length = 7;
    holds(jsonpath_message((const uint8_t *)"\xff", 1, WHOLE, out, 1, &length) == JSONPATH_NOT_UTF8, "message", "\\xff");
    holds(length == 7 && out[0] == UNTOUCHED, "message is written", "\\xff");
    holds(jsonpath_hint((const uint8_t *)"\xff", 1, WHOLE, out, 1, &length) == JSONPATH_NOT_UTF8, "hint", "\\xff");
    holds(length == 7 && out[0] == UNTOUCHED, "hint is written", "\\xff");
    granted = 0;
    uint8_t status = jsonpath_hint((const uint8_t *)"$..a", 4, WHOLE, out, 1, &length);
    granted = SIZE_MAX;
    holds(status == JSONPATH_NO_MEMORY, "hint without memory", "$..a");
    holds(length == 7 && out[0] == UNTOUCHED, "hint is written without memory", "$..a");
    holds(jsonpath_check((const uint8_t *)"$\0", 2, WHOLE, &refusal) == JSONPATH_PATH_REFUSED, "NUL", "$\\0");
    holds(refusal.kind == JSONPATH_TEXT_AFTER_PATH && refusal.position == 2, "refusal of NUL", "$\\0");
    holds(jsonpath_version() == 702, "version", "0.7.2");
}

/* ---- Handles. */

/* What a call is asked with. */
struct asked_with {
    jsonpath_path *path;
    jsonpath_document *document;
    jsonpath_nodes *nodes;
    size_t index; /* Of a node. */
    uint8_t form; /* Of lines, as `limits`. */
    struct jsonpath_limits limits;
    const char *bytes; /* A document that is handed over as such. */
    jsonpath_walk *walk;
    size_t blocks; /* How many blocks there were before. */
};

static const struct jsonpath_limits NO_LIMITS = {SIZE_MAX, SIZE_MAX};

/* A call that writes a text. */
typedef uint8_t text_call(struct asked_with *, uint8_t *out, size_t out_length, size_t *length);

static uint8_t path_text(struct asked_with *with, uint8_t *out, size_t out_length, size_t *length) {
    return jsonpath_path_text(with->path, out, out_length, length);
}
static uint8_t lines(struct asked_with *with, uint8_t *out, size_t out_length, size_t *length) {
    return jsonpath_lines(with->path, with->document, with->form, &with->limits, out, out_length, length);
}
static uint8_t lines_in(struct asked_with *with, uint8_t *out, size_t out_length, size_t *length) {
    size_t position = 7;
    uint8_t status = jsonpath_lines_in(with->path, (const uint8_t *)with->bytes, strlen(with->bytes), with->form,
                                       &with->limits, out, out_length, length, &position);
    holds(position == 7, "position is written by lines", with->bytes);
    return status;
}
static uint8_t document_message(struct asked_with *with, uint8_t *out, size_t out_length, size_t *length) {
    return jsonpath_document_message((const uint8_t *)with->bytes, strlen(with->bytes), out, out_length, length);
}
static uint8_t location(struct asked_with *with, uint8_t *out, size_t out_length, size_t *length) {
    return jsonpath_node_location(with->nodes, with->index, out, out_length, length);
}
static uint8_t pointer(struct asked_with *with, uint8_t *out, size_t out_length, size_t *length) {
    return jsonpath_node_pointer(with->nodes, with->index, out, out_length, length);
}
static uint8_t text(struct asked_with *with, uint8_t *out, size_t out_length, size_t *length) {
    return jsonpath_node_text(with->nodes, with->document, with->index, out, out_length, length);
}
static uint8_t json(struct asked_with *with, uint8_t *out, size_t out_length, size_t *length) {
    return jsonpath_node_json(with->nodes, with->document, with->index, out, out_length, length);
}

/* Compiles a path that is one, in a handle that may be filled. */
static void compile(jsonpath_path **path, const char *text, uint8_t numbers) {
    struct jsonpath_refusal refusal;
    uint8_t *copy = copied(text, strlen(text));
    memset(&refusal, UNTOUCHED, sizeof refusal);
    holds(jsonpath_path_new(copy, strlen(text), numbers, path, &refusal) == JSONPATH_DONE, "compiled", text);
    holds(*path != NULL && is_untouched(&refusal, sizeof refusal), "compiled to a handle", text);
    free(copy);
}

/* Reads a document that is one, in a handle that may be filled. */
static void read_to(jsonpath_document **document, const char *text) {
    size_t position = 7;
    uint8_t *copy = copied(text, strlen(text));
    holds(jsonpath_document_new(copy, strlen(text), document, &position) == JSONPATH_DONE, "read", text);
    holds(*document != NULL && position == 7, "read to a handle", text);
    free(copy);
}

/* A path, a document, and the list of the nodes that it selects. */
static struct asked_with asked_of(const char *path, uint8_t numbers, const char *document) {
    struct asked_with with = {NULL, NULL, NULL, 0, JSONPATH_VALUES, NO_LIMITS, document, NULL, blocks};
    compile(&with.path, path, numbers);
    read_to(&with.document, document);
    uint8_t status = jsonpath_select(with.path, with.document, 0, &NO_LIMITS, &with.nodes);
    holds(status == JSONPATH_DONE && with.nodes != NULL, "selected", path);
    return with;
}

/* Frees each handle, and once more, which does nothing. As many blocks are left then as there were before. */
static void emptied(struct asked_with *with) {
    for (int times = 0; times < 2; times++) {
        jsonpath_walk_free(&with->walk); /* It needs the next two. */
        jsonpath_path_free(&with->path);
        jsonpath_document_free(&with->document);
        jsonpath_nodes_free(&with->nodes);
        holds(!with->walk && !with->path && !with->document && !with->nodes, "a handle that is freed", "NULL");
    }
    holds(blocks == with->blocks, "blocks are left", "calls on handles");
}

/* Holds a call's text to what is wanted, with room to spare, with just enough, with a byte too little and with none. */
static void writes(text_call *call, struct asked_with *with, uint8_t status, const char *wanted, const char *what) {
    size_t length = strlen(wanted), rooms[] = {ROOM, length, length - 1, 0};
    for (int at = 0; at < (length ? 4 : 2); at++) {
        struct answer answer = lent(rooms[at]);
        int fits = length <= rooms[at];
        answer.status = call(with, answer.out, rooms[at], &answer.length);
        holds(answer.status == (fits ? status : JSONPATH_NO_ROOM), "status of a text", what);
        holds(answer.length == length, "length of a text", what);
        holds(!fits || !memcmp(answer.out, wanted, length), "text", what);
        holds(is_untouched(answer.out + (fits ? length : 0), rooms[at] - (fits ? length : 0)), "text is too long", what);
        free(answer.out);
    }
}

/* Holds a call for a text to a status with which nothing is written. */
static void writes_nothing(text_call *call, struct asked_with *with, uint8_t status, const char *what) {
    struct answer answer = lent(ROOM);
    answer.status = call(with, answer.out, ROOM, &answer.length);
    holds(answer.status == status, "status without a text", what);
    holds(is_untouched(answer.out, ROOM), "out is written without a text", what);
    holds(is_untouched(&answer.length, sizeof answer.length), "length is written without a text", what);
    free(answer.out);
}

enum { BLANKS = 1024 }; /* A document that is so long is read for its path, and a shorter one whole. */

/* The document of a question with blanks after it. */
static char *longer(struct asked_with *with) {
    char *text = malloc(strlen(with->bytes) + BLANKS + 1);
    sprintf(text, "%s%*s", with->bytes, BLANKS, "");
    return text;
}

/* Holds the lines of a document, and of it as bytes, with and without blanks, to what is wanted. */
static void writes_lines_of(struct asked_with *with, uint8_t status, const char *wanted, const char *what) {
    struct asked_with of_longer = *with;
    char *bytes = longer(with);
    of_longer.bytes = bytes;
    writes(lines, with, status, wanted, what);
    writes(lines_in, with, status, wanted, what);
    writes(lines_in, &of_longer, status, wanted, what);
    free(bytes);
}

/* Holds the calls that count in bytes, with and without blanks, to the number of nodes. */
static void counts_in(struct asked_with *with, size_t nodes, const char *what) {
    char *bytes = longer(with);
    for (size_t blanks = 0; blanks <= BLANKS; blanks += BLANKS) {
        const uint8_t *text = (const uint8_t *)bytes;
        size_t count = 7, position = 7, length = strlen(with->bytes) + blanks;
        uint8_t exists = 7;
        uint8_t status = jsonpath_count_in(with->path, text, length, &count, &position);
        holds(status == JSONPATH_DONE && count == nodes && position == 7, "count in bytes", what);
        status = jsonpath_exists_in(with->path, text, length, &exists, &position);
        holds(status == JSONPATH_DONE && exists == !!nodes && position == 7, "exists in bytes", what);
    }
    free(bytes);
}

/* Holds each call on bytes, with and without blanks before them, to a status with which nothing is written but the byte where
 * they are refused; it is 0 where that is not written either. */
static void refuses_in(struct asked_with *with, const char *bytes, size_t length, uint8_t wanted, size_t byte,
                       const char *what) {
    uint8_t *text = malloc(BLANKS + length);
    memset(text, ' ', BLANKS), memcpy(text + BLANKS, bytes, length);
    for (size_t blanks = 0; blanks <= BLANKS; blanks += BLANKS) {
        const uint8_t *begin = text + BLANKS - blanks, form = with->form;
        size_t count = 7, position[3] = {0}, all = length + blanks, at = byte ? byte + blanks : 0;
        uint8_t exists = 7;
        struct answer answer = lent(ROOM);
        answer.status = jsonpath_lines_in(with->path, begin, all, form, &NO_LIMITS, answer.out, ROOM, &answer.length, position);
        holds(answer.status == wanted && position[0] == at, "lines of bytes that are refused", what);
        holds(is_untouched(answer.out, ROOM) && is_untouched(&answer.length, sizeof answer.length), "lines are written", what);
        uint8_t status = jsonpath_count_in(with->path, begin, all, &count, position + 1);
        holds(status == wanted && position[1] == at && count == 7, "count in bytes that are refused", what);
        status = jsonpath_exists_in(with->path, begin, all, &exists, position + 2);
        holds(status == wanted && position[2] == at && exists == 7, "exists in bytes that are refused", what);
        free(answer.out);
    }
    free(text);
}

/* Holds what compiled paths select to what the calls with two texts give. */
static void selects_compiled(const char *path, uint8_t numbers, const char *document, const char *report,
                             const char *values, const char *locations) {
    const char *wanted[] = {report, values, locations, report, report};
    uint8_t forms[] = {JSONPATH_LINES, JSONPATH_VALUES, JSONPATH_LOCATIONS, 3, 255}, exists = 7;
    struct asked_with with = asked_of(path, numbers, document);
    for (int at = 0; at < 5; at++) {
        with.form = forms[at];
        writes_lines_of(&with, JSONPATH_DONE, wanted[at], path);
    }
    size_t count = 7, length = 7, nodes = 0;
    for (const char *at = values; (at = strchr(at, '\n')); at++) nodes++;
    holds(jsonpath_count(with.path, with.document, &count) == JSONPATH_DONE && count == nodes, "count", path);
    holds(jsonpath_exists(with.path, with.document, &exists) == JSONPATH_DONE && exists == !!nodes, "exists", path);
    counts_in(&with, nodes, path);
    holds(jsonpath_nodes_length(with.nodes, &length) == JSONPATH_DONE && length == nodes, "length of a list", path);
    for (; with.index < nodes; with.index++) {
        char value[ROOM], place[ROOM];
        sscanf(values, "%[^\n]", value), values += strlen(value) + 1;
        sscanf(locations, "%[^\n]", place), locations += strlen(place) + 1;
        writes(json, &with, JSONPATH_DONE, value, path);
        writes(location, &with, JSONPATH_DONE, place, path);
    }
    emptied(&with);
}

/* What each line of a report has after its tab, and before it. */
static void halves(const char *report, char *values, char *locations) {
    for (int is_value = 0; *report; report++) {
        if (*report == '\n') *values++ = *locations++ = '\n';
        else if (*report != '\t') *(is_value ? values++ : locations++) = *report;
        is_value = *report == '\t' || (is_value && *report != '\n');
    }
    *values = *locations = 0;
}

/* Holds what a path selects to lines of each form. The calls with two texts take whole numbers. */
static void selects(const char *path, uint8_t numbers, const char *document, const char *report) {
    char values[ROOM], locations[ROOM];
    halves(report, values, locations);
    if (numbers == JSONPATH_WHOLE_NUMBERS) {
        gives(jsonpath_report, path, document, report);
        gives(jsonpath_values, path, document, values);
        gives(jsonpath_locations, path, document, locations);
    }
    selects_compiled(path, numbers, document, report, values, locations);
}

/* Paths: what is printed, what is equal, and refusals, which leave a handle as it was. */
static void compiled_paths(void) {
    struct asked_with with = asked_of("$[ \"a\",0 ] .b", JSONPATH_WHOLE_NUMBERS, "{}");
    const char *printed = "$['a', 0].b";
    writes(path_text, &with, JSONPATH_DONE, printed, printed);
    jsonpath_path *other = NULL, *before = with.path;
    uint8_t equal = 7;
    compile(&other, printed, JSONPATH_ALL_NUMBERS);
    holds(jsonpath_path_equals(with.path, other, &equal) == JSONPATH_DONE && equal == 1, "equal", printed);
    compile(&other, "$", 255); /* What was there is freed. */
    holds(jsonpath_path_equals(other, with.path, &equal) == JSONPATH_DONE && equal == 0, "not equal", printed);

    struct jsonpath_refusal refusal;
    uint8_t status = jsonpath_path_new((const uint8_t *)"$.a ", 4, 0, &with.path, &refusal);
    holds(status == JSONPATH_PATH_REFUSED, "refused to a handle", "$.a ");
    holds(refusal.kind == JSONPATH_TEXT_AFTER_PATH && refusal.position == 4, "refusal to a handle", "$.a ");
    memset(&refusal, UNTOUCHED, sizeof refusal);
    status = jsonpath_path_new((const uint8_t *)"$\xff", 2, 0, &with.path, &refusal);
    holds(status == JSONPATH_NOT_UTF8, "not UTF-8 to a handle", "$\\xff");
    holds(is_untouched(&refusal, sizeof refusal), "refusal is written with a handle", "$\\xff");
    writes(path_text, &with, JSONPATH_DONE, printed, "path after refusals");
    holds(with.path == before, "handle of a path after refusals", printed);
    jsonpath_path *none = NULL;
    holds(jsonpath_path_new((const uint8_t *)"", 0, 0, &none, &refusal) == JSONPATH_PATH_REFUSED, "refused", "");
    holds(none == NULL, "a path that is refused fills a handle", "");
    jsonpath_path_free(&other), emptied(&with);
}

/* Further owners of a path and a document: each has the same, takes one request for memory, and stays when the first is freed. */
static void owners(void) {
    struct asked_with with = asked_of("$[?@ > 1]", JSONPATH_ALL_NUMBERS, "[1,2,[3],3.5]");
    jsonpath_path *path = NULL;
    jsonpath_document *document = NULL;
    uint8_t equal = 7;
    compile(&path, "$", JSONPATH_WHOLE_NUMBERS); /* What was there is freed. */
    granted = 1;
    holds(jsonpath_path_share(with.path, &path) == JSONPATH_DONE && path != with.path, "status of an owner", "a path");
    granted = 1;
    holds(jsonpath_document_share(with.document, &document) == JSONPATH_DONE, "status of an owner", "a document");
    granted = SIZE_MAX;
    holds(jsonpath_path_equals(path, with.path, &equal) == JSONPATH_DONE && equal == 1, "paths of two owners", "a path");
    writes(lines, &with, JSONPATH_DONE, "2\n3.5\n", "lines beside another owner");
    jsonpath_path_free(&with.path), jsonpath_document_free(&with.document);
    with.path = path, with.document = document;
    writes(lines, &with, JSONPATH_DONE, "2\n3.5\n", "lines of the last owner");
    emptied(&with);
}

/* How many nodes a path selects by each rule for numbers. */
static void compares(const char *path, const char *document, size_t whole, size_t all) {
    uint8_t rules[] = {JSONPATH_WHOLE_NUMBERS, JSONPATH_ALL_NUMBERS, 2, 255};
    for (int at = 0; at < 4; at++) {
        struct asked_with with = asked_of(path, rules[at], document);
        size_t count = SIZE_MAX;
        holds(jsonpath_count(with.path, with.document, &count) == JSONPATH_DONE, "status by a rule", path);
        holds(count == (at ? all : whole), "count by a rule", path);
        emptied(&with);
    }
}

/* Holds the status and the byte of a document that is refused, in an empty handle and in one that is filled. */
static void refuses_document(const char *bytes, size_t length, uint8_t wanted, size_t byte) {
    struct asked_with with = asked_of("$", JSONPATH_WHOLE_NUMBERS, "[1]");
    jsonpath_document *none = NULL;
    size_t position = 0;
    uint8_t *copy = copied(bytes, length);
    holds(jsonpath_document_new(copy, length, &none, &position) == wanted, "status of a document", bytes);
    holds(none == NULL && position == byte, "byte of a document", bytes);
    jsonpath_document *before = with.document;
    holds(jsonpath_document_new(copy, length, &with.document, &position) == wanted, "status over a document", bytes);
    holds(with.document == before, "handle of a document after a refusal", bytes);
    writes(lines, &with, JSONPATH_DONE, "[1]\n", "document after a refusal");
    const char *paths[] = {"$", "$.a[0]", "$..a"};
    for (int at = 0; at < 3; at++) {
        compile(&with.path, paths[at], JSONPATH_WHOLE_NUMBERS);
        with.form = at;
        refuses_in(&with, bytes, length, wanted, byte, paths[at]);
        writes(path_text, &with, JSONPATH_DONE, paths[at], "path after a refusal");
    }
    free(copy), emptied(&with);
}

/* Arrays that nest so deep. */
static char *nested(size_t depth) {
    char *text = malloc(2 * depth + 1);
    memset(text, '[', depth), memset(text + depth, ']', depth);
    text[2 * depth] = 0;
    return text;
}

/* Documents that nest too deep: at the bracket or the brace that does, whatever comes after it. Strings do not nest. */
static void too_deep(void) {
    char *deeper = nested(128), objects[5 * 128 + 1] = "";
    refuses_document(deeper, 256, JSONPATH_DOCUMENT_TOO_DEEP, 128);
    deeper[128] = '\'';
    refuses_document(deeper, 256, JSONPATH_DOCUMENT_TOO_DEEP, 128);
    deeper[127] = 'x';
    refuses_document(deeper, 256, JSONPATH_DOCUMENT_REFUSED, 128);
    deeper[1] = deeper[127] = '"';
    refuses_document(deeper, 256, JSONPATH_DOCUMENT_REFUSED, 129);
    for (int at = 0; at < 128; at++) strcat(objects, "{\"a\":");
    deeper[1] = '[', deeper[127] = '5', deeper[128] = '['; /* A comma is missing, and nothing begins. */
    refuses_document(deeper, 256, JSONPATH_DOCUMENT_REFUSED, 129);
    refuses_document(objects, 5 * 128, JSONPATH_DOCUMENT_TOO_DEEP, 5 * 127 + 1);
    refuses_document(objects, 5 * 127, JSONPATH_DOCUMENT_REFUSED, 5 * 127 + 1);
    free(deeper);
}

/* Documents that nest 127 and 128 deep, and bytes that are none. */
static void documents(void) {
    char *most = nested(127);
    struct asked_with with = asked_of("$..*", JSONPATH_WHOLE_NUMBERS, most);
    size_t count = 0;
    holds(jsonpath_count(with.path, with.document, &count) == JSONPATH_DONE && count == 126, "count", "127 deep");
    read_to(&with.document, "[[], 1]"); /* What was there is freed. */
    holds(jsonpath_count(with.path, with.document, &count) == JSONPATH_DONE && count == 2, "count", "read anew");
    emptied(&with);
    too_deep();
    refuses_document("", 0, JSONPATH_DOCUMENT_REFUSED, 1);
    refuses_document("{", 1, JSONPATH_DOCUMENT_REFUSED, 2);
    refuses_document("[1,]", 4, JSONPATH_DOCUMENT_REFUSED, 3);
    refuses_document("[1,1e400]", 9, JSONPATH_DOCUMENT_REFUSED, 4);
    refuses_document("[]\0", 3, JSONPATH_DOCUMENT_REFUSED, 3);
    refuses_document("1 2", 3, JSONPATH_DOCUMENT_REFUSED, 3);
    refuses_document("nil", 3, JSONPATH_DOCUMENT_REFUSED, 2);
    refuses_document("[1e400,0]", 9, JSONPATH_DOCUMENT_REFUSED, 2);
    refuses_document("[1},3]", 6, JSONPATH_DOCUMENT_REFUSED, 3);
    refuses_document("{1e4", 4, JSONPATH_DOCUMENT_REFUSED, 2);
    refuses_document("\"\xff\"", 3, JSONPATH_DOCUMENT_REFUSED, 2);
    free(most);
}

/* Holds what is told of bytes, in words, to what is wanted, also where memory is refused. */
static void tells(const char *bytes, const char *words) {
    struct asked_with with = {NULL, NULL, NULL, 0, JSONPATH_VALUES, NO_LIMITS, bytes, NULL, blocks};
    writes(document_message, &with, JSONPATH_DONE, words, bytes);
    uint8_t *copy = copied(bytes, strlen(bytes)), status = JSONPATH_NO_MEMORY;
    for (size_t requests = 0; status == JSONPATH_NO_MEMORY && requests < 1000; requests++) {
        struct answer answer = lent(ROOM);
        granted = requests;
        status = jsonpath_document_message(copy, strlen(bytes), answer.out, ROOM, &answer.length);
        granted = SIZE_MAX;
        int is_told = status == JSONPATH_DONE;
        holds(is_told || status == JSONPATH_NO_MEMORY, "status of a document's message", bytes);
        holds(!is_told || (answer.length == strlen(words) && !memcmp(answer.out, words, answer.length)), "words", bytes);
        holds(is_told || (is_untouched(answer.out, ROOM) && is_untouched(&answer.length, sizeof answer.length)),
              "a document's message is written without memory", bytes);
        free(answer.out);
    }
    holds(status == JSONPATH_DONE, "status of a document's message with memory", bytes);
    free(copy);
}

/* Why bytes are no document, and that nothing is told of a document. */
static void messages(void) {
    char *deeper = nested(128);
    tells("[1,]", "a comma with nothing after it");
    tells("{\"a\": [\"b\", {}], 'c': 1}", "a single quote, where JSON has double quotes");
    tells("[[\"a\"] \"b\"]", "a comma is missing before this");
    tells("{\"a\" 1}", "a colon is missing after a name");
    tells("[1e400]", "a number that is too large");
    tells("[\"a\", \"\xff\"]", "a byte that is not UTF-8");
    tells("{\"a\": 1", "the document ends too soon");
    tells("", "no document, the input is empty");
    tells("nil", "not JSON");
    tells(deeper, "more than 127 levels of arrays and objects");
    tells("[1, {\"a\": null}, \"b\"]", "");
    tells(" 5\n", "");
    free(deeper);
}

/* Lines of three nodes, of 3, 4 and 2 bytes, within limits. */
static void limits(void) {
    struct {
        struct jsonpath_limits limits;
        const char *lines;
    } rows[] = {
        {{SIZE_MAX, SIZE_MAX}, "10\n200\n3\n"}, {{3, 9}, "10\n200\n3\n"}, {{4, 10}, "10\n200\n3\n"},
        {{2, SIZE_MAX}, "10\n200\n"}, {{1, SIZE_MAX}, "10\n"}, {{0, SIZE_MAX}, ""}, {{SIZE_MAX, 8}, "10\n200\n"},
        {{SIZE_MAX, 7}, "10\n200\n"}, {{SIZE_MAX, 6}, "10\n"}, {{1, 2}, ""}, {{SIZE_MAX, 0}, ""}, {{0, 0}, ""},
    };
    struct asked_with with = asked_of("$[*]", JSONPATH_WHOLE_NUMBERS, "[10,200,3]");
    for (size_t at = 0; at < sizeof rows / sizeof *rows; at++) {
        with.limits = rows[at].limits;
        uint8_t status = strlen(rows[at].lines) == 9 ? JSONPATH_DONE : JSONPATH_CUT_SHORT;
        writes_lines_of(&with, status, rows[at].lines, "lines within limits");
    }
    compile(&with.path, "$.a", JSONPATH_WHOLE_NUMBERS);
    with.limits = (struct jsonpath_limits){0, 0};
    writes_lines_of(&with, JSONPATH_DONE, "", "no lines within limits of 0");
    emptied(&with);
}

/* Holds a list within limits, in a handle that is filled before, to its locations, each ended by a blank. */
static void lists_within(struct jsonpath_limits limits, const char *path, uint8_t unique, uint8_t wanted,
                         const char *locations) {
    struct asked_with with = asked_of("$..*", JSONPATH_WHOLE_NUMBERS, "{\"a\":1,\"b\":[2]}");
    compile(&with.path, path, JSONPATH_WHOLE_NUMBERS);
    uint8_t status = jsonpath_select(with.path, with.document, unique, &limits, &with.nodes);
    holds(status == wanted, "status of a list", path);
    char place[ROOM];
    for (int taken; sscanf(locations, "%s %n", place, &taken) == 1; locations += taken, with.index++) {
        writes(location, &with, JSONPATH_DONE, place, path);
    }
    size_t length = SIZE_MAX;
    holds(jsonpath_nodes_length(with.nodes, &length) == JSONPATH_DONE && length == with.index, "nodes of a list", path);
    writes_nothing(location, &with, JSONPATH_NO_SUCH_NODE, path);
    emptied(&with);
}

/* The same of so many nodes. */
static void lists(const char *path, uint8_t unique, size_t most, uint8_t wanted, const char *locations) {
    lists_within((struct jsonpath_limits){most, SIZE_MAX}, path, unique, wanted, locations);
}

/* The same of locations whose names have so many bytes. */
static void lists_names(const char *path, uint8_t unique, size_t bytes, uint8_t wanted, const char *locations) {
    lists_within((struct jsonpath_limits){SIZE_MAX, bytes}, path, unique, wanted, locations);
}

/* Lists of locations that come often: a path of 300 selectors, which go to two nodes in turn, and at its end to a third. */
static void selected_often(void) {
    char path[ROOM] = "$[";
    for (int at = 0; at < 150; at++) strcat(path, "'b','a',");
    strcat(path, "'b']['b',0]");
    lists(path, 1, SIZE_MAX, JSONPATH_DONE, "$['b'][0] ");
    lists(path, 1, 1, JSONPATH_DONE, "$['b'][0] ");
    lists(path, 1, 0, JSONPATH_CUT_SHORT, "");
    strcpy(strstr(path, "]['b'"), "]");
    lists(path, 1, 3, JSONPATH_DONE, "$['b'] $['a'] ");
    lists(path, 1, 2, JSONPATH_DONE, "$['b'] $['a'] ");
    lists(path, 1, 1, JSONPATH_CUT_SHORT, "$['b'] ");
    lists_names(path, 1, 2, JSONPATH_DONE, "$['b'] $['a'] ");
    lists_names(path, 1, 1, JSONPATH_CUT_SHORT, "$['b'] ");
    lists_names(path, 0, 3, JSONPATH_CUT_SHORT, "$['b'] $['a'] $['b'] ");
}

/* Lists of so many nodes, and of each location once. */
static void selected(void) {
    lists("$.*", 0, SIZE_MAX, JSONPATH_DONE, "$['a'] $['b'] ");
    lists("$.*", 0, 2, JSONPATH_DONE, "$['a'] $['b'] ");
    lists("$.*", 0, 1, JSONPATH_CUT_SHORT, "$['a'] ");
    lists("$.*", 0, 0, JSONPATH_CUT_SHORT, "");
    lists("$.x", 0, 0, JSONPATH_DONE, "");
    lists("$['b','a','b']", 0, 3, JSONPATH_DONE, "$['b'] $['a'] $['b'] ");
    lists("$['b','a','b']", 0, 2, JSONPATH_CUT_SHORT, "$['b'] $['a'] ");
    lists("$['b','a','b']", 1, SIZE_MAX, JSONPATH_DONE, "$['b'] $['a'] ");
    lists("$['b','a','b']", 255, 2, JSONPATH_DONE, "$['b'] $['a'] ");
    lists("$['b','a','b']", 1, 1, JSONPATH_CUT_SHORT, "$['b'] ");
    lists("$['b','a','b']", 1, 0, JSONPATH_CUT_SHORT, "");
    lists_names("$..*", 0, 3, JSONPATH_DONE, "$['a'] $['b'] $['b'][0] ");
    lists_names("$..*", 0, 2, JSONPATH_CUT_SHORT, "$['a'] $['b'] ");
    lists_names("$..*", 1, 1, JSONPATH_CUT_SHORT, "$['a'] ");
    lists_names("$..*", 0, 0, JSONPATH_CUT_SHORT, "");
    lists_names("$", 0, 0, JSONPATH_DONE, "$ ");
    lists_within((struct jsonpath_limits){1, 3}, "$..*", 0, JSONPATH_CUT_SHORT, "$['a'] ");
    selected_often();
}

/* A path that selects a hundred nodes, each 2^40 times: calls that need the first of them alone come to an end. */
static void stops(void) {
    char path[ROOM] = "$", document[ROOM] = "";
    for (int at = 0; at < 40; at++) strcat(path, "[0,0]"), strcat(document, "[");
    strcat(path, "[*]"), strcat(document, "[1");
    for (int at = 1; at < 100; at++) strcat(document, ",1");
    for (int at = 0; at < 41; at++) strcat(document, "]");
    struct asked_with with = asked_of("$", JSONPATH_WHOLE_NUMBERS, document);
    compile(&with.path, path, JSONPATH_WHOLE_NUMBERS);
    with.limits.nodes = 3;
    writes(lines, &with, JSONPATH_CUT_SHORT, "1\n1\n1\n", "lines of the first nodes");
    uint8_t exists = 7;
    holds(jsonpath_exists(with.path, with.document, &exists) == JSONPATH_DONE && exists == 1, "first node", path);
    for (uint8_t unique = 0; unique < 2; unique++) {
        size_t length = 0;
        uint8_t status = jsonpath_select(with.path, with.document, unique, &with.limits, &with.nodes);
        holds(status == JSONPATH_CUT_SHORT, "status of the first nodes", path);
        holds(jsonpath_nodes_length(with.nodes, &length) == JSONPATH_DONE && length == 3, "first nodes", path);
    }
    size_t length = 0;
    uint8_t status = jsonpath_walk_new(with.path, with.document, &with.walk);
    for (int at = 0; at < 2; at++) status |= jsonpath_walk_next(&with.walk, 2, &with.nodes);
    holds(status == JSONPATH_DONE && !jsonpath_nodes_length(with.nodes, &length) && length == 2, "first nodes of a walk", path);
    emptied(&with);
}

/* Holds what is known of a document's root to what is wanted. */
static void knows(const char *document, struct jsonpath_node wanted) {
    struct asked_with with = asked_of("$", JSONPATH_WHOLE_NUMBERS, document);
    struct jsonpath_node node;
    memset(&node, UNTOUCHED, sizeof node);
    holds(jsonpath_node(with.nodes, 0, &node) == JSONPATH_DONE, "status of a node", document);
    holds(node.kind == wanted.kind && node.length == wanted.length, "kind or length", document);
    holds(node.integer == wanted.integer && node.unsigned_value == wanted.unsigned_value, "integer", document);
    holds(node.number == wanted.number, "double", document);
    memset(&node, UNTOUCHED, sizeof node);
    holds(jsonpath_node(with.nodes, 1, &node) == JSONPATH_NO_SUCH_NODE, "past the last node", document);
    holds(jsonpath_node(with.nodes, SIZE_MAX, &node) == JSONPATH_NO_SUCH_NODE, "far past the last node", document);
    holds(is_untouched(&node, sizeof node), "node is written", document);
    emptied(&with);
}

/* Nodes of each kind. */
static void kinds(void) {
    knows("null", (struct jsonpath_node){.kind = JSONPATH_NULL});
    knows("false", (struct jsonpath_node){.kind = JSONPATH_FALSE});
    knows("true", (struct jsonpath_node){.kind = JSONPATH_TRUE});
    knows("0", (struct jsonpath_node){.kind = JSONPATH_INTEGER});
    knows("9223372036854775807", (struct jsonpath_node){.kind = JSONPATH_INTEGER, .integer = INT64_MAX});
    knows("-9223372036854775808", (struct jsonpath_node){.kind = JSONPATH_INTEGER, .integer = INT64_MIN});
    knows("9223372036854775808",
          (struct jsonpath_node){.kind = JSONPATH_UNSIGNED, .unsigned_value = (uint64_t)INT64_MAX + 1});
    knows("18446744073709551615", (struct jsonpath_node){.kind = JSONPATH_UNSIGNED, .unsigned_value = UINT64_MAX});
    knows("18446744073709551616", (struct jsonpath_node){.kind = JSONPATH_DOUBLE, .number = 18446744073709551616.0});
    knows("8.95", (struct jsonpath_node){.kind = JSONPATH_DOUBLE, .number = 8.95});
    knows("-1e2", (struct jsonpath_node){.kind = JSONPATH_DOUBLE, .number = -100.0});
    knows("\"\"", (struct jsonpath_node){.kind = JSONPATH_STRING});
    knows("\"\\u00e9b\"", (struct jsonpath_node){.kind = JSONPATH_STRING, .length = 3});
    knows("[1,[2,3]]", (struct jsonpath_node){.kind = JSONPATH_ARRAY, .length = 2});
    knows("[]", (struct jsonpath_node){.kind = JSONPATH_ARRAY});
    knows("{\"a\":1,\"a\":2,\"b\":3}", (struct jsonpath_node){.kind = JSONPATH_OBJECT, .length = 2});
}

static const char *const NAMED = "{\"a/b\":[\"\\u00e9\\n\",{\"~\":[ ]}]}";

/* The texts of nodes, in their document and in another one. */
static void node_texts(void) {
    struct asked_with with = asked_of("$['a/b'][*]", JSONPATH_WHOLE_NUMBERS, NAMED);
    writes(location, &with, JSONPATH_DONE, "$['a/b'][0]", "location");
    writes(pointer, &with, JSONPATH_DONE, "/a~1b/0", "pointer");
    writes(text, &with, JSONPATH_DONE, "\xc3\xa9\n", "text");
    writes(json, &with, JSONPATH_DONE, "\"\xc3\xa9\\n\"", "JSON");
    with.index = 1;
    writes(pointer, &with, JSONPATH_DONE, "/a~1b/1", "pointer of an object");
    writes_nothing(text, &with, JSONPATH_NO_SUCH_NODE, "text of an object");
    writes(json, &with, JSONPATH_DONE, "{\"~\":[]}", "JSON of an object");

    read_to(&with.document, "{\"a/b\":[7,\"\"]}");
    writes(text, &with, JSONPATH_DONE, "", "text in another document");
    writes(json, &with, JSONPATH_DONE, "\"\"", "JSON in another document");
    with.index = 0;
    writes_nothing(text, &with, JSONPATH_NO_SUCH_NODE, "text of a number in another document");
    writes(json, &with, JSONPATH_DONE, "7", "JSON of a number in another document");
    read_to(&with.document, "{\"a/b\":{\"0\":\"a\"}}");
    writes_nothing(text, &with, JSONPATH_NO_SUCH_NODE, "text where nothing is");
    writes_nothing(json, &with, JSONPATH_NO_SUCH_NODE, "JSON where nothing is");
    emptied(&with);
}

/* A list that outlives its path and its document, and what is past its last node. */
static void lists_alone(void) {
    struct asked_with with = asked_of("$['a/b'][*]", JSONPATH_WHOLE_NUMBERS, NAMED);
    jsonpath_document_free(&with.document), jsonpath_path_free(&with.path);
    struct jsonpath_node node;
    holds(jsonpath_node(with.nodes, 0, &node) == JSONPATH_DONE, "a node without its document", "list");
    holds(node.kind == JSONPATH_STRING && node.length == 3, "kind without its document", "list");
    writes(location, &with, JSONPATH_DONE, "$['a/b'][0]", "location without its document");
    writes(pointer, &with, JSONPATH_DONE, "/a~1b/0", "pointer without its document");
    writes_nothing(text, &with, JSONPATH_EMPTY_HANDLE, "text without a document");
    writes_nothing(json, &with, JSONPATH_EMPTY_HANDLE, "JSON without a document");
    read_to(&with.document, NAMED);
    writes(text, &with, JSONPATH_DONE, "\xc3\xa9\n", "text in the document, read anew");
    size_t past[] = {2, SIZE_MAX};
    for (int at = 0; at < 2; at++) {
        with.index = past[at];
        writes_nothing(location, &with, JSONPATH_NO_SUCH_NODE, "location past the last node");
        writes_nothing(pointer, &with, JSONPATH_NO_SUCH_NODE, "pointer past the last node");
        writes_nothing(text, &with, JSONPATH_NO_SUCH_NODE, "text past the last node");
        writes_nothing(json, &with, JSONPATH_NO_SUCH_NODE, "JSON past the last node");
    }
    emptied(&with);
}

/* Holds the next nodes of a walk, at most so many, to their locations, each ended by a blank. */
static void walks_on(struct asked_with *with, size_t most, const char *locations, const char *what) {
    char found[ROOM] = "";
    size_t length = SIZE_MAX;
    holds(jsonpath_walk_next(&with->walk, most, &with->nodes) == JSONPATH_DONE && with->walk, "status of a walk", what);
    holds(jsonpath_nodes_length(with->nodes, &length) == JSONPATH_DONE && length <= most, "nodes of a walk", what);
    for (with->index = 0; with->index < length; with->index++) {
        size_t place = 0, at = strlen(found);
        holds(!location(with, (uint8_t *)found + at, ROOM - at - 2, &place), "location of a walk's node", what);
        strcpy(found + at + place, " ");
    }
    holds(!strcmp(found, locations), found, what);
}

/* Holds the lists that a walk gives, of at most so many nodes, to their locations: each list is ended by `|`. */
static void walks(const char *path, const char *document, size_t most, const char *lists) {
    struct asked_with with = asked_of(path, JSONPATH_WHOLE_NUMBERS, document);
    holds(jsonpath_walk_new(with.path, with.document, &with.walk) == JSONPATH_DONE && with.walk, "begun", path);
    for (const char *end; (end = strchr(lists, '|')); lists = end + 1) {
        char wanted[ROOM] = "";
        memcpy(wanted, lists, (size_t)(end - lists));
        walks_on(&with, most, wanted, path);
    }
    emptied(&with);
}

/* Walks that end early: before the first list, between two, and where another one takes the place. A list outlives all. */
static void walks_end(void) {
    struct asked_with with = asked_of("$..*", JSONPATH_WHOLE_NUMBERS, "{\"a\":[1,\"b\"],\"c\":2}");
    const char *what = "a walk that ends early";
    for (int lists = 0; lists < 3; lists++) {
        holds(jsonpath_walk_new(with.path, with.document, &with.walk) == JSONPATH_DONE, "begun again", what);
        if (lists > 0) walks_on(&with, 1, "$['a'] ", what);
        if (lists > 1) walks_on(&with, 2, "$['c'] $['a'][0] ", what);
        if (lists != 1) jsonpath_walk_free(&with.walk);
    }
    holds(!with.walk && jsonpath_walk_next(&with.walk, 1, &with.nodes) == JSONPATH_EMPTY_HANDLE, "after its end", what);
    with.index = 1;
    writes(json, &with, JSONPATH_DONE, "1", "JSON of a walk's node");
    jsonpath_path_free(&with.path), jsonpath_document_free(&with.document);
    writes(location, &with, JSONPATH_DONE, "$['a'][0]", "list after its walk");
    emptied(&with);
}

/* A walk goes on in whose place none can be put for lack of memory. One that is refused memory itself is freed, and the list before
 * stays. */
static void walks_without_memory(void) {
    struct asked_with with = asked_of("$['a','b']", JSONPATH_WHOLE_NUMBERS, "{\"a\":1,\"b\":2}");
    const char *what = "a walk without memory";
    holds(jsonpath_walk_new(with.path, with.document, &with.walk) == JSONPATH_DONE, "begun", what);
    walks_on(&with, 1, "$['a'] ", what);
    granted = 0;
    uint8_t status = jsonpath_walk_new(with.path, with.document, &with.walk);
    granted = SIZE_MAX;
    holds(status == JSONPATH_NO_MEMORY && with.walk, "another one", what);
    walks_on(&with, 1, "$['b'] ", what);
    holds(jsonpath_walk_new(with.path, with.document, &with.walk) == JSONPATH_DONE, "begun again", what);
    granted = 0;
    status = jsonpath_walk_next(&with.walk, 1, &with.nodes);
    granted = SIZE_MAX;
    holds(status == JSONPATH_NO_MEMORY && !with.walk, "next nodes", what);
    with.index = 0;
    writes(location, &with, JSONPATH_DONE, "$['b']", "list of a walk without memory");
    emptied(&with);
}

/* Walks over one path and one document, of which each goes on by itself. */
static void walks_side_by_side(void) {
    struct asked_with with = asked_of("$[?search(@, 'b')]", JSONPATH_ALL_NUMBERS, "[\"ab\",\"a\",\"b\"]"), other = with;
    const char *what = "walks side by side";
    other.nodes = NULL;
    holds(jsonpath_walk_new(with.path, with.document, &with.walk) == JSONPATH_DONE, "the first one", what);
    holds(jsonpath_walk_new(with.path, with.document, &other.walk) == JSONPATH_DONE, "the second one", what);
    walks_on(&with, 1, "$[0] ", what);
    walks_on(&other, 0, "", what);
    walks_on(&other, SIZE_MAX, "$[0] $[2] ", what);
    walks_on(&other, 1, "", what);
    walks_on(&with, 1, "$[2] ", what);
    jsonpath_walk_free(&other.walk), jsonpath_nodes_free(&other.nodes);
    walks_on(&with, 1, "", what);
    emptied(&with);
}

/* Nodes a list at a time. After the last list there are empty ones. */
static void walked(void) {
    walks("$[*]", "[1,2,3]", 2, "$[0] $[1] |$[2] |||");
    walks("$[*]", "[1,2,3]", 3, "$[0] $[1] $[2] |||");
    walks("$[*]", "[1,2,3]", SIZE_MAX, "$[0] $[1] $[2] ||");
    walks("$[*]", "[1,2]", 0, "||");
    walks("$.x", "[1]", 5, "||");
    walks("$", "null", 1, "$ ||");
    walks("$..*", "{\"a\":1,\"b\":[2]}", 1, "$['a'] |$['b'] |$['b'][0] |||");
    walks("$['b','a','b']", "{\"a\":1,\"b\":[2]}", 2, "$['b'] $['a'] |$['b'] ||");
    walks("$[?match(@, 'a+')]", "[\"a\",\"b\",\"aa\"]", 1, "$[0] |$[2] ||");
    walks_end();
    walks_without_memory();
    walks_side_by_side();
}

/* Holds each call that needs one of the handles that are empty. */
static void finds_empty(struct asked_with *with, const char *what) {
    int cannot_query = !with->path || !with->document, cannot_read = !with->nodes || !with->document;
    size_t count = 7, length = 7;
    uint8_t exists = 7, equal = 7, empty = JSONPATH_EMPTY_HANDLE;
    jsonpath_path *other = NULL;
    jsonpath_nodes *kept = with->nodes;
    struct jsonpath_node node;
    memset(&node, UNTOUCHED, sizeof node);
    compile(&other, "$", JSONPATH_WHOLE_NUMBERS);
    if (!with->path) {
        writes_nothing(path_text, with, empty, what);
        holds(jsonpath_path_equals(with->path, other, &equal) == empty && equal == 7, "equals", what);
        holds(jsonpath_path_equals(other, with->path, &equal) == empty && equal == 7, "is equal", what);
        holds(jsonpath_path_share(with->path, &other) == empty && other, "owner of a path", what);
        refuses_in(with, "[1]", 3, empty, 0, what);
        refuses_in(with, "{", 1, empty, 0, what);
    }
    if (!with->document) {
        jsonpath_document *none = NULL;
        holds(jsonpath_document_share(with->document, &none) == empty && !none, "owner of a document", what);
    }
    if (cannot_query) {
        writes_nothing(lines, with, empty, what);
        holds(jsonpath_count(with->path, with->document, &count) == empty && count == 7, "count", what);
        holds(jsonpath_exists(with->path, with->document, &exists) == empty && exists == 7, "exists", what);
        holds(jsonpath_select(with->path, with->document, 0, &NO_LIMITS, &with->nodes) == empty, "select", what);
        holds(jsonpath_walk_new(with->path, with->document, &with->walk) == empty && !with->walk, "walk", what);
        holds(with->nodes == kept, "a list is written", what);
    }
    holds(jsonpath_walk_next(&with->walk, 1, &with->nodes) == empty && with->nodes == kept, "next nodes", what);
    if (!with->nodes) {
        writes_nothing(location, with, empty, what);
        writes_nothing(pointer, with, empty, what);
        holds(jsonpath_nodes_length(with->nodes, &length) == empty && length == 7, "length of a list", what);
        holds(jsonpath_node(with->nodes, 0, &node) == empty && is_untouched(&node, sizeof node), "node", what);
    }
    if (cannot_read) {
        writes_nothing(text, with, empty, what);
        writes_nothing(json, with, empty, what);
    }
    jsonpath_path_free(&other);
}

/* Handles that are empty, one by one and all, and what is in the others stays. */
static void empty_handles(void) {
    for (int empty = 1; empty < 8; empty++) {
        struct asked_with with = asked_of("$[0]", JSONPATH_WHOLE_NUMBERS, "[\"a\"]");
        if (empty & 1) jsonpath_path_free(&with.path);
        if (empty & 2) jsonpath_document_free(&with.document);
        if (empty & 4) jsonpath_nodes_free(&with.nodes);
        finds_empty(&with, "an empty handle");
        holds((with.path == NULL) == !!(empty & 1), "path is kept", "an empty handle");
        holds((with.document == NULL) == !!(empty & 2), "document is kept", "an empty handle");
        holds((with.nodes == NULL) == !!(empty & 4), "list is kept", "an empty handle");
        if (with.path) writes(path_text, &with, JSONPATH_DONE, "$[0]", "path beside an empty handle");
        if (with.nodes) writes(location, &with, JSONPATH_DONE, "$[0]", "list beside an empty handle");
        if (with.path && with.document) writes(lines, &with, JSONPATH_DONE, "\"a\"\n", "lines beside an empty handle");
        emptied(&with);
    }
}

/* A pattern that is too large once built: each call that asks is refused, and writes nothing. */
static void refused_queries(void) {
    struct asked_with with = asked_of("$[0]", JSONPATH_WHOLE_NUMBERS, "[\"a\"]");
    size_t count = 7;
    uint8_t exists = 7, refused = JSONPATH_QUERY_REFUSED;
    const char *path = "$[?match(@, '\\\\w{1000}{10}')]";
    compile(&with.path, path, JSONPATH_WHOLE_NUMBERS);
    writes_nothing(lines, &with, refused, path);
    holds(jsonpath_count(with.path, with.document, &count) == refused && count == 7, "count", path);
    holds(jsonpath_exists(with.path, with.document, &exists) == refused && exists == 7, "exists", path);
    for (with.form = 0; with.form < 3; with.form++) refuses_in(&with, with.bytes, strlen(with.bytes), refused, 0, path);
    for (uint8_t unique = 0; unique < 2; unique++) {
        holds(jsonpath_select(with.path, with.document, unique, &with.limits, &with.nodes) == refused, "select", path);
    }
    holds(jsonpath_walk_new(with.path, with.document, &with.walk) == JSONPATH_DONE, "a walk that is refused later", path);
    holds(jsonpath_walk_next(&with.walk, 1, &with.nodes) == refused && !with.walk, "walk", path);
    writes(location, &with, JSONPATH_DONE, "$[0]", "list after a refusal");
    emptied(&with);
}

/* ---- Handles, where memory is refused. */

/* A call that may be refused memory, on filled handles. */
typedef uint8_t handle_call(struct asked_with *);

static const char *const READY_PATH = "$..[?match(@.a, 'b*')]";
static uint8_t room_for_text[ROOM];
static size_t text_length;

static uint8_t compiles(struct asked_with *with) {
    struct jsonpath_refusal refusal;
    return jsonpath_path_new((const uint8_t *)READY_PATH, strlen(READY_PATH), 0, &with->path, &refusal);
}
static uint8_t reads(struct asked_with *with) {
    size_t position;
    return jsonpath_document_new((const uint8_t *)"[{\"a\":\"bb\"},[1,2,3]]", 20, &with->document, &position);
}
static uint8_t shares_path(struct asked_with *with) {
    jsonpath_path *other = NULL;
    uint8_t status = jsonpath_path_share(with->path, &other);
    jsonpath_path_free(&other);
    return status;
}
static uint8_t shares_document(struct asked_with *with) {
    jsonpath_document *other = NULL;
    uint8_t status = jsonpath_document_share(with->document, &other);
    jsonpath_document_free(&other);
    return status;
}
static uint8_t selects_all(struct asked_with *with) {
    return jsonpath_select(with->path, with->document, 0, &with->limits, &with->nodes);
}
static uint8_t selects_each_once(struct asked_with *with) {
    return jsonpath_select(with->path, with->document, 1, &with->limits, &with->nodes);
}
static uint8_t counts(struct asked_with *with) {
    size_t count;
    return jsonpath_count(with->path, with->document, &count);
}
static uint8_t finds(struct asked_with *with) {
    uint8_t exists;
    return jsonpath_exists(with->path, with->document, &exists);
}
static uint8_t writes_lines(struct asked_with *with) {
    return lines(with, room_for_text, ROOM, &text_length);
}
static uint8_t counts_bytes(struct asked_with *with) {
    size_t count, position;
    return jsonpath_count_in(with->path, (const uint8_t *)with->bytes, strlen(with->bytes), &count, &position);
}
static uint8_t finds_in_bytes(struct asked_with *with) {
    uint8_t exists;
    size_t position;
    return jsonpath_exists_in(with->path, (const uint8_t *)with->bytes, strlen(with->bytes), &exists, &position);
}
static uint8_t writes_lines_of_bytes(struct asked_with *with) {
    return lines_in(with, room_for_text, ROOM, &text_length);
}
static uint8_t writes_message(struct asked_with *with) {
    return document_message(with, room_for_text, ROOM, &text_length);
}
static uint8_t begins_walk(struct asked_with *with) {
    jsonpath_walk *walk = NULL;
    uint8_t status = jsonpath_walk_new(with->path, with->document, &walk);
    holds(!walk == (status == JSONPATH_NO_MEMORY), "walk without memory", "jsonpath_walk_new");
    jsonpath_walk_free(&walk);
    return status;
}
static uint8_t begins_and_walks(struct asked_with *with) {
    jsonpath_walk *walk = NULL;
    uint8_t status = jsonpath_walk_new(with->path, with->document, &walk);
    if (status == JSONPATH_DONE) status = jsonpath_walk_next(&walk, 2, &with->nodes);
    holds(!walk == (status == JSONPATH_NO_MEMORY), "walk without memory", "jsonpath_walk_next");
    jsonpath_walk_free(&walk);
    return status;
}
static uint8_t writes_path(struct asked_with *with) {
    return path_text(with, room_for_text, ROOM, &text_length);
}
static uint8_t writes_location(struct asked_with *with) {
    return location(with, room_for_text, ROOM, &text_length);
}
static uint8_t writes_pointer(struct asked_with *with) {
    return pointer(with, room_for_text, ROOM, &text_length);
}
static uint8_t writes_json(struct asked_with *with) {
    return json(with, room_for_text, ROOM, &text_length);
}

/* Holds filled handles to what they answer. */
static void is_ready(struct asked_with *with, const char *what) {
    size_t length = 0;
    writes(path_text, with, JSONPATH_DONE, READY_PATH, what);
    writes(lines, with, JSONPATH_DONE, "{\"a\":\"bb\"}\n", what);
    holds(jsonpath_nodes_length(with->nodes, &length) == JSONPATH_DONE && length == 1, "list that is ready", what);
    writes(location, with, JSONPATH_DONE, "$[0]", what);
}

/* Refuses memory as `runs_out` does, and holds the handles to what they were. */
static void runs_out_on_handles(handle_call *call, const char *what) {
    struct asked_with with = asked_of(READY_PATH, JSONPATH_WHOLE_NUMBERS, "[{\"a\":\"bb\"},[1,2,3]]");
    uint8_t status = JSONPATH_NO_MEMORY;
    size_t requests = 0;
    char *bytes = longer(&with);
    with.bytes = bytes;
    for (; status == JSONPATH_NO_MEMORY && requests < 1000; requests++) {
        struct asked_with before = with;
        memset(room_for_text, UNTOUCHED, ROOM), memset(&text_length, UNTOUCHED, sizeof text_length);
        granted = requests;
        status = call(&with);
        granted = SIZE_MAX;
        if (status == JSONPATH_NO_MEMORY) {
            holds(before.path == with.path && before.document == with.document && before.nodes == with.nodes,
                  "handle is written without memory", what);
            holds(is_untouched(room_for_text, ROOM) && is_untouched(&text_length, sizeof text_length),
                  "text is written without memory", what);
        }
        is_ready(&with, what);
    }
    holds(status == JSONPATH_DONE && requests > 1, "status on handles without memory", what);
    free(bytes), emptied(&with);
}

/* Each call on handles that takes memory; the others need none. */
static void refused_memory(void) {
    runs_out_on_handles(compiles, "jsonpath_path_new");
    runs_out_on_handles(reads, "jsonpath_document_new");
    runs_out_on_handles(shares_path, "jsonpath_path_share");
    runs_out_on_handles(shares_document, "jsonpath_document_share");
    runs_out_on_handles(selects_all, "jsonpath_select");
    runs_out_on_handles(selects_each_once, "jsonpath_select, each location once");
    runs_out_on_handles(counts, "jsonpath_count");
    runs_out_on_handles(finds, "jsonpath_exists");
    runs_out_on_handles(writes_lines, "jsonpath_lines");
    runs_out_on_handles(counts_bytes, "jsonpath_count_in");
    runs_out_on_handles(finds_in_bytes, "jsonpath_exists_in");
    runs_out_on_handles(writes_lines_of_bytes, "jsonpath_lines_in");
    runs_out_on_handles(writes_message, "jsonpath_document_message");
    runs_out_on_handles(begins_walk, "jsonpath_walk_new");
    runs_out_on_handles(begins_and_walks, "jsonpath_walk_next");
    runs_out_on_handles(writes_path, "jsonpath_path_text");
    runs_out_on_handles(writes_location, "jsonpath_node_location");
    runs_out_on_handles(writes_pointer, "jsonpath_node_pointer");
    runs_out_on_handles(writes_json, "jsonpath_node_json");

    struct asked_with with = asked_of("$", JSONPATH_WHOLE_NUMBERS, "\"a\"");
    jsonpath_path *other = NULL;
    compile(&other, "$", JSONPATH_WHOLE_NUMBERS);
    uint8_t equal = 0;
    size_t length = 0;
    struct jsonpath_node node;
    granted = 0;
    uint8_t statuses = jsonpath_path_equals(with.path, other, &equal) | jsonpath_nodes_length(with.nodes, &length)
                       | jsonpath_node(with.nodes, 0, &node) | text(&with, room_for_text, ROOM, &text_length);
    granted = SIZE_MAX;
    holds(statuses == JSONPATH_DONE && equal && length == 1 && text_length == 1, "without memory", "calls that take none");
    jsonpath_path_free(&other), emptied(&with);
}

/* What is said of handles. */
static void handles(void) {
    compiled_paths();
    owners();
    compares("$[?@ == 4]", "[4,4.0,0.4e1]", 1, 3);
    compares("$[?@ < 9]", "[8,8.95,1e1]", 1, 2);
    compares("$[?@ >= 8.95]", "[8,8.95,9]", 1, 2);
    documents();
    messages();
    limits();
    selected();
    stops();
    kinds();
    node_texts();
    lists_alone();
    walked();
    empty_handles();
    refused_queries();
    refused_memory();
}

/* ---- Cases of files, in two threads with handles of their own. */

static const char *const CASE = "$['path','document','stdout','stderr','status','numbers']";

/* The string at an index of a case, ended by a NUL. */
static char *field(struct asked_with *with, size_t index, size_t *length) {
    uint8_t none;
    jsonpath_node_text(with->nodes, with->document, index, &none, 0, length);
    char *string = malloc(*length + 1);
    uint8_t status = jsonpath_node_text(with->nodes, with->document, index, (uint8_t *)string, *length, length);
    holds(status == JSONPATH_DONE, "field", "case");
    string[*length] = 0;
    return string;
}

/* Holds the refusal of a path or a document to a status, and that of a path to the line that `jsonpath` prints. The calls with
 * two texts take whole numbers. */
static void is_refused(const char *path, uint8_t numbers, const char *document, size_t length, uint8_t wanted,
                       const char *line) {
    struct asked_with with = {NULL, NULL, NULL, 0, JSONPATH_LINES, NO_LIMITS, NULL, NULL, blocks};
    struct jsonpath_refusal refusal;
    size_t position;
    uint8_t status = jsonpath_path_new((const uint8_t *)path, strlen(path), numbers, &with.path, &refusal);
    if (status == JSONPATH_DONE) {
        status = jsonpath_document_new((const uint8_t *)document, length, &with.document, &position);
    } else {
        char message[ROOM] = "", printed[2 * ROOM];
        jsonpath_message((const uint8_t *)path, strlen(path), numbers, (uint8_t *)message, ROOM, &position);
        snprintf(printed, sizeof printed, "jsonpath: path: at position %zu, %s\n", refusal.position, message);
        holds(!strcmp(printed, line), "line of a refusal", path);
    }
    holds(status == wanted, "status of a case", path);
    if (numbers == JSONPATH_WHOLE_NUMBERS) answers(wanted, path, document, length);
    emptied(&with);
}

/* The rule for numbers that a case names; without one it is that of whole numbers. */
static uint8_t rule(struct asked_with *with) {
    size_t count = 0, length;
    jsonpath_nodes_length(with->nodes, &count);
    char *name = count == 6 ? field(with, 5, &length) : NULL;
    uint8_t numbers = name && !strcmp(name, "all") ? JSONPATH_ALL_NUMBERS : JSONPATH_WHOLE_NUMBERS;
    free(name);
    return numbers;
}

/* Holds the case that is read to its answer. Statuses of cases are those of calls. */
static void is_answered(struct asked_with *with) {
    size_t lengths[4];
    char *texts[4];
    struct jsonpath_node status = {0};
    for (size_t at = 0; at < 4; at++) texts[at] = field(with, at, &lengths[at]);
    holds(jsonpath_node(with->nodes, 4, &status) == JSONPATH_DONE, "status of a case", texts[0]);
    uint8_t numbers = rule(with);
    if (status.integer) is_refused(texts[0], numbers, texts[1], lengths[1], status.integer, texts[3]);
    else selects(texts[0], numbers, texts[1], texts[2]);
    for (size_t at = 0; at < 4; at++) free(texts[at]);
}

/* Holds each case of a file to its answer. */
static void *are_answered(void *name) {
    char line[ROOM];
    struct asked_with with = asked_of(CASE, JSONPATH_WHOLE_NUMBERS, "null");
    size_t count = 0;
    FILE *file = fopen(name, "r");
    for (; file && fgets(line, ROOM, file); count++) {
        read_to(&with.document, line);
        holds(jsonpath_select(with.path, with.document, 0, &NO_LIMITS, &with.nodes) == JSONPATH_DONE, "case", line);
        is_answered(&with);
    }
    holds(count > 0, "no cases", name);
    if (file) fclose(file);
    emptied(&with);
    return NULL;
}

/* Two threads at once, each over all cases of a file. */
static void cases(char *name) {
    pthread_t threads[2];
    for (int at = 0; at < 2; at++) holds(!pthread_create(&threads[at], NULL, are_answered, name), "thread", name);
    for (int at = 0; at < 2; at++) pthread_join(threads[at], NULL);
}

int main(int count, char **words) {
    refuses("x", JSONPATH_EXPECTED_ROOT, 1, "expected '$'");
    refuses("", JSONPATH_EXPECTED_ROOT, 1, "expected '$'");
    refuses("$.a ", JSONPATH_TEXT_AFTER_PATH, 4, "text after the path");
    refuses("$['a'", JSONPATH_EXPECTED_CLOSING_BRACKET, 6, "in long-hand segment, expected closing ']'");
    refuses("$[?@ == 0.0000000001]", JSONPATH_FRACTION_TOO_LONG, 9, "in long-hand segment, fraction of more than 9 digits");
    hints("$.a b", "`$['a b']`: such a name is quoted in brackets");
    hints("$[?@.a = 1]", "equality is written ==");
    hints("#.a", "");
    hints("$.a", "");
    hints("", "`$` for the whole document");
    answers(JSONPATH_DOCUMENT_REFUSED, "$", "", 0);
    answers(JSONPATH_DOCUMENT_REFUSED, "$", "{", 1);
    answers(JSONPATH_DOCUMENT_REFUSED, "$", "null\0", 5);
    answers(JSONPATH_DOCUMENT_REFUSED, "$", "\"\xff\"", 3);
    answers(JSONPATH_QUERY_REFUSED, "$[?match(@, '\\\\w{1000}{10}')]", "[\"a\"]", 5);
    answers(JSONPATH_NOT_UTF8, "$\xff", "{", 1);
    runs_out(jsonpath_report, "$..[?match(@.a, 'b*')]", "[{\"a\":\"bb\"},[1,2,3]]");
    runs_out(jsonpath_values, "$[?@.a > 1.5, 'b']", "{\"b\":{\"a\":2}}");
    runs_out(jsonpath_locations, "$..*", "{\"b\":{\"a\":2}}");
    texts();
    handles();
    for (int at = 1; at < count; at++) cases(words[at]);
    holds(!blocks, "blocks are left", "all calls");
    printf(failures ? "%d failed\n" : "all hold\n", failures);
    return failures != 0;
}
