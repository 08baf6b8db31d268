/* JSONPath (RFC 9535) in SQL: a loadable extension for SQLite. These are its entry and its functions; ../README.md says what they
 * give. */
#define _POSIX_C_SOURCE 200809L
#include <errno.h>
#include <locale.h>
#include <stdlib.h>
#include <string.h>

#include "jsonpath_sqlite.h"
SQLITE_EXTENSION_INIT1

/* The first version of SQLite that has all that is called here. */
#define LEAST_SQLITE 3031000
#ifndef SQLITE_RESULT_SUBTYPE
#define SQLITE_RESULT_SUBTYPE 0x1000000 /* Later versions ask for it, earlier ones pass over it. */
#endif

static const struct outcome DONE = {SQLITE_OK, NULL}, NO_MEMORY = {SQLITE_NOMEM, NULL};

/* A document that is shorter is read whole in any case. */
#define SHORT 1024

/* The short document that a connection was asked last, so that the next call on the same need not read it. */
struct last {
    int users; /* How many functions have it. */
    jsonpath_document *document;
    size_t length;
    uint8_t bytes[SHORT];
};

/* A function of a document and a path. */
struct question {
    const char *name;
    int most_arguments, flags;
    struct outcome (*answer)(const struct asked *asked);
};

/* What a function is registered with. */
struct registered {
    const struct question *question;
    struct last *last;
};

/* Reads a document that is short, unless it was asked last. */
static struct outcome read_short(struct asked *asked, struct last *last) {
    struct text text = asked->document;
    if (text.length >= SHORT) return DONE;
    size_t position = 1;
    uint8_t status = JSONPATH_DONE;
    if (!last->document || last->length != text.length || memcmp(last->bytes, text.bytes, text.length)) {
        status = jsonpath_document_new(text.bytes, text.length, &last->document, &position);
        if (status == JSONPATH_DONE) last->length = text.length, memcpy(last->bytes, text.bytes, text.length);
    }
    if (status == JSONPATH_DONE) asked->read = last->document;
    return jsonpath_sqlite_outcome(status, text, position);
}

/* Makes a text the answer; with `is_json` it is one for the functions of SQLite too. */
static void answer_text(sqlite3_context *context, const char *text, size_t length, int is_json) {
    sqlite3_result_text64(context, text, length, SQLITE_TRANSIENT, SQLITE_UTF8);
    if (is_json) sqlite3_result_subtype(context, JSON_SUBTYPE);
}

static struct outcome answer_exists(const struct asked *asked) {
    uint8_t exists = 0;
    size_t position = 1;
    uint8_t status = asked->read ? jsonpath_exists(asked->path, asked->read, &exists)
                                 : jsonpath_exists_in(asked->path, asked->document.bytes, asked->document.length, &exists,
                                                      &position);
    sqlite3_result_int(asked->context, exists);
    return jsonpath_sqlite_outcome(status, asked->document, position);
}

static struct outcome answer_count(const struct asked *asked) {
    size_t count = 0;
    struct outcome outcome = jsonpath_sqlite_count(asked, &count);
    if (!outcome.code) sqlite3_result_int64(asked->context, (sqlite3_int64)count);
    return outcome;
}

/* The double that a number of JSON is, whatever the decimal point is where the program runs. */
static struct outcome answer_double(sqlite3_context *context, const char *number) {
    locale_t plain = newlocale(LC_ALL_MASK, "C", (locale_t)0);
    if (!plain) return NO_MEMORY;
    locale_t before = uselocale(plain);
    sqlite3_result_double(context, strtod(number, NULL));
    uselocale(before);
    freelocale(plain);
    return DONE;
}

/* An integer that SQLite has none for is a double. */
static struct outcome answer_number(sqlite3_context *context, const char *number) {
    if (strpbrk(number, ".e")) return answer_double(context, number);
    errno = 0;
    long long integer = strtoll(number, NULL, 10);
    if (errno == ERANGE) return answer_double(context, number);
    sqlite3_result_int64(context, integer);
    return DONE;
}

/* What a letter after a backslash stands for; `u` is seen to elsewhere. */
static char unescaped(char letter) {
    static const char letters[] = "bfnrt", controls[] = "\b\f\n\r\t";
    const char *found = strchr(letters, letter);
    return found ? controls[found - letters] : letter;
}

/* Takes the escapes out of a string of compact JSON, in place, and returns its length. Its `\u` are control characters. */
static size_t without_escapes(char *string, size_t length) {
    char *to = string, *from = string, *end = string + length;
    if (!memchr(string, '\\', length)) return length;
    while (from < end) {
        if (*from != '\\') {
            *to++ = *from++;
        } else if (from[1] == 'u') {
            char digits[] = {from[4], from[5], 0};
            *to++ = (char)strtol(digits, NULL, 16);
            from += 6;
        } else {
            *to++ = unescaped(from[1]);
            from += 2;
        }
    }
    return (size_t)(to - string);
}

/* What the compact JSON of a node is in SQL. A byte of 0 stands after it. */
static struct outcome answer_node(sqlite3_context *context, char *json, size_t length) {
    switch (json[0]) {
        case 'n': sqlite3_result_null(context); return DONE;
        case 't': sqlite3_result_int(context, 1); return DONE;
        case 'f': sqlite3_result_int(context, 0); return DONE;
        case '"': answer_text(context, json + 1, without_escapes(json + 1, length - 2), 0); return DONE;
        case '[':
        case '{': answer_text(context, json, length, 1); return DONE;
        default: return answer_number(context, json);
    }
}

static struct outcome answer_value(const struct asked *asked) {
    struct lines lines = {0};
    struct outcome outcome = jsonpath_sqlite_first_line(asked, &lines);
    if (!outcome.code && lines.length) {
        lines.memory[lines.length] = 0; /* In the place of the line feed. */
        outcome = answer_node(asked->context, (char *)lines.memory + 1, lines.length - 1);
    }
    sqlite3_free(lines.memory);
    return outcome;
}

static struct outcome answer_values(const struct asked *asked) {
    struct lines lines = {0};
    struct outcome outcome = jsonpath_sqlite_lines(asked, JSONPATH_VALUES, &lines);
    if (!outcome.code) {
        uint8_t *array = lines.memory;
        size_t length = lines.length ? lines.length + 1 : 2;
        for (size_t at = 1; at < lines.length; at++) array[at] = array[at] == '\n' ? ',' : array[at];
        array[0] = '[', array[length - 1] = ']';
        answer_text(asked->context, (const char *)array, length, 1);
    }
    sqlite3_free(lines.memory);
    return outcome;
}

/* The bytes that an array of the lines as strings takes: a pair of quotes and a comma for each, and what has to be escaped. */
static size_t array_length(const struct lines *lines) {
    size_t length = 2;
    for (size_t at = 1; at <= lines->length; at++) {
        uint8_t byte = lines->memory[at];
        length += byte == '\n' ? 3 : byte == '"' || byte == '\\' ? 2 : 1;
    }
    return length;
}

/* Writes that array, and returns its length. The lines have no control characters but the line feeds at their ends. */
static size_t write_array(const struct lines *lines, char *to) {
    char *array = to;
    *to++ = '[';
    for (size_t at = 1; at <= lines->length; at++) {
        char byte = (char)lines->memory[at];
        if (at == 1 || lines->memory[at - 1] == '\n') *to++ = '"';
        if (byte == '"' || byte == '\\') *to++ = '\\';
        if (byte != '\n') *to++ = byte;
        else *to++ = '"', *to++ = ',';
    }
    if (lines->length) to--;
    *to++ = ']';
    return (size_t)(to - array);
}

static struct outcome answer_locations(const struct asked *asked) {
    struct lines lines = {0};
    struct outcome outcome = jsonpath_sqlite_lines(asked, JSONPATH_LOCATIONS, &lines);
    char *array = outcome.code ? NULL : sqlite3_malloc64(array_length(&lines));
    if (array) answer_text(asked->context, array, write_array(&lines, array), 1);
    else if (!outcome.code) outcome = NO_MEMORY;
    sqlite3_free(array);
    sqlite3_free(lines.memory);
    return outcome;
}

/* How functions are registered: each gives the same for the same arguments, and does nothing but that. */
#define PLAIN (SQLITE_UTF8 | SQLITE_DETERMINISTIC | SQLITE_INNOCUOUS)
#define GIVES_JSON (PLAIN | SQLITE_RESULT_SUBTYPE)

static const struct question QUESTIONS[] = {
    {"jsonpath_exists", 2, PLAIN, answer_exists},
    {"jsonpath_count", 2, PLAIN, answer_count},
    {"jsonpath_value", 2, GIVES_JSON, answer_value},
    {"jsonpath_values", 4, GIVES_JSON, answer_values},
    {"jsonpath_locations", 4, GIVES_JSON, answer_locations},
};

/* A path that a statement keeps as long as the value that it is compiled of is the same. */
struct kept {
    jsonpath_path *path;
};

static void free_kept(void *memory) {
    struct kept *kept = memory;
    jsonpath_path_free(&kept->path);
    sqlite3_free(kept);
}

/* Compiles a path that a statement is to keep. */
static struct outcome keep(sqlite3_value *value, struct kept **kept) {
    *kept = sqlite3_malloc(sizeof **kept);
    if (!*kept) return NO_MEMORY;
    (*kept)->path = NULL;
    return jsonpath_sqlite_path(value, &(*kept)->path);
}

/* Answers a question of SQL: a document, a path, and the limits of those that take any. */
static void answer(sqlite3_context *context, int count, sqlite3_value **values) {
    const struct registered *registered = sqlite3_user_data(context);
    if (jsonpath_sqlite_is_null(values[0]) || jsonpath_sqlite_is_null(values[1])) return;
    struct asked asked = {.context = context};
    struct kept *kept = sqlite3_get_auxdata(context, 1);
    int is_new = !kept;
    struct outcome outcome = is_new ? keep(values[1], &kept) : DONE;
    if (!outcome.code) outcome = jsonpath_sqlite_document(values[0], &asked.document);
    if (!outcome.code) {
        outcome = jsonpath_sqlite_limits(count > 2 ? values[2] : NULL, count > 3 ? values[3] : NULL, &asked.limits);
    }
    if (!outcome.code) outcome = read_short(&asked, registered->last);
    if (!outcome.code) {
        asked.path = kept->path;
        outcome = registered->question->answer(&asked);
    }
    jsonpath_sqlite_report(context, outcome);
    if (!is_new || !kept) return;
    if (kept->path) sqlite3_set_auxdata(context, 1, kept, free_kept); /* SQLite may free it at once. */
    else free_kept(kept);
}

static void answer_valid(sqlite3_context *context, int count, sqlite3_value **values) {
    (void)count;
    if (jsonpath_sqlite_is_null(values[0])) return;
    struct outcome outcome = jsonpath_sqlite_path_error(values[0]);
    if (outcome.code == SQLITE_OK || outcome.code == SQLITE_ERROR) {
        sqlite3_result_int(context, outcome.code == SQLITE_OK);
        sqlite3_free(outcome.text);
    } else {
        jsonpath_sqlite_report(context, outcome);
    }
}

static void answer_error(sqlite3_context *context, int count, sqlite3_value **values) {
    (void)count;
    if (jsonpath_sqlite_is_null(values[0])) return;
    struct outcome outcome = jsonpath_sqlite_path_error(values[0]);
    if (outcome.code == SQLITE_ERROR) {
        sqlite3_result_text64(context, outcome.text, strlen(outcome.text), sqlite3_free, SQLITE_UTF8);
    } else {
        jsonpath_sqlite_report(context, outcome);
    }
}

/* Ends the use of the last document by a function; the last one that has it frees it. */
static void leave(struct last *last) {
    if (--last->users) return;
    jsonpath_document_free(&last->document);
    sqlite3_free(last);
}

static void free_registered(void *memory) {
    struct registered *registered = memory;
    leave(registered->last);
    sqlite3_free(registered);
}

/* Adds a function of so many arguments. Where that fails SQLite frees what it is registered with, too. */
static int add_question(sqlite3 *database, const struct question *question, int arguments, struct last *last) {
    struct registered *registered = sqlite3_malloc(sizeof *registered);
    if (!registered) return SQLITE_NOMEM;
    *registered = (struct registered){question, last};
    last->users++;
    return sqlite3_create_function_v2(database, question->name, arguments, question->flags, registered, answer, NULL, NULL,
                                      free_registered);
}

/* Adds the functions of a document and a path. */
static int add_questions(sqlite3 *database) {
    int code = SQLITE_OK;
    struct last *last = sqlite3_malloc(sizeof *last);
    if (!last) return SQLITE_NOMEM;
    memset(last, 0, sizeof *last);
    last->users = 1;
    for (size_t at = 0; at < sizeof QUESTIONS / sizeof *QUESTIONS; at++) {
        for (int arguments = 2; arguments <= QUESTIONS[at].most_arguments && code == SQLITE_OK; arguments++) {
            code = add_question(database, &QUESTIONS[at], arguments, last);
        }
    }
    leave(last);
    return code;
}

int sqlite3_jsonpath_init(sqlite3 *database, char **error, const sqlite3_api_routines *routines);

/* The entry, by whose name SQLite finds it in a file jsonpath.so. */
int sqlite3_jsonpath_init(sqlite3 *database, char **error, const sqlite3_api_routines *routines) {
    SQLITE_EXTENSION_INIT2(routines);
    (void)routines;
    if (sqlite3_libversion_number() < LEAST_SQLITE) {
        *error = sqlite3_mprintf("jsonpath needs SQLite 3.31 or later, and this is %s", sqlite3_libversion());
        return SQLITE_ERROR;
    }
    int code = add_questions(database);
    if (code == SQLITE_OK) code = sqlite3_create_function(database, "jsonpath_valid", 1, PLAIN, NULL, answer_valid, NULL, NULL);
    if (code == SQLITE_OK) code = sqlite3_create_function(database, "jsonpath_error", 1, PLAIN, NULL, answer_error, NULL, NULL);
    return code == SQLITE_OK ? jsonpath_sqlite_add_each(database) : code;
}
