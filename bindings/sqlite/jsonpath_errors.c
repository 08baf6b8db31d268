/* What is told of paths, documents and queries that are refused. */
#include <string.h>

#include "jsonpath_sqlite.h"
SQLITE_EXTENSION_INIT3

/* The room for a message or a hint, which have at most 100 bytes. */
#define MESSAGE_ROOM 128
/* How many bytes of a path are shown at most before a place, and from there on. */
#define BEFORE 60
#define AFTER 40
/* The same of a document's line, which is shown in 78 columns at most with what stands round it. */
#define LINE_BEFORE 42
#define LINE_AFTER 28

struct outcome jsonpath_sqlite_error(char *text) {
    return (struct outcome){text ? SQLITE_ERROR : SQLITE_NOMEM, text};
}

void jsonpath_sqlite_report(sqlite3_context *context, struct outcome outcome) {
    if (outcome.code == SQLITE_NOMEM) {
        sqlite3_result_error_nomem(context);
    } else if (outcome.code == SQLITE_TOOBIG) {
        sqlite3_result_error_toobig(context);
    } else if (outcome.text) {
        sqlite3_result_error(context, outcome.text, -1);
    } else if (outcome.code) {
        sqlite3_result_error_code(context, outcome.code);
    }
    sqlite3_free(outcome.text);
}

/* Whether a byte of UTF-8 goes on with a character that has begun. */
static int is_continuation(uint8_t byte) {
    return (byte & 0xc0) == 0x80;
}

/* Characters that do not take one column in a terminal, in order. */
static const struct {
    uint32_t first, last;
    int columns;
} WIDTHS[] = {
    {0x0300, 0x036f, 0},   {0x1100, 0x115f, 2},   {0x200b, 0x200f, 0},   {0x20d0, 0x20f0, 0},   {0x2e80, 0x303e, 2},
    {0x3041, 0xa4cf, 2},   {0xac00, 0xd7a3, 2},   {0xf900, 0xfaff, 2},   {0xfe00, 0xfe0f, 0},   {0xfe30, 0xfe6f, 2},
    {0xff00, 0xff60, 2},   {0xffe0, 0xffe6, 2},   {0x1f300, 0x1f64f, 2}, {0x1f900, 0x1f9ff, 2}, {0x20000, 0x3fffd, 2},
};

/* How many columns a character takes. */
static int columns_of(uint32_t character) {
    for (size_t at = 0; at < sizeof WIDTHS / sizeof *WIDTHS; at++) {
        if (WIDTHS[at].first <= character && character <= WIDTHS[at].last) return WIDTHS[at].columns;
    }
    return 1;
}

/* How many bytes the character of UTF-8 takes that begins with a byte. */
static int bytes_of(uint8_t first) {
    return first < 0x80 ? 1 : first < 0xe0 ? 2 : first < 0xf0 ? 3 : 4;
}

/* The character that so many bytes of UTF-8 are. */
static uint32_t character_of(const uint8_t *bytes, int count) {
    uint32_t character = count == 1 ? bytes[0] : bytes[0] & (0x7fu >> count);
    for (int at = 1; at < count; at++) character = character << 6 | (bytes[at] & 0x3f);
    return character;
}

/* Whether no terminal shows a character. A tab is shown as it is. */
static int is_control(uint32_t character) {
    return character != '\t' && (character < 0x20 || (character >= 0x7f && character < 0xa0));
}

/* How a control character is escaped in a path. */
static const char *escape_of(uint32_t character) {
    return character == '\n' ? "\\n" : character == '\r' ? "\\r" : "\\u%04x";
}

/* Appends some characters of UTF-8, control characters as escapes. */
static void append_shown(sqlite3_str *to, struct text text) {
    for (size_t at = 0; at < text.length; at += bytes_of(text.bytes[at])) {
        int count = bytes_of(text.bytes[at]);
        uint32_t character = character_of(text.bytes + at, count);
        if (is_control(character)) {
            sqlite3_str_appendf(to, escape_of(character), character);
        } else {
            sqlite3_str_append(to, (const char *)text.bytes + at, count);
        }
    }
}

/* Appends as many blanks as these characters take columns when they are shown, and a tab for a tab. */
static void append_blanks(sqlite3_str *to, struct text text) {
    for (size_t at = 0; at < text.length; at += bytes_of(text.bytes[at])) {
        uint32_t character = character_of(text.bytes + at, bytes_of(text.bytes[at]));
        int columns = is_control(character) ? (character == '\n' || character == '\r' ? 2 : 6) : columns_of(character);
        sqlite3_str_appendchar(to, character == '\t' ? 1 : columns, character == '\t' ? '\t' : ' ');
    }
}

/* A text that is cut round a place. */
struct window {
    struct text before, after;   /* What is shown before the place and from there on, in whole characters of UTF-8. */
    int begins_late, ends_early; /* Whether text before the one or after the other is left out. */
};

/* A part of a text. */
static struct text part(struct text text, size_t begin, size_t end) {
    return (struct text){text.bytes + begin, end - begin};
}

/* The start of the character that a byte is in, or the end of the text. */
static size_t start_of(struct text text, size_t at) {
    if (at >= text.length) return text.length;
    while (at > 0 && is_continuation(text.bytes[at])) at--;
    return at;
}

/* A path round the character that begins at a byte, from 1. */
static struct window window_of_path(struct text path, size_t position) {
    size_t place = position - 1;
    size_t begin = place > BEFORE ? start_of(path, place - BEFORE) : 0, end = start_of(path, place + AFTER);
    return (struct window){part(path, begin, place), part(path, place, end), begin > 0, end < path.length};
}

/* How many bytes the character of UTF-8 takes that a text begins with, or 0 where it begins with none. */
static int first_character(struct text text) {
    static const uint32_t least[] = {0, 0, 0x80, 0x800, 0x10000};
    if (!text.length) return 0;
    int count = bytes_of(text.bytes[0]);
    if (is_continuation(text.bytes[0]) || text.bytes[0] > 0xf4 || text.length < (size_t)count) return 0;
    for (int at = 1; at < count; at++) {
        if (!is_continuation(text.bytes[at])) return 0;
    }
    uint32_t character = character_of(text.bytes, count);
    int is_surrogate = 0xd800 <= character && character < 0xe000;
    return character < least[count] || character > 0x10ffff || is_surrogate ? 0 : count;
}

/* How many bytes of UTF-8 a text begins with. */
static size_t valid_length(struct text text) {
    size_t at = 0;
    int count;
    while ((count = first_character(part(text, at, text.length)))) at += (size_t)count;
    return at;
}

/* The last bytes of a text, without a character that is cut. */
static struct text last_text(struct text text, size_t most) {
    size_t start = text.length > most ? text.length - most : 0;
    for (size_t at = start; at < start + 4 && at < text.length; at++) {
        struct text near = part(text, at, text.length);
        if (valid_length(near) == near.length) return near;
    }
    return part(text, text.length, text.length);
}

/* Where the last line of a text begins. */
static size_t last_line(struct text text) {
    size_t at = text.length;
    while (at > 0 && text.bytes[at - 1] != '\n') at--;
    return at;
}

/* Whether a character is white space of Unicode. */
static int is_blank(uint32_t character) {
    static const uint32_t others[] = {0x85, 0xa0, 0x1680, 0x2028, 0x2029, 0x202f, 0x205f, 0x3000};
    for (size_t at = 0; at < sizeof others / sizeof *others; at++) {
        if (character == others[at]) return 1;
    }
    return character == ' ' || (9 <= character && character <= 13) || (0x2000 <= character && character <= 0x200a);
}

/* How many bytes the blanks take that a text begins with. */
static size_t blanks_before(struct text text) {
    size_t at = 0;
    while (at < text.length) {
        int count = bytes_of(text.bytes[at]);
        if (!is_blank(character_of(text.bytes + at, count))) break;
        at += (size_t)count;
    }
    return at;
}

/* How many bytes a text has before the blanks that it ends with. */
static size_t length_before_blanks(struct text text) {
    size_t length = text.length;
    while (length > 0) {
        size_t start = start_of(text, length - 1);
        if (!is_blank(character_of(text.bytes + start, (int)(length - start)))) break;
        length = start;
    }
    return length;
}

/* A document's line round a byte, from 1, without the blanks at its ends. Bytes that are no UTF-8 are left out. */
static struct window window_of_line(struct text document, size_t position) {
    size_t place = position - 1 < document.length ? position - 1 : document.length;
    struct text rest = part(document, place, document.length);
    struct text before = last_text(part(document, 0, place), LINE_BEFORE);
    struct text after = part(rest, 0, valid_length(part(rest, 0, rest.length < LINE_AFTER ? rest.length : LINE_AFTER)));
    size_t line = last_line(before);
    const uint8_t *end = memchr(after.bytes, '\n', after.length);
    int begins_late = !line && place > LINE_BEFORE, ends_early = !end && after.length < rest.length;
    before = part(before, line, before.length);
    if (end) after.length = (size_t)(end - after.bytes);
    if (!begins_late) before = part(before, blanks_before(before), before.length);
    if (!ends_early) after.length = length_before_blanks(after);
    return (struct window){before, after, begins_late, ends_early};
}

/* Appends what a window shows, in a line, and below it a caret under the place. */
static void append_with_caret(sqlite3_str *to, const struct window *window) {
    sqlite3_str_appendall(to, window->begins_late ? "\n  ..." : "\n  ");
    append_shown(to, window->before);
    append_shown(to, window->after);
    sqlite3_str_appendall(to, window->ends_early ? "...\n  " : "\n  ");
    sqlite3_str_appendall(to, window->begins_late ? "   " : "");
    append_blanks(to, window->before);
    sqlite3_str_appendall(to, "^");
}

/* The line and the column, in characters, of a place in a document, each from 1. */
static void place_of(struct text document, size_t position, size_t *line, size_t *column) {
    *line = *column = 1;
    for (size_t at = 0; at + 1 < position && at < document.length; at++) {
        if (document.bytes[at] == '\n') {
            *line += 1;
            *column = 1;
        } else if (!is_continuation(document.bytes[at])) {
            *column += 1;
        }
    }
}

/* Why a document is refused, and where. */
static struct outcome document_refused(struct text document, size_t position) {
    uint8_t message[MESSAGE_ROOM];
    size_t line, column, length = 0;
    uint8_t status = jsonpath_document_message(document.bytes, document.length, message, MESSAGE_ROOM, &length);
    if (status != JSONPATH_DONE) return jsonpath_sqlite_outcome_of(status);
    place_of(document, position, &line, &column);
    struct window window = window_of_line(document, position);
    sqlite3_str *to = sqlite3_str_new(NULL);
    sqlite3_str_appendf(to, "the document is refused at byte %llu, line %llu, column %llu: ", (sqlite3_uint64)position,
                        (sqlite3_uint64)line, (sqlite3_uint64)column);
    sqlite3_str_append(to, (const char *)message, (int)length);
    if (window.before.length || window.after.length) append_with_caret(to, &window);
    return jsonpath_sqlite_error(sqlite3_str_finish(to));
}

struct outcome jsonpath_sqlite_outcome(uint8_t status, struct text document, size_t position) {
    switch (status) {
        case JSONPATH_DONE:
        case JSONPATH_CUT_SHORT: return (struct outcome){SQLITE_OK, NULL};
        case JSONPATH_NO_MEMORY: return (struct outcome){SQLITE_NOMEM, NULL};
        case JSONPATH_DOCUMENT_REFUSED:
        case JSONPATH_DOCUMENT_TOO_DEEP: return document_refused(document, position);
        case JSONPATH_QUERY_REFUSED:
            return jsonpath_sqlite_error(sqlite3_mprintf("the query is refused: a pattern of match or search is too large"));
        case JSONPATH_NOT_UTF8: return jsonpath_sqlite_error(sqlite3_mprintf("the path is refused: it is not UTF-8"));
        default: return (struct outcome){SQLITE_INTERNAL, NULL};
    }
}

struct outcome jsonpath_sqlite_outcome_of(uint8_t status) {
    return jsonpath_sqlite_outcome(status, (struct text){(const uint8_t *)"", 0}, 1);
}

struct outcome jsonpath_sqlite_beyond(const struct jsonpath_limits *limits, size_t nodes, const char *bytes_of) {
    if (nodes == limits->nodes) {
        return jsonpath_sqlite_error(sqlite3_mprintf("the path selects more than %llu nodes", (sqlite3_uint64)nodes));
    }
    return jsonpath_sqlite_error(sqlite3_mprintf("%s have more than %llu bytes", bytes_of, (sqlite3_uint64)limits->bytes));
}

struct outcome jsonpath_sqlite_refused(struct text path, const struct jsonpath_refusal *refusal) {
    uint8_t message[MESSAGE_ROOM], hint[MESSAGE_ROOM];
    size_t message_length = 0, hint_length = 0;
    uint8_t status = jsonpath_message(path.bytes, path.length, JSONPATH_ALL_NUMBERS, message, MESSAGE_ROOM, &message_length);
    if (status != JSONPATH_DONE) return jsonpath_sqlite_outcome_of(status);
    status = jsonpath_hint(path.bytes, path.length, JSONPATH_ALL_NUMBERS, hint, MESSAGE_ROOM, &hint_length);
    if (status != JSONPATH_DONE) return jsonpath_sqlite_outcome_of(status);
    struct window window = window_of_path(path, refusal->position);
    sqlite3_str *to = sqlite3_str_new(NULL);
    sqlite3_str_appendf(to, "the path is refused at byte %llu: ", (sqlite3_uint64)refusal->position);
    sqlite3_str_append(to, (const char *)message, (int)message_length);
    append_with_caret(to, &window);
    if (hint_length) {
        sqlite3_str_appendall(to, "\n  probably meant: ");
        sqlite3_str_append(to, (const char *)hint, (int)hint_length);
    }
    return jsonpath_sqlite_error(sqlite3_str_finish(to));
}
