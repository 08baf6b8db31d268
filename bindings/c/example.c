/* Prints what a path selects from the document on standard input: example PATH < DOCUMENT */
#include <stdio.h>
#include <stdlib.h>
#include <string.h>

#include "jsonpath.h"

int main(int count, char **words) {
    if (count != 2) return fprintf(stderr, "usage: example PATH\n"), 64;
    const uint8_t *path = (const uint8_t *)words[1];
    size_t path_length = strlen(words[1]), room = 1 << 16, read = 0, length;
    uint8_t *document = malloc(room);
    while (document && (read += fread(document + read, 1, room - read, stdin)) == room) {
        uint8_t *larger = realloc(document, room *= 2);
        if (!larger) free(document);
        document = larger;
    }
    if (!document) return fprintf(stderr, "no memory\n"), 3;

    struct jsonpath_refusal refusal;
    room = read + 4096;
    uint8_t *lines = malloc(room), status = JSONPATH_NO_MEMORY;
    if (lines) status = jsonpath_report(path, path_length, document, read, lines, room, &length, &refusal);
    if (status == JSONPATH_NO_ROOM) { /* `length` says how much it takes. */
        free(lines);
        lines = malloc(room = length);
        status = JSONPATH_NO_MEMORY;
        if (lines) status = jsonpath_report(path, path_length, document, read, lines, room, &length, &refusal);
    }
    if (status == JSONPATH_DONE) {
        fwrite(lines, 1, length, stdout);
    } else if (status == JSONPATH_PATH_REFUSED) {
        uint8_t text[128];
        jsonpath_message(path, path_length, JSONPATH_WHOLE_NUMBERS, text, sizeof text, &length);
        fprintf(stderr, "at position %zu, %.*s\n", refusal.position, (int)length, (char *)text);
        uint8_t told = jsonpath_hint(path, path_length, JSONPATH_WHOLE_NUMBERS, text, sizeof text, &length);
        if (told == JSONPATH_DONE && length) {
            fprintf(stderr, "probably meant: %.*s\n", (int)length, (char *)text);
        }
    } else {
        fprintf(stderr, "no answer: status %u\n", status);
    }
    return free(lines), free(document), status;
}
