/* Prints how many of a thousand rules hold of each document on standard input, one on each line: rules < DOCUMENTS
 *
 * Rule n is that some item costs more than n. The rules are compiled once, and each document is read once. */
#define _POSIX_C_SOURCE 200809L
#include <stdio.h>
#include <stdlib.h>

#include "jsonpath.h"

#define RULES 1000

/* Compiles each rule. */
static uint8_t compile(jsonpath_path **rules) {
    uint8_t status = JSONPATH_DONE;
    for (int at = 0; at < RULES && status == JSONPATH_DONE; at++) {
        char text[64];
        int length = snprintf(text, sizeof text, "$.items[?@.price > %d]", at);
        struct jsonpath_refusal refusal;
        status = jsonpath_path_new((const uint8_t *)text, (size_t)length, JSONPATH_ALL_NUMBERS, &rules[at], &refusal);
    }
    return status;
}

/* Counts the rules that hold of a document. */
static uint8_t count(jsonpath_path **rules, const jsonpath_document *document, size_t *holding) {
    uint8_t status = JSONPATH_DONE, holds;
    *holding = 0;
    for (int at = 0; at < RULES && status == JSONPATH_DONE; at++) {
        status = jsonpath_exists(rules[at], document, &holds);
        if (status == JSONPATH_DONE) *holding += holds;
    }
    return status;
}

int main(void) {
    static jsonpath_path *rules[RULES]; /* Each is NULL at first. */
    jsonpath_document *document = NULL;
    char *line = NULL;
    size_t room = 0, holding, position;
    ssize_t length;
    uint8_t status = compile(rules);
    while (status != JSONPATH_NO_MEMORY && (length = getline(&line, &room, stdin)) > 0) {
        if (line[length - 1] == '\n') length--;
        /* What the handle held is freed once the next document is in it. */
        status = jsonpath_document_new((const uint8_t *)line, (size_t)length, &document, &position);
        if (status == JSONPATH_DONE) status = count(rules, document, &holding);
        if (status == JSONPATH_DONE) {
            printf("%zu\n", holding);
        } else if (status == JSONPATH_DOCUMENT_REFUSED || status == JSONPATH_DOCUMENT_TOO_DEEP) {
            printf("refused at position %zu\n", position);
        }
    }
    if (status == JSONPATH_NO_MEMORY) fprintf(stderr, "no memory\n");
    for (int at = 0; at < RULES; at++) jsonpath_path_free(&rules[at]);
    jsonpath_document_free(&document);
    free(line);
    return status == JSONPATH_NO_MEMORY ? 3 : 0;
}
