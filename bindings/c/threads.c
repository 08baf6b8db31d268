/* Asks one path of one document in several threads at once, and frees both by an owner in each: threads THREADS ROUNDS
 *
 * Prints how many nodes there were in all rounds of all threads: in each round one of two in a thousand items. */
#include <pthread.h>
#include <stdio.h>
#include <stdlib.h>
#include <string.h>

#include "jsonpath.h"

#define ITEMS 1000
#define SOME 100 /* How many nodes a walk lists at a time. */
#define MOST_THREADS 64

/* What all threads ask. */
static jsonpath_path *path;
static jsonpath_document *document;
static jsonpath_nodes *nodes;
static long rounds;

/* What one thread counts, and its owners of what is asked. */
struct worker {
    pthread_t thread;
    jsonpath_path *path;
    jsonpath_document *document;
    size_t count;
    int failed;
};

/* Compiles the path, reads the document and lists the nodes. */
static int prepare(void) {
    static const char text[] = "$[?match(@.name, 'a.*') && @.number < 1e3]";
    static char json[ITEMS * 64];
    const struct jsonpath_limits no_limits = {SIZE_MAX, SIZE_MAX};
    struct jsonpath_refusal refusal;
    size_t length = 0, position;
    for (int at = 0; at < ITEMS; at++) {
        length += (size_t)sprintf(json + length, "%c{\"name\":\"%c%d\",\"number\":%d.5}", at ? ',' : '[', "ab"[at % 2], at, at);
    }
    json[length++] = ']';
    uint8_t status = jsonpath_path_new((const uint8_t *)text, strlen(text), JSONPATH_ALL_NUMBERS, &path, &refusal);
    if (status == JSONPATH_DONE) status = jsonpath_document_new((const uint8_t *)json, length, &document, &position);
    if (status == JSONPATH_DONE) status = jsonpath_select(path, document, 0, &no_limits, &nodes);
    return status == JSONPATH_DONE;
}

/* How many nodes a walk of this thread lists of what all share. Where a call fails there are too many. */
static size_t walked(void) {
    jsonpath_walk *walk = NULL;
    jsonpath_nodes *some = NULL;
    size_t all = 0, length = SOME;
    uint8_t status = jsonpath_walk_new(path, document, &walk);
    while (status == JSONPATH_DONE && length == SOME) {
        status = jsonpath_walk_next(&walk, SOME, &some) | jsonpath_nodes_length(some, &length);
        all += length;
    }
    jsonpath_walk_free(&walk), jsonpath_nodes_free(&some);
    return status == JSONPATH_DONE ? all : SIZE_MAX;
}

/* Asks in all rounds, and frees this thread's owners. */
static void *ask(void *given) {
    struct worker *worker = given;
    for (long round = 0; round < rounds; round++) {
        size_t count = 0, length = 0;
        uint8_t exists = 0;
        uint8_t status = jsonpath_count(path, document, &count) | jsonpath_exists(worker->path, worker->document, &exists)
                         | jsonpath_nodes_length(nodes, &length);
        worker->failed |= status != JSONPATH_DONE || !exists || length != count || walked() != count;
        worker->count += count;
    }
    jsonpath_path_free(&worker->path);
    jsonpath_document_free(&worker->document);
    return NULL;
}

int main(int count, char **words) {
    static struct worker workers[MOST_THREADS];
    int threads = count == 3 ? atoi(words[1]) : 0, started = 0, failed = !prepare();
    rounds = count == 3 ? atol(words[2]) : 0;
    if (threads < 1 || threads > MOST_THREADS) return fprintf(stderr, "usage: threads THREADS ROUNDS\n"), 64;
    for (; !failed && started < threads; started++) {
        struct worker *worker = &workers[started];
        failed = jsonpath_path_share(path, &worker->path) | jsonpath_document_share(document, &worker->document)
                 || pthread_create(&worker->thread, NULL, ask, worker);
    }
    size_t all = 0;
    for (int at = 0; at < started; at++) {
        failed |= pthread_join(workers[at].thread, NULL) || workers[at].failed;
        all += workers[at].count;
    }
    jsonpath_path_free(&path), jsonpath_document_free(&document), jsonpath_nodes_free(&nodes);
    if (failed) return fprintf(stderr, "a call fails\n"), 1;
    return printf("%zu\n", all), 0;
}
