/* JSONPath (RFC 9535) over JSON texts, by the proved engine `serde_json_path`.
 *
 * Nodes come in the order of RFC 9535, arrays by index and objects by the bytes of their names; a node that is selected
 * twice comes twice. Of members of one name the last one counts. A number that is not held as a 64-bit integer (8.95, 4.0,
 * 1e2) is found and printed, but equals nothing and is neither less nor greater than anything, unless the path was compiled
 * with JSONPATH_ALL_NUMBERS. Filters have the functions of RFC 9535, and no others.
 *
 * JSON is printed compactly, without blanks: members by name, in the order of the names' bytes, and each name once; an integer
 * by its digits; any other number by digits that read back as the same double, so a double that is whole does not become an
 * integer.
 *
 * A call with two texts reads both each time. A program that asks many paths, or many documents, compiles a path once and reads
 * a document once, and keeps each in a handle: `jsonpath_path *`, `jsonpath_document *`, `jsonpath_nodes *` for a list of nodes,
 * and `jsonpath_walk *` for nodes that come some at a time. A document that is asked once is handed over as its bytes
 * (`jsonpath_lines_in` and on). A handle begins as NULL, which is empty; a call that fills or empties it is handed its address, and
 * a call that asks is handed the pointer itself, as `const jsonpath_path *`. A text is bytes and a length in bytes, and needs no
 * NUL at its end.
 *
 * Any number of threads may ask one path, one document and one list of nodes at once: a call that asks writes nothing that
 * another reads. Where threads do not agree who frees last, `jsonpath_path_share` and `jsonpath_document_share` give each an owner
 * of its own; what they own is freed with the last.
 *
 * What the caller must keep to; nothing checks it:
 *   - A pointer is not null, also where its length is 0, and the memory behind it is valid for that length. What a call may
 *     write (`out`, `length`, `refusal`, `position`) overlaps nothing else that the call is handed, and no other thread uses it
 *     meanwhile.
 *   - A variable of a handle is NULL at first and is changed by these calls alone. Its pointer may be copied for calls that ask;
 *     only one variable is handed to the call that frees it. While a call fills or frees a handle no other call has that handle,
 *     and afterwards no call has what was freed. Another owner of the same path or document may be asked meanwhile. What one
 *     thread has made, another asks or frees after what orders their memory: a lock, a thread's start or join, or a sequentially
 *     consistent atomic.
 *   - The handles of a walk's path and document are neither freed nor filled anew before it is freed. It stays in the thread that
 *     made it.
 *   - The stack has 1 MB left. A call uses what the depth of the path and of the document takes, 128 levels of each at most.
 *   - No call is made from a signal handler, nor in the child of a fork of a process with threads. malloc, realloc and free
 *     are those of one allocator, and align blocks as the C standard asks.
 *
 * What is said of calls, here and below, follows from their contracts in crates/jsonpath_c, but for this. Tested, not proved:
 *   - JSONPATH_NO_MEMORY comes only where memory was refused, and JSONPATH_QUERY_REFUSED only of a pattern that is too large once
 *     it is built.
 *   - What a handle held is given back where it is filled anew or freed, with its last owner, and no call loses memory. A further
 *     owner takes a few bytes, and copies nothing. A handle that is left as it was keeps its pointer.
 *   - With `unique` a query stops soon after more nodes differ than there may be. The limit of bytes does not stop it.
 *   - Of a document's bytes, what the path cannot reach is read and not kept; of JSONPATH_LOCATIONS no values are.
 *   - Which byte `*position` is where bytes are refused. Proved is that it is one of theirs or one past the last, and whether an
 *     array or an object begins there within 127 others.
 *   - By which digits a double is printed: 8.95 as 8.95, 4.0 as 4.0, 1e2 as 100.0.
 *   - No message and no hint is longer than 100 bytes.
 * Believed, not proved: a call needs what it asks no longer than until it returns, and a walk until it is freed. The proof takes a
 * path, a document or a list as lent for good, since its clauses cannot name a call's time; nothing that a call writes or keeps can
 * hold a reference, but for a walk.
 *
 * By contracts of functions behind the calls, a query stops once its answer is known: for `jsonpath_exists` at the first node, for
 * lines and lists at the node that would go beyond the limits, for the next nodes of a walk at the last one that is asked for. With
 * `unique` at most 64 nodes are held meanwhile, or four times as many as differ in their locations.
 *
 * The stack's megabyte is measured.
 *
 * Build: link libjsonpath_c.a, and then liblibc_c.a of the toolchain; or, once it is installed, the shared library, by
 * `pkg-config --cflags --libs jsonpath`. */
#ifndef JSONPATH_H
#define JSONPATH_H

#include <stddef.h>
#include <stdint.h>

#ifdef __cplusplus
extern "C" {
#endif

/* What a call answers. */
#define JSONPATH_DONE 0             /* All is written to `out`. */
#define JSONPATH_PATH_REFUSED 1     /* The path is refused; `refusal` says why, and where. */
#define JSONPATH_DOCUMENT_REFUSED 2 /* The bytes read as no document: they are not JSON, or have a number beyond those of
                                     * 64-bit floats, as 1e400, or, in a call with two texts, nest deeper than 127 levels. */
#define JSONPATH_QUERY_REFUSED 3    /* Some call of `match` or `search` goes by a pattern that `regex` reads, on a document that
                                     * is read. */
#define JSONPATH_NO_MEMORY 4        /* Memory was refused. */
#define JSONPATH_NO_ROOM 5          /* `out` is too small; `*length` says how many bytes are needed. */
#define JSONPATH_NOT_UTF8 6         /* The path is not UTF-8. */
#define JSONPATH_EMPTY_HANDLE 7     /* A handle that the call needs is empty. This comes before all else, as an index past the
                                     * end or bytes that are no document. */
#define JSONPATH_CUT_SHORT 8        /* There is more than the limits allow; what comes before, which may be nothing, is
                                     * answered. Lines that do not fit into `out` answer JSONPATH_NO_ROOM before this. */
#define JSONPATH_DOCUMENT_TOO_DEEP 9 /* The bytes read as no document, and an array or an object begins within 127 others (of
                                      * `jsonpath_document_new`, and of calls on a path and bytes). */
#define JSONPATH_NO_SUCH_NODE 10    /* The list has no node of that index, or it is not what is asked for. */

/* Kinds of refusals of a path. */
#define JSONPATH_EXPECTED_ROOT 1                 /* There is no `$` at the start. */
#define JSONPATH_BAD_MEMBER_NAME 2               /* The first character of a member name does not fit. */
#define JSONPATH_EXPECTED_CLOSING_BRACKET 3      /* A selector is followed by neither `,` nor `]`. */
#define JSONPATH_EXPECTED_ENDING_QUOTE 4         /* A string has no ending quote. */
#define JSONPATH_BAD_ESCAPE 5                    /* An escape is unknown or cut, or a surrogate stands alone. */
#define JSONPATH_CONTROL_CHARACTER 6             /* A control character stands in a string. */
#define JSONPATH_EXPECTED_SELECTOR 7             /* No selector begins where one should. */
#define JSONPATH_INTEGER_OUT_OF_RANGE 8          /* An index, or a part of a slice, is out of range. */
#define JSONPATH_EXPONENT_OR_EMPTY_FRACTION 9    /* A number literal has an exponent, by whole numbers, or no
                                                  * digit after a point or in an exponent. */
#define JSONPATH_NUMBER_OUT_OF_RANGE 10          /* A number literal is beyond 64 bits, or by all numbers doubles. */
#define JSONPATH_EXPECTED_EXPRESSION 11          /* No expression begins where one should. */
#define JSONPATH_EXPECTED_CLOSING_PARENTHESIS 12 /* No `)` stands where one should. */
#define JSONPATH_EXPECTED_COMPARISON_OPERATOR 13 /* A literal has no comparison operator after it. */
#define JSONPATH_NON_SINGULAR_QUERY 14           /* A query that may give several nodes is compared. */
#define JSONPATH_UNDEFINED_FUNCTION 15           /* A function is not declared. */
#define JSONPATH_WRONG_NUMBER_OF_ARGUMENTS 16    /* A call has too many or too few arguments. */
#define JSONPATH_WRONG_ARGUMENT_TYPE 17          /* An argument has the wrong type. */
#define JSONPATH_WRONG_RETURN_TYPE 18            /* A call's result may not stand where the call does. */
#define JSONPATH_NESTED_TOO_DEEP 19              /* Filters, parentheses and calls are nested more than 128 deep. */
#define JSONPATH_TEXT_AFTER_PATH 20              /* There is text after the path. */
#define JSONPATH_FRACTION_TOO_LONG 21            /* A number literal has over nine digits of a fraction. */

/* Why a path is refused, and where. */
struct jsonpath_refusal {
    uint32_t kind;   /* One of the kinds above. */
    size_t position; /* The byte at which it is refused, from 1; one past the last byte where the path ends too early. */
};

/* How a path takes numbers. Where a call takes `numbers`, any but 0 is all numbers. */
#define JSONPATH_WHOLE_NUMBERS 0 /* Comparisons take those that are held as 64-bit integers; any other equals nothing. A
                                  * number that is an argument has no fraction. */
#define JSONPATH_ALL_NUMBERS 1   /* Comparisons take all, by their exact value, as RFC 9535 compares them. Literals have any
                                  * number of digits and exponents, and any may be an argument. */

/* Whether a text is a path under the built-in functions, by that rule: DONE, PATH_REFUSED, NO_MEMORY or NOT_UTF8. `*refusal` is
 * written with PATH_REFUSED alone. */
uint8_t jsonpath_check(const uint8_t *path, size_t path_length, uint8_t numbers, struct jsonpath_refusal *refusal);

/* The message of a path's refusal by that rule, as `text after the path`, without an end: DONE, NO_ROOM, NO_MEMORY or NOT_UTF8.
 * Of a text that is a path it is empty. `out` and `*length` are written as by jsonpath_report. */
uint8_t jsonpath_message(const uint8_t *path, size_t path_length, uint8_t numbers, uint8_t *out, size_t out_length,
                         size_t *length);

/* What was probably meant by a path that is refused by that rule, as `no blank at the end`, without an end: DONE, NO_ROOM,
 * NO_MEMORY or NOT_UTF8. It is empty where the refusal shows no known slip, and of a text that is a path. `out` and `*length` are
 * written as by jsonpath_report. */
uint8_t jsonpath_hint(const uint8_t *path, size_t path_length, uint8_t numbers, uint8_t *out, size_t out_length,
                      size_t *length);

/* For each node of the document that the path selects, in order, a line: its normalised path, a tab, the node as compact JSON,
 * and a line feed.
 *
 * With DONE the lines are the first `*length` bytes of `out`. With NO_ROOM `*length` is how many bytes they are; call again
 * with that much. With any answer but DONE nothing of `out` is written, and with any but DONE and NO_ROOM nothing of
 * `*length`. `*refusal` is written with PATH_REFUSED alone. A text of UTF-8 that is no path answers PATH_REFUSED or NO_MEMORY,
 * whatever the document is, and QUERY_REFUSED comes only where the document is read. */
uint8_t jsonpath_report(const uint8_t *path, size_t path_length, const uint8_t *document, size_t document_length,
                        uint8_t *out, size_t out_length, size_t *length, struct jsonpath_refusal *refusal);

/* As jsonpath_report, with the node alone in each line: compact JSON and a line feed. */
uint8_t jsonpath_values(const uint8_t *path, size_t path_length, const uint8_t *document, size_t document_length,
                        uint8_t *out, size_t out_length, size_t *length, struct jsonpath_refusal *refusal);

/* As jsonpath_report, with the normalised path alone in each line, and a line feed. */
uint8_t jsonpath_locations(const uint8_t *path, size_t path_length, const uint8_t *document, size_t document_length,
                           uint8_t *out, size_t out_length, size_t *length, struct jsonpath_refusal *refusal);

/* ---- Paths, documents and nodes that a program keeps. A call writes what is said of the status that it answers, and leaves all
 * else that it is handed as it was. */

typedef struct jsonpath_path jsonpath_path;
typedef struct jsonpath_document jsonpath_document;
typedef struct jsonpath_nodes jsonpath_nodes;

/* Compiles a path under the built-in functions, by a rule for numbers, which it keeps: DONE, PATH_REFUSED, NO_MEMORY or
 * NOT_UTF8. With DONE the path is in `*path`, in the place of what was there. `*refusal` is written with PATH_REFUSED alone. */
uint8_t jsonpath_path_new(const uint8_t *text, size_t text_length, uint8_t numbers, jsonpath_path **path,
                          struct jsonpath_refusal *refusal);

/* Another owner of a path: DONE, NO_MEMORY or EMPTY_HANDLE. With DONE the same path is in `*other`, in the place of what was
 * there. */
uint8_t jsonpath_path_share(const jsonpath_path *path, jsonpath_path **other);

/* Frees a path, unless it has another owner, and makes the variable NULL. Of NULL it does nothing. */
void jsonpath_path_free(jsonpath_path **path);

/* A path's text, as it is printed: DONE, NO_MEMORY, NO_ROOM or EMPTY_HANDLE. `out` and `*length` are written as by
 * jsonpath_report. */
uint8_t jsonpath_path_text(const jsonpath_path *path, uint8_t *out, size_t out_length, size_t *length);

/* Whether two paths have the same tree, whatever they do with numbers: DONE with 1 or 0 in `*equal`, or EMPTY_HANDLE. */
uint8_t jsonpath_path_equals(const jsonpath_path *path, const jsonpath_path *other, uint8_t *equal);

/* Reads a document: DONE, DOCUMENT_REFUSED, DOCUMENT_TOO_DEEP or NO_MEMORY. With DONE the document is in `*document`, in the
 * place of what was there. With one of the two refusals `*position` is the number of a byte, from 1, or one past the last: of the
 * first byte that no document goes on with, or of the first byte of what it breaks, as of a number that is too large or of the
 * comma before a bracket. A byte that is not UTF-8 is told only if nothing before it breaks the document. With DOCUMENT_TOO_DEEP an
 * array or an object begins there within 127 others; with DOCUMENT_REFUSED, of bytes that are UTF-8, none does. */
uint8_t jsonpath_document_new(const uint8_t *bytes, size_t bytes_length, jsonpath_document **document, size_t *position);

/* Why bytes are no document, as `a comma with nothing after it`, without an end: DONE, NO_ROOM or NO_MEMORY. Of a document it is
 * empty. `out` and `*length` are written as by jsonpath_report. */
uint8_t jsonpath_document_message(const uint8_t *bytes, size_t bytes_length, uint8_t *out, size_t out_length,
                                  size_t *length);

/* Another owner of a document, as jsonpath_path_share of a path. */
uint8_t jsonpath_document_share(const jsonpath_document *document, jsonpath_document **other);

/* Frees a document, unless it has another owner, and makes the variable NULL. Of NULL it does nothing. */
void jsonpath_document_free(jsonpath_document **document);

/* What lines have of a node. */
#define JSONPATH_LINES 0     /* Its normalised path, a tab, and its compact JSON. */
#define JSONPATH_VALUES 1    /* Its compact JSON. */
#define JSONPATH_LOCATIONS 2 /* Its normalised path. */

/* How much a call may answer; SIZE_MAX for no limit. */
struct jsonpath_limits {
    size_t nodes; /* How many nodes. */
    size_t bytes; /* How many bytes: of lines all; of a list those of the names in its locations, each name in UTF-8 without
                   * quotes and escapes. An index counts for none. */
};

/* A line for each node of the document that the path selects, in order, in a form (any but 1 and 2 is JSONPATH_LINES): DONE,
 * CUT_SHORT, QUERY_REFUSED, NO_MEMORY, NO_ROOM or EMPTY_HANDLE. With DONE and CUT_SHORT the lines are the first `*length` bytes
 * of `out`; with CUT_SHORT they are those before the first node that would go beyond the limits. With NO_ROOM `*length` is how
 * many bytes they are, whether the limits cut them short or not. */
uint8_t jsonpath_lines(const jsonpath_path *path, const jsonpath_document *document, uint8_t form,
                       const struct jsonpath_limits *limits, uint8_t *out, size_t out_length, size_t *length);

/* How many nodes a path selects: DONE, QUERY_REFUSED, NO_MEMORY or EMPTY_HANDLE. */
uint8_t jsonpath_count(const jsonpath_path *path, const jsonpath_document *document, size_t *count);

/* Whether a path selects a node, 1 or 0 in `*exists`: statuses as of jsonpath_count. */
uint8_t jsonpath_exists(const jsonpath_path *path, const jsonpath_document *document, uint8_t *exists);

/* As jsonpath_lines, of the document that the bytes are, which is read for this call: its statuses, and DOCUMENT_REFUSED and
 * DOCUMENT_TOO_DEEP with `*position` as of jsonpath_document_new. */
uint8_t jsonpath_lines_in(const jsonpath_path *path, const uint8_t *document, size_t document_length, uint8_t form,
                          const struct jsonpath_limits *limits, uint8_t *out, size_t out_length, size_t *length,
                          size_t *position);

/* As jsonpath_count, of the document that the bytes are: its statuses, and the two refusals as of jsonpath_lines_in. */
uint8_t jsonpath_count_in(const jsonpath_path *path, const uint8_t *document, size_t document_length, size_t *count,
                          size_t *position);

/* As jsonpath_exists, of the document that the bytes are: statuses as of jsonpath_count_in. */
uint8_t jsonpath_exists_in(const jsonpath_path *path, const uint8_t *document, size_t document_length, uint8_t *exists,
                           size_t *position);

/* A list of the nodes that a path selects, in order: DONE, CUT_SHORT, QUERY_REFUSED, NO_MEMORY or EMPTY_HANDLE. With `unique`
 * other than 0 each location comes once, where it comes first. With DONE the list is in `*nodes`, in the place of what was there;
 * with CUT_SHORT too, and has the nodes before the first that would go beyond the limits, which may be none. It has a node's
 * location, kind and number, and outlives the document; strings and JSON are in the document. */
uint8_t jsonpath_select(const jsonpath_path *path, const jsonpath_document *document, uint8_t unique,
                        const struct jsonpath_limits *limits, jsonpath_nodes **nodes);

/* Frees a list and makes the variable NULL. Of NULL it does nothing. */
void jsonpath_nodes_free(jsonpath_nodes **nodes);

/* How many nodes a list has: DONE or EMPTY_HANDLE. */
uint8_t jsonpath_nodes_length(const jsonpath_nodes *nodes, size_t *length);

/* Kinds of nodes. A number that is written as an integer is of the first of the three kinds that holds it. One with a point or an
 * exponent is a double, as 4.0 and 1e2, and so is -0. */
#define JSONPATH_NULL 0
#define JSONPATH_FALSE 1
#define JSONPATH_TRUE 2
#define JSONPATH_INTEGER 3  /* An int64_t. */
#define JSONPATH_UNSIGNED 4 /* A uint64_t that is no int64_t. */
#define JSONPATH_DOUBLE 5
#define JSONPATH_STRING 6
#define JSONPATH_ARRAY 7
#define JSONPATH_OBJECT 8

/* What is known of a node. What its kind does not have is 0. */
struct jsonpath_node {
    uint32_t kind;           /* One of the kinds above. */
    size_t length;           /* The bytes of a string, the items of an array, the members of an object. */
    int64_t integer;         /* Of JSONPATH_INTEGER. */
    uint64_t unsigned_value; /* Of JSONPATH_UNSIGNED. */
    double number;           /* Of JSONPATH_DOUBLE. */
};

/* What is known of the node at an index, from 0: DONE, EMPTY_HANDLE or NO_SUCH_NODE. */
uint8_t jsonpath_node(const jsonpath_nodes *nodes, size_t index, struct jsonpath_node *node);

/* The normalised path of the node at an index: DONE, NO_MEMORY, NO_ROOM, EMPTY_HANDLE or NO_SUCH_NODE. `out` and `*length` are
 * written as by jsonpath_report, here and below. */
uint8_t jsonpath_node_location(const jsonpath_nodes *nodes, size_t index, uint8_t *out, size_t out_length, size_t *length);

/* The JSON pointer (RFC 6901) of the node at an index, likewise. */
uint8_t jsonpath_node_pointer(const jsonpath_nodes *nodes, size_t index, uint8_t *out, size_t out_length, size_t *length);

/* The bytes of the string at an index, as the document has it at that node's location: DONE, NO_ROOM, EMPTY_HANDLE or
 * NO_SUCH_NODE, also where no string is there. */
uint8_t jsonpath_node_text(const jsonpath_nodes *nodes, const jsonpath_document *document, size_t index, uint8_t *out,
                           size_t out_length, size_t *length);

/* The compact JSON of what the document has at the location of the node at an index: DONE, NO_MEMORY, NO_ROOM, EMPTY_HANDLE or
 * NO_SUCH_NODE, also where nothing is there. */
uint8_t jsonpath_node_json(const jsonpath_nodes *nodes, const jsonpath_document *document, size_t index, uint8_t *out,
                           size_t out_length, size_t *length);

/* ---- Walks: the nodes that a path selects, some at a time. */

typedef struct jsonpath_walk jsonpath_walk;

/* Begins a walk over the nodes that a path selects from a document, in order: DONE, NO_MEMORY or EMPTY_HANDLE. With DONE the walk
 * is in `*walk`, in the place of what was there. It needs the path and the document until it is freed, so neither is freed before.
 * It stays in the thread that made it. */
uint8_t jsonpath_walk_new(const jsonpath_path *path, const jsonpath_document *document, jsonpath_walk **walk);

/* Lists the next nodes of a walk, at most so many: DONE, QUERY_REFUSED, NO_MEMORY or EMPTY_HANDLE. With DONE the list is in
 * `*nodes`, in the place of what was there, and fewer than `most` are the last ones; after as many the next list may be empty.
 * With any other answer the walk is freed, and `*walk` is NULL. */
uint8_t jsonpath_walk_next(jsonpath_walk **walk, size_t most, jsonpath_nodes **nodes);

/* Frees a walk and makes the variable NULL. Of NULL it does nothing. */
void jsonpath_walk_free(jsonpath_walk **walk);

/* The library's version: major * 10000 + minor * 100 + patch. */
uint32_t jsonpath_version(void);

#ifdef __cplusplus
}
#endif

#endif
