/* A writer of JSON: objects and lists of texts, numbers and truths, all on one line. What it writes is ASCII, and so UTF-8, whatever bytes a text holds: who reads it line by line
 * meets no byte that some readers take for the end of a line, and a terminal none that it obeys. */
#ifndef DESK_JSON_H
#define DESK_JSON_H

#include <stdbool.h>
#include <stdio.h>

struct json {
    FILE *out;
    bool behind; /* whether what comes next stands behind something in the same object or list */
};

/* In an object each thing has a key; in a list, and where the line begins, the key is NULL. */
void open_object(struct json *json, const char *key);
void close_object(struct json *json);
void open_list(struct json *json, const char *key);
void close_list(struct json *json);
void put_number(struct json *json, const char *key, unsigned number);
void put_truth(struct json *json, const char *key, bool truth);

/* Null, which says that there is none. */
void put_none(struct json *json, const char *key);

/* A number that is never 0: a 0 says that there is none, and null is written. */
void put_number_or_none(struct json *json, const char *key, unsigned number);

/* Each byte that is no UTF-8 becomes U+FFFD. */
void put_text(struct json *json, const char *key, const char *text);

/* Every byte of the text, as two digits of base 16. */
void put_bytes(struct json *json, const char *key, const char *text);

/* Whether put_text keeps the text. */
bool is_utf8(const char *text);

#endif
