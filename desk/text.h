/* A text that was read, and its lines as they are shown to a planner. */
#ifndef DESK_TEXT_H
#define DESK_TEXT_H

#include <stdbool.h>
#include <stdio.h>

#include "ringkit.h"

struct text {
    const char *name; /* for messages */
    size_t length;
    uint8_t bytes[RINGKIT_MAX_PLANS_BYTES + 1]; /* one more than any call accepts, so that a longer text is seen to be longer */
};

/* Whether that file is standard input: NULL and "-" are. */
bool is_standard(const char *file);

/* What messages call it. */
const char *name_of(const char *file);

/* Reads a file, or standard input. Where it cannot, errno says why. */
bool take_text(struct text *text, const char *file);

/* The same, and says on standard error, behind all that standard output was given, why it cannot. */
bool read_text(struct text *text, const char *file);

/* Writes the name of a file so that it steers no terminal that reads UTF-8: each byte of a
 * character that is not shown, and each that is no UTF-8, is \xNN. */
void show_name(FILE *out, const char *name);

struct line {
    const uint8_t *bytes;
    size_t length; /* without its LF */
    bool missing;  /* the text ends before it */
    bool has_feed;
};

/* The line of that number, counted from 1. */
struct line line_of(const struct text *text, size_t number);

/* Writes a row of a table or a sheet on a line of its own: its place, which is counted from 1, and the row in quotes, so that every byte of it is seen and none reaches the terminal: a tab is |, and any
 * other byte that does not print is \xNN. A long line is cut. Behind it stands what the quotes do not say. */
void show_row(const struct text *text, size_t row);

/* Writes a line in the same way on a line of its own, below it a mark under that byte, counted from 1, and below that what the quotes do not say: whatever width a
 * terminal has, the mark is where it should be. A byte at the line's LF, or behind all of it, is the place of the closing quote. Of a long line the part about the byte is shown. */
void mark_line(FILE *out, struct line line, size_t byte);

#endif
