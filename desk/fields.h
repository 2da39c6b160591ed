/* Letters and numbers: field by field in a text that the library accepted or wrote, and as a planner types them. */
#ifndef DESK_FIELDS_H
#define DESK_FIELDS_H

#include <stdbool.h>

#include "ringkit.h"

/* What is left of a text. */
struct rest {
    const uint8_t *at, *end;
};

/* Goes past the letter of the line and its tab, where that is the letter. */
bool begins(struct rest *rest, char letter);

/* Goes past a number and the byte behind it. */
unsigned number(struct rest *rest);

/* Reads a word as a number; false where it is none. One that passes 32 bits counts as the largest of them: no office, place or amount comes
 * near either, so the library refuses both for the same reason. */
bool read_typed(uint32_t *typed, const char *word);

#endif
