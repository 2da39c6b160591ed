/* Refusals, in sentences. */
#ifndef DESK_REFUSAL_H
#define DESK_REFUSAL_H

#include <stdbool.h>

#include "text.h"

/* What a call answers where it refuses a text. */
struct refusal {
    uint32_t reason, line, byte;
};

/* That of a reply, whatever struct it is. */
#define REFUSAL_OF(reply) ((struct refusal){(reply).reason, (reply).line, (reply).byte})

/* Says on standard error, behind all that standard output was given, why the text was refused, and where: the line, how it stands, and the byte, by a mark. A table and a sheet have an R line, a matrix has none. */
void tell_refusal(const struct text *text, struct refusal refusal, bool has_ring_line);

/* What a reason says. */
const char *sentence_of(uint32_t reason);

/* Says the reason alone, and ends the line. */
void tell_reason(uint32_t reason);

#endif
