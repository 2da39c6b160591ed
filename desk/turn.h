/* Whole circuits, sent one turn at a time, as they are told to a planner. */
#ifndef DESK_TURN_H
#define DESK_TURN_H

#include "plan.h"
#include "status.h"
#include "text.h"

/* Sends the table's circuits one turn at a time and tells what comes of it beside the plan's own: the way that each goes, the links' loads, the peak and the line size to buy, and how low
 * a peak could be. */
enum status turn_table(const struct text *table);

/* The load of a link where each circuit goes its way whole. */
unsigned load_of(const struct plan *plan, const uint8_t *ways, unsigned link);

/* Tells which way each circuit goes whole, and the links' loads, of which the largest is the peak. */
void tell_whole(FILE *out, const struct plan *plan, const uint8_t *ways, unsigned peak);

#endif
