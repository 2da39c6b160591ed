/* Whether the circuits of a table all cross each other, and what is then promised of the best choice, as it is told to a planner. */
#ifndef DESK_CROSSING_H
#define DESK_CROSSING_H

#include "plan.h"
#include "status.h"
#include "text.h"

/* Tells of a table whether its circuits that have an amount all cross each other, and are few enough for the best choice: then how high its peak is at most; else the first two that are parallel, or
 * that they are too many. */
enum status tell_crossing(const struct text *table);

/* Twice the unsplit peak by rule D is at most this, of every plan. */
unsigned bound_of_rule_d(const struct plan *plan);

#endif
