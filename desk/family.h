/* The families of line sizes, as a planner hears of them. The library owns their sizes. */
#ifndef DESK_FAMILY_H
#define DESK_FAMILY_H

#include "fields.h"
#include "ringkit.h"

enum family { SONET = RINGKIT_SONET, SDH = RINGKIT_SDH };

const char *name_of_family(enum family family);

/* What one unit of an amount is. */
const char *unit_of(enum family family);

/* How a sentence on a ring begins: the family is named where the R line names it. */
const char *ring_of_family(enum family family);

/* What an R line says of it behind the fibres: of SONET nothing. */
const char *mark_of(enum family family);

/* Goes past what an R line says of it. */
enum family read_family(struct rest *rest);

#endif
