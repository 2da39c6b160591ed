/* A table at work: a planner's dialogue, by lines on standard input. Each circuit that is added, changed or removed shows in the largest cut. */
#ifndef DESK_WORK_H
#define DESK_WORK_H

#include <stdint.h>

#include "family.h"
#include "status.h"

/* Begins with the rows of a table, at places 1 and up in their order. */
enum status work_on(const char *file);

/* Begins with no row. */
enum status work_afresh(uint32_t offices, uint32_t fibres, enum family family);

#endif
