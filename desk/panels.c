#include "panels.h"

#include <stdint.h>

/* Each darker than the one before, by a fifth or so of the way from white to black. */
static const char *const COLOURS[STEPS + 1] = {"#ffffff", "#f7eaa8", "#f3b950", "#dd7a31", "#a93c25", "#561019"};

const char *colour_of_step(unsigned step)
{
    return COLOURS[step];
}

const char *colour_of_load(const struct picture *picture, unsigned halves)
{
    return COLOURS[((uint64_t)STEPS * halves + picture->carried - 1) / picture->carried];
}

int part_of_length(const struct picture *picture, unsigned halves, int length)
{
    return (int)((uint64_t)length * halves / picture->carried);
}

bool is_cut(const struct plan *plan, unsigned link)
{
    return link == plan->g || link == plan->h;
}

char letter_of(unsigned drawn)
{
    return "abcdefghij"[drawn];
}
