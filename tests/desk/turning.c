/* turning <FILE: sends the circuits of the stored tables one turn at a time (tests/cases/turned.py) and holds each answer, and the ways, to what is stored (ways.h). */
#define _DEFAULT_SOURCE
#include "ways.h"

static struct told turn(const uint8_t *table, size_t length, uint8_t *ways)
{
    ringkit_turn_reply r = ringkit_turn(table, length, ways);
    return (struct told){{r.reason, r.line, r.byte, r.peak, r.link, r.turns, (unsigned)r.rows}};
}

int main(void)
{
    return hold_stored("turn", turn);
}
