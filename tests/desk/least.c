/* least <FILE: sends the circuits of the stored tables by the rule that comes to the least peak (tests/cases/least.py) and holds each answer, and the ways, to what is stored (ways.h). */
#define _DEFAULT_SOURCE
#include "ways.h"

static struct told least(const uint8_t *table, size_t length, uint8_t *ways)
{
    ringkit_least_reply r = ringkit_least(table, length, ways);
    return (struct told){{r.reason, r.line, r.byte, r.peak, r.floor, r.rule, (unsigned)r.rows}};
}

int main(void)
{
    return hold_stored("least", least);
}
