#include "crossing.h"

#include "refusal.h"

unsigned bound_of_rule_d(const struct plan *plan)
{
    unsigned largest = 0;
    for (unsigned k = 0; k < plan->circuits; k++) {
        const struct circuit *c = &plan->circuit[k];
        largest = is_split(c) && c->amount > largest ? c->amount : largest;
    }
    return plan->across + 3 * largest;
}

static void tell_all_cross(unsigned bound)
{
    struct units highest = in_units(bound);
    printf(": all circuits that have an amount cross each other, and are at most %d.\n", RINGKIT_MAX_SPLIT);
    printf("So by the best choice (desk plan --best, with --lowered or without) the peak of whole circuits is at most %u.%u units:\n", highest.whole, highest.tenths);
    printf("half of what the largest cut has across, and the largest amount. By rule D it may be higher.\n");
}

static void tell_pair(const struct text *table, size_t first, size_t second)
{
    printf(": rows %zu and %zu have amounts and are parallel, so not all circuits cross each other.\n", first, second);
    show_row(table, first);
    show_row(table, second);
}

static void tell_too_many(void)
{
    printf(": all circuits that have an amount cross each other, but are more than %d,\n", RINGKIT_MAX_SPLIT);
    printf("too many to try every way of sending them.\n");
}

enum status tell_crossing(const struct text *table)
{
    ringkit_crossing_reply reply = ringkit_crossing(table->bytes, table->length);
    if (reply.reason != RINGKIT_OK) {
        tell_refusal(table, REFUSAL_OF(reply), true);
        return REFUSED;
    }
    show_name(stdout, table->name);
    if (reply.kind == RINGKIT_ALL_CROSS) {
        tell_all_cross(reply.bound);
    } else if (reply.kind == RINGKIT_PARALLEL) {
        tell_pair(table, reply.first, reply.second);
    } else {
        tell_too_many();
    }
    return FINE;
}
