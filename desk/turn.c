#include "turn.h"

#include "refusal.h"

/* Whether a circuit's front holds the link. */
static bool front_holds(const struct circuit *c, unsigned link)
{
    return c->first <= link && link < c->second;
}

unsigned load_of(const struct plan *plan, const uint8_t *ways, unsigned link)
{
    unsigned load = 0;
    for (unsigned k = 0; k < plan->circuits; k++) {
        load += front_holds(&plan->circuit[k], link) == (ways[k] == RINGKIT_F) ? plan->circuit[k].amount : 0;
    }
    return load;
}

static void tell_ways(FILE *out, const struct plan *plan, const uint8_t *ways)
{
    fprintf(out, "\nCircuit   offices  amount  it goes\n");
    for (unsigned k = 0; k < plan->circuits; k++) {
        const struct circuit *c = &plan->circuit[k];
        fprintf(out, "%7u   %2u - %2u  %6u  ", k + 1, c->first, c->second, c->amount);
        tell_way(out, c, ways[k] != RINGKIT_F);
    }
}

static void tell_loads(FILE *out, const struct plan *plan, const uint8_t *ways, unsigned peak)
{
    fprintf(out, "\n   Link   offices     load\n");
    for (unsigned k = 1; k <= plan->offices; k++) {
        fprintf(out, "%7u   %2u - %2u  %7u\n", k, k, k % plan->offices + 1, load_of(plan, ways, k));
    }
    fprintf(out, "   Peak            %7u\n", peak);
}

void tell_whole(FILE *out, const struct plan *plan, const uint8_t *ways, unsigned peak)
{
    if (plan->circuits > 0) {
        tell_ways(out, plan, ways);
    }
    tell_loads(out, plan, ways, peak);
}

static void tell_beside(const char *what, unsigned peak, unsigned size)
{
    printf("%-20s%7u", what, peak);
    if (size > 0) {
        printf("%15u\n", size);
    } else {
        printf("%15s\n", "none");
    }
}

static void tell_turns(ringkit_turn_reply reply)
{
    if (reply.turns == 0) {
        printf("\nEach circuit goes the way that avoids link %u; no single turn lowers the peak.\n", (unsigned)reply.link);
    } else {
        printf("\nEach circuit began on the way that avoids link %u; %u turn%s lowered the peak to this, and no single turn lowers it further.\n", (unsigned)reply.link, (unsigned)reply.turns,
               reply.turns == 1 ? "" : "s");
    }
}

/* The peak and the line size, beside those of the plan. */
static void tell_peaks(const struct plan *plan, ringkit_turn_reply reply)
{
    printf("\n%-20s%7s%15s\n", "", "peak", "line to buy");
    tell_beside("One turn at a time", reply.peak, line_size(plan, reply.peak));
    tell_beside("By rule D (plan)", plan->peak, plan->size);
    if (plan->fibres == RINGKIT_TWO_FIBRES) {
        tell_kept_half(stdout);
    }
    putchar('\n');
    tell_floor(stdout, plan, reply.peak);
}

enum status turn_table(const struct text *table)
{
    uint8_t ways[RINGKIT_MAX_ROWS];
    struct plan plan;
    ringkit_turn_reply reply = ringkit_turn(table->bytes, table->length, ways);
    if (reply.reason != RINGKIT_OK) {
        tell_refusal(table, REFUSAL_OF(reply), true);
        return REFUSED;
    }
    enum status status = make_plan(&plan, table, FOUR_RULES);
    if (status != FINE) {
        return status;
    }
    tell_ring(stdout, &plan);
    tell_whole(stdout, &plan, ways, reply.peak);
    tell_turns(reply);
    tell_peaks(&plan, reply);
    return FINE;
}
