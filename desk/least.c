#include "least.h"

#include "turn.h"

/* ---- what each rule comes to */

/* What a rule is called, and for all but turning the method of the plan that has it. */
static const struct known {
    const char *name;
    struct method method;
} KNOWN[COUNT_OF_RULES + 1] = {
    [BY_TURNS] = {.name = "One turn at a time"},
    [BY_BEST] = {"The best choice", {FULL_ROOMS, BEST_CHOICE}},
    [BY_LOWERED_BEST] = {"The best choice by lowered rooms", {LOWERED_ROOMS, BEST_CHOICE}},
    [BY_RULE_D] = {"Rule D", {FULL_ROOMS, RULE_D}},
    [BY_LOWERED_RULE_D] = {"Rule D by lowered rooms", {LOWERED_ROOMS, RULE_D}},
};

/* Whether the plan was made by that rule. */
static bool is_by(const struct plan *plan, enum rule rule)
{
    return rule != BY_TURNS && plan->method.rooms == KNOWN[rule].method.rooms && plan->method.choice == KNOWN[rule].method.choice;
}

static enum status turned(struct outcome *outcome, const struct text *table)
{
    uint8_t ways[RINGKIT_MAX_ROWS];
    ringkit_turn_reply reply = ringkit_turn(table->bytes, table->length, ways);
    *outcome = (struct outcome){.found = reply.reason == RINGKIT_OK, .peak = reply.peak};
    return outcome->found ? FINE : REFUSED;
}

/* That the best choice is not sought for a table is no refusal of the table. */
static enum status planned(struct outcome *outcome, const struct text *table, enum rule rule)
{
    struct plan plan;
    struct refusal refusal;
    enum status status = find_plan(&plan, &refusal, table, KNOWN[rule].method);
    *outcome = (struct outcome){.found = status == FINE, .peak = status == FINE ? plan.peak : 0};
    return status == REFUSED && refusal.reason == RINGKIT_TOO_MANY_SPLIT ? FINE : status;
}

static enum status find_outcome(struct outcome *outcome, const struct text *table, const struct plan *plan, enum rule rule)
{
    enum status status = rule == BY_TURNS ? turned(outcome, table) : planned(outcome, table, rule);
    outcome->size = outcome->found ? line_size(plan, outcome->peak) : 0;
    return status;
}

enum status find_least(struct least *least, struct refusal *refusal, const struct text *table, const struct plan *plan)
{
    ringkit_least_reply reply = ringkit_least(table->bytes, table->length, least->ways);
    *refusal = REFUSAL_OF(reply);
    enum status status = reply.reason == RINGKIT_OK ? FINE : REFUSED;
    for (enum rule rule = BY_TURNS; status == FINE && rule <= COUNT_OF_RULES; rule++) {
        status = find_outcome(&least->outcome[rule], table, plan, rule);
    }
    least->rule = (enum rule)reply.rule;
    least->peak = reply.peak;
    least->size = status == FINE ? least->outcome[reply.rule].size : 0;
    least->floor = reply.floor;
    least->floor_size = status == FINE ? line_size(plan, reply.floor) : 0;
    return status;
}

/* No size is beyond all sizes. */
bool saves_size(const struct least *least, const struct plan *plan)
{
    return least->size != plan->size && least->size > 0;
}

/* ---- as it is told */

static void tell_saving(FILE *out, const struct least *least, const struct plan *plan)
{
    if (!saves_size(least, plan)) {
        return;
    }
    fprintf(out, "%s saves a line size: a line of %u is enough, where ", KNOWN[least->rule].name, least->size);
    if (plan->size > 0) {
        fprintf(out, "the plan wants one of %u.\n\n", plan->size);
    } else {
        fprintf(out, "none is large enough for the plan.\n\n");
    }
}

/* What is told of a peak, in the columns of its line. */
static void tell_figures(FILE *out, unsigned peak, unsigned size)
{
    fprintf(out, "%7u", peak);
    if (size > 0) {
        fprintf(out, "%15u", size);
    } else {
        fprintf(out, "%15s", "none");
    }
}

static void tell_outcome(FILE *out, const struct least *least, const struct plan *plan, enum rule rule)
{
    const struct outcome *outcome = &least->outcome[rule];
    int begun = fprintf(out, "%s%s", KNOWN[rule].name, is_by(plan, rule) ? " (plan)" : "");
    fprintf(out, "%*s", 40 - begun, "");
    if (outcome->found) {
        tell_figures(out, outcome->peak, outcome->size);
    } else {
        fprintf(out, "%7s%15s", "-", "-");
    }
    fputs(rule == least->rule ? "  the least\n" : "\n", out);
}

static void tell_outcomes(FILE *out, const struct least *least, const struct plan *plan)
{
    fprintf(out, "\n%-40s%7s%15s\n", "Whole circuits", "peak", "line to buy");
    for (enum rule rule = BY_TURNS; rule <= COUNT_OF_RULES; rule++) {
        tell_outcome(out, least, plan, rule);
    }
    fprintf(out, "%-40s", "The floor, below which no peak is");
    tell_figures(out, least->floor, least->floor_size);
    fputc('\n', out);
    if (!least->outcome[BY_BEST].found || !least->outcome[BY_LOWERED_BEST].found) {
        fprintf(out, "The best choice has no peak where more than %d circuits are left divided: too many to try every way of sending them.\n", RINGKIT_MAX_SPLIT);
    }
    if (plan->fibres == RINGKIT_TWO_FIBRES) {
        tell_kept_half(out);
    }
    fputc('\n', out);
}

/* ---- beside a plan */

/* The plan and the table's least; says on standard error why there is none. */
static enum status make_least(struct plan *plan, struct least *least, const struct text *table, struct method method)
{
    struct refusal refusal;
    enum status status = make_plan(plan, table, method);
    if (status == FINE) {
        status = find_least(least, &refusal, table, plan);
        tell_unless_fine(table, status, refusal);
    }
    return status;
}

enum status least_table(const struct text *table)
{
    struct plan plan;
    struct least least;
    enum status status = make_least(&plan, &least, table, FOUR_RULES);
    if (status == FINE) {
        tell_saving(stdout, &least, &plan);
        tell_ring(stdout, &plan);
        tell_whole(stdout, &plan, least.ways, least.peak);
        tell_outcomes(stdout, &least, &plan);
        tell_bound(stdout, &plan, "the least peak");
        tell_floor(stdout, &plan, least.peak);
    }
    return status;
}

enum status plan_with_least(const struct text *table, struct method method)
{
    struct plan plan;
    struct least least;
    enum status status = make_least(&plan, &least, table, method);
    if (status == FINE) {
        tell_saving(stdout, &least, &plan);
        tell_plan(stdout, &plan);
        tell_outcomes(stdout, &least, &plan);
        tell_proof(stdout, &plan, least.peak);
    }
    return status;
}

enum status least_beside_sheet(const struct text *table, struct method method)
{
    struct plan plan;
    struct least least;
    enum status status = make_least(&plan, &least, table, method);
    if (status == FINE) {
        fflush(stdout);
        tell_saving(stderr, &least, &plan);
        tell_ring(stderr, &plan);
        tell_outcomes(stderr, &least, &plan);
        tell_floor(stderr, &plan, least.peak);
    }
    return status;
}
