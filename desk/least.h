/* The least peak that any of the rules comes to, beside those of the others, as it is told to a planner. */
#ifndef DESK_LEAST_H
#define DESK_LEAST_H

#include "plan.h"
#include "refusal.h"
#include "status.h"
#include "text.h"

/* The rules by which whole circuits are sent, in the order in which ties go. */
enum rule {
    BY_TURNS = RINGKIT_LEAST_TURNS,
    BY_BEST = RINGKIT_LEAST_BEST,
    BY_LOWERED_BEST = RINGKIT_LEAST_LOWERED_BEST,
    BY_RULE_D = RINGKIT_LEAST_RULE_D,
    BY_LOWERED_RULE_D = RINGKIT_LEAST_LOWERED_RULE_D,
    COUNT_OF_RULES = BY_LOWERED_RULE_D
};

/* What a rule comes to, with the line size to buy, 0 where none is large enough. The best choice comes to nothing where too many circuits are left divided. */
struct outcome {
    bool found;
    unsigned peak, size;
};

struct least {
    enum rule rule;                             /* the first that comes to the least peak, */
    unsigned peak, size;                        /* that peak and the line size to buy, */
    unsigned floor, floor_size;                 /* below what no peak is, and the line size that it would want, */
    struct outcome outcome[COUNT_OF_RULES + 1]; /* and by rule what each comes to */
    uint8_t ways[RINGKIT_MAX_ROWS];             /* of each circuit, by the rule */
};

/* Asks for the least of the table, and what each rule comes to; the plan is one of the table. The refusal is what the library answers where it refuses; TROUBLE is a sheet that this desk cannot
 * read. */
enum status find_least(struct least *least, struct refusal *refusal, const struct text *table, const struct plan *plan);

/* Whether a smaller line suffices for the least peak than for the plan's. */
bool saves_size(const struct least *least, const struct plan *plan);

/* The table's least, with the way of each circuit, the links' loads, what each rule comes to, and how low a peak could be. Where a rule saves a line size against the plan by rule D, that comes first. */
enum status least_table(const struct text *table);

/* The table's plan, and below it what each rule comes to. Where one saves a line size against the plan, that comes first. */
enum status plan_with_least(const struct text *table, struct method method);

/* The same without the plan, on standard error: the sheet beside it has standard output to itself. */
enum status least_beside_sheet(const struct text *table, struct method method);

#endif
