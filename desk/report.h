/* A report over a text of many plans, as it is told to a planner. */
#ifndef DESK_REPORT_H
#define DESK_REPORT_H

#include "family.h"
#include "refusal.h"
#include "status.h"
#include "text.h"

/* What the plans of one family come to. Of the worst plan twice the unsplit peak and the across number; both 0 where no plan enters. */
struct sums {
    unsigned accepted, peaks, twice, across;
};

struct report {
    struct sums of[SDH + 1]; /* by family: units of the one are not those of the other */
    unsigned refused;
};

/* Has the library make the report, and takes its lines apart. The refusal is what the library answers; TROUBLE is a line that this desk cannot read. */
enum status find_report(struct report *report, struct refusal *refusal, const struct text *plans);

/* What is said of such trouble. */
extern const char STRANGE_REPORT[];

/* Tells how many plans are accepted and how many refused, and of either family what their peaks add up to, and how far the worst of them is above the lowest peak. */
enum status tell_report(const struct text *plans);

#endif
