#include "report.h"

#include "fields.h"

/* A line of a family. False where it is none. */
static bool read_sums(struct sums *sums, struct rest *rest)
{
    if (!begins(rest, 'T')) {
        return false;
    }
    sums->accepted = number(rest);
    sums->peaks = number(rest);
    sums->twice = number(rest);
    sums->across = number(rest);
    return true;
}

/* The lines that the library wrote. False where they are none. */
static bool read_report(struct report *report, const uint8_t *lines, size_t length)
{
    struct rest rest = {lines, lines + length};
    if (!read_sums(&report->of[SONET], &rest) || !read_sums(&report->of[SDH], &rest) || !begins(&rest, 'X')) {
        return false;
    }
    report->refused = number(&rest);
    return rest.at == rest.end;
}

const char STRANGE_REPORT[] = "the library's report has a shape that this desk does not know";

enum status find_report(struct report *report, struct refusal *refusal, const struct text *plans)
{
    uint8_t lines[RINGKIT_REPORT_BYTES];
    ringkit_reply reply = ringkit_report(plans->bytes, plans->length, lines, sizeof lines);
    if (reply.reason != RINGKIT_OK) {
        *refusal = REFUSAL_OF(reply);
        return REFUSED;
    }
    return read_report(report, lines, reply.length) ? FINE : TROUBLE;
}

static void tell_counts(const struct text *plans, const struct report *report)
{
    unsigned accepted = report->of[SONET].accepted + report->of[SDH].accepted;
    unsigned pieces = accepted + report->refused;
    show_name(stdout, plans->name);
    if (pieces == 0) {
        printf(": no plans, the text is empty.\n");
    } else {
        printf(": %u plan%s, %u accepted and %u refused.\n", pieces, pieces == 1 ? "" : "s", accepted, report->refused);
    }
}

/* In thousandths, rounded to the nearest; it is said where that is not all of it. */
static void tell_times(unsigned twice, unsigned across)
{
    uint64_t thousandths = (2000 * (uint64_t)twice + across) / (2 * (uint64_t)across);
    const char *about = 1000 * (uint64_t)twice % across == 0 ? "" : "about ";
    printf("So that peak is %s%u.%03u times", about, (unsigned)(thousandths / 1000), (unsigned)(thousandths % 1000));
}

/* The split peak, in halves, is the across number of an accepted plan. */
static void tell_worst(const struct sums *sums)
{
    if (sums->across > 0) {
        printf("The worst of them has %u to %u: twice its unsplit peak to the demand across its cut.\n", sums->twice, sums->across);
        tell_times(sums->twice, sums->across);
        printf(" the split one, which is the lowest there is, however finely circuits are divided.\n");
    } else {
        printf("None of them has any demand across its cut: all loads are 0, and there is no worst one.\n");
    }
}

/* Units of two families do not add up. */
static void tell_sums(enum family family, const struct sums *sums)
{
    if (sums->accepted > 0) {
        printf("Of %s %u %s accepted, and the unsplit peaks add up to %u %s.\n", name_of_family(family), sums->accepted, sums->accepted == 1 ? "is" : "are", sums->peaks, unit_of(family));
        tell_worst(sums);
    }
}

enum status tell_report(const struct text *plans)
{
    struct report report;
    struct refusal refusal;
    enum status status = find_report(&report, &refusal, plans);
    if (status == REFUSED) {
        tell_refusal(plans, refusal, false);
    } else if (status == TROUBLE) {
        fprintf(stderr, "desk: %s\n", STRANGE_REPORT);
    } else {
        tell_counts(plans, &report);
        tell_sums(SONET, &report.of[SONET]);
        tell_sums(SDH, &report.of[SDH]);
    }
    return status;
}
