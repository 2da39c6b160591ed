#include "refusal.h"

#define SPELLED(x) #x
#define NUMBER(x) SPELLED(x)

/* By reason. A node is an office to a planner. */
static const char *const SENTENCES[] = {
    [RINGKIT_TOO_LONG] = "the text has more than " NUMBER(RINGKIT_MAX_TEXT_BYTES) " bytes",
    [RINGKIT_MISSHAPEN] = "the line has the wrong shape, is missing or left over, spells a number badly or has no LF at its end",
    [RINGKIT_RING_SIZE] = "the ring does not have " NUMBER(RINGKIT_MIN_OFFICES) " to " NUMBER(RINGKIT_MAX_OFFICES) " offices",
    [RINGKIT_NO_SUCH_NODE] = "an office of the row is not on the ring",
    [RINGKIT_NOT_BELOW] = "the first office of the row is not below the second",
    [RINGKIT_OUT_OF_ORDER] = "the row belongs before the row above it: rows go by first office, then by second",
    [RINGKIT_TOO_MUCH] = "an amount is over " NUMBER(RINGKIT_MAX_AMOUNT),
    [RINGKIT_WRONG_SUM] = "front and back, in halves, do not add up to twice the amount",
    [RINGKIT_WRONG_WAY] = "the row is not split, and its direction is not the one it is sent in: F where back is 0, else B",
    [RINGKIT_WRONG_CUT] = "the cut is not two links of the ring by rising number, or its across number is false",
    [RINGKIT_WRONG_LINK] = "the link is out of order, or its split or unsplit load is false",
    [RINGKIT_WRONG_LAST] = "the unsplit peak or the line size is false",
    [RINGKIT_NOT_TIGHT] = "the split peak, in halves, is not the cut's across number: the cut does not prove that the peak is the lowest",
    [RINGKIT_OVER_BOUND] = "the unsplit peak breaks its bound: twice the unsplit peak is more than the split peak, in halves, plus 3 times the largest split amount",
    [RINGKIT_NO_ROOM] = "the text to be written is longer than the room for it",
    [RINGKIT_TOO_MANY_ROWS] = "there are more than " NUMBER(RINGKIT_MAX_ROWS) " rows",
    [RINGKIT_DIAGONAL] = "an office has a demand with itself: where line and field have the same number, the field must be 0",
    [RINGKIT_NOT_SYMMETRIC] = "a field of the line differs from its mirror: field j of line i must be equal to field i of line j",
    [RINGKIT_SUM_TOO_MUCH] = "with this row the circuits between its two offices add up to more than " NUMBER(RINGKIT_MAX_AMOUNT),
    [RINGKIT_FIBRES] = "the ring has neither 2 nor 4 fibres",
    [RINGKIT_FULL] = "all " NUMBER(RINGKIT_MAX_ROWS) " places are taken",
    [RINGKIT_NO_ROW] = "the place named holds no row",
    [RINGKIT_TOO_MANY_SPLIT] = "more than " NUMBER(RINGKIT_MAX_SPLIT) " circuits are left divided, too many to try every way of sending them: plan without --best",
    [RINGKIT_PLANS_TOO_LONG] = "the text of plans has more than " NUMBER(RINGKIT_MAX_PLANS_BYTES) " bytes: make a report over a part of it",
};

const char *sentence_of(uint32_t reason)
{
    const char *sentence = reason < sizeof SENTENCES / sizeof *SENTENCES ? SENTENCES[reason] : NULL;
    return sentence != NULL ? sentence : "refused for a reason that this desk has no sentence for";
}

void tell_reason(uint32_t reason)
{
    fprintf(stderr, "%s (reason %u)\n", sentence_of(reason), (unsigned)reason);
}

/* Whether an R line has one number, as it had before it named the fibres. */
static bool lacks_fibres(struct line line)
{
    size_t k = 2;
    while (k < line.length && line.bytes[k] >= '0' && line.bytes[k] <= '9') {
        k++;
    }
    return line.length > 2 && line.bytes[0] == 'R' && line.bytes[1] == '\t' && k == line.length;
}

/* Whether that byte of an R line, counted from 1, lies behind the tab that is behind the fibres. */
static bool behind_fibres(struct line line, size_t byte)
{
    unsigned tabs = 0;
    for (size_t k = 0; k < line.length && k + 1 < byte; k++) {
        tabs += line.bytes[k] == '\t';
    }
    return line.length > 0 && line.bytes[0] == 'R' && tabs >= 3;
}

/* What an R line that has not its shape may lack, or have too much of. */
static void tell_ring_line(struct line line, size_t byte)
{
    if (lacks_fibres(line)) {
        fputs("    The number of fibres, " NUMBER(RINGKIT_TWO_FIBRES) " or " NUMBER(RINGKIT_FOUR_FIBRES) ", is missing behind the number of offices.\n", stderr);
    } else if (behind_fibres(line, byte)) {
        fputs("    Behind the number of fibres only the letter M may stand, of a ring of SDH.\n", stderr);
    }
}

void tell_refusal(const struct text *text, struct refusal refusal, bool has_ring_line)
{
    fflush(stdout);
    show_name(stderr, text->name);
    fputs(": ", stderr);
    if (refusal.line == 0) {
        tell_reason(refusal.reason);
        return;
    }
    struct line line = line_of(text, refusal.line);
    fprintf(stderr, "line %u, byte %u: ", (unsigned)refusal.line, (unsigned)refusal.byte);
    tell_reason(refusal.reason);
    mark_line(stderr, line, refusal.byte);
    if (has_ring_line && refusal.reason == RINGKIT_MISSHAPEN && refusal.line == 1) {
        tell_ring_line(line, refusal.byte);
    }
}
