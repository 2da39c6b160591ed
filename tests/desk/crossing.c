/* crossing <FILE: asks of the stored tables whether their circuits all cross each other (tests/cases/crossed.py says how they are spelled) and holds each answer to what is stored. A table lies where it can
 * only be read, its last byte before a page that cannot be touched. Where all cross, the four calls of routing have to accept the table, with the peaks that are stored, and twice those of the best choice
 * at most the bound that was answered; and the least of five rules may not be above these. Says what fails; the last line is 'N passed, M failed'. */
#define _DEFAULT_SOURCE
#include <stdbool.h>
#include <stdio.h>
#include <string.h>

#include "fenced.h"
#include "held.h"

enum { AREA = 64 * 1024, LINE = 256 };

static uint8_t *text_area;

/* What is due: the answer, and where all cross the unsplit peaks of rule D and of the best choice. */
struct due {
    ringkit_crossing_reply reply;
    size_t length; /* of the table's text */
    uint32_t peak, best;
};

static bool read_due(struct due *due, const char *line)
{
    unsigned n[10];
    char end;
    int read = sscanf(line, "crossing %u %u %u %u %u %u %u %u %u %u%c", &n[0], &n[1], &n[2], &n[3], &n[4], &n[5], &n[6], &n[7], &n[8], &n[9], &end);
    *due = (struct due){{n[1], n[2], n[3], n[4], n[5], n[6], n[7]}, n[0], n[8], n[9]};
    return read == 11 && end == '\n' && due->length <= AREA;
}

static bool same(ringkit_crossing_reply one, ringkit_crossing_reply two)
{
    return one.reason == two.reason && one.line == two.line && one.byte == two.byte && one.kind == two.kind && one.bound == two.bound && one.first == two.first && one.second == two.second;
}

typedef ringkit_reply writing(const uint8_t *, size_t, uint8_t *, size_t);

/* Whether the call accepts the table, and its sheet has that unsplit peak. */
static bool comes_to(writing *route, const uint8_t *text, size_t length, uint32_t peak)
{
    static uint8_t sheet[RINGKIT_SHEET_BYTES];
    ringkit_reply reply = route(text, length, sheet, sizeof sheet);
    hold(sheet, reply.length);
    return reply.reason == RINGKIT_OK && held.peak == peak;
}

/* The least of five rules is at most the best choice's. */
static bool least_within(uint32_t best, const uint8_t *text, size_t length)
{
    static uint8_t ways[RINGKIT_MAX_ROWS];
    ringkit_least_reply reply = ringkit_least(text, length, ways);
    return reply.reason == RINGKIT_OK && reply.peak <= best;
}

/* Rows that all cross are halved by level rooms and by lowered ones. */
static bool peaks_hold(const struct due *due, const uint8_t *text)
{
    return comes_to(ringkit_route, text, due->length, due->peak) && comes_to(ringkit_route_lowered, text, due->length, due->peak) && comes_to(ringkit_route_best, text, due->length, due->best)
           && comes_to(ringkit_route_lowered_best, text, due->length, due->best) && 2 * due->best <= due->reply.bound && least_within(due->best, text, due->length);
}

/* Asks of a case that is the at-th. */
static bool answers(const struct due *due, const uint8_t *text, unsigned at)
{
    ringkit_crossing_reply r = ringkit_crossing(text, due->length);
    if (!same(r, due->reply)) {
        printf("error: table %u: answers %u %u %u, kind %u, bound %u, rows %zu and %zu\n", at, (unsigned)r.reason, (unsigned)r.line, (unsigned)r.byte, (unsigned)r.kind, (unsigned)r.bound, r.first, r.second);
        return false;
    }
    if (r.kind == RINGKIT_ALL_CROSS && !peaks_hold(due, text)) {
        printf("error: table %u: a peak is not the one that is stored, or is above the bound\n", at);
        return false;
    }
    return true;
}

int main(void)
{
    static char line[LINE];
    static uint8_t bytes[AREA];
    struct due due;
    unsigned passed = 0, failed = 0;
    text_area = fenced_area(AREA);
    while (fgets(line, sizeof line, stdin) != NULL) {
        unsigned at = passed + failed + 1;
        bool good = read_due(&due, line);
        if (!good) {
            printf("error: table %u: %.100s: this is no line of a stored table\n", at, line);
            failed++;
            break;
        }
        need(fread(bytes, 1, due.length, stdin) == due.length, "a table that ends too early");
        good = answers(&due, against_fence(text_area, AREA, bytes, due.length), at);
        passed += good;
        failed += !good;
    }
    printf("%u passed, %u failed\n", passed, failed);
    return failed > 0 || passed == 0;
}
