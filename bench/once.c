/* What the library does once, to be counted from outside: it is all that the function `counted` does.
 *   once route|best|lowered|lowered_best TABLE   the sheet goes to standard output
 *   once check SHEET                             nothing does
 *   once report PLANS                            the report over a text of many plans
 *   once pieces PLANS                            how many of its plans are accepted, each of which is checked by itself
 *   once turn TABLE                              peak, link and turns, and the ways as letters, go there
 *   once crossing TABLE                          kind, and the bound or the two rows
 *   once least TABLE                             peak, floor and rule, and the ways, go there
 *   once judge SHEET                             the values that the sheet says
 *   once add|change|remove|write [FIRST SECOND]  of a full working table of 64 offices, at its last place, a row of these nodes or else the dearest
 *   once kept, once afresh                       1,024 rows are added and removed again, with the largest cut behind each: kept by the library, or summed
 *                                                afresh here; all the cuts are said as one number, so that the two can be compared */
#include <stdbool.h>
#include <stdio.h>
#include <stdlib.h>
#include <string.h>

#include "../tests/desk/held.h"

enum { N = RINGKIT_MAX_OFFICES, ROWS = RINGKIT_MAX_ROWS, MOST = RINGKIT_MAX_AMOUNT };

static uint8_t text[RINGKIT_MAX_PLANS_BYTES], buffer[RINGKIT_SHEET_BYTES];
static size_t length, written;
static uint8_t ways[ROWS];
static ringkit_crossing_reply crossed;
/* what is told beside the ways, and how many rows they are of */
static uint32_t beside[3];
static size_t rows_sent;
static ringkit_work work;
/* the row that is added, changed to or removed: the dearest for all three, by trying all pairs */
static uint32_t first = 16, second = 47;
static uint32_t told;

/* ---- a text */

/* By a call that reads a text and fills a buffer. */
static uint32_t filled(ringkit_reply call(const uint8_t *, size_t, uint8_t *, size_t))
{
    ringkit_reply reply = call(text, length, buffer, sizeof buffer);
    written = reply.length;
    return reply.reason;
}

static uint32_t route(void)
{
    return filled(ringkit_route);
}

static uint32_t best(void)
{
    return filled(ringkit_route_best);
}

static uint32_t lowered(void)
{
    return filled(ringkit_route_lowered);
}

static uint32_t lowered_best(void)
{
    return filled(ringkit_route_lowered_best);
}

static void sent(const uint32_t *numbers, size_t rows)
{
    memcpy(beside, numbers, sizeof beside);
    rows_sent = rows;
}

static uint32_t turn(void)
{
    ringkit_turn_reply reply = ringkit_turn(text, length, ways);
    sent((const uint32_t[]){reply.peak, reply.link, reply.turns}, reply.rows);
    return reply.reason;
}

static uint32_t least(void)
{
    ringkit_least_reply reply = ringkit_least(text, length, ways);
    sent((const uint32_t[]){reply.peak, reply.floor, reply.rule}, reply.rows);
    return reply.reason;
}

static uint32_t crossing(void)
{
    crossed = ringkit_crossing(text, length);
    return crossed.reason;
}

static uint32_t check(void)
{
    return ringkit_check(text, length).reason;
}

/* ---- many plans, which are found before anything is counted */

static size_t starts[RINGKIT_MAX_PLANS_BYTES + 1];
static size_t pieces;

static void take_apart(void)
{
    for (size_t k = 0; k < length; k++) {
        if (k == 0 || (text[k - 1] == '\n' && text[k] == 'R')) {
            starts[pieces++] = k;
        }
    }
    starts[pieces] = length;
}

/* How many are accepted is told. */
static uint32_t check_pieces(void)
{
    for (size_t k = 0; k < pieces; k++) {
        told += ringkit_check(text + starts[k], starts[k + 1] - starts[k]).reason == RINGKIT_OK;
    }
    return RINGKIT_OK;
}

static uint32_t report(void)
{
    return filled(ringkit_report);
}

/* ---- a sheet as values */

static void take_down(void)
{
    hold(text, length);
}

static uint32_t judge(void)
{
    return judge_held().reason;
}

/* ---- a full working table: as many pairs as there may be rows, from the last to the first, so that writing has the most to sort; and the row in question at the last place */

static uint32_t add(void)
{
    return ringkit_work_add(&work, first, second, MOST).reason;
}

static uint32_t change(void)
{
    return ringkit_work_change(&work, ROWS, first, second, MOST - 1).reason;
}

static uint32_t removes(void)
{
    return ringkit_work_remove(&work, ROWS).reason;
}

static uint32_t writes(void)
{
    ringkit_reply reply = ringkit_work_write(&work, buffer, sizeof buffer);
    written = reply.length;
    return reply.reason;
}

static void all_but_one(void)
{
    unsigned rows = 0;
    ringkit_work_start(&work, N, RINGKIT_FOUR_FIBRES, RINGKIT_SONET);
    for (uint32_t i = N - 1; i >= 1; i--) {
        for (uint32_t j = N; j > i && rows < ROWS - 1; j--, rows++) {
            ringkit_work_add(&work, i, j, MOST - 7 * rows);
        }
    }
}

static void all(void)
{
    all_but_one();
    add();
}

/* ---- 1,024 rows added and removed again */

static struct row {
    uint32_t first, second, amount;
} list[ROWS];

static void draw(void)
{
    for (unsigned k = 0; k < ROWS; k++) {
        uint32_t i = 1 + k * 7 % (N - 1);
        list[k] = (struct row){i, i + 1 + k / 5 % (N - i), k * 7919 % (MOST + 1)};
    }
    ringkit_work_start(&work, N, RINGKIT_FOUR_FIBRES, RINGKIT_SONET);
}

static void tell(uint32_t g, uint32_t h, uint32_t across)
{
    told = (told * 31 + g) * 31 + h + across;
}

static uint32_t kept(void)
{
    for (unsigned k = 0; k < 2 * ROWS; k++) {
        const struct row *row = &list[k];
        ringkit_work_reply reply = k < ROWS ? ringkit_work_add(&work, row->first, row->second, row->amount) : ringkit_work_remove(&work, 2 * ROWS - k);
        tell(reply.g, reply.h, reply.across);
    }
    return RINGKIT_OK;
}

static bool between(uint32_t node, uint32_t g, uint32_t h)
{
    return g < node && node <= h;
}

/* Rule A over the first rows of the list. */
static void sum_afresh(unsigned rows)
{
    uint32_t best_g = 1, best_h = 2, most = 0;
    for (uint32_t g = 1; g < N; g++) {
        for (uint32_t h = g + 1; h <= N; h++) {
            uint32_t sum = 0;
            for (unsigned k = 0; k < rows; k++) {
                sum += between(list[k].first, g, h) != between(list[k].second, g, h) ? list[k].amount : 0;
            }
            if (sum > most) {
                best_g = g;
                best_h = h;
                most = sum;
            }
        }
    }
    tell(best_g, best_h, most);
}

static uint32_t afresh(void)
{
    for (unsigned k = 0; k < 2 * ROWS; k++) {
        sum_afresh(k < ROWS ? k + 1 : 2 * ROWS - 1 - k);
    }
    return RINGKIT_OK;
}

/* ---- the call that is counted */

static void nothing(void)
{
}

static const struct job {
    const char *name;
    void (*prepare)(void);
    uint32_t (*call)(void);
} JOBS[] = {
    {"route", nothing, route}, {"best", nothing, best}, {"lowered", nothing, lowered}, {"lowered_best", nothing, lowered_best}, {"turn", nothing, turn}, {"crossing", nothing, crossing}, {"least", nothing, least}, {"check", nothing, check}, {"report", nothing, report}, {"pieces", take_apart, check_pieces}, {"judge", take_down, judge}, {"add", all_but_one, add}, {"change", all, change}, {"remove", all, removes}, {"write", all, writes},
    {"kept", draw, kept}, {"afresh", draw, afresh},
};

static volatile uint32_t reason;

/* It stores what the call says, so that the call is not its last instruction. */
__attribute__((noipa)) void counted(uint32_t (*call)(void));
void counted(uint32_t (*call)(void))
{
    reason = call();
}

/* The third number is never 0 of the least; of turning the second is not. */
static void tell_sent(void)
{
    if (beside[1] == 0 && beside[2] == 0) {
        return;
    }
    printf("%u %u %u ", (unsigned)beside[0], (unsigned)beside[1], (unsigned)beside[2]);
    for (size_t row = 0; row < rows_sent; row++) {
        putchar(ways[row] == RINGKIT_F ? 'F' : 'B');
    }
    putchar('\n');
}

static void tell_crossing(void)
{
    if (crossed.kind != 0) {
        printf("%u %u %zu %zu\n", (unsigned)crossed.kind, (unsigned)crossed.bound, crossed.first, crossed.second);
    }
}

static void read_text(const char *name)
{
    FILE *file = fopen(name, "rb");
    length = file == NULL ? 0 : fread(text, 1, sizeof text, file);
}

int main(int words, char **word)
{
    if (words == 3) {
        read_text(word[2]);
    } else if (words == 4) {
        first = (uint32_t)atoi(word[2]);
        second = (uint32_t)atoi(word[3]);
    }
    for (size_t k = 0; words > 1 && k < sizeof JOBS / sizeof *JOBS; k++) {
        if (strcmp(word[1], JOBS[k].name) == 0) {
            JOBS[k].prepare();
            counted(JOBS[k].call);
            fwrite(buffer, 1, written, stdout);
            tell_sent();
            tell_crossing();
            if (told != 0) {
                printf("%u\n", (unsigned)told);
            }
            return reason != RINGKIT_OK;
        }
    }
    return 2;
}
