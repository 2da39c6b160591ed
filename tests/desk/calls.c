/* Calls the library as a C program does: on a small stack, in several threads, with texts that cannot be written to and buffers that end where
 * memory does. Says what fails; the last line is 'N passed, M failed'. */
#define _DEFAULT_SOURCE
#include <pthread.h>
#include <stdarg.h>
#include <stdbool.h>
#include <stdio.h>
#include <string.h>

#include "fenced.h"
#include "held.h"

_Static_assert(sizeof(ringkit_row) == 24 && sizeof(ringkit_link) == 12 && sizeof(ringkit_judge_reply) == 8, "numbers of 4 bytes, with no padding");
_Static_assert(sizeof(ringkit_turn_reply) == 24 + sizeof(size_t), "six numbers of 4 bytes, and the rows");
_Static_assert(sizeof(ringkit_crossing_reply) == 24 + 2 * sizeof(size_t), "five numbers of 4 bytes and room for another, and two places");
_Static_assert(sizeof(ringkit_least_reply) == 24 + sizeof(size_t), "six numbers of 4 bytes, and the rows");
_Static_assert(RINGKIT_SHEET_BYTES == 27 * RINGKIT_MAX_ROWS + 23 * RINGKIT_MAX_OFFICES + 46,
               "so much for each row and each link of the longest sheet, and for the other lines, as in crates/ringkit");
_Static_assert(RINGKIT_TABLE_BYTES == 13 * RINGKIT_MAX_ROWS + 9, "so much for each row of the longest table, and for its R line");
_Static_assert(RINGKIT_REPORT_BYTES == 2 * (1 + 5 + 2 * 9 + 8 + 5) + 1 + 5 + 2, "of either family the T, the count, the sum and the twice-peak, the across number, and the byte behind each; the X, and another count");
_Static_assert(RINGKIT_MATRIX_BYTES == 5 * RINGKIT_MAX_OFFICES * RINGKIT_MAX_OFFICES, "4 digits and the byte behind them for each entry");

static unsigned passed, failed;

static void expect(bool good, const char *what, ...)
{
    va_list values;
    if (good) {
        passed++;
        return;
    }
    failed++;
    va_start(values, what);
    fputs("error: ", stdout);
    vprintf(what, values);
    putchar('\n');
    va_end(values);
}

/* ---- texts; none lies on a stack, since that is small */

struct text {
    size_t length;
    uint8_t bytes[RINGKIT_MAX_PLANS_BYTES + 1];
};

static const struct text NOTHING;
static struct text table, sheet, matrix, plans, report;

static void add(struct text *text, const char *line, ...)
{
    va_list values;
    va_start(values, line);
    text->length += (size_t)vsnprintf((char *)text->bytes + text->length, sizeof text->bytes - text->length, line, values);
    va_end(values);
}

static void one_row(unsigned offices, unsigned amount)
{
    table.length = 0;
    add(&table, "R\t%u\t4\nD\t1\t2\t%u\n", offices, amount);
}

static unsigned mixed(unsigned i, unsigned j)
{
    return (i * 7919 + j * 3571) % (RINGKIT_MAX_AMOUNT + 1);
}

/* Whether a pair has a row: each has, or of 64 offices, which have more pairs than there may be rows, those of an odd office and an even one, which are just as many. */
static bool has_row(unsigned offices, unsigned i, unsigned j)
{
    return offices < RINGKIT_MAX_OFFICES || (j - i) % 2 == 1;
}

static void all_pairs(unsigned offices)
{
    table.length = 0;
    add(&table, "R\t%u\t4\n", offices);
    for (unsigned i = 1; i < offices; i++) {
        for (unsigned j = i + 1; j <= offices; j++) {
            if (has_row(offices, i, j)) {
                add(&table, "D\t%u\t%u\t%u\n", i, j, mixed(i, j));
            }
        }
    }
}

static void equal_rows(unsigned rows)
{
    table.length = 0;
    add(&table, "R\t%u\t4\n", RINGKIT_MAX_OFFICES);
    for (unsigned k = 0; k < rows; k++) {
        add(&table, "D\t15\t31\t%u\n", RINGKIT_MAX_AMOUNT);
    }
}

/* ---- a text and a buffer, each with a page behind it that cannot be touched */

enum { AREA = 128 * 1024, PATTERN = 0x55 };

static uint8_t *text_area, *buffer_area;

/* Puts the text against its fence, where it can only be read. */
static const uint8_t *fenced(const struct text *text)
{
    return against_fence(text_area, AREA, text->bytes, text->length);
}

typedef ringkit_reply writing(const uint8_t *, size_t, uint8_t *, size_t);

/* Calls with a buffer of so many bytes, the last before its fence. */
static ringkit_reply lend(writing *call, const struct text *text, size_t room)
{
    memset(buffer_area, PATTERN, AREA);
    return call(fenced(text), text->length, buffer_area + AREA - room, room);
}

static bool untouched(const uint8_t *from, const uint8_t *to)
{
    while (from < to && *from == PATTERN) {
        from++;
    }
    return from == to;
}

/* Whether a buffer of so many bytes begins with that text, and every byte before and behind the text is as it was. */
static bool holds(size_t room, const struct text *text)
{
    const uint8_t *begin = buffer_area + AREA - room;
    return untouched(buffer_area, begin) && memcmp(begin, text->bytes, text->length) == 0 &&
           untouched(begin + text->length, buffer_area + AREA);
}

/* ---- accepted texts */

static bool says(ringkit_reply reply, uint32_t reason, uint32_t line, uint32_t byte, size_t length)
{
    return reply.reason == reason && reply.line == line && reply.byte == byte && reply.length == length;
}

static bool finds(ringkit_pair_reply pair, uint32_t reason, uint32_t line, uint32_t byte, size_t first, size_t second)
{
    return pair.reason == reason && pair.line == line && pair.byte == byte && pair.first == first && pair.second == second;
}

/* With just enough room the call writes that text; with a byte less, and with none, it refuses and touches nothing. */
static void writes(const char *name, writing *call, const struct text *text, const struct text *written)
{
    size_t room = written->length;
    expect(says(lend(call, text, room), RINGKIT_OK, 0, 0, room), "%s: just enough room is refused", name);
    expect(holds(room, written), "%s: what is written", name);
    expect(says(lend(call, text, room - 1), RINGKIT_NO_ROOM, 0, 0, 0), "%s: a byte less is enough", name);
    expect(holds(room - 1, &NOTHING), "%s: too short a buffer is touched", name);
    expect(says(call(fenced(text), text->length, NULL, 0), RINGKIT_NO_ROOM, 0, 0, 0), "%s: no buffer is enough", name);
}

/* What the call makes of the text, with the room that always suffices. */
static void make(const char *name, writing *call, const struct text *text, struct text *made, size_t room)
{
    ringkit_reply reply = lend(call, text, room);
    expect(says(reply, RINGKIT_OK, 0, 0, reply.length), "%s: %u on line %u at byte %u", name, (unsigned)reply.reason, (unsigned)reply.line, (unsigned)reply.byte);
    made->length = reply.length;
    memcpy(made->bytes, buffer_area + AREA - room, made->length);
    expect(holds(room, made), "%s: more is touched than what is written", name);
}

static void route(const char *name)
{
    make(name, ringkit_route, &table, &sheet, RINGKIT_SHEET_BYTES);
}

/* ---- refused texts */

/* A call gives the text that reason, line and byte, and touches nothing where it refuses. */
static void judges(const char *name, writing *call, const struct text *text, uint32_t reason, uint32_t line, uint32_t byte)
{
    ringkit_reply reply = lend(call, text, RINGKIT_MAX_TEXT_BYTES);
    expect(says(reply, reason, line, byte, reason == RINGKIT_OK ? reply.length : 0), "%s: %u on line %u at byte %u", name, (unsigned)reply.reason, (unsigned)reply.line, (unsigned)reply.byte);
    expect(reason == RINGKIT_OK || holds(RINGKIT_MAX_TEXT_BYTES, &NOTHING), "%s: a refusal touches the buffer", name);
}

/* ---- reports */

static void add_plan(const struct text *plan)
{
    memcpy(plans.bytes + plans.length, plan->bytes, plan->length);
    plans.length += plan->length;
}

/* The report over the plans is the one that is expected, with just enough room and with as much as always suffices. */
static void reported(const char *name)
{
    writes(name, ringkit_report, &plans, &report);
    expect(says(lend(ringkit_report, &plans, RINGKIT_REPORT_BYTES), RINGKIT_OK, 0, 0, report.length), "%s: 82 bytes do not suffice", name);
    expect(holds(RINGKIT_REPORT_BYTES, &report), "%s: what is written into 82 bytes", name);
}

/* It has these numbers, of plans of SONET alone. */
static void reports(const char *name, unsigned accepted, unsigned refused, unsigned peaks, unsigned twice, unsigned across)
{
    report.length = 0;
    add(&report, "T\t%u\t%u\t%u\t%u\nT\t0\t0\t0\t0\nX\t%u\n", accepted, peaks, twice, across, refused);
    reported(name);
}

/* The plans given line by line have these lines. */
static void reports_both(const char *lines, const char *due)
{
    plans.length = 0;
    report.length = 0;
    add(&plans, "%s", lines);
    add(&report, "%s", due);
    reported(lines);
}

/* The plans given line by line. */
static void reports_of(const char *lines, unsigned accepted, unsigned refused, unsigned peaks, unsigned twice, unsigned across)
{
    plans.length = 0;
    add(&plans, "%s", lines);
    reports(lines, accepted, refused, peaks, twice, across);
}

#define NO_ROWS "R\t2\t4\nC\t1\t2\t0\nL\t1\t0\t0\nL\t2\t0\t0\nZ\t0\t3\n"
#define OF_FIVE "R\t2\t4\nD\t1\t2\t5\t5\t5\tF\nC\t1\t2\t5\nL\t1\t5\t5\nL\t2\t5\t0\nZ\t5\t12\n"
#define OF_ONE "R\t2\t4\nD\t1\t2\t1\t1\t1\tF\nC\t1\t2\t1\nL\t1\t1\t1\nL\t2\t1\t0\nZ\t1\t3\n"

#define SDH_OF_SEVEN "R\t2\t4\tM\nD\t1\t2\t7\t7\t7\tF\nC\t1\t2\t7\nL\t1\t7\t7\nL\t2\t7\t0\nZ\t7\t16\n"

/* No family's plans are added to the other's. */
static void test_report_of_families(void)
{
    reports_both(SDH_OF_SEVEN, "T\t0\t0\t0\t0\nT\t1\t7\t14\t7\nX\t0\n");
    reports_both(SDH_OF_SEVEN OF_FIVE SDH_OF_SEVEN "R\n" OF_ONE, "T\t2\t6\t10\t5\nT\t2\t14\t14\t7\nX\t1\n");
    reports_both("R\t2\t4\tm\nC\t1\t2\t0\nL\t1\t0\t0\nL\t2\t0\t0\nZ\t0\t1\n" NO_ROWS, "T\t1\t0\t0\t0\nT\t0\t0\t0\t0\nX\t1\n");
}

static void test_reports(void)
{
    reports_of("", 0, 0, 0, 0, 0);
    reports_of("R", 0, 1, 0, 0, 0);
    reports_of("\n", 0, 1, 0, 0, 0);
    reports_of("R\nR\nR", 0, 3, 0, 0, 0);
    reports_of("R\rR\r\nR", 0, 2, 0, 0, 0);
    reports_of("D\t1\t2\t5\nZ\t5\t12\n", 0, 1, 0, 0, 0);
    reports_of(NO_ROWS, 1, 0, 0, 0, 0);
    reports_of(NO_ROWS OF_FIVE OF_ONE, 3, 0, 6, 10, 5);
    reports_of(OF_ONE "Z\t0\t3\n" OF_FIVE OF_ONE, 2, 1, 6, 10, 5);
    reports_of("E\t2\t1\t1\n" OF_ONE OF_FIVE "R", 2, 2, 6, 2, 1);
    expect(says(ringkit_report(NULL, 0, NULL, 0), RINGKIT_NO_ROOM, 0, 0, 0), "report: no text");
}

/* Pieces of two bytes up to the limit, and one more; and a piece as long as no sheet may be, between two sheets. */
static void test_longest_plans(void)
{
    plans.length = 0;
    while (plans.length < RINGKIT_MAX_PLANS_BYTES) {
        add(&plans, "R\n");
    }
    reports("as many pieces as there may be", 0, RINGKIT_MAX_PLANS_BYTES / 2, 0, 0, 0);
    plans.bytes[plans.length++] = 'R';
    judges("too long a text of plans", ringkit_report, &plans, RINGKIT_PLANS_TOO_LONG, 0, 0);
    expect(says(ringkit_report(fenced(&plans), plans.length, NULL, 0), RINGKIT_PLANS_TOO_LONG, 0, 0, 0), "too long a text of plans, before no buffer");
    plans.length = 0;
    add(&plans, OF_ONE OF_FIVE);
    memset(plans.bytes + plans.length, '\n', RINGKIT_MAX_TEXT_BYTES);
    plans.length += RINGKIT_MAX_TEXT_BYTES;
    add(&plans, OF_FIVE);
    reports("a piece that is too long for a sheet", 2, 1, 6, 2, 1);
}

/* Our sheet twice: what is held of it is counted twice, and is the worst. */
static void test_report_of_two(const char *name)
{
    plans.length = 0;
    add_plan(&sheet);
    add_plan(&sheet);
    if (held.family == RINGKIT_SONET) {
        reports(name, 2, 0, 2 * held.peak, 2 * held.peak, held.across);
        return;
    }
    report.length = 0;
    add(&report, "T\t0\t0\t0\t0\nT\t2\t%u\t%u\t%u\nX\t0\n", 2 * (unsigned)held.peak, 2 * (unsigned)held.peak, (unsigned)held.across);
    reported(name);
}

/* ---- the best choice */

/* Rows that all cross each other, so many of two offices each: all of them are left split. */
static void crossing_rows(unsigned rows)
{
    table.length = 0;
    add(&table, "R\t%u\t4\n", RINGKIT_MAX_OFFICES);
    for (unsigned k = 1; k <= rows; k++) {
        add(&table, "D\t%u\t%u\t%u\n", k, k + rows, mixed(k, k + rows));
    }
}

static unsigned split_rows(void)
{
    unsigned split = 0;
    for (size_t k = 0; k < held.row_count; k++) {
        split += held.rows[k].front > 0 && held.rows[k].back > 0;
    }
    return split;
}

/* What is promised of the best choice's sheet, by the call, beside that by rule D, which is held, without trying any way: it is accepted, differs in ways, unsplit loads, unsplit peak and size alone,
 * and has no higher peak; or it is 23, where more than 16 rows are left split. */
static void test_best(const char *name, writing *call)
{
    static struct text best;
    static struct held by_rule_d;
    by_rule_d = held;
    if (split_rows() > RINGKIT_MAX_SPLIT) {
        judges(name, call, &table, RINGKIT_TOO_MANY_SPLIT, 0, 0);
        return;
    }
    make(name, call, &table, &best, RINGKIT_SHEET_BYTES);
    writes(name, call, &table, &best);
    expect(says(ringkit_check(fenced(&best), best.length), RINGKIT_OK, 0, 0, 0), "%s: the best choice's sheet is refused", name);
    hold(best.bytes, best.length);
    expect(held.row_count == by_rule_d.row_count && held.peak <= by_rule_d.peak, "%s: the best choice has peak %u", name, (unsigned)held.peak);
    for (size_t k = 0; k < held.row_count; k++) {
        ringkit_row row = held.rows[k];
        row.way = row.front > 0 && row.back > 0 ? by_rule_d.rows[k].way : row.way;
        expect(memcmp(&row, &by_rule_d.rows[k], sizeof row) == 0, "%s: the best choice has another row %zu", name, k + 1);
    }
    held = by_rule_d;
}

/* ---- lowered rooms */

static bool front_holds(const ringkit_row *row, uint32_t link)
{
    return row->first <= link && link < row->second;
}

static int64_t twice_across(uint32_t g, uint32_t h)
{
    int64_t sum = 0;
    for (size_t k = 0; k < held.row_count; k++) {
        sum += front_holds(&held.rows[k], g) != front_holds(&held.rows[k], h) ? held.rows[k].amount : 0;
    }
    return 2 * sum;
}

/* Whether each link that is held carries just its room as it is lowered, links 1 to n in turn: the largest of twice the across numbers less the rooms of links below and less the cut's across number for links above. */
static bool carries_rooms(void)
{
    int64_t room[RINGKIT_MAX_OFFICES + 1];
    bool good = held.link_count == held.n;
    for (uint32_t g = 1; g <= held.n && good; g++) {
        room[g] = INT64_MIN;
        for (uint32_t h = 1; h <= held.n; h++) {
            int64_t asked = h == g ? INT64_MIN : twice_across(g, h) - (h < g ? room[h] : held.across);
            room[g] = asked > room[g] ? asked : room[g];
        }
        good = held.links[g - 1].split == room[g];
    }
    return good;
}

/* What is promised of the sheet by lowered rooms beside that by level ones, which is held: it is accepted, of as many rows, with the same cut and no parallel pair, and its split loads are the lowered
 * rooms. Then of that by the best choice. */
static void test_lowered(const char *name)
{
    static struct text lowered;
    static struct held by_level;
    by_level = held;
    make(name, ringkit_route_lowered, &table, &lowered, RINGKIT_SHEET_BYTES);
    writes(name, ringkit_route_lowered, &table, &lowered);
    expect(says(ringkit_check(fenced(&lowered), lowered.length), RINGKIT_OK, 0, 0, 0), "%s: the sheet by lowered rooms is refused", name);
    expect(finds(ringkit_parallel(fenced(&lowered), lowered.length), RINGKIT_OK, 0, 0, 0, 0), "%s: the sheet by lowered rooms has a parallel pair", name);
    hold(lowered.bytes, lowered.length);
    expect(held.g == by_level.g && held.h == by_level.h && held.across == by_level.across, "%s: by lowered rooms the cut is another", name);
    expect(held.row_count == by_level.row_count && carries_rooms(), "%s: the split loads are not the lowered rooms", name);
    test_best(name, ringkit_route_lowered_best);
    held = by_level;
}

/* As many rows left split as are chosen for, and one more: 23 comes before the buffer is looked at, and behind the table's own reasons. */
static void test_most_split(void)
{
    crossing_rows(RINGKIT_MAX_SPLIT);
    route("16 rows that cross");
    hold(sheet.bytes, sheet.length);
    expect(split_rows() == RINGKIT_MAX_SPLIT, "16 rows that cross: %u are split", split_rows());
    test_best("16 rows that cross", ringkit_route_best);
    test_lowered("16 rows that cross");
    crossing_rows(RINGKIT_MAX_SPLIT + 1);
    route("17 rows that cross");
    judges("17 rows that cross", ringkit_route_best, &table, RINGKIT_TOO_MANY_SPLIT, 0, 0);
    judges("17 rows that cross, by lowered rooms", ringkit_route_lowered_best, &table, RINGKIT_TOO_MANY_SPLIT, 0, 0);
    expect(says(ringkit_route_best(fenced(&table), table.length, NULL, 0), RINGKIT_TOO_MANY_SPLIT, 0, 0, 0), "17 rows that cross: another reason comes first");
    expect(says(ringkit_route_lowered_best(fenced(&table), table.length, NULL, 0), RINGKIT_TOO_MANY_SPLIT, 0, 0, 0), "17 rows that cross, by lowered rooms: another reason comes first");
    add(&table, "D\t17\t34\t10000\n");
    judges("17 rows that cross, and one too large", ringkit_route_best, &table, RINGKIT_TOO_MUCH, RINGKIT_MAX_SPLIT + 3, 9);
    judges("17 rows that cross, and one too large, by lowered rooms", ringkit_route_lowered_best, &table, RINGKIT_TOO_MUCH, RINGKIT_MAX_SPLIT + 3, 9);
}

/* ---- rows that all cross each other */

static bool crosses(ringkit_crossing_reply reply, uint32_t kind, uint32_t bound, size_t first, size_t second)
{
    return reply.reason == RINGKIT_OK && reply.line == 0 && reply.byte == 0 && reply.kind == kind && reply.bound == bound && reply.first == first && reply.second == second;
}

/* The table is refused like this, and nothing is said beside it; or it is accepted. */
static void crossing_judged(const char *name, uint32_t reason, uint32_t line, uint32_t byte)
{
    ringkit_crossing_reply reply = ringkit_crossing(fenced(&table), table.length);
    expect(reply.reason == reason && reply.line == line && reply.byte == byte, "%s: whether rows cross gives %u on line %u at byte %u", name, (unsigned)reply.reason, (unsigned)reply.line, (unsigned)reply.byte);
    expect(reason == RINGKIT_OK ? reply.kind != 0 : reply.kind == 0 && reply.bound == 0 && reply.first == 0 && reply.second == 0, "%s: a refusal has something beside it, or an answer no kind", name);
}

static bool two_cross(const ringkit_row *one, const ringkit_row *two)
{
    return one->first < two->first && two->first < one->second && one->second < two->second;
}

/* What is due of the rows that are held, which are in the order of a table. */
static ringkit_crossing_reply crossing_of_held(void)
{
    uint32_t count = 0, largest = 0;
    for (size_t k = 0; k < held.row_count; k++) {
        count += held.rows[k].amount > 0;
        largest = held.rows[k].amount > largest ? held.rows[k].amount : largest;
        for (size_t m = k + 1; m < held.row_count; m++) {
            if (held.rows[k].amount > 0 && held.rows[m].amount > 0 && !two_cross(&held.rows[k], &held.rows[m])) {
                return (ringkit_crossing_reply){.kind = RINGKIT_PARALLEL, .first = k + 1, .second = m + 1};
            }
        }
    }
    return count > RINGKIT_MAX_SPLIT ? (ringkit_crossing_reply){.kind = RINGKIT_MANY} : (ringkit_crossing_reply){.kind = RINGKIT_ALL_CROSS, .bound = held.across + 2 * largest};
}

/* What is answered of the table whose sheet is held. */
static void test_crossing(const char *name)
{
    ringkit_crossing_reply due = crossing_of_held(), reply = ringkit_crossing(fenced(&table), table.length);
    expect(crosses(reply, due.kind, due.bound, due.first, due.second), "%s: whether rows cross: kind %u, bound %u, rows %zu and %zu", name, (unsigned)reply.kind, (unsigned)reply.bound, reply.first, reply.second);
}

/* The answer of the table that is there. */
static void crossing_is(const char *name, uint32_t kind, uint32_t bound, size_t first, size_t second)
{
    expect(crosses(ringkit_crossing(fenced(&table), table.length), kind, bound, first, second), "whether rows cross: %s", name);
}

static void test_kinds(void)
{
    crossing_rows(RINGKIT_MAX_SPLIT);
    route("16 rows that cross");
    hold(sheet.bytes, sheet.length);
    test_crossing("16 rows that cross");
    crossing_rows(RINGKIT_MAX_SPLIT + 1);
    crossing_is("17 rows", RINGKIT_MANY, 0, 0, 0);
    add(&table, "D\t17\t34\t0\n");
    crossing_is("17 rows, and one of amount 0", RINGKIT_MANY, 0, 0, 0);
    add(&table, "D\t17\t34\t1\n");
    crossing_is("17 rows, and one that is parallel", RINGKIT_PARALLEL, 0, 17, 19);
    add(&table, "D\t17\t34\t10000\n");
    crossing_judged("17 rows, and one too large", RINGKIT_TOO_MUCH, 21, 9);
    one_row(RINGKIT_MAX_OFFICES, RINGKIT_MAX_AMOUNT);
    crossing_is("one row of the largest amount", RINGKIT_ALL_CROSS, 3 * RINGKIT_MAX_AMOUNT, 0, 0);
    add(&table, "D\t1\t2\t0\n");
    crossing_is("the same with one of amount 0", RINGKIT_ALL_CROSS, 3 * RINGKIT_MAX_AMOUNT, 0, 0);
    one_row(RINGKIT_MIN_OFFICES, 0);
    crossing_is("no amount", RINGKIT_ALL_CROSS, 0, 0, 0);
    crossing_rows(0);
    crossing_is("no row", RINGKIT_ALL_CROSS, 0, 0, 0);
}

/* ---- whole circuits, one turn at a time */

/* The lent ways end before the fence. */
static uint8_t *lent_ways(void)
{
    return buffer_area + AREA - RINGKIT_MAX_ROWS;
}

static ringkit_turn_reply turn(const struct text *text)
{
    memset(buffer_area, PATTERN, AREA);
    return ringkit_turn(fenced(text), text->length, lent_ways());
}

static bool turn_says(ringkit_turn_reply reply, uint32_t reason, uint32_t line, uint32_t byte)
{
    return reply.reason == reason && reply.line == line && reply.byte == byte;
}

/* The table is refused like this, and nothing is said or written beside it; or it is accepted. */
static void turn_judged(const char *name, uint32_t reason, uint32_t line, uint32_t byte)
{
    ringkit_turn_reply reply = turn(&table);
    expect(turn_says(reply, reason, line, byte), "%s: turning gives %u on line %u at byte %u", name, (unsigned)reply.reason, (unsigned)reply.line, (unsigned)reply.byte);
    if (reason != RINGKIT_OK) {
        expect(reply.peak == 0 && reply.link == 0 && reply.turns == 0 && reply.rows == 0, "%s: turning says something beside a refusal", name);
        expect(untouched(buffer_area, buffer_area + AREA), "%s: a refusal touches the ways", name);
    }
}

/* The load of a link by the ways, of the rows that are held. */
static uint32_t load_by(const uint8_t *ways, uint32_t link)
{
    uint32_t load = 0;
    for (size_t k = 0; k < held.row_count; k++) {
        bool front = held.rows[k].first <= link && link < held.rows[k].second;
        load += front == (ways[k] == RINGKIT_F) ? held.rows[k].amount : 0;
    }
    return load;
}

static uint32_t peak_by(const uint8_t *ways)
{
    uint32_t peak = 0;
    for (uint32_t link = 1; link <= held.n; link++) {
        uint32_t load = load_by(ways, link);
        peak = load > peak ? load : peak;
    }
    return peak;
}

/* Whether the turn of some row lowers the peak. */
static bool some_turn_lowers(uint8_t *ways, uint32_t peak)
{
    for (size_t k = 0; k < held.row_count; k++) {
        ways[k] ^= RINGKIT_B;
        bool lower = peak_by(ways) < peak;
        ways[k] ^= RINGKIT_B;
        if (lower) {
            return true;
        }
    }
    return false;
}

/* What is promised of the ways of a table whose sheet is held, without working them out. */
static void test_ways(const char *name)
{
    ringkit_turn_reply reply = turn(&table);
    uint8_t *ways = lent_ways();
    bool two = true;
    for (size_t k = 0; k < held.row_count; k++) {
        two = two && (ways[k] == RINGKIT_F || ways[k] == RINGKIT_B);
    }
    expect(turn_says(reply, RINGKIT_OK, 0, 0) && reply.rows == held.row_count, "%s: turning gives %u of %u rows", name, (unsigned)reply.reason, (unsigned)reply.rows);
    expect(two && untouched(buffer_area, ways) && untouched(ways + reply.rows, buffer_area + AREA), "%s: bytes beside the ways", name);
    expect(reply.peak == peak_by(ways), "%s: the peak of the ways is %u", name, (unsigned)peak_by(ways));
    expect(2 * reply.peak >= held.across && reply.peak + reply.turns <= held.across, "%s: peak %u and %u turns, across %u", name, (unsigned)reply.peak, (unsigned)reply.turns, (unsigned)held.across);
    expect(1 <= reply.link && reply.link <= held.n, "%s: the start of link %u", name, (unsigned)reply.link);
    expect(!some_turn_lowers(ways, reply.peak), "%s: a turn lowers the peak", name);
}

/* ---- the least that any of these rules comes to */

static ringkit_least_reply least(const struct text *text)
{
    memset(buffer_area, PATTERN, AREA);
    return ringkit_least(fenced(text), text->length, lent_ways());
}

static bool least_says(ringkit_least_reply reply, uint32_t reason, uint32_t line, uint32_t byte)
{
    return reply.reason == reason && reply.line == line && reply.byte == byte;
}

/* The table is refused like this, and nothing is said or written beside it; or it is accepted. */
static void least_judged(const char *name, uint32_t reason, uint32_t line, uint32_t byte)
{
    ringkit_least_reply reply = least(&table);
    expect(least_says(reply, reason, line, byte), "%s: the least gives %u on line %u at byte %u", name, (unsigned)reply.reason, (unsigned)reply.line, (unsigned)reply.byte);
    if (reason != RINGKIT_OK) {
        expect(reply.peak == 0 && reply.floor == 0 && reply.rule == 0 && reply.rows == 0, "%s: the least says something beside a refusal", name);
        expect(untouched(buffer_area, buffer_area + AREA), "%s: a refusal touches the ways", name);
    }
}

/* The peak on the sheet that the call of routing writes of the table; UINT32_MAX where too many rows are left split for it. What is held stays. */
static uint32_t peak_routed(writing *call)
{
    static struct held kept;
    kept = held;
    ringkit_reply reply = lend(call, &table, RINGKIT_SHEET_BYTES);
    if (reply.reason != RINGKIT_OK) {
        expect(reply.reason == RINGKIT_TOO_MANY_SPLIT, "the least: routing is refused with %u", (unsigned)reply.reason);
        return UINT32_MAX;
    }
    hold(buffer_area + AREA - RINGKIT_SHEET_BYTES, reply.length);
    uint32_t peak = held.peak;
    held = kept;
    return peak;
}

/* The first rule with the least peak by the calls that send so, and that peak. */
static uint32_t least_by_calls(uint32_t *peak)
{
    static writing *const CALLS[] = {
        [RINGKIT_LEAST_BEST] = ringkit_route_best, [RINGKIT_LEAST_LOWERED_BEST] = ringkit_route_lowered_best,
        [RINGKIT_LEAST_RULE_D] = ringkit_route, [RINGKIT_LEAST_LOWERED_RULE_D] = ringkit_route_lowered,
    };
    uint32_t first = RINGKIT_LEAST_TURNS;
    *peak = turn(&table).peak;
    for (uint32_t rule = RINGKIT_LEAST_BEST; rule <= RINGKIT_LEAST_LOWERED_RULE_D; rule++) {
        uint32_t other = peak_routed(CALLS[rule]);
        first = other < *peak ? rule : first;
        *peak = other < *peak ? other : *peak;
    }
    return first;
}

/* What is promised of the least of a table whose sheet is held: it is that of the five calls, its ways have it, and the floor is half the across number, rounded up. */
static void test_least(const char *name)
{
    uint32_t peak, rule = least_by_calls(&peak);
    ringkit_least_reply reply = least(&table);
    const uint8_t *ways = lent_ways();
    expect(least_says(reply, RINGKIT_OK, 0, 0) && reply.rows == held.row_count, "%s: the least gives %u of %u rows", name, (unsigned)reply.reason, (unsigned)reply.rows);
    expect(reply.peak == peak && reply.rule == rule, "%s: the least is %u by rule %u, and by the calls %u by %u", name, (unsigned)reply.peak, (unsigned)reply.rule, (unsigned)peak, (unsigned)rule);
    expect(reply.floor == (held.across + 1) / 2 && reply.floor <= reply.peak, "%s: floor %u, across %u", name, (unsigned)reply.floor, (unsigned)held.across);
    expect(reply.peak == peak_by(ways), "%s: the peak of the least's ways is %u", name, (unsigned)peak_by(ways));
    expect(untouched(buffer_area, ways) && untouched(ways + reply.rows, buffer_area + AREA), "%s: bytes beside the least's ways", name);
}

/* Of 17 rows that cross there is no best choice, which refuses no table here; rule D may then be the first with the least peak, as of 17 that are equal. */
static void test_least_of_crossing(void)
{
    crossing_rows(RINGKIT_MAX_SPLIT + 1);
    route("17 rows that cross");
    hold(sheet.bytes, sheet.length);
    test_least("17 rows that cross");
    table.length = 0;
    add(&table, "R\t34\t4\n");
    for (unsigned k = 1; k <= RINGKIT_MAX_SPLIT + 1; k++) {
        add(&table, "D\t%u\t%u\t1\n", k, k + RINGKIT_MAX_SPLIT + 1);
    }
    route("17 equal rows that cross");
    hold(sheet.bytes, sheet.length);
    test_least("17 equal rows that cross");
    expect(least(&table).rule == RINGKIT_LEAST_RULE_D, "17 equal rows that cross: rule %u", (unsigned)least(&table).rule);
}

/* ---- values */

static bool judged(ringkit_judge_reply reply, uint32_t reason, uint32_t place)
{
    return reply.reason == reason && reply.place == place;
}

/* What is found against the values that are held, their rows and links each before a fence, where they can only be read. */
static void finds_held(const char *name, uint32_t reason, uint32_t place)
{
    const ringkit_row *rows = against_fence(text_area, AREA, held.rows, held.row_count * sizeof *rows);
    const ringkit_link *links = against_fence(buffer_area, AREA, held.links, held.link_count * sizeof *links);
    ringkit_judge_reply reply = ringkit_judge(rows, held.row_count, held.n, held.fibres, held.family, held.g, held.h, held.across, links, held.link_count, held.peak, held.size);
    allow_writing(buffer_area, AREA, true);
    expect(judged(reply, reason, place), "%s: judging finds %u at place %u", name, (unsigned)reply.reason, (unsigned)reply.place);
}

/* The values of a sheet of ours are accepted; its last row, its last link and its size are spoilt in turn, and a link is left out. */
static void test_values(const char *name)
{
    hold(sheet.bytes, sheet.length);
    finds_held(name, RINGKIT_OK, 0);
    held.size++;
    finds_held(name, RINGKIT_WRONG_LAST, 0);
    held.links[held.link_count - 1].unsplit += 65536;
    finds_held(name, RINGKIT_WRONG_LINK, (uint32_t)held.link_count);
    held.link_count--;
    finds_held(name, RINGKIT_WRONG_LINK, 0);
    held.h = UINT32_MAX;
    finds_held(name, RINGKIT_WRONG_CUT, 0);
    held.rows[held.row_count - 1].front += 1;
    finds_held(name, RINGKIT_WRONG_SUM, (uint32_t)held.row_count);
    held.rows[0].second = UINT32_MAX;
    finds_held(name, RINGKIT_NO_SUCH_NODE, 1);
    held.fibres = 3;
    finds_held(name, RINGKIT_FIBRES, 0);
    held.n = RINGKIT_MAX_OFFICES + 1;
    finds_held(name, RINGKIT_RING_SIZE, 0);
}

/* With no rows and no links the pointers are not used. */
static void test_no_values(void)
{
    static const ringkit_link links[] = {{1, 0, 0}, {2, 0, 0}};
    static const ringkit_row row = {1, 2, 0, 0, 0, RINGKIT_F};
    expect(judged(ringkit_judge(NULL, 0, 2, 4, RINGKIT_SONET, 1, 2, 0, links, 2, 0, 3), RINGKIT_OK, 0), "judge: no rows");
    expect(judged(ringkit_judge(NULL, 0, 2, 4, RINGKIT_SONET, 1, 2, 0, NULL, 0, 0, 3), RINGKIT_WRONG_LINK, 0), "judge: no rows and no links");
    expect(judged(ringkit_judge(&row, 1, 2, 4, RINGKIT_SONET, 1, 2, 0, NULL, 0, 0, 3), RINGKIT_WRONG_LINK, 0), "judge: no links");
    expect(judged(ringkit_judge(NULL, 0, 0, 0, RINGKIT_SONET, 0, 0, 0, NULL, 0, 0, 0), RINGKIT_RING_SIZE, 0), "judge: nothing");
    expect(judged(ringkit_judge(NULL, 0, 2, 0, RINGKIT_SONET, 0, 0, 0, NULL, 0, 0, 0), RINGKIT_FIBRES, 0), "judge: no fibres");
    expect(judged(ringkit_judge(NULL, 0, 2, 4, RINGKIT_SDH, 1, 2, 0, links, 2, 0, 1), RINGKIT_OK, 0), "judge: no rows, of SDH");
    expect(judged(ringkit_judge(NULL, 0, 2, 4, UINT32_MAX, 1, 2, 0, links, 2, 0, 1), RINGKIT_OK, 0), "judge: SDH by another number");
    expect(judged(ringkit_judge(NULL, 0, 2, 4, 256, 1, 2, 0, links, 2, 0, 3), RINGKIT_WRONG_LAST, 0), "judge: SONET's size for SDH");
    expect(judged(ringkit_judge(NULL, 0, 2, 4, RINGKIT_SONET, 1, 2, 0, links, 2, 0, 1), RINGKIT_WRONG_LAST, 0), "judge: SDH's size for SONET");
    expect(judged(ringkit_judge(NULL, 0, 2, 2, RINGKIT_SONET, 0, 0, 0, NULL, 0, 0, 0), RINGKIT_WRONG_CUT, 0), "judge: no cut");
}

static void test_table(const char *name)
{
    route(name);
    ringkit_pair_reply pair = ringkit_parallel(fenced(&sheet), sheet.length);
    expect(finds(pair, RINGKIT_OK, 0, 0, 0, 0), "%s: our sheet has a parallel pair", name);
    expect(says(ringkit_check(fenced(&sheet), sheet.length), RINGKIT_OK, 0, 0, 0), "%s: our sheet is refused", name);
    writes(name, ringkit_route, &table, &sheet);
    writes(name, ringkit_rewrite_table, &table, &table);
    writes(name, ringkit_rewrite_sheet, &sheet, &sheet);
    hold(sheet.bytes, sheet.length);
    test_report_of_two(name);
    test_best(name, ringkit_route_best);
    test_lowered(name);
    test_crossing(name);
    test_ways(name);
    test_least(name);
    test_values(name);
}

/* Rows 1 and 3, both 1-2 on a ring of 4, are split and parallel. */
static void test_pair(void)
{
    sheet.length = 0;
    add(&sheet, "R\t4\t4\nD\t1\t2\t1\t1\t1\tF\nD\t1\t2\t0\t0\t0\tF\nD\t1\t2\t1\t1\t1\tB\nC\t1\t2\t2\n");
    add(&sheet, "L\t1\t2\t1\nL\t2\t2\t1\nL\t3\t2\t1\nL\t4\t2\t1\nZ\t1\t3\n");
    ringkit_pair_reply pair = ringkit_parallel(fenced(&sheet), sheet.length);
    expect(finds(pair, RINGKIT_OK, 0, 0, 1, 3), "the parallel pair");
    sheet.bytes[sheet.length - 2] = '4';
    pair = ringkit_parallel(fenced(&sheet), sheet.length);
    expect(finds(pair, RINGKIT_WRONG_LAST, 10, 1, 0, 0), "a pair of a refused sheet");
    sheet.bytes[sheet.length - 2] = ' ';
    pair = ringkit_parallel(fenced(&sheet), sheet.length);
    expect(finds(pair, RINGKIT_MISSHAPEN, 10, 5, 0, 0), "a pair of a sheet with a stray blank");
}

/* ---- matrices */

static ringkit_reply read_matrix(const uint8_t *text, size_t length, uint8_t *buffer, size_t room)
{
    return ringkit_read_matrix(text, length, 4, RINGKIT_SONET, buffer, room);
}

static ringkit_reply read_of_sdh(const uint8_t *text, size_t length, uint8_t *buffer, size_t room)
{
    return ringkit_read_matrix(text, length, 2, RINGKIT_SDH, buffer, room);
}

/* Any number but that of SONET is SDH. */
static ringkit_reply read_of_others(const uint8_t *text, size_t length, uint8_t *buffer, size_t room)
{
    return ringkit_read_matrix(text, length, 2, 256, buffer, room);
}

static ringkit_reply read_untold(const uint8_t *text, size_t length, uint8_t *buffer, size_t room)
{
    return ringkit_read_matrix(text, length, 3, RINGKIT_SONET, buffer, room);
}

/* A square with 0 on its diagonal and a demand for every pair that has a row. */
static void fill_matrix(unsigned offices, unsigned (*demand)(unsigned, unsigned))
{
    matrix.length = 0;
    for (unsigned i = 1; i <= offices; i++) {
        for (unsigned j = 1; j <= offices; j++) {
            unsigned low = i < j ? i : j, high = i < j ? j : i;
            unsigned entry = i != j && has_row(offices, low, high) ? demand(low, high) : 0;
            add(&matrix, "%u%c", entry, j == offices ? '\n' : '\t');
        }
    }
}

static unsigned most(unsigned i, unsigned j)
{
    return i < j ? RINGKIT_MAX_AMOUNT : 0;
}

static unsigned none(unsigned i, unsigned j)
{
    return i < j ? 0 : RINGKIT_MAX_AMOUNT;
}

static unsigned one(unsigned i, unsigned j)
{
    return i < j;
}

/* The matrix is read into its table and written from it, and the table that was made can be routed. */
static void test_matrix(const char *name)
{
    make(name, read_matrix, &matrix, &table, RINGKIT_TABLE_BYTES);
    ringkit_reply reply = lend(ringkit_write_matrix, &table, RINGKIT_MATRIX_BYTES);
    expect(says(reply, RINGKIT_OK, 0, 0, matrix.length) && holds(RINGKIT_MATRIX_BYTES, &matrix), "%s: another matrix comes back", name);
    writes(name, read_matrix, &matrix, &table);
    writes(name, ringkit_write_matrix, &table, &matrix);
    route(name);
}

/* The same matrix is read for SDH: the table has M behind its fibres, and is otherwise the one for SONET. */
static void test_matrix_of_sdh(const char *name)
{
    static struct text of_sdh;
    make(name, read_matrix, &matrix, &table, RINGKIT_TABLE_BYTES);
    hold(table.bytes, table.length);
    const uint8_t *rows = (uint8_t *)memchr(table.bytes, '\n', table.length) + 1;
    of_sdh.length = 0;
    add(&of_sdh, "R\t%u\t2\tM\n%.*s", (unsigned)held.n, (int)(table.bytes + table.length - rows), rows);
    writes(name, read_of_sdh, &matrix, &of_sdh);
    writes(name, read_of_others, &matrix, &of_sdh);
    writes(name, ringkit_write_matrix, &of_sdh, &matrix);
}

/* A matrix of two offices, given by its bytes. */
static void reads(const char *name, const char *bytes, uint32_t reason, uint32_t line, uint32_t byte)
{
    matrix.length = 0;
    add(&matrix, "%s", bytes);
    judges(name, read_matrix, &matrix, reason, line, byte);
}

/* 45 offices have 990 pairs, 46 have 1,035: too many rows, which is said behind what an entry is refused for and before the buffer is looked at. */
static void test_many_entries(void)
{
    fill_matrix(45, one);
    judges("as many offices as may all have demands", read_matrix, &matrix, RINGKIT_OK, 0, 0);
    fill_matrix(46, one);
    judges("a matrix of too many rows", read_matrix, &matrix, RINGKIT_TOO_MANY_ROWS, 0, 0);
    expect(says(ringkit_read_matrix(fenced(&matrix), matrix.length, 4, RINGKIT_SDH, NULL, 0), RINGKIT_TOO_MANY_ROWS, 0, 0, 0), "too many rows, before no buffer");
    matrix.bytes[matrix.length - 2] = '1';
    judges("an office with itself, before too many rows", read_matrix, &matrix, RINGKIT_DIAGONAL, 46, 91);
    matrix.bytes[2] = '2';
    judges("an entry unlike its mirror, before too many rows", read_matrix, &matrix, RINGKIT_NOT_SYMMETRIC, 1, 3);
}

static void test_matrix_limits(void)
{
    reads("largest entries", "0\t9999\n9999\t0\n", RINGKIT_OK, 0, 0);
    reads("too large an entry", "0\t9999\n10000\t0\n", RINGKIT_TOO_MUCH, 2, 1);
    reads("a demand of an office with itself", "0\t9999\n9999\t1\n", RINGKIT_DIAGONAL, 2, 6);
    reads("an entry unlike its mirror", "0\t9999\n9998\t0\n", RINGKIT_NOT_SYMMETRIC, 1, 3);
    reads("one office", "0\n", RINGKIT_RING_SIZE, 1, 1);
    reads("a line with too many fields", "0\t1\n1\t0\t0\n", RINGKIT_MISSHAPEN, 2, 4);
    reads("a line with too few fields", "0\t1\n1\n", RINGKIT_MISSHAPEN, 2, 2);
    fill_matrix(RINGKIT_MAX_OFFICES + 1, none);
    judges("too many offices in a matrix", read_matrix, &matrix, RINGKIT_RING_SIZE, 1, 1);
    memset(matrix.bytes, '0', sizeof matrix.bytes);
    matrix.length = RINGKIT_MAX_TEXT_BYTES;
    judges("longest matrix", read_matrix, &matrix, RINGKIT_MISSHAPEN, 1, 2);
    matrix.length++;
    judges("too long a matrix", read_matrix, &matrix, RINGKIT_TOO_LONG, 0, 0);
    judges("three fibres, before all else", read_untold, &matrix, RINGKIT_FIBRES, 0, 0);
    judges("three fibres, before no text", read_untold, &NOTHING, RINGKIT_FIBRES, 0, 0);
    test_many_entries();
    one_row(RINGKIT_MIN_OFFICES, RINGKIT_MAX_AMOUNT);
    add(&table, "D\t1\t2\t0\n");
    judges("the largest sum", ringkit_write_matrix, &table, RINGKIT_OK, 0, 0);
    add(&table, "D\t1\t2\t1\n");
    judges("too large a sum", ringkit_write_matrix, &table, RINGKIT_SUM_TOO_MUCH, 4, 1);
}

static void test_matrices(void)
{
    test_matrix_limits();
    fill_matrix(RINGKIT_MIN_OFFICES, none);
    test_matrix("no demand between two offices");
    fill_matrix(20, mixed);
    test_matrix("a matrix of 20 offices");
    fill_matrix(RINGKIT_MAX_OFFICES, mixed);
    test_matrix("a matrix of 64 offices");
    fill_matrix(RINGKIT_MAX_OFFICES, most);
    test_matrix("the largest demands of 64 offices");
    test_matrix_of_sdh("the largest demands of 64 offices, of SDH");
    fill_matrix(RINGKIT_MIN_OFFICES, none);
    test_matrix_of_sdh("no demand between two offices, of SDH");
}

/* ---- a working table, the last bytes before its fence */

_Static_assert(sizeof(ringkit_work) == 4 * (RINGKIT_MAX_OFFICES * (RINGKIT_MAX_OFFICES - 1) / 2 + 6) + 4 * RINGKIT_MAX_ROWS, "no padding");

enum { RING = 6 };

/* The same rows by place, in a plain list; a first node of 0 is a free place. */
static struct row {
    uint32_t first, second, amount;
} list[RINGKIT_MAX_ROWS + 1];

static uint8_t *work_area;
static ringkit_work *work;
static ringkit_work before;

static uint32_t lowest_free(void)
{
    uint32_t place = 1;
    while (place <= RINGKIT_MAX_ROWS && list[place].first != 0) {
        place++;
    }
    return place;
}

static bool between(uint32_t node, uint32_t g, uint32_t h)
{
    return g < node && node <= h;
}

static uint32_t across(uint32_t g, uint32_t h)
{
    uint32_t sum = 0;
    for (uint32_t place = 1; place <= RINGKIT_MAX_ROWS; place++) {
        const struct row *row = &list[place];
        sum += between(row->first, g, h) != between(row->second, g, h) ? row->amount : 0;
    }
    return sum;
}

/* Whether an answer has that place, and the first of the largest cuts of the list. */
static bool answers(ringkit_work_reply reply, uint32_t place)
{
    uint32_t g = 1, h = 2, most_across = across(1, 2);
    for (uint32_t a = 1; a < RING; a++) {
        for (uint32_t b = a + 1; b <= RING; b++) {
            uint32_t sum = across(a, b);
            if (sum > most_across) {
                g = a;
                h = b;
                most_across = sum;
            }
        }
    }
    return reply.reason == RINGKIT_OK && reply.line == 0 && reply.place == place && reply.g == g && reply.h == h && reply.across == most_across;
}

/* Whether a call refused for that reason, and changed no byte. */
static bool refuses(ringkit_work_reply reply, uint32_t reason)
{
    return reply.reason == reason && reply.line == 0 && reply.place == 0 && reply.g == 0 && reply.h == 0 && reply.across == 0 && memcmp(work, &before, sizeof before) == 0;
}

static struct row some_row(unsigned seed)
{
    uint32_t first = 1 + seed % (RING - 1);
    return (struct row){first, first + 1 + seed / 7 % (RING - first), mixed(seed, 3)};
}

static void add_row(unsigned seed)
{
    struct row row = some_row(seed);
    uint32_t place = lowest_free();
    list[place] = row;
    expect(answers(ringkit_work_add(work, row.first, row.second, row.amount), place), "work: adding at place %u", (unsigned)place);
}

static void change_row(uint32_t place, unsigned seed)
{
    list[place] = some_row(seed);
    expect(answers(ringkit_work_change(work, place, list[place].first, list[place].second, list[place].amount), place), "work: changing place %u", (unsigned)place);
}

static void remove_row(uint32_t place)
{
    list[place] = (struct row){0, 0, 0};
    expect(answers(ringkit_work_remove(work, place), place), "work: removing place %u", (unsigned)place);
}

/* Every place holds the row of the list; the table cannot be written to meanwhile. */
static void test_work_rows(void)
{
    bool good = true;
    allow_writing(work_area, AREA, false);
    for (uint32_t place = 0; place <= RINGKIT_MAX_ROWS + 1; place++) {
        bool taken = place >= 1 && place <= RINGKIT_MAX_ROWS && list[place].first != 0;
        struct row due = taken ? list[place] : (struct row){0, 0, 0};
        ringkit_work_row_reply row = ringkit_work_row(work, place);
        good = good && row.reason == (taken ? RINGKIT_OK : RINGKIT_NO_ROW) && row.line == 0 && row.first == due.first && row.second == due.second && row.amount == due.amount;
    }
    expect(good, "work: the row at a place");
    allow_writing(work_area, AREA, true);
}

/* Writes without a text; it is not looked at. */
static ringkit_reply write_work(const uint8_t *text, size_t length, uint8_t *buffer, size_t room)
{
    (void)text;
    (void)length;
    return ringkit_work_write(work, buffer, room);
}

/* The table of the list: by nodes, then by place. */
static void list_to_table(void)
{
    table.length = 0;
    add(&table, "R\t%u\t2\n", (unsigned)RING);
    for (uint32_t i = 1; i < RING; i++) {
        for (uint32_t j = i + 1; j <= RING; j++) {
            for (uint32_t place = 1; place <= RINGKIT_MAX_ROWS; place++) {
                if (list[place].first == i && list[place].second == j) {
                    add(&table, "D\t%u\t%u\t%u\n", (unsigned)i, (unsigned)j, (unsigned)list[place].amount);
                }
            }
        }
    }
}

static void test_work_text(const char *name)
{
    list_to_table();
    allow_writing(work_area, AREA, false);
    writes(name, write_work, &NOTHING, &table);
    expect(says(lend(write_work, &NOTHING, RINGKIT_TABLE_BYTES), RINGKIT_OK, 0, 0, table.length), "%s: the room that suffices does not", name);
    allow_writing(work_area, AREA, true);
    route(name);
}

static void test_work_refusals(void)
{
    before = *work;
    expect(refuses(ringkit_work_start(work, RINGKIT_MAX_OFFICES + 1, 3, RINGKIT_SDH), RINGKIT_RING_SIZE), "work: 65 offices");
    expect(refuses(ringkit_work_start(work, RINGKIT_MIN_OFFICES, 3, UINT32_MAX), RINGKIT_FIBRES), "work: three fibres");
    expect(refuses(ringkit_work_change(work, 0, 9, 9, 10000), RINGKIT_NO_ROW), "work: place 0");
    expect(refuses(ringkit_work_change(work, RINGKIT_MAX_ROWS + 1, 9, 9, 10000), RINGKIT_NO_ROW), "work: place 1025");
    expect(refuses(ringkit_work_remove(work, UINT32_MAX), RINGKIT_NO_ROW), "work: the last place of all");
    expect(refuses(ringkit_work_change(work, 1, RING + 1, 1, 10000), RINGKIT_NO_SUCH_NODE), "work: no such node");
    expect(refuses(ringkit_work_add(work, 2, 257, 10000), RINGKIT_NO_SUCH_NODE), "work: a node of more than 8 bits");
    expect(refuses(ringkit_work_add(work, 2, 2, 10000), RINGKIT_NOT_BELOW), "work: not below");
    expect(refuses(ringkit_work_add(work, 1, 2, 65537), RINGKIT_TOO_MUCH), "work: an amount of more than 16 bits");
    expect(refuses(ringkit_work_add(work, 1, 2, 10000), RINGKIT_TOO_MUCH), "work: too much");
    expect(refuses(ringkit_work_add(work, 1, 2, 1), RINGKIT_FULL), "work: a full table");
}

/* A struct of any bytes: two calls on equal bytes give equal bytes and equal answers. */
static void test_any_bytes(unsigned seed)
{
    uint8_t *bytes = (uint8_t *)work;
    for (size_t k = 0; k < sizeof *work; k++) {
        seed = seed * 1664525 + 1013904223;
        bytes[k] = (uint8_t)(seed >> 24);
    }
    before = *work;
    ringkit_work_reply once = ringkit_work_change(work, 7, 1, 2, 3);
    ringkit_work_reply again = ringkit_work_change(&before, 7, 1, 2, 3);
    expect(memcmp(&once, &again, sizeof once) == 0 && memcmp(work, &before, sizeof before) == 0, "work: any bytes, altered");
    ringkit_reply written = lend(write_work, &NOTHING, AREA);
    expect(written.line == 0 && written.byte == 0 && written.length <= AREA, "work: any bytes, written");
    expect(memcmp(work, &before, sizeof before) == 0, "work: writing alters the table");
}

/* A table that is started for SDH, by any number but that of SONET, says so, and a later start takes another family. */
static void test_work_families(void)
{
    static const uint32_t families[] = {RINGKIT_SDH, RINGKIT_SONET, 2, 256, RINGKIT_SONET, UINT32_MAX};
    for (size_t k = 0; k < sizeof families / sizeof *families; k++) {
        expect(answers(ringkit_work_start(work, RING, RINGKIT_TWO_FIBRES, families[k]), 0), "work: starting with family %u", (unsigned)families[k]);
        table.length = 0;
        add(&table, "R\t%u\t2%s\n", (unsigned)RING, families[k] == RINGKIT_SONET ? "" : "\tM");
        writes("a working table of either family", write_work, &NOTHING, &table);
        route("a working table of either family");
    }
}

static void test_work(void)
{
    work = (ringkit_work *)(void *)(work_area + AREA - sizeof *work);
    memset(work_area, PATTERN, AREA);
    expect(answers(ringkit_work_start(work, RING, RINGKIT_TWO_FIBRES, RINGKIT_SONET), 0), "work: starting");
    test_work_text("an empty working table");
    for (unsigned k = 0; k < RINGKIT_MAX_ROWS; k++) {
        add_row(k * 31);
    }
    test_work_refusals();
    test_work_rows();
    test_work_text("a full working table");
    for (uint32_t place = 3; place <= RINGKIT_MAX_ROWS; place += 5) {
        change_row(place, place * 17);
        remove_row(place - 1);
    }
    test_work_rows();
    test_work_text("a working table with gaps");
    add_row(5);
    for (uint32_t place = RINGKIT_MAX_ROWS; place >= 1; place--) {
        if (list[place].first != 0) {
            remove_row(place);
        }
    }
    test_work_text("a working table emptied");
    expect(untouched(work_area, (uint8_t *)work), "work: bytes before the table are touched");
    test_work_families();
    for (unsigned seed = 0; seed < 20; seed++) {
        test_any_bytes(seed);
    }
}

/* ---- what the header says of limits, and of no text at all */

/* The calls that route, rewrite or turn, and those that ask whether rows cross or for the least, give the table that reason, line and byte. */
static void table_judged(const char *name, uint32_t reason, uint32_t line, uint32_t byte)
{
    writing *calls[] = {ringkit_route, ringkit_route_best, ringkit_route_lowered, ringkit_route_lowered_best, ringkit_rewrite_table};
    for (unsigned k = 0; k < sizeof calls / sizeof *calls; k++) {
        judges(name, calls[k], &table, reason, line, byte);
    }
    turn_judged(name, reason, line, byte);
    crossing_judged(name, reason, line, byte);
    least_judged(name, reason, line, byte);
}

static void test_limits(void)
{
    one_row(RINGKIT_MIN_OFFICES, RINGKIT_MAX_AMOUNT);
    table_judged("fewest offices, largest amount", RINGKIT_OK, 0, 0);
    one_row(RINGKIT_MIN_OFFICES - 1, 1);
    table_judged("too few offices", RINGKIT_RING_SIZE, 1, 3);
    one_row(RINGKIT_MIN_OFFICES, RINGKIT_MAX_AMOUNT + 1);
    table_judged("too large an amount", RINGKIT_TOO_MUCH, 2, 7);
    one_row(RINGKIT_MAX_OFFICES + 1, 1);
    table_judged("too many offices", RINGKIT_RING_SIZE, 1, 3);
    equal_rows(RINGKIT_MAX_ROWS);
    table_judged("most offices, most rows", RINGKIT_OK, 0, 0);
    equal_rows(RINGKIT_MAX_ROWS + 1);
    table_judged("too many rows", RINGKIT_TOO_MANY_ROWS, RINGKIT_MAX_ROWS + 2, 1);
    table.length = 0;
    add(&table, "R\t2\t3\n");
    table_judged("three fibres", RINGKIT_FIBRES, 1, 5);
    table.length = 0;
    add(&table, "R\t65\t3\n");
    table_judged("too many offices and three fibres", RINGKIT_RING_SIZE, 1, 3);
    equal_rows(RINGKIT_MAX_ROWS);
    table.length = RINGKIT_MAX_TEXT_BYTES;
    table.bytes[0] = 'r';
    table_judged("longest text", RINGKIT_MISSHAPEN, 1, 1);
    table.length++;
    table_judged("too long a text", RINGKIT_TOO_LONG, 0, 0);
}

/* A table of one line, and a sheet that begins with it. */
static void ring_judged(const char *ring, uint32_t reason, uint32_t byte)
{
    table.length = 0;
    add(&table, "%s", ring);
    table_judged(ring, reason, reason != RINGKIT_OK, byte);
    expect(says(ringkit_check(fenced(&table), table.length), reason == RINGKIT_OK ? RINGKIT_MISSHAPEN : reason, reason == RINGKIT_OK ? 2 : 1, reason == RINGKIT_OK ? 1 : byte, 0), "check: %s", ring);
}

/* Behind the fibres LF or a tab may stand, behind that tab only M, and behind M only LF. */
static void test_marks(void)
{
    ring_judged("R\t4\t4\tM\n", RINGKIT_OK, 0);
    ring_judged("R\t64\t2\tM\n", RINGKIT_OK, 0);
    ring_judged("R\t4\t4\tM", RINGKIT_MISSHAPEN, 8);
    ring_judged("R\t4\t4\tMM\n", RINGKIT_MISSHAPEN, 8);
    ring_judged("R\t4\t4\tM\t\n", RINGKIT_MISSHAPEN, 8);
    ring_judged("R\t4\t4\t", RINGKIT_MISSHAPEN, 7);
    ring_judged("R\t4\t4\t\n", RINGKIT_MISSHAPEN, 7);
    ring_judged("R\t4\t4\tm\n", RINGKIT_MISSHAPEN, 7);
    ring_judged("R\t4\t4\t4\n", RINGKIT_MISSHAPEN, 7);
    ring_judged("R\t4\t4\t\tM\n", RINGKIT_MISSHAPEN, 7);
    ring_judged("R\t4\t4M\n", RINGKIT_MISSHAPEN, 6);
    ring_judged("R\t4\tM\t4\n", RINGKIT_MISSHAPEN, 5);
    ring_judged("R\t4\tM\n", RINGKIT_MISSHAPEN, 5);
    ring_judged("R\t65\t3\tm\n", RINGKIT_MISSHAPEN, 8);
    ring_judged("R\t65\t3\tM\n", RINGKIT_RING_SIZE, 3);
    ring_judged("R\t4\t3\tM\n", RINGKIT_FIBRES, 5);
}

/* The size for one circuit of so much on two offices, of SDH. */
static void sizes(unsigned fibres, unsigned amount, unsigned size)
{
    table.length = 0;
    add(&table, "R\t2\t%u\tM\nD\t1\t2\t%u\n", fibres, amount);
    route("a size of SDH");
    hold(sheet.bytes, sheet.length);
    expect(held.family == RINGKIT_SDH && held.peak == amount && held.size == size, "SDH: size %u for %u on %u fibres", (unsigned)held.size, amount, fibres);
}

static void test_sizes(void)
{
    sizes(4, 0, 1);
    sizes(4, 1, 1);
    sizes(4, 2, 4);
    sizes(4, 256, 256);
    sizes(4, 257, 0);
    sizes(2, 1, 4);
    sizes(2, 128, 256);
    sizes(2, 129, 0);
}

/* A row behind the R line of a table of four offices, in the table's own calls. */
static void row_judged(const char *row, uint32_t reason, uint32_t byte)
{
    table.length = 0;
    add(&table, "R\t4\t4\n%s", row);
    table_judged(row, reason, 2, byte);
}

/* A line behind the R line of a sheet, where a row or the cut is due. */
static void line_checked(const char *line, uint32_t reason, uint32_t byte)
{
    sheet.length = 0;
    add(&sheet, "R\t4\t4\n%s", line);
    expect(says(ringkit_check(fenced(&sheet), sheet.length), reason, 2, byte, 0), "check: a byte of %s", line);
}

/* Where a refusal points: the byte is never looked for behind the text, which ends where memory does. */
static void test_bytes(void)
{
    row_judged("D", RINGKIT_MISSHAPEN, 2);
    row_judged("D\t1\t2\t1", RINGKIT_MISSHAPEN, 8);
    row_judged("DD\n", RINGKIT_MISSHAPEN, 2);
    row_judged("X\n", RINGKIT_MISSHAPEN, 1);
    row_judged("\n", RINGKIT_MISSHAPEN, 1);
    row_judged("D\t123456789\t2\t1\n", RINGKIT_MISSHAPEN, 11);
    row_judged("D\t12345678\t2\t1\n", RINGKIT_NO_SUCH_NODE, 3);
    row_judged("D\t007\t2\t1\n", RINGKIT_MISSHAPEN, 4);
    row_judged("D\t1\t2\t1\t\n", RINGKIT_MISSHAPEN, 8);
    row_judged("D\t0\t5\t1\n", RINGKIT_NO_SUCH_NODE, 3);
    row_judged("D\t4\t5\t1\n", RINGKIT_NO_SUCH_NODE, 5);
    row_judged("D\t3\t3\t10000\n", RINGKIT_NOT_BELOW, 1);
    line_checked("D ", RINGKIT_MISSHAPEN, 2);
    line_checked("CD\n", RINGKIT_MISSHAPEN, 2);
    line_checked("L\n", RINGKIT_MISSHAPEN, 1);
    line_checked("C\t1\t2\t3", RINGKIT_MISSHAPEN, 8);
    line_checked("D\t1\t2\t1\t1\t1\tFB\n", RINGKIT_MISSHAPEN, 14);
    line_checked("D\t1\t2\t1\t1\t1\t\n", RINGKIT_MISSHAPEN, 13);
    line_checked("D\t1\t2\t1\t1\t1\tF", RINGKIT_MISSHAPEN, 14);
    line_checked("D\t1\t2\t1\t1\t2\tF\nC\t1\t2\t0\nL\t0\t0\t0\nL\t0\t0\t0\nL\t0\t0\t0\nL\t0\t0\t0\nZ\t0\t0\n", RINGKIT_WRONG_SUM, 1);
    line_checked("", RINGKIT_MISSHAPEN, 1);
}

/* A fault of form wins over a false figure on a line before it, in all calls of a sheet. */
static void test_late_form(void)
{
    sheet.length = 0;
    add(&sheet, "R\t2\t4\nD\t1\t2\t1\t1\t2\tF\nC\t1\t2\t9\nL\t1\t0\t0\nL\t2\t0\t0\nZ\t0\t3");
    expect(says(ringkit_check(fenced(&sheet), sheet.length), RINGKIT_MISSHAPEN, 6, 6, 0), "check: no LF behind a false row");
    expect(finds(ringkit_parallel(fenced(&sheet), sheet.length), RINGKIT_MISSHAPEN, 6, 6, 0, 0), "parallel: no LF behind a false row");
    judges("rewriting: no LF behind a false row", ringkit_rewrite_sheet, &sheet, RINGKIT_MISSHAPEN, 6, 6);
    add(&sheet, "\n");
    expect(says(ringkit_check(fenced(&sheet), sheet.length), RINGKIT_WRONG_SUM, 2, 1, 0), "check: a false row and a false cut");
    expect(finds(ringkit_parallel(fenced(&sheet), sheet.length), RINGKIT_WRONG_SUM, 2, 1, 0, 0), "parallel: a false row and a false cut");
    judges("rewriting: a false row and a false cut", ringkit_rewrite_sheet, &sheet, RINGKIT_WRONG_SUM, 2, 1);
}

static void test_no_text(void)
{
    ringkit_pair_reply pair = ringkit_parallel(NULL, 0);
    expect(finds(pair, RINGKIT_MISSHAPEN, 1, 1, 0, 0), "parallel: no text");
    expect(says(ringkit_check(NULL, 0), RINGKIT_MISSHAPEN, 1, 1, 0), "check: no text");
    expect(says(ringkit_route(NULL, 0, NULL, 0), RINGKIT_MISSHAPEN, 1, 1, 0), "route: no text");
    expect(says(ringkit_route_best(NULL, 0, NULL, 0), RINGKIT_MISSHAPEN, 1, 1, 0), "route by the best choice: no text");
    expect(says(ringkit_route_lowered(NULL, 0, NULL, 0), RINGKIT_MISSHAPEN, 1, 1, 0), "route by lowered rooms: no text");
    expect(says(ringkit_route_lowered_best(NULL, 0, NULL, 0), RINGKIT_MISSHAPEN, 1, 1, 0), "route by lowered rooms and the best choice: no text");
    expect(says(ringkit_rewrite_table(NULL, 0, NULL, 0), RINGKIT_MISSHAPEN, 1, 1, 0), "rewrite a table: no text");
    expect(says(ringkit_rewrite_sheet(NULL, 0, NULL, 0), RINGKIT_MISSHAPEN, 1, 1, 0), "rewrite a sheet: no text");
    expect(turn_says(ringkit_turn(NULL, 0, lent_ways()), RINGKIT_MISSHAPEN, 1, 1), "turn: no text");
    ringkit_crossing_reply crossing = ringkit_crossing(NULL, 0);
    expect(crossing.reason == RINGKIT_MISSHAPEN && crossing.line == 1 && crossing.byte == 1 && crossing.kind == 0, "whether rows cross: no text");
    expect(least_says(ringkit_least(NULL, 0, lent_ways()), RINGKIT_MISSHAPEN, 1, 1), "the least: no text");
    expect(says(ringkit_read_matrix(NULL, 0, 4, RINGKIT_SONET, NULL, 0), RINGKIT_MISSHAPEN, 1, 1, 0), "read a matrix: no text");
    expect(says(ringkit_write_matrix(NULL, 0, NULL, 0), RINGKIT_MISSHAPEN, 1, 1, 0), "write a matrix: no text");
}

/* ---- threads */

enum { SMALL_STACK = 128 * 1024, BESIDE = 4, TURNS = 25 };

/* The table made one of SDH. */
static void mark_table(void)
{
    uint8_t *end = memchr(table.bytes, '\n', table.length);
    memmove(end + 2, end, table.length - (size_t)(end - table.bytes));
    memcpy(end, "\tM", 2);
    table.length += 2;
}

static void *test_texts(void *unused)
{
    test_no_text();
    test_no_values();
    test_late_form();
    test_pair();
    test_reports();
    test_report_of_families();
    test_longest_plans();
    test_most_split();
    test_kinds();
    test_least_of_crossing();
    test_limits();
    test_bytes();
    test_marks();
    test_sizes();
    test_matrices();
    test_work();
    all_pairs(20);
    test_table("all pairs of 20 offices");
    all_pairs(RINGKIT_MAX_OFFICES);
    test_table("as many pairs of 64 offices as there may be rows");
    mark_table();
    test_table("as many pairs of 64 offices as there may be rows, of SDH");
    equal_rows(RINGKIT_MAX_ROWS);
    test_table("1,024 equal rows");
    return unused;
}

static pthread_t start(void *(*job)(void *), void *with, pthread_attr_t *attributes)
{
    pthread_t thread;
    need(pthread_create(&thread, attributes, job, with) == 0, "pthread_create");
    return thread;
}

static void test_small_stack(void)
{
    pthread_attr_t attributes;
    need(pthread_attr_init(&attributes) == 0, "pthread_attr_init");
    need(pthread_attr_setstacksize(&attributes, SMALL_STACK) == 0, "pthread_attr_setstacksize");
    pthread_join(start(test_texts, NULL, &attributes), NULL);
    pthread_attr_destroy(&attributes);
}

/* Routes the shared table again and again into a buffer of its own; NULL where every sheet was the known one. */
static void *route_often(void *buffer)
{
    for (unsigned turn = 0; turn < TURNS; turn++) {
        ringkit_reply reply = ringkit_route(table.bytes, table.length, buffer, RINGKIT_SHEET_BYTES);
        if (!says(reply, RINGKIT_OK, 0, 0, sheet.length) || memcmp(buffer, sheet.bytes, sheet.length) != 0) {
            return buffer;
        }
    }
    return NULL;
}

static void test_side_by_side(void)
{
    static uint8_t buffers[BESIDE][RINGKIT_SHEET_BYTES];
    pthread_t threads[BESIDE];
    all_pairs(RINGKIT_MAX_OFFICES);
    route("side by side");
    for (unsigned k = 0; k < BESIDE; k++) {
        threads[k] = start(route_often, buffers[k], NULL);
    }
    for (unsigned k = 0; k < BESIDE; k++) {
        void *differs;
        pthread_join(threads[k], &differs);
        expect(differs == NULL, "side by side: thread %u got another sheet", k);
    }
}

int main(void)
{
    text_area = fenced_area(AREA);
    buffer_area = fenced_area(AREA);
    work_area = fenced_area(AREA);
    test_small_stack();
    test_side_by_side();
    printf("%u passed, %u failed\n", passed, failed);
    return failed == 0 ? 0 : 1;
}
