/* ringkit: plans a ring of offices, checks plans, as texts and as values, one by one and many at once, sends whole circuits with a low peak, says whether circuits all cross each other and which of five
 * rules comes to the least peak, and keeps a table at work.
 * For C11 and C++11, x86-64 Linux.
 *
 * A text is read as a table, as a sheet or as a matrix. Fields are parted by one tab, every line ends with LF, numbers are 1 to 8 digits with no leading
 * zero but 0 itself.
 *
 *   table:  R n fibres      n offices, which are the nodes of the ring, 1 to n; link k joins k and k+1, link n joins n and 1. The fibres are 2 or 4:
 *                           with 2, half of a line is kept for protection. The ring is of SONET: its unit is the STS-1, its line sizes are 3, 12, 48, 192 and 768;
 *        or R n fibres M    of SDH: its unit is the STM-1, its line sizes are 1, 4, 16, 64 and 256
 *           D i j amount    a row for each circuit, i < j; no row is below the one before, by i, then j, so circuits of the same
 *                           two offices stand next to each other. Its front is links i to j-1, its back the other links
 *   sheet:  R n fibres      or R n fibres M, then the rows with what goes each way, in halves, and where the whole circuit goes (F or B),
 *           D i j amount front back way
 *           C g h across    a cut: two links, and the demand between the offices that they part,
 *           L link split-load unsplit-load     the loads of links 1 to n, split ones in halves,
 *           Z unsplit-peak size                and the line size to buy: at least the unsplit peak with 4 fibres, at least twice the
 *                           unsplit peak with 2, of the ring's family; 0 where none of its sizes is large enough
 *   matrix: n lines of n numbers, and no letters: field j of line i is the demand between offices i and j, so it equals field i of line j,
 *           and field i of line i is 0. The first line says how many offices there are;
 *           how many fibres, and which family, no line says
 *   report: T accepted sum twice-peak across     over a text of many sheets, one behind the other (ringkit_report): a line of those of SONET, one of those of
 *           X refused                            SDH, and how many are refused; numbers have as many digits as they need
 *
 * A sheet may also be held as values, rows and links as structs, and be judged without a text (ringkit_judge).
 *
 * Each call accepts its text, or refuses it with a reason, a line and a byte of that line; of values the row or the link is said in place of the line. What it answers and
 * what it writes is proved to be what the definitions say, for every text, all values and every buffer on these terms:
 *
 *   - A pointer and the length behind it name bytes that may be read (a text) or written (a buffer) until the call returns, fewer than
 *     2^63 of them. A length may be 0; its pointer is then not used, and may be NULL. No text needs a NUL at its end.
 *   - A pointer to rows or links and the count behind it name so many whole structs, aligned as C aligns them, that may be read until the call returns, fewer than
 *     2^63 bytes of them. Whatever numbers are in them, and whatever the counts are, the call ends with an answer. A count may be 0; its pointer is then not used, and
 *     may be NULL. Nobody writes to rows or links during the call.
 *   - Text and buffer do not overlap, and nobody else writes to either during the call.
 *   - A pointer to ways (of ringkit_turn and ringkit_least) names RINGKIT_MAX_ROWS bytes that may be written until the call returns, however few rows there are, so it has no length. They do not overlap
 *     the text, and nobody else reads or writes them during the call.
 *   - A pointer to a working table names a whole struct ringkit_work, whatever bytes are in it. It does not overlap the buffer, and nobody else
 *     writes to it during the call, nor reads it while a call alters it.
 *   - RINGKIT_STACK_BYTES of stack are free. That figure is measured and not proved.
 *
 * No call keeps anything from one call to the next but in the working table that it is lent, allocates, touches a file or errno, or changes the
 * text, the rows or the links. Calls may run in any number of threads at the same time.
 *
 * Later versions will add calls and reasons. So recompile with the header of the library that is linked, and take any reason but RINGKIT_OK for a refusal.
 */
#ifndef RINGKIT_H
#define RINGKIT_H

#include <stddef.h>
#include <stdint.h>

#ifdef __cplusplus
extern "C" {
#endif

/* Grows by 1 whenever a call, an answer or a limit changes. */
#define RINGKIT_VERSION 14

/* The limits of what is accepted. */
#define RINGKIT_MAX_TEXT_BYTES 32768
#define RINGKIT_MIN_OFFICES 2
#define RINGKIT_MAX_OFFICES 64
#define RINGKIT_MAX_ROWS 1024
#define RINGKIT_MAX_AMOUNT 9999
#define RINGKIT_TWO_FIBRES 2
#define RINGKIT_FOUR_FIBRES 4

/* The family of a ring's line sizes. A call that is told it takes any number but RINGKIT_SONET for SDH. */
#define RINGKIT_SONET 0
#define RINGKIT_SDH 1

/* The bytes of a text of many sheets that ringkit_report makes a report over, at most. */
#define RINGKIT_MAX_PLANS_BYTES 65536

/* The rows left split of which ringkit_route_best and ringkit_route_lowered_best try every way of sending them, at most. */
#define RINGKIT_MAX_SPLIT 16

/* What ringkit_crossing answers of the rows of a table whose amounts are above 0: they all cross each other, and are at most RINGKIT_MAX_SPLIT; two of them are parallel; or they all cross each other
 * and are more. */
#define RINGKIT_ALL_CROSS 1
#define RINGKIT_PARALLEL 2
#define RINGKIT_MANY 3

/* The way of a row: front or back. Of a row that is held as a struct any number but RINGKIT_F is B; ringkit_turn and ringkit_least write these two. */
#define RINGKIT_F 0
#define RINGKIT_B 1

/* The rules by which ringkit_least may send whole circuits: as ringkit_turn, ringkit_route_best, ringkit_route_lowered_best, ringkit_route and ringkit_route_lowered do. Of several that
 * come to the least peak it takes the first in this order. */
#define RINGKIT_LEAST_TURNS 1
#define RINGKIT_LEAST_BEST 2
#define RINGKIT_LEAST_LOWERED_BEST 3
#define RINGKIT_LEAST_RULE_D 4
#define RINGKIT_LEAST_LOWERED_RULE_D 5

/* One unit of an amount, a load or a line size, on a ring of either family. */
#define RINGKIT_SONET_UNIT "STS-1"
#define RINGKIT_SDH_UNIT "STM-1"

/* A buffer of so many bytes suffices for every sheet that ringkit_route, ringkit_route_best, ringkit_route_lowered and ringkit_route_lowered_best write; this is
 * proved. For rewriting, the text's own length suffices. */
#define RINGKIT_SHEET_BYTES 29166

/* The same for every table that ringkit_read_matrix writes, and ringkit_work_write of a working table that calls made; and for every matrix that
 * ringkit_write_matrix writes. */
#define RINGKIT_TABLE_BYTES 13321
#define RINGKIT_MATRIX_BYTES 20480

/* The same for every report that ringkit_report writes. */
#define RINGKIT_REPORT_BYTES 82

/* Enough stack for each call, with some to spare: the deepest, ringkit_least and the two calls by the best choice, take some 38,000 bytes where they also bind memcpy
 * and memset, as a program's first call may. */
#define RINGKIT_STACK_BYTES 57344

/* Why a text, values or a call is refused. Each is given exactly when it holds and nothing before it in this order does: the fibres that a matrix is read with; RINGKIT_TOO_LONG; then line by line,
 * and in a line by rising number, 2 to 7, RINGKIT_FIBRES behind 3 and RINGKIT_TOO_MANY_ROWS between 6 and 7; then, when all lines have been read, of a sheet 8 to 12 line by line,
 * and 13 and 14; of a matrix the first entry in reading order that is 17 or 18, and then RINGKIT_TOO_MANY_ROWS, with no line, where it makes too many rows; of a table to be
 * written as a matrix the first row that is 19, and of a table to be routed by the best choice RINGKIT_TOO_MANY_SPLIT, with no line; then 15. So a fault of form (2 to 7, 16)
 * is told before a false figure (8 to 14), on whichever lines the two are: 4 on line 3 before 8 on line 2.
 * Of values the order is 3, 20; then row by row 4, 5, 6, 16, 7, 8, 9; then 10; then 11, of the count of links and then link by link; then 12, 13, 14.
 * Of a text of many sheets it is RINGKIT_PLANS_TOO_LONG, then 15, and no more.
 * The calls of a working table have no text. Starting one tries 3, then 20, and writing it 15; the others try 22 of the place that is named, then 4, 5 and 7 of the row that
 * is given, and for adding 21. */
enum ringkit_reason {
    RINGKIT_OK = 0,             /* accepted */
    RINGKIT_TOO_LONG = 1,       /* text over 32,768 bytes */
    RINGKIT_MISSHAPEN = 2,      /* line of the wrong shape, missing, or left over; a badly spelled number; no final LF */
    RINGKIT_RING_SIZE = 3,      /* n outside 2..64; of a matrix, on its first line */
    RINGKIT_NO_SUCH_NODE = 4,   /* a node, which is an office by its number, outside 1..n */
    RINGKIT_NOT_BELOW = 5,      /* first node not below second */
    RINGKIT_OUT_OF_ORDER = 6,   /* row's nodes below the row before, by first node, then second */
    RINGKIT_TOO_MUCH = 7,       /* amount, or entry of a matrix, over 9,999 */
    RINGKIT_WRONG_SUM = 8,      /* front + back is not 2 x amount */
    RINGKIT_WRONG_WAY = 9,      /* direction of an unsplit row differs from rule D: back 0 goes F, else front 0 goes B */
    RINGKIT_WRONG_CUT = 10,     /* not 1 <= g < h <= n, or across number false */
    RINGKIT_WRONG_LINK = 11,    /* link out of order, or either load false; of values also a count of links other than n */
    RINGKIT_WRONG_LAST = 12,    /* unsplit peak or size false */
    RINGKIT_NOT_TIGHT = 13,     /* split peak (halves) is not the across number */
    RINGKIT_OVER_BOUND = 14,    /* the bound of rule D broken: twice the unsplit peak over split peak (halves) + 3 x largest split amount */
    RINGKIT_NO_ROOM = 15,       /* lent buffer shorter than the text to be written */
    RINGKIT_TOO_MANY_ROWS = 16, /* more than 1,024 rows; of a matrix, more pairs of offices whose entry is above 0 */
    RINGKIT_DIAGONAL = 17,      /* an entry on the diagonal of a matrix is not 0 */
    RINGKIT_NOT_SYMMETRIC = 18, /* an entry (i,j) of a matrix is not equal to (j,i); the line is that of the entry which is read first */
    RINGKIT_SUM_TOO_MUCH = 19,  /* with this row, the sum of the rows of its two nodes passes 9,999, and no entry of a matrix can say it */
    RINGKIT_FIBRES = 20,        /* fibres neither 2 nor 4 */
    RINGKIT_FULL = 21,          /* all 1,024 places of a working table are taken */
    RINGKIT_NO_ROW = 22,        /* the place named holds no row of the working table, as 0 and 1,025 never do */
    RINGKIT_TOO_MANY_SPLIT = 23, /* rules A to C, by the rooms that are asked for, leave more than 16 rows split, too many to try every way of sending them; never on a ring of 33 offices or fewer */
    RINGKIT_PLANS_TOO_LONG = 24  /* text of many sheets over 65,536 bytes; that a sheet in it is too long is 1, and counted */
};

/* The answer of a call. The line counts from 1, a missing line being the one after the last; it is 0 for reasons 1, 13, 14, 15, 23 and 24, and for 16 and 20 of a matrix.
 *
 * The byte counts from 1 in that line. Of a line of the wrong shape (2) it is the first at which no line of the shape that is due goes on like this, and
 * so the place of a tab, a digit or LF that is missing, which may be one behind the line's last byte. Where a sheet may have a D line or the C line, it is the
 * first byte at which neither goes on, and so behind the fibres, where LF or a tab and M may stand; a line of a matrix below the first has as many fields as that. For reasons about one field it is where that field
 * starts: n (3), the fibres (20), the first of the two nodes that is outside (4), the amount (7), and of a matrix the entry (17, 18, and 7, the first over
 * 9,999). For a line that is missing or left over, and for reasons that judge a line as a whole (5, 6, 8 to 12, 16, 19, and 3 of a matrix), it is 1; with
 * line 0, as 16 of a matrix has it, it is 0. */
typedef struct ringkit_reply {
    uint32_t reason; /* an enum ringkit_reason */
    uint32_t line;   /* 0 when accepted */
    uint32_t byte;   /* 0 when accepted */
    size_t length;   /* bytes written to the buffer's start; 0 when refused, and of ringkit_check */
} ringkit_reply;

/* A row of a sheet that is held as values: what its D line says. Any numbers may be in it. */
typedef struct ringkit_row {
    uint32_t first;  /* the row's nodes, */
    uint32_t second;
    uint32_t amount; /* its amount, in units, */
    uint32_t front;  /* what goes each way, in halves, */
    uint32_t back;
    uint32_t way;    /* and where the whole circuit goes: RINGKIT_F is 0, any other number is B */
} ringkit_row;

/* A link's loads, as its L line says them: split ones in halves, unsplit ones in units. */
typedef struct ringkit_link {
    uint32_t link;
    uint32_t split;
    uint32_t unsplit;
} ringkit_link;

/* The answer of ringkit_judge. */
typedef struct ringkit_judge_reply {
    uint32_t reason; /* an enum ringkit_reason: RINGKIT_OK, 3 to 14, 16 or 20 */
    uint32_t place;  /* of the row (4 to 9 and 16) or of the link (11) that is at fault, counted from 1; 0 when accepted, for the other reasons, and for 11 of the count of links */
} ringkit_judge_reply;

/* The answer of ringkit_parallel. */
typedef struct ringkit_pair_reply {
    uint32_t reason; /* as above */
    uint32_t line;
    uint32_t byte;
    size_t first;    /* the two rows by their places among all rows, counted from 1, */
    size_t second;   /* first < second; both 0 where there is no such pair, and when refused */
} ringkit_pair_reply;

/* The answer of ringkit_turn. When refused, all but reason, line and byte is 0. */
typedef struct ringkit_turn_reply {
    uint32_t reason; /* as above */
    uint32_t line;
    uint32_t byte;
    uint32_t peak;   /* the largest load, in units, where every row goes the way that is written, */
    uint32_t link;   /* the link that the start avoids which led there, */
    uint32_t turns;  /* and how many turns it took; at most that start's own peak less this one */
    size_t rows;     /* the rows of the table, and so many bytes of the ways are written */
} ringkit_turn_reply;

/* The answer of ringkit_crossing. What the kind does not have is 0. When refused, all but reason, line and byte is 0. */
typedef struct ringkit_crossing_reply {
    uint32_t reason; /* as above */
    uint32_t line;
    uint32_t byte;
    uint32_t kind;   /* RINGKIT_ALL_CROSS, RINGKIT_PARALLEL or RINGKIT_MANY; 0 only when refused */
    uint32_t bound;  /* where all cross: the bound, in halves: twice the unsplit peak of the best choice is at most this; 0 where no row has an amount above 0 */
    size_t first;    /* where two are parallel: the two rows by their places among all rows, counted from 1, */
    size_t second;   /* first < second */
} ringkit_crossing_reply;

/* The answer of ringkit_least. When refused, all but reason, line and byte is 0. */
typedef struct ringkit_least_reply {
    uint32_t reason; /* as above */
    uint32_t line;
    uint32_t byte;
    uint32_t peak;   /* the largest load, in units, where every row goes the way that is written: the least that any of the rules comes to, */
    uint32_t floor;  /* below which no way of sending the rows whole has a peak: half the largest across number, rounded up, in units, */
    uint32_t rule;   /* and the first of the rules that comes to that peak, RINGKIT_LEAST_TURNS to RINGKIT_LEAST_LOWERED_RULE_D */
    size_t rows;     /* the rows of the table, and so many bytes of the ways are written */
} ringkit_least_reply;

/* A table at work, lent by the caller, who makes it by ringkit_work_start: rows at places 1 to 1,024, and kept beside them the largest cut. Its fields
 * are the library's. They are unsigned integers and arrays of them with no padding, so any bytes are a value: copies may be kept and put back, and a call
 * on bytes that no call made still ends, with an answer that the bytes alone decide. A pointer to it is to a whole struct, aligned as C aligns it. */
typedef struct ringkit_work {
    uint32_t triangle[RINGKIT_MAX_OFFICES * (RINGKIT_MAX_OFFICES - 1) / 2];
    uint32_t n, fibres, family;
    uint32_t g, h, across;
    uint16_t amount[RINGKIT_MAX_ROWS];
    uint8_t first[RINGKIT_MAX_ROWS];
    uint8_t second[RINGKIT_MAX_ROWS];
} ringkit_work;

/* The answer of a call that alters a working table. When refused, all but the reason is 0, and no byte of the table is changed. */
typedef struct ringkit_work_reply {
    uint32_t reason; /* as above */
    uint32_t line;   /* always 0 */
    uint32_t place;  /* of the row that was added, changed or removed, counted from 1; 0 of ringkit_work_start */
    uint32_t g;      /* the largest cut of the rows held now: its two links, g < h, by rule A's ties, */
    uint32_t h;
    uint32_t across; /* and the demand between the offices that they part: what the C line says when the written table is routed */
} ringkit_work_reply;

/* The answer of ringkit_work_row. When refused, all but the reason is 0. */
typedef struct ringkit_work_row_reply {
    uint32_t reason; /* as above */
    uint32_t line;   /* always 0 */
    uint32_t first;  /* the row's nodes, */
    uint32_t second;
    uint32_t amount; /* and its amount */
} ringkit_work_row_reply;

/* Calls that lend a buffer write their text at its start and keep the bytes behind it; one that refuses changes no byte. */

/* Routes a table and writes its sheet. */
ringkit_reply ringkit_route(const uint8_t *table, size_t table_length, uint8_t *buffer, size_t buffer_length);

/* Routes a table and writes its sheet, with the best choice in the place of rule D. Of all ways of sending whole the rows that rules A to C leave split it takes the one
 * with the least unsplit peak; of several the one that sends the fewest of these rows back; and of several of those the one that sends front the first row, by rising first
 * node, at which they differ. Rows that are not split go as rule D says, and all else on the sheet is as ringkit_route has it, but for ways, unsplit loads, unsplit peak and
 * size.
 *
 * So no other way of sending the split rows has a lower peak, and this one is at most as high as that of ringkit_route; ways that turn other rows may come to less
 * (ringkit_turn). The checker accepts the sheet. Where more than RINGKIT_MAX_SPLIT rows are left split the table is refused with RINGKIT_TOO_MANY_SPLIT, behind its own
 * reasons and before RINGKIT_NO_ROOM, however large the buffer is. It takes longer the more rows are left split: 65,536 ways are tried of 16. */
ringkit_reply ringkit_route_best(const uint8_t *table, size_t table_length, uint8_t *buffer, size_t buffer_length);

/* Routes a table and writes its sheet, as ringkit_route does, but with the links' rooms lowered before any row is sent: links 1 to n in turn get as the room of link g, in halves, the largest of
 * 2 x across(h,g) - room(h) for the links h below g and 2 x across(g,h) - M for those above, M being the across number of the cut on the C line.
 *
 * The split peak is the same as by ringkit_route, the least there is. But here no division of the rows, however fine, loads every link at most as much and some link less: the split loads are the rooms.
 * Rule C then changes nothing. The unsplit peak, which is within the bound of rule D, may be above or below that of ringkit_route. The sheet is accepted by the checker. Reasons are those of
 * ringkit_route. */
ringkit_reply ringkit_route_lowered(const uint8_t *table, size_t table_length, uint8_t *buffer, size_t buffer_length);

/* The same with the best choice in the place of rule D: to ringkit_route_lowered what ringkit_route_best is to ringkit_route, with its reasons. */
ringkit_reply ringkit_route_lowered_best(const uint8_t *table, size_t table_length, uint8_t *buffer, size_t buffer_length);

/* Sends every row of a table whole, one turn at a time, and writes the ways: the first `rows` bytes become RINGKIT_F or RINGKIT_B, row by row, and those behind them stay; a refusal,
 * which is one of the table's own, changes no byte. There is no sheet, and so no split peak and no size.
 *
 * For each link in turn it starts with every row on the way that avoids the link. List each row's loads on its path from largest to smallest, and compare the lists from the front, one
 * that runs out first being the smaller: in falling order of these, the earlier of rows with equal lists first, the first row whose turn, to its other way, lowers the peak is turned; and so
 * again until no row's turn does. The answer is the start that comes to the least peak, the smallest link of several.
 *
 * No start begins above the largest across number M, that of the C line, and no single turn lowers the answer's peak. It need not be the least there is. But no way of sending the rows has a peak
 * below M / 2, so a peak that is M / 2, rounded up, is.
 *
 * Its time grows with the number of turns of all starts, times the number of rows. Tables of all pairs take at most 340 million instructions; the dearest known, of 1,024 rows at most and made for it,
 * take some 5,000 million, about half a second, and no bound is proved. ringkit_least takes as long and little more. */
ringkit_turn_reply ringkit_turn(const uint8_t *table, size_t table_length, uint8_t *ways);

/* Whether the rows of a table whose amounts are above 0 all cross each other, and are at most RINGKIT_MAX_SPLIT. Two rows cross where their four nodes are distinct and exactly one node of the one lies
 * strictly between those of the other; else they are parallel, as rows that share a node are. Rows of amount 0 count for nothing but their places. No row and one row all cross.
 *
 * Where they do (RINGKIT_ALL_CROSS), more is promised of the best choice than the bound of rule D: neither ringkit_route_best nor ringkit_route_lowered_best gives RINGKIT_TOO_MANY_SPLIT, and of each sheet
 * that they write twice the unsplit peak is at most `bound`, which is the largest across number M, that of the C line, plus twice the largest amount. It is not promised of the ways of rule D, with which
 * ringkit_route and ringkit_route_lowered may pass it. The checker does not ask for it: RINGKIT_OVER_BOUND is given as before.
 *
 * Else it names the first two such rows that are parallel, by the first and then by the second (RINGKIT_PARALLEL), however many rows there are; or says that they all cross each other, but are more
 * than RINGKIT_MAX_SPLIT (RINGKIT_MANY). Refused is only what is no table, for the table's own reasons. */
ringkit_crossing_reply ringkit_crossing(const uint8_t *table, size_t table_length);

/* Sends every row of a table whole by each of the five rules above, says the least peak that one of them comes to, and writes the ways that have it: the first `rows` bytes become RINGKIT_F or
 * RINGKIT_B, row by row, and those behind them stay; a refusal, which is one of the table's own, changes no byte. There is no sheet, and so no size.
 *
 * The best choice counts where at most RINGKIT_MAX_SPLIT rows are left split, by level rooms and by lowered ones each for itself; where more are it is passed over, and the table is not refused. So
 * the peak is at most that of each sheet that the four calls of routing write, and at most that of ringkit_turn, and it is one of them. By ringkit_route's it is within the bound of rule D,
 * and where ringkit_crossing says RINGKIT_ALL_CROSS of the table, twice the peak is at most the `bound` that it says.
 *
 * No way of sending the rows, by whatever rule, has a peak below `floor`. Where `peak` is `floor` it is the best there is; elsewhere a lower one may be there or may not, and none is lower by more than
 * the difference. It takes about as long as the five calls together, and where the rule is not RINGKIT_LEAST_TURNS, as that rule's own call once more. */
ringkit_least_reply ringkit_least(const uint8_t *table, size_t table_length, uint8_t *ways);

/* Checks a sheet, whatever tool made it: reads all its lines, and then judges what they say. Accepted means that every figure is true, that no division of the demands, however fine, has a lower
 * peak than the split peak, and that the unsplit peak is within the bound of rule D. */
ringkit_reply ringkit_check(const uint8_t *sheet, size_t sheet_length);

/* Judges a sheet that is held as values: rows in the order of the table, the ring and its family, the cut of links g and h with its across number, the loads with their links, 1 to n in order, the
 * unsplit peak and the size. It accepts what the checker accepts of the text that says these values, and names the row or the link where it refuses. What no text can say it
 * judges too: larger numbers, more rows than a text has room for, and another count of links than n. */
ringkit_judge_reply ringkit_judge(const ringkit_row *rows, size_t row_count, uint32_t n, uint32_t fibres, uint32_t family, uint32_t g, uint32_t h, uint32_t across,
                                  const ringkit_link *links, size_t link_count, uint32_t peak, uint32_t size);

/* Makes a report over a text of many sheets, one behind the other, and writes it: a line T of those of SONET and one of those of SDH, whose units differ, each with how
 * many are accepted, the sum of their unsplit peaks, and the worst ratio of twice the unsplit peak to the across number, as these two numbers; and a line X, how many are
 * refused.
 *
 * The text is taken apart into pieces: one begins where the text does, if it has any bytes, and at each line behind that which starts with R; only LF ends a line. Each
 * piece is checked as a sheet by itself, with its own length, as ringkit_check does, and one that is refused is counted and no more. Of two ratios the larger is the
 * worse, compared without rounding, and of several that are alike the first stands. An accepted sheet with across number 0 does not enter; where none of the family
 * enters both numbers are 0.
 *
 * Refused is only a text of more than RINGKIT_MAX_PLANS_BYTES, with RINGKIT_PLANS_TOO_LONG, however large the buffer is, and then a buffer that is too short, each with
 * line 0 and byte 0. RINGKIT_REPORT_BYTES suffice. It takes about the time of checking the pieces. Damage in which no line that starts with R begins, before or after,
 * and which leaves the line behind it as it was, changes what one piece gives at most. */
ringkit_reply ringkit_report(const uint8_t *sheets, size_t sheets_length, uint8_t *buffer, size_t buffer_length);

/* The first pair of split rows of a sheet that are parallel, by first and then by second; the sheet is checked before. */
ringkit_pair_reply ringkit_parallel(const uint8_t *sheet, size_t sheet_length);

/* Reads a table, or checks a sheet, and writes its values afresh: the same bytes. */
ringkit_reply ringkit_rewrite_table(const uint8_t *table, size_t table_length, uint8_t *buffer, size_t buffer_length);
ringkit_reply ringkit_rewrite_sheet(const uint8_t *sheet, size_t sheet_length, uint8_t *buffer, size_t buffer_length);

/* Reads a matrix and writes its table, with the number of fibres and the family that it is told: a row for each pair of offices whose entry is above 0. The table can be routed. */
ringkit_reply ringkit_read_matrix(const uint8_t *matrix, size_t matrix_length, uint32_t fibres, uint32_t family, uint8_t *buffer, size_t buffer_length);

/* Reads a table and writes its matrix: circuits of the same two offices are added up, so what tells them apart is lost. A matrix that is read
 * and then written has the same bytes; so has a table that is written and then read, where no pair has two rows and no row has amount 0, with the
 * fibres and the family of its R line. */
ringkit_reply ringkit_write_matrix(const uint8_t *table, size_t table_length, uint8_t *buffer, size_t buffer_length);

/* Makes the working table one of n offices, so many fibres and that family that holds no row, whatever it was. */
ringkit_work_reply ringkit_work_start(ringkit_work *work, uint32_t n, uint32_t fibres, uint32_t family);

/* Adds a row at the lowest free place. A row of amount 0 holds its place like any other. */
ringkit_work_reply ringkit_work_add(ringkit_work *work, uint32_t first, uint32_t second, uint32_t amount);

/* Puts another row in place of the one that the place holds. */
ringkit_work_reply ringkit_work_change(ringkit_work *work, uint32_t place, uint32_t first, uint32_t second, uint32_t amount);

/* Removes the row that the place holds; the place is free again, and no other row moves. */
ringkit_work_reply ringkit_work_remove(ringkit_work *work, uint32_t place);

/* The row at a place. */
ringkit_work_row_reply ringkit_work_row(const ringkit_work *work, uint32_t place);

/* Writes the table of the rows held: by nodes, and rows of the same two nodes by place. Of a working table that calls made it can be routed. A refusal has
 * line 0 and byte 0. */
ringkit_reply ringkit_work_write(const ringkit_work *work, uint8_t *buffer, size_t buffer_length);

#ifdef __cplusplus
}
#endif

#endif
