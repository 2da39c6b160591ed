/* The desk: plans a ring and checks plan sheets, and tells a planner what comes of it.
 *
 *   desk plan [--lowered] [--best] [--least] [--sheet | --json] [TABLE ...]     the plan of the table in words, or its sheet, or an object of JSON; --lowered with circuits divided by lowered rooms,
 *                                 --best with the best way of sending whole the circuits left divided; --least with the peaks of all rules beside it
 *   desk turn [--json] [TABLE ...]    whole circuits sent one turn at a time: often a lower peak than the plan's, and sometimes proved the lowest
 *   desk crossing [--json] [TABLE ...]    whether all circuits cross each other, and how high the peak of the best choice then is at most
 *   desk least [--json] [TABLE ...]   whole circuits sent by the rule that comes to the least peak, with the peaks and line sizes of all rules, and how far from the best possible it can be at most
 *   desk check [--json] [SHEET ...]   whether the sheet is accepted
 *   desk picture [--turn | [--lowered] [--best]] [TABLE or SHEET]     the plan, or the accepted sheet, as an SVG picture; --turn with whole circuits sent one turn at a time, --lowered and --best as
 *                                 plan does with these
 *   desk report [--text | --json] [PLANS ...]     how many sheets of a text of many are accepted and how many refused, the sum of their unsplit peaks, and the worst of them,
 *                                 by family; --text the report's own lines
 *   desk parallel [SHEET]         its first two split rows that are parallel
 *   desk table --fibres 2 [--sdh] [MATRIX]    the table of a matrix of demands, on a ring of two fibres; --fibres 4 of four; --sdh of SDH, where it is of SONET otherwise
 *   desk matrix [TABLE]           the matrix of a table, circuits of the same two offices added up
 *   desk work TABLE               a dialogue in which circuits are added, changed and removed one by one
 *   desk work --ring N --fibres F [--sdh]     the same, beginning with no circuit
 *   desk --help, and --help behind a command   these words
 *   desk --version                the number of the library's header
 *
 * A name of - or none at all is standard input, but for work. Of several files each is told under its name. Refusals go to standard error, and with --json into the object. The exit
 * status is 0 where all is fine, 1 where the text is refused, and 2 where the words are wrong or a file cannot be read or written; of several files, and of the lines of a dialogue, the
 * highest.
 */
#include <errno.h>
#include <limits.h>
#include <string.h>

#include "crossing.h"
#include "fields.h"
#include "least.h"
#include "objects.h"
#include "picture.h"
#include "plan.h"
#include "refusal.h"
#include "report.h"
#include "turn.h"
#include "work.h"

static enum status refused(const struct text *text, ringkit_reply reply)
{
    tell_refusal(text, REFUSAL_OF(reply), true);
    return REFUSED;
}

/* Writes the bytes that the call makes of the text, with so much room for them. */
static enum status pass_on(const struct text *text, writing *call, uint8_t *room, size_t length)
{
    ringkit_reply reply = call(text->bytes, text->length, room, length);
    if (reply.reason != RINGKIT_OK) {
        return refused(text, reply);
    }
    fwrite(room, 1, reply.length, stdout);
    return FINE;
}

static enum status sheet_of(const struct text *table, struct method method)
{
    uint8_t sheet[RINGKIT_SHEET_BYTES];
    return pass_on(table, routing_by(method), sheet, sizeof sheet);
}

static enum status sheet_with_least(const struct text *table, struct method method)
{
    enum status status = sheet_of(table, method);
    return status == FINE ? least_beside_sheet(table, method) : status;
}

/* What a matrix does not say of its ring. */
struct ring {
    uint32_t fibres;
    enum family family;
};

static enum status table_for(const struct text *matrix, struct ring ring)
{
    uint8_t table[RINGKIT_TABLE_BYTES];
    ringkit_reply reply = ringkit_read_matrix(matrix->bytes, matrix->length, ring.fibres, ring.family, table, sizeof table);
    if (reply.reason != RINGKIT_OK) {
        tell_refusal(matrix, REFUSAL_OF(reply), false);
        return REFUSED;
    }
    fwrite(table, 1, reply.length, stdout);
    return FINE;
}

static enum status matrix_of(const struct text *table)
{
    uint8_t matrix[RINGKIT_MATRIX_BYTES];
    return pass_on(table, ringkit_write_matrix, matrix, sizeof matrix);
}

static enum status report_of(const struct text *plans)
{
    uint8_t report[RINGKIT_REPORT_BYTES];
    return pass_on(plans, ringkit_report, report, sizeof report);
}

static enum status check_sheet(const struct text *sheet)
{
    ringkit_reply reply = ringkit_check(sheet->bytes, sheet->length);
    if (reply.reason != RINGKIT_OK) {
        return refused(sheet, reply);
    }
    show_name(stdout, sheet->name);
    printf(": accepted. Every figure is true; no routing, however finely circuits are divided, has a peak below the\n");
    printf("split one; and the unsplit peak is within its bound.\n");
    return FINE;
}

static enum status ask_parallel(const struct text *sheet)
{
    ringkit_pair_reply reply = ringkit_parallel(sheet->bytes, sheet->length);
    if (reply.reason != RINGKIT_OK) {
        tell_refusal(sheet, REFUSAL_OF(reply), true);
        return REFUSED;
    }
    show_name(stdout, sheet->name);
    if (reply.first == 0) {
        printf(": no two split rows are parallel.\n");
        return FINE;
    }
    printf(": rows %zu and %zu are split and parallel.\n", reply.first, reply.second);
    show_row(sheet, reply.first);
    show_row(sheet, reply.second);
    return FINE;
}

/* ---- what the words ask for */

/* The options, each a bit of its own. */
enum { SHEET = 1, JSON = 2, TURN = 4, RING = 8, FIBRES = 16, HELP = 32, BEST = 64, LOWERED = 128, TEXT = 256, OF_SDH = 512, LEAST = 1024 };

static const struct option {
    const char *name;
    unsigned bit;
} OPTIONS[] = {
    {"--sheet", SHEET}, {"--json", JSON}, {"--turn", TURN}, {"--ring", RING}, {"--fibres", FIBRES}, {"--help", HELP}, {"--best", BEST}, {"--lowered", LOWERED},
    {"--text", TEXT}, {"--sdh", OF_SDH}, {"--least", LEAST},
};

struct order {
    const struct command *command;
    unsigned said;             /* the options that are */
    const char *ring, *fibres; /* what is said behind these two */
    char **files;
    int count; /* of the files */
};

/* ---- the commands. Each is false where the words lack what it wants. */

typedef enum status telling(const struct text *);
typedef enum status putting(const char *file);
typedef enum status telling_plan(const struct text *, struct method);
typedef enum status putting_plan(const char *file, struct method);
typedef enum status telling_table(const struct text *, struct ring);

/* What is done with a file: it is told, or put as an object where --json is asked for; of a plan that is made by a method the next two, and the last of a matrix, with what it does not say. */
struct task {
    telling *tell;
    putting *put;
    telling_plan *tell_plan;
    putting_plan *put_plan;
    struct method method;
    telling_table *tell_table;
    struct ring ring;
};

static enum status tell_text(const struct task *task, const struct text *text)
{
    if (task->tell_table != NULL) {
        return task->tell_table(text, task->ring);
    }
    return task->tell_plan != NULL ? task->tell_plan(text, task->method) : task->tell(text);
}

static enum status put_file(const struct task *task, const char *file)
{
    return task->put_plan != NULL ? task->put_plan(file, task->method) : task->put(file);
}

/* Where there are several files, each has a heading, as head and tail write it, but among lines that are the library's own. */
static enum status tell_file(const struct order *order, int k, const char *file, const struct task *task)
{
    struct text text;
    if (order->count > 1 && !(order->said & TEXT)) {
        fputs(k > 0 ? "\n==> " : "==> ", stdout);
        show_name(stdout, name_of(file));
        fputs(" <==\n", stdout);
    }
    return read_text(&text, file) ? tell_text(task, &text) : TROUBLE;
}

/* Tells of one file after the other, or puts an object for each; the worst of their status. A command without --json has nothing to put. */
static enum status each_file(const struct order *order, struct task task)
{
    enum status worst = FINE;
    for (int k = 0; k == 0 || k < order->count; k++) {
        const char *file = order->count > 0 ? order->files[k] : "-";
        enum status status = order->said & JSON ? put_file(&task, file) : tell_file(order, k, file, &task);
        worst = status > worst ? status : worst;
    }
    return worst;
}

static struct method method_of(const struct order *order)
{
    return (struct method){order->said & LOWERED ? LOWERED_ROOMS : FULL_ROOMS, order->said & BEST ? BEST_CHOICE : RULE_D};
}

/* Whether a sheet is asked for, and something beside it that it has no place for: several sheets behind each other would be none. */
static bool asks_too_much(const struct order *order)
{
    return order->said & SHEET && (order->said & JSON || order->count > 1);
}

static bool order_plan(const struct order *order, enum status *status)
{
    if (asks_too_much(order)) {
        return false;
    }
    bool sheet = order->said & SHEET;
    struct task alone = {.tell_plan = sheet ? sheet_of : plan_table, .put_plan = plan_object, .method = method_of(order)};
    struct task with_least = {.tell_plan = sheet ? sheet_with_least : plan_with_least, .put_plan = plan_object_with_least, .method = method_of(order)};
    *status = each_file(order, order->said & LEAST ? with_least : alone);
    return true;
}

static bool order_report(const struct order *order, enum status *status)
{
    if (order->said & TEXT && order->said & JSON) {
        return false;
    }
    *status = each_file(order, (struct task){.tell = order->said & TEXT ? report_of : tell_report, .put = report_object});
    return true;
}

static bool order_turn(const struct order *order, enum status *status)
{
    *status = each_file(order, (struct task){.tell = turn_table, .put = turn_object});
    return true;
}

static bool order_crossing(const struct order *order, enum status *status)
{
    *status = each_file(order, (struct task){.tell = tell_crossing, .put = crossing_object});
    return true;
}

static bool order_least(const struct order *order, enum status *status)
{
    *status = each_file(order, (struct task){.tell = least_table, .put = least_object});
    return true;
}

static bool order_check(const struct order *order, enum status *status)
{
    *status = each_file(order, (struct task){.tell = check_sheet, .put = check_object});
    return true;
}

/* Circuits go one way or the other. */
static bool order_picture(const struct order *order, enum status *status)
{
    unsigned methods = order->said & (LOWERED | BEST);
    if (order->said & TURN && methods != 0) {
        return false;
    }
    struct task by_method = {.tell_plan = draw_plan_by, .method = method_of(order)};
    *status = each_file(order, methods != 0 ? by_method : (struct task){.tell = order->said & TURN ? draw_turned : draw_plan});
    return true;
}

static bool order_parallel(const struct order *order, enum status *status)
{
    *status = each_file(order, (struct task){.tell = ask_parallel});
    return true;
}

static bool is(const char *word, const char *other)
{
    return word != NULL && strcmp(word, other) == 0;
}

/* SONET where nothing is said, as a table has it. */
static enum family family_of(const struct order *order)
{
    return order->said & OF_SDH ? SDH : SONET;
}

/* A matrix does not say its fibres, and a silent 4 would buy too small a line. */
static bool order_table(const struct order *order, enum status *status)
{
    if (!is(order->fibres, "2") && !is(order->fibres, "4")) {
        return false;
    }
    struct ring ring = {is(order->fibres, "2") ? RINGKIT_TWO_FIBRES : RINGKIT_FOUR_FIBRES, family_of(order)};
    *status = each_file(order, (struct task){.tell_table = table_for, .ring = ring});
    return true;
}

static bool order_matrix(const struct order *order, enum status *status)
{
    *status = each_file(order, (struct task){.tell = matrix_of});
    return true;
}

/* Work begins with a file, or with a ring and its fibres; not with standard input, which is its dialogue. */
static bool order_work(const struct order *order, enum status *status)
{
    uint32_t offices, fibres;
    if (order->count == 0 && read_typed(&offices, order->ring) && read_typed(&fibres, order->fibres)) {
        *status = work_afresh(offices, fibres, family_of(order));
        return true;
    }
    if (order->count == 1 && !is_standard(order->files[0]) && order->said == 0) {
        *status = work_on(order->files[0]);
        return true;
    }
    return false;
}

static const struct command {
    const char *name;
    unsigned options; /* that it takes, beside --help */
    int files;        /* that it takes at most */
    bool (*carry_out)(const struct order *, enum status *);
} COMMANDS[] = {
    {"plan", LOWERED | BEST | LEAST | SHEET | JSON, INT_MAX, order_plan},
    {"turn", JSON, INT_MAX, order_turn},
    {"crossing", JSON, INT_MAX, order_crossing},
    {"least", JSON, INT_MAX, order_least},
    {"check", JSON, INT_MAX, order_check},
    {"picture", TURN | LOWERED | BEST, 1, order_picture},
    {"report", TEXT | JSON, INT_MAX, order_report},
    {"parallel", 0, 1, order_parallel},
    {"table", FIBRES | OF_SDH, 1, order_table},
    {"matrix", 0, 1, order_matrix},
    {"work", RING | FIBRES | OF_SDH, 1, order_work},
};

/* ---- reading the words */

/* NULL where there is no such command. */
static const struct command *command_of(const char *name)
{
    for (size_t k = 0; k < sizeof COMMANDS / sizeof *COMMANDS; k++) {
        if (is(name, COMMANDS[k].name)) {
            return &COMMANDS[k];
        }
    }
    return NULL;
}

/* 0 where the command takes no such option. */
static unsigned option_of(const struct command *command, const char *word)
{
    for (size_t k = 0; k < sizeof OPTIONS / sizeof *OPTIONS; k++) {
        if (is(word, OPTIONS[k].name)) {
            return OPTIONS[k].bit & (command->options | HELP);
        }
    }
    return 0;
}

/* Takes an option, and the value behind one that has a value. How many words these are; 0 where they make no order, as two values that differ do. */
static int read_option(struct order *order, char **words)
{
    unsigned option = option_of(order->command, words[0]);
    const char **value = option == RING ? &order->ring : option == FIBRES ? &order->fibres : NULL;
    order->said |= option;
    if (option == 0 || value == NULL) {
        return option != 0;
    }
    if (words[1] == NULL || (*value != NULL && !is(*value, words[1]))) {
        return 0;
    }
    *value = words[1];
    return 2;
}

/* Whether the command takes so many files. There is but one standard input. */
static bool takes_files(const struct order *order)
{
    int standard = 0;
    for (int k = 0; k < order->count; k++) {
        standard += is_standard(order->files[k]);
    }
    return order->count <= order->command->files && standard <= 1;
}

/* The names of files are moved together, over the words that were read before them. False where the words make no order. */
static bool read_order(struct order *order, int count, char **words)
{
    *order = (struct order){.command = count > 1 ? command_of(words[1]) : NULL, .files = words + 2};
    if (order->command == NULL) {
        return false;
    }
    /* behind -- stand names alone, whatever they begin with */
    bool names = false;
    for (int k = 2; k < count;) {
        bool ends = !names && is(words[k], "--");
        bool option = !names && !ends && words[k][0] == '-' && words[k][1] != '\0';
        int taken = option ? read_option(order, words + k) : 1;
        if (taken == 0) {
            return false;
        }
        if (!option && !ends) {
            order->files[order->count++] = words[k];
        }
        names = names || ends;
        k += taken;
    }
    return takes_files(order);
}

static const char USAGE[] = "usage: desk plan [--lowered] [--best] [--least] [--sheet | --json] [TABLE ...]\n"
                            "       desk turn [--json] [TABLE ...]\n"
                            "       desk crossing [--json] [TABLE ...]\n"
                            "       desk least [--json] [TABLE ...]\n"
                            "       desk check [--json] [SHEET ...]\n"
                            "       desk picture [--turn | [--lowered] [--best]] [TABLE or SHEET]\n"
                            "       desk report [--text | --json] [PLANS ...]\n"
                            "       desk parallel [SHEET]\n"
                            "       desk table --fibres 2|4 [--sdh] [MATRIX]\n"
                            "       desk matrix [TABLE]\n"
                            "       desk work TABLE\n"
                            "       desk work --ring N --fibres 2|4 [--sdh]\n"
                            "       desk --help\n"
                            "       desk --version\n";

/* False where nothing is carried out by these words. */
static bool follow(int count, char **words, enum status *status)
{
    struct order order;
    if (count == 2 && is(words[1], "--version")) {
        printf("desk %d (ringkit %d)\n", RINGKIT_VERSION, RINGKIT_VERSION);
        return true;
    }
    bool asks_help = count == 2 && is(words[1], "--help");
    if (!asks_help && !read_order(&order, count, words)) {
        return false;
    }
    if (asks_help || order.said & HELP) {
        fputs(USAGE, stdout);
        return true;
    }
    return order.command->carry_out(&order, status);
}

int main(int count, char **words)
{
    enum status status = FINE;
    if (!follow(count, words, &status)) {
        fputs(USAGE, stderr);
        status = TROUBLE;
    }
    /* output waits in a buffer, so that a full disk shows only here */
    if (fflush(stdout) != 0 || ferror(stdout)) {
        fprintf(stderr, "desk: cannot write: %s\n", strerror(errno));
        status = TROUBLE;
    }
    return (int)status;
}
