#include "objects.h"

#include <errno.h>
#include <string.h>

#include "crossing.h"
#include "json.h"
#include "least.h"
#include "plan.h"
#include "refusal.h"
#include "report.h"
#include "turn.h"

/* Puts all that an object has behind its file's name. */
typedef enum status answering(struct json *json, const struct text *text);

static enum status put_trouble(struct json *json, const char *message)
{
    put_text(json, "status", "trouble");
    put_text(json, "message", message);
    return TROUBLE;
}

static enum status put_refused(struct json *json, struct refusal refusal)
{
    put_text(json, "status", "refused");
    put_number(json, "reason", refusal.reason);
    put_text(json, "sentence", sentence_of(refusal.reason));
    put_number_or_none(json, "line", refusal.line);
    put_number_or_none(json, "byte", refusal.byte);
    return REFUSED;
}

/* A name that is no UTF-8 stands as bytes besides, so that a script can still open the file. */
static void put_file(struct json *json, const char *file)
{
    put_text(json, "file", file);
    if (!is_utf8(file)) {
        put_bytes(json, "file_hex", file);
    }
}

/* Opens the object and reads the file; where that fails, puts why. */
static enum status open_answer(struct json *json, struct text *text, const char *command, const char *file)
{
    *json = (struct json){.out = stdout};
    open_object(json, NULL);
    put_text(json, "command", command);
    put_file(json, file);
    return take_text(text, file) ? FINE : put_trouble(json, strerror(errno));
}

static enum status close_answer(struct json *json, enum status status)
{
    close_object(json);
    putchar('\n');
    return status;
}

static enum status put_object(const char *command, const char *file, answering *answer)
{
    struct json json;
    struct text text;
    enum status status = open_answer(&json, &text, command, file);
    return close_answer(&json, status == FINE ? answer(&json, &text) : status);
}

/* The same of a plan by a method. */
typedef enum status answering_by(struct json *json, const struct text *table, struct method method);

static enum status put_planned(const char *file, struct method method, answering_by *answer)
{
    struct json json;
    struct text text;
    enum status status = open_answer(&json, &text, "plan", file);
    return close_answer(&json, status == FINE ? answer(&json, &text, method) : status);
}

/* ---- a plan */

static void put_family(struct json *json, enum family family)
{
    put_text(json, "family", name_of_family(family));
    put_text(json, "unit", unit_of(family));
}

static void put_ring(struct json *json, const struct plan *plan)
{
    put_text(json, "status", "fine");
    put_number(json, "offices", plan->offices);
    put_number(json, "fibres", plan->fibres);
    put_family(json, plan->family);
}

static void put_demand(struct json *json, const struct circuit *circuit)
{
    put_number(json, "first", circuit->first);
    put_number(json, "second", circuit->second);
    put_number(json, "amount", circuit->amount);
}

/* By the letter that a sheet has. */
static void put_way(struct json *json, bool goes_back)
{
    put_text(json, "way", goes_back ? "B" : "F");
}

static void put_circuits(struct json *json, const struct plan *plan)
{
    open_list(json, "circuits");
    for (unsigned k = 0; k < plan->circuits; k++) {
        open_object(json, NULL);
        put_demand(json, &plan->circuit[k]);
        put_number(json, "front_halves", plan->circuit[k].front);
        put_number(json, "back_halves", plan->circuit[k].back);
        put_way(json, plan->circuit[k].goes_back);
        close_object(json);
    }
    close_list(json);
}

static void put_cut(struct json *json, const struct plan *plan)
{
    open_object(json, "cut");
    put_number(json, "g", plan->g);
    put_number(json, "h", plan->h);
    put_number(json, "across", plan->across);
    close_object(json);
}

static void put_links(struct json *json, const struct plan *plan)
{
    open_list(json, "links");
    for (unsigned k = 0; k < plan->offices; k++) {
        open_object(json, NULL);
        put_number(json, "link", k + 1);
        put_number(json, "split_halves", plan->load[k].split);
        put_number(json, "unsplit", plan->load[k].unsplit);
        close_object(json);
    }
    close_list(json);
}

/* The split peak, in halves, is the cut's across number. */
static void put_peaks(struct json *json, const struct plan *plan)
{
    open_object(json, "peaks");
    put_number(json, "split_halves", plan->across);
    put_number(json, "unsplit", plan->peak);
    close_object(json);
}

static void put_floor(struct json *json, const struct plan *plan, unsigned peak)
{
    put_number(json, "floor", floor_of(plan));
    put_truth(json, "proved_best", peak == floor_of(plan));
}

/* Puts why no plan of the table was found, where none was. */
static enum status put_unless_fine(struct json *json, enum status status, struct refusal refusal)
{
    return status == REFUSED ? put_refused(json, refusal) : status == TROUBLE ? put_trouble(json, STRANGE_SHEET) : FINE;
}

/* Finds the plan, or puts why there is none. */
static enum status plan_or_put(struct json *json, struct plan *plan, const struct text *table, struct method method)
{
    struct refusal refusal;
    enum status status = find_plan(plan, &refusal, table, method);
    return put_unless_fine(json, status, refusal);
}

/* ---- the least beside a plan */

static void put_outcome(struct json *json, const char *rule, const struct outcome *outcome)
{
    open_object(json, NULL);
    put_text(json, "rule", rule);
    if (outcome->found) {
        put_number(json, "peak", outcome->peak);
    } else {
        put_none(json, "peak");
    }
    put_number_or_none(json, "size", outcome->size);
    close_object(json);
}

static void put_least(struct json *json, const struct least *least, const struct plan *plan)
{
    static const char *const RULES[COUNT_OF_RULES + 1] = {
        [BY_TURNS] = "one_turn_at_a_time", [BY_BEST] = "best_choice", [BY_LOWERED_BEST] = "best_choice_lowered_rooms", [BY_RULE_D] = "rule_d", [BY_LOWERED_RULE_D] = "rule_d_lowered_rooms",
    };
    open_object(json, "least");
    put_truth(json, "saves_size", saves_size(least, plan));
    put_text(json, "rule", RULES[least->rule]);
    put_number(json, "peak", least->peak);
    put_number_or_none(json, "size", least->size);
    put_number(json, "floor", least->floor);
    put_number_or_none(json, "floor_size", least->floor_size);
    put_truth(json, "proved_best", least->peak == least->floor);
    if (plan->all_cross) {
        put_number(json, "bound_halves", plan->bound);
    }
    open_list(json, "rules");
    for (enum rule rule = BY_TURNS; rule <= COUNT_OF_RULES; rule++) {
        put_outcome(json, RULES[rule], &least->outcome[rule]);
    }
    close_list(json);
    close_object(json);
}

/* Finds the plan and the least, or puts why there is none. */
static enum status least_or_put(struct json *json, struct plan *plan, struct least *least, const struct text *table, struct method method)
{
    struct refusal refusal;
    enum status status = plan_or_put(json, plan, table, method);
    if (status == FINE) {
        status = find_least(least, &refusal, table, plan);
        put_unless_fine(json, status, refusal);
    }
    return status;
}

/* ---- all of a plan */

/* An object by the four rules has neither key. */
static void put_method(struct json *json, struct method method)
{
    if (method.rooms == LOWERED_ROOMS) {
        put_truth(json, "lowered_rooms", true);
    }
    if (method.choice == BEST_CHOICE) {
        put_truth(json, "best_choice", true);
    }
}

/* By the best choice, where all circuits cross each other; elsewhere there is no such key. */
static void put_bounds(struct json *json, const struct plan *plan)
{
    if (plan->method.choice == BEST_CHOICE && plan->all_cross) {
        open_object(json, "all_cross");
        put_number(json, "bound_halves", plan->bound);
        put_number(json, "rule_d_bound_halves", bound_of_rule_d(plan));
        close_object(json);
    }
}

/* All of a plan, with the least beside it where there is one. */
static void put_plan_whole(struct json *json, const struct plan *plan, const struct least *least)
{
    put_ring(json, plan);
    put_method(json, plan->method);
    if (least != NULL) {
        put_least(json, least, plan);
    }
    put_circuits(json, plan);
    put_cut(json, plan);
    put_links(json, plan);
    put_peaks(json, plan);
    put_bounds(json, plan);
    put_floor(json, plan, plan->peak);
    put_number_or_none(json, "size", plan->size);
}

static enum status put_plan(struct json *json, const struct text *table, struct method method)
{
    struct plan plan;
    enum status status = plan_or_put(json, &plan, table, method);
    if (status == FINE) {
        put_plan_whole(json, &plan, NULL);
    }
    return status;
}

static enum status put_plan_with_least(struct json *json, const struct text *table, struct method method)
{
    struct plan plan;
    struct least least;
    enum status status = least_or_put(json, &plan, &least, table, method);
    if (status == FINE) {
        put_plan_whole(json, &plan, &least);
    }
    return status;
}

enum status plan_object(const char *file, struct method method)
{
    return put_planned(file, method, put_plan);
}

enum status plan_object_with_least(const char *file, struct method method)
{
    return put_planned(file, method, put_plan_with_least);
}

/* ---- circuits that go whole */

static void put_whole_circuits(struct json *json, const struct plan *plan, const uint8_t *ways)
{
    open_list(json, "circuits");
    for (unsigned k = 0; k < plan->circuits; k++) {
        open_object(json, NULL);
        put_demand(json, &plan->circuit[k]);
        put_way(json, ways[k] != RINGKIT_F);
        close_object(json);
    }
    close_list(json);
}

static void put_whole_links(struct json *json, const struct plan *plan, const uint8_t *ways)
{
    open_list(json, "links");
    for (unsigned link = 1; link <= plan->offices; link++) {
        open_object(json, NULL);
        put_number(json, "link", link);
        put_number(json, "load", load_of(plan, ways, link));
        close_object(json);
    }
    close_list(json);
}

/* The plan's own peak and size, to be held beside these. */
static void put_plan_beside(struct json *json, const struct plan *plan)
{
    open_object(json, "plan");
    put_number(json, "peak", plan->peak);
    put_number_or_none(json, "size", plan->size);
    close_object(json);
}

static enum status put_turned(struct json *json, const struct text *table)
{
    uint8_t ways[RINGKIT_MAX_ROWS];
    struct plan plan;
    ringkit_turn_reply reply = ringkit_turn(table->bytes, table->length, ways);
    if (reply.reason != RINGKIT_OK) {
        return put_refused(json, REFUSAL_OF(reply));
    }
    enum status status = plan_or_put(json, &plan, table, FOUR_RULES);
    if (status != FINE) {
        return status;
    }
    put_ring(json, &plan);
    put_whole_circuits(json, &plan, ways);
    put_whole_links(json, &plan, ways);
    put_number(json, "avoided_link", reply.link);
    put_number(json, "turns", reply.turns);
    put_number(json, "peak", reply.peak);
    put_floor(json, &plan, reply.peak);
    put_number_or_none(json, "size", line_size(&plan, reply.peak));
    put_plan_beside(json, &plan);
    return FINE;
}

enum status turn_object(const char *file)
{
    return put_object("turn", file, put_turned);
}

/* ---- whether circuits cross each other */

static enum status put_crossing(struct json *json, const struct text *table)
{
    static const char *const KINDS[] = {[RINGKIT_ALL_CROSS] = "all_cross", [RINGKIT_PARALLEL] = "parallel", [RINGKIT_MANY] = "too_many"};
    ringkit_crossing_reply reply = ringkit_crossing(table->bytes, table->length);
    if (reply.reason != RINGKIT_OK) {
        return put_refused(json, REFUSAL_OF(reply));
    }
    put_text(json, "status", "fine");
    put_text(json, "kind", KINDS[reply.kind]);
    if (reply.kind == RINGKIT_ALL_CROSS) {
        put_number(json, "bound_halves", reply.bound);
    } else if (reply.kind == RINGKIT_PARALLEL) {
        put_number(json, "first_row", (unsigned)reply.first);
        put_number(json, "second_row", (unsigned)reply.second);
    }
    return FINE;
}

enum status crossing_object(const char *file)
{
    return put_object("crossing", file, put_crossing);
}

/* ---- the least that the rules come to */

static enum status put_least_of(struct json *json, const struct text *table)
{
    struct plan plan;
    struct least least;
    enum status status = least_or_put(json, &plan, &least, table, FOUR_RULES);
    if (status == FINE) {
        put_ring(json, &plan);
        put_least(json, &least, &plan);
        put_whole_circuits(json, &plan, least.ways);
        put_whole_links(json, &plan, least.ways);
    }
    return status;
}

enum status least_object(const char *file)
{
    return put_object("least", file, put_least_of);
}

/* ---- a sheet that is checked */

static enum status put_check(struct json *json, const struct text *sheet)
{
    ringkit_reply reply = ringkit_check(sheet->bytes, sheet->length);
    bool accepted = reply.reason == RINGKIT_OK;
    if (accepted) {
        put_text(json, "status", "fine");
    } else {
        put_refused(json, REFUSAL_OF(reply));
    }
    put_truth(json, "accepted", accepted);
    return accepted ? FINE : REFUSED;
}

enum status check_object(const char *file)
{
    return put_object("check", file, put_check);
}

/* ---- a report */

static void put_worst(struct json *json, const struct sums *sums)
{
    if (sums->across == 0) {
        put_none(json, "worst");
        return;
    }
    open_object(json, "worst");
    put_number(json, "twice_peak", sums->twice);
    put_number(json, "across", sums->across);
    close_object(json);
}

static void put_sums(struct json *json, enum family family, const struct sums *sums)
{
    open_object(json, NULL);
    put_family(json, family);
    put_number(json, "accepted_plans", sums->accepted);
    put_number(json, "sum_of_peaks", sums->peaks);
    put_worst(json, sums);
    close_object(json);
}

static enum status put_report(struct json *json, const struct text *plans)
{
    struct report report;
    struct refusal refusal;
    enum status status = find_report(&report, &refusal, plans);
    if (status != FINE) {
        return status == REFUSED ? put_refused(json, refusal) : put_trouble(json, STRANGE_REPORT);
    }
    put_text(json, "status", "fine");
    open_list(json, "families");
    put_sums(json, SONET, &report.of[SONET]);
    put_sums(json, SDH, &report.of[SDH]);
    close_list(json);
    put_number(json, "refused_plans", report.refused);
    return FINE;
}

enum status report_object(const char *file)
{
    return put_object("report", file, put_report);
}
