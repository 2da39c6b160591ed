#include "picture.h"

#include "panels.h"
#include "plan.h"
#include "refusal.h"
#include "turn.h"

/* ---- what is drawn */

/* By its second line: the row of a sheet has seven fields, and a sheet without rows has its C line there. */
static bool is_sheet(const struct text *text)
{
    struct line line = line_of(text, 2);
    unsigned tabs = 0;
    for (size_t k = 0; k < line.length; k++) {
        tabs += line.bytes[k] == '\t';
    }
    return tabs == 6 || (line.length > 0 && line.bytes[0] == 'C');
}

/* The figures of the sheet itself, whatever tool made it. */
static enum status accept_sheet(struct plan *plan, const struct text *sheet)
{
    ringkit_reply reply = ringkit_check(sheet->bytes, sheet->length);
    if (reply.reason != RINGKIT_OK) {
        tell_refusal(sheet, REFUSAL_OF(reply), true);
        return REFUSED;
    }
    return take_apart(plan, sheet->bytes, sheet->length);
}

/* The table of a plan; a text has more room than it ever takes. */
static void write_table(struct text *table, const struct plan *plan)
{
    char *at = (char *)table->bytes;
    at += sprintf(at, "R\t%u\t%u%s\n", plan->offices, plan->fibres, mark_of(plan->family));
    for (unsigned k = 0; k < plan->circuits; k++) {
        at += sprintf(at, "D\t%u\t%u\t%u\n", plan->circuit[k].first, plan->circuit[k].second, plan->circuit[k].amount);
    }
    table->name = "the table";
    table->length = (size_t)((uint8_t *)at - table->bytes);
}

/* Sends the plan's circuits one turn at a time, for the way that they go whole. */
static enum status turn_circuits(struct plan *plan)
{
    uint8_t ways[RINGKIT_MAX_ROWS];
    struct text table;
    write_table(&table, plan);
    ringkit_turn_reply reply = ringkit_turn(table.bytes, table.length, ways);
    if (reply.reason != RINGKIT_OK) {
        tell_refusal(&table, REFUSAL_OF(reply), true);
        return REFUSED;
    }
    for (unsigned k = 0; k < plan->circuits; k++) {
        plan->circuit[k].goes_back = ways[k] != RINGKIT_F;
    }
    for (unsigned k = 1; k <= plan->offices; k++) {
        plan->load[k - 1].unsplit = load_of(plan, ways, k);
    }
    plan->peak = reply.peak;
    plan->size = line_size(plan, plan->peak);
    return FINE;
}

/* Puts a circuit where it belongs among the largest so far; of equal amounts the earlier comes first. */
static void place_circuit(struct picture *picture, unsigned place)
{
    const struct circuit *circuit = picture->plan.circuit;
    unsigned k = picture->drawn < LARGEST ? picture->drawn++ : LARGEST;
    for (; k > 0 && circuit[picture->largest[k - 1]].amount < circuit[place].amount; k--) {
        if (k < LARGEST) {
            picture->largest[k] = picture->largest[k - 1];
        }
    }
    if (k < LARGEST) {
        picture->largest[k] = place;
    }
}

/* A circuit without an amount is nowhere. */
static void choose_circuits(struct picture *picture)
{
    picture->drawn = 0;
    for (unsigned k = 0; k < picture->plan.circuits; k++) {
        if (picture->plan.circuit[k].amount > 0) {
            place_circuit(picture, k);
        }
    }
}

/* Of two fibres half of the line is kept for protection. */
static unsigned carried_by(const struct plan *plan)
{
    return plan->size == 0 ? 2 * plan->peak : plan->fibres == RINGKIT_TWO_FIBRES ? plan->size : 2 * plan->size;
}

/* ---- the file */

static const char *how_sent(const struct picture *picture)
{
    return picture->turned ? "one turn at a time" : picture->plan.method.choice == BEST_CHOICE ? "by the best choice" : "as planned";
}

/* For who hears the picture. */
static void describe(const struct picture *picture)
{
    const struct plan *plan = &picture->plan;
    struct units split = in_units(plan->across);
    printf("<title id=\"title\">%s of %u offices and %u fibres, %u circuit%s</title>\n", ring_of_family(plan->family), plan->offices, plan->fibres, plan->circuits, plan->circuits == 1 ? "" : "s");
    printf("<desc id=\"desc\">Each circuit sent whole, %s: unsplit peak %u, floor %u, ", how_sent(picture), plan->peak, floor_of(plan));
    if (plan->size > 0) {
        printf("line size %u. ", plan->size);
    } else {
        printf("and no line is large enough. ");
    }
    printf("With circuits divided the peak is %u.%u. The cut of links %u and %u, across %u, parts ", split.whole, split.tenths, plan->g, plan->h, plan->across);
    tell_parted(stdout, plan->g, plan->h);
    if (plan->method.rooms == LOWERED_ROOMS) {
        printf("Circuits are divided by lowered rooms. ");
    }
    printf("Office 1 stands at the top of a circle, and the others clockwise from it; link k joins office k and the next. Loads and amounts are in %s.</desc>\n", unit_of(plan->family));
}

static void draw(struct picture *picture)
{
    picture->carried = carried_by(&picture->plan);
    choose_circuits(picture);
    begin_drawing((struct point){PAPER_WIDTH, PAPER_HEIGHT}, INK);
    describe(picture);
    draw_rectangle((struct point){0, 0}, (struct point){PAPER_WIDTH, PAPER_HEIGHT}, (struct paint){"#ffffff", NULL, 0});
    draw_heading(picture);
    draw_ring(picture);
    draw_bars(picture);
    draw_list(picture);
    draw_legend(picture);
    end_drawing();
}

/* The plan of a table, or what an accepted sheet says. */
static enum status take_plan(struct plan *plan, const struct text *text)
{
    return is_sheet(text) ? accept_sheet(plan, text) : make_plan(plan, text, FOUR_RULES);
}

static enum status draw_where_fine(struct picture *picture, enum status status)
{
    if (status == FINE) {
        draw(picture);
    }
    return status;
}

enum status draw_plan(const struct text *text)
{
    struct picture picture = {.turned = false};
    return draw_where_fine(&picture, take_plan(&picture.plan, text));
}

enum status draw_turned(const struct text *text)
{
    struct picture picture = {.turned = true};
    enum status status = take_plan(&picture.plan, text);
    return draw_where_fine(&picture, status == FINE ? turn_circuits(&picture.plan) : status);
}

enum status draw_plan_by(const struct text *text, struct method method)
{
    struct picture picture = {.turned = false};
    struct text table;
    if (!is_sheet(text)) {
        return draw_where_fine(&picture, make_plan(&picture.plan, text, method));
    }
    enum status status = accept_sheet(&picture.plan, text);
    if (status == FINE) {
        write_table(&table, &picture.plan);
        table.name = text->name;
        status = make_plan(&picture.plan, &table, method);
    }
    return draw_where_fine(&picture, status);
}
