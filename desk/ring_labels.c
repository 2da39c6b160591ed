#include <stdio.h>

#include "ring_circle.h"

enum { LETTERS = 105, LINE = 120 };

static unsigned digits_of(unsigned number)
{
    unsigned digits = 1;
    for (; number > 9; number /= 10) {
        digits++;
    }
    return digits;
}

static unsigned larger(unsigned one, unsigned other)
{
    return one > other ? one : other;
}

/* The box of a link's label: lines with its name, its split and its unsplit load, or only with the two loads. The circle leaves room for the widest all around. */
static struct box box_of_label(const struct plan *plan, unsigned link, bool in_full)
{
    const struct load *load = &plan->load[link - 1];
    unsigned letters = larger(digits_of(load->split / 2) + 2, digits_of(load->unsplit));
    if (in_full) {
        letters = larger(sizeof "link 64, cut" - 1, (unsigned)sizeof "unsplit " - 1 + letters);
    }
    struct point size = {room_for(letters, LETTERS, true), (in_full ? 3 : 2) * LINE};
    return box_outside((struct point){CENTRE_ACROSS, CENTRE_DOWN}, RADIUS + (has_discs(plan) ? 230 : 270), direction_of_link(link, plan->offices), size);
}

static void draw_label(const struct plan *plan, unsigned link, bool in_full)
{
    struct box box = box_of_label(plan, link, in_full);
    struct units split = in_units(plan->load[link - 1].split);
    struct lettering lettering = {LETTERS, MIDDLE, is_cut(plan, link), NULL};
    struct point at = {(box.left + box.right) / 2, box.top + LETTERS};
    printf("<g data-label=\"%u\">\n", link);
    if (in_full) {
        draw_words(at, (struct lettering){LETTERS, MIDDLE, true, NULL}, is_cut(plan, link) ? "link %u, cut" : "link %u", link);
        at.y += LINE;
    }
    draw_words(at, lettering, in_full ? "split %u.%u" : "%u.%u", split.whole, split.tenths);
    at.y += LINE;
    draw_words(at, lettering, in_full ? "unsplit %u" : "%u", plan->load[link - 1].unsplit);
    fputs("</g>\n", stdout);
}

/* Whether a label meets none of those before it in the list. */
static bool has_room(const struct plan *plan, const unsigned *links, unsigned place, bool in_full)
{
    struct box box = box_of_label(plan, links[place], in_full);
    bool room = true;
    for (unsigned k = 0; k < place && room; k++) {
        room = !boxes_meet(box, box_of_label(plan, links[k], in_full), APART);
    }
    return room;
}

static bool all_have_room(const struct plan *plan, const unsigned *links, unsigned count, bool in_full)
{
    bool room = true;
    for (unsigned k = 0; k < count && room; k++) {
        room = has_room(plan, links, k, in_full);
    }
    return room;
}

static unsigned fullest_link(const struct plan *plan)
{
    unsigned fullest = 1;
    for (unsigned k = 2; k <= plan->offices; k++) {
        fullest = plan->load[k - 1].unsplit > plan->load[fullest - 1].unsplit ? k : fullest;
    }
    return fullest;
}

/* The cut's links come first; one that has no room beside those that are drawn is left out. */
static void draw_chosen_labels(const struct plan *plan)
{
    unsigned links[3] = {0}, count = 0;
    const unsigned chosen[] = {plan->g, plan->h, fullest_link(plan)};
    for (unsigned k = 0; k < 3; k++) {
        links[count] = chosen[k];
        if (has_room(plan, links, count, true)) {
            draw_label(plan, chosen[k], true);
            count++;
        }
    }
}

/* What the labels say is told beside the heading, where they do not say it. */
void draw_labels(const struct plan *plan)
{
    const struct point beside = {MARGIN + 700, COLUMN_TOP};
    unsigned links[RINGKIT_MAX_OFFICES];
    for (unsigned k = 0; k < plan->offices; k++) {
        links[k] = k + 1;
    }
    bool in_full = all_have_room(plan, links, plan->offices, true);
    if (!in_full && !all_have_room(plan, links, plan->offices, false)) {
        draw_words(beside, REMARK, "with the loads of the cut's links and of the fullest link, where they have room");
        draw_chosen_labels(plan);
        return;
    }
    if (!in_full) {
        draw_words(beside, REMARK, "with the split load of each link, and below it the unsplit load");
    }
    for (unsigned k = 1; k <= plan->offices; k++) {
        draw_label(plan, k, in_full);
    }
}
