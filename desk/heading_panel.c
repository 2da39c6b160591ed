#include <stdio.h>

#include "panels.h"

/* The figures of the heading stand side by side, each below its name, and below it what is to be said of it. */
enum { TITLE = 430, RULE_ABOVE = 570, NAMES = 770, FIGURES = NAMES + 250, REMARKS = NAMES + 400, RULE_BELOW = 1300, FIGURE_WIDTH = 1600 };

static struct point at(unsigned place, int base)
{
    return (struct point){MARGIN + (int)place * FIGURE_WIDTH, base};
}

static const struct lettering NAME = {110, START, false, FAINT_INK};
static const struct lettering FIGURE = {240, START, true, NULL};
static const struct lettering SAID = {100, START, false, FAINT_INK};

static void draw_offices(const struct picture *picture, unsigned place)
{
    draw_words(at(place, FIGURES), FIGURE, "%u", picture->plan.offices);
}

static void draw_fibres(const struct picture *picture, unsigned place)
{
    draw_words(at(place, FIGURES), FIGURE, "%u", picture->plan.fibres);
    if (picture->plan.fibres == RINGKIT_TWO_FIBRES) {
        draw_words(at(place, REMARKS), SAID, "half of each line protects");
    }
}

static void draw_circuits(const struct picture *picture, unsigned place)
{
    const struct plan *plan = &picture->plan;
    unsigned split = 0;
    for (unsigned k = 0; k < plan->circuits; k++) {
        split += is_split(&plan->circuit[k]);
    }
    draw_words(at(place, FIGURES), FIGURE, "%u", plan->circuits);
    if (plan->circuits > 0) {
        draw_words(at(place, REMARKS), SAID, "the split plan divides %u", split);
    }
}

static void draw_split_peak(const struct picture *picture, unsigned place)
{
    struct units split = in_units(picture->plan.across);
    draw_words(at(place, FIGURES), FIGURE, "%u.%u", split.whole, split.tenths);
    draw_words(at(place, REMARKS), SAID, picture->plan.method.rooms == LOWERED_ROOMS ? "lowest, by lowered rooms" : "the lowest there is");
}

static void draw_unsplit_peak(const struct picture *picture, unsigned place)
{
    draw_words(at(place, FIGURES), FIGURE, "%u", picture->plan.peak);
    draw_words(at(place, REMARKS), SAID, picture->turned ? "sent one turn at a time" : picture->plan.method.choice == BEST_CHOICE ? "by the best choice" : "each circuit whole");
}

static void draw_floor(const struct picture *picture, unsigned place)
{
    unsigned least = floor_of(&picture->plan);
    draw_words(at(place, FIGURES), FIGURE, "%u", least);
    if (picture->plan.peak == least) {
        draw_words(at(place, REMARKS), SAID, "reached: no peak is lower");
    } else {
        draw_words(at(place, REMARKS), SAID, "the peak is %u above it", picture->plan.peak - least);
    }
}

static void draw_line_size(const struct picture *picture, unsigned place)
{
    const struct plan *plan = &picture->plan;
    if (plan->size > 0) {
        draw_words(at(place, FIGURES), FIGURE, "%u", plan->size);
        draw_words(at(place, REMARKS), SAID, "%d %% full at the peak", part_of_length(picture, 2 * plan->peak, 100));
    } else {
        draw_words(at(place, FIGURES), FIGURE, "none");
        draw_words(at(place, REMARKS), SAID, "no line is large enough");
    }
}

static const struct figure {
    const char *name;
    void (*draws)(const struct picture *, unsigned place);
} ROW_OF_FIGURES[] = {
    {"Offices", draw_offices},
    {"Fibres", draw_fibres},
    {"Circuits", draw_circuits},
    {"Split peak", draw_split_peak},
    {"Unsplit peak", draw_unsplit_peak},
    {"Floor", draw_floor},
    {"Line size", draw_line_size},
};

static void draw_rule(int height)
{
    draw_line((struct point){MARGIN, height}, (struct point){PAPER_WIDTH - MARGIN, height}, (struct pen){INK, 10, NULL});
}

void draw_heading(const struct picture *picture)
{
    const struct plan *plan = &picture->plan;
    draw_words((struct point){MARGIN, TITLE}, FIGURE, "%s of %u offices and %u fibres, %u circuit%s", ring_of_family(plan->family), plan->offices, plan->fibres, plan->circuits, plan->circuits == 1 ? "" : "s");
    draw_rule(RULE_ABOVE);
    for (unsigned k = 0; k < sizeof ROW_OF_FIGURES / sizeof *ROW_OF_FIGURES; k++) {
        printf("<g data-figure=\"%s\">\n", ROW_OF_FIGURES[k].name);
        draw_words(at(k, NAMES), NAME, "%s", ROW_OF_FIGURES[k].name);
        ROW_OF_FIGURES[k].draws(picture, k);
        fputs("</g>\n", stdout);
    }
    draw_rule(RULE_BELOW);
}
