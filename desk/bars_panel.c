#include <stdio.h>

#include "panels.h"

/* The columns of figures, and behind them the bars from nothing to what the line carries. */
enum { LINK_RIGHT = BARS_LEFT + 270, OFFICES_MIDDLE = BARS_LEFT + 580, SPLIT_RIGHT = BARS_LEFT + 1600, UNSPLIT_RIGHT = BARS_LEFT + 2280, NOTHING = BARS_LEFT + 2400, FULL = BARS_RIGHT };

/* The rows; of few links no row is higher than that. */
enum { TOP = 2010, BOTTOM = 7980, HIGHEST = 600, LARGEST_LETTERS = 115 };

static int top_of_row(const struct plan *plan, unsigned link)
{
    int height = BOTTOM - TOP;
    int most = (int)plan->offices * HIGHEST;
    return TOP + (height < most ? height : most) * (int)(link - 1) / (int)plan->offices;
}

static int size_of_letters(const struct plan *plan)
{
    int most = (BOTTOM - TOP) / (int)plan->offices * 9 / 10;
    return most < LARGEST_LETTERS ? most : LARGEST_LETTERS;
}

static int place_of(const struct picture *picture, unsigned halves)
{
    return NOTHING + part_of_length(picture, halves, FULL - NOTHING);
}

static void draw_figures(const struct plan *plan, unsigned link, int top, int height)
{
    struct units split = in_units(plan->load[link - 1].split);
    int base = top + height / 2 + size_of_letters(plan) * 35 / 100;
    struct lettering lettering = {0, END, is_cut(plan, link), NULL};
    draw_words((struct point){LINK_RIGHT, base}, lettering, "%u", link);
    lettering.anchor = MIDDLE;
    draw_words((struct point){OFFICES_MIDDLE, base}, lettering, "%u - %u", link, link % plan->offices + 1);
    lettering.anchor = END;
    draw_words((struct point){SPLIT_RIGHT, base}, lettering, "%u.%u", split.whole, split.tenths);
    draw_words((struct point){UNSPLIT_RIGHT, base}, lettering, "%u", plan->load[link - 1].unsplit);
}

/* The split load above the unsplit one, with some room to the next row. */
static void draw_bar(const struct picture *picture, unsigned link, int top, int height)
{
    const struct load *load = &picture->plan.load[link - 1];
    int each = height * 42 / 100;
    int above = top + height * 8 / 100;
    draw_rectangle((struct point){NOTHING, above}, (struct point){place_of(picture, load->split) - NOTHING, each}, (struct paint){"#ffffff", OUTLINE, 6});
    draw_rectangle((struct point){NOTHING, above + each}, (struct point){place_of(picture, 2 * load->unsplit) - NOTHING, each}, (struct paint){colour_of_load(picture, 2 * load->unsplit), OUTLINE, 6});
}

static void draw_row(const struct picture *picture, unsigned link)
{
    const struct plan *plan = &picture->plan;
    const struct load *load = &plan->load[link - 1];
    struct units split = in_units(load->split);
    int top = top_of_row(plan, link);
    int height = top_of_row(plan, link + 1) - top;
    printf("<g data-link=\"%u\" data-split=\"%u.%u\" data-unsplit=\"%u\">\n", link, split.whole, split.tenths, load->unsplit);
    if (is_cut(plan, link)) {
        draw_line((struct point){BARS_LEFT - 30, top + height / 8}, (struct point){BARS_LEFT - 30, top + height - height / 8}, (struct pen){INK, 32, NULL});
    }
    draw_figures(plan, link, top, height);
    draw_bar(picture, link, top, height);
    fputs("</g>\n", stdout);
}

/* By quarters of what the line carries. */
static void draw_scale(const struct picture *picture, int bottom)
{
    for (unsigned quarter = 0; quarter <= 4; quarter++) {
        int at = NOTHING + (FULL - NOTHING) * (int)quarter / 4;
        draw_line((struct point){at, TOP - 30}, (struct point){at, bottom}, (struct pen){"#cccccc", 8, NULL});
        if (quarter > 0) {
            draw_words((struct point){at, TOP - 60}, (struct lettering){100, quarter < 4 ? MIDDLE : END, false, FAINT_INK}, "%u %%", 25 * quarter);
        }
    }
    if (picture->plan.size > 0) {
        draw_line((struct point){FULL, TOP - 30}, (struct point){FULL, bottom}, (struct pen){INK, 30, NULL});
    }
}

/* The floor's name stands below, where it leaves the paper on neither side. */
static void draw_floor(const struct picture *picture, int bottom)
{
    unsigned least = floor_of(&picture->plan);
    int at = place_of(picture, 2 * least);
    bool at_end = at > (NOTHING + FULL) / 2;
    draw_line((struct point){at, TOP - 30}, (struct point){at, bottom + 50}, (struct pen){FLOOR_COLOUR, 20, FLOOR_DASHES});
    draw_words((struct point){at_end ? at + 20 : at - 20, bottom + 180}, (struct lettering){110, at_end ? END : START, true, FLOOR_COLOUR}, "floor %u", least);
}

static void draw_line_in_words(const struct picture *picture)
{
    const struct plan *plan = &picture->plan;
    struct units carried = in_units(picture->carried);
    struct point at = {BARS_LEFT, COLUMN_TOP};
    draw_words(at, HEADING, "The load of each link, in %s", unit_of(picture->plan.family));
    at.y += 170;
    if (plan->size == 0) {
        draw_words(at, REMARK, "No line is large enough. The bars end at the unsplit peak, %u.", plan->peak);
    } else if (plan->fibres == RINGKIT_TWO_FIBRES) {
        draw_words(at, REMARK, "A line of %u carries %u.%u, where the bars end: half of it protects.", plan->size, carried.whole, carried.tenths);
    } else {
        draw_words(at, REMARK, "A line of %u carries %u, where the bars end.", plan->size, carried.whole);
    }
}

static void draw_columns(void)
{
    struct lettering lettering = {100, END, false, FAINT_INK};
    draw_words((struct point){LINK_RIGHT, TOP - 60}, lettering, "link");
    draw_words((struct point){SPLIT_RIGHT, TOP - 60}, lettering, "split");
    draw_words((struct point){UNSPLIT_RIGHT, TOP - 60}, lettering, "unsplit");
    lettering.anchor = MIDDLE;
    draw_words((struct point){OFFICES_MIDDLE, TOP - 60}, lettering, "offices");
}

void draw_bars(const struct picture *picture)
{
    int bottom = top_of_row(&picture->plan, picture->plan.offices + 1);
    draw_line_in_words(picture);
    draw_columns();
    draw_scale(picture, bottom);
    begin_words(size_of_letters(&picture->plan));
    for (unsigned k = 1; k <= picture->plan.offices; k++) {
        draw_row(picture, k);
    }
    end_words();
    draw_floor(picture, bottom);
}
