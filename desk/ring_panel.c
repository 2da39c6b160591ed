#include <stdio.h>

#include "ring_circle.h"

/* The least and the greatest width of a link. */
enum { THIN = 40, WIDE = 160 };

/* ---- the circle */

/* Up to so many offices there is room for large discs, and for small ones. */
enum { MOST_LARGE_DISCS = 20, MOST_DISCS = 32 };

bool has_discs(const struct plan *plan)
{
    return plan->offices <= MOST_DISCS;
}

int disc_of_office(const struct plan *plan)
{
    return plan->offices <= MOST_LARGE_DISCS ? 125 : has_discs(plan) ? 95 : 32;
}

struct point on_ring(int radius, direction towards)
{
    return point_at((struct point){CENTRE_ACROSS, CENTRE_DOWN}, radius, towards);
}

/* ---- the cut */

/* The part that the cut parts off, offices g+1 to h, as a slice of the circle. */
static void draw_part(const struct plan *plan)
{
    const int radius = RADIUS + 190;
    const struct pen edge = {INK, 12, "2 4"};
    direction from = direction_of_link(plan->g, plan->offices);
    direction to = direction_of_link(plan->h, plan->offices);
    begin_path(on_ring(0, from));
    straight_to(on_ring(radius, from));
    arc_to(on_ring(radius, to), radius, true, to - from > HALF_TURN);
    end_area((struct paint){PART_COLOUR, NULL, 0});
    begin_path(on_ring(radius, from));
    straight_to(on_ring(0, from));
    straight_to(on_ring(radius, to));
    end_line(edge);
}

static void mark_cut(unsigned link, unsigned offices)
{
    direction at = direction_of_link(link, offices);
    draw_line(on_ring(RADIUS - 160, at), on_ring(RADIUS + 190, at), (struct pen){"#ffffff", 60, NULL});
    draw_line(on_ring(RADIUS - 160, at), on_ring(RADIUS + 190, at), (struct pen){INK, 32, NULL});
}

/* ---- links and offices */

/* From its first office to its second. */
static void draw_along(const struct plan *plan, unsigned link, struct pen pen)
{
    begin_path(on_ring(RADIUS, direction_of_office(link, plan->offices)));
    arc_to(on_ring(RADIUS, direction_of_office(link + 1, plan->offices)), RADIUS, true, false);
    end_line(pen);
}

static void draw_link(const struct picture *picture, unsigned link)
{
    const struct load *load = &picture->plan.load[link - 1];
    struct units split = in_units(load->split);
    int width = THIN + part_of_length(picture, 2 * load->unsplit, WIDE - THIN);
    printf("<g data-ring-link=\"%u\"><title>Link %u, offices %u and %u: split load %u.%u, unsplit load %u</title>\n", link, link, link, link % picture->plan.offices + 1, split.whole, split.tenths,
           load->unsplit);
    draw_along(&picture->plan, link, (struct pen){OUTLINE, width + 24, NULL});
    draw_along(&picture->plan, link, (struct pen){colour_of_load(picture, 2 * load->unsplit), width, NULL});
    fputs("</g>\n", stdout);
}

static void draw_office(const struct plan *plan, unsigned office)
{
    direction at = direction_of_office(office, plan->offices);
    int size = plan->offices <= MOST_LARGE_DISCS ? 125 : 98;
    struct point label = on_ring(has_discs(plan) ? RADIUS : RADIUS + 200, at);
    label.y += size * 35 / 100;
    printf("<g data-office=\"%u\">\n", office);
    draw_disc(on_ring(RADIUS, at), disc_of_office(plan), (struct paint){"#ffffff", INK, 14});
    draw_words(label, (struct lettering){size, MIDDLE, true, NULL}, "%u", office);
    fputs("</g>\n", stdout);
}

/* ---- the panel */

static void draw_cut_in_words(const struct plan *plan)
{
    const struct point below = {MARGIN, COLUMN_TOP + 170};
    if (plan->g + 1 < plan->h) {
        draw_words(below, REMARK, "Cut: links %u and %u, across %u. They part offices %u to %u from the rest of the ring.", plan->g, plan->h, plan->across, plan->g + 1, plan->h);
    } else {
        draw_words(below, REMARK, "Cut: links %u and %u, across %u. They part office %u from the rest of the ring.", plan->g, plan->h, plan->across, plan->h);
    }
}

void draw_ring(const struct picture *picture)
{
    const struct plan *plan = &picture->plan;
    draw_words((struct point){MARGIN, COLUMN_TOP}, HEADING, "The ring");
    draw_cut_in_words(plan);
    draw_part(plan);
    for (unsigned k = 1; k <= plan->offices; k++) {
        draw_link(picture, k);
    }
    mark_cut(plan->g, plan->offices);
    mark_cut(plan->h, plan->offices);
    draw_circuits(picture);
    for (unsigned k = 1; k <= plan->offices; k++) {
        draw_office(plan, k);
    }
    draw_labels(plan);
}
