#include <stdio.h>

#include "ring_circle.h"

/* The paths of circuits run within the circle on tracks, of which the first is nearest to it; each has a letter in its middle. */
enum { FIRST_TRACK = RADIUS - 250, NEXT_TRACK = 130, BADGE = 62 };

/* A drawn circuit's way: clockwise from one office to the other, on which of the paths within the circle, and over which links, a bit for each. */
struct path {
    direction from, to;
    unsigned track, length;
    uint64_t links;
};

static struct path path_of(const struct plan *plan, const struct circuit *c)
{
    unsigned from = c->goes_back ? c->second : c->first;
    unsigned to = c->goes_back ? c->first : c->second;
    struct path path = {direction_of_office(from, plan->offices), direction_of_office(to, plan->offices), 0, 0, 0};
    for (unsigned link = from; link != to; link = link % plan->offices + 1) {
        path.links |= UINT64_C(1) << (link - 1);
        path.length++;
    }
    return path;
}

static struct point middle_of(const struct path *path)
{
    direction length = path->to - path->from;
    /* of so many links that an office lies in the middle, where another path may end, half a link further */
    direction aside = path->length % 2 == 0 ? length / (2 * path->length) : 0;
    return on_ring(FIRST_TRACK - (int)path->track * NEXT_TRACK, path->from + length / 2 + aside);
}

static struct box box_of_badge(const struct path *path)
{
    struct point middle = middle_of(path);
    return (struct box){middle.x - BADGE, middle.y - BADGE, middle.x + BADGE, middle.y + BADGE};
}

/* Whether two paths on the same track have no link in common, and room for their letters. */
static bool are_apart(const struct path *one, const struct path *other)
{
    return one->track != other->track || ((one->links & other->links) == 0 && !boxes_meet(box_of_badge(one), box_of_badge(other), APART));
}

/* Puts a path on the outermost track where it is apart from those that have theirs. There are as many tracks as paths, so there is one. */
static void place_path(struct path *path, const struct path *const *placed, unsigned count)
{
    for (unsigned k = 0; k < count;) {
        if (are_apart(path, placed[k])) {
            k++;
        } else {
            path->track++;
            k = 0;
        }
    }
}

/* The shorter a path is, the nearer to the circle: so its ends reach the offices across few others. */
static void place_paths(struct path *paths, unsigned count)
{
    const struct path *placed[LARGEST];
    unsigned done = 0;
    for (unsigned length = 1; length < RINGKIT_MAX_OFFICES; length++) {
        for (unsigned k = 0; k < count; k++) {
            if (paths[k].length == length) {
                place_path(&paths[k], placed, done);
                placed[done++] = &paths[k];
            }
        }
    }
}

/* The ends of a path are a little apart from the ray of their office, each towards its path, so that paths which part there are seen to. */
static void draw_path(const struct plan *plan, const struct path *path, bool split)
{
    int radius = FIRST_TRACK - (int)path->track * NEXT_TRACK;
    int edge = RADIUS - disc_of_office(plan) - 60;
    direction aside = part_of_turn(1, 8 * (plan->offices > 24 ? plan->offices : 24));
    direction from = path->from + aside;
    direction to = path->to - aside;
    begin_path(on_ring(edge, from));
    straight_to(on_ring(radius, from));
    arc_to(on_ring(radius, to), radius, true, to - from > HALF_TURN);
    straight_to(on_ring(edge, to));
    end_line(split ? (struct pen){SPLIT_COLOUR, 24, DASHES} : (struct pen){WHOLE_COLOUR, 24, NULL});
}

static void draw_badge(const struct path *path, bool split, char letter)
{
    struct point middle = middle_of(path);
    printf("<g data-badge=\"%c\">\n", letter);
    draw_disc(middle, BADGE, (struct paint){"#ffffff", split ? SPLIT_COLOUR : WHOLE_COLOUR, 12});
    middle.y += 32;
    draw_words(middle, (struct lettering){95, MIDDLE, true, NULL}, "%c", letter);
    fputs("</g>\n", stdout);
}

/* No path covers a letter. */
void draw_circuits(const struct picture *picture)
{
    const struct circuit *circuit = picture->plan.circuit;
    struct path paths[LARGEST];
    for (unsigned k = 0; k < picture->drawn; k++) {
        paths[k] = path_of(&picture->plan, &circuit[picture->largest[k]]);
    }
    place_paths(paths, picture->drawn);
    for (unsigned k = 0; k < picture->drawn; k++) {
        printf("<g data-path=\"%c\">\n", letter_of(k));
        draw_path(&picture->plan, &paths[k], is_split(&circuit[picture->largest[k]]));
        fputs("</g>\n", stdout);
    }
    for (unsigned k = 0; k < picture->drawn; k++) {
        draw_badge(&paths[k], is_split(&circuit[picture->largest[k]]), letter_of(k));
    }
}
