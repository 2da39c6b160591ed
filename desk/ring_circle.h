/* The circle that a ring is drawn as, and what stands on it and around it. */
#ifndef DESK_RING_CIRCLE_H
#define DESK_RING_CIRCLE_H

#include "panels.h"
#include "ring_places.h"

enum { CENTRE_ACROSS = 3400, CENTRE_DOWN = 4115, RADIUS = 1650 };

/* So far from the circle's centre. */
struct point on_ring(int radius, direction towards);

/* Whether the offices are discs with their numbers in them; where there are too many for that, the numbers stand outside. */
bool has_discs(const struct plan *plan);

/* The radius of the mark that an office has. */
int disc_of_office(const struct plan *plan);

/* Two letters of paths, or two labels of links, are at least so far apart. */
enum { APART = 20 };

/* Draws the largest circuits as paths within the circle, the way that each goes whole. */
void draw_circuits(const struct picture *picture);

/* Labels the links around the circle with their loads, as many as have room. */
void draw_labels(const struct plan *plan);

#endif
