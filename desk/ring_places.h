/* Where things stand on a ring that is drawn as a circle: office 1 at the top, and the others clockwise from it, each link between its two offices. */
#ifndef DESK_RING_PLACES_H
#define DESK_RING_PLACES_H

#include <stdint.h>

#include "drawing.h"

/* Where something stands as it is seen from the centre: 2^-32ths of a turn, clockwise from the top, so that whole turns fall away by themselves. */
typedef uint32_t direction;

#define QUARTER_TURN (UINT32_C(1) << 30)
#define HALF_TURN (UINT32_C(1) << 31)

/* That part of a turn. */
direction part_of_turn(unsigned part, unsigned of);

direction direction_of_office(unsigned office, unsigned offices);

/* Of the middle of a link. */
direction direction_of_link(unsigned link, unsigned offices);

/* The point so far from the centre in that direction. It is worked out in whole numbers, so that no library's sine and no compiler's rounding has a say in it. */
struct point point_at(struct point centre, int radius, direction towards);

/* An area with upright sides. */
struct box {
    int left, top, right, bottom;
};

/* The box of that size that touches the circle of that radius from outside, its middle in that direction. */
struct box box_outside(struct point centre, int radius, direction towards, struct point size);

/* Whether two boxes share a point, or are as near to each other as that. */
bool boxes_meet(struct box one, struct box other, int apart);

#endif
