#include "ring_places.h"

/* Sines are counted in 2^-30ths, and so is the quarter of a turn as a length of arc, half of pi. */
#define ONE (INT64_C(1) << 30)
static const int64_t HALF_PI = 1686629713;

direction part_of_turn(unsigned part, unsigned of)
{
    return (direction)(((uint64_t)part << 32) / of);
}

direction direction_of_office(unsigned office, unsigned offices)
{
    return part_of_turn(office - 1, offices);
}

direction direction_of_link(unsigned link, unsigned offices)
{
    return part_of_turn(2 * link - 1, 2 * offices);
}

/* The sine of at most a quarter of a turn by its series, x (1 - x x / 2 3 (1 - x x / 4 5 (1 - ...))), up to the 13th power: what is left out is below 2^-30. */
static int64_t sine_of_first_quarter(direction towards)
{
    int64_t x = towards * HALF_PI >> 30;
    int64_t square = x * x >> 30;
    int64_t sum = ONE;
    for (int k = 12; k >= 2; k -= 2) {
        sum = ONE - (square * sum >> 30) / (k * (k + 1));
    }
    return x * sum >> 30;
}

static int64_t sine(direction towards)
{
    uint32_t in_half = towards % HALF_TURN;
    int64_t sine = sine_of_first_quarter(in_half <= QUARTER_TURN ? in_half : HALF_TURN - in_half);
    return towards < HALF_TURN ? sine : -sine;
}

static int64_t cosine(direction towards)
{
    return sine(towards + QUARTER_TURN);
}

/* Rounded to the nearest whole, halves away from 0. */
static int times(int length, int64_t part)
{
    int64_t product = length * part;
    return (int)((product + (product < 0 ? -ONE : ONE) / 2) / ONE);
}

struct point point_at(struct point centre, int radius, direction towards)
{
    return (struct point){centre.x + times(radius, sine(towards)), centre.y - times(radius, cosine(towards))};
}

static int64_t without_sign(int64_t number)
{
    return number < 0 ? -number : number;
}

struct box box_outside(struct point centre, int radius, direction towards, struct point size)
{
    int half_across = times(size.x / 2, without_sign(sine(towards))) + times(size.y / 2, without_sign(cosine(towards)));
    struct point middle = point_at(centre, radius + half_across, towards);
    return (struct box){middle.x - size.x / 2, middle.y - size.y / 2, middle.x + size.x / 2, middle.y + size.y / 2};
}

bool boxes_meet(struct box one, struct box other, int apart)
{
    return one.left < other.right + apart && other.left < one.right + apart && one.top < other.bottom + apart && other.top < one.bottom + apart;
}
