/* A sheet held as values: what the lines of a sheet's text say, taken down number by number and not judged. It names no function of C, so that a program may
 * take a text down before the first call that binds one. */
#ifndef HELD_H
#define HELD_H

#include "ringkit.h"

enum { ROW_FIELDS = 6 };

static struct held {
    uint32_t n, fibres, family, g, h, across, peak, size;
    size_t row_count, link_count;
    ringkit_row rows[RINGKIT_MAX_ROWS];
    ringkit_link links[RINGKIT_MAX_OFFICES];
} held;

/* Takes down a line by its letter and the fields behind it, numbers but for a row's way and a ring's M. Rows and links for which there is no room are left out. */
static void hold_line(uint8_t letter, const uint32_t *said, size_t fields)
{
    if (letter == 'R') {
        held.n = said[0];
        held.fibres = said[1];
        held.family = fields > 2 ? RINGKIT_SDH : RINGKIT_SONET;
    } else if (letter == 'D' && held.row_count < RINGKIT_MAX_ROWS) {
        held.rows[held.row_count++] = (ringkit_row){said[0], said[1], said[2], said[3], said[4], said[5]};
    } else if (letter == 'C') {
        held.g = said[0];
        held.h = said[1];
        held.across = said[2];
    } else if (letter == 'L' && held.link_count < RINGKIT_MAX_OFFICES) {
        held.links[held.link_count++] = (ringkit_link){said[0], said[1], said[2]};
    } else if (letter == 'Z') {
        held.peak = said[0];
        held.size = said[1];
    }
}

/* Takes down all lines that end with LF. */
static void hold(const uint8_t *text, size_t length)
{
    uint32_t said[ROW_FIELDS] = {0};
    size_t field = 0;
    uint8_t letter = 0;
    held.row_count = 0;
    held.link_count = 0;
    for (size_t k = 0; k < length; k++) {
        uint8_t byte = text[k];
        if (byte == '\n') {
            hold_line(letter, said, field);
            field = 0;
        } else if (byte == '\t' && field < ROW_FIELDS) {
            said[field++] = 0;
        } else if (field == 0) {
            letter = byte;
        } else if (byte >= '0' && byte <= '9') {
            said[field - 1] = said[field - 1] * 10 + (byte - '0');
        } else {
            said[field - 1] = byte == 'F' ? RINGKIT_F : RINGKIT_B;
        }
    }
}

/* A program that judges them otherwise does without this. */
static inline ringkit_judge_reply judge_held(void)
{
    return ringkit_judge(held.rows, held.row_count, held.n, held.fibres, held.family, held.g, held.h, held.across, held.links, held.link_count, held.peak, held.size);
}

#endif
