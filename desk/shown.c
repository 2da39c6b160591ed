#include "shown.h"

#include <stddef.h>

/* The two sets of controls, and the marks that turn the direction of writing or begin a line. */
static const struct range {
    uint32_t first, last;
} NOT_SHOWN[] = {
    {0x0000, 0x001f}, {0x007f, 0x009f}, {0x061c, 0x061c},
    {0x200e, 0x200f}, {0x2028, 0x202e}, {0x2066, 0x2069},
};

bool is_shown(uint32_t code)
{
    for (size_t k = 0; k < sizeof NOT_SHOWN / sizeof *NOT_SHOWN; k++) {
        if (NOT_SHOWN[k].first <= code && code <= NOT_SHOWN[k].last) {
            return false;
        }
    }
    return true;
}

/* A byte that begins a character, by the bits that tell how many bytes follow it, and the least
 * code that is spelled by that many. */
static const struct lead {
    uint8_t mask, bits;
    uint32_t least;
} LEADS[] = {{0x80, 0x00, 0}, {0xe0, 0xc0, 0x80}, {0xf0, 0xe0, 0x800}, {0xf8, 0xf0, 0x10000}};

enum { COUNT_OF_LEADS = sizeof LEADS / sizeof *LEADS };

/* The codes of Unicode. The surrogates among them are no characters. */
enum { LAST_CODE = 0x10ffff, FIRST_SURROGATE = 0xd800, LAST_SURROGATE = 0xdfff };

struct character character_at(const char *text)
{
    static const struct character NONE = {.code = REPLACEMENT, .bytes = 1};
    const uint8_t *at = (const uint8_t *)text;
    unsigned follow = 0;
    while (follow < COUNT_OF_LEADS && (at[0] & LEADS[follow].mask) != LEADS[follow].bits) {
        follow++;
    }
    if (follow == COUNT_OF_LEADS) {
        return NONE;
    }
    uint32_t code = at[0] & (uint8_t)~LEADS[follow].mask;
    for (unsigned k = 1; k <= follow; k++) {
        if ((at[k] & 0xc0) != 0x80) {
            return NONE;
        }
        code = code << 6 | (at[k] & 0x3f);
    }
    bool surrogate = code >= FIRST_SURROGATE && code <= LAST_SURROGATE;
    if (code < LEADS[follow].least || code > LAST_CODE || surrogate) {
        return NONE;
    }
    return (struct character){code, follow + 1, true, is_shown(code)};
}
