/* Which characters of a text from elsewhere, such as the name of a file, are shown. Words, pictures
 * and objects all ask here; each writes what is not shown in its own way. */
#ifndef DESK_SHOWN_H
#define DESK_SHOWN_H

#include <stdbool.h>
#include <stdint.h>

/* REPLACEMENT is what a byte stands for that is no UTF-8. */
enum { LAST_OF_ASCII = 0x7f, REPLACEMENT = 0xfffd };

struct character {
    uint32_t code;  /* REPLACEMENT where it is no UTF-8 */
    unsigned bytes; /* how many spell it, 1 where it is no UTF-8 */
    bool is_utf8, shown;
};

/* Whether a character is shown: it neither steers a terminal nor turns the direction of writing. */
bool is_shown(uint32_t code);

/* The character that begins here. A byte that is no UTF-8 is one by itself, which is not shown. The
 * text ends with a NUL, and no byte after that is read. */
struct character character_at(const char *text);

#endif
