/* Elements of an SVG picture, written to standard output. Places and lengths are whole tenths of a
 * unit, so that the same figures make the same bytes on every machine. */
#ifndef DESK_DRAWING_H
#define DESK_DRAWING_H

#include <stdbool.h>

struct point {
    int x, y;
};

/* What an area is filled with, and its outline; NULL for neither. */
struct paint {
    const char *fill, *outline;
    int width;
};

/* What a line is drawn with; dashes is NULL for a line that has none. */
struct pen {
    const char *colour;
    int width;
    const char *dashes;
};

enum anchor { START, MIDDLE, END };

/* The size is 0 for that of the group, and the colour NULL for the ink of the whole drawing. */
struct lettering {
    int size;
    enum anchor anchor;
    bool bold;
    const char *colour;
};

/* Begins the file of a drawing of that size, which is printed on a sheet of A4 that lies. A title and a description, with ids of these names, are to follow. */
void begin_drawing(struct point size, const char *ink);
void end_drawing(void);

void draw_rectangle(struct point corner, struct point size, struct paint paint);
void draw_disc(struct point centre, int radius, struct paint paint);
void draw_line(struct point from, struct point to, struct pen pen);

/* Writes words at the place where their base line starts, has its middle or ends, as printf has
 * them. A character of theirs that is not shown, or that XML cannot have, is U+FFFD. */
void draw_words(struct point at, struct lettering lettering, const char *format, ...);

/* A group of words that have that size where they have none of their own. */
void begin_words(int size);
void end_words(void);

/* A path is begun at a point, goes on by straight lines and by arcs of a circle, clockwise or against the clock, and is ended by what it is drawn with. */
void begin_path(struct point at);
void straight_to(struct point to);
void arc_to(struct point to, int radius, bool clockwise, bool over_half);
void end_line(struct pen pen);
void end_area(struct paint paint);

/* More than words of that size need in any usual font: so much is left free for them. */
int room_for(unsigned letters, int size, bool bold);

#endif
