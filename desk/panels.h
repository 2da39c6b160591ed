/* The parts of a picture: each draws one of them where it stands on the sheet of paper. */
#ifndef DESK_PANELS_H
#define DESK_PANELS_H

#include "drawing.h"
#include "plan.h"

/* So many circuits are drawn as paths and listed, at most. */
enum { LARGEST = 10 };

struct picture {
    struct plan plan; /* where circuits were turned, its ways, unsplit loads, peak and size are those of turning */
    bool turned;
    unsigned carried; /* what fills a bar, in halves: what the line carries, and where none is large enough, the unsplit peak */
    unsigned drawn;   /* how many circuits are drawn, and their places from 0, the largest first */
    unsigned largest[LARGEST];
};

/* The paper, in tenths. It is as long and as wide as a sheet of A4 that lies, without its margins. */
enum { PAPER_WIDTH = 12000, PAPER_HEIGHT = 8400, MARGIN = 300 };

/* The columns: the ring with what is known of its circuits, and the bars. */
enum { BARS_LEFT = 6900, BARS_RIGHT = PAPER_WIDTH - MARGIN, LEGEND_LEFT = 4150, COLUMN_TOP = 1570, NOTES_TOP = 6600 };

#define INK "#1a1a1a"
#define FAINT_INK "#555555"
#define PART_COLOUR "#dbe4f0"
#define OUTLINE "#333333"
#define WHOLE_COLOUR "#1f5fa8"
#define SPLIT_COLOUR "#a3227a"
#define FLOOR_COLOUR "#1f5fa8"
#define DASHES "7 4"
#define FLOOR_DASHES "5 3"

/* How the heading of a part and what is said below it are lettered. */
#define HEADING ((struct lettering){130, START, true, NULL})
#define REMARK ((struct lettering){110, START, false, FAINT_INK})

enum { STEPS = 5 };

/* The colour of a load in halves by how full the line is with it: darker where it is fuller, also where it is printed without colour. */
const char *colour_of_load(const struct picture *picture, unsigned halves);

/* The colour of a step, 1 to STEPS. */
const char *colour_of_step(unsigned step);

/* That part of a length which a load in halves is of what the line carries. */
int part_of_length(const struct picture *picture, unsigned halves, int length);

/* Whether the link is one of the cut's two. */
bool is_cut(const struct plan *plan, unsigned link);

/* The letter that a drawn circuit has on its path and in the list. */
char letter_of(unsigned drawn);

void draw_heading(const struct picture *picture);
void draw_ring(const struct picture *picture);
void draw_bars(const struct picture *picture);
void draw_list(const struct picture *picture);
void draw_legend(const struct picture *picture);

#endif
