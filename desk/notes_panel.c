#include <stdio.h>

#include "panels.h"

/* The notes are in small letters, a row to a line. */
enum { ROW = 135, LETTERS = 100 };

/* ---- the circuits that are drawn */

enum { BADGE_MIDDLE = MARGIN + 70, CIRCUIT_RIGHT = MARGIN + 560, PAIR_MIDDLE = MARGIN + 960, AMOUNT_RIGHT = MARGIN + 1680, WAY_LEFT = MARGIN + 1850, FRONT_RIGHT = MARGIN + 2870, BACK_RIGHT = MARGIN + 3560 };

static void draw_circuit(const struct picture *picture, unsigned drawn, int base)
{
    unsigned place = picture->largest[drawn];
    const struct circuit *c = &picture->plan.circuit[place];
    struct units front = in_units(c->front);
    struct units back = in_units(c->back);
    struct lettering lettering = {0, END, false, NULL};
    printf("<g data-circuit=\"%u\">\n", place + 1);
    draw_words((struct point){BADGE_MIDDLE, base}, (struct lettering){0, MIDDLE, true, is_split(c) ? SPLIT_COLOUR : WHOLE_COLOUR}, "%c", letter_of(drawn));
    draw_words((struct point){CIRCUIT_RIGHT, base}, lettering, "%u", place + 1);
    draw_words((struct point){AMOUNT_RIGHT, base}, lettering, "%u", c->amount);
    draw_words((struct point){FRONT_RIGHT, base}, lettering, "%u.%u", front.whole, front.tenths);
    draw_words((struct point){BACK_RIGHT, base}, lettering, "%u.%u", back.whole, back.tenths);
    lettering.anchor = MIDDLE;
    draw_words((struct point){PAIR_MIDDLE, base}, lettering, "%u - %u", c->first, c->second);
    lettering.anchor = START;
    draw_words((struct point){WAY_LEFT, base}, lettering, c->goes_back ? "back" : "front");
    fputs("</g>\n", stdout);
}

static void draw_heads(int base)
{
    struct lettering lettering = {0, END, false, FAINT_INK};
    draw_words((struct point){CIRCUIT_RIGHT, base}, lettering, "circuit");
    draw_words((struct point){AMOUNT_RIGHT, base}, lettering, "amount");
    draw_words((struct point){FRONT_RIGHT, base}, lettering, "split: front");
    draw_words((struct point){BACK_RIGHT, base}, lettering, "back");
    lettering.anchor = MIDDLE;
    draw_words((struct point){PAIR_MIDDLE, base}, lettering, "offices");
    lettering.anchor = START;
    draw_words((struct point){WAY_LEFT, base}, lettering, "it goes");
}

void draw_list(const struct picture *picture)
{
    struct point at = {MARGIN, NOTES_TOP};
    unsigned circuits = picture->plan.circuits;
    if (picture->drawn == 0) {
        draw_words(at, HEADING, circuits == 0 ? "No circuit" : "No circuit has an amount");
        return;
    }
    if (picture->drawn < circuits) {
        draw_words(at, HEADING, "The %u largest of %u circuits", picture->drawn, circuits);
    } else {
        draw_words(at, HEADING, circuits == 1 ? "The circuit" : "All circuits, by amount");
    }
    begin_words(LETTERS);
    draw_heads(at.y + ROW);
    for (unsigned k = 0; k < picture->drawn; k++) {
        draw_circuit(picture, k, at.y + ((int)k + 2) * ROW);
    }
    end_words();
}

/* ---- the legend */

enum { SAMPLE = 560, TEXT_LEFT = LEGEND_LEFT + SAMPLE + 80 };

static const struct lettering MEANING = {0, START, false, NULL};

static struct point base_at(int middle)
{
    return (struct point){TEXT_LEFT, middle + 35};
}

static void explain_links(const struct picture *picture, int middle)
{
    const int width = SAMPLE / STEPS;
    for (unsigned step = 1; step <= STEPS; step++) {
        draw_rectangle((struct point){LEGEND_LEFT + ((int)step - 1) * width, middle - 45}, (struct point){width, 90}, (struct paint){colour_of_step(step), OUTLINE, 8});
    }
    draw_words(base_at(middle), MEANING, picture->plan.size > 0 ? "unsplit load, by 20 %% of the line" : "unsplit load, by 20 %% of the peak");
}

static void explain_cut(int middle)
{
    draw_line((struct point){LEGEND_LEFT + SAMPLE / 2, middle - 55}, (struct point){LEGEND_LEFT + SAMPLE / 2, middle + 55}, (struct pen){INK, 32, NULL});
    draw_words(base_at(middle), MEANING, "link of the cut");
}

static void explain_part(int middle)
{
    draw_rectangle((struct point){LEGEND_LEFT, middle - 50}, (struct point){SAMPLE, 100}, (struct paint){PART_COLOUR, NULL, 0});
    draw_words(base_at(middle), MEANING, "what the cut parts off");
}

static void explain_line(int middle, struct pen pen, const char *meaning)
{
    draw_line((struct point){LEGEND_LEFT, middle}, (struct point){LEGEND_LEFT + SAMPLE, middle}, pen);
    draw_words(base_at(middle), MEANING, "%s", meaning);
}

static void explain_bar(int middle, struct paint paint, const char *meaning)
{
    draw_rectangle((struct point){LEGEND_LEFT, middle - 40}, (struct point){SAMPLE, 80}, paint);
    draw_words(base_at(middle), MEANING, "%s", meaning);
}

void draw_legend(const struct picture *picture)
{
    int middle = NOTES_TOP + ROW - 35;
    draw_words((struct point){LEGEND_LEFT, NOTES_TOP}, HEADING, "What is drawn");
    begin_words(LETTERS);
    explain_links(picture, middle);
    explain_cut(middle += ROW);
    explain_part(middle += ROW);
    explain_line(middle += ROW, (struct pen){WHOLE_COLOUR, 24, NULL}, "circuit, the way it goes whole");
    explain_line(middle += ROW, (struct pen){SPLIT_COLOUR, 24, DASHES}, "the same of one that is split");
    explain_bar(middle += ROW, (struct paint){"#ffffff", OUTLINE, 8}, "split load: circuits divided");
    explain_bar(middle += ROW, (struct paint){colour_of_step(2), OUTLINE, 8}, "unsplit load: circuits whole");
    explain_line(middle += ROW, (struct pen){FLOOR_COLOUR, 20, FLOOR_DASHES}, "floor: no unsplit peak is lower");
    if (picture->plan.size > 0) {
        explain_line(middle += ROW, (struct pen){INK, 30, NULL}, "what the line carries");
    }
    end_words();
}
