/* The picture of a plan: one SVG file on standard output, to be printed and put before others. */
#ifndef DESK_PICTURE_H
#define DESK_PICTURE_H

#include "plan.h"
#include "status.h"
#include "text.h"

/* Draws the plan of a table, or a sheet by its own figures where it is accepted. A text whose second line is a sheet's is a sheet, and any other a table. */
enum status draw_plan(const struct text *text);

/* The same, with whole circuits sent one turn at a time; of a sheet those of its table. */
enum status draw_turned(const struct text *text);

/* Draws the plan by that method; of a sheet its table is planned. */
enum status draw_plan_by(const struct text *text, struct method method);

#endif
