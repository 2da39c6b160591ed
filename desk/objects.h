/* What becomes of a file as an object of JSON on a line of its own, for scripts. docs/desk.schema.json says which keys it has. */
#ifndef DESK_OBJECTS_H
#define DESK_OBJECTS_H

#include "plan.h"
#include "status.h"

/* Each reads a file, standard input where it is "-", and writes one line. A refusal, and why a file cannot be read, stand in the object, and nothing is said on standard error. */

/* The plan of the table by that method. */
enum status plan_object(const char *file, struct method method);

/* The same, and what each rule that sends circuits whole comes to. */
enum status plan_object_with_least(const char *file, struct method method);

/* The table's circuits sent one turn at a time, beside the plan's own peak. */
enum status turn_object(const char *file);

/* Whether the table's circuits all cross each other. */
enum status crossing_object(const char *file);

/* What each rule that sends circuits whole comes to, and where the circuits go by the first that comes to the least peak. */
enum status least_object(const char *file);

/* Whether the sheet is accepted. */
enum status check_object(const char *file);

/* The report over a text of many plans. */
enum status report_object(const char *file);

#endif
