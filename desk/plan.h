/* A plan, as the sheet of a routed table holds it, and as it is told to a planner. */
#ifndef DESK_PLAN_H
#define DESK_PLAN_H

#include "family.h"
#include "refusal.h"
#include "status.h"
#include "text.h"

/* Front, back and split loads are in halves. */
struct circuit {
    unsigned first, second, amount, front, back;
    bool goes_back;
};

struct load {
    unsigned split, unsplit;
};

/* With what rooms the links begin when circuits are divided: with level ones, or with lowered ones, after which no link can be less full without another being fuller. */
enum rooms { FULL_ROOMS, LOWERED_ROOMS };

/* How the circuits that are left divided go whole: by the last of the four rules, or by the best choice, which no other way of sending them beats. */
enum choice { RULE_D, BEST_CHOICE };

struct method {
    enum rooms rooms;
    enum choice choice;
};

/* Level rooms and rule D. */
extern const struct method FOUR_RULES;

struct plan {
    struct method method; /* of a sheet that was not planned here the four rules */
    unsigned offices, fibres;
    enum family family;
    unsigned circuits;
    struct circuit circuit[RINGKIT_MAX_ROWS];
    unsigned g, h, across;
    struct load load[RINGKIT_MAX_OFFICES];
    unsigned peak, size;
    bool all_cross; /* of a routed table: whether all circuits that have an amount cross each other and are few enough; then */
    unsigned bound; /* twice the peak of the best choice, and so the least one's, is at most this */
};

/* A call that writes a text of a text. */
typedef ringkit_reply writing(const uint8_t *, size_t, uint8_t *, size_t);

/* The call that routes so. */
writing *routing_by(struct method method);

/* Routes the table and takes its sheet apart. The refusal is what the library answers where it refuses the table; TROUBLE is a sheet that this desk cannot read. */
enum status find_plan(struct plan *plan, struct refusal *refusal, const struct text *table, struct method method);

/* What is said of such trouble. */
extern const char STRANGE_SHEET[];

/* Says on standard error why no plan of the table was found, where none was. */
void tell_unless_fine(const struct text *table, enum status status, struct refusal refusal);

/* Finds the plan, and says on standard error why it cannot. */
enum status make_plan(struct plan *plan, const struct text *table, struct method method);

/* Takes a sheet apart that the library wrote or accepted. Says on standard error why it cannot. */
enum status take_apart(struct plan *plan, const uint8_t *sheet, size_t length);

/* Tells a plan: which way each circuit goes, the cut and what it means, the links' loads, the line size to buy, and how low a peak could be. */
void tell_plan(FILE *out, const struct plan *plan);

/* Routes the table and tells its plan. */
enum status plan_table(const struct text *table, struct method method);

/* Whether the split plan divides the circuit. */
bool is_split(const struct circuit *circuit);

/* The line size to buy for the plan's ring at a peak; 0 where none is large enough. */
unsigned line_size(const struct plan *plan, unsigned peak);

/* Halves as units: 13 is 6.5. */
struct units {
    unsigned whole, tenths;
};

struct units in_units(unsigned halves);

/* Half the across number, rounded up: of whole circuits one of the two links carries at least so much. */
unsigned floor_of(const struct plan *plan);

/* Tells of what ring the figures are. */
void tell_ring(FILE *out, const struct plan *plan);

/* Ends a line by the way that a circuit goes. */
void tell_way(FILE *out, const struct circuit *circuit, bool goes_back);

/* Ends a sentence on a cut of links g and h by what they part: offices g+1 to h from the others. */
void tell_parted(FILE *out, unsigned g, unsigned h);

/* Tells below what no peak of whole circuits can be, whether that proves this one to be the best there is, and where it does not, whether a lower one could be of use. */
void tell_floor(FILE *out, const struct plan *plan, unsigned peak);

/* Tells, where all circuits cross, how high a peak is at most, which is that of the best choice or below it. */
void tell_bound(FILE *out, const struct plan *plan, const char *peak);

/* The floor's sentence without the first of these. */
void tell_proof(FILE *out, const struct plan *plan, unsigned peak);

/* Tells, of a ring of two fibres, why its line sizes are for twice the peak. */
void tell_kept_half(FILE *out);

#endif
