#include "plan.h"

#include "crossing.h"
#include "fields.h"
#include "refusal.h"

const struct method FOUR_RULES = {FULL_ROOMS, RULE_D};

static struct circuit read_circuit(struct rest *rest)
{
    struct circuit c;
    c.first = number(rest);
    c.second = number(rest);
    c.amount = number(rest);
    c.front = number(rest);
    c.back = number(rest);
    c.goes_back = begins(rest, 'B');
    if (!c.goes_back) {
        begins(rest, 'F');
    }
    return c;
}

/* The loads of all links, in their order. */
static bool read_loads(struct plan *plan, struct rest *rest)
{
    for (unsigned k = 1; k <= plan->offices; k++) {
        if (!begins(rest, 'L') || number(rest) != k) {
            return false;
        }
        plan->load[k - 1].split = number(rest);
        plan->load[k - 1].unsplit = number(rest);
    }
    return true;
}

/* False where it is no sheet. */
static bool read_plan(struct plan *plan, const uint8_t *sheet, size_t length)
{
    struct rest rest = {sheet, sheet + length};
    plan->method = FOUR_RULES;
    plan->all_cross = false;
    plan->offices = begins(&rest, 'R') ? number(&rest) : 0;
    if (plan->offices < RINGKIT_MIN_OFFICES || plan->offices > RINGKIT_MAX_OFFICES) {
        return false;
    }
    plan->fibres = number(&rest);
    plan->family = read_family(&rest);
    for (plan->circuits = 0; plan->circuits < RINGKIT_MAX_ROWS && begins(&rest, 'D'); plan->circuits++) {
        plan->circuit[plan->circuits] = read_circuit(&rest);
    }
    if (!begins(&rest, 'C')) {
        return false;
    }
    plan->g = number(&rest);
    plan->h = number(&rest);
    plan->across = number(&rest);
    if (!read_loads(plan, &rest) || !begins(&rest, 'Z')) {
        return false;
    }
    plan->peak = number(&rest);
    plan->size = number(&rest);
    return rest.at == rest.end;
}

bool is_split(const struct circuit *circuit)
{
    return circuit->front > 0 && circuit->back > 0;
}

struct units in_units(unsigned halves)
{
    return (struct units){halves / 2, halves % 2 * 5};
}

void tell_ring(FILE *out, const struct plan *plan)
{
    fprintf(out, "%s of %u offices and %u fibres, %u circuit%s; amounts and loads in %s.\n", ring_of_family(plan->family), plan->offices, plan->fibres, plan->circuits, plan->circuits == 1 ? "" : "s",
            unit_of(plan->family));
}

void tell_way(FILE *out, const struct circuit *circuit, bool goes_back)
{
    if (goes_back) {
        fprintf(out, "back, from %u round to %u\n", circuit->second, circuit->first);
    } else {
        fprintf(out, "front, from %u up to %u\n", circuit->first, circuit->second);
    }
}

static void tell_circuits(FILE *out, const struct plan *plan)
{
    fprintf(out, "\nCircuit   offices  amount  split: front      back  unsplit, it goes\n");
    for (unsigned k = 0; k < plan->circuits; k++) {
        const struct circuit *c = &plan->circuit[k];
        struct units front = in_units(c->front);
        struct units back = in_units(c->back);
        fprintf(out, "%7u   %2u - %2u  %6u  %10u.%u  %6u.%u  ", k + 1, c->first, c->second, c->amount, front.whole, front.tenths, back.whole, back.tenths);
        tell_way(out, c, c->goes_back);
    }
}

void tell_parted(FILE *out, unsigned g, unsigned h)
{
    fprintf(out, "office%s %u", g + 1 < h ? "s" : "", g + 1);
    if (g + 1 < h) {
        fprintf(out, " to %u", h);
    }
    fprintf(out, " from the rest of the ring.\n");
}

static void tell_cut(FILE *out, const struct plan *plan)
{
    struct units least = in_units(plan->across);
    fprintf(out, "\nCut: links %u and %u, across %u.\n", plan->g, plan->h, plan->across);
    fprintf(out, "They part ");
    tell_parted(out, plan->g, plan->h);
    fprintf(out, "The circuits between the two parts add up to %u, all of it over these two links.\n", plan->across);
    fprintf(out, "So in every routing, however finely circuits are divided, one of the two links\n");
    fprintf(out, "carries at least %u.%u. The split peak is just that: no routing has a lower one.\n", least.whole, least.tenths);
    if (plan->method.rooms == LOWERED_ROOMS) {
        fprintf(out, "By lowered rooms: no link can be less full without another being fuller.\n");
    }
}

static void tell_links(FILE *out, const struct plan *plan)
{
    struct units peak = in_units(plan->across);
    fprintf(out, "\n   Link   offices      split  unsplit\n");
    for (unsigned k = 1; k <= plan->offices; k++) {
        struct units split = in_units(plan->load[k - 1].split);
        fprintf(out, "%7u   %2u - %2u  %7u.%u  %7u\n", k, k, k % plan->offices + 1, split.whole, split.tenths, plan->load[k - 1].unsplit);
    }
    fprintf(out, "   Peak            %7u.%u  %7u\n", peak.whole, peak.tenths, plan->peak);
}

static void tell_size(FILE *out, const struct plan *plan)
{
    bool two = plan->fibres == RINGKIT_TWO_FIBRES;
    unsigned carried = two ? 2 * plan->peak : plan->peak;
    const char *what = two ? "" : "the unsplit peak of ", *family = name_of_family(plan->family);
    fputc('\n', out);
    if (two) {
        fprintf(out, "On a ring of two fibres half of each line is kept for protection, so the line must have room for\n");
        fprintf(out, "at least twice the unsplit peak of %u.\n", plan->peak);
    }
    if (plan->size > 0) {
        fprintf(out, "Line size to buy: %u, the smallest %s size that carries %s%u.\n", plan->size, family, what, carried);
    } else {
        fprintf(out, "No line to buy: no %s size is large enough for %s%u.\n", family, what, carried);
    }
}

/* The library owns the lists of sizes, and is asked for the plan of one circuit of so much, which has that peak. A larger amount than a circuit may have is beyond all sizes, as that is. */
unsigned line_size(const struct plan *plan, unsigned peak)
{
    struct text table = {.name = "one circuit"};
    struct plan of_one;
    unsigned amount = peak < RINGKIT_MAX_AMOUNT ? peak : RINGKIT_MAX_AMOUNT;
    table.length = (size_t)sprintf((char *)table.bytes, "R\t%d\t%u%s\nD\t1\t2\t%u\n", RINGKIT_MIN_OFFICES, plan->fibres, mark_of(plan->family), amount);
    return make_plan(&of_one, &table, FOUR_RULES) == FINE ? of_one.size : 0;
}

unsigned floor_of(const struct plan *plan)
{
    return (plan->across + 1) / 2;
}

/* A lower peak is of no use where the line stays the same. */
static void tell_size_at(FILE *out, const struct plan *plan, unsigned peak, unsigned least)
{
    unsigned size = line_size(plan, least);
    if (size != line_size(plan, peak)) {
        return;
    }
    if (size > 0) {
        fprintf(out, "Even with %u the line to buy would be %u.\n", least, size);
    } else {
        fprintf(out, "Even with %u no line would be large enough.\n", least);
    }
}

void tell_kept_half(FILE *out)
{
    fprintf(out, "On a ring of two fibres half of each line is kept for protection, so the line has room for twice the peak.\n");
}

void tell_floor(FILE *out, const struct plan *plan, unsigned peak)
{
    fprintf(out, "However whole circuits are sent, the peak is at least %u: half of the %u across links %u and %u%s.\n", floor_of(plan), plan->across, plan->g, plan->h,
            plan->across % 2 == 0 ? "" : ", rounded up");
    tell_proof(out, plan, peak);
}

void tell_proof(FILE *out, const struct plan *plan, unsigned peak)
{
    unsigned least = floor_of(plan);
    if (peak == least) {
        fprintf(out, "So %u is proved to be the best there is.\n", peak);
    } else {
        fprintf(out, "That does not prove %u to be the best there is; nothing can be more than %u below it.\n", peak, peak - least);
        tell_size_at(out, plan, peak, least);
    }
}

/* The bound is what the largest cut has across, and twice the largest amount. */
void tell_bound(FILE *out, const struct plan *plan, const char *peak)
{
    struct units bound = in_units(plan->bound);
    unsigned largest = (plan->bound - plan->across) / 2;
    if (plan->all_cross) {
        fprintf(out, "All circuits that have an amount cross each other, so %s is at most %u.%u: half of the %u across, and the largest amount, %u.\n", peak, bound.whole, bound.tenths, plan->across,
                largest);
    }
}

/* What the best choice is the best of, and how high it is at most. */
static void tell_choice(FILE *out, const struct plan *plan)
{
    if (plan->method.choice != BEST_CHOICE) {
        return;
    }
    fprintf(out, "By the best choice: no other way of sending the divided circuits whole has a lower peak than %u.\n", plan->peak);
    tell_bound(out, plan, "this peak");
    if (plan->all_cross) {
        struct units by_rule_d = in_units(bound_of_rule_d(plan));
        fprintf(out, "The bound of rule D is %u.%u.\n", by_rule_d.whole, by_rule_d.tenths);
    }
}

void tell_plan(FILE *out, const struct plan *plan)
{
    tell_ring(out, plan);
    if (plan->circuits > 0) {
        tell_circuits(out, plan);
    }
    tell_cut(out, plan);
    tell_links(out, plan);
    tell_size(out, plan);
    fputc('\n', out);
    tell_choice(out, plan);
    tell_floor(out, plan, plan->peak);
}

const char STRANGE_SHEET[] = "the library's sheet is not one that this desk can read";

enum status take_apart(struct plan *plan, const uint8_t *sheet, size_t length)
{
    if (!read_plan(plan, sheet, length)) {
        fprintf(stderr, "desk: %s\n", STRANGE_SHEET);
        return TROUBLE;
    }
    return FINE;
}

writing *routing_by(struct method method)
{
    static writing *const CALLS[2][2] = {
        [FULL_ROOMS] = {[RULE_D] = ringkit_route, [BEST_CHOICE] = ringkit_route_best},
        [LOWERED_ROOMS] = {[RULE_D] = ringkit_route_lowered, [BEST_CHOICE] = ringkit_route_lowered_best},
    };
    return CALLS[method.rooms][method.choice];
}

/* What is promised besides of the best choice's peak, and so of the least. */
static void find_bound(struct plan *plan, const struct text *table)
{
    ringkit_crossing_reply reply = ringkit_crossing(table->bytes, table->length);
    plan->all_cross = reply.kind == RINGKIT_ALL_CROSS;
    plan->bound = reply.bound;
}

enum status find_plan(struct plan *plan, struct refusal *refusal, const struct text *table, struct method method)
{
    uint8_t sheet[RINGKIT_SHEET_BYTES];
    ringkit_reply reply = routing_by(method)(table->bytes, table->length, sheet, sizeof sheet);
    *refusal = REFUSAL_OF(reply);
    if (reply.reason != RINGKIT_OK) {
        return REFUSED;
    }
    bool good = read_plan(plan, sheet, reply.length);
    plan->method = method;
    find_bound(plan, table);
    return good ? FINE : TROUBLE;
}

void tell_unless_fine(const struct text *table, enum status status, struct refusal refusal)
{
    if (status == REFUSED) {
        tell_refusal(table, refusal, true);
    } else if (status == TROUBLE) {
        fprintf(stderr, "desk: %s\n", STRANGE_SHEET);
    }
}

enum status make_plan(struct plan *plan, const struct text *table, struct method method)
{
    struct refusal refusal;
    enum status status = find_plan(plan, &refusal, table, method);
    tell_unless_fine(table, status, refusal);
    return status;
}

enum status plan_table(const struct text *table, struct method method)
{
    struct plan plan;
    enum status status = make_plan(&plan, table, method);
    if (status == FINE) {
        tell_plan(stdout, &plan);
    }
    return status;
}
