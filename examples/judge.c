#include <ringkit.h>
#include <stdio.h>

/* A plan that is held as rows, the one of examples/square.sheet: two circuits of 1 that cross, each sent half and half, the first F and the second B where they go whole. */
static ringkit_row rows[] = {{1, 3, 1, 1, 1, RINGKIT_F}, {2, 4, 1, 1, 1, RINGKIT_B}};
static const ringkit_link links[] = {{1, 2, 2}, {2, 2, 1}, {3, 2, 0}, {4, 2, 1}};

static ringkit_judge_reply judge(void)
{
    /* four offices, four fibres; links 1 and 3 with 2 across; an unsplit peak of 2, and the size 3 */
    return ringkit_judge(rows, sizeof rows / sizeof *rows, 4, RINGKIT_FOUR_FIBRES, RINGKIT_SONET, 1, 3, 2, links, sizeof links / sizeof *links, 2, 3);
}

/* Why a row is at fault. */
static const char *fault_of_row(uint32_t reason)
{
    switch (reason) {
    case RINGKIT_NO_SUCH_NODE: return "it names an office that is not on the ring";
    case RINGKIT_NOT_BELOW: return "its first office is not below its second";
    case RINGKIT_OUT_OF_ORDER: return "it belongs before the row above it";
    case RINGKIT_TOO_MANY_ROWS: return "there are too many rows";
    case RINGKIT_TOO_MUCH: return "its amount is too large";
    case RINGKIT_WRONG_SUM: return "its front and back do not add up to twice its amount";
    case RINGKIT_WRONG_WAY: return "it is not split, and does not go the way that it is sent";
    default: return "this program does not know why";
    }
}

static void tell(const char *plan)
{
    ringkit_judge_reply reply = judge();
    if (reply.reason == RINGKIT_OK) {
        printf("%s: accepted\n", plan);
    } else if (reply.place > 0 && reply.reason != RINGKIT_WRONG_LINK) {
        printf("%s: row %u is at fault: %s (reason %u)\n", plan, (unsigned)reply.place, fault_of_row(reply.reason), (unsigned)reply.reason);
    } else {
        printf("%s: reason %u, at place %u\n", plan, (unsigned)reply.reason, (unsigned)reply.place);
    }
}

int main(void)
{
    tell("the plan");
    rows[1].front = 2;
    tell("with 2 in front for 1 in row 2");
    return 0;
}
