/* Sends whole circuits by the rule that comes to the least peak, and says how far from the best possible that can be at most. */
#include <ringkit.h>
#include <stdio.h>

enum { CIRCUITS = 17 };

int main(void)
{
    /* thirty-four offices, and a circuit of one unit from each of the first half to the office opposite: all of them cross */
    static char table[1024];
    static uint8_t ways[RINGKIT_MAX_ROWS]; /* room for every table's, whatever this one has */
    size_t length = (size_t)sprintf(table, "R\t%d\t4\n", 2 * CIRCUITS);
    for (int k = 1; k <= CIRCUITS; k++) {
        length += (size_t)sprintf(table + length, "D\t%d\t%d\t1\n", k, k + CIRCUITS);
    }
    ringkit_least_reply reply = ringkit_least((const uint8_t *)table, length, ways);
    if (reply.reason != RINGKIT_OK) {
        fprintf(stderr, "refused: reason %u, line %u, byte %u\n", (unsigned)reply.reason, (unsigned)reply.line, (unsigned)reply.byte);
        return 1;
    }
    printf("peak %u by rule %u, floor %u: ", (unsigned)reply.peak, (unsigned)reply.rule, (unsigned)reply.floor);
    if (reply.peak == reply.floor) {
        printf("it is proved to be the best there is\n");
    } else {
        printf("nothing can be more than %u below it\n", (unsigned)(reply.peak - reply.floor));
    }
    for (size_t row = 0; row < reply.rows; row++) {
        printf("circuit %u goes %s\n", (unsigned)row + 1, ways[row] == RINGKIT_F ? "front" : "back");
    }
    return 0;
}
