#include <ringkit.h>
#include <stdio.h>

int main(void)
{
    /* five offices and six circuits, as examples/five-offices.table */
    static const char table[] = "R\t5\t4\nD\t1\t2\t2\nD\t1\t4\t5\nD\t2\t3\t9\nD\t2\t4\t11\nD\t3\t4\t4\nD\t3\t5\t3\n";
    static uint8_t ways[RINGKIT_MAX_ROWS]; /* room for every table's, whatever this one has */
    ringkit_turn_reply reply = ringkit_turn((const uint8_t *)table, sizeof table - 1, ways);
    if (reply.reason != RINGKIT_OK) {
        fprintf(stderr, "refused: reason %u, line %u, byte %u\n", (unsigned)reply.reason, (unsigned)reply.line, (unsigned)reply.byte);
        return 1;
    }
    printf("peak %u, by %u turns from the start that avoids link %u\n", (unsigned)reply.peak, (unsigned)reply.turns, (unsigned)reply.link);
    for (size_t row = 0; row < reply.rows; row++) {
        printf("circuit %u goes %s\n", (unsigned)row + 1, ways[row] == RINGKIT_F ? "front" : "back");
    }
    return 0;
}
