#include <ringkit.h>
#include <stdio.h>

int main(void)
{
    static const char table[] = "R\t4\t4\nD\t1\t3\t1\nD\t2\t4\t1\n"; /* four offices, four fibres and two circuits */
    static uint8_t sheet[RINGKIT_SHEET_BYTES];
    ringkit_reply reply = ringkit_route((const uint8_t *)table, sizeof table - 1, sheet, sizeof sheet);
    if (reply.reason != RINGKIT_OK) {
        fprintf(stderr, "refused: reason %u, line %u, byte %u\n", reply.reason, reply.line, reply.byte);
        return 1;
    }
    fwrite(sheet, 1, reply.length, stdout);
    return 0;
}
