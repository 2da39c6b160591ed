/* Draws each text of standard input, which end with a NUL, as the words of a picture. */
#include <stdio.h>

#include "../../desk/drawing.h"

int main(void)
{
    static char text[4096];
    size_t length = 0;
    for (int byte; (byte = getchar()) != EOF;) {
        text[length++] = (char)byte;
        if (byte == '\0' || length == sizeof text - 1) {
            text[length] = '\0';
            draw_words((struct point){0, 0}, (struct lettering){0, START, false, NULL}, "%s", text);
            length = 0;
        }
    }
    return 0;
}
