#include "drawing.h"

#include <stdarg.h>
#include <stdio.h>
#include <string.h>

#include "shown.h"

/* The longest words of a drawing, in bytes; longer ones are cut. */
enum { MOST_OF_WORDS = 1023 };

static void write_tenths(int tenths)
{
    int whole = tenths < 0 ? -tenths : tenths;
    printf("%s%d", tenths < 0 ? "-" : "", whole / 10);
    if (whole % 10 != 0) {
        printf(".%d", whole % 10);
    }
}

static void write_length(const char *name, int tenths)
{
    printf(" %s=\"", name);
    write_tenths(tenths);
    putchar('"');
}

static void write_point(char letter, struct point at)
{
    putchar(letter);
    write_tenths(at.x);
    putchar(' ');
    write_tenths(at.y);
}

static void write_paint(struct paint paint)
{
    printf(" fill=\"%s\"", paint.fill != NULL ? paint.fill : "none");
    if (paint.outline != NULL) {
        printf(" stroke=\"%s\"", paint.outline);
        write_length("stroke-width", paint.width);
    }
    fputs("/>\n", stdout);
}

static void write_pen(struct pen pen)
{
    printf(" stroke=\"%s\"", pen.colour);
    write_length("stroke-width", pen.width);
    if (pen.dashes != NULL) {
        printf(" stroke-dasharray=\"%s\"", pen.dashes);
    }
    fputs("/>\n", stdout);
}

void draw_rectangle(struct point corner, struct point size, struct paint paint)
{
    fputs("<rect", stdout);
    write_length("x", corner.x);
    write_length("y", corner.y);
    write_length("width", size.x);
    write_length("height", size.y);
    write_paint(paint);
}

void draw_disc(struct point centre, int radius, struct paint paint)
{
    fputs("<circle", stdout);
    write_length("cx", centre.x);
    write_length("cy", centre.y);
    write_length("r", radius);
    write_paint(paint);
}

void draw_line(struct point from, struct point to, struct pen pen)
{
    fputs("<line", stdout);
    write_length("x1", from.x);
    write_length("y1", from.y);
    write_length("x2", to.x);
    write_length("y2", to.y);
    write_pen(pen);
}

void begin_drawing(struct point size, const char *ink)
{
    fputs("<svg xmlns=\"http://www.w3.org/2000/svg\" width=\"280mm\" height=\"196mm\" viewBox=\"0 0 ", stdout);
    write_tenths(size.x);
    putchar(' ');
    write_tenths(size.y);
    printf("\" font-family=\"Helvetica, Arial, sans-serif\" fill=\"%s\" role=\"img\" aria-labelledby=\"title desc\">\n", ink);
}

void end_drawing(void)
{
    /* without this a browser prints it small, on a page that stands */
    fputs("<style>@page { size: A4 landscape; margin: 6mm }</style>\n</svg>\n", stdout);
}

/* Two characters that are shown, and that a text in XML cannot have. */
enum { FIRST_OF_NO_XML = 0xfffe, LAST_OF_NO_XML = 0xffff };

static bool is_written(struct character character)
{
    bool in_xml = character.code < FIRST_OF_NO_XML || character.code > LAST_OF_NO_XML;
    return character.shown && in_xml;
}

/* A letter that XML has another use for is written by its code. */
static void write_words(const char *words)
{
    struct character character;
    for (const char *at = words; *at != '\0'; at += character.bytes) {
        character = character_at(at);
        if (!is_written(character)) {
            printf("&#%d;", REPLACEMENT);
        } else if (strchr("<>&", *at) != NULL) {
            printf("&#%d;", *at);
        } else {
            fwrite(at, 1, character.bytes, stdout);
        }
    }
}

void draw_words(struct point at, struct lettering lettering, const char *format, ...)
{
    static const char *const ANCHORS[] = {[START] = "start", [MIDDLE] = "middle", [END] = "end"};
    char words[MOST_OF_WORDS + 1];
    va_list values;
    va_start(values, format);
    vsnprintf(words, sizeof words, format, values);
    va_end(values);
    fputs("<text", stdout);
    write_length("x", at.x);
    write_length("y", at.y);
    if (lettering.size > 0) {
        write_length("font-size", lettering.size);
    }
    if (lettering.anchor != START) {
        printf(" text-anchor=\"%s\"", ANCHORS[lettering.anchor]);
    }
    fputs(lettering.bold ? " font-weight=\"bold\"" : "", stdout);
    if (lettering.colour != NULL) {
        printf(" fill=\"%s\"", lettering.colour);
    }
    putchar('>');
    write_words(words);
    fputs("</text>\n", stdout);
}

void begin_words(int size)
{
    fputs("<g", stdout);
    write_length("font-size", size);
    fputs(">\n", stdout);
}

void end_words(void)
{
    fputs("</g>\n", stdout);
}

void begin_path(struct point at)
{
    fputs("<path d=\"", stdout);
    write_point('M', at);
}

void straight_to(struct point to)
{
    write_point('L', to);
}

void arc_to(struct point to, int radius, bool clockwise, bool over_half)
{
    putchar('A');
    write_tenths(radius);
    putchar(' ');
    write_tenths(radius);
    printf(" 0 %d %d", over_half, clockwise);
    write_point(' ', to);
}

void end_line(struct pen pen)
{
    fputs("\" fill=\"none\"", stdout);
    write_pen(pen);
}

void end_area(struct paint paint)
{
    fputs("Z\"", stdout);
    write_paint(paint);
}

/* Digits are the widest of what is written much: 0.64 of the size in the widest of the usual fonts, and 0.70 where they are bold. */
int room_for(unsigned letters, int size, bool bold)
{
    return (int)letters * size * (bold ? 70 : 64) / 100;
}
