#include "text.h"

#include <errno.h>
#include <string.h>

#include "shown.h"

/* A line is shown in so many columns at most, and so many of them stand before a byte that is marked, where there is more behind it. */
enum { SHOWN = 64, BEFORE = 40 };

bool is_standard(const char *file)
{
    return file == NULL || strcmp(file, "-") == 0;
}

const char *name_of(const char *file)
{
    return is_standard(file) ? "standard input" : file;
}

static void escape_byte(FILE *out, uint8_t byte)
{
    fprintf(out, "\\x%02x", byte);
}

void show_name(FILE *out, const char *name)
{
    struct character character;
    for (const char *at = name; *at != '\0'; at += character.bytes) {
        character = character_at(at);
        for (unsigned k = 0; k < character.bytes; k++) {
            if (character.shown) {
                fputc(at[k], out);
            } else {
                escape_byte(out, (uint8_t)at[k]);
            }
        }
    }
}

bool take_text(struct text *text, const char *file)
{
    text->name = name_of(file);
    FILE *in = is_standard(file) ? stdin : fopen(file, "rb");
    if (in == NULL) {
        return false;
    }
    text->length = fread(text->bytes, 1, sizeof text->bytes, in);
    bool good = !ferror(in);
    int why = errno;
    if (in != stdin) {
        fclose(in);
    }
    errno = why;
    return good;
}

bool read_text(struct text *text, const char *file)
{
    if (take_text(text, file)) {
        return true;
    }
    int why = errno;
    fflush(stdout);
    fputs("desk: cannot read ", stderr);
    show_name(stderr, text->name);
    fprintf(stderr, ": %s\n", strerror(why));
    return false;
}

struct line line_of(const struct text *text, size_t number)
{
    const uint8_t *at = text->bytes;
    const uint8_t *end = at + text->length;
    const uint8_t *feed = memchr(at, '\n', text->length);
    for (; number > 1; number--) {
        at = feed == NULL ? end : feed + 1;
        feed = memchr(at, '\n', (size_t)(end - at));
    }
    return (struct line){
        .bytes = at,
        .length = (size_t)((feed == NULL ? end : feed) - at),
        .missing = at == end,
        .has_feed = feed != NULL,
    };
}

static bool prints(uint8_t byte)
{
    return byte <= LAST_OF_ASCII && is_shown(byte) && strchr("|\\\"", byte) == NULL;
}

static size_t columns_of(uint8_t byte)
{
    return byte == '\t' || prints(byte) ? 1 : 4;
}

static void show_byte(FILE *out, uint8_t byte)
{
    if (byte == '\t') {
        fputc('|', out);
    } else if (prints(byte)) {
        fputc(byte, out);
    } else {
        escape_byte(out, byte);
    }
}

/* The bytes of a line that are shown. */
struct part {
    size_t from, to;
};

/* Takes bytes in before the part for as long as no more columns are used than that. */
static void widen(struct part *part, struct line line, size_t *used, size_t most)
{
    while (part->from > 0 && *used + columns_of(line.bytes[part->from - 1]) <= most) {
        *used += columns_of(line.bytes[--part->from]);
    }
}

/* The part about a byte, counted from 0. */
static struct part part_about(struct line line, size_t byte)
{
    struct part part = {byte, byte};
    size_t used = 0;
    widen(&part, line, &used, BEFORE);
    while (part.to < line.length && used + columns_of(line.bytes[part.to]) <= SHOWN) {
        used += columns_of(line.bytes[part.to++]);
    }
    widen(&part, line, &used, SHOWN);
    return part;
}

static void quote(FILE *out, struct line line, struct part part)
{
    fputc('"', out);
    for (size_t k = part.from; k < part.to; k++) {
        show_byte(out, line.bytes[k]);
    }
    fputc('"', out);
}

/* What the quotes do not say, each remark behind the words that part it from what is before it; whether there was any. */
static bool tell_rest(FILE *out, struct line line, struct part part, const char *words)
{
    const char *first = words;
    if (part.from > 0) {
        fprintf(out, "%sbytes %zu to %zu of %zu", words, part.from + 1, part.to, line.length);
        words = ", ";
    } else if (part.to < line.length) {
        fprintf(out, "%sthe first %zu of %zu bytes", words, part.to, line.length);
        words = ", ";
    }
    if (memchr(line.bytes + part.from, '\t', part.to - part.from) != NULL) {
        fprintf(out, "%swith | for a tab", words);
        words = ", ";
    }
    if (!line.has_feed) {
        fprintf(out, "%s%sthe text ends with no LF", words, words == first ? "" : "and ");
        words = ", ";
    }
    return words != first;
}

static const char MISSING[] = "(the text ends before it)";

static void show_line(FILE *out, struct line line)
{
    if (line.missing) {
        fputs(MISSING, out);
        return;
    }
    struct part part = part_about(line, 0);
    quote(out, line, part);
    tell_rest(out, line, part, ", ");
}

static const char INDENT[] = "    ";

/* Row k stands on line k + 1, behind the R line. */
void show_row(const struct text *text, size_t row)
{
    printf("%srow %zu, line %zu: ", INDENT, row, row + 1);
    show_line(stdout, line_of(text, row + 1));
    putchar('\n');
}

void mark_line(FILE *out, struct line line, size_t byte)
{
    if (line.missing) {
        fprintf(out, "%s%s\n", INDENT, MISSING);
        return;
    }
    size_t at = byte == 0 ? 0 : byte - 1 < line.length ? byte - 1 : line.length;
    struct part part = part_about(line, at);
    fputs(INDENT, out);
    quote(out, line, part);
    /* one column more for the opening quote */
    fprintf(out, "\n%s ", INDENT);
    for (size_t k = part.from; k < at; k++) {
        fprintf(out, "%*s", (int)columns_of(line.bytes[k]), "");
    }
    fputs(at < line.length ? "^\n" : "^ the line ends here\n", out);
    if (tell_rest(out, line, part, INDENT)) {
        fputc('\n', out);
    }
}
