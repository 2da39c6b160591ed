/* Stored tables whose circuits are sent whole by a call that writes ways (tests/cases/tables.py says how they are spelled): each answer, and the ways, are held to what is stored. A table
 * lies where it can only be read, its last byte before a page that cannot be touched; so do the ways that are lent, and every byte of them behind the rows, and all of them where the
 * table is refused, has to stay. The pattern that stands there is another for every case. A program defines _DEFAULT_SOURCE before it takes this in. */
#ifndef WAYS_H
#define WAYS_H

#include <stdbool.h>
#include <stdio.h>
#include <string.h>

#include "fenced.h"
#include "ringkit.h"

enum { AREA = 64 * 1024, BEFORE = 64, LINE = 2 * RINGKIT_MAX_ROWS, NUMBERS = 7 };

static uint8_t *text_area, *ways_area;

/* The answer: reason, line, byte, what the call tells of the ways, and the rows. */
struct told {
    unsigned numbers[NUMBERS];
};

static unsigned rows_of(const struct told *told)
{
    return told->numbers[NUMBERS - 1];
}

/* A call, with its answer as these numbers. */
typedef struct told sending(const uint8_t *, size_t, uint8_t *);

/* What is due: the answer, and the ways as letters. */
struct due {
    struct told told;
    size_t length; /* of the table's text */
    char letters[RINGKIT_MAX_ROWS + 1];
};

#define SPELLED(x) #x
#define NUMBER(x) SPELLED(x)
#define LETTERS NUMBER(RINGKIT_MAX_ROWS)

/* A line that begins with that word and a blank. */
static bool read_due(struct due *due, const char *word, const char *line)
{
    unsigned length, *n = due->told.numbers;
    char end;
    size_t begin = strlen(word) + 1;
    if (strncmp(line, word, begin - 1) != 0 || line[begin - 1] != ' ') {
        return false;
    }
    int read = sscanf(line + begin, "%u %u %u %u %u %u %u %u %" LETTERS "[FB-]%c", &length, &n[0], &n[1], &n[2], &n[3], &n[4], &n[5], &n[6], due->letters, &end);
    due->length = length;
    return read == 10 && end == '\n' && length <= AREA && (strlen(due->letters) == n[6] || (n[6] == 0 && strcmp(due->letters, "-") == 0));
}

/* A byte that is never 0 or 1, so that a way that is written shows. */
static uint8_t pattern(unsigned at, size_t place)
{
    return (uint8_t)(2 + (at * 7 + place * 13) % 253);
}

/* The first place of the area at which the ways are not what they should be; BEFORE + RINGKIT_MAX_ROWS where all are. The ways begin at BEFORE. */
static size_t first_wrong(const uint8_t *area, const struct due *due, unsigned at)
{
    size_t place = 0;
    for (; place < BEFORE + RINGKIT_MAX_ROWS; place++) {
        bool written = place >= BEFORE && place < BEFORE + rows_of(&due->told);
        uint8_t right = !written ? pattern(at, place) : due->letters[place - BEFORE] == 'F' ? RINGKIT_F : RINGKIT_B;
        if (area[place] != right) {
            break;
        }
    }
    return place;
}

static void tell_fault(const struct told *told, unsigned at, size_t wrong)
{
    printf("error: table %u: answers", at);
    for (unsigned k = 0; k < NUMBERS; k++) {
        printf(" %u", told->numbers[k]);
    }
    printf(wrong < BEFORE + RINGKIT_MAX_ROWS ? "; way %d (from 0) is not as it should be\n" : "\n", (int)wrong - BEFORE);
}

/* Makes the call of a case that is the at-th. */
static bool answers(sending *call, const struct due *due, const uint8_t *text, unsigned at)
{
    uint8_t *area = ways_area + AREA - RINGKIT_MAX_ROWS - BEFORE;
    for (size_t place = 0; place < BEFORE + RINGKIT_MAX_ROWS; place++) {
        area[place] = pattern(at, place);
    }
    struct told told = call(text, due->length, area + BEFORE);
    size_t wrong = first_wrong(area, due, at);
    bool good = memcmp(&told, &due->told, sizeof told) == 0 && wrong == BEFORE + RINGKIT_MAX_ROWS;
    if (!good) {
        tell_fault(&told, at, wrong);
    }
    return good;
}

/* Says what fails; the last line is 'N passed, M failed'. The exit status of the program. */
static int hold_stored(const char *word, sending *call)
{
    static char line[LINE];
    static uint8_t bytes[AREA];
    static struct due due;
    unsigned passed = 0, failed = 0;
    text_area = fenced_area(AREA);
    ways_area = fenced_area(AREA);
    while (fgets(line, sizeof line, stdin) != NULL) {
        unsigned at = passed + failed + 1;
        bool good = read_due(&due, word, line);
        if (!good) {
            printf("error: table %u: %.100s: this is no line of a stored table\n", at, line);
            failed++;
            break;
        }
        need(fread(bytes, 1, due.length, stdin) == due.length, "a table that ends too early");
        good = answers(call, &due, against_fence(text_area, AREA, bytes, due.length), at);
        passed += good;
        failed += !good;
    }
    printf("%u passed, %u failed\n", passed, failed);
    return failed > 0 || passed == 0;
}

#endif
