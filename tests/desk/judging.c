/* judging <FILE: judges the stored values (tests/cases/judging.calls says how they are spelled) and holds each answer to the one behind its '='. Rows and links lie where they can only be
 * read, the last of each before a page that cannot be touched; with none of them the pointer is NULL every other time. Says what fails; the last line is 'N passed, M failed'. */
#define _DEFAULT_SOURCE
#include <stdbool.h>
#include <stdio.h>
#include <stdlib.h>
#include <string.h>

#include "fenced.h"
#include "ringkit.h"

_Static_assert(sizeof(ringkit_row) == 24 && sizeof(ringkit_link) == 12 && sizeof(ringkit_judge_reply) == 8, "numbers of 4 bytes, with no padding");

enum { MOST = 5000, AREA = 128 * 1024, NUMBERS = 8, LINE = 256 };

_Static_assert(MOST * sizeof(ringkit_row) <= AREA, "room for the rows");

static ringkit_row rows[MOST];
static ringkit_link links[MOST];
static uint32_t ring[2], family[1], counts[2], cut[3], last[2];
static uint8_t *row_area, *link_area;

static ringkit_judge_reply judge(bool null)
{
    const ringkit_row *lent_rows = counts[0] == 0 && null ? NULL : against_fence(row_area, AREA, rows, counts[0] * sizeof *rows);
    const ringkit_link *lent_links = counts[1] == 0 && null ? NULL : against_fence(link_area, AREA, links, counts[1] * sizeof *links);
    return ringkit_judge(lent_rows, counts[0], ring[0], ring[1], family[0], cut[0], cut[1], cut[2], lent_links, counts[1], last[0], last[1]);
}

/* ---- a stored line */

/* Reads exactly so many numbers. */
static bool numbers(const char *from, uint32_t *to, size_t count)
{
    for (size_t k = 0; k < count; k++) {
        char *end;
        to[k] = (uint32_t)strtoul(from, &end, 10);
        if (end == from) {
            return false;
        }
        from = end;
    }
    return *from == '\0';
}

/* Whether places from one on, counted from 1, are within what there is room for. */
static bool fits(const uint32_t *from_and_times)
{
    return from_and_times[0] >= 1 && from_and_times[0] <= MOST && from_and_times[1] <= MOST + 1 - from_and_times[0];
}

static bool put_rows(const uint32_t *said)
{
    for (uint32_t k = 0; fits(said) && k < said[1]; k++) {
        rows[said[0] - 1 + k] = (ringkit_row){said[2], said[3], said[4], said[5], said[6], said[7]};
    }
    return fits(said);
}

static bool put_links(const uint32_t *said)
{
    for (uint32_t k = 0; fits(said) && k < said[1]; k++) {
        links[said[0] - 1 + k] = (ringkit_link){said[2], said[3], said[4]};
    }
    return fits(said);
}

/* Begins afresh; counts, cut and last follow before the values are judged. */
static bool begin(const uint32_t *said)
{
    memcpy(ring, said, sizeof ring);
    memset(family, 0, sizeof family);
    memset(counts, 0, sizeof counts);
    memset(cut, 0, sizeof cut);
    memset(last, 0, sizeof last);
    return true;
}

static bool put_family(const uint32_t *said)
{
    memcpy(family, said, sizeof family);
    return true;
}

static bool put_counts(const uint32_t *said)
{
    memcpy(counts, said, sizeof counts);
    return said[0] <= MOST && said[1] <= MOST;
}

static bool put_cut(const uint32_t *said)
{
    memcpy(cut, said, sizeof cut);
    return true;
}

static bool put_last(const uint32_t *said)
{
    memcpy(last, said, sizeof last);
    return true;
}

static const struct word {
    const char *word;
    size_t said;
    bool (*put)(const uint32_t *);
} WORDS[] = {
    {"ring ", 2, begin}, {"family ", 1, put_family}, {"row ", 8, put_rows}, {"link ", 5, put_links}, {"counts ", 2, put_counts}, {"cut ", 3, put_cut}, {"last ", 2, put_last},
};

/* Whether a line changes the values. */
static bool changes(const char *line)
{
    uint32_t said[NUMBERS] = {0};
    for (size_t k = 0; k < sizeof WORDS / sizeof *WORDS; k++) {
        size_t length = strlen(WORDS[k].word);
        if (strncmp(line, WORDS[k].word, length) == 0) {
            return numbers(line + length, said, WORDS[k].said) && WORDS[k].put(said);
        }
    }
    return line[0] == '#';
}

int main(void)
{
    static const char DUE[] = "judge = ";
    static char line[LINE];
    unsigned passed = 0, failed = 0;
    uint32_t due[2];
    row_area = fenced_area(AREA);
    link_area = fenced_area(AREA);
    for (unsigned at = 1; fgets(line, sizeof line, stdin) != NULL; at++) {
        line[strcspn(line, "\n")] = '\0';
        if (strncmp(line, DUE, sizeof DUE - 1) == 0 && numbers(line + sizeof DUE - 1, due, 2)) {
            ringkit_judge_reply reply = judge(at % 2 == 0);
            if (reply.reason == due[0] && reply.place == due[1]) {
                passed++;
            } else {
                failed++;
                printf("error: line %u: %s: answers %u %u\n", at, line, (unsigned)reply.reason, (unsigned)reply.place);
            }
        } else if (!changes(line)) {
            failed++;
            printf("error: line %u: %.100s: this is no line of stored values\n", at, line);
        }
    }
    printf("%u passed, %u failed\n", passed, failed);
    return failed > 0 || passed == 0;
}
