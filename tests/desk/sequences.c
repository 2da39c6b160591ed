/* sequences <FILE: makes the stored calls of a working table, one to a line, and holds each to the reply behind its '='. A remark begins a sequence on bytes that no call made.
 * A refused call, and one that only reads, changes no byte of the table, and no call touches its buffer behind what it writes. Says what fails; the last line is 'N passed, M failed'. */
#include <stdbool.h>
#include <stdio.h>
#include <stdlib.h>
#include <string.h>

#include "ringkit.h"

enum { PATTERN = 0x55, NUMBERS = 6, LINE = RINGKIT_TABLE_BYTES + 128 };

static ringkit_work work, before;
static uint8_t buffer[RINGKIT_TABLE_BYTES];
static uint32_t said[NUMBERS];

/* ---- the calls; each says what is answered */

static void say(ringkit_work_reply reply)
{
    memcpy(said, (uint32_t[]){reply.reason, reply.line, reply.place, reply.g, reply.h, reply.across}, sizeof said);
}

static void start(const uint32_t *given)
{
    say(ringkit_work_start(&work, given[0], given[1], given[2]));
}

static void add(const uint32_t *given)
{
    say(ringkit_work_add(&work, given[0], given[1], given[2]));
}

static void change(const uint32_t *given)
{
    say(ringkit_work_change(&work, given[0], given[1], given[2], given[3]));
}

static void removes(const uint32_t *given)
{
    say(ringkit_work_remove(&work, given[0]));
}

static void row(const uint32_t *given)
{
    ringkit_work_row_reply reply = ringkit_work_row(&work, given[0]);
    memcpy(said, (uint32_t[]){reply.reason, reply.line, reply.first, reply.second, reply.amount}, 5 * sizeof *said);
}

static void writes(const uint32_t *given)
{
    ringkit_reply reply = ringkit_work_write(&work, buffer, given[0]);
    memcpy(said, (uint32_t[]){reply.reason, reply.line, reply.byte, (uint32_t)reply.length}, 4 * sizeof *said);
}

static const struct call {
    const char *word;
    void (*make)(const uint32_t *);
    size_t given, answered;
    bool reads; /* and alters nothing */
} CALLS[] = {
    {"start", start, 3, 6, false}, {"add", add, 3, 6, false}, {"change", change, 4, 6, false}, {"remove", removes, 1, 6, false}, {"row", row, 1, 5, true}, {"write", writes, 1, 4, true},
};

static const struct call *call_of(const char *line)
{
    for (size_t k = 0; k < sizeof CALLS / sizeof *CALLS; k++) {
        size_t length = strlen(CALLS[k].word);
        if (strncmp(line, CALLS[k].word, length) == 0 && line[length] == ' ') {
            return &CALLS[k];
        }
    }
    return NULL;
}

/* ---- a stored line */

/* Reads so many numbers, and gives what stands behind them, or NULL. */
static const char *numbers(const char *from, uint32_t *to, size_t count)
{
    for (size_t k = 0; from != NULL && k < count; k++) {
        char *end;
        to[k] = (uint32_t)strtoul(from, &end, 10);
        from = end == from ? NULL : end;
    }
    return from;
}

/* Whether the buffer holds the stored text, which has | for a tab and / for the end of a line, and behind it what it held before. */
static bool holds(const char *text)
{
    size_t length = strlen(text);
    for (size_t k = 0; k < sizeof buffer; k++) {
        char due = k < length ? text[k] : PATTERN;
        if (buffer[k] != (due == '|' ? '\t' : due == '/' ? '\n' : due)) {
            return false;
        }
    }
    return true;
}

/* Whether the call of a line answers and leaves what it should. */
static bool good(const char *line)
{
    uint32_t given[NUMBERS] = {0}, due[NUMBERS] = {0};
    const struct call *call = call_of(line);
    const char *behind = call == NULL ? NULL : numbers(line + strlen(call->word), given, call->given);
    if (behind == NULL || strncmp(behind, " = ", 3) != 0) {
        return false;
    }
    const char *text = numbers(behind + 3, due, call->answered);
    if (text == NULL || (call->make == writes && given[0] > sizeof buffer)) {
        return false;
    }
    before = work;
    memset(buffer, PATTERN, sizeof buffer);
    memset(said, 0, sizeof said);
    call->make(given);
    bool kept = memcmp(&work, &before, sizeof work) == 0;
    return memcmp(said, due, sizeof said) == 0 && holds(text + strspn(text, " ")) && (kept || (said[0] == RINGKIT_OK && !call->reads));
}

int main(void)
{
    static char line[LINE];
    unsigned passed = 0, failed = 0;
    for (unsigned at = 1; fgets(line, sizeof line, stdin) != NULL; at++) {
        line[strcspn(line, "\n")] = '\0';
        if (line[0] == '#') {
            memset(&work, PATTERN, sizeof work);
        } else if (good(line)) {
            passed++;
        } else {
            failed++;
            printf("error: line %u: %.100s: answers %u %u %u %u %u %u, or leaves something else\n", at, line, said[0], said[1], said[2], said[3], said[4], said[5]);
        }
    }
    printf("%u passed, %u failed\n", passed, failed);
    return failed > 0 || passed == 0;
}
