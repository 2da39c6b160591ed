/* stack CALL [TEXT]: how many bytes of stack the call touches, and whether it is accepted: on the text of a file, of values on those that the text says, of a working table
 * on a full one, or on a small one. It runs in a thread that has as much stack as the header promises to be enough, painted before the call and looked at after it, with a page below it that may
 * not be touched. A process makes one call, and calls no memset and no memcpy before it, so that this call also binds them, as any program's first call may. */
#define _DEFAULT_SOURCE
#include <pthread.h>
#include <stdio.h>
#include <string.h>
#include <sys/mman.h>

#include "held.h"

enum { PAGE = 4096, PAINT = 0xa5, MOST = RINGKIT_MAX_PLANS_BYTES + 1 };

_Static_assert(RINGKIT_STACK_BYTES % PAGE == 0, "whole pages, so that the one below the stack can be closed");

static const char TABLE[] = "R\t2\t4\nD\t1\t2\t5\n";
static const char SHEET[] = "R\t2\t4\nD\t1\t2\t5\t5\t5\tF\nC\t1\t2\t5\nL\t1\t5\t5\nL\t2\t5\t0\nZ\t5\t12\n";
static const char MATRIX[] = "0\t5\n5\t0\n";
static uint8_t text[MOST];
static size_t length;
static uint8_t buffer[MOST]; /* room for whatever is written */
static uint8_t ways[RINGKIT_MAX_ROWS];
static ringkit_work work;

static uint32_t route(void)
{
    return ringkit_route(text, length, buffer, sizeof buffer).reason;
}

static uint32_t route_best(void)
{
    return ringkit_route_best(text, length, buffer, sizeof buffer).reason;
}

static uint32_t route_lowered(void)
{
    return ringkit_route_lowered(text, length, buffer, sizeof buffer).reason;
}

static uint32_t route_lowered_best(void)
{
    return ringkit_route_lowered_best(text, length, buffer, sizeof buffer).reason;
}

static uint32_t turn(void)
{
    return ringkit_turn(text, length, ways).reason;
}

static uint32_t crossing(void)
{
    return ringkit_crossing(text, length).reason;
}

static uint32_t least(void)
{
    return ringkit_least(text, length, ways).reason;
}

static uint32_t rewrite_table(void)
{
    return ringkit_rewrite_table(text, length, buffer, sizeof buffer).reason;
}

static uint32_t rewrite_sheet(void)
{
    return ringkit_rewrite_sheet(text, length, buffer, sizeof buffer).reason;
}

static uint32_t check(void)
{
    return ringkit_check(text, length).reason;
}

static uint32_t report(void)
{
    return ringkit_report(text, length, buffer, sizeof buffer).reason;
}

static uint32_t judge(void)
{
    return judge_held().reason;
}

static uint32_t parallel(void)
{
    return ringkit_parallel(text, length).reason;
}

static uint32_t read_matrix(void)
{
    return ringkit_read_matrix(text, length, 4, RINGKIT_SONET, buffer, sizeof buffer).reason;
}

static uint32_t write_matrix(void)
{
    return ringkit_write_matrix(text, length, buffer, sizeof buffer).reason;
}

static uint32_t work_start(void)
{
    return ringkit_work_start(&work, 2, 4, RINGKIT_SDH).reason;
}

static uint32_t work_add(void)
{
    return ringkit_work_add(&work, 1, 2, 5).reason;
}

static uint32_t work_change(void)
{
    return ringkit_work_change(&work, 1, 1, 2, 5).reason;
}

static uint32_t work_remove(void)
{
    return ringkit_work_remove(&work, 1).reason;
}

static uint32_t work_row(void)
{
    return ringkit_work_row(&work, 1).reason;
}

static uint32_t work_write(void)
{
    return ringkit_work_write(&work, buffer, sizeof buffer).reason;
}

static const struct named {
    const char *name;
    uint32_t (*call)(void);
    const char *small; /* a text that it accepts */
} CALLS[] = {
    {"ringkit_route", route, TABLE},
    {"ringkit_route_best", route_best, TABLE},
    {"ringkit_route_lowered", route_lowered, TABLE},
    {"ringkit_route_lowered_best", route_lowered_best, TABLE},
    {"ringkit_turn", turn, TABLE},
    {"ringkit_crossing", crossing, TABLE},
    {"ringkit_least", least, TABLE},
    {"ringkit_rewrite_table", rewrite_table, TABLE},
    {"ringkit_rewrite_sheet", rewrite_sheet, SHEET},
    {"ringkit_check", check, SHEET},
    {"ringkit_report", report, SHEET},
    {"ringkit_judge", judge, SHEET},
    {"ringkit_parallel", parallel, SHEET},
    {"ringkit_read_matrix", read_matrix, MATRIX},
    {"ringkit_write_matrix", write_matrix, TABLE},
    {"ringkit_work_start", work_start, ""},
    {"ringkit_work_add", work_add, ""},
    {"ringkit_work_change", work_change, ""},
    {"ringkit_work_remove", work_remove, ""},
    {"ringkit_work_row", work_row, ""},
    {"ringkit_work_write", work_write, ""},
};

struct dive {
    const struct named *named;
    uint8_t *from; /* where the caller's frame begins; the call's own stack is below it */
    uint32_t reason;
};

static void *dive(void *with)
{
    struct dive *d = with;
    d->from = __builtin_frame_address(0);
    d->reason = d->named->call();
    return NULL;
}

/* A volatile byte is written by no memset. */
static void paint(uint8_t *stack, size_t size)
{
    for (size_t k = 0; k < size; k++) {
        *(volatile uint8_t *)&stack[k] = PAINT;
    }
}

/* The call's stack, or 0 where it cannot be had. */
static size_t touched(struct dive *d)
{
    pthread_t thread;
    pthread_attr_t attributes;
    size_t size = RINGKIT_STACK_BYTES;
    uint8_t *closed = mmap(NULL, PAGE + size, PROT_NONE, MAP_PRIVATE | MAP_ANONYMOUS, -1, 0);
    uint8_t *stack = closed + PAGE;
    if (closed == MAP_FAILED || mprotect(stack, size, PROT_READ | PROT_WRITE) != 0 || pthread_attr_init(&attributes) != 0
        || pthread_attr_setstack(&attributes, stack, size) != 0) {
        return 0;
    }
    paint(stack, size);
    if (pthread_create(&thread, &attributes, dive, d) != 0 || pthread_join(thread, NULL) != 0) {
        return 0;
    }
    uint8_t *lowest = stack;
    while (*lowest == PAINT) {
        lowest++;
    }
    return (size_t)(d->from - lowest);
}

/* Takes the text of a file, as far as the longest that a call may be given whole, or a small one. */
static int take_text(const char *name, const char *small)
{
    if (name == NULL) {
        for (length = 0; small[length] != 0; length++) {
            *(volatile uint8_t *)&text[length] = (uint8_t)small[length];
        }
        return 1;
    }
    FILE *file = fopen(name, "rb");
    if (file == NULL) {
        return 0;
    }
    length = fread(text, 1, sizeof text, file);
    return fclose(file) == 0;
}

/* A working table of so many rows, the first of them 1-2. Calls may not make it, since the one that is measured is the first; what is kept beside the rows does not
 * matter to the stack. */
static void take_work(size_t rows)
{
    work.n = RINGKIT_MAX_OFFICES;
    work.fibres = RINGKIT_FOUR_FIBRES;
    for (size_t k = 0; k < rows; k++) {
        work.first[k] = 1;
        work.second[k] = k == 0 ? 2 : RINGKIT_MAX_OFFICES;
        work.amount[k] = RINGKIT_MAX_AMOUNT;
    }
}

int main(int count, char **words)
{
    struct dive d = {.named = NULL};
    for (size_t k = 0; k < sizeof CALLS / sizeof *CALLS; k++) {
        if (count >= 2 && strcmp(words[1], CALLS[k].name) == 0) {
            d.named = &CALLS[k];
        }
    }
    const char *name = count == 3 ? words[2] : NULL;
    int works = d.named != NULL && *d.named->small == 0;
    if (d.named == NULL || count > 3 || !take_text(works ? NULL : name, d.named->small)) {
        fputs("usage: stack CALL [TEXT]\n", stderr);
        return 2;
    }
    hold(text, length);
    take_work(works && name != NULL ? RINGKIT_MAX_ROWS : 1);
    size_t depth = touched(&d);
    printf("%zu bytes of stack, %s\n", depth, d.reason == RINGKIT_OK ? "accepted" : "refused");
    return depth > 0 ? 0 : 1;
}
