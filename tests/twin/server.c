/* Makes calls of the library for a twin that cannot link it, one after the other until standard input ends. Numbers on the pipes have 8 bytes, the
 * lowest first. A request is the lengths of a call's name, of its text and of an area, where in the area the lent buffer begins and ends, where in the
 * text a working table begins, that is handed over as one, the four numbers that the call is told beside the text (0 where it is told none), and then the
 * name, the text and the area. Values to be judged are a text of numbers of 4 bytes: rows, links and the other figures, with the counts of rows and links told beside it. The answer is the reply's seven numbers, 0 for a byte that it does not have and behind its last, and then text and area as the call leaves them. */
#include <stdio.h>
#include <stdlib.h>
#include <string.h>

#include "ringkit.h"

struct request {
    uint64_t name_length, text_length, area_length, begin, end, work, told[4];
};

struct answer {
    uint64_t reason, line, byte, numbers[4];
};

/* A call has one of four forms, those of the working table a fifth, judging values a sixth, sending circuits whole a seventh, and asking whether they cross an eighth. */
typedef ringkit_reply writing(const uint8_t *, size_t, uint8_t *, size_t);
typedef ringkit_reply telling(const uint8_t *, size_t, uint32_t, uint32_t, uint8_t *, size_t);
typedef ringkit_reply judging(const uint8_t *, size_t);
typedef ringkit_pair_reply finding(const uint8_t *, size_t);
typedef ringkit_crossing_reply crossing(const uint8_t *, size_t);
typedef struct answer working(ringkit_work *, const uint64_t told[4], uint8_t *, size_t);
typedef struct answer holding(const struct request *, const uint8_t *);
typedef struct answer sending(const uint8_t *, size_t, uint8_t *);

static holding judge_values;
static sending turn_circuits, send_least;
static working work_start, work_add, work_change, work_remove, work_row, work_write;

static const struct call {
    const char *name; /* as the twin has it */
    writing *write;
    telling *tell;
    judging *judge;
    finding *find;
    crossing *cross;
    holding *hold;
    sending *send;
    working *work;
} CALLS[] = {
    {.name = "Route", .write = ringkit_route},
    {.name = "RouteBest", .write = ringkit_route_best},
    {.name = "RouteLowered", .write = ringkit_route_lowered},
    {.name = "RouteLoweredBest", .write = ringkit_route_lowered_best},
    {.name = "Rewrite", .write = ringkit_rewrite_table},
    {.name = "Check", .judge = ringkit_check},
    {.name = "RewriteSheet", .write = ringkit_rewrite_sheet},
    {.name = "Parallel", .find = ringkit_parallel},
    {.name = "ReadMatrix", .tell = ringkit_read_matrix},
    {.name = "WriteMatrix", .write = ringkit_write_matrix},
    {.name = "Report", .write = ringkit_report},
    {.name = "Judge", .hold = judge_values},
    {.name = "Turn", .send = turn_circuits},
    {.name = "Crossing", .cross = ringkit_crossing},
    {.name = "Least", .send = send_least},
    {.name = "WorkStart", .work = work_start},
    {.name = "WorkAdd", .work = work_add},
    {.name = "WorkChange", .work = work_change},
    {.name = "WorkRemove", .work = work_remove},
    {.name = "WorkRow", .work = work_row},
    {.name = "WorkWrite", .work = work_write},
};

static _Noreturn void fail(const char *what)
{
    fprintf(stderr, "server: %s\n", what);
    exit(1);
}

static const struct call *named(const char *name)
{
    for (size_t k = 0; k < sizeof CALLS / sizeof *CALLS; k++) {
        if (strcmp(name, CALLS[k].name) == 0) {
            return &CALLS[k];
        }
    }
    fail("the twin makes a call that this server does not have");
}

static struct answer reply(ringkit_reply reply)
{
    return (struct answer){reply.reason, reply.line, reply.byte, {reply.length}};
}

static struct answer pair(ringkit_pair_reply pair)
{
    return (struct answer){pair.reason, pair.line, pair.byte, {pair.first, pair.second}};
}

static struct answer crossed(ringkit_crossing_reply reply)
{
    return (struct answer){reply.reason, reply.line, reply.byte, {reply.kind, reply.bound, reply.first, reply.second}};
}

static struct answer cut(ringkit_work_reply reply)
{
    return (struct answer){reply.reason, reply.line, 0, {reply.place, reply.g, reply.h, reply.across}};
}

static struct answer work_start(ringkit_work *work, const uint64_t told[4], uint8_t *buffer, size_t length)
{
    (void)buffer, (void)length;
    return cut(ringkit_work_start(work, (uint32_t)told[0], (uint32_t)told[1], (uint32_t)told[2]));
}

static struct answer work_add(ringkit_work *work, const uint64_t told[4], uint8_t *buffer, size_t length)
{
    (void)buffer, (void)length;
    return cut(ringkit_work_add(work, (uint32_t)told[0], (uint32_t)told[1], (uint32_t)told[2]));
}

static struct answer work_change(ringkit_work *work, const uint64_t told[4], uint8_t *buffer, size_t length)
{
    (void)buffer, (void)length;
    return cut(ringkit_work_change(work, (uint32_t)told[0], (uint32_t)told[1], (uint32_t)told[2], (uint32_t)told[3]));
}

static struct answer work_remove(ringkit_work *work, const uint64_t told[4], uint8_t *buffer, size_t length)
{
    (void)buffer, (void)length;
    return cut(ringkit_work_remove(work, (uint32_t)told[0]));
}

static struct answer work_row(ringkit_work *work, const uint64_t told[4], uint8_t *buffer, size_t length)
{
    (void)buffer, (void)length;
    ringkit_work_row_reply row = ringkit_work_row(work, (uint32_t)told[0]);
    return (struct answer){row.reason, row.line, 0, {row.first, row.second, row.amount}};
}

static struct answer work_write(ringkit_work *work, const uint64_t told[4], uint8_t *buffer, size_t length)
{
    (void)told;
    return reply(ringkit_work_write(work, buffer, length));
}

static struct answer judge_values(const struct request *r, const uint8_t *text)
{
    const ringkit_row *rows = (const ringkit_row *)(const void *)text;
    const ringkit_link *links = (const ringkit_link *)(const void *)(rows + r->told[0]);
    const uint32_t *last = (const uint32_t *)(const void *)(links + r->told[1]); /* g, h, across, peak, size, offices, fibres, family */
    if (r->text_length != sizeof *rows * r->told[0] + sizeof *links * r->told[1] + 8 * sizeof *last) {
        fail("the twin's values have another size than the library's");
    }
    ringkit_judge_reply judged = ringkit_judge(rows, r->told[0], last[5], last[6], last[7], last[0], last[1], last[2], links, r->told[1], last[3], last[4]);
    return (struct answer){judged.reason, 0, 0, {judged.place}};
}

static struct answer turn_circuits(const uint8_t *text, size_t length, uint8_t *ways)
{
    ringkit_turn_reply turned = ringkit_turn(text, length, ways);
    return (struct answer){turned.reason, turned.line, turned.byte, {turned.peak, turned.link, turned.turns, turned.rows}};
}

static struct answer send_least(const uint8_t *text, size_t length, uint8_t *ways)
{
    ringkit_least_reply least = ringkit_least(text, length, ways);
    return (struct answer){least.reason, least.line, least.byte, {least.peak, least.floor, least.rule, least.rows}};
}

/* The ways in the area. */
static uint8_t *lent_ways(const struct request *r, uint8_t *area)
{
    if (r->end - r->begin != RINGKIT_MAX_ROWS) {
        fail("the twin's ways have another size than the library's");
    }
    return area + r->begin;
}

/* The working table in what is handed over as a text, with as many bytes behind it as before it. */
static ringkit_work *lent_table(const struct request *r, uint8_t *text)
{
    if (r->text_length != sizeof(ringkit_work) + 2 * r->work) {
        fail("the twin's working table has another size than the library's");
    }
    return (ringkit_work *)(void *)(text + r->work);
}

static struct answer make(const struct call *call, const struct request *r, uint8_t *text, uint8_t *area)
{
    if (call->work != NULL) {
        return call->work(lent_table(r, text), r->told, area + r->begin, r->end - r->begin);
    }
    if (call->hold != NULL) {
        return call->hold(r, text);
    }
    if (call->send != NULL) {
        return call->send(text, r->text_length, lent_ways(r, area));
    }
    if (call->cross != NULL) {
        return crossed(call->cross(text, r->text_length));
    }
    if (call->write != NULL) {
        return reply(call->write(text, r->text_length, area + r->begin, r->end - r->begin));
    }
    if (call->tell != NULL) {
        return reply(call->tell(text, r->text_length, (uint32_t)r->told[0], (uint32_t)r->told[1], area + r->begin, r->end - r->begin));
    }
    return call->judge != NULL ? reply(call->judge(text, r->text_length)) : pair(call->find(text, r->text_length));
}

/* So many bytes of standard input, and a NUL behind them. */
static void *received(uint64_t length)
{
    char *bytes = malloc(length + 1);
    if (bytes == NULL) {
        fail("no memory");
    }
    if (fread(bytes, 1, length, stdin) != length) {
        fail("a request ends too early");
    }
    bytes[length] = '\0';
    return bytes;
}

static void send(const void *bytes, uint64_t length)
{
    if (fwrite(bytes, 1, length, stdout) != length) {
        fail("the twin does not take the answer");
    }
}

static void serve(const struct request *r)
{
    char *name = received(r->name_length);
    uint8_t *text = received(r->text_length);
    uint8_t *area = received(r->area_length);
    struct answer answer = make(named(name), r, text, area);
    send(&answer, sizeof answer);
    send(text, r->text_length);
    send(area, r->area_length);
    if (fflush(stdout) != 0) {
        fail("the twin does not take the answer");
    }
    free(name);
    free(text);
    free(area);
}

int main(void)
{
    struct request request;
    size_t had;
    while ((had = fread(&request, 1, sizeof request, stdin)) == sizeof request) {
        serve(&request);
    }
    if (had > 0) {
        fail("a request ends too early");
    }
    return 0;
}
