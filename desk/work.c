#define _POSIX_C_SOURCE 200809L
#include "work.h"

#include <errno.h>
#include <signal.h>
#include <string.h>
#include <unistd.h>

#include "fields.h"
#include "plan.h"
#include "refusal.h"
#include "save.h"

/* The most bytes of a line without its LF: more than write and the longest name of a file. */
enum { LONGEST_LINE = 8192 };

/* The table, the line that was read last, and how things stand. */
struct dialogue {
    ringkit_work work;
    unsigned offices, fibres;
    enum family family;
    char line[LONGEST_LINE + 2]; /* with its LF and a NUL */
    size_t length, number;       /* the line's bytes, and its number, counted from 1 */
    bool at_terminal, unsaved, left;
    bool cut_off; /* whether lines may follow that cannot be read */
    enum status status; /* the highest so far */
};

enum { MOST_NUMBERS = 4 };

/* What a line says behind its first word: numbers, or the name of a file. */
struct said {
    uint32_t number[MOST_NUMBERS];
    const char *file;
};

/* ---- what goes wrong */

static void at_least(struct dialogue *d, enum status status)
{
    d->status = d->status < status ? status : d->status;
}

/* Begins a complaint. Who types sees the line above; of lines from elsewhere it is named. */
static void begin_complaint(struct dialogue *d, enum status status)
{
    at_least(d, status);
    fflush(stdout);
    if (!d->at_terminal) {
        fprintf(stderr, "line %zu: ", d->number);
    }
}

static void refuse(struct dialogue *d, uint32_t reason)
{
    begin_complaint(d, REFUSED);
    tell_reason(reason);
}

/* ---- what a planner asks for */

static void tell_largest(uint32_t g, uint32_t h, uint32_t across)
{
    printf("Largest cut: links %u and %u, across %u. They part ", (unsigned)g, (unsigned)h, (unsigned)across);
    tell_parted(stdout, g, h);
}

/* What became of a change: its place, in the words for it, and the largest cut. */
static void tell_change(struct dialogue *d, ringkit_work_reply reply, const char *words)
{
    if (reply.reason != RINGKIT_OK) {
        refuse(d, reply.reason);
        return;
    }
    d->unsaved = true;
    printf("Place %u %s. ", (unsigned)reply.place, words);
    tell_largest(reply.g, reply.h, reply.across);
}

static void add(struct dialogue *d, const struct said *said)
{
    tell_change(d, ringkit_work_add(&d->work, said->number[0], said->number[1], said->number[2]), "is taken");
}

static void change(struct dialogue *d, const struct said *said)
{
    tell_change(d, ringkit_work_change(&d->work, said->number[0], said->number[1], said->number[2], said->number[3]), "is changed");
}

/* Other rows keep their places. */
static void take_away(struct dialogue *d, const struct said *said)
{
    tell_change(d, ringkit_work_remove(&d->work, said->number[0]), "is free");
}

static unsigned rows_held(const ringkit_work *work)
{
    unsigned held = 0;
    for (uint32_t place = 1; place <= RINGKIT_MAX_ROWS; place++) {
        held += ringkit_work_row(work, place).reason == RINGKIT_OK;
    }
    return held;
}

static void show_rows(struct dialogue *d, const struct said *said)
{
    (void)said;
    if (rows_held(&d->work) == 0) {
        printf("No place is taken.\n");
        return;
    }
    printf("  Place   offices  amount\n");
    for (uint32_t place = 1; place <= RINGKIT_MAX_ROWS; place++) {
        ringkit_work_row_reply row = ringkit_work_row(&d->work, place);
        if (row.reason == RINGKIT_OK) {
            printf("%7u   %2u - %2u  %6u\n", (unsigned)place, (unsigned)row.first, (unsigned)row.second, (unsigned)row.amount);
        }
    }
}

/* The table of the rows held; a text has more room than it ever takes. */
static void write_table(const struct dialogue *d, struct text *table)
{
    table->name = "the table";
    table->length = ringkit_work_write(&d->work, table->bytes, sizeof table->bytes).length;
}

static void plan(struct dialogue *d, const struct said *said)
{
    struct text table;
    (void)said;
    write_table(d, &table);
    at_least(d, plan_table(&table, FOUR_RULES));
}

static void write_file(struct dialogue *d, const struct said *said)
{
    struct text table;
    write_table(d, &table);
    /* before what was said goes out, since a reader who has left would end the desk there */
    if (!save(said->file, table.bytes, table.length)) {
        int why = errno;
        begin_complaint(d, TROUBLE);
        fputs("cannot write ", stderr);
        show_name(stderr, said->file);
        fprintf(stderr, ": %s\n", strerror(why));
        return;
    }
    d->unsaved = false;
    printf("Written.\n");
}

static void leave(struct dialogue *d, const struct said *said)
{
    (void)said;
    d->left = true;
}

static void help(struct dialogue *d, const struct said *said);

/* ---- the words of the dialogue */

static const struct verb {
    const char *name;
    unsigned numbers;
    bool file;
    const char *form, *means;
    void (*does)(struct dialogue *, const struct said *);
} VERBS[] = {
    {"add", 3, false, "add FIRST SECOND AMOUNT", "a circuit between two offices, at the lowest free place", add},
    {"change", 4, false, "change PLACE FIRST SECOND AMOUNT", "another circuit at that place", change},
    {"remove", 1, false, "remove PLACE", "frees the place; other circuits keep theirs", take_away},
    {"rows", 0, false, "rows", "the circuits, by place", show_rows},
    {"plan", 0, false, "plan", "the plan of these circuits, numbered by their offices", plan},
    {"write", 0, true, "write FILE", "the table, as a file", write_file},
    {"help", 0, false, "help", "these words", help},
    {"quit", 0, false, "quit", "leaves", leave},
};

enum { COUNT_OF_VERBS = sizeof VERBS / sizeof *VERBS };

static void help(struct dialogue *d, const struct said *said)
{
    (void)d;
    (void)said;
    for (unsigned k = 0; k < COUNT_OF_VERBS; k++) {
        printf("%-34s%s\n", VERBS[k].form, VERBS[k].means);
    }
}

static const char BLANKS[] = " \t\r\n";

/* Parts the first word of a line from what is behind it; blanks around either are left out. */
static char *part(char *line, char **behind)
{
    char *word = line + strspn(line, BLANKS);
    char *end = word + strcspn(word, BLANKS);
    *behind = end + strspn(end, BLANKS);
    *end = '\0';
    size_t length = strlen(*behind);
    while (length > 0 && strchr(BLANKS, (*behind)[length - 1]) != NULL) {
        length--;
    }
    (*behind)[length] = '\0';
    return word;
}

/* Whether just what the verb wants is behind it. */
static bool read_said(struct said *said, const struct verb *verb, char *behind)
{
    said->file = behind;
    if (verb->file) {
        return *behind != '\0';
    }
    for (unsigned k = 0; k < verb->numbers; k++) {
        const char *word = part(behind, &behind);
        if (!read_typed(&said->number[k], word)) {
            return false;
        }
    }
    return *behind == '\0';
}

/* NULL where there is no such word. */
static const struct verb *verb_of(const char *word)
{
    for (unsigned k = 0; k < COUNT_OF_VERBS; k++) {
        if (strcmp(word, VERBS[k].name) == 0) {
            return &VERBS[k];
        }
    }
    return NULL;
}

/* Does what the line says. One with a NUL in it would be seen in part only, so it says nothing. */
static void follow(struct dialogue *d)
{
    struct said said;
    char *behind;
    bool whole = strlen(d->line) == d->length;
    const char *word = part(d->line, &behind);
    const struct verb *verb = whole ? verb_of(word) : NULL;
    if (whole && *word == '\0') {
        return;
    }
    if (verb == NULL) {
        begin_complaint(d, TROUBLE);
        fputs(whole ? "no such word; help says which there are\n" : "it has a NUL byte in it\n", stderr);
    } else if (!read_said(&said, verb, behind)) {
        begin_complaint(d, TROUBLE);
        fprintf(stderr, "it goes: %s\n", verb->form);
    } else {
        verb->does(d, &said);
    }
}

/* ---- the dialogue */

static void prompt(const struct dialogue *d, const char *words)
{
    if (d->at_terminal) {
        fputs(words, stdout);
        fflush(stdout);
    }
}

/* Takes the bytes of the next line, as many as there is room for. */
static void take_line(struct dialogue *d)
{
    int byte = 0;
    d->length = 0;
    while (byte != '\n' && d->length <= LONGEST_LINE && (byte = getchar()) != EOF) {
        d->line[d->length++] = (char)byte;
    }
    d->line[d->length] = '\0';
}

/* False at the end of what is typed, and where it cannot be read on. */
static bool read_line(struct dialogue *d)
{
    take_line(d);
    d->number++;
    if (ferror(stdin)) {
        at_least(d, TROUBLE);
        fprintf(stderr, "desk: cannot read standard input: %s\n", strerror(errno));
        d->cut_off = true;
    } else if (d->length > LONGEST_LINE && d->line[LONGEST_LINE] != '\n') {
        begin_complaint(d, TROUBLE);
        fprintf(stderr, "a line has at most %d bytes; ", LONGEST_LINE);
        fputs("this one is not done, nor is what follows\n", stderr);
        d->cut_off = true;
    } else if (d->length == 0 && d->at_terminal) {
        putchar('\n');
    }
    return d->length > 0 && !d->cut_off;
}

/* Whether a planner who leaves means it: at a terminal, with changes that are not written, that is asked. The end of what is typed is a yes. */
static bool means_it(struct dialogue *d)
{
    if (!d->at_terminal || !d->unsaved || d->cut_off) {
        return true;
    }
    clearerr(stdin);
    prompt(d, "There are changes that are not written. Leave all the same (yes or no)? ");
    if (!read_line(d)) {
        return true;
    }
    char *behind;
    const char *word = part(d->line, &behind);
    return strcmp(word, "yes") == 0 || strcmp(word, "y") == 0;
}

static void converse(struct dialogue *d)
{
    while (!d->left || !means_it(d)) {
        prompt(d, "desk> ");
        d->left = !read_line(d);
        if (!d->left) {
            follow(d);
        }
    }
}

/* Does lines from elsewhere to their end, though nobody may read what is said to them any more: the
 * signal that ends the desk then waits. Who types sees the desk end. */
static void do_all(struct dialogue *d)
{
    sigset_t pipe, before;
    sigemptyset(&pipe);
    sigaddset(&pipe, SIGPIPE);
    sigprocmask(SIG_BLOCK, &pipe, &before);
    converse(d);
    sigprocmask(SIG_SETMASK, &before, NULL);
}

static enum status talk(struct dialogue *d)
{
    d->at_terminal = isatty(STDIN_FILENO);
    if (d->at_terminal) {
        converse(d);
    } else {
        do_all(d);
    }
    return d->status;
}

/* Begins with what the table holds after that answer. */
static enum status begin(struct dialogue *d, ringkit_work_reply reply)
{
    if (reply.reason != RINGKIT_OK) {
        fputs("desk: ", stderr);
        tell_reason(reply.reason);
        return REFUSED;
    }
    unsigned held = rows_held(&d->work);
    printf("%s of %u offices and %u fibres, %u circuit%s.\n", ring_of_family(d->family), d->offices, d->fibres, held, held == 1 ? "" : "s");
    tell_largest(reply.g, reply.h, reply.across);
    return talk(d);
}

static ringkit_work_reply start(struct dialogue *d)
{
    return ringkit_work_start(&d->work, d->offices, d->fibres, d->family);
}

enum status work_afresh(uint32_t offices, uint32_t fibres, enum family family)
{
    struct dialogue d = {.offices = offices, .fibres = fibres, .family = family};
    return begin(&d, start(&d));
}

/* Takes the rows of an accepted table to places 1 and up. */
static ringkit_work_reply take_rows(struct dialogue *d, const struct text *table)
{
    struct rest rest = {table->bytes, table->bytes + table->length};
    begins(&rest, 'R');
    d->offices = number(&rest);
    d->fibres = number(&rest);
    d->family = read_family(&rest);
    ringkit_work_reply reply = start(d);
    while (reply.reason == RINGKIT_OK && begins(&rest, 'D')) {
        unsigned first = number(&rest);
        unsigned second = number(&rest);
        unsigned amount = number(&rest);
        reply = ringkit_work_add(&d->work, first, second, amount);
    }
    return reply;
}

enum status work_on(const char *file)
{
    struct dialogue d = {.status = FINE};
    struct text table;
    uint8_t same[RINGKIT_MAX_TEXT_BYTES];
    if (!read_text(&table, file)) {
        return TROUBLE;
    }
    ringkit_reply reply = ringkit_rewrite_table(table.bytes, table.length, same, sizeof same);
    if (reply.reason != RINGKIT_OK) {
        tell_refusal(&table, REFUSAL_OF(reply), true);
        return REFUSED;
    }
    return begin(&d, take_rows(&d, &table));
}
