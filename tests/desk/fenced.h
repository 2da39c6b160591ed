/* Areas that end where memory does: behind each lies a page that cannot be touched, so that a call which reads or writes a byte too far is seen at once. A program
 * defines _DEFAULT_SOURCE before it takes this in. */
#ifndef FENCED_H
#define FENCED_H

#include <stdbool.h>
#include <stdint.h>
#include <stdio.h>
#include <stdlib.h>
#include <string.h>
#include <sys/mman.h>
#include <unistd.h>

/* What the tests themselves cannot do without. */
static void need(bool good, const char *what)
{
    if (!good) {
        perror(what);
        exit(1);
    }
}

/* An area of so many bytes, which are whole pages, before its fence. */
static uint8_t *fenced_area(size_t size)
{
    size_t page = (size_t)sysconf(_SC_PAGESIZE);
    uint8_t *area = mmap(NULL, size + page, PROT_READ | PROT_WRITE, MAP_PRIVATE | MAP_ANONYMOUS, -1, 0);
    need(area != MAP_FAILED, "mmap");
    need(mprotect(area + size, page, PROT_NONE) == 0, "mprotect");
    return area;
}

/* From now on the area can only be read, or be written as well. */
static void allow_writing(uint8_t *area, size_t size, bool allowed)
{
    need(mprotect(area, size, allowed ? PROT_READ | PROT_WRITE : PROT_READ) == 0, "mprotect");
}

/* Puts bytes against the fence of an area of that size, where they can only be read. */
static const void *against_fence(uint8_t *area, size_t size, const void *bytes, size_t length)
{
    uint8_t *place = area + size - length;
    allow_writing(area, size, true);
    memcpy(place, bytes, length);
    allow_writing(area, size, false);
    return place;
}

#endif
