#include "fields.h"

bool begins(struct rest *rest, char letter)
{
    if (rest->end - rest->at < 2 || rest->at[0] != letter) {
        return false;
    }
    rest->at += 2;
    return true;
}

static bool is_digit(int byte)
{
    return byte >= '0' && byte <= '9';
}

unsigned number(struct rest *rest)
{
    unsigned n = 0;
    while (rest->at < rest->end && is_digit(rest->at[0])) {
        n = 10 * n + (unsigned)(*rest->at++ - '0');
    }
    if (rest->at < rest->end) {
        rest->at++;
    }
    return n;
}

bool read_typed(uint32_t *typed, const char *word)
{
    uint64_t n = 0;
    if (word == NULL || *word == '\0') {
        return false;
    }
    for (; is_digit(*word); word++) {
        n = 10 * n + (uint64_t)(*word - '0');
        n = n < UINT32_MAX ? n : UINT32_MAX;
    }
    *typed = (uint32_t)n;
    return *word == '\0';
}
