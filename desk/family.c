#include "family.h"

static const struct said {
    const char *name, *unit, *ring, *mark;
} SAID[] = {
    [SONET] = {"SONET", RINGKIT_SONET_UNIT, "Ring", ""},
    [SDH] = {"SDH", RINGKIT_SDH_UNIT, "SDH ring", "\tM"},
};

const char *name_of_family(enum family family)
{
    return SAID[family].name;
}

const char *unit_of(enum family family)
{
    return SAID[family].unit;
}

const char *ring_of_family(enum family family)
{
    return SAID[family].ring;
}

const char *mark_of(enum family family)
{
    return SAID[family].mark;
}

enum family read_family(struct rest *rest)
{
    return begins(rest, SAID[SDH].mark[1]) ? SDH : SONET;
}
