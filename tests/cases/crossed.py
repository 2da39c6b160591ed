#!/usr/bin/env python3
"""Writes tests/cases/crossing.calls: stored tables of which it is asked whether their rows that have amounts all cross each other, each with what the rule answers (Rules, rings where everything crosses), by
crossing.py; and where they do, with the unsplit peaks of rule D and of the best choice, which are the same by level rooms and by lowered ones.

A case is a line `crossing LENGTH REASON LINE BYTE KIND BOUND FIRST SECOND PEAK BEST`, the peaks 0 where not all cross, and behind it the table's text, LENGTH bytes. No source of the project is used. Run
it by hand after adding a case and look at the difference; tests/desk/crossing.c makes the calls, and the twin answers the same tables by itself."""
import itertools
import random

import best
import crossing
import rules
from crossing import ALL_CROSS, MANY, PARALLEL
from judging import MOST_OFFICES, MOST_ROWS
from matrix import table_values
from sheets import pairs, write_table
from tables import EIGHT, FIVE, drawn, refusal_of, refused, store

# rule D's peak is above half of the bound
NOT_OF_RULE_D = (6, ((1, 4, 9), (2, 5, 3), (3, 6, 7)))


def crossed(n, count, amount=lambda k: 1):
    """So many rows that all cross each other, evenly spread."""
    nodes = [1 + k * n // (2 * count) for k in range(2 * count)]
    return tuple((i, j, amount(k)) for k, (i, j) in enumerate(zip(nodes, nodes[count:])))


def merged(*rows):
    return tuple(sorted(itertools.chain(*rows), key=lambda row: row[:2]))


SEVENTEEN = crossed(MOST_OFFICES, 17)
NOTHING = ((1, 2, 0), (1, 3, 0), (1, 3, 0), (2, 4, 0), (3, 4, 0))


def by_hand():
    """Answers that were found by hand."""
    yield (ALL_CROSS, 37, 0, 0), NOT_OF_RULE_D
    yield (ALL_CROSS, 0, 0, 0), (2, ())
    yield (ALL_CROSS, 0, 0, 0), (2, ((1, 2, 0),))
    yield (ALL_CROSS, 0, 0, 0), (4, NOTHING)
    yield (ALL_CROSS, 15, 0, 0), (2, ((1, 2, 5),))
    yield (ALL_CROSS, 4, 0, 0), (4, ((1, 3, 1), (2, 4, 1)))
    yield (ALL_CROSS, 27, 0, 0), (8, ((1, 5, 3), (2, 6, 3), (3, 7, 3), (4, 8, 6)))
    yield (ALL_CROSS, 29997, 0, 0), (64, ((1, 64, 9999),))
    yield (PARALLEL, 0, 1, 2), FIVE
    yield (PARALLEL, 0, 1, 2), EIGHT
    # of the same two offices; with one of them 0 they all cross
    yield (PARALLEL, 0, 1, 2), (4, ((1, 3, 1), (1, 3, 1)))
    yield (ALL_CROSS, 3, 0, 0), (4, ((1, 3, 1), (1, 3, 0)))
    yield (ALL_CROSS, 9, 0, 0), (4, ((1, 3, 0), (1, 3, 3), (1, 3, 0)))
    yield (PARALLEL, 0, 2, 4), (4, ((1, 3, 0), (1, 3, 3), (1, 3, 0), (1, 3, 1)))
    # a shared office: the first, the second, and the second of the one and the first of the other
    yield (PARALLEL, 0, 1, 2), (4, ((1, 2, 1), (1, 3, 1)))
    yield (PARALLEL, 0, 1, 2), (4, ((1, 4, 1), (2, 4, 1)))
    yield (PARALLEL, 0, 1, 2), (4, ((1, 2, 1), (2, 4, 1)))
    # apart, and one inside the other
    yield (PARALLEL, 0, 1, 2), (4, ((1, 2, 1), (3, 4, 1)))
    yield (PARALLEL, 0, 1, 2), (4, ((1, 4, 1), (2, 3, 1)))
    # the first row crosses both others, which are parallel; then two pairs of the first row, and a pair by the second row alone that stands before by its second
    yield (PARALLEL, 0, 2, 3), (6, ((1, 4, 1), (2, 5, 1), (3, 5, 1)))
    yield (PARALLEL, 0, 1, 3), (8, ((1, 4, 1), (2, 6, 1), (4, 7, 1), (5, 8, 1)))
    yield (PARALLEL, 0, 1, 4), (8, ((1, 5, 1), (2, 7, 1), (3, 6, 1), (5, 8, 1)))
    # rows of amount 0 before, between and behind the pair count for their places
    yield (PARALLEL, 0, 3, 6), (6, ((1, 2, 0), (1, 3, 0), (1, 4, 1), (2, 3, 0), (2, 5, 1), (4, 5, 1), (5, 6, 0)))
    yield (MANY, 0, 0, 0), (MOST_OFFICES, SEVENTEEN)
    yield (MANY, 0, 0, 0), (34, crossed(34, 17))
    yield (MANY, 0, 0, 0), (MOST_OFFICES, crossed(MOST_OFFICES, 32, lambda k: 9999))
    yield (ALL_CROSS, 18, 0, 0), (MOST_OFFICES, crossed(MOST_OFFICES, 16))
    yield (ALL_CROSS, 18, 0, 0), (32, crossed(32, 16))
    # with one of 17 at 0 they are few enough, and a pair wins over too many
    yield (ALL_CROSS, 18, 0, 0), (MOST_OFFICES, SEVENTEEN[:8] + ((*SEVENTEEN[8][:2], 0),) + SEVENTEEN[9:])
    yield (PARALLEL, 0, 17, 18), (MOST_OFFICES, SEVENTEEN + (SEVENTEEN[16],))
    yield (PARALLEL, 0, 1, 18), (MOST_OFFICES, SEVENTEEN + ((SEVENTEEN[0][1], MOST_OFFICES, 1),))


def counted(rng):
    """0 to 20 rows that cross, and 32: on rings as small as may be, on the largest, and with rows of amount 0 between."""
    for count in (*range(1, 21), 32):
        for n, most in ((max(2, 2 * count), 9), (MOST_OFFICES, 9999)):
            rows = crossed(n, count, lambda k: rng.randint(1, most))
            yield n, rows
            yield n, merged(rows, nothing(rng, n, rng.randint(1, 9)))


def nothing(rng, n, count):
    return tuple((*pair, 0) for pair in rng.choices(pairs(n), k=count))


def random_tables(rng):
    """Of few rows, so that they often cross; rows that cross with one that may not; and tables of any rows."""
    for _ in range(300):
        yield drawn(rng, rng.randint(2, 9), rng.randint(1, 4), rng.choice((1, 2, 9)))
    for _ in range(200):
        count, most = rng.randint(2, 9), rng.choice((1, 3, 9999))
        n = rng.randint(2 * count, MOST_OFFICES)
        rows = crossed(n, count, lambda k: rng.randint(0, most))
        yield n, merged(rows, ((*rng.choice(pairs(n)), rng.randint(0, most)),), nothing(rng, n, rng.choice((0, 2))))
    for _ in range(80):
        yield drawn(rng, rng.choice((16, 32, 64)), rng.randint(2, 40), rng.choice((0, 1, 9999)))


def full(rng):
    """As many rows as there may be: all of amount 0; 16, 17 and 32 that cross among them, and a pair behind all; and all pairs of 20 and of 32 offices, of one amount and with rows of amount 0 alone before
    the last two."""
    zeros = nothing(rng, MOST_OFFICES, MOST_ROWS)
    yield MOST_OFFICES, merged(zeros)
    for count in (16, 17, 32):
        rows = crossed(MOST_OFFICES, count, lambda k: 9999 - k)
        yield MOST_OFFICES, merged(rows, zeros[count:])
    yield MOST_OFFICES, merged(zeros[2:], ((63, 64, 1),) * 2)
    yield 2, ((1, 2, 9999),) * MOST_ROWS
    yield 2, ((1, 2, 0),) * (MOST_ROWS - 1) + ((1, 2, 9999),)
    for n in (20, 32):
        yield n, tuple((*pair, 1) for pair in pairs(n))
        yield n, tuple((*pair, int(k >= len(pairs(n)) - 2)) for k, pair in enumerate(pairs(n)))


def small():
    """Tables of few rows, the smallest first."""
    for count in range(1, 4):
        for n in range(2, 7):
            for nodes in itertools.combinations_with_replacement(pairs(n), count):
                yield from ((n, tuple((*pair, d) for pair, d in zip(nodes, amounts))) for amounts in itertools.product((0, 1, 3), repeat=count))


def deciding(rng):
    """For each other reading of a sentence five tables that it answers otherwise: small ones, or of about as many rows as are few enough."""
    tables = [*itertools.islice(small(), 0, 40000, 11), *(drawn(rng, rng.randint(4, 8), rng.randint(3, 6), 3) for _ in range(1000))]
    large = [*counted(rng), *full(rng), *((MOST_OFFICES, merged(crossed(MOST_OFFICES, count), ((k, k + 1, 1),))) for count in (17, 20) for k in (1, 5, 9))]
    for others, some in ((crossing.SMALL, tables), (crossing.LARGE, large)):
        for other in others:
            told = (table for table in some if other().answer(*table) != crossing.answer(*table))
            found = list(itertools.islice(told, 5))
            assert len(found) == 5, (other, len(found))
            yield from found


def accepted():
    rng = random.Random(14)
    tables = [*(table for _, table in by_hand()), *deciding(rng), *counted(rng), *random_tables(rng), *full(rng)]
    yield from (write_table(n, rows) for n, rows in dict.fromkeys(tables))
    yield from (write_table(*FIVE, 2), write_table(*NOT_OF_RULE_D, 2), write_table(*NOT_OF_RULE_D, 2, "M"))


def peaks(n, rows, bound):
    """The unsplit peaks of rule D and of the best choice, of rows that all cross. Rows of amount 0 add nothing to any load."""
    some = tuple(row for row in rows if row[2] > 0)
    found = set()
    for rooms in (rules.level_rooms, rules.lowered_rooms):
        sent = rules.sent_by(n, some, rooms)[1]
        assert all(one == (row[2], row[2]) for row, one in zip(some, sent)), "each row is halved"
        found.add((best.peak_of(n, some, rules.rule_d(some, sent)), best.peak_of(n, some, best.ways(n, some, rooms))))
    [(peak, chosen)] = found
    assert 2 * chosen <= bound, (n, rows)
    return peak, chosen


def answered(text):
    """Reason, line, byte, kind, bound, first, second and the two peaks."""
    refusal = refusal_of(text)
    if refusal:
        return (*refusal, 0, 0, 0, 0, 0, 0)
    n, rows, *_ = table_values(text)
    answer = crossing.answer(n, rows)
    return 0, 0, 0, *answer, *(peaks(n, rows, answer.bound) if answer.kind == ALL_CROSS else (0, 0))


def main():
    for due, (n, rows) in by_hand():
        assert crossing.answer(n, rows) == due, (n, rows, crossing.answer(n, rows))
    assert peaks(*NOT_OF_RULE_D, 37) == (19, 16), "twice rule D's peak is 38"
    kinds = [kind for _, _, _, kind, *_ in store("crossing", "crossing", [*accepted(), *refused()], answered)]
    assert set(kinds) == {0, ALL_CROSS, PARALLEL, MANY}
    print({kind: kinds.count(kind) for kind in sorted(set(kinds))})


main()
