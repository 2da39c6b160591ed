#!/usr/bin/env python3
"""Writes tests/cases/turning.calls: stored tables whose circuits are sent one turn at a time, each with what the rules answer (Rules, one turn at a time), by turning.py.

A case is a line `turn LENGTH REASON LINE BYTE PEAK LINK TURNS ROWS WAYS`, the ways as letters F and B or - where there are none, and behind it the table's text, LENGTH bytes. No source of
the project is used. Run it by hand after adding a case and look at the difference; tests/desk/turning.c makes the calls, and the twin answers the same tables by itself."""
import itertools
import random

import turning
from judging import MOST_ROWS
from matrix import table_values
from sheets import pairs, write_table
from tables import EIGHT, FIVE, drawn, refusal_of, refused, store


def by_hand():
    """Answers that papers print, or that were found by hand."""
    yield (16, 1, 4, "BFFBFF"), FIVE
    yield (3, 5, 1, "BFBF"), EIGHT
    yield (2, 1, 0, "BF"), (4, ((1, 3, 1), (2, 4, 1)))
    yield (0, 1, 0, ""), (2, ())
    yield (5, 1, 0, "B"), (2, ((1, 2, 5),))
    yield (3, 1, 1, "FB"), (2, ((1, 2, 3), (1, 2, 3)))
    yield (5, 1, 1, "FB"), (2, ((1, 2, 5), (1, 2, 3)))
    yield (5, 1, 1, "FB"), (2, ((1, 2, 3), (1, 2, 5)))
    yield (0, 1, 0, "B"), (4, ((1, 2, 0),))
    yield (4, 1, 1, "BF"), (4, ((2, 3, 4), (2, 3, 4)))
    yield (4, 1, 2, "FBF"), (3, ((1, 2, 2), (1, 3, 3), (1, 3, 2)))
    yield (2, 1, 1, "FB"), (4, ((1, 2, 1), (1, 4, 2)))
    yield (3, 1, 1, "BFBB"), (2, ((1, 2, 0), (1, 2, 3), (1, 2, 0), (1, 2, 3)))
    yield (1, 1, 1, "FBF"), (3, ((1, 2, 1), (1, 3, 1), (2, 3, 1)))


def small():
    """Tables of few rows, the smallest first."""
    for count in range(1, 5):
        for n in range(2, 7):
            for nodes in itertools.combinations_with_replacement(pairs(n), count):
                yield from ((n, tuple((i, j, d) for (i, j), d in zip(nodes, amounts))) for amounts in itertools.product((1, 2, 3), repeat=count))


def deciding():
    """For each other reading of a sentence five small tables that it answers otherwise, and the ring of five where it does."""
    rng = random.Random(8)
    tables = list(itertools.islice(small(), 0, 60000, 7)) + [drawn(rng, rng.randint(3, 8), rng.randint(4, 9), 4) for _ in range(3000)]
    for other in turning.OTHERS:
        told = (table for table in [FIVE, EIGHT, *tables] if other().answer(*table) != turning.answer(*table))
        found = list(itertools.islice(told, 5))
        assert len(found) == 5, other
        yield from found


def random_tables():
    rng = random.Random(496)
    for _ in range(500):
        yield drawn(rng, rng.choice([2, 3, 4, 5, 6, 9, 12, 16]), rng.randint(1, 24), rng.choice([0, 1, 2, 3, 20, 9999]))
    for n in (20, 32, 32, 32, 33, 64, 64):
        yield drawn(rng, n, 40, 9999)


def amounts_0():
    """A row of amount 0 goes as the answer's start has it, whatever stands before and behind it."""
    for n, rows in [FIVE, EIGHT, drawn(random.Random(9), 9, 12, 9)]:
        for at in range(len(rows)):
            yield n, rows[:at] + (rows[at][:2] + (0,),) + rows[at:]
        yield n, tuple((*row[:2], 0) for row in rows)


def full():
    """All pairs of 8, 16, 20 and 32 offices; as many rows as there may be of one pair, of few pairs, of two that lie opposite, and of 64 neighbours; and as many as older desks took."""
    rng = random.Random(32)
    for n in (8, 8, 8, 16, 16, 20, 32):
        amounts = rng.choice([range(10000), (0, 1, 9999)])
        yield n, tuple(p + (rng.choice(amounts),) for p in pairs(n))
    yield 8, tuple(p + (9999,) for p in pairs(8))
    yield 20, tuple(p + (1,) for p in pairs(20))
    yield 2, ((1, 2, 9999),) * 496
    yield 2, ((1, 2, 9999),) * MOST_ROWS
    yield 3, tuple(sorted(((1, 2, 7), (1, 3, 5), (2, 3, 9), (2, 3, 9)) * (MOST_ROWS // 4)))
    yield 4, tuple(sorted(((1, 3, 9999), (2, 4, 9998)) * (MOST_ROWS // 2)))
    yield 64, tuple((k, k + 1, rng.choice((1, 9999))) for k in range(1, 64) for _ in range(16)) + ((63, 64, 9999),) * 16


def accepted():
    tables = [*(table for _, table in by_hand()), *deciding(), *amounts_0(), *random_tables(), *full()]
    yield from (write_table(n, rows) for n, rows in dict.fromkeys(tables))
    yield from (write_table(*FIVE, 2), write_table(*EIGHT, 2))


def answered(text):
    """Reason, line, byte, peak, link, turns, rows and ways."""
    refusal = refusal_of(text)
    if refusal:
        return (*refusal, 0, 0, 0, 0, "-")
    n, rows, *_ = table_values(text)
    peak, link, turns, ways = turning.answer(n, rows)
    assert 2 * peak >= 2 * turning.floor(n, rows) - 1
    return 0, 0, 0, peak, link, turns, len(rows), ways or "-"


def main():
    for due, (n, rows) in by_hand():
        assert turning.answer(n, rows) == due, (n, rows, turning.answer(n, rows))
    store("turn", "turning", [*accepted(), *refused()], answered)


main()
