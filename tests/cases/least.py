#!/usr/bin/env python3
"""Writes tests/cases/least.calls: stored tables with the least peak that one of five rules comes to, the floor, the first rule that comes to it, and the ways (Rules, the least of five rules).

A case is a line `least LENGTH REASON LINE BYTE PEAK FLOOR RULE ROWS WAYS`, the ways as letters F and B or - where there are none, and behind it the table's text, LENGTH bytes. No source of the project
is used. Run it by hand after adding a case and look at the difference; tests/desk/least.c makes the calls, and the twin answers the same tables by itself."""
import functools
import itertools
import random

import best
import chosen
import rules
import turning
from judging import MOST_OFFICES, MOST_ROWS
from matrix import table_values
from sheets import pairs, write_table
from tables import EIGHT, FIVE, drawn, refusal_of, refused, store

# ---- the rules for large tables: sums and lists that are kept, where rules.py and turning.py take them afresh


def is_small(n, rows):
    """Whether sums and lists are soon taken afresh."""
    return n * len(rows) <= 100


class Kept(turning.Reading):
    """A row's loads are taken from those of all links, which change by what a turn moves. The starts end at the floor: no later one has a lower peak, and of equal ones the smallest link's is taken."""

    def turn(self, n, rows, ways, loads):
        def path(place):
            i, j, _ = rows[place]
            return loads[i:j] if ways[place] == "F" else loads[1:i] + loads[j:]

        lists = [sorted(path(place), reverse=True) for place in range(len(rows))]
        peak = max(loads)

        def may(place):
            i, j, d = rows[place]
            turned, other = path(place), loads[1:i] + loads[j:] if ways[place] == "F" else loads[i:j]
            return max(load - d for load in turned) < peak and max(load + d for load in other) < peak

        return next((place for place in sorted(range(len(rows)), key=lambda place: self.key(lists[place], place)) if may(place)), None)

    def answer(self, n, rows):
        found, floor = [], turning.floor(n, rows)
        for a in self.starts(n):
            found.append(self.from_start(n, rows, a))
            if found[-1].peak == floor:
                break
        return min(found, key=lambda one: (one.peak, one.link))


def kept_rule_b(n, rows, m, rooms):
    """The across numbers of the rows that are not yet sent, less by each row when its turn has come."""
    over = [[rules.across(rows, g, h) for h in range(n + 1)] for g in range(n + 1)]
    room, sent = dict(rooms(n, rows, m)), []
    for row in rows:
        front = rules.front_of(row)
        s = min(room[g] + room[h] - 2 * over[g][h] for g in front for h in range(g, row[1]))
        f = min(2 * row[2], s // 2)
        sent.append([f, 2 * row[2] - f])
        for k in room:
            room[k] -= sent[-1][0 if k in front else 1]
        for g, h in itertools.product(front, (k for k in room if k not in front)):
            over[g][h] -= row[2]
            over[h][g] -= row[2]
    return sent


@functools.cache
def sent_by(n, rows, rooms):
    """What rules A to C send of each row: afresh of few rows."""
    if is_small(n, rows):
        return rules.sent_by(n, rows, rooms)[1]
    sent = kept_rule_b(n, rows, rules.rule_a(n, rows)[2], rooms)
    rules.rule_c(rows, sent)
    return tuple(map(tuple, sent))


# ---- the five rules, in the order in which ties go

ROOMS = rules.level_rooms, rules.lowered_rooms


def by_turns(n, rows):
    return (turning.Reading() if is_small(n, rows) else Kept()).answer(n, rows).ways


def by_best(n, rows, rooms):
    """None where more than 16 rows are left split."""
    sent = sent_by(n, rows, rooms)
    return best.sought(n, rows, sent) if len(best.split_places(sent)) <= best.MOST_SPLIT else None


def by_rule_d(n, rows, rooms):
    return rules.rule_d(rows, sent_by(n, rows, rooms))


@functools.cache
def outcomes(n, rows):
    """The peak and the ways that each rule comes to; None where it is not there."""
    found = [by_turns(n, rows), *(by_best(n, rows, rooms) for rooms in ROOMS), *(by_rule_d(n, rows, rooms) for rooms in ROOMS)]
    return [ways if ways is None else (best.peak_of(n, rows, ways), "".join(ways)) for ways in found]


def answer(n, rows):
    """Peak, floor, rule and ways: of several rules with the least peak the first."""
    peak, number = min((one[0], number) for number, one in enumerate(outcomes(n, rows), 1) if one is not None)
    return peak, turning.floor(n, rows), number, outcomes(n, rows)[number - 1][1]


def tied(n, rows):
    """The rules that come to the least peak, in their order."""
    peak = answer(n, rows)[0]
    return tuple(number for number, one in enumerate(outcomes(n, rows), 1) if one is not None and one[0] == peak)


# ---- tables


def by_hand():
    """Tables with what is known of them: the answer, and the peaks of all rules."""
    yield (16, 14, 1, "BFFBFF"), (16, 19, 19, 19, 19), FIVE
    yield (3, 3, 1, "BFBF"), (3, 4, 4, 4, 4), EIGHT
    yield (0, 0, 1, ""), (0,) * 5, (2, ())
    yield (0, 0, 1, "B"), (0,) * 5, (2, ((1, 2, 0),))
    yield (5, 3, 1, "B"), (5,) * 5, (2, ((1, 2, 5),))
    yield (2, 1, 1, "BF"), (2,) * 5, (4, ((1, 3, 1), (2, 4, 1)))


def crossing(rng, count, others, most):
    """So many rows that all cross each other, of which on 34 offices and more as many may be left split as there are, and others beside them."""
    n = rng.choice((2 * count, rng.randint(2 * count, MOST_OFFICES)))
    nodes = sorted(rng.sample(range(1, n + 1), 2 * count))
    rows = [(i, j, rng.choice((1, most, rng.randint(1, most)))) for i, j in zip(nodes, nodes[count:])]
    rows += [(*rng.choice(pairs(n)), rng.randint(0, most)) for _ in range(others)]
    return n, tuple(sorted(rows, key=lambda row: row[:2]))


# By the rules that have the least peak, the first of which is the answer's: tables on which no others do, as they were found among many. The best choice by lowered rooms and rule D are the least where many
# rows cross and others stand beside them.
FOUND = {
    (2,): (9, "1-5 4, 2-7 4, 2-8 4, 3-7 3, 5-7 4, 6-8 3"),
    (3,): (42, "1-23 4, 2-24 4, 3-25 5, 4-15 4, 4-27 2, 5-28 4, 7-29 5, 8-30 4, 8-31 1, 9-31 2, 10-32 3, 11-33 2, 14-35 4, 15-36 1, 16-37 1, 17-38 1, 18-37 1, 20-40 5, 21-22 5, 21-41 2, 22-42 4, 30-31 1, 30-32 5, 35-42 3"),
    (4,): (34, "1-18 3, 2-19 2, 3-20 1, 4-21 2, 5-22 3, 6-23 3, 7-24 2, 8-25 3, 9-26 1, 10-27 2, 11-28 1, 12-29 2, 12-31 1, 13-30 3, 14-31 3, 15-32 2, 16-33 2, 17-34 2"),
    (5,): (34, "1-18 5, 2-19 5, 3-20 2, 4-21 4, 5-22 2, 6-12 3, 6-23 5, 7-24 1, 8-25 4, 9-26 3, 10-27 3, 11-28 5, 12-29 5, 13-30 2, 14-31 5, 15-23 1, 15-32 2, 16-33 1, 17-34 3"),
    (1, 2): (6, "1-2 3, 2-5 3, 3-5 1, 4-6 1"),
    (1, 3): (7, "2-5 2, 3-5 2, 4-6 2, 5-6 1, 5-7 1"),
    (1, 4): (34, "1-18 3, 2-19 2, 3-20 3, 3-34 1, 4-21 1, 5-22 3, 6-23 3, 7-24 2, 8-25 3, 9-26 2, 10-27 3, 11-28 1, 12-29 1, 13-30 1, 14-31 1, 15-32 2, 16-33 1, 17-34 2"),
    (1, 5): (36, "1-19 2, 2-20 5, 3-21 4, 4-22 4, 5-23 2, 5-26 4, 6-24 3, 7-25 1, 8-26 4, 9-27 4, 10-28 3, 11-29 4, 12-30 4, 13-31 5, 14-32 2, 15-33 4, 16-34 3, 17-35 4, 18-36 2"),
    (2, 3): (40, "1-21 2, 2-23 1, 4-24 1, 5-25 1, 5-35 2, 6-25 1, 7-26 2, 8-9 2, 8-11 1, 9-27 2, 10-16 1, 10-28 1, 11-29 1, 12-32 2, 13-33 1, 14-20 1, 14-34 1, 15-35 1, 16-36 2, 17-37 1, 18-38 1, 19-39 1, 20-40 2, 23-34 2, 36-38 1"),
    (2, 4): (8, "1-3 9, 4-8 7, 6-7 5, 6-8 5"),
    (2, 3, 5): (35, "1-18 1, 2-19 1, 3-20 1, 4-21 1, 5-22 1, 6-18 1, 6-23 1, 7-24 1, 8-12 1, 8-20 1, 8-25 1, 9-26 1, 10-24 1, 10-27 1, 11-29 1, 12-30 1, 13-31 1, 14-32 1, 15-33 1, 16-26 1, 16-34 1, 17-24 1, 17-35 1"),
    (2, 4, 5): (38, "1-20 1, 2-21 1, 3-22 1, 4-23 1, 5-24 1, 6-13 1, 6-25 1, 7-26 1, 8-27 1, 9-28 1, 10-29 1, 11-30 1, 12-31 1, 14-33 1, 15-34 1, 16-35 1, 17-19 1, 17-36 1, 18-37 1, 19-38 1"),
    (2, 3, 4, 5): (39, "1-21 1, 1-26 1, 2-16 1, 2-22 1, 3-12 1, 4-23 1, 5-24 1, 5-26 1, 6-25 1, 6-26 1, 7-27 1, 8-28 1, 9-29 1, 10-30 1, 11-29 1, 11-31 1, 12-32 1, 13-33 1, 15-26 1, 16-34 1, 17-35 1, 18-36 1, 18-36 1, 18-38 1, 19-37 1, 20-38 1, 34-37 1"),
    (3, 4): (48, "1-25 1, 2-26 1, 2-41 1, 3-27 1, 4-28 2, 5-22 2, 5-28 2, 5-29 2, 6-30 1, 7-31 2, 7-37 1, 8-32 1, 9-33 1, 10-34 1, 11-24 2, 11-35 2, 12-36 2, 13-37 1, 14-38 2, 15-39 1, 16-40 1, 17-41 2, 18-42 1, 19-32 1, 19-43 2, 20-44 1, 21-45 2, 22-30 2, 22-46 2, 23-47 1, 24-48 1, 27-32 2, 27-38 2, 30-46 2"),
    (3, 5): (36, "1-18 1, 2-19 1, 3-20 1, 4-22 1, 5-21 1, 5-23 1, 6-24 1, 6-29 1, 7-25 1, 8-26 1, 9-12 1, 9-19 1, 9-28 1, 10-29 1, 11-30 1, 12-24 1, 12-31 1, 13-32 1, 14-33 1, 15-34 1, 16-35 1, 17-18 1, 17-36 1, 19-26 1"),
    (4, 5): (34, ", ".join(f"{k}-{k + 17} 1" for k in range(1, 18))),
}


def spelled(n, text):
    """A table of rows that are spelled so."""
    pairs_of = (row.replace("-", " ").split(" ") for row in text.split(", "))
    return n, tuple(tuple(map(int, row)) for row in pairs_of)


def found():
    """Each rule the least alone, and each two rules that tie, the first of them the answer's."""
    for due, table in FOUND.items():
        assert tied(*spelled(*table)) == due, (due, tied(*spelled(*table)))
        yield spelled(*table)


def random_tables():
    rng = random.Random(1414)
    for _ in range(250):
        yield drawn(rng, rng.choice((2, 3, 4, 5, 6, 9, 12, 16)), rng.randint(1, 20), rng.choice((0, 1, 2, 3, 20, 9999)))
    for _ in range(24):
        yield crossing(rng, rng.randint(17, 32), rng.choice((0, 0, 1, 5)), rng.choice((1, 9, 9999)))
    for n in (20, 32, 33, 64):
        yield drawn(rng, n, 40, 9999)


def around_sixteen():
    """15 to 18 split rows alone: of 16 every way is tried, of 17 none."""
    rng = random.Random(16)
    for count in (15, 16, 17, 18):
        yield chosen.crossing(2 * count, count, lambda k: 9999 - k)
        yield chosen.crossing(MOST_OFFICES, count, lambda k: rng.choice((1, 3, 40)))


def full():
    """All pairs of 8, 20 and 32 offices, and of 64 as many as a table may have rows, drawn evenly; and as many circuits of one pair and of two."""
    rng = random.Random(64)
    for n, amounts in ((8, range(10000)), (8, (9999,)), (20, range(101)), (32, range(101)), (32, range(101))):
        yield n, tuple(p + (rng.choice(amounts),) for p in pairs(n))
    for _ in range(2):
        yield 64, tuple(p + (rng.randint(0, 100),) for p in sorted(rng.sample(pairs(64), MOST_ROWS)))
    yield 2, ((1, 2, 9999),) * MOST_ROWS
    yield 4, tuple(sorted(((1, 3, 9999), (2, 4, 9998)) * (MOST_ROWS // 2)))


def accepted():
    tables = [*(table for *_, table in by_hand()), *found(), *random_tables(), *around_sixteen(), *full()]
    yield from (write_table(n, rows) for n, rows in dict.fromkeys(tables))
    yield from (write_table(*FIVE, 2), write_table(*EIGHT, 2, "M"))


def answered(text):
    """Reason, line, byte, peak, floor, rule, rows and ways."""
    refusal = refusal_of(text)
    if refusal:
        return (*refusal, 0, 0, 0, 0, "-")
    n, rows, *_ = table_values(text)
    peak, floor, rule, ways = answer(n, rows)
    assert floor <= peak and best.peak_of(n, rows, ways) == peak
    return 0, 0, 0, peak, floor, rule, len(rows), ways or "-"


def kept_is_afresh():
    """On tables of which both are soon done, what is kept is what is taken afresh."""
    rng = random.Random(40)
    for _ in range(100):
        n, rows = drawn(rng, rng.randint(2, 9), rng.randint(1, 14), rng.choice((1, 3, 99)))
        assert Kept().answer(n, rows) == turning.answer(n, rows), (n, rows)
        for rooms in ROOMS:
            m = rules.rule_a(n, rows)[2]
            assert kept_rule_b(n, rows, m, rooms) == rules.rule_b(n, rows, m, rooms), (n, rows)


def main():
    for due, peaks, (n, rows) in by_hand():
        assert answer(n, rows) == due, (n, rows, answer(n, rows))
        assert tuple(one[0] for one in outcomes(n, rows)) == peaks, (n, rows)
    kept_is_afresh()
    store("least", "least", [*accepted(), *refused()], answered)


main()
