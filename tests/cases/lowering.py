"""Tables that are routed by lowered rooms, with rule D and with the best choice (Rules, lowered rooms): stated ones, how many rows are left split, such as tell other readings of the rule apart, and what is refused."""
import itertools
import random

import best
import chosen
import circuits
import rules
from judging import MOST_OFFICES, MOST_ROWS
from matrix import table_values
from sheets import damaged, full_tables, write_table

LOWERED = rules.lowered_rooms


def by_hand():
    """Tables, the rooms, what is sent front and back, and the ways and the peak by rule D."""
    yield (2, ()), [0, 0], [], "", 0
    yield (2, ((1, 2, 0),)), [0, 0], [(0, 0)], "F", 0
    yield (2, ((1, 2, 5),)), [5, 5], [(5, 5)], "F", 5
    yield (2, ((1, 2, 9999),)), [9999, 9999], [(9999, 9999)], "F", 9999
    yield (4, ((1, 2, 1),)), [1, 1, 1, 1], [(1, 1)], "F", 1
    yield (4, ((1, 3, 1), (2, 4, 1))), [2, 2, 2, 2], [(1, 1), (1, 1)], "FB", 2
    # of the same two offices one is split at most
    yield (4, ((1, 3, 1), (1, 3, 1), (1, 3, 1), (2, 4, 1))), [4, 4, 4, 4], [(2, 0), (1, 1), (0, 2), (1, 1)], "FFBB", 3
    # the ring of five: what rule C would come to is sent at once
    yield chosen.FIVE, [16, 28, 24, 28, 22], [(4, 0), (0, 10), (18, 0), (10, 12), (8, 0), (6, 0)], "FBFBFF", 19
    # the ring of eight: links 5 and 7 have 2 in the place of 6, and 5-8 is split in the place of 6-7
    yield (8, ((1, 4, 1), (2, 3, 1), (5, 8, 2), (6, 7, 2))), [4, 6, 4, 2, 2, 6, 2, 2], [(2, 0), (2, 0), (2, 2), (4, 0)], "FFFF", 4


def holds(n, rows):
    """What the rule promises of a table."""
    cut, sent = rules.sent_by(n, rows, LOWERED)
    rooms = list(LOWERED(n, rows, cut[2]).values())
    loads = [rules.split_load(rows, sent, k) for k in range(1, n + 1)]
    assert loads == rooms and max(loads) == cut[2] and min(rooms) >= 0, (n, rows)
    assert [list(one) for one in sent] == rules.rule_b(n, rows, cut[2], LOWERED), (n, rows)


def none_below(n, rows):
    """No way of dividing the rows in halves loads every link at most as much and some link less."""
    loads = [rules.split_load(rows, rules.sent_by(n, rows, LOWERED)[1], k) for k in range(1, n + 1)]
    for fronts in itertools.product(*(range(2 * row[2] + 1) for row in rows)):
        sent = [(front, 2 * row[2] - front) for front, row in zip(fronts, rows)]
        other = [rules.split_load(rows, sent, k) for k in range(1, n + 1)]
        assert other == loads or any(one > load for one, load in zip(other, loads)), (n, rows)


def stated():
    for (n, rows), rooms, sent, ways, peak in by_hand():
        cut, found = rules.sent_by(n, rows, LOWERED)
        whole = rules.rule_d(rows, found)
        assert list(LOWERED(n, rows, cut[2]).values()) == rooms and list(found) == sent, (n, rows, found)
        assert ("".join(whole), best.peak_of(n, rows, whole)) == (ways, peak), (n, rows)
        yield n, rows


# ---- other readings of the rule: each lowers the rooms otherwise


def swapped(n, rows, m):
    return {g: max(2 * rules.across(rows, g, h) - (m if h < g else 0) for h in range(1, n + 1) if h != g) for g in range(1, n + 1)}


def never_lowered_below(n, rows, m):
    """M in the place of the rooms of the links below."""
    return {g: max(2 * rules.across(rows, g, h) - m for h in range(1, n + 1) if h != g) for g in range(1, n + 1)}


def in_turn(n, rows, m, links, pick=max, factor=2):
    room = dict.fromkeys(range(1, n + 1), m)
    for g in links:
        room[g] = pick(factor * rules.across(rows, g, h) - room[h] for h in room if h != g)
    return room


OTHERS = {
    "the two cases swapped": swapped,
    "M for room(h)": never_lowered_below,
    "links from n down": lambda n, rows, m: in_turn(n, rows, m, range(n, 0, -1)),
    "the smallest for the largest": lambda n, rows, m: in_turn(n, rows, m, range(1, n + 1), pick=min),
    "across numbers once": lambda n, rows, m: in_turn(n, rows, m, range(1, n + 1), factor=1),
    "link 1 as it is": lambda n, rows, m: in_turn(n, rows, m, range(2, n + 1)),
    "not lowered": rules.level_rooms,
}


def sent_otherwise(n, rows, rooms):
    """What is sent by other rooms, or None where they are no rooms to send by."""
    try:
        sent = rules.rule_b(n, rows, rules.rule_a(n, rows)[2], rooms)
    except AssertionError:
        return None
    rules.rule_c(rows, sent)
    return tuple(map(tuple, sent))


def deciding(rng):
    """For each other reading six small tables that it sends otherwise."""
    tables = [chosen.drawn(rng, rng.randint(3, 9), rng.randint(2, 6), rng.choice((1, 3, 9))) for _ in range(300)]
    for name, other in OTHERS.items():
        found = list(itertools.islice((table for table in tables if sent_otherwise(*table, other) != rules.sent_by(*table, LOWERED)[1]), 6))
        assert len(found) == 6, name
        yield from found


def counted(rng):
    """1 to 16 rows that all cross each other, which are all left split, beside others."""
    for count in range(1, best.MOST_SPLIT + 1):
        n = rng.randint(2 * count, MOST_OFFICES)
        table = chosen.crossing(n, count, lambda k: rng.randint(1, (1, 3, 9999)[count % 3]))
        yield table
        yield chosen.with_others(rng, *table, rng.randint(1, 6), 3)


def about_sixteen(rng):
    """Tables of which one way of sending leaves more rows split than are chosen for and the other does not, three each."""
    found = {True: [], False: []}
    while min(map(len, found.values())) < 3:
        n = rng.randint(34, MOST_OFFICES)
        table = chosen.with_others(rng, *chosen.crossing(n, rng.randint(15, 17), lambda k: rng.randint(1, 9)), rng.randint(2, 9), 9)
        by_level, by_lowered = (best.too_many(*table, rooms) for rooms in (rules.level_rooms, LOWERED))
        if by_level != by_lowered:
            found[by_lowered].append(table)
    return found[True][:3] + found[False][:3]


def random_tables(rng):
    """Those of the best choice, and some of circuits of the same two offices."""
    yield from itertools.islice(chosen.random_tables(rng), 0, 250, 2)
    yield from ((n, tuple(map(tuple, rows))) for n, rows in itertools.islice(circuits.small_tables(rng), 0, None, 5))


def full():
    """Full rings of 20 and 32 offices, and 64 with as many rows as there may be; and as many circuits of two offices."""
    yield from (table_values(text)[:2] for text in full_tables(random.Random(496)))
    yield 2, ((1, 2, 9999),) * MOST_ROWS


def around(need, room, k):
    """Lengths of buffers: the exact one, one byte less or more, none, or much."""
    return (need - 1, need, need + 1, 0, room) if k % 10 == 0 else (need, (need - 1, room, 0)[k % 3])


def routed(letter, written, refused, room, tables):
    for k, (n, rows) in enumerate(tables):
        text = write_table(n, rows, 2 if k % 9 == 4 else 4)
        need = 0 if refused(letter, text) else len(written(letter, text))
        yield from ((letter, text, lent) for lent in around(need, room, k) if lent >= 0)


def refusals(rng):
    """What is refused for the table's own reasons, among it what would be 23, and damaged tables."""
    yield from chosen.refused_before(rng)
    yield b""
    for _ in range(60):
        yield damaged(rng, write_table(*chosen.drawn(rng, rng.randint(2, 64), rng.randint(1, 9), 9999)))


def cases(written, refused, room):
    """Letters, texts and buffers for both calls: `l` with rule D, `m` with the best choice."""
    small = [
        *stated(),
        *deciding(random.Random(11)),
        *random_tables(random.Random("tables for lowered rooms")),
    ]
    large = [
        *counted(random.Random("split by lowered rooms")),
        *about_sixteen(random.Random("sixteen by one way")),
        *full(),
    ]
    tables = list(dict.fromkeys([*small, *large]))
    for n, rows in small:
        holds(n, rows)
        if len(rows) <= 4 and all(row[2] <= 2 for row in rows):
            none_below(n, rows)
    for letter in "lm":
        yield from routed(letter, written, refused, room, tables)
    for n, rows in chosen.too_many(random.Random("too many by lowered rooms")):
        text = write_table(n, rows)
        assert refused("m", text) == (23, 0) and refused("l", text) is None
        yield from (("m", text, lent) for lent in (0, 1, 1000, room))
        yield from (("l", text, lent) for lent in (0, room))
    rng = random.Random("refused before lowered rooms")
    for text in refusals(rng):
        yield from ((letter, text, rng.choice((0, 100, room))) for letter in "lm")
