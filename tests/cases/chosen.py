"""Tables that are routed by the best choice: how many rows are left split, ties of each kind, and what is refused before 23 and behind it (Rules, the best choice)."""
import itertools
import random

import best
import rules
from judging import MOST_OFFICES, MOST_ROWS
from matrix import table_values
from reading import LONGEST, first_reason
from sheets import damaged, full_tables, pairs, t, write_table

FIVE = (5, ((1, 2, 2), (1, 4, 5), (2, 3, 9), (2, 4, 11), (3, 4, 4), (3, 5, 3)))


def by_hand():
    """Tables, the peak and the ways of the best choice, and the peak of rule D."""
    yield (2, ()), (0, ""), 0
    yield (2, ((1, 2, 0),)), (0, "F"), 0
    yield (2, ((1, 2, 5),)), (5, "F"), 5
    # each of the four ways has this peak, and rule D sends one row back
    yield (4, ((1, 3, 1), (2, 4, 1))), (2, "FF"), 2
    # 2-4 alone is split: with it front the peak is 20
    yield FIVE, (19, "FBFBFF"), 19
    yield (8, ((1, 4, 1), (2, 3, 1), (5, 8, 2), (6, 7, 2))), (4, "FFFF"), 4
    yield (6, ((1, 4, 3), (2, 5, 5), (3, 6, 4))), (9, "FBF"), 9
    yield (6, ((1, 4, 1), (2, 5, 1), (3, 6, 2))), (3, "FBF"), 4
    # the least peak is that of seven ways, two of which send one row back
    yield (8, ((1, 5, 3), (2, 6, 3), (3, 7, 3), (4, 8, 6))), (12, "FFBF"), 15
    yield (8, ((1, 5, 1), (2, 6, 1), (3, 7, 1), (4, 8, 1))), (3, "FFBF"), 3
    # with three rows back the first could go front
    yield (10, ((1, 6, 1), (2, 7, 2), (3, 8, 1), (4, 9, 3), (5, 10, 2))), (6, "BFFBF"), 7


def stated():
    for (n, rows), (peak, ways), by_rule_d in by_hand():
        sent = rules.sent_by(n, rows)[1]
        found = best.ways(n, rows)
        assert (best.peak_of(n, rows, found), "".join(found)) == (peak, ways), (n, rows, found)
        assert best.peak_of(n, rows, rules.rule_d(rows, sent)) == by_rule_d, (n, rows)
        yield n, rows


def crossing(n, count, amount):
    """So many rows that all cross each other, of amounts above 0: all of them are left split."""
    nodes = [1 + k * n // (2 * count) for k in range(2 * count)]
    rows = tuple((i, j, amount(k)) for k, (i, j) in enumerate(zip(nodes, nodes[count:])))
    assert len(best.split_places(rules.sent_by(n, rows)[1])) == count, rows
    return n, rows


def counted(rng):
    """0 to 16 split rows, of equal amounts, of the largest and of any."""
    for count in range(1, best.MOST_SPLIT + 1):
        for most in (1, 3, 9999):
            yield crossing(rng.randint(2 * count, MOST_OFFICES), count, lambda k: rng.randint(1, most))
    for count in (15, best.MOST_SPLIT):
        yield crossing(2 * count, count, lambda k: 9999)
        yield crossing(MOST_OFFICES, count, lambda k: 9999 - k)


def deciding(rng):
    """For each other reading of a sentence five small tables that it answers otherwise."""
    tables = [crossing(2 * count, count, amounts.__getitem__) for count in (2, 3, 4, 5) for amounts in itertools.product((1, 2, 3), repeat=count)]
    tables += [drawn(rng, rng.randint(3, 9), rng.randint(2, 6), rng.choice((1, 3, 9))) for _ in range(400)]
    for other in best.OTHERS:
        found = list(itertools.islice((table for table in tables if other().ways(*table) != best.ways(*table)), 5))
        assert len(found) == 5, other
        yield from found


def drawn(rng, n, count, most):
    """Rows of few pairs, so that some join the same two offices."""
    few = rng.choices(pairs(n), k=max(1, count // 2))
    return n, tuple((i, j, rng.randint(0, most)) for i, j in sorted(rng.choices(few, k=count) + rng.choices(pairs(n), k=count)))


def with_others(rng, n, rows, count, most):
    """Other rows beside those that cross, some of amount 0."""
    others = [p + (rng.choice((0, 1, rng.randint(0, most))),) for p in rng.choices(pairs(n), k=count)]
    return n, tuple(sorted([*rows, *others], key=lambda row: row[:2]))


def random_tables(rng):
    for _ in range(150):
        n = rng.choice((2, 3, 4, 5, 6, 8, 12, 16, 20, 40))
        yield drawn(rng, n, rng.randint(1, 12), rng.choice((1, 2, 9, 9999)))
    for _ in range(100):
        count, most = rng.randint(1, 9), rng.choice((1, 2, 3, 40, 9999))
        table = crossing(rng.randint(2 * count, MOST_OFFICES), count, lambda k: rng.randint(1, most))
        yield with_others(rng, *table, rng.randint(0, 9), most)
    # those that are routed by rule D too, since our reading of rule B takes its time over them
    yield from (table_values(text)[:2] for text in full_tables(random.Random(496)))
    yield 2, ((1, 2, 9999),) * MOST_ROWS


def too_many(rng):
    """17 split rows, and as many as there can be; on the smallest ring that has 17, on the largest, and beside other rows."""
    for n, count in ((34, 17), (64, 17), (48, 20), (64, 32)):
        yield crossing(n, count, lambda k: 1)
        yield crossing(n, count, lambda k: rng.randint(1, 9999))
    for _ in range(4):
        yield with_others(rng, *crossing(64, 24, lambda k: 9999), 6, 3)


def refused_before(rng):
    """What would be 23, with one of the table's own reasons on its first, a middle or its last line; and a text that is too long."""
    n, rows = crossing(34, 17, lambda k: 5)
    lines = ["R|34|4", *("D|%d|%d|%d" % row for row in rows)]
    bad = {2: ["D|1|2", "D|01|2|3", "x"], 4: ["D|0|2|1", "D|1|35|10000"], 5: ["D|34|34|1"], 6: ["D|1|2|10000"], 7: ["D|17|34|10000"]}
    for reason, others in bad.items():
        for line in others:
            for at in {2: (1, 9, 18), 4: (1, 9, 18), 5: (1, 9, 18), 6: (9, 18), 7: (18,)}[reason]:
                text = t(*lines[:at], line, *lines[at:])
                assert first_reason(text) == (reason, at + 1), (line, at)
                yield text
    for reason, ring in ((3, "R|65|4"), (20, "R|34|3"), (2, "R|34")):
        text = t(ring, *lines[1:])
        assert first_reason(text) == (reason, 1)
        yield text
    yield t(*lines, end="")
    most = b"".join([write_table(n, rows), b"D\t17\t34\t0\n" * (MOST_ROWS - len(rows))])
    assert best.too_many(*table_values(most)[:2])
    yield most
    yield most + b"D\t17\t34\t0\n"
    yield write_table(n, rows).ljust(LONGEST, b"x")
    yield write_table(n, rows).ljust(LONGEST + 1, b"x")
    for _ in range(60):
        yield damaged(rng, write_table(n, rows))
    for _ in range(60):
        yield damaged(rng, write_table(*drawn(rng, rng.randint(2, 64), rng.randint(1, 9), 9999)))


def cases(written, refused, room):
    """Each text with a buffer: the exact length, one byte less or more, none, or much. A table of more than 16 split rows is 23 with none too."""
    tables = [
        *stated(),
        *counted(random.Random(10)),
        *deciding(random.Random("ties of the best choice")),
        *random_tables(random.Random("tables for the best choice")),
    ]
    for k, text in enumerate(write_table(*table, fibres) for fibres in (4, 2) for table in dict.fromkeys(tables if fibres == 4 else tables[::9])):
        need = 0 if refused(text) else len(written(text))
        yield from ((text, lent) for lent in ((need - 1, need, need + 1, 0, room) if k % 12 == 0 else (need, (need - 1, room, 0)[k % 3])) if lent >= 0)
    rng = random.Random("too many to choose for")
    for text in [write_table(n, rows) for n, rows in too_many(rng)]:
        assert refused(text) == (23, 0)
        yield from ((text, lent) for lent in (0, 1, 1000, room))
    rng = random.Random("refused before the best choice")
    yield from ((text, rng.choice((0, 100, room))) for text in refused_before(rng))
