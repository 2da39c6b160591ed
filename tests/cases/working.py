#!/usr/bin/env python3
"""Writes tests/cases/working.calls: stored sequences of calls of the working table, each with the reply that the rule gives it (Rules, the working table).

The replies come from a list of 1,024 places and nothing kept beside it: the largest cut is rule A's over the rows held, summed afresh. No source of the project is used,
and rules.py neither: an across number is summed here by the offices that a cut parts, and there by the links of each front, so that one reading tells a fault of the other.
Run it by hand after adding a sequence and look at the difference; tests/desk/sequences.c makes the calls and compares."""
import itertools
import pathlib
import random
import re

from judging import FEWEST_OFFICES, MOST_AMOUNT, MOST_OFFICES
from judging import MOST_ROWS as PLACES

# numbers that would pass if their high bits were lost
WIDE = (256 + 2, 65536 + 2, 2**32 - 1)
# room for every table: 13 bytes a row, 9 for the R line
ROOM = 9 + 13 * PLACES


def across(rows, g, h):
    """Links g and h part nodes g+1 to h from the others."""
    return sum(d for i, j, d in rows if (g < i <= h) != (g < j <= h))


def acrosses(n, rows):
    """The across number of every cut, with its links. Of many rows each is not summed by itself: an office that a cut takes in adds its own rows, but for those to offices that are in already,
    which are across it no longer."""
    if len(rows) < 30:
        return [(across(rows, g, h), g, h) for g, h in pairs(n)]
    upto = [[0] * (n + 1) for _ in range(n + 1)]
    for i, j, d in rows:
        upto[i][j] += d
        upto[j][i] += d
    # the rows of each office to those up to another
    upto = [list(itertools.accumulate(line)) for line in upto]
    found = []
    for g in range(1, n):
        m = 0
        for h in range(g + 1, n + 1):
            m += upto[h][n] - 2 * (upto[h][h] - upto[h][g])
            found.append((m, g, h))
    return found


def largest_cut(n, rows):
    """Rule A: ties go to the smallest g, then the smallest h."""
    m, g, h = max(acrosses(n, rows), key=lambda one: one[0])
    return g, h, m


def pairs(n):
    return itertools.combinations(range(1, n + 1), 2)


class Sequence:
    """A working table, and the lines of the calls that were made of it."""

    def __init__(self, title):
        self.lines = ["# " + title]
        self.places = []

    def answer(self, word, given, *reply):
        self.lines.append(" ".join(map(str, (word, *given, "=", *reply))))
        return reply

    def refuse(self, word, given, reason):
        return self.answer(word, given, reason, 0, 0, 0, 0, 0)

    def accept(self, word, given, place):
        return self.answer(word, given, 0, 0, place, *largest_cut(self.n, self.rows()))

    def rows(self):
        return [row for row in self.places if row]

    def holds(self, place):
        return 1 <= place <= PLACES and self.places[place - 1] is not None

    def fault(self, first, second, amount):
        """4, 5 or 7, or 0 of a good row."""
        if not (1 <= first <= self.n and 1 <= second <= self.n):
            return 4
        return 5 if first >= second else 7 if amount > MOST_AMOUNT else 0

    # the calls

    def start(self, n, fibres, family=0):
        """0 is SONET, any other number SDH."""
        given = (n, fibres, family)
        if not FEWEST_OFFICES <= n <= MOST_OFFICES or fibres not in (2, 4):
            return self.refuse("start", given, 20 if FEWEST_OFFICES <= n <= MOST_OFFICES else 3)
        self.n, self.fibres, self.letter, self.places = n, fibres, "M" if family else "", [None] * PLACES
        return self.accept("start", given, 0)

    def add(self, *row):
        reason = self.fault(*row) or (0 if None in self.places else 21)
        if reason:
            return self.refuse("add", row, reason)
        place = self.places.index(None) + 1
        self.places[place - 1] = row
        return self.accept("add", row, place)

    def change(self, place, *row):
        reason = self.fault(*row) if self.holds(place) else 22
        if reason:
            return self.refuse("change", (place, *row), reason)
        self.places[place - 1] = row
        return self.accept("change", (place, *row), place)

    def remove(self, place):
        if not self.holds(place):
            return self.refuse("remove", (place,), 22)
        self.places[place - 1] = None
        return self.accept("remove", (place,), place)

    def row(self, place):
        if not self.holds(place):
            return self.answer("row", (place,), 22, 0, 0, 0, 0)
        return self.answer("row", (place,), 0, 0, *self.places[place - 1])

    def write(self, room):
        """What is written has | for a tab and / for the end of a line."""
        text = self.text()
        if room < len(text):
            return self.answer("write", (room,), 15, 0, 0, 0)
        return self.answer("write", (room,), 0, 0, 0, len(text), text)

    def text(self):
        # sorting keeps the places' order of rows with equal nodes
        lines = [("R", self.n, self.fibres, *self.letter)] + [("D", *row) for row in sorted(self.rows(), key=lambda row: row[:2])]
        return "".join("|".join(map(str, line)) + "/" for line in lines)

    def write_all_ways(self):
        need = len(self.text())
        for room in (0, 1, need - 1, need, min(need + 1, ROOM), ROOM):
            self.write(room)


def begun(title, n=6, fibres=4, rows=(), family=0):
    s = Sequence(title)
    s.start(n, fibres, family)
    for row in rows:
        s.add(*row)
    return s


def by_hand():
    """Replies that were found by hand."""
    s = begun("by hand: a ring of six")
    assert s.add(1, 5, 30) == (0, 0, 1, 1, 5, 30)
    assert s.add(2, 4, 10) == (0, 0, 2, 2, 5, 40)
    assert s.change(1, 1, 5, 20) == (0, 0, 1, 2, 5, 30)
    assert s.remove(3) == (22, 0, 0, 0, 0, 0)
    s.write_all_ways()
    yield s
    s = begun("by hand: the ring of five", n=5)
    for row in [(1, 2, 2), (1, 4, 5), (2, 3, 9), (2, 4, 11), (3, 4, 4), (3, 5, 3)]:
        reply = s.add(*row)
    assert reply == (0, 0, 6, 2, 4, 28)
    yield s
    s = begun("by hand: two offices", n=2, fibres=2)
    assert s.add(1, 2, 5) == (0, 0, 1, 1, 2, 5)
    assert s.remove(1) == (0, 0, 1, 1, 2, 0)
    s.write_all_ways()
    yield s


def starts():
    s = Sequence("starts that are refused, first of no table and then of one with a row: 3 before 20")
    bad = [(n, fibres) for n in (0, 1, MOST_OFFICES + 1, *WIDE) for fibres in (4, 3)] + [(n, fibres) for n in (FEWEST_OFFICES, MOST_OFFICES) for fibres in (0, 1, 3, 5, *WIDE)]
    for ring in bad:
        s.start(*ring)
    s.start(2, 4)
    s.add(1, 2, 7)
    for ring in bad:
        s.start(*ring)
    s.row(1)
    s.write(ROOM)
    yield s
    s = begun("a later start, on more offices and on fewer: no row stays, and no number", rows=[(1, 4, 9), (2, 5, 8), (3, 6, 7)])
    for n, fibres in ((6, 4), (64, 2), (3, 4), (2, 2), (33, 4)):
        s.start(n, fibres)
        s.row(1)
        s.remove(1)
        s.write_all_ways()
        for first, second in itertools.islice(pairs(n), 5):
            s.add(first, second, first + 10 * second)
    yield s


def families():
    s = begun("the family, by every kind of number: it is kept and written, and a later start takes another", family=1)
    s.write_all_ways()
    for row in ((1, 2, 3), (2, 6, 4)):
        s.add(*row)
    s.write_all_ways()
    s.change(1, 3, 4, 5)
    s.remove(2)
    s.write_all_ways()
    for family in (0, 1, 2, 0, 255, 256, 65536, 2**31, 2**32 - 1, 0):
        s.start(6, 4, family)
        s.write_all_ways()
        s.add(1, 6, 9)
        s.write(ROOM)
    for ring in ((1, 4), (65, 2), (6, 3), (6, 0)):
        for family in (0, 1, 2**32 - 1):
            s.start(*ring, family)
        s.write(ROOM)
    for n, fibres in ((2, 2), (64, 2), (20, 4), (32, 4)):
        s.start(n, fibres, 1)
        s.write_all_ways()
    yield s
    s = begun("a full table of 64 offices of SDH, the longest that is written", MOST_OFFICES, family=1)
    for _ in range(PLACES):
        s.add(63, 64, MOST_AMOUNT)
    s.write_all_ways()
    yield s


def bad_rows(n):
    """Rows with one fault and with several: 4 before 5 before 7."""
    nodes = [(0, 1), (1, 0), (0, 0), (1, n + 1), (n + 1, 1), (n, n + 1), (n + 1, n + 1), *((1, wide) for wide in WIDE), *((wide, 2) for wide in WIDE), (1, 1), (n, n), (n, 1), (3, 2), (1, 2), (1, n)]
    return [(*two, amount) for two in nodes for amount in (1, MOST_AMOUNT + 1, *WIDE[1:])]


def refusals():
    s = begun("rows that are refused, added and changed to: 4, 5, 7")
    s.add(1, 2, 3)
    for row in bad_rows(6):
        if s.fault(*row):
            s.add(*row)
            s.change(1, *row)
    for amount in (MOST_AMOUNT, MOST_AMOUNT + 1, 0):
        s.add(2, 6, amount)
        s.change(1, 2, 6, amount)
    s.write(ROOM)
    yield s
    s = begun("places that hold no row: 22, before 4, 5 and 7", rows=[(1, 2, 3), (2, 3, 4), (3, 4, 5)])
    s.remove(2)
    for place in (0, 2, 4, 496, 497, PLACES - 1, PLACES, PLACES + 1, PLACES + 2, 2048 + 1, *(wide - 1 for wide in WIDE), 2**32 - 1):
        for row in ((1, 2, 3), (7, 2, 3), (2, 2, 3), (1, 2, MOST_AMOUNT + 1), (0, 0, MOST_AMOUNT + 1)):
            s.change(place, *row)
        s.remove(place)
        s.row(place)
    for place in (1, 3):
        s.row(place)
    yield s


def places():
    s = begun("the lowest free place, again and again", rows=[(1, k, k) for k in (2, 3, 4, 5, 6, 2)])
    for gone, count in (((2, 5, 3), 4), ((6, 1), 3), ((1, 2, 3, 4, 5, 6, 7), 3)):
        for place in gone:
            s.remove(place)
            s.remove(place)
        for k in range(count):
            s.add(2, 3 + k, 100 + k)
    for place in range(10):
        s.row(place)
    yield s
    s = begun("a row of amount 0 holds its place")
    for amount in (0, 5, 0):
        s.add(2, 4, amount)
    s.row(1)
    s.change(2, 2, 4, 0)
    s.write_all_ways()
    s.remove(2)
    s.add(1, 6, 0)
    s.change(1, 1, 2, 1)
    s.remove(3)
    s.row(3)
    s.write(ROOM)
    yield s
    s = begun("a change keeps its place, and what it takes off is off", rows=[(1, 3, 40), (2, 5, 30), (4, 6, 20)])
    s.remove(1)
    for row in ((2, 5, 30), (2, 5, 31), (1, 6, 31), (1, 2, 0), (5, 6, MOST_AMOUNT), (2, 5, 30)):
        s.change(3, *row)
        s.row(1)
        s.row(3)
    s.add(1, 2, 3)
    s.write(ROOM)
    yield s


def ties():
    s = begun("ties of cuts go to the smallest g, then the smallest h: the cut moves on and back", n=4)
    assert s.add(2, 4, 1) == (0, 0, 1, 1, 2, 1)
    assert s.add(1, 3, 1) == (0, 0, 2, 1, 3, 2)
    assert s.remove(1) == (0, 0, 1, 1, 3, 1)
    assert s.add(3, 4, 1) == (0, 0, 1, 1, 3, 2)
    assert s.change(2, 1, 2, 1) == (0, 0, 2, 1, 3, 2)
    assert s.remove(1) == (0, 0, 1, 1, 2, 1)
    yield s
    for n in (3, 5, 8, 32, 64):
        s = begun("ties on %d offices: every row of 1, the rows in turn put on and taken off" % n, n=n)
        rows = list(pairs(n))[:: max(1, n * n // 60)]
        for row in rows:
            s.add(*row, 1)
        for place in [*range(2, len(rows) + 1, 2), *range(1, len(rows) + 1, 2)]:
            s.remove(place)
        yield s


def full_tables():
    for n, fibres, step in ((20, 2, 7), (64, 4, 11)):
        s = begun("a full table of %d offices: filled, refused, changed and emptied" % n, n, fibres)
        nodes = list(pairs(n))
        for k in range(PLACES):
            s.add(*nodes[k * step % len(nodes)], k * 7919 % (MOST_AMOUNT + 1))
        for row in ((1, 2, 3), (1, 2, 0), (1, n, MOST_AMOUNT), (1, n + 1, 3), (0, 0, MOST_AMOUNT + 1), (2, 2, MOST_AMOUNT + 1), (1, 2, MOST_AMOUNT + 1)):
            s.add(*row)
        s.write_all_ways()
        for place in (1, 248, 496, 497, PLACES, PLACES + 1, 0):
            s.change(place, 1, n, MOST_AMOUNT)
            s.change(place, 1, n + 1, MOST_AMOUNT)
        for place in (PLACES, 100, 1):
            s.remove(place)
        for k in range(4):
            s.add(k + 1, n - k, MOST_AMOUNT - k)
        s.write(ROOM)
        for k in range(PLACES):
            s.remove(k * 85 % PLACES + 1)
        s.remove(1)
        s.write_all_ways()
        yield s
    s = begun("the largest number: as many rows as there may be, of 9,999, on one cut", n=MOST_OFFICES)
    for k in range(PLACES):
        s.add(1 + k % 32, 33 + k % 32, MOST_AMOUNT)
    s.write_all_ways()
    yield s


def written():
    nodes = [(5, 6), (1, 2), (2, 3), (1, 6), (2, 3), (1, 2), (5, 6), (1, 2), (2, 6)]
    s = begun("written by nodes, then by place, whatever the amounts", rows=[(*two, 90 - 9 * k) for k, two in enumerate(nodes)])
    s.write_all_ways()
    for place in (2, 5, 1):
        s.remove(place)
    for row in ((2, 3, 7), (1, 2, 6), (1, 2, 99)):
        s.add(*row)
    s.change(8, 2, 3, 8)
    s.write_all_ways()
    yield s
    s = begun("no row is written", n=MOST_OFFICES, fibres=2)
    s.write_all_ways()
    yield s


def by_chance():
    rng = random.Random(4)
    for k in range(12):
        n = rng.randrange(2, 10)
        s = begun("by chance, %d" % (k + 1), n, rng.choice((2, 4)))
        for _ in range(60):
            row = (rng.randrange(0, n + 1), rng.randrange(1, n + 2), rng.choice((0, 1, 2, 500, MOST_AMOUNT, MOST_AMOUNT + 1)))
            place = rng.randrange(0, len(s.rows()) + 3)
            call = rng.choice((s.add, s.add, s.change, s.remove, s.row))
            call(*{"add": row, "change": (place, *row)}.get(call.__name__, (place,)))
        s.write_all_ways()
        yield s


STORED = "tests/cases/working.calls"


def calls_of(lines):
    """The calls of a sequence, without its title and the replies."""
    return [line.split(" = ")[0] for line in lines if line[0] != "#"]


def played(lines):
    """A stored sequence, each call of it made again."""
    s = Sequence(lines[0].removeprefix("# "))
    for call in calls_of(lines):
        word, *numbers = call.split()
        getattr(s, word)(*map(int, numbers))
    return s


def kept(made):
    """What is stored and made by no function any more: it stays, so that another limit takes no
    sequence away."""
    known = [calls_of(s.lines) for s in made]
    stored = re.split(r"^(?=# )", pathlib.Path(STORED).read_text(), flags=re.MULTILINE)
    sequences = [text.splitlines() for text in stored if text]
    return [played(lines) for lines in sequences if calls_of(lines) not in known]


def test_acrosses():
    """Both ways of adding up find the same."""
    rng = random.Random(2)
    for n, count in ((2, 30), (5, 31), (64, 60)):
        rows = [(*sorted(rng.sample(range(1, n + 1), 2)), rng.randrange(MOST_AMOUNT)) for _ in range(count)]
        assert acrosses(n, rows) == [(across(rows, g, h), g, h) for g, h in pairs(n)]


def main():
    test_acrosses()
    sequences = [*by_hand(), *starts(), *families(), *refusals(), *places(), *ties(), *full_tables(), *written(), *by_chance()]
    sequences += kept(sequences)
    lines = [line for s in sequences for line in s.lines]
    open(STORED, "w").write("".join(line + "\n" for line in lines))
    calls = [line.split(" = ") for line in lines if line[0] != "#"]
    assert {int(reply.split()[0]) for _, reply in calls} == {0, 3, 4, 5, 7, 15, 20, 21, 22}
    print(len(sequences), "sequences,", len(calls), "calls")
    for word in ("start", "add", "change", "remove", "row", "write"):
        mine = [reply.split() for call, reply in calls if call.startswith(word)]
        print(word, len(mine), "calls, reasons seen:", sorted({int(words[0]) for words in mine}))


main()
