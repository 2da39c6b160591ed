"""Texts of many plans to make reports over (Rules, a report over many plans): stated ones, ratios that are alike, texts about as long as they may be, pieces about as long as a sheet may be, and damage."""
import itertools
import random

import chosen
import report
import rules
import sheets
from reading import LONGEST as LONGEST_SHEET
from report import LONGEST
from sheets import damaged, t


def halved(amount, family=""):
    """The sheet of one row on two offices, which is sent half either way: its peak and its across number are the amount, so that its ratio is 2."""
    return rules.sheet(2, ((1, 2, amount),), 4, family)


def halved_often(n, row, count):
    """So many circuits of the same two offices, each halved, and sent whole front and back by turns."""
    rows, sent = (row,) * count, [[row[2], row[2]]] * count
    return rules.text_of(rules.figures(n, rows, row[:2], sent, ("FB" * count)[:count]))


NOTHING = rules.sheet(2, ())
SQUARE = rules.sheet(4, ((1, 3, 1), (2, 4, 1)))
FIVE = rules.sheet(*chosen.FIVE)
NOT_BEST = t("R|4|4", "D|1|2|1|0|2|B", "C|1|2|1", "L|1|0|0", "L|2|2|1", "L|3|2|1", "L|4|2|1", "Z|1|3")


# the line of a family with no plan
NONE = "T|0|0|0|0"


def by_hand():
    """Texts with the lines of the report that each has."""
    yield b"", "T|0|0|0|0", NONE, "X|0"
    yield b"x", "T|0|0|0|0", NONE, "X|1"
    yield b"\n", "T|0|0|0|0", NONE, "X|1"
    # an R alone, and such as start no line, or a line that no LF ends
    yield b"R", "T|0|0|0|0", NONE, "X|1"
    yield b"R\n", "T|0|0|0|0", NONE, "X|1"
    yield b"R\nR\n", "T|0|0|0|0", NONE, "X|2"
    yield b"RR\n", "T|0|0|0|0", NONE, "X|1"
    yield b"R\rR\r\nR\r", "T|0|0|0|0", NONE, "X|2"
    yield b"\n\nR", "T|0|0|0|0", NONE, "X|2"
    yield b"r\n\x00R\n R\n", "T|0|0|0|0", NONE, "X|1"
    # no R at all
    yield SQUARE[6:], "T|0|0|0|0", NONE, "X|1"
    yield NOTHING, "T|1|0|0|0", NONE, "X|0"
    yield SQUARE, "T|1|2|4|2", NONE, "X|0"
    yield FIVE, "T|1|19|38|28", NONE, "X|0"
    yield NOT_BEST, "T|0|0|0|0", NONE, "X|1"
    # the square's ratio is the largest, and stands before two others of the same
    yield NOTHING + FIVE + NOT_BEST + SQUARE + halved(5) + halved(1), "T|5|27|4|2", NONE, "X|1"
    yield halved(5) + SQUARE, "T|2|7|10|5", NONE, "X|0"
    yield SQUARE + halved(5), "T|2|7|4|2", NONE, "X|0"
    # what stands before the first R is a piece
    yield b"E\t2\t1\t1\n" + SQUARE, "T|1|2|4|2", NONE, "X|1"
    yield SQUARE[6:] + SQUARE, "T|1|2|4|2", NONE, "X|1"
    # each line ends with CR LF, or the last with none
    yield (SQUARE + FIVE).replace(b"\n", b"\r\n"), "T|0|0|0|0", NONE, "X|2"
    yield (SQUARE + FIVE).replace(b"\n", b"\r"), "T|0|0|0|0", NONE, "X|1"
    yield SQUARE + FIVE[:-1], "T|1|2|4|2", NONE, "X|1"
    yield SQUARE + b"\n" + FIVE, "T|1|19|38|28", NONE, "X|1"
    yield SQUARE + b" " + FIVE, "T|0|0|0|0", NONE, "X|1"
    # an R line that no sheet follows
    yield b"R\t4\t4\n" + SQUARE + b"R\t4\t4\n", "T|1|2|4|2", NONE, "X|2"
    # on two fibres
    yield rules.sheet(4, ((1, 3, 1), (2, 4, 1)), 2) + halved(9999), "T|2|10001|4|2", NONE, "X|0"
    # SDH alone, beside SONET in either order, each with its own worst ratio, and with the other's size
    yield rules.sheet(2, (), 4, "M"), NONE, "T|1|0|0|0", "X|0"
    yield halved(5) + halved(7, "M"), "T|1|5|10|5", "T|1|7|14|7", "X|0"
    yield halved(7, "M") + halved(5) + b"R\n", "T|1|5|10|5", "T|1|7|14|7", "X|1"
    yield SQUARE + rules.sheet(*chosen.FIVE, 4, "M"), "T|1|2|4|2", "T|1|19|38|28", "X|0"
    yield rules.sheet(*chosen.FIVE, 2, "M") + halved(3, "M") + FIVE, "T|1|19|38|28", "T|2|22|6|3", "X|0"
    yield halved(1, "M") + halved(256, "M") + halved(257, "M") + halved(1), "T|1|1|2|1", "T|3|514|2|1", "X|0"
    yield NOTHING.replace(b"R\t2\t4\n", b"R\t2\t4\tM\n") + rules.sheet(2, (), 4, "M").replace(b"\tM", b""), NONE, NONE, "X|2"
    yield rules.sheet(2, (), 4, "M").replace(b"M", b"m") + halved(1, "M")[:-1], NONE, NONE, "X|2"
    # the largest numbers there are, beside such as round alike
    most = halved_often(2, (1, 2, 9999), 1024)
    yield most, "T|1|5119488|10238976|10238976", NONE, "X|0"
    yield most + halved_often(2, (1, 2, 9999), 1023), "T|2|10238976|10238976|10228977", NONE, "X|0"


def stated():
    for text, *due in by_hand():
        assert report.lines(text) == t(*due), (text, due, report.lines(text))
        yield text


def with_totals(text, accepted, refused, peaks, *worst):
    """A text whose plans are all of SONET."""
    assert report.totals(text) == ((accepted, peaks, *worst), (0, 0, 0, 0), refused), (len(text), report.totals(text))
    return text


def longest():
    """65,536 bytes and one or two more, of pieces of several kinds; sheets alone fill them to the last byte."""
    whole = NOTHING * 1801 + halved(1) * 14
    assert len(whole) == LONGEST and len(NOTHING) == 36
    yield with_totals(whole, 1815, 0, 14, 2, 1)
    yield with_totals(b"R\n" * 32768, 0, 32768, 0, 0, 0)
    yield with_totals(b"R\n" * 32767 + b"\nR", 0, 32768, 0, 0, 0)
    # as many of the smallest sheets as there is room for, and one more that is cut off
    yield with_totals(NOTHING * 1820, 1820, 0, 0, 0, 0)
    yield with_totals((NOTHING * 1821)[:LONGEST], 1820, 1, 0, 0, 0)
    yield with_totals(b"R" * LONGEST, 0, 1, 0, 0, 0)
    # a full sheet of 64 offices twice, and a third that is cut off
    full = halved_often(64, (17, 49, 9999), 1024)
    assert report.gives(full) == ("", 5119488, 10238976)
    yield (full * 3)[:LONGEST]
    for more in (b"\n", b"R", b"x" * 2):
        yield whole + more
    yield b"R\n" * 32768 + b"R"
    yield whole[:-1]


def long_pieces():
    """A sheet with lines behind it, or before it, so that it has 32,768 bytes and one more, between two that are accepted."""
    for size in (LONGEST_SHEET, LONGEST_SHEET + 1):
        for filled in (FIVE.ljust(size, b"\n"), FIVE.rjust(size, b"\n"), FIVE + b"Z\t0\t3\n" * ((size - len(FIVE)) // 6)):
            yield SQUARE + filled + halved(5)


def drawn(rng):
    """One sheet: ours by any of the four ways of routing, or another tool's."""
    n = rng.choice((2, 3, 4, 5, 8, 12, 20, 40))
    table = chosen.drawn(rng, n, rng.randint(1, 6), rng.choice((0, 1, 2, 3, 9, 9999)))
    rooms = rng.choice((rules.level_rooms, rules.lowered_rooms))
    if rng.random() < 0.3:
        return rules.text_of(rng.choice(list(sheets.foreign(rng, *table))))
    return rules.sheet(*table, rng.choice((2, 4)), rng.choice(("", "", "M")), rooms)


def ties(rng):
    """Rows of few sizes on few offices, so that many ratios are alike, in other numbers."""
    for _ in range(60):
        yield b"".join(rules.sheet(*chosen.drawn(rng, rng.randint(2, 4), 2, rng.choice((1, 2, 3)))) for _ in range(rng.randint(2, 12)))


def mixed(rng):
    """Sheets of both families by turns and by chance; some with M put in or left out."""
    for k in range(60):
        plans = [halved(rng.randrange(300), rng.choice(("", "M"))) if rng.random() < 0.3 else rules.sheet(*chosen.drawn(rng, rng.randint(2, 6), 3, 9), rng.choice((2, 4)), rng.choice(("", "M"))) for _ in range(rng.randint(1, 9))]
        if k % 4 == 0:
            plans = [plan.replace(b"\tM\n", rng.choice((b"\n", b"\tM\n", b"\tm\n", b"\t\n"))) if b"M" in plan else plan.replace(b"\n", rng.choice((b"\n", b"\tM\n")), 1) for plan in plans]
        yield b"".join(plans)


def many(rng):
    """Several sheets, some of them damaged, and damage to all of them together, which may make and break lines that start with R."""
    for k in range(160):
        plans = [drawn(rng) for _ in range(rng.randint(1, 7))]
        if k % 3 == 1:
            plans = [damaged(rng, plan) if rng.random() < 0.4 else plan for plan in plans]
        text = b"".join(plans)
        yield damaged(rng, text) if k % 3 == 2 else text


def checked():
    """The sheets that are checked one by one, some at a time."""
    texts = list(dict.fromkeys([*sheets.all_stated(), *itertools.islice(sheets.shapes(), 0, None, 9), *itertools.islice(sheets.rows_refused(), 0, None, 5)]))
    yield from (b"".join(texts[k:k + 9]) for k in range(0, len(texts), 9))


def rooms(text, k):
    """Lengths of buffers: the exact one, one byte less or more, none, or much."""
    need = 40 if report.first_reason(text) else len(report.lines(text))
    return (need, need - 1, need + 1, 0, 43) if k % 8 == 0 else (need, (need - 1, 43, 0)[k % 3])


def cases():
    large = [*longest(), *long_pieces()]
    small = [
        *stated(),
        *checked(),
        *ties(random.Random(12)),
        *mixed(random.Random("plans of both families")),
        *many(random.Random("texts of many plans")),
    ]
    yield from ((text, room) for k, text in enumerate(dict.fromkeys(small)) for room in rooms(text, k))
    yield from ((text, room) for k, text in enumerate(large) for room in rooms(text, 0 if len(text) > LONGEST else k + 1)[:2])
    # 24 is given before the buffer is looked at
    yield b"R\n" * 32768 + b"R", 0
