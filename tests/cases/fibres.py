"""Fibres by hand (Rules, fibres): what an R line's second number may be and when 20 is given, beside 2, 3 and 1 too; and the size to buy on both sides of each size."""
from matrix import first_reason_of_matrix, write_matrix
from reading import first_reason, first_reason_of_sheet
from sheets import pairs, t

# the fibres that an R line may say, and what is said of them
SAID = [("0", 20), ("1", 20), ("2", 0), ("3", 20), ("4", 0), ("5", 20), ("8", 20), ("20", 20), ("22", 20), ("24", 20), ("40", 20), ("9999999", 20), ("99999999", 20)]
# R lines of four offices by their other faults: 2 comes before 3, and 3 before 20
MISSHAPEN = ["R|4", "R|4|", "R|4|4|4", "R|4|2|4", "R|4|3|3", "R|4|4|", "R|4||4", "R||4", "R|4|04", "R|4|02", "R|4|00", "R|4|100000000", "R|4|F", "R|4| 4", "R|4|4 ", "R|4|4\r", "R|4|-4",
             "R|04|4", "R|04|3", "R|65", "R|1", "R|65|03", "R|1|4|4", "R|65|3|3", "r|4|3"]
RING_SIZES = ["0", "1", "65", "99999999"]
# an unsplit peak, and the size for it with four fibres and with two: each side of each size
SIDES = [(0, 3, 3), (1, 3, 3), (2, 3, 12), (3, 3, 12), (4, 12, 12), (6, 12, 12), (7, 12, 48), (12, 12, 48), (13, 48, 48), (24, 48, 48), (25, 48, 192), (48, 48, 192), (49, 192, 192), (96, 192, 192),
         (97, 192, 768), (192, 192, 768), (193, 768, 768), (384, 768, 768), (385, 768, 0), (768, 768, 0), (769, 0, 0), (9999, 0, 0)]


def r_lines():
    """R lines, and the reason that each is given."""
    yield from (("R|4|" + fibres, reason) for fibres, reason in SAID)
    yield from ((line, 2) for line in MISSHAPEN)
    yield from (("R|%s|%s" % (n, fibres), 3) for n in RING_SIZES for fibres in ("2", "3", "4", "99999999"))


def stated(reason_of, reply, text):
    assert reason_of(text) == reply, (text[:80], reply)
    return text


def tables():
    """Each R line alone, and before a row that is bad, which its own reason comes before."""
    for line, reason in r_lines():
        for rows, other in (([], None), (["D|5|2|10000"], (4, 2))):
            yield stated(first_reason, (reason, 1) if reason else other, t(line, *rows))


def ends_of_sheets(four):
    """What may follow an R line of the square: what makes it a good sheet, one figure that is false, and less."""
    good = ["D|1|3|1|1|1|F", "D|2|4|1|1|1|B", "C|1|3|2", "L|1|2|2", "L|2|2|1", "L|3|2|0", "L|4|2|1", "Z|2|3" if four else "Z|2|12"]
    return [(good, None), (["D|1|3|1|1|2|F", *good[1:]], (8, 2)), ([*good[:-1], "Z|2|12" if four else "Z|2|3"], (12, 9)), (good[:3], (2, 5))]


def sheets():
    for line, reason in r_lines():
        for rest, other in ends_of_sheets(line != "R|4|2"):
            yield stated(first_reason_of_sheet, (reason, 1) if reason else other, t(line, *rest))


def of_sides():
    """Tables of two offices, the sheet that each is routed to, and the same sheet with the size for the other number of fibres."""
    for peak, *sizes in SIDES:
        for fibres, size, other in zip((4, 2), sizes, reversed(sizes)):
            table = ["R|2|%d" % fibres, "D|1|2|%d" % peak]
            lines = [table[0], table[1] + "|%d|%d|F" % (peak, peak), "C|1|2|%d" % peak, "L|1|%d|%d" % (peak, peak), "L|2|%d|0" % peak]
            sheet, wrong = (t(*lines, "Z|%d|%d" % (peak, z)) for z in (size, other))
            yield t(*table), stated(first_reason_of_sheet, None, sheet), stated(first_reason_of_sheet, (12, 6) if size != other else None, wrong)


def matrices():
    """The fibres that a reader is told, and matrices that are good or get 1, 2, 3, 7, 17, 18 or 16 with 2 and 4: with any other number it is 20, first of all."""
    texts = [
        (t("0|7", "7|0"), None), (b"x" * 32769, (1, 0)), (b"", (2, 1)), (t("0|x", "7|0"), (2, 1)), (t("0|7", "7"), (2, 2)), (t("R|2|4", "D|1|2|7"), (2, 1)),
        (t("0"), (3, 1)), (t("|".join("0" * 65)), (3, 1)), (t("0|10000", "7|0"), (7, 1)), (t("0|7", "7|1"), (17, 2)), (t("0|7", "8|0"), (18, 1)),
        (write_matrix(46, [pair + (1,) for pair in pairs(46)]), (16, 0)),
    ]
    for text, reply in texts:
        for fibres in range(10):
            due = reply if fibres in (2, 4) else (20, 0)
            yield str(fibres), stated(lambda one: first_reason_of_matrix(one, fibres), due, text)


def cases(routed, room):
    """Letter, text and room of each case."""
    yield from ((letter, table, room) for table in tables() for letter in "TRW")
    yield from ((letter, sheet, room * (letter == "S")) for sheet in sheets() for letter in "CPS")
    for table, sheet, wrong in of_sides():
        assert routed(table) == sheet, table
        yield "R", table, room
        yield from ((letter, text, room * (letter == "S")) for letter in "CS" for text in (sheet, wrong))
    yield from ((fibres, matrix, room) for fibres, matrix in matrices())
    # no room is asked for before 20
    yield from (("3", matrix, 0) for fibres, matrix in matrices() if fibres == "3")
