"""Bytes by hand (Rules, the byte): texts with the reason, the line and the byte that they get. Where a field of a good line is spelled otherwise, the byte is stated as so many behind the field's start."""
import rules
from judging import MOST_OFFICES, MOST_ROWS
from matrix import write_matrix
from pointing import byte_of
from sheets import good, pairs, places, t, write_table

# spellings of a number, * being the number itself, and how far behind its start the fault is; None is its length
NUMBERS = [("", 0), (" *", 0), ("* ", None), ("x", 0), ("-1", 0), ("+1", 0), ("*x", None), ("*\r", None), ("*.", None), ("00", 1), ("01", 1), ("007", 1), ("123456789", 8), ("999999999", 8), ("1234567890", 8)]
# the same of a letter, of a way and of the M of a ring of SDH
LETTERS = [("", 0), (" *", 0), ("* ", 1), ("**", 1), ("*1", 1), ("X", 0), ("1", 0), ("\0", 0)]
WAYS = [("", 0), (" *", 0), ("* ", 1), ("FB", 1), ("BF", 1), ("FF", 1), ("f", 0), ("b", 0), ("F\r", 1), ("X", 0), ("0", 0)]

MARKS = [("", 0), (" *", 0), ("* ", 1), ("MM", 1), ("M\r", 1), ("m", 0), ("N", 0), ("F", 0), ("0", 0), ("\0", 0)]


def start(parts, k):
    return 1 + sum(len(part) + 1 for part in parts[:k])


def respelled(parts):
    """A line's fields with one of them in another spelling, and the byte that is then at fault."""
    for k, part in enumerate(parts):
        kind = NUMBERS if part.isdigit() else LETTERS if not k else MARKS if part == "M" else WAYS
        for spelling, behind in kind:
            new = spelling.replace("*", part)
            if new != part:
                yield "|".join(parts[:k] + [new] + parts[k + 1:]) + "\n", start(parts, k) + (len(part) if behind is None else behind)


def cut(parts):
    """A line that ends too early, with its LF and without it, behind a field or behind a tab; and one with a field too many. An R line may end behind the fibres, or go on with a tab and M."""
    may_go_on = parts[0] == "R" and len(parts) == 3
    for k in range(1, len(parts) + 1):
        shorter = "|".join(parts[:k])
        yield shorter, len(shorter) + 1
        if k < len(parts):
            if parts[0] != "R" or k != 3:
                yield shorter + "\n", len(shorter) + 1
            yield shorter + "|\n", len(shorter) + 2
            yield shorter + "|", len(shorter) + 2
    whole = "|".join(parts)
    yield from ((whole + more + "\n", len(whole) + 1 + (may_go_on and more[0] == "|")) for more in ("|", "|0", "|F", "|m", " ", "\r", "M"))


def misshapen(lines, at, counted=True):
    """A text with one line misshapen, and what it gets. Nothing stands behind a line without LF. The first line of a matrix has no number of fields that is due."""
    parts = lines[at].split("|")
    wrong_count = cut(parts) if counted else [(lines[at], len(lines[at]) + 1), (lines[at] + "|", len(lines[at]) + 2), (lines[at] + "|\n", len(lines[at]) + 2)]
    for line, byte in [*respelled(parts), *wrong_count, ("\n", 1), (" \n", 1)]:
        rest = "".join(one + "\n" for one in lines[at + 1:]) if line.endswith("\n") else ""
        yield t(*lines[:at], line + rest, end=""), (2, at + 1, byte)


def large_sheet():
    """64 offices, rows of few pairs halved."""
    half, rows = MOST_OFFICES // 2, [(k, k + 32, 9999) for k in range(1, 33, 2)]
    return [line.decode().replace("\t", "|") for line in rules.text_of(rules.figures(MOST_OFFICES, rows, (half, 2 * half), [[9999, 9999]] * 16, "FB" * 8)).splitlines()]


TABLE = ["R|12|4", *("D|%d|%d|%d" % (k, k + 2, 100 * k) for k in range(1, 11))]
MATRIX = write_matrix(4, [(i, j, 10 ** (i - 1) * j) for i, j in pairs(4)]).decode().replace("\t", "|").splitlines()


def shapes():
    """2 on first, middle and last lines of each kind, in every field."""
    for at in (0, 1, 5, len(TABLE) - 1):
        yield from (("T", *one) for one in misshapen(TABLE, at))
    for ring in ("R|12|4|M", "R|64|2|M"):
        yield from (("T", *one) for one in misshapen([ring, *TABLE[1:]], 0))
        yield from (("C", *one) for one in misshapen([ring, *good()[1:]], 0))
    for lines in (good(), large_sheet()):
        for at in places(lines):
            yield from (("C", *one) for one in misshapen(lines, at))
    for at in range(len(MATRIX)):
        yield from (("4", *one) for one in misshapen(MATRIX, at, at > 0))


# the examples of Rules, the byte, and more of the kind: what may stand behind `R|4|4` in a table and in a sheet, the byte in either, 0 where the line is good there or the reason another
BEHIND_R = [
    ("D \n", 2, 2), ("DD\n", 2, 2), ("X\n", 1, 1), ("\n", 1, 1), ("D", 2, 2), ("D\n", 2, 2), ("DC|1|2|3\n", 2, 2), ("CD|1|2|3\n", 1, 2), ("C\n", 1, 2), ("C|1|2|\n", 1, 7), ("C|1|2|3", 1, 8), ("L|1|2|3\n", 1, 1),
    ("D|1|2|1|1|1|FB\n", 8, 14), ("D|1|2|1|1|1|F \n", 8, 14), ("D|1|2|1|1|1|f\n", 8, 13), ("D|1|2|1|1|1|\n", 8, 13), ("D|1|2|1|1|1\n", 8, 12), ("D|1|2|1|1|1|F|\n", 8, 14), ("D|1|2|1|1|1|F", 8, 14),
    ("D|1|2|1\n", 0, 8), ("D|1|2|1", 8, 8), ("D|1|2|1 \n", 8, 8), ("d|1|2|1\n", 1, 1), ("D|123456789|2|1\n", 11, 11), ("D|007|2|1\n", 4, 4),
]
R_LINES = [("R", 2), ("R\n", 2), ("R|\n", 3), ("R|123456789|4\n", 11), ("R|007|4\n", 4), ("R|00000000\n", 4), ("R|4\n", 4), ("R|4|4", 6), ("R|4|123456789\n", 13), ("R|4|007\n", 6), ("RR|4|4\n", 2), ("X\n", 1), ("\n", 1), ("r|4|4\n", 1),
           ("R|4|4|\n", 7), ("R|4|4|m\n", 7), ("R|4|4|M", 8), ("R|4|4|M|\n", 8), ("R|4|4 M\n", 6), ("R|4|M|4\n", 5), ("R|65|3|M|M\n", 9)]
# values on the second line of a table, with a sheet's end behind them
VALUES = [
    ("D|0|2|1", 4, 3), ("D|1|5|1", 4, 5), ("D|5|1|1", 4, 3), ("D|5|6|1", 4, 3), ("D|0|0|10000", 4, 3), ("D|12345|0|1", 4, 3), ("D|9999999|9999999|1", 4, 3), ("D|12345678|2|1", 4, 3), ("D|1|12345678|1", 4, 5), ("D|3|9999999|10000", 4, 5),
    ("D|1|2|10000", 7, 7), ("D|3|4|9999999", 7, 7), ("D|3|4|99999999", 7, 7), ("D|2|2|10000", 5, 1), ("D|4|1|1", 5, 1),
]
RINGS = [("R|1|4", 3, 3), ("R|65|2", 3, 3), ("R|9999999|3", 3, 3), ("R|12345678|4", 3, 3), ("R|2|3", 20, 5), ("R|64|0", 20, 6), ("R|64|9999999", 20, 6), ("R|2|12345678", 20, 5), ("R|65|3|M", 3, 3), ("R|64|9|M", 20, 6)]


def by_hand():
    for line, of_table, of_sheet in BEHIND_R:
        yield from (("T", t("R|4|4\n" + line, end=""), (2, 2, of_table)),) if of_table else ()
        yield "C", t("R|4|4\n" + line, end=""), (2, 2, of_sheet)
    for line, byte in R_LINES:
        yield from ((letter, t(line, end=""), (2, 1, byte)) for letter in "TC")
    for line, reason, byte in VALUES:
        yield "T", t("R|4|4", line), (reason, 2, byte)
        yield "C", t("R|4|4", line + "|1|1|F"), (reason, 2, byte)
    for line, reason, byte in RINGS:
        yield from ((letter, t(line, "D|1|2|1"), (reason, 1, byte)) for letter in "TC")


def entries():
    """7, 17 and 18 of a matrix, on first and last fields of its lines."""
    square = [line.split("|") for line in MATRIX]
    for edits, reply in [
        ([(1, 1, "10000")], (7, 1, 1)), ([(1, 4, "10000")], (7, 1, 7)), ([(4, 1, "10000")], (7, 4, 1)), ([(4, 4, "10000")], (7, 4, 10)), ([(2, 2, "10000"), (2, 4, "10000")], (7, 2, 3)),
        ([(1, 1, "5")], (17, 1, 1)), ([(2, 2, "5")], (17, 2, 3)), ([(4, 4, "5")], (17, 4, 10)), ([(4, 1, "5")], (18, 1, 7)), ([(1, 4, "5")], (18, 1, 7)), ([(3, 4, "5")], (18, 3, 8)), ([(4, 3, "5")], (18, 3, 8)), ([(3, 2, "5")], (18, 2, 5)),
    ]:
        wrong = [line[:] for line in square]
        for i, j, new in edits:
            wrong[i - 1][j - 1] = new
        yield "4", t(*map("|".join, wrong)), reply


def others():
    """Lines judged as a whole, missing or left over, and reasons with no line."""
    lines = good()
    yield from (("C", t(*lines, end="\n" + more), (2, len(lines) + 1, 1)) for more in ("\n", "x", "x\n", "Z|0|x\n", "Z|0|3", lines[-1] + "\n"))
    yield from (("C", t(*lines[:at], end="\n" if at else ""), (2, at + 1, 1)) for at in (0, 1, 4, 8, 9, len(lines) - 1))
    yield from (("4", t(*MATRIX, end="\n" + more), (2, 5, 1)) for more in ("\n", "x", "0|0|0|x\n", MATRIX[0] + "\n"))
    yield from (("4", t(*MATRIX[:at], end="\n" if at else ""), (2, at + 1, 1)) for at in (0, 1, 3))
    yield "4", t("0"), (3, 1, 1)
    yield "4", t("|".join(["10000"] * (MOST_OFFICES + 1))), (3, 1, 1)
    yield "4", write_matrix(46, [pair + (1,) for pair in pairs(46)]), (16, 0, 0)
    yield "W", t("R|2|4", "D|1|2|9999", "D|1|2|1"), (19, 3, 1)
    yield "T", t("R|4|4", "D|2|3|1", "D|1|2|10000"), (6, 3, 1)
    yield "T", write_table(2, [(1, 2, 1)] * MOST_ROWS + [(1, 2, 10000)]), (16, MOST_ROWS + 2, 1)
    yield "T", b"x" * 32769, (1, 0, 0)
    yield "4", b"0\t" * 16383 + b"0", (2, 1, 32768)
    yield "4", b"0\t" * 16384, (2, 1, 32769)


def cases(refused, room):
    """Letter, text and room of each case: a table's, a sheet's and a matrix's own calls."""
    for letter, text, reply in [*shapes(), *by_hand(), *entries(), *others()]:
        given = refused(letter, text)
        assert given + (byte_of(letter, text, given),) == reply, (letter, text[-80:], given, byte_of(letter, text, given), reply)
        yield letter, text, 0 if letter == "C" else room
    for letter, text, _ in [*by_hand(), *entries(), *others()]:
        yield from ((other, text, 0 if other == "P" else room) for other in {"T": "RW", "C": "PS"}.get(letter, ""))
