"""Families of line sizes by hand (Rules, line sizes): M behind the fibres, and how it may not be spelled; the size to buy on both sides of each size of SDH; matrices
that are read for it, and full rings."""
import random

import rules
from matrix import first_reason_of_matrix, table_values, told, write_matrix
from pointing import byte_of
from reading import first_reason, first_reason_of_sheet
from sheets import full_tables, t, write_table

# R lines behind which a row that is 4 stands, and the reason and the byte that each is given; 0 where it is good
SAID = [
    ("R|4|4|M", 0, 0), ("R|4|2|M", 0, 0), ("R|64|4|M", 0, 0), ("R|2|2|M", 0, 0), ("R|4|4", 0, 0),
    # behind the fibres stands LF or a tab, behind the tab only M, and behind M only LF
    ("R|4|4|", 2, 7), ("R|4|4|m", 2, 7), ("R|4|4|N", 2, 7), ("R|4|4|S", 2, 7), ("R|4|4|4", 2, 7), ("R|4|4|0", 2, 7), ("R|4|4| M", 2, 7), ("R|4|4||M", 2, 7), ("R|4|4||", 2, 7), ("R|4|4|\r", 2, 7),
    ("R|4|4|\0", 2, 7), ("R|4|4|\xff", 2, 7), ("R|4|4|MM", 2, 8), ("R|4|4|M|", 2, 8), ("R|4|4|M|M", 2, 8), ("R|4|4|M ", 2, 8), ("R|4|4|M\r", 2, 8), ("R|4|4|M4", 2, 8), ("R|4|4|M\0", 2, 8),
    ("R|4|4M", 2, 6), ("R|4|4 M", 2, 6), ("R|4|4\rM", 2, 6), ("R|4|44444444M", 2, 13), ("R|64|44444444|m", 2, 15),
    # M in another place
    ("R|4|M|4", 2, 5), ("R|4|M", 2, 5), ("R|M|4|4", 2, 3), ("R|M", 2, 3), ("M|4|4", 2, 1), ("RM|4|4", 2, 2), ("R|4M|4", 2, 4), ("R|4||M", 2, 5), ("R||4|M", 2, 3),
    # 2 comes before 3, and 3 before 20
    ("R|65|4|m", 2, 8), ("R|1|4|M", 3, 3), ("R|65|4|M", 3, 3), ("R|65|3|M", 3, 3), ("R|4|3|M", 20, 5), ("R|4|0|M", 20, 5), ("R|4|3|m", 2, 7), ("R|4|99999999|M", 20, 5),
]
# an unsplit peak, and the size of SDH for it with four fibres and with two: each side of each size
SIDES = [(0, 1, 1), (1, 1, 4), (2, 4, 4), (3, 4, 16), (4, 4, 16), (5, 16, 16), (8, 16, 16), (9, 16, 64), (16, 16, 64), (17, 64, 64), (32, 64, 64), (33, 64, 256), (64, 64, 256), (65, 256, 256),
         (128, 256, 256), (129, 256, 0), (256, 256, 0), (257, 0, 0), (384, 0, 0), (768, 0, 0), (769, 0, 0), (9999, 0, 0)]
# the square's sheet of either family behind its R line
SQUARE = ["D|1|3|1|1|1|F", "D|2|4|1|1|1|B", "C|1|3|2", "L|1|2|2", "L|2|2|1", "L|3|2|0", "L|4|2|1"]


def refused(letter, text):
    reply = (first_reason if letter == "T" else first_reason_of_sheet)(text)
    return reply and (*reply, byte_of(letter, text, reply))


def stated(letter, reply, text):
    assert refused(letter, text) == reply, (text[:60], reply, refused(letter, text))
    return text


def r_lines():
    """Each R line before a row that is bad, as a table and as a sheet; before the square's rows; alone; and with no LF."""
    for line, reason, byte in SAID:
        reply, ring = (reason, 1, byte) if reason else None, line.encode("latin-1").replace(b"|", b"\t")
        for letter, bad, good in (("T", "D|5|2|10000", ["D|1|3|1", "D|2|4|1"]), ("C", "D|5|2|10000|0|0|F", [*SQUARE, "Z|2|4"])):
            due = reply or ((4, 2, 3) if line.startswith(("R|4|", "R|2|")) else (5, 2, 1))
            yield letter, stated(letter, due, ring + b"\n" + t(bad))
            yield letter, ring + b"\n" + t(*good)
            yield letter, ring + b"\n"
            yield letter, ring


def every_byte():
    """The ring of SDH with each byte of its line another, with one put in before it, with it dropped, and cut short there."""
    line = b"R\t4\t4\tM\n"
    for rest, letter in ((t("D|1|3|1", "D|2|4|1"), "T"), (t(*SQUARE, "Z|2|4"), "C")):
        for at in range(len(line)):
            for new in b"RMm\t\n 049\0\r\xff":
                yield letter, line[:at] + bytes([new]) + line[at + 1:] + rest
                yield letter, line[:at] + bytes([new]) + line[at:] + rest
            yield letter, line[:at] + line[at + 1:] + rest
            yield letter, line[:at]


def of_sides():
    """Tables of two offices, the sheet that each is routed to, and the same sheet with the size of SONET, with the other number of fibres' size, and without M."""
    for peak, *sizes in SIDES:
        for fibres, size, other in zip((4, 2), sizes, reversed(sizes)):
            ring = "R|2|%d" % fibres
            lines = ["D|1|2|%d|%d|%d|F" % (peak, peak, peak), "C|1|2|%d" % peak, "L|1|%d|%d" % (peak, peak), "L|2|%d|0" % peak]
            of_sonet = rules.size_for(peak, fibres)
            sheet = stated("C", None, t(ring + "|M", *lines, "Z|%d|%d" % (peak, size)))
            wrong = [stated("C", (12, 6, 1) if z != size else None, t(ring + "|M", *lines, "Z|%d|%d" % (peak, z))) for z in (other, of_sonet)]
            wrong += [stated("C", (12, 6, 1) if z != of_sonet else None, t(ring, *lines, "Z|%d|%d" % (peak, z))) for z in (size, other)]
            yield t(ring + "|M", "D|1|2|%d" % peak), sheet, wrong


def full_rings():
    """Tables of SDH of 20, 32 and 64 offices with as many pairs as there may be rows: those that are routed for SONET too, so that all but the size is worked out once."""
    tables = list(full_tables(random.Random(496)))
    for at, fibres in ((0, 4), (3, 2), (6, 4), (6, 2)):
        n, rows, *_ = table_values(tables[at])
        yield write_table(n, rows, fibres, "M")


def matrices():
    """Matrices that are read for SDH with each number of fibres: the table has M, and 20 is first of all."""
    for text in (t("0|7", "7|0"), t("0|0", "0|0"), t("0|2|0|5|0", "2|0|9|11|0", "0|9|0|4|3", "5|11|4|0|0", "0|0|3|0|0"), t("0|1", "2|0"), t("1|0", "0|0"), t("0|x", "7|0"), b"", t("0")):
        for letter in "abcdefghij":
            fibres = told(letter)[0]
            assert fibres in (2, 4) or first_reason_of_matrix(text, fibres) == (20, 0)
            yield letter, text


def with_rooms(written, letter, text):
    """The call with buffers of every kind of length."""
    need = len(written(letter, text))
    yield from ((letter, text, room) for room in (0, need - 2, need - 1, need, need + 1, need + 100))


def cases(written, room):
    """Letter, text and room of each case."""
    for letter, text in [*r_lines(), *every_byte()]:
        yield letter, text, room * (letter == "T")
        yield from ((one, text, room) for one in ("RW" if letter == "T" else "S"))
        if letter == "C":
            yield "P", text, 0
    for table, sheet, wrong in of_sides():
        assert written("R", table) == sheet, table
        yield from ((letter, table, room) for letter in "RBlm")
        yield from ((letter, text, room * (letter == "S")) for letter in "CS" for text in (sheet, *wrong))
    square = t("R|4|4|M", "D|1|3|1", "D|2|4|1")
    for letter in "TRBlmW":
        yield from with_rooms(written, letter, square)
    for table in full_rings():
        for letter in "TRW":
            yield from with_rooms(written, letter, table)
        sheet = written("R", table)
        yield from (("C", sheet, 0), ("P", sheet, 0), ("S", sheet, len(sheet)), ("S", sheet, len(sheet) - 1))
    for letter, matrix in matrices():
        yield letter, matrix, room
    for letter, matrix in (("e", t("0|7", "7|0")), ("c", t("0|7", "7|0")), ("4", t("0|7", "7|0"))):
        yield from with_rooms(written, letter, matrix)
    for table in full_rings():
        n, rows, fibres, family = table_values(table)
        matrix = write_matrix(n, [row for row in rows if row[2] > 0])
        yield from with_rooms(written, "abcdefghij"[fibres] if family else str(fibres), matrix)
