#!/usr/bin/env python3
"""Writes crates/cases/stdin and stdout: stored cases for the public calls, and the answers that the rules of docs/RULES.md give them.

The answers come from the reading of these in reading.py, matrix.py, pointing.py, rules.py, best.py and report.py and from nothing else: no source of the project is used. Run it by hand after adding a
case and look at the difference; the tests only compare what the program writes with what is stored.

Cases come in groups. What a function draws it draws from a seed of its own, so that another limit
draws no other function's cases anew; and what is stored stays in its group, drawn or not
(stored.py)."""
import functools
import itertools
import random

import best
import chosen
import circuits
import columns
import families
import fibres
import lowering
import matrices
import matrix
import report
import reported
import rules
import sheets
import stored
from judging import MOST_OFFICES, MOST_ROWS
from pointing import byte_of
from reading import FORM, LONGEST, Sheet, first_reason, first_reason_of_sheet, holding, line_by_line, lines_of, rewritten
from sheets import damaged, full, pairs, t, write_table

# the buffer before a call, of which a case lends the beginning: as in crates/cases
ROOM, PATTERN = 40000, 0x55


@functools.cache
def sum_of(out):
    """The sum over a buffer that begins with this text."""
    s = 0
    for b in out + bytes([PATTERN]) * (ROOM - len(out)):
        s = (s * 31 + b) % 1000003
    return s


@functools.cache
def written(letter, text):
    """The text that a call writes, by the call's letter."""
    if letter in OF_TEXT:
        return OF_TEXT[letter](text)
    values = (*matrix.rows_of(text), *matrix.told(letter)) if matrix.told(letter) else matrix.table_values(text)
    return WRITTEN.get(letter, write_table)(*values)


LOWERED = rules.lowered_rooms
OF_TEXT = {"S": rewritten, "M": report.lines}

WRITTEN = {
    "R": rules.sheet,
    "B": best.sheet,
    "l": functools.partial(rules.sheet, rooms=LOWERED),
    "m": functools.partial(best.sheet, rooms=LOWERED),
    "W": matrix.write_matrix,
}


def first_reason_of_best(text, rooms=rules.level_rooms):
    """The table's own, and then 23, on no line."""
    own = first_reason(text)
    return own or ((23, 0) if best.too_many(*matrix.table_values(text)[:2], rooms) else None)


REFUSALS = {
    "T": first_reason,
    "R": first_reason,
    "B": first_reason_of_best,
    "l": first_reason,
    "m": functools.partial(first_reason_of_best, rooms=LOWERED),
    "W": matrix.first_reason_of_sums,
    "M": report.first_reason,
}


@functools.cache
def refused(letter, text):
    if matrix.told(letter):
        return matrix.first_reason_of_matrix(text, matrix.told(letter)[0])
    return REFUSALS.get(letter, first_reason_of_sheet)(text)


@functools.cache
def pointed(letter, text):
    """Reason, line and byte of the refusal that a text gets; None where it gets none."""
    reply = refused(letter, text)
    return reply and reply + (byte_of(letter, text, reply),)


def answer(letter, text, room):
    """The line that answers a case: reason, line and byte, and then the two places of a pair, or the length of what is written and the sum."""
    reply, out = pointed(letter, text), b""
    if letter == "C":
        return reply or (0, 0, 0)
    if letter == "P":
        sheet = Sheet(text)
        return reply + (0, 0) if reply else (0, 0, 0) + rules.first_parallel(sheet.rows, sheet.sent)
    if not reply:
        out = written(letter, text)
        if room < len(out):
            reply, out = (15, 0, 0), b""
    return (reply or (0, 0, 0)) + (len(out), sum_of(out))


def refusals():
    """Each refusal of a table, on first, middle and last lines."""
    good = ["R|9|4", "D|1|2|3", "D|1|4|0", "D|2|3|9999", "D|3|9|17", "D|8|9|1"]
    yield t(*good)
    bad = {
        "shape": ["", " ", "D", "D|", "D|1", "D|1|2", "D|1|2|", "D|1|2|3|", "D|1|2|3|4", "d|1|2|3", "D 1 2 3", "D|1|2|3 ", "D|1|2|3\r", "D||1|2", "D|1||2", "D|01|2|3", "D|1|02|3",
                  "D|1|2|00", "D|1|2|+3", "D|1|2|-3", "D|1|2|3x", "D|1|2|123456789", "D|1|2|000000001", "R|9|4", "C|1|2|3", "L|1|2|3", "Z|1|2", "D|1|2|3\0", "\0", "DD|1|2|3"],
        "values": ["D|0|2|3", "D|1|0|1", "D|9|0|1", "D|1|10|3", "D|5|2|10000", "D|10|11|3", "D|0|0|0", "D|9|9|1", "D|4|3|1", "D|1|2|10000", "D|1|2|9999999", "D|1|2|99999999", "D|9999999|1|1", "D|99999999|1|1", "D|8|8|10000", "D|1|1|1"],
    }
    for kind in bad.values():
        for b in kind:
            for at in (1, 3, len(good)):
                yield t(*(good[:at] + [b] + good[at:]))
                yield t(*(good[:at] + [b] + good[at + 1:]))
            yield t(*(good + [b]))
            yield t(*(good + [b]), end="")
    for at in range(2, len(good)):
        swapped = good[:]
        swapped[at - 1], swapped[at] = swapped[at], swapped[at - 1]
        yield t(*swapped)
        yield t(*(good[:at] + [good[at - 1]] + good[at:]))
    yield t(*good, end="")
    yield t(*good, end="\n\n")
    yield t(*good, end="\r\n")


def single_faults():
    """Rows with one fault alone or with none, on the first, a middle and the last line of a longer table whose rows rise."""
    n = 12
    good = [(k, k + 2, 100 * k) for k in range(1, n - 1)]
    for k in (1, 5, len(good)):
        faults = {
            4: [(k, n + 1, 1), (k, 9999999, 1), (k, 99999999, 1)],
            5: [(k, k, 1), (k + 1, k, 1)],
            6: [(k - 1, k, 1), (k - 2, n, 1)],
            7: [(k, k + 2, 10000), (k, k + 2, 9999999), (k, k + 2, 99999999)],
            # the nodes of the row before
            None: [(k - 1, k + 1, 1)],
        }
        if k == 1:
            faults[4] += [(0, 2, 1)]
            faults[6] = faults[None] = []
        for reason, rows in faults.items():
            for row in rows:
                text = write_table(n, good[:k - 1] + [row] + good[k:])
                assert holding(lines_of(text), k + 1) == {reason} - {None}, text
                yield text


def rings():
    """The first line, and its limits from both sides."""
    for r in ["", "R", "R|", "R|0|4", "R|1|4", "R|2|4", "R|32|4", "R|33|4", "R|64|4", "R|65|4", "R|9999999|4", "R|10000000|4", "R|99999999|4", "R|100000000|4", "R|02|4", "R|2", "R|2|", "R|2|04", "R|2|4|4", "R|2|4|M", "r|2|4", "R 2 4", "R|2 4", "R|2|4 ", " R|2|4", "X|2|4", "D|1|2|3",
              "R|-2|4", "R||2|4", "R|2||4", "\tR|2|4", "R|2|2", "R|64|2", "R|2|0", "R|2|1", "R|2|3", "R|2|5", "R|2|24", "R|2|9999999", "R|2|99999999", "R|2|100000000", "R|1|3", "R|65|3", "R|65|2", "R|4|0"]:
        yield t(r)
        yield t(r, end="")
        yield t(r, "D|1|2|1")
    yield b""
    yield b"\n"
    yield b"R"
    yield t("R|4|4", "D|5|2|10000")
    for n in (1, 2, 33, 64, 65):
        yield t("R|%d|4" % n, "D|1|2|9999")
        yield t("R|%d|4" % n, "D|1|2|10000")
        yield t("R|%d|4" % n, "D|1|%d|1" % n)
        yield t("R|%d|4" % n, "D|%d|%d|1" % (n - 1, n))
        yield t("R|%d|4" % n, "D|1|0|1")
        yield t("R|%d|4" % n, "D|%d|0|1" % n)
        yield t("R|%d|4" % n, "D|0|%d|1" % n)
        yield t("R|%d|4" % n, "D|1|%d|1" % (n + 1))
        yield t("R|%d|4" % n, "D|%d|%d|1" % (n, n + 1))


def longest():
    """Texts of exactly 32,768 and 32,769 bytes and of more, of good lines and of bad ones."""
    body = full(MOST_OFFICES, lambda k: 9999)
    for size in (LONGEST, LONGEST + 1):
        yield body + b"D\t63\t64\t9999\n" * ((size - len(body)) // 13) + b"q" * ((size - len(body)) % 13)
        yield b"\n" * size
    yield (b"R\t4\t4\n" + b"x" * ROOM)[:ROOM]


def rooms(text):
    """A text with buffers of length 0, one short, exact and longer."""
    need = len(text)
    return [(text, r) for r in sorted({0, 1, need - 1, need, need + 1, need + 100, ROOM}) if 0 <= r <= ROOM]


def tables_by_hand():
    for text in [*refusals(), *single_faults(), *rings()]:
        yield text, 200
    for text in longest():
        yield text, ROOM
    square = t("R|4|4", "D|1|3|1", "D|2|4|1")
    for text in (t("R|2|4"), square, full(20, lambda k: k * 37 % 10000), full(32, lambda k: k * 7919 % 10000), full(MOST_OFFICES, lambda k: (0, 1, 9999)[k % 3])):
        yield from rooms(text)


def tables_drawn():
    rng = random.Random(2026)
    for k in range(400):
        n = rng.choice([2, 3, 5, 8, 16, 32, 64, 64])
        rows = [p + (rng.choice([0, 1, rng.randrange(10000), 9999]),) for p in pairs(n) if rng.random() < rng.choice([0.05, 0.3, 1.0])]
        text = write_table(n, rows)
        if len(text) > 1500 and k % 8:
            text = b"".join(lines_of(text)[:40])
        yield by_chance(rng, k, text)


def tables_of_circuits():
    for text in circuits.tables():
        yield text, ROOM
    for text in [*(text for text, _ in circuits.routed_by_hand()), write_table(MOST_OFFICES, [(63, 64, 9999)] * MOST_ROWS)]:
        yield from rooms(text)


def circuits_drawn():
    rng = random.Random("tables of circuits")
    for k, (n, rows) in enumerate(circuits.small_tables(rng)):
        yield by_chance(rng, k, write_table(n, rows))


def by_chance(rng, k, text):
    """The text, damaged three times out of four, and a buffer of about its length."""
    if k % 4:
        text = damaged(rng, text)
    return text, rng.choice([0, max(0, len(text) - 1), len(text), len(text) + 1, ROOM])


def to_route():
    """Tables to route: the stated cases with their figures (Rules, stated cases), with buffers of
    every kind, and refusals."""
    stated = [
        (t("R|4|4", "D|1|3|1", "D|2|4|1"), t("C|1|3|2", "L|1|2|2", "L|2|2|1", "L|3|2|0", "L|4|2|1", "Z|2|3")),
        (t("R|2|4"), t("C|1|2|0", "L|1|0|0", "L|2|0|0", "Z|0|3")),
        (t("R|2|4", "D|1|2|5"), t("D|1|2|5|5|5|F", "C|1|2|5", "L|1|5|5", "L|2|5|0", "Z|5|12")),
        (t("R|4|4", "D|1|2|1"), t("D|1|2|1|1|1|F", "C|1|2|1", "L|1|1|1", "L|2|1|0", "L|3|1|0", "L|4|1|0", "Z|1|3")),
        (t("R|5|4", "D|1|2|2", "D|1|4|5", "D|2|3|9", "D|2|4|11", "D|3|4|4", "D|3|5|3"), t("C|2|4|28", "L|1|16|13", "L|2|28|9", "L|3|24|7", "L|4|28|19", "L|5|22|16", "Z|19|48")),
        (t("R|8|4", "D|1|4|1", "D|2|3|1", "D|5|8|2", "D|6|7|2"), t("D|6|7|2|2|2|F", "C|2|6|6")),
        (t("R|2|4", "D|1|2|768"), t("Z|768|768")),
        (t("R|2|4", "D|1|2|769"), t("Z|769|0")),
    ]
    stated += [
        (t("R|5|2", "D|1|2|2", "D|1|4|5", "D|2|3|9", "D|2|4|11", "D|3|4|4", "D|3|5|3"), t("C|2|4|28", "L|1|16|13", "L|2|28|9", "L|3|24|7", "L|4|28|19", "L|5|22|16", "Z|19|48")),
        (t("R|2|2", "D|1|2|384"), t("Z|384|768")),
        (t("R|2|2", "D|1|2|385"), t("Z|385|0")),
    ]
    for text, part in stated + circuits.routed_by_hand():
        assert part in written("R", text), text
        for room in around(text):
            yield text, room
    for text in ("R|1|4", "R|65|4", "R|64|4", "R|33|4", "R|4|4\nD|5|2|10000", "R|4|4\nD|1|2|9999", "R|4|4\nD|1|2|10000", "R|4|4\nD|1|2|0", "R|4|4\nD|1|2|1\nD|1|2|1", "R|4|4\nD|2|1|1"):
        yield t(text), 200
    yield b"", 200
    yield b"\n" * (LONGEST + 1), ROOM


def full_rings_routed():
    """Full rings of 20, 32 and 64 offices, with buffers of every kind."""
    rng = random.Random(496)
    for text in [*sheets.full_tables(rng), *(write_table(n, rows) for n, rows in circuits.tables_of_most() + circuits.tables_between())]:
        for room in around(text):
            yield text, room


def routed(draw, seed):
    """What is drawn from a seed, with a buffer of any kind."""
    rng = random.Random(seed)
    for n, rows in draw(rng):
        text = write_table(n, rows)
        yield text, rng.choice([ROOM, *around(text)])


def most_rows_routed():
    for n, rows in circuits.tables_of_most():
        yield write_table(n, rows + rows[-1:]), ROOM
    for text in itertools.islice(circuits.tables(), 0, None, 4):
        yield text, ROOM


def thin_tables(rng):
    for _ in range(60):
        n = rng.choice([2, 3, 4, 6, 9, 16, 20])
        yield n, [p + (rng.choice([0, 1, 2, rng.randrange(10000), 9999]),) for p in pairs(n) if rng.random() < rng.choice([0.1, 0.5])]


def around(text):
    """Lengths of buffers around what the table's sheet needs."""
    need = len(written("R", text))
    return [0, need - 1, need, need + 1]


def only_forms_win(text):
    """That all lines are read before any is judged changes the answer of such texts alone as have a fault of form behind a false figure, and it is then that fault."""
    now, line = refused("C", text) or (0, 0)
    figure, before = line_by_line(text) or (0, 0)
    assert (now, line) == (figure, before) or now in FORM and figure in (8, 9, 10, 11, 12) and before < line, text


def of_sheets(texts):
    """Each sheet is checked. Those that pass the lines, the first of each reason and some others are asked for a pair and written afresh too."""
    met = set()
    for k, text in enumerate(dict.fromkeys(texts)):
        reason = (refused("C", text) or (0, 0))[0]
        only_forms_win(text)
        yield "C", text, 0
        if reason in (0, 13, 14) or reason not in met or k % 12 == 0:
            need = min(len(text), ROOM - 1)
            yield "P", text, 0
            yield "S", text, (need, need + 1, max(need - 1, 0), 0)[k % 4]
        met.add(reason)


def sheets_written_often():
    for text in [*sheets.rewritten_often(), *circuits.rewritten_often()]:
        for room in (0, 1, len(text) - 1, len(text), len(text) + 1, ROOM):
            yield "S", text, max(room, 0)


def of_matrices():
    """Matrices to read and tables to write; among these some of each kind of refused table."""
    return matrices.cases([*itertools.islice(refusals(), 0, None, 5), *single_faults(), *itertools.islice(rings(), 0, None, 3), *longest(), *circuits.tables_of_more()], ROOM)


def drawn():
    """The groups of cases by name, in the order in which they are stored, each with its calls."""
    of = functools.partial
    tables = {
        "tables by hand": tables_by_hand(),
        "tables drawn": tables_drawn(),
        "tables of circuits": tables_of_circuits(),
        "tables of circuits drawn": circuits_drawn(),
    }
    for name, some in tables.items():
        yield name, [("T", text, min(room, ROOM)) for text, room in some]
    routes = {
        "routes by hand": to_route(),
        "full rings routed": full_rings_routed(),
        "thin tables routed": routed(thin_tables, "thin tables"),
        "circuits routed": routed(circuits.small_tables, "circuits to route"),
        "most rows routed": most_rows_routed(),
    }
    yield from ((name, [("R", *case) for case in some]) for name, some in routes.items())
    texts = {texts.__name__.replace("_", " "): texts for texts in sheets.LISTS}
    texts |= {"of circuits": circuits.sheets, "forms behind figures": sheets.forms_behind_figures}
    yield from ((f"sheets: {name}", of_sheets(some())) for name, some in texts.items())
    yield "sheets written often", sheets_written_often()
    yield "matrices", of_matrices()
    yield "fibres", fibres.cases(of(written, "R"), ROOM)
    yield "families", families.cases(written, ROOM)
    yield "bytes", columns.cases(refused, ROOM)
    best_cases = chosen.cases(of(written, "B"), of(refused, "B"), ROOM)
    yield "the best choice", [("B", *case) for case in best_cases]
    yield "lowered rooms", lowering.cases(written, refused, ROOM)
    yield "reports", [("M", *case) for case in reported.cases()]


def of_calls(name):
    """Whether a group's cases stand in a file of calls, which is not made here."""
    return name.endswith(".calls")


def grouped():
    """Each group with its cases: those that are stored, and behind them those that are drawn and
    stored nowhere. A group that is drawn no more comes last, with its stored cases."""
    there = {stored.sum_of(stored.written(*case)): case for case in stored.cases()}
    listed = stored.listed().items()
    cases = {name: [there[one] for one in sums] for name, (_, sums) in listed if not of_calls(name)}
    known = {case for mine in cases.values() for case in mine}
    groups = {}
    for name, calls in drawn():
        more = [case for case in dict.fromkeys(calls) if case not in known]
        known.update(more)
        groups[name] = cases.pop(name, []) + more
    return groups | cases


def count(due):
    """Prints how many cases each call has."""
    for letter in "TRBlmCPSWM0123456789abcdefghij":
        mine = [line.split() for line in due if line[0] == letter]
        print(letter, len(mine), "cases, reasons seen:", sorted({int(words[1]) for words in mine}))
    print("pairs seen:", len({line for line in due if line.startswith("P 0") and not line.endswith(" 0 0\n")}))


def main():
    groups = grouped()
    cases = [case for mine in groups.values() for case in mine]
    assert all(room <= ROOM for _, _, room in cases)
    due = [case[0] + " %s\n" % " ".join(map(str, answer(*case))) for case in cases]
    stored.STDIN.write_bytes(b"".join(stored.written(*case) for case in cases))
    stored.STDIN.with_name("stdout").write_text("".join(line[2:] for line in due))
    others = {name: sums for name, (_, sums) in stored.listed().items() if of_calls(name)}
    stored.store({name: stored.sums_of(mine) for name, mine in groups.items()} | others)
    count(due)


main()
