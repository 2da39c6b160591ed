"""Matrices to be read and tables to be written as matrices: each refusal on first, middle and last lines, two faults at once, limits, and the way
there and back."""
import itertools
import random

from judging import MOST_OFFICES, MOST_ROWS
from matrix import first_reason_of_matrix, first_reason_of_sums, rows_of, table_values, write_matrix
from sheets import damaged, full, pairs, shown, spread, t, write_table

# six offices, every entry its own, so that no two lines or columns can be taken for each other
N = 6
ROWS = [(i, j, 100 * i + j) for i, j in pairs(N) if (i, j) != (2, 5)]


def lines():
    return [line.split("|") for line in shown(write_matrix(N, ROWS))]


def text(square, **end):
    return t(*("|".join(line) for line in square), **end)


def edited(*edits):
    """The six offices' matrix with fields replaced, given by line and field from 1."""
    square = lines()
    for i, j, new in edits:
        square[i - 1][j - 1] = new
    return text(square)


def reads(reply, matrix):
    """A matrix of which the refusal is stated by hand."""
    assert first_reason_of_matrix(matrix) == reply, (matrix[:200], reply)
    return matrix


def misspelled():
    """2 on the first, a middle and the last line, in the first, a middle and the last field: a field that spells no number."""
    for i, j in itertools.product((1, 3, N), repeat=2):
        for bad in ("", " ", "x", "00", "01", "+1", "-1", "1 ", " 1", "1.", "1\r", "\0", "123456789", "000000001", "1||1"):
            yield reads((2, i), edited((i, j, bad)))


def misshapen():
    """2 by the number of fields and of lines. The first line says how many are due, so that it alone is never too short or too long."""
    good = lines()
    for at in range(1, N):
        for line in (good[at][:-1], good[at] + ["0"], good[at][:1], [""], good[at] * 2, good[at] + [""]):
            yield reads((2, at + 1), text(good[:at] + [line] + good[at + 1:]))
    for first in (good[0][:-1], good[0] + ["0"], good[0][:2]):
        yield reads((2, 2), text([first] + good[1:]))
    for first in (good[0] + [""], [""] + good[0], [""]):
        yield reads((2, 1), text([first] + good[1:]))
    for at in range(N):
        yield reads((2, N), text(good[:at] + good[at + 1:]))
        yield reads((2, N + 1), text(good[:at + 1] + good[at:]))
        yield reads((2, at + 2) if at + 1 < N else None, text(good[:at + 1]))
        yield reads((2, at + 1), text(good[:at + 1], end=""))
        yield reads((2, at + 2), text(good[:at + 1], end="\n\n"))
        yield reads((2, at + 1), text(good[:at + 1], end="\r\n"))
    yield reads((2, N + 1), text(good, end="\n0"))
    yield reads((2, 1), b"")
    yield reads((2, 1), b"\n")
    yield reads((2, 1), b"\t")
    yield reads((2, 1), write_table(N, ROWS))


def many_fields():
    """The first line with as many fields as a text can have: 3 where all are well spelled, 2 where the last is not, and 1 for a byte too many."""
    for count in (65, 66, 1000, 16384):
        zeros = b"0\t" * (count - 1)
        yield reads((3, 1), zeros + b"0\n")
        yield reads((2, 1), zeros + b"\n")
        yield reads((2, 1), zeros + b"0")
    for count in (65, 1000, 5000):
        yield reads((3, 1), b"0\t" * (count - 1) + b"10000\n")
        yield reads((3, 1), b"0\t" * (count - 1) + b"99999999\n")
        yield reads((2, 1), b"0\t" * (count - 1) + b"100000000\n")
    yield reads((1, 0), b"0\t" * 16384 + b"0\n")
    yield reads((1, 0), b"0\t" * 16383 + b"00\n")
    yield reads((2, 1), b"0\t" * 16382 + b"000\n")
    yield reads((3, 1), b"1\n" + b"1\n" * 5)
    # 64 fields, but far more lines; each field of 7 digits, which is as long as a text may be; of 8; and 45 and 46 of 8
    yield reads((2, 65), (b"0\t" * 63 + b"0\n") * 256)
    yield reads((1, 0), (b"0\t" * 63 + b"0\n") * 256 + b"0")
    yield reads((7, 1), (b"9999999\t" * 63 + b"9999999\n") * 64)
    yield reads((1, 0), (b"99999999\t" * 63 + b"99999999\n") * 64)
    yield reads((7, 1), (b"99999999\t" * 44 + b"99999999\n") * 45)
    yield reads((2, 1), (b"99999999\t" * 44 + b"100000000\n") * 45)


def ring_sizes():
    """n on both sides of its limits, and of where all pairs are too many rows, all zeros, all one amount, and a single fault in the last line."""
    for n in (1, 2, 3, 32, 33, 45, 46, 63, 64, 65):
        reply = None if 2 <= n <= 64 else (3, 1)
        for amount in (0, 1, 9999):
            many = amount > 0 and len(pairs(n)) > MOST_ROWS
            yield reads(reply or ((16, 0) if many else None), write_matrix(n, [pair + (amount,) for pair in pairs(n)]))
        zeros = [["0"] * n for _ in range(n)]
        for new, fault in (("10000", 7), ("1", 17), ("x", 2)):
            wrong = [line[:] for line in zeros]
            wrong[-1][-1] = new
            yield reads(reply or (fault, n), text(wrong)) if n > 1 else text(wrong)
        # lines that are there but too many or too few, behind a first line that is refused already
        yield text(zeros[:-1])
        yield text(zeros + zeros[:1])


# line, field, new spelling, and what is then said: stage, line, and how far back in the order of a line
LINE, ENTRY = 0, 1
FAULTS = [(k, 7 - k, "x", (LINE, k, 2)) for k in (1, 4, N)]
FAULTS += [(k, 8 - k if k > 1 else 2, "10000", (LINE, k, 7)) for k in (1, 4, N)]
FAULTS += [(k, k, "1", (ENTRY, k, 17)) for k in (1, 3, N)]
# seen from the upper half, and from the lower: the upper entry is the one that is read first
FAULTS += [(i, j, "9", (ENTRY, i, 18)) for i, j in ((1, 3), (1, 5), (2, 4), (5, 6), (2, 5))]
FAULTS += [(i, j, "8", (ENTRY, j, 18)) for i, j in ((3, 2), (4, 3), (6, 1), (6, 3))]


def two_faults():
    """All pairs of kinds, on first, middle and last lines: lines come before entries, and then the first line."""
    for one, other in itertools.combinations_with_replacement(FAULTS, 2):
        _, line, reason = min(one[3], other[3])
        if one is other or one[:2] != other[:2]:
            yield reads((reason, line), edited(one[:3], other[:3]))
    # every fault of a field with every fault of shape
    for i, j, new, (_, line, reason) in FAULTS:
        square = [line.split("|") for line in shown(edited((i, j, new)))]
        of_lines = reason in (2, 7)
        yield reads((reason, line) if of_lines and line < N else (2, N), text(square, end=""))
        yield reads((reason, line) if of_lines else (2, N + 1), text(square, end="\n\n"))
        yield reads((reason, line) if of_lines else (2, N + 1), text(square + square[-1:]))
        yield reads((reason, line) if of_lines and line < N else (2, N), text(square[:-1]))
        yield reads((reason, line) if of_lines and line == 1 else (2, 2), text([square[0] + ["0"]] + square[1:]))
        yield reads((2, 1) if (reason, line) == (2, 1) else (3, 1), text([square[0] + ["0"] * (MOST_OFFICES + 1 - N)] + square[1:]))
    yield reads((1, 0), edited(*(fault[:3] for fault in FAULTS)) + b"0\n" * 16384)


def mirrored():
    """An entry and its mirror changed together: both over the limit, both changed alike, turned round; and two pairs that differ."""
    for i, j in ((1, 2), (2, 5), (3, 4), (5, 6), (1, 6)):
        yield reads((7, i), edited((i, j, "10000"), (j, i, "10000")))
        yield reads((7, i), edited((i, j, "10000"), (j, i, "9999")))
        yield reads((7, j), edited((i, j, "9999"), (j, i, "10000")))
        yield reads(None, edited((i, j, "9999"), (j, i, "9999")))
        yield reads(None, edited((i, j, "0"), (j, i, "0")))
        for one, other in (("0", "1"), ("1", "0"), ("9998", "9999"), ("1", "10"), ("256", "0"), ("0", "8192")):
            yield reads((18, i), edited((i, j, one), (j, i, other)))
    # diagonal and mirror: the first entry in reading order, whatever its reason
    yield reads((18, 1), edited((1, 6, "5"), (2, 2, "5")))
    yield reads((17, 2), edited((2, 2, "5"), (6, 5, "5")))
    yield reads((18, 2), edited((3, 2, "5"), (3, 3, "5")))
    yield reads((17, 3), edited((3, 3, "5"), (6, 3, "5")))
    # lines or columns changed over
    good = lines()
    yield reads((17, 1), text(good[1:] + good[:1]))
    yield reads((17, 1), text(line[1:] + line[:1] for line in good))
    yield reads((17, 1), text(line[::-1] for line in good))


def large():
    """20, 32 and 64 offices: accepted, and one fault, or two, on first, middle and last lines."""
    rng = random.Random(17)
    for n in (20, 32, 64):
        rows = [pair + (rng.choice((0, 1, 9999, rng.randrange(10000))),) for pair in spread(n)]
        good = [line.split("|") for line in shown(write_matrix(n, rows))]
        yield reads(None, text(good))
        for i, j in ((1, 1), (1, n), (2, n - 1), (n // 2, n // 2), (n // 2, n), (n, 1), (n, n // 2), (n, n - 1), (n, n)):
            for new in ("x", "10000", str((int(good[i - 1][j - 1]) + 1) % 10000)):
                wrong = [line[:] for line in good]
                wrong[i - 1][j - 1] = new
                reply = (2, i) if new == "x" else (7, i) if new == "10000" else (17, i) if i == j else (18, min(i, j))
                yield reads(reply, text(wrong))
        wrong = [line[:] for line in good]
        wrong[0][0], wrong[n - 1][n - 1] = "1", "10000"
        yield reads((7, n), text(wrong))


def too_many():
    """As many rows as there may be, and one more, on 64 offices and on the fewest that make so many: 16 is tried when no entry is faulty, and has no line."""
    for n, count in itertools.product((46, MOST_OFFICES), (MOST_ROWS - 1, MOST_ROWS, MOST_ROWS + 1, len(pairs(46)))):
        # all in the first lines, all in the last, and spread
        chosen = [pairs(n)[:count], pairs(n)[-count:], [pairs(n)[k * len(pairs(n)) // count] for k in range(count)]]
        for some in chosen:
            yield reads((16, 0) if count > MOST_ROWS else None, write_matrix(n, [pair + (1 + (pair[0] * 7 + pair[1]) % 9,) for pair in some]))
    n, every = MOST_OFFICES, pairs(MOST_OFFICES)
    for rows, last in ((every, every[-1]), (spread(n) + every[-1:], every[-1])):
        good = [line.split("|") for line in shown(write_matrix(n, [pair + (1,) for pair in rows]))]
        i, j = last
        # what is read before it, a fault on the last lines, and what takes an entry away
        for edits, reply in [
            ([(n, n, "x")], (2, n)), ([(n, n, "10000")], (7, n)), ([(n, n, "1")], (17, n)), ([(1, 1, "1")], (17, 1)), ([(i, j, "2")], (18, i)), ([(j, i, "0")], (18, i)), ([(j, i, "2"), (n, n, "1")], (18, i)),
            ([(n - 2, n - 1, "0"), (n, n, "123456789")], (2, n)), ([(i, j, "9999"), (j, i, "9999")], (16, 0)),
        ]:
            wrong = [line[:] for line in good]
            for line, field, new in edits:
                wrong[line - 1][field - 1] = new
            yield reads(reply, text(wrong))
        yield reads((2, n), text(good[:-1]))
        yield reads((2, n), text(good, end=""))
        yield reads((2, n + 1), text(good + good[-1:]))
    # 1,025 rows, of which one is taken away; zeros are no rows
    rows = {pair: 5 for pair in spread(n)}
    more = [pair for pair in every if pair not in rows][::200]
    for pair in more:
        yield reads((16, 0), write_matrix(n, [one + (5,) for one in sorted([*rows, pair])]))
        yield reads(None, write_matrix(n, [one + (5,) for one in sorted([*rows, pair]) if one != spread(n)[500]]))


def drawn(rng):
    """Random matrices, three out of four damaged."""
    for k in range(150):
        n = rng.choice([2, 2, 3, 4, 5, 8, 12])
        part, top = rng.choice([0.1, 0.5, 1.0]), rng.choice([1, 20, 9999])
        matrix = write_matrix(n, [pair + (rng.randint(0, top),) for pair in pairs(n) if rng.random() < part])
        yield damaged(rng, matrix) if k % 4 else matrix


def lists():
    """Each by itself, so that a change to one changes the calls of no other."""
    by_hand = [misspelled(), misshapen(), many_fields(), ring_sizes(), two_faults(), mirrored()]
    return [*by_hand, large(), too_many(), drawn(random.Random(18))]


def sums_to(total, count):
    """So many amounts that add up to it."""
    return [total // count + (k < total % count) for k in range(count)]


def writes(reply, table):
    """A table of which the refusal by its sums is stated by hand."""
    assert first_reason_of_sums(table) == reply, (table[-200:], reply)
    return table


def sums():
    """Sums of 9,999 and of 10,000, of two rows and of many, on the first, a middle and the last rows; and rows of 0 about them."""
    before, after = [(1, 2, 7), (1, 3, 0)], [(4, 5, 1), (4, 6, 9999)]
    for head, tail in (([], after), (before, after), (before, []), ([], [])):
        for count in (2, 3, 10):
            for pair in ((1, 6), (2, 3), (3, 6)):
                for total, reply in ((9999, None), (10000, (19, len(head) + count + 1)), (10001, (19, len(head) + count + 1))):
                    rows = [pair + (d,) for d in sums_to(total, count)]
                    yield writes(reply, write_table(6, head + rows + tail))
        zeros = [(2, 3, 0)] * 3
        yield writes(None, write_table(6, head + zeros + [(2, 3, 9999)] + zeros + tail))
        yield writes((19, len(head) + 6), write_table(6, head + zeros + [(2, 3, 9999), (2, 3, 1), (2, 3, 0)] + tail))
        yield writes((19, len(head) + 3), write_table(6, head + [(2, 3, 9999)] * 8 + tail))


def sums_and_others():
    """Every reason of a table comes before 19, on whatever line; of two sums that pass it is the first."""
    passes = ["D|2|3|9999", "D|2|3|1"]
    for bad, reason in (("D|3|7|1", 4), ("D|3|3|1", 5), ("D|1|2|1", 6), ("D|4|5|10000", 7), ("D|4|5", 2), ("", 2), ("R|6|4", 2)):
        yield writes((reason, 4), t("R|6|4", *passes, bad))
        yield writes((reason, 5), t("R|6|4", *passes, "D|2|3|5", bad, "D|5|6|1"))
    yield writes((7, 3), t("R|6|4", "D|2|3|9999", "D|2|3|10000"))
    yield writes((2, 3), t("R|6|4", *passes, end=""))
    yield writes((3, 1), t("R|65|4", *passes))
    yield writes((19, 3), t("R|6|4", *passes, "D|3|4|9999", "D|3|4|9999"))
    yield writes(None, t("R|6|4", "D|2|3|9999", "D|2|4|1", "D|3|4|9999"))
    # the largest amounts of which 1,024 pass, and the least of which they do not; and a row too many
    for d, reply in ((9, None), (10, (19, 1001))):
        yield writes(reply, write_table(2, [(1, 2, d)] * MOST_ROWS))
        yield writes((16, MOST_ROWS + 2), write_table(2, [(1, 2, d)] * (MOST_ROWS + 1)))
    yield writes(None, write_table(2, [(1, 2, 0)] * (MOST_ROWS - 1) + [(1, 2, 9999)]))
    yield writes((19, MOST_ROWS + 1), write_table(2, [(1, 2, 1)] + [(1, 2, 0)] * (MOST_ROWS - 2) + [(1, 2, 9999)]))


def drawn_circuits(rng):
    """Several circuits a pair, on rings of every size, few of them passing."""
    for k in range(60):
        n = rng.choice([2, 3, 5, 9, 16, 64])
        top = rng.choice([0, 3, 900, 4000])
        rows = [pair + (rng.randint(0, top),) for pair in sorted(rng.choices(pairs(n), k=rng.randint(0, 24)))]
        table = write_table(n, rows)
        yield damaged(rng, table) if k % 4 == 3 else table
    for top in (3, 4999, 9999):
        few = rng.sample(pairs(20), 150)
        yield write_table(20, [pair + (rng.randint(0, top),) for pair in sorted(pairs(20) + few)])
    for n in (32, MOST_OFFICES):
        yield full(n, lambda k: 9999)
        yield full(n, lambda k: (0, 1, 9999)[k % 3])


def stated():
    """Matrices and their tables by hand: the ring of five, no demand at all, one at either end, and one pair alone."""
    return [
        (t("0|2|0|5|0", "2|0|9|11|0", "0|9|0|4|3", "5|11|4|0|0", "0|0|3|0|0"), t("R|5|4", "D|1|2|2", "D|1|4|5", "D|2|3|9", "D|2|4|11", "D|3|4|4", "D|3|5|3")),
        (t("0|0", "0|0"), t("R|2|4")),
        (t("0|0|0", "0|0|0", "0|0|0"), t("R|3|4")),
        (t("0|9999", "9999|0"), t("R|2|4", "D|1|2|9999")),
        (t("0|1|0", "1|0|10", "0|10|0"), t("R|3|4", "D|1|2|1", "D|2|3|10")),
        (t("0|0|7", "0|0|0", "7|0|0"), t("R|3|4", "D|1|3|7")),
    ]


def added_up():
    """Tables with circuits or rows of 0, by hand, and the matrices that their sums make."""
    return [
        (t("R|3|4", "D|1|2|5", "D|1|2|6", "D|2|3|0"), t("0|11|0", "11|0|0", "0|0|0")),
        (t("R|3|4", "D|1|2|0", "D|1|3|1", "D|1|3|9", "D|1|3|90", "D|2|3|9999"), t("0|0|100", "0|0|9999", "100|9999|0")),
        (t("R|2|4", "D|1|2|9998", "D|1|2|1"), t("0|9999", "9999|0")),
    ]


def there_and_back(accepted):
    """The table that each matrix is read into: written, it is that matrix. The other way where no pair has two rows and no row has 0."""
    for matrix in accepted:
        n, rows = rows_of(matrix)
        assert write_matrix(n, rows) == matrix
        table = write_table(n, rows)
        assert table_values(table) == (n, tuple(rows), 4, "") and first_reason_of_sums(table) is None
        yield table


def rooms(need, most):
    return [room for room in sorted({0, 1, need - 1, need, need + 1, most}) if room >= 0]


def cases(refused_tables, most):
    """Letter, text and room of each case: a digit, the fibres, for reading a matrix and W for writing one."""
    by_hand = [matrix for matrix, _ in stated()]
    assert all(write_table(*rows_of(matrix)) == table for matrix, table in stated())
    assert all(write_matrix(*table_values(table)) == matrix for table, matrix in added_up())
    listed = [list(dict.fromkeys(some)) for some in (by_hand, *lists())]
    read = list(dict.fromkeys(itertools.chain(*listed)))
    accepted = [matrix for matrix in read if not first_reason_of_matrix(matrix)]
    circuits = [table for table, _ in added_up()]
    tables = dict.fromkeys([*there_and_back(accepted), *circuits, *sums(), *sums_and_others(), *drawn_circuits(random.Random(19)), *refused_tables, b""])
    yield from (("24"[k % 4 > 0], matrix, most) for some in listed for k, matrix in enumerate(some))
    yield from (("W", table, most) for table in tables)
    # 15 comes last: the first text of each reason into no room at all, then all rooms for good texts small and large
    yield from (("4", matrix, 0) for matrix in firsts(read, first_reason_of_matrix))
    yield from (("W", table, 0) for table in firsts(tables, first_reason_of_sums))
    for matrix in [*by_hand, edited(), write_matrix(MOST_OFFICES, []), write_matrix(MOST_OFFICES, [pair + (9999,) for pair in spread(MOST_OFFICES)]), *accepted[-6:]]:
        table = write_table(*rows_of(matrix))
        yield from (("4", matrix, room) for room in rooms(len(table), most))
        yield from (("W", table, room) for room in rooms(len(matrix), most))
    # 20 comes before every other reason
    for fibres, matrix in itertools.product("0123456789", [*firsts(read, first_reason_of_matrix), edited()]):
        yield fibres, matrix, (most, 0)[fibres == "3"]
    # a table of two fibres loses them on the way to its matrix
    yield from (("W", write_table(*rows_of(matrix), fibres), most) for matrix in by_hand for fibres in (2, 3, 4))
    for table in [*circuits, write_table(2, [(1, 2, 9)] * MOST_ROWS)]:
        yield from (("W", table, room) for room in rooms(len(write_matrix(*table_values(table))), most))


def firsts(texts, reason_of):
    """The first of the texts that each reason is given to."""
    met = {}
    for one in texts:
        met.setdefault((reason_of(one) or (0, 0))[0], one)
    return met.values()
