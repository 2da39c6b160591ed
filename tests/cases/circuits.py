"""Tables and sheets with several circuits between the same two offices, and as many rows as there may be, and more."""
import random

import rules
from judging import MOST_OFFICES, MOST_ROWS
from reading import Sheet, first_reason, first_reason_of_sheet, holding, lines_of
from sheets import asserted, damaged, foreign, pairs, shown, spread, t, write_table


def routed_by_hand():
    """Tables, and their sheets below the R line. Rule B fills the front with circuits, splits one and sends the rest back: text order decides which."""
    return [
        (t("R|2|4", "D|1|2|1", "D|1|2|1"), t("D|1|2|1|2|0|F", "D|1|2|1|0|2|B", "C|1|2|2", "L|1|2|1", "L|2|2|1", "Z|1|3")),
        (t("R|2|4", *["D|1|2|1"] * 3), t("D|1|2|1|2|0|F", "D|1|2|1|1|1|F", "D|1|2|1|0|2|B", "C|1|2|3", "L|1|3|2", "L|2|3|1", "Z|2|3")),
        (t("R|2|4", "D|1|2|3", "D|1|2|5"), t("D|1|2|3|6|0|F", "D|1|2|5|2|8|B", "C|1|2|8", "L|1|8|3", "L|2|8|5", "Z|5|12")),
        (t("R|2|4", "D|1|2|5", "D|1|2|3"), t("D|1|2|5|8|2|F", "D|1|2|3|0|6|B", "C|1|2|8", "L|1|8|5", "L|2|8|3", "Z|5|12")),
        (t("R|2|4", "D|1|2|0", "D|1|2|1", "D|1|2|0"), t("D|1|2|0|0|0|F", "D|1|2|1|1|1|F", "D|1|2|0|0|0|F", "C|1|2|1", "L|1|1|1", "L|2|1|0", "Z|1|3")),
    ]


def checked_by_hand():
    """What other tools may write of circuits, with the reason, the line and the pair: two circuits of one pair are parallel."""
    yes, of_two = (0, 0, 0, 0), ("C|1|2|2", "L|1|2|1", "L|2|2|1", "Z|1|3")
    return [
        (yes, t("R|2|4", "D|1|2|1|2|0|F", "D|1|2|1|0|2|B", *of_two)),
        (yes, t("R|2|4", "D|1|2|1|0|2|B", "D|1|2|1|2|0|F", *of_two)),
        ((0, 0, 1, 2), t("R|2|4", "D|1|2|1|1|1|F", "D|1|2|1|1|1|B", *of_two)),
        ((0, 0, 1, 2), t("R|2|4", "D|1|2|1|1|1|F", "D|1|2|1|1|1|F", "C|1|2|2", "L|1|2|2", "L|2|2|0", "Z|2|3")),
        ((0, 0, 2, 3), t("R|2|4", "D|1|2|1|2|0|F", "D|1|2|2|1|3|B", "D|1|2|1|1|1|F", "C|1|2|4", "L|1|4|2", "L|2|4|2", "Z|2|3")),
        ((0, 0, 1, 3), t("R|2|4", "D|1|2|1|1|1|F", "D|1|2|0|0|0|F", "D|1|2|1|1|1|B", *of_two)),
        # 1-3 crosses both circuits of 2-4
        ((0, 0, 2, 3), t("R|4|4", "D|1|3|1|1|1|F", "D|2|4|1|1|1|F", "D|2|4|1|1|1|B", "C|1|3|3", "L|1|3|2", "L|2|3|2", "L|3|3|1", "L|4|3|1", "Z|2|3")),
        (yes, t("R|2|4", *["D|1|2|0|0|0|F"] * 3, "C|1|2|0", "L|1|0|0", "L|2|0|0", "Z|0|3")),
        ((9, 3, 0, 0), t("R|2|4", "D|1|2|0|0|0|F", "D|1|2|0|0|0|B", "C|1|2|0", "L|1|0|0", "L|2|0|0", "Z|0|3")),
        ((13, 0, 0, 0), t("R|2|4", "D|1|2|1|2|0|F", "D|1|2|1|1|1|F", "C|1|2|2", "L|1|3|2", "L|2|1|0", "Z|2|3")),
        ((6, 4, 0, 0), t("R|3|4", "D|1|3|1|2|0|F", "D|1|3|1|0|2|B", "D|1|2|0|0|0|F", "C|1|3|2")),
    ]


def rule_c_on_circuits():
    """By hand, as no table leads here: where rule B splits a row, it leaves two links of its front with no slack and sends later circuits back."""
    sent = [[2, 4], [3, 1]]
    rules.rule_c([(1, 3, 3), (1, 3, 2)], sent)
    assert sent == [[1, 5], [4, 0]]


def in_order():
    """Rows of 7 offices behind 3-5: 6 is given to those below and to no others. Then rows behind circuits."""
    texts = [write_table(7, [(3, 5, 2), p + (1,)]) for p in pairs(7)]
    # 1-2 to 1-7, 2-3 to 2-7 and 3-4 are below
    assert [first_reason(text) for text in texts] == [(6, 3)] * 12 + [None] * 9
    yield from texts
    circuits = ["R|4|4", "D|1|3|5", "D|1|3|0", "D|1|3|9999"]
    rows = {"1|2|1": 6, "1|3|0": None, "1|4|1": None, "2|3|1": None, "1|3|10000": 7, "1|2|10000": 6, "3|1|1": 5}
    for row, reason in rows.items():
        text = t(*circuits, "D|" + row)
        assert first_reason(text) == (reason and (reason, 5)), row
        yield text
        yield t(*circuits, "D|" + row, "D|1|3|7")


# as many rows as there may be, on 3 offices; the line of one row more, which is the first that is refused for their number
LAST = [(1, 2, 1)] * 100 + [(1, 3, 0)] * 100 + [(2, 3, 1)] * (MOST_ROWS - 200)
BEHIND = MOST_ROWS + 2


def one_more(lines, rows, held, first):
    """Lines that begin with LAST's, and a row more behind these: with reasons that hold there, the first of them being given."""
    for row, reasons in rows:
        text = t(*lines[:BEHIND - 1], row, *lines[BEHIND - 1:])
        assert held(text) == set(reasons) and first(text) == (reasons[0], BEHIND), row
        yield text


def tables_of_more():
    """16 on the line of a row too many, after 2, 4, 5 and 6 and before 7; what stands on other lines comes before it or after it by line."""
    lines = shown(write_table(3, LAST))
    rows = [
        ("D|2|3|1", [16]), ("D|2|3|0", [16]), ("D|2|3|10000", [16, 7]), ("D|2|3|99999999", [16, 7]), ("D|2|3|100000000", [2]), ("D|1|3|1", [6, 16]), ("D|1|3|10000", [6, 16, 7]),
        ("D|3|3|1", [5, 16]), ("D|2|2|1", [5, 6, 16]), ("D|3|2|10000", [5, 16, 7]), ("D|2|4|1", [4, 16]), ("D|0|3|10000", [4, 6, 16, 7]),
        ("D|4|4|1", [4, 5, 16]), ("D|2|3", [2]), ("D|2|3|01", [2]), ("", [2]), ("R|3|4", [2]),
    ]
    yield from one_more(lines, rows, lambda text: holding(lines_of(text), BEHIND), first_reason)
    last = lines[-1]
    others = [
        ((2, BEHIND), t(*lines, last, end="")),
        ((16, BEHIND), t(*lines, last, "x")), ((16, BEHIND), t(*lines, last, "D|1|2|1")), ((16, BEHIND), t(*lines, *[last] * 9)),
        ((7, BEHIND - 1), t(*lines[:-1], "D|2|3|10000", last)), ((6, BEHIND - 1), t(*lines[:-1], "D|1|3|1", last)), ((2, BEHIND - 1), t(*lines[:-1], "D|2|3|", last)),
        ((7, 2), t("R|3|4", "D|1|2|10000", *lines[2:], last)), ((3, 1), t("R|65|4", *lines[1:], last)), ((2, 1), t("R|03|4", *lines[1:], last)),
    ]
    for reply, text in others:
        assert first_reason(text) == reply, text[-40:]
        yield text


def sheets_of_more():
    """16 in a sheet, which comes before 7, and before 8 and 9 of any line; on lines before it the reasons of a table come first."""
    lines = shown(rules.sheet(3, tuple(LAST)))
    rows = [
        ("D|2|3|1|2|0|F", [16]), ("D|2|3|1|2|1|F", [16, 8]), ("D|2|3|1|2|0|B", [16, 9]), ("D|2|3|1|0|0|B", [16, 8, 9]),
        ("D|2|3|10000|20000|0|F", [16, 7]), ("D|2|3|10000|0|1|F", [16, 7, 8, 9]), ("D|1|3|1|2|1|F", [6, 16, 8]), ("D|3|3|1|2|0|F", [5, 16]),
        ("D|2|4|1|2|0|F", [4, 16]), ("D|2|3|1|2|0", [2]), ("D|2|3|1", [2]),
    ]
    yield from one_more(lines, rows, lambda text: Sheet(text).holding(BEHIND), first_reason_of_sheet)
    rows, behind = lines[:MOST_ROWS + 1], lines[MOST_ROWS + 1:]
    last = rows[-1]
    others = [
        ((2, BEHIND), t(*rows)), ((2, BEHIND), t(*rows, last, end="")), ((2, BEHIND), t(*rows, *behind[1:])),
        ((16, BEHIND), t(*rows, last)),
        ((16, BEHIND), t(*rows[:-1], "D|2|3|1|2|1|F", last, *behind)), ((16, BEHIND), t(rows[0], "D|1|2|1|2|0|B", *rows[2:], last, *behind)),
    ]
    for reply, text in others:
        assert first_reason_of_sheet(text) == reply, text[-40:]
        yield text
    for more in (1, 2, 4):
        text = rules.sheet(2, ((1, 2, 3),) * (MOST_ROWS + more))
        assert first_reason_of_sheet(text) == (16, BEHIND)
        yield text


def tables_of_most():
    """Rings and their rows, as many as there may be, of few offices or with short fronts, so that they are soon routed."""
    rng, n = random.Random(1), MOST_OFFICES
    few = [(k, k + w) for k in (1, 31, 32, 33, 60) for w in (1, 2, 4)]
    many = [p for p in pairs(n) if p[1] - p[0] <= 12]
    return [
        (2, ((1, 2, 9999),) * MOST_ROWS),
        (2, tuple((1, 2, rng.choice((0, 1, rng.randrange(10000)))) for _ in range(MOST_ROWS))),
        (3, tuple(LAST)),
        (n, ((n - 1, n, 9999),) * MOST_ROWS),
        (n, tuple(p + (9999,) for p in sorted(rng.choices(few, k=MOST_ROWS)))),
        # every pair of 20 offices, and many of their circuits more
        (20, tuple(p + (rng.randrange(10000),) for p in sorted(pairs(20) + rng.choices(pairs(20), k=MOST_ROWS - 190)))),
        (n, tuple(p + (rng.randrange(10000),) for p in sorted(rng.sample(many, MOST_ROWS // 2) * 2))),
    ]


def tables_between():
    """Rings and rows of which older desks refuse the number, and these do not."""
    rng = random.Random(33)
    return [
        (33, ()),
        (33, ((1, 33, 1), (32, 33, 9999))),
        (2, ((1, 2, 9999),) * 497),
        (32, tuple(p + (rng.randrange(10000),) for p in pairs(32)[:1] + pairs(32))),
        # no load of more than seven digits, and loads of eight
        (2, ((1, 2, 9999),) * 1000),
        (2, ((1, 2, 9999),) * 1001),
    ]


def tables():
    """Good tables and refused ones, small and large."""
    yield from in_order()
    yield from tables_of_more()
    for n, rows in tables_of_most():
        for more in ((), rows[-1:], rows[-1:] * 4):
            yield write_table(n, rows + more)
    for n, rows in tables_between():
        yield write_table(n, rows)
    # as many pairs as there may be rows, and one circuit more; in the last row's place one that is below
    for n in (32, MOST_OFFICES):
        every = [p + (7,) for p in spread(n)]
        for at in (0, 200, len(every) - 2):
            yield write_table(n, every[:at] + every[at:at + 1] * 2 + every[at + 1:])
            yield write_table(n, every[:at] + every[at:at + 1] * 2 + every[at + 1:-1] + every[:1])
    # as many rows as a text can hold, and one more
    for count in (4095, 4096):
        yield write_table(2, [(1, 2, 0)] * count)


def drawn(rng, n, count):
    """Rows between few pairs of offices."""
    few = rng.sample(pairs(n), min(len(pairs(n)), rng.randint(1, 1 + count // 2)))
    top = rng.choice([0, 1, 3, 20, 9999])
    return [p + (rng.randint(0, top),) for p in sorted(rng.choices(few, k=count))]


def small_tables(rng):
    """Tables of many circuits; rule B never splits two of one pair."""
    for _ in range(60):
        n = rng.choice([2, 3, 4, 5, 6, 9, 16, 64])
        rows = drawn(rng, n, rng.randint(2, 24))
        split = [row[:2] for row, x in zip(rows, rules.rule_b(n, rows, rules.rule_a(n, rows)[2])) if all(x)]
        assert len(split) == len(set(split)), rows
        yield n, rows


def halved(rng, n, count):
    """Rows across one cut, each halved: every load is the across number, so all but the bound holds."""
    g, h = rng.choice(pairs(n))
    some = [p for p in pairs(n) if (p[0] <= g < p[1]) != (p[0] <= h < p[1])]
    rows = [p + (rng.choice((0, 1, 3, 9999)),) for p in sorted(rng.choices(some, k=count))]
    ways = ["F" if row[2] == 0 else rng.choice("FB") for row in rows]
    return rules.figures(n, rows, (g, h), [[d, d] for *_, d in rows], ways)


def late_pairs():
    """Split rows that all cross but for two circuits, at each place; and whole rows but for the last two of as many as there may be."""
    for k in range(1, 7):
        rows = [(i, i + 6, 3) for i in sorted([*range(1, 7), k])]
        yield (0, 0, k, k + 1), rules.text_of(rules.figures(12, rows, (6, 12), [[3, 3]] * 7, "FBFBFBF"))
    half = MOST_ROWS // 2 - 1
    rows = [(1, 2, 9)] * 2 * half + [(1, 2, 1)] * 2
    sent = [[18, 0]] * half + [[0, 18]] * half + [[1, 1]] * 2
    yield (0, 0, MOST_ROWS - 1, MOST_ROWS), rules.text_of(rules.figures(2, rows, (1, 2), sent, "F" * half + "B" * half + "FB"))


def widest(front):
    """A sheet with the longest rows that there are, and as many that go F: of 1,024 513 keep the bound, 514 break it."""
    n = MOST_OFFICES
    rows, sent = [(n - 1, n, 9999)] * MOST_ROWS, [[10000, 9998], [9998, 10000]] * (MOST_ROWS // 2)
    return rules.text_of(rules.figures(n, rows, (1, n - 1), sent, "F" * front + "B" * (MOST_ROWS - front)))


# how many go F, on both sides of the bound
FRONTS = (MOST_ROWS // 2, MOST_ROWS // 2 + 1, MOST_ROWS // 2 + 2)


def sheets():
    """Sheets of circuits, ours and other tools', and those of as many rows as there may be and more."""
    rule_c_on_circuits()
    yield from asserted([*checked_by_hand(), *late_pairs()])
    yield from sheets_of_more()
    for n, rows in tables_of_most() + tables_between():
        yield rules.sheet(n, rows)
    bounds = [widest(front) for front in FRONTS]
    assert [first_reason_of_sheet(text) for text in bounds] == [None, None, (14, 0)]
    yield from bounds
    yield b"R\t2\t4\n" + b"D\t1\t2\t0\t0\t0\tF\n" * 2340
    rng = random.Random(16)
    for _ in range(16):
        n = rng.choice([2, 3, 4, 6, 9, 16, 64])
        for lines in foreign(rng, n, drawn(rng, n, rng.randint(2, 16))):
            yield rules.text_of(lines)
        yield rules.text_of(halved(rng, n, rng.randint(2, 16)))
        yield damaged(rng, rules.sheet(n, tuple(drawn(rng, n, rng.randint(2, 9)))))
        yield damaged(rng, rules.text_of(halved(rng, n, rng.randint(2, 9))))


def rewritten_often():
    """Two circuits, the longest sheet that is accepted, and one with a row too many."""
    yield checked_by_hand()[2][1]
    yield widest(FRONTS[0])
    yield rules.sheet(2, ((1, 2, 3),) * (MOST_ROWS + 1))
