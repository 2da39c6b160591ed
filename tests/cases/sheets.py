"""Sheets to be checked: the stated ones, each refusal on first, middle and last lines, two faults at once, and sheets of other tools."""
import random

import rules
from judging import MOST_OFFICES, MOST_ROWS
from reading import LONGEST, Sheet, first_reason_of_sheet, line_by_line, lines_of


def t(*lines, end="\n"):
    """A text from lines with | for tabs."""
    return ("\n".join(lines) + end).replace("|", "\t").encode("latin-1")


def shown(text):
    """A text's lines with | for tabs."""
    return text.decode("latin-1").replace("\t", "|").rstrip("\n").split("\n")


def pairs(n):
    return [(i, j) for i in range(1, n) for j in range(i + 1, n + 1)]


def spread(n):
    """All pairs, or of too many as many as a table may have rows, evenly spread among them."""
    every = pairs(n)
    count = min(len(every), MOST_ROWS)
    return [every[k * len(every) // count] for k in range(count)]


def write_table(n, rows, fibres=4, family=""):
    return b"".join([b"R\t%d\t%d%s\n" % (n, fibres, b"\tM" if family else b"")] + [b"D\t%d\t%d\t%d\n" % r for r in rows])


def full(n, amount):
    return write_table(n, [p + (amount(k),) for k, p in enumerate(spread(n))])


def stated():
    """The sheets of the stated cases (Rules, stated cases), with the reason, the line and the pair of each."""
    crossing = ["D|%d|%d|1|1|1|F" % (k, k + 4) for k in range(1, 5)]
    loads = ["L|%d|4|%d" % (k, u) for k, u in enumerate((1, 2, 3, 4, 3, 2, 1, 0), 1)]
    yes, z = (0, 0, 0, 0), ("L|1|0|0", "L|2|0|0", "Z|0|3")
    return [
        (yes, t("R|4|4", "D|1|3|1|1|1|F", "D|2|4|1|1|1|B", "C|1|3|2", "L|1|2|2", "L|2|2|1", "L|3|2|0", "L|4|2|1", "Z|2|3")),
        (yes, t("R|2|4", "C|1|2|0", *z)),
        (yes, t("R|2|4", "D|1|2|5|5|5|F", "C|1|2|5", "L|1|5|5", "L|2|5|0", "Z|5|12")),
        (yes, t("R|4|4", "D|1|2|1|1|1|F", "C|1|2|1", "L|1|1|1", "L|2|1|0", "L|3|1|0", "L|4|1|0", "Z|1|3")),
        (yes, t("R|5|4", "D|1|2|2|4|0|F", "D|1|4|5|0|10|B", "D|2|3|9|18|0|F", "D|2|4|11|10|12|B", "D|3|4|4|8|0|F", "D|3|5|3|6|0|F",
                "C|2|4|28", "L|1|16|13", "L|2|28|9", "L|3|24|7", "L|4|28|19", "L|5|22|16", "Z|19|48")),
        # as rule B leaves it, before rule C: accepted, and the pair is there
        ((0, 0, 2, 4), t("R|5|4", "D|1|2|2|4|0|F", "D|1|4|5|6|4|F", "D|2|3|9|18|0|F", "D|2|4|11|4|18|B", "D|3|4|4|8|0|F", "D|3|5|3|6|0|F",
                         "C|2|4|28", "L|1|28|18", "L|2|28|14", "L|3|24|12", "L|4|28|14", "L|5|22|11", "Z|18|48")),
        (yes, t("R|8|4", "D|1|4|1|2|0|F", "D|2|3|1|2|0|F", "D|5|8|2|4|0|F", "D|6|7|2|2|2|F", "C|2|6|6",
                "L|1|4|1", "L|2|6|2", "L|3|4|1", "L|4|2|0", "L|5|6|2", "L|6|6|4", "L|7|6|2", "L|8|2|0", "Z|4|12")),
        (yes, t("R|2|4", "D|1|2|768|768|768|F", "C|1|2|768", "L|1|768|768", "L|2|768|0", "Z|768|768")),
        (yes, t("R|2|4", "D|1|2|769|769|769|F", "C|1|2|769", "L|1|769|769", "L|2|769|0", "Z|769|0")),
        ((13, 0, 0, 0), t("R|4|4", "D|1|2|1|0|2|B", "C|1|2|1", "L|1|0|0", "L|2|2|1", "L|3|2|1", "L|4|2|1", "Z|1|3")),
        ((14, 0, 0, 0), t("R|8|4", *crossing, "C|4|8|4", *loads, "Z|4|12")),
        (yes, t("R|2|4", "D|1|2|0|0|0|F", "C|1|2|0", *z)),
        ((9, 2, 0, 0), t("R|2|4", "D|1|2|0|0|0|B", "C|1|2|0", *z)),
        ((3, 1, 0, 0), t("R|1|4", "C|1|1|0", "L|1|0|0", "Z|0|3")),
        ((3, 1, 0, 0), t("R|65|4", "C|1|2|0", *["L|%d|0|0" % k for k in range(1, 66)], "Z|0|3")),
        (yes, t("R|64|4", "C|1|2|0", *["L|%d|0|0" % k for k in range(1, 65)], "Z|0|3")),
        (yes, t("R|2|4", "D|1|2|9999|9999|9999|F", "C|1|2|9999", "L|1|9999|9999", "L|2|9999|0", "Z|9999|0")),
        ((7, 2, 0, 0), t("R|2|4", "D|1|2|10000|10000|10000|F", "C|1|2|10000", "L|1|10000|10000", "L|2|10000|0", "Z|10000|0")),
        ((4, 2, 0, 0), t("R|4|4", "D|5|2|10000|1|1|B", "C|1|2|0", "Z|0|3")),
        ((2, 1, 0, 0), b""),
    ]


def by_hand():
    """What other tools may write of the square and of two rows side by side: another cut of our size, a smaller one, other ways, other splits."""
    yes, loads = (0, 0, 0, 0), ("L|1|2|2", "L|2|2|1", "L|3|2|0", "L|4|2|1", "Z|2|3")
    square = ("R|4|4", "D|1|3|1|1|1|F", "D|2|4|1|1|1|B")
    side = ("L|1|2|1", "L|2|0|0", "L|3|2|1", "L|4|0|0", "Z|1|3")
    return [
        (yes, t(*square, "C|2|4|2", *loads)),
        ((13, 0, 0, 0), t(*square, "C|1|2|1", *loads)),
        ((13, 0, 0, 0), t(*square, "C|3|4|1", *loads)),
        ((10, 4, 0, 0), t(*square, "C|1|2|2", *loads)),
        (yes, t("R|4|4", "D|1|3|1|1|1|F", "D|2|4|1|1|1|F", "C|1|3|2", "L|1|2|1", "L|2|2|2", "L|3|2|1", "L|4|2|0", "Z|2|3")),
        (yes, t("R|4|4", "D|1|3|1|1|1|B", "D|2|4|1|1|1|B", "C|1|3|2", "L|1|2|1", "L|2|2|0", "L|3|2|1", "L|4|2|2", "Z|2|3")),
        (yes, t("R|4|4", "D|1|2|1|2|0|F", "D|3|4|1|2|0|F", "C|1|3|2", *side)),
        ((0, 0, 1, 2), t("R|4|4", "D|1|2|1|1|1|F", "D|3|4|1|1|1|F", "C|1|3|2", "L|1|2|1", "L|2|2|0", "L|3|2|1", "L|4|2|0", "Z|1|3")),
        ((0, 0, 1, 3), t("R|4|4", "D|1|2|1|1|1|F", "D|2|4|0|0|0|F", "D|3|4|1|1|1|F", "C|1|3|2", "L|1|2|1", "L|2|2|0", "L|3|2|1", "L|4|2|0", "Z|1|3")),
        ((13, 0, 0, 0), t("R|4|4", "D|1|2|1|2|0|F", "D|3|4|1|1|1|F", "C|1|3|2", "L|1|3|1", "L|2|1|0", "L|3|1|1", "L|4|1|0", "Z|1|3")),
        ((9, 2, 0, 0), t("R|4|4", "D|1|2|1|2|0|B", "D|3|4|1|2|0|F", "C|1|3|2", *side)),
    ]


def two_fibres():
    """What two fibres change (Rules, fibres): the size is for twice the peak, and 0 where none is large enough for that."""
    yes, zeros = (0, 0, 0, 0), ("L|1|0|0", "L|2|0|0")
    out = [(yes, t("R|2|2", "C|1|2|0", *zeros, "Z|0|3")), ((20, 1, 0, 0), t("R|2|3", "C|1|2|0", *zeros, "Z|0|3")), ((2, 1, 0, 0), t("R|2", "C|1|2|0", *zeros, "Z|0|3"))]
    for peak, four, two in ((1, 3, 3), (2, 3, 12), (6, 12, 12), (7, 12, 48), (24, 48, 48), (25, 48, 192), (96, 192, 192), (97, 192, 768), (384, 768, 768), (385, 768, 0), (768, 768, 0), (769, 0, 0)):
        for fibres, size, other in ((4, four, two), (2, two, four)):
            body = ("R|2|%d" % fibres, "D|1|2|%d|%d|%d|F" % (peak, peak, peak), "C|1|2|%d" % peak, "L|1|%d|%d" % (peak, peak), "L|2|%d|0" % peak)
            out.append((yes, t(*body, "Z|%d|%d" % (peak, size))))
            out += [((12, 6, 0, 0), t(*body, "Z|%d|%d" % (peak, other)))] if size != other else []
    return out


def asserted(stated):
    """Texts for which a reason, a line and a pair are stated: these are what our reading says."""
    for (reason, line, *pair), text in stated:
        sheet = Sheet(text)
        assert (first_reason_of_sheet(text) or (0, 0)) == (reason, line), text
        assert reason or rules.first_parallel(sheet.rows, sheet.sent) == tuple(pair), text
        yield text


def all_stated():
    return asserted(stated() + by_hand() + two_fibres())


# the table whose sheet is spoilt: rows whole either way, a row of 0, and two split rows that cross, one F and one B
N = 7
ROWS = ((1, 3, 10), (1, 4, 4), (2, 5, 5), (2, 6, 0), (2, 7, 9), (3, 6, 4), (4, 5, 1))


def good():
    lines = shown(rules.sheet(N, ROWS))
    assert lines[1:8] == ["D|1|3|10|19|1|F", "D|1|4|4|0|8|B", "D|2|5|5|10|0|F", "D|2|6|0|0|0|F", "D|2|7|9|4|14|B", "D|3|6|4|8|0|F", "D|4|5|1|2|0|F"]
    return lines


def places(lines):
    """The first, a middle and the last line of each letter."""
    for letter in "RDCLZ":
        at = [k for k, line in enumerate(lines) if line[0] == letter]
        yield from sorted({at[0], at[len(at) // 2], at[-1]})


def spoilt(line):
    """One line of the wrong shape made from a good one, in each of many ways."""
    parts = line.split("|")
    for k in range(len(parts)):
        yield "|".join(parts[:k] + parts[k + 1:])
        yield "|".join(parts[:k] + [parts[k]] + parts[k:])
        yield "|".join(parts[:k] + [""] + parts[k + 1:])
    for k in range(1, len(parts)):
        for bad in ("0" + parts[k], parts[k] + " ", "-1", "123456789", "F", "x"):
            # the sixth field is the way, where F is good
            if (k, bad) != (6, "F"):
                yield "|".join(parts[:k] + [bad] + parts[k + 1:])
    for bad in ("", line + "|", "|" + line, line + "\r", line + "\0", " " + line, line[0] + line, line.lower(), line.replace("|", " "), line.replace("|", "||", 1)):
        yield bad


def shapes():
    """2 on first, middle and last lines of each letter: a bad line in a good one's place, put before it, a line left out, doubled, or of another letter."""
    lines = good()
    others = ["R|7|4", "D|1|2|3", "D|1|2|1|2|0|F", "C|1|2|3", "L|1|2|3", "Z|1|2"]
    for at in places(lines):
        bad = list(spoilt(lines[at]))
        for line in bad:
            text = t(*lines[:at], line, *lines[at + 1:])
            assert (2, at + 1) == first_reason_of_sheet(text), (line, lines[at])
            yield text
        for line in bad[:1] + others:
            yield t(*lines[:at], line, *lines[at:])
            yield t(*lines[:at], line, *lines[at + 1:])
        yield t(*lines[:at], *lines[at + 1:])
        yield t(*lines[:at + 1], *lines[at:])
        yield t(*lines[:at + 1])
        yield t(*lines[:at + 1], end="")
        yield t(*lines[:at + 1], end="\n\n")
        yield t(*lines[:at])
    for end in ("", "\n\n", "\r\n", "\n\0", "\nR|7|4\n", "\nZ|0|3\n", "\n ", "\n" + lines[-1] + "\n"):
        yield t(*lines, end=end)


def changed(lines, at, **new):
    """A line with fields changed, given by place: f1 is the first after the letter."""
    parts = lines[at].split("|")
    for name, value in new.items():
        parts[int(name[1:])] = str(value)
    return lines[:at] + ["|".join(parts)] + lines[at + 1:]


def alone(reason, at, lines):
    """A text of which this reason alone holds on this line, 0 for no reason, and none on a line before."""
    text = t(*lines)
    held = {one for one in Sheet(text).held() if one[0] <= at + 1}
    assert held == ({(at + 1, reason)} if reason else set()), (text, held)
    return text


def rows_refused():
    """3 to 9, each alone, on the first, a middle and the last row; nodes of the row before are no reason."""
    lines = good()
    for n in (0, 1, 65, 9999999, 99999999):
        yield alone(3, 0, changed(lines, 0, f1=n))
    for fibres in (0, 1, 3, 5, 24, 9999999, 99999999):
        yield alone(20, 0, changed(lines, 0, f2=fibres))
    # the fibres' own size differs, and no other figure
    yield alone(0, 0, changed(lines, 0, f2=2))
    rows = [k for k, line in enumerate(lines) if line[0] == "D"]
    for at in (rows[0], rows[3], rows[-1]):
        i, j, d, front, back, way = (int(p) if p.isdigit() else p for p in lines[at].split("|")[1:])
        yield alone(4, at, changed(lines, at, f2=N + 1))
        yield alone(4, at, changed(lines, at, f2=9999999))
        yield alone(4, at, changed(lines, at, f2=99999999))
        yield alone(5, at, changed(lines, at, f1=j))
        yield alone(5, at, changed(lines, at, f1=j, f2=j - 1) if at > rows[0] else changed(lines, at, f1=j, f2=i))
        if at > rows[0]:
            before = lines[at - 1].split("|")
            yield alone(0, at, changed(lines, at, f1=before[1], f2=before[2]))
            yield alone(6, at, changed(lines, at, f1=1, f2=2))
        for amount, f, b in ((10000, 20000, 0), (10000, 1, 19999), (9999999, 9999999, 9999999), (99999999, 99999999, 99999999), (10000, 10000, 10000)):
            yield alone(7, at, changed(lines, at, f3=amount, f4=f, f5=b, f6="F"))
        for f, b in ((front + 1, back), (front, back + 1), (front + 65536, back), (9999999, 9999999), (99999999, 99999999), (2 * d + 2, 0)):
            way_due = "F" if b == 0 else "B" if f == 0 else way
            yield alone(8, at, changed(lines, at, f4=f, f5=b, f6=way_due))
        yield alone(9, at, changed(lines, at, f4=2 * d, f5=0, f6="B"))
        if d:
            yield alone(9, at, changed(lines, at, f4=0, f5=2 * d, f6="F"))
    zero = rows[3]
    yield alone(4, rows[0], changed(lines, rows[0], f1=0))
    yield alone(9, zero, changed(lines, zero, f6="B"))


def figures_refused():
    """10 on the cut's line, 11 on the first, a middle and the last link, 12 on the last line: each alone, boundaries on both sides."""
    lines = good()
    at = next(k for k, line in enumerate(lines) if line[0] == "C")
    g, h, m = map(int, lines[at].split("|")[1:])
    off_ring = [(0, h, m), (g, g, m), (g, g, 0), (h, g, m), (h, h, 0), (g, N + 1, m), (0, 0, 0), (N, N + 1, m), (9999999, 9999999, m), (99999999, 99999999, m)]
    for cut in off_ring + [(g, h, across) for across in (m + 1, m - 1, m + 65536, 0, 9999999, 99999999)]:
        yield alone(10, at, changed(lines, at, f1=cut[0], f2=cut[1], f3=cut[2]))
    links = [k for k, line in enumerate(lines) if line[0] == "L"]
    for at in (links[0], links[3], links[-1]):
        k, split, unsplit = map(int, lines[at].split("|")[1:])
        wrong = [(link, split, unsplit) for link in (k - 1, k + 1, 9999999, 99999999)]
        wrong += [(k, load, unsplit) for load in (split - 1, split + 1, split + 65536, 9999999, 99999999)]
        wrong += [(k, split, load) for load in (max(unsplit - 1, 0), unsplit + 1, unsplit + 65536, 9999999, 99999999)]
        for link in wrong + [(k, unsplit, split), (k, 0, 0)]:
            if link != (k, split, unsplit):
                yield alone(11, at, changed(lines, at, f1=link[0], f2=link[1], f3=link[2]))
    for at in (links[0], links[2], links[-2]):
        yield t(*lines[:at], lines[at + 1], lines[at], *lines[at + 2:])
    peak, size = map(int, lines[-1].split("|")[1:])
    sizes = [(peak, s) for s in (0, 3, 12, 48, 192, 768, 13, 11, 9999999, 99999999) if s != size]
    for last in [(peak + 1, size), (peak - 1, size), (0, 3), (0, 0), (9999999, 0), (99999999, 0)] + sizes:
        yield alone(12, len(lines) - 1, changed(lines, len(lines) - 1, f1=last[0], f2=last[1]))


def two_faults():
    """The line that comes first is given, of those with a fault of form if there are any, and in a line the smaller reason; 13 and 14 come after all lines."""
    lines = good()
    row = next(k for k, line in enumerate(lines) if line[0] == "D")
    cut = next(k for k, line in enumerate(lines) if line[0] == "C")
    last = len(lines) - 1
    faults = [
        (0, "R|65|4"), (0, "R|07|4"),
        (row, "D|1|3|6|6|7|F"), (row, "D|1|8|10000|6|7|F"), (row, "D|1|3|6|0|12|F"), (row + 2, "D|1|1|3|6|0|F"), (row + 2, "D|1|2|10000|6|0|B"),
        (row + 3, "D|2|6|0|0|0|B"), (row + 3, "D|2|6|0|1|0|B"), (cut - 1, "D|6|7|9|18|0"),
        (cut, "C|1|9|0"), (cut, "C|1|2|3|"), (cut + 1, "L|1|0|0"), (cut + 3, "L|4|1|1"), (cut + N, "L|7|1"),
        (last, "Z|1|12"), (last, "Z|1|13"), (last, "Z|1"),
    ]
    for a, (one, first) in enumerate(faults):
        for other, second in faults[a + 1:]:
            both = lines[:]
            both[one], both[other] = first, second
            if one != other:
                yield t(*both)
        yield t(*lines[:one], first, *lines[one + 1:], end="")
        yield t(*lines[:one], first, *lines[one + 1:], end="\n\n")
        yield t(*lines[:one], first)
    # a row with two or more reasons at once
    for line in ("D|0|0|10000|1|1|B", "D|8|1|6|0|12|F", "D|3|3|10000|1|0|F", "D|3|1|6|0|0|B", "D|1|3|10000|0|0|B", "D|1|3|6|12|1|B", "D|1|3|6|0|11|F", "D|1|3|6|0|0|B"):
        yield t(*lines[:row], line, *lines[row + 1:])
    # 13 and 14 with others, and both at once
    for k in (9, 10):
        spoiled = shown(stated()[k][1])
        yield t(*spoiled, end="")
        yield t(*spoiled, "Z|0|3")
        yield t(*spoiled[:-1])
        yield t(*spoiled[:-1], "Z|0|3")
        yield t(*spoiled[:1], *spoiled[2:])
    rows = [(k, k + 4, 1) for k in range(1, 5)]
    yield rules.text_of(rules.figures(8, rows, (1, 5), [[1, 1]] * 4, "FFFF"))
    yield rules.text_of(rules.figures(8, rows, (1, 2), [[1, 1]] * 4, "FFFF"))


def early_figures(lines):
    """One false figure on a line, at the first line of its kind or at the last that has one behind it: line, reason and the line's text."""
    row = next(k for k, line in enumerate(lines) if line[0] == "D")
    cut = next(k for k, line in enumerate(lines) if line[0] == "C")
    return [
        (row, 8, "D|1|3|10|19|2|F"), (row, 8, "D|1|3|10|65555|1|F"), (row + 1, 9, "D|1|4|4|0|8|F"), (cut - 2, 9, "D|3|6|4|8|0|B"),
        (cut, 10, "C|1|1|0"), (cut, 10, lines[cut] + "1"), (cut + 1, 11, "L|2|1|1"), (cut + 1, 11, "L|1|0|0"), (cut + N - 1, 11, "L|6|0|0"), (len(lines) - 1, 12, "Z|1|12"),
    ]


def late_forms(lines):
    """A fault of form on a late line: where the text changes, the lines from there on, and what they are given. Rows 3 and 7 of the seven, the cut, links and the end."""
    row, cut, z = 3, next(k for k, line in enumerate(lines) if line[0] == "C"), len(lines) - 1
    for at, reason, line in [
        (row, 4, "D|2|8|5|10|0|F"), (cut - 1, 4, "D|0|5|1|2|0|F"), (row, 5, "D|5|5|5|10|0|F"), (cut - 1, 5, "D|5|4|1|2|0|F"), (row, 6, "D|1|3|5|10|0|F"), (cut - 1, 6, "D|3|5|1|2|0|F"),
        (row, 7, "D|2|5|10000|20000|0|F"), (cut - 1, 7, "D|4|5|99999999|2|0|F"), (cut - 1, 2, "D|4|5|100000000|2|0|F"),
        (row, 2, "D|2|5|05|10|0|F"), (cut - 1, 2, "D|4|5|1|2|0|X"), (cut - 1, 2, "D|4|5|1"), (cut, 2, "C|2|6|"), (cut, 2, "c"), (cut + 1, 2, "L|1|0|x"), (cut + 2, 2, ""), (cut + N, 2, "L|7|1"),
        (z, 2, "Z|1|12|"), (z, 2, "Z|1"), (z, 2, "z|1|12"),
    ]:
        yield at, [line, *lines[at + 1:]], (reason, at + 1)
    # a text that ends too early; a link that is left out, so that the last line is in its place; a line that is left over
    yield from ((at, [], (2, at + 1)) for at in (cut, cut + 1, cut + N, z))
    yield from ((at, lines[at + 1:], (2, z)) for at in (cut + 1, cut + N))
    yield from ((z + 1, [more], (2, z + 2)) for more in (lines[z], "x"))


def given_late(figure, form, text):
    """A text that gets the one reason and line where each line is judged as it is read, and the other where all are read before."""
    assert (line_by_line(text), first_reason_of_sheet(text)) == (figure, form), text[-80:]
    return text


def forms_behind_figures():
    """A fault of form wins over a false figure on an earlier line; and 16, on the first row too many, over figures of the first rows and of the one before it."""
    lines = good()
    for early, reason, line in early_figures(lines):
        for late, rest, form in late_forms(lines):
            if late > early:
                yield given_late((reason, early + 1), form, t(*lines[:early], line, *lines[early + 1:late], *rest))
    many = MOST_ROWS + 1
    rows = shown(rules.sheet(3, tuple([(1, 2, 1)] * 100 + [(1, 3, 0)] * 100 + [(2, 3, 1)] * (many - 200))))
    for at in (1, 101, many - 1):
        nodes = "D|%s|%s" % tuple(rows[at].split("|")[1:3])
        for reason, line in ((8, nodes + "|1|2|1|F"), (9, nodes + "|1|2|0|B")):
            for more in (1, 3):
                yield given_late((reason, at + 1), (16, many + 1), t(*rows[:at], line, *rows[at + 1:many], *rows[many:many + 1] * more, *rows[many + 1:]))


def bounds():
    """Rows that all cross, each halved: the bound on both sides, by how many go front and by the amounts."""
    for n, count in ((8, 4), (12, 6), (16, 8), (32, 16), (64, 32)):
        half = n // 2
        for d in (1, 9999):
            rows = [(k, k + half, d) for k in range(1, count + 1)]
            for front in range(count // 2, count + 1):
                yield rules.text_of(rules.figures(n, rows, (half, n), [[d, d]] * count, "F" * front + "B" * (count - front)))
    # D is the largest amount of a split row: a larger one that is whole does not count
    for amounts in ((1, 1, 1, 1), (2, 1, 1, 1), (3, 1, 1, 1), (1, 1, 2, 2)):
        rows = [(k, k + 4, d) for k, d in enumerate(amounts, 1)]
        for ways in ("FFFF", "FFFB", "BFFF"):
            yield rules.text_of(rules.figures(8, rows, (4, 8), [[d, d] for d in amounts], ways))
    rows = [(1, 5, 3), (2, 6, 1), (3, 7, 3), (4, 8, 1)]
    for sent in ([[6, 0], [1, 1], [0, 6], [1, 1]], [[6, 0], [2, 0], [0, 6], [0, 2]], [[3, 3], [1, 1], [3, 3], [1, 1]]):
        for ways in ("FFFF", "FFBF", "FFBB", "FBBB"):
            yield rules.text_of(rules.figures(8, rows, (4, 8), sent, ways))


def shuffled(rng, n, rows, m):
    """Rule B in another order of the rows."""
    order = rng.sample(range(len(rows)), len(rows))
    sent = rules.rule_b(n, [rows[k] for k in order], m)
    return [sent[order.index(k)] for k in range(len(rows))]


def foreign(rng, n, rows):
    """Other tools' sheets of one table: every cut of our size, cuts that are smaller (13), rule C skipped, other orders, ways turned."""
    g, h, m = rules.rule_a(n, rows)
    sent = rules.rule_b(n, rows, m)
    ours = [list(x) for x in sent]
    rules.rule_c(rows, ours)
    ways = rules.rule_d(rows, ours)
    cuts = pairs(n)
    same = [cut for cut in cuts if rules.across(rows, *cut) == m]
    small = [cut for cut in cuts if rules.across(rows, *cut) < m]
    for cut in rng.sample(same, min(3, len(same))) + rng.sample(small, min(2, len(small))):
        yield rules.figures(n, rows, cut, ours, ways)
    yield rules.figures(n, rows, (g, h), sent, rules.rule_d(rows, sent))
    for _ in range(2):
        other = shuffled(rng, n, rows, m)
        yield rules.figures(n, rows, rng.choice(same), other, rules.rule_d(rows, other))
    yield rules.figures(n, rows, (g, h), ours, [rng.choice("FB") if all(x) else way for x, way in zip(ours, ways)])
    yield rules.figures(n, rows, (g, h), [[row[2], row[2]] for row in rows], ["F"] * len(rows))


def drawn(rng, n, count):
    chosen = sorted(rng.sample(pairs(n), min(count, len(pairs(n)))))
    top = rng.choice([1, 3, 20, 9999])
    return [p + (rng.randint(0, top),) for p in chosen]


def of_other_tools():
    rng = random.Random(2003)
    for k in range(34):
        n = rng.choice([3, 4, 5, 7, 9, 12, 16, 20, 32, 64])
        for lines in foreign(rng, n, drawn(rng, n, rng.randint(2, 18))):
            yield rules.text_of(lines)
    rng = random.Random("large sheets of other tools")
    for n, part in ((20, 1.0), (32, 0.2), (64, 0.05)):
        rows = [p + (rng.randint(0, 9999),) for p in pairs(n) if rng.random() < part]
        g, h, m = rules.rule_a(n, rows)
        other = shuffled(rng, n, rows, m)
        yield rules.text_of(rules.figures(n, rows, (g, h), other, rules.rule_d(rows, other)))


def longest():
    """Sheets of 32,768 bytes and of one more: good lines, then lines left over; and a field of very many digits."""
    body = t(*good())
    for size in (LONGEST, LONGEST + 1):
        yield body + b"Z\t0\t3\n" * ((size - len(body)) // 6) + b"\n" * ((size - len(body)) % 6)
    yield b"R\t4\t4\nC\t1\t2\t" + b"9" * 3000 + b"\n"


def damaged(rng, text):
    s = bytearray(text)
    for _ in range(rng.choice([1, 1, 1, 2, 3])):
        at = rng.randrange(len(s) + 1)
        what = rng.randrange(7)
        ls = lines_of(bytes(s))
        if what == 0 and at < len(s):
            s[at] = rng.choice(b"\t\n 0123456789RDCLZFBx\0\r\xff")
        elif what == 1:
            s[at:at] = bytes([rng.choice(b"\t\n 0123456789RDCLZFB")])
        elif what == 2 and at < len(s):
            del s[at]
        elif what == 3:
            del s[at:]
        elif ls:
            a, b = rng.randrange(len(ls)), rng.randrange(len(ls))
            if what == 4:
                ls[a], ls[b] = ls[b], ls[a]
            elif what == 5:
                ls.insert(a, ls[a])
            else:
                parts = ls[a].rstrip(b"\n").split(b"\t")
                parts[rng.randrange(len(parts))] = rng.choice((b"0", b"1", b"2", b"64", b"65", b"9999", b"10000", b"19998", b"99999999", b"100000000", b"F", b"B"))
                ls[a] = b"\t".join(parts) + b"\n"
            s = bytearray(b"".join(ls))
    return bytes(s)


def damaged_sheets():
    rng = random.Random(14)
    for k in range(330):
        n = rng.choice([2, 3, 4, 6, 9, 16, 32, 64])
        text = rules.sheet(n, tuple(drawn(rng, n, rng.randint(0, 10))))
        yield damaged(rng, text) if k % 10 else text


def full_tables(rng):
    """Tables with all pairs of 20 and of 32 offices, and with as many of those of 64 as there may be."""
    for n, kinds in ((20, 3), (32, 3), (64, 1)):
        for amounts in (range(10000), (0, 1, 9999), (9999,))[:kinds]:
            yield full(n, lambda k: rng.choice(amounts))


def full_rings():
    """Our sheets of some of them, and one figure in the last lines false."""
    tables = list(full_tables(random.Random(496)))
    for k in (0, 3, 4, 6):
        n, *rows = [[int(p) for p in line.split("|")[1:]] for line in shown(tables[k])]
        text = rules.sheet(n[0], tuple(map(tuple, rows)))
        yield text
    lines = shown(text)
    _, k, split, unsplit = lines[-2].split("|")
    yield t(*lines[:-2], "L|%s|%s|%d" % (k, split, int(unsplit) + 1), lines[-1])


def rewritten_often():
    """Accepted and refused sheets that are written afresh into buffers of every kind."""
    yield from (text for _, text in stated()[:6] + stated()[9:11])
    yield t(*good())
    yield t(*good()[:-1])
    yield rules.sheet(MOST_OFFICES, tuple(drawn(random.Random(15), MOST_OFFICES, 30)))


LISTS = (
    all_stated,
    shapes,
    rows_refused,
    figures_refused,
    two_faults,
    bounds,
    of_other_tools,
    longest,
    damaged_sheets,
    full_rings,
)
