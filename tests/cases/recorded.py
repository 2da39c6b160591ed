#!/usr/bin/env python3
"""Writes tests/cases/judging.calls: stored sheets that are held as values, each with what the rules find against it (Rules, reading and judging), by judging.py.

The file says how the values change from one case to the next: `ring N FIBRES` begins afresh with no rows, no links and 0 elsewhere; `family F` says the family; `row K TIMES` and six numbers, the last 0
for F and any other for B, puts the same row at so many places from K on; `link K TIMES` and three numbers likewise; `counts ROWS LINKS` says how many of them there are; `cut` and
`last` have three numbers and two. `judge = REASON PLACE` ends a case, and leaves the values for the next. No source of the project is used. Run it by hand after adding a case and
look at the difference; tests/desk/judging.c makes the calls, and the twin judges the same values by itself."""
import itertools
import random

import circuits
import judging
import rules
import sheets
from judging import MOST_OFFICES, MOST_ROWS, Values
from reading import FORM, LONGEST, Sheet, first_reason_of_sheet

# no text can spell them: the largest number of 32 bits, and others that would pass if high bits were lost
HUGE = (4000000000, 2**32 - 1)
HIGH = (2**8, 2**16, 2**31)


def held(lines):
    """Values by the lines of a sheet, family and ways as numbers."""
    by = {letter: [line[1:] for line in lines if line[0] == letter] for letter in "RDCLZ"}
    rows = tuple((*row[:5], 0 if row[5] == "F" else 1) for row in by["D"])
    return Values(*by["R"][0][:2], len(by["R"][0]) - 2, rows, tuple(by["C"][0]), tuple(map(tuple, by["L"])), tuple(by["Z"][0]))


def lettered(values):
    return values._replace(family="M" if values.family else "", rows=[(*row[:5], "B" if row[5] else "F") for row in values.rows])


def found(values):
    return judging.judged(lettered(values)) or (0, 0)


def of_text(text):
    """The values of a sheet's text all of whose lines have their shape; None of another."""
    sheet = Sheet(text)
    if len(text) > LONGEST or any(2 in sheet.holding(at) for at in range(1, len(sheet.lines) + 2)):
        return None
    read = sheet.read()
    rows = tuple((*row[:5], 0 if row[5] == "F" else 1) for row in read.rows)
    values = Values(read.n, read.fibres, int(read.family != ""), rows, tuple(read.cut), tuple(map(tuple, read.links)), tuple(read.last))
    # checking the text is reading and then judging, so where reading accepts the two find the same, by line and by place
    given, (reason, place) = first_reason_of_sheet(text), found(values)
    assert given and given[0] in FORM or (given or (0, 0)) == ((reason, sheet.line(reason, place)) if reason else (0, 0)), text
    return values


def with_row(values, place, **new):
    """The values with fields of a row changed."""
    row = dict(zip(("first", "second", "amount", "front", "back", "way"), values.rows[place - 1]), **new)
    return values._replace(rows=(*values.rows[:place - 1], tuple(row.values()), *values.rows[place:]))


def with_link(values, place, **new):
    link = dict(zip(("link", "split", "unsplit"), values.links[place - 1]), **new)
    return values._replace(links=(*values.links[:place - 1], tuple(link.values()), *values.links[place:]))


def with_cut(values, **new):
    return values._replace(cut=tuple(dict(zip(("g", "h", "across"), values.cut), **new).values()))


def with_last(values, **new):
    return values._replace(last=tuple(dict(zip(("peak", "size"), values.last), **new).values()))


def good():
    """The sheet that is spoilt: rows whole either way, a row of amount 0, and two split rows that cross, one F and one B."""
    values = of_text(sheets.t(*sheets.good()))
    assert found(values) == (0, 0)
    return values


SQUARE = held(rules.figures(4, [(1, 3, 1), (2, 4, 1)], (1, 3), [[1, 1], [1, 1]], "FB"))


def stated():
    """Answers that were found by hand."""
    n = sheets.N
    x = good()
    row = {4: dict(second=n + 1), 5: dict(first=5), 6: dict(first=1, second=2), 7: dict(amount=10000), 8: dict(front=20), 9: dict(front=0, back=10)}
    yield (0, 0), SQUARE
    yield (0, 0), x
    for size in (0, 1, 65, 2**32 - 1):
        yield (3, 0), x._replace(n=size, fibres=3)
    for fibres in (0, 1, 3, 5, 2**31 + 4, 2**32 - 1):
        yield (20, 0), with_row(x, 1, first=0)._replace(fibres=fibres)
    for reason, new in row.items():
        yield (reason, 3), with_row(x, 3, **new)
    for reason in (10, 11, 12):
        yield (reason, 0), {10: with_cut(x, across=1), 11: x._replace(links=x.links[:-1]), 12: with_last(x, size=3)}[reason]
    for place in (1, 4, n):
        yield (11, place), with_link(x, place, link=0)
        yield (11, place), with_link(x, place, split=1)
        yield (11, place), with_link(x, place, unsplit=x.links[place - 1][2] + 1)
    many = Values(2, 4, 0, ((1, 2, 0, 0, 0, 0),) * (MOST_ROWS + 1), (1, 2, 0), ((1, 0, 0), (2, 0, 0)), (0, 3))
    yield (16, MOST_ROWS + 1), many
    yield (0, 0), many._replace(rows=many.rows[:-1])
    # 13 and 14: the stated sheets
    yield (13, 0), of_text(sheets.stated()[9][1])
    yield (14, 0), of_text(sheets.stated()[10][1])
    # any number but 0 goes B
    for way in (1, 2, 7, 256, 2**31, 2**32 - 1):
        yield (0, 0), with_row(x, 2, way=way)
        yield (9, 1), with_row(with_row(x, 1, way=way), 1, front=20, back=0)
        yield (0, 0), with_row(SQUARE, 2, way=way)
    yield (9, 2), with_row(x, 2, way=0)


def wrapping():
    """Sums that are right in fewer bits alone: front and back, twice an amount, loads and figures with so much more."""
    x = good()
    for place, (_, _, d, front, back, _) in enumerate(x.rows, 1):
        for base in (2**8, 2**16, 2**31, 2**32):
            for more in (0, 1, front, 2 * d):
                f, b = base - 1 - more, 2 * d + 1 + more
                if f < 2**32 and b < 2**32:
                    yield with_row(x, place, front=f, back=b)
                    yield with_row(x, place, front=b, back=f)
        yield with_row(x, place, amount=d + 2**31)
        yield with_row(x, place, front=(front + 2**31) % 2**32, back=(back + 2**31) % 2**32)
    zero = Values(2, 4, 0, ((1, 2, 0, 0, 0, 0),), (1, 2, 0), ((1, 0, 0), (2, 0, 0)), (0, 3))
    for f, b in ((2**32 - 1, 1), (1, 2**32 - 1), (2**31, 2**31), (2**16, 0), (0, 2**16), (2**32 - 2**16, 2**16)):
        yield with_row(zero, 1, front=f, back=b)
        yield with_row(zero, 1, front=f, back=b, way=1)
    for high in HIGH:
        yield from (x._replace(n=x.n + high), x._replace(fibres=x.fibres + high))
        for place in (1, 4, len(x.rows)):
            for at, name in enumerate(("first", "second", "amount", "front", "back")):
                yield with_row(x, place, **{name: x.rows[place - 1][at] + high})
        for at, name in enumerate(("g", "h", "across")):
            yield with_cut(x, **{name: x.cut[at] + high})
        for place in (1, 3, len(x.links)):
            for at, name in enumerate(("link", "split", "unsplit")):
                yield with_link(x, place, **{name: x.links[place - 1][at] + high})
        for at, name in enumerate(("peak", "size")):
            yield with_last(x, **{name: x.last[at] + high})
    # twice the peak would be the bound's other side again
    fibres = x._replace(fibres=2)
    yield with_last(fibres, peak=x.last[0] + 2**31, size=48)
    yield with_last(fibres, peak=x.last[0] + 2**31)


def huge():
    """Numbers that no text can spell, in each field of first, middle and last rows and links, of the cut, of the last line and of the ring."""
    x = good()
    for much in HUGE:
        yield from (x._replace(n=much), x._replace(fibres=much))
        for place in (1, 4, len(x.rows)):
            for names in (("first",), ("second",), ("amount",), ("front",), ("back",), ("front", "back"), ("first", "second"), ("amount", "front", "back"), ("first", "second", "amount", "front", "back", "way")):
                yield with_row(x, place, **dict.fromkeys(names, much))
        for names in (("g",), ("h",), ("across",), ("g", "h"), ("g", "h", "across")):
            yield with_cut(x, **dict.fromkeys(names, much))
        for place in (1, 3, len(x.links)):
            for names in (("link",), ("split",), ("unsplit",), ("link", "split", "unsplit")):
                yield with_link(x, place, **dict.fromkeys(names, much))
        for names in (("peak",), ("size",), ("peak", "size")):
            yield with_last(x, **dict.fromkeys(names, much))
        yield Values(much, much, much, ((much,) * 6,) * 2, (much,) * 3, ((much,) * 3,) * 2, (much,) * 2)
        yield Values(2, 4, 0, ((much,) * 6,) * 2, (much,) * 3, ((much,) * 3,) * 2, (much,) * 2)
        yield Values(2, 4, 0, (), (much,) * 3, ((much,) * 3,) * 2, (much,) * 2)
        yield Values(2, 4, 0, (), (1, 2, 0), ((much,) * 3,) * 2, (much,) * 2)
        yield Values(2, 4, 0, (), (1, 2, 0), ((1, 0, 0), (2, 0, 0)), (much,) * 2)


def counts():
    """Of links 0, one too few, one too many and many more, with and without other faults; of rows none."""
    x = good()
    n = x.n
    for links in ((), x.links[:-1], x.links[:1], x.links[1:], x.links + x.links[-1:], x.links + ((n + 1, 0, 0),), x.links * 100):
        odd = x._replace(links=links)
        yield from (odd, with_last(odd, size=3), with_cut(odd, across=1), with_cut(odd, g=0), with_row(odd, len(x.rows), front=3), odd._replace(n=65), odd._replace(fibres=3))
        if links:
            yield with_link(odd, 1, split=1)
    for size in (2, 20, 32, 33, 64):
        empty = held(rules.figures(size, [], (1, 2), [], []))
        yield from (empty, empty._replace(links=()), empty._replace(links=empty.links[:-1]), empty._replace(links=empty.links + empty.links), with_cut(empty, h=size), with_cut(empty, across=1))
    yield from (Values(2, 4, 0, (), (1, 2, 0), (), (0, 3)), Values(0, 0, 0, (), (0, 0, 0), (), (0, 0)), Values(2, 4, 0, (), (0, 0, 0), (), (0, 0)))


def many_rows():
    """Values of as many rows as there may be, of one more, and of 5,000: 16 of the first too many, which is 4, 5 or 6 where these hold, and comes before 7, 8 and 9; and what stands before it."""
    x = of_text(rules.sheet(3, tuple(circuits.LAST)))
    last = x.rows[-1]
    ends = [last, (2, 3, 10000, 20000, 0, 0), (2, 3, 1, 1, 2, 1), (2, 3, 1, 2, 0, 1), (2, 3, 4000000000, 4000000000, 4000000000, 7), (1, 3, 1, 2, 0, 0), (1, 3, 10000, 0, 1, 0), (3, 3, 1, 2, 0, 0), (2, 4, 1, 2, 0, 0),
            (0, 3, 10000, 0, 0, 1), (3, 2, 10000, 0, 0, 1), (4000000000, 4000000000, 0, 0, 0, 0)]
    yield x
    for end in ends:
        for more in (1, 2, 5000 - MOST_ROWS):
            yield x._replace(rows=x.rows + (end,) * more)
    for place in (1, 100, 201, 496, MOST_ROWS):
        for count in (MOST_ROWS, MOST_ROWS + 1, 5000):
            long = x._replace(rows=x.rows + (last,) * (count - MOST_ROWS))
            yield from (with_row(long, place, **new) for new in (dict(second=4), dict(first=3), dict(amount=10000), dict(front=7, back=7), dict(way=1 - long.rows[place - 1][5])))
    # what is found behind the rows
    yield from (with_cut(x, across=x.cut[2] + 1), with_link(x, 3, unsplit=0), with_last(x, size=0), x._replace(links=()))
    much = x.rows + (last,) * (5000 - MOST_ROWS)
    yield x._replace(rows=much, n=MOST_OFFICES + 1)
    yield x._replace(rows=much, cut=(0, 0, 0), links=())


def spoilt():
    """The good sheet with one fault in each field, and with two: the step that comes first tells."""
    x = good()
    faults = [
        x._replace(fibres=3), with_row(x, 1, first=0), with_row(x, 1, front=18), with_row(x, 2, way=0), with_row(x, 3, second=2), with_row(x, 4, first=2, second=4), with_row(x, 5, amount=10000),
        with_row(x, 6, back=1), with_row(x, 7, way=1), with_row(x, 7, first=8), with_cut(x, g=4), with_cut(x, h=8), with_cut(x, g=4, h=1), with_cut(x, across=32), x._replace(links=x.links[1:]),
        x._replace(links=x.links * 2), with_link(x, 1, link=2), with_link(x, 4, split=34), with_link(x, 7, unsplit=2), with_last(x, peak=18), with_last(x, size=12),
    ]
    yield from faults
    for one, two in itertools.combinations(faults, 2):
        yield Values(*(b if a == of_x else a for a, b, of_x in zip(one, two, x)))
        # both in the rows, or both in the links
        for name, which in (("rows", 3), ("links", 5)):
            if one[which] != x[which] and two[which] != x[which] and len(one[which]) == len(two[which]):
                yield one._replace(**{name: tuple(b if a == of_x else a for a, b, of_x in zip(one[which], two[which], x[which]))})
    # every row is at fault for a reason that stands behind those of the rows below it
    yield x._replace(rows=tuple((*row[:3], row[3] + 1, *row[4:]) for row in x.rows))
    yield x._replace(rows=x.rows[::-1])
    yield x._replace(links=x.links[::-1])
    yield x._replace(rows=())
    yield x._replace(rows=x.rows[:-1])
    yield x._replace(rows=x.rows + x.rows[-1:])
    yield x._replace(rows=x.rows + x.rows)


def of_families(x):
    """The same values on a ring of SDH, by 1 and by other numbers, with SONET's size and with its own."""
    own = of_text(rules.text_of([("R", x.n, x.fibres, "M"), *(("D", *row) for row in lettered(x).rows), ("C", *x.cut), *(("L", *link) for link in x.links), ("Z", x.last[0], rules.size_for(x.last[0], x.fibres, "M"))]))
    assert found(own) == (0, 0) and found(own._replace(family=0))[0] == (12 if own.last != x.last else 0)
    yield from (own._replace(family=family, last=last) for family in (1, 2, 256, 65536, 2**31, 2**32 - 1, 0) for last in (own.last, x.last))


def families():
    """Where the sizes of SDH end, with four fibres and with two: each side of each size, and the sizes of SONET, for which it is 12."""
    for peak in (0, 1, 2, 3, 4, 5, 8, 9, 16, 17, 32, 33, 64, 65, 128, 129, 256, 257, 384, 768, 769):
        for fibres in (4, 2):
            x = of_text(rules.sheet(2, ((1, 2, peak),), fibres, "M"))
            yield from (x._replace(family=family) for family in (1, 0, 3))
            yield from (with_last(x, size=size) for size in sorted({0, *rules.SIZES[""], *rules.SIZES["M"]} - {x.last[1]}))
    x = good()
    yield from of_families(x)
    # the family decides the size, and no other reason
    for family in (1, 2**32 - 1):
        yield from (one._replace(family=family) for one in (x._replace(n=1), x._replace(fibres=3), with_row(x, 1, first=0), with_row(x, 2, way=0), with_cut(x, across=1), with_link(x, 1, split=1)))
        yield from (with_last(x, peak=1)._replace(family=family), of_text(sheets.stated()[9][1])._replace(family=family, last=(1, 1)), of_text(sheets.stated()[10][1])._replace(family=family, last=(4, 4)))


def full_rings():
    """Our sheets of full rings of 20, 32 and 64 offices, with two fibres too, and each figure false in turn on first, middle and last rows and links."""
    rng = random.Random(32)
    for n, fibres in ((20, 2), (32, 4), (64, 4)):
        rows = tuple(p + (rng.choice((0, 1, 9999, rng.randrange(10000))),) for p in sheets.spread(n))
        x = of_text(rules.sheet(n, rows, fibres))
        assert found(x) == (0, 0)
        yield x
        yield from of_families(x)
        for place in (1, 2, len(rows) // 2, len(rows)):
            first, second, d, front, back, way = x.rows[place - 1]
            for new in (dict(first=0), dict(second=n + 1), dict(first=second), dict(amount=d + 10000), dict(front=front + 1), dict(back=back + 2**16), dict(front=2 * d + 1, back=2**32 - 1), dict(way=7 if way else 1)):
                yield with_row(x, place, **new)
        for new in (dict(g=0), dict(h=n + 1), dict(across=x.cut[2] - 1), dict(across=x.cut[2] + 2**16)):
            yield with_cut(x, **new)
        for place in (1, n // 2, n):
            link, split, unsplit = x.links[place - 1]
            for new in (dict(link=link % n + 1), dict(split=split + 1), dict(unsplit=unsplit + 1), dict(split=split + 2**16)):
                yield with_link(x, place, **new)
        yield from (with_last(x, peak=x.last[0] + 1), with_last(x, size=12), x._replace(links=x.links[:-1]), x._replace(links=x.links + ((n + 1, 0, 0),)), x._replace(fibres=6 - fibres), x)


def of_texts():
    """The values of sheets that are stored as texts: the stated ones, circuits, bounds, and some of other tools and of damaged texts, whatever is found."""
    some = [*(text for _, text in sheets.stated() + sheets.by_hand() + sheets.two_fibres() + circuits.checked_by_hand()), *sheets.bounds(), *itertools.islice(sheets.of_other_tools(), 0, 150, 3)]
    some += [*itertools.islice(sheets.figures_refused(), 0, None, 2), *itertools.islice(sheets.rows_refused(), 0, None, 2), *itertools.islice(sheets.damaged_sheets(), 0, None, 3)]
    some += [circuits.widest(front) for front in circuits.FRONTS] + [rules.sheet(2, ((1, 2, 3),) * count) for count in (497, MOST_ROWS, MOST_ROWS + 1)]
    for text in dict.fromkeys(some):
        values = of_text(text)
        if values:
            yield values


def runs(items):
    """Items that follow each other and are equal, as place, how many and the item."""
    place = 1
    for item, group in itertools.groupby(items):
        times = len(list(group))
        yield place, times, item
        place += times


def whole(values):
    """The lines that say all values."""
    yield "ring", values.n, values.fibres
    if values.family:
        yield "family", values.family
    for word, items in (("row", values.rows), ("link", values.links)):
        yield from ((word, place, times, *item) for place, times, item in runs(items))
    yield "counts", len(values.rows), len(values.links)
    yield "cut", *values.cut
    yield "last", *values.last


def changed(values, before):
    """The lines that say what is other than before; all of them on another ring or where most of it is other."""
    if before is None or (values.n, values.fibres) != (before.n, before.fibres):
        return list(whole(values))
    lines = [("family", values.family)] * (values.family != before.family)
    for word, items, old in (("row", values.rows, before.rows), ("link", values.links, before.links)):
        lines += [(word, place, times, *item) for place, times, (item, was) in runs(itertools.zip_longest(items, old)) if item is not None and item != was]
    if (len(values.rows), len(values.links)) != (len(before.rows), len(before.links)):
        lines.append(("counts", len(values.rows), len(values.links)))
    lines += [("cut", *values.cut)] * (values.cut != before.cut) + [("last", *values.last)] * (values.last != before.last)
    return lines


GROUPS = (
    ("by hand", lambda: (values for _, values in stated())), ("sums that would wrap", wrapping), ("numbers that no text can spell", huge), ("counts of links and of rows", counts),
    ("many rows", many_rows), ("one fault and two", spoilt), ("families", families), ("full rings", full_rings), ("sheets that are stored as texts", of_texts),
)


def main():
    for due, values in stated():
        assert found(values) == due, (due, found(values), values)
    lines, before, seen = [], None, {}
    for title, group in GROUPS:
        lines.append("# " + title)
        for values in group():
            reason, place = found(values)
            lines += [" ".join(map(str, line)) for line in changed(values, before)]
            lines.append("judge = %d %d" % (reason, place))
            before = values
            seen.setdefault(reason, set()).add(min(place, 1))
    open("tests/cases/judging.calls", "w").write("".join(line + "\n" for line in lines))
    print(sum(line.startswith("judge") for line in lines), "cases,", len(lines), "lines")
    print("reasons seen, with place 0 and with one:", {reason: sorted(seen[reason]) for reason in sorted(seen)})
    assert seen == {**{reason: {0} for reason in (0, 3, 20, 10, 12, 13, 14)}, 11: {0, 1}, **{reason: {1} for reason in (4, 5, 6, 16, 7, 8, 9)}}


main()
