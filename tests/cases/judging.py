"""What judging finds against a sheet that is held as values, read from the rules alone (Rules, reading and judging): ring, rows, cut, loads with their links, peak
and size, each number any. The steps go in the rules' order; at each of them the reasons that hold are collected, each judged by its own words, and the one that
their order puts first is given, with the place that the step names."""
import collections

import rules

FEWEST_OFFICES, MOST_OFFICES, MOST_ROWS, MOST_AMOUNT = 2, 64, 1024, 9999
# by rising number, but 16 stands between 6 and 7 and 20 behind 3 (Rules, the order of reasons)
ORDER = (1, 2, 3, 20, 4, 5, 6, 16, 7, 8, 9, 10, 11, 12, 13, 14)

# the family is what an R line says of it, M or nothing; a row is first, second, amount, front, back and its way, F or B; a link is its number, split load and unsplit load
Values = collections.namedtuple("Values", "n fibres family rows cut links last")


def of_ring(n, fibres, _=""):
    """3 and 20, which speak of the number of offices and of fibres."""
    return {3: not FEWEST_OFFICES <= n <= MOST_OFFICES, 20: fibres not in (2, 4)}


def of_row(n, before, place, row):
    """4 to 7 and 16, which speak of a row's nodes, place and amount, behind the row before."""
    return {
        4: not all(1 <= node <= n for node in row[:2]),
        5: row[0] >= row[1],
        6: before is not None and row[:2] < before[:2],
        16: place > MOST_ROWS,
        7: row[2] > MOST_AMOUNT,
    }


def of_figures(row):
    """8 and 9, which speak of what a row sends."""
    *_, d, front, back, way = row
    whole = not (front > 0 and back > 0)
    return {8: front + back != 2 * d, 9: whole and way != ("F" if back == 0 else "B")}


def of_cut(values):
    g, h, across = values.cut
    return {10: not 1 <= g < h <= values.n or across != rules.across(values.rows, g, h)}


def sent(values):
    return [row[3:5] for row in values.rows]


def ways(values):
    return [row[5] for row in values.rows]


def of_link(values, place):
    """11 of the link at a place: its number is the place, and its loads are the rows'."""
    due = (place, rules.split_load(values.rows, sent(values), place), rules.unsplit_load(values.rows, ways(values), place))
    return {11: tuple(values.links[place - 1]) != due}


def peaks(values):
    links = range(1, values.n + 1)
    return max(rules.split_load(values.rows, sent(values), k) for k in links), max(rules.unsplit_load(values.rows, ways(values), k) for k in links)


def of_last(values):
    peak = peaks(values)[1]
    return {12: tuple(values.last) != (peak, rules.size_for(peak, values.fibres, values.family))}


def of_all(values):
    """13 and 14, of which neither line nor place is said."""
    split, unsplit = peaks(values)
    return {13: split != values.cut[2], 14: 2 * unsplit > split + 3 * rules.largest_split(values.rows, sent(values))}


def steps(values):
    """The place that each step names, and the reasons that are tried there; a step is taken only where none before it finds anything."""
    yield 0, of_ring(values.n, values.fibres)
    for place, row in enumerate(values.rows, 1):
        before = values.rows[place - 2] if place > 1 else None
        yield place, {**of_row(values.n, before, place, row), **of_figures(row)}
    yield 0, of_cut(values)
    yield 0, {11: len(values.links) != values.n}
    for place in range(1, values.n + 1):
        yield place, of_link(values, place)
    yield 0, of_last(values)
    yield 0, of_all(values)


def judged(values):
    """Reason and place of what is found; None where the values are accepted."""
    for place, tests in steps(values):
        held = [reason for reason in ORDER if tests.get(reason)]
        if held:
            return held[0], place
    return None
