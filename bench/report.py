"""What was measured, as tables in markdown and as plots, beside the figures that Schrijver, Seymour and Winkler, and Lee and Chang print (Rules, papers)."""

from dataclasses import dataclass, fields
from statistics import mean, median

import plots

# Schrijver, Seymour and Winkler, table 8.1: offices to C-B, B=C, A-C and A=C. A is its algorithm, B the linear program, C the optimum.
TABLE_8_1 = {
    8: (0.0054, 63, 0.0110, 19.4),
    12: (0.0013, 85, 0.0036, 21.2),
    16: (0.0003, 94, 0.0017, 22.3),
    20: (0.00014, 96, 0.0010, 26.2),
    24: (0.00002, 99, 0.0007, 27.2),
    28: (0.00000, 99, 0.0004, 28.3),
    32: (0.00000, 99, 0.0002, 29.2),
}
# Schrijver, Seymour and Winkler, section 3: how far above the optimum is good enough in most cases
TARGET = 0.05
# Lee and Chang, tables 6 to 8: chance in percent and offices to the averages of the optimum, or of a lower bound, of DENS and of dual ascent.
TABLES_6_TO_8 = {
    (25, 5): (75.8, 75.8, 75.8),
    (25, 10): (244.2, 244.8, 248.6),
    (25, 15): (560.6, 562.8, 574.2),
    (25, 20): (937.2, 937.8, 974.4),
    (25, 25): (1456, 1458.2, 1515.2),
    (25, 30): (2084, 2085.6, 2098.8),
    (50, 5): (139.6, 139.6, 139.6),
    (50, 10): (380.6, 382.6, 393.2),
    (50, 15): (945, 945.6, 946),
    (50, 20): (1643.2, 1645.4, 1663.2),
    (50, 25): (2379.6, 2380.4, 2426.2),
    (50, 30): (3506.8, 3509, 3532.2),
    (100, 5): (209.2, 209.2, 212.8),
    (100, 10): (730.2, 730.4, 734.8),
    (100, 15): (1545.2, 1547, 1555.8),
    (100, 20): (2881.4, 2881.8, 2886.8),
    (100, 25): (4291.4, 4294.8, 4313),
    (100, 30): (6145, 6145, 6156.6),
}


def ratio(ours, best):
    """Where nothing is sent, ours is nothing too."""
    return ours / best if best else 1


@dataclass
class Result:
    """A line of the raw data. Peaks are in units, across in halves; counts are given for some tables only, and those of the best choice, by level rooms and by lowered ones, where few enough rows are left split."""

    family: str
    n: int
    share: int
    number: int
    rows: int
    across: int
    ours: int
    turned: int
    chosen: int
    lowered: int
    lowered_chosen: int
    best: int
    bound: int
    proved: int
    ours_time: float
    glpsol_time: float
    cbc_time: float
    ours_count: int
    glpsol_count: int
    glpsol_reading_count: int

    def __post_init__(self):
        for field in fields(self):
            setattr(self, field.name, field.type(getattr(self, field.name) or 0))

    @property
    def least(self):
        """The least whole number that is no less than half the across number: no unsplit peak is below it."""
        return (self.across + 1) // 2

    @property
    def over(self):
        """How far the plan's peak is above the best known one, as a part of that."""
        return ratio(self.ours, self.best) - 1

    @property
    def turned_over(self):
        """The same of one turn at a time."""
        return ratio(self.turned, self.best) - 1


COLUMNS = [field.name for field in fields(Result)]


def percent(part, digits=2):
    return f"{100 * part:.{digits}f} %"


def share_of(results, holds):
    return f"{100 * mean(map(holds, results)):.0f} %"


def above(peaks, bests):
    """How far the average of the peaks is above that of the best ones: so Lee and Chang print it."""
    return ratio(mean(peaks), mean(bests)) - 1


def grid(head, *rows):
    return "\n".join(f"| {' | '.join(map(str, row))} |" for row in (head, ["---"] * len(head), *rows))


def by_size(results, family):
    """The family's results of each ring size, by rising size."""
    chosen = [result for result in results if result.family == family]
    return {n: [result for result in chosen if result.n == n] for n in sorted({result.n for result in chosen})}


def cells(results):
    """The results of each of Lee and Chang's cells, in their order."""
    drawn = [result for result in results if result.family == "lee"]
    tried = {(result.share, result.n) for result in drawn}
    return {cell: [result for result in drawn if (result.share, result.n) == cell] for cell in TABLES_6_TO_8 if cell in tried}


def peaks(results):
    head = "offices", "split peak = LP", "rule D over best", "at most", "in units", "within 5 %", "= best", "over floor", "best = floor", "best proved"
    return grid(head, *(peaks_row(n, some) for n, some in by_size(results, "pairs").items()))


def peaks_row(n, some):
    return (
        n,
        # a table where they differ ends the run
        f"all {len(some)}",
        percent(mean(r.over for r in some)),
        percent(max(r.over for r in some)),
        f"{mean(r.ours - r.best for r in some):.1f}",
        share_of(some, lambda r: r.over <= TARGET),
        share_of(some, lambda r: r.ours == r.best),
        percent(mean(r.ours / r.least - 1 for r in some)),
        share_of(some, lambda r: r.best == r.least),
        f"{sum(r.proved for r in some)} of {len(some)}",
    )


def turned_peaks(results):
    head = "offices", "over best", "at most", "in units", "at most", "= best", "proved best by the floor", "below rule D", "above rule D", "rule D = best", "proved best by the floor"
    return grid(head, *(turned_row(n, some) for n, some in by_size(results, "pairs").items()))


def turned_row(n, some):
    return (
        n,
        percent(mean(r.turned_over for r in some), 3),
        percent(max(r.turned_over for r in some)),
        f"{mean(r.turned - r.best for r in some):.2f}",
        max(r.turned - r.best for r in some),
        share_of(some, lambda r: r.turned == r.best),
        share_of(some, lambda r: r.turned == r.least),
        share_of(some, lambda r: r.turned < r.ours),
        share_of(some, lambda r: r.turned > r.ours),
        share_of(some, lambda r: r.ours == r.best),
        share_of(some, lambda r: r.ours == r.least),
    )


def times(results, family="pairs"):
    head = "offices", "rows", "glpsol / ours, time", "instructions", "without reading the model", "cbc / ours, time", "at most"
    return grid(head, *(times_row(n, some) for n, some in by_size(results, family).items()))


def times_row(n, some):
    counted = some[0]
    solving = counted.glpsol_count - counted.glpsol_reading_count
    return (
        n,
        counted.rows,
        f"{median(r.glpsol_time / r.ours_time for r in some):.1f}",
        f"{counted.glpsol_count / counted.ours_count:.1f}",
        f"{solving / counted.ours_count:.1f}",
        f"{median(r.cbc_time / r.ours_time for r in some):.0f}",
        f"{max(r.cbc_time / r.ours_time for r in some):.0f}",
    )


# In the place of A: its own rooms with all ways tried and in one pass, then ours, and one turn at a time.
IN_PLACE_OF_A = {
    "here": lambda r: r.lowered_chosen,
    "in one pass": lambda r: r.lowered,
    "level rooms, best choice": lambda r: r.chosen,
    "level rooms, rule D": lambda r: r.ours,
    "one turn": lambda r: r.turned,
}


def beside_8_1(results):
    """As there, only the tables whose optimum was found enter."""
    sizes = {n: [r for r in some if r.proved] for n, some in by_size(results, "pairs").items()}
    errors = grid(("offices", "A-C, there", *IN_PLACE_OF_A, "C-B, there", "C-B, here"), *(errors_8_1(n, sure) for n, sure in sizes.items()))
    hits = grid(("offices", "A=C, there", *IN_PLACE_OF_A, "B=C, there", "B=C, here", "tables"), *(hits_8_1(n, sure) for n, sure in sizes.items()))
    return f"{errors}\n\n{hits}"


def errors_8_1(n, sure):
    bound_gap, _, gap, _ = TABLE_8_1[n]
    ours = (f"{mean(ratio(peak(r), r.best) - 1 for r in sure):.4f}" for peak in IN_PLACE_OF_A.values())
    return n, f"{gap:.4f}", *ours, f"{bound_gap:.4f}", f"{mean(1 - r.across / 2 / r.best for r in sure):.4f}"


def hits_8_1(n, sure):
    _, bound_hit, _, hit = TABLE_8_1[n]
    ours = (share_of(sure, lambda r, peak=peak: peak(r) == r.best) for peak in IN_PLACE_OF_A.values())
    return n, f"{hit:.0f} %", *ours, f"{bound_hit} %", share_of(sure, lambda r: r.best == r.least), len(sure)


def beside_6_to_8(results):
    head = (
        *("chance", "offices", "best, there", "best, here", "DENS over best, there", "here", "at most", "= best", "proved best by the floor"),
        *("dual ascent over best, there", "rule D over best, here", "at most", "= best", "best proved"),
    )
    return grid(head, *(beside_6_to_8_row(cell, some) for cell, some in cells(results).items()))


def beside_6_to_8_row(cell, some):
    best, dens, ascent = TABLES_6_TO_8[cell]
    return (
        f"{cell[0]} %",
        cell[1],
        best,
        f"{mean(r.best for r in some):.1f}",
        percent(dens / best - 1),
        percent(turned_above(some)),
        percent(max(r.turned_over for r in some)),
        share_of(some, lambda r: r.turned == r.best),
        share_of(some, lambda r: r.turned == r.least),
        percent(ascent / best - 1),
        percent(ours_above(some)),
        percent(max(r.over for r in some)),
        share_of(some, lambda r: r.ours == r.best),
        f"{sum(r.proved for r in some)} of {len(some)}",
    )


def ours_above(some):
    return above([r.ours for r in some], [r.best for r in some])


def turned_above(some):
    return above([r.turned for r in some], [r.best for r in some])


def larger(results):
    """Peaks, then times."""
    head = (
        *("offices", "rows", "split peak = LP", "one turn over best", "at most", "in units", "at most", "= best", "proved best by the floor"),
        *("rule D over best", "at most", "in units", "at most", "best proved"),
    )
    reached = grid(head, *(larger_row(n, some) for n, some in by_size(results, "larger").items()))
    return f"{reached}\n\n{times(results, 'larger')}"


def larger_row(n, some):
    return (
        n,
        some[0].rows,
        f"all {len(some)}",
        percent(mean(r.turned_over for r in some), 3),
        percent(max(r.turned_over for r in some), 3),
        f"{mean(r.turned - r.best for r in some):.2f}",
        max(r.turned - r.best for r in some),
        share_of(some, lambda r: r.turned == r.best),
        share_of(some, lambda r: r.turned == r.least),
        percent(mean(r.over for r in some)),
        percent(max(r.over for r in some)),
        f"{mean(r.ours - r.best for r in some):.1f}",
        max(r.ours - r.best for r in some),
        f"{sum(r.proved for r in some)} of {len(some)}",
    )


def printed(results):
    head = "ring", "split peak", "best", "rule D", "one turn at a time"
    return grid(head, *((r.family, f"{r.across / 2:g}", r.best, r.ours, r.turned) for r in results if r.family not in ("pairs", "larger", "lee")))


def all_together(results):
    """Of all random tables, and of each family: how often each of the two hits the best, and how often the floor proves it."""
    drawn = [r for r in results if r.family in ("pairs", "lee")]
    kinds = {"all pairs": [r for r in drawn if r.family == "pairs"], "as Lee and Chang drew them": [r for r in drawn if r.family == "lee"], "all": drawn}
    head = "tables", "count", "one turn at a time over best", "at most", "= best", "proved best by the floor", "above rule D", "rule D over best", "at most", "= best", "proved best by the floor"
    return grid(head, *(together_row(name, some) for name, some in kinds.items() if some))


def together_row(name, some):
    return (
        name,
        len(some),
        percent(mean(r.turned_over for r in some), 3),
        percent(max(r.turned_over for r in some)),
        percent(mean(r.turned == r.best for r in some), 1),
        percent(mean(r.turned == r.least for r in some), 1),
        sum(r.turned > r.ours for r in some),
        percent(mean(r.over for r in some)),
        percent(max(r.over for r in some)),
        percent(mean(r.ours == r.best for r in some), 1),
        percent(mean(r.ours == r.least for r in some), 1),
    )


def text(results):
    parts = {
        "The two ways of sending whole circuits": all_together,
        "One turn at a time, all pairs": turned_peaks,
        "Rule D, all pairs": peaks,
        "Times, all pairs": times,
        "Rings of 40 offices and more": larger,
        "Beside table 8.1 of Schrijver, Seymour and Winkler": beside_8_1,
        "Beside tables 6 to 8 of Lee and Chang": beside_6_to_8,
        "Rings that the papers print": printed,
    }
    return "\n\n".join(f"## {title}\n\n{part(results)}" for title, part in parts.items())


def plot(results, folder):
    sizes = by_size(results, "pairs")
    if not sizes:
        # the plots are of rings of 32 offices and fewer, which were not tried
        return
    folder.mkdir(parents=True, exist_ok=True)
    plots.chart(folder / "over-best-pairs.svg", "Unsplit peak over the best, all pairs", "percent", over_best(sizes))
    plots.chart(folder / "over-best-lee.svg", "Unsplit peak over the best, drawn as by Lee and Chang", "percent", over_best_lee(cells(results)))
    plots.chart(folder / "time.svg", "A solver's cost / ours, all pairs", "times, each step ten", costs(sizes), log=True)


def over_best(sizes):
    """The lines of the plot of all pairs, each its name and its points."""
    return [
        ("rule D, largest", [(n, 100 * max(r.over for r in some)) for n, some in sizes.items()]),
        ("rule D, average", [(n, 100 * mean(r.over for r in some)) for n, some in sizes.items()]),
        ("A, Schrijver et al.", [(n, 100 * TABLE_8_1[n][2]) for n in sizes]),
        ("one turn, largest", [(n, 100 * max(r.turned_over for r in some)) for n, some in sizes.items()]),
        ("one turn, average", [(n, 100 * mean(r.turned_over for r in some)) for n, some in sizes.items()]),
    ]


def over_best_lee(drawn):
    """Those of the plot of tables drawn as by Lee and Chang."""
    chances = sorted({share for share, _ in drawn})
    return [
        *((f"rule D, chance {chance} %", [(n, 100 * ours_above(some)) for (share, n), some in drawn.items() if share == chance]) for chance in chances),
        ("DENS, Lee and Chang", dens_line()),
        ("one turn at a time", turned_line(drawn)),
    ]


def costs(sizes):
    """Those of the plot of costs."""
    return [
        ("cbc, time, largest", [(n, max(r.cbc_time / r.ours_time for r in some)) for n, some in sizes.items()]),
        ("cbc, time, median", [(n, median(r.cbc_time / r.ours_time for r in some)) for n, some in sizes.items()]),
        ("glpsol, instructions", [(n, some[0].glpsol_count / some[0].ours_count) for n, some in sizes.items()]),
        ("glpsol, time, median", [(n, median(r.glpsol_time / r.ours_time for r in some)) for n, some in sizes.items()]),
    ]


def turned_line(drawn):
    """One turn at a time over the best by ring size, the chances taken together."""
    sizes = sorted({n for _, n in drawn})
    return [(n, 100 * mean(turned_above(some) for (_, m), some in drawn.items() if m == n)) for n in sizes]


def dens_line():
    """DENS over the best by ring size, the three chances taken together."""
    sizes = sorted({n for _, n in TABLES_6_TO_8})
    return [(n, 100 * mean(dens / best - 1 for (_, m), (best, dens, _) in TABLES_6_TO_8.items() if m == n)) for n in sizes]
