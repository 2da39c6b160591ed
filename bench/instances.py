"""The tables that are tried: drawn as by Schrijver, Seymour and Winkler and by Lee and Chang (Rules, papers), and the ring that each prints in full."""

import random
from typing import NamedTuple

# Schrijver, Seymour and Winkler, table 8.1: ring sizes, all pairs. Amounts are "uniformly random data"; section 3 has 0 to 100 typically adequate.
PAIRS_SIZES = (8, 12, 16, 20, 24, 28, 32)
PAIRS_AMOUNTS = (0, 100)
# Rings that neither paper has: all pairs, or of more as many as a table may have rows, drawn evenly.
LARGER_SIZES = (40, 48, 56, 64)
MOST_ROWS = 1024
# Lee and Chang, section 4: its ring sizes, the chance in percent that a pair has a demand, and its amounts.
LEE_SIZES = (5, 10, 15, 20, 25, 30)
LEE_SHARES = (25, 50, 100)
LEE_AMOUNTS = (5, 100)


class Table(NamedTuple):
    family: str
    n: int
    share: int
    number: int
    rows: tuple

    def text(self):
        # the size is not looked at, so the fibres do not matter
        lines = [("R", self.n, 4), *(("D", *row) for row in self.rows)]
        return "".join("\t".join(map(str, line)) + "\n" for line in lines)


PRINTED = (
    Table("Lee and Chang, figure 2", 5, 100, 1, ((1, 2, 2), (1, 4, 5), (2, 3, 9), (2, 4, 11), (3, 4, 4), (3, 5, 3))),
    Table("Schrijver et al., figure 4.1", 8, 100, 1, ((1, 4, 1), (2, 3, 1), (5, 8, 2), (6, 7, 2))),
)


def drawn(seed, family, n, share, number, amounts):
    """Each table has a source of its own, so that it stays the same when others are left out."""
    source = random.Random(f"{seed} {family} {n} {share} {number}")
    pairs = [(i, j) for i in range(1, n) for j in range(i + 1, n + 1)]
    kept = [pair for pair in pairs if source.random() * 100 < share]
    if len(kept) > MOST_ROWS:
        kept = sorted(source.sample(kept, MOST_ROWS))
    return Table(family, n, share, number, tuple((i, j, source.randint(*amounts)) for i, j in kept))


def all_pairs(seed, count, amounts):
    return [drawn(seed, "pairs", n, 100, number, amounts) for n in PAIRS_SIZES for number in range(1, count + 1)]


def larger(seed, count, amounts):
    return [drawn(seed, "larger", n, 100, number, amounts) for n in LARGER_SIZES for number in range(1, count + 1)]


def lee_and_chang(seed, count):
    cells = [(share, n) for share in LEE_SHARES for n in LEE_SIZES]
    return [drawn(seed, "lee", n, share, number, LEE_AMOUNTS) for share, n in cells for number in range(1, count + 1)]
