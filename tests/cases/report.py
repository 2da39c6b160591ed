"""The report over a text of many plans, read from the rules alone (Rules, a report over many plans): its pieces, what each gives as a sheet by itself, and the lines."""
import functools
import re
from fractions import Fraction

from reading import Sheet, first_reason_of_sheet

LONGEST = 65536


def pieces(text):
    """The text parted before each line that starts with R, behind LF; a part of no bytes is none."""
    return [piece for piece in re.split(rb"(?<=\n)(?=R)", text) if piece]


@functools.cache
def gives(piece):
    """The family, the unsplit peak and the across number of a piece that is accepted; None of one that is refused."""
    if first_reason_of_sheet(piece):
        return None
    read = Sheet(piece).read()
    return read.family, read.last[0], read.cut[2]


def worst(plans):
    """Twice the peak and the across number of the first plan whose ratio is the largest; both 0 where none enters."""
    ratios = [(2 * peak, across) for _, peak, across in plans if across]
    # the first of several that are the largest
    return max(ratios, key=lambda ratio: Fraction(*ratio), default=(0, 0))


def totals(text):
    """Of SONET and then of SDH the accepted, the sum of their peaks and the worst ratio's two numbers; and how many are refused."""
    given = [gives(piece) for piece in pieces(text)]
    of = [[plan for plan in given if plan and plan[0] == family] for family in ("", "M")]
    return *((len(plans), sum(peak for _, peak, _ in plans), *worst(plans)) for plans in of), given.count(None)


def lines(text):
    *families, refused = totals(text)
    return b"".join(b"T\t%d\t%d\t%d\t%d\n" % one for one in families) + b"X\t%d\n" % refused


def first_reason(text):
    """24 on no line; nothing else is refused."""
    return (24, 0) if len(text) > LONGEST else None
