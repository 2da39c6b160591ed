"""Whether the rows of a table that have amounts above 0 all cross each other, read from the rule alone (Rules, rings where everything crosses). Each sentence that another reader might take otherwise is a
choice, so that a table can be sought on which the other reading answers otherwise."""
import collections
import itertools

import rules

MOST_CROSSING = 16
ALL_CROSS, PARALLEL, MANY = 1, 2, 3
Answer = collections.namedtuple("Answer", "kind bound first second")


class Reading:
    """The rule; what inherits from it reads one sentence otherwise."""

    most = MOST_CROSSING

    def counts(self, row):
        return row[2] > 0

    def crosses(self, one, two):
        return rules.crossing(one, two)

    def pairs(self, places):
        """By the first and then by the second."""
        return itertools.combinations(places, 2)

    def said(self, place, places):
        """A row's place among all rows, from 1."""
        return place + 1

    def amounts(self, rows, places):
        return [rows[place][2] for place in places]

    def bound(self, m, amounts):
        return m + 2 * max(amounts, default=0)

    def counted(self, rows, places):
        """What must not be more than so many."""
        return len(places)

    def order(self, pair, many):
        """A pair is named however many rows there are."""
        return pair or many

    def answer(self, n, rows):
        places = [place for place, row in enumerate(rows) if self.counts(row)]
        parallel = (pair for pair in self.pairs(places) if not self.crosses(rows[pair[0]], rows[pair[1]]))
        pair = next((Answer(PARALLEL, 0, self.said(a, places), self.said(b, places)) for a, b in parallel), None)
        many = Answer(MANY, 0, 0, 0) if self.counted(rows, places) > self.most else None
        return self.order(pair, many) or Answer(ALL_CROSS, self.bound(rules.rule_a(n, rows)[2], self.amounts(rows, places)), 0, 0)


class AllRowsCount(Reading):
    def counts(self, row):
        return True


class LargestOnce(Reading):
    def bound(self, m, amounts):
        return m + max(amounts, default=0)


class OfRuleD(Reading):
    def bound(self, m, amounts):
        return m + 3 * max(amounts, default=0)


class TwiceM(Reading):
    def bound(self, m, amounts):
        return 2 * m + 2 * max(amounts, default=0)


class SmallestAmount(Reading):
    def bound(self, m, amounts):
        return m + 2 * min(amounts, default=0)


class LastAmount(Reading):
    def bound(self, m, amounts):
        return m + 2 * sum(amounts[-1:])


class NoAmountRefused(Reading):
    """Without amounts nothing is said."""

    def bound(self, m, amounts):
        return super().bound(m, amounts) or 3


class LastPair(Reading):
    def pairs(self, places):
        return reversed(list(super().pairs(places)))


class BySecond(Reading):
    def pairs(self, places):
        return sorted(super().pairs(places), key=lambda pair: (pair[1], pair[0]))


class NeighboursAlone(Reading):
    def pairs(self, places):
        return zip(places, places[1:])


class FirstRowAlone(Reading):
    def pairs(self, places):
        return (pair for pair in super().pairs(places) if pair[0] == places[0])


class AmongThoseThatCount(Reading):
    def said(self, place, places):
        return places.index(place) + 1


class PlacesFrom0(Reading):
    def said(self, place, places):
        return place


class SharedOfficeCrosses(Reading):
    def crosses(self, one, two):
        return rules.crossing(one, two) or (len({*one[:2], *two[:2]}) == 3)


class EqualOfficesCross(Reading):
    def crosses(self, one, two):
        return rules.crossing(one, two) or one[:2] == two[:2]


class InsideCrosses(Reading):
    def crosses(self, one, two):
        return rules.crossing(one, two) or one[0] < two[0] and two[1] < one[1]


class ApartCrosses(Reading):
    def crosses(self, one, two):
        return rules.crossing(one, two) or one[1] < two[0]


class OneFewer(Reading):
    most = MOST_CROSSING - 1


class OneMore(Reading):
    most = MOST_CROSSING + 1


class AllRowsAreMany(Reading):
    def counted(self, rows, places):
        return len(rows)


class ManyFirst(Reading):
    def order(self, pair, many):
        return many or pair


SMALL = (AllRowsCount, LargestOnce, OfRuleD, TwiceM, SmallestAmount, LastAmount, NoAmountRefused, LastPair, BySecond, NeighboursAlone, FirstRowAlone, AmongThoseThatCount, PlacesFrom0, SharedOfficeCrosses,
         EqualOfficesCross, InsideCrosses, ApartCrosses)
# these differ on many rows alone
LARGE = (OneFewer, OneMore, AllRowsAreMany, ManyFirst)


def answer(n, rows):
    return Reading().answer(n, rows)
