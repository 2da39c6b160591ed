"""How whole circuits are sent one turn at a time, read from the rule alone (Rules, one turn at a time): for each link a start, lists of loads that are made and sorted, and turns until
none lowers the peak. Each sentence that another reader might take otherwise is a choice, so that a table can be sought on which the other reading answers otherwise."""
import collections

import rules

Answer = collections.namedtuple("Answer", "peak link turns ways")


def path(n, row, way):
    return [k for k in range(1, n + 1) if (k in rules.front_of(row)) == (way == "F")]


def loads_of(n, rows, ways):
    """By link; link 0 is none."""
    return [0] + [rules.unsplit_load(rows, ways, k) for k in range(1, n + 1)]


def other(way):
    return "B" if way == "F" else "F"


class Reading:
    """The rule; what inherits from it reads one sentence otherwise."""

    def starts(self, n):
        return range(1, n + 1)

    def avoiding(self, row, a):
        return "B" if a in rules.front_of(row) else "F"

    def listed(self, loads):
        return sorted(loads, reverse=True)

    def key(self, loads, place):
        """What puts a row before others: the larger list, and of equal lists the earlier row. A list that runs out first is the smaller, as Python has it."""
        return [-load for load in loads] + [1], place

    def chosen(self, places, may):
        """The first of the rows in falling order that may be turned."""
        return next((place for place in places if may(place)), None)

    def lowers(self, peak, after):
        return after < peak

    def better(self, answer, best):
        return answer.peak < best.peak

    def turns_of(self, answer, answers):
        return answer.turns

    def turn(self, n, rows, ways, loads):
        """The place of the row to be turned; None where no row is."""
        lists = [self.listed([loads[k] for k in path(n, row, way)]) for row, way in zip(rows, ways)]
        falling = sorted(range(len(rows)), key=lambda place: self.key(lists[place], place))
        peak = max(loads)

        def may(place):
            on = set(path(n, rows[place], ways[place]))
            d = rows[place][2]
            return self.lowers(peak, max(load - d if k in on else load + d for k, load in enumerate(loads) if k > 0))

        return self.chosen(falling, may)

    def from_start(self, n, rows, a):
        ways, turns = [self.avoiding(row, a) for row in rows], 0
        while True:
            loads = loads_of(n, rows, ways)
            place = self.turn(n, rows, ways, loads)
            if place is None:
                return Answer(max(loads), a, turns, "".join(ways))
            ways[place] = other(ways[place])
            turns += 1

    def answer(self, n, rows):
        answers = [self.from_start(n, rows, a) for a in self.starts(n)]
        best = answers[0]
        for answer in answers[1:]:
            best = answer if self.better(answer, best) else best
        return best._replace(turns=self.turns_of(best, answers))


class LastThatLowers(Reading):
    def chosen(self, places, may):
        return super().chosen(places[::-1], may)


class RisingOrder(Reading):
    def key(self, loads, place):
        return loads, place


class LaterRow(Reading):
    def key(self, loads, place):
        return super().key(loads, place)[0], -place


class LongerIsSmaller(Reading):
    """Of two lists of which the one is the other's beginning."""

    def key(self, loads, place):
        return [-load for load in loads], place


class LargestLoadAlone(Reading):
    def key(self, loads, place):
        return -loads[0], place


class NotSorted(Reading):
    def listed(self, loads):
        return loads


class LargestLink(Reading):
    def better(self, answer, best):
        return answer.peak <= best.peak


class FewerTurns(Reading):
    def better(self, answer, best):
        return (answer.peak, answer.turns) < (best.peak, best.turns)


class FirstStart(Reading):
    def starts(self, n):
        return [1]


class LastStartLeftOut(Reading):
    def starts(self, n):
        return range(1, n)


class TurnsOfAllStarts(Reading):
    def turns_of(self, answer, answers):
        return sum(one.turns for one in answers)


class OverTheLink(Reading):
    def avoiding(self, row, a):
        return other(super().avoiding(row, a))


class BehindTheFront(Reading):
    def avoiding(self, row, a):
        return "B" if row[0] <= a <= row[1] else "F"


OTHERS = (LastThatLowers, RisingOrder, LaterRow, LongerIsSmaller, LargestLoadAlone, NotSorted, LargestLink, FewerTurns, FirstStart, LastStartLeftOut, TurnsOfAllStarts, OverTheLink, BehindTheFront)


def answer(n, rows):
    return Reading().answer(n, rows)


def floor(n, rows):
    """No way of sending the rows whole has a lower peak."""
    return (rules.rule_a(n, rows)[2] + 1) // 2
