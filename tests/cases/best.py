"""The best choice among the split rows, read from its rule alone (Rules, the best choice), twice: `direct` goes by the words, adding up all loads for every way of
sending the split rows; `sought` finds the same answer for as many split rows as there may be, from the two halves of these. Each sentence that another reader might take
otherwise is a choice, so that a table can be sought on which the other reading answers otherwise."""
import functools
import itertools
import struct

import rules

MOST_SPLIT = 16


def split_places(sent):
    return [place for place, one in enumerate(sent) if all(one)]


def too_many(n, rows, rooms=rules.level_rooms):
    return len(split_places(rules.sent_by(n, rows, rooms)[1])) > MOST_SPLIT


def whole_way(one):
    """Of a row that is not split, as rule D says."""
    return "F" if one[1] == 0 else "B"


def sent_whole(sent, chosen):
    """The ways of all rows, where the split ones go so, in their order."""
    left = iter(chosen)
    return [next(left) if all(one) else whole_way(one) for one in sent]


def peak_of(n, rows, ways):
    return max(rules.unsplit_load(rows, ways, k) for k in range(1, n + 1))


class Reading:
    """The rule; what inherits from it reads one sentence otherwise."""

    def choices(self, sent):
        """Every way of sending the split rows."""
        return itertools.product("FB", repeat=len(split_places(sent)))

    def order(self, rows, places):
        """The split rows by rising first office. They cross each other, so no two of them have the same first office."""
        return sorted(range(len(places)), key=lambda at: rows[places[at]][0])

    def whole(self, sent, chosen):
        return sent_whole(sent, chosen)

    def peak(self, n, rows, ways):
        return peak_of(n, rows, ways)

    def count(self, chosen):
        return chosen.count("B")

    def first_front(self, chosen):
        """What goes F at the first difference stands first."""
        return [way == "B" for way in chosen]

    def key(self, peak, count, ways):
        return peak, count, ways

    def chosen(self, n, rows, sent):
        places = split_places(sent)

        def key(chosen):
            by_office = [chosen[at] for at in self.order(rows, places)]
            return self.key(self.peak(n, rows, self.whole(sent, chosen)), self.count(chosen), self.first_front(by_office))

        return min(self.choices(sent), key=key)

    def ways(self, n, rows, rooms=rules.level_rooms):
        sent = rules.sent_by(n, rows, rooms)[1]
        return self.whole(sent, self.chosen(n, rows, sent))


class LastOfEquals(Reading):
    def first_front(self, chosen):
        return [way == "F" for way in chosen]


class ByLastOffice(Reading):
    def order(self, rows, places):
        return super().order(rows, places)[::-1]


class MostBack(Reading):
    def count(self, chosen):
        return -chosen.count("B")


class NoCount(Reading):
    def count(self, chosen):
        return 0


class CountBeforePeak(Reading):
    def key(self, peak, count, ways):
        return count, peak, ways


class AllBackLeftOut(Reading):
    def choices(self, sent):
        every = list(super().choices(sent))
        return every[:-1] or every


class AllFrontLeftOut(Reading):
    def choices(self, sent):
        every = list(super().choices(sent))
        return every[1:] or every


class SplitRowsAlone(Reading):
    """The peak of the split rows by themselves."""

    def peak(self, n, rows, ways):
        split = split_places(rules.sent_by(n, rows)[1])
        return peak_of(n, [rows[at] for at in split], [ways[at] for at in split])


class AllRowsChosen(Reading):
    """Rows that are not split go by a choice too."""

    def choices(self, sent):
        return itertools.product("FB", repeat=len(sent))

    def order(self, rows, places):
        return range(len(rows))

    def whole(self, sent, chosen):
        return list(chosen)


class WholeRowsFront(Reading):
    def whole(self, sent, chosen):
        left = iter(chosen)
        return [next(left) if all(one) else "F" for one in sent]


class RuleD(Reading):
    def chosen(self, n, rows, sent):
        ways = rules.rule_d(rows, sent)
        return tuple(ways[at] for at in split_places(sent))


OTHERS = (LastOfEquals, ByLastOffice, MostBack, NoCount, CountBeforePeak, AllBackLeftOut, AllFrontLeftOut, SplitRowsAlone, AllRowsChosen, WholeRowsFront, RuleD)


def direct(n, rows, rooms=rules.level_rooms):
    return Reading().ways(n, rows, rooms)


# ---- the same for as many split rows as there may be: the loads of all links are held in one number, so that adding two of these adds them all up



def packed(loads):
    return sum(load << 32 * at for at, load in enumerate(loads))


def largest(number, n):
    return max(struct.unpack("<%dI" % n, number.to_bytes(4 * n, "little")))


def loads_of(n, rows, ways):
    return packed(rules.unsplit_load(rows, ways, k) for k in range(1, n + 1))


def halves(n, rows, sent):
    """The ways of the first half of the split rows, with the loads of these and of the rows that are not split; and those of the second half, with the loads of these alone."""
    places = sorted(split_places(sent), key=lambda at: rows[at][0])
    middle = len(places) // 2
    whole = [at for at in range(len(rows)) if at not in places]
    beside = loads_of(n, [rows[at] for at in whole], [whole_way(sent[at]) for at in whole])
    for some, before in ((places[:middle], beside), (places[middle:], 0)):
        yield [(ways, before + loads_of(n, [rows[at] for at in some], ways)) for ways in itertools.product("FB", repeat=len(some))]


def sought(n, rows, sent):
    """Each way of the first half beside each of the second. They come in the order in which what goes F at the first difference stands first, and of equal ones min takes the first."""
    first, second = halves(n, rows, sent)
    every = ((one + other, largest(loads + more, n)) for one, loads in first for other, more in second)
    return sent_whole(sent, min(every, key=lambda one: (one[1], one[0].count("B")))[0])


# so many choices are tried by the words
FEW = 6


def ways(n, rows, rooms=rules.level_rooms):
    """By the halves, and by the words too where that is soon done."""
    sent = rules.sent_by(n, rows, rooms)[1]
    found = sought(n, rows, sent)
    if len(split_places(sent)) <= FEW:
        assert direct(n, rows, rooms) == found, (n, rows)
    return found


@functools.cache
def sheet(n, rows, fibres=4, family="", rooms=rules.level_rooms):
    """The text of the sheet of the best choice, of rows of which not too many are left split."""
    cut, sent = rules.sent_by(n, rows, rooms)
    return rules.text_of(rules.figures(n, rows, cut, sent, ways(n, rows, rooms), fibres, family))
