"""Rules A to D, the figures of a sheet and its text, read from the rules alone, as docs/RULES.md has them: sums are taken afresh wherever
a rule speaks of one."""

import functools

# of each family, by what an R line says of it behind the fibres: of SONET nothing
SIZES = {"": (3, 12, 48, 192, 768), "M": (1, 4, 16, 64, 256)}


def front_of(row):
    return range(row[0], row[1])


def across(rows, g, h):
    return sum(row[2] for row in rows if (g in front_of(row)) != (h in front_of(row)))


def rule_a(n, rows):
    """The cut and its across number."""
    cuts = [(g, h) for g in range(1, n) for h in range(g + 1, n + 1)]
    m = max(across(rows, g, h) for g, h in cuts)
    return next((g, h, m) for g, h in cuts if across(rows, g, h) == m)


def level_rooms(n, rows, m):
    return {k: m for k in range(1, n + 1)}


def lowered_rooms(n, rows, m):
    """Links 1 to n in turn (Rules, lowered rooms): those below g have their own rooms by now, those above still M."""
    room = {}
    for g in range(1, n + 1):
        below = [2 * across(rows, h, g) - room[h] for h in range(1, g)]
        above = [2 * across(rows, g, h) - m for h in range(g + 1, n + 1)]
        room[g] = max(below + above)
    return room


def rule_b(n, rows, m, rooms=level_rooms):
    """A front and a back amount for each row."""
    room = dict(rooms(n, rows, m))
    sent = []
    for at, row in enumerate(rows):
        left = rows[at:]
        front = front_of(row)
        s = min(room[g] + room[h] - 2 * across(left, g, h) for g in front for h in front if g <= h)
        assert s % 2 == 0
        f = min(2 * row[2], s // 2)
        sent.append([f, 2 * row[2] - f])
        for k in room:
            room[k] -= sent[at][0 if k in front else 1]
    return sent


def rule_c(rows, sent):
    """Of two rows with the same nodes the earlier is the outer (Rules, parallel pairs)."""
    for a in range(len(rows)):
        for b in range(a + 1, len(rows)):
            if not (all(sent[a]) and all(sent[b])):
                continue
            one, two = set(front_of(rows[a])), set(front_of(rows[b]))
            if not one & two:
                t = min(sent[a][1], sent[b][1])
                for k in (a, b):
                    sent[k] = [sent[k][0] + t, sent[k][1] - t]
            elif two <= one or one <= two:
                outer, inner = (a, b) if two <= one else (b, a)
                t = min(sent[outer][0], sent[inner][1])
                sent[outer] = [sent[outer][0] - t, sent[outer][1] + t]
                sent[inner] = [sent[inner][0] + t, sent[inner][1] - t]


def largest_split(rows, sent):
    """D of rule D."""
    return max((row[2] for row, x in zip(rows, sent) if all(x)), default=0)


def rule_d(rows, sent):
    most = largest_split(rows, sent)
    s, ways = 0, []
    for f, b in sent:
        if b == 0:
            ways.append("F")
        elif f == 0:
            ways.append("B")
        elif s + b <= most:
            ways.append("F")
            s += b
        else:
            ways.append("B")
            s -= f
    return ways


def split_load(rows, sent, k):
    return sum(x[0 if k in front_of(row) else 1] for row, x in zip(rows, sent))


def unsplit_load(rows, ways, k):
    return sum(row[2] for row, way in zip(rows, ways) if (k in front_of(row)) == (way == "F"))


def size_for(peak, fibres, family=""):
    """With two fibres half of the line is kept for protection, so that twice the peak has to fit (Rules, fibres)."""
    due = 2 * peak if fibres == 2 else peak
    return min((size for size in SIZES[family] if size >= due), default=0)


def crossing(one, two):
    """Four distinct nodes, and exactly one of two's strictly between one's."""
    return len({*one[:2], *two[:2]}) == 4 and sum(one[0] < node < one[1] for node in two[:2]) == 1


def first_parallel(rows, sent):
    """The places from 1 of the first pair of split rows that are parallel; 0 and 0 where there is none."""
    places = range(len(rows))
    pairs = ((a, b) for a in places for b in places if a < b and all(sent[a]) and all(sent[b]) and not crossing(rows[a], rows[b]))
    return next(((a + 1, b + 1) for a, b in pairs), (0, 0))


def figures(n, rows, cut, sent, ways, fibres=4, family=""):
    """The lines of a sheet with this split, this cut and these ways, all other figures true. A cut given with its across number keeps it."""
    links = range(1, n + 1)
    unsplit = [unsplit_load(rows, ways, k) for k in links]
    out = [("R", n, fibres, *family)]
    out += [("D", *row, f, b, way) for row, (f, b), way in zip(rows, sent, ways)]
    out += [("C", *cut) if len(cut) == 3 else ("C", *cut, across(rows, *cut))]
    out += [("L", k, split_load(rows, sent, k), unsplit[k - 1]) for k in links]
    return out + [("Z", max(unsplit), size_for(max(unsplit), fibres, family))]


def text_of(lines):
    return "".join("\t".join(map(str, line)) + "\n" for line in lines).encode()


@functools.cache
def sent_by(n, rows, rooms=level_rooms):
    """Rule A's cut, and what rules A to C send of each row."""
    cut = rule_a(n, rows)
    sent = rule_b(n, rows, cut[2], rooms)
    rule_c(rows, sent)
    return cut, tuple(map(tuple, sent))


@functools.cache
def sheet(n, rows, fibres=4, family="", rooms=level_rooms):
    """The text of our sheet."""
    cut, sent = sent_by(n, rows, rooms)
    return text_of(figures(n, rows, cut, sent, rule_d(rows, sent), fibres, family))
