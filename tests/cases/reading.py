"""Which refusal a table or a sheet gets, read from the rules alone: the reasons that hold of each line are collected, each judged by its own
words, and the one that their order puts first is given. A sheet is read, all its lines, and then judged (Rules, reading and judging)."""
import judging
import rules
from judging import ORDER, Values

LONGEST, DIGITS = 32768, 8
# what reading gives; all else is found against what was read
FORM = {1, 2, 3, 20, 4, 5, 6, 16, 7}
# what follows the letter of a sheet's line below the first: numbers, and for a row its way
SHEET = {"D": 5, "C": 3, "L": 3, "Z": 2}


def number(field):
    """The number that a field spells; None where it is badly spelled."""
    bad = not 1 <= len(field) <= DIGITS or any(c not in b"0123456789" for c in field) or (field[:1] == b"0" and field != b"0")
    return None if bad else int(field)


def fields(line, letter, numbers, ends=()):
    """The numbers of a line, and where it ends with one of some letters that letter; None where it has not this shape."""
    if not line.endswith(b"\n"):
        return None
    parts = line[:-1].split(b"\t")
    if len(parts) != 1 + numbers + bool(ends) or parts[0] != letter:
        return None
    if ends and parts[-1] not in ends:
        return None
    out = [number(p) for p in parts[1:1 + numbers]]
    if None in out:
        return None
    return out + [parts[-1].decode()] if ends else out


def ring_of(line):
    """Offices, fibres and family of an R line, which has M or nothing behind the fibres; None where it has not this shape."""
    plain = fields(line, b"R", 2)
    return plain + [""] if plain else fields(line, b"R", 2, (b"M",))


def lines_of(text):
    out, rest = [], text
    while rest:
        k = rest.find(b"\n") + 1 or len(rest)
        out.append(rest[:k])
        rest = rest[k:]
    return out


def those(tests):
    return {reason for reason, holds in tests.items() if holds}


def holding(lines, at):
    """The reasons that hold of a table's line."""
    ring = ring_of(lines[0]) if lines else None
    if at == 1:
        return {2} if ring is None else those(judging.of_ring(*ring))
    row = fields(lines[at - 1], b"D", 3)
    before = fields(lines[at - 2], b"D", 3) if at > 2 else None
    return {2} if row is None else of_row(ring, before, at, row)


def of_row(ring, before, at, row):
    """The reasons that hold of a row on a line, 4 where it is known how many offices there are. Line 2 has the first row."""
    held = those(judging.of_row(ring[0] if ring else 0, before, at - 1, row))
    return held if ring else held - {4}


def first_of(held):
    """Of lines and reasons that hold there, what is given: on the least line the first in the order, and that line. None where nothing holds."""
    line, reason = min(held, key=lambda one: (one[0], ORDER.index(one[1])), default=(None, None))
    return reason and (reason, line)


def first_reason(text):
    """The reason that a table gets, and its line; 1 stands on line 0."""
    lines = lines_of(text)
    held = {(0, 1)} if len(text) > LONGEST else set()
    for at in range(1, max(1, len(lines)) + 1):
        held |= {(at, reason) for reason in holding(lines, at)}
    return first_of(held)


def values(line, letter):
    """What a sheet's line says, None where it has not the shape of its letter."""
    return ring_of(line) if letter == "R" else fields(line, letter.encode(), SHEET[letter], (b"F", b"B") if letter == "D" else ())


class Sheet:
    """A text taken as a sheet: which letter is due at each line, and what the lines say that have their shape."""

    def __init__(self, text):
        self.lines = lines_of(text)
        self.ring = values(self.lines[0], "R") if self.lines else None
        begin = [line.rstrip(b"\n").split(b"\t")[0] for line in self.lines]
        self.count = next((k for k, letter in enumerate(begin[1:]) if letter != b"D"), len(begin[1:]))
        said = [values(line, "D") for line in self.lines[1:1 + self.count]]
        # figures can be told true from false where every row has its shape
        self.known = self.ring and None not in said
        self.rows = [tuple(row) for row in said] if self.known else []
        self.sent = [row[3:5] for row in self.rows]

    def due(self, at):
        """R; D for as long as lines begin with it; C; L for each link; Z; nothing after it."""
        after_c = at - 2 - self.count
        n = self.ring[0] if self.ring else 0
        if at == 1:
            return "R"
        if after_c < 0:
            return "D"
        if after_c == 0:
            return "C"
        return "L" if after_c <= n else "Z" if after_c == n + 1 else None

    def said(self, at):
        letter = self.due(at)
        return values(self.lines[at - 1], letter) if letter and at <= len(self.lines) else None

    def holding(self, at):
        """The reasons that hold of a line, of reading and of judging; a missing line is one past the last, where something is due."""
        said = self.said(at)
        if said is None:
            return {2} if at <= len(self.lines) or self.due(at) else set()
        letter = self.due(at)
        if letter == "R":
            return those(judging.of_ring(*said))
        if letter == "D":
            before = self.said(at - 1) if at > 2 else None
            return of_row(self.ring, before, at, said) | those(judging.of_figures(said))
        return self.false(at, said) if self.known and 1 <= self.ring[0] <= judging.MOST_OFFICES else set()

    def false(self, at, said):
        """10, 11 and 12, of a line behind rows that all have their shape."""
        place = at - 2 - self.count
        if self.due(at) == "C":
            return those(judging.of_cut(self.values(cut=said)))
        if self.due(at) == "L":
            return those(judging.of_link(self.values(links=[said] * place), place))
        return those(judging.of_last(self.values(last=said)))

    def values(self, cut=(0, 0, 0), links=(), last=(0, 0)):
        return Values(*self.ring, self.rows, cut, links, last)

    def read(self):
        """All values, of a text that reading accepts."""
        cut, *links, last = (self.said(at) for at in range(self.count + 2, len(self.lines) + 1))
        return self.values(cut, links, last)

    def held(self):
        """Line and reason of all that hold of a line."""
        return {(at, reason) for at in range(1, len(self.lines) + 2) for reason in self.holding(at)}

    def line(self, reason, place):
        """The line of what is found against the values: 10 and 12, which name no place, have their lines too, and 11 its link's."""
        behind_rows = {10: 2, 11: 2 + place, 12: len(self.lines) - self.count}
        return 0 if reason in (13, 14) else self.count + behind_rows[reason] if reason in behind_rows else place + 1


def first_reason_of_sheet(text):
    """The same for a sheet: what reading gives, and where it gives nothing what judging finds; 13 and 14 stand on line 0."""
    if len(text) > LONGEST:
        return 1, 0
    sheet = Sheet(text)
    misread = first_of(one for one in sheet.held() if one[1] in FORM)
    if misread:
        return misread
    found = judging.judged(sheet.read())
    return found and (found[0], sheet.line(*found))


def line_by_line(text):
    """What a sheet would get if each line were judged as it is read: the same, but where a fault of form stands behind a false figure."""
    return (1, 0) if len(text) > LONGEST else first_of(Sheet(text).held()) or first_reason_of_sheet(text)


def rewritten(text):
    """An accepted sheet's values written afresh."""
    sheet = Sheet(text)
    return rules.text_of((sheet.due(at), *filter(lambda said: said != "", sheet.said(at))) for at in range(1, len(sheet.lines) + 1))
