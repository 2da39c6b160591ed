"""A matrix, read from the rule alone (Rules, matrices): which refusal it gets, the table that it is read into, and the matrix that a table is written as."""
import judging
from reading import LONGEST, fields, first_of, first_reason, lines_of, number, ring_of, those


def told(letter):
    """The fibres and the family that a matrix is read with, by the letter of a stored case: a digit is so many fibres of SONET, a to j are 0 to 9 fibres of SDH; None of another letter."""
    return (int(letter), "") if letter.isdigit() else ("abcdefghij".index(letter), "M") if letter in "abcdefghij" else None


def entries(line):
    """The numbers that tabs part in a line; None where one is badly spelled or the line has no LF."""
    said = [number(field) for field in line[:-1].split(b"\t")]
    return said if line.endswith(b"\n") and None not in said else None


class Matrix:
    """A text taken as a matrix: what its lines say that are well spelled, and how many offices the first line has."""

    def __init__(self, text):
        self.lines = [entries(line) for line in lines_of(text)]
        self.n = len(self.lines[0] or []) if self.lines else 0

    def holding(self, at):
        """The reasons that hold of a line. One line at least is due, so that an empty text misses its first."""
        there, due = at <= len(self.lines), at <= max(1, self.n)
        said = self.lines[at - 1] if there else None
        if said is None or not due or len(said) != self.n:
            return {2} if there or due else set()
        return those({3: at == 1 and judging.of_ring(self.n, 4)[3], 7: any(entry > judging.MOST_AMOUNT for entry in said)})

    def faulty(self):
        """Line, field and reason of each entry that is not as it should be, of a matrix whose lines all pass."""
        for i, line in enumerate(self.lines):
            for j, entry in enumerate(line):
                if i == j and entry != 0:
                    yield i + 1, j + 1, 17
                if entry != self.lines[j][i]:
                    yield i + 1, j + 1, 18

    def rows(self):
        """A row for each pair whose entry is above 0."""
        nodes = range(1, self.n + 1)
        rows = [(i, j, self.lines[i - 1][j - 1]) for i in nodes for j in nodes if i < j]
        return [row for row in rows if row[2] > 0]


def first_reason_of_matrix(text, fibres=4):
    """The reason that a matrix gets, and its line: 20 of the fibres that its reader is told, 1, then what holds of lines, then the first faulty entry in
    reading order, then 16 where it makes too many rows."""
    if fibres not in (2, 4):
        return 20, 0
    if len(text) > LONGEST:
        return 1, 0
    matrix = Matrix(text)
    held = {(at, reason) for at in range(1, len(matrix.lines) + 2) for reason in matrix.holding(at)}
    if held:
        return first_of(held)
    line, _, reason = min(matrix.faulty(), default=(0, 0, None))
    return (reason, line) if reason else (16, 0) if len(matrix.rows()) > judging.MOST_ROWS else None


def rows_of(text):
    """The ring of an accepted matrix and its rows."""
    matrix = Matrix(text)
    return matrix.n, matrix.rows()


def table_values(text):
    """The ring, the rows, the fibres and the family of an accepted table."""
    ring, *rows = lines_of(text)
    n, fibres, family = ring_of(ring)
    return n, tuple(tuple(fields(row, b"D", 3)) for row in rows), fibres, family


def first_reason_of_sums(text):
    """The reason that a table to be written as a matrix gets: the table's own, then 19 on the first row that takes its pair's sum over 9,999."""
    reply = first_reason(text)
    if reply:
        return reply
    _, rows, *_ = table_values(text)
    sums = [sum(d for *pair, d in rows[:k + 1] if pair == [*rows[k][:2]]) for k in range(len(rows))]
    return next(((19, k + 2) for k, s in enumerate(sums) if s > judging.MOST_AMOUNT), None)


def write_matrix(n, rows, *_):
    """The square of these rows: each entry is the sum of the rows between its two nodes. It says neither how many fibres there are nor which family."""
    nodes = range(1, n + 1)
    sums = {}
    for i, j, d in rows:
        sums[i, j] = sums[j, i] = sums.get((i, j), 0) + d
    return b"".join(b"\t".join(b"%d" % sums.get((i, j), 0) for j in nodes) + b"\n" for i in nodes)
