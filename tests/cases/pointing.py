"""To which byte of its line a refusal points, read from the rule alone (Rules, the byte): of a line of the wrong shape by the longest beginning that a
pattern of its shape has, of a field by where it starts."""
import re

from judging import MOST_AMOUNT
from matrix import Matrix, told
from reading import DIGITS, SHEET, Sheet, lines_of, ring_of

NUMBER = rb"(?:0|[1-9][0-9]{0,%d})" % (DIGITS - 1)


def beginnings(*parts):
    """A pattern of everything that begins a line of these fields, the longest first."""
    pieces = [piece for part in parts for piece in (part, rb"\t")][:-1] + [rb"\n"]
    pattern = b""
    for piece in reversed(pieces):
        pattern = b"(?:" + piece + pattern + b")?"
    return re.compile(pattern)


# behind the fibres a line may end, or go on with a tab and M
RING = [beginnings(b"R", NUMBER, NUMBER), beginnings(b"R", NUMBER, NUMBER, b"M")]
ROW = beginnings(b"D", *[NUMBER] * 3)
LINES = {letter: beginnings(letter.encode(), *[NUMBER] * count, *[b"[FB]"] * (letter == "D")) for letter, count in SHEET.items()}
# the first line of a matrix may have any number of fields
FIRST = re.compile(b"(?:" + NUMBER + rb"\t)*(?:" + NUMBER + rb"\n?)?")


def due_in_sheet(sheet, at):
    """The shapes that are due at a line; none where it is left over. A row may stand where the cut does."""
    letter = sheet.due(at)
    if letter == "R":
        return RING
    return [LINES[one] for one in ("DC" if letter in ("D", "C") else letter or "")]


def due_in_matrix(matrix, at):
    return [FIRST] if at == 1 else [beginnings(*[NUMBER] * matrix.n)] if at <= matrix.n else []


def due(letter, text, at):
    if told(letter):
        return due_in_matrix(Matrix(text), at)
    if letter in "TRBlmW":
        return RING if at == 1 else [ROW]
    return due_in_sheet(Sheet(text), at)


def first_fault(line, shapes):
    """The first byte at which none of the shapes goes on."""
    return 1 + max(shape.match(line).end() for shape in shapes)


def field_of_matrix(text, at, reason):
    """The entry that a matrix is refused for, counted from 0; None where it is the whole line."""
    matrix = Matrix(text)
    if reason == 7:
        return next(k for k, entry in enumerate(matrix.lines[at - 1]) if entry > MOST_AMOUNT)
    return min((field - 1 for line, field, why in matrix.faulty() if (line, why) == (at, reason)), default=None) if reason in (17, 18) else None


def field_of_row(ring, row, reason):
    """The field that a table's or sheet's line is refused for; the letter is field 0."""
    if reason == 4:
        return next(k for k in (1, 2) if not 1 <= int(row[k]) <= ring[0])
    return {3: 1, 20: 2, 7: 3}.get(reason)


def byte_of(letter, text, reply):
    """The byte that goes with a reason and a line: 0 with line 0; 1 where the line is missing or left over, or is judged as a whole."""
    reason, at = reply
    lines = lines_of(text)
    if at == 0 or at > len(lines):
        return min(at, 1)
    line, shapes = lines[at - 1], due(letter, text, at)
    if reason == 2:
        return first_fault(line, shapes) if shapes else 1
    parts = line[:-1].split(b"\t")
    field = field_of_matrix(text, at, reason) if told(letter) else field_of_row(ring_of(lines[0]), parts, reason)
    return 1 + len(b"".join(part + b"\t" for part in parts[:field or 0]))
