"""The stored cases, and tests/cases/groups, which says of each group how many it has and which.

In that file a line has the group's name and how many cases it has; below it each case has a line,
the first digits of the sha256 of what it asks. A case that is stored stays, whether or not a
function still draws it: make.py answers it anew. It leaves only where its line is taken out, by
hand, and docs/LANDINGS.md says which and why."""
import hashlib
import pathlib
import re

FOLDER = pathlib.Path(__file__).resolve().parent
GROUPS = FOLDER / "groups"
STDIN = FOLDER.parents[1] / "crates/cases/stdin"
HEADER, DIGITS = 12, 12
# files of calls whose cases are a line that says how long the text behind it is, and the text
TEXTS = ("turning", "crossing", "least")


def sum_of(asked):
    return hashlib.sha256(asked).hexdigest()[:DIGITS]


def written(letter, text, room):
    """A case as crates/cases/stdin has it, behind the lengths of its text and its buffer."""
    assert len(text) < 100000 and room < 100000
    return b"%c%05d%05d\n" % (ord(letter), len(text), room) + text


def sums_of(cases):
    return [sum_of(written(*case)) for case in cases]


def cases():
    """What crates/cases/stdin asks: the letter of each call, its text and its buffer's length."""
    asked, at = STDIN.read_bytes(), 0
    while at < len(asked):
        start, length = at + HEADER, int(asked[at + 1:at + 6])
        yield chr(asked[at]), asked[start:start + length], int(asked[at + 6:at + 11])
        at = start + length


def of_texts(name):
    """The texts of a file of calls; of each the answer stands on the line before it."""
    asked, at = (FOLDER / f"{name}.calls").read_bytes(), 0
    while at < len(asked):
        start = asked.index(b"\n", at) + 1
        at = start + int(asked[at:start].split()[1])
        yield asked[start:at]


def of_working():
    """Each sequence's calls, without its title and the replies."""
    lines = (FOLDER / "working.calls").read_text()
    for sequence in re.split(r"^# .*\n", lines, flags=re.MULTILINE):
        if sequence:
            yield re.sub(r" = .*", "", sequence).encode()


def of_judging():
    """All that says what the values are, from where they begin afresh to where they are judged."""
    since = []
    for line in (FOLDER / "judging.calls").read_text().splitlines():
        if line.startswith("ring "):
            since = []
        if line.startswith("judge = "):
            yield "\n".join(since).encode()
        elif not line.startswith("#"):
            since.append(line)


def calls():
    """The cases of each file of calls."""
    yield "working.calls", of_working()
    yield "judging.calls", of_judging()
    yield from ((f"{name}.calls", of_texts(name)) for name in TEXTS)


def listed():
    """The groups by name: how many cases each is said to have, and their sums in order."""
    groups, sums = {}, []
    for line in GROUPS.read_text().splitlines():
        name, colon, count = line.rpartition(": ")
        if colon:
            sums = []
            groups[name] = int(count), sums
        else:
            sums.append(line)
    return groups


def store(groups):
    """Writes the sums of each group below its name."""
    lines = [line for name, sums in groups.items() for line in (f"{name}: {len(sums)}", *sums)]
    GROUPS.write_text("".join(line + "\n" for line in lines))
