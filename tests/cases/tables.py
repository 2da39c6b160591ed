"""Tables for the calls that read one and write no text: some that are drawn, and texts that are refused for each reason that a table has; and how what is answered of a table is stored."""
import itertools
import random

import circuits
from judging import MOST_ROWS
from pointing import byte_of
from reading import LONGEST, first_reason
from sheets import damaged, pairs, t, write_table

FIVE = (5, ((1, 2, 2), (1, 4, 5), (2, 3, 9), (2, 4, 11), (3, 4, 4), (3, 5, 3)))
EIGHT = (8, ((1, 4, 1), (2, 3, 1), (5, 8, 2), (6, 7, 2)))


def drawn(rng, n, count, most):
    """Some of the rows between the same two offices."""
    few = rng.choices(pairs(n), k=count)
    return n, tuple((i, j, rng.randint(0, most)) for i, j in sorted(few))


def refused():
    """Each reason of a table, on first, middle and last lines; and tables that are damaged, of which some are accepted."""
    yield from (b"", b"\n", b"R", t("R|4|4", end=""), t("R|1|4"), t("R|65|3"), t("R|4|3"), t("R|4|0", "D|5|2|1"), t("R|4"), t("R|4|4", "D|5|2|10000"), t("R|4|4", "D|1|2|1", end="\n\n"))
    good = ["R|9|4", "D|1|2|3", "D|1|4|0", "D|2|3|9999", "D|3|9|17", "D|8|9|1"]
    bad = ["D|1|2", "D|1|2|3 ", "D|01|2|3", "D|1|2|123456789", "D|1|2|12345678", "x", "D|0|2|3", "D|1|10|3", "D|9|9|1", "D|4|3|1", "D|1|2|10000", "D|8|8|10000", "C|1|2|3"]
    for line, at in itertools.product(bad, (1, 3, 6)):
        yield t(*good[:at], line, *good[at:])
    yield t(*good[:2], *good[:0:-1])
    most = b"R\t2\t4\n" + b"D\t1\t2\t1\n" * MOST_ROWS
    yield most + b"D\t1\t2\t1\n"
    yield most + b"D\t1\t2\t10000\n"
    rows = b"R\t2\t4\n" + b"D\t1\t2\t1\n" * 400
    yield from (rows.ljust(length, b"x") for length in (LONGEST, LONGEST + 1))
    rng = random.Random(11)
    for _ in range(150):
        yield damaged(rng, write_table(*drawn(rng, rng.randint(2, 64), rng.randint(1, 12), 9999)))
    yield from itertools.islice(circuits.in_order(), 0, None, 3)


def refusal_of(text):
    """Reason, line and byte; None where the text is a table."""
    given = first_reason(text)
    return given and (*given, byte_of("T", text, given))


def store(word, name, texts, answered):
    """Writes each text once, behind a line of what is answered of it. The answers."""
    answers, out = [], []
    for text in dict.fromkeys(texts):
        answers.append(answered(text))
        out.append((f"{word} {len(text)} {' '.join(map(str, answers[-1]))}\n").encode() + text)
    seen = [answer[0] for answer in answers]
    assert set(seen) == {0, 1, 2, 3, 4, 5, 6, 7, 16, 20}, sorted(set(seen))
    with open(f"tests/cases/{name}.calls", "wb") as file:
        file.write(b"".join(out))
    print({reason: seen.count(reason) for reason in sorted(set(seen))})
    return answers
