"""One table, four programs: ringplan, once (which sends whole circuits one turn at a time), glpsol for demands that may be split, cbc for demands that may not. Each is run as a planner
would run it, from text to text."""

import math
import os
import re
import subprocess
import textwrap
from pathlib import Path

OUT = Path("target/bench")
TABLE, MODEL, SOLUTION, SAID, CALLS = (str(OUT / name) for name in ("table", "model.lp", "solution", "said", "calls"))
PLANNER = ["crates/ringplan/out/ringplan"]
ONCE = str(OUT / "once")
SIMPLEX = ["glpsol", "--lp", MODEL, "-w", SOLUTION]
# as many rows left split as the best choice is sought for
MOST_SPLIT = 16
# the least of so many runs is a program's time
RUNS = 5


class Wrong(Exception):
    """Two programs disagree where they must not."""


class Failed(Wrong):
    """A program ended with another status than 0, as a solver may by a fault of its own."""


def must(holds, words):
    if not holds:
        raise Wrong(words)


def run(words, given=os.devnull):
    """What a program writes, and its processor time: unlike time by the clock it does not count what else the machine does."""
    with open(given) as stdin, open(SAID, "w+") as stdout:
        child = subprocess.Popen(words, stdin=stdin, stdout=stdout, stderr=subprocess.STDOUT)
        _, status, used = os.wait4(child.pid, 0)
        child.returncode = os.waitstatus_to_exitcode(status)
        stdout.seek(0)
        said = stdout.read()
    if child.returncode != 0:
        raise Failed(f"{words[0]} ended with status {child.returncode}:\n{said}")
    return said, used.ru_utime + used.ru_stime


def least(words, given=os.devnull):
    return min(run(words, given)[1] for _ in range(RUNS))


def count(words, given=os.devnull):
    """Instructions of the whole program."""
    said, _ = run(["valgrind", "--tool=callgrind", f"--callgrind-out-file={CALLS}", *words], given)
    return int(re.search(r"Collected : (\d+)", said)[1])


def peak_of(table, fronts):
    """The unsplit peak where the rows at these places go front and all others back."""
    ways = [(range(i, j), d, place in fronts) for place, (i, j, d) in enumerate(table.rows)]
    return max(sum(d for front, d, forth in ways if (link in front) == forth) for link in range(1, table.n + 1))


def plan(table):
    """Our across number, which is the split peak in halves, and our unsplit peak."""
    Path(TABLE).write_text(table.text())
    lines = [line.split("\t") for line in run(PLANNER, TABLE)[0].splitlines()]
    rows, cut, links, end = ([line for line in lines if line[0] == tag] for tag in "DCLZ")
    across, peak = int(cut[0][3]), int(end[0][1])
    must(max(int(link[2]) for link in links) == across, "our split peak is not our across number")
    must(peak_of(table, {place for place, row in enumerate(rows) if row[6] == "F"}) == peak, "our unsplit peak is not that of our ways")
    return across, peak


def sent_whole(call, table):
    """The three numbers that a call which writes ways says of the table, the first of them the peak."""
    *numbers, ways = run([ONCE, call, TABLE])[0].split(" ")
    must(peak_of(table, {place for place, way in enumerate(ways) if way == "F"}) == int(numbers[0]), f"{call}: the peak is not that of the ways")
    return [int(number) for number in numbers]


def turn(table):
    """The peak where whole circuits are sent one turn at a time."""
    return sent_whole("turn", table)[0]


def sheet_of(call, table):
    """The rows of a sheet, its across number and its unsplit peak, which is that of its ways."""
    lines = [line.split("\t") for line in run([ONCE, call, TABLE])[0].splitlines()]
    rows = [line for line in lines if line[0] == "D"]
    peak = int(lines[-1][1])
    must(peak_of(table, {place for place, row in enumerate(rows) if row[6] == "F"}) == peak, "the unsplit peak is not that of the ways")
    across = int(next(line for line in lines if line[0] == "C")[3])
    loads = [int(line[2]) for line in lines if line[0] == "L"]
    must(max(loads) == across, "the split peak is not the across number")
    return rows, across, peak, loads


def both_choices(table, by_rule_d, by_choice):
    """By the calls for rule D and for the best choice: how many rows are left split, the two peaks, the second None where too many rows are, the across number and the split loads."""
    rows, across, rule_d, loads = sheet_of(by_rule_d, table)
    split = sum(int(row[4]) > 0 and int(row[5]) > 0 for row in rows)
    chosen = sheet_of(by_choice, table)[2] if split <= MOST_SPLIT else None
    must(chosen is None or (across + 1) // 2 <= chosen <= rule_d, f"the best choice has {chosen}, rule D {rule_d}")
    return split, rule_d, chosen, across, loads


def model(table, whole, most=None):
    """The peak z to be made least, in CPLEX's LP format, or at most so much where that is said. Of row k the part x_k goes front and the rest back; x_k is 0 or 1 where it has to be whole."""
    used = [(place, row) for place, row in enumerate(table.rows) if row[2] > 0]
    lines = ["Minimize", " peak: z", "Subject To"]
    for link in range(1, table.n + 1):
        terms = [f"{'+' if i <= link < j else '-'} {d} x{place}" for place, (i, j, d) in used]
        back = sum(d for _, (i, j, d) in used if not i <= link < j)
        lines.append(textwrap.fill(f" link{link}: {' '.join(terms)} - z <= {-back}", 120))
    names = [f" x{place}" for place, _ in used]
    if most is not None:
        lines += ["Bounds", f" z <= {most}"]
    if whole:
        # where the peak must be whole, the solver is done less than one unit above its bound
        lines += ["Generals", " z", "Binaries", *names]
    else:
        lines += ["Bounds", *(f"{name} <= 1" for name in names)]
    return "\n".join(lines) + "\nEnd\n"


def simplex(*words):
    """The optimum that glpsol reports; f f says that it is feasible and that no other is better."""
    run([*SIMPLEX, *words])
    found = re.search(r"^s bas \d+ \d+ f f (\S+)$", Path(SOLUTION).read_text(), re.MULTILINE)
    must(found, "glpsol found no optimum")
    return float(found[1])


def check_split(table, across):
    """The linear program's optimum is half our across number: exactly, in glpsol's exact arithmetic, and but for rounding without it."""
    Path(MODEL).write_text(model(table, whole=False))
    exact, rounded = simplex("--exact"), simplex()
    must(exact == across / 2, f"the linear program's optimum is {exact}, half our across number {across / 2}")
    must(abs(rounded - exact) < 1e-6 * max(1, exact), f"glpsol's optimum is {exact} in exact arithmetic and {rounded} without")


def branch(table, limit):
    """cbc's best peak (None where it has none), its lower bound, whether it says that the peak is proved best, and its time."""
    Path(MODEL).write_text(model(table, whole=True))
    Path(SOLUTION).unlink(missing_ok=True)
    said, seconds = run(["cbc", MODEL, "sec", str(limit), "solve", "solution", SOLUTION])
    # a longer line says that it stopped near the optimum
    proved = "Result - Optimal solution found\n" in said
    found = re.search(r"Objective value: +(\S+)", said)
    if not found:
        return None, 0, False, seconds
    values = re.findall(r"\bx(\d+) +(\S+)", Path(SOLUTION).read_text())
    peak = peak_of_values(table, values)
    must(peak == round(float(found[1])), f"cbc says {found[1]}, its ways have the peak {peak}")
    lower = re.search(r"Lower bound: +(\S+)", said)
    return peak, peak if proved else math.ceil(float(lower[1]) - 1e-6), proved, seconds


def peak_of_values(table, values):
    """The peak of the ways that a solver's values say: pairs of a row's place and its x."""
    return peak_of(table, {int(place) for place, value in values if float(value) > 0.5})


def cbc_as_low(table, peak, limit):
    """How long cbc takes to ways whose peak is at most that, which it is told; it stops at the first. None where it comes to none within the limit, or fails."""
    Path(MODEL).write_text(model(table, whole=True, most=peak))
    Path(SOLUTION).unlink(missing_ok=True)
    try:
        said, seconds = run(["cbc", MODEL, "sec", str(limit), "maxSolutions", "1", "solve", "solution", SOLUTION])
    except Failed:
        return None
    values = re.findall(r"\bx(\d+) +(\S+)", Path(SOLUTION).read_text()) if re.search(r"Objective value: +\S+", said) else []
    return seconds if values and peak_of_values(table, values) <= peak else None


def glpsol_as_low(table, peak, limit):
    """The same of glpsol."""
    Path(MODEL).write_text(model(table, whole=True, most=peak))
    Path(SOLUTION).unlink(missing_ok=True)
    _, seconds = run(["glpsol", "--lp", MODEL, "--tmlim", str(limit), "--mipgap", "1000", "-o", SOLUTION])
    text = Path(SOLUTION).read_text() if Path(SOLUTION).exists() else ""
    values = re.findall(r"^ +\d+ x(\d+)\s+\*\s+(\d+)", text, re.MULTILINE)
    found = re.search(r"^Status: +INTEGER", text, re.MULTILINE)
    return seconds if found and peak_of_values(table, values) <= peak else None


def solve(table, limit, counted):
    """All that is kept of one table, by name."""
    across, ours = plan(table)
    turned = turn(table)
    _, by_rule_d, chosen, *_ = both_choices(table, "route", "best")
    _, lowered, lowered_chosen, lowered_across, _ = both_choices(table, "lowered", "lowered_best")
    must((by_rule_d, lowered_across) == (ours, across), "the program and the library's call differ, or the two rooms in the across number")
    times = {"ours_time": least(PLANNER, TABLE)}
    check_split(table, across)
    times["glpsol_time"] = least(SIMPLEX)
    counts = [count(PLANNER, TABLE), count(SIMPLEX), count([*SIMPLEX, "--check"])] if counted else ["", "", ""]
    found, bound, proved, times["cbc_time"] = branch(table, limit)
    best = min(peak for peak in (ours, turned, chosen, lowered, lowered_chosen, found) if peak is not None)
    must(2 * best >= across, f"cbc's peak {best} is below half our across number {across / 2}")
    must(best == found or not proved, f"cbc says that no peak is below {found}, ours are {ours} and {turned}")
    return {
        **dict(zip(("family", "n", "share", "number"), table)),
        **{"rows": len(table.rows), "across": across, "ours": ours, "turned": turned, "chosen": chosen, "lowered": lowered, "lowered_chosen": lowered_chosen, "best": best, "bound": max(bound, (across + 1) // 2), "proved": int(proved)},
        **times,
        **dict(zip(("ours_count", "glpsol_count", "glpsol_reading_count"), counts)),
    }
