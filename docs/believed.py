#!/usr/bin/env python3
"""Counts the lines of definitions to believe by what they are for, a line each of a table: the rest, and then each request. Run at the top of the repository.

A file is counted to the first row of the table that needs it, and a definition in it, with its comment, to the row that alone needs it; what stands between definitions
goes with the file. A limit or a parameter that a later request put into what was there is not told apart. Fails where a file or a name below is not there, so that no line goes to another row unseen."""
import fnmatch
import pathlib
import re
import sys

RULES = "rings, loads, cuts, rules A to D and true sheets"
TEXTS = "texts of tables and sheets, and their calls"
CIRCUITS = "several circuits of one pair"
MATRICES = "matrices"
FIBRES = "two fibres"
WORKING = "the working table"
BYTE = "the byte of a refusal"
JUDGING = "judging values"
TURNING = "one turn at a time"
OFFICES = "sixty-four offices (`old` and `desk`)"
BEST = "the best choice"
LOWERED = "lowered rooms"
REPORT = "a report over many plans"
FAMILIES = "a second family of line sizes"
CROSSING = "rings where everything crosses"
LEAST = "the least of five rules"
OPTIMAL = "the optimal rule"

# files, as crate/File; the first that fits counts
FILES = [
    ("ring/LineSize", FIBRES),
    ("ring/*", RULES),
    ("family/*", RULES),
    ("laws/Rules", RULES),
    ("laws/Papers", RULES),
    ("matrix/*", MATRICES),
    ("matrix_calls/*", MATRICES),
    ("across/*", WORKING),
    ("work/HeldRing", FAMILIES),
    ("work/*", WORKING),
    ("ringkit/WorkCalls", WORKING),
    ("ringkit_c/Working", WORKING),
    ("text/RingLine", FAMILIES),
    ("text/FieldByte", BYTE),
    ("text/FirstFault", BYTE),
    ("lines/DueBytes", BYTE),
    ("rows/SheetRow", JUDGING),
    ("ringkit/Judging", JUDGING),
    ("turns/*", TURNING),
    ("ringkit/Turning", TURNING),
    ("least/*", LEAST),
    ("optimal/*", OPTIMAL),
    ("ringkit/LeastPeak", LEAST),
    ("laws/Old", OFFICES),
    ("laws/Digits", OFFICES),
    ("best/*", BEST),
    ("engines/*", LOWERED),
    ("report/*", REPORT),
    ("report_calls/*", REPORT),
    ("router/Plans", BEST),
    ("crossing/Pair", TEXTS),
    ("crossing/*", CROSSING),
    ("ringkit/Crossing", CROSSING),
    *((f"{crate}/*", TEXTS) for crate in ("reasons", "text", "lines", "table", "sheet", "judge", "checker", "ringkit", "ringkit_c", "laws")),
]

# names that one request alone needs, by file: a definition, or the beginning of one line
NAMES = {
    CIRCUITS: {
        "ring/TableRows": ["PairUpTo"],
        "ring/Rules": ["SameNodes", "NotBoth"],
        "laws/Rules": ["SameAreParallel", "OneIsSplit", "EarlierIsOuter"],
        "reasons/Reasons": ["number_of TooMany", "rank_of TooMany"],
        "table/RowReasons": ["says_too_many :", "at_count :"],
        "ring/WithinLimits": ["count :"],
    },
    MATRICES: {
        "table/Table": ["table_room"],
        "text/Shapes": ["numbers", "numbers_line"],
        "reasons/Reasons": [f"{word} {reason}" for word in ("number_of", "rank_of") for reason in ("NotZero", "NotSymmetric", "SumTooMuch")],
        "laws/Texts": ["AcceptedMatrixIs"],
    },
    FIBRES: {
        "reasons/Reasons": ["number_of Fibres", "rank_of Fibres"],
        "table/RowReasons": ["says_fibres :"],
        "ring/WithinLimits": ["fibres :"],
        "laws/Rules": ["SizeOfRising", "SizeOfFamily"],
    },
    WORKING: {
        "reasons/Reasons": [f"{word} {reason}" for word in ("number_of", "rank_of") for reason in ("NoRow", "Full")],
        "reasons/RowFindings": ["ring_findings", "Falls", "demand_findings"],
    },
    BYTE: {
        "reasons/Reasons": ["byte_is :"],
        "table/RowReasons": ["RowsByte"],
        "table/Says": ["LineByte", "ByteIs"],
        "sheet/Says": ["NeitherGoesOn", "LineByte", "ByteIs"],
        "matrix/Says": ["NumbersFault", "LineByte", "EntryStarts", "AmountByte", "FaultyByte", "ByteIs"],
        "laws/Texts": ["FaultyIs"],
    },
    JUDGING: {
        "judge/Findings": ["Fits"],
        "checker/Laws": ["JudgedInRange"],
        "laws/Calls": ["WroteJudged", "RoutedJudged"],
        "ringkit_c/Replies": ["judge_reply", "sheet_lent"],
    },
    TURNING: {
        "ringkit_c/Replies": ["turn_reply"],
    },
    OFFICES: {
        "ring/Limits": ["Countable", "digits :", "countable :", "old"],
    },
    BEST: {
        "reasons/Reasons": ["number_of TooManySplit", "rank_of TooManySplit"],
        "ringkit/Texts": ["PlanGiven", "FewSplit", "Takes", "OnRingUpTo"],
        "laws/Rules": ["SomeBest", "BestIsThere", "BestIsOne", "RuleDChooses", "FewAreSplit"],
    },
    REPORT: {
        "reasons/Reasons": ["number_of PlansTooLong", "rank_of PlansTooLong"],
        "laws/Calls": ["WroteSheet", "RoutedCounted"],
    },
    FAMILIES: {
        "family/Sizes": ["sdh_sizes", "sizes_of", "family_of", "family_number", "Known"],
        "text/Bytes": ["letter_m"],
        "ring/LineSize": ["line_size_of"],
        "ring/Limits": ["marks :"],
        "ring/WithinLimits": ["family :"],
        "laws/Old": ["byte_of_lf", "marked :"],
        "laws/Texts": ["OneRingLine", "RingFaultyIs"],
        "ringkit_c/Replies": ["ring_told"],
    },
    CROSSING: {
        "ringkit_c/Replies": ["crossing_reply"],
        "laws/Calls": ["SheetWithin", "KeepsBound", "CrossedRouted"],
    },
    LEAST: {
        "laws/Calls": ["LeastUpToTurned", "LeastUpToRouted", "TurnedPeak", "WrotePeak", "RoutedTo", "ComesTo", "LeastComesFrom"],
        "ringkit_c/Replies": ["least_reply"],
    },
}

ROWS = [RULES, TEXTS, CIRCUITS, MATRICES, FIBRES, WORKING, BYTE, JUDGING, TURNING, OFFICES, BEST, LOWERED, REPORT, FAMILIES, CROSSING, LEAST, OPTIMAL]


def extent(lines, name):
    """The lines that a name of the tables above stands for, as numbers from 0: of a definition all up to the blank line behind it, with the comment above it; of what
    has a blank in it, the line that begins so, with the comment above. None where nothing begins so."""
    begins = re.compile(rf"\s*(?:unfoldable |abbrev |pub |record |data )*{re.escape(name)}(?=[\s:]|$)")
    at = next((k for k, line in enumerate(lines) if begins.match(line)), None)
    if at is None:
        return None
    first, end = at, at + 1
    while first > 1 and lines[first - 1].lstrip().startswith("-- "):
        first -= 1
    if " " not in name:
        while end < len(lines) and lines[end - 1].strip():
            end += 1
    return range(first, end)


def counted():
    """The lines of each row, and what the tables above name that is not there."""
    sums, missing, seen = dict.fromkeys(ROWS, 0), [], set()
    for path in sorted(pathlib.Path("crates").glob("*/specs/*.antt")):
        lines = path.read_text(encoding="utf-8").splitlines()
        if not lines or not lines[0].startswith("-- To believe: "):
            continue
        file = f"{path.parts[1]}/{path.stem}"
        fits = next(((pattern, row) for pattern, row in FILES if fnmatch.fnmatch(file, pattern)), None)
        if fits is None:
            missing.append(f"a row for {file}")
            continue
        seen.add(fits[0])
        row_of = [fits[1]] * len(lines)
        # a line that two rows name is counted to the first
        for row in reversed(ROWS):
            for name in NAMES.get(row, {}).get(file, []):
                where = extent(lines, name)
                if where is None:
                    missing.append(f"{name} in {file}")
                else:
                    row_of[where.start : where.stop] = [row] * len(where)
        for row in row_of:
            sums[row] += 1
    missing += [f"a file {pattern}" for pattern, _ in FILES if pattern not in seen]
    return sums, missing


sums, missing = counted()
print("| What for | lines to believe |\n|---|---|")
for row, lines in [*sums.items(), ("all", sum(sums.values()))]:
    print(f"| {row} | {lines:,} |")
for what in missing:
    print(f"error: there is no {what}")
sys.exit(1 if missing else 0)
