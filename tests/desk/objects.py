#!/usr/bin/env python3
"""Holds what the desk writes with --json, and what it says of several files, to what it says without: `objects.py DESK`, from the tree's root.

Each object is one line of ASCII that a parser of JSON reads, and has the shape that docs/desk.schema.json says. Figures of a plan, written as a sheet, are the bytes of
`desk plan --sheet`, with --best and --lowered too; those of turning are worked out again from the ways, and held to the stored cases (tests/cases/turning.calls), as whether circuits cross is to its own (tests/cases/crossing.calls); those of the least are the other commands' own, and held to its stored cases (tests/cases/least.calls); those of a report are what checking each plan by itself says; a refusal is the sentence that is said on standard error. The module
jsonschema reads the schema where it is there; shape.py does in any case, and the first line says which of them did. The last line is 'N passed, M failed'."""
import json
import os
import pathlib
import random
import re
import subprocess
import sys
import tempfile
from fractions import Fraction

import shape

root = pathlib.Path(__file__).resolve().parents[2]
desk = pathlib.Path(sys.argv[1]).resolve()
SIZES = {"SONET": (3, 12, 48, 192, 768), "SDH": (1, 4, 16, 64, 256)}
UNITS = dict(re.findall(r'^#define RINGKIT_(SONET|SDH)_UNIT "(.*)"$', (root / "include/ringkit.h").read_text(encoding="utf-8"), re.MULTILINE))
SCHEMA = json.loads((root / "docs/desk.schema.json").read_text(encoding="utf-8"))
# the module takes its time over circuits and links, which are all of one shape: it reads objects of at most so many
MOST_FOR_MODULE = 12
passed = 0
faults = []


def check(good, what):
    global passed
    if good:
        passed += 1
    else:
        faults.append(what)


def finish():
    for fault in faults:
        print(f"error: {fault}")
    print(f"{passed} passed, {len(faults)} failed")
    sys.exit(1 if faults else 0)


def said(*words, typed=b"", together=False):
    """What the desk writes, what it complains of, and its exit status."""
    done = subprocess.run([desk, *words], input=typed, stdout=subprocess.PIPE, stderr=subprocess.STDOUT if together else subprocess.PIPE, check=False)
    return done.stdout, done.stderr, done.returncode


# ---- one object


def pairs_once(pairs):
    names = [name for name, _ in pairs]
    if len(names) != len(set(names)):
        raise ValueError("a key stands twice")
    return dict(pairs)


def no_such_number(word):
    raise ValueError(f"{word} is no whole number")


def read(line):
    return json.loads(line, object_pairs_hook=pairs_once, parse_float=no_such_number, parse_constant=no_such_number)


def objects(written, what, count):
    """The objects of so many lines. With others, and with those of a wrong shape, nothing else can be compared, and the test ends."""
    try:
        lines = written.decode("ascii").splitlines(keepends=True)
        found = [read(line) for line in lines]
    except ValueError as fault:
        check(False, f"{what}: {fault}")
        finish()
    check(len(lines) == count and all(line.endswith("}\n") for line in lines), f"{what}: {len(lines)} lines, and not {count} that each end in LF")
    for one in found:
        fault = wrong_shape(one)
        check(fault is None, f"{what}: {fault}")
    return finish() if faults else found


def wrong_shape(found):
    """What the schema has against an object; None where it is nothing."""
    own = shape.fault(SCHEMA, found)
    if validator is None or len(found.get("circuits", ())) + len(found.get("links", ())) > MOST_FOR_MODULE:
        return own
    by_module = next(validator.iter_errors(found), None)
    return own if (own is None) == (by_module is None) else f"shape.py says {own}, and the module {by_module}"


def hold_name(one, name):
    """A name that is no UTF-8 has U+FFFD for each byte that is none, and its bytes besides."""
    text = name.decode("utf-8", "surrogateescape")
    shown = re.sub("[\udc80-\udcff]", "\ufffd", text)
    due = {"file": shown} if shown == text else {"file": shown, "file_hex": name.hex()}
    check({key: value for key, value in one.items() if key.startswith("file")} == due, f"{str(one)[:80]} is not of the file {name}")


def ask(command, names, typed=b"", words=()):
    """Asks for objects of files, holds them to the schema and to the names, and gives them with the exit status."""
    written, complained, status = said(command, "--json", *words, *names, typed=typed)
    what = f"{command} --json {b' '.join(names)[:60]}"
    check(complained == b"", f"{what}: it complains: {complained[:200]}")
    found = objects(written, what, max(len(names), 1))
    for name, one in zip(names or [b"-"], found):
        check(one["command"] == command, f"{what}: {str(one)[:80]} is of another command")
        hold_name(one, name)
    worst = max(("fine", "refused", "trouble").index(one["status"]) for one in found)
    check(status == worst, f"{what}: the exit status is {status}, and {worst} is the worst")
    return found, status


# ---- plans and turning, by the sheet


def lines_of(rows):
    return "".join("\t".join(map(str, row)) + "\n" for row in rows)


def mark_of(family):
    """What an R line says of it behind the fibres."""
    return ("M",) if family == "SDH" else ()


def sheet_of(one):
    """The sheet that says what the object of a plan does."""
    rows = [("R", one["offices"], one["fibres"], *mark_of(one["family"]))]
    rows += [("D", c["first"], c["second"], c["amount"], c["front_halves"], c["back_halves"], c["way"]) for c in one["circuits"]]
    rows += [("C", one["cut"]["g"], one["cut"]["h"], one["cut"]["across"])]
    rows += [("L", k["link"], k["split_halves"], k["unsplit"]) for k in one["links"]]
    return lines_of(rows + [("Z", one["peaks"]["unsplit"], one["size"] or 0)])


def ends_true(one, peak, across):
    """What both objects say of unit, floor and proof."""
    floor = (across + 1) // 2
    return one["unit"] == UNITS[one["family"]] and one["floor"] == floor and one["proved_best"] is (peak == floor)


def hold_plan(one, sheet, what):
    check(sheet_of(one) == sheet, f"plan of {what}: the object is not the sheet")
    check(one["peaks"]["split_halves"] == max(k["split_halves"] for k in one["links"]), f"plan of {what}: the split peak is not the largest split load")
    check(one["peaks"]["unsplit"] == max(k["unsplit"] for k in one["links"]), f"plan of {what}: the unsplit peak is not the largest unsplit load")
    check(ends_true(one, one["peaks"]["unsplit"], one["cut"]["across"]), f"plan of {what}: unit, floor or proof is false")


def goes_over(circuit, link):
    return (circuit["first"] <= link < circuit["second"]) == (circuit["way"] == "F")


def hold_turned(one, sheet, what):
    """What turning says of the table that the sheet is of."""
    rows = [line.split("\t") for line in sheet.splitlines()]
    ring, cut, last = rows[0], next(row for row in rows if row[0] == "C"), rows[-1]
    demands = [tuple(map(int, row[1:4])) for row in rows if row[0] == "D"]
    loads = [sum(c["amount"] for c in one["circuits"] if goes_over(c, link)) for link in range(1, int(ring[1]) + 1)]
    wanted = one["peak"] * (2 if one["fibres"] == 2 else 1)
    check(lines_of([("R", one["offices"], one["fibres"], *mark_of(one["family"]))]) == "\t".join(ring) + "\n", f"turning {what}: another ring")
    check([(c["first"], c["second"], c["amount"]) for c in one["circuits"]] == demands, f"turning {what}: other circuits")
    check([(k["link"], k["load"]) for k in one["links"]] == list(enumerate(loads, 1)), f"turning {what}: the loads are not those of the ways")
    check(one["peak"] == max(loads), f"turning {what}: the peak is not the largest load")
    check(one["size"] == next((size for size in SIZES[one["family"]] if size >= wanted), None), f"turning {what}: size {one['size']} for {wanted}")
    check((one["plan"]["peak"], one["plan"]["size"] or 0) == (int(last[1]), int(last[2])), f"turning {what}: the plan beside it is another")
    check(ends_true(one, one["peak"], int(cut[3])), f"turning {what}: unit, floor or proof is false")


def split_of(one):
    """What goes each way of each circuit, and the way of those that are not divided."""
    return [(c["front_halves"], c["back_halves"], c["way"] if 0 in (c["front_halves"], c["back_halves"]) else None) for c in one["circuits"]]


def crossing_of(plan):
    """What is due of a plan's circuits, in the order of their rows: the words of its kind, and the rest of the object."""
    there = [(place, c["first"], c["second"]) for place, c in enumerate(plan["circuits"], 1) if c["amount"] > 0]
    pair = next(((a, b) for k, (a, *one) in enumerate(there) for b, *two in there[k + 1:] if not one[0] < two[0] < one[1] < two[1]), None)
    if pair is not None:
        return {"kind": "parallel", "first_row": pair[0], "second_row": pair[1]}
    return {"kind": "too_many"} if len(there) > 16 else {"kind": "all_cross", "bound_halves": plan["cut"]["across"] + 2 * max((c["amount"] for c in plan["circuits"]), default=0)}


def hold_crossing(names, planned):
    """Whether circuits cross, by the circuits of the plan; the words say the same. Gives the kinds that are met."""
    for name, one, plan in zip(names, ask("crossing", names)[0], planned):
        due = crossing_of(plan)
        written = said("crossing", name)[0].decode("ascii")
        check({key: one.get(key) for key in due} == due, f"crossing {name}: {one}, and {due} is due")
        words = {"parallel": f": rows {one.get('first_row')} and {one.get('second_row')} have amounts and are parallel", "too_many": "but are more than 16", "all_cross": f"at most {in_units(one.get('bound_halves', 0))} units:"}
        check([kind for kind, some in words.items() if some in written] == [one["kind"]], f"crossing {name}: the words are {written}")
        yield one["kind"]


def in_units(halves):
    return f"{halves // 2}.{halves % 2 * 5}"


def hold_bounds(name, one, what):
    """The bounds stand where all circuits cross, and no peak is above the tighter one."""
    due = crossing_of(one)
    split = [c["amount"] for c in one["circuits"] if c["front_halves"] > 0 and c["back_halves"] > 0]
    bounds = {"bound_halves": due.get("bound_halves"), "rule_d_bound_halves": one["cut"]["across"] + 3 * max(split, default=0)}
    check(one.get("all_cross") == (bounds if due["kind"] == "all_cross" else None), f"{what}: the bounds are {one.get('all_cross')}")
    check("all_cross" not in one or 2 * one["peaks"]["unsplit"] <= bounds["bound_halves"] <= bounds["rule_d_bound_halves"], f"{what}: a peak is above its bound")
    words = said("plan", "--best", *(["--lowered"] if "lowered_rooms" in one else []), name)[0].decode("ascii")
    tells = f"so this peak is at most {in_units(bounds['bound_halves'] or 0)}: " in words and f"The bound of rule D is {in_units(bounds['rule_d_bound_halves'])}." in words
    check(tells == ("all_cross" in one), f"{what}: the bounds are not told as in the object")


def hold_best(names, planned, words=()):
    """By the best choice: the object is that of its sheet, has the key that says so, and differs from the plan's, with the same words, in nothing that is not sent whole; its peak is never above the plan's. A refusal is 23, on
    no line. Gives how many peaks were lower, and how many were refused."""
    lower = refused = 0
    for name, one, plan in zip(names, ask("plan", names, words=[*words, "--best"])[0], planned):
        what = f"{os.path.basename(name).decode('ascii')} by the best choice {' '.join(words)}"
        sheet, complained, _ = said("plan", "--best", *words, "--sheet", name)
        if one["status"] == "refused":
            check((one["reason"], one["line"], one["byte"]) == (23, None, None), f"{what}: it is refused for another reason")
            check(one["sentence"] in complained.decode("ascii"), f"{what}: it is not told as in words")
            check(sum(c["front_halves"] > 0 and c["back_halves"] > 0 for c in plan["circuits"]) > 16, f"{what}: it has at most 16 divided circuits")
            refused += 1
            continue
        check(one["best_choice"] is True and "best_choice" not in plan and ("lowered_rooms" in one) == bool(words), f"{what}: the keys do not tell it")
        hold_plan(one, sheet.decode("ascii"), what)
        check(split_of(one) == split_of(plan), f"{what}: another split plan, or a circuit that is not divided goes otherwise")
        check(one["cut"] == plan["cut"] and one["peaks"]["unsplit"] <= plan["peaks"]["unsplit"], f"{what}: another cut, or a higher peak")
        hold_bounds(name, one, what)
        lower += one["peaks"]["unsplit"] < plan["peaks"]["unsplit"]
    return lower, refused


def hold_lowered(names, planned):
    """By lowered rooms: the object is that of its sheet, has the key that says so, and the cut and the split peak of the plan; no link is lighter by the plan where none is heavier. Gives the objects, and how many have a
    lighter link."""
    found = ask("plan", names, words=["--lowered"])[0]
    lighter = 0
    for name, one, plan in zip(names, found, planned):
        what = f"{os.path.basename(name).decode('ascii')} by lowered rooms"
        check(one["lowered_rooms"] is True and not {"lowered_rooms", "best_choice"} & set(plan), f"{what}: the key does not tell it")
        hold_plan(one, said("plan", "--lowered", "--sheet", name)[0].decode("ascii"), what)
        check(one["cut"] == plan["cut"] and one["peaks"]["split_halves"] == plan["peaks"]["split_halves"], f"{what}: another cut or split peak")
        loads, full = ([k["split_halves"] for k in links["links"]] for links in (one, plan))
        check(loads == full or any(a < b for a, b in zip(loads, full)), f"{what}: no link is lighter than by level rooms, and one is heavier")
        lighter += any(a < b for a, b in zip(loads, full))
    return found, lighter


RULES = "one_turn_at_a_time", "best_choice", "best_choice_lowered_rooms", "rule_d", "rule_d_lowered_rooms"


def rules_of(turn, *plans):
    """What the rules come to, as the objects of turning and of plans by the other rules have it, in their order."""
    found = [(turn["peak"], turn["size"])] + [(plan["peaks"]["unsplit"], plan["size"]) if plan["status"] == "fine" else (None, None) for plan in plans]
    return [{"rule": rule, "peak": peak, "size": size} for rule, (peak, size) in zip(RULES, found)]


def hold_least(names, planned, turned):
    """The least is that of the rules, each as its own command has it, the first of several; its circuits and loads are those of the command by that rule. Beside a plan, whichever rule that is made by, it is the same, and the
    rest of the object is the plan's. Gives the rules that were the least."""
    by_words = {words: ask("plan", names, words=words)[0] for words in (("--best",), ("--lowered", "--best"), ("--lowered",))}
    for name, one, turn, *plans in zip(names, ask("least", names)[0], turned, by_words["--best",], by_words["--lowered", "--best"], planned, by_words["--lowered",]):
        what, least, plan = f"the least of {os.path.basename(name).decode('ascii')}", one["least"], plans[2]
        rules = rules_of(turn, *plans)
        first = min((rule for rule in rules if rule["peak"] is not None), key=lambda rule: rule["peak"])
        whole = [turn, *plans][rules.index(first)]
        check(least["rules"] == rules and {key: least[key] for key in first} == first, f"{what}: another rule, or another peak or size of one")
        check([c["way"] for c in one["circuits"]] == [c["way"] for c in whole["circuits"]], f"{what}: the ways are another's")
        check([k["load"] for k in one["links"]] == [k.get("load", k.get("unsplit")) for k in whole["links"]], f"{what}: the loads are another's")
        check(all(least[key] == turn[key] for key in ("floor",)) and least["proved_best"] is (least["peak"] == least["floor"]), f"{what}: floor or proof is false")
        check(least["saves_size"] is (least["size"] != plan["size"]), f"{what}: it saves a size, or does not")
        bound = crossing_of(plan).get("bound_halves")
        check(least.get("bound_halves") == bound and (bound is None or 2 * least["peak"] <= bound), f"{what}: the bound is {least.get('bound_halves')}")
        check((f"so the least peak is at most {in_units(bound or 0)}: " in said("least", name)[0].decode("ascii")) == (bound is not None), f"{what}: the bound is not told as in the object")
        check(all(one[key] == plan[key] for key in ("offices", "fibres", "family", "unit")), f"{what}: another ring")
        yield first["rule"], least["saves_size"], least["proved_best"]
    for words, plans in {(): planned, **by_words}.items():
        for name, one, plan in zip(names, ask("plan", names, words=[*words, "--least"])[0], plans):
            what, least = f"the least beside a plan of {os.path.basename(name).decode('ascii')} {' '.join(words)}", one.pop("least", None)
            check(one == plan and (least is None) == (plan["status"] != "fine"), f"{what}: the rest is not the plan's")
            check(least is None or least["saves_size"] is (least["size"] != plan["size"]), f"{what}: it saves a size, or does not")


def hold(names):
    """Holds both objects of each table to its sheet, and gives them."""
    (planned, status), (turned, other) = ask("plan", names), ask("turn", names)
    check(status == other == 0, "a table is not planned and turned")
    for name, plan, turn in zip(names, planned, turned):
        sheet = said("plan", "--sheet", name)[0].decode("ascii")
        what = os.path.basename(name).decode("ascii")
        hold_plan(plan, sheet, what)
        hold_turned(turn, sheet, what)
    return planned, turned


COUNTS = (0, 1, 2, 3, 5, 8, 13, 40, 100, 257)
MOST = (1, 3, 9, 100, 9999)


def made(folder):
    """Tables of 2 to 64 offices and 0 to 1,024 circuits, on both kinds of ring; each ring size has at least two."""
    draw = random.Random(8)
    names = []
    for k in range(126):
        offices, count, most = 2 + k % 63, 1024 if k % 31 == 0 else draw.choice(COUNTS), MOST[k % len(MOST)]
        rows = sorted((sorted(draw.sample(range(1, offices + 1), 2)) for _ in range(count)))
        names.append(os.path.join(folder, b"made-%d.table" % k))
        pathlib.Path(os.fsdecode(names[-1])).write_text(lines_of([("R", offices, draw.choice((2, 4)), *draw.choice(((), ("M",))))] + [("D", *row, draw.randint(0, most)) for row in rows]), encoding="ascii")
    return names


# offices, circuits, and how many amounts they have: of those that are equal rule D is the least
CROSSING = [(34, 17, 4), (64, 32, 4), (33, 16, 4), (38, 19, 1)]


def crossing(folder):
    """Tables of circuits that all cross each other, more than may be chosen for and as many as that."""
    for offices, count, kinds in CROSSING:
        name = os.path.join(folder, b"crossing-%d.table" % count)
        pathlib.Path(os.fsdecode(name)).write_text(lines_of([("R", offices, 4), *(("D", k, k + offices // 2, 3 + k % kinds) for k in range(1, count + 1))]), encoding="ascii")
        yield name


def covered(planned, turned):
    """All that an object may say of a plan is said of one of these."""
    for one in (planned, turned):
        check({o["size"] for o in one} == {*SIZES["SONET"], *SIZES["SDH"], None}, "not each size is met")
        check({o["proved_best"] for o in one} == {True, False}, "not both answers of proof are met")
        check({c["way"] for o in one for c in o["circuits"]} == {"F", "B"}, "not both ways are met")
        check({o["offices"] for o in one} == set(range(2, 65)) and {o["fibres"] for o in one} == {2, 4}, "not each ring is met")
        check({0, 1024} <= {len(o["circuits"]) for o in one}, "no table, or no full one")
    check(any(c["front_halves"] % 2 for o in planned for c in o["circuits"]), "no half is met")


# ---- stored cases


def stored_cases(calls):
    """What is due, by the words of the line, and the text."""
    rest = (root / f"tests/cases/{calls}.calls").read_bytes()
    while rest:
        head, rest = rest.split(b"\n", 1)
        length, *due = head.decode("ascii").split(" ")[1:]
        yield due, rest[: int(length)]
        rest = rest[int(length) :]


def figures_of(one):
    """The three numbers of the answer that the object says."""
    if one["command"] == "turn":
        return [one[key] for key in ("peak", "avoided_link", "turns")]
    return [one["least"]["peak"], one["least"]["floor"], 1 + RULES.index(one["least"]["rule"])]


def answer_of(one):
    """The words that the object makes."""
    if one["status"] == "refused":
        return [str(one["reason"]), str(one["line"] or 0), str(one["byte"] or 0), "0", "0", "0", "0", "-"]
    ways = "".join(c["way"] for c in one["circuits"])
    return ["0", "0", "0", *map(str, figures_of(one)), str(len(ways)), ways or "-"]


def crossing_answer_of(one):
    """The words that the object of whether circuits cross makes; the peaks behind them are of other calls."""
    if one["status"] == "refused":
        return [str(one["reason"]), str(one["line"] or 0), str(one["byte"] or 0), "0", "0", "0", "0"]
    return ["0", "0", "0", str(1 + ("all_cross", "parallel", "too_many").index(one["kind"])), *(str(one.get(key, 0)) for key in ("bound_halves", "first_row", "second_row"))]


def hold_stored(folder, command, calls, answer, words):
    """So many first words of what is stored are those of the object."""
    cases = list(stored_cases(calls))
    names = [os.path.join(folder, b"stored-%d" % k) for k in range(len(cases))]
    for name, (_, text) in zip(names, cases):
        pathlib.Path(os.fsdecode(name)).write_bytes(text)
    for name, (due, _), one in zip(names, cases, ask(command, names)[0]):
        check(answer(one) == due[:words], f"{command} {name}: {answer(one)}, and stored is {due}")


# ---- refusals


def t(*lines):
    return "".join(line.replace("|", "\t") + "\n" for line in lines).encode("ascii")


SQUARE = (root / "examples/square.sheet").read_bytes()
BOUND = t("R|8|4", *(f"D|{k}|{k + 4}|1|1|1|F" for k in range(1, 5)), "C|4|8|4", *(f"L|{k}|4|{min(k, 8 - k)}" for k in range(1, 9)), "Z|4|12")
OF_BOTH = [
    (b"y\n" * 20000, 1, None, None),
    (b"", 2, 1, 1),
    (t("R|4|4", "D|1|3 |1"), 2, 2, 6),
    (b"\x00\xff\n", 2, 1, 1),
    (t("R|65|4"), 3, 1, 3),
    (t("R|4|3"), 20, 1, 5),
]
OF_TABLES = OF_BOTH + [
    (t("R|4|4", "D|1|5|1"), 4, 2, 5),
    (t("R|4|4", "D|2|2|1"), 5, 2, 1),
    (t("R|4|4", "D|1|3|1", "D|1|2|1"), 6, 3, 1),
    (t("R|4|4", "D|1|2|10000"), 7, 2, 7),
    (t("R|4|4", *["D|1|2|1"] * 1025), 16, 1026, 1),
]
OF_SHEETS = OF_BOTH + [
    (SQUARE.replace(t("D|1|3|1|1|1|F"), t("D|1|5|1|1|1|F")), 4, 2, 5),
    (SQUARE.replace(t("D|1|3|1|1|1|F"), t("D|3|1|1|1|1|F")), 5, 2, 1),
    (SQUARE.replace(t("D|2|4|1|1|1|B"), t("D|1|2|1|1|1|B")), 6, 3, 1),
    (SQUARE.replace(t("D|1|3|1|1|1|F"), t("D|1|3|10000|1|1|F")), 7, 2, 7),
    (t("R|4|4", *["D|1|2|1|2|0|F"] * 1025), 16, 1026, 1),
    (SQUARE.replace(t("D|1|3|1|1|1|F"), t("D|1|3|1|1|2|F")), 8, 2, 1),
    (SQUARE.replace(t("D|1|3|1|1|1|F"), t("D|1|3|1|2|0|B")), 9, 2, 1),
    (SQUARE.replace(t("C|1|3|2"), t("C|1|3|3")), 10, 4, 1),
    (SQUARE.replace(t("L|3|2|0"), t("L|3|2|1")), 11, 7, 1),
    (SQUARE.replace(t("Z|2|3"), t("Z|2|12")), 12, 9, 1),
    ((root / "examples/not-best.sheet").read_bytes(), 13, None, None),
    (BOUND, 14, None, None),
]


def hold_refused(folder):
    """Each reason that a command can give, in the object and in words."""
    for command, texts in (("plan", OF_TABLES), ("turn", OF_TABLES), ("crossing", OF_TABLES), ("least", OF_TABLES), ("check", OF_SHEETS)):
        names = [os.path.join(folder, b"refused-%s-%d" % (command.encode("ascii"), k)) for k in range(len(texts))]
        for name, (text, *due) in zip(names, texts):
            pathlib.Path(os.fsdecode(name)).write_bytes(text)
            for one in ask(command, [name])[0]:
                found = [one.get(key) for key in ("reason", "line", "byte")]
                place = f"line {due[1]}, byte {due[2]}: " if due[1] else ""
                words = said(command, name)[1].decode("ascii").split("\n")[0]
                check(one["status"] == "refused" and found == due, f"{command} {name}: {found}, and {due} is due")
                check(words == f"{os.fsdecode(name)}: {place}{one.get('sentence')} (reason {due[0]})", f"{command} {name}: the words are {words}")
        check({due[0] for _, *due in texts} == {*range(1, 8), 16, 20, *(range(8, 15) if command == "check" else [])}, f"{command}: not each reason is met")
        found, status = ask(command, names)
        if command == "plan":
            for words in (["--best"], ["--lowered"], ["--best", "--lowered"], ["--least"]):
                check(ask(command, names, words=words) == (found, status), f"plan {' '.join(words)}: what is no table is refused otherwise")
        check(status == 1 and [one.get("reason") for one in found] == [due[0] for _, *due in texts], f"{command}: refused one after the other they are others")


# ---- reports


def plans_of(text):
    """The text parted before each line that starts with R."""
    return [plan for plan in re.split(rb"(?<=\n)(?=R)", text) if plan]


def totals_of(text, folder):
    """What a report should say, by asking the desk about each plan alone."""
    plans = plans_of(text)
    names = [os.path.join(folder, b"plan-%d" % k) for k in range(len(plans))]
    for name, plan in zip(names, plans):
        pathlib.Path(os.fsdecode(name)).write_bytes(plan)
    accepted = [plan for plan, one in zip(plans, ask("check", names)[0] if plans else []) if one["accepted"]]
    of = {family: sums_of([plan for plan in accepted if plan.splitlines()[0].endswith(b"M") == (family == "SDH")]) for family in UNITS}
    return of, len(plans) - len(accepted)


def sums_of(accepted):
    """How many there are, the sum of their peaks, and the worst ratio or None."""
    figures = [[int(re.search(mark, plan, re.M)[1]) for mark in (rb"^Z\t(\d+)", rb"^C\t\d+\t\d+\t(\d+)")] for plan in accepted]
    entering = [(2 * peak, across) for peak, across in figures if across]
    return len(accepted), sum(peak for peak, _ in figures), max(entering, key=lambda ratio: Fraction(*ratio), default=None)


def texts_of_plans():
    """The examples one behind the other, in any order, damaged and with other things between them."""
    sheets = [path.read_bytes() for path in sorted(root.glob("examples/*.sheet"))]
    smallest = t("R|2|4", "C|1|2|0", "L|1|0|0", "L|2|0|0", "Z|0|3")
    of_sdh = t("R|2|4|M", "C|1|2|0", "L|1|0|0", "L|2|0|0", "Z|0|1")
    yield from (b"", b"R", b"\n", b"R\rR\r\n", SQUARE, SQUARE[6:] + SQUARE, SQUARE.replace(b"\n", b"\r\n"), smallest * 3, smallest + b"R", of_sdh, of_sdh + b"R")
    draw = random.Random(12)
    for _ in range(40):
        text = b"".join(draw.choice(sheets) for _ in range(draw.randint(1, 9)))
        at = draw.randrange(len(text))
        yield draw.choice((text, text[:at] + draw.choice((b"R", b"\nR", b"1", b"\r", b"")) + text[at + 1:]))


def hold_reports(folder):
    """The object has the numbers of the lines, and these are what the plans give one by one."""
    name = os.path.join(folder, b"many.plans")
    met = set()
    for text in texts_of_plans():
        pathlib.Path(os.fsdecode(name)).write_bytes(text)
        one = ask("report", [name])[0][0]
        of, refused = totals_of(text, folder)
        found = {sums["family"]: (sums["accepted_plans"], sums["sum_of_peaks"], sums["worst"] and (sums["worst"]["twice_peak"], sums["worst"]["across"])) for sums in one["families"]}
        check(list(found) == list(UNITS) and found == of and one["refused_plans"] == refused, f"report {text[:60]}: {one}")
        check(all(sums["unit"] == UNITS[sums["family"]] for sums in one["families"]), "report: another unit")
        lines = lines_of([("T", accepted, peaks, *(worst or (0, 0))) for accepted, peaks, worst in of.values()] + [("X", refused)])
        check(said("report", "--text", name) == (lines.encode("ascii"), b"", 0), f"report --text {text[:60]}: it is not {lines}")
        met.add((of["SONET"][0] > 0, of["SDH"][0] > 0, refused > 0))
    check(len(met) == 8, f"reports: only {met} are met")
    pathlib.Path(os.fsdecode(name)).write_bytes(b"R\n" * 32768 + b"R")
    found, status = ask("report", [name])
    check(status == 1 and [found[0].get(key) for key in ("reason", "line", "byte")] == [24, None, None], f"report of too long a text: {found}")
    check(found[0]["sentence"] in said("report", name)[1].decode("ascii"), "report of too long a text: it is not told as in words")


# ---- names


ODD = [
    b'"', b"\\", b"\\xff", b"\\u0041", b"a\nb", b"a\rb", b"\t \x01\x1b[2J\x7f", b"'", b"</script>", b"standard input", b"==> x <==",
    "caf\u00e9".encode(), "\u0080\u009b\u2028\u2029\ufeff".encode(), "\ud7ff\ue000\ufffd\uffff".encode(), "\U00010000\U0001f600\U0010ffff".encode(),
    b"\xff", b"\x80", b"a\xc3", b"\xc3(", b"\xe2\x82", b"\xe2(\xa1", b"\xf0\x9f\x98", b"\xc0\xaf", b"\xc1\xbf", b"\xe0\x9f\xbf", b"\xf0\x8f\xbf\xbf", b"\xed\xa0\x80", b"\xed\xbf\xbf", b"\xf4\x90\x80\x80",
    b"\xf5\x80\x80\x80", b"\xf8\x88\x80\x80\x80", b"caf\xc3\xa9\xe9", b"\xef\xbf\xbd\xff",
]


def hold_names(folder):
    table, sheet = (root / "examples/square.table").read_bytes(), SQUARE
    home = os.path.join(folder, b"names")
    os.mkdir(home)
    # a name has no slash and no NUL in it
    names = [os.path.join(home, name.replace(b"/", b"|")) for name in ODD] + [os.path.join(home, bytes([byte])) for byte in range(1, 256) if byte not in b"/."]
    for command, text in (("plan", table), ("least", table), ("turn", table), ("check", sheet), ("report", sheet)):
        for name in names:
            pathlib.Path(os.fsdecode(name)).write_bytes(text)
        found, status = ask(command, names)
        check(status == 0 and len(found) == len(names), f"{command}: not each odd name is read")
    missing = [name + b".missing" for name in names]
    found, status = ask("check", missing)
    check(status == 2 and {one.get("message") for one in found} == {"No such file or directory"}, f"trouble of missing files: {found[:1]}")


# ---- several files


def together(command, names, typed=b""):
    """What the desk should say of several files, complaints in their place: of each what it says of that file alone, below its heading."""
    parts, worst = [], 0
    for name in names:
        written, _, status = said(command, name, typed=typed, together=True)
        parts.append(b"==> %s <==\n%s" % (b"standard input" if name == b"-" else name, written))
        worst = max(worst, status)
    return b"\n".join(parts), worst


def hold_several(folder):
    table, sheet = b"examples/square.table", b"examples/square.sheet"
    refused, missing, other = os.path.join(folder, b"refused-plan-2"), os.path.join(folder, b"missing"), b"examples/five-offices.table"
    for command, good, also, piped in (("plan", table, other, table), ("turn", table, other, table), ("crossing", table, other, table), ("least", table, other, table), ("check", sheet, b"examples/circuits.sheet", sheet), ("report", b"examples/region.plans", sheet, b"examples/region.plans")):
        typed = (root / os.fsdecode(piped)).read_bytes()
        for names in ([good, also], [good, refused, also], [missing, good], [refused, missing, good], [good, b"-", also], [b"-", refused], [b"examples", good, good]):
            written, _, status = said(command, *names, typed=typed, together=True)
            check((written, status) == together(command, names, typed), f"{command} {names}: together they are not what each is alone")
            check(status == ask(command, names, typed)[1], f"{command} {names}: another exit status with --json")
        check(said(command, good) == said(command, typed=typed) or command in ("crossing", "check", "report"), f"{command}: a file and standard input differ")
        check(b"==>" not in said(command, good)[0] + said(command, typed=typed)[0], f"{command}: a heading of one file")
        one = ask(command, [], typed)
        check(one == ask(command, [b"-"], typed) and one[1] == 0, f"{command}: no name and - differ")
        for words in (["-", "-"], ["--json", "-", table, "-"], ["--json", "--sheet"], ["--json", "--text"], ["--json=1"]):
            written, complained, status = said(command, *words)
            check(written == b"" and complained.startswith(b"usage: ") and status == 2, f"{command} {words}: these words make no order")
    check(said("plan", "--json", table, b"--json")[2] == 0, "an option said twice is one")


# ---- the schema itself


def may_lack(found, key):
    """Bytes of a name are there where it needs them, and the bound of the least where all circuits cross."""
    return key == "file_hex" or (key == "bound_halves" and "rules" in found)


def damaged(found):
    """The values that differ from one at one place: of each object a key less, a key more, and of each other value one that cannot stand there."""
    if isinstance(found, dict):
        yield {**found, "strange": 1}
        for key, value in found.items():
            if not may_lack(found, key):
                yield {name: other for name, other in found.items() if name != key}
            for changed in damaged(value):
                yield {**found, key: changed}
    elif isinstance(found, list):
        yield "x"
        for changed in damaged(found[0]) if found else []:
            yield [changed, *found[1:]]
    else:
        yield from (["x"], -1, 0.5)
        if not isinstance(found, bool):
            yield True
        if not isinstance(found, str):
            yield "x"


def hold_schema(folder):
    """The schema takes no object that is damaged."""
    kinds = str(root / "examples/five-offices.table"), "crossing-17.table"
    texts = ("plan", "refused-plan-2", "missing"), ("turn", "refused-turn-2", "missing\udcff"), ("crossing", "refused-crossing-2", "missing", *kinds), ("least", "refused-least-2", "missing"), ("check", "refused-check-5", "missing"), ("report", "many.plans", "missing")
    for command, *rest in texts:
        names = [{"check": b"examples/square.sheet", "report": b"examples/region.plans"}.get(command, b"examples/square.table"), *(os.path.join(folder, os.fsencode(name)) for name in rest)]
        for one in ask(command, names)[0]:
            for changed in damaged(one):
                fault = wrong_shape(changed)
                check(fault is not None and not fault.startswith("shape.py says"), f"the schema takes {str(changed)[:200]}: {fault}")


try:
    import jsonschema
except ImportError:
    validator = None
    print("shape by shape.py alone: there is no module jsonschema")
else:
    jsonschema.Draft202012Validator.check_schema(SCHEMA)
    validator = jsonschema.Draft202012Validator(SCHEMA)
    print("shape by shape.py and by the module jsonschema")
os.chdir(root)
with tempfile.TemporaryDirectory() as scratch:
    here = os.fsencode(scratch)
    examples = [os.fsencode(path) for path in sorted(pathlib.Path("examples").glob("*.table"))]
    tables = [*made(here), *crossing(here)]
    of_examples, of_made = hold(examples), hold(tables)
    covered(*(a + b for a, b in zip(of_examples, of_made)))
    lower, refused = map(sum, zip(hold_best(examples, of_examples[0]), hold_best(tables, of_made[0])))
    check(lower > 0 and refused >= 2, "no peak of the best choice is lower, or no table is refused for it")
    kinds = {*hold_crossing(examples, of_examples[0]), *hold_crossing(tables, of_made[0])}
    check(kinds == {"all_cross", "parallel", "too_many"}, f"whether circuits cross: only {kinds} are met")
    lowered, lighter = hold_lowered(examples + tables, of_examples[0] + of_made[0])
    lower, refused = hold_best(examples + tables, lowered, ["--lowered"])
    check(lighter > 0 and lower > 0 and refused >= 2, "by lowered rooms no link is lighter, no peak of the best choice lower, or no table is refused for it")
    leasts = [*hold_least(examples, *of_examples), *hold_least(tables, *of_made)]
    check({"one_turn_at_a_time", "rule_d"} <= {rule for rule, _, _ in leasts}, f"no rule but {sorted({rule for rule, _, _ in leasts})} is the least")
    check({saves for _, saves, _ in leasts} == {proved for _, _, proved in leasts} == {True, False}, "no line size is saved, or no peak is proved the best, or each is")
    hold_stored(here, "turn", "turning", answer_of, 8)
    hold_stored(here, "crossing", "crossing", crossing_answer_of, 7)
    hold_stored(here, "least", "least", answer_of, 8)
    hold_refused(here)
    hold_reports(here)
    hold_names(here)
    hold_several(here)
    hold_schema(here)
    sheets = [os.fsencode(path) for path in sorted(pathlib.Path("examples").glob("*.sheet"))]
    check([one.get("accepted") for one in ask("check", sheets)[0]] == [b"not-best" not in name for name in sheets], "not the sheets of examples are accepted that should be")
finish()
