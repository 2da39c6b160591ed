#!/usr/bin/env python3
"""Holds the pictures of the desk that is named, `pictures.py DESK`, to the plans that they are drawn of: of all examples and of tables made here, as planned, with --turn, --best and --lowered, and of their
sheets, ours and ones whose split circuits another tool sent otherwise. Each picture is well-formed XML and calls for nothing outside of itself; each number that it shows is that of the
sheet, or of the ways that `desk turn` tells; its lines lead where they should; no two texts overlap, in letters as wide as they are in any usual font, and none leaves the paper. The last line is 'N passed, M
failed'."""
import concurrent.futures
import itertools
import math
import os
import pathlib
import random
import re
import subprocess
import sys
import xml.etree.ElementTree

root = pathlib.Path(__file__).resolve().parents[2]
SVG = "{http://www.w3.org/2000/svg}"
# by what an R line says behind the fibres
SIZES = {(): (3, 12, 48, 192, 768), ("M",): (1, 4, 16, 64, 256)}
UNITS = {(): "STS-1", ("M",): "STM-1"}
FIGURES = ("Offices", "Fibres", "Circuits", "Split peak", "Unsplit peak", "Floor", "Line size")
LARGEST = 10


def desk(text, *words):
    """What the desk writes of a text on standard input; it has to be accepted."""
    done = subprocess.run([sys.argv[1], *words], input=text, stdout=subprocess.PIPE, stderr=subprocess.PIPE, check=False)
    if done.returncode != 0:
        raise ValueError(f"desk {' '.join(words)} ends with status {done.returncode}: {done.stderr.decode()}")
    return done.stdout


# ---- what is due


class Due:
    """The figures of a sheet; with the ways that whole circuits are sent, those of the ways take the place of the sheet's own."""

    def __init__(self, sheet, ways=None):
        lines = [line.split("\t") for line in sheet.decode().splitlines()]
        rows = {letter: [fields[1:] for fields in lines if fields[0] == letter] for letter in "RDCLZ"}
        self.offices, self.fibres = map(int, rows["R"][0][:2])
        self.mark = tuple(rows["R"][0][2:])
        self.circuits = [(*map(int, row[:5]), row[5]) for row in rows["D"]]
        self.g, self.h, self.across = map(int, rows["C"][0])
        self.split = [int(row[1]) for row in rows["L"]]
        self.unsplit = [int(row[2]) for row in rows["L"]]
        self.peak, self.size = map(int, rows["Z"][0])
        if ways is not None:
            self.send(ways)

    def send(self, ways):
        self.circuits = [(*circuit[:5], way) for circuit, way in zip(self.circuits, ways, strict=True)]
        self.unsplit = [sum(c[2] for c in self.circuits if (c[0] <= link < c[1]) == (c[5] == "F")) for link in self.links()]
        self.peak = max(self.unsplit)
        self.size = next((size for size in SIZES[self.mark] if size >= self.peak * 4 // self.fibres), 0)

    def links(self):
        return range(1, self.offices + 1)

    def floor(self):
        return (self.across + 1) // 2

    def carried(self):
        """In halves."""
        return self.size * self.fibres // 2 if self.size else 2 * self.peak

    def largest(self):
        """The places of the circuits that are drawn, from 1."""
        there = [place for place, circuit in enumerate(self.circuits, 1) if circuit[2] > 0]
        return sorted(there, key=lambda place: -self.circuits[place - 1][2])[:LARGEST]

    def after(self, link):
        return link % self.offices + 1

    def write(self):
        """As a sheet."""
        lines = [["R", self.offices, self.fibres, *self.mark], *(["D", *circuit] for circuit in self.circuits), ["C", self.g, self.h, self.across]]
        lines += [["L", link, self.split[link - 1], self.unsplit[link - 1]] for link in self.links()]
        return "".join("\t".join(map(str, line)) + "\n" for line in [*lines, ["Z", self.peak, self.size]]).encode()


def units(halves):
    return f"{halves // 2}.{halves % 2 * 5}"


def is_split(circuit):
    return circuit[3] > 0 and circuit[4] > 0


# ---- what is drawn


def texts(element):
    return ["".join(text.itertext()) for text in element.iter(SVG + "text")]


def groups(picture, name):
    """The groups of that name, by its value."""
    found = [group for group in picture.iter(SVG + "g") if f"data-{name}" in group.keys()]
    return {group.get(f"data-{name}"): group for group in found}


def says(picture, *words):
    """Whether one of the texts is just that."""
    return " ".join(map(str, words)) in texts(picture)


def closed(picture, written):
    """Nothing but shapes and words, nothing of elsewhere, and a name and a description for who hears it."""
    known = {"svg", "style", "title", "desc", "g", "rect", "circle", "line", "path", "text"}
    for element in picture.iter():
        if element.tag.removeprefix(SVG) not in known:
            yield f"there is an element {element.tag}"
        for name, value in element.items():
            if "href" in name or name.startswith(("on", "style", "{")) or re.search(r"url|:|&", value):
                yield f"there is an attribute {name}={value!r}"
    if [style.text for style in picture.iter(SVG + "style")] != ["@page { size: A4 landscape; margin: 6mm }"]:
        yield "it is not printed on a page that lies"
    if written.count(b"http") != 1 or b"<!" in written or b"<?" in written:
        yield "there is a name of elsewhere"
    named = {element.get("id"): "".join(element.itertext()).strip() for element in picture if element.tag in (SVG + "title", SVG + "desc")}
    if picture.get("role") != "img" or picture.get("aria-labelledby") != "title desc" or not all(named.get(name) for name in ("title", "desc")):
        yield "it has no name or no description"


# by the words behind the command
HOW = {
    (): "each circuit whole",
    ("--turn",): "sent one turn at a time",
    ("--best",): "by the best choice",
    ("--lowered",): "each circuit whole",
    ("--lowered", "--best"): "by the best choice",
}


def heading(picture, due, words):
    """The figures of the heading, and the words that say them again."""
    line = str(due.size) if due.size else "none"
    wanted = [str(due.offices), str(due.fibres), str(len(due.circuits)), units(due.across), str(due.peak), str(due.floor()), line]
    found = groups(picture, "figure")
    for name, figure in zip(FIGURES, wanted, strict=True):
        if name not in found or texts(found[name])[:2] != [name, figure]:
            yield f"{name} is not {figure}"
    if f"the split plan divides {sum(map(is_split, due.circuits))}" not in texts(found["Circuits"]) and due.circuits:
        yield "the circuits that are split are counted wrongly"
    above = "reached: no peak is lower" if due.peak == due.floor() else f"the peak is {due.peak - due.floor()} above it"
    if texts(found["Floor"])[2:] != [above]:
        yield "the floor is not told from the peak"
    filled = f"{100 * 2 * due.peak // due.carried()} % full at the peak" if due.size else "no line is large enough"
    if texts(found["Line size"])[2:] != [filled]:
        yield "the line is not told how full it is"
    if texts(found["Unsplit peak"])[2:] != [HOW[words]]:
        yield "it is not told how circuits are sent"
    if texts(found["Split peak"])[2:] != ["lowest, by lowered rooms" if "--lowered" in words else "the lowest there is"]:
        yield "it is not told by what rooms circuits are divided"


def in_words(picture, due):
    """The sentences on the cut and on the line, and the description."""
    plural = "" if len(due.circuits) == 1 else "s"
    ring = f"{'SDH ring' if due.mark else 'Ring'} of {due.offices} offices and {due.fibres} fibres, {len(due.circuits)} circuit{plural}"
    part = f"offices {due.g + 1} to {due.h}" if due.g + 1 < due.h else f"office {due.h}"
    cut = f"Cut: links {due.g} and {due.h}, across {due.across}. They part {part} from the rest of the ring."
    end = f"A line of {due.size} carries {due.size}, where the bars end."
    if due.size == 0:
        end = f"No line is large enough. The bars end at the unsplit peak, {due.peak}."
    elif due.fibres == 2:
        end = f"A line of {due.size} carries {units(due.size)}, where the bars end: half of it protects."
    for sentence in (ring, cut, end, f"floor {due.floor()}", f"The load of each link, in {UNITS[due.mark]}"):
        if not says(picture, sentence):
            yield f"it does not say {sentence!r}"
    told = "".join(picture.find(SVG + "desc").itertext())
    line = f"line size {due.size}. " if due.size else "and no line is large enough. "
    wanted = f"unsplit peak {due.peak}, floor {due.floor()}, {line}With circuits divided the peak is {units(due.across)}. The cut of links {due.g} and {due.h}, across {due.across}, parts {part} from"
    if picture.find(SVG + "title").text != ring or wanted not in told or not told.endswith(f" are in {UNITS[due.mark]}."):
        yield f"the description does not say {wanted!r}"


def bars(picture, due):
    """A row for each link, with its figures and two bars as long as they are, and the lines where they should be."""
    found = groups(picture, "link")
    if list(found) != [str(link) for link in due.links()]:
        yield "there is not a row for each link"
        return
    ends = []
    for link, row in zip(due.links(), found.values(), strict=True):
        split, unsplit = due.split[link - 1], due.unsplit[link - 1]
        if texts(row) != [str(link), f"{link} - {due.after(link)}", units(split), str(unsplit)] or (row.get("data-split"), row.get("data-unsplit")) != (units(split), str(unsplit)):
            yield f"the row of link {link} says {texts(row)}"
        for rectangle, load in zip(row.findall(SVG + "rect"), (split, 2 * unsplit), strict=True):
            left, width = float(rectangle.get("x")), float(rectangle.get("width"))
            ends.append((left, width, load))
        if len(row.findall(SVG + "line")) != (link in (due.g, due.h)):
            yield f"the row of link {link} is marked as the cut's, or is not"
    left = ends[0][0]
    full = max(float(line.get("x1")) for line in picture.iter(SVG + "line") if line.get("x1") == line.get("x2")) - left
    for start, width, load in ends:
        if start != left or abs(width - full * load / due.carried()) > 0.11:
            yield f"a bar of {load} halves is {width} long"
    at = [float(line.get("x1")) - left for line in picture.iter(SVG + "line") if line.get("stroke-dasharray") == "5 3" and line.get("x1") == line.get("x2")]
    if len(at) != 1 or abs(at[0] - full * 2 * due.floor() / due.carried()) > 0.11:
        yield f"the line of the floor stands at {at}"


def angle(point):
    """Of a turn, clockwise from the top, as it is seen from the centre of the ring."""
    return math.atan2(point[0] - CENTRE[0], CENTRE[1] - point[1]) / math.tau % 1


CENTRE = (340.0, 411.5)


def numbers_of(path):
    return [float(number) for number in re.findall(r"-?\d+(?:\.\d+)?", path.get("d"))]


def far(one, other):
    """How far two parts of a turn are from each other."""
    return abs((one - other + 0.5) % 1 - 0.5)


def offices(picture, due):
    """Each where it belongs, with its number by it."""
    found = groups(picture, "office")
    if list(found) != [str(office) for office in range(1, due.offices + 1)]:
        yield "there is not a mark for each office"
    for name, group in found.items():
        disc, number = group.find(SVG + "circle"), group.find(SVG + "text")
        place = (int(name) - 1) / due.offices
        at = (float(disc.get("cx")), float(disc.get("cy")))
        by = (float(number.get("x")), float(number.get("y")) - 0.35 * float(number.get("font-size")))
        if far(angle(at), place) > 0.001 or number.text != name:
            yield f"office {name} is drawn elsewhere"
        if far(angle(by), place) > 0.001 or math.dist(at, by) > 21:
            yield f"the number of office {name} is not by it"


def ring(picture, due):
    """The links as arcs from office to office, the wider the fuller, the cut's two marks and the part that it cuts off."""
    found = groups(picture, "ring-link")
    widths = []
    for link in due.links():
        group = found[str(link)]
        told = f"Link {link}, offices {link} and {due.after(link)}: split load {units(due.split[link - 1])}, unsplit load {due.unsplit[link - 1]}"
        if group.find(SVG + "title").text != told:
            yield f"link {link} is not told as {told!r}"
        for path in group.findall(SVG + "path"):
            x, y, _, _, _, large, clockwise, to_x, to_y = numbers_of(path)
            if (large, clockwise) != (0, 1) or far(angle((x, y)), (link - 1) / due.offices) > 0.001 or far(angle((to_x, to_y)), link / due.offices) > 0.001:
                yield f"link {link} is drawn elsewhere"
        widths.append((due.unsplit[link - 1], float(group.findall(SVG + "path")[1].get("stroke-width")), group.findall(SVG + "path")[1].get("stroke")))
    widths.sort()
    if any(width > wider or (load == more and colour != other) for (load, width, colour), (more, wider, other) in itertools.pairwise(widths)):
        yield "a fuller link is thinner"
    middles = [(link - 0.5) / due.offices for link in (due.g, due.h)]
    marks = [line for line in picture.iter(SVG + "line") if line.get("stroke-width") == "3.2" and float(line.get("x1")) < 670 and float(line.get("y1")) < 650]
    for mark, middle in itertools.zip_longest(marks, middles):
        if mark is None or middle is None or any(far(angle((float(mark.get(x)), float(mark.get(y)))), middle) > 0.001 for x, y in (("x1", "y1"), ("x2", "y2"))):
            yield "the cut's links are not marked"
    x, y, from_x, from_y, _, _, _, large, clockwise, to_x, to_y = numbers_of(next(path for path in picture.iter(SVG + "path") if path.get("fill") != "none"))
    part = due.h - due.g
    if (x, y) != CENTRE or clockwise != 1 or (2 * part != due.offices and large != (2 * part > due.offices)):
        yield "the part that is cut off is not a slice"
    if far(angle((from_x, from_y)), middles[0]) > 0.001 or far(angle((to_x, to_y)), middles[1]) > 0.001:
        yield "another part is shaded"


def labels(picture, due):
    """All links are labelled, or only the cut's and the fullest; each with its own loads."""
    found = groups(picture, "label")
    for name, group in found.items():
        link = int(name)
        split, unsplit = units(due.split[link - 1]), str(due.unsplit[link - 1])
        named = f"link {link}, cut" if link in (due.g, due.h) else f"link {link}"
        if texts(group) not in ([split, unsplit], [named, f"split {split}", f"unsplit {unsplit}"]):
            yield f"the label of link {link} says {texts(group)}"
    if len(found) < due.offices and not {int(name) for name in found} <= {due.g, due.h, 1 + due.unsplit.index(due.peak)}:
        yield "some links are labelled, and it is not told which"
    if due.offices <= 12 and len(found) < due.offices:
        yield "not all links are labelled where there is room for it"
    if not found:
        yield "no link is labelled"


def circuits(picture, due):
    """The largest circuits, in the list and as paths from office to office the way that they go, split ones dashed."""
    listed, paths, badges = groups(picture, "circuit"), groups(picture, "path"), groups(picture, "badge")
    if list(listed) != [str(place) for place in due.largest()] or list(paths) != list("abcdefghij"[: len(listed)]):
        yield f"the circuits {list(listed)} are drawn as {list(paths)}, and the largest are {due.largest()}"
        return
    for place, row, letter, group in zip(due.largest(), listed.values(), paths, paths.values(), strict=True):
        first, second, amount, front, back, way = due.circuits[place - 1]
        wanted = [letter, str(place), str(amount), units(front), units(back), f"{first} - {second}", "back" if way == "B" else "front"]
        if texts(row) != wanted:
            yield f"circuit {place} is listed as {texts(row)}, and is {wanted}"
        (path,) = group
        start_x, start_y, *_, radius, _, _, large, clockwise, _, _, end_x, end_y = numbers_of(path)
        start, end = (second, first) if way == "B" else (first, second)
        length = (end - start) % due.offices
        if far(angle((start_x, start_y)), (start - 1) / due.offices) > 0.2 / due.offices or far(angle((end_x, end_y)), (end - 1) / due.offices) > 0.2 / due.offices or clockwise != 1 or radius <= 0:
            yield f"the path of circuit {place} joins other offices"
        badge = badges[letter].find(SVG + "circle")
        at = (float(badge.get("cx")), float(badge.get("cy")))
        if abs(math.dist(at, CENTRE) - radius) > 0.2 or far(angle(at), (start - 1 + (length + (length % 2 == 0)) / 2) / due.offices) > 0.001 or texts(badges[letter]) != [letter]:
            yield f"the letter of circuit {place} is not on its path"
        if 2 * length != due.offices and large != (2 * length > due.offices):
            yield f"the path of circuit {place} goes the other way"
        if (path.get("stroke-dasharray") is not None) != is_split(due.circuits[place - 1]):
            yield f"circuit {place} is drawn as split, or is not"


# ---- where the words stand

# parts of the size of letters, as wide as DejaVu Sans has them, which is among the widest of the usual fonts
WIDTHS = {**dict.fromkeys("ijl'", 0.28), **dict.fromkeys(" .,:", 0.34), **dict.fromkeys("ft-r", 0.42), **dict.fromkeys("mw%W", 0.98), **dict.fromkeys("CDOQRSTL", 0.79)}


# of letters on a page of A4, by the units of the picture: 5 points and a half
SMALLEST = 8.3


def box_of(text, size):
    words = "".join(text.itertext())
    x, y = float(text.get("x")), float(text.get("y"))
    width = size * sum(WIDTHS.get(letter, 0.64) for letter in words) * (1.13 if text.get("font-weight") == "bold" else 1)
    left = x - {"start": 0, "middle": width / 2, "end": width}[text.get("text-anchor", "start")]
    return words, size, left, y - 0.74 * size, left + width, y + 0.2 * size


def boxes(element, size=None):
    """Of all texts, with the size that each has or inherits."""
    size = float(element.get("font-size", size or 0))
    if element.tag == SVG + "text":
        yield box_of(element, size)
    for child in element:
        yield from boxes(child, size)


def apart(picture):
    """No two texts overlap, none leaves the paper, and none is too small."""
    _, _, width, height = map(float, picture.get("viewBox").split())
    placed = list(boxes(picture))
    for words, size, left, top, right, bottom in placed:
        if left < 0 or top < 0 or right > width or bottom > height:
            yield f"{words!r} leaves the paper"
        if size < SMALLEST:
            yield f"{words!r} is too small to be read where it is printed"
    placed.sort(key=lambda box: box[3])
    for k, (words, _, left, _, right, bottom) in enumerate(placed):
        for others, _, other_left, _, other_right, _ in itertools.takewhile(lambda box, bottom=bottom: box[3] < bottom, placed[k + 1 :]):
            if left < other_right and other_left < right:
                yield f"{words!r} and {others!r} overlap"


# ---- tables


def table(offices, fibres, rows, mark=""):
    return (f"R\t{offices}\t{fibres}{mark}\n" + "".join(f"D\t{i}\t{j}\t{amount}\n" for i, j, amount in sorted(rows, key=lambda row: row[:2]))).encode()


def made():
    """Tables by rings of each kind that is drawn differently, from no circuit to as many as there can be, small and huge."""
    chance = random.Random(20)
    yield "all at one pair", table(2, 4, [(1, 2, 9999)] * 1024)
    yield "from one office to the opposite one", table(16, 2, [(1, 9, 9999)] * 1024)
    yield "circuits of nothing", table(5, 4, [(1, 2, 0), (2, 4, 0)])
    yield "next offices of 64", table(64, 4, [(k, k + 1, 3) for k in range(1, 64)] + [(1, 64, 5)])
    yield "beyond all sizes of SDH", table(4, 4, [(1, 3, 300), (2, 4, 40)], "\tM")
    yield "no circuit, of SDH", table(3, 2, [], "\tM")
    yield "parallel", table(64, 2, [(1, 2, 5)] * 5 + [(2, 3, 5)] * 5 + [(63, 64, 5)])
    for offices in (2, 3, 4, 5, 6, 9, 12, 16, 20, 21, 24, 27, 32, 33, 45, 64):
        for count, most in ((0, 0), (1, 9999), (offices, 9), (7 * offices, 99), (1024, 3), (1024, 9999)):
            pairs = [sorted(chance.sample(range(1, offices + 1), 2)) for _ in range(count)]
            yield f"{count} of at most {most} on {offices} offices", table(offices, chance.choice((2, 4)), [(i, j, chance.randint(0, most)) for i, j in pairs], chance.choice(("", "\tM")))


def ways_of(text):
    """The ways that `desk turn` tells."""
    return ["B" if way == "back" else "F" for way in re.findall(r"^ *\d+ +\d+ - +\d+ +\d+  (front|back),", desk(text, "turn").decode(), re.MULTILINE)]


def sent_otherwise(sheet):
    """A sheet of the same plan, with the last of its split circuits sent whole the other way; None where that is not accepted, or none is split."""
    due = Due(sheet)
    split = [place for place, circuit in enumerate(due.circuits) if is_split(circuit)]
    if not split:
        return None
    ways = [circuit[5] for circuit in due.circuits]
    ways[split[-1]] = "F" if ways[split[-1]] == "B" else "B"
    due.send(ways)
    other = due.write()
    return other if subprocess.run([sys.argv[1], "check"], input=other, stdout=subprocess.DEVNULL, stderr=subprocess.DEVNULL, check=False).returncode == 0 else None


CHECKS = {"closed": closed, "heading": heading, "in words": in_words, "bars": bars, "offices": offices, "ring": ring, "labels": labels, "circuits": circuits, "apart": apart}


def faults_of(text, due, *words):
    """What is wrong with the picture of a text, by the check that finds it."""
    try:
        written = desk(text, "picture", *words)
        picture = xml.etree.ElementTree.fromstring(written)
    except (ValueError, xml.etree.ElementTree.ParseError) as fault:
        return {name: [f"there is no picture: {fault}"] for name in CHECKS}
    rest = {"closed": (written,), "heading": (due, words), "apart": ()}
    return {name: list(check(picture, *rest.get(name, (due,)))) for name, check in CHECKS.items()}


def sheet_by(text, words):
    """Its sheet with these words; None where that is refused."""
    done = subprocess.run([sys.argv[1], "plan", *words, "--sheet"], input=text, stdout=subprocess.PIPE, stderr=subprocess.PIPE, check=False)
    return done.stdout if done.returncode == 0 else None


def hold(case):
    """The pictures of a table and of its sheets: each with what is wrong with it."""
    name, text = case
    found = []
    sheet, ways = desk(text, "plan", "--sheet"), ways_of(text)
    found.append((name, faults_of(text, Due(sheet))))
    found.append((f"{name}, turned", faults_of(text, Due(sheet, ways), "--turn")))
    for what, other in (("its sheet", sheet), ("its sheet, sent otherwise", sent_otherwise(sheet))):
        if other is not None:
            found.append((f"{name}, {what}", faults_of(other, Due(other))))
            found.append((f"{name}, {what}, turned", faults_of(other, Due(other, ways), "--turn")))
    for words in (("--best",), ("--lowered",), ("--lowered", "--best")):
        due = sheet_by(text, words)
        if due is not None:
            # of a sheet of whichever tool its table is planned
            texts_of_it = {"the table": text, "its sheet": sheet, "sent otherwise": sent_otherwise(sheet)}
            found += [(f"{name}, {what}, {' '.join(words)}", faults_of(other, Due(due), *words)) for what, other in texts_of_it.items() if other is not None]
    return found


cases = [(str(file.relative_to(root)), file.read_bytes()) for file in sorted(root.glob("examples/*.table"))] + list(made())
passed = failed = 0
with concurrent.futures.ThreadPoolExecutor(os.cpu_count()) as pool:
    for name, faults in itertools.chain.from_iterable(pool.map(hold, cases)):
        for check, wrong in faults.items():
            if wrong:
                print(f"error: {name}: {check}: {wrong[0]}" + (f", and {len(wrong) - 1} more" if wrong[1:] else ""))
            passed, failed = passed + (not wrong), failed + bool(wrong)
print(f"{passed} passed, {failed} failed")
sys.exit(1 if failed else 0)
