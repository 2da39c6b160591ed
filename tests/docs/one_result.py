"""One content of what is lent, by the text of the contracts: of each public function of each crate,
each `&mut` parameter, `&mut self` among them, is fixed in every case of the answer, or
docs/PROMISES.md lists it with its ground under "What is left open". An entry of that list that is
not needed any more is a fault too.

A fact fixes what is lent in one of four forms, where x is x.new, x.new.items or the rows of x.new:
  x ≡ E, either way round, where E does not name x.new;
  E ≡ first ∷ x, since a list has one tail;
  R .. x .., of a relation that one content alone meets: those that the page names in the first
    sentence below "Public functions";
  f .. x .. result ≡ E, of a reader f of `READERS`: it fixes x where the answer is Ok, and nothing
    where it is Err.
Where E names another y.new, or the answer, the fact counts in those cases alone in which other
facts fix that as well; so two values that are each said to be the other are open. A relation of the
page tells what is answered with the content, and so does a reader. Where a fact x ≡ F (G x.new)
stands too, so that G x.new tells all of x, a fact of these forms about G x.new counts as one
about x. Facts are what a clause says: both sides of ×, what follows `let .. in`, with what is
bound put in its place, and what stands in IfOk, IfErr, IfSome, IfNone, MatchOption and their
like, for that case alone. A fact that has a premise (→) counts for nothing, so what is counted
holds of every input that the function takes.

A parameter that lends in a form that is not read here is a fault: a tuple of `&mut`, an option or
list of them, a pattern.

What this cannot see: whether one content alone does meet a relation (the page names the theorem),
whether a clause is true (the check says so), what is changed through a value that holds a `&mut`,
and what a trait of std promises of a type, as of an iterator's `next`. It asks nothing of an answer
alone: of a function that is lent nothing, or of an answer that no lent value is said by. A function
counts as public where `pub fn` stands in front of it and its type is public, or where its trait
is."""
import re

# what is answered, with what stands beside it, is what E says: nothing is said beside an Err
READERS = {"with_rows", "with_values"}
# a fact for one case of the answer, or for each
CASES = {
    "IfOk": ["Ok"],
    "OnOk": ["Ok"],
    "IfErr": ["Err"],
    "OnErr": ["Err"],
    "IfSome": ["Some"],
    "OnSome": ["Some"],
    "IfNone": ["None"],
    "MatchResult": ["Ok", "Err"],
    "MatchOption": ["None", "Some"],
}
# how the page names a case that is left open
SAID = {
    "Ok": "where it succeeds",
    "Err": "where it is refused",
    "Some": "where something is answered",
    "None": "where nothing is answered",
    "": "in every case",
}
OPEN, CLOSE = "([{", ")]}"
LENDS = re.compile(r"&\s*(?:'\w+ )?mut\b")
LENT = re.compile(r"&(?:'\w+ )?mut (self)$|(?:mut )?(\w+): &(?:'\w+ )?mut (?!.*&\s*(?:'\w+ )?mut)")
LET = re.compile(r"let (\w+) = (?!let )(.*)")
# what a case of the answer holds, as a clause of that case sees it
HELD = "result.held"
BLOCK = re.compile(r"(pub trait|impl\b(?:<[^>]*>)?)(?: .* for)? &?(?:'a )?\[?(\w+)")
HEAD = re.compile(r" *(pub )?(?:const )?(?:extern \"C\" )?fn (\w+)")
ANSWER = re.compile(r"\s*(?:-> ([^\n{;]*?))?(?=\s*(?:[{;\n]))")
CLAUSE = re.compile(r"\s*(?://[^\n]*|(requires|ensures)\*?(?: \w+)? (?=\{))")
ENTRY = re.compile(r"^\| `(\w+)` \(crates/(\w+)\) \| `(\w+)` ([^:|]*):")


def closing(text, at):
    """The place after the bracket that closes the one at a place."""
    depth = 0
    for k in range(at, len(text)):
        depth += (text[k] in OPEN) - (text[k] in CLOSE)
        if depth == 0:
            return k + 1
    raise ValueError(f"no bracket closes {text[at:at + 40]!r}")


def split_at(text, mark):
    """A text at each mark that stands outside of brackets."""
    parts, depth, begin = [], 0, 0
    for k, letter in enumerate(text):
        depth += (letter in OPEN) - (letter in CLOSE)
        if depth == 0 and text.startswith(mark, k):
            parts.append(text[begin:k].strip())
            begin = k + len(mark)
    return [*parts, text[begin:].strip()]


def bare(text):
    """A fact or a term without brackets round all of it."""
    text = text.strip()
    while text.startswith("(") and closing(text, 0) == len(text):
        text = text[1:-1].strip()
    return text


def terms_of(text):
    """A word and what it is applied to."""
    return [bare(term) for term in split_at(text, " ")]


def put_in(text, word, said):
    """A text with something said in the place of a word, which it does not bind again."""
    if re.search(rf"(?:let|λ)(?: \w+)* {word}\b", text):
        return ""
    return re.sub(rf"(?<![\w.']){word}(?![\w'])", lambda _: said, text)


def named_in(text):
    """The lent values whose content a term names, and `result` where it names the answer."""
    return set(re.findall(r"\b(\w+)\.new\b", text)) | set(re.findall(r"\bresult\b", text))


def of_case(part):
    """What is said of one case, with a name of its own for what the case holds."""
    text = bare(part)
    found = re.match(r"λ (\w+)\. ", text)
    return put_in(text[found.end() :], found[1], HELD) if found else text


def facts(clause):
    """The facts that a clause says without a premise, each with its case, or with '' for all."""
    text = bare(clause)
    if text.startswith("let "):
        bound, *rest = split_at(text, " in ")
        if found := LET.fullmatch(bound):
            yield from facts(put_in(" in ".join(rest), found[1], f"({found[2]})"))
        return
    if len(split_at(text, "→")) > 1 or len(split_at(text, "↔")) > 1:
        return
    both = split_at(text, "×")
    terms = split_at(text, " ")
    if len(both) > 1:
        for part in both:
            yield from facts(part)
    elif terms[0] in CASES and terms[1] == "result":
        for case, part in zip(CASES[terms[0]], terms[2:]):
            inside = facts(of_case(part))
            yield from ((case, fact) for inner, fact in inside if inner in ("", case))
    else:
        yield "", text


def fixes(fact, view, own, relations):
    """The cases in which a fact fixes what is seen of its own value, '' for all, and what else has
    to be fixed for that; None where it does not."""
    sides = [bare(side) for side in split_at(fact, "≡")]
    if len(sides) != 2:
        terms = terms_of(fact)
        others = [named_in(term) for term in terms if term != view]
        if terms[0] in relations and view in terms and not any(own in named for named in others):
            return "", set().union(*others) - {"result"}
        return None
    for one, other in (sides, sides[::-1]):
        needed = named_in(other)
        if own in needed:
            continue
        tail = split_at(one, "∷")
        if one == view or len(tail) > 1 and tail[-1] == view:
            return "", needed
        terms = terms_of(one)
        if terms[0] in READERS and terms[-1] == "result" and view in terms:
            return "" if own == "result" else "Ok", needed
    return None


def tells(fact, views, own):
    """What tells all of a lent value by a fact x ≡ F (G x.new), and what else is to be fixed for
    that: G x.new; None for any other."""
    sides = [bare(side) for side in split_at(fact, "≡")]
    if len(sides) != 2 or sides[0] not in views:
        return None
    terms = split_at(sides[1], " ")
    naming = [term for term in terms if own in named_in(term)]
    if len(naming) != 1 or not naming[0].startswith("("):
        return None
    return bare(naming[0]), named_in(sides[1]) - {own}


def views_of(own):
    """The terms that each are all of a value."""
    if own == "result":
        return (own, HELD)
    lent = f"{own}.new"
    return (lent, f"{lent}.items", f"R.rows {lent}", f"Self.rows {lent}")


def fixed_by(own, said, relations, fixed, within):
    """The cases in which facts fix a value, as far as is known of what else they name."""

    def known(cases, needed):
        return cases.intersection(*(fixed.get(name, set()) for name in needed))

    whole = views_of(own)
    views = {view: within[""] for view in whole}
    for case, fact in said:
        if found := tells(fact, whole, own):
            cases = known(within.get(case, set()), found[1])
            views[found[0]] = views.get(found[0], set()) | cases
    sure = set()
    for case, fact in said:
        for view, told in views.items():
            if found := fixes(fact, view, own, relations):
                cases = told & within.get(case, set()) & within.get(found[0], set())
                sure |= known(cases, found[1])
    return sure


def left_open(lent, answer, clauses, relations):
    """The cases of an answer in which the clauses do not fix a lent value, for each of these."""
    kind = re.match(r"\w*", answer).group()
    cases = {"Result": ["Ok", "Err"], "Option": ["Some", "None"]}.get(kind, [""])
    within = {case: {case} for case in cases} | {"": set(cases)}
    said = [fact for clause in clauses for fact in facts(clause)]
    fixed, before = {own: set() for own in (*lent, "result")}, None
    while fixed != before:
        before = fixed
        fixed = {own: fixed_by(own, said, relations, before, within) for own in before}
    return [(own, case) for own in lent for case in cases if case not in fixed[own]]


def head_of(text, at):
    """Parameters, answer and clauses of the function whose name ends at a place."""
    depth = 0
    while depth > 0 or text[at] == "<":
        depth += (text[at] == "<") - (text[at] == ">" and text[at - 1] != "-")
        at += 1
    end = closing(text, at)
    parameters = split_at(text[at + 1 : end - 1], ",")
    found = ANSWER.match(text, end)
    answer, at, clauses = (found[1] or "").strip(), found.end(), []
    while found := CLAUSE.match(text, at):
        at = found.end()
        if found[1]:
            end = closing(text, at)
            if found[1] == "ensures":
                clauses.append(" ".join(text[at + 1 : end - 1].split()))
            at = end
    return parameters, answer, clauses


def functions(crate):
    """The public functions of a crate: name, parameters, answer and clauses of each."""
    files = sorted((crate / "src").glob("**/*.rt"))
    texts = [file.read_text(encoding="utf-8") for file in files]
    public = re.compile(r"^pub (?:struct|enum|trait) (\w+)", re.MULTILINE)
    types = {name for text in texts for name in public.findall(text)}
    for text in texts:
        of = None
        for line in re.finditer(r"^.*$", text, re.MULTILINE):
            if block := BLOCK.match(line.group()):
                of = block
            elif line.group().startswith("}"):
                of = None
            head = HEAD.match(line.group())
            known = head and (head[1] or of and of[1] == "pub trait")
            if known and (of is None or of[2] in types):
                yield head[2], *head_of(text, line.start() + head.end())


def listed(page):
    """What the page lists as left open: crate, function, parameter and case of each entry."""
    begin = page.index("### What is left open")
    cases = {said: case for case, said in SAID.items()}
    for line in page[begin : page.index("\n## ", begin)].splitlines():
        if found := ENTRY.match(line):
            name, crate, lent, said = found.groups()
            yield crate, name, lent, cases.get(said, said)


# contracts of x: &mut .. and y: &mut .. that leave x open, each a clause or more
LEAVES_OPEN = (
    ["let now = x.new in x.new ≡ now"],
    ["x.new ≡ y.new", "y.new ≡ x.new"],
    ["x.new ≡ y.new", "Written y.old 0 (text x.new) y.new result"],
    ["x.new ≡ f result"],
    ["x.new ≡ f result", "IfOk result (λ n. n ≡ length x.now)"],
    ["IfOk result (λ n. x.new ≡ n)", "IfErr result (λ _. x.new ≡ [])"],
    ["Written x.old 0 (text x.new) x.new result"],
    ["few x.old → x.new ≡ []"],
    ["IfOk result (λ _. x.new ≡ [])"],
    ["x.new ≡ map f (g x.new)"],
)
# and some that fix it
LEAVES_NONE = (
    ["let now = x.old in x.new ≡ now"],
    ["x.new ≡ y.new", "y.new ≡ []"],
    ["x.new ≡ f result", "result ≡ g x.old"],
    ["MatchResult result (λ n. (n ≡ 1) × (x.new ≡ n)) (λ _. x.new ≡ [])"],
    ["Written x.old 0 (text x.old) x.new result"],
    ["x.new ≡ map f (g x.new)", "g x.new ≡ []"],
    ["with_rows x.new result ≡ read y.old", "IfErr result (λ _. x.new ≡ [])"],
)


def tried():
    """What is wrong with what is said of contracts by hand."""
    for contracts, due in ((LEAVES_OPEN, True), (LEAVES_NONE, False)):
        for clauses in contracts:
            found = left_open(["x", "y"], "Result<usize, Refusal>", clauses, {"Written"})
            if any(own == "x" for own, _ in found) != due:
                yield f"{clauses} is taken for {'none' if due else 'one'} that leaves x open"


def compared(root, page):
    """How many lent values there are, and what is wrong: each that is left open and not listed, and
    each that is listed and fixed."""
    sentence = re.search(r"a relation that one result alone meets \(([^)]*)\)", page)
    relations = set(re.findall(r"`(\w+)`", sentence[1]))
    count, there, faults = 0, set(), list(tried())
    for crate in sorted(path.parent for path in root.glob("crates/*/src")):
        for name, parameters, answer, clauses in functions(crate):
            lends = [LENT.match(each) for each in parameters if LENDS.search(each)]
            if None in lends:
                faults.append(f"{name} (crates/{crate.name}) lends in a form that is not read")
            lent = [found[1] or found[2] for found in lends if found]
            count += len(lent)
            found = left_open(lent, answer, clauses, relations)
            there.update((crate.name, name, own, case) for own, case in found)
    said = set(listed(page))
    for crate, name, lent, case in sorted(there ^ said):
        what = f"{lent} of {name} (crates/{crate}) {SAID.get(case, case)}"
        if (crate, name, lent, case) in there:
            faults.append(f"no clause fixes {what}, and docs/PROMISES.md does not list it")
        else:
            faults.append(f"docs/PROMISES.md lists {what} as left open, and it is not")
    return count, faults
