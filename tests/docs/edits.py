"""The must-fail edits as texts: each can be applied to the tree as it is. Whether the check refuses
what it makes is for `rt must-fail` to say."""


def texts(edit):
    """The pairs of an edit in order: the path of a file, the text that goes and what stands in its
    place. A pair may stand on what those before it made."""
    path = old = None
    for line in edit.read_text(encoding="utf-8").split("\n"):
        mark, _, said = line.partition(":")
        said = said.removeprefix(" ")
        if mark == "file":
            path = edit.parents[1] / said.strip()
        elif mark == "old":
            old = said
        elif mark == "new":
            yield path, old, said


def fault(edit):
    """Why an edit cannot be applied; None where it can."""
    before, now = {}, {}
    for path, old, new in texts(edit):
        if path is None or not old or not path.is_file():
            return "it names no file that is there, or no text"
        text = now.setdefault(path, before.setdefault(path, path.read_text(encoding="utf-8")))
        if (found := text.count(old)) != 1:
            return f"{old!r} stands {found} times in {path.name}, and not once"
        now[path] = text.replace(old, new)
    return None if now != before else "it changes nothing"


def compared(root):
    """How many edits there are, and what is wrong with them."""
    edits = sorted(root.glob("crates/*/must-fail/*.edit"))
    faults = ((edit.relative_to(root), fault(edit)) for edit in edits)
    return len(edits), [f"{edit} cannot be applied: {why}" for edit, why in faults if why]
