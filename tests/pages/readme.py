"""The examples of README.md: each command behind a $ writes what stands below it, up to the next one or the block's end. They are run in a folder of their own, so that what they
write is not left in the tree. A dialogue at a terminal, which has its prompts in it, is passed over: tests/desk has its words as they come without one."""
import re
import shlex
import shutil

from told import root, run, told

place = root / "target/pages/readme"


def make_place(prefix):
    """A folder in which the commands find what they name: what is installed, the examples, and the scripts."""
    shutil.rmtree(place, ignore_errors=True)
    place.mkdir(parents=True)
    (place / "dist").symlink_to(prefix)
    (place / "examples").symlink_to(root / "examples")
    run(f'root={shlex.quote(str(root))}; . "$root/host.sh"; for name in plan check build; do script "$name" "$root/$name"; done', cwd=place)


def commands(block):
    """The commands of a block of code, each with what stands below it."""
    for part in re.split(r"^\$ ", block, flags=re.M)[1:]:
        command, _, due = part.partition("\n")
        yield command, due.rstrip("\n")


def all_of_them(prefix):
    make_place(prefix)
    text = (root / "README.md").read_text(encoding="utf-8")
    blocks = re.findall(r"^```\n(.*?)^```$", text, re.M | re.S)
    found = [it for block in blocks if "\ndesk> " not in block for it in commands(block)]
    told("README.md has examples", len(found) >= 5, True)
    for command, due in found:
        done = run(f"{{ {command}\n}} 2>&1", cwd=place)
        told(f"README.md: {command}", done.stdout.rstrip("\n"), due)
