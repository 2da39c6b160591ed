"""What ./plan, ./check, ./build and .ci/run say, and what they end with. Proving is tried in a small tree of three crates, with a stand-in for rt that says of a crate
what rt would, and of one that it proved before nothing."""
import os
import pathlib
import pty
import re
import shutil
import signal
import subprocess
import time

from told import root, run, told

tree = root / "target/pages/tree"
tools = root / "target/pages/tools"

CRATES = """# listed as crates.txt lists them
low: memchr
aside: low
middle: low arrayvec # which crates.txt does not list
ringplan: middle
ringcheck: middle
ringkit_c staticlib: middle
"""

RT = r"""#!/usr/bin/env bash
case $1 in
version) echo stand-in; exit ;;
ci) echo "3 passed, 0 failed"; exit ;;
esac
name=$(basename "$PWD")
[ "$1" != check ] || { echo "logic=proved "; [ "$name" != aside ] || echo " libc::read reached"; exit; }
echo "$1 $name" >>TREE/asked
[ $name != low ] || cp src/lib.rt TREE/read
[ $name != ringkit_c ] || [ ! -e TREE/meanwhile ] || mv TREE/meanwhile TREE/crates/low/src/lib.rt
[ ! -e out/proved ] || exit 0
[ ! -e TREE/killed ] || { rm TREE/killed; kill -9 $$; }
echo "rt: chose --jobs 4 for $name"
[ ! -e TREE/slow ] || sleep 2
echo "fn $name::one: proved"
[ ! -e src/fails ] || { echo "fn $name::two: not proved"; exit 1; }
mkdir -p out && touch out/proved
cp TREE/program "out/$name" && cp TREE/empty.a out/libringkit_c.a
"""

PROGRAM = r"""#!/usr/bin/env bash
cat
"""


def write(path, text, mode=0o644):
    path.parent.mkdir(parents=True, exist_ok=True)
    path.write_text(text, encoding="utf-8")
    path.chmod(mode)


def make_tools():
    """A folder with what the scripts call, and the stand-in; so that a path of this folder alone lacks what is removed from it."""
    shutil.rmtree(tools, ignore_errors=True)
    tools.mkdir(parents=True)
    compiler = run('. ./host.sh; echo "$x86_cc"').stdout.strip()
    for name in "bash env awk basename cat cp cut date dirname find flock grep head id install ld as ln mkdir mv nice nproc readlink rm sed sha256sum sleep sort stat stty touch xargs tee tr chmod diff mktemp tail wc python3 nm size pkg-config rustc git man valgrind gcc g++".split():
        found = shutil.which(compiler if name == "gcc" else name)
        if found:
            write(tools / name, f'#!{shutil.which("bash")}\nexec {found} "$@"\n', 0o755)
    # on every processor the tree is that of a machine whose programs need no emulator
    write(tools / "uname", f"#!{shutil.which('bash')}\necho x86_64\n", 0o755)
    write(tools / "rt", RT.replace("/usr/bin/env bash", shutil.which("bash")).replace("TREE", str(tree)), 0o755)


def make_tree():
    """The scripts in a tree of a few crates, none of them proved."""
    shutil.rmtree(tree, ignore_errors=True)
    for name in ("plan", "build", "host.sh", "proving.sh", "count.sh", ".ci/run"):
        write(tree / name, (root / name).read_text(encoding="utf-8"), 0o755)
    (tree / "check").symlink_to("plan")
    write(tree / "crates.txt", CRATES)
    for crate in "low aside middle ringplan ringcheck ringkit_c".split():
        write(tree / f"crates/{crate}/src/{'main' if crate in ('ringplan', 'ringcheck') else 'lib'}.rt", "")
    write(tree / "program", PROGRAM.replace("/usr/bin/env bash", shutil.which("bash")), 0o755)
    write(tree / "empty.a", "!<arch>\n")
    for name in ("include/ringkit.h", "man/desk.1", "completions/desk"):
        write(tree / name, (root / name).read_text(encoding="utf-8"))
    write(tree / "desk/main.c", "int main(void) { return 0; }\n")


def says(command, cwd=tree, **environment):
    """What a command writes, complains of and ends with, seconds left out, on a path of the tools alone where the tree is the small one."""
    if cwd == tree:
        environment = {"PATH": str(tools), "CC": "gcc", "RT_JOBS": "4", **environment}
    done = run(command, cwd=cwd, **environment)
    return done.stdout, done.stderr, done.returncode


def without_seconds(text):
    return re.sub(r"\b\d+ s\b", "N s", text)


def asked():
    """What rt was asked since the last time."""
    file = tree / "asked"
    found = file.read_text(encoding="utf-8").split("\n")[:-1] if file.exists() else []
    file.unlink(missing_ok=True)
    return found


def of_words():
    """The words of the scripts: --help, and words that make no order."""
    for name in ("plan", "check", "build"):
        wrote, complained, status = says(f"./{name} --help", cwd=root)
        told(f"./{name} --help", (wrote.startswith(f"usage: {name} ["), "\nExit status: 0" in wrote, complained, status), (True, True, "", 0))
        line = wrote.splitlines()[0] + "\n"
        for words in ("--json", "a b", "--help --help") + (("a", "--install", "--install ''") if name == "build" else ()):
            told(f"./{name} {words}", says(f"./{name} {words}", cwd=root), ("", line, 2))


def of_refusals():
    """What the programs write goes through as it is, and a refusal ends with 1."""
    for name, file, first, status in (("plan", "square.table", "R", 0), ("plan", "square.sheet", "E", 1), ("plan", "full-64.table", "R", 0), ("check", "square.sheet", "Y", 0), ("check", "not-best.sheet", "E", 1)):
        due = run(f'. ./host.sh; take_emulator_of_rt; "${{emulator[@]}}" "$(program_of ring{name})" <examples/{file}', cwd=root).stdout
        told(f"./{name} {file}", (due[:1], says(f"./{name} examples/{file}", cwd=root)), (first, (due, "", status)))
        for words in ("", "-"):
            told(f"./{name} {words} <{file}", says(f"./{name} {words} <examples/{file}", cwd=root), (due, "", status))
    told("a file that is not there", says("./plan nowhere.table", cwd=root), ("", "plan: cannot read nowhere.table\n", 2))
    told("a folder", says("./check examples", cwd=root), ("", "check: cannot read examples\n", 2))
    told("standard input is closed", says("./plan <&-", cwd=root)[::2], ("", 2))
    told("the output cannot be written", says("./plan examples/square.table >/dev/full", cwd=root)[2], 2)


def steps(script, *names, of=3):
    """What a script says as it proves these, one after another, the last of so many."""
    first = of - len(names)
    far = f"{script}: {{}} of {of} crates done, N s"
    lines = [f"{far.format(first + number)}, proving {name}" for number, name in enumerate(names)]
    return "".join(line + "\n" for line in (*lines, far.format(of)))


def of_proving():
    """It is told which crate is at work, those alone that are needed; what is proved already is passed in silence."""
    make_tree()
    wrote, complained, status = says("echo R | ./plan")
    due = "R\n", steps("plan", "low", "middle", "ringplan"), 0
    told("the first plan", (wrote, without_seconds(complained), status), due)
    told("what rt is asked for it", asked(), ["lib low", "lib middle", "run ringplan"])
    told("the second plan", says("echo R | ./plan"), ("R\n", "", 0))
    told("what rt is asked for it", asked(), [])
    (tools / "rt").rename(tools / "aside")
    told("a plan without rt, once all is built", says("echo R | ./plan"), ("R\n", "", 0))
    (tools / "aside").rename(tools / "rt")
    wrote, complained, status = says("echo Y | ./check")
    due = "Y\n", steps("check", "ringcheck"), 0
    told("the first check", (wrote, without_seconds(complained), status), due)
    told("a program that cannot write", says("sed -i 's/^cat/exit 1/' crates/ringplan/out/ringplan; ./plan </dev/null")[2], 2)
    asks_again()


def asks_again():
    """rt is asked again where a source is changed, new or gone."""
    for command in ("echo >>crates/low/src/lib.rt", "touch crates/aside/src/new.rt", "rm crates/aside/src/new.rt"):
        says("./plan </dev/null")
        asked()
        says(f"{command}; ./plan </dev/null")
        told(f"what rt is asked behind {command}", "run ringplan" in asked(), True)


def of_failures():
    """A crate that is not proved ends it: its complaints are shown, and what was proved is not."""
    make_tree()
    write(tree / "crates/middle/src/fails", "")
    for name, status in (("plan", 2), ("check", 2), ("build", 1)):
        wrote, complained, ended = says(f"./{name} </dev/null")
        told(f"{name}: the status", (wrote, ended), ("", status))
        told(f"{name}: the crate is named", f"{name}: the crate middle is not proved and built; target/proofs/middle.log has" in complained, True)
        told(f"{name}: what is not proved is shown", "fn middle::two: not proved\n" in complained, True)
        told(f"{name}: what is proved is not", "middle::one" in complained, False)
    told("what rt is asked", set(asked()), {"lib low", "lib middle"})
    (tree / "crates/middle/src/fails").unlink()
    told("once it is mended", says("echo R | ./plan")[::2], ("R\n", 0))


def of_several():
    """Crates that do not name each other are proved at a time, as many as there may be; at a
    terminal that is told in one line."""
    make_tree()
    write(tree / "slow", "")
    wrote, complained, status = says("./build", RT_JOBS="3")
    due = "build: 2 of 5 crates done, N s, proving ringplan ringcheck ringkit_c"
    told("three at a time", (without_seconds(complained).splitlines()[2], status), (due, 0))
    make_tree()
    write(tree / "slow", "")
    ours, theirs = pty.openpty()
    alone = {"PATH": str(tools), "RT_JOBS": "4", "TERM": "linux"}
    null = subprocess.DEVNULL
    done = subprocess.run(["./plan"], cwd=tree, env=alone, stdin=null, stdout=null, stderr=theirs, check=False)
    line = os.read(ours, 10000).decode()
    is_over = "\r\x1b[Kplan: 1 of 3 crates done, " in line
    told("one line at a terminal", (line.count("\n"), is_over, done.returncode), (1, True, 0))
    make_tree()
    write(tools / "nproc", f"#!{shutil.which('bash')}\necho 1000\n", 0o755)
    first = says("./plan", RT_JOBS="")[1].splitlines()[0]
    due = "plan: there is memory for N at a time, on N processors"
    told("little memory", re.sub(r"\d+", "N", first), due)
    (tools / "nproc").unlink()
    make_tools()


def places():
    """The folders at which crates are proved, in which rt ci would find files that nobody proves."""
    return list(tree.glob("target/proofs/place-*"))


def begun(command):
    """A command that runs by itself, once rt is asked something for it."""
    asked()
    alone = {"PATH": str(tools), "RT_JOBS": "4"}
    streams = {"stdin": subprocess.DEVNULL, "stdout": subprocess.DEVNULL, "stderr": subprocess.PIPE}
    # whoever runs the tests may ignore SIGINT, as a shell does behind &; a script that is stopped does not
    listens = lambda: signal.signal(signal.SIGINT, signal.SIG_DFL)
    made = subprocess.Popen(command, cwd=tree, env=alone, **streams, encoding="utf-8",
                            start_new_session=True, preexec_fn=listens)
    for _ in range(200):
        if (tree / "asked").exists():
            break
        time.sleep(0.05)
    return made


def of_disturbances():
    """A run that is stopped leaves what was kept, one beside another waits for it, and what is
    killed for memory is proved with fewer beside it."""
    make_tree()
    write(tree / "slow", "")
    kept = tree / "crates/low/out/kept"
    write(kept, "")
    one = begun(["./plan"])
    os.killpg(one.pid, signal.SIGINT)
    last = one.communicate()[1].splitlines()[-1:]
    due = ["plan: stopped; what is proved is kept"], -signal.SIGINT
    told("a run that is stopped", (last, one.returncode), due)
    told("what was kept is there", (kept.exists(), places()), (True, []))
    one = begun(["./plan"])
    one.kill()
    one.communicate()
    told("a killed run leaves places", places() != [], True)
    told("what it had moved", (says("./plan")[::2], kept.exists(), places()), (("", 0), True, []))
    make_tree()
    write(tree / "slow", "")
    one = begun(["./plan"])
    other = says("./plan")
    due = "plan: another run proves in this tree: this one waits for it, and takes what it proves\n"
    told("a run beside another", (one.wait(), other), (0, ("", due, 0)))
    one.communicate()
    make_tree()
    write(tree / "killed", "")
    due = "plan: rt was killed at low, most likely for memory: once more, with at most 2 at a time\n"
    due += steps("plan", "low", "middle", "ringplan")
    told("killed for memory", without_seconds(says("./plan")[1]), due)


def of_building():
    """./build proves what it is made of, and on a second run says nothing of it."""
    make_tree()
    wrote, complained, status = says("./build")
    due = ["lib low", "lib middle", "lib ringkit_c", "run ringcheck", "run ringplan"]
    told("the first build", (sorted(asked()), status), (due, 0))
    told("what it says at its end", without_seconds(complained).splitlines()[-2], "build: 5 of 5 crates done, N s")
    wrote, complained, status = says("./build")
    told("the second build", (wrote, complained.startswith("build: dist has "), len(complained.splitlines()), status), ("", True, 1, 0))
    told("what rt is asked for it", asked(), [])
    write(tree / "crates/ringkit_c/src/lib.rt", "// changed\n")
    says("./build")
    told("what rt is asked behind a change", asked(), ["lib low", "lib middle", "lib ringkit_c"])
    write(tree / "crates/ringplan/src/main.rt", "// changed\n")
    says("./plan </dev/null")
    asked()
    says("./build")
    told("what rt is asked for a program that ./plan has built", asked(), [])
    (tree / "crates/ringplan/out/ringplan").write_text("spoiled", encoding="utf-8")
    says("./build")
    told("what rt is asked for a program that is not its own", asked(), ["lib low", "lib middle", "run ringplan"])


def of_changes():
    """What is built while a source changes is proved anew, and then noted."""
    make_tree()
    write(tree / "meanwhile", "// changed\n")
    wrote, complained, status = says("./build")
    due = "build: a source was changed meanwhile: what stands on it is proved anew"
    told("a change while it is built", (complained.splitlines().count(due), status), (1, 0))
    due = ["lib low", "lib middle", "lib ringkit_c", "run ringcheck", "run ringplan"]
    told("what rt is asked for it", sorted(asked()), sorted(2 * due))
    told("what rt reads at last", (tree / "read").read_text(encoding="utf-8"), "// changed\n")
    says("./build")
    told("what rt is asked behind it", asked(), [])


LACKING = {
    "rt": "there is no rt: it comes with the Rattle toolchain, ",
    "python3": "there is no python3, which runs rt and the tests of the pages: install the package python3\n",
    "gcc": "there is no C compiler gcc: install the package gcc, or name another in CC\n",
}


def of_missing_tools():
    """A tool that is missing is named, with the package that has it."""
    for tool, due in LACKING.items():
        for name, status in (("plan", 2), ("check", 2), ("build", 1)):
            if tool == "gcc" and name != "build":
                continue
            make_tree()
            (tools / tool).rename(tools / "aside")
            wrote, complained, ended = says(f"./{name} </dev/null")
            (tools / "aside").rename(tools / tool)
            told(f"{name} without {tool}", (wrote, complained.startswith(f"{name}: {due}"), len(complained.splitlines()), ended), ("", True, 1, status))
    make_tree()
    aarch64 = f"{tools}/aarch64"
    write(pathlib.Path(aarch64) / "uname", f"#!{shutil.which('bash')}\necho aarch64\n", 0o755)
    complained = says("echo R | ./plan", PATH=f"{aarch64}:{tools}")[1]
    told("plan without an emulator", "plan: there is no qemu-x86_64, which runs programs for x86-64 on this processor: install the package qemu-user\n" in complained, True)
    complained = says("./build", PATH=f"{aarch64}:{tools}", CC="")[1]
    told("build without a cross compiler", complained, "build: there is no C compiler x86_64-linux-gnu-gcc: install the package gcc-x86-64-linux-gnu, or name another in CC\n")


def of_the_gate():
    """.ci/run says at its beginning what is missing, and without rt ends there."""
    make_tree()
    packages = {"rt": "rattle-kit-13f", "valgrind": "package valgrind", "pkg-config": "package pkg-config", "nm": "package binutils", "python3": "package python3", "rustc": "package rustc", "g++": "package g++"}
    for tool in packages:
        (tools / tool).unlink(missing_ok=True)
    wrote, _, status = says(".ci/run")
    lines = wrote.splitlines()
    for tool, package in packages.items():
        told(f".ci/run without {tool}", [package in line for line in lines if line.startswith(f"error: there is no {tool}")], [True])
    told("the end of .ci/run without rt", (lines[-1:], status), (["0 passed, 7 failed"], 1))
    of_installing()
    make_tools()
    of_its_sums()


def of_installing():
    """A superuser of a machine with apt-get is given what is missing; nobody else is."""
    bash = f"#!{shutil.which('bash')}\n"
    for command, lacking, names in (
        (".ci/run", "g++ nm pkg-config python3 rustc", "binutils g++ pkg-config python3 rustc"),
        ("./build", "gcc python3", "gcc python3 libc6-dev"),
    ):
        for user, due in (("0", [f"install -y {names}"]), ("1000", [])):
            make_tree()
            make_tools()
            for tool in ("rt", *lacking.split()):
                (tools / tool).unlink()
            write(tools / "id", f"{bash}echo {user}\n", 0o755)
            write(tools / "apt-get", f'{bash}[ $1 = update ] || echo "$*" >>{tree}/asked\n', 0o755)
            status = says(command)[2]
            told(f"what {command} has installed for {user}", (asked(), status), (due, 1))
            (tools / "apt-get").unlink()


def of_its_sums():
    """.ci/run asks each crate what it assumes, and no line but the last looks like the last. It
    clears what a killed run has left."""
    make_tree()
    write(tree / "target/proofs/place-1/crates/low/src/lib.rt", "")
    for test in ("one", "twin"):
        run_it = f"#!{shutil.which('bash')}\necho 2 passed, 0 failed\n"
        write(tree / f"tests/{test}/run", run_it, 0o755)
    wrote, _, status = says(".ci/run", RT_JOBS="1")
    lines = wrote.splitlines()
    alike = [n for n, line in enumerate(lines) if re.match(r"\d+ passed, \d+ failed", line)]
    told("lines that look like the last", (alike, status), ([len(lines) - 1], 1))
    for name in ("rt ci: 3", "tests/one/run: 2", "twin: 2", "assumptions: 3"):
        told(f"a sum of {name}", sum(line.startswith(f"{name} passed, ") for line in lines), 1)
    assuming = [line.split()[1] for line in lines if " assumes of C" in line]
    told("what crates assume", assuming, ["aside", "ringplan", "ringcheck"])
    told("what a killed run has left", places(), [])


def all_of_them():
    make_tools()
    of_words()
    of_refusals()
    of_proving()
    of_failures()
    of_several()
    of_disturbances()
    of_building()
    of_changes()
    of_missing_tools()
    of_the_gate()
