"""Runs commands, and counts which of them said what is due."""
import os
import pathlib
import subprocess

root = pathlib.Path(__file__).resolve().parents[2]


def run(command, cwd=root, **environment):
    """What a command of bash writes, complains of and ends with."""
    given = {**os.environ, **environment}
    return subprocess.run(["bash", "-c", command], cwd=cwd, env=given, stdin=subprocess.DEVNULL, capture_output=True, encoding="utf-8", errors="replace", check=False)


def told(what, said, due):
    """Passes where what is said is what is due, and else shows both."""
    if said == due:
        told.passed += 1
        return
    told.failed += 1
    print(f"error: {what}:")
    if isinstance(said, (set, list)):
        print(f"  too much: {[it for it in said if it not in due]}\n  missing: {[it for it in due if it not in said]}")
    else:
        print(f"  said: {said!r}\n  due:  {due!r}")


told.passed = told.failed = 0
