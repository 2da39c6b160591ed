#!/usr/bin/env python3
"""Which characters of a file's name the desk shows: in words, in the objects that it writes with
--json, and in the words of a picture, for which `drawn` (drawn.c beside this file) draws them.
Every character of Unicode is tried, and bytes that are no UTF-8. What is not to be shown is said
here by the properties that Unicode gives to characters, and not by a list of them.
Run as `names.py DESK DRAWN`. The last line is 'N passed, M failed'."""
import json
import subprocess
import sys
import unicodedata
import xml.etree.ElementTree

desk, drawn = sys.argv[1:3]
passed, failed = 0, 0
MARKS = {"LEFT-TO-RIGHT MARK", "RIGHT-TO-LEFT MARK", "ARABIC LETTER MARK"}
TURNS = {"LRE", "RLE", "LRO", "RLO", "PDF", "LRI", "RLI", "FSI", "PDI"}


def check(good, what):
    global passed, failed
    passed, failed = passed + bool(good), failed + (not good)
    if not good and failed < 20:
        print(f"error: {what}")


def is_shown(character):
    """Controls, ends of lines and paragraphs, and what turns the direction of writing are not."""
    return not (
        unicodedata.category(character) in ("Cc", "Zl", "Zp")
        or unicodedata.bidirectional(character) in TURNS
        or unicodedata.name(character, "") in MARKS
    )


def is_bad(character):
    """Whether it stands for a byte that is no UTF-8."""
    return 0xDC80 <= ord(character) <= 0xDCFF


def in_words(name):
    """The name as words show it: \\xNN for each byte of a character that is not shown."""
    shown = bytearray()
    for character in name.decode("utf-8", "surrogateescape"):
        spelled = character.encode("utf-8", "surrogateescape")
        whole = is_shown(character) and not is_bad(character)
        shown += spelled if whole else b"".join(b"\\x%02x" % byte for byte in spelled)
    return bytes(shown)


def in_picture(name):
    """The name as a picture shows it: U+FFFD for what is not shown, and for what XML cannot have."""
    text = name.decode("utf-8", "surrogateescape")
    kept = [is_shown(c) and not is_bad(c) and c not in "\ufffe\uffff" for c in text]
    return "".join(c if keep else "\ufffd" for c, keep in zip(text, kept))


def texts():
    """All characters but NUL, in texts of at most 1,000 bytes, and then bytes that are no UTF-8."""
    text = b""
    for code in [*range(1, 0xD800), *range(0xE000, 0x110000)]:
        spelled = chr(code).encode("utf-8")
        if len(text) + len(spelled) > 1000:
            yield text
            text = b""
        text += spelled
    yield text
    yield b"".join(b"a%c" % byte for byte in range(0x80, 0x100))
    # spelled too long, surrogates, and codes above the last
    yield b"\xc0\x80 \xc1\xbf \xe0\x82\x9b \xf0\x82\x80\xae \xed\xa0\x80 \xed\xbf\xbf"
    yield b"\xf4\x90\x80\x80 \xf8\x88\x80\x80\x80 \xff"
    # cut short
    yield b"\xc2 \xe2\x80 \xe2\x80\xae \xf0\x9f\x98 \xc2"


def said(*words):
    done = subprocess.run([desk, *words], input=b"", capture_output=True, check=False)
    return done.stdout, done.stderr


def hold_words(names):
    """The headings of files, and what is said of each, which no folder has."""
    headings, complaints = said("check", "--", *names)
    due = b"\n".join(b"==> " + in_words(name) + b" <==\n" for name in names)
    check(headings == due, "headings show a name otherwise")
    for name in names:
        due = b"desk: cannot read " + in_words(name) + b": File name too long\n"
        check(complaints.startswith(due), f"words show {complaints[256:300]!r} of {due[256:300]!r}")
        complaints = complaints[len(due) :]
    check(complaints == b"", f"more is said: {complaints[:60]!r}")


def hold_objects(names):
    lines = said("check", "--json", "--", *names)[0].split(b"\n")[:-1]
    check(len(lines) == len(names), f"{len(lines)} objects, and not {len(names)}")
    for name, line in zip(names, lines):
        check(all(0x20 <= byte <= 0x7E for byte in line), f"no object in ASCII: {line[:80]!r}")
        text = name.decode("utf-8", "surrogateescape")
        due = "".join("\ufffd" if is_bad(c) else c for c in text)
        check(json.loads(line)["file"] == due, f"an object has {line[256:300]!r}")


def hold_pictures(names):
    given = b"".join(name + b"\0" for name in names)
    done = subprocess.run([drawn], input=given, capture_output=True, check=False)
    root = xml.etree.ElementTree.fromstring(b"<svg>" + done.stdout + b"</svg>")
    found = [element.text for element in root]
    check(len(found) == len(names), f"{len(found)} texts are drawn, and not {len(names)}")
    for name, shown in zip(names, found):
        check(shown == in_picture(name), f"a picture shows {shown[:60]!r} of {name[:60]!r}")


tried = list(texts())
hold_pictures(tried)
# half a character at the end, as where words that are too long are cut
hold_pictures(["\u00e9".encode("utf-8") * 511 + b"\xc3"])
# too long for the name of a file
names = [b"x" * 256 + text.replace(b"/", b"") for text in tried]
for first in range(0, len(names), 500):
    hold_words(names[first : first + 500])
    hold_objects(names[first : first + 500])
print(f"{passed} passed, {failed} failed")
sys.exit(1 if failed else 0)
