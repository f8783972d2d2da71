"""The checks of `strip` for .ci/quick."""
import os
import sys
import tempfile

from insert_checks import TRIED as INSERTED
from running import BUILT, DEMO, USAGE, changed_streams, check, differs, report, run

sys.path.insert(0, DEMO)
import expect
from inserts import numbers
from strips import Stripping

# TAIL and TARGETS that are tried on each stream of the demo
TRIED = [[tail, targets] for tail in ("undo", "keep") for targets in ("all", "0", "1", "2", "4", "2,5", "4,6", "4,5", "5,4", "5,5", "4,9", "100", 18 * "9")]
# of streams that are made of these by turning bits and cutting; and of one that is made by this insertion
CHANGED = (("low.loas", ["keep", "4,6"]), ("joined.loas", ["keep", "all"]))
MADE, MADE_CHANGED = ["bare.loas", "1", "1", "4"], ["undo", "all"]
# words that are no case
WRONG = (["undo"], ["drop", "4"], ["Undo", "4"], ["undo", "every:2"], ["undo", "4,"], ["keep", ",4"], ["keep", "4,,5"], ["keep", "all,4"], ["undo", "ALL"],
         ["undo", ""], ["", "4"], ["undo", "4, 5"], ["undo", "+4"], ["undo", 19 * "9"], ["undo", "4", "5"])


def program(words, folder):
    return run(words, folder=folder, program=(BUILT,))


def check_strip(name, words):
    """Says where `strip` answers otherwise than the other reader."""
    return differs(program(["strip", name, *words], DEMO), expect.answer("strip", os.path.join(DEMO, name), *words))


def targets_of(word, text):
    """The TARGETS of `strip` that take out what `insert` at these put into a stream: none where it put nothing into it; and `all`, where
    nothing else is to be taken out."""
    stripping = Stripping(text, "undo", "all")
    listed = ",".join(map(str, numbers(word, len(stripping.frames))))
    return ([listed] if listed else []) + ([] if stripping.targets else ["all"])


def check_undone(name, words, folder):
    """Says where an insertion is not undone by `strip`, if it can be had; and whether it can. What `insert` writes is that of the other
    reader, by insert_checks.py."""
    with open(os.path.join(DEMO, name), "rb") as file:
        text = file.read()
    inserted, _, status = expect.answer("insert", os.path.join(DEMO, name), *words)
    if status:
        return None, False
    path = os.path.join(folder, "inserted.loas")
    with open(path, "wb") as file:
        file.write(inserted)
    found = None
    for targets in targets_of(words[2], text):
        found = found or differs(program(["strip", path, "undo", targets], folder), (text, b"", 0))
        wanted = expect.answer("strip", path, "keep", targets)
        found = found or differs(program(["strip", path, "keep", targets], folder), wanted)
    return found, True


def check_strips():
    names = sorted(it for it in os.listdir(DEMO) if it.endswith(".loas"))
    why, undone = None, 0
    for name in names:
        for words in TRIED:
            found = check_strip(name, words)
            why = why or (found and f"{name} {words}: {found}")
    report(f"{len(names) * len(TRIED)} strips, by demo/expect.py", why)
    why = None
    with tempfile.TemporaryDirectory() as folder:
        for name in names:
            for words in INSERTED:
                found, is_inserted = check_undone(name, words, folder)
                undone += is_inserted
                why = why or (found and f"{name} {words}: {found}")
    report(f"{undone} inserts are undone by strip, and stripped by demo/expect.py", why if undone else "there are none")
    for name, words in CHANGED:
        check_changed_strips(os.path.join(DEMO, name), words)
    with tempfile.TemporaryDirectory() as folder:
        made = os.path.join(folder, "inserted.loas")
        with open(made, "wb") as file:
            file.write(expect.answer("insert", os.path.join(DEMO, MADE[0]), *MADE[1:])[0])
        check_changed_strips(made, MADE_CHANGED)


def check_changed_strips(made_of, words):
    why, count = None, 0
    with tempfile.TemporaryDirectory() as folder:
        path = os.path.join(folder, "stream.loas")
        for what, text in changed_streams(made_of):
            with open(path, "wb") as file:
                file.write(text)
            found = differs(program(["strip", "stream.loas", *words], folder), expect.answer("strip", path, *words))
            why = why or (found and f"{what}: {found}")
            count += 1
    report(f"strip {' '.join(words)} of {count} streams made of {os.path.basename(made_of)}, by demo/expect.py", why)


def check_strip_faults():
    """Nothing that could be written, and words that are no case."""
    words = ["strip", "demo/low.loas", "keep", "all"]
    check("strip of a missing file", ["strip", "missing.loas", "undo", "all"], (b"", b"read fault\n", 3))
    with open("/dev/full", "wb") as full:
        check("strip to a full device", words, (b"", b"write fault\n", 4), stdout=full)
    closed = ("sh", "-c", 'exec "$@" >&-', "sh", BUILT)
    check("strip to a closed output", words, (b"", b"write fault\n", 4), program=closed)
    check("strip of nothing", ["strip", "demo/empty.loas", "undo", "all"], (b"", b"", 0))
    for words in WRONG:
        check(f"usage at strip FILE {words}", ["strip", "demo/low.loas", *words], (b"", USAGE, 2))
