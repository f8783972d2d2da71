"""The checks of `insert` for .ci/quick."""
import os
import sys
import tempfile

from running import BUILT, DEMO, USAGE, changed_streams, check, differs, report, run

sys.path.insert(0, DEMO)
import expect

# K, FADE and TARGETS that are tried on each stream of the demo
TRIED = [
    *([count, fade, targets] for count in ("1", "2") for fade in "01" for targets in ("every:1", "every:2", "every:3", "1", "3,5", "4,5,6")),
    *(["1", "0", targets] for targets in ("0", "4", "5,4", "5,5", "4,9", "100", "every:100", 18 * "9")),
    *([count, "1", "every:5"] for count in ("0", "3", "18", "19", "4294967295", "4294967296", 18 * "9")),
]
# of streams that are made of this one by turning bits and cutting
CHANGED, WITH = "bare.loas", ["1", "1", "4,6"]
# words that are no case
WRONG = (["1", "0"], ["1", "2", "4"], ["1", "0", "4,"], ["1", "0", ",4"], ["1", "0", "4,,5"], ["1", "0", "every:0"], ["1", "0", "every:"],
         ["1", "0", "4, 5"], ["+1", "0", "4"], ["1", "00", "4"], ["1", "0", "every:1,2"], ["1", "0", 19 * "9"], ["1", "0", ""], ["1", "0", "4", "5"])


def check_insert(name, words, folder):
    """Says where `insert` answers otherwise than the other reader; and where it is done, `check` and `play` of what it wrote: it plays as
    the stream that it was made of."""
    got = run(["insert", name, *words], folder=DEMO, program=(BUILT,))
    found = differs(got, expect.answer("insert", os.path.join(DEMO, name), *words))
    if found or got[2]:
        return found
    with open(os.path.join(folder, "inserted.loas"), "wb") as file:
        file.write(got[0])
    found = differs(run(["check", "inserted.loas"], folder=folder, program=(BUILT,)), expect.expected("check", got[0]))
    played = run(["play", "inserted.loas"], folder=folder, program=(BUILT,))
    return found or differs(played, run(["play", name], folder=DEMO, program=(BUILT,)))


def check_inserts():
    names = sorted(it for it in os.listdir(DEMO) if it.endswith(".loas"))
    why = None
    with tempfile.TemporaryDirectory() as folder:
        for name in names:
            for words in TRIED:
                found = check_insert(name, words, folder)
                why = why or (found and f"{name} {words}: {found}")
    report(f"{len(names) * len(TRIED)} inserts, by demo/expect.py; check and play of what they write", why)
    check_changed_inserts()


def check_changed_inserts():
    why, count = None, 0
    with tempfile.TemporaryDirectory() as folder:
        path = os.path.join(folder, "stream.loas")
        for what, text in changed_streams(CHANGED):
            with open(path, "wb") as file:
                file.write(text)
            got = run(["insert", "stream.loas", *WITH], folder=folder, program=(BUILT,))
            found = differs(got, expect.answer("insert", path, *WITH))
            why = why or (found and f"{what}: {found}")
            count += 1
    report(f"insert into {count} streams made of {CHANGED}, by demo/expect.py", why)


def check_insert_faults():
    """Nothing that could be written, and words that are no case."""
    words = ["insert", "demo/bare.loas", *WITH]
    check("insert into a missing file", ["insert", "missing.loas", *WITH], (b"", b"read fault\n", 3))
    with open("/dev/full", "wb") as full:
        check("insert to a full device", words, (b"", b"write fault\n", 4), stdout=full)
    closed = ("sh", "-c", 'exec "$@" >&-', "sh", BUILT)
    check("insert to a closed output", words, (b"", b"write fault\n", 4), program=closed)
    for words in WRONG:
        check(f"usage at insert FILE {words}", ["insert", "demo/bare.loas", *words], (b"", USAGE, 2))
