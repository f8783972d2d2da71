"""The checks of `switch` for .ci/quick."""
import os
import sys
import tempfile

from running import BUILT, DEMO, USAGE, check, differs, report, run
from splice_checks import TRIED

sys.path.insert(0, DEMO)
import expect


def switched(words):
    """What the other reader says of `switch` with these words."""
    return expect.answer("switch", *(word if at % 2 else os.path.join(DEMO, word) for at, word in enumerate(words)))


def check_switch(words, folder):
    """Says where `switch` answers otherwise than the other reader; and where it does not write what `play` writes of the bytes that
    `splice` writes, or does not note and end with what `plan` does."""
    got = run(["switch", *words], folder=DEMO)
    found = differs(got, switched(words))
    with open(os.path.join(folder, "spliced.loas"), "wb") as file:
        file.write(run(["splice", *words], folder=DEMO, program=(BUILT,))[0])
    played = run(["play", "spliced.loas"], folder=folder, program=(BUILT,))[0]
    _, note, status = run(["plan", *words], folder=DEMO, program=(BUILT,))
    beside = differs(got, (played, note, status))
    return found or beside and f"beside splice, play and plan: {beside}"


def check_switches():
    why = None
    with tempfile.TemporaryDirectory() as folder:
        for words in TRIED:
            found = check_switch(words, folder)
            why = why or (found and f"{words}: {found}")
    report(f"{len(TRIED)} switches, by demo/expect.py; beside splice, play and plan", why)


def check_switch_faults():
    """Nothing that could be written, and words that are no pieces."""
    words = ["switch", "demo/low.loas", "0", "demo/high.loas", "4096"]
    check("switch of a missing file", ["switch", "missing.loas", "0"], (b"", b"read fault\n", 3))
    with open("/dev/full", "wb") as full:
        check("switch to a full device", words, (b"", b"write fault\n", 4), stdout=full)
    closed = ("sh", "-c", 'exec "$@" >&-', "sh", BUILT)
    check("switch to a closed output", words, (b"", b"write fault\n", 4), program=closed)
    for words in (["switch"], ["switch", "demo/low.loas", "0", "demo/high.loas"], ["switch", "demo/low.loas", "+0"]):
        check(f"usage at {words}", words, (b"", USAGE, 2))
