"""The checks of `plan` for .ci/quick."""
import os
import sys
import tempfile

from running import BUILT, DEMO, USAGE, changed_streams, check, differs, report, run

sys.path.insert(0, DEMO)
import expect

# the positions at which `plan` tries to join two files
POSITIONS = (0, 1000, 1024, 2048, 4096, 6144, 8192, 49152)
# what it is tried on: of each of the first ones, each of the others joined behind it
BEFORE, BEHIND = ("low", "high", "plain"), ("low", "high", "bare", "plain", "joined", "stereo", "cut", "empty", "carrying")


def answered(command, words, folder=DEMO):
    """What the other reader says of a command on pieces with these words, in a folder."""
    return expect.answer(command, *(word if at % 2 else os.path.join(folder, word) for at, word in enumerate(words)))


def planned(words):
    return answered("plan", words)


def check_plans():
    """Pairs of files at some positions, some more, and as many pieces as there may be."""
    why, count = None, 0
    for first in BEFORE:
        for second in BEHIND:
            for position in POSITIONS:
                words = [f"{first}.loas", "0", f"{second}.loas", str(position)]
                found = differs(run(["plan", *words], folder=DEMO), planned(words))
                why = why or (found and f"{words}: {found}")
                count += 1
    report(f"{count} plans of two files, by demo/expect.py", why)
    for words in (
        ["low.loas", "0", "high.loas", "4096", "low.loas", "6144"],
        ["high.loas", "4096", "low.loas", "6144"],
        ["low.loas", "4096"],
        ["carrying.loas", "0"],
        ["low.loas", "0", "missing.loas", "4096"],
        ["missing.loas", "0", "low.loas", "0"],
    ):
        check(f"plan {' '.join(words)}, by demo/expect.py", ["plan", *words], planned(words), folder=DEMO)
    with tempfile.TemporaryDirectory() as folder:
        for name, text in renditions():
            with open(os.path.join(folder, name), "wb") as file:
                file.write(text)
        names = 32 * ("first.loas", "second.loas")
        words = [word for at, name in enumerate(names) for word in (name, str(2048 * at))]
        lines = "".join(
            f"piece {at} frames {2 * at} to {2 * at + 2} carried {min(at, 1)} fade 0\n" for at in range(64)
        )
        check("plan of 64 pieces", ["plan", *words], (lines.encode(), b"", 0), folder=folder)
        check("usage at plan of 65 pieces", ["plan", *words, "first.loas", "131072"], (b"", USAGE, 2), folder=folder)


def renditions():
    """Two streams of 128 frames made of low.loas, which differ in their identifiers. Each frame with an even number carries the unit
    before it."""
    with open(os.path.join(DEMO, "low.loas"), "rb") as file:
        low = file.read()
    opening, unit, carrying = low[:19], low[56:62], low[62:73]
    other = opening.replace(b"\xe4\x00\x02\x3f", b"\xe4\x00\x04\x3f")  # streamIdentifier 1 and 2, a bit further left
    return [(name, first + 63 * (unit + carrying) + unit) for name, first in (("first.loas", opening), ("second.loas", other))]


def check_joined_changes(command, name, position):
    """A command on the streams made of that one, each joined behind high.loas."""
    why, count = None, 0
    with tempfile.TemporaryDirectory() as folder:
        words = [os.path.join(DEMO, "high.loas"), "0", "stream.loas", str(position)]
        for what, text in changed_streams(name):
            with open(os.path.join(folder, "stream.loas"), "wb") as file:
                file.write(text)
            found = differs(run([command, *words], folder=folder, program=(BUILT,)), answered(command, words, folder))
            why = why or (found and f"{what}: {found}")
            count += 1
    report(f"{command} of {count} streams made of {name}, by demo/expect.py", why)
