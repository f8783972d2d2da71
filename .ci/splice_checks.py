"""The checks of `splice` for .ci/quick."""
import os
import sys
import tempfile

from running import BUILT, DEMO, USAGE, check, differs, report, run

sys.path.insert(0, DEMO)
import expect

# where two files are joined: the positions of frames that carry units, some of others, and the ends of files
POSITIONS = (0, 1000, 2048, 4096, 6144, 8192)
# of each of the first ones, each of the others joined behind it
BEFORE, BEHIND = ("low", "high"), ("low", "high", "bare", "joined", "cut", "empty")
# the words that are tried: pairs of files at these positions, and some more
TRIED = [
    *([f"{first}.loas", "0", f"{second}.loas", str(position)] for first in BEFORE for second in BEHIND for position in POSITIONS),
    ["low.loas", "0", "high.loas", "4096", "low.loas", "6144"],
    ["high.loas", "4096", "low.loas", "6144"],
    ["low.loas", "4096"],
    # other muxes, access units of up to 300 bytes, and a first frame with a preroll
    *([f"{name}.loas", "0"] for name in ("slots", "other", "long", "stereo", "carrying", "changing")),
    ["low.loas", "0", "missing.loas", "4096"],
]


def spliced(words):
    """What the other reader says of `splice` with these words."""
    return expect.answer("splice", *(word if at % 2 else os.path.join(DEMO, word) for at, word in enumerate(words)))


def check_splice(words, folder):
    """Says where `splice` answers otherwise than the other reader; and where it is done, `check` and `play` of what it wrote."""
    got = run(["splice", *words], folder=DEMO)
    found = differs(got, spliced(words))
    if found or got[2]:
        return found
    with open(os.path.join(folder, "spliced.loas"), "wb") as file:
        file.write(got[0])
    for word in ("check", "play"):
        wanted = expect.expected(word, got[0])
        found = found or differs(run([word, "spliced.loas"], folder=folder), wanted)
        found = found or (wanted[2] and f"{word} of it ends with status {wanted[2]}")
    return found


def check_splices():
    why = None
    with tempfile.TemporaryDirectory() as folder:
        for words in TRIED:
            found = check_splice(words, folder)
            why = why or (found and f"{words}: {found}")
    report(f"{len(TRIED)} splices, by demo/expect.py; check and play of what they write", why)


def check_splice_faults():
    """Nothing that could be written, and words that are no pieces."""
    words = ["splice", "demo/low.loas", "0", "demo/high.loas", "4096"]
    check("splice of a missing file", ["splice", "missing.loas", "0"], (b"", b"read fault\n", 3))
    with open("/dev/full", "wb") as full:
        check("splice to a full device", words, (b"", b"write fault\n", 4), stdout=full)
    closed = ("sh", "-c", 'exec "$@" >&-', "sh", BUILT)
    check("splice to a closed output", words, (b"", b"write fault\n", 4), program=closed)
    for words in (["splice"], ["splice", "demo/low.loas", "0", "demo/high.loas"], ["splice", "demo/low.loas", "+0"]):
        check(f"usage at {words}", words, (b"", USAGE, 2))
