"""Runs the program for .ci/quick, and reports a line a check."""
import os
import subprocess

TOP = os.path.dirname(os.path.dirname(os.path.abspath(__file__)))
PROGRAM = os.path.join(TOP, "xheaac")
BUILT = os.path.join(TOP, "crates", "xheaac", "out", "xheaac")  # what PROGRAM starts
DEMO = os.path.join(TOP, "demo")
SECONDS = 60
USAGE = (
    b"usage: xheaac show|check|play FILE | start FILE FRAME | plan|splice|switch FILE POS [FILE POS]... | "
    b"insert FILE K FADE TARGETS | strip FILE TAIL TARGETS | make START FRAMES\n"
)
failed = []  # what failed


def report(what, why):
    """Prints the line of one check, which failed where there is a reason."""
    if why:
        failed.append(what)
    print(f"quick: {what}: {why or 'ok'}", flush=True)


def run(words, folder=TOP, stdout=subprocess.PIPE, program=(PROGRAM,)):
    """Returns what the program wrote, what it noted and its status."""
    ran = subprocess.run(
        [*program, *words], cwd=folder, stdin=subprocess.DEVNULL, stdout=stdout, stderr=subprocess.PIPE, timeout=SECONDS
    )
    return ran.stdout or b"", ran.stderr, ran.returncode


def differs(got, wanted):
    """Says in a few words where an answer is not the wanted one."""
    (written, note, status), (wanted_bytes, wanted_note, wanted_status) = got, wanted
    if status != wanted_status:
        return f"status {status}, not {wanted_status}; note {note!r}"
    if note != wanted_note:
        return f"note {note!r}, not {wanted_note!r}"
    if written != wanted_bytes:
        same = len(os.path.commonprefix([written, wanted_bytes]))
        return f"{len(written)} bytes, {len(wanted_bytes)} wanted; the first {same} agree"
    return None


def check(what, words, wanted, **how):
    report(what, differs(run(words, **how), wanted))


def changed_streams(name):
    """A small stream with each bit turned, and cut after each byte; and a few that run on."""
    with open(os.path.join(DEMO, name), "rb") as file:
        whole = file.read()
    for place in range(8 * len(whole)):
        text = bytearray(whole)
        text[place // 8] ^= 128 >> place % 8
        yield f"bit {place} turned", bytes(text)
    for length in range(len(whole)):
        yield f"cut after {length} bytes", whole[:length]
    for more in (b"\0", b"\x56", whole, whole[-6:] * 50):
        yield f"{len(more)} bytes more", whole + more
