"""Reads streams: their frames, where they are at fault, and what their prerolls carry. It is the part of expect.py that knows no
commands."""
from layouts import Configuration, Element, Fault, PreRoll, Text, Unit

MOST_BYTES = 268_435_456
# by sbrRatioIndex: how many units the example core takes to warm up
WARM_UP = (1, 3, 2, 2)


class Stop(Exception):
    """The command ends here, with that note and status."""

    def __init__(self, note, status):
        super().__init__(note)
        self.note, self.status = note, status


class Broken(Exception):
    """A frame breaks a rule: its text."""


def refused(place, reason):
    return Stop(f"refused: {place}: {reason}\n", 1)


def read_body(octets, at, is_whole):
    """AudioSyncStream: the bytes behind the header at that place, and where they end. Where less stands there than a frame, the
    stream is cut if these bytes are the whole of it, and else it is too large."""
    head = octets[at : at + 3]
    if head[0] != 0x56 or len(head) > 1 and head[1] < 0xE0:
        raise refused(f"byte {at}", "sync lost")
    end = at + 3 + ((head[1] - 0xE0) * 256 + head[2] if len(head) == 3 else 0)
    if len(head) < 3 or len(octets) < end:
        raise refused(f"byte {at}", "truncated") if is_whole else Stop("too large\n", 7)
    return octets[at + 3 : end], end


class Frame:
    """One access unit, what is in force for it, and the mux that its element opens with, where it is the first of one."""

    def __init__(self, number, opening, mux, is_changed, unit):
        self.number, self.opening, self.mux = number, opening, mux
        self.is_changed, self.unit = is_changed, unit


def elements_of(octets):
    """The elements of a stream, each with the number of its first frame. Where the stream is at fault, the next one ends the command."""
    counted = octets[:MOST_BYTES]
    at, number, mux = 0, 0, None
    while at < len(counted):
        body, at = read_body(counted, at, len(octets) == len(counted))
        try:
            element = Element(body, mux)
        except Fault as fault:
            raise refused(f"frame {number} bit {fault.bit}", fault.reason) from fault
        yield number, element
        mux = element.mux
        number += len(element.slots)
    if len(octets) > len(counted):
        raise Stop("too large\n", 7)


def frames_of(octets):
    """The frames of a stream, one after another, in the same way."""
    before = None
    for number, element in elements_of(octets):
        spelling = element.mux.asc.usac.spelling
        is_changed = spelling != before
        before = spelling
        for place, unit in enumerate(element.slots):
            yield Frame(number + place, None if place else element.opening, element.mux, is_changed and place == 0, unit)


def read_unit(frame):
    try:
        return Unit(frame.mux.asc.usac, frame.unit)
    except Fault as fault:
        raise refused(f"frame {frame.number} bit {fault.bit}", fault.reason) from fault


def judge_configuration(bits, usac):
    """The bytes of the configuration that a preroll has spell the one in force, and at most 7 bits follow."""
    text = Text(bits, "configuration too short")
    try:
        spelling = Configuration(text).spelling
    except Fault as fault:
        raise Broken("bad preroll configuration") from fault
    if text.left() > 7:
        raise Broken("bad preroll configuration")
    if spelling != usac.spelling:
        raise Broken("preroll configuration differs")


def carried(usac, unit):
    """The units that the preroll of a frame carries, and whether it asks for a fade. Each rule is tried over all units before the
    next."""
    if not unit.preroll:
        raise Broken("no preroll")
    if not unit.is_immediate:
        raise Broken("preroll split")
    try:
        preroll = PreRoll(unit.preroll)
    except Fault as fault:
        raise Broken(f"bad preroll at bit {fault.bit}") from fault
    if preroll.configuration:
        judge_configuration(preroll.configuration, usac)
    units = []
    for number, bits in enumerate(preroll.units):
        try:
            units.append(Unit(usac, bits))
        except Fault as fault:
            raise Broken(f"bad carried unit {number} at bit {fault.bit}") from fault
    for number, other in enumerate(units):
        if other.preroll:
            raise Broken(f"nested preroll in unit {number}")
    if [*units, unit][0].flag == "0":
        raise Broken("first unit not independent")
    return units, preroll.fade


def text_of(lines):
    """The bytes of lines, each with its line feed."""
    return b"".join(line.encode() + b"\n" for line in lines)
