"""Writes pieces of files as one stream: `splice` of expect.py."""
from layouts import packed
from plans import Piece
from streams import Broken

MOST_ELEMENT = 8191  # the bytes of an AudioMuxElement in a LOAS frame


def mux_bits(specific):
    """StreamMuxConfig of one slot an element, with these bits of an AudioSpecificConfig."""
    # audioMuxVersion, allStreamsSameTimeFraming; numSubFrames, numProgram, numLayer
    opening = "0" + "1" + 6 * "0" + 4 * "0" + 3 * "0"
    # frameLengthType, latmBufferFullness; otherDataPresent, crcCheckPresent
    return opening + specific + 3 * "0" + 8 * "1" + "0" + "0"


def slot_bits(unit):
    """MuxSlotLengthBytes, and the bits of an access unit."""
    octets = len(unit) // 8
    return octets // 255 * (8 * "1") + f"{octets % 255:08b}" + unit


def canonical(specific, unit):
    """The LOAS frame of an access unit, with a mux where the bits of an AudioSpecificConfig are given."""
    bits = "1" if specific is None else "0" + mux_bits(specific)  # useSameStreamMux
    bits += slot_bits(unit)
    element = packed(bits + -len(bits) % 8 * "0")
    if len(element) > MOST_ELEMENT:
        raise Broken("too long")
    return (0x56E000 + len(element)).to_bytes(3, "big") + element


class Handed(Piece):
    """A piece whose frames are written, each as it was judged. The first one has the AudioSpecificConfig that is in force there."""

    def write(self, frame):
        at = frame.number * self.usac.samples
        if at < self.position or self.until is not None and at >= self.until:
            return b""
        return canonical(frame.mux.asc.spelling if at == self.position else None, frame.unit)

    def close(self, first, last):
        return b""
