"""Inserts immediate play-out frames into a stream: `insert` of expect.py."""
from layouts import Unit
from splices import MOST_ELEMENT
from streams import Broken, Stop, read_unit, refused
from wholes import Whole, element_octets, filled, told, with_part

MOST_CONFIGURATION, MOST_UNITS, MOST_PAYLOAD = 285, 18, 65_788  # bytes, access units, bytes


def escaped(value, *widths):
    """escapedValue: a field of ones goes before a value that is not below it."""
    *early, last = widths
    bits = ""
    for width in early:
        ones = 2**width - 1
        bits += f"{min(value, ones):0{width}b}"
        if value < ones:
            return bits
        value -= ones
    return bits + f"{value:0{last}b}"


def clean(usac, bits):
    """An access unit as it is carried: without its preroll, where that has bytes."""
    unit = Unit(usac, bits)
    return filled(with_part(unit, bits, "0")) if unit.preroll else bits


def new_part(usac, payload):
    """UsacExtElement with this payload, whole."""
    octets = len(payload) // 8
    length = f"{octets:08b}" if octets < 255 else 8 * "1" + f"{octets - 253:016b}"
    _, has_fragments = usac.leading[0]
    return "1" + "0" + length + ("11" if has_fragments else "") + payload


def new_preroll(usac, fade, units):
    """AudioPreRoll with the configuration of the stream and these access units."""
    config = filled(usac.spelling)
    bits = escaped(len(config) // 8, 4, 4, 8) + config + fade + "0" + escaped(len(units), 2, 4)
    for unit in units:
        bits += escaped(len(unit) // 8, 16, 16) + unit
    return filled(bits)


def numbers(targets, frames):
    """The targets that a word names in a stream of so many frames."""
    if targets.startswith("every:"):
        step = int(targets.removeprefix("every:"))
        return list(range(step, frames, step))
    return [int(target) for target in targets.split(",")]


class Insertion(Whole):
    """What an insertion does to the elements of a stream."""

    def __init__(self, octets, count, fade, targets):
        super().__init__(octets)
        self.count, self.fade = int(count), fade
        self.targets = numbers(targets, len(self.frames))

    def judge_stream(self):
        """The rules over all frames, and those of the configuration."""
        usac = self.frames[0][2].mux.asc.usac if self.frames else None
        for _, _, frame in self.frames:
            if frame.mux.asc.usac.spelling != usac.spelling:
                raise refused(f"frame {frame.number}", "configuration changes")
            read_unit(frame)
        if usac is None or not usac.has_preroll:
            raise Stop("refused: preroll not declared\n", 1)
        if len(filled(usac.spelling)) > 8 * MOST_CONFIGURATION:
            raise Stop("refused: configuration too long\n", 1)
        return usac

    def change(self, usac, target):
        """Makes an immediate frame of a target."""
        element, place, frame = self.frames[target]
        unit = read_unit(frame)
        if unit.flag == "0":
            raise Broken("not independent")
        if unit.parts[0].payload is not None:
            raise Broken("already present")
        if target < self.count:
            raise Broken("too early")
        before = [it for _, _, it in self.frames[target - self.count : target]]
        if read_unit(before[0]).flag == "0":
            raise Broken("first unit not independent")
        payload = new_preroll(usac, self.fade, [clean(usac, it.unit) for it in before])
        if len(payload) > 8 * MOST_PAYLOAD:
            raise Broken("payload too long")
        slots = self.slots[id(element)]
        slots[place] = filled(with_part(unit, frame.unit, new_part(usac, payload)))
        if len(element_octets(element, slots)) > MOST_ELEMENT:
            raise Broken("too long")

    def run(self):
        """The bytes of the stream that it makes."""
        usac = self.judge_stream()
        if not 0 < self.count <= MOST_UNITS:
            raise Stop("refused: bad count\n", 1)
        self.judge_targets(self.targets)
        for target in self.targets:
            try:
                self.change(usac, target)
            except Broken as broken:
                raise refused(f"frame {target}", broken) from broken
        return self.written()


def inserted(octets, count, fade, targets):
    """What `insert` with these words behind the file writes, notes and ends with."""
    return told(lambda: Insertion(octets, count, fade, targets).run())
