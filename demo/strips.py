"""Takes immediate play-out frames out of a stream: `strip` of expect.py."""
from streams import Broken, read_unit, refused
from wholes import Whole, filled, told, with_part


def undone(bits, rest):
    """The bits of a frame without those that fill no byte, where they are zeros and stand in its last `rest` bits."""
    spare = len(bits) % 8
    if spare > rest or "1" in bits[len(bits) - spare :]:
        raise Broken("not inserted")
    return bits[: len(bits) - spare]


class Stripping(Whole):
    """What a stripping does to the elements of a stream."""

    def __init__(self, octets, tail, targets):
        super().__init__(octets)
        self.tail = tail
        self.units = [read_unit(frame) for _, _, frame in self.frames]
        if targets == "all":
            self.targets = [number for number, unit in enumerate(self.units) if unit.is_immediate]
        else:
            self.targets = [int(target) for target in targets.split(",")]

    def change(self, target):
        """Takes the preroll out of a target."""
        element, place, frame = self.frames[target]
        unit = self.units[target]
        if not unit.is_immediate:
            raise Broken("no preroll")
        bits = with_part(unit, frame.unit, "0")
        self.slots[id(element)][place] = undone(bits, unit.rest) if self.tail == "undo" else filled(bits)

    def run(self):
        """The bytes of the stream that it makes."""
        self.judge_targets(self.targets)
        for target in self.targets:
            try:
                self.change(target)
            except Broken as broken:
                raise refused(f"frame {target}", broken) from broken
        return self.written()


def stripped(octets, tail, targets):
    """What `strip` with these words behind the file writes, notes and ends with."""
    return told(lambda: Stripping(octets, tail, targets).run())
