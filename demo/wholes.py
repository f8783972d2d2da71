"""Changes a stream as a whole: what `insert` and `strip` of expect.py share."""
from layouts import packed
from splices import slot_bits
from streams import Frame, Stop, elements_of


def filled(bits):
    """Bits, with zeros behind them up to a whole byte."""
    return bits + "0" * (-len(bits) % 8)


def with_part(unit, bits, part):
    """The bits of a frame with these bits for its preroll element."""
    return unit.flag + part + bits[unit.core :]


def element_octets(element, slots):
    """The bytes of an element with these access units."""
    return packed(element.front + "".join(map(slot_bits, slots)) + element.behind)


class Whole:
    """A stream that was read to its end. The access units of its elements are changed target by target."""

    def __init__(self, octets):
        self.elements, self.frames = [], []
        for first, element in elements_of(octets):
            self.elements.append(element)
            self.frames += [(element, place, Frame(first + place, None, element.mux, False, bits)) for place, bits in enumerate(element.slots)]
        self.slots = {id(element): list(element.slots) for element in self.elements}

    def judge_targets(self, targets):
        before = -1
        for place, target in enumerate(targets):
            if not before < target < len(self.frames):
                raise Stop(f"refused: bad target {place}\n", 1)
            before = target

    def written(self):
        """The bytes of the stream as it is now."""
        bodies = [element_octets(element, self.slots[id(element)]) for element in self.elements]
        return b"".join((0x56E000 + len(body)).to_bytes(3, "big") + body for body in bodies)


def told(run):
    """What a command writes, notes and ends with, where this makes its bytes."""
    try:
        return run(), b"", 0
    except Stop as stop:
        return b"", stop.note.encode(), stop.status
