#!/usr/bin/env python3
"""Says what `xheaac show FILE`, `xheaac check FILE`, `xheaac play FILE`, `xheaac start FILE FRAME`, `xheaac plan FILE POS [FILE POS]...`,
`splice` and `switch` with the same words, `xheaac insert FILE K FADE TARGETS` and `xheaac strip FILE TAIL TARGETS` are to do, by a reader of its
own: expect.py with the same words writes the same bytes and the same note, and ends with the same status. It shares no code with the
program. It reads a stream in any mux of one program and one layer, says at which bit or byte it is at fault, judges its prerolls, plays
it by the rules of a player and of the example core, judges whether pieces can be joined, joins them, plays them as they stand, inserts
prerolls, and takes them out again."""
import struct
import sys

from inserts import inserted
from layouts import Fault, PreRoll
from plans import Piece, on_pieces
from splices import Handed
from streams import WARM_UP, Broken, Stop, carried, frames_of, read_unit, refused, text_of
from strips import stripped

# how many times a fade has
FADED = 128


class Fold:
    """The example core: a context, and the values of the last units, the newest first."""

    def __init__(self, usac):
        self.usac = usac
        self.context = 0
        self.values = [0] * WARM_UP[usac.ratio]

    def weighted(self):
        return sum(times * value for times, value in enumerate(self.values, 2))

    def ramp(self, level, times):
        """Samples of 16 bits with a sign, the channels of one time side by side."""
        channels = range(1, self.usac.channels + 1)
        return [(level + time * channel + 32768) % 65536 - 32768 for time in range(times) for channel in channels]

    def step(self, unit):
        """The block of a unit."""
        places = sum(place for place, bit in enumerate(unit.bits[1:], 1) if bit == "1")
        value = (places if unit.flag == "1" else 3 * self.context + places) % 32768
        block = self.ramp(value + self.weighted(), self.usac.samples)
        self.context = value
        self.values = [value, *self.values[:-1]]
        return block

    def drain(self):
        """What is still to come behind the last unit."""
        return self.ramp(self.weighted(), FADED)


def blended(old, block, channels):
    """The block, into which these samples of the stream before fade."""
    front = [
        (before * (FADED - place // channels) + after * (place // channels)) // FADED
        for place, (before, after) in enumerate(zip(old, block))
    ]
    return front + block[len(front) :]


class Command:
    """What is written where a frame opens with a mux, before that frame is judged; for each frame; and behind the last one of a
    stream that was read to its end."""

    def open(self, mux):
        return b""

    def handle(self, frame):
        raise NotImplementedError

    def end(self):
        return b""


class Play(Command):
    """The samples of each frame. Decoding begins at the first frame, and where the configuration is another than before (a join):
    there a new core steps the units that the frame carries, and their blocks are dropped. Else the core goes on, and the preroll
    of the frame is not read."""

    core = None
    # whether the first frame that is played is one within a stream
    is_within = False

    def judge_start(self, unit):
        if not unit.preroll and unit.flag == "0":
            raise Broken("not independent")

    def judge_join(self, usac):
        if usac.rate != self.core.usac.rate:
            raise Broken("rate changed")
        if usac.channels != self.core.usac.channels:
            raise Broken("channels changed")

    def begin(self, usac, unit):
        """The block of a frame at which decoding begins."""
        old = self.core
        if old:
            self.judge_join(usac)
        elif not self.is_within:
            self.judge_start(unit)
        # where something stands before it that is not decoded
        is_behind = old or self.is_within
        units, fade = carried(usac, unit) if is_behind or unit.preroll else ([], 0)
        need = WARM_UP[usac.ratio]
        if is_behind and len(units) < need:
            raise Broken(f"too few units: {len(units)} of {need}")
        self.core = Fold(usac)
        for before in units:
            self.core.step(before)
        block = self.core.step(unit)
        return blended(old.drain(), block, usac.channels) if old and fade else block

    def handle(self, frame):
        unit = read_unit(frame)
        try:
            is_begun = self.core and not frame.is_changed
            block = self.core.step(unit) if is_begun else self.begin(frame.mux.asc.usac, unit)
        except Broken as broken:
            raise refused(f"frame {frame.number}", broken) from broken
        return struct.pack(f"<{len(block)}h", *block)


class Start(Play):
    """The samples of the frames from one on. Those before it are not judged and not decoded."""

    def __init__(self, first):
        self.first, self.is_within = first, first > 0
        self.is_reached = False

    def handle(self, frame):
        if frame.number < self.first:
            return b""
        self.is_reached = True
        return super().handle(frame)

    def end(self):
        if not self.is_reached:
            raise Stop("refused: past end\n", 1)
        return b""


class Switched(Piece):
    """A piece whose frames are played as they are judged. One player goes on through all pieces: at the first frame of each it begins
    anew with what that frame carries."""

    def __init__(self, player, *place):
        super().__init__(*place)
        self.player = player

    def write(self, frame):
        at = frame.number * self.usac.samples
        if at < self.position or self.until is not None and at >= self.until:
            return b""
        unit = read_unit(frame)
        block = self.player.begin(self.usac, unit) if at == self.position else self.player.core.step(unit)
        return struct.pack(f"<{len(block)}h", *block)

    def close(self, first, last):
        return b""


def preroll_lines(payload):
    try:
        return list(PreRoll(payload).shown())
    except Fault as fault:
        return [f"preroll bad bit={fault.bit}"]


class Show(Command):
    """The lines of each mux, at the first frame of its element, whether that frame is refused or not; and of each frame with its
    preroll, if it is immediate. A frame that is refused has no line."""

    def open(self, mux):
        return text_of(mux.shown())

    def handle(self, frame):
        unit = read_unit(frame)
        leading = ",".join(part.shown() for part in unit.parts) or "none"
        lines = [f"frame {frame.number} independent={unit.flag} bytes={len(frame.unit) // 8} leading={leading}"]
        if unit.is_immediate:
            lines += preroll_lines(unit.preroll)
        return text_of(lines)


class Check(Command):
    """One line, at the end alone: the numbers of frames, of runs of frames with the same configuration, of independent frames and
    of immediate ones. Each preroll of an immediate frame must keep the rules."""

    def __init__(self):
        self.frames = self.configurations = self.independent = self.immediate = 0

    def handle(self, frame):
        unit = read_unit(frame)
        try:
            if unit.is_immediate:
                carried(frame.mux.asc.usac, unit)
        except Broken as broken:
            raise refused(f"frame {frame.number}", broken) from broken
        self.frames += 1
        self.configurations += frame.is_changed
        self.independent += unit.flag == "1"
        self.immediate += unit.is_immediate
        return b""

    def end(self):
        return (
            f"frames {self.frames}, configurations {self.configurations}, independent {self.independent}, "
            f"immediate {self.immediate}\n"
        ).encode()


def run(command, octets):
    """Returns the bytes written, the note and the status."""
    written = []
    try:
        for frame in frames_of(octets):
            if frame.opening:
                written.append(command.open(frame.opening))
            written.append(command.handle(frame))
        written.append(command.end())
    except Stop as stop:
        return b"".join(written), stop.note.encode(), stop.status
    return b"".join(written), b"", 0


COMMANDS = {"check": Check, "play": Play, "show": Show, "start": Start}
ON_PIECES = {"plan": Piece, "splice": Handed, "switch": Switched}


def expected(word, octets, *numbers):
    """The same of the command with that word, and with the numbers behind the file."""
    return run(COMMANDS[word](*numbers), octets)


def read(name):
    with open(name, "rb") as file:
        return file.read()


def pieces(word, positions):
    """What makes the pieces of a command, at these positions."""
    if word != "switch":
        return ON_PIECES[word]
    player = Play()
    player.is_within = positions[0] > 0
    return lambda *place: Switched(player, *place)


def answer(word, *words):
    """What the command with these words writes, notes and ends with."""
    if word == "insert":
        return inserted(read(words[0]), *words[1:])
    if word == "strip":
        return stripped(read(words[0]), *words[1:])
    if word in ON_PIECES:
        files = [lambda name=name: read(name) for name in words[::2]]
        positions = [int(position) for position in words[1::2]]
        return on_pieces(pieces(word, positions), files, positions)
    return expected(word, read(words[0]), *map(int, words[1:]))


def main():
    written, note, status = answer(*sys.argv[1:])
    sys.stdout.buffer.write(written)
    sys.stderr.buffer.write(note)
    return status


if __name__ == "__main__":
    sys.exit(main())
