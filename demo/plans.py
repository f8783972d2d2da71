"""Judges whether pieces of files can be joined at positions, and tells each on a line: `plan` of expect.py. Its rules are those of
`splice` too."""
from streams import WARM_UP, Broken, Stop, carried, frames_of, read_unit, refused, text_of


class Refused(Exception):
    """A piece breaks a rule as a whole: its text."""


def heard(unit):
    """What tells a unit from others: zeros at its end do not."""
    return unit.bits.rstrip("0")


class Piece:
    """The piece of a file that begins at a position and ends at the next one, if there is one, behind a file of that configuration."""

    def __init__(self, number, position, until, before):
        self.number, self.position, self.until, self.before = number, position, until, before
        self.usac, self.units = None, []  # those that stand before the frame that comes next
        self.carried, self.fade = 0, 0

    def judge_opening(self, usac):
        """At frame 0: rate and channels go on, and frames stand at the positions."""
        if self.before and usac.rate != self.before.rate:
            raise Refused("rate differs")
        if self.before and usac.channels != self.before.channels:
            raise Refused("channels differ")
        for position in (self.position, self.until):
            if position is not None and position % usac.samples:
                raise Refused(f"no frame at {position}")

    def begin(self, frame, unit):
        """The frame at which the piece begins, where something would stand before it."""
        usac = frame.mux.asc.usac
        if self.before and self.before.spelling == usac.spelling:
            raise Broken("same configuration")
        units, self.fade = carried(usac, unit)
        self.carried, need = len(units), WARM_UP[usac.ratio]
        if self.carried < need:
            raise Broken(f"too few units: {self.carried} of {need}")
        for number, other in enumerate(units):
            place = len(self.units) - self.carried + number
            if place < number or heard(other) != heard(self.units[place]):
                raise Broken(f"foreign preroll unit {number}")

    def judge(self, frame):
        """Each rule in its order."""
        usac, is_first = frame.mux.asc.usac, frame.number == 0
        if is_first:
            self.usac = usac
            self.judge_opening(usac)
        elif usac.spelling != self.usac.spelling:
            raise Broken("configuration changes")
        unit = read_unit(frame)
        if is_first and unit.preroll:
            self.units, fade = carried(usac, unit)
            if not self.position:
                self.carried, self.fade = len(self.units), fade
        elif is_first and unit.flag == "0":
            raise Broken("not independent")
        if frame.number * usac.samples == self.position and (self.position or self.before):
            self.begin(frame, unit)
        self.units.append(unit)

    def write(self, frame):
        """What is written of a frame that was judged."""
        return b""

    def ends(self, frames):
        """The first frame of the piece and the one behind it, in a file of so many frames."""
        if not frames or self.position // self.usac.samples >= frames:
            raise Refused("past end")
        first, last = self.position // self.usac.samples, frames
        if self.until is not None:
            last = self.until // self.usac.samples
        if last > frames:
            raise Refused("past end")
        return first, last

    def close(self, first, last):
        """What is written at the end of the file."""
        line = f"piece {self.number} frames {first} to {last} carried {self.carried} fade {self.fade}"
        return text_of([line])


def write_piece(piece, octets, written):
    """Adds what is written for a file. What refuses it names the piece."""
    frames = 0
    try:
        for frame in frames_of(octets):
            try:
                piece.judge(frame)
                written.append(piece.write(frame))
            except Broken as broken:
                raise refused(f"frame {frame.number}", broken) from broken
            frames += 1
        written.append(piece.close(*piece.ends(frames)))
    except Refused as rule:
        raise refused(f"piece {piece.number}", rule) from rule
    except Stop as stop:
        if stop.status == 1:
            stop.note = stop.note.replace("refused: ", f"refused: piece {piece.number}: ", 1)
        raise


def on_pieces(kind, files, positions):
    """What a command on pieces writes, notes and ends with: of files, each of which is a call that gives its bytes, and as many
    positions."""
    written, before = [], None
    try:
        for number in range(1, len(positions)):
            if positions[number] <= positions[number - 1]:
                raise refused(f"piece {number}", "positions do not rise")
        for number, (file, position, until) in enumerate(zip(files, positions, [*positions[1:], None])):
            try:
                octets = file()
            except OSError as fault:
                raise Stop("read fault\n", 3) from fault
            piece = kind(number, position, until, before)
            write_piece(piece, octets, written)
            before = piece.usac
    except Stop as stop:
        return b"".join(written), stop.note.encode(), stop.status
    return b"".join(written), b"", 0
