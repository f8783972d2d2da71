"""Reads the layouts of bits: configurations, elements of a mux, frames and prerolls. A field at fault raises Fault. It is the
part of expect.py that knows no files, no commands and no rules over several layouts."""

MOST_OTHER = 65_535  # the bits of other data in an element

RATES = {
    **dict(enumerate((96000, 88200, 64000, 48000, 44100, 32000, 24000, 22050, 16000, 12000, 11025, 8000, 7350))),
    **dict(enumerate((57600, 51200, 40000, 38400, 34150, 28800, 25600, 20000, 19200, 17075, 14400, 12800, 9600), 15)),
}
# by coreSbrFrameLengthIndex: sbrRatioIndex, and the samples of a frame and a channel
FRAMES = ((0, 768), (0, 1024), (2, 2048), (3, 2048), (1, 4096))
CHANNELS = (None, 1, 2, 3, 4, 5, 6, 8, 2, 3, 4, 7, 8, 24)


class Fault(Exception):
    """A field of an element is at fault: its first bit, and the reason."""

    def __init__(self, bit, reason):
        super().__init__(reason)
        self.bit, self.reason = bit, reason


def packed(bits):
    """The bytes of as many bits."""
    return int(bits or "0", 2).to_bytes(len(bits) // 8, "big")


class Text:
    """A text of bits that is read from its front."""

    def __init__(self, bits, lacking):
        self.bits = bits
        self.at = 0
        self.end = len(bits)
        self.lacking = lacking  # the reason where a field lacks bits

    def left(self):
        return self.end - self.at

    def run(self, count, field=None):
        """The next bits. Where they are a part of a field, that begins at `field`."""
        if self.left() < count:
            raise Fault(self.at if field is None else field, self.lacking)
        self.at += count
        return self.bits[self.at - count : self.at]

    def number(self, width, field=None):
        return int(self.run(width, field) or "0", 2)

    def numbers(self, *widths):
        return [self.number(width) for width in widths]

    def octets(self, count):
        return packed(self.run(8 * count))

    def escaped(self, *widths):
        """escapedValue: a field of ones is followed by another one."""
        value, field = 0, self.at
        for width in widths:
            more = self.number(width, field)
            value += more
            if more != 2**width - 1:
                break
        return value

    def latm_value(self):
        """LatmGetValue: a count of bytes, and as many bytes."""
        field = self.at
        return self.number(8 * (self.number(2, field) + 1), field)

    def slot_length(self):
        """MuxSlotLengthBytes: bytes are summed until one of them is not 255."""
        value, field = 0, self.at
        while (more := self.number(8, field)) == 255:
            value += more
        return value + more

    def fixed(self, width, value, name):
        """A field of which the profile takes one value alone."""
        field = self.at
        if self.number(width) != value:
            raise Fault(field, f"out of profile: {name}")


def dash(value):
    return "-" if value is None else value


def listed(values):
    return "-" if values is None else ",".join(str(value) for value in values)


def hexed(octets):
    return octets.hex() or "-"


class Configuration:
    """UsacConfig, and the lines of its parts."""

    def __init__(self, text):
        begin = text.at
        self.read_output(text)
        self.lines = []  # those of the elements and extensions
        self.leading = []  # of each extension element before the first other one: its default length, and whether it has fragments
        self.has_preroll = False
        field = text.at
        self.elements = text.escaped(4, 8, 16) + 1
        if self.elements > 64:
            raise Fault(field, "too many elements")
        for number in range(self.elements):
            self.read_element(text, number)
        self.stream = None  # the stream identifier
        self.extensions = text.escaped(2, 4, 8) + 1 if text.number(1) else 0  # usacConfigExtensionPresent
        for number in range(self.extensions):
            self.read_extension(text, number)
        self.spelling = text.bits[begin : text.at]

    def read_output(self, text):
        field = text.at
        rate_index = text.number(5)  # usacSamplingFrequencyIndex
        self.rate = RATES.get(rate_index)
        if rate_index == 31:
            field = text.at
            self.rate = text.number(24)  # usacSamplingFrequency
        if not self.rate:
            raise Fault(field, "rate zero" if rate_index == 31 else "reserved rate index")
        field = text.at
        frame_index = text.number(3)  # coreSbrFrameLengthIndex
        if frame_index >= len(FRAMES):
            raise Fault(field, "reserved frame length index")
        self.ratio, self.samples = FRAMES[frame_index]
        field = text.at
        channel_index = text.number(5)  # channelConfigurationIndex
        if channel_index >= len(CHANNELS):
            raise Fault(field, "reserved channel index")
        self.channels, self.positions = CHANNELS[channel_index], None
        if channel_index == 0:
            self.read_positions(text)

    def read_positions(self, text):
        """UsacChannelConfig."""
        field = text.at
        self.channels = text.escaped(5, 8, 16)  # numOutChannels
        if self.channels == 0:
            raise Fault(field, "no channels")
        if self.channels > 64:
            raise Fault(field, "too many channels")
        self.positions = [text.number(5) for _ in range(self.channels)]

    def read_element(self, text, number):
        kind = text.number(2)  # usacElementType
        if kind == 3:
            type_number, default, fragments, line = read_ext_element(text)
            if len(self.leading) == number:
                self.leading.append((default or 0, fragments))
            self.has_preroll |= number == 0 and type_number == 3
            self.lines.append(f"element {number} ext {line}")
        elif kind == 2:
            self.lines.append(f"element {number} lfe")
        else:
            name, stereo, below = "pair" if kind else "single", 0, []
            time_warp, noise = text.numbers(1, 1)
            if self.ratio:
                below.append(read_sbr(text))
            if kind and self.ratio:
                stereo = text.number(2)  # stereoConfigIndex
            if stereo:
                below.append(read_mps212(text, stereo))
            self.lines.append(f"element {number} {name} tw={time_warp} nf={noise}" + (f" stereo={stereo}" if kind else ""))
            self.lines += below

    def read_extension(self, text, number):
        kind = text.escaped(4, 8, 16)
        octets = text.octets(text.escaped(4, 8, 16))
        if kind == 7 and len(octets) == 2 and self.stream is None:
            self.stream = int.from_bytes(octets, "big")
        self.lines.append(f"extension {number} type={kind} bytes={hexed(octets)}")

    def shown(self):
        yield (
            f"usac rate={self.rate} frame={self.samples} channels={self.channels} elements={self.elements} "
            f"extensions={self.extensions} id={dash(self.stream)}"
        )
        if self.positions is not None:
            yield f"positions {listed(self.positions)}"
        yield from self.lines


def read_ext_element(text):
    """UsacExtElementConfig."""
    kind, count = text.escaped(4, 8, 16), text.escaped(4, 8, 16)
    default = text.escaped(8, 16) + 1 if text.number(1) else None
    fragments = text.number(1)
    line = f"type={kind} default={dash(default)} frag={fragments} config={hexed(text.octets(count))}"
    return kind, default, fragments, line


def read_sbr(text):
    """SbrConfig."""
    harmonic, tes, pvc, start, stop, has_extra1, has_extra2 = text.numbers(1, 1, 1, 4, 4, 1, 1)
    extra1 = text.numbers(2, 1, 2) if has_extra1 else None
    extra2 = text.numbers(2, 2, 1, 1) if has_extra2 else None
    return f"sbr harmonic={harmonic} tes={tes} pvc={pvc} start={start} stop={stop} extra1={listed(extra1)} extra2={listed(extra2)}"


def read_mps212(text, stereo):
    """Mps212Config."""
    freq, gain, shape, decorr, high, phase, has_ott = text.numbers(3, 3, 2, 2, 1, 1, 1)
    ott = text.number(5) if has_ott else None
    residual = text.numbers(5, 1) if stereo > 1 else None
    quant = text.number(1) if shape == 2 else None
    return (
        f"mps freq={freq} gain={gain} shape={shape} decorr={decorr} high={high} phase={phase} "
        f"ott={dash(ott)} residual={listed(residual)} quant={dash(quant)}"
    )


class Specific:
    """AudioSpecificConfig. It is counted where its end is known; then up to 7 bits may follow."""

    def __init__(self, text, counted=None):
        begin, behind = text.at, text.end
        text.lacking = "configuration too short"
        if counted is not None:
            text.end = text.at + counted
        self.read_type(text)
        self.index = text.number(4)  # samplingFrequencyIndex
        self.rate = text.number(24) if self.index == 15 else None  # samplingFrequency
        self.channels = text.number(4)  # channelConfiguration
        self.usac = Configuration(text)
        self.spelling = text.bits[begin : text.at]
        self.tail = 0 if counted is None else text.left()
        if self.tail > 7:
            raise Fault(text.at, "configuration tail too long")
        text.run(self.tail)
        text.end, text.lacking = behind, "mux too short"

    def read_type(self, text):
        field = text.at
        kind = text.number(5)  # audioObjectType
        if kind == 31:
            kind = 32 + text.number(6, field)  # audioObjectTypeExt
        if kind != 42:
            raise Fault(field, f"not USAC: type {kind}")

    def shown(self):
        yield f"asc index={self.index} rate={dash(self.rate)} channels={self.channels} tail={self.tail}"
        yield from self.usac.shown()


class Mux:
    """StreamMuxConfig."""

    def __init__(self, text):
        self.version = text.number(1)  # audioMuxVersion
        if self.version:
            text.fixed(1, 0, "audioMuxVersionA")
            text.latm_value()  # taraBufferFullness
        text.fixed(1, 1, "allStreamsSameTimeFraming")
        self.slots = text.number(6) + 1  # numSubFrames
        text.fixed(4, 0, "numProgram")
        text.fixed(3, 0, "numLayer")
        counted = text.latm_value() if self.version else None  # ascLen
        if counted is not None and text.left() < counted:
            raise Fault(text.at, text.lacking)
        self.asc = Specific(text, counted)
        text.fixed(3, 0, "frameLengthType")
        self.fullness = text.number(8)  # latmBufferFullness
        self.other = self.read_other(text) if text.number(1) else None  # otherDataPresent
        self.crc = text.octets(1) if text.number(1) else b""  # crcCheckPresent, crcCheckSum

    def read_other(self, text):
        """The number of bits of other data. In version 0 it is too large as soon as the bytes so far are."""
        field, value, more = text.at, 0, 1
        if self.version:
            value = text.latm_value()
        while not self.version and more and value <= MOST_OTHER:
            more = text.number(1, field)  # otherDataLenEsc
            value = 256 * value + text.number(8, field)
        if value > MOST_OTHER:
            raise Fault(field, "out of profile: otherDataLenBits")
        return value

    def shown(self):
        yield (
            f"mux version={self.version} subframes={self.slots} fullness={self.fullness} "
            f"other={dash(self.other)} crc={hexed(self.crc)}"
        )
        yield from self.asc.shown()


class Element:
    """AudioMuxElement: the mux that it opens with, if any; the bits before its slots, those of each access unit, and those behind them."""

    def __init__(self, octets, in_force):
        text = Text("".join(f"{octet:08b}" for octet in octets), "mux too short")
        goes_on = text.number(1)  # useSameStreamMux
        if goes_on and in_force is None:
            raise Fault(0, "no configuration")
        self.opening = None if goes_on else Mux(text)
        self.mux = self.opening or in_force
        self.front = text.bits[: text.at]
        self.slots = [text.run(8 * text.slot_length()) for _ in range(self.mux.slots)]
        self.behind = text.bits[text.at :]
        text.run(self.mux.other or 0)


class Part:
    """UsacExtElement: the bits of its payload, if it is present, and whether they are a whole that begins and ends here."""

    def __init__(self, text, default, fragments):
        self.payload, self.is_whole = None, True
        if not text.number(1):  # usacExtElementPresent
            return
        length = default
        if not text.number(1):  # usacExtElementUseDefaultLength
            length = text.number(8)
            if length == 255:
                length += text.number(16) - 2
        if length and fragments:
            self.is_whole = text.numbers(1, 1) == [1, 1]  # usacExtElementStart, usacExtElementStop
        self.payload = text.run(8 * length)

    def shown(self):
        return "-" if self.payload is None else str(len(self.payload) // 8)


class Unit:
    """UsacFrame under a configuration, as far as its leading extension elements."""

    def __init__(self, usac, bits):
        text = Text(bits, "frame too short")
        self.flag = text.run(1)  # usacIndependencyFlag
        self.core = text.at
        self.parts = []
        self.preroll, self.is_immediate = "", False
        for number, element in enumerate(usac.leading):
            part = Part(text, *element)
            self.parts.append(part)
            if number == 0 and usac.has_preroll:
                self.core = text.at
                self.preroll = part.payload or ""
                self.is_immediate = self.preroll != "" and part.is_whole
        self.rest = text.left()  # the number of bits behind these elements
        self.bits = self.flag + text.bits[self.core :]  # what the core sees


class PreRoll:
    """AudioPreRoll: the bits of a configuration and of access units."""

    def __init__(self, payload):
        text = Text(payload, "bad preroll")
        self.configuration = text.run(8 * text.escaped(4, 4, 8))  # configLen, Config
        self.fade, self.reserved = text.numbers(1, 1)  # applyCrossfade
        count = text.escaped(2, 4)  # numPreRollFrames
        self.units = [text.run(8 * text.escaped(16, 16)) for _ in range(count)]  # auLen, AccessUnit
        self.tail = text.left()

    def shown(self):
        yield (
            f"preroll config={len(self.configuration) // 8} fade={self.fade} reserved={self.reserved} "
            f"units={len(self.units)} tail={self.tail}"
        )
        for number, unit in enumerate(self.units):
            yield f"unit {number} {hexed(packed(unit))}"
