"""The frames of `rsvpd node`: as values, as the bytes of its stream, and as lines in words (docs/NODE-TOOLS.md).

A frame is a kind (1 byte), a length (2 bytes) and as many bytes of contents; numbers stand in network byte order. What a field can hold
can be written, whether or not a router takes it: so a stream that a router refuses can be written too.

It is imported by tools in this folder, and does nothing by itself.
"""
import collections
import re
import struct

OPENS, COMES, WAITS, CLEARS, SENDS, HEARS = 1, 2, 3, 4, 16, 17
MOST_CONTENTS = 65535
MOST_DATAGRAM = MOST_CONTENTS - 5
MOST_LINE = 262144  # bytes of a line in words
NOWHERE = 255  # the inward interface of a route that has none
WHYS = ("Unspelt", "NotMine", "NoSender", "NotInward", "NotOutward", "NoState", "Full")

# The frames as values. Addresses and numbers are numbers, datagrams bytes; the inward interface of a route is NOWHERE where it has none,
# and bit i of its outward interfaces stands for interface i.
Interface = collections.namedtuple("Interface", "address capacity mtu")
Route = collections.namedtuple("Route", "group source inward outward")
Opening = collections.namedtuple("Opening", "period interfaces routes")  # kind 1
Datagram = collections.namedtuple("Datagram", "kind interface destination data")  # kind 2, and 16
Wait = collections.namedtuple("Wait", "milliseconds word")  # kind 3
Clear = collections.namedtuple("Clear", "")  # kind 4
Taken = collections.namedtuple("Taken", "")  # kind 17, as the two that follow
Dropped = collections.namedtuple("Dropped", "why")
Answered = collections.namedtuple("Answered", "code value")
Bytes = collections.namedtuple("Bytes", "data")  # what is not one frame

INPUTS = (Opening, Wait, Clear)
HEARD = (Taken, Dropped, Answered)


class BadFrame(Exception):
    """What was given is no frame. The text says what is wanted."""


# ---- bytes
def framed(kind, contents):
    if len(contents) > MOST_CONTENTS:
        raise BadFrame(f"a frame has at most {MOST_CONTENTS} bytes behind its length, and not {len(contents)}")
    return struct.pack(">BH", kind, len(contents)) + contents


def bytes_of(frame):
    """The bytes of a frame, whose numbers fit its fields."""
    match frame:
        case Opening(period, interfaces, routes):
            contents = struct.pack(">IB", period, len(interfaces)) + b"".join(struct.pack(">IQI", *interface) for interface in interfaces)
            return framed(OPENS, contents + struct.pack(">H", len(routes)) + b"".join(struct.pack(">IIBH", *route) for route in routes))
        case Datagram(kind, interface, destination, data):
            return framed(kind, struct.pack(">BI", interface, destination) + data)
        case Wait():
            return framed(WAITS, struct.pack(">II", *frame))
        case Clear():
            return framed(CLEARS, b"")
        case Taken():
            return framed(HEARS, b"\0")
        case Dropped(why):
            return framed(HEARS, bytes([1, WHYS.index(why)]))
        case Answered(code, value):
            return framed(HEARS, struct.pack(">BBH", 2, code, value))
        case Bytes(data):
            return data


def opening_of(contents):
    try:
        period, count = struct.unpack_from(">IB", contents)
        interfaces = [Interface(*struct.unpack_from(">IQI", contents, 5 + 16 * k)) for k in range(count)]
        at = 5 + 16 * count
        (routes,) = struct.unpack_from(">H", contents, at)
        found = [Route(*struct.unpack_from(">IIBH", contents, at + 2 + 11 * k)) for k in range(routes)]
    except struct.error:
        raise BadFrame(f"an opening ends before its {len(contents)} bytes hold all that they count") from None
    if len(contents) != at + 2 + 11 * routes:
        raise BadFrame(f"an opening of {count} interfaces and {routes} routes has {at + 2 + 11 * routes} bytes, and not {len(contents)}")
    return Opening(period, tuple(interfaces), tuple(found))


def frame_of(kind, contents):
    """The frame of these contents."""
    size = len(contents)
    if kind == OPENS:
        return opening_of(contents)
    if kind in (COMES, SENDS):
        if size < 5:
            raise BadFrame(f"a datagram stands behind 5 bytes, an interface and a destination, and not behind {size}")
        return Datagram(kind, *struct.unpack(">BI", contents[:5]), contents[5:])
    if kind == WAITS:
        if size != 8:
            raise BadFrame(f"a wait has 8 bytes, milliseconds and a word, and not {size}")
        return Wait(*struct.unpack(">II", contents))
    if kind == CLEARS:
        if size:
            raise BadFrame(f"a clear has no bytes, and not {size}")
        return Clear()
    if kind == HEARS:
        if contents == b"\0":
            return Taken()
        if size == 2 and contents[0] == 1 and contents[1] < len(WHYS):
            return Dropped(WHYS[contents[1]])
        if size == 4 and contents[0] == 2:
            return Answered(*struct.unpack(">BH", contents[1:]))
        raise BadFrame(f"an answer is 00, or 01 and a byte below {len(WHYS)}, or 02 and three bytes, and not {contents.hex() or 'empty'}")
    raise BadFrame(f"kind {kind} is none of {OPENS}, {COMES}, {WAITS}, {CLEARS}, {SENDS}, {HEARS}")


def exactly(file, count):
    """So many bytes of a file, or fewer at its end."""
    data = b""
    while len(data) < count:
        more = file.read(count - len(data))
        if not more:
            break
        data += more
    return data


def frames_of_bytes(file):
    """The frames of a stream, as they come."""
    number = 0
    while head := exactly(file, 3):
        number += 1
        size = int.from_bytes(head[1:3], "big")
        contents = exactly(file, size) if len(head) == 3 else b""
        if len(head) < 3 or len(contents) < size:
            raise BadFrame(f"frame {number}: the input ends inside it")
        try:
            yield frame_of(head[0], contents)
        except BadFrame as why:
            raise BadFrame(f"frame {number}: {why}") from None


# ---- words
def dotted(address):
    return ".".join(str(byte) for byte in address.to_bytes(4, "big"))


def datagram_words(word, frame):
    return f"{word} {frame.interface} {dotted(frame.destination)} {frame.data.hex() or '-'}"


def lines_of(frame):
    """The lines of a frame."""
    match frame:
        case Opening(period, interfaces, routes):
            lines = [f"period {period}"] + [f"iface {dotted(address)} {capacity} {mtu}" for address, capacity, mtu in interfaces]
            for group, source, inward, outward in routes:
                outs = [str(k) for k in range(16) if outward >> k & 1]
                lines.append(" ".join(["route", dotted(group), dotted(source), "-" if inward == NOWHERE else str(inward), *outs]))
            return lines
        case Datagram(kind=kind):
            return [datagram_words("in" if kind == COMES else "out", frame)]
        case Wait(milliseconds, word):
            return [f"wait {milliseconds} {word}"]
        case Clear():
            return ["clear"]
        case Taken():
            return ["taken"]
        case Dropped(why):
            return [f"dropped {why}"]
        case Answered(code, value):
            return [f"answered {code}/{value}"]
        case Bytes(data):
            return [data.hex()]


def quoted(word):
    return '"' + word[:40].encode("unicode_escape").decode() + ("..." if len(word) > 40 else "") + '"'


def number_of(word, what, most):
    if not re.fullmatch("0|[1-9][0-9]{0,19}", word):
        raise BadFrame(f"{quoted(word)} is no number")
    if int(word) > most:
        raise BadFrame(f"{word} is too large: {what} is at most {most}")
    return int(word)


def address_of(word):
    parts = word.split(".")
    if len(parts) != 4 or not all(re.fullmatch("0|[1-9][0-9]{0,2}", part) and int(part) < 256 for part in parts):
        raise BadFrame(f"{quoted(word)} is no address: four numbers of 0 to 255 joined by .")
    return int.from_bytes(bytes(map(int, parts)), "big")


def digits_of(word):
    if word == "-":
        return b""
    if not re.fullmatch("([0-9A-Fa-f]{2})+", word):
        raise BadFrame(f"{quoted(word)} is no even number of hexadecimal digits, and not - for no bytes")
    return bytes.fromhex(word)


def frame_of_digits(data):
    """The frame that these bytes are; the bytes themselves where they are not one frame."""
    try:
        if len(data) >= 3 and int.from_bytes(data[1:3], "big") == len(data) - 3:
            return frame_of(data[0], data[3:])
    except BadFrame:
        pass
    return Bytes(data)


def read_interface(address, capacity, mtu):
    return Interface(address_of(address), number_of(capacity, "CAPACITY", 2**64 - 1), number_of(mtu, "MTU", 2**32 - 1))


def read_route(group, source, inward, *outs):
    outward = 0
    for word in outs:
        bit = 1 << number_of(word, "an outward interface", 15)
        if outward & bit:
            raise BadFrame(f"interface {word} stands twice")
        outward |= bit
    into = NOWHERE if inward == "-" else number_of(inward, "an inward interface", NOWHERE - 1)
    return Route(address_of(group), address_of(source), into, outward)


def datagram_reader(kind):
    def read(interface, destination, digits):
        data = digits_of(digits)
        if len(data) > MOST_DATAGRAM:
            raise BadFrame(f"a datagram has at most {MOST_DATAGRAM} bytes, and not {len(data)}")
        return Datagram(kind, number_of(interface, "IFACE", 255), address_of(destination), data)
    return read


def read_why(word):
    if word not in WHYS:
        raise BadFrame(f"{quoted(word)} is none of {', '.join(WHYS)}")
    return Dropped(word)


def read_answer(word):
    code, slash, value = word.partition("/")
    if not slash:
        raise BadFrame(f"{quoted(word)} is no CODE/VALUE")
    return Answered(number_of(code, "CODE", 255), number_of(value, "VALUE", 65535))


# Of each first word the form of its line, how many words may follow, and what reads them. The lines of an opening come first.
LINES = {
    "period": ("period MS", 1, 1, lambda word: number_of(word, "MS", 2**32 - 1)),
    "iface": ("iface ADDR CAPACITY MTU", 3, 3, read_interface),
    "route": ("route GROUP SOURCE IN OUT..", 3, 19, read_route),
    "in": ("in IFACE DST HEX", 3, 3, datagram_reader(COMES)),
    "wait": ("wait MS WORD", 2, 2, lambda ms, word: Wait(number_of(ms, "MS", 2**32 - 1), number_of(word, "WORD", 2**32 - 1))),
    "clear": ("clear", 0, 0, Clear),
    "out": ("out IFACE DST HEX", 3, 3, datagram_reader(SENDS)),
    "taken": ("taken", 0, 0, Taken),
    "dropped": ("dropped WHY", 1, 1, read_why),
    "answered": ("answered CODE/VALUE", 1, 1, read_answer),
}


class Words:
    """Reads lines. The lines of an opening make one frame, which is whole when another line comes, or the end."""

    def __init__(self):
        self.opening = None

    def end(self):
        """The opening that is whole now, if one has begun."""
        frames = [] if self.opening is None else [Opening(self.opening[0], tuple(self.opening[1]), tuple(self.opening[2]))]
        self.opening = None
        return frames

    def feed(self, line):
        """The frames that are whole with this line."""
        words = line.split()
        if line[:1] == "#" or not words:
            return []
        if re.fullmatch("([0-9A-Fa-f]{2})+", words[0]):
            return self.end() + [frame_of_digits(b"".join(map(digits_of, words)))]
        if words[0] not in LINES:
            raise BadFrame(f"{quoted(words[0])} begins no line: {', '.join(LINES)} do, and hexadecimal digits")
        form, least, most, reader = LINES[words[0]]
        if not least <= len(words) - 1 <= most:
            wanted = f"{least}" if least == most else f"{least} to {most}"
            raise BadFrame(f"{form}: {wanted} word{'s' if wanted != '1' else ''} stand{'s' if wanted == '1' else ''} behind the first, and not {len(words) - 1}")
        value = reader(*words[1:])
        if words[0] == "period":
            frames = self.end()
            self.opening = (value, [], [])
            return frames
        if words[0] in ("iface", "route"):
            if self.opening is None:
                raise BadFrame(f"{words[0]} lines stand behind the period line of their opening")
            self.opening[1 if words[0] == "iface" else 2].append(value)
            interfaces, routes = len(self.opening[1]), len(self.opening[2])
            if interfaces > 255 or 7 + 16 * interfaces + 11 * routes > MOST_CONTENTS:
                raise BadFrame(f"an opening has at most 255 interfaces, and {MOST_CONTENTS} bytes: 16 for each interface, 11 for each route, and 7")
            return []
        return self.end() + [value]


def frames_of_words(file):
    """The frames of lines in words, as they come."""
    words, number = Words(), 0
    try:
        while line := file.readline(MOST_LINE + 1):
            number += 1
            if len(line) > MOST_LINE:
                raise BadFrame(f"a line has at most {MOST_LINE} bytes")
            yield from words.feed(line.decode("latin-1").rstrip("\n"))
        yield from words.end()
    except BadFrame as why:
        raise BadFrame(f"line {number}: {why}") from None


def frames_of(file):
    """The frames of a file that holds bytes or lines, whichever its first byte says: each kind of frame is a byte that begins no line."""
    first = file.peek(1)[:1]
    return frames_of_bytes(file) if first and first[0] in (OPENS, COMES, WAITS, CLEARS, SENDS, HEARS) else frames_of_words(file)
