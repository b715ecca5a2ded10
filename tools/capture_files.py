"""Capture files, for the tools that read or write them: pcap and pcapng, the IPv4 datagrams in their packets, and how such are made.

It is imported by tools in this folder, and does nothing by itself.
"""
import collections
import struct

# Link types (tcpdump.org/linktypes.html): where the protocol stands, and where the datagram begins.
ETHERNET, RAW, LOOPBACK, COOKED, COOKED_2, RAW_IPV4 = 1, 101, 0, 113, 276, 228
IPV4 = 0x0800
TAGS = (0x8100, 0x88A8)
RSVP, UDP = 46, 17  # IP protocol numbers (RFC 2205, 3.1)
ROUTER_ALERT = 148  # RFC 2113
UNKNOWN, INBOUND, OUTBOUND = 0, 1, 2  # as pcapng has them in the flags of a packet
MOST_PENDING = 64  # datagrams in fragments that are waited for
MOST_PIECE = 1 << 24  # bytes of a packet or a block, as of libpcap

Captured = collections.namedtuple("Captured", "number link time data way")
Captured.__doc__ = """A packet of a capture: its number, from 1; its link type; its time in nanoseconds; its bytes; and which way it went."""


class BadCapture(Exception):
    """The file is of no use as a capture."""


# ---- reading
def units_of(options, order):
    """How many nanoseconds a unit of time is, by the options of an interface, as a fraction."""
    for code, value in options_of(options, order):
        if code == 9 and len(value) == 1:
            return (1_000_000_000, 2 ** (value[0] & 0x7F)) if value[0] & 0x80 else (1_000_000_000, 10 ** value[0])
    return (1000, 1)


def options_of(options, order):
    at = 0
    while at + 4 <= len(options):
        code, size = struct.unpack(order + "HH", options[at:at + 4])
        if code == 0:
            return
        yield code, options[at + 4:at + 4 + size]
        at += 4 + (size + 3) // 4 * 4


def taken(file, count, inside):
    """So many bytes of a file that is read as it comes; none at its end, unless it ends inside of something."""
    if count > MOST_PIECE:
        raise BadCapture(f"a {inside} of {count} bytes, more than {MOST_PIECE}")
    data = file.read(count)
    if len(data) < count and (data or inside):
        raise BadCapture(f"the file ends inside a {inside or 'packet'}")
    return data


def packets_of_pcap(file, order, units):
    link = struct.unpack(order + "16xI", taken(file, 20, "head"))[0] & 0xFFFF
    number = 0
    while head := taken(file, 16, ""):
        seconds, part, count, _ = struct.unpack(order + "IIII", head)
        number += 1
        yield Captured(number, link, seconds * 1_000_000_000 + part * units, taken(file, count, "packet"), UNKNOWN)


def packets_of_pcapng(file, kind):
    """The packets of a file of which the kind of the first block was read."""
    order, interfaces, number = "<", [], 0
    while kind:
        size, body = taken(file, 4, "block"), b""
        if kind == b"\x0a\x0d\x0d\x0a":
            body = taken(file, 4, "block")
            order, interfaces = "<" if body == b"\x4d\x3c\x2b\x1a" else ">", []
        kind, size = (struct.unpack(order + "I", word)[0] for word in (kind, size))
        if size < 12 + len(body):
            raise BadCapture("a block is shorter than its head")
        body += taken(file, size - 8 - len(body), "block")[:-4]
        if len(body) < {1: 8, 6: 20}.get(kind, 0):
            raise BadCapture("a block ends inside its head")
        if kind == 1:
            interfaces.append((struct.unpack(order + "H", body[:2])[0], units_of(body[8:], order)))
        elif kind == 6:
            which, high, low, count = struct.unpack(order + "IIII", body[:16])
            number += 1
            if which >= len(interfaces):
                raise BadCapture("a packet is of no interface of the file")
            link, (times, by) = interfaces[which]
            flags = [value for code, value in options_of(body[20 + (count + 3) // 4 * 4:], order) if code == 2 and len(value) == 4]
            way = struct.unpack(order + "I", flags[0])[0] & 3 if flags else UNKNOWN
            yield Captured(number, link, (high << 32 | low) * times // by, body[20:20 + count], way)
        kind = taken(file, 4, "")


def packets_of(file):
    """The packets of a capture, each as soon as it is there; the file is read as it comes."""
    magic = file.read(4)
    if magic == b"\x0a\x0d\x0d\x0a":
        return packets_of_pcapng(file, magic)
    for order in "<>":
        for number, units in ((0xA1B2C3D4, 1000), (0xA1B23C4D, 1)):
            if magic == struct.pack(order + "I", number):
                return packets_of_pcap(file, order, units)
    raise BadCapture("the file is neither pcap nor pcapng")


def datagram_of(packet):
    """The bytes from the IPv4 header on; None where the packet has another protocol."""
    link, data = packet.link, packet.data
    if link in (RAW, RAW_IPV4):
        return data if data[:1] and data[0] >> 4 == 4 else None
    if link == LOOPBACK:
        return data[4:] if data[:4] in (b"\x02\0\0\0", b"\0\0\0\x02") else None
    at = {ETHERNET: 12, COOKED: 14, COOKED_2: 0}.get(link)
    if at is None:
        raise BadCapture(f"packets of link type {link} are not known")
    begin = {ETHERNET: 14, COOKED: 16, COOKED_2: 20}[link]
    while int.from_bytes(data[at:at + 2], "big") in TAGS and link == ETHERNET:
        at, begin = at + 4, begin + 4
    return data[begin:] if int.from_bytes(data[at:at + 2], "big") == IPV4 else None


def way_of(packet):
    """Which way a packet went, as far as the capture says."""
    if packet.way == UNKNOWN and packet.link in (COOKED, COOKED_2):
        sort = packet.data[0:2] if packet.link == COOKED else b"\0" + packet.data[10:11]
        return OUTBOUND if sort == b"\0\4" else INBOUND
    return packet.way


class Fragments:
    """Puts the fragments of datagrams together. A datagram is given with the last of its fragments that comes."""

    def __init__(self):
        self.parts = {}

    def whole(self, datagram):
        """The datagram that is whole now; None where some of it is still to come. Its length is that of its header."""
        head, size = (datagram[0] & 15) * 4, int.from_bytes(datagram[2:4], "big")
        place = int.from_bytes(datagram[6:8], "big")
        if not place & 0x3FFF:
            return datagram[:size]
        key = datagram[12:20] + datagram[9:10] + datagram[4:6]
        parts = self.parts.setdefault(key, {})
        parts[(place & 0x1FFF) * 8] = (datagram[:head], datagram[head:size], not place & 0x2000)
        if len(self.parts) > MOST_PENDING:
            del self.parts[next(iter(self.parts))]
        at, body, is_last = 0, b"", False
        while at in parts and not is_last:
            _, part, is_last = parts[at]
            body, at = body + part, at + len(part)
            if not part:
                break
        if not is_last:
            return None
        first = parts[0][0]
        del self.parts[key]
        return first[:2] + struct.pack(">H", (len(first) + len(body)) & 0xFFFF) + first[4:6] + b"\0\0" + first[8:] + body


# ---- writing
def internet_checksum(data):
    """The checksum of RFC 1071 over these bytes, in which its own field is 0. An odd last byte is the high one of a word."""
    data += b"\0" * (len(data) % 2)
    total = sum(struct.unpack(f">{len(data) // 2}H", data))
    while total > 0xFFFF:
        total = (total & 0xFFFF) + (total >> 16)
    return 0xFFFF - total


def rsvp_datagram(message, source, destination, number):
    """An IPv4 datagram of protocol 46; the addresses are their four bytes, the number goes into the Identification."""
    head = struct.pack(">BBHHHBBH4s4s", 0x45, 0, 20 + len(message), number & 0xFFFF, 0, 64, RSVP, 0, source, destination)
    return head[:10] + struct.pack(">H", internet_checksum(head)) + head[12:] + message


def pcap_head(link):
    return struct.pack("<IHHiIII", 0xA1B2C3D4, 2, 4, 0, 0, 65535, link)


def pcap_packet(data, micros):
    return struct.pack("<IIII", micros // 1_000_000, micros % 1_000_000, len(data), len(data)) + data


def block(kind, body):
    size = struct.pack("<I", 12 + len(body))
    return struct.pack("<I", kind) + size + body + size


def option(code, value):
    return struct.pack("<HH", code, len(value)) + value + b"\0" * (-len(value) % 4)


def pcapng_head(link, names):
    """A section whose interfaces, each of the link type, have these names, with times in microseconds."""
    blocks = block(0x0A0D0D0A, struct.pack("<IHHq", 0x1A2B3C4D, 1, 0, -1))
    for name in names:
        blocks += block(1, struct.pack("<HHI", link, 0, 65535) + option(2, name.encode()) + option(0, b""))
    return blocks


def pcapng_packet(data, micros, interface, way, comment):
    """A packet at an interface; the comment stands beside it, unless it is empty."""
    body = struct.pack("<IIIII", interface, micros >> 32, micros & 0xFFFFFFFF, len(data), len(data)) + data + b"\0" * (-len(data) % 4)
    body += (option(1, comment.encode()) if comment else b"") + option(2, struct.pack("<I", way)) + option(0, b"")
    return block(6, body)
