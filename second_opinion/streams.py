#!/usr/bin/env python3
"""Changes a stream of frames for `rsvpd node` at random: most often so that it ends in a frame that is refused, or in the middle of one.

usage: second_opinion/streams.py SEED < FILE.frames > FILE.frames

A file of frames has a line of hexadecimal digits for each, as `tools/frames` takes them. What is made of the same file and seed is always
the same. A stream that is left as it is, is one of the outcomes.
"""
import sys

sys.dont_write_bytecode = True
from scripts import Draw  # noqa: E402

OPENS, COMES, WAITS, CLEARS = 1, 2, 3, 4


def framed(kind, contents):
    return bytes([kind]) + len(contents).to_bytes(2, "big") + contents


def cut(stream):
    """The frames of a stream, by their lengths; what is behind the last whole one comes last."""
    frames, at = [], 0
    while at < len(stream):
        end = at + 3 + int.from_bytes(stream[at + 1:at + 3], "big")
        frames.append(stream[at:end])
        at = end
    return frames


def lines_of(frames):
    return "".join(frame.hex() + "\n" for frame in frames if frame)


def frames_of(text):
    return [bytes.fromhex(line) for line in text.split()]


class Changer:
    """Makes one stream of another."""

    def __init__(self, seed, frames):
        self.draw, self.frames = Draw(seed), list(frames)

    def place(self):
        return self.draw.below(len(self.frames))

    def put(self, frame):
        self.frames.insert(self.draw.below(len(self.frames) + 1), frame)

    def field(self, at, size, values):
        """A field of the opening gets another value."""
        first = self.frames[0]
        if first[:1] == bytes([OPENS]) and at + size <= len(first):
            self.frames[0] = first[:at] + self.draw.one(values).to_bytes(size, "big") + first[at + size:]

    def counts(self):
        """The numbers of interfaces and of routes of the opening, and where its routes begin; none where there is no opening."""
        first = self.frames[0]
        if first[:1] != bytes([OPENS]) or len(first) < 8 or len(first) < 10 + 16 * first[7]:
            return 0, 0, 0
        at = 10 + 16 * first[7]
        return first[7], int.from_bytes(first[at - 2:at], "big"), at

    def change(self):
        draw = self.draw
        ifaces, routes, behind = self.counts()
        kind = draw.weighted({"bit": 3, "datagram": 4, "wait": 2, "kind": 1, "less": 2, "twice": 2, "swap": 4, "end": 1, "opening": 4, "routes": 2, "clear": 2})
        if kind == "bit":
            at = self.place()
            frame = bytearray(self.frames[at])
            if frame:
                frame[draw.below(len(frame))] ^= 1 << draw.below(8)
            self.frames[at] = bytes(frame)
        elif kind == "datagram":
            data = bytes(draw.below(256) for _ in range(draw.below(24))) if draw.chance(0.7) else bytes([0x10]) * draw.one([4096, 4097, 65530])
            iface = draw.below(ifaces + draw.one([0, 0, 0, 0, 1, 300])) % 256
            self.put(framed(COMES, (bytes([iface]) + draw.below(2**32).to_bytes(4, "big") + data)[draw.one([0, 0, 0, 0, 0, 1]):]))
        elif kind == "wait":
            self.put(framed(WAITS, draw.one([0, 1, 1, 500, 501, 15000, 2**32 - 1]).to_bytes(4, "big") + draw.below(2**32).to_bytes(4, "big")))
        elif kind == "kind":
            self.put(framed(draw.one([0, 5, 16, 17, 255]), bytes(draw.below(9))))
        elif kind == "less" and len(self.frames) > 1:
            self.frames.pop(self.place())
        elif kind == "twice":
            self.put(self.frames[self.place()])
        elif kind == "swap" and len(self.frames) > 2:
            one, other = 1 + draw.below(len(self.frames) - 1), 1 + draw.below(len(self.frames) - 1)
            self.frames[one], self.frames[other] = self.frames[other], self.frames[one]
        elif kind == "end":
            at = self.place()
            self.frames[at:] = [self.frames[at][:draw.below(len(self.frames[at]) + 1)]]
        elif kind == "opening" and ifaces:
            iface = draw.below(ifaces)
            at, size, values = draw.one([
                (3, 4, [0, 999, 1000, 1002, 1004, 60000, 60004]), (7, 1, [0, 1, 16, 17, 255]), (8 + 16 * iface, 4, [0, 2**32 - 1]),
                (12 + 16 * iface, 8, [0, 2**46 - 1, 2**46, 2**64 - 1]), (20 + 16 * iface, 4, [0, 1, 65535, 65536])])
            self.field(at, size, values)
        elif kind == "opening" or kind == "routes" and routes:
            at = behind + 11 * draw.below(max(routes, 1))
            self.field(at + 8, 1, [0, 1, ifaces, 254, 255])
            self.field(at + 9, 2, [0, 1, 2, 1 << ifaces & 0xFFFF, 0xFFFF])
        elif kind == "routes" and behind:
            # Its routes in another order, and now and then one of them twice.
            first = self.frames[0]
            each = [first[at:at + 11] for at in range(behind, behind + 11 * routes, 11)]
            each = draw.some(each, len(each)) + ([draw.one(each)] if each and draw.chance(0.3) else [])
            self.frames[0] = framed(OPENS, first[3:behind - 2] + len(each).to_bytes(2, "big") + b"".join(each))
        elif kind == "clear":
            self.put(framed(CLEARS, b""))


def changed(seed, frames):
    """The frames, changed as the seed says."""
    changer = Changer(seed, frames)
    if changer.draw.chance(0.3):
        return changer.frames
    for _ in range(changer.draw.one([1, 1, 2, 5])):
        if changer.frames:
            changer.change()
    return [frame for frame in changer.frames if frame]


def main():
    if sys.argv[1:] in (["--help"], ["-h"]) or len(sys.argv) != 2:
        print(__doc__.strip())
        sys.exit(0 if len(sys.argv) == 2 else 1)
    sys.stdout.write(lines_of(changed(int(sys.argv[1]), frames_of(sys.stdin.read()))))


if __name__ == "__main__":
    main()
