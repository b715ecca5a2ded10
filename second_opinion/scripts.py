#!/usr/bin/env python3
"""Writes a random script for `rsvpd replay`: a network, what is left over in it, and what happens to it.

usage: second_opinion/scripts.py SEED

The script of a seed is always the same, and no line of it is bad. It has links of two to eight ends, latencies, trees without loops,
senders, of which some are advertised, wants of all styles, also such as clash, left-over state, datagrams lost, copied and put out of
order, waits, rounds, restarts, new routes, confirmations, and injected datagrams of which some are no messages. The trace is on for most
of it, so that each delivery counts.
"""
import random
import sys

INFINITE = "inf"
STYLES = ("WF", "FF", "SE")
VECTOR = {"WF": 0x11, "FF": 0x0A, "SE": 0x12}


class Draw:
    """Random choices, which for one seed are the same under each version of Python."""

    def __init__(self, seed):
        self.source = random.Random(seed)

    def below(self, count):
        return int(self.source.random() * count)

    def range(self, low, high):
        return low + self.below(high - low + 1)

    def chance(self, share):
        return self.source.random() < share

    def one(self, items):
        return items[self.below(len(items))]

    def some(self, items, most):
        """One to `most` of the items, each at most once."""
        left = list(items)
        return [left.pop(self.below(len(left))) for _ in range(min(len(left), self.range(1, most)))]

    def weighted(self, weights):
        at = self.source.random() * sum(weights.values())
        for item, weight in weights.items():
            at -= weight
            if at < 0:
                return item
        return item


def spell(flow):
    return "/".join(str(number) for number in flow)


def dotted(number):
    return ".".join(str(number >> shift & 255) for shift in (24, 16, 8, 0))


def number_of(address):
    value = 0
    for part in address.split("."):
        value = value << 8 | int(part)
    return value


class End:
    def __init__(self, name, node, address, capacity, mtu):
        self.name, self.node, self.address, self.capacity, self.mtu = name, node, address, capacity, mtu
        self.link = None


class Writer:
    """A script as it is written, and what its lines have said so far."""

    def __init__(self, seed):
        self.draw = Draw(seed)
        self.lines = []
        self.period = 30000
        self.reports = 0
        self.asked = 0  # how often what the paths offer is asked for
        self.senders = set()  # (node, session, sender) that send
        self.wants = {}  # (node, session): the style and the units that are wanted there

    def say(self, *words):
        self.lines.append(" ".join(str(word) for word in words))

    # ---- the network

    def network(self):
        draw = self.draw
        if draw.chance(0.3):
            self.period = draw.one([1000, 2000, 4000, 10000, 60000])
            self.say("period", self.period)
        if draw.chance(0.5):
            self.say("seed", draw.below(2**32))
        count = draw.weighted({2: 2, 3: 4, 4: 4, 5: 3, 6: 2, 8: 1})
        self.nodes = [f"n{k}" for k in range(count)]
        for node in self.nodes:
            self.say("node", node)
        self.room = draw.one(["ample", "tight", "mixed"])
        self.ends = []
        links = []
        for members in self.shape(count):
            places = [self.add_end(node, 100 + len(links), k + 1) for k, node in enumerate(members)]
            links.append(places)
        if draw.chance(0.1):
            self.add_end(draw.below(count), 99, 1)
        for end in self.ends:
            self.say("end", end.name, self.nodes[end.node], end.address, end.capacity, end.mtu)
            if draw.chance(0.3):
                self.say("latency", end.name, draw.one([0, 7, 100, 100, 250, 2**31, 2**32 - 1]))
        for link in links:
            for end in link:
                end.link = link
            self.say("link", *(end.name for end in link))

    def shape(self, count):
        """The nodes of each link."""
        draw = self.draw
        kind = draw.weighted({"chain": 3, "star": 2, "tree": 3, "ring": 2, "shared": 3, "mesh": 2})
        if kind == "chain":
            return [[k, k + 1] for k in range(count - 1)]
        if kind == "star":
            return [[0, k] for k in range(1, count)]
        if kind == "tree":
            return [[draw.below(k), k] for k in range(1, count)]
        if kind == "ring" and count > 2:
            return [[k, (k + 1) % count] for k in range(count)]
        if kind == "shared":
            most = draw.range(2, min(count, 8))
            hub = list(range(most))
            rest = [[draw.below(k), k] for k in range(most, count)]
            twice = [draw.some(range(count), 4)] if count > 2 and draw.chance(0.3) else []
            return [hub] + rest + [link for link in twice if len(link) > 1]
        tree = [[draw.below(k), k] for k in range(1, count)]
        more = [draw.some(range(count), 2) for _ in range(draw.range(0, 3))]
        return tree + [link for link in more if len(link) == 2]

    def add_end(self, node, link, place):
        draw = self.draw
        tight = self.room == "tight" or self.room == "mixed" and draw.chance(0.3)
        capacity = draw.one([0, 300, 500, 800, 1000, 2000] if tight else [1000000, 1000000, 20000001, 2**46 - 1])
        mtu = draw.one([500, 1000, 1499]) if tight and draw.chance(0.4) else 1500
        end = End(f"e{len(self.ends)}", node, f"10.0.{link}.{place}", capacity, mtu)
        self.ends.append(end)
        return end

    # ---- trees

    def trees(self):
        draw = self.draw
        groups = [f"239.1.1.{k + 1}" for k in range(draw.weighted({1: 4, 2: 2}))]
        self.hops = {}  # (group, source): the hops of the tree in force
        for group in groups:
            for end in draw.some([end for end in self.ends if end.link], draw.weighted({1: 3, 2: 3, 3: 2, 4: 1})):
                hops = self.grown(group, end.address)
                if hops:
                    self.hops[group, end.address] = hops
                    for one, other in hops:
                        self.say("hop", group, end.address, one.name, other.name)
        ports = draw.some([5004, 5006, 5008], 2)
        self.sessions = [f"{group}/17/{port}" for group in groups for port in ports]
        self.sources = {group: [source for owner, source in self.hops if owner == group] for group in groups}
        self.planned = set(self.hops)

    def grown(self, group, source):
        """The hops of a new tree of the group, one after the other; no chain of the group is closed."""
        draw = self.draw
        root = next(end.node for end in self.ends if end.address == source)
        reached, hops, speakers = {root}, [], {}
        others = [tree for key, tree in self.hops.items() if key[0] == group and key[1] != source]
        while True:
            choices = [
                (one, other)
                for one in self.ends
                if one.link and one.node in reached
                for other in one.link
                if other.node not in reached and speakers.get(id(one.link), one) is one
            ]
            if not choices or hops and draw.chance(0.08):
                return hops
            hop = draw.one(choices)
            if is_looped(others + [hops + [hop]]):
                return hops
            hops.append(hop)
            reached.add(hop[1].node)
            speakers[id(hop[0].link)] = hop[0]

    # ---- words

    def flow(self):
        draw = self.draw
        largest = draw.one([400, 900, 1500, 1500, 1500, 2000])
        return (
            draw.one([1, 100, 100, 200, 300, 400, 500, 700, 1000, 5000]),
            draw.one([1, 100, 200, 1000]),
            draw.one([100, 1000, INFINITE, INFINITE, INFINITE]),
            draw.one([1, 64, 128]),
            largest,
        )

    def group(self, session):
        return session.split("/")[0]

    def sender(self, session):
        draw = self.draw
        sources = self.sources[self.group(session)]
        if not sources or draw.chance(0.05):
            address = draw.one([draw.one(self.ends).address, "10.7.7.7"])
        else:
            address = draw.one(sources)
        return f"{address}:{draw.one([5004, 5004, 5004, 5006, 9])}"

    def list_of_senders(self, session, most):
        names = []
        for _ in range(self.draw.range(1, most)):
            name = self.sender(session)
            if name not in names:
                names.append(name)
        return names

    def neighbour(self, end):
        """The address of another end of a link, most often; or one of nobody."""
        draw = self.draw
        if not end.link or draw.chance(0.1):
            return draw.one([end.address, draw.one(self.ends).address, "10.8.8.8"])
        return draw.one([other for other in end.link if other is not end]).address

    # ---- what is left over

    def left_over(self):
        draw = self.draw
        keys, book, names, paths = set(), {}, {}, {}
        for _ in range(draw.range(1, 12)):
            kind = draw.weighted({"path": 4, "resv": 5, "wall": 2})
            session, flow = draw.one(self.sessions), self.flow()
            end = draw.one(self.ends)
            node = self.nodes[end.node]
            left = draw.one([1, self.period // 2, self.period, draw.range(1, (21 * self.period + 3) // 4)])
            if kind == "path":
                sender = self.sender(session)
                key = ("path", node, session, sender)
                if key not in keys and paths.get((node, session), 0) < 16:
                    keys.add(key)
                    paths[node, session] = paths.get((node, session), 0) + 1
                    self.say("stale-path", node, session, sender, end.name, self.neighbour(end), spell(flow), left)
            elif kind == "resv":
                style = draw.one(STYLES)
                senders = self.list_of_senders(session, 1 if style == "FF" else 3)
                if style == "WF":
                    senders = sorted({sender.split(":")[0] for sender in senders})
                next_hop = self.neighbour(end)
                unit = senders[0] if style == "FF" else None
                key = ("resv", end.name, session, style, next_hop, unit)
                table = names.setdefault((node, session, style), set())
                entry = (session, style, unit)
                charges = dict(book.get(end.name, {}))
                charges[entry] = max(charges.get(entry, 0), flow[0])
                if key in keys or len(table | set(senders)) > 16 or flow[4] > end.mtu or sum(charges.values()) > end.capacity:
                    continue
                keys.add(key)
                book[end.name] = charges
                table.update(senders)
                self.say("stale-resv", end.name, session, style, next_hop, ",".join(senders), spell(flow), left)
            else:
                target = ("hop", end.name, self.neighbour(end)) if draw.chance(0.5) else ("sender", self.sender(session))
                key = ("wall", node, session, *target)
                if key not in keys:
                    keys.add(key)
                    left = draw.range(1, 4 * self.period)
                    self.say("stale-blockade", node, session, *target, draw.one([2, 3]), spell(flow), left)

    # ---- what happens

    def events(self):
        draw = self.draw
        style = {session: draw.one(STYLES) for session in self.sessions}
        clashes = draw.one([0.0, 0.0, 0.05, 0.3])
        injects = draw.one([0, 0, 4, 15])
        confirms = draw.one([0.0, 0.2])
        trace = draw.range(0, 3)
        self.advertised = draw.one([0.0, 0.3, 0.8])
        weights = {
            "send": 9, "advert": 3 if self.advertised else 0, "adverts": 2, "drop": 2, "want": 12, "quit": 2, "wait": 6, "pass": 14, "rounds": 2, "deliver": 5, "lose": 4, "copy": 3,
            "clear": 1, "reroute": draw.one([0, 3]), "inject": injects, "report": 2, "flags": 2, "trace": 0.3,
        }
        for group, source in sorted(self.planned):
            if draw.chance(0.8):
                self.send(draw.one([session for session in self.sessions if self.group(session) == group]), source)
        for _ in range(draw.below(4)):
            self.want(style, clashes, confirms)
        for k in range(draw.range(10, 60)):
            if k == trace:
                self.say("trace on")
            kind = draw.weighted(weights)
            if kind == "want":
                self.want(style, clashes, confirms)
            else:
                getattr(self, kind.replace("pass", "pass_on"))()
        if draw.chance(0.3):
            self.say("rounds", draw.range(1, 6))
        self.say("pass", draw.range(1, 4))
        if draw.chance(0.5):
            self.say("wait", draw.range(1, 6 * self.period))
            self.say("pass 2")
        self.say("report")
        self.say("flags")
        self.say("adverts")

    def send(self, session=None, address=None):
        draw = self.draw
        session = session or draw.one(self.sessions)
        address = address or self.sender(session).split(":")[0]
        end = next((end for end in self.ends if end.address == address), None)
        if end is None:
            return
        sender = f"{address}:{draw.one([5004, 5004, 5006])}"
        self.senders.add((self.nodes[end.node], session, sender))
        self.say("send", self.nodes[end.node], session, sender, spell(self.flow()))
        if draw.chance(self.advertised):
            self.say("advert", self.nodes[end.node], session, sender)

    def advert(self):
        if self.senders:
            self.say("advert", *self.draw.one(sorted(self.senders)))

    def drop(self):
        if self.senders:
            one = self.draw.one(sorted(self.senders))
            self.senders.remove(one)
            self.say("drop", *one)

    def want(self, styles, clashes, confirms):
        draw = self.draw
        session, node = draw.one(self.sessions), draw.one(self.nodes)
        style = draw.one(STYLES) if draw.chance(clashes) else styles[session]
        old, units = self.wants.get((node, session), (style, set()))
        if old != style:
            if draw.chance(0.5):
                return
            style = old
        senders = ["*"] if style == "WF" else self.list_of_senders(session, 4)
        units = units | set(senders) if style == "FF" else {None}
        if len(units) > 16:
            return
        self.wants[node, session] = (style, units)
        confirm = ["confirm"] if draw.chance(confirms) else []
        self.say("want", node, session, style, ",".join(senders), spell(self.flow()), *confirm)

    def quit(self):
        if self.wants:
            node, session = self.draw.one(sorted(self.wants))
            del self.wants[node, session]
            self.say("quit", node, session)

    def wait(self):
        draw = self.draw
        half = self.period // 2
        self.say("wait", draw.one([1, half, half, self.period, draw.range(1, self.period), draw.range(1, 6 * self.period)]))

    def pass_on(self):
        self.say(*self.draw.one([["pass"], ["pass"], ["pass", 2], ["pass", 4]]))

    def rounds(self):
        self.say("rounds", self.draw.range(1, 3))

    def deliver(self):
        self.say("deliver", self.place())

    def lose(self):
        self.say("lose", self.place())

    def copy(self):
        self.say("copy", self.place())

    def place(self):
        return self.draw.one([1, 1, 2, self.draw.range(1, 8)])

    def clear(self):
        self.say("clear", self.draw.one(self.nodes))

    def reroute(self):
        if not self.planned:
            return
        group, source = self.draw.one(sorted(self.planned))
        hops = self.grown(group, source) if self.draw.chance(0.9) else []
        self.hops[group, source] = hops
        self.say("reroute", group, source, *(end.name for hop in hops for end in hop))

    def report(self):
        if self.reports < 13:
            self.reports += 1
            self.say("report", *([self.draw.one(self.ends).name] if self.draw.chance(0.7) else []))

    def flags(self):
        if self.reports < 13:
            self.reports += 1
            self.say("flags")

    def adverts(self):
        if self.asked < 15:
            self.asked += 1
            self.say("adverts")

    def trace(self):
        self.say("trace", self.draw.one(["on", "off"]))

    # ---- injected bytes

    def inject(self):
        draw = self.draw
        end, session = draw.one(self.ends), draw.one(self.sessions)
        if draw.chance(0.03):
            session = f"{self.group(session)}/{draw.one([6, 17])}/{draw.below(65536)}"
        kind = draw.range(1, 7)
        objects = self.objects(kind, end, session)
        while draw.chance(0.35):
            self.change(objects)
        data = self.message(kind, objects)
        destination = self.group(session) if kind in (1, 5) else end.address
        if draw.chance(0.04):
            destination = draw.one([self.group(session), end.address, "10.8.8.8"])
        if len(data) <= 960:
            self.say("inject", end.name, destination, data.hex())

    def objects(self, kind, end, session):
        """The objects of a message, each as class, C-Type and contents."""
        draw = self.draw
        group, protocol, port = session.split("/")
        words = number_of(group).to_bytes(4, "big") + bytes([int(protocol), draw.below(2)]) + int(port).to_bytes(2, "big")
        made = [[1, 1, words]]
        if kind not in (3, 7):
            made.append([3, 1, number_of(self.neighbour(end)).to_bytes(4, "big") + draw.one([0, 0, 7]).to_bytes(4, "big")])
        if kind in (1, 2):
            made.append([5, 1, draw.one([self.period, self.period, 1, 0, 40000000]).to_bytes(4, "big")])
        if kind in (3, 4, 7):
            code, value = draw.one([(1, 2), (1, 2), (1, 3), (1, 1), (4, 0), (6, 0), (0, 0)])
            words = number_of(draw.one(self.ends).address).to_bytes(4, "big") + bytes([draw.below(4), code]) + value.to_bytes(2, "big")
            made.append([6, 1, words])
        if kind == 1 and draw.chance(0.95):
            made += [self.filter(11, self.sender(session)), self.flowspec(12, 1)]
            if draw.chance(0.3):
                made.append([13, 2, self.adspec()])
            elif draw.chance(0.1):
                made.append([13, draw.one([1, 2]), bytes(4 * draw.below(4))])
        if kind in (3, 5) and draw.chance(0.9):
            made.append(self.filter(11, self.sender(session)))
        if kind == 7 or kind == 2 and draw.chance(0.3):
            made.append([15, 1, number_of(draw.one(self.ends).address).to_bytes(4, "big")])
        if kind in (2, 4, 6, 7):
            made += self.list_of(kind, session)
        return made

    def list_of(self, kind, session):
        """SCOPE, STYLE and the list behind it."""
        draw = self.draw
        style = draw.one(STYLES)
        made = []
        if kind != 7 and draw.chance(0.8 if style == "WF" else 0.05):
            addresses = [sender.split(":")[0] for sender in self.list_of_senders(session, 4)]
            if draw.chance(0.1):
                addresses = []
            made.append([7, 1, b"".join(number_of(address).to_bytes(4, "big") for address in addresses)])
        made.append([8, 1, bytes([0, 0, 0, VECTOR[style]])])
        senders = self.list_of_senders(session, 4)
        if draw.chance(0.02):
            senders = [f"10.7.7.{k}:9" for k in range(draw.range(14, 18))]
        if kind == 4:
            if draw.chance(0.15):
                return made
            senders = senders[:1] if style == "FF" else senders
        if style == "WF":
            return made + ([self.flowspec(9, 5)] if kind != 6 else [])
        filters = [self.filter(10, sender) for sender in senders]
        if kind == 6:
            return made + filters
        if style == "FF":
            for k, one in enumerate(filters):
                made += [self.flowspec(9, 5)] if k == 0 or draw.chance(0.5) else []
                made.append(one)
            return made
        return made + [self.flowspec(9, 5)] + filters

    def filter(self, number, sender):
        address, port = sender.split(":")
        return [number, 1, number_of(address).to_bytes(4, "big") + b"\0\0" + int(port).to_bytes(2, "big")]

    def adspec(self):
        """The contents of an ADSPEC."""
        draw = self.draw
        rate, latency = draw.one([500, 1000, 3000, 10000, 10000000]), draw.one([0, 100, 100, 101, 0xFFFFFFFF])
        words = [0x01000008 | draw.one([0, 0, 0, 1]) << 23, 0x04000001, draw.one([1, 1, 2, 0xFFFFFFFF]), 0x06000001, rate_word(rate)]
        words += [0x08000001, latency, 0x0A000001, draw.one([576, 1500, 1500, 9000])]
        words += draw.one([[0x05000000], [0x05000000], [0x05800000], [], [0x05000001, 7], [0x05000000, 0x05000000]])
        words += draw.one([[], [], [0x02000000], [0x02800001, 7], [0x06000002, 0x02000000, 0, 0x02000000], [0x02000003, 1], [0x01000000]])
        return b"".join(word.to_bytes(4, "big") for word in [len(words), *words])

    def flowspec(self, number, service):
        rate, bucket, peak, least, most = self.flow()
        words = [7, service << 24 | 6, 0x7F000005, rate_word(rate), rate_word(bucket), rate_word(peak), least, most]
        return [number, 2, b"".join(word.to_bytes(4, "big") for word in words)]

    def change(self, objects):
        """Changes one thing of a message."""
        draw = self.draw
        kind = draw.weighted({"byte": 4, "head": 2, "more": 3, "twice": 1, "swap": 1, "less": 1, "size": 1})
        at = draw.below(len(objects) + 1)
        if kind == "more" or not objects or at == len(objects):
            number = draw.one([0, 2, 4, 4, 13, 14, 16, 64, 127, 128, 130, 192, 200, 255, 7, 9, 10, 12, 15])
            objects.insert(at, [number, draw.one([0, 1, 2]), bytes(4 * draw.below(3))])
            return
        number, ctype, contents = objects[at]
        if kind == "byte" and contents:
            place = draw.below(len(contents))
            new = draw.one([0, 1, 2, 0x0A, 0x11, 0x12, 0x7F, 0x80, 0xFF, contents[place] ^ 1 << draw.below(8)])
            objects[at] = [number, ctype, contents[:place] + bytes([new]) + contents[place + 1 :]]
        elif kind == "head":
            objects[at] = [draw.one([number, draw.below(256)]), draw.one([ctype, 0, 1, 2, 9]), contents]
        elif kind == "twice":
            objects.insert(draw.below(len(objects) + 1), objects[at])
        elif kind == "swap":
            other = draw.below(len(objects))
            objects[at], objects[other] = objects[other], objects[at]
        elif kind == "less":
            del objects[at]
        elif kind == "size":
            objects[at] = [number, ctype, draw.one([contents[:-4], contents + bytes(4), contents[: 4 * draw.below(4)]])]

    def message(self, kind, objects):
        draw = self.draw
        body = b"".join((4 + len(contents)).to_bytes(2, "big") + bytes([number, ctype]) + contents for number, ctype, contents in objects)
        if draw.chance(0.02):
            body = body[: draw.below(len(body) + 1)]
        if body and draw.chance(0.02):
            place = draw.below(len(body))
            body = body[:place] + bytes([draw.below(256)]) + body[place + 1 :]
        version, length = 0x10, 8 + len(body)
        if draw.chance(0.02):
            version, kind, length = draw.one([(0x20, kind, length), (0x1F, kind, length), (0x10, draw.below(10), length), (0x10, kind, length + 4)])
        head = bytes([version, kind]) + b"\0\0" + bytes([draw.one([64, 1]), 0]) + (length % 65536).to_bytes(2, "big")
        if draw.chance(0.02):
            return (head + body)[: draw.range(1, 8)]
        checksum = draw.weighted({"none": 5, "right": 5, "wrong": 0.2})
        if checksum == "none":
            return head + body
        total = ones_sum(head + body)
        field = total ^ 0xFFFF if checksum == "right" else draw.range(1, 65535)
        return head[:2] + field.to_bytes(2, "big") + head[4:] + body

    # ---- tables that fill up

    def fill(self):
        """Lines that fill a table of a router up to its limit, or past it by injected datagrams."""
        draw = self.draw
        kind = draw.one(["sessions", "senders", "hops", "names", "walls"])
        end = draw.one(self.ends)
        node, session = self.nodes[end.node], draw.one(self.sessions)
        group, flow = self.group(session), spell(self.flow())
        here = end.address
        if kind == "walls":
            for k in range(draw.range(508, 512)):
                self.say("stale-blockade", node, session, "sender", f"10.7.{k // 250}.{k % 250}:9", 2, flow, 4 * self.period)
            return
        if kind == "names":
            for k in range(draw.range(14, 16)):
                self.say("stale-path", node, session, f"10.7.7.{k}:9", end.name, self.neighbour(end), flow, self.period)
            return
        self.later = []
        for k in range(draw.range(30, 70)):
            if kind == "sessions":
                name = f"{group}/17/{6000 + k}"
                objects = self.objects(1, end, name)
                self.later.append((end, group, 1, objects))
            elif kind == "senders":
                objects = self.objects(1, end, session)
                source = draw.one(self.sources[group] or [here])
                objects = [self.filter(11, f"{source}:{100 + k}") if one[0] == 11 else one for one in objects]
                self.later.append((end, group, 1, objects))
            else:
                objects = self.objects(2, end, session)
                objects[1] = [3, 1, (0x0A080000 + k).to_bytes(4, "big") + bytes(4)]
                self.later.append((end, here, 2, objects))

    def filled(self):
        for end, destination, kind, objects in self.later:
            data = self.message(kind, objects)
            if len(data) <= 960:
                self.say("inject", end.name, destination, data.hex())
                if self.draw.chance(0.5):
                    self.say("pass")


def rate_word(rate):
    """The bits of a rate as a number of 32 bits with a fraction."""
    if rate == INFINITE:
        return 0x7F800000
    if rate == 0:
        return 0
    top = rate.bit_length() - 1
    return 127 + top << 23 | (rate << 23 >> top) - (1 << 23)


def ones_sum(data):
    if len(data) % 2:
        data += b"\0"
    total = sum(int.from_bytes(data[k : k + 2], "big") for k in range(0, len(data), 2))
    while total >> 16:
        total = (total & 0xFFFF) + (total >> 16)
    return total


def is_looped(trees):
    """Whether a chain of hops of these trees, each behind the other in some tree, is closed."""
    behind = {}
    for tree in trees:
        for hop in tree:
            after = behind.setdefault((hop[0].name, hop[1].name), set())
            after.update((one.name, other.name) for one, other in tree if one.node == hop[1].node)
    done, open_ = set(), set()

    def visit(hop):
        if hop in open_:
            return True
        if hop in done:
            return False
        open_.add(hop)
        found = any(visit(after) for after in behind[hop])
        open_.remove(hop)
        done.add(hop)
        return found

    return any(visit(hop) for hop in behind)


def script(seed):
    writer = Writer(seed)
    writer.network()
    writer.trees()
    writer.later = []
    if writer.draw.chance(0.04):
        writer.fill()
    elif writer.draw.chance(0.35):
        writer.left_over()
    if writer.later:
        writer.say("trace on")
        writer.filled()
    writer.events()
    return "\n".join(writer.lines) + "\n"


def main():
    words = sys.argv[1:]
    if words in (["--help"], ["-h"]):
        print(__doc__.strip())
    elif len(words) == 1 and words[0].isdecimal():
        sys.stdout.write(script(int(words[0])))
    else:
        sys.exit("usage: second_opinion/scripts.py SEED")


if __name__ == "__main__":
    main()
