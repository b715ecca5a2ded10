"""What a run was, from its events: the JSON Lines that `rsvpd events` writes (docs/EVENTS.md). For the tools that show a run."""
import json
import os
import re
import subprocess
import sys

HERE = os.path.dirname(os.path.dirname(os.path.realpath(__file__)))
LAUNCHER = os.path.join(HERE, "rsvpd")
WANTED = "wanted is what `./rsvpd events < FILE.net` writes"
# The members of each event behind `event` and `t`, and of which type each is.
MEMBERS = {
    "line": {"line": (int,), "text": (str,)},
    "sent": {"id": (int,), "from": (str, type(None)), "end": (str,), "to": (str,), "kind": (str,), "hex": (str,), "words": (str,)},
    "delivered": {"id": (int,), "end": (str,), "became": (str,)},
    "lost": {"id": (int,)},
    "copied": {"id": (int,), "of": (int,)},
    "round": {"round": (int,), "of": (int,)},
    "book": {"end": (str,), "held": (int,), "capacity": (int,), "entries": (list,)},
    "flight": {"ids": (list,)},
    "report": {"text": (str,)},
    "end": {"status": (int,)},
}
ENTRY = {"session": (str,), "style": (str,), "senders": (str,), "flow": (str,), "flags": (str,)}
TIME = {"t": (int,)}
MOST_TIME = 2**53  # milliseconds; the longest run of a script takes fewer
DECODER = json.JSONDecoder()
ADDRESSES = set()  # those found to be right
DECLARED = {"period", "seed", "node", "end", "latency", "link", "hop"}
LEFT_OVER = {"stale-path", "stale-resv", "stale-blockade"}
QUIET = {"trace", "report", "flags", "adverts"}
# What changes who sends, who wants what, or the trees, and so the demand.
ASKS = {"send", "drop", "want", "quit", "reroute"}
# What else is more than the passing of time, with datagrams that are lost, copied or late.
SHAKES = {"advert", "clear", "inject"}


class Unusable(Exception):
    """The words or the input are of no use."""


class End:
    """An end of a link: its node, its address, its capacity in bytes per second, its MTU, and all ends of its link."""

    def __init__(self, node, address, capacity, mtu):
        self.node, self.address, self.capacity, self.mtu, self.link = node, address, int(capacity), int(mtu), ()


class Datagram:
    """A datagram: who sent it (None where nobody did), to which end and address it goes, its kind, its bytes, their words, when it was sent,
    and of which one it is a copy."""

    def __init__(self, number, start, end, to, kind, data, words, sent, of=None):
        self.number, self.start, self.end, self.to = number, start, end, to
        self.kind, self.data, self.words, self.sent, self.of = kind, data, words, sent, of


class Run:
    """A run as its events go by: the network as it is declared, the trees in force, the books, and what is in flight."""

    def __init__(self):
        self.period = 30000
        self.nodes, self.ends, self.links, self.trees = [], {}, [], {}
        self.script = []  # the lines that ran
        self.line, self.word, self.round = 0, "", 0
        self.clock = 0
        self.books, self.flight, self.datagrams = {}, [], {}
        self.last = None  # the event that ends the run

    def events(self, source):
        """Each event with the datagram that it is about, if it is about one. What it changes is changed when it is given."""
        at = 0
        for at, line in enumerate(source, 1):
            try:
                event = checked(line)
                if self.last is not None:
                    raise Unusable("an event behind the end of the run")
                yield event, self.take(event)
            except Unusable as why:
                raise Unusable(f"line {at}: {why}; {WANTED}") from None
        if self.last is None:
            raise Unusable(f"the events break off behind line {at}, without an `end`; {WANTED}" if at else f"no event; {WANTED}")

    def take(self, event):
        """What an event changes; gives its datagram."""
        kind, self.clock = event["event"], event["t"]
        if kind == "line":
            self.declare(event)
        elif kind == "sent":
            start = event["from"]
            for end in (event["end"], start or event["end"]):
                self.known(end)
            try:
                data = bytes.fromhex(event["hex"])
            except ValueError:
                raise Unusable('sent: "hex" is an even number of hexadecimal digits') from None
            return self.put(Datagram(event["id"], start, event["end"], event["to"], event["kind"], data, event["words"], event["t"]))
        elif kind == "copied":
            old = self.datagrams.get(event["of"])
            if old is None:
                raise Unusable(f"copied: {event['of']} is not in flight")
            return self.put(Datagram(event["id"], old.start, old.end, old.to, old.kind, old.data, old.words, event["t"], event["of"]))
        elif kind in ("delivered", "lost"):
            datagram = self.datagrams.pop(event["id"], None)
            if datagram is None:
                raise Unusable(f"{kind}: {event['id']} is not in flight")
            self.flight.remove(event["id"])  # mostly the first one
            return datagram
        elif kind == "flight":
            if event["ids"] != self.flight:
                raise Unusable("flight: other datagrams than those that were sent and did not come")
        elif kind == "book":
            self.known(event["end"])
            self.books[event["end"]] = event
        elif kind == "round":
            self.round = event["round"]
        elif kind == "end":
            self.last = event
        return None

    def known(self, end):
        if end not in self.ends:
            raise Unusable(f"no line declares an end {json.dumps(end)}")

    def put(self, datagram):
        if datagram.number in self.datagrams:
            raise Unusable(f"{datagram.number} is in flight twice")
        self.flight.append(datagram.number)
        self.datagrams[datagram.number] = datagram
        return datagram

    def declare(self, event):
        """What a line declares, and the trees that it puts in force."""
        words = event["text"].split()
        self.script.append(event["text"])
        self.line, self.word, self.round = event["line"], words[0] if words else "", 0
        try:
            if self.word == "period":
                self.period = int(words[1])
            elif self.word == "node":
                self.nodes.append(words[1])
            elif self.word == "end":
                self.ends[words[1]] = End(*words[2:])
                self.nodes.index(words[2])
            elif self.word == "link":
                for name in words[1:]:
                    self.ends[name].link = tuple(words[1:])
                self.links.append(tuple(words[1:]))
            elif self.word == "hop":
                self.trees.setdefault((words[1], words[2]), []).append((self.ends[words[3]] and words[3], self.ends[words[4]] and words[4]))
            elif self.word == "reroute":
                hops = [(out, into) for out, into in zip(words[3::2], words[4::2]) if self.ends[out] and self.ends[into]]
                self.trees = {**self.trees, (words[1], words[2]): hops}
        except (IndexError, KeyError, TypeError, ValueError):
            raise Unusable(f"line: {json.dumps(event['text'])} is no line of a script that is right") from None


def checked(line):
    """The event of a line, with the members that it must have."""
    try:
        event = DECODER.decode(line.decode())
    except (ValueError, RecursionError):
        raise Unusable("no JSON") from None
    if not isinstance(event, dict) or not isinstance(event.get("event"), str):
        raise Unusable('no object with an "event"')
    members = MEMBERS.get(event["event"])
    if members is None:
        raise Unusable(f"no event is called {json.dumps(event['event'])}")
    check(event, TIME, event["event"])
    if not 0 <= event["t"] < MOST_TIME:
        raise Unusable(f'{event["event"]}: "t" is a time from 0 to 2^53 - 1')
    check(event, members, event["event"])
    if "to" in members and event["to"] not in ADDRESSES:
        if not re.fullmatch(r"\d{1,3}(\.\d{1,3}){3}", event["to"], re.A) or max(map(int, event["to"].split("."))) > 255:
            raise Unusable('sent: "to" is an IPv4 address')
        ADDRESSES.add(event["to"])
    for entry in event["entries"] if "entries" in members else ():
        if not isinstance(entry, dict):
            raise Unusable("book: an entry is an object")
        check(entry, ENTRY, "book: entry")
    return event


def check(event, members, name):
    for member, types in members.items():
        value = event.get(member, check)
        if type(value) not in types or types[0] is int and value < 0:
            raise Unusable(f'{name}: "{member}" is missing, or not what it should be')


def fate(event):
    """What became of a datagram, in words."""
    if event["event"] == "lost":
        return "lost"
    return event["became"] + (f" {event.get('why', '')}" if event["became"] == "dropped" else "") \
        + (f" {event.get('code')}/{event.get('value')}" if event["became"] == "answered" else "")


def seconds(milliseconds):
    """A moment of the run's clock, as 15 s or 22.5 s."""
    return f"{milliseconds / 1000:.3f}".rstrip("0").rstrip(".") + " s"


def demand_of(program, script):
    """What the ends should hold behind a script: of each end its sum, its capacity and its entries; H; and whether the demands fit."""
    try:
        done = subprocess.run([program, "demand"], input="".join(f"{line}\n" for line in script).encode("latin-1"), capture_output=True, check=False)
    except OSError as error:
        raise Unusable(f"{program}: cannot be run: {error.strerror}") from None
    if done.returncode != 0:
        said = done.stderr.decode("latin-1").strip().splitlines()
        raise Unusable(f"{program} demand: status {done.returncode}{': ' + said[-1].strip() if said else ''}")
    ends, longest, fits, entries = {}, 0, True, None
    for words in (line.split() for line in done.stdout.decode("ascii", "replace").splitlines()):
        if words[0] == "end" and len(words) == 6:
            entries = []
            ends[words[1]] = (int(words[3]), int(words[5]), entries)
        elif words[0] == "longest" and len(words) == 4:
            longest, fits = int(words[1]), words[3] == "yes"
        elif entries is not None and len(words) == 4:
            entries.append(tuple(words))
        else:
            raise Unusable(f"{program} demand: no text of a demand: {' '.join(words)[:60]}")
    return ends, longest, fits


def entries_of(book):
    """The entries of a book as a demand has them, without flags."""
    return [(entry["session"], entry["style"], entry["senders"], entry["flow"]) for entry in book["entries"]] if book else []


class Moment:
    """What a line or a round did: the line, which round of how many it is, the time behind it, how many lines had run, the trees where they
    changed, its events with their datagrams, the books that changed, and what is in flight behind it. The first moment is that before the
    third part of the script."""

    def __init__(self, run, trees):
        self.line, self.text, self.word, self.first = 0, "", "", 0
        if run.script and run.word not in DECLARED | LEFT_OVER:
            self.line, self.text, self.word, self.first = run.line, run.script[-1], run.word, run.line
        self.round, self.of, self.is_over = 1 if self.word == "rounds" else 0, 0, False
        self.script, self.trees = len(run.script), None if run.trees is trees else run.trees
        self.t, self.events, self.books, self.flight = 0, [], {}, []

    def is_work(self):
        """Whether it does more than to let time pass and datagrams come, be lost, copied or late."""
        return self.word in ASKS | SHAKES


def moments_of(run, source):
    """The moments of a run, each when it is over."""
    now, trees, flight, clock = Moment(run, None), run.trees, [], 0

    def closed(moment, time, ids):
        moment.t, moment.flight = time, ids
        return moment

    for event, datagram in run.events(source):
        kind = event["event"]
        if kind == "line":
            if run.word in DECLARED | LEFT_OVER:
                now.script = len(run.script)
                continue
            yield closed(now, event["t"], flight)
            now, trees = Moment(run, trees), run.trees
        elif kind in ("round", "sent", "delivered", "lost", "copied") and now.is_over:
            before = now
            yield closed(now, clock, flight)
            now = Moment(run, trees)
            now.round, now.of = before.round + 1, before.of
        if kind == "round":
            now.round, now.of, now.is_over, clock = event["round"], event["of"], True, event["t"]
        elif kind == "book":
            now.books[event["end"]] = event
        elif kind == "flight":
            flight = event["ids"]
        elif datagram is not None:
            now.events.append((event, datagram))
    yield closed(now, run.clock, list(run.flight))


def joined(moments):
    """The moments, where lines that follow each other and did nothing yet, as many wants do, are one: `first` is its first line."""
    before = None
    for moment in moments:
        if before is not None:
            if is_idle(before) and is_idle(moment):
                moment.first = before.first
            else:
                yield before
        before = moment
    yield before


def is_idle(moment):
    return moment.word in ASKS and not moment.events and not moment.books and moment.trees is None


class Demands:
    """The demand in force at each moment, as `rsvpd demand` writes it of the lines that had run. It is asked for only where something
    happens before the next line changes it."""

    def __init__(self, run, moments, program):
        self.at = []  # of each moment the number of its demand, or None
        self.all = []  # the demands: ends, H, whether they fit
        known, asks = {}, [k for k, moment in enumerate(moments) if k == 0 or moment.word in ASKS]
        for first, behind in zip(asks, [*asks[1:], len(moments)]):
            if behind == len(moments) or any(moment.word not in ASKS | QUIET for moment in moments[first + 1:behind]):
                known[first] = len(self.all)
                self.all.append(demand_of(program, run.script[:moments[first].script]))
        number = None
        for k, _ in enumerate(moments):
            if k in asks:
                number = known.get(k)
            self.at.append(number)


def last_work(moments):
    """The last moment that does more than to let time pass: rounds count from it."""
    return max((k for k, moment in enumerate(moments) if moment.is_work()), default=0)


def exact_from(moments, demands):
    """The first moment from which on each book is the demand of its moment, to the end of the run; None where the last one is not."""
    found, held, wrong, of = None, {}, set(), None
    for k, moment in enumerate(moments):
        for end, book in moment.books.items():
            held[end] = entries_of(book)
        if demands.at[k] is None:
            found = of = None
            continue
        wanted = demands.all[demands.at[k]][0]
        for end in moment.books if demands.at[k] == of else wanted:
            (wrong.discard if held.get(end, []) == wanted[end][2] else wrong.add)(end)
        of = demands.at[k]
        found = None if wrong else k if found is None else found
    return found


def rounds_since(moments, begin, k):
    """How many rounds passed behind one moment up to another."""
    return sum(1 for moment in moments[begin + 1:k + 1] if moment.is_over)


def tool(name, usage, work):
    """Runs a tool over its words: what `work` yields is its output. Gives the status: 2 where words or input are of no use, 4 where the output
    cannot be written."""
    words = sys.argv[1:]
    streams = [(sys.stdin, "input", 2), (sys.stdout, "output", 4)]
    if words in (["-h"], ["--help"]):
        words, work, streams = [], lambda _: [usage.strip() + "\n"], streams[1:]
    for stream, which, status in streams:
        if stream is None:
            print(f"{name}: {which}: it is closed", file=sys.stderr)
            return status
    try:
        for part in work(words):
            try:
                sys.stdout.buffer.write(part if isinstance(part, bytes) else part.encode())
            except OSError as error:
                return not_written(name, error)
        sys.stdout.buffer.flush()
    except Unusable as why:
        print(f"{name}: {why}", file=sys.stderr)
        return 2
    except OSError as error:
        return not_written(name, error)
    except KeyboardInterrupt:
        return 130
    return 0


def not_written(name, error):
    print(f"{name}: output: {error.strerror}", file=sys.stderr)
    os.dup2(os.open(os.devnull, os.O_WRONLY), 1)
    return 4


def needs_no_words(words, command):
    if words:
        raise Unusable(f"{json.dumps(words[0])} is no option; it reads standard input: ./rsvpd events < FILE.net | {command}")
    if sys.stdin.isatty():
        raise Unusable(f"it reads standard input: ./rsvpd events < FILE.net | {command}")
