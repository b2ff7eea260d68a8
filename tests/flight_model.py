"""A model of the board, its cards and the reader of sheets, written from the rules alone, to compare the program `flight` with.

    flight_model.py run < SCRIPT                           prints what the rules answer
    flight_model.py make SEED LINES                        prints a random script
    flight_model.py compare FLIGHT SEED LINES SCRIPTS      compares the program FLIGHT with the model on random scripts
    flight_model.py large FLIGHT CALLS SECONDS MEGABYTES   runs a long script within these limits
    flight_model.py faulty FLIGHT TABLE                    tries the faulty scripts of a table
"""
import random
import re
import resource
import subprocess
import sys
import time

ARRIVALS = 1 << 24
NUMBER = rb"(0|[1-9][0-9]{0,9})"


class Refused(Exception):
    """A refusal: its number, and what stands behind it."""


# ---- share sheets

def sheet_lines(text):
    """The lines with their line feeds; what follows the last line feed is a line without one."""
    return re.findall(rb"[^\n]*\n|[^\n]+", text)


class Sheet:
    """Reads a text; raises Refused with number and line."""

    def __init__(self, text):
        if len(text) > 256:
            raise Refused(1, 0)
        self.lines = sheet_lines(text)
        self.at = 0
        self.flows, self.lanes, self.slots, self.threshold = [], [], 1, 0
        for _ in range(self.count(b"F", 16)):
            weight, longest = self.line(NUMBER + rb" " + NUMBER)
            self.within(weight, 1, 100)
            self.within(longest, 1, 2048)
            self.flows.append((weight, longest))
        for _ in range(self.count(b"L", 8)):
            (capacity,) = self.line(NUMBER)
            self.within(capacity, 1, 32)
            self.lanes.append(capacity)
        last = ""
        for _ in range(self.count(b"P", 2)):
            letter, value = self.line(rb"([DT]) " + NUMBER)
            if letter <= last:
                raise Refused(5, self.at)
            last = letter
            if letter == "D":
                self.within(value, 1, 32)
                self.slots = value
            else:
                self.within(value, 0, 10**9)
                self.threshold = value
        if self.at < len(self.lines):
            raise Refused(4, self.at + 1)

    def line(self, form):
        """The parts of the next line by its form."""
        self.at += 1
        if self.at > len(self.lines):
            raise Refused(2, self.at)
        m = re.fullmatch(form + rb"\n", self.lines[self.at - 1])
        if not m:
            raise Refused(2, self.at)
        return [g.decode() if g.isalpha() else int(g) for g in m.groups()]

    def count(self, letter, most):
        (n,) = self.line(letter + rb" " + NUMBER)
        self.within(n, 0, most)
        return n

    def within(self, n, low, high):
        if not low <= n <= high:
            raise Refused(3, self.at)


# ---- cards

class Queue:
    depth = 16

    def __init__(self):
        self.held = []

    def submit(self, ticket, length):
        if len(self.held) >= self.depth:
            raise Refused(13, "full")
        if any(t == ticket for t, _ in self.held):
            raise Refused(13, "held already")
        self.held.append((ticket, length))

    def finish(self):
        return (self.held.pop(0)[0], 0) if self.held else None

    def count(self):
        return len(self.held)


class Bank:
    depth = 32

    def __init__(self):
        self.banks = [[], [], [], []]

    def submit(self, ticket, length):
        if self.count() >= self.depth:
            raise Refused(13, "full")
        if any(job[0] == ticket for bank in self.banks for job in bank):
            raise Refused(13, "held already")
        self.banks[ticket % 4].append([ticket, -(-length // 64)])

    def finish(self):
        for bank in self.banks:
            if bank and bank[0][1] > 0:
                bank[0][1] -= 1
        for bank in self.banks:
            if bank and bank[0][1] == 0:
                return bank.pop(0)[0], 0
        return None

    def count(self):
        return sum(map(len, self.banks))


# ---- the board

def distance(a, b):
    return 0 if a == b else 1 if a // 4 == b // 4 else 2


class Board:
    def __init__(self, card):
        self.card = card
        self.flows, self.lanes, self.slots, self.threshold = [], [], 1, 0
        self.clear()

    def clear(self):
        self.time = 0
        self.ends = [0] * len(self.flows)
        self.waiting = []  # (start, ticket, lane, flow, length, charge)
        self.in_card = {}  # ticket: (flow, charge)
        self.arrivals = 0

    def load(self, sheet):
        if self.waiting or self.in_card or self.card.count():
            raise Refused(6)
        if sheet.slots > self.card.depth:
            raise Refused(7)
        self.flows, self.lanes, self.slots, self.threshold = sheet.flows, sheet.lanes, sheet.slots, sheet.threshold
        self.clear()
        return "loaded"

    def arrive(self, flow, lane, length):
        if flow >= len(self.flows):
            raise Refused(8)
        if lane >= len(self.lanes):
            raise Refused(9)
        weight, longest = self.flows[flow]
        if not 1 <= length <= longest:
            raise Refused(10)
        if sum(r[2] == lane for r in self.waiting) >= self.lanes[lane]:
            raise Refused(11)
        if self.arrivals >= ARRIVALS:
            raise Refused(12)
        charge = -(-840 * length // weight)
        start = max(self.time, self.ends[flow])
        ticket = self.arrivals
        self.arrivals += 1
        self.ends[flow] = start + charge
        self.waiting.append((start, ticket, lane, flow, length, charge))
        self.tick()
        return "arrived %d %d %d" % (ticket, start, start + charge)

    def tick(self):
        if self.waiting:
            self.time = min(self.waiting)[0]

    def lead(self, lane):
        return min((r for r in self.waiting if r[2] == lane), default=None)

    def is_ready(self, lane):
        lead = self.lead(lane)
        return lead is not None and lead[0] <= self.time + self.threshold

    def hand(self, request):
        _, ticket, _, flow, length, charge = request
        self.card.submit(ticket, length)
        self.waiting.remove(request)
        self.in_card[ticket] = flow, charge
        self.tick()
        return "sent %d %d %d" % (ticket, flow, charge)

    def send(self, lane):
        if lane >= len(self.lanes):
            raise Refused(9)
        lead = self.lead(lane)
        if lead is None:
            return "empty"
        if lead[0] > self.time + self.threshold:
            return "throttled %d" % (lead[0] - self.time - self.threshold)
        if len(self.in_card) >= self.slots:
            return "no slot"
        return self.hand(lead)

    def kick(self, lane):
        if lane >= len(self.lanes):
            raise Refused(9)
        if not self.waiting:
            return "empty"
        if len(self.in_card) >= self.slots:
            return "no slot"
        ready = [k for k in range(len(self.lanes)) if self.is_ready(k)]
        return self.hand(self.lead(min(ready, key=lambda k: (distance(lane, k), k))))

    def reap(self):
        done = self.card.finish()
        if done is None:
            return "not yet" if self.in_card else "idle"
        ticket, status = done
        if ticket not in self.in_card:
            raise Refused(14, ticket)
        flow, charge = self.in_card.pop(ticket)
        return "finished %d %d %d %d" % (ticket, flow, charge, status)

    def tell_time(self):
        return "time %d" % self.time

    def ready(self):
        mask = sum(1 << k for k in range(len(self.lanes)) if self.is_ready(k))
        return "ready %d %d" % (mask, bin(mask).count("1"))

    def flow(self, flow):
        if flow >= len(self.flows):
            raise Refused(8)
        weight, longest = self.flows[flow]
        waiting = sum(r[3] == flow for r in self.waiting)
        held = sum(f == flow for f, _ in self.in_card.values())
        return "flow %d %d %d %d %d" % (weight, longest, self.ends[flow], waiting, held)


# ---- scripts

class Flight:
    """A board around a new card, called by the words of a script."""

    def __init__(self, card):
        self.board = Board({"queue": Queue, "bank": Bank}[card]())

    def call(self, name, numbers=(), text=b""):
        """The line that a call answers."""
        board = self.board
        try:
            if name == "sheet":
                return board.load(Sheet(text))
            return {"arrive": board.arrive, "send": board.send, "kick": board.kick, "reap": board.reap,
                    "time": board.tell_time, "ready": board.ready, "flow": board.flow}[name](*numbers)
        except Refused as refusal:
            return " ".join(str(x) for x in ("refused", *refusal.args))


def answers(script):
    """The lines that a script's calls answer, one after the other. The script is taken to be of the right form."""
    lines = sheet_lines(script)
    flight = None
    at = 0
    while at < len(lines):
        name, *words = lines[at].decode().split() or ["#"]
        at += 1
        if name.startswith("#"):
            continue
        if name == "card":
            flight = Flight(*words)
            continue
        numbers = [int(w) for w in words]
        text = b""
        if name == "sheet":
            text = b"".join(lines[at:at + numbers[0]])
            at += numbers[0]
        yield flight.call(name, numbers, text)


class Maker:
    """Random scripts. Sheets are loaded now and then, good ones and bad ones; numbers are now and then out of range."""

    def __init__(self, seed):
        self.rng = random.Random(seed)
        card = self.pick("queue", "bank")
        self.out = ["# a random script", "", "card " + card]
        self.flight = Flight(card)

    def pick(self, *choices):
        return self.rng.choice(choices)

    def ask(self, name, *numbers):
        """Writes a call, and makes it, so that later calls can fit the board."""
        self.out.append(" ".join([name, *map(str, numbers)]))
        return self.flight.call(name, numbers)

    def load(self):
        lines = self.sheet()
        self.out += ["sheet %d" % len(lines), *lines]
        return self.flight.call("sheet", (len(lines),), "".join(line + "\n" for line in lines).encode())

    def sheet(self):
        rng = self.rng
        flows = ["%d %d" % (rng.randint(1, 100), rng.randint(1, 2048)) for _ in range(rng.randint(0, 16))]
        lanes = ["%d" % rng.randint(1, 32) for _ in range(rng.randint(0, 8))]
        if rng.random() < 0.9:
            flows = flows or ["50 64", "100 64"]
            lanes = lanes or ["4", "4"]
        params = ["D %d" % rng.randint(1, rng.choice([2, 8, 16, 17, 32]))] * (rng.random() < 0.7)
        params += ["T %d" % rng.choice([0, 1, 500, 6000, 10**6, 10**9])] * (rng.random() < 0.7)
        lines = ["F %d" % len(flows), *flows, "L %d" % len(lanes), *lanes, "P %d" % len(params), *params]
        return self.damage(lines) if rng.random() < 0.3 else lines

    def damage(self, lines):
        rng = self.rng
        at = rng.randrange(len(lines))
        kind = rng.randrange(9)
        if kind == 0:
            lines[at] += self.pick(" ", "x", "0", " 1", "00000000000")
        elif kind == 1:
            lines[at] = lines[at].replace(" ", self.pick("  ", "\t", ""))
        elif kind == 2:
            del lines[at]
        elif kind == 3:
            lines.insert(at, lines[at])
        elif kind == 4:
            lines.append(self.pick("", "x", "P 0"))
        elif kind == 5:
            lines[at] = "%d" % rng.randint(0, 1 << 34) if rng.random() < 0.5 else "F %d" % rng.randint(0, 1 << 34)
        elif kind == 6:
            lines[-2:] = reversed(lines[-2:])
        elif kind == 7:
            lines += ["x" * 60] * 5
        else:
            lines[at] = self.pick("", "#", "D 0", "T 1000000001", "0 5", "101 5", "5 2049", "33", "05 5", "F 17", "L 9", "P 3")
        return lines

    def number(self, limit):
        if self.rng.random() < 0.04 or not limit:
            return self.pick(limit, limit + 1, 255, 256, 65541, (1 << 32) - 1)
        return self.rng.randrange(limit)

    def random_call(self, arrivals):
        rng = self.rng
        board = self.flight.board
        weights = [arrivals, 9, 18, 26, 3, 3, 3]
        kind = rng.choices(["arrive", "send", "kick", "reap", "time", "ready", "flow"], weights)[0]
        if kind == "arrive":
            flow = self.number(len(board.flows))
            longest = board.flows[flow][1] if flow < len(board.flows) else 2048
            length = self.pick(0, longest + 1, 65541) if rng.random() < 0.04 else rng.randint(1, longest)
            self.ask(kind, flow, self.number(len(board.lanes)), length)
        elif kind in ("send", "kick"):
            self.ask(kind, self.number(len(board.lanes)))
        elif kind == "flow":
            self.ask(kind, self.number(len(board.flows)))
        else:
            self.ask(kind)

    def drain(self):
        while self.flight.board.waiting or self.flight.board.in_card:
            self.ask("kick", 0)
            self.ask("reap")

    def script(self, calls):
        rng = self.rng
        while len(self.out) < calls:
            if rng.random() < 0.85:
                self.drain()
            self.load()
            for _ in range(rng.choice([0, 5, 50, 500])):
                self.random_call(rng.choice([15, 45, 90]))
                if rng.random() < 0.01:
                    self.out.append(self.pick("", "# between", "#"))
        return ("\n".join(self.out) + self.pick("\n", "")).encode()


def compare(flight, seed, calls, scripts):
    """Whether the program answers random scripts as the model does, and every kind of answer was among them."""
    seen = {}
    for n in range(scripts):
        script = Maker(seed * 1000 + n).script(calls)
        run = subprocess.run([flight], input=script, capture_output=True)
        got = run.stdout.decode().splitlines()
        want = list(answers(script))
        if run.returncode or run.stderr or got != want:
            at = next((i for i, (g, w) in enumerate(zip(got, want)) if g != w), min(len(got), len(want)))
            name = "/tmp/flight-%d-%d.script" % (seed, n)
            open(name, "wb").write(script)
            print("flights: %s is answered otherwise, first in line %d: %r, by the rules %r (status %d, %r)" % (
                name, at + 1, got[at:at + 1], want[at:at + 1], run.returncode, run.stderr))
            return False
        for line in want:
            key = re.sub(r"^((?!refused)\w+( yet| slot)?|refused \d+).*", r"\1", line)
            seen[key] = seen.get(key, 0) + 1
    print("flights: %d answers to %d random scripts agree: %s" % (
        sum(seen.values()), scripts, ", ".join("%s %d" % kv for kv in sorted(seen.items()))))
    missing = [k for k in EXPECTED if k not in seen]
    if missing:
        print("flights: the random scripts had no answer of the kinds", ", ".join(missing))
    return not missing


def large(flight, calls, seconds, megabytes):
    """Whether a script of so many calls is answered in time and memory. The largest sheet is loaded, and all calls are made."""
    lines = ["F 16", *["100 2048"] * 16, "L 8", *["32"] * 8, "P 2", "D 16", "T 1000000000"]
    turn = ["arrive %d %d %d" % (k % 16, k % 8, 2048 - k) for k in range(8)] + ["kick %d" % k for k in range(8)]
    turn += ["reap"] * 8 + ["send 3", "time", "ready", "flow 15", "arrive 4294967295 4294967295 4294967295", "sheet 1", "F 17"]
    made = len(turn) - 1
    script = "\n".join(["card queue", "sheet %d" % len(lines), *lines, *turn * (calls // made), ""]).encode()
    began = time.time()
    run = subprocess.run([flight], input=script, capture_output=True)
    took = time.time() - began
    used = resource.getrusage(resource.RUSAGE_CHILDREN).ru_maxrss / 1024
    want = 1 + calls // made * made
    got = run.stdout.count(b"\n")
    print("flights: %d calls took %.2f s and at most %d MB" % (got, took, used))
    if run.returncode or got != want or took > seconds or used > megabytes:
        print("flights: %d answers are wanted, in %d s and %d MB (status %d, %r)" % (want, seconds, megabytes, run.returncode, run.stderr))
        return False
    return True


def faulty(flight, table):
    """Whether each faulty script is told by its line and what was expected there, with nothing on the standard output."""
    good = True
    cases = [line.rstrip("\n").split("\t") for line in open(table, encoding="utf-8") if not line.startswith("--") and line.strip()]
    for script, line, expected in cases:
        text = script.encode().decode("unicode_escape").encode("latin-1")
        run = subprocess.run([flight], input=text, capture_output=True)
        want = "flight: line %s: expected %s\n" % (line, expected)
        if (run.returncode, run.stdout, run.stderr.decode()) != (1, b"", want):
            print("flights: the script %s gave %r, %r, status %d; wanted %r" % (script, run.stdout, run.stderr, run.returncode, want))
            good = False
    print("flights: %d faulty scripts tried" % len(cases))
    return good


EXPECTED = ["loaded", "arrived", "empty", "throttled", "no slot", "sent", "finished", "not yet", "idle", "time", "ready", "flow",
            *("refused %d" % n for n in (1, 2, 3, 4, 5, 6, 7, 8, 9, 10, 11))]


def main(words):
    name, *rest = words or [""]
    if name == "run":
        for line in answers(sys.stdin.buffer.read()):
            print(line)
        return 0
    if name == "make":
        sys.stdout.buffer.write(Maker(int(rest[0])).script(int(rest[1])))
        return 0
    if name == "compare":
        return 0 if compare(rest[0], *map(int, rest[1:])) else 1
    if name == "large":
        return 0 if large(rest[0], *map(int, rest[1:])) else 1
    if name == "faulty":
        return 0 if faulty(*rest) else 1
    print(__doc__)
    return 2


if __name__ == "__main__":
    sys.exit(main(sys.argv[1:]))
