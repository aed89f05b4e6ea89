#!/usr/bin/env python3
"""The bench's tapes, the same on every run.

tapes.py DIR                    writes DIR/small.tape, DIR/large.tape, DIR/random.tape and DIR/several.tape
tapes.py --shares TAPE < LINES  prints how the tape's records share out, by what a replay printed
"""
import os
import sys
from collections import deque
from dataclasses import dataclass

MAX_TAPE = 65536
OPEN, LOAD, STORE, EXCHANGE, ADD, SERVE, RETURN, DELIVER, OPEN_LIMIT = range(9)
BODY = (3, 2, 6, 6, 6, 1, 1, 1, 4)


@dataclass
class Plan:
    """How a tape is made; all but shape and seed are percents."""

    shape: tuple  # lanes, lines, blocks, and the limit L where kind 08 opens
    seed: int
    near: int  # of begins: on a block that the lane holds
    loads: int  # of begins: loads
    blind: int  # of records: chosen blindly, often refused
    odd: int  # of records: always refused
    beside: int  # of records: a load beside a waiting operation, where there is a lane that can make one
    serves: int = 0  # of records: a serve, where there is a lane that can be served


TAPES = {
    "small": Plan((2, 1, 2), 1, near=25, loads=50, blind=5, odd=0, beside=5),
    "large": Plan((8, 8, 64), 2, near=40, loads=50, blind=20, odd=0, beside=5),
    "random": Plan((5, 3, 11), 3, near=31, loads=50, blind=8, odd=15, beside=5),
    "several": Plan((8, 8, 32, 8), 4, near=20, loads=50, blind=5, odd=0, beside=5, serves=50),
}


class Chance:
    """A generator of its own (splitmix64), so that the tapes hang on no version of Python."""

    def __init__(self, seed):
        self.state = seed

    def below(self, n):
        self.state = (self.state + 0x9E3779B97F4A7C15) % 2**64
        z = self.state
        z = (z ^ z >> 30) * 0xBF58476D1CE4E5B9 % 2**64
        z = (z ^ z >> 27) * 0x94D049BB133111EB % 2**64
        return (z ^ z >> 31) % n

    def percent(self, p):
        return self.below(100) < p

    def of(self, items):
        return items[self.below(len(items))]


class Lane:
    def __init__(self):
        self.lines = {}  # block: PRIVATE, of the valid lines, oldest first
        self.returns = deque()  # (is an answer, block, with words, resets PRESENT)
        self.downs = deque()  # (message, block)
        self.waiting = None  # [is a load, block, is EXCLUDE, is served]


class Model:
    """Who holds and waits for what: enough to know which calls are refused. It has no words."""

    def __init__(self, n, c, m, limit=1):
        self.n, self.c, self.m, self.limit = n, c, m, limit
        self.lanes = [Lane() for _ in range(n)]
        self.present = [set() for _ in range(m)]
        self.modified = [False] * m
        self.services = {}  # block: [lane, is shared, awaited]

    def allowed(self, kind, k, block=None):
        lane = self.lanes[k]
        if kind == SERVE:
            unserved = lane.waiting and not lane.waiting[3]
            return bool(unserved) and lane.waiting[1] not in self.services and len(self.services) < self.limit and not lane.returns
        if kind == RETURN:
            return bool(lane.returns)
        if kind == DELIVER:
            return bool(lane.downs)
        return lane.waiting is None or (kind == LOAD and block in lane.lines)

    def beside(self):
        """The lanes that wait and hold a block, so that they can load."""
        return [k for k, lane in enumerate(self.lanes) if lane.waiting and lane.lines]

    def servable(self):
        """The lanes that can be served."""
        return [k for k in range(self.n) if self.allowed(SERVE, k)]

    def run(self, kind, k, block=0):
        if kind == SERVE:
            self.serve(k)
        elif kind == RETURN:
            self.take_return(k)
        elif kind == DELIVER:
            self.deliver(k)
        else:
            self.begin(k, kind == LOAD, block)

    def begin(self, k, load, block):
        lane = self.lanes[k]
        held = block in lane.lines
        if held and (load or lane.lines[block]):
            lane.lines[block] = lane.lines.pop(block)
            return
        if not held and len(lane.lines) == self.c:
            oldest = next(iter(lane.lines))
            lane.returns.append((False, oldest, lane.lines.pop(oldest), True))
        lane.waiting = [load, block, held, False]

    def serve(self, k):
        waiting = self.lanes[k].waiting
        load, block = waiting[:2]
        waiting[3] = True
        ordered = self.present[block] - {k}
        if load and not self.modified[block]:
            ordered = set()
        for j in ordered:
            self.lanes[j].downs.append(("UPDATE" if load else "PURGE", block))
        self.services[block] = [k, load, len(ordered)]
        if not ordered:
            self.close(block)

    def close(self, block):
        k, shared, _ = self.services.pop(block)
        if shared:
            self.present[block].add(k)
        else:
            self.present[block] = {k}
            self.modified[block] = True
        self.lanes[k].downs.append(("grant", block))

    def take_return(self, k):
        answer, block, words, leaves = self.lanes[k].returns.popleft()
        if leaves:
            self.present[block].discard(k)
        if words:
            self.modified[block] = False
        if answer:
            self.services[block][2] -= 1
            if self.services[block][2] == 0:
                self.close(block)

    def deliver(self, k):
        lane = self.lanes[k]
        message, block = lane.downs.popleft()
        if message == "grant":
            load = lane.waiting[0]
            lane.lines.pop(block, None)
            lane.lines = {block: False, **lane.lines} if load else {**lane.lines, block: True}  # a load's fill is the oldest
            lane.waiting = None
        elif block not in lane.lines:
            lane.returns.append((True, block, False, True))
        elif message == "UPDATE":
            lane.lines[block] = False
            lane.returns.append((True, block, True, False))
        else:
            lane.returns.append((True, block, lane.lines.pop(block), True))


def record(chance, kind, k, word):
    body = [kind, k]
    if kind < SERVE:
        body.append(word)
    if LOAD < kind < SERVE:
        width = chance.of((1, 8, 16, 32))
        body.extend(chance.below(2**width).to_bytes(4, "little"))
    return bytes(body)


def odd_record(chance, model):
    """No such lane, no such word, or a second open."""
    k = chance.below(model.n)
    what = chance.below(10)
    if what == 0:
        return bytes((OPEN, chance.below(10), chance.below(10), chance.below(70)))
    kind = LOAD + chance.below(7)
    if what > 6 and kind < SERVE and model.m < 64:
        return record(chance, kind, k, 4 * model.m + chance.below(256 - 4 * model.m))
    return record(chance, kind, model.n + chance.below(256 - model.n), chance.below(256))


def make(plan):
    chance = Chance(plan.seed)
    model = Model(*plan.shape)
    tape = bytearray()
    if plan.odd:  # refused: not open, invalid shape
        tape += bytes((SERVE, 0, OPEN, 1, 1, 1, LOAD, 0, 0))
    tape += bytes((OPEN_LIMIT if len(plan.shape) == 4 else OPEN, *plan.shape))
    while True:
        if chance.percent(plan.odd):
            new = odd_record(chance, model)
        elif model.beside() and chance.percent(plan.beside):
            k = chance.of(model.beside())
            block = chance.of(sorted(model.lanes[k].lines))
            new = record(chance, LOAD, k, 4 * block + chance.below(4))
            model.run(LOAD, k, block)
        elif plan.serves and model.servable() and chance.percent(plan.serves):
            k = chance.of(model.servable())
            new = record(chance, SERVE, k, 0)
            model.run(SERVE, k)
        else:
            calls = [(kind, k) for kind in (LOAD, SERVE, RETURN, DELIVER) for k in range(model.n)]
            if not chance.percent(plan.blind):
                calls = [call for call in calls if model.allowed(*call)]
            kind, k = chance.of(calls)
            block = chance.below(model.m)
            if kind == LOAD:
                held = sorted(model.lanes[k].lines)
                if held and chance.percent(plan.near):
                    block = chance.of(held)
                if not chance.percent(plan.loads):
                    kind = chance.of((STORE, EXCHANGE, ADD))
            new = record(chance, kind, k, 4 * block + chance.below(4))
            if model.allowed(kind, k, block):
                model.run(kind, k, block)
        if len(tape) + len(new) > MAX_TAPE:
            return bytes(tape)
        tape += new


def shares(tape, lines):
    """Percent of records: those taken by kind, and those refused."""
    count = dict.fromkeys(("open", "begin", "deliver", "serve", "return", "refused"), 0)
    names = ("open", "begin", "begin", "begin", "begin", "serve", "return", "deliver", "open")
    at = 0
    for line in lines[:-1]:
        kind = tape[at]
        at += 1 + BODY[kind]
        count["refused" if line.split()[1] == "refused" else names[kind]] += 1
    total = len(lines) - 1
    if at != len(tape) or lines[-1] != f"end {total}":
        sys.exit("the lines are not of this tape")
    percents = ", ".join(f"{name} {100 * n / total:.1f} %" for name, n in count.items() if name != "open")
    print(f"{len(tape)} bytes, {total} records: {percents}")


def main():
    if len(sys.argv) == 3 and sys.argv[1] == "--shares":
        with open(sys.argv[2], "rb") as tape:
            shares(tape.read(), sys.stdin.read().splitlines())
    elif len(sys.argv) == 2 and not sys.argv[1].startswith("-"):
        for name, plan in TAPES.items():
            with open(os.path.join(sys.argv[1], name + ".tape"), "wb") as tape:
                tape.write(make(plan))
    else:
        sys.exit(__doc__.strip())


if __name__ == "__main__":
    main()
