"""A small model of document 01's machine (with the places of 02, W1, the fills of W3, the loads of W5 and the services of W6), for the charts: which messages a tape's records send and take.

What benchtape prints does not name messages, so the charts need it. It knows the refusals 8 to 11 only. Each answer it gives is held
to the line that benchtape printed (tools/charts); nothing else rests on it. `tape_of` gives a tape's bytes to the tools that make tapes.
"""
from dataclasses import dataclass, field

NAMES = ['open', 'load', 'store', 'exchange', 'add', 'serve', 'return', 'deliver', 'open']
LENGTHS = [3, 2, 6, 6, 6, 1, 1, 1, 4]
OPEN_LIMIT = 8
CONTROL = 'control'
REASONS = {8: 'lane {0} waits for its operation', 9: 'nothing there for lane {0}', 10: 'its block is in service, or L services are open',
           11: "lane {0}'s return queue is taken first"}


def record_bytes(text):
    """The bytes of a record in words, such as 'store 0 5 7': kind, fields of one byte, v in four, low byte first. An open of four fields has L: kind 08."""
    kind, *fields = text.split()
    numbers = [int(field) for field in fields]
    if kind == 'open' and len(numbers) == LENGTHS[OPEN_LIMIT]:
        return bytes([OPEN_LIMIT, *numbers])
    if kind in ('store', 'exchange', 'add'):
        return bytes([NAMES.index(kind), *numbers[:2]]) + numbers[2].to_bytes(4, 'little')
    return bytes([NAMES.index(kind), *numbers])


def tape_of(records):
    """The bytes of a list of records in words."""
    return b''.join(map(record_bytes, records))


@dataclass
class Record:
    """A tape's record."""
    kind: str
    fields: list


@dataclass
class Message:
    """Something that goes from a lane to the control or back: sent in one row, taken in a later one."""
    name: str
    source: object
    target: object
    block: int
    sent: int
    words: list = None
    taken: int = None

    def label(self):
        return self.name + ('' if self.words is None else f' ({self.words[0]})')


@dataclass
class Line:
    """A valid line."""
    block: int
    words: list
    private: bool


@dataclass
class Lane:
    """Its valid lines by number, the use order, the queues, the operation that waits."""
    lines: dict
    order: list
    returns: list = field(default_factory=list)
    downs: list = field(default_factory=list)
    waiting: dict = None

    def search(self, block):
        return min((i for i, line in self.lines.items() if line.block == block), default=None)

    def use(self, i):
        self.order.remove(i)
        self.order.append(i)

    def insert_oldest(self, i):
        self.order.remove(i)
        self.order.insert(0, i)


@dataclass
class Block:
    """A block of main memory."""
    words: list
    present: set
    modified: bool = False


class Refused(Exception):
    """A refusal, by its number."""


def records_of(tape):
    """The records of a tape that is well formed."""
    records, at = [], 0
    while at < len(tape):
        body = tape[at + 1:at + 1 + LENGTHS[tape[at]]]
        fields = list(body) if NAMES[tape[at]] == 'open' else list(body[:2])
        if len(body) == 6:
            fields.append(int.from_bytes(body[2:], 'little'))
        records.append(Record(NAMES[tape[at]], fields))
        at += 1 + len(body)
    return records


def apply(op, former, v):
    """The word after an operation, and the value it gives."""
    return {'load': (former, former), 'store': (v, v), 'exchange': (v, former), 'add': ((former + v) % 2 ** 32, former)}[op]


class Bench:
    """A store, and the messages that have gone through it. A step gives its answer and what happened, in words."""

    def __init__(self, lanes, lines, blocks, limit=1):
        self.lanes = [Lane({}, list(range(lines))) for _ in range(lanes)]
        self.lines = lines
        self.blocks = [Block([0] * 4, set()) for _ in range(blocks)]
        self.limit = limit
        self.services = {}
        self.completions = 0
        self.row = 0
        self.messages = []

    def send(self, name, source, target, block, words=None):
        message = Message(name, source, target, block, self.row, words)
        self.messages.append(message)
        return message

    def take(self, queue):
        if not queue:
            raise Refused(9)
        message = queue.pop(0)
        message.taken = self.row
        return message

    def complete(self, k, i, op, word, v):
        lane = self.lanes[k]
        words = lane.lines[i].words
        words[word % 4], value = apply(op, words[word % 4], v)
        self.completions += 1
        return f'done {k} {value} {self.completions}'

    def begin(self, k, op, word, v=0):
        lane, block = self.lanes[k], word // 4
        i = lane.search(block)
        if lane.waiting and (op != 'load' or i is None):
            raise Refused(8)
        if i is not None and (op == 'load' or lane.lines[i].private):
            lane.use(i)
            return self.complete(k, i, op, word, v), f'hit on block {block}'
        command = 'EXCLUDE' if i is not None else 'READ shared' if op == 'load' else 'READ exclusive'
        what = f'block {block} is held, and shared' if i is not None else f'miss on block {block}' + self.give_up(k)
        lane.waiting = {'op': op, 'word': word, 'v': v, 'command': self.send(command, k, CONTROL, block), 'served': False}
        return 'wait', what

    def give_up(self, k):
        lane = self.lanes[k]
        if len(lane.lines) < self.lines:
            return ''
        line = lane.lines.pop(lane.order[0])
        name, words = ('WRITE-EJECT', line.words) if line.private else ('EJECT', None)
        lane.returns.append(self.send(name, k, CONTROL, line.block, words))
        return f', block {line.block} is given up'

    def serve(self, k):
        lane = self.lanes[k]
        if not lane.waiting or lane.waiting['served']:
            raise Refused(9)
        command = lane.waiting['command']
        if command.block in self.services or len(self.services) == self.limit:
            raise Refused(10)
        if lane.returns:
            raise Refused(11)
        command.taken, lane.waiting['served'] = self.row, True
        block = self.blocks[command.block]
        shared = command.name == 'READ shared'
        ordered = sorted(block.present - {k}) if block.modified or not shared else []
        bare = command.name == 'EXCLUDE' and k in block.present
        self.services[command.block] = {'lane': k, 'shared': shared, 'awaited': len(ordered), 'bare': bare}
        return 'step', self.order('UPDATE' if shared else 'PURGE', command.block, ordered) if ordered else self.close(command.block)

    def order(self, name, block, ordered):
        for j in ordered:
            self.lanes[j].downs.append(self.send(name, CONTROL, j, block))
        return f'{name} to lane ' + ' and '.join(map(str, ordered)) + f': {len(ordered)} awaited'

    def close(self, number):
        service = self.services.pop(number)
        block, k = self.blocks[number], service['lane']
        if service['shared']:
            block.present.add(k)
        else:
            block.present, block.modified = {k}, True
        words = None if service['bare'] else list(block.words)
        name = 'bare grant' if service['bare'] else 'grant'
        self.lanes[k].downs.append(self.send(name, CONTROL, k, number, words))
        return f'closes: {name} to lane {k}'

    def back(self, k):
        message = self.take(self.lanes[k].returns)
        block = self.blocks[message.block]
        if message.words is not None:
            block.words, block.modified = list(message.words), False
        if message.name != 'UPDATED':
            block.present.discard(k)
        told = 'words written' if message.words is not None else f"lane {k}'s PRESENT reset"
        if message.name in ('EJECT', 'WRITE-EJECT'):
            return 'step', told
        service = self.services[message.block]
        service['awaited'] -= 1
        left = service['awaited']
        return 'step', f'{told}; ' + (f'{left} awaited' if left else self.close(message.block))

    def deliver(self, k):
        lane = self.lanes[k]
        message = self.take(lane.downs)
        if message.name in ('UPDATE', 'PURGE'):
            return 'step', self.obey(k, message)
        op, word, v = (lane.waiting[name] for name in ('op', 'word', 'v'))
        lane.waiting = None
        i = lane.search(message.block)
        if message.words is not None:
            i = min(set(range(self.lines)) - set(lane.lines))
            lane.lines[i] = Line(message.block, list(message.words), False)
        lane.lines[i].private = op != 'load'
        if message.words is not None and op == 'load':
            lane.insert_oldest(i)
        else:
            lane.use(i)
        what = 'the held line is used' if message.words is None else f'line {i} is filled'
        return self.complete(k, i, op, word, v), what

    def obey(self, k, order):
        lane = self.lanes[k]
        i = lane.search(order.block)
        if i is None:
            lane.returns.append(self.send('GONE', k, CONTROL, order.block))
            return f'block {order.block} is not held'
        line = lane.lines[i]
        if order.name == 'UPDATE':
            lane.returns.append(self.send('UPDATED', k, CONTROL, order.block, list(line.words)))
            line.private = False
            return f'block {order.block} stays, shared'
        lane.returns.append(self.send('PURGED', k, CONTROL, order.block, line.words if line.private else None))
        del lane.lines[i]
        return f'block {order.block} is no longer held'


def step(bench, record):
    """A record's answer, as benchtape prints it, and what happened."""
    calls = {'serve': bench.serve, 'return': bench.back, 'deliver': bench.deliver}
    k = record.fields[0]
    try:
        if record.kind in calls:
            return calls[record.kind](k)
        return bench.begin(k, record.kind, *record.fields[1:])
    except Refused as refused:
        number = refused.args[0]
        return f'refused {number}', REASONS[number].format(k)
