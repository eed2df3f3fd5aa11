"""What the program has to answer, as docs/FORMATS.md tells it: scripts with their faults, frames, drawn scripts, the words of
the command line, and what the report of a script may say. It is written by that page alone and shares nothing with the program.
"""
import re

NUMBER = re.compile(rb'0|[1-9][0-9]*')
HEX = re.compile(rb'(?:[0-9a-fA-F]{2})+')
NAME = re.compile(rb'[A-Za-z0-9_]{1,16}')
METHOD = re.compile(rb'[A-Za-z0-9_]{1,64}')
SERVICE = re.compile(rb'[A-Za-z0-9_.]{1,64}')
TEXT = re.compile(rb'[ -~]*')
KIND = re.compile(rb'A[1-8]|S[1-7]|C[1-8]|P1|M[12]|L[12]|W[1-3]|R1|I[1-8]|T[12]|K[12]')
SIZES = {'slots': 31, 'requests': 4_096, 'first': 0}
SCRIPT_LIMIT = 1_048_576
BODY_LIMIT = 67_108_864
USAGE = b'usage: replay | sim SEED | run [PORT] | gen SEED CLIENTS OPS | load SEED CLIENTS OPS | frames | serve PORT N\n'
REASONS = {
    4: b'brpc: the input failed\n',
    5: b'brpc: the output failed\n',
    6: b'brpc: the input is longer than the command takes\n',
    7: b'brpc: memory ran out\n',
    8: b'brpc: a link could not be opened, or a connection failed\n',
    9: b'brpc: a frame is faulty\n',
}


def number(word, low, high):
    """The number that a word spells, or None where it spells none in this range."""
    if NUMBER.fullmatch(word) and len(word) <= 20 and low <= int(word) <= high:
        return int(word)
    return None


def hex_of(data):
    return data.hex() or '-'


# Scripts


class Fault(Exception):
    """A script's first fault: its line, and its kind."""


class Parts:
    """The parts of one line, read side by side: the kinds of all their faults are kept, and the lowest counts."""

    def __init__(self):
        self.kinds = []

    def number(self, word, low, high):
        read = number(word, low, high)
        if read is None:
            self.kinds.append(4)
        return read

    def spelled(self, word, pattern):
        if not pattern.fullmatch(word):
            self.kinds.append(7)
        return word.decode('latin-1')

    def bytes(self, word):
        if word == b'-':
            return b''
        if not HEX.fullmatch(word):
            self.kinds.append(5)
            return b''
        return bytes.fromhex(word.decode())

    def sized(self, low, size, high):
        if not low <= size <= high:
            self.kinds.append(6)

    def options(self, words, keys, plain=()):
        """The values of `key=VALUE` and of plain words."""
        values = {}
        for word in words:
            key, is_given, value = word.partition(b'=')
            key = key.decode('latin-1')
            if not (is_given and key in keys or not is_given and key in plain) or key in values:
                self.kinds.append(3)
            values[key] = value
        return values


class Script:
    """The script that some bytes are; Fault where they are none."""

    def __init__(self, text):
        self.sizes, self.items, self.turns = {}, [], []
        self.operations, self.links, self.clients, self.number = [], [], 0, 0
        self.names, self.held, self.has_schedule = set(), set(), False
        targets = []
        pieces = text.split(b'\n')
        lines = [line[:-1] if line.endswith(b'\r') else line for line in pieces[:-1]] + [line for line in pieces[-1:] if line]
        for place, line in enumerate(lines, 1):
            if not line or line.startswith(b'#'):
                continue
            if not TEXT.fullmatch(line):
                raise Fault(place, 1)
            parts = Parts()
            item = self.item(parts, *[word for word in line.split(b' ') if word])
            if parts.kinds:
                raise Fault(place, min(parts.kinds))
            self.add(place, item)
            if item[0] in ('expire', 'join'):
                targets.append((place, item))
        calls = {(client, number) for client, number, item in self.operations if item[0] == 'call'}
        for place, item in targets:
            if item[1:] not in calls:
                raise Fault(place, 10)
        for place, item in targets:
            if item[0] == 'join' and not all('serve' in shape for _, shape in self.links):
                raise Fault(place, 11)

    def item(self, parts, first=b'', *words):
        """What a line says, by itself: its first word and what stands behind it."""
        first = first.decode()
        counts = {'slots': 1, 'requests': 1, 'first': 1, 'client': 0, 'send': 2, 'expire': 1, 'join': 1, 'fail': 2, 'hold': 1, 'drop': 1, 'sched': 0, 'tick': 2, 'to': 2}
        if first not in counts and first not in ('open', 'call'):
            parts.kinds.append(2)
            return None
        is_short = first == 'open' and len(words) < 1 or first == 'call' and len(words) < 3
        if is_short or first in counts and len(words) != counts[first]:
            parts.kinds.append(3)
            return None
        if first in SIZES:
            low, high = {'slots': (1, 31), 'requests': (1, 4_096), 'first': (0, 4_294_967_292)}[first]
            size = parts.number(words[0], low, high)
            if first == 'first' and size is not None and size % 2 == 1:
                parts.kinds.append(4)
            return first, size
        if first == 'open':
            return first, parts.spelled(words[0], NAME), self.shape(parts, words[1:])
        if first == 'send':
            name, data = parts.spelled(words[0], NAME), parts.bytes(words[1])
            if 5 not in parts.kinds:
                parts.sized(1, len(data), 65_536)
            return first, name, data
        if first == 'call':
            return self.call(parts, *words)
        if first in ('expire', 'join'):
            target = words[0].split(b'.')
            if len(target) != 2:
                parts.kinds.append(4)
            return first, *[parts.number(word, 0, 2**64 - 1) for word in target]
        if first == 'fail':
            return first, parts.spelled(words[0], NAME), parts.number(words[1], 1_500, 1_999)
        if first in ('hold', 'drop'):
            return first, parts.spelled(words[0], NAME)
        if first == 'tick':
            return first, self.seat(parts, words[0]), parts.number(words[1], 1, 65_536)
        if first == 'to':
            return first, self.seat(parts, words[0]), parts.spelled(words[1], KIND)
        return (first,)

    def shape(self, parts, words):
        ranges = {'piece': (1, 65_536), 'again': (2, 65_536), 'fail': (1, 65_536), 'end': (0, 65_536)}
        values = parts.options(words, ranges, ('serve',))
        read = {key: True if key == 'serve' else parts.number(values[key], *ranges[key]) for key in values if key == 'serve' or key in ranges}
        return {key: value for key, value in read.items() if (key, value) != ('piece', 65_536)}

    def call(self, parts, names, method, payload, *options):
        names = names.split(b',')
        if len(names) > 2:
            parts.kinds.append(7)
        names = [parts.spelled(name, NAME) for name in names]
        service, _, method = method.rpartition(b'.')
        service, method = parts.spelled(service, SERVICE), parts.spelled(method, METHOD)
        values = parts.options(options, ('att', 'retry'))
        payload, attachment = parts.bytes(payload), parts.bytes(values.get('att', b'-'))
        if 5 not in parts.kinds:
            parts.sized(0, len(payload) + len(attachment), 65_280)
        return 'call', names, service, method, payload, attachment, parts.number(values.get('retry', b'0'), 0, 6)

    def seat(self, parts, word):
        is_reader = word.startswith(b'r')
        seat = parts.number(word[1:], 0, 30) if is_reader else parts.number(word, 1, 31)
        if seat is not None and (seat >= len(self.links) if is_reader else seat > self.clients):
            parts.kinds.append(4)
        return f'r{seat}' if is_reader else str(seat)

    def add(self, place, item):
        """The item at its place, behind those of the lines before it."""
        sort = item[0]
        is_turn, is_operation = sort in ('tick', 'to'), sort not in (*SIZES, 'client', 'sched', 'tick', 'to')
        if sort in SIZES:
            is_misplaced = sort in self.sizes or self.items or self.has_schedule
        elif is_turn:
            is_misplaced = not self.has_schedule
        else:
            is_misplaced = self.has_schedule or is_operation and sort != 'open' and self.clients == 0
        if is_misplaced:
            raise Fault(place, 8)
        names = set(item[1]) if sort == 'call' else {item[1]} if sort in ('open', 'send', 'fail', 'hold', 'drop') else set()
        if (
            sort == 'client' and self.clients == 31
            or sort == 'open' and len(self.links) == 31
            or is_operation and len(self.operations) == 4_096
            or is_turn and len(self.turns) == 4_096
            or len(self.names | names) > 64
        ):
            raise Fault(place, 9)
        if sort == 'hold' and item[1] in self.held or sort == 'drop' and item[1] not in self.held:
            raise Fault(place, 12)
        self.names |= names
        if sort in SIZES:
            self.sizes[sort] = item[1]
        elif sort == 'sched':
            self.has_schedule = True
        elif is_turn:
            self.turns.append(item)
        else:
            self.items.append(item)
        if sort == 'client':
            self.clients, self.number, self.held = self.clients + 1, 0, set()
        if sort == 'hold':
            self.held.add(item[1])
        if sort == 'drop':
            self.held.remove(item[1])
        if sort == 'open':
            self.links.append(item[1:])
        if is_operation:
            self.number += 1
            self.operations.append((self.clients, self.number, item))

    def printed(self, turns=None):
        """The script as it is printed, with another schedule where one is given."""
        sizes = [(size, self.sizes[size]) for size in SIZES if self.sizes.get(size, SIZES[size]) != SIZES[size]]
        turns = self.turns if turns is None else turns
        lines = map(item_text, [*sizes, *self.items, *[('sched',)][: len(turns)], *turns])
        return ''.join(line + '\n' for line in lines).encode()

    def drawn(self, seed):
        """The schedule that `sim` draws; ticks of one seat in a row are one line."""
        seats = [str(client + 1) for client in range(self.clients)] + [f'r{link}' for link in range(len(self.links))]
        draw, turns = draws(seed), []
        for _ in range(64 * len(self.operations) + 256 if seats else 0):
            seat = seats[next(draw) % len(seats)]
            count = turns.pop()[2] if turns and turns[-1][1] == seat else 0
            turns.append(('tick', seat, count + 1))
        return turns


def item_text(item):
    """A printed line, without its end."""
    if item[0] == 'open':
        options = [key if key == 'serve' else f'{key}={item[2][key]}' for key in ('piece', 'again', 'fail', 'serve', 'end') if key in item[2]]
        return ' '.join(['open', item[1], *options])
    if item[0] == 'send':
        return f'send {item[1]} {hex_of(item[2])}'
    if item[0] == 'call':
        _, names, service, method, payload, attachment, retry = item
        options = [f' att={attachment.hex()}'] * (attachment != b'') + [f' retry={retry}'] * (retry != 0)
        return f'call {",".join(names)} {service}.{method} {hex_of(payload)}' + ''.join(options)
    if item[0] in ('expire', 'join'):
        return f'{item[0]} {item[1]}.{item[2]}'
    return ' '.join(map(str, item))


def draws(state):
    while True:
        state = (state * 6364136223846793005 + 1442695040888963407) % 2**64
        yield state >> 33


def generated(seed, clients, operations):
    """The text of `gen`."""
    draw, lines = draws(seed), ['open a piece=7', 'open b again=2', 'open c serve', 'open d piece=5 serve']
    for client in range(clients):
        lines.append('client')
        for j in range(operations):
            data = bytes(next(draw) % 256 for _ in range(1 + (7 * client + 5 * j) % 64)).hex()
            lines.append([f'send a {data}', f'send b {data}', f'call c Echo.Echo {data}', f'call d Echo.Reverse {data} retry=1'][j % 4])
    return ''.join(line + '\n' for line in lines).encode()


# Reports

WORD = '[0-9a-f]{16}'
DATA = '-|(?:[0-9a-f]{2})+'
OUTCOMES = {
    'open': r'open \d+ \d+ \d+|slots full',
    'send': rf'unopened|gone {WORD}|placed \d+ \d+|dropped \d+ \d+|full',
    'call': rf'unopened|call \d+ (?:answered (?:{DATA}) (?:{DATA})|peer -?[1-9]\d*|failed (?:1008|1009|1014|2002|3001|1[5-9]\d\d))',
    'hold': rf'unopened|gone {WORD}|held',
    'drop': 'freed|kept|not held',
    'fail': rf'unopened|gone {WORD}|failed|already {WORD}',
    'expire': r'expired|queued|late|crowded \d+ \d+|not begun',
    'join': 'joined|not begun',
}
OUTCOMES = {sort: re.compile(outcome) for sort, outcome in OUTCOMES.items()}


def report_fault(script, text):
    """What a report of this script says that it may not, or None."""
    lines = text.decode('latin-1').split('\n')
    if len(lines) != len(script.operations) + 2 * len(script.links) + 2 or lines[-2:] != ['end', '']:
        return 'the report has not the lines of this script'
    said = {}
    for (client, place, item), line in zip(script.operations, lines):
        start, outcome = f'{client}.{place} ', line[len(f'{client}.{place} ') :]
        if not line.startswith(start) or not OUTCOMES[item[0]].fullmatch(outcome):
            return f'no outcome of {item[0]} {client}.{place}: {line}'
        said[client, place] = item, outcome.split(' ')
        if 'answered' in outcome.split(' ') or 'peer' in outcome.split(' '):
            if outcome.split(' ')[2:] != reply(*item[2:6]):
                return f'not what the server answers: {line}'
    places = {}
    for link, (name, _) in enumerate(script.links):
        fault = link_fault(link, name, *lines[len(said) + 2 * link :][:2], said, places)
        if fault:
            return fault
    for label, (item, outcome) in said.items():
        if outcome[0] in ('placed', 'dropped') and places.get((*label, 0)) != outcome:
            return f'{label} is {" ".join(outcome)} and stands elsewhere'
    return None


def link_fault(link, name, line, order, said, places):
    """What is wrong with the two lines of a link. The places of its labels are noted."""
    told = re.fullmatch(rf'link {link} {name} accepted (\d+) placed (\d+) took (\d+) ({DATA})', line)
    labels = order.split(' ')[2:]
    if not told or order.split(' ')[:2] != ['order', str(link)] or len(labels) != int(told[1]) or int(told[2]) > len(labels):
        return f'not the lines of link {link}: {line}'
    messages, placed, took = [], int(told[2]), int(told[3])
    for place, label in enumerate(labels):
        if not re.fullmatch(r'\d+\.\d+\.\d', label):
            return f'no label: {label}'
        client, operation, attempt = map(int, label.split('.'))
        item, outcome = said.get((client, operation), (('none',), ()))
        is_send = item[0] == 'send' and attempt == 0 and item[1] == name
        is_call = item[0] == 'call' and attempt <= item[6] and item[1][attempt % len(item[1])] == name and outcome[0] == 'call'
        if not (is_send or is_call) or (client, operation, attempt) in places:
            return f'label {label} at link {link}'
        places[client, operation, attempt] = ['placed' if place < placed else 'dropped', str(link), str(place)]
        messages.append(item[2] if is_send else request(item[2], item[3], int(outcome[1]) + attempt + 1, item[4], item[5]))
    whole = sum(map(len, messages[:placed]))
    if not whole <= took < whole + max(1, sum(map(len, messages[placed : placed + 1]))):
        return f'link {link} took {took} bytes, and what is placed has {whole}'
    if told[4] != hex_of(b''.join(messages)[: min(32, took)]):
        return f'not what link {link} took first: {line}'
    return None


def reply(service, method, payload, attachment):
    """What the built-in server answers to a request, as a report tells it."""
    if service == 'Echo' and method == 'Echo':
        return ['answered', hex_of(payload), hex_of(attachment)]
    if service == 'Echo' and method == 'Reverse':
        return ['answered', hex_of(payload[::-1]), '-']
    if service == 'Sum' and method == 'Bytes':
        return ['answered', sum(payload).to_bytes(8, 'big').hex(), '-']
    return ['peer', '1002' if service in ('Echo', 'Sum') else '1001']


def summary(words, script, report):
    """The summary that `load` gives of the report of its script."""
    outcomes = [line.split(' ')[1:] for line in report.decode().split('\n')[: len(script.operations)]]
    both = [(item, outcome) for (_, _, item), outcome in zip(script.operations, outcomes)]
    placed = [len(item[2]) for item, outcome in both if outcome[0] == 'placed']
    answered = [0 if outcome[3] == '-' else len(outcome[3]) // 2 for _, outcome in both if outcome[2:3] == ['answered']]
    sorts = [item[0] for item, _ in both]
    sends, calls, other = sorts.count('send'), sorts.count('call'), len(sorts) - sorts.count('open') - len(placed) - len(answered)
    return f'{" ".join(words)}\nsends {sends} placed {len(placed)} bytes {sum(placed)}\ncalls {calls} answered {len(answered)} bytes {sum(answered)}\nother {other}\nend\n'.encode()


# Frames


class MetaFault(Exception):
    """A fault of a meta: its kind, and its place."""


def varint(n):
    """The shortest varint of a number of 64 bits."""
    data = bytearray()
    while n > 127:
        data.append(n % 128 + 128)
        n //= 128
    return bytes([*data, n])


def span(number, data):
    return varint(number << 3 | 2) + varint(len(data)) + data


def framed(meta, behind):
    return b'PRPC' + (len(meta) + len(behind)).to_bytes(4, 'big') + len(meta).to_bytes(4, 'big') + meta + behind


def request(service, method, correlation, payload, attachment):
    """The frame of an attempt of a call."""
    size = b'\x28' + varint(len(attachment)) if attachment else b''
    names = span(1, service.encode()) + span(2, method.encode())
    return framed(span(1, names) + b'\x20' + varint(correlation) + size, payload + attachment)


def read_varint(data, at, start):
    """The varint at a place, and the place behind it; `start` is the place that a fault tells."""
    for size in range(10):
        if at + size == len(data):
            raise MetaFault(1, start)
        if data[at + size] < 128:
            bits = sum((byte & 127) << 7 * k for k, byte in enumerate(data[at : at + size + 1]))
            return bits % 2**64, at + size + 1
    raise MetaFault(2, start)


def fields(data, base, is_outer):
    """The fields (number, type, value) of a message that stands at a place of the meta. Those inside a request or a response are
    read where it stands, and are its value.
    """
    read, at = [], 0
    while at < len(data):
        key, start = read_varint(data, at, base + at)
        number, sort = key >> 3, key & 7
        if key > 0xFFFFFFFF or number == 0 or sort > 5:
            raise MetaFault(3, base + at)
        if sort in (3, 4):
            raise MetaFault(4, base + at)
        if sort == 0:
            value, at = read_varint(data, start, base + start)
        else:
            size, begin = read_varint(data, start, base + start) if sort == 2 else ({1: 8, 5: 4}[sort], start)
            if begin + size > len(data):
                raise MetaFault(1, base + start)
            value, at = data[begin : begin + size], begin + size
            if is_outer and sort == 2 and number in (1, 2):
                value = fields(value, base + begin, False)
        read.append((number, sort, value))
    return read


def last(read, number, sort, other):
    """The last occurrence of a field of this type."""
    return ([other] + [value for n, s, value in read if (n, s) == (number, sort)])[-1]


def int32(n):
    return (n + 2**31) % 2**32 - 2**31


def meta_text(data):
    """How the line of a frame begins, and the size of its attachment."""
    read, text = fields(data, 0, True), 'frame'
    requests, responses = ([value for n, s, value in read if (n, s) == (number, 2)] for number in (1, 2))
    if requests:
        names = [last(sum(requests, []), number, 2, None) for number in (1, 2)]
        if None in names:
            raise MetaFault(5 + names.index(None), 0)
        text += f' request {hex_of(names[0])} {hex_of(names[1])}'
    if responses:
        merged = sum(responses, [])
        text += f' response {int32(last(merged, 1, 0, 0))} {hex_of(last(merged, 2, 2, b""))}'
    if not requests and not responses:
        raise MetaFault(7, 0)
    return f'{text} id {last(read, 4, 0, 0)} compress {int32(last(read, 3, 0, 0))}', int32(last(read, 5, 0, 0))


def frames(data):
    """The status and the text of `frames` over these bytes."""
    lines, at = [], 0

    def ended(status, line):
        return status, ''.join(line + '\n' for line in [*lines, line]).encode()

    while True:
        wrong = [k for k in range(min(4, len(data) - at)) if data[at + k] != b'PRPC'[k]]
        if wrong:
            return ended(9, f'fault {at} 1 {wrong[0]}')
        if len(data) - at < 12:
            return ended(0, f'rest {len(data) - at}')
        body, meta = (int.from_bytes(data[at + k : at + k + 4], 'big') for k in (4, 8))
        if body > BODY_LIMIT:
            return ended(9, f'fault {at} 2 {body}')
        if meta > body:
            return ended(9, f'fault {at} 3 {meta} {body}')
        if len(data) - at < 12 + body:
            return ended(0, f'rest {len(data) - at}')
        try:
            text, size = meta_text(data[at + 12 : at + 12 + meta])
        except MetaFault as fault:
            return ended(9, f'fault {at} 4 {fault.args[0]} {fault.args[1]}')
        if not 0 <= size <= body - meta:
            return ended(9, f'fault {at} 5 {size} {body - meta}')
        behind = data[at + 12 + meta : at + 12 + body]
        cut = len(behind) - size
        lines.append(f'{text} payload {hex_of(behind[:cut])} attachment {hex_of(behind[cut:])}')
        at += 12 + body


# The words of the command line


def command(words):
    """What they ask for, or None; `words` are bytes."""
    numbers = {
        'replay': [],
        'frames': [],
        'sim': [(0, 2**32 - 1)],
        'run': [(1, 65_535)][: len(words) - 1],
        'serve': [(1, 65_535), (1, 31)],
        'gen': [(0, 2**32 - 1), (1, 31), (1, 4_092)],
        'load': [(0, 2**32 - 1), (1, 31), (1, 4_092)],
    }
    first = words[0].decode('latin-1') if words else ''
    if first not in numbers or len(words) - 1 != len(numbers[first]):
        return None
    read = [number(word, *span) for word, span in zip(words[1:], numbers[first])]
    if None in read or first in ('gen', 'load') and read[1] * read[2] > 4_092:
        return None
    return first, *read
