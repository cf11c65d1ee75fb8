#!/usr/bin/env python3
"""A plain model of the test programs' lines, which follows the text of the rule and shares no code with the Rust side.

`model_lines.py MODE` answers lines of that format; `model_lines.py --many MODE` answers many inputs, each after a line
with its length in bytes, each answer after a line with its own.
"""
import re
import sys

from model import (HEX, LONGEST_LINE, LONGEST_MESSAGE, NUMBER, ROWS, ROUNDS, TOP, Malformed, Refused, Window, WrongType,
                   bounded, capped, chosen, eligible, entries, judge, own_candidates, parsed, read_message, read_varint, varint)

NAMES = {'HEX': HEX, 'N': NUMBER, 'FLAG': '[01]'}


def form(text):
    """A pattern from words `key=NAME` or `key=one|other`."""
    words = []
    for word in text.split(' '):
        key, value = word.split('=')
        words.append(f'{key}=(?P<{key}>{NAMES.get(value, value)})')
    return re.compile(' '.join(words).encode() + rb'\Z')


def listed(addresses):
    return b''.join(len(address).to_bytes(2, 'big') + address for address in addresses)


def hexed(data):
    return data.hex() or '-'


# Messages


def filled(room, data=b''):
    return hexed(data + b'\xee' * (room - len(data)))


def read(data, room):
    if len(data) > LONGEST_MESSAGE:
        raise Refused(6)
    try:
        kind, addresses = read_message(data)
    except Malformed:
        raise Refused(8)
    except WrongType:
        raise Refused(10)
    if kind is None:
        raise Refused(9)
    out = listed(addresses)
    if len(out) > room:
        raise Refused(7)
    return f"kind={ {100: 'connect', 300: 'sync'}[kind] } size={len(out)} out={filled(room, out)}"


def write(kind, given, room):
    addresses = entries(given)
    if addresses is None:
        raise Refused(5)
    out = b'\x08' + varint({'connect': 100, 'sync': 300}[kind])
    for address in addresses:
        out += b'\x12' + varint(len(address)) + address
    if len(out) > LONGEST_MESSAGE:
        raise Refused(6)
    if len(out) > room:
        raise Refused(7)
    return f'size={len(out)} out={filled(room, out)}'


class Messages:
    forms = ['do=varint in=HEX', 'do=encode value=N', 'do=frame in=HEX count=N', 'do=list in=HEX', 'do=read in=HEX room=N',
             'do=write kind=connect|sync list=HEX room=N']

    def varint(self, call):
        try:
            value, end = read_varint(call['in'], 0)
        except Malformed:
            return 'malformed'
        return f'value={value} next={end}'

    def encode(self, call):
        return f"out={varint(call['value']).hex()}"

    def frame(self, call):
        stored = call['in'][:call['count']]
        message = judge(stored)
        if message is None:
            return 'more'
        if message is False:
            return 'broken'
        return f'whole start={1 if stored[0] < 128 else 2} len={len(message)}'

    def list(self, call):
        found = entries(call['in'])
        return 'broken' if found is None else f'count={len(found)}'

    def read(self, call):
        return self.with_room(call, lambda: read(call['in'], call['room']))

    def write(self, call):
        return self.with_room(call, lambda: write(call['kind'], call['list'], call['room']))

    @staticmethod
    def with_room(call, answer):
        if call['room'] > 8192:
            return 'bad'
        try:
            return answer()
        except Refused as refused:
            return f"refused why={refused.args[0]} out={filled(call['room'])}"


# Candidates


class Candidates:
    forms = ['do=eligible private=FLAG address=HEX', 'do=select private=FLAG list=HEX', 'do=own list=HEX', 'do=bound list=HEX']

    def eligible(self, call):
        address = parsed(call['address'])
        if not address:
            return 'none'
        return 'yes' if eligible(address[0], call['private']) else 'no'

    def select(self, call):
        return self.kept(call, lambda found: chosen(found, call['private']))

    def own(self, call):
        return self.kept(call, own_candidates)

    def bound(self, call):
        return self.kept(call, lambda found: bounded(address for address in found if parsed(address)))

    @staticmethod
    def kept(call, choose):
        found = entries(call['list'])
        return 'refused why=5' if found is None else f'kept={hexed(listed(choose(found)))}'


# Rounds


class Budget:
    forms = ['do=arm at=N upgrade=N exchange=N punch=N', 'do=begin at=N', 'do=end', 'do=window start=N', 'do=due at=N']

    def __init__(self):
        self.armed = None

    def arm(self, call):
        self.armed, self.rounds, self.running = call, 0, None
        self.deadline = capped(call['at'] + call['upgrade'])
        return self.state()

    def state(self):
        following = min(self.deadline, self.running[1] if self.running else TOP)
        return f'rounds={self.rounds} left={int(self.rounds < ROUNDS)} deadline={self.deadline} next={following}'

    def begin(self, call):
        began = self.rounds < ROUNDS and call['at'] < self.deadline
        if began:
            self.rounds += 1
            self.running = call['at'], min(capped(call['at'] + self.armed['exchange']), self.deadline)
        return f'began={int(began)} {self.state()}'

    def end(self, call):
        self.running = None
        return self.state()

    def window(self, call):
        return f"end={min(capped(call['start'] + self.armed['punch']), self.deadline)}"

    def due(self, call):
        if self.running and self.running[1] < self.deadline and call['at'] >= self.running[1]:
            return f'due=exchange round={self.rounds} ms={self.running[1] - self.running[0]}'
        if call['at'] >= self.deadline:
            return f"due=upgrade ms={self.deadline - self.armed['at']}"
        return 'due=none'


# Instants


class Schedule:
    forms = ['do=reply at=N rtt=N deadline=N punch=N interval=N', 'do=tick at=N interval=N']

    def __init__(self):
        self.kept = None

    def following(self, interval):
        if self.kept is None:
            return 'none'
        instant = self.kept.start + self.kept.sent * interval
        return str(instant) if instant <= self.kept.end else 'none'

    def reply(self, call):
        start = capped(call['at'] + (call['rtt'] + 1) // 2)
        end = min(capped(start + call['punch']), call['deadline'])
        times = int(call['rtt'] == 0 and start <= end)
        self.kept = Window([], start, end, times)
        return f"times={times} start={start} end={end} next={self.following(max(1, call['interval']))}"

    def tick(self, call):
        interval, times = max(1, call['interval']), 0
        if self.kept:
            times = max(0, self.kept.instants(call['at'], interval) - self.kept.sent)
            self.kept.sent += times
        return f'times={times} next={self.following(interval)}'


# Paths


def live(data):
    """Records of two numbers of eight bytes; what is behind the last whole one plays no part."""
    numbers = [int.from_bytes(data[at:at + 8], 'big') for at in range(0, len(data) - len(data) % 16, 8)]
    return zip(numbers[::2], numbers[1::2])


class Paths:
    path, owner = 'path=relayed|punched|direct relay=N', 'owner=none|inbound|attempt id=N'
    forms = [
        'do=empty', 'do=dial conn=N token=N purpose=relay|punch|probe|reserve of=N relay=N', 'do=finish conn=N',
        'do=expect peer=N until=N', 'do=close peer=N',
        'do=attribute at=N peer=N conn=N via=direct|circuit claim=none|direct|inbound|attempt relay=N id=N', 'do=forget conn=N',
        'do=expire at=N', 'do=abort live=HEX id=N target=N', f'do=replaced {path} {owner} new=N', 'do=punched conn=N', 'do=next',
        'do=quiet', 'do=row table=dials|windows|paths place=N']

    def __init__(self):
        self.empty(None)

    def empty(self, call):
        self.dials, self.windows, self.paths = {}, {}, {}
        return 'ok'

    @staticmethod
    def put(table, key, value):
        if key not in table and len(table) >= ROWS:
            return False
        table[key] = value
        return True

    def dial(self, call):
        relay = call['relay'] if call['purpose'] == 'relay' else 0
        row = call['token'], call['purpose'], call['of'], relay
        return 'ok' if self.put(self.dials, call['conn'], row) else 'refused why=4'

    @staticmethod
    def started(row):
        return 'token={} purpose={} of={} relay={}'.format(*row)

    def finish(self, call):
        row = self.dials.pop(call['conn'], None)
        return self.started(row) if row else 'none'

    def abort(self, call):
        first = {}
        for peer, conn in live(call['live']):
            first.setdefault(peer, conn)
        retired, close = [], []
        for conn in sorted(self.dials):
            token, purpose, of, relay = self.dials[conn]
            if purpose not in ('relay', 'punch') or of != call['id']:
                continue
            retired.append(token)
            peer = relay if purpose == 'relay' else call['target']
            if first.get(peer) != conn:
                close.append(conn)
            if first.get(peer) != conn or purpose == 'relay':
                del self.dials[conn]
        return f'retired={octets(retired)} close={octets(close)}'

    def expect(self, call):
        until = max(call['until'], self.windows.get(call['peer'], 0))
        return 'ok' if self.put(self.windows, call['peer'], until) else 'refused why=4'

    def close(self, call):
        self.windows.pop(call['peer'], None)
        return 'ok'

    def attribute(self, call):
        claim = call['claim']
        _, purpose, of, _ = self.dials.get(call['conn'], (0, '', 0, 0))
        if call['via'] == 'circuit':
            if claim not in ('inbound', 'attempt'):
                return 'path=none'
            row = 'relayed', call['relay'], claim, call['id'] if claim == 'attempt' else 0
        elif purpose == 'punch':
            row = 'punched', 0, 'attempt', of
        elif claim == 'direct':
            row = 'direct', 0, 'attempt', call['id']
        elif call['at'] < self.windows.get(call['peer'], 0):
            row = 'punched', 0, 'inbound', 0
        else:
            row = 'direct', 0, 'none', 0
        return self.name(row) if self.put(self.paths, call['conn'], row) else 'refused why=4'

    @staticmethod
    def name(row):
        return 'path={} relay={} owner={} id={}'.format(*row)

    def replaced(self, call):
        new = self.paths.get(call['new'])
        if new is None or call['path'] != 'relayed' or call['owner'] == 'none' or new[0] == 'relayed':
            return 'none'
        of = call['id'] if call['owner'] == 'attempt' else 0
        return f"owner={call['owner']} id={of} from=relayed relay={call['relay']} to={new[0]} by=0"

    def forget(self, call):
        self.dials.pop(call['conn'], None)
        row = self.paths.pop(call['conn'], None)
        return self.name(row) if row else 'none'

    def punched(self, call):
        return 'yes' if self.paths.get(call['conn'], ('',))[0] == 'punched' else 'no'

    def expire(self, call):
        self.windows = {peer: until for peer, until in self.windows.items() if until > call['at']}
        return 'ok'

    def next(self, call):
        return f'at={min(self.windows.values())}' if self.windows else 'none'

    def quiet(self, call):
        return 'no' if self.windows else 'yes'

    def row(self, call):
        rows = sorted(getattr(self, call['table']).items())
        if call['place'] >= len(rows):
            return 'none'
        key, row = rows[call['place']]
        if call['table'] == 'windows':
            return f'peer={key} until={row}'
        return f'conn={key} ' + (self.started(row) if call['table'] == 'dials' else self.name(row))


def octets(numbers):
    return hexed(b''.join(number.to_bytes(8, 'big') for number in numbers))


# Lines

MODES = {'message': Messages, 'candidate': Candidates, 'budget': Budget, 'schedule': Schedule, 'ledger': Paths}
BYTES = ('in', 'list', 'address', 'live')
WORDS = ('do', 'kind', 'purpose', 'via', 'claim', 'path', 'owner', 'table')


def values(match):
    """The words of a matched line; None if a number is too large."""
    out = {}
    for key, text in match.groupdict().items():
        text = text.decode()
        if key in BYTES:
            out[key] = b'' if text == '-' else bytes.fromhex(text)
        elif key in WORDS:
            out[key] = text
        else:
            out[key] = int(text)
            if out[key] > TOP:
                return None
    return out


def answers(mode, data):
    kept = MODES[mode]()
    forms = [form(text) for text in kept.forms]
    out = []
    for line in data.split(b'\n')[:-1]:
        match = next((match for match in (pattern.match(line) for pattern in forms) if match), None)
        call = values(match) if match and len(line) < LONGEST_LINE else None
        unarmed = mode == 'budget' and kept.armed is None and call and call['do'] != 'arm'
        out.append('bad' if call is None or unarmed else getattr(kept, call['do'])(call))
    return ''.join(text + '\n' for text in out)


def main():
    if sys.argv[1] == '--many':
        while size := sys.stdin.buffer.readline():
            out = answers(sys.argv[2], sys.stdin.buffer.read(int(size))).encode()
            sys.stdout.buffer.write(b'%d\n%s' % (len(out), out))
            sys.stdout.buffer.flush()
    else:
        sys.stdout.write(answers(sys.argv[1], sys.stdin.buffer.read()))


if __name__ == '__main__':
    main()
