#!/usr/bin/env python3
"""A plain model of the journal, which follows the text of the rule and shares no code with the Rust side.

`model.py` reads a journal on standard input and prints its output. `model.py --many journal` answers many journals, each
after a line with its length in bytes, each answer after a line with its own.
"""
import ipaddress
import re
import sys

TOP = 2**64 - 1
ROWS = 64
ROUNDS = 3
LONGEST_LINE = 32768
LONGEST_MESSAGE = 4096


class Refused(Exception):
    """A call turned back, with its number."""


# Numbers, bytes and lists


def capped(number):
    return min(number, TOP)


def entries(data):
    """The entries of an address list; None when it is broken."""
    found, at = [], 0
    while at < len(data):
        if at + 2 > len(data):
            return None
        end = at + 2 + int.from_bytes(data[at:at + 2], 'big')
        if end > len(data):
            return None
        found.append(data[at + 2:end])
        at = end
    return found


def varint(value):
    out = bytearray()
    while value > 127:
        out.append(value % 128 + 128)
        value //= 128
    out.append(value)
    return bytes(out)


class Malformed(Exception):
    pass


def read_varint(data, at):
    value = 0
    for place in range(10):
        if at + place >= len(data):
            raise Malformed
        byte = data[at + place]
        if place == 9 and byte > 1:
            raise Malformed
        value += byte % 128 * 128**place
        if byte < 128:
            return value, at + place + 1
    raise Malformed


class WrongType(Exception):
    pass


def read_message(data):
    """The type, or None, and the addresses of a message."""
    kind, addresses, at = None, [], 0
    while at < len(data):
        tag, at = read_varint(data, at)
        field, wire = divmod(tag, 8)
        if not 1 <= field <= 536870911 or wire in (3, 4, 6, 7):
            raise Malformed
        if wire == 0:
            value, at = read_varint(data, at)
            if field == 1:
                if value not in (100, 300):
                    raise WrongType
                kind = value
            continue
        if wire == 2:
            size, at = read_varint(data, at)
        else:
            size = {1: 8, 5: 4}[wire]
        if at + size > len(data):
            raise Malformed
        if wire == 2 and field == 2:
            addresses.append(data[at:at + size])
        at += size
    return kind, addresses


def framed(kind, addresses):
    message = b'\x08' + varint(kind)
    for address in addresses:
        message += b'\x12' + varint(len(address)) + address
    return varint(len(message)) + message


def judge(frame):
    """None while bytes are missing, False when broken, else the message."""
    if not frame:
        return None
    if frame[0] < 128:
        size, start = frame[0], 1
    elif len(frame) < 2:
        return None
    elif frame[1] == 0 or frame[1] > 127:
        return False
    else:
        size, start = frame[0] - 128 + 128 * frame[1], 2
    if size > LONGEST_MESSAGE:
        return False
    if len(frame) < start + size:
        return None
    return frame[start:start + size]


# Addresses

NETS4 = [ipaddress.ip_network(net) for net in (
    '0.0.0.0/8', '10.0.0.0/8', '172.16.0.0/12', '192.168.0.0/16', '100.64.0.0/10', '127.0.0.0/8', '169.254.0.0/16',
    '192.0.0.0/24', '192.0.2.0/24', '198.51.100.0/24', '203.0.113.0/24', '198.18.0.0/15', '224.0.0.0/3')]
PASS4 = [ipaddress.ip_address(ip) for ip in ('192.0.0.9', '192.0.0.10')]
NETS6 = [ipaddress.ip_network(net) for net in ('2002::/16', '2001:db8::/32', '3fff::/20', '2001::/23')]
PASS6 = [ipaddress.ip_network(net) for net in (
    '2001:1::1/128', '2001:1::2/128', '2001:3::/32', '2001:4:112::/48', '2001:20::/28', '2001:30::/28')]
GLOBAL6 = ipaddress.ip_network('2000::/3')
MAPPED6 = ipaddress.ip_network('::ffff:0:0/96')
MULTICAST4 = ipaddress.ip_network('224.0.0.0/4')
MULTICAST6 = ipaddress.ip_network('ff00::/8')


def ends_well(rest):
    """Whether nothing stands behind quic-v1, or one whole peer name."""
    return not rest or (rest[:2] == b'\xa5\x03' and len(rest) > 3 and 1 <= rest[2] <= 127 and len(rest) == 3 + rest[2])


def parsed(address):
    """IP and port of an address of the form, or None."""
    if len(address) >= 11 and address[0] == 0x04:
        ip, rest = ipaddress.IPv4Address(address[1:5]), address[5:]
    elif len(address) >= 23 and address[0] == 0x29:
        ip, rest = ipaddress.IPv6Address(address[1:17]), address[17:]
    else:
        return None
    if rest[:2] != b'\x91\x02' or rest[4:6] != b'\xcd\x03' or not ends_well(rest[6:]):
        return None
    return ip, int.from_bytes(rest[2:4], 'big')


def eligible(ip, private):
    if private:
        if ip.version == 6 and ip in MAPPED6:
            ip = ipaddress.IPv4Address(int(ip) % 2**32)
        if ip.version == 4:
            return int(ip) != 0 and ip not in MULTICAST4 and int(ip) != 2**32 - 1
        return int(ip) != 0 and ip not in MULTICAST6
    if ip.version == 4:
        return ip in PASS4 or not any(ip in net for net in NETS4)
    if ip not in GLOBAL6:
        return False
    return any(ip in net for net in PASS6) or not any(ip in net for net in NETS6)


def bounded(addresses):
    kept = []
    for address in addresses:
        ip, port = parsed(address)
        ips = [parsed(other)[0] for other in kept]
        if (port >= 1024 and len(kept) < 8 and ips.count(ip) < 2
                and sum(other.version == ip.version for other in ips) < 4):
            kept.append(address)
    return kept


def chosen(addresses, private):
    good = [address for address in addresses if parsed(address)]
    return bounded(address for address in good if eligible(parsed(address)[0], private))


def own_candidates(addresses):
    return bounded(dict.fromkeys(address for address in addresses if parsed(address)))


# The ledger


class Ledger:
    def __init__(self):
        self.dials, self.windows, self.paths = {}, {}, {}

    @staticmethod
    def need_row(table, key):
        if key not in table and len(table) >= ROWS:
            raise Refused(4)

    def dial(self, conn, attempt):
        self.need_row(self.dials, conn)
        self.dials[conn] = attempt

    def forget(self, conn):
        self.dials.pop(conn, None)
        self.paths.pop(conn, None)

    def tick(self, at):
        self.windows = {peer: end for peer, end in self.windows.items() if end > at}

    def attribute(self, at, peer, conn, via, claimed):
        if via == 'circuit':
            if not claimed:
                return 'none', 'none'
            row = 'relayed', 'inbound'
        elif conn in self.dials:
            row = 'punched', str(self.dials[conn])
        elif at < self.windows.get(peer, 0):
            row = 'punched', 'inbound'
        else:
            row = 'direct', 'none'
        self.need_row(self.paths, conn)
        self.paths[conn] = row
        return row


# The circuit


class Exchange:
    """A round's exchange: its pair, its end, what was read, when CONNECT was sent."""

    def __init__(self, pair, end, connect):
        self.pair, self.end, self.connect = pair, end, connect
        self.frame = b''
        self.sent = None  # None, 'held' or a reading


class Window:
    def __init__(self, targets, start, end, sent):
        self.targets, self.start, self.end, self.sent = targets, start, end, sent

    def instants(self, upto, interval):
        """How many instants are no later than both the end and `upto`."""
        last = min(self.end, upto)
        return 0 if last < self.start else (last - self.start) // interval + 1


class Circuit:
    def __init__(self, settings, at, source, relay, circuit):
        self.settings, self.source, self.relay, self.circuit = settings, source, relay, circuit
        self.handshake_end = at + settings['handshake']
        self.phase = 'handshaking'  # an Exchange, a Window or 'done' later
        self.deadline = None
        self.rounds = 0

    def pair(self):
        return self.phase.pair if isinstance(self.phase, Exchange) else None

    def claims(self, conn):
        return self.phase != 'done' and conn == self.circuit

    def end(self):
        """Done, with a reset of an exchange stream."""
        out = [effect('reset', self.phase.pair)] if isinstance(self.phase, Exchange) else []
        self.phase = 'done'
        return out

    def round(self, at, host, ledger):
        """The next round, or Done."""
        wanted = host['live'] == self.circuit and self.rounds < ROUNDS and at < self.deadline and host['offer']
        if not wanted:
            ledger.windows.pop(self.source, None)
            self.phase = 'done'
            return []
        self.rounds += 1
        end = min(capped(at + self.settings['exchange']), self.deadline)
        self.phase = Exchange(host['offer'], end, framed(100, own_candidates(entries(host['own']))))
        return [effect('open', self.phase.pair)]

    def fail(self, at, host, ledger):
        out = [effect('reset', self.phase.pair)]
        return out + self.round(at, host, ledger)

    def up(self, at, peer, conn, via, host, ledger):
        if self.phase == 'done' or peer != self.source:
            return []
        if via == 'direct':
            return [f'upgrade peer={peer} old={self.circuit} new={conn}'] + self.end()
        if conn != self.circuit or self.phase != 'handshaking':
            return []
        out = [f'path peer={peer} relay={self.relay} conn={conn}']
        if not self.settings['upgrades']:
            self.phase = 'done'
            return out
        self.deadline = capped(at + self.settings['upgrade'])
        return out + self.round(at, host, ledger)

    def tick(self, at, host, ledger):
        if self.phase == 'done':
            return []
        if self.phase == 'handshaking':
            if at < self.handshake_end:
                return []
            self.phase = 'done'
            return [f'close conn={self.circuit}']
        if at >= self.deadline:
            return self.end()
        if isinstance(self.phase, Exchange):
            return self.fail(at, host, ledger) if at >= self.phase.end else []
        window, out = self.phase, []
        times = window.instants(at, self.interval()) - window.sent
        if times > 0:
            window.sent += times
            out += self.burst(times, window.targets)
        if at >= window.end:
            out += self.round(at, host, ledger)
        return out

    def interval(self):
        return max(1, self.settings['interval'])

    def burst(self, times, targets):
        if not targets:
            return []
        names = ','.join(target.hex() for target in targets)
        return [f"burst times={times} payload={self.settings['payload']} target={names}"]

    def input(self, at, stream, kind, data, host, ledger):
        exchange = self.phase
        if not isinstance(exchange, Exchange) or exchange.pair[1] != stream:
            return []
        if at >= exchange.end:
            return self.tick(at, host, ledger)
        closing = kind in ('end', 'closed')
        if exchange.sent is None:
            exchange.sent = 'held' if host['pending'] else at
            out = [effect('send', exchange.pair, exchange.connect)]
            return out + self.fail(at, host, ledger) if closing else out
        if closing:
            return self.fail(at, host, ledger)
        message, frame = None, exchange.frame
        for byte in data:
            frame += bytes([byte])
            message = judge(frame)
            if message is not None:
                break
        if message is None:
            exchange.frame = frame
            return []
        addresses = reply_addresses(message)
        if addresses is None:
            return self.fail(at, host, ledger)
        ledger.need_row(ledger.windows, self.source)
        return self.replied(at, addresses, ledger)

    def replied(self, at, addresses, ledger):
        exchange = self.phase
        trip = 0 if exchange.sent == 'held' else max(0, at - exchange.sent)
        start = capped(at + (trip + 1) // 2)
        end = min(capped(start + self.settings['punch']), self.deadline)
        targets = chosen(addresses, self.settings['private'])
        out = self.burst(1, targets) if trip == 0 else []
        out += [effect('send', exchange.pair, framed(300, [])), effect('reset', exchange.pair)]
        ledger.windows[self.source] = max(ledger.windows.get(self.source, 0), self.deadline)
        self.phase = Window(targets, start, end, 1 if trip == 0 else 0)
        return out

    def wrote(self, at, pair):
        if self.pair() == pair and self.phase.sent == 'held':
            self.phase.sent = at

    def down(self, conn):
        if conn == self.circuit:
            self.phase = 'done'


def effect(word, pair, data=None):
    more = '' if data is None else f' data={data.hex()}'
    return f'{word} conn={pair[0]} stream={pair[1]}{more}'


def reply_addresses(message):
    """The addresses of a good CONNECT; None for anything else."""
    if message is False:
        return None
    try:
        kind, addresses = read_message(message)
    except (Malformed, WrongType):
        return None
    return addresses if kind == 100 else None


# The journal

NUMBER = r'(?:0|[1-9][0-9]*)'
HEX = r'(?:-|(?:[0-9a-f]{2})+)'
VIA = r'(?:circuit|direct)'
HOST = rf'live=(?P<live>none|{NUMBER}) offer=(?P<offer>none|{NUMBER}:{NUMBER})'
PENDING = r' pending=(?P<pending>[01])'
OWN = rf' own=(?P<own>{HEX})'


def form(text):
    """A line's pattern: `at` stands for a number with that key."""
    words = [f'{word}=(?P<{word}>{NUMBER})' if word.isalpha() else word for word in text.split(' ')]
    return re.compile(' '.join(words).encode() + rb'\Z')


SETTINGS = form('handshake upgrade exchange punch interval payload private=(?P<private>[01]) upgrades=(?P<upgrades>[01])')
CALLS = {name: form(f'do={name} at {rest}') for name, rest in {
    'start': 'source relay circuit',
    'up': f'peer conn via=(?P<via>{VIA}) {HOST}{PENDING}{OWN}',
    'input': rf'stream kind=(?P<kind>ready|data|end|closed) data=(?P<data>{HEX}) {HOST}{PENDING}{OWN}',
    'tick': f'{HOST}{OWN}',
    'wrote': 'conn stream',
    'down': 'peer conn',
    'dial': 'conn token id',
    'forget': 'conn',
    'attribute': f'peer conn via=(?P<via>{VIA})',
}.items()}


def values(match):
    """The words of a matched line; None if a number is too large."""
    out = {}
    for key, text in match.groupdict().items():
        if text is None:
            continue
        text = text.decode()
        if key in ('via', 'kind'):
            out[key] = text
        elif key in ('data', 'own'):
            out[key] = b'' if text == '-' else bytes.fromhex(text)
        elif text == 'none':
            out[key] = None
        else:
            numbers = [int(part) for part in text.split(':')]
            if max(numbers) > TOP:
                return None
            out[key] = tuple(numbers) if key == 'offer' else numbers[0]
    return out


class Journal:
    def __init__(self, settings):
        self.settings, self.circuit, self.ledger = settings, None, Ledger()

    def line(self, line):
        for name, pattern in CALLS.items():
            match = pattern.match(line)
            if match:
                call = values(match)
                if call is None or (name == 'input' and call['kind'] != 'data' and call['data']):
                    break
                return self.call(name, call)
        raise Refused(11)

    def call(self, name, call):
        at = call['at']
        if name == 'start':
            if at + self.settings['handshake'] > TOP:
                raise Refused(3)
            self.circuit = Circuit(self.settings, at, call['source'], call['relay'], call['circuit'])
            return []
        if self.circuit is None:
            raise Refused(12)
        if 'own' in call:
            if entries(call['own']) is None:
                raise Refused(5)
            if call['offer'] is not None and call['offer'] == self.circuit.pair():
                raise Refused(2)
        if name == 'up':
            return self.circuit.up(at, call['peer'], call['conn'], call['via'], call, self.ledger)
        if name == 'input':
            return self.circuit.input(at, call['stream'], call['kind'], call['data'], call, self.ledger)
        if name == 'tick':
            out = self.circuit.tick(at, call, self.ledger)
            self.ledger.tick(at)
            return out
        if name == 'attribute':
            claimed = self.circuit.claims(call['conn'])
            path, owner = self.ledger.attribute(at, call['peer'], call['conn'], call['via'], claimed)
            return [f'attributed path={path} owner={owner}']
        if name == 'wrote':
            self.circuit.wrote(at, (call['conn'], call['stream']))
        elif name == 'down':
            self.circuit.down(call['conn'])
        elif name == 'dial':
            self.ledger.dial(call['conn'], call['id'])
        elif name == 'forget':
            self.ledger.forget(call['conn'])
        return []


def good(line):
    """The line without its line feed, or None."""
    return line[:-1] if line.endswith(b'\n') and len(line) <= LONGEST_LINE else None


def answer(data):
    lines = data.split(b'\n')
    lines = [line + b'\n' for line in lines[:-1]] + ([lines[-1]] if lines[-1] else [])
    first = good(lines[0]) if lines else None
    match = SETTINGS.match(first) if first is not None else None
    settings = values(match) if match else None
    if settings is None:
        return 'n=0 out=refused why=11\n'
    journal, out = Journal(settings), []
    for n, line in enumerate(lines[1:], 1):
        try:
            text = good(line)
            if text is None:
                raise Refused(11)
            effects = journal.line(text) or ['none']
        except Refused as refused:
            effects = [f'refused why={refused.args[0]}']
        out += [f'n={n} out={effect}\n' for effect in effects]
    return ''.join(out)


def main():
    if sys.argv[1:] == ['--many', 'journal']:
        while size := sys.stdin.buffer.readline():
            out = answer(sys.stdin.buffer.read(int(size))).encode()
            sys.stdout.buffer.write(b'%d\n%s' % (len(out), out))
            sys.stdout.buffer.flush()
    else:
        sys.stdout.write(answer(sys.stdin.buffer.read()))


if __name__ == '__main__':
    main()
