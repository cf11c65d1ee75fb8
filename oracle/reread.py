#!/usr/bin/env python3
"""A replay of journals written from docs/RULES.md alone, without the Rust, the source or the other models at hand. Its parts
are numbered as the sections there.

usage: reread.py [--many journal]
"""
import sys

# ---- 1 Numbers
MAX = 2**64 - 1


def add(a, b):                                    # 1.1
    s = a + b
    return MAX if s > MAX else s


def sub(a, b):                                    # 1.1
    return a - b if a > b else 0


class Refused(Exception):                         # 1.3
    def __init__(self, why):
        self.why = why

# ---- 2 Encoding
def read_varint(m, p):
    """(number, place behind it); malformed: Refused(8)."""
    v = 0
    for k in range(10):
        if p >= len(m):
            raise Refused(8)
        b = m[p]
        p += 1
        if k == 9 and b > 1:
            raise Refused(8)
        v += (b % 128) * 128**k
        if b < 128:
            return v, p
    raise Refused(8)


def write_varint(v):
    out = bytearray()
    while v >= 128:
        out.append(128 + v % 128)
        v //= 128
    out.append(v)
    return bytes(out)

# ---- 3 Messages
def read_message(m):
    """(type, [addresses])"""
    if len(m) > 4096:
        raise Refused(6)
    p, typ, addrs = 0, None, []
    while p < len(m):
        tag, p = read_varint(m, p)
        num, wire = tag // 8, tag % 8
        if not 1 <= num <= 536870911:
            raise Refused(8)
        if wire == 0:
            v, p = read_varint(m, p)
            if num == 1:
                if v not in (100, 300):
                    raise Refused(10)
                typ = v
        elif wire in (1, 5):
            p += 8 if wire == 1 else 4
            if p > len(m):
                raise Refused(8)
        elif wire == 2:
            n, p = read_varint(m, p)
            if p + n > len(m):
                raise Refused(8)
            if num == 2:
                addrs.append(bytes(m[p:p + n]))
            p += n
        else:
            raise Refused(8)
    if typ is None:
        raise Refused(9)
    return typ, addrs


def write_message(typ, addrs):
    out = b"\x08" + write_varint(typ)
    for a in addrs:
        out += b"\x12" + write_varint(len(a)) + a
    return out

# ---- 4 Frames
MORE, BROKEN = "more", "broken"


def judge(buf, n):
    """MORE, BROKEN or the message of the whole frame."""
    if n == 0:
        return MORE
    b = buf[0]
    if b < 128:
        return bytes(buf[1:1 + b]) if n >= 1 + b else MORE
    if n == 1:
        return MORE
    c = buf[1]
    if c == 0 or c >= 128 or c * 128 + (b - 128) > 4096:
        return BROKEN
    ln = c * 128 + (b - 128)
    return bytes(buf[2:2 + ln]) if n >= 2 + ln else MORE


def gather(buf, count, data):
    """buf is changed. (answer, count)"""
    for x in data:
        if count >= len(buf):
            return BROKEN, count
        buf[count] = x
        count += 1
        j = judge(buf, count)
        if j is not MORE:
            return j, count
    return MORE, count


def frame(m):
    return write_varint(len(m)) + m

SYNC = bytes.fromhex("0308ac02")

# ---- 5 Address lists
def read_list(b):
    """addresses, or None where the list is broken"""
    p, out = 0, []
    while p < len(b):
        if p + 2 > len(b):
            return None
        n = b[p] * 256 + b[p + 1]
        p += 2
        if p + n > len(b):
            return None
        out.append(b[p:p + n])
        p += n
    return out

# ---- 6 Addresses
def parse_address(a):
    """(family, ip bytes, port) or None"""
    for fam, first, n in ((4, 0x04, 4), (6, 0x29, 16)):
        if a[:1] != bytes([first]) or len(a) < n + 7:
            continue
        if a[n + 1:n + 3] != b"\x91\x02" or a[n + 5:n + 7] != b"\xcd\x03":
            continue
        name = a[n + 7:]
        if name and not (name[:2] == b"\xa5\x03" and len(name) >= 4 and len(name) - 3 == name[2] <= 127):
            continue
        return fam, a[1:1 + n], a[n + 3] * 256 + a[n + 4]
    return None


def _v4(s):
    ip, ln = s.split("/")
    v = 0
    for x in ip.split("."):
        v = v * 256 + int(x)
    return v, int(ln)


def _v6(s):
    ip, ln = s.split("/")
    l, r = ip.split("::")
    l = [int(x, 16) for x in l.split(":") if x]
    r = [int(x, 16) for x in r.split(":") if x]
    v = 0
    for g in l + [0] * (8 - len(l) - len(r)) + r:
        v = v * 65536 + g
    return v, int(ln)

A, P, N = "always", "private only", "never"
R4 = [(*_v4(s), v) for s, v in (
    ("192.0.0.9/32", A), ("192.0.0.10/32", A), ("0.0.0.0/32", N), ("255.255.255.255/32", N),
    ("192.0.0.0/24", P), ("192.0.2.0/24", P), ("198.51.100.0/24", P), ("203.0.113.0/24", P),
    ("192.168.0.0/16", P), ("169.254.0.0/16", P), ("198.18.0.0/15", P), ("172.16.0.0/12", P),
    ("100.64.0.0/10", P), ("0.0.0.0/8", P), ("10.0.0.0/8", P), ("127.0.0.0/8", P),
    ("224.0.0.0/4", N), ("240.0.0.0/4", P), ("0.0.0.0/0", A))]
R6 = [(*_v6(s), v) for s, v in (
    ("2001:1::1/128", A), ("2001:1::2/128", A), ("::/128", N), ("2001:4:112::/48", A),
    ("2001:3::/32", A), ("2001:db8::/32", P), ("2001:20::/28", A), ("2001:30::/28", A),
    ("2001::/23", P), ("3fff::/20", P), ("2002::/16", P), ("ff00::/8", N), ("2000::/3", A),
    ("::/0", P))]


def verdict(ip):
    v, bits = int.from_bytes(ip, "big"), len(ip) * 8
    best = None
    for pre, ln, ver in (R4 if bits == 32 else R6):
        if v >> (bits - ln) == pre >> (bits - ln) and (best is None or ln > best[0]):
            best = (ln, ver)
    return best[1]


def may_be_target(fam, ip, private):
    if private and fam == 6 and ip[:12] == b"\0" * 10 + b"\xff\xff":
        ip = ip[12:]
    v = verdict(ip)
    return v == A or (v == P and private)

# ---- 7 Candidates
def bound(addrs):
    kept, fams, ips = [], {4: 0, 6: 0}, {}
    for a in addrs:
        q = parse_address(a)
        if q is None:
            continue
        fam, ip, port = q
        if port >= 1024 and len(kept) < 8 and fams[fam] < 4 and ips.get(ip, 0) < 2:
            kept.append(a)
            fams[fam] += 1
            ips[ip] = ips.get(ip, 0) + 1
    return kept


def peer_candidates(addrs, private):
    out = []
    for a in addrs:
        q = parse_address(a)
        if q is not None and may_be_target(q[0], q[1], private):
            out.append(a)
    return bound(out)


def own_candidates(addrs):
    return bound(list(dict.fromkeys(addrs)))

# ---- 8 Rounds / 9 Windows
class Window:
    def __init__(self, now, rt, punch, interval, deadline):
        self.i = interval or 1
        self.start = add(now, (rt + 1) // 2)
        self.end = min(add(self.start, punch), deadline)
        self.total = 0 if self.end < self.start else (self.end - self.start) // self.i + 1
        self.out = 1 if rt == 0 and self.total else 0

    def due(self, now):
        if now < self.start:
            return 0
        k = min((now - self.start) // self.i + 1, self.total) - self.out
        k = max(0, min(k, MAX))
        self.out += k
        return k

# ---- 10 Paths
class Ledger:
    def __init__(self):
        self.dials, self.windows, self.paths = {}, {}, {}

    @staticmethod
    def insert(t, k, v):
        if k not in t and len(t) >= 64:
            raise Refused(4)
        t[k] = v

    def expect(self, peer, until):                # 10.3
        self.insert(self.windows, peer, max(until, self.windows.get(peer, 0)))

    def tick(self, now):
        for p in [p for p, e in self.windows.items() if not now < e]:
            del self.windows[p]

    def attribute(self, conn, peer, direct, claim, now):   # 10.5
        if not direct:
            if claim is None:
                return "none", "none"
            name = ("relayed", "inbound")
        elif conn in self.dials:
            name = ("punched", str(self.dials[conn][1]))
        elif peer in self.windows and now < self.windows[peer]:
            name = ("punched", "inbound")
        else:
            name = ("direct", "none")
        self.insert(self.paths, conn, name)
        return name

    def forget(self, conn):                       # 10.6
        self.dials.pop(conn, None)
        self.paths.pop(conn, None)

# ---- 11 The circuit
HAND, EXCH, PUNCH, DONE = "Handshaking", "Exchange", "Punching", "Done"
NOTSENT, HELD = "not sent", "held"                # else the reading


class Circuit:
    def __init__(self, s, now, source, relay, number):
        if now + s["handshake"] > MAX:            # 11.3
            raise Refused(3)
        self.s, self.source, self.relay, self.number = s, source, relay, number
        self.hend = now + s["handshake"]
        self.phase, self.begun = HAND, 0

    def check(self, c):                           # 11.3
        own = read_list(c["own"])
        if own is None:
            raise Refused(5)
        if self.phase == EXCH and c["offer"] is not None and c["offer"] == self.pair:
            raise Refused(2)
        return own

    def want(self, c, own, led):                  # 11.4
        now = c["at"]
        if c["live"] == self.number and self.begun < 3 and now < self.deadline and c["offer"] is not None:
            self.begun += 1
            self.phase, self.pair, self.count, self.connect = EXCH, c["offer"], 0, NOTSENT
            self.eend = min(add(now, self.s["exchange"]), self.deadline)
            self.cands = own_candidates(own)
            return ["open conn=%d stream=%d" % self.pair]
        led.windows.pop(self.source, None)
        self.phase = DONE
        return []

    def reset(self):
        return "reset conn=%d stream=%d" % self.pair

    def send(self, data):
        return "send conn=%d stream=%d data=%s" % (*self.pair, data.hex())

    def burst(self, k):
        if not k or not self.targets:
            return []
        return ["burst times=%d payload=%d target=%s"
                % (k, self.s["payload"], ",".join(a.hex() for a in self.targets))]

    def up(self, c, led):                         # 11.5
        own = self.check(c)
        if c["peer"] != self.source:
            return []
        if c["via"] == "circuit":
            if self.phase != HAND or c["conn"] != self.number:
                return []
            out = ["path peer=%d relay=%d conn=%d" % (self.source, self.relay, self.number)]
            if not self.s["upgrades"]:
                self.phase = DONE
                return out
            self.deadline = add(c["at"], self.s["upgrade"])
            return out + self.want(c, own, led)
        if self.phase == DONE:
            return []
        out = ["upgrade peer=%d old=%d new=%d" % (self.source, self.number, c["conn"])]
        if self.phase == EXCH:
            out.append(self.reset())
        self.phase = DONE
        return out

    def tick(self, c, led, own=None):             # 11.6
        if own is None:
            own = self.check(c)
        now = c["at"]
        if self.phase == HAND and now >= self.hend:
            self.phase = DONE
            return ["close conn=%d" % self.number]
        if self.phase == EXCH:
            if now >= self.deadline:
                self.phase = DONE
                return [self.reset()]
            if now >= self.eend:
                return [self.reset()] + self.want(c, own, led)
        if self.phase == PUNCH:
            if now >= self.deadline:
                self.phase = DONE
                return []
            out = self.burst(self.window.due(now))
            if now >= self.window.end:
                out += self.want(c, own, led)
            return out
        return []

    def input(self, c, led, buf):                 # 11.7
        own = self.check(c)
        now = c["at"]
        if self.phase != EXCH or c["stream"] != self.pair[1]:
            return []
        if now >= self.eend or now >= self.deadline:
            return self.tick(c, led, own)
        closing = c["kind"] in ("end", "closed")
        if self.connect is NOTSENT:
            out = [self.send(frame(write_message(100, self.cands)))]
            if closing:
                return out + [self.reset()] + self.want(c, own, led)
            self.connect = HELD if c["pending"] else now
            return out
        if closing:
            return [self.reset()] + self.want(c, own, led)
        if c["kind"] == "ready":
            return []
        new = bytearray(buf)
        ans, count = gather(new, self.count, c["data"])
        addrs = None
        if ans is not MORE and ans is not BROKEN:
            try:
                typ, addrs = read_message(ans)
                if typ != 100:
                    addrs = None
            except Refused:
                pass
        if addrs is not None and self.source not in led.windows and len(led.windows) >= 64:
            raise Refused(4)
        buf[:] = new
        self.count = count
        if ans is MORE:
            return []
        if addrs is None:
            return [self.reset()] + self.want(c, own, led)
        rt = 0 if self.connect is HELD else sub(now, self.connect)
        self.targets = peer_candidates(addrs, self.s["private"])
        self.window = Window(now, rt, self.s["punch"], self.s["interval"], self.deadline)
        led.expect(self.source, self.deadline)
        out = self.burst(1 if rt == 0 else 0) + [self.send(SYNC), self.reset()]
        self.phase = PUNCH
        return out

    def wrote(self, c):                           # 11.8
        if self.phase == EXCH and self.pair == (c["conn"], c["stream"]) and self.connect is HELD:
            self.connect = c["at"]

    def down(self, c):
        if c["conn"] == self.number:
            self.phase = DONE

    def claim(self, conn):                        # 11.9
        return self.relay if self.phase != DONE and conn == self.number else None

# ---- 12 The journal
def lines(data):                                  # 12.1
    """each line's text, None where it has no known form"""
    p = 0
    while p < len(data):
        q = data.find(b"\n", p)
        if q < 0:
            yield None
            return
        yield data[p:q] if q + 1 - p <= 32768 else None
        p = q + 1


class Form(Exception):
    pass

DIGITS, HEX = frozenset(b"0123456789"), frozenset(b"0123456789abcdef")


def number(v):                                    # 12.3
    if not v or len(v) > 20 or not DIGITS.issuperset(v) or (v[0] == 48 and len(v) > 1):
        raise Form
    n = int(v)
    if n > MAX:
        raise Form
    return n


def hexbytes(v):
    if v == b"-":
        return b""
    if not v or len(v) % 2 or not HEX.issuperset(v):
        raise Form
    return bytes.fromhex(v.decode())


def maybe(v):
    return None if v == b"none" else number(v)


def pair(v):
    if v == b"none":
        return None
    x = v.split(b":")
    if len(x) != 2:
        raise Form
    return number(x[0]), number(x[1])


def words(*ws):
    def f(v):
        if v not in ws:
            raise Form
        return v.decode()
    return f


def flag(v):
    if v not in (b"0", b"1"):
        raise Form
    return v == b"1"

KIND = {"via": words(b"circuit", b"direct"), "pending": flag, "live": maybe, "offer": pair,
        "kind": words(b"ready", b"data", b"end", b"closed"), "data": hexbytes, "own": hexbytes,
        "private": flag, "upgrades": flag}
FIRST = "handshake upgrade exchange punch interval payload private upgrades".split()   # 12.4
CALLS = {k: v.split() for k, v in {                                                   # 12.5
    b"start": "at source relay circuit",
    b"up": "at peer conn via live offer pending own",
    b"input": "at stream kind data live offer pending own",
    b"tick": "at live offer own",
    b"wrote": "at conn stream",
    b"down": "at peer conn",
    b"dial": "at conn token id",
    b"forget": "at conn",
    b"attribute": "at peer conn via"}.items()}


def fields(parts, keys):                          # 12.2
    if len(parts) != len(keys):
        raise Form
    out = {}
    for part, key in zip(parts, keys):
        pre = key.encode() + b"="
        if not part.startswith(pre):
            raise Form
        out[key] = KIND.get(key, number)(part[len(pre):])
    return out


def parse_call(line):
    if line is None:
        raise Form
    parts = line.split(b" ")
    if not parts[0].startswith(b"do=") or parts[0][3:] not in CALLS:
        raise Form
    do = parts[0][3:]
    c = fields(parts[1:], CALLS[do])
    if do == b"input" and c["kind"] != "data" and parts[4] != b"data=-":
        raise Form
    return do.decode(), c


class Journal:
    def __init__(self, s):
        self.s, self.n = s, 0
        self.led, self.cir, self.buf = Ledger(), None, bytearray(4098)

    def call(self, line):
        try:
            do, c = parse_call(line)
        except Form:
            raise Refused(11)                     # 12.6
        led, cir = self.led, self.cir
        if do == "start":
            self.cir = Circuit(self.s, c["at"], c["source"], c["relay"], c["circuit"])
            return []
        if cir is None:
            raise Refused(12)
        if do == "up":
            return cir.up(c, led)
        if do == "input":
            return cir.input(c, led, self.buf)
        if do == "tick":
            eff = cir.tick(c, led)
            led.tick(c["at"])
            return eff
        if do == "wrote":
            cir.wrote(c)
        elif do == "down":
            cir.down(c)
        elif do == "dial":
            led.insert(led.dials, c["conn"], (c["token"], c["id"]))
        elif do == "forget":
            led.forget(c["conn"])
        elif do == "attribute":
            direct = c["via"] == "direct"
            return ["attributed path=%s owner=%s" % led.attribute(
                c["conn"], c["peer"], direct, None if direct else cir.claim(c["conn"]), c["at"])]
        return []

    def step(self, line):                         # 12.7
        self.n += 1
        try:
            eff = self.call(line)
        except Refused as r:
            eff = ["refused why=%d" % r.why]
        return ["n=%d out=%s\n" % (self.n, e) for e in eff or ["none"]]


def replay(data):
    it = lines(data)
    try:
        first = next(it, None)
        if first is None:
            raise Form
        j = Journal(fields(first.split(b" "), FIRST))
    except Form:
        return b"n=0 out=refused why=11\n"
    return "".join(x for line in it for x in j.step(line)).encode()


def main():
    if sys.argv[1:] == ["--many", "journal"]:
        while size := sys.stdin.buffer.readline():
            out = replay(sys.stdin.buffer.read(int(size)))
            sys.stdout.buffer.write(b"%d\n%s" % (len(out), out))
            sys.stdout.buffer.flush()
    else:
        sys.stdout.buffer.write(replay(sys.stdin.buffer.read()))


if __name__ == "__main__":
    main()
