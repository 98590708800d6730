"""Inputs for the programs `conform` and `listing`, made with a fixed seed: messages that are legal, nearly legal and rubbish, of every shape with each
field at fault and cut at every length, packets of both families that have the length that their header gives and others, every single-bit change of message X, ids at
every edge of the rule of positions, tables handed in as no message could leave them, and saved rows, as they stand and with one or two faults."""
import itertools
import random

import model

X = bytes.fromhex('002305000000020000000000000e02000000000000011502020100000000')
OWN = 0x0200000000000001
# The families of a packet: how long the header is at least, where it has the length of two bytes, high byte first, and how much that does not count.
FAMILIES = {4: (20, 2, 0), 6: (40, 4, 40)}
EDGES = (0, 1, 2, 14, 15, 16, 17, 2 ** 31 - 1, 2 ** 31, 2 ** 31 + 1, 2 ** 32 - 17, 2 ** 32 - 16, 2 ** 32 - 15, 2 ** 32 - 14, 2 ** 32 - 1)


class Maker:
    def __init__(self, seed):
        self.random = random.Random(seed)
        self.nodes = [0x0200000000000000 + i for i in range(2, 16)]
        self.keys = [0x1001, 0x1002, 0x2001, 0x2fff]
        self.ids = {}

    def chance(self, part):
        return self.random.random() < part

    def node(self):
        return self.random.choice((0, model.ANY)) if self.chance(0.04) else self.random.choice(self.nodes)

    def id(self, name):
        """An id near what was last sent under a name, at an edge as often as not."""
        last = self.ids.get(name, self.random.getrandbits(32))
        step = self.random.choice(EDGES) if self.chance(0.5) else self.random.choice((0, 1, 1, 1, 2, 3, -1, -2, -5, -15, -16, 40))
        now = (last + step) % 2 ** 32
        if self.chance(0.7):
            self.ids[name] = now
        return now

    def value(self):
        r = self.random
        encrypt, tunnelled = int(self.chance(0.5)), int(self.chance(0.17))
        v = dict.fromkeys(model.FIELDS, 0)
        v.update(version=1 if self.chance(0.05 if tunnelled else 0.15) else 2, T=tunnelled, encrypt=encrypt, S=int(self.chance(0.85)), D=int(self.chance(0.8)))
        v['source'] = self.node() if v['S'] else 0
        v['destination'] = r.choice((OWN, OWN, OWN, model.ANY, self.node())) if v['D'] else 0
        v['key'] = r.choice(self.keys) if encrypt else 0
        v['id'] = self.id((v['source'], v['key']))
        if not tunnelled:
            old = v['version'] == 1
            v.update(I=r.getrandbits(1), A=int(self.chance(0.03 if old else 0.3)), R=int(self.chance(0.03 if old else 0.5)), type=r.getrandbits(8),
                     exchange=r.getrandbits(16), profile=r.getrandbits(32))
            v['acknowledged'] = r.getrandbits(32) if v['A'] else 0
        return v

    def payload(self, v):
        if v['T']:
            return self.packet()
        n = self.random.choice((0, 0, 1, 4, 20, 63, 64, 200, 1150, 1190, 1232)) if self.chance(0.3) else self.random.randrange(30)
        return self.random.randbytes(n)

    def packet(self):
        """A packet with the length that its header gives, more often than not; or one with another, of no family, or no bytes."""
        r, kind, family = self.random, self.random.random(), self.random.choice((4, 6))
        least = FAMILIES[family][0]
        n = r.choice((least, least, least + 1, 64, 200, 1150, 1190, 1232)) if self.chance(0.3) else least + r.randrange(30)
        legal = packet(family, n, r.randbytes(n))
        if kind < 0.15:
            return r.choice(list(mismeasured(legal).values()))
        if kind < 0.22:
            return bytes([r.choice((0x05, 0x35, 0x55, 0x75, 0xc5))]) + legal[1:]
        return r.randbytes(r.randrange(30)) if kind < 0.25 else b'' if kind < 0.31 else legal

    def message(self):
        """The bytes of a value; now and then with one fault."""
        v = self.value()
        payload = self.payload(v)
        if v['T'] and not payload:
            payload = packet(4, 20)
        data = bytearray(model.encode(v, payload, self.random.randbytes(20 * v['encrypt'])))
        fault = self.random.random()
        if fault < 0.10:
            data = data[:self.random.randrange(len(data) + 1)]
        elif fault < 0.28:
            at = self.random.choice((0, 1, 6, 13, 14, 21, 22, 23, 24, self.random.randrange(len(data))))
            if at < len(data):
                data[at] ^= 1 << self.random.randrange(8)
        elif fault < 0.33 and v['S']:
            data[6:14] = self.random.choice((bytes(8), b'\xff' * 8))
        elif fault < 0.36 and v['D']:
            at = 6 + 8 * v['S']
            data[at:at + 8] = bytes(8)
        elif fault < 0.38:
            data += bytes(self.random.choice((1233, 1300)) - len(data)) if len(data) < 1233 else b''
        elif fault < 0.42 and v['T']:
            data[len(data) - len(payload) - 20 * v['encrypt'] - 1] = self.random.choice((0, 2, 255))
        elif fault < 0.43:
            data = bytearray(self.random.randbytes(self.random.randrange(60)))
        return bytes(data)

    def records(self, count):
        """Saved rows under names of their own, with highest ids near what was last sent under them."""
        names = self.random.sample([(node, key) for node in self.nodes for key in [0] + self.keys], count)
        return [bytearray(model.Row(1, node, key, self.id((node, key)), self.random.getrandbits(15)).record()) for node, key in names]

    def saved(self, rows):
        """Saved rows, of a table's rows or others; as often as not with one fault, or two."""
        r = self.random
        records = [bytearray(row.record()) for row in rows if row.used]
        if self.chance(0.6):
            records = self.records(r.choice((0, 1, 2, 3, 5, 31, 32, 32)))
        for _ in range(r.choice((0, 0, 1, 1, 2))):
            if records:
                self.spoil(records)
        data = b''.join(records)
        if self.chance(0.1):
            data = data[:r.randrange(len(data) + 1)] if self.chance(0.7) else data + r.randbytes(r.randrange(20))
        return data

    def spoil(self, records):
        """One fault in one record, or a name twice, or more records than there are rows."""
        r, fault = self.random, self.random.randrange(8)
        record = r.choice(records)
        if fault == 0:
            record[r.randrange(model.RECORD)] ^= 1 << r.randrange(8)
        elif fault == 1:
            record[0:2] = r.choice((b'\x57\x52', b'\x52\x58', b'\x00\x00', b'\x52\x00', b'\x00\x57'))
        elif fault == 2:
            record[2:10] = r.choice((bytes(8), b'\xff' * 8))
        elif fault == 3:
            record[10:12] = two(r.choice((1, 0x0fff, 0x3000, 0x3001, 0x4001, 0x8001, 0x9001, 0xa001, 0xffff)))
        elif fault == 4:
            record[17] |= 0x80
        elif fault < 7:
            record[2:12] = r.choice(records)[2:12]
            records += [bytearray(record)] if self.chance(0.2) else []
        else:
            records += self.records(r.choice((1, 32, 33 - len(records) if len(records) < 33 else 1)))


def command(name, *parts):
    body = bytes([name]) + b''.join(parts)
    return len(body).to_bytes(2, 'little') + body


def two(n):
    return n.to_bytes(2, 'little')


def four(n):
    return n.to_bytes(4, 'little')


def eight(node):
    return node.to_bytes(8, 'big')


def packed(v):
    out = b''
    for f, w in zip(model.FIELDS, (1, 1, 1, 1, 1, 4, 8, 8, 2, 1, 1, 1, 1, 2, 4, 4)):
        out += eight(v[f]) if w == 8 else v[f].to_bytes(w, 'little')
    return out


def shapes():
    """A legal value of every shape: of each version, with and without source, destination and encryption, tunnelled or not, with and without A."""
    for version, T, S, D, encrypt, A in itertools.product((1, 2), (0, 1), (0, 1), (0, 1), (0, 1), (0, 1)):
        if version == 2 and not (T and A) or not (T or A):
            yield dict(dict.fromkeys(model.FIELDS, 0), version=version, T=T, S=S, D=D, encrypt=encrypt, A=A, id=5, source=S * (OWN + 13),
                       destination=D * OWN, key=encrypt * 0x2001)


def packet(family, n, filling=None):
    """A packet of a length that its header gives; all its other bytes are those of the filling, or zero."""
    _, at, uncounted = FAMILIES[family]
    data = bytearray(filling or bytes(n))
    data[0] = family << 4 | data[0] & 15
    data[at:at + 2] = (n - uncounted).to_bytes(2, 'big')
    return bytes(data)


def mismeasured(legal):
    """The packets that come of a legal one when its length is spoiled, or the one in its header, by how."""
    least, at, uncounted = FAMILIES[legal[0] >> 4]
    given = len(legal) - uncounted

    def says(n):
        return legal[:at] + (n % 65536).to_bytes(2, 'big') + legal[at + 2:]

    made = {'one more': says(given + 1), 'one fewer': says(given - 1), 'low byte first': legal[:at] + legal[at:at + 2][::-1] + legal[at + 2:],
            'without the header': says(given - least), 'with the header': says(given + least), 'the most': says(65535), 'a high byte': says(given ^ 256),
            'padded by one': legal + b'\x00', 'padded': legal + bytes(len(legal) % 7 + 2), 'cut by one': legal[:-1], 'cut to its header': legal[:least],
            'first byte': legal[:1], 'cut within the length': legal[:at + 1], 'cut behind the length': legal[:at + 2], 'no whole header': legal[:least - 1]}
    if uncounted == 0:
        made.update(('%d bytes, and says so' % n, packet(4, n, legal[:n])) for n in (at + 2, least - 1))
    return {how: data for how, data in made.items() if data != legal}


def encoded(v):
    return model.encode(v, packet(4, 20) if v['T'] else b'', bytes(20 * v['encrypt']))


def spoiled(v):
    """The bytes of a value, and those with each one and each two of its fields at fault."""
    body = 6 + 8 * v['S'] + 8 * v['D'] + 2 * v['encrypt']
    faults = [(body - 2, b'\x01\x30')] if v['encrypt'] else []
    faults += [(6, bytes(8)), (6, b'\xff' * 8)] if v['S'] else []
    faults += [(6 + 8 * v['S'], bytes(8))] if v['D'] else []
    faults += [(body, b'\x02'), (body + 1, b'\x55'), (body + 3, b'\x00\x15')] if v['T'] else [(body, b'\x03')]
    faults += [(body, b'\x12'), (body, b'\x14')] if v['version'] == 1 else []
    made = {}
    for chosen in [()] + [(f,) for f in faults] + list(itertools.combinations(faults, 2)):
        data = bytearray(encoded(v))
        for at, part in chosen:
            data[at:at + len(part)] = part
        made[bytes(data)] = True
    return list(made)


def received(data):
    """The command that receives a message as the listing does."""
    return command(9, eight(OWN), eight(0), b'\x01', four(0), two(64), data)


def misread():
    """Every shape with its fields at fault, and cut at every length: read, outer reading, received."""
    out = []
    for v in shapes():
        whole = encoded(v)
        for data in spoiled(v) + [whole[:n] for n in range(len(whole))]:
            out += [command(1, data), command(2, data), received(data)]
    return out


def written(v, payload, room):
    """The command that writes a value with a payload, and zero check bytes."""
    return command(3, packed(v), two(room), two(len(payload)), payload, bytes(20 * v['encrypt']))


def packets():
    """Every shape of a tunnelled message with packets of both families: the shortest, one of 60 bytes, the longest and one that is too long, and the one of
    60 bytes with its length spoiled: read, outer reading, received, written."""
    out = []
    for v in shapes():
        if v['T']:
            longest = model.LONGEST - len(encoded(v)) + 20
            for family, (least, _, _) in FAMILIES.items():
                some = [packet(family, n) for n in (least, 60, longest, longest + 1)]
                for data in some + list(mismeasured(some[1]).values()):
                    message = model.encode(v, data, bytes(20 * v['encrypt']))
                    out += [command(1, message), command(2, message), received(message), written(v, data, 1300)]
    return out


def fixed():
    """The commands that are not left to chance."""
    out = [command(k, bytes.fromhex(h)) for k in (1, 2) for h in ('0020', '0030', '0120', '0028', '0014', '2020')]
    out += [command(k, X[:n]) for k in (1, 2) for n in range(len(X) + 1)]
    for bit in range(8 * len(X)):
        data = bytearray(X)
        data[bit // 8] ^= 1 << bit % 8
        out += [command(k, bytes(data)) for k in (1, 2)]
    for key in (0, 1, 0x1001, 0x2001, 0xf000):
        for marks in (0, 1, 0x7fff, 0x8000, 0xffff, 0x5a5a):
            for highest in (0, 5, 14, 15, 16, 2 ** 31, 2 ** 32 - 1):
                for step in EDGES:
                    row = bytes([1]) + eight(14) + two(key) + four(highest) + two(marks)
                    out.append(command(6, row, four((highest + step) % 2 ** 32)))
    return out + misread() + packets() + restores()


def restores():
    """Two saved rows, whole, cut at every length and with every single bit changed; the most records, and more; then a table with gaps, stray bits and
    names that restoring refuses, saved with every room around the exact one."""
    pair = model.Row(1, OWN + 1, 0x1001, 5, 3).record() + model.Row(1, OWN + 2, 0, 2 ** 32 - 1, 0x7fff).record()
    out = [command(13, pair[:n]) for n in range(len(pair) + 1)]
    for bit in range(8 * len(pair)):
        data = bytearray(pair)
        data[bit // 8] ^= 1 << bit % 8
        out += [command(13, bytes(data)), command(11)]
    for count in (31, 32, 33, 64, 3000):
        data = b''.join(model.Row(1, OWN + i, 0x2001, i, 0).record() for i in range(count))
        out += [command(13, data), command(11), command(13, data + b'\x52'), command(13, data[:-1]), command(12, two(576)), command(12, two(575))]
    out.append(command(7))
    for number, used, node, key in ((0, 0, 5, 0), (1, 1, 6, 0), (3, 1, 0, 0x3001), (4, 1, 6, 0), (31, 1, model.ANY, 0xffff)):
        out.append(command(8, bytes([number, used]) + eight(node) + two(key) + four(2 ** 32 - 1 - number) + two(0xffff)))
        out += [command(12, two(room)) for room in range(76)]
    return out + [command(11), command(12, b''), command(12, b'\x00'), command(12, two(1300)), command(12, two(1301)), command(13), command(11)]


def commands(seed, count):
    m, out, program = Maker(seed), fixed(), model.Conform()
    r, seen = m.random, 0
    while len(out) < count:
        for c in out[seen:]:
            program.line(c[2:])  # keeps the table that the program has by now, to be saved and restored
        seen = len(out)
        kind = r.random()
        if kind < 0.36:
            own = r.choice((0, model.ANY)) if m.chance(0.03) else OWN
            link = m.node() if m.chance(0.8) else r.choice((0, model.ANY))
            room = r.choice((0, 33, 34, 55, 56, 64, 64, 64, 64, 1300))
            data = X if m.chance(0.02) else m.message()
            out.append(command(9, eight(own), eight(link), bytes([int(m.chance(0.9))]), four(r.getrandbits(32)), two(room), data))
        elif kind < 0.44:
            out.append(command(1, m.message()))
        elif kind < 0.49:
            out.append(command(2, m.message()))
        elif kind < 0.66:
            v = m.value()
            payload, check = m.payload(v), r.randbytes(20 * v['encrypt'] if m.chance(0.9) else r.randrange(30))
            if m.chance(0.45):
                f = r.choice(model.FIELDS)
                v[f] = r.choice((0, 1, 2, 3)) if f in ('version', 'encrypt') else r.getrandbits(1) if f in 'TSDIAR' else \
                    r.choice((0, model.ANY, 5)) if f in ('source', 'destination') else r.getrandbits(16) if f in ('key', 'exchange') else r.getrandbits(8)
            room = r.choice((0, 20, 60, 100, 1232, 1300, 1301))
            out.append(command(3, packed(v), two(room), two(len(payload)), payload, check))
        elif kind < 0.71:
            data = m.message()
            cut = (two(len(data)) + data + r.randbytes(3))[:r.randrange(len(data) + 6)]
            out.append(command(4, cut))
            out.append(command(5, two(r.choice((0, len(data) + 1, len(data) + 2, 1300)) % 1302), data))
        elif kind < 0.77:
            row = bytes([r.getrandbits(1)]) + eight(m.node()) + two(r.choice((0, 1, 0x1001, 0xf000))) + four(r.getrandbits(32)) + two(r.getrandbits(16))
            out.append(command(6, row, four(r.getrandbits(32))))
        elif kind < 0.81:
            used = bytes([int(m.chance(0.6))])
            row = used + eight(m.node()) + two(r.choice([0] + m.keys) if m.chance(0.95) else r.getrandbits(16)) + four(r.getrandbits(32)) + two(r.getrandbits(16))
            out.append(command(8, bytes([r.randrange(34)]), row))
        elif kind < 0.85:
            exact = model.RECORD * sum(row.used for row in program.gateway.rows)
            room = max(0, exact + r.choice((-18, -1, 0, 0, 1, 18))) if m.chance(0.7) else r.choice((0, 17, 18, 575, 576, 1300, 1301))
            out.append(command(12, two(room)))
        elif kind < 0.90:
            out.append(command(13, m.saved(program.gateway.rows)))
            if m.chance(0.5):
                out.append(command(11))
        elif kind < 0.95:
            out.append(command(10, eight(m.node()), two(r.choice([0] + m.keys))))
        elif kind < 0.98:
            out.append(command(11))
        elif kind < 0.985:
            out.append(command(7))
        else:
            out.append(command(r.randrange(256), r.randbytes(r.randrange(12))))
    return out


def stream(seed):
    """A framed stream for the listing, sometimes cut short, sometimes longer than is read."""
    m = Maker(seed)
    data = b''
    length = m.random.choice((0, 1, 3, 40, 400)) if m.chance(0.3) else m.random.randrange(200)
    for _ in range(length):
        message = m.message()
        data += two(len(message)) + message
    if m.chance(0.5):
        data += m.random.randbytes(m.random.randrange(5))
    return data


def secret(source, n, key=0x2001):
    """An encrypted report to the gateway, opened, with two bytes of payload."""
    v = dict(dict.fromkeys(model.FIELDS, 0), version=2, S=int(source != 0), D=1, encrypt=1, id=n, source=source, destination=OWN, key=key, I=1, R=1, type=2, exchange=0x0102)
    return model.encode(v, b'\x02\x58', bytes(20))


def hills():
    """The capture hills.bin. The valve on the hill, 02..0f, sends 501 to 560 through a relay that hands some over late; two come twice. The valve in the valley,
    02..0e, sends 71 to 85, all in order. A plain report is among them, and one without a source."""
    ids = list(range(501, 561))
    for first, last, after in ((506, 511, 527), (520, 523, 557), (548, 548, 551)):
        late = range(first, last + 1)
        ids = [n for n in ids if n not in late]
        at = ids.index(after) + 1
        ids[at:at] = late
    for n in (530, 545):
        ids.insert(ids.index(n) + 2, n)
    out = [X, secret(0, 40)]
    for k, n in enumerate(ids):
        out += [secret(OWN + 14, n)] + ([secret(OWN + 13, 71 + k // 4)] if k % 4 == 0 and k < 60 else [])
    return b''.join(two(len(data)) + data for data in out)
