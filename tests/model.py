"""The rules of the scope document and of the requests, worked out plainly: bytes by slicing, refusals in the order in which they are listed, each
with the byte at fault, and every verdict afresh from the full list of accepted positions. It shares nothing with the crates; the tests hold the
programs to it. What an earlier stage of the rules came to, it can say too."""

LONGEST = 1232
ANY = 2 ** 64 - 1
MARKS = 15
BACK = 2 ** 31  # how far an encrypted row looks back
ROWS = 32
RECORD = 18
SAVED = b'\x52\x57'
# The stages that the answers went through, by the request that each came with: from k2 on a refusal has a byte, from k4 on a packet is measured. Saving
# and restoring, which came with k1, are there at every stage.
STAGES = ('base', 'k1', 'k2', 'k4')
FIELDS = ('version', 'T', 'S', 'D', 'encrypt', 'id', 'source', 'destination', 'key', 'I', 'A', 'R', 'type', 'exchange', 'profile', 'acknowledged')


class Refused(Exception):
    """A refusal by its number, and the byte at fault: 0 where it is about no byte."""

    def __init__(self, number, offset):
        self.number, self.offset = number, offset

    def __str__(self):
        return 'refused %d %d' % (self.number, self.offset)


def refuse(number, when, offset=0):
    if when:
        raise Refused(number, offset)


def low(data):
    return int.from_bytes(data, 'little')


def high(data):
    return int.from_bytes(data, 'big')


def nobody(node):
    return node in (0, ANY)


def mismeasured(packet):
    """Whether a packet is shorter than its header, or of another length than that gives. IPv4 counts all of it, IPv6 what follows 40 bytes."""
    if packet[0] >> 4 == 4:
        return len(packet) < 20 or high(packet[2:4]) != len(packet)
    return len(packet) < 40 or high(packet[4:6]) + 40 != len(packet)


# ---- reading

def outer(data):
    """Refusals 1 to 9, then the value up to the key id and the place after it."""
    n = len(data)
    refuse(1, n > LONGEST, LONGEST)
    refuse(2, n < 2, n)
    h = low(data[0:2])
    v = dict.fromkeys(FIELDS, 0)
    v['version'], v['encrypt'] = h >> 12, h >> 4 & 15
    v['T'], v['S'], v['D'] = h >> 10 & 1, h >> 9 & 1, h >> 8 & 1
    refuse(3, v['version'] not in (1, 2))
    refuse(4, h >> 11 & 1 or h & 15)
    refuse(5, v['T'] and v['version'] == 1)
    refuse(6, v['encrypt'] not in (0, 1))
    at = 6 + 8 * v['S'] + 8 * v['D'] + 2 * v['encrypt']
    refuse(2, n < at + (2 if v['T'] else 8) + 20 * v['encrypt'], n)
    v['id'] = low(data[2:6])
    place, starts = 6, {}
    for field, present, width in (('source', v['S'], 8), ('destination', v['D'], 8), ('key', v['encrypt'], 2)):
        if present:
            starts[field], part = place, data[place:place + width]
            v[field] = low(part) if field == 'key' else high(part)
            place += width
    refuse(7, v['encrypt'] and v['key'] >> 12 not in (1, 2), starts.get('key'))
    refuse(8, v['S'] and nobody(v['source']), starts.get('source'))
    refuse(9, v['D'] and v['destination'] == 0, starts.get('destination'))
    return v, at


def read(data, measure=True):
    """The value, the payload and the check. Before K4 a packet was not measured."""
    v, at = outer(data)
    end = len(data) - 20 * v['encrypt']
    if v['T']:
        refuse(12, data[at] != 1, at)
        refuse(13, data[at + 1] >> 4 not in (4, 6), at + 1)
        refuse(27, measure and mismeasured(data[at + 1:end]), at + 1)
        return v, data[at + 1:end], data[end:]
    x = data[at]
    refuse(10, not x >> 4 & 1 or x & 0xe8, at)
    v['I'], v['A'], v['R'] = x & 1, x >> 1 & 1, x >> 2 & 1
    refuse(11, v['version'] == 1 and (v['A'] or v['R']), at)
    refuse(2, v['A'] and end < at + 12, len(data))
    v['type'], v['exchange'], v['profile'] = data[at + 1], low(data[at + 2:at + 4]), low(data[at + 4:at + 8])
    if v['A']:
        v['acknowledged'] = low(data[at + 8:at + 12])
    return v, data[at + 8 + 4 * v['A']:end], data[end:]


# ---- writing

def encode(v, payload, check):
    h = v['version'] << 12 | v['T'] << 10 | v['S'] << 9 | v['D'] << 8 | v['encrypt'] << 4
    out = h.to_bytes(2, 'little') + v['id'].to_bytes(4, 'little')
    out += v['source'].to_bytes(8, 'big') if v['S'] else b''
    out += v['destination'].to_bytes(8, 'big') if v['D'] else b''
    out += v['key'].to_bytes(2, 'little') if v['encrypt'] else b''
    if v['T']:
        return out + b'\x01' + payload + check
    out += bytes([16 | v['I'] | v['A'] << 1 | v['R'] << 2, v['type']])
    out += v['exchange'].to_bytes(2, 'little') + v['profile'].to_bytes(4, 'little')
    out += v['acknowledged'].to_bytes(4, 'little') if v['A'] else b''
    return out + payload + check


def write(v, payload, check, room, measure=True):
    refuse(3, v['version'] not in (1, 2))
    refuse(5, v['T'] and v['version'] == 1)
    refuse(6, v['encrypt'] not in (0, 1))
    refuse(7, v['encrypt'] and v['key'] >> 12 not in (1, 2))
    refuse(8, v['S'] and nobody(v['source']))
    refuse(9, v['D'] and v['destination'] == 0)
    refuse(11, v['version'] == 1 and (v['A'] or v['R']))
    refuse(2, v['T'] and not payload)
    refuse(13, v['T'] and payload[0] >> 4 not in (4, 6))
    refuse(27, v['T'] and measure and mismeasured(payload))
    absent = []
    absent += [] if v['S'] else ['source']
    absent += [] if v['D'] else ['destination']
    absent += [] if v['encrypt'] else ['key']
    absent += ['I', 'A', 'R', 'type', 'exchange', 'profile'] if v['T'] else []
    absent += [] if v['A'] else ['acknowledged']
    refuse(14, any(v[f] for f in absent) or len(check) != (20 if v['encrypt'] else 0))
    out = encode(v, payload, check)
    refuse(1, len(out) > LONGEST)
    refuse(19, len(out) > room)
    return out


# ---- the stream

def unframe(data):
    """The number of bytes wanted, 0 for none, the message and the rest."""
    if len(data) < 2:
        return 2 - len(data), b'', b''
    n = low(data[0:2])
    if len(data) - 2 < n:
        return n - (len(data) - 2), b'', b''
    return 0, data[2:2 + n], data[2 + n:]


def frame(message, room):
    refuse(1, len(message) > LONGEST)
    refuse(19, len(message) + 2 > room)
    return len(message).to_bytes(2, 'little') + message


# ---- the rule of positions, over how far it looks back and the number of marks

def position(n, top, back):
    """Where an arriving id stands once there is a greatest accepted position: the one place that equals it modulo 2^32, from `back` behind that on."""
    return top - back + (n - (top - back)) % 2 ** 32


def is_new(p, top, marks, accepted):
    return p > top or top - marks <= p < top and p not in accepted


# ---- rows: a name, the positions accepted so far in full, and the number that is shown for the marks

class Row:
    def __init__(self, used=0, node=0, key=0, highest=0, marks=0):
        self.node, self.key, self.highest, self.raw = node, key, highest, marks
        self.list = None
        if used:
            top = highest + 2 ** 32
            self.list = {top} | {top - k for k in range(1, MARKS + 1) if marks >> (k - 1) & 1}

    @property
    def used(self):
        return int(self.list is not None)

    def hear(self, n):
        """True where the id is new."""
        if self.list is None:
            self.list = {n + 2 ** 32}
        else:
            top = max(self.list)
            p = position(n, top, BACK if self.key else MARKS)
            if not is_new(p, top, MARKS, self.list):
                return False
            self.list.add(p)
        top = max(self.list)
        self.highest = top % 2 ** 32
        self.raw = sum(1 << (k - 1) for k in range(1, MARKS + 1) if top - k in self.list)
        return True

    def fields(self):
        return self.used, self.node, self.key, self.highest, self.raw

    def record(self):
        """The row as it is saved: a bit that stands for no mark is zero."""
        marks = self.raw & (1 << MARKS) - 1
        return SAVED + self.node.to_bytes(8, 'big') + self.key.to_bytes(2, 'little') + self.highest.to_bytes(4, 'little') + marks.to_bytes(2, 'little')


# ---- the gateway

class Gateway:
    def __init__(self, measure=True):
        self.rows = [Row() for _ in range(ROWS)]
        self.measure = measure

    def find(self, node, key):
        return next((r for r in self.rows if r.used and (r.node, r.key) == (node, key)), None)

    def receive(self, own, link, passed, ack_id, data, room):
        """New or not, the value, and the acknowledgement's bytes."""
        refuse(15, nobody(own))
        v, _, _ = read(data, self.measure)
        refuse(16, v['D'] and v['destination'] not in (own, ANY))
        refuse(17, not v['S'] and nobody(link))
        refuse(18, v['encrypt'] and not passed)
        sender, ack = v['source'] if v['S'] else link, b''
        if v['R']:
            ack = encode(dict(v, version=2, T=0, S=1, D=1, id=ack_id, source=own, destination=sender, I=1 - v['I'], A=1, R=0, type=2,
                              profile=0, acknowledged=v['id']), b'', bytes(20 * v['encrypt']))
            refuse(19, len(ack) > room)
        row = self.find(sender, v['key'])
        if row is None:
            free = [i for i, r in enumerate(self.rows) if not r.used]
            refuse(20, not free)
            row = self.rows[free[0]] = Row(0, sender, v['key'])
        return row.hear(v['id']), v, ack

    def remove(self, node, key):
        row = self.find(node, key)
        refuse(21, row is None)
        self.rows[self.rows.index(row)] = Row()

    def save(self, room):
        out = b''.join(r.record() for r in self.rows if r.used)
        refuse(19, len(out) > room)
        return out

    def restore(self, data):
        """How many rows were placed. Each refusal is looked for in all records before the next."""
        refuse(24, len(data) % RECORD or len(data) > RECORD * ROWS)
        records = [data[at:at + RECORD] for at in range(0, len(data), RECORD)]
        refuse(23, any(r[0:2] != SAVED for r in records))
        rows = [Row(1, high(r[2:10]), low(r[10:12]), low(r[12:16]), low(r[16:18])) for r in records]
        refuse(25, any(nobody(r.node) or r.key != 0 and r.key >> 12 not in (1, 2) or r.raw >> MARKS for r in rows))
        names = [(r.node, r.key) for r in rows]
        refuse(26, len(set(names)) < len(names))
        self.rows = rows + [Row() for _ in range(ROWS - len(rows))]
        return len(rows)


# ---- the programs

def listing(data):
    data, gateway, lines = data[:65536], Gateway(), []
    while True:
        wanted, message, rest = unframe(data)
        if wanted:
            return ''.join(lines) + 'end %d\n' % len(data)
        try:
            new, v, _ = gateway.receive(0x0200000000000001, 0, 1, 0, message, 64)
            said = '%s %d' % ('new' if new else 'duplicate', v['id'])
        except Refused as r:
            said = str(r)
        lines.append('%d %s\n' % (len(lines) + 1, said))
        data = rest


def verdicts(ids, marks):
    """Whether each of the ids from one encrypted sender is new with so many marks, by all the positions that were accepted before it."""
    accepted, top, out = set(), None, []
    for n in ids:
        p = n + 2 ** 32 if top is None else position(n, top, BACK)
        new = top is None or is_new(p, top, marks, accepted)
        if new:
            accepted.add(p)
            top = p if top is None else max(top, p)
        out.append(new)
    return out


def trial(data):
    """All numbers of marks from 1 to 63 are tried, and the least is the first whose verdicts are those of 63."""
    if len(data) % 4 or len(data) > 65536:
        return 'refused 28\n'
    ids = [low(data[at:at + 4]) for at in range(0, len(data), 4)]
    tried = {marks: verdicts(ids, marks) for marks in range(1, 64)}
    counts = ['%d %d %d\n' % (marks, tried[marks].count(True), tried[marks].count(False)) for marks in (15, 31, 63)]
    return ''.join(counts) + 'least %d\n' % min(marks for marks in tried if tried[marks] == tried[63])


def text(data):
    return data.hex() or '-'


def shown(v):
    return ' '.join('%016x' % v[f] if f in ('source', 'destination') else '%d' % v[f] for f in FIELDS)


def value(data):
    v, at = {}, 0
    for f, w in zip(FIELDS, (1, 1, 1, 1, 1, 4, 8, 8, 2, 1, 1, 1, 1, 2, 4, 4)):
        part = data[at:at + w]
        at += w
        v[f] = int(part != b'\x00') if f in 'TSDIAR' else high(part) if w == 8 else low(part)
    return v


def after(room, out):
    return text(out + b'\xa5' * (room - len(out)))


class Conform:
    """One line for each command, as the program `conform` prints it, or printed it at an earlier stage."""

    def __init__(self, stage=STAGES[-1]):
        self.points, self.measure = (STAGES.index(stage) >= STAGES.index(request) for request in ('k2', 'k4'))
        self.gateway = Gateway(self.measure)

    def refused(self, refusal):
        return str(refusal) if self.points else 'refused %d' % refusal.number

    def written(self, word, room, make):
        try:
            out = make()
        except Refused as r:
            return '%s %s' % (self.refused(r), after(room, b''))
        return '%s %d %s' % (word, len(out), after(room, out))

    def line(self, command):
        if not command:
            return 'bad'
        name, body = command[0], command[1:]
        if name == 1:
            try:
                v, payload, check = read(body, self.measure)
            except Refused as r:
                return '%s - -' % self.refused(r)
            return 'taken %s %s %s' % (shown(v), text(payload), text(check))
        if name == 2:
            try:
                v, at = outer(body)
            except Refused as r:
                return self.refused(r)
            start = at if v['encrypt'] else len(body)
            return 'outer %d %d' % (start, len(body) - start)
        if name == 3:
            if len(body) < 45:
                return 'bad'
            room, n = low(body[41:43]), low(body[43:45])
            if room > 1300 or len(body) < 45 + n:
                return 'bad'
            return self.written('wrote', room, lambda: write(value(body), body[45:45 + n], body[45 + n:], room, self.measure))
        if name == 4:
            wanted, message, rest = unframe(body)
            return '%s %s %s' % ('incomplete %d' % wanted if wanted else 'message', text(message), text(rest))
        if name == 5:
            if len(body) < 2 or low(body[0:2]) > 1300:
                return 'bad'
            room = low(body[0:2])
            return self.written('wrote', room, lambda: frame(body[2:], room))
        if name == 6:
            if len(body) < 21:
                return 'bad'
            row = self.record(body)
            new = row.hear(low(body[17:21]))
            return '%s %d %016x %d %d %d' % (('new' if new else 'duplicate',) + row.fields())
        if name == 7:
            self.gateway = Gateway(self.measure)
            return 'empty'
        if name == 8:
            if len(body) < 18 or body[0] > 31:
                return 'bad'
            self.gateway.rows[body[0]] = self.record(body[1:])
            return 'put'
        if name == 9:
            return self.receive(body)
        if name == 10:
            if len(body) < 10:
                return 'bad'
            try:
                self.gateway.remove(high(body[0:8]), low(body[8:10]))
            except Refused as r:
                return self.refused(r)
            return 'removed'
        if name == 11:
            rows = [(i,) + r.fields() for i, r in enumerate(self.gateway.rows)]
            return 'rows' + ''.join(' %d:%d:%016x:%d:%d:%d' % r for r in rows if any(r[1:]))
        if name == 12:
            room = low(body[0:2])
            if len(body) < 2 or room > 1300:
                return 'bad'
            return self.written('saved', room, lambda: self.gateway.save(room))
        if name == 13:
            try:
                return 'restored %d' % self.gateway.restore(body)
            except Refused as r:
                return self.refused(r)
        return 'bad'

    def record(self, body):
        return Row(body[0] != 0, high(body[1:9]), low(body[9:11]), low(body[11:15]), low(body[15:17]))

    def receive(self, body):
        if len(body) < 23 or low(body[21:23]) > 1300:
            return 'bad'
        room = low(body[21:23])
        try:
            new, v, ack = self.gateway.receive(high(body[0:8]), high(body[8:16]), body[16], low(body[17:21]), body[23:], room)
        except Refused as r:
            return '%s %s' % (self.refused(r), after(room, b''))
        return '%s %d %s %s' % ('new' if new else 'duplicate', len(ack), after(room, ack), shown(v))


def conform(data, stage=STAGES[-1]):
    """What the program prints for a whole input, or printed at an earlier stage."""
    program, lines = Conform(stage), []
    while data:
        wanted, command, rest = unframe(data)
        if wanted:
            lines.append('cut')
            break
        lines.append(program.line(command))
        data = rest
    return ''.join(l + '\n' for l in lines)
