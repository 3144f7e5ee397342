"""Reads a file of costore by the definition of the format and of the rules of a table (docs/FORMAT.md), without the program.
The script that predicts the output for drawn files uses it."""

R48 = 1 << 48
CLASSES = 27
SIZE_MAX = 67108864
OPEN = 0xA5
SUPERBLOCK = 64
HEADER = 8488
SECTOR = 512

# Kinds of fault of a codec.
MAGIC, PARAMS, VERSION, KIND, ZEROS, COUNT, NAME, ORDER, WORN, RANGE, ENTRY, ABSENT = range(1, 13)


class Refused(Exception):
    """Why a file is no store: the kind of the answer, its number, and for a codec the position of the fault."""


def codec(fault, at): raise Refused('codec', fault, at)
def num(b, at): return int.from_bytes(b[at:at + 8], 'little')
def up(at): return -(-at // SECTOR) * SECTOR


def read(f):
    """Whether a file is still or moving; raises the refusal that comes first. What is read of a logged file is the table behind
    the log of the slot in use."""
    n = len(f)
    if n < SUPERBLOCK: raise Refused('slot', 1)
    logged = f[:8] == b'COSTLOG1'
    if not logged and f[:8] != b'COSTORE1': codec(MAGIC, 0)
    k, names = num(f, 8), num(f, 16)
    if not (2 <= k <= 64 and (32 if logged else 16) <= names <= 65536): codec(PARAMS, 0)
    if any(f[24:64]): codec(ZEROS, 0)
    slot = HEADER + 80 * names + 1
    head = SUPERBLOCK + 2 * slot + 1
    if n < head: raise Refused('slot', 1)
    if f[head - 1] != OPEN: raise Refused('slot', 2)
    starts = [SUPERBLOCK, SUPERBLOCK + slot]
    opened = [s for s in starts if f[s + slot - 1] == OPEN]
    if not opened: raise Refused('slot', 3)
    if len(opened) == 2 and num(f, starts[0] + 8) == num(f, starts[1] + 8): raise Refused('slot', 4)
    start = max(opened, key=lambda s: num(f, s + 8))
    table = Table(f, start, names, logged)
    if logged:
        table.take_log(f, start + slot - 1)
    rules(k, n - head, table)
    return 'moving' if table.kind else 'still'


def read_name(f, at):
    ln = f[at]
    if ln == 0 or ln > 63 or any(not 0x21 <= b <= 0x7e for b in f[at + 1:at + 1 + ln]): codec(NAME, at)
    if any(f[at + 1 + ln:at + 64]): codec(ZEROS, at)
    return bytes(f[at + 1:at + 1 + ln])


def read_record(f, at):
    name = read_name(f, at)
    place, size = num(f, at + 64), num(f, at + 72)
    if place >= R48 or size >= R48: codec(RANGE, at)
    return name, place, size


class Table:
    """What a header and its records say, and later what the entries behind them lead to. The objects are the place and the
    size by name."""

    def __init__(self, f, at, names, logged):
        version, self.kind, self.boundary = f[at:at + 3]
        if version not in ((3,) if logged else (1, 2)): codec(VERSION, at)
        record = 80 if version == 1 else 112
        if self.kind > 1: codec(KIND, at)
        if any(f[at + 3:at + 8]): codec(ZEROS, at)
        self.sequence = num(f, at + 8)
        self.spare = (1 << 26 if logged else 1 << 18)
        if self.sequence >= self.worn(self.kind): codec(WORN, at)
        count = num(f, at + 16)
        self.most = names // 2 if logged else 80 * names // record
        if count > self.most: codec(COUNT, at)
        self.wall, self.slack = num(f, at + 24), num(f, at + 32)
        # the capacities, and behind them for each buffer what each class has taken of it
        self.cells = [num(f, at + 40 + 8 * i) for i in range(32 + 32 * 32)]
        if max([self.wall, self.slack] + self.cells) >= R48: codec(RANGE, at)
        self.objects = {}
        before = None
        for i in range(count):
            here = at + HEADER + record * i
            name, place, size = read_record(f, here)
            if before is not None and name <= before: codec(ORDER, here)
            before = name
            self.objects[name] = (place, size)
        self.end = at + HEADER + record * count

    def worn(self, kind): return (1 << 62) - (self.spare if kind else 0)

    def take_log(self, f, slot_gate):
        """The entries behind the records, up to the first gate that isn't open."""
        top = slot_gate // SECTOR * SECTOR
        at = up(self.end)
        if at >= top: return
        self.take_gap(f, self.end, at)
        while f[at] == OPEN:
            at = self.take_entry(f, at, top)

    def take_gap(self, f, at, end):
        for i in range(at, end):
            if f[i]: codec(ZEROS, i)

    def take_entry(self, f, at, top):
        """What the entry at a position says; it answers where the next one stands."""
        kind, boundary = f[at + 1], f[at + 2]
        if kind > 1: codec(KIND, at)
        if any(f[at + 3:at + 8]): codec(ZEROS, at)
        cells, moved, gone, put = (num(f, at + 8 + 8 * i) for i in range(4))
        had = len(self.objects)
        if cells > 1056 or moved > had or gone > had or put > self.most: codec(COUNT, at)
        end = at + 56 + 16 * cells + 16 * moved + 64 * gone + 112 * put
        if up(end) >= top: codec(ENTRY, at)
        wall, slack = num(f, at + 40), num(f, at + 48)
        if max(wall, slack) >= R48: codec(RANGE, at)
        self.sequence += 1
        if self.sequence >= self.worn(kind): codec(WORN, at)
        self.kind, self.boundary, self.wall, self.slack = kind, boundary, wall, slack
        here = self.take_cells(f, at + 56, cells)
        here = self.take_changes(f, here, moved, gone, put)
        self.take_gap(f, here, up(here))
        if len(self.objects) > self.most: codec(COUNT, at)
        return up(here)

    def take_cells(self, f, at, cells):
        self.cells = [0] * len(self.cells)
        least = 0
        for _ in range(cells):
            cell, value = num(f, at), num(f, at + 8)
            if not least <= cell < len(self.cells): codec(ORDER, at)
            if not 0 < value < R48: codec(RANGE, at)
            self.cells[cell] = value
            least = cell + 1
            at += 16
        return at

    def take_changes(self, f, at, moved, gone, put):
        by_rank = sorted(self.objects)
        for _ in range(moved):
            rank, place = num(f, at), num(f, at + 8)
            if rank >= len(by_rank): codec(ABSENT, at)
            if place >= R48: codec(RANGE, at)
            self.objects[by_rank[rank]] = (place, self.objects[by_rank[rank]][1])
            at += 16
        for _ in range(gone):
            name = read_name(f, at)
            if self.objects.pop(name, None) is None: codec(ABSENT, at)
            at += 64
        for _ in range(put):
            name, place, size = read_record(f, at)
            self.objects[name] = (place, size)
            at += 112
        return at


def cls(s): return s.bit_length() - 1


def rules(k, data, table):
    """Tries the twelve rules in order."""
    def broken(r): raise Refused('rule', r)
    kind, wall, slack = table.kind, table.wall, table.slack
    recs = [table.objects[name] for name in sorted(table.objects)]
    V = table.cells[:32]
    used = [table.cells[32 + 32 * j:64 + 32 * j] for j in range(32)]
    b = table.boundary if kind else CLASSES
    B = [v // k for v in V]
    P = []
    end = 0
    for c in range(32):
        P.append(end)
        end += V[c] + B[c]
    row = [sum(r) for r in used]
    if any(s > SIZE_MAX for p, s in recs): broken(1)
    if any(s == 0 and p != 0 for p, s in recs): broken(2)
    if any(p + s > data for p, s in recs): broken(3)
    # where the layout of the classes in use ends
    if (wall if kind else P[CLASSES]) > data: broken(3)
    if kind:
        if b >= CLASSES: broken(4)
    elif table.boundary or wall or slack: broken(4)
    if any(V[c] for c in range(b, 32)): broken(5)
    if any(used[j][c] for j in range(32) for c in range(32) if j >= b or c > j): broken(5)
    if any(row[j] > B[j] for j in range(b)): broken(6)
    live = {}
    paid = [0] * 32
    for p, s in recs:
        if s == 0 or cls(s) >= b: continue
        c = cls(s)
        if P[c] <= p and p + s <= P[c] + V[c]:
            paid[c] += s
            continue
        js = [j for j in range(c, b) if P[j] + V[j] <= p and p + s <= P[j] + V[j] + row[j]]
        if not js: broken(7)
        live[js[0], c] = live.get((js[0], c), 0) + s
    for i in range(len(recs)):
        for j in range(i):
            if max(recs[i][0], recs[j][0]) < min(sum(recs[i]), sum(recs[j])): broken(8)
    for c in range(b):
        dead = 0
        for j in range(32):
            if live.get((j, c), 0) > used[j][c]: broken(9)
            dead += used[j][c] - live.get((j, c), 0)
        if V[c] - paid[c] > dead: broken(9)
    for c in range(b):
        for j in range(32):
            u = used[j][c]
            if u and (u < 1 << c or any(row[i] + (2 << c) <= B[i] for i in range(c, j))): broken(10)
    if not kind: return
    suffix = [(p, s) for p, s in recs if s and cls(s) >= b]
    L = [0] * 32
    for p, s in suffix: L[cls(s)] += s
    new_end = P[b] + sum(l + l // k for l in L)
    if new_end + slack > wall or any(s > slack for p, s in suffix): broken(11)
    low = [(p, s) for p, s in suffix if p < wall]
    for p, s in suffix:
        if not (p >= wall or (P[b] <= p and p + s <= wall)): broken(12)
    for p, s in low:
        if any(q < p and cls(t) > cls(s) for q, t in low): broken(12)
        left = wall - (p + s) - sum(t for q, t in low if q > p)
        if left != 0 and left < slack: broken(12)
