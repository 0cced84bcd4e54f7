#!/usr/bin/env python3
"""Writes the case file `stdin` and the expected output `stdout` of the program test_calls, into the folder that this file stands in.

What is expected is worked out here from document 01 and items 1 to 6 of document 02 alone. Small networks are planned by trying every setting, from every
wet basin, and every division of the wet basins, and their bound gates are looked up in all their plans; larger ones go by the theorem, gate by gate. Where
both can be had they are compared. Clusters are found by relabelling until nothing changes; of small networks the folded one must have the same plans, by
trying every setting. Two plan sheets are ordered by their settings, and cut into records to see where they part. How far the water goes is seen by letting what
lies within so many reaches grow, round every basin at once; on small networks the fewest counts of all pairs, by way of each basin in turn, must agree. The
pseudo-random sequence is fixed: the files never change by themselves.
"""
import os
from bisect import bisect
from collections import Counter
from functools import lru_cache
from itertools import product

HERE = os.path.dirname(os.path.abspath(__file__))
BASINS, REACHES = 256, 1024          # how many a network may have
MARK_BYTES = 32                     # a finding's marks
MAX_BYTES = 8000                    # what the lister reads of a file
SHEET, FILE = 4 + 3 * REACHES, 4 + 5 * REACHES         # the lengths of the longest plan sheet, and of the file of as many reaches in service
OLD, OLD_WORD = 170, 43690          # what every byte and every two-byte entry of a lent buffer holds before a call
GATED, FLAP, TWO_WAY = 0, 1, 2      # kinds in a row of a table
SHUT = 3                            # is added to the kind of a reach that is shut for works; every number over 5 is shut two-way too


# ---- networks

class Network:
    """An accepted network: by number the reaches (kind, a, b) in service, and in order the wet basins, in which these have an end. Its plans and findings
    are those of these reaches and basins; how many basins are dry, and which, does not enter. `all` are the wet basins as the ones of a number."""

    def __init__(self, reaches, try_all=True):
        self.reaches = {i: r for i, r in enumerate(reaches) if r[0] < SHUT}
        self.gates = [i for i, r in self.reaches.items() if r[0] == GATED]
        self.wet = sorted({v for _, a, b in self.reaches.values() for v in (a, b)})
        self.all = sum(1 << v for v in self.wet)
        self.small = len(self.gates) <= 12 and len(self.wet) <= 7
        self.kept = {}
        self.finding = self.find()
        assert self.finding is None or self.shows()
        if self.small and try_all:      # the theorem, and the two ways to tell what is passable and to look for a lone reach
            assert self.strong(()) == self.strong((), by_last=True)
            self.plans = [s for s in product((0, 1), repeat=len(self.gates)) if self.strong(s)]
            assert bool(self.plans) == (self.finding is None)
            assert self.finding == self.find(by_divisions=True)
            assert self.finding or self.bound_in_plans() == self.bound_by_theorem()

    def arcs(self, setting):
        """The arcs, with gates as hung; a gate past the setting's end passes either way."""
        out, g = [], 0
        for kind, a, b in self.reaches.values():
            if kind == GATED:
                way, g = (setting[g] if g < len(setting) else 2), g + 1
                if way != 1:
                    out.append((a, b))
                if way != 0:
                    out.append((b, a))
            else:
                out.append((a, b))
                if kind != FLAP:
                    out.append((b, a))
        return out

    def reached(self, arcs, start):
        """The basins reached, as the ones of a number."""
        to = [0] * (self.wet[-1] + 1)
        for a, b in arcs:
            to[a] |= 1 << b
        seen, left = 1 << start, [start]
        while left:
            new = to[left.pop()] & ~seen
            seen |= new
            while new:
                left.append(new.bit_length() - 1)
                new ^= 1 << left[-1]
        return seen

    def strong(self, setting, by_last=False):
        """Whether every wet basin reaches all wet basins. In a large network only the last is looked at, along the arcs and against them."""
        arcs = self.arcs(setting)
        if self.small and not by_last:
            return all(self.reached(arcs, v) == self.all for v in self.wet)
        return all(self.reached(way, v) == self.all for v in self.wet[-1:] for way in (arcs, [(b, a) for a, b in arcs]))

    def is_plan(self, setting):
        setting = tuple(setting)
        if setting not in self.kept:
            self.kept[setting] = setting in self.plans if self.small else self.strong(setting)
        return self.kept[setting]

    def find(self, by_divisions=False):
        """None where there is a plan, else (9, 0, marked) or (10, reach, marked), the marked basins as the ones of a number."""
        arcs = self.arcs(())
        if not self.strong(()):
            for v in self.wet:
                seen = self.reached(arcs, v)
                if seen != self.all:
                    return 9, 0, seen
        lone = self.lone_by_divisions() if by_divisions else self.lone_by_removal()
        return (10,) + lone if lone else None

    def shows(self):
        """What somebody with the map checks of a finding: its side is neither empty nor everything; for 9 every reach in service that crosses it is a flap drawn
        into it, for 10 the lone gate alone crosses it, and the lowest wet basin is outside."""
        number, lone, side = self.finding
        crossing = {i: r for i, r in self.reaches.items() if (side >> r[1] & 1) != (side >> r[2] & 1)}
        if not 0 < side < self.all or side & ~self.all:
            return False
        if number == 9:
            return all(kind == FLAP and side >> b & 1 for kind, _, b in crossing.values())
        return list(crossing) == [lone] and lone in self.gates and not side >> self.wet[0] & 1

    def lone_by_divisions(self):
        found = {}
        for others in product((0, 1), repeat=len(self.wet[1:])):          # the sides without the lowest wet basin
            side = sum(1 << v for v, other in zip(self.wet[1:], others) if other)
            crossing = [i for i, (k, a, b) in self.reaches.items() if (side >> a & 1) != (side >> b & 1)]
            if len(crossing) == 1 and self.reaches[crossing[0]][0] == GATED:
                assert crossing[0] not in found
                found[crossing[0]] = side
        return min(found.items()) if found else None

    def lone_by_removal(self):
        for i in self.gates:
            rest = [(a, b) for j, (k, a, b) in self.reaches.items() if j != i]
            seen = self.reached(rest + [(b, a) for a, b in rest], self.wet[0])
            if seen != self.all:
                return i, self.all - seen
        return None

    @lru_cache(maxsize=None)
    def complete(self, start):
        """The earliest plan that starts so, where some plan does."""
        s = list(start)
        while len(s) < len(self.gates):
            s.append(0)
            if not self.strong(s):
                s[-1] = 1
        return tuple(s)

    def next_plan(self, setting=None):
        """The earliest plan, or the earliest later than the setting; None if there is none. The network has a plan."""
        if self.small:
            later = self.plans if setting is None else self.plans[bisect(self.plans, tuple(setting)):]
            return later[0] if later else None
        if setting is None:
            return self.complete(())
        for i in reversed(range(len(self.gates))):
            if setting[i] == 0 and self.strong(tuple(setting[:i]) + (1,)):      # no lone reach: so it can be completed
                return self.complete(tuple(setting[:i]) + (1,))
        return None

    def bound(self):
        """A byte for each gate: 0 if every plan hangs it as drawn, 1 if every plan hangs it turned, else 2. The network has a plan."""
        return self.bound_in_plans() if self.small else self.bound_by_theorem()

    def bound_in_plans(self):
        return [ways[0] if len(set(ways)) == 1 else 2 for ways in zip(*self.plans)]

    @lru_cache(maxsize=None)
    def bound_by_theorem(self):
        """No reach is lone: so a gate can be hung a way exactly if the network is passable with it hung so."""
        drawn, turned = ([self.strong((2,) * i + (way,)) for i in range(len(self.gates))] for way in (0, 1))
        assert all(d or t for d, t in zip(drawn, turned))
        return [2 if d and t else 0 if d else 1 for d, t in zip(drawn, turned)]


@lru_cache(maxsize=None)
def network(reaches):
    return Network(reaches)


def table_fault(basins, reaches):
    if not 1 <= basins <= BASINS:
        return 1
    if len(reaches) > REACHES:
        return 2
    return 3 if any(a >= basins or b >= basins for _, a, b in reaches) else 0


def gates_of(reaches):
    return sum(1 for r in reaches if r[0] == GATED)


def misfits(reaches, setting):
    return len(setting) != gates_of(reaches) or any(x > 1 for x in setting)


# ---- clusters folded into one basin (document 02, item 4)

def lowest_members(basins, reaches):
    """Of each basin the lowest that two-way reaches in service join it to: each reach gives both its ends the lower of their two labels, until none changes."""
    label, changed = list(range(basins)), True
    while changed:
        changed = False
        for kind, a, b in reaches:
            if kind == TWO_WAY and label[a] != label[b]:
                label[a] = label[b] = min(label[a], label[b])
                changed = True
    return label


def clusters(basins, reaches):
    """The number of each basin's cluster."""
    label = lowest_members(basins, reaches)
    order = {low: number for number, low in enumerate(sorted(set(label)))}
    return [order[low] for low in label]


def fold(basins, reaches):
    """The folded network: (basins, reaches)."""
    number = clusters(basins, reaches)
    size, first = Counter(number), {}
    for i, (kind, a, _) in enumerate(reaches):
        if kind == TWO_WAY:
            first.setdefault(number[a], i)

    def stays(i, kind, c, d):
        if kind == FLAP:
            return c != d or size[c] == 1
        if kind == TWO_WAY:
            return size[c] == 1 or first[c] == i
        return kind == GATED

    ends = [(kind, number[a], number[b]) for kind, a, b in reaches]
    return len(size), tuple(r for i, r in enumerate(ends) if stays(i, *r))


def mark_bytes(marked):
    return [marked >> 8 * byte & 255 for byte in range(MARK_BYTES)]


# ---- the calls: each gives its number and what else it replies, and changes the buffers it is lent

def check(basins, reaches, setting):
    return table_fault(basins, reaches) or (8 if misfits(reaches, setting) else 0) or \
        ('y' if network(reaches).is_plan(setting) else 'n')


def plan_call(basins, reaches, setting, p, m):
    """First plan (no setting) or next plan, with a plan buffer of p bytes and a marks buffer of m: number, values, plan bytes, marks bytes."""
    number = table_fault(basins, reaches) or (8 if setting is not None and misfits(reaches, setting) else 0) or \
        (7 if p < gates_of(reaches) or m < MARK_BYTES else 0)
    if number:
        return number, (), (), ()
    net = network(reaches)
    if net.finding:
        number, reach, marked = net.finding
        return number, (reach, bin(marked).count('1')), (), mark_bytes(marked)
    plan = net.next_plan(setting)
    return (11, (), (), ()) if plan is None else (0, (), plan, ())


def bound_call(basins, reaches, p, m):
    """Bound gates: as first plan, but for the bytes where there is a plan."""
    number, values, plan, marks = plan_call(basins, reaches, None, p, m)
    return number, values, plan if number else network(reaches).bound(), marks


def step_call(held, basins, reaches, p, m):
    """A walker's step: as next plan, and the walker after it."""
    answer = table_fault(basins, reaches) and (table_fault(basins, reaches), (), (), ())
    answer = answer or plan_call(basins, reaches, held[:gates_of(reaches)], p, m)
    plan = answer[2]
    return answer, list(plan) + held[len(plan):]


def contract_call(basins, reaches, room):
    """The number of a refusal, or (basins, reaches) of the folded network."""
    return table_fault(basins, reaches) or (7 if room < len(reaches) else 0) or fold(basins, reaches)


def word(s, i):
    return s[i] + 256 * s[i + 1]


def two(x):
    return [x % 256, x // 256]


def low(x):
    return x % 256


def high(x):
    return x // 256


def three(x):
    return two(x % 65536) + [x // 65536]


def read_network(file):
    """The number of a refusal, or (basins, reaches)."""
    if not file:
        return 4
    if file[0] != 1:
        return 5
    if len(file) < 3:
        return 4
    basins, at, reaches = word(file, 1), 3, []
    if not 1 <= basins <= BASINS:
        return 1
    while True:
        if at == len(file):
            return 4
        kind = file[at]
        if kind == 9:
            return 6 if at + 1 < len(file) else (basins, tuple(reaches))
        if kind not in (2, 3, 4, 5):
            return 5
        size = 6 if kind == 5 else 5
        if len(file) < at + size:
            return 4
        if kind == 5 and file[at + 5] not in (2, 3, 4):
            return 5
        if len(reaches) == REACHES:
            return 2
        a, b = word(file, at + 1), word(file, at + 3)
        if a >= basins or b >= basins:
            return 3
        reaches.append((SHUT + file[at + 5] - 2 if kind == 5 else kind - 2, a, b))
        at += size


def reach_record(kind, a, b):
    return [2 + kind] + two(a) + two(b) if kind < SHUT else [5] + two(a) + two(b) + [2 + min(kind - SHUT, TWO_WAY)]


def network_file(basins, reaches):
    return [1] + two(basins) + [x for reach in reaches for x in reach_record(*reach)] + [9]


def read_sheet(basins, reaches, sheet, p):
    """The number of a refusal, or the setting."""
    fault = table_fault(basins, reaches)
    if fault:
        return fault
    gates = [i for i, r in enumerate(reaches) if r[0] == GATED]
    if not sheet:
        return 4
    if sheet[0] != 16:
        return 5
    if len(sheet) < 3:
        return 4
    if word(sheet, 1) != len(gates):
        return 8
    at, setting = 3, []
    while True:
        if at == len(sheet):
            return 4
        kind = sheet[at]
        if kind not in (9, 17, 18):
            return 5
        if kind == 9:
            break
        if len(sheet) < at + 3:
            return 4
        if len(setting) == len(gates) or word(sheet, at + 1) != gates[len(setting)]:
            return 8
        setting.append(kind - 17)
        at += 3
    if len(setting) < len(gates):
        return 8
    if at + 1 < len(sheet):
        return 6
    if not network(reaches).is_plan(setting):
        return 8
    return 7 if p < len(gates) else setting


COMPARED, PAIRS = Counter(), set()          # how often each outcome of a comparison came; the pairs of plans


def compare_call(basins, reaches, first, second):
    """The number of a refusal, or which of two plan sheets is earlier (1, 2, or 0 for neither), and the part of it from the first differing record."""
    one, other = (read_sheet(basins, reaches, sheet, REACHES) for sheet in (first, second))
    refused = [got if isinstance(got, int) else 0 for got in (one, other)]
    if any(refused):
        COMPARED['refused %d, %d' % tuple(refused)] += 1
        return refused[0] or refused[1]
    PAIRS.add((basins, reaches, tuple(one), tuple(other)))
    if one == other:
        COMPARED['equal'] += 1
        return 0, []
    earlier = 1 if tuple(one) < tuple(other) else 2
    cut = [[sheet[i:i + 3] for i in range(0, len(sheet), 3)] for sheet in (first, second)]         # a head, a record for each gate, an end of one byte
    place = [x == y for x, y in zip(*cut)].index(False)
    COMPARED['%d of %d gates, %d' % (place - 1, len(one), earlier)] += 1
    return earlier, [x for record in cut[earlier - 1][place:] for x in record]


# ---- how far the water goes (document 02, item 6)

GAUGED, NO_PLANS, UNFIT = set(), set(), Counter()       # what was asked: with a plan; with a setting that is none; how often each other refusal came


def longest_by_growth(net, setting):
    """The number of reaches within which all wet basins lie of each, under a plan. Within one more of a basin lies what lies within so many of those that
    a reach leads to from it."""
    arcs, near, count = net.arcs(setting), {v: 1 << v for v in net.wet}, 0
    while any(seen != net.all for seen in near.values()):
        wider = dict(near)
        for a, b in arcs:
            wider[a] |= near[b]
        near, count = wider, count + 1
    return count


def fewest_counts(net, setting):
    """The fewest reaches from each wet basin to each, by way of each of them in turn; as many as there are wet basins where there is no way."""
    n = len(net.wet)
    rows = [[n * (i != j) for j in range(n)] for i in range(n)]
    for a, b in net.arcs(setting):
        if a != b:
            rows[net.wet.index(a)][net.wet.index(b)] = 1
    for via in range(n):
        rows = [[min(x, row[via] + y) for x, y in zip(row, rows[via])] for row in rows]
    return rows


@lru_cache(maxsize=None)
def farthest(reaches, setting):
    return longest_by_growth(network(reaches), setting)


def diameter_call(basins, reaches, setting):
    """The number of a refusal, or the longest of the fewest counts, by itself in a row."""
    number = table_fault(basins, reaches) or (8 if misfits(reaches, setting) else 0)
    if number:
        UNFIT[number] += 1
        return number
    asked = basins, reaches, tuple(setting)
    if not network(reaches).is_plan(setting):
        NO_PLANS.add(asked)
        return 8
    GAUGED.add(asked)
    return [farthest(*asked[1:])]


def plan_sheet(reaches, setting):
    gates = [i for i, r in enumerate(reaches) if r[0] == GATED]
    return [16] + two(len(gates)) + [x for i, s in zip(gates, setting) for x in [17 + s] + two(i)] + [9]


def reply_sheet(reaches):
    net = network(reaches)
    if not net.finding:
        return plan_sheet(reaches, net.next_plan())
    number, reach, marked = net.finding
    return ([20] if number == 9 else [21] + two(reach)) + mark_bytes(marked) + [9]


def write(call, basins, reaches, setting, room):
    """The number of a refusal, or the bytes."""
    fault = table_fault(basins, reaches)
    if fault:
        return fault
    if call == 'write sheet' and check(basins, reaches, setting) != 'y':
        return 8
    out = network_file(basins, reaches) if call == 'write network' else \
        plan_sheet(reaches, setting) if call == 'write sheet' else reply_sheet(reaches)
    return 7 if room < len(out) else out


def listing(file):
    got = read_network(file[:MAX_BYTES])
    if isinstance(got, int):
        return 'refused %d\n' % got
    net = network(got[1])
    if net.finding:
        return 'refused %d\n' % net.finding[0]
    lines, plan = [], net.next_plan()
    while plan is not None and len(lines) < 1000:
        lines.append(''.join(map(str, plan)) or '-')
        plan = net.next_plan(plan)
    return '\n'.join(lines + ['end' if plan is None else 'more']) + '\n'


# ---- what is printed

FULL, BRIEF, QUIET = 0, 1, 2


class Out:
    """How much is printed: of a single call all, but for long buffers; of many the numbers, and the short buffers of those not refused; or their count."""

    listed = set()          # the last lines of all listings

    def __init__(self, mode):
        self.mode, self.number, self.run, self.sum, self.text = mode, None, 0, 0, []

    def add(self, *entries):
        total = self.sum
        for x in entries:
            total = (total * 257 + x % 65536 + 1) % 16777213
        self.sum = total

    def end_run(self):
        if self.run > 1:
            self.text.append('x%d' % self.run)

    def reply(self, number):
        self.add({'y': 16, 'n': 17}.get(number, number))
        if self.mode == QUIET or number == self.number and number not in (0, 9, 10):
            self.number, self.run = number, self.run + 1
            return
        self.end_run()
        self.text.append(' ' + (number if number in ('y', 'n') else '%x' % number))
        self.number, self.run = number, 1

    def value(self, x):
        if self.mode != QUIET and self.number in (0, 9, 10):
            self.text.append(',%d' % x)
        self.add(x)

    def row(self, entries, old=OLD):
        self.add(*entries)
        if self.mode == FULL and len(entries) <= 512 or self.mode == BRIEF and self.number == 0 and len(entries) <= 16:
            self.text.append('(' + ''.join(str(x) if x < 10 else '.' if x == old else '<%02x>' % x for x in entries) + ')')

    def listing(self, text):
        self.listed.add(text[text[:-1].rfind('\n') + 1:])
        if self.mode != QUIET:
            self.text.append('\n' + text[:2000])

    def end(self):
        self.end_run()
        return ''.join(self.text) + ' #%06x\n' % self.sum


# first plan is a walk that does not go on, a step a walker that does not
CALLS = ['table', 'check', 'walk', 'bound', 'next', 'make', 'walker', 'read network', 'write network', 'read sheet', 'write sheet', 'write reply', 'list',
         'list placed', 'contract', 'compare', 'diameter']
CODES = dict([(call, i) for i, call in enumerate(CALLS)] + [('first', 2), ('step', 6)])


def padded(front, n, old=OLD):
    """A buffer of n entries, after a call that wrote the front, and two entries beyond it."""
    return list(front) + [old] * (n + 2 - len(front))


def show_plan_call(o, answer, p, m):
    number, values, plan, marks = answer
    o.reply(number)
    for x in values:
        o.value(x)
    o.row(padded(plan, p))
    o.row(padded(marks, m))


def show_step(o, answer, held, p, m):
    show_plan_call(o, answer, p, m)
    o.row(held[:p + 2])
    o.row(held)


def show_rows(o, got, k, x, y):
    """A refusal, or a basin count and reaches; and the three rows that are lent for these."""
    o.reply(got if isinstance(got, int) else 0)
    if isinstance(got, int):
        got = (0, ())
    else:
        o.value(got[0])
        o.value(len(got[1]))
    o.row(padded([r[0] for r in got[1]], k))
    o.row(padded([r[1] for r in got[1]], x, OLD_WORD), OLD_WORD)
    o.row(padded([r[2] for r in got[1]], y, OLD_WORD), OLD_WORD)


def play(o, c, table):
    """One call, from its bytes, on a table or on that which stands in its data."""
    call, basins, k, x, y, p, m, n, limit = (CALLS[c[0]],) + tuple(word(c, i) for i in range(1, 17, 2))
    s = c[DATA:DATA + n]
    if call == 'list placed':
        call, s, table = 'list', table[2:2 + k], two(0)
    reaches = rows_of(c[DATA:DATA + word(c, 25)] if table is None else table, k, x, y)
    if call == 'table':
        o.reply(table_fault(basins, reaches))
    elif call == 'check':
        o.reply(check(basins, reaches, s))
    elif call == 'bound':
        show_plan_call(o, bound_call(basins, reaches, p, m), p, m)
    elif call == 'next':
        show_plan_call(o, plan_call(basins, reaches, s, p, m), p, m)
    elif call == 'make':
        number = check(basins, reaches, s)
        number = 0 if number in ('y', 'n') else number
        o.reply(number)
        made = s + [0] * (REACHES - len(s)) if number == 0 else [0] * REACHES
        o.row(made[:p])
        o.row(made)
    elif call == 'walk':
        setting = None
        for _ in range(1 + limit):
            answer = plan_call(basins, reaches, setting, p, m)
            show_plan_call(o, answer, p, m)
            setting = answer[2]
            if answer[0]:
                break
    elif call == 'walker':
        held = s + [OLD] * (REACHES - len(s))
        for _ in range(1 + limit):
            answer, held = step_call(held, basins, reaches, p, m)
            show_step(o, answer, held, p, m)
            if answer[0]:
                break
    elif call == 'read network':
        got = read_network(s)
        if not isinstance(got, int) and min(k, x, y) < len(got[1]):
            got = 7
        show_rows(o, got, k, x, y)
    elif call == 'contract':
        show_rows(o, contract_call(basins, reaches, min(p, m, limit)), p, m, limit)
    elif call == 'compare':
        got = compare_call(basins, reaches, s[:p], s[limit:limit + m])
        o.reply(got if isinstance(got, int) else 0)
        if not isinstance(got, int):
            o.value(got[0])
        o.row([] if isinstance(got, int) else got[1])
    elif call == 'diameter':
        got = diameter_call(basins, reaches, s[limit:limit + p])
        o.reply(got if isinstance(got, int) else 0)
        for x in () if isinstance(got, int) else got:
            o.value(x)
    elif call == 'list':
        text = listing(s)
        for at in range(0, p * limit + 1, p or 1):
            o.reply(0)
            o.value(len(text[at:at + p]))
            o.listing(text[at:at + p])
            o.row(padded(text[at:at + p].encode(), p))
    else:
        got = read_sheet(basins, reaches, s, p) if call == 'read sheet' else write(call, basins, reaches, s, p)
        o.reply(got if isinstance(got, int) else 0)
        got = () if isinstance(got, int) else got
        o.value(len(got))
        o.row(padded(got, p))


# ---- the case file

class File:
    """Rows of bytes one after the other, each as the number of its runs, in two bytes, and these. A run has the number of its plain bytes, in one byte, and of
    those after them, in two; then the plain ones. Where others are after them, a number of two bytes follows. Below BACK it is a period: so many
    bytes come again and again, each time with a step added to each; they follow, then their steps. Else BACK less is how far before the run they are copied."""

    BACK = 1024
    PERIODS = [*range(1, 25), 264, 288]         # those that are tried
    LEAST, NEAR, FAR = 6, 30, 50000             # of copies: their length, the number of places that are tried, how far back

    def __init__(self, start):
        """A file with so many bytes before its rows."""
        self.bytes, self.places, self.known = [0] * start, {}, start

    def copied(self, row, i):
        """How many bytes of the row, from byte i on, stand in the file, and where."""
        best, where = 0, 0
        for at in self.places.get(tuple(row[i:i + self.LEAST]), ())[-self.NEAR:]:
            size, most = self.LEAST, min(len(row) - i, len(self.bytes) - at)
            while size < most and row[i + size] == self.bytes[at + size]:
                size += 1
            if size > best and len(self.bytes) - at < self.FAR:
                best, where = size, at
        return best, where

    def best_runs(self, row):
        """The runs that cost the fewest bytes, each (plain bytes, number of those after them, place or period, first bytes and steps). What the bytes from each
        place on cost is found from the last place down."""
        size = len(row)
        alike = {p: [0] * (size + 1) for p in self.PERIODS}         # how many bytes go on as two periods do that start at a place
        for p, count in alike.items():
            for i in reversed(range(size - 2 * p)):
                count[i] = count[i + 1] + 1 if (row[i + 2 * p] - 2 * row[i + p] + row[i]) % 256 == 0 else 0
        cost, way = [0] * size + [3], [(0, 0)] * size
        for i in reversed(range(size)):
            ways = [(2 * p + alike[p][i], p, 5 + 2 * p) for p in self.PERIODS if alike[p][i]] + [self.copied(row, i) + (5,)]
            ways = [(more + (cost[i + after] if i + after < size else 0), after, source) for after, source, more in ways if after]
            cost[i], *way[i] = min(ways + [(1 + cost[i + 1], 0, 0)])
        runs, i, start = [], 0, 0
        while i < size:
            after, source = way[i]
            if after:
                steps = [(row[i + source + j] - row[i + j]) % 256 for j in range(source)] if source < self.BACK else []
                runs.append((row[start:i], after, source, row[i:i + source] + steps if steps else []))
            elif i - start == 254:
                runs.append((row[start:i + 1], 0, 0, []))
            i += after or 1
            start = i if after or i - start == 255 else start
        return runs + [(row[start:], 0, 0, [])] * (start < size)

    def put(self, row):
        """Writes a row at the end, and answers where."""
        start, runs = len(self.bytes), self.best_runs(row)
        self.bytes += two(len(runs))
        for plain, after, source, more in runs:
            source = two(source if source < self.BACK else self.BACK + len(self.bytes) - source)
            self.bytes += [len(plain)] + two(after) + plain + (source + more if after else [])
        for at in range(self.known, len(self.bytes) - self.LEAST + 1):
            self.places.setdefault(tuple(self.bytes[at:at + self.LEAST]), []).append(at)
        self.known = max(self.known, len(self.bytes) - self.LEAST + 1)
        assert self.row_at(start) == (row, len(self.bytes))
        return start

    def row_at(self, at):
        """The row that stands at a place, and the place after it."""
        row, count, at = [], word(self.bytes, at), at + 2
        for _ in range(count):
            run = self.bytes[at:]
            plain, after = run[0], word(run, 1)
            row, size = row + run[3:3 + plain], 3 + plain
            if after:
                source, size = word(run, size), size + 2
                if source < self.BACK:
                    first, steps, size = run[size:size + source], run[size + source:size + 2 * source], size + 2 * source
                    row += [(first[i % source] + i // source * steps[i % source]) % 256 for i in range(after)]
                else:
                    row += self.bytes[at + self.BACK - source:at + self.BACK - source + after]
            at += size
        return row, at


def table_bytes(reaches):
    """The number of reaches, a kind for each; then both ends of each, their low bytes and then their high ones."""
    ends = [z for _, a, b in reaches for z in (a, b)]
    return two(len(reaches)) + [k for k, _, _ in reaches] + [z % 256 for z in ends] + [z // 256 for z in ends]


@lru_cache(maxsize=None)
def kept_rows(s, k, x, y):
    n = word(s, 0)
    ends = [low + 256 * high for low, high in zip(s[2 + n:2 + 3 * n], s[2 + 3 * n:2 + 5 * n])] + [0] * (2 * (REACHES + 6 - n))
    return tuple(zip(s[2:2 + n][:k], ends[::2][:x], ends[1::2][:y]))


def rows_of(s, k, x, y):
    """A table whose rows are lent to such lengths; it is as long as the shortest."""
    return kept_rows(tuple(s), k, x, y)


DATA = 27           # where the data of a case stands


class Group:
    """The cases on one table, which has a number."""

    def __init__(self, title, reaches, number=None):
        self.title, self.cases, self.expected = title, [], []
        self.reaches, self.table, self.total = tuple(reaches), table_bytes(reaches), len(reaches)
        self.number = number or Family.NUMBERS + len(GROUPS)

    def hold(self, file):
        """Puts a file where the kinds of the table would stand."""
        self.table, self.total = two(len(file)) + file, 0

    def tables(self):
        """The tables, by their numbers."""
        return {self.number: self.table}

    def case(self, call, basins, data=(), p=0, m=MARK_BYTES, n=None, k=None, x=None, y=None, limit=0, vary=(), mode=None, name=None, listed=False):
        """A call, once or with variations: (field or place in the data, number of values, lowest), of which the last varies first.
        Where it is listed, the data is the table."""
        k, x, y = (self.total if z is None else z for z in (k, x, y))
        n = len(data) if n is None else n
        fields = {'call': 0, 'basins': 1, 'basins high': 2, 'k': 3, 'k high': 4, 'x': 5, 'y': 7, 'p': 9, 'p high': 10, 'm': 11, 'm high': 12, 'n': 13,
                  'limit': 15, 'limit high': 16, 'table': 17}
        vary = [(fields[v[0]] if v[0] in fields else DATA + v[0],) + tuple(v[1:]) for v in vary]
        mode = mode if mode is not None else BRIEF if vary or call == 'list' else FULL
        name = name or call
        if not self.cases:
            name = '== %s\n%s' % (self.title, name)
        count = 1
        for _, values, _ in vary:
            count *= values
        c = [CODES[call]] + [z for v in (basins, k, x, y, p, m, n, limit, 0 if listed else self.number) for z in two(v)] + \
            [mode, len(vary)] + three(count) + [len(name)] + two(len(data)) + list(data)
        self.cases.append(c + [z for place, values, lowest in vary for z in two(place) + two(values) + [lowest]] + list(name.encode()))
        assert len(self.cases[-1]) <= MAX_BYTES + 200          # the program keeps no more
        o, tables = Out(mode), self.tables()
        for i in range(count):
            d = list(c)
            for place, values, lowest in reversed(vary):
                d[place], i = (i % values + lowest) % 256, i // values
            play(o, d, None if listed else tables[word(d, 17)])
        self.expected.append(name + ':' + o.end())


class Family(Group):
    """The same cases on each of twenty tables, whose numbers are in order and differ in their low byte alone. All other tables have higher ones."""

    NUMBERS = 256 * 6

    def __init__(self, title, tables, family):
        Group.__init__(self, title, (), 256 * (family // 12) + 20 * (family % 12) + 1)
        self.all, self.total = [table_bytes(reaches) for reaches in tables], 12

    def tables(self):
        return dict(enumerate(self.all, self.number))

    def case(self, call, basins, data=(), vary=(), **more):
        Group.case(self, call, basins, data, vary=[('table', 20, self.number % 256)] + list(vary), **more)


GROUPS = []


def new_rows(n):
    """The lengths of the three rows that a folded network is written to."""
    return dict(p=n, m=n, limit=n)


def group(title, reaches):
    GROUPS.append(Group(title, reaches))
    return GROUPS[-1]


def family(title, tables, number):
    GROUPS.append(Family(title, tables, number))
    return GROUPS[-1]


def ring(basins, size, kind, odd=None):
    """Reaches of a kind from each basin to the next, round and round, of which one may be odd."""
    out = [(kind, i % basins, (i + 1) % basins) for i in range(size)]
    if odd:
        out[odd[0]] = odd[1]
    return out


class Sequence:
    """A fixed sequence of numbers (xorshift64*, its high bits)."""

    def __init__(self, seed):
        self.state = seed

    def below(self, n):
        x = self.state
        x ^= x >> 12
        x ^= x << 25 & 0xffffffffffffffff
        x ^= x >> 27
        self.state = x
        return ((x * 0x2545f4914f6cdd1d & 0xffffffffffffffff) >> 32) * n >> 32


G, F, T = GATED, FLAP, TWO_WAY
SG, SF, ST = SHUT + G, SHUT + F, SHUT + T


def letters(reaches):
    """The reaches in document 01's letters, small ones for those that are shut."""
    return ' '.join('%s%d-%d' % ('GFTgft'[min(k, ST)], a, b) for k, a, b in reaches) or 'no reach'


def settings(g):
    """A setting's bytes, in all ways."""
    return [(i, 2, 0) for i in range(g)]


def hung(g, at=0):
    """The kinds of the records of a plan sheet that stands at this place, in all ways."""
    return [(at + 3 + 3 * i, 2, 17) for i in range(g)]


def beside(first, second):
    """Two sheets to compare, with a byte behind each."""
    return dict(data=first + [0] + second + [0], p=len(first), m=len(second), limit=len(first) + 1)


def all_pairs(gr, basins):
    """The sheet of every setting beside that of every setting."""
    g = gates_of(gr.reaches)
    sheet = plan_sheet(gr.reaches, [0] * g)
    gr.case('compare', basins, vary=hung(g) + hung(g, len(sheet) + 1), mode=BRIEF if g <= 3 else QUIET, **beside(sheet, sheet))


def all_settings(gr, basins, values=3):
    """How far the water goes under every setting, with bytes over 1 too, as long as it should be, one byte shorter and one longer."""
    g = gates_of(gr.reaches)
    gr.case('diameter', basins, [0] * (g + 1), vary=[('p', 3, max(g - 1, 0))] + [(i, values, 0) for i in range(g)])


# ---- cases 1 to 11, 13: all calls on small networks

def whole(title, basins, reaches):
    """Every call on a small network, from every setting."""
    reaches = tuple(reaches)
    gr, g = group(title, reaches), gates_of(reaches)
    zeros, file = [0] * g, network_file(basins, reaches)
    gr.case('table', basins)
    gr.case('check', basins, zeros, vary=settings(g))
    gr.case('first', basins, p=g)
    gr.case('bound', basins, p=g)
    gr.case('bound', basins, vary=[('p', 3, max(g - 1, 0)), ('m', 3, MARK_BYTES - 1)])
    gr.case('next', basins, zeros, p=g, vary=settings(g))
    gr.case('walk', basins, p=g + 1, m=MARK_BYTES + 1, limit=1100, mode=BRIEF)
    gr.case('make', basins, zeros, p=g + 2, vary=settings(g))
    gr.case('step', basins, zeros, p=g, vary=settings(g))
    gr.case('walker', basins, zeros, p=g + 1, m=MARK_BYTES + 1, limit=1100, mode=BRIEF)
    gr.case('write network', basins, p=len(file))
    gr.case('read network', 0, file, k=len(reaches), x=len(reaches) + 1, y=len(reaches) + 2)
    gr.case('write reply', basins, p=MARK_BYTES + 6)
    gr.case('write reply', basins, vary=[('p', 3, len(reply_sheet(reaches)) - 1)])
    gr.case('write sheet', basins, zeros, p=4 + 3 * g, vary=settings(g))
    sheet = plan_sheet(reaches, zeros)
    gr.case('read sheet', basins, sheet, p=g, vary=hung(g))
    gr.case('read sheet', basins, reply_sheet(reaches), p=g + 1)
    all_pairs(gr, basins)
    gr.case('list', 0, file, p=len(listing(file)) + 16)
    gr.case('contract', basins, **new_rows(len(reaches)))
    all_settings(gr, basins)


whole('case 1: one basin, no reach', 1, [])
whole('case 2: two basins, G 0-1', 2, [(G, 0, 1)])
whole('case 3: two basins, G 0-1 twice', 2, [(G, 0, 1), (G, 0, 1)])
whole('case 4: two basins, T 0-1', 2, [(T, 0, 1)])
whole('case 5: two basins, F 0-1', 2, [(F, 0, 1)])
whole('case 6: two basins, no reach', 2, [])
whole('case 7: G 0-1, G 1-2, G 2-0', 3, [(G, 0, 1), (G, 1, 2), (G, 2, 0)])
whole('case 8: F 1-0, G 0-1', 2, [(F, 1, 0), (G, 0, 1)])
whole('case 9: one basin, G 0-0', 1, [(G, 0, 0)])
whole('case 10: G 0-1, T 1-2', 3, [(G, 0, 1), (T, 1, 2)])
whole('case 11: F 0-1, G 1-2', 3, [(F, 0, 1), (G, 1, 2)])
whole('case 13: four basins, all six pairs gated', 4, [(G, a, b) for a in range(4) for b in range(a + 1, 4)])


# ---- the same with reaches shut for works (document 02, item 1)

whole('case 1 with shut loops of every kind, and of numbers 6 and 255', 1, [(k, 0, 0) for k in (SG, SF, ST, 6, 255)])
whole('case 2 with its gate shut', 2, [(SG, 0, 1)])
whole('case 3 with its first gate shut', 2, [(SG, 0, 1), (G, 0, 1)])
whole('case 3 with a shut reach of every kind between', 2, [(G, 0, 1), (SG, 1, 0), (SF, 0, 1), (ST, 0, 1), (G, 0, 1)])
for k in (ST, 6, 255):
    whole('case 2 with a shut two-way reach beside its gate, by number %d' % k, 2, [(G, 0, 1), (k, 1, 0)])
whole('case 5 with a shut flap back', 2, [(F, 0, 1), (SF, 1, 0)])
whole('case 7 with reach 1 shut', 3, [(G, 0, 1), (SG, 1, 2), (G, 2, 0)])
whole('case 8 with its flap shut', 2, [(SF, 1, 0), (G, 0, 1)])
whole('case 9 with its gate shut', 1, [(SG, 0, 0)])
whole('case 10 with a shut two-way reach beside its gate', 3, [(ST, 0, 1), (G, 0, 1), (T, 1, 2)])
whole('case 11 with a shut two-way reach back', 3, [(F, 0, 1), (ST, 2, 0), (G, 1, 2)])
whole('case 13 with its third gate shut', 4, [(SG if (a, b) == (0, 3) else G, a, b) for a in range(4) for b in range(a + 1, 4)])
gr = group('case 2 with a reach of each number beside its gate', [])
for call in ('walk', 'bound', 'write network', 'write reply', 'contract'):
    gr.case(call, 2, table_bytes([(G, 0, 1), (G, 1, 0)]), p=MARK_BYTES + 6, k=2, x=2, y=2, limit=3, vary=[(3, 256, 0)], mode=QUIET, listed=True)


# ---- dry basins (document 02, item 3): with no reach in service, below, between and above the wet ones, and with ends of shut reaches

def moved(reaches, first, step=1):
    """The same reaches with basin v numbered first + step * v."""
    return [(kind, first + step * a, first + step * b) for kind, a, b in reaches]


def cuts(title, basins, reaches):
    """Every call on a table, cut at each length, with as many basins and with one more, from every setting of every length."""
    reaches = tuple(reaches)
    gr, g = group(title, reaches), gates_of(reaches)
    zeros, sheet = [0] * g, plan_sheet(reaches, [0] * g)
    vary = [('k', len(reaches) + 1, 0), ('basins', 2, basins % 256)]
    any_setting = vary + [('n', g + 1, 0)] + settings(g)
    gr.case('table', basins, vary=vary)
    gr.case('first', basins, p=g, vary=vary, mode=FULL)
    gr.case('bound', basins, p=g, vary=vary)
    gr.case('walk', basins, p=g, limit=20, vary=vary)
    gr.case('check', basins, zeros, vary=any_setting)
    gr.case('next', basins, zeros, p=g, vary=any_setting, mode=QUIET)
    gr.case('make', basins, zeros, p=g, vary=any_setting, mode=QUIET)
    gr.case('walker', basins, zeros, p=g, limit=20, vary=any_setting, mode=QUIET)
    gr.case('write network', basins, p=60, vary=vary)
    gr.case('write reply', basins, p=MARK_BYTES + 6, vary=vary, mode=FULL)
    gr.case('write sheet', basins, zeros, p=4 + 3 * g, vary=any_setting, mode=QUIET)
    gr.case('read sheet', basins, [16, 0, 0, 9], p=g, vary=vary)
    gr.case('read sheet', basins, sheet, p=g, vary=vary + hung(g))
    gr.case('compare', basins, vary=vary + hung(g) + hung(g, len(sheet) + 1), mode=QUIET, **beside(sheet, sheet))
    gr.case('contract', basins, vary=vary, **new_rows(len(reaches)))
    gr.case('diameter', basins, zeros, vary=vary + [('p', g + 1, 0)] + settings(g))


whole('case 4 with its reach shut', 2, [(ST, 0, 1)])
whole('two basins, a gated loop at 1', 2, [(G, 1, 1)])
whole('two basins, a gated loop at each', 2, [(G, 0, 0), (G, 1, 1)])
whole('seven basins, case 7 at 1, 3 and 5, and shut reaches', 7, [(SG, 0, 3)] + moved([(G, 0, 1), (G, 1, 2), (G, 2, 0)], 1, 2) + [(ST, 2, 6)])
whole('seven basins, case 10 at 1, 3 and 5', 7, moved([(G, 0, 1), (T, 1, 2)], 1, 2))
whole('seven basins, case 11 at 1, 3 and 5', 7, moved([(F, 0, 1), (G, 1, 2)], 1, 2))
whole('%d basins, no reach' % BASINS, BASINS, [])
cuts('dry basins: loops at the second of two, then at the first', 2, [(SG, 0, 1), (F, 1, 1), (T, 1, 1), (G, 1, 1), (F, 0, 0), (T, 1, 0)])
cuts('dry basins: lone reaches', 8, [(ST, 0, 3), (G, 5, 3), (T, 5, 6), (G, 3, 5), (G, 6, 2), (SF, 7, 1), (F, 2, 5)])
cuts('dry basins: shut in', 9, [(T, 6, 6), (F, 6, 3), (G, 3, 6), (F, 3, 5), (SG, 0, 8), (F, 1, 7), (T, 7, 5), (F, 6, 1), (G, 5, 3)])
LAST = BASINS - 1
cuts('%d basins: shut reaches, then a flap and gates at the last two' % BASINS, BASINS,
     [(SG, 0, LAST), (255, LAST - 1, 1), (F, LAST, LAST - 1), (G, LAST - 1, LAST), (G, LAST - 1, LAST - 1)])
cuts('%d basins: gates at the last two' % BASINS, BASINS, [(G, LAST, LAST - 1), (G, LAST, LAST - 1)])

line = moved([(T, v, v + 1) for v in range(42) if v != 20] + [(SG, 20, 21), (G, 21, 20), (F, 20, 21)], 3, 6)
gr = group('%d basins: two lines at every sixth, then a shut gate, a gate and a flap between' % BASINS, line)
for call in ('first', 'bound', 'write reply'):
    gr.case(call, BASINS, p=MARK_BYTES + 6, vary=[('k', 4, 41)], mode=FULL)
gr.case('contract', BASINS, vary=[('k', 4, 41)], mode=FULL, **new_rows(44))
gr.case('diameter', BASINS, [0], vary=[('k', 4, 41), ('p', 2, 0), (0, 2, 0)])

file = network_file(4, [(G, 1, 3), (G, 3, 1)])
gr = group('dry basins: files of G1-3 and another reach, with four and five basins', [])
for call, more in (('list', dict(p=20)), ('read network', dict(k=2, x=2, y=2, mode=QUIET))):
    gr.case(call, 0, file, vary=[(1, 2, 4), (8, 3, 2), (9, 4, 0), (11, 4, 0)], **more)

# a table gets the same replies at every basin count that is over its ends
gr = group('dry basins: each basin count to %d' % (BASINS + 255), [(SG, 0, 3), (G, 5, 3), (F, 5, 3), (G, 2, 5), (G, 3, 2)])
counts = [('basins high', high(BASINS) + 1, 0), ('basins', 256, 0)]
for call in ('first', 'bound', 'write reply'):
    gr.case(call, 0, p=MARK_BYTES + 6, vary=[('k', 6, 0)] + counts, mode=QUIET)
gr.case('check', 0, [0, 0, 0], vary=[(0, 2, 0), (2, 2, 0)] + counts)
gr.case('next', 0, [0, 0, 0], p=3, vary=[(0, 2, 0), (2, 2, 0)] + counts, mode=QUIET)
gr.case('diameter', 0, [0, 0, 0], p=3, vary=[(0, 2, 0), (2, 2, 0)] + counts, mode=QUIET)
gr.case('diameter', 6, [0, 0, 0], p=3, vary=[(1, 256, 0)])


# ---- case 12: the limits

# basins: none, one, as many as may be, one more; reaches: as many as may be, one more
ONE_MORE = ('k', 2, low(REACHES))
EDGES = [('basins high', high(BASINS) + 1, 0), ('basins', 2, low(BASINS)), ONE_MORE]

for title, kind in (('flaps', F), ('two-way reaches', T), ('shut gates', SG)):
    gr = group('case 12: %s round a ring of %d basins' % (title, BASINS), ring(BASINS, REACHES + 2, kind))
    for call in ('table', 'check', 'first', 'bound', 'next', 'make', 'step', 'write reply', 'write sheet'):
        gr.case(call, 0, p=4, k=REACHES, vary=EDGES)
    gr.case('read sheet', 0, [16, 0, 0, 9], p=0, k=REACHES, vary=EDGES)
    gr.case('compare', 0, k=REACHES, vary=EDGES + [('p', 3, 3), ('m', 3, 3)], **beside([16, 0, 0, 9], [16, 0, 0, 9]))
    length = len(network_file(BASINS, gr.reaches[:REACHES]))
    gr.case('write network', 0, p=length, k=REACHES, vary=EDGES)
    gr.case('write network', BASINS, p=length - 1, k=REACHES, vary=[('p', 3, low(length - 1))])
    gr.case('first', BASINS, k=BASINS)
    gr.case('bound', BASINS, k=BASINS)
    gr.case('contract', 0, k=REACHES, vary=EDGES, **new_rows(REACHES))
    gr.case('contract', 0, k=REACHES, vary=EDGES, **new_rows(REACHES - 1))
    gr.case('diameter', 0, [0], k=REACHES, vary=EDGES + [('p', 2, 0)])
    gr.case('diameter', BASINS, k=BASINS - 1, vary=[('k high', 2, high(BASINS - 1))])

gr = group('case 12: gates round a ring of %d basins, four times' % BASINS, ring(BASINS, REACHES + 2, G))
zeros = [0] * (REACHES + 1)
gr.case('first', 0, p=REACHES, k=REACHES, vary=EDGES)
gr.case('first', BASINS, p=REACHES - 1, k=REACHES, vary=[('m', 3, MARK_BYTES - 1)])
gr.case('first', BASINS, p=REACHES, k=REACHES, vary=[('p', 3, low(REACHES)), ('m', 3, MARK_BYTES - 1)])
gr.case('bound', 0, p=REACHES, k=REACHES, vary=EDGES)
gr.case('bound', BASINS, p=REACHES - 1, k=REACHES, vary=[('m', 3, MARK_BYTES - 1)])
gr.case('bound', BASINS, p=REACHES, k=REACHES, vary=[('p', 3, low(REACHES)), ('m', 3, MARK_BYTES - 1)])
gr.case('check', BASINS, zeros, n=REACHES, k=REACHES, vary=[ONE_MORE, ('n', 2, low(REACHES)), (REACHES - 1, 3, 0)])
gr.case('next', BASINS, zeros, n=REACHES, p=REACHES, k=REACHES, vary=[ONE_MORE, ('n', 2, low(REACHES)), (REACHES - 1, 3, 0)])
gr.case('make', BASINS, zeros, n=REACHES, p=16, k=REACHES, vary=[ONE_MORE, ('n', 2, low(REACHES)), (REACHES - 1, 3, 0)])
gr.case('step', BASINS, zeros[:REACHES], p=REACHES, k=REACHES, vary=[ONE_MORE, (REACHES - 1, 3, 0)])
gr.case('write sheet', BASINS, zeros, n=REACHES, p=SHEET, k=REACHES, vary=[ONE_MORE, ('n', 2, low(REACHES)), ('p', 3, low(SHEET - 1))])
gr.case('read sheet', BASINS, plan_sheet(gr.reaches[:REACHES], zeros[:REACHES]), p=REACHES, k=REACHES, vary=[ONE_MORE, (3 + 3 * (REACHES - 1), 2, 17)])
sheet = plan_sheet(gr.reaches[:REACHES], [int(i in (BASINS, 3 * BASINS)) for i in range(REACHES)])         # no plan if gates 0 and 2 * BASINS are turned too
varied = [(at + 3 + 3 * gate, 2, 17) for at in (0, SHEET + 1) for gate in (0, 2 * BASINS, REACHES - 1)]
gr.case('compare', 0, k=REACHES, vary=EDGES + [('p', 3, low(SHEET - 1)), ('m', 3, low(SHEET - 1))] + varied, **beside(sheet, sheet))
gr.case('walk', BASINS, p=REACHES, k=REACHES, limit=2)
gr.case('walker', BASINS, zeros[:REACHES], p=REACHES, k=REACHES, limit=2)
gr.case('table', BASINS, k=REACHES + 1, x=REACHES, y=REACHES + 2)
gr.case('table', BASINS, k=REACHES + 2, x=REACHES + 2, y=REACHES + 1)
gr.case('contract', BASINS, k=REACHES, vary=[(row + ' high', 2, high(REACHES) - 1) for row in ('p', 'm', 'limit')], **new_rows(REACHES))
# once round as drawn, turned, and in part turned, which is no plan; twice round, as drawn and turned
gr.case('diameter', BASINS, [0] * BASINS + [1] * BASINS, k=low(BASINS),
        vary=[('k high', 2, high(BASINS)), ('p high', 2, high(BASINS)), ('limit high', 2, 0), ('limit', 256, 0)])

for odd in ((G, BASINS, 0), (G, 0, LAST), (F, 0, LAST), (T, 0, LAST), (SF, 0, LAST), (SG, 700 % LAST, 701 % LAST)):
    gr = group('gates round a ring of %d basins, and reach 700 is %s' % (LAST, letters([odd])), ring(LAST, REACHES + 1, G, (700, odd)))
    gr.case('table', 0, k=REACHES, vary=EDGES)
    gr.case('first', BASINS, p=REACHES, k=REACHES)
    gr.case('bound', LAST, p=REACHES, k=REACHES, vary=[('basins high', high(BASINS) + 1, 0), ('basins', 2, low(LAST))])
    gr.case('write reply', 0, p=SHEET, k=REACHES, vary=EDGES)
    gr.case('write reply', BASINS, p=SHEET - 4, k=REACHES, vary=[('p', 5, low(SHEET - 4))])
    gr.case('write reply', BASINS, k=REACHES, vary=[('p', 6, MARK_BYTES)])
    gr.case('write reply', LAST, p=SHEET, k=REACHES)
    gr.case('write network', BASINS, p=FILE + 1, k=REACHES)
    gr.case('contract', 0, k=REACHES, vary=EDGES, **new_rows(REACHES))
    gr.case('contract', 0, k=REACHES, vary=EDGES + [('m', 2, low(REACHES - 1))], p=REACHES + 4, m=REACHES - 1, limit=REACHES + 2)

for odd in [(kind, a, b) for kind in (F, ST) for a, b in ((3, 3), (3, 4), (4, 3), (4, 4), (65535, 0))]:
    gr = group('case 12: flaps round a ring of four basins, and ' + letters([odd]), ring(4, 4, F) + [odd])
    for call in ('table', 'check', 'first', 'bound', 'next', 'make', 'step', 'write network', 'write sheet', 'write reply'):
        gr.case(call, 4, p=30)
    gr.case('read sheet', 4, [16, 0, 0, 9], p=0)
    gr.case('compare', 4, vary=[(0, 2, 16), (5, 2, 16)], **beside([16, 0, 0, 9], [16, 0, 0, 9]))

for place, odd in ((245, (G, 245, 246)), (9, (F, 10, 9)), (0, (F, 0, 1)), (100, (ST, 100, 101))):
    gr = group('%d basins in a line of two-way reaches, and reach %d is %s' % (BASINS, place, letters([odd])), ring(BASINS, LAST, T, (place, odd)))
    gr.case('first', BASINS, p=1)
    gr.case('bound', BASINS, p=1)
    gr.case('next', BASINS, [0] * gates_of(gr.reaches), p=1, m=MARK_BYTES + 2)
    gr.case('write reply', BASINS, p=MARK_BYTES + 4)
    gr.case('contract', BASINS, **new_rows(LAST))


# ---- case 14: a 16 by 16 grid, row by row the reaches to the right, then those down

grid = [r for row in range(0, 256, 16) for r in [(G, v, v + 1) for v in range(row, row + 15)] + [(G, v, v + 16) for v in range(row, row + 16) if row < 240]]
for title, reaches in (('', grid), (' with reach 100 shut', grid[:100] + [(SG,) + grid[100][1:]] + grid[101:])):
    g = gates_of(reaches)
    gr = group('case 14: a 16 by 16 grid' + title, reaches)
    gr.case('walk', 256, p=g, limit=10)
    gr.case('walker', 256, [0] * g, p=g, limit=10)
    gr.case('bound', 256, p=g)
    gr.case('check', 256, network(gr.reaches).next_plan(), vary=[(g - 1, 2, 0)])
    gr.case('diameter', 256, network(gr.reaches).next_plan(), p=g, vary=[(g - 1, 2, 0)])
    gr.case('write reply', 256, p=4 + 3 * g)


# ---- bound gates (document 02, item 2), with the bytes that are seen by hand

def reaches_of(text):
    """The reaches that letters() writes so."""
    return [('GFTgft'.index(r[0]),) + tuple(map(int, r[1:].split('-'))) for r in text.split()]


def bound(title, basins, reaches, *expected):
    """A table and its bytes, or two: of the table without its last reach, and whole."""
    gr = group('bound gates: ' + title, reaches)
    for k, text in enumerate(expected, len(reaches) - len(expected) + 1):
        g = len(text)
        assert network(gr.reaches[:k]).bound() == [int(x) for x in text]
        gr.case('bound', basins, p=g, k=k)
        gr.case('bound', basins, p=g - 1, k=k, vary=[('p', 3, low(g - 1)), ('m', 3, MARK_BYTES - 1)])
        gr.case('walk', basins, p=g, k=k, limit=7)


bound('case 8 with its flap turned', 2, reaches_of('F0-1 G0-1'), '1')
bound('case 8 with a shut flap that would free the gate', 2, reaches_of('f0-1 F1-0 G0-1'), '0')
bound('case 8 with a two-way reach beside', 2, reaches_of('F1-0 G0-1 T0-1'), '2')
bound('case 8 with loops of every kind, and two shut gates', 2, reaches_of('g0-1 G0-0 F1-0 G0-1 F0-0 g1-0 T1-1 G1-1'), '202')
bound('case 7 with reach 0 a flap and reach 2 the other way, then a gate beside the flap', 3, reaches_of('F0-1 G1-2 G0-2 G0-1'), '01', '222')
bound('two rings of gates, one with a flap', 5, reaches_of('G1-2 G3-4 F0-1 G0-2 G4-0 G0-3'), '02122')
bound('the example bound-gates', 6, reaches_of('G1-4 F3-0 G0-1 G4-5 G2-1 g0-2 G5-1 G2-3 G1-5'), '2021202')
bound('case 7 with a flap among dry basins, then a gate beside the flap', 9, reaches_of('t0-4 g6-8 F3-5 G7-5 G7-3 G3-5'), '10', '222')

# every third gate of the line is drawn the other way; on it are loops, and beside it shut gates; a gate beside the flap frees all
line = [r for v in range(LAST) for r in [(G, v + 1, v) if v % 3 == 0 else (G, v, v + 1)] + [(SG, v, v + 1), (G, v, v)] * (v % 50 == 7)] + [(F, LAST, 0)]
bound('a line of %d basins and a flap back, then a gate beside the flap' % BASINS, BASINS, line + [(G, 0, LAST)],
      ''.join('100'[v % 3] + '2' * (v % 50 == 7) for v in range(LAST)), '2' * (gates_of(line) + 1))

# with flaps at three corners of the grid, which bind the other reach of each; at the fourth a reach of each kind, and shut
corners = [(F,) + r[1:] if i in (30, 449, 479) else r for i, r in enumerate(grid)]
for kind, more in ((G, {}), (F, {15: 1}), (T, {})):
    net = network(((kind, 0, 1),) + tuple(corners[1:]))
    assert {i: x for i, x in zip(net.gates, net.bound()) if x < 2} == {14: 0, 464: 1, 465: 0, **more}
gr = group('bound gates: a 16 by 16 grid with flaps at its corners', [])
gr.case('bound', 256, table_bytes(corners), p=480, k=480, x=480, y=480, vary=[(2, 4, 0)], mode=FULL, listed=True)


# ---- refusals and their order: the table, the setting, the buffers, then what the network gets

TABLES = [('three basins, with plans', [(G, 0, 1), (F, 0, 1), (T, 1, 2), (SG, 1, 2), (G, 1, 2), (G, 2, 0)]),
          ('a stray end A', [(G, BASINS + 44, 1), (F, 0, 1), (T, 1, 2), (255, 1, 2), (G, 1, 2), (G, 2, 0)]),
          ('a stray end B', [(G, 0, 1), (F, 0, 1), (T, 1, 2), (SF, 1, 2), (G, 1, 2), (G, 2, 65535)]),
          ('a stray end A, shut', [(G, 0, 1), (F, 0, 1), (T, 1, 2), (SG, BASINS + 44, 2), (G, 1, 2), (G, 2, 0)]),
          ('a stray end B, shut', [(G, 0, 1), (255, 0, 65535), (T, 1, 2), (F, 1, 2), (G, 1, 2), (G, 2, 0)]),
          ('three basins, a lone reach', [(G, 0, 1), (F, 0, 1), (F, 1, 0), (7, 1, 2), (G, 1, 2), (G, 0, 1)]),
          ('three basins, shut in', [(G, 0, 1), (F, 1, 2), (SF, 2, 0), (F, 1, 2), (G, 1, 0), (G, 0, 1)])]

for title, reaches in TABLES:
    gr = group('order: ' + title, reaches + [(G, 0, 9), (G, 9, 0)])
    at_six = dict(k=6, x=6, y=6)
    table, setting, rooms = [('basins high', high(BASINS) + 1, 0), ('basins', 5, 0)], [('n', 3, 2), (2, 3, 0)], [('p', 3, 2), ('m', 3, MARK_BYTES - 1)]
    gr.case('table', 3, vary=table, **at_six)
    gr.case('check', 3, [0, 0, 0, 0], vary=table + setting, **at_six)
    gr.case('first', 3, vary=table + rooms, **at_six)
    gr.case('bound', 3, vary=table + rooms, **at_six)
    gr.case('next', 3, [0, 0, 0, 0], vary=table + setting + rooms, **at_six)
    gr.case('next', 3, [1, 1, 0, 0], vary=[('basins', 3, 2)] + setting + rooms, **at_six)
    gr.case('make', 3, [0, 1, 0, 0], p=5, vary=table + setting, **at_six)
    gr.case('step', 3, [0, 0, 0, 0], n=4, vary=table + [(2, 3, 0), (3, 3, 0)] + rooms, **at_six)
    gr.case('step', 3, [1, 1, 0, 0], n=3, vary=[('basins', 3, 2), (2, 3, 0)] + rooms, **at_six)
    gr.case('write network', 3, vary=table + [('p', 3, len(network_file(3, reaches)) - 1)], **at_six)
    gr.case('write reply', 3, vary=table + [('p', MARK_BYTES - 5, 12)], **at_six)
    gr.case('write sheet', 3, [0, 0, 0, 0], vary=table + setting + [('p', 3, 12)], **at_six)
    sheet = plan_sheet(reaches, [0, 0, 0])
    gr.case('read sheet', 3, sheet + [0], vary=table + [('n', 4, 11), (9, 4, 16), ('p', 3, 2)], **at_six)
    gr.case('compare', 3, vary=table + [('p', 3, 12), (9, 4, 16), ('m', 3, 12), (23, 4, 16)], **beside(sheet, sheet), **at_six)
    gr.case('diameter', 3, [0, 0, 0, 0], vary=table + [('p', 3, 2), (1, 2, 0), (2, 3, 0)], **at_six)
    lengths = [('k', 4, 5), ('x', 4, 5), ('y', 4, 5)]
    gr.case('table', 3, vary=lengths)
    gr.case('first', 3, p=8, vary=lengths)
    gr.case('bound', 3, p=8, vary=lengths)
    gr.case('write network', 3, p=40, vary=lengths)
    gr.case('check', 3, [0, 0, 0, 0, 0], vary=lengths + [('n', 3, 2)])
    gr.case('read sheet', 3, sheet, p=8, vary=lengths)
    gr.case('compare', 3, vary=lengths + [(9, 2, 17), (23, 2, 17)], **beside(sheet, sheet))
    rows = [('p', 3, 5), ('m', 3, 5), ('limit', 3, 5)]
    gr.case('contract', 3, vary=table + rows, **at_six)
    gr.case('contract', 3, vary=lengths + rows, mode=QUIET)
    gr.case('contract', 3, vary=lengths, p=8, m=9, limit=10)
    gr.case('diameter', 3, [0, 0, 0, 0, 0], vary=lengths + [('p', 3, 2)])


# ---- small networks of a fixed sequence, all different

NUMBERS = Sequence(20261126)
DRAWN = {}


def are_new(networks):
    """Whether these networks differ from each other and from all that were drawn, in more than the number of a shut two-way reach; they are now drawn."""
    drawn = {(basins, tuple((min(k, ST), a, b) for k, a, b in reaches)): reaches for basins, reaches in networks}
    if len(drawn) < len(networks) or drawn.keys() & DRAWN.keys():
        return False
    DRAWN.update(drawn)
    return True


def draw_ends(basins):
    """The basins that ends may name: all, or one time in three some by lot, so that the others are dry."""
    some = [v for v in range(basins) if NUMBERS.below(4)] if NUMBERS.below(3) == 0 else []
    return some or list(range(basins))


def draw_reaches(ends, gates, size):
    """Reaches of which so many are gated, the others flaps, two-way reaches and shut ones of any number; places, kinds and ends by lot."""
    kinds = [G] * gates + [(F, F, T, T, SHUT + NUMBERS.below(3), SHUT + NUMBERS.below(253))[NUMBERS.below(6)] for _ in range(size - gates)]
    for i in reversed(range(size)):
        j = NUMBERS.below(i + 1)
        kinds[i], kinds[j] = kinds[j], kinds[i]
    return tuple((kind, ends[NUMBERS.below(len(ends))], ends[NUMBERS.below(len(ends))]) for kind in kinds)


def outcome(reaches):
    return (Network(reaches, try_all=False).finding or (0,))[0]


def draw_network(basins, gates, number):
    """A new network of up to twelve reaches whose first-plan reply has this number."""
    while True:
        reaches = draw_reaches(draw_ends(basins), gates, gates + NUMBERS.below(13 - gates))
        if outcome(reaches) == number and are_new([(basins, reaches)]):
            return reaches


def outcomes(basins, gates):
    """The numbers that networks with so many basins and gates can get."""
    return [0] + [9] * (basins > 1) + [10] * (basins > 1 and gates > 0)


def some_settings(g):
    """A setting by lot, and which of its bytes go in all ways: up to seven, at both ends."""
    return [NUMBERS.below(2) for _ in range(g)], [(i, 2, 0) for i in range(g) if i < 2 or i >= g - 5]


# one network of each number of basins and gates, with what is replied

for basins, g in product(range(1, 7), range(11)):
    numbers = outcomes(basins, g)
    reaches = draw_network(basins, g, numbers[(basins + g) % len(numbers)])
    gr = group('%d basins, %s' % (basins, letters(reaches)), reaches)
    zeros = [0] * g
    gr.case('first', basins, p=g)
    gr.case('bound', basins, p=g)
    gr.case('check', basins, zeros, vary=settings(g))
    if network(reaches).finding is None:
        gr.case('walk', basins, p=g, limit=1100, mode=BRIEF)
        if g <= 6:
            gr.case('next', basins, zeros, p=g, vary=settings(g))
        if g <= 4:
            gr.case('step', basins, zeros, p=g, vary=settings(g))
    gr.case('write reply', basins, vary=[('p', 3, len(reply_sheet(reaches)) - 1)])
    if g <= 5:
        all_pairs(gr, basins)

# twenty more of each, ten with plans: the first replies, and the sums of all others; steps and reply sheets with a basin more too, which is dry

for f, (basins, g) in enumerate(product(range(2, 7), range(11))):
    numbers = outcomes(basins, g)
    numbers = [0] * 10 + numbers[1:] * (10 // len(numbers[1:]))
    gr = family('twenty networks of %d basins and %d gates' % (basins, g), [draw_network(basins, g, number) for number in numbers], f)
    setting, vary = some_settings(g)
    gr.case('first', basins, p=g)
    gr.case('bound', basins, p=g)
    gr.case('walk', basins, p=g, limit=1100, mode=QUIET)
    gr.case('check', basins, setting, vary=vary, mode=QUIET)
    gr.case('next', basins, setting, p=g, vary=vary, mode=QUIET)
    gr.case('walker', basins, [0] * g, p=g, limit=40, mode=QUIET)
    gr.case('step', basins, setting, p=g, vary=[('basins', 2, basins)] + vary[-3:], mode=QUIET)
    gr.case('write reply', basins, p=MARK_BYTES + 8, vary=[('basins', 2, basins)], mode=QUIET)
    gr.case('contract', basins, vary=[('basins', 2, basins)], mode=QUIET, **new_rows(12))
    if g <= 8:
        gr.case('diameter', basins, [0] * g, p=g, vary=settings(g), mode=QUIET)

# many more, 168 from each eleven reaches: the first two of all kinds, and shut (the first of all kinds, the second by number 255), and cut at five to
# eleven; the sums of all their plans and of the bytes of their gates. Of the first for each number of basins the other nine are shut, so that most are dry

def draw_base(basins, all_shut):
    """Eleven reaches from which only new networks are so made."""
    while True:
        ends = draw_ends(basins)
        base = draw_reaches(ends, 0, 2) + draw_reaches(ends, NUMBERS.below(9), 9)
        base = tuple((k + SHUT if all_shut and k < SHUT else k, a, b) for k, a, b in base)
        varied = [tuple((k, a, b) for k, (_, a, b) in zip(kinds, base)) + base[2:] for kinds in product(range(6), (255, G, F, T))]
        if are_new([(basins, reaches[:cut]) for reaches in varied for cut in range(5, 12)]):
            return base


gr = group('tables of eleven reaches, the first two of all kinds and shut, cut at five to eleven reaches', [])
for basins in range(2, 7):
    for i in range(25):
        gr.case('walk', basins, table_bytes(draw_base(basins, i == 0)), p=10, k=0, x=11, y=11, limit=1100,
                vary=[('call', 2, CODES['walk']), ('k', 7, 5), (2, 6, 0), (3, 4, 255)], mode=QUIET, listed=True, name='%d basins' % basins)


# the law of bound gates: nine networks of nine gates, with every gate made a flap as drawn and turned, and with every gate drawn the other way

def made_flap(reaches, i, turned):
    """The same with reach i made a flap, as drawn or turned."""
    _, a, b = reaches[i]
    return reaches[:i] + ((F, b, a) if turned else (F, a, b),) + reaches[i + 1:]


def law_holds(reaches):
    """Of a network with a plan: "a reach made a flap as drawn leaves a plan exactly if its byte isn't 1, made a flap turned exactly if it isn't 0"."""
    net = network(reaches)
    return all(bool(network(made_flap(reaches, i, turned)).plans) == (byte != 1 - turned)
               for i, byte in zip(net.gates, net.bound()) for turned in (0, 1))


def draw_law(basins):
    """The twenty networks, all new; of the first some gates are bound each way, and some are free."""
    while True:
        reaches = draw_reaches(draw_ends(basins), 9, 9 + NUMBERS.below(4))
        net = Network(reaches, try_all=False)
        if not net.finding and len(set(net.bound_by_theorem())) == 3:
            flaps = [made_flap(reaches, i, turned) for i in net.gates for turned in (0, 1)]
            tables = [reaches] + flaps + [tuple((k, b, a) if k == G else (k, a, b) for k, a, b in reaches)]
            if are_new([(basins, t) for t in tables]):
                return tables


for f in range(9):
    basins = 5 + f % 3
    tables = draw_law(basins)
    gr = family('%d basins, %s; each gate a flap' % (basins, letters(tables[0])), tables, 55 + f)
    gr.case('bound', basins, p=9)
    gr.case('walk', basins, p=9, limit=600, mode=QUIET)
    assert law_holds(tables[0])
    assert network(tables[-1]).bound() == [(1, 0, 2)[byte] for byte in network(tables[0]).bound()]


# all are different, and each shape and each state came often

def served(reaches):
    """The reaches in service alone."""
    return tuple(r for r in reaches if r[0] < SHUT)


def put_back(reaches, kind):
    """The same with every shut reach of this kind in service."""
    return tuple((kind if min(k - SHUT, T) == kind else k, a, b) for k, a, b in reaches)


def traits(basins, reaches):
    joins = [frozenset((a, b)) for _, a, b in served(reaches) if a != b]
    reply, shut = outcome(reaches), len(reaches) - len(served(reaches))
    gets = set(network(reaches).bound()) if reply == 0 else set()
    wet = network(reaches).wet
    dry = [v for v in range(basins) if v not in wet]
    places = {'below' if v < wet[0] else 'between' if v < wet[-1] else 'above' for v in dry} if wet else {'all'}
    return ['%d basins' % basins, '%d gates' % gates_of(reaches), 'reply %d' % reply] + ['first %d' % k for k, _, _ in reaches[:1]] + \
        ['loops' if len(joins) < len(served(reaches)) else 'no loops', 'parallel' if len(set(joins)) < len(joins) else 'not parallel'] + \
        ['number %d' % k for k in {min(k, 6) for k, _, _ in reaches}] + ['%d shut' % min(shut, 3)] + \
        ['byte %d' % x for x in gets] + ['all bytes'] * (len(gets) == 3) + ['bound and shut'] * (shut > 0 and bool(gets - {2})) + \
        ['%d with dry %s' % (reply, place) for place in places or {'none'}] + ['bound and dry'] * (len(dry) > 0 and bool(gets - {2})) + \
        ['dry end'] * any(v in dry for _, a, b in reaches for v in (a, b)) + \
        ['%d for want of %d' % (reply, k) for k in (G, F, T) if shut and outcome(put_back(reaches, k)) != reply]


def often(least, *names):
    return all(CAME[name] >= least for name in names)


CAME = Counter(name for (basins, _), reaches in DRAWN.items() for name in traits(basins, reaches))
assert len(DRAWN) == 66 + 20 * 55 + 168 * 125 + 20 * 9
assert often(100, *('%d gates' % g for g in range(11))) and often(4000, *('%d basins' % n for n in range(2, 7))) and often(11, '1 basins')
assert often(3000, 'reply 0', 'reply 9', 'reply 10', 'loops', 'no loops', 'parallel', 'not parallel', *('first %d' % k for k in range(6)))
assert often(5000, *('number %d' % k for k in range(7))) and often(3000, *('%d shut' % n for n in range(4)))
assert often(800, 'byte 0', 'byte 1', 'bound and shut') and often(300, 'all bytes') and often(7000, 'byte 2')
assert often(100, *('%d for want of %d' % (n, k) for n in (9, 10) for k in (G, F, T))) and len({(basins, served(r)) for basins, r in DRAWN}) > 12000
assert often(400, *('%d with dry %s' % (n, place) for n in (0, 9, 10) for place in ('none', 'below', 'between', 'above'))) and often(100, '0 with dry all')
assert often(1000, 'dry end') and often(400, 'bound and dry') and often(100, *('0 for want of %d' % k for k in (G, F, T)))


# "One basin is always served"; a gated loop "still has both settings"; a two-way reach "counts as two flaps, one each way": exchanged for two, one at its place and
# one at the table's end, it leaves plans and findings as they are

def as_two_flaps(reaches, i):
    _, a, b = reaches[i]
    return reaches[:i] + ((F, a, b),) + reaches[i + 1:] + ((F, b, a),)


def hold_rules(reaches):
    net = network(reaches)
    if len(net.wet) <= 1:
        assert len(net.plans) == 2 ** len(net.gates)
        yield 'one basin'
    for i, byte in zip(net.gates, net.bound() if net.plans else []):
        if net.reaches[i][1] == net.reaches[i][2]:
            assert byte == 2
            yield 'gated loop'
    for i, (kind, _, _) in net.reaches.items():
        if kind == TWO_WAY and len(net.gates) <= 7:
            split = Network(as_two_flaps(reaches, i))
            assert (split.finding, split.plans) == (net.finding, net.plans)
            yield 'two flaps, reply %d' % (net.finding or (0,))[0]


RULES = Counter(name for reaches in DRAWN.values() for name in hold_rules(reaches))
assert RULES['one basin'] > 50 and RULES['gated loop'] > 2000 and all(RULES['two flaps, reply %d' % n] > 2000 for n in (0, 9, 10))


# ---- clusters folded into one basin (document 02, item 4)

FOLDED = Counter()


def grown_clusters(basins, reaches):
    """The clusters as sets of basins, in the order of their lowest members: each grows by the basins beside it until there are none."""
    beside = [{v} for v in range(basins)]
    for kind, a, b in reaches:
        if kind == T:
            beside[a].add(b)
            beside[b].add(a)
    out = []
    for v in range(basins):
        if not any(v in cluster for cluster in out):
            cluster, grown = set(), {v}
            while cluster != grown:
                cluster, grown = grown, grown.union(*(beside[u] for u in grown))
            out.append(cluster)
    return out


def hold_folding(basins, reaches):
    """What item 4 says of a network with few gates: its clusters found in another way; which of them are wet; "a smaller network with the same choices", the
    same number where there are none, and the same bound gates; "folding again changes nothing"."""
    number, found = clusters(basins, reaches), grown_clusters(basins, reaches)
    count, folded = fold(basins, reaches)
    assert count == len(found) and all(number[v] == c for c, cluster in enumerate(found) for v in cluster)
    net, small = Network(reaches, try_all=False), Network(folded, try_all=False)
    assert set(small.wet) == {number[v] for v in net.wet} and gates_of(folded) == gates_of(reaches)
    assert all(net.strong(s) == small.strong(s) for s in product((0, 1), repeat=len(net.gates)))
    assert outcome(reaches) == outcome(folded) and (net.finding or net.bound_by_theorem() == small.bound_by_theorem())
    assert count <= basins and len(folded) <= len(reaches) and not table_fault(count, folded) and fold(count, folded) == (count, folded)
    FOLDED.update(['all'] + folding_traits(basins, reaches, number, found, net.finding is None, net.wet))


def folding_traits(basins, reaches, number, found, has_plan, wet):
    several = [c for c, cluster in enumerate(found) if len(cluster) > 1]
    if not several:
        return ['no cluster of several']
    named = list(dict.fromkeys(number[v] for _, a, b in served(reaches) for v in (a, b)))
    loops = [a == b for c in several for _, a, b in [r for r in reaches if r[0] == T and number[r[1]] == c][:1]]
    inner = [k for k, a, b in reaches if number[a] == number[b] in several]
    return ['clusters'] + ['clusters and gates: ' + ('a plan' if has_plan else 'none')] * (gates_of(reaches) > 0) + ['two clusters'] * (len(several) > 1) + \
        ['named in another order'] * (named != sorted(named)) + ['a loop stays'] * any(loops) + ['a dry basin'] * (len(wet) < basins) + \
        ['inside: %d' % k for k in set(inner) if k < SHUT] + ['shut two-way between'] * any(k >= ST and number[a] != number[b] for k, a, b in reaches) + \
        ['loops alone: %d' % k for k in {k for k, a, b in served(reaches) if a == b and number[a] not in several}]


# cases of item 4, with the folded networks that are seen by hand. Of the marked cases only 4 and 10 have a two-way reach

assert fold(2, ((T, 0, 1),)) == (1, ((T, 0, 0),)) and fold(3, ((G, 0, 1), (T, 1, 2))) == (2, ((G, 0, 1), (T, 1, 1)))


def folded_to(title, basins, text, count, folded):
    gr = group('folded: ' + title, reaches_of(text))
    assert fold(basins, gr.reaches) == (count, tuple(reaches_of(folded)))
    hold_folding(basins, gr.reaches)
    gr.case('contract', basins, **new_rows(gr.total))
    gr.case('contract', basins, vary=[('k', gr.total + 1, 0)], p=gr.total + 2, m=gr.total, limit=gr.total + 1)


folded_to('two clusters and two basins alone, named in another order', 6, 'T4-2 G5-1 T3-0 F3-4', 4, 'T2-2 G3-1 T0-0 F0-2')
folded_to('of a cluster a loop comes first; a gate, flaps and more inside', 3, 'T1-1 T0-1 G0-1 F1-0 T1-2 F2-2 T0-2', 1, 'T0-0 G0-0')
folded_to('loops of a basin alone, parallel flaps and gates', 2, 'T0-0 T0-0 F0-0 F0-1 F0-1 G1-0 G1-0', 2, 'T0-0 T0-0 F0-0 F0-1 F0-1 G1-0 G1-0')
folded_to('shut reaches, and a basin that only they reach', 4, 't0-1 T0-2 g1-3 f0-0 G1-2', 3, 'T0-0 G1-0')
folded_to('two clusters, flaps and gates between them, dry basins between', 9, 'F1-7 T5-7 G5-3 T3-1 F7-1 F5-7 G3-1 t2-4 T7-7', 7, 'F1-4 T4-4 G4-1 T1-1 F4-1 G1-1')
folded_to('the example polder', 7, 'T4-1 G0-1 T5-2 F2-0 G2-5 G4-3 T0-5 F3-2 t3-6 G1-3 F4-1 T2-0', 4, 'T1-1 G0-1 T0-0 G0-0 G1-2 F2-0 G1-2')
folded_to('joined by the last reach', 5, 'T4-3 T2-1 G0-4 F3-2 F4-3 T1-4', 2, 'T1-1 G0-1')

# networks of a fixed sequence with many two-way reaches: what item 4 says holds of all, and some are played, with what they are folded to

def draw_clustered(basins, gates, size):
    """Reaches of which so many are gated, of the others every second is two-way; among them shut ones of any number."""
    ends = draw_ends(basins)
    kinds = [G] * gates + [(T, T, F, SHUT + NUMBERS.below(3), T, F, T, SHUT + NUMBERS.below(253))[NUMBERS.below(8)] for _ in range(size - gates)]
    places = sorted(range(size), key=lambda i: NUMBERS.below(1 << 20))
    return tuple((kinds[i], ends[NUMBERS.below(len(ends))], ends[NUMBERS.below(len(ends))]) for i in places)


for i in range(9000):
    gates = i % 6
    hold_folding(1 + i // 6 % 9, draw_clustered(1 + i // 6 % 9, gates, gates + NUMBERS.below(10)))

for basins, gates in product(range(3, 9), range(4)):
    reaches = draw_clustered(basins, gates, 12)
    while fold(basins, reaches)[0] == basins or Network(reaches, try_all=False).finding and (basins + gates) % 2:
        reaches = draw_clustered(basins, gates, 12)
    hold_folding(basins, reaches)
    for n, table in ((basins, reaches), fold(basins, reaches)):
        gr = group('%d basins, %s' % (n, letters(table)), table)
        gr.case('contract', n, **new_rows(len(table)))
        gr.case('walk', n, p=gates, limit=20, mode=BRIEF)

# many more, 576 from each fourteen reaches: the first and the third of all kinds and shut, the second of all kinds and of number 255, cut at eleven to fourteen
gr = group('folded: tables of fourteen reaches, three of all kinds and shut, cut at eleven to fourteen reaches', [])
for basins in range(3, 13):
    for i in range(4):
        gr.case('contract', basins, table_bytes(draw_clustered(basins, NUMBERS.below(4), 14)), k=11, x=14, y=14,
                vary=[('k', 4, 11), (2, 6, 0), (3, 4, 255), (4, 6, 0)], mode=QUIET, listed=True, name='%d basins' % basins, **new_rows(14))

# the limits: one cluster of all basins, joined in bad orders; then inside it a gate, flaps and a shut reach

def by_lot(reaches):
    return [(k, b, a) if NUMBERS.below(2) else (k, a, b) for k, a, b in sorted(reaches, key=lambda r: NUMBERS.below(1 << 20))]


path = [(T, v, v + 1) for v in range(LAST)]
blocks = [(T, v + 2 * step - 1, v + step - 1) for step in (1 << i for i in range(LAST.bit_length())) for v in reversed(range(0, BASINS, 2 * step))]
HALF = BASINS // 2
comb = [(T, v + 1, v) for v in reversed(range(HALF - 1))] + [(T, LAST - v, v) for v in range(HALF)]
for title, reaches in (('a path, rising', path), ('a path, falling', path[::-1]), ('a path by lot', by_lot(path)), ('a comb, its spine falling', comb),
                       ('a star at %d' % LAST, [(T, LAST, v) for v in range(LAST)]), ('blocks, joined at their highest', blocks),
                       ('a tree by lot', by_lot([(T, NUMBERS.below(v), v) for v in range(1, BASINS)]))):
    gr = group('folded: %d basins, %s' % (BASINS, title), reaches + [(G, 0, LAST), (F, 3, 200), (F, 200, 200), (ST, 5, 6)])
    assert len(reaches) == LAST and fold(BASINS, gr.reaches) == (1, ((T, 0, 0), (G, 0, 0)))
    gr.case('contract', BASINS, vary=[('k high', high(BASINS) + 1, 0), ('k', 4, low(BASINS))], **new_rows(LAST + 4))
    gr.case('contract', BASINS, k=BASINS - 16, vary=[('k', 16, low(BASINS - 16))], mode=QUIET, **new_rows(LAST))
    gr.case('diameter', BASINS, [0], k=LAST, vary=[('k', 2, low(LAST - 1))])
    gr.case('diameter', BASINS, [0], p=1, k=BASINS, vary=[('k', 4, low(BASINS)), (0, 2, 0)])

pairs = [(T, v, LAST - v) if i % 2 else (T, LAST - v, v) for i in range(REACHES // HALF) for v in reversed(range(HALF))]
gr = group('folded: %d pairs of basins, each joined eight times' % HALF, pairs)
gr.case('contract', BASINS, vary=[('k high', high(REACHES) + 1, 0)], **new_rows(REACHES))

for title, kinds in (('all two-way', (T, T)), ('its rows two-way', (T, G)), ('its columns two-way, its rows flaps', (F, T))):
    reaches = [(kinds[b - a == 16], a, b) for _, a, b in grid]
    gr = group('folded: a 16 by 16 grid, ' + title, reaches)
    assert fold(256, gr.reaches)[0] == (1 if kinds == (T, T) else 16)
    gr.case('contract', 256, **new_rows(480))
    gr.case('contract', 256, k=256, vary=[('k', 224, 0)], mode=QUIET, **new_rows(480))


def among(v):
    """A basin of v's class of forty."""
    return v % 40 + 40 * NUMBERS.below(6)


mixed = []
for i in range(REACHES + 2):
    v, w = NUMBERS.below(BASINS), NUMBERS.below(BASINS)
    mixed.append(((T, v, among(v)), (F, v, among(v)), (F, v, w), (G, v, w), (G, v, among(v)), (SHUT + NUMBERS.below(253), v, w), (ST, v, w), (T, v, v))[NUMBERS.below(8)])
gr = group('folded: %d basins, {:,} reaches of all kinds by lot, the two-way ones inside forty classes'.format(REACHES + 2) % BASINS, mixed)
count, folded = fold(BASINS, mixed[:REACHES])
assert 100 < count < 200 and 400 < len(folded) < 700 and fold(count, folded) == (count, folded)
gr.case('contract', 0, k=REACHES, vary=EDGES, **new_rows(REACHES))
for room in ((REACHES - 1, REACHES, REACHES), (REACHES, REACHES - 1, REACHES), (REACHES, REACHES, REACHES - 1), (REACHES + 4, REACHES + 4, REACHES + 4), (len(folded),) * 3):
    gr.case('contract', BASINS, k=REACHES, p=room[0], m=room[1], limit=room[2])
gr.case('contract', BASINS, k=0, vary=[('k high', high(REACHES), 0), ('k', 64, 0)], mode=QUIET, **new_rows(REACHES))
gr = group('folded: the same, folded', folded)
gr.case('contract', count, **new_rows(len(folded)))


# ---- all networks of a few reaches: their plans in order, and the bytes of their gates. Each gate made a flap is again one of these networks

def networks(basins, size, kinds, mode):
    ends = 2 + size
    vary = [v for i in range(size) for v in ((2 + i, kinds, 0), (ends + 2 * i, basins, 0), (ends + 1 + 2 * i, basins, 0))]
    for call in ('walk', 'bound'):
        gr.case(call, basins, table_bytes([(G, 0, 0)] * size), p=size, k=size, x=size, y=size, limit=1100, vary=vary, mode=mode, listed=True,
                name='%s, %d basins, %d reaches of kinds below %d' % (call, basins, size, kinds))
    gr.case('contract', basins, table_bytes([(G, 0, 0)] * size), k=size, x=size, y=size, vary=vary, mode=BRIEF if size == 1 else QUIET, listed=True,
            name='contract, %d basins, %d reaches of kinds below %d' % (basins, size, kinds), **new_rows(size))
    for reaches in product(product(range(kinds), range(basins), range(basins)), repeat=size):
        assert network(reaches).finding or law_holds(reaches)
        hold_folding(basins, reaches)


gr = group('all networks of a few reaches', [])
for basins, size, kinds, mode in ((2, 1, 6, BRIEF), (2, 2, 6, BRIEF), (3, 1, 6, BRIEF), (3, 2, 6, BRIEF), (2, 3, 6, QUIET), (3, 3, 3, QUIET)):
    networks(basins, size, kinds, mode)

assert FOLDED['all'] == 7 + 9000 + 24 + 24 + 24 ** 2 + 54 + 54 ** 2 + 24 ** 3 + 27 ** 3 and FOLDED['clusters'] >= 15000
assert all(FOLDED[name] >= 1000 for name in [
    'clusters and gates: a plan', 'clusters and gates: none', 'two clusters', 'named in another order', 'a loop stays', 'a dry basin', 'shut two-way between'] +
    ['%s: %d' % (place, k) for place in ('inside', 'loops alone') for k in (G, F, T)])


# ---- network files

SMALL = network_file(3, [(G, 0, 1), (F, 1, 2), (T, 2, 0)])
FLAP_SHUT = network_file(3, [(G, 0, 1), (SF, 1, 2), (T, 2, 0)])
ALL_SHUT = network_file(3, [(SG, 0, 1), (SF, 1, 2), (ST, 2, 0)])
ROWS = dict(k=15, x=15, y=15)
gr = group('network files: three basins, three reaches, some of them shut', [])
for small in (SMALL, FLAP_SHUT, ALL_SHUT):
    gr.case('read network', 0, small, k=3, x=4, y=5)
    gr.case('read network', 0, small, vary=[('n', len(small) + 1, 0)], **ROWS)
    gr.case('read network', 0, small, vary=[('k', 5, 0), ('x', 5, 0), ('y', 5, 0)])
    gr.case('read network', 0, small + [0], vary=[(len(small), 256, 0)], **ROWS)
    gr.case('list', 0, small, p=40, vary=[('n', len(small) + 1, 0)])
    gr.case('list', 0, small, p=40, vary=[(1, 3, 1), (3, 5, 1), (len(small) - 1, 2, 8)])
assert FLAP_SHUT[8] == 5 and FLAP_SHUT[13] == 3
gr.case('read network', 0, FLAP_SHUT, vary=[('n', 6, 9), (8, 4, 2), (9, 5, 0), (11, 5, 0), (13, 8, 0)], name='read network, kinds and ends, cut', **ROWS)
gr.case('read network', 0, FLAP_SHUT, vary=[(9, 2, 2), (12, 2, 0), (13, 256, 0)], name='read network, each kind to go back to', **ROWS)
gr.case('list', 0, FLAP_SHUT, p=40, vary=[(9, 2, 2), (13, 6, 0)])
for place in range(len(FLAP_SHUT)):
    gr.case('read network', 0, FLAP_SHUT + [0], vary=[('n', 22, 0), (place, 256, 0)], name='read network, each value at %d' % place, **ROWS)
    gr.case('read network', 0, FLAP_SHUT, vary=[('k', 2, 2), ('x', 2, 2), ('y', 2, 2), (place, 256, 0)], name='rows too short, each value at %d' % place,
            k=15, x=15, y=15)
gr.case('read network', 0, [1, 0, 0, 9], vary=[(2, 256, 0), (1, 256, 0)], name='read network, each basin count', **ROWS)
gr.case('read network', 0, [1, 4, 0, 2, 0, 0, 3, 0, 9], vary=[(5, 256, 0), (4, 256, 0)], name='read network, each end A', **ROWS)
gr.case('read network', 0, [1, 4, 0, 5, 3, 0, 0, 0, 3, 9], vary=[(7, 256, 0), (6, 256, 0)], name='read network, each end B of a shut reach', **ROWS)
for p in (0, 1, 5, 6, 7):
    gr.case('list', 0, network_file(2, [(G, 0, 1), (G, 0, 1)]), p=p)

MOST = dict(k=REACHES, x=REACHES, y=REACHES)
SHORTER = ('k high', 2, high(REACHES) - 1)
many = [(i % 6, i % 4, i // 4 % 4) for i in range(REACHES)]
file = network_file(4, many)[:-1] + [5, 3, 0, 0, 0, 2, 9]
after = len(file) - 7
gr = group('network files: {:,} reaches, of which {:,} are shut, then one more'.format(REACHES, sum(k >= SHUT for k, _, _ in many)), [])
gr.case('read network', 0, file, n=after, vary=[SHORTER, (after + 1, 2, 3), ('n', 8, low(after)), (after, 256, 0)], name='each kind', **MOST)
gr.case('read network', 0, file, n=after, vary=[(after + 1, 2, 3), ('n', 2, low(after) + 5), (after + 5, 256, 0)], name='each kind to go back to', **MOST)

longest = network_file(4, [(SHUT + k % 3, a, b) for k, a, b in many])
assert len(longest) == 4 + 6 * REACHES
about = dict(n=len(longest) - 1)
gr = group('network files: {:,} shut reaches'.format(REACHES), [])
gr.case('read network', 0, longest + [9], vary=[('n', 3, low(about['n'])), SHORTER], **about, **MOST)
gr.case('list', 0, network_file(1, [(SHUT + i % 3, 0, 0) for i in range(REACHES)]) + [9], p=20, vary=[('n', 3, low(about['n']))], **about)


# ---- listings

def listed(title, basins, reaches):
    """The listing of a network in parts that fill a buffer, and one that does not."""
    file = network_file(basins, reaches)
    length = len(listing(file))
    gr.case('list', 0, file, p=min(length + 2, 11090), limit=length // 11090, mode=BRIEF if length < 22180 else QUIET, name='list, ' + title)


def joined(v, gates):
    """Flaps from basin 0 to v and on to v + 1, and gates back: the plans are the settings in which v + 1 reaches basin 0."""
    return [(F, 0, v), (F, v, v + 1)] + [(G, v + a, v + b if b >= 0 else 0) for a, b in gates]


OVER, BACK, HOME = (1, 0), (0, -1), (1, -1)          # from v + 1 to v, from v to 0, from v + 1 to 0
thousand = [r for v in (1, 3, 5) for r in joined(v, [HOME, BACK, OVER])] + [(G, 0, 0)] * 3                           # 5 times 5 times 5 times 8
one_more = joined(1, [HOME, HOME, OVER, BACK]) + joined(3, [HOME, BACK, OVER, OVER]) + [(F, 0, 5)] + [(G, 5, 0)] * 3   # 13 times 11 times 7
assert len(network(tuple(thousand)).plans) == 1000 and len(network(tuple(one_more)).plans) == 1001

gr = group('listings', [])
listed('512 plans', 1, [(G, 0, 0)] * 9 + [(T, 0, 0)])
listed('1,000 plans', 7, thousand)
listed('1,000 plans, and every reach again, shut', 7, [r for k, a, b in thousand for r in ((SHUT + k, a, b), (k, a, b))])
listed('1,001 plans', 6, one_more)
listed('1,024 plans', 1, [(G, 0, 0)] * 10)
listed('a 16 by 16 grid', 256, grid)
listed('a line of %d basins, and %d loops' % (BASINS, REACHES - LAST), BASINS, [(G, v, v + 1) for v in range(LAST)] + [(G, 0, 0)] * (REACHES - LAST))


def ditch(length, first=1):
    """A ditch of gates from basin 0 over as many basins, every third gate drawn the other way, and a flap from its end back: its gates are bound."""
    basins = [0] + list(range(first, first + length))
    return [(F, basins[-1], 0)] + [(G, b, a) if i % 3 == 0 else (G, a, b) for i, (a, b) in enumerate(zip(basins, basins[1:]))]


# The lister tries bound gates no more where a step went back over 32 reaches or more.
for title, basins, reaches in [
        ('40 bound gates last', 41, [(G, 0, 0)] * 8 + ditch(40)), ('40 bound gates among free ones', 41, [(G, 0, 0)] * 3 + ditch(40) + [(G, 5, 5), (G, 0, 0)]),
        ('40 bound gates, then a ring of 36', 76, [(G, 0, 0)] * 3 + ditch(40) + [(G, a, b) for a, b in zip([0, *range(41, 76)], [*range(41, 76), 0])])]:
    assert sorted(set(network(tuple(reaches)).bound())) == [0, 1, 2]
    listed(title, basins, reaches)
listed('40 bound gates last, at every sixth of %d basins' % BASINS, BASINS, moved([(G, 0, 0)] * 8 + ditch(40), 5, 6))

# Gates in series: where just two reaches in service end at each inner basin of a channel, one gate or flap of it decides the others, and the lister takes their
# ways from it, whatever their numbers.
LOT = Sequence(30)


def shuffled(reaches):
    return sorted(reaches, key=lambda r: LOT.below(1 << 20))


def channels(side, inner):
    """Channels of gates, drawn by lot, between the neighbours of a grid of side by side basins, each over as many basins of its own."""
    grid, out, v = range(side * side), [], side * side
    for a, b in [(a, a + 1) for a in grid if (a + 1) % side] + [(a, a + side) for a in grid if a + side in grid]:
        basins, v = [a, *range(v, v + inner), b], v + inner
        out.append([(G, y, x) if LOT.below(2) else (G, x, y) for x, y in zip(basins, basins[1:])])
    return out


def in_series(reaches):
    """How many gates, bound ones left out, are decided by an earlier one: hung alike with it in all plans, or against it in all."""
    plans = listing(network_file(BASINS, reaches)).split()[:-1]
    columns = [column if column[0] == '0' else column.translate({48: 49, 49: 48}) for column in map(''.join, zip(*plans))]
    return sum(column in columns[:i] and '1' in column for i, column in enumerate(columns))


def kind_of(reaches, kind, *numbers):
    return [(kind, a, b) if i in numbers else (k, a, b) for i, (k, a, b) in enumerate(reaches)]


ditches = channels(3, 3)                    # 45 basins, of which 9 to 44 are inner ones, three of each channel
along = [r for channel in ditches for r in channel]
across = [r for line in zip(*ditches) for r in line]
lines = [len(listing(network_file(45, reaches)).split()) for reaches in (along, across, shuffled(along))]
assert lines[0] == lines[1] == lines[2]
listed('12 channels of four gates, along', 45, along)
listed('the same across', 45, across)
listed('the same by lot', 45, shuffled(along))
shut = [(SHUT + i % 3, 9 + i, 27 + i) for i in range(18)]           # a third reach at every inner basin, shut
for title, basins, reaches, least in [
        ('with two-way reaches, by lot', 45, shuffled(kind_of(along, T, *range(1, 48, 7))), 25),
        ('with two flaps and two two-way reaches, by lot', 45, shuffled(kind_of(kind_of(kind_of(along, F, 1), T, 2, 20), F, 46)), 25),
        ('that shut reaches make, by lot', 45, shuffled(along + shut), 30),
        ('that shut reaches make but for two in service, by lot', 45, shuffled(along + shut[1:17] + [(G, 26, 44), (T, 27, 9)]), 25),
        ('with loops at six inner basins, by lot', 45, shuffled(along + [((G, F, T)[i % 3], 10 + 3 * i, 10 + 3 * i) for i in range(6)]), 25),
        ('among dry basins, by lot', BASINS, shuffled(moved(along, 3, 5) + [(SHUT + i % 3, 5 * i, 5 * i + 2) for i in range(20)] + moved(shut[:9], 3, 5)), 30),
        ('in a ring of 40, by lot', 40, shuffled(ring(40, 40, G)), 39),
        ('in a ring of 40, by lot, with loops', 41, shuffled(ring(40, 40, G) + [(G, 0, 0), (G, 40, 40), (T, 40, 0)]), 39),
        ('in rings of two, by lot', 20, shuffled([(G, v, v + 1 - 2 * (v % 2)) for v in range(20)] + [(T, v, v + 2) for v in range(0, 18, 2)]), 9)]:
    assert in_series(reaches) >= least, (title, in_series(reaches))
    listed('channels ' + title, basins, reaches)
gr.case('list', 0, SMALL + [7], p=11, vary=[(2, 2, 0), (4, 2, 2), (18, 2, 8), ('n', 4, 17)], name='list, refused 1, 3, 4, 5, 6')
gr.case('list', 0, file, p=20, name='list, {:,} reaches'.format(REACHES + 1))

held = MAX_BYTES + 103
gr = group('listings: {:,} gates round a ring of {} basins, and {:,} bytes after the end'.format(REACHES, BASINS, held - FILE), [])
gr.hold(network_file(BASINS, ring(BASINS, REACHES, G)) + [9] * (held - FILE))
gr.case('list placed', 0, k=FILE, p=11090, limit=1000 * (REACHES + 1) // 11090 + 1, mode=QUIET, name='list, {:,} bytes'.format(FILE))
gr.case('list placed', 0, k=FILE - 1, p=11, vary=[('k', 3, low(FILE - 1))], name='list, {:,} to {:,} bytes'.format(FILE - 1, FILE + 1))
gr.case('list placed', 0, k=MAX_BYTES, p=11, vary=[('k', 3, low(MAX_BYTES - 1))], name='list, {:,} to {:,} bytes'.format(MAX_BYTES - 1, MAX_BYTES + 1))
gr.case('list placed', 0, k=held, p=11, name='list, {:,} bytes'.format(held))
assert Out.listed >= {'end\n', 'more\n'} | {'refused %d\n' % number for number in (1, 2, 3, 4, 5, 6, 9, 10)}


# ---- sheets

reaches = TABLES[0][1]
sheet = plan_sheet(reaches, [0, 0, 0])
kinds = hung(3)
gr = group('sheets: three basins, ' + letters(reaches), reaches)
gr.case('read sheet', 3, sheet, p=3)
gr.case('read sheet', 3, sheet, p=3, vary=kinds)
gr.case('read sheet', 3, sheet + [0], p=3, vary=[('n', 15, 0)] + kinds)
for place in range(len(sheet) + 1):
    gr.case('read sheet', 3, sheet + [0], p=15, vary=[('n', 15, 0)] + [v for v in kinds if v[0] != place] + [(place, 256, 0)],
            name='read sheet, each value at %d' % place)
for place in range(len(sheet)):
    gr.case('read sheet', 3, sheet, vary=[('p', 5, 0), (place, 256, 0)], name='rooms of 0 to 4, each value at %d' % place)
for n in range(5):
    records = [x for _ in range(n) for x in (17, 0, 0)]
    gr.case('read sheet', 3, [16, 3, 0] + records + [9], p=4, vary=[(4 + 3 * i, 6, 0) for i in range(n)] + hung(n),
            name='read sheet, %d records of reaches 0 to 5' % n)
for place in (1, 4, 7, 10):
    gr.case('read sheet', 3, sheet, p=4, vary=[(place + 1, 256, 0), (place, 256, 0)], name='read sheet, each number at %d' % place)
for found in ([20] + mark_bytes(1 << 0 | 1 << 9) + [9], [21, 1, 0] + mark_bytes(1 << 1) + [9]):
    gr.case('read sheet', 3, found, p=3, name='read a finding sheet')
gr.case('write sheet', 3, [0, 0, 0, 0], vary=[('n', 5, 0), (0, 4, 0), (1, 4, 0), (2, 4, 0), (3, 4, 0), ('p', 4, 11)])
gr.case('write sheet', 3, [0, 0, 0], vary=settings(3) + [('p', 16, 0)])


# ---- two plan sheets laid side by side (document 02, item 5): all pairs of settings of networks with several plans

def draw_choices(basins, gates):
    """A new network with several plans, which are not all settings."""
    while True:
        reaches = draw_reaches(draw_ends(basins), gates, gates + NUMBERS.below(13 - gates))
        if outcome(reaches) == 0 and 3 < len(network(reaches).plans) < 2 ** gates and are_new([(basins, reaches)]):
            return reaches


for basins, gates, _ in product(range(2, 7), (3, 4, 5), range(4)):
    reaches = draw_choices(basins, gates)
    all_pairs(group('side by side: %d basins, %s' % (basins, letters(reaches)), reaches), basins)

served_at = {0: (G, 0, 1), 255: (G, 1, 2), 256: (G, 2, 0), 299: (G, 1, 0)}
gr = group('side by side: gates 0, 255, 256 and 299 among shut reaches', [served_at.get(i, (SHUT + i % 3, i % 3, i % 4 % 3)) for i in range(300)])
all_pairs(gr, 3)
sheet = plan_sheet(gr.reaches, [0, 0, 0, 0])
numbers = [(at + place, 2, lowest) for at in (0, len(sheet) + 1) for place, lowest in ((7, 254), (8, 0), (10, 0), (11, 0))]
gr.case('compare', 3, vary=[(12, 2, 17), (29, 2, 17)] + numbers, name='compare, reach numbers changed', **beside(sheet, sheet))

# sheets that are damaged, on either side and on both: cut, a byte too many, each value of each byte

reaches = TABLES[0][1]
sheet = plan_sheet(reaches, [0, 0, 0])
end = len(sheet) + 1
gr = group('side by side: three basins, ' + letters(reaches), reaches)
all_pairs(gr, 3)
gr.case('compare', 3, sheet, p=len(sheet), m=len(sheet), vary=hung(3), name='compare with itself')
gr.case('compare', 3, vary=[(9, 2, 17), (end + 9, 2, 17), ('p', 15, 0), ('m', 15, 0)], name='compare, every cut', **beside(sheet, sheet))
for place, (side, at, other, length) in product(range(len(sheet) + 1), (('first', 0, end, 'p'), ('second', end, 0, 'm'))):
    gr.case('compare', 3, vary=[(other + 3, 2, 17), (length, 3, 12), (at + place, 256, 0)], mode=BRIEF if place < len(sheet) else QUIET,
            name='each value at %d of the %s' % (place, side), **beside(sheet, sheet))
damages = [v for at, length in ((0, 'p'), (end, 'm')) for v in ((at, 2, 16), (at + 1, 2, 2), (at + 9, 4, 16), (at + 12, 2, 8), (length, 3, 12))]
gr.case('compare', 3, vary=damages, name='compare, both damaged', **beside(sheet, sheet))

# each of these beside every part of all of them: two sheets of the network, those of others, findings, an end, a network file, none

others = [sheet, plan_sheet(reaches, [1, 1, 1])] + [plan_sheet([(G, 0, 1)] * g, [0] * g) for g in (2, 3, 4)] + \
    [[20] + mark_bytes(1) + [9], [21, 0, 0] + mark_bytes(6) + [9], [9], network_file(2, [(G, 0, 1)]), []]
every = sum(others, [])
for i, other in enumerate(others):
    gr.case('compare', 3, other + every, p=len(other), limit=len(other), vary=[('limit', len(every), len(other)), ('m', MARK_BYTES + 5, 0)], mode=QUIET,
            name='sheet %d beside every part' % i)


# the plans of each network beside each other; sheets that part at every gate, the first earlier and the second; refusals of either sheet and of both

def came(least, *names):
    return all(COMPARED[name] >= least for name in names)


PARTS = [(g, i) for g in (3, 4, 5, 6) for i in range(g)]
assert len(PAIRS) >= 13000 and len({(basins, reaches) for basins, reaches, one, other in PAIRS if one != other}) >= 90
assert came(30, *('%d of %d gates, %d' % (i, g, earlier) for g, i in PARTS if g < 6 for earlier in (1, 2)))
assert came(3, *('%d of %d gates, %d' % (i, g, earlier) for g, i in PARTS + [(REACHES, 0), (REACHES, 2 * BASINS), (REACHES, REACHES - 1)] for earlier in (1, 2)))
assert came(1000, 'equal', 'refused 1, 1', 'refused 2, 2', 'refused 3, 3')
assert came(500, *('refused %d, %d' % numbers for n in (4, 5, 6, 8) for numbers in ((n, 0), (0, n))))
assert came(90, *('refused %d, %d' % numbers for numbers in product((4, 5, 6, 8), repeat=2)))


# ---- how far the water goes (document 02, item 6), with counts that are seen by hand

def example(name):
    """The basins and reaches of an example."""
    with open(os.path.join(HERE, '..', '..', 'examples', name + '.net'), 'rb') as f:
        return read_network(list(f.read()))


def far(title, basins, reaches, expected, values=3):
    """A table, and its plans in order with what each gets."""
    gr = group('how far: ' + title, reaches)
    plans = [s for s in product((0, 1), repeat=gates_of(reaches)) if network(gr.reaches).is_plan(s)]
    assert ' '.join('%s:%d' % (''.join(map(str, s)), farthest(gr.reaches, s)) for s in plans) == expected
    all_settings(gr, basins, values)


far('a ring of four gates', 4, reaches_of('G0-1 G1-2 G2-3 G3-0'), '0000:3 1111:3')
far('the same with a two-way reach across', 4, reaches_of('G0-1 G1-2 T0-2 G2-3 G3-0'), '0000:2 0011:3 1100:3 1111:2')
far('the same with that reach shut', 4, reaches_of('G0-1 G1-2 t0-2 G2-3 G3-0'), '0000:3 1111:3')
far('a path of two-way reaches among dry basins', 9, reaches_of('T5-1 T1-7 g3-8 T7-2'), ':3')
far('one reach from basin 0 to each and one back, some of them twice, and loops', 4, reaches_of('F0-1 F1-1 T0-3 F0-2 F1-0 T0-0 F2-0 F0-2'), ':2')
far('half round a ring of two-way reaches', 6, reaches_of('T0-1 T1-2 T2-3 T3-4 T4-5 T5-0'), ':3')
far('the example ring-main', *example('ring-main'),
    '000000000:7 000000001:7 000000010:5 000000011:7 011100000:7 011100010:6 100010001:7 111110000:7 111110001:6', values=2)

# all networks of three reaches on three basins, kinds below 3, under every setting: by which of the reaches are gated

gr = group('how far: all networks of three reaches on three basins', [])
for kinds in product((G, F), repeat=3):
    table, g = table_bytes([(k, 0, 0) for k in kinds]), kinds.count(G)
    gr.case('diameter', 3, table + [0] * g, p=g, limit=len(table), k=3, x=3, y=3, mode=QUIET, listed=True, name='%d gates' % g,
            vary=[(2 + i, 2, F) for i in range(3) if kinds[i] == F] + [(5 + i, 3, 0) for i in range(6)] + [(len(table) + i, 2, 0) for i in range(g)])

# a ring over all basins but basin 1, a flap, a two-way reach or a shut gate with all ends, and a gate with all ends, under every setting

gr = group('how far: rings, with two more reaches of all ends', [])
for order in ((3, 0, 2), (4, 0, 3, 2), (2, 5, 0, 4, 3)):
    basins = len(order) + 1
    table = table_bytes([(F, 0, 0), (G, 0, 0)] + [((G, F)[i % 2], v, w) for i, (v, w) in enumerate(zip(order, order[1:] + order[:1]))])
    size, g = word(table, 0), 1 + basins // 2
    ends = [(2 + size + i, basins, 0) for i in range(4)]
    gr.case('diameter', basins, table + [0] * g, p=g, limit=len(table), k=size, x=size, y=size, mode=QUIET, listed=True, name='%d basins' % basins,
            vary=[(2, 3, F)] + ends + [(len(table) + i, 2, 0) for i in range(g)])

# the limits: one basin wet, or none; a path cut at every length; as many gates as may be

table = table_bytes([(G, 200, 200)])
gr = group('how far: %d basins, a loop of each kind at basin 200' % BASINS, [])
gr.case('diameter', BASINS, table + [0], limit=len(table), k=1, x=1, y=1, vary=[(2, 6, 0), ('p', 2, 0), (len(table), 2, 0)], listed=True)

order = sorted(range(BASINS), key=lambda v: NUMBERS.below(1 << 20))
gr = group('how far: a path of two-way reaches over %d basins, numbered by lot' % BASINS, [(T, v, w) for v, w in zip(order, order[1:])])
assert [farthest(gr.reaches[:k], ()) for k in range(BASINS)] == list(range(BASINS))
gr.case('diameter', BASINS, vary=[('k high', high(BASINS), 0), ('k', 256, 0)])

basins, reaches = example('limits')
plan = network(reaches).next_plan()
assert len(reaches) == REACHES and [i for i, way in enumerate(plan) if way] == [530, 603, 638, 691, 770, 835, 891, 904, 981]
gr = group('how far: the example limits, under its first plan', reaches)
gr.case('diameter', basins, plan, p=REACHES, vary=[(REACHES - 1, 3, 0)])
for reaches in (reaches, tuple(grid)):
    plan = network(reaches).next_plan()
    assert max(map(max, fewest_counts(network(reaches), plan))) == farthest(reaches, plan)


# what was asked of small networks: each answer came often, and so did what tells it from others that are nearly right

def depths(arcs, v, depth):
    """The depths at which a depth-first search finds the basins."""
    for a, b in arcs:
        if a == v and b not in depth:
            depth[b] = depth[v] + 1
            depths(arcs, b, depth)
    return depth


def far_traits(basins, reaches, setting):
    net, found = network(reaches), farthest(reaches, setting)
    counts = fewest_counts(net, setting)
    outward, inward = [max(row) for row in counts], [max(column) for column in zip(*counts)]
    assert max(outward, default=0) == found < max(len(net.wet), 1) and (found == 0) == (len(net.wet) < 2)
    if found == 0:
        return ['longest 0', '%d wet' % len(net.wet)]
    only = ['only %s the %s' % (way, place) for way, most in (('from', outward), ('to', inward))
            for place, others in (('lowest', most[1:]), ('highest', most[:-1])) if max(others) < found]
    arcs, opened = net.arcs(setting), [network(put_back(reaches, k)) for k in (F, T)]
    return ['longest %d' % found] + only + ['not from the lowest'] * (outward[0] < found) + ['not to the lowest'] * (inward[0] < found) + \
        ['deeper depth-first'] * any(max(depths(arcs, v, {v: 0}).values()) > found for v in net.wet) + ['below the last place'] * (found < len(net.wet) - 1) + \
        ['as far as can be'] * (found == len(net.wet) - 1 > 1) + ['dry'] * (len(net.wet) < basins) + ['dry below'] * (net.wet[0] > 0) + \
        ['for want of a shut reach'] * any(other.is_plan(setting) and longest_by_growth(other, setting) < found for other in opened) + \
        ['loops'] * any(a == b for _, a, b in served(reaches)) + ['shut'] * (len(served(reaches)) < len(reaches))


def came_far(least, *names):
    return all(FAR[name] >= least for name in names)


FAR = Counter(name for basins, reaches, setting in GAUGED if network(reaches).small for name in far_traits(basins, reaches, setting))
assert len(GAUGED) >= 37000 and len(NO_PLANS) >= 146000 and len({asked[:2] for asked in GAUGED | NO_PLANS}) >= 27000
assert UNFIT[1] >= 1700 and UNFIT[2] >= 12 and UNFIT[3] >= 1200 and UNFIT[8] >= 7000
assert came_far(10000, 'longest 1', 'longest 2', 'dry', 'loops', 'shut', 'as far as can be') and came_far(5000, 'longest 3', 'longest 4')
assert came_far(9000, 'not from the lowest', 'not to the lowest') and came_far(900, 'longest 5') and came_far(2500, 'longest 0', '1 wet') and came_far(25, '0 wet')
assert came_far(1300, *('only %s the %s' % name for name in product(('from', 'to'), ('lowest', 'highest'))))
assert came_far(2500, 'deeper depth-first', 'below the last place', 'dry below') and came_far(700, 'for want of a shut reach')


def main():
    """The file has the number of cases and where the first stands; where each table stands, by its number; the tables; the cases."""
    tables = {number: table for g in GROUPS for number, table in g.tables().items()}
    file, cases = File(5 + 3 * max(tables)), [c for g in GROUPS for c in g.cases]
    for number, table in sorted(tables.items()):
        file.bytes[3 * number + 2:3 * number + 5] = three(file.put(table))
    file.bytes[:5] = two(len(cases)) + three(len(file.bytes))
    for c in cases:
        file.put(c)
    assert len(file.bytes) <= 300000          # the program reads no more
    with open(os.path.join(HERE, 'stdin'), 'wb') as f:
        f.write(bytes(file.bytes))
    with open(os.path.join(HERE, 'stdout'), 'w') as f:
        f.write(''.join(x for g in GROUPS for x in g.expected))


main()
