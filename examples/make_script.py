#!/usr/bin/env python3
"""Writes the scripts of this folder, and what they show: python3 examples/make_script.py

A small simulation by the rules of docs/RULES.md, which shares nothing with the programs: it knows which hearings are
possible, what every network goes by, and what becomes of packets. NAME.script is a script, NAME.shown what it shows. Where
nothing is in flight, what is gone by is compared with the stable routing: all look at once, 2n + 1 times, from nothing; and
a packet arrives after as many steps as its path has networks. make_ties.py and make_blocks.py have to be run before."""
import ipaddress, os, random

here = os.path.dirname(os.path.abspath(__file__))
CUSTOMER, PEER, PROVIDER = 0, 1, 2

def read_ties(name):
    data = open(os.path.join(here, name), 'rb').read()
    rel = {}
    for k in range(data[2] << 8 | data[3]):
        a, b, kind = data[4 + 3 * k:7 + 3 * k]
        rel[a, b] = PROVIDER if kind == 1 else PEER   # what b is to a
        rel[b, a] = CUSTOMER if kind == 1 else PEER
    return data[1], rel

def read_blocks(name):
    """The blocks, each as its first address, its last and its home."""
    data = open(os.path.join(here, name), 'rb').read()
    number = lambda at: int.from_bytes(data[at:at + 4], 'big')
    return [(number(at), number(at + 4), data[at + 8]) for at in range(3, len(data), 9)]

def dotted(address): return str(ipaddress.IPv4Address(address))

def head(block, first, last, home): return f'block {block}, {dotted(first)} to {dotted(last)}, home {home}'

def best(n, rel, i, home, up, received):
    """What i goes by: None, 'home', or (neighbour, path)."""
    if i == home: return 'home'
    may = [(rel[i, j], len(received[j]), j) for j in range(n)
           if (i, j) in rel and up(i, j) and received.get(j) and i not in received[j]]
    if not may: return None
    j = min(may)[2]
    return (j, received[j])

def says(n, rel, i, k, route):
    """What i tells k, going by this."""
    if route is None: return None
    if route == 'home': return (i,)
    by, path = route
    return (i,) + path if rel[i, by] == CUSTOMER or rel[i, k] == CUSTOMER else None

class Networks:
    """An item in flight is an update, its block and path, or a packet, its address and the hops that are left."""
    def __init__(self, ties, blocks):
        self.n, self.rel = read_ties(ties)
        self.blocks = read_blocks(blocks)
        self.homes = [home for _, _, home in self.blocks]
        self.lines, self.shown, self.steps = [], [], 0
        self.links, self.flight = set(), {}
        self.received = [[{} for _ in self.homes] for _ in range(self.n)]
        self.told = [[{} for _ in self.homes] for _ in range(self.n)]

    def up(self, i, j): return frozenset((i, j)) in self.links

    def route(self, i, b): return best(self.n, self.rel, i, self.homes[b], self.up, self.received[i][b])

    def put(self, i, j, item): self.flight.setdefault((i, j), []).append(item)

    def tell(self, i, b):
        for k in range(self.n):
            if (i, k) in self.rel and self.up(i, k):
                now = says(self.n, self.rel, i, k, self.route(i, b))
                if now != self.told[i][b].get(k):
                    self.told[i][b][k] = now
                    self.put(i, k, ('update', b, now))

    def block_of(self, address):
        return next((b for b, (first, last, _) in enumerate(self.blocks) if first <= address <= last), None)

    def fate(self, i, address, hops):
        """How a packet ends at i, or None where it is handed on."""
        b = self.block_of(address)
        if b is None: return f'dropped at {i}, steps {255 - hops}, no block'
        route = self.route(i, b)
        if route is None: return f'dropped at {i}, steps {255 - hops}, no road'
        if route == 'home': return f'arrived at {i}, steps {255 - hops}'
        if hops == 0: return f'dropped at {i}, steps 255, no step left'
        self.put(i, route[0], ('packet', address, hops - 1))

    def carry(self, i, address, hops):
        end = self.fate(i, address, hops)
        if end: self.shown.append(f'packet to {dotted(address)}: {end}')

    def note(self, text): self.lines.append('# ' + text)

    def turn(self, i, j, up):
        assert (i, j) in self.rel
        self.lines.append(f"turn {i} {j} {'up' if up else 'down'}"); self.steps += 1
        (self.links.add if up else self.links.discard)(frozenset((i, j)))
        for a, c in ((i, j), (j, i)):
            self.flight.pop((a, c), None)
            for b in range(len(self.homes)):
                self.received[a][b].pop(c, None); self.told[a][b].pop(c, None)
        for a in (i, j):
            for b in range(len(self.homes)): self.tell(a, b)

    def due(self): return sorted(pair for pair, items in self.flight.items() if items)

    def hear(self, i, j):
        self.lines.append(f'hear {i} {j}'); self.steps += 1
        self.take(i, j)

    def take(self, i, j):
        kind, *item = self.flight[i, j].pop(0)
        if kind == 'packet': return self.carry(j, *item)
        b, path = item
        if path is None: self.received[j][b].pop(i, None)
        else: self.received[j][b][i] = path
        self.tell(j, b)

    def send(self, i, text):
        """The people of i send a packet. Where no update is in flight, the path that it takes is that of the route."""
        self.lines.append(f'send {i} {text}'); self.steps += 1
        self.carry(i, int(ipaddress.IPv4Address(text)), 255)

    def carried(self, i, text):
        """A packet that is sent while nothing is in flight, and heard until it ends."""
        self.check()
        b = self.block_of(int(ipaddress.IPv4Address(text)))
        route = None if b is None else self.route(i, b)
        path = () if route in (None, 'home') else route[1]
        self.send(i, text)
        for j, k in zip((i,) + path, path):
            assert self.due() == [(j, k)]
            self.hear(j, k)
        assert not self.due()
        if path: assert self.shown[-1] == f'packet to {text}: arrived at {self.homes[b]}, steps {len(path)}'

    def hear_all(self, pick=min):
        while self.due(): self.hear(*pick(self.due()))

    def rest(self):
        self.lines.append('rest'); self.steps += 1
        while self.due(): self.take(*min(self.due()))

    def show(self, b):
        self.lines.append(f'show {b}')
        self.shown.append(head(b, *self.blocks[b]))
        for i in range(self.n):
            r = self.route(i, b)
            self.shown.append(f'{i} nothing' if r is None else f'{i} home' if r == 'home'
                              else f"{i} by {r[0]} over {', '.join(map(str, r[1]))}")

    def check(self):
        assert not self.due()
        for b, home in enumerate(self.homes):
            routes = [None] * self.n
            for _ in range(2 * self.n + 1):
                routes = [best(self.n, self.rel, i, home, self.up,
                               {j: says(self.n, self.rel, j, i, routes[j]) for j in range(self.n)
                                if (j, i) in self.rel and self.up(i, j)}) for i in range(self.n)]
            assert routes == [self.route(i, b) for i in range(self.n)]

    def write(self, name):
        for end, lines in (('script', self.lines), ('shown', self.shown)):
            open(os.path.join(here, f'{name}.{end}'), 'w').write(''.join(line + '\n' for line in lines))
        print(f'{name}: {self.steps} steps')

def bring_up(s, ties):
    for i, j in ties: s.turn(i, j, True)

def a():
    s = Networks('a.ties', 'a.blocks')
    s.note('all links come up, and everything is heard')
    bring_up(s, ((0, 1), (0, 2), (1, 2), (3, 1), (3, 2)))
    s.hear_all(); s.show(0); s.check()
    s.note('a packet from 3 to 0, one to the own village, and one to an address that is in no block')
    s.carried(3, '10.0.0.1'); s.carried(0, '10.0.0.255'); s.carried(3, '10.0.1.0')
    s.note('0 and 1 lose their link, and a packet that is on its way over it is lost')
    s.send(3, '10.0.0.1'); s.hear(3, 1)
    assert s.due() == [(1, 0)]
    s.turn(0, 1, False); s.hear_all(); s.show(0)
    s.note('a packet goes another way')
    s.carried(3, '10.0.0.1')
    s.note('0 loses its other link too: at first 3 does not know, and then it has no road')
    s.turn(0, 2, False)
    s.send(3, '10.0.0.1'); s.rest(); s.show(0)
    s.carried(3, '10.0.0.1')
    s.write('a')

def g():
    s = Networks('a.ties', 'a.blocks')
    bring_up(s, ((0, 1), (0, 2), (1, 2), (3, 1), (3, 2)))
    s.hear(0, 2)
    assert s.flight[2, 3] == [('update', 0, (2, 0))]
    s.note('2 has told 3, which has not heard it')
    s.show(0)
    s.note('their link goes down, by which it is lost, and up again: 2 tells anew')
    s.turn(2, 3, False); assert not s.flight.get((2, 3))
    s.turn(2, 3, True); assert s.flight[2, 3] == [('update', 0, (2, 0))]
    s.show(0)
    s.hear(2, 3); assert not s.flight.get((2, 3))
    s.show(0)
    s.hear_all(); s.show(0); s.check()
    s.write('g')

def loop():
    s = Networks('loop.ties', 'loop.blocks')
    s.note('all links come up, and everything is heard')
    bring_up(s, ((0, 1), (0, 2), (1, 2), (1, 3), (3, 2)))
    s.rest(); s.show(0); s.check()
    s.note('0 loses both its links, and not all have heard it: 1 goes by 2, 2 by 3 and 3 by 1')
    s.turn(0, 2, False); s.turn(0, 1, False)
    s.hear(1, 2); s.hear(2, 3); s.show(0)
    assert s.due() == [(1, 3), (2, 1)]
    s.note('a packet goes round until it has no step left, while 1 has told 3, and 2 has told 1, what they have not heard')
    s.send(3, '10.0.0.1')
    while len(s.due()) > 2:
        assert not s.shown[-1].startswith('packet')
        s.hear(*next(pair for pair in s.due() if s.flight[pair][0][0] == 'packet'))
    assert s.shown[-1] == 'packet to 10.0.0.1: dropped at 3, steps 255, no step left'
    assert s.due() == [(1, 3), (2, 1)]
    s.rest(); s.show(0); s.check()
    s.carried(3, '10.0.0.1')
    s.write('loop')

def shown_all(s):
    for b in range(len(s.blocks)): s.show(b)
    s.check()

def sixteen():
    rng = random.Random(16)
    s = Networks('sixteen.ties', 'sixteen.blocks')
    ties = sorted((i, j) for i, j in s.rel if i < j)
    rng.shuffle(ties)
    s.note('links come up one by one, with some of what is in flight heard in between')
    for i, j in ties:
        s.turn(i, j, True)
        for _ in range(rng.randrange(4)):
            if s.due(): s.hear(*rng.choice(s.due()))
    s.show(0)
    s.note('everything is heard, in any order')
    s.hear_all(rng.choice)
    shown_all(s)
    s.note('packets: to the own village, up and down, to an address in no block, and to a block of one address')
    for i, text in ((15, '10.0.0.7'), (8, '10.0.0.7'), (13, '10.0.1.127'), (13, '10.0.1.128'), (0, '192.168.0.1')): s.carried(i, text)
    s.note('some links are lost, and come back, while updates and packets are in flight')
    for _ in range(30):
        i, j = rng.choice(ties)
        s.turn(i, j, not s.up(i, j))
        if rng.random() < 0.3: s.send(rng.randrange(16), dotted(rng.choice(s.blocks)[1]))
        for _ in range(rng.randrange(8)):
            if s.due(): s.hear(*rng.choice(s.due()))
    s.hear_all(rng.choice)
    shown_all(s)
    s.note('a packet as before, now that these links are lost')
    s.carried(8, '10.0.0.7')
    s.note('links turn with updates and packets in flight, and all come to rest, several times')
    for _ in range(5):
        for _ in range(12):
            i, j = rng.choice(ties)
            s.turn(i, j, rng.random() < 0.6)
            if rng.random() < 0.3: s.send(rng.randrange(16), dotted(rng.choice(s.blocks)[0]))
            if s.due() and rng.random() < 0.5: s.hear(*rng.choice(s.due()))
        s.rest()
        shown_all(s)
    s.note('15 loses all its links: packets to it are dropped, but for those of its own people')
    for j in range(16):
        if s.up(15, j): s.turn(15, j, False)
    s.send(8, '10.0.0.7'); s.rest()
    shown_all(s)
    for i, text in ((8, '10.0.0.7'), (15, '10.0.0.7'), (15, '10.0.4.0')): s.carried(i, text)
    s.write('sixteen')

if __name__ == '__main__':
    a(); g(); loop(); sixteen()
