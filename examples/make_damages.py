#!/usr/bin/env python3
"""Writes what the program `damages` is run on, and what it must print: python3 examples/make_damages.py

Things that a box gets, most of them damaged, and for each which fault it has and how many bytes, or what the box writes: by
the rules of docs/RULES.md, in a few lines that share nothing with the programs. crates/damages/stdin has a line for each: a
word, the bytes in hex, and what it is. `network N` starts the box of network N, with every line down; of `keep` it goes on
from what it then holds, and `try` is made on a copy of it. crates/damages/data/four.blocks has a block at home at each network
of a.ties. make_ties.py has to be run before."""
import ipaddress, os, random
from make_script import CUSTOMER, PEER, PROVIDER, best, read_blocks, read_ties, says

here = os.path.dirname(os.path.abspath(__file__))
crate = os.path.join(here, '..', 'crates', 'damages')
WAY, NOTHING, PACKET, TURN = 1, 2, 3, 4
PEOPLE = 255

def way(network, block, path): return bytes([network, WAY, block >> 8, block & 255, len(path), *path])
def nothing(network, block): return bytes([network, NOTHING, block >> 8, block & 255])
def packet(network, address, steps): return bytes([network, PACKET]) + ipaddress.IPv4Address(address).packed + bytes([steps])
def turn(network, other, up): return bytes([network, TURN, other, up])

class Refused(Exception):
    """Of several faults the first in the order of telling: by number, and those of one number as the rules list them."""
    def __init__(self, number, words, size=None):
        self.number, self.words, self.size = number, words, size

def size_of(data):
    """How many bytes the thing at the front has, or the fault that its bytes have."""
    if len(data) > 1 and data[1] not in (WAY, NOTHING, PACKET, TURN): raise Refused(1, 'unknown kind')
    size = 2 if len(data) < 2 else {WAY: 5, NOTHING: 4, PACKET: 7, TURN: 4}[data[1]]
    if len(data) < size: raise Refused(1, 'bad length: cut short')
    if data[1] == WAY:
        if not 1 <= data[4] <= 64: raise Refused(1, 'bad length: 0 or above 64 networks')
        size += data[4]
        if len(data) < size: raise Refused(1, 'bad length: cut short')
    if data[1] == TURN and data[3] > 1: raise Refused(1, 'a line neither up nor down')
    return size

class Village:
    """The box of network i, and what it holds."""
    def __init__(self, i, n, rel, blocks):
        self.i, self.n, self.rel, self.blocks = i, n, rel, blocks
        self.lines = set()
        self.received = [{} for _ in blocks]
        self.told = [{} for _ in blocks]

    def copy(self):
        other = Village(self.i, self.n, self.rel, self.blocks)
        other.lines = set(self.lines)
        other.received, other.told = [dict(d) for d in self.received], [dict(d) for d in self.told]
        return other

    def up(self, a, b): return (b if a == self.i else a) in self.lines

    def route(self, block): return best(self.n, self.rel, self.i, self.blocks[block][2], self.up, self.received[block])

    def tell(self, block):
        written = b''
        for k in range(self.n):
            if (self.i, k) in self.rel and k in self.lines:
                now = says(self.n, self.rel, self.i, k, self.route(block))
                if now != self.told[block].get(k):
                    self.told[block][k] = now
                    written += nothing(k, block) if now is None else way(k, block, now)
        return written

    def check_teller(self, j, *others):
        if any(k >= self.n for k in (j, *others)): raise Refused(2, 'a network not below n')

    def check_line(self, j):
        if (self.i, j) not in self.rel: raise Refused(6, "a network that isn't tied")
        if j not in self.lines: raise Refused(6, 'a line that is down')

    def paid(self, path):
        """Up to providers, then at most once over to a peer, then down to customers."""
        kinds = [self.rel.get(pair) for pair in zip([self.i, *path], path)]
        if None in kinds: return False
        while kinds and kinds[0] == PROVIDER: kinds.pop(0)
        if kinds and kinds[0] == PEER: kinds.pop(0)
        return all(kind == CUSTOMER for kind in kinds)

    def hear(self, j, block, path):
        self.check_teller(j, *(path or ()))
        if block >= len(self.blocks): raise Refused(2, 'no such block')
        self.check_line(j)
        if path is not None:
            if path[0] != j: raise Refused(7, "a road that doesn't begin with the teller")
            if path[-1] != self.blocks[block][2]: raise Refused(7, "a road that doesn't end with the block's home")
            if len(set(path)) < len(path): raise Refused(8, 'a road that names a network twice')
            if not self.paid(path): raise Refused(9, "a road that isn't paid")
        self.received[block][j] = path
        return self.tell(block)

    def carry(self, j, address, steps):
        if j != self.i:
            self.check_teller(j)
            self.check_line(j)
        block = next((b for b, (first, last, _) in enumerate(self.blocks) if first <= address <= last), None)
        if block is None: return b''
        route = self.route(block)
        if route == 'home': return packet(PEOPLE, address, steps)
        if route is None or steps == 0: return b''
        return packet(route[0], address, steps - 1)

    def turn(self, j, other, up):
        self.check_teller(j, other)
        if j != other: raise Refused(6, 'a line of others')
        if (self.i, other) not in self.rel: raise Refused(10, 'no line between these networks')
        (self.lines.add if up else self.lines.discard)(other)
        for received, told in zip(self.received, self.told): received.pop(other, None); told.pop(other, None)
        return b''.join(self.tell(block) for block in range(len(self.blocks)))

    def take(self, data):
        """How many bytes the thing at the front has, and what is written."""
        size = size_of(data)
        j, kind = data[:2]
        try:
            if kind == WAY: return size, self.hear(j, data[2] << 8 | data[3], tuple(data[5:size]))
            if kind == NOTHING: return size, self.hear(j, data[2] << 8 | data[3], None)
            if kind == PACKET: return size, self.carry(j, int.from_bytes(data[2:6], 'big'), data[6])
            return size, self.turn(j, data[2], data[3] == 1)
        except Refused as fault:
            fault.size = size
            raise

def hex_of(data): return data.hex() or '-'

class Cases:
    def __init__(self, ties, blocks):
        (self.n, self.rel), self.blocks = read_ties(ties), read_blocks(blocks)
        self.lines, self.told, self.numbers = [], [], []

    def network(self, i):
        self.village, self.seen = Village(i, self.n, self.rel, self.blocks), set()
        self.lines.append(f'network {i}')
        self.told.append(f'network {i}')

    def say(self, village, data):
        try:
            size, written = village.take(data)
            self.numbers.append(0)
            self.told.append(f'takes {size} bytes, writes {hex_of(written)}')
        except Refused as fault:
            self.numbers.append(fault.number)
            of = '' if fault.size is None else f' of {fault.size} bytes'
            self.told.append(f'fault {fault.number}{of}: {fault.words}')

    def keep(self, data, what):
        self.lines.append(f'keep {hex_of(data)} {what}')
        self.say(self.village, data)
        assert self.numbers[-1] == 0
        self.seen.clear()

    def attempt(self, data, what):
        if data not in self.seen:
            self.seen.add(data)
            self.lines.append(f'try {hex_of(data)} {what}')
            self.say(self.village.copy(), data)

    def damage(self, good, what, places):
        """A good thing, cut at every place, with more behind it, and with one byte changed."""
        self.attempt(good, what)
        for length in range(len(good)): self.attempt(good[:length], f'{what}, cut after {length}')
        self.attempt(good + b'\1', f'{what}, and a byte more')
        for place, (name, values) in enumerate(places):
            for value in values:
                self.attempt(good[:place] + bytes([value]) + good[place + 1:], f'{what}, {name} {value}')

    def things(self):
        """Damaged things of all kinds, as the village now is."""
        i, n = self.village.i, self.n
        teller = ('before it', (*range(n + 1), 255))
        kind = ('kind', (0, 1, 2, 3, 4, 5, 255))
        block = [('block, high,', (1, 255)), ('block, low,', (*range(5), 255))]
        networks = ('network', (*range(n + 1), 255))
        length = ('length', (0, 1, 2, 3, 4, 64, 65, 255))
        tied = [j for j in range(n) if (i, j) in self.rel]
        for j in tied:
            self.damage(way(j, j, (j,)), f'a way to {j}', [teller, kind, *block, length, networks])
        for j in tied:
            for home in range(n):
                for path in ((j, home), (j, i, home), (j, (j + 1) % n, home), (j, j, home), (j, home, home), (j, home, j, home)):
                    self.attempt(way(j, home, path), f'a way over {path}')
        j = tied[0]
        self.damage(way(j, 3 - j, (j, 3 - j)), f'a way over {(j, 3 - j)}', [teller, kind, *block, length, networks, networks])
        self.damage(nothing(j, 1), 'nothing', [teller, kind, *block])
        steps = ('steps', (0, 1, 254, 255))
        self.damage(packet(j, '10.0.0.1', 7), 'a packet', [teller, kind, ('address', (9, 11)), ('address', (1,)), ('address', (*range(5),)), ('address', (0, 255)), steps])
        self.damage(packet(i, '10.0.3.255', 255), 'a packet of the people', [teller, kind, ('address', (9,)), ('address', (1,)), ('address', (*range(5),)), ('address', (0,)), steps])
        self.damage(turn(j, j, 0), 'a turn', [teller, kind, ('other end', (*range(n + 1), 255)), ('up', (0, 1, 2, 255))])
        for k in (*range(n + 1), 255): self.attempt(turn(k, k, 1), f'a turn of {k}')
        self.attempt(turn(n, n + 1, 2), 'a turn with three faults')
        self.attempt(way(j, 0, [j] * 64), 'a way of 64 networks')
        self.attempt(way(j, 0, list(range(65))), 'a way of 65 networks')
        self.attempt(way(j, 0, list(range(64))), 'a way of 64 others')
        self.attempt(way(n, 9, (n,)), 'a way with three faults')
        self.attempt(way(j, 9, ((j + 1) % n, j)), 'a way with two faults')

    def scatter(self, rng, count):
        """Bytes by chance, small ones."""
        for _ in range(count):
            kind = rng.choice((1, 1, 1, 2, 3, 4))
            path = [rng.randrange(self.n) for _ in range(rng.randrange(1, 4))]
            body = {1: [0, path[-1], len(path), *path], 2: [0, rng.randrange(5)], 3: [10, 0, rng.randrange(5), rng.randrange(256), rng.randrange(3)],
                    4: [rng.randrange(self.n), rng.randrange(2)]}[kind]
            self.attempt(bytes([path[0] if rng.random() < 0.7 else rng.randrange(self.n), kind, *body]), 'by chance')

    def write(self):
        for name, lines in (('stdin', self.lines), ('stdout', self.told)):
            open(os.path.join(crate, name), 'w').write(''.join(line + '\n' for line in lines))
        counts = {number: self.numbers.count(number) for number in sorted(set(self.numbers))}
        print(f'{len(self.numbers)} things; by number:', ', '.join(f'{k}: {v}' for k, v in counts.items()))

def main():
    path = os.path.join(crate, 'data', 'four.blocks')
    four = b''.join(bytes([10, 0, k, 0, 10, 0, k, 255, k]) for k in range(4))
    open(path, 'wb').write(bytes([17, 0, 4]) + four)
    rng = random.Random(400)
    c = Cases('a.ties', path)
    c.network(2)
    c.attempt(way(0, 0, (0,)), 'before any line is up')
    for j in (0, 1, 3): c.keep(turn(j, j, 1), f'the line to {j} comes up')
    c.keep(way(1, 0, (1, 0)), 'a way over 1'); c.keep(way(0, 0, (0,)), 'a better way')
    c.keep(way(1, 1, (1,)), 'a way to 1'); c.keep(way(3, 3, (3,)), 'a way to 3'); c.keep(way(1, 3, (1, 3)), 'a way that is not gone by')
    c.things()
    c.scatter(rng, 60)
    c.keep(turn(3, 3, 0), 'the line to 3 goes down')
    for data in (way(3, 3, (3,)), nothing(3, 3), packet(3, '10.0.0.1', 9), packet(2, '10.0.3.1', 255), turn(3, 3, 0), turn(3, 3, 1)):
        c.attempt(data, 'with the line to 3 down')
    c.keep(nothing(0, 0), '0 takes its way back')
    c.scatter(rng, 20)
    c.network(3)
    for j in (1, 2): c.keep(turn(j, j, 1), f'the line to {j} comes up')
    c.keep(way(1, 0, (1, 0)), 'a way over 1'); c.keep(way(2, 3, (2, 3)), 'a way that passes it')
    c.attempt(way(1, 0, (1, 3, 0)), 'a way that passes it and is not paid')
    c.attempt(way(2, 0, (2, 1, 0)), 'a way over a peer'); c.attempt(way(1, 2, (1, 2)), 'a way to a peer')
    for k in range(5): c.attempt(turn(k, k, 1), f'a turn of {k}')
    for k in range(5): c.attempt(packet(k, '10.0.0.1', 1), f'a packet from {k}')
    c.scatter(rng, 60)
    c.write()

if __name__ == '__main__':
    main()
