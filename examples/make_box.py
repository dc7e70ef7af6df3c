#!/usr/bin/env python3
"""Writes what a box is given and what it says: python3 examples/make_box.py

One village's box by the rules of docs/RULES.md, worked out here and not by the program: NAME.heard is what comes to it, as
bytes, NAME.told what it tells and hands on, NAME.faults what a box that goes on says is wrong. make_ties.py has to be run
before. The run for the gate goes to crates/village_box too.

A thing is a byte for the network that it comes from or goes to, and then: 1, the block (two bytes, high first), how many
networks, and the road; 2 and the block: nothing; 3, the address (four bytes, high first) and the steps left; 4, the other end
and 1 for up or 0 for down."""
import ipaddress, os
from make_script import read_ties, best, says

here = os.path.dirname(os.path.abspath(__file__))
PEOPLE = 255

def address(text): return int(ipaddress.IPv4Address(text))

def encode(blocks):
    """A block file, as in make_blocks.py, which writes its files when it is read."""
    return bytes([17, len(blocks) >> 8, len(blocks) & 255]) + b''.join(
        address(first).to_bytes(4, 'big') + address(last).to_bytes(4, 'big') + bytes([home]) for first, last, home in blocks)

def way(block, road): return bytes([1, block >> 8, block & 255, len(road), *road])
def nothing(block): return bytes([2, block >> 8, block & 255])
def packet(to, steps): return bytes([3]) + address(to).to_bytes(4, 'big') + bytes([steps])

class Refused(Exception): pass

class Box:
    def __init__(self, ties, blocks, number):
        self.n, self.rel = read_ties(ties)
        self.blocks, self.i = blocks, number
        self.lines = set()
        self.received = [{} for _ in blocks]
        self.told = [{} for _ in blocks]
        self.heard, self.out, self.faults, self.things = b'', b'', [], 0

    def route(self, block):
        home = self.blocks[block][2]
        return best(self.n, self.rel, self.i, home, lambda i, j: j in self.lines, self.received[block])

    def tell(self, block):
        """Each neighbour with a line that is up, in the order of their numbers, if it is something new."""
        route = self.route(block)
        for k in sorted(self.lines):
            new = says(self.n, self.rel, self.i, k, route)
            if new != self.told[block].get(k):
                self.told[block][k] = new
                self.out += bytes([k]) + (way(block, new) if new else nothing(block))

    def near(self, other):
        if other >= self.n: raise Refused(2, 'a network not below n')
        if (self.i, other) not in self.rel: raise Refused(6, "a network that isn't tied")
        if other not in self.lines: raise Refused(6, 'a line that is down')

    def judge(self, other, block, road):
        """The fault of a road, or of nothing, by the lowest number."""
        if other >= self.n or any(v >= self.n for v in road or ()): raise Refused(2, 'a network not below n')
        if block >= len(self.blocks): raise Refused(2, 'no such block')
        self.near(other)
        if road is None: return
        if road[0] != other: raise Refused(7, "a road that doesn't begin with the teller")
        if road[-1] != self.blocks[block][2]: raise Refused(7, "a road that doesn't end with the block's home")
        if len(set(road)) < len(road): raise Refused(8, 'a road that names a network twice')
        # what each network of the road is to the one before it: up to providers, at most once over, down to customers
        hops = [self.rel.get(pair) for pair in zip((self.i,) + road, road)]
        turns = ''.join({0: 'd', 1: 'o', 2: 'u', None: 'x'}[hop] for hop in hops)
        if turns.lstrip('u').removeprefix('o').strip('d'): raise Refused(9, "a road that isn't paid")

    def turn(self, other, up, by=None):
        by = other if by is None else by
        def step():
            if by >= self.n or other >= self.n: raise Refused(2, 'a network not below n')
            if by != other: raise Refused(6, 'a line of others')
            if (self.i, other) not in self.rel: raise Refused(10, 'no line between these networks')
            (self.lines.add if up else self.lines.discard)(other)
            for block in range(len(self.blocks)):
                self.received[block].pop(other, None)
                self.told[block].pop(other, None)
            for block in range(len(self.blocks)): self.tell(block)
        self.take(bytes([by, 4, other, int(up)]), step)

    def hear(self, other, block, road):
        def step():
            self.judge(other, block, road)
            self.received[block][other] = road
            self.tell(block)
        self.take(bytes([other]) + (nothing(block) if road is None else way(block, road)), step)

    def carry(self, other, to, steps):
        """A packet: it arrives, is handed on, or is dropped."""
        def step():
            if other != self.i: self.near(other)
            found = [b for b, (first, last, _) in enumerate(self.blocks) if address(first) <= address(to) <= address(last)]
            route = self.route(found[0]) if found else None
            if route == 'home': self.out += bytes([PEOPLE]) + packet(to, steps)
            elif route and steps: self.out += bytes([route[0]]) + packet(to, steps - 1)
        self.take(bytes([other]) + packet(to, steps), step)

    def take(self, data, step):
        self.heard += data
        try: step()
        except Refused as e: self.faults.append('box: input: fault %d at thing %d: %s\n' % (e.args[0], self.things, e.args[1]))
        self.things += 1

def write(data, *path):
    folder = os.path.join(here, *path[:-1])
    os.makedirs(folder, exist_ok=True)
    open(os.path.join(folder, path[-1]), 'wb').write(data)

def case_a():
    """The box of network 2 of a.ties: 0 and 3 are its customers, 1 its peer. A block is at home at 0, one at 2, and one at 3."""
    blocks = [('10.0.0.0', '10.0.0.255', 0), ('10.0.1.0', '10.0.1.255', 2), ('10.0.2.0', '10.0.2.255', 3)]
    box = Box('a.ties', blocks, 2)
    for other in (0, 1, 3): box.turn(other, True)
    box.hear(0, 0, (0,))                        # goes by its customer 0, and tells all
    box.hear(1, 0, (1, 0))                      # and not by its peer
    box.hear(1, 2, (1, 3))                      # by its peer 1: customers alone are told
    box.carry(0, '10.0.2.7', 2)                 # on to 1
    box.hear(3, 2, (3,))                        # by its customer 3 now, and tells all
    box.carry(1, '10.0.0.7', 250)               # on to 0
    box.carry(1, '10.0.1.7', 249)               # its own people's
    box.carry(2, '10.0.2.255', 255)             # from its own people, on to 3
    box.carry(2, '10.0.1.0', 255)               # from its own people to its own people
    box.carry(3, '10.0.0.7', 0)                 # no step left
    box.carry(3, '10.0.1.255', 0)               # arrived all the same
    box.carry(3, '10.0.3.0', 9)                 # in no block
    box.hear(0, 0, None)                        # by its peer 1: taken back from 1
    box.carry(3, '10.0.0.7', 1)                 # on to 1, the last step
    box.hear(1, 0, None)                        # by nothing: taken back from all
    box.carry(3, '10.0.0.7', 255)               # no road
    box.hear(1, 0, (1, 0))
    return box, blocks

def faults(box):
    """Things that are refused one after the other; each leaves all as it was."""
    box.hear(1, 0, (1, 3, 0))                   # 3 and 0 aren't tied
    box.hear(3, 0, (3, 1, 0))                   # down to 3 and up again
    box.hear(4, 0, (4, 0))
    box.hear(0, 3, (0,))
    box.hear(2, 0, (2, 0))
    box.hear(0, 0, (1, 0))
    box.hear(0, 0, (0, 1))
    box.hear(3, 0, (3, 1, 3, 0))
    box.turn(1, False, by=0)
    box.turn(2, True)
    box.carry(9, '10.0.0.7', 255)
    box.carry(1, '10.0.0.9', 255)               # on by 1's word

if __name__ == '__main__':
    box, blocks = case_a()
    faults(box)
    box.turn(0, False)                          # what it told goes with the line
    box.carry(0, '10.0.0.7', 255)               # so its packets are refused
    box.turn(1, False)                          # no road is left: 3 is told so
    box.carry(2, '10.0.0.7', 255)               # and a packet is dropped
    box.turn(0, True)
    box.hear(0, 0, (0,))
    write(encode(blocks), 'box.blocks')
    write(box.heard, 'box.heard')
    write(box.out, 'box.told')
    write(''.join(box.faults).encode(), 'box.faults')
    crate = ('..', 'crates', 'village_box')
    write(open(os.path.join(here, 'a.ties'), 'rb').read(), *crate, 'data', 'a.ties')
    write(encode(blocks), *crate, 'data', 'box.blocks')
    write(box.heard, *crate, 'stdin')
    write(box.out, *crate, 'stdout')
    write(b'a.ties\nbox.blocks\n2\n--go-on\n', *crate, 'args')
