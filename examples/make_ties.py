#!/usr/bin/env python3
"""Writes the ties files of this folder: python3 examples/make_ties.py

A ties file is 16, n, the number of ties (two bytes, high first), then for each tie two networks and a kind:
1, the first is the second's customer; 2, peers. Ties stand in rising order of the first and then the second number."""
import os, random

here = os.path.dirname(os.path.abspath(__file__))

def write(name, n, customers, peers):
    ties = sorted([(a, b, 1) for a, b in customers] + [(min(a, b), max(a, b), 2) for a, b in peers])
    data = bytes([16, n, len(ties) >> 8, len(ties) & 255]) + b''.join(bytes(t) for t in ties)
    open(os.path.join(here, name), 'wb').write(data)

def sixty():
    """Four villages at the top, all peers; twelve below them; forty-four small ones with one to three providers."""
    rng, customers, peers = random.Random(60), set(), {(a, b) for a in range(4) for b in range(a + 1, 4)}
    for v in range(4, 16):
        for p in rng.sample(range(4), 2): customers.add((v, p))
    for v in range(4, 15):
        if rng.random() < 0.5: peers.add((v, v + 1))
    for v in range(16, 60):
        for p in rng.sample(range(4, 16), rng.choice([1, 2, 2, 3])): customers.add((v, p))
    for _ in range(10):
        a, b = sorted(rng.sample(range(16, 60), 2)); peers.add((a, b))
    write('sixty.ties', 60, customers, peers)

every = [(a, b) for a in range(64) for b in range(a + 1, 64)]
ring = [(v, (v + 1) % 64) for v in range(64)]

write('a.ties', 4, [(0, 1), (0, 2), (3, 1), (3, 2)], [(1, 2)])
write('c.ties', 4, [(0, 1), (3, 1), (3, 2)], [])
write('d.ties', 3, [(0, 1), (1, 2)], [(0, 2)])
write('e.ties', 1, [], [])
write('f.ties', 4, [(1, 2), (2, 3), (3, 1)], [])
write('loop.ties', 4, [(0, 1), (0, 2), (1, 3), (3, 2)], [(1, 2)])
write('sixteen.ties', 16, [(v, p) for v in range(2, 6) for p in (0, 1)] + [(v, 2 + (v + d) % 4) for v in range(6, 16) for d in (0, 1)],
      [(0, 1), (2, 3), (4, 5), (6, 7), (10, 11), (14, 15)])
write('dense.ties', 64, every, [])
write('ring.ties', 64, ring, [(a, b) for a, b in every if (a, b) not in ring and (b, a) not in ring])
sixty()
