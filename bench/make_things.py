#!/usr/bin/env python3
"""Writes into a folder what bench/box.sh runs boxes on: python3 bench/make_things.py FOLDER

64 networks, each a customer of every higher one but where every third pair are peers, and 256 blocks at home at networks 0 to 3.
The box of network 32 has a line to each of the other 63. `start.things` brings all lines up, and then neighbours tell their ways
to the blocks, in any order; each of the others begins with the same, and then has more things of one kind:

    changing   ways by which what is gone by changes, and all are told
    idle       ways by which it doesn't
    withdrawn  all ways taken back, best first, and told anew, best last, three times: what is gone by changes each time
    packets    packets to all blocks
    turning    each line goes down and comes up: all blocks are told anew"""
import os, random, sys

N, ME, BLOCKS = 64, 32, 256

def peers(i, j): return (i + j) % 3 == 0
def home(block): return block % 4

def write_ground(folder):
    pairs = [(i, j, 2 if peers(i, j) else 1) for i in range(N) for j in range(i + 1, N)]
    ties = bytes([16, N, len(pairs) >> 8, len(pairs) & 255]) + b''.join(map(bytes, pairs))
    blocks = b''.join(bytes([10, 0, b, 0, 10, 0, b, 255, home(b)]) for b in range(BLOCKS))
    for name, data in (('box.ties', ties), ('box.blocks', bytes([17, BLOCKS >> 8, BLOCKS & 255]) + blocks)):
        open(os.path.join(folder, name), 'wb').write(data)

def way(block, path): return bytes([path[0], 1, block >> 8, block & 255, len(path), *path])
def nothing(j, block): return bytes([j, 2, block >> 8, block & 255])
def turn(j, up): return bytes([j, 4, j, up])
def packet(j, block): return bytes([j, 3, 10, 0, block, 1, 200])

def down(j): return [m for m in range(j) if not peers(m, j) and m != ME]

def path_down(rng, j, block):
    """From a neighbour down to customers, to the home; None where it finds none."""
    for _ in range(20):
        path = [j]
        while path[-1] != home(block):
            below = [m for m in down(path[-1]) if m >= home(block)]
            if not below or len(path) == 6: break
            path.append(home(block) if home(block) in below and rng.random() < 0.5 else rng.choice(below))
        if path[-1] == home(block): return tuple(path)

def rank(j): return 1 if peers(ME, j) else 0 if j < ME else 2
def order(j, path): return (rank(j), len(path), j)

def short_and_long(block):
    """Two ways that the same customer tells in turn: no other has a better one than the first."""
    for j in range(4, ME):
        if rank(j) == 0 and home(block) in down(j):
            for k in range(4, j):
                if k in down(j) and home(block) in down(k): return (j, home(block)), (j, k, home(block))

def things(rng, count):
    """What all begin with; and by name what stands behind it."""
    neighbours = [j for j in range(N) if j != ME]
    start = [turn(j, 1) for j in neighbours]
    held = [{} for _ in range(BLOCKS)]
    told = [(j, b) for j in range(4, N) if j != ME for b in range(BLOCKS)]
    rng.shuffle(told)
    turns = [short_and_long(b) for b in range(BLOCKS)]
    for j, b in told:
        short = turns[b][0]
        path = short if j == short[0] else path_down(rng, j, b) if j > short[0] else None
        if path:
            held[b][j] = path
            start.append(way(b, path))
    by = lambda b: lambda j: order(j, held[b][j])
    for b, (short, _) in enumerate(turns): assert min(held[b], key=by(b)) == short[0]
    changing = [way(k % BLOCKS, turns[k % BLOCKS][1 - k // BLOCKS % 2]) for k in range(count)]
    worse = [[j for j in held[b] if j > ME and rank(j) == 2] for b in range(BLOCKS)]
    idle = [way(b, path_down(rng, rng.choice(worse[b]), b) or held[b][worse[b][0]]) for b in (rng.randrange(BLOCKS) for _ in range(count * 2))]
    orders = [sorted(h, key=by(b)) for b, h in enumerate(held)]
    back = [nothing(j, b) for b, order in enumerate(orders) for j in order]
    anew = [way(b, held[b][j]) for b, order in enumerate(orders) for j in reversed(order)]
    withdrawn = (back + anew) * 3
    packets = [packet(rng.choice(neighbours), rng.randrange(BLOCKS)) for _ in range(count * 2)]
    turning = [turn(j, up) for j in neighbours for up in (0, 1)]
    return start, {'changing': changing, 'idle': idle, 'withdrawn': withdrawn, 'packets': packets, 'turning': turning}

def main():
    folder = sys.argv[1]
    write_ground(folder)
    start, more = things(random.Random(64), 51200)
    for name, behind in {'start': [], **more}.items():
        open(os.path.join(folder, f'{name}.things'), 'wb').write(b''.join(start + behind))
        print(name, len(behind) or len(start))

if __name__ == '__main__':
    main()
