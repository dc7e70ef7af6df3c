#!/usr/bin/env python3
"""Runs a `bin/box` for each network, and carries between them what they tell: python3 examples/boxes.py [TIES BLOCKS [SEED..]]

Each box is a process of its own, with pipes. What one writes to another is kept in order and carried on thing by thing, by
chance from the seed, and without waiting for answers, so that it also depends on how fast each box is. Lines come up one by one,
packets are sent meanwhile, lines are cut, by which what is in flight over them is lost, and come back. Each time all is heard it
is compared with what `bin/settle` prints for the same lines: what each box told each neighbour last of each block, if anything,
and for each network and block the road that a packet takes from there, box by box, and how many steps it has left at its end. It
ends with status 1 if there was a difference, or a box refused something or ended.

It waits for a box by a turn of that network's line to itself, which is refused with number 10, a line on standard error: the box
answers what it has read before it reads more, so when the second of two such lines is there, what it told before is too."""
import collections, os, random, select, subprocess, sys, tempfile

here = os.path.dirname(os.path.abspath(__file__))
bin_ = os.path.join(here, '..', 'bin')
WAY, NOTHING, PACKET, TURN = 1, 2, 3, 4
PEOPLE = 255

class Different(Exception): pass

def read_ties(name):
    """How many networks there are, and of each tied pair whether the second is the first's customer."""
    data = open(name, 'rb').read()
    customer = {}
    for k in range(4, len(data), 3):
        i, j, kind = data[k:k + 3]
        customer[i, j], customer[j, i] = False, kind == 1
    return data[1], customer

def read_blocks(name):
    data = open(name, 'rb').read()
    return [(data[k:k + 4], data[k + 8]) for k in range(3, len(data), 9)]

def thing_at(data):
    """How many bytes the thing at the front has, its network counted, or None where it isn't whole."""
    if len(data) < 5: return 4 if len(data) == 4 and data[1] == NOTHING else None
    size = {WAY: 5 + data[4], NOTHING: 4, PACKET: 7}[data[1]]
    return size if size <= len(data) else None

class Box:
    """A process, and what it wrote and is not yet taken."""
    def __init__(self, ties, blocks, number):
        self.number = number
        self.process = subprocess.Popen([os.path.join(bin_, 'box'), ties, blocks, str(number), '--go-on'],
                                        stdin=subprocess.PIPE, stdout=subprocess.PIPE, stderr=subprocess.PIPE, bufsize=0)
        self.out, self.errors, self.marks = b'', b'', 0
        for pipe in (self.process.stdin, self.process.stdout, self.process.stderr): os.set_blocking(pipe.fileno(), False)

    def pump(self, wait=None):
        """Takes what stands in the pipes."""
        pipes = [self.process.stdout, self.process.stderr]
        while ready := select.select(pipes, [], [], wait or 0)[0]:
            wait = None
            for pipe in ready:
                data = pipe.read(1 << 16)
                if not data: raise Different(f'box {self.number} has ended: {self.errors.decode()}')
                if pipe is self.process.stdout: self.out += data
                else: self.errors += data
        while b'\n' in self.errors:
            line, self.errors = self.errors.split(b'\n', 1)
            if b': fault 10 ' not in line: raise Different(f'box {self.number}: {line.decode()}')
            self.marks += 1

    def give(self, data):
        while data:
            self.pump()
            data = data[self.process.stdin.write(data) or 0:]

    def settle(self):
        """Waits until all that it was given is answered, and its answer taken."""
        for _ in range(2):
            awaited = self.marks + 1
            self.give(bytes([self.number, TURN, self.number, 1]))
            while self.marks < awaited: self.pump(10)
        self.pump()

    def things(self):
        """What it wrote, each with where it goes."""
        while size := thing_at(self.out):
            yield self.out[0], self.out[1:size]
            self.out = self.out[size:]

    def end(self):
        """It ends by itself once its input does."""
        self.process.stdin.close()
        status = self.process.wait(10)
        if status != 0 or self.out: raise Different(f'box {self.number}: status {status}, {len(self.out)} bytes of no thing')

class Villages:
    def __init__(self, ties, blocks, seed):
        self.ties, self.blocks_file, self.rng = ties, blocks, random.Random(seed)
        self.n, self.customer = read_ties(ties)
        self.blocks = read_blocks(blocks)
        self.pairs = sorted((i, j) for i, j in self.customer if i < j)
        self.boxes = [Box(ties, blocks, i) for i in range(self.n)]
        self.up, self.flight, self.told = set(), collections.defaultdict(collections.deque), {}
        self.carried = self.lost = self.compared = self.roads = 0
        self.ended = []

    def collect(self, i):
        """Puts what box i wrote on its lines."""
        self.boxes[i].pump()
        for to, thing in self.boxes[i].things():
            if to == PEOPLE:
                self.ended.append((i, thing))
                continue
            if frozenset((i, to)) not in self.up: raise Different(f'box {i} tells {to}, to which no line is up')
            if thing[0] != PACKET: self.told[i, to, thing[1] << 8 | thing[2]] = tuple(thing[4:]) if thing[0] == WAY else None
            self.flight[i, to].append(thing)

    def carry(self):
        """Carries the oldest thing of one line, one way, without waiting; False where there is none."""
        for i in range(self.n): self.collect(i)
        due = sorted(pair for pair, things in self.flight.items() if things)
        if due:
            i, j = self.rng.choice(due)
            self.boxes[j].give(bytes([i]) + self.flight[i, j].popleft())
            self.carried += 1
        return bool(due)

    def rest(self):
        """Until no box has anything to answer, and nothing is in flight."""
        while True:
            while self.carry(): pass
            for box in self.boxes: box.settle()
            for i in range(self.n): self.collect(i)
            if not any(self.flight.values()): return

    def turn(self, i, j, up):
        """What is in flight between the two is lost, and each end is told that its line turned."""
        for k in (i, j): self.boxes[k].settle(); self.collect(k)
        (self.up.add if up else self.up.discard)(frozenset((i, j)))
        for a, c in ((i, j), (j, i)):
            self.lost += len(self.flight.pop((a, c), ()))
            for b in range(len(self.blocks)): self.told.pop((a, c, b), None)
        for a, c in ((i, j), (j, i)): self.boxes[a].give(bytes([c, TURN, c, int(up)]))

    def send(self, i, block):
        """The people of i send a packet to a block's first address."""
        self.boxes[i].give(bytes([i, PACKET]) + self.blocks[block][0] + bytes([255]))

    def arrangement(self):
        """By block and network, what `settle` prints: None, or the road, of no network at home."""
        with tempfile.NamedTemporaryFile('w', suffix='.lines') as lines:
            for i, j in self.pairs: lines.write(f"turn {i} {j} {'up' if frozenset((i, j)) in self.up else 'down'}\n")
            lines.flush()
            text = subprocess.run([os.path.join(bin_, 'settle'), self.ties, self.blocks_file, lines.name],
                                  stdout=subprocess.PIPE, check=True, text=True).stdout
        roads, block = {}, -1
        for line in text.splitlines():
            first, rest = line.split(' ', 1)
            if first == 'block': block += 1
            elif rest == 'home': roads[block, int(first)] = ()
            else: roads[block, int(first)] = tuple(map(int, rest.split(' over ')[1].split(', '))) if ' over ' in rest else None
        assert len(roads) == self.n * len(self.blocks)
        return roads

    def owed(self, i, k, road):
        """What i tells k, going by this."""
        if road is None: return None
        return (i,) + road if not road or self.customer[i, road[0]] or self.customer[i, k] else None

    def road_of(self, i, block):
        """The boxes that a packet from i goes through, nothing else being in flight, and what it is when it has arrived."""
        self.ended = []
        self.send(i, block)
        road, here = [], i
        while True:
            self.boxes[here].settle(); self.collect(here)
            due = [(pair, things) for pair, things in self.flight.items() if things]
            if not due: return tuple(road), self.ended
            [((here, to), things)] = due
            self.boxes[to].give(bytes([here]) + things.popleft())
            road.append(to); here = to

    def check(self):
        """All is heard: what was told, and where packets go, is what the arrangement says."""
        self.rest()
        roads = self.arrangement()
        for (block, i), road in sorted(roads.items()):
            for k in range(self.n):
                if frozenset((i, k)) in self.up and i != k:
                    told, owed = self.told.get((i, k, block)), self.owed(i, k, road)
                    if told != owed: raise Different(f'block {block}: {i} told {k} {told}, and by the arrangement {owed}')
                    self.compared += 1
            taken, ended = self.road_of(i, block)
            home = self.blocks[block][1]
            arrived = [] if road is None else [(home, bytes([PACKET]) + self.blocks[block][0] + bytes([255 - len(road)]))]
            if taken != (road or ()) or ended != arrived:
                raise Different(f'block {block}: a packet from {i} went over {taken}, {ended}, and the road is {road}')
            self.roads += 1

    def play(self):
        rng = self.rng
        for i, j in rng.sample(self.pairs, len(self.pairs)):
            self.turn(i, j, True)
            for _ in range(rng.randrange(6)): self.carry()
        self.check()
        for _ in range(4):
            for _ in range(rng.randrange(2, 9) if self.pairs else 0):
                busy = sorted((min(pair), max(pair)) for pair, things in self.flight.items() if things)
                self.turn(*rng.choice(busy if busy and rng.random() < 0.5 else self.pairs), rng.random() < 0.4)
                self.send(rng.randrange(self.n), rng.randrange(len(self.blocks)))
                for _ in range(rng.randrange(6)): self.carry()
            self.check()
        for box in self.boxes: box.end()

def run(ties, blocks, seed):
    villages = Villages(ties, blocks, seed)
    try: villages.play()
    except Different as difference:
        print(f'seed {seed}: {difference}')
        return False
    finally:
        for box in villages.boxes:
            if box.process.poll() is None: box.process.kill()
    print(f'seed {seed}: {villages.n} boxes, {villages.carried} things carried and {villages.lost} lost with their lines, the same as '
          f'settle has at {villages.compared} places of what was told last, and for {villages.roads} roads of packets')
    return True

def main():
    words = sys.argv[1:]
    ties, blocks = words[:2] if words else (os.path.join(here, 'a.ties'), os.path.join(here, 'a.blocks'))
    for program in ('box', 'settle'): subprocess.run([os.path.join(bin_, program), '--help'], stdout=subprocess.DEVNULL, check=True)
    done = [run(ties, blocks, int(seed)) for seed in words[2:] or range(1, 6)]
    sys.exit(0 if all(done) else 1)

if __name__ == '__main__':
    main()
