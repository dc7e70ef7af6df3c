// An independent program for the job of `box TIES BLOCKS NUMBER`, in plain Rust, written from the rules alone: to compare what is
// written, and times. It takes its files to be right, and stops at the first thing that is refused.
use std::io::{self, BufReader, BufWriter, Read, Write};
use std::{env, fs, process};

#[derive(Clone, Copy, PartialEq)]
enum Relation {
    None,
    Customer,
    Peer,
    Provider,
}

#[derive(Clone, Copy, PartialEq)]
enum Choice {
    Nothing,
    Home,
    By(usize),
}

struct Block {
    first: u32,
    last: u32,
    home: usize,
}

// What is held of one neighbour and one block.
#[derive(Clone, Default)]
struct Held {
    received: Option<Vec<u8>>,
    told: Option<Vec<u8>>,
}

struct Village {
    n: usize,
    me: usize,
    relation: Vec<Vec<Relation>>,
    blocks: Vec<Block>,
    up: Vec<bool>,
    // by block and neighbour
    held: Vec<Vec<Held>>,
}

enum Thing {
    Way(usize, Vec<u8>),
    Nothing(usize),
    Packet(u32, u8),
    Turn(usize, bool),
}

fn read_relations(bytes: &[u8]) -> Vec<Vec<Relation>> {
    let n = bytes[1] as usize;
    let mut relation = vec![vec![Relation::None; n]; n];
    for tie in bytes[4..].chunks(3) {
        let (i, j) = (tie[0] as usize, tie[1] as usize);
        let (to_i, to_j) = match tie[2] {
            1 => (Relation::Provider, Relation::Customer),
            _ => (Relation::Peer, Relation::Peer),
        };
        relation[i][j] = to_i;
        relation[j][i] = to_j;
    }
    relation
}

fn read_blocks(bytes: &[u8]) -> Vec<Block> {
    let address = |bytes: &[u8]| u32::from_be_bytes(bytes.try_into().unwrap());
    bytes[3..]
        .chunks(9)
        .map(|block| Block { first: address(&block[..4]), last: address(&block[4..8]), home: block[8] as usize })
        .collect()
}

// The thing behind its network, or why there is none.
fn read_thing(input: &mut impl Read) -> Result<Thing, u8> {
    fn bytes<const N: usize>(input: &mut impl Read) -> Result<[u8; N], u8> {
        let mut bytes = [0; N];
        input.read_exact(&mut bytes).map_err(|_| 1)?;
        Ok(bytes)
    }
    match bytes(input)? {
        [1] => {
            let [high, low, length] = bytes(input)?;
            if length == 0 || length > 64 {
                return Err(1);
            }
            let mut path = vec![0; length as usize];
            input.read_exact(&mut path).map_err(|_| 1)?;
            Ok(Thing::Way(u16::from_be_bytes([high, low]) as usize, path))
        }
        [2] => Ok(Thing::Nothing(u16::from_be_bytes(bytes(input)?) as usize)),
        [3] => {
            let [a, b, c, d, steps] = bytes(input)?;
            Ok(Thing::Packet(u32::from_be_bytes([a, b, c, d]), steps))
        }
        [4] => match bytes(input)? {
            [other, up @ (0 | 1)] => Ok(Thing::Turn(other as usize, up == 1)),
            _ => Err(1),
        },
        _ => Err(1),
    }
}

fn rank(relation: Relation) -> usize {
    match relation {
        Relation::Customer => 0,
        Relation::Peer => 1,
        Relation::Provider => 2,
        Relation::None => 3,
    }
}

impl Village {
    fn choose(&self, block: usize) -> Choice {
        if self.blocks[block].home == self.me {
            return Choice::Home;
        }
        let ranks = &self.relation[self.me];
        (0..self.n)
            .filter(|&j| self.up[j])
            .filter_map(|j| Some((j, self.held[block][j].received.as_ref()?)))
            .filter(|(_, path)| !path.contains(&(self.me as u8)))
            .min_by_key(|&(j, path)| (rank(ranks[j]), path.len(), j))
            .map_or(Choice::Nothing, |(j, _)| Choice::By(j))
    }

    // What is told of a block, going by this, and whether to customers alone.
    fn says(&self, block: usize, choice: Choice) -> (Option<Vec<u8>>, bool) {
        let me = self.me as u8;
        match choice {
            Choice::Nothing => (None, false),
            Choice::Home => (Some(vec![me]), false),
            Choice::By(j) => {
                let path = self.held[block][j].received.iter().flatten().copied();
                let own: Vec<u8> = std::iter::once(me).chain(path).collect();
                (Some(own).filter(|own| own.len() <= 64), self.relation[self.me][j] != Relation::Customer)
            }
        }
    }

    fn tell(&mut self, block: usize, out: &mut impl Write) -> io::Result<()> {
        let (own, customers_alone) = self.says(block, self.choose(block));
        let [high, low] = (block as u16).to_be_bytes();
        for k in (0..self.n).filter(|&k| self.up[k]) {
            let told = &mut self.held[block][k].told;
            let now = own.as_ref().filter(|_| !customers_alone || self.relation[self.me][k] == Relation::Customer);
            if now == told.as_ref() {
                continue;
            }
            match now {
                None => out.write_all(&[k as u8, 2, high, low])?,
                Some(path) => {
                    out.write_all(&[k as u8, 1, high, low, path.len() as u8])?;
                    out.write_all(path)?;
                }
            }
            *told = now.cloned();
        }
        Ok(())
    }

    fn check_line(&self, j: usize) -> Result<(), u8> {
        if self.relation[self.me][j] == Relation::None || !self.up[j] { Err(6) } else { Ok(()) }
    }

    fn paid(&self, path: &[u8]) -> bool {
        let (mut here, mut downhill) = (self.me, false);
        for &next in path {
            match (self.relation[here][next as usize], downhill) {
                (Relation::Provider, false) | (Relation::Customer, _) | (Relation::Peer, false) => {}
                _ => return false,
            }
            downhill = downhill || self.relation[here][next as usize] != Relation::Provider;
            here = next as usize;
        }
        true
    }

    fn check_path(&self, j: usize, block: usize, path: &[u8]) -> Result<(), u8> {
        if path[0] as usize != j || path[path.len() - 1] as usize != self.blocks[block].home {
            return Err(7);
        }
        let mut seen = [false; 64];
        for &k in path {
            if seen[k as usize] {
                return Err(8);
            }
            seen[k as usize] = true;
        }
        if self.paid(path) { Ok(()) } else { Err(9) }
    }

    fn hear(&mut self, j: usize, block: usize, path: Option<Vec<u8>>, out: &mut impl Write) -> Result<(), u8> {
        let networks = path.as_deref().unwrap_or(&[]);
        if j >= self.n || networks.iter().any(|&k| k as usize >= self.n) || block >= self.blocks.len() {
            return Err(2);
        }
        self.check_line(j)?;
        if let Some(path) = &path {
            self.check_path(j, block, path)?;
        }
        self.held[block][j].received = path;
        self.tell(block, out).map_err(|_| 0)
    }

    fn carry(&mut self, j: usize, address: u32, steps: u8, out: &mut impl Write) -> Result<(), u8> {
        if j >= self.n {
            return Err(2);
        }
        if j != self.me {
            self.check_line(j)?;
        }
        let beginning = self.blocks.partition_point(|block| block.first <= address);
        let Some(block) = beginning.checked_sub(1).filter(|&block| address <= self.blocks[block].last) else {
            return Ok(());
        };
        let (to, steps) = match self.choose(block) {
            Choice::Home => (255, steps),
            Choice::By(k) if steps > 0 => (k as u8, steps - 1),
            _ => return Ok(()),
        };
        let [a, b, c, d] = address.to_be_bytes();
        out.write_all(&[to, 3, a, b, c, d, steps]).map_err(|_| 0)
    }

    fn turn(&mut self, j: usize, other: usize, up: bool, out: &mut impl Write) -> Result<(), u8> {
        if j >= self.n || other >= self.n {
            return Err(2);
        }
        if j != other {
            return Err(6);
        }
        if self.relation[self.me][other] == Relation::None {
            return Err(10);
        }
        self.up[other] = up;
        for block in 0..self.blocks.len() {
            self.held[block][other] = Held::default();
        }
        for block in 0..self.blocks.len() {
            self.tell(block, out).map_err(|_| 0)?;
        }
        Ok(())
    }

    fn take(&mut self, j: usize, thing: Thing, out: &mut impl Write) -> Result<(), u8> {
        match thing {
            Thing::Way(block, path) => self.hear(j, block, Some(path), out),
            Thing::Nothing(block) => self.hear(j, block, None, out),
            Thing::Packet(address, steps) => self.carry(j, address, steps, out),
            Thing::Turn(other, up) => self.turn(j, other, up, out),
        }
    }
}

fn run(village: &mut Village, input: &mut impl Read, out: &mut impl Write) -> Result<(), u8> {
    loop {
        let mut network = [0];
        if input.read(&mut network).map_err(|_| 0)? == 0 {
            return Ok(());
        }
        let thing = read_thing(input)?;
        village.take(network[0] as usize, thing, out)?;
    }
}

fn main() {
    let words: Vec<String> = env::args().skip(1).collect();
    let relation = read_relations(&fs::read(&words[0]).unwrap());
    let blocks = read_blocks(&fs::read(&words[1]).unwrap());
    let (n, me) = (relation.len(), words[2].parse().unwrap());
    let held = vec![vec![Held::default(); n]; blocks.len()];
    let mut village = Village { n, me, relation, blocks, up: vec![false; n], held };
    let mut input = BufReader::with_capacity(1 << 16, io::stdin().lock());
    let mut out = BufWriter::with_capacity(1 << 16, io::stdout().lock());
    let done = run(&mut village, &mut input, &mut out);
    out.flush().unwrap();
    if let Err(number) = done {
        eprintln!("box: fault {number}");
        process::exit(1);
    }
}
