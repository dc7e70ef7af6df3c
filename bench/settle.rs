// An independent program for the job of `settle TIES BLOCKS LINES`, in plain Rust, written from the rules alone: to compare
// answers and times. It takes its input to be right.
use std::fmt::Write as _;
use std::{env, fs};

#[derive(Clone, Copy, PartialEq)]
enum Relation {
    None,
    Customer,
    Peer,
    Provider,
}

#[derive(Clone, PartialEq)]
enum Choice {
    Nothing,
    Home,
    By(usize, Vec<u8>),
}

struct World {
    n: usize,
    relation: Vec<Vec<Relation>>,
    up: Vec<Vec<bool>>,
}

fn read_ties(bytes: &[u8]) -> World {
    let n = bytes[1] as usize;
    let mut relation = vec![vec![Relation::None; n]; n];
    for tie in bytes[4..].chunks(3) {
        let (i, j) = (tie[0] as usize, tie[1] as usize);
        let (to_i, to_j) = match tie[2] {
            1 => (Relation::Provider, Relation::Customer),
            _ => (Relation::Peer, Relation::Peer),
        };
        relation[i][j] = to_i;
        relation[j][i] = to_j;
    }
    World { n, relation, up: vec![vec![false; n]; n] }
}

struct Block {
    first: [u8; 4],
    last: [u8; 4],
    home: usize,
}

fn read_blocks(bytes: &[u8]) -> Vec<Block> {
    let address = |bytes: &[u8]| bytes.try_into().unwrap();
    bytes[3..]
        .chunks(9)
        .map(|block| Block {
            first: address(&block[..4]),
            last: address(&block[4..8]),
            home: block[8] as usize,
        })
        .collect()
}

fn dotted(address: [u8; 4]) -> String {
    address.map(|byte| byte.to_string()).join(".")
}

fn read_lines(world: &mut World, text: &str) {
    for line in text.lines() {
        let words: Vec<&str> = line.split('#').next().unwrap().split_whitespace().collect();
        if let ["turn", i, j, state] = words[..] {
            let (i, j): (usize, usize) = (i.parse().unwrap(), j.parse().unwrap());
            world.up[i][j] = state == "up";
            world.up[j][i] = state == "up";
        }
    }
}

// What j would tell i, as it goes: whether it tells anything.
fn tells(world: &World, j: usize, i: usize, choice: &Choice) -> bool {
    match choice {
        Choice::Nothing => false,
        Choice::Home => world.relation[j][i] != Relation::None,
        Choice::By(k, path) => {
            path.len() < 64
                && match (world.relation[j][*k], world.relation[j][i]) {
                    (_, Relation::None) | (Relation::None, _) => false,
                    (Relation::Customer, _) => true,
                    (_, to) => to == Relation::Customer,
                }
        }
    }
}

fn rank(relation: Relation) -> usize {
    match relation {
        Relation::Customer => 0,
        Relation::Peer => 1,
        Relation::Provider => 2,
        Relation::None => 3,
    }
}

fn look(world: &World, home: usize, now: &[Choice], i: usize) -> Choice {
    if i == home {
        return Choice::Home;
    }
    let mut best: Option<(usize, usize, usize)> = None;
    for j in 0..world.n {
        if world.relation[i][j] == Relation::None || !world.up[i][j] || !tells(world, j, i, &now[j]) {
            continue;
        }
        let length = match &now[j] {
            Choice::By(_, path) => {
                if path.contains(&(i as u8)) {
                    continue;
                }
                path.len() + 1
            }
            _ => 1,
        };
        let key = (rank(world.relation[i][j]), length, j);
        if best.map_or(true, |old| key < old) {
            best = Some(key);
        }
    }
    match best {
        None => Choice::Nothing,
        Some((_, _, j)) => {
            let mut path = vec![j as u8];
            if let Choice::By(_, rest) = &now[j] {
                path.extend_from_slice(rest);
            }
            Choice::By(j, path)
        }
    }
}

fn settle(world: &World, home: usize) -> Vec<Choice> {
    let mut now = vec![Choice::Nothing; world.n];
    for _ in 0..2 * world.n + 1 {
        let next: Vec<Choice> = (0..world.n).map(|i| look(world, home, &now, i)).collect();
        if next == now {
            break;
        }
        now = next;
    }
    now
}

fn reaching(world: &World, home: usize) -> Vec<bool> {
    let mut reached = vec![false; world.n];
    let mut left = vec![home];
    reached[home] = true;
    while let Some(i) = left.pop() {
        for j in 0..world.n {
            if world.up[i][j] && !reached[j] {
                reached[j] = true;
                left.push(j);
            }
        }
    }
    reached
}

fn main() {
    let words: Vec<String> = env::args().skip(1).collect();
    let mut world = read_ties(&fs::read(&words[0]).unwrap());
    let blocks = read_blocks(&fs::read(&words[1]).unwrap());
    read_lines(&mut world, &fs::read_to_string(&words[2]).unwrap());
    let mut out = String::new();
    for (number, block) in blocks.iter().enumerate() {
        let home = block.home;
        let choices = settle(&world, home);
        let reached = reaching(&world, home);
        let (first, last) = (dotted(block.first), dotted(block.last));
        writeln!(out, "block {number}, {first} to {last}, home {home}").unwrap();
        for (i, choice) in choices.iter().enumerate() {
            match choice {
                Choice::Home => writeln!(out, "{i} home").unwrap(),
                Choice::Nothing if reached[i] => writeln!(out, "{i} nothing, unpaid").unwrap(),
                Choice::Nothing => writeln!(out, "{i} nothing, cut off").unwrap(),
                Choice::By(j, path) => {
                    let path: Vec<String> = path.iter().map(u8::to_string).collect();
                    writeln!(out, "{i} by {j} over {}", path.join(", ")).unwrap();
                }
            }
        }
    }
    print!("{out}");
}
