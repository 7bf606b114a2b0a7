//! What a storm draws, by Rust's own `rand_pcg`: prints the lines that `bench/draws.py` prints.
// (fields are only printed)
#![allow(dead_code)]

use rand_core::{RngCore, SeedableRng};
use rand_pcg::Pcg32;
use std::fmt::Debug;

#[derive(Debug)]
enum Verdict {
    Pass,
    DropAsk,
    DropTell,
    Twice,
    LateAsk { turns: u32 },
    LateTell { turns: u32 },
}

#[derive(Debug)]
struct Epoch {
    number: u64,
}

#[derive(Debug)]
enum Node {
    Cell { index: u32 },
    Log { epoch: Epoch, index: u32 },
    Sequencer { epoch: Epoch },
}

#[derive(Debug)]
struct LogId {
    epoch: Epoch,
    index: u32,
}

#[derive(Debug)]
enum Blow {
    Crash { node: Node },
    Lose { log: LogId },
}

#[derive(Debug)]
struct Bytes {
    content: Vec<u8>,
}

#[derive(Debug)]
enum Op {
    Add,
    Xor,
}

#[derive(Debug)]
enum Mutation {
    Set { key: Bytes, value: Bytes },
    Clear { begin: Bytes, end: Bytes },
    Atomic { op: Op, key: Bytes, param: Bytes },
}

fn word_of(number: u64) -> u32 {
    Pcg32::seed_from_u64(number).next_u32()
}

fn verdict(strength: u32, late: u32, word: u32) -> Verdict {
    let turns = (word >> 25) % 64 + 1;
    match (word % 256 < strength, word / 256 % 3) {
        (true, 0) => Verdict::DropAsk,
        (true, 1) => Verdict::DropTell,
        (true, _) => Verdict::Twice,
        _ if word / 65536 % 256 >= late => Verdict::Pass,
        _ if word >> 24 & 1 == 0 => Verdict::LateAsk { turns },
        _ => Verdict::LateTell { turns },
    }
}

/// What befalls a node of a chosen generation, each of which is (epoch, logs, degree).
fn blow(crashes: u32, losses: u32, chosen: &[(u64, u32, u32)], word: u32) -> Option<Blow> {
    let (number, logs, degree) = chosen[word as usize / 65536 % chosen.len()];
    let (epoch, round, high) = (Epoch { number }, (number / 256) as u32, word >> 24);
    if word % 256 < crashes {
        let index = high % (logs + 1);
        let node = if index < logs { Node::Log { epoch, index } } else { Node::Sequencer { epoch } };
        return Some(Blow::Crash { node });
    }
    if word / 256 % 256 < losses && degree > 1 {
        let index = (round + high % (degree - 1)) % logs;
        return Some(Blow::Lose { log: LogId { epoch, index } });
    }
    None
}

fn crash(strength: u32, coordinators: u32, logs: u32, word: u32) -> Option<Blow> {
    let number = word / 256;
    let node = if word / 65536 % 2 == 0 {
        Node::Cell { index: number % coordinators }
    } else {
        Node::Log { epoch: Epoch { number: 257 }, index: number % logs }
    };
    (word % 256 < strength).then_some(Blow::Crash { node })
}

fn bytes(content: &[u8]) -> Bytes {
    Bytes { content: content.to_vec() }
}

fn orders(seed: u64, number: u64, shards: u32, many: u32) {
    println!("batches of workload {number} in a storm of seed {seed}, over {shards} shards:");
    let mut generator = Pcg32::seed_from_u64(seed.wrapping_add(number));
    for _ in 0..many {
        let (word, operand) = (generator.next_u32(), generator.next_u32());
        let begin = (word % shards * 8) as u8;
        let key = bytes(&[begin, (word / 256 % 4) as u8]);
        let operand = bytes(&operand.to_be_bytes());
        let mutation = match word / 65536 % 4 {
            0 => Mutation::Set { key, value: operand },
            1 => Mutation::Atomic { op: Op::Add, key, param: operand },
            2 => Mutation::Atomic { op: Op::Xor, key, param: operand },
            _ => Mutation::Clear { begin: bytes(&[begin]), end: bytes(&[begin, 2]) },
        };
        println!("  1 {:?}", [mutation]);
    }
}

fn show<T: Debug>(title: &str, lines: impl Iterator<Item = T>) {
    println!("{title}:");
    for line in lines {
        println!("  {line:?}");
    }
}

fn main() {
    println!("the first word that a number gives:");
    for number in [0, 1, 2, 3, 42, 2021, 1 << 32, 1 << 63, u64::MAX] {
        println!("  {number} {}", word_of(number));
    }
    show("words 0 to 3 of the greatest seed", (0..4).map(|call| word_of(u64::MAX.wrapping_add(call))));
    let title = "asks 0 to 23 in a storm of seed 1 and strength 128";
    show(title, (0..24).map(|call| verdict(128, 0, word_of(1 + call))));
    for (strength, many) in [(100, 13), (256, 16)] {
        let title = format!("crashes of seed 7 and strength {strength}, with 5 coordinators and 6 logs");
        show(&title, (0..many).map(|call| crash(strength, 5, 6, word_of(7 + call))));
    }
    let title = "asks 0 to 23 in a storm of seed 5, strength 64 and lateness 160";
    show(title, (0..24).map(|call| verdict(64, 160, word_of(5 + call))));
    let chosen = [(257, 6, 2), (513, 4, 4), (769, 1, 1)];
    let title = "blows of seed 9, 100 crashes and 160 losses, of generations 257 (6 logs, 2), 513 (4, 4) and 769 (1, 1)";
    show(title, (0..24).map(|call| blow(100, 160, &chosen, word_of(9 + call))));
    let title = "whether nodes that ask are gone, of seed 3 and 100 crashes";
    show(title, (0..16).map(|call| word_of(3 + call) % 256 < 100));
    println!("of how many calls one is refused, of the numbers 0, 1, 64, 65, 4112 and 8208, of seed 6 and at least 300:");
    for number in [0, 1, 64, 65, 4112, 8208] {
        let every = 300 + word_of(6 + number) % 300;
        println!("  {every} of {every}");
    }
    orders(1, 0, 3, 12);
    orders(u64::MAX, 2, 32, 8);
}
