//! Pushes and peeks of the plain log of bench/twin: bytes in, bytes out, as pushes.c does it through the C library.
#![allow(dead_code)]

#[path = "../twin/src/batch.rs"]
mod batch;
#[path = "../twin/src/blob.rs"]
mod blob;
#[path = "../twin/src/log.rs"]
mod log;
mod messages;
mod state;

use batch::{Batch, Mutation};
use log::Log;
use messages::{LogAsk, LogTell, Peek, Push, Record};
use state::{Generation, State};
use std::sync::Arc;

/// Batch number n, of 100 bytes: it sets a key of 8 bytes to 82.
fn spelled(n: u64) -> [u8; 100] {
    let mut bytes = [n as u8; 100];
    bytes[..6].copy_from_slice(&[1, 0, 1, 1, 0, 8]);
    bytes[6..14].copy_from_slice(&n.to_be_bytes());
    bytes[14..18].copy_from_slice(&82u32.to_be_bytes());
    bytes
}

/// The batch that bytes spell, if it is one set.
fn decoded(bytes: &[u8]) -> Option<Batch> {
    let left = bytes.strip_prefix(&[1, 0, 1, 1])?;
    let (size, left) = left.split_first_chunk()?;
    let (key, left) = left.split_at_checked(u16::from_be_bytes(*size).into())?;
    let (size, value) = left.split_first_chunk()?;
    let is_whole = value.len() == u32::from_be_bytes(*size) as usize;
    let set = is_whole.then(|| Mutation::Set { key: key.to_vec(), value: value.to_vec() })?;
    Batch::new(vec![set]).ok()
}

fn encode(record: &Record, out: &mut Vec<u8>) {
    out.extend(record.version.to_be_bytes());
    out.extend([1, 0, 1]);
    if let [Mutation::Set { key, value }] = record.batch.mutations() {
        out.push(1);
        out.extend((key.len() as u16).to_be_bytes());
        out.extend(key);
        out.extend((value.len() as u32).to_be_bytes());
        out.extend(value);
    }
}

fn main() {
    let count: u64 = std::env::args().nth(1).and_then(|it| it.parse().ok()).expect("how many pushes");
    let generation = Generation { epoch: 257, m: 1, k: 1, first: 1, seeded_to: 0 };
    let mut log = Log::started(&generation, 0, &Arc::new(State(vec![generation])));
    for n in 0..count {
        let batch = Arc::new(decoded(&spelled(n)).expect("a batch"));
        let (prev, version, known) = (n + 1, n + 2, n + 1);
        let push = Push { epoch: 257, prev, version, known, bodies: vec![(0, batch)], mark: None };
        assert_eq!(log.ask(&LogAsk::Push(Arc::new(push))), LogTell::Held { version });
    }
    let (mut after, mut bytes, mut sum, mut out) = (1, 0, 0u64, Vec::new());
    while after < count + 1 {
        let LogTell::Peeked(peeked) = log.ask(&LogAsk::Peek(Peek { after, epoch: 257, most: 100, tag: 0 })) else {
            panic!("the log refuses a peek")
        };
        out.clear();
        peeked.records.iter().for_each(|record| encode(record, &mut out));
        bytes += out.len();
        sum = out.iter().step_by(61).fold(sum, |sum, byte| sum.wrapping_mul(31).wrapping_add((*byte).into()));
        after = peeked.upto;
    }
    println!("{count} pushes, {bytes} bytes peeked, sum {sum}");
}
