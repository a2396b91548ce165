//! Asks the banker of banker.rs again and again.
//! Takes the kind of request, the numbers of processes and resources and how often to ask, and says how long it took.
#[allow(dead_code)]
mod banker;

use banker::{Answer, Banker, Bundle};
use std::hint::black_box;
use std::time::Instant;

const CAPITAL: u32 = 1_000_000;

/// What each process may hold of each resource: all of it, or, in a chain, of the last resource so much that each
/// process but the first two fits only when all of greater number have ended.
fn claims(chain: bool, processes: usize, resources: usize) -> Vec<Vec<u64>> {
    let chained = |p: usize| match p {
        0 => held(processes, 0) as u64 + processes as u64 + 1,
        1 => held(processes, 1) as u64 + processes as u64,
        _ => (processes + 1 - p) as u64,
    };
    let row = |p: usize| {
        let mut row = vec![u64::from(CAPITAL); resources];
        if chain {
            row.fill(1);
            row[resources - 1] = chained(p);
        }
        row
    };
    (0..processes).map(row).collect()
}

/// What each process of the chain holds of the last resource before the request that is refused.
fn held(processes: usize, p: usize) -> u32 {
    if p < 2 { (CAPITAL - processes as u32) / 2 } else { 1 }
}

fn main() {
    let words: Vec<String> = std::env::args().collect();
    let chain = words[1] == "chain";
    let number = |i: usize| words[i].parse::<usize>().unwrap();
    let (processes, resources, rounds) = (number(2), number(3), number(4));
    let mut banker = Banker::new(&vec![CAPITAL; resources], &claims(chain, processes, resources));
    let last = resources as u8 - 1;
    if chain {
        for p in 0..processes {
            assert!(banker.ask(p, &Bundle::one(last, held(processes, p))) == Answer::Granted);
        }
    }
    let bundle = Bundle::one(last, 1);
    let start = Instant::now();
    let mut granted = 0;
    for _ in 0..rounds {
        if black_box(&mut banker).ask(black_box(0), black_box(&bundle)) == Answer::Granted {
            granted += 1;
        }
    }
    let taken = start.elapsed();
    println!("{} {granted} {}", taken.as_nanos(), banker.looked);
}
