//! Nanoseconds of a turn, an ask and a give of one job after the other: the least of many short rounds.

use parbegin::{Answer, Bank, Fault};
use std::time::Instant;

const ROUNDS: usize = 500;
const TURNS: usize = 1_000;

fn main() -> Result<(), Fault> {
    let sizes: Vec<usize> = std::env::args().skip(1).filter_map(|word| word.parse().ok()).collect();
    let (jobs, resources) = (sizes[0], sizes[1]);
    let mut bank = Bank::new(&vec![100; resources])?;
    for _ in 0..jobs {
        bank.join(&vec![50; resources])?;
    }
    let mut amounts = vec![0; resources];
    amounts[0] = 1;
    let mut best = f64::INFINITY;
    for _ in 0..ROUNDS {
        let start = Instant::now();
        for i in 0..TURNS {
            assert_eq!(bank.ask(i % jobs, &amounts)?, Answer::Granted);
            bank.give(i % jobs, &amounts)?;
        }
        best = best.min(start.elapsed().as_nanos() as f64 / TURNS as f64);
    }
    println!("{best:.0}");
    Ok(())
}
