//! A batch runner's night: jobs join, ask for devices, wait until the bank lends them, and leave.

use parbegin::{Answer, Bank, Fault, Reason};

/// Asks for each request, and returns those that wait.
fn serve(bank: &mut Bank, requests: Vec<(usize, [u32; 2])>) -> Result<Vec<(usize, [u32; 2])>, Fault> {
    let mut waiting = Vec::new();
    for (job, amounts) in requests {
        match bank.ask(job, &amounts)? {
            Answer::Granted => println!("job {job} gets {amounts:?}"),
            Answer::OverClaim => println!("job {job} never gets {amounts:?}"),
            Answer::NotNow => {
                println!("job {job} waits for {amounts:?}");
                if let Reason::Rest(jobs) = bank.why(job, &amounts)? {
                    println!("  else these could not finish: {jobs:?}");
                }
                waiting.push((job, amounts));
            }
        }
    }
    Ok(waiting)
}

fn main() -> Result<(), Fault> {
    let mut bank = Bank::new(&[1, 1])?;
    for claims in [[1, 1], [1, 1], [1, 0]] {
        println!("job {} joins", bank.join(&claims)?);
    }
    // Two jobs need the same tape and the same disk in opposite order; a third is greedy.
    let requests = vec![(1, [0, 1]), (0, [1, 0]), (1, [1, 0]), (0, [0, 1]), (2, [2, 0])];
    let mut waiting = serve(&mut bank, requests)?;
    for job in bank.order() {
        bank.leave(job)?;
        println!("job {job} ends");
        waiting = serve(&mut bank, waiting)?;
    }
    Ok(())
}
