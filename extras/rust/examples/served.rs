//! Two jobs of a served bank, in a session each: `served ADDRESS`. The second one waits for what the first one holds.

use std::io::{self, BufRead};
use std::time::Duration;

use parbegin::{RemoteAnswer, RemoteBank, RemoteFault};

const LEASE: u32 = 600;
const PATIENCE: Duration = Duration::from_secs(60);

fn main() -> Result<(), RemoteFault> {
    let address = std::env::args().nth(1).unwrap_or_default();
    let mut first = RemoteBank::open(&address, LEASE, PATIENCE)?;
    first.join("first", "2 tape")?;
    assert_eq!(first.ask("first", "1 tape")?, RemoteAnswer::Granted);
    assert_eq!(first.ask("first", "2 tape")?, RemoteAnswer::OverClaim);
    println!("asked");
    // (the server may be another one after this line)
    let mut line = String::new();
    io::stdin().lock().read_line(&mut line).expect("a line");
    let mut second = RemoteBank::open(&address, LEASE, PATIENCE)?;
    second.join("second", "3 tape")?;
    assert_eq!(second.want("second", "3 tape")?, RemoteAnswer::NotNow);
    assert!(!second.wait("second", Duration::ZERO)?);
    let before = first.fence()?;
    first.give("first", "1 tape")?;
    assert!(second.wait("second", PATIENCE)?);
    assert!(second.fence()? > before);
    match second.say("ask none 1 tape") {
        Err(RemoteFault::Refused(line)) => println!("{line}"),
        other => panic!("{other:?}"),
    }
    second.leave("second")?;
    first.leave("first")?;
    println!("ended");
    Ok(())
}
