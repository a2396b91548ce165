//! Safe Rust over the proved banker and the commands of parbegin.
//!
//! Nothing checks a call from Rust against the contract of the call. Here the borrow checker gives what the calls
//! ask for: references to whole values that nobody else uses during the call; and [`Bank`] has no public field and
//! is made by [`Bank::new`] and [`Bank::adopt`] alone, so each call finds it as the last one left it. So no function
//! below is `unsafe`.

mod bank;
mod commands;
mod remote;
mod saved;

pub use bank::{Answer, BYTES, Bank, Fault, MAX_JOBS, MAX_RESOURCES, Reason};
pub use commands::{call, check, claims, plan};
pub use remote::{RemoteAnswer, RemoteBank, RemoteFault};
