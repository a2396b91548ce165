//! The banker.

use crate::saved;
use std::fmt;

/// The most jobs at once.
pub const MAX_JOBS: usize = 64;
/// The most resources of a bank.
pub const MAX_RESOURCES: usize = 16;
/// The bytes of a bank in memory.
const TABLES: usize = 8_464;
/// The bytes of a bank as [`Bank::to_bytes`] returns them.
pub const BYTES: usize = saved::HEAD + TABLES;

/// A bank of jobs that come and go: plain data, `Send` and `Sync`, copied by `clone`.
#[repr(C)]
#[derive(Clone)]
pub struct Bank {
    slots: usize,
    resources: usize,
    capital: [u32; MAX_RESOURCES],
    cash: [u32; MAX_RESOURCES],
    claims: [[u32; MAX_RESOURCES]; MAX_JOBS],
    loans: [[u32; MAX_RESOURCES]; MAX_JOBS],
    order: [u8; MAX_JOBS],
    jobs: [u8; MAX_JOBS],
}

const _: () = assert!(size_of::<Bank>() == TABLES);

#[repr(C)]
struct Why {
    resource: usize,
    rest: [u8; MAX_JOBS],
}

// A slice is one parameter in crates/pb_c_bank/src/exports.rt, and here its pointer and its length. Nothing compares
// the two declarations but the tests.
unsafe extern "C" {
    fn pb_bank_new(bank: *mut Bank, capital: *const u32, resources: usize) -> u32;
    fn pb_bank_adopt(bank: *mut Bank) -> u32;
    fn pb_bank_join(bank: *mut Bank, claims: *const u32, resources: usize, at: *mut usize) -> u32;
    fn pb_bank_leave(bank: *mut Bank, job: usize) -> u32;
    fn pb_bank_ask(bank: *mut Bank, job: usize, amounts: *const u32, resources: usize) -> u32;
    fn pb_bank_give(bank: *mut Bank, job: usize, amounts: *const u32, resources: usize) -> u32;
    fn pb_bank_drop_all(bank: *mut Bank, job: usize) -> u32;
    fn pb_bank_order(bank: *const Bank, order: *mut u8) -> usize;
    fn pb_bank_why(
        bank: *const Bank,
        job: usize,
        amounts: *const u32,
        resources: usize,
        why: *mut Why,
    ) -> u32;
}

/// The answer to a request.
#[derive(Clone, Copy, Debug, PartialEq, Eq)]
pub enum Answer {
    /// All amounts are lent.
    Granted,
    /// It is within the claim, but there is too little cash, or some job could not finish any more.
    NotNow,
    /// The job would hold more than its claim.
    OverClaim,
}

/// Why a request would be granted or not.
#[derive(Clone, Debug, PartialEq, Eq)]
pub enum Reason {
    Allowed,
    /// It passes the claim on this resource.
    OverClaim(usize),
    /// There is too little cash of this resource.
    OverCash(usize),
    /// These jobs could not finish after it.
    Rest(Vec<usize>),
}

/// Why a call did nothing.
#[derive(Clone, Copy, Debug, PartialEq, Eq)]
pub enum Fault {
    /// There is no such job, or not an amount for each resource.
    NoRequest,
    /// The job does not hold so much.
    NotHeld,
    /// The numbers make no bank.
    NoBank,
    /// The claim on this resource is over the capital.
    OverCapital(usize),
    /// There are 64 jobs already.
    Full,
    /// Not all jobs could finish.
    NotSafe,
    /// The bytes do not begin with the magic word of a bank.
    NoMagicWord,
    /// The bytes are of another version than this crate reads.
    OtherVersion(u32),
    /// There are more bytes or less than were written.
    NotWhole,
    /// The bytes are not those of which the checksum was made.
    Damaged,
}

impl fmt::Display for Fault {
    fn fmt(&self, f: &mut fmt::Formatter<'_>) -> fmt::Result {
        match self {
            Fault::NoRequest => f.write_str("no such job, or not an amount for each resource"),
            Fault::NotHeld => f.write_str("the job does not hold so much"),
            Fault::NoBank => f.write_str("the numbers make no bank"),
            Fault::OverCapital(r) => write!(f, "the claim on resource {r} is over the capital"),
            Fault::Full => f.write_str("there are 64 jobs already"),
            Fault::NotSafe => f.write_str("not all jobs could finish"),
            Fault::NoMagicWord => f.write_str("these are not the bytes of a bank: they do not begin with its magic word"),
            Fault::OtherVersion(v) => write!(f, "the bytes of the bank are of version {v}, and this crate reads version 1"),
            Fault::NotWhole => f.write_str("the bytes of the bank are not whole"),
            Fault::Damaged => {
                f.write_str("the bytes of the bank are damaged: they are not those of which the checksum was made")
            }
        }
    }
}

impl std::error::Error for Fault {}

fn done(said: u32, at: usize) -> Result<(), Fault> {
    match said {
        0 => Ok(()),
        4 => Err(Fault::NotHeld),
        6 => Err(Fault::NoBank),
        7 => Err(Fault::OverCapital(at)),
        8 => Err(Fault::Full),
        10 => Err(Fault::NotSafe),
        _ => Err(Fault::NoRequest),
    }
}

impl Bank {
    const EMPTY: Bank = Bank {
        slots: 0,
        resources: 0,
        capital: [0; MAX_RESOURCES],
        cash: [0; MAX_RESOURCES],
        claims: [[0; MAX_RESOURCES]; MAX_JOBS],
        loans: [[0; MAX_RESOURCES]; MAX_JOBS],
        order: [0; MAX_JOBS],
        jobs: [0; MAX_JOBS],
    };

    /// Opens a bank with this capital, of 1 to 16 resources with at most 1,000,000 of each, and no jobs.
    pub fn new(capital: &[u32]) -> Result<Bank, Fault> {
        let mut bank = Bank::EMPTY;
        // SAFETY: references to whole values, for the call.
        done(unsafe { pb_bank_new(&mut bank, capital.as_ptr(), capital.len()) }, 0)?;
        Ok(bank)
    }

    /// Makes a bank of bytes that come from anywhere, as from a file that has those of [`Bank::to_bytes`].
    pub fn adopt(bytes: &[u8]) -> Result<Bank, Fault> {
        let tables: &[u8; TABLES] = saved::behind_head(bytes)?.try_into().map_err(|_| Fault::NoBank)?;
        // SAFETY: a bank is numbers alone, without padding, so that any bytes are one.
        let mut bank: Bank = unsafe { std::mem::transmute(*tables) };
        // SAFETY: a reference to a whole value, for the call, which asks nothing of what is in it.
        done(unsafe { pb_bank_adopt(&mut bank) }, 0)?;
        Ok(bank)
    }

    /// Returns the bytes of the bank, for [`Bank::adopt`] on a machine of the same kind. They begin with a magic word, a
    /// version and a checksum, as those of the Python package do.
    #[must_use]
    pub fn to_bytes(&self) -> Vec<u8> {
        // SAFETY: a bank is numbers alone, without padding, so that it is so many bytes.
        let tables: &[u8; TABLES] = unsafe { &*std::ptr::from_ref(self).cast() };
        [&saved::head(tables)[..], &tables[..]].concat()
    }

    /// A job joins with a claim on each resource: the most that it will hold at once. Returns its slot.
    pub fn join(&mut self, claims: &[u32]) -> Result<usize, Fault> {
        let mut at = 0;
        // SAFETY: references to whole values, for the call; the bank is as the last call left it.
        done(unsafe { pb_bank_join(self, claims.as_ptr(), claims.len(), &mut at) }, at)?;
        Ok(at)
    }

    /// A job leaves: all that it holds comes back, and its slot is free.
    pub fn leave(&mut self, job: usize) -> Result<(), Fault> {
        // SAFETY: as in `join`.
        done(unsafe { pb_bank_leave(self, job) }, 0)
    }

    /// Asks for an amount of each resource, all or none of them.
    pub fn ask(&mut self, job: usize, amounts: &[u32]) -> Result<Answer, Fault> {
        // SAFETY: as in `join`.
        match unsafe { pb_bank_ask(self, job, amounts.as_ptr(), amounts.len()) } {
            0 => Ok(Answer::Granted),
            1 => Ok(Answer::NotNow),
            2 => Ok(Answer::OverClaim),
            _ => Err(Fault::NoRequest),
        }
    }

    /// Gives back an amount of each resource, all or none of them.
    pub fn give(&mut self, job: usize, amounts: &[u32]) -> Result<(), Fault> {
        // SAFETY: as in `join`.
        done(unsafe { pb_bank_give(self, job, amounts.as_ptr(), amounts.len()) }, 0)
    }

    /// Gives back all that a job holds; it stays, with its claim.
    pub fn drop_all(&mut self, job: usize) -> Result<(), Fault> {
        // SAFETY: as in `join`.
        done(unsafe { pb_bank_drop_all(self, job) }, 0)
    }

    /// Returns an order in which all jobs can finish, each next one the first that fits.
    #[must_use]
    pub fn order(&self) -> Vec<usize> {
        let mut order = [0; MAX_JOBS];
        // SAFETY: as in `join`.
        let count = unsafe { pb_bank_order(self, order.as_mut_ptr()) };
        let slots = order[..count].iter().map(|p| usize::from(*p));
        slots.filter(|p| self.has_job(*p)).collect()
    }

    /// Returns why a request would be granted or not, and changes nothing.
    pub fn why(&self, job: usize, amounts: &[u32]) -> Result<Reason, Fault> {
        let mut why = Why { resource: 0, rest: [0; MAX_JOBS] };
        // SAFETY: as in `join`.
        match unsafe { pb_bank_why(self, job, amounts.as_ptr(), amounts.len(), &mut why) } {
            0 => Ok(Reason::Allowed),
            1 => Ok(Reason::Rest((0..self.slots).filter(|p| why.rest[*p] != 0).collect())),
            2 => Ok(Reason::OverClaim(why.resource)),
            9 => Ok(Reason::OverCash(why.resource)),
            _ => Err(Fault::NoRequest),
        }
    }

    /// Returns whether a job has the slot.
    #[must_use]
    pub fn has_job(&self, job: usize) -> bool {
        self.jobs.get(job).is_some_and(|used| *used != 0)
    }

    /// Returns the capital of each resource.
    #[must_use]
    pub fn capital(&self) -> &[u32] {
        &self.capital[..self.resources]
    }

    /// Returns the capital of each resource less all loans of it.
    #[must_use]
    pub fn cash(&self) -> &[u32] {
        &self.cash[..self.resources]
    }

    /// Returns what a job holds of each resource.
    #[must_use]
    pub fn loans(&self, job: usize) -> Option<&[u32]> {
        self.has_job(job).then(|| &self.loans[job][..self.resources])
    }

    /// Returns what a job claims of each resource.
    #[must_use]
    pub fn claims(&self, job: usize) -> Option<&[u32]> {
        self.has_job(job).then(|| &self.claims[job][..self.resources])
    }
}
