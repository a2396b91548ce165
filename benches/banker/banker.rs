//! The banker of pb_banker in plain Rust: the same tables, the same search, with no proof.
//! Its inner calls are inlined by force: without that rustc leaves them as calls, and they take twice as long.

const MAX_PROCESSES: usize = 64;
const MAX_RESOURCES: usize = 16;

type Row = [u32; MAX_RESOURCES];

#[derive(Clone, Copy)]
pub struct Pair {
    pub resource: u8,
    pub amount: u32,
}

#[derive(Clone, Copy)]
pub struct Bundle {
    len: usize,
    pairs: [Pair; 16],
}

#[derive(PartialEq)]
pub enum Answer {
    Granted,
    NotNow,
    OverClaim,
}

struct Search {
    order: [u8; MAX_PROCESSES],
    count: usize,
}

pub struct Banker {
    pub processes: usize,
    resources: usize,
    cash: Row,
    claims: [Row; MAX_PROCESSES],
    loans: [Row; MAX_PROCESSES],
    order: [u8; MAX_PROCESSES],
    pub looked: u32,
}

impl Bundle {
    pub fn one(resource: u8, amount: u32) -> Bundle {
        let mut pairs = [Pair { resource: 0, amount: 0 }; 16];
        pairs[0] = Pair { resource, amount };
        Bundle { len: 1, pairs }
    }

    pub fn of(some: &[Pair]) -> Bundle {
        let mut pairs = [Pair { resource: 0, amount: 0 }; 16];
        pairs[..some.len()].copy_from_slice(some);
        Bundle { len: some.len(), pairs }
    }

    pub fn pairs(&self) -> &[Pair] {
        &self.pairs[..self.len]
    }
}

impl Banker {
    pub fn new(capital: &[u32], rows: &[Vec<u64>]) -> Banker {
        let resources = capital.len();
        let mut banker = Banker {
            processes: rows.len(),
            resources,
            cash: [0; MAX_RESOURCES],
            claims: [[0; MAX_RESOURCES]; MAX_PROCESSES],
            loans: [[0; MAX_RESOURCES]; MAX_PROCESSES],
            order: std::array::from_fn(|p| p as u8),
            looked: 0,
        };
        banker.cash[..resources].copy_from_slice(capital);
        for (row, amounts) in banker.claims.iter_mut().zip(rows) {
            for (claim, amount) in row.iter_mut().zip(amounts) {
                *claim = *amount as u32;
            }
        }
        banker
    }

    #[inline(always)]
    fn fits(&self, p: usize, available: &Row) -> bool {
        let claims = &self.claims[p];
        let loans = &self.loans[p];
        for r in 0..self.resources {
            if claims[r].saturating_sub(loans[r]) > available[r] {
                return false;
            }
        }
        true
    }

    #[inline(always)]
    fn return_loans(&self, p: usize, available: &mut Row) {
        let loans = &self.loans[p];
        for r in 0..self.resources {
            available[r] += loans[r];
        }
    }

    #[inline(always)]
    fn first_fitting(&self, waiting: &[bool; MAX_PROCESSES], available: &Row, looked: &mut u32) -> Option<usize> {
        for p in 0..self.processes {
            if waiting[p] {
                *looked += 1;
                if self.fits(p, available) {
                    return Some(p);
                }
            }
        }
        None
    }

    fn search(&self, looked: &mut u32) -> Search {
        let mut order = [0; MAX_PROCESSES];
        let mut waiting = [true; MAX_PROCESSES];
        let mut available = self.cash;
        for count in 0..self.processes {
            let Some(p) = self.first_fitting(&waiting, &available, looked) else {
                return Search { order, count };
            };
            order[count] = p as u8;
            waiting[p] = false;
            self.return_loans(p, &mut available);
        }
        Search { order, count: self.processes }
    }

    fn finishes(&self, looked: &mut u32) -> bool {
        let mut available = self.cash;
        for k in 0..self.processes {
            let p = self.order[k] as usize;
            *looked += 1;
            if !self.fits(p, &available) {
                return false;
            }
            self.return_loans(p, &mut available);
        }
        true
    }

    pub fn ask(&mut self, p: usize, bundle: &Bundle) -> Answer {
        self.looked = 0;
        for pair in bundle.pairs() {
            let r = pair.resource as usize;
            if pair.amount > self.claims[p][r] - self.loans[p][r] {
                return Answer::OverClaim;
            }
        }
        for pair in bundle.pairs() {
            if pair.amount > self.cash[pair.resource as usize] {
                return Answer::NotNow;
            }
        }
        let loans = self.loans[p];
        let cash = self.cash;
        for pair in bundle.pairs() {
            self.loans[p][pair.resource as usize] += pair.amount;
            self.cash[pair.resource as usize] -= pair.amount;
        }
        let mut looked = 0;
        if self.finishes(&mut looked) {
            self.looked = looked;
            return Answer::Granted;
        }
        let found = self.search(&mut looked);
        self.looked = looked;
        if found.count == self.processes {
            self.order = found.order;
            return Answer::Granted;
        }
        self.loans[p] = loans;
        self.cash = cash;
        Answer::NotNow
    }

    pub fn give(&mut self, p: usize, bundle: &Bundle) {
        for pair in bundle.pairs() {
            self.loans[p][pair.resource as usize] -= pair.amount;
            self.cash[pair.resource as usize] += pair.amount;
        }
    }

    pub fn drop_all(&mut self, p: usize) {
        for r in 0..self.resources {
            self.cash[r] += self.loans[p][r];
            self.loans[p][r] = 0;
        }
    }
}
