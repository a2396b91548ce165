#!/usr/bin/env python3
"""Times requests to the proved banker beside the same banker in plain Rust, turn by turn in one run.

A scratch repository in a temporary folder gets copies of the crates and a small proved program that asks a banker
again and again. Wants `rt` and `rustc`. Says nanoseconds a request of both, and their ratio, for two kinds of request:

kept   granted, since the kept order still finishes: one walk over all processes
chain  refused after the whole search: in each round the process of greatest number is the only one that fits, and at
       last two are left of which neither does: P (P + 1) / 2 comparisons of P processes
"""

from scratch import build_plain, build_proved, least, print_table, said, scratch_folder

SIZES = [(processes, resources) for processes in (4, 16, 64) for resources in (1, 16)]
TURNS = 61
# a run takes some two milliseconds, so that other work leaves some runs alone
NANOSECONDS = 2_000_000

MAIN = """\
//! Asks a banker again and again, and says how long it took.
#![tactic(auto)]

ghost use Rattle.std.specs.Prelude.{◌≡◌, ◌<◌, ◌≤◌, ℕ, [], ◌∷◌, length, map, All, IfOk};
ghost use Rattle.std.specs.Result.{IsOkAnd};
ghost use Rattle.pb_base.specs.Banker.{processes, resources};
ghost use Rattle.bench.specs.Rows.{IsRow};

use pb_banker::{Answer, Banker};
use pb_base::{Bundle, Capital, Claims, NoMemory};
use std::alloc::Global;
use std::process::ExitCode;
use std::time::Instant;

/// What each process of the chain holds of the last resource before the request that is refused.
fn held(processes: usize, p: usize) -> u32
    requires { processes ≤ 64 }
{
    if p < 2 { (1_000_000 - processes as u32) / 2 } else { 1 }
}

/// What a process may hold of the last resource in the chain.
fn chained(processes: usize, p: usize) -> u64
    requires { processes ≤ 64 }
    ensures { result ≤ 1000000 }
{
    let most = match p {
        0 => held(processes, 0) as usize + processes + 1,
        1 => held(processes, 1) as usize + processes,
        _ => (processes + 1).saturating_sub(p),
    };
    most.min(1_000_000) as u64
}

fn row(alloc: Global, chain: bool, processes: usize, resources: usize, p: usize) -> Result<Vec<u64>, NoMemory>
    requires { processes ≤ 64 }
    ensures { IfOk result (λ row. IsRow resources row.items) }
{
    let mut row = Vec::new(alloc);
    for r in 0..resources {
        let most = if !chain {
            1_000_000
        } else if r < resources - 1 {
            1
        } else {
            chained(processes, p)
        };
        row.push(most)?;
    }
    Ok(row)
}

fn table(alloc: Global, chain: bool, processes: usize, resources: usize) -> Result<Vec<Vec<u64>>, NoMemory>
    requires { processes ≤ 64 }
    ensures length { IfOk result (λ table. length table.items ≡ processes) }
    ensures rows { IfOk result (λ table. All (λ row. IsRow resources row.items) table.items) }
{
    let mut table = Vec::new(alloc);
    for p in 0..processes {
        table.push(row(alloc, chain, processes, resources, p)?)?;
    }
    Ok(table)
}

fn slices<'t>(alloc: Global, table: &'t [Vec<u64>]) -> Result<Vec<&'t [u64]>, NoMemory>
    ensures { IfOk result (λ rows. map (λ row. row.now) rows.items ≡ map (λ row. row.items) table.now) }
{
    let mut rows = Vec::new(alloc);
    for row in table {
        rows.push(row.as_slice())?;
    }
    Ok(rows)
}

fn banker_of(alloc: Global, chain: bool, processes: usize, resources: usize) -> Result<Banker, NoMemory>
    requires some { 0 < processes }
    requires few_processes { processes ≤ 64 }
    requires few_resources { resources ≤ 16 }
{
    let table = table(alloc, chain, processes, resources)?;
    let rows = slices(alloc, &table)?;
    let amounts = [1_000_000u32; 16];
    let capital = Capital::new(alloc, &amounts[..resources])?;
    let claims = Claims::new(alloc, &rows)?;
    Banker::new(alloc, &capital, &claims)
}

/// Lends to each process what it holds in the chain.
fn lend_chain(banker: &mut Banker, resource: u8)
    requires { resource < resources banker.old.state }
    ensures processes { processes banker.new.state ≡ processes banker.old.state }
    ensures resources { resources banker.new.state ≡ resources banker.old.state }
{
    let count = banker.processes();
    for p in 0..count {
        let _ = banker.ask(p, &Bundle::one(resource, held(count, p)));
    }
}

fn ask_often(banker: &mut Banker, bundle: &Bundle, rounds: u64) -> u64
    requires process { 0 < processes banker.old.state }
    requires below { All (λ pair. pair.resource < resources banker.old.state) bundle.now }
{
    let mut granted = 0u64;
    for _ in 0..rounds {
        if banker.ask(0, bundle) == Answer::Granted {
            granted = granted.wrapping_add(1);
        }
    }
    granted
}

fn main(rt: HostRuntime) -> anyhow::Result<ExitCode> {
    let alloc = rt.alloc();
    let words: Vec<String> = std::env::args(&rt)?.collect(alloc)?;
    if words.len() < 5 {
        return Ok(ExitCode::FAILURE);
    }
    let chain = words[1].as_str() == "chain";
    let processes = words[2].as_str().parse::<usize>()?;
    let resources = words[3].as_str().parse::<usize>()?;
    let rounds = words[4].as_str().parse::<u64>()?;
    if processes == 0 || processes > 64 || resources == 0 || resources > 16 {
        return Ok(ExitCode::FAILURE);
    }
    let Ok(mut banker) = banker_of(alloc, chain, processes, resources) else {
        return Ok(ExitCode::FAILURE);
    };
    if banker.processes() != processes || banker.resources() != resources {
        return Ok(ExitCode::FAILURE);
    }
    let last = (resources - 1) as u8;
    if chain {
        lend_chain(&mut banker, last);
    }
    let bundle = Bundle::one(last, 1);
    let start = Instant::now(&rt)?;
    let granted = ask_often(&mut banker, &bundle, rounds);
    let taken = start.elapsed(&rt)?;
    println!(rt; "{} {granted} {}", taken.as_nanos(), banker.looked())?;
    Ok(ExitCode::SUCCESS)
}
"""

FILES = {
    "proofs/Lib.antt": """\
pub mod Tables
""",
    "proofs/Tables.antt": """\
use Rattle.std.proofs.Common.{◌≡◌, ℕ, ◌<◌, ◌≤◌, List, [], length, map, take, replicate, get_or, All, sym, ap, subst, arith, ◌∙◌, Bor, Vec, Global}
use Rattle.std.proofs.lemmas.List.{get_or-take, get_or-replicate, length-take-le, length-replicate, length-map}
use Rattle.std.proofs.lemmas.List.Elements.{All-map}
use Rattle.pb_base.specs.Banker.{cell}
use Rattle.pb_base.specs.Tables.{HasWidth, width_of}
use Rattle.bench.specs.Rows.{IsRow}

pub all_rows : (n : ℕ) (slices slices' : List (Bor (List ℕ))) (vecs vecs' : List (Vec ℕ Global)) → slices' ≡ slices
    → map (λ row. row.now) slices ≡ map (λ row. row.items) vecs' → vecs' ≡ vecs → All (λ row. IsRow n row.items) vecs
    → All (IsRow n) (map (λ row. row.now) slices')
all_rows n slices slices' vecs vecs' same e same' all =
    subst (λ (xs : List (Bor (List ℕ))). All (IsRow n) (map (λ row. row.now) xs)) (sym same)
    (subst (All (IsRow n)) (sym e)
    (subst (λ (xs : List (Vec ℕ Global)). All (IsRow n) (map (λ row. row.items) xs)) (sym same')
    (All-map (IsRow n) (λ (v : Vec ℕ Global). v.items) vecs all)))

pub some_rows : (n : ℕ) (slices slices' : List (Bor (List ℕ))) (vecs vecs' : List (Vec ℕ Global)) → slices' ≡ slices
    → map (λ row. row.now) slices ≡ map (λ row. row.items) vecs' → vecs' ≡ vecs → length vecs ≡ n → 0 < n
    → 0 < length (map (λ row. row.now) slices')
some_rows n slices slices' vecs vecs' same e same' long some =
    let count : length (map (λ row. row.now) slices') ≡ length vecs =
    ap (λ (xs : List (Bor (List ℕ))). length (map (λ row. row.now) xs)) same ∙ ap length e
    ∙ ap (λ (xs : List (Vec ℕ Global)). length (map (λ row. row.items) xs)) same' ∙ length-map vecs (λ (v : Vec ℕ Global). v.items) in
    omega arith

pub width : (n : ℕ) (xs : List (List ℕ)) → 0 < length xs → All (IsRow n) xs → width_of xs ≡ n
width n xs some all = (all 0 [] some).0

pub has_width : (n : ℕ) (xs : List (List ℕ)) → 0 < length xs → All (IsRow n) xs → HasWidth (width_of xs) xs
has_width n xs some all = λ k d l. (all k d l).0 ∙ sym (width n xs some all)

pub few : (n : ℕ) → n ≤ 16 → length (take n (replicate {A = ℕ} 16 1000000)) ≡ n
few n l = length-take-le n (replicate {A = ℕ} 16 1000000) (let e = length-replicate {A = ℕ} 16 1000000 in omega arith)

pub fits : (n : ℕ) (xs : List (List ℕ)) → n ≤ 16 → All (IsRow n) xs → (p r : ℕ) → p < length xs → r < n
    → cell xs p r ≤ get_or (take n (replicate {A = ℕ} 16 1000000)) r 0
fits n xs l all p r lp lr =
    let row = all p [] lp in
    let wide = row.0 in
    let small : cell xs p r ≤ 1000000 = row.1 r 0 (omega arith) in
    let e : get_or (take n (replicate {A = ℕ} 16 1000000)) r 0 ≡ 1000000 =
    get_or-take n (replicate {A = ℕ} 16 1000000) r 0 lr ∙ get_or-replicate {A = ℕ} 16 r 1000000 0 (omega arith) in
    omega arith
""",
    "proofs/ask_often/Invariants.antt": """\
use Rattle.std.proofs.Common.{◌≡◌}
use Rattle.pb_base.specs.Banker.{processes, resources}
use Rattle.bench.proofs.ask_often.Given as goal

abbrev pub invariant-loop : goal.invariant-loop
invariant-loop l = (processes l.banker.state ≡ processes l.initial.banker.state) × (resources l.banker.state ≡ resources l.initial.banker.state)
""",
    "proofs/banker_of/Answers.antt": """\
use Rattle.std.proofs.Common.{◌≡◌, ◌<◌, ℕ, length, map, All, ◌∙◌, sym, arith}
use Rattle.bench.specs.Rows.{IsRow}
use Rattle.bench.proofs.Tables.{all_rows, some_rows, width, has_width, few, fits}
use Rattle.bench.proofs.banker_of.Goals as goal

pub new-requires-2-clause-one_length : goal.new-requires-2-clause-one_length
new-requires-2-clause-one_length c =
    let all : All (IsRow c.args.resources) (map (λ row. row.now) c.deref-2.result.now) =
    all_rows c.args.resources c.in_ok-rows.rows.items c.deref-2.result.now c.in_ok-table.table.items c.deref.result.now
    c.deref-2.ensures.value c.in_ok-rows.ensures c.deref.ensures.value c.in_ok-table.ensures.rows in
    let some : 0 < length (map (λ row. row.now) c.deref-2.result.now) =
    some_rows c.args.processes c.in_ok-rows.rows.items c.deref-2.result.now c.in_ok-table.table.items c.deref.result.now
    c.deref-2.ensures.value c.in_ok-rows.ensures c.deref.ensures.value c.in_ok-table.ensures.length c.requires.some in
    has_width c.args.resources (map (λ row. row.now) c.deref-2.result.now) some all

pub new-requires-3-clause-same : goal.new-requires-3-clause-same
new-requires-3-clause-same c =
    let all : All (IsRow c.args.resources) (map (λ row. row.now) c.deref-2.result.now) =
    all_rows c.args.resources c.in_ok-rows.rows.items c.deref-2.result.now c.in_ok-table.table.items c.deref.result.now
    c.deref-2.ensures.value c.in_ok-rows.ensures c.deref.ensures.value c.in_ok-table.ensures.rows in
    let some : 0 < length (map (λ row. row.now) c.deref-2.result.now) =
    some_rows c.args.processes c.in_ok-rows.rows.items c.deref-2.result.now c.in_ok-table.table.items c.deref.result.now
    c.deref-2.ensures.value c.in_ok-rows.ensures c.deref.ensures.value c.in_ok-table.ensures.length c.requires.some in
    rw (c.in_ok-claims.ensures, c.in_ok-capital.ensures)
    (width c.args.resources (map (λ row. row.now) c.deref-2.result.now) some all ∙ sym (few c.args.resources c.requires.few_resources))

pub new-requires-3-clause-fit : goal.new-requires-3-clause-fit
new-requires-3-clause-fit c =
    let all : All (IsRow c.args.resources) (map (λ row. row.now) c.deref-2.result.now) =
    all_rows c.args.resources c.in_ok-rows.rows.items c.deref-2.result.now c.in_ok-table.table.items c.deref.result.now
    c.deref-2.ensures.value c.in_ok-rows.ensures c.deref.ensures.value c.in_ok-table.ensures.rows in
    let e = few c.args.resources c.requires.few_resources in
    rw (c.in_ok-claims.ensures, c.in_ok-capital.ensures)
    (λ p r lp lr. fits c.args.resources (map (λ row. row.now) c.deref-2.result.now) c.requires.few_resources all p r lp (omega arith))
""",
    "proofs/lend_chain/Invariants.antt": """\
use Rattle.std.proofs.Common.{◌≡◌}
use Rattle.pb_base.specs.Banker.{processes, resources}
use Rattle.bench.proofs.lend_chain.Given as goal

abbrev pub invariant-loop-p : goal.invariant-loop-p
invariant-loop-p l = (processes l.banker.state ≡ processes l.initial.banker.state) × (resources l.banker.state ≡ resources l.initial.banker.state)
""",
    "proofs/row/Invariants.antt": """\
use Rattle.std.proofs.Common.{◌≡◌}
use Rattle.bench.specs.Rows.{IsRow}
use Rattle.bench.proofs.row.Given as goal

abbrev pub invariant-loop-r : goal.invariant-loop-r
invariant-loop-r l = IsRow l.r l.row.items
""",
    "proofs/slices/Invariants.antt": """\
use Rattle.std.proofs.Common.{◌≡◌, map, take}
use Rattle.bench.proofs.slices.Given as goal

abbrev pub invariant-loop-row : goal.invariant-loop-row
invariant-loop-row l = map (λ row. row.now) l.rows.items ≡ map (λ row. row.items) (take l.row-index l.table)
""",
    "proofs/table/Invariants.antt": """\
use Rattle.std.proofs.Common.{◌≡◌, length, All}
use Rattle.bench.specs.Rows.{IsRow}
use Rattle.bench.proofs.table.Given as goal

abbrev pub invariant-loop-p : goal.invariant-loop-p
invariant-loop-p l = (length l.table.items ≡ l.p) × All (λ row. IsRow l.resources row.items) l.table.items
""",
    "specs/Lib.antt": """\
pub mod Rows
""",
    "specs/Rows.antt": """\
use Rattle.std.specs.Prelude.{◌≡◌, ℕ, ◌≤◌, List, length, All}

-- a row of claims of so many resources
abbrev pub IsRow : ℕ → List ℕ → Type 0
IsRow n row = (length row ≡ n) × All (λ x. x ≤ 1000000) row
""",
}


def time(command, kind, processes, resources, rounds):
    """Nanoseconds a request, with how many were granted and how many comparisons the last one made."""
    nanoseconds, granted, looked = said([command, kind, processes, resources, rounds])
    return int(nanoseconds) / rounds, (granted, looked)


def compare(proved, plain, kind, processes, resources):
    """The least time of each over some turns, after one that says how many rounds to make."""
    guess, _ = time(plain, kind, processes, resources, 100)
    rounds = min(500_000, max(100, int(NANOSECONDS / guess)))
    calls = [lambda command=command: time(command, kind, processes, resources, rounds) for command in (proved, plain)]
    return least(TURNS, calls)


def main():
    with scratch_folder() as folder:
        proved = build_proved(folder, ["pb_base", "pb_banker", "anyhow"], {"src/main.rt": MAIN, **FILES})
        plain = build_plain(folder, "banker")
        rows = []
        for kind in ("kept", "chain"):
            for processes, resources in SIZES:
                ours, twin = compare(proved, plain, kind, processes, resources)
                rows.append([kind, processes, resources, ours, twin, ours / twin])
        print_table(["kind", "processes", "resources", "proved", "plain Rust", "ratio"], rows)


if __name__ == "__main__":
    main()
