//! A reader of objects in plain Rust: the same lines, ranges and rules on names as the proved one. It reads one object
//! again and again, and says how long the best round took, how many instructions it found, and whether it is good.
use std::collections::HashSet;
use std::io::Read;
use std::time::Instant;

#[derive(Clone, Copy, PartialEq, Eq, Debug)]
enum Instr {
    Push(i64),
    Load(u8),
    Store(u8),
    Bare(u8),
    Jump(u16),
    JumpIfZero(u16),
    Take(u16),
    Give(u16),
    Fork(u8, u8),
    Join(u8, u8),
}

const BARE: [&[u8]; 17] = [
    b"neg", b"not", b"add", b"sub", b"mul", b"div", b"mod", b"eq", b"ne", b"lt", b"le", b"gt", b"ge", b"and", b"or",
    b"print", b"end",
];

const RESERVED: [&[u8]; 23] = [
    b"and", b"begin", b"div", b"do", b"else", b"end", b"fi", b"hold", b"if", b"integer", b"mod", b"not", b"od", b"of",
    b"or", b"parbegin", b"parend", b"print", b"process", b"resource", b"skip", b"then", b"while",
];

struct Process {
    names: Vec<Vec<u8>>,
    claims: Vec<u64>,
    entries: Vec<u16>,
    bundles: Vec<Vec<(u8, u32)>>,
    lines: Vec<Option<u32>>,
    instrs: Vec<Instr>,
}

/// What follows, line by line, each with its place.
struct Lines<'a> {
    text: &'a [u8],
    at: usize,
}

impl<'a> Lines<'a> {
    fn next(&mut self) -> Result<Vec<&'a [u8]>, usize> {
        let rest = &self.text[self.at..];
        let end = rest.iter().position(|b| *b == b'\n').ok_or(self.at)?;
        self.at += end + 1;
        Ok(rest[..end].split(|b| *b == b' ').collect())
    }
}

fn number(word: &[u8], low: u64, high: u64) -> Option<u64> {
    if word.is_empty() || !word.iter().all(u8::is_ascii_digit) || (word[0] == b'0' && word.len() > 1) {
        return None;
    }
    let n = word.iter().fold(0u64, |n, d| n.saturating_mul(10).saturating_add((d - b'0') as u64));
    (low <= n && n <= high).then_some(n)
}

fn signed(word: &[u8]) -> Option<i64> {
    match word {
        [b'-', digits @ ..] => number(digits, 1, 1 << 63).map(|n| (n as i64).wrapping_neg()),
        _ => number(word, 0, i64::MAX as u64).map(|n| n as i64),
    }
}

fn is_name(word: &[u8]) -> bool {
    (1..=32).contains(&word.len())
        && word[0].is_ascii_alphabetic()
        && word.iter().all(|b| b.is_ascii_alphanumeric() || *b == b'_')
        && !RESERVED.contains(&word)
}

fn counted(lines: &mut Lines, key: &[u8], low: u64, high: u64) -> Result<u64, usize> {
    let at = lines.at;
    match lines.next()?.as_slice() {
        [k, n] if *k == key => number(n, low, high).ok_or(at),
        _ => Err(at),
    }
}

fn bundle(words: &[&[u8]]) -> Option<Vec<(u8, u32)>> {
    if words.is_empty() || words.len() % 2 == 1 || words.len() > 32 {
        return None;
    }
    let mut pairs: Vec<(u8, u32)> = Vec::new();
    for pair in words.chunks(2) {
        let resource = number(pair[0], 0, 15)? as u8;
        if pairs.iter().any(|p| p.0 == resource) {
            return None;
        }
        pairs.push((resource, number(pair[1], 1, 1_000_000)? as u32));
    }
    Some(pairs)
}

fn instr(words: &[&[u8]], bundles: &mut Vec<Vec<(u8, u32)>>) -> Option<Instr> {
    let (key, rest) = words.split_first()?;
    Some(match (*key, rest) {
        (b"push", [v]) => Instr::Push(signed(v)?),
        (b"load", [x]) => Instr::Load(number(x, 0, 63)? as u8),
        (b"store", [x]) => Instr::Store(number(x, 0, 63)? as u8),
        (b"jump", [t]) => Instr::Jump(number(t, 0, 39_999)? as u16),
        (b"jzero", [t]) => Instr::JumpIfZero(number(t, 0, 39_999)? as u16),
        (b"fork", [f, n]) => Instr::Fork(number(f, 1, 63)? as u8, number(n, 1, 16)? as u8),
        (b"join", [f, n]) => Instr::Join(number(f, 1, 63)? as u8, number(n, 1, 16)? as u8),
        (b"take", pairs) => {
            bundles.push(bundle(pairs)?);
            Instr::Take((bundles.len() - 1) as u16)
        }
        (b"give", pairs) => {
            bundles.push(bundle(pairs)?);
            Instr::Give((bundles.len() - 1) as u16)
        }
        (key, []) => Instr::Bare(BARE.iter().position(|b| *b == key)? as u8),
        _ => return None,
    })
}

fn process(lines: &mut Lines, resources: usize, seen: &mut HashSet<Vec<u8>>) -> Result<Process, usize> {
    let at = lines.at;
    match lines.next()?.as_slice() {
        [b"process", name] if is_name(name) && seen.insert(name.to_vec()) => {}
        _ => return Err(at),
    }
    let at = lines.at;
    let words = lines.next()?;
    let names: Vec<Vec<u8>> = match words.as_slice() {
        [b"vars", n, names @ ..] if number(n, 0, 64) == Some(names.len() as u64) => {
            names.iter().map(|w| w.to_vec()).collect()
        }
        _ => return Err(at),
    };
    if !names.iter().all(|n| is_name(n)) || names.iter().collect::<HashSet<_>>().len() != names.len() {
        return Err(at);
    }
    let arms = counted(lines, b"arms", 1, 64)?;
    let at = lines.at;
    let claims: Vec<u64> = match lines.next()?.as_slice() {
        [b"claims", claims @ ..] if claims.len() == resources => {
            claims.iter().map(|c| number(c, 0, 1_000_000)).collect::<Option<_>>().ok_or(at)?
        }
        _ => return Err(at),
    };
    let mut entries = Vec::new();
    for _ in 0..arms {
        entries.push(counted(lines, b"arm", 0, 39_999)? as u16);
    }
    let places = counted(lines, b"code", 1, 40_000)?;
    let mut made = Process { names, claims, entries, bundles: Vec::new(), lines: Vec::new(), instrs: Vec::new() };
    for _ in 0..places {
        let at = lines.at;
        let words = lines.next()?;
        let (line, words) = words.split_first().ok_or(at)?;
        let line = number(line, 0, 65_536).ok_or(at)? as u32;
        made.lines.push((line > 0).then_some(line));
        made.instrs.push(instr(words, &mut made.bundles).ok_or(at)?);
    }
    Ok(made)
}

/// All processes of an object of the second format, or the place of the first faulty line.
fn read(text: &[u8]) -> Result<Vec<Process>, usize> {
    let mut lines = Lines { text, at: 0 };
    if lines.next()?.as_slice() != [b"PBO".as_slice(), b"2"] {
        return Err(0);
    }
    let resources = counted(&mut lines, b"resources", 0, 16)?;
    let mut seen = HashSet::new();
    for _ in 0..resources {
        let at = lines.at;
        match lines.next()?.as_slice() {
            [b"resource", name, amount]
                if is_name(name) && number(amount, 0, 1_000_000).is_some() && seen.insert(name.to_vec()) => {}
            _ => return Err(at),
        }
    }
    let count = counted(&mut lines, b"processes", 1, 64)?;
    let mut seen = HashSet::new();
    let mut processes = Vec::new();
    for _ in 0..count {
        processes.push(process(&mut lines, resources as usize, &mut seen)?);
    }
    if lines.at == text.len() { Ok(processes) } else { Err(lines.at) }
}

fn main() {
    let rounds = std::env::args().nth(1).map_or(1, |n| n.parse::<u64>().unwrap());
    let mut text = Vec::new();
    std::io::stdin().read_to_end(&mut text).unwrap();
    let mut best = u128::MAX;
    let mut places = 0;
    let mut others = 0;
    for _ in 0..rounds {
        let start = Instant::now();
        let object = read(&text).unwrap();
        best = best.min(start.elapsed().as_nanos());
        places = object.iter().map(|p| p.instrs.len()).sum::<usize>();
        others = object
            .iter()
            .map(|p| p.names.len() + p.claims.len() + p.entries.len() + p.bundles.len() + p.lines.len())
            .sum::<usize>();
    }
    println!("{best} {places} {others}");
}
