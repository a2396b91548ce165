//! A lexer and a recursive-descent parser of the same grammar with the same limits, in plain Rust: the text
//! from standard input is cut and parsed again and again.

#![allow(dead_code)]

use std::io::Read;
use std::time::Instant;

#[derive(Clone, Copy, PartialEq)]
enum Kind {
    Name,
    Number(i64),
    Mark(Mark),
}

#[derive(Clone, Copy, PartialEq)]
enum Mark {
    Assign, Semicolon, Comma, Open, Close, Plus, Minus, Star, Equal, NotEqual, Less, AtMost, Greater, AtLeast,
    And, Begin, Div, Do, Else, End, Fi, Hold, If, Integer, Mod, Not, Od, Of, Or, Parbegin, Parend, Print,
    Process, Resource, Skip, Then, While,
}

#[derive(Clone, Copy)]
struct Token<'t> {
    kind: Kind,
    text: &'t [u8],
    start: usize,
    end: usize,
    line: u32,
}

#[derive(Debug)]
enum Fault {
    TextTooLong,
    BadByte(usize),
    NumberTooLarge(usize),
    NameTooLong(usize),
    Syntax(usize),
    TooDeep,
    TooLarge,
}

const LONGEST_TEXT: usize = 65_536;
const LONGEST_NAME: usize = 32;
const HIGHEST: u64 = 200;
const MOST_NODES: u64 = 16_384;
const MOST_OPEN: usize = 256;
const MOST_SIGNS: usize = 256;

fn word(text: &[u8]) -> Kind {
    use Mark::*;
    Kind::Mark(match text {
        b"and" => And,
        b"begin" => Begin,
        b"div" => Div,
        b"do" => Do,
        b"else" => Else,
        b"end" => End,
        b"fi" => Fi,
        b"hold" => Hold,
        b"if" => If,
        b"integer" => Integer,
        b"mod" => Mod,
        b"not" => Not,
        b"od" => Od,
        b"of" => Of,
        b"or" => Or,
        b"parbegin" => Parbegin,
        b"parend" => Parend,
        b"print" => Print,
        b"process" => Process,
        b"resource" => Resource,
        b"skip" => Skip,
        b"then" => Then,
        b"while" => While,
        _ => return Kind::Name,
    })
}

fn lex(text: &[u8]) -> Result<Vec<Token<'_>>, Fault> {
    use Mark::*;
    if text.len() > LONGEST_TEXT {
        return Err(Fault::TextTooLong);
    }
    let mut tokens = Vec::new();
    let mut at = 0;
    let mut line = 1;
    while at < text.len() {
        let start = at;
        let byte = text[at];
        let next = text.get(at + 1).copied();
        let kind = match byte {
            b'\n' => {
                line += 1;
                at += 1;
                continue;
            }
            b' ' | b'\t' | b'\r' => {
                at += 1;
                continue;
            }
            b'/' if next == Some(b'/') => {
                while at < text.len() && text[at] != b'\n' {
                    at += 1;
                }
                continue;
            }
            b'a'..=b'z' | b'A'..=b'Z' => {
                while at < text.len() && (text[at].is_ascii_alphanumeric() || text[at] == b'_') {
                    at += 1;
                }
                if at - start > LONGEST_NAME {
                    return Err(Fault::NameTooLong(start));
                }
                word(&text[start..at])
            }
            b'0'..=b'9' => {
                let mut value = 0i64;
                while at < text.len() && text[at].is_ascii_digit() {
                    let digit = i64::from(text[at] - b'0');
                    value = value
                        .checked_mul(10)
                        .and_then(|tens| tens.checked_add(digit))
                        .ok_or(Fault::NumberTooLarge(start))?;
                    at += 1;
                }
                Kind::Number(value)
            }
            _ => {
                let (mark, length) = match (byte, next) {
                    (b':', Some(b'=')) => (Assign, 2),
                    (b'<', Some(b'>')) => (NotEqual, 2),
                    (b'<', Some(b'=')) => (AtMost, 2),
                    (b'>', Some(b'=')) => (AtLeast, 2),
                    (b'<', _) => (Less, 1),
                    (b'>', _) => (Greater, 1),
                    (b';', _) => (Semicolon, 1),
                    (b',', _) => (Comma, 1),
                    (b'(', _) => (Open, 1),
                    (b')', _) => (Close, 1),
                    (b'+', _) => (Plus, 1),
                    (b'-', _) => (Minus, 1),
                    (b'*', _) => (Star, 1),
                    (b'=', _) => (Equal, 1),
                    _ => return Err(Fault::BadByte(start)),
                };
                at += length;
                Kind::Mark(mark)
            }
        };
        tokens.push(Token { kind, text: &text[start..at], start, end: at, line });
    }
    Ok(tokens)
}

#[derive(Clone, Copy)]
enum Unary {
    Negate,
    Not,
}

#[derive(Clone, Copy)]
enum Binary {
    Or, And, Equal, Unequal, Less, AtMost, Greater, AtLeast, Add, Subtract, Multiply, Quotient, Remainder,
}

struct Name {
    text: Vec<u8>,
    at: usize,
}

struct Number {
    value: i64,
    at: usize,
}

enum Expr {
    Number(Number),
    Variable(Name),
    Unary(Unary, Box<Expr>),
    Binary(Binary, Box<Expr>, Box<Expr>),
}

struct Demand {
    amount: Number,
    resource: Name,
}

enum Stmt {
    Assign { line: u32, target: Name, value: Expr },
    Print { line: u32, value: Expr },
    If { line: u32, test: Expr, on_true: Vec<Stmt>, on_false: Vec<Stmt> },
    While { line: u32, test: Expr, body: Vec<Stmt> },
    Hold { line: u32, demands: Vec<Demand>, body: Vec<Stmt> },
    Parbegin { line: u32, arms: Vec<Vec<Stmt>> },
}

struct Resource {
    name: Name,
    capital: Number,
}

struct Process {
    name: Name,
    integers: Vec<Name>,
    body: Vec<Stmt>,
}

struct Program {
    resources: Vec<Resource>,
    processes: Vec<Process>,
    nodes: u64,
}

/// An expression, and how high it is.
type High<T> = (T, u64);

struct Parser<'a, 't> {
    rest: &'a [Token<'t>],
    end: usize,
    nodes: u64,
}

impl<'a, 't> Parser<'a, 't> {
    fn fault(&self) -> Fault {
        Fault::Syntax(self.rest.first().map_or(self.end, |next| next.start))
    }

    fn kind(&self) -> Option<Kind> {
        self.rest.first().map(|next| next.kind)
    }

    fn advance(&mut self) -> Token<'t> {
        let next = self.rest[0];
        self.end = next.end;
        self.rest = &self.rest[1..];
        next
    }

    fn eat(&mut self, mark: Mark) -> bool {
        let found = self.kind() == Some(Kind::Mark(mark));
        if found {
            self.advance();
        }
        found
    }

    fn expect(&mut self, mark: Mark) -> Result<(), Fault> {
        if self.eat(mark) { Ok(()) } else { Err(self.fault()) }
    }

    fn name(&mut self) -> Result<Name, Fault> {
        match self.kind() {
            Some(Kind::Name) => {
                let next = self.advance();
                Ok(Name { text: next.text.to_vec(), at: next.start })
            }
            _ => Err(self.fault()),
        }
    }

    fn number(&mut self) -> Result<Number, Fault> {
        match self.kind() {
            Some(Kind::Number(value)) => Ok(Number { value, at: self.advance().start }),
            _ => Err(self.fault()),
        }
    }

    fn binary(&mut self, op: Binary, left: High<Expr>, right: High<Expr>) -> High<Expr> {
        self.nodes += 1;
        let height = 1 + left.1.max(right.1);
        (Expr::Binary(op, Box::new(left.0), Box::new(right.0)), height)
    }

    fn chain(
        &mut self,
        part: fn(&mut Self) -> Result<High<Expr>, Fault>,
        operator: fn(Mark) -> Option<Binary>,
    ) -> Result<High<Expr>, Fault> {
        let mut left = part(self)?;
        while let Some(Kind::Mark(mark)) = self.kind() {
            let Some(op) = operator(mark) else { break };
            self.advance();
            let right = part(self)?;
            left = self.binary(op, left, right);
        }
        Ok(left)
    }

    fn expression(&mut self) -> Result<High<Expr>, Fault> {
        self.chain(Self::conjunction, |mark| match mark {
            Mark::Or => Some(Binary::Or),
            _ => None,
        })
    }

    fn conjunction(&mut self) -> Result<High<Expr>, Fault> {
        self.chain(Self::negation, |mark| match mark {
            Mark::And => Some(Binary::And),
            _ => None,
        })
    }

    fn signed(
        &mut self,
        mark: Mark,
        op: Unary,
        part: fn(&mut Self) -> Result<High<Expr>, Fault>,
    ) -> Result<High<Expr>, Fault> {
        let mut count = 0;
        while self.eat(mark) {
            count += 1;
        }
        let (mut operand, mut height) = part(self)?;
        for _ in 0..count {
            operand = Expr::Unary(op, Box::new(operand));
            height += 1;
        }
        self.nodes += count;
        Ok((operand, height))
    }

    fn negation(&mut self) -> Result<High<Expr>, Fault> {
        self.signed(Mark::Not, Unary::Not, Self::comparison)
    }

    fn comparison(&mut self) -> Result<High<Expr>, Fault> {
        let left = self.sum()?;
        let op = match self.kind() {
            Some(Kind::Mark(Mark::Equal)) => Binary::Equal,
            Some(Kind::Mark(Mark::NotEqual)) => Binary::Unequal,
            Some(Kind::Mark(Mark::Less)) => Binary::Less,
            Some(Kind::Mark(Mark::AtMost)) => Binary::AtMost,
            Some(Kind::Mark(Mark::Greater)) => Binary::Greater,
            Some(Kind::Mark(Mark::AtLeast)) => Binary::AtLeast,
            _ => return Ok(left),
        };
        self.advance();
        let right = self.sum()?;
        Ok(self.binary(op, left, right))
    }

    fn sum(&mut self) -> Result<High<Expr>, Fault> {
        self.chain(Self::term, |mark| match mark {
            Mark::Plus => Some(Binary::Add),
            Mark::Minus => Some(Binary::Subtract),
            _ => None,
        })
    }

    fn term(&mut self) -> Result<High<Expr>, Fault> {
        self.chain(Self::factor, |mark| match mark {
            Mark::Star => Some(Binary::Multiply),
            Mark::Div => Some(Binary::Quotient),
            Mark::Mod => Some(Binary::Remainder),
            _ => None,
        })
    }

    fn factor(&mut self) -> Result<High<Expr>, Fault> {
        self.signed(Mark::Minus, Unary::Negate, Self::primary)
    }

    fn primary(&mut self) -> Result<High<Expr>, Fault> {
        match self.kind() {
            Some(Kind::Number(_)) => {
                self.nodes += 1;
                Ok((Expr::Number(self.number()?), 1))
            }
            Some(Kind::Name) => {
                self.nodes += 1;
                Ok((Expr::Variable(self.name()?), 1))
            }
            Some(Kind::Mark(Mark::Open)) => {
                self.advance();
                let inner = self.expression()?;
                self.expect(Mark::Close)?;
                Ok(inner)
            }
            _ => Err(self.fault()),
        }
    }

    /// Statements with `;` between them, put behind `out`; answers the height of the highest.
    fn list(&mut self, out: &mut Vec<Stmt>) -> Result<u64, Fault> {
        let mut height = self.statement(out)?;
        while self.eat(Mark::Semicolon) {
            height = height.max(self.statement(out)?);
        }
        Ok(height)
    }

    fn body(&mut self) -> Result<High<Vec<Stmt>>, Fault> {
        let mut out = Vec::new();
        let height = self.list(&mut out)?;
        Ok((out, height))
    }

    fn statement(&mut self, out: &mut Vec<Stmt>) -> Result<u64, Fault> {
        let Some(kind) = self.kind() else {
            return Err(self.fault());
        };
        let line = self.rest[0].line;
        let (stmt, height) = match kind {
            Kind::Name => {
                let target = self.name()?;
                self.expect(Mark::Assign)?;
                let (value, height) = self.expression()?;
                (Stmt::Assign { line, target, value }, height)
            }
            Kind::Mark(Mark::Skip) => {
                self.advance();
                return Ok(0);
            }
            Kind::Mark(Mark::Begin) => {
                self.advance();
                let height = self.list(out)?;
                self.expect(Mark::End)?;
                return Ok(height);
            }
            Kind::Mark(Mark::Print) => {
                self.advance();
                let (value, height) = self.expression()?;
                (Stmt::Print { line, value }, height)
            }
            Kind::Mark(Mark::If) => {
                self.advance();
                self.choice(line)?
            }
            Kind::Mark(Mark::While) => {
                self.advance();
                let (test, high) = self.expression()?;
                self.expect(Mark::Do)?;
                let (body, height) = self.body()?;
                self.expect(Mark::Od)?;
                (Stmt::While { line, test, body }, height.max(high))
            }
            Kind::Mark(Mark::Hold) => {
                self.advance();
                self.hold(line)?
            }
            Kind::Mark(Mark::Parbegin) => {
                self.advance();
                self.fork(line)?
            }
            _ => return Err(self.fault()),
        };
        self.nodes += 1;
        out.push(stmt);
        Ok(height + 1)
    }

    fn choice(&mut self, line: u32) -> Result<High<Stmt>, Fault> {
        let (test, high) = self.expression()?;
        self.expect(Mark::Then)?;
        let (on_true, yes) = self.body()?;
        let (on_false, no) = if self.eat(Mark::Else) { self.body()? } else { (Vec::new(), 0) };
        self.expect(Mark::Fi)?;
        Ok((Stmt::If { line, test, on_true, on_false }, high.max(yes).max(no)))
    }

    fn hold(&mut self, line: u32) -> Result<High<Stmt>, Fault> {
        let mut demands = Vec::new();
        loop {
            let amount = self.number()?;
            self.expect(Mark::Of)?;
            demands.push(Demand { amount, resource: self.name()? });
            if !self.eat(Mark::Comma) {
                break;
            }
        }
        self.expect(Mark::Do)?;
        let (body, height) = self.body()?;
        self.expect(Mark::Od)?;
        Ok((Stmt::Hold { line, demands, body }, height))
    }

    fn fork(&mut self, line: u32) -> Result<High<Stmt>, Fault> {
        let mut arms = Vec::new();
        let mut highest = 0;
        loop {
            let mut arm = Vec::new();
            highest = self.statement(&mut arm)?.max(highest);
            arms.push(arm);
            if !self.eat(Mark::Semicolon) {
                break;
            }
        }
        self.expect(Mark::Parend)?;
        Ok((Stmt::Parbegin { line, arms }, highest))
    }

    fn process(&mut self) -> Result<High<Process>, Fault> {
        let name = self.name()?;
        self.expect(Mark::Begin)?;
        let mut integers = Vec::new();
        if self.eat(Mark::Integer) {
            integers.push(self.name()?);
            while self.eat(Mark::Comma) {
                integers.push(self.name()?);
            }
            self.expect(Mark::Semicolon)?;
        }
        let (body, height) = self.body()?;
        self.expect(Mark::End)?;
        self.nodes += 1;
        Ok((Process { name, integers, body }, height))
    }

    fn program(&mut self) -> Result<High<Program>, Fault> {
        let mut resources = Vec::new();
        while self.eat(Mark::Resource) {
            let name = self.name()?;
            self.expect(Mark::Equal)?;
            let capital = self.number()?;
            self.expect(Mark::Semicolon)?;
            resources.push(Resource { name, capital });
        }
        self.expect(Mark::Process)?;
        let (first, mut highest) = self.process()?;
        let mut processes = vec![first];
        while self.eat(Mark::Process) {
            let (another, height) = self.process()?;
            processes.push(another);
            highest = highest.max(height);
        }
        if !self.rest.is_empty() {
            return Err(self.fault());
        }
        Ok((Program { resources, processes, nodes: self.nodes }, highest))
    }
}

fn nests_too_deep(tokens: &[Token<'_>]) -> bool {
    use Mark::*;
    let (mut open, mut signs) = (0usize, 0);
    for token in tokens {
        if let Kind::Mark(Minus | Not) = token.kind {
            signs += 1;
        } else {
            signs = 0;
        }
        match token.kind {
            Kind::Mark(Open | Begin | If | While | Hold | Parbegin) => open += 1,
            Kind::Mark(Close | End | Fi | Od | Parend) => open = open.saturating_sub(1),
            _ => {}
        }
        if open > MOST_OPEN || signs > MOST_SIGNS {
            return true;
        }
    }
    false
}

fn parse(tokens: &[Token<'_>]) -> Result<Program, Fault> {
    if nests_too_deep(tokens) {
        return Err(Fault::TooDeep);
    }
    let (program, height) = Parser { rest: tokens, end: 0, nodes: 0 }.program()?;
    if height > HIGHEST {
        return Err(Fault::TooDeep);
    }
    if program.nodes > MOST_NODES {
        return Err(Fault::TooLarge);
    }
    Ok(program)
}

fn main() -> Result<(), Fault> {
    let rounds = std::env::args().nth(1).map_or(1, |word| word.parse().expect("a number"));
    let mut text = Vec::new();
    std::io::stdin().read_to_end(&mut text).expect("standard input");
    for _ in 0..rounds {
        let start = Instant::now();
        let nodes = parse(&lex(std::hint::black_box(&text))?)?.nodes;
        println!("{} {nodes}", start.elapsed().as_nanos());
    }
    Ok(())
}
