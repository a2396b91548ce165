//! A session with a bank that `parbegin serve` serves, over its socket: docs/SERVING.md has the lines.
//!
//! It needs the standard library alone. A request without an answer is sent again over the next connection, with its number:
//! it is carried out once.

use std::collections::{HashMap, VecDeque};
use std::fmt;
use std::io::{self, Error, ErrorKind, Read, Write};
use std::net::TcpStream;
use std::os::unix::net::UnixStream;
use std::thread::sleep;
use std::time::{Duration, Instant};

/// How long a server may be silent before another one is tried, and the time between two tries.
const SILENCE: Duration = Duration::from_secs(5);
const PAUSE: Duration = Duration::from_millis(100);

/// Why a call did nothing.
#[derive(Debug)]
pub enum RemoteFault {
    /// The bank, or its server, refuses: the line of the refusal.
    Refused(String),
    /// No server answers in time; the text says why.
    Unreachable(String),
    /// The session has ended, or the job within another session has left: all that it held has come back.
    Ended,
}

impl fmt::Display for RemoteFault {
    fn fmt(&self, out: &mut fmt::Formatter) -> fmt::Result {
        match self {
            Self::Refused(line) => out.write_str(line),
            Self::Unreachable(why) => write!(out, "no server answers: {why}"),
            Self::Ended => out.write_str("the session has ended"),
        }
    }
}

impl std::error::Error for RemoteFault {}

/// The answer to a request.
#[derive(Debug, Clone, Copy, PartialEq, Eq)]
pub enum RemoteAnswer {
    /// It is granted.
    Granted,
    /// It is not granted now: after `want` it waits in the queue.
    NotNow,
    /// The claim of the job does not allow as much.
    OverClaim,
}

/// A connection by a socket of Unix, or by TCP.
trait Wire: Read + Write {
    fn set_patience(&self, patience: Duration) -> io::Result<()>;
}

impl Wire for UnixStream {
    fn set_patience(&self, patience: Duration) -> io::Result<()> {
        self.set_write_timeout(Some(SILENCE))?;
        self.set_read_timeout(Some(patience))
    }
}

impl Wire for TcpStream {
    fn set_patience(&self, patience: Duration) -> io::Result<()> {
        self.set_write_timeout(Some(SILENCE))?;
        self.set_read_timeout(Some(patience))
    }
}

fn connect(address: &str) -> io::Result<Box<dyn Wire>> {
    if address.contains('/') || !address.contains(':') {
        return Ok(Box::new(UnixStream::connect(address)?));
    }
    if address.starts_with("tls:") {
        return Err(Error::new(ErrorKind::Unsupported, "TLS wants another client"));
    }
    let stream = TcpStream::connect(address)?;
    stream.set_nodelay(true)?;
    Ok(Box::new(stream))
}

/// What a line is: a part of an answer by its number (0 without one), its end, or a notice.
enum Line {
    Part(u64, String),
    End(u64),
    Notice,
}

/// A session with a served bank, whose jobs and resources have names. Its jobs leave when it is dropped.
///
/// Each call is heard by the server, which keeps the lease; who does not call for longer calls [`RemoteBank::beat`].
pub struct RemoteBank {
    servers: VecDeque<String>,
    lease: u32,
    patience: Duration,
    wire: Option<Box<dyn Wire>>,
    unread: Vec<u8>,
    session: Option<(String, String)>,
    number: u64,
    noticed: u64,
    /// the number of the notice by which each job was granted something last, or has left, and the last before its wish
    granted: HashMap<String, u64>,
    left: HashMap<String, u64>,
    before: HashMap<String, u64>,
}

impl RemoteBank {
    /// Begins a session. The address is the path of a socket or `HOST:PORT`, or several with commas between, of which one
    /// leads. `lease` is in seconds. Returns `Unreachable` if no server answers within `patience`.
    pub fn open(address: &str, lease: u32, patience: Duration) -> Result<Self, RemoteFault> {
        let mut bank = Self {
            servers: address.split(',').map(String::from).collect(),
            lease,
            patience,
            wire: None,
            unread: Vec::new(),
            session: None,
            number: 0,
            noticed: 0,
            granted: HashMap::new(),
            left: HashMap::new(),
            before: HashMap::new(),
        };
        bank.beat()?;
        Ok(bank)
    }

    /// Sends a command of `bank`, and returns the lines of its answer.
    pub fn say(&mut self, line: &str) -> Result<Vec<String>, RemoteFault> {
        if line.contains('\n') {
            return Err(RemoteFault::Refused(String::from("a command is one line")));
        }
        self.number += 1;
        let end = Instant::now() + self.patience;
        loop {
            match self.try_once(line) {
                Ok(Ok(lines)) => return Ok(lines),
                Ok(Err(fault)) => return Err(fault),
                Err(fault) if Instant::now() > end => return Err(RemoteFault::Unreachable(fault.to_string())),
                Err(fault) => self.next_server(&fault.to_string()),
            }
        }
    }

    /// Sends a request over the connection there is, or over a new one. The outer fault is one that passes.
    fn try_once(&mut self, line: &str) -> io::Result<Result<Vec<String>, RemoteFault>> {
        if self.wire.is_none() {
            if let Err(fault) = self.greet()? {
                return Ok(Err(fault));
            }
        }
        let number = self.number;
        self.send(&format!("{number} {line}\n"))?;
        self.answer(number, line)
    }

    /// Connects, and begins the session or goes on with it.
    fn greet(&mut self) -> io::Result<Result<(), RemoteFault>> {
        self.unread.clear();
        self.wire = Some(connect(&self.servers[0])?);
        let line = match &self.session {
            Some((sid, key)) => format!("attach {sid} {key} {}", self.noticed),
            None => format!("session {}", self.lease),
        };
        self.send(&format!("{line}\n"))?;
        let told = match self.answer(0, &line)? {
            Ok(lines) => lines,
            Err(fault) => return Ok(Err(fault)),
        };
        let words: Vec<&str> = told.first().map_or("", String::as_str).split(' ').collect();
        if words.len() == 4 && words[0] == "session" {
            self.session = Some((words[1].to_string(), words[2].to_string()));
        }
        Ok(Ok(()))
    }

    fn send(&mut self, text: &str) -> io::Result<()> {
        match &mut self.wire {
            Some(wire) => wire.write_all(text.as_bytes()),
            None => Err(Error::from(ErrorKind::NotConnected)),
        }
    }

    /// Reads up to the end of the answer to a request. A server that does not answer now is a fault that passes.
    fn answer(&mut self, number: u64, line: &str) -> io::Result<Result<Vec<String>, RemoteFault>> {
        let mut lines: Vec<String> = Vec::new();
        loop {
            match self.next_line(SILENCE)? {
                Line::Part(other, part) if other == number => lines.push(part),
                Line::End(other) if other == number => break,
                _ => {}
            }
        }
        let first = lines.first().cloned().unwrap_or_default();
        if first.starts_with("refused S2") {
            return Err(Error::other(first));
        }
        if first.starts_with("refused S5") && !line.starts_with("use ") {
            return Ok(Err(RemoteFault::Ended));
        }
        Ok(if first.starts_with("refused ") { Err(RemoteFault::Refused(first)) } else { Ok(lines) })
    }

    /// Reads a line, and keeps what a notice says.
    fn next_line(&mut self, patience: Duration) -> io::Result<Line> {
        let wire = self.wire.as_mut().ok_or(ErrorKind::NotConnected)?;
        wire.set_patience(patience.max(Duration::from_millis(1)))?;
        while !self.unread.contains(&b'\n') {
            let mut piece = [0; 4096];
            match wire.read(&mut piece)? {
                0 => return Err(Error::from(ErrorKind::UnexpectedEof)),
                size => self.unread.extend_from_slice(&piece[..size]),
            }
        }
        let end = self.unread.iter().position(|byte| *byte == b'\n').unwrap_or(0);
        let line: String = self.unread.drain(..=end).take(end).map(char::from).collect();
        let (head, rest) = line.split_once(' ').unwrap_or((line.as_str(), ""));
        if head == "notice" {
            self.take_notice(rest);
            return Ok(Line::Notice);
        }
        Ok(match head.parse() {
            Ok(number) if rest == "ready" => Line::End(number),
            Ok(number) => Line::Part(number, rest.to_string()),
            Err(_) if line == "ready" => Line::End(0),
            Err(_) => Line::Part(0, line),
        })
    }

    fn take_notice(&mut self, told: &str) {
        let words: Vec<&str> = told.split(' ').collect();
        let number = words[0].parse().unwrap_or(0);
        if words.len() > 2 && number > self.noticed {
            self.noticed = number;
            let of = if words[1] == "granted" { &mut self.granted } else { &mut self.left };
            of.insert(words[2].to_string(), number);
        }
    }

    /// Takes the server that leads, if the fault tells which, else the next one after a pause.
    fn next_server(&mut self, fault: &str) {
        self.wire = None;
        match fault.split_once(", but ") {
            Some((_, leads)) if self.servers[0] != leads => {
                self.servers.retain(|it| it != leads);
                self.servers.push_front(leads.to_string());
            }
            _ => {
                self.servers.rotate_left(1);
                sleep(PAUSE);
            }
        }
    }

    /// Keeps the lease.
    pub fn beat(&mut self) -> Result<(), RemoteFault> {
        self.say("beat").map(|_| ())
    }

    /// A job joins with its claims, as "1 tape, 2 disk".
    pub fn join(&mut self, job: &str, claim: &str) -> Result<(), RemoteFault> {
        self.say(&format!("job {job} {claim}")).map(|_| ())
    }

    /// Asks for amounts, all or none of them.
    pub fn ask(&mut self, job: &str, amounts: &str) -> Result<RemoteAnswer, RemoteFault> {
        self.say(&format!("ask {job} {amounts}")).map(|lines| answer_of(&lines))
    }

    /// Asks, and waits: what is not granted now, but is within the claim, joins the queue.
    pub fn want(&mut self, job: &str, amounts: &str) -> Result<RemoteAnswer, RemoteFault> {
        self.before.insert(job.to_string(), self.noticed);
        self.say(&format!("want {job} {amounts}")).map(|lines| answer_of(&lines))
    }

    /// Waits until the wish of a job is granted, and keeps the lease. Returns whether it was in time.
    pub fn wait(&mut self, job: &str, timeout: Duration) -> Result<bool, RemoteFault> {
        let (before, end) = (self.before.get(job).copied().unwrap_or(0), Instant::now() + timeout);
        let between = Duration::from_secs(u64::from(self.lease)).div_f64(4.0).min(SILENCE);
        let mut beaten = Instant::now();
        loop {
            if self.granted.get(job).is_some_and(|number| *number > before) {
                return Ok(true);
            }
            if self.left.get(job).is_some_and(|number| *number > before) {
                return Err(RemoteFault::Ended);
            }
            let now = Instant::now();
            if now >= end {
                return Ok(false);
            }
            if now >= beaten + between {
                beaten = now;
                self.beat()?;
                continue;
            }
            let read = self.next_line((end - now).min(beaten + between - now));
            if read.is_err_and(|fault| !matches!(fault.kind(), ErrorKind::WouldBlock | ErrorKind::TimedOut)) {
                self.next_server("");
                self.beat()?;
            }
        }
    }

    /// Takes the wish of a job out of the queue.
    pub fn take_back(&mut self, job: &str) -> Result<(), RemoteFault> {
        self.say(&format!("drop {job}")).map(|_| ())
    }

    /// Gives back amounts, all or none of them.
    pub fn give(&mut self, job: &str, amounts: &str) -> Result<(), RemoteFault> {
        self.say(&format!("give {job} {amounts}")).map(|_| ())
    }

    /// A job leaves: all that it holds comes back.
    pub fn leave(&mut self, job: &str) -> Result<(), RemoteFault> {
        self.say(&format!("leave {job}")).map(|_| ())
    }

    /// Returns a number that rises with each command, also over restarts of the server.
    pub fn fence(&mut self) -> Result<u64, RemoteFault> {
        let lines = self.say("fence")?;
        Ok(lines.first().and_then(|line| line.strip_prefix("fence ")).and_then(|it| it.parse().ok()).unwrap_or(0))
    }
}

impl Drop for RemoteBank {
    fn drop(&mut self) {
        self.patience = SILENCE;
        let _ = self.say("end");
    }
}

fn answer_of(lines: &[String]) -> RemoteAnswer {
    match lines.first().and_then(|line| line.split(' ').next()) {
        Some("granted") => RemoteAnswer::Granted,
        Some("over") => RemoteAnswer::OverClaim,
        _ => RemoteAnswer::NotNow,
    }
}
