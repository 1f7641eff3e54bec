//! Clients of a server: so many connections, each of which asks and waits for the reply, over and over.
//!
//! All requests are made before the time begins, and of a reply only its status and its length are looked at, so that a client has
//! little to do. The first connection that has asked for all ends the others, so that all are there for as long as the time runs.

use crate::peers::{Postgres, Redis};
use std::io::{self, ErrorKind, Read, Write};
use std::net::TcpStream;
use std::ops::Range;
use std::sync::atomic::{AtomicBool, Ordering};
use std::sync::Barrier;
use std::thread;
use std::time::{Duration, Instant};

/// How long a server may be silent.
const PATIENCE: Duration = Duration::from_secs(75);

const ROWS: u64 = 100;

/// How many patches a run of rows has, how long each is with its ids, and how long what is round its row.
const LENGTH: u64 = 100;
const PATCH: usize = 200;
const AROUND: usize = 114;

/// What the connections ask for.
#[derive(Clone, Copy, PartialEq, Eq)]
pub enum Kind {
    /// A patch of two headers behind the head, each connection to a log of its own.
    Append,
    /// The same with a block of rows.
    AppendRows,
    /// So many patches of two headers as one run.
    Run(u64),
    /// A hundred patches of one row as one run.
    RunRows,
    /// One patch of as many bytes as these have.
    AppendLong,
    /// A version, each connection of a log of its own.
    Fetch,
    /// A version of the log with this number.
    FetchOf(u32),
}

fn kind(word: &str) -> Option<Kind> {
    match word {
        "append" => Some(Kind::Append),
        "append-rows" => Some(Kind::AppendRows),
        "run-1" => Some(Kind::Run(1)),
        "run-10" => Some(Kind::Run(10)),
        "run-100" => Some(Kind::Run(100)),
        "run-rows" => Some(Kind::RunRows),
        "append-long" => Some(Kind::AppendLong),
        "fetch" => Some(Kind::Fetch),
        "fetch-one" => Some(Kind::FetchOf(1)),
        "fetch-two" => Some(Kind::FetchOf(2)),
        _ => None,
    }
}

/// A connection to a server.
pub trait Client: Sized {
    fn open(address: &str) -> io::Result<Self>;

    /// So many requests of a kind, which go behind what a log has now.
    fn requests(&mut self, kind: Kind, log: u32, count: u64) -> io::Result<Vec<Vec<u8>>>;

    /// Asks, and reads the reply, which has to say that it was done.
    fn call(&mut self, request: &[u8]) -> io::Result<()>;

    /// Opens it again where the server has closed it.
    fn ready(&mut self) -> io::Result<()> {
        Ok(())
    }
}

struct Line {
    address: String,
    stream: TcpStream,
    read: Vec<u8>,
    closed: bool,
}

pub fn dial(address: &str) -> io::Result<TcpStream> {
    let stream = TcpStream::connect(address)?;
    stream.set_nodelay(true)?;
    stream.set_read_timeout(Some(PATIENCE))?;
    Ok(stream)
}

pub fn wrong<T>(reply: &[u8]) -> io::Result<T> {
    Err(io::Error::other(String::from_utf8_lossy(reply).into_owned()))
}

/// Whether a call failed because the server has ended the connection.
fn has_ended<T>(answer: &io::Result<T>) -> bool {
    let kind = answer.as_ref().err().map(io::Error::kind);
    matches!(kind, Some(ErrorKind::BrokenPipe | ErrorKind::ConnectionReset))
}

/// The value of a field of a head, which has the form that both servers print.
fn field<'a>(head: &'a str, name: &str) -> Option<&'a str> {
    let (_, rest) = head.split_once(name)?;
    rest.split("\r\n").next()
}

impl Client for Line {
    fn open(address: &str) -> io::Result<Line> {
        Ok(Line {
            address: address.into(),
            stream: dial(address)?,
            read: vec![0; 65_536],
            closed: false,
        })
    }

    fn requests(&mut self, kind: Kind, log: u32, count: u64) -> io::Result<Vec<Vec<u8>>> {
        let log = if let Kind::FetchOf(log) = kind { log } else { log };
        let (version, head) = self.log(log)?;
        match kind {
            Kind::Fetch | Kind::FetchOf(_) if version < 2 => Err(io::Error::other("nothing to fetch")),
            // The first patch has no head before it, and so is shorter than all others.
            Kind::Fetch | Kind::FetchOf(_) => Ok((0..count)
                .map(|turn| get(log, &format!("/{}", 2 + mixed(turn) % (version - 1))).into_bytes())
                .collect()),
            _ => {
                let (route, length) = match kind {
                    Kind::Run(length) => ("/run", length),
                    Kind::RunRows => ("/run", LENGTH),
                    _ => ("", 1),
                };
                let patches = patches(kind, version, head, count * length);
                Ok(patches.chunks(length as usize).map(|run| post(log, route, &run.concat())).collect())
            }
        }
    }

    fn call(&mut self, request: &[u8]) -> io::Result<()> {
        self.ask(request).map(|_| ())
    }

    fn ready(&mut self) -> io::Result<()> {
        if self.closed {
            self.stream = dial(&self.address)?;
            self.closed = false;
        }
        Ok(())
    }
}

impl Line {
    /// The body of the reply to a request, which has status 200. A server may end a connection that is kept, so one that
    /// ends before the reply begins is dialed once more.
    fn ask(&mut self, request: &[u8]) -> io::Result<&[u8]> {
        let mut found = self.exchange(request)?;
        if found.is_none() {
            self.stream = dial(&self.address)?;
            found = self.exchange(request)?;
        }
        match found {
            Some(body) => Ok(&self.read[body]),
            None => wrong(b"ended before a reply"),
        }
    }

    /// Where the body of the reply stands; nowhere where the connection ended before it began.
    fn exchange(&mut self, request: &[u8]) -> io::Result<Option<Range<usize>>> {
        if has_ended(&self.stream.write_all(request)) {
            return Ok(None);
        }
        let (mut had, mut whole) = (0, None);
        loop {
            let read = self.stream.read(&mut self.read[had..]);
            if had == 0 && has_ended(&read) {
                return Ok(None);
            }
            let count = read?;
            if count == 0 {
                return if had == 0 { Ok(None) } else { wrong(&self.read[..had]) };
            }
            had += count;
            if whole.is_none() {
                if let Some(end) = self.read[..had].windows(4).position(|four| four == b"\r\n\r\n") {
                    let head = std::str::from_utf8(&self.read[..end]).map_err(io::Error::other)?;
                    let length = field(head, "Content-Length: ").and_then(|text| text.parse::<usize>().ok());
                    let Some(length) = length.filter(|_| head.starts_with("HTTP/1.1 200 ")) else {
                        return wrong(&self.read[..had]);
                    };
                    self.closed = field(head, "Connection: close").is_some();
                    whole = Some((end + 4, end + 4 + length));
                }
            }
            if let Some((begin, end)) = whole.filter(|(_, end)| *end <= had) {
                return Ok(Some(begin..end));
            }
        }
    }

    /// How long a log is, and the id of its last patch.
    fn log(&mut self, log: u32) -> io::Result<(u64, Option<String>)> {
        let body = self.ask(get(log, "").as_bytes())?;
        let text = std::str::from_utf8(body).map_err(io::Error::other)?;
        let head = text.split("\"head\":\"").nth(1).map(|rest| rest[..36].to_string());
        let version = text.split("\"version\":").nth(1).and_then(|rest| rest.trim_end_matches('}').parse().ok());
        match version {
            Some(version) => Ok((version, head)),
            None => Err(io::Error::other(text.to_string())),
        }
    }
}

fn get(log: u32, behind: &str) -> String {
    format!("GET /L{log}{behind} HTTP/1.1\r\nHost: a\r\n\r\n")
}

/// A number that looks random, another one for each.
fn mixed(number: u64) -> u64 {
    let mut z = number.wrapping_mul(0x9e37_79b9_7f4a_7c15);
    z = (z ^ (z >> 30)).wrapping_mul(0xbf58_476d_1ce4_e5b9);
    z = (z ^ (z >> 27)).wrapping_mul(0x94d0_49bb_1331_11eb);
    z ^ (z >> 31)
}

fn post(log: u32, route: &str, body: &str) -> Vec<u8> {
    let length = body.len();
    format!(
        "POST /L{log}{route} HTTP/1.1\r\nHost: a\r\nContent-Type: application/rdf-patch\r\nContent-Length: {length}\r\n\r\n{body}"
    )
    .into_bytes()
}

/// The id of a version.
pub fn id(version: u64) -> String {
    let hex = format!("{:016x}{:016x}", mixed(version), mixed(!version));
    [&hex[..8], &hex[8..12], &hex[12..16], &hex[16..20], &hex[20..]].join("-")
}

/// A row of so many bytes.
fn row(place: u64, version: u64, length: usize) -> String {
    let front = format!("A <http://g/s{place}> <http://g/p{}> \"{version}", place % 7);
    let back = "\" .\n";
    format!("{front}{}{back}", "x".repeat(length - front.len() - back.len()))
}

/// What stands behind the ids of a patch.
fn body(kind: Kind, version: u64) -> String {
    let rows: String = match kind {
        Kind::AppendRows => (0..ROWS)
            .map(|row| format!("A <http://g/s{row}> <http://g/p{}> \"{version}\" .\n", row % 7))
            .collect(),
        Kind::RunRows => row(0, version, PATCH - AROUND),
        Kind::AppendLong => {
            // The last row has what the others leave of its bytes.
            let (length, bytes) = (PATCH - AROUND, PATCH * LENGTH as usize - AROUND);
            let count = bytes / length;
            let lengths = (1..count).map(|_| length).chain([length + bytes % length]);
            lengths.enumerate().map(|(place, length)| row(place as u64, version, length)).collect()
        }
        _ => return String::new(),
    };
    format!("TX .\n{rows}TC .\n")
}

/// The patches that follow the head of a log.
pub fn patches(kind: Kind, version: u64, head: Option<String>, count: u64) -> Vec<String> {
    let mut prev = head;
    let next = |version| {
        let id = id(version);
        let link = prev.take().map(|prev| format!("H prev <uuid:{prev}> .\n")).unwrap_or_default();
        let patch = format!("H id <uuid:{id}> .\n{link}{}", body(kind, version));
        prev = Some(id);
        patch
    };
    (version + 1..=version + count).map(next).collect()
}

/// Where the connections wait for each other, and whether one of them has ended.
struct Race {
    start: Barrier,
    over: AtomicBool,
}

/// When one connection began and ended, and how long each of its requests took.
fn run<C: Client>(address: &str, kind: Kind, log: u32, count: u64, race: &Race) -> io::Result<(Instant, Instant, Vec<Duration>)> {
    let prepared = C::open(address).and_then(|mut client| {
        let requests = client.requests(kind, log, count)?;
        client.ready()?;
        Ok((client, requests))
    });
    // Who failed waits as well, so that nobody waits for it.
    race.start.wait();
    let (mut client, requests) = prepared?;
    let mut times = Vec::with_capacity(requests.len());
    let begin = Instant::now();
    for request in &requests {
        if race.over.load(Ordering::Relaxed) {
            break;
        }
        client.ready()?;
        let asked = Instant::now();
        client.call(request)?;
        times.push(asked.elapsed());
    }
    race.over.store(true, Ordering::Relaxed);
    Ok((begin, Instant::now(), times))
}

/// The line that tells what so many connections saw: requests, seconds, and the median and the 99th percentile of the latency in
/// microseconds. An address may have `redis:` or `postgres:` before it.
pub fn load(address: &str, connections: u32, word: &str, count: u64) -> Result<String, String> {
    let kind = kind(word).ok_or("no such kind")?;
    match address.split_once(':') {
        Some(("redis", rest)) => race::<Redis>(rest, connections, kind, count),
        Some(("postgres", rest)) => race::<Postgres>(rest, connections, kind, count),
        _ => race::<Line>(address, connections, kind, count),
    }
}

fn race<C: Client>(address: &str, connections: u32, kind: Kind, count: u64) -> Result<String, String> {
    let race = Race {
        start: Barrier::new(connections as usize),
        over: AtomicBool::new(false),
    };
    let found: io::Result<Vec<_>> = thread::scope(|scope| {
        let clients: Vec<_> = (1..=connections)
            .map(|log| {
                let race = &race;
                scope.spawn(move || run::<C>(address, kind, log, count, race))
            })
            .collect();
        clients.into_iter().map(|client| client.join().unwrap()).collect()
    });
    let found = found.map_err(|error| error.to_string())?;
    let begin = found.iter().map(|(begin, _, _)| *begin).min();
    let end = found.iter().map(|(_, end, _)| *end).max();
    let mut times: Vec<Duration> = found.into_iter().flat_map(|(_, _, times)| times).collect();
    times.sort();
    let (Some(begin), Some(end), false) = (begin, end, times.is_empty()) else {
        return Err("nothing was asked".into());
    };
    let micros = |share: f64| times[((times.len() - 1) as f64 * share) as usize].as_nanos() as f64 / 1e3;
    let seconds = (end - begin).as_secs_f64();
    Ok(format!(
        "requests {} seconds {seconds:.6} median {:.1} p99 {:.1}",
        times.len(),
        micros(0.5),
        micros(0.99)
    ))
}
