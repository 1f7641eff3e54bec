//! Clients of Redis and of PostgreSQL, which keep patches in the place of a log: in a list, or in a table whose rows have the patch and
//! its two ids. What a log takes as a run is one command of the one, and one statement of the other, which is a transaction by itself.

use crate::load::{dial, id, patches, wrong, Client, Kind};
use std::io::{self, Read, Write};
use std::net::TcpStream;

/// What is read of one connection, and not yet taken.
struct Stream {
    stream: TcpStream,
    read: Vec<u8>,
}

impl Stream {
    fn open(address: &str) -> io::Result<Stream> {
        Ok(Stream {
            stream: dial(address)?,
            read: Vec::new(),
        })
    }

    /// Takes as many bytes as a rule finds, once they are there.
    fn take(&mut self, length: impl Fn(&[u8]) -> Option<usize>) -> io::Result<Vec<u8>> {
        loop {
            if let Some(length) = length(&self.read) {
                return Ok(self.read.drain(..length).collect());
            }
            let mut piece = [0; 8_192];
            match self.stream.read(&mut piece)? {
                0 => return wrong(b"ended inside a reply"),
                count => self.read.extend_from_slice(&piece[..count]),
            }
        }
    }
}

/// How many patches a run of this kind has. No other kind is asked.
fn length_of(kind: Kind) -> io::Result<u64> {
    match kind {
        Kind::Run(length) => Ok(length),
        _ => Err(io::Error::other("runs alone are asked of this server")),
    }
}

pub struct Redis(Stream);

/// A command, as a list of words.
fn command(words: &[&str]) -> Vec<u8> {
    let words = words.iter().map(|word| format!("${}\r\n{word}\r\n", word.len()));
    format!("*{}\r\n{}", words.len(), words.collect::<String>()).into_bytes()
}

impl Redis {
    /// The number that is the reply to a command.
    fn ask(&mut self, request: &[u8]) -> io::Result<u64> {
        self.0.stream.write_all(request)?;
        let line = self.0.take(|read| read.windows(2).position(|two| two == b"\r\n").map(|end| end + 2))?;
        let number = line.strip_prefix(b":").and_then(|rest| std::str::from_utf8(rest).ok()?.trim_end().parse().ok());
        number.map_or_else(|| wrong(&line), Ok)
    }
}

impl Client for Redis {
    fn open(address: &str) -> io::Result<Redis> {
        Stream::open(address).map(Redis)
    }

    fn requests(&mut self, kind: Kind, log: u32, count: u64) -> io::Result<Vec<Vec<u8>>> {
        let (length, list) = (length_of(kind)?, format!("L{log}"));
        let version = self.ask(&command(&["LLEN", &list]))?;
        let patches = patches(kind, version, (version > 0).then(|| id(version)), count * length);
        let push = |run: &[String]| {
            let texts = run.iter().map(String::as_str);
            command(&["RPUSH", &list].into_iter().chain(texts).collect::<Vec<_>>())
        };
        Ok(patches.chunks(length as usize).map(push).collect())
    }

    fn call(&mut self, request: &[u8]) -> io::Result<()> {
        self.ask(request).map(|_| ())
    }
}

pub struct Postgres(Stream);

/// A statement, as a message.
fn query(text: &str) -> Vec<u8> {
    let mut message = vec![b'Q'];
    message.extend_from_slice(&(text.len() as u32 + 5).to_be_bytes());
    message.extend_from_slice(text.as_bytes());
    message.push(0);
    message
}

impl Postgres {
    /// The messages up to the one that says that the server is ready, of which none is an error; those of rows, one behind another.
    fn answer(&mut self) -> io::Result<Vec<u8>> {
        let mut rows = Vec::new();
        loop {
            let whole = |read: &[u8]| {
                let length = 1 + u32::from_be_bytes(read.get(1..5)?.try_into().unwrap()) as usize;
                (length <= read.len()).then_some(length)
            };
            let message = self.0.take(whole)?;
            match message[0] {
                b'E' => return wrong(&message),
                b'Z' => return Ok(rows),
                b'D' => rows.extend_from_slice(&message),
                _ => {}
            }
        }
    }

    fn ask(&mut self, request: &[u8]) -> io::Result<Vec<u8>> {
        self.0.stream.write_all(request)?;
        self.answer()
    }

    /// How many rows a table has, which is made where it isn't there.
    fn version(&mut self, table: &str) -> io::Result<u64> {
        let columns = "version bigserial PRIMARY KEY, id uuid UNIQUE NOT NULL, prev uuid, patch text NOT NULL";
        self.ask(&query(&format!("CREATE TABLE IF NOT EXISTS {table} ({columns})")))?;
        let row = self.ask(&query(&format!("SELECT coalesce(max(version), 0) FROM {table}")))?;
        // The row's message: its kind, its length, the number of its columns and the length of this one, eleven bytes.
        let number = row.get(11..).and_then(|text| std::str::from_utf8(text).ok()?.parse().ok());
        number.map_or_else(|| wrong(&row), Ok)
    }
}

impl Client for Postgres {
    /// As the user `postgres`, who has a database of that name, without a password.
    fn open(address: &str) -> io::Result<Postgres> {
        let mut opened = Postgres(Stream::open(address)?);
        let words = b"\0\x03\0\0user\0postgres\0database\0postgres\0\0";
        let mut message = (words.len() as u32 + 4).to_be_bytes().to_vec();
        message.extend_from_slice(words);
        opened.ask(&message)?;
        Ok(opened)
    }

    fn requests(&mut self, kind: Kind, log: u32, count: u64) -> io::Result<Vec<Vec<u8>>> {
        let (length, table) = (length_of(kind)?, format!("l{log}"));
        let first = self.version(&table)? + 1;
        let head = (first > 1).then(|| id(first - 1));
        let patches = patches(kind, first - 1, head.clone(), count * length);
        let prevs = std::iter::once(head.map_or("NULL".into(), |id| format!("'{id}'")));
        let prevs = prevs.chain((first..).map(|version| format!("'{}'", id(version))));
        let rows: Vec<String> = (first..)
            .zip(prevs)
            .zip(patches)
            .map(|((version, prev), patch)| format!("('{}', {prev}, '{patch}')", id(version)))
            .collect();
        let insert = |run: &[String]| query(&format!("INSERT INTO {table} (id, prev, patch) VALUES {}", run.join(", ")));
        Ok(rows.chunks(length as usize).map(insert).collect())
    }

    fn call(&mut self, request: &[u8]) -> io::Result<()> {
        self.ask(request).map(|_| ())
    }
}
