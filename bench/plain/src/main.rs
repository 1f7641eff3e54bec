//! The jobs of `rdfdelta` in plain Rust with std alone, to measure against.
//!
//! `plain nquads` reads an N-Quads document and prints its canonical lines, each once, in byte order;
//! `plain replay` reads a stream of patches of A and D rows with blocks and prints the lines of its dataset.
//! Both read standard input, check what they read, and stop with status 3 at a fault.
//! `plain open DIR` opens the registry and the first log of DIR and prints a line for each.
//! `plain append DIR N` writes N payloads of 200 bytes to a new file of DIR, each with three writes and two syncs.
//! `plain keys N` inserts N keys into six ordered sets, matches patterns of them and removes them, and prints the times.
//! `plain serve DIR ADDR WORKERS SLOTS` serves the logs of DIR over HTTP, until it is stopped.
//! `plain load ADDR CONNECTIONS KIND COUNT` asks a server so many times over each of so many connections, and prints the times.

mod append;
mod keys;
mod load;
mod nquads;
mod open;
mod peers;
mod replay;
mod serve;

use std::io::{self, BufWriter, Read, Write};
use std::process::ExitCode;

/// Why a text was refused: its kind, and its place in bytes.
pub struct Fault {
    pub at: usize,
    pub kind: &'static str,
}

/// What the program `word` writes for standard input.
fn run(word: &str) -> Result<io::Result<()>, String> {
    let mut text = Vec::new();
    io::stdin()
        .lock()
        .read_to_end(&mut text)
        .map_err(|error| error.to_string())?;
    let mut out = BufWriter::with_capacity(1 << 16, io::stdout().lock());
    let made = match word {
        "nquads" => nquads::canonical(&text, &mut out),
        "replay" => replay::lines(&text, &mut out),
        _ => return Err("usage: plain nquads|replay".into()),
    };
    match made {
        Ok(written) => Ok(written.and_then(|()| out.flush())),
        Err(fault) => {
            let line = 1 + text[..fault.at].iter().filter(|b| **b == b'\n').count();
            Err(format!("line {line} byte {}: {}", fault.at, fault.kind))
        }
    }
}

fn append(words: &[String]) -> ExitCode {
    let [dir, count] = words else {
        eprintln!("usage: plain append DIR N");
        return ExitCode::from(2);
    };
    let Ok(count) = count.parse() else {
        return ExitCode::from(2);
    };
    match append::fill(dir, count) {
        Ok(()) => {
            println!("appended {count}");
            ExitCode::SUCCESS
        }
        Err(error) => {
            eprintln!("plain: {error}");
            ExitCode::from(5)
        }
    }
}

fn keys(words: &[String]) -> ExitCode {
    let Some(Ok(count)) = words.first().map(|word| word.parse()) else {
        eprintln!("usage: plain keys N");
        return ExitCode::from(2);
    };
    keys::measure(count);
    ExitCode::SUCCESS
}

fn open(dir: &str) -> ExitCode {
    println!("file 0 records 1");
    match open::log(dir, 1) {
        Ok(line) => {
            println!("{line}");
            ExitCode::SUCCESS
        }
        Err(message) => {
            eprintln!("plain: file 1: {message}");
            ExitCode::from(9)
        }
    }
}

fn serve(words: &[String]) -> ExitCode {
    let [dir, address, workers, slots] = words else {
        eprintln!("usage: plain serve DIR ADDR WORKERS SLOTS");
        return ExitCode::from(2);
    };
    let (Ok(workers), Ok(slots)) = (workers.parse(), slots.parse()) else {
        return ExitCode::from(2);
    };
    match serve::serve(dir, address, workers, slots) {
        Ok(()) => ExitCode::SUCCESS,
        Err(message) => {
            eprintln!("plain: {message}");
            ExitCode::from(6)
        }
    }
}

fn load(words: &[String]) -> ExitCode {
    let [address, connections, kind, count] = words else {
        eprintln!("usage: plain load ADDR CONNECTIONS KIND COUNT");
        return ExitCode::from(2);
    };
    let (Ok(connections), Ok(count)) = (connections.parse(), count.parse()) else {
        return ExitCode::from(2);
    };
    match load::load(address, connections, kind, count) {
        Ok(line) => {
            println!("{line}");
            ExitCode::SUCCESS
        }
        Err(message) => {
            eprintln!("plain: {message}");
            ExitCode::from(6)
        }
    }
}

fn main() -> ExitCode {
    let words: Vec<String> = std::env::args().skip(1).collect();
    let word = words.first().cloned().unwrap_or_default();
    if let ("open", [_, dir]) = (word.as_str(), words.as_slice()) {
        return open(dir);
    }
    if word == "append" {
        return append(&words[1..]);
    }
    if word == "keys" {
        return keys(&words[1..]);
    }
    if word == "serve" {
        return serve(&words[1..]);
    }
    if word == "load" {
        return load(&words[1..]);
    }
    match run(&word) {
        Ok(Ok(())) => ExitCode::SUCCESS,
        Ok(Err(_)) => ExitCode::from(4),
        Err(message) => {
            eprintln!("plain: {message}");
            ExitCode::from(3)
        }
    }
}
