//! A server of logs over HTTP: threads that accept on one listener, and for each log an index of ids and texts behind a mutex.
//! An append makes the writes and syncs of `append`, and so does a run of patches.

use crate::append::add;
use crate::open;
use crate::replay::Id;
use crate::Fault;
use std::collections::{HashMap, HashSet};
use std::fs::{File, OpenOptions};
use std::io::{self, Read, Write};
use std::net::{TcpListener, TcpStream};
use std::path::Path;
use std::sync::Mutex;
use std::thread;
use std::time::Duration;

/// How many bytes are read at once.
const PIECE: usize = 8_192;

/// How long a peer may be silent.
const PATIENCE: Duration = Duration::from_secs(75);

const MOST_BYTES: usize = 4_194_304;

struct Log {
    file: File,
    end: u64,
    payloads: u32,
    texts: Vec<Vec<u8>>,
    versions: HashMap<Id, usize>,
    head: Option<Id>,
}

/// A request: what it asks for, its body, and whether the connection ends behind it.
struct Request {
    method: String,
    path: String,
    body: Vec<u8>,
    close: bool,
}

struct Reply {
    status: &'static str,
    kind: &'static str,
    body: Vec<u8>,
}

fn json(status: &'static str, body: String) -> Reply {
    Reply {
        status,
        kind: "application/json",
        body: body.into_bytes(),
    }
}

impl Log {
    fn open(dir: &str, slot: u32) -> Result<Log, String> {
        let bytes = open::file(dir, slot)?;
        let found = open::chain(&bytes, slot)?;
        let bytes_of: usize = found.patches.iter().map(|(_, text)| text.len()).sum();
        let file = OpenOptions::new()
            .write(true)
            .open(Path::new(dir).join(format!("rdj-{slot:04}")))
            .map_err(|error| error.to_string())?;
        Ok(Log {
            file,
            end: (9 + 9 * found.payloads + bytes_of) as u64,
            payloads: found.payloads as u32,
            head: found.patches.last().map(|(link, _)| link.id),
            texts: found.patches.iter().map(|(_, text)| text.to_vec()).collect(),
            versions: found.versions,
        })
    }

    fn write(&mut self, block: &[u8]) -> io::Result<()> {
        add(&self.file, self.end, self.payloads + 1, block)?;
        self.end += 4 + block.len() as u64;
        self.payloads += 1;
        Ok(())
    }

    fn append(&mut self, link: &open::Link, text: Vec<u8>, block: &[u8]) -> Reply {
        if let Some(version) = self.versions.get(&link.id) {
            let same = self.texts[version - 1] == text;
            return json("409 Conflict", format!(r#"{{"error":"known","same":{same},"version":{version}}}"#));
        }
        if link.prev != self.head {
            return json("409 Conflict", format!(r#"{{"error":"conflict","version":{}}}"#, self.texts.len()));
        }
        if self.write(block).is_err() {
            return json("500 Internal Server Error", r#"{"error":"disk_fault"}"#.into());
        }
        self.push(link.id, text);
        json("200 OK", format!(r#"{{"version":{}}}"#, self.texts.len()))
    }

    fn append_run(&mut self, run: &open::Patches, block: &[u8]) -> Reply {
        if let Some(version) = run.iter().find_map(|(link, _)| self.versions.get(&link.id)) {
            let stands = self.texts[version - 1..].iter().map(Vec::as_slice).take(run.len());
            let same = stands.eq(run.iter().map(|(_, text)| *text));
            return json("409 Conflict", format!(r#"{{"error":"known","same":{same},"version":{version}}}"#));
        }
        if run[0].0.prev != self.head {
            return json("409 Conflict", format!(r#"{{"error":"conflict","version":{}}}"#, self.texts.len()));
        }
        if self.write(block).is_err() {
            return json("500 Internal Server Error", r#"{"error":"disk_fault"}"#.into());
        }
        let first = self.texts.len() + 1;
        for (link, text) in run {
            self.push(link.id, text.to_vec());
        }
        json("200 OK", format!(r#"{{"first":{first},"version":{}}}"#, self.texts.len()))
    }

    fn push(&mut self, id: Id, text: Vec<u8>) {
        self.texts.push(text);
        self.head = Some(id);
        self.versions.insert(id, self.texts.len());
    }

    fn describe(&self) -> Reply {
        let head = match &self.head {
            None => "null".into(),
            Some(id) => format!("\"{}\"", open::text(*id)),
        };
        json("200 OK", format!(r#"{{"head":{head},"version":{}}}"#, self.texts.len()))
    }

    fn fetch(&self, version: usize) -> Reply {
        match version.checked_sub(1).and_then(|place| self.texts.get(place)) {
            None => json("404 Not Found", format!(r#"{{"error":"no_patch","version":{}}}"#, self.texts.len())),
            Some(text) => Reply {
                status: "200 OK",
                kind: "application/rdf-patch",
                body: text.clone(),
            },
        }
    }
}

fn bad_patch(fault: Fault) -> Reply {
    json("400 Bad Request", format!(r#"{{"at":{},"error":"bad_patch","kind":"{}"}}"#, fault.at, fault.kind))
}

/// What is written behind the running number of a payload.
fn block(text: &[u8]) -> Vec<u8> {
    let mut block = (text.len() as u32).to_be_bytes().to_vec();
    block.extend_from_slice(text);
    block.push(0);
    block
}

fn append(log: &Mutex<Log>, text: Vec<u8>) -> Reply {
    match open::link(&text) {
        Err(fault) => bad_patch(fault),
        Ok(link) => {
            let block = block(&text);
            log.lock().unwrap().append(&link, text, &block)
        }
    }
}

/// The place, from 2 on, of the first patch that doesn't go on a run; 0 where there is no patch.
fn bad_place(run: &open::Patches) -> Option<usize> {
    let mut ids = HashSet::new();
    let mut last = None;
    for (place, (link, _)) in run.iter().enumerate() {
        if !ids.insert(link.id) || (place > 0 && link.prev != last) {
            return Some(place + 1);
        }
        last = Some(link.id);
    }
    run.is_empty().then_some(0)
}

fn append_run(log: &Mutex<Log>, text: Vec<u8>) -> Reply {
    match open::split(&text) {
        Err(fault) => bad_patch(fault),
        Ok(run) => match bad_place(&run) {
            Some(at) => json("400 Bad Request", format!(r#"{{"at":{at},"error":"bad_run"}}"#)),
            None => {
                let block = block(&text);
                log.lock().unwrap().append_run(&run, &block)
            }
        },
    }
}

/// The log with the name `L` and its number.
fn log_of<'a>(logs: &'a [Mutex<Log>], name: &str) -> Option<&'a Mutex<Log>> {
    let number: usize = name.strip_prefix('L')?.parse().ok()?;
    logs.get(number.checked_sub(1)?)
}

fn answer(logs: &[Mutex<Log>], request: Request) -> Reply {
    let path = request.path.strip_prefix('/').unwrap_or_default();
    let (name, version) = match path.split_once('/') {
        None => (path, None),
        Some((name, version)) => (name, Some(version)),
    };
    let Some(log) = log_of(logs, name) else {
        return json("404 Not Found", r#"{"error":"no_source"}"#.into());
    };
    match (request.method.as_str(), version, version.map(str::parse)) {
        ("POST", None, _) => append(log, request.body),
        ("POST", Some("run"), _) => append_run(log, request.body),
        ("GET", None, _) => log.lock().unwrap().describe(),
        ("GET", _, Some(Ok(version))) => log.lock().unwrap().fetch(version),
        (_, _, Some(Err(_))) => json("404 Not Found", r#"{"error":"no_route"}"#.into()),
        _ => json("405 Method Not Allowed", r#"{"error":"bad_method"}"#.into()),
    }
}

/// A whole head, and how long its body is.
fn head(text: &[u8]) -> Option<(Request, usize)> {
    let text = std::str::from_utf8(text).ok()?;
    let mut lines = text.split("\r\n");
    let mut words = lines.next()?.split(' ');
    let (method, path, version) = (words.next()?, words.next()?, words.next()?);
    let mut close = version != "HTTP/1.1";
    let mut length = 0;
    for line in lines {
        let (name, value) = line.split_once(':')?;
        let value = value.trim();
        if name.eq_ignore_ascii_case("content-length") {
            length = value.parse().ok()?;
        } else if name.eq_ignore_ascii_case("connection") {
            close |= value.eq_ignore_ascii_case("close");
        } else if name.eq_ignore_ascii_case("transfer-encoding") {
            return None;
        }
    }
    let (method, path) = (method.into(), path.into());
    let body = Vec::new();
    (length <= MOST_BYTES).then_some((Request { method, path, body, close }, length))
}

/// Reads until there is a whole request, and takes it off the bytes read. None where the peer has closed or sent none.
fn next(stream: &mut TcpStream, read: &mut Vec<u8>, piece: &mut [u8]) -> io::Result<Option<Request>> {
    let mut whole = None;
    loop {
        if whole.is_none() {
            if let Some(end) = read.windows(4).position(|four| four == b"\r\n\r\n") {
                match head(&read[..end]) {
                    None => return Ok(None),
                    Some((request, length)) => whole = Some((request, end + 4, end + 4 + length)),
                }
            }
        }
        if let Some((mut request, begin, end)) = whole.take_if(|(_, _, end)| *end <= read.len()) {
            request.body.extend_from_slice(&read[begin..end]);
            read.drain(..end);
            return Ok(Some(request));
        }
        let count = stream.read(piece)?;
        if count == 0 {
            return Ok(None);
        }
        read.extend_from_slice(&piece[..count]);
    }
}

/// One connection from its first byte to its end.
fn converse(logs: &[Mutex<Log>], mut stream: TcpStream) -> io::Result<()> {
    stream.set_nodelay(true)?;
    stream.set_read_timeout(Some(PATIENCE))?;
    stream.set_write_timeout(Some(PATIENCE))?;
    let (mut read, mut piece) = (Vec::new(), [0; PIECE]);
    while let Some(request) = next(&mut stream, &mut read, &mut piece)? {
        let close = request.close;
        let reply = answer(logs, request);
        let mut text = Vec::with_capacity(128 + reply.body.len());
        let closing = if close { "Connection: close\r\n" } else { "" };
        write!(
            text,
            "HTTP/1.1 {}\r\n{closing}Content-Type: {}\r\nContent-Length: {}\r\n\r\n",
            reply.status,
            reply.kind,
            reply.body.len()
        )?;
        text.extend_from_slice(&reply.body);
        stream.write_all(&text)?;
        if close {
            break;
        }
    }
    Ok(())
}

/// Serves the logs of a directory until it is stopped.
pub fn serve(dir: &str, address: &str, workers: u32, slots: u32) -> Result<(), String> {
    let mut logs = Vec::new();
    for slot in 1..=slots {
        logs.push(Mutex::new(Log::open(dir, slot).map_err(|fault| format!("file {slot}: {fault}"))?));
    }
    let listener = TcpListener::bind(address).map_err(|error| error.to_string())?;
    thread::scope(|scope| {
        for _ in 0..workers {
            scope.spawn(|| loop {
                if let Ok((stream, _)) = listener.accept() {
                    // A connection that fails is over; its peer sees that.
                    let _ = converse(&logs, stream);
                }
            });
        }
    });
    Ok(())
}
