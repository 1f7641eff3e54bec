//! Opens a log: reads its journal, cuts and checks each payload as a run of patches, and finds where these are no chain, by an
//! index of ids.

use crate::nquads::{fault, utf8};
use crate::replay::{Id, Rows};
use crate::Fault;
use std::collections::HashMap;
use std::fs;
use std::path::Path;

/// A patch's id, and the id that it names as the one before it.
pub struct Link {
    pub id: Id,
    pub prev: Option<Id>,
}

/// Patches, each with its ids and its text.
pub type Patches<'a> = Vec<(Link, &'a [u8])>;

/// What a log's file holds, in so many payloads.
pub struct Chain<'a> {
    pub patches: Patches<'a>,
    pub versions: HashMap<Id, usize>,
    pub payloads: usize,
}

/// A patch of which some rows were read.
#[derive(Default)]
struct Part {
    begin: usize,
    id: Option<Id>,
    prev: Option<Id>,
    inside: bool,
    changed: bool,
}

impl Part {
    /// Its ids, where it ends here.
    fn finish(&self, at: usize) -> Result<Link, Fault> {
        match self.id {
            _ if self.inside => fault(at, "OpenBlock"),
            None => fault(at, "NoId"),
            Some(id) => Ok(Link { id, prev: self.prev }),
        }
    }
}

fn refused<T>(text: String) -> Result<T, String> {
    Err(text)
}

/// The patches of a stream. One begins at a header behind another row, and at an id where there is one already.
pub fn split(text: &[u8]) -> Result<Patches<'_>, Fault> {
    let mut reader = Rows::new(utf8(text)?);
    let (mut patches, mut part, mut has_rows) = (Vec::new(), Part::default(), false);
    let mut room = Vec::new();
    loop {
        reader.gap();
        let start = reader.at;
        if reader.peek().is_none() {
            break;
        }
        has_rows = true;
        match reader.word() {
            b"H" => {
                let (key, value) = reader.header(&mut room)?;
                let Some(value) = value else { return fault(start, "BadId") };
                if part.changed || (key == b"id" && part.id.is_some()) {
                    patches.push((part.finish(start)?, &text[part.begin..start]));
                    part = Part { begin: start, ..Part::default() };
                }
                let place = if key == b"id" { &mut part.id } else { &mut part.prev };
                *place = Some(value);
                continue;
            }
            b"A" | b"D" => {
                part.changed = true;
                room.clear();
                reader.statement(&mut room)?;
                continue;
            }
            b"TX" => part.inside = true,
            b"TC" | b"TA" => part.inside = false,
            _ => return fault(start, "UnknownCode"),
        }
        part.changed = true;
        reader.dot()?;
    }
    if has_rows {
        patches.push((part.finish(text.len())?, &text[part.begin..]));
    }
    Ok(patches)
}

/// The ids of one patch.
pub fn link(text: &[u8]) -> Result<Link, Fault> {
    let mut patches = split(text)?;
    match (patches.pop(), patches.pop()) {
        (Some((link, _)), None) => Ok(link),
        (_, Some((_, first))) => fault(first.len(), "TwoIds"),
        (None, _) => fault(text.len(), "NoId"),
    }
}

fn field(file: &[u8], at: usize) -> Result<u32, String> {
    match file.get(at..at + 4) {
        Some(bytes) => Ok(u32::from_be_bytes(bytes.try_into().unwrap())),
        None => refused(format!("byte {at}: damaged")),
    }
}

/// The payloads of a journal, each with its place.
fn payloads(file: &[u8], slot: u32) -> Result<Vec<&[u8]>, String> {
    let whole = file.len() >= 8;
    if whole && file.starts_with(b"RDJ1") {
        return refused("old format".into());
    }
    if !whole || !file.starts_with(b"RDJ2") || field(file, 4)? != slot {
        return refused("byte 0: damaged".into());
    }
    let mut found = Vec::new();
    let mut gate = 8;
    loop {
        match file.get(gate) {
            None => return refused(format!("byte {gate}: damaged")),
            Some(1) => {}
            Some(_) => return Ok(found),
        }
        if field(file, gate + 1)? as usize != found.len() + 1 {
            return refused(format!("byte {}: damaged", gate + 1));
        }
        let size = field(file, gate + 5)? as usize;
        match file.get(gate + 9..gate + 9 + size) {
            None => return refused(format!("byte {}: damaged", gate + 9)),
            Some(payload) => found.push(payload),
        }
        gate += 9 + size;
    }
}

/// The bytes of a log's file.
pub fn file(dir: &str, slot: u32) -> Result<Vec<u8>, String> {
    let path = Path::new(dir).join(format!("rdj-{slot:04}"));
    fs::read(path).map_err(|error| error.to_string())
}

/// The chain that a log's file holds.
pub fn chain(file: &[u8], slot: u32) -> Result<Chain<'_>, String> {
    let mut patches: Patches = Vec::new();
    let mut versions = HashMap::new();
    let found = payloads(file, slot)?;
    for payload in &found {
        let first = patches.len() + 1;
        let broken = || format!("broken chain at version {first}");
        let run = split(payload).map_err(|_| broken())?;
        if run.is_empty() {
            return refused(broken());
        }
        for (link, text) in run {
            let follows = link.prev == patches.last().map(|(last, _)| last.id);
            if !follows || versions.insert(link.id, patches.len() + 1).is_some() {
                return refused(broken());
            }
            patches.push((link, text));
        }
    }
    Ok(Chain { patches, versions, payloads: found.len() })
}

/// The line that tells what a log's file holds.
pub fn log(dir: &str, slot: u32) -> Result<String, String> {
    let file = file(dir, slot)?;
    let chain = chain(&file, slot)?.patches;
    let head = match chain.last() {
        None => "none".into(),
        Some((link, _)) => text(link.id),
    };
    Ok(format!("file {slot} patches {} head {head}", chain.len()))
}

/// An id in its hyphenated form.
pub fn text(id: Id) -> String {
    let hex = format!("{id:032x}");
    [&hex[..8], &hex[8..12], &hex[12..16], &hex[16..20], &hex[20..]].join("-")
}
