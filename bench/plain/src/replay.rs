//! Streams of patches: headers, A and D rows, prefixes, and blocks of TX and TC or TA.

use crate::nquads::{fault, utf8, Reader};
use crate::Fault;
use std::collections::HashSet;
use std::io::{self, Write};
use std::ops::Range;

pub type Rows<'a> = Reader<'a, true>;

/// The 16 bytes of an id, as a number.
pub type Id = u128;

/// The id that the text of a term names.
pub fn id_in(term: &[u8]) -> Option<Id> {
    let iri = term.strip_prefix(b"<").and_then(|iri| iri.strip_suffix(b">"));
    let id = match iri {
        Some(iri) => iri.strip_prefix(b"uuid:").or_else(|| iri.strip_prefix(b"urn:uuid:"))?,
        None => term.strip_prefix(b"\"")?.strip_suffix(b"\"")?,
    };
    if id.len() != 36 || [8, 13, 18, 23].iter().any(|dash| id[*dash] != b'-') {
        return None;
    }
    let digits = id.iter().enumerate().filter(|(at, _)| ![8, 13, 18, 23].contains(at));
    digits.map(|(_, b)| (*b as char).to_digit(16)).try_fold(0, |id, digit| Some(id << 4 | Id::from(digit?)))
}

impl<'a> Rows<'a> {
    /// Letters, as those of a code.
    pub fn word(&mut self) -> &'a [u8] {
        self.run(|b| b.is_ascii_alphanumeric() || b == b'_' || b == b'-')
    }

    /// A term, whose canonical text it appends.
    fn some_term(&mut self, out: &mut Vec<u8>) -> Result<(), Fault> {
        self.gap();
        match self.term(out)? {
            Some(_) => Ok(()),
            None => fault(self.at, "WrongCount"),
        }
    }

    /// What stands behind the code of a header row: its key, and the id that its value names.
    pub fn header(&mut self, room: &mut Vec<u8>) -> Result<(&'a [u8], Option<Id>), Fault> {
        self.gap();
        let key = self.word();
        room.clear();
        self.some_term(room)?;
        self.dot()?;
        Ok((key, id_in(room)))
    }

    /// What stands behind the code of a row that sets or removes a prefix.
    fn prefix(&mut self, room: &mut Vec<u8>, sets: bool) -> Result<(), Fault> {
        room.clear();
        self.gap();
        if self.peek() == Some(b'"') {
            self.term(room)?;
        } else {
            self.word();
            self.run(|b| b == b':');
        }
        if sets {
            self.some_term(room)?;
        }
        self.gap();
        self.term(room)?;
        self.dot()
    }
}

/// The lines of a dataset.
#[derive(Default)]
struct Dataset {
    lines: HashSet<Box<[u8]>>,
}

impl Dataset {
    fn make(&mut self, adds: bool, line: &[u8]) {
        if !adds {
            self.lines.remove(line);
        } else if !self.lines.contains(line) {
            self.lines.insert(line.into());
        }
    }
}

/// The lines that the open block changes, one after another.
#[derive(Default)]
struct Block {
    text: Vec<u8>,
    changes: Vec<(bool, Range<usize>)>,
    is_open: bool,
}

impl Block {
    fn close(&mut self) {
        self.text.clear();
        self.changes.clear();
        self.is_open = false;
    }
}

/// The chain of the patches so far, and the patch that may go on.
#[derive(Default)]
struct Chain {
    ids: HashSet<Id>,
    head: Option<Id>,
    id: Option<Id>,
    prev: Option<Id>,
    has_rows: bool,
    in_header: bool,
}

impl Chain {
    /// Puts the patch that ends here behind the others.
    fn complete(&mut self, at: usize) -> Result<(), Fault> {
        let Some(id) = self.id.take() else { return fault(at, "NoId") };
        if self.prev.take() != self.head {
            return fault(at, "Diverged");
        }
        if !self.ids.insert(id) {
            return fault(at, "Repeated");
        }
        self.head = Some(id);
        Ok(())
    }
}

#[derive(Default)]
struct Replay {
    dataset: Dataset,
    block: Block,
    chain: Chain,
    room: Vec<u8>,
}

impl Replay {
    fn header(&mut self, reader: &mut Rows, at: usize) -> Result<(), Fault> {
        let (key, value) = reader.header(&mut self.room)?;
        let chain = &mut self.chain;
        if chain.has_rows && !chain.in_header || key == b"id" && chain.id.is_some() {
            if self.block.is_open {
                return fault(at, "OpenBlock");
            }
            chain.complete(at)?;
        }
        chain.in_header = true;
        let place = match key {
            b"id" => &mut chain.id,
            b"prev" | b"previous" => &mut chain.prev,
            _ => return Ok(()),
        };
        let Some(id) = value else { return fault(at, "BadId") };
        *place = Some(id);
        Ok(())
    }

    fn change(&mut self, reader: &mut Rows, adds: bool) -> Result<(), Fault> {
        if self.block.is_open {
            let from = self.block.text.len();
            reader.statement(&mut self.block.text)?;
            self.block.changes.push((adds, from..self.block.text.len()));
            return Ok(());
        }
        self.room.clear();
        reader.statement(&mut self.room)?;
        self.dataset.make(adds, &self.room);
        Ok(())
    }

    fn end_block(&mut self, at: usize, commits: bool) -> Result<(), Fault> {
        if !self.block.is_open {
            return fault(at, "NotInBlock");
        }
        if commits {
            for (adds, line) in &self.block.changes {
                self.dataset.make(*adds, &self.block.text[line.clone()]);
            }
        }
        self.block.close();
        Ok(())
    }

    /// Takes the row at the reader's place.
    fn take(&mut self, reader: &mut Rows) -> Result<(), Fault> {
        let at = reader.at;
        let code = reader.word();
        if code != b"H" {
            self.chain.in_header = false;
        }
        match code {
            b"H" => self.header(reader, at)?,
            b"A" | b"D" => self.change(reader, code == b"A")?,
            b"PA" | b"PD" => reader.prefix(&mut self.room, code == b"PA")?,
            b"TX" if self.block.is_open => return fault(at, "Nested"),
            b"TX" => {
                reader.dot()?;
                self.block.is_open = true;
            }
            b"TC" | b"TA" => {
                reader.dot()?;
                self.end_block(at, code == b"TC")?;
            }
            b"" => return fault(at, "BadToken"),
            _ => return fault(at, "UnknownCode"),
        }
        self.chain.has_rows = true;
        Ok(())
    }
}

/// Writes the lines of the dataset that a stream of patches makes.
pub fn lines(text: &[u8], out: &mut impl Write) -> Result<io::Result<()>, Fault> {
    let mut reader = Rows::new(utf8(text)?);
    let mut replay = Replay::default();
    loop {
        reader.gap();
        if reader.peek().is_none() {
            break;
        }
        replay.take(&mut reader)?;
    }
    if replay.block.is_open {
        return fault(text.len(), "OpenBlock");
    }
    if replay.chain.has_rows {
        replay.chain.complete(text.len())?;
    }
    let mut lines: Vec<_> = replay.dataset.lines.into_iter().collect();
    lines.sort_unstable();
    Ok(lines.iter().try_for_each(|line| out.write_all(line)))
}
