//! N-Quads by RDF 1.1: terms and statements that are put into canonical form while they are read, and documents.

use crate::Fault;
use std::io::{self, Write};

const XSD_STRING: &[u8] = b"^^<http://www.w3.org/2001/XMLSchema#string>";
const LANG_STRING: &[u8] = b"^^<http://www.w3.org/1999/02/22-rdf-syntax-ns#langString>";

#[derive(Clone, Copy, PartialEq, Eq)]
pub enum Kind {
    Iri,
    Blank,
    Literal,
}

/// A text in UTF-8, of which the terms may be parted by blanks, or by any white space and comments where `ROWS` holds.
pub struct Reader<'a, const ROWS: bool> {
    text: &'a str,
    pub at: usize,
}

pub fn fault<T>(at: usize, kind: &'static str) -> Result<T, Fault> {
    Err(Fault { at, kind })
}

/// The bytes that no IRI has as themselves.
const FORBIDDEN: [bool; 256] = {
    let mut table = [false; 256];
    let mut byte = 0;
    while byte < 256 {
        table[byte] = byte <= b' ' as usize || matches!(byte as u8, b'<' | b'>' | b'"' | b'{' | b'}' | b'|' | b'^' | b'`' | b'\\');
        byte += 1;
    }
    table
};

fn is_name_base(c: char) -> bool {
    matches!(c, 'A'..='Z' | 'a'..='z' | '\u{C0}'..='\u{D6}' | '\u{D8}'..='\u{F6}' | '\u{F8}'..='\u{2FF}'
        | '\u{370}'..='\u{37D}' | '\u{37F}'..='\u{1FFF}' | '\u{200C}'..='\u{200D}' | '\u{2070}'..='\u{218F}'
        | '\u{2C00}'..='\u{2FEF}' | '\u{3001}'..='\u{D7FF}' | '\u{F900}'..='\u{FDCF}' | '\u{FDF0}'..='\u{FFFD}'
        | '\u{10000}'..='\u{EFFFF}')
}

fn begins_name(c: char) -> bool {
    is_name_base(c) || c == '_' || c == ':' || c.is_ascii_digit()
}

fn is_name_char(c: char) -> bool {
    begins_name(c) || c == '-' || matches!(c, '\u{B7}' | '\u{300}'..='\u{36F}' | '\u{203F}'..='\u{2040}')
}

fn has_scheme(iri: &[u8]) -> bool {
    let mut bytes = iri.iter();
    bytes.next().is_some_and(u8::is_ascii_alphabetic)
        && bytes.find(|b| !(b.is_ascii_alphanumeric() || matches!(b, b'+' | b'-' | b'.'))) == Some(&b':')
}

fn push_char(out: &mut Vec<u8>, c: char) {
    out.extend_from_slice(c.encode_utf8(&mut [0; 4]).as_bytes());
}

/// The text, where it is in UTF-8.
pub fn utf8(bytes: &[u8]) -> Result<&str, Fault> {
    std::str::from_utf8(bytes).or_else(|error| fault(error.valid_up_to(), "NotUtf8"))
}

impl<'a, const ROWS: bool> Reader<'a, ROWS> {
    pub fn new(text: &'a str) -> Self {
        Reader { text, at: 0 }
    }

    pub fn bytes(&self) -> &'a [u8] {
        self.text.as_bytes()
    }

    #[inline]
    pub fn peek(&self) -> Option<u8> {
        self.bytes().get(self.at).copied()
    }

    /// Goes over the bytes that pass a test, and gives them.
    #[inline]
    pub fn run(&mut self, test: impl Fn(u8) -> bool) -> &'a [u8] {
        let rest = &self.bytes()[self.at..];
        let size = rest.iter().position(|b| !test(*b)).unwrap_or(rest.len());
        self.at += size;
        &rest[..size]
    }

    pub fn comment(&mut self) {
        self.run(|b| b != b'\n' && b != b'\r');
    }

    /// Goes over what may stand between two terms.
    #[inline]
    pub fn gap(&mut self) {
        if !ROWS {
            self.run(|b| b == b' ' || b == b'\t');
            return;
        }
        loop {
            self.run(|b| matches!(b, b' ' | b'\t' | b'\n' | b'\r'));
            if self.peek() != Some(b'#') {
                return;
            }
            self.comment();
        }
    }

    /// The character at the place, which it goes past.
    fn char(&mut self) -> Result<char, Fault> {
        match self.text[self.at..].chars().next() {
            None => fault(self.at, "Truncated"),
            Some(c) => {
                self.at += c.len_utf8();
                Ok(c)
            }
        }
    }

    /// The character of an escape by number, whose backslash stands at a place.
    fn numbered(&mut self, start: usize, digits: u32) -> Result<char, Fault> {
        let mut number = 0;
        for _ in 0..digits {
            match self.char()?.to_digit(16) {
                Some(digit) => number = 16 * number + digit,
                None => return fault(start, "BadEscape"),
            }
        }
        char::from_u32(number).map_or(fault(start, "BadEscape"), Ok)
    }

    /// The character of an escape, at whose backslash the place is.
    fn escape(&mut self, is_string: bool) -> Result<char, Fault> {
        let start = self.at;
        self.at += 1;
        match self.char()? {
            'u' => self.numbered(start, 4),
            'U' => self.numbered(start, 8),
            't' if is_string => Ok('\t'),
            'b' if is_string => Ok('\u{8}'),
            'n' if is_string => Ok('\n'),
            'r' if is_string => Ok('\r'),
            'f' if is_string => Ok('\u{c}'),
            c @ ('"' | '\'' | '\\') if is_string => Ok(c),
            _ => fault(start, "BadEscape"),
        }
    }

    fn iri(&mut self, out: &mut Vec<u8>) -> Result<(), Fault> {
        let (start, from) = (self.at, out.len() + 1);
        self.at += 1;
        out.push(b'<');
        loop {
            let run = self.run(|b| !FORBIDDEN[b as usize]);
            out.extend_from_slice(run);
            let place = self.at;
            match self.peek() {
                None => return fault(place, "Truncated"),
                Some(b'>') => break,
                Some(b'\\') => {
                    let c = self.escape(false)?;
                    if u8::try_from(c).is_ok_and(|b| FORBIDDEN[b as usize]) {
                        return fault(place, "BadIri");
                    }
                    push_char(out, c);
                }
                Some(_) => return fault(place, "BadIri"),
            }
        }
        if !has_scheme(&out[from..]) {
            return fault(start, "RelativeIri");
        }
        self.at += 1;
        out.push(b'>');
        Ok(())
    }

    fn label(&mut self, out: &mut Vec<u8>) -> Result<(), Fault> {
        let start = self.at;
        self.at += 1;
        if self.char()? != ':' || !begins_name(self.char()?) {
            return fault(start, "BadLabel");
        }
        let mut end = self.at;
        while let Ok(c) = self.char() {
            if is_name_char(c) {
                end = self.at;
            } else if c != '.' {
                break;
            }
        }
        self.at = end;
        out.extend_from_slice(&self.bytes()[start..end]);
        Ok(())
    }

    /// `<_:label>`, as rows may have it.
    fn bracketed(&mut self, out: &mut Vec<u8>) -> Result<(), Fault> {
        let start = self.at;
        self.at += 1;
        self.label(out)?;
        match self.peek() {
            Some(b'>') => {
                self.at += 1;
                Ok(())
            }
            None => fault(self.at, "Truncated"),
            Some(_) => fault(start, "BadLabel"),
        }
    }

    fn string(&mut self, out: &mut Vec<u8>) -> Result<(), Fault> {
        self.at += 1;
        out.push(b'"');
        loop {
            let run = self.run(|b| !matches!(b, b'"' | b'\\' | b'\n' | b'\r'));
            out.extend_from_slice(run);
            match self.peek() {
                None => return fault(self.at, "Truncated"),
                Some(b'"') => break,
                Some(b'\\') => match self.escape(true)? {
                    '"' => out.extend_from_slice(b"\\\""),
                    '\\' => out.extend_from_slice(b"\\\\"),
                    '\n' => out.extend_from_slice(b"\\n"),
                    '\r' => out.extend_from_slice(b"\\r"),
                    c => push_char(out, c),
                },
                Some(_) => return fault(self.at, "BadToken"),
            }
        }
        self.at += 1;
        out.push(b'"');
        Ok(())
    }

    fn tag(&mut self, out: &mut Vec<u8>) -> Result<(), Fault> {
        let start = self.at;
        let mut first = true;
        loop {
            self.at += 1;
            out.push(if first { b'@' } else { b'-' });
            let part = self.run(|b| b.is_ascii_alphabetic() || !first && b.is_ascii_digit());
            if part.is_empty() {
                self.char()?;
                return fault(start, "BadLang");
            }
            out.extend(part.iter().map(u8::to_ascii_lowercase));
            if self.peek() != Some(b'-') {
                return Ok(());
            }
            first = false;
        }
    }

    fn datatype(&mut self, start: usize, out: &mut Vec<u8>) -> Result<(), Fault> {
        self.at += 1;
        let place = self.at;
        if self.char()? != '^' {
            return fault(place, "BadToken");
        }
        self.gap();
        match self.peek() {
            Some(b'<') => {}
            None => return fault(self.at, "Truncated"),
            Some(_) => return fault(self.at, "BadToken"),
        }
        let from = out.len();
        out.extend_from_slice(b"^^");
        self.iri(out)?;
        match &out[from..] {
            XSD_STRING => out.truncate(from),
            LANG_STRING => return fault(start, "LangStringWithoutTag"),
            _ => {}
        }
        Ok(())
    }

    fn literal(&mut self, out: &mut Vec<u8>) -> Result<(), Fault> {
        let start = self.at;
        self.string(out)?;
        if self.peek() == Some(b'@') {
            return self.tag(out);
        }
        let behind = self.at;
        self.gap();
        if self.peek() == Some(b'^') {
            return self.datatype(start, out);
        }
        self.at = behind;
        Ok(())
    }

    /// The kind of the term at the place, whose canonical text it appends; none where no term begins.
    #[inline]
    pub fn term(&mut self, out: &mut Vec<u8>) -> Result<Option<Kind>, Fault> {
        match self.peek() {
            Some(b'<') if ROWS && self.bytes()[self.at + 1..].starts_with(b"_:") => {
                self.bracketed(out)?;
                Ok(Some(Kind::Blank))
            }
            Some(b'<') => {
                self.iri(out)?;
                Ok(Some(Kind::Iri))
            }
            Some(b'_') => {
                self.label(out)?;
                Ok(Some(Kind::Blank))
            }
            Some(b'"') => {
                self.literal(out)?;
                Ok(Some(Kind::Literal))
            }
            _ => Ok(None),
        }
    }

    /// A term that may stand at a place of a statement, counted from 0, with a space behind it.
    #[inline]
    fn placed(&mut self, place: usize, out: &mut Vec<u8>) -> Result<(), Fault> {
        self.gap();
        let start = self.at;
        match self.term(out)? {
            Some(Kind::Literal) if place != 2 => fault(start, "BadPosition"),
            Some(Kind::Blank) if place == 1 => fault(start, "BadPosition"),
            Some(_) => {
                out.push(b' ');
                Ok(())
            }
            None if self.peek().is_none() => fault(start, "Truncated"),
            None if ROWS && self.peek() == Some(b'.') => fault(start, "WrongCount"),
            None => fault(start, "BadToken"),
        }
    }

    /// The dot behind the last term.
    pub fn dot(&mut self) -> Result<(), Fault> {
        self.gap();
        match self.peek() {
            Some(b'.') => {
                self.at += 1;
                Ok(())
            }
            None => fault(self.at, "Truncated"),
            Some(b'<' | b'_' | b'"') if ROWS => fault(self.at, "WrongCount"),
            Some(_) => fault(self.at, "MissingDot"),
        }
    }

    /// Reads a statement up to its dot, and appends its canonical line.
    pub fn statement(&mut self, out: &mut Vec<u8>) -> Result<(), Fault> {
        for place in 0..3 {
            self.placed(place, out)?;
        }
        self.gap();
        if matches!(self.peek(), Some(b'<' | b'_' | b'"')) {
            self.placed(3, out)?;
        }
        self.dot()?;
        out.extend_from_slice(b".\n");
        Ok(())
    }
}

/// What stands behind a statement on its line.
fn line_end(reader: &mut Reader<false>) -> Result<(), Fault> {
    reader.gap();
    match reader.peek() {
        None | Some(b'\n' | b'\r') => Ok(()),
        Some(b'#') => {
            reader.comment();
            Ok(())
        }
        Some(_) => fault(reader.at, "BadToken"),
    }
}

/// The lines of a document one after another, and the places of each in them.
fn read(text: &str) -> Result<(Vec<u8>, Vec<(usize, usize)>), Fault> {
    let mut reader = Reader::<false>::new(text);
    let mut lines = Vec::with_capacity(text.len());
    let mut places = Vec::new();
    loop {
        reader.gap();
        match reader.peek() {
            None => return Ok((lines, places)),
            Some(b'\n' | b'\r') => reader.at += 1,
            Some(b'#') => reader.comment(),
            Some(_) => {
                let from = lines.len();
                reader.statement(&mut lines)?;
                places.push((from, lines.len()));
                line_end(&mut reader)?;
            }
        }
    }
}

/// Writes the lines of a document, each once, in byte order.
pub fn canonical(text: &[u8], out: &mut impl Write) -> Result<io::Result<()>, Fault> {
    let (lines, places) = read(utf8(text)?)?;
    let mut lines: Vec<&[u8]> = places.iter().map(|(from, end)| &lines[*from..*end]).collect();
    lines.sort_unstable();
    lines.dedup();
    Ok(lines.into_iter().try_for_each(|line| out.write_all(line)))
}
