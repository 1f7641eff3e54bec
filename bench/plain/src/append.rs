//! A file of payloads, each with its running number behind a gate that is opened once the payload is on the disk.

use std::fs::{File, OpenOptions};
use std::io;
use std::os::unix::fs::FileExt;
use std::path::Path;

const PAYLOAD: [u8; 200] = [b'x'; 200];

/// Writes a payload's running number and its block behind the closed gate, syncs, opens the gate, and syncs.
pub fn add(file: &File, end: u64, number: u32, block: &[u8]) -> io::Result<()> {
    file.write_all_at(&number.to_be_bytes(), end)?;
    file.write_all_at(block, end + 4)?;
    file.sync_data()?;
    file.write_all_at(&[1], end - 1)?;
    file.sync_data()
}

/// Makes a file and appends payloads to it.
pub fn fill(dir: &str, count: u32) -> io::Result<()> {
    let dir = Path::new(dir);
    let file = OpenOptions::new()
        .write(true)
        .create_new(true)
        .open(dir.join("plain-journal"))?;
    File::open(dir)?.sync_all()?;
    file.write_all_at(b"RDJ2\0\0\0\0\0", 0)?;
    file.sync_data()?;
    let mut block = (PAYLOAD.len() as u32).to_be_bytes().to_vec();
    block.extend_from_slice(&PAYLOAD);
    block.push(0);
    let mut end = 9;
    for number in 1..=count {
        add(&file, end, number, &block)?;
        end += 4 + block.len() as u64;
    }
    Ok(())
}
