//! `journal_rival GROUP COUNT`: the writes and syncs of `journal_appends`, of the same bytes to the same files, without
//! a proof and without a journal's questions. bench/journal times both.

use std::env;
use std::fs::{File, OpenOptions};
use std::io::{Error, Result};
use std::os::unix::fs::FileExt;

const BODY: [u8; 100] = [b'r'; 100];

struct Store {
    zero: File,
    one: File,
    end: u64,
    bytes: Vec<u8>,
}

fn opened(path: &str) -> Result<File> {
    OpenOptions::new().read(true).write(true).create(true).truncate(false).open(path)
}

/// A head of generation 1 and version 2, with an open gate, and without an image.
fn head() -> Vec<u8> {
    let sizes = [2u32, 65_536, 4_194_304, 4_096].map(u32::to_le_bytes).concat();
    [&1u64.to_le_bytes(), b"FSRMHALF".as_slice(), &1u64.to_le_bytes(), &sizes, &0u64.to_le_bytes()].concat()
}

impl Store {
    fn made() -> Result<Store> {
        let store = Store { zero: opened("fsrm.store.0")?, one: opened("fsrm.store.1")?, end: 48, bytes: Vec::new() };
        // An earlier process may have left what isn't stable.
        store.zero.sync_all()?;
        store.one.sync_all()?;
        File::open(".")?.sync_all()?;
        store.zero.write_all_at(&[0], 0)?;
        store.one.write_all_at(&[0], 0)?;
        store.zero.sync_all()?;
        store.one.sync_all()?;
        store.zero.write_all_at(&head()[1..], 1)?;
        store.zero.write_all_at(&[0], 48)?;
        store.zero.sync_all()?;
        store.zero.write_all_at(&[1], 0)?;
        store.zero.sync_all()?;
        Ok(store)
    }

    fn hold(&mut self, body: &[u8]) {
        if !self.bytes.is_empty() {
            self.bytes.push(1);
        }
        self.bytes.extend_from_slice(&(body.len() as u32).to_le_bytes());
        self.bytes.extend_from_slice(body);
    }

    fn flush(&mut self) -> Result<()> {
        self.bytes.push(0);
        self.zero.write_all_at(&self.bytes, self.end + 1)?;
        self.zero.sync_all()?;
        self.zero.write_all_at(&[1], self.end)?;
        self.zero.sync_all()?;
        self.end += self.bytes.len() as u64;
        self.bytes.clear();
        Ok(())
    }
}

fn main() -> Result<()> {
    let numbers: Vec<usize> = env::args().skip(1).filter_map(|word| word.parse().ok()).collect();
    let [group, count] = numbers[..] else {
        return Err(Error::other("journal_rival GROUP COUNT"));
    };
    let mut store = Store::made()?;
    for _ in 0..count / group {
        for _ in 0..group {
            store.hold(&BODY);
        }
        store.flush()?;
    }
    Ok(())
}
