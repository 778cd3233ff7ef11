//! The `add` lines of `spb run FILE` for vectors and the sum of differences, in plain Rust over its standard library.
//!
//! It adds to a fresh file of `spb make`, and `spb check` finds the file sound afterwards. For each object it
//! makes the calls that a change over the journal needs: it reads the slot's page, writes the journal and syncs,
//! writes the gate and syncs, writes the page and syncs, clears the gate and syncs. It keeps each object in
//! memory with its distances to the pivots, and writes each reply by one call. Other lines aren't known to it.

use std::collections::HashMap;
use std::fs::{File, OpenOptions};
use std::io::{self, BufRead, Write};
use std::os::fd::AsFd;
use std::os::unix::fs::FileExt;
use std::process::ExitCode;

const PAGE: usize = 512;
const GATE_AT: u64 = 16;
const PROFILE_PAGE: u64 = 1;
const PIVOT_PAGE: u64 = 2;
const JOURNAL_PAGE: u64 = 4;
const FIRST_SLOT_PAGE: u64 = 85;
const RECORD: usize = 128;
const OBJECT_AT: usize = 8;
const IDS_AT: usize = 8;
const MOST_PIVOTS: usize = 8;
const LAST_COLLECTION: u32 = 3;

type Page = [u8; PAGE];

struct Profile {
    pivots: usize,
    dim: usize,
    most: u32,
    cap: u32,
}

#[allow(dead_code)]
struct Row {
    slot: u32,
    vector: [u32; MOST_PIVOTS],
    object: Vec<u32>,
}

struct Store {
    file: File,
    profile: Profile,
    pivots: Vec<Vec<u32>>,
    rows: HashMap<(u8, u32), Row>,
    free: Vec<u32>,
}

fn read_page(file: &File, page: u64) -> io::Result<Page> {
    let mut bytes = [0; PAGE];
    file.read_exact_at(&mut bytes, page * PAGE as u64)?;
    Ok(bytes)
}

fn word_at(bytes: &[u8], at: usize) -> u32 {
    u32::from_be_bytes([bytes[at], bytes[at + 1], bytes[at + 2], bytes[at + 3]])
}

fn record_at(number: u64) -> usize {
    (number % 4) as usize * RECORD
}

fn read_profile(file: &File) -> io::Result<Profile> {
    let bytes = read_page(file, PROFILE_PAGE)?;
    Ok(Profile {
        pivots: usize::from(bytes[4]).min(MOST_PIVOTS),
        dim: word_at(&bytes, 8) as usize,
        most: word_at(&bytes, 12),
        cap: word_at(&bytes, 16),
    })
}

fn read_pivot(file: &File, dim: usize, number: u64) -> io::Result<Vec<u32>> {
    let bytes = read_page(file, PIVOT_PAGE + number / 4)?;
    let at = record_at(number) + OBJECT_AT;
    Ok(bytes[at..at + 4 * dim].chunks(4).map(|part| word_at(part, 0)).collect())
}

fn distance(left: &[u32], right: &[u32]) -> u32 {
    left.iter().zip(right).map(|(x, y)| x.abs_diff(*y)).sum()
}

/// The number that the word spells in decimal, where it is at most `most`.
fn number(word: &str, most: u32) -> Option<u32> {
    word.parse().ok().filter(|value| *value <= most)
}

impl Store {
    fn open(path: &str) -> io::Result<Store> {
        let file = OpenOptions::new().read(true).write(true).open(path)?;
        let profile = read_profile(&file)?;
        let pivots = (0..profile.pivots as u64).map(|number| read_pivot(&file, profile.dim, number)).collect::<io::Result<_>>()?;
        let free = (0..profile.cap).collect();
        Ok(Store { file, profile, pivots, rows: HashMap::new(), free })
    }

    fn parse(&self, line: &str) -> Option<(u8, u32, Vec<u32>)> {
        let mut words = line.split(' ');
        if words.next()? != "add" {
            return None;
        }
        let collection = number(words.next()?, LAST_COLLECTION)? as u8;
        let id = number(words.next()?, u32::MAX)?;
        let object: Vec<u32> = words.next()?.split(',').map(|part| number(part, self.profile.most)).collect::<Option<_>>()?;
        (object.len() == self.profile.dim && words.next().is_none()).then_some((collection, id, object))
    }

    /// Writes the page over the journal: once the second sync is done the change stays, and then it goes home.
    fn commit(&self, page: u64, bytes: &Page) -> io::Result<()> {
        let mut journal = [0; 2 * PAGE];
        journal[..4].copy_from_slice(&1u32.to_be_bytes());
        journal[IDS_AT..IDS_AT + 4].copy_from_slice(&(page as u32).to_be_bytes());
        journal[PAGE..].copy_from_slice(bytes);
        self.put(&journal, JOURNAL_PAGE * PAGE as u64)?;
        self.put(&[1], GATE_AT)?;
        self.put(bytes, page * PAGE as u64)?;
        self.put(&[0], GATE_AT)
    }

    fn put(&self, bytes: &[u8], at: u64) -> io::Result<()> {
        self.file.write_all_at(bytes, at)?;
        self.file.sync_data()
    }

    fn add(&mut self, collection: u8, id: u32, object: Vec<u32>) -> io::Result<&'static str> {
        if self.rows.contains_key(&(collection, id)) {
            return Ok("exists\n");
        }
        let Some(slot) = self.free.pop() else {
            return Ok("full\n");
        };
        let page = FIRST_SLOT_PAGE + u64::from(slot / 4);
        let mut bytes = read_page(&self.file, page)?;
        let record = &mut bytes[record_at(u64::from(slot))..][..RECORD];
        record.fill(0);
        record[0] = collection;
        record[1] = (4 * object.len()) as u8;
        record[4..8].copy_from_slice(&id.to_be_bytes());
        for (part, value) in record[OBJECT_AT..].chunks_mut(4).zip(&object) {
            part.copy_from_slice(&value.to_be_bytes());
        }
        self.commit(page, &bytes)?;
        let mut vector = [0; MOST_PIVOTS];
        for (at, pivot) in vector.iter_mut().zip(&self.pivots) {
            *at = distance(&object, pivot);
        }
        self.rows.insert((collection, id), Row { slot, vector, object });
        Ok("ok\n")
    }
}

fn serve(path: &str) -> io::Result<()> {
    let mut store = Store::open(path)?;
    let mut input = io::stdin().lock();
    let mut output = File::from(io::stdout().as_fd().try_clone_to_owned()?);
    let mut line = String::new();
    while input.read_line(&mut line)? > 0 {
        let reply = match store.parse(line.trim_end_matches('\n')) {
            Some((collection, id, object)) => store.add(collection, id, object)?,
            None => "bad\n",
        };
        output.write_all(reply.as_bytes())?;
        line.clear();
    }
    Ok(())
}

fn main() -> ExitCode {
    let words: Vec<String> = std::env::args().skip(1).collect();
    let [path] = words.as_slice() else {
        eprintln!("usage: baseline_files FILE");
        return ExitCode::from(2);
    };
    match serve(path) {
        Ok(()) => ExitCode::SUCCESS,
        Err(error) => {
            eprintln!("baseline_files: {error}");
            ExitCode::FAILURE
        }
    }
}
