//! The commands of `spb mem` in plain Rust over its standard library.
//!
//! It answers as the store does, byte for byte, so that both can be timed on one script. It reads
//! through a buffer, and writes each reply by one call, so that it is seen before the next line. With
//! pivots it keeps a table of each object's distances to them beside the object; without, it scans.

use std::collections::hash_map::Entry;
use std::collections::{BinaryHeap, HashMap};
use std::fmt::Write as _;
use std::fs::File;
use std::io::{self, BufRead, Write};
use std::os::fd::AsFd;
use std::process::ExitCode;

const LINE_LIMIT: usize = 16384;
const MEMORY_CAP: usize = 65536;
const SAMPLE_LIMIT: usize = 4096;
const LAST_COLLECTION: u32 = 3;
const MOST_PIVOTS: usize = 8;

#[derive(Clone, Copy)]
enum Space {
    L1 { dim: usize, most: u32 },
    LInf { dim: usize, most: u32 },
    Hamming { len: usize },
    Sets { universe: u32, most: usize },
}

/// Components, bytes or elements, by the space.
type Object = Vec<u32>;

enum Command {
    Sample(Object),
    Add(u8, u32, Object),
    Drop(u8, u32),
    Get(u8, u32),
    Count(u8),
    Range(u8, u32, Object),
    Near(u8, usize, Object),
    Join(u8, u8, u32),
}

/// The distances of an object to the pivots, and 0 behind them.
type Vector = [u32; MOST_PIVOTS];

struct Row {
    id: u32,
    vector: Vector,
    object: Object,
}

#[derive(Default)]
struct Collection {
    rows: Vec<Row>,
    places: HashMap<u32, usize>,
}

struct Store {
    space: Space,
    wanted: usize,
    samples: Option<Vec<Object>>,
    pivots: Vec<Object>,
    collections: [Collection; 4],
}

/// What the pivots tell of two objects and a radius.
enum Verdict {
    Apart,
    Open,
    Sure,
}

/// The number that the word spells in decimal, without a leading zero, where it is at most `most`.
fn number(word: &[u8], most: u32) -> Option<u32> {
    if word.is_empty() || (word.len() > 1 && word[0] == b'0') {
        return None;
    }
    let mut value = 0;
    for &digit in word {
        if !digit.is_ascii_digit() {
            return None;
        }
        value = value * 10 + u64::from(digit - b'0');
        if value > u64::from(most) {
            return None;
        }
    }
    Some(value as u32)
}

fn hex_digit(digit: u8) -> Option<u32> {
    match digit {
        b'0'..=b'9' => Some(u32::from(digit - b'0')),
        b'a'..=b'f' => Some(u32::from(digit - b'a') + 10),
        _ => None,
    }
}

impl Space {
    fn object(self, word: &[u8]) -> Option<Object> {
        match self {
            Space::L1 { dim, most } | Space::LInf { dim, most } => {
                let object: Object = word.split(|&byte| byte == b',').map(|part| number(part, most)).collect::<Option<_>>()?;
                (object.len() == dim).then_some(object)
            }
            Space::Hamming { len } => {
                let object: Object =
                    word.chunks(2).map(|pair| Some(hex_digit(pair[0])? * 16 + hex_digit(*pair.get(1)?)?)).collect::<Option<_>>()?;
                (object.len() == len).then_some(object)
            }
            Space::Sets { .. } if word == b"-" => Some(Vec::new()),
            Space::Sets { universe, most } => {
                let object: Object =
                    word.split(|&byte| byte == b',').map(|part| number(part, universe - 1)).collect::<Option<_>>()?;
                (object.len() <= most && object.windows(2).all(|pair| pair[0] < pair[1])).then_some(object)
            }
        }
    }

    fn distance(self, left: &[u32], right: &[u32]) -> u32 {
        let pairs = || left.iter().zip(right);
        match self {
            Space::L1 { .. } => pairs().map(|(x, y)| x.abs_diff(*y)).sum(),
            Space::LInf { .. } => pairs().map(|(x, y)| x.abs_diff(*y)).max().unwrap_or(0),
            Space::Hamming { .. } => pairs().filter(|(x, y)| x != y).count() as u32,
            Space::Sets { .. } => {
                let (mut i, mut j, mut common) = (0, 0, 0);
                while i < left.len() && j < right.len() {
                    common += u32::from(left[i] == right[j]);
                    let (a, b) = (left[i] <= right[j], right[j] <= left[i]);
                    i += usize::from(a);
                    j += usize::from(b);
                }
                (left.len() + right.len()) as u32 - 2 * common
            }
        }
    }

    fn text(self, object: &[u32], reply: &mut String) {
        match self {
            Space::Hamming { .. } => object.iter().for_each(|byte| write!(reply, "{byte:02x}").unwrap()),
            Space::Sets { .. } if object.is_empty() => reply.push('-'),
            _ => object.iter().enumerate().for_each(|(i, part)| {
                write!(reply, "{}{part}", if i == 0 { "" } else { "," }).unwrap();
            }),
        }
    }

    fn command(self, line: &[u8]) -> Result<Command, &'static str> {
        let words: Vec<&[u8]> = line.split(|&byte| byte == b' ').collect();
        let collection = |word| number(word, LAST_COLLECTION).map(|c| c as u8).ok_or("collection");
        let id = |word| number(word, u32::MAX).ok_or("id");
        let radius = |word| number(word, u32::MAX).ok_or("number");
        let ranks = |word| number(word, 65536).filter(|k| *k > 0).ok_or("number");
        let object = |word| self.object(word).ok_or("object");
        Ok(match words.as_slice() {
            [b"sample", o] => Command::Sample(object(*o)?),
            [b"add", c, i, o] => Command::Add(collection(*c)?, id(*i)?, object(*o)?),
            [b"drop", c, i] => Command::Drop(collection(*c)?, id(*i)?),
            [b"get", c, i] => Command::Get(collection(*c)?, id(*i)?),
            [b"count", c] => Command::Count(collection(*c)?),
            [b"range", c, r, o] => Command::Range(collection(*c)?, radius(*r)?, object(*o)?),
            [b"near", c, k, o] => Command::Near(collection(*c)?, ranks(*k)? as usize, object(*o)?),
            [b"join", c, d, r] => Command::Join(collection(*c)?, collection(*d)?, radius(*r)?),
            _ => return Err("command"),
        })
    }
}

impl Collection {
    fn add(&mut self, row: Row) {
        self.places.insert(row.id, self.rows.len());
        self.rows.push(row);
    }

    fn remove(&mut self, id: u32) -> bool {
        let Some(place) = self.places.remove(&id) else {
            return false;
        };
        self.rows.swap_remove(place);
        if let Some(moved) = self.rows.get(place) {
            self.places.insert(moved.id, place);
        }
        true
    }
}

impl Store {
    fn sample(&mut self, object: Object) -> &'static str {
        match &mut self.samples {
            None => "late",
            Some(kept) if kept.len() >= SAMPLE_LIMIT => "full",
            Some(kept) => {
                kept.push(object);
                "ok"
            }
        }
    }

    /// Chooses the pivots from the samples, where there are any yet.
    fn close(&mut self) {
        let Some(mut left) = self.samples.take() else {
            return;
        };
        let mut sums = vec![0u64; left.len()];
        while self.pivots.len() < self.wanted && !left.is_empty() {
            let most = sums.iter().max().copied().unwrap_or(0);
            let place = sums.iter().position(|sum| *sum == most).unwrap_or(0);
            let pivot = left.remove(place);
            sums.remove(place);
            for (sum, object) in sums.iter_mut().zip(&left) {
                *sum += u64::from(self.space.distance(&pivot, object));
            }
            self.pivots.push(pivot);
        }
    }

    fn vector(&self, object: &[u32]) -> Vector {
        let mut vector = [0; MOST_PIVOTS];
        for (at, pivot) in vector.iter_mut().zip(&self.pivots) {
            *at = self.space.distance(object, pivot);
        }
        vector
    }

    fn verdict(&self, x: &Vector, y: &Vector, radius: u32) -> Verdict {
        let pairs = || x.iter().zip(y).take(self.pivots.len());
        if pairs().any(|(a, b)| a.abs_diff(*b) > radius) {
            Verdict::Apart
        } else if pairs().any(|(a, b)| u64::from(*a) + u64::from(*b) <= u64::from(radius)) {
            Verdict::Sure
        } else {
            Verdict::Open
        }
    }

    fn add(&mut self, collection: u8, id: u32, object: Object) -> &'static str {
        let is_full = self.collections.iter().map(|c| c.rows.len()).sum::<usize>() >= MEMORY_CAP;
        let vector = self.vector(&object);
        let rows = &mut self.collections[usize::from(collection)];
        match rows.places.entry(id) {
            Entry::Occupied(_) => "exists",
            Entry::Vacant(_) if is_full => "full",
            Entry::Vacant(_) => {
                rows.add(Row { id, vector, object });
                "ok"
            }
        }
    }

    fn rows(&self, collection: u8) -> &[Row] {
        &self.collections[usize::from(collection)].rows
    }

    fn find(&self, collection: u8, id: u32) -> Option<&Object> {
        let collection = &self.collections[usize::from(collection)];
        Some(&collection.rows[*collection.places.get(&id)?].object)
    }

    fn range(&self, collection: u8, radius: u32, query: &[u32], reply: &mut String) {
        let asked = self.vector(query);
        let mut evals = self.pivots.len();
        let mut sure = 0;
        let mut ids = Vec::new();
        for row in self.rows(collection) {
            match self.verdict(&asked, &row.vector, radius) {
                Verdict::Apart => {}
                Verdict::Sure => {
                    sure += 1;
                    ids.push(row.id);
                }
                Verdict::Open => {
                    evals += 1;
                    if self.space.distance(query, &row.object) <= radius {
                        ids.push(row.id);
                    }
                }
            }
        }
        ids.sort_unstable();
        let _ = write!(reply, "range {} evals {evals} sure {sure}:", ids.len());
        for id in ids {
            let _ = write!(reply, " {id}");
        }
    }

    fn near(&self, collection: u8, k: usize, query: &[u32], reply: &mut String) {
        let asked = self.vector(query);
        let bound = |row: &Row| asked.iter().zip(&row.vector).map(|(a, b)| a.abs_diff(*b)).max().unwrap_or(0);
        let rows = self.rows(collection);
        let mut candidates: Vec<(u32, u32, usize)> = rows.iter().enumerate().map(|(place, row)| (bound(row), row.id, place)).collect();
        candidates.sort_unstable();
        let mut evals = self.pivots.len();
        let mut best = BinaryHeap::new();
        for (bound, id, place) in candidates {
            if best.len() == k && best.peek().is_some_and(|worst| *worst < (bound, id)) {
                break;
            }
            evals += 1;
            let rank = (self.space.distance(query, &rows[place].object), id);
            if best.len() < k {
                best.push(rank);
            } else if best.peek().is_some_and(|worst| rank < *worst) {
                best.pop();
                best.push(rank);
            }
        }
        let _ = write!(reply, "near {} evals {evals}:", best.len());
        for (distance, id) in best.into_sorted_vec() {
            let _ = write!(reply, " {id}@{distance}");
        }
    }

    fn join(&self, left: u8, right: u8, radius: u32, reply: &mut String) {
        let mut evals = 0u64;
        let mut sure = 0u64;
        let mut pairs = Vec::new();
        for x in self.rows(left) {
            for y in self.rows(right) {
                if left == right && y.id <= x.id {
                    continue;
                }
                match self.verdict(&x.vector, &y.vector, radius) {
                    Verdict::Apart => {}
                    Verdict::Sure => {
                        sure += 1;
                        pairs.push((x.id, y.id));
                    }
                    Verdict::Open => {
                        evals += 1;
                        if self.space.distance(&x.object, &y.object) <= radius {
                            pairs.push((x.id, y.id));
                        }
                    }
                }
            }
        }
        pairs.sort_unstable();
        let _ = write!(reply, "join {} evals {evals} sure {sure}:", pairs.len());
        for (a, b) in pairs {
            let _ = write!(reply, " {a}-{b}");
        }
    }

    /// Appends the reply to a line, without its LF.
    fn answer(&mut self, line: &[u8], reply: &mut String) {
        if line.len() > LINE_LIMIT {
            reply.push_str("long");
            return;
        }
        let command = match self.space.command(line) {
            Ok(command) => command,
            Err(failed) => {
                reply.push_str("bad ");
                reply.push_str(failed);
                return;
            }
        };
        if !matches!(command, Command::Sample(_)) {
            self.close();
        }
        match command {
            Command::Sample(object) => reply.push_str(self.sample(object)),
            Command::Add(c, id, object) => reply.push_str(self.add(c, id, object)),
            Command::Drop(c, id) => reply.push_str(if self.collections[usize::from(c)].remove(id) { "ok" } else { "absent" }),
            Command::Get(c, id) => match self.find(c, id) {
                Some(object) => {
                    reply.push_str("object ");
                    self.space.text(object, reply);
                }
                None => reply.push_str("absent"),
            },
            Command::Count(c) => {
                let _ = write!(reply, "count {}", self.rows(c).len());
            }
            Command::Range(c, radius, query) => self.range(c, radius, &query, reply),
            Command::Near(c, k, query) => self.near(c, k, &query, reply),
            Command::Join(c, d, radius) => self.join(c, d, radius, reply),
        }
    }
}

/// The space, and how many pivots are wanted.
fn setup_of(words: &[String]) -> Option<(Space, usize)> {
    let words: Vec<&str> = words.iter().map(String::as_str).collect();
    let parameter = |word: &str| number(word.as_bytes(), u32::MAX);
    let (space, pivots) = match words.as_slice() {
        ["mem", "l1", dim, most, pivots @ ..] => (Space::L1 { dim: parameter(dim)? as usize, most: parameter(most)? }, pivots),
        ["mem", "linf", dim, most, pivots @ ..] => (Space::LInf { dim: parameter(dim)? as usize, most: parameter(most)? }, pivots),
        ["mem", "hamming", len, pivots @ ..] => (Space::Hamming { len: parameter(len)? as usize }, pivots),
        ["mem", "sets", universe, most, pivots @ ..] => {
            (Space::Sets { universe: parameter(universe)?, most: parameter(most)? as usize }, pivots)
        }
        _ => return None,
    };
    match pivots {
        [] => Some((space, 0)),
        [word] => Some((space, number(word.as_bytes(), MOST_PIVOTS as u32)? as usize)),
        _ => None,
    }
}

fn serve(space: Space, wanted: usize) -> io::Result<()> {
    let mut input = io::stdin().lock();
    let mut output = File::from(io::stdout().as_fd().try_clone_to_owned()?);
    let mut store = Store {
        space,
        wanted,
        samples: Some(Vec::new()),
        pivots: Vec::new(),
        collections: Default::default(),
    };
    let mut line = Vec::new();
    let mut reply = String::new();
    while input.read_until(b'\n', &mut line)? > 0 {
        if line.last() == Some(&b'\n') {
            line.pop();
        }
        store.answer(&line, &mut reply);
        reply.push('\n');
        output.write_all(reply.as_bytes())?;
        output.flush()?;
        line.clear();
        reply.clear();
    }
    Ok(())
}

fn main() -> ExitCode {
    let words: Vec<String> = std::env::args().skip(1).collect();
    let Some((space, wanted)) = setup_of(&words) else {
        eprintln!("usage: baseline mem KIND PARAM.. [PIVOTS]");
        return ExitCode::from(2);
    };
    match serve(space, wanted) {
        Ok(()) => ExitCode::SUCCESS,
        Err(error) => {
            eprintln!("baseline: {error}");
            ExitCode::FAILURE
        }
    }
}
