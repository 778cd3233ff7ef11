//! What `cache_bench` does, in plain Rust over its standard library: a hash map from page numbers to places in a row of
//! pages, which are linked from the most recent one to the last.
//!
//! It takes the same lines and gives the same answers, so that both can be timed on one script.

use std::collections::HashMap;
use std::io::{self, BufRead};

const FIRST: u32 = 85;
const NODES: u32 = 4681;
const LEVELS: u32 = 5;
const SIZE: usize = 512;

struct Node {
    number: u32,
    before: usize,
    after: usize,
    page: [u8; SIZE],
}

/// Place 0 is no page: it comes before the most recent one and after the last.
struct Cache {
    file: Vec<u8>,
    places: HashMap<u32, usize>,
    nodes: Vec<Node>,
    room: usize,
    reads: u64,
}

impl Cache {
    fn new(room: usize) -> Cache {
        let mut file = Vec::new();
        for n in 0..FIRST + NODES {
            file.resize(SIZE * (n as usize + 1), if n < FIRST { 0 } else { n as u8 });
        }
        let ends = Node { number: 0, before: 0, after: 0, page: [0; SIZE] };
        Cache { file, places: HashMap::with_capacity(room), nodes: vec![ends], room, reads: 0 }
    }

    fn unlink(&mut self, place: usize) {
        let (before, after) = (self.nodes[place].before, self.nodes[place].after);
        self.nodes[before].after = after;
        self.nodes[after].before = before;
    }

    fn link_first(&mut self, place: usize) {
        let after = self.nodes[0].after;
        self.nodes[place].before = 0;
        self.nodes[place].after = after;
        self.nodes[after].before = place;
        self.nodes[0].after = place;
    }

    fn read(&mut self, number: u32, into: &mut [u8; SIZE]) {
        let at = number as usize * SIZE;
        into.copy_from_slice(&self.file[at..at + SIZE]);
        self.reads += 1;
    }

    fn get(&mut self, number: u32, into: &mut [u8; SIZE]) {
        if self.room == 0 {
            self.read(number, into);
            return;
        }
        if let Some(&place) = self.places.get(&number) {
            self.unlink(place);
            self.link_first(place);
            *into = self.nodes[place].page;
            return;
        }
        self.read(number, into);
        let place = if self.places.len() == self.room {
            let last = self.nodes[0].before;
            self.unlink(last);
            self.places.remove(&self.nodes[last].number);
            self.nodes[last].number = number;
            self.nodes[last].page = *into;
            last
        } else {
            self.nodes.push(Node { number, before: 0, after: 0, page: *into });
            self.nodes.len() - 1
        };
        self.link_first(place);
        self.places.insert(number, place);
    }
}

fn added(sum: u64, byte: u8) -> u64 {
    sum.wrapping_mul(3).wrapping_add(u64::from(byte))
}

fn turn_sum(cache: &mut Cache, rounds: u32) -> u64 {
    let mut page = [0; SIZE];
    let mut sum = 0;
    for _ in 0..rounds {
        for i in 0..64 {
            cache.get(FIRST + i * 7 % 64, &mut page);
            sum = added(sum, page[i as usize]);
        }
    }
    sum
}

fn walk_sum(cache: &mut Cache, rounds: u32) -> u64 {
    let mut page = [0; SIZE];
    let mut random: u64 = 88_172_645_463_325_252;
    let mut sum = 0;
    for _ in 0..rounds {
        random ^= random << 13;
        random ^= random >> 7;
        random ^= random << 17;
        let mut node = 0;
        for level in 0..LEVELS {
            cache.get(FIRST + node, &mut page);
            sum = added(sum, page[level as usize]);
            let part = random >> (6 * level);
            let child = (part % 8) * (part / 8 % 8) / 8;
            node = (node * 8 + 1 + child as u32) % NODES;
        }
    }
    sum
}

fn answer(words: &[&str]) -> Option<u64> {
    let &[job, room, rounds] = words else { return None };
    let mut cache = Cache::new(room.parse().ok()?);
    let rounds = rounds.parse().ok()?;
    match job {
        "turns" => Some(turn_sum(&mut cache, rounds)),
        "walks" => Some(walk_sum(&mut cache, rounds)),
        "reads" => {
            walk_sum(&mut cache, rounds);
            Some(cache.reads)
        }
        _ => None,
    }
}

fn main() {
    for line in io::stdin().lock().lines() {
        let line = line.unwrap();
        let words: Vec<&str> = line.split(' ').collect();
        match answer(&words) {
            Some(number) => println!("{line} {number}"),
            None => println!("{line} isn't known"),
        }
    }
}
