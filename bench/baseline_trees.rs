//! What `tree_bench` does, in plain Rust over its standard library: a B+-tree on the same pages, whose
//! branches keep no boxes.
//!
//! It takes the same lines and answers the same sums, so that both can be timed on one script.

use std::io::{self, BufRead};

const PAGE_SIZE: usize = 512;
const ROWS_AT: usize = 32;
const LEAF: u8 = 1;
const INNER: u8 = 2;
const ENTRY_SIZE: usize = 16;
const BRANCH_SIZE: usize = 32;
const MOST_ENTRIES: usize = 30;
const LEAST_ENTRIES: usize = 15;
const MOST_BRANCHES: usize = 14;
const LEAST_BRANCHES: usize = 7;

type Page = [u8; PAGE_SIZE];

/// Pages in memory, and a list of the free ones.
struct Pages {
    pages: Vec<Page>,
    free: Vec<u32>,
}

impl Pages {
    fn for_entries(entries: usize) -> Pages {
        let count = entries / 10 + 100;
        Pages {
            pages: vec![[0; PAGE_SIZE]; count + 1],
            free: (1..=count as u32).collect(),
        }
    }

    fn get(&self, n: u32, into: &mut Page) {
        *into = self.pages[n as usize];
    }

    fn put(&mut self, n: u32, page: &Page) {
        self.pages[n as usize] = *page;
    }

    fn take(&mut self) -> u32 {
        self.free.pop().expect("a free page")
    }
}

#[derive(Clone, Copy, Default)]
struct Entry {
    key: u64,
    id: u32,
    slot: u32,
}

/// The key and the id of the first entry under a child. The corners of a box stay zero.
#[derive(Clone, Copy, Default)]
struct Branch {
    key: u64,
    id: u32,
    child: u32,
}

fn long_at(page: &[u8], at: usize) -> u64 {
    u64::from_be_bytes(page[at..at + 8].try_into().unwrap())
}

fn word_at(page: &[u8], at: usize) -> u32 {
    u32::from_be_bytes(page[at..at + 4].try_into().unwrap())
}

fn entry_at(page: &Page, i: usize) -> Entry {
    let row = &page[ROWS_AT + ENTRY_SIZE * i..][..ENTRY_SIZE];
    Entry { key: long_at(row, 0), id: word_at(row, 8), slot: word_at(row, 12) }
}

fn branch_at(page: &Page, i: usize) -> Branch {
    let row = &page[ROWS_AT + BRANCH_SIZE * i..][..BRANCH_SIZE];
    Branch { key: long_at(row, 0), id: word_at(row, 8), child: word_at(row, 12) }
}

fn write_entry(row: &mut [u8], e: &Entry) {
    row[..8].copy_from_slice(&e.key.to_be_bytes());
    row[8..12].copy_from_slice(&e.id.to_be_bytes());
    row[12..16].copy_from_slice(&e.slot.to_be_bytes());
}

fn write_branch(row: &mut [u8], b: &Branch) {
    row[..8].copy_from_slice(&b.key.to_be_bytes());
    row[8..12].copy_from_slice(&b.id.to_be_bytes());
    row[12..16].copy_from_slice(&b.child.to_be_bytes());
}

/// How many rows the page has if it is a node: its kind, its number of rows, and zero bytes where no
/// row is.
fn rows_in(page: &Page) -> Option<(bool, usize)> {
    let count = page[1] as usize;
    let (least, most, size) = match page[0] {
        LEAF => (1, MOST_ENTRIES, ENTRY_SIZE),
        INNER => (2, MOST_BRANCHES, BRANCH_SIZE),
        _ => return None,
    };
    if count < least || count > most {
        return None;
    }
    let is_zero = |bytes: &[u8]| bytes.iter().all(|b| *b == 0);
    if !is_zero(&page[2..ROWS_AT]) || !is_zero(&page[ROWS_AT + size * count..]) {
        return None;
    }
    Some((page[0] == LEAF, count))
}

#[derive(Clone, Copy)]
struct Root {
    page: u32,
    height: u8,
}

/// What stays on the page of a node that was split, and what is on a page that was taken.
struct Split(Branch, Branch);

fn write_leaf(entries: &[Entry], page: &mut Page) {
    page.fill(0);
    page[0] = LEAF;
    page[1] = entries.len() as u8;
    for (e, row) in entries.iter().zip(page[ROWS_AT..].chunks_exact_mut(ENTRY_SIZE)) {
        write_entry(row, e);
    }
}

fn write_inner(branches: &[Branch], page: &mut Page) {
    page.fill(0);
    page[0] = INNER;
    page[1] = branches.len() as u8;
    for (b, row) in branches.iter().zip(page[ROWS_AT..].chunks_exact_mut(BRANCH_SIZE)) {
        write_branch(row, b);
    }
}

fn insert_in_leaf(pages: &mut Pages, n: u32, page: &mut Page, e: Entry) -> Option<Split> {
    let count = page[1] as usize;
    let mut entries = [Entry::default(); MOST_ENTRIES + 1];
    for (i, entry) in entries[..count].iter_mut().enumerate() {
        *entry = entry_at(page, i);
    }
    let at = entries[..count].partition_point(|other| (other.key, other.id) < (e.key, e.id));
    entries.copy_within(at..count, at + 1);
    entries[at] = e;
    let entries = &entries[..count + 1];
    if entries.len() <= MOST_ENTRIES {
        write_leaf(entries, page);
        pages.put(n, page);
        return None;
    }
    let (low, high) = entries.split_at(LEAST_ENTRIES);
    let taken = pages.take();
    write_leaf(low, page);
    pages.put(n, page);
    write_leaf(high, page);
    pages.put(taken, page);
    let branch = |e: &Entry, child| Branch { key: e.key, id: e.id, child };
    Some(Split(branch(&low[0], n), branch(&high[0], taken)))
}

fn insert_below(pages: &mut Pages, n: u32, level: u8, e: Entry) -> Option<Split> {
    let mut page = [0; PAGE_SIZE];
    pages.get(n, &mut page);
    if level == 0 {
        return insert_in_leaf(pages, n, &mut page, e);
    }
    let count = page[1] as usize;
    let mut branches = [Branch::default(); MOST_BRANCHES + 1];
    for (i, branch) in branches[..count].iter_mut().enumerate() {
        *branch = branch_at(&page, i);
    }
    let at = branches[1..count].partition_point(|b| (b.key, b.id) <= (e.key, e.id));
    let Some(Split(left, right)) = insert_below(pages, branches[at].child, level - 1, e) else {
        if (e.key, e.id) < (branches[at].key, branches[at].id) {
            branches[at] = Branch { key: e.key, id: e.id, ..branches[at] };
            write_branch(&mut page[ROWS_AT + BRANCH_SIZE * at..][..BRANCH_SIZE], &branches[at]);
            pages.put(n, &page);
        }
        return None;
    };
    branches.copy_within(at + 1..count, at + 2);
    branches[at] = left;
    branches[at + 1] = right;
    let branches = &branches[..count + 1];
    if branches.len() <= MOST_BRANCHES {
        write_inner(branches, &mut page);
        pages.put(n, &page);
        return None;
    }
    let (low, high) = branches.split_at(LEAST_BRANCHES);
    let taken = pages.take();
    write_inner(low, &mut page);
    pages.put(n, &page);
    write_inner(high, &mut page);
    pages.put(taken, &page);
    Some(Split(Branch { child: n, ..low[0] }, Branch { child: taken, ..high[0] }))
}

fn insert(pages: &mut Pages, root: Root, e: Entry) -> Root {
    let mut page = [0; PAGE_SIZE];
    if root.height == 0 {
        let taken = pages.take();
        write_leaf(&[e], &mut page);
        pages.put(taken, &page);
        return Root { page: taken, height: 1 };
    }
    let Some(Split(left, right)) = insert_below(pages, root.page, root.height - 1, e) else {
        return root;
    };
    let taken = pages.take();
    write_inner(&[left, right], &mut page);
    pages.put(taken, &page);
    Root { page: taken, height: root.height + 1 }
}

fn find(pages: &Pages, root: Root, key: u64, id: u32) -> Option<u32> {
    let mut n = root.page;
    for _ in 1..root.height {
        let page = &pages.pages[n as usize];
        let count = page[1] as usize;
        let reach = (0..count).take_while(|i| {
            let b = branch_at(page, *i);
            (b.key, b.id) <= (key, id)
        });
        n = branch_at(page, reach.count().checked_sub(1)?).child;
    }
    let page = &pages.pages[n as usize];
    let mut entries = (0..page[1] as usize).map(|i| entry_at(page, i));
    entries.find(|e| e.key == key && e.id == id).map(|e| e.slot)
}

/// Hands each entry under a node to a function, in their order.
fn each(pages: &Pages, n: u32, level: u8, take: &mut impl FnMut(Entry)) {
    let page = &pages.pages[n as usize];
    let count = page[1] as usize;
    for i in 0..count {
        if level == 0 {
            take(entry_at(page, i));
        } else {
            each(pages, branch_at(page, i).child, level - 1, take);
        }
    }
}

fn each_in(pages: &Pages, root: Root, mut take: impl FnMut(Entry)) {
    if root.height > 0 {
        each(pages, root.page, root.height - 1, &mut take);
    }
}

fn scrambled(number: u64) -> u64 {
    let mixed = number.wrapping_add(0x9e37_79b9_7f4a_7c15);
    let mixed = (mixed ^ (mixed >> 30)).wrapping_mul(0xbf58_476d_1ce4_e5b9);
    let mixed = (mixed ^ (mixed >> 27)).wrapping_mul(0x94d0_49bb_1331_11eb);
    mixed ^ (mixed >> 31)
}

fn drawn(kind: u64, number: u64, axis: u64) -> u64 {
    scrambled((kind << 48) ^ (number << 8) ^ axis)
}

/// Vectors of five coordinates of 12 bits, in clusters, by their keys in Z order.
fn entries(count: u32) -> Vec<Entry> {
    (0..count)
        .map(|id| {
            let cluster = scrambled(u64::from(id)) % 200;
            let cell: Vec<u64> = (0..5)
                .map(|axis| drawn(1, cluster, axis) % 4032 + drawn(2, u64::from(id), axis) % 64)
                .collect();
            let mut key = 0;
            for bit in (0..12).rev() {
                for x in &cell {
                    key = key << 1 | (x >> bit & 1);
                }
            }
            Entry { key, id, slot: id }
        })
        .collect()
}

fn fill(pages: &mut Pages, entries: &[Entry]) -> Root {
    let mut root = Root { page: 0, height: 0 };
    for e in entries {
        root = insert(pages, root, *e);
    }
    root
}

fn number_of(e: &Entry) -> u64 {
    e.key.wrapping_add(u64::from(e.slot))
}

/// The first 512 leaves by their numbers.
fn leaves(pages: &Pages) -> Vec<Page> {
    let is_live = |n: &usize| !pages.free.contains(&(*n as u32));
    (1..pages.pages.len()).filter(is_live).map(|n| pages.pages[n]).filter(|page| page[0] == LEAF).take(512).collect()
}

/// The sum of what a job reads in each round.
fn sum(job: &str, entries: &[Entry], pages: &Pages, root: Root, rounds: u32) -> Option<u64> {
    let mut sum: u64 = 0;
    let leaves = leaves(pages);
    for _ in 0..rounds {
        match job {
            "insert" => {
                let mut pages = Pages::for_entries(entries.len());
                fill(&mut pages, entries);
                sum = sum.wrapping_add(pages.free.len() as u64);
            }
            "nodes" => {
                for page in &leaves {
                    sum = sum.wrapping_add(rows_in(page).map_or(0, |(_, count)| count as u64));
                }
            }
            "entries" => {
                for page in &leaves {
                    if let Some((true, count)) = rows_in(page) {
                        for i in 0..count {
                            sum = sum.wrapping_add(number_of(&entry_at(page, i)));
                        }
                    }
                }
            }
            "find" => {
                for e in entries {
                    sum = sum.wrapping_add(find(pages, root, e.key, e.id).map_or(0, u64::from));
                }
            }
            "walk" => {
                let mut found = Vec::new();
                each_in(pages, root, |e| found.push(e));
                for e in &found {
                    sum = sum.wrapping_add(number_of(e));
                }
            }
            "cursor" => each_in(pages, root, |e| sum = sum.wrapping_add(number_of(&e))),
            _ => return None,
        }
    }
    Some(sum)
}

fn answer(line: &str) -> Option<String> {
    let [job, count, rounds]: [&str; 3] = line.split(' ').collect::<Vec<_>>().try_into().ok()?;
    let (count, rounds) = (count.parse().ok()?, rounds.parse().ok()?);
    let entries = entries(count);
    let mut pages = Pages::for_entries(entries.len());
    let root = fill(&mut pages, &entries);
    let mut order: u64 = 0;
    each_in(&pages, root, |e| order = order.wrapping_mul(3).wrapping_add(number_of(&e)));
    let sum = sum(job, &entries, &pages, root, rounds)?;
    Some(format!("{line} {order} {sum}"))
}

fn main() {
    for line in io::stdin().lock().lines() {
        let line = line.expect("input");
        println!("{}", answer(&line).unwrap_or_else(|| format!("{line} isn't known")));
    }
}
