//! What `curve_bench` does, in plain Rust over its standard library: keys and cells by a loop over
//! their bits.
//!
//! It takes the same lines and answers the same sums, so that both can be timed on one script.

use std::io::{self, BufRead};

/// How many keys a round goes over.
const KEYS: usize = 512;

/// At most 8 coordinates.
#[derive(Clone, Copy)]
struct Cell {
    len: usize,
    at: [u32; 8],
}

/// `n` coordinates of `b` bits.
#[derive(Clone, Copy)]
struct Grid {
    n: usize,
    b: u32,
}

impl Grid {
    fn has_cell(&self, cell: &Cell) -> bool {
        cell.len == self.n && cell.at[..cell.len].iter().all(|x| u64::from(*x) < 1 << self.b)
    }

    fn has_key(&self, key: u64) -> bool {
        key <= u64::MAX >> (64 - self.n as u32 * self.b)
    }
}

trait Curve {
    fn grid(&self) -> &Grid;
    fn key(&self, cell: &Cell) -> u64;
    fn cell(&self, key: u64) -> Cell;
}

/// The Z-order curve.
struct ZCurve(Grid);

impl Curve for ZCurve {
    fn grid(&self) -> &Grid {
        &self.0
    }

    fn key(&self, cell: &Cell) -> u64 {
        let mut key = 0;
        for bit in (0..self.0.b).rev() {
            for x in &cell.at[..cell.len] {
                key = key << 1 | u64::from(x >> bit & 1);
            }
        }
        key
    }

    fn cell(&self, key: u64) -> Cell {
        let mut cell = Cell { len: self.0.n, at: [0; 8] };
        let mut place = self.0.n as u32 * self.0.b;
        for _ in 0..self.0.b {
            for x in &mut cell.at[..self.0.n] {
                place -= 1;
                *x = *x << 1 | (key >> place & 1) as u32;
            }
        }
        cell
    }
}

/// The Hilbert curve. What Hamilton says of a part (its Gray code, entry and axis) is worked out
/// anew for each group of key bits, with no table.
struct Hilbert(Grid);

/// How the curve goes through a part of the grid: the corner at which it enters, with the bit of
/// axis j at bit j, and the axis along which it runs.
#[derive(Clone, Copy, Default)]
struct Pass {
    entry: u32,
    axis: u32,
}

impl Pass {
    /// The part that a group of key bits names: the next bit of each coordinate.
    fn part(self, group: u32, n: u32) -> u32 {
        turned_left(gray(group), self.axis + 1, n) ^ self.entry
    }

    /// The group that names a part.
    fn group(self, part: u32, n: u32) -> u32 {
        ungray(turned_left(part ^ self.entry, n - 1 - self.axis, n))
    }

    /// How the curve goes through the part that a group names.
    fn within(self, group: u32, n: u32) -> Pass {
        let before = group.saturating_sub(1);
        let odd = if group % 2 == 0 { before } else { group };
        Pass {
            entry: self.entry ^ turned_left(gray(before & !1), self.axis + 1, n),
            axis: (self.axis + odd.trailing_ones() + 1) % n,
        }
    }
}

/// The `n` bits of x turned left by at most `n` places.
fn turned_left(x: u32, places: u32, n: u32) -> u32 {
    (x << places | x >> (n - places)) & ((1 << n) - 1)
}

fn gray(i: u32) -> u32 {
    i ^ i >> 1
}

/// The number whose Gray code this is.
fn ungray(code: u32) -> u32 {
    let mut i = code;
    let mut rest = code >> 1;
    while rest != 0 {
        i ^= rest;
        rest >>= 1;
    }
    i
}

impl Curve for Hilbert {
    fn grid(&self) -> &Grid {
        &self.0
    }

    fn key(&self, cell: &Cell) -> u64 {
        let n = self.0.n as u32;
        let mut pass = Pass::default();
        let mut key = 0;
        for bit in (0..self.0.b).rev() {
            let mut part = 0;
            for (j, x) in cell.at[..cell.len].iter().enumerate() {
                part |= (x >> bit & 1) << j;
            }
            let group = pass.group(part, n);
            key = key << n | u64::from(group);
            pass = pass.within(group, n);
        }
        key
    }

    fn cell(&self, key: u64) -> Cell {
        let n = self.0.n as u32;
        let mut pass = Pass::default();
        let mut cell = Cell { len: self.0.n, at: [0; 8] };
        for place in (0..self.0.b).rev() {
            let group = (key >> (n * place)) as u32 & ((1 << n) - 1);
            let part = pass.part(group, n);
            for (j, x) in cell.at[..self.0.n].iter_mut().enumerate() {
                *x = *x << 1 | part >> j & 1;
            }
            pass = pass.within(group, n);
        }
        cell
    }
}

/// Numbers that jump about, the lower ones as well as the higher.
fn numbers() -> Vec<u64> {
    let mut last: u64 = 0x9e37_79b9_7f4a_7c15;
    (0..KEYS)
        .map(|_| {
            last ^= last << 13;
            last ^= last >> 7;
            last ^= last << 17;
            last
        })
        .collect()
}

/// The sum of the keys of cells, each tested and asked for in each round.
fn sum_of_keys<C: Curve>(curve: &C, rounds: u32) -> u64 {
    let cells: Vec<Cell> = numbers().into_iter().filter(|k| curve.grid().has_key(*k)).map(|k| curve.cell(k)).collect();
    let mut sum: u64 = 0;
    for _ in 0..rounds {
        for cell in &cells {
            if curve.grid().has_cell(cell) {
                sum = sum.wrapping_add(curve.key(cell));
            }
        }
    }
    sum
}

/// The sum of the coordinates of the cells of keys, each tested and asked for in each round.
fn sum_of_cells<C: Curve>(curve: &C, rounds: u32) -> u64 {
    let keys = numbers();
    let mut sum: u64 = 0;
    for _ in 0..rounds {
        for key in &keys {
            if curve.grid().has_key(*key) {
                let cell = curve.cell(*key);
                let weighed = cell.at[..cell.len].iter().fold(0u64, |sum, x| sum.wrapping_mul(3).wrapping_add(u64::from(*x)));
                sum = sum.wrapping_add(weighed);
            }
        }
    }
    sum
}

/// The sum that a line asks for, where its words are known.
fn sum(line: &str) -> Option<u64> {
    let words: Vec<&str> = line.split(' ').collect();
    let [curve, n, asked, rounds] = words[..] else { return None };
    let n: usize = n.parse().ok().filter(|n| (2..=8).contains(n))?;
    let grid = Grid { n, b: 64 / n as u32 };
    let rounds: u32 = rounds.parse().ok()?;
    match (curve, asked) {
        ("z", "keys") => Some(sum_of_keys(&ZCurve(grid), rounds)),
        ("z", "cells") => Some(sum_of_cells(&ZCurve(grid), rounds)),
        ("hilbert", "keys") => Some(sum_of_keys(&Hilbert(grid), rounds)),
        ("hilbert", "cells") => Some(sum_of_cells(&Hilbert(grid), rounds)),
        _ => None,
    }
}

fn main() {
    for line in io::stdin().lock().lines().map_while(Result::ok) {
        match sum(&line) {
            Some(sum) => println!("{line} {sum}"),
            None => println!("{line} isn't known"),
        }
    }
}
