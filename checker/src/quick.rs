//! The same rules on a flat state: arrays of numbers and words of bits.
//!
//! This is the yardstick of the benchmarks: plain, good Rust without tricks. A
//! decision walks every reader's look-ahead once into an array of use keys and
//! then scans the pages; a list sorts them. Under the 1993 rule a decision chooses the
//! file first, and walks and scans that file alone; a list sorts each file's pages and
//! then takes them by turns. A question is worked out by itself. Nothing is allocated.
//! Tests hold it to the model.
//!
//! [`entry`] takes calls on an image, [`list`] lists an order of one, [`when_read`]
//! answers questions about one and [`question`] a single one, [`Lines`] takes the
//! program's lines.

mod calls;
mod decide;
mod image;
mod lines;
mod lists;
mod questions;
mod weights;

pub use lines::Lines;
pub use lists::list;
pub use questions::{question, when_read};

use crate::call::Call;
use std::ops::Range;

const FILES: usize = 8;
const SLOTS: usize = 16;
const PAGES: usize = 8_192;
const WORDS: usize = PAGES / 64;
const FILE_WORDS: usize = WORDS / FILES;

/// A slot's condition, by the image's numbers.
const EMPTY: u8 = 0;
const RUNNING: u8 = 1;
const WAITING: u8 = 2;

#[derive(Clone, Copy, Default)]
struct Reader {
    condition: u8,
    file: usize,
    pace: u32,
    position: u32,
    last: u32,
    mark: u32,
}

impl Reader {
    /// The key of page c + 1.
    fn next(&self) -> usize {
        self.file * 1_024 + self.position as usize
    }

    /// The key behind its last page's.
    fn end(&self) -> usize {
        self.file * 1_024 + self.last as usize
    }
}

/// The state; pages go by their keys, bit by bit in the two maps.
struct Flat {
    frames: u32,
    turn: usize,
    look_ahead: u32,
    fetch_time: u32,
    sizes: [u32; FILES],
    readers: [Reader; SLOTS],
    cached: [u64; WORDS],
    in_fetch: [u64; WORDS],
    /// How many pages are cached.
    taken: u32,
    /// Whether the rule is that of 1993.
    weighted: bool,
    expected: [u32; FILES],
    attaches: [u32; FILES],
}

/// One call on an image: Restore, call, Save, and the number.
pub fn entry(image: &mut [u8], call: Call) -> u64 {
    let Some(mut flat) = Flat::restore(image) else {
        return 13;
    };
    match flat.call(call) {
        Ok(number) => {
            flat.save(image);
            number
        }
        Err(refusal) => refusal,
    }
}

fn has(map: &[u64; WORDS], key: usize) -> bool {
    map[key / 64] >> (key % 64) & 1 == 1
}

fn put(map: &mut [u64; WORDS], key: usize) {
    map[key / 64] |= 1 << (key % 64);
}

/// Puts a stretch of keys, word by word.
fn put_stretch(map: &mut [u64; WORDS], keys: Range<usize>) {
    let mut key = keys.start;
    while key < keys.end {
        let behind = keys.end.min((key / 64 + 1) * 64);
        map[key / 64] |= u64::MAX >> (64 - (behind - key)) << (key % 64);
        key = behind;
    }
}

fn take(map: &mut [u64; WORDS], key: usize) {
    map[key / 64] &= !(1 << (key % 64));
}
