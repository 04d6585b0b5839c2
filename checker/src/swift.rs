//! The same rules once more, as fast as plain Rust gets: the second yardstick of the
//! benchmarks. Where `quick` shows what a straightforward program costs, this shows what a
//! tuned one does, so that the box beside it tells what being proved costs.
//!
//! No state is built. An image is tested where it lies, word by word, and a call writes
//! only the bytes that it changes: "an accepted image comes back unchanged". The page to
//! give up is looked for among at most 24 pages, without a walk along a look-ahead; Run
//! keeps what it knows of a file until a reader or a page of that file moves. It has the
//! nine entries alone, without lists, questions and lines. Nothing is allocated, and
//! nothing is unsafe. Tests hold it to the model and to `quick`.

mod calls;
mod count;
mod decide;
mod run;
mod sound;
mod weights;

use crate::call::Call;
use crate::layout::{CACHED, END, IN_FETCH, READERS, READER_BYTES};

const FILES: usize = 8;
const SLOTS: usize = 16;
const FILE_WORDS: usize = 16;
const FILE_PAGES: u32 = 1_024;

/// A slot's condition, by the image's numbers.
const EMPTY: u8 = 0;
const RUNNING: u8 = 1;
const WAITING: u8 = 2;

/// An image of the right length.
type Image = [u8; END];

/// One call on an image: Restore, call, Save, and the number.
pub fn entry(image: &mut [u8], call: Call) -> u64 {
    let Ok(image) = <&mut Image>::try_from(image) else {
        return 13;
    };
    let Some(counts) = sound::counts(image) else {
        return 13;
    };
    match calls::call(image, &counts, call) {
        Ok(number) | Err(number) => number,
    }
}

#[inline]
fn two(image: &Image, at: usize) -> u32 {
    u16::from_le_bytes([image[at], image[at + 1]]).into()
}

#[inline]
fn four(image: &Image, at: usize) -> u32 {
    u32::from_le_bytes([image[at], image[at + 1], image[at + 2], image[at + 3]])
}

#[inline]
fn eight(image: &Image, at: usize) -> u64 {
    u64::from_le_bytes(image[at..at + 8].try_into().unwrap())
}

#[inline]
fn put_two(image: &mut Image, at: usize, number: u32) {
    image[at..at + 2].copy_from_slice(&(number as u16).to_le_bytes());
}

#[inline]
fn put_eight(image: &mut Image, at: usize, number: u64) {
    image[at..at + 8].copy_from_slice(&number.to_le_bytes());
}

/// What a map has of one file.
type FileMap = [u8; 8 * FILE_WORDS];

#[inline]
fn word(map: &FileMap, nth: usize) -> u64 {
    u64::from_le_bytes(map[8 * nth..8 * nth + 8].try_into().unwrap())
}

/// Both maps of a file. The compiler knows their lengths, and so has less to test.
#[derive(Clone, Copy)]
struct Maps<'a> {
    cached: &'a FileMap,
    in_fetch: &'a FileMap,
}

impl Maps<'_> {
    #[inline]
    fn of(image: &Image, file: usize) -> Maps<'_> {
        let (first, length) = (file % FILES * 8 * FILE_WORDS, 8 * FILE_WORDS);
        Maps {
            cached: image[CACHED + first..][..length].try_into().unwrap(),
            in_fetch: image[IN_FETCH + first..][..length].try_into().unwrap(),
        }
    }

    #[inline]
    fn cached(self, nth: usize) -> u64 {
        word(self.cached, nth)
    }

    /// The pages that count as cached in q and in the pruning.
    #[inline]
    fn present(self, nth: usize) -> u64 {
        word(self.cached, nth) | word(self.in_fetch, nth)
    }
}

/// Whether a map, named by where it starts, has the page of a key.
#[inline]
fn has(image: &Image, map: usize, key: usize) -> bool {
    image[map + key / 8] >> (key % 8) & 1 == 1
}

#[inline]
fn put(image: &mut Image, map: usize, key: usize) {
    image[map + key / 8] |= 1 << (key % 8);
}

#[inline]
fn take(image: &mut Image, map: usize, key: usize) {
    image[map + key / 8] &= !(1 << (key % 8));
}

/// A slot's record, all of it in one number: condition, file, pace, position and last
/// page from the lowest byte on, as the image has them. That of an empty slot is 0.
#[derive(Clone, Copy)]
struct Record(u64);

impl Record {
    #[inline]
    fn of(image: &Image, slot: usize) -> Record {
        Record(eight(image, READERS + READER_BYTES * slot))
    }

    #[inline]
    fn condition(self) -> u8 {
        self.0 as u8
    }

    #[inline]
    fn file(self) -> usize {
        usize::from((self.0 >> 8) as u8)
    }

    #[inline]
    fn pace(self) -> u32 {
        u32::from((self.0 >> 16) as u16)
    }

    #[inline]
    fn position(self) -> u32 {
        u32::from((self.0 >> 32) as u16)
    }

    #[inline]
    fn last(self) -> u32 {
        u32::from((self.0 >> 48) as u16)
    }

    #[inline]
    fn has_pages_left(self) -> bool {
        self.position() < self.last()
    }

    /// The same reader so many pages on.
    #[inline]
    fn moved(self, pages: u32) -> Record {
        Record(self.0 + (u64::from(pages) << 32))
    }

    /// The key of page c + 1.
    #[inline]
    fn next(self) -> usize {
        key(self.file(), self.position() + 1)
    }
}

/// The key of a file's page.
#[inline]
fn key(file: usize, page: u32) -> usize {
    file * FILE_PAGES as usize + page as usize - 1
}
