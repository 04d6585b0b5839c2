//! Restore's rules, tested where the image lies.

use super::count::Counts;
use super::{four, has, two, word, Image, Maps, Record};
use super::{FILES, FILE_PAGES, FILE_WORDS, RUNNING, SLOTS, WAITING};
use crate::layout::{
    EXPECTED, FETCH_TIME, FILLER, FOUR_ZEROS, FRAMES, IN_FETCH, LOOK_AHEAD, MARKS, RULE, SIZES,
    TURN, ZERO_BYTE,
};

/// How many pages are cached in an image that Restore accepts. The tests within a step do
/// not depend on each other, so that none waits for a branch.
#[inline]
pub(super) fn counts(image: &Image) -> Option<Counts> {
    if !numbers_fit(image) || !maps_fit(image) {
        return None;
    }
    let counts = Counts::of(image);
    (counts.taken <= two(image, FRAMES) && readers_fit(image)).then_some(counts)
}

#[inline]
fn numbers_fit(image: &Image) -> bool {
    let sizes = (0..FILES).map(|file| two(image, SIZES + 2 * file));
    let expected = (0..FILES).map(|file| two(image, EXPECTED + 2 * file));
    (1..=1_024).contains(&two(image, FRAMES))
        & (usize::from(image[TURN]) < SLOTS)
        & (image[ZERO_BYTE] == 0)
        & (1..=2_000_000).contains(&four(image, LOOK_AHEAD))
        & (four(image, FETCH_TIME) <= 2_000_000)
        & (four(image, FOUR_ZEROS) == 0)
        & (image[RULE] <= 1)
        & (image[FILLER] == 0)
        & (sizes.fold(0, u32::max) <= FILE_PAGES)
        & (expected.fold(0, u32::max) <= 1_000)
}

/// No page is in both maps, and none is above its file's size.
#[inline]
fn maps_fit(image: &Image) -> bool {
    let mut wrong = 0;
    for file in 0..FILES {
        let maps = Maps::of(image, file);
        for nth in 0..FILE_WORDS {
            wrong |= word(maps.cached, nth) & word(maps.in_fetch, nth);
        }
    }
    for file in 0..FILES {
        let size = two(image, SIZES + 2 * file) as usize;
        if size < FILE_PAGES as usize {
            wrong |= above(Maps::of(image, file), size);
        }
    }
    wrong == 0
}

/// 0 for the words that a file fills or begins, and ones for all behind them: sixteen of
/// these from 16 − n on are the masks of a file that begins n + 1 words.
const BEHIND: [u64; 33] = {
    let mut masks = [u64::MAX; 33];
    let mut at = 0;
    while at <= FILE_WORDS {
        masks[at] = 0;
        at += 1;
    }
    masks
};

/// The pages of both maps above a size below 1,024: one word in part, and all behind it.
/// Every word is looked at, since a loop of one length costs less than one of few words.
fn above(maps: Maps, size: usize) -> u64 {
    let begun = size / 64;
    let masks: &[u64; FILE_WORDS] = BEHIND[FILE_WORDS - begun..][..FILE_WORDS]
        .try_into()
        .unwrap();
    let mut above = maps.present(begun) & u64::MAX << (size % 64);
    for (nth, mask) in masks.iter().enumerate() {
        above |= maps.present(nth) & mask;
    }
    above
}

/// The highest bit of each of the four numbers of 16 bits in a record: condition and file,
/// pace, position, last page.
const HIGHEST: u64 = 0x8000_8000_8000_8000;

#[inline]
fn readers_fit(image: &Image) -> bool {
    let bounds = std::array::from_fn(|file| {
        let size = u64::from(two(image, SIZES + 2 * file));
        HIGHEST | 0x07FF | 1_000 << 16 | size << 48
    });
    (0..SLOTS).all(|slot| reader_fits(image, &bounds, slot))
}

/// A record's four numbers are compared with their bounds by one subtraction each way. None
/// may have its highest bit set. Then, where what is subtracted from has it set, it stays
/// exactly if the other number is not the larger, and nothing is borrowed from the next.
#[inline]
fn reader_fits(image: &Image, bounds: &[u64; FILES], slot: usize) -> bool {
    let (record, mark) = (Record::of(image, slot), two(image, MARKS + 2 * slot));
    if record.0 == 0 {
        return mark == 0;
    }
    let (numbers, mark) = (record.0, u64::from(mark) << 32);
    let upper = bounds[record.file() % FILES] | (numbers >> 16 & 0xFFFF << 32); // the last page
    let lower = mark | 1 << 16 | 1 << 48;
    let within = upper.wrapping_sub(numbers) & (numbers | HIGHEST).wrapping_sub(lower);
    let fits = (within & !(numbers | mark) & HIGHEST == HIGHEST)
        & (RUNNING..=WAITING).contains(&record.condition());
    fits && (record.condition() != WAITING || may_wait(image, record))
}

fn may_wait(image: &Image, record: Record) -> bool {
    record.position() < record.last() && has(image, IN_FETCH, record.next())
}
