//! Cached pages counted without counting each word: plain x86-64 has no instruction for
//! the ones of a word, and to make up for it takes a dozen others. A carry-save adder
//! takes five for three words.

use super::{Image, Maps, FILES, FILE_WORDS};
use crate::layout::RULE;

/// Adds three bits in each of 64 columns: their ones and their twos.
#[inline]
fn add_three(a: u64, b: u64, c: u64) -> (u64, u64) {
    let odd = a ^ b;
    (odd ^ c, (a & b) | (odd & c))
}

/// Adds two bits in each column.
#[inline]
fn add_two(a: u64, b: u64) -> (u64, u64) {
    (a ^ b, a & b)
}

/// Adds eight bits in each column: the ones, twos, fours and eights of the sums.
#[inline]
fn add_eight(bits: [u64; 8]) -> [u64; 4] {
    let [a, b, c, d, e, f, g, h] = bits;
    let (s, twos_1) = add_three(a, b, c);
    let (t, twos_2) = add_three(d, e, f);
    let (u, twos_3) = add_three(s, t, g);
    let (ones, twos_4) = add_two(u, h);
    let (v, fours_1) = add_three(twos_1, twos_2, twos_3);
    let (twos, fours_2) = add_two(v, twos_4);
    let (fours, eights) = add_two(fours_1, fours_2);
    [ones, twos, fours, eights]
}

/// Adds two sums in each column: their ones, twos, fours, eights and sixteens.
#[inline]
fn add_sums([a, b, c, d]: [u64; 4], [e, f, g, h]: [u64; 4]) -> [u64; 5] {
    let (ones, carry) = add_two(a, e);
    let (twos, carry) = add_three(b, f, carry);
    let (fours, carry) = add_three(c, g, carry);
    let (eights, sixteens) = add_three(d, h, carry);
    [ones, twos, fours, eights, sixteens]
}

/// How many pages are cached.
#[derive(Clone, Copy)]
pub(super) struct Counts {
    pub(super) taken: u32,
    /// Of each file, where the rule is that of 1993.
    pub(super) by_file: [u32; FILES],
}

impl Counts {
    #[inline]
    pub(super) fn of(image: &Image) -> Counts {
        if image[RULE] == 0 {
            return Counts {
                taken: all(image),
                by_file: [0; FILES],
            };
        }
        let by_file = by_file(image);
        let taken = by_file.iter().sum();
        Counts { taken, by_file }
    }
}

/// All cached pages. Sixteen words are added at a time, eight such sums side by side so
/// that the compiler can work on two in one step; what is left to count is five words for
/// each sum.
#[inline]
fn all(image: &Image) -> u32 {
    const LANES: usize = FILE_WORDS / 2;
    let mut places = [[0; LANES]; 5];
    for lane in 0..LANES {
        let low = std::array::from_fn(|file| Maps::of(image, file).cached(lane));
        let high = std::array::from_fn(|file| Maps::of(image, file).cached(LANES + lane));
        let sums = add_sums(add_eight(low), add_eight(high));
        for (place, sum) in places.iter_mut().zip(sums) {
            place[lane] = sum;
        }
    }
    let ones = |words: &[u64; LANES]| words.iter().map(|word| word.count_ones()).sum::<u32>();
    let weighed = (0..).zip(&places);
    weighed.map(|(place, words)| ones(words) << place).sum()
}

fn by_file(image: &Image) -> [u32; FILES] {
    std::array::from_fn(|file| {
        let maps = Maps::of(image, file);
        (0..FILE_WORDS)
            .map(|nth| maps.cached(nth).count_ones())
            .sum()
    })
}
