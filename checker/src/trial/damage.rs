//! Damaged images: changed bytes, random bytes, wrong lengths. Some damage
//! leaves an image that Restore accepts; the model decides.

use super::{hold, Report, WRONG_LENGTHS};
use crate::call::Entry;
use crate::layout::{
    ATTACHES, CACHED, END, EXPECTED, FOUR_ZEROS, IN_FETCH, MARKS, READERS, RULE, SIZES,
};
use crate::limits::IMAGE_BYTES;
use crate::random::Dice;
use crate::scene::{any_call, any_state};
use std::ops::Range;

/// The whole image; then numbers, sizes, readers, cached map, fetch map, marks, rule with
/// its filler, E, R.
pub(super) const PIECES: [Range<usize>; 10] = [
    0..END,
    0..SIZES,
    SIZES..READERS,
    READERS..FOUR_ZEROS,
    CACHED..IN_FETCH,
    IN_FETCH..MARKS,
    MARKS..RULE,
    RULE..EXPECTED,
    EXPECTED..ATTACHES,
    ATTACHES..END,
];

/// Every byte changed, each in some valid images: one bit of it, or several.
pub fn every_byte(report: &mut Report, entry: Entry, dice: &mut Dice) {
    for position in 0..IMAGE_BYTES {
        for _ in 0..3 {
            let state = any_state(dice);
            let call = any_call(dice, &state);
            let mut image = state.image();
            image[position] ^= any_change(dice);
            hold(report, entry, &image, call);
        }
    }
}

/// The bits of a byte to change: one, or several.
pub(super) fn any_change(dice: &mut Dice) -> u8 {
    match dice.below(2) {
        0 => 1 << dice.below(8),
        _ => dice.between(1, 255) as u8,
    }
}

/// Random bytes over the whole image or over a piece of it.
pub(super) fn spoil(dice: &mut Dice, image: &mut [u8], piece: &Range<usize>) {
    let end = piece.end.min(image.len());
    for byte in &mut image[piece.start.min(end)..end] {
        *byte = dice.bits() as u8;
    }
}

/// Random bytes: the whole image, or one piece of a valid one.
pub fn noise(report: &mut Report, entry: Entry, dice: &mut Dice, images: u64) {
    for piece in PIECES.iter().cycle().take(images as usize) {
        let state = any_state(dice);
        let call = any_call(dice, &state);
        let mut image = state.image();
        spoil(dice, &mut image, piece);
        hold(report, entry, &image, call);
    }
}

/// Buffers of a wrong length, cut from or continued behind a valid image.
pub fn lengths(report: &mut Report, entry: Entry, dice: &mut Dice) {
    for length in WRONG_LENGTHS {
        for _ in 0..40 {
            let state = any_state(dice);
            let call = any_call(dice, &state);
            let mut image = state.image();
            image.resize(length, 0);
            hold(report, entry, &image, call);
        }
    }
}
