//! Where the pieces of an image start, by the paper's list of them.
//!
//! Quick and the trials go by this table. The model does not: it writes and
//! reads an image piece by piece, so that each tries the other.

use crate::limits::{IMAGE_BYTES, MARKED_IMAGE_BYTES, OLDER_IMAGE_BYTES};
use std::ops::Range;

/// "frames (2)".
pub const FRAMES: usize = 0;

/// "turn (1)".
pub const TURN: usize = 2;

/// "0 (1)".
pub const ZERO_BYTE: usize = 3;

/// "L (4)".
pub const LOOK_AHEAD: usize = 4;

/// "T (4)".
pub const FETCH_TIME: usize = 8;

/// "sizes (8 of 2)".
pub const SIZES: usize = 12;

/// "sixteen readers of 8 bytes".
pub const READERS: usize = 28;

/// The bytes of one reader.
pub const READER_BYTES: usize = 8;

/// Within these, "pace 2".
pub const PACE: usize = 2;

/// "the last page".
pub const LAST: usize = 6;

/// "4 bytes of 0".
pub const FOUR_ZEROS: usize = 156;

/// "cached map 1,024".
pub const CACHED: usize = 160;

/// "fetch map 1,024".
pub const IN_FETCH: usize = 1_184;

/// "sixteen 2-byte marks at its end". An older image ends here.
pub const MARKS: usize = OLDER_IMAGE_BYTES;

/// "a rule byte". An image of 2,240 bytes ends here.
pub const RULE: usize = MARKED_IMAGE_BYTES;

/// "a 0 byte".
pub const FILLER: usize = 2_241;

/// "then eight 2-byte E".
pub const EXPECTED: usize = 2_242;

/// "and eight R".
pub const ATTACHES: usize = 2_258;

/// Behind the last piece.
pub const END: usize = IMAGE_BYTES;

/// The bytes of a file's size.
pub fn size(file: usize) -> Range<usize> {
    two(SIZES + 2 * file)
}

/// The bytes of a slot's pace.
pub fn pace(slot: usize) -> Range<usize> {
    two(READERS + READER_BYTES * slot + PACE)
}

/// The bytes of a slot's last page.
pub fn last_page(slot: usize) -> Range<usize> {
    two(READERS + READER_BYTES * slot + LAST)
}

/// The bytes of a slot's mark.
pub fn mark(slot: usize) -> Range<usize> {
    two(MARKS + 2 * slot)
}

/// The bytes of a file's E.
pub fn expected(file: usize) -> Range<usize> {
    two(EXPECTED + 2 * file)
}

/// The bytes of a file's R.
pub fn attaches(file: usize) -> Range<usize> {
    two(ATTACHES + 2 * file)
}

fn two(at: usize) -> Range<usize> {
    at..at + 2
}
