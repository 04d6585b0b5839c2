//! The paper's bounds, each with its sentence.

use crate::call::Settings;
use std::ops::RangeInclusive;

/// "Files are 0 to 7": how many there are.
pub const FILES: u64 = 8;

/// "each with a size of 0 to 1,024 pages (0: no such file)".
pub const SIZE: RangeInclusive<u64> = 0..=FILE_PAGES;

/// The most pages that a file can have, and the stride of keys: "its key:
/// file × 1,024 + page − 1".
pub const FILE_PAGES: u64 = 1_024;

/// "Frames: 1 to 1,024."
pub const FRAMES: RangeInclusive<u64> = 1..=1_024;

/// "Look-ahead L: 1 to 2,000,000 ticks."
pub const LOOK_AHEAD: RangeInclusive<u64> = 1..=2_000_000;

/// "Fetch time T: 0 to 2,000,000 ticks."
pub const FETCH_TIME: RangeInclusive<u64> = 0..=2_000_000;

/// "There are 16 reader slots, 0 to 15."
pub const SLOTS: u64 = 16;

/// "a pace w (ticks per page, 1 to 1,000)".
pub const PACE: RangeInclusive<u64> = 1..=1_000;

/// Run: "11: above 16,384."
pub const MOST_TURNS: u64 = 16_384;

/// Measure: "interval (1 to 1,000,000 ticks)".
pub const INTERVAL: RangeInclusive<u64> = 1..=1_000_000;

/// "the server puts up to 1,024 questions at a time".
pub const MOST_QUESTIONS: usize = 1_024;

/// A.6: "a rule other than the two": "0 for 1989, 1 for 1993".
pub const RULE: RangeInclusive<u64> = 0..=1;

/// A.6: "the number E of expected readers a file, 0 to 1,000".
pub const EXPECTED: RangeInclusive<u64> = 0..=1_000;

/// A.6: "R counts attaches to the file and stops at 65,535."
pub const MOST_ATTACHES: u64 = 65_535;

/// A.6: "The image of 2,274 bytes", and "Saving and the C buffer use this length".
pub const IMAGE_BYTES: usize = 2_274;

/// A.2: "2,208 bytes are still read".
pub const OLDER_IMAGE_BYTES: usize = 2_208;

/// A.2: "The image grows to 2,240 bytes by sixteen 2-byte marks"; A.6: "shorter ones
/// are read as 1989 with E and R 0".
pub const MARKED_IMAGE_BYTES: usize = 2_240;

/// Every length that Restore takes, the shortest first.
pub const LENGTHS: [usize; 3] = [OLDER_IMAGE_BYTES, MARKED_IMAGE_BYTES, IMAGE_BYTES];

/// The program's lines: "at most 200 bytes, the line end not counted".
pub const LINE_BYTES: usize = 200;

/// The program's fields: "each at most 4,294,967,295".
pub const MOST_IN_FIELD: u64 = 4_294_967_295;

/// Whether no value of a setup is out of range, whichever the rule is.
pub fn setup_fits(settings: &Settings) -> bool {
    FRAMES.contains(&settings.frames)
        && LOOK_AHEAD.contains(&settings.look_ahead)
        && FETCH_TIME.contains(&settings.fetch_time)
        && settings.sizes.iter().all(|size| SIZE.contains(size))
        && RULE.contains(&settings.rule)
        && settings
            .expected
            .iter()
            .all(|readers| EXPECTED.contains(readers))
}
