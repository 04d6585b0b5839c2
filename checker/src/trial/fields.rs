//! Last pages, marks, rules, E and R put into images: at their bounds, and such that
//! Restore refuses.

use super::{hold, Outcomes, Report};
use crate::call::Entry;
use crate::layout;
use crate::limits::{FILES, SLOTS};
use crate::model::{Reader, State};
use crate::random::Dice;
use crate::scene::{any_call, any_state};
use std::ops::Range;

/// What must be met: each last page, mark, rule, E and R put into an image.
#[rustfmt::skip]
pub const FIELD_OUTCOMES: &Outcomes = &[
    (LAST, &["the size", "the position", "the page waited for"]),
    (NO_LAST, &["0", "0 at position 0", "above the size", "far above"]),
    (NO_LAST, &["below the position", "waited at"]),
    (MARK, &["0", "the position", "between"]),
    (NO_MARK, &["above the position", "above by its high byte", "far above"]),
    (NO_MARK, &["in an empty slot", "the same by its high byte"]),
    (RULE, &["1989", "1993"]),
    (NO_RULE, &["2", "255", "any other", "a filler of 1", "a filler of 128", "any other filler"]),
    (EXPECTED, &["0", "1,000", "between"]),
    (NO_EXPECTED, &["1,001", "above by its high byte", "65,535", "far above"]),
    (ATTACHES, &["0", "65,535", "any"]),
];

const LAST: &str = "last page";
const NO_LAST: &str = "13 for last";
const MARK: &str = "mark";
const NO_MARK: &str = "13 for mark";
const RULE: &str = "rule";
const NO_RULE: &str = "13 for rule";
const EXPECTED: &str = "E";
const NO_EXPECTED: &str = "13 for E";
const ATTACHES: &str = "R";

/// Writes a number of two bytes over an image.
pub(super) fn put_two(image: &mut [u8], at: Range<usize>, number: u16) {
    image[at].copy_from_slice(&number.to_le_bytes());
}

/// A number of two bytes in an image.
pub(super) fn two_in(image: &[u8], at: Range<usize>) -> u16 {
    u16::from_le_bytes([image[at.start], image[at.start + 1]])
}

/// Puts a last page, a mark, a rule, an E or an R into so many random images: of those
/// that must be refused, each for that alone.
pub fn changed(report: &mut Report, entry: Entry, dice: &mut Dice, images: u64) {
    for _ in 0..images {
        let state = any_state(dice);
        let (name, case, image) = match dice.below(3) {
            0 => weighed_image(dice, &state),
            _ => changed_image(dice, &state),
        };
        let call = any_call(dice, &state);
        let (number, _) = hold(report, entry, &image, call);
        report.note(name, case.to_string());
        let refused = [NO_LAST, NO_MARK, NO_RULE, NO_EXPECTED].contains(&name);
        report.check((number == 13) == refused, || {
            format!("{call:?} answers {number}: {name} {case}, {state:?}")
        });
    }
}

/// The image of a state with some last page or mark put into it; name and case of
/// what it is.
pub(super) fn changed_image(
    dice: &mut Dice,
    state: &State,
) -> (&'static str, &'static str, Vec<u8>) {
    let slot = dice.below(SLOTS);
    let held: Vec<u64> = state.readers.keys().copied().collect();
    let slot = match held.is_empty() || dice.once_in(8) {
        true => slot,
        false => dice.pick(&held),
    };
    let changes = match state.readers.get(&slot) {
        Some(reader) if dice.once_in(2) => last_pages(dice, reader, state.size(reader.file)),
        Some(reader) => marks(dice, reader.position),
        None => vec![
            (NO_MARK, "in an empty slot", dice.between(1, 255)),
            (NO_MARK, "the same by its high byte", 256),
        ],
    };
    let (name, case, number) = dice.pick(&changes);
    let place = match name {
        LAST | NO_LAST => layout::last_page,
        _ => layout::mark,
    };
    let mut image = state.image();
    put_two(&mut image, place(slot as usize), number as u16);
    (name, case, image)
}

/// What may stand for a reader's last page: name, case and number.
fn last_pages(
    dice: &mut Dice,
    reader: &Reader,
    size: u64,
) -> Vec<(&'static str, &'static str, u64)> {
    let position = reader.position;
    let mut pages = vec![
        (NO_LAST, "0", 0),
        (LAST, "the size", size),
        (NO_LAST, "above the size", size + 1),
        (NO_LAST, "far above", dice.between(size + 1, 65_535)),
    ];
    match reader.waiting {
        true => pages.push((LAST, "the page waited for", position + 1)),
        false if position > 0 => pages.push((LAST, "the position", position)),
        false => pages.push((NO_LAST, "0 at position 0", 0)),
    }
    if position > 1 {
        let below = dice.between(1, position - 1);
        pages.push((NO_LAST, "below the position", below));
    }
    if reader.waiting && position > 0 {
        pages.push((NO_LAST, "waited at", position));
    }
    pages
}

/// What may stand for the mark of a reader at this position.
fn marks(dice: &mut Dice, position: u64) -> Vec<(&'static str, &'static str, u64)> {
    vec![
        (MARK, "0", 0),
        (MARK, "the position", position),
        (MARK, "between", dice.between(0, position)),
        (NO_MARK, "above the position", position + 1),
        (NO_MARK, "above by its high byte", position + 256),
        (NO_MARK, "far above", dice.between(position + 1, 65_535)),
    ]
}

/// The image of a state with some rule, E or R put into it; name and case of what it is.
pub(super) fn weighed_image(
    dice: &mut Dice,
    state: &State,
) -> (&'static str, &'static str, Vec<u8>) {
    let file = dice.below(FILES) as usize;
    let (expected, attaches) = (layout::expected(file), layout::attaches(file));
    let rule = layout::RULE..layout::EXPECTED; // with the filler for its high byte
    let right = state.rule.number();
    let changes = [
        (RULE, "1989", rule.clone(), 0),
        (RULE, "1993", rule.clone(), 1),
        (NO_RULE, "2", rule.clone(), 2),
        (NO_RULE, "255", rule.clone(), 255),
        (NO_RULE, "any other", rule.clone(), dice.between(2, 255)),
        (NO_RULE, "a filler of 1", rule.clone(), 256 + right),
        (NO_RULE, "a filler of 128", rule.clone(), 256 * 128 + right),
        (
            NO_RULE,
            "any other filler",
            rule,
            256 * dice.between(1, 255) + right,
        ),
        (EXPECTED, "0", expected.clone(), 0),
        (EXPECTED, "1,000", expected.clone(), 1_000),
        (EXPECTED, "between", expected.clone(), dice.between(1, 999)),
        (NO_EXPECTED, "1,001", expected.clone(), 1_001),
        (
            NO_EXPECTED,
            "above by its high byte",
            expected.clone(),
            1_024,
        ),
        (NO_EXPECTED, "65,535", expected.clone(), 65_535),
        (
            NO_EXPECTED,
            "far above",
            expected,
            dice.between(1_001, 65_535),
        ),
        (ATTACHES, "0", attaches.clone(), 0),
        (ATTACHES, "65,535", attaches.clone(), 65_535),
        (ATTACHES, "any", attaches, dice.between(0, 65_535)),
    ];
    let nth = dice.below(changes.len() as u64) as usize;
    let (name, case, at, number) = changes[nth].clone();
    let mut image = state.image();
    put_two(&mut image, at, number as u16);
    (name, case, image)
}
