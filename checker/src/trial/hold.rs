//! One call through an entry, held to the model.

use super::{Outcomes, Report};
use crate::call::{Call, Entry};
use crate::cases;
use crate::model::{self, Page, Refusal, State};
use std::ops::Range;

/// Every answer and refusal that the paper gives the calls of the C boundary.
/// An I or an N may come with or without a page dropped or fetched.
pub const CALL_OUTCOMES: &Outcomes = &[
    ("Attach", &["O", "E,2", "E,3", "E,4", "E,15", "E,5", "E,13"]),
    ("Detach", &["O", "E,2", "E,6", "E,13"]),
    ("Read", &["Z", "H", "W", "F", "E,2", "E,6", "E,7", "E,13"]),
    ("Arrive", &["I", "I dropping", "E,3", "E,8", "E,9", "E,13"]),
    ("Lost", &["O", "E,3", "E,8", "E,9", "E,13"]),
    ("Prefetch", &["F", "U", "E,13"]),
    ("Steal", &["S", "U", "E,13"]),
    ("Run", &["N", "N fetching", "E,11", "E,10", "E,13"]),
    ("Measure", &["O", "E,2", "E,6", "E,16", "E,13"]),
];

/// Bytes around the buffer, or numbers around a list, that no call may touch.
const GUARD: usize = 96;
const GUARD_BYTE: u8 = 0xA5;
const GUARD_NUMBER: u16 = 0xA5A5;
const GUARD_ANSWER: u64 = 0xA5A5_A5A5_A5A5_A5A5;

/// Makes the call on a copy of the image. Returns number and image by the model.
pub fn hold(report: &mut Report, entry: Entry, image: &[u8], call: Call) -> (u64, Vec<u8>) {
    let expected = model::entry(image, call);
    let answer = outcome(expected.0);
    if cases::is_told(&answer) {
        let (after, _) = State::restore(&expected.1);
        let page = (expected.0 & 0xFFFF).checked_sub(1).map(Page::of_key);
        for (name, case) in cases::met(&after, call, &answer, page) {
            report.note(name, case.to_string());
        }
    }
    if expected.0 != Refusal::Image.number() {
        let (before, _) = State::restore(image);
        let mut met = cases::measured(&before, call, &answer);
        met.extend(cases::counted(&before, call, &answer));
        if !answer.starts_with('E') {
            met.extend(cases::on_the_link(&before, call));
            met.extend(cases::by_weight(&before, call));
        }
        for (name, case) in met {
            report.note(name, case.to_string());
        }
    }
    report.note(call.name(), answer);
    let act = |buffer: &mut [u8]| entry(buffer, call);
    hold_buffer(report, image, &expected, act, || {
        format!("{call:?}, {}", describe(image))
    });
    expected
}

/// Acts on a copy of the bytes. Number and bytes must be the expected ones.
pub(super) fn hold_buffer(
    report: &mut Report,
    bytes: &[u8],
    expected: &(u64, Vec<u8>),
    act: impl FnOnce(&mut [u8]) -> u64,
    what: impl FnOnce() -> String,
) {
    hold_lent(report, GUARD_BYTE, bytes, expected, act, what);
}

/// The same for a list of 16-bit numbers.
pub(super) fn hold_list(
    report: &mut Report,
    list: &[u16],
    expected: &(u64, Vec<u16>),
    act: impl FnOnce(&mut [u16]) -> u64,
    what: impl FnOnce() -> String,
) {
    hold_lent(report, GUARD_NUMBER, list, expected, act, what);
}

/// The same for a list of answers.
pub(super) fn hold_answers(
    report: &mut Report,
    answers: &[u64],
    expected: &(u64, Vec<u64>),
    act: impl FnOnce(&mut [u64]) -> u64,
    what: impl FnOnce() -> String,
) {
    hold_lent(report, GUARD_ANSWER, answers, expected, act, what);
}

/// Acts on a copy of what is lent, with guards on both sides and at every alignment
/// in turn. Number and copy must be the expected ones, and the guards must stand.
fn hold_lent<T: Copy + PartialEq>(
    report: &mut Report,
    guard: T,
    lent: &[T],
    (expected_number, expected_copy): &(u64, Vec<T>),
    act: impl FnOnce(&mut [T]) -> u64,
    what: impl FnOnce() -> String,
) {
    let shift = report.compared() as usize % 8;
    let inside = GUARD + shift..GUARD + shift + lent.len();
    let mut memory = vec![guard; inside.end + GUARD];
    memory[inside.clone()].copy_from_slice(lent);
    let number = act(&mut memory[inside.clone()]);

    report.count(1);
    let wrong = (0..lent.len()).find(|&at| memory[inside.start + at] != expected_copy[at]);
    let guarded = guards_stand(&memory, guard, &inside);
    let good = number == *expected_number && wrong.is_none() && guarded;
    report.check(good, || {
        format!(
            "{}: {number}, the model {expected_number}; \
             first wrong place of the buffer: {wrong:?}; guards stand: {guarded}",
            what()
        )
    });
}

fn guards_stand<T: PartialEq>(memory: &[T], guard: T, inside: &Range<usize>) -> bool {
    let stands = |around: &[T]| around.iter().all(|number| *number == guard);
    stands(&memory[..inside.start]) && stands(&memory[inside.end..])
}

/// The state in few words, to know it by.
pub(super) fn describe(image: &[u8]) -> String {
    let (state, restored) = State::restore(image);
    if restored.is_err() {
        return format!("image of {} bytes that Restore refuses", image.len());
    }
    format!(
        "{:?}, E {:?}, R {:?}, frames {}, L {}, T {}, sizes {:?}, turn {}, {} cached, \
         {} in fetch, readers {:?}",
        state.rule,
        state.expected,
        state.attaches,
        state.frames,
        state.look_ahead,
        state.fetch_time,
        state.sizes,
        state.turn,
        state.cached.len(),
        state.in_fetch.len(),
        state.readers
    )
}

/// A returned number in words.
fn outcome(number: u64) -> String {
    let (letter, low) = (number >> 16, number & 0xFFFF);
    match letter {
        0 => format!("E,{low}"),
        0x1_0000 => "N".to_string(),
        0x1_0001.. => "N fetching".to_string(),
        _ if letter == u64::from(b'I') && low > 0 => "I dropping".to_string(),
        _ => char::from(letter as u8).to_string(),
    }
}
