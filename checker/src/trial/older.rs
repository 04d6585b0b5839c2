//! Older images, of 2,240 and 2,208 bytes: through Restore and Save themselves, and
//! through the header's function that makes them images of 2,274.

use super::fields::{changed_image, put_two, two_in, weighed_image};
use super::hold::{describe, hold_buffer};
use super::{damage, hold, Outcomes, Report, WRONG_LENGTHS};
use crate::call::{Entry, Older, Probe, Upgrade};
use crate::layout;
use crate::limits::{FILES, LENGTHS, SLOTS};
use crate::limits::{IMAGE_BYTES, MARKED_IMAGE_BYTES, OLDER_IMAGE_BYTES};
use crate::model::{self, Answer, Rule, State};
use crate::random::Dice;
use crate::scene::{any_call, any_state};

/// What must be met: images of each length, taken and refused; buffers of each
/// length, for either; what becomes of last pages of 0; and upgrades of each
/// length, apart and in place, of what is an image and what is none.
#[rustfmt::skip]
pub const OLDER_OUTCOMES: &Outcomes = &[
    (RESTORED, &["2,274 bytes", "2,240 bytes", "2,208 bytes"]),
    (RESTORED, &["1989", "1993", "1989 with E and R"]),
    (NOT_RESTORED, &["2,274 bytes", "2,240 bytes", "2,208 bytes"]),
    (NOT_RESTORED, &["fewer", "between 2,208 and 2,240", "between 2,240 and 2,274", "more"]),
    (SAVED, &["into 2,274 bytes", "into more", "the idle state", "a state"]),
    (NOT_SAVED, &["into 2,273 bytes", "into 2,240 bytes", "into 2,208 bytes", "into fewer"]),
    (NOT_SAVED, &["the idle state", "a state"]),
    (ZEROS, &["in no slot", "in some", "in all"]),
    (ZEROS, &["in 2,274 bytes, refused", "in 2,240 bytes, refused"]),
    (UPGRADED, &["2,274 bytes", "2,240 bytes", "2,208 bytes"]),
    (UPGRADED, &["2,274 bytes in place", "2,240 bytes in place", "2,208 bytes in place"]),
    (UPGRADED, &["an image", "no image"]),
    (UPGRADED, &["zeros", "a zero in no file", "a zero of no condition"]),
    (NOT_UPGRADED, &["the buffer", "the older image", "both", "in place"]),
];

const RESTORED: &str = "restored";
const NOT_RESTORED: &str = "not restored";
const SAVED: &str = "saved";
const NOT_SAVED: &str = "12 for";
const ZEROS: &str = "zeros";
const UPGRADED: &str = "upgraded";
const NOT_UPGRADED: &str = "13 for length";

/// Calls made one after the other on an upgraded image.
const CALLS_PER_IMAGE: u64 = 3;

/// Restore and Save, with every byte of an image changed, in each length.
pub fn every_byte(report: &mut Report, probe: Probe, dice: &mut Dice) {
    for length in LENGTHS {
        for position in 0..length {
            let mut image = sound_image(dice, length);
            image[position] ^= damage::any_change(dice);
            hold_probe(report, probe, &image, &[0; IMAGE_BYTES]);
        }
    }
}

/// Restore and Save of so many random images, into buffers of any length and with
/// any bytes.
pub fn probed(report: &mut Report, probe: Probe, dice: &mut Dice, images: u64) {
    for _ in 0..images {
        let image = any_image(dice);
        let buffer = any_buffer(dice);
        hold_probe(report, probe, &image, &buffer);
    }
}

/// The header's upgrade: so many random images, apart from the buffer and in it,
/// and buffers of any length.
pub fn upgraded(report: &mut Report, upgrade: Upgrade, entry: Entry, dice: &mut Dice, images: u64) {
    for _ in 0..images {
        let older = any_image(dice);
        let mut buffer = any_buffer(dice);
        let image = hold_upgrade(report, upgrade, &buffer, Older::Apart(&older));
        if let Some(image) = image {
            hold_calls(report, entry, dice, image);
        }
        let length = older.len().min(buffer.len());
        buffer[..length].copy_from_slice(&older[..length]);
        hold_upgrade(report, upgrade, &buffer, Older::InPlace(length));
    }
}

/// A row of random calls on an image that may be none; then each is refused.
fn hold_calls(report: &mut Report, entry: Entry, dice: &mut Dice, mut image: Vec<u8>) {
    for _ in 0..CALLS_PER_IMAGE {
        let (state, _) = State::restore(&image);
        (_, image) = hold(report, entry, &image, any_call(dice, &state));
    }
}

/// Restore of the image, Save into a copy of the buffer: numbers and bytes must be
/// the model's, and "an accepted image comes back unchanged". Gives Restore's number.
pub(super) fn hold_probe(report: &mut Report, probe: Probe, image: &[u8], buffer: &[u8]) -> u64 {
    let expected = model::probe(image, buffer);
    let act = |buffer: &mut [u8]| probe(image, buffer);
    hold_buffer(report, buffer, &expected, act, || {
        let room = buffer.len();
        format!("Restore and Save into {room} bytes, {}", describe(image))
    });
    let (restored, saved) = (expected.0 & 0xFFFF_FFFF, expected.0 >> 32);
    let accepted = restored == Answer::Done.number() && image.len() == IMAGE_BYTES;
    let changed = saved == Answer::Done.number() && !expected.1.starts_with(image);
    report.check(!(accepted && changed), || {
        format!("an accepted image comes back changed: {}", describe(image))
    });
    note_probe(report, image.len(), buffer.len(), restored, saved);
    note_zeros(report, image, restored);
    note_rule(report, image);
    restored
}

/// The upgrade of an older image: number and bytes must be the model's, and the
/// image that comes of it must stand for the same state. Gives it, if there is one.
pub(super) fn hold_upgrade(
    report: &mut Report,
    upgrade: Upgrade,
    buffer: &[u8],
    older: Older,
) -> Option<Vec<u8>> {
    let expected = model::upgrade_image(buffer, older);
    let act = |buffer: &mut [u8]| upgrade(buffer, older);
    let (bytes, place) = match older {
        Older::Apart(bytes) => (bytes, ""),
        Older::InPlace(length) => (&buffer[..length], " in place"),
    };
    hold_buffer(report, buffer, &expected, act, || {
        let room = buffer.len();
        format!("upgrade{place} into {room} bytes, {}", describe(bytes))
    });
    let (number, image) = expected;
    note_upgrade(report, bytes, buffer.len(), place, number);
    if number != Answer::Done.number() {
        return None;
    }
    let restored = State::restore(bytes);
    report.check(State::restore(&image) == restored, || {
        format!("an upgrade is of another state than {restored:?}")
    });
    Some(image)
}

/// An image of 2,274 bytes, or an older one.
fn sound_image(dice: &mut Dice, length: usize) -> Vec<u8> {
    let state = any_state(dice);
    match length {
        OLDER_IMAGE_BYTES => older_image(dice, &state),
        MARKED_IMAGE_BYTES => marked_image(&state),
        _ => state.image(),
    }
}

/// The image of 2,240 bytes of a state, but for its rule, E and R.
pub fn marked_image(state: &State) -> Vec<u8> {
    let mut image = state.image();
    image.truncate(MARKED_IMAGE_BYTES);
    image
}

/// The image of 2,208 bytes of a state, in which no taken slot, some or all have 0
/// for the last page: an older box has saved them.
pub fn older_image(dice: &mut Dice, state: &State) -> Vec<u8> {
    let mut image = state.image();
    image.truncate(OLDER_IMAGE_BYTES);
    let zeros = dice.below(3);
    for &slot in state.readers.keys() {
        if zeros == 2 || zeros == 1 && dice.once_in(2) {
            put_two(&mut image, layout::last_page(slot as usize), 0);
        }
    }
    image
}

/// An image of any length that there is, sound or damaged, random bytes, or another
/// length.
pub(super) fn any_image(dice: &mut Dice) -> Vec<u8> {
    let length = dice.pick(&LENGTHS);
    let mut image = sound_image(dice, length);
    match dice.below(8) {
        0 => {
            let at = dice.below(length as u64) as usize;
            image[at] ^= damage::any_change(dice);
        }
        1 => {
            let pieces = damage::PIECES.len() as u64;
            let piece = &damage::PIECES[dice.below(pieces) as usize];
            damage::spoil(dice, &mut image, piece);
        }
        2 => {
            let state = any_state(dice);
            (.., image) = match dice.below(2) {
                0 => weighed_image(dice, &state),
                _ => changed_image(dice, &state),
            };
            image.truncate(length);
        }
        3 => image.resize(dice.pick(&WRONG_LENGTHS), 0),
        4 => spoil_record(dice, &mut image),
        _ => {}
    }
    image
}

/// A record with any condition, file, pace and position, and 0 for its last page:
/// mostly of a file that there is.
fn spoil_record(dice: &mut Dice, image: &mut [u8]) {
    let slot = dice.below(SLOTS) as usize;
    let record = layout::READERS + layout::READER_BYTES * slot;
    damage::spoil(dice, image, &(record..record + layout::LAST));
    put_two(image, layout::last_page(slot), 0);
    let files: Vec<u8> = (0..FILES as u8)
        .filter(|&file| two_in(image, layout::size(file.into())) > 0)
        .collect();
    if !files.is_empty() && !dice.once_in(4) {
        image[record] = dice.pick(&[0, 1, 2, 3, 255]);
        image[record + 1] = dice.pick(&files);
    }
}

/// A buffer of any length, mostly the right one; it holds an image or any bytes.
fn any_buffer(dice: &mut Dice) -> Vec<u8> {
    let mut buffer = any_state(dice).image();
    if dice.once_in(2) {
        buffer.fill_with(|| dice.bits() as u8);
    }
    if dice.once_in(3) {
        let fill = dice.bits() as u8;
        buffer.resize(dice.pick(&WRONG_LENGTHS), fill);
    }
    buffer
}

fn note_probe(report: &mut Report, image: usize, buffer: usize, restored: u64, saved: u64) {
    let length = match image {
        IMAGE_BYTES => "2,274 bytes",
        MARKED_IMAGE_BYTES => "2,240 bytes",
        OLDER_IMAGE_BYTES => "2,208 bytes",
        _ if image < OLDER_IMAGE_BYTES => "fewer",
        _ if image < MARKED_IMAGE_BYTES => "between 2,208 and 2,240",
        _ if image < IMAGE_BYTES => "between 2,240 and 2,274",
        _ => "more",
    };
    let (name, state) = match restored == Answer::Done.number() {
        true => (RESTORED, "a state"),
        false => (NOT_RESTORED, "the idle state"),
    };
    report.note(name, length.to_string());
    let room = match buffer {
        IMAGE_BYTES => "into 2,274 bytes",
        MARKED_IMAGE_BYTES => "into 2,240 bytes",
        OLDER_IMAGE_BYTES => "into 2,208 bytes",
        _ if buffer == IMAGE_BYTES - 1 => "into 2,273 bytes",
        _ if buffer < IMAGE_BYTES => "into fewer",
        _ => "into more",
    };
    let name = match saved == Answer::Done.number() {
        true => SAVED,
        false => NOT_SAVED,
    };
    report.note(name, room.to_string());
    report.note(name, state.to_string());
}

/// Notes what became of last pages of 0 in an image whose length is right.
fn note_zeros(report: &mut Report, image: &[u8], restored: u64) {
    let taken = restored == Answer::Done.number();
    let (zeros, slots) = zeros_of(image);
    let case = match image.len() {
        IMAGE_BYTES if zeros > 0 && !taken => "in 2,274 bytes, refused",
        MARKED_IMAGE_BYTES if zeros > 0 && !taken => "in 2,240 bytes, refused",
        OLDER_IMAGE_BYTES if taken && slots > 0 => match zeros {
            0 => "in no slot",
            _ if zeros == slots => "in all",
            _ => "in some",
        },
        _ => return,
    };
    report.note(ZEROS, case.to_string());
}

/// Notes the rule of an image that is taken.
fn note_rule(report: &mut Report, image: &[u8]) {
    if let Ok(state) = State::of_image(image) {
        let weighed = state.expected.into_iter().chain(state.attaches);
        let rule = match state.rule {
            Rule::Of1993 => "1993",
            Rule::Of1989 if weighed.sum::<u64>() > 0 => "1989 with E and R",
            Rule::Of1989 => "1989",
        };
        report.note(RESTORED, rule.to_string());
    }
}

/// How many taken slots have 0 for their last page, and how many are taken.
fn zeros_of(image: &[u8]) -> (usize, usize) {
    if image.len() < layout::FOUR_ZEROS {
        return (0, 0);
    }
    let taken: Vec<usize> = (0..SLOTS as usize)
        .filter(|slot| image[layout::READERS + layout::READER_BYTES * slot] != 0)
        .collect();
    let is_zero = |slot: &&usize| two_in(image, layout::last_page(**slot)) == 0;
    (taken.iter().filter(is_zero).count(), taken.len())
}

fn note_upgrade(report: &mut Report, older: &[u8], buffer: usize, place: &str, number: u64) {
    let known = LENGTHS.contains(&older.len());
    if number != Answer::Done.number() {
        let case = match (buffer == IMAGE_BYTES, known) {
            (false, true) => "the buffer",
            (true, false) => "the older image",
            _ => "both",
        };
        report.note(NOT_UPGRADED, case.to_string());
        if !place.is_empty() {
            report.note(NOT_UPGRADED, "in place".to_string());
        }
        return;
    }
    let length = match older.len() {
        IMAGE_BYTES => "2,274 bytes",
        MARKED_IMAGE_BYTES => "2,240 bytes",
        _ => "2,208 bytes",
    };
    report.note(UPGRADED, format!("{length}{place}"));
    let sound = State::of_image(older).is_ok();
    let what = if sound { "an image" } else { "no image" };
    report.note(UPGRADED, what.to_string());
    if older.len() == OLDER_IMAGE_BYTES {
        for case in zero_cases(older) {
            report.note(UPGRADED, case.to_string());
        }
    }
}

/// What the taken slots are that have a last page of 0.
fn zero_cases(image: &[u8]) -> Vec<&'static str> {
    let mut cases = Vec::new();
    for slot in 0..SLOTS as usize {
        let record = layout::READERS + layout::READER_BYTES * slot;
        let (condition, file) = (image[record], u64::from(image[record + 1]));
        if condition == 0 || two_in(image, layout::last_page(slot)) != 0 {
            continue;
        }
        cases.push(match (condition, file) {
            (_, FILES..) => "a zero in no file",
            (3.., _) => "a zero of no condition",
            _ => "zeros",
        });
    }
    cases
}
