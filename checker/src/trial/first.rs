//! First images, by either function of the header, and Setup by itself: number and buffer
//! must be those of Setup and Save, and a call must take the image.

use super::hold::hold_buffer;
use super::{hold, Outcomes, Report, WRONG_LENGTHS};
use crate::call::{Call, Entry, First, Settings, SetupProbe, SETUP_NUMBERS};
use crate::limits::{EXPECTED, FETCH_TIME, FRAMES, IMAGE_BYTES, LOOK_AHEAD, RULE, SIZE};
use crate::model::{self, Answer, Refusal};
use crate::random::Dice;
use crate::scene::any_state;
use std::ops::RangeInclusive;

/// The settings in the papers' order, each with its range.
#[rustfmt::skip]
const SETTINGS: [(&str, RangeInclusive<u64>); SETUP_NUMBERS] = [
    ("frames", FRAMES), ("L", LOOK_AHEAD), ("T", FETCH_TIME),
    ("size 0", SIZE), ("size 1", SIZE), ("size 2", SIZE), ("size 3", SIZE),
    ("size 4", SIZE), ("size 5", SIZE), ("size 6", SIZE), ("size 7", SIZE),
    ("rule", RULE),
    ("E 0", EXPECTED), ("E 1", EXPECTED), ("E 2", EXPECTED), ("E 3", EXPECTED),
    ("E 4", EXPECTED), ("E 5", EXPECTED), ("E 6", EXPECTED), ("E 7", EXPECTED),
];

/// Where the rule stands among them: one of 1989 is made of those before it.
const AT_RULE: usize = 11;

/// What is tried: under which names it notes what it has met, and of how many settings
/// it is made.
struct Kind {
    answered: &'static str,
    refused_for: &'static str,
    filled: &'static str,
    settings: usize,
}

const OF_1989: Kind = Kind {
    answered: "first image",
    refused_for: "refused for",
    filled: "bytes filled",
    settings: AT_RULE,
};

const BY_RULE: Kind = Kind {
    answered: "by rule",
    refused_for: "by rule, 1 for",
    filled: "by rule, bytes",
    settings: SETUP_NUMBERS,
};

const BY_SETUP: Kind = Kind {
    answered: "Setup",
    refused_for: "Setup, 1 for",
    filled: "Setup, bytes",
    settings: SETUP_NUMBERS,
};

/// What must be met: each number, 13 also where 1 would apply; each setting alone
/// out of range, below and above, an E under either rule; and each byte of an image that
/// a setting can fill. Setup by itself takes any count of numbers, and its state goes
/// into a buffer of any length.
pub const FIRST_OUTCOMES: &Outcomes = &[
    (OF_1989.answered, &["O", "E,1", "E,13", "E,13 before E,1"]),
    (OF_1989.refused_for, OUT_OF_RANGE),
    (OF_1989.filled, FILLED),
    (BY_RULE.answered, &["O", "E,1", "E,13", "E,13 before E,1"]),
    (BY_RULE.answered, &["O, 1989 with E", "O, 1993"]),
    (BY_RULE.refused_for, OUT_OF_RANGE),
    (BY_RULE.refused_for, NO_WEIGHTING),
    (BY_RULE.filled, FILLED),
    (BY_RULE.filled, FILLED_BY_RULE),
    (
        BY_SETUP.answered,
        &["O", "E,1", "O, 1989 with E", "O, 1993"],
    ),
    (
        BY_SETUP.answered,
        &["O and 12", "E,1 and 12", "into more", "E,1 into more"],
    ),
    (
        BY_SETUP.answered,
        &[
            "no number",
            "no sizes",
            "no rule",
            "one E less",
            "one number more",
        ],
    ),
    (
        BY_SETUP.answered,
        &["far more numbers", "O without an E", "O without a rule"],
    ),
    (BY_SETUP.refused_for, OUT_OF_RANGE),
    (BY_SETUP.refused_for, NO_WEIGHTING),
    (BY_SETUP.filled, FILLED),
    (BY_SETUP.filled, FILLED_BY_RULE),
];

#[rustfmt::skip]
const OUT_OF_RANGE: &[&str] = &[
    "frames below", "frames above", "L below", "L above", "T above",
    "size 0 above", "size 1 above", "size 2 above", "size 3 above",
    "size 4 above", "size 5 above", "size 6 above", "size 7 above",
];

#[rustfmt::skip]
const NO_WEIGHTING: &[&str] = &[
    "rule above",
    "E 0 above, 1989", "E 1 above, 1989", "E 2 above, 1989", "E 3 above, 1989",
    "E 4 above, 1989", "E 5 above, 1989", "E 6 above, 1989", "E 7 above, 1989",
    "E 0 above, 1993", "E 1 above, 1993", "E 2 above, 1993", "E 3 above, 1993",
    "E 4 above, 1993", "E 5 above, 1993", "E 6 above, 1993", "E 7 above, 1993",
];

#[rustfmt::skip]
const FILLED: &[&str] = &[
    "frames 1", "frames 2", "L 1", "L 2", "L 3", "T 1", "T 2", "T 3",
    "size 0 1", "size 1 1", "size 2 1", "size 3 1",
    "size 4 1", "size 5 1", "size 6 1", "size 7 1",
    "size 0 2", "size 1 2", "size 2 2", "size 3 2",
    "size 4 2", "size 5 2", "size 6 2", "size 7 2",
];

#[rustfmt::skip]
const FILLED_BY_RULE: &[&str] = &[
    "rule 1",
    "E 0 1", "E 1 1", "E 2 1", "E 3 1", "E 4 1", "E 5 1", "E 6 1", "E 7 1",
    "E 0 2", "E 1 2", "E 2 2", "E 3 2", "E 4 2", "E 5 2", "E 6 2", "E 7 2",
];

/// Numbers at, beside and far past the bounds, and at the widths at which a
/// careless cast would cut them to one in range.
#[rustfmt::skip]
const EDGES: [u64; 33] = [
    0, 1, 2, 255, 256, 257, 300, 1_000, 1_001, 1_023, 1_024, 1_025, 1_280,
    65_535, 65_536, 65_537, 66_536, 66_560,
    1_999_999, 2_000_000, 2_000_001, 1 << 24, (1 << 24) + 1, u32::MAX as u64,
    1 << 32, (1 << 32) + 1, (1 << 32) + 300, (1 << 32) + 2_000_000, 1 << 48,
    1 << 63, (1 << 63) + 1, u64::MAX - 1, u64::MAX,
];

type Values = [u64; SETUP_NUMBERS];

/// Each setting at every edge, so many random settings, and wrong lengths: by the
/// header's function that knows no rule, "1989, E 0".
pub fn first_images(report: &mut Report, first: First, entry: Entry, dice: &mut Dice, images: u64) {
    images_of(report, &OF_1989, first, entry, dice, images);
}

/// The same by the function that takes the rule and E too.
pub fn first_images_by_rule(
    report: &mut Report,
    first: First,
    entry: Entry,
    dice: &mut Dice,
    images: u64,
) {
    images_of(report, &BY_RULE, first, entry, dice, images);
}

fn images_of(
    report: &mut Report,
    kind: &Kind,
    first: First,
    entry: Entry,
    dice: &mut Dice,
    images: u64,
) {
    for values in at_edges(dice, kind) {
        let buffer = any_buffer(dice, IMAGE_BYTES);
        hold_first(report, kind, first, entry, &buffer, values);
    }
    for _ in 0..images {
        let (values, buffer) = (any_values(dice, kind), any_buffer(dice, IMAGE_BYTES));
        hold_first(report, kind, first, entry, &buffer, values);
    }
    for length in WRONG_LENGTHS {
        for _ in 0..20 {
            let (values, buffer) = (any_values(dice, kind), any_buffer(dice, length));
            hold_first(report, kind, first, entry, &buffer, values);
        }
    }
}

/// Setup by itself, of so many random numbers: as many as it takes, fewer and more, and
/// into buffers of any length.
pub fn setups(report: &mut Report, probe: SetupProbe, dice: &mut Dice, images: u64) {
    for values in at_edges(dice, &BY_SETUP) {
        let buffer = any_buffer(dice, IMAGE_BYTES);
        hold_setup(report, probe, &values, &buffer);
    }
    for _ in 0..images {
        let mut numbers = any_values(dice, &BY_SETUP).to_vec();
        match dice.below(4) {
            0 => numbers.truncate(dice.pick(&[0, 3, 11, 12, 19])),
            1 => numbers.extend((0..dice.pick(&[1, 1, 9])).map(|_| dice.bits())),
            _ => {}
        }
        let length = match dice.below(3) {
            0 => dice.pick(&WRONG_LENGTHS),
            _ => IMAGE_BYTES,
        };
        let buffer = any_buffer(dice, length);
        hold_setup(report, probe, &numbers, &buffer);
    }
}

/// Each setting at every edge, the others in range; an E with each rule.
fn at_edges(dice: &mut Dice, kind: &Kind) -> Vec<Values> {
    let mut all = Vec::new();
    for at in 0..kind.settings {
        for edge in EDGES {
            for rule in [0, 1] {
                let mut values = usual_values(dice, kind);
                if at > AT_RULE {
                    values[AT_RULE] = rule;
                }
                values[at] = edge;
                all.push(values);
            }
        }
    }
    all
}

/// Settings in range, often at their bounds; 0 for those that the kind has not.
fn usual_values(dice: &mut Dice, kind: &Kind) -> Values {
    let mut values = SETTINGS.map(|(_, range)| match dice.below(4) {
        0 => dice.pick(&[*range.start(), *range.end()]),
        1 => dice.between(*range.start(), 300.min(*range.end())),
        _ => dice.between(*range.start(), *range.end()),
    });
    values[kind.settings..].fill(0);
    values
}

/// Settings in range, or some of them anything.
fn any_values(dice: &mut Dice, kind: &Kind) -> Values {
    let mut values = usual_values(dice, kind);
    for _ in 0..dice.pick(&[0, 0, 0, 1, 1, 2, 11]) {
        let at = dice.below(kind.settings as u64) as usize;
        values[at] = match dice.below(3) {
            0 => dice.bits(),
            1 => values[at].wrapping_add(1 << dice.between(8, 63)),
            _ => dice.pick(&EDGES),
        };
    }
    values
}

/// A buffer that holds an image, or any bytes.
fn any_buffer(dice: &mut Dice, length: usize) -> Vec<u8> {
    let mut buffer = any_state(dice).image();
    buffer.resize(length, 0);
    if dice.once_in(2) {
        buffer.fill_with(|| dice.bits() as u8);
    }
    buffer
}

/// Number and buffer must be the model's. An image that was written must be one
/// that a call takes: nothing is to be fetched, since there is no reader.
fn hold_first(
    report: &mut Report,
    kind: &Kind,
    first: First,
    entry: Entry,
    buffer: &[u8],
    values: Values,
) {
    let [frames, look_ahead, fetch_time, ..] = values;
    let eight = |start: usize| std::array::from_fn(|file| values[start + file]);
    let settings = Settings {
        frames,
        look_ahead,
        fetch_time,
        sizes: eight(3),
        rule: values[AT_RULE],
        expected: eight(AT_RULE + 1),
    };
    let expected = model::first_image(buffer, &settings);
    let act = |buffer: &mut [u8]| first(buffer, &settings);
    hold_buffer(report, buffer, &expected, act, || {
        format!("{}, {settings:?}", kind.answered)
    });

    let (number, image) = expected;
    if number == Refusal::Image.number() {
        let fits = out_of_range(&values).is_empty();
        let before = if fits { "" } else { " before E,1" };
        report.note(kind.answered, format!("E,13{before}"));
        return;
    }
    note(report, kind, number, &values);
    if number == Answer::Done.number() {
        let (answer, _) = hold(report, entry, &image, Call::Prefetch);
        report.check(answer == Answer::Nothing.number(), || {
            format!("{settings:?}: Prefetch answers {answer} to the first image")
        });
    }
}

/// Numbers and buffer must be the model's.
fn hold_setup(report: &mut Report, probe: SetupProbe, numbers: &[u64], buffer: &[u8]) {
    let expected = model::probe_setup(numbers, buffer);
    let act = |buffer: &mut [u8]| probe(numbers, buffer);
    hold_buffer(report, buffer, &expected, act, || {
        format!("Setup of {numbers:?} into {} bytes", buffer.len())
    });
    let mut values = [0; SETUP_NUMBERS];
    for (value, number) in values.iter_mut().zip(numbers) {
        *value = *number;
    }
    let (set_up, saved) = (expected.0 & 0xFFFF_FFFF, expected.0 >> 32);
    note(report, &BY_SETUP, set_up, &values);
    let done = set_up == Answer::Done.number();
    let count = match numbers.len() {
        0 => Some("no number"),
        3 => Some("no sizes"),
        11 if done => Some("O without a rule"),
        11 => Some("no rule"),
        12 if done => Some("O without an E"),
        19 => Some("one E less"),
        21 => Some("one number more"),
        22.. => Some("far more numbers"),
        _ => None,
    };
    let room = match (saved == Answer::Done.number(), done) {
        (false, true) => Some("O and 12"),
        (false, false) => Some("E,1 and 12"),
        (true, true) if buffer.len() > IMAGE_BYTES => Some("into more"),
        (true, false) if buffer.len() > IMAGE_BYTES => Some("E,1 into more"),
        _ => None,
    };
    for case in count.into_iter().chain(room) {
        report.note(BY_SETUP.answered, case.to_string());
    }
}

/// The settings that are out of range, each with whether it is below.
fn out_of_range(values: &Values) -> Vec<(&'static str, bool)> {
    let settings = SETTINGS.into_iter().zip(values);
    let out = settings.filter(|((_, range), value)| !range.contains(value));
    out.map(|((name, range), value)| (name, value < range.start()))
        .collect()
}

/// Notes what Setup has answered and why, in the words of the table.
fn note(report: &mut Report, kind: &Kind, number: u64, values: &Values) {
    if number == Refusal::Setup.number() {
        report.note(kind.answered, "E,1".to_string());
        if let &[(name, below)] = &out_of_range(values)[..] {
            let side = if below { "below" } else { "above" };
            let rule = match (name.starts_with('E'), values[AT_RULE]) {
                (true, 0) => ", 1989",
                (true, _) => ", 1993",
                _ => "",
            };
            report.note(kind.refused_for, format!("{name} {side}{rule}"));
        }
        return;
    }
    report.note(kind.answered, "O".to_string());
    let expects = values[AT_RULE + 1..].iter().any(|&readers| readers > 0);
    match values[AT_RULE] {
        0 if expects => report.note(kind.answered, "O, 1989 with E".to_string()),
        0 => {}
        _ => report.note(kind.answered, "O, 1993".to_string()),
    }
    for ((name, _), value) in SETTINGS.into_iter().zip(values) {
        let bytes = (u64::BITS - value.leading_zeros()).div_ceil(8);
        report.note(kind.filled, format!("{name} {bytes}"));
    }
}
