//! Stand-ins for a first image by rule, and for Setup by itself.

use checker::call::{First, Settings, SetupProbe};
use checker::layout;
use checker::limits::IMAGE_BYTES;
use checker::model::{first_image, probe_setup};
use std::ops::Range;

/// The number of O at the C boundary.
const O: u64 = 79 * 65_536;

/// Those of a first image that are wrong about the rule or E.
pub const FIRSTS_BY_RULE: [(&str, First); 14] = [
    ("the rule not stored", rule_not_stored),
    ("E not stored", expected_not_stored),
    ("one byte of E", one_byte_of_expected),
    ("E stored for R too", stored_for_attaches),
    ("R for E", attaches_for_expected),
    ("the E of two files swapped", files_swapped),
    ("a rule above 1 taken for 1993", rule_held),
    ("a rule cut to 8 bits", rule_of_bits::<8>),
    ("a rule cut to 32 bits", rule_of_bits::<32>),
    ("an E cut to 16 bits", expected_of_bits::<16>),
    ("an E cut to 32 bits", expected_of_bits::<32>),
    ("an E above 1,000 held", expected_held),
    ("E not tested under 1989", untested_under_1989),
    ("the last E not tested", last_untested),
];

fn right(buffer: &mut [u8], settings: &Settings) -> u64 {
    let (number, bytes) = first_image(buffer, settings);
    buffer.copy_from_slice(&bytes);
    number
}

/// A first image, changed where it was written.
fn changed(buffer: &mut [u8], settings: &Settings, change: impl FnOnce(&mut [u8])) -> u64 {
    let number = right(buffer, settings);
    if number == O {
        change(buffer);
    }
    number
}

fn cleared(buffer: &mut [u8], settings: &Settings, bytes: Range<usize>) -> u64 {
    changed(buffer, settings, |image| image[bytes].fill(0))
}

fn rule_not_stored(buffer: &mut [u8], settings: &Settings) -> u64 {
    cleared(buffer, settings, layout::RULE..layout::FILLER)
}

fn expected_not_stored(buffer: &mut [u8], settings: &Settings) -> u64 {
    cleared(buffer, settings, layout::EXPECTED..layout::ATTACHES)
}

fn one_byte_of_expected(buffer: &mut [u8], settings: &Settings) -> u64 {
    let high = layout::expected(7).end - 1;
    cleared(buffer, settings, high..high + 1)
}

fn stored_for_attaches(buffer: &mut [u8], settings: &Settings) -> u64 {
    changed(buffer, settings, |image| {
        image.copy_within(layout::EXPECTED..layout::ATTACHES, layout::ATTACHES);
    })
}

fn attaches_for_expected(buffer: &mut [u8], settings: &Settings) -> u64 {
    changed(buffer, settings, |image| {
        image.copy_within(layout::EXPECTED..layout::ATTACHES, layout::ATTACHES);
        image[layout::EXPECTED..layout::ATTACHES].fill(0);
    })
}

/// A first image of other settings.
fn of_others(buffer: &mut [u8], settings: &Settings, other: impl FnOnce(&mut Settings)) -> u64 {
    let mut settings = *settings;
    other(&mut settings);
    right(buffer, &settings)
}

fn files_swapped(buffer: &mut [u8], settings: &Settings) -> u64 {
    of_others(buffer, settings, |settings| settings.expected.swap(2, 5))
}

fn rule_held(buffer: &mut [u8], settings: &Settings) -> u64 {
    of_others(buffer, settings, |settings| {
        settings.rule = settings.rule.min(1)
    })
}

fn rule_of_bits<const BITS: u32>(buffer: &mut [u8], settings: &Settings) -> u64 {
    of_others(buffer, settings, |settings| {
        settings.rule &= (1 << BITS) - 1
    })
}

fn expected_of_bits<const BITS: u32>(buffer: &mut [u8], settings: &Settings) -> u64 {
    of_others(buffer, settings, |settings| {
        let cut = |number: u64| number & ((1 << BITS) - 1);
        settings.expected = settings.expected.map(cut);
    })
}

fn expected_held(buffer: &mut [u8], settings: &Settings) -> u64 {
    of_others(buffer, settings, hold_expected)
}

fn hold_expected(settings: &mut Settings) {
    settings.expected = settings.expected.map(|number| number.min(1_000));
}

fn untested_under_1989(buffer: &mut [u8], settings: &Settings) -> u64 {
    of_others(buffer, settings, |settings| {
        if settings.rule == 0 {
            hold_expected(settings);
        }
    })
}

fn last_untested(buffer: &mut [u8], settings: &Settings) -> u64 {
    of_others(buffer, settings, |settings| {
        settings.expected[7] = settings.expected[7].min(1_000);
    })
}

/// Those of Setup by itself.
pub const SETUPS: [(&str, SetupProbe); 10] = [
    ("fewer numbers refused", fewer_refused),
    ("more numbers refused", more_refused),
    ("E before the rule", rule_last),
    ("E for sizes and sizes for E", sizes_swapped),
    ("E of a missing number 1", missing_as_1),
    ("nothing saved where Setup refuses", refused_not_saved),
    ("12 alone", twelve_alone),
    ("1 alone", one_alone),
    ("bytes after 2,274 written", saved_past_the_end),
    ("the numbers swapped", numbers_swapped),
];

fn set_up(numbers: &[u64], buffer: &mut [u8]) -> u64 {
    let (number, after) = probe_setup(numbers, buffer);
    buffer.copy_from_slice(&after);
    number
}

fn fewer_refused(numbers: &[u64], buffer: &mut [u8]) -> u64 {
    match numbers.len() {
        0..20 => set_up(&[], buffer),
        _ => set_up(numbers, buffer),
    }
}

fn more_refused(numbers: &[u64], buffer: &mut [u8]) -> u64 {
    match numbers.len() {
        21.. => set_up(&[], buffer),
        _ => set_up(numbers, buffer),
    }
}

/// The numbers, with 0 for missing ones, changed.
fn with_others(numbers: &[u64], buffer: &mut [u8], change: fn(&mut [u64; 20])) -> u64 {
    let mut twenty = [0; 20];
    for (number, given) in twenty.iter_mut().zip(numbers) {
        *number = *given;
    }
    change(&mut twenty);
    set_up(&twenty, buffer)
}

fn rule_last(numbers: &[u64], buffer: &mut [u8]) -> u64 {
    with_others(numbers, buffer, |numbers| numbers[11..].rotate_right(1))
}

fn sizes_swapped(numbers: &[u64], buffer: &mut [u8]) -> u64 {
    with_others(numbers, buffer, |numbers| {
        for file in 0..8 {
            numbers.swap(3 + file, 12 + file);
        }
    })
}

fn missing_as_1(numbers: &[u64], buffer: &mut [u8]) -> u64 {
    let mut numbers = numbers.to_vec();
    if numbers.len() > 11 {
        numbers.resize(numbers.len().max(20), 1);
    }
    set_up(&numbers, buffer)
}

fn refused_not_saved(numbers: &[u64], buffer: &mut [u8]) -> u64 {
    let (number, after) = probe_setup(numbers, buffer);
    if number & 0xFFFF_FFFF == O {
        buffer.copy_from_slice(&after);
    }
    number
}

fn twelve_alone(numbers: &[u64], buffer: &mut [u8]) -> u64 {
    match set_up(numbers, buffer) {
        number if number >> 32 == 12 => 12 << 32,
        number => number,
    }
}

fn one_alone(numbers: &[u64], buffer: &mut [u8]) -> u64 {
    match set_up(numbers, buffer) {
        number if number & 0xFFFF_FFFF == 1 => 1,
        number => number,
    }
}

fn saved_past_the_end(numbers: &[u64], buffer: &mut [u8]) -> u64 {
    let number = set_up(numbers, buffer);
    if buffer.len() > IMAGE_BYTES {
        buffer[IMAGE_BYTES..].fill(0);
    }
    number
}

fn numbers_swapped(numbers: &[u64], buffer: &mut [u8]) -> u64 {
    set_up(numbers, buffer).rotate_left(32)
}
