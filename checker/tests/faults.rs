//! The trials find faults: each of these stand-ins is wrong in one way only.

#[path = "faults/link.rs"]
mod link;
#[path = "faults/lists.rs"]
mod lists;
#[path = "faults/measure.rs"]
mod measure;
#[path = "faults/older.rs"]
mod older;
#[path = "faults/questions.rs"]
mod questions;
#[path = "faults/rows.rs"]
mod rows;
#[path = "faults/setup.rs"]
mod setup;
#[path = "faults/weights.rs"]
mod weights;

use checker::call::{Call, Entry, First, Lister, Order, Settings, WhenRead};
use checker::cases::{CASES, LINK_CASES, LIST_LINK_CASES, MEASURE_CASES, WEIGHT_CASES};
use checker::feed::{Feed, Program};
use checker::layout;
use checker::limits::{IMAGE_BYTES, INTERVAL, LINE_BYTES, MOST_TURNS, PACE, SLOTS};
use checker::limits::{MARKED_IMAGE_BYTES, OLDER_IMAGE_BYTES};
use checker::model::{first_image, list, respond, run_program, Answer, Page, Rule, State};
use checker::quick;
use checker::random::Dice;
use checker::trial::fields::{self, FIELD_OUTCOMES};
use checker::trial::first::{first_images, first_images_by_rule, setups, FIRST_OUTCOMES};
use checker::trial::lists::{built, random, LIST_OUTCOMES};
use checker::trial::named::{self, Named};
use checker::trial::older::{every_byte, probed, upgraded, OLDER_OUTCOMES};
use checker::trial::questions::{self as asked, QUESTION_OUTCOMES};
use checker::trial::weights::{by_steals, examples, STEAL_OUTCOMES};
use checker::trial::worked::worked;
use checker::trial::{calls, damage, fewest, rules, soundings, streams};
use checker::trial::{Report, CALL_OUTCOMES};
use link::{in_fetch_listed, listed_by_cached, LINKS};
use lists::LISTS;
use measure::{marks_lost_by, older_taken, MEASURES};
use older::{BYTES, PROBES, UPGRADES};
use questions::QUESTIONS;
use rows::ROWS;
use setup::{FIRSTS_BY_RULE, SETUPS};
use std::collections::BTreeSet;
use std::ops::Range;
use weights::{SELDOM, WEIGHTS, WEIGHT_LISTS};

fn failed(trial: impl FnOnce(&mut Report, &mut Dice)) -> u64 {
    let mut report = Report::default();
    trial(&mut report, &mut Dice::new(8));
    report.failed()
}

/// Whether a trial fails, made again and again with the same dice.
fn found(mut trial: impl FnMut(&mut Report, &mut Dice)) -> bool {
    let (mut report, mut dice) = (Report::default(), Dice::new(8));
    (0..100).any(|_| {
        trial(&mut report, &mut dice);
        report.failed() > 0
    })
}

#[test]
fn an_image_not_saved_is_found() {
    let entry: Entry = |image, call| quick::entry(&mut image.to_vec(), call);
    let trial = |report: &mut Report, dice: &mut Dice| calls::random_calls(report, entry, dice, 5);
    assert!(failed(trial) > 0);
}

#[test]
fn a_refusal_that_writes_is_found() {
    let entry: Entry = |image, call| {
        let number = quick::entry(image, call);
        if number == 13 && image.len() == IMAGE_BYTES {
            image[3] = 0;
        }
        number
    };
    assert!(failed(|report, _| rules::rules(report, entry)) > 0);
}

#[test]
fn a_buffer_of_another_length_taken_is_found() {
    let longer_taken: Entry = |image, call| {
        let length = image.len().min(IMAGE_BYTES);
        quick::entry(&mut image[..length], call)
    };
    let trial = trial("16 has two reasons");
    let older = [
        older_taken::<OLDER_IMAGE_BYTES>,
        older_taken::<MARKED_IMAGE_BYTES>,
    ];
    for entry in [longer_taken].into_iter().chain(older) {
        assert!(failed(|report, dice| damage::lengths(report, entry, dice)) > 0);
        assert!(failed(|report, _| trial.by_entry(report, entry)) > 0);
    }
}

#[test]
fn a_slot_cut_to_32_bits_is_found() {
    let entry: Entry = |image, call| match call {
        Call::Read { slot } => {
            let slot = u64::from(slot as u32);
            quick::entry(image, Call::Read { slot })
        }
        _ => quick::entry(image, call),
    };
    assert!(failed(|report, dice| calls::bounds(report, entry, dice, 1)) > 0);
}

#[test]
fn a_run_with_one_fetch_more_is_found() {
    let entry: Entry = |image, call| {
        let number = quick::entry(image, call);
        number + if number >> 32 == 1 { 65_536 } else { 0 }
    };
    let trial = |report: &mut Report, dice: &mut Dice| {
        fewest::fewest(report, entry, dice, 5);
    };
    assert!(failed(trial) > 0);
}

#[test]
fn a_prefetch_that_finds_nothing_is_found() {
    let entry: Entry = |image, call| match call {
        Call::Prefetch => u64::from('U') * 65_536,
        _ => quick::entry(image, call),
    };
    assert!(failed(|report, _| soundings::by_entry(report, entry)) > 0);
}

#[test]
fn a_wrong_last_page_or_mark_is_found() {
    let entries: [(&str, Entry); 7] = [
        ("0 kept", zero_kept),
        ("0 taken for the size", zero_taken),
        ("above the size", taken_cut_to_size),
        ("below the position", taken_below_position),
        ("waiting at it", taken_waiting_at_last),
        ("a mark above the position", mark_taken),
        ("an empty slot's mark", empty_mark_taken),
    ];
    for (name, entry) in entries {
        let trial = |report: &mut Report, dice: &mut Dice| {
            fields::changed(report, entry, dice, 2_000);
        };
        assert!(failed(trial) > 0, "{name}");
        assert!(
            failed(|report, _| rules::rules(report, entry)) > 0,
            "{name}"
        );
    }
    assert!(failed(|report, _| soundings::by_entry(report, ahead_to_the_size)) > 0);
}

/// Random calls find it too, and do not need the trials by name.
#[test]
fn a_wrong_measure_is_found() {
    for (name, entry) in MEASURES {
        let found = found(|report, dice| calls::random_calls(report, entry, dice, 5));
        assert!(found, "{name}, {entry:?}");
    }
}

/// Random calls find it too, where pages in fetch decide.
#[test]
fn a_page_in_fetch_counted_wrongly_is_found() {
    for (name, entry) in LINKS {
        let found = found(|report, dice| calls::on_the_link(report, entry, dice, 20));
        assert!(found, "{name}, {entry:?}");
    }
    for program in [listed_by_cached, in_fetch_listed] {
        let found = found(|report, dice| streams::on_the_link(report, &program, dice, 5));
        assert!(found, "{program:?}");
    }
}

#[test]
fn a_run_that_goes_wrong_without_a_fetch_is_found() {
    for entry in ROWS {
        let found = found(|report, dice| calls::rows(report, entry, dice, 20));
        assert!(found, "{entry:?}");
    }
}

/// Random calls find it too, where weights decide, or rules, E and R put into images.
#[test]
fn a_wrong_weighting_is_found() {
    for (name, entry) in WEIGHTS.into_iter().chain(SELDOM) {
        let found = found(|report, dice| {
            calls::by_weight(report, entry, dice, 10);
            fields::changed(report, entry, dice, 100);
        });
        assert!(found, "{name}, {entry:?}");
    }
}

/// A Steal or a list that goes by another rule than the other does.
#[test]
fn a_list_that_is_not_of_the_steals_is_found() {
    let pairs: [(Entry, Lister); 2] = [
        (weights::rule_ignored, right_list),
        (quick::entry, weights::list_by_1989),
    ];
    for (entry, lister) in pairs {
        let trial = |report: &mut Report, dice: &mut Dice| {
            by_steals(report, lister, entry, dice, 20);
        };
        assert!(found(trial));
    }
}

fn right_list(order: Order, image: &[u8], lent: &mut [u16]) -> u64 {
    let (number, after) = list(order, image, lent);
    lent.copy_from_slice(&after);
    number
}

#[test]
fn a_wrong_example_is_found() {
    let entries: [Entry; 6] = [
        weights::rule_ignored,
        weights::shares_ignored,
        weights::least_surplus,
        weights::shares_rounded_down,
        weights::shares_rounded_up,
        weights::surpluses_cut,
    ];
    for entry in entries {
        let found = failed(|report, _| examples(report, right_first, entry));
        assert!(found > 0, "{entry:?}");
    }
    let first: First = |buffer, settings| {
        let plain = Settings {
            rule: 0,
            ..*settings
        };
        right_first(buffer, &plain)
    };
    assert!(failed(|report, _| examples(report, first, quick::entry)) > 0);
}

#[test]
fn a_wrong_restore_or_save_is_found() {
    for (name, by_rule, probe) in PROBES {
        let by_chance = found(|report, dice| probed(report, probe, dice, 20));
        assert!(by_chance, "{name}");
        let found = failed(|report, _| rules::by_probe(report, probe)) > 0;
        assert_eq!(found, by_rule, "{name}");
    }
}

#[test]
fn a_wrong_byte_is_found() {
    for (name, seldom, probe) in BYTES {
        let by_byte = failed(|report, dice| every_byte(report, probe, dice));
        assert!(by_byte > 0, "{name}");
        let by_rule = failed(|report, _| rules::by_probe(report, probe));
        assert_eq!(by_rule, 0, "{name}");
        let by_chance = failed(|report, dice| probed(report, probe, dice, 2_000));
        assert_eq!(by_chance < 4, seldom, "{name}");
    }
}

#[test]
fn a_wrong_upgrade_is_found() {
    for (name, by_rule, upgrade) in UPGRADES {
        let by_chance = found(|report, dice| {
            upgraded(report, upgrade, quick::entry, dice, 20);
        });
        assert!(by_chance, "{name}");
        let trial = |report: &mut Report, _: &mut Dice| {
            rules::by_upgrade(report, upgrade, quick::entry);
        };
        assert_eq!(failed(trial) > 0, by_rule, "{name}");
    }
}

#[test]
fn a_wrong_list_or_report_is_found() {
    for (name, by_chance, lister) in LISTS.into_iter().chain(WEIGHT_LISTS) {
        let fixed = [soundings::by_list, rules::by_list, built];
        let is_found =
            |trial: &fn(&mut Report, Lister)| failed(|report, _| trial(report, lister)) > 0;
        assert!(fixed.iter().any(is_found), "{name}");
        let found = found(|report, dice| random(report, lister, dice, 20));
        assert_eq!(found, by_chance, "{name}");
    }
}

#[test]
fn a_wrong_answer_or_count_of_words_is_found() {
    for (name, by_chance, when_read) in QUESTIONS {
        let fixed = [worked, rules::by_question, asked::built];
        let is_found =
            |trial: &fn(&mut Report, WhenRead)| failed(|report, _| trial(report, when_read)) > 0;
        assert!(fixed.iter().any(is_found), "{name}");
        let found = found(|report, dice| asked::random(report, when_read, dice, 20));
        assert_eq!(found, by_chance, "{name}");
    }
}

#[test]
fn a_run_past_the_last_pages_is_found() {
    let entry: Entry = |image, call| {
        if let (Call::Run { .. }, Some(mut state)) = (call, restored(image)) {
            read_to_the_size(&mut state);
            image.copy_from_slice(&state.image());
        }
        quick::entry(image, call)
    };
    let trial = |report: &mut Report, dice: &mut Dice| {
        fewest::fewest(report, entry, dice, 50);
    };
    assert!(failed(trial) > 0);
}

#[test]
fn an_answer_never_met_is_found() {
    for outcomes in [
        CALL_OUTCOMES,
        CASES,
        MEASURE_CASES,
        LINK_CASES,
        LIST_LINK_CASES,
        WEIGHT_CASES,
        FIELD_OUTCOMES,
        FIRST_OUTCOMES,
        STEAL_OUTCOMES,
        OLDER_OUTCOMES,
        LIST_OUTCOMES,
        QUESTION_OUTCOMES,
    ] {
        let unmet = failed(|report, dice| {
            calls::random_calls(report, quick::entry, dice, 1);
            report.check_every_outcome_met(outcomes);
        });
        assert!(unmet > 0);
    }
}

#[test]
fn a_length_tested_late_is_found() {
    let entry: Entry = |image, call| match call {
        Call::Run { turns: 16_385.. } => 11,
        _ => quick::entry(image, call),
    };
    let trial = trial("Run gives 11 before 10");
    assert!(failed(|report, _| trial.by_entry(report, entry)) > 0);
}

#[test]
fn a_wrong_first_image_is_found() {
    let firsts: [(&str, First); 14] = [
        ("one byte of L", one_byte_of_l),
        ("two bytes of T", two_bytes_of_t),
        ("frames and sizes cut to 16 bits", cut_to::<16>),
        ("frames and sizes cut to 32 bits", cut_to::<32>),
        ("ticks cut to 32 bits", ticks_of_32_bits),
        ("the last size not tested", last_size_untested),
        ("1,024 pages refused", full_file_refused),
        ("the maps left as they were", maps_left),
        ("the marks left as they were", marks_left),
        ("rule, E and R left as they were", weights_left),
        ("2,208 bytes written", older_written),
        ("the buffer cleared before a refusal", cleared_first),
        ("1 before 13", length_last),
        ("a longer buffer taken", longer_taken),
    ];
    for (name, first) in firsts {
        let trial = |report: &mut Report, dice: &mut Dice| {
            first_images(report, first, quick::entry, dice, 100);
        };
        assert!(failed(trial) > 0, "{name}");
        let trial = |report: &mut Report, dice: &mut Dice| {
            first_images_by_rule(report, first, quick::entry, dice, 100);
        };
        assert!(failed(trial) > 0, "{name}");
    }
    for (name, first) in FIRSTS_BY_RULE {
        let trial = |report: &mut Report, dice: &mut Dice| {
            first_images_by_rule(report, first, quick::entry, dice, 100);
        };
        assert!(failed(trial) > 0, "{name}");
    }
}

#[test]
fn a_wrong_setup_is_found() {
    for (name, probe) in SETUPS {
        let trial = |report: &mut Report, dice: &mut Dice| setups(report, probe, dice, 300);
        assert!(failed(trial) > 0, "{name}");
    }
}

#[test]
fn a_first_image_that_no_call_takes_is_found() {
    let entry: Entry = |image, call| match image[0] {
        0 => 13, // 256 frames, say, by their low byte
        _ => quick::entry(image, call),
    };
    let trial = |report: &mut Report, dice: &mut Dice| {
        first_images(report, right_first, entry, dice, 100);
    };
    assert!(failed(trial) > 0);
}

/// Stand-ins for the C entries, each with the trial that finds it.
const ENTRIES: [(&str, Entry); 60] = [
    ("each refusal has its number", another_number::<2>),
    ("each refusal has its number", another_number::<3>),
    ("each refusal has its number", another_number::<4>),
    ("each refusal has its number", another_number::<5>),
    ("each refusal has its number", another_number::<6>),
    ("each refusal has its number", another_number::<7>),
    ("each refusal has its number", another_number::<8>),
    ("each refusal has its number", another_number::<9>),
    ("each refusal has its number", another_number::<10>),
    ("each refusal has its number", another_number::<11>),
    ("each refusal has its number", another_number::<15>),
    ("Attach gives 2 before 3", last_listed),
    ("Attach gives 3 before 4", last_listed),
    ("Attach gives 4 before 5", last_listed),
    ("Attach gives 3 before 15", last_listed),
    ("Attach gives 4 before 15", last_listed),
    ("Attach gives 15 before 5", last_listed),
    ("Arrive gives 3 before 8", last_listed),
    ("Arrive gives 8 before 9", last_listed),
    ("Lost gives 3 before 8", last_listed),
    ("Lost gives 8 before 9", last_listed),
    ("Run gives 11 before 10", last_listed),
    ("every answer has its number", another_letter::<'O'>),
    ("every answer has its number", another_letter::<'H'>),
    ("every answer has its number", another_letter::<'W'>),
    ("every answer has its number", another_letter::<'F'>),
    ("every answer has its number", another_letter::<'Z'>),
    ("every answer has its number", another_letter::<'U'>),
    ("every answer has its number", another_letter::<'S'>),
    ("every answer has its number", another_letter::<'I'>),
    ("every answer has its number", fetches_of_8_bits),
    ("every answer has its number", pages_of_13_bits),
    ("the seat distance is slot less turn", turn_less_slot),
    ("the seat distance is slot less turn", slot_alone),
    ("Lost closes the fetch", lost_left_open),
    ("an ended fetch wakes its waiters", whole_file_woken),
    ("an ended fetch wakes its waiters", every_file_woken),
    ("Arrive steals before it caches", cached_first),
    ("Run's order is worked out afresh", run_by_one_list),
    ("15 has three reasons", attach_0_as_size),
    ("15 has three reasons", attach_cut_to_size),
    ("15 has three reasons", attach_start_cut),
    ("15 has three reasons", attach_at_last_refused),
    ("a reader goes on from its start", start_not_stored),
    ("Z comes at the last page", z_at_the_size),
    ("a page past the last page is not ahead", ahead_to_the_size),
    (
        "a page past the last page is not ahead",
        last_page_not_stored,
    ),
    ("the look-ahead ends at the last page", seen_to_the_size),
    ("a last page of 0 is refused", zero_kept),
    ("a last page of 0 is refused", zero_taken),
    ("Z and U leave the image", marks_lost_by::<'Z'>),
    ("Z and U leave the image", marks_lost_by::<'U'>),
    ("no mark is above the position", mark_taken),
    ("an empty slot has no mark", empty_mark_taken),
    ("Measure gives 2 before 16", last_listed),
    ("Measure gives 6 before 16", last_listed),
    ("16 has two reasons", another_number::<16>),
    ("no last page is above the size", taken_cut_to_size),
    ("no last page is below the position", taken_below_position),
    ("no reader waits at its last page", taken_waiting_at_last),
];

/// Stand-ins for the program.
const PROGRAMS: [(&str, Program); 11] = [
    ("an S line sets the 1989 rule", &s_of_1993),
    ("an S line has eleven fields", &s_of_twenty_read),
    ("no line measures", &m_lines_read),
    ("14 comes before all else", &zeros_read),
    ("an A line has five fields", &a_of_three_read),
    ("a line of 201 bytes is one line", &cut_at_200),
    ("a last line lacks its end", &last_line_lost),
    ("a cluster ends with its file", &clusters_run_on),
    ("Steal's order is worked out afresh", &steals_by_one_list),
    ("a page in fetch counts as cached", &listed_by_cached),
    ("no page in fetch is stolen", &in_fetch_listed),
];

#[test]
fn each_trial_by_name_finds_its_faults() {
    let mut faultless: BTreeSet<&str> = named::all().iter().map(|trial| trial.name).collect();
    let entries = ENTRIES.into_iter().chain(MEASURES).chain(LINKS);
    for (name, entry) in entries.chain(WEIGHTS) {
        faultless.remove(name);
        let trial = trial(name);
        assert!(
            failed(|report, _| trial.by_entry(report, entry)) > 0,
            "{name}"
        );
    }
    for (name, program) in PROGRAMS {
        faultless.remove(name);
        let trial = trial(name);
        assert!(
            failed(|report, _| trial.by_program(report, program)) > 0,
            "{name}"
        );
    }
    assert!(
        faultless.is_empty(),
        "trials without a fault: {faultless:?}"
    );
}

/// Random streams find it too.
#[test]
fn an_s_line_of_1993_is_found() {
    let found = found(|report, dice| streams::random_streams(report, &s_of_1993, dice, 1));
    assert!(found);
}

fn trial(name: &str) -> Named {
    let mut trials = named::all().into_iter();
    trials.find(|trial| trial.name == name).expect(name)
}

/// The state of an image that an entry takes.
fn restored(image: &[u8]) -> Option<State> {
    let state = State::of_image(image).ok();
    state.filter(|_| image.len() == IMAGE_BYTES)
}

/// A first image by the model.
fn right_first(buffer: &mut [u8], settings: &Settings) -> u64 {
    let (number, bytes) = first_image(buffer, settings);
    buffer.copy_from_slice(&bytes);
    number
}

/// A first image in which these bytes keep what the buffer held, or 0.
fn without(buffer: &mut [u8], settings: &Settings, bytes: Range<usize>, keep: bool) -> u64 {
    let before = buffer.to_vec();
    let number = right_first(buffer, settings);
    if number >= 65_536 {
        for at in bytes {
            buffer[at] = if keep { before[at] } else { 0 };
        }
    }
    number
}

fn one_byte_of_l(buffer: &mut [u8], settings: &Settings) -> u64 {
    without(buffer, settings, 5..8, false)
}

fn two_bytes_of_t(buffer: &mut [u8], settings: &Settings) -> u64 {
    without(buffer, settings, 10..12, false)
}

fn maps_left(buffer: &mut [u8], settings: &Settings) -> u64 {
    without(buffer, settings, layout::CACHED..layout::MARKS, true)
}

fn marks_left(buffer: &mut [u8], settings: &Settings) -> u64 {
    without(buffer, settings, layout::MARKS..layout::RULE, true)
}

fn weights_left(buffer: &mut [u8], settings: &Settings) -> u64 {
    without(buffer, settings, layout::RULE..IMAGE_BYTES, true)
}

fn older_written(buffer: &mut [u8], settings: &Settings) -> u64 {
    if buffer.len() != layout::MARKS {
        return right_first(buffer, settings);
    }
    let (number, image) = first_image(&[0; IMAGE_BYTES], settings);
    if number >= 65_536 {
        buffer.copy_from_slice(&image[..layout::MARKS]);
    }
    number
}

fn cut_to<const BITS: u32>(buffer: &mut [u8], settings: &Settings) -> u64 {
    let cut = |number: u64| number & ((1 << BITS) - 1);
    let settings = Settings {
        frames: cut(settings.frames),
        sizes: settings.sizes.map(cut),
        ..*settings
    };
    right_first(buffer, &settings)
}

fn ticks_of_32_bits(buffer: &mut [u8], settings: &Settings) -> u64 {
    let settings = Settings {
        look_ahead: u64::from(settings.look_ahead as u32),
        fetch_time: u64::from(settings.fetch_time as u32),
        ..*settings
    };
    right_first(buffer, &settings)
}

fn last_size_untested(buffer: &mut [u8], settings: &Settings) -> u64 {
    let mut settings = *settings;
    settings.sizes[7] = settings.sizes[7].min(1_024);
    right_first(buffer, &settings)
}

fn full_file_refused(buffer: &mut [u8], settings: &Settings) -> u64 {
    match settings.sizes.contains(&1_024) && buffer.len() == IMAGE_BYTES {
        true => 1,
        false => right_first(buffer, settings),
    }
}

fn cleared_first(buffer: &mut [u8], settings: &Settings) -> u64 {
    let number = right_first(buffer, settings);
    if number == 1 {
        buffer.fill(0);
    }
    number
}

fn length_last(buffer: &mut [u8], settings: &Settings) -> u64 {
    match right_first(&mut [0; IMAGE_BYTES], settings) {
        1 => 1,
        _ => right_first(buffer, settings),
    }
}

fn longer_taken(buffer: &mut [u8], settings: &Settings) -> u64 {
    let length = buffer.len().min(IMAGE_BYTES);
    right_first(&mut buffer[..length], settings)
}

/// Of several refusals that apply, the one listed last.
fn last_listed(image: &mut [u8], call: Call) -> u64 {
    let state = restored(image);
    let number = quick::entry(image, call);
    let Some(state) = state.filter(|_| number < 65_536) else {
        return number;
    };
    let listed = match call {
        Call::Attach {
            slot,
            file,
            pace,
            start,
            last,
        } => vec![
            (2, slot > 15),
            (3, state.size(file) == 0),
            (4, !PACE.contains(&pace)),
            (15, last == 0 || last > state.size(file) || start > last),
            (5, state.readers.contains_key(&slot)),
        ],
        Call::Arrive { file, page: number } | Call::Lost { file, page: number } => vec![
            (3, state.size(file) == 0),
            (8, number == 0 || number > state.size(file)),
            (9, !state.in_fetch.contains(&Page { file, number })),
        ],
        Call::Run { turns } => vec![(11, turns > MOST_TURNS), (10, !state.in_fetch.is_empty())],
        Call::Measure {
            slot,
            interval,
            blocked,
        } => vec![
            (2, slot > 15),
            (6, slot <= 15 && !state.readers.contains_key(&slot)),
            (16, !INTERVAL.contains(&interval) || blocked > interval),
        ],
        _ => vec![(number, true)],
    };
    let mut applying = listed.iter().filter(|(_, applies)| *applies);
    applying.next_back().map_or(number, |(refusal, _)| *refusal)
}

/// The refusal of this number under 12.
fn another_number<const NUMBER: u64>(image: &mut [u8], call: Call) -> u64 {
    match quick::entry(image, call) {
        number if number == NUMBER => 12,
        number => number,
    }
}

/// The answers of this letter under the next one.
fn another_letter<const LETTER: char>(image: &mut [u8], call: Call) -> u64 {
    let number = quick::entry(image, call);
    let has_letter = number >> 16 == u64::from(LETTER);
    number + u64::from(has_letter) * 65_536
}

fn fetches_of_8_bits(image: &mut [u8], call: Call) -> u64 {
    quick::entry(image, call) & !0xFF00_0000
}

fn pages_of_13_bits(image: &mut [u8], call: Call) -> u64 {
    quick::entry(image, call) & !0xE000
}

/// Arrive and Lost, with the state that they leave changed.
fn leaving(image: &mut [u8], call: Call, change: impl FnOnce(&mut State, Page)) -> u64 {
    let number = quick::entry(image, call);
    if let (Call::Arrive { file, page } | Call::Lost { file, page }, 65_536..) = (call, number) {
        let (mut state, _) = State::restore(image);
        change(&mut state, Page { file, number: page });
        image.copy_from_slice(&state.image());
    }
    number
}

fn lost_left_open(image: &mut [u8], call: Call) -> u64 {
    leaving(image, call, |state, page| {
        if let Call::Lost { .. } = call {
            state.in_fetch.insert(page);
        }
    })
}

fn whole_file_woken(image: &mut [u8], call: Call) -> u64 {
    leaving(image, call, |state, page| {
        wake(state, |next| next.file == page.file);
    })
}

fn every_file_woken(image: &mut [u8], call: Call) -> u64 {
    leaving(image, call, |state, page| {
        wake(state, |next| next.number == page.number);
    })
}

/// Lets the readers run whose next page is such.
fn wake(state: &mut State, such: impl Fn(Page) -> bool) {
    for reader in state.readers.values_mut() {
        reader.waiting &= !such(reader.next_page());
    }
}

/// Steal and Prefetch, decided on a changed state.
fn decided_on(image: &mut [u8], call: Call, change: impl FnOnce(&mut State)) -> u64 {
    let (Call::Steal | Call::Prefetch, Some(mut state)) = (call, restored(image)) else {
        return quick::entry(image, call);
    };
    let mut changed = state.clone();
    change(&mut changed);
    let answer = changed.call(call).expect("no refusal");
    (state.cached, state.in_fetch) = (changed.cached, changed.in_fetch);
    image.copy_from_slice(&state.image());
    answer.number()
}

/// A seat distance of (turn − slot) modulo 16.
fn turn_less_slot(image: &mut [u8], call: Call) -> u64 {
    seated_by(image, call, |slot, turn| turn + 16 - slot)
}

/// "breaking a tie by slot without the turn"
fn slot_alone(image: &mut [u8], call: Call) -> u64 {
    seated_by(image, call, |slot, _| slot)
}

/// Steal and Prefetch with another seat distance, by slot and turn: each reader
/// sits where the paper's is that.
fn seated_by(image: &mut [u8], call: Call, distance: fn(u64, u64) -> u64) -> u64 {
    decided_on(image, call, |state| {
        let turn = state.turn;
        let seat = |slot| (turn + distance(slot, turn)) % 16;
        let readers = std::mem::take(&mut state.readers).into_iter();
        state.readers = readers.map(|(slot, reader)| (seat(slot), reader)).collect();
    })
}

/// Arrive with the page cached before another is dropped for it.
fn cached_first(image: &mut [u8], call: Call) -> u64 {
    let (Call::Arrive { file, page }, Some(mut state)) = (call, restored(image)) else {
        return quick::entry(image, call);
    };
    state.frames += 1;
    if let Err(refusal) = state.arrive(file, page) {
        return refusal.number();
    }
    state.frames -= 1;
    let one_too_many = state.cached.len() as u64 > state.frames;
    let dropped = one_too_many.then(|| state.steal().page()).flatten();
    image.copy_from_slice(&state.image());
    Answer::Arrived(dropped).number()
}

/// Drops the next page of "one list until it runs out", as 001 does.
fn drop_next(state: &mut State, list: &mut Vec<Page>) -> Page {
    if list.is_empty() {
        *list = state.steal_order();
    }
    let page = list.remove(0);
    state.cached.remove(&page);
    page
}

/// Run with one list until it runs out.
fn run_by_one_list(image: &mut [u8], call: Call) -> u64 {
    let (Call::Run { turns }, Some(mut state)) = (call, restored(image)) else {
        return quick::entry(image, call);
    };
    let (mut list, mut fetches, mut reads) = (Vec::new(), 0, 0);
    for _ in 0..turns {
        let mut answer = state.read(state.turn);
        if let Ok(Answer::Fetch(page)) = answer {
            fetches += 1;
            if state.cached.len() as u64 == state.frames {
                drop_next(&mut state, &mut list);
            }
            state
                .arrive(page.file, page.number)
                .expect("it is in fetch");
            answer = state.read(state.turn);
        }
        if let Ok(Answer::Hit(_)) = answer {
            reads += 1;
        }
        state.pass_turn();
    }
    image.copy_from_slice(&state.image());
    Answer::Ran { fetches, reads }.number()
}

/// Attach with start and last page changed, by the size of its file.
fn attached_as(image: &mut [u8], call: Call, change: fn(u64, u64, u64) -> (u64, u64)) -> u64 {
    let (
        Call::Attach {
            slot,
            file,
            pace,
            start,
            last,
        },
        Some(state),
    ) = (call, restored(image))
    else {
        return quick::entry(image, call);
    };
    let (start, last) = change(start, last, state.size(file));
    let changed = Call::Attach {
        slot,
        file,
        pace,
        start,
        last,
    };
    quick::entry(image, changed)
}

fn attach_0_as_size(image: &mut [u8], call: Call) -> u64 {
    attached_as(image, call, |start, last, size| match last {
        0 => (start, size),
        _ => (start, last),
    })
}

fn attach_cut_to_size(image: &mut [u8], call: Call) -> u64 {
    attached_as(image, call, |start, last, size| (start, last.min(size)))
}

fn attach_start_cut(image: &mut [u8], call: Call) -> u64 {
    attached_as(image, call, |start, last, _| (start.min(last), last))
}

fn attach_at_last_refused(image: &mut [u8], call: Call) -> u64 {
    attached_as(image, call, |start, last, _| match start == last {
        true => (start, 0),
        false => (start, last),
    })
}

fn start_not_stored(image: &mut [u8], call: Call) -> u64 {
    attached_as(image, call, |start, last, _| match start > last {
        true => (start, last),
        false => (0, last),
    })
}

fn last_page_not_stored(image: &mut [u8], call: Call) -> u64 {
    attached_as(image, call, |start, last, size| match last {
        _ if last == 0 || last > size || start > last => (start, last),
        _ => (start, size),
    })
}

/// Every reader reads up to the end of its file.
fn read_to_the_size(state: &mut State) {
    let sizes = state.sizes;
    for reader in state.readers.values_mut() {
        reader.last = sizes[reader.file as usize];
    }
}

/// Read that answers Z at the size.
fn z_at_the_size(image: &mut [u8], call: Call) -> u64 {
    let (Call::Read { .. }, Some(mut state)) = (call, restored(image)) else {
        return quick::entry(image, call);
    };
    read_to_the_size(&mut state);
    quick::entry(&mut state.image(), call)
}

/// A look-ahead that goes on to the size.
fn seen_to_the_size(image: &mut [u8], call: Call) -> u64 {
    decided_on(image, call, read_to_the_size)
}

/// Steal with every page up to the size ahead of a reader, but no look-ahead past
/// a last page.
fn ahead_to_the_size(image: &mut [u8], call: Call) -> u64 {
    let (Call::Steal, Some(mut state)) = (call, restored(image)) else {
        return quick::entry(image, call);
    };
    let seen = state.use_keys();
    let mut longer = state.clone();
    read_to_the_size(&mut longer);
    let wrongly_ahead = |page: &Page| {
        let ahead = longer.is_ahead_of_some_reader(*page);
        ahead && !seen.contains_key(page)
    };
    let order = state.steal_order();
    let behind = order.iter().find(|page| !wrongly_ahead(page));
    let Some(&head) = behind.or(order.first()) else {
        return quick::entry(image, call);
    };
    state.cached.remove(&head);
    image.copy_from_slice(&state.image());
    Answer::Stolen(head).number()
}

/// A number of two bytes in an image.
fn two_at(image: &[u8], at: usize) -> u16 {
    u16::from_le_bytes([image[at], image[at + 1]])
}

/// Condition, size of the file and position, for each slot of an image.
fn slots_of(image: &[u8]) -> Vec<(usize, u8, u16, u16)> {
    let slots = 0..SLOTS as usize;
    slots
        .map(|slot| {
            let record = layout::READERS + layout::READER_BYTES * slot;
            let file = usize::from(image[record + 1] % 8);
            let size = two_at(image, layout::SIZES + 2 * file);
            (slot, image[record], size, two_at(image, record + 4))
        })
        .collect()
}

/// Writes the sizes for last pages of 0 in taken slots.
fn mend_zeros(image: &mut [u8]) {
    for (slot, condition, size, _) in slots_of(image) {
        let at = layout::last_page(slot);
        if condition != 0 && image[at.clone()] == [0, 0] {
            image[at].copy_from_slice(&size.to_le_bytes());
        }
    }
}

/// Writes the positions for marks above them in taken slots.
fn mend_marks(image: &mut [u8]) {
    for (slot, condition, _, position) in slots_of(image) {
        let at = layout::mark(slot);
        if condition != 0 && two_at(image, at.start) > position {
            image[at].copy_from_slice(&position.to_le_bytes());
        }
    }
}

/// Writes 0 for the marks of empty slots.
fn mend_empty_marks(image: &mut [u8]) {
    for (slot, condition, ..) in slots_of(image) {
        if condition == 0 {
            image[layout::mark(slot)].fill(0);
        }
    }
}

/// Restore that would answer 13, but takes the image mended.
fn mended(image: &mut [u8], call: Call, mend: fn(&mut [u8])) -> u64 {
    if image.len() != IMAGE_BYTES || restored(image).is_some() {
        return quick::entry(image, call);
    }
    let mut other = image.to_vec();
    mend(&mut other);
    let number = quick::entry(&mut other, call);
    if number >= 65_536 {
        image.copy_from_slice(&other);
    }
    number
}

fn zero_taken(image: &mut [u8], call: Call) -> u64 {
    mended(image, call, mend_zeros)
}

fn mark_taken(image: &mut [u8], call: Call) -> u64 {
    mended(image, call, mend_marks)
}

fn empty_mark_taken(image: &mut [u8], call: Call) -> u64 {
    mended(image, call, mend_empty_marks)
}

/// A last page of 0 restored as page 0.
fn zero_kept(image: &mut [u8], call: Call) -> u64 {
    let mut other = image.to_vec();
    if image.len() == IMAGE_BYTES {
        mend_zeros(&mut other);
    }
    let (None, Some(mut state)) = (restored(image), restored(&other)) else {
        return quick::entry(image, call);
    };
    for (slot, reader) in &mut state.readers {
        reader.last = two_at(image, layout::last_page(*slot as usize).start).into();
    }
    if state
        .readers
        .values()
        .any(|reader| reader.position > reader.last)
    {
        return 13;
    }
    match state.call(call) {
        Ok(answer) => {
            image.copy_from_slice(&state.image());
            answer.number()
        }
        Err(refusal) => refusal.number(),
    }
}

/// Restore that would answer 13, but takes the image with another last page in
/// some slot, by the position and the size there.
fn taken_with(image: &mut [u8], call: Call, last: fn(u16, u16) -> u16) -> u64 {
    let number = quick::entry(image, call);
    if number != 13 || image.len() != IMAGE_BYTES {
        return number;
    }
    let taken = slots_of(image)
        .into_iter()
        .filter(|(_, condition, ..)| *condition != 0);
    let mut numbers = taken.map(|(slot, _, size, position)| {
        let mut other = image.to_vec();
        let bytes = last(position, size).to_le_bytes();
        other[layout::last_page(slot)].copy_from_slice(&bytes);
        quick::entry(&mut other, call)
    });
    numbers.find(|&number| number != 13).unwrap_or(13)
}

fn taken_cut_to_size(image: &mut [u8], call: Call) -> u64 {
    taken_with(image, call, |_, size| size)
}

fn taken_below_position(image: &mut [u8], call: Call) -> u64 {
    taken_with(image, call, |position, _| position)
}

fn taken_waiting_at_last(image: &mut [u8], call: Call) -> u64 {
    taken_with(image, call, |position, _| position.saturating_add(1))
}

/// An S line that selects the 1993 rule.
fn s_of_1993(feed: &Feed) -> Result<Vec<u8>, String> {
    answered(feed, |state, line| {
        if !line.starts_with('S') {
            return None;
        }
        let (after, answer) = respond(state.clone(), line.as_bytes());
        *state = after;
        state.rule = Rule::Of1993;
        Some(answer)
    })
}

/// An S line with a rule and eight E behind its eleven fields.
fn s_of_twenty_read(feed: &Feed) -> Result<Vec<u8>, String> {
    answered(feed, |state, line| {
        let fields: Vec<u64> = line.split(',').filter_map(|f| f.parse().ok()).collect();
        if !line.starts_with('S') || fields.len() != 20 {
            return None;
        }
        let expected = std::array::from_fn(|file| fields[12 + file]);
        let sizes = std::array::from_fn(|file| fields[3 + file]);
        let plain = Settings::of_1989(fields[0], fields[1], fields[2], sizes);
        let rule = fields[11];
        let settings = Settings {
            rule,
            expected,
            ..plain
        };
        let (after, answer) = State::setup_by_rule(&settings);
        *state = after;
        Some(answer.map_or_else(|refusal| refusal.to_string(), |answer| answer.to_string()))
    })
}

/// Lines for Measure.
fn m_lines_read(feed: &Feed) -> Result<Vec<u8>, String> {
    answered(feed, |state, line| {
        let fields: Vec<u64> = line.split(',').filter_map(|f| f.parse().ok()).collect();
        let (true, &[slot, interval, blocked]) = (line.starts_with('M'), &fields[..]) else {
            return None;
        };
        let answer = state.measure(slot, interval, blocked);
        Some(answer.map_or_else(|refusal| refusal.to_string(), |answer| answer.to_string()))
    })
}

/// An A line without start and last page taken for one of the whole file.
fn a_of_three_read(feed: &Feed) -> Result<Vec<u8>, String> {
    answered(feed, |state, line| {
        let fields: Vec<u64> = line.split(',').filter_map(|f| f.parse().ok()).collect();
        let (true, &[slot, file, pace]) = (line.starts_with('A'), &fields[..]) else {
            return None;
        };
        let answer = state.attach(slot, file, pace, 0, state.size(file));
        Some(answer.map_or_else(|refusal| refusal.to_string(), |answer| answer.to_string()))
    })
}

fn zeros_read(feed: &Feed) -> Result<Vec<u8>, String> {
    let input = String::from_utf8_lossy(&feed.pieces.concat()).into_owned();
    let read = |line: &str| {
        let read = Call::of_line(line).and_then(Call::line);
        read.unwrap_or(line.to_string())
    };
    let lines: Vec<String> = input.lines().map(read).collect();
    Ok(run_program(lines.join("\n").as_bytes()))
}

fn cut_at_200(feed: &Feed) -> Result<Vec<u8>, String> {
    let input = feed.pieces.concat();
    let lines = input.split(|&byte| byte == b'\n');
    let pieces: Vec<&[u8]> = lines.flat_map(|line| line.chunks(LINE_BYTES)).collect();
    Ok(run_program(&pieces.join(&b'\n')))
}

fn last_line_lost(feed: &Feed) -> Result<Vec<u8>, String> {
    let input = feed.pieces.concat();
    let end = input.iter().rposition(|&byte| byte == b'\n');
    Ok(run_program(&input[..end.map_or(0, |end| end + 1)]))
}

/// The clusters of file 0 run on into file 1.
fn clusters_run_on(feed: &Feed) -> Result<Vec<u8>, String> {
    answered(feed, |state, line| {
        let cached = |key: &u64| state.cached.contains(&Page::of_key(*key));
        let starts = (0..1_024).filter(|key| cached(key) && (*key == 0 || !cached(&(key - 1))));
        let end = |low| (low..).take_while(cached).last().unwrap_or(low);
        let pairs = starts.map(|low| format!(",{},{}", low + 1, end(low) + 1));
        let pairs: Vec<String> = pairs.collect();
        (line == "C,0").then(|| format!("C,{}{}", pairs.len(), pairs.concat()))
    })
}

fn steals_by_one_list(feed: &Feed) -> Result<Vec<u8>, String> {
    let mut list = Vec::new();
    answered(feed, |state, line| {
        (line == "T").then(|| Answer::Stolen(drop_next(state, &mut list)).to_string())
    })
}

/// The model's answers, but for the lines that have another here.
fn answered(
    feed: &Feed,
    mut other: impl FnMut(&mut State, &str) -> Option<String>,
) -> Result<Vec<u8>, String> {
    let input = String::from_utf8_lossy(&feed.pieces.concat()).into_owned();
    let (mut state, mut output) = (State::idle(), String::new());
    for line in input.lines() {
        let answer = other(&mut state, line).unwrap_or_else(|| {
            let (after, answer) = respond(state.clone(), line.as_bytes());
            state = after;
            answer
        });
        output += &(answer + "\n");
    }
    Ok(output.into_bytes())
}
