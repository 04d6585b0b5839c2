//! First images and Setup: what the trials take for right, and all that they must meet.

use checker::call::{Entry, Settings};
use checker::limits::IMAGE_BYTES;
use checker::model::{first_image, probe_setup, Rule, State};
use checker::random::Dice;
use checker::trial::first::{first_images, first_images_by_rule, setups, FIRST_OUTCOMES};
use checker::trial::{weights, Report};
use checker::{quick, swift};

fn by_model(buffer: &mut [u8], settings: &Settings) -> u64 {
    let (number, bytes) = first_image(buffer, settings);
    buffer.copy_from_slice(&bytes);
    number
}

fn setup_by_model(numbers: &[u64], buffer: &mut [u8]) -> u64 {
    let (number, bytes) = probe_setup(numbers, buffer);
    buffer.copy_from_slice(&bytes);
    number
}

#[test]
fn the_trials_meet_every_case() {
    let (mut report, mut dice) = (Report::default(), Dice::new(11));
    for entry in [quick::entry as Entry, swift::entry] {
        first_images(&mut report, by_model, entry, &mut dice, 500);
        first_images_by_rule(&mut report, by_model, entry, &mut dice, 500);
    }
    setups(&mut report, setup_by_model, &mut dice, 1_000);
    report.check_every_outcome_met(FIRST_OUTCOMES);
    println!("{}", report.outcomes(FIRST_OUTCOMES));
    assert_eq!(report.failed(), 0);
}

#[test]
fn examples_go_from_a_first_image_on() {
    let mut report = Report::default();
    for entry in [quick::entry as Entry, swift::entry] {
        weights::examples(&mut report, by_model, entry);
    }
    assert_eq!(report.failed(), 0);
}

/// Frames, L, T, eight sizes, the rule and eight E, in this order: what is missing is 0,
/// and what follows is not looked at.
#[test]
fn setup_takes_twenty_numbers() {
    let mut numbers = vec![300, 100_000, 300];
    numbers.extend(1..=8);
    numbers.push(1);
    numbers.extend(11..=18);
    let (mut state, _) = State::setup(300, 100_000, 300, [1, 2, 3, 4, 5, 6, 7, 8]);
    const O: u64 = 79 * 65_536;
    let buffer = vec![7; IMAGE_BYTES];
    for (count, rule, expected) in [
        (11, Rule::Of1989, [0; 8]),
        (12, Rule::Of1993, [0; 8]),
        (14, Rule::Of1993, [11, 12, 0, 0, 0, 0, 0, 0]),
        (20, Rule::Of1993, [11, 12, 13, 14, 15, 16, 17, 18]),
    ] {
        (state.rule, state.expected) = (rule, expected);
        let both = O * 4_294_967_296 + O;
        let set_up = probe_setup(&numbers[..count], &buffer);
        assert_eq!(set_up, (both, state.image()));
    }
    numbers.push(u64::MAX);
    let set_up = probe_setup(&numbers, &[7; 2_273]);
    assert_eq!(set_up, (12 * 4_294_967_296 + O, vec![7; 2_273]));
    let refused = probe_setup(&[], &buffer);
    let idle = State::idle().image();
    assert_eq!(refused, (O * 4_294_967_296 + 1, idle));
}

/// The README's three frames and file of six pages, but with numbers of several
/// bytes.
#[test]
fn a_first_image_is_that_of_a_setup() {
    let settings = Settings::of_1989(300, 100_000, 300, [6, 0, 0, 0, 0, 0, 0, 1_024]);
    let (number, image) = first_image(&[7; IMAGE_BYTES], &settings);
    let (state, _) = State::setup(300, 100_000, 300, settings.sizes);
    assert_eq!(number, u64::from(b'O') << 16);
    assert_eq!(State::restore(&image), (state, Ok(())));
    assert_eq!(
        image[..14],
        [44, 1, 0, 0, 0xA0, 0x86, 1, 0, 44, 1, 0, 0, 6, 0]
    );
    assert_eq!(first_image(&[7; 5], &settings), (13, vec![7; 5]));
}
