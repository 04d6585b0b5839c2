//! Quick and swift against the model: equal numbers and equal images; and quick's lists
//! and answers, which swift has not.

use checker::call::{Call, Entry, Order};
use checker::cases::{CASES, LINK_CASES, MEASURE_CASES, ROW_CASES, WEIGHT_CASES};
use checker::model::{self, Page, State};
use checker::quick::{entry, list, question, when_read};
use checker::random::Dice;
use checker::scene::{any_questions, any_state};
use checker::swift;
use checker::trial::fields::{self, FIELD_OUTCOMES};
use checker::trial::lists::{self, LIST_OUTCOMES};
use checker::trial::questions::{self, QUESTION_OUTCOMES};
use checker::trial::weights::{self, STEAL_OUTCOMES};
use checker::trial::worked::worked;
use checker::trial::{calls, damage, named, rules, soundings, Report, CALL_OUTCOMES};

#[test]
fn random_calls_at_bounds_and_beyond() {
    every_call(entry);
}

#[test]
fn swift_calls_at_bounds_and_beyond() {
    every_call(swift::entry);
}

fn every_call(entry: Entry) {
    let (mut report, mut dice) = (Report::default(), Dice::new(6));
    calls::random_calls(&mut report, entry, &mut dice, 600);
    calls::on_the_link(&mut report, entry, &mut dice, 400);
    calls::rows(&mut report, entry, &mut dice, 300);
    calls::by_weight(&mut report, entry, &mut dice, 600);
    for trial in named::all() {
        trial.by_entry(&mut report, entry);
    }
    calls::bounds(&mut report, entry, &mut dice, 3);
    calls::long_runs(&mut report, entry, &mut dice);
    damage::every_byte(&mut report, entry, &mut dice);
    damage::noise(&mut report, entry, &mut dice, 300);
    damage::lengths(&mut report, entry, &mut dice);
    fields::changed(&mut report, entry, &mut dice, 4_000);
    let calls = [CALL_OUTCOMES, CASES, MEASURE_CASES, LINK_CASES].concat();
    let outcomes = [&calls[..], ROW_CASES, WEIGHT_CASES, FIELD_OUTCOMES].concat();
    report.check_every_outcome_met(&outcomes);
    println!("{}", report.outcomes(&outcomes));
    assert_eq!(report.failed(), 0);
}

#[test]
fn lists_and_what_they_report() {
    let (mut report, mut dice) = (Report::default(), Dice::new(24));
    soundings::by_list(&mut report, list);
    rules::by_list(&mut report, list);
    lists::built(&mut report, list);
    lists::random(&mut report, list, &mut dice, 3_000);
    report.check_every_outcome_met(LIST_OUTCOMES);
    println!("{}", report.outcomes(LIST_OUTCOMES));
    assert_eq!(report.failed(), 0);
}

#[test]
fn lists_beside_steals() {
    let (mut report, mut dice) = (Report::default(), Dice::new(63));
    weights::by_steals(&mut report, list, entry, &mut dice, 2_000);
    weights::by_steals(&mut report, list, swift::entry, &mut dice, 2_000);
    weights::by_steals(&mut report, list_by_model, by_model, &mut dice, 2_000);
    report.check_every_outcome_met(STEAL_OUTCOMES);
    println!("{}", report.outcomes(STEAL_OUTCOMES));
    assert_eq!(report.failed(), 0);
}

fn by_model(image: &mut [u8], call: Call) -> u64 {
    let (number, after) = model::entry(image, call);
    image.copy_from_slice(&after);
    number
}

fn list_by_model(order: Order, image: &[u8], list: &mut [u16]) -> u64 {
    let (number, after) = model::list(order, image, list);
    list.copy_from_slice(&after);
    number
}

#[test]
fn questions_and_their_words() {
    let (mut report, mut dice) = (Report::default(), Dice::new(27));
    worked(&mut report, when_read);
    rules::by_question(&mut report, when_read);
    questions::built(&mut report, when_read);
    questions::random(&mut report, when_read, &mut dice, 3_000);
    report.check_every_outcome_met(QUESTION_OUTCOMES);
    println!("{}", report.outcomes(QUESTION_OUTCOMES));
    assert_eq!(report.failed(), 0);
}

#[test]
fn a_single_question() {
    let mut dice = Dice::new(28);
    for _ in 0..300 {
        let state = any_state(&mut dice);
        let image = state.image();
        for page in any_questions(&mut dice, &state, 8) {
            let Page { file, number } = page;
            let answer = state.when_read(page).number();
            assert_eq!(question(&image, file, number), answer);
            assert_eq!(question(&image[1..], file, number), 13);
        }
    }
    assert_eq!(question(&State::idle().image(), 0, 1), 3);
}
