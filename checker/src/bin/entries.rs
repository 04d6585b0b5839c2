//! Holds the box's C entries, the header's first images and upgrade, and by themselves
//! Setup, Restore, Save, Steal list, Fetch list and "When will these be read?" to the
//! model and to the papers.
//!
//!     QUAY_LIB=folder QUAY_PROBE=folder \
//!         cargo run --release --features box --bin entries
//!     ... -- --seed 7 --rounds 20
//!
//! One round is the default run; more rounds go on with the same dice. The last
//! line is `entries: N passed, 0 failed`, or the exit status is not 0.

use checker::cases::{CASES, LINK_CASES, MEASURE_CASES, ROW_CASES, WEIGHT_CASES};
use checker::ffi::{entry, first_image, first_image_by_rule, setup, upgrade_image};
use checker::ffi::{list, probe, when_read};
use checker::model::run_program;
use checker::random::Dice;
use checker::trial::fields::{self, FIELD_OUTCOMES};
use checker::trial::first::{first_images, first_images_by_rule, setups, FIRST_OUTCOMES};
use checker::trial::lists::{self, LIST_OUTCOMES};
use checker::trial::older::{self, OLDER_OUTCOMES};
use checker::trial::questions::{self, QUESTION_OUTCOMES};
use checker::trial::weights::{self, STEAL_OUTCOMES};
use checker::trial::worked::worked;
use checker::trial::{calls, damage, fewest, named, rules, seed_and_rounds, soundings};
use checker::trial::{Report, CALL_OUTCOMES};
use std::process::ExitCode;

const INSTANCES: u64 = 6_000;

fn main() -> ExitCode {
    let Some((seed, rounds)) = seed_and_rounds() else {
        eprintln!("usage: entries [--seed N] [--rounds N]");
        return ExitCode::from(2);
    };
    println!("entries: seed {seed}, rounds {rounds}");
    let mut report = Report::default();
    let mut dice = Dice::new(seed);
    fixed(&mut report);
    for _ in 0..rounds {
        round(&mut report, &mut dice);
    }
    let calls = [
        CALL_OUTCOMES,
        CASES,
        MEASURE_CASES,
        LINK_CASES,
        ROW_CASES,
        WEIGHT_CASES,
    ]
    .concat();
    let images = [FIELD_OUTCOMES, OLDER_OUTCOMES, FIRST_OUTCOMES].concat();
    let lent = [LIST_OUTCOMES, STEAL_OUTCOMES, QUESTION_OUTCOMES].concat();
    report.close("entries", "calls", &[calls, images, lent].concat())
}

/// What is the same for every seed.
fn fixed(report: &mut Report) {
    report.part("soundings, worked questions and listing", |report| {
        soundings::by_model(report);
        soundings::by_entry(report, entry);
        soundings::by_list(report, list);
        worked(report, when_read);
        soundings::listing(report, run_program);
    });
    report.part(
        "examples of the 1993 rule, from a first image on",
        |report| {
            weights::examples(report, first_image_by_rule, entry);
        },
    );
    report.part("trials by name", |report| {
        for trial in named::all() {
            trial.by_entry(report, entry);
        }
    });
    report.part("each rule of Restore", |report| {
        rules::rules(report, entry);
        rules::by_probe(report, probe);
        rules::by_upgrade(report, upgrade_image, entry);
        rules::by_list(report, list);
        rules::by_question(report, when_read);
    });
    report.part("lists at their largest and about borders", |report| {
        lists::built(report, list);
    });
    report.part("questions at every bound and about borders", |report| {
        questions::built(report, when_read);
    });
}

/// What the dice decide.
fn round(report: &mut Report, dice: &mut Dice) {
    report.part("random calls", |report| {
        calls::random_calls(report, entry, dice, 5_000);
    });
    report.part("calls that pages in fetch decide", |report| {
        calls::on_the_link(report, entry, dice, 3_000);
    });
    report.part("runs that go on without a fetch", |report| {
        calls::rows(report, entry, dice, 2_000);
    });
    report.part("calls that the 1993 rule decides", |report| {
        calls::by_weight(report, entry, dice, 3_000);
    });
    report.part("calls at every bound", |report| {
        calls::bounds(report, entry, dice, 30);
    });
    report.part("runs of 16,384 turns", |report| {
        calls::long_runs(report, entry, dice);
    });
    report.part("every byte damaged", |report| {
        damage::every_byte(report, entry, dice);
    });
    report.part("random bytes, wrong lengths", |report| {
        damage::noise(report, entry, dice, 3_000);
        damage::lengths(report, entry, dice);
    });
    report.part("last pages, marks, rules, E and R in images", |report| {
        fields::changed(report, entry, dice, 18_000);
    });
    report.part("Restore and Save, images of each length", |report| {
        older::every_byte(report, probe, dice);
        older::probed(report, probe, dice, 15_000);
    });
    report.part("older images upgraded", |report| {
        older::upgraded(report, upgrade_image, entry, dice, 10_000);
    });
    report.part("first images, and Setup by itself", |report| {
        first_images(report, first_image, entry, dice, 10_000);
        first_images_by_rule(report, first_image_by_rule, entry, dice, 10_000);
        setups(report, setup, dice, 10_000);
    });
    lent(report, dice);
    report.part("fewest fetches of any schedule", |report| {
        let with_evictions = fewest::fewest(report, entry, dice, INSTANCES);
        println!("{with_evictions} of {INSTANCES} small instances had evictions");
    });
}

/// The calls that write into a lent list.
fn lent(report: &mut Report, dice: &mut Dice) {
    report.part("lists and what they report", |report| {
        lists::random(report, list, dice, 15_000);
    });
    report.part("lists beside Steals", |report| {
        weights::by_steals(report, list, entry, dice, 6_000);
    });
    report.part("questions and the words read", |report| {
        questions::random(report, when_read, dice, 15_000);
    });
}
