//! Holds the program `quay` to the model on streams of lines.
//!
//!     QUAY_PROGRAM=path cargo run --release --bin streams
//!     ... -- --seed 7 --rounds 20
//!
//! One round is the default run; more rounds go on with the same dice. The last
//! line is `streams: N passed, 0 failed`, or the exit status is not 0.

use checker::cases::{CASES, LINK_CASES, LIST_LINK_CASES};
use checker::feed::Feed;
use checker::process::Process;
use checker::random::Dice;
use checker::trial::{named, seed_and_rounds, soundings, streams, Report};
use std::process::ExitCode;

fn main() -> ExitCode {
    let Some((seed, rounds)) = seed_and_rounds() else {
        eprintln!("usage: streams [--seed N] [--rounds N]");
        return ExitCode::from(2);
    };
    let Some(process) = Process::from_environment() else {
        eprintln!("streams: QUAY_PROGRAM must name the program");
        return ExitCode::from(2);
    };
    println!(
        "streams: seed {seed}, rounds {rounds}, {}",
        process.path().display()
    );
    let mut report = Report::default();
    let mut dice = Dice::new(seed);
    fixed(&mut report, &process);
    for _ in 0..rounds {
        round(&mut report, &process, &mut dice);
    }
    let outcomes = [streams::LINE_OUTCOMES, CASES, LINK_CASES, LIST_LINK_CASES].concat();
    report.close("streams", "lines", &outcomes)
}

/// What is the same for every seed.
fn fixed(report: &mut Report, process: &Process) {
    let program = &|feed: &Feed| process.output(feed);
    report.part("the paper's listing", |report| {
        let whole = |input: &[u8]| match process.output(&Feed::whole(input)) {
            Ok(output) => output,
            Err(fault) => fault.into_bytes(),
        };
        soundings::listing(report, whole);
    });
    report.part("trials by name", |report| {
        for trial in named::all() {
            trial.by_program(report, program);
        }
    });
    report.part("no line, and empty lines", |report| {
        streams::nothing(report, program);
    });
    report.part("a line across every border", |report| {
        streams::at_borders(report, program);
    });
    report.part("long lists", |report| {
        streams::long_lists(report, program);
    });
    report.part("input that cannot be read", |report| {
        streams::unreadable(report, process);
    });
    report.part("output that cannot be written", |report| {
        streams::unwritable(report, process);
    });
}

/// What the dice decide.
fn round(report: &mut Report, process: &Process, dice: &mut Dice) {
    let program = &|feed: &Feed| process.output(feed);
    report.part("random streams", |report| {
        streams::random_streams(report, program, dice, 500);
    });
    report.part("lines that pages in fetch decide", |report| {
        streams::on_the_link(report, program, dice, 1_000);
    });
    report.part("cut at every place", |report| {
        streams::cut_everywhere(report, program, dice, 8);
    });
    report.part("long lines", |report| {
        streams::long_lines(report, program, dice);
    });
    report.part("megabytes in one write", |report| {
        streams::megabytes(report, program, dice);
    });
    report.part("explain's orders", |report| {
        streams::explained(report, program, dice, 1_000);
    });
}
