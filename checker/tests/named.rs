//! The trials by name: the model passes them, and quick and swift do.

use checker::call::Entry;
use checker::feed::Feed;
use checker::model::run_program;
use checker::trial::{named, Report};
use checker::{quick, swift};

#[test]
fn calls_have_the_answers_of_the_paper() {
    let mut report = Report::default();
    for trial in named::all() {
        for entry in [quick::entry as Entry, swift::entry] {
            trial.by_entry(&mut report, entry);
        }
    }
    assert_eq!(report.failed(), 0);
}

#[test]
fn lines_have_the_answers_of_the_paper() {
    let mut report = Report::default();
    for trial in named::all() {
        trial.by_program(&mut report, &|feed: &Feed| {
            Ok(run_program(&feed.pieces.concat()))
        });
    }
    assert_eq!(report.failed(), 0);
}
