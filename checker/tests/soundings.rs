//! The model against the paper's twelve soundings and its listing, and a
//! look-ahead written once more, word for word.

use checker::call::Entry;
use checker::model::{run_program, Page, Reader, State};
use checker::random::Dice;
use checker::scene::any_state;
use checker::trial::{soundings, Report};
use checker::{quick, swift};

#[test]
fn model_meets_the_soundings() {
    let mut report = Report::default();
    soundings::by_model(&mut report);
    assert_eq!(report.failed(), 0);
}

#[test]
fn quick_and_swift_meet_the_heads_of_the_soundings() {
    let mut report = Report::default();
    for entry in [quick::entry as Entry, swift::entry] {
        soundings::by_entry(&mut report, entry);
    }
    assert_eq!(report.failed(), 0);
}

#[test]
fn program_meets_the_listing() {
    let mut report = Report::default();
    soundings::listing(&mut report, run_program);
    assert_eq!(report.failed(), 0);
}

/// The model walks a look-ahead with a running count. The paper counts the
/// pages from c + 1 to c + j − 1 anew for each j. The report is all their pages.
#[test]
fn look_ahead_is_the_definition() {
    let mut dice = Dice::new(1);
    for _ in 0..400 {
        let state = any_state(&mut dice);
        let mut pages = 0;
        for reader in state.readers.values() {
            let look_ahead = by_definition(&state, reader);
            pages += look_ahead.len() as u64;
            assert_eq!(state.look_ahead_of(reader), look_ahead);
        }
        assert_eq!(state.pages_tested(), pages);
    }
}

fn by_definition(state: &State, reader: &Reader) -> Vec<(Page, u64)> {
    let (c, w, file) = (reader.position, reader.pace, reader.file);
    let (l, t) = (state.look_ahead, state.fetch_time);
    let k = l / w;
    let q = |j| {
        let counts = |&number: &u64| {
            let page = Page { file, number };
            !state.cached.contains(&page) && !state.in_fetch.contains(&page)
        };
        (c + 1..=c + j - 1).filter(counts).count() as u64
    };
    (1..=k.min(reader.last))
        .filter(|j| c + j <= reader.last)
        .filter(|&j| !(t > 0 && q(j) >= l / t))
        .map(|j| {
            (
                Page {
                    file,
                    number: c + j,
                },
                j * w + q(j) * t,
            )
        })
        .collect()
}
