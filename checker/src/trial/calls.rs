//! Random calls on valid states, calls at every bound, and long runs.

use super::{hold, Report};
use crate::call::{Call, Entry};
use crate::cases;
use crate::limits::{FILES, MOST_TURNS, SLOTS};
use crate::model::{Page, Rule, State};
use crate::random::Dice;
use crate::scene::{
    any_call, any_state, calls_at_bounds, link_state, long_run_state, row_state, weight_state,
};

/// Calls made one after the other from each random state.
const CALLS_PER_STATE: u64 = 30;

/// From each of so many random states a row of random calls.
pub fn random_calls(report: &mut Report, entry: Entry, dice: &mut Dice, states: u64) {
    for _ in 0..states {
        let mut image = any_state(dice).image();
        for _ in 0..CALLS_PER_STATE {
            let (state, _) = State::restore(&image);
            (_, image) = hold(report, entry, &image, any_call(dice, &state));
        }
    }
}

/// Calls that pages in fetch decide, on so many states: each head, each page in fetch
/// that arrives, and a short Run once all of them are lost.
pub fn on_the_link(report: &mut Report, entry: Entry, dice: &mut Dice, states: u64) {
    for _ in 0..states {
        let state = link_state(dice);
        let image = state.image();
        for call in [Call::Steal, Call::Prefetch] {
            hold(report, entry, &image, call);
        }
        let mut left = image.clone();
        for &Page { file, number: page } in &state.in_fetch {
            hold(report, entry, &image, Call::Arrive { file, page });
            (_, left) = hold(report, entry, &left, Call::Lost { file, page });
        }
        let turns = dice.between(1, 40);
        hold(report, entry, &left, Call::Run { turns });
    }
}

/// Runs that go on without a fetch for long, from so many states.
pub fn rows(report: &mut Report, entry: Entry, dice: &mut Dice, states: u64) {
    for _ in 0..states {
        let state = row_state(dice);
        let turns = dice.between(1, 900);
        for (name, case) in cases::rows(&state, turns) {
            report.note(name, case.to_string());
        }
        hold(report, entry, &state.image(), Call::Run { turns });
    }
}

/// Calls that the 1993 rule decides, on so many states: Steals until nothing is cached,
/// each page in fetch that arrives, and once all fetches are lost a short Run, before
/// an Attach to each file and after.
pub fn by_weight(report: &mut Report, entry: Entry, dice: &mut Dice, states: u64) {
    for _ in 0..states {
        let state = weight_state(dice);
        let image = state.image();
        let mut left = image.clone();
        for _ in 0..=state.cached.len() {
            (_, left) = hold(report, entry, &left, Call::Steal);
        }
        let mut left = image.clone();
        for &Page { file, number: page } in &state.in_fetch {
            hold(report, entry, &image, Call::Arrive { file, page });
            (_, left) = hold(report, entry, &left, Call::Lost { file, page });
        }
        let run = Call::Run {
            turns: dice.between(1, 64),
        };
        hold(report, entry, &left, run);
        for file in 0..FILES {
            let (slot, pace, start, last) = (dice.below(SLOTS), 10, 0, 1);
            let attach = Call::Attach {
                slot,
                file,
                pace,
                start,
                last,
            };
            (_, left) = hold(report, entry, &left, attach);
        }
        hold(report, entry, &left, run);
    }
}

/// On each of so many states every call at every bound. The states are ones
/// with few reads left, so that a Run of 16,384 turns is not long for the model.
pub fn bounds(report: &mut Report, entry: Entry, dice: &mut Dice, states: u64) {
    for _ in 0..states {
        let mut state = any_state(dice);
        while reads_left(&state) > 200 {
            state = any_state(dice);
        }
        let image = state.image();
        for call in calls_at_bounds(dice, &state) {
            hold(report, entry, &image, call);
        }
    }
}

fn reads_left(state: &State) -> u64 {
    let readers = state.readers.values();
    readers.map(|reader| reader.last - reader.position).sum()
}

/// Runs of 16,384 turns with sixteen readers on full files: narrow and wide
/// caches, short and longer look-aheads, under either rule.
pub fn long_runs(report: &mut Report, entry: Entry, dice: &mut Dice) {
    for (frames, reach) in [(1, 8), (64, 4), (64, 20), (300, 6)] {
        let mut state = long_run_state(dice, frames, reach);
        for rule in [Rule::Of1989, Rule::Of1993] {
            state.rule = rule;
            let run = Call::Run { turns: MOST_TURNS };
            hold(report, entry, &state.image(), run);
        }
    }
}
