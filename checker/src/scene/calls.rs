//! Random calls, and calls with every number at and past its bounds.

use crate::call::Call;
use crate::limits::{FILES, INTERVAL, MOST_TURNS, PACE, SLOTS};
use crate::model::{Page, Reader, State};
use crate::random::Dice;

/// Numbers at, beside and far past the bounds of slots, files, pages, paces, turns
/// and intervals, and at the widths at which a careless cast would cut them.
#[rustfmt::skip]
const EDGES: [u64; 41] = [
    0, 1, 2, 6, 7, 8, 9, 14, 15, 16, 17, 63, 64, 65, 127, 128, 255, 256, 257,
    999, 1_000, 1_001, 1_023, 1_024, 1_025, 16_383, 16_384, 16_385,
    65_535, 65_536, 65_537, 999_999, 1_000_000, 1_000_001, u32::MAX as u64, 1 << 32, (1 << 32) + 1,
    1 << 63, (1 << 63) + 1, u64::MAX - 1, u64::MAX,
];

/// What a number of 64 bits may be cut to by mistake: adding one of these must
/// not go unseen.
const PAST_A_CUT: [u64; 5] = [1 << 8, 1 << 16, 1 << 32, 1 << 48, 1 << 63];

/// Any call, mostly one that the state does not refuse.
pub fn any_call(dice: &mut Dice, state: &State) -> Call {
    let slot = usual_slot(dice, state);
    let Page { file, number } = usual_page(dice, state);
    match dice.below(27) {
        0..=1 => usual_attach(dice, state, file),
        2 => Call::Detach {
            slot: seldom_wild(dice, slot),
        },
        3..=9 => Call::Read {
            slot: seldom_wild(dice, slot),
        },
        10..=14 => Call::Arrive {
            file: seldom_wild(dice, file),
            page: seldom_wild(dice, number),
        },
        15 => Call::Lost {
            file: seldom_wild(dice, file),
            page: seldom_wild(dice, number),
        },
        16..=18 => Call::Prefetch,
        19..=20 => Call::Steal,
        21..=23 => usual_measure(dice, state, slot),
        _ => Call::Run {
            turns: usual_turns(dice, state),
        },
    }
}

/// Every call with each of its numbers at every edge, the others usual.
pub fn calls_at_bounds(dice: &mut Dice, state: &State) -> Vec<Call> {
    let mut calls = vec![Call::Prefetch, Call::Steal];
    for edge in EDGES {
        let Page { file, number: page } = usual_page(dice, state);
        calls.extend(attaches_at(dice, state, file, edge));
        calls.push(Call::Detach { slot: edge });
        calls.push(Call::Read { slot: edge });
        calls.push(Call::Arrive { file: edge, page });
        calls.push(Call::Arrive { file, page: edge });
        calls.push(Call::Lost { file: edge, page });
        calls.push(Call::Lost { file, page: edge });
        calls.push(Call::Run { turns: edge });
        calls.extend(measures_at(dice, state, edge));
    }
    calls
}

/// Measure of a slot, mostly one that is not refused.
fn usual_measure(dice: &mut Dice, state: &State, slot: u64) -> Call {
    let pages = state.readers.get(&slot).map_or(0, Reader::since_mark);
    let (interval, blocked) = usual_interval(dice, pages);
    Call::Measure {
        slot: seldom_wild(dice, slot),
        interval: seldom_wild(dice, interval),
        blocked: seldom_wild(dice, blocked),
    }
}

/// Measure with each of its numbers at this edge; with both numbers of ticks at
/// it, and with one tick more blocked than there are.
fn measures_at(dice: &mut Dice, state: &State, edge: u64) -> [Call; 5] {
    let slot = usual_slot(dice, state);
    let pages = state.readers.get(&slot).map_or(0, Reader::since_mark);
    let (interval, blocked) = usual_interval(dice, pages);
    let measures = [
        [edge, interval, blocked],
        [slot, edge, blocked],
        [slot, interval, edge],
        [slot, edge, edge],
        [slot, edge, edge.saturating_add(1)],
    ];
    measures.map(|[slot, interval, blocked]| Call::Measure {
        slot,
        interval,
        blocked,
    })
}

/// Attach to a file, mostly one that is not refused.
fn usual_attach(dice: &mut Dice, state: &State, file: u64) -> Call {
    let slot = match dice.below(2) {
        0 => dice.below(SLOTS),
        _ => usual_slot(dice, state),
    };
    let (start, last) = usual_start_and_last(dice, state.size(file));
    Call::Attach {
        slot: seldom_wild(dice, slot),
        file: seldom_wild(dice, file),
        pace: usual_pace(dice),
        start: seldom_wild(dice, start),
        last: seldom_wild(dice, last),
    }
}

/// Attach with each of its numbers at this edge.
fn attaches_at(dice: &mut Dice, state: &State, file: u64, edge: u64) -> [Call; 5] {
    let slot = usual_slot(dice, state);
    let pace = usual_pace(dice);
    let (start, last) = usual_start_and_last(dice, state.size(file));
    let attach = |numbers: [u64; 5]| {
        let [slot, file, pace, start, last] = numbers;
        Call::Attach {
            slot,
            file,
            pace,
            start,
            last,
        }
    };
    std::array::from_fn(|at| {
        let mut numbers = [slot, file, pace, start, last];
        numbers[at] = edge;
        attach(numbers)
    })
}

/// The number itself, or now and then another in its place.
pub(super) fn seldom_wild(dice: &mut Dice, usual: u64) -> u64 {
    match dice.below(24) {
        0 => dice.pick(&EDGES),
        1 => usual.wrapping_add(dice.pick(&PAST_A_CUT)),
        _ => usual,
    }
}

/// A slot, mostly one that holds a reader.
fn usual_slot(dice: &mut Dice, state: &State) -> u64 {
    let held: Vec<u64> = state.readers.keys().copied().collect();
    if held.is_empty() || dice.once_in(6) {
        dice.below(SLOTS)
    } else {
        dice.pick(&held)
    }
}

/// A page, mostly one in fetch; else about the pages of a file, mostly one that
/// there is.
pub(super) fn usual_page(dice: &mut Dice, state: &State) -> Page {
    let open = state.in_fetch.len() as u64;
    if open > 0 && !dice.once_in(6) {
        let nth = dice.below(open) as usize;
        return *state.in_fetch.iter().nth(nth).unwrap();
    }
    let files = state.files();
    let file = if files.is_empty() || dice.once_in(6) {
        dice.below(FILES)
    } else {
        dice.pick(&files)
    };
    let size = state.size(file);
    let number = match dice.below(4) {
        0 => dice.pick(&[0, size, size + 1]),
        _ => dice.between(0, size),
    };
    Page { file, number }
}

fn usual_pace(dice: &mut Dice) -> u64 {
    match dice.below(4) {
        0 => dice.pick(&[0, 1, 1_000, 1_001, u64::MAX]),
        _ => {
            let pace = dice.between(*PACE.start(), *PACE.end());
            seldom_wild(dice, pace)
        }
    }
}

/// An interval and the ticks blocked in it, mostly in range: what is left makes a
/// pace at its bounds, beside or between them for so many pages; or interval and
/// blocked ticks are at their own bounds.
fn usual_interval(dice: &mut Dice, pages: u64) -> (u64, u64) {
    let any = dice.between(*INTERVAL.start(), *INTERVAL.end());
    match dice.below(10) {
        0 => (dice.pick(&[0, 1, 1_000_000, 1_000_001]), 0),
        1 => {
            let ticks = dice.pick(&[0, 1, any, 1_000_000, 1_000_001]);
            (ticks, ticks)
        }
        2 => (any, any + 1),
        3 => (any, dice.between(0, any)),
        _ => {
            let usual = dice.between(0, 1_100);
            let pace = dice.pick(&[0, 1, 999, 1_000, 1_001, usual, usual, usual]);
            let left = pace * pages + dice.below(pages.max(1)) * dice.below(2);
            let blocked = dice.pick(&[0, 1, 400, usual]);
            (left + blocked, blocked)
        }
    }
}

/// A start and a last page for a file of this size, mostly in it: both at and
/// past their bounds too.
fn usual_start_and_last(dice: &mut Dice, size: u64) -> (u64, u64) {
    let last = match dice.below(8) {
        0..=2 => size,
        3 => dice.pick(&[0, 0, 1, size + 1, size + 256, size + 65_536]),
        _ => dice.between(size.min(1), size),
    };
    let start = match dice.below(8) {
        0..=2 => 0,
        3 => last,
        4 => last + dice.pick(&[1, 256, 65_536]),
        _ => dice.between(0, last),
    };
    (start, last)
}

/// Turns, or a refused number of them. What the model would take long for is
/// cut short here; long runs have a trial of their own.
pub(super) fn usual_turns(dice: &mut Dice, state: &State) -> u64 {
    let turns = match dice.below(6) {
        0 => dice.pick(&EDGES),
        1 => dice.pick(&[0, 1, 15, 16, 17, 32]),
        _ => dice.below(400),
    };
    cut_short(state, turns)
}

/// Any call that has a line, as this line.
pub(super) fn any_line(dice: &mut Dice, state: &State) -> String {
    line_of(|| any_call(dice, state))
}

/// Any one of the calls at bounds that has a line, a Run cut short.
pub(super) fn any_line_at_bounds(dice: &mut Dice, state: &State) -> String {
    let calls = calls_at_bounds(dice, state);
    line_of(|| match dice.pick(&calls) {
        Call::Run { turns } => Call::Run {
            turns: cut_short(state, turns),
        },
        call => call,
    })
}

/// The line of the first call that has one.
fn line_of(mut any: impl FnMut() -> Call) -> String {
    loop {
        if let Some(line) = any().line() {
            return line;
        }
    }
}

fn cut_short(state: &State, turns: u64) -> u64 {
    if turns > MOST_TURNS {
        turns
    } else {
        turns.min(affordable_turns(state))
    }
}

/// How many turns the model works off in little time, if each met a fetch that
/// must steal: the work of one is the pages that its steal order looks at.
fn affordable_turns(state: &State) -> u64 {
    let looked_at = state.readers.values().map(|reader| {
        let reach = state.look_ahead / reader.pace;
        reach.min(reader.last - reader.position)
    });
    40_000 / (looked_at.sum::<u64>() + state.cached.len() as u64 + 1) + 1
}
