//! Rules, expected readers and attaches of all kinds, and states in which they decide.

use super::states::let_some_wait;
use crate::limits::{FILES, SLOTS};
use crate::model::{Page, Reader, Rule, State};
use crate::random::Dice;

const EDGE_EXPECTED: [u64; 5] = [0, 1, 2, 999, 1_000];
const EDGE_ATTACHES: [u64; 8] = [0, 1, 999, 1_000, 1_001, 32_768, 65_534, 65_535];

/// Gives a state one of the two rules, and E and R of one kind.
pub fn weigh(dice: &mut Dice, state: &mut State) {
    state.rule = dice.pick(&[Rule::Of1989, Rule::Of1993]);
    let (kind, one) = (dice.below(6), dice.between(0, 1_000));
    for file in 0..FILES as usize {
        let expected = match kind {
            0 => 0,
            1 => one,
            2 => dice.between(0, 4),
            3 => dice.pick(&EDGE_EXPECTED),
            _ => dice.between(0, 1_000),
        };
        state.expected[file] = expected;
        state.attaches[file] = match dice.below(8) {
            0..=2 => 0,
            3 => dice.between(0, expected),
            4 => expected.saturating_sub(1),
            5 => expected + dice.below(2),
            6 => dice.pick(&EDGE_ATTACHES),
            _ => dice.between(0, 65_535),
        };
    }
}

/// A state under the 1993 rule in which shares may decide: small files, of one size or of
/// several, with few expected readers, and pages of most of them cached. Mostly all
/// frames are taken; now and then no fetch is open, as before a Run.
pub fn weight_state(dice: &mut Dice) -> State {
    let mut state = State::idle();
    state.rule = Rule::Of1993;
    state.turn = dice.below(SLOTS);
    state.look_ahead = match dice.below(3) {
        0 => 2_000,
        _ => 10 * dice.between(1, 8),
    };
    state.fetch_time = dice.pick(&[0, 0, 5, 20]);
    choose_files(dice, &mut state);
    seat_readers(dice, &mut state);
    cache_some(dice, &mut state);
    let taken = state.cached.len() as u64;
    state.frames = taken.max(1) + dice.pick(&[0, 0, 0, 1, 5, 40]);
    if !dice.once_in(3) {
        open_next_pages(dice, &mut state);
    }
    let_some_wait(dice, &mut state);
    state
}

fn choose_files(dice: &mut Dice, state: &mut State) {
    let (alike, size, most) = (dice.once_in(2), dice.between(2, 30), dice.pick(&[1, 3, 9]));
    for _ in 0..dice.between(2, 6) {
        let file = dice.below(FILES) as usize;
        state.sizes[file] = match alike {
            true => size,
            false => dice.between(1, 30),
        };
    }
    for file in 0..FILES as usize {
        state.expected[file] = match dice.below(4) {
            0 => most,
            _ => dice.between(0, most),
        };
        state.attaches[file] = match dice.below(20) {
            0..=4 => dice.between(0, most + 2),
            5 => dice.pick(&EDGE_ATTACHES),
            _ => 0,
        };
    }
}

fn seat_readers(dice: &mut Dice, state: &mut State) {
    let files = state.files();
    for _ in 0..dice.pick(&[0, 1, 2, 4, 6]) {
        let file = dice.pick(&files);
        let size = state.size(file);
        let position = dice.between(0, size);
        let reader = Reader::running(file, dice.pick(&[5, 10, 10, 60]), position, size);
        state.readers.insert(dice.below(SLOTS), reader);
    }
}

/// Caches some pages of each file, of one of them none.
fn cache_some(dice: &mut Dice, state: &mut State) {
    let left_out = dice.below(FILES);
    for file in state.files() {
        if file == left_out {
            continue;
        }
        for _ in 0..dice.between(0, 9) {
            let number = dice.between(1, state.size(file));
            state.cached.insert(Page { file, number });
        }
    }
}

/// Puts the next pages of readers in fetch that are not cached, and some others.
fn open_next_pages(dice: &mut Dice, state: &mut State) {
    let readers = state.readers.values().filter(|reader| !reader.is_at_end());
    let mut pages: Vec<Page> = readers.map(Reader::next_page).collect();
    for file in state.files() {
        let number = dice.between(1, state.size(file));
        pages.push(Page { file, number });
    }
    pages.retain(|page| !state.cached.contains(page));
    state.in_fetch.extend(pages);
}
