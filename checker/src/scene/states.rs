//! Random valid states. Bounds are met far more often than by even odds.

use super::weights::{weigh, weight_state};
use crate::limits::{FETCH_TIME, FILES, LOOK_AHEAD, SLOTS};
use crate::model::{Page, Reader, State};
use crate::random::Dice;

const EDGE_SIZES: [u64; 6] = [1, 63, 64, 65, 1_023, 1_024];
const EDGE_FRAMES: [u64; 9] = [1, 2, 3, 63, 64, 65, 500, 1_023, 1_024];
const EDGE_PACES: [u64; 8] = [1, 2, 3, 10, 100, 333, 999, 1_000];

/// A state that Restore accepts, under either rule.
pub fn any_state(dice: &mut Dice) -> State {
    let mut state = match dice.below(12) {
        0..=1 => link_state(dice),
        2 => return weight_state(dice),
        _ => usual_state(dice),
    };
    weigh(dice, &mut state);
    state
}

fn usual_state(dice: &mut Dice) -> State {
    let mut state = State::idle();
    state.frames = match dice.below(3) {
        0 => dice.between(1, 1_024),
        1 => dice.between(1, 12),
        _ => dice.pick(&EDGE_FRAMES),
    };
    state.turn = dice.below(SLOTS);
    choose_sizes(dice, &mut state);
    let pace = any_pace(dice);
    choose_ticks(dice, &mut state, pace);
    seat_readers(dice, &mut state, pace);
    fill_cache(dice, &mut state);
    open_fetches(dice, &mut state);
    let_some_wait(dice, &mut state);
    state
}

/// A state in which pages in fetch may decide: fetches take time, every frame is taken
/// by a page ahead of some reader, and of those between some are in fetch and some
/// neither. Now and then no fetch is open, as before a Run. The rule is that of 1989.
pub fn link_state(dice: &mut Dice) -> State {
    let mut state = State::idle();
    state.turn = dice.below(SLOTS);
    let pace = dice.between(2, 30);
    state.look_ahead = pace * dice.between(6, 40);
    state.fetch_time = dice.between(1, 3 * pace);
    for size in &mut state.sizes[..dice.pick(&[1, 2, 3])] {
        *size = dice.between(10, 90);
    }
    let files = state.files();
    for _ in 0..dice.between(1, 4) {
        let file = dice.pick(&files);
        let size = state.size(file);
        let position = dice.below(size / 2);
        let reader = Reader::running(file, dice.between(1, 2 * pace), position, size);
        state.readers.insert(dice.below(SLOTS), reader);
    }
    place_ahead(dice, &mut state);
    state.frames = (state.cached.len() as u64).max(1);
    if dice.once_in(3) {
        state.in_fetch.clear();
    }
    let_some_wait(dice, &mut state);
    state
}

/// Of some pages ahead of each reader, caches some and puts others in fetch.
fn place_ahead(dice: &mut Dice, state: &mut State) {
    for reader in state.readers.clone().into_values() {
        let far = dice.between(2, 24).min(reader.last - reader.position);
        for ahead in 0..far {
            let mut page = reader.next_page();
            page.number += ahead;
            match dice.below(9) {
                0..=3 if !state.in_fetch.contains(&page) => _ = state.cached.insert(page),
                4..=6 if !state.cached.contains(&page) => _ = state.in_fetch.insert(page),
                _ => {}
            }
        }
    }
}

/// A state from which Run has long work to do: sixteen readers on full files.
/// No page is in fetch; `frames` and the pages of look-ahead are given.
pub fn long_run_state(dice: &mut Dice, frames: u64, reach: u64) -> State {
    let mut state = State::idle();
    weigh(dice, &mut state);
    let pace = any_pace(dice);
    state.frames = frames;
    state.look_ahead = reach * pace;
    state.fetch_time = dice.pick(&[0, 0, pace, 3 * pace]);
    state.sizes = [1_024; FILES as usize];
    for slot in 0..SLOTS {
        let last = dice.pick(&[1_024, 1_024, 700]);
        let reader = Reader::running(dice.below(FILES), pace, dice.below(40), last);
        state.readers.insert(slot, reader);
    }
    fill_cache(dice, &mut state);
    state
}

/// A state from which a Run goes on without a fetch for long: of some files nearly every
/// page is cached, and readers are about in them, some with a last page of their own. No
/// page is in fetch.
pub fn row_state(dice: &mut Dice) -> State {
    let mut state = State::idle();
    weigh(dice, &mut state);
    state.turn = dice.below(SLOTS);
    let pace = any_pace(dice);
    state.look_ahead = pace * dice.between(1, 60);
    state.fetch_time = dice.pick(&[0, 0, 1, pace]);
    for size in &mut state.sizes[..dice.pick(&[1, 2, 4])] {
        *size = dice.between(20, 200);
    }
    for _ in 0..dice.between(1, 20) {
        let file = dice.pick(&state.files());
        let last = dice.between(1, state.size(file));
        let position = dice.below(last + 1) / dice.pick(&[1, 4]);
        let reader = Reader::running(file, pace, position, last);
        state.readers.insert(dice.below(SLOTS), reader);
    }
    let one_missing_in = dice.pick(&[8, 60, 400]);
    for file in state.files() {
        let pages = (1..=state.size(file)).map(|number| Page { file, number });
        state
            .cached
            .extend(pages.filter(|_| !dice.once_in(one_missing_in)));
    }
    state.frames = (state.cached.len() as u64 + dice.below(2)).max(1);
    state
}

/// Sizes for some files; the others keep 0. Seldom there is no file at all.
fn choose_sizes(dice: &mut Dice, state: &mut State) {
    let small = dice.once_in(3);
    let tries = match dice.below(50) {
        0 => 0,
        _ => dice.pick(&[1, 1, 2, 3, 8, 30]),
    };
    for _ in 0..tries {
        let file = dice.below(FILES) as usize;
        state.sizes[file] = match dice.below(3) {
            _ if small => dice.between(1, 20),
            0 => dice.between(1, 1_024),
            _ => dice.pick(&EDGE_SIZES),
        };
    }
}

fn any_pace(dice: &mut Dice) -> u64 {
    match dice.below(3) {
        0 => dice.between(1, 1_000),
        _ => dice.pick(&EDGE_PACES),
    }
}

/// L and T: at their bounds, at whole numbers of pages or fetches and one tick
/// beside them, and anywhere.
fn choose_ticks(dice: &mut Dice, state: &mut State, pace: u64) {
    let l = match dice.below(8) {
        0 => 1,
        1 => dice.pick(&[1_999_999, 2_000_000]),
        2 => dice.between(1, 2_000_000),
        3 => pace * 1_024,
        _ => pace * dice.between(1, 60) + dice.below(3) - 1,
    };
    state.look_ahead = l.clamp(*LOOK_AHEAD.start(), *LOOK_AHEAD.end());
    let l = state.look_ahead;
    let t = match dice.below(10) {
        0..=2 => 0,
        3 => dice.pick(&[1, 1_999_999, 2_000_000]),
        4 => dice.pick(&[l - 1, l, l + 1]),
        5 => dice.between(0, 2_000_000),
        6..=7 => dice.between(1, 3 * pace),
        _ => l / dice.between(1, 30) + dice.below(2),
    };
    state.fetch_time = t.min(*FETCH_TIME.end());
}

fn seat_readers(dice: &mut Dice, state: &mut State, one_pace: u64) {
    let files = state.files();
    if files.is_empty() {
        return;
    }
    let paces_differ = dice.once_in(2);
    let close_together = dice.once_in(2);
    for _ in 0..dice.pick(&[0, 1, 2, 3, 5, 8, 16, 40]) {
        let file = dice.pick(&files);
        let size = state.size(file);
        let last = any_last_page(dice, size);
        let position = match dice.below(12) {
            0 => 0,
            1 => last,
            2 => last - 1,
            _ if close_together => (size / 3 + dice.below(9)).min(last),
            _ => dice.between(0, last),
        };
        let pace = match paces_differ {
            true => any_pace(dice),
            false => one_pace,
        };
        let mut reader = Reader::running(file, pace, position, last);
        reader.mark = any_mark(dice, position);
        state.readers.insert(dice.below(SLOTS), reader);
    }
}

/// A mark: at the position, some pages before it, or anywhere from 0 on.
fn any_mark(dice: &mut Dice, position: u64) -> u64 {
    match dice.below(6) {
        0..=1 => position,
        2 => 0,
        3 => position.saturating_sub(dice.between(1, 20)),
        _ => dice.between(0, position),
    }
}

/// A last page: often the file's, else within it.
fn any_last_page(dice: &mut Dice, size: u64) -> u64 {
    match dice.below(8) {
        0..=3 => size,
        4 => dice.pick(&[1, size.div_ceil(2), size - size / 9]),
        5 => (size / 3 + dice.between(1, 20)).min(size),
        _ => dice.between(1, size),
    }
}

/// Caches pages in stretches of one length, all over or ahead of the readers.
fn fill_cache(dice: &mut Dice, state: &mut State) {
    let files = state.files();
    if files.is_empty() {
        return;
    }
    let frames = state.frames;
    let wanted = dice.pick(&[0, 1, frames / 2, frames - 1, frames, frames, frames, frames]);
    let stretch = dice.pick(&[1, 1, 2, 5, 64, 200, 1_024]);
    let readers: Vec<Reader> = state.readers.values().copied().collect();
    let near_readers = !readers.is_empty() && dice.once_in(2);
    for _ in 0..2 * wanted {
        let start = if near_readers {
            let mut page = dice.pick(&readers).next_page();
            page.number += dice.pick(&[0, 0, 1, 2]) + dice.below(20);
            page
        } else {
            let file = dice.pick(&files);
            let number = dice.between(1, state.size(file));
            Page { file, number }
        };
        let last = state.size(start.file).min(start.number + stretch - 1);
        for number in start.number..=last {
            if state.cached.len() as u64 >= wanted {
                return;
            }
            state.cached.insert(Page { number, ..start });
        }
    }
}

/// Puts pages in fetch that are not cached: none, those that readers come to
/// next, some anywhere, every page of some file, or some ahead of the readers, as many
/// prefetches leave them.
fn open_fetches(dice: &mut Dice, state: &mut State) {
    let files = state.files();
    if files.is_empty() {
        return;
    }
    let kind = dice.below(10); // none for 0 to 2
    let mut pages = Vec::new();
    if kind == 3 || kind == 4 {
        let next_pages = state.readers.values().map(Reader::next_page);
        pages.extend(next_pages.filter(|_| dice.once_in(2)));
    }
    if kind == 4 || kind == 5 {
        for _ in 0..dice.between(1, 20) {
            let file = dice.pick(&files);
            let number = dice.between(1, state.size(file));
            pages.push(Page { file, number });
        }
    }
    if kind == 6 {
        for file in files.into_iter().filter(|_| dice.once_in(2)) {
            let numbers = 1..=state.size(file);
            pages.extend(numbers.map(|number| Page { file, number }));
        }
    }
    if kind >= 7 {
        pages.extend(pages_ahead(dice, state));
    }
    pages.retain(|page| page.number <= state.size(page.file) && !state.cached.contains(page));
    state.in_fetch.extend(pages);
}

/// Some pages ahead of each reader, in stretches of one length.
fn pages_ahead(dice: &mut Dice, state: &State) -> Vec<Page> {
    let stretch = dice.pick(&[1, 1, 2, 3, 10, 100]);
    let far = dice.pick(&[4, 12, 30, 100]);
    let mut pages = Vec::new();
    for reader in state.readers.values() {
        for _ in 0..dice.between(0, 6) {
            let mut page = reader.next_page();
            page.number += dice.below(far);
            pages.extend((0..stretch).map(|more| Page {
                number: page.number + more,
                ..page
            }));
        }
    }
    pages
}

pub(super) fn let_some_wait(dice: &mut Dice, state: &mut State) {
    for reader in state.readers.values_mut() {
        let may_wait = !reader.is_at_end() && state.in_fetch.contains(&reader.next_page());
        reader.waiting = may_wait && !dice.once_in(3);
    }
}
