//! Swift where it goes ways of its own, beside quick, and beside the model where that is soon
//! done: heads of both orders, and Runs of every length. Equal numbers and equal images.

use checker::call::{Call, Entry};
use checker::limits::MOST_TURNS;
use checker::model::{self, Page, Reader, Rule, State};
use checker::random::Dice;
use checker::scene::{any_state, link_state, long_run_state, weigh, weight_state};
use checker::{quick, swift};

const BOTH: [Entry; 2] = [quick::entry, swift::entry];

fn by_model(image: &mut [u8], call: Call) -> u64 {
    let (number, after) = model::entry(image, call);
    image.copy_from_slice(&after);
    number
}

/// Makes a call on an image by each entry. Returns the number and the image.
fn same(entries: &[Entry], image: &[u8], call: Call) -> (u64, Vec<u8>) {
    let mut all = entries.iter().map(|entry| {
        let mut image = image.to_vec();
        (entry(&mut image, call), image)
    });
    let first = all.next().unwrap();
    for other in all {
        let state = || State::of_image(image);
        assert_eq!(other.0, first.0, "{call:?}, {:?}", state());
        assert!(other.1 == first.1, "other bytes: {call:?}, {:?}", state());
    }
    first
}

/// A state without a page in fetch: readers of one pace or of many, with last pages of
/// their own or not, close together or apart; few frames or many, all taken or not.
fn run_state(dice: &mut Dice) -> State {
    let mut state = State::idle();
    weigh(dice, &mut state);
    state.turn = dice.below(16);
    state.frames = dice.pick(&[1, 2, 3, 8, 16, 64, 200, 1_024]);
    let files = dice.pick(&[1, 1, 2, 3, 8]);
    let pages = dice.pick(&[1, 5, 30, 64, 130, 300, 1_024]);
    state.sizes[..files].fill(pages);
    let one_pace = dice.pick(&[1, 3, 10, 1_000]);
    let paces = dice.pick(&[[one_pace; 4], [1, 2, 5, 40], [7, 7, 8, 11]]);
    state.look_ahead = match dice.below(4) {
        0 => dice.between(1, 40),
        1 => one_pace * dice.between(1, 100),
        2 => 10_240,
        _ => 2_000_000,
    };
    state.fetch_time = dice.pick(&[0, 0, 1, 7, 50, 100, state.look_ahead, 1_000_000]);
    let (whole, spread) = (dice.once_in(2), dice.pick(&[1, 4, 60, pages]));
    for _ in 0..dice.pick(&[1, 2, 4, 16, 40]) {
        let last = match whole {
            true => pages,
            false => dice.between(1, pages),
        };
        let position = dice.below(spread + 1).min(last);
        let file = dice.below(files as u64);
        let reader = Reader::running(file, dice.pick(&paces), position, last);
        state.readers.insert(dice.below(16), reader);
    }
    cache_some(dice, &mut state, files as u64, pages);
    state
}

/// Caches single pages or stretches, up to all frames.
fn cache_some(dice: &mut Dice, state: &mut State, files: u64, pages: u64) {
    let most = dice.pick(&[0, state.frames / 2, state.frames, state.frames]);
    let stretch = dice.pick(&[1, 3, 100, 1_024]);
    for _ in 0..2 * most / stretch + 1 {
        let (file, first) = (dice.below(files), dice.between(1, pages));
        for number in first..=pages.min(first + stretch - 1) {
            if (state.cached.len() as u64) < most {
                state.cached.insert(Page { file, number });
            }
        }
    }
}

fn any_turns(dice: &mut Dice, most: u64) -> u64 {
    match dice.below(4) {
        0 => dice.below(most.min(40) + 1),
        1 => most,
        _ => dice.between(0, most),
    }
}

/// Pages at the same place of every sixty-four, or side by side: as many as the frames, one
/// more and one fewer; and all that there are.
#[test]
fn every_cached_page_is_counted() {
    let entries = [by_model, quick::entry, swift::entry];
    let mut state = State::idle();
    state.sizes = [1_024; 8];
    let columns = |apart| move |nth: u64| Page::of_key(nth % 128 * 64 + nth / 128 * apart);
    for apart in [1, 7, 8] {
        for pages in [1, 127, 128, 129, 512, 1_000, 1_023, 1_024, 1_025] {
            state.cached = (0..pages).map(columns(apart)).collect();
            count_by(&entries, &mut state);
            state.cached = (0..pages).map(|nth| Page::of_key(8_191 - nth)).collect();
            count_by(&entries, &mut state);
        }
    }
    state.cached = (0..8_192).map(Page::of_key).collect();
    count_by(&entries, &mut state);
}

fn count_by(entries: &[Entry], state: &mut State) {
    let pages = state.cached.len() as u64;
    for frames in [pages - 1, pages, pages + 1, 1_024] {
        for rule in [Rule::Of1989, Rule::Of1993] {
            state.frames = frames.clamp(1, 1_024);
            state.rule = rule;
            let (number, _) = same(entries, &state.image(), Call::Lost { file: 0, page: 1 });
            let fits = pages <= state.frames;
            assert_eq!(number, if fits { 9 } else { 13 });
        }
    }
}

#[test]
fn heads_one_after_the_other() {
    let mut dice = Dice::new(74);
    for nth in 0..4_000 {
        let state = match nth % 4 {
            0 => any_state(&mut dice),
            1 => link_state(&mut dice),
            2 => weight_state(&mut dice),
            _ => run_state(&mut dice),
        };
        let mut image = state.image();
        for _ in 0..12 {
            (_, image) = same(&BOTH, &image, Call::Prefetch);
        }
        for &Page { file, number: page } in state.in_fetch.iter().take(20) {
            (_, image) = same(&BOTH, &image, Call::Arrive { file, page });
        }
        for _ in 0..dice.pick(&[3, 30]) {
            (_, image) = same(&BOTH, &image, Call::Steal);
        }
    }
}

#[test]
fn short_runs_by_all_three() {
    let mut dice = Dice::new(71);
    for _ in 0..3_000 {
        let state = run_state(&mut dice);
        let looked_at = state.readers.len() as u64 * 100 + state.cached.len() as u64;
        let turns = any_turns(&mut dice, 40_000 / looked_at);
        let mut image = state.image();
        for _ in 0..2 {
            let entries = [by_model, quick::entry, swift::entry];
            (_, image) = same(&entries, &image, Call::Run { turns });
        }
    }
}

#[test]
fn long_runs() {
    let mut dice = Dice::new(72);
    let (mut fetching, mut hits_alone) = (0, 0);
    for _ in 0..2_000 {
        let mut state = run_state(&mut dice);
        for rule in [Rule::Of1989, Rule::Of1993] {
            state.rule = rule;
            let turns = any_turns(&mut dice, MOST_TURNS);
            let (number, _) = same(&BOTH, &state.image(), Call::Run { turns });
            match (number >> 16 & 0xFFFF, number & 0xFFFF) {
                (0, 1..) => hits_alone += 1,
                (64.., _) => fetching += 1,
                _ => {}
            }
        }
    }
    println!("{fetching} with 64 fetches or more, {hits_alone} with hits alone");
    assert!(fetching > 500 && hits_alone > 200);
}

#[test]
fn every_number_of_turns() {
    let mut dice = Dice::new(73);
    for _ in 0..40 {
        let image = run_state(&mut dice).image();
        for turns in (0..70).chain([MOST_TURNS - 1, MOST_TURNS, MOST_TURNS + 1, u64::MAX]) {
            same(&BOTH, &image, Call::Run { turns });
        }
    }
    for _ in 0..300 {
        let image = any_state(&mut dice).image();
        let turns = any_turns(&mut dice, 2_000);
        same(&BOTH, &image, Call::Run { turns });
    }
    let image = long_run_state(&mut dice, 64, 20).image();
    same(&BOTH, &image, Call::Run { turns: MOST_TURNS });
}
