//! Steal list and Fetch list by themselves, with what making their order reports:
//! on images of any length and into lists of any length.

use super::{hold, older, walks, Outcomes, Report};
use crate::call::{Lister, Order};
use crate::cases::{by_1989, choices, CHOICES};
use crate::limits::{FILES, FILE_PAGES, SLOTS};
use crate::limits::{IMAGE_BYTES, MARKED_IMAGE_BYTES, OLDER_IMAGE_BYTES};
use crate::model::{self, Page, Reader, Rule, State};
use crate::random::Dice;
use crate::scene::{any_state, weight_state};
use std::collections::BTreeSet;

/// What must be met, by each of the two: its answers, lists and images; and, where
/// it was carried out, what its walks have met.
pub const LIST_OUTCOMES: &Outcomes = &[
    ("Steal list", ANSWERS),
    ("Steal list", walks::ENDS),
    ("Steal list", walks::WORDS),
    ("Steal list", walks::READERS),
    ("Steal list", walks::LINK),
    ("Steal list", LISTED),
    ("Steal list", CHOICES),
    ("Fetch list", ANSWERS),
    ("Fetch list", walks::ENDS),
    ("Fetch list", walks::WORDS),
    ("Fetch list", walks::READERS),
    ("Fetch list", walks::LINK),
];

#[rustfmt::skip]
const ANSWERS: &[&str] = &[
    "13", "12", "carried out",
    "2,274 bytes", "2,240 bytes", "2,208 bytes",
    "into just enough", "into more", "nothing into a list", "nothing into an empty list",
    "12, one too short", "12, far too short", "12, an empty list",
    "13, 2,274 bytes", "13, 2,240 bytes", "13, 2,208 bytes", "13, another length",
    "13, a list", "13, an empty list",
];

/// What the rule of a state makes of its list.
#[rustfmt::skip]
const LISTED: &[&str] = &[
    "under 1989", "under 1993", "another list by 1989", "counts held, another list",
    "a file comes back", "of all eight files", "1,024 keys by weight",
];

/// A list that is never too short: every page of every file.
const EVERY_PAGE: usize = (FILES * FILE_PAGES) as usize;

/// Both lists of so many random images, sound or not, each into a list of any
/// length that holds any numbers.
pub fn random(report: &mut Report, lister: Lister, dice: &mut Dice, images: u64) {
    for _ in 0..images {
        let image = any_image(dice);
        for order in Order::BOTH {
            let list = any_list(dice, order, &image);
            hold_list(report, lister, order, &image, &list);
        }
    }
}

/// Scenes that chance may miss: both lists of each, just long enough, longer and
/// one too short.
pub fn built(report: &mut Report, lister: Lister) {
    for state in largest().into_iter().chain(at_borders()) {
        hold_state(report, lister, &state);
    }
}

/// Both lists of a state.
pub(super) fn hold_state(report: &mut Report, lister: Lister, state: &State) {
    let image = state.image();
    for order in Order::BOTH {
        let count = state.order(order).len();
        for length in [count, count + 3, count.saturating_sub(1)] {
            hold_list(report, lister, order, &image, &vec![0x5A5A; length]);
        }
    }
}

/// The list of an order on an image: the number and all that is lent must be the
/// model's. Gives them.
pub(super) fn hold_list(
    report: &mut Report,
    lister: Lister,
    order: Order,
    image: &[u8],
    list: &[u16],
) -> (u64, Vec<u16>) {
    let expected = model::list(order, image, list);
    let act = |list: &mut [u16]| lister(order, image, list);
    hold::hold_list(report, list, &expected, act, || {
        let (name, room) = (order.name(), list.len());
        format!("{name} into {room} numbers, {}", hold::describe(image))
    });
    for case in met(order, image, list.len(), expected.0) {
        report.note(order.name(), case.to_string());
    }
    expected
}

/// What was answered, and what was met.
fn met(order: Order, image: &[u8], room: usize, number: u64) -> Vec<&'static str> {
    let (state, _) = State::restore(image);
    match number {
        13 => refused_13(image.len(), room),
        12 => refused_12(state.order(order).len(), room),
        _ => {
            let count = (number >> 16 & 0xFFFF) as usize;
            let mut met = carried_out(image.len(), count, room);
            met.extend(walks::met(&state, order));
            if order == Order::Steal {
                met.extend(listed(&state));
            }
            met
        }
    }
}

fn refused_13(image: usize, room: usize) -> Vec<&'static str> {
    let length = match image {
        IMAGE_BYTES => "13, 2,274 bytes",
        MARKED_IMAGE_BYTES => "13, 2,240 bytes",
        OLDER_IMAGE_BYTES => "13, 2,208 bytes",
        _ => "13, another length",
    };
    let lent = match room {
        0 => "13, an empty list",
        _ => "13, a list",
    };
    vec!["13", length, lent]
}

fn refused_12(count: usize, room: usize) -> Vec<&'static str> {
    let lent = match room {
        0 => "12, an empty list",
        _ if room + 1 == count => "12, one too short",
        _ => "12, far too short",
    };
    vec!["12", lent]
}

fn carried_out(image: usize, count: usize, room: usize) -> Vec<&'static str> {
    let length = match image {
        IMAGE_BYTES => "2,274 bytes",
        MARKED_IMAGE_BYTES => "2,240 bytes",
        _ => "2,208 bytes",
    };
    let lent = match room {
        0 => "nothing into an empty list",
        _ if count == 0 => "nothing into a list",
        _ if count == room => "into just enough",
        _ => "into more",
    };
    vec!["carried out", length, lent]
}

/// What the rule makes of a steal list.
fn listed(state: &State) -> Vec<&'static str> {
    if state.rule == Rule::Of1989 {
        return vec!["under 1989"];
    }
    let order = state.steal_order();
    let mut files: Vec<u64> = order.iter().map(|page| page.file).collect();
    files.dedup();
    let of_files: BTreeSet<u64> = files.iter().copied().collect();
    let comes_back = files.len() > of_files.len();
    let mut met = vec!["under 1993"];
    met.extend(choices(state));
    met.extend(walks::applying(&[
        (
            order != by_1989(state).steal_order(),
            "another list by 1989",
        ),
        (order != counts_held(state), "counts held, another list"),
        (comes_back, "a file comes back"),
        (of_files.len() == FILES as usize, "of all eight files"),
        (order.len() == 1_024, "1,024 keys by weight"),
    ]));
    met
}

/// The list if the counts of cached pages did not fall: all pages of one file, and then
/// of the next.
fn counts_held(state: &State) -> Vec<Page> {
    let mut left = by_1989(state).steal_order();
    let mut cached = state.cached_by_file();
    let mut order = Vec::new();
    while let Some(file) = state.file_to_give_up(cached) {
        cached[file as usize] = 0;
        order.extend(left.iter().filter(|page| page.file == file));
        left.retain(|page| page.file != file);
    }
    order
}

/// An image of any length that there is, mostly a sound one.
pub(super) fn any_image(dice: &mut Dice) -> Vec<u8> {
    match dice.below(8) {
        0 => older::any_image(dice),
        1 => {
            let state = any_state(dice);
            older::older_image(dice, &state)
        }
        2 => older::marked_image(&any_state(dice)),
        3 => weight_state(dice).image(),
        _ => any_state(dice).image(),
    }
}

/// A list for an order on an image, mostly long enough, with any numbers in it.
fn any_list(dice: &mut Dice, order: Order, image: &[u8]) -> Vec<u16> {
    let count = match State::of_image(image) {
        Ok(state) => state.order(order).len(),
        Err(_) => dice.below(40) as usize,
    };
    let length = match dice.below(10) {
        0..=3 => count,
        4..=5 => count + dice.between(1, 40) as usize,
        6 => EVERY_PAGE,
        7 => count.saturating_sub(1),
        8 => dice.between(0, count as u64) as usize,
        _ => 0,
    };
    (0..length).map(|_| dice.bits() as u16).collect()
}

/// Two readers at the start of each file, whose look-aheads reach its end, late in
/// time: with T 0 and above, with nothing cached and with every frame taken; and with
/// every other page in fetch, so that T may be as large as it gets. Each under either
/// rule, with as many expected readers as there may be for file 7.
pub(super) fn largest() -> Vec<State> {
    let mut states = Vec::new();
    for fetch_time in [0, 1_953, 2_000_000] {
        for (cached, rule) in [
            (0, Rule::Of1993),
            (1_024, Rule::Of1989),
            (1_024, Rule::Of1993),
        ] {
            let mut state = State::idle();
            state.frames = 1_024;
            state.look_ahead = 2_000_000;
            state.fetch_time = fetch_time;
            state.sizes = [FILE_PAGES; FILES as usize];
            state.turn = 11;
            state.rule = rule;
            state.expected = [0, 1, 30, 333, 500, 777, 999, 1_000];
            for slot in 0..SLOTS {
                let reader = Reader::running(slot % FILES, 1_000 - slot, 0, FILE_PAGES);
                state.readers.insert(slot, reader);
            }
            let every_eighth = (0..cached).map(|nth| Page::of_key(8 * nth + 5));
            state.cached = every_eighth.collect();
            if fetch_time == 2_000_000 {
                let every = (0..FILES * FILE_PAGES).map(Page::of_key);
                state.in_fetch = every.filter(|page| !state.cached.contains(page)).collect();
            }
            states.push(state);
        }
    }
    states
}

/// Pages about the borders of words.
const BORDERS: [u64; 12] = [1, 2, 63, 64, 65, 66, 127, 128, 129, 192, 193, 256];

/// A reader of file 0, before which all is cached but two pages about borders: m is
/// 2, so that the look-ahead ends with the second. Another reads file 1, of which all
/// is cached, at times between those of the first. Once more, and every third page of
/// file 0 is in fetch instead.
fn at_borders() -> Vec<State> {
    let mut states = Vec::new();
    for position in [0, 1, 62, 63, 64, 65] {
        for (nth, &low) in BORDERS.iter().enumerate() {
            for &high in &BORDERS[nth + 1..] {
                if low > position {
                    let state = at_border(position, [low, high]);
                    states.extend([some_in_fetch(&state), state]);
                }
            }
        }
    }
    states
}

/// The same state, with every third page of file 0 in fetch if it was cached.
fn some_in_fetch(state: &State) -> State {
    let mut state = state.clone();
    let moved = |page: &Page| page.file == 0 && page.number.is_multiple_of(3);
    let cached = std::mem::take(&mut state.cached).into_iter();
    (state.in_fetch, state.cached) = cached.partition(moved);
    state
}

fn at_border(position: u64, missing: [u64; 2]) -> State {
    let mut state = State::idle();
    state.frames = 512;
    state.look_ahead = 1_000;
    state.fetch_time = 500;
    state.sizes[..2].fill(256);
    state.readers = [
        (4, Reader::running(0, 1, position, 256)),
        (9, Reader::running(1, 3, 0, 256)),
    ]
    .into();
    for number in 1..=256 {
        if number > position && !missing.contains(&number) {
            state.cached.insert(Page { file: 0, number });
        }
        state.cached.insert(Page { file: 1, number });
    }
    state
}
