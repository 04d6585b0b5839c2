//! Stand-ins for Steal list and Fetch list, with what they report.

use crate::link::{awaited_alone, pruned_by_cached_map, times_by_cached_map};
use checker::call::{Lister, Order};
use checker::cases::by_cached_map;
use checker::limits::{FILE_PAGES, MARKED_IMAGE_BYTES, OLDER_IMAGE_BYTES};
use checker::model::{self, Page, Reader, Rule, State, UseKey};
use std::collections::{BTreeMap, BTreeSet};

/// Each with whether random images find it too, and not the fixed ones alone.
#[rustfmt::skip]
pub const LISTS: [(&str, bool, Lister); 55] = [
    ("the page after a look-ahead tested", true, next_tested),
    ("the page after K tested", true, next_tested_after_k),
    ("the page after the last one tested", true, next_tested_after_last),
    ("the page that is pruned tested", true, next_tested_after_pruning),
    ("the last page of a look-ahead not tested", true, last_not_tested),
    ("all pages up to K reported", true, reach_reported),
    ("the missing pages reported", true, missing_reported),
    ("the words reported", true, words_reported),
    ("a page of two readers reported once", true, reported_once),
    ("readers at the same page reported once", true, same_page_reported_once),
    ("the last reader's walk not reported", true, last_not_reported),
    ("waiting readers' walks not reported", true, waiting_not_reported),
    ("the keys of the fetch list reported", true, fetches_reported),
    ("the keys of the steal list reported", true, steals_reported),
    ("nothing reported by the fetch list", true, no_fetch_report),
    ("a report of 14 bits", false, report_of_14_bits),
    ("a count of 13 bits", false, count_of_13_bits),
    ("q with the page itself", true, itself_in_q),
    ("q forgotten at a border", true, q_forgotten),
    ("q without a border's last page", true, q_without_border),
    ("q from the start of a word", true, q_of_whole_words),
    ("q without the page before", true, q_one_short),
    ("q carried from reader to reader", true, q_of_readers_before),
    ("a page in fetch missing", true, in_fetch_missing),
    ("a page in fetch missing in q alone", true, timed_by_cached),
    ("a page in fetch missing in the pruning alone", true, pruned_by_cached),
    ("a page in fetch missing in the steal list alone", true, steal_by_cached),
    ("a page in fetch missing in the fetch list alone", true, fetch_by_cached),
    ("a page in fetch missing in the report alone", true, reported_by_cached),
    ("a page in fetch missing unless waited for", true, all_but_awaited_missing),
    ("a cached page missing", true, cached_missing),
    ("a word of the fetch map kept over a border", true, fetch_word_kept),
    ("a page in fetch in the steal list", true, in_fetch_stolen),
    ("a page in fetch in the fetch list", true, in_fetch_fetched),
    ("pruned at one missing page more", true, pruned_late),
    ("m rounded up", true, m_rounded_up),
    ("not pruned", true, not_pruned),
    ("a look-ahead up to the size", true, walked_to_the_size),
    ("a look-ahead of one page at least", true, one_page_at_least),
    ("waiting readers not walked", true, waiting_not_walked),
    ("the reader in slot 15 not walked", true, slot_15_not_walked),
    ("ties not told by seats", true, seats_left_out),
    ("ties told by slots", true, slots_for_seats),
    ("the other order's list", true, other_order),
    ("a list just long enough refused", true, just_enough_refused),
    ("12 with a report", true, reported_by_12),
    ("12 with the number of a list", true, numbered_by_12),
    ("12 that writes what fits", true, written_by_12),
    ("numbers past the keys cleared", true, cleared_past_the_keys),
    ("a number past the keys written", true, written_past_the_keys),
    ("13 that writes", true, written_by_13),
    ("the idle state's list for 13", true, idle_listed),
    ("images of 2,208 bytes refused", true, refused::<OLDER_IMAGE_BYTES>),
    ("images of 2,240 bytes refused", true, refused::<MARKED_IMAGE_BYTES>),
    ("images of 1993 refused", true, of_1993_refused),
];

/// The model's list.
fn right(order: Order, image: &[u8], list: &mut [u16]) -> u64 {
    let (number, after) = model::list(order, image, list);
    list.copy_from_slice(&after);
    number
}

fn is_carried_out(number: u64) -> bool {
    number >> 32 == 1
}

/// The model's list with another report.
fn reporting(order: Order, image: &[u8], list: &mut [u16], report: impl Fn(&State) -> u64) -> u64 {
    let number = right(order, image, list);
    let (state, _) = State::restore(image);
    match is_carried_out(number) {
        true => (number & !0xFFFF) + report(&state),
        false => number,
    }
}

/// The model's list with another report of each reader's walk, by its pages.
fn reporting_each(
    order: Order,
    image: &[u8],
    list: &mut [u16],
    report: fn(&State, &Reader, u64) -> u64,
) -> u64 {
    reporting(order, image, list, |state| {
        let readers = state.readers.values();
        let reports = readers.map(|reader| report(state, reader, pages_of(state, reader)));
        reports.sum()
    })
}

/// How many pages are in a reader's look-ahead.
fn pages_of(state: &State, reader: &Reader) -> u64 {
    state.look_ahead_of(reader).len() as u64
}

/// K, and the pages up to the last one.
fn reach_and_left(state: &State, reader: &Reader) -> (u64, u64) {
    let left = reader.last - reader.position;
    (state.look_ahead / reader.pace, left)
}

fn next_tested(order: Order, image: &[u8], list: &mut [u16]) -> u64 {
    reporting_each(order, image, list, |state, reader, pages| {
        let (_, left) = reach_and_left(state, reader);
        left.min(pages + 1)
    })
}

fn next_tested_after_k(order: Order, image: &[u8], list: &mut [u16]) -> u64 {
    reporting_each(order, image, list, |state, reader, pages| {
        let (reach, left) = reach_and_left(state, reader);
        pages + u64::from(pages == reach && pages < left)
    })
}

fn next_tested_after_last(order: Order, image: &[u8], list: &mut [u16]) -> u64 {
    reporting_each(order, image, list, |state, reader, pages| {
        let (_, left) = reach_and_left(state, reader);
        pages + u64::from(pages == left)
    })
}

fn next_tested_after_pruning(order: Order, image: &[u8], list: &mut [u16]) -> u64 {
    reporting_each(order, image, list, |state, reader, pages| {
        let (reach, left) = reach_and_left(state, reader);
        pages + u64::from(pages < reach.min(left))
    })
}

fn last_not_tested(order: Order, image: &[u8], list: &mut [u16]) -> u64 {
    reporting_each(order, image, list, |_, _, pages| pages.saturating_sub(1))
}

fn reach_reported(order: Order, image: &[u8], list: &mut [u16]) -> u64 {
    reporting_each(order, image, list, |state, reader, _| {
        let (reach, left) = reach_and_left(state, reader);
        reach.min(left)
    })
}

fn missing_reported(order: Order, image: &[u8], list: &mut [u16]) -> u64 {
    reporting_each(order, image, list, |state, reader, _| {
        let pages = state.look_ahead_of(reader).into_iter();
        let missing = pages.filter(|(page, _)| !state.is_present(*page));
        missing.count() as u64
    })
}

fn words_reported(order: Order, image: &[u8], list: &mut [u16]) -> u64 {
    reporting_each(order, image, list, |_, reader, pages| {
        let (start, end) = (reader.position, reader.position + pages);
        (end.div_ceil(64) - start / 64) * u64::from(pages > 0)
    })
}

fn reported_once(order: Order, image: &[u8], list: &mut [u16]) -> u64 {
    reporting(order, image, list, |state| state.use_keys().len() as u64)
}

fn same_page_reported_once(order: Order, image: &[u8], list: &mut [u16]) -> u64 {
    reporting(order, image, list, |state| {
        let mut met = BTreeSet::new();
        let readers = state.readers.values();
        let first = readers.filter(|reader| met.insert(reader.next_page()));
        first.map(|reader| pages_of(state, reader)).sum()
    })
}

fn last_not_reported(order: Order, image: &[u8], list: &mut [u16]) -> u64 {
    reporting(order, image, list, |state| {
        let readers = state.readers.values().rev().skip(1);
        readers.map(|reader| pages_of(state, reader)).sum()
    })
}

fn waiting_not_reported(order: Order, image: &[u8], list: &mut [u16]) -> u64 {
    reporting_each(order, image, list, |_, reader, pages| {
        pages * u64::from(!reader.waiting)
    })
}

fn fetches_reported(order: Order, image: &[u8], list: &mut [u16]) -> u64 {
    reporting(order, image, list, |state| state.fetch_order().len() as u64)
}

fn steals_reported(order: Order, image: &[u8], list: &mut [u16]) -> u64 {
    reporting(order, image, list, |state| state.cached.len() as u64)
}

fn no_fetch_report(order: Order, image: &[u8], list: &mut [u16]) -> u64 {
    reporting(order, image, list, |state| match order {
        Order::Steal => state.pages_tested(),
        Order::Fetch => 0,
    })
}

fn report_of_14_bits(order: Order, image: &[u8], list: &mut [u16]) -> u64 {
    reporting(order, image, list, |state| state.pages_tested() & 0x3FFF)
}

fn count_of_13_bits(order: Order, image: &[u8], list: &mut [u16]) -> u64 {
    right(order, image, list) & !(0x2000 << 16)
}

/// The list of an order by other walks: the pages of each with their use keys.
fn walking(
    order: Order,
    image: &[u8],
    list: &mut [u16],
    mut walk: impl FnMut(&State, u64, &Reader) -> Vec<(Page, UseKey)>,
) -> u64 {
    let Ok(state) = State::of_image(image) else {
        return 13;
    };
    let (mut keys, mut tested) = (BTreeMap::new(), 0);
    for (&slot, reader) in &state.readers {
        for (page, key) in walk(&state, slot, reader) {
            let smallest = keys.entry(page).or_insert(key);
            *smallest = key.min(*smallest);
            tested += 1;
        }
    }
    written(&state.order_by(order, keys), tested, list)
}

/// Writes the keys of an order, and gives the number.
fn written(pages: &[Page], tested: u64, list: &mut [u16]) -> u64 {
    let Some(room) = list.get_mut(..pages.len()) else {
        return 12;
    };
    for (number, page) in room.iter_mut().zip(pages) {
        *number = page.key() as u16;
    }
    (1 << 32) + ((pages.len() as u64) << 16) + tested
}

/// The same by times alone.
fn timed(
    order: Order,
    image: &[u8],
    list: &mut [u16],
    mut walk: impl FnMut(&State, &Reader) -> Vec<(Page, u64)>,
) -> u64 {
    walking(order, image, list, |state, slot, reader| {
        let seat = state.seat_distance(slot);
        seated(walk(state, reader), seat)
    })
}

fn seated(times: Vec<(Page, u64)>, seat: u64) -> Vec<(Page, UseKey)> {
    let keyed = |(page, time)| (page, UseKey { time, seat });
    times.into_iter().map(keyed).collect()
}

/// m, and no such number for T 0.
fn most_missing(state: &State) -> Option<u64> {
    state.look_ahead.checked_div(state.fetch_time)
}

/// A look-ahead by another m, and another q: by what is missing of the file, by the
/// first page of the walk and by the page.
fn look_ahead(
    state: &State,
    reader: &Reader,
    m: Option<u64>,
    q: impl Fn(&[bool], usize, usize) -> u64,
) -> Vec<(Page, u64)> {
    let page = |number| Page {
        file: reader.file,
        number,
    };
    let is_missing = |number| !state.is_present(page(number));
    let missing: Vec<bool> = (0..=FILE_PAGES).map(is_missing).collect();
    let first = reader.next_page().number;
    let (reach, left) = reach_and_left(state, reader);
    let mut pages = Vec::new();
    for (j, number) in (1..=reach.min(left)).zip(first..) {
        let q = q(&missing, first as usize, number as usize);
        if m.is_some_and(|m| q >= m) {
            break;
        }
        pages.push((page(number), j * reader.pace + q * state.fetch_time));
    }
    pages
}

fn count(missing: &[bool]) -> u64 {
    missing.iter().filter(|&&is_missing| is_missing).count() as u64
}

/// The page before the first one of a page's word.
fn border_before(page: usize) -> usize {
    (page - 1) / 64 * 64
}

/// A list with another q.
fn counting(
    order: Order,
    image: &[u8],
    list: &mut [u16],
    q: fn(&[bool], usize, usize) -> u64,
) -> u64 {
    timed(order, image, list, |state, reader| {
        look_ahead(state, reader, most_missing(state), q)
    })
}

fn itself_in_q(order: Order, image: &[u8], list: &mut [u16]) -> u64 {
    counting(order, image, list, |missing, first, page| {
        count(&missing[first..=page])
    })
}

fn q_forgotten(order: Order, image: &[u8], list: &mut [u16]) -> u64 {
    counting(order, image, list, |missing, first, page| {
        count(&missing[first.max(border_before(page) + 1)..page])
    })
}

/// A word is left before its last page is counted.
fn q_without_border(order: Order, image: &[u8], list: &mut [u16]) -> u64 {
    counting(order, image, list, |missing, first, page| {
        let counted = (first..page).filter(|number| missing[*number] && number % 64 != 0);
        counted.count() as u64
    })
}

fn q_of_whole_words(order: Order, image: &[u8], list: &mut [u16]) -> u64 {
    counting(order, image, list, |missing, first, page| {
        count(&missing[border_before(first) + 1..page])
    })
}

fn q_one_short(order: Order, image: &[u8], list: &mut [u16]) -> u64 {
    counting(order, image, list, |missing, first, page| {
        count(&missing[first..first.max(page - 1)])
    })
}

fn q_of_readers_before(order: Order, image: &[u8], list: &mut [u16]) -> u64 {
    let mut before = 0;
    timed(order, image, list, |state, reader| {
        let pages = look_ahead(
            state,
            reader,
            most_missing(state),
            |missing, first, page| before + count(&missing[first..page]),
        );
        let missing = pages.iter().filter(|(page, _)| !state.is_present(*page));
        before += missing.count() as u64;
        pages
    })
}

/// A list with another m.
fn pruning(order: Order, image: &[u8], list: &mut [u16], m: fn(&State) -> Option<u64>) -> u64 {
    timed(order, image, list, |state, reader| {
        look_ahead(state, reader, m(state), |missing, first, page| {
            count(&missing[first..page])
        })
    })
}

fn pruned_late(order: Order, image: &[u8], list: &mut [u16]) -> u64 {
    pruning(order, image, list, |state| {
        most_missing(state).map(|m| m + 1)
    })
}

fn m_rounded_up(order: Order, image: &[u8], list: &mut [u16]) -> u64 {
    pruning(order, image, list, |state| {
        most_missing(state).map(|_| state.look_ahead.div_ceil(state.fetch_time))
    })
}

fn not_pruned(order: Order, image: &[u8], list: &mut [u16]) -> u64 {
    pruning(order, image, list, |_| None)
}

fn in_fetch_missing(order: Order, image: &[u8], list: &mut [u16]) -> u64 {
    timed(order, image, list, |state, reader| {
        by_cached_map(state).look_ahead_of(reader)
    })
}

fn timed_by_cached(order: Order, image: &[u8], list: &mut [u16]) -> u64 {
    timed(order, image, list, times_by_cached_map)
}

fn pruned_by_cached(order: Order, image: &[u8], list: &mut [u16]) -> u64 {
    timed(order, image, list, pruned_by_cached_map)
}

fn steal_by_cached(order: Order, image: &[u8], list: &mut [u16]) -> u64 {
    match order {
        Order::Steal => in_fetch_missing(order, image, list),
        Order::Fetch => right(order, image, list),
    }
}

fn fetch_by_cached(order: Order, image: &[u8], list: &mut [u16]) -> u64 {
    match order {
        Order::Steal => right(order, image, list),
        Order::Fetch => in_fetch_missing(order, image, list),
    }
}

fn reported_by_cached(order: Order, image: &[u8], list: &mut [u16]) -> u64 {
    reporting(order, image, list, |state| {
        by_cached_map(state).pages_tested()
    })
}

fn all_but_awaited_missing(order: Order, image: &[u8], list: &mut [u16]) -> u64 {
    timed(order, image, list, |state, reader| {
        awaited_alone(state).look_ahead_of(reader)
    })
}

fn cached_missing(order: Order, image: &[u8], list: &mut [u16]) -> u64 {
    timed(order, image, list, |state, reader| {
        let mut state = state.clone();
        state.cached.clear();
        state.look_ahead_of(reader)
    })
}

/// The fetch map's word in which the walk begins stands for the later ones too.
fn fetch_word_kept(order: Order, image: &[u8], list: &mut [u16]) -> u64 {
    timed(order, image, list, |state, reader| {
        let first = border_before(reader.next_page().number as usize) as u64;
        let mut kept = state.clone();
        kept.in_fetch = (first + 1..=FILE_PAGES)
            .map(|number| Page {
                number,
                ..reader.next_page()
            })
            .filter(|page| {
                let number = first + (page.number - 1) % 64 + 1;
                state.in_fetch.contains(&Page { number, ..*page })
            })
            .collect();
        kept.look_ahead_of(reader)
    })
}

/// The list by the right use keys, but of pages that are elsewhere.
fn moving(order: Order, image: &[u8], list: &mut [u16], moved: fn(&mut State)) -> u64 {
    let Ok(mut state) = State::of_image(image) else {
        return 13;
    };
    let (keys, tested) = (state.use_keys(), state.pages_tested());
    moved(&mut state);
    written(&state.order_by(order, keys), tested, list)
}

fn in_fetch_stolen(order: Order, image: &[u8], list: &mut [u16]) -> u64 {
    moving(order, image, list, |state| {
        state.cached.extend(&state.in_fetch);
    })
}

fn in_fetch_fetched(order: Order, image: &[u8], list: &mut [u16]) -> u64 {
    moving(order, image, list, |state| state.in_fetch.clear())
}

fn walked_to_the_size(order: Order, image: &[u8], list: &mut [u16]) -> u64 {
    timed(order, image, list, |state, reader| {
        let last = state.size(reader.file);
        state.look_ahead_of(&Reader { last, ..*reader })
    })
}

fn one_page_at_least(order: Order, image: &[u8], list: &mut [u16]) -> u64 {
    timed(order, image, list, |state, reader| {
        let mut pages = state.look_ahead_of(reader);
        if pages.is_empty() && !reader.is_at_end() {
            pages.push((reader.next_page(), reader.pace));
        }
        pages
    })
}

fn waiting_not_walked(order: Order, image: &[u8], list: &mut [u16]) -> u64 {
    timed(order, image, list, |state, reader| match reader.waiting {
        true => Vec::new(),
        false => state.look_ahead_of(reader),
    })
}

fn slot_15_not_walked(order: Order, image: &[u8], list: &mut [u16]) -> u64 {
    walking(order, image, list, |state, slot, reader| match slot {
        15 => Vec::new(),
        _ => seated(state.look_ahead_of(reader), state.seat_distance(slot)),
    })
}

fn seats_left_out(order: Order, image: &[u8], list: &mut [u16]) -> u64 {
    walking(order, image, list, |state, _, reader| {
        seated(state.look_ahead_of(reader), 0)
    })
}

fn slots_for_seats(order: Order, image: &[u8], list: &mut [u16]) -> u64 {
    walking(order, image, list, |state, slot, reader| {
        seated(state.look_ahead_of(reader), slot)
    })
}

fn other_order(order: Order, image: &[u8], list: &mut [u16]) -> u64 {
    let other = match order {
        Order::Steal => Order::Fetch,
        Order::Fetch => Order::Steal,
    };
    right(other, image, list)
}

fn just_enough_refused(order: Order, image: &[u8], list: &mut [u16]) -> u64 {
    let (number, after) = model::list(order, image, list);
    if is_carried_out(number) && number >> 16 & 0xFFFF == list.len() as u64 {
        return 12;
    }
    list.copy_from_slice(&after);
    number
}

/// The model's list, and another number for 12.
fn instead_of_12(
    order: Order,
    image: &[u8],
    list: &mut [u16],
    number: impl FnOnce(&State) -> u64,
) -> u64 {
    match right(order, image, list) {
        12 => number(&State::restore(image).0),
        number => number,
    }
}

fn reported_by_12(order: Order, image: &[u8], list: &mut [u16]) -> u64 {
    instead_of_12(order, image, list, |state| {
        (state.pages_tested() << 16) + 12
    })
}

fn numbered_by_12(order: Order, image: &[u8], list: &mut [u16]) -> u64 {
    instead_of_12(order, image, list, |state| {
        let (number, _) = model::list(order, image, &vec![0; state.order(order).len()]);
        number
    })
}

fn written_by_12(order: Order, image: &[u8], list: &mut [u16]) -> u64 {
    let number = right(order, image, list);
    if number == 12 {
        let pages = State::restore(image).0.order(order);
        for (number, page) in list.iter_mut().zip(pages) {
            *number = page.key() as u16;
        }
    }
    number
}

/// The model's list, with what stands past its keys changed.
fn past_the_keys(order: Order, image: &[u8], list: &mut [u16], change: fn(&mut [u16])) -> u64 {
    let number = right(order, image, list);
    if is_carried_out(number) {
        let keys = (number >> 16 & 0xFFFF) as usize;
        change(&mut list[keys..]);
    }
    number
}

fn cleared_past_the_keys(order: Order, image: &[u8], list: &mut [u16]) -> u64 {
    past_the_keys(order, image, list, |rest| rest.fill(0))
}

fn written_past_the_keys(order: Order, image: &[u8], list: &mut [u16]) -> u64 {
    past_the_keys(order, image, list, |rest| {
        if let Some(next) = rest.first_mut() {
            *next = 0xFFFF;
        }
    })
}

fn written_by_13(order: Order, image: &[u8], list: &mut [u16]) -> u64 {
    let number = right(order, image, list);
    if let (13, Some(first)) = (number, list.first_mut()) {
        *first = 0;
    }
    number
}

fn idle_listed(order: Order, image: &[u8], list: &mut [u16]) -> u64 {
    match right(order, image, list) {
        13 => 1 << 32,
        number => number,
    }
}

fn refused<const LENGTH: usize>(order: Order, image: &[u8], list: &mut [u16]) -> u64 {
    match image.len() == LENGTH {
        true => 13,
        false => right(order, image, list),
    }
}

fn of_1993_refused(order: Order, image: &[u8], list: &mut [u16]) -> u64 {
    match State::restore(image).0.rule {
        Rule::Of1989 => right(order, image, list),
        Rule::Of1993 => 13,
    }
}
