//! Stand-ins that are wrong about pages in fetch: what counts as cached, and when.

use crate::{answered, restored};
use checker::call::{Call, Entry, Order};
use checker::cases::{by_cached_map, order_by_cached_map};
use checker::feed::Feed;
use checker::limits::MOST_TURNS;
use checker::model::{Answer, Page, Reader, State, UseKey};
use checker::quick;
use std::collections::BTreeMap;

/// Stand-ins for the C entries, each with the trial by name that finds it.
pub const LINKS: [(&str, Entry); 19] = [
    ("a sounding with a page in fetch", in_fetch_missing),
    ("a sounding with a page in fetch", pruned_by_cached),
    ("a page in fetch counts as cached", in_fetch_missing),
    ("a page in fetch counts as cached", timed_by_cached),
    ("a page in fetch counts as cached", steal_by_cached),
    ("a page in fetch counts as cached", fetch_by_cached),
    ("a page in fetch counts as cached", all_but_awaited_missing),
    ("a page in fetch counts as cached", cached_missing),
    ("a page in fetch does not prune", in_fetch_missing),
    ("a page in fetch does not prune", pruned_by_cached),
    ("no page in fetch is stolen", in_fetch_stolen),
    ("no page is fetched twice", fetched_twice),
    ("Arrive chooses with its page in fetch", in_fetch_missing),
    ("Arrive chooses with its page in fetch", arrive_by_cached),
    ("Arrive chooses with its page in fetch", left_fetch_first),
    ("Arrive chooses with other pages in fetch", in_fetch_missing),
    (
        "Arrive chooses with other pages in fetch",
        arrive_by_its_page,
    ),
    ("Run chooses with its page in fetch", in_fetch_missing),
    (
        "Run chooses with its page in fetch",
        left_fetch_first_in_run,
    ),
];

/// The times of a look-ahead, as many as there are, by the cached map alone.
pub fn times_by_cached_map(state: &State, reader: &Reader) -> Vec<(Page, u64)> {
    let mut missing = 0;
    let pages = state.look_ahead_of(reader).into_iter().zip(1..);
    let timed = pages.map(|((page, _), j)| {
        let time = j * reader.pace + missing * state.fetch_time;
        missing += u64::from(!state.cached.contains(&page));
        (page, time)
    });
    timed.collect()
}

/// A look-ahead that ends by the cached map alone, with its right times.
pub fn pruned_by_cached_map(state: &State, reader: &Reader) -> Vec<(Page, u64)> {
    let length = by_cached_map(state).look_ahead_of(reader).len();
    let mut pages = state.look_ahead_of(reader);
    pages.truncate(length);
    pages
}

/// The state with those pages in fetch alone that a reader waits for.
pub fn awaited_alone(state: &State) -> State {
    let mut awaited = state.clone();
    let waiting = || state.readers.values().filter(|reader| reader.waiting);
    awaited
        .in_fetch
        .retain(|page| waiting().any(|reader| reader.next_page() == *page));
    awaited
}

/// Who asks for the head of an order.
#[derive(Clone, Copy)]
pub enum Asks {
    Steal,
    Prefetch,
    /// An arrival by itself, or within a Run, of this page.
    Arrive(Page),
    Run(Page),
}

impl Asks {
    pub fn order(self) -> Order {
        match self {
            Asks::Prefetch => Order::Fetch,
            _ => Order::Steal,
        }
    }
}

/// The orders that a stand-in goes by.
pub type Orders = fn(&State, Asks) -> Vec<Page>;

/// The four calls that decide, by other orders.
pub fn deciding(image: &mut [u8], call: Call, orders: Orders) -> u64 {
    let Some(mut state) = restored(image) else {
        return quick::entry(image, call);
    };
    let head = |asks| orders(&state, asks).first().copied();
    let answer = match call {
        Call::Steal => {
            drop(&mut state, orders, Asks::Steal).map_or(Answer::Nothing, Answer::Stolen)
        }
        Call::Prefetch => match head(Asks::Prefetch) {
            Some(page) => {
                state.in_fetch.insert(page);
                Answer::Fetch(page)
            }
            None => Answer::Nothing,
        },
        Call::Arrive { file, page: number } if state.in_fetch.contains(&Page { file, number }) => {
            let page = Page { file, number };
            Answer::Arrived(arrive(&mut state, orders, Asks::Arrive(page), page))
        }
        Call::Run { turns } if turns <= MOST_TURNS && state.in_fetch.is_empty() => {
            run(&mut state, orders, turns)
        }
        _ => return quick::entry(image, call),
    };
    image.copy_from_slice(&state.image());
    answer.number()
}

fn drop(state: &mut State, orders: Orders, asks: Asks) -> Option<Page> {
    let page = orders(state, asks).first().copied()?;
    state.cached.remove(&page);
    state.in_fetch.remove(&page);
    Some(page)
}

/// The arrival of a page in fetch; gives the page that is dropped for it.
fn arrive(state: &mut State, orders: Orders, asks: Asks, page: Page) -> Option<Page> {
    let all_taken = state.cached.len() as u64 == state.frames;
    let dropped = all_taken.then(|| drop(state, orders, asks)).flatten();
    let arrived = state.arrive(page.file, page.number);
    arrived.expect("it is in fetch");
    dropped
}

fn run(state: &mut State, orders: Orders, turns: u64) -> Answer {
    let (mut fetches, mut reads) = (0, 0);
    for _ in 0..turns {
        let mut answer = state.read(state.turn);
        if let Ok(Answer::Fetch(page)) = answer {
            fetches += 1;
            arrive(state, orders, Asks::Run(page), page);
            answer = state.read(state.turn);
        }
        if let Ok(Answer::Hit(_)) = answer {
            reads += 1;
        }
        state.pass_turn();
    }
    Answer::Ran { fetches, reads }
}

/// An order by the use keys of another state.
fn by_keys_of(state: &State, asks: Asks, other: &State) -> Vec<Page> {
    state.order_by(asks.order(), other.use_keys())
}

/// An order by other look-aheads.
fn walked(state: &State, asks: Asks, walk: fn(&State, &Reader) -> Vec<(Page, u64)>) -> Vec<Page> {
    let mut keys = BTreeMap::new();
    for (&slot, reader) in &state.readers {
        let seat = state.seat_distance(slot);
        for (page, time) in walk(state, reader) {
            let key = UseKey { time, seat };
            let smallest = keys.entry(page).or_insert(key);
            *smallest = key.min(*smallest);
        }
    }
    state.order_by(asks.order(), keys)
}

pub fn right(state: &State, asks: Asks) -> Vec<Page> {
    state.order(asks.order())
}

fn by_cached(state: &State, asks: Asks) -> Vec<Page> {
    order_by_cached_map(state, asks.order())
}

fn in_fetch_missing(image: &mut [u8], call: Call) -> u64 {
    deciding(image, call, by_cached)
}

fn timed_by_cached(image: &mut [u8], call: Call) -> u64 {
    deciding(image, call, |state, asks| {
        walked(state, asks, times_by_cached_map)
    })
}

fn pruned_by_cached(image: &mut [u8], call: Call) -> u64 {
    deciding(image, call, |state, asks| {
        walked(state, asks, pruned_by_cached_map)
    })
}

/// The fetch map is read for the fetch order alone.
fn steal_by_cached(image: &mut [u8], call: Call) -> u64 {
    deciding(image, call, |state, asks| match asks {
        Asks::Prefetch => right(state, asks),
        _ => by_cached(state, asks),
    })
}

/// The fetch map is read for the steal order alone.
fn fetch_by_cached(image: &mut [u8], call: Call) -> u64 {
    deciding(image, call, |state, asks| match asks {
        Asks::Prefetch => by_cached(state, asks),
        _ => right(state, asks),
    })
}

fn all_but_awaited_missing(image: &mut [u8], call: Call) -> u64 {
    deciding(image, call, |state, asks| {
        by_keys_of(state, asks, &awaited_alone(state))
    })
}

fn cached_missing(image: &mut [u8], call: Call) -> u64 {
    deciding(image, call, |state, asks| {
        let mut other = state.clone();
        other.cached.clear();
        by_keys_of(state, asks, &other)
    })
}

/// A page in fetch in the steal order.
fn in_fetch_stolen(image: &mut [u8], call: Call) -> u64 {
    deciding(image, call, |state, asks| match asks {
        Asks::Steal => {
            let mut all = state.clone();
            all.cached.extend(&state.in_fetch);
            all.order_by(Order::Steal, state.use_keys())
        }
        _ => right(state, asks),
    })
}

/// A page in fetch in the fetch order.
fn fetched_twice(image: &mut [u8], call: Call) -> u64 {
    deciding(image, call, |state, asks| match asks {
        Asks::Prefetch => by_cached_map(state).order_by(Order::Fetch, state.use_keys()),
        _ => right(state, asks),
    })
}

fn arrive_by_cached(image: &mut [u8], call: Call) -> u64 {
    deciding(image, call, |state, asks| match asks {
        Asks::Arrive(_) => by_cached(state, asks),
        _ => right(state, asks),
    })
}

/// The order once a page has left fetch.
fn without(state: &State, asks: Asks, page: Page) -> Vec<Page> {
    let mut left = state.clone();
    left.in_fetch.remove(&page);
    right(&left, asks)
}

/// The page leaves fetch before the choice.
fn left_fetch_first(image: &mut [u8], call: Call) -> u64 {
    deciding(image, call, |state, asks| match asks {
        Asks::Arrive(page) => without(state, asks, page),
        _ => right(state, asks),
    })
}

fn left_fetch_first_in_run(image: &mut [u8], call: Call) -> u64 {
    deciding(image, call, |state, asks| match asks {
        Asks::Run(page) => without(state, asks, page),
        _ => right(state, asks),
    })
}

/// Of the pages in fetch the arriving one alone counts.
fn arrive_by_its_page(image: &mut [u8], call: Call) -> u64 {
    deciding(image, call, |state, asks| match asks {
        Asks::Arrive(page) => {
            let mut alone = by_cached_map(state);
            alone.in_fetch.insert(page);
            by_keys_of(state, asks, &alone)
        }
        _ => right(state, asks),
    })
}

/// L and Q by the cached map alone.
pub fn listed_by_cached(feed: &Feed) -> Result<Vec<u8>, String> {
    answered(feed, |state, line| {
        let order = match line {
            "L" => Order::Steal,
            "Q" => Order::Fetch,
            _ => return None,
        };
        Some(listed(line, &order_by_cached_map(state, order)))
    })
}

/// Pages in fetch in the answer to L.
pub fn in_fetch_listed(feed: &Feed) -> Result<Vec<u8>, String> {
    answered(feed, |state, line| {
        let mut all = state.clone();
        all.cached.extend(&state.in_fetch);
        let order = all.order_by(Order::Steal, state.use_keys());
        (line == "L").then(|| listed(line, &order))
    })
}

fn listed(letter: &str, pages: &[Page]) -> String {
    let pairs = pages
        .iter()
        .map(|page| format!(",{},{}", page.file, page.number));
    format!("{letter},{}{}", pages.len(), pairs.collect::<String>())
}
