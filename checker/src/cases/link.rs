//! What pages in fetch change in a call, which its answer does not tell. A.5: "a page in
//! fetch counts as cached in q and in the pruning".

use crate::call::{Call, Order};
use crate::model::{Answer, Page, State};
use std::collections::BTreeSet;

const LINK: &str = "on the link";

/// All that can be met by calls: what they decide, and what they would without the
/// rule.
#[rustfmt::skip]
pub const LINK_CASES: &[(&str, &[&str])] = &[
    (LINK, &["Steal, another head", "Prefetch, another head", "Prefetch, U else"]),
    (LINK, &["Arrive, another head", "Arrive, the page itself", "Run, the page itself"]),
];

/// The same for the lines of both lists.
pub const LIST_LINK_CASES: &[(&str, &[&str])] = &[(LINK, &["L, another list", "Q, another list"])];

/// The turns of a Run that are looked at: a long one is not made twice for this.
const FIRST_TURNS: u64 = 64;

/// The state with its fetches closed: its look-aheads go by the cached map alone, as all
/// did before A.5. Only a state that decides otherwise then tells the two rules apart,
/// so trials must meet such states.
pub fn by_cached_map(state: &State) -> State {
    State {
        in_fetch: BTreeSet::new(),
        ..state.clone()
    }
}

/// An order of the state by the cached map alone. What is stolen and what is fetched
/// keep their own tests.
pub fn order_by_cached_map(state: &State, order: Order) -> Vec<Page> {
    state.order_by(order, by_cached_map(state).use_keys())
}

/// What pages in fetch change in a call on this state. With T 0 they change nothing.
pub fn on_the_link(before: &State, call: Call) -> Vec<(&'static str, &'static str)> {
    if before.fetch_time == 0 {
        return Vec::new();
    }
    let cases = match call {
        Call::Steal => stolen(before),
        Call::Prefetch => prefetched(before),
        Call::Arrive { file, page: number } => arrived(before, Page { file, number }),
        Call::Run { turns } => ran(before, turns),
        _ => Vec::new(),
    };
    cases.into_iter().map(|case| (LINK, case)).collect()
}

/// What they change in the list that a line asks for, if it asks for one.
pub fn listed_on_the_link(before: &State, line: &[u8]) -> Vec<(&'static str, &'static str)> {
    let (order, case) = match line {
        b"L" => (Order::Steal, "L, another list"),
        b"Q" => (Order::Fetch, "Q, another list"),
        _ => return Vec::new(),
    };
    match before.order(order) == order_by_cached_map(before, order) {
        true => Vec::new(),
        false => vec![(LINK, case)],
    }
}

/// The heads of an order, by the rule and by the cached map alone.
fn heads(state: &State, order: Order) -> [Option<Page>; 2] {
    let orders = [state.order(order), order_by_cached_map(state, order)];
    orders.map(|order| order.first().copied())
}

fn stolen(state: &State) -> Vec<&'static str> {
    let [head, other] = heads(state, Order::Steal);
    match head == other {
        true => Vec::new(),
        false => vec!["Steal, another head"],
    }
}

fn prefetched(state: &State) -> Vec<&'static str> {
    let [head, other] = heads(state, Order::Fetch);
    match other {
        _ if head == other => Vec::new(),
        Some(_) => vec!["Prefetch, another head"],
        None => vec!["Prefetch, U else"],
    }
}

fn arrived(state: &State, page: Page) -> Vec<&'static str> {
    if !state.in_fetch.contains(&page) || has_room(state) {
        return Vec::new();
    }
    let [head, other] = heads(state, Order::Steal);
    let mut met = Vec::new();
    if head != other {
        met.push("Arrive, another head");
    }
    if counts_itself(state, page) {
        met.push("Arrive, the page itself");
    }
    met
}

fn has_room(state: &State) -> bool {
    (state.cached.len() as u64) < state.frames
}

/// Whether another page would be dropped for an arriving one if this left fetch before
/// the choice.
fn counts_itself(state: &State, page: Page) -> bool {
    let mut left = state.clone();
    left.in_fetch.remove(&page);
    state.steal_order().first() != left.steal_order().first()
}

fn ran(before: &State, turns: u64) -> Vec<&'static str> {
    if !before.in_fetch.is_empty() {
        return Vec::new();
    }
    let mut state = before.clone();
    for _ in 0..turns.min(FIRST_TURNS) {
        if let Ok(Answer::Fetch(page)) = state.read(state.turn) {
            if !has_room(&state) && counts_itself(&state, page) {
                return vec!["Run, the page itself"];
            }
            let arrived = state.arrive(page.file, page.number);
            arrived.expect("the page is in fetch");
            let read = state.read(state.turn);
            read.expect("its reader runs again");
        }
        state.pass_turn();
    }
    Vec::new()
}
