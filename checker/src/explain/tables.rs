//! The two orders, row by row, with the reason for each place.

use crate::model::{Page, Rule, State, UseKey};
use std::collections::{BTreeMap, BTreeSet};

/// One of "three stretches".
#[derive(Clone, Copy, Debug, PartialEq, Eq)]
pub enum Stretch {
    /// "pages that no reader of the file still has before it".
    BeforeNoReader,
    /// "pages ahead of some reader but in no look-ahead".
    AheadOfSome,
    /// "pages in a look-ahead".
    InLookAhead,
}

impl Stretch {
    /// The list of the patent that it is, and what that means.
    pub fn words(self) -> &'static str {
        match self {
            Stretch::BeforeNoReader => "behind last: no reader needs it",
            Stretch::AheadOfSome => "not seen: in no look-ahead",
            Stretch::InLookAhead => "use time: in a look-ahead",
        }
    }
}

/// A page of an order.
#[derive(Clone, Copy, Debug, PartialEq, Eq)]
pub struct Row {
    /// Its place, from 1.
    pub place: usize,
    /// The page.
    pub page: Page,
    /// In the steal order of 1993, how many pages of its file are cached when its turn
    /// comes.
    pub file_cached: Option<u64>,
    /// Its stretch.
    pub stretch: Stretch,
    /// When and by whom it is read; nothing for a page in no look-ahead.
    pub read: Option<Use>,
}

/// The smallest use key of a page.
#[derive(Clone, Copy, Debug, PartialEq, Eq)]
pub struct Use {
    /// Its use time.
    pub time: u64,
    /// The slot of the reader that gives it this time.
    pub slot: u64,
    /// The reader's seat distance, where it decides: another page of the order has the
    /// same use time, in the steal order of 1993 another page of its file.
    pub seat_in_tie: Option<u64>,
}

/// The rows of the steal order.
pub fn steal_rows(state: &State) -> Vec<Row> {
    let order = state.steal_order();
    match state.rule {
        Rule::Of1989 => rows(state, order, |_| 0),
        Rule::Of1993 => counted_down(state, rows(state, order, |page| page.file)),
    }
}

/// The rows of the fetch order.
pub fn fetch_rows(state: &State) -> Vec<Row> {
    rows(state, state.fetch_order(), |_| 0)
}

/// The rows with what each file has left, row by row.
fn counted_down(state: &State, mut rows: Vec<Row>) -> Vec<Row> {
    let mut cached = state.cached_by_file();
    for row in &mut rows {
        let left = &mut cached[row.page.file as usize];
        row.file_cached = Some(*left);
        *left -= 1;
    }
    rows
}

/// The rows of an order in which use times are compared between pages of one group.
fn rows(state: &State, order: Vec<Page>, group: fn(Page) -> u64) -> Vec<Row> {
    let keys = state.use_keys();
    let tied = tied_times(&keys, &order, group);
    let row = |(place, page)| {
        let key = keys.get(&page);
        let stretch = match key {
            Some(_) => Stretch::InLookAhead,
            None if state.is_ahead_of_some_reader(page) => Stretch::AheadOfSome,
            None => Stretch::BeforeNoReader,
        };
        let read = key.map(|&UseKey { time, seat }| Use {
            time,
            slot: state.slot_at(seat),
            seat_in_tie: tied.contains(&(group(page), time)).then_some(seat),
        });
        Row {
            place,
            page,
            file_cached: None,
            stretch,
            read,
        }
    };
    (1..).zip(order).map(row).collect()
}

/// The use times that several pages of the order have, those of a group together.
fn tied_times(
    keys: &BTreeMap<Page, UseKey>,
    order: &[Page],
    group: fn(Page) -> u64,
) -> BTreeSet<(u64, u64)> {
    let mut met = BTreeSet::new();
    let seen = order
        .iter()
        .filter_map(|&page| Some((page, keys.get(&page)?)));
    let times = seen.map(|(page, key)| (group(page), key.time));
    times.filter(|&time| !met.insert(time)).collect()
}
