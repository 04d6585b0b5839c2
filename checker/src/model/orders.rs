//! Use times, the two orders, and what making one reports.

use super::state::{Page, Reader, Rule, State};
use crate::call::Order;
use std::cmp::Reverse;
use std::collections::BTreeMap;

/// "the smallest pair (time, seat distance) [...] time compared first": the
/// derived order compares the fields as they stand.
#[derive(Clone, Copy, Debug, PartialEq, Eq, PartialOrd, Ord)]
pub struct UseKey {
    /// Ticks until the page is read.
    pub time: u64,
    /// How many turns off the reader sits.
    pub seat: u64,
}

impl State {
    /// The pages of one reader's look-ahead with their times, by rising page.
    ///
    /// "Page c + j, with j from 1 to K" and c + j at most the reader's last page
    /// ("Its look-ahead ends there"), "is in its look-ahead unless T is above 0
    /// and the pages from c + 1 to c + j − 1 hold at least m not cached [...].
    /// Its time for that reader is j × w + q × T, q being the number of those
    /// pages not cached." What counts as cached there, A.5 says: see
    /// [`is_present`](State::is_present). The page itself is not one of those pages.
    /// Once m are missing, no later page is in.
    pub fn look_ahead_of(&self, reader: &Reader) -> Vec<(Page, u64)> {
        let reach = self.look_ahead / reader.pace; // K
        let mut pages = Vec::new();
        let mut missing = 0; // q
        for j in 1..=reach {
            let page = Page {
                file: reader.file,
                number: reader.position + j,
            };
            if page.number > reader.last || self.too_many_missing(missing) {
                break;
            }
            pages.push((page, j * reader.pace + missing * self.fetch_time));
            if !self.is_present(page) {
                missing += 1;
            }
        }
        pages
    }

    /// A.5: "a page in fetch counts as cached in q and in the pruning". So it does in
    /// every look-ahead; what is stolen and what is fetched have tests of their own.
    pub fn is_present(&self, page: Page) -> bool {
        self.cached.contains(&page) || self.in_fetch.contains(&page)
    }

    /// "T is above 0 and [...] at least m not cached, m being L divided by T,
    /// rounded down". With L below T, m is 0 and nothing is in look-ahead.
    fn too_many_missing(&self, missing: u64) -> bool {
        self.fetch_time > 0 && missing >= self.look_ahead / self.fetch_time
    }

    /// The pages in any look-ahead, each with its use key: "the smallest pair
    /// (time, seat distance) over the readers that have it in look-ahead".
    /// "Running and waiting readers count alike."
    pub fn use_keys(&self) -> BTreeMap<Page, UseKey> {
        let mut keys = BTreeMap::new();
        for (&slot, reader) in &self.readers {
            let seat = self.seat_distance(slot);
            for (page, time) in self.look_ahead_of(reader) {
                let key = UseKey { time, seat };
                keys.entry(page)
                    .and_modify(|smallest: &mut UseKey| *smallest = key.min(*smallest))
                    .or_insert(key);
            }
        }
        keys
    }

    /// What making an order reports: "how many pages its walks tested for being
    /// cached: exactly the pages of the look-aheads, added over the attached
    /// readers". A page counts once for each reader that has it.
    pub fn pages_tested(&self) -> u64 {
        let readers = self.readers.values();
        let pages = readers.map(|reader| self.look_ahead_of(reader).len() as u64);
        pages.sum()
    }

    /// The pages of an order.
    pub fn order(&self, order: Order) -> Vec<Page> {
        self.order_by(order, self.use_keys())
    }

    /// The pages of an order that goes by these use keys.
    pub fn order_by(&self, order: Order, keys: BTreeMap<Page, UseKey>) -> Vec<Page> {
        match order {
            Order::Steal => self.steal_order_by(&keys),
            Order::Fetch => self.fetch_order_by(keys),
        }
    }

    /// The steal order.
    pub fn steal_order(&self) -> Vec<Page> {
        self.order(Order::Steal)
    }

    /// The fetch order.
    pub fn fetch_order(&self) -> Vec<Page> {
        self.order(Order::Fetch)
    }

    /// The steal order by the state's rule.
    fn steal_order_by(&self, keys: &BTreeMap<Page, UseKey>) -> Vec<Page> {
        match self.rule {
            Rule::Of1989 => self.three_stretches(keys),
            Rule::Of1993 => self.weighted_order(keys),
        }
    }

    /// "The steal order is all cached pages, each once, in three stretches".
    pub(super) fn three_stretches(&self, keys: &BTreeMap<Page, UseKey>) -> Vec<Page> {
        let (mut past, mut far, mut near) = (Vec::new(), Vec::new(), Vec::new());
        for &page in &self.cached {
            if let Some(&key) = keys.get(&page) {
                near.push((key, page)); // "pages in a look-ahead"
            } else if self.is_ahead_of_some_reader(page) {
                far.push(page); // "ahead of some reader but in no look-ahead"
            } else {
                past.push(page); // "ahead of no reader of its file"
            }
        }
        // "larger page first [...] equal page numbers of two files: higher file first"
        past.sort_by_key(|page| Reverse((page.number, page.file)));
        far.sort_by_key(|page| Reverse((page.number, page.file)));
        // "larger use key first"
        near.sort_by_key(|&(key, _)| Reverse(key));

        let near = near.into_iter().map(|(_, page)| page);
        past.into_iter().chain(far).chain(near).collect()
    }

    /// "The fetch order is the pages in a look-ahead that are neither cached
    /// nor in fetch, smaller use key first."
    fn fetch_order_by(&self, keys: BTreeMap<Page, UseKey>) -> Vec<Page> {
        let mut order: Vec<(UseKey, Page)> = keys
            .into_iter()
            .filter(|(page, _)| !self.cached.contains(page) && !self.in_fetch.contains(page))
            .map(|(page, key)| (key, page))
            .collect();
        order.sort();
        order.into_iter().map(|(_, page)| page).collect()
    }
}
