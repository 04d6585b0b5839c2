//! What the walks that make an order meet: where each look-ahead begins and ends,
//! and what the readers' look-aheads have to do with each other.

use crate::call::Order;
use crate::cases::by_cached_map;
use crate::limits::{FILES, FILE_PAGES};
use crate::model::{Page, Reader, State};
use std::collections::BTreeSet;
use std::ops::RangeInclusive;

/// Where a look-ahead ends, and for which reason alone.
#[rustfmt::skip]
pub(super) const ENDS: &[&str] = &[
    "ends at K", "ends at the last page", PRUNED, "pruned behind a border",
    "empty, L below the pace", "empty, L below T", "empty, at the last page",
];

const PRUNED: &str = "ends by pruning";

/// How it lies in the words of 64 pages, and what it counts.
#[rustfmt::skip]
pub(super) const WORDS: &[&str] = &[
    "begins at a border", "begins within a word", "ends at a border", "within one word",
    "a word all cached", "a word all in fetch", "a word of both maps", "a word all missing",
    "q over a border",
];

/// What pages in fetch change in it, in the order and in what is reported, beside the
/// cached map alone.
#[rustfmt::skip]
pub(super) const LINK: &[&str] = &[
    "less q by a page in fetch", "farther by a page in fetch", "pruned behind a page in fetch",
    "another head", "another list", "another report",
];

/// Whose it is, and what there is beside it.
#[rustfmt::skip]
pub(super) const READERS: &[&str] = &[
    "T 0", "T above 0", "a running reader", "a waiting reader", "no reader",
    "a page of two readers", "a tie told by seats", "page 1,024 of file 7",
    "report 0 with readers", "report 16,384",
];

/// The pages of a word of the maps.
const WORD: u64 = 64;

/// The most pages that walks can test: sixteen whole files.
const MOST_TESTED: u64 = 16 * FILE_PAGES;

/// What making this order has met, each case once.
pub(super) fn met(state: &State, order: Order) -> BTreeSet<&'static str> {
    let other = by_cached_map(state);
    let mut met = together(state, order);
    met.extend(made(state, order, &other));
    for reader in state.readers.values() {
        let walk = Walk::of(state, reader);
        met.extend(walk.end());
        if walk.length > 0 {
            met.insert(match reader.waiting {
                true => "a waiting reader",
                false => "a running reader",
            });
            met.extend(walk.words());
            met.extend(walk.link(&other));
        }
    }
    met
}

/// What pages in fetch change in the order and in its report, beside the state without
/// them.
fn made(state: &State, order: Order, other: &State) -> BTreeSet<&'static str> {
    let made = state.order(order);
    let by_cached_map = state.order_by(order, other.use_keys());
    let report = state.pages_tested();
    applying(&[
        (made.first() != by_cached_map.first(), "another head"),
        (made != by_cached_map, "another list"),
        (report != other.pages_tested(), "another report"),
    ])
}

fn together(state: &State, order: Order) -> BTreeSet<&'static str> {
    let (keys, tested) = (state.use_keys(), state.pages_tested());
    let very_last = Page {
        file: FILES - 1,
        number: FILE_PAGES,
    };
    let seen = state.order(order);
    let times: Vec<u64> = seen
        .iter()
        .filter_map(|page| keys.get(page))
        .map(|key| key.time)
        .collect();
    let readers = !state.readers.is_empty();
    applying(&[
        (state.fetch_time == 0, "T 0"),
        (state.fetch_time > 0, "T above 0"),
        (!readers, "no reader"),
        (tested > keys.len() as u64, "a page of two readers"),
        (
            times.windows(2).any(|two| two[0] == two[1]),
            "a tie told by seats",
        ),
        (keys.contains_key(&very_last), "page 1,024 of file 7"),
        (readers && tested == 0, "report 0 with readers"),
        (tested == MOST_TESTED, "report 16,384"),
    ])
}

pub(super) fn applying(cases: &[(bool, &'static str)]) -> BTreeSet<&'static str> {
    let applying = cases.iter().filter(|(applies, _)| *applies);
    applying.map(|&(_, case)| case).collect()
}

/// One reader's look-ahead.
struct Walk<'a> {
    state: &'a State,
    reader: &'a Reader,
    /// How many pages it has.
    length: u64,
    /// Its first and last page, if it has any.
    pages: RangeInclusive<u64>,
}

impl Walk<'_> {
    fn of<'a>(state: &'a State, reader: &'a Reader) -> Walk<'a> {
        let length = state.look_ahead_of(reader).len() as u64;
        Walk {
            state,
            reader,
            length,
            pages: reader.position + 1..=reader.position + length,
        }
    }

    /// The reason for its end, if there is one only.
    fn end(&self) -> Option<&'static str> {
        let reach = self.state.look_ahead / self.reader.pace;
        let left = self.reader.last - self.reader.position;
        let reasons = (self.length == reach, self.length == left, self.is_pruned());
        match (reasons, self.length) {
            ((true, false, false), 0) => Some("empty, L below the pace"),
            ((false, true, false), 0) => Some("empty, at the last page"),
            ((false, false, true), 0) => Some("empty, L below T"),
            ((true, false, false), _) => Some("ends at K"),
            ((false, true, false), _) => Some("ends at the last page"),
            ((false, false, true), _) => Some(PRUNED),
            _ => None,
        }
    }

    /// Its pages hold m that are missing, so that no other is in.
    fn is_pruned(&self) -> bool {
        let m = self.state.look_ahead.checked_div(self.state.fetch_time);
        m.is_some_and(|m| self.missing(&self.pages) >= m)
    }

    /// Its last page lies behind a border of words, and pages before that border
    /// count in its time.
    fn carries_q(&self) -> bool {
        let border = (self.pages.end() - 1) / WORD * WORD;
        self.state.fetch_time > 0 && self.missing(&(*self.pages.start()..=border)) > 0
    }

    /// How it lies in the words; it has a page.
    fn words(&self) -> BTreeSet<&'static str> {
        let (first, last) = (*self.pages.start(), *self.pages.end());
        let begins_word = first % WORD == 1;
        let one_word = (first - 1) / WORD == (last - 1) / WORD;
        let pruned = self.end() == Some(PRUNED);
        let mut met = applying(&[
            (begins_word, "begins at a border"),
            (!begins_word, "begins within a word"),
            (last.is_multiple_of(WORD), "ends at a border"),
            (one_word, "within one word"),
            (self.carries_q(), "q over a border"),
            (pruned && self.carries_q(), "pruned behind a border"),
        ]);
        if self.state.fetch_time > 0 {
            met.extend(self.whole_words());
        }
        met
    }

    /// What its whole words are: of one kind, or of both maps with no page missing.
    fn whole_words(&self) -> impl Iterator<Item = &'static str> + '_ {
        let first = (self.pages.start() - 1).div_ceil(WORD);
        let words = first..self.pages.end() / WORD;
        words.filter_map(|word| {
            let pages = word * WORD + 1..=(word + 1) * WORD;
            match (self.missing(&pages), self.open(&pages)) {
                (WORD, _) => Some("a word all missing"),
                (0, 0) => Some("a word all cached"),
                (0, WORD) => Some("a word all in fetch"),
                (0, _) => Some("a word of both maps"),
                _ => None,
            }
        })
    }

    /// What pages in fetch change in it; it has a page. The other state is the one
    /// without them.
    fn link(&self, other: &State) -> BTreeSet<&'static str> {
        let before_last = *self.pages.start()..=self.pages.end() - 1;
        let open = self.state.fetch_time > 0 && self.open(&before_last) > 0;
        let farther = self.length > other.look_ahead_of(self.reader).len() as u64;
        let pruned = self.end() == Some(PRUNED);
        applying(&[
            (open, "less q by a page in fetch"),
            (farther, "farther by a page in fetch"),
            (open && pruned, "pruned behind a page in fetch"),
        ])
    }

    /// How many of these pages are missing.
    fn missing(&self, pages: &RangeInclusive<u64>) -> u64 {
        let pages = pages.clone().map(|number| self.page(number));
        pages.filter(|&page| !self.state.is_present(page)).count() as u64
    }

    /// How many of these pages are in fetch.
    fn open(&self, pages: &RangeInclusive<u64>) -> u64 {
        let pages = pages.clone().map(|number| self.page(number));
        pages
            .filter(|page| self.state.in_fetch.contains(page))
            .count() as u64
    }

    fn page(&self, number: u64) -> Page {
        Page {
            file: self.reader.file,
            number,
        }
    }
}
