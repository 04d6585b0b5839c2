//! What the rows of a call meet, and how the words that it counts lie.

use super::walks::applying;
use crate::cases::by_cached_map;
use crate::limits::{FILES, FILE_PAGES, SLOTS};
use crate::model::{Page, Reader, Refusal, State, UseKey, When};
use std::collections::{BTreeMap, BTreeSet};

/// Why a row is refused, and what becomes of the others.
#[rustfmt::skip]
pub(super) const REFUSALS: &[&str] = &[
    "3, file above 7", "3, size 0", "3 and page 0", "3 and a page", "3, a file if cut",
    "8, page 0", "8, one above the size", "8, above 1,024", "8, a page if cut",
    "a row after a refused one", "all rows refused", "a page asked twice",
];

/// The three kinds of answer: for which pages, and why.
#[rustfmt::skip]
pub(super) const KINDS: &[&str] = &[
    "read, cached", "read, in fetch", "read, neither",
    "behind, cached", "behind, in fetch", "behind, neither",
    "not seen, cached", "not seen, in fetch", "not seen, neither",
    "behind, no reader of the file", "behind, read by all", "behind, beyond each last page",
    "not seen, K", "not seen, pruned", "not seen, next after a look-ahead",
    "not seen, read by another", "not seen, beyond another's last page",
];

/// Which reader gives the time, and of what it is made.
#[rustfmt::skip]
pub(super) const TIMES: &[&str] = &[
    "the slot is not the seat", "a tie told by seats", "a tie won by the higher slot",
    "the farther seat is earlier", "read by another", "beyond another's last page",
    "in no look-ahead of another", "a waiting reader", "slot 15", "page 1,024 of file 7",
    "first of a look-ahead", "last of a look-ahead", "q above 0", "a time above 65,535",
];

/// What pages in fetch change in an answer and in the words, beside the cached map
/// alone; and how the two maps lie in a word.
#[rustfmt::skip]
pub(super) const LINK: &[&str] = &[
    "less q by a page in fetch", "another time", "another slot", "not seen else",
    "more words", "a word of both maps", "a word of the fetch map alone",
];

/// How the look-aheads lie in the words.
#[rustfmt::skip]
pub(super) const WORDS: &[&str] = &[
    "0 words, no reader", "0 words with readers", "words without a question",
    "words of files not asked about", "one word", "begins within a word", "begins at a border",
    "over a border, fewer than 64 pages", "64 pages in one word", "64 pages in two words",
    "words of a waiting reader", "a word of two readers", "a look-ahead without words",
    "16 words of a reader", "16 words, fewer than 1,024 pages", "256 words",
];

/// The pages of a word.
const WORD: u64 = 64;

/// A reader and the times of its look-ahead, by rising page.
struct Walk<'a> {
    slot: u64,
    reader: &'a Reader,
    times: Vec<u64>,
}

impl Walk<'_> {
    /// When it reads the page, if it has it in look-ahead.
    fn time(&self, page: Page) -> Option<u64> {
        let nth = page.number.checked_sub(self.reader.position + 1)?;
        let time = self.times.get(nth as usize)?;
        (self.reader.file == page.file).then_some(*time)
    }

    fn end(&self) -> u64 {
        self.reader.position + self.times.len() as u64
    }

    /// The words that hold a page of it.
    fn words(&self) -> std::ops::Range<u64> {
        let before = self.reader.file * FILE_PAGES;
        let first = (before + self.reader.position) / WORD;
        match self.times.len() {
            0 => first..first,
            _ => first..(before + self.end()).div_ceil(WORD),
        }
    }
}

/// A state that was asked, and what its readers have before them.
struct Asked<'a> {
    state: &'a State,
    keys: BTreeMap<Page, UseKey>,
    /// The state without its fetches, and its use keys.
    other: State,
    other_keys: BTreeMap<Page, UseKey>,
    walks: Vec<Walk<'a>>,
}

/// What these questions have met, each case once.
pub(super) fn met(state: &State, questions: &[Page]) -> BTreeSet<&'static str> {
    let walks = state.readers.iter().map(|(&slot, reader)| {
        let pages = state.look_ahead_of(reader).into_iter();
        let times = pages.map(|(_, time)| time).collect();
        Walk {
            slot,
            reader,
            times,
        }
    });
    let other = by_cached_map(state);
    let asked = Asked {
        state,
        keys: state.use_keys(),
        other_keys: other.use_keys(),
        other,
        walks: walks.collect(),
    };
    let mut met = asked.words(questions);
    met.extend(asked.rows(questions));
    for &page in questions {
        met.extend(asked.row(page));
    }
    met
}

impl Asked<'_> {
    fn when(&self, page: Page) -> When {
        self.state.when_read_by(&self.keys, page)
    }

    fn row(&self, page: Page) -> BTreeSet<&'static str> {
        match self.when(page) {
            When::Refused(refusal) => self.refused(page, refusal),
            When::Behind => self.behind(page),
            When::NotSeen => self.not_seen(page),
            When::Read { time, slot } => self.read(page, time, slot),
        }
    }

    fn refused(&self, page: Page, refusal: Refusal) -> BTreeSet<&'static str> {
        let Page { file, number } = page;
        let size = self.state.size(file);
        let cut = [0xFF, 0xFFFF, 0xFFFF_FFFF];
        let a_file_if_cut = cut.iter().any(|bits| self.state.size(file & bits) > 0);
        let a_page_if_cut = cut.iter().any(|bits| (1..=size).contains(&(number & bits)));
        match refusal {
            Refusal::File => applying(&[
                (file >= FILES, "3, file above 7"),
                (file < FILES, "3, size 0"),
                (number == 0, "3 and page 0"),
                (number > 0, "3 and a page"),
                (a_file_if_cut, "3, a file if cut"),
            ]),
            _ => applying(&[
                (number == 0, "8, page 0"),
                (number == size + 1, "8, one above the size"),
                (number > FILE_PAGES, "8, above 1,024"),
                (a_page_if_cut, "8, a page if cut"),
            ]),
        }
    }

    /// One of these, by where the page is: cached, in fetch or neither.
    fn placed(&self, page: Page, cases: [&'static str; 3]) -> &'static str {
        let [cached, in_fetch, neither] = cases;
        if self.state.cached.contains(&page) {
            cached
        } else if self.state.in_fetch.contains(&page) {
            in_fetch
        } else {
            neither
        }
    }

    fn readers_of(&self, file: u64) -> impl Iterator<Item = &Walk<'_>> {
        let walks = self.walks.iter();
        walks.filter(move |walk| walk.reader.file == file)
    }

    fn is_read_by_some(&self, page: Page) -> bool {
        let mut walks = self.readers_of(page.file);
        walks.any(|walk| walk.reader.position >= page.number)
    }

    fn is_beyond_some(&self, page: Page) -> bool {
        let mut walks = self.readers_of(page.file);
        walks.any(|walk| walk.reader.last < page.number)
    }

    fn behind(&self, page: Page) -> BTreeSet<&'static str> {
        let cases = ["behind, cached", "behind, in fetch", "behind, neither"];
        let (read, beyond) = (self.is_read_by_some(page), self.is_beyond_some(page));
        applying(&[
            (true, self.placed(page, cases)),
            (!read && !beyond, "behind, no reader of the file"),
            (read && !beyond, "behind, read by all"),
            (beyond && !read, "behind, beyond each last page"),
        ])
    }

    fn not_seen(&self, page: Page) -> BTreeSet<&'static str> {
        let cases = [
            "not seen, cached",
            "not seen, in fetch",
            "not seen, neither",
        ];
        let mut met = applying(&[
            (true, self.placed(page, cases)),
            (self.is_read_by_some(page), "not seen, read by another"),
            (
                self.is_beyond_some(page),
                "not seen, beyond another's last page",
            ),
        ]);
        for walk in self.walks.iter().filter(|walk| walk.reader.has_ahead(page)) {
            let reach = self.state.look_ahead / walk.reader.pace;
            met.insert(match page.number > walk.reader.position + reach {
                true => "not seen, K",
                false => "not seen, pruned",
            });
            if page.number == walk.end() + 1 {
                met.insert("not seen, next after a look-ahead");
            }
        }
        met
    }

    fn read(&self, page: Page, time: u64, slot: u64) -> BTreeSet<&'static str> {
        let cases = ["read, cached", "read, in fetch", "read, neither"];
        let reader = &self.state.readers[&slot];
        let very_last = page.file == FILES - 1 && page.number == FILE_PAGES;
        let mut met = applying(&[
            (true, self.placed(page, cases)),
            (self.is_read_by_some(page), "read by another"),
            (self.is_beyond_some(page), "beyond another's last page"),
            (reader.waiting, "a waiting reader"),
            (slot == SLOTS - 1, "slot 15"),
            (very_last, "page 1,024 of file 7"),
            (reader.next_page() == page, "first of a look-ahead"),
            (time > 65_535, "a time above 65,535"),
        ]);
        met.extend(self.by_seat(page, time, slot));
        met.extend(self.by_time(page, reader));
        met.extend(self.by_link(page, time, slot));
        met
    }

    /// What the other readers of the page have to do with its slot.
    fn by_seat(&self, page: Page, time: u64, slot: u64) -> BTreeSet<&'static str> {
        let seat = self.state.seat_distance(slot);
        let mut met = applying(&[(seat != slot, "the slot is not the seat")]);
        for other in self.readers_of(page.file).filter(|walk| walk.slot != slot) {
            let nearer = self.state.seat_distance(other.slot) < seat;
            met.extend(match other.time(page) {
                Some(later) if later > time => applying(&[(nearer, "the farther seat is earlier")]),
                Some(_) => applying(&[
                    (true, "a tie told by seats"),
                    (slot > other.slot, "a tie won by the higher slot"),
                ]),
                None => applying(&[(other.reader.has_ahead(page), "in no look-ahead of another")]),
            });
        }
        met
    }

    /// What the time is made of.
    fn by_time(&self, page: Page, reader: &Reader) -> BTreeSet<&'static str> {
        let before = (reader.position + 1..page.number).map(|number| Page { number, ..page });
        let before: Vec<Page> = before.collect();
        let counted = self.state.fetch_time > 0;
        let missing = before.iter().any(|&page| !self.state.is_present(page));
        let open = before.iter().any(|page| self.state.in_fetch.contains(page));
        let is_end = |walk: &Walk| walk.reader == reader && walk.end() == page.number;
        applying(&[
            (counted && missing, "q above 0"),
            (counted && open, "less q by a page in fetch"),
            (self.walks.iter().any(is_end), "last of a look-ahead"),
        ])
    }

    /// What the answer would be by the cached map alone.
    fn by_link(&self, page: Page, time: u64, slot: u64) -> BTreeSet<&'static str> {
        match self.other_keys.get(&page) {
            Some(other) => applying(&[
                (other.time != time, "another time"),
                (self.state.slot_at(other.seat) != slot, "another slot"),
            ]),
            None => applying(&[(true, "not seen else")]),
        }
    }

    /// What pages in fetch change in the words, and how they lie in those of a reader.
    fn link_words(&self, words: u64) -> BTreeSet<&'static str> {
        let is_in = |pages: &BTreeSet<Page>, word: u64| {
            let keys = WORD * word..WORD * (word + 1);
            pages
                .range(Page::of_key(keys.start)..=Page::of_key(keys.end - 1))
                .next()
                .is_some()
        };
        let mut met = applying(&[(words > self.other.words_read(), "more words")]);
        for word in self.walks.iter().flat_map(Walk::words) {
            let cached = is_in(&self.state.cached, word);
            let open = is_in(&self.state.in_fetch, word);
            met.extend(applying(&[
                (cached && open, "a word of both maps"),
                (!cached && open, "a word of the fetch map alone"),
            ]));
        }
        met
    }

    /// What the rows have to do with each other.
    fn rows(&self, questions: &[Page]) -> BTreeSet<&'static str> {
        let refused = |page: &Page| matches!(self.when(*page), When::Refused(_));
        let first = questions.iter().position(refused);
        let all = !questions.is_empty() && questions.iter().all(refused);
        let behind_first = first.map_or(&[][..], |first| &questions[first + 1..]);
        let answered = behind_first.iter().any(|page| !refused(page));
        let apart: BTreeSet<&Page> = questions.iter().collect();
        applying(&[
            (answered, "a row after a refused one"),
            (all, "all rows refused"),
            (apart.len() < questions.len(), "a page asked twice"),
        ])
    }

    fn words(&self, questions: &[Page]) -> BTreeSet<&'static str> {
        let words = self.state.words_read();
        let mut all: Vec<u64> = self.walks.iter().flat_map(Walk::words).collect();
        all.sort();
        let shared = all.windows(2).any(|two| two[0] == two[1]);
        let is_asked = |walk: &Walk| questions.iter().any(|page| page.file == walk.reader.file);
        let mut read = self.walks.iter().filter(|walk| !walk.times.is_empty());
        let not_asked = read.any(|walk| !is_asked(walk));
        let mut met = applying(&[
            (self.walks.is_empty(), "0 words, no reader"),
            (words == 0 && !self.walks.is_empty(), "0 words with readers"),
            (
                words > 0 && questions.is_empty(),
                "words without a question",
            ),
            (
                not_asked && !questions.is_empty(),
                "words of files not asked about",
            ),
            (shared, "a word of two readers"),
            (words == 16 * SLOTS, "256 words"),
        ]);
        met.extend(self.walks.iter().flat_map(words_of));
        met.extend(self.link_words(words));
        met
    }
}

/// How one look-ahead lies in the words.
fn words_of(walk: &Walk) -> BTreeSet<&'static str> {
    let (pages, words) = (walk.times.len() as u64, walk.words().count() as u64);
    if pages == 0 {
        return applying(&[(true, "a look-ahead without words")]);
    }
    let within = !walk.reader.position.is_multiple_of(WORD);
    applying(&[
        (words == 1, "one word"),
        (within, "begins within a word"),
        (!within, "begins at a border"),
        (
            words == 2 && pages < WORD,
            "over a border, fewer than 64 pages",
        ),
        (words == 1 && pages == WORD, "64 pages in one word"),
        (words == 2 && pages == WORD, "64 pages in two words"),
        (walk.reader.waiting, "words of a waiting reader"),
        (words == 16, "16 words of a reader"),
        (
            words == 16 && pages < FILE_PAGES,
            "16 words, fewer than 1,024 pages",
        ),
    ])
}
