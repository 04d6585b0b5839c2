//! The state: files, frames, readers, the turn, and two sets of pages.

use crate::limits::{FILES, FILE_PAGES, SLOTS};
use std::collections::{BTreeMap, BTreeSet};

/// A page of a file. "Pages count from 1."
#[derive(Clone, Copy, Debug, PartialEq, Eq, PartialOrd, Ord)]
pub struct Page {
    /// Its file.
    pub file: u64,
    /// Its number in the file.
    pub number: u64,
}

impl Page {
    /// "A page number in a list is its key: file × 1,024 + page − 1."
    pub fn key(self) -> u64 {
        self.file * FILE_PAGES + self.number - 1
    }

    /// The page that has this key.
    pub fn of_key(key: u64) -> Page {
        Page {
            file: key / FILE_PAGES,
            number: key % FILE_PAGES + 1,
        }
    }
}

/// "A reader has a file, a pace w (ticks per page, 1 to 1,000) and a position
/// c, the last page read"; "Attach takes a start position and a last page"; "Each
/// reader gains a mark". A slot without a reader is empty.
#[derive(Clone, Copy, Debug, PartialEq, Eq)]
pub struct Reader {
    /// The file that it reads.
    pub file: u64,
    /// w, its ticks per page.
    pub pace: u64,
    /// c, the last page read.
    pub position: u64,
    /// Its last page: "The reader's Z comes at its last page."
    pub last: u64,
    /// Its mark, "the position at its last such call or at Attach": such a call
    /// is Measure.
    pub mark: u64,
    /// Its condition: waiting, or else running.
    pub waiting: bool,
}

impl Reader {
    /// A reader that is not waiting, as Attach seats it: its mark is its position.
    pub fn running(file: u64, pace: u64, position: u64, last: u64) -> Reader {
        Reader {
            file,
            pace,
            position,
            last,
            mark: position,
            waiting: false,
        }
    }

    /// n, the "pages read since the mark".
    pub fn since_mark(&self) -> u64 {
        self.position - self.mark
    }

    /// Page c + 1 of its file, whether or not the file is that long.
    pub fn next_page(&self) -> Page {
        Page {
            file: self.file,
            number: self.position + 1,
        }
    }

    /// It has read all that it reads.
    pub fn is_at_end(&self) -> bool {
        self.position == self.last
    }

    /// The page is still before it: above its position, and not beyond its last
    /// page: "a page beyond it is not ahead of that reader".
    pub fn has_ahead(&self, page: Page) -> bool {
        page.file == self.file && (self.position + 1..=self.last).contains(&page.number)
    }
}

/// A.6: "a second steal rule, selected at Setup". The numbers are the image's.
#[derive(Clone, Copy, Debug, PartialEq, Eq)]
pub enum Rule {
    /// "0 for 1989".
    Of1989 = 0,
    /// "1 for 1993".
    Of1993 = 1,
}

impl Rule {
    /// The rule that has this number, if one of "the two" has it.
    pub fn of_number(number: u64) -> Option<Rule> {
        match number {
            0 => Some(Rule::Of1989),
            1 => Some(Rule::Of1993),
            _ => None,
        }
    }

    /// Its number.
    pub fn number(self) -> u64 {
        self as u64
    }
}

/// All that the box knows. "A page is cached, in fetch, or neither."
#[derive(Clone, Debug, PartialEq, Eq)]
pub struct State {
    /// How many pages may be cached at once.
    pub frames: u64,
    /// L, in ticks.
    pub look_ahead: u64,
    /// T, in ticks.
    pub fetch_time: u64,
    /// Pages of each file. "0: no such file".
    pub sizes: [u64; FILES as usize],
    /// The readers by slot; an empty slot has no entry.
    pub readers: BTreeMap<u64, Reader>,
    /// "The turn is a slot number, 0 at first."
    pub turn: u64,
    /// The pages that are cached.
    pub cached: BTreeSet<Page>,
    /// The pages that are in fetch.
    pub in_fetch: BTreeSet<Page>,
    /// The rule that pages are stolen by.
    pub rule: Rule,
    /// E of each file, its expected readers.
    pub expected: [u64; FILES as usize],
    /// R of each file: "R counts attaches to the file".
    pub attaches: [u64; FILES as usize],
}

impl State {
    /// "the idle state [...] (frames 1, L 1, T 0, sizes 0)": 1989, E and R 0.
    pub fn idle() -> State {
        State {
            frames: 1,
            look_ahead: 1,
            fetch_time: 0,
            sizes: [0; FILES as usize],
            readers: BTreeMap::new(),
            turn: 0,
            cached: BTreeSet::new(),
            in_fetch: BTreeSet::new(),
            rule: Rule::Of1989,
            expected: [0; FILES as usize],
            attaches: [0; FILES as usize],
        }
    }

    /// A file's size; 0 for numbers that are no file's.
    pub fn size(&self, file: u64) -> u64 {
        if file < FILES {
            self.sizes[file as usize]
        } else {
            0
        }
    }

    /// The files that there are: "0: no such file".
    pub fn files(&self) -> Vec<u64> {
        (0..FILES).filter(|&file| self.size(file) > 0).collect()
    }

    /// "A reader's seat distance is (slot − turn) modulo 16."
    pub fn seat_distance(&self, slot: u64) -> u64 {
        (slot + SLOTS - self.turn) % SLOTS
    }

    /// The slot that has this seat distance.
    pub fn slot_at(&self, seat: u64) -> u64 {
        (self.turn + seat) % SLOTS
    }

    /// Some reader still has the page before it.
    pub fn is_ahead_of_some_reader(&self, page: Page) -> bool {
        self.readers.values().any(|reader| reader.has_ahead(page))
    }

    /// The turn "grows by 1 modulo 16".
    pub fn pass_turn(&mut self) {
        self.turn = (self.turn + 1) % SLOTS;
    }
}
