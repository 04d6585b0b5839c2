//! The files as rows of pages, with the readers along them.

use crate::model::{Page, State};
use std::collections::BTreeMap;

/// The pages in a row.
const ROW: u64 = 64;

/// Fewer rows alike than this, behind the first of them, are shown each.
const FEW: usize = 2;

/// The places of a row that have a number over them.
pub const RULER: [usize; 8] = [0, 8, 16, 24, 32, 40, 48, 56];

/// What a page is.
#[derive(Clone, Copy, Debug, PartialEq, Eq)]
pub enum Mark {
    /// It is cached.
    Cached,
    /// It is in fetch.
    InFetch,
    /// It is neither.
    Neither,
}

/// A file that has pages.
#[derive(Clone, Debug)]
pub struct Strip {
    /// Its number.
    pub file: u64,
    /// Its pages.
    pub size: u64,
    /// Its pages in rows, by rising page.
    pub rows: Vec<PageRow>,
}

/// Some pages of a file in a row.
#[derive(Clone, Debug)]
pub struct PageRow {
    /// The first page.
    pub first: u64,
    /// What each page is, by rising page.
    pub marks: Vec<Mark>,
    /// What the readers have in this row, by rising page: where they are and where
    /// they end. One that has read nothing is in the first row.
    pub readers: Vec<ReaderMark>,
}

/// Rows as they are shown.
#[derive(Clone, Debug)]
pub enum Shown<'a> {
    /// A row.
    Row(&'a PageRow),
    /// So many rows more, alike to the one before, up to this page.
    Alike(usize, u64),
}

/// A place of readers along a row.
#[derive(Clone, Debug, PartialEq, Eq, PartialOrd, Ord)]
pub struct ReaderMark {
    /// The mark of the page, from 1; 0 before the first page.
    pub column: u64,
    /// What the page is to them.
    pub sign: Sign,
    /// The slot of a reader that is here, and w if it waits; or the slots of all
    /// that end here.
    pub label: String,
}

/// What a page is to readers.
#[derive(Clone, Copy, Debug, PartialEq, Eq, PartialOrd, Ord)]
pub enum Sign {
    /// The last page that one has read.
    Read,
    /// Their last page.
    End,
}

impl Strip {
    /// Whether its rows have page numbers beside and a ruler above: there are
    /// several.
    pub fn is_ruled(&self) -> bool {
        self.rows.len() > 1
    }

    /// The rows, those alike that follow each other by the first of them and
    /// their count; or every row.
    pub fn shown(&self, every_row: bool) -> Vec<Shown<'_>> {
        let mut shown = Vec::new();
        for alike in self.rows.chunk_by(|row, next| row.is_alike(next)) {
            let count = if every_row { 0 } else { alike.len() - 1 };
            if count < FEW {
                shown.extend(alike.iter().map(Shown::Row));
            } else {
                let last = alike[count].last();
                shown.extend([Shown::Row(&alike[0]), Shown::Alike(count, last)]);
            }
        }
        shown
    }
}

impl PageRow {
    /// The last page.
    pub fn last(&self) -> u64 {
        self.first + self.marks.len() as u64 - 1
    }

    /// Whether readers have nothing in both, which are of one and the same mark.
    fn is_alike(&self, other: &PageRow) -> bool {
        let no_reader = self.readers.is_empty() && other.readers.is_empty();
        let mut marks = self.marks.iter().chain(&other.marks);
        no_reader && marks.all(|&mark| mark == self.marks[0])
    }
}

/// A strip for each file that there is.
pub fn strips(state: &State) -> Vec<Strip> {
    let strip = |file| {
        let size = state.size(file);
        let starts = (1..=size).step_by(ROW as usize);
        Strip {
            file,
            size,
            rows: starts.map(|first| row(state, file, first)).collect(),
        }
    };
    state.files().into_iter().map(strip).collect()
}

/// The row of a file that starts with this page.
fn row(state: &State, file: u64, first: u64) -> PageRow {
    let last = state.size(file).min(first + ROW - 1);
    let pages = (first..=last).map(|number| Page { file, number });
    let mut readers = read_marks(state, file, first, last);
    readers.extend(end_marks(state, file, first, last));
    readers.sort_by_key(|reader| (reader.column, reader.sign)); // those alike stay by slot
    PageRow {
        first,
        marks: pages.map(|page| mark(state, page)).collect(),
        readers,
    }
}

/// The readers whose last page read is one of these, by slot.
fn read_marks(state: &State, file: u64, first: u64, last: u64) -> Vec<ReaderMark> {
    let from = if first == 1 { 0 } else { first };
    let here = state
        .readers
        .iter()
        .filter(|(_, reader)| reader.file == file && (from..=last).contains(&reader.position));
    here.map(|(slot, reader)| ReaderMark {
        column: reader.position + 1 - first,
        sign: Sign::Read,
        label: format!("{slot}{}", if reader.waiting { "w" } else { "" }),
    })
    .collect()
}

/// The pages among these that are the last of readers.
fn end_marks(state: &State, file: u64, first: u64, last: u64) -> Vec<ReaderMark> {
    let mut slots_by_end: BTreeMap<u64, Vec<u64>> = BTreeMap::new();
    for (&slot, reader) in &state.readers {
        if reader.file == file && (first..=last).contains(&reader.last) {
            slots_by_end.entry(reader.last).or_default().push(slot);
        }
    }
    let ends = slots_by_end.into_iter();
    ends.map(|(page, slots)| ReaderMark {
        column: page + 1 - first,
        sign: Sign::End,
        label: slot_list(&slots),
    })
    .collect()
}

/// Rising slots in few characters: "0,1,4-7".
fn slot_list(slots: &[u64]) -> String {
    let runs = slots.chunk_by(|slot, next| slot + 1 == *next);
    let runs = runs.map(|run| match run {
        [slot] => slot.to_string(),
        [low, high] => format!("{low},{high}"),
        [low, .., high] => format!("{low}-{high}"),
        [] => String::new(),
    });
    runs.collect::<Vec<_>>().join(",")
}

fn mark(state: &State, page: Page) -> Mark {
    if state.cached.contains(&page) {
        Mark::Cached
    } else if state.in_fetch.contains(&page) {
        Mark::InFetch
    } else {
        Mark::Neither
    }
}
