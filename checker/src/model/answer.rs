//! What a call answers: "one case of a fixed set".

use super::state::Page;
use std::fmt;

/// The answer of a call that was not refused.
#[derive(Clone, Copy, Debug, PartialEq, Eq)]
pub enum Answer {
    /// O: Setup, Attach, Detach, Lost and Measure are done.
    Done,
    /// H: the page was cached and has been read.
    Hit(Page),
    /// W: the page is in fetch already, the reader waits.
    Wait(Page),
    /// F: the page has been put in fetch.
    Fetch(Page),
    /// Z: the reader is at its last page.
    End,
    /// U: nothing to steal, or nothing to prefetch.
    Nothing,
    /// S: the page has been dropped.
    Stolen(Page),
    /// I: the page is cached. "The answer I names the dropped page, if any."
    Arrived(Option<Page>),
    /// N: "the fetches made (turns that met F) and the reads (turns that ended
    /// in H)".
    #[allow(missing_docs)]
    Ran { fetches: u64, reads: u64 },
}

impl Answer {
    /// The answer's letter.
    pub fn letter(self) -> char {
        match self {
            Answer::Done => 'O',
            Answer::Hit(_) => 'H',
            Answer::Wait(_) => 'W',
            Answer::Fetch(_) => 'F',
            Answer::End => 'Z',
            Answer::Nothing => 'U',
            Answer::Stolen(_) => 'S',
            Answer::Arrived(_) => 'I',
            Answer::Ran { .. } => 'N',
        }
    }

    /// The page that the answer names, if it names one.
    pub fn page(self) -> Option<Page> {
        match self {
            Answer::Hit(page) | Answer::Wait(page) | Answer::Fetch(page) => Some(page),
            Answer::Stolen(page) => Some(page),
            Answer::Arrived(dropped) => dropped,
            Answer::Done | Answer::End | Answer::Nothing | Answer::Ran { .. } => None,
        }
    }

    /// "the answer letter's ASCII code × 65,536 + (key + 1, or 0 without a
    /// page) [...] for Run 4,294,967,296 + fetches × 65,536 + reads".
    pub fn number(self) -> u64 {
        match self {
            Answer::Ran { fetches, reads } => 4_294_967_296 + fetches * 65_536 + reads,
            _ => u64::from(self.letter()) * 65_536 + self.page().map_or(0, |page| page.key() + 1),
        }
    }
}

/// The answer as a line of the program.
impl fmt::Display for Answer {
    fn fmt(&self, line: &mut fmt::Formatter) -> fmt::Result {
        write!(line, "{}", self.letter())?;
        if let Answer::Ran { fetches, reads } = self {
            write!(line, ",{fetches},{reads}")?;
        }
        if let Some(page) = self.page() {
            write!(line, ",{},{}", page.file, page.number)?;
        }
        Ok(())
    }
}

/// Why a call is refused, with the paper's number.
#[derive(Clone, Copy, Debug, PartialEq, Eq)]
pub enum Refusal {
    /// Setup: "any value out of range".
    Setup = 1,
    /// "slot above 15".
    Slot = 2,
    /// "file above 7 or of size 0".
    File = 3,
    /// "pace out of range".
    Pace = 4,
    /// "slot not empty".
    Taken = 5,
    /// "slot empty".
    Empty = 6,
    /// "reader waiting".
    Waiting = 7,
    /// "page 0 or above the size".
    Page = 8,
    /// "page not in fetch".
    NotInFetch = 9,
    /// Run: "a page is in fetch".
    FetchOpen = 10,
    /// Run: turns "above 16,384".
    Turns = 11,
    /// "list too short", "buffer shorter", "More than 1,024 rows".
    TooShort = 12,
    /// Restore's rules.
    Image = 13,
    /// The program: "any other line".
    Line = 14,
    /// "last page 0 or above the size, or start above the last".
    LastPage = 15,
    /// Measure: "interval out of range or blocked above it".
    Interval = 16,
}

impl Refusal {
    /// The number that the paper gives it.
    pub fn number(self) -> u64 {
        self as u64
    }
}

/// The refusal as a line of the program: "E,number".
impl fmt::Display for Refusal {
    fn fmt(&self, line: &mut fmt::Formatter) -> fmt::Result {
        write!(line, "E,{}", self.number())
    }
}
