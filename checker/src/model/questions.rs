//! "When will these be read?": the single question, and the call on a list of them.

use super::answer::Refusal;
use super::orders::UseKey;
use super::state::{Page, State};
use crate::call::ROWS_HANDED;
use crate::limits::MOST_QUESTIONS;
use std::collections::{BTreeMap, BTreeSet};

/// The answer to a question: "time and slot of the use key, behind (ahead of no
/// reader of its file), not seen, or the row's own refusal 3 or 8".
#[derive(Clone, Copy, Debug, PartialEq, Eq)]
pub enum When {
    /// The page is in a look-ahead.
    #[allow(missing_docs)]
    Read { time: u64, slot: u64 },
    /// No reader of its file still has it before it.
    Behind,
    /// It is ahead of some reader, but in no look-ahead.
    NotSeen,
    /// 3 or 8.
    Refused(Refusal),
}

impl When {
    /// The answer as a number: the refusal's, 256 for behind, 257 for not seen, or
    /// 4,294,967,296 + time × 256 + slot.
    pub fn number(self) -> u64 {
        match self {
            When::Refused(refusal) => refusal.number(),
            When::Behind => 256,
            When::NotSeen => 257,
            When::Read { time, slot } => 4_294_967_296 + time * 256 + slot,
        }
    }
}

/// Restore of an image, then the call on the rows that are handed over: 13, 12, or
/// 4,294,967,296 + words. Gives the number and the answers after it: a record that
/// the call leaves is 0, and 13 leaves all as they were.
pub fn when_read(image: &[u8], questions: &[u64], answers: &[u64]) -> (u64, Vec<u64>) {
    let (state, restored) = State::restore(image);
    if let Err(refusal) = restored {
        return (refusal.number(), answers.to_vec());
    }
    let pages = questions.chunks_exact(2).map(|two| Page {
        file: two[0],
        number: two[1],
    });
    let pages: Vec<Page> = pages.take(ROWS_HANDED).collect();
    let mut records = vec![None; answers.len().min(ROWS_HANDED)];
    let number = match state.when_all_read(&pages, &mut records) {
        Ok(words) => 4_294_967_296 + words,
        Err(refusal) => refusal.number(),
    };
    let mut after = answers.to_vec();
    for (number, record) in after.iter_mut().zip(records) {
        *number = record.map_or(0, When::number);
    }
    (number, after)
}

impl State {
    /// A single question.
    pub fn when_read(&self, page: Page) -> When {
        self.when_read_by(&self.use_keys(), page)
    }

    /// A single question by these use keys. "a page that isn't cached is judged by the
    /// same rules": whether it is, is not asked.
    pub fn when_read_by(&self, keys: &BTreeMap<Page, UseKey>, page: Page) -> When {
        if let Err(refusal) = self.check_page(page) {
            return When::Refused(refusal);
        }
        match keys.get(&page) {
            Some(&UseKey { time, seat }) => When::Read {
                time,
                slot: self.slot_at(seat),
            },
            None if self.is_ahead_of_some_reader(page) => When::NotSeen,
            None => When::Behind,
        }
    }

    /// The call: "Row by row the answers equal those of a single question." "More
    /// than 1,024 rows, or a short answer list, get 12, and the answer list is left.
    /// Past what is written a lent list keeps". Returns the words that were read.
    pub fn when_all_read(
        &self,
        questions: &[Page],
        answers: &mut [Option<When>],
    ) -> Result<u64, Refusal> {
        let rows = questions.len();
        let room = answers.get_mut(..rows).ok_or(Refusal::TooShort)?;
        if rows > MOST_QUESTIONS {
            return Err(Refusal::TooShort);
        }
        let keys = self.use_keys();
        for (answer, &page) in room.iter_mut().zip(questions) {
            *answer = Some(self.when_read_by(&keys, page));
        }
        Ok(self.words_read())
    }

    /// "how many 64-bit map words were read: for each reader, the words of the cached
    /// map that hold a page of its look-ahead, added over the readers". A word counts
    /// once for each reader that has a page in it. A.5: "the two words at one place of
    /// the two maps count as one".
    pub fn words_read(&self) -> u64 {
        let readers = self.readers.values();
        let words = readers.map(|reader| {
            let pages = self.look_ahead_of(reader).into_iter();
            let words: BTreeSet<u64> = pages.map(|(page, _)| page.key() / 64).collect();
            words.len() as u64
        });
        words.sum()
    }
}
