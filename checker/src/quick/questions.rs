//! When pages will be read, on an image: each question by itself, each reader's time
//! worked out from counts of both maps.

use super::decide::NONE;
use super::{Flat, Reader, EMPTY, PAGES, SLOTS};
use crate::call::ROWS_HANDED;
use crate::limits::MOST_QUESTIONS;
use std::ops::Range;

const BEHIND: u64 = 256;
const NOT_SEEN: u64 = 257;

/// Questions on an image of any length that there is: Restore, each question by itself,
/// and the number.
pub fn when_read(image: &[u8], questions: &[u64], answers: &mut [u64]) -> u64 {
    let Some(flat) = Flat::restore_any(image) else {
        return 13;
    };
    let handed = answers.len().min(ROWS_HANDED);
    let answers = &mut answers[..handed];
    answers.fill(0);
    let rows = questions.len() / 2;
    if rows > MOST_QUESTIONS || rows > handed {
        return 12;
    }
    for (answer, two) in answers.iter_mut().zip(questions.chunks_exact(2)) {
        *answer = flat.when(two[0], two[1]);
    }
    (1 << 32) + flat.words()
}

/// One question on an image by itself: Restore, and the number of the answer.
pub fn question(image: &[u8], file: u64, page: u64) -> u64 {
    match Flat::restore_any(image) {
        Some(flat) => flat.when(file, page),
        None => 13,
    }
}

impl Flat {
    /// The number of the answer to a question.
    fn when(&self, file: u64, page: u64) -> u64 {
        let size = match file {
            0..=7 => self.sizes[file as usize].into(),
            _ => 0,
        };
        if size == 0 {
            return 3;
        }
        if page == 0 || page > size {
            return 8;
        }
        let key = (file * 1_024 + page - 1) as usize;
        let (mut smallest, mut is_ahead) = (NONE, false);
        for seat in 0..SLOTS {
            let reader = &self.readers[(self.turn + seat) % SLOTS];
            let ahead = reader.next()..reader.end();
            if reader.condition != EMPTY && ahead.contains(&key) {
                is_ahead = true;
                smallest = smallest.min(self.use_key(reader, seat as u32, key));
            }
        }
        match (smallest, is_ahead) {
            (NONE, true) => NOT_SEEN,
            (NONE, false) => BEHIND,
            _ => self.time_and_slot(smallest),
        }
    }

    fn time_and_slot(&self, use_key: u32) -> u64 {
        let (time, seat) = (u64::from(use_key / 16), use_key as usize % 16);
        let slot = (self.turn + seat) % SLOTS;
        (1 << 32) + time * 256 + slot as u64
    }

    /// What use key a reader gives a page that is ahead of it, if it has it in
    /// look-ahead.
    fn use_key(&self, reader: &Reader, seat: u32, key: usize) -> u32 {
        let first = reader.next();
        let nth = (key - first) as u32 + 1;
        let missing = self.missing(first..key);
        if nth > self.look_ahead / reader.pace || missing >= self.most_missing() {
            return NONE;
        }
        (nth * reader.pace + missing * self.fetch_time) * 16 + seat
    }

    /// How many pages of a stretch of keys are neither cached nor in fetch, word by word.
    fn missing(&self, keys: Range<usize>) -> u32 {
        let (mut key, mut missing) = (keys.start, 0);
        while key < keys.end {
            let behind = keys.end.min((key / 64 + 1) * 64);
            let stretch = u64::MAX >> (64 - (behind - key)) << (key % 64);
            let present = self.cached[key / 64] | self.in_fetch[key / 64];
            missing += (!present & stretch).count_ones();
            key = behind;
        }
        missing
    }

    /// The words of the maps that hold a page of a look-ahead, two at one place counted
    /// as one, added over the readers.
    fn words(&self) -> u64 {
        let mut use_keys = [NONE; PAGES];
        let present = self.present();
        let mut words = 0;
        for reader in self.readers.iter().filter(|r| r.condition != EMPTY) {
            let first = reader.next() as u64;
            let pages = self.walk_ahead_of(reader, 0, &present, &mut use_keys);
            if pages > 0 {
                words += (first + pages - 1) / 64 - first / 64 + 1;
            }
        }
        words
    }
}
