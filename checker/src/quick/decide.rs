//! The two decisions: the page to give up and the next page to fetch; and the walk
//! that they, and the lists, go by.

use super::{has, put_stretch, Flat, Reader, EMPTY, FILES, FILE_WORDS, PAGES, SLOTS, WORDS};
use std::ops::Range;

/// The use key of a page in no look-ahead.
pub(super) const NONE: u32 = u32::MAX;

impl Flat {
    /// The head of the steal order.
    pub(super) fn page_to_give_up(&self) -> Option<usize> {
        if !self.weighted {
            return self.first_to_go(0..FILES);
        }
        let file = self.weights().file_to_give_up(&self.cached_by_file())?;
        self.first_to_go(file..file + 1)
    }

    /// The head of the three stretches of these files alone.
    fn first_to_go(&self, files: Range<usize>) -> Option<usize> {
        let mut use_keys = [NONE; PAGES];
        self.walk_files(&files, &mut use_keys);
        let ahead = self.pages_ahead();
        let mut head = None;
        for index in files.start * FILE_WORDS..files.end * FILE_WORDS {
            let mut left = self.cached[index];
            while left != 0 {
                let key = index * 64 + left.trailing_zeros() as usize;
                left &= left - 1;
                let rank = rank(key, use_keys[key], has(&ahead, key));
                if head.is_none_or(|(highest, _)| rank > highest) {
                    head = Some((rank, key));
                }
            }
        }
        head.map(|(_, key)| key)
    }

    /// The head of the fetch order.
    pub(super) fn next_to_fetch(&self) -> Option<usize> {
        let mut use_keys = [NONE; PAGES];
        self.walk(&mut use_keys);
        let mut smallest = NONE;
        let mut head = None;
        for (key, &use_key) in use_keys.iter().enumerate() {
            if use_key < smallest && !has(&self.cached, key) && !has(&self.in_fetch, key) {
                smallest = use_key;
                head = Some(key);
            }
        }
        head
    }

    /// Walks every reader's look-ahead once and leaves each page's smallest use
    /// key. Gives how many pages were tested for being cached.
    pub(super) fn walk(&self, use_keys: &mut [u32; PAGES]) -> u64 {
        self.walk_files(&(0..FILES), use_keys)
    }

    /// The same for the readers of these files.
    fn walk_files(&self, files: &Range<usize>, use_keys: &mut [u32; PAGES]) -> u64 {
        let present = self.present();
        let mut tested = 0;
        for (slot, reader) in self.readers.iter().enumerate() {
            if reader.condition != EMPTY && files.contains(&reader.file) {
                let seat = (slot + SLOTS - self.turn) % SLOTS;
                tested += self.walk_ahead_of(reader, seat as u32, &present, use_keys);
            }
        }
        tested
    }

    /// The pages that count as cached in q and in the pruning: both maps, word by word.
    pub(super) fn present(&self) -> [u64; WORDS] {
        std::array::from_fn(|index| self.cached[index] | self.in_fetch[index])
    }

    /// Walks one look-ahead by the pages that are present, and gives its pages. A use
    /// key is time × 16 + seat distance; a time is below 4,000,001, so the key fits.
    pub(super) fn walk_ahead_of(
        &self,
        reader: &Reader,
        seat: u32,
        present: &[u64; WORDS],
        use_keys: &mut [u32; PAGES],
    ) -> u64 {
        let most_missing = self.most_missing();
        let left = reader.last - reader.position;
        let reach = left.min(self.look_ahead / reader.pace) as usize;
        let first = reader.next();
        let mut end = first + reach;
        let (mut time, mut missing) = (0, 0);
        for (key, smallest) in (first..).zip(&mut use_keys[first..first + reach]) {
            if missing >= most_missing {
                end = key;
                break;
            }
            time += reader.pace;
            *smallest = (*smallest).min(time * 16 + seat);
            if !has(present, key) {
                missing += 1;
                time += self.fetch_time;
            }
        }
        (end - first) as u64
    }

    /// m, the missing pages that end a look-ahead. With T 0 none do.
    pub(super) fn most_missing(&self) -> u32 {
        let m = self.look_ahead.checked_div(self.fetch_time);
        m.unwrap_or(u32::MAX)
    }

    /// The pages that some reader still has before it.
    pub(super) fn pages_ahead(&self) -> [u64; WORDS] {
        let mut ahead = [0; WORDS];
        for reader in self.readers.iter().filter(|r| r.condition != EMPTY) {
            put_stretch(&mut ahead, reader.next()..reader.end());
        }
        ahead
    }
}

/// A page's place in the steal order, the head highest: the stretch above, the
/// order within it below.
pub(super) fn rank(key: usize, use_key: u32, is_ahead: bool) -> u64 {
    const PAST: u64 = 2 << 32;
    const FAR: u64 = 1 << 32;
    if use_key != NONE {
        return use_key.into();
    }
    let (file, page) = (key / 1_024, key % 1_024 + 1);
    let page_then_file = (page * 8 + file) as u64;
    if is_ahead {
        FAR + page_then_file
    } else {
        PAST + page_then_file
    }
}
