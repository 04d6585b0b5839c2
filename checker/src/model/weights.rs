//! A.6, "The 1993 weighting beside the 1989 rule": what a file weighs, its share of the
//! frames, the file that gives up a page, and the steal order that this makes.

use super::orders::UseKey;
use super::state::{Page, State};
use crate::limits::FILES;
use std::cmp::Ordering;
use std::collections::{BTreeMap, VecDeque};

/// A number that need not be whole: one over another, which is above 0. "compared
/// without rounding": crosswise.
#[derive(Clone, Copy, Debug)]
#[allow(missing_docs)]
pub struct Fraction {
    pub top: i128,
    pub bottom: i128,
}

impl Ord for Fraction {
    fn cmp(&self, other: &Fraction) -> Ordering {
        (self.top * other.bottom).cmp(&(other.top * self.bottom))
    }
}

impl PartialOrd for Fraction {
    fn partial_cmp(&self, other: &Fraction) -> Option<Ordering> {
        Some(self.cmp(other))
    }
}

impl PartialEq for Fraction {
    fn eq(&self, other: &Fraction) -> bool {
        self.cmp(other) == Ordering::Equal
    }
}

impl Eq for Fraction {}

impl State {
    /// "A file's weight is (E − R, or 0 if negative) × size."
    pub fn weight(&self, file: u64) -> u64 {
        let (expected, attaches) = (self.expected[file as usize], self.attaches[file as usize]);
        expected.saturating_sub(attaches) * self.size(file)
    }

    /// The "sum of weights", over all files.
    pub fn sum_of_weights(&self) -> u64 {
        (0..FILES).map(|file| self.weight(file)).sum()
    }

    /// A file's share, "frames × weight ÷ sum of weights"; "a sum of 0 makes every share
    /// 0".
    pub fn share(&self, file: u64) -> Fraction {
        match self.sum_of_weights() {
            0 => Fraction { top: 0, bottom: 1 },
            sum => Fraction {
                top: i128::from(self.frames) * i128::from(self.weight(file)),
                bottom: sum.into(),
            },
        }
    }

    /// "cached pages − frames × weight ÷ sum of weights", for so many cached pages of a
    /// file. It may be below 0.
    pub fn surplus(&self, file: u64, cached: u64) -> Fraction {
        let share = self.share(file);
        Fraction {
            top: i128::from(cached) * share.bottom - share.top,
            ..share
        }
    }

    /// How many pages of each file are cached.
    pub fn cached_by_file(&self) -> [u64; FILES as usize] {
        let mut counts = [0; FILES as usize];
        for page in &self.cached {
            counts[page.file as usize] += 1;
        }
        counts
    }

    /// The file that gives up a page when so many pages of each are cached: "one with
    /// cached pages for which" the surplus "is greatest [...]; equal: higher file".
    pub fn file_to_give_up(&self, cached: [u64; FILES as usize]) -> Option<u64> {
        let files = (0..FILES).filter(|&file| cached[file as usize] > 0);
        files.max_by_key(|&file| (self.surplus(file, cached[file as usize]), file))
    }

    /// The steal order under the 1993 rule. "In it", the file, "goes the largest page of
    /// the first stretch, else the largest ahead but in no look-ahead, else the largest
    /// use key": the first of the three stretches that is its own. "Repeating this
    /// choice, with look-aheads and use keys held as at the start, gives the list."
    pub(super) fn weighted_order(&self, keys: &BTreeMap<Page, UseKey>) -> Vec<Page> {
        let mut of_file: [VecDeque<Page>; FILES as usize] = Default::default();
        for page in self.three_stretches(keys) {
            of_file[page.file as usize].push_back(page);
        }
        let mut cached = self.cached_by_file();
        let mut order = Vec::new();
        while let Some(file) = self.file_to_give_up(cached) {
            order.extend(of_file[file as usize].pop_front());
            cached[file as usize] -= 1;
        }
        order
    }
}
