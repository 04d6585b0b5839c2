//! The 1993 rule on the flat state: which file gives up a page.

use super::{Flat, FILES, FILE_WORDS};

/// What each file weighs, and their sum. The share of a file is frames × weight ÷ sum;
/// all surpluses are compared times the sum, so that nothing is divided.
pub(super) struct Weights {
    /// Frames × weight of each file.
    shares: [i64; FILES],
    /// 1 where all weights are 0: so are the shares then.
    sum: i64,
}

impl Weights {
    /// The file to give up a page when so many pages of each are cached.
    pub(super) fn file_to_give_up(&self, cached: &[u32; FILES]) -> Option<usize> {
        let mut chosen = None;
        for file in (0..FILES).filter(|&file| cached[file] > 0) {
            let surplus = i64::from(cached[file]) * self.sum - self.shares[file];
            if chosen.is_none_or(|(greatest, _)| surplus >= greatest) {
                chosen = Some((surplus, file));
            }
        }
        chosen.map(|(_, file)| file)
    }
}

impl Flat {
    pub(super) fn weights(&self) -> Weights {
        let weights: [i64; FILES] = std::array::from_fn(|file| {
            let awaited = self.expected[file].saturating_sub(self.attaches[file]);
            i64::from(awaited * self.sizes[file])
        });
        Weights {
            shares: weights.map(|weight| i64::from(self.frames) * weight),
            sum: weights.iter().sum::<i64>().max(1),
        }
    }

    /// How many pages of each file are cached.
    pub(super) fn cached_by_file(&self) -> [u32; FILES] {
        std::array::from_fn(|file| {
            let words = &self.cached[file * FILE_WORDS..(file + 1) * FILE_WORDS];
            words.iter().map(|word| word.count_ones()).sum()
        })
    }
}
