//! The 1993 rule: which file gives up a page.

use super::{two, Image, FILES};
use crate::layout::{ATTACHES, EXPECTED, FRAMES, SIZES};

/// What each file has above its share, times the sum of the weights, so that nothing is
/// divided; and the cached pages.
#[derive(Clone, Copy)]
pub(super) struct Surpluses {
    /// cached pages × sum − frames × weight.
    surplus: [i64; FILES],
    cached: [u32; FILES],
    /// 1 where all weights are 0: so are the shares then.
    sum: i64,
}

impl Surpluses {
    pub(super) fn of(image: &Image, cached: [u32; FILES]) -> Surpluses {
        let weights: [i64; FILES] = std::array::from_fn(|file| {
            let expected = two(image, EXPECTED + 2 * file);
            let awaited = expected.saturating_sub(two(image, ATTACHES + 2 * file));
            i64::from(awaited * two(image, SIZES + 2 * file))
        });
        let frames = i64::from(two(image, FRAMES));
        let sum = weights.iter().sum::<i64>().max(1);
        Surpluses {
            surplus: std::array::from_fn(|file| {
                i64::from(cached[file]) * sum - frames * weights[file]
            }),
            cached,
            sum,
        }
    }

    /// A page of the file was cached. The weights stay, so only this surplus grows.
    pub(super) fn grow(&mut self, file: usize) {
        self.surplus[file] += self.sum;
        self.cached[file] += 1;
    }

    /// A page of the file went.
    pub(super) fn shrink(&mut self, file: usize) {
        self.surplus[file] -= self.sum;
        self.cached[file] -= 1;
    }

    /// The file to give up a page; some page is cached.
    pub(super) fn file_to_give_up(&self) -> usize {
        let (mut greatest, mut chosen) = (i64::MIN, 0);
        for file in 0..FILES {
            if self.cached[file] > 0 && self.surplus[file] >= greatest {
                (greatest, chosen) = (self.surplus[file], file);
            }
        }
        chosen
    }
}
