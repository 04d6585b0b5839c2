//! What the rule of 1993 goes by: the weight and the share of each file, its cached
//! pages, and which file gives up the next page.

use crate::limits::FILES;
use crate::model::{Fraction, State};

/// What stands over the columns.
pub const HEADS: [&str; 9] = [
    "file",
    "E",
    "R",
    "size",
    "weight",
    "share",
    "cached",
    "cached - share",
    "",
];

/// What is said under the table.
pub const WORDS: [&str; 2] = [
    "E readers are expected in all, R have attached. Weight is (E - R, or 0) x size.",
    "Share is frames x weight / sum of weights, or 0 where the sum is 0; nothing is rounded.",
];

/// The files of a state under the rule of 1993.
#[derive(Clone, Debug)]
pub struct Weights {
    /// The frames that are shared out.
    pub frames: u64,
    /// The sum of all weights.
    pub sum: u64,
    /// The files that have cached pages or a weight.
    pub files: Vec<Weighed>,
}

/// A file with cached pages or a weight.
#[derive(Clone, Copy, Debug)]
pub struct Weighed {
    /// Its number.
    pub file: u64,
    /// E, the readers expected for it.
    pub expected: u64,
    /// R, the attaches to it.
    pub attaches: u64,
    /// Its pages.
    pub size: u64,
    /// Its weight.
    pub weight: u64,
    /// Its share of the frames.
    pub share: Fraction,
    /// Its cached pages.
    pub cached: u64,
    /// Its cached pages less its share.
    pub surplus: Fraction,
    /// Whether it gives up the next page.
    pub is_next: bool,
}

impl Weights {
    /// The files of this state.
    pub fn of(state: &State) -> Weights {
        let cached = state.cached_by_file();
        let next = state.file_to_give_up(cached);
        let weighed = |file: u64| Weighed {
            file,
            expected: state.expected[file as usize],
            attaches: state.attaches[file as usize],
            size: state.size(file),
            weight: state.weight(file),
            share: state.share(file),
            cached: cached[file as usize],
            surplus: state.surplus(file, cached[file as usize]),
            is_next: next == Some(file),
        };
        let files = (0..FILES).map(weighed);
        Weights {
            frames: state.frames,
            sum: state.sum_of_weights(),
            files: files
                .filter(|file| file.cached > 0 || file.weight > 0)
                .collect(),
        }
    }

    /// What stands over the table.
    pub fn title(&self) -> String {
        let Weights { frames, sum, .. } = self;
        let next = match self.files.iter().find(|file| file.is_next) {
            Some(next) => format!("file {} gives up the next page", next.file),
            None => "no page is cached".to_string(),
        };
        format!("Rule of 1993, frames {frames}, sum of weights {sum}: {next}")
    }
}

impl Weighed {
    /// What the file has in each column.
    pub fn cells(&self) -> [String; 9] {
        let next = if self.is_next { "next" } else { "" };
        [
            self.file.to_string(),
            self.expected.to_string(),
            self.attaches.to_string(),
            self.size.to_string(),
            self.weight.to_string(),
            mixed(self.share),
            self.cached.to_string(),
            mixed(self.surplus),
            next.to_string(),
        ]
    }
}

/// A whole number and what is left of the fraction, which is not reduced: all have the
/// sum of weights below the line, and so can be compared as they stand.
fn mixed(fraction: Fraction) -> String {
    let sign = if fraction.top < 0 { "-" } else { "" };
    let (top, bottom) = (fraction.top.abs(), fraction.bottom);
    match (top / bottom, top % bottom) {
        (whole, 0) => format!("{sign}{whole}"),
        (0, rest) => format!("{sign}{rest}/{bottom}"),
        (whole, rest) => format!("{sign}{whole} {rest}/{bottom}"),
    }
}
