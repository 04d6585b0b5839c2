//! The 1993 rule through calls: examples from a first image on, and lists beside Steals.

use super::{hold, Outcomes, Report};
use crate::call::{Call, Entry, First, Lister, Order, Settings};
use crate::limits::{FILES, IMAGE_BYTES};
use crate::model::{Answer, Page, Rule, State};
use crate::random::Dice;
use crate::scene::{any_state, weight_state};

/// What must be met of lists beside Steals: T 0 and above, under either rule, and pages
/// whose going changes a look-ahead.
#[rustfmt::skip]
pub const STEAL_OUTCOMES: &Outcomes = &[
    (BESIDE, &["T 0, 1989", "T 0, 1993", "T above 0, 1989", "T above 0, 1993"]),
    (BESIDE, &["another look-ahead, 1989", "another look-ahead, 1993"]),
];

const BESIDE: &str = "list, Steals";

/// More pages than this are not stolen one by one.
const MOST_STEALS: usize = 80;

/// An example: frames, sizes and expected readers of files 0 and 1, their cached pages,
/// and the steal order, worked out by hand. Nobody reads, and R is 0.
pub(super) struct Example {
    pub(super) frames: u64,
    pub(super) sizes: [u64; 2],
    pub(super) expected: [u64; 2],
    pub(super) cached: &'static [(u64, u64)],
    pub(super) order: &'static [(u64, u64)],
}

#[rustfmt::skip]
pub(super) const EXAMPLES: [Example; 6] = [
    // shares of 2 and 2: surpluses of 1 and −1, 0 and −1, −1 and −1, then −2 alone
    Example {
        frames: 4, sizes: [8, 8], expected: [1, 1],
        cached: &[(0, 1), (0, 2), (0, 3), (1, 8)], order: &[(0, 3), (0, 2), (1, 8), (0, 1)],
    },
    // a sum of 0: 3 and 1, 2 and 1, 1 and 1, then 1 alone
    Example {
        frames: 4, sizes: [8, 8], expected: [0, 0],
        cached: &[(0, 1), (0, 2), (0, 3), (1, 8)], order: &[(0, 3), (0, 2), (1, 8), (0, 1)],
    },
    // ties: 0 and 0, 0 and −1, −1 and −1
    Example {
        frames: 4, sizes: [8, 8], expected: [1, 1],
        cached: &[(0, 1), (0, 2), (1, 1), (1, 2)], order: &[(1, 2), (0, 2), (1, 1), (0, 1)],
    },
    // shares of 16/3 and 8/3: −10/3 and −5/3, then −10/3 alone
    Example {
        frames: 8, sizes: [8, 4], expected: [1, 1],
        cached: &[(0, 1), (0, 2), (1, 1)], order: &[(1, 1), (0, 2), (0, 1)],
    },
    // shares of 4/3 and 8/3: −1/3 and −2/3, which are one and the same if they are rounded
    Example {
        frames: 4, sizes: [8, 8], expected: [1, 2],
        cached: &[(0, 1), (1, 1), (1, 2)], order: &[(0, 1), (1, 2), (1, 1)],
    },
    // no share for file 1, and all 3 frames for file 0: −1 and 1
    Example {
        frames: 3, sizes: [8, 8], expected: [1, 0],
        cached: &[(0, 7), (0, 8), (1, 1)], order: &[(1, 1), (0, 8), (0, 7)],
    },
];

impl Example {
    pub(super) fn cached_pages(&self) -> impl Iterator<Item = Page> {
        self.cached.iter().map(page_of)
    }

    pub(super) fn order_of_pages(&self) -> impl Iterator<Item = Page> {
        self.order.iter().map(page_of)
    }

    pub(super) fn state(&self) -> State {
        let mut state = State::idle();
        state.rule = Rule::Of1993;
        state.frames = self.frames;
        state.sizes[..2].copy_from_slice(&self.sizes);
        state.expected[..2].copy_from_slice(&self.expected);
        state.cached = self.cached_pages().collect();
        state
    }
}

fn page_of(&(file, number): &(u64, u64)) -> Page {
    Page { file, number }
}

/// The examples from a first image on: each page comes by a reader that docks for it and
/// leaves, so that as many more are expected. Then page after page is stolen.
pub fn examples(report: &mut Report, first: First, entry: Entry) {
    for example in &EXAMPLES {
        let mut image = vec![0; IMAGE_BYTES];
        let number = first(&mut image, &settings_of(example));
        report.check(number == Answer::Done.number(), || {
            format!("a first image by rule answers {number}")
        });
        for page in example.cached_pages() {
            image = fetched(report, entry, image, page);
        }
        let stolen = example.order_of_pages().map(Answer::Stolen);
        for expected in stolen.chain([Answer::Nothing]) {
            let (number, after) = hold(report, entry, &image, Call::Steal);
            report.check(number == expected.number(), || {
                format!(
                    "Steal answers {number}, not {expected}; {:?}",
                    example.order
                )
            });
            image = after;
        }
    }
}

/// The example's settings, with one more expected reader for each page to come.
fn settings_of(example: &Example) -> Settings {
    let (mut sizes, mut expected) = ([0; FILES as usize], [0; FILES as usize]);
    sizes[..2].copy_from_slice(&example.sizes);
    expected[..2].copy_from_slice(&example.expected);
    for page in example.cached_pages() {
        expected[page.file as usize] += 1;
    }
    Settings {
        rule: Rule::Of1993.number(),
        expected,
        ..Settings::of_1989(example.frames, 1, 0, sizes)
    }
}

/// The image behind a page that was read by a reader docked for it alone.
fn fetched(report: &mut Report, entry: Entry, image: Vec<u8>, wanted: Page) -> Vec<u8> {
    let Page { file, number: page } = wanted;
    let attach = Call::Attach {
        slot: 0,
        file,
        pace: 1,
        start: page - 1,
        last: page,
    };
    let detach = Call::Detach { slot: 0 };
    let calls = [
        attach,
        Call::Read { slot: 0 },
        Call::Arrive { file, page },
        detach,
    ];
    calls.into_iter().fold(image, |image, call| {
        let (_, after) = hold(report, entry, &image, call);
        after
    })
}

/// The steal list beside Steals, on so many states under either rule: the list is made
/// "with look-aheads and use keys held as at the start", and a Steal's order "is worked
/// out afresh", but both take the same pages. For a page that goes changes the times of
/// those behind it alone; and such a one of its file that is still cached has its use
/// key, which is smaller, from a reader between the two.
pub fn by_steals(report: &mut Report, lister: Lister, entry: Entry, dice: &mut Dice, states: u64) {
    for nth in 0..states {
        let mut state = match nth % 2 {
            0 => weight_state(dice),
            _ => any_state(dice),
        };
        if dice.once_in(3) {
            state.rule = Rule::Of1989;
        }
        if dice.once_in(2) {
            state.fetch_time = 0;
        }
        if state.cached.len() <= MOST_STEALS {
            hold_to_steals(report, lister, entry, &state);
        }
    }
}

fn hold_to_steals(report: &mut Report, lister: Lister, entry: Entry, state: &State) {
    let mut image = state.image();
    let mut list = vec![0; state.cached.len()];
    lister(Order::Steal, &image, &mut list);
    let mut stolen = Vec::new();
    for _ in 0..list.len() {
        let number = entry(&mut image, Call::Steal);
        stolen.push((number & 0xFFFF).wrapping_sub(1) as u16);
    }
    report.count(1);
    report.check(stolen == list, || {
        format!("Steals take {stolen:?}, and the list is {list:?}; {state:?}")
    });
    let rule = match state.rule {
        Rule::Of1989 => "1989",
        Rule::Of1993 => "1993",
    };
    let ticks = match state.fetch_time {
        0 => "T 0",
        _ => "T above 0",
    };
    report.note(BESIDE, format!("{ticks}, {rule}"));
    let (left, _) = State::restore(&image);
    if left.use_keys() != state.use_keys() {
        report.note(BESIDE, format!("another look-ahead, {rule}"));
    }
}
