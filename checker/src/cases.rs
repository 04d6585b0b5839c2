//! What a call meets that its answer alone does not tell: where a reader starts
//! and ends, what its pace is measured by, what pages in fetch change, what the
//! 1993 rule decides, and how a Run goes on without a fetch.

mod link;
mod rows;
mod weights;

pub use link::{by_cached_map, listed_on_the_link, on_the_link, order_by_cached_map};
pub use link::{LINK_CASES, LIST_LINK_CASES};
pub use rows::{rows, ROW_CASES};
pub use weights::{by_1989, by_weight, choices, counted, CHOICES, WEIGHT_CASES};

use crate::call::Call;
use crate::limits::{INTERVAL, PACE};
use crate::model::{Page, Reader, State};

const ATTACHED: &str = "attached";
const REFUSED: &str = "15 for";
const ENDED: &str = "Z";
const DROPPED: &str = "dropped";
const NOTHING: &str = "Prefetch, U";

/// All that can be met.
pub const CASES: &[(&str, &[&str])] = &[
    (ATTACHED, &["from 0", "from the middle", "at its last page"]),
    (ATTACHED, &["up to the size", "up to less"]),
    (REFUSED, &["last page 0", "last page above the size"]),
    (REFUSED, &["start above the last page", "a taken slot too"]),
    (ENDED, &["at the size", "below the size"]),
    (DROPPED, &["past a last page"]),
    (NOTHING, &["a look-ahead cut at a last page"]),
];

const MEASURED: &str = "measured";
const MARKED: &str = "with a mark";
const NOT_MEASURED: &str = "16 for";
const NO_SLOT: &str = "Measure, E,2";
const NO_READER: &str = "Measure, E,6";

/// All that a Measure can meet, which has no line: the pages since the mark and the
/// pace that they make, before it is held; the ticks; the reader; and what is
/// refused.
#[rustfmt::skip]
pub const MEASURE_CASES: &[(&str, &[&str])] = &[
    (MEASURED, &["no page", "below 1", "at 1", "between", "at 1,000", "above 1,000"]),
    (MEASURED, &["an even pace", "a pace rounded down"]),
    (MEASURED, &["nothing blocked", "all blocked", "no page and all blocked"]),
    (MEASURED, &["interval 1", "interval 1,000,000", "running", "waiting"]),
    (MARKED, &["at 0", "in the middle", "at the position"]),
    (NOT_MEASURED, &["interval 0", "interval 1,000,001", "interval far above"]),
    (NOT_MEASURED, &["blocked above by 1", "blocked far above"]),
    (NO_SLOT, &["alone", "before 16"]),
    (NO_READER, &["alone", "before 16"]),
];

/// Whether a call with this answer may have met something.
pub fn is_told(answer: &str) -> bool {
    answer == "E,15" || answer.starts_with(['O', 'Z', 'U', 'S', 'I'])
}

/// What a call has met, each with its name: by the state behind the call, by its
/// answer and by the page that this names.
pub fn met(
    after: &State,
    call: Call,
    answer: &str,
    page: Option<Page>,
) -> Vec<(&'static str, &'static str)> {
    match call {
        Call::Attach {
            slot,
            file,
            start,
            last,
            ..
        } => {
            let taken = after.readers.contains_key(&slot);
            let size = after.size(file);
            match answer {
                "O" => attached(size, start, last),
                _ => refused(size, start, last, taken),
            }
        }
        Call::Read { slot } => ended(after, slot),
        Call::Prefetch => nothing_to_fetch(after),
        _ => page.map_or(Vec::new(), |page| dropped(after, page)),
    }
}

fn attached(size: u64, start: u64, last: u64) -> Vec<(&'static str, &'static str)> {
    let from = match start {
        0 => "from 0",
        _ if start == last => "at its last page",
        _ => "from the middle",
    };
    let up_to = match last {
        _ if last == size => "up to the size",
        _ => "up to less",
    };
    vec![(ATTACHED, from), (ATTACHED, up_to)]
}

/// The reason, if there is one only; and whether 5 would apply too.
fn refused(size: u64, start: u64, last: u64, taken: bool) -> Vec<(&'static str, &'static str)> {
    let reasons = [
        (last == 0, "last page 0"),
        (last > size, "last page above the size"),
        (start > last, "start above the last page"),
    ];
    let mut met: Vec<_> = reasons
        .iter()
        .filter(|(applies, _)| *applies)
        .map(|(_, reason)| (REFUSED, *reason))
        .collect();
    if met.len() > 1 {
        met.clear();
    }
    if taken {
        met.push((REFUSED, "a taken slot too"));
    }
    met
}

fn ended(after: &State, slot: u64) -> Vec<(&'static str, &'static str)> {
    let reader = after.readers[&slot];
    let at_size = reader.last == after.size(reader.file);
    let end = if at_size {
        "at the size"
    } else {
        "below the size"
    };
    vec![(ENDED, end)]
}

/// A page that no reader still has before it, though one of its file has not read
/// it: that one ends before it.
fn dropped(after: &State, page: Page) -> Vec<(&'static str, &'static str)> {
    let ends_before = |reader: &Reader| reader.file == page.file && reader.last < page.number;
    let past = after.readers.values().any(ends_before) && !after.is_ahead_of_some_reader(page);
    match past {
        true => vec![(DROPPED, "past a last page")],
        false => Vec::new(),
    }
}

/// Nothing to fetch, though a look-ahead would go on to pages behind a last page.
fn nothing_to_fetch(after: &State) -> Vec<(&'static str, &'static str)> {
    let is_cut = |reader: &Reader| {
        let reach = after.look_ahead / reader.pace;
        let goes_on = reader.last < after.size(reader.file);
        goes_on && reach > reader.last - reader.position
    };
    match after.readers.values().any(is_cut) {
        true => vec![(NOTHING, "a look-ahead cut at a last page")],
        false => Vec::new(),
    }
}

/// What a Measure on this state has met, by its answer.
pub fn measured(before: &State, call: Call, answer: &str) -> Vec<(&'static str, &'static str)> {
    let Call::Measure {
        slot,
        interval,
        blocked,
    } = call
    else {
        return Vec::new();
    };
    let beside = match !INTERVAL.contains(&interval) || blocked > interval {
        true => "before 16",
        false => "alone",
    };
    match answer {
        "O" => [
            by_ticks(interval, blocked),
            by_pages(&before.readers[&slot], interval - blocked),
        ]
        .concat(),
        "E,16" => reason_for_16(interval, blocked),
        "E,2" => vec![(NO_SLOT, beside)],
        "E,6" => vec![(NO_READER, beside)],
        _ => Vec::new(),
    }
}

fn by_ticks(interval: u64, blocked: u64) -> Vec<(&'static str, &'static str)> {
    let applying = [
        (interval == 1, "interval 1"),
        (interval == *INTERVAL.end(), "interval 1,000,000"),
        (blocked == 0, "nothing blocked"),
    ];
    let applying = applying.into_iter().filter(|(applies, _)| *applies);
    applying.map(|(_, case)| (MEASURED, case)).collect()
}

fn by_pages(reader: &Reader, left: u64) -> Vec<(&'static str, &'static str)> {
    let pages = reader.since_mark();
    let condition = if reader.waiting { "waiting" } else { "running" };
    let marked = match reader.mark {
        mark if mark == reader.position => "at the position",
        0 => "at 0",
        _ => "in the middle",
    };
    let mut met = vec![(MEASURED, condition), (MARKED, marked)];
    if pages == 0 {
        met.push((MEASURED, "no page"));
        if left == 0 {
            met.push((MEASURED, "no page and all blocked"));
        }
        return met;
    }
    let (low, high) = (*PACE.start(), *PACE.end());
    let pace = match left / pages {
        pace if pace < low => "below 1",
        pace if pace == low => "at 1",
        pace if pace < high => "between",
        pace if pace == high => "at 1,000",
        _ => "above 1,000",
    };
    let even = match left % pages {
        0 => "an even pace",
        _ => "a pace rounded down",
    };
    met.extend([(MEASURED, pace), (MEASURED, even)]);
    if left == 0 {
        met.push((MEASURED, "all blocked"));
    }
    met
}

/// The reason, if there is one only.
fn reason_for_16(interval: u64, blocked: u64) -> Vec<(&'static str, &'static str)> {
    let far = |number: u64| number > u64::from(u32::MAX);
    let reason = match (INTERVAL.contains(&interval), blocked > interval) {
        (false, false) if interval == 0 => "interval 0",
        (false, false) if interval == *INTERVAL.end() + 1 => "interval 1,000,001",
        (false, false) if far(interval) => "interval far above",
        (true, true) if blocked == interval + 1 => "blocked above by 1",
        (true, true) if far(blocked) => "blocked far above",
        _ => return Vec::new(),
    };
    vec![(NOT_MEASURED, reason)]
}
