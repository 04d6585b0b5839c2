//! What the 1993 rule decides in a call, and what becomes of R, which the answer does not
//! tell.

use crate::call::Call;
use crate::limits::{FILES, MOST_ATTACHES};
use crate::model::{Answer, Fraction, Page, Rule, State};
use std::cmp::Ordering;

const BY_WEIGHT: &str = "by weight";
const CHOSEN: &str = "file chosen";
const COUNTED: &str = "attaches";
const NOT_COUNTED: &str = "not counted";

/// All that can be met: what calls do otherwise than under the 1989 rule; what decides
/// which file gives up a page; and what becomes of R.
#[rustfmt::skip]
pub const WEIGHT_CASES: &[(&str, &[&str])] = &[
    (BY_WEIGHT, &["Steal, another file", "Arrive, another file", "Run, another end"]),
    (BY_WEIGHT, &["Run, more fetches", "Run, fewer fetches"]),
    (CHOSEN, CHOICES),
    (COUNTED, &["from 0", "on", "up to 65,535", "at 65,535", "under 1989", "under 1993"]),
    (COUNTED, &["the last one expected", "one more than expected"]),
    (NOT_COUNTED, &["E,2", "E,3", "E,4", "E,15", "E,5", "under 1989", "under 1993"]),
];

/// What decides which file gives up a page, and from which stretch. "another" is a file
/// that would be chosen instead: so these states tell a wrong rule from the right one.
#[rustfmt::skip]
pub const CHOICES: &[&str] = &[
    "another by 1989", "a tie, the higher file", "a tie at a sum of 0",
    "a sum of 0", "a surplus below 0", "a weight of 0",
    "shares rounded down, another", "shares rounded up, another", "surpluses cut, another",
    "E − R below 0, another", "one without cached pages, another",
    "sum by readers, another", "sum by cached pages, another",
    "sizes left out, another", "attaches left out, another", "cached pages for frames, another",
    "E of a file of size 0, another",
    "the first stretch", "ahead, past a first stretch", "a use key, past both",
];

/// The turns of a Run that are looked at: a long one is not made twice for this.
const FIRST_TURNS: u64 = 64;

/// The same state under the 1989 rule.
pub fn by_1989(state: &State) -> State {
    State {
        rule: Rule::Of1989,
        ..state.clone()
    }
}

/// What the rule decides in a call on this state that is not refused.
pub fn by_weight(before: &State, call: Call) -> Vec<(&'static str, &'static str)> {
    if before.rule == Rule::Of1989 {
        return Vec::new();
    }
    let choice = |case| {
        let mut met: Vec<_> = choices(before)
            .into_iter()
            .map(|case| (CHOSEN, case))
            .collect();
        if met.contains(&(CHOSEN, "another by 1989")) {
            met.push((BY_WEIGHT, case));
        }
        met
    };
    match call {
        Call::Steal => choice("Steal, another file"),
        Call::Arrive { .. } if before.cached.len() as u64 == before.frames => {
            choice("Arrive, another file")
        }
        Call::Run { turns } => ran(before, turns),
        _ => Vec::new(),
    }
}

/// What an Attach has met on this state, by its answer.
pub fn counted(before: &State, call: Call, answer: &str) -> Vec<(&'static str, &'static str)> {
    let Call::Attach {
        file: file @ 0..FILES,
        ..
    } = call
    else {
        return Vec::new();
    };
    let rule = match before.rule {
        Rule::Of1989 => "under 1989",
        Rule::Of1993 => "under 1993",
    };
    let (expected, attaches) = (
        before.expected[file as usize],
        before.attaches[file as usize],
    );
    if answer == "O" {
        let mut met = vec![(COUNTED, grown(attaches)), (COUNTED, rule)];
        if attaches + 1 == expected {
            met.push((COUNTED, "the last one expected"));
        } else if attaches >= expected {
            met.push((COUNTED, "one more than expected"));
        }
        return met;
    }
    let refusals = ["E,2", "E,3", "E,4", "E,15", "E,5"];
    match refusals.into_iter().find(|&refusal| refusal == answer) {
        Some(refusal) if attaches < MOST_ATTACHES => {
            vec![(NOT_COUNTED, refusal), (NOT_COUNTED, rule)]
        }
        _ => Vec::new(),
    }
}

/// What becomes of an R that counts one more.
fn grown(attaches: u64) -> &'static str {
    match attaches {
        0 => "from 0",
        MOST_ATTACHES => "at 65,535",
        _ if attaches + 1 == MOST_ATTACHES => "up to 65,535",
        _ => "on",
    }
}

/// What decides the next file of a state under the 1993 rule; nothing if no page is
/// cached.
pub fn choices(state: &State) -> Vec<&'static str> {
    let cached = state.cached_by_file();
    let Some(file) = state.file_to_give_up(cached) else {
        return Vec::new();
    };
    let surplus = |file: u64| state.surplus(file, cached[file as usize]);
    let others = || (0..FILES).filter(|&other| other != file && cached[other as usize] > 0);
    let tie = others().any(|other| surplus(other) == surplus(file));
    let below_0 = surplus(file).top < 0 && others().next().is_some();
    let no_sum = state.sum_of_weights() == 0;
    let first_by_1989 = by_1989(state).steal_order().first().copied();
    let mut met = Vec::new();
    for (applies, case) in [
        (
            first_by_1989.is_some_and(|page| page.file != file),
            "another by 1989",
        ),
        (tie && !no_sum, "a tie, the higher file"),
        (tie && no_sum, "a tie at a sum of 0"),
        (no_sum, "a sum of 0"),
        (below_0, "a surplus below 0"),
        (state.weight(file) == 0 && !no_sum, "a weight of 0"),
    ] {
        if applies {
            met.push(case);
        }
    }
    let mut wrong = wrong_choices(state);
    wrong.retain(|(_, other)| *other != Some(file));
    met.extend(wrong.into_iter().map(|(case, _)| case));
    met.extend(stretch(state, file, first_by_1989));
    met
}

/// The files that wrong rules would choose.
fn wrong_choices(state: &State) -> Vec<(&'static str, Option<u64>)> {
    let mut wrong = rounded(state).to_vec();
    wrong.extend(otherwise_weighed(state));
    wrong.extend(otherwise_shared(state));
    wrong
}

/// Where shares or surpluses are whole numbers.
fn rounded(state: &State) -> [(&'static str, Option<u64>); 3] {
    let cached = state.cached_by_file();
    let by = |surplus: &dyn Fn(u64) -> i128| {
        let files = (0..FILES).filter(|&file| cached[file as usize] > 0);
        files.max_by_key(|&file| (surplus(file), file))
    };
    let of = |file: u64| i128::from(cached[file as usize]);
    let down = |Fraction { top, bottom }| top / bottom;
    let up = |Fraction { top, bottom }| (top + bottom - 1) / bottom;
    let cut = |file: u64| down(state.surplus(file, cached[file as usize]));
    [
        (
            "shares rounded down, another",
            by(&|file| of(file) - down(state.share(file))),
        ),
        (
            "shares rounded up, another",
            by(&|file| of(file) - up(state.share(file))),
        ),
        ("surpluses cut, another", by(&cut)),
    ]
}

/// Where files weigh something else.
fn otherwise_weighed(state: &State) -> [(&'static str, Option<u64>); 4] {
    let State {
        expected,
        attaches,
        sizes,
        ..
    } = state;
    let by = |weight: &dyn Fn(usize) -> u64| sharing(state, state.frames, &|_| true, weight);
    let left = |file: usize| expected[file].saturating_sub(attaches[file]);
    let far = |file: usize| expected[file].abs_diff(attaches[file]) * sizes[file];
    [
        ("E − R below 0, another", by(&far)),
        ("sizes left out, another", by(&left)),
        (
            "attaches left out, another",
            by(&|file| expected[file] * sizes[file]),
        ),
        (
            "E of a file of size 0, another",
            by(&|file| left(file) * sizes[file].max(1)),
        ),
    ]
}

/// Where shares are made otherwise, or a file has none.
fn otherwise_shared(state: &State) -> [(&'static str, Option<u64>); 4] {
    let cached = state.cached_by_file();
    let weight = |file: usize| state.weight(file as u64);
    let is_read = |file: u64| state.readers.values().any(|reader| reader.file == file);
    let is_cached = |file: u64| cached[file as usize] > 0;
    let taken = state.cached.len() as u64;
    let any = (0..FILES).max_by_key(|&file| (state.surplus(file, cached[file as usize]), file));
    [
        ("one without cached pages, another", any),
        (
            "sum by readers, another",
            sharing(state, state.frames, &is_read, &weight),
        ),
        (
            "sum by cached pages, another",
            sharing(state, state.frames, &is_cached, &weight),
        ),
        (
            "cached pages for frames, another",
            sharing(state, taken, &|_| true, &weight),
        ),
    ]
}

/// The file by such weights: the frames are shared by the sum of those that count.
fn sharing(
    state: &State,
    frames: u64,
    counts: &dyn Fn(u64) -> bool,
    weight: &dyn Fn(usize) -> u64,
) -> Option<u64> {
    let cached = state.cached_by_file();
    let counted = (0..FILES).filter(|&file| counts(file));
    let sum: u64 = counted.map(|file| weight(file as usize)).sum();
    let surplus = |file: usize| match sum {
        0 => i128::from(cached[file]),
        _ => i128::from(cached[file] * sum) - i128::from(frames * weight(file)),
    };
    let files = (0..FILES).filter(|&file| cached[file as usize] > 0);
    files.max_by_key(|&file| (surplus(file as usize), file))
}

/// From which stretch the file's page goes; where it is not the first, another file has a
/// page that 1989 would take before it.
fn stretch(state: &State, file: u64, first_by_1989: Option<Page>) -> Option<&'static str> {
    let keys = state.use_keys();
    let rank = |page: Page| match keys.contains_key(&page) {
        true => 2,
        false => u8::from(state.is_ahead_of_some_reader(page)),
    };
    let own = state.cached.iter().filter(|page| page.file == file);
    match (own.map(|&page| rank(page)).min()?, rank(first_by_1989?)) {
        (0, _) => Some("the first stretch"),
        (1, 0) => Some("ahead, past a first stretch"),
        (2, 0..=1) => Some("a use key, past both"),
        _ => None,
    }
}

fn ran(before: &State, turns: u64) -> Vec<(&'static str, &'static str)> {
    let turns = turns.min(FIRST_TURNS);
    let (mut by_rule, mut other) = (before.clone(), by_1989(before));
    let (Ok(ran), Ok(ran_otherwise)) = (by_rule.run(turns), other.run(turns)) else {
        return Vec::new();
    };
    let mut met = Vec::new();
    if by_rule.cached != other.cached {
        met.push((BY_WEIGHT, "Run, another end"));
    }
    match fetches(ran).cmp(&fetches(ran_otherwise)) {
        Ordering::Greater => met.push((BY_WEIGHT, "Run, more fetches")),
        Ordering::Less => met.push((BY_WEIGHT, "Run, fewer fetches")),
        Ordering::Equal => {}
    }
    met
}

fn fetches(answer: Answer) -> u64 {
    match answer {
        Answer::Ran { fetches, .. } => fetches,
        _ => 0,
    }
}
