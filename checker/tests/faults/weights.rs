//! Stand-ins that are wrong about the 1993 rule: what they weigh, which file they choose,
//! what they count, and what they take.

use crate::link::{deciding, right, Asks};
use crate::{mended, restored, two_at};
use checker::call::{Call, Entry, Lister, Order};
use checker::cases::by_1989;
use checker::layout;
use checker::limits::{EXPECTED, MOST_ATTACHES};
use checker::model::{self, Fraction, Page, Rule, State};
use checker::quick;

/// Stand-ins for the C entries, each with the trial by name that finds it.
#[rustfmt::skip]
pub const WEIGHTS: [(&str, Entry); 53] = [
    ("a file above its share goes first", rule_ignored),
    ("a file above its share goes first", rule_always),
    ("a file above its share goes first", shares_ignored),
    ("a file above its share goes first", least_surplus),
    ("shares are not rounded", shares_rounded_down),
    ("shares are not rounded", shares_rounded_up),
    ("shares are not rounded", surpluses_cut),
    ("with a sum of 0 the fullest file goes", all_equal_at_0),
    ("with a sum of 0 the fullest file goes", by_1989_at_0),
    ("with a sum of 0 the fullest file goes", nothing_at_0),
    ("a file of size 0 weighs nothing", no_file_weighed),
    ("equal surpluses: the higher file", lower_file),
    ("equal surpluses: the higher file", larger_page),
    ("a weight is not below 0", difference_taken),
    ("a weight is not below 0", wrapped),
    ("a weight is not below 0", signed),
    ("a weight is by the size", sizes_left_out),
    ("a weight is by the size", cached_pages_for_size),
    ("a file without cached pages gives up none", any_file_chosen),
    ("the sum is over all files", sum_by_readers),
    ("the sum is over all files", sum_by_cached),
    ("in the file the three stretches", largest_page),
    ("in the file the three stretches", ahead_first),
    ("in the file the three stretches", page_of_1989),
    ("R counts attaches", not_counted),
    ("R counts attaches", counted_under_1993),
    ("R counts attaches", counted_for_the_slot),
    ("R counts attaches", counted_once),
    ("no other call counts", taken_back_by_detach),
    ("no other call counts", counted_by_run),
    ("no other call counts", counts_lost_by_steal),
    ("a refused Attach does not count", counted_though_refused::<2>),
    ("a refused Attach does not count", counted_though_refused::<3>),
    ("a refused Attach does not count", counted_though_refused::<4>),
    ("a refused Attach does not count", counted_though_refused::<15>),
    ("a refused Attach does not count", counted_though_refused::<5>),
    ("R stops at 65,535", stops_at::<65_534>),
    ("R stops at 65,535", stops_at::<1_000>),
    ("R stops at 65,535", wraps_to_0),
    ("an attach takes from the weight", attaches_ignored),
    ("an attach takes from the weight", readers_for_attaches),
    ("Arrive goes by the rule", arrive_by_1989),
    ("Run goes by the rule", run_by_1989),
    ("Run has another number of fetches by weight", run_by_1989),
    ("Run has another number of fetches by weight", rule_always),
    ("Prefetch looks at no weight", prefetched_by_weight),
    ("there are two rules", rule_taken),
    ("there are two rules", rule_of_one_bit),
    ("there are two rules", filler_taken),
    ("no more than 1,000 are expected", expected_taken),
    ("no more than 1,000 are expected", expected_of_1989_taken),
    ("no more than 1,000 are expected", a_thousand_refused),
    ("any R is one", above_1_000_refused),
];

/// Those that no trial by name finds, but calls on states in which weights decide do.
pub const SELDOM: [(&str, Entry); 2] = [
    ("cached pages for frames", cached_for_frames),
    ("a share of one frame at least", one_frame_at_least),
];

/// Stand-ins for Steal list and Fetch list, each with whether random images find it too.
#[rustfmt::skip]
pub const WEIGHT_LISTS: [(&str, bool, Lister); 13] = [
    ("the rule ignored", true, list_by_1989),
    ("the 1993 rule for both", true, list_by_1993),
    ("cached counts not lowered", true, list_with_counts_held),
    ("cached counts lowered for all files", true, list_with_all_lowered),
    ("one frame less for each page", true, list_with_frames_lowered),
    ("only the first file chosen by weight", true, list_of_one_choice),
    ("the lower file of equal ones", true, list_of_lower_files),
    ("shares rounded", true, list_of_rounded_shares),
    ("a sum of 0 that makes all files equal", true, list_of_equals_at_0),
    ("a list that ends at a file without pages", true, list_that_ends),
    ("the sum over files with readers", true, list_by_readers),
    ("weights of 16 bits", true, list_of_short_weights),
    ("the fetch list by weight", true, fetch_list_by_weight),
];

/// The steal order, each file chosen in another way, for as long as one with a page is.
fn choosing(state: &State, choice: impl Fn(&State, [u64; 8]) -> Option<u64>) -> Vec<Page> {
    let mut left = by_1989(state).steal_order();
    let mut cached = state.cached_by_file();
    let mut order = Vec::new();
    while let Some(file) = choice(state, cached) {
        let Some(next) = left.iter().position(|page| page.file == file) else {
            break;
        };
        order.push(left.remove(next));
        cached[file as usize] -= 1;
    }
    order
}

/// Of the files with cached pages the higher one for which this is greatest.
fn greatest<T: Ord>(cached: [u64; 8], of: impl Fn(u64, u64) -> T) -> Option<u64> {
    let files = (0..8).filter(|&file| cached[file as usize] > 0);
    files.max_by_key(|&file| (of(file, cached[file as usize]), file))
}

/// The steal order by another surplus, of a file with so many cached pages.
fn by_surplus<T: Ord>(state: &State, surplus: impl Fn(u64, u64) -> T) -> Vec<Page> {
    choosing(state, |_, cached| greatest(cached, &surplus))
}

/// The steal order by other weights, a sum of those that count, and so many frames.
fn by_weights(
    state: &State,
    frames: u64,
    weight: impl Fn(usize) -> i128,
    counts: impl Fn(u64) -> bool,
) -> Vec<Page> {
    let counted = (0..8).filter(|&file| counts(file));
    let sum: i128 = counted.map(|file| weight(file as usize)).sum();
    by_surplus(state, |file, cached| match sum {
        0 => i128::from(cached),
        _ => i128::from(cached) * sum - i128::from(frames) * weight(file as usize),
    })
}

/// The same by the sum over all files and the state's frames.
fn by_all_weights(state: &State, weight: impl Fn(usize) -> i128) -> Vec<Page> {
    by_weights(state, state.frames, weight, |_| true)
}

fn awaited(state: &State, file: usize) -> i128 {
    state.expected[file]
        .saturating_sub(state.attaches[file])
        .into()
}

fn right_weight(state: &State, file: usize) -> i128 {
    state.weight(file as u64).into()
}

fn fullest(state: &State) -> Vec<Page> {
    by_surplus(state, |_, cached| cached)
}

fn least(state: &State) -> Vec<Page> {
    by_surplus(state, |file, cached| {
        std::cmp::Reverse(state.surplus(file, cached))
    })
}

fn rounded_down(state: &State) -> Vec<Page> {
    by_surplus(state, |file, cached| {
        let Fraction { top, bottom } = state.share(file);
        i128::from(cached) - top / bottom
    })
}

fn rounded_up(state: &State) -> Vec<Page> {
    by_surplus(state, |file, cached| {
        let Fraction { top, bottom } = state.share(file);
        i128::from(cached) - (top + bottom - 1) / bottom
    })
}

fn cut(state: &State) -> Vec<Page> {
    by_surplus(state, |file, cached| {
        let Fraction { top, bottom } = state.surplus(file, cached);
        top / bottom
    })
}

/// The steal order, or this one where the sum of weights is 0.
fn unless_0(state: &State, at_0: impl FnOnce() -> Vec<Page>) -> Vec<Page> {
    match state.sum_of_weights() {
        0 => at_0(),
        _ => state.steal_order(),
    }
}

fn equal_at_0(state: &State) -> Vec<Page> {
    unless_0(state, || by_surplus(state, |_, _| 0))
}

fn of_1989_at_0(state: &State) -> Vec<Page> {
    unless_0(state, || by_1989(state).steal_order())
}

fn none_at_0(state: &State) -> Vec<Page> {
    unless_0(state, Vec::new)
}

/// A file of size 0 weighs what one of size 1 does.
fn size_1_at_least(state: &State) -> Vec<Page> {
    by_all_weights(state, |file| {
        awaited(state, file) * i128::from(state.sizes[file].max(1))
    })
}

fn lower_first(state: &State) -> Vec<Page> {
    by_surplus(state, |file, cached| {
        (state.surplus(file, cached), std::cmp::Reverse(file))
    })
}

/// Of equal files the one with the larger page, as 1989 has it.
fn larger_first(state: &State) -> Vec<Page> {
    let mut left = by_1989(state).steal_order();
    let mut cached = state.cached_by_file();
    let mut order = Vec::new();
    while let Some(file) = state.file_to_give_up(cached) {
        let surplus = |file: u64| state.surplus(file, cached[file as usize]);
        let equal = |page: &Page| surplus(page.file) == surplus(file);
        let next = left
            .iter()
            .position(equal)
            .expect("one of the file is left");
        let page = left.remove(next);
        cached[page.file as usize] -= 1;
        order.push(page);
    }
    order
}

fn by_difference(state: &State) -> Vec<Page> {
    by_all_weights(state, |file| {
        let difference = state.expected[file].abs_diff(state.attaches[file]);
        i128::from(difference * state.sizes[file])
    })
}

fn by_wrapped(state: &State) -> Vec<Page> {
    by_all_weights(state, |file| {
        let wrapped = (state.expected[file] as u16).wrapping_sub(state.attaches[file] as u16);
        i128::from(wrapped) * i128::from(state.sizes[file])
    })
}

fn by_signed(state: &State) -> Vec<Page> {
    by_all_weights(state, |file| {
        let left = state.expected[file] as i128 - state.attaches[file] as i128;
        left * i128::from(state.sizes[file])
    })
}

fn without_sizes(state: &State) -> Vec<Page> {
    by_all_weights(state, |file| awaited(state, file))
}

fn by_cached_size(state: &State) -> Vec<Page> {
    let cached = state.cached_by_file();
    by_all_weights(state, |file| {
        awaited(state, file) * i128::from(cached[file])
    })
}

/// A file without cached pages may be chosen, and then none goes.
fn of_any_file(state: &State) -> Vec<Page> {
    choosing(state, |state, cached| {
        (0..8).max_by_key(|&file| (state.surplus(file, cached[file as usize]), file))
    })
}

fn of_files_read(state: &State) -> Vec<Page> {
    let is_read = |file| state.readers.values().any(|reader| reader.file == file);
    by_weights(
        state,
        state.frames,
        |file| right_weight(state, file),
        is_read,
    )
}

fn of_files_cached(state: &State) -> Vec<Page> {
    let cached = state.cached_by_file();
    let is_cached = |file: u64| cached[file as usize] > 0;
    by_weights(
        state,
        state.frames,
        |file| right_weight(state, file),
        is_cached,
    )
}

fn of_cached_frames(state: &State) -> Vec<Page> {
    let frames = state.cached.len() as u64;
    by_weights(state, frames, |file| right_weight(state, file), |_| true)
}

fn of_one_frame(state: &State) -> Vec<Page> {
    by_surplus(state, |file, cached| {
        let Fraction { top, bottom } = state.surplus(file, cached);
        let most = i128::from(cached) - 1;
        Fraction {
            top: top.min(most * bottom),
            bottom,
        }
    })
}

fn of_expected(state: &State) -> Vec<Page> {
    by_all_weights(state, |file| {
        i128::from(state.expected[file] * state.sizes[file])
    })
}

/// Who is attached now takes from E, and not who ever was.
fn of_readers(state: &State) -> Vec<Page> {
    by_all_weights(state, |file| {
        let readers = state
            .readers
            .values()
            .filter(|reader| reader.file == file as u64);
        let left = state.expected[file].saturating_sub(readers.count() as u64);
        i128::from(left * state.sizes[file])
    })
}

fn of_16_bits(state: &State) -> Vec<Page> {
    by_all_weights(state, |file| right_weight(state, file) & 0xFFFF)
}

/// The right files, but in each of them the pages in another order.
fn within_files(state: &State, own: impl Fn(u64) -> Vec<Page>) -> Vec<Page> {
    let mut left: Vec<Vec<Page>> = (0..8).map(own).collect();
    let files = state.steal_order().into_iter().map(|page| page.file);
    files.map(|file| left[file as usize].remove(0)).collect()
}

fn cached_of(state: &State, file: u64) -> Vec<Page> {
    let own = state.cached.iter().filter(|page| page.file == file);
    own.copied().collect()
}

fn of_largest_pages(state: &State) -> Vec<Page> {
    within_files(state, |file| {
        cached_of(state, file).into_iter().rev().collect()
    })
}

/// The pages ahead of a reader go before those that are not.
fn of_pages_ahead(state: &State) -> Vec<Page> {
    let keys = state.use_keys();
    within_files(state, |file| {
        let mut own = cached_of(state, file);
        own.sort_by_key(|page| {
            let ahead = state.is_ahead_of_some_reader(*page);
            std::cmp::Reverse((ahead && !keys.contains_key(page), page.number))
        });
        own
    })
}

/// The page by the 1989 rule, and the file by the 1993 rule where it has no say.
fn of_1989_pages(state: &State) -> Vec<Page> {
    let keys = state.use_keys();
    let past = |page: &Page| !state.is_ahead_of_some_reader(*page);
    let (mut order, rest): (Vec<Page>, _) = state.steal_order().into_iter().partition(past);
    let (far, near): (Vec<Page>, Vec<Page>) =
        rest.into_iter().partition(|page| !keys.contains_key(page));
    order.extend(far.into_iter().chain(near));
    order
}

/// Under the 1993 rule, whoever asks for a steal order gets this one.
fn stolen(state: &State, asks: Asks, order: fn(&State) -> Vec<Page>) -> Vec<Page> {
    match (state.rule, asks) {
        (Rule::Of1989, _) | (_, Asks::Prefetch) => right(state, asks),
        _ => order(state),
    }
}

pub fn rule_ignored(image: &mut [u8], call: Call) -> u64 {
    deciding(image, call, |state, asks| {
        stolen(state, asks, order_by_1989)
    })
}

pub fn shares_ignored(image: &mut [u8], call: Call) -> u64 {
    deciding(image, call, |state, asks| stolen(state, asks, fullest))
}

pub fn least_surplus(image: &mut [u8], call: Call) -> u64 {
    deciding(image, call, |state, asks| stolen(state, asks, least))
}

pub fn shares_rounded_down(image: &mut [u8], call: Call) -> u64 {
    deciding(image, call, |state, asks| stolen(state, asks, rounded_down))
}

pub fn shares_rounded_up(image: &mut [u8], call: Call) -> u64 {
    deciding(image, call, |state, asks| stolen(state, asks, rounded_up))
}

pub fn surpluses_cut(image: &mut [u8], call: Call) -> u64 {
    deciding(image, call, |state, asks| stolen(state, asks, cut))
}

fn all_equal_at_0(image: &mut [u8], call: Call) -> u64 {
    deciding(image, call, |state, asks| stolen(state, asks, equal_at_0))
}

fn by_1989_at_0(image: &mut [u8], call: Call) -> u64 {
    deciding(image, call, |state, asks| stolen(state, asks, of_1989_at_0))
}

fn nothing_at_0(image: &mut [u8], call: Call) -> u64 {
    deciding(image, call, |state, asks| stolen(state, asks, none_at_0))
}

fn no_file_weighed(image: &mut [u8], call: Call) -> u64 {
    deciding(image, call, |state, asks| {
        stolen(state, asks, size_1_at_least)
    })
}

fn lower_file(image: &mut [u8], call: Call) -> u64 {
    deciding(image, call, |state, asks| stolen(state, asks, lower_first))
}

fn larger_page(image: &mut [u8], call: Call) -> u64 {
    deciding(image, call, |state, asks| stolen(state, asks, larger_first))
}

fn difference_taken(image: &mut [u8], call: Call) -> u64 {
    deciding(image, call, |state, asks| {
        stolen(state, asks, by_difference)
    })
}

fn wrapped(image: &mut [u8], call: Call) -> u64 {
    deciding(image, call, |state, asks| stolen(state, asks, by_wrapped))
}

fn signed(image: &mut [u8], call: Call) -> u64 {
    deciding(image, call, |state, asks| stolen(state, asks, by_signed))
}

fn sizes_left_out(image: &mut [u8], call: Call) -> u64 {
    deciding(image, call, |state, asks| {
        stolen(state, asks, without_sizes)
    })
}

fn cached_pages_for_size(image: &mut [u8], call: Call) -> u64 {
    deciding(image, call, |state, asks| {
        stolen(state, asks, by_cached_size)
    })
}

fn any_file_chosen(image: &mut [u8], call: Call) -> u64 {
    deciding(image, call, |state, asks| stolen(state, asks, of_any_file))
}

fn sum_by_readers(image: &mut [u8], call: Call) -> u64 {
    deciding(image, call, |state, asks| {
        stolen(state, asks, of_files_read)
    })
}

fn sum_by_cached(image: &mut [u8], call: Call) -> u64 {
    deciding(image, call, |state, asks| {
        stolen(state, asks, of_files_cached)
    })
}

fn largest_page(image: &mut [u8], call: Call) -> u64 {
    deciding(image, call, |state, asks| {
        stolen(state, asks, of_largest_pages)
    })
}

fn ahead_first(image: &mut [u8], call: Call) -> u64 {
    deciding(image, call, |state, asks| {
        stolen(state, asks, of_pages_ahead)
    })
}

fn page_of_1989(image: &mut [u8], call: Call) -> u64 {
    deciding(image, call, |state, asks| {
        stolen(state, asks, of_1989_pages)
    })
}

fn attaches_ignored(image: &mut [u8], call: Call) -> u64 {
    deciding(image, call, |state, asks| stolen(state, asks, of_expected))
}

fn readers_for_attaches(image: &mut [u8], call: Call) -> u64 {
    deciding(image, call, |state, asks| stolen(state, asks, of_readers))
}

fn cached_for_frames(image: &mut [u8], call: Call) -> u64 {
    deciding(image, call, |state, asks| {
        stolen(state, asks, of_cached_frames)
    })
}

fn one_frame_at_least(image: &mut [u8], call: Call) -> u64 {
    deciding(image, call, |state, asks| stolen(state, asks, of_one_frame))
}

fn order_by_1989(state: &State) -> Vec<Page> {
    by_1989(state).steal_order()
}

/// The steal order under the 1993 rule, whatever the state's is.
fn order_by_1993(state: &State) -> Vec<Page> {
    let weighted = State {
        rule: Rule::Of1993,
        ..state.clone()
    };
    weighted.steal_order()
}

fn rule_always(image: &mut [u8], call: Call) -> u64 {
    deciding(image, call, |state, asks| match asks {
        Asks::Prefetch => right(state, asks),
        _ => order_by_1993(state),
    })
}

fn arrive_by_1989(image: &mut [u8], call: Call) -> u64 {
    deciding(image, call, |state, asks| match asks {
        Asks::Arrive(_) => order_by_1989(state),
        _ => right(state, asks),
    })
}

fn run_by_1989(image: &mut [u8], call: Call) -> u64 {
    deciding(image, call, |state, asks| match asks {
        Asks::Run(_) => order_by_1989(state),
        _ => right(state, asks),
    })
}

/// The fetch order, the file with the largest weight first.
fn prefetched_by_weight(image: &mut [u8], call: Call) -> u64 {
    deciding(image, call, |state, asks| match asks {
        Asks::Prefetch => fetches_by_weight(state),
        _ => right(state, asks),
    })
}

fn fetches_by_weight(state: &State) -> Vec<Page> {
    let mut order = state.fetch_order();
    if state.rule == Rule::Of1993 {
        order.sort_by_key(|page| std::cmp::Reverse((state.weight(page.file), page.file)));
    }
    order
}

/// A call, with the state changed that it leaves, by the one before.
fn leaving(image: &mut [u8], call: Call, change: impl FnOnce(&mut State, &State)) -> u64 {
    let before = restored(image);
    let number = quick::entry(image, call);
    if let (65_536.., Some(before)) = (number, before) {
        let (mut state, _) = State::restore(image);
        change(&mut state, &before);
        image.copy_from_slice(&state.image());
    }
    number
}

fn not_counted(image: &mut [u8], call: Call) -> u64 {
    leaving(image, call, |state, before| {
        state.attaches = before.attaches
    })
}

fn counted_under_1993(image: &mut [u8], call: Call) -> u64 {
    leaving(image, call, |state, before| {
        if state.rule == Rule::Of1989 {
            state.attaches = before.attaches;
        }
    })
}

/// R of the file that has the slot's number.
fn counted_for_the_slot(image: &mut [u8], call: Call) -> u64 {
    leaving(image, call, |state, before| {
        if let Call::Attach { slot, .. } = call {
            state.attaches = before.attaches;
            state.attaches[slot as usize % 8] += 1;
        }
    })
}

/// Only the first attach to a file counts.
fn counted_once(image: &mut [u8], call: Call) -> u64 {
    leaving(image, call, |state, before| {
        for (count, before) in state.attaches.iter_mut().zip(before.attaches) {
            if before > 0 {
                *count = before;
            }
        }
    })
}

fn taken_back_by_detach(image: &mut [u8], call: Call) -> u64 {
    leaving(image, call, |state, before| {
        if let Call::Detach { slot } = call {
            let count = &mut state.attaches[before.readers[&slot].file as usize];
            *count = count.saturating_sub(1);
        }
    })
}

fn counted_by_run(image: &mut [u8], call: Call) -> u64 {
    leaving(image, call, |state, _| {
        if let Call::Run { .. } = call {
            for reader in state.readers.values() {
                let count = &mut state.attaches[reader.file as usize];
                *count = MOST_ATTACHES.min(*count + 1);
            }
        }
    })
}

fn counts_lost_by_steal(image: &mut [u8], call: Call) -> u64 {
    leaving(image, call, |state, _| {
        if let Call::Steal = call {
            state.attaches = [0; 8];
        }
    })
}

/// An Attach that is refused for this, and counted.
fn counted_though_refused<const REFUSAL: u64>(image: &mut [u8], call: Call) -> u64 {
    let number = quick::entry(image, call);
    if let (
        Call::Attach {
            file: file @ 0..8, ..
        },
        true,
    ) = (call, number == REFUSAL)
    {
        let at = layout::attaches(file as usize);
        let count = two_at(image, at.start).saturating_add(1);
        image[at].copy_from_slice(&count.to_le_bytes());
    }
    number
}

fn stops_at<const MOST: u64>(image: &mut [u8], call: Call) -> u64 {
    leaving(image, call, |state, before| {
        for (count, before) in state.attaches.iter_mut().zip(before.attaches) {
            *count = (*count).min(before.max(MOST));
        }
    })
}

fn wraps_to_0(image: &mut [u8], call: Call) -> u64 {
    leaving(image, call, |state, before| {
        if let Call::Attach { file, .. } = call {
            let count = &mut state.attaches[file as usize];
            *count = (before.attaches[file as usize] + 1) % (MOST_ATTACHES + 1);
        }
    })
}

/// Writes 1993 for a rule byte above 1.
pub fn mend_rule(image: &mut [u8]) {
    image[layout::RULE] = image[layout::RULE].min(1);
}

pub fn mend_filler(image: &mut [u8]) {
    image[layout::FILLER] = 0;
}

/// Writes 1,000 for an E above it.
pub fn mend_expected(image: &mut [u8]) {
    for file in 0..8 {
        let at = layout::expected(file);
        let held = two_at(image, at.start).min(*EXPECTED.end() as u16);
        image[at].copy_from_slice(&held.to_le_bytes());
    }
}

fn rule_taken(image: &mut [u8], call: Call) -> u64 {
    mended(image, call, mend_rule)
}

fn rule_of_one_bit(image: &mut [u8], call: Call) -> u64 {
    mended(image, call, |image| image[layout::RULE] &= 1)
}

fn filler_taken(image: &mut [u8], call: Call) -> u64 {
    mended(image, call, mend_filler)
}

fn expected_taken(image: &mut [u8], call: Call) -> u64 {
    mended(image, call, mend_expected)
}

fn expected_of_1989_taken(image: &mut [u8], call: Call) -> u64 {
    mended(image, call, |image| {
        if image[layout::RULE] == 0 {
            mend_expected(image);
        }
    })
}

/// Restore that refuses some images more.
fn refusing(image: &mut [u8], call: Call, refused: fn(&State) -> bool) -> u64 {
    match restored(image) {
        Some(state) if refused(&state) => 13,
        _ => quick::entry(image, call),
    }
}

fn a_thousand_refused(image: &mut [u8], call: Call) -> u64 {
    refusing(image, call, |state| state.expected.contains(&1_000))
}

fn above_1_000_refused(image: &mut [u8], call: Call) -> u64 {
    refusing(image, call, |state| {
        state.attaches.iter().any(|count| *count > 1_000)
    })
}

/// The steal list by another order under the 1993 rule.
fn listing(order: Order, image: &[u8], list: &mut [u16], steal: fn(&State) -> Vec<Page>) -> u64 {
    let (number, after) = model::list(order, image, list);
    list.copy_from_slice(&after);
    let (state, _) = State::restore(image);
    if number >> 32 == 1 && order == Order::Steal && state.rule == Rule::Of1993 {
        write(list, &steal(&state));
    }
    number
}

fn write(list: &mut [u16], pages: &[Page]) {
    for (number, page) in list.iter_mut().zip(pages) {
        *number = page.key() as u16;
    }
}

pub fn list_by_1989(order: Order, image: &[u8], list: &mut [u16]) -> u64 {
    listing(order, image, list, order_by_1989)
}

fn list_by_1993(order: Order, image: &[u8], list: &mut [u16]) -> u64 {
    let (number, after) = model::list(order, image, list);
    list.copy_from_slice(&after);
    if number >> 32 == 1 && order == Order::Steal {
        let (state, _) = State::restore(image);
        write(list, &order_by_1993(&state));
    }
    number
}

/// All pages of the first file, then of the next.
fn list_with_counts_held(order: Order, image: &[u8], list: &mut [u16]) -> u64 {
    listing(order, image, list, |state| {
        let start = state.cached_by_file();
        choosing(state, |state, cached| {
            let held = |file: usize| if cached[file] > 0 { start[file] } else { 0 };
            state.file_to_give_up(std::array::from_fn(held))
        })
    })
}

fn list_with_all_lowered(order: Order, image: &[u8], list: &mut [u16]) -> u64 {
    listing(order, image, list, |state| {
        let start = state.cached_by_file();
        let all = start.iter().sum::<u64>();
        choosing(state, |state, cached| {
            let gone = all - cached.iter().sum::<u64>();
            greatest(cached, |file, _| {
                state.surplus(file, start[file as usize].saturating_sub(gone))
            })
        })
    })
}

fn list_with_frames_lowered(order: Order, image: &[u8], list: &mut [u16]) -> u64 {
    listing(order, image, list, |state| {
        let all = state.cached.len() as u64;
        choosing(state, |state, cached| {
            let gone = all - cached.iter().sum::<u64>();
            let fewer = State {
                frames: state.frames - gone,
                ..state.clone()
            };
            fewer.file_to_give_up(cached)
        })
    })
}

/// The head by the 1993 rule, the others by the 1989 rule.
fn list_of_one_choice(order: Order, image: &[u8], list: &mut [u16]) -> u64 {
    listing(order, image, list, |state| {
        let mut order = order_by_1989(state);
        if let Some(&head) = state.steal_order().first() {
            order.retain(|page| *page != head);
            order.insert(0, head);
        }
        order
    })
}

fn list_of_lower_files(order: Order, image: &[u8], list: &mut [u16]) -> u64 {
    listing(order, image, list, lower_first)
}

fn list_of_rounded_shares(order: Order, image: &[u8], list: &mut [u16]) -> u64 {
    listing(order, image, list, rounded_down)
}

fn list_of_equals_at_0(order: Order, image: &[u8], list: &mut [u16]) -> u64 {
    listing(order, image, list, equal_at_0)
}

/// The keys past that file are left as they were.
fn list_that_ends(order: Order, image: &[u8], list: &mut [u16]) -> u64 {
    let before = list.to_vec();
    let (number, after) = model::list(order, image, list);
    list.copy_from_slice(&after);
    let (state, _) = State::restore(image);
    if number >> 32 == 1 && order == Order::Steal && state.rule == Rule::Of1993 {
        let written = of_any_file(&state).len();
        list[written..].copy_from_slice(&before[written..]);
    }
    number
}

fn list_by_readers(order: Order, image: &[u8], list: &mut [u16]) -> u64 {
    listing(order, image, list, of_files_read)
}

fn list_of_short_weights(order: Order, image: &[u8], list: &mut [u16]) -> u64 {
    listing(order, image, list, of_16_bits)
}

fn fetch_list_by_weight(order: Order, image: &[u8], list: &mut [u16]) -> u64 {
    let (number, after) = model::list(order, image, list);
    list.copy_from_slice(&after);
    if number >> 32 == 1 && order == Order::Fetch {
        let (state, _) = State::restore(image);
        write(list, &fetches_by_weight(&state));
    }
    number
}
