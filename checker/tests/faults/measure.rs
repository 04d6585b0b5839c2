//! Stand-ins for the C entries that are wrong about Measure, marks or lengths.

use super::restored;
use checker::call::{Call, Entry, Older};
use checker::layout;
use checker::limits::IMAGE_BYTES;
use checker::model::{upgrade_image, Reader, State};
use checker::quick;

/// Those of Measure itself, each with the trial by name that finds it.
#[rustfmt::skip]
pub const MEASURES: [(&str, Entry); 31] = [
    ("a pace is measured since the mark", mark_left),
    ("a pace is measured since the mark", blocked_not_taken_off),
    ("a pace is measured since the mark", every_page_counted),
    ("a pace is rounded down", rounded_up),
    ("a pace is rounded down", rounded_to_nearest),
    ("without a page the pace stays", no_page_as_one),
    ("without a page the pace stays", no_page_as_slowest),
    ("a pace is held to 1", pace_of_0),
    ("a pace is held to 1", kept_below_1),
    ("a pace is held to 1,000", pace_of_16_bits),
    ("a pace is held to 1,000", kept_above_1_000),
    ("a pace is held to 1,000", held_to_999),
    ("each measure sets the mark", mark_left),
    ("each measure sets the mark", mark_of_the_next_page),
    ("Attach sets the mark", mark_of_0_by_attach),
    ("Detach clears the mark", mark_left_by_detach),
    ("no other call moves a mark", marked_by_read),
    ("no other call moves a mark", marked_by_run),
    ("a waiting reader is measured", waiting_refused),
    ("a waiting reader is measured", waiting_woken),
    ("one reader is measured", every_reader_marked),
    ("one reader is measured", slot_0_measured),
    ("a measured pace counts at once", pace_not_stored),
    ("16 has two reasons", interval_0_taken),
    ("16 has two reasons", longer_interval_taken),
    ("16 has two reasons", longest_interval_refused),
    ("16 has two reasons", interval_of_32_bits),
    ("16 has two reasons", blocked_of_32_bits),
    ("16 has two reasons", blocked_above_taken),
    ("16 has two reasons", all_blocked_refused),
    ("a refused measure changes nothing", refused_and_marked),
];

/// What a Measure went by.
struct Measured {
    before: Reader,
    interval: u64,
    blocked: u64,
}

impl Measured {
    fn left(&self) -> u64 {
        self.interval - self.blocked
    }
}

/// Measure, with the reader that it leaves changed.
fn leaving(image: &mut [u8], call: Call, change: impl FnOnce(&mut Reader, &Measured)) -> u64 {
    let before = restored(image);
    let number = quick::entry(image, call);
    let Call::Measure {
        slot,
        interval,
        blocked,
    } = call
    else {
        return number;
    };
    if let (65_536.., Some(before)) = (number, before) {
        let measured = Measured {
            before: before.readers[&slot],
            interval,
            blocked,
        };
        let (mut state, _) = State::restore(image);
        change(state.readers.get_mut(&slot).unwrap(), &measured);
        image.copy_from_slice(&state.image());
    }
    number
}

/// Measure, with the pace that it leaves by another rule, from the pages since the
/// mark, if there are any.
fn paced(image: &mut [u8], call: Call, pace: fn(&Measured, u64) -> u64) -> u64 {
    leaving(image, call, |reader, measured| {
        let pages = measured.before.since_mark();
        if pages > 0 {
            reader.pace = pace(measured, pages);
        }
    })
}

fn held(pace: u64) -> u64 {
    pace.clamp(1, 1_000)
}

fn mark_left(image: &mut [u8], call: Call) -> u64 {
    leaving(image, call, |reader, measured| {
        reader.mark = measured.before.mark
    })
}

fn mark_of_the_next_page(image: &mut [u8], call: Call) -> u64 {
    leaving(image, call, |reader, _| {
        reader.mark = reader.last.min(reader.position + 1);
    })
}

fn blocked_not_taken_off(image: &mut [u8], call: Call) -> u64 {
    paced(image, call, |measured, pages| {
        held(measured.interval / pages)
    })
}

/// The pages up to the position, and not those since the mark.
fn every_page_counted(image: &mut [u8], call: Call) -> u64 {
    paced(image, call, |measured, _| {
        held(measured.left() / measured.before.position)
    })
}

fn rounded_up(image: &mut [u8], call: Call) -> u64 {
    paced(image, call, |measured, pages| {
        held(measured.left().div_ceil(pages))
    })
}

fn rounded_to_nearest(image: &mut [u8], call: Call) -> u64 {
    paced(image, call, |measured, pages| {
        held((measured.left() + pages / 2) / pages)
    })
}

/// A pace for no page, as for one.
fn no_page_as_one(image: &mut [u8], call: Call) -> u64 {
    leaving(image, call, |reader, measured| {
        let pages = measured.before.since_mark().max(1);
        reader.pace = held(measured.left() / pages);
    })
}

fn no_page_as_slowest(image: &mut [u8], call: Call) -> u64 {
    leaving(image, call, |reader, measured| {
        if measured.before.since_mark() == 0 {
            reader.pace = 1_000;
        }
    })
}

fn pace_of_0(image: &mut [u8], call: Call) -> u64 {
    paced(image, call, |measured, pages| {
        (measured.left() / pages).min(1_000)
    })
}

fn kept_below_1(image: &mut [u8], call: Call) -> u64 {
    paced(image, call, |measured, pages| {
        match measured.left() / pages {
            0 => measured.before.pace,
            pace => pace.min(1_000),
        }
    })
}

fn pace_of_16_bits(image: &mut [u8], call: Call) -> u64 {
    paced(image, call, |measured, pages| {
        (measured.left() / pages).clamp(1, 65_535)
    })
}

fn kept_above_1_000(image: &mut [u8], call: Call) -> u64 {
    paced(image, call, |measured, pages| {
        match measured.left() / pages {
            1_001.. => measured.before.pace,
            pace => held(pace),
        }
    })
}

fn held_to_999(image: &mut [u8], call: Call) -> u64 {
    paced(image, call, |measured, pages| {
        (measured.left() / pages).clamp(1, 999)
    })
}

fn pace_not_stored(image: &mut [u8], call: Call) -> u64 {
    paced(image, call, |measured, _| measured.before.pace)
}

fn waiting_woken(image: &mut [u8], call: Call) -> u64 {
    leaving(image, call, |reader, _| reader.waiting = false)
}

fn waiting_refused(image: &mut [u8], call: Call) -> u64 {
    let (Call::Measure { slot, .. }, Some(state)) = (call, restored(image)) else {
        return quick::entry(image, call);
    };
    match state.readers.get(&slot) {
        Some(reader) if reader.waiting => 7,
        _ => quick::entry(image, call),
    }
}

/// A call that is not refused, with the state that it leaves changed.
fn leaving_state(image: &mut [u8], call: Call, change: impl FnOnce(&mut State)) -> u64 {
    let number = quick::entry(image, call);
    if let (65_536.., Some(mut state)) = (number, restored(image)) {
        change(&mut state);
        image.copy_from_slice(&state.image());
    }
    number
}

fn mark_all(state: &mut State) {
    for reader in state.readers.values_mut() {
        reader.mark = reader.position;
    }
}

fn every_reader_marked(image: &mut [u8], call: Call) -> u64 {
    leaving_state(image, call, |state| {
        if let Call::Measure { .. } = call {
            mark_all(state);
        }
    })
}

fn slot_0_measured(image: &mut [u8], call: Call) -> u64 {
    match call {
        Call::Measure {
            slot: 1..=15,
            interval,
            blocked,
        } => {
            let slot = 0;
            let measure = Call::Measure {
                slot,
                interval,
                blocked,
            };
            quick::entry(image, measure)
        }
        _ => quick::entry(image, call),
    }
}

fn marked_by_read(image: &mut [u8], call: Call) -> u64 {
    leaving_state(image, call, |state| {
        if let Call::Read { slot } = call {
            let reader = state.readers.get_mut(&slot).unwrap();
            reader.mark = reader.position;
        }
    })
}

fn marked_by_run(image: &mut [u8], call: Call) -> u64 {
    leaving_state(image, call, |state| {
        if let Call::Run { .. } = call {
            mark_all(state);
        }
    })
}

fn mark_of_0_by_attach(image: &mut [u8], call: Call) -> u64 {
    leaving_state(image, call, |state| {
        if let Call::Attach { slot, .. } = call {
            state.readers.get_mut(&slot).unwrap().mark = 0;
        }
    })
}

fn mark_left_by_detach(image: &mut [u8], call: Call) -> u64 {
    let before = image.to_vec();
    let number = quick::entry(image, call);
    if let (Call::Detach { slot }, 65_536..) = (call, number) {
        let at = layout::mark(slot as usize);
        image[at.clone()].copy_from_slice(&before[at]);
    }
    number
}

/// Measure with interval and blocked ticks changed.
fn measured_as(image: &mut [u8], call: Call, change: fn(u64, u64) -> (u64, u64)) -> u64 {
    let Call::Measure {
        slot,
        interval,
        blocked,
    } = call
    else {
        return quick::entry(image, call);
    };
    let (interval, blocked) = change(interval, blocked);
    let measure = Call::Measure {
        slot,
        interval,
        blocked,
    };
    quick::entry(image, measure)
}

fn interval_0_taken(image: &mut [u8], call: Call) -> u64 {
    measured_as(image, call, |interval, blocked| match (interval, blocked) {
        (0, 0) => (1, 1),
        _ => (interval, blocked),
    })
}

fn longer_interval_taken(image: &mut [u8], call: Call) -> u64 {
    measured_as(image, call, |interval, blocked| match interval {
        1_000_001 if blocked <= interval => (1_000_000, blocked.min(1_000_000)),
        _ => (interval, blocked),
    })
}

fn longest_interval_refused(image: &mut [u8], call: Call) -> u64 {
    measured_as(image, call, |interval, blocked| match interval {
        1_000_000 => (0, 0),
        _ => (interval, blocked),
    })
}

fn interval_of_32_bits(image: &mut [u8], call: Call) -> u64 {
    measured_as(image, call, |interval, blocked| {
        (u64::from(interval as u32), blocked)
    })
}

fn blocked_of_32_bits(image: &mut [u8], call: Call) -> u64 {
    measured_as(image, call, |interval, blocked| {
        (interval, u64::from(blocked as u32))
    })
}

fn blocked_above_taken(image: &mut [u8], call: Call) -> u64 {
    measured_as(image, call, |interval, blocked| {
        (interval, blocked.min(interval))
    })
}

fn all_blocked_refused(image: &mut [u8], call: Call) -> u64 {
    measured_as(image, call, |interval, blocked| match blocked == interval {
        true => (0, 0),
        false => (interval, blocked),
    })
}

fn refused_and_marked(image: &mut [u8], call: Call) -> u64 {
    let number = quick::entry(image, call);
    if let (Call::Measure { slot, .. }, 16, Some(mut state)) = (call, number, restored(image)) {
        let reader = state.readers.get_mut(&slot).unwrap();
        reader.mark = reader.position;
        image.copy_from_slice(&state.image());
    }
    number
}

/// An answer of this letter after which all marks are 0.
pub fn marks_lost_by<const LETTER: char>(image: &mut [u8], call: Call) -> u64 {
    let number = quick::entry(image, call);
    if number >> 16 == u64::from(LETTER) {
        image[layout::MARKS..layout::RULE].fill(0);
    }
    number
}

/// A buffer of this length taken for an older image, and saved as one.
pub fn older_taken<const LENGTH: usize>(image: &mut [u8], call: Call) -> u64 {
    if image.len() != LENGTH {
        return quick::entry(image, call);
    }
    let (_, mut longer) = upgrade_image(&[0; IMAGE_BYTES], Older::Apart(image));
    let number = quick::entry(&mut longer, call);
    if number >= 65_536 {
        image.copy_from_slice(&longer[..LENGTH]);
    }
    number
}
