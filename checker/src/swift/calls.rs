//! The calls, each on an accepted image: they write what they change.

use super::count::Counts;
use super::decide::{next_to_fetch, Quay};
use super::weights::Surpluses;
use super::{has, key, put, put_eight, put_two, run, take, two, Image, Record};
use super::{EMPTY, FILES, RUNNING, SLOTS, WAITING};
use crate::call::Call;
use crate::layout::{
    ATTACHES, CACHED, FRAMES, IN_FETCH, MARKS, PACE, READERS, READER_BYTES, RULE, SIZES,
};

/// Within a reader's bytes, its position.
const POSITION: usize = 4;

/// The number of an answer, or of a refusal.
pub(super) type Outcome = Result<u64, u64>;

/// An answer without a page.
fn letter(letter: u8) -> u64 {
    u64::from(letter) << 16
}

/// An answer with a page.
fn letter_with(answer: u8, key: usize) -> u64 {
    letter(answer) + key as u64 + 1
}

/// A call on an image in which so many pages are cached.
#[inline]
pub(super) fn call(image: &mut Image, counts: &Counts, call: Call) -> Outcome {
    match call {
        Call::Attach {
            slot,
            file,
            pace,
            start,
            last,
        } => attach(image, slot, file, pace, start, last),
        Call::Detach { slot } => detach(image, slot),
        Call::Read { slot } => read(image, slot),
        Call::Arrive { file, page } => arrive(image, counts, file, page),
        Call::Lost { file, page } => lost(image, file, page),
        Call::Prefetch => Ok(prefetch(image)),
        Call::Steal => Ok(steal(image, counts)),
        Call::Run { turns } => run::run(image, counts, turns),
        Call::Measure {
            slot,
            interval,
            blocked,
        } => measure(image, slot, interval, blocked),
    }
}

/// The first byte of a slot's record.
fn record_at(slot: usize) -> usize {
    READERS + READER_BYTES * slot
}

/// Writes a slot's position.
pub(super) fn put_position(image: &mut Image, slot: usize, position: u32) {
    put_two(image, record_at(slot) + POSITION, position);
}

fn attach(image: &mut Image, slot: u64, file: u64, pace: u64, start: u64, last: u64) -> Outcome {
    if slot >= SLOTS as u64 {
        return Err(2);
    }
    let size = size(image, file)?;
    if !(1..=1_000).contains(&pace) {
        return Err(4);
    }
    if last == 0 || last > size || start > last {
        return Err(15);
    }
    let slot = slot as usize;
    if Record::of(image, slot).condition() != EMPTY {
        return Err(5);
    }
    let record = u64::from(RUNNING) | file << 8 | pace << 16 | start << 32 | last << 48;
    put_eight(image, record_at(slot), record);
    put_two(image, MARKS + 2 * slot, start as u32);
    let at = ATTACHES + 2 * file as usize;
    put_two(image, at, (two(image, at) + 1).min(65_535));
    Ok(letter(b'O'))
}

fn detach(image: &mut Image, slot: u64) -> Outcome {
    let (slot, _) = seated(image, slot)?;
    put_eight(image, record_at(slot), 0);
    put_two(image, MARKS + 2 * slot, 0);
    Ok(letter(b'O'))
}

fn read(image: &mut Image, slot: u64) -> Outcome {
    let (slot, record) = seated(image, slot)?;
    if record.condition() == WAITING {
        return Err(7);
    }
    if record.position() == record.last() {
        return Ok(letter(b'Z'));
    }
    let key = record.next();
    if has(image, CACHED, key) {
        put_position(image, slot, record.position() + 1);
        return Ok(letter_with(b'H', key));
    }
    image[record_at(slot)] = WAITING;
    if has(image, IN_FETCH, key) {
        return Ok(letter_with(b'W', key));
    }
    put(image, IN_FETCH, key);
    Ok(letter_with(b'F', key))
}

fn steal(image: &mut Image, counts: &Counts) -> u64 {
    if counts.taken == 0 {
        return letter(b'U');
    }
    letter_with(b'S', drop_one(image, counts))
}

/// The page dropped is chosen before the arriving one leaves fetch.
fn arrive(image: &mut Image, counts: &Counts, file: u64, page: u64) -> Outcome {
    let key = fetched(image, file, page)?;
    let answer = match counts.taken >= two(image, FRAMES) {
        true => letter_with(b'I', drop_one(image, counts)),
        false => letter(b'I'),
    };
    close(image, key);
    put(image, CACHED, key);
    Ok(answer)
}

fn lost(image: &mut Image, file: u64, page: u64) -> Outcome {
    let key = fetched(image, file, page)?;
    close(image, key);
    Ok(letter(b'O'))
}

fn prefetch(image: &mut Image) -> u64 {
    let Some(key) = next_to_fetch(image) else {
        return letter(b'U');
    };
    put(image, IN_FETCH, key);
    letter_with(b'F', key)
}

fn measure(image: &mut Image, slot: u64, interval: u64, blocked: u64) -> Outcome {
    let (slot, record) = seated(image, slot)?;
    if interval == 0 || interval > 1_000_000 || blocked > interval {
        return Err(16);
    }
    let (mark, position) = (MARKS + 2 * slot, record.position());
    let ticks = (interval - blocked) as u32;
    if let Some(pace) = ticks.checked_div(position - two(image, mark)) {
        put_two(image, record_at(slot) + PACE, pace.clamp(1, 1_000));
        put_two(image, mark, position);
    }
    Ok(letter(b'O'))
}

/// Drops the head of the steal order; some page is cached.
fn drop_one(image: &mut Image, counts: &Counts) -> usize {
    let key = match image[RULE] {
        0 => Quay::of(image).page_to_give_up(image),
        _ => {
            let file = Surpluses::of(image, counts.by_file).file_to_give_up();
            Quay::of_file(image, file).page_of_file(image, file)
        }
    };
    take(image, CACHED, key);
    key
}

/// Takes a page out of fetch and lets its waiters run: those whose condition, file and
/// position are all as they must be, compared in one go.
fn close(image: &mut Image, key: usize) {
    const WITHOUT_PACE_AND_LAST: u64 = 0x0000_FFFF_0000_FFFF;
    take(image, IN_FETCH, key);
    let (file, position) = (key as u64 / 1_024, key as u64 % 1_024);
    let waits = u64::from(WAITING) | file << 8 | position << 32;
    for slot in 0..SLOTS {
        if Record::of(image, slot).0 & WITHOUT_PACE_AND_LAST == waits {
            image[record_at(slot)] = RUNNING;
        }
    }
}

/// A slot with a reader, or 2, 6.
fn seated(image: &Image, slot: u64) -> Result<(usize, Record), u64> {
    if slot >= SLOTS as u64 {
        return Err(2);
    }
    let record = Record::of(image, slot as usize);
    if record.condition() == EMPTY {
        return Err(6);
    }
    Ok((slot as usize, record))
}

/// The size of a file, or 3.
fn size(image: &Image, file: u64) -> Result<u64, u64> {
    if file >= FILES as u64 {
        return Err(3);
    }
    match two(image, SIZES + 2 * file as usize) {
        0 => Err(3),
        size => Ok(size.into()),
    }
}

/// The key of a page in fetch, or 3, 8, 9.
fn fetched(image: &Image, file: u64, page: u64) -> Result<usize, u64> {
    let size = size(image, file)?;
    if page == 0 || page > size {
        return Err(8);
    }
    let key = key(file as usize, page as u32);
    if !has(image, IN_FETCH, key) {
        return Err(9);
    }
    Ok(key)
}
