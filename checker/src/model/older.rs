//! Older images: the image of 2,274 bytes that one of 2,240 or 2,208 stands for; and
//! Restore, Setup and Save by themselves, on buffers of any length.

use super::answer::{Answer, Refusal};
use super::image::{put, take};
use super::state::State;
use crate::call::{Older, Settings};
use crate::limits::{FILES, IMAGE_BYTES, MARKED_IMAGE_BYTES, OLDER_IMAGE_BYTES, SLOTS};

/// Restore of an image, then Save of the state that comes back. Gives Restore's
/// number + 4,294,967,296 × Save's, and the buffer's bytes after it.
pub fn probe(image: &[u8], buffer: &[u8]) -> (u64, Vec<u8>) {
    let (state, restored) = State::restore(image);
    let mut after = buffer.to_vec();
    let saved = state.save(&mut after);
    (number_of(restored) + (number_of(saved) << 32), after)
}

/// Setup of numbers, then Save of the state that comes back. A number that is missing is 0,
/// further ones are not looked at. Gives Setup's number + 4,294,967,296 × Save's, and
/// the buffer's bytes after it.
pub fn probe_setup(numbers: &[u64], buffer: &[u8]) -> (u64, Vec<u8>) {
    let mut numbers = numbers.iter().copied().chain(std::iter::repeat(0));
    let mut next = || numbers.next().expect("no end of zeros");
    let settings = Settings {
        frames: next(),
        look_ahead: next(),
        fetch_time: next(),
        sizes: std::array::from_fn(|_| next()),
        rule: next(),
        expected: std::array::from_fn(|_| next()),
    };
    let (state, set_up) = State::setup_by_rule(&settings);
    let mut after = buffer.to_vec();
    let saved = state.save(&mut after);
    let set_up = set_up.map(|_| ());
    (number_of(set_up) + (number_of(saved) << 32), after)
}

/// O for a call that is done, or the refusal's number.
fn number_of(outcome: Result<(), Refusal>) -> u64 {
    match outcome {
        Ok(()) => Answer::Done.number(),
        Err(refusal) => refusal.number(),
    }
}

/// What the header makes of an older image: 13 where the buffer has not the new
/// length or the older image none of the three, and the buffer is left; else O.
/// Gives the number and the buffer's bytes after it.
pub fn upgrade_image(buffer: &[u8], older: Older) -> (u64, Vec<u8>) {
    let older = match older {
        Older::Apart(older) => older,
        Older::InPlace(length) => &buffer[..length],
    };
    let upgraded = upgraded(older).filter(|_| buffer.len() == IMAGE_BYTES);
    match upgraded {
        Some(image) => (Answer::Done.number(), image),
        None => (Refusal::Image.number(), buffer.to_vec()),
    }
}

/// An image of 2,274 bytes as it is, a shorter one as "1989 with E and R 0": all that
/// follows is 0; one of 2,208 with its last pages and marks written in. Nothing for
/// another length. Nothing else is judged.
fn upgraded(older: &[u8]) -> Option<Vec<u8>> {
    let mut image = match older.len() {
        IMAGE_BYTES | MARKED_IMAGE_BYTES => older.to_vec(),
        OLDER_IMAGE_BYTES => filled_in(older),
        _ => return None,
    };
    image.resize(IMAGE_BYTES, 0);
    Some(image)
}

/// "0 there, in an old image, means the file's size" for a slot that is taken, and
/// 0 where there is no such file; "marks equal to positions".
fn filled_in(older: &[u8]) -> Vec<u8> {
    let mut rest = older;
    let (mut image, mut marks) = (Vec::new(), Vec::new());
    for bytes in [2, 1, 1, 4, 4] {
        put(&mut image, bytes, take(&mut rest, bytes));
    }
    let sizes: [u64; FILES as usize] = std::array::from_fn(|_| take(&mut rest, 2));
    for size in sizes {
        put(&mut image, 2, size);
    }
    for _ in 0..SLOTS {
        let [condition, file, pace, position, last] =
            [1, 1, 2, 2, 2].map(|bytes| take(&mut rest, bytes));
        let size = sizes.get(file as usize).copied().unwrap_or(0);
        let last = match (condition, last) {
            (1.., 0) => size,
            _ => last,
        };
        put(&mut image, 1, condition);
        put(&mut image, 1, file);
        put(&mut image, 2, pace);
        put(&mut image, 2, position);
        put(&mut image, 2, last);
        put(&mut marks, 2, position);
    }
    image.extend(rest);
    image.extend(marks);
    image
}
