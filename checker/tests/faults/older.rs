//! Stand-ins for Restore and Save by themselves, and for the header's upgrade.

use super::weights::{mend_expected, mend_filler, mend_rule};
use super::{mend_empty_marks, mend_marks, mend_zeros};
use checker::call::{Older, Probe, Upgrade};
use checker::layout;
use checker::limits::{IMAGE_BYTES, MARKED_IMAGE_BYTES, OLDER_IMAGE_BYTES, SLOTS};
use checker::model::{probe, upgrade_image, Rule, State};
use std::ops::Range;

/// The number of O at the C boundary.
const O: u64 = 79 * 65_536;

/// Where file 6 starts in a map.
const FILE_6: usize = 128 * 6;

/// Those of Restore and Save. True for one that a rule alone finds.
#[rustfmt::skip]
pub const PROBES: [(&str, bool, Probe); 39] = [
    ("marks of an older image restored as 0", true, marks_as_0),
    ("marks restored as positions", true, marks_as_positions::<IMAGE_BYTES>),
    ("marks of 2,240 bytes restored as positions", true, marks_as_positions::<MARKED_IMAGE_BYTES>),
    ("an older image's zeros refused", true, zeros_refused),
    ("an older image's zeros taken all or none", true, zeros_all_or_none),
    ("an older image's last pages all taken for the size", true, last_pages_as_sizes),
    ("a last page of 0 taken in 2,274 bytes", true, zero_taken::<IMAGE_BYTES>),
    ("a last page of 0 taken in 2,240 bytes", true, zero_taken::<MARKED_IMAGE_BYTES>),
    ("a mark above the position taken", true, mark_taken::<IMAGE_BYTES>),
    ("a mark above it taken in 2,240 bytes", true, mark_taken::<MARKED_IMAGE_BYTES>),
    ("an empty slot's mark taken", true, empty_mark_taken::<IMAGE_BYTES>),
    ("an empty slot's mark taken in 2,240", true, empty_mark_taken::<MARKED_IMAGE_BYTES>),
    ("images of 2,208 bytes refused", true, refused::<OLDER_IMAGE_BYTES>),
    ("images of 2,240 bytes refused", true, refused::<MARKED_IMAGE_BYTES>),
    ("a length between two taken", false, between_taken),
    ("a longer image taken", false, longer_taken),
    ("a buffer of 2,208 bytes taken", false, older_saved::<OLDER_IMAGE_BYTES>),
    ("a buffer of 2,240 bytes taken", false, older_saved::<MARKED_IMAGE_BYTES>),
    ("a short buffer filled and refused", false, cut_and_refused),
    ("bytes after 2,274 written", true, saved_past_the_end),
    ("an image of 2,208 bytes saved as one", true, saved_as_it_came::<OLDER_IMAGE_BYTES>),
    ("an image of 2,240 bytes saved as one", true, saved_as_it_came::<MARKED_IMAGE_BYTES>),
    ("2,208 bytes restored under 1993", true, shorter_of_1993::<OLDER_IMAGE_BYTES>),
    ("2,240 bytes restored under 1993", true, shorter_of_1993::<MARKED_IMAGE_BYTES>),
    ("a shorter image's readers counted as attaches", true, readers_counted),
    ("every image restored under 1989", true, rule_lost),
    ("E lost", true, expected_lost),
    ("R lost", true, attaches_lost),
    ("E and R swapped", true, weights_swapped),
    ("R held to 1,000", true, attaches_held),
    ("a rule byte above 1 taken", true, rule_taken),
    ("the filler not tested", true, filler_taken),
    ("an E above 1,000 taken", true, expected_taken),
    ("an E above 1,000 taken under 1989", true, expected_of_1989_taken),
    ("an R above E refused", true, above_expected_refused),
    ("nothing saved where Restore refuses", true, refused_not_saved),
    ("another state than the idle one", true, refused_not_idle),
    ("Restore's number for Save's", true, numbers_swapped),
    ("12 before 13", false, twelve_alone),
];

/// Restore's number and Save's, of what was restored, if anything was.
fn saved(state: Option<State>, buffer: &mut [u8]) -> u64 {
    let restored = if state.is_some() { O } else { 13 };
    let state = state.unwrap_or_else(State::idle);
    let saved = state.save(buffer).map_or(12, |()| O);
    restored + (saved << 32)
}

/// Restore with the state changed that an image of this length gives.
fn restored_as(
    image: &[u8],
    buffer: &mut [u8],
    length: usize,
    change: fn(&mut State, &[u8]),
) -> u64 {
    let mut state = State::of_image(image).ok();
    if let (Some(state), true) = (&mut state, image.len() == length) {
        change(state, image);
    }
    saved(state, buffer)
}

/// Restore of an image that is mended before, if it has this length.
fn mended(image: &[u8], buffer: &mut [u8], length: usize, mend: fn(&mut [u8])) -> u64 {
    let mut image = image.to_vec();
    if image.len() == length {
        mend(&mut image);
    }
    saved(State::of_image(&image).ok(), buffer)
}

/// The taken slots that have a last page of 0.
fn zeros_of(image: &[u8]) -> Vec<usize> {
    let is_taken = |slot: &usize| image[layout::READERS + layout::READER_BYTES * slot] != 0;
    let is_zero = |slot: &usize| image[layout::last_page(*slot)] == [0, 0];
    (0..SLOTS as usize)
        .filter(|slot| is_taken(slot) && is_zero(slot))
        .collect()
}

fn marks_as_0(image: &[u8], buffer: &mut [u8]) -> u64 {
    restored_as(image, buffer, OLDER_IMAGE_BYTES, |state, _| {
        for reader in state.readers.values_mut() {
            reader.mark = 0;
        }
    })
}

fn marks_as_positions<const LENGTH: usize>(image: &[u8], buffer: &mut [u8]) -> u64 {
    restored_as(image, buffer, LENGTH, |state, _| {
        for reader in state.readers.values_mut() {
            reader.mark = reader.position;
        }
    })
}

fn zeros_refused(image: &[u8], buffer: &mut [u8]) -> u64 {
    let state = State::of_image(image).ok();
    saved(state.filter(|_| zeros_of(image).is_empty()), buffer)
}

fn zeros_all_or_none(image: &[u8], buffer: &mut [u8]) -> u64 {
    let state = State::of_image(image).ok().filter(|state| {
        let zeros = zeros_of(image).len();
        zeros == 0 || zeros == state.readers.len()
    });
    saved(state, buffer)
}

fn last_pages_as_sizes(image: &[u8], buffer: &mut [u8]) -> u64 {
    restored_as(image, buffer, OLDER_IMAGE_BYTES, |state, _| {
        let sizes = state.sizes;
        for reader in state.readers.values_mut() {
            reader.last = sizes[reader.file as usize];
        }
    })
}

fn zero_taken<const LENGTH: usize>(image: &[u8], buffer: &mut [u8]) -> u64 {
    mended(image, buffer, LENGTH, mend_zeros)
}

fn mark_taken<const LENGTH: usize>(image: &[u8], buffer: &mut [u8]) -> u64 {
    mended(image, buffer, LENGTH, mend_marks)
}

fn empty_mark_taken<const LENGTH: usize>(image: &[u8], buffer: &mut [u8]) -> u64 {
    mended(image, buffer, LENGTH, mend_empty_marks)
}

fn refused<const LENGTH: usize>(image: &[u8], buffer: &mut [u8]) -> u64 {
    let state = State::of_image(image).ok();
    saved(state.filter(|_| image.len() != LENGTH), buffer)
}

fn between_taken(image: &[u8], buffer: &mut [u8]) -> u64 {
    let length = match image.len() {
        OLDER_IMAGE_BYTES..MARKED_IMAGE_BYTES => OLDER_IMAGE_BYTES,
        MARKED_IMAGE_BYTES..IMAGE_BYTES => MARKED_IMAGE_BYTES,
        length => length,
    };
    saved(State::of_image(&image[..length]).ok(), buffer)
}

fn longer_taken(image: &[u8], buffer: &mut [u8]) -> u64 {
    let length = image.len().min(IMAGE_BYTES);
    saved(State::of_image(&image[..length]).ok(), buffer)
}

/// The bytes of Save, as many as there is room for.
fn cut(image: &[u8], buffer: &mut [u8]) {
    let (state, _) = State::restore(image);
    let room = buffer.len().min(IMAGE_BYTES);
    buffer[..room].copy_from_slice(&state.image()[..room]);
}

fn older_saved<const LENGTH: usize>(image: &[u8], buffer: &mut [u8]) -> u64 {
    let number = saved(State::of_image(image).ok(), buffer);
    if buffer.len() != LENGTH {
        return number;
    }
    cut(image, buffer);
    (number & 0xFFFF_FFFF) + (O << 32)
}

fn cut_and_refused(image: &[u8], buffer: &mut [u8]) -> u64 {
    cut(image, buffer);
    saved(State::of_image(image).ok(), buffer)
}

fn saved_past_the_end(image: &[u8], buffer: &mut [u8]) -> u64 {
    let number = saved(State::of_image(image).ok(), buffer);
    if buffer.len() > IMAGE_BYTES {
        buffer[IMAGE_BYTES..].fill(0);
    }
    number
}

/// As many bytes as an image of this length had, and nothing behind them.
fn saved_as_it_came<const LENGTH: usize>(image: &[u8], buffer: &mut [u8]) -> u64 {
    let before = buffer.to_vec();
    let number = saved(State::of_image(image).ok(), buffer);
    if image.len() == LENGTH && buffer.len() >= IMAGE_BYTES {
        let behind = LENGTH..IMAGE_BYTES;
        buffer[behind.clone()].copy_from_slice(&before[behind]);
    }
    number
}

fn shorter_of_1993<const LENGTH: usize>(image: &[u8], buffer: &mut [u8]) -> u64 {
    restored_as(image, buffer, LENGTH, |state, _| state.rule = Rule::Of1993)
}

/// Restore with the state changed that any image gives.
fn changed(image: &[u8], buffer: &mut [u8], change: fn(&mut State)) -> u64 {
    let mut state = State::of_image(image).ok();
    if let Some(state) = &mut state {
        change(state);
    }
    saved(state, buffer)
}

fn readers_counted(image: &[u8], buffer: &mut [u8]) -> u64 {
    let mut state = State::of_image(image).ok();
    if let (Some(state), true) = (&mut state, image.len() < IMAGE_BYTES) {
        for reader in state.readers.values() {
            state.attaches[reader.file as usize] += 1;
        }
    }
    saved(state, buffer)
}

fn rule_lost(image: &[u8], buffer: &mut [u8]) -> u64 {
    changed(image, buffer, |state| state.rule = Rule::Of1989)
}

fn expected_lost(image: &[u8], buffer: &mut [u8]) -> u64 {
    changed(image, buffer, |state| state.expected = [0; 8])
}

fn attaches_lost(image: &[u8], buffer: &mut [u8]) -> u64 {
    changed(image, buffer, |state| state.attaches = [0; 8])
}

fn weights_swapped(image: &[u8], buffer: &mut [u8]) -> u64 {
    changed(image, buffer, |state| {
        std::mem::swap(&mut state.expected, &mut state.attaches);
    })
}

fn attaches_held(image: &[u8], buffer: &mut [u8]) -> u64 {
    changed(image, buffer, |state| {
        state.attaches = state.attaches.map(|count| count.min(1_000));
    })
}

fn rule_taken(image: &[u8], buffer: &mut [u8]) -> u64 {
    mended(image, buffer, IMAGE_BYTES, mend_rule)
}

fn filler_taken(image: &[u8], buffer: &mut [u8]) -> u64 {
    mended(image, buffer, IMAGE_BYTES, mend_filler)
}

fn expected_taken(image: &[u8], buffer: &mut [u8]) -> u64 {
    mended(image, buffer, IMAGE_BYTES, mend_expected)
}

fn expected_of_1989_taken(image: &[u8], buffer: &mut [u8]) -> u64 {
    mended(image, buffer, IMAGE_BYTES, |image| {
        if image[layout::RULE] == 0 {
            mend_expected(image);
        }
    })
}

fn above_expected_refused(image: &[u8], buffer: &mut [u8]) -> u64 {
    let state = State::of_image(image).ok().filter(|state| {
        let mut both = state.expected.iter().zip(state.attaches);
        image.len() < IMAGE_BYTES || both.all(|(&expected, attaches)| attaches <= expected)
    });
    saved(state, buffer)
}

fn refused_not_saved(image: &[u8], buffer: &mut [u8]) -> u64 {
    let (number, after) = probe(image, buffer);
    if number & 0xFFFF_FFFF == O {
        buffer.copy_from_slice(&after);
    }
    number
}

fn refused_not_idle(image: &[u8], buffer: &mut [u8]) -> u64 {
    let number = saved(State::of_image(image).ok(), buffer);
    if number == (O << 32) + 13 {
        buffer[layout::LOOK_AHEAD] = 2;
    }
    number
}

fn numbers_swapped(image: &[u8], buffer: &mut [u8]) -> u64 {
    saved(State::of_image(image).ok(), buffer).rotate_left(32)
}

fn twelve_alone(image: &[u8], buffer: &mut [u8]) -> u64 {
    match saved(State::of_image(image).ok(), buffer) {
        number if number >> 32 == 12 => (12 << 32) + O,
        number => number,
    }
}

/// Those of Restore that are wrong about a byte, which no rule finds. True for one that
/// chance finds seldom: every byte has to be changed.
#[rustfmt::skip]
pub const BYTES: [(&str, bool, Probe); 7] = [
    ("an older image's L of three bytes", true, three_bytes_of_l),
    ("T of three bytes in 2,274", true, three_bytes_of_t::<IMAGE_BYTES>),
    ("T of three bytes in 2,240", true, three_bytes_of_t::<MARKED_IMAGE_BYTES>),
    ("a byte above the size overlooked in an older image", true, byte_overlooked),
    ("the four 0 bytes told by their lowest bit", true, lowest_bit_told),
    ("two bytes of an older image swapped", false, bytes_swapped),
    ("a mark's high byte taken from the slot before", false, high_byte_of_another),
];

fn three_bytes_of_l(image: &[u8], buffer: &mut [u8]) -> u64 {
    mended(image, buffer, OLDER_IMAGE_BYTES, |image| {
        image[layout::LOOK_AHEAD + 3] = 0;
    })
}

fn three_bytes_of_t<const LENGTH: usize>(image: &[u8], buffer: &mut [u8]) -> u64 {
    mended(image, buffer, LENGTH, |image| {
        image[layout::FETCH_TIME + 3] = 0;
    })
}

/// Pages 1,009 to 1,016 of file 6, in either map, where it has no such pages.
fn byte_overlooked(image: &[u8], buffer: &mut [u8]) -> u64 {
    mended(image, buffer, OLDER_IMAGE_BYTES, |image| {
        let size = &image[layout::size(6)];
        if u16::from_le_bytes([size[0], size[1]]) < 1_009 {
            image[layout::CACHED + FILE_6 + 126] = 0;
            image[layout::IN_FETCH + FILE_6 + 126] = 0;
        }
    })
}

fn lowest_bit_told(image: &[u8], buffer: &mut [u8]) -> u64 {
    mended(image, buffer, IMAGE_BYTES, |image| {
        for byte in &mut image[layout::FOUR_ZEROS..layout::CACHED] {
            *byte &= 1;
        }
    })
}

/// In the fetch map, the last byte of file 5 and the first of file 6.
fn bytes_swapped(image: &[u8], buffer: &mut [u8]) -> u64 {
    mended(image, buffer, OLDER_IMAGE_BYTES, |image| {
        let first = layout::IN_FETCH + FILE_6;
        image.swap(first - 1, first);
    })
}

fn high_byte_of_another(image: &[u8], buffer: &mut [u8]) -> u64 {
    mended(image, buffer, IMAGE_BYTES, |image| {
        image[layout::mark(9).end - 1] = image[layout::mark(8).end - 1];
    })
}

/// Those of the upgrade. True for one that a rule alone finds.
#[rustfmt::skip]
pub const UPGRADES: [(&str, bool, Upgrade); 27] = [
    ("last pages forgotten", true, last_pages_forgotten),
    ("marks forgotten", true, marks_forgotten),
    ("marks of one byte", true, marks_of_one_byte),
    ("marks of last pages", true, marks_of_last_pages),
    ("zeros filled in for running readers alone", true, running_filled_in),
    ("zeros filled in for sound conditions alone", false, sound_conditions_filled_in),
    ("zeros told by their low byte", true, low_byte_told),
    ("an empty slot's zero filled in", true, empty_filled_in),
    ("a file cut to three bits", false, file_of_three_bits),
    ("zeros filled in in 2,274 bytes", false, filled_in_now::<IMAGE_BYTES>),
    ("zeros filled in in 2,240 bytes", true, filled_in_now::<MARKED_IMAGE_BYTES>),
    ("marks rewritten in 2,274 bytes", false, marks_rewritten::<IMAGE_BYTES>),
    ("marks rewritten in 2,240 bytes", true, marks_rewritten::<MARKED_IMAGE_BYTES>),
    ("2,208 bytes made ones of 1993", true, upgraded_to_1993::<OLDER_IMAGE_BYTES>),
    ("2,240 bytes made ones of 1993", true, upgraded_to_1993::<MARKED_IMAGE_BYTES>),
    ("rule, E and R of 2,274 bytes cleared", false, weights_cleared),
    ("what follows 2,240 bytes left as it was", true, tail_left),
    ("2,240 bytes refused", true, marked_refused),
    ("what is no image refused", true, no_image_refused),
    ("a buffer cleared before it is read", true, cleared_first),
    ("a longer buffer taken", false, longer_buffer_taken),
    ("a buffer of 2,208 bytes taken", false, older_buffer_taken),
    ("a length between two taken", false, between_upgraded),
    ("a longer image taken", false, longer_upgraded),
    ("a buffer cleared by a refusal", false, cleared_by_refusal),
    ("the letter alone for a number", true, letter_alone),
    ("nothing written in place", true, left_in_place),
];

/// The model's upgrade, with the image changed that it leaves, by the older one.
fn upgraded(buffer: &mut [u8], older: Older, change: impl FnOnce(&mut [u8], &[u8])) -> u64 {
    let (number, mut image) = upgrade_image(buffer, older);
    if number == O {
        change(&mut image, &bytes_of(buffer, older));
    }
    buffer.copy_from_slice(&image);
    number
}

fn bytes_of(buffer: &[u8], older: Older) -> Vec<u8> {
    match older {
        Older::Apart(bytes) => bytes.to_vec(),
        Older::InPlace(length) => buffer[..length].to_vec(),
    }
}

/// The same for an older image alone, slot by slot: by its record.
fn by_slot(buffer: &mut [u8], older: Older, change: fn(&mut [u8], usize, &[u8], &[u8])) -> u64 {
    upgraded(buffer, older, |image, older| {
        if older.len() == OLDER_IMAGE_BYTES {
            for slot in 0..SLOTS as usize {
                let record = &older[layout::READERS + layout::READER_BYTES * slot..];
                change(image, slot, &record[..layout::READER_BYTES], older);
            }
        }
    })
}

fn put(image: &mut [u8], at: Range<usize>, bytes: &[u8]) {
    image[at].copy_from_slice(bytes);
}

fn size_of(older: &[u8], file: u8) -> &[u8] {
    let at = layout::SIZES + 2 * usize::from(file % 8);
    &older[at..at + 2]
}

fn last_pages_forgotten(buffer: &mut [u8], older: Older) -> u64 {
    by_slot(buffer, older, |image, slot, record, _| {
        put(image, layout::last_page(slot), &record[6..]);
    })
}

fn marks_forgotten(buffer: &mut [u8], older: Older) -> u64 {
    by_slot(buffer, older, |image, slot, _, _| {
        put(image, layout::mark(slot), &[0, 0]);
    })
}

fn marks_of_one_byte(buffer: &mut [u8], older: Older) -> u64 {
    by_slot(buffer, older, |image, slot, record, _| {
        put(image, layout::mark(slot), &[record[4], 0]);
    })
}

fn marks_of_last_pages(buffer: &mut [u8], older: Older) -> u64 {
    by_slot(buffer, older, |image, slot, record, _| {
        put(image, layout::mark(slot), &record[6..]);
    })
}

fn running_filled_in(buffer: &mut [u8], older: Older) -> u64 {
    by_slot(buffer, older, |image, slot, record, _| {
        if record[0] != 1 {
            put(image, layout::last_page(slot), &record[6..]);
        }
    })
}

fn sound_conditions_filled_in(buffer: &mut [u8], older: Older) -> u64 {
    by_slot(buffer, older, |image, slot, record, _| {
        if record[0] > 2 {
            put(image, layout::last_page(slot), &record[6..]);
        }
    })
}

fn low_byte_told(buffer: &mut [u8], older: Older) -> u64 {
    by_slot(buffer, older, |image, slot, record, older| {
        if record[0] != 0 && record[6] == 0 {
            put(image, layout::last_page(slot), size_of(older, record[1]));
        }
    })
}

fn empty_filled_in(buffer: &mut [u8], older: Older) -> u64 {
    by_slot(buffer, older, |image, slot, record, older| {
        if record[0] == 0 && record[6..] == [0, 0] && record[1] < 8 {
            put(image, layout::last_page(slot), size_of(older, record[1]));
        }
    })
}

fn file_of_three_bits(buffer: &mut [u8], older: Older) -> u64 {
    by_slot(buffer, older, |image, slot, record, older| {
        if record[0] != 0 && record[6..] == [0, 0] {
            put(image, layout::last_page(slot), size_of(older, record[1]));
        }
    })
}

/// The same for an image of this length alone.
fn of_length(buffer: &mut [u8], older: Older, length: usize, change: fn(&mut [u8])) -> u64 {
    upgraded(buffer, older, |image, older| {
        if older.len() == length {
            change(image);
        }
    })
}

fn filled_in_now<const LENGTH: usize>(buffer: &mut [u8], older: Older) -> u64 {
    of_length(buffer, older, LENGTH, mend_zeros)
}

fn upgraded_to_1993<const LENGTH: usize>(buffer: &mut [u8], older: Older) -> u64 {
    of_length(buffer, older, LENGTH, |image| image[layout::RULE] = 1)
}

fn weights_cleared(buffer: &mut [u8], older: Older) -> u64 {
    of_length(buffer, older, IMAGE_BYTES, |image| {
        image[layout::RULE..].fill(0);
    })
}

fn tail_left(buffer: &mut [u8], older: Older) -> u64 {
    let before = buffer.to_vec();
    upgraded(buffer, older, |image, older| {
        if older.len() == MARKED_IMAGE_BYTES {
            put(image, layout::RULE..IMAGE_BYTES, &before[layout::RULE..]);
        }
    })
}

fn marked_refused(buffer: &mut [u8], older: Older) -> u64 {
    match bytes_of(buffer, older).len() {
        MARKED_IMAGE_BYTES => 13,
        _ => upgraded(buffer, older, |_, _| {}),
    }
}

fn marks_rewritten<const LENGTH: usize>(buffer: &mut [u8], older: Older) -> u64 {
    of_length(buffer, older, LENGTH, |image| {
        for slot in 0..SLOTS as usize {
            let position = layout::pace(slot).end;
            let position = [image[position], image[position + 1]];
            put(image, layout::mark(slot), &position);
        }
    })
}

fn no_image_refused(buffer: &mut [u8], older: Older) -> u64 {
    match State::of_image(&bytes_of(buffer, older)) {
        Ok(_) => upgraded(buffer, older, |_, _| {}),
        Err(_) => 13,
    }
}

fn cleared_first(buffer: &mut [u8], older: Older) -> u64 {
    if let (IMAGE_BYTES, Older::InPlace(OLDER_IMAGE_BYTES)) = (buffer.len(), older) {
        buffer.fill(0);
    }
    upgraded(buffer, older, |_, _| {})
}

fn longer_buffer_taken(buffer: &mut [u8], older: Older) -> u64 {
    let bytes = bytes_of(buffer, older);
    let room = buffer.len().min(IMAGE_BYTES);
    upgraded(&mut buffer[..room], Older::Apart(&bytes), |_, _| {})
}

fn older_buffer_taken(buffer: &mut [u8], older: Older) -> u64 {
    let bytes = bytes_of(buffer, older);
    if buffer.len() != OLDER_IMAGE_BYTES || bytes.len() != OLDER_IMAGE_BYTES {
        return upgraded(buffer, older, |_, _| {});
    }
    let (number, image) = upgrade_image(&[0; IMAGE_BYTES], Older::Apart(&bytes));
    buffer.copy_from_slice(&image[..OLDER_IMAGE_BYTES]);
    number
}

fn between_upgraded(buffer: &mut [u8], older: Older) -> u64 {
    let mut bytes = bytes_of(buffer, older);
    match bytes.len() {
        OLDER_IMAGE_BYTES..MARKED_IMAGE_BYTES => bytes.truncate(OLDER_IMAGE_BYTES),
        length if length < IMAGE_BYTES => bytes.truncate(MARKED_IMAGE_BYTES),
        _ => {}
    }
    upgraded(buffer, Older::Apart(&bytes), |_, _| {})
}

fn longer_upgraded(buffer: &mut [u8], older: Older) -> u64 {
    let mut bytes = bytes_of(buffer, older);
    bytes.truncate(IMAGE_BYTES);
    upgraded(buffer, Older::Apart(&bytes), |_, _| {})
}

fn cleared_by_refusal(buffer: &mut [u8], older: Older) -> u64 {
    let number = upgraded(buffer, older, |_, _| {});
    if number == 13 {
        buffer.fill(0);
    }
    number
}

fn letter_alone(buffer: &mut [u8], older: Older) -> u64 {
    match upgraded(buffer, older, |_, _| {}) {
        O => 79,
        number => number,
    }
}

fn left_in_place(buffer: &mut [u8], older: Older) -> u64 {
    match older {
        Older::InPlace(_) if buffer.len() == IMAGE_BYTES => {
            let (number, _) = upgrade_image(buffer, older);
            number
        }
        _ => upgraded(buffer, older, |_, _| {}),
    }
}
