//! The box itself, through its C entries: "calls the box on numbers and an
//! image buffer"; the header's first images and its upgrade of an older one, through
//! `ffi.c`; Setup, Restore and Save by themselves; Steal list and Fetch list with what
//! they report; and when pages will be read.

#![allow(unsafe_code)]

use crate::call::{Call, Older, Order, Settings};

extern "C" {
    fn quay_attach(
        image: *mut u8,
        len: usize,
        slot: u64,
        file: u64,
        pace: u64,
        start: u64,
        last: u64,
    ) -> u64;
    fn quay_detach(image: *mut u8, len: usize, slot: u64) -> u64;
    fn quay_read(image: *mut u8, len: usize, slot: u64) -> u64;
    fn quay_arrive(image: *mut u8, len: usize, file: u64, page: u64) -> u64;
    fn quay_lost(image: *mut u8, len: usize, file: u64, page: u64) -> u64;
    fn quay_prefetch(image: *mut u8, len: usize) -> u64;
    fn quay_steal(image: *mut u8, len: usize) -> u64;
    fn quay_run(image: *mut u8, len: usize, turns: u64) -> u64;
    fn quay_measure(image: *mut u8, len: usize, slot: u64, interval: u64, blocked: u64) -> u64;
    fn header_first_image(
        image: *mut u8,
        len: usize,
        frames: u64,
        look_ahead: u64,
        fetch_time: u64,
        sizes: *const u64,
    ) -> u64;
    fn header_first_image_by_rule(
        image: *mut u8,
        len: usize,
        frames: u64,
        look_ahead: u64,
        fetch_time: u64,
        sizes: *const u64,
        rule: u64,
        expected: *const u64,
    ) -> u64;
    fn header_upgrade_image(image: *mut u8, len: usize, old: *const u8, old_len: usize) -> u64;
    fn probe_restore(image: *const u8, image_len: usize, buffer: *mut u8, buffer_len: usize)
        -> u64;
    fn probe_setup(numbers: *const u64, count: usize, buffer: *mut u8, buffer_len: usize) -> u64;
    fn probe_steal_list(image: *const u8, image_len: usize, list: *mut u16, room: usize) -> u64;
    fn probe_fetch_list(image: *const u8, image_len: usize, list: *mut u16, room: usize) -> u64;
    fn probe_when_read(
        image: *const u8,
        image_len: usize,
        questions: *const u64,
        numbers: usize,
        answers: *mut u64,
        room: usize,
    ) -> u64;
}

/// One call through the box's C entry of that name.
pub fn entry(image: &mut [u8], call: Call) -> u64 {
    let (at, len) = (image.as_mut_ptr(), image.len());
    // SAFETY: the entry may read and write `len` bytes from `at`, and for the
    // length of the call these are lent to it alone.
    unsafe {
        match call {
            Call::Attach {
                slot,
                file,
                pace,
                start,
                last,
            } => quay_attach(at, len, slot, file, pace, start, last),
            Call::Detach { slot } => quay_detach(at, len, slot),
            Call::Read { slot } => quay_read(at, len, slot),
            Call::Arrive { file, page } => quay_arrive(at, len, file, page),
            Call::Lost { file, page } => quay_lost(at, len, file, page),
            Call::Prefetch => quay_prefetch(at, len),
            Call::Steal => quay_steal(at, len),
            Call::Run { turns } => quay_run(at, len, turns),
            Call::Measure {
                slot,
                interval,
                blocked,
            } => quay_measure(at, len, slot, interval, blocked),
        }
    }
}

/// A first image by the inline function of `quay.h` that takes no rule and no E: "1989,
/// E 0".
pub fn first_image(image: &mut [u8], settings: &Settings) -> u64 {
    let Settings {
        frames,
        look_ahead,
        fetch_time,
        ref sizes,
        ..
    } = *settings;
    let (at, len) = (image.as_mut_ptr(), image.len());
    // SAFETY: as for an entry; and it may read the eight sizes.
    unsafe { header_first_image(at, len, frames, look_ahead, fetch_time, sizes.as_ptr()) }
}

/// A first image by the inline function of `quay.h` that takes all settings.
pub fn first_image_by_rule(image: &mut [u8], settings: &Settings) -> u64 {
    let Settings {
        frames,
        look_ahead,
        fetch_time,
        ref sizes,
        rule,
        ref expected,
    } = *settings;
    let (at, len) = (image.as_mut_ptr(), image.len());
    let (sizes, expected) = (sizes.as_ptr(), expected.as_ptr());
    // SAFETY: as for an entry; and it may read the eight sizes and the eight E.
    unsafe {
        header_first_image_by_rule(
            at, len, frames, look_ahead, fetch_time, sizes, rule, expected,
        )
    }
}

/// An older image made one of 2,274 bytes by the inline function of `quay.h`.
pub fn upgrade_image(image: &mut [u8], older: Older) -> u64 {
    let (at, len) = (image.as_mut_ptr(), image.len());
    let (old, old_len) = match older {
        Older::Apart(bytes) => (bytes.as_ptr(), bytes.len()),
        Older::InPlace(length) => (at.cast_const(), length.min(len)),
    };
    // SAFETY: as for an entry; and it may read `old_len` bytes from `old`, which lie
    // apart from the image or at its start.
    unsafe { header_upgrade_image(at, len, old, old_len) }
}

/// Restore of an image and Save into a buffer, by the box.
pub fn probe(image: &[u8], buffer: &mut [u8]) -> u64 {
    let (at, len) = (buffer.as_mut_ptr(), buffer.len());
    // SAFETY: it may read the image, and read and write the buffer, which is lent to
    // it alone.
    unsafe { probe_restore(image.as_ptr(), image.len(), at, len) }
}

/// Setup of numbers and Save into a buffer, by the box.
pub fn setup(numbers: &[u64], buffer: &mut [u8]) -> u64 {
    let (at, len) = (buffer.as_mut_ptr(), buffer.len());
    // SAFETY: it may read the numbers, and read and write the buffer, which is lent to
    // it alone.
    unsafe { probe_setup(numbers.as_ptr(), numbers.len(), at, len) }
}

/// The list of an order on an image, by the box.
pub fn list(order: Order, image: &[u8], list: &mut [u16]) -> u64 {
    let (at, len) = (image.as_ptr(), image.len());
    let (list, room) = (list.as_mut_ptr(), list.len());
    // SAFETY: it may read the image, and read and write `room` numbers from `list`,
    // which are lent to it alone.
    unsafe {
        match order {
            Order::Steal => probe_steal_list(at, len, list, room),
            Order::Fetch => probe_fetch_list(at, len, list, room),
        }
    }
}

/// When pages will be read, on an image, by the box.
pub fn when_read(image: &[u8], questions: &[u64], answers: &mut [u64]) -> u64 {
    let (at, len) = (image.as_ptr(), image.len());
    let (asked, numbers) = (questions.as_ptr(), questions.len());
    let (answers, room) = (answers.as_mut_ptr(), answers.len());
    // SAFETY: it may read the image and `numbers` numbers from `asked`, and read and
    // write `room` numbers from `answers`, which are lent to it alone.
    unsafe { probe_when_read(at, len, asked, numbers, answers, room) }
}
