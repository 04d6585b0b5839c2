//! Restore's rules, each broken alone, and bounds met exactly.
//!
//! It changes images byte by byte, and so tries the model's reading of them too.

use super::lists::hold_list;
use super::older::{hold_probe, hold_upgrade};
use super::questions::hold_questions;
use super::{hold, Report};
use crate::call::{Call, Entry, Lister, Older, Order, Probe, Upgrade, WhenRead};
use crate::layout::{
    ATTACHES, CACHED, EXPECTED, FETCH_TIME, FILLER, FOUR_ZEROS, FRAMES, IN_FETCH, LAST, LOOK_AHEAD,
    MARKS, READERS, READER_BYTES, RULE, SIZES, TURN, ZERO_BYTE,
};
use crate::limits::{IMAGE_BYTES, MARKED_IMAGE_BYTES, OLDER_IMAGE_BYTES};
use crate::model::{Page, Reader, Rule, State};

/// Each rule broken alone: every call answers 13. The bounds met exactly: none
/// does. (Every entry restores for itself, so every call is tried.)
pub fn rules(report: &mut Report, entry: Entry) {
    for (rule, changes) in all_broken() {
        let image = changed(&changes);
        for call in EVERY_CALL {
            let (number, _) = hold(report, entry, &image, call);
            report.check(number == 13, || {
                format!("{rule} {changes:?}, {call:?}: {number}, not 13")
            });
        }
    }
    for (rule, changes) in all_unbroken() {
        let image = changed(&changes);
        for call in EVERY_CALL {
            let (number, _) = hold(report, entry, &image, call);
            report.check(number != 13, || format!("{rule}, {call:?}: 13"));
        }
    }
}

/// The same by Restore itself, in each length.
pub fn by_probe(report: &mut Report, probe: Probe) {
    for (rule, image, refused) in in_each_length() {
        let number = hold_probe(report, probe, &image, &[7; IMAGE_BYTES + 1]);
        report.check((number == 13) == refused, || format!("{rule}: {number}"));
    }
}

/// The same by both lists, in each length.
pub fn by_list(report: &mut Report, lister: Lister) {
    for (rule, image, refused) in in_each_length() {
        for order in Order::BOTH {
            let (number, _) = hold_list(report, lister, order, &image, &[7; 40]);
            report.check((number == 13) == refused, || format!("{rule}: {number}"));
        }
    }
}

/// The same by questions, in each length.
pub fn by_question(report: &mut Report, when_read: WhenRead) {
    let questions = [0, 4, 0, 5, 1, 5, 6, 1, 0, 21];
    for (rule, image, refused) in in_each_length() {
        for answers in [&[7; 6][..], &[]] {
            let (number, _) = hold_questions(report, when_read, &image, &questions, answers);
            report.check((number == 13) == refused, || format!("{rule}: {number}"));
        }
    }
}

/// Every rule with the image that tries it, and whether this is refused. In 2,240 bytes
/// there are no rule, E and R; in 2,208 there are no marks either, and a last page of 0
/// is the size.
fn in_each_length() -> Vec<(String, Vec<u8>, bool)> {
    let mut images = Vec::new();
    for (length, refused, rules) in [
        (IMAGE_BYTES, true, all_broken()),
        (IMAGE_BYTES, false, all_unbroken()),
        (MARKED_IMAGE_BYTES, true, marked_broken()),
        (MARKED_IMAGE_BYTES, false, marked_unbroken()),
        (OLDER_IMAGE_BYTES, true, broken()),
        (OLDER_IMAGE_BYTES, false, older_unbroken()),
    ] {
        for (rule, changes) in rules {
            let mut image = changed(&changes);
            image.truncate(length);
            let rule = format!("{rule} {changes:?}, {length} bytes");
            images.push((rule, image, refused));
        }
    }
    images
}

/// The same by the header's upgrade of 2,240 and 2,208 bytes and a call on what comes of
/// it.
pub fn by_upgrade(report: &mut Report, upgrade: Upgrade, entry: Entry) {
    for (length, refused, rules) in [
        (MARKED_IMAGE_BYTES, true, marked_broken()),
        (MARKED_IMAGE_BYTES, false, marked_unbroken()),
        (OLDER_IMAGE_BYTES, true, broken()),
        (OLDER_IMAGE_BYTES, false, older_unbroken()),
    ] {
        for (rule, changes) in rules {
            let buffer = changed(&changes);
            let older = Older::Apart(&buffer[..length]);
            hold_upgrade(report, upgrade, &[7; IMAGE_BYTES], older);
            let older = Older::InPlace(length);
            let Some(image) = hold_upgrade(report, upgrade, &buffer, older) else {
                continue;
            };
            let (number, _) = hold(report, entry, &image, Call::Steal);
            report.check((number == 13) == refused, || {
                format!("{rule} {changes:?}, {length} bytes upgraded: {number}")
            });
        }
    }
}

/// One of each. Some would be refused for their own numbers too; 13 comes first.
const EVERY_CALL: [Call; 9] = [
    Call::Attach {
        slot: 16,
        file: 0,
        pace: 1,
        start: 0,
        last: 1,
    },
    Call::Detach { slot: 1 },
    Call::Read { slot: 0 },
    Call::Arrive { file: 1, page: 5 },
    Call::Lost { file: 8, page: 1 },
    Call::Prefetch,
    Call::Steal,
    Call::Run { turns: 16_385 },
    Call::Measure {
        slot: 3,
        interval: 0,
        blocked: 1,
    },
];

/// Bytes to write over an image, each piece with its place.
type Changes = Vec<(usize, Vec<u8>)>;

/// Changes, each with what they try.
type Rules = Vec<(&'static str, Changes)>;

/// The image of the sound state with these changes.
fn changed(changes: &Changes) -> Vec<u8> {
    let mut image = sound_state().image();
    for (at, bytes) in changes {
        image[*at..*at + bytes.len()].copy_from_slice(bytes);
    }
    image
}

/// The files of the sound state.
const FILE_SIZES: [u64; 8] = [20, 1_024, 1_024, 1_024, 64, 1, 0, 0];

/// Two frames, both taken. File 0 has 20 pages, 1 to 3 have 1,024, 4 has 64,
/// 5 has 1, 6 and 7 none. Slot 0 runs in file 0, slot 1 waits for page 5 of
/// file 1, slot 2 runs in file 2; slot 3 is empty. Slot 0 reads up to page 12, the
/// others up to their files' ends. Slot 0 was measured at page 1 and slot 1 where it
/// is; slot 2 has docked at page 0. The rule is that of 1993; the files expect 3 readers
/// each, and 1 has been attached to each.
fn sound_state() -> State {
    let mut state = State::idle();
    state.frames = 2;
    state.look_ahead = 100;
    state.fetch_time = 20;
    state.sizes = FILE_SIZES;
    for (slot, file, mark, position, last) in
        [(0, 0, 1, 3, 12), (1, 1, 4, 4, 1_024), (2, 2, 0, 9, 1_024)]
    {
        let mut reader = Reader::running(file, 10, position, last);
        reader.mark = mark;
        reader.waiting = slot == 1;
        state.readers.insert(slot, reader);
    }
    state.cached = [page(0, 4), page(4, 64)].into();
    state.in_fetch = [page(1, 5), page(2, 1)].into();
    state.rule = Rule::Of1993;
    (state.expected, state.attaches) = ([3; 8], [1; 8]);
    state
}

fn page(file: u64, number: u64) -> Page {
    Page { file, number }
}

/// A map byte with only this page's bit.
fn bit(map: usize, page: Page) -> (usize, Vec<u8>) {
    let key = page.file as usize * 1_024 + page.number as usize - 1;
    (map + key / 8, vec![1 << (key % 8)])
}

/// A reader's record: slot, condition, file, pace, position; its last page is the
/// size, or 1 where there is no such file.
fn record(slot: usize, condition: u8, file: u8, pace: u16, position: u16) -> (usize, Vec<u8>) {
    let mut bytes = vec![condition, file];
    bytes.extend(pace.to_le_bytes());
    bytes.extend(position.to_le_bytes());
    let size = FILE_SIZES.get(usize::from(file)).copied().unwrap_or(0);
    bytes.extend((size.max(1) as u16).to_le_bytes());
    (READERS + READER_BYTES * slot, bytes)
}

/// Slot 2 running or waiting in a file, with pace 10: position and last page.
fn reader(condition: u8, file: u8, position: u16, last: u16) -> (usize, Vec<u8>) {
    let (at, mut bytes) = record(2, condition, file, 10, position);
    bytes[LAST..].copy_from_slice(&last.to_le_bytes());
    (at, bytes)
}

/// A slot's mark.
fn mark(slot: usize, mark: u16) -> (usize, Vec<u8>) {
    two(MARKS + 2 * slot, mark)
}

fn nothing_cached() -> (usize, Vec<u8>) {
    (CACHED, vec![0; IN_FETCH - CACHED])
}

fn two(at: usize, number: u16) -> (usize, Vec<u8>) {
    (at, number.to_le_bytes().to_vec())
}

fn four(at: usize, number: u32) -> (usize, Vec<u8>) {
    (at, number.to_le_bytes().to_vec())
}

/// Each rule of 2,274 bytes.
fn all_broken() -> Rules {
    [marked_broken(), broken_weights()].concat()
}

fn all_unbroken() -> Rules {
    [marked_unbroken(), unbroken_weights()].concat()
}

/// Each rule of 2,240 bytes.
fn marked_broken() -> Rules {
    [broken(), broken_marks(), zero_last_pages()].concat()
}

fn marked_unbroken() -> Rules {
    [unbroken(), unbroken_marks()].concat()
}

fn older_unbroken() -> Rules {
    [unbroken(), zero_last_pages()].concat()
}

/// Each rule of every length.
fn broken() -> Rules {
    let mut list = vec![
        ("frames 0", vec![two(FRAMES, 0), nothing_cached()]),
        ("frames 1,025", vec![two(FRAMES, 1_025)]),
        ("turn 16", vec![(TURN, vec![16])]),
        ("turn 255", vec![(TURN, vec![255])]),
        ("byte 3 not 0", vec![(ZERO_BYTE, vec![1])]),
        ("L 0", vec![four(LOOK_AHEAD, 0)]),
        ("L 2,000,001", vec![four(LOOK_AHEAD, 2_000_001)]),
        ("L far too large", vec![four(LOOK_AHEAD, u32::MAX)]),
        ("T 2,000,001", vec![four(FETCH_TIME, 2_000_001)]),
        ("T far too large", vec![four(FETCH_TIME, u32::MAX)]),
        ("a size of 1,025", vec![two(SIZES + 2 * 3, 1_025)]),
        ("condition 3", vec![record(2, 3, 2, 10, 9)]),
        ("condition 255", vec![record(2, 255, 2, 10, 9)]),
        ("file 8", vec![record(2, 1, 8, 10, 0)]),
        ("file 255", vec![record(2, 1, 255, 10, 0)]),
        ("a file of size 0", vec![record(2, 1, 7, 10, 0)]),
        ("pace 0", vec![record(2, 1, 2, 0, 9)]),
        ("pace 1,001", vec![record(2, 1, 2, 1_001, 9)]),
        ("a position above the size", vec![record(2, 1, 0, 10, 21)]),
        ("a position far above", vec![record(2, 1, 2, 10, u16::MAX)]),
        ("waiting for no fetch", vec![record(2, 2, 2, 10, 9)]),
        ("waiting for a cached page", vec![record(2, 2, 0, 10, 3)]),
        (
            "waiting at the last page, the key behind it in fetch",
            vec![record(2, 2, 1, 10, 1_024)],
        ),
        (
            "cached above the size",
            vec![two(FRAMES, 9), bit(CACHED, page(5, 2))],
        ),
        ("fetched above the size", vec![bit(IN_FETCH, page(0, 21))]),
        (
            "cached in no file",
            vec![two(FRAMES, 9), bit(CACHED, page(6, 1))],
        ),
        ("fetched in no file", vec![bit(IN_FETCH, page(7, 1_024))]),
        ("a page in both maps", vec![bit(IN_FETCH, page(4, 64))]),
        ("more cached than frames", vec![two(FRAMES, 1)]),
        ("more cached than frames", vec![bit(CACHED, page(3, 1_024))]),
        (
            "the waited-for page not in fetch",
            vec![bit(IN_FETCH, page(1, 6))],
        ),
    ];
    let last_pages = broken_last_pages().into_iter();
    list.extend(last_pages.map(|(rule, record)| (rule, vec![record])));
    let zeros = FOUR_ZEROS..CACHED;
    list.extend(zeros.map(|at| ("a 0 byte that is not 0", vec![(at, vec![1])])));
    let empty_slot = READERS + READER_BYTES * 3;
    let record_bytes = empty_slot + 1..empty_slot + READER_BYTES;
    list.extend(record_bytes.map(|at| ("an empty slot not all 0", vec![(at, vec![128])])));
    list
}

/// "0 for an empty slot, each at most the position, else 13": slot 0 is at page 3,
/// slot 1 waits at page 4, slot 3 is empty.
fn broken_marks() -> Rules {
    vec![
        ("a mark above the position", vec![mark(0, 4)]),
        ("the same by its high byte", vec![mark(0, 256 + 3)]),
        ("a mark at the last page, above", vec![mark(0, 12)]),
        ("a mark far above", vec![mark(0, u16::MAX)]),
        ("a waiting reader's mark above", vec![mark(1, 5)]),
        (
            "a mark above position 0",
            vec![reader(1, 2, 0, 9), mark(2, 1)],
        ),
        (
            "a mark above position 255, both bytes",
            vec![reader(1, 2, 255, 1_024), mark(2, 256)],
        ),
        ("an empty slot's mark", vec![mark(3, 1)]),
        ("the same by its high byte", vec![mark(3, 256)]),
        ("the last slot's mark, empty", vec![mark(15, 1)]),
        ("the same by its high byte", vec![mark(15, 0x8000)]),
    ]
}

/// "A rule byte above 1, a filler byte not 0 or an E above 1,000 gets 13."
fn broken_weights() -> Rules {
    let mut rules = vec![
        ("rule 2", vec![(RULE, vec![2])]),
        ("rule 3", vec![(RULE, vec![3])]),
        ("rule 128", vec![(RULE, vec![128])]),
        ("rule 255", vec![(RULE, vec![255])]),
        ("a filler of 1", vec![(FILLER, vec![1])]),
        ("a filler of 128", vec![(FILLER, vec![128])]),
        ("a filler of 1 under 1989", vec![(RULE, vec![0, 1])]),
    ];
    for file in 0..8 {
        let at = EXPECTED + 2 * file;
        rules.extend([
            ("E 1,001", vec![two(at, 1_001)]),
            ("E 1,001 under 1989", vec![(RULE, vec![0]), two(at, 1_001)]),
            ("E 1,024", vec![two(at, 1_024)]),
            ("E 65,535", vec![two(at, u16::MAX)]),
        ]);
    }
    rules
}

/// Any R is one, whatever E is.
fn unbroken_weights() -> Rules {
    let mut rules = vec![
        ("rule 1989", vec![(RULE, vec![0])]),
        ("rule 1993", vec![(RULE, vec![1])]),
    ];
    for file in 0..8 {
        let (expected, attaches) = (EXPECTED + 2 * file, ATTACHES + 2 * file);
        rules.extend([
            ("E 0", vec![two(expected, 0)]),
            ("E 1,000", vec![two(expected, 1_000)]),
            (
                "E 1,000 under 1989",
                vec![(RULE, vec![0]), two(expected, 1_000)],
            ),
            ("R 0", vec![two(attaches, 0)]),
            ("R 1,001", vec![two(attaches, 1_001)]),
            ("R 65,535", vec![two(attaches, u16::MAX)]),
        ]);
    }
    rules
}

/// "a taken slot's last page of 0": 13, but in an older image the file's size.
fn zero_last_pages() -> Rules {
    vec![
        ("a last page of 0", vec![reader(1, 2, 9, 0)]),
        ("a last page of 0 at position 0", vec![reader(1, 2, 0, 0)]),
        ("a last page of 0, waiting", vec![reader(2, 1, 4, 0)]),
        ("a last page of 0 in a file of 1", vec![reader(1, 5, 1, 0)]),
        (
            "two last pages of 0",
            vec![reader(1, 0, 3, 0), two(READERS + LAST, 0)],
        ),
    ]
}

fn unbroken_marks() -> Rules {
    vec![
        ("a mark of 0", vec![mark(0, 0)]),
        ("a mark at the position", vec![mark(0, 3)]),
        ("a waiting reader's mark of 0", vec![mark(1, 0)]),
        (
            "a mark of 1,024",
            vec![reader(1, 1, 1_024, 1_024), mark(2, 1_024)],
        ),
        (
            "a mark of 255 below position 256",
            vec![reader(1, 1, 256, 1_024), mark(2, 255)],
        ),
        (
            "a mark in slot 15",
            vec![record(15, 1, 5, 10, 1), mark(15, 1)],
        ),
    ]
}

/// "A last page above the size or below the position, or a waiting reader at it,
/// gets 13." Pages 5 of file 1 and 1 of file 2 are in fetch.
fn broken_last_pages() -> [(&'static str, (usize, Vec<u8>)); 11] {
    [
        ("a last page above the size", reader(1, 0, 3, 21)),
        ("the same by its high byte", reader(1, 0, 3, 256 + 3)),
        ("a last page of 1,025", reader(1, 2, 9, 1_025)),
        ("a last page far above", reader(1, 2, 9, u16::MAX)),
        ("position and last page above", reader(1, 0, 21, 21)),
        ("a last page below the position", reader(1, 2, 9, 8)),
        ("the same by a high byte", reader(1, 2, 256, 255)),
        ("a last page of 1", reader(1, 2, 1_024, 1)),
        ("waiting at its last page", reader(2, 1, 4, 4)),
        ("waiting above its last page", reader(2, 1, 4, 3)),
        (
            "waiting at the size, key behind",
            reader(2, 1, 1_024, 1_024),
        ),
    ]
}

fn unbroken() -> Rules {
    vec![
        ("nothing changed", vec![]),
        ("frames 1", vec![two(FRAMES, 1), nothing_cached()]),
        ("frames 1,024", vec![two(FRAMES, 1_024)]),
        ("turn 15", vec![(TURN, vec![15])]),
        ("L 1", vec![four(LOOK_AHEAD, 1)]),
        ("L 2,000,000", vec![four(LOOK_AHEAD, 2_000_000)]),
        ("T 0", vec![four(FETCH_TIME, 0)]),
        ("T 2,000,000", vec![four(FETCH_TIME, 2_000_000)]),
        ("pace 1", vec![record(2, 1, 2, 1, 9)]),
        ("pace 1,000", vec![record(2, 1, 2, 1_000, 9)]),
        ("position 0", vec![record(2, 1, 2, 10, 0)]),
        ("position at the size", vec![record(2, 1, 0, 10, 20)]),
        ("position 1,024", vec![record(2, 1, 1, 10, 1_024)]),
        ("waiting at position 0", vec![record(2, 2, 2, 10, 0)]),
        ("two waiting for one page", vec![record(2, 2, 1, 10, 4)]),
        ("a reader in slot 15", vec![record(15, 1, 5, 10, 1)]),
        ("last page 1, position 0", vec![reader(1, 2, 0, 1)]),
        ("last page at the position", vec![reader(1, 2, 9, 9)]),
        ("last page at the size", vec![reader(1, 0, 3, 20)]),
        ("a last page of 256", vec![reader(1, 2, 9, 256)]),
        (
            "last page and position 1,024",
            vec![reader(1, 1, 1_024, 1_024)],
        ),
        ("waiting for the last page", vec![reader(2, 1, 4, 5)]),
        ("waiting for a last page of 1", vec![reader(2, 2, 0, 1)]),
        (
            "the last page in fetch",
            vec![bit(IN_FETCH, page(3, 1_024))],
        ),
    ]
}
