//! Questions whose answers and words are worked out by hand.

use super::questions::{hold_questions, numbers_of};
use super::soundings::{on_the_link, seat, usual};
use super::Report;
use crate::call::WhenRead;
use crate::model::{Page, Reader, Refusal, State, When};

/// A state, the words that its look-aheads lie in, and questions with their answers.
#[derive(Clone)]
struct Worked {
    name: &'static str,
    state: State,
    words: u64,
    rows: Vec<(Page, When)>,
}

/// Holds the call to every one of them.
pub fn worked(report: &mut Report, when_read: WhenRead) {
    for Worked {
        name,
        state,
        words,
        rows,
    } in all()
    {
        let questions: Vec<Page> = rows.iter().map(|row| row.0).collect();
        let (image, numbers) = (state.image(), numbers_of(&questions));
        let room = vec![7; rows.len() + 1];
        let (number, answers) = hold_questions(report, when_read, &image, &numbers, &room);
        let expected = rows.iter().map(|row| row.1.number()).chain([0]);
        let good = number == 4_294_967_296 + words && expected.eq(answers);
        report.check(good, || format!("{name}, worked out by hand"));
        let (number, _) = hold_questions(report, when_read, &image, &[], &[]);
        report.check(number == 4_294_967_296 + words, || {
            format!("{name}: the words without a question are {number}")
        });
    }
}

fn all() -> Vec<Worked> {
    [
        one_reader(),
        refusals(),
        two_readers(),
        seats(),
        open(),
        borders(),
        far_on_the_link(),
    ]
    .concat()
}

fn page(number: u64) -> Page {
    Page { file: 0, number }
}

fn read(number: u64, time: u64, slot: u64) -> (Page, When) {
    (page(number), When::Read { time, slot })
}

fn behind(number: u64) -> (Page, When) {
    (page(number), When::Behind)
}

fn not_seen(number: u64) -> (Page, When) {
    (page(number), When::NotSeen)
}

fn refused(file: u64, number: u64, refusal: Refusal) -> (Page, When) {
    (Page { file, number }, When::Refused(refusal))
}

fn worked_out(name: &'static str, state: State, words: u64, rows: &[(Page, When)]) -> Worked {
    let rows = rows.to_vec();
    Worked {
        name,
        state,
        words,
        rows,
    }
}

/// The state of the soundings with another reader in slot 0.
fn reading(fetch_time: u64, reader: Reader) -> State {
    let mut state = usual(fetch_time);
    state.readers.insert(0, reader);
    state
}

/// The soundings' state at T 20, 0 and 41; without its reader; with a reader that
/// ends at page 6.
fn one_reader() -> Vec<Worked> {
    let mut unread = usual(0);
    unread.readers.clear();
    let shortened = reading(0, Reader::running(0, 10, 3, 6));
    let at_end = reading(0, Reader::running(0, 10, 6, 6));
    let rows_of_20 = [
        behind(3),
        read(4, 10, 0),
        read(5, 40, 0),
        read(6, 50, 0),
        not_seen(7),
        not_seen(16),
    ];
    let rows_of_0 = [
        not_seen(8),
        behind(1),
        read(4, 10, 0),
        read(5, 20, 0),
        read(6, 30, 0),
        read(7, 40, 0),
    ];
    let rows_of_6 = [read(6, 30, 0), behind(7), behind(8), behind(16), behind(3)];
    vec![
        worked_out("T 20", usual(20), 1, &rows_of_20),
        worked_out("T 0", usual(0), 1, &rows_of_0),
        worked_out(
            "T 41",
            usual(41),
            0,
            &[not_seen(4), behind(3), not_seen(16)],
        ),
        worked_out("no reader", unread, 0, &[behind(1), behind(4), behind(16)]),
        worked_out("a last page", shortened, 1, &rows_of_6),
        worked_out("at its last page", at_end, 0, &[behind(6), behind(7)]),
    ]
}

/// Rows that are refused, among others. Numbers that would be a file or a page if they
/// were cut to fewer bits are none.
fn refusals() -> Vec<Worked> {
    let no_file = |file, number| refused(file, number, Refusal::File);
    let no_page = |number| refused(0, number, Refusal::Page);
    let sounding = [
        behind(3),
        read(4, 10, 0),
        read(5, 40, 0),
        read(6, 50, 0),
        not_seen(8),
        no_page(17),
        no_file(1, 1),
    ];
    let mixed = [
        no_file(8, 1),
        read(4, 10, 0),
        no_file(1, 0),
        no_page(0),
        behind(3),
        no_file(1, 17),
        read(4, 10, 0),
        no_file(8, 0),
    ];
    let cut = [
        no_file(256, 4),
        no_file(65_536, 4),
        no_file(1 << 32, 4),
        no_file(u64::MAX, u64::MAX),
        no_page(256 + 4),
        no_page(65_536 + 4),
        no_page((1 << 32) + 4),
        no_page(u64::MAX),
        read(4, 10, 0),
    ];
    vec![
        worked_out("the soundings' rows", usual(20), 1, &sounding),
        worked_out("refused rows among others", usual(20), 1, &mixed),
        worked_out("numbers past a cut", usual(20), 1, &cut),
    ]
}

/// A page that one reader has read, or does not come to, and another has before it.
fn two_readers() -> Vec<Worked> {
    let later = seat(usual(0), 1, 6, 10);
    let far_later = seat(usual(0), 1, 12, 10);
    let far_before = seat(seat(usual(0), 0, 12, 10), 1, 3, 10);
    let mut ended = seat(usual(0), 0, 10, 10);
    ended.readers.insert(1, Reader::running(0, 10, 3, 6));
    let faster = seat(seat(usual(0), 0, 3, 20), 1, 3, 10);
    let of_later = [
        behind(3),
        read(4, 10, 0),
        read(6, 30, 0),
        read(7, 10, 1),
        read(10, 40, 1),
        not_seen(11),
    ];
    let of_ended = [read(5, 20, 1), behind(8), read(11, 10, 0), not_seen(15)];
    let of_far = [not_seen(9), not_seen(12), read(13, 10, 1), behind(3)];
    let of_before = [not_seen(9), not_seen(12), read(13, 10, 0), read(4, 10, 1)];
    let of_faster = [read(4, 10, 1), read(5, 20, 1), read(6, 30, 1), not_seen(8)];
    vec![
        worked_out("behind one reader", later, 2, &of_later),
        worked_out("beyond one's last page", ended, 2, &of_ended),
        worked_out("not seen behind one", far_later, 2, &of_far),
        worked_out("not seen behind the first", far_before, 2, &of_before),
        worked_out("time before seat", faster, 2, &of_faster),
    ]
}

/// Slots 2 and 9 at the same page: the turn tells which comes first.
fn seats() -> Vec<Worked> {
    let mut worked = Vec::new();
    for (turn, first) in [(0, 2), (2, 2), (3, 9), (9, 9), (10, 2)] {
        let mut state = seat(seat(usual(0), 2, 3, 10), 9, 3, 10);
        state.readers.remove(&0);
        state.turn = turn;
        let rows = [read(4, 10, first), read(7, 40, first), not_seen(8)];
        worked.push(worked_out("a tie", state, 2, &rows));
    }
    for (slot, turn) in [(0, 1), (15, 15), (15, 0), (6, 11)] {
        let mut state = seat(usual(0), slot, 3, 10);
        state.readers.retain(|&other, _| other == slot);
        state.turn = turn;
        let rows = [read(4, 10, slot), read(7, 40, slot)];
        worked.push(worked_out("slot and turn", state, 1, &rows));
    }
    worked
}

/// Pages in fetch count as cached in q, and are judged themselves as all others are:
/// page 4 alone; among others and waited for; with page 6 too, so that no page before
/// page 7 is missing; and at T 40, where one missing page ends a look-ahead.
fn open() -> Vec<Worked> {
    let mut waited_for = on_the_link();
    waited_for.cached.remove(&page(2));
    waited_for.in_fetch.extend([page(2), page(12)]);
    waited_for.readers.get_mut(&0).unwrap().waiting = true;
    let mut all_open = on_the_link();
    all_open.in_fetch.insert(page(6));
    let mut farther = on_the_link();
    farther.fetch_time = 40;
    let times = |last| [read(4, 10, 0), read(5, 20, 0), read(6, 30, 0), last];
    let alone = [&times(read(7, 60, 0))[..], &[behind(3), not_seen(8)]].concat();
    let waited = [&times(read(7, 60, 0))[..], &[behind(2), not_seen(12)]].concat();
    vec![
        worked_out("page 4 in fetch", on_the_link(), 1, &alone),
        worked_out("pages in fetch", waited_for, 1, &waited),
        worked_out("none missing", all_open, 1, &times(read(7, 40, 0))),
        worked_out("m is 1", farther, 1, &times(not_seen(7))),
    ]
}

/// A file of 1,024 pages, nothing of it cached: by where a look-ahead starts, how many
/// pages it has, and T.
fn far(position: u64, pages: u64, fetch_time: u64) -> State {
    let mut state = reading(fetch_time, Reader::running(0, 10, position, 1_024));
    state.sizes[0] = 1_024;
    state.cached.clear();
    state.look_ahead = 10 * pages;
    state
}

/// The same with pages in fetch. The look-ahead that was pruned before page 64 goes on
/// into the next word, with 62 and 63 in fetch and 61, 64 and 65 missing; a whole file
/// in fetch is seen, though one missing page would end it; and so is one of which
/// every second page is cached. The two words at one place count as one.
fn far_on_the_link() -> Vec<Worked> {
    let mut over_border = far(60, 10, 33);
    over_border.in_fetch = [62, 63].map(page).into();
    let mut whole = far(0, 1_024, 10_240);
    whole.in_fetch = (1..=1_024).map(page).collect();
    let mut both = whole.clone();
    both.frames = 512;
    both.cached = (1..=512).map(|nth| page(2 * nth)).collect();
    both.in_fetch.retain(|page| !page.number.is_multiple_of(2));
    let rows = [
        read(61, 10, 0),
        read(62, 53, 0),
        read(63, 63, 0),
        read(64, 73, 0),
        read(65, 116, 0),
        not_seen(66),
    ];
    let of_whole = [read(1, 10, 0), read(65, 650, 0), read(1_024, 10_240, 0)];
    vec![
        worked_out("pruned behind a border", over_border, 2, &rows),
        worked_out("a whole file in fetch", whole, 16, &of_whole),
        worked_out("a file of both maps", both, 16, &of_whole),
    ]
}

/// Look-aheads about the borders of words.
fn borders() -> Vec<Worked> {
    let mut twice = far(63, 2, 0);
    twice.readers.insert(5, Reader::running(0, 10, 63, 1_024));
    let two = [behind(63), read(64, 10, 0), read(65, 20, 0), not_seen(66)];
    let whole = [read(1, 10, 0), read(64, 640, 0), read(1_024, 10_240, 0)];
    let pruned = [
        read(61, 10, 0),
        read(62, 53, 0),
        read(63, 96, 0),
        not_seen(64),
    ];
    let unpruned = [
        read(61, 10, 0),
        read(64, 40, 0),
        read(70, 100, 0),
        not_seen(71),
    ];
    vec![
        worked_out("pages 64 and 65", far(63, 2, 0), 2, &two),
        worked_out("pages 63 and 64", far(62, 2, 0), 1, &[read(64, 20, 0)]),
        worked_out("64 pages from 65", far(64, 64, 0), 1, &[read(128, 640, 0)]),
        worked_out("64 pages from 64", far(63, 64, 0), 2, &[read(127, 640, 0)]),
        worked_out("a whole file", far(0, 1_024, 0), 16, &whole),
        worked_out("all but page 1", far(1, 1_024, 0), 16, &[behind(1)]),
        worked_out("up to page 960", far(1, 959, 0), 15, &[not_seen(961)]),
        worked_out("two readers of both", twice, 4, &two),
        worked_out("pruned before a border", far(60, 10, 33), 1, &pruned),
        worked_out("not pruned", far(60, 10, 0), 2, &unpruned),
    ]
}
