//! Stand-ins for "When will these be read?", with the words that they count.

use crate::link::{awaited_alone, pruned_by_cached_map, times_by_cached_map};
use checker::call::{WhenRead, ROWS_HANDED};
use checker::cases::by_cached_map;
use checker::limits::{FILES, FILE_PAGES, MOST_QUESTIONS};
use checker::limits::{MARKED_IMAGE_BYTES, OLDER_IMAGE_BYTES};
use checker::model::{self, Page, Reader, Refusal, Rule, State, UseKey, When};
use std::collections::{BTreeMap, BTreeSet};

/// Each with whether random images find it too, and not the fixed ones alone.
#[rustfmt::skip]
pub const QUESTIONS: [(&str, bool, WhenRead); 91] = [
    ("the seat distance for the slot", true, seat_for_slot),
    ("ties told by slots", true, slots_for_seats),
    ("a seat distance of turn less slot", true, turn_less_slot),
    ("ties won by the farthest seat", true, farthest_seat),
    ("seats compared before times", true, seat_before_time),
    ("the time of the lowest slot", true, lowest_slot),
    ("the latest time", true, latest),
    ("behind where one reader has read it", true, behind_one),
    ("behind by the first reader of the file", true, behind_the_first),
    ("behind and not seen changed over", true, changed_over),
    ("not seen where the file has no reader", true, unread_not_seen),
    ("behind where it is not seen", true, unseen_behind),
    ("beyond each last page not seen", true, beyond_not_seen),
    ("a look-ahead up to the size", true, walked_to_the_size),
    ("behind by readers of other files", true, any_file_ahead),
    ("8 before 3", true, page_before_file),
    ("3 for files above 7 only", true, empty_file_taken),
    ("3 for a page that is none", true, file_for_page),
    ("page 0 taken", true, page_0_taken),
    ("the page above the size taken", true, page_above_taken),
    ("the last page of a file refused", true, last_page_refused),
    ("files of 8 bits", true, files_cut::<8>),
    ("files of 32 bits", true, files_cut::<32>),
    ("pages of 16 bits", true, pages_cut::<16>),
    ("pages of 32 bits", true, pages_cut::<32>),
    ("a page in fetch missing", true, in_fetch_missing),
    ("a page in fetch missing in q alone", true, timed_by_cached),
    ("a page in fetch missing in the pruning alone", true, pruned_by_cached),
    ("a page in fetch missing unless waited for", true, all_but_awaited_missing),
    ("a cached page missing", true, cached_missing),
    ("q with the page itself", true, itself_in_q),
    ("a time without q", true, without_q),
    ("a time without the pace", true, without_pace),
    ("not pruned", true, not_pruned),
    ("a look-ahead of one page more", true, one_page_more),
    ("a look-ahead of one page less", true, one_page_less),
    ("waiting readers not walked", true, waiting_not_walked),
    ("the reader in slot 15 not walked", true, slot_15_not_walked),
    ("a cached page behind", true, cached_behind),
    ("a cached page at time 0", true, cached_at_once),
    ("a missing page not seen", true, missing_not_seen),
    ("a page in fetch not seen", true, in_fetch_not_seen),
    ("a page in fetch at time 0", true, in_fetch_at_once),
    ("times of 16 bits", true, times_of_16_bits),
    ("slots of 3 bits", true, slots_of_3_bits),
    ("rows after a refused one left", true, left_after_refused),
    ("a refused row left", true, refused_left),
    ("a page asked again left", true, again_left),
    ("rows answered from the last", true, from_the_last),
    ("the last row left", true, last_row_left),
    ("one row too many written", true, one_row_more),
    ("every row written", true, every_row),
    ("answers past row 1,025 made 0", true, past_handed),
    ("12 that writes what fits", true, written_by_12),
    ("12 for too many that writes 1,024 rows", true, written_by_too_many),
    ("12 that leaves numbers", true, left_by_12),
    ("12 with the words", true, words_by_12),
    ("1,025 questions taken", true, limit_of_1_025),
    ("1,024 questions refused", true, limit_of_1_023),
    ("too many questions cut", true, cut_to_1_024),
    ("too few answers taken", true, what_fits),
    ("just enough answers refused", true, just_enough_refused),
    ("a number left over refused", true, left_over_refused),
    ("a number left over taken", true, left_over_taken),
    ("13 that makes the answers 0", true, cleared_by_13),
    ("12 before 13", true, short_before_image),
    ("the idle state asked for 13", true, idle_asked),
    ("images of 2,208 bytes refused", true, refused::<OLDER_IMAGE_BYTES>),
    ("images of 2,240 bytes refused", true, refused::<MARKED_IMAGE_BYTES>),
    ("images of 1993 refused", true, of_1993_refused),
    ("words by pages, rounded up", true, words_by_pages_up),
    ("words by pages, rounded down", true, words_by_pages_down),
    ("words by page numbers", true, words_by_numbers),
    ("a word of two readers counted once", true, words_once),
    ("the words of whole files", true, words_of_files),
    ("the words of all that is ahead", true, words_ahead),
    ("the words of the rows", true, words_of_rows),
    ("no words without a question", true, no_words_unasked),
    ("the words of running readers", true, words_running),
    ("a word for every reader at least", true, one_word_at_least),
    ("the word behind a border counted", true, words_past_a_border),
    ("the words of look-aheads not pruned", true, words_unpruned),
    ("the words up to the size", true, words_to_the_size),
    ("the last reader's words left out", true, words_but_the_last),
    ("the words of the files asked about", true, words_of_asked_files),
    ("the words of both maps", true, words_of_both_maps),
    ("a word with a page in fetch counted twice", true, words_of_fetches_twice),
    ("a word without a cached page left out", true, words_of_cached),
    ("the words by the cached map alone", true, words_by_cached),
    ("the pages for the words", true, pages_for_words),
    ("words of 8 bits", false, words_of_8_bits),
];

/// The model's call.
fn right(image: &[u8], questions: &[u64], answers: &mut [u64]) -> u64 {
    let (number, after) = model::when_read(image, questions, answers);
    answers.copy_from_slice(&after);
    number
}

fn is_carried_out(number: u64) -> bool {
    number >> 32 == 1
}

fn pages_of(questions: &[u64]) -> impl Iterator<Item = Page> + '_ {
    questions.chunks_exact(2).map(|two| Page {
        file: two[0],
        number: two[1],
    })
}

/// The model's call with another answer to each question, by the right one.
fn answering(
    image: &[u8],
    questions: &[u64],
    answers: &mut [u64],
    answer: impl Fn(&State, Page, When) -> When,
) -> u64 {
    let number = right(image, questions, answers);
    if is_carried_out(number) {
        let (state, _) = State::restore(image);
        let keys = state.use_keys();
        for (number, page) in answers.iter_mut().zip(pages_of(questions)) {
            let when = state.when_read_by(&keys, page);
            *number = answer(&state, page, when).number();
        }
    }
    number
}

/// The model's call by other use keys.
fn keyed(
    image: &[u8],
    questions: &[u64],
    answers: &mut [u64],
    keys: impl FnOnce(&State) -> BTreeMap<Page, UseKey>,
) -> u64 {
    let (state, _) = State::restore(image);
    let keys = keys(&state);
    answering(image, questions, answers, |state, page, _| {
        state.when_read_by(&keys, page)
    })
}

/// Use keys by other look-aheads and seats, of which one is chosen for a page.
fn chosen(
    state: &State,
    walk: impl Fn(&State, u64, &Reader) -> Vec<(Page, UseKey)>,
    choose: impl Fn(UseKey, UseKey) -> UseKey,
) -> BTreeMap<Page, UseKey> {
    let mut keys = BTreeMap::new();
    for (&slot, reader) in &state.readers {
        for (page, key) in walk(state, slot, reader) {
            let kept = keys.entry(page).or_insert(key);
            *kept = choose(*kept, key);
        }
    }
    keys
}

fn seated(state: &State, slot: u64, reader: &Reader) -> Vec<(Page, UseKey)> {
    let seat = state.seat_distance(slot);
    let keyed = |(page, time)| (page, UseKey { time, seat });
    state.look_ahead_of(reader).into_iter().map(keyed).collect()
}

/// The model's call with another choice among the use keys of a page.
fn choosing(
    image: &[u8],
    questions: &[u64],
    answers: &mut [u64],
    choose: fn(&State, UseKey, UseKey) -> UseKey,
) -> u64 {
    keyed(image, questions, answers, |state| {
        chosen(state, seated, |kept, key| choose(state, kept, key))
    })
}

/// The model's call by other look-aheads.
fn walking(
    image: &[u8],
    questions: &[u64],
    answers: &mut [u64],
    walk: impl Fn(&State, u64, &Reader) -> Vec<(Page, u64)>,
) -> u64 {
    keyed(image, questions, answers, |state| {
        let seated = |state: &State, slot, reader: &Reader| {
            let seat = state.seat_distance(slot);
            let keyed = |(page, time)| (page, UseKey { time, seat });
            walk(state, slot, reader).into_iter().map(keyed).collect()
        };
        chosen(state, seated, UseKey::min)
    })
}

fn seat_for_slot(image: &[u8], questions: &[u64], answers: &mut [u64]) -> u64 {
    answering(image, questions, answers, |state, _, when| match when {
        When::Read { time, slot } => When::Read {
            time,
            slot: state.seat_distance(slot),
        },
        _ => when,
    })
}

fn slots_for_seats(image: &[u8], questions: &[u64], answers: &mut [u64]) -> u64 {
    choosing(image, questions, answers, |state, kept, key| {
        let by_slot = |key: &UseKey| (key.time, state.slot_at(key.seat));
        std::cmp::min_by_key(kept, key, by_slot)
    })
}

fn turn_less_slot(image: &[u8], questions: &[u64], answers: &mut [u64]) -> u64 {
    choosing(image, questions, answers, |_, kept, key| {
        let other_way = |key: &UseKey| (key.time, (16 - key.seat) % 16);
        std::cmp::min_by_key(kept, key, other_way)
    })
}

fn farthest_seat(image: &[u8], questions: &[u64], answers: &mut [u64]) -> u64 {
    choosing(image, questions, answers, |_, kept, key| {
        std::cmp::min_by_key(kept, key, |key: &UseKey| (key.time, 16 - key.seat))
    })
}

fn seat_before_time(image: &[u8], questions: &[u64], answers: &mut [u64]) -> u64 {
    choosing(image, questions, answers, |_, kept, key| {
        std::cmp::min_by_key(kept, key, |key: &UseKey| (key.seat, key.time))
    })
}

/// Readers come by rising slot.
fn lowest_slot(image: &[u8], questions: &[u64], answers: &mut [u64]) -> u64 {
    choosing(image, questions, answers, |_, kept, _| kept)
}

fn latest(image: &[u8], questions: &[u64], answers: &mut [u64]) -> u64 {
    choosing(image, questions, answers, |_, kept, key| kept.max(key))
}

fn readers_of(state: &State, file: u64) -> impl Iterator<Item = &Reader> {
    let readers = state.readers.values();
    readers.filter(move |reader| reader.file == file)
}

fn is_refused(when: When) -> bool {
    matches!(when, When::Refused(_))
}

fn behind_one(image: &[u8], questions: &[u64], answers: &mut [u64]) -> u64 {
    answering(image, questions, answers, |state, page, when| {
        let mut readers = readers_of(state, page.file);
        let read = readers.any(|reader| reader.position >= page.number);
        match read && !is_refused(when) {
            true => When::Behind,
            false => when,
        }
    })
}

fn behind_the_first(image: &[u8], questions: &[u64], answers: &mut [u64]) -> u64 {
    answering(image, questions, answers, |state, page, when| {
        let first = readers_of(state, page.file).next();
        match when {
            When::NotSeen if !first.unwrap().has_ahead(page) => When::Behind,
            _ => when,
        }
    })
}

fn changed_over(image: &[u8], questions: &[u64], answers: &mut [u64]) -> u64 {
    answering(image, questions, answers, |_, _, when| match when {
        When::Behind => When::NotSeen,
        When::NotSeen => When::Behind,
        _ => when,
    })
}

fn unread_not_seen(image: &[u8], questions: &[u64], answers: &mut [u64]) -> u64 {
    answering(image, questions, answers, |state, page, when| {
        let unread = readers_of(state, page.file).next().is_none();
        match when {
            When::Behind if unread => When::NotSeen,
            _ => when,
        }
    })
}

fn unseen_behind(image: &[u8], questions: &[u64], answers: &mut [u64]) -> u64 {
    answering(image, questions, answers, |_, _, when| match when {
        When::NotSeen => When::Behind,
        _ => when,
    })
}

/// "page at most c for each" alone.
fn beyond_not_seen(image: &[u8], questions: &[u64], answers: &mut [u64]) -> u64 {
    answering(image, questions, answers, |state, page, when| {
        let mut readers = readers_of(state, page.file);
        let beyond = readers.any(|reader| reader.position < page.number);
        match when {
            When::Behind if beyond => When::NotSeen,
            _ => when,
        }
    })
}

fn walked_to_the_size(image: &[u8], questions: &[u64], answers: &mut [u64]) -> u64 {
    walking(image, questions, answers, |state, _, reader| {
        let last = state.size(reader.file);
        state.look_ahead_of(&Reader { last, ..*reader })
    })
}

fn any_file_ahead(image: &[u8], questions: &[u64], answers: &mut [u64]) -> u64 {
    answering(image, questions, answers, |state, page, when| {
        let ahead = |file| state.is_ahead_of_some_reader(Page { file, ..page });
        match when {
            When::Behind if (0..FILES).any(ahead) => When::NotSeen,
            _ => when,
        }
    })
}

fn page_before_file(image: &[u8], questions: &[u64], answers: &mut [u64]) -> u64 {
    answering(image, questions, answers, |state, page, when| {
        let no_page = page.number == 0 || page.number > state.size(page.file);
        match no_page {
            true => When::Refused(Refusal::Page),
            false => when,
        }
    })
}

fn empty_file_taken(image: &[u8], questions: &[u64], answers: &mut [u64]) -> u64 {
    answering(image, questions, answers, |_, page, when| {
        match is_refused(when) && page.file < FILES {
            true => When::Refused(Refusal::Page),
            false => when,
        }
    })
}

fn file_for_page(image: &[u8], questions: &[u64], answers: &mut [u64]) -> u64 {
    answering(image, questions, answers, |_, _, when| {
        match is_refused(when) {
            true => When::Refused(Refusal::File),
            false => when,
        }
    })
}

/// The model's call, with a page that is none taken for behind.
fn taking(
    image: &[u8],
    questions: &[u64],
    answers: &mut [u64],
    takes: fn(u64, u64) -> bool,
) -> u64 {
    answering(image, questions, answers, |state, page, when| {
        let size = state.size(page.file);
        match size > 0 && is_refused(when) && takes(page.number, size) {
            true => When::Behind,
            false => when,
        }
    })
}

fn page_0_taken(image: &[u8], questions: &[u64], answers: &mut [u64]) -> u64 {
    taking(image, questions, answers, |page, _| page == 0)
}

fn page_above_taken(image: &[u8], questions: &[u64], answers: &mut [u64]) -> u64 {
    taking(image, questions, answers, |page, size| page == size + 1)
}

fn last_page_refused(image: &[u8], questions: &[u64], answers: &mut [u64]) -> u64 {
    answering(image, questions, answers, |state, page, when| {
        match page.number == state.size(page.file) && !is_refused(when) {
            true => When::Refused(Refusal::Page),
            false => when,
        }
    })
}

/// The model's call on other questions.
fn asking(
    image: &[u8],
    questions: &[u64],
    answers: &mut [u64],
    change: impl Fn(Page) -> Page,
) -> u64 {
    let mut numbers = Vec::new();
    for page in pages_of(questions).map(change) {
        numbers.extend([page.file, page.number]);
    }
    right(image, &numbers, answers)
}

fn files_cut<const BITS: u32>(image: &[u8], questions: &[u64], answers: &mut [u64]) -> u64 {
    asking(image, questions, answers, |page| Page {
        file: page.file % (1 << BITS),
        ..page
    })
}

fn pages_cut<const BITS: u32>(image: &[u8], questions: &[u64], answers: &mut [u64]) -> u64 {
    asking(image, questions, answers, |page| Page {
        number: page.number % (1 << BITS),
        ..page
    })
}

fn in_fetch_missing(image: &[u8], questions: &[u64], answers: &mut [u64]) -> u64 {
    keyed(image, questions, answers, |state| {
        by_cached_map(state).use_keys()
    })
}

fn timed_by_cached(image: &[u8], questions: &[u64], answers: &mut [u64]) -> u64 {
    walking(image, questions, answers, |state, _, reader| {
        times_by_cached_map(state, reader)
    })
}

fn pruned_by_cached(image: &[u8], questions: &[u64], answers: &mut [u64]) -> u64 {
    walking(image, questions, answers, |state, _, reader| {
        pruned_by_cached_map(state, reader)
    })
}

fn all_but_awaited_missing(image: &[u8], questions: &[u64], answers: &mut [u64]) -> u64 {
    keyed(image, questions, answers, |state| {
        awaited_alone(state).use_keys()
    })
}

fn cached_missing(image: &[u8], questions: &[u64], answers: &mut [u64]) -> u64 {
    keyed(image, questions, answers, |state| {
        let mut state = state.clone();
        state.cached.clear();
        state.use_keys()
    })
}

fn itself_in_q(image: &[u8], questions: &[u64], answers: &mut [u64]) -> u64 {
    answering(image, questions, answers, |state, page, when| match when {
        When::Read { time, slot } if !state.is_present(page) => When::Read {
            time: time + state.fetch_time,
            slot,
        },
        _ => when,
    })
}

/// j of the page for the reader in this slot.
fn nth(state: &State, page: Page, slot: u64) -> u64 {
    page.number - state.readers[&slot].position
}

fn without_q(image: &[u8], questions: &[u64], answers: &mut [u64]) -> u64 {
    answering(image, questions, answers, |state, page, when| match when {
        When::Read { slot, .. } => When::Read {
            time: nth(state, page, slot) * state.readers[&slot].pace,
            slot,
        },
        _ => when,
    })
}

fn without_pace(image: &[u8], questions: &[u64], answers: &mut [u64]) -> u64 {
    answering(image, questions, answers, |state, page, when| match when {
        When::Read { time, slot } => {
            let j = nth(state, page, slot);
            let time = time - j * (state.readers[&slot].pace - 1);
            When::Read { time, slot }
        }
        _ => when,
    })
}

/// A look-ahead up to K or the last page.
fn unpruned(state: &State, reader: &Reader) -> Vec<(Page, u64)> {
    let mut missing = 0;
    let reach = state.look_ahead / reader.pace;
    let pages = (1..=reach.min(reader.last - reader.position)).map(|j| {
        let number = reader.position + j;
        let page = Page {
            number,
            ..reader.next_page()
        };
        let time = j * reader.pace + missing * state.fetch_time;
        missing += u64::from(!state.is_present(page));
        (page, time)
    });
    pages.collect()
}

fn not_pruned(image: &[u8], questions: &[u64], answers: &mut [u64]) -> u64 {
    walking(image, questions, answers, |state, _, reader| {
        unpruned(state, reader)
    })
}

/// By its pages up to K and by pruning, one more.
fn one_page_more(image: &[u8], questions: &[u64], answers: &mut [u64]) -> u64 {
    walking(image, questions, answers, |state, _, reader| {
        let mut farther = state.clone();
        farther.look_ahead += reader.pace + state.fetch_time;
        let length = state.look_ahead_of(reader).len();
        let mut pages = unpruned(&farther, reader);
        pages.truncate(length + 1);
        pages
    })
}

fn one_page_less(image: &[u8], questions: &[u64], answers: &mut [u64]) -> u64 {
    walking(image, questions, answers, |state, _, reader| {
        let mut pages = state.look_ahead_of(reader);
        pages.pop();
        pages
    })
}

fn waiting_not_walked(image: &[u8], questions: &[u64], answers: &mut [u64]) -> u64 {
    walking(image, questions, answers, |state, _, reader| {
        match reader.waiting {
            true => Vec::new(),
            false => state.look_ahead_of(reader),
        }
    })
}

fn slot_15_not_walked(image: &[u8], questions: &[u64], answers: &mut [u64]) -> u64 {
    walking(
        image,
        questions,
        answers,
        |state, slot, reader| match slot {
            15 => Vec::new(),
            _ => state.look_ahead_of(reader),
        },
    )
}

/// The model's call, with other answers for such pages that are read.
fn for_such(
    image: &[u8],
    questions: &[u64],
    answers: &mut [u64],
    such: fn(&State, &Page) -> bool,
    other: fn(u64) -> When,
) -> u64 {
    answering(image, questions, answers, |state, page, when| match when {
        When::Read { slot, .. } if such(state, &page) => other(slot),
        _ => when,
    })
}

fn is_cached(state: &State, page: &Page) -> bool {
    state.cached.contains(page)
}

fn is_in_fetch(state: &State, page: &Page) -> bool {
    state.in_fetch.contains(page)
}

fn is_missing(state: &State, page: &Page) -> bool {
    !state.is_present(*page)
}

fn at_once(slot: u64) -> When {
    When::Read { time: 0, slot }
}

fn cached_behind(image: &[u8], questions: &[u64], answers: &mut [u64]) -> u64 {
    for_such(image, questions, answers, is_cached, |_| When::Behind)
}

fn cached_at_once(image: &[u8], questions: &[u64], answers: &mut [u64]) -> u64 {
    for_such(image, questions, answers, is_cached, at_once)
}

fn missing_not_seen(image: &[u8], questions: &[u64], answers: &mut [u64]) -> u64 {
    for_such(image, questions, answers, is_missing, |_| When::NotSeen)
}

fn in_fetch_not_seen(image: &[u8], questions: &[u64], answers: &mut [u64]) -> u64 {
    for_such(image, questions, answers, is_in_fetch, |_| When::NotSeen)
}

fn in_fetch_at_once(image: &[u8], questions: &[u64], answers: &mut [u64]) -> u64 {
    for_such(image, questions, answers, is_in_fetch, at_once)
}

fn times_of_16_bits(image: &[u8], questions: &[u64], answers: &mut [u64]) -> u64 {
    answering(image, questions, answers, |_, _, when| match when {
        When::Read { time, slot } => When::Read {
            time: time % 65_536,
            slot,
        },
        _ => when,
    })
}

fn slots_of_3_bits(image: &[u8], questions: &[u64], answers: &mut [u64]) -> u64 {
    answering(image, questions, answers, |_, _, when| match when {
        When::Read { time, slot } => When::Read {
            time,
            slot: slot % 8,
        },
        _ => when,
    })
}

/// The model's call, with what it has written changed: the rows of the questions, and
/// those past them.
fn rewriting(
    image: &[u8],
    questions: &[u64],
    answers: &mut [u64],
    change: fn(&mut [u64], &mut [u64]),
) -> u64 {
    let number = right(image, questions, answers);
    if is_carried_out(number) {
        let (rows, past) = answers.split_at_mut(questions.len() / 2);
        change(rows, past);
    }
    number
}

fn left_after_refused(image: &[u8], questions: &[u64], answers: &mut [u64]) -> u64 {
    rewriting(image, questions, answers, |rows, _| {
        let mut after = rows.iter_mut().skip_while(|row| **row >= 256);
        after.next();
        after.for_each(|row| *row = 0);
    })
}

fn refused_left(image: &[u8], questions: &[u64], answers: &mut [u64]) -> u64 {
    rewriting(image, questions, answers, |rows, _| {
        let refused = rows.iter_mut().filter(|row| **row < 256);
        refused.for_each(|row| *row = 0);
    })
}

fn again_left(image: &[u8], questions: &[u64], answers: &mut [u64]) -> u64 {
    let number = right(image, questions, answers);
    let mut met = BTreeSet::new();
    if is_carried_out(number) {
        let rows = answers.iter_mut().zip(pages_of(questions));
        let again = rows.filter(|(_, page)| !met.insert(*page));
        again.for_each(|(row, _)| *row = 0);
    }
    number
}

fn from_the_last(image: &[u8], questions: &[u64], answers: &mut [u64]) -> u64 {
    rewriting(image, questions, answers, |rows, _| rows.reverse())
}

fn last_row_left(image: &[u8], questions: &[u64], answers: &mut [u64]) -> u64 {
    rewriting(image, questions, answers, |rows, _| {
        if let Some(last) = rows.last_mut() {
            *last = 0;
        }
    })
}

fn one_row_more(image: &[u8], questions: &[u64], answers: &mut [u64]) -> u64 {
    rewriting(image, questions, answers, |rows, past| {
        if let (Some(last), Some(next)) = (rows.last(), past.first_mut()) {
            *next = *last;
        }
    })
}

fn every_row(image: &[u8], questions: &[u64], answers: &mut [u64]) -> u64 {
    rewriting(image, questions, answers, |_, past| {
        let handed = past.len().min(MOST_QUESTIONS);
        past[..handed].fill(256);
    })
}

fn past_handed(image: &[u8], questions: &[u64], answers: &mut [u64]) -> u64 {
    let number = right(image, questions, answers);
    if let (true, Some(past)) = (number != 13, answers.get_mut(ROWS_HANDED..)) {
        past.fill(0);
    }
    number
}

/// The call on so many questions, where the right one gives 12.
fn instead_of_12(
    image: &[u8],
    questions: &[u64],
    answers: &mut [u64],
    act: impl FnOnce(&mut [u64]) -> u64,
) -> u64 {
    match right(image, questions, &mut answers.to_vec()) {
        12 => act(answers),
        _ => right(image, questions, answers),
    }
}

/// The call on as many questions as fit, at most so many.
fn fitting(image: &[u8], questions: &[u64], answers: &mut [u64], most: usize) -> u64 {
    let rows = (questions.len() / 2).min(answers.len()).min(most);
    right(image, &questions[..2 * rows], answers)
}

fn written_by_12(image: &[u8], questions: &[u64], answers: &mut [u64]) -> u64 {
    instead_of_12(image, questions, answers, |answers| {
        fitting(image, questions, answers, MOST_QUESTIONS);
        12
    })
}

fn written_by_too_many(image: &[u8], questions: &[u64], answers: &mut [u64]) -> u64 {
    instead_of_12(image, questions, answers, |answers| {
        match questions.len() / 2 > answers.len() {
            true => right(image, questions, answers),
            false => {
                fitting(image, questions, answers, MOST_QUESTIONS);
                12
            }
        }
    })
}

fn left_by_12(image: &[u8], questions: &[u64], answers: &mut [u64]) -> u64 {
    instead_of_12(image, questions, answers, |_| 12)
}

fn words_by_12(image: &[u8], questions: &[u64], answers: &mut [u64]) -> u64 {
    instead_of_12(image, questions, answers, |answers| {
        right(image, questions, answers);
        right(image, &[], &mut [])
    })
}

/// 1,025 rows, of which the last is that of a call by itself.
fn limit_of_1_025(image: &[u8], questions: &[u64], answers: &mut [u64]) -> u64 {
    instead_of_12(image, questions, answers, |answers| {
        if questions.len() / 2 != ROWS_HANDED || answers.len() < ROWS_HANDED {
            return right(image, questions, answers);
        }
        let mut last = [0];
        right(image, &questions[2 * MOST_QUESTIONS..], &mut last);
        let number = fitting(image, questions, answers, MOST_QUESTIONS);
        answers[MOST_QUESTIONS] = last[0];
        number
    })
}

fn limit_of_1_023(image: &[u8], questions: &[u64], answers: &mut [u64]) -> u64 {
    match questions.len() / 2 {
        MOST_QUESTIONS => right(image, &[0, 1].repeat(ROWS_HANDED), answers),
        _ => right(image, questions, answers),
    }
}

fn cut_to_1_024(image: &[u8], questions: &[u64], answers: &mut [u64]) -> u64 {
    let numbers = questions.len().min(2 * MOST_QUESTIONS);
    right(image, &questions[..numbers], answers)
}

fn what_fits(image: &[u8], questions: &[u64], answers: &mut [u64]) -> u64 {
    match questions.len() / 2 > MOST_QUESTIONS {
        true => right(image, questions, answers),
        false => fitting(image, questions, answers, MOST_QUESTIONS),
    }
}

fn just_enough_refused(image: &[u8], questions: &[u64], answers: &mut [u64]) -> u64 {
    let rows = questions.len() / 2;
    let number = right(image, questions, answers);
    if is_carried_out(number) && rows > 0 && rows == answers.len() {
        answers.fill(0);
        return 12;
    }
    number
}

fn left_over_refused(image: &[u8], questions: &[u64], answers: &mut [u64]) -> u64 {
    let number = right(image, questions, answers);
    if is_carried_out(number) && questions.len() % 2 == 1 {
        let handed = answers.len().min(ROWS_HANDED);
        answers[..handed].fill(0);
        return 12;
    }
    number
}

/// With page 0.
fn left_over_taken(image: &[u8], questions: &[u64], answers: &mut [u64]) -> u64 {
    let mut numbers = questions.to_vec();
    if numbers.len() % 2 == 1 {
        numbers.push(0);
    }
    right(image, &numbers, answers)
}

fn cleared_by_13(image: &[u8], questions: &[u64], answers: &mut [u64]) -> u64 {
    let number = right(image, questions, answers);
    if number == 13 {
        answers.fill(0);
    }
    number
}

fn short_before_image(image: &[u8], questions: &[u64], answers: &mut [u64]) -> u64 {
    let rows = questions.len() / 2;
    match right(image, questions, answers) {
        13 if rows > MOST_QUESTIONS || rows > answers.len() => 12,
        number => number,
    }
}

fn idle_asked(image: &[u8], questions: &[u64], answers: &mut [u64]) -> u64 {
    match State::of_image(image) {
        Ok(_) => right(image, questions, answers),
        Err(_) => right(&State::idle().image(), questions, answers),
    }
}

fn refused<const LENGTH: usize>(image: &[u8], questions: &[u64], answers: &mut [u64]) -> u64 {
    match image.len() == LENGTH {
        true => 13,
        false => right(image, questions, answers),
    }
}

fn of_1993_refused(image: &[u8], questions: &[u64], answers: &mut [u64]) -> u64 {
    match State::restore(image).0.rule {
        Rule::Of1989 => right(image, questions, answers),
        Rule::Of1993 => 13,
    }
}

/// The model's call with another count of words.
fn counting(
    image: &[u8],
    questions: &[u64],
    answers: &mut [u64],
    words: impl FnOnce(&State) -> u64,
) -> u64 {
    let number = right(image, questions, answers);
    match is_carried_out(number) {
        true => (1 << 32) + words(&State::restore(image).0),
        false => number,
    }
}

/// The same with another count for each reader, by the keys of its look-ahead.
fn counting_each(
    image: &[u8],
    questions: &[u64],
    answers: &mut [u64],
    words: impl Fn(&Reader, &[u64]) -> u64,
) -> u64 {
    counting(image, questions, answers, |state| {
        let readers = state.readers.values();
        let counts = readers.map(|reader| words(reader, &keys_of(state, reader)));
        counts.sum()
    })
}

fn keys_of(state: &State, reader: &Reader) -> Vec<u64> {
    let pages = state.look_ahead_of(reader).into_iter();
    pages.map(|(page, _)| page.key()).collect()
}

/// The words that hold these keys.
fn words_of<'a>(keys: impl IntoIterator<Item = &'a u64>) -> BTreeSet<u64> {
    keys.into_iter().map(|key| key / 64).collect()
}

fn count(words: BTreeSet<u64>) -> u64 {
    words.len() as u64
}

fn words_by_pages_up(image: &[u8], questions: &[u64], answers: &mut [u64]) -> u64 {
    counting_each(image, questions, answers, |_, keys| {
        keys.len().div_ceil(64) as u64
    })
}

fn words_by_pages_down(image: &[u8], questions: &[u64], answers: &mut [u64]) -> u64 {
    counting_each(image, questions, answers, |_, keys| keys.len() as u64 / 64)
}

/// Page 64 stands in the second word then.
fn words_by_numbers(image: &[u8], questions: &[u64], answers: &mut [u64]) -> u64 {
    counting_each(image, questions, answers, |_, keys| {
        let numbers: Vec<u64> = keys.iter().map(|key| key % FILE_PAGES + 1).collect();
        count(words_of(&numbers))
    })
}

fn words_once(image: &[u8], questions: &[u64], answers: &mut [u64]) -> u64 {
    counting(image, questions, answers, |state| {
        let readers = state.readers.values();
        let keys: Vec<u64> = readers.flat_map(|reader| keys_of(state, reader)).collect();
        count(words_of(&keys))
    })
}

fn words_of_files(image: &[u8], questions: &[u64], answers: &mut [u64]) -> u64 {
    counting(image, questions, answers, |state| {
        let readers = state.readers.values();
        let words = readers.map(|reader| state.size(reader.file).div_ceil(64));
        words.sum()
    })
}

fn words_ahead(image: &[u8], questions: &[u64], answers: &mut [u64]) -> u64 {
    counting_each(image, questions, answers, |reader, _| {
        let ahead: Vec<u64> = (reader.position..reader.last).collect();
        count(words_of(&ahead))
    })
}

fn words_of_rows(image: &[u8], questions: &[u64], answers: &mut [u64]) -> u64 {
    counting_each(image, questions, answers, |_, keys| {
        let known = pages_of(questions).filter(|page| page.file < FILES && page.number > 0);
        let known = known.filter(|page| page.number <= FILE_PAGES);
        let asked: BTreeSet<u64> = known.map(Page::key).collect();
        count(words_of(keys.iter().filter(|key| asked.contains(key))))
    })
}

fn no_words_unasked(image: &[u8], questions: &[u64], answers: &mut [u64]) -> u64 {
    counting(image, questions, answers, |state| match questions.len() {
        0..2 => 0,
        _ => state.words_read(),
    })
}

fn words_running(image: &[u8], questions: &[u64], answers: &mut [u64]) -> u64 {
    counting_each(image, questions, answers, |reader, keys| {
        match reader.waiting {
            true => 0,
            false => count(words_of(keys)),
        }
    })
}

fn one_word_at_least(image: &[u8], questions: &[u64], answers: &mut [u64]) -> u64 {
    counting_each(image, questions, answers, |_, keys| {
        count(words_of(keys)).max(1)
    })
}

/// The word of the key behind the look-ahead.
fn words_past_a_border(image: &[u8], questions: &[u64], answers: &mut [u64]) -> u64 {
    counting_each(image, questions, answers, |_, keys| {
        let behind = keys.last().map(|last| last + 1);
        count(words_of(keys.iter().chain(&behind)))
    })
}

fn words_unpruned(image: &[u8], questions: &[u64], answers: &mut [u64]) -> u64 {
    counting(image, questions, answers, |state| {
        State {
            fetch_time: 0,
            ..state.clone()
        }
        .words_read()
    })
}

fn words_to_the_size(image: &[u8], questions: &[u64], answers: &mut [u64]) -> u64 {
    counting(image, questions, answers, |state| {
        let mut longer = state.clone();
        for reader in longer.readers.values_mut() {
            reader.last = state.size(reader.file);
        }
        longer.words_read()
    })
}

fn words_but_the_last(image: &[u8], questions: &[u64], answers: &mut [u64]) -> u64 {
    counting(image, questions, answers, |state| {
        let mut fewer = state.clone();
        fewer.readers.pop_last();
        fewer.words_read()
    })
}

fn words_of_asked_files(image: &[u8], questions: &[u64], answers: &mut [u64]) -> u64 {
    counting_each(image, questions, answers, |reader, keys| {
        match pages_of(questions).any(|page| page.file == reader.file) {
            true => count(words_of(keys)),
            false => 0,
        }
    })
}

fn words_of_both_maps(image: &[u8], questions: &[u64], answers: &mut [u64]) -> u64 {
    counting(image, questions, answers, |state| 2 * state.words_read())
}

/// The words of the look-aheads in which such pages lie, added over the readers.
fn words_with(state: &State, such: fn(&State, &Page) -> bool) -> u64 {
    let readers = state.readers.values();
    let words = readers.map(|reader| {
        let keys = keys_of(state, reader);
        let holds = |word: &u64| {
            let mut pages = (64 * word..64 * (word + 1)).map(Page::of_key);
            pages.any(|page| such(state, &page))
        };
        words_of(&keys).iter().filter(|&word| holds(word)).count() as u64
    });
    words.sum()
}

fn words_of_fetches_twice(image: &[u8], questions: &[u64], answers: &mut [u64]) -> u64 {
    counting(image, questions, answers, |state| {
        state.words_read() + words_with(state, is_in_fetch)
    })
}

fn words_of_cached(image: &[u8], questions: &[u64], answers: &mut [u64]) -> u64 {
    counting(image, questions, answers, |state| {
        words_with(state, is_cached)
    })
}

fn words_by_cached(image: &[u8], questions: &[u64], answers: &mut [u64]) -> u64 {
    counting(image, questions, answers, |state| {
        by_cached_map(state).words_read()
    })
}

fn pages_for_words(image: &[u8], questions: &[u64], answers: &mut [u64]) -> u64 {
    counting(image, questions, answers, State::pages_tested)
}

fn words_of_8_bits(image: &[u8], questions: &[u64], answers: &mut [u64]) -> u64 {
    counting(image, questions, answers, |state| state.words_read() % 256)
}
