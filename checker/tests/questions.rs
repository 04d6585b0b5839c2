//! "When will these be read?": what the trials take for right, and all that they must
//! meet.

use checker::limits::LENGTHS;
use checker::model::{self, Page, Reader, Refusal, State, When};
use checker::random::Dice;
use checker::scene::{any_questions, any_state};
use checker::trial::questions::{self, QUESTION_OUTCOMES};
use checker::trial::worked::worked;
use checker::trial::{rules, Report};

/// What the number of the call has above its words, and that of an answer above time
/// and slot.
const ABOVE: u64 = 4_294_967_296;

fn by_model(image: &[u8], questions: &[u64], answers: &mut [u64]) -> u64 {
    let (number, after) = model::when_read(image, questions, answers);
    answers.copy_from_slice(&after);
    number
}

#[test]
fn the_trials_meet_every_case() {
    let (mut report, mut dice) = (Report::default(), Dice::new(25));
    worked(&mut report, by_model);
    rules::by_question(&mut report, by_model);
    questions::built(&mut report, by_model);
    questions::random(&mut report, by_model, &mut dice, 1_500);
    report.check_every_outcome_met(QUESTION_OUTCOMES);
    println!("{}", report.outcomes(QUESTION_OUTCOMES));
    assert_eq!(report.failed(), 0);
}

/// "File 0, size 16, L 40, turn 0, cached 1, 2, 3, 5, 7, reader in slot 0 at 3, w 10",
/// and T 20.
fn sounding() -> State {
    let mut state = State::idle();
    state.frames = 16;
    state.look_ahead = 40;
    state.fetch_time = 20;
    state.sizes[0] = 16;
    state.cached = [1, 2, 3, 5, 7].map(page).into();
    state.readers.insert(0, Reader::running(0, 10, 3, 16));
    state
}

fn page(number: u64) -> Page {
    Page { file: 0, number }
}

fn read(time: u64, slot: u64) -> When {
    When::Read { time, slot }
}

#[test]
fn the_sounding_is_answered() {
    let state = sounding();
    for (number, when) in [
        (3, When::Behind),
        (4, read(10, 0)),
        (5, read(40, 0)),
        (6, read(50, 0)),
        (8, When::NotSeen),
        (17, When::Refused(Refusal::Page)),
    ] {
        assert_eq!(state.when_read(page(number)), when);
    }
    let of_file_1 = Page { file: 1, number: 1 };
    let refused = When::Refused(Refusal::File);
    assert_eq!(state.when_read(of_file_1), refused);
    assert_eq!(state.words_read(), 1);
}

/// Page 4 in fetch counts as cached: page 7 is seen then.
#[test]
fn a_page_in_fetch_is_not_missing() {
    let mut state = sounding();
    state.in_fetch.insert(page(4));
    for (number, when) in [
        (4, read(10, 0)),
        (5, read(20, 0)),
        (6, read(30, 0)),
        (7, read(60, 0)),
        (8, When::NotSeen),
    ] {
        assert_eq!(state.when_read(page(number)), when);
    }
    assert_eq!(state.words_read(), 1);
    assert_eq!(state.fetch_order(), [page(6)]);
    assert_eq!(state.steal_order(), [3, 2, 1, 7, 5].map(page));
}

/// The same as numbers, with a number left over. Page 1 of file 1, which has none, is
/// no page either: 3 is first.
#[test]
fn numbers_are_as_agreed() {
    let image = sounding().image();
    let questions = [0, 3, 0, 4, 0, 5, 0, 6, 0, 8, 0, 17, 1, 1, 99];
    let times = [10, 40, 50].map(|time| ABOVE + time * 256);
    let expected = [&[256][..], &times, &[257, 8, 3, 0, 0]].concat();
    let (number, answers) = model::when_read(&image, &questions, &[5; 9]);
    assert_eq!((number, answers), (ABOVE + 1, expected));

    let (number, answers) = model::when_read(&image, &[], &[5]);
    assert_eq!((number, answers), (ABOVE + 1, vec![0]));
    let (number, answers) = model::when_read(&image, &[7], &[]);
    assert_eq!((number, answers), (ABOVE + 1, vec![]));
}

/// Twelve leaves every record, which is 0 then; thirteen, and what is past row 1,025,
/// keep what they were.
#[test]
fn a_refusal_leaves_the_answers() {
    let image = sounding().image();
    for (rows, room) in [(1, 0), (2, 1), (1_024, 1_023), (1_025, 1_025), (1_026, 9)] {
        let questions = [0, 4].repeat(rows);
        let (number, answers) = model::when_read(&image, &questions, &vec![5; room]);
        assert_eq!((number, answers), (12, vec![0; room]));
        let (number, answers) = model::when_read(&image[1..], &questions, &vec![5; room]);
        assert_eq!((number, answers), (13, vec![5; room]));
    }
    let (number, answers) = model::when_read(&image, &[0, 4].repeat(1_026), &[5; 1_027]);
    assert_eq!(number, 12);
    assert_eq!(answers, [vec![0; 1_025], vec![5; 2]].concat());
    let (number, answers) = model::when_read(&image, &[0, 4].repeat(1_024), &[5; 1_026]);
    assert_eq!(number, ABOVE + 1);
    let row = ABOVE + 10 * 256;
    assert_eq!(answers, [vec![row; 1_024], vec![0, 5]].concat());
    for length in LENGTHS {
        let (number, _) = model::when_read(&image[..length], &[], &[]);
        assert_eq!(number, ABOVE + 1);
    }
}

/// A page's word is that of its key, so that pages 64 and 65 are in two words.
#[test]
fn words_go_by_where_a_look_ahead_starts() {
    let mut state = sounding();
    state.fetch_time = 0;
    state.sizes[0] = 1_024;
    for (position, pages, words) in [
        (62, 2, 1),
        (63, 2, 2),
        (64, 64, 1),
        (63, 64, 2),
        (0, 1_024, 16),
        (1_023, 1, 1),
        (1_024, 1, 0),
    ] {
        state.look_ahead = 10 * pages;
        let reader = Reader::running(0, 10, position, 1_024);
        state.readers = [(3, reader)].into();
        assert_eq!(state.words_read(), words);
        state.readers.insert(4, reader);
        assert_eq!(state.words_read(), 2 * words);
    }
}

/// At turn 3 slot 9 sits nearer than slot 2, and its own number is answered.
#[test]
fn the_slot_is_the_readers_own() {
    let mut state = sounding();
    let reader = state.readers[&0];
    state.readers = [(2, reader), (9, reader)].into();
    for (turn, slot) in [(0, 2), (3, 9), (9, 9), (10, 2)] {
        state.turn = turn;
        assert_eq!(state.when_read(page(4)), read(10, slot));
    }
}

/// Page 6 is behind slot 1, page 9 is beyond the last page of slot 0, page 12 is both.
#[test]
fn one_reader_that_has_it_ahead_is_enough() {
    let mut state = sounding();
    state.fetch_time = 0;
    state.readers = [
        (0, Reader::running(0, 10, 3, 8)),
        (1, Reader::running(0, 10, 8, 10)),
        (2, Reader::running(0, 10, 14, 16)),
    ]
    .into();
    for (number, when) in [
        (3, When::Behind),
        (6, read(30, 0)),
        (8, When::NotSeen),
        (9, read(10, 1)),
        (12, When::Behind),
        (15, read(10, 2)),
    ] {
        assert_eq!(state.when_read(page(number)), when);
    }
}

/// The smallest pair by its definition, over the readers by their slots.
fn by_definition(state: &State, page: Page) -> When {
    if page.file > 7 || state.sizes[page.file as usize] == 0 {
        return When::Refused(Refusal::File);
    }
    if page.number == 0 || page.number > state.sizes[page.file as usize] {
        return When::Refused(Refusal::Page);
    }
    let pairs = state.readers.iter().flat_map(|(&slot, reader)| {
        let seat = (slot + 16 - state.turn) % 16;
        let pages = state.look_ahead_of(reader).into_iter();
        let such = pages.filter(move |(other, _)| *other == page);
        such.map(move |(_, time)| (time, seat, slot))
    });
    if let Some((time, _, slot)) = pairs.min() {
        return read(time, slot);
    }
    let mut of_file = state.readers.values().filter(|r| r.file == page.file);
    match of_file.any(|r| r.position < page.number && page.number <= r.last) {
        true => When::NotSeen,
        false => When::Behind,
    }
}

/// "Row by row the answers equal those of a single question", and these the
/// definition. "a page that isn't cached is judged by the same rules": its own answer
/// is the same wherever it is.
#[test]
fn each_row_is_a_single_question() {
    let mut dice = Dice::new(26);
    for _ in 0..150 {
        let state = any_state(&mut dice);
        let questions = any_questions(&mut dice, &state, 12);
        let mut answers = vec![None; 14];
        let words = state.when_all_read(&questions, &mut answers);
        assert!(words.is_ok_and(|words| words <= 16 * state.readers.len() as u64));
        assert_eq!(answers[12..], [None, None]);
        for (&page, answer) in questions.iter().zip(answers) {
            let when = state.when_read(page);
            assert_eq!(answer, Some(when));
            assert_eq!(when, by_definition(&state, page));
            for place in 0..3 {
                let mut moved = state.clone();
                moved.cached.remove(&page);
                moved.in_fetch.remove(&page);
                match place {
                    0 => _ = moved.cached.insert(page),
                    1 => _ = moved.in_fetch.insert(page),
                    _ => {}
                }
                assert_eq!(moved.when_read(page), when);
            }
        }
    }
}
