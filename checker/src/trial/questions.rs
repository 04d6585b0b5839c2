//! "When will these be read?": on images of any length, with questions and answers
//! of any length.

use super::{answers, hold, lists, Outcomes, Report};
use crate::call::{WhenRead, ROWS_HANDED};
use crate::limits::{IMAGE_BYTES, MARKED_IMAGE_BYTES, MOST_QUESTIONS, OLDER_IMAGE_BYTES};
use crate::model::{self, Page, Reader, Rule, State};
use crate::random::Dice;
use crate::scene::any_questions;

/// What must be met: how questions and answers are handed over; and, where the call
/// was carried out, what its rows and its words have met.
pub const QUESTION_OUTCOMES: &Outcomes = &[
    (NAME, CALLS),
    (NAME, answers::REFUSALS),
    (NAME, answers::KINDS),
    (NAME, answers::TIMES),
    (NAME, answers::WORDS),
    (NAME, answers::LINK),
];

const NAME: &str = "When read";

#[rustfmt::skip]
const CALLS: &[&str] = &[
    "13", "12", "carried out",
    "2,274 bytes", "2,240 bytes", "2,208 bytes", "under 1993",
    "13, 2,274 bytes", "13, 2,240 bytes", "13, 2,208 bytes", "13, another length",
    "13, answers", "13, no answers", "13 before 12",
    "12, too many", "12, too few answers", "12, both",
    "12, 1,025 questions", "12, 1,026 questions", "12, far more questions",
    "12, one answer short", "12, no answers", "12, answers past row 1,025",
    "no question", "one question", "1,024 questions",
    "a number left over", "nothing but a number", "1,024 questions and a number",
    "just enough answers", "more answers", "answers past row 1,025", "no question, no answer",
];

/// Questions on so many random images, sound or not; and on each once more without
/// a question. The answers have any length and hold any numbers.
pub fn random(report: &mut Report, when_read: WhenRead, dice: &mut Dice, images: u64) {
    for _ in 0..images {
        let image = lists::any_image(dice);
        let (state, _) = State::restore(&image);
        let rows = any_rows(dice);
        let mut questions = numbers_of(&any_questions(dice, &state, rows));
        if dice.once_in(4) {
            questions.push(dice.bits());
        }
        let answers = any_answers(dice, rows);
        hold_questions(report, when_read, &image, &questions, &answers);
        let answers = any_answers(dice, 0);
        hold_questions(report, when_read, &image, &[], &answers);
    }
}

/// Scenes that chance may miss.
pub fn built(report: &mut Report, when_read: WhenRead) {
    shapes(report, when_read);
    let every_page: Vec<Page> = (0..=201).map(page).collect();
    for turn in [0, 4, 7, 11] {
        let state = quay(turn);
        ask(report, when_read, &state, &every_page);
    }
    let about_borders: Vec<Page> = [0, 1, 63, 64, 65, 127, 128, 129, 192].map(page).into();
    for state in at_borders() {
        ask(report, when_read, &state, &about_borders);
    }
    let of_each_file: Vec<Page> = (0..1_024)
        .map(|nth| Page::of_key(8 * nth + nth % 8))
        .collect();
    for state in lists::largest() {
        ask(report, when_read, &state, &of_each_file);
        ask(report, when_read, &state, &[]);
    }
}

/// Questions about a state, with just enough answers and with more.
fn ask(report: &mut Report, when_read: WhenRead, state: &State, questions: &[Page]) {
    let (image, numbers) = (state.image(), numbers_of(questions));
    for room in [questions.len(), questions.len() + 3] {
        hold_questions(report, when_read, &image, &numbers, &vec![0x5A5A; room]);
    }
}

/// So many questions and so many answers, each at and beside its bounds, with and
/// without a number left over.
fn shapes(report: &mut Report, when_read: WhenRead) {
    let image = quay(3).image();
    let all: Vec<Page> = (0..3_000).map(|nth| page(nth % 203)).collect();
    for rows in [0, 1, 2, 1_023, 1_024, 1_025, 1_026, 3_000] {
        for room in [0, 1, 2, 3, 1_022, 1_023, 1_024, 1_025, 1_026, 3_000] {
            let mut numbers = numbers_of(&all[..rows]);
            let answers = vec![0x5A5A; room];
            hold_questions(report, when_read, &image, &numbers, &answers);
            numbers.push(0);
            hold_questions(report, when_read, &image, &numbers, &answers);
            hold_questions(report, when_read, &image[1..], &numbers, &answers);
        }
    }
}

/// The call on an image: the number and all answers must be the model's. Gives them.
pub(super) fn hold_questions(
    report: &mut Report,
    when_read: WhenRead,
    image: &[u8],
    questions: &[u64],
    answers: &[u64],
) -> (u64, Vec<u64>) {
    let expected = model::when_read(image, questions, answers);
    let act = |answers: &mut [u64]| when_read(image, questions, answers);
    hold::hold_answers(report, answers, &expected, act, || {
        let (numbers, room) = (questions.len(), answers.len());
        let first = &questions[..numbers.min(8)];
        let place = hold::describe(image);
        format!("{NAME} of {numbers} numbers, {first:?} first, into {room}, {place}")
    });
    for case in met(image, questions, answers.len(), expected.0) {
        report.note(NAME, case.to_string());
    }
    expected
}

/// What was answered, and what was met.
fn met(image: &[u8], questions: &[u64], room: usize, number: u64) -> Vec<&'static str> {
    let rows = questions.len() / 2;
    match number {
        13 => refused_13(image.len(), rows, room),
        12 => refused_12(rows, room),
        _ => {
            let (state, _) = State::restore(image);
            let mut met = carried_out(image.len(), questions.len(), room);
            if state.rule == Rule::Of1993 {
                met.push("under 1993");
            }
            met.extend(answers::met(&state, &pages_of(questions)));
            met
        }
    }
}

fn refused_13(image: usize, rows: usize, room: usize) -> Vec<&'static str> {
    let length = match image {
        IMAGE_BYTES => "13, 2,274 bytes",
        MARKED_IMAGE_BYTES => "13, 2,240 bytes",
        OLDER_IMAGE_BYTES => "13, 2,208 bytes",
        _ => "13, another length",
    };
    let lent = match room {
        0 => "13, no answers",
        _ => "13, answers",
    };
    let mut met = vec!["13", length, lent];
    if rows > MOST_QUESTIONS || rows > room {
        met.push("13 before 12");
    }
    met
}

fn refused_12(rows: usize, room: usize) -> Vec<&'static str> {
    let reason = match (rows > MOST_QUESTIONS, rows > room) {
        (true, false) => "12, too many",
        (false, true) => "12, too few answers",
        _ => "12, both",
    };
    let many = match rows {
        1_025 => Some("12, 1,025 questions"),
        1_026 => Some("12, 1,026 questions"),
        1_027.. => Some("12, far more questions"),
        _ => None,
    };
    let lent = match room {
        0 => Some("12, no answers"),
        _ if room > ROWS_HANDED => Some("12, answers past row 1,025"),
        _ if room + 1 == rows => Some("12, one answer short"),
        _ => None,
    };
    let mut met = vec!["12", reason];
    met.extend(many.into_iter().chain(lent));
    met
}

fn carried_out(image: usize, numbers: usize, room: usize) -> Vec<&'static str> {
    let (rows, left_over) = (numbers / 2, numbers % 2 == 1);
    let length = match image {
        IMAGE_BYTES => "2,274 bytes",
        MARKED_IMAGE_BYTES => "2,240 bytes",
        _ => "2,208 bytes",
    };
    let mut met = vec!["carried out", length];
    met.extend(match (rows, left_over) {
        (0, false) => Some("no question"),
        (0, true) => Some("nothing but a number"),
        (1, false) => Some("one question"),
        (MOST_QUESTIONS, false) => Some("1,024 questions"),
        (MOST_QUESTIONS, true) => Some("1,024 questions and a number"),
        (_, true) => Some("a number left over"),
        _ => None,
    });
    met.push(match room {
        0 => "no question, no answer",
        _ if room == rows => "just enough answers",
        _ if room > ROWS_HANDED => "answers past row 1,025",
        _ => "more answers",
    });
    met
}

/// The questions that numbers stand for, without a number left over.
fn pages_of(numbers: &[u64]) -> Vec<Page> {
    let page = |two: &[u64]| Page {
        file: two[0],
        number: two[1],
    };
    numbers.chunks_exact(2).map(page).collect()
}

/// The numbers that stand for questions.
pub(super) fn numbers_of(questions: &[Page]) -> Vec<u64> {
    let numbers = |page: &Page| [page.file, page.number];
    questions.iter().flat_map(numbers).collect()
}

/// How many questions: mostly few, else about the most that are taken.
fn any_rows(dice: &mut Dice) -> usize {
    match dice.below(24) {
        0 => dice.pick(&[1_023, 1_024, 1_024, 1_025, 1_026, 2_100]),
        1..=3 => dice.pick(&[0, 1, 2]),
        _ => dice.between(1, 40) as usize,
    }
}

/// Answers for so many questions, mostly enough, with any numbers in them.
fn any_answers(dice: &mut Dice, rows: usize) -> Vec<u64> {
    let length = match dice.below(12) {
        0..=4 => rows,
        5..=7 => rows + dice.between(1, 40) as usize,
        8 => rows.saturating_sub(1),
        9 => dice.between(0, rows as u64) as usize,
        10 => dice.pick(&[1_023, 1_024, 1_025, 1_026, 1_100]),
        _ => 0,
    };
    (0..length).map(|_| dice.bits()).collect()
}

/// A page of file 0.
fn page(number: u64) -> Page {
    Page { file: 0, number }
}

/// File 0 has 200 pages; of them 60 to 70 are missing but for page 64 and for page 62,
/// which is in fetch. Slot 2 is at 58, slot 5 waits at 61 for page 62, slot 7 is as far as slot 2,
/// slot 9 at its last page, slot 12 ends at page 75. L is 100 and T 25: m is 4.
fn quay(turn: u64) -> State {
    let mut state = State::idle();
    state.frames = 200;
    state.look_ahead = 100;
    state.fetch_time = 25;
    state.turn = turn;
    state.sizes[0] = 200;
    let missing = |number: &u64| (60..=70).contains(number) && *number != 64;
    state.cached = (1..=190).filter(|n| !missing(n)).map(page).collect();
    state.in_fetch = [page(62), page(20), page(191)].into();
    state.cached.remove(&page(20));
    for (slot, reader) in [
        (2, Reader::running(0, 1, 58, 185)),
        (5, Reader::running(0, 10, 61, 185)),
        (7, Reader::running(0, 1, 58, 185)),
        (9, Reader::running(0, 10, 150, 150)),
        (12, Reader::running(0, 5, 40, 75)),
    ] {
        state.readers.insert(slot, reader);
    }
    state.readers.get_mut(&5).unwrap().waiting = true;
    state
}

/// A reader of file 0 from each of these positions to each of these last pages, and
/// one of file 7 that no question is about. Nothing is cached, and T is 0.
fn at_borders() -> Vec<State> {
    let mut states = Vec::new();
    for position in [0, 1, 62, 63, 64, 65, 127, 128] {
        for last in [1, 2, 63, 64, 65, 66, 127, 128, 129, 192] {
            if last < position {
                continue;
            }
            let mut state = State::idle();
            state.look_ahead = 2_000;
            state.sizes = [192, 0, 0, 0, 0, 0, 0, 128];
            state.readers = [
                (3, Reader::running(0, 10, position, last)),
                (8, Reader::running(7, 10, 100, 128)),
            ]
            .into();
            states.push(state);
        }
    }
    states
}
