//! "When will these be read?" on an image: the box's one call beside quick's single
//! questions.

use super::{busy, in_turns, print_plain_head, print_plain_row, Quay, FULL};
use checker::call::WhenRead;
use checker::limits::MOST_QUESTIONS;
use checker::model::{Page, State};
use checker::{ffi, quick};
use std::hint::black_box;

/// The numbers of the questions, and room for their answers.
const NUMBERS: usize = 2 * MOST_QUESTIONS;

struct Case {
    name: String,
    image: Vec<u8>,
    questions: [u64; NUMBERS],
}

/// Prints the table of questions.
pub fn table() {
    println!(
        "By the function of `libprobe.a`: one call restores the image, walks each look-ahead once"
    );
    println!(
        "for all questions and counts the words. Quick asks single questions, one by one, on the"
    );
    println!(
        "same image: for each it counts the map afresh, as far as the page, for every reader of"
    );
    println!(
        "the file. As calls of their own they restore the image each time; restored once, quick"
    );
    println!("counts the words too. Nothing is saved.\n");
    print_plain_head();
    let ways: [(&str, WhenRead); 2] = [
        ("calls of their own", one_by_one),
        ("restored once", quick::when_read),
    ];
    for (way, by_quick) in ways {
        for case in cases() {
            let name = format!("{}; quick: {way}", case.name);
            print_plain_row(&name, measure(&case, by_quick));
        }
    }
}

/// Each question a call of its own; 0, since none of them counts the words.
fn one_by_one(image: &[u8], questions: &[u64], answers: &mut [u64]) -> u64 {
    for (answer, two) in answers.iter_mut().zip(questions.chunks_exact(2)) {
        *answer = quick::question(black_box(image), two[0], two[1]);
    }
    0
}

/// Look-aheads that reach the files' ends, with and without a fetch time, and short
/// ones.
fn cases() -> [Case; 3] {
    let ticks = [(2_000_000, 0), (2_000_000, 100), (1_000, 50)];
    ticks.map(|(look_ahead, fetch_time)| {
        case(busy(Quay {
            look_ahead,
            fetch_time,
            ..FULL
        }))
    })
}

fn case(state: State) -> Case {
    let name = format!(
        "{MOST_QUESTIONS} questions, {} readers, {} cached, L {}, T {}",
        state.readers.len(),
        state.cached.len(),
        state.look_ahead,
        state.fetch_time
    );
    let mut questions = [0; NUMBERS];
    for (nth, two) in (0..).zip(questions.chunks_exact_mut(2)) {
        let Page { file, number } = nth_page(nth);
        two.copy_from_slice(&[file, number]);
    }
    let image = state.image();
    Case {
        name,
        image,
        questions,
    }
}

/// Every eighth key, but not by rising key.
fn nth_page(nth: u64) -> Page {
    let shuffled = nth * 389 % MOST_QUESTIONS as u64;
    Page::of_key(8 * shuffled + shuffled % 8)
}

/// Nanoseconds for all questions, by quick and by the box.
fn measure(case: &Case, by_quick: WhenRead) -> [f64; 2] {
    let callers = [by_quick, ffi::when_read];
    let answers = callers.map(|when_read| {
        let mut answers = [0; MOST_QUESTIONS];
        when_read(&case.image, &case.questions, &mut answers);
        answers
    });
    assert!(
        answers[0] == answers[1],
        "quick and the box differ: {}",
        case.name
    );
    in_turns(callers.map(|when_read| {
        let mut answers = [0; MOST_QUESTIONS];
        move || {
            let (image, questions) = (black_box(&case.image), black_box(&case.questions));
            when_read(image, questions, black_box(&mut answers))
        }
    }))
}
