//! Turns of a Run that meet no F, many in a row, and what they go over. A Run's answer
//! tells only how many of its turns met F.

use crate::model::{Answer, State};

const ROW: &str = "a row of turns without F";

/// All that can be met by a Run: what comes after such a row, and what it goes over.
#[rustfmt::skip]
pub const ROW_CASES: &[(&str, &[&str])] = &[
    (ROW, &["then F", "then F and another row", "to the Run's end", "from the Run's start"]),
    (ROW, &["over an empty slot", "over a reader at its end", "to a reader's last page"]),
];

/// How many turns make a row: five rounds.
const MANY: u64 = 80;

/// The rows of a Run, turn by turn; no page is in fetch at its start.
pub fn rows(before: &State, turns: u64) -> Vec<(&'static str, &'static str)> {
    let mut state = before.clone();
    let (mut row, mut rows_and_fetches, mut met) = (0, 0, Vec::new());
    for nth in 1..=turns {
        let answer = state.read(state.turn);
        row += 1;
        if let Ok(Answer::Fetch(page)) = answer {
            if row > MANY {
                rows_and_fetches += 1;
                met.push("then F");
            }
            row = 0;
            let arrived = state.arrive(page.file, page.number);
            arrived.expect("the page is in fetch");
            let read = state.read(state.turn);
            read.expect("its reader runs again");
        } else if row >= MANY {
            met.extend(gone_over(&state, answer.ok()));
            if rows_and_fetches > 0 {
                met.push("then F and another row");
            }
            if row == nth {
                met.push("from the Run's start");
            }
            if nth == turns {
                met.push("to the Run's end");
            }
        }
        state.pass_turn();
    }
    met.sort_unstable();
    met.dedup();
    met.into_iter().map(|case| (ROW, case)).collect()
}

/// What a turn of a row goes over, by Read's answer: none where the slot is empty.
fn gone_over(state: &State, answer: Option<Answer>) -> Option<&'static str> {
    match answer {
        None => Some("over an empty slot"),
        Some(Answer::End) => Some("over a reader at its end"),
        _ if state.readers[&state.turn].is_at_end() => Some("to a reader's last page"),
        _ => None,
    }
}
