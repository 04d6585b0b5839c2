//! Random questions: about the pages of a state, and about any numbers.

use super::calls::{seldom_wild, usual_page};
use crate::model::{Page, State};
use crate::random::Dice;

/// So many questions about a state: mostly about pages that there are, often where
/// an answer changes; some again and again.
pub fn any_questions(dice: &mut Dice, state: &State, count: usize) -> Vec<Page> {
    let near = near_readers(state);
    let cached: Vec<Page> = state.cached.iter().copied().collect();
    let mut questions: Vec<Page> = Vec::new();
    for _ in 0..count {
        let page = match dice.below(12) {
            0..=4 if !near.is_empty() => dice.pick(&near),
            5 if !cached.is_empty() => dice.pick(&cached),
            6 if !questions.is_empty() => dice.pick(&questions),
            7 => Page {
                file: dice.bits(),
                number: dice.bits(),
            },
            _ => any_page(dice, state),
        };
        questions.push(Page {
            file: seldom_wild(dice, page.file),
            number: seldom_wild(dice, page.number),
        });
    }
    questions
}

/// Of each reader the last page read and the next one, the last of its look-ahead and
/// the last that it reads, and the pages behind these two.
fn near_readers(state: &State) -> Vec<Page> {
    let mut near = Vec::new();
    for reader in state.readers.values() {
        let position = reader.position;
        let end = position + state.look_ahead_of(reader).len() as u64;
        let borders = [position, position + 1, end, end + 1];
        let borders = borders.into_iter().chain([reader.last, reader.last + 1]);
        near.extend(borders.map(|number| Page {
            number,
            ..reader.next_page()
        }));
    }
    near
}

/// A page in fetch, or one about the pages of a file.
fn any_page(dice: &mut Dice, state: &State) -> Page {
    let files = state.files();
    if files.is_empty() || dice.once_in(3) {
        return usual_page(dice, state);
    }
    let file = dice.pick(&files);
    let number = dice.between(1, state.size(file));
    Page { file, number }
}
