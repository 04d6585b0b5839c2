//! When a page will be read, in words.

use crate::model::{Page, Refusal, State, When};

/// A sentence for each of these pages, which may be none of the state's.
pub fn sentences(state: &State, pages: &[Page]) -> Vec<String> {
    let keys = state.use_keys();
    let sentence = |&page| sentence(state, page, state.when_read_by(&keys, page));
    pages.iter().map(sentence).collect()
}

fn sentence(state: &State, page: Page, when: When) -> String {
    let Page { file, number } = page;
    let name = format!("Page {number} of file {file}");
    match when {
        When::Read { time, slot } => {
            let plural = if time == 1 { "" } else { "s" };
            format!("{name} will be read in {time} tick{plural}, by slot {slot}.")
        }
        When::Behind => format!("{name} is behind: no reader has it before it."),
        When::NotSeen => {
            format!("{name} is not seen: some reader has it before it, but in no look-ahead.")
        }
        When::Refused(Refusal::File) => format!("{name}: there is no such file."),
        When::Refused(_) => {
            let size = state.size(file);
            format!("{name}: there is no such page, the file has pages 1 to {size}.")
        }
    }
}
