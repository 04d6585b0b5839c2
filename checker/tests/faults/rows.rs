//! Runs that go wrong in a long row of turns without F, and nowhere else.

use super::restored;
use checker::call::{Call, Entry};
use checker::limits::MOST_TURNS;
use checker::model::{Answer, State};
use checker::quick;

/// What goes wrong, each in one way.
pub const ROWS: [Entry; 4] = [turn_too_many, read_lost, reader_left, fetch_told];

/// After so many turns without F something goes wrong, once in each row.
const LATE: u64 = 60;

/// The fetches and the reads so far.
#[derive(Default)]
struct Counts {
    fetches: u64,
    reads: u64,
}

/// A Run, turn by turn, with something wrong late in each row.
fn running(image: &mut [u8], call: Call, wrong: fn(&mut State, &mut Counts)) -> u64 {
    let (Call::Run { turns }, Some(mut state)) = (call, restored(image)) else {
        return quick::entry(image, call);
    };
    if turns > MOST_TURNS || !state.in_fetch.is_empty() {
        return quick::entry(image, call);
    }
    let (mut counts, mut row) = (Counts::default(), 0);
    for _ in 0..turns {
        row += 1;
        let mut answer = state.read(state.turn);
        if let Ok(Answer::Fetch(page)) = answer {
            row = 0;
            counts.fetches += 1;
            state.arrive(page.file, page.number).expect("in fetch");
            answer = state.read(state.turn);
        }
        if let Ok(Answer::Hit(_)) = answer {
            counts.reads += 1;
        }
        state.pass_turn();
        if row == LATE {
            wrong(&mut state, &mut counts);
        }
    }
    image.copy_from_slice(&state.image());
    let Counts { fetches, reads } = counts;
    Answer::Ran { fetches, reads }.number()
}

fn turn_too_many(image: &mut [u8], call: Call) -> u64 {
    running(image, call, |state, _| state.pass_turn())
}

fn read_lost(image: &mut [u8], call: Call) -> u64 {
    running(image, call, |_, counts| counts.reads -= counts.reads.min(1))
}

/// The first reader that has read something is put back by a page.
fn reader_left(image: &mut [u8], call: Call) -> u64 {
    running(image, call, |state, _| {
        let mut readers = state.readers.values_mut();
        if let Some(reader) = readers.find(|reader| reader.position > reader.mark) {
            reader.position -= 1;
        }
    })
}

fn fetch_told(image: &mut [u8], call: Call) -> u64 {
    running(image, call, |_, counts| counts.fetches += 1)
}
