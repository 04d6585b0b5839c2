//! What grows with the frames, with the pages of a file and with the readers: an arrival
//! that steals, and a turn of a Run.

use super::{arrive, busy, run_of, table, Case, Quay, FULL};
use checker::call::Call;
use checker::model::State;

const FRAMES: [u64; 5] = [64, 128, 256, 512, 1_024];
const PAGES: [u64; 4] = [128, 256, 512, 1_024];
const READERS: [u64; 6] = [1, 2, 4, 8, 12, 16];

/// So many turns that no reader gets to the end of a file of 128 pages.
const TURNS: u64 = 1_024;

/// Prints a table for each setting, of both calls.
pub fn tables() {
    println!("\n## Arrive that steals, by frames (16 readers, 8 files, L 10240, T 0)\n");
    table(&FRAMES.map(|frames| by_arrive("frames", frames, Quay { frames, ..FULL })));
    println!("\n## Arrive that steals, by pages of a file (16 readers, 8 files, 64 frames, L 10240, T 0)\n");
    table(&PAGES.map(|pages| by_arrive("pages", pages, of_pages(pages))));
    println!("\n## Arrive that steals, by readers (8 files, 512 frames, L 10240, T 0)\n");
    let of_readers = |readers, frames| Quay {
        readers,
        frames,
        ..FULL
    };
    table(&READERS.map(|readers| by_arrive("readers", readers, of_readers(readers, 512))));
    println!("\n## Run of {TURNS} turns, by frames (16 readers, 8 files, L 10240, T 0)\n");
    println!("Nanoseconds of a whole Run. All frames are taken at its start, and no reader gets to its end. With fewer readers more of");
    println!("the turns are those of empty slots.\n");
    table(&FRAMES.map(|frames| by_run("frames", frames, Quay { frames, ..FULL })));
    println!("\n## Run of {TURNS} turns, by pages of a file (16 readers, 8 files, 64 frames, L 10240, T 0)\n");
    table(&PAGES.map(|pages| by_run("pages", pages, of_pages(pages))));
    println!("\n## Run of {TURNS} turns, by readers (8 files, 64 frames, L 10240, T 0)\n");
    table(&READERS.map(|readers| by_run("readers", readers, of_readers(readers, 64))));
}

fn of_pages(pages: u64) -> Quay {
    Quay {
        pages,
        frames: 64,
        ..FULL
    }
}

fn by_arrive(setting: &str, value: u64, quay: Quay) -> Case {
    arrive(format!("{setting}: {value}"), busy(quay))
}

/// A Run with all frames taken, from the state of the arrival but without its fetch.
fn by_run(setting: &str, value: u64, quay: Quay) -> Case {
    let without_fetch = |_: State| {
        let mut state = busy(quay);
        state.in_fetch.clear();
        state.readers.get_mut(&0).unwrap().waiting = false;
        state
    };
    let mut case = run_of(quay, without_fetch);
    case.name = format!("{setting}: {value}");
    case.call = Call::Run { turns: TURNS };
    case
}
