//! What the box's C entries cost beside quick's entry and swift's, its lists and its
//! answers to questions beside quick's, and the program `quay` beside the checker's
//! `lines`: one run, the same images and streams.
//!
//!     cargo build --release --bin lines
//!     QUAY_LIB=folder QUAY_PROBE=folder QUAY_PROGRAM=path \
//!         cargo run --release --features box --bin bench
//!
//! All entries restore, call and save an image each time; a list and a question
//! restore one and save nothing. Every number is the median of several samples, taken
//! in turns, in nanoseconds a call; that of an entry includes one copy of the image
//! into the buffer. Prints markdown tables. Without `QUAY_PROGRAM` the programs are
//! left out.

mod growth;
mod lines;
mod lists;
mod questions;
mod rules;

use checker::call::{Call, Entry};
use checker::limits::{FILES, FILE_PAGES, MOST_TURNS};
use checker::model::{Page, Reader, State};
use checker::{ffi, quick, swift};
use std::hint::black_box;
use std::time::{Duration, Instant};

/// How long one sample should take at least, and how many there are; fewer of a call that
/// takes much longer than that.
const SAMPLE: Duration = Duration::from_millis(3);
const SAMPLES: usize = 11;
const SLOW_SAMPLES: usize = 3;

struct Case {
    name: String,
    image: Vec<u8>,
    call: Call,
}

fn main() {
    println!("# What the box costs\n");
    println!(
        "Written by `make bench` on {}. Read the ratios, which are of one run;",
        machine()
    );
    println!("the nanoseconds are this machine's, and change with what else it does.\n");
    println!("`quick` is the checker's plain version, built for release: it walks every look-ahead once into an array of");
    println!("numbers, without sets and without an allocation. `swift` is its tuned version, as fast as plain Rust without proofs");
    println!("got: it tests the image where it lies, writes only what changes, and in a Run keeps what it knows of a file. So box /");
    println!("swift is what being proved costs, and quick / box what the box gains on plain code. The box is its C entries. All");
    println!("three restore the image, carry the call out and save it, on the same images. Readers have pace 10 and files 1,024");
    println!("pages unless said, so that L 10240 reaches a file's end.\n");
    println!("## Calls, with a look-ahead that reaches the files' ends\n");
    table(&calls());
    println!("\n## The same, with a look-ahead that ends early\n");
    println!("Quick's cost is its walk: with less to walk it comes nearer. For these calls the box walks no look-ahead, and costs what it did.\n");
    table(&short_calls());
    growth::tables();
    println!("\n## The two rules\n");
    rules::table();
    println!("\n## Lists\n");
    lists::table();
    println!("\n## Questions\n");
    questions::table();
    println!("\n## Lines through pipes\n");
    println!("The program `quay` beside the checker's own, built on quick, from start to end through the same pipes.\n");
    lines::table();
}

/// The processor and how many there are, as the system names them.
fn machine() -> String {
    let processors = std::fs::read_to_string("/proc/cpuinfo").unwrap_or_default();
    let mut names = processors
        .lines()
        .filter(|line| line.starts_with("model name"))
        .filter_map(|line| line.split(':').nth(1));
    let name = names.next().unwrap_or("an unnamed processor").trim();
    format!("{name}, {} cores", names.count() + 1)
}

/// Every call, with 1,024 frames unless said.
fn calls() -> Vec<Case> {
    let mut cases = arrivals(&[(10_240, 0), (2_000_000, 0), (10_240, 1), (2_000_000, 100)]);
    cases.extend(reseated_arrivals());
    let image = busy(FULL).image();
    let measure = Call::Measure {
        slot: 9,
        interval: 1_000,
        blocked: 400,
    };
    cases.push(arrive_behind());
    for (name, call) in [
        ("Steal", Call::Steal),
        ("Prefetch", Call::Prefetch),
        ("Read, a hit", Call::Read { slot: 1 }),
        ("Read, refused (slot 16)", Call::Read { slot: 16 }),
        ("Measure", measure),
    ] {
        let (name, image) = (name.to_string(), image.clone());
        cases.push(Case { name, image, call });
    }
    cases.push(Case {
        name: "Read, a buffer one byte short (refused with 13)".to_string(),
        image: image[1..].to_vec(),
        call: Call::Read { slot: 1 },
    });
    cases.extend(on_the_link());
    cases.extend(runs(10_240, 0));
    cases.extend(runs(2_000_000, 100));
    cases.extend([run_on_one_file(10_240, 0), run_on_one_file(2_000_000, 100)]);
    cases.extend([run_of_hits(), run_of_paces(0), run_of_paces(50)]);
    cases
}

/// In words, and the slot that the reader of each slot gets.
type Seating = (&'static str, fn(u64) -> u64);

/// The reader in the first slot, who docked first, is furthest ahead.
const DOCKED_IN_TURN: Seating = ("the first slot furthest ahead", |slot| 15 - slot);
const IN_NO_ORDER: Seating = ("slots in no order", |slot| slot * 7 % 16);

/// The same readers in other slots.
fn reseated(mut state: State, (_, slot_of): Seating) -> State {
    let readers = state.readers.into_iter();
    state.readers = readers.map(|(slot, it)| (slot_of(slot), it)).collect();
    state
}

/// Arrivals that steal, on one file, with the readers in other slots.
fn reseated_arrivals() -> Vec<Case> {
    let mut cases = Vec::new();
    for seating in [DOCKED_IN_TURN, IN_NO_ORDER] {
        for (look_ahead, fetch_time) in [(10_240, 0), (10_240, 1), (2_000_000, 100)] {
            let state = busy(Quay {
                files: 1,
                frames: 768,
                look_ahead,
                fetch_time,
                ..FULL
            });
            let name = format!(
                "Arrive that steals, 16 readers on one file, {}, L {look_ahead}, T {fetch_time}",
                seating.0
            );
            cases.push(arrive(name, reseated(state, seating)));
        }
    }
    cases
}

/// A run of sixteen readers on one file, in slots of no order, with few frames.
fn run_on_one_file(look_ahead: u64, fetch_time: u64) -> Case {
    let quay = Quay {
        files: 1,
        frames: 64,
        look_ahead,
        fetch_time,
        ..FULL
    };
    let mut case = run_of(quay, |state| reseated(state, IN_NO_ORDER));
    case.name += ", 16 readers on one file, ";
    case.name += IN_NO_ORDER.0;
    case
}

/// An arrival for which a page goes that no reader still has before it: the reader in slot
/// 1 has read some of its pages, and the other reader of its file is ahead of it.
fn arrive_behind() -> Case {
    let mut state = busy(FULL);
    state.readers.get_mut(&1).unwrap().position = 20;
    let name = "Arrive that finds a page behind all readers, 16 readers on 8 files, L 10240, T 0";
    arrive(name.to_string(), state)
}

/// Both heads with many pages in fetch, which count as cached: the second map is read.
fn on_the_link() -> [Case; 2] {
    let state = opened(busy(Quay {
        look_ahead: 2_000_000,
        fetch_time: 100,
        ..FULL
    }));
    let open = state.in_fetch.len();
    let setting = format!("16 readers on 8 files, L 2000000, T 100, {open} in fetch");
    let prefetch = Case {
        name: format!("Prefetch, {setting}"),
        image: state.image(),
        call: Call::Prefetch,
    };
    [
        arrive(format!("Arrive that steals, {setting}"), state),
        prefetch,
    ]
}

/// Those in which a walk ends early: after 100 pages, or after so many missing
/// ones as T allows.
fn short_calls() -> Vec<Case> {
    let mut cases = arrivals(&[(10_240, 100), (1_000, 0), (1_000, 50)]);
    cases.extend(runs(1_000, 50));
    cases.push(run_on_one_file(1_000, 50));
    cases
}

/// An arrival that steals, for each L and T on 8 files and on one, which alone
/// has not enough pages to fill 1,024 frames.
fn arrivals(ticks: &[(u64, u64)]) -> Vec<Case> {
    let mut cases = Vec::new();
    for (files, placed, frames) in [(8, "8 files", 1_024), (1, "one file", 768)] {
        for &(look_ahead, fetch_time) in ticks {
            let quay = Quay {
                files,
                frames,
                look_ahead,
                fetch_time,
                ..FULL
            };
            let name = format!(
                "Arrive that steals, 16 readers on {placed}, L {look_ahead}, T {fetch_time}"
            );
            cases.push(arrive(name, busy(quay)));
        }
    }
    cases
}

/// A run, with few frames and with many.
fn runs(look_ahead: u64, fetch_time: u64) -> [Case; 2] {
    [64, 1_024].map(|frames| {
        let quay = Quay {
            frames,
            look_ahead,
            fetch_time,
            ..FULL
        };
        run_of(quay, |state| state)
    })
}

/// A run from a changed state of a quay.
fn run_of(quay: Quay, change: impl FnOnce(State) -> State) -> Case {
    let Quay {
        frames,
        look_ahead,
        fetch_time,
        ..
    } = quay;
    Case {
        name: format!("Run of {MOST_TURNS} turns, {frames} frames, L {look_ahead}, T {fetch_time}"),
        image: change(seated(quay)).image(),
        call: Call::Run { turns: MOST_TURNS },
    }
}

/// A run of which every turn is a hit: sixteen readers of one file that is all cached.
fn run_of_hits() -> Case {
    let one_file = Quay { files: 1, ..FULL };
    let mut case = run_of(one_file, |mut state| {
        state.cached = (0..FILE_PAGES).map(Page::of_key).collect();
        for reader in state.readers.values_mut() {
            reader.position = 0;
        }
        state
    });
    case.name = format!("Run of {MOST_TURNS} turns, 16 readers on one file, all cached, all hits");
    case
}

/// A run of readers whose paces all differ, with few frames.
fn run_of_paces(fetch_time: u64) -> Case {
    let quay = Quay {
        frames: 64,
        fetch_time,
        ..FULL
    };
    let mut case = run_of(quay, |mut state| {
        for (&slot, reader) in &mut state.readers {
            reader.pace = 5 + slot * 7 % 16;
        }
        state
    });
    case.name += ", paces 5 to 20";
    case
}

/// What a state is made of.
#[derive(Clone, Copy)]
struct Quay {
    files: u64,
    pages: u64,
    readers: u64,
    frames: u64,
    look_ahead: u64,
    fetch_time: u64,
}

const FULL: Quay = Quay {
    files: 8,
    pages: FILE_PAGES,
    readers: 16,
    frames: 1_024,
    look_ahead: 10_240,
    fetch_time: 0,
};

/// Readers of pace 10, a second and later reader of a file some way ahead of
/// the one before; none was measured. Nothing is cached.
fn seated(quay: Quay) -> State {
    let mut state = State::idle();
    state.frames = quay.frames;
    state.look_ahead = quay.look_ahead;
    state.fetch_time = quay.fetch_time;
    state.sizes.fill(quay.pages);
    for slot in 0..quay.readers {
        let (file, position) = (slot % quay.files, slot / quay.files * 55);
        let mut reader = Reader::running(file, 10, position, quay.pages);
        reader.mark = 0;
        state.readers.insert(slot, reader);
    }
    state
}

/// The same with every frame taken by pages ahead of the readers, every seventh
/// page missing, and the reader in slot 0 waiting for its next page.
fn busy(quay: Quay) -> State {
    let mut state = seated(quay);
    let first = state.readers.get_mut(&0).unwrap();
    first.waiting = true;
    let awaited = first.next_page();
    state.in_fetch.insert(awaited);
    for ahead in 0..quay.pages {
        for reader in state.readers.values() {
            let Page { file, number } = reader.next_page();
            let page = Page {
                file,
                number: number + ahead,
            };
            let cacheable =
                page.number <= quay.pages && !page.number.is_multiple_of(7) && page != awaited;
            if cacheable && (state.cached.len() as u64) < quay.frames {
                state.cached.insert(page);
            }
        }
    }
    let taken = state.cached.len() as u64;
    assert_eq!(taken, quay.frames, "every frame is taken");
    state
}

/// The same with every seventh page in fetch that is not cached.
fn opened(mut state: State) -> State {
    let pages = (0..FILES * FILE_PAGES).map(Page::of_key);
    let sevenths = pages.filter(|page| page.number.is_multiple_of(7));
    let missing = sevenths.filter(|page| !state.cached.contains(page));
    state.in_fetch.extend(missing);
    state
}

/// Arrive of the page that a reader waits for.
fn arrive(name: String, state: State) -> Case {
    let waiting = state.readers.values().find(|reader| reader.waiting);
    let Page { file, number: page } = waiting.expect("one waits").next_page();
    let (image, call) = (state.image(), Call::Arrive { file, page });
    Case { name, image, call }
}

fn table(cases: &[Case]) {
    print_head();
    for case in cases {
        print_row(&case.name, measure(case));
    }
}

/// The head of a table of entries.
fn print_head() {
    println!("| call | quick ns | swift ns | box ns | quick / box | box / swift |");
    println!("|:-----|---------:|---------:|-------:|------------:|------------:|");
}

fn print_row(name: &str, [quick, swift, the_box]: [f64; 3]) {
    let (gain, price) = (quick / the_box, the_box / swift);
    println!("| {name} | {quick:.0} | {swift:.0} | {the_box:.0} | {gain:.2} | {price:.2} |");
}

/// The head of a table of what swift has not.
fn print_plain_head() {
    println!("| call | quick ns | box ns | quick / box |");
    println!("|:-----|---------:|-------:|------------:|");
}

fn print_plain_row(name: &str, [quick, the_box]: [f64; 2]) {
    let ratio = quick / the_box;
    println!("| {name} | {quick:.0} | {the_box:.0} | {ratio:.2} |");
}

/// Nanoseconds a call, by quick, by swift and by the box.
fn measure(case: &Case) -> [f64; 3] {
    let entries = [quick::entry as Entry, swift::entry, ffi::entry];
    let [by_quick, by_swift, by_box] = entries.map(|entry| {
        let mut image = case.image.clone();
        (entry(&mut image, case.call), image)
    });
    assert!(
        by_quick == by_box && by_swift == by_box,
        "quick, swift and the box differ: {}",
        case.name
    );
    in_turns(entries.map(|entry| {
        let mut buffer = case.image.clone();
        move || {
            buffer.copy_from_slice(black_box(&case.image));
            entry(black_box(&mut buffer), black_box(case.call))
        }
    }))
}

/// Nanoseconds a call of each, sampled in turns.
fn in_turns<const CALLERS: usize>(mut callers: [impl FnMut() -> u64; CALLERS]) -> [f64; CALLERS] {
    let plans = callers.each_mut().map(|call| {
        let calls = SAMPLE.as_nanos() as f64 / sample(call, 1);
        match calls < 0.2 {
            true => (1, SLOW_SAMPLES),
            false => (calls.ceil() as u32, SAMPLES),
        }
    });
    let mut samples = [const { Vec::new() }; CALLERS];
    for nth in 0..SAMPLES {
        for (at, call) in callers.iter_mut().enumerate() {
            let (calls, wanted) = plans[at];
            if nth < wanted {
                samples[at].push(sample(call, calls));
            }
        }
    }
    samples.map(median)
}

/// Nanoseconds a call over so many calls.
fn sample(call: &mut impl FnMut() -> u64, calls: u32) -> f64 {
    let start = Instant::now();
    for _ in 0..calls {
        black_box(call());
    }
    start.elapsed().as_nanos() as f64 / f64::from(calls)
}

fn median(mut samples: Vec<f64>) -> f64 {
    samples.sort_by(f64::total_cmp);
    samples[samples.len() / 2]
}
