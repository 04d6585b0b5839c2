//! The third statement on small instances: no schedule has fewer fetches than
//! Run, found by trying them all. A.6: "A user who selects 1993 has no best-schedule
//! result", so these are of the 1989 rule, whatever E and R are.

use super::{hold, Report};
use crate::call::{Call, Entry};
use crate::limits::{FILES, MOST_TURNS, SLOTS};
use crate::model::{Page, Reader, Rule, State};
use crate::random::Dice;
use crate::scene::weigh;

/// All pages of all files in a small instance; all their sets are tried.
const MOST_PAGES: u64 = 10;

/// Holds Run to the fewest fetches of any schedule on so many instances.
/// Returns how many of them had evictions.
pub fn fewest(report: &mut Report, entry: Entry, dice: &mut Dice, instances: u64) -> u64 {
    let (mut with_evictions, mut shortened) = (0, 0);
    for _ in 0..instances {
        let start = small_state(dice);
        let turns = match dice.below(100) {
            0 => MOST_TURNS,
            1..=25 => dice.pick(&[0, 1, 15, 16, 17, 500]),
            26..=50 => dice.below(40),
            _ => dice.below(200),
        };
        if hold_run(report, entry, &start, turns) {
            with_evictions += 1;
            shortened += u64::from(start.readers.values().any(|r| r.last < start.size(r.file)));
        }
    }
    report.check(shortened > 0, || {
        "no instance with a last page below the size had an eviction".to_string()
    });
    with_evictions
}

/// A small valid start under the premises of the third statement: one pace,
/// T 0, no page in fetch, and a look-ahead that covers, L being at least w × last
/// page: "with the size in its premise read as the last page of each attached
/// reader".
fn small_state(dice: &mut Dice) -> State {
    let mut state = State::idle();
    weigh(dice, &mut state);
    state.rule = Rule::Of1989;
    state.frames = dice.between(1, 4);
    state.turn = dice.below(SLOTS);
    let mut pages_left = MOST_PAGES;
    for _ in 0..dice.between(1, 3) {
        let file = dice.below(FILES) as usize;
        let size = dice.between(0, pages_left.min(6));
        if state.sizes[file] == 0 {
            state.sizes[file] = size;
            pages_left -= size;
        }
    }
    let files = state.files();
    if files.is_empty() {
        return state;
    }
    let pace = dice.pick(&[1, 2, 10, 1_000]);
    for _ in 0..dice.below(8) {
        let file = dice.pick(&files);
        let size = state.size(file);
        let last = match dice.below(2) {
            0 => size,
            _ => dice.between(1, size),
        };
        let position = dice.between(0, last) * dice.below(2);
        let reader = Reader::running(file, pace, position, last);
        state.readers.insert(dice.below(SLOTS), reader);
    }
    let last_pages = state.readers.values().map(|reader| reader.last);
    state.look_ahead = (pace * last_pages.max().unwrap_or(0)).max(1);
    state.look_ahead += dice.pick(&[0, 0, 1, pace, 900_000]);
    let pages = all_pages(&state);
    for _ in 0..dice.between(0, state.frames) {
        state.cached.insert(dice.pick(&pages));
    }
    state
}

/// The fewest fetches that any schedule of so many turns needs.
pub fn by_any_schedule(start: &State, turns: u64) -> u64 {
    fewest_fetches(start, &reads_laid_down(start, turns))
}

/// Holds one Run to the brute force. True if it dropped a page.
fn hold_run(report: &mut Report, entry: Entry, start: &State, turns: u64) -> bool {
    let reads = reads_laid_down(start, turns);
    let fetches = fewest_fetches(start, &reads);
    let expected = 4_294_967_296 + fetches * 65_536 + reads.len() as u64;
    let run = Call::Run { turns };
    let (number, end) = hold(report, entry, &start.image(), run);
    report.check(number == expected, || {
        format!("{run:?} answers {number}, the brute force {expected}; from {start:?}")
    });

    let (schedule, end_turn_by_turn) = Schedule::of_run(entry, start, turns);
    let same_end = end_turn_by_turn == end;
    let good = schedule.reads == reads && schedule.fetches == fetches && same_end;
    report.check(good, || {
        format!(
            "turn by turn {run:?} is {schedule:?}, the brute force {fetches} fetches \
             for {reads:?}; same image at the end: {same_end}; from {start:?}"
        )
    });
    schedule.drops > 0
}

/// "The run is itself such a schedule: its sets are the pages cached after each
/// H turn, and its fetches are the number of fetches in its answer."
#[derive(Debug, Default)]
struct Schedule {
    /// The page of each H turn, as far as its set has it and fits the frames.
    reads: Vec<Page>,
    /// Pages "in the read's set that are not in the set before", summed.
    fetches: u64,
    /// Pages in the set before that are not in the read's, summed.
    drops: u64,
}

impl Schedule {
    /// The schedule of a Run, by Runs of one turn each, and the last image.
    fn of_run(entry: Entry, start: &State, turns: u64) -> (Schedule, Vec<u8>) {
        let mut image = start.image();
        let mut before = start.cached.clone();
        let mut schedule = Schedule::default();
        for _ in 0..turns {
            let slot = u64::from(image[2]);
            let number = entry(&mut image, Call::Run { turns: 1 });
            if number & 0xFFFF == 0 {
                continue; // no H turn
            }
            let (state, _) = State::restore(&image);
            let page = state.readers.get(&slot).map(|reader| Page {
                file: reader.file,
                number: reader.position,
            });
            let fits = state.cached.len() as u64 <= state.frames;
            let page = page.filter(|page| fits && state.cached.contains(page));
            schedule.reads.extend(page);
            schedule.fetches += state.cached.difference(&before).count() as u64;
            schedule.drops += before.difference(&state.cached).count() as u64;
            before = state.cached;
        }
        (schedule, image)
    }
}

/// "The reads laid down are a list of pages, worked out from readers, sizes and
/// turn, and from nothing that is cached. [...] At each turn, if the turn's
/// slot holds a reader not yet at the position where Read answers Z, its
/// position grows by 1 and the page of that number in its file goes to the end
/// of the list; otherwise nothing does. Then the turn grows by 1 modulo 16."
fn reads_laid_down(start: &State, turns: u64) -> Vec<Page> {
    let mut readers = start.readers.clone();
    let mut turn = start.turn;
    let mut reads = Vec::new();
    for _ in 0..turns {
        if let Some(reader) = readers.get_mut(&turn) {
            if !reader.is_at_end() {
                reads.push(reader.next_page());
                reader.position += 1;
            }
        }
        turn = (turn + 1) % SLOTS;
    }
    reads
}

/// The fewest fetches of any schedule: "a list of page sets, one for each of
/// these reads. Each set has the page of its read, and at most as many pages as
/// there are frames. Before the first stands the set of pages cached at the
/// start. A schedule's fetches are, summed over the reads, the number of pages
/// in the read's set that are not in the set before; with no read, 0."
///
/// After each read, every permitted set is kept with the fewest fetches that
/// lead to it. A set is a word with one bit for each page there is.
fn fewest_fetches(start: &State, reads: &[Page]) -> u64 {
    let pages = all_pages(start);
    let bit = |page: &Page| 1_u32 << pages.iter().position(|other| other == page).unwrap();
    let permitted: Vec<u32> = (0..1 << pages.len())
        .filter(|set: &u32| u64::from(set.count_ones()) <= start.frames)
        .collect();

    let cached_at_start = start.cached.iter().map(bit).sum();
    let mut reached: Vec<(u32, u32)> = vec![(cached_at_start, 0)];
    for read in reads {
        let with_page = permitted.iter().filter(|&set| set & bit(read) != 0);
        reached = with_page
            .map(|&set| {
                let ways = reached.iter();
                let fetches = ways.map(|(before, so_far)| so_far + (set & !before).count_ones());
                (set, fetches.min().unwrap())
            })
            .collect();
    }
    let fewest = reached.iter().map(|&(_, fetches)| fetches).min();
    fewest.unwrap().into()
}

/// Every page of every file: other schedules may hold any.
fn all_pages(state: &State) -> Vec<Page> {
    let pages_of = |file| (1..=state.size(file)).map(move |number| Page { file, number });
    state.files().into_iter().flat_map(pages_of).collect()
}
