//! The paper's "Soundings to check by (marked 1 to 12)" and its listing, and more
//! soundings, of a reader with a last page, of pages in fetch and of the 1993 rule.

use super::weights::EXAMPLES;
use super::{hold, lists, Report};
use crate::call::{Call, Entry, Lister, Order};
use crate::model::{Answer, Page, Reader, Rule, State};

/// One sounding: a state and what the paper says of it.
struct Sounding {
    mark: &'static str,
    state: State,
    /// How many pages are in look-ahead, counted by hand.
    tested: u64,
    says: Says,
}

enum Says {
    Steal(Vec<Page>),
    Fetch(Vec<Page>),
    /// Pages in look-ahead with their times.
    Times(Vec<(Page, u64)>),
    /// Of file 0, low and high page.
    Clusters(Vec<u16>),
}

/// "File 0, size 16, L 40, turn 0, cached 1, 2, 3, 5, 7, reader in slot 0 at 3,
/// w 10, unless said." T is said by each; frames, by none.
pub(super) fn usual(fetch_time: u64) -> State {
    let mut state = State::idle();
    state.frames = 16;
    state.look_ahead = 40;
    state.fetch_time = fetch_time;
    state.sizes[0] = 16;
    state.cached = pages(&[1, 2, 3, 5, 7]).into_iter().collect();
    seat(state, 0, 3, 10)
}

pub(super) fn seat(mut state: State, slot: u64, position: u64, pace: u64) -> State {
    state
        .readers
        .insert(slot, Reader::running(0, pace, position, 16));
    state
}

/// The first reader up to page 6 only: page 7 is ahead of no reader.
fn shortened() -> State {
    let mut state = usual(0);
    state.readers.insert(0, Reader::running(0, 10, 3, 6));
    state
}

/// Sounding 1 with page 4 in fetch, which counts as cached: pages 5 and 6 come at 20
/// and 30, and page 7, with page 6 alone missing before it, is seen at 60.
pub(super) fn on_the_link() -> State {
    let mut state = usual(20);
    state.in_fetch = pages(&[4]).into_iter().collect();
    state
}

/// The same with page 5 alone cached of file 0, and a second reader, of file 1 at pace
/// 12: its pages 1 and 2 are cached. Pages 4 to 7 of file 0 come at 10, 20, 30 and 60,
/// pages 1 to 3 of file 1 at 12, 24 and 36. Were page 4 missing, pages 5 and 6 would
/// come at 40 and 50, behind pages 2 and 3 of file 1, and page 7 would not be seen.
fn beside_another() -> State {
    let mut state = on_the_link();
    state.sizes[1] = 16;
    state.readers.insert(1, Reader::running(1, 12, 0, 16));
    let of_1 = [1, 2].map(|number| Page { file: 1, number });
    state.cached = pages(&[5]).into_iter().chain(of_1).collect();
    state
}

/// The first state at T 40: one missing page ends a look-ahead, and page 4 is none.
fn farther() -> State {
    State {
        fetch_time: 40,
        ..on_the_link()
    }
}

/// The state of the soundings beside file 1, under the 1993 rule: 5 pages of file 0 are
/// cached and 2 of file 1, of which 1 is past its reader. By weights of 16 and 48 the
/// shares of 8 frames are 2 and 6.
fn weighed() -> State {
    let mut state = usual(0);
    state.rule = Rule::Of1993;
    state.frames = 8;
    state.sizes[1] = 16;
    (state.expected[0], state.expected[1]) = (3, 3);
    state.attaches[0] = 2;
    let of_1 = [1, 9].map(|number| Page { file: 1, number });
    state.cached.extend(of_1);
    state.readers.insert(1, Reader::running(1, 10, 1, 16));
    state
}

/// No reader, and only these pages cached.
fn unread(cached: &[Page]) -> State {
    let mut state = usual(0);
    state.readers.clear();
    state.cached = cached.iter().copied().collect();
    state
}

/// Sounding 8, at either turn.
fn two_near(turn: u64) -> State {
    let mut state = seat(seat(usual(0), 0, 4, 10), 1, 6, 10);
    state.cached = pages(&[5, 7]).into_iter().collect();
    state.turn = turn;
    state
}

/// Pages of file 0.
fn pages(numbers: &[u64]) -> Vec<Page> {
    let page = |&number| Page { file: 0, number };
    numbers.iter().map(page).collect()
}

fn steal(numbers: &[u64]) -> Says {
    Says::Steal(pages(numbers))
}

fn fetch(numbers: &[u64]) -> Says {
    Says::Fetch(pages(numbers))
}

fn times(times: &[(u64, u64)]) -> Says {
    let timed = |&(number, time)| (Page { file: 0, number }, time);
    Says::Times(times.iter().map(timed).collect())
}

/// A sounding's mark, its state, its pages in look-ahead and what is said of it.
type Line = (&'static str, State, u64, Says);

/// The paper's, and those of the requests that came after.
fn all() -> Vec<Sounding> {
    let lines = marked().into_iter().chain(later());
    lines.map(Sounding::of).collect()
}

fn marked() -> Vec<Line> {
    let five_of = |file| Page { file, number: 5 };
    let mut two_files = unread(&[five_of(0), five_of(1)]);
    two_files.sizes[1] = 16;
    let higher_first = Says::Steal(vec![five_of(1), five_of(0)]);
    let mut larger = unread(&pages(&[64, 65]));
    larger.sizes[0] = 1_024;
    vec![
        ("1", usual(20), 3, steal(&[3, 2, 1, 7, 5])),
        ("2", usual(20), 3, fetch(&[4, 6])),
        ("2", usual(20), 3, times(&[(4, 10), (6, 50)])),
        ("3", usual(40), 1, steal(&[3, 2, 1, 7, 5])),
        ("3", usual(40), 1, fetch(&[4])),
        ("4", usual(41), 0, fetch(&[])),
        ("5", usual(0), 4, steal(&[3, 2, 1, 7, 5])),
        ("5", usual(0), 4, fetch(&[4, 6])),
        ("6", seat(usual(0), 0, 3, 40), 1, fetch(&[4])),
        ("6", seat(usual(0), 0, 3, 41), 0, fetch(&[])),
        ("7", seat(usual(0), 1, 6, 10), 8, steal(&[3, 2, 1, 5, 7])),
        ("8", two_near(0), 8, steal(&[7, 5])),
        ("8", two_near(1), 8, steal(&[5, 7])),
        ("9", unread(&pages(&[2, 5])), 0, steal(&[5, 2])),
        ("10", two_files, 0, higher_first),
        ("11", larger, 0, Says::Clusters(vec![64, 65])),
        ("12", unread(&[]), 0, Says::Clusters(vec![])),
        ("12", unread(&[]), 0, steal(&[])),
    ]
}

fn later() -> Vec<Line> {
    let of = |pages: [(u64, u64); 3]| pages.map(|(file, number)| Page { file, number }).to_vec();
    let stolen = Says::Steal(of([(1, 2), (0, 5), (1, 1)]));
    let fetched = Says::Fetch(of([(0, 6), (1, 3), (0, 7)]));
    let timed = times(&[(4, 10), (5, 20), (6, 30), (7, 60)]);
    let mut lines = by_weight();
    lines.extend([
        ("A.1", shortened(), 3, steal(&[7, 3, 2, 1, 5])),
        ("A.1", shortened(), 3, fetch(&[4, 6])),
        ("A.5", on_the_link(), 4, steal(&[3, 2, 1, 7, 5])),
        ("A.5", on_the_link(), 4, fetch(&[6])),
        ("A.5", on_the_link(), 4, timed),
        ("A.5", farther(), 3, steal(&[3, 2, 1, 7, 5])),
        ("A.5", farther(), 3, fetch(&[6])),
        ("A.5", beside_another(), 7, stolen),
        ("A.5", beside_another(), 7, fetched),
    ]);
    lines
}

/// The examples, and a state with readers: surpluses of 3, 2, 1, 0 and −1 for file 0
/// before one of −4 for file 1, of which page 9 is ahead but in no look-ahead.
fn by_weight() -> Vec<Line> {
    let (of_0, of_1) = ([3, 2, 1, 7, 5], [1, 9]);
    let order = of_0.map(|number| Page { file: 0, number }).into_iter();
    let order = order.chain(of_1.map(|number| Page { file: 1, number }));
    let examples = EXAMPLES.iter().map(|example| {
        let order = Says::Steal(example.order_of_pages().collect());
        ("A.6", example.state(), 0, order)
    });
    let mut lines: Vec<Line> = examples.collect();
    lines.push(("A.6", weighed(), 8, Says::Steal(order.collect())));
    lines
}

impl Sounding {
    fn of((mark, state, tested, says): Line) -> Sounding {
        Sounding {
            mark,
            state,
            tested,
            says,
        }
    }
}

/// Holds the model to every sounding.
pub fn by_model(report: &mut Report) {
    for Sounding {
        mark,
        state,
        tested,
        says,
    } in all()
    {
        let good = match says {
            Says::Steal(order) => state.steal_order() == order,
            Says::Fetch(order) => state.fetch_order() == order,
            Says::Times(times) => {
                let keys = state.use_keys();
                times.iter().all(|(page, time)| keys[page].time == *time)
            }
            Says::Clusters(numbers) => {
                let mut list = [0; 32];
                let count = state.clusters(0, &mut list);
                count == Ok(numbers.len() / 2) && list[..numbers.len()] == numbers
            }
        };
        let good = good && state.pages_tested() == tested;
        report.check(good, || format!("sounding {mark}, by the model"));
    }
}

/// Holds an entry to the heads of the soundings' orders: Steal and Prefetch
/// answer them.
pub fn by_entry(report: &mut Report, entry: Entry) {
    for Sounding {
        mark, state, says, ..
    } in all()
    {
        let (call, answer) = match says {
            Says::Steal(order) => (Call::Steal, order.first().copied().map(Answer::Stolen)),
            Says::Fetch(order) => (Call::Prefetch, order.first().copied().map(Answer::Fetch)),
            Says::Times(_) | Says::Clusters(_) => continue,
        };
        let expected = answer.unwrap_or(Answer::Nothing).number();
        let (number, _) = hold(report, entry, &state.image(), call);
        report.check(number == expected, || {
            format!("sounding {mark}: {call:?} answered {number}, not {expected}")
        });
    }
}

/// Holds both lists to the soundings' orders, whole, and to what they report.
pub fn by_list(report: &mut Report, lister: Lister) {
    for Sounding {
        mark,
        state,
        tested,
        says,
    } in all()
    {
        lists::hold_state(report, lister, &state);
        let (order, pages) = match says {
            Says::Steal(pages) => (Order::Steal, pages),
            Says::Fetch(pages) => (Order::Fetch, pages),
            Says::Times(_) | Says::Clusters(_) => continue,
        };
        let (image, room) = (state.image(), vec![0; pages.len()]);
        let (number, list) = lists::hold_list(report, lister, order, &image, &room);
        let keys = pages.iter().map(|page| page.key() as u16);
        let expected = 4_294_967_296 + pages.len() as u64 * 65_536 + tested;
        report.check(number == expected && keys.eq(list), || {
            format!("sounding {mark}: {} has {number}", order.name())
        });
    }
}

/// "Input, then the output whole", slashes for line ends; the A lines "take both
/// numbers at their end", in the listing ",0,6".
const INPUT: &str =
    "S,3,100,0,6,0,0,0,0,0,0,0 / A,0,0,10,0,6 / R,0 / R,0 / I,0,1 / R,0 / A,1,0,10,0,6 / \
    N,32 / L / P / T / I,0,4 / C,0 / I,0,5 / N,16 / L";
const OUTPUT: &str = "O / O / F,0,1 / E,7 / I / H,0,1 / O / N,2,4 / L,3,0,2,0,1,0,3 / F,0,4 / \
    S,0,2 / I / C,2,1,1,3,4 / E,9 / N,0,2 / L,3,0,3,0,1,0,4";

/// Holds a program, which gives the output to an input, to the paper's listing.
pub fn listing(report: &mut Report, program: impl Fn(&[u8]) -> Vec<u8>) {
    let lines = |listing: &str| listing.replace(" / ", "\n") + "\n";
    let output = program(lines(INPUT).as_bytes());
    report.check(output == lines(OUTPUT).as_bytes(), || {
        let output = String::from_utf8_lossy(&output);
        format!("the listing's output is\n{output}")
    });
}
