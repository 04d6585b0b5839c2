//! Steal list and Fetch list on an image: what the trials take for right, and all
//! that they must meet.

use checker::call::Order;
use checker::limits::{IMAGE_BYTES, LENGTHS, OLDER_IMAGE_BYTES};
use checker::model::{self, Page, Reader, State};
use checker::random::Dice;
use checker::scene::any_state;
use checker::trial::lists::{self, LIST_OUTCOMES};
use checker::trial::{rules, soundings, Report};

/// What the number of a list has above keys and report.
const CARRIED_OUT: u64 = 4_294_967_296;

fn by_model(order: Order, image: &[u8], list: &mut [u16]) -> u64 {
    let (number, after) = model::list(order, image, list);
    list.copy_from_slice(&after);
    number
}

#[test]
fn the_trials_meet_every_case() {
    let (mut report, mut dice) = (Report::default(), Dice::new(21));
    soundings::by_list(&mut report, by_model);
    rules::by_list(&mut report, by_model);
    lists::built(&mut report, by_model);
    lists::random(&mut report, by_model, &mut dice, 1_500);
    report.check_every_outcome_met(LIST_OUTCOMES);
    println!("{}", report.outcomes(LIST_OUTCOMES));
    assert_eq!(report.failed(), 0);
}

/// File 0 has 200 pages, file 7 has 1,024. Of file 0 pages 60 to 70 are missing but
/// for page 64; slot 2 is at 58, slot 5 at 61 and waits, slot 9 at its last page. Of
/// file 7 slot 15 reads the last four pages. L is 100 and T 25: m is 4. Page 62 is in
/// fetch, and so not missing.
fn quay() -> State {
    let mut state = State::idle();
    state.frames = 200;
    state.look_ahead = 100;
    state.fetch_time = 25;
    state.sizes = [200, 0, 0, 0, 0, 0, 0, 1_024];
    let page = |number| Page { file: 0, number };
    let missing = |number: &u64| (60..=70).contains(number) && *number != 64;
    state.cached = (1..=200).filter(|n| !missing(n)).map(page).collect();
    state.in_fetch.insert(page(62));
    for (slot, reader) in [
        (2, Reader::running(0, 1, 58, 200)),
        (5, Reader::running(0, 10, 61, 200)),
        (9, Reader::running(0, 10, 150, 150)),
        (15, Reader::running(7, 5, 1_020, 1_024)),
    ] {
        state.readers.insert(slot, reader);
    }
    state.readers.get_mut(&5).unwrap().waiting = true;
    state
}

/// Slot 2 has pages 59 to 65 in look-ahead: of these 60, 61, 63 and 65 are missing.
/// Slot 5 has 62 to 67: of these 63, 65, 66 and 67 are. Slot 9 has none. Slot 15 has
/// four.
#[test]
fn a_report_is_the_pages_of_the_look_aheads() {
    let mut state = quay();
    assert_eq!(state.pages_tested(), 7 + 6 + 4);
    state.fetch_time = 0; // K alone: 100 pages for slot 2, 10 for slot 5
    assert_eq!(state.pages_tested(), 100 + 10 + 4);
    state.fetch_time = 101;
    assert_eq!(state.pages_tested(), 0);
    state.fetch_time = 0;
    state.look_ahead = 9;
    assert_eq!(state.pages_tested(), 9 + 1);
    state.readers.clear();
    assert_eq!(state.pages_tested(), 0);
}

/// Times of slot 2, from page 59: 1, 2, 28, 54, 55, 81, 82; of slot 5, from page 62: 10,
/// 20, 55, 65, 100, 135; of slot 15: 5, 35, 65, 95. Pages 59 and 64 are cached, 62 is
/// in fetch. At turn 6 slot 15 sits nearer than slot 5.
#[test]
fn numbers_and_keys_are_as_agreed() {
    let mut state = quay();
    state.turn = 6;
    let image = state.image();
    let of_7 = |page: u16| 7 * 1_024 + page - 1;
    let early = [59, of_7(1_021), 62, 60, of_7(1_022)];
    let late = [of_7(1_023), 64, of_7(1_024), 65, 66];
    let expected = [&early[..], &late, &[7, 7]].concat();
    let (number, list) = model::list(Order::Fetch, &image, &[7; 12]);
    assert_eq!(number, CARRIED_OUT + 10 * 65_536 + 17);
    assert_eq!(list, expected);

    let (number, list) = model::list(Order::Steal, &image, &[7; 190]);
    assert_eq!(number, CARRIED_OUT + 190 * 65_536 + 17);
    assert_eq!(list[..2], [57, 56]);
    assert_eq!(list[188..], [63, 58]);
}

#[test]
fn a_refusal_leaves_the_list_and_reports_nothing() {
    let image = quay().image();
    let mut dice = Dice::new(22);
    for (order, count) in [(Order::Steal, 190), (Order::Fetch, 10)] {
        for length in [0, 1, count - 1] {
            let list: Vec<u16> = (0..length).map(|_| dice.bits() as u16).collect();
            assert_eq!(model::list(order, &image, &list), (12, list.clone()));
            let refused = model::list(order, &image[1..], &list);
            assert_eq!(refused, (13, list));
        }
        let (number, _) = model::list(order, &image, &vec![0; count]);
        assert_eq!(number >> 16 & 0xFFFF, count as u64);
        for length in LENGTHS {
            let older = model::list(order, &image[..length], &vec![0; count]);
            assert_eq!(older.0, number);
        }
        for other in [
            0,
            OLDER_IMAGE_BYTES - 1,
            OLDER_IMAGE_BYTES + 1,
            IMAGE_BYTES - 1,
        ] {
            let (number, _) = model::list(order, &image[..other], &[0; 200]);
            assert_eq!(number, 13);
        }
    }
}

/// Both orders are made by the same walks.
#[test]
fn both_lists_report_alike() {
    let mut dice = Dice::new(23);
    for _ in 0..100 {
        let image = any_state(&mut dice).image();
        let reports = Order::BOTH.map(|order| {
            let (number, _) = model::list(order, &image, &[0; 8_192]);
            number & 0xFFFF
        });
        assert_eq!(reports[0], reports[1]);
    }
}
