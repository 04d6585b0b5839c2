//! The 1993 rule: the model against A.6's words, and against examples worked out by hand.

use checker::call::{Call, Settings};
use checker::limits::FILES;
use checker::model::{Page, Refusal, Rule, State};
use checker::random::Dice;
use checker::scene::any_state;

fn page(file: u64, number: u64) -> Page {
    Page { file, number }
}

/// Files 0 and 1, no reader, nobody attached yet.
fn two_files(frames: u64, sizes: [u64; 2], expected: [u64; 2], cached: &[(u64, u64)]) -> State {
    let mut state = State::idle();
    state.rule = Rule::Of1993;
    state.frames = frames;
    state.sizes[..2].copy_from_slice(&sizes);
    state.expected[..2].copy_from_slice(&expected);
    state.cached = cached
        .iter()
        .map(|&(file, number)| page(file, number))
        .collect();
    state
}

fn order_of(state: &State) -> Vec<(u64, u64)> {
    let order = state.steal_order().into_iter();
    order.map(|page| (page.file, page.number)).collect()
}

#[test]
fn examples_worked_out_by_hand() {
    let fuller = [(0, 1), (0, 2), (0, 3), (1, 8)];
    let even = [(0, 1), (0, 2), (1, 1), (1, 2)];
    // shares of 2 and 2: surpluses 1 and −1, 0 and −1, −1 and −1, −1
    let state = two_files(4, [8, 8], [1, 1], &fuller);
    assert_eq!(order_of(&state), [(0, 3), (0, 2), (1, 8), (0, 1)]);
    // a sum of 0: 3 and 1, 2 and 1, 1 and 1, 1
    let state = two_files(4, [8, 8], [0, 0], &fuller);
    assert_eq!(order_of(&state), [(0, 3), (0, 2), (1, 8), (0, 1)]);
    let state = two_files(4, [8, 8], [1, 1], &even);
    assert_eq!(order_of(&state), [(1, 2), (0, 2), (1, 1), (0, 1)]);
    // shares of 16/3 and 8/3: −10/3 and −5/3
    let state = two_files(8, [8, 4], [1, 1], &[(0, 1), (0, 2), (1, 1)]);
    assert_eq!(order_of(&state), [(1, 1), (0, 2), (0, 1)]);
}

/// "Repeating this choice, with look-aheads and use keys held as at the start", word for
/// word: each time the file is found anew, and in it the page.
fn by_definition(state: &State) -> Vec<Page> {
    let keys = state.use_keys();
    let mut left: Vec<Page> = state.cached.iter().copied().collect();
    let mut order = Vec::new();
    while !left.is_empty() {
        let counts: Vec<i128> = (0..FILES)
            .map(|file| left.iter().filter(|page| page.file == file).count() as i128)
            .collect();
        let weight = |file: usize| {
            let awaited = (state.expected[file] as i128 - state.attaches[file] as i128).max(0);
            awaited * state.sizes[file] as i128
        };
        let sum: i128 = (0..FILES as usize).map(weight).sum();
        // cached − frames × weight ÷ sum, times the sum, or times 1
        let surplus = |file: usize| match sum {
            0 => counts[file],
            _ => counts[file] * sum - state.frames as i128 * weight(file),
        };
        let mut file = None;
        for other in (0..FILES as usize).filter(|&other| counts[other] > 0) {
            if file.is_none_or(|file| surplus(other) >= surplus(file)) {
                file = Some(other);
            }
        }
        let file = file.expect("a page is left") as u64;
        let own = || left.iter().copied().filter(|page| page.file == file);
        let ahead = |page: &Page| state.is_ahead_of_some_reader(*page);
        let seen = |page: &Page| keys.contains_key(page);
        let past = own().filter(|page| !ahead(page)).max();
        let far = own().filter(|page| ahead(page) && !seen(page)).max();
        let near = own().max_by_key(|page| keys.get(page));
        let next = past.or(far).or(near).expect("a page of the file is left");
        left.retain(|&page| page != next);
        order.push(next);
    }
    order
}

#[test]
fn the_order_is_the_definition() {
    let mut dice = Dice::new(61);
    for _ in 0..1_500 {
        let mut state = any_state(&mut dice);
        state.rule = Rule::Of1993;
        if state.cached.len() < 120 {
            assert_eq!(state.steal_order(), by_definition(&state));
        }
    }
}

/// The 1989 rule looks at neither E nor R, and the fetch order at no rule.
#[test]
fn other_orders_do_not_look_at_the_weights() {
    let mut dice = Dice::new(62);
    for _ in 0..300 {
        let mut state = any_state(&mut dice);
        state.rule = Rule::Of1989;
        let plain = State {
            expected: [0; 8],
            attaches: [0; 8],
            ..state.clone()
        };
        assert_eq!(state.steal_order(), plain.steal_order());
        let fetches = state.fetch_order();
        state.rule = Rule::Of1993;
        assert_eq!(state.fetch_order(), fetches);
    }
}

/// "R counts attaches to the file and stops at 65,535", under either rule: those that
/// are carried out. Nothing else counts, and no Detach takes one back.
#[test]
fn attaches_are_counted() {
    for rule in [0, 1] {
        let plain = Settings::of_1989(2, 100, 0, [5, 0, 0, 0, 0, 0, 0, 9]);
        let settings = Settings { rule, ..plain };
        let (mut state, _) = State::setup_by_rule(&settings);
        assert_eq!(
            state.attach(0, 7, 1, 0, 9).map(|_| state.attaches[7]),
            Ok(1)
        );
        assert_eq!(state.attach(0, 7, 1, 0, 9), Err(Refusal::Taken));
        assert_eq!(state.attach(16, 7, 1, 0, 9), Err(Refusal::Slot));
        assert_eq!(state.attach(1, 6, 1, 0, 9), Err(Refusal::File));
        assert_eq!(state.attach(1, 7, 0, 0, 9), Err(Refusal::Pace));
        assert_eq!(state.attach(1, 7, 1, 0, 10), Err(Refusal::LastPage));
        state.detach(0).unwrap();
        state.run(32).unwrap();
        assert_eq!(state.attaches, [0, 0, 0, 0, 0, 0, 0, 1]);
        state.attaches[0] = 65_533;
        for count in [65_534, 65_535, 65_535, 65_535] {
            state.attach(3, 0, 1, 0, 5).unwrap();
            assert_eq!(state.attaches[0], count);
            state.detach(3).unwrap();
        }
        assert_eq!(State::restore(&state.image()), (state, Ok(())));
    }
}

/// Steal, an Arrive that drops and the list go by the state's rule. Both files have
/// their share but file 1, which has none; 1989 takes the larger page.
#[test]
fn the_calls_go_by_the_rule() {
    let cached = [(0, 7), (0, 8), (1, 1)];
    for (rule, first) in [(Rule::Of1989, page(0, 8)), (Rule::Of1993, page(1, 1))] {
        let mut state = two_files(3, [8, 8], [1, 0], &cached);
        state.rule = rule;
        state.in_fetch.insert(page(1, 5));
        let steal = state.clone().call(Call::Steal).unwrap();
        assert_eq!(steal.page(), Some(first));
        let arrive = state.clone().call(Call::Arrive { file: 1, page: 5 });
        assert_eq!(arrive.unwrap().page(), Some(first));
        let mut list = [0; 3];
        assert_eq!(state.steal_list(&mut list), Ok(3));
        assert_eq!(u64::from(list[0]), first.key());
    }
}
