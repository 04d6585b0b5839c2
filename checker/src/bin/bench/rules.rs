//! Decisions and the steal list under the 1993 rule, beside the same under the 1989 rule.

use super::lists;
use super::{arrive, busy, measure, print_head, print_row, run_of, Case, Quay, FULL};
use checker::call::{Call, Order};
use checker::model::{Rule, State};

const RULES: [(Rule, &str); 2] = [(Rule::Of1989, "1989"), (Rule::Of1993, "1993")];

/// Prints the table of both rules.
pub fn table() {
    println!("What decides under either rule, on the same readers and pages. Of file 0 to file 7 from 100");
    println!("to 800 readers are expected, and 2 have docked at each. By the 1993 rule one file is chosen");
    println!("first, and quick walks and scans that file alone; its list sorts each file's pages and takes");
    println!("them by turns. Swift has no lists.\n");
    print_head();
    for (look_ahead, fetch_time) in [(10_240, 0), (2_000_000, 100)] {
        let quay = Quay {
            look_ahead,
            fetch_time,
            ..FULL
        };
        rows(quay);
    }
}

/// Each call under both rules, one row below the other.
fn rows(quay: Quay) {
    let ticks = format!("L {}, T {}", quay.look_ahead, quay.fetch_time);
    for (rule, year) in RULES {
        let case = Case {
            name: format!("Steal, {ticks}, {year}"),
            image: weighed(busy(quay), rule).image(),
            call: Call::Steal,
        };
        print_row(&case.name, measure(&case));
    }
    for (rule, year) in RULES {
        let name = format!("Arrive that steals, {ticks}, {year}");
        let case = arrive(name, weighed(busy(quay), rule));
        print_row(&case.name, measure(&case));
    }
    for (rule, year) in RULES {
        let state = weighed(lists::spread(quay), rule);
        let name = format!("Steal list, {} keys, {ticks}, {year}", state.cached.len());
        let [quick, the_box] = lists::measure(&name, Order::Steal, &state.image());
        let gain = quick / the_box;
        println!("| {name} | {quick:.0} | | {the_box:.0} | {gain:.2} | |");
    }
    for frames in [64, 1_024] {
        for (rule, year) in RULES {
            let mut case = run_of(Quay { frames, ..quay }, |state| weighed(state, rule));
            case.name += &format!(", {year}");
            print_row(&case.name, measure(&case));
        }
    }
}

/// The state under a rule, with expected readers.
fn weighed(mut state: State, rule: Rule) -> State {
    state.rule = rule;
    state.expected = std::array::from_fn(|file| 100 * (file as u64 + 1));
    state.attaches = [2; 8];
    state
}
