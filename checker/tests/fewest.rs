//! The third statement by brute force, for the model's own Run, for quick's and for swift's.

use checker::call::Call;
use checker::model::{Answer, Page, Reader, Rule, State};
use checker::random::Dice;
use checker::trial::fewest::{by_any_schedule, fewest};
use checker::trial::Report;
use checker::{model, quick, swift};

fn by_model(image: &mut [u8], call: Call) -> u64 {
    let (number, after) = model::entry(image, call);
    image.copy_from_slice(&after);
    number
}

#[test]
fn no_schedule_has_fewer_fetches() {
    for entry in [by_model, quick::entry, swift::entry] {
        let mut report = Report::default();
        let with_evictions = fewest(&mut report, entry, &mut Dice::new(7), 500);
        println!("{with_evictions} of 500 instances had evictions");
        assert_eq!(report.failed(), 0);
    }
}

/// "A user who selects 1993 has no best-schedule result". Two frames hold page 2 of file
/// 0, which is read next but one, and page 1 of file 1, which nobody reads but many are
/// expected to. Under 1993 page 1 of file 0 takes the frame of page 2.
#[test]
fn under_1993_a_run_may_fetch_more() {
    let mut state = State::idle();
    state.frames = 2;
    state.look_ahead = 100;
    state.sizes[..2].copy_from_slice(&[2, 1]);
    state.expected[1] = 5;
    state.readers.insert(0, Reader::running(0, 10, 0, 2));
    state.cached = [(0, 2), (1, 1)]
        .map(|(file, number)| Page { file, number })
        .into();
    assert_eq!(by_any_schedule(&state, 32), 1);
    for (rule, fetches) in [(Rule::Of1989, 1), (Rule::Of1993, 2)] {
        state.rule = rule;
        let ran = Ok(Answer::Ran { fetches, reads: 2 });
        assert_eq!(state.clone().run(32), ran);
        for entry in [quick::entry, swift::entry] {
            let number = entry(&mut state.image(), Call::Run { turns: 32 });
            assert_eq!(number, Answer::Ran { fetches, reads: 2 }.number());
        }
    }
}
