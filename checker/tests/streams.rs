//! Streams of lines: the checker's own program against the model, in this
//! process and as one of its own.

use checker::cases::{CASES, LINK_CASES, LIST_LINK_CASES};
use checker::feed::Feed;
use checker::model::{follow, run_program};
use checker::process::Process;
use checker::quick::Lines;
use checker::random::Dice;
use checker::scene::{link_state, reads, Mood, Stream};
use checker::trial::streams::LINE_OUTCOMES;
use checker::trial::{named, soundings, streams, Report};

/// Quick's lines, fed piece by piece.
fn by_quick(feed: &Feed) -> Result<Vec<u8>, String> {
    let (mut lines, mut output) = (Lines::default(), Vec::new());
    for piece in &feed.pieces {
        lines.feed(piece, &mut output).unwrap();
    }
    lines.end(&mut output).unwrap();
    Ok(output)
}

#[test]
fn streams_have_the_answers_of_the_whole() {
    let mut dice = Dice::new(9);
    for mood in [Mood::Sound, Mood::Broken, Mood::Mixed] {
        for _ in 0..40 {
            let mut stream = Stream::default();
            stream.go_on(&mut dice, mood, 150);
            assert_eq!(run_program(&stream.input), stream.output);
            assert_eq!(run_program(stream.unended()), stream.output);
            let (state, answers) = follow(&stream.input);
            assert_eq!(state, stream.state);
            assert_eq!(answers.len() as u64, stream.lines);
        }
    }
    let stream = reads(64, 100, 50, true, 10_000);
    assert!(stream.lines >= 10_000);
    assert_eq!(run_program(&stream.input), stream.output);
}

#[test]
fn lines_lead_to_a_state() {
    let mut dice = Dice::new(29);
    for _ in 0..200 {
        let wanted = link_state(&mut dice);
        let mut stream = Stream::default();
        stream.lead_to(&wanted);
        let docked = stream.state.attaches.iter().sum::<u64>();
        let pages = wanted.cached.len() + wanted.in_fetch.len();
        assert_eq!(docked as usize, pages + wanted.readers.len());
        stream.state.attaches = wanted.attaches;
        assert_eq!(stream.state, wanted);
    }
}

#[test]
fn quick_answers_as_the_model_does() {
    let (mut report, mut dice) = (Report::default(), Dice::new(10));
    for trial in named::all() {
        trial.by_program(&mut report, &by_quick);
    }
    streams::nothing(&mut report, &by_quick);
    streams::at_borders(&mut report, &by_quick);
    streams::long_lists(&mut report, &by_quick);
    streams::random_streams(&mut report, &by_quick, &mut dice, 40);
    streams::on_the_link(&mut report, &by_quick, &mut dice, 300);
    streams::cut_everywhere(&mut report, &by_quick, &mut dice, 3);
    streams::long_lines(&mut report, &by_quick, &mut dice);
    streams::explained(&mut report, &by_quick, &mut dice, 50);
    let outcomes = [LINE_OUTCOMES, CASES, LINK_CASES, LIST_LINK_CASES].concat();
    report.check_every_outcome_met(&outcomes);
    println!("{}", report.outcomes(&outcomes));
    assert_eq!(report.failed(), 0);
}

#[test]
fn the_program_lines_answers_as_the_model_does() {
    let process = Process::new(env!("CARGO_BIN_EXE_lines"));
    let program = &|feed: &Feed| process.output(feed);
    let (mut report, mut dice) = (Report::default(), Dice::new(11));
    let whole = |input: &[u8]| process.output(&Feed::whole(input)).unwrap();
    soundings::listing(&mut report, whole);
    streams::nothing(&mut report, program);
    streams::random_streams(&mut report, program, &mut dice, 3);
    streams::cut_everywhere(&mut report, program, &mut dice, 1);
    streams::long_lines(&mut report, program, &mut dice);
    streams::unreadable(&mut report, &process);
    streams::unwritable(&mut report, &process);
    assert_eq!(report.failed(), 0);
}

/// How many checks a stand-in fails that gets its feed changed, or its output.
fn failed(stand_in: impl Fn(&Feed) -> Result<Vec<u8>, String>) -> u64 {
    let (mut report, mut dice) = (Report::default(), Dice::new(12));
    streams::random_streams(&mut report, &stand_in, &mut dice, 10);
    streams::cut_everywhere(&mut report, &stand_in, &mut dice, 1);
    report.failed()
}

#[test]
fn a_line_that_ends_with_its_read_is_found() {
    let line_by_read = |feed: &Feed| {
        let mut input = Vec::new();
        for piece in &feed.pieces {
            input.extend(*piece);
            if !piece.ends_with(b"\n") {
                input.push(b'\n');
            }
        }
        Ok(run_program(&input))
    };
    assert!(failed(line_by_read) > 0);
}

#[test]
fn bytes_that_are_skipped_are_found() {
    for skipped in *b"\r\0 \"" {
        let skip = |feed: &Feed| {
            let mut input = feed.pieces.concat();
            input.retain(|&byte| byte != skipped);
            Ok(run_program(&input))
        };
        assert!(failed(skip) > 0, "{skipped}");
    }
}

#[test]
fn a_number_cut_to_32_bits_is_found() {
    let cut = |feed: &Feed| {
        let input = String::from_utf8_lossy(&feed.pieces.concat()).replace("4294967296", "0");
        Ok(run_program(input.as_bytes()))
    };
    assert!(failed(cut) > 0);
}

#[test]
fn a_program_that_cannot_be_started_or_fails_is_found() {
    for path in ["/no/such/program", "/bin/false"] {
        let process = Process::new(path);
        assert!(process.output(&Feed::whole(b"T\n")).is_err());
    }
    let mut report = Report::default();
    streams::unwritable(&mut report, &Process::new("/bin/true"));
    assert!(report.failed() > 0);
}

#[test]
fn a_program_that_says_nothing_or_hands_on_what_was_cut_off_is_found() {
    for path in ["/bin/true", "/bin/cat"] {
        let mut report = Report::default();
        streams::unreadable(&mut report, &Process::new(path));
        assert!(report.failed() > 0, "{path}");
    }
}
