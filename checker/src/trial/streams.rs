//! Streams of lines, fed whole and in pieces: the program's output must be the
//! model's, byte for byte.

use super::{Outcomes, Report};
use crate::call::Call;
use crate::explain::Explained;
use crate::feed::{Cut, Feed, Program};
use crate::process::{Process, Unreadable, Unwritable};
use crate::random::Dice;
use crate::scene::{link_state, long_line, reads, Mood, Stream};
use std::str::from_utf8;

/// "S setup, A attach, D detach, R read, I arrive, X lost, P prefetch, T steal,
/// N run, L steal list, Q fetch list, C clusters", each with its answers and the
/// refusals that a line can reach: all but 12, since the program's lists are
/// long enough, and 13, since it restores no image.
pub const LINE_OUTCOMES: &Outcomes = &[
    ("S setup", &["O", "E,1"]),
    ("A attach", &["O", "E,2", "E,3", "E,4", "E,15", "E,5"]),
    ("D detach", &["O", "E,2", "E,6"]),
    ("R read", &["Z", "H", "W", "F", "E,2", "E,6", "E,7"]),
    ("I arrive", &["I", "I dropping", "E,3", "E,8", "E,9"]),
    ("X lost", &["O", "E,3", "E,8", "E,9"]),
    ("P prefetch", &["F", "U"]),
    ("T steal", &["S", "U"]),
    ("N run", &["N", "N fetching", "E,11", "E,10"]),
    ("L steal list", &["L", "L empty"]),
    ("Q fetch list", &["Q", "Q empty"]),
    ("C clusters", &["C", "C empty", "E,3"]),
    (OTHER_LINE, &["E,14", A_OF_THREE]),
];

const OTHER_LINE: &str = "other line";
const A_OF_THREE: &str = "A of three fields";

/// The most bytes of a small piece.
const SMALL: u64 = 64;

/// Lengths of lines: about the 200 bytes of the paper, and about what a program
/// may have room for.
const LENGTHS: [usize; 20] = [
    1, 199, 200, 201, 202, 255, 256, 257, 511, 512, 513, 4_095, 4_096, 4_097, 65_535, 65_536,
    65_537, 131_073, 300_000, 700_000,
];

/// So many random streams of each mood, each fed whole, without its last line
/// end, and in small pieces.
pub fn random_streams(report: &mut Report, program: Program, dice: &mut Dice, streams: u64) {
    for mood in [Mood::Sound, Mood::Broken, Mood::Mixed] {
        for _ in 0..streams {
            let mut stream = Stream::default();
            let lines = dice.between(1, 250);
            stream.go_on(dice, mood, lines);
            note_answers(report, &stream);
            let input = &stream.input;
            let unended = stream.unended();
            let most = dice.pick(&[1, 3, 8, 40, SMALL]);
            let feeds = [
                Feed::whole(input),
                Feed::whole(unended),
                Feed::small(dice, input, most, Cut::EachWrite),
                Feed::small(dice, unended, most, Cut::EachRead),
            ];
            for feed in feeds {
                hold(report, program, &stream, &feed);
            }
        }
    }
}

/// So many streams to lines that pages in fetch may decide.
pub fn on_the_link(report: &mut Report, program: Program, dice: &mut Dice, streams: u64) {
    for _ in 0..streams {
        let mut stream = Stream::default();
        stream.lead_to(&link_state(dice));
        stream.decide(dice);
        note_answers(report, &stream);
        hold(report, program, &stream, &Feed::whole(&stream.input));
    }
}

/// Short streams cut in two at every place, and byte by byte.
pub fn cut_everywhere(report: &mut Report, program: Program, dice: &mut Dice, streams: u64) {
    for _ in 0..streams {
        let stream = short_stream(dice);
        note_answers(report, &stream);
        for input in [&stream.input[..], stream.unended()] {
            for place in 1..input.len() {
                hold(report, program, &stream, &Feed::cut_at(input, place));
            }
            for cut in [Cut::EachWrite, Cut::EachRead] {
                hold(report, program, &stream, &Feed::bytes(input, cut));
            }
        }
    }
}

/// Some lines of every kind, together shorter than 400 bytes.
fn short_stream(dice: &mut Dice) -> Stream {
    let mut stream = Stream::default();
    for line in [
        "S,2,40,10,16,0,0,0,0,0,0,3",
        "A,0,0,10,0,16",
        "A,15,7,10,1,2",
    ] {
        stream.say(line);
    }
    while stream.input.len() < 150 {
        stream.say_any(dice);
    }
    stream
}

/// Nothing at all, and nothing but line ends.
pub fn nothing(report: &mut Report, program: Program) {
    let mut stream = Stream::default();
    hold(report, program, &stream, &Feed::whole(b""));
    let no_bytes = Feed {
        pieces: Vec::new(),
        cut: Cut::EachRead,
    };
    hold(report, program, &stream, &no_bytes);
    for _ in 0..100_000 {
        stream.say("");
        if stream.lines == 1 || stream.lines == 100_000 {
            hold(report, program, &stream, &Feed::whole(&stream.input));
        }
    }
}

/// Lines of every length, between lines that show that the state is kept.
pub fn long_lines(report: &mut Report, program: Program, dice: &mut Dice) {
    let mut stream = Stream::default();
    for length in LENGTHS {
        for _ in 0..2 {
            stream.say(long_line(dice, length));
            let lines = stream.lines + 10;
            stream.go_on(dice, Mood::Sound, lines);
        }
    }
    note_answers(report, &stream);
    let input = &stream.input;
    hold(report, program, &stream, &Feed::whole(input));
    for most in [5_000, 100_000] {
        let feed = Feed::small(dice, input, most, Cut::EachWrite);
        hold(report, program, &stream, &feed);
    }
    stream.say(long_line(dice, 400_000));
    hold(report, program, &stream, &Feed::whole(stream.unended()));
}

/// Lists as long as they get: every frame taken, nearly every page wanted, and
/// every other page cached.
pub fn long_lists(report: &mut Report, program: Program) {
    let mut stream = Stream::default();
    for (look_ahead, fetch_time) in [(2_000_000, 0), (2_000_000, 300), (20_000, 7)] {
        let sizes = ",1024".repeat(8);
        stream.say(format!("S,1024,{look_ahead},{fetch_time}{sizes}"));
        for slot in 0..16 {
            stream.say(format!("A,{slot},{},{},0,1024", slot % 8, 10 + slot / 3));
        }
        for line in [
            "N,2048",
            "L",
            "Q",
            "D,3",
            "D,9",
            "A,9,3,1,40,900",
            "N,25",
            "L",
            "Q",
            "C,3",
        ] {
            stream.say(line);
        }
    }
    stream.say("S,1024,2000000,0,0,1024,0,0,0,0,0,0");
    stream.say("A,5,1,1,0,1024");
    for _ in 0..1_024 {
        stream.say("P");
    }
    for page in 1..=1_024 {
        let letter = if page % 2 == 0 { 'I' } else { 'X' };
        stream.say(format!("{letter},1,{page}"));
    }
    for line in ["C,1", "L", "Q"] {
        stream.say(line);
    }
    note_answers(report, &stream);
    hold(report, program, &stream, &Feed::whole(&stream.input));
}

/// A line that lies at every place across a border at which a program may part
/// its input.
pub fn at_borders(report: &mut Report, program: Program) {
    const LINE: &str = "S,4,40,0,9,0,0,0,0,0,0,0";
    for border in [4_096, 8_192, 65_536, 131_072] {
        for before in 0..=LINE.len() + 1 {
            let mut stream = Stream::default();
            let filler = border - before;
            for _ in 0..filler % 64 {
                stream.say("");
            }
            for _ in 0..filler / 64 {
                stream.say([b'#'; 63]);
            }
            for line in [LINE, "A,0,0,10,0,9", "R,0", "I,0,1", "R,0", "L"] {
                stream.say(line);
            }
            hold(report, program, &stream, &Feed::whole(&stream.input));
        }
    }
}

/// Some megabytes in one write: reads and arrivals with free frames and with
/// steals, and a long mixed stream.
pub fn megabytes(report: &mut Report, program: Program, dice: &mut Dice) {
    let mut mixed = Stream::default();
    mixed.go_on(dice, Mood::Mixed, 20_000);
    let streams = [
        reads(1_024, 128, 100, true, 400_000),
        reads(20, 1_024, 40, false, 200_000),
        mixed,
    ];
    for stream in streams {
        note_answers(report, &stream);
        hold(report, program, &stream, &Feed::whole(&stream.input));
    }
}

/// The orders of [`Explained`] beside the program's own answers to L and Q.
pub fn explained(report: &mut Report, program: Program, dice: &mut Dice, streams: u64) {
    for _ in 0..streams {
        let mut stream = Stream::default();
        let lines = dice.between(1, 200);
        stream.go_on(dice, Mood::Sound, lines);
        stream.say("L");
        stream.say("Q");
        let Some(output) = hold(report, program, &stream, &Feed::whole(&stream.input)) else {
            continue;
        };
        let explained = Explained::of(&stream.state);
        let orders = [
            ('L', explained.steal_pages()),
            ('Q', explained.fetch_pages()),
        ];
        let shown = orders.map(|(letter, pages)| {
            let pairs = pages
                .iter()
                .map(|page| format!(",{},{}", page.file, page.number));
            format!("{letter},{}{}\n", pages.len(), pairs.collect::<String>())
        });
        report.check(output.ends_with(shown.concat().as_bytes()), || {
            format!("explain's orders are not the program's: {shown:?}")
        });
    }
}

/// A program whose input cannot be read says why, and answers what it has read
/// up to the last line end: what stands behind that may be cut off, and is no
/// last line.
pub fn unreadable(report: &mut Report, process: &Process) {
    for (why, answers) in [
        (Unreadable::Directory, ""),
        (Unreadable::Reset("T\nN,16"), "U\n"),
    ] {
        let end = process.end_unread(why);
        let good = end
            .as_ref()
            .is_ok_and(|(output, said)| output == answers && !said.is_empty());
        report.check(good, || format!("input that is {why:?}: {end:?}"));
    }
}

/// A program whose output cannot be written stops, though its input goes on,
/// and says why; or the signal that the closed pipe raises stops it.
pub fn unwritable(report: &mut Report, process: &Process) {
    for why in [
        Unwritable::Closed,
        Unwritable::ClosedSilently,
        Unwritable::Full,
    ] {
        let end = process.end_unwritten(why);
        let good = end.as_ref().is_ok_and(|(status, said)| {
            let stopped = matches!(why, Unwritable::Closed) && status.code().is_none();
            stopped || !said.is_empty()
        });
        report.check(good, || format!("output that is {why:?}: {end:?}"));
    }
}

/// Feeds the program and compares. Gives its output if it has one.
pub(super) fn hold(
    report: &mut Report,
    program: Program,
    stream: &Stream,
    feed: &Feed,
) -> Option<Vec<u8>> {
    report.count(stream.lines);
    let output = program(feed);
    let good = output.as_ref() == Ok(&stream.output);
    report.check(good, || {
        let pieces = feed.pieces.len();
        let fault = match &output {
            Ok(output) => first_difference(stream, output),
            Err(fault) => fault.clone(),
        };
        format!(
            "{} lines in {pieces} pieces, {:?}: {fault}",
            stream.lines, feed.cut
        )
    });
    output.ok()
}

/// The first line that is not answered as the model answers it.
fn first_difference(stream: &Stream, output: &[u8]) -> String {
    let lines_of = |bytes| <[u8]>::split(bytes, |&byte| byte == b'\n').collect::<Vec<_>>();
    let input = lines_of(&stream.input);
    let (expected, answers) = (lines_of(&stream.output), lines_of(output));
    let mut places = 0..expected.len().max(answers.len());
    let differs = |&at: &usize| expected.get(at) != answers.get(at);
    let first = places.find(differs).unwrap_or_default();
    format!(
        "line {}, {}, answers {}, the model {}",
        first + 1,
        shown(input.get(first)),
        shown(answers.get(first)),
        shown(expected.get(first))
    )
}

/// A line's first bytes, if there is such a line.
fn shown(line: Option<&&[u8]>) -> String {
    let Some(line) = line else {
        return "nothing".to_string();
    };
    let start = &line[..line.len().min(200)];
    format!("\"{}\" ({} bytes)", start.escape_ascii(), line.len())
}

/// Notes what each line of the stream answers.
fn note_answers(report: &mut Report, stream: &Stream) {
    let lines = stream.input.split(|&byte| byte == b'\n');
    let answers = stream.output.split(|&byte| byte == b'\n');
    for (line, answer) in lines.zip(answers).take(stream.lines as usize) {
        let answer = from_utf8(answer).expect("answers are ASCII");
        report.note(name_of(line, answer), outcome(answer));
        if is_a_of_three(line) && answer == "E,14" {
            report.note(OTHER_LINE, A_OF_THREE.to_string());
        }
    }
    for (name, case) in &stream.met {
        report.note(name, case.to_string());
    }
}

/// Whether it is an A line as it was before readers had a start and a last page.
fn is_a_of_three(line: &[u8]) -> bool {
    let whole = from_utf8(line).map(|line| format!("{line},0,1"));
    whole.is_ok_and(|line| matches!(Call::of_line(&line), Some(Call::Attach { .. })))
}

/// The name that the line has in the table.
fn name_of(line: &[u8], answer: &str) -> &'static str {
    let mut names = LINE_OUTCOMES.iter().map(|(name, _)| *name);
    let same_letter = |name: &&str| name.as_bytes().first() == line.first();
    match answer {
        "E,14" => OTHER_LINE,
        _ => names
            .find(same_letter)
            .expect("only lines of the table are answered otherwise"),
    }
}

/// An answer in the words of the table.
fn outcome(answer: &str) -> String {
    let (letter, fields) = answer.split_once(',').unwrap_or((answer, ""));
    let kind = match letter {
        "E" => return answer.to_string(),
        "I" if !fields.is_empty() => " dropping",
        "N" if !fields.starts_with("0,") => " fetching",
        "L" | "Q" | "C" if fields == "0" => " empty",
        _ => "",
    };
    format!("{letter}{kind}")
}
