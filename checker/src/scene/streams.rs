//! Streams of the program's lines, with what the model answers to them.

use super::broken::{any_bytes, broken_line, long_line};
use super::calls::{any_line, any_line_at_bounds, usual_turns};
use super::states::any_state;
use crate::call::Call;
use crate::cases;
use crate::limits::{FILES, SLOTS};
use crate::model::{respond, Page, State};
use crate::random::Dice;

/// Values of a setup at and past their bounds.
#[rustfmt::skip]
const SETUP_EDGES: [u64; 13] = [
    0, 1, 2, 1_023, 1_024, 1_025, 1_999_999, 2_000_000, 2_000_001,
    65_536, 4_294_967_295, 4_294_967_296, u64::MAX,
];

/// What a stream is made of.
#[derive(Clone, Copy, Debug, PartialEq, Eq)]
pub enum Mood {
    /// Lines as a server would send them, some refused.
    Sound,
    /// Hardly a line that is right.
    Broken,
    /// Both.
    Mixed,
}

/// A stream, what the model answers, and the state that it ends in.
#[derive(Clone, Debug)]
pub struct Stream {
    /// The lines, each with its line end.
    pub input: Vec<u8>,
    /// The model's answers.
    pub output: Vec<u8>,
    /// The model's state behind the last line.
    pub state: State,
    /// How many lines there are.
    pub lines: u64,
    /// What they have met that their answers do not tell.
    pub met: Vec<(&'static str, &'static str)>,
}

impl Default for Stream {
    /// A stream without a line: the program "starts idle".
    fn default() -> Stream {
        Stream {
            input: Vec::new(),
            output: Vec::new(),
            state: State::idle(),
            lines: 0,
            met: Vec::new(),
        }
    }
}

impl Stream {
    /// Adds a line and gives the model's answer to it.
    pub fn say(&mut self, line: impl AsRef<[u8]>) -> String {
        let state = std::mem::replace(&mut self.state, State::idle());
        let on_the_link = on_the_link(&state, line.as_ref());
        let answer;
        (self.state, answer) = respond(state, line.as_ref());
        if !answer.starts_with('E') {
            self.met.extend(on_the_link);
        }
        self.input.extend(line.as_ref());
        self.input.push(b'\n');
        self.output.extend(answer.bytes());
        self.output.push(b'\n');
        self.lines += 1;
        self.note(line.as_ref(), &answer);
        answer
    }

    fn note(&mut self, line: &[u8], answer: &str) {
        if !cases::is_told(answer) {
            return;
        }
        let call = std::str::from_utf8(line).ok().and_then(Call::of_line);
        if let Some(call) = call {
            let page = named_page(answer);
            self.met.extend(cases::met(&self.state, call, answer, page));
        }
    }

    /// The input without its last line end. (A last line that is empty needs it,
    /// and so is left as it is.)
    pub fn unended(&self) -> &[u8] {
        match &self.input[..] {
            [line @ .., b'\n'] if !line.is_empty() && !line.ends_with(b"\n") => line,
            input => input,
        }
    }

    /// Goes on until there are so many lines. A stream that has none yet starts
    /// with a setup.
    pub fn go_on(&mut self, dice: &mut Dice, mood: Mood, lines: u64) {
        if self.lines == 0 {
            self.set_up(dice);
        }
        while self.lines < lines {
            let broken = match mood {
                Mood::Sound => false,
                Mood::Broken => !dice.once_in(8),
                Mood::Mixed => dice.once_in(2),
            };
            if broken {
                self.blunder(dice);
            } else {
                self.act(dice);
            }
        }
    }

    /// A valid setup, and readers attached.
    fn set_up(&mut self, dice: &mut Dice) {
        let wanted = any_state(dice);
        self.say(setup_line(&setup_values(&wanted)));
        let from_0 = dice.once_in(2);
        for (&slot, reader) in &wanted.readers {
            let start = if from_0 { 0 } else { reader.position };
            let (file, pace, last) = (reader.file, reader.pace, reader.last);
            self.say(format!("A,{slot},{file},{pace},{start},{last}"));
        }
    }

    /// Lines that lead to this state but for R, if its rule is that of 1989, E is 0 and its
    /// readers' marks are their positions: pages are read one by one and arrive, or stay
    /// in fetch, and then its readers dock. R counts all who did.
    pub fn lead_to(&mut self, wanted: &State) {
        self.say(setup_line(&setup_values(wanted)));
        self.say(format!("N,{}", wanted.turn));
        for &Page { file, number } in wanted.cached.iter().chain(&wanted.in_fetch) {
            self.say(format!("A,0,{file},1,{},{number}", number - 1));
            self.say("R,0");
            if wanted.cached.contains(&Page { file, number }) {
                self.say(format!("I,{file},{number}"));
            }
            self.say("D,0");
        }
        for (slot, reader) in &wanted.readers {
            let (file, pace, start, last) =
                (reader.file, reader.pace, reader.position, reader.last);
            self.say(format!("A,{slot},{file},{pace},{start},{last}"));
            if reader.waiting {
                self.say(format!("R,{slot}"));
            }
        }
    }

    /// Some lines that pages in fetch may decide, and once these are lost a Run.
    pub fn decide(&mut self, dice: &mut Dice) {
        for _ in 0..dice.between(3, 9) {
            let open: Vec<Page> = self.state.in_fetch.iter().copied().collect();
            match dice.below(3) {
                0 if !open.is_empty() => {
                    let Page { file, number } = dice.pick(&open);
                    self.say(format!("I,{file},{number}"));
                }
                _ => {
                    self.say(dice.pick(&["L", "Q", "P", "T"]));
                }
            }
        }
        for Page { file, number } in self.state.in_fetch.clone() {
            self.say(format!("X,{file},{number}"));
        }
        self.say(format!("N,{}", dice.between(1, 40)));
    }

    /// Some sound lines that belong together.
    fn act(&mut self, dice: &mut Dice) {
        match dice.below(16) {
            0..=5 => {
                for _ in 0..dice.between(1, 12) {
                    self.say(any_line(dice, &self.state));
                }
            }
            6..=7 => {
                for _ in 0..dice.between(1, 9) {
                    self.say("P");
                }
                self.settle(dice);
            }
            8..=10 => self.run(dice),
            11..=12 => self.read_on(dice),
            13 => self.list(dice),
            14 => {
                self.say(any_line_at_bounds(dice, &self.state));
            }
            _ if dice.once_in(4) => self.set_up(dice),
            _ => {
                self.say(odd_setup(dice, &self.state));
            }
        }
    }

    /// Every open fetch arrives, or now and then is lost.
    fn settle(&mut self, dice: &mut Dice) {
        for Page { file, number } in self.state.in_fetch.clone() {
            let letter = if dice.once_in(8) { 'X' } else { 'I' };
            self.say(format!("{letter},{file},{number}"));
        }
    }

    fn run(&mut self, dice: &mut Dice) {
        self.settle(dice);
        let turns = usual_turns(dice, &self.state);
        self.say(format!("N,{turns}"));
    }

    /// One reader reads some pages.
    fn read_on(&mut self, dice: &mut Dice) {
        let slots: Vec<u64> = self.state.readers.keys().copied().collect();
        if slots.is_empty() {
            return;
        }
        let slot = dice.pick(&slots);
        for _ in 0..dice.between(1, 10) {
            self.read_one(slot);
        }
    }

    /// A reader reads a page, which arrives first if it has to be fetched.
    fn read_one(&mut self, slot: u64) {
        let read = format!("R,{slot}");
        if self.say(&read).starts_with('F') {
            let Page { file, number } = self.state.readers[&slot].next_page();
            self.say(format!("I,{file},{number}"));
            self.say(read);
        }
    }

    fn list(&mut self, dice: &mut Dice) {
        self.say("L");
        self.say("Q");
        self.say(format!("C,{}", dice.below(FILES + 1)));
    }

    /// Any one line, sound or broken.
    pub fn say_any(&mut self, dice: &mut Dice) {
        match dice.below(6) {
            0 => self.blunder(dice),
            1 => {
                self.say(dice.pick(&["L", "Q", "C,0"]));
            }
            _ => {
                self.say(any_line(dice, &self.state));
            }
        }
    }

    /// A line broken in some way.
    fn blunder(&mut self, dice: &mut Dice) {
        let line = match dice.below(5) {
            0 => setup_line(&setup_values(&self.state)),
            1 => dice.pick(&["L", "Q", "C,0", "P", "T"]).to_string(),
            _ => any_line(dice, &self.state),
        };
        let line = match dice.below(20) {
            0 => any_bytes(dice, 250),
            1 => {
                let length = dice.between(198, 203) as usize;
                long_line(dice, length)
            }
            2 => b"A,0,0,10".to_vec(), // without a start and a last page
            _ => broken_line(dice, line.as_bytes()),
        };
        self.say(line);
    }
}

/// What pages in fetch change in the answer to a line. With T 0 they change nothing.
fn on_the_link(before: &State, line: &[u8]) -> Vec<(&'static str, &'static str)> {
    if before.fetch_time == 0 {
        return Vec::new();
    }
    let call = std::str::from_utf8(line).ok().and_then(Call::of_line);
    match call {
        Some(call) => cases::on_the_link(before, call),
        None => cases::listed_on_the_link(before, line),
    }
}

/// Reads and arrivals: sixteen readers of pace 10, two to a file, read their
/// files side by side, each page arriving when it has to be fetched. At the end
/// of the files they start over, with a fresh setup or without.
pub fn reads(frames: u64, size: u64, look_ahead: u64, afresh: bool, lines: u64) -> Stream {
    let mut values = vec![frames, look_ahead, 0];
    values.resize(3 + FILES as usize, size);
    let mut stream = Stream::default();
    stream.say(setup_line(&values));
    while stream.lines < lines {
        if afresh {
            stream.say(setup_line(&values));
        }
        for slot in stream.state.readers.clone().into_keys() {
            stream.say(format!("D,{slot}"));
        }
        for slot in 0..SLOTS {
            stream.say(format!("A,{slot},{},10,0,{size}", slot % FILES));
        }
        for turn in 0..size * SLOTS {
            stream.read_one(turn % SLOTS);
        }
    }
    stream
}

/// The page at the end of an answer, if it names one.
fn named_page(answer: &str) -> Option<Page> {
    let mut pieces = answer.split(',').skip(1).map(|field| field.parse().ok());
    let (file, number) = (pieces.next()??, pieces.next()??);
    Some(Page { file, number })
}

/// The values of a setup that gives this state's frames, L, T and sizes.
fn setup_values(state: &State) -> Vec<u64> {
    let mut values = vec![state.frames, state.look_ahead, state.fetch_time];
    values.extend(state.sizes);
    values
}

fn setup_line(values: &[u64]) -> String {
    let fields = values.iter().map(|value| format!(",{value}"));
    format!("S{}", fields.collect::<String>())
}

/// A setup with one value at or past a bound.
fn odd_setup(dice: &mut Dice, state: &State) -> String {
    let mut values = setup_values(state);
    let index = dice.below(values.len() as u64) as usize;
    values[index] = dice.pick(&SETUP_EDGES);
    setup_line(&values)
}
