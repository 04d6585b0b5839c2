//! The program's lines on the flat state. The calls are quick's own; the lists,
//! L, Q and C, come from the model.

use super::{Flat, Reader, FILES, SLOTS, WORDS};
use crate::call::{Call, Settings};
use crate::layout;
use crate::limits::{setup_fits, LINE_BYTES, MOST_IN_FIELD};
use crate::model::{respond, State};
use std::io::{self, Write};

/// The most fields of any line: S has frames, L, T and eight sizes.
const MOST_FIELDS: usize = 11;

/// The refusal of "any other line".
const OTHER_LINE: u64 = 14;

/// The program: a state, and the line that has begun.
pub struct Lines {
    flat: Flat,
    /// The bytes of a line whose end has not come yet. Of one that is too long
    /// already, no more than tell that.
    begun: Vec<u8>,
    /// The answer being written.
    answer: Vec<u8>,
}

impl Default for Lines {
    /// "It starts idle".
    fn default() -> Lines {
        Lines {
            flat: Flat::empty(1, 1, 0, [0; FILES]),
            begun: Vec::new(),
            answer: Vec::new(),
        }
    }
}

impl Lines {
    /// Takes more bytes of the input and answers the lines that end in them.
    pub fn feed(&mut self, bytes: &[u8], output: &mut impl Write) -> io::Result<()> {
        let mut rest = bytes;
        while let Some(end) = rest.iter().position(|&byte| byte == b'\n') {
            let (line, behind) = (&rest[..end], &rest[end + 1..]);
            if self.begun.is_empty() {
                self.respond(line, output)?;
            } else {
                self.begin(line);
                self.end(output)?;
            }
            rest = behind;
        }
        self.begin(rest);
        Ok(())
    }

    /// Answers what stands behind the last line end: "A last line may lack its
    /// line end."
    pub fn end(&mut self, output: &mut impl Write) -> io::Result<()> {
        if self.begun.is_empty() {
            return Ok(());
        }
        let line = std::mem::take(&mut self.begun);
        self.respond(&line, output)
    }

    fn begin(&mut self, bytes: &[u8]) {
        let room = LINE_BYTES + 1 - self.begun.len();
        self.begun.extend(&bytes[..bytes.len().min(room)]);
    }

    /// Writes the answer to one line.
    fn respond(&mut self, line: &[u8], output: &mut impl Write) -> io::Result<()> {
        self.answer.clear();
        match self.obey(line) {
            Ok(Reply::Number(number)) => put_number(&mut self.answer, number),
            Ok(Reply::List(list)) => self.answer.extend(list.bytes()),
            Err(refusal) => put_fields(&mut self.answer, b'E', &[refusal]),
        }
        self.answer.push(b'\n');
        output.write_all(&self.answer)
    }

    fn obey(&mut self, line: &[u8]) -> Result<Reply, u64> {
        let mut fields = [0; MOST_FIELDS];
        let (letter, count) = parse(line, &mut fields).ok_or(OTHER_LINE)?;
        let call = match (letter, &fields[..count]) {
            (b'S', values) if count == MOST_FIELDS => {
                self.flat = Flat::setup(values).ok_or(1_u64)?;
                return Ok(Reply::Number(u64::from(b'O') << 16));
            }
            (b'L' | b'Q' | b'C', _) => {
                let (_, answer) = respond(self.flat.as_model(), line);
                return Ok(Reply::List(answer));
            }
            (b'A', &[slot, file, pace, start, last]) => Call::Attach {
                slot,
                file,
                pace,
                start,
                last,
            },
            (b'D', &[slot]) => Call::Detach { slot },
            (b'R', &[slot]) => Call::Read { slot },
            (b'I', &[file, page]) => Call::Arrive { file, page },
            (b'X', &[file, page]) => Call::Lost { file, page },
            (b'P', []) => Call::Prefetch,
            (b'T', []) => Call::Steal,
            (b'N', &[turns]) => Call::Run { turns },
            _ => return Err(OTHER_LINE),
        };
        self.flat.call(call).map(Reply::Number)
    }
}

/// What a line that is not refused answers.
enum Reply {
    /// A call's, by the number of the C boundary.
    Number(u64),
    /// A list's, as a line.
    List(String),
}

impl Flat {
    /// "a state without readers, pages or fetches", as an S line sets it: 1989, E 0.
    fn empty(frames: u32, look_ahead: u32, fetch_time: u32, sizes: [u32; FILES]) -> Flat {
        Flat {
            frames,
            turn: 0,
            look_ahead,
            fetch_time,
            sizes,
            readers: [Reader::default(); SLOTS],
            cached: [0; WORDS],
            in_fetch: [0; WORDS],
            taken: 0,
            weighted: false,
            expected: [0; FILES],
            attaches: [0; FILES],
        }
    }

    /// Nothing for "any value out of range".
    fn setup(values: &[u64]) -> Option<Flat> {
        let &[frames, look_ahead, fetch_time, ref sizes @ ..] = values else {
            return None;
        };
        let sizes = sizes.try_into().ok()?;
        let fits = setup_fits(&Settings::of_1989(frames, look_ahead, fetch_time, sizes));
        let sizes = sizes.map(|size| size as u32);
        fits.then(|| Flat::empty(frames as u32, look_ahead as u32, fetch_time as u32, sizes))
    }

    /// The same state in the model, by way of an image.
    fn as_model(&self) -> State {
        let mut image = [0; layout::END];
        self.save(&mut image);
        State::restore(&image).0
    }
}

/// The letter of a line and its fields, which are left in the list; gives their
/// count. Nothing for a line that is not of this form.
fn parse(line: &[u8], fields: &mut [u64; MOST_FIELDS]) -> Option<(u8, usize)> {
    if line.len() > LINE_BYTES {
        return None;
    }
    let (&letter, mut rest) = line.split_first()?;
    let mut count = 0;
    while let Some((&comma, behind)) = rest.split_first() {
        let field = fields.get_mut(count).filter(|_| comma == b',')?;
        (*field, rest) = number(behind)?;
        count += 1;
    }
    Some((letter, count))
}

/// The number that the bytes start with, and what stands behind it.
fn number(bytes: &[u8]) -> Option<(u64, &[u8])> {
    let is_other = |byte: &u8| !byte.is_ascii_digit();
    let length = bytes.iter().position(is_other).unwrap_or(bytes.len());
    let (digits, behind) = bytes.split_at(length);
    let leading_zero = length > 1 && digits[0] == b'0';
    if length == 0 || length > 10 || leading_zero {
        return None;
    }
    let append = |number, digit: &u8| number * 10 + u64::from(digit - b'0');
    let number = digits.iter().fold(0, append);
    (number <= MOST_IN_FIELD).then_some((number, behind))
}

/// An answer's line, from its number at the C boundary.
fn put_number(line: &mut Vec<u8>, number: u64) {
    let (high, low) = (number >> 16, number & 0xFFFF);
    if number >> 32 == 1 {
        put_fields(line, b'N', &[high & 0xFFFF, low]);
    } else if low == 0 {
        line.push(high as u8);
    } else {
        let key = low - 1;
        put_fields(line, high as u8, &[key / 1_024, key % 1_024 + 1]);
    }
}

/// A letter and fields behind it.
fn put_fields(line: &mut Vec<u8>, letter: u8, fields: &[u64]) {
    line.push(letter);
    for &field in fields {
        line.push(b',');
        put_decimal(line, field);
    }
}

fn put_decimal(line: &mut Vec<u8>, number: u64) {
    let mut digits = [0; 20];
    let (mut start, mut left) = (digits.len(), number);
    loop {
        start -= 1;
        digits[start] = b'0' + (left % 10) as u8;
        left /= 10;
        if left == 0 {
            break;
        }
    }
    line.extend_from_slice(&digits[start..]);
}
