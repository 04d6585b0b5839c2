//! The program `quay`: lines in, one line out for each.

use super::answer::Refusal;
use super::state::{Page, State};
use crate::limits::{FILES, FILE_PAGES, LINE_BYTES, MOST_IN_FIELD};

/// A list long enough for any answer: every page of every file.
const LIST: usize = (FILES * FILE_PAGES) as usize;

/// The program's whole output for a whole input.
pub fn run_program(input: &[u8]) -> Vec<u8> {
    let (_, answers) = follow(input);
    let lines = answers.into_iter().map(|answer| answer + "\n");
    lines.collect::<String>().into_bytes()
}

/// The state that an input leads to, and the answer to each of its lines. "It
/// starts idle". A line is what stands between line ends; "A last line may lack
/// its line end."
pub fn follow(input: &[u8]) -> (State, Vec<String>) {
    let mut lines: Vec<&[u8]> = input.split(|&byte| byte == b'\n').collect();
    if lines.last().is_some_and(|behind| behind.is_empty()) {
        lines.pop(); // nothing stands behind the last line end
    }
    let mut state = State::idle();
    let mut answers = Vec::new();
    for line in lines {
        let answer;
        (state, answer) = respond(state, line);
        answers.push(answer);
    }
    (state, answers)
}

/// One line and its answer, both without their line end.
pub fn respond(mut state: State, line: &[u8]) -> (State, String) {
    let answer = obey(&mut state, line).unwrap_or_else(|refusal| refusal.to_string());
    (state, answer)
}

/// "S setup, A attach, D detach, R read, I arrive, X lost, P prefetch, T steal,
/// N run, L steal list, Q fetch list, C clusters, fields as above. [...] 14:
/// any other line".
fn obey(state: &mut State, line: &[u8]) -> Result<String, Refusal> {
    let (letter, fields) = parse(line).ok_or(Refusal::Line)?;
    let answer = match (letter, fields.as_slice()) {
        (b'S', fields) => setup(state, fields)?,
        (b'A', &[slot, file, pace, start, last]) => {
            state.attach(slot, file, pace, start, last)?.to_string()
        }
        (b'D', &[slot]) => state.detach(slot)?.to_string(),
        (b'R', &[slot]) => state.read(slot)?.to_string(),
        (b'I', &[file, page]) => state.arrive(file, page)?.to_string(),
        (b'X', &[file, page]) => state.lost(file, page)?.to_string(),
        (b'P', []) => state.prefetch().to_string(),
        (b'T', []) => state.steal().to_string(),
        (b'N', &[turns]) => state.run(turns)?.to_string(),
        (b'L', []) => {
            let mut list = [0; LIST];
            let count = state.steal_list(&mut list)?;
            page_line('L', &list[..count])
        }
        (b'Q', []) => {
            let mut list = [0; LIST];
            let count = state.fetch_list(&mut list)?;
            page_line('Q', &list[..count])
        }
        (b'C', &[file]) => {
            let mut list = [0; LIST];
            let count = state.clusters(file, &mut list)?;
            cluster_line(count, &list[..2 * count])
        }
        _ => return Err(Refusal::Line),
    };
    Ok(answer)
}

/// S: frames, L, T and eight sizes. "after a refused S the program keeps its
/// old state".
fn setup(state: &mut State, fields: &[u64]) -> Result<String, Refusal> {
    let &[frames, look_ahead, fetch_time, ref sizes @ ..] = fields else {
        return Err(Refusal::Line);
    };
    let sizes = sizes.try_into().map_err(|_| Refusal::Line)?;
    let (fresh, answer) = State::setup(frames, look_ahead, fetch_time, sizes);
    let answer = answer?;
    *state = fresh;
    Ok(answer.to_string())
}

/// "a letter, then decimal fields parted by commas": the first byte, and what
/// the fields behind it say. Nothing for a line that is not of this form or
/// longer than 200 bytes.
fn parse(line: &[u8]) -> Option<(u8, Vec<u64>)> {
    let (&letter, behind) = line.split_first()?;
    if line.len() > LINE_BYTES {
        return None;
    }
    let mut pieces = behind.split(|&byte| byte == b',');
    if !pieces.next()?.is_empty() {
        return None; // something between the letter and its first comma
    }
    let fields = pieces.map(number).collect::<Option<Vec<u64>>>()?;
    Some((letter, fields))
}

/// A field: decimal digits, "no leading zero, each at most 4,294,967,295".
fn number(field: &[u8]) -> Option<u64> {
    let digits_only = !field.is_empty() && field.iter().all(u8::is_ascii_digit);
    let leading_zero = field.len() > 1 && field[0] == b'0';
    if !digits_only || leading_zero {
        return None;
    }
    let text = std::str::from_utf8(field).ok()?;
    text.parse().ok().filter(|&number| number <= MOST_IN_FIELD)
}

/// "L or Q with count and file,page pairs".
fn page_line(letter: char, keys: &[u16]) -> String {
    let mut line = format!("{letter},{}", keys.len());
    for &key in keys {
        let Page { file, number } = Page::of_key(key.into());
        line += &format!(",{file},{number}");
    }
    line
}

/// "C with count and low,high pairs".
fn cluster_line(count: usize, numbers: &[u16]) -> String {
    let mut line = format!("C,{count}");
    for number in numbers {
        line += &format!(",{number}");
    }
    line
}
