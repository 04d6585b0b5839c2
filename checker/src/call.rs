//! The nine calls of the C boundary, the settings of a first image, what takes up
//! an older one, what lists an order, and what tells when pages will be read.

use crate::limits::{FILES, MOST_QUESTIONS};

/// "The server is in C and calls the box on numbers and an image buffer:
/// Attach, Detach, Read, Arrive, Lost, Prefetch, Steal, Run"; and Measure, "in a
/// C entry too but on no program line". The numbers are as they come, in range or
/// not.
#[derive(Clone, Copy, Debug, PartialEq, Eq)]
#[allow(missing_docs)] // the fields are the paper's own words
pub enum Call {
    Attach {
        slot: u64,
        file: u64,
        pace: u64,
        start: u64,
        last: u64,
    },
    Detach {
        slot: u64,
    },
    Read {
        slot: u64,
    },
    Arrive {
        file: u64,
        page: u64,
    },
    Lost {
        file: u64,
        page: u64,
    },
    Prefetch,
    Steal,
    Run {
        turns: u64,
    },
    Measure {
        slot: u64,
        interval: u64,
        blocked: u64,
    },
}

/// Something that takes calls on an image buffer: the box, or what stands for
/// it. It changes the buffer and returns the number.
pub type Entry = fn(&mut [u8], Call) -> u64;

/// What Setup takes: "frames, L, T, eight sizes", and by A.6 the rule and "the number
/// E of expected readers a file". The numbers are as they come.
#[derive(Clone, Copy, Debug, PartialEq, Eq)]
#[allow(missing_docs)] // the fields are the papers' own words
pub struct Settings {
    pub frames: u64,
    pub look_ahead: u64,
    pub fetch_time: u64,
    pub sizes: [u64; FILES as usize],
    pub rule: u64,
    pub expected: [u64; FILES as usize],
}

impl Settings {
    /// What an S line sets: "1989, E 0".
    pub fn of_1989(
        frames: u64,
        look_ahead: u64,
        fetch_time: u64,
        sizes: [u64; FILES as usize],
    ) -> Settings {
        Settings {
            frames,
            look_ahead,
            fetch_time,
            sizes,
            rule: 0,
            expected: [0; FILES as usize],
        }
    }
}

/// Something that writes a first image into a buffer: one of the header's functions,
/// or what stands for it. It changes the buffer and returns the number.
pub type First = fn(&mut [u8], &Settings) -> u64;

/// Something that does Setup of numbers, frames, L, T, eight sizes, rule and eight E,
/// and saves the state into a buffer of any length: Setup and Save themselves, or what
/// stands for them. A number that is missing is 0, further ones are not looked at. It
/// returns Setup's number + 4,294,967,296 × Save's.
pub type SetupProbe = fn(&[u64], &mut [u8]) -> u64;

/// How many numbers Setup takes.
pub const SETUP_NUMBERS: usize = 20;

/// Where the image lies that is to be made one of 2,274 bytes.
#[derive(Clone, Copy, Debug, PartialEq, Eq)]
pub enum Older<'a> {
    /// In bytes of its own.
    Apart(&'a [u8]),
    /// In the first so many bytes of the buffer itself.
    InPlace(usize),
}

/// Something that writes into a buffer the image of 2,274 bytes that an older one
/// stands for: the header's function, or what stands for it. It changes the buffer
/// and returns the number.
pub type Upgrade = fn(&mut [u8], Older) -> u64;

/// Something that restores an image of any length and saves the state into a
/// buffer of any length: Restore and Save themselves, or what stands for them. It
/// returns Restore's number + 4,294,967,296 × Save's.
pub type Probe = fn(&[u8], &mut [u8]) -> u64;

/// The two orders that go into a lent list.
#[derive(Clone, Copy, Debug, PartialEq, Eq)]
#[allow(missing_docs)] // the paper's own words
pub enum Order {
    Steal,
    Fetch,
}

impl Order {
    /// One after the other.
    pub const BOTH: [Order; 2] = [Order::Steal, Order::Fetch];

    /// The name of the call that writes its list.
    pub fn name(self) -> &'static str {
        match self {
            Order::Steal => "Steal list",
            Order::Fetch => "Fetch list",
        }
    }
}

/// Something that restores an image of any length and writes an order into a lent
/// list: the box's Steal list and Fetch list, or what stands for them. It returns
/// the refusal's number, or 4,294,967,296 + keys × 65,536 + pages tested.
pub type Lister = fn(Order, &[u8], &mut [u16]) -> u64;

/// Something that restores an image of any length and answers questions, each a file
/// and a page; an odd last number is no question. It makes a record of every answer
/// that is handed over, 0 for one that the call leaves, and writes their numbers
/// back; but an image that is refused leaves the answers. It returns the refusal's
/// number, or 4,294,967,296 + words.
pub type WhenRead = fn(&[u8], &[u64], &mut [u64]) -> u64;

/// How many questions, and how many answers, are handed over at most: one more than
/// the call takes. More are not touched.
pub const ROWS_HANDED: usize = MOST_QUESTIONS + 1;

impl Call {
    /// The call's name in the paper.
    pub fn name(self) -> &'static str {
        match self {
            Call::Attach { .. } => "Attach",
            Call::Detach { .. } => "Detach",
            Call::Read { .. } => "Read",
            Call::Arrive { .. } => "Arrive",
            Call::Lost { .. } => "Lost",
            Call::Prefetch => "Prefetch",
            Call::Steal => "Steal",
            Call::Run { .. } => "Run",
            Call::Measure { .. } => "Measure",
        }
    }

    /// The call as a line of the program; nothing for Measure, which has none. One
    /// whose numbers are above 4,294,967,295 is a line too, but not one of the
    /// paper's.
    pub fn line(self) -> Option<String> {
        Some(match self {
            Call::Attach {
                slot,
                file,
                pace,
                start,
                last,
            } => format!("A,{slot},{file},{pace},{start},{last}"),
            Call::Detach { slot } => format!("D,{slot}"),
            Call::Read { slot } => format!("R,{slot}"),
            Call::Arrive { file, page } => format!("I,{file},{page}"),
            Call::Lost { file, page } => format!("X,{file},{page}"),
            Call::Prefetch => "P".to_string(),
            Call::Steal => "T".to_string(),
            Call::Run { turns } => format!("N,{turns}"),
            Call::Measure { .. } => return None,
        })
    }

    /// The call that such a line makes; S, L, Q and C make none.
    pub fn of_line(line: &str) -> Option<Call> {
        let mut pieces = line.split(',');
        let letter = pieces.next()?;
        let fields = pieces.map(|field| field.parse().ok());
        let fields: Vec<u64> = fields.collect::<Option<_>>()?;
        Some(match (letter, fields.as_slice()) {
            ("A", &[slot, file, pace, start, last]) => Call::Attach {
                slot,
                file,
                pace,
                start,
                last,
            },
            ("D", &[slot]) => Call::Detach { slot },
            ("R", &[slot]) => Call::Read { slot },
            ("I", &[file, page]) => Call::Arrive { file, page },
            ("X", &[file, page]) => Call::Lost { file, page },
            ("P", []) => Call::Prefetch,
            ("T", []) => Call::Steal,
            ("N", &[turns]) => Call::Run { turns },
            _ => return None,
        })
    }
}
