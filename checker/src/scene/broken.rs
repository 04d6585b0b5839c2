//! Lines that are wrong in some way. Not all are: the model decides.

use crate::random::Dice;

/// Letters of no line, and the paper's in lower case.
const OTHER_LETTERS: &[u8] = b"BEFGHJKMOUVWYZsadrixptnlqc019.#/";

/// Bytes that a careless reader of lines might skip, stop at or take for
/// another.
const ODD_BYTES: &[u8] = b"\0\t\x0B\x0C\r\x1A\x1B \"'+-.;,:\x7F\x80\xA0\xC3\xE2\xFE\xFF";

/// Numbers in place of a field: at the bound, past it, past every width, with a
/// sign, with leading zeros, or no decimal number at all.
const ODD_FIELDS: [&[u8]; 22] = [
    b"",
    b"0",
    b"00",
    b"000000000000",
    b"4294967294",
    b"4294967295",
    b"4294967296",
    b"4294967297",
    b"04294967295",
    b"9999999999",
    b"18446744073709551615",
    b"18446744073709551616",
    b"18446744073709551617",
    b"340282366920938463463374607431768211456",
    b"-0",
    b"-1",
    b"+1",
    b"0x1",
    b"1e0",
    b"1.0",
    b"1_000",
    b"\xD9\xA1", // a digit, but none of ASCII
];

/// The line broken in one way.
pub fn broken_line(dice: &mut Dice, line: &[u8]) -> Vec<u8> {
    let odd = dice.pick(ODD_BYTES);
    match dice.below(16) {
        0 => Vec::new(),
        1 => with_letter(dice.pick(OTHER_LETTERS), line),
        2 => with_letter(line[0].to_ascii_lowercase(), line),
        3..=4 => with_field(dice, line, |field| [field, &[odd]].concat()),
        5..=7 => {
            let field = dice.pick(&ODD_FIELDS);
            with_field(dice, line, |_| field.to_vec())
        }
        8 => with_field(dice, line, |field| [b"0", field].concat()),
        9 => with_field(dice, line, |field| [b"\"", field, b"\""].concat()),
        10 => [line, b",0"].concat(),
        11 => without_last_field(line),
        12 => [line, &[odd]].concat(),
        13 => [&[odd], line].concat(),
        14 => with_byte(dice, line, odd),
        _ => [line, line].concat(),
    }
}

/// Any bytes but line ends, up to so many.
pub fn any_bytes(dice: &mut Dice, most: u64) -> Vec<u8> {
    let byte = |dice: &mut Dice| match dice.bits() as u8 {
        b'\n' => b',',
        byte => byte,
    };
    (0..dice.below(most + 1)).map(|_| byte(dice)).collect()
}

/// A line of exactly so many bytes: one of the paper's at its start, or one
/// field or many fields without end, or one byte over and over.
pub fn long_line(dice: &mut Dice, length: usize) -> Vec<u8> {
    let (start, filler): (&[u8], &[u8]) = match dice.below(6) {
        0 => (b"R,0", b" "),
        1 => (b"R,", b"0"),
        2 => (b"N,", b"16384"),
        3 => (b"S", b",1"),
        4 => (b"", b"\0"),
        _ => (b"T", b"\r"),
    };
    let endless = start.iter().chain(filler.iter().cycle());
    endless.take(length).copied().collect()
}

fn with_letter(letter: u8, line: &[u8]) -> Vec<u8> {
    [&[letter], &line[1..]].concat()
}

/// The line with one of its fields changed; without a field, its letter.
fn with_field(dice: &mut Dice, line: &[u8], change: impl FnOnce(&[u8]) -> Vec<u8>) -> Vec<u8> {
    let mut pieces: Vec<Vec<u8>> = line
        .split(|&byte| byte == b',')
        .map(<[u8]>::to_vec)
        .collect();
    let last = pieces.len() as u64 - 1;
    let index = dice.between(last.min(1), last) as usize;
    pieces[index] = change(&pieces[index]);
    pieces.join(&b',')
}

fn without_last_field(line: &[u8]) -> Vec<u8> {
    let comma = line.iter().rposition(|&byte| byte == b',');
    line[..comma.unwrap_or(0)].to_vec()
}

/// The line with a byte put in somewhere.
fn with_byte(dice: &mut Dice, line: &[u8], byte: u8) -> Vec<u8> {
    let at = dice.below(line.len() as u64 + 1) as usize;
    [&line[..at], &[byte], &line[at..]].concat()
}
