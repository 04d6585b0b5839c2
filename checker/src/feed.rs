//! An input, and the pieces in which a program gets it.

use crate::random::Dice;

/// Something that takes lines and gives its whole output, or says what went
/// wrong: the program `quay`, or what stands for it.
pub type Program<'a> = &'a dyn Fn(&Feed) -> Result<Vec<u8>, String>;

/// What a piece is.
#[derive(Clone, Copy, Debug, PartialEq, Eq)]
pub enum Cut {
    /// One write into a pipe. Reads may join pieces or part them.
    EachWrite,
    /// Exactly what one read gets. Such a piece must be short, since a read with
    /// less room would lose its end; the trials stay below 512 bytes.
    EachRead,
}

/// An input in pieces, none of them empty.
#[derive(Clone, Debug)]
pub struct Feed<'a> {
    /// The pieces, in order.
    pub pieces: Vec<&'a [u8]>,
    /// What they are.
    pub cut: Cut,
}

impl<'a> Feed<'a> {
    /// All of the input in one write.
    pub fn whole(input: &'a [u8]) -> Feed<'a> {
        Feed {
            pieces: Some(input)
                .filter(|input| !input.is_empty())
                .into_iter()
                .collect(),
            cut: Cut::EachWrite,
        }
    }

    /// Two reads, the second from this place on, which lies within the input.
    pub fn cut_at(input: &'a [u8], place: usize) -> Feed<'a> {
        let (before, behind) = input.split_at(place);
        Feed {
            pieces: vec![before, behind],
            cut: Cut::EachRead,
        }
    }

    /// A piece for each byte.
    pub fn bytes(input: &'a [u8], cut: Cut) -> Feed<'a> {
        Feed {
            pieces: input.chunks(1).collect(),
            cut,
        }
    }

    /// Pieces of 1 to so many bytes.
    pub fn small(dice: &mut Dice, input: &'a [u8], most: u64, cut: Cut) -> Feed<'a> {
        let (mut pieces, mut rest) = (Vec::new(), input);
        while !rest.is_empty() {
            let length = dice.between(1, most).min(rest.len() as u64);
            let (piece, behind) = rest.split_at(length as usize);
            pieces.push(piece);
            rest = behind;
        }
        Feed { pieces, cut }
    }
}
