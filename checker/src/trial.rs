//! Trials: each holds an [`Entry`](crate::call::Entry), a
//! [`Lister`](crate::call::Lister), a [`WhenRead`](crate::call::WhenRead) or a
//! [`Program`](crate::feed::Program) to the model or to the paper, and counts in a
//! [`Report`] what passed and what failed.

mod answers;
pub mod calls;
pub mod damage;
pub mod fewest;
pub mod fields;
pub mod first;
mod hold;
pub mod lists;
pub mod named;
pub mod older;
mod options;
pub mod questions;
mod report;
pub mod rules;
pub mod soundings;
pub mod streams;
mod walks;
pub mod weights;
pub mod worked;

pub use hold::{hold, CALL_OUTCOMES};
pub use options::seed_and_rounds;
pub use report::{Outcomes, Report};

use crate::limits::{IMAGE_BYTES, MARKED_IMAGE_BYTES, OLDER_IMAGE_BYTES};

/// "The buffer must be exactly" 2,274 bytes, "else 13", and so for 2,240 and 2,208 too.
const WRONG_LENGTHS: [usize; 11] = [
    0,
    1,
    OLDER_IMAGE_BYTES - 1,
    OLDER_IMAGE_BYTES,
    OLDER_IMAGE_BYTES + 1,
    MARKED_IMAGE_BYTES - 1,
    MARKED_IMAGE_BYTES,
    MARKED_IMAGE_BYTES + 1,
    IMAGE_BYTES - 1,
    IMAGE_BYTES + 1,
    4_096,
];
