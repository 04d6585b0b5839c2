//! Random scenes: valid states of every kind, under either rule, calls to make on them, questions to
//! ask of them, and streams of the program's lines, sound and broken.

mod broken;
mod calls;
mod questions;
mod states;
mod streams;
mod weights;

pub use broken::long_line;
pub use calls::{any_call, calls_at_bounds};
pub use questions::any_questions;
pub use states::{any_state, link_state, long_run_state, row_state};
pub use streams::{reads, Mood, Stream};
pub use weights::{weigh, weight_state};
