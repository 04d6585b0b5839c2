//! The box as the paper says it.
//!
//! Pages are held in sets, orders are collected and then sorted by the paper's
//! criteria, nothing is kept from one decision to the next. Where a rule can be
//! written as its sentence, it is.

mod answer;
mod calls;
mod entry;
mod image;
mod lists;
mod older;
mod orders;
mod program;
mod questions;
mod state;
mod weights;

pub use answer::{Answer, Refusal};
pub use entry::{entry, first_image};
pub use lists::list;
pub use older::{probe, probe_setup, upgrade_image};
pub use orders::UseKey;
pub use program::{follow, respond, run_program};
pub use questions::{when_read, When};
pub use state::{Page, Reader, Rule, State};
pub use weights::Fraction;
