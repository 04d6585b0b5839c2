//! An independent checker of the quay box.
//!
//! All of it is written from the papers alone, the scope paper (`01-scope.md`)
//! and the requests that came after it (`02-change-requests.md`), and in a style
//! of its own, so that agreement with the box means something. Sentences in
//! quotation marks are the papers'.
//!
//! * [`model`]: the paper's rules in sets of pages and sorted lists. Clarity
//!   first; this is what everything else is held to.
//! * [`quick`]: the same rules on flat arrays, the yardstick of the benchmarks.
//! * [`swift`]: the C boundary once more, tuned, the second yardstick.
//! * `ffi` (feature `box`): the box itself, through its C entries, its header, and
//!   by themselves Setup, Restore, Save, the two lists and when pages will be read.
//! * [`process`]: the program `quay` itself, as a process that gets a [`feed`].
//! * [`scene`]: random valid states, random calls, random questions and random
//!   streams of lines, from [`random`] dice.
//! * [`cases`]: what a call meets that its answer does not tell.
//! * [`trial`]: what holds an [`Entry`](call::Entry), a [`Lister`](call::Lister), a
//!   [`WhenRead`](call::WhenRead) or a [`Program`](feed::Program) to the model.
//! * [`explain`]: a state as a picture and two tables, what its files weigh, and when
//!   pages will be read, for people to read.

#![deny(unsafe_code)]
#![warn(missing_docs)]

pub mod call;
pub mod cases;
pub mod explain;
pub mod feed;
#[cfg(feature = "box")]
pub mod ffi;
pub mod layout;
pub mod limits;
pub mod model;
pub mod process;
pub mod quick;
pub mod random;
pub mod scene;
pub mod swift;
pub mod trial;
