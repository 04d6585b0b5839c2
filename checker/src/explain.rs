//! A state as a picture and two tables, and when pages will be read, for people to
//! read; under the rule of 1993 a third table, of what the files weigh.
//!
//! An aid outside the proofs: what it shows is the model's, and tests compare
//! its orders with the program's own.

mod labels;
mod picture;
mod questions;
mod svg;
mod tables;
mod text;
mod weights;

pub use picture::{Mark, PageRow, ReaderMark, Shown, Sign, Strip};
pub use tables::{Row, Stretch, Use};
pub use weights::{Weighed, Weights};

use crate::limits::{MARKED_IMAGE_BYTES, OLDER_IMAGE_BYTES};
use crate::model::{follow, Page, Rule, State};

/// What both forms say.
const TITLE: &str = "The quay box, explained";
const NOTE: &str = "An aid outside the proofs.";
const ASKED: &str = "Pages asked about";
const TIES: &str = "The seat distance is shown where use times are equal: there it decides.";

/// What both forms say of the steal order under the rule of 1993.
const LEFT: &str =
    "In the steal order, cached is how many pages its file still has when a page's turn comes.";
const IN_FILES: &str = "In the steal order it decides between pages of one file only.";

/// What both forms say of q, where it counts.
const TIMES: &str =
    "A use time has T for each page on the way to it that is neither cached nor in fetch.";

/// The ruler's part of a legend.
const RULED: &str = "+8 over rows: 8 pages after the first of its row";

/// Words for rows that are left out.
fn alike_words(count: usize, last: u64) -> String {
    format!(".. {count} more rows like this one, up to page {last}")
}

/// Refused lines that are named one by one.
const REFUSED_NAMED: usize = 6;

/// Rows of an order that are shown, if not all are asked for.
const MOST_ROWS: usize = 40;

/// A state, explained.
#[derive(Clone, Debug)]
pub struct Explained {
    /// Sentences about the state as a whole.
    pub sentences: Vec<String>,
    /// The files that have pages.
    pub strips: Vec<Strip>,
    /// The steal order.
    pub steal: Vec<Row>,
    /// The fetch order.
    pub fetch: Vec<Row>,
    /// What the files weigh, under the rule of 1993.
    pub weights: Option<Weights>,
    /// Whether every row is shown, of the files and of the orders.
    pub every_row: bool,
    /// When the pages will be read that were asked about, a sentence for each.
    pub asked: Vec<String>,
    state: State,
}

impl Explained {
    /// Explains a state. Marks are left out: no line measures.
    pub fn of(state: &State) -> Explained {
        Explained::shown(state, false)
    }

    fn shown(state: &State, with_marks: bool) -> Explained {
        let mut sentences = vec![format!(
            "Frames {}, {} taken. Look-ahead L {}, fetch time T {}. In fetch {}. Turn {}.",
            state.frames,
            state.cached.len(),
            state.look_ahead,
            state.fetch_time,
            state.in_fetch.len(),
            state.turn
        )];
        sentences.extend(
            state
                .readers
                .keys()
                .map(|&slot| reader_sentence(state, slot, with_marks)),
        );
        Explained {
            sentences,
            strips: picture::strips(state),
            steal: tables::steal_rows(state),
            fetch: tables::fetch_rows(state),
            weights: (state.rule == Rule::Of1993).then(|| Weights::of(state)),
            every_row: false,
            asked: Vec::new(),
            state: state.clone(),
        }
    }

    /// Explains the state that a stream of lines leads to.
    pub fn of_stream(input: &[u8]) -> Explained {
        let (state, answers) = follow(input);
        let mut explained = Explained::of(&state);
        explained.sentences.insert(0, stream_sentence(&answers));
        explained
    }

    /// Explains the state of a saved image with its marks, or says why Restore
    /// refuses it.
    pub fn of_image(image: &[u8]) -> Result<Explained, String> {
        let state = State::of_image(image)?;
        let mut explained = Explained::shown(&state, true);
        let sentence = match image.len() {
            OLDER_IMAGE_BYTES => format!(
                "The state of an older image, of {OLDER_IMAGE_BYTES} bytes: \
                 each mark is where its reader is."
            ),
            MARKED_IMAGE_BYTES => {
                format!("The state of an older image, of {MARKED_IMAGE_BYTES} bytes.")
            }
            _ => "The state of a saved image.".to_string(),
        };
        explained.sentences.insert(0, sentence);
        Ok(explained)
    }

    /// The same with every row shown.
    pub fn with_every_row(self) -> Explained {
        Explained {
            every_row: true,
            ..self
        }
    }

    /// The same with these pages asked about, which may be any numbers.
    pub fn asked_about(self, pages: &[Page]) -> Explained {
        Explained {
            asked: questions::sentences(&self.state, pages),
            ..self
        }
    }

    /// The rows of an order that are shown, and words about the rest, if any.
    fn cut<'a>(&self, rows: &'a [Row]) -> (&'a [Row], Option<String>) {
        let most = if self.every_row {
            rows.len()
        } else {
            MOST_ROWS
        };
        let shown = rows.len().min(most);
        let rest = rows.len() - shown;
        let words = (rest > 0).then(|| format!(".. and {rest} more; --all shows them"));
        (&rows[..shown], words)
    }

    /// What is said under the orders. Without a fetch time q does not count.
    fn notes(&self) -> Vec<&'static str> {
        let mut notes = Vec::new();
        if self.state.fetch_time > 0 {
            notes.push(TIMES);
        }
        match self.state.rule {
            Rule::Of1989 => notes.push(TIES),
            Rule::Of1993 => notes.extend([LEFT, TIES, IN_FILES]),
        }
        notes
    }

    /// The pages of the steal order.
    pub fn steal_pages(&self) -> Vec<Page> {
        self.steal.iter().map(|row| row.page).collect()
    }

    /// The pages of the fetch order.
    pub fn fetch_pages(&self) -> Vec<Page> {
        self.fetch.iter().map(|row| row.page).collect()
    }

    /// As text, in rows of about 100 columns.
    pub fn text(&self) -> String {
        text::text(self)
    }

    /// As an SVG file.
    pub fn svg(&self) -> String {
        svg::svg(self)
    }
}

/// How many lines there were, and which were refused.
fn stream_sentence(answers: &[String]) -> String {
    let refused = (1..)
        .zip(answers)
        .filter(|(_, answer)| answer.starts_with('E'));
    let refused: Vec<String> = refused
        .map(|(number, answer)| format!("line {number} ({answer})"))
        .collect();
    let lines = format!("After {} lines", answers.len());
    match refused.len() {
        0 => format!("{lines}, none refused."),
        1..=REFUSED_NAMED => format!("{lines}; refused: {}.", refused.join(", ")),
        many => {
            let named = refused[..REFUSED_NAMED].join(", ");
            format!("{lines}; {many} refused, the first: {named}.")
        }
    }
}

/// What a reader does; with its mark, how many pages the next Measure counts.
fn reader_sentence(state: &State, slot: u64, with_mark: bool) -> String {
    let reader = &state.readers[&slot];
    let size = state.size(reader.file);
    let waits = if reader.waiting {
        format!(", waits for page {}", reader.position + 1)
    } else {
        String::new()
    };
    let since = match with_mark {
        true => format!(", {} since its mark", reader.since_mark()),
        false => String::new(),
    };
    format!(
        "Slot {slot} reads file {}, pace {}: page {} of {size} read{since}, last page {}{waits}.",
        reader.file, reader.pace, reader.position, reader.last
    )
}
