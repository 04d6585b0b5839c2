//! The picture and the tables as an SVG file that needs nothing else.

use super::picture::RULER;
use super::text::strip_title;
use super::weights::{Weights, HEADS, WORDS};
use super::{alike_words, labels, Explained, Mark, PageRow, ReaderMark, Row, Shown, Sign, Strip};
use super::{ASKED, NOTE, RULED, TITLE};

const WIDTH: usize = 1_040;
const LEFT: usize = 30;
const LINE: usize = 18;

/// A mark's width and height, and from one to the next.
const MARK: usize = 13;
const STEP: usize = MARK + 1;

/// The room for a page number beside a row.
const MARGIN: usize = 40;

/// From one line of readers to the next.
const READERS: usize = 14;

/// The readers' part of the legend.
const READERS_LEGEND: &str =
    "triangle: the last page read, by slot; w: waits; bracket: the last page to be read";

/// About how wide a character is.
const CHARACTER: usize = 7;

const STYLE: &str = "text { font: 13px sans-serif; fill: #222; } \
    .title { font-size: 20px; font-weight: bold; } \
    .name { font-weight: bold; } \
    .soft { fill: #666; } \
    .number { text-anchor: end; } \
    .small { font-size: 11px; } \
    .end { fill: none; stroke: #222; stroke-width: 2; } \
    .run { stroke-width: 13; stroke-dasharray: 13 1; }";

/// The columns of a table: what stands over each, where its numbers end or, for
/// the stretch, where its words start.
const STEAL_COLUMNS: [(&str, usize); 7] = [
    ("place", 40),
    ("file", 80),
    ("page", 125),
    ("list", 145),
    ("use time", 420),
    ("slot", 460),
    ("seat distance", 560),
];
const WEIGHTED_STEAL_COLUMNS: [(&str, usize); 8] = [
    ("place", 40),
    ("file", 80),
    ("page", 125),
    ("cached", 180),
    ("list", 200),
    ("use time", 450),
    ("slot", 490),
    ("seat distance", 590),
];
const FETCH_COLUMNS: [(&str, usize); 6] = [
    ("place", 40),
    ("file", 80),
    ("page", 125),
    ("use time", 200),
    ("slot", 240),
    ("seat distance", 340),
];
const FETCH_LEFT: usize = 650;

/// Where the columns of the files' weights end.
const WEIGHTS_COLUMNS: [usize; 9] = [40, 90, 145, 190, 260, 420, 475, 640, 690];

/// What has been drawn, and how far down.
struct Sheet {
    body: String,
    y: usize,
}

/// The whole file.
pub fn svg(explained: &Explained) -> String {
    let mut sheet = Sheet {
        body: String::new(),
        y: 40,
    };
    sheet.text("title", LEFT, TITLE);
    sheet.y += LINE;
    sheet.text("soft", LEFT, NOTE);
    sheet.y += LINE / 2;
    for sentence in &explained.sentences {
        sheet.y += LINE;
        sheet.text("plain", LEFT, sentence);
    }
    for strip in &explained.strips {
        sheet.strip(strip, explained.every_row);
    }
    if !explained.strips.is_empty() {
        sheet.legend(&explained.strips);
    }
    sheet.tables(explained);
    sheet.asked(&explained.asked);
    let height = sheet.y + 2 * LINE;
    format!(
        "<svg xmlns=\"http://www.w3.org/2000/svg\" viewBox=\"0 0 {WIDTH} {height}\" \
         width=\"{WIDTH}\" height=\"{height}\" role=\"img\">\n\
         <title>{TITLE}</title>\n<desc>{NOTE}</desc>\n<style>{STYLE}</style>\n\
         <rect width=\"{WIDTH}\" height=\"{height}\" fill=\"#fff\"/>\n{}</svg>\n",
        sheet.body
    )
}

fn colour(mark: Mark) -> &'static str {
    match mark {
        Mark::Cached => "#2b6cb0",
        Mark::InFetch => "#e08a1e",
        Mark::Neither => "#e3e6e9",
    }
}

/// About how wide a reader's mark is with its label.
fn width(reader: &ReaderMark) -> usize {
    12 + CHARACTER * reader.label.len()
}

/// Where a reader's mark at this place starts with its label, which stands before
/// it where there is no room behind.
fn extent_start(x: usize, reader: &ReaderMark) -> usize {
    if x + width(reader) <= WIDTH {
        x
    } else {
        x + 12 - width(reader)
    }
}

impl Sheet {
    fn text(&mut self, class: &str, x: usize, text: &str) {
        let y = self.y;
        self.body += &format!("<text class=\"{class}\" x=\"{x}\" y=\"{y}\">{text}</text>\n");
    }

    /// So many marks alike in a row: one line, whose dashes they are.
    fn run(&mut self, x: usize, count: usize, mark: Mark) {
        let (y, width, stroke) = (self.y - 4, count * STEP - 1, colour(mark));
        self.body += &format!("<path class=\"run\" d=\"M{x} {y}h{width}\" stroke=\"{stroke}\"/>\n");
    }

    /// A file: its name, and its pages in rows. Of several rows each has its first
    /// and last page beside it.
    fn strip(&mut self, strip: &Strip, every_row: bool) {
        self.y += 2 * LINE;
        self.text("name", LEFT, &strip_title(strip));
        self.y += 6;
        if let [row] = &strip.rows[..] {
            self.row(row, LEFT);
            return;
        }
        let left = LEFT + MARGIN;
        self.y += STEP;
        for place in RULER {
            self.text("soft small", left + place * STEP, &format!("+{place}"));
        }
        for shown in strip.shown(every_row) {
            match shown {
                Shown::Row(row) => self.row_with_pages(row, left),
                Shown::Alike(count, last) => {
                    self.y += STEP + 1;
                    self.text("soft small", left, &alike_words(count, last));
                }
            }
        }
    }

    fn row_with_pages(&mut self, row: &PageRow, left: usize) {
        let (y, right) = (self.y, left + row.marks.len() * STEP);
        self.y = y + STEP + 1;
        self.text("soft small number", left - 9, &row.first.to_string());
        self.text("soft small", right + 8, &row.last().to_string());
        self.y = y;
        self.row(row, left);
    }

    fn row(&mut self, row: &PageRow, left: usize) {
        self.y += STEP + 1;
        let mut x = left;
        for run in row.marks.chunk_by(|one, next| one == next) {
            self.run(x, run.len(), run[0]);
            x += run.len() * STEP;
        }
        self.readers(row, left);
    }

    /// The readers under a row, in as few lines as they need.
    fn readers(&mut self, row: &PageRow, left: usize) {
        let mut readers: Vec<(usize, usize, &ReaderMark)> = row
            .readers
            .iter()
            .map(|reader| {
                let x = left + reader.column as usize * STEP - STEP / 2 - 4;
                (extent_start(x, reader), x, reader)
            })
            .collect();
        readers.sort_by_key(|(start, ..)| *start);
        let extents = readers
            .iter()
            .map(|(start, _, reader)| (*start, width(reader)));
        let lines = labels::rows(&extents.collect::<Vec<_>>(), CHARACTER);
        let top = self.y;
        for ((start, x, reader), line) in readers.iter().zip(&lines) {
            self.y = top + (line + 1) * READERS;
            self.reader(*x, reader, start < x);
        }
        self.y = top + lines.iter().max().map_or(0, |line| (line + 1) * READERS);
    }

    /// A triangle or a bracket under the mark of a page, and its label behind it or
    /// before.
    fn reader(&mut self, x: usize, reader: &ReaderMark, before: bool) {
        let (foot, top) = (self.y, self.y - 8);
        self.body += &match reader.sign {
            Sign::Read => format!("<path d=\"M{x} {foot}h8L{} {top}Z\"/>\n", x + 4),
            Sign::End => format!("<path class=\"end\" d=\"M{} {top}h4v8h-4\"/>\n", x + 2),
        };
        match before {
            true => self.text("small number", x - 3, &reader.label),
            false => self.text("small", x + 11, &reader.label),
        }
    }

    fn legend(&mut self, strips: &[Strip]) {
        self.y += 2 * LINE;
        let mut x = LEFT;
        for (mark, words) in [
            (Mark::Cached, "cached"),
            (Mark::InFetch, "in fetch"),
            (Mark::Neither, "neither"),
        ] {
            self.run(x, 1, mark);
            self.text("soft", x + MARK + 5, words);
            x += MARK + 24 + CHARACTER * words.len();
        }
        self.text("soft", x, READERS_LEGEND);
        if strips.iter().any(Strip::is_ruled) {
            self.y += LINE;
            self.text("soft", LEFT, RULED);
        }
    }

    /// Both tables, side by side.
    fn tables(&mut self, explained: &Explained) {
        self.y += 2 * LINE;
        let steal_columns = match &explained.weights {
            None => &STEAL_COLUMNS[..],
            Some(weights) => {
                self.weights(weights);
                &WEIGHTED_STEAL_COLUMNS[..]
            }
        };
        let top = self.y;
        let (steal, fetch) = (&explained.steal, &explained.fetch);
        self.table(explained, LEFT, "Steal order", steal_columns, steal);
        let steal_end = self.y;
        self.y = top;
        self.table(explained, FETCH_LEFT, "Fetch order", &FETCH_COLUMNS, fetch);
        self.y = self.y.max(steal_end) + LINE;
        for note in explained.notes() {
            self.y += LINE;
            self.text("soft", LEFT, note);
        }
    }

    /// The files under the rule of 1993.
    fn weights(&mut self, weights: &Weights) {
        self.text("name", LEFT, &weights.title());
        self.y += 4;
        if !weights.files.is_empty() {
            self.weights_row("soft number", &HEADS.map(str::to_string));
        }
        for file in &weights.files {
            self.weights_row("plain number", &file.cells());
        }
        for words in WORDS {
            self.y += LINE;
            self.text("soft", LEFT, words);
        }
        self.y += 2 * LINE;
    }

    fn weights_row(&mut self, class: &str, cells: &[String; 9]) {
        self.y += LINE;
        for (cell, at) in cells.iter().zip(WEIGHTS_COLUMNS) {
            if !cell.is_empty() {
                self.text(class, LEFT + at, cell);
            }
        }
    }

    /// What becomes of the pages that were asked about.
    fn asked(&mut self, sentences: &[String]) {
        if !sentences.is_empty() {
            self.y += 2 * LINE;
            self.text("name", LEFT, ASKED);
        }
        for sentence in sentences {
            self.y += LINE;
            self.text("plain", LEFT, sentence);
        }
    }

    fn table(
        &mut self,
        explained: &Explained,
        left: usize,
        name: &str,
        columns: &[(&str, usize)],
        rows: &[Row],
    ) {
        if rows.is_empty() {
            self.text("name", left, &format!("{name}: no page"));
            return;
        }
        self.text("name", left, &format!("{name}, {} in all", rows.len()));
        self.y += LINE + 4;
        for &(head, at) in columns {
            self.cell("soft", left, head, at, head);
        }
        let right = left + columns.last().map_or(0, |&(_, at)| at);
        let y = self.y + 5;
        self.body += &format!("<path d=\"M{left} {y} H{right}\" stroke=\"#999\"/>\n");
        self.y += 4;
        let (shown, rest) = explained.cut(rows);
        for row in shown {
            self.y += LINE;
            for &(head, at) in columns {
                self.cell("plain", left, head, at, &cell_text(row, head));
            }
        }
        if let Some(rest) = rest {
            self.y += LINE;
            self.text("soft", left, &rest);
        }
    }

    /// A number ends where its column does; the words of a stretch start there.
    fn cell(&mut self, class: &str, left: usize, head: &str, at: usize, text: &str) {
        let side = if head == "list" { "" } else { " number" };
        if !text.is_empty() {
            self.text(&format!("{class}{side}"), left + at, text);
        }
    }
}

/// What a row has in the column of this head.
fn cell_text(row: &Row, head: &str) -> String {
    let read = |number: fn(super::Use) -> Option<u64>| {
        let number = row.read.and_then(number);
        number.map_or(String::new(), |number| number.to_string())
    };
    match head {
        "place" => row.place.to_string(),
        "file" => row.page.file.to_string(),
        "page" => row.page.number.to_string(),
        "cached" => row
            .file_cached
            .map_or(String::new(), |cached| cached.to_string()),
        "list" => row.stretch.words().to_string(),
        "use time" => read(|read| Some(read.time)),
        "slot" => read(|read| Some(read.slot)),
        _ => read(|read| read.seat_in_tie),
    }
}
