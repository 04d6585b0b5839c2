//! The picture and the tables as text.

use super::picture::RULER;
use super::weights::{Weighed, Weights, HEADS, WORDS};
use super::{alike_words, labels, Explained, Mark, PageRow, ReaderMark, Row, Shown, Sign, Strip};
use super::{ASKED, NOTE, RULED, TITLE};

/// The whole text.
pub fn text(explained: &Explained) -> String {
    let mut text = format!("{TITLE}. {NOTE}\n\n");
    for sentence in &explained.sentences {
        text += sentence;
        text += "\n";
    }
    for strip in &explained.strips {
        text += &strip_text(strip, explained.every_row);
    }
    if !explained.strips.is_empty() {
        text += LEGEND;
    }
    if explained.strips.iter().any(Strip::is_ruled) {
        text += &format!("{RULED}\n");
    }
    if let Some(weights) = &explained.weights {
        text += &weights_text(weights);
    }
    text += &table(explained, "Steal order", "dropped", &explained.steal);
    text += &table(explained, "Fetch order", "fetched early", &explained.fetch);
    text += &format!("\n{}\n", explained.notes().join("\n"));
    if !explained.asked.is_empty() {
        text += &format!("\n{ASKED}\n");
    }
    for sentence in &explained.asked {
        text += &format!("  {sentence}\n");
    }
    text
}

fn character(mark: Mark) -> char {
    match mark {
        Mark::Cached => '#',
        Mark::InFetch => '~',
        Mark::Neither => '.',
    }
}

const LEGEND: &str = "
# cached, ~ in fetch, . neither
^ the last page read, with its reader's slot, w if it waits
] the last page to be read, with its readers' slots
";

/// The pages between bars, with their readers below.
fn strip_text(strip: &Strip, every_row: bool) -> String {
    let title = strip_title(strip);
    if let [row] = &strip.rows[..] {
        return format!("\n{title}\n  |{}|\n{}", marks(row), reader_lines(row, 2));
    }
    let mut text = format!("\n{title}\n{}", ruler());
    for shown in strip.shown(every_row) {
        text += &match shown {
            Shown::Row(row) => {
                let (first, last, marks) = (row.first, row.last(), marks(row));
                let readers = reader_lines(row, MARGIN);
                format!("  {first:4} |{marks}| {last}\n{readers}")
            }
            Shown::Alike(count, last) => {
                format!("{:MARGIN$} {}\n", "", alike_words(count, last))
            }
        };
    }
    text
}

/// What stands before the bar of a row with its first page beside it.
const MARGIN: usize = 7;

/// How far a place of a row is from its first page.
fn ruler() -> String {
    let mut ruler = String::new();
    for place in RULER {
        let at = MARGIN + 1 + place;
        ruler = format!("{ruler:at$}+{place}");
    }
    ruler + "\n"
}

fn marks(row: &PageRow) -> String {
    row.marks.iter().copied().map(character).collect()
}

/// "File 0, 6 pages".
pub fn strip_title(strip: &Strip) -> String {
    let Strip { file, size, .. } = strip;
    let plural = if *size == 1 { "" } else { "s" };
    format!("File {file}, {size} page{plural}")
}

fn sign(reader: &ReaderMark) -> char {
    match reader.sign {
        Sign::Read => '^',
        Sign::End => ']',
    }
}

/// The readers under the marks of their pages, behind an indent.
fn reader_lines(row: &PageRow, indent: usize) -> String {
    let texts = row.readers.iter().map(|reader| {
        let label = format!("{}{}", sign(reader), reader.label);
        (indent + reader.column as usize, label)
    });
    let texts: Vec<(usize, String)> = texts.collect();
    let extents: Vec<(usize, usize)> = texts.iter().map(|(at, text)| (*at, text.len())).collect();
    let mut lines: Vec<String> = Vec::new();
    for ((at, text), row) in texts.into_iter().zip(labels::rows(&extents, 1)) {
        lines.resize(lines.len().max(row + 1), String::new());
        let line = &mut lines[row];
        *line = format!("{line:at$}{text}");
    }
    lines.into_iter().map(|line| line + "\n").collect()
}

/// The files under the rule of 1993.
fn weights_text(weights: &Weights) -> String {
    let mut text = format!("\n{}\n", weights.title());
    let rows: Vec<[String; 9]> = weights.files.iter().map(Weighed::cells).collect();
    if !rows.is_empty() {
        text += &columns(&[&[HEADS.map(str::to_string)], &rows[..]].concat());
    }
    text + &WORDS.map(|words| format!("{words}\n")).concat()
}

/// Rows of cells, each column as wide as its widest.
fn columns(rows: &[[String; 9]]) -> String {
    let mut widths = [0; 9];
    for row in rows {
        for (width, cell) in widths.iter_mut().zip(row) {
            *width = cell.len().max(*width);
        }
    }
    let line = |row: &[String; 9]| {
        let cells = row.iter().zip(widths);
        let cells = cells.map(|(cell, width)| format!("  {cell:>width$}"));
        format!("{}\n", cells.collect::<String>().trim_end())
    };
    rows.iter().map(line).collect()
}

fn table(explained: &Explained, name: &str, done: &str, rows: &[Row]) -> String {
    if rows.is_empty() {
        return format!("\n{name}: no page\n");
    }
    let count = rows.len();
    let mut table = format!("\n{name}, {count} in all, the first is the next to be {done}\n");
    let cached = rows[0].file_cached.map_or("", |_| "  cached");
    table += &format!(
        "  place  file  page{cached}  list                              use time  slot  seat distance\n"
    );
    let (shown, rest) = explained.cut(rows);
    for row in shown {
        table += &row_text(row);
    }
    if let Some(rest) = rest {
        table += &format!("  {rest}\n");
    }
    table
}

fn row_text(row: &Row) -> String {
    let (page, stretch) = (row.page, row.stretch.words());
    let cached = row.file_cached.map(|cached| format!("  {cached:6}"));
    let cached = cached.unwrap_or_default();
    let place = format!(
        "  {:5}  {:4}  {:4}{cached}",
        row.place, page.file, page.number
    );
    let Some(read) = row.read else {
        return format!("{place}  {stretch}\n");
    };
    let seat = read.seat_in_tie.map(|seat| format!("  {seat:13}"));
    let seat = seat.unwrap_or_default();
    format!(
        "{place}  {stretch:32}  {:8}  {:4}{seat}\n",
        read.time, read.slot
    )
}
