//! Shows the state that a stream of lines leads to, or that of a saved image: the
//! files with their pages and readers, and both orders with the reason for each
//! place, under the rule of 1993 with the files' weights; and when pages that are asked
//! about will be read.
//!
//!     cargo run --release --bin quay-explain < stream
//!     cargo run --release --bin quay-explain -- --page FILE,PAGE < stream
//!     cargo run --release --bin quay-explain -- --image FILE --svg FILE
//!
//! An aid outside the proofs: it runs the checker's model, not the box.

use checker::explain::Explained;
use checker::model::Page;
use std::ffi::OsString;
use std::io::{self, ErrorKind, Read, Write};
use std::path::PathBuf;
use std::process::ExitCode;

const HELP: &str = "\
usage: quay-explain [--all] [--page FILE,PAGE].. [--svg FILE] < stream
       quay-explain [--all] [--page FILE,PAGE].. [--svg FILE] --image FILE

Shows a state of the quay box: the files with their pages (cached, in fetch,
neither) in rows, and their readers; then the steal order and the fetch order,
each page with its stretch, its use time and the slot that reads it. Before them,
under the rule of 1993, stand the weights and shares of the files. The state is the
one behind the last of the lines on standard input, which are lines of the program
quay, or that of a saved image; lines are always under the rule of 1989.

  --image FILE      take the state from FILE, an image of the box or an older
                    one; read no lines
  --page FILE,PAGE  say at the end when this page will be read, and by which slot,
                    or why not; for more pages give it again
  --svg FILE        write all of it to FILE as SVG; print nothing
  --all             show every row: of an order, not its first 40, and of a file's
                    pages, also those that are alike
  --help            print this

It is an aid outside the proofs: what it shows is the checker's, not the box's.
";

/// What the arguments ask for.
#[derive(Default)]
struct Wish {
    help: bool,
    all: bool,
    svg: Option<PathBuf>,
    image: Option<PathBuf>,
    pages: Vec<Page>,
}

fn main() -> ExitCode {
    let wish = match wish(std::env::args_os().skip(1)) {
        Ok(wish) => wish,
        Err(fault) => {
            eprintln!("quay-explain: {fault}\nTry: quay-explain --help");
            return ExitCode::from(2);
        }
    };
    match fulfil(wish) {
        Ok(()) => ExitCode::SUCCESS,
        Err(fault) => {
            eprintln!("quay-explain: {fault}");
            ExitCode::FAILURE
        }
    }
}

fn wish(mut words: impl Iterator<Item = OsString>) -> Result<Wish, String> {
    let mut wish = Wish::default();
    while let Some(word) = words.next() {
        let again = match word.to_str() {
            Some("--help") => std::mem::replace(&mut wish.help, true),
            Some("--all") => std::mem::replace(&mut wish.all, true),
            Some("--svg") => wish.svg.replace(file(&word, words.next())?).is_some(),
            Some("--image") => wish.image.replace(file(&word, words.next())?).is_some(),
            Some("--page") => {
                wish.pages.push(page(&word, words.next())?);
                false
            }
            _ => return Err(format!("{word:?} is no argument of quay-explain")),
        };
        if again {
            return Err(format!("{word:?} is there twice"));
        }
    }
    Ok(wish)
}

fn file(option: &OsString, word: Option<OsString>) -> Result<PathBuf, String> {
    let file = word.filter(|word| !word.is_empty());
    let file = file.ok_or(format!("{option:?} needs the name of a file"));
    file.map(PathBuf::from)
}

/// A file and a page, each any number of 64 bits.
fn page(option: &OsString, word: Option<OsString>) -> Result<Page, String> {
    let needs = format!("{option:?} needs a file and a page, as in 0,17");
    let word = word.ok_or(needs.clone())?;
    let numbers = word.to_str().and_then(|word| word.split_once(','));
    let page = numbers.and_then(|(file, page)| {
        Some(Page {
            file: number(file)?,
            number: number(page)?,
        })
    });
    page.ok_or_else(|| format!("{needs}, and not {word:?}"))
}

/// A number of digits alone.
fn number(text: &str) -> Option<u64> {
    let digits = text.bytes().all(|byte| byte.is_ascii_digit());
    text.parse().ok().filter(|_| digits)
}

fn fulfil(wish: Wish) -> Result<(), String> {
    if wish.help {
        return print(HELP);
    }
    let mut explained = match wish.image {
        Some(file) => of_image(file)?,
        None => of_lines()?,
    };
    if wish.all {
        explained = explained.with_every_row();
    }
    let explained = explained.asked_about(&wish.pages);
    match wish.svg {
        Some(file) => std::fs::write(&file, explained.svg())
            .map_err(|error| format!("{}: {error}", file.display())),
        None => print(&explained.text()),
    }
}

fn of_image(file: PathBuf) -> Result<Explained, String> {
    let name = file.display();
    let image = std::fs::read(&file).map_err(|error| format!("{name}: {error}"))?;
    let explained = Explained::of_image(&image);
    explained.map_err(|rule| format!("{name}: no image of the box (13): {rule}"))
}

fn of_lines() -> Result<Explained, String> {
    let mut input = Vec::new();
    let read = io::stdin().lock().read_to_end(&mut input);
    read.map_err(|error| format!("standard input: {error}"))?;
    Ok(Explained::of_stream(&input))
}

/// Prints the text. A reader that has seen enough may close the pipe.
fn print(text: &str) -> Result<(), String> {
    match io::stdout().lock().write_all(text.as_bytes()) {
        Err(error) if error.kind() != ErrorKind::BrokenPipe => {
            Err(format!("standard output: {error}"))
        }
        _ => Ok(()),
    }
}
