//! The picture and the tables: what they show, and that their orders are the
//! model's.

use checker::explain::Explained;
use checker::limits::{FILES, MARKED_IMAGE_BYTES, OLDER_IMAGE_BYTES};
use checker::model::{Page, Reader, Rule, State};
use checker::random::Dice;
use checker::scene::any_state;
use std::collections::{BTreeMap, BTreeSet};
use std::io::Write;
use std::path::PathBuf;
use std::process::{Command, Output, Stdio};

/// A short stream that leads to a page of every stretch, to a tie, and to readers
/// that end before their files.
const STREAM: &[u8] = b"S,6,30,0,9,0,4,0,0,0,0,0\nA,2,0,10,0,9\nN,96\nD,2\nA,0,0,10,0,9\n\
    A,1,0,10,0,6\nR,0\nR,1\nR,0\nA,12,2,10,0,3\nP\nR,12\nR,16\nR,12";

const SHOWN: &str = "\
The quay box, explained. An aid outside the proofs.

After 14 lines; refused: line 13 (E,2), line 14 (E,7).
Frames 6, 6 taken. Look-ahead L 30, fetch time T 0. In fetch 1. Turn 0.
Slot 0 reads file 0, pace 10: page 2 of 9 read, last page 9.
Slot 1 reads file 0, pace 10: page 1 of 9 read, last page 6.
Slot 12 reads file 2, pace 10: page 0 of 4 read, last page 3, waits for page 1.

File 0, 9 pages
  |######...|
   ^1   ]1 ]0
    ^0

File 2, 4 pages
  |~...|
  ^12w
     ]12

# cached, ~ in fetch, . neither
^ the last page read, with its reader's slot, w if it waits
] the last page to be read, with its readers' slots

Steal order, 6 in all, the first is the next to be dropped
  place  file  page  list                              use time  slot  seat distance
      1     0     1  behind last: no reader needs it
      2     0     6  not seen: in no look-ahead
      3     0     5  use time: in a look-ahead               30     0
      4     0     4  use time: in a look-ahead               20     0
      5     0     2  use time: in a look-ahead               10     1              1
      6     0     3  use time: in a look-ahead               10     0              0

Fetch order, 2 in all, the first is the next to be fetched early
  place  file  page  list                              use time  slot  seat distance
      1     2     2  use time: in a look-ahead               20    12
      2     2     3  use time: in a look-ahead               30    12

The seat distance is shown where use times are equal: there it decides.
";

#[test]
fn a_short_stream_is_shown() {
    assert_eq!(Explained::of_stream(STREAM).text(), SHOWN);
}

/// Sounding 1 with page 4 in fetch: page 7 has page 6 alone on the way to it.
#[test]
fn use_times_by_pages_in_fetch_are_shown() {
    let page = |number| Page { file: 0, number };
    let (mut state, _) = State::setup(16, 40, 20, [16, 0, 0, 0, 0, 0, 0, 0]);
    state.cached = [1, 2, 3, 5, 7].map(page).into();
    state.in_fetch = [page(4)].into();
    state.readers.insert(0, Reader::running(0, 10, 3, 16));
    let explained = Explained::of(&state);
    let said =
        "A use time has T for each page on the way to it that is neither cached nor in fetch.";
    let text = explained.text();
    for shown in [
        "  |###~#.#.........|\n",
        "      4     0     7  use time: in a look-ahead               60     0\n",
        "      5     0     5  use time: in a look-ahead               20     0\n",
        "      1     0     6  use time: in a look-ahead               30     0\n",
        &format!("\n\n{said}\nThe seat distance is shown "),
    ] {
        assert!(text.contains(shown), "{shown}{text}");
    }
    assert!(explained.svg().contains(said));
    state.fetch_time = 0;
    let without = Explained::of(&state);
    assert!(!without.text().contains(said) && !without.svg().contains(said));
}

/// Three files under the rule of 1993: file 0 is awaited, all that were expected for
/// file 1 are there, and two readers of it come to pages at the same time.
fn three_files() -> State {
    let mut state = State::idle();
    state.rule = Rule::Of1993;
    (state.frames, state.look_ahead) = (9, 60);
    state.sizes[..3].copy_from_slice(&[9, 6, 12]);
    state.expected[..3].copy_from_slice(&[4, 3, 2]);
    state.attaches[..3].copy_from_slice(&[1, 3, 1]);
    for (file, numbers) in [(0, [1, 2, 3]), (1, [1, 3, 6]), (2, [1, 2, 3])] {
        let pages = numbers.map(|number| Page { file, number });
        state.cached.extend(pages);
    }
    for (slot, file, pace, position) in [(0, 0, 10, 1), (3, 1, 10, 0), (4, 1, 10, 2), (5, 2, 30, 2)]
    {
        let last = state.size(file);
        let reader = Reader::running(file, pace, position, last);
        state.readers.insert(slot, reader);
    }
    state
}

/// 39 is 3 × 9 + 1 × 12; page 1 of file 1 and page 3, and no other two of a file, are read
/// at the same time.
const WEIGHED: &str = "
Rule of 1993, frames 9, sum of weights 39: file 1 gives up the next page
  file  E  R  size  weight    share  cached  cached - share
     0  4  1     9      27   6 9/39       3         -3 9/39
     1  3  3     6       0        0       3               3  next
     2  2  1    12      12  2 30/39       3            9/39
E readers are expected in all, R have attached. Weight is (E - R, or 0) x size.
Share is frames x weight / sum of weights, or 0 where the sum is 0; nothing is rounded.

Steal order, 9 in all, the first is the next to be dropped
  place  file  page  cached  list                              use time  slot  seat distance
      1     1     6       3  use time: in a look-ahead               40     4
      2     1     3       2  use time: in a look-ahead               10     4              4
      3     1     1       1  use time: in a look-ahead               10     3              3
      4     2     2       3  behind last: no reader needs it
      5     2     1       2  behind last: no reader needs it
      6     2     3       1  use time: in a look-ahead               30     5
      7     0     1       3  behind last: no reader needs it
      8     0     3       2  use time: in a look-ahead               20     0
      9     0     2       1  use time: in a look-ahead               10     0

Fetch order, 8 in all, the first is the next to be fetched early
  place  file  page  list                              use time  slot  seat distance
      1     1     2  use time: in a look-ahead               20     3              3
      2     1     4  use time: in a look-ahead               20     4              4
";

const UNDER_1993: &str = "
In the steal order, cached is how many pages its file still has when a page's turn comes.
The seat distance is shown where use times are equal: there it decides.
In the steal order it decides between pages of one file only.
";

#[test]
fn the_rule_of_1993_is_shown() {
    let state = three_files();
    let explained = Explained::of(&state);
    let text = explained.text();
    assert!(text.contains(WEIGHED), "{text}");
    assert!(text.ends_with(UNDER_1993), "{text}");
    let svg = explained.svg();
    let notes = UNDER_1993.trim().lines();
    let words = WEIGHED
        .trim()
        .lines()
        .take(7)
        .filter(|line| !line.starts_with(' '));
    for line in words.chain(notes) {
        assert!(svg.contains(&format!(">{line}</text>\n")), "{line}");
    }
    for cell in [
        "6 9/39",
        "-3 9/39",
        "2 30/39",
        "9/39",
        "next",
        "cached - share",
    ] {
        assert_eq!(
            svg.matches(&format!(">{cell}</text>\n")).count(),
            1,
            "{cell}"
        );
    }

    let image = Kept::new("weighed-image", &state.image());
    let printed = explain(&["--image", image.name()]);
    let shown = Explained::of_image(&state.image()).unwrap().text();
    assert!(shown.contains(WEIGHED) && shown.contains("\nThe state of a saved image.\n"));
    assert!(printed.status.success() && printed.stdout == shown.as_bytes());
}

/// Under the rule of 1989 the expected readers and the attaches decide nothing, and are
/// not shown.
#[test]
fn the_rule_of_1989_is_shown_without_weights() {
    let mut state = three_files();
    state.rule = Rule::Of1989;
    let explained = Explained::of(&state);
    (state.expected, state.attaches) = ([0; 8], [0; 8]);
    let without = Explained::of(&state);
    assert_eq!(explained.text(), without.text());
    assert_eq!(explained.svg(), without.svg());
    assert!(!without.text().contains("1993") && !without.svg().contains("1993"));
}

/// The same state with a rule, expected readers and attaches of its own.
fn weighed(dice: &mut Dice, mut state: State) -> State {
    state.rule = Rule::Of1993;
    for file in 0..FILES as usize {
        state.expected[file] = dice.pick(&[0, 1, 3, 999, 1_000]);
        state.attaches[file] = dice.pick(&[0, 0, 1, 2, 65_535]);
    }
    state
}

/// What is left of a number such as "-3 9/39" when so many parts make a whole, in parts.
fn parts_of(number: &str, whole: i128) -> i128 {
    let (sign, digits) = match number.strip_prefix('-') {
        Some(digits) => (-1, digits),
        None => (1, number),
    };
    let mut parts = 0;
    for piece in digits.split(' ') {
        parts += match piece.split_once('/') {
            None => piece.parse::<i128>().unwrap() * whole,
            Some((top, bottom)) => {
                assert_eq!(bottom, whole.to_string());
                top.parse::<i128>().unwrap()
            }
        };
    }
    sign * parts
}

/// The table of the files, read back from the text: each number is the state's, the
/// fractions are exact, and the file that is next is that of the steal order's head.
#[test]
fn weights_and_shares_are_exact() {
    let mut dice = Dice::new(19);
    for nth in 0..300 {
        let state = match nth % 5 {
            0 => full_state(&mut dice),
            _ => any_state(&mut dice),
        };
        let state = weighed(&mut dice, state);
        let text = Explained::of(&state).text();
        assert!(text.lines().all(|line| line.len() <= 100), "{text}");
        let (_, table) = text.split_once("\nRule of 1993, ").unwrap();
        let (table, _) = table.split_once("\nE readers ").unwrap();
        let mut next = None;
        let mut files = Vec::new();
        for row in table.lines().skip(2) {
            let cells: Vec<&str> = row.split("  ").filter(|cell| !cell.is_empty()).collect();
            let cells: Vec<&str> = cells.iter().map(|cell| cell.trim()).collect();
            let file = cells[0].parse::<u64>().unwrap();
            check_weighed(&state, file, &cells);
            files.push(file);
            if cells.get(8) == Some(&"next") {
                assert_eq!(next.replace(file), None);
            }
        }
        let counts = state.cached_by_file();
        let shown = |&file: &u64| counts[file as usize] > 0 || state.weight(file) > 0;
        assert_eq!(files, (0..FILES).filter(shown).collect::<Vec<_>>());
        let head = state.steal_order().first().map(|page| page.file);
        assert_eq!(next, head, "{text}");
    }
}

/// The cells of a file's row, by A.6.
fn check_weighed(state: &State, file: u64, cells: &[&str]) {
    let at = file as usize;
    let sum: u64 = (0..FILES as usize)
        .map(|at| state.expected[at].saturating_sub(state.attaches[at]) * state.sizes[at])
        .sum();
    let weight = state.expected[at].saturating_sub(state.attaches[at]) * state.sizes[at];
    let cached = state.cached.iter().filter(|page| page.file == file).count();
    let whole = i128::from(sum.max(1));
    let share = i128::from(state.frames * weight);
    let numbers = [
        state.expected[at],
        state.attaches[at],
        state.sizes[at],
        weight,
    ];
    for (cell, number) in cells[1..5].iter().zip(numbers) {
        assert_eq!(*cell, number.to_string());
    }
    assert_eq!(cells[6], cached.to_string());
    assert_eq!(parts_of(cells[5], whole), share);
    assert_eq!(parts_of(cells[7], whole), cached as i128 * whole - share);
}

#[test]
fn a_state_of_1993_without_pages_is_shown() {
    let mut state = State::idle();
    state.rule = Rule::Of1993;
    let text = Explained::of(&state).text();
    let shown = "\nRule of 1993, frames 1, sum of weights 0: no page is cached\nE readers ";
    assert!(text.contains(shown), "{text}");
    assert!(text.contains("\nSteal order: no page\n"));
}

#[test]
fn an_idle_state_is_shown() {
    let text = Explained::of_stream(b"").text();
    assert!(text.contains("After 0 lines, none refused.\n"));
    assert!(text.contains("\nSteal order: no page\n\nFetch order: no page\n"));
    assert!(!text.contains("File"));
}

/// The pages of the short stream, each with what is said of it.
const ASKED: [(&str, &str); 10] = [
    ("0,1", "is behind: no reader has it before it."),
    ("0,2", "will be read in 10 ticks, by slot 1."),
    ("0,3", "will be read in 10 ticks, by slot 0."),
    (
        "0,6",
        "is not seen: some reader has it before it, but in no look-ahead.",
    ),
    ("2,1", "will be read in 10 ticks, by slot 12."),
    ("2,4", "is behind: no reader has it before it."),
    ("2,5", ": there is no such page, the file has pages 1 to 4."),
    ("0,0", ": there is no such page, the file has pages 1 to 9."),
    ("1,1", ": there is no such file."),
    (
        "18446744073709551615,18446744073709551615",
        ": there is no such file.",
    ),
];

/// What the program is to say of them, without what it says in any case.
fn asked() -> (Vec<Page>, Vec<String>) {
    let mut pages = Vec::new();
    let mut sentences = Vec::new();
    for (page, words) in ASKED {
        let Page { file, number } = page_of(page);
        let space = if words.starts_with(':') { "" } else { " " };
        sentences.push(format!("Page {number} of file {file}{space}{words}"));
        pages.push(Page { file, number });
    }
    (pages, sentences)
}

#[test]
fn pages_asked_about_are_shown() {
    let (pages, sentences) = asked();
    let explained = Explained::of_stream(STREAM).asked_about(&pages);
    let lines: Vec<String> = sentences.iter().map(|line| format!("  {line}\n")).collect();
    let shown = format!("{SHOWN}\nPages asked about\n{}", lines.concat());
    assert_eq!(explained.text(), shown);
    let svg = explained.svg();
    assert_eq!(svg.matches(">Pages asked about</text>").count(), 1);
    for sentence in sentences {
        assert!(svg.contains(&format!(">{sentence}</text>\n")), "{sentence}");
    }

    let mut arguments = Vec::new();
    for (page, _) in ASKED {
        arguments.extend(["--page", page]);
    }
    let printed = explain(&arguments);
    assert!(printed.status.success() && printed.stdout == shown.as_bytes());
    let file = Kept::new("asked.svg", b"");
    let written = explain(&[&["--svg", file.name()][..], &arguments].concat());
    assert!(written.status.success() && written.stdout.is_empty());
    assert_eq!(file.text(), svg);
}

/// One tick is no ticks; and the same page may be asked about twice.
#[test]
fn one_tick_is_shown_as_one() {
    let state = long_file();
    let image = Kept::new("asked-image", &state.image());
    let printed = explain(&["--page", "0,65", "--image", image.name(), "--page", "0,65"]);
    let said = String::from_utf8(printed.stdout).unwrap();
    let sentence = "  Page 65 of file 0 will be read in 1 tick, by slot 0.\n";
    let ending = format!("\n\nPages asked about\n{sentence}{sentence}");
    assert!(said.ends_with(&ending), "{said}");
    assert!(!Explained::of(&state)
        .asked_about(&[])
        .svg()
        .contains("asked"));
}

#[test]
fn a_page_that_is_none_gets_a_message() {
    let needs = "quay-explain: \"--page\" needs a file and a page, as in 0,17";
    let try_help = "\nTry: quay-explain --help\n";
    for word in [
        "",
        "0",
        "0,",
        ",1",
        "0,1,2",
        "0, 1",
        "+0,1",
        "0,-1",
        "a,1",
        "0;1",
        "0,18446744073709551616",
    ] {
        let output = explain(&["--page", "0,1", "--page", word]);
        assert_eq!(output.status.code(), Some(2), "{word}");
        assert!(output.stdout.is_empty());
        let said = String::from_utf8(output.stderr).unwrap();
        assert_eq!(said, format!("{needs}, and not {word:?}{try_help}"));
    }
    let output = explain(&["--page"]);
    assert_eq!(output.status.code(), Some(2));
    let said = String::from_utf8(output.stderr).unwrap();
    assert_eq!(said, format!("{needs}{try_help}"));
}

/// A file of 500 pages: pages 1 to 70 cached, page 67 in fetch instead, readers
/// before it, at the end of the first row and at the start of the second. They end
/// in rows that would be alike without them, at the file's end, or where they are.
fn long_file() -> State {
    let mut state = State::idle();
    state.frames = 100;
    state.sizes[0] = 500;
    let page = |number| Page { file: 0, number };
    state.cached = (1..=70).map(page).collect();
    state.cached.remove(&page(67));
    state.in_fetch.insert(page(67));
    for (slot, position, last) in [
        (0, 64, 140),
        (1, 0, 140),
        (2, 65, 140),
        (3, 66, 66),
        (4, 64, 64),
        (7, 0, 500),
        (15, 66, 140),
    ] {
        let mut reader = Reader::running(0, 1, position, last);
        reader.waiting = slot == 15;
        state.readers.insert(slot, reader);
    }
    state
}

/// C stands for 64 pages cached, N for 64 that are not, M for 52.
const LONG_FILE: &str = "
File 0, 500 pages
        +0      +8      +16     +24     +32     +40     +48     +56
     1 |C| 64
       ^1                                                              ^0
       ^7                                                              ^4
                                                                       ]4
    65 |##~###..........................................................| 128
        ^2
         ^3
         ^15w
         ]3
   129 |N| 192
                   ]0-2,15
   193 |N| 256
        .. 3 more rows like this one, up to page 448
   449 |M| 500
                                                           ]7

# cached, ~ in fetch, . neither
^ the last page read, with its reader's slot, w if it waits
] the last page to be read, with its readers' slots
+8 over rows: 8 pages after the first of its row
";

#[test]
fn long_files_are_in_rows() {
    let shown = LONG_FILE.replace('C', &"#".repeat(64));
    let shown = shown.replace('N', &".".repeat(64));
    let shown = shown.replace('M', &".".repeat(52));
    let explained = Explained::of(&long_file());
    assert!(explained.text().contains(&shown), "{}", explained.text());

    let rows = [(193, 256), (257, 320), (321, 384), (385, 448)].map(|(first, last)| {
        let marks = ".".repeat(last + 1 - first);
        format!("   {first} |{marks}| {last}\n")
    });
    let text = explained.with_every_row().text();
    assert!(text.contains(&rows.concat()), "{text}");
}

/// 8 files of 1,024 pages, 1,024 frames, 16 readers: all of it in use.
fn full_state(dice: &mut Dice) -> State {
    let (mut state, _) = State::setup(1_024, 2_000, 30, [1_024; 8]);
    let any_page = |dice: &mut Dice| Page::of_key(dice.below(8_192));
    while state.cached.len() < 1_024 {
        let start = any_page(dice);
        let stretch = start.number..=(start.number + dice.below(40)).min(1_024);
        let room = 1_024 - state.cached.len();
        let pages = stretch.map(|number| Page { number, ..start });
        state.cached.extend(pages.take(room));
    }
    for slot in 0..16 {
        let Page { file, number } = any_page(dice);
        let last = dice.between(number, 1_024);
        let mut reader = Reader::running(file, 10 + slot, number - 1, last);
        let next = reader.next_page();
        reader.waiting = !state.cached.contains(&next) && state.in_fetch.insert(next);
        state.readers.insert(slot, reader);
    }
    state
}

#[test]
fn a_full_state_can_be_read() {
    let mut dice = Dice::new(15);
    for _ in 0..20 {
        let state = full_state(&mut dice);
        assert_eq!(State::of_image(&state.image()).as_ref(), Ok(&state));
        let explained = Explained::of(&state);
        let text = explained.text();
        assert!(text.lines().count() < 300, "{text}");
        assert_eq!(steal_and_fetch(&text).0, state.steal_order()[..40]);
        assert!(text.contains("\n  .. and 984 more; --all shows them\n\nFetch order"));
        let svg = explained.svg();
        assert!(svg.contains(">.. and 984 more; --all shows them</text>"));

        let text = explained.clone().with_every_row().text();
        let orders = (state.steal_order(), state.fetch_order());
        assert_eq!(steal_and_fetch(&text), orders);
        assert!(!text.contains("--all"));
        assert!(!explained.with_every_row().svg().contains("--all"));
    }
}

/// An order of 40 pages is whole, of 41 one is left.
#[test]
fn an_order_is_cut_after_40_rows() {
    for (pages, rest) in [(40, None), (41, Some(1))] {
        let (mut state, _) = State::setup(100, 1, 0, [100, 0, 0, 0, 0, 0, 0, 0]);
        let page = |number| Page { file: 0, number };
        state.cached = (1..=pages).map(page).collect();
        let text = Explained::of(&state).text();
        assert_eq!(steal_and_fetch(&text).0.len(), 40);
        let words = rest.map(|rest| format!(".. and {rest} more"));
        assert_eq!(text.contains(".. and "), words.is_some());
        assert!(words.is_none_or(|words| text.contains(&words)));
    }
}

/// The picture, read back from the text: every page and every reader is where
/// the state has it, with and without rows left out.
#[test]
fn the_picture_is_the_state() {
    let mut dice = Dice::new(16);
    for nth in 0..300 {
        let state = match nth % 3 {
            0 => full_state(&mut dice),
            _ => any_state(&mut dice),
        };
        let explained = Explained::of(&state);
        for text in [explained.text(), explained.with_every_row().text()] {
            let picture = Picture::read(&text);
            assert_eq!(picture.cached, state.cached, "{text}");
            assert_eq!(picture.in_fetch, state.in_fetch, "{text}");
            let readers = state.readers.iter().map(|(slot, reader)| {
                let w = if reader.waiting { "w" } else { "" };
                (format!("{slot}{w}"), (reader.file, reader.position))
            });
            assert_eq!(picture.readers, readers.collect(), "{text}");
            let ends = state.readers.iter();
            let ends = ends.map(|(&slot, reader)| (slot, (reader.file, reader.last)));
            assert_eq!(picture.ends, ends.collect(), "{text}");
            let sizes = state
                .files()
                .into_iter()
                .map(|file| (file, state.size(file)));
            assert!(picture.sizes.into_iter().eq(sizes));
        }
    }
}

/// What the rows of a text show.
#[derive(Default)]
struct Picture {
    /// The file at hand.
    file: u64,
    /// The pages that each file has so far.
    sizes: BTreeMap<u64, u64>,
    cached: BTreeSet<Page>,
    in_fetch: BTreeSet<Page>,
    /// File and position by label.
    readers: BTreeMap<String, (u64, u64)>,
    /// File and last page by slot.
    ends: BTreeMap<u64, (u64, u64)>,
}

impl Picture {
    fn read(text: &str) -> Picture {
        let mut picture = Picture::default();
        let mut row = "";
        for line in text.lines().take_while(|line| !line.starts_with('#')) {
            let inner = line.trim_start();
            if let Some(title) = line.strip_prefix("File ") {
                picture.file = title.split(',').next().unwrap().parse().unwrap();
                picture.sizes.insert(picture.file, 0);
            } else if line.contains('|') {
                row = line;
                picture.take_row(line);
            } else if let Some(words) = inner.strip_prefix(".. ") {
                let mark = row.split('|').nth(1).unwrap().chars().next().unwrap();
                picture.take_alike(mark, words);
            } else if inner.starts_with(['^', ']']) {
                picture.take_readers(&line[row.find('|').unwrap()..]);
            }
        }
        picture
    }

    /// The marks between the bars; the first and the last page stand outside, or
    /// nothing does.
    fn take_row(&mut self, line: &str) {
        let pieces: Vec<&str> = line.split('|').collect();
        let first = self.sizes[&self.file] + 1;
        for mark in pieces[1].chars() {
            self.take(mark);
        }
        let numbers = [first, self.sizes[&self.file]].map(|number| number.to_string());
        let [before, behind] = [pieces[0].trim(), pieces[2].trim()];
        assert!(before.is_empty() && behind.is_empty() || [before, behind] == numbers);
    }

    fn take_alike(&mut self, mark: char, words: &str) {
        let pieces = words.split_once(" more rows like this one, up to page ");
        let (count, page) = pieces.unwrap();
        let left = page.parse::<u64>().unwrap() - self.sizes[&self.file];
        assert_eq!(count, left.div_ceil(64).to_string());
        for _ in 0..left {
            self.take(mark);
        }
    }

    fn take(&mut self, mark: char) {
        let size = self.sizes.get_mut(&self.file).unwrap();
        *size += 1;
        let page = Page {
            file: self.file,
            number: *size,
        };
        match mark {
            '#' => assert!(self.cached.insert(page)),
            '~' => assert!(self.in_fetch.insert(page)),
            mark => assert_eq!(mark, '.'),
        }
    }

    /// The readers below a row, in a line from the row's bar on.
    fn take_readers(&mut self, line: &str) {
        let before_row = (self.sizes[&self.file] - 1) / 64 * 64;
        for (column, sign) in line.match_indices(['^', ']']) {
            let label = line[column + 1..].split(' ').next().unwrap();
            let place = (self.file, before_row + column as u64);
            if sign == "^" {
                let other = self.readers.insert(label.to_string(), place);
                assert_eq!(other, None);
            } else {
                let slots = slots_of(label);
                self.ends.extend(slots.map(|slot| (slot, place)));
            }
        }
    }
}

/// The slots of a list such as "0,1,4-7".
fn slots_of(list: &str) -> impl Iterator<Item = u64> + '_ {
    list.split(',').flat_map(|piece| {
        let (low, high) = piece.split_once('-').unwrap_or((piece, piece));
        let number = |text: &str| text.parse::<u64>().unwrap();
        number(low)..=number(high)
    })
}

/// The pages of both tables, taken from the text, and the rows' width.
#[test]
fn tables_list_the_orders() {
    let mut dice = Dice::new(13);
    for nth in 0..300 {
        let mut state = any_state(&mut dice);
        if nth % 2 == 1 {
            state = weighed(&mut dice, state);
        }
        let text = Explained::of(&state).with_every_row().text();
        assert!(text.lines().all(|line| line.len() <= 100), "{text}");
        let orders = (state.steal_order(), state.fetch_order());
        assert_eq!(steal_and_fetch(&text), orders);
    }
}

/// The pages of the two tables of a text.
fn steal_and_fetch(text: &str) -> (Vec<Page>, Vec<Page>) {
    let (before, fetch) = text.split_once("\nFetch order").unwrap();
    let (_, steal) = before.split_once("\nSteal order").unwrap();
    (pages_of(steal), pages_of(fetch))
}

/// The rows of a table start with place, file and page.
fn pages_of(table: &str) -> Vec<Page> {
    let mut pages = Vec::new();
    for row in table.lines() {
        let mut words = row.split_whitespace().map(str::parse);
        if let (Some(Ok(place)), Some(Ok(file)), Some(Ok(number))) =
            (words.next(), words.next(), words.next())
        {
            pages.push(Page { file, number });
            assert_eq!(place, pages.len() as u64);
        }
    }
    pages
}

/// How many marks of this colour an SVG has: a run of n is a line of 14n - 1.
fn marks_of(svg: &str, colour: &str) -> usize {
    let runs = svg.lines().filter(|line| line.contains("class=\"run\""));
    let coloured = runs.filter(|line| line.contains(&format!("stroke=\"{colour}\"")));
    let lengths = coloured.map(|line| {
        let (_, behind) = line.rsplit_once('h').unwrap();
        let (length, _) = behind.split_once('"').unwrap();
        length.parse::<usize>().unwrap()
    });
    lengths.map(|length| (length + 1) / 14).sum()
}

/// Where a reader's label ends, about 7 to a character.
fn label_end(line: &str) -> usize {
    let label = line.strip_prefix("<text class=\"small\" x=\"");
    let pieces = label.and_then(|label| label.split_once('"'));
    pieces.map_or(0, |(x, behind)| {
        let (_, text) = behind.split_once('>').unwrap();
        let text = text.trim_end_matches("</text>");
        x.parse::<usize>().unwrap() + 7 * text.len()
    })
}

#[test]
fn svg_has_every_mark_and_row() {
    let mut dice = Dice::new(14);
    for nth in 0..100 {
        let mut state = match nth % 4 {
            0 => full_state(&mut dice),
            _ => any_state(&mut dice),
        };
        if nth % 8 < 4 {
            state = weighed(&mut dice, state);
        }
        let explained = Explained::of(&state).with_every_row();
        let svg = explained.svg();
        let in_legend = usize::from(!state.files().is_empty());
        let (cached, in_fetch) = (state.cached.len(), state.in_fetch.len());
        let pages = state.sizes.iter().sum::<u64>() as usize;
        assert_eq!(marks_of(&svg, "#2b6cb0"), cached + in_legend);
        assert_eq!(marks_of(&svg, "#e08a1e"), in_fetch + in_legend);
        let neither = pages - cached - in_fetch;
        assert_eq!(marks_of(&svg, "#e3e6e9"), neither + in_legend);
        assert_eq!(svg.matches("Z\"/>").count(), state.readers.len());
        let ends = state
            .readers
            .values()
            .map(|reader| (reader.file, reader.last));
        let ends = ends.collect::<BTreeSet<_>>().len();
        assert_eq!(svg.matches("class=\"end\"").count(), ends);
        assert!(svg.lines().all(|line| label_end(line) <= 1_040), "{svg}");
        let column = match state.rule {
            Rule::Of1989 => 175,
            Rule::Of1993 => 230,
        };
        let stretch = format!("class=\"plain\" x=\"{column}\"");
        assert_eq!(svg.matches(&stretch).count(), explained.steal.len());
        assert_eq!(svg.matches("<text").count(), svg.matches("</text>").count());
        assert!(svg.starts_with("<svg ") && svg.ends_with("</svg>\n"));
    }
}

/// Runs quay-explain with these arguments on the short stream.
fn explain(arguments: &[&str]) -> Output {
    let mut command = Command::new(env!("CARGO_BIN_EXE_quay-explain"));
    command.args(arguments).stdin(Stdio::piped());
    let mut child = command
        .stdout(Stdio::piped())
        .stderr(Stdio::piped())
        .spawn()
        .unwrap();
    // With bad arguments it may end before it is fed.
    let _ = child.stdin.take().unwrap().write_all(STREAM);
    child.wait_with_output().unwrap()
}

/// A file of these bytes, for as long as it is needed.
struct Kept(PathBuf);

impl Kept {
    fn new(name: &str, bytes: &[u8]) -> Kept {
        let name = format!("quay-explain-{}-{name}", std::process::id());
        let file = Kept(std::env::temp_dir().join(name));
        std::fs::write(&file.0, bytes).unwrap();
        file
    }

    fn name(&self) -> &str {
        self.0.to_str().unwrap()
    }

    fn text(&self) -> String {
        std::fs::read_to_string(&self.0).unwrap()
    }
}

impl Drop for Kept {
    fn drop(&mut self) {
        let _ = std::fs::remove_file(&self.0);
    }
}

#[test]
fn the_program_prints_the_text_or_writes_the_svg() {
    let printed = explain(&[]);
    assert!(printed.status.success() && printed.stdout == SHOWN.as_bytes());

    let file = Kept::new("lines.svg", b"");
    let written = explain(&["--svg", file.name()]);
    assert!(written.status.success() && written.stdout.is_empty());
    assert_eq!(file.text(), Explained::of_stream(STREAM).svg());

    let help = explain(&["--help"]);
    assert!(help.status.success());
    let help = String::from_utf8(help.stdout).unwrap();
    assert!(help.starts_with("usage: quay-explain ") && help.contains("outside the proofs"));
}

/// The page of an argument.
fn page_of(word: &str) -> Page {
    let (file, number) = word.split_once(',').unwrap();
    let [file, number] = [file, number].map(|text| text.parse().unwrap());
    Page { file, number }
}

/// The manual page shows what the program prints, and knows its options.
#[test]
fn the_manual_page_is_true() {
    let escapes = [("\\(aq", "'"), ("\\(ti", "~"), ("\\(ha", "^"), ("\\-", "-")];
    let mut page = include_str!("../../quay-explain.1").to_string();
    for (escape, character) in escapes {
        page = page.replace(escape, character);
    }
    let (_, example) = page.split_once("$ printf '").unwrap();
    let (lines, shown) = example.split_once("' | quay-explain\n").unwrap();
    let (shown, _) = shown.split_once(".RE\n").unwrap();
    let lines = lines.replace("\\en", "\n");
    assert_eq!(Explained::of_stream(lines.as_bytes()).text(), shown);

    let (_, example) = page.split_once(" quay-explain --page ").unwrap();
    let (pages, shown) = example.split_once(" | tail -n 5\n").unwrap();
    let (shown, _) = shown.split_once(".RE\n").unwrap();
    let pages: Vec<Page> = pages.split(" --page ").map(page_of).collect();
    let asked = Explained::of_stream(lines.as_bytes()).asked_about(&pages);
    assert_eq!(shown.lines().count(), 5);
    assert!(asked.text().ends_with(&format!("\n{shown}")), "{shown}");

    let (_, example) = page.split_once("'/^Rule of 1993/,/rounded/p'\n").unwrap();
    let (shown, _) = example.split_once(".RE\n").unwrap();
    let text = Explained::of(&three_files()).text();
    assert!(text.contains(&format!("\n\n{shown}\n")), "{shown}");

    let help = String::from_utf8(explain(&["--help"]).stdout).unwrap();
    let options = help.lines().filter_map(|line| line.strip_prefix("  --"));
    let options: Vec<&str> = options.filter_map(|line| line.split(' ').next()).collect();
    assert_eq!(options, ["image", "page", "svg", "all", "help"]);
    for option in options {
        let named = |line: &str| line.starts_with(".B") && line.contains(&format!("--{option}"));
        assert!(page.lines().any(named), "{option}");
    }
}

#[test]
fn the_program_takes_an_image() {
    let state = full_state(&mut Dice::new(17));
    let image = Kept::new("image", &state.image());
    let explained = Explained::of_image(&state.image()).unwrap();
    let text = explained.text();
    assert!(text.contains("\nThe state of a saved image.\nFrames 1024, 1024 taken."));
    let printed = explain(&["--image", image.name()]);
    assert!(printed.status.success() && printed.stdout == text.as_bytes());

    let explained = explained.with_every_row();
    let printed = explain(&["--all", "--image", image.name()]);
    assert!(printed.status.success() && printed.stdout == explained.text().as_bytes());
    let file = Kept::new("image.svg", b"");
    let written = explain(&["--svg", file.name(), "--all", "--image", image.name()]);
    assert!(written.status.success() && written.stdout.is_empty());
    assert_eq!(file.text(), explained.svg());
}

/// An older image, without marks and with 0 for the last pages of slots 0 and 15.
#[test]
fn the_program_takes_an_older_image() {
    let mut bytes = long_file().image();
    bytes.truncate(OLDER_IMAGE_BYTES);
    for slot in [0, 15] {
        bytes[28 + 8 * slot + 6..][..2].fill(0);
    }
    let image = Kept::new("older-image", &bytes);
    let text = Explained::of_image(&bytes).unwrap().text();
    assert!(text.contains(
        "\nThe state of an older image, of 2208 bytes: each mark is where its reader is.\n"
    ));
    let read = "Slot 0 reads file 0, pace 1: page 64 of 500 read, 0 since its mark, last page 500.";
    assert!(text.contains(read), "{text}");
    let printed = explain(&["--image", image.name()]);
    assert!(printed.status.success() && printed.stdout == text.as_bytes());
}

/// An image of the length before the rule: with its marks, and of 1989.
#[test]
fn the_program_takes_an_image_without_a_rule() {
    let mut state = three_files();
    state.readers.get_mut(&4).unwrap().mark = 1;
    let image = state.image();
    let older = Kept::new("marked-image", &image[..MARKED_IMAGE_BYTES]);
    let text = Explained::of_image(&image[..MARKED_IMAGE_BYTES])
        .unwrap()
        .text();
    assert!(
        text.contains("\nThe state of an older image, of 2240 bytes.\n"),
        "{text}"
    );
    assert!(text.contains("Slot 4 reads file 1, pace 10: page 2 of 6 read, 1 since its mark, "));
    assert!(!text.contains("1993"));
    let printed = explain(&["--image", older.name()]);
    assert!(printed.status.success() && printed.stdout == text.as_bytes());
    state.rule = Rule::Of1989;
    assert_eq!(steal_and_fetch(&text).0, state.steal_order());
}

/// Readers of an image show how many pages the next Measure counts, those of lines
/// do not: no line measures. All else is the same.
#[test]
fn an_image_shows_the_pages_since_the_marks() {
    let mut state = long_file();
    for (slot, mark) in [(0, 40), (2, 64), (15, 0)] {
        state.readers.get_mut(&slot).unwrap().mark = mark;
    }
    let of_image = Explained::of_image(&state.image()).unwrap();
    for (form, text) in [("text", of_image.text()), ("SVG", of_image.svg())] {
        for words in [
            "Slot 0 reads file 0, pace 1: page 64 of 500 read, 24 since its mark, last page 140.",
            "Slot 2 reads file 0, pace 1: page 65 of 500 read, 1 since its mark, last page 140.",
            "page 66 of 500 read, 66 since its mark, last page 140, waits for page 67.",
        ] {
            assert!(text.contains(words), "{form}: {text}");
        }
        assert_eq!(text.matches(" since its mark").count(), 7, "{form}: {text}");
    }
    let text = Explained::of(&state).text();
    assert!(!text.contains("mark,"));
    let marks = [24, 0, 1, 0, 0, 0, 66].map(|pages| format!(", {pages} since its mark"));
    let mut without = of_image.text();
    for words in marks {
        without = without.replacen(&words, "", 1);
    }
    let without = without.replace("The state of a saved image.\n", "");
    assert_eq!(text, without);
}

#[test]
fn an_image_that_is_none_gets_a_message_and_the_status_1() {
    let mut bytes = full_state(&mut Dice::new(18)).image();
    bytes[0] = 255;
    let image = Kept::new("bad-image", &bytes);
    let refused = explain(&["--image", image.name()]);
    assert_eq!(refused.status.code(), Some(1));
    assert!(refused.stdout.is_empty());
    let said = String::from_utf8(refused.stderr).unwrap();
    let words = "no image of the box (13): the number of frames is 1279, not 1 to 1024\n";
    assert_eq!(said, format!("quay-explain: {}: {words}", image.name()));

    bytes.pop();
    let image = Kept::new("short-image", &bytes);
    let refused = explain(&["--image", image.name()]);
    let said = String::from_utf8(refused.stderr).unwrap();
    let words =
        "no image of the box (13): 2273 bytes, not 2274, or 2240 or 2208 in an older image\n";
    assert_eq!(said, format!("quay-explain: {}: {words}", image.name()));

    let missing = explain(&["--image", "/no/such/folder/image"]);
    assert_eq!(missing.status.code(), Some(1));
    assert!(missing.stdout.is_empty());
    assert!(missing
        .stderr
        .starts_with(b"quay-explain: /no/such/folder/image: "));
}

#[test]
fn bad_arguments_get_a_message_and_the_status_2() {
    let bad: [&[&str]; 11] = [
        &["--svg"],
        &["--image"],
        &["--image", ""],
        &["--svg", "a", "b"],
        &["--all", "--all"],
        &["--svg", "a", "--svg", "b"],
        &["--image", "a", "--image", "a"],
        &["--help", "a"],
        &["file"],
        &["--SVG", "a"],
        &[""],
    ];
    for arguments in bad {
        let output = explain(arguments);
        assert_eq!(output.status.code(), Some(2), "{arguments:?}");
        assert!(output.stdout.is_empty());
        assert!(output.stderr.starts_with(b"quay-explain: "));
    }
    let unwritten = explain(&["--svg", "/no/such/folder/file.svg"]);
    assert_eq!(unwritten.status.code(), Some(1));
}
