//! Trials by name: sentences of the papers that random calls may miss, each as a
//! few lines with their answers. The program gets the lines, the C entries the
//! calls among them. Some are of images, of Measure or of the 1993 rule, and so for the
//! entries alone.

use super::fields::{put_two, two_in};
use super::{hold, streams, Report};
use crate::call::{Call, Entry};
use crate::feed::{Cut, Feed, Program};
use crate::layout;
use crate::limits::{MARKED_IMAGE_BYTES, OLDER_IMAGE_BYTES};
use crate::model::{respond, State};
use crate::scene::Stream;

/// A trial: lines, each with the answer that the papers give it. Between them
/// `MEASURE,slot,interval,blocked` stands for the call that has no line. `LAST,slot,page:
/// put` writes a reader's last page over the image, and `LAST,slot: page` says what
/// stands there; so do MARK and PACE, and by file EXPECTED and ATTACHES, E and R.
/// `RULE,number: put` writes the rule byte, and the filler behind it as its high byte.
pub struct Named {
    /// What it tries.
    pub name: &'static str,
    steps: String,
}

/// File 0 has 5 pages, no other file any. Slot 0 waits for page 1, which is in
/// fetch; the other slots are empty.
const WAITING: &str = "S,2,10,0,5,0,0,0,0,0,0,0: O / A,0,0,1,0,5: O / R,0: F,0,1";

/// The same file without a reader.
const FIVE: &str = "S,5,10,0,5,0,0,0,0,0,0,0: O";

/// A file of 64 pages, and a reader of pace 500 docked in it: it goes on from page
/// 10, and sees no page ahead.
const DOCKED: &str = "S,64,1,0,64,0,0,0,0,0,0,0: O / A,0,0,500,10,60: O";

/// L 40 and T 20. Page 5 of file 0 and pages 1 and 2 of file 1 are cached and take all
/// frames; slot 0 is at page 3 of file 0, at pace 10, slot 1 at the start of file 1, at
/// pace 12. Pages 1 to 3 of file 1 come at 12, 24 and 36, pages 5 and 6 of file 0 at 40
/// and 50, and at 20 and 30 if page 4 is in fetch.
const BESIDE: &str = "S,3,40,20,16,16,0,0,0,0,0,0: O / A,0,0,10,4,5: O / A,1,1,10,0,2: O / \
    N,32: N,3,3 / D,0: O / D,1: O / A,0,0,10,3,16: O / A,1,1,12,0,16: O";

/// Files 0 and 1 have 8 pages, of which 7 and 8 of file 0 and 1 of file 1 take all frames;
/// then the readers that brought them leave. The rule is that of 1993.
const WEIGHED: &str = "S,3,1,0,8,8,0,0,0,0,0,0: O / A,0,0,1,6,8: O / A,1,1,1,0,1: O / \
    N,32: N,3,3 / D,0: O / D,1: O / RULE,1: put";

/// The trials: WAITING, FIVE, DOCKED, BESIDE and WEIGHED stand for the lines above, LONG
/// for a line of 200 bytes, THREE for one with three fields for each letter.
#[rustfmt::skip]
const TABLE: [(&str, &str); 85] = [
    ("each refusal has its number",
     "WAITING / S,0,10,0,5,0,0,0,0,0,0,0: E,1 / A,16,0,1,0,5: E,2 / A,1,8,1,0,5: E,3 / \
      A,1,0,1001,0,5: E,4 / A,1,0,1,0,6: E,15 / A,0,0,1,0,5: E,5 / D,16: E,2 / D,1: E,6 / \
      R,4294967295: E,2 / R,15: E,6 / R,0: E,7 / I,1,1: E,3 / I,0,6: E,8 / I,0,2: E,9 / \
      X,8,1: E,3 / X,0,4294967295: E,8 / X,0,5: E,9 / N,1: E,10 / C,8: E,3 / C,1: E,3 / \
      X,0,1: O / N,16385: E,11"),
    // "Where several refusals apply, the one listed first for the call is given."
    ("Attach gives 2 before 3", "WAITING / A,16,8,1,0,5: E,2 / A,4294967295,1,1,0,5: E,2"),
    ("Attach gives 3 before 4", "WAITING / A,1,8,0,0,5: E,3 / A,1,1,1001,0,5: E,3"),
    ("Attach gives 4 before 5",
     "WAITING / A,0,0,0,0,5: E,4 / A,0,0,1001,0,5: E,4 / A,0,0,1000,0,5: E,5"),
    // "after 4 and before 5"
    ("Attach gives 3 before 15", "WAITING / A,1,1,1,0,0: E,3 / A,1,8,1,2,1: E,3"),
    ("Attach gives 4 before 15", "WAITING / A,1,0,0,0,0: E,4 / A,1,0,1001,6,5: E,4"),
    ("Attach gives 15 before 5",
     "WAITING / A,0,0,1,0,0: E,15 / A,0,0,1,0,6: E,15 / A,0,0,1,5,4: E,15 / A,0,0,1,5,5: E,5"),
    ("Arrive gives 3 before 8", "WAITING / I,8,0: E,3 / I,1,0: E,3"),
    ("Arrive gives 8 before 9", "WAITING / I,0,0: E,8 / I,0,6: E,8 / I,0,2: E,9"),
    ("Lost gives 3 before 8", "WAITING / X,8,0: E,3 / X,1,0: E,3"),
    ("Lost gives 8 before 9", "WAITING / X,0,0: E,8 / X,0,6: E,8 / X,0,5: E,9"),
    ("Run gives 11 before 10", "WAITING / N,16385: E,11 / N,16384: E,10 / N,0: E,10"),

    // "14: any other line", whatever else it could be refused for.
    ("14 comes before all else",
     "WAITING / S,0,10,0,05,0,0,0,0,0,0,0: E,14 / A,16,8,00,0,0: E,14 / D,016: E,14 / \
      R,016: E,14 / I,8,00: E,14 / X,8,00: E,14 / N,016385: E,14 / C,08: E,14 / R,0: E,7"),
    // "The program's A line [...] take[s] both numbers at their end"
    ("an A line has five fields",
     "WAITING / A,1,0,1: E,14 / A,1,0,1,0: E,14 / A,1,0,1,0,5,0: E,14 / A,1,0,1,0,5: O"),
    // "lines of at most 200 bytes, the line end not counted"
    ("a line of 201 bytes is one line", "T: U / LONG: E,14 / T: U / LONGT: E,14"),
    // "A last line may lack its line end."
    ("a last line lacks its end", "WAITING"),

    // "A cluster is a longest unbroken stretch of cached pages of one file."
    ("a cluster ends with its file",
     "S,4,2,0,1024,1,0,0,0,0,0,0: O / A,15,0,1,0,1024: O / N,16352: N,1022,1022 / \
      P: F,0,1023 / P: F,0,1024 / I,0,1023: I,0,1022 / I,0,1024: I,0,3 / A,0,1,1,0,1: O / \
      R,0: F,1,1 / I,1,1: I,0,2 / C,0: C,2,1,1,1023,1024 / C,1: C,1,1,1"),
    // "the answer letter's ASCII code × 65,536 + (key + 1, or 0 without a page)",
    // up to the largest key
    ("every answer has its number",
     "S,1,1,0,0,0,0,0,0,0,0,1024: O / P: U / A,15,7,1,0,1024: O / R,15: F,7,1 / I,7,1: I / \
      N,16368: N,1022,1023 / P: F,7,1024 / R,15: W,7,1024 / X,7,1024: O / R,15: F,7,1024 / \
      I,7,1024: I,7,1023 / R,15: H,7,1024 / R,15: Z / T: S,7,1024 / T: U / D,15: O"),
    // "A reader's seat distance is (slot − turn) modulo 16": at turn 1 that of
    // slots 0, 1 and 2 is 15, 0 and 1.
    ("the seat distance is slot less turn",
     "S,3,10,0,1,1,1,0,0,0,0,0: O / N,1: N,0,0 / A,0,0,10,0,1: O / A,1,1,10,0,1: O / \
      A,2,2,10,0,1: O / Q: Q,3,1,1,2,1,0,1 / P: F,1,1 / P: F,2,1 / P: F,0,1 / I,0,1: I / \
      I,1,1: I / I,2,1: I / L: L,3,0,1,2,1,1,1 / T: S,0,1 / T: S,2,1 / T: S,1,1"),
    // Lost: "the fetch is closed and its waiters run."
    ("Lost closes the fetch",
     "WAITING / A,1,0,1,0,5: O / R,1: W,0,1 / X,0,1: O / X,0,1: E,9 / N,0: N,0,0 / R,1: F,0,1 / \
      R,0: W,0,1"),
    // "every reader waiting for it runs": not one that waits for another page of
    // the file, or for the page of that number in another file
    ("an ended fetch wakes its waiters",
     "S,4,10,0,5,5,0,0,0,0,0,0: O / A,0,0,1,0,5: O / R,0: F,0,1 / I,0,1: I / R,0: H,0,1 / \
      R,0: F,0,2 / T: S,0,1 / A,1,0,1,0,5: O / R,1: F,0,1 / A,2,1,1,0,5: O / R,2: F,1,1 / \
      X,0,1: O / R,0: E,7 / R,2: E,7 / R,1: F,0,1 / I,0,1: I / R,0: E,7 / R,2: E,7 / \
      R,1: H,0,1"),
    // "neither cached nor in fetch"
    ("no page is fetched twice",
     "WAITING / Q: Q,4,0,2,0,3,0,4,0,5 / P: F,0,2 / P: F,0,3 / Q: Q,2,0,4,0,5"),
    // "the head of the steal order is dropped first. Then the page [...] is cached"
    ("Arrive steals before it caches",
     "S,1,1,0,2,0,0,0,0,0,0,0: O / A,0,0,1,0,2: O / R,0: F,0,1 / I,0,1: I / R,0: H,0,1 / \
      R,0: F,0,2 / D,0: O / I,0,2: I,0,1 / T: S,0,2"),
    // "The order is worked out afresh for each steal". Page 2 of file 0 is 40
    // ticks off until page 1 is in fetch, then 20; page 1 of file 1 is 30.
    ("Steal's order is worked out afresh",
     "S,4,100,20,2,1,1,0,0,0,0,0: O / A,0,0,10,0,2: O / A,1,1,30,0,1: O / A,2,2,10,0,1: O / \
      R,2: F,2,1 / I,2,1: I / D,2: O / P: F,0,1 / P: F,0,2 / P: F,1,1 / I,1,1: I / I,0,2: I / \
      X,0,1: O / L: L,3,2,1,0,2,1,1 / T: S,2,1 / P: F,0,1 / T: S,1,1 / I,0,1: I / \
      L: L,2,0,2,0,1"),

    // Sounding 1 with page 4 in fetch: page 7 is seen, though page 6 is missing too
    ("a sounding with a page in fetch",
     "S,16,40,20,16,0,0,0,0,0,0,0: O / A,0,0,10,0,3: O / A,1,0,10,4,5: O / A,2,0,10,6,7: O / \
      N,48: N,5,5 / D,0: O / D,1: O / D,2: O / A,0,0,10,3,16: O / L: L,5,0,3,0,2,0,1,0,7,0,5 / \
      Q: Q,2,0,4,0,6 / P: F,0,4 / L: L,5,0,3,0,2,0,1,0,7,0,5 / Q: Q,1,0,6 / T: S,0,3 / \
      T: S,0,2 / T: S,0,1 / T: S,0,7 / Q: Q,2,0,6,0,7 / P: F,0,6 / P: F,0,7 / P: U / L: L,1,0,5"),
    // "a page in fetch counts as cached in q": once page 6 is in fetch too, page 7 comes
    // at 40; and when page 4 is lost, it is missing again
    ("a page in fetch counts as cached",
     "BESIDE / L: L,3,0,5,1,2,1,1 / Q: Q,3,0,4,1,3,0,6 / P: F,0,4 / L: L,3,1,2,0,5,1,1 / \
      Q: Q,3,0,6,1,3,0,7 / P: F,0,6 / Q: Q,2,1,3,0,7 / P: F,1,3 / T: S,1,2 / \
      Q: Q,2,1,2,0,7 / X,0,4: O / L: L,2,0,5,1,1 / Q: Q,3,0,4,1,2,0,7 / T: S,0,5"),
    // "and in the pruning": one missing page ends a look-ahead of 40 ticks, one in fetch
    // does not
    ("a page in fetch does not prune",
     "S,4,40,40,16,0,0,0,0,0,0,0: O / A,0,0,10,0,16: O / Q: Q,1,0,1 / P: F,0,1 / Q: Q,1,0,2 / \
      P: F,0,2 / P: F,0,3 / P: F,0,4 / Q: Q,0 / P: U / X,0,1: O / Q: Q,1,0,1 / I,0,3: I / \
      L: L,1,0,3 / P: F,0,1 / P: U / S,4,40,41,16,0,0,0,0,0,0,0: O / A,0,0,10,0,16: O / P: U / \
      R,0: F,0,1 / P: U"),
    // "it is still not in the steal order", though it would stand first
    ("no page in fetch is stolen",
     "WAITING / T: U / L: L,0 / I,0,1: I / R,0: H,0,1 / P: F,0,2 / L: L,1,0,1 / R,0: W,0,2 / \
      P: F,0,3 / I,0,3: I / L: L,2,0,1,0,3 / T: S,0,1 / T: S,0,3 / T: U"),
    // "the head of the steal order is dropped first. Then the page leaves fetch": it is
    // present while the head is chosen
    ("Arrive chooses with its page in fetch",
     "BESIDE / P: F,0,4 / I,0,4: I,1,2 / L: L,3,0,5,1,1,0,4 / C,1: C,1,1,1"),
    ("Arrive chooses with other pages in fetch",
     "BESIDE / P: F,0,4 / P: F,0,6 / I,0,6: I,1,2 / L: L,3,0,6,0,5,1,1 / C,0: C,1,5,6"),
    // The page that a turn has put in fetch is there too.
    ("Run chooses with its page in fetch",
     "BESIDE / N,1: N,1,1 / C,1: C,1,1,1 / C,0: C,1,4,5 / T: S,0,4 / T: S,1,1"),

    ("Run's order is worked out afresh",
     "S,2,10,0,4,0,0,0,0,0,0,0: O / A,0,0,1,0,4: O / N,64: N,4,4 / T: S,0,4 / T: S,0,1"),

    // "15, last page 0 or above the size, or start above the last"
    ("15 has three reasons",
     "WAITING / A,1,0,1,0,0: E,15 / A,1,0,1,0,6: E,15 / A,1,0,1,5,4: E,15 / A,1,0,1,6,6: E,15 / \
      A,1,0,1,5,5: O / A,2,0,1,0,1: O"),
    // "Attach takes a start position and a last page."
    ("a reader goes on from its start",
     "FIVE / A,0,0,1,3,5: O / Q: Q,2,0,4,0,5 / R,0: F,0,4 / I,0,4: I / R,0: H,0,4 / R,0: F,0,5"),
    // "The reader's Z comes at its last page", though the next page is in fetch, or
    // cached
    ("Z comes at the last page",
     "FIVE / A,0,0,1,0,2: O / N,64: N,2,2 / R,0: Z / A,1,0,1,2,5: O / R,1: F,0,3 / R,0: Z / \
      I,0,3: I / R,0: Z / A,2,0,1,5,5: O / R,2: Z"),
    // "a page beyond it is not ahead of that reader. A page ahead of no reader of its
    // file stands in the first stretch."
    ("a page past the last page is not ahead",
     "S,16,40,0,16,0,0,0,0,0,0,0: O / A,0,0,10,0,3: O / N,48: N,3,3 / A,1,0,10,4,5: O / \
      A,2,0,10,6,7: O / N,16: N,2,2 / D,0: O / D,1: O / D,2: O / A,0,0,10,3,6: O / \
      L: L,5,0,7,0,3,0,2,0,1,0,5 / Q: Q,2,0,4,0,6 / T: S,0,7 / T: S,0,3"),
    // "Its look-ahead ends there"
    ("the look-ahead ends at the last page",
     "FIVE / A,0,0,1,1,3: O / Q: Q,2,0,2,0,3 / P: F,0,2 / P: F,0,3 / P: U / Q: Q,0"),

    // "With n pages read since the mark, the pace becomes (interval − blocked) divided
    // by n, rounded down"
    ("a pace is measured since the mark",
     "DOCKED / MARK,0: 10 / N,320: N,20,20 / MARK,0: 10 / MEASURE,0,1000,400: O / PACE,0: 30 / \
      MARK,0: 30 / N,112: N,7,7 / MEASURE,0,1000,400: O / PACE,0: 85 / MARK,0: 37"),
    ("a pace is rounded down",
     "DOCKED / N,48: N,3,3 / MEASURE,0,8,0: O / PACE,0: 2 / N,32: N,2,2 / MEASURE,0,99,0: O / \
      PACE,0: 49"),
    // "with n = 0 it stays": for one that has just docked, and again after a measure
    ("without a page the pace stays",
     "DOCKED / MEASURE,0,1000,400: O / PACE,0: 500 / MEASURE,0,1000000,0: O / PACE,0: 500 / \
      MEASURE,0,1,1: O / PACE,0: 500 / N,80: N,5,5 / MEASURE,0,100,0: O / PACE,0: 20 / \
      MEASURE,0,100,0: O / PACE,0: 20 / MEASURE,0,7,7: O / PACE,0: 20 / MARK,0: 15"),
    // "held to 1 through 1,000"
    ("a pace is held to 1",
     "DOCKED / N,48: N,3,3 / MEASURE,0,1000,1000: O / PACE,0: 1 / N,48: N,3,3 / \
      MEASURE,0,2,0: O / PACE,0: 1 / N,48: N,3,3 / MEASURE,0,9,3: O / PACE,0: 2 / \
      N,48: N,3,3 / MEASURE,0,5,2: O / PACE,0: 1"),
    ("a pace is held to 1,000",
     "DOCKED / N,48: N,3,3 / MEASURE,0,1000000,0: O / PACE,0: 1000 / N,48: N,3,3 / \
      MEASURE,0,2999,0: O / PACE,0: 999 / N,48: N,3,3 / MEASURE,0,3003,0: O / PACE,0: 1000 / \
      N,48: N,3,3 / MEASURE,0,3000,1: O / PACE,0: 999 / N,48: N,3,3 / MEASURE,0,3000,0: O / \
      PACE,0: 1000"),
    // "the position at its last such call"
    ("each measure sets the mark",
     "DOCKED / N,80: N,5,5 / MEASURE,0,100,0: O / PACE,0: 20 / N,32: N,2,2 / \
      MEASURE,0,100,0: O / PACE,0: 50 / MARK,0: 17 / MEASURE,0,100,0: O / N,16: N,1,1 / \
      MEASURE,0,100,0: O / PACE,0: 100 / MARK,0: 18"),
    // "or at Attach"
    ("Attach sets the mark",
     "DOCKED / MARK,0: 10 / N,80: N,5,5 / MARK,0: 10 / MEASURE,0,100,0: O / PACE,0: 20 / D,0: O / \
      A,0,0,7,20,60: O / MARK,0: 20 / A,15,0,7,60,60: O / MARK,15: 60"),
    // "The slot's record becomes empty and all 0"; "0 for an empty slot"
    ("Detach clears the mark",
     "DOCKED / D,0: O / MARK,0: 0 / PACE,0: 0 / T: U / A,0,0,1,0,60: O / MARK,0: 0 / \
      A,15,0,1,3,60: O / D,15: O / MARK,15: 0"),
    ("no other call moves a mark",
     "DOCKED / R,0: F,0,11 / MARK,0: 10 / I,0,11: I / MARK,0: 10 / R,0: H,0,11 / MARK,0: 10 / \
      R,0: F,0,12 / X,0,12: O / P: U / T: S,0,11 / N,16: N,1,1 / A,1,0,1,2,60: O / \
      MEASURE,1,1,0: O / D,1: O / MARK,0: 10 / PACE,0: 500"),
    // A waiting reader is measured like a running one, and waits on.
    ("a waiting reader is measured",
     "DOCKED / N,32: N,2,2 / R,0: F,0,13 / MEASURE,0,100,0: O / PACE,0: 50 / MARK,0: 12 / \
      R,0: E,7 / I,0,13: I / R,0: H,0,13 / R,0: F,0,14 / MEASURE,0,100,1: O / PACE,0: 99"),
    // Only the slot's own reader: the one in slot 1 is at its last page
    ("one reader is measured",
     "DOCKED / A,1,0,7,1,3: O / A,15,0,9,0,60: O / N,64: N,8,10 / MEASURE,1,22,0: O / \
      PACE,1: 11 / MARK,1: 3 / PACE,0: 500 / MARK,0: 10 / PACE,15: 9 / MARK,15: 0 / \
      MEASURE,15,4,0: O / PACE,15: 1 / MARK,15: 4 / R,1: Z"),
    // K is L divided by the pace that was measured.
    ("a measured pace counts at once",
     "S,9,100,0,9,0,0,0,0,0,0,0: O / A,0,0,100,0,9: O / N,16: N,1,1 / P: F,0,2 / P: U / \
      MEASURE,0,50,0: O / P: F,0,3 / P: U / MARK,0,0: put / MEASURE,0,1000,0: O / X,0,2: O / \
      P: U"),
    // "Turned away: 16 [...] after 2 and 6."
    ("Measure gives 2 before 16", "DOCKED / MEASURE,16,0,0: E,2 / MEASURE,16,1,2: E,2 / \
      MEASURE,18446744073709551615,1000001,0: E,2 / MEASURE,16,1,0: E,2"),
    ("Measure gives 6 before 16", "DOCKED / MEASURE,1,0,0: E,6 / MEASURE,15,1,2: E,6 / \
      MEASURE,1,1000001,0: E,6 / MEASURE,1,1,0: E,6"),
    // "interval out of range or blocked above it"
    ("16 has two reasons",
     "DOCKED / MEASURE,0,0,0: E,16 / MEASURE,0,1000001,0: E,16 / MEASURE,0,4294967296,0: E,16 / \
      MEASURE,0,4294967297,0: E,16 / MEASURE,0,18446744073709551615,0: E,16 / \
      MEASURE,0,1000,1001: E,16 / MEASURE,0,1,2: E,16 / MEASURE,0,1000000,1000001: E,16 / \
      MEASURE,0,1000,4294967296: E,16 / MEASURE,0,1000,18446744073709551615: E,16 / \
      MEASURE,0,0,1: E,16 / MEASURE,0,1,0: O / MEASURE,0,1,1: O / MEASURE,0,1000000,1000000: O"),
    ("a refused measure changes nothing",
     "DOCKED / N,32: N,2,2 / MEASURE,0,0,0: E,16 / MEASURE,0,9,10: E,16 / PACE,0: 500 / \
      MARK,0: 10"),
    // "on no program line": each letter with three fields is any other line
    ("no line measures", "WAITING / THREE / R,0: E,7"),

    // "each at most the position, else 13"
    ("no mark is above the position",
     "FIVE / A,0,0,1,3,5: O / MARK,0,4: put / T: E,13 / MEASURE,0,1,0: E,13 / MARK,0,259: put / \
      R,0: E,13 / MARK,0,65535: put / D,0: E,13 / MARK,0,3: put / T: U / MARK,0,0: put / T: U / \
      MARK,0: 0"),
    // "0 for an empty slot"
    ("an empty slot has no mark",
     "FIVE / MARK,0,1: put / T: E,13 / MARK,0,256: put / A,0,0,1,0,5: E,13 / MARK,0,0: put / \
      MARK,15,1: put / MEASURE,15,1,0: E,13 / MARK,15,0: put / MEASURE,15,1,0: E,6"),
    // "in it, or a longer one, a taken slot's last page of 0 gets 13"
    ("a last page of 0 is refused",
     "FIVE / A,0,0,1,0,5: O / A,1,0,1,2,3: O / LAST,0,0: put / P: E,13 / R,0: E,13 / T: E,13 / \
      MEASURE,0,1,0: E,13 / N,1: E,13 / LAST,0,5: put / P: F,0,1 / LAST,1,0: put / P: E,13"),
    // "an accepted image comes back unchanged"
    ("Z and U leave the image",
     "DOCKED / N,32: N,2,2 / T: S,0,12 / T: S,0,11 / T: U / P: U / MARK,0: 10 / D,0: O / \
      A,0,0,3,60,60: O / MARK,0,7: put / R,0: Z / MARK,0: 7 / LAST,0: 60"),
    // "A last page above the size or below the position, or a waiting reader at it,
    // gets 13", though its next page is in fetch
    ("no last page is above the size",
     "FIVE / A,0,0,1,3,5: O / LAST,0,6: put / T: E,13 / LAST,0,65535: put / R,0: E,13 / \
      LAST,0,5: put / T: U"),
    ("no last page is below the position",
     "FIVE / A,0,0,1,3,5: O / LAST,0,2: put / T: E,13 / LAST,0,1: put / R,0: E,13 / \
      LAST,0,3: put / R,0: Z"),
    ("no reader waits at its last page",
     "FIVE / A,0,0,1,2,5: O / R,0: F,0,3 / LAST,0,2: put / R,0: E,13 / I,0,3: E,13 / P: E,13 / \
      LAST,0,3: put / R,0: E,7"),

    // "The S line keeps its form: 1989, E 0." By weights, or none, file 0 would be fuller.
    ("an S line sets the 1989 rule",
     "S,3,1,0,8,8,0,0,0,0,0,0: O / A,0,0,1,0,2: O / A,1,1,1,7,8: O / N,32: N,3,3 / D,0: O / \
      D,1: O / L: L,3,1,8,0,2,0,1 / T: S,1,8 / T: S,0,2 / T: S,0,1"),
    ("an S line has eleven fields",
     "FIVE / S,5,10,0,5,0,0,0,0,0,0,0,1: E,14 / S,5,10,0,5,0,0,0,0,0,0,0,0,0,0,0,0,0,0,0,0: E,14 / \
      A,0,0,1,0,5: O"),

    // "cached pages − frames × weight ÷ sum of weights is greatest": shares of 3 and 0, then
    // of 0 and 3; 1989 takes the largest page
    ("a file above its share goes first",
     "WEIGHED / EXPECTED,0,2: put / T: S,1,1 / T: S,0,8 / T: S,0,7 / T: U / \
      WEIGHED / EXPECTED,1,2: put / T: S,0,8 / T: S,0,7 / T: S,1,1 / T: U / \
      WEIGHED / EXPECTED,0,2: put / RULE,0: put / T: S,0,8 / T: S,0,7 / T: S,1,1"),
    // shares of 4/3 and 8/3 beside 1 and 2 cached pages
    ("shares are not rounded",
     "S,4,1,0,8,8,0,0,0,0,0,0: O / A,0,0,1,0,1: O / A,1,1,1,0,2: O / N,32: N,3,3 / RULE,1: put / \
      D,0: O / D,1: O / EXPECTED,0,2: put / EXPECTED,1,3: put / T: S,0,1 / T: S,1,2 / T: S,1,1"),
    // "a sum of 0 makes every share 0": the fullest file goes
    ("with a sum of 0 the fullest file goes",
     "WEIGHED / T: S,0,8 / T: S,1,1 / T: S,0,7 / WEIGHED / EXPECTED,0,1: put / EXPECTED,1,1: put / \
      EXPECTED,7,1000: put / T: S,0,8 / T: S,1,1 / T: S,0,7"),
    // "equal: higher file": 2 − 2 and 2 − 2
    ("equal surpluses: the higher file",
     "S,4,1,0,8,8,0,0,0,0,0,0: O / A,0,0,1,4,6: O / A,1,1,1,0,2: O / N,32: N,4,4 / RULE,1: put / \
      D,0: O / D,1: O / EXPECTED,0,2: put / EXPECTED,1,2: put / T: S,1,2 / T: S,0,6 / T: S,1,1 / \
      T: S,0,5"),
    // "(E − R, or 0 if negative)": R is 2 for E 1, and the other file has the weight alone
    ("a weight is not below 0",
     "WEIGHED / ATTACHES,1,2: put / EXPECTED,1,1: put / EXPECTED,0,2: put / T: S,1,1 / \
      WEIGHED / ATTACHES,0,65535: put / EXPECTED,0,1000: put / EXPECTED,1,2: put / T: S,0,8 / \
      T: S,0,7 / T: S,1,1"),
    // "× size": 4 × 2 beside 1 × 8
    ("a weight is by the size",
     "S,4,1,0,2,8,0,0,0,0,0,0: O / A,0,0,1,0,2: O / A,1,1,1,6,8: O / N,32: N,4,4 / RULE,1: put / \
      D,0: O / D,1: O / EXPECTED,0,5: put / EXPECTED,1,2: put / T: S,1,8 / T: S,0,2 / T: S,1,7"),
    // "0: no such file": what is expected of it takes no share
    ("a file of size 0 weighs nothing",
     "WEIGHED / EXPECTED,0,2: put / EXPECTED,7,1000: put / T: S,1,1 / T: S,0,8 / T: S,0,7 / \
      EXPECTED,7: 1000"),
    // "one with cached pages": file 2 has none, and a surplus of 0
    ("a file without cached pages gives up none",
     "S,4,1,0,8,8,8,0,0,0,0,0: O / A,0,0,1,0,1: O / A,1,1,1,0,1: O / N,32: N,2,2 / RULE,1: put / \
      D,0: O / D,1: O / EXPECTED,0,2: put / EXPECTED,1,3: put / T: S,0,1 / T: S,1,1 / T: U"),
    // the "sum of weights" is over all files: file 2 is expected, and takes the frames
    ("the sum is over all files",
     "S,5,1,0,8,8,8,0,0,0,0,0: O / A,0,0,1,0,2: O / A,1,1,1,0,3: O / N,48: N,5,5 / RULE,1: put / \
      D,0: O / D,1: O / EXPECTED,0,2: put / EXPECTED,1,5: put / T: S,0,2 / T: S,0,1 / \
      S,5,1,0,8,8,8,0,0,0,0,0: O / A,0,0,1,0,2: O / A,1,1,1,0,3: O / N,48: N,5,5 / RULE,1: put / \
      D,0: O / D,1: O / EXPECTED,0,2: put / EXPECTED,1,5: put / EXPECTED,2,1000: put / T: S,1,3"),
    // "the largest page of the first stretch, else the largest ahead but in no look-ahead,
    // else the largest use key", in file 1, though all pages of file 0 are past
    ("in the file the three stretches",
     "S,6,2,0,8,8,0,0,0,0,0,0: O / A,0,0,1,0,1: O / A,1,1,1,0,5: O / N,80: N,6,6 / D,0: O / \
      D,1: O / RULE,1: put / EXPECTED,0,1000: put / A,2,1,1,2,8: O / T: S,1,2 / T: S,1,1 / \
      T: S,1,5 / T: S,1,4 / T: S,1,3 / T: S,0,1"),
    // "R counts attaches to the file", under either rule
    ("R counts attaches",
     "S,3,1,0,8,8,0,0,0,0,0,9: O / ATTACHES,0: 0 / A,0,0,1,0,8: O / A,1,7,1,9,9: O / \
      A,2,0,1,0,8: O / ATTACHES,0: 2 / ATTACHES,1: 0 / ATTACHES,7: 1 / RULE,1: put / \
      A,3,0,1,0,8: O / ATTACHES,0: 3 / S,3,1,0,8,8,0,0,0,0,0,9: O / ATTACHES,0: 0"),
    ("no other call counts",
     "WEIGHED / ATTACHES,0: 1 / ATTACHES,1: 1 / A,0,0,1,0,8: O / R,0: F,0,1 / I,0,1: I,0,8 / \
      R,0: H,0,1 / R,0: F,0,2 / X,0,2: O / P: F,0,2 / X,0,2: O / N,16: N,1,1 / \
      MEASURE,0,9,0: O / T: S,0,2 / D,0: O / ATTACHES,0: 2 / ATTACHES,1: 1"),
    ("a refused Attach does not count",
     "WEIGHED / A,16,0,1,0,8: E,2 / A,2,2,1,0,8: E,3 / A,2,0,0,0,8: E,4 / A,2,0,1,0,9: E,15 / \
      A,2,0,1,5,4: E,15 / A,2,0,1,0,8: O / A,2,0,1,0,8: E,5 / A,2,1,1,0,8: E,5 / ATTACHES,0: 2 / \
      ATTACHES,1: 1 / ATTACHES,2: 0"),
    // "and stops at 65,535"
    ("R stops at 65,535",
     "WEIGHED / ATTACHES,0,65533: put / A,0,0,1,0,8: O / ATTACHES,0: 65534 / A,1,0,1,0,8: O / \
      ATTACHES,0: 65535 / A,2,0,1,0,8: O / ATTACHES,0: 65535 / RULE,0: put / A,3,0,1,0,8: O / \
      ATTACHES,0: 65535"),
    // R takes from the weight at once, and for good: shares of 3/2 and 3/2, then of 3 and 0,
    // or of 0 and 3
    ("an attach takes from the weight",
     "WEIGHED / EXPECTED,0,2: put / EXPECTED,1,2: put / A,0,1,1,1,1: O / T: S,1,1 / \
      WEIGHED / EXPECTED,0,2: put / EXPECTED,1,2: put / A,0,0,1,8,8: O / T: S,0,8 / \
      WEIGHED / EXPECTED,0,2: put / EXPECTED,1,2: put / A,0,1,1,1,1: O / D,0: O / T: S,1,1"),
    // "the head of the steal order is dropped first", by the state's rule
    ("Arrive goes by the rule",
     "WEIGHED / EXPECTED,1,2: put / A,0,0,1,0,8: O / R,0: F,0,1 / I,0,1: I,0,8 / \
      RULE,0: put / R,0: H,0,1 / R,0: F,0,2 / I,0,2: I,1,1"),
    ("Run goes by the rule",
     "WEIGHED / EXPECTED,0,3: put / A,0,0,1,6,8: O / A,1,1,1,0,2: O / N,32: N,1,4 / T: S,1,2 / \
      T: S,0,8 / T: S,0,7 / T: U"),
    // "A user who selects 1993 has no best-schedule result": more fetches than under 1989,
    // by a page that is expected to be read; or fewer, where no page is seen before its turn
    ("Run has another number of fetches by weight",
     "S,2,100,0,2,1,0,0,0,0,0,0: O / A,0,0,10,1,2: O / A,1,1,10,0,1: O / N,16: N,2,2 / D,0: O / \
      D,1: O / RULE,1: put / EXPECTED,1,6: put / A,0,0,10,0,2: O / N,32: N,2,2 / \
      S,2,100,0,2,1,0,0,0,0,0,0: O / A,0,0,10,1,2: O / A,1,1,10,0,1: O / N,16: N,2,2 / D,0: O / \
      D,1: O / EXPECTED,1,6: put / A,0,0,10,0,2: O / N,32: N,1,2 / \
      S,2,1,0,8,8,0,0,0,0,0,0: O / A,0,0,1,4,5: O / A,1,1,1,7,8: O / N,16: N,2,2 / D,0: O / \
      D,1: O / RULE,1: put / EXPECTED,1,3: put / A,0,0,1,0,5: O / A,1,1,1,6,8: O / N,18: N,3,4 / \
      S,2,1,0,8,8,0,0,0,0,0,0: O / A,0,0,1,4,5: O / A,1,1,1,7,8: O / N,16: N,2,2 / D,0: O / \
      D,1: O / EXPECTED,1,3: put / A,0,0,1,0,5: O / A,1,1,1,6,8: O / N,18: N,4,4"),
    // The fetch order, "smaller use key first", knows no weight.
    ("Prefetch looks at no weight",
     "WEIGHED / EXPECTED,1,1000: put / A,0,0,1,0,8: O / A,1,1,1,1,8: O / P: F,0,1 / P: F,1,2 / \
      P: U"),
    // "A rule byte above 1, a filler byte not 0 [...] gets 13"
    ("there are two rules",
     "WEIGHED / RULE,2: put / T: E,13 / RULE,255: put / P: E,13 / RULE,256: put / N,1: E,13 / \
      RULE,257: put / T: E,13 / RULE,32769: put / T: E,13 / RULE,1: put / T: S,0,8 / \
      RULE,0: put / T: S,0,7"),
    // "or an E above 1,000 gets 13", under either rule
    ("no more than 1,000 are expected",
     "WEIGHED / EXPECTED,0,1001: put / T: E,13 / RULE,0: put / T: E,13 / EXPECTED,0,65535: put / \
      P: E,13 / EXPECTED,0,1000: put / EXPECTED,7,1001: put / T: E,13 / EXPECTED,7,1000: put / \
      T: S,0,8 / RULE,1: put / T: S,1,1 / EXPECTED,0: 1000 / EXPECTED,7: 1000"),
    ("any R is one",
     "WEIGHED / ATTACHES,0,65535: put / ATTACHES,7,65535: put / T: S,0,8 / ATTACHES,0: 65535 / \
      ATTACHES,7: 65535 / ATTACHES,7,1001: put / T: S,1,1 / ATTACHES,7: 1001"),
];

/// Every trial.
pub fn all() -> Vec<Named> {
    let long = format!("S{},11", ",1".repeat(98));
    let letters = ('A'..='Z').chain('a'..='z');
    let three = letters.map(|letter| format!("{letter},0,100,0: E,14"));
    let three = three.collect::<Vec<_>>().join(" / ");
    let written_out = |steps: &str| {
        let steps = steps.replace("WAITING", WAITING).replace("FIVE", FIVE);
        let steps = steps.replace("DOCKED", DOCKED).replace("BESIDE", BESIDE);
        let steps = steps.replace("WEIGHED", WEIGHED);
        let steps = steps.replace("THREE", &three);
        steps.replace("LONG", &long)
    };
    let trials = TABLE.iter().map(|(name, steps)| Named {
        name,
        steps: written_out(steps),
    });
    trials.collect()
}

impl Named {
    /// Each line with its answer.
    fn steps(&self) -> impl Iterator<Item = (&str, &str)> {
        let pair = |step| str::split_once(step, ": ").expect("a line and its answer");
        self.steps.split(" / ").map(pair)
    }

    /// Feeds a program the lines: whole, without the last line end, and so again
    /// byte by byte. It has no image, and no line for Measure.
    pub fn by_program(&self, report: &mut Report, program: Program) {
        if self.steps().any(|(line, _)| is_no_line(line)) {
            return;
        }
        let failed_before = report.failed();
        let mut stream = Stream::default();
        for (line, answer) in self.steps() {
            let by_model = stream.say(line);
            report.check(by_model == answer, || {
                format!("{line} is to answer {answer}, not {by_model}")
            });
        }
        let unended = stream.unended();
        let feeds = [
            Feed::whole(&stream.input),
            Feed::whole(unended),
            Feed::bytes(unended, Cut::EachRead),
        ];
        for feed in feeds {
            streams::hold(report, program, &stream, &feed);
        }
        self.give_name(report, failed_before);
    }

    /// Makes the calls through an entry, each on the image that the step before
    /// has left.
    pub fn by_entry(&self, report: &mut Report, entry: Entry) {
        let failed_before = report.failed();
        let mut image = State::idle().image();
        for (line, answer) in self.steps() {
            if let Some(measure) = measure_of(line) {
                image = hold_call(report, entry, &image, measure, number_of(answer));
            } else if is_no_line(line) {
                field(report, &mut image, line, answer);
            } else if let Some(call) = Call::of_line(line).filter(|_| answer != "E,14") {
                image = hold_call(report, entry, &image, call, number_of(answer));
            } else if line.starts_with('S') {
                let (state, _) = respond(State::restore(&image).0, line.as_bytes());
                image = state.image();
            }
        }
        self.give_name(report, failed_before);
    }

    /// Names the trial if it has failed.
    fn give_name(&self, report: &mut Report, failed_before: u64) {
        let good = report.failed() == failed_before;
        report.check(good, || format!("above: {}", self.name));
    }
}

/// Whether a step is for the entries alone: it starts with a word, not a letter.
fn is_no_line(step: &str) -> bool {
    step.find(',').is_some_and(|comma| comma > 1)
}

/// The call of a step `MEASURE,slot,interval,blocked`.
fn measure_of(step: &str) -> Option<Call> {
    let fields = step.strip_prefix("MEASURE,")?.split(',');
    let numbers: Vec<u64> = fields.filter_map(|field| field.parse().ok()).collect();
    let &[slot, interval, blocked] = &numbers[..] else {
        panic!("{step}: not three numbers");
    };
    Some(Call::Measure {
        slot,
        interval,
        blocked,
    })
}

/// Writes a slot's last page, mark or pace, a file's E or R, or the rule over the image,
/// or holds it to what is said.
fn field(report: &mut Report, image: &mut [u8], step: &str, answer: &str) {
    let mut pieces = step.split(',');
    let name = pieces.next().unwrap_or_default();
    let number = |field: &str| field.parse::<u16>().expect("a number");
    let mut index = || usize::from(pieces.next().map(number).expect("a slot or a file"));
    let at = match name {
        "LAST" => layout::last_page(index()),
        "MARK" => layout::mark(index()),
        "PACE" => layout::pace(index()),
        "EXPECTED" => layout::expected(index()),
        "ATTACHES" => layout::attaches(index()),
        "RULE" => layout::RULE..layout::EXPECTED,
        _ => panic!("{step}: no such step"),
    };
    if let Some(put) = pieces.next() {
        put_two(image, at, number(put));
    } else {
        let found = two_in(image, at);
        report.check(found == number(answer), || {
            format!("{step} is to be {answer}, not {found}")
        });
    }
}

/// One call on an image, and on buffers that are none: "The buffer must be exactly"
/// 2,274 bytes, "else 13, tested first". Gives the image behind it.
fn hold_call(
    report: &mut Report,
    entry: Entry,
    image: &[u8],
    call: Call,
    expected: u64,
) -> Vec<u8> {
    let longer = [image, &[0]].concat();
    let [older, marked] = [OLDER_IMAGE_BYTES, MARKED_IMAGE_BYTES].map(|length| &image[..length]);
    let tries = [
        (image, expected),
        (&image[1..], 13),
        (&longer, 13),
        (older, 13),
        (marked, 13),
    ];
    let [after, ..] = tries.map(|(buffer, expected)| {
        let (number, after) = hold(report, entry, buffer, call);
        report.check(number == expected, || {
            format!("{call:?} is to answer {expected}, not {number}")
        });
        after
    });
    after
}

/// The number at the C boundary of an answer that is written as a line: "the
/// refusal's, or the answer letter's ASCII code × 65,536 + (key + 1, or 0
/// without a page) [...]; for Run 4,294,967,296 + fetches × 65,536 + reads".
fn number_of(answer: &str) -> u64 {
    let mut pieces = answer.split(',');
    let letter = pieces.next().unwrap_or_default();
    let fields: Vec<u64> = pieces.filter_map(|field| field.parse().ok()).collect();
    let code = letter.bytes().next().map_or(0, u64::from) * 65_536;
    match (letter, fields.as_slice()) {
        ("E", &[refusal]) => refusal,
        ("N", &[fetches, reads]) => 4_294_967_296 + fetches * 65_536 + reads,
        (_, &[file, page]) => code + file * 1_024 + page,
        _ => code,
    }
}
