//! The calls. Each looks for its refusals in the paper's order first and
//! changes the state only after: "Other refused calls change nothing. Where
//! several refusals apply, the one listed first for the call is given."

use super::answer::{Answer, Refusal};
use super::state::{Page, Reader, Rule, State};
use crate::call::Settings;
use crate::limits::{setup_fits, FILES, INTERVAL, MOST_ATTACHES, MOST_TURNS, PACE, SLOTS};

type Outcome = Result<Answer, Refusal>;

impl State {
    /// **Setup** "gives a state without readers, pages or fetches. 1: any value
    /// out of range; the idle state comes back". A.6: E "outside that, or a rule other
    /// than the two, is refusal 1", and R starts at 0.
    pub fn setup_by_rule(settings: &Settings) -> (State, Outcome) {
        let Settings {
            frames,
            look_ahead,
            fetch_time,
            sizes,
            rule,
            expected,
        } = *settings;
        let Some(rule) = Rule::of_number(rule).filter(|_| setup_fits(settings)) else {
            return (State::idle(), Err(Refusal::Setup));
        };
        let state = State {
            frames,
            look_ahead,
            fetch_time,
            sizes,
            rule,
            expected,
            ..State::idle()
        };
        (state, Ok(Answer::Done))
    }

    /// Setup as an S line has it: "1989, E 0".
    pub fn setup(
        frames: u64,
        look_ahead: u64,
        fetch_time: u64,
        sizes: [u64; FILES as usize],
    ) -> (State, Outcome) {
        let settings = Settings::of_1989(frames, look_ahead, fetch_time, sizes);
        State::setup_by_rule(&settings)
    }

    /// **Attach** "takes a start position and a last page": running, the mark "the
    /// position [...] at Attach". "2: slot above 15. 3: file above 7 or of size 0.
    /// 4: pace out of range. 5: slot not empty." "15, last page 0 or above the
    /// size, or start above the last, after 4 and before 5." A.6: "R counts attaches
    /// to the file and stops at 65,535", those that are carried out, under either rule.
    pub fn attach(&mut self, slot: u64, file: u64, pace: u64, start: u64, last: u64) -> Outcome {
        check_slot(slot)?;
        self.check_file(file)?;
        if !PACE.contains(&pace) {
            return Err(Refusal::Pace);
        }
        if last == 0 || last > self.size(file) || start > last {
            return Err(Refusal::LastPage);
        }
        if self.readers.contains_key(&slot) {
            return Err(Refusal::Taken);
        }
        let reader = Reader::running(file, pace, start, last);
        self.readers.insert(slot, reader);
        let count = &mut self.attaches[file as usize];
        *count = MOST_ATTACHES.min(*count + 1);
        Ok(Answer::Done)
    }

    /// **Detach**: "2. 6. The slot's record becomes empty and all 0; an open
    /// fetch stays open."
    pub fn detach(&mut self, slot: u64) -> Outcome {
        self.reader_in(slot)?;
        self.readers.remove(&slot);
        Ok(Answer::Done)
    }

    /// **Read**: "2. 6: slot empty. 7: reader waiting. Then, in this order:"
    /// position equals last page, Z; "page c + 1 cached, H, and c grows by 1; in
    /// fetch, W, and the reader waits; else F, it is put in fetch and the
    /// reader waits."
    pub fn read(&mut self, slot: u64) -> Outcome {
        let mut reader = self.reader_in(slot)?;
        if reader.waiting {
            return Err(Refusal::Waiting);
        }
        if reader.is_at_end() {
            return Ok(Answer::End);
        }
        let page = reader.next_page();
        let answer = if self.cached.contains(&page) {
            reader.position += 1;
            Answer::Hit(page)
        } else if self.in_fetch.contains(&page) {
            reader.waiting = true;
            Answer::Wait(page)
        } else {
            self.in_fetch.insert(page);
            reader.waiting = true;
            Answer::Fetch(page)
        };
        self.readers.insert(slot, reader);
        Ok(answer)
    }

    /// **Steal** "drops the head of the steal order, S; U if nothing is cached.
    /// No refusal."
    pub fn steal(&mut self) -> Answer {
        self.drop_head().map_or(Answer::Nothing, Answer::Stolen)
    }

    /// **Arrive**: "3. 8: page 0 or above the size. 9: page not in fetch. If
    /// all frames are taken, the head of the steal order is dropped first. Then
    /// the page leaves fetch, is cached, and every reader waiting for it runs." So it is
    /// still in fetch while that head is chosen, and by A.5 counts as cached there.
    pub fn arrive(&mut self, file: u64, number: u64) -> Outcome {
        let page = self.open_fetch(file, number)?;
        let all_taken = self.cached.len() as u64 >= self.frames;
        let dropped = if all_taken { self.drop_head() } else { None };
        self.close_fetch(page);
        self.cached.insert(page);
        Ok(Answer::Arrived(dropped))
    }

    /// **Lost**: "3, 8, 9 as in Arrive; the fetch is closed and its waiters
    /// run."
    pub fn lost(&mut self, file: u64, number: u64) -> Outcome {
        let page = self.open_fetch(file, number)?;
        self.close_fetch(page);
        Ok(Answer::Done)
    }

    /// **Prefetch** "puts the head of the fetch order in fetch, F; U if that
    /// order is empty. No refusal."
    pub fn prefetch(&mut self) -> Answer {
        match self.fetch_order().first() {
            Some(&page) => {
                self.in_fetch.insert(page);
                Answer::Fetch(page)
            }
            None => Answer::Nothing,
        }
    }

    /// **Run**: "11: above 16,384. 10: a page is in fetch. For each turn: if
    /// its slot holds a reader, Read; on F, Arrive of that page and Read again;
    /// then the turn grows by 1 modulo 16."
    pub fn run(&mut self, turns: u64) -> Outcome {
        if turns > MOST_TURNS {
            return Err(Refusal::Turns);
        }
        if !self.in_fetch.is_empty() {
            return Err(Refusal::FetchOpen);
        }
        let (mut fetches, mut reads) = (0, 0);
        for _ in 0..turns {
            if self.readers.contains_key(&self.turn) {
                let mut answer = self.read(self.turn)?;
                if let Answer::Fetch(page) = answer {
                    fetches += 1;
                    self.arrive(page.file, page.number)?;
                    answer = self.read(self.turn)?;
                }
                if let Answer::Hit(_) = answer {
                    reads += 1;
                }
            }
            self.pass_turn();
        }
        Ok(Answer::Ran { fetches, reads })
    }

    /// **Measure**: "With n pages read since the mark, the pace becomes (interval −
    /// blocked) divided by n, rounded down, held to 1 through 1,000; with n = 0 it
    /// stays." The mark becomes the position. "16, interval out of range or
    /// blocked above it, after 2 and 6."
    pub fn measure(&mut self, slot: u64, interval: u64, blocked: u64) -> Outcome {
        let mut reader = self.reader_in(slot)?;
        if !INTERVAL.contains(&interval) || blocked > interval {
            return Err(Refusal::Interval);
        }
        if let Some(pace) = (interval - blocked).checked_div(reader.since_mark()) {
            reader.pace = pace.clamp(*PACE.start(), *PACE.end());
        }
        reader.mark = reader.position;
        self.readers.insert(slot, reader);
        Ok(Answer::Done)
    }

    /// The reader in a slot, or "2: slot above 15", "6: slot empty".
    fn reader_in(&self, slot: u64) -> Result<Reader, Refusal> {
        check_slot(slot)?;
        self.readers.get(&slot).copied().ok_or(Refusal::Empty)
    }

    /// "3: file above 7 or of size 0."
    pub(super) fn check_file(&self, file: u64) -> Result<(), Refusal> {
        if self.size(file) == 0 {
            return Err(Refusal::File);
        }
        Ok(())
    }

    /// "3", then "8: page 0 or above the size."
    pub(super) fn check_page(&self, page: Page) -> Result<(), Refusal> {
        self.check_file(page.file)?;
        if page.number == 0 || page.number > self.size(page.file) {
            return Err(Refusal::Page);
        }
        Ok(())
    }

    /// A page in fetch, or 3, 8, "9: page not in fetch".
    fn open_fetch(&self, file: u64, number: u64) -> Result<Page, Refusal> {
        let page = Page { file, number };
        self.check_page(page)?;
        if !self.in_fetch.contains(&page) {
            return Err(Refusal::NotInFetch);
        }
        Ok(page)
    }

    /// "the page leaves fetch [...] and every reader waiting for it runs".
    fn close_fetch(&mut self, page: Page) {
        self.in_fetch.remove(&page);
        for reader in self.readers.values_mut() {
            if reader.next_page() == page {
                reader.waiting = false;
            }
        }
    }

    /// Drops the head of the steal order, "worked out afresh for each steal".
    fn drop_head(&mut self) -> Option<Page> {
        let head = self.steal_order().first().copied()?;
        self.cached.remove(&head);
        Some(head)
    }
}

/// "2: slot above 15."
fn check_slot(slot: u64) -> Result<(), Refusal> {
    if slot >= SLOTS {
        return Err(Refusal::Slot);
    }
    Ok(())
}
