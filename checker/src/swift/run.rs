//! Run, in its own loop.
//!
//! A turn whose slot holds a reader that is not at its end always ends in H, so positions
//! and reads do not depend on what is cached: only a page that is not cached costs more
//! than a step. No page is in fetch between turns. What is known of a file's pages is kept
//! over the turns: while no reader and no page of the file moves, its use times stay and
//! all seat distances fall by one, so the page that goes first remains the one.

use super::calls::{put_position, Outcome};
use super::count::Counts;
use super::decide::{key_of_past, last_cached, Head, Quay};
use super::weights::Surpluses;
use super::{has, key, put, take, two, Image, Maps, Record, FILES, FILE_PAGES};
use crate::layout::{CACHED, FRAMES, IN_FETCH, MARKS, RULE, TURN};
use crate::limits::MOST_TURNS;

/// The slots of a round.
const ROUND: u32 = 16;

struct Run<'a> {
    image: &'a mut Image,
    quay: Quay,
    /// The slots whose reader has pages left, a bit each.
    active: u32,
    taken: u32,
    frames: u32,
    fetches: u64,
    reads: u64,
    /// Under the 1993 rule.
    surpluses: Option<Surpluses>,
    /// Of each file the largest page that is past, as page × 8 + file, or 0; and the files
    /// of which it is not known. A page becomes past only when it is read, and ceases to be
    /// only when it goes, so it is followed from turn to turn.
    past: [u32; FILES],
    past_stale: u32,
    /// Of each file the head of its pages, if none is past; its rank with the slot in place
    /// of the seat distance, which changes from turn to turn. And the files of which it is
    /// not known.
    heads: [Head; FILES],
    heads_stale: u32,
    /// Of each file a page above which none is cached, and one up to which none is.
    tops: [u32; FILES],
    bottoms: [u32; FILES],
}

/// So many turns on an image in which so many pages are cached.
pub(super) fn run(image: &mut Image, counts: &Counts, turns: u64) -> Outcome {
    if turns > MOST_TURNS {
        return Err(11);
    }
    if image[IN_FETCH..MARKS] != [0; MARKS - IN_FETCH] {
        return Err(10);
    }
    let mut run = Run::of(image, counts);
    run.take_turns(turns as u32);
    run.save();
    Ok((1 << 32) + (run.fetches << 16) + run.reads)
}

impl Run<'_> {
    fn of<'a>(image: &'a mut Image, counts: &Counts) -> Run<'a> {
        let quay = Quay::of(image);
        let readers = (0..).zip(&quay.records);
        let left = readers.map(|(slot, record)| u32::from(record.has_pages_left()) << slot);
        Run {
            active: left.sum(),
            taken: counts.taken,
            frames: two(image, FRAMES),
            fetches: 0,
            reads: 0,
            surpluses: (image[RULE] == 1).then(|| Surpluses::of(image, counts.by_file)),
            past: [0; FILES],
            past_stale: 0xFF,
            heads: [Head::default(); FILES],
            heads_stale: 0xFF,
            tops: [FILE_PAGES; FILES],
            bottoms: [0; FILES],
            image,
            quay,
        }
    }

    /// Turn by turn; after a round without a fetch as many turns at once as meet none.
    fn take_turns(&mut self, turns: u32) {
        let (mut left, mut quiet) = (turns, ROUND);
        while self.active != 0 {
            if quiet >= ROUND {
                let hits = self.turns_without_a_fetch().min(left);
                self.pass(hits);
                left -= hits;
                quiet = 0;
                continue;
            }
            let idle = self.turns_to_a_reader();
            if idle >= left {
                break;
            }
            left -= idle + 1;
            self.pass_turns(idle);
            quiet = match self.read() {
                true => quiet + idle + 1,
                false => 0,
            };
            self.pass_turns(1);
        }
        self.pass_turns(left);
    }

    fn pass_turns(&mut self, turns: u32) {
        self.quay.turn = (self.quay.turn + turns) % ROUND;
    }

    /// The turns before the next reader's that is not at its end; there is one.
    fn turns_to_a_reader(&self) -> u32 {
        let twice = self.active | self.active << ROUND;
        (twice >> self.quay.turn).trailing_zeros()
    }

    /// The turn's reader, which is not at its end, reads its next page. Whether it was
    /// cached.
    #[inline]
    fn read(&mut self) -> bool {
        let slot = self.quay.turn as usize;
        let record = self.quay.records[slot];
        let (file, page) = (record.file() % FILES, record.position() + 1);
        let is_hit = has(self.image, CACHED, record.next());
        if !is_hit {
            self.fetch(file, page);
        }
        self.quay.step(slot);
        if page == record.last() {
            self.active &= !(1 << slot);
        }
        if !self.quay.is_ahead(file, page) {
            self.past[file] = self.past[file].max(page * 8 + file as u32);
        }
        self.heads_stale |= 1 << file;
        self.reads += 1;
        is_hit
    }

    /// The page is fetched and arrives, while its reader is still before it.
    fn fetch(&mut self, file: usize, page: u32) {
        let key = key(file, page);
        self.fetches += 1;
        if self.taken >= self.frames {
            self.make_room(file, key);
        }
        put(self.image, CACHED, key);
        self.taken += 1;
        self.tops[file] = self.tops[file].max(page);
        self.bottoms[file] = self.bottoms[file].min(page - 1);
        if let Some(surpluses) = &mut self.surpluses {
            surpluses.grow(file);
        }
    }

    /// Drops a page for one in fetch. That one counts as cached, so with T above 0 use times
    /// of its file may be others now; with T 0 they do not depend on it.
    fn make_room(&mut self, file: usize, key: usize) {
        if self.quay.fetch_time == 0 {
            self.drop_one();
            return;
        }
        self.heads_stale |= 1 << file;
        put(self.image, IN_FETCH, key);
        self.drop_one();
        take(self.image, IN_FETCH, key);
    }

    fn drop_one(&mut self) {
        let key = match &self.surpluses {
            None => self.page_to_give_up(),
            Some(surpluses) => {
                let file = surpluses.file_to_give_up();
                self.page_of_file(file)
            }
        };
        let (file, page) = (
            key / FILE_PAGES as usize % FILES,
            key as u32 % FILE_PAGES + 1,
        );
        take(self.image, CACHED, key);
        self.taken -= 1;
        self.heads_stale |= 1 << file;
        if self.past[file] > 0 {
            self.past[file] = self.past_below(file, page);
        }
        if page == self.tops[file] {
            self.tops[file] -= 1;
        }
        if let Some(surpluses) = &mut self.surpluses {
            surpluses.shrink(file);
        }
    }

    /// The largest past page of a file, once the one above went.
    fn past_below(&mut self, file: usize, page: u32) -> u32 {
        if page - 1 <= self.bottoms[file] {
            return 0;
        }
        let maps = Maps::of(self.image, file);
        let below = last_cached(maps, page - 1);
        if below == 0 {
            self.bottoms[file] = page - 1;
        }
        self.quay.past_of(maps, file, below)
    }

    /// The head of the steal order by the 1989 rule.
    fn page_to_give_up(&mut self) -> usize {
        self.look_for_past(0xFF);
        let past = self.past.into_iter().fold(0, u32::max);
        if past > 0 {
            return key_of_past(past);
        }
        self.look_for_heads(0xFF);
        let (mut highest, mut chosen) = (0, 0);
        for (file, head) in self.heads.iter().enumerate() {
            let rank = self.by_seat(head.rank);
            if rank > highest {
                (highest, chosen) = (rank, file);
            }
        }
        key(chosen, self.heads[chosen].page)
    }

    /// The same for one file that has cached pages.
    fn page_of_file(&mut self, file: usize) -> usize {
        self.look_for_past(1 << file);
        if self.past[file] > 0 {
            return key_of_past(self.past[file]);
        }
        self.look_for_heads(1 << file);
        key(file, self.heads[file].page)
    }

    /// Looks for the past page of those of these files of which it is not known.
    fn look_for_past(&mut self, files: u32) {
        let mut left = self.past_stale & files;
        self.past_stale &= !files;
        while left != 0 {
            let file = left.trailing_zeros() as usize % FILES;
            left &= left - 1;
            let maps = Maps::of(self.image, file);
            self.tops[file] = last_cached(maps, self.tops[file]);
            self.past[file] = self.quay.past_of(maps, file, self.tops[file]);
        }
    }

    /// The same for the heads; no page of these files is past.
    fn look_for_heads(&mut self, files: u32) {
        let mut left = self.heads_stale & files;
        self.heads_stale &= !files;
        while left != 0 {
            let file = left.trailing_zeros() as usize % FILES;
            left &= left - 1;
            let maps = Maps::of(self.image, file);
            let head = self.quay.head_ahead(maps, file, self.tops[file], 0);
            let slot = (head.rank + u64::from(self.quay.turn)) % 16;
            self.heads[file] = Head {
                rank: head.rank / 16 * 16 + slot,
                ..head
            };
        }
    }

    /// A rank by the seat distance as it is now.
    #[inline]
    fn by_seat(&self, rank: u64) -> u64 {
        rank / 16 * 16 + (rank + 16 - u64::from(self.quay.turn)) % 16
    }

    /// How many turns go by before one meets a page that is not cached. A reader that gets
    /// to its last page over cached ones meets none.
    fn turns_without_a_fetch(&self) -> u32 {
        let mut turns = u32::MAX;
        for (slot, distance) in self.active_slots() {
            let record = self.quay.records[slot];
            let stretch = stretch(self.image, record);
            if record.moved(stretch).has_pages_left() {
                turns = turns.min(distance + ROUND * stretch);
            }
        }
        turns
    }

    /// So many turns, none of which meets a page that is not cached.
    fn pass(&mut self, turns: u32) {
        for (slot, distance) in self.active_slots() {
            let record = self.quay.records[slot];
            let own = (turns + ROUND - 1).saturating_sub(distance) / ROUND;
            let pages = own.min(record.last() - record.position());
            self.reads += u64::from(pages);
            self.quay.records[slot] = record.moved(pages);
            if record.position() + pages == record.last() {
                self.active &= !(1 << slot);
            }
        }
        for file in 0..FILES {
            self.quay.settle(file);
        }
        self.past_stale = 0xFF;
        self.heads_stale = 0xFF;
        self.pass_turns(turns);
    }

    /// The slots whose reader has pages left, with their seat distances.
    fn active_slots(&self) -> impl Iterator<Item = (usize, u32)> {
        let (active, turn) = (self.active, self.quay.turn);
        let slots = (0..ROUND).filter(move |slot| active >> slot & 1 == 1);
        slots.map(move |slot| (slot as usize, (slot + ROUND - turn) % ROUND))
    }

    /// Writes positions and turn; the map is written already.
    fn save(&mut self) {
        self.image[TURN] = self.quay.turn as u8;
        for (slot, record) in self.quay.records.iter().enumerate() {
            put_position(self.image, slot, record.position());
        }
    }
}

/// How many pages behind a reader's position are cached without a gap, up to its last page.
fn stretch(image: &Image, record: Record) -> u32 {
    let (position, last) = (record.position(), record.last());
    let maps = Maps::of(image, record.file());
    let mut word = position as usize / 64;
    let mut missing = !maps.cached(word) & u64::MAX << (position % 64);
    while missing == 0 {
        word += 1;
        if word as u32 * 64 >= last {
            return last - position;
        }
        missing = !maps.cached(word);
    }
    (word as u32 * 64 + missing.trailing_zeros()).min(last) - position
}
