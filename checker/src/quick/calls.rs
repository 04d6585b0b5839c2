//! The calls, answered by the numbers of the C boundary.

use super::{has, put, take, Flat, Reader, EMPTY, RUNNING, WAITING};
use crate::call::Call;

/// The number of an answer, or of a refusal.
type Outcome = Result<u64, u64>;

/// An answer without a page.
fn letter(letter: u8) -> u64 {
    u64::from(letter) << 16
}

/// An answer with a page.
fn letter_with(answer: u8, key: usize) -> u64 {
    letter(answer) + key as u64 + 1
}

/// What a read met.
enum Met {
    End,
    Hit(usize),
    Wait(usize),
    Fetch(usize),
}

impl Flat {
    pub(super) fn call(&mut self, call: Call) -> Outcome {
        match call {
            Call::Attach {
                slot,
                file,
                pace,
                start,
                last,
            } => self.attach(slot, file, pace, start, last),
            Call::Detach { slot } => self.detach(slot),
            Call::Read { slot } => self.read(slot),
            Call::Arrive { file, page } => self.arrive(file, page),
            Call::Lost { file, page } => self.lost(file, page),
            Call::Prefetch => Ok(self.prefetch()),
            Call::Steal => Ok(self.steal()),
            Call::Run { turns } => self.run(turns),
            Call::Measure {
                slot,
                interval,
                blocked,
            } => self.measure(slot, interval, blocked),
        }
    }

    fn attach(&mut self, slot: u64, file: u64, pace: u64, start: u64, last: u64) -> Outcome {
        if slot > 15 {
            return Err(2);
        }
        if file > 7 || self.sizes[file as usize] == 0 {
            return Err(3);
        }
        if !(1..=1_000).contains(&pace) {
            return Err(4);
        }
        if last == 0 || last > u64::from(self.sizes[file as usize]) || start > last {
            return Err(15);
        }
        let reader = &mut self.readers[slot as usize];
        if reader.condition != EMPTY {
            return Err(5);
        }
        *reader = Reader {
            condition: RUNNING,
            file: file as usize,
            pace: pace as u32,
            position: start as u32,
            last: last as u32,
            mark: start as u32,
        };
        let attaches = &mut self.attaches[file as usize];
        *attaches = (*attaches + 1).min(65_535);
        Ok(letter(b'O'))
    }

    fn detach(&mut self, slot: u64) -> Outcome {
        let slot = self.seated(slot)?;
        self.readers[slot] = Reader::default();
        Ok(letter(b'O'))
    }

    fn read(&mut self, slot: u64) -> Outcome {
        let slot = self.seated(slot)?;
        if self.readers[slot].condition == WAITING {
            return Err(7);
        }
        Ok(match self.meet(slot) {
            Met::End => letter(b'Z'),
            Met::Hit(key) => letter_with(b'H', key),
            Met::Wait(key) => letter_with(b'W', key),
            Met::Fetch(key) => letter_with(b'F', key),
        })
    }

    fn steal(&mut self) -> u64 {
        match self.drop_one() {
            Some(key) => letter_with(b'S', key),
            None => letter(b'U'),
        }
    }

    fn arrive(&mut self, file: u64, page: u64) -> Outcome {
        let key = self.fetched(file, page)?;
        Ok(match self.admit(key) {
            Some(dropped) => letter_with(b'I', dropped),
            None => letter(b'I'),
        })
    }

    fn lost(&mut self, file: u64, page: u64) -> Outcome {
        let key = self.fetched(file, page)?;
        self.close(key);
        Ok(letter(b'O'))
    }

    fn prefetch(&mut self) -> u64 {
        match self.next_to_fetch() {
            Some(key) => {
                put(&mut self.in_fetch, key);
                letter_with(b'F', key)
            }
            None => letter(b'U'),
        }
    }

    fn run(&mut self, turns: u64) -> Outcome {
        if turns > 16_384 {
            return Err(11);
        }
        if self.in_fetch.iter().any(|&word| word != 0) {
            return Err(10);
        }
        let (mut fetches, mut reads) = (0, 0);
        for _ in 0..turns {
            if self.readers[self.turn].condition != EMPTY {
                let mut met = self.meet(self.turn);
                if let Met::Fetch(key) = met {
                    fetches += 1;
                    self.admit(key);
                    met = self.meet(self.turn);
                }
                if let Met::Hit(_) = met {
                    reads += 1;
                }
            }
            self.turn = (self.turn + 1) % 16;
        }
        Ok((1 << 32) + (fetches << 16) + reads)
    }

    fn measure(&mut self, slot: u64, interval: u64, blocked: u64) -> Outcome {
        let slot = self.seated(slot)?;
        if interval == 0 || interval > 1_000_000 || blocked > interval {
            return Err(16);
        }
        let reader = &mut self.readers[slot];
        let ticks = (interval - blocked) as u32;
        if let Some(pace) = ticks.checked_div(reader.position - reader.mark) {
            reader.pace = pace.clamp(1, 1_000);
        }
        reader.mark = reader.position;
        Ok(letter(b'O'))
    }

    /// A running reader's read.
    fn meet(&mut self, slot: usize) -> Met {
        let reader = &mut self.readers[slot];
        if reader.position == reader.last {
            return Met::End;
        }
        let key = reader.next();
        if has(&self.cached, key) {
            reader.position += 1;
            return Met::Hit(key);
        }
        reader.condition = WAITING;
        if has(&self.in_fetch, key) {
            return Met::Wait(key);
        }
        put(&mut self.in_fetch, key);
        Met::Fetch(key)
    }

    /// Caches a page that was in fetch; gives the page dropped for it, which is chosen
    /// before the page leaves fetch.
    fn admit(&mut self, key: usize) -> Option<usize> {
        let dropped = if self.taken >= self.frames {
            self.drop_one()
        } else {
            None
        };
        self.close(key);
        put(&mut self.cached, key);
        self.taken += 1;
        dropped
    }

    /// Takes a page out of fetch and lets its waiters run.
    fn close(&mut self, key: usize) {
        take(&mut self.in_fetch, key);
        for reader in &mut self.readers {
            if reader.condition == WAITING && reader.next() == key {
                reader.condition = RUNNING;
            }
        }
    }

    fn drop_one(&mut self) -> Option<usize> {
        let key = self.page_to_give_up()?;
        take(&mut self.cached, key);
        self.taken -= 1;
        Some(key)
    }

    /// A slot with a reader, or 2, 6.
    fn seated(&self, slot: u64) -> Result<usize, u64> {
        if slot > 15 {
            return Err(2);
        }
        if self.readers[slot as usize].condition == EMPTY {
            return Err(6);
        }
        Ok(slot as usize)
    }

    /// The key of a page in fetch, or 3, 8, 9.
    fn fetched(&self, file: u64, page: u64) -> Result<usize, u64> {
        if file > 7 || self.sizes[file as usize] == 0 {
            return Err(3);
        }
        if page == 0 || page > u64::from(self.sizes[file as usize]) {
            return Err(8);
        }
        let key = (file * 1_024 + page - 1) as usize;
        if !has(&self.in_fetch, key) {
            return Err(9);
        }
        Ok(key)
    }
}
