//! The saved image: Save and Restore.

use super::answer::Refusal;
use super::state::{Page, Reader, Rule, State};
use crate::limits::{EXPECTED, FETCH_TIME, FILES, FRAMES, LOOK_AHEAD, PACE, SIZE, SLOTS};
use crate::limits::{IMAGE_BYTES, LENGTHS, MARKED_IMAGE_BYTES, OLDER_IMAGE_BYTES};
use std::collections::{BTreeMap, BTreeSet};
use std::ops::RangeInclusive;

/// "A file has 128 map bytes".
const FILE_MAP_BYTES: u64 = 128;
const MAP_BYTES: usize = (FILES * FILE_MAP_BYTES) as usize;

/// "condition 0, 1 or 2 as listed above": "empty, running, or waiting".
const EMPTY: u64 = 0;
const RUNNING: u64 = 1;
const WAITING: u64 = 2;

impl State {
    /// **Save**: "12: buffer shorter; bytes after" 2,274 "keep."
    pub fn save(&self, buffer: &mut [u8]) -> Result<(), Refusal> {
        let room = buffer.get_mut(..IMAGE_BYTES).ok_or(Refusal::TooShort)?;
        room.copy_from_slice(&self.image());
        Ok(())
    }

    /// The bytes of Save, piece by piece as the paper lists them; A.2: "sixteen 2-byte
    /// marks at its end, 0 for an empty slot"; A.6: "a rule byte [...], a 0 byte, then
    /// eight 2-byte E and eight R".
    pub fn image(&self) -> Vec<u8> {
        let mut image = Vec::with_capacity(IMAGE_BYTES);
        put(&mut image, 2, self.frames);
        put(&mut image, 1, self.turn);
        put(&mut image, 1, 0);
        put(&mut image, 4, self.look_ahead);
        put(&mut image, 4, self.fetch_time);
        for size in self.sizes {
            put(&mut image, 2, size);
        }
        for slot in 0..SLOTS {
            match self.readers.get(&slot) {
                None => put(&mut image, 8, 0),
                Some(reader) => {
                    let condition = if reader.waiting { WAITING } else { RUNNING };
                    put(&mut image, 1, condition);
                    put(&mut image, 1, reader.file);
                    put(&mut image, 2, reader.pace);
                    put(&mut image, 2, reader.position);
                    put(&mut image, 2, reader.last);
                }
            }
        }
        put(&mut image, 4, 0);
        image.extend(map_of(&self.cached));
        image.extend(map_of(&self.in_fetch));
        for slot in 0..SLOTS {
            let mark = self.readers.get(&slot).map_or(0, |reader| reader.mark);
            put(&mut image, 2, mark);
        }
        put(&mut image, 1, self.rule.number());
        put(&mut image, 1, 0);
        for number in self.expected.into_iter().chain(self.attaches) {
            put(&mut image, 2, number);
        }
        image
    }

    /// **Restore**. "13: [...] The idle state comes back."
    pub fn restore(image: &[u8]) -> (State, Result<(), Refusal>) {
        match State::of_image(image) {
            Ok(state) => (state, Ok(())),
            Err(_) => (State::idle(), Err(Refusal::Image)),
        }
    }

    /// The state of an image, or in words the first rule of Restore that is found
    /// broken.
    pub fn of_image(image: &[u8]) -> Result<State, String> {
        let mut state = read_image(image)?;
        state.check_numbers()?;
        if image.len() == OLDER_IMAGE_BYTES {
            state.fill_last_pages();
        }
        for (&slot, reader) in &state.readers {
            state.check_reader(slot, reader)?;
        }
        state.check_pages()?;
        Ok(state)
    }

    /// No "value out of range" among the settings and the turn, and no "E above 1,000".
    /// Any R is one.
    fn check_numbers(&self) -> Result<(), String> {
        in_range("number of frames", self.frames, FRAMES)?;
        in_range("turn", self.turn, 0..=SLOTS - 1)?;
        in_range("look-ahead", self.look_ahead, LOOK_AHEAD)?;
        in_range("fetch time", self.fetch_time, FETCH_TIME)?;
        for (file, size) in (0..).zip(self.sizes) {
            in_range(&format!("size of file {file}"), size, SIZE)?;
        }
        for (file, readers) in (0..).zip(self.expected) {
            let name = format!("number of expected readers of file {file}");
            in_range(&name, readers, EXPECTED)?;
        }
        Ok(())
    }

    /// "0 there, in an old image, means the file's size": so it is for a slot
    /// that is taken, whatever the others have.
    fn fill_last_pages(&mut self) {
        let sizes = self.sizes;
        let old = self.readers.values_mut().filter(|reader| reader.last == 0);
        for reader in old {
            let size = sizes.get(reader.file as usize);
            reader.last = size.copied().unwrap_or(0);
        }
    }

    /// Restore's rules about one reader: no "value out of range", no "file of
    /// size 0", no "last page of 0" (an older one's is filled in by now), no "last
    /// page above the size or below the position, or a waiting reader at it", no
    /// mark above the position, and no "waiting reader whose next page is not in
    /// fetch".
    fn check_reader(&self, slot: u64, reader: &Reader) -> Result<(), String> {
        let &Reader {
            file,
            position,
            last,
            mark,
            waiting,
            ..
        } = reader;
        let size = self.size(file);
        in_range(&format!("pace of slot {slot}"), reader.pace, PACE)?;
        rule(size > 0, || {
            format!("slot {slot} reads file {file}, which has no pages")
        })?;
        rule(last > 0, || format!("the last page of slot {slot} is 0"))?;
        rule(last <= size, || {
            format!("the last page of slot {slot} is {last}, but its file has {size}")
        })?;
        rule(position <= last, || {
            format!("slot {slot} is at page {position}, above its last page {last}")
        })?;
        rule(mark <= position, || {
            format!("the mark of slot {slot} is {mark}, above its page {position}")
        })?;
        rule(!waiting || !reader.is_at_end(), || {
            format!("slot {slot} waits at its last page")
        })?;
        rule(
            !waiting || self.in_fetch.contains(&reader.next_page()),
            || format!("slot {slot} waits, but its next page is not in fetch"),
        )
    }

    /// Restore's rules about the maps: no "bit above the size", no "page in both
    /// maps", not "more cached pages than frames".
    fn check_pages(&self) -> Result<(), String> {
        for page in self.cached.iter().chain(&self.in_fetch) {
            let &Page { file, number } = page;
            let size = self.size(file);
            rule(number <= size, || {
                format!("page {number} of file {file} is in a map, but the file has {size}")
            })?;
        }
        if let Some(Page { file, number }) = self.cached.intersection(&self.in_fetch).next() {
            return Err(format!("page {number} of file {file} is in both maps"));
        }
        let (cached, frames) = (self.cached.len() as u64, self.frames);
        rule(cached <= frames, || {
            format!("more cached pages ({cached}) than frames ({frames})")
        })
    }
}

/// What a rule that is broken says.
fn rule(kept: bool, words: impl FnOnce() -> String) -> Result<(), String> {
    if kept {
        return Ok(());
    }
    Err(words())
}

fn in_range(name: &str, value: u64, range: RangeInclusive<u64>) -> Result<(), String> {
    rule(range.contains(&value), || {
        format!(
            "the {name} is {value}, not {} to {}",
            range.start(),
            range.end()
        )
    })
}

/// Reads what an image says, sound or not. Refused are "another length", a
/// condition that is none of the three, "an empty slot not all 0", "a 0 byte
/// that is not 0" and "A rule byte above 1".
fn read_image(image: &[u8]) -> Result<State, String> {
    let length = image.len();
    rule(LENGTHS.contains(&length), || {
        format!(
            "{length} bytes, not {IMAGE_BYTES}, or {MARKED_IMAGE_BYTES} or \
             {OLDER_IMAGE_BYTES} in an older image"
        )
    })?;
    let mut rest = image;
    let frames = take(&mut rest, 2);
    let turn = take(&mut rest, 1);
    take_zero(&mut rest, 1, "behind the turn")?;
    let look_ahead = take(&mut rest, 4);
    let fetch_time = take(&mut rest, 4);
    let sizes = std::array::from_fn(|_| take(&mut rest, 2));
    let mut readers = BTreeMap::new();
    for slot in 0..SLOTS {
        if let Some(reader) = take_reader(&mut rest, slot)? {
            readers.insert(slot, reader);
        }
    }
    take_zero(&mut rest, 4, "behind the readers")?;
    let (cached, rest) = rest.split_at(MAP_BYTES);
    let (in_fetch, mut rest) = rest.split_at(MAP_BYTES);
    if !rest.is_empty() {
        take_marks(&mut rest, &mut readers)?;
    }
    let weighting = take_weighting(rest)?;
    Ok(State {
        frames,
        look_ahead,
        fetch_time,
        sizes,
        readers,
        turn,
        cached: pages_of(cached),
        in_fetch: pages_of(in_fetch),
        ..weighting
    })
}

/// The idle state with the rule, E and R that stand at an image's end: "shorter ones are
/// read as 1989 with E and R 0".
fn take_weighting(mut rest: &[u8]) -> Result<State, String> {
    let mut state = State::idle();
    if rest.is_empty() {
        return Ok(state);
    }
    let number = take(&mut rest, 1);
    state.rule = Rule::of_number(number)
        .ok_or_else(|| format!("the rule byte is {number}, not 0 for 1989 or 1 for 1993"))?;
    take_zero(&mut rest, 1, "behind the rule")?;
    state.expected = std::array::from_fn(|_| take(&mut rest, 2));
    state.attaches = std::array::from_fn(|_| take(&mut rest, 2));
    Ok(state)
}

/// One record of 8 bytes: "condition [...]; file; pace 2; position 2", and "The
/// two 0 bytes of a reader in the image hold the last page". The mark is as in an
/// older image, equal to the position.
fn take_reader(rest: &mut &[u8], slot: u64) -> Result<Option<Reader>, String> {
    let waiting = match take(rest, 1) {
        EMPTY => {
            take_zero(rest, 7, &format!("in the empty slot {slot}"))?;
            return Ok(None);
        }
        RUNNING => false,
        WAITING => true,
        other => return Err(format!("slot {slot} has condition {other}, not 0 to 2")),
    };
    let [file, pace, position, last] = [1, 2, 2, 2].map(|bytes| take(rest, bytes));
    Ok(Some(Reader {
        waiting,
        ..Reader::running(file, pace, position, last)
    }))
}

/// "sixteen 2-byte marks at its end, 0 for an empty slot [...] else 13".
fn take_marks(rest: &mut &[u8], readers: &mut BTreeMap<u64, Reader>) -> Result<(), String> {
    for slot in 0..SLOTS {
        let mark = take(rest, 2);
        match readers.get_mut(&slot) {
            Some(reader) => reader.mark = mark,
            None => rule(mark == 0, || {
                format!("the mark of the empty slot {slot} is {mark}, not 0")
            })?,
        }
    }
    Ok(())
}

/// Puts a number in so many bytes, "little-endian".
pub(super) fn put(image: &mut Vec<u8>, bytes: usize, number: u64) {
    image.extend(&number.to_le_bytes()[..bytes]);
}

/// Takes so many bytes off the front as a little-endian number.
pub(super) fn take(rest: &mut &[u8], bytes: usize) -> u64 {
    let (field, behind) = rest.split_at(bytes);
    *rest = behind;
    let high_first = field.iter().rev();
    high_first.fold(0, |number, &byte| number << 8 | u64::from(byte))
}

/// Takes so many bytes off the front, all of which must be 0.
fn take_zero(rest: &mut &[u8], bytes: usize, place: &str) -> Result<(), String> {
    rule(take(rest, bytes) == 0, || {
        format!("a byte {place} is not 0")
    })
}

/// A map: "A file has 128 map bytes, page 1 in the lowest bit of the first."
fn map_of(pages: &BTreeSet<Page>) -> Vec<u8> {
    let mut map = vec![0; MAP_BYTES];
    for page in pages {
        let bit = page.number - 1;
        let byte = page.file * FILE_MAP_BYTES + bit / 8;
        map[byte as usize] |= 1 << (bit % 8);
    }
    map
}

/// The pages of a map.
fn pages_of(map: &[u8]) -> BTreeSet<Page> {
    let mut pages = BTreeSet::new();
    for (byte, &bits) in (0..).zip(map) {
        for bit in (0..8).filter(|bit| bits & (1 << bit) != 0) {
            pages.insert(Page {
                file: byte / FILE_MAP_BYTES,
                number: byte % FILE_MAP_BYTES * 8 + bit + 1,
            });
        }
    }
    pages
}
