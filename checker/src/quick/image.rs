//! Restore and Save on the flat state.

use super::{Flat, Reader, EMPTY, FILES, SLOTS, WAITING, WORDS};
use crate::layout::{
    ATTACHES, CACHED, END, EXPECTED, FETCH_TIME, FILLER, FOUR_ZEROS, FRAMES, IN_FETCH, LOOK_AHEAD,
    MARKS, READERS, READER_BYTES, RULE, SIZES, TURN, ZERO_BYTE,
};

fn u16_at(image: &[u8], at: usize) -> u32 {
    u16::from_le_bytes([image[at], image[at + 1]]).into()
}

fn u32_at(image: &[u8], at: usize) -> u32 {
    u32::from_le_bytes([image[at], image[at + 1], image[at + 2], image[at + 3]])
}

fn read_map(bytes: &[u8]) -> [u64; WORDS] {
    let mut map = [0; WORDS];
    for (word, eight) in map.iter_mut().zip(bytes.chunks_exact(8)) {
        *word = u64::from_le_bytes(eight.try_into().unwrap());
    }
    map
}

fn write_map(bytes: &mut [u8], map: &[u64; WORDS]) {
    for (eight, word) in bytes.chunks_exact_mut(8).zip(map) {
        eight.copy_from_slice(&word.to_le_bytes());
    }
}

/// The bits of a file's word that lie above its size.
fn above(size: u32, word: usize) -> u64 {
    let below = size.saturating_sub(word as u32 * 64);
    u64::MAX.checked_shl(below).unwrap_or(0)
}

/// An image of 2,208 bytes with the last pages and marks that it stands for.
fn filled_in(older: &[u8; MARKS]) -> [u8; END] {
    let mut image = [0; END];
    image[..MARKS].copy_from_slice(older);
    for slot in 0..SLOTS {
        let at = READERS + READER_BYTES * slot;
        let (condition, file) = (older[at], usize::from(older[at + 1]));
        let mark = MARKS + 2 * slot;
        image.copy_within(at + 4..at + 6, mark);
        if condition != EMPTY && file < FILES && u16_at(older, at + 6) == 0 {
            let size = SIZES + 2 * file;
            image.copy_within(size..size + 2, at + 6);
        }
    }
    image
}

impl Flat {
    /// Nothing for an image that Restore refuses, and for an older one: "the C
    /// buffer use[s] the new length".
    pub(super) fn restore(image: &[u8]) -> Option<Flat> {
        if image.len() != END {
            return None;
        }
        let mut flat = Flat {
            frames: u16_at(image, FRAMES),
            turn: image[TURN].into(),
            look_ahead: u32_at(image, LOOK_AHEAD),
            fetch_time: u32_at(image, FETCH_TIME),
            sizes: [0; FILES],
            readers: [Reader::default(); SLOTS],
            cached: read_map(&image[CACHED..IN_FETCH]),
            in_fetch: read_map(&image[IN_FETCH..MARKS]),
            taken: 0,
            weighted: image[RULE] == 1,
            expected: std::array::from_fn(|file| u16_at(image, EXPECTED + 2 * file)),
            attaches: std::array::from_fn(|file| u16_at(image, ATTACHES + 2 * file)),
        };
        let numbers_fit = (1..=1_024).contains(&flat.frames)
            && flat.turn < SLOTS
            && image[ZERO_BYTE] == 0
            && (1..=2_000_000).contains(&flat.look_ahead)
            && flat.fetch_time <= 2_000_000
            && image[FOUR_ZEROS..CACHED] == [0; 4]
            && image[RULE] <= 1
            && image[FILLER] == 0
            && flat.expected.iter().all(|&readers| readers <= 1_000);
        if !numbers_fit {
            return None;
        }
        for (file, size) in flat.sizes.iter_mut().enumerate() {
            *size = u16_at(image, SIZES + 2 * file);
            if *size > 1_024 {
                return None;
            }
        }
        flat.count_maps()?;
        for slot in 0..SLOTS {
            let at = READERS + READER_BYTES * slot;
            let mark = u16_at(image, MARKS + 2 * slot);
            flat.readers[slot] = flat.reader_from(&image[at..at + READER_BYTES], mark)?;
        }
        Some(flat)
    }

    /// The same for an image of any length that there is: what a shorter one lacks at its
    /// end is 0.
    pub(super) fn restore_any(image: &[u8]) -> Option<Flat> {
        if let Ok(older) = <&[u8; MARKS]>::try_from(image) {
            return Flat::restore(&filled_in(older));
        }
        if image.len() == RULE {
            let mut longer = [0; END];
            longer[..RULE].copy_from_slice(image);
            return Flat::restore(&longer);
        }
        Flat::restore(image)
    }

    /// Counts the cached pages, if the maps may stand beside each other.
    fn count_maps(&mut self) -> Option<()> {
        for index in 0..WORDS {
            let (cached, in_fetch) = (self.cached[index], self.in_fetch[index]);
            let too_high = above(self.sizes[index / 16], index % 16);
            if cached & in_fetch != 0 || (cached | in_fetch) & too_high != 0 {
                return None;
            }
            self.taken += cached.count_ones();
        }
        (self.taken <= self.frames).then_some(())
    }

    fn reader_from(&self, record: &[u8], mark: u32) -> Option<Reader> {
        let condition = record[0];
        if condition == EMPTY {
            return (record == [0; 8] && mark == 0).then(Reader::default);
        }
        let file = usize::from(record[1]);
        let size = *self.sizes.get(file)?;
        let reader = Reader {
            condition,
            file,
            pace: u16_at(record, 2),
            position: u16_at(record, 4),
            last: u16_at(record, 6),
            mark,
        };
        let sound = condition <= WAITING
            && (1..=1_000).contains(&reader.pace)
            && (1..=size).contains(&reader.last)
            && reader.position <= reader.last
            && reader.mark <= reader.position
            && (condition != WAITING || self.may_wait(&reader));
        sound.then_some(reader)
    }

    fn may_wait(&self, reader: &Reader) -> bool {
        reader.position < reader.last && super::has(&self.in_fetch, reader.next())
    }

    /// Writes the state back over an image of the right length.
    pub(super) fn save(&self, image: &mut [u8]) {
        image[FRAMES..TURN].copy_from_slice(&(self.frames as u16).to_le_bytes());
        image[TURN] = self.turn as u8;
        image[ZERO_BYTE] = 0;
        image[LOOK_AHEAD..FETCH_TIME].copy_from_slice(&self.look_ahead.to_le_bytes());
        image[FETCH_TIME..SIZES].copy_from_slice(&self.fetch_time.to_le_bytes());
        for (field, size) in image[SIZES..READERS].chunks_exact_mut(2).zip(self.sizes) {
            field.copy_from_slice(&(size as u16).to_le_bytes());
        }
        let records = image[READERS..FOUR_ZEROS].chunks_exact_mut(READER_BYTES);
        for (record, reader) in records.zip(&self.readers) {
            record[0] = reader.condition;
            record[1] = reader.file as u8;
            record[2..4].copy_from_slice(&(reader.pace as u16).to_le_bytes());
            record[4..6].copy_from_slice(&(reader.position as u16).to_le_bytes());
            record[6..8].copy_from_slice(&(reader.last as u16).to_le_bytes());
        }
        image[FOUR_ZEROS..CACHED].fill(0);
        write_map(&mut image[CACHED..IN_FETCH], &self.cached);
        write_map(&mut image[IN_FETCH..MARKS], &self.in_fetch);
        for (field, reader) in image[MARKS..RULE].chunks_exact_mut(2).zip(&self.readers) {
            field.copy_from_slice(&(reader.mark as u16).to_le_bytes());
        }
        image[RULE] = self.weighted.into();
        image[FILLER] = 0;
        let counts = self.expected.iter().chain(&self.attaches);
        for (field, &count) in image[EXPECTED..END].chunks_exact_mut(2).zip(counts) {
            field.copy_from_slice(&(count as u16).to_le_bytes());
        }
    }
}
