//! Steal list and Fetch list on an image: the walk, then a sort; under the 1993 rule one
//! for each file, and then the files by turns.

use super::decide::{rank, NONE};
use super::{has, Flat, FILES, PAGES};
use crate::call::Order;

/// The list of an order on an image of any length that there is: Restore, the order, and
/// the number.
pub fn list(order: Order, image: &[u8], list: &mut [u16]) -> u64 {
    let Some(flat) = Flat::restore_any(image) else {
        return 13;
    };
    let mut places = [0; PAGES];
    let (count, tested) = match order {
        Order::Steal => flat.steal_places(&mut places),
        Order::Fetch => flat.fetch_places(&mut places),
    };
    let Some(room) = list.get_mut(..count) else {
        return 12;
    };
    let places = &mut places[..count];
    match order {
        Order::Steal if flat.weighted => flat.write_by_weight(places, room),
        _ => write_sorted(places, room),
    }
    (1 << 32) + ((count as u64) << 16) + tested
}

/// Writes the keys of places, the lowest place's first.
fn write_sorted(places: &mut [u64], room: &mut [u16]) {
    places.sort_unstable();
    for (number, place) in room.iter_mut().zip(places) {
        *number = key_of(*place);
    }
}

fn key_of(place: u64) -> u16 {
    (place % PAGES as u64) as u16
}

/// A page's place, to be sorted by, with its key in the lowest 13 bits.
fn place(rank: u64, key: usize) -> u64 {
    rank * PAGES as u64 + key as u64
}

impl Flat {
    /// Leaves the places of the cached pages, the head's lowest. Gives their count
    /// and the pages tested.
    fn steal_places(&self, places: &mut [u64; PAGES]) -> (usize, u64) {
        const HIGHEST: u64 = 4 << 32;
        let mut use_keys = [NONE; PAGES];
        let tested = self.walk(&mut use_keys);
        let ahead = self.pages_ahead();
        let mut count = 0;
        for (index, &word) in self.cached.iter().enumerate() {
            let mut left = word;
            while left != 0 {
                let key = index * 64 + left.trailing_zeros() as usize;
                left &= left - 1;
                let rank = rank(key, use_keys[key], has(&ahead, key));
                places[count] = place(HIGHEST - rank, key);
                count += 1;
            }
        }
        (count, tested)
    }

    /// The same for the pages to fetch.
    fn fetch_places(&self, places: &mut [u64; PAGES]) -> (usize, u64) {
        let mut use_keys = [NONE; PAGES];
        let tested = self.walk(&mut use_keys);
        let mut count = 0;
        for (key, &use_key) in use_keys.iter().enumerate() {
            if use_key != NONE && !has(&self.cached, key) && !has(&self.in_fetch, key) {
                places[count] = place(use_key.into(), key);
                count += 1;
            }
        }
        (count, tested)
    }

    /// Writes the keys of the cached pages by the 1993 rule: they come file by file, and
    /// of each file the one with the lowest place goes first.
    fn write_by_weight(&self, places: &mut [u64], room: &mut [u16]) {
        let (weights, mut left) = (self.weights(), self.cached_by_file());
        let (mut next, mut start) = ([0; FILES], 0);
        for (file, &count) in left.iter().enumerate() {
            let end = start + count as usize;
            places[start..end].sort_unstable();
            next[file] = start;
            start = end;
        }
        for number in room {
            let Some(file) = weights.file_to_give_up(&left) else {
                break;
            };
            *number = key_of(places[next[file]]);
            next[file] += 1;
            left[file] -= 1;
        }
    }
}
