//! The three calls that write into a lent list, and the number of two of them.

use super::answer::Refusal;
use super::state::{Page, State};
use crate::call::Order;

/// Restore of an image, then the list of an order, and "within the library" what
/// making the order reports: 13, 12, or 4,294,967,296 + keys × 65,536 + pages
/// tested. Gives the number and the list's numbers after it; a refusal leaves them.
pub fn list(order: Order, image: &[u8], list: &[u16]) -> (u64, Vec<u16>) {
    let (state, restored) = State::restore(image);
    let mut after = list.to_vec();
    let written = restored.and_then(|()| state.list(order, &mut after));
    let number = match written {
        Ok(count) => 4_294_967_296 + count as u64 * 65_536 + state.pages_tested(),
        Err(refusal) => refusal.number(),
    };
    (number, after)
}

impl State {
    /// **Steal list**: the keys of the steal order. Returns their count.
    pub fn steal_list(&self, list: &mut [u16]) -> Result<usize, Refusal> {
        self.list(Order::Steal, list)
    }

    /// **Fetch list**: the keys of the fetch order. Returns their count.
    pub fn fetch_list(&self, list: &mut [u16]) -> Result<usize, Refusal> {
        self.list(Order::Fetch, list)
    }

    fn list(&self, order: Order, list: &mut [u16]) -> Result<usize, Refusal> {
        let keys = keys_of(self.order(order));
        write(list, &keys)?;
        Ok(keys.len())
    }

    /// **Clusters** of a file: "low and high page by rising page. Clusters
    /// first: 3." Returns the count "of clusters (two numbers each)".
    pub fn clusters(&self, file: u64, list: &mut [u16]) -> Result<usize, Refusal> {
        self.check_file(file)?;
        let clusters = self.cluster_pages(file);
        let numbers: Vec<u16> = clusters
            .iter()
            .flat_map(|&(low, high)| [low as u16, high as u16])
            .collect();
        write(list, &numbers)?;
        Ok(clusters.len())
    }

    /// "A cluster is a longest unbroken stretch of cached pages of one file."
    /// It starts at a cached page whose page before is not, and ends at the
    /// first from there whose page behind is not.
    fn cluster_pages(&self, file: u64) -> Vec<(u64, u64)> {
        let cached = |number| self.cached.contains(&Page { file, number });
        let pages = 1..=self.size(file);
        let starts = pages.filter(|&low| cached(low) && !cached(low - 1));
        starts
            .map(|low| {
                let mut high = low;
                while cached(high + 1) {
                    high += 1;
                }
                (low, high)
            })
            .collect()
    }
}

fn keys_of(pages: Vec<Page>) -> Vec<u16> {
    pages.into_iter().map(|page| page.key() as u16).collect()
}

/// "All: 12, list too short. Past what is written the list is unchanged."
fn write(list: &mut [u16], numbers: &[u16]) -> Result<(), Refusal> {
    let room = list.get_mut(..numbers.len()).ok_or(Refusal::TooShort)?;
    room.copy_from_slice(numbers);
    Ok(())
}
