//! Labels side by side, in as few rows as they need.

/// For each label, given by its start and width and sorted by start, the row in
/// which it stands: the first one with room for it and a gap.
pub fn rows(labels: &[(usize, usize)], gap: usize) -> Vec<usize> {
    let mut ends: Vec<usize> = Vec::new(); // where each row is free again
    let mut rows = Vec::new();
    for &(start, width) in labels {
        let row = ends.iter().position(|&end| end <= start);
        let row = row.unwrap_or(ends.len());
        ends.resize(ends.len().max(row + 1), 0);
        ends[row] = start + width + gap;
        rows.push(row);
    }
    rows
}
