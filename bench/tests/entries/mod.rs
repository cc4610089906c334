//! What a sheet states of its nodes.

/// The kind and the position field of each node: p − 1, at a blank s.
pub fn entries(sheet: &[u8]) -> Vec<(u8, u8)> {
    let n = usize::from(sheet[0] & 3) << 8 | usize::from(sheet[1]);
    let bit = |at: usize| sheet[at / 8] >> (7 - at % 8) & 1;
    let field = |start: usize, width: usize| {
        (start..start + width).fold(0, |value, at| 2 * value + bit(at))
    };
    let entry = |start: usize| (field(start, 2), field(start + 2, 4));
    (0..n).map(|node| entry(16 + 6 * node)).collect()
}
