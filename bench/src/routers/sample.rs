//! Rows for tests: every short one, and random ones of a given density.

use niraflue::BLANK;

/// Numbers that look random, the same for the same seed (xorshift).
pub struct Random(u64);

impl Random {
    pub fn new(seed: u64) -> Random {
        Random(seed.wrapping_mul(0x9e37_79b9_7f4a_7c15) | 1)
    }

    pub fn below(&mut self, bound: usize) -> usize {
        self.0 ^= self.0 << 13;
        self.0 ^= self.0 >> 7;
        self.0 ^= self.0 << 17;
        (self.0 >> 33) as usize % bound
    }

    /// A row without lone labels, with at most `open` nets open: nets begin, are touched and end at
    /// random until `nodes` nodes stand there, at most 500; then each open net ends.
    pub fn row(&mut self, nodes: usize, open: usize) -> Vec<u8> {
        let mut row = Vec::new();
        let mut nets: Vec<u8> = Vec::new();
        let mut next = self.below(255) as u8;
        while row.len() < nodes || !nets.is_empty() {
            let closing = row.len() >= nodes;
            if nets.is_empty() || !closing && nets.len() < open && self.below(3) > 0 {
                row.push(next);
                nets.push(next);
                next = following(next);
            } else {
                let at = self.below(nets.len());
                row.push(nets[at]);
                if closing || self.below(2) == 0 {
                    nets.swap_remove(at);
                }
            }
        }
        row
    }

    /// The same row with blanks put in at random, at most as many as it has nodes, and no more than
    /// 512 nodes in all.
    pub fn with_blanks(&mut self, row: &[u8]) -> Vec<u8> {
        let mut row = row.to_vec();
        let most = row.len().min(512 - row.len());
        for _ in 0..self.below(most + 1) {
            row.insert(self.below(row.len() + 1), BLANK);
        }
        row
    }

    /// A row that has a placing: the same, with at most Ku + Kl nets in an order, and every pin at
    /// a position that it reaches.
    pub fn placed_row(&mut self, nodes: usize, ku: usize, kl: usize) -> Vec<u8> {
        let mut row = Vec::new();
        let mut order: Vec<u8> = Vec::new();
        let mut next = self.below(255) as u8;
        while row.len() < nodes || !order.is_empty() {
            let closing = row.len() >= nodes;
            let opens = order.is_empty() || !closing && order.len() < ku + kl && self.below(3) > 0;
            let count = order.len() + opens as usize;
            let highest = count.saturating_sub(kl + 1);
            let at = highest + self.below(count.min(ku + 1) - highest);
            if opens {
                order.insert(at, next);
                next = following(next);
            }
            row.push(order[at]);
            if !opens && (closing || self.below(2) == 0) {
                order.remove(at);
            }
        }
        row
    }
}

/// The next of the labels that a net may have.
fn following(label: u8) -> u8 {
    match label {
        254 => 0,
        _ => label + 1,
    }
}

/// Gives each row of 2 to `most` nodes without lone labels once, with labels 0, 1, 2 in the order
/// of their first nodes, and blanks.
pub fn for_each_row(most: usize, each: &mut dyn FnMut(&[u8])) {
    extend(&mut Vec::new(), &mut Vec::new(), most, each);
}

/// `times` says how often each label stands in `row`.
fn extend(row: &mut Vec<u8>, times: &mut Vec<usize>, most: usize, each: &mut dyn FnMut(&[u8])) {
    if row.len() > 1 && times.iter().all(|&k| k > 1) {
        each(row);
    }
    if row.len() == most {
        return;
    }
    row.push(BLANK);
    extend(row, times, most, each);
    row.pop();
    for label in 0..=times.len() {
        if label == times.len() {
            times.push(0);
        }
        times[label] += 1;
        row.push(label as u8);
        extend(row, times, most, each);
        row.pop();
        times[label] -= 1;
        if times[label] == 0 {
            times.pop();
        }
    }
}
