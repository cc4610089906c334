//! Rows, legal sheets and damage by chance.

use crate::common::Random;
use niraflue::{sheet_size, BLANK, MAX_NODES};
use std::iter::repeat_n;

/// A node count: mostly short, sometimes at the limits or beyond.
pub fn any_length(random: &mut Random) -> usize {
    match random.below(24) {
        0 => random.below(3),
        1 => 505 + random.below(12),
        2 => 200 + random.below(401),
        3..=5 => 30 + random.below(170),
        _ => 2 + random.below(28),
    }
}

/// Track counts under which some row has a placing.
pub fn legal_streets(random: &mut Random) -> (u8, u8) {
    let both = 1 + random.below(15);
    ((both / 4) as u8, (both % 4) as u8)
}

/// Track counts, mostly such that some row has a placing.
pub fn any_streets(random: &mut Random) -> (u8, u8) {
    let (ku, kl) = legal_streets(random);
    match random.below(48) {
        0 => (4, kl),
        1 => (ku, 4),
        2 => (255, kl),
        3 => (ku, random.below(256) as u8),
        4 => (0, 0),
        _ => (ku, kl),
    }
}

/// The same nets under other labels, and the same blanks.
pub fn renamed(random: &mut Random, row: &[u8]) -> Vec<u8> {
    let mut names: Vec<u8> = (0..BLANK).collect();
    for at in (1..names.len()).rev() {
        names.swap(at, random.below(at + 1));
    }
    names.push(BLANK);
    row.iter().map(|&label| names[usize::from(label)]).collect()
}

/// The same row with blanks put in by chance, and no more than 512 nodes if it has no more.
pub fn with_blanks(random: &mut Random, row: &[u8]) -> Vec<u8> {
    let mut row = row.to_vec();
    let room = MAX_NODES.saturating_sub(row.len());
    for _ in 0..random.below(room.min(2 * row.len()) + 1) {
        row.insert(random.below(row.len() + 1), BLANK);
    }
    row
}

/// Rows of every sort: of blanks alone, of lone labels, of nets woven by chance, with a placing
/// under these streets, and nearly so, by a few changes or for want of one track.
pub fn any_row(random: &mut Random, (ku, kl): (u8, u8)) -> Vec<u8> {
    let n = any_length(random);
    let streets = match (ku.min(3), kl.min(3)) {
        (0, 0) => (1, 1),
        taken => taken,
    };
    let row = match random.below(8) {
        0 if random.below(4) == 0 => vec![BLANK; n],
        0 => {
            let labels = 1 + random.below(n / 2 + 1);
            (0..n).map(|_| random.below(labels) as u8).collect()
        }
        1..=2 => {
            let most = 1 + random.below(7);
            woven(random, n, most)
        }
        3..=4 => legal(random, n, streets).0,
        5 => legal(random, n, (streets.0, streets.1 + 1)).0,
        _ => {
            let row = legal(random, n, streets).0;
            changed(random, &row)
        }
    };
    renamed(random, &row)
}

/// A row with one or a few small changes, which may leave it joining the same pins.
pub fn changed(random: &mut Random, row: &[u8]) -> Vec<u8> {
    let mut row = row.to_vec();
    let n = row.len();
    if n < 2 {
        return row;
    }
    match random.below(9) {
        0 => row[random.below(n)] = row[random.below(n)],
        1 => row[random.below(n)] = random.below(256) as u8,
        2 => row[random.below(n)] = BLANK,
        3 => row.truncate(n - 1),
        4 => row.push(row[random.below(n)]),
        _ => swap_neighbours(random, &mut row),
    }
    row
}

fn swap_neighbours(random: &mut Random, row: &mut [u8]) {
    for _ in 0..=random.below(4) {
        let at = random.below(row.len() - 1);
        row.swap(at, at + 1);
    }
}

/// A row of at least a hundred nodes that has a placing up to its last thirty nodes, if its streets
/// are legal, and often none beyond.
pub fn late_row(random: &mut Random, streets: (u8, u8)) -> Vec<u8> {
    let n = 100 + random.below(413);
    let mut row = legal(random, n, streets).0;
    for _ in 0..4 {
        swap_neighbours(random, &mut row[n - 30..]);
    }
    row
}

#[derive(Clone, Copy, PartialEq)]
enum Kind {
    Begin,
    Middle,
    End,
    Blank,
}

/// How often each kind comes.
type Weights = [usize; 4];

/// Weights of a row with blanks or without.
fn any_weights(random: &mut Random) -> Weights {
    let [begin, middle, end, blank] = [0; 4].map(|_| 1 + random.below(8));
    [begin, middle, end, blank * random.below(2)]
}

/// Kinds by chance of `n` nodes with at most `most` nets open at once, all of which end; for one
/// node, which cannot be a net, a begin if it is no blank.
fn kinds(random: &mut Random, weights: Weights, n: usize, most: usize) -> Vec<Kind> {
    let mut open = 0;
    (0..n)
        .rev()
        .map(|left| {
            let kind = next_kind(random, weights, open, most, left);
            open = match kind {
                Kind::Begin => open + 1,
                Kind::Middle | Kind::Blank => open,
                Kind::End => open - 1,
            };
            kind
        })
        .collect()
}

/// A kind after which `left` more nodes can end every net.
fn next_kind(random: &mut Random, weights: Weights, open: usize, most: usize, left: usize) -> Kind {
    let blanks = weights[3] > 0;
    let can_end = |nets: usize| nets <= left && (blanks || (nets, left) != (0, 1));
    let possible = [
        (Kind::Begin, open < most && can_end(open + 1)),
        (Kind::Middle, open > 0 && can_end(open)),
        (Kind::End, open > 0 && can_end(open - 1)),
        (Kind::Blank, can_end(open)),
    ];
    let choices: Vec<Kind> = possible
        .into_iter()
        .zip(weights)
        .filter(|((_, can), _)| *can)
        .flat_map(|((kind, _), weight)| repeat_n(kind, weight))
        .collect();
    match choices.len() {
        0 => Kind::Begin,
        count => choices[random.below(count)],
    }
}

/// A row whose nets are touched in any order, so that it often has no placing.
fn woven(random: &mut Random, n: usize, most: usize) -> Vec<u8> {
    let weights = any_weights(random);
    let mut order = Order::default();
    kinds(random, weights, n, most)
        .into_iter()
        .map(|kind| {
            let others = order.others(kind);
            label(order.touch(kind, random.below(others + 1)))
        })
        .collect()
}

/// A row and the sheet of some legal placing of it under these streets, which may not be its first.
pub fn legal(random: &mut Random, n: usize, streets: (u8, u8)) -> (Vec<u8>, Vec<u8>) {
    let weights = any_weights(random);
    let (pins, sheet) = placed(random, weights, n, streets);
    (pins.into_iter().map(label).collect(), sheet)
}

/// The nets and the sheet of a legal placing of 256 nets, more than the reader has labels for.
pub fn crowded(random: &mut Random, streets: (u8, u8)) -> (Vec<Option<usize>>, Vec<u8>) {
    let weights = [1 + random.below(8), 0, 1 + random.below(8), 0];
    placed(random, weights, MAX_NODES, streets)
}

/// The net of each node, none at a blank, and the sheet of a legal placing.
fn placed(
    random: &mut Random,
    weights: Weights,
    n: usize,
    (ku, kl): (u8, u8),
) -> (Vec<Option<usize>>, Vec<u8>) {
    let (upper, lower) = (usize::from(ku), usize::from(kl));
    let mut fields = vec![(upper, 4), (lower, 2), (n, 10)];
    let mut order = Order::default();
    let most = upper + lower - random.below((upper + lower).min(3));
    let pins = kinds(random, weights, n, most)
        .into_iter()
        .map(|kind| {
            let others = order.others(kind);
            let (least, largest) = (others.saturating_sub(lower), others.min(upper));
            let above = least + random.below(largest - least + 1);
            fields.extend([(kind as usize, 2), (above, 4)]);
            order.touch(kind, above)
        })
        .collect();
    (pins, packed(&fields))
}

/// The label of a node. Only rows that are too long for the router have more nets than labels.
fn label(net: Option<usize>) -> u8 {
    net.map_or(BLANK, |net| (net % usize::from(BLANK)) as u8)
}

/// The open nets from the top, numbered 0, 1, 2 in the order of their first nodes.
#[derive(Default)]
struct Order {
    open: Vec<usize>,
    begun: usize,
}

impl Order {
    /// The nets that are open at a node, its own not counted.
    fn others(&self, kind: Kind) -> usize {
        self.open.len() - usize::from(matches!(kind, Kind::Middle | Kind::End))
    }

    /// The net of a node with `above` of the others above it.
    fn touch(&mut self, kind: Kind, above: usize) -> Option<usize> {
        match kind {
            Kind::Begin => {
                self.open.insert(above, self.begun);
                self.begun += 1;
                Some(self.open[above])
            }
            Kind::Middle => Some(self.open[above]),
            Kind::End => Some(self.open.remove(above)),
            Kind::Blank => None,
        }
    }
}

fn packed(fields: &[(usize, usize)]) -> Vec<u8> {
    let width: usize = fields.iter().map(|field| field.1).sum();
    let mut bytes = vec![0; width.div_ceil(8)];
    let mut start = 0;
    for &(value, width) in fields {
        set(&mut bytes, start, width, value);
        start += width;
    }
    bytes
}

/// Puts `value` into the field of `width` bits that starts `start` bits into `bytes`.
fn set(bytes: &mut [u8], start: usize, width: usize, value: usize) {
    for (place, at) in (start..start + width).rev().enumerate() {
        let mask = 0x80 >> (at % 8);
        bytes[at / 8] &= !mask;
        if value >> place & 1 == 1 {
            bytes[at / 8] |= mask;
        }
    }
}

/// A legal sheet after one damage, which may leave it legal.
pub fn damaged(random: &mut Random, sheet: &[u8]) -> Vec<u8> {
    let mut sheet = sheet.to_vec();
    let length = sheet.len();
    match random.below(11) {
        0 => sheet[random.below(length)] ^= 1 << random.below(8),
        1 => sheet[random.below(length)] = random.below(256) as u8,
        2 => sheet.truncate(random.below(length)),
        3 => {
            let more = 1 + random.below(4);
            sheet.extend(random.bytes(more));
        }
        4 => {
            let length = random.below(60);
            sheet = random.bytes(length);
        }
        5 => {
            let body = random.bytes(length - 2);
            sheet[2..].copy_from_slice(&body);
        }
        6 => damage_head(random, &mut sheet),
        7..=8 => narrow(random, &mut sheet),
        _ => damage_nodes(random, &mut sheet),
    }
    sheet
}

/// Other tracks, or a node count at an edge, with the length that fits it or not.
fn damage_head(random: &mut Random, sheet: &mut Vec<u8>) {
    match random.below(4) {
        0 => set(sheet, 0, 4, 4 + random.below(12)),
        1 => set(sheet, 0, 6, random.below(16)),
        _ => {
            let n = [0, 1, 2, 3, 511, 512, 513, 1023][random.below(8)];
            set(sheet, 6, 10, n);
            if random.below(4) > 0 {
                sheet.resize(sheet_size(n), 0);
            }
        }
    }
}

/// One track less in a street that has any, so that its limit or the sum may be broken.
fn narrow(random: &mut Random, sheet: &mut [u8]) {
    let (upper, lower) = (usize::from(sheet[0] >> 4), usize::from(sheet[0] >> 2 & 3));
    if lower == 0 || upper > 0 && random.below(2) == 0 {
        set(sheet, 0, 4, upper - 1);
    } else {
        set(sheet, 4, 2, lower - 1);
    }
}

/// Another kind or position at a node, an end that is none, or bits in the padding.
fn damage_nodes(random: &mut Random, sheet: &mut [u8]) {
    let n = (8 * sheet.len() - 16) / 6;
    let start = 16 + 6 * random.below(n);
    let end = 16 + 6 * n;
    match random.below(5) {
        0 => set(sheet, start, 2, random.below(4)),
        1 => set(sheet, start + 2, 4, random.below(6)),
        2 => set(sheet, start + 2, 4, random.below(16)),
        3 => set(sheet, end - 6, 2, 1),
        _ => set(sheet, end, 8 * sheet.len() - end, random.below(64)),
    }
}
