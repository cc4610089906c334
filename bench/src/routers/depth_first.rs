//! The plain router: depth first over the choices in reading order, with a hash set of the states
//! that were found dead.

use niraflue::{Said, BLANK};
use std::collections::HashSet;

/// The open nets' labels, top to bottom.
#[derive(Clone, Copy, PartialEq, Eq, Hash)]
struct Order {
    labels: [u8; 6],
    count: usize,
}

impl Order {
    const EMPTY: Order = Order {
        labels: [0; 6],
        count: 0,
    };

    fn find(&self, label: u8) -> usize {
        self.labels[..self.count]
            .iter()
            .position(|&open| open == label)
            .expect("an open net")
    }

    fn insert(mut self, at: usize, label: u8) -> Order {
        self.labels.copy_within(at..self.count, at + 1);
        self.labels[at] = label;
        self.count += 1;
        self
    }

    fn remove(mut self, at: usize) -> Order {
        self.labels.copy_within(at + 1..self.count, at);
        self.count -= 1;
        self.labels[self.count] = 0;
        self
    }
}

/// The kinds of nodes, with the field that the sheet has for each.
#[derive(Clone, Copy, PartialEq)]
enum Kind {
    Begin = 0,
    Middle = 1,
    End = 2,
    Blank = 3,
}

/// The kind of each node, or the first node, from 0, that is no blank and whose label no other has.
fn kinds(row: &[u8]) -> Result<Vec<Kind>, usize> {
    let (mut first, mut last) = ([None; 256], [None; 256]);
    for (i, &label) in row.iter().enumerate() {
        first[label as usize].get_or_insert(i);
        last[label as usize] = Some(i);
    }
    let kind = |(i, &label): (usize, &u8)| match (
        first[label as usize] == Some(i),
        last[label as usize] == Some(i),
    ) {
        _ if label == BLANK => Ok(Kind::Blank),
        (true, true) => Err(i),
        (true, false) => Ok(Kind::Begin),
        (false, true) => Ok(Kind::End),
        (false, false) => Ok(Kind::Middle),
    };
    row.iter().enumerate().map(kind).collect()
}

/// A search under way: the positions chosen so far, from 0, at a blank the wires above it, the most
/// nodes that were passed, and the orders that are known to lead nowhere, each with the opening that
/// it stands before.
struct Search<'a> {
    row: &'a [u8],
    kinds: &'a [Kind],
    ku: usize,
    kl: usize,
    positions: Vec<u8>,
    reach: usize,
    dead: HashSet<(usize, Order)>,
}

impl Search<'_> {
    /// The limits at a node: p from 0, b with its net.
    fn fits(&self, p: usize, b: usize) -> bool {
        p <= self.ku && b - p - 1 <= self.kl && b <= self.ku + self.kl
    }

    /// Whether nodes from `i` on can be passed; the positions of the first way are then in place.
    fn passes(&mut self, i: usize, order: Order) -> bool {
        self.reach = self.reach.max(i);
        if i == self.row.len() {
            return true;
        }
        match self.kinds[i] {
            Kind::Begin => self.opens(i, order),
            Kind::Blank => {
                self.positions[i] = order.count.saturating_sub(self.kl) as u8;
                self.passes(i + 1, order)
            }
            kind => self.meets(i, kind, order),
        }
    }

    fn opens(&mut self, i: usize, order: Order) -> bool {
        if self.dead.contains(&(i, order)) {
            return false;
        }
        for p in 0..=order.count {
            if self.fits(p, order.count + 1) {
                self.positions[i] = p as u8;
                if self.passes(i + 1, order.insert(p, self.row[i])) {
                    return true;
                }
            }
        }
        self.dead.insert((i, order));
        false
    }

    fn meets(&mut self, i: usize, kind: Kind, order: Order) -> bool {
        let p = order.find(self.row[i]);
        if !self.fits(p, order.count) {
            return false;
        }
        self.positions[i] = p as u8;
        self.passes(
            i + 1,
            if kind == Kind::End {
                order.remove(p)
            } else {
                order
            },
        )
    }
}

/// Writes the lowest bits of `value`, most significant first, from bit `at` on.
fn write_bits(sheet: &mut [u8], at: usize, width: usize, value: usize) {
    for k in 0..width {
        let bit = (value >> (width - 1 - k) & 1) as u8;
        sheet[(at + k) / 8] |= bit << (7 - (at + k) % 8);
    }
}

fn write(sheet: &mut [u8], kinds: &[Kind], positions: &[u8], ku: usize, kl: usize) {
    sheet.fill(0);
    write_bits(sheet, 0, 4, ku);
    write_bits(sheet, 4, 2, kl);
    write_bits(sheet, 6, 10, kinds.len());
    for (i, (&kind, &p)) in kinds.iter().zip(positions).enumerate() {
        write_bits(sheet, 16 + 6 * i, 2, kind as usize);
        write_bits(sheet, 18 + 6 * i, 4, p as usize);
    }
}

fn said(number: u32, place: usize) -> Said {
    Said {
        number,
        place: place as u32,
    }
}

/// Routes a row as documents 01 and 02 say, with their numbers and places.
pub fn route(row: &[u8], ku: u8, kl: u8, work: &mut [u8], sheet: &mut [u8]) -> Said {
    let n = row.len();
    if !(2..=512).contains(&n) {
        return said(1, 0);
    }
    if ku > 3 || kl > 3 {
        return said(2, 0);
    }
    let kinds = match kinds(row) {
        Ok(kinds) => kinds,
        Err(i) => return said(3, i + 1),
    };
    let size = 2 + (3 * n).div_ceil(4);
    if work.len() < 90 * n {
        return said(4, 0);
    }
    if sheet.len() < size {
        return said(5, 0);
    }
    let (ku, kl) = (ku as usize, kl as usize);
    let mut search = Search {
        row,
        kinds: &kinds,
        ku,
        kl,
        positions: vec![0; n],
        reach: 0,
        dead: HashSet::new(),
    };
    let passed = search.passes(0, Order::EMPTY);
    work[..90 * n].fill(0);
    if !passed {
        return said(6, search.reach + 1);
    }
    write(&mut sheet[..size], &kinds, &search.positions, ku, kl);
    said(0, n)
}
