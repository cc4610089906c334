//! The sheet: its bytes from a placing, and a placing from its bytes by the reader's tests.

use super::bits::{field, Packer};
use super::{refused, Kind, Streets};
use crate::{Said, BLANK};

/// A node as the sheet has it: its kind and its position field, p − 1 of its net or s of a blank.
#[derive(Clone, Copy, Debug)]
pub struct Node {
    pub kind: Kind,
    pub field: usize,
}

/// The bits before node 1, and those of each node.
const HEAD: usize = 16;
const PER_NODE: usize = 6;

pub fn length(n: usize) -> usize {
    2 + (3 * n).div_ceil(4)
}

pub fn packed(streets: Streets, nodes: &[Node]) -> Vec<u8> {
    let mut packer = Packer::default();
    packer.put(streets.upper, 4);
    packer.put(streets.lower, 2);
    packer.put(nodes.len(), 10);
    for node in nodes {
        packer.put(node.kind as usize, 2);
        packer.put(node.field, 4);
    }
    packer.into_bytes()
}

/// A node of a sheet that passed the tests, with the order there, its own net included if it
/// has one.
#[derive(Clone, Debug)]
pub struct Touch {
    pub kind: Kind,
    pub field: usize,
    pub order: Vec<usize>,
}

impl Touch {
    /// The net of the node, which a blank has not.
    pub fn net(&self) -> Option<usize> {
        match self.kind {
            Kind::Blank => None,
            _ => Some(self.order[self.field]),
        }
    }
}

/// A legal placing read from a sheet; nets are numbered from 0 in the order of their first nodes.
#[derive(Clone, Debug)]
pub struct Placing {
    pub streets: Streets,
    pub touches: Vec<Touch>,
}

/// The nets that the labels other than 255 can tell apart.
const MOST_NETS: usize = 255;

/// The row of a sheet, or the first of the reader's causes that holds; 14 is tested against `room`
/// where there is one.
pub fn labels(sheet: &[u8], room: Option<usize>) -> Result<Vec<u8>, Said> {
    let touches = inspected(sheet, room)?.touches;
    let begun = touches.iter().filter(|touch| touch.kind == Kind::Begin);
    if begun.count() > MOST_NETS {
        return Err(refused(23, 0));
    }
    let label = |touch: &Touch| touch.net().map_or(BLANK, |net| net as u8);
    Ok(touches.iter().map(label).collect())
}

/// The placing of a sheet, or the first of the reader's causes but 23 that holds; 14 is tested
/// against `room` where there is one.
pub fn inspected(sheet: &[u8], room: Option<usize>) -> Result<Placing, Said> {
    let (streets, n) = head(sheet)?;
    if room.is_some_and(|bytes| bytes < n) {
        return Err(refused(14, 0));
    }
    let touches = touches(sheet, streets, n)?;
    let padding = HEAD + PER_NODE * n..8 * sheet.len();
    if field(sheet, padding.start, padding.len()) != 0 {
        return Err(refused(19, 0));
    }
    Ok(Placing { streets, touches })
}

fn head(sheet: &[u8]) -> Result<(Streets, usize), Said> {
    if sheet.len() < 2 {
        return Err(refused(11, 0));
    }
    let n = field(sheet, 6, 10);
    if !(2..=512).contains(&n) {
        return Err(refused(11, 0));
    }
    let streets = Streets {
        upper: field(sheet, 0, 4),
        lower: field(sheet, 4, 2),
    };
    if streets.upper > 3 {
        return Err(refused(12, 0));
    }
    if sheet.len() != length(n) {
        return Err(refused(13, 0));
    }
    Ok((streets, n))
}

/// The nodes, tested from the left for 16, 17, 30 and 31, and then 18.
fn touches(sheet: &[u8], streets: Streets, n: usize) -> Result<Vec<Touch>, Said> {
    let mut touches = Vec::new();
    let mut open = Vec::new();
    let mut nets = 0;
    for node in 1..=n {
        let start = HEAD + PER_NODE * (node - 1);
        let kind = KINDS[field(sheet, start, 2)];
        let field = field(sheet, start + 2, 4);
        let b = open.len() + usize::from(kind == Kind::Begin);
        if let Some(number) = fault(streets, kind, field, b) {
            return Err(refused(number, node));
        }
        if kind == Kind::Begin {
            open.insert(field, nets);
            nets += 1;
        }
        let order = open.clone();
        if kind == Kind::End {
            open.remove(field);
        }
        touches.push(Touch { kind, field, order });
    }
    if open.is_empty() {
        Ok(touches)
    } else {
        Err(refused(18, n))
    }
}

const KINDS: [Kind; 4] = [Kind::Begin, Kind::Middle, Kind::End, Kind::Blank];

/// The first of 16, 17, 30 and 31 that holds at a node with `b` open nets, its own among them.
fn fault(streets: Streets, kind: Kind, field: usize, b: usize) -> Option<u32> {
    match kind {
        Kind::Blank if field > b => Some(16),
        Kind::Blank => streets.broken_at_blank(field, b),
        _ if field + 1 > b => Some(16),
        _ => streets.broken(field + 1, b),
    }
}
