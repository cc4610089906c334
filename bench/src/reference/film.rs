//! The drawer: the wires of a placing as film records.

use super::bits::Packer;
use super::sheet::{Placing, Touch};
use super::Kind;
use std::collections::HashMap;

/// The columns from one node to the next.
const PITCH: usize = 16;

/// The wires laid in the upper street, by upper tracks and by position from 1.
const IN_UPPER: [&[usize]; 4] = [&[0], &[1, 1], &[1, 2, 2], &[1, 2, 3, 3]];

/// One film record.
pub type Record = [u8; 5];

/// The records of a placing, each once, from left to right.
pub fn records(placing: &Placing) -> Vec<Record> {
    let mut drawing = Drawing::default();
    let touches = &placing.touches;
    let levels: Vec<_> = touches
        .iter()
        .map(|touch| levels(placing.streets.upper, touch))
        .collect();
    for (at, touch) in touches.iter().enumerate() {
        if let Some(net) = touch.net() {
            drawing.node(PITCH * at, touch.kind, net, levels[at][touch.field]);
        }
        if at + 1 < touches.len() {
            let wires = kept(touch, &levels[at], &touches[at + 1], &levels[at + 1]);
            drawing.gap(PITCH * at, &wires);
        }
    }
    drawing.records
}

/// The level of each wire at a node, from the top.
fn levels(upper: usize, touch: &Touch) -> Vec<isize> {
    let u = match touch.kind {
        Kind::Blank => touch.field,
        _ => IN_UPPER[upper][touch.field],
    } as isize;
    let positions = 1..=touch.order.len() as isize;
    positions
        .map(|q| if q <= u { u - q + 1 } else { -(q - u) })
        .collect()
}

/// A wire in a gap, with its levels at the nodes beside it.
#[derive(Clone, Copy)]
struct Wire {
    net: usize,
    from: isize,
    to: isize,
}

/// The wires that stand at both nodes of a gap, from the top.
fn kept(left: &Touch, at_left: &[isize], right: &Touch, at_right: &[isize]) -> Vec<Wire> {
    let arrives: HashMap<_, _> = right.order.iter().zip(at_right).collect();
    let leaves = left.order.iter().zip(at_left);
    leaves
        .filter_map(|(net, &from)| {
            arrives.get(net).map(|&&to| Wire {
                net: *net,
                from,
                to,
            })
        })
        .collect()
}

/// The records so far, and for each net the column and level where its present run begins.
#[derive(Default)]
struct Drawing {
    records: Vec<Record>,
    runs: HashMap<usize, (usize, isize)>,
}

impl Drawing {
    /// The stub of a net's node, where its first run begins and its last one ends.
    fn node(&mut self, column: usize, kind: Kind, net: usize, level: isize) {
        self.records.push(vertical(net, column, 0, level));
        if kind == Kind::Begin {
            self.runs.insert(net, (column, level));
        } else if kind == Kind::End {
            self.end_run(net, column);
        }
    }

    /// The moves after the node at `column`: up from the topmost, then down from the bottommost.
    fn gap(&mut self, column: usize, wires: &[Wire]) {
        let up = wires.iter().filter(|wire| wire.to > wire.from);
        let down = wires.iter().rev().filter(|wire| wire.to < wire.from);
        for (wire, column) in up.chain(down).zip(column + 1..) {
            let Wire { net, from, to } = *wire;
            self.records.push(vertical(net, column, from, to));
            self.end_run(net, column);
            self.runs.insert(net, (column, to));
        }
    }

    fn end_run(&mut self, net: usize, right: usize) {
        let (left, level) = self.runs[&net];
        self.records.push(horizontal(net, level, left, right));
    }
}

fn horizontal(net: usize, level: isize, left: usize, right: usize) -> Record {
    record(&[
        (0, 1),
        (net, 8),
        (raised(level), 4),
        (left, 13),
        (right, 13),
        (0, 1),
    ])
}

fn vertical(net: usize, column: usize, one: isize, other: isize) -> Record {
    record(&[
        (1, 1),
        (net, 8),
        (raised(one.min(other)), 4),
        (column, 13),
        (raised(one.max(other)), 4),
        (0, 10),
    ])
}

fn raised(level: isize) -> usize {
    (level + 4) as usize
}

fn record(fields: &[(usize, usize)]) -> Record {
    let mut packer = Packer::default();
    for &(value, width) in fields {
        packer.put(value, width);
    }
    packer.into_bytes().try_into().expect("40 bits")
}
