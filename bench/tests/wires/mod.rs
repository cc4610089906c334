//! The published wire rules, tested on the points that the records of a film cover; nothing here
//! knows how a drawer lays its wires.

use crate::common::{hex, Record};
use std::collections::{HashMap, HashSet};

/// A record as a straight wire from one corner to the other, at grid points (column, level).
#[derive(Clone, Copy)]
struct Wire {
    net: usize,
    from: (i32, i32),
    to: (i32, i32),
}

impl Wire {
    fn of(record: &Record) -> Wire {
        let bits = record
            .iter()
            .fold(0, |bits: u64, &byte| bits << 8 | u64::from(byte));
        let field =
            |start: u32, width: u32| (bits >> (40 - start - width) & ((1 << width) - 1)) as i32;
        let (net, level, column) = (field(1, 8) as usize, field(9, 4) - 4, field(13, 13));
        let (to, zeros) = match field(0, 1) {
            0 => ((field(26, 13), level), field(39, 1)),
            _ => ((column, field(26, 4) - 4), field(30, 10)),
        };
        let from = (column, level);
        assert!(from < to && zeros == 0, "record {}", hex(record));
        Wire { net, from, to }
    }

    fn is_horizontal(self) -> bool {
        self.from.1 == self.to.1
    }

    /// Wires with whole corners that meet, meet in one of these.
    fn points(self) -> impl Iterator<Item = (i32, i32)> {
        let columns = self.from.0..=self.to.0;
        columns.flat_map(move |column| (self.from.1..=self.to.1).map(move |level| (column, level)))
    }
}

/// The indices of the wires at each point that a wire covers.
type ByPoint = HashMap<(i32, i32), Vec<usize>>;

/// Panics unless the film of a row obeys the wire rules under these streets; `pins` has the net of
/// each node, from 0 in the order of their first nodes, and none at a blank.
pub fn assert_obeyed(pins: &[Option<usize>], (ku, kl): (u8, u8), film: &[Record]) {
    let case = format!("pins {pins:?} Ku {ku} Kl {kl}");
    let wires: Vec<Wire> = film.iter().map(Wire::of).collect();
    for wire in wires.iter().filter(|wire| wire.is_horizontal()) {
        let level = wire.from.1;
        let on_track = level != 0 && -i32::from(kl) <= level && level <= i32::from(ku);
        assert!(on_track, "a horizontal on level {level}: {case}");
    }
    assert_one_horizontal_a_cut(&wires, &case);
    let on = wires_by_point(&wires, &case);
    assert_pins_joined(pins, &wires, &on, &case);
}

/// A cut strictly between two columns meets at most one horizontal of a net.
fn assert_one_horizontal_a_cut(wires: &[Wire], case: &str) {
    let mut met = HashSet::new();
    for wire in wires.iter().filter(|wire| wire.is_horizontal()) {
        for cut in wire.from.0..wire.to.0 {
            assert!(
                met.insert((wire.net, cut)),
                "net {} twice after column {cut}: {case}",
                wire.net
            );
        }
    }
}

/// The wires at each point, where no point is on two nets.
fn wires_by_point(wires: &[Wire], case: &str) -> ByPoint {
    let mut on = ByPoint::new();
    for (index, wire) in wires.iter().enumerate() {
        for point in wire.points() {
            let there = on.entry(point).or_default();
            let apart = there.iter().all(|&other| wires[other].net == wire.net);
            assert!(apart, "two nets at {point:?}: {case}");
            there.push(index);
        }
    }
    on
}

/// Each net is one piece that has the pins of all its nodes; at a blank's pin is nothing.
fn assert_pins_joined(pins: &[Option<usize>], wires: &[Wire], on: &ByPoint, case: &str) {
    let mut pieces = HashMap::new();
    for (at, &net) in pins.iter().enumerate() {
        let pin = (16 * at as i32, 0);
        let wire = on.get(&pin).map(|there| there[0]);
        let found = wire.map(|wire| wires[wire].net);
        assert_eq!(found, net, "net at {pin:?}: {case}");
        let Some(wire) = wire else { continue };
        let piece = pieces
            .entry(net)
            .or_insert_with(|| piece_of(wire, wires, on));
        assert!(piece.contains(&wire), "net {net:?} is in pieces: {case}");
    }
    let reached: usize = pieces.values().map(HashSet::len).sum();
    assert_eq!(reached, wires.len(), "a wire that no pin has: {case}");
}

/// The wires that touch a wire, directly or through others.
fn piece_of(first: usize, wires: &[Wire], on: &HashMap<(i32, i32), Vec<usize>>) -> HashSet<usize> {
    let mut piece = HashSet::from([first]);
    let mut unseen = vec![first];
    while let Some(wire) = unseen.pop() {
        let touched = wires[wire].points().flat_map(|point| &on[&point]);
        unseen.extend(touched.filter(|&&other| piece.insert(other)));
    }
    piece
}
