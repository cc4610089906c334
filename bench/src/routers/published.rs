//! The method of document 000, Han and Sahni's "Single-Row Routing in Narrow Streets", for the
//! street pairs k/1, 2/2 and 3/3 (its sections II, III and IV).
//!
//! It finds a layout if there is one, not always the first in reading order. The paper says nothing
//! of a failing node; what is named here is the node at which its own sweep stops: in sections II
//! and III the node that can't be passed; in section IV, which discards candidate permutations a
//! 4-zone at a time, the first node of the 4-zone that none gets through. That node is never
//! document 01's failing node, which is behind it: the furthest node that one of the candidates
//! comes to.
//!
//! Where the paper leaves a choice open ("use either", "pick any one") this is the first in the
//! order in which the paper lists the possibilities, and the leftmost of several touch points. The
//! paper has no blanks: here they are passed over, and get the fewest wires above them.

use niraflue::BLANK;

/// The most nodes of a row.
const MOST: usize = 512;

/// No node.
const NONE: u16 = u16::MAX;

/// The types of nodes, N being a blank.
#[derive(Clone, Copy, PartialEq)]
enum Kind {
    B,
    M,
    E,
    N,
}

/// What the paper takes as known of each node.
struct Survey {
    kinds: [Kind; MOST],
    /// The nets that cover the node, its own not counted.
    cuts: [u8; MOST],
    /// The last node of each label.
    last: [u16; 256],
    /// `over[c][i]`: the next touch point of node i's net with a cut number over c.
    over: [[u16; MOST]; 4],
}

/// `row` has 2 to 512 nodes and no lone label; of the tables `over` those of `cuts` are filled.
fn survey(row: &[u8], cuts: std::ops::Range<usize>) -> Survey {
    let mut survey = Survey {
        kinds: [Kind::M; MOST],
        cuts: [0; MOST],
        last: [0; 256],
        over: [[NONE; MOST]; 4],
    };
    mark_ends(row, &mut survey);
    count_cuts(row.len(), &mut survey);
    for c in cuts {
        link(row, &survey.cuts, c, &mut survey.over[c]);
    }
    survey
}

fn mark_ends(row: &[u8], survey: &mut Survey) {
    let mut seen = [false; 256];
    for (i, &label) in row.iter().enumerate() {
        if label == BLANK {
            survey.kinds[i] = Kind::N;
        } else if !seen[label as usize] {
            survey.kinds[i] = Kind::B;
            seen[label as usize] = true;
        }
        survey.last[label as usize] = i as u16;
    }
    for &label in row.iter().filter(|&&label| label != BLANK) {
        survey.kinds[survey.last[label as usize] as usize] = Kind::E;
    }
}

fn count_cuts(n: usize, survey: &mut Survey) {
    let mut open = 0;
    for i in 0..n {
        match survey.kinds[i] {
            Kind::B => {
                survey.cuts[i] = open;
                open += 1;
            }
            Kind::N => survey.cuts[i] = open,
            kind => {
                survey.cuts[i] = open - 1;
                open -= (kind == Kind::E) as u8;
            }
        }
    }
}

fn link(row: &[u8], cuts: &[u8; MOST], c: usize, over: &mut [u16; MOST]) {
    let mut next = [NONE; 256];
    for (i, &label) in row.iter().enumerate().rev() {
        over[i] = next[label as usize];
        if cuts[i] as usize > c {
            next[label as usize] = i as u16;
        }
    }
}

/// The nets at a node, top to bottom, by their labels.
#[derive(Clone, Copy)]
struct Order {
    nets: [u8; 6],
    count: usize,
}

impl Order {
    const EMPTY: Order = Order {
        nets: [0; 6],
        count: 0,
    };

    fn nets(&self) -> &[u8] {
        &self.nets[..self.count]
    }

    fn find(&self, net: u8) -> usize {
        let found = self.nets().iter().position(|&open| open == net);
        found.expect("an open net")
    }

    fn insert(&mut self, p: usize, net: u8) {
        self.nets.copy_within(p..self.count, p + 1);
        self.nets[p] = net;
        self.count += 1;
    }

    fn remove(&mut self, p: usize) {
        self.nets.copy_within(p + 1..self.count, p);
        self.count -= 1;
    }
}

/// A sweep of sections II and III at a B node: the permutation that arrives and the latest touch
/// point of each open net.
struct Sweep<'a> {
    survey: &'a Survey,
    order: Order,
    touched: [u16; 256],
}

impl Sweep<'_> {
    /// The next touch point of an open net with a cut number over `c`.
    fn over(&self, c: usize, net: u8) -> u16 {
        self.survey.over[c][self.touched[net as usize] as usize]
    }
}

/// Scans the nodes from left to right; `place` says where a net that begins is put.
fn sweep(
    row: &[u8],
    ku: u8,
    kl: u8,
    survey: &Survey,
    place: fn(&Sweep, u8) -> usize,
    positions: &mut [u8],
) -> Result<(), usize> {
    let (ku, kl) = (ku as usize, kl as usize);
    let mut at = Sweep {
        survey,
        order: Order::EMPTY,
        touched: [0; 256],
    };
    for (i, &net) in row.iter().enumerate() {
        if survey.kinds[i] == Kind::N {
            positions[i] = at.order.count.saturating_sub(kl) as u8;
            continue;
        }
        at.touched[net as usize] = i as u16;
        let p = if survey.kinds[i] == Kind::B {
            if at.order.count == ku + kl {
                return Err(i + 1);
            }
            let p = place(&at, net);
            at.order.insert(p, net);
            p
        } else {
            at.order.find(net)
        };
        if p > ku || at.order.count - 1 - p > kl {
            return Err(i + 1);
        }
        if survey.kinds[i] == Kind::E {
            at.order.remove(p);
        }
        positions[i] = p as u8;
    }
    Ok(())
}

/// Section II, Kl = 1: net x goes just above the bottom net or below it. Of their touch points up
/// to the end of the first to end, one with a cut number over that of this node needs its net at
/// the bottom.
fn place_above_one(at: &Sweep, x: u8) -> usize {
    let b = at.order.count;
    if b == 0 {
        return 0;
    }
    let bottom = at.order.nets[b - 1];
    let last = &at.survey.last;
    let v = last[bottom as usize].min(last[x as usize]);
    let (of_bottom, of_x) = (at.over(b, bottom), at.over(b, x));
    if of_x < of_bottom && of_x <= v {
        b
    } else {
        b - 1
    }
}

/// Section III, Ku = Kl = 2: with two nets there, the one of the three nets that has the leftmost
/// touch point with cut number 3 is put in the middle.
fn place_in_two(at: &Sweep, x: u8) -> usize {
    let nets = &at.order.nets;
    if at.order.count != 2 {
        return [0, 1, 0, 2][at.order.count];
    }
    let of = [at.over(2, nets[0]), at.over(2, nets[1]), at.over(2, x)];
    if of[0] < of[1] && of[0] < of[2] {
        0
    } else if of[2] < of[1] {
        1
    } else {
        2
    }
}

/// Four nets that enter or leave a 4-zone, top to bottom.
type Four = [u8; 4];

fn mirrored(four: Four) -> Four {
    [four[3], four[2], four[1], four[0]]
}

/// A permutation, and by which of those before it, and by which place of the zone's first net, it
/// was reached.
#[derive(Clone, Copy, Default)]
struct Reached {
    four: Four,
    from: u8,
    place: u8,
}

/// At most twelve permutations, none the mirror of another.
#[derive(Clone, Copy, Default)]
struct Family {
    members: [Reached; 12],
    count: usize,
}

impl Family {
    fn members(&self) -> &[Reached] {
        &self.members[..self.count]
    }

    fn add(&mut self, four: Four, from: usize, place: usize) {
        let turned = mirrored(four);
        let known = |member: &Reached| member.four == four || member.four == turned;
        if !self.members().iter().any(known) {
            self.members[self.count] = Reached {
                four,
                from: from as u8,
                place: place as u8,
            };
            self.count += 1;
        }
    }
}

/// A 4-zone, from its B node with cut number 4 to the next E node with that cut number, with the
/// permutations that can enter it and those that can emerge from it.
struct Zone {
    start: usize,
    end: usize,
    entering: Family,
    emerging: Family,
}

fn inserted(three: &[u8], p: usize, net: u8) -> Four {
    let mut four = [net; 4];
    four[..p].copy_from_slice(&three[..p]);
    four[p + 1..].copy_from_slice(&three[p..]);
    four
}

/// The twelve permutations of four nets of which none is another's mirror: the first net above the
/// second.
fn all(nets: Four) -> Family {
    let mut family = Family::default();
    for third in 0..3 {
        let [a, b, c, _] = nets;
        let three = [[c, a, b], [a, c, b], [a, b, c]][third];
        for fourth in 0..4 {
            family.add(inserted(&three, fourth, nets[3]), 0, 0);
        }
    }
    family
}

/// The candidates for the zone that `nets` enter, after one that `before` emerge from: the same if
/// the nets are, with one net exchanged if one is new, and if more are, all.
fn candidates(nets: Four, before: Option<&Family>) -> Family {
    let Some(before) = before else {
        return all(nets);
    };
    let old = before.members[0].four;
    let mut gone = old.iter().filter(|net| !nets.contains(net));
    let mut new = nets.iter().filter(|net| !old.contains(net));
    match (gone.next(), new.next(), new.next()) {
        (Some(&gone), Some(&new), None) => exchanged(before, gone, new),
        (None, _, _) => kept(before),
        _ => all(nets),
    }
}

fn kept(before: &Family) -> Family {
    let mut family = Family::default();
    for (from, member) in before.members().iter().enumerate() {
        family.add(member.four, from, 0);
    }
    family
}

/// Net `gone` taken out of each, and `new` put in at each of four places.
fn exchanged(before: &Family, gone: u8, new: u8) -> Family {
    let mut family = Family::default();
    for (from, member) in before.members().iter().enumerate() {
        let mut three = [0; 3];
        let rest = member.four.iter().filter(|&&net| net != gone);
        three.iter_mut().zip(rest).for_each(|(to, &net)| *to = net);
        for p in 0..4 {
            family.add(inserted(&three, p, new), from, 0);
        }
    }
    family
}

/// What emerges from a zone that `four` enter, its first net put at `place`, 1 to 3. The two
/// outermost nets can't be touched; in a 5-zone only the middle net and the one that began it can,
/// and no net can begin.
fn through(row: &[u8], survey: &Survey, zone: &Zone, four: Four, place: usize) -> Option<Four> {
    let (b, c, e) = (four[1], four[2], row[zone.start]);
    let mut inner = match place {
        1 => [e, b, c],
        2 => [b, e, c],
        _ => [b, c, e],
    };
    let mut sixth = None;
    let rest = zone.start + 1..=zone.end;
    for (&net, &kind) in row[rest.clone()].iter().zip(&survey.kinds[rest]) {
        match sixth {
            _ if kind == Kind::N => {}
            None if kind == Kind::B => sixth = Some(net),
            None if !inner.contains(&net) => return None,
            None => {}
            Some(f) if net != f && net != inner[1] => return None,
            Some(f) if kind == Kind::E => {
                inner[1] = if net == f { inner[1] } else { f };
                sixth = None;
            }
            Some(_) => {}
        }
    }
    let mut left = inner.iter().filter(|&&net| net != row[zone.end]);
    let (&second, &third) = (left.next()?, left.next()?);
    Some([four[0], second, third, four[3]])
}

/// The 4-zones with what gets through each, or the first node of one that nothing gets through.
fn zones(row: &[u8], survey: &Survey) -> Result<Vec<Zone>, usize> {
    let mut zones: Vec<Zone> = Vec::new();
    let mut open = Order::EMPTY;
    let mut i = 0;
    while i < row.len() {
        if survey.kinds[i] == Kind::B && open.count == 4 {
            let nets = [open.nets[0], open.nets[1], open.nets[2], open.nets[3]];
            let entering = candidates(nets, zones.last().map(|zone| &zone.emerging));
            let zone = pass(row, survey, i, entering);
            if zone.emerging.count == 0 {
                return Err(i + 1);
            }
            i = zone.end;
            open.nets[..4].copy_from_slice(&zone.emerging.members[0].four);
            zones.push(zone);
        } else if survey.kinds[i] == Kind::B {
            open.insert(open.count, row[i]);
        } else if survey.kinds[i] == Kind::E {
            open.remove(open.find(row[i]));
        }
        i += 1;
    }
    Ok(zones)
}

/// The zone that begins at `start`, with all that emerges from it.
fn pass(row: &[u8], survey: &Survey, start: usize, entering: Family) -> Zone {
    let ends = |&i: &usize| survey.kinds[i] == Kind::E && survey.cuts[i] == 4;
    let end = (start..row.len()).find(ends).expect("every net ends");
    let emerging = Family::default();
    let mut zone = Zone {
        start,
        end,
        entering,
        emerging,
    };
    for (from, candidate) in entering.members().iter().enumerate() {
        for place in 1..=3 {
            if let Some(four) = through(row, survey, &zone, candidate.four, place) {
                zone.emerging.add(four, from, place);
            }
        }
    }
    zone
}

/// For each zone one entering permutation and one place of its first net that lead on to the next
/// zone's: from the last zone's first emerging one back.
fn chosen(zones: &[Zone]) -> Vec<(Four, usize)> {
    let mut emerging = 0;
    let mut ways = Vec::new();
    for zone in zones.iter().rev() {
        let way = zone.emerging.members[emerging];
        let entering = zone.entering.members[way.from as usize];
        ways.push((entering.four, way.place as usize));
        emerging = entering.from as usize;
    }
    ways.reverse();
    ways
}

/// Whether the nets of `order` that are in `four` stand in the same order there.
fn agrees(order: &Order, four: Four) -> bool {
    let common = order.nets().iter().filter(|net| four.contains(net));
    four.iter()
        .filter(|net| order.nets().contains(net))
        .eq(common)
}

/// Where a net outside the zones goes, so that `target` will enter the next zone: above the first
/// net that is below it there, or at the bottom.
fn outside(order: &Order, target: Four, net: u8) -> usize {
    let Some(own) = target.iter().position(|&other| other == net) else {
        return order.count;
    };
    let below = |other: &u8| target[own..].contains(other);
    order.nets().iter().position(below).unwrap_or(order.count)
}

/// Section IV, Ku = Kl = 3: finds what gets through the 4-zones, then lays the row out with one
/// such way, turned over where the nets that are still there from the zone before stand the other
/// way round.
fn in_three(row: &[u8], survey: &Survey, positions: &mut [u8]) -> Result<(), usize> {
    let zones = zones(row, survey)?;
    let mut ways = zones.iter().zip(chosen(&zones));
    let mut order = Order::EMPTY;
    let mut next = ways.next();
    for (i, &net) in row.iter().enumerate() {
        let p = match survey.kinds[i] {
            Kind::B => {
                let p = placed(&order, &next, net);
                order.insert(p, net);
                p
            }
            Kind::N => order.count.saturating_sub(3),
            _ => order.find(net),
        };
        positions[i] = p as u8;
        if survey.kinds[i] == Kind::E {
            order.remove(p);
        }
        if next.as_ref().is_some_and(|(zone, _)| zone.end == i) {
            next = ways.next();
        }
    }
    Ok(())
}

/// Where a net goes: by the way chosen for the next zone, in a 5-zone at the third place.
fn placed(order: &Order, next: &Option<(&Zone, (Four, usize))>, net: u8) -> usize {
    let Some((_, (four, place))) = *next else {
        return order.count;
    };
    let upright = agrees(order, four);
    match order.count {
        5 => 2,
        4 if upright => place,
        4 => 4 - place,
        _ if upright => outside(order, four, net),
        _ => outside(order, mirrored(four), net),
    }
}

/// Whether the method is given for a street pair.
pub fn covers(ku: u8, kl: u8) -> bool {
    matches!((ku, kl), (1..=3, 1) | (2, 2) | (3, 3))
}

/// The positions, from 0, of a layout of a row of 2 to 512 nodes without lone labels, and at a blank
/// the wires above it; or the node, from 1, at which the sweep stops. The street pair is one that is
/// covered.
pub fn lay(row: &[u8], ku: u8, kl: u8, positions: &mut [u8]) -> Result<(), usize> {
    match (ku, kl) {
        (_, 1) => {
            let survey = survey(row, 1..ku as usize + 1);
            sweep(row, ku, kl, &survey, place_above_one, positions)
        }
        (2, 2) => sweep(row, ku, kl, &survey(row, 2..3), place_in_two, positions),
        _ => in_three(row, &survey(row, 0..0), positions),
    }
}

#[cfg(test)]
mod tests {
    use crate::routers::sample::{for_each_row, Random};
    use crate::routers::{depth_first, words};
    use niraflue::BLANK;

    const PAIRS: [(u8, u8); 5] = [(1, 1), (2, 1), (3, 1), (2, 2), (3, 3)];

    /// Whether positions, from 0, are a placing of the row, with the fewest wires above each blank.
    fn is_placing(row: &[u8], ku: usize, kl: usize, positions: &[u8]) -> bool {
        let mut order: Vec<u8> = Vec::new();
        for (i, (&net, &p)) in row.iter().zip(positions).enumerate() {
            let p = p as usize;
            if net == BLANK {
                if p != order.len().saturating_sub(kl) {
                    return false;
                }
                continue;
            }
            if !row[..i].contains(&net) {
                order.insert(p, net);
            }
            let b = order.len();
            if p >= b || order[p] != net || p > ku || b - 1 - p > kl || b > ku + kl {
                return false;
            }
            if !row[i + 1..].contains(&net) {
                order.remove(p);
            }
        }
        order.is_empty()
    }

    /// Whether the method lays the row out; it must do so exactly if the row has a placing.
    fn laid(row: &[u8], ku: u8, kl: u8) -> bool {
        let n = row.len();
        let (mut work, mut sheet) = (vec![0; 90 * n], vec![0; n + 2]);
        let said = depth_first::route(row, ku, kl, &mut work, &mut sheet);
        let mut positions = vec![0; n];
        let laid = super::lay(row, ku, kl, &mut positions).is_ok();
        assert_eq!(laid, said.number == 0, "{row:02x?} {ku}/{kl}");
        assert!(
            !laid || is_placing(row, ku as usize, kl as usize, &positions),
            "{row:02x?} {ku}/{kl}"
        );
        laid
    }

    #[test]
    fn every_row_up_to_nine_nodes() {
        let (mut accepted, mut refused) = (0, 0);
        for_each_row(9, &mut |row| {
            for (ku, kl) in PAIRS {
                let laid = laid(row, ku, kl);
                accepted += laid as u32;
                refused += !laid as u32;
            }
        });
        assert!(accepted > 1000 && refused > 1000);
    }

    #[test]
    fn random_rows() {
        let mut random = Random::new(3);
        for _ in 0..3000 {
            for (ku, kl) in PAIRS {
                let (short, long) = (2 + random.below(30), 2 + random.below(300));
                let row = random.row(short, (ku + kl) as usize);
                laid(&random.with_blanks(&row), ku, kl);
                let row = random.placed_row(long, ku as usize, kl as usize);
                assert!(laid(&random.with_blanks(&row), ku, kl));
            }
        }
    }

    /// Rows that are refused rightly, with the failing node and the node that the method names
    /// instead.
    #[test]
    fn rows_whose_failing_node_it_misses() {
        let lines = include_str!("../../data/published.txt").lines();
        for line in lines.clone() {
            let fields: Vec<&str> = line.split(' ').collect();
            let [hex, ku, kl, "6", place, "-", named] = fields[..] else {
                panic!("not a refused row: {line}");
            };
            let row = crate::row_of(hex);
            let (ku, kl) = (ku.parse().unwrap(), kl.parse().unwrap());
            let (mut work, mut sheet) = (vec![0; 90 * row.len()], vec![0; row.len() + 2]);
            for route in [niraflue::route, words::route, depth_first::route] {
                let said = route(&row, ku, kl, &mut work, &mut sheet);
                assert_eq!(said.number, 6, "{line}");
                assert_eq!(said.place, place.parse().unwrap(), "{line}");
            }
            let stopped = super::lay(&row, ku, kl, &mut work).unwrap_err();
            assert_eq!(stopped, named.parse().unwrap(), "{line}");
            assert_ne!(place, named);
        }
        assert_eq!(lines.count(), 7);
    }
}
