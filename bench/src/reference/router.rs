//! The router: a search that goes depth first, smaller positions first, and remembers the states
//! that it found to have no way on.

use super::sheet::Node;
use super::{refused, Kind, Streets};
use crate::{Said, BLANK};
use std::collections::HashSet;

pub fn work_needed(n: usize) -> usize {
    90 * n
}

/// The first of the causes 1 to 5 that holds, if any does.
pub fn refusal(row: &[u8], ku: u8, kl: u8, work_len: usize, sheet_len: usize) -> Option<Said> {
    let n = row.len();
    if !(2..=512).contains(&n) {
        return Some(refused(1, 0));
    }
    if ku > 3 || kl > 3 {
        return Some(refused(2, 0));
    }
    if let Some(node) = (1..=n).find(|&node| is_lone(row, node)) {
        return Some(refused(3, node));
    }
    if work_len < work_needed(n) {
        return Some(refused(4, 0));
    }
    (sheet_len < super::sheet::length(n)).then_some(refused(5, 0))
}

fn is_lone(row: &[u8], node: usize) -> bool {
    let label = row[node - 1];
    label != BLANK && row.iter().filter(|&&other| other == label).count() == 1
}

/// The nodes of the first placing, or the first node where the row up to there has none.
pub fn first_placing(row: &[u8], streets: Streets) -> Result<Vec<Node>, usize> {
    let mut search = Search {
        row,
        kinds: (0..row.len()).map(|at| kind_at(row, at)).collect(),
        streets,
        dead: vec![HashSet::new(); row.len()],
        passed: 0,
        fields: Vec::new(),
    };
    if !search.goes_on(&[]) {
        return Err(search.passed + 1);
    }
    let placed = search.kinds.into_iter().zip(search.fields);
    Ok(placed.map(|(kind, field)| Node { kind, field }).collect())
}

/// The kind of a node of a row without lone labels.
fn kind_at(row: &[u8], at: usize) -> Kind {
    if row[at] == BLANK {
        Kind::Blank
    } else if !row[..at].contains(&row[at]) {
        Kind::Begin
    } else if row[at + 1..].contains(&row[at]) {
        Kind::Middle
    } else {
        Kind::End
    }
}

struct Search<'a> {
    row: &'a [u8],
    kinds: Vec<Kind>,
    streets: Streets,
    /// For each node, the orders before it from which no choice reaches the row's end.
    dead: Vec<HashSet<Vec<u8>>>,
    /// The most nodes that some choice has passed.
    passed: usize,
    /// The position fields of the choice at hand, one for each node that it has passed.
    fields: Vec<usize>,
}

impl Search<'_> {
    /// Whether the choice at hand, which has led to `order`, can be carried to the row's end; if so
    /// it has been, by the first way there is.
    fn goes_on(&mut self, order: &[u8]) -> bool {
        let at = self.fields.len();
        self.passed = self.passed.max(at);
        // Every net has met its last node by then, so the order is empty.
        if at == self.row.len() {
            return true;
        }
        if self.dead[at].contains(order) {
            return false;
        }
        for (field, after) in self.choices(at, order) {
            self.fields.push(field);
            if self.goes_on(&after) {
                return true;
            }
            self.fields.pop();
        }
        self.dead[at].insert(order.to_vec());
        false
    }

    /// The position fields within the limits at a node, smallest first, each with the order after
    /// it.
    fn choices(&self, at: usize, order: &[u8]) -> Vec<(usize, Vec<u8>)> {
        let label = self.row[at];
        match self.kinds[at] {
            Kind::Begin => {
                let b = order.len() + 1;
                let legal = (1..=b).filter(|&p| self.streets.broken(p, b).is_none());
                legal.map(|p| (p - 1, with(order, p, label))).collect()
            }
            Kind::Middle => self.follows(order, label, order.to_vec()),
            Kind::End => self.follows(order, label, without(order, label)),
            Kind::Blank => {
                let b = order.len();
                let legal = (0..=b).filter(|&s| self.streets.broken_at_blank(s, b).is_none());
                legal.map(|s| (s, order.to_vec())).collect()
            }
        }
    }

    /// The one position field of an open net, if it is within the limits.
    fn follows(&self, order: &[u8], label: u8, after: Vec<u8>) -> Vec<(usize, Vec<u8>)> {
        let before = order.iter().take_while(|&&net| net != label).count();
        if self.streets.broken(before + 1, order.len()).is_none() {
            vec![(before, after)]
        } else {
            Vec::new()
        }
    }
}

fn with(order: &[u8], p: usize, label: u8) -> Vec<u8> {
    [&order[..p - 1], &[label], &order[p - 1..]].concat()
}

fn without(order: &[u8], label: u8) -> Vec<u8> {
    order.iter().copied().filter(|&net| net != label).collect()
}
