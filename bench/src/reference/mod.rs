//! The rules of documents 01 and 02 written a second time, in plain Rust that shares nothing with the
//! proved library, so that every byte of every buffer can be compared.
//!
//! The four functions have the arguments and answers of the library's own. Speed is no aim here.

mod bits;
mod film;
mod router;
mod sheet;

use crate::{Said, BLANK};

/// The track counts of the two streets.
#[derive(Clone, Copy, Debug)]
struct Streets {
    upper: usize,
    lower: usize,
}

impl Streets {
    /// The number of the first of the three limits that is broken at a node whose net stands at
    /// position `p`, from 1, of `b`.
    fn broken(self, p: usize, b: usize) -> Option<u32> {
        if p - 1 > self.upper {
            Some(17)
        } else if b - p > self.lower {
            Some(30)
        } else if b > self.upper + self.lower {
            Some(31)
        } else {
            None
        }
    }

    /// The same at a blank with `s` of the `b` open wires above it.
    fn broken_at_blank(self, s: usize, b: usize) -> Option<u32> {
        if s > self.upper {
            Some(17)
        } else if b - s > self.lower {
            Some(30)
        } else {
            None
        }
    }
}

/// A node's part in its net, or that it is joined to nothing.
#[derive(Clone, Copy, Debug, PartialEq, Eq)]
enum Kind {
    Begin,
    Middle,
    End,
    Blank,
}

fn accepted(place: usize) -> Said {
    refused(0, place)
}

fn refused(number: u32, place: usize) -> Said {
    Said {
        number,
        place: place as u32,
    }
}

/// As [`crate::route`].
pub fn route(row: &[u8], ku: u8, kl: u8, work: &mut [u8], sheet: &mut [u8]) -> Said {
    if let Some(refusal) = router::refusal(row, ku, kl, work.len(), sheet.len()) {
        return refusal;
    }
    let streets = Streets {
        upper: ku.into(),
        lower: kl.into(),
    };
    work[..router::work_needed(row.len())].fill(0);
    match router::first_placing(row, streets) {
        Ok(nodes) => {
            let bytes = sheet::packed(streets, &nodes);
            sheet[..bytes.len()].copy_from_slice(&bytes);
            accepted(row.len())
        }
        Err(node) => refused(6, node),
    }
}

/// As [`crate::read`].
pub fn read(sheet: &[u8], row: &mut [u8]) -> Said {
    match sheet::labels(sheet, Some(row.len())) {
        Ok(labels) => {
            row[..labels.len()].copy_from_slice(&labels);
            accepted(labels.len())
        }
        Err(refusal) => refusal,
    }
}

/// As [`crate::agrees`].
pub fn agrees(row: &[u8], sheet: &[u8]) -> bool {
    match sheet::labels(sheet, None) {
        Ok(labels) => have_the_same_pins(row, &labels),
        Err(_) => false,
    }
}

/// Whether two rows have equally many nodes, the same joined and the same blank.
fn have_the_same_pins(a: &[u8], b: &[u8]) -> bool {
    let blank = |row: &[u8], i: usize| row[i] == BLANK;
    let joined = |row: &[u8], i: usize, j: usize| !blank(row, i) && row[i] == row[j];
    let alike =
        |i| blank(a, i) == blank(b, i) && (0..i).all(|j| joined(a, i, j) == joined(b, i, j));
    a.len() == b.len() && (0..a.len()).all(alike)
}

/// As [`crate::draw`], with the records in an order of its own.
pub fn draw(sheet: &[u8], film: &mut [u8]) -> Said {
    let placing = match sheet::inspected(sheet, None) {
        Ok(placing) => placing,
        Err(refusal) => return refusal,
    };
    let records = film::records(&placing);
    let bytes = records.concat();
    if film.len() < bytes.len() {
        return refused(21, 0);
    }
    film[..bytes.len()].copy_from_slice(&bytes);
    accepted(records.len())
}
