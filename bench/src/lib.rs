//! The proved router, reader, agreement test and drawer of documents 01 and 02, for callers in Rust.
//!
//! [`routed`], [`row_of`] and [`film_of`] allocate what they need. [`route`], [`read`] and
//! [`draw`] work in buffers that the caller lends and say in full what is in them afterwards.
//!
//! ```
//! let sheet = niraflue::routed(b"abcbac", 2, 1)?;
//! assert_eq!(sheet, [0x24, 0x06, 0x00, 0x10, 0x62, 0x82, 0x00]);
//! assert_eq!(niraflue::row_of(&sheet)?, [0, 1, 2, 1, 0, 2]);
//! assert!(niraflue::agrees(b"xyzyxz", &sheet));
//!
//! let refusal = niraflue::routed(b"abcabcabc", 2, 1).unwrap_err();
//! assert_eq!((refusal.number, refusal.place), (6, 5));
//!
//! // The wire passes below the blank between its two pins.
//! let row = [b'a', niraflue::BLANK, b'a'];
//! assert_eq!(niraflue::routed(&row, 1, 1)?, [0x14, 0x03, 0x03, 0x08, 0x00]);
//! # Ok::<(), niraflue::Said>(())
//! ```

pub mod reference;

use std::error::Error;
use std::fmt;

/// The code in the README, so that the tests run it.
#[cfg(doctest)]
#[doc = include_str!("../README.md")]
struct Readme;

/// The most nodes of a row that the router takes.
pub const MAX_NODES: usize = 512;

/// The label of a blank: a pin that is joined to nothing, not even to another blank.
pub const BLANK: u8 = 255;

/// The bytes of one film record.
pub const RECORD_SIZE: usize = 5;

/// The bytes of work that [`route`] needs for a row of `n` nodes.
pub const fn work_size(n: usize) -> usize {
    90 * n
}

/// The bytes of a sheet of `n` nodes.
pub const fn sheet_size(n: usize) -> usize {
    2 + (3 * n).div_ceil(4)
}

/// Bytes that hold the film of any sheet of `n` nodes: no film has more than 14 records a node.
pub const fn film_bound(n: usize) -> usize {
    RECORD_SIZE * 14 * n
}

/// An answer of the library: a number, 0 for accepted, and a place, whose meaning goes by the
/// number. Causes are tested in the table's order, 16, 17, 30 and 31 node by node.
///
/// | Number | Cause | Place |
/// |---|---|---|
/// | 0 | accepted | nodes ([`route`], [`read`]) or records ([`draw`]) |
/// | 1 | row under 2 or over 512 nodes | 0 |
/// | 2 | a street of more than 3 tracks | 0 |
/// | 3 | a label other than [`BLANK`] stands at one node only | the first such node |
/// | 4 | work under [`work_size`] | 0 |
/// | 5 | sheet buffer under [`sheet_size`] | 0 |
/// | 6 | no placing | the first node whose row up to there has none; never a blank |
/// | 11 | sheet under 2 bytes, or its node count not 2 to 512 | 0 |
/// | 12 | upper street of more than 3 tracks | 0 |
/// | 13 | length not that of the node count | 0 |
/// | 14 | row buffer under the node count | 0 |
/// | 16 | position beyond the order; at a blank more wires above it than are open | node |
/// | 17 | more nets above than upper tracks, at a blank too | node |
/// | 30 | more nets below than lower tracks, at a blank too | node |
/// | 31 | more nets than tracks in both streets; never at a blank | node |
/// | 18 | a net without an end | node count |
/// | 19 | padding not zero | 0 |
/// | 23 | more than 255 nets; not from [`draw`] | 0 |
/// | 21 | film under [`RECORD_SIZE`] bytes a record | 0 |
#[derive(Clone, Copy, Debug, PartialEq, Eq, Hash)]
pub struct Said {
    pub number: u32,
    pub place: u32,
}

impl Said {
    /// Whether the call did what was asked.
    pub const fn accepted(self) -> bool {
        self.number == 0
    }

    fn from_joined(joined: u64) -> Said {
        Said {
            number: (joined >> 32) as u32,
            place: joined as u32,
        }
    }

    /// The place of an accepted answer, or the answer itself as an error.
    fn or_refusal(self) -> Result<usize, Said> {
        match self.number {
            0 => Ok(self.place as usize),
            _ => Err(self),
        }
    }

    /// The number in words.
    pub const fn meaning(self) -> &'static str {
        match self.number {
            0 => "accepted",
            1 => "the row has under 2 or over 512 nodes",
            2 => "a street has more than 3 tracks",
            3 => "a label stands at one node only",
            4 => "the work buffer is too short",
            5 => "the sheet buffer is too short",
            6 => "the row has no placing",
            11 => "the sheet is under 2 bytes or its node count is not 2 to 512",
            12 => "the upper street has more than 3 tracks",
            13 => "the sheet's length does not fit its node count",
            14 => "the row buffer is too short",
            16 => "a position is beyond the order",
            17 => "the upper street has too few tracks",
            30 => "the lower street has too few tracks",
            31 => "both streets together have too few tracks",
            18 => "a net has no end",
            19 => "the padding is not zero",
            23 => "the sheet has more than 255 nets",
            21 => "the film buffer is too short",
            _ => "unknown number",
        }
    }
}

impl fmt::Display for Said {
    fn fmt(&self, out: &mut fmt::Formatter<'_>) -> fmt::Result {
        write!(out, "{} at {}: {}", self.number, self.place, self.meaning())
    }
}

impl Error for Said {}

/// Routes `row` with `ku` upper and `kl` lower tracks into `sheet`. Nodes with one label form a net,
/// but for [`BLANK`].
///
/// Accepted: the sheet of the row's first placing, with as few wires above each blank as the streets
/// allow, fills the start of `sheet`, the rest of it is as it was, and the place is the node count.
/// Refused by 1 to 6, tested in that order: `sheet` is as it was. Accepted or 6: the first
/// [`work_size`] bytes of `work` are zero; every other byte of it is as it was, after every call.
pub fn route(row: &[u8], ku: u8, kl: u8, work: &mut [u8], sheet: &mut [u8]) -> Said {
    // SAFETY: each pointer and length is those of one live slice; the two mutable slices overlap
    // nothing, by their borrows; the call keeps no pointer.
    let joined = unsafe {
        calls::niraflue_route(
            row.as_ptr(),
            row.len(),
            ku,
            kl,
            work.as_mut_ptr(),
            work.len(),
            sheet.as_mut_ptr(),
            sheet.len(),
        )
    };
    Said::from_joined(joined)
}

/// Reads the row of `sheet` into `row`, its nets labelled 0, 1, 2 in the order of their first nodes,
/// its blanks [`BLANK`].
///
/// Accepted: the labels fill the start of `row`, the rest of it is as it was, and the place is the
/// node count. Refused by 11 to 14, 16 to 19, 23, 30 or 31: `row` is as it was.
pub fn read(sheet: &[u8], row: &mut [u8]) -> Said {
    // SAFETY: each pointer and length is those of one live slice; the mutable slice overlaps
    // nothing, by its borrow; the call keeps no pointer.
    let joined =
        unsafe { calls::niraflue_read(sheet.as_ptr(), sheet.len(), row.as_mut_ptr(), row.len()) };
    Said::from_joined(joined)
}

/// Whether `sheet` passes the reader's tests but 14, has as many nodes as `row`, joins the same ones
/// and has the same blanks.
pub fn agrees(row: &[u8], sheet: &[u8]) -> bool {
    // SAFETY: each pointer and length is those of one live slice; the call only reads them and
    // keeps no pointer.
    unsafe { calls::niraflue_agrees(row.as_ptr(), row.len(), sheet.as_ptr(), sheet.len()) }
}

/// Draws the wires of `sheet` into `film`, [`RECORD_SIZE`] bytes a record.
///
/// Accepted: the records, each once and in no stated order, fill the start of `film`, the rest of
/// it is as it was, and the place is their number, 0 for blanks alone. Refused by 11 to 13, 16 to
/// 19, 21, 30 or 31: `film` is as it was.
pub fn draw(sheet: &[u8], film: &mut [u8]) -> Said {
    // SAFETY: each pointer and length is those of one live slice; the mutable slice overlaps
    // nothing, by its borrow; the call keeps no pointer.
    let joined =
        unsafe { calls::niraflue_draw(sheet.as_ptr(), sheet.len(), film.as_mut_ptr(), film.len()) };
    Said::from_joined(joined)
}

/// The sheet of the first placing of `row`, or the refusal, which is never 4 or 5.
pub fn routed(row: &[u8], ku: u8, kl: u8) -> Result<Vec<u8>, Said> {
    // A longer row is refused before its buffers matter.
    let n = row.len().min(MAX_NODES);
    let mut work = vec![0; work_size(n)];
    let mut sheet = vec![0; sheet_size(n)];
    route(row, ku, kl, &mut work, &mut sheet).or_refusal()?;
    Ok(sheet)
}

/// The row of `sheet` as [`read`] labels it, or the refusal, which is never 14.
pub fn row_of(sheet: &[u8]) -> Result<Vec<u8>, Said> {
    let mut row = vec![0; MAX_NODES];
    let n = read(sheet, &mut row).or_refusal()?;
    row.truncate(n);
    Ok(row)
}

/// The film of `sheet`, or the refusal, which is never 14, 21 or 23.
pub fn film_of(sheet: &[u8]) -> Result<Vec<u8>, Said> {
    let mut film = vec![0; film_bound(MAX_NODES)];
    let records = draw(sheet, &mut film).or_refusal()?;
    film.truncate(RECORD_SIZE * records);
    Ok(film)
}

/// The four calls of the archive, whose 64-bit answers are number · 2³² + place. Buffers must not
/// overlap, and an empty one may have any pointer.
mod calls {
    extern "C" {
        pub fn niraflue_route(
            row: *const u8,
            row_len: usize,
            ku: u8,
            kl: u8,
            work: *mut u8,
            work_len: usize,
            sheet: *mut u8,
            sheet_len: usize,
        ) -> u64;
        pub fn niraflue_read(
            sheet: *const u8,
            sheet_len: usize,
            row: *mut u8,
            row_len: usize,
        ) -> u64;
        pub fn niraflue_agrees(
            row: *const u8,
            row_len: usize,
            sheet: *const u8,
            sheet_len: usize,
        ) -> bool;
        pub fn niraflue_draw(
            sheet: *const u8,
            sheet_len: usize,
            film: *mut u8,
            film_len: usize,
        ) -> u64;
    }
}
