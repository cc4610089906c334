//! What the tests share: seeded chance, guarded buffers, and each call made on the library and on
//! the reference with every byte compared.

use niraflue::{film_bound, reference, sheet_size, Said, RECORD_SIZE};
use std::fmt::Write;
use std::hint::black_box;

/// A xorshift generator: the same seed gives the same tests.
pub struct Random(u64);

impl Random {
    pub fn new(seed: u64) -> Random {
        assert_ne!(seed, 0, "xorshift stays at zero");
        Random(seed)
    }

    fn next(&mut self) -> u64 {
        self.0 ^= self.0 << 13;
        self.0 ^= self.0 >> 7;
        self.0 ^= self.0 << 17;
        self.0.wrapping_mul(0x2545_f491_4f6c_dd1d)
    }

    /// A number from 0 to `count` − 1.
    pub fn below(&mut self, count: usize) -> usize {
        (self.next() >> 32) as usize % count
    }

    pub fn bytes(&mut self, count: usize) -> Vec<u8> {
        (0..count).map(|_| self.below(256) as u8).collect()
    }
}

/// A buffer of which only the middle is lent, so that a write beside it shows.
#[derive(Clone, PartialEq)]
struct Lent {
    whole: Vec<u8>,
    front: usize,
    len: usize,
}

impl Lent {
    fn filled(random: &mut Random, len: usize) -> Lent {
        let front = 8 + random.below(8);
        Lent {
            whole: random.bytes(front + len + 16),
            front,
            len,
        }
    }

    fn holding(random: &mut Random, content: &[u8]) -> Lent {
        let mut lent = Lent::filled(random, content.len());
        lent.slice_mut().copy_from_slice(content);
        lent
    }

    fn slice(&self) -> &[u8] {
        &self.whole[self.front..self.front + self.len]
    }

    fn slice_mut(&mut self) -> &mut [u8] {
        &mut self.whole[self.front..self.front + self.len]
    }

    /// The first `length` bytes of what was lent, and all the others with the guards.
    fn parted(&self, length: usize) -> (&[u8], Vec<u8>) {
        let (before, lent) = self.whole.split_at(self.front);
        let (start, behind) = lent.split_at(length);
        (start, [before, behind].concat())
    }

    /// Whether a buffer that was lent for reading holds what it held. The compiler takes that for
    /// granted unless the buffer is hidden from it.
    fn is_still(&self, before: &Lent) -> bool {
        black_box(self) == before
    }
}

pub fn hex(bytes: &[u8]) -> String {
    bytes.iter().fold(String::new(), |mut text, byte| {
        write!(text, "{byte:02x}").expect("a string takes every write");
        text
    })
}

pub fn said(number: u32, place: usize) -> Said {
    Said {
        number,
        place: place as u32,
    }
}

/// Routes by both with buffers of the stated lengths; gives the answer and, if accepted, the sheet.
pub fn route(
    random: &mut Random,
    row: &[u8],
    (ku, kl): (u8, u8),
    work_len: usize,
    sheet_len: usize,
) -> (Said, Vec<u8>) {
    let lent = Lent::holding(random, row);
    let given = lent.clone();
    let mut work = Lent::filled(random, work_len);
    let mut sheet = Lent::filled(random, sheet_len);
    let (mut work_2, mut sheet_2) = (work.clone(), sheet.clone());
    let one = niraflue::route(given.slice(), ku, kl, work.slice_mut(), sheet.slice_mut());
    let two = reference::route(row, ku, kl, work_2.slice_mut(), sheet_2.slice_mut());
    let case = || {
        format!(
            "row {} Ku {ku} Kl {kl}, work {work_len} and sheet {sheet_len} bytes\n\
             library   {one}\nreference {two}\nlibrary's sheet buffer   {}\nreference's sheet buffer {}",
            hex(row),
            hex(sheet.slice()),
            hex(sheet_2.slice()),
        )
    };
    assert!(one == two, "answers differ: {}", case());
    assert!(sheet == sheet_2, "sheet or its guards differ: {}", case());
    assert!(work == work_2, "work or its guards differ: {}", case());
    assert!(given.is_still(&lent), "the row was changed: {}", case());
    let length = if one.accepted() {
        sheet_size(row.len())
    } else {
        0
    };
    (one, sheet.slice()[..length].to_vec())
}

/// Reads by both into a buffer of the stated length; gives the answer and, if accepted, the row.
pub fn read(random: &mut Random, sheet: &[u8], row_len: usize) -> (Said, Vec<u8>) {
    let lent = Lent::holding(random, sheet);
    let given = lent.clone();
    let mut row = Lent::filled(random, row_len);
    let mut row_2 = row.clone();
    let one = niraflue::read(given.slice(), row.slice_mut());
    let two = reference::read(sheet, row_2.slice_mut());
    let case = || {
        format!(
            "sheet {}, row buffer {row_len} bytes\nlibrary   {one}\nreference {two}\n\
             library's row buffer   {}\nreference's row buffer {}",
            hex(sheet),
            hex(row.slice()),
            hex(row_2.slice()),
        )
    };
    assert!(one == two, "answers differ: {}", case());
    assert!(row == row_2, "row or its guards differ: {}", case());
    assert!(given.is_still(&lent), "the sheet was changed: {}", case());
    let length = if one.accepted() {
        one.place as usize
    } else {
        0
    };
    (one, row.slice()[..length].to_vec())
}

/// Tests agreement by both.
pub fn agrees(random: &mut Random, row: &[u8], sheet: &[u8]) -> bool {
    let (row_lent, sheet_lent) = (Lent::holding(random, row), Lent::holding(random, sheet));
    let (row_given, sheet_given) = (row_lent.clone(), sheet_lent.clone());
    let one = niraflue::agrees(row_given.slice(), sheet_given.slice());
    let two = reference::agrees(row, sheet);
    let case = || {
        let (row, sheet) = (hex(row), hex(sheet));
        format!("row {row} sheet {sheet}\nlibrary {one}, reference {two}")
    };
    assert!(one == two, "answers differ: {}", case());
    assert!(
        row_given.is_still(&row_lent),
        "the row was changed: {}",
        case()
    );
    assert!(
        sheet_given.is_still(&sheet_lent),
        "the sheet was changed: {}",
        case()
    );
    one
}

pub type Record = [u8; RECORD_SIZE];

/// The records of a film in the order of their bytes.
pub fn records(film: &[u8]) -> Vec<Record> {
    assert_eq!(film.len() % RECORD_SIZE, 0, "a film of whole records");
    let mut records: Vec<Record> = film
        .chunks(RECORD_SIZE)
        .map(|record| record.try_into().expect("chunks of that size"))
        .collect();
    records.sort_unstable();
    records
}

/// Draws by both into a buffer of the stated length; gives the answer and, if accepted, the records
/// in the order of their bytes.
pub fn draw(random: &mut Random, sheet: &[u8], film_len: usize) -> (Said, Vec<Record>) {
    let lent = Lent::holding(random, sheet);
    let given = lent.clone();
    let mut film = Lent::filled(random, film_len);
    let mut film_2 = film.clone();
    let one = niraflue::draw(given.slice(), film.slice_mut());
    let two = reference::draw(sheet, film_2.slice_mut());
    let case = || {
        format!(
            "sheet {}, film buffer {film_len} bytes\nlibrary   {one}\nreference {two}\n\
             library's film buffer   {}\nreference's film buffer {}",
            hex(sheet),
            hex(film.slice()),
            hex(film_2.slice()),
        )
    };
    assert!(one == two, "answers differ: {}", case());
    let length = match one.number {
        0 => RECORD_SIZE * one.place as usize,
        _ => 0,
    };
    let (drawn, rest) = film.parted(length);
    let (drawn_2, rest_2) = film_2.parted(length);
    let drawn = records(drawn);
    let once = drawn.windows(2).all(|pair| pair[0] < pair[1]);
    assert!(drawn == records(drawn_2), "records differ: {}", case());
    assert!(once, "a record occurs twice: {}", case());
    assert!(rest == rest_2, "more of the film differs: {}", case());
    assert!(given.is_still(&lent), "sheet was changed: {}", case());
    (one, drawn)
}

/// Draws into a film that is long enough for every sheet, and, if that was accepted, into one of the
/// exact length and, if that has any bytes, one that is a byte short.
pub fn draw_at_all_lengths(random: &mut Random, sheet: &[u8]) -> (Said, Vec<Record>) {
    let (answer, drawn) = draw(random, sheet, film_bound(niraflue::MAX_NODES));
    if answer.accepted() {
        let exact = RECORD_SIZE * drawn.len();
        assert_eq!(
            draw(random, sheet, exact),
            (answer, drawn.clone()),
            "{}",
            hex(sheet)
        );
        if let Some(short) = exact.checked_sub(1) {
            let (answer, _) = draw(random, sheet, short);
            assert_eq!(answer, said(21, 0), "{}", hex(sheet));
        }
    }
    (answer, drawn)
}
