//! Rows and sheets by chance, from fixed seeds: the library answers each as the reference does, in
//! number, place and every byte of every buffer.

mod chance;
mod common;
mod entries;
mod wires;

use chance::{
    any_length, any_row, any_streets, crowded, damaged, late_row, legal, legal_streets, renamed,
    with_blanks,
};
use common::{agrees, draw, draw_at_all_lengths, hex, read, route, said, Random};
use entries::entries;
use niraflue::{film_bound, sheet_size, work_size, Said, BLANK, MAX_NODES, RECORD_SIZE};
use std::collections::BTreeMap;

/// How often each number was given.
#[derive(Debug, Default)]
struct Tally(BTreeMap<u32, usize>);

impl Tally {
    fn count(&mut self, answer: Said) {
        *self.0.entry(answer.number).or_default() += 1;
    }

    fn assert_each(&self, numbers: &[u32], at_least: usize) {
        for number in numbers {
            let count = self.0.get(number).copied().unwrap_or(0);
            assert!(count >= at_least, "{number} came {count} times: {self:?}");
        }
    }
}

/// A length of a buffer that needs `needed` bytes: short, exact or long.
fn any_room(random: &mut Random, needed: usize) -> usize {
    match random.below(16) {
        0 => random.below(needed + 1),
        1 => needed.saturating_sub(1),
        2..=8 => needed,
        _ => needed + random.below(40),
    }
}

/// The node count that a sheet states, 0 if it is too short to.
fn stated_nodes(sheet: &[u8]) -> usize {
    match sheet {
        [first, second, ..] => usize::from(first & 3) << 8 | usize::from(*second),
        _ => 0,
    }
}

#[test]
fn rows_are_routed_as_the_reference_routes_them() {
    let mut random = Random::new(0x9e37_79b9_7f4a_7c15);
    let mut tally = Tally::default();
    for _ in 0..20_000 {
        let streets = any_streets(&mut random);
        let row = any_row(&mut random, streets);
        let work_len = any_room(&mut random, work_size(row.len()));
        let sheet_len = any_room(&mut random, sheet_size(row.len()));
        let (answer, sheet) = route(&mut random, &row, streets, work_len, sheet_len);
        tally.count(answer);
        if answer.accepted() {
            assert!(agrees(&mut random, &row, &sheet), "{}", hex(&row));
        }
    }
    println!("routed {tally:?}");
    tally.assert_each(&[0, 6], 2500);
    tally.assert_each(&[1, 2, 3, 4, 5], 500);
}

#[test]
fn rows_are_refused_late_where_the_reference_refuses_them() {
    let mut random = Random::new(0x5851_f42d_4c95_7f2d);
    let mut tally = Tally::default();
    for _ in 0..1_000 {
        let streets = legal_streets(&mut random);
        let row = late_row(&mut random, streets);
        let n = row.len();
        let (answer, _) = route(&mut random, &row, streets, work_size(n), sheet_size(n));
        let node = answer.place as usize;
        assert!(node + 30 > n, "{answer} for {} {streets:?}", hex(&row));
        tally.count(answer);
    }
    println!("late {tally:?}");
    tally.assert_each(&[0, 6], 200);
}

#[test]
fn labels_do_not_change_the_sheet() {
    let mut random = Random::new(0xbf58_476d_1ce4_e5b9);
    let mut tally = Tally::default();
    for _ in 0..2_000 {
        let streets = legal_streets(&mut random);
        let row = any_row(&mut random, streets);
        let other = renamed(&mut random, &row);
        let (work_len, sheet_len) = (work_size(row.len()), sheet_size(row.len()));
        let one = route(&mut random, &row, streets, work_len, sheet_len);
        let two = route(&mut random, &other, streets, work_len, sheet_len);
        assert_eq!(one, two, "rows {} and {}", hex(&row), hex(&other));
        tally.count(one.0);
    }
    println!("renamed {tally:?}");
    tally.assert_each(&[0, 6], 300);
}

/// Positions at all other nodes, or the node of a refusal, are those of the row without its blanks.
#[test]
fn blanks_change_nothing_else() {
    let mut random = Random::new(0xe703_7ed1_a0b4_28db);
    let mut tally = Tally::default();
    for _ in 0..4_000 {
        let streets = legal_streets(&mut random);
        let row = any_row(&mut random, streets);
        let row = with_blanks(&mut random, &row);
        let joined: Vec<usize> = (0..row.len()).filter(|&at| row[at] != BLANK).collect();
        let bare: Vec<u8> = joined.iter().map(|&at| row[at]).collect();
        if bare.len() < 2 || row.len() > MAX_NODES {
            continue;
        }
        let mut routed = |row: &[u8]| {
            let (work_len, sheet_len) = (work_size(row.len()), sheet_size(row.len()));
            route(&mut random, row, streets, work_len, sheet_len)
        };
        let ((answer, sheet), (of_bare, bare_sheet)) = (routed(&row), routed(&bare));
        let case = format!("{} {streets:?}", hex(&row));
        assert_eq!(answer.number, of_bare.number, "{case}");
        if answer.accepted() {
            let all = entries(&sheet);
            let others: Vec<(u8, u8)> = joined.iter().map(|&at| all[at]).collect();
            assert_eq!(others, entries(&bare_sheet), "{case}");
        } else {
            let node = joined[of_bare.place as usize - 1] + 1;
            assert_eq!(answer.place as usize, node, "{case}");
        }
        tally.count(answer);
    }
    println!("with blanks {tally:?}");
    tally.assert_each(&[0, 6], 500);
    tally.assert_each(&[3], 200);
}

#[test]
fn legal_sheets_are_read_and_drawn() {
    let mut random = Random::new(0x94d0_49bb_1331_11eb);
    let (mut reader, mut drawer) = (Tally::default(), Tally::default());
    for _ in 0..4_000 {
        let n = any_length(&mut random).clamp(2, 512);
        let streets = legal_streets(&mut random);
        let (row, sheet) = legal(&mut random, n, streets);
        let case = hex(&sheet);
        let exact = read(&mut random, &sheet, n);
        assert_eq!(exact, (said(0, n), row.clone()), "{case}");
        let short = read(&mut random, &sheet, n - 1);
        assert_eq!(short.0, said(14, 0), "{case}");
        let room = any_room(&mut random, n);
        reader.count(read(&mut random, &sheet, room).0);
        let (answer, film) = draw_at_all_lengths(&mut random, &sheet);
        assert!(answer.accepted(), "{answer} for {case}");
        let size = RECORD_SIZE * film.len();
        assert!(size <= film_bound(n), "{answer} for {case}");
        wires::assert_obeyed(&pins(&row), streets, &film);
        let room = any_room(&mut random, size);
        drawer.count(draw(&mut random, &sheet, room).0);
    }
    println!("legal sheets: read {reader:?}, drawn {drawer:?}");
    reader.assert_each(&[0, 14], 300);
    drawer.assert_each(&[0, 21], 300);
}

/// The net of each node of a row as the reader labels it, none at a blank.
fn pins(row: &[u8]) -> Vec<Option<usize>> {
    let net = |&label: &u8| (label != BLANK).then_some(usize::from(label));
    row.iter().map(net).collect()
}

#[test]
fn sheets_of_256_nets_are_drawn_and_not_read() {
    let mut random = Random::new(0x8ebc_6af0_9c88_c6e3);
    let (mut reader, mut drawer) = (Tally::default(), Tally::default());
    for _ in 0..600 {
        let streets = legal_streets(&mut random);
        let (pins, whole) = crowded(&mut random, streets);
        let (answer, film) = draw_at_all_lengths(&mut random, &whole);
        assert!(answer.accepted(), "{answer} for {}", hex(&whole));
        wires::assert_obeyed(&pins, streets, &film);
        assert_eq!(read(&mut random, &whole, 512).0, said(23, 0));
        assert_eq!(read(&mut random, &whole, 511).0, said(14, 0));
        // The row with net 255's two nodes as blanks.
        let labels: Vec<u8> = pins.iter().flatten().map(|&net| net as u8).collect();
        assert!(!agrees(&mut random, &labels, &whole), "{}", hex(&whole));
        let sheet = damaged(&mut random, &whole);
        let room = any_room(&mut random, stated_nodes(&sheet));
        reader.count(read(&mut random, &sheet, room).0);
        drawer.count(draw_at_all_lengths(&mut random, &sheet).0);
    }
    println!("damaged sheets of 256 nets: read {reader:?}, drawn {drawer:?}");
    reader.assert_each(&[23], 50);
    drawer.assert_each(&[0], 50);
}

#[test]
fn damaged_sheets_are_refused_as_the_reference_refuses_them() {
    let mut random = Random::new(0xd6e8_feb8_6659_fd93);
    let (mut reader, mut drawer) = (Tally::default(), Tally::default());
    for _ in 0..40_000 {
        let n = any_length(&mut random).clamp(2, 512);
        let streets = legal_streets(&mut random);
        let (row, whole) = legal(&mut random, n, streets);
        let sheet = damaged(&mut random, &whole);
        let room = any_room(&mut random, stated_nodes(&sheet));
        reader.count(read(&mut random, &sheet, room).0);
        let (answer, _) = draw_at_all_lengths(&mut random, &sheet);
        drawer.count(answer);
        let yes = agrees(&mut random, &row, &sheet);
        assert!(!yes || answer.accepted(), "{}", hex(&sheet));
    }
    println!("damaged sheets: read {reader:?}, drawn {drawer:?}");
    reader.assert_each(&[0, 11, 12, 13, 14, 16, 17, 30, 31, 18, 19], 500);
    drawer.assert_each(&[0, 11, 12, 13, 16, 17, 30, 31, 18, 19], 500);
}

#[test]
fn rows_agree_with_sheets_as_the_reference_says() {
    let mut random = Random::new(0xa076_1d64_78bd_642f);
    let mut answers = [0; 2];
    for _ in 0..10_000 {
        let n = any_length(&mut random).clamp(2, 512);
        let streets = legal_streets(&mut random);
        let (row, sheet) = legal(&mut random, n, streets);
        let same = renamed(&mut random, &row);
        assert!(agrees(&mut random, &row, &sheet), "{}", hex(&sheet));
        assert!(agrees(&mut random, &same, &sheet), "{}", hex(&sheet));
        let other = chance::changed(&mut random, &same);
        answers[usize::from(agrees(&mut random, &other, &sheet))] += 1;
    }
    println!("changed rows: disagree, agree {answers:?}");
    assert!(answers[0] >= 5000 && answers[1] >= 500, "{answers:?}");
}
