//! Document 01's specimens S1 to S12, S12 with request 6's number, rows and sheets with request 1's
//! blanks, and the edges, answered by the library and by the reference.

mod common;
mod entries;

use common::{agrees, draw, draw_at_all_lengths, hex, read, records, route, said, Random};
use entries::entries;
use niraflue::{film_of, routed, row_of, sheet_size, work_size, Said, BLANK};

/// Routes with buffers of the exact lengths; on failure the row and the streets are printed.
fn routed_by_both(row: &[u8], streets: (u8, u8)) -> (Said, Vec<u8>) {
    let n = row.len();
    let mut random = Random::new(1 + n as u64);
    route(&mut random, row, streets, work_size(n), sheet_size(n))
}

fn assert_sheet(row: &[u8], (ku, kl): (u8, u8), sheet: &str) {
    let (answer, given) = routed_by_both(row, (ku, kl));
    let expected = (said(0, row.len()), sheet.to_string());
    assert_eq!((answer, hex(&given)), expected, "{} {ku}/{kl}", hex(row));
    assert_eq!(routed(row, ku, kl), Ok(given));
}

#[test]
fn s1_s3_and_s6_get_their_sheets() {
    assert_sheet(b"aa", (1, 0), "10020200");
    assert_sheet(b"abab", (1, 1), "1404000860");
    assert_sheet(b"abcbac", (2, 1), "24060010628200");
}

fn assert_positions(row: &[u8], (ku, kl): (u8, u8), expected: &[u8]) {
    let (answer, sheet) = routed_by_both(row, (ku, kl));
    assert_eq!(answer, said(0, row.len()), "{} {ku}/{kl}", hex(row));
    let positions: Vec<u8> = entries(&sheet).iter().map(|(_, field)| field + 1).collect();
    assert_eq!(positions, expected, "{} {ku}/{kl}", hex(row));
}

#[test]
fn s5_and_s8_get_their_positions() {
    assert_positions(b"abba", (2, 0), &[1, 2, 2, 1]);
    assert_positions(b"abcabcabc", (2, 2), &[1, 1, 1, 3, 2, 1, 3, 2, 1]);
}

#[test]
fn s2_s4_s7_s9_and_s10_are_refused() {
    let specimens: [(&[u8], (u8, u8), Said); 5] = [
        (b"aa", (0, 0), said(6, 1)),
        (b"abab", (2, 0), said(6, 3)),
        (b"abcabcabc", (2, 1), said(6, 5)),
        (b"abccba", (1, 1), said(6, 3)),
        (b"aab", (1, 1), said(3, 3)),
    ];
    for (row, streets, refusal) in specimens {
        let (answer, _) = routed_by_both(row, streets);
        assert_eq!(answer, refusal, "{} {streets:?}", hex(row));
        assert_eq!(routed(row, streets.0, streets.1), Err(refusal));
    }
}

#[test]
fn s11_and_s12_are_refused_by_reader_drawer_and_agreement_test() {
    let mut random = Random::new(11);
    let specimens: [([u8; 4], Said); 2] = [
        ([0x10, 0x02, 0x02, 0x01], said(19, 0)),
        ([0x10, 0x02, 0x00, 0x00], said(30, 2)),
    ];
    for (sheet, refusal) in specimens {
        assert_eq!(read(&mut random, &sheet, 2).0, refusal);
        assert_eq!(draw(&mut random, &sheet, 100).0, refusal);
        assert_eq!(draw(&mut random, &sheet, 0).0, refusal);
        assert!(!agrees(&mut random, b"aa", &sheet));
        assert_eq!(row_of(&sheet), Err(refusal));
        assert_eq!(film_of(&sheet), Err(refusal));
    }
    assert_eq!(read(&mut random, &specimens[0].0, 1).0, said(14, 0));
}

#[test]
fn each_limit_has_its_number() {
    let mut random = Random::new(19);
    let specimens: [(&[u8], Said); 7] = [
        // One limit broken.
        (&[0x08, 0x04, 0x00, 0x18, 0x20], said(17, 2)),
        (&[0x3c, 0x08, 0, 0, 0, 0, 0, 0x20], said(30, 5)),
        (&[0x14, 0x04, 0x00, 0x00, 0x60], said(31, 3)),
        // Three Bs under 1/1, the third at p = 4, 3, 1, 2: the sum is broken at each.
        (&[0x14, 0x03, 0x00, 0x00, 0xc0], said(16, 3)),
        (&[0x14, 0x03, 0x00, 0x00, 0x80], said(17, 3)),
        (&[0x14, 0x03, 0x00, 0x00, 0x00], said(30, 3)),
        (&[0x14, 0x03, 0x00, 0x00, 0x40], said(31, 3)),
    ];
    for (sheet, refusal) in specimens {
        assert_eq!(read(&mut random, sheet, 8).0, refusal, "{}", hex(sheet));
        assert_eq!(draw(&mut random, sheet, 100).0, refusal, "{}", hex(sheet));
        assert!(!agrees(&mut random, b"aabb", sheet), "{}", hex(sheet));
    }
}

#[test]
fn s1_has_its_film() {
    let mut random = Random::new(12);
    let sheet = [0x10, 0x02, 0x02, 0x00];
    let level_1 = [0x00, 0x28, 0x00, 0x00, 0x20];
    let stub_at_0 = [0x80, 0x20, 0x00, 0x14, 0x00];
    let stub_at_16 = [0x80, 0x20, 0x04, 0x14, 0x00];
    let film = draw_at_all_lengths(&mut random, &sheet);
    assert_eq!(film, (said(0, 3), vec![level_1, stub_at_0, stub_at_16]));
    let owned = film_of(&sheet).map(|film| records(&film));
    assert_eq!(owned, Ok(film.1));
}

#[test]
fn in_s3_a_goes_from_1_to_minus_1_at_column_1() {
    let mut random = Random::new(13);
    let (answer, film) = draw_at_all_lengths(&mut random, &[0x14, 0x04, 0x00, 0x08, 0x60]);
    assert_eq!(answer, said(0, 8));
    assert!(film.contains(&[0x80, 0x18, 0x00, 0x54, 0x00]), "{film:x?}");
}

/// The row of a text with an underscore for each blank.
fn with_blanks(text: &str) -> Vec<u8> {
    let label = |byte: u8| if byte == b'_' { BLANK } else { byte };
    text.bytes().map(label).collect()
}

#[test]
fn rows_with_blanks_get_their_sheets() {
    assert_sheet(&with_blanks("__"), (0, 0), "0002c300");
    assert_sheet(&with_blanks("a_a"), (1, 1), "1403030800");
    assert_sheet(&with_blanks("_a_a_"), (1, 1), "1405c00c20c0");
    assert_sheet(&with_blanks("ab_ab_"), (1, 1), "1406000c618300");
}

#[test]
fn rows_with_blanks_are_refused_for_their_nets() {
    for (text, streets, refusal) in [
        ("ab_ab", (2, 0), said(6, 4)),
        ("__aa", (0, 0), said(6, 3)),
        ("_a", (1, 1), said(3, 2)),
        ("_a__", (0, 0), said(3, 2)),
        ("_", (1, 1), said(1, 0)),
        ("__", (4, 0), said(2, 0)),
    ] {
        let (answer, _) = routed_by_both(&with_blanks(text), streets);
        assert_eq!(answer, refusal, "{text} {streets:?}");
    }
}

#[test]
fn three_of_six_wires_pass_above_a_blank() {
    let (answer, sheet) = routed_by_both(&with_blanks("abcdef_fedcba"), (3, 3));
    assert_eq!(answer, said(0, 13));
    assert_eq!(entries(&sheet)[6], (3, 3));
}

#[test]
fn each_limit_at_a_blank_has_its_number() {
    let mut random = Random::new(20);
    let row = with_blanks("a_a");
    for (sheet, refusal) in [
        ([0x10, 0x03, 0x03, 0x08, 0x00], said(30, 2)),
        ([0x04, 0x03, 0x03, 0x18, 0x00], said(17, 2)),
        ([0x04, 0x03, 0x03, 0x28, 0x00], said(16, 2)),
    ] {
        assert_eq!(read(&mut random, &sheet, 3).0, refusal, "{}", hex(&sheet));
        assert_eq!(draw(&mut random, &sheet, 99).0, refusal, "{}", hex(&sheet));
        assert!(!agrees(&mut random, &row, &sheet), "{}", hex(&sheet));
    }
}

/// Whichever side of the blank the wire takes, the sheet is legal; the router's has it below.
#[test]
fn wires_pass_a_blank_on_either_side() {
    let mut random = Random::new(21);
    for (sheet, count) in [
        ([0x14, 0x03, 0x03, 0x08, 0x00], 7),
        ([0x14, 0x03, 0x03, 0x18, 0x00], 3),
    ] {
        let row = read(&mut random, &sheet, 3);
        assert_eq!(row, (said(0, 3), vec![0, BLANK, 0]));
        assert!(agrees(&mut random, &with_blanks("a_a"), &sheet));
        for other in ["aaa", "aba", "a_b", "___", "aa_", "a__a", "a_"] {
            assert!(!agrees(&mut random, &with_blanks(other), &sheet), "{other}");
        }
        let (answer, _) = draw_at_all_lengths(&mut random, &sheet);
        assert_eq!(answer, said(0, count));
    }
}

#[test]
fn in_the_film_of_a_blank_the_wire_goes_down_and_up_again() {
    let mut random = Random::new(25);
    let (_, film) = draw_at_all_lengths(&mut random, &[0x14, 0x03, 0x03, 0x08, 0x00]);
    for column in [1, 17] {
        let between_1_and_minus_1 = [0x80, 0x18, column >> 2, (column << 6) | 0x14, 0x00];
        assert!(film.contains(&between_1_and_minus_1), "{film:x?}");
    }
}

#[test]
fn rows_of_blanks_alone_have_no_film() {
    let mut random = Random::new(22);
    for n in [2, 3, 511, 512] {
        let row = vec![BLANK; n];
        let (answer, sheet) = routed_by_both(&row, (0, 0));
        assert_eq!(answer, said(0, n));
        assert!(entries(&sheet).iter().all(|&entry| entry == (3, 0)));
        assert_eq!(read(&mut random, &sheet, n), (said(0, n), row.clone()));
        assert!(agrees(&mut random, &row, &sheet));
        assert!(!agrees(&mut random, &vec![0; n], &sheet));
        let none = draw_at_all_lengths(&mut random, &sheet);
        assert_eq!(none, (said(0, 0), vec![]));
        assert_eq!(film_of(&sheet), Ok(vec![]));
    }
}

#[test]
fn rows_have_up_to_255_nets() {
    let mut random = Random::new(23);
    let pairs = (0..510).map(|at| (at / 2) as u8);
    let row: Vec<u8> = pairs.chain([BLANK, BLANK]).collect();
    let (answer, sheet) = routed_by_both(&row, (1, 0));
    assert_eq!(answer, said(0, 512));
    assert_eq!(read(&mut random, &sheet, 512), (said(0, 512), row.clone()));
    assert!(agrees(&mut random, &row, &sheet));
    for last in [[254, 254], [254, BLANK], [BLANK, 0]] {
        let other = [&row[..510], &last].concat();
        assert!(!agrees(&mut random, &other, &sheet), "{last:?}");
    }
    assert_eq!(draw_at_all_lengths(&mut random, &sheet).0, said(0, 765));
}

#[test]
fn a_sheet_of_256_nets_is_drawn_and_not_read() {
    let mut random = Random::new(24);
    // Under 1/0: pairs of neighbours, two to three bytes.
    let pairs = [0x02, 0x00, 0x20].repeat(128);
    let sheet = [&[0x12, 0x00][..], &pairs].concat();
    assert_eq!(read(&mut random, &sheet, 512).0, said(23, 0));
    assert_eq!(read(&mut random, &sheet, 511).0, said(14, 0));
    assert_eq!(row_of(&sheet), Err(said(23, 0)));
    let labels: Vec<u8> = (0..512).map(|at| (at / 2) as u8).collect();
    for last in [BLANK, 254, 0] {
        let row = [&labels[..510], &[last; 2]].concat();
        assert!(!agrees(&mut random, &row, &sheet), "{last}");
    }
    let (answer, film) = draw_at_all_lengths(&mut random, &sheet);
    assert_eq!(answer, said(0, 768));
    let net = |record: &[u8; 5]| record[0] << 1 | record[1] >> 7;
    assert_eq!(film.iter().filter(|record| net(record) == 255).count(), 3);
}

/// Nets of two neighbours each, at most 255; the last net has the nodes that are left.
fn neighbours(n: usize) -> Vec<u8> {
    let nets = (n / 2).clamp(1, 255);
    (0..n).map(|at| (at / 2).min(nets - 1) as u8).collect()
}

#[test]
fn rows_have_2_to_512_nodes() {
    for (n, answer) in [
        (0, said(1, 0)),
        (1, said(1, 0)),
        (2, said(0, 2)),
        (3, said(0, 3)),
        (511, said(0, 511)),
        (512, said(0, 512)),
        (513, said(1, 0)),
    ] {
        assert_eq!(routed_by_both(&neighbours(n), (1, 0)).0, answer, "{n}");
    }
}

#[test]
fn streets_have_at_most_3_tracks() {
    for (streets, answer) in [
        ((3, 0), said(0, 4)),
        ((0, 3), said(0, 4)),
        ((3, 3), said(0, 4)),
        ((4, 0), said(2, 0)),
        ((0, 4), said(2, 0)),
        ((255, 255), said(2, 0)),
    ] {
        assert_eq!(routed_by_both(b"abba", streets).0, answer, "{streets:?}");
    }
}

#[test]
fn refusals_come_in_their_order() {
    let mut random = Random::new(14);
    for (row, streets, work_len, sheet_len, answer) in [
        (&b"a"[..], (4, 4), 0, 0, said(1, 0)),
        (b"aab", (4, 0), 0, 0, said(2, 0)),
        (b"abaca", (0, 0), 0, 0, said(3, 2)),
        (b"aa", (0, 0), 179, 0, said(4, 0)),
        (b"aa", (0, 0), 180, 3, said(5, 0)),
        (b"aa", (0, 0), 180, 4, said(6, 1)),
    ] {
        let given = route(&mut random, row, streets, work_len, sheet_len);
        assert_eq!(given.0, answer, "{}", hex(row));
    }
}

#[test]
fn each_buffer_is_exact_or_a_byte_short() {
    let mut random = Random::new(15);
    for n in [2, 3, 4, 5, 6, 7, 511, 512] {
        let row = neighbours(n);
        let (work, sheet) = (work_size(n), sheet_size(n));
        let mut with = |work, sheet| route(&mut random, &row, (0, 1), work, sheet);
        assert_eq!(with(work - 1, sheet).0, said(4, 0), "{n}");
        assert_eq!(with(work, sheet - 1).0, said(5, 0), "{n}");
        let (answer, sheet) = with(work, sheet);
        assert_eq!(answer, said(0, n));
        assert_eq!(read(&mut random, &sheet, n - 1).0, said(14, 0), "{n}");
        assert_eq!(read(&mut random, &sheet, n), (said(0, n), row.clone()));
        assert!(draw_at_all_lengths(&mut random, &sheet).0.accepted());
        assert!(agrees(&mut random, &row, &sheet), "{n}");
        for wrong in [&sheet[..sheet.len() - 1], &[&sheet[..], &[0]].concat()] {
            assert_eq!(read(&mut random, wrong, n).0, said(13, 0), "{n}");
            assert!(!agrees(&mut random, &row, wrong), "{n}");
        }
    }
}

#[test]
fn sheets_state_2_to_512_nodes() {
    let mut random = Random::new(16);
    for n in [0usize, 1, 513, 1023] {
        let mut sheet = vec![0; sheet_size(n)];
        sheet[0] = 0x10 | (n >> 8) as u8;
        sheet[1] = n as u8;
        assert_eq!(read(&mut random, &sheet, 600).0, said(11, 0), "{n}");
        assert_eq!(draw(&mut random, &sheet, 600).0, said(11, 0), "{n}");
    }
}

#[test]
fn sheets_state_at_most_3_upper_tracks() {
    let mut random = Random::new(17);
    for (ku, of_reader, of_drawer) in [
        (3, said(0, 2), said(0, 3)),
        (4, said(12, 0), said(12, 0)),
        (15, said(12, 0), said(12, 0)),
    ] {
        let sheet = [ku << 4, 0x02, 0x02, 0x00];
        assert_eq!(read(&mut random, &sheet, 2).0, of_reader, "{ku}");
        assert_eq!(draw(&mut random, &sheet, 15).0, of_drawer, "{ku}");
    }
}

#[test]
fn sheets_have_at_least_2_bytes() {
    let mut random = Random::new(18);
    for sheet in [&[][..], &[0x10]] {
        assert_eq!(read(&mut random, sheet, 2).0, said(11, 0), "{sheet:?}");
        assert_eq!(draw(&mut random, sheet, 2).0, said(11, 0), "{sheet:?}");
        assert!(!agrees(&mut random, b"", sheet), "{sheet:?}");
    }
}

#[test]
fn empty_slices_may_be_lent() {
    assert_eq!(niraflue::route(&[], 1, 1, &mut [], &mut []), said(1, 0));
    assert_eq!(niraflue::route(b"aa", 1, 1, &mut [], &mut []), said(4, 0));
    assert_eq!(niraflue::read(&[], &mut []), said(11, 0));
    assert_eq!(niraflue::draw(&[], &mut []), said(11, 0));
    let sheet = [0x10, 0x02, 0x02, 0x00];
    assert_eq!(niraflue::read(&sheet, &mut []), said(14, 0));
    assert_eq!(niraflue::draw(&sheet, &mut []), said(21, 0));
    assert!(!niraflue::agrees(&[], &[]));
    assert!(!niraflue::agrees(&[], &sheet));
    assert!(!niraflue::agrees(b"aa", &[]));
    assert_eq!(routed(&[], 1, 1), Err(said(1, 0)));
    assert_eq!(row_of(&[]), Err(said(11, 0)));
    assert_eq!(film_of(&[]), Err(said(11, 0)));
}

#[test]
fn a_row_of_any_length_is_refused_without_its_buffers() {
    assert_eq!(routed(&vec![7; 1 << 20], 3, 3), Err(said(1, 0)));
}

#[test]
fn refusals_speak() {
    let refusal = routed(b"abab", 2, 0).unwrap_err();
    assert_eq!(refusal.to_string(), "6 at 3: the row has no placing");
    let refusal = said(23, 0);
    assert_eq!(
        refusal.to_string(),
        "23 at 0: the sheet has more than 255 nets"
    );
    for (third, words) in [
        (0x80, "17 at 3: the upper street has too few tracks"),
        (0x00, "30 at 3: the lower street has too few tracks"),
        (0x40, "31 at 3: both streets together have too few tracks"),
    ] {
        let refusal = row_of(&[0x14, 0x03, 0x00, 0x00, third]).unwrap_err();
        assert_eq!(refusal.to_string(), words);
    }
}
