//! The outside vectors, which come from an implementation of documents 01 and 02 that shares no text
//! with this repository, and the rows to measure on, answered by the library and by the reference.

mod common;

use common::{agrees, draw, draw_at_all_lengths, hex, read, records, route, said, Random, Record};
use niraflue::{film_of, routed, row_of, sheet_size, work_size, Said};

const AGREE: &str = include_str!("../../crates/vectors/data/agree.txt");
const ROUTER: &str = include_str!("../../crates/vectors/data/router.txt");
const ROWS: &str = include_str!("../rows.txt");
const SHEETS: &str = include_str!("../../crates/vectors/data/sheets.txt");

fn from_hex(text: &str) -> Vec<u8> {
    if text == "-" {
        return Vec::new();
    }
    assert_eq!(text.len() % 2, 0, "{text}");
    (0..text.len())
        .step_by(2)
        .map(|at| u8::from_str_radix(&text[at..at + 2], 16).expect(text))
        .collect()
}

fn number<T: std::str::FromStr>(text: &str) -> T {
    text.parse().unwrap_or_else(|_| panic!("number {text}"))
}

fn fields<const N: usize>(line: &str) -> [&str; N] {
    let fields: Vec<_> = line.split(' ').collect();
    fields.try_into().unwrap_or_else(|_| panic!("line {line}"))
}

/// An answer with what it gives, as the allocating calls return it.
fn given<T>((answer, gives): (Said, T)) -> Result<T, Said> {
    match answer.number {
        0 => Ok(gives),
        _ => Err(answer),
    }
}

#[test]
fn rows_get_the_sheets_of_the_outside_vectors() {
    let mut random = Random::new(1);
    for line in ROUTER.lines() {
        let [row, ku, kl, refusal, place, sheet] = fields(line);
        let (row, sheet) = (from_hex(row), from_hex(sheet));
        let streets = (number(ku), number(kl));
        let expected = (said(number(refusal), number(place)), sheet);
        let n = row.len();
        let exact = route(&mut random, &row, streets, work_size(n), sheet_size(n));
        assert_eq!(exact, expected, "{line}");
        let long = route(
            &mut random,
            &row,
            streets,
            work_size(n) + 9,
            sheet_size(n) + 9,
        );
        assert_eq!(long, expected, "{line}");
        assert_eq!(
            routed(&row, streets.0, streets.1),
            given(expected),
            "{line}"
        );
    }
    assert_eq!(ROUTER.lines().count(), 600);
}

#[test]
fn sheets_get_the_rows_and_films_of_the_outside_vectors() {
    let mut random = Random::new(2);
    for line in SHEETS.lines() {
        let [sheet, refusal, place, row, drawer_refusal, count, film] = fields(line);
        let (sheet, row, film) = (from_hex(sheet), from_hex(row), from_hex(film));
        let to_row = (said(number(refusal), number(place)), row.clone());
        let to_film: (Said, Vec<Record>) =
            (said(number(drawer_refusal), number(count)), records(&film));
        assert_eq!(read(&mut random, &sheet, 512), to_row, "{line}");
        assert_eq!(draw_at_all_lengths(&mut random, &sheet), to_film, "{line}");
        let yes = agrees(&mut random, &row, &sheet);
        assert_eq!(yes, to_row.0.accepted(), "{line}");
        assert_eq!(row_of(&sheet), given(to_row), "{line}");
        let drawn = film_of(&sheet).map(|film| records(&film));
        assert_eq!(drawn, given(to_film), "{line}");
    }
    assert_eq!(SHEETS.lines().count(), 673);
}

#[test]
fn rows_and_sheets_agree_as_the_outside_vectors_say() {
    let mut random = Random::new(5);
    for line in AGREE.lines() {
        let [row, sheet, answer] = fields(line);
        let (row, sheet) = (from_hex(row), from_hex(sheet));
        let yes = agrees(&mut random, &row, &sheet);
        assert_eq!(u8::from(yes), number(answer), "{line}");
    }
    assert_eq!(AGREE.lines().count(), 300);
}

#[test]
fn rows_to_measure_on_are_routed_alike() {
    let mut random = Random::new(4);
    let mut answers = [0; 2];
    for line in ROWS.lines() {
        let [_, n, ku, kl, row] = fields(line);
        let (row, n) = (from_hex(row), number(n));
        let streets = (number(ku), number(kl));
        let (answer, _) = route(&mut random, &row, streets, work_size(n), sheet_size(n));
        assert!([0, 6].contains(&answer.number), "{answer} for {line}");
        answers[usize::from(answer.accepted())] += 1;
    }
    let [refused, accepted] = answers;
    assert!(refused >= 40 && accepted >= 300, "{answers:?}");
}

/// The first sheets of the papers' worked net lists whose streets are at most 3.
const WORKED: [&str; 5] = [
    "2c0a0010000628a28200",
    "280d0000014a188006286180",
    "3c0b0000410528e2860800",
    "3c100000410530a30938a3860820",
    "280e0000018818a20018a18600",
];

#[test]
fn worked_net_lists_get_their_first_sheets() {
    let mut random = Random::new(3);
    for text in WORKED {
        let sheet = from_hex(text);
        let row = row_of(&sheet).expect(text);
        let (ku, kl) = (sheet[0] >> 4, sheet[0] >> 2 & 3);
        let n = row.len();
        let again = route(&mut random, &row, (ku, kl), work_size(n), sheet_size(n));
        assert_eq!(again, (said(0, n), sheet), "row {}", hex(&row));
        assert!(
            draw(&mut random, &from_hex(text), 0).0 == said(21, 0),
            "{text}"
        );
    }
}
