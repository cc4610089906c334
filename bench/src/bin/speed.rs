//! Times the library and the routers that it is compared with, in one run on the same rows.
//!
//! `speed [ROWS]` checks that library, words and depth first answer every row alike, then prints
//! for each street pair, n and class the nanoseconds a node; ROWS is `rows.txt` if not given. Built
//! with the feature `shifted` the library's code stands 16 bytes further on, which times show.
//!
//! `speed count [ROWS]` calls words, depth first and published once a row, for callgrind to count
//! the instructions inside each call, as `scripts/performance` has it do. It prints a line for each
//! part that callgrind writes: the router, the row's class and streets, n, and the nodes that the
//! count is shared among.

use niraflue::Said;
use std::collections::BTreeMap;
use std::hint::black_box;
use std::time::{Duration, Instant};

// Sixteen bytes before the library's code, so that its loops stand elsewhere in the lines of the instruction cache.
#[cfg(feature = "shifted")]
std::arch::global_asm!(
    ".pushsection .text.shift,\"axR\",@progbits",
    ".p2align 4",
    ".skip 16, 0x90",
    ".popsection"
);

#[path = "../routers/mod.rs"]
mod routers;
use routers::{depth_first, published, words};

/// How often each router has its turn in a group of rows, and how long a turn lasts at least.
const TURNS: usize = 12;
const TURN: Duration = Duration::from_millis(20);

struct Row {
    class: String,
    ku: u8,
    kl: u8,
    nodes: Vec<u8>,
}

/// Room for the longest row.
struct Buffers {
    work: Vec<u8>,
    sheet: Vec<u8>,
}

impl Buffers {
    fn new() -> Buffers {
        Buffers {
            work: vec![0x5a; 90 * 512],
            sheet: vec![0xa5; 2 + 3 * 512 / 4],
        }
    }
}

type Route = fn(&[u8], u8, u8, &mut [u8], &mut [u8]) -> Said;

/// The routers that answer as documents 01 and 02 say.
const EXACT: [Route; 3] = [niraflue::route, count_words, count_depth_first];

#[no_mangle]
#[inline(never)]
pub fn count_words(row: &[u8], ku: u8, kl: u8, work: &mut [u8], sheet: &mut [u8]) -> Said {
    words::route(row, ku, kl, work, sheet)
}

#[no_mangle]
#[inline(never)]
pub fn count_depth_first(row: &[u8], ku: u8, kl: u8, work: &mut [u8], sheet: &mut [u8]) -> Said {
    depth_first::route(row, ku, kl, work, sheet)
}

#[no_mangle]
#[inline(never)]
pub fn count_published(row: &[u8], ku: u8, kl: u8, positions: &mut [u8]) -> Result<(), usize> {
    published::lay(row, ku, kl, positions)
}

/// Called after each call that is counted.
#[no_mangle]
#[inline(never)]
pub fn count_mark() {
    black_box(());
}

fn row_of(hex: &str) -> Vec<u8> {
    let byte =
        |at: usize| u8::from_str_radix(&hex[at..at + 2], 16).expect("two hexadecimal digits");
    (0..hex.len()).step_by(2).map(byte).collect()
}

fn parse(line: &str) -> Row {
    let fields: Vec<&str> = line.split(' ').collect();
    let [class, n, ku, kl, hex] = fields[..] else {
        panic!("not `class n Ku Kl row`: {line}");
    };
    let nodes = row_of(hex);
    assert_eq!(n, nodes.len().to_string(), "{line}");
    Row {
        class: class.to_string(),
        ku: ku.parse().expect("Ku"),
        kl: kl.parse().expect("Kl"),
        nodes,
    }
}

fn route(route: Route, row: &Row, lent: &mut Buffers) -> Said {
    route(&row.nodes, row.ku, row.kl, &mut lent.work, &mut lent.sheet)
}

/// Whether the exact routers give the same number, place and bytes, and the published method lays
/// out exactly the rows that have a placing.
fn check(row: &Row) -> bool {
    let answers = EXACT.map(|router| {
        let mut lent = Buffers::new();
        let said = route(router, row, &mut lent);
        (said, lent.work, lent.sheet)
    });
    let laid = published::covers(row.ku, row.kl)
        .then(|| count_published(&row.nodes, row.ku, row.kl, &mut [0; 512]).is_ok());
    answers[0] == answers[1]
        && answers[0] == answers[2]
        && laid.is_none_or(|laid| laid == (answers[0].0.number == 0))
}

/// The shortest time, in nanoseconds, that one pass over the rows takes in a turn.
fn turn(rows: &[&Row], run: &mut dyn FnMut(&Row)) -> f64 {
    let start = Instant::now();
    let mut best = f64::INFINITY;
    while start.elapsed() < TURN {
        let pass = Instant::now();
        rows.iter().for_each(|row| run(row));
        best = best.min(pass.elapsed().as_nanos() as f64);
    }
    best
}

/// Nanoseconds a node of each exact router and of the published method, where it is given.
fn measure(rows: &[&Row]) -> [f64; 4] {
    let nodes: usize = rows.iter().map(|row| row.nodes.len()).sum();
    let covered = published::covers(rows[0].ku, rows[0].kl);
    let mut best = [f64::INFINITY; 4];
    let mut lent = Buffers::new();
    for _ in 0..TURNS {
        for (best, router) in best.iter_mut().zip(EXACT) {
            let time = turn(rows, &mut |row| {
                black_box(route(router, row, &mut lent));
            });
            *best = best.min(time / nodes as f64);
        }
        if covered {
            let time = turn(rows, &mut |row| {
                let _ = black_box(count_published(&row.nodes, row.ku, row.kl, &mut lent.work));
            });
            best[3] = best[3].min(time / nodes as f64);
        }
    }
    best
}

fn print_table(rows: &[Row]) {
    let mut groups: BTreeMap<_, Vec<&Row>> = BTreeMap::new();
    for row in rows {
        let key = (row.ku, row.kl, row.nodes.len(), row.class.as_str());
        groups.entry(key).or_default().push(row);
    }
    println!("nanoseconds a node, the best of {TURNS} turns of at least {TURN:?} each");
    print!("{:8}{:>4}  {:6}{:>5}", "streets", "n", "class", "rows");
    println!(
        "{:>10}{:>10}{:>13}{:>11}{:>15}",
        "library", "words", "depth first", "published", "library/words"
    );
    let mut whole = [0.0; 2];
    for ((ku, kl, n, class), rows) in groups.iter().rev() {
        let [library, words, depth_first, published] = measure(rows);
        let nodes = (n * rows.len()) as f64;
        whole = [whole[0] + library * nodes, whole[1] + words * nodes];
        let published = if published.is_finite() {
            format!("{published:.1}")
        } else {
            "-".to_string()
        };
        print!("{:8}{n:4}  {class:6}{:5}", format!("{ku}/{kl}"), rows.len());
        println!(
            "{library:10.1}{words:10.1}{depth_first:13.1}{published:>11}{:15.2}",
            library / words
        );
    }
    println!("library/words over all rows {:.2}", whole[0] / whole[1]);
}

/// Calls each router but the library once a row, with a line for each call.
fn count(rows: &[Row]) {
    let mut lent = Buffers::new();
    for row in rows {
        let n = row.nodes.len();
        let told = |name| {
            count_mark();
            println!("{name} {} {}/{} {n} {n}", row.class, row.ku, row.kl);
        };
        black_box(route(count_words, row, &mut lent));
        told("words");
        black_box(route(count_depth_first, row, &mut lent));
        told("depth_first");
        if published::covers(row.ku, row.kl) {
            let _ = black_box(count_published(&row.nodes, row.ku, row.kl, &mut lent.work));
            told("published");
        }
    }
}

fn main() {
    let mut arguments: Vec<String> = std::env::args().skip(1).collect();
    let counts = arguments
        .first()
        .is_some_and(|argument| argument == "count");
    if counts {
        arguments.remove(0);
    }
    let usual = concat!(env!("CARGO_MANIFEST_DIR"), "/rows.txt").to_string();
    let path = arguments.first().unwrap_or(&usual);
    let text = std::fs::read_to_string(path).unwrap_or_else(|error| panic!("{path}: {error}"));
    let rows: Vec<Row> = text.lines().map(parse).collect();
    if counts {
        return count(&rows);
    }
    if let Some(row) = rows.iter().find(|row| !check(row)) {
        let hex: String = row.nodes.iter().map(|x| format!("{x:02x}")).collect();
        eprintln!("the routers differ on {hex} {} {}", row.ku, row.kl);
        std::process::exit(1);
    }
    println!(
        "library, words and depth first answer all {} rows alike",
        rows.len()
    );
    print_table(&rows);
}
