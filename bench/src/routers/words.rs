//! A router by sets of orders, 24 ranks to a word, each step a few operations on words.
//!
//! **Ranks.** The nets open in a gap are numbered by their elders: net 0 is the oldest, net k has k
//! elders (its age among b nets is b - 1 - k). Digit k of an order is the position, from 0 at the
//! top, of net k among nets 0 to k; the rank is the sum of digit k times k!. With fewer than four
//! nets the rank is also one of four nets: those not open stand on top, each with digit 0. So the
//! tables for four nets serve one to four; position p of b nets is position p + 4 - b of four.
//!
//! **Sets.** A word holds a set of orders of the four oldest nets: bit r is the order of rank r. Up
//! to four nets take one word. Of five, the fifth net stands at 1, 2 or 3, because its own pin was
//! reached there, or because a net beside it in the middle of six ended: three words, one for each
//! digit 1, 2, 3 of the fifth. Of six, the sixth stands at 2 or 3: twice three words, first those
//! of digit 2. The gap after a node has 90 bytes of work, of which 24 are used at most.
//!
//! **Passes.** Forward: the set after a node holds the orders that some choice meeting the limits
//! leads to; the first node whose set is empty is the failing one. Back: an order stays if the next
//! node leads from it to one that stays. Pick: at each opening the least position whose order
//! stayed. A blank leaves every set as it is.

use niraflue::{Said, BLANK};

/// The kinds of nodes, as the sheet has them.
const OPENS: u8 = 0;
const TOUCHES: u8 = 1;
const ENDS: u8 = 2;
const RESTS: u8 = 3;

/// The most nodes of a row.
const MOST: usize = 512;

/// The bytes of work that a gap has.
const STRETCH: usize = 90;

/// The nets whose order a word tells.
const FOUR: usize = 4;

/// A net in an order of four: its position, and the rank of the other three.
struct Located {
    position: usize,
    rest: usize,
}

const FACTORIAL: [usize; 5] = [1, 1, 2, 6, 24];

/// Finds net `net` in the order of rank `rank` of four nets. A younger net whose digit is at most
/// the net's position so far stands above it and keeps its digit when the net goes; any other
/// stands below it, and its digit falls by one.
const fn locate(net: usize, rank: usize) -> Located {
    let mut position = rank / FACTORIAL[net] % (net + 1);
    let mut rest = rank % FACTORIAL[net];
    let mut younger = net + 1;
    while younger < FOUR {
        let digit = rank / FACTORIAL[younger] % (younger + 1);
        if digit <= position {
            position += 1;
            rest += digit * FACTORIAL[younger - 1];
        } else {
            rest += (digit - 1) * FACTORIAL[younger - 1];
        }
        younger += 1;
    }
    Located { position, rest }
}

/// `STANDS[net][set]`: bit r is set if position(net, r) is in `set`, a set of positions 0 to 3.
static STANDS: [[u32; 16]; 4] = stands();

const fn stands() -> [[u32; 16]; 4] {
    let mut table = [[0; 16]; 4];
    let mut index = 0;
    while index < 4 * 16 * 24 {
        let (net, set, rank) = (index / 24 / 16, index / 24 % 16, index % 24);
        if set >> locate(net, rank).position & 1 == 1 {
            table[net][set] |= 1 << rank;
        }
        index += 1;
    }
    table
}

/// `REST[net][piece][x]`: bit s is set if s is rest(net, 6 * piece + k) for some k in `x`: what the
/// orders with the fourth net at `piece` leave when `net` goes, as ranks of three nets.
static REST: [[[u8; 64]; 4]; 4] = rest();

const fn rest() -> [[[u8; 64]; 4]; 4] {
    let mut table = [[[0; 64]; 4]; 4];
    let mut index = 0;
    while index < 4 * 64 * 24 {
        let (net, x, rank) = (index / 24 / 64, index / 24 % 64, index % 24);
        if x >> (rank % 6) & 1 == 1 {
            table[net][rank / 6][x] |= 1 << locate(net, rank).rest;
        }
        index += 1;
    }
    table
}

/// `BACK[net][x]`: bit r is set if rest(net, r) is in `x`: the orders that leave one of `x` when
/// `net` goes.
static BACK: [[u32; 64]; 4] = back();

const fn back() -> [[u32; 64]; 4] {
    let mut table = [[0; 64]; 4];
    let mut index = 0;
    while index < 4 * 64 * 24 {
        let (net, x, rank) = (index / 24 / 64, index / 24 % 64, index % 24);
        if x >> locate(net, rank).rest & 1 == 1 {
            table[net][x] |= 1 << rank;
        }
        index += 1;
    }
    table
}

/// `STANDS_OF_FIVE[set][net][fifth - 1]`: bit r is set if `net` of five nets stands at a position 1
/// + k, k in `set`, where the fifth stands at `fifth` and the others have rank r.
static STANDS_OF_FIVE: [[[u32; 3]; 5]; 8] = stands_of_five();

const fn stands_of_five() -> [[[u32; 3]; 5]; 8] {
    let mut table = [[[0; 3]; 5]; 8];
    let mut index = 0;
    while index < 8 * 5 * 3 * 24 {
        let (set, net) = (index / 24 / 3 / 5, index / 24 / 3 % 5);
        let (fifth, rank) = (1 + index / 24 % 3, index % 24);
        if (set << 1) >> position_of_five(net, fifth, rank) & 1 == 1 {
            table[set][net][fifth - 1] |= 1 << rank;
        }
        index += 1;
    }
    table
}

/// The position of net `net` of five, where the fifth stands at `fifth` and the others have rank
/// `rank`.
const fn position_of_five(net: usize, fifth: usize, rank: usize) -> usize {
    if net == FOUR {
        return fifth;
    }
    let among = locate(net, rank).position;
    among + (fifth <= among) as usize
}

/// `POSITION[net][r]`: position(net, r).
static POSITION: [[u8; 24]; 4] = located(true);

/// `LEFT[net][r]`: rest(net, r).
static LEFT: [[u8; 24]; 4] = located(false);

const fn located(position: bool) -> [[u8; 24]; 4] {
    let mut table = [[0; 24]; 4];
    let mut index = 0;
    while index < 4 * 24 {
        let found = locate(index / 24, index % 24);
        table[index / 24][index % 24] = if position { found.position } else { found.rest } as u8;
        index += 1;
    }
    table
}

/// A node as the passes see it: its kind, its net's elders (0 for a blank), and the count of nets
/// open before it.
#[derive(Clone, Copy, Default)]
struct Node {
    kind: u8,
    net: u8,
    open: u8,
}

/// The first nodes of a row, `told` in number: all, or those before the first that begins more nets
/// than there are tracks.
struct Plan {
    nodes: [Node; MOST],
    told: usize,
}

/// The limits of a street pair, as the steps use them.
#[derive(Clone, Copy)]
struct Streets {
    tracks: u32,
    /// Where a net may stand at its pin, for b nets open there. Up to four: the positions among
    /// four, an index of `STANDS`. For five: position 1 + k as bit k, an index of `STANDS_OF_FIVE`.
    /// For six it stands at 2 or 3, and if it isn't the sixth it is at 2 of the five others, as the
    /// sixth must stand at the other place.
    reach: [u8; 7],
    /// For b nets open, up to three: bit p * b! for each position p that a new net may take.
    spread: [u32; 4],
}

/// The positions, from 0, that meet the limits with `open` nets at the node.
const fn reached(ku: u8, kl: u8, open: u32) -> u32 {
    let mut set = 0;
    let mut p = 0;
    while p < open {
        if p <= ku as u32 && open - 1 - p <= kl as u32 {
            set |= 1 << p;
        }
        p += 1;
    }
    set
}

/// The bits p * `apart`, p in `set`.
const fn spread(set: u32, apart: usize) -> u32 {
    let mut bits = 0;
    let mut p = 0;
    while p < FOUR {
        bits |= (set >> p & 1) << (p * apart);
        p += 1;
    }
    bits
}

const fn streets(ku: u8, kl: u8) -> Streets {
    let mut reach = [0; 7];
    let mut copies = [0; 4];
    let mut b = 1;
    while b <= FOUR {
        let set = reached(ku, kl, b as u32);
        reach[b] = (set << (FOUR - b)) as u8;
        copies[b - 1] = spread(set, FACTORIAL[b - 1]);
        b += 1;
    }
    reach[5] = (reached(ku, kl, 5) >> 1 & 7) as u8;
    reach[6] = 0b010;
    Streets {
        tracks: ku as u32 + kl as u32,
        reach,
        spread: copies,
    }
}

/// `STREETS[4 * ku + kl]`.
static STREETS: [Streets; 16] = every_pair();

const fn every_pair() -> [Streets; 16] {
    let mut table = [streets(0, 0); 16];
    let mut pair = 0;
    while pair < 16 {
        table[pair] = streets(pair as u8 / 4, pair as u8 % 4);
        pair += 1;
    }
    table
}

/// The sets of all gaps in the lent work; gap i is the one after node i, nodes from 0.
type Sets = [[u8; STRETCH]];

/// Where word `slot` of a set stands in its gap's bytes. An order of up to four nets is in slot 0,
/// one of five in slot `fifth - 1`, one of six in slot `3 * (sixth - 2) + fifth - 1`; its bit is
/// the rank of its four oldest nets.
#[inline(always)]
fn address(slot: usize) -> usize {
    4 * slot
}

#[inline(always)]
fn word(sets: &Sets, gap: usize, slot: usize) -> u32 {
    let (set, at) = (&sets[gap], address(slot));
    u32::from_le_bytes([set[at], set[at + 1], set[at + 2], set[at + 3]])
}

#[inline(always)]
fn put(sets: &mut Sets, gap: usize, slot: usize, x: u32) {
    let (set, at) = (&mut sets[gap], address(slot));
    [set[at], set[at + 1], set[at + 2], set[at + 3]] = x.to_le_bytes();
}

/// Three words from slot `slot` on, one for each digit 1, 2, 3 of the fifth net.
#[inline(always)]
fn three(sets: &Sets, gap: usize, slot: usize) -> [u32; 3] {
    [
        word(sets, gap, slot),
        word(sets, gap, slot + 1),
        word(sets, gap, slot + 2),
    ]
}

#[inline(always)]
fn put_three(sets: &mut Sets, gap: usize, slot: usize, x: [u32; 3]) {
    put(sets, gap, slot, x[0]);
    put(sets, gap, slot + 1, x[1]);
    put(sets, gap, slot + 2, x[2]);
}

#[inline(always)]
fn both(x: [u32; 3], y: [u32; 3]) -> [u32; 3] {
    [x[0] & y[0], x[1] & y[1], x[2] & y[2]]
}

#[inline(always)]
fn either(x: [u32; 3], y: [u32; 3]) -> [u32; 3] {
    [x[0] | y[0], x[1] | y[1], x[2] | y[2]]
}

/// The set of rest(net, r), r in `x`, for at most four nets: the union over the pieces of `x`,
/// piece k being the orders with the fourth net at k.
#[inline(always)]
fn without(net: usize, x: u32) -> u32 {
    let rest = &REST[net & 3];
    let piece = |k: usize| rest[k][(x >> (6 * k)) as usize & 63] as u32;
    piece(0) | piece(1) | piece(2) | piece(3)
}

/// The orders of four nets that those of `x`, of five, leave when `net` goes. It stands at 1, 2 or
/// 3 in each of them. The fifth leaves the four as they are. Any other net is below a fifth at 1,
/// which stays at 1, and above a fifth at 3, which moves to 2. With the fifth at 2 it is above it,
/// at 1 of the four, and the fifth moves to 1; or below it, at 2 of the four, and the fifth stays
/// at 2. Here the fifth becomes the fourth of what is left: its position says the piece.
#[inline(always)]
fn without_of_five(net: usize, x: [u32; 3]) -> u32 {
    if net >= FOUR {
        return x[0] | x[1] | x[2];
    }
    let second = x[0] | x[1] & STANDS[net][1 << 1];
    let third = x[2] | x[1] & STANDS[net][1 << 2];
    without(net, second) << 6 | without(net, third) << 12
}

/// The orders of five nets with `net` at 1, 2 or 3 that leave one of `x` when it goes. (Where `net`
/// is at 0 or 4 nothing is said: the caller masks.)
#[inline(always)]
fn back_to_five(net: usize, x: u32) -> [u32; 3] {
    if net >= FOUR {
        return [x; 3];
    }
    let second = BACK[net][(x >> 6) as usize & 63];
    let third = BACK[net][(x >> 12) as usize & 63];
    [
        second,
        second & STANDS[net][1 << 1] | third & STANDS[net][1 << 2],
        third,
    ]
}

/// Fills gap `i` from gap `i - 1`; gives 0 exactly if the new set is empty.
#[inline(always)]
fn forward_node(sets: &mut Sets, i: usize, node: Node, streets: &Streets) -> u32 {
    match node.kind {
        OPENS => forward_open(sets, i, node.open, streets),
        TOUCHES => forward_touch(sets, i, node, streets),
        RESTS => forward_rest(sets, i, node.open),
        _ => forward_end(sets, i, node, streets),
    }
}

/// A blank. Every order of the old set is in the new one: with b at most Ku + Kl some s fits. The
/// old set is not empty.
#[inline(always)]
fn forward_rest(sets: &mut Sets, i: usize, open: u8) -> u32 {
    match open {
        0..=4 => put(sets, i, 0, word(sets, i - 1, 0)),
        5 => put_three(sets, i, 0, three(sets, i - 1, 0)),
        _ => {
            put_three(sets, i, 0, three(sets, i - 1, 0));
            put_three(sets, i, 3, three(sets, i - 1, 3));
        }
    }
    1
}

/// A net begins. The order with digit p for it and rank r for the others is in the new set if p
/// meets the limits and r is in the old set: a copy of the old set for each p. Below four nets the
/// copies are b! bits apart in one word; at four and five they are words. A new set is never empty.
#[inline(always)]
fn forward_open(sets: &mut Sets, i: usize, open: u8, streets: &Streets) -> u32 {
    match open {
        0..=3 => {
            let x = word(sets, i - 1, 0) * streets.spread[open as usize];
            put(sets, i, 0, x);
        }
        4 => {
            let x = word(sets, i - 1, 0);
            let copy = |k: u32| if streets.reach[5] >> k & 1 == 1 { x } else { 0 };
            put_three(sets, i, 0, [copy(0), copy(1), copy(2)]);
        }
        _ => {
            let x = three(sets, i - 1, 0);
            put_three(sets, i, 0, x);
            put_three(sets, i, 3, x);
        }
    }
    1
}

/// A net is touched. An order is in the new set if it is in the old one and has the net where the
/// limits allow. With six open the sixth always is.
#[inline(always)]
fn forward_touch(sets: &mut Sets, i: usize, node: Node, streets: &Streets) -> u32 {
    let net = node.net as usize;
    let reach = streets.reach[node.open as usize] as usize;
    match node.open {
        0..=4 => {
            let x = word(sets, i - 1, 0) & STANDS[net][reach];
            put(sets, i, 0, x);
            x
        }
        5 => {
            let x = both(three(sets, i - 1, 0), STANDS_OF_FIVE[reach][net]);
            put_three(sets, i, 0, x);
            x[0] | x[1] | x[2]
        }
        _ => {
            let mask = if net == 5 {
                [!0; 3]
            } else {
                STANDS_OF_FIVE[reach][net]
            };
            let x = both(three(sets, i - 1, 0), mask);
            let y = both(three(sets, i - 1, 3), mask);
            put_three(sets, i, 0, x);
            put_three(sets, i, 3, y);
            x[0] | x[1] | x[2] | y[0] | y[1] | y[2]
        }
    }
}

/// A net ends. An order is in the new set if some order of the old one has the net where the limits
/// allow and leaves it. With six open, if the sixth ends, the others stay as they are. If another
/// ends, it stands at 2 of the five others; without it the sixth, at 2 or 3 before, is at 2 of
/// five, and the five others are what an ending at five leaves.
#[inline(always)]
fn forward_end(sets: &mut Sets, i: usize, node: Node, streets: &Streets) -> u32 {
    let net = node.net as usize;
    let reach = streets.reach[node.open as usize] as usize;
    match node.open {
        0..=4 => {
            let x = without(net, word(sets, i - 1, 0) & STANDS[net][reach]);
            put(sets, i, 0, x);
            x
        }
        5 => {
            let x = without_of_five(net, both(three(sets, i - 1, 0), STANDS_OF_FIVE[reach][net]));
            put(sets, i, 0, x);
            x
        }
        _ => {
            let mut x = either(three(sets, i - 1, 0), three(sets, i - 1, 3));
            if net < 5 {
                let left = without_of_five(net, both(x, STANDS_OF_FIVE[reach][net]));
                x = [0, left, 0];
            }
            put_three(sets, i, 0, x);
            x[0] | x[1] | x[2]
        }
    }
}

/// Fills the gaps of the plan up to the first empty one; gives how many nodes can be passed.
fn forward(sets: &mut Sets, plan: &Plan, streets: &Streets) -> usize {
    if plan.told == 0 {
        return 0;
    }
    put(sets, 0, 0, 1);
    let mut i = 1;
    while i < plan.told && forward_node(sets, i, plan.nodes[i], streets) != 0 {
        i += 1;
    }
    i
}

/// Leaves in gap `i - 1` the orders from which node `i` leads to one in gap `i`.
#[inline(always)]
fn prune_node(sets: &mut Sets, i: usize, node: Node, streets: &Streets) {
    match node.kind {
        OPENS => prune_open(sets, i, node.open),
        TOUCHES | RESTS => prune_touch(sets, i, node.open),
        _ => prune_end(sets, i, node, streets),
    }
}

/// A net begins. Rank r stays if p * b! + r is in the set after the node for some p. That p meets
/// the limits need not be asked: others have no bit there.
#[inline(always)]
fn prune_open(sets: &mut Sets, i: usize, open: u8) {
    match open {
        0..=3 => {
            let (x, f) = (word(sets, i, 0), FACTORIAL[open as usize]);
            let any = x | x >> f | x >> (2 * f) | x >> (3 * f);
            put(sets, i - 1, 0, any & word(sets, i - 1, 0));
        }
        4 => {
            let x = three(sets, i, 0);
            put(sets, i - 1, 0, (x[0] | x[1] | x[2]) & word(sets, i - 1, 0));
        }
        _ => {
            let x = either(three(sets, i, 0), three(sets, i, 3));
            put_three(sets, i - 1, 0, both(x, three(sets, i - 1, 0)));
        }
    }
}

/// A net is touched, or none is. An order stays if it is in the set after the node, which is part of
/// the one before.
#[inline(always)]
fn prune_touch(sets: &mut Sets, i: usize, open: u8) {
    match open {
        0..=4 => put(sets, i - 1, 0, word(sets, i, 0)),
        5 => put_three(sets, i - 1, 0, three(sets, i, 0)),
        _ => {
            put_three(sets, i - 1, 0, three(sets, i, 0));
            put_three(sets, i - 1, 3, three(sets, i, 3));
        }
    }
}

/// A net ends. An order stays if it has the net where the limits allow and what it leaves is in the
/// set after the node.
#[inline(always)]
fn prune_end(sets: &mut Sets, i: usize, node: Node, streets: &Streets) {
    let net = node.net as usize;
    let reach = streets.reach[node.open as usize] as usize;
    match node.open {
        0..=4 => {
            let x = BACK[net][word(sets, i, 0) as usize & 63] & STANDS[net][reach];
            put(sets, i - 1, 0, x & word(sets, i - 1, 0));
        }
        5 => {
            let x = back_to_five(net, word(sets, i, 0));
            let x = both(x, STANDS_OF_FIVE[reach][net]);
            put_three(sets, i - 1, 0, both(x, three(sets, i - 1, 0)));
        }
        _ => {
            let mut x = three(sets, i, 0);
            if net < 5 {
                x = both(back_to_five(net, x[1]), STANDS_OF_FIVE[reach][net]);
            }
            put_three(sets, i - 1, 0, both(x, three(sets, i - 1, 0)));
            put_three(sets, i - 1, 3, both(x, three(sets, i - 1, 3)));
        }
    }
}

/// Leaves in each gap the orders from which the rest of the plan can be passed.
fn prune(sets: &mut Sets, plan: &Plan, streets: &Streets) {
    let mut i = plan.told - 1;
    while 0 < i {
        prune_node(sets, i, plan.nodes[i], streets);
        i -= 1;
    }
}

/// An order, as the rank of its four oldest nets and the digits of the fifth and sixth.
#[derive(Clone, Copy, Default)]
struct Rank {
    four: usize,
    fifth: usize,
    sixth: usize,
}

/// The position of net `net` in an order of `open` nets: a fifth or sixth net at or above it pushes
/// it down.
#[inline(always)]
fn position(rank: Rank, net: usize, open: usize) -> usize {
    if open <= FOUR {
        return POSITION[net][rank.four] as usize + open - FOUR;
    }
    if net == 5 {
        return rank.sixth;
    }
    let of_five = if net == FOUR {
        rank.fifth
    } else {
        let of_four = POSITION[net][rank.four] as usize;
        of_four + (rank.fifth <= of_four) as usize
    };
    of_five + (open == 6 && rank.sixth <= of_five) as usize
}

/// The order without net `net`, which stands at `p` of `open`: a net below it moves up, and each
/// younger one has an elder less.
#[inline(always)]
fn remove(rank: Rank, net: usize, open: usize, p: usize) -> Rank {
    if open <= FOUR {
        return Rank {
            four: LEFT[net][rank.four] as usize,
            ..rank
        };
    }
    if net == 5 {
        return rank;
    }
    let sixth = rank.sixth - (open == 6 && p < rank.sixth) as usize;
    if net == FOUR {
        return Rank {
            fifth: sixth,
            ..rank
        };
    }
    let of_four = POSITION[net][rank.four] as usize;
    let fourth = rank.fifth - (of_four < rank.fifth) as usize;
    Rank {
        four: LEFT[net][rank.four] as usize + 6 * fourth,
        fifth: sixth,
        sixth: 0,
    }
}

/// The least position of a new net whose order stayed in gap `i`, and that order.
#[inline(always)]
fn choose(sets: &Sets, i: usize, rank: Rank, open: usize) -> (usize, Rank) {
    match open {
        0..=3 => choose_of_four(word(sets, i, 0), rank, open),
        4 => choose_fifth(three(sets, i, 0), rank),
        _ => choose_sixth(word(sets, i, rank.fifth - 1), rank),
    }
}

/// Below four nets: the least p with bit p * b! + r in `x`.
#[inline(always)]
fn choose_of_four(x: u32, rank: Rank, open: usize) -> (usize, Rank) {
    let mut p = 0;
    let mut four = rank.four;
    while x >> four & 1 == 0 && p < open {
        p += 1;
        four += FACTORIAL[open];
    }
    (p, Rank { four, ..rank })
}

/// The fifth net: the least position 1, 2, 3 whose word has bit r.
#[inline(always)]
fn choose_fifth(x: [u32; 3], rank: Rank) -> (usize, Rank) {
    let has = |word: u32| word >> rank.four & 1 == 1;
    let fifth = if has(x[0]) {
        1
    } else if has(x[1]) {
        2
    } else {
        3
    };
    (fifth, Rank { fifth, ..rank })
}

/// The sixth net: position 2 if its word, `x`, has bit r, else 3.
#[inline(always)]
fn choose_sixth(x: u32, rank: Rank) -> (usize, Rank) {
    let sixth = 3 - (x >> rank.four & 1) as usize;
    (sixth, Rank { sixth, ..rank })
}

/// The positions of the first placing, from 0, and at a blank the fewest wires above it.
fn pick(sets: &Sets, plan: &Plan, kl: usize) -> [u8; MOST] {
    let mut positions = [0; MOST];
    let mut rank = Rank::default();
    let mut i = 0;
    while i < plan.told {
        let node = plan.nodes[i];
        let (net, open) = (node.net as usize, node.open as usize);
        let p;
        if node.kind == OPENS {
            (p, rank) = choose(sets, i, rank, open);
        } else if node.kind == RESTS {
            p = open.saturating_sub(kl);
        } else {
            p = position(rank, net, open);
            if node.kind == ENDS {
                rank = remove(rank, net, open, p);
            }
        }
        positions[i] = p as u8;
        i += 1;
    }
    positions
}

/// The first and last node of each label, from 0; those of blanks differ, and are no nodes.
struct Labels {
    first: [u16; 256],
    last: [u16; 256],
}

fn first_nodes(row: &[u8]) -> [u16; 256] {
    let mut first = [0; 256];
    for (i, &label) in row.iter().enumerate().rev() {
        first[label as usize] = i as u16;
    }
    first[BLANK as usize] = MOST as u16;
    first
}

fn last_nodes(row: &[u8]) -> [u16; 256] {
    let mut last = [0; 256];
    for (i, &label) in row.iter().enumerate() {
        last[label as usize] = i as u16;
    }
    last[BLANK as usize] = MOST as u16 + 1;
    last
}

/// The first node, from 0, that is no blank and whose label no other has.
fn lone(row: &[u8], labels: &Labels) -> Option<usize> {
    row.iter()
        .position(|&label| labels.first[label as usize] == labels.last[label as usize])
}

/// The labels of the open nets, oldest first, a byte each.
#[derive(Clone, Copy, Default)]
struct Line {
    labels: u64,
    count: u32,
}

const ONES: u64 = 0x0101_0101_0101_0101;

/// The elders of an open net: the lowest byte of the line that is its label.
#[inline(always)]
fn find(line: Line, label: u8) -> u32 {
    let x = line.labels ^ (ONES * label as u64);
    (x.wrapping_sub(ONES) & !x & (ONES << 7)).trailing_zeros() / 8
}

#[inline(always)]
fn join(line: Line, label: u8) -> Line {
    Line {
        labels: line.labels | (label as u64) << (8 * line.count),
        count: line.count + 1,
    }
}

#[inline(always)]
fn leave(line: Line, net: u32) -> Line {
    let older = line.labels & ((1 << (8 * net)) - 1);
    let younger = line.labels >> (8 * net) >> 8 << (8 * net);
    Line {
        labels: older | younger,
        count: line.count - 1,
    }
}

/// The kind of node `i`, from 0.
#[inline(always)]
fn kind(labels: &Labels, i: usize, label: u8) -> u8 {
    if labels.first[label as usize] as usize == i {
        OPENS
    } else if labels.last[label as usize] as usize == i {
        ENDS
    } else if label == BLANK {
        RESTS
    } else {
        TOUCHES
    }
}

/// The plan of a row, up to the first node that begins more nets than there are tracks.
fn tell(row: &[u8], labels: &Labels, tracks: u32) -> Plan {
    let mut plan = Plan {
        nodes: [Node::default(); MOST],
        told: 0,
    };
    let mut line = Line::default();
    for (i, (&label, node)) in row.iter().zip(plan.nodes.iter_mut()).enumerate() {
        let (kind, open) = (kind(labels, i, label), line.count);
        let net = match kind {
            OPENS => open,
            RESTS => 0,
            _ => find(line, label),
        };
        if kind == OPENS && open == tracks {
            break;
        }
        line = match kind {
            OPENS => join(line, label),
            TOUCHES | RESTS => line,
            _ => leave(line, net),
        };
        *node = Node {
            kind,
            net: net as u8,
            open: open as u8,
        };
        plan.told = i + 1;
    }
    plan
}

/// Writes the sheet: two bytes of head, then six bits a node, four nodes to three bytes.
fn write(sheet: &mut [u8], plan: &Plan, positions: &[u8; MOST], ku: u8, kl: u8) {
    let n = plan.told;
    let head = (ku as u16) << 12 | (kl as u16) << 10 | n as u16;
    let (start, entries) = sheet.split_at_mut(2);
    start.copy_from_slice(&head.to_be_bytes());
    let length = (3 * n).div_ceil(4);
    for (k, bytes) in entries[..length].chunks_mut(3).enumerate() {
        let entry = |j: usize| entry(plan, positions, 4 * k + j);
        let four = entry(0) << 18 | entry(1) << 12 | entry(2) << 6 | entry(3);
        bytes.copy_from_slice(&(four << 8).to_be_bytes()[..bytes.len()]);
    }
}

/// The six bits of node `i`; behind the last node zero.
#[inline(always)]
fn entry(plan: &Plan, positions: &[u8; MOST], i: usize) -> u32 {
    let i = i & (MOST - 1);
    (plan.nodes[i].kind << 4 | positions[i]) as u32
}

/// The failing node, from 1, or none; on a row that has a placing the sheet is written.
fn search(
    row: &[u8],
    labels: &Labels,
    ku: u8,
    kl: u8,
    sets: &mut Sets,
    sheet: &mut [u8],
) -> Option<usize> {
    let streets = &STREETS[ku as usize * 4 + kl as usize];
    let plan = tell(row, labels, streets.tracks);
    let passed = forward(sets, &plan, streets);
    if passed < row.len() {
        return Some(passed + 1);
    }
    prune(sets, &plan, streets);
    let positions = pick(sets, &plan, kl as usize);
    write(sheet, &plan, &positions, ku, kl);
    None
}

const fn said(number: u32, place: usize) -> Said {
    Said {
        number,
        place: place as u32,
    }
}

/// Routes a row as documents 01 and 02 say, with their numbers and places.
pub fn route(row: &[u8], ku: u8, kl: u8, work: &mut [u8], sheet: &mut [u8]) -> Said {
    let n = row.len();
    if !(2..=MOST).contains(&n) {
        return said(1, 0);
    }
    if ku > 3 || kl > 3 {
        return said(2, 0);
    }
    let labels = Labels {
        first: first_nodes(row),
        last: last_nodes(row),
    };
    if let Some(i) = lone(row, &labels) {
        return said(3, i + 1);
    }
    if work.len() < STRETCH * n {
        return said(4, 0);
    }
    if sheet.len() < 2 + (3 * n).div_ceil(4) {
        return said(5, 0);
    }
    let work = &mut work[..STRETCH * n];
    let failed = search(row, &labels, ku, kl, work.as_chunks_mut().0, sheet);
    work.fill(0);
    match failed {
        Some(node) => said(6, node),
        None => said(0, n),
    }
}

#[cfg(test)]
mod tests {
    use crate::routers::depth_first;
    use crate::routers::sample::{for_each_row, Random};

    /// Number, place and every byte lent, before and behind what is written too.
    fn compare(row: &[u8], ku: u8, kl: u8) -> u32 {
        let mut ours = (
            vec![0xa5; 90 * row.len() + 7],
            vec![0x5a; 2 + (3 * row.len()).div_ceil(4) + 3],
        );
        let mut theirs = ours.clone();
        let said = super::route(row, ku, kl, &mut ours.0, &mut ours.1);
        let expected = depth_first::route(row, ku, kl, &mut theirs.0, &mut theirs.1);
        assert_eq!((said, &ours), (expected, &theirs), "{row:02x?} {ku}/{kl}");
        said.number
    }

    type Order = Vec<u8>;

    /// The orders of `open` nets, by their elders, in which the fifth and sixth stand where the
    /// sets have words for them.
    fn orders(open: u8) -> Vec<Order> {
        if open == 0 {
            return vec![vec![]];
        }
        let places = [0..1, 0..2, 0..3, 0..4, 1..4, 2..4][open as usize - 1].clone();
        let with = |order: &Order, p: usize| [&order[..p], &[open - 1], &order[p..]].concat();
        let older = orders(open - 1);
        older
            .iter()
            .flat_map(|order| places.clone().map(|p| with(order, p)))
            .collect()
    }

    /// The word and bit of an order.
    fn address_of(order: &Order) -> (usize, usize) {
        let digit = |net: u8| order.iter().filter(|&&x| x <= net).position(|&x| x == net);
        let digit = |net: u8| digit(net).unwrap_or(0);
        let rank = digit(1) + 2 * digit(2) + 6 * digit(3);
        match order.len() {
            0..=4 => (0, rank),
            5 => (digit(4) - 1, rank),
            _ => (3 * (digit(5) - 2) + digit(4) - 1, rank),
        }
    }

    fn fill(sets: &mut super::Sets, gap: usize, orders: &[Order]) {
        sets[gap].fill(0);
        for (slot, bit) in orders.iter().map(address_of) {
            let x = super::word(sets, gap, slot) | 1 << bit;
            super::put(sets, gap, slot, x);
        }
    }

    /// The orders of `open` nets in a gap; no bit of its words is anything else.
    fn held(sets: &super::Sets, gap: usize, open: u8) -> Vec<Order> {
        let mut held = orders(open);
        held.retain(|order| {
            let (slot, bit) = address_of(order);
            super::word(sets, gap, slot) >> bit & 1 == 1
        });
        let slots = 0..[1, 1, 1, 1, 1, 3, 6][open as usize];
        let bits: u32 = slots
            .map(|slot| super::word(sets, gap, slot).count_ones())
            .sum();
        assert_eq!(bits as usize, held.len());
        held
    }

    /// The orders that a node leads to, by the street rules.
    fn after(order: &Order, node: super::Node, ku: usize, kl: usize) -> Vec<Order> {
        let fits = |p: usize, b: usize| p <= ku && b - 1 - p <= kl;
        let b = order.len();
        if node.kind == super::RESTS {
            let passed = (0..=b).any(|s| s <= ku && b - s <= kl);
            return if passed { vec![order.clone()] } else { vec![] };
        }
        if node.kind == super::OPENS {
            let with = |p: usize| [&order[..p], &[node.net], &order[p..]].concat();
            return (0..=b).filter(|&p| fits(p, b + 1)).map(with).collect();
        }
        let p = order.iter().position(|&net| net == node.net).unwrap();
        let mut left = order.clone();
        if node.kind == super::ENDS {
            left.remove(p);
            left.iter_mut()
                .for_each(|net| *net -= (*net > node.net) as u8);
        }
        if fits(p, b) {
            vec![left]
        } else {
            vec![]
        }
    }

    /// Both directions of one step, from some orders of the old set, and some of the new one kept.
    fn try_step(random: &mut Random, node: super::Node, ku: usize, kl: usize) {
        let streets = &super::STREETS[4 * ku + kl];
        let now = node.open + (node.kind == super::OPENS) as u8 - (node.kind == super::ENDS) as u8;
        let mut sets = [[0xff; super::STRETCH]; 2];
        let mut old = orders(node.open);
        old.retain(|_| random.below(3) == 0);
        fill(&mut sets, 0, &old);
        let said = super::forward_node(&mut sets, 1, node, streets);
        let reaches = |order: &Order, from: &[Order]| {
            from.iter()
                .any(|before| after(before, node, ku, kl).contains(order))
        };
        let mut new = orders(now);
        new.retain(|order| reaches(order, &old));
        assert_eq!(held(&sets, 1, now), new, "forward");
        let never_empties = [super::OPENS, super::RESTS].contains(&node.kind);
        assert!(never_empties || (said == 0) == new.is_empty());
        new.retain(|_| random.below(2) == 0);
        fill(&mut sets, 1, &new);
        super::prune_node(&mut sets, 1, node, streets);
        old.retain(|before| {
            after(before, node, ku, kl)
                .iter()
                .any(|order| new.contains(order))
        });
        let kept = held(&sets, 0, node.open);
        assert!(
            old.iter().all(|order| kept.contains(order)) && old.len() == kept.len(),
            "back"
        );
    }

    #[test]
    fn each_step_is_that_of_its_orders() {
        let mut random = Random::new(4);
        for (ku, kl, open) in (0..16 * 7).map(|k| (k / 28, k / 7 % 4, (k % 7) as u8)) {
            for kind in super::OPENS..=super::RESTS {
                let nets = match kind {
                    super::OPENS => open..open + 1,
                    super::RESTS => 0..1,
                    _ => 0..open,
                };
                let there = open as usize + (kind == super::OPENS) as usize;
                for net in nets.filter(|_| there <= ku + kl) {
                    let node = super::Node { kind, net, open };
                    (0..30).for_each(|_| try_step(&mut random, node, ku, kl));
                }
            }
        }
    }

    #[test]
    fn every_row_up_to_eight_nodes() {
        let (mut accepted, mut refused) = (0, 0);
        for_each_row(8, &mut |row| {
            for pair in 0..16 {
                match compare(row, pair / 4, pair % 4) {
                    0 => accepted += 1,
                    6 => refused += 1,
                    number => panic!("{number} for {row:02x?}"),
                }
            }
        });
        let rows = 2 + 5 + 15 + 52 + 203 + 877 + 4140;
        assert_eq!((accepted + refused) / 16, rows);
        assert!(accepted > 3000 && refused > 3000);
    }

    #[test]
    fn random_rows() {
        let mut random = Random::new(1);
        let (mut accepted, mut refused) = (0, 0);
        for _ in 0..6000 {
            let (ku, kl) = (random.below(4) as u8, random.below(4) as u8);
            let (nodes, open) = (2 + random.below(60), 1 + random.below(7));
            let row = random.row(nodes, open);
            match compare(&random.with_blanks(&row), ku, kl) {
                0 => accepted += 1,
                6 => refused += 1,
                number => panic!("{number} for a row without lone labels"),
            }
        }
        assert!(
            accepted > 1000 && refused > 1000,
            "{accepted} accepted, {refused} refused"
        );
    }

    #[test]
    fn random_rows_with_a_placing() {
        let mut random = Random::new(2);
        for _ in 0..6000 {
            let (ku, kl) = (1 + random.below(3), random.below(4));
            let nodes = 2 + random.below(300);
            let row = random.placed_row(nodes, ku, kl);
            let row = random.with_blanks(&row);
            assert_eq!(compare(&row, ku as u8, kl as u8), 0);
        }
    }

    #[test]
    fn what_is_refused_before_the_search() {
        let mut work = [1; 90 * 4];
        let mut sheet = [2; 5];
        let mut answer = |row: &[u8], ku, kl, w: usize, s: usize| {
            let said = super::route(row, ku, kl, &mut work[..w], &mut sheet[..s]);
            assert!(work == [1; 360] && sheet == [2; 5]);
            (said.number, said.place)
        };
        assert_eq!(answer(b"", 1, 1, 360, 5), (1, 0));
        assert_eq!(answer(&[7; 513], 1, 1, 360, 5), (1, 0));
        assert_eq!(answer(b"aab", 4, 1, 0, 0), (2, 0));
        assert_eq!(answer(b"aab", 1, 255, 0, 0), (2, 0));
        assert_eq!(answer(b"aab", 1, 1, 0, 0), (3, 3));
        assert_eq!(answer(b"\xffa\xff", 1, 1, 0, 0), (3, 2));
        assert_eq!(answer(b"abba", 1, 1, 359, 0), (4, 0));
        assert_eq!(answer(b"abba", 1, 1, 360, 4), (5, 0));
    }
}
