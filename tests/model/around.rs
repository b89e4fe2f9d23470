//! Random work for visits around named rows: rows that die, flips beside them, and lists that name these rows, healthy ones, or
//! some that there are not.

use crate::block;
use crate::call::{Call, Lent, Name};
use crate::generate::{self, Layout, Put, DEAD};
use crate::random::Random;
use crate::store;

/// Whether visits around rows are tried, which the library has not yet: the C programs are built with a switch of this name.
pub fn is_on() -> bool {
    std::env::var("FOLDGREBE_VISIT_AROUND").map_or(false, |switch| !switch.is_empty())
}

/// Words to be put into a block, the visit around its rows, and, where it is known, the whole block that the rows died of.
pub struct Work {
    pub puts: Vec<Put>,
    pub call: Call,
    pub whole: Option<Vec<u32>>,
}

/// A flip in a block: row and lane.
type Hit = (usize, usize);

/// So many different rows, rows 1 and 2 and the last often among them.
fn any_rows(r: &mut Random, shape: u32, many: usize) -> Vec<usize> {
    let last = block::rows(shape);
    let mut rows = Vec::new();
    while rows.len() < many {
        let row = if r.chance(35) { r.pick(&[1, 2, last]) } else { r.from_to(1, last as u32) as usize };
        if !rows.contains(&row) {
            rows.push(row);
        }
    }
    rows
}

fn other_row(r: &mut Random, shape: u32, than: &[usize]) -> usize {
    loop {
        let row = any_rows(r, shape, 1)[0];
        if !than.contains(&row) {
            return row;
        }
    }
}

/// What a row of a failed chip reads: every bit wrong, any bits, all zeros or ones, one bit wrong, or just what was written.
fn dead_word(r: &mut Random, word: u32) -> u32 {
    match r.below(100) {
        0..=34 => !word,
        35..=59 => r.word(),
        60..=84 => r.pick(&DEAD),
        85..=92 => word ^ 1 << r.below(32),
        _ => word,
    }
}

/// Flips beside the rows that died: none, at most one a lane, or up to four in each of some lanes.
fn hits_beside(r: &mut Random, shape: u32, dead: &[usize]) -> Vec<Hit> {
    let start = r.below(32) as usize;
    let (lanes, most) = match r.below(100) {
        0..=49 => (0, 1),
        50..=64 => (1, 1),
        65..=84 => (r.from_to(2, 32), 1),
        _ => (r.pick(&[1, 2, 6]), 4),
    };
    let mut hits = Vec::new();
    for k in 0..lanes as usize {
        for _ in 0..if most == 1 { 1 } else { r.from_to(2, most) } {
            hits.push((other_row(r, shape, dead), (start + k) % 32));
        }
    }
    hits
}

/// Rows that are hit so that these, healthy as they are, can be made to answer for it: together they have the same sum and parity.
/// The last row goes into the parity alone. Two others do where one row is named, since a lane may have one more row flipped then.
fn confused(r: &mut Random, shape: u32, named: &[usize]) -> Vec<usize> {
    let last = block::rows(shape);
    let first = other_row(r, shape, named);
    let sum = named.iter().fold(0, |sum, row| sum ^ row % last);
    let row_of = |sum: usize| if sum == 0 { last } else { sum.min(last) };
    match named.len() {
        3 => vec![row_of(sum)],
        2 => vec![first, row_of(sum ^ first % last)],
        _ => vec![first, other_row(r, shape, &[named, &[first]].concat())],
    }
}

/// Three rows of shape 2 whose numbers sum to more than there are rows.
const BEYOND: [usize; 3] = [8, 24, 70];

/// What happens to a block, by its rows: some die and flips come beside them, or the rows that will be named are healthy and others are hit.
fn harmed(r: &mut Random, shape: u32, rows: &[usize], words: &[u32]) -> Vec<u32> {
    let mut after = words.to_vec();
    let lanes = if r.chance(50) { 1 << r.below(32) } else { r.word() };
    if !rows.is_empty() && r.chance(15) {
        confused(r, shape, rows).iter().for_each(|row| after[row - 1] ^= lanes);
        return after;
    }
    if shape == 2 && r.chance(6) {
        BEYOND.iter().for_each(|row| after[row - 1] ^= lanes);
        return after;
    }
    if r.chance(12) {
        return after;
    }
    rows.iter().for_each(|row| after[row - 1] = dead_word(r, after[row - 1]));
    hits_beside(r, shape, rows).iter().for_each(|(row, lane)| after[row - 1] ^= 1 << lane);
    after
}

/// The rows that are named: those that died, or fewer, or a healthy one more, or others.
fn named(r: &mut Random, shape: u32, dead: &[usize]) -> Vec<usize> {
    let mut rows = dead.to_vec();
    match r.below(100) {
        0..=7 if !rows.is_empty() => drop(rows.pop()),
        8..=15 if rows.len() < 3 => rows.push(other_row(r, shape, dead)),
        16..=19 => {
            let many = r.from_to(0, 3) as usize;
            rows = any_rows(r, shape, many);
        }
        _ => {}
    }
    rows
}

/// A list in one of the ways of refusals 13 and 14, or both, of the rows that would be named.
fn refused(r: &mut Random, shape: u32, rows: &[u32]) -> Vec<u32> {
    let last = block::rows(shape) as u32;
    let bad = r.pick(&[0, 0, last + 1, last + 1, 88 - last, u32::MAX, 0x8000_0000, 256 + last, 65536 + 3]);
    let place = r.below(rows.len() as u64 + 1) as usize;
    let mut list = rows.to_vec();
    match r.below(10) {
        0..=3 => list.insert(place, bad),
        4..=5 if !rows.is_empty() => list.insert(place, r.pick(rows)),
        6..=7 => {
            let many = r.from_to(4, 6) as usize;
            list = any_rows(r, shape, many).iter().map(|row| *row as u32).collect();
        }
        _ => list = (0..r.from_to(4, 100)).map(|_| if r.chance(50) { r.from_to(0, last + 1) } else { r.word() }).collect(),
    }
    list
}

/// A visit around rows of some block, mostly one that is written just before its rows die.
pub fn any_work(r: &mut Random, at: Layout, lent: &Lent) -> Work {
    let b = r.below(u64::from(at.blocks())) as u32;
    let known = r.chance(85);
    let data = generate::any_data(r, block::data_words(at.shape));
    let whole = if known { block::stored(&block::valid_block(at.shape, &data)) } else { store::words_at(&lent.image, at.shape, at.s, b) };
    let many = r.pick(&[0, 0, 1, 1, 1, 2, 2, 3, 3, 3]);
    let dead = any_rows(r, at.shape, many);
    let after = harmed(r, at.shape, &dead, &whole);
    let puts = (1..=after.len()).map(|row| (store::index(at.shape, at.s, b, row), after[row - 1])).collect();
    let mut call = at.call(Name::VisitAround, b);
    call.list = named(r, at.shape, &dead).iter().map(|row| *row as u32).collect();
    let spoilt = r.chance(15);
    if r.chance(if spoilt { 40 } else { 15 }) {
        call.list = refused(r, at.shape, &call.list);
    }
    call.count = call.list.len() as u64 + if r.chance(1) { 1 << 32 } else { 0 };
    for _ in 0..if spoilt { r.pick(&[1, 1, 2]) } else { 0 } {
        generate::spoil(r, at, &mut call, &mut 0);
    }
    generate::honest_words(&mut call, at, lent);
    Work { puts, call, whole: if known && !spoilt { Some(whole) } else { None } }
}
