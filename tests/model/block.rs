//! A block of the code: 32 lanes side by side. Its rows are words; row p is `block[p - 1]`. A store holds its stored form.

use crate::lane::{self, Finding, Kind, Lane};

pub const LANES: usize = 32;

/// What a visit says: the verdict (1 clean, 2 mended, 3 lost, 0 none), and its counts: bits mended and 0, or the lanes lost of each kind.
/// Of a visit around rows: the bits mended inside them and outside, or, where rows are named, all lanes lost and 0.
#[derive(Clone, Copy, PartialEq, Debug, Default)]
pub struct Outcome {
    pub verdict: u32,
    pub count: u32,
    pub beyond: u32,
}

impl Outcome {
    pub fn words(self) -> [u32; 3] {
        [self.verdict, self.count, self.beyond]
    }
}

pub fn rows(shape: u32) -> usize {
    if shape == 1 { 16 } else { 72 }
}

pub fn check_rows(shape: u32) -> &'static [usize] {
    if shape == 1 { &[1, 2, 4, 8, 16] } else { &[1, 2, 4, 8, 16, 32, 64, 72] }
}

/// The rows that are no check rows, lowest first.
pub fn data_rows(shape: u32) -> Vec<usize> {
    (1..=rows(shape)).filter(|row| !check_rows(shape).contains(row)).collect()
}

pub fn data_words(shape: u32) -> usize {
    data_rows(shape).len()
}

/// The rows whose words are stored complemented.
pub const COMPLEMENTED: [usize; 2] = [1, 2];

/// The stored form of a block of the code, and of a stored block the code's again: the words of rows 1 and 2 are complemented.
pub fn stored(block: &[u32]) -> Vec<u32> {
    (1..=block.len()).map(|row| if COMPLEMENTED.contains(&row) { !block[row - 1] } else { block[row - 1] }).collect()
}

/// Whether a check row covers a row: the last covers all, any other those below the last that have its power of two.
pub fn covers(shape: u32, check: usize, row: usize) -> bool {
    check == rows(shape) || (row < rows(shape) && (row / check) % 2 == 1)
}

pub fn bit(word: u32, i: usize) -> bool {
    (word >> i) % 2 == 1
}

pub fn lane_of(block: &[u32], i: usize) -> Lane {
    let mut lane = vec![false];
    for word in block {
        lane.push(bit(*word, i));
    }
    lane
}

fn put_lane(block: &mut [u32], i: usize, lane: &Lane) {
    for row in 1..lane.len() {
        if bit(block[row - 1], i) != lane[row] {
            block[row - 1] ^= 1 << i;
        }
    }
}

/// The valid lane with these data bits: each check row makes the count of ones in the rows that it covers even.
fn valid_lane(shape: u32, data: &[bool]) -> Lane {
    let mut lane = vec![false; rows(shape) + 1];
    for (row, bit) in data_rows(shape).iter().zip(data) {
        lane[*row] = *bit;
    }
    for check in check_rows(shape) {
        let ones = (1..=rows(shape)).filter(|row| covers(shape, *check, *row) && lane[*row]).count();
        lane[*check] = ones % 2 == 1;
    }
    assert!(lane::valid(&lane));
    lane
}

/// The valid block for a list of data words.
pub fn valid_block(shape: u32, data: &[u32]) -> Vec<u32> {
    let mut block = vec![0; rows(shape)];
    for i in 0..LANES {
        let bits: Vec<bool> = data.iter().map(|word| bit(*word, i)).collect();
        put_lane(&mut block, i, &valid_lane(shape, &bits));
    }
    block
}

/// The data words of a block, from its data rows.
pub fn data_of(shape: u32, block: &[u32]) -> Vec<u32> {
    data_rows(shape).iter().map(|row| block[row - 1]).collect()
}

/// What a visit says of a block of the code, and the one that it leaves.
pub fn mended(block: &[u32]) -> (Outcome, Vec<u32>) {
    let mut after = block.to_vec();
    let (mut even, mut beyond) = (0, 0);
    for i in 0..LANES {
        let mut lane = lane_of(block, i);
        match lane::search(&lane) {
            Finding::Valid => {}
            Finding::Flipped(row) => lane[row] = !lane[row],
            Finding::Lost(Kind::Even) => even += 1,
            Finding::Lost(Kind::Beyond) => beyond += 1,
        }
        put_lane(&mut after, i, &lane);
    }
    if even + beyond > 0 {
        return (Outcome { verdict: 3, count: even, beyond }, block.to_vec());
    }
    let count = bits_changed(block, &after);
    let verdict = if count == 0 { 1 } else { 2 };
    (Outcome { verdict, count, beyond: 0 }, after)
}

/// What a visit around these rows says of a block of the code, and the one that it leaves.
pub fn mended_around(block: &[u32], named: &[usize]) -> (Outcome, Vec<u32>) {
    if named.is_empty() {
        let (outcome, after) = mended(block);
        let around = Outcome { count: 0, beyond: outcome.count, ..outcome };
        return (if outcome.verdict == 2 { around } else { outcome }, after);
    }
    let mut after = block.to_vec();
    let mut lost = 0;
    for i in 0..LANES {
        match lane::around(&lane_of(block, i), named) {
            Some(lane) => put_lane(&mut after, i, &lane),
            None => lost += 1,
        }
    }
    if lost > 0 {
        return (Outcome { verdict: 3, count: lost, beyond: 0 }, block.to_vec());
    }
    let words = |of: &[u32]| named.iter().map(|row| of[row - 1]).collect::<Vec<u32>>();
    let (all, inside) = (bits_changed(block, &after), bits_changed(&words(block), &words(&after)));
    (Outcome { verdict: if all == 0 { 1 } else { 2 }, count: inside, beyond: all - inside }, after)
}

fn bits_changed(before: &[u32], after: &[u32]) -> u32 {
    let mut count = 0;
    for row in 0..before.len() {
        for i in 0..LANES {
            if bit(before[row], i) != bit(after[row], i) {
                count += 1;
            }
        }
    }
    count
}
