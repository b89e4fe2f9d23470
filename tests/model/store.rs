//! Images: where rows lie, and the calls that take shape, s and G from the caller.

use crate::block::{self, Outcome};
use crate::patrol::Record;

/// N = G * s; a large G makes it larger than 32 bits hold.
pub fn blocks(s: u32, g: u32) -> u64 {
    u64::from(s) * u64::from(g)
}

/// Where row p of block b lies.
pub fn index(shape: u32, s: u32, b: u32, p: usize) -> usize {
    let (rows, s, b) = (block::rows(shape), s as usize, b as usize);
    let (group, place) = (b / s, b % s);
    group * rows * s + (p - 1) * s + place
}

/// A block's words as they lie in the image, row by row.
pub fn words_at(image: &[u32], shape: u32, s: u32, b: u32) -> Vec<u32> {
    (1..=block::rows(shape)).map(|p| image[index(shape, s, b, p)]).collect()
}

/// The code's block that the image holds as block b.
fn block_at(image: &[u32], shape: u32, s: u32, b: u32) -> Vec<u32> {
    block::stored(&words_at(image, shape, s, b))
}

/// Puts a block of the code into the image, in its stored form.
pub fn put_block(image: &mut [u32], shape: u32, s: u32, b: u32, block: &[u32]) {
    for (p, word) in (1..=block::rows(shape)).zip(block::stored(block)) {
        image[index(shape, s, b, p)] = word;
    }
}

/// Visits a block of an image that is not refused.
pub fn visit_block(image: &mut [u32], shape: u32, s: u32, b: u32) -> Outcome {
    let (outcome, after) = block::mended(&block_at(image, shape, s, b));
    put_block(image, shape, s, b, &after);
    outcome
}

/// The first of refusals 1, 2, 3 that applies, or 0.
pub fn refuse_layout(shape: u32, s: u32, g: u32) -> u32 {
    if shape != 1 && shape != 2 {
        return 1;
    }
    if s == 0 || s > 16 {
        return 2;
    }
    if g == 0 || blocks(s, g) > 4096 {
        return 3;
    }
    0
}

/// The first of refusals 1, 2, 3, 4 that applies, or 0.
pub fn refuse_image(words: u64, shape: u32, s: u32, g: u32) -> u32 {
    match refuse_layout(shape, s, g) {
        0 if words != block::rows(shape) as u64 * blocks(s, g) => 4,
        number => number,
    }
}

/// The first of refusals 1, 2, 3, 4, 6 that applies, or 0.
pub fn refuse_block(words: u64, shape: u32, s: u32, g: u32, b: u32) -> u32 {
    match refuse_image(words, shape, s, g) {
        0 if u64::from(b) >= blocks(s, g) => 6,
        number => number,
    }
}

/// The first of refusals 1, 2, 3, 4, 6, 7 that applies, or 0.
pub fn refuse_list(words: u64, shape: u32, s: u32, g: u32, b: u32, length: usize) -> u32 {
    match refuse_block(words, shape, s, g, b) {
        0 if length != block::data_words(shape) => 7,
        number => number,
    }
}

/// The most rows that a visit may be told to go around.
pub const MOST_ROWS: u64 = 3;

/// The first of refusals 13, 14 that applies to a list of rows, or 0; `count` is how many it is said to have.
pub fn refuse_rows(shape: u32, rows: &[u32], count: u64) -> u32 {
    if count > MOST_ROWS {
        return 13;
    }
    let outside = rows.iter().any(|row| *row == 0 || *row as usize > block::rows(shape));
    let twice = rows.iter().any(|row| rows.iter().filter(|other| *other == row).count() > 1);
    if outside || twice { 14 } else { 0 }
}

/// The first of refusals 1, 2, 3, 4, 6, 13, 14 that applies, or 0.
pub fn refuse_around(words: u64, shape: u32, s: u32, g: u32, b: u32, rows: &[u32], count: u64) -> u32 {
    match refuse_block(words, shape, s, g, b) {
        0 => refuse_rows(shape, rows, count),
        number => number,
    }
}

/// What format leaves: FFFFFFFF hex in rows 1 and 2, and zero elsewhere.
pub fn fresh(image: &mut [u32], shape: u32, s: u32, g: u32) {
    image.fill(0);
    for b in 0..blocks(s, g) as u32 {
        image[index(shape, s, b, 1)] = 0xffff_ffff;
        image[index(shape, s, b, 2)] = 0xffff_ffff;
    }
}

/// Every call takes the count of words that is lent beside the words, since a test may lend a wrong count.
pub fn format(image: &mut [u32], words: u64, shape: u32, s: u32, g: u32) -> (u32, Record) {
    let number = refuse_image(words, shape, s, g);
    let mut record = [0; 21];
    if number == 0 {
        fresh(image, shape, s, g);
        (record[0], record[1], record[2]) = (shape, s, g);
    }
    (number, record)
}

pub fn write(image: &mut [u32], words: u64, shape: u32, s: u32, g: u32, b: u32, data: &[u32]) -> u32 {
    let number = refuse_list(words, shape, s, g, b, data.len());
    if number == 0 {
        put_block(image, shape, s, b, &block::valid_block(shape, data));
    }
    number
}

pub fn read(image: &[u32], words: u64, shape: u32, s: u32, g: u32, b: u32, buffer: &mut [u32]) -> (u32, Outcome) {
    let number = refuse_list(words, shape, s, g, b, buffer.len());
    if number != 0 {
        return (number, Outcome::default());
    }
    let (outcome, after) = block::mended(&block_at(image, shape, s, b));
    if outcome.verdict != 3 {
        buffer.copy_from_slice(&block::data_of(shape, &after));
    }
    (0, outcome)
}

pub fn visit(image: &mut [u32], words: u64, shape: u32, s: u32, g: u32, b: u32) -> (u32, Outcome) {
    let number = refuse_block(words, shape, s, g, b);
    if number != 0 {
        return (number, Outcome::default());
    }
    (0, visit_block(image, shape, s, b))
}

pub fn visit_around(image: &mut [u32], words: u64, [shape, s, g]: [u32; 3], b: u32, rows: &[u32], count: u64) -> (u32, Outcome) {
    let number = refuse_around(words, shape, s, g, b, rows, count);
    if number != 0 {
        return (number, Outcome::default());
    }
    let named: Vec<usize> = rows.iter().map(|row| *row as usize).collect();
    let (outcome, after) = block::mended_around(&block_at(image, shape, s, b), &named);
    put_block(image, shape, s, b, &after);
    (0, outcome)
}
