//! Random calls: layouts, images with harm done to them, records good and broken, arguments good and bad.
//! A scene is one layout with an image, a record and the room for a file, and some dozens of calls on them.

use crate::block;
use crate::call::{Call, Lent, Name};
use crate::file::{self, Told};
use crate::patrol::{Record, NEXT, PLACE, WAITING};
use crate::random::Random;
use crate::room;
use crate::store;

#[derive(Clone, Copy, Debug)]
pub struct Layout {
    pub shape: u32,
    pub s: u32,
    pub g: u32,
}

/// One flip: an index into the image and a bit.
pub type Flip = (usize, u32);

/// One word overwritten: an index into the image and what it holds then.
pub type Put = (usize, u32);

/// What every word of a dead chip reads.
pub const DEAD: [u32; 2] = [0, u32::MAX];

impl Layout {
    pub fn blocks(self) -> u32 {
        self.s * self.g
    }

    pub fn words(self) -> usize {
        block::rows(self.shape) * self.blocks() as usize
    }

    pub fn told(self) -> Told {
        [self.shape, self.s, self.g]
    }

    /// A call on an image of this layout, with no list and no bytes.
    pub fn call(self, name: Name, block: u32) -> Call {
        Call { name, words: self.words() as u64, shape: self.shape, s: self.s, g: self.g, block, list: Vec::new(), count: 0, bytes: 0 }
    }
}

/// At most 4 blocks of shape 1 or 2 of shape 2: what fits in a stored vector.
pub fn tiny_layout(r: &mut Random) -> Layout {
    let (s, g) = r.pick(&[(1, 1), (2, 1), (1, 2), (2, 1), (1, 3), (3, 1), (2, 2), (4, 1), (1, 4)]);
    let shape = if s * g <= 2 { r.from_to(1, 2) } else { 1 };
    Layout { shape, s, g }
}

/// The most blocks that fit in a file, and one more.
const FILE_EDGES: [(u32, u32, u32); 8] =
    [(1, 1, 511), (1, 7, 73), (1, 1, 512), (1, 16, 32), (2, 1, 113), (2, 1, 114), (2, 16, 7), (2, 6, 19)];

/// Mostly a few blocks, often enough for a full waiting list, now and then as many as a file takes or as there may be.
pub fn any_layout(r: &mut Random) -> Layout {
    let shape = r.from_to(1, 2);
    let (s, g) = match r.below(1000) {
        0..=349 => (r.from_to(1, 4), r.from_to(1, 3)),
        350..=599 => (r.from_to(1, 16), r.from_to(1, 2)),
        600..=899 => r.pick(&[(16, 1), (1, 17), (16, 2), (6, 3), (1, 20), (9, 2), (2, 9), (5, 4), (3, 6)]),
        900..=981 => (r.from_to(1, 16), r.from_to(1, 6)),
        982..=993 => {
            let (shape, s, g) = r.pick(&FILE_EDGES);
            return Layout { shape, s, g };
        }
        _ => r.pick(&[(16, 256), (1, 4096), (16, 255), (6, 682), (15, 273), (2, 2048), (13, 315), (1, 4095)]),
    };
    Layout { shape, s, g }
}

/// Fresh, dead, valid blocks, valid blocks with harm, or anything at all.
pub fn any_image(r: &mut Random, at: Layout) -> Vec<u32> {
    let mut image = vec![0; at.words()];
    let kind = r.below(100);
    if kind < 10 {
        store::fresh(&mut image, at.shape, at.s, at.g);
        return image;
    }
    if kind < 20 {
        image.fill(r.pick(&DEAD));
        return image;
    }
    if kind >= 88 {
        image.iter_mut().for_each(|word| *word = r.word());
        return image;
    }
    for b in 0..at.blocks() {
        let data = any_data(r, block::data_words(at.shape));
        store::put_block(&mut image, at.shape, at.s, b, &block::valid_block(at.shape, &data));
        if kind >= 45 && r.chance(60) {
            harm(r, at, b).iter().for_each(|(index, bit)| image[*index] ^= 1 << bit);
        }
    }
    image
}

pub fn any_data(r: &mut Random, length: usize) -> Vec<u32> {
    let kind = r.below(10);
    let one = r.below(length as u64 + 1) as usize;
    let word = |i: usize, r: &mut Random| match kind {
        0 => u32::MAX,
        1 => 0,
        2 if i == one => 1 << r.below(32),
        2 => 0,
        3 => i as u32,
        _ => r.word(),
    };
    (0..length).map(|i| word(i, r)).collect()
}

/// Flips in one block: single ones in some lanes, or several in one lane, check rows and the last row as often as others.
pub fn harm(r: &mut Random, at: Layout, b: u32) -> Vec<Flip> {
    let mut flips = Vec::new();
    let (singles, several) = match r.below(100) {
        0..=29 => (1, 0),
        30..=49 => (r.from_to(2, 31), 0),
        50..=59 => (32, 0),
        60..=72 => (r.pick(&[0, 0, 1, 5]), 2),
        73..=89 => (r.pick(&[0, 0, 1, 5]), 3),
        _ => (r.pick(&[0, 2]), r.from_to(4, 7)),
    };
    let start = r.from_to(0, 31);
    for lane in 0..singles {
        flips.push((any_row(r, at, b), (start + lane) % 32));
    }
    let lane = r.from_to(0, 31);
    for _ in 0..several {
        flips.push((any_row(r, at, b), lane));
    }
    flips
}

/// A block whose chip has died: each of its words overwritten.
pub fn death(r: &mut Random, at: Layout, b: u32) -> Vec<Put> {
    let word = r.pick(&DEAD);
    (1..=block::rows(at.shape)).map(|row| (store::index(at.shape, at.s, b, row), word)).collect()
}

/// An image in which every block is valid.
pub fn valid_image(r: &mut Random, at: Layout) -> Vec<u32> {
    let mut image = vec![0; at.words()];
    for b in 0..at.blocks() {
        let data = any_data(r, block::data_words(at.shape));
        store::put_block(&mut image, at.shape, at.s, b, &block::valid_block(at.shape, &data));
    }
    image
}

/// A burst: so many neighbouring words with any bits of them changed, as often as not across the end of a group.
pub fn burst(r: &mut Random, at: Layout, image: &[u32], many: usize) -> Vec<Put> {
    let group = image.len() / at.g as usize;
    let mut start = r.below((image.len() - many + 1) as u64) as usize;
    if at.g > 1 && many > 1 && r.chance(50) {
        start = group * r.from_to(1, at.g - 1) as usize - r.from_to(1, many as u32 - 1) as usize;
    }
    (start..start + many).map(|index| (index, image[index] ^ any_bits(r))).collect()
}

fn any_bits(r: &mut Random) -> u32 {
    match r.below(4) {
        0 => u32::MAX,
        1 => 1 << r.below(32),
        _ => r.word(),
    }
}

/// The index of some row of a block.
fn any_row(r: &mut Random, at: Layout, b: u32) -> usize {
    let row = if r.chance(30) { r.pick(block::check_rows(at.shape)) } else { r.from_to(1, block::rows(at.shape) as u32) as usize };
    store::index(at.shape, at.s, b, row)
}

/// A record of this layout, with some blocks waiting, often as many as the list takes.
fn good_record(r: &mut Random, at: Layout) -> Record {
    let n = at.blocks();
    let mut record = [0; 21];
    (record[0], record[1], record[2]) = (at.shape, at.s, at.g);
    record[NEXT] = if r.chance(30) { n - 1 } else { r.from_to(0, n - 1) };
    let most = n.min(16);
    let waiting = r.pick(&[0, 1, most / 2, most, most, most, most - 1]);
    while record[WAITING] < waiting {
        let b = r.from_to(0, n - 1);
        let used = PLACE + record[WAITING] as usize;
        if !record[PLACE..used].contains(&b) {
            record[used] = b;
            record[WAITING] += 1;
        }
    }
    record
}

/// Breaks a record in one of the ways of refusal 5; a few of these ways leave it good, at the edge.
fn break_record(r: &mut Random, record: &mut Record, n: u32) {
    let waiting = (record[WAITING] as usize).min(16);
    let large = r.pick(&[n, n + 1, u32::MAX, 0x8000_0000, 65536 + n]);
    let used = PLACE + r.below(waiting.max(1) as u64) as usize;
    let unused = PLACE + r.pick(&[waiting.min(15), 15]);
    match r.below(9) {
        0 => record[NEXT] = large,
        1 => record[WAITING] = r.pick(&[17, 18, 21, 256 + waiting as u32, u32::MAX]),
        2 => record[used] = large,
        3 if waiting >= 2 => record[PLACE + waiting - 1] = record[PLACE + r.below(waiting as u64 - 1) as usize],
        3 => record[WAITING] = 2,
        4 => record[unused] = r.pick(&[1, n - 1, n, u32::MAX]),
        5 => record[WAITING] = record[WAITING].saturating_sub(1),
        6 => record[WAITING] = (record[WAITING] + 1).min(17),
        7 if waiting >= 2 => record.swap(PLACE, PLACE + waiting - 1),
        7 => record[NEXT] = n - 1,
        _ => (record[NEXT], record[WAITING]) = (large, 17),
    }
}

/// A record of any kind: fresh, good, broken, of a refused layout, or of another layout.
pub fn any_record(r: &mut Random, at: Layout) -> Record {
    let mut record = good_record(r, at);
    match r.below(100) {
        0..=14 => record[NEXT..].fill(0),
        15..=54 => {}
        55..=84 => break_record(r, &mut record, at.blocks()),
        85..=94 => {
            let field = r.below(3) as usize;
            record[field] = spoilt_layout(r, at)[field];
            if r.chance(40) {
                break_record(r, &mut record, at.blocks());
            }
        }
        _ => {
            let other = same_length(r, at);
            (record[0], record[1], record[2]) = (other.shape, other.s, other.g);
        }
    }
    record
}

/// Bad or edge values for shape, s and G; the last of them wrap to a good count of blocks in 32 or 16 bits.
fn spoilt_layout(r: &mut Random, at: Layout) -> [u32; 3] {
    let wrap = ((1u64 << 32) / u64::from(at.s)) as u32;
    let shape = r.pick(&[0, 3, 4, 16, 72, 256 + at.shape, 65536 + at.shape, u32::MAX, 3 - at.shape]);
    let s = r.pick(&[0, 0, 17, 17, 18, 32, 0x8000_0000, u32::MAX, 256 + at.s, 1, 16]);
    let most = 4096 / at.s;
    let g = r.pick(&[0, 0, 1, 256, 257, most, most + 1, 4097, u32::MAX, 0x8000_0000, wrap.wrapping_add(at.g), 65536 + at.g]);
    [shape, s, g]
}

/// Another layout of an image as long, where there is one: a call with it is accepted too.
pub fn same_length(r: &mut Random, at: Layout) -> Layout {
    let shape = r.from_to(1, 2);
    let rows = block::rows(shape);
    let s = r.from_to(1, 16);
    let one = rows * s as usize;
    if at.words() % one == 0 && at.words() / rows <= 4096 {
        return Layout { shape, s, g: (at.words() / one) as u32 };
    }
    at
}

/// Any call but a visit around rows, which `around` makes.
fn any_name(r: &mut Random) -> Name {
    let weights = [5, 14, 15, 23, 19, 24, 8, 5, 7];
    let mut ticket = r.below(weights.iter().sum());
    let mut which = 0;
    while ticket >= weights[which] {
        ticket -= weights[which];
        which += 1;
    }
    Name::ALL[which]
}

/// One call, with good arguments or with one to three bad ones.
pub fn any_call(r: &mut Random, at: Layout, lent: &Lent) -> Call {
    let name = any_name(r);
    let block = r.below(u64::from(at.blocks())) as u32;
    let mut length = block::data_words(at.shape);
    let mut call = at.call(name, block);
    if r.chance(if name == Name::Format { 65 } else { 35 }) {
        for _ in 0..r.pick(&[1, 1, 1, 2, 2, 3]) {
            spoil(r, at, &mut call, &mut length);
        }
    }
    if name.takes_file() {
        call.bytes = room::any_bytes(r, at, name, &lent.file);
    }
    honest_words(&mut call, at, lent);
    if name.takes_list() {
        call.list = if name == Name::Write { any_data(r, length) } else { pattern(r.word(), length) };
    }
    call
}

/// What a read's buffer holds before: it is told by its first word.
pub fn pattern(first: u32, length: usize) -> Vec<u32> {
    (0..length as u32).map(|i| first.wrapping_add(i.wrapping_mul(0x0101_0101))).collect()
}

/// One bad argument, or one at its edge.
pub fn spoil(r: &mut Random, at: Layout, call: &mut Call, length: &mut usize) {
    let [shape, s, g] = spoilt_layout(r, at);
    let words = at.words() as u64;
    let rows = block::rows(at.shape) as u64;
    let n = at.blocks();
    match r.below(10) {
        0 => call.shape = shape,
        1 => call.s = s,
        2 => call.g = g,
        3 | 4 => call.words = r.pick(&[words - 1, words + 1, 0, 1, words + rows, words - rows, 2 * words, (1 << 32) + words]),
        5 | 6 => call.block = r.pick(&[n - 1, n, n, n + 1, u32::MAX, 0x8000_0000, call.block.wrapping_add(65536), 0]),
        7 | 8 => *length = r.pick(&[length.saturating_sub(1), *length + 1, 0, 1, 75 - *length, 16, 72]).min(75),
        _ => {
            let other = same_length(r, at);
            (call.shape, call.s, call.g) = (other.shape, other.s, other.g);
        }
    }
}

/// A call that is accepted lends exactly the image; a count beyond it may only be lent where it is refused.
pub fn honest_words(call: &mut Call, at: Layout, lent: &Lent) {
    let record = &lent.record;
    let number = match call.name {
        Name::Turn => store::refuse_image(call.words, record[0], record[1], record[2]),
        Name::FileRead => file::refuse_read(&lent.file, call.bytes, call.words),
        _ => store::refuse_image(call.words, call.shape, call.s, call.g),
    };
    if number == 0 {
        call.words = at.words() as u64;
    }
}
