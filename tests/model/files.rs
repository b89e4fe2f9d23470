//! Image files for the inspecting program, of both versions: valid, harmed, dead, cut off, with flipped bits, with bad headers, and random bytes.

use std::{fs, io};

use crate::block;
use crate::file::{self, LONGEST, OLD_VERSION, VERSION};
use crate::generate::{self, Layout, DEAD};
use crate::random::Random;
use crate::{room, store};

/// Layouts whose files are short enough, from one block to as many as fit.
fn file_layout(r: &mut Random) -> Layout {
    let shape = r.from_to(1, 2);
    let most = ((LONGEST - 9) / (4 * block::rows(shape))) as u32;
    let s = r.from_to(1, 16);
    let (s, g) = match r.below(10) {
        0..=6 => (s, r.from_to(1, 3)),
        7 | 8 => (s, r.from_to(1, most / s)),
        _ => (s, most / s),
    };
    Layout { shape, s, g }
}

fn valid_file(r: &mut Random) -> Vec<u8> {
    let at = file_layout(r);
    room::any_file(r, at)
}

/// Every word is a dead chip's: lost 32 0 throughout in version 2, clean in version 1.
fn dead_file(version: u8, at: Layout, word: u32) -> Vec<u8> {
    file::bytes_of(version, at.told(), &vec![word; at.words()])
}

/// The length field made right for the bytes that are there.
fn mend_length(bytes: &mut [u8]) {
    let length = (bytes.len() as u32).wrapping_sub(5).to_be_bytes();
    if bytes.len() >= 5 {
        bytes[1..5].copy_from_slice(&length);
    }
}

fn random_bytes(r: &mut Random, length: usize) -> Vec<u8> {
    (0..length).map(|_| r.word() as u8).collect()
}

/// A header with edge values; its length field is right.
fn edge_header(r: &mut Random) -> Vec<u8> {
    let mut bytes = valid_file(r);
    let field = r.below(4);
    if field == 3 {
        bytes[0] = r.pick(&[0, 3, 255]);
    }
    if field == 0 {
        bytes[5] = r.pick(&[0, 1, 2, 3, 255]);
    }
    if field == 1 {
        bytes[6] = r.pick(&[0, 0, 17, 17, 255, 1, 16]);
    }
    if field == 2 {
        let g: u16 = r.pick(&[0, 1, 2, 256, 257, 4096, 4097, 65535]);
        bytes[7..9].copy_from_slice(&g.to_be_bytes());
    }
    bytes
}

/// A file whose length is near a limit: 9 bytes or the longest.
fn edge_length(r: &mut Random) -> Vec<u8> {
    let short = [0, 1, 4, 5, 8, 9, 10, 12, 13];
    let long = [LONGEST - 1, LONGEST, LONGEST + 1, LONGEST + 1, LONGEST + 2, 40000, 70000, 300000, 1 << 20];
    let length = if r.chance(50) { r.pick(&short) } else { r.pick(&long) };
    let mut bytes = valid_file(r);
    let fill = r.word() as u8;
    bytes.resize(length, fill);
    if r.chance(70) {
        mend_length(&mut bytes);
    }
    bytes
}

fn cut_or_longer(r: &mut Random) -> Vec<u8> {
    let mut bytes = valid_file(r);
    let by = r.pick(&[1, 2, 3, 4, 64, 288]).min(bytes.len());
    let length = match r.below(3) {
        0 => bytes.len() - by,
        1 => bytes.len() + by,
        _ => r.below(bytes.len() as u64) as usize,
    };
    bytes.resize(length, 0);
    if r.chance(50) {
        mend_length(&mut bytes);
    }
    bytes
}

fn flipped(r: &mut Random) -> Vec<u8> {
    let mut bytes = valid_file(r);
    let reach = if r.chance(50) { 9 } else { bytes.len() as u64 };
    for _ in 0..r.from_to(1, 3) {
        bytes[r.below(reach) as usize] ^= 1 << r.below(8);
    }
    bytes
}

/// Random bytes behind a header that is right so far as chance lets it.
fn random_file(r: &mut Random) -> Vec<u8> {
    let length = r.pick(&[3, 20, 73, 200, 1000]) + r.below(4) as usize;
    let mut bytes = random_bytes(r, length);
    bytes[0] = r.pick(&[0, 1, 1, 2, 2, 3, 255]);
    if bytes.len() > 6 && r.chance(70) {
        (bytes[5], bytes[6]) = (r.pick(&[1, 2]), r.pick(&[0, 1, 16, 17, 40]));
    }
    if r.chance(75) {
        mend_length(&mut bytes);
    }
    bytes
}

/// The store of the specification's sample run: row 3 is 1.
fn sample_image() -> Vec<u32> {
    let mut block = vec![0; block::rows(1)];
    block[2] = 1;
    block::stored(&block)
}

/// The file with the longest report: as many blocks as fit, each with its last row flipped in every lane, and a hundred of them with
/// another row too, so that the total has three digits of lost blocks and five of bits.
fn longest_report() -> Vec<u8> {
    let rows = block::rows(1);
    let blocks = ((LONGEST - 9) / (4 * rows)) as u32;
    let mut image = vec![0; blocks as usize * rows];
    for b in 0..blocks {
        let flipped = |row: usize| row == rows || (row == 1 && b < 100);
        let block: Vec<u32> = (1..=rows).map(|row| if flipped(row) { u32::MAX } else { 0 }).collect();
        store::put_block(&mut image, 1, 1, b, &block);
    }
    file::file_of([1, 1, blocks], &image)
}

/// The specification's sample run and the longest report; the sample in version 2 and in versions that are none; dead files of both versions
/// and shapes.
fn fixed_files() -> Vec<Vec<u8>> {
    let sample = sample_image();
    let mut files = vec![file::old_file_of([1, 1, 1], &sample), longest_report(), file::file_of([1, 1, 1], &sample)];
    for version in [0, 3, 255] {
        files.push(file::bytes_of(version, [1, 1, 1], &sample));
    }
    for version in [OLD_VERSION, VERSION] {
        for word in DEAD {
            files.push(dead_file(version, Layout { shape: 1, s: 3, g: 2 }, word));
            files.push(dead_file(version, Layout { shape: 2, s: 1, g: 3 }, word));
        }
    }
    files
}

fn any_file(r: &mut Random) -> Vec<u8> {
    match r.below(100) {
        0..=35 => valid_file(r),
        36..=39 => dead_file(r.pick(&[OLD_VERSION, VERSION]), file_layout(r), r.pick(&DEAD)),
        40..=54 => flipped(r),
        55..=64 => cut_or_longer(r),
        65..=79 => edge_header(r),
        80..=92 => edge_length(r),
        _ => random_file(r),
    }
}

fn write_file(dir: &str, k: usize, bytes: &[u8]) -> io::Result<()> {
    fs::write(format!("{dir}/{k}.image"), bytes)?;
    fs::write(format!("{dir}/{k}.expected"), file::inspect(bytes))
}

/// So many files from a seed, as DIR/K.image and DIR/K.expected, the fixed ones first.
pub fn write(seed: u64, count: u64, dir: &str) -> io::Result<()> {
    let mut r = Random::new(seed);
    let fixed = fixed_files();
    for k in 0..count as usize {
        let bytes = if k < fixed.len() { fixed[k].clone() } else { any_file(&mut r) };
        write_file(dir, k, &bytes)?;
    }
    Ok(())
}

/// So many version 1 files that are not refused, as DIR/K.image and DIR/K.expected: dead words, which were clean, and then any store.
pub fn write_old(seed: u64, count: u64, dir: &str) -> io::Result<()> {
    let mut r = Random::new(seed);
    for k in 0..count as usize {
        let at = file_layout(&mut r);
        let bytes = if k < DEAD.len() { dead_file(OLD_VERSION, at, DEAD[k]) } else { file::old_file_of(at.told(), &generate::any_image(&mut r, at)) };
        write_file(dir, k, &bytes)?;
    }
    Ok(())
}
