//! The image file: how it is written, told of and read, and what the inspecting program prints of it.

use crate::{block, store};

/// The version that is written; one older is read too.
pub const VERSION: u8 = 2;
pub const OLD_VERSION: u8 = 1;

/// A longer file is refused.
pub const LONGEST: usize = 32768;
pub const HEADER: usize = 9;

/// Shape, s and G.
pub type Told = [u32; 3];

/// The big-endian number in some bytes.
pub fn number_in(bytes: &[u8]) -> u64 {
    bytes.iter().fold(0, |n, byte| n * 256 + u64::from(*byte))
}

/// The file's refusals in their order: 11, 10 (below 9 bytes), 9, 10 (length field), 1, 2, 3, 4; or 0.
/// The count of bytes that is lent stands beside the bytes, since a test may lend more than there can be.
pub fn refuse(file: &[u8], bytes: u64) -> u32 {
    if bytes > LONGEST as u64 {
        return 11;
    }
    if bytes < HEADER as u64 {
        return 10;
    }
    if file[0] != VERSION && file[0] != OLD_VERSION {
        return 9;
    }
    if number_in(&file[1..5]) != bytes - 5 {
        return 10;
    }
    let [shape, s, g] = told(file);
    match store::refuse_layout(shape, s, g) {
        0 if bytes - HEADER as u64 != 4 * words_told(file) => 4,
        number => number,
    }
}

/// Whether a file that is refused for its body has one to three bytes too many, which are no word.
pub fn uneven(file: &[u8], bytes: u64) -> bool {
    refuse(file, bytes) == 4 && (bytes - HEADER as u64) / 4 == words_told(file)
}

fn told(file: &[u8]) -> Told {
    [u32::from(file[5]), u32::from(file[6]), number_in(&file[7..9]) as u32]
}

/// The words of the image that a header with a good layout tells of.
fn words_told(file: &[u8]) -> u64 {
    let [shape, s, g] = told(file);
    block::rows(shape) as u64 * store::blocks(s, g)
}

/// Complements rows 1 and 2 of each block: the image of a version 1 file becomes one of version 2, and the other way round.
fn change_version(image: &mut [u32], [shape, s, g]: Told) {
    for b in 0..store::blocks(s, g) as u32 {
        for p in block::COMPLEMENTED {
            let at = store::index(shape, s, b, p);
            image[at] = !image[at];
        }
    }
}

/// The words of a file which is not refused, as they stand.
fn words_in(file: &[u8]) -> Vec<u32> {
    file[HEADER..].chunks(4).map(|word| number_in(word) as u32).collect()
}

/// The image that such a file holds; of a version 1 file rows 1 and 2 of each block are complemented on the way in.
fn image_in(file: &[u8]) -> Vec<u32> {
    let mut image = words_in(file);
    if file[0] == OLD_VERSION {
        change_version(&mut image, told(file));
    }
    image
}

/// The first of refusals 1, 2, 3, 4, 11, 12 that applies, or 0.
fn refuse_write(words: u64, shape: u32, s: u32, g: u32, bytes: u64) -> u32 {
    match store::refuse_image(words, shape, s, g) {
        0 if HEADER as u64 + 4 * words > LONGEST as u64 => 11,
        0 if HEADER as u64 + 4 * words > bytes => 12,
        number => number,
    }
}

/// Writes the image's file into a buffer; answers the number and the file's length.
pub fn write(image: &[u32], words: u64, [shape, s, g]: Told, file: &mut [u8], bytes: u64) -> (u32, u32) {
    let number = refuse_write(words, shape, s, g, bytes);
    if number != 0 {
        return (number, 0);
    }
    let whole = file_of([shape, s, g], image);
    file[..whole.len()].copy_from_slice(&whole);
    (0, whole.len() as u32)
}

/// Answers the number, and what the file says of its image.
pub fn layout(file: &[u8], bytes: u64) -> (u32, Told) {
    let number = refuse(file, bytes);
    (number, if number == 0 { told(file) } else { [0; 3] })
}

/// A file's refusals, and then 4 where the image is not of the length that it tells; or 0.
pub fn refuse_read(file: &[u8], bytes: u64, words: u64) -> u32 {
    match refuse(file, bytes) {
        0 if words != words_told(file) => 4,
        number => number,
    }
}

/// Copies a file's image to the lent one; answers the number, and what the file says of it.
pub fn read(file: &[u8], bytes: u64, image: &mut [u32], words: u64) -> (u32, Told) {
    let number = refuse_read(file, bytes, words);
    if number != 0 {
        return (number, [0; 3]);
    }
    image.copy_from_slice(&image_in(&file[..bytes as usize]));
    (0, told(file))
}

/// Everything that the inspecting program prints for a file.
pub fn inspect(file: &[u8]) -> String {
    let number = refuse(file, file.len() as u64);
    if number != 0 {
        return format!("refused {number}\n");
    }
    let [shape, s, g] = told(file);
    let words = words_in(file);
    let n = store::blocks(s, g);
    let mut text = format!("image shape {shape} interleave {s} groups {g} blocks {n}\n");
    let mut blocks = [0; 4];
    let mut bits = 0;
    for b in 0..n as u32 {
        let found = store::words_at(&words, shape, s, b);
        // A version 1 file prints what it printed: its words are judged as they stand, which was the rule then.
        let (outcome, _) = block::mended(&if file[0] == OLD_VERSION { found } else { block::stored(&found) });
        let verdict = ["", "clean", "mended", "lost"][outcome.verdict as usize];
        let second = if outcome.verdict == 3 { format!(" {}", outcome.beyond) } else { String::new() };
        text += &format!("block {b} {verdict} {}{second}\n", outcome.count);
        blocks[outcome.verdict as usize] += 1;
        if outcome.verdict == 2 {
            bits += outcome.count;
        }
    }
    text += &format!("total clean {} mended {} lost {} bits {bits}\n", blocks[1], blocks[2], blocks[3]);
    text
}

/// The nine bytes before so many words.
pub fn header(version: u8, [shape, s, g]: Told, words: usize) -> Vec<u8> {
    let mut header = vec![version];
    header.extend((4 + 4 * words as u32).to_be_bytes());
    header.extend([shape as u8, s as u8]);
    header.extend((g as u16).to_be_bytes());
    header
}

/// A header of this version and these words behind it, whatever they hold.
pub fn bytes_of(version: u8, told: Told, words: &[u32]) -> Vec<u8> {
    let mut file = header(version, told, words.len());
    for word in words {
        file.extend(word.to_be_bytes());
    }
    file
}

/// The file of an image.
pub fn file_of(told: Told, image: &[u32]) -> Vec<u8> {
    bytes_of(VERSION, told, image)
}

/// The version 1 file of the same store, as old loggers wrote it.
pub fn old_file_of(told: Told, image: &[u32]) -> Vec<u8> {
    let mut words = image.to_vec();
    change_version(&mut words, told);
    bytes_of(OLD_VERSION, told, &words)
}
