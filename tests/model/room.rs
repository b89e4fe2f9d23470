//! The room that is lent for a file: what it holds at first, how it is spoilt, and how many of its bytes a call is lent.

use crate::call::Name;
use crate::file::{self, HEADER, LONGEST, OLD_VERSION, VERSION};
use crate::generate::{self, Layout};
use crate::random::Random;

/// A byte that is put into the room: its index and what it is.
pub type Spoilt = (usize, u8);

/// What a byte of the room holds where nothing is put: all are told apart, so that one that is altered is seen.
pub fn filler(index: usize) -> u8 {
    (index * 29 + 165) as u8
}

/// The length of the file of an image of this layout, be it too long or not.
pub fn length(at: Layout) -> usize {
    HEADER + 4 * at.words()
}

/// Mostly as long as the scene's own file or a little longer, now and then too short or longer than any file.
fn any_length(r: &mut Random, at: Layout) -> usize {
    let whole = length(at).min(LONGEST);
    match r.below(100) {
        0..=34 => whole,
        35..=69 => whole + r.below(70) as usize,
        70..=77 => whole - r.pick(&[1, 2, 4, 64]),
        78..=82 => r.below(80) as usize,
        83..=92 => whole + r.below(600) as usize,
        _ => LONGEST + r.pick(&[0, 0, 1, 1, 2, 4, 300]),
    }
}

/// What a header says in place of the scene's own layout.
fn other_layout(r: &mut Random, at: Layout) -> Layout {
    if r.chance(50) { generate::tiny_layout(r) } else { generate::same_length(r, at) }
}

/// Either version, the new one more often.
fn any_version(r: &mut Random) -> u8 {
    if r.chance(40) { OLD_VERSION } else { VERSION }
}

/// A whole file of either version, of any image.
pub fn any_file(r: &mut Random, at: Layout) -> Vec<u8> {
    let image = generate::any_image(r, at);
    if any_version(r) == VERSION { file::file_of(at.told(), &image) } else { file::old_file_of(at.told(), &image) }
}

/// A header of either version, right for this layout.
fn any_header(r: &mut Random, at: Layout) -> Vec<u8> {
    file::header(any_version(r), at.told(), at.words())
}

/// Nothing, a header, a whole small file, or anything at the front, and the filler behind: what is written as text stays short.
pub fn any_room(r: &mut Random, at: Layout) -> Vec<u8> {
    let mut room = match r.below(100) {
        0..=29 => Vec::new(),
        30..=54 => any_header(r, at),
        55..=69 => {
            let other = other_layout(r, at);
            any_header(r, other)
        }
        70..=84 if at.words() <= 64 => any_file(r, at),
        _ => (0..r.below(64)).map(|_| r.word() as u8).collect(),
    };
    let length = any_length(r, at);
    room.truncate(length);
    room.extend((room.len()..length).map(filler));
    room
}

/// A header's bytes by their place; the ways of refusals 9, 10, 1, 2 and 3, and values at their edges.
fn spoilt_header(r: &mut Random, at: Layout, room: &[u8]) -> Vec<Spoilt> {
    let most = (4096 / at.s) as u16;
    match r.below(8) {
        0 => vec![(0, r.pick(&[0, 0, 3, 3, 129, 130, 255, OLD_VERSION, VERSION]))],
        1 => vec![(r.from_to(1, 4) as usize, r.word() as u8)],
        2 | 3 => {
            let any = r.below(room.len() as u64 + 1) as usize;
            let length = r.pick(&[any, HEADER, HEADER + 64, length(at).min(room.len()), room.len()]);
            placed(1, &(length as u32).wrapping_sub(5).to_be_bytes())
        }
        4 => vec![(5, r.pick(&[0, 3, 255, 3 - at.shape as u8]))],
        5 => vec![(6, r.pick(&[0, 0, 17, 17, 255, 1, 16]))],
        6 => placed(7, &r.pick(&[0, 0, 256, 257, most, most + 1, 4097, 65535]).to_be_bytes()),
        _ => placed(7, &(at.g as u16).wrapping_add(r.pick(&[1, 1, 256, u16::MAX])).to_be_bytes()),
    }
}

/// The scene's own header, but that its length field counts one to three bytes more, which are no word.
fn uneven_header(r: &mut Random, at: Layout) -> Vec<Spoilt> {
    let mut header = any_header(r, at);
    header[1..5].copy_from_slice(&((length(at) - 5) as u32 + r.from_to(1, 3)).to_be_bytes());
    placed(0, &header)
}

fn placed(first: usize, bytes: &[u8]) -> Vec<Spoilt> {
    bytes.iter().enumerate().map(|(k, byte)| (first + k, *byte)).collect()
}

/// Bytes to put into the room: a header made right again, or right but for some bytes too many, or spoilt once or twice, or some bytes of the body.
pub fn spoil(r: &mut Random, at: Layout, room: &[u8]) -> Vec<Spoilt> {
    let mut spoilt = match r.below(100) {
        0..=25 => placed(0, &any_header(r, at)),
        26..=29 => uneven_header(r, at),
        30..=69 => spoilt_header(r, at, room),
        70..=84 => [spoilt_header(r, at, room), spoilt_header(r, at, room)].concat(),
        _ => (0..r.from_to(1, 4)).map(|_| (r.below(room.len() as u64 + 1) as usize, r.word() as u8)).collect(),
    };
    spoilt.retain(|(index, _)| *index < room.len());
    spoilt
}

/// How many bytes a file that is read is said to have: mostly as its length field says, or near that, or at an edge.
fn read_bytes(r: &mut Random, room: &[u8]) -> u64 {
    let told = if room.len() < 5 { 0 } else { file::number_in(&room[1..5]) + 5 };
    let all = room.len() as u64;
    match r.below(100) {
        0..=69 => told,
        70..=75 => r.pick(&[told - told.min(1), told + 1, told + 4]),
        76..=81 => r.pick(&[0, 1, 4, 5, 8, 8, 9, 9]),
        82..=91 => all,
        92..=94 => r.pick(&[LONGEST as u64, LONGEST as u64 + 1]),
        95..=97 => r.below(all + 1),
        _ => (1 << 32) + told,
    }
}

/// How many bytes of the room are lent for a file to be written: exactly its length, one less, more, or none.
fn write_bytes(r: &mut Random, at: Layout, room: &[u8]) -> u64 {
    let (exact, all) = (length(at) as u64, room.len() as u64);
    match r.below(100) {
        0..=34 => exact,
        35..=59 => all,
        60..=69 => exact - 1,
        70..=73 => 0,
        74..=83 => exact + r.pick(&[1, 2, 3, 64]),
        84..=88 => r.below(all + 1),
        89..=94 => r.pick(&[HEADER as u64 - 1, HEADER as u64, LONGEST as u64, LONGEST as u64 + 1]),
        _ => (1 << 32) + r.pick(&[0, exact - 1]),
    }
}

/// The bytes that a call is lent: never more than there are, but for a count above 2^32 that no call may reach into.
pub fn any_bytes(r: &mut Random, at: Layout, name: Name, room: &[u8]) -> u64 {
    let all = room.len() as u64;
    let bytes = if name == Name::FileWrite { write_bytes(r, at, room) } else { read_bytes(r, room) };
    let fits = name != Name::FileWrite || length(at) as u64 <= all;
    if bytes > 1 << 32 && fits { bytes } else { bytes.min(all) }
}
