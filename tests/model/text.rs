//! The stream as text: a line a call, and a line of what it answers and leaves. All numbers are hexadecimal.
//! tests/README.md has the whole of it.

use crate::call::{Answer, Call, Lent, Name, ASK, VERDICT};
use crate::generate::{Flip, Put};
use crate::patrol::Record;
use crate::room::{filler, Spoilt};

/// More changed words than these are told by their count and a hash of the image.
const MOST_CHANGES: usize = 144;

pub fn put(line: &mut String, number: u64) {
    const DIGITS: &[u8; 16] = b"0123456789abcdef";
    let mut shift = 60;
    while shift > 0 && number >> shift == 0 {
        shift -= 4;
    }
    line.push(' ');
    loop {
        line.push(DIGITS[(number >> shift) as usize % 16] as char);
        if shift == 0 {
            return;
        }
        shift -= 4;
    }
}

pub fn put_words(line: &mut String, words: &[u32]) {
    words.iter().for_each(|word| put(line, u64::from(*word)));
}

/// The lent image; words that are not given are zero.
pub fn image_line(image: &[u32]) -> String {
    let used = image.iter().rposition(|word| *word != 0).map_or(0, |at| at + 1);
    let mut line = String::from("image");
    put(&mut line, image.len() as u64);
    put_words(&mut line, &image[..used]);
    line
}

pub fn record_line(record: &Record) -> String {
    let mut line = String::from("record");
    put_words(&mut line, record);
    line
}

pub fn flip_line(flips: &[Flip]) -> String {
    let mut line = String::from("flip");
    for (index, bit) in flips {
        put(&mut line, *index as u64);
        put(&mut line, u64::from(*bit));
    }
    line
}

pub fn put_line(puts: &[Put]) -> String {
    let mut line = String::from("put");
    for (index, word) in puts {
        put(&mut line, *index as u64);
        put(&mut line, u64::from(*word));
    }
    line
}

/// The room for a file; bytes that are not given are the filler.
pub fn file_line(file: &[u8]) -> String {
    let used = (0..file.len()).rfind(|at| file[*at] != filler(*at)).map_or(0, |at| at + 1);
    let mut line = String::from("file");
    put(&mut line, file.len() as u64);
    file[..used].iter().for_each(|byte| put(&mut line, u64::from(*byte)));
    line
}

pub fn spoil_line(spoilt: &[Spoilt]) -> String {
    let mut line = String::from("spoil");
    for (index, byte) in spoilt {
        put(&mut line, *index as u64);
        put(&mut line, u64::from(*byte));
    }
    line
}

pub fn call_line(call: &Call) -> String {
    let mut line = String::from(call.name.text());
    if call.name.takes_image() {
        put(&mut line, call.words);
    }
    if call.name.takes_layout() {
        put_words(&mut line, &[call.shape, call.s, call.g]);
    }
    if call.name.takes_block() {
        put(&mut line, u64::from(call.block));
    }
    match call.name {
        Name::Write => {
            put(&mut line, call.list.len() as u64);
            put_words(&mut line, &call.list);
        }
        Name::VisitAround => {
            put(&mut line, call.count);
            put_words(&mut line, &call.list);
        }
        Name::Read => put_words(&mut line, &[call.list.len() as u32, call.list.first().copied().unwrap_or(0)]),
        _ => {}
    }
    if call.name.takes_file() {
        put(&mut line, call.bytes);
    }
    line
}

/// FNV-1a in 64 bits, a word or a byte at a step.
fn hash<T: Copy + Into<u64>>(steps: &[T]) -> u64 {
    steps.iter().fold(0xcbf2_9ce4_8422_2325, |h, step| (h ^ (*step).into()).wrapping_mul(0x0000_0100_0000_01b3))
}

/// The room is long, so what a call leaves in it is told by the count of its changed bytes and a hash of all.
fn put_room(line: &mut String, before: &[u8], after: &[u8]) {
    put(line, before.iter().zip(after).filter(|(was, is)| was != is).count() as u64);
    put(line, hash(after));
}

fn put_changes(line: &mut String, before: &[u32], after: &[u32]) {
    let changed: Vec<usize> = (0..before.len()).filter(|i| before[*i] != after[*i]).collect();
    if changed.len() > MOST_CHANGES {
        line.push_str(" changed");
        put(line, changed.len() as u64);
        put(line, hash(after));
        return;
    }
    for i in changed {
        line.push_str(" at");
        put(line, i as u64);
        put(line, u64::from(after[i]));
    }
}

/// What a call answers and leaves; `call` has the list as the call leaves it.
pub fn answer_line(call: &Call, answer: &Answer, before: &Lent, lent: &Lent) -> String {
    let mut line = String::from(call.name.text());
    put(&mut line, u64::from(answer.number));
    match call.name {
        Name::Read => {
            put_words(&mut line, &answer.report[VERDICT..ASK]);
            put_words(&mut line, &call.list);
        }
        Name::Visit | Name::VisitAround => put_words(&mut line, &answer.report[VERDICT..ASK]),
        Name::Ask => put(&mut line, u64::from(answer.place)),
        Name::Turn => put_words(&mut line, &answer.report),
        Name::FileWrite => {
            put(&mut line, u64::from(answer.place));
            put_room(&mut line, &before.file, &lent.file);
        }
        Name::FileLayout | Name::FileRead => put_words(&mut line, &answer.report[..3]),
        Name::Format | Name::Write => {}
    }
    if call.name.takes_record() {
        put_words(&mut line, &lent.record);
    }
    put_changes(&mut line, &before.image, &lent.image);
    line
}
