//! The patrol: its record, ask and turn.

use crate::block::Outcome;
use crate::store;

/// Shape, s, G, next, waiting, then the 16 places.
pub type Record = [u32; 21];

pub const NEXT: usize = 3;
pub const WAITING: usize = 4;
pub const PLACE: usize = 5;

/// The two visits of a turn: block and outcome of each.
pub type Report = [(u32, Outcome); 2];

/// Refusal 5, of a record whose layout is not refused.
fn broken(record: &Record) -> bool {
    let n = store::blocks(record[1], record[2]);
    let waiting = record[WAITING] as usize;
    if u64::from(record[NEXT]) >= n || waiting > 16 {
        return true;
    }
    let (used, unused) = record[PLACE..].split_at(waiting);
    let too_large = used.iter().any(|b| u64::from(*b) >= n);
    let twice = used.iter().any(|b| used.iter().filter(|other| *other == b).count() > 1);
    too_large || twice || unused.iter().any(|b| *b != 0)
}

/// The first of refusals 1, 2, 3, 5, 6, 8 that applies, or 0.
fn refuse_ask(record: &Record, b: u32) -> u32 {
    let number = store::refuse_layout(record[0], record[1], record[2]);
    if number != 0 {
        return number;
    }
    if broken(record) {
        return 5;
    }
    if u64::from(b) >= store::blocks(record[1], record[2]) {
        return 6;
    }
    if record[WAITING] == 16 && !record[PLACE..].contains(&b) {
        return 8;
    }
    0
}

/// Answers the number, the place and the new record.
pub fn ask(record: Record, b: u32) -> (u32, u32, Record) {
    let number = refuse_ask(&record, b);
    if number != 0 {
        return (number, 0, record);
    }
    let waiting = record[WAITING] as usize;
    for i in 0..waiting {
        if record[PLACE + i] == b {
            return (0, i as u32 + 1, record);
        }
    }
    let mut after = record;
    after[PLACE + waiting] = b;
    after[WAITING] += 1;
    (0, after[WAITING], after)
}

/// The first of refusals 1, 2, 3, 4, 5 that applies, or 0.
fn refuse_turn(record: &Record, words: u64) -> u32 {
    match store::refuse_image(words, record[0], record[1], record[2]) {
        0 if broken(record) => 5,
        number => number,
    }
}

/// Answers the number, the report and the new record.
pub fn turn(record: Record, image: &mut [u32], words: u64) -> (u32, Report, Record) {
    let mut report = Report::default();
    let number = refuse_turn(&record, words);
    if number != 0 {
        return (number, report, record);
    }
    let (shape, s, next) = (record[0], record[1], record[NEXT]);
    let mut after = record;
    report[0] = (next, store::visit_block(image, shape, s, next));
    after[NEXT] = if u64::from(next) + 1 == store::blocks(s, record[2]) { 0 } else { next + 1 };
    if record[WAITING] > 0 {
        let asked = record[PLACE];
        report[1] = (asked, store::visit_block(image, shape, s, asked));
        let mut places = record[PLACE..].to_vec();
        places.remove(0);
        places.push(0);
        after[PLACE..].copy_from_slice(&places);
        after[WAITING] -= 1;
    }
    (0, report, after)
}
