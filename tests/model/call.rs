//! A call as a value, the lent words that it works on, and what it answers and leaves.

use crate::block::Outcome;
use crate::file::{self, Told};
use crate::patrol::{self, Record};
use crate::store;

#[derive(Clone, Copy, PartialEq, Debug)]
pub enum Name {
    Format,
    Write,
    Read,
    Visit,
    Ask,
    Turn,
    FileWrite,
    FileLayout,
    FileRead,
    VisitAround,
}

impl Name {
    pub const ALL: [Name; 10] = [
        Name::Format,
        Name::Write,
        Name::Read,
        Name::Visit,
        Name::Ask,
        Name::Turn,
        Name::FileWrite,
        Name::FileLayout,
        Name::FileRead,
        Name::VisitAround,
    ];

    pub fn text(self) -> &'static str {
        ["format", "write", "read", "visit", "ask", "turn", "file_write", "file_layout", "file_read", "visit_around"][self as usize]
    }

    pub fn takes_image(self) -> bool {
        !matches!(self, Name::Ask | Name::FileLayout)
    }

    pub fn takes_record(self) -> bool {
        matches!(self, Name::Format | Name::Ask | Name::Turn)
    }

    pub fn takes_layout(self) -> bool {
        matches!(self, Name::Format | Name::Write | Name::Read | Name::Visit | Name::FileWrite | Name::VisitAround)
    }

    pub fn takes_block(self) -> bool {
        matches!(self, Name::Write | Name::Read | Name::Visit | Name::Ask | Name::VisitAround)
    }

    pub fn takes_list(self) -> bool {
        matches!(self, Name::Write | Name::Read)
    }

    pub fn takes_file(self) -> bool {
        matches!(self, Name::FileWrite | Name::FileLayout | Name::FileRead)
    }
}

/// A call with its arguments; those that its name does not take are not looked at. `list` is the data, the buffer or the rows named,
/// `count` how many rows these are said to be, `bytes` how much of the lent file's room is lent.
#[derive(Clone, Debug)]
pub struct Call {
    pub name: Name,
    pub words: u64,
    pub shape: u32,
    pub s: u32,
    pub g: u32,
    pub block: u32,
    pub list: Vec<u32>,
    pub count: u64,
    pub bytes: u64,
}

/// What goes from call to call.
#[derive(Clone)]
pub struct Lent {
    pub image: Vec<u32>,
    pub record: Record,
    pub file: Vec<u8>,
}

/// The words of a report: block, verdict and its two counts, and the same of the ask.
pub type Report = [u32; 8];

/// Where a report has the verdict of its first block, then the ask's block and its verdict.
pub const VERDICT: usize = 1;
pub const ASK: usize = 4;
pub const ASK_VERDICT: usize = ASK + VERDICT;

/// The number; a turn's report (either visit or a read uses its first verdict, a file the first three words, for shape, s and G);
/// the place of an ask, or the bytes that a file has.
#[derive(Clone, Default, Debug)]
pub struct Answer {
    pub number: u32,
    pub report: Report,
    pub place: u32,
}

/// A report of these two visits, each a block and what is said of it.
fn report_of(own: (u32, Outcome), asked: (u32, Outcome)) -> Report {
    let mut report = Report::default();
    (report[0], report[ASK]) = (own.0, asked.0);
    report[VERDICT..ASK].copy_from_slice(&own.1.words());
    report[ASK_VERDICT..].copy_from_slice(&asked.1.words());
    report
}

fn outcome_answer(number: u32, outcome: Outcome) -> Answer {
    Answer { number, report: report_of((0, outcome), Default::default()), place: 0 }
}

fn file_answer((number, told): (u32, Told)) -> Answer {
    let mut report = Report::default();
    report[..told.len()].copy_from_slice(&told);
    Answer { number, report, place: 0 }
}

/// Runs a call on the model; a read changes the call's own list.
pub fn run(call: &mut Call, lent: &mut Lent) -> Answer {
    let (words, shape, s, g, b) = (call.words, call.shape, call.s, call.g, call.block);
    match call.name {
        Name::Format => {
            let (number, record) = store::format(&mut lent.image, words, shape, s, g);
            lent.record = record;
            outcome_answer(number, Outcome::default())
        }
        Name::Write => {
            let number = store::write(&mut lent.image, words, shape, s, g, b, &call.list);
            outcome_answer(number, Outcome::default())
        }
        Name::Read => {
            let (number, outcome) = store::read(&lent.image, words, shape, s, g, b, &mut call.list);
            outcome_answer(number, outcome)
        }
        Name::Visit => {
            let (number, outcome) = store::visit(&mut lent.image, words, shape, s, g, b);
            outcome_answer(number, outcome)
        }
        Name::Ask => {
            let (number, place, record) = patrol::ask(lent.record, b);
            lent.record = record;
            Answer { number, place, ..Answer::default() }
        }
        Name::Turn => run_turn(lent, words),
        Name::FileWrite => {
            let (number, place) = file::write(&lent.image, words, [shape, s, g], &mut lent.file, call.bytes);
            Answer { number, place, ..Answer::default() }
        }
        Name::FileLayout => file_answer(file::layout(&lent.file, call.bytes)),
        Name::FileRead => file_answer(file::read(&lent.file, call.bytes, &mut lent.image, words)),
        Name::VisitAround => {
            let (number, outcome) = store::visit_around(&mut lent.image, words, [shape, s, g], b, &call.list, call.count);
            outcome_answer(number, outcome)
        }
    }
}

fn run_turn(lent: &mut Lent, words: u64) -> Answer {
    let (number, [own, asked], record) = patrol::turn(lent.record, &mut lent.image, words);
    lent.record = record;
    Answer { number, report: report_of(own, asked), place: 0 }
}
