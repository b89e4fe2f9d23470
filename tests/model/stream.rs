//! Writes a stream of calls and the model's answers, and tells how often each answer came.

use std::collections::BTreeMap;
use std::fs::File;
use std::io::{self, BufWriter, Write};

use crate::around::{self, Work};
use crate::block;
use crate::call::{self, Answer, Call, Lent, Name, ASK, ASK_VERDICT, VERDICT};
use crate::file::{self, LONGEST, OLD_VERSION};
use crate::generate::{self, Layout, DEAD};
use crate::patrol::NEXT;
use crate::random::Random;
use crate::room::{self, Spoilt};
use crate::store;
use crate::text;

/// How often each call gave each answer.
pub type Tally = BTreeMap<String, u64>;

struct Stream {
    calls: BufWriter<File>,
    expected: BufWriter<File>,
    tally: Tally,
}

impl Stream {
    /// A line that is no call has a dot for its answer, so that the two texts go line by line.
    fn set(&mut self, line: &str) -> io::Result<()> {
        writeln!(self.calls, "{line}")?;
        writeln!(self.expected, ".")
    }

    /// Makes a call, and gives its kind.
    fn make(&mut self, mut call: Call, lent: &mut Lent) -> io::Result<String> {
        let before = lent.clone();
        writeln!(self.calls, "{}", text::call_line(&call))?;
        let answer = call::run(&mut call, lent);
        writeln!(self.expected, "{}", text::answer_line(&call, &answer, &before, lent))?;
        Ok(kind(&call, &answer, &before))
    }

    fn count(&mut self, kind: String) {
        *self.tally.entry(kind).or_default() += 1;
    }

    fn call(&mut self, call: Call, lent: &mut Lent) -> io::Result<()> {
        let kind = self.make(call, lent)?;
        self.count(kind);
        Ok(())
    }
}

/// A verdict by name; of lost, which kinds of lanes there are.
fn verdict_name(words: &[u32]) -> &'static str {
    match (words[0], words[1] > 0, words[2] > 0) {
        (3, true, true) => "lost both",
        (3, true, false) => "lost even",
        (3, false, true) => "lost beyond",
        (verdict, _, _) => ["none", "clean", "mended", "lost neither"][verdict as usize],
    }
}

/// What the chip reads, where the first block that a call visits or reads is all dead and is called lost 32 0.
fn dead(call: &Call, answer: &Answer, before: &Lent) -> Option<&'static str> {
    let record = &before.record;
    let (shape, s, b) = match call.name {
        Name::Read | Name::Visit => (call.shape, call.s, call.block),
        Name::Turn => (record[0], record[1], record[NEXT]),
        _ => return None,
    };
    if answer.number != 0 || answer.report[VERDICT..ASK] != [3, 32, 0] {
        return None;
    }
    let words = store::words_at(&before.image, shape, s, b);
    let reads = DEAD.iter().position(|dead| words.iter().all(|word| word == dead))?;
    Some(["dead zeros", "dead ones"][reads])
}

/// Whether the buffer of an accepted write holds the very image as a version 1 file.
fn renews(call: &Call, before: &Lent, length: u32) -> bool {
    let mut image = vec![0; before.image.len()];
    before.file[0] == OLD_VERSION && file::read(&before.file, u64::from(length), &mut image, call.words).0 == 0 && image == before.image
}

fn version_name(version: u8) -> &'static str {
    ["version 0", "version 1", "version 2", "version 3"].get(version as usize).unwrap_or(&"version above")
}

/// What is wrong with the rows that are named, beside an earlier refusal or by itself.
fn rows_name(call: &Call, number: u32) -> &'static str {
    let last = block::rows(call.shape) as u32;
    let bad = store::refuse_rows(call.shape, &call.list, 0) != 0;
    match number {
        6 if call.count > store::MOST_ROWS => "too many rows",
        6 | 13 if bad => "a bad row",
        13 if call.count > u64::from(u32::MAX) => "beyond 32 bits",
        14 if call.list.contains(&0) => "row 0",
        14 if call.list.iter().any(|row| *row > last) => "above",
        14 => "twice",
        _ => "",
    }
}

/// Which kind of accepted answer it is, or which reason a number has.
fn detail(call: &Call, answer: &Answer, before: &Lent) -> &'static str {
    let report = &answer.report;
    match (call.name, answer.number) {
        (Name::Read | Name::Visit, 0) => verdict_name(&report[VERDICT..]),
        (Name::VisitAround, 0) if call.list.is_empty() => verdict_name(&report[VERDICT..]),
        (Name::VisitAround, 0) => ["none", "clean", "mended", "lost"][report[VERDICT] as usize],
        (Name::VisitAround, number) => rows_name(call, number),
        (Name::Turn, 0) if report[ASK_VERDICT + 2] > 0 => "asked beyond",
        (Name::Turn, 0) if report[VERDICT + 2] > 0 => "beyond",
        (Name::Turn, 0) if report[ASK_VERDICT] == 0 => "alone",
        (Name::Turn, 0) if report[0] == report[ASK] => "twice",
        (Name::Turn, 0) => "asked",
        (Name::Ask, 0) if !before.record[5..][..before.record[4] as usize].contains(&call.block) => "new",
        (Name::Ask, 0) if before.record[4] == 16 => "again-full",
        (Name::Ask, 0) => "again",
        (Name::FileWrite, 0) if renews(call, before, answer.place) => "renewed",
        (Name::FileWrite, 0) if call.bytes == u64::from(answer.place) => "exact",
        (Name::FileWrite, 0) => "longer",
        (Name::FileLayout | Name::FileRead, 0 | 9) => version_name(before.file[0]),
        (Name::FileLayout | Name::FileRead, 10) if call.bytes < file::HEADER as u64 => "short",
        (Name::FileLayout | Name::FileRead, 10) => "field",
        (Name::FileLayout | Name::FileRead, 4) if file::uneven(&before.file, call.bytes) => "uneven",
        (Name::FileRead, 4) if file::refuse(&before.file, call.bytes) == 4 => "body",
        (Name::FileRead, 4) => "image",
        _ => "",
    }
}

/// How many rows a visit that is accepted goes around, by name.
fn named(call: &Call, answer: &Answer) -> &'static str {
    match (call.name, answer.number) {
        (Name::VisitAround, 0) => ["none ", "one ", "two ", "three "][call.list.len()],
        _ => "",
    }
}

/// The call, its number, and the detail.
pub fn kind(call: &Call, answer: &Answer, before: &Lent) -> String {
    let detail = dead(call, answer, before).unwrap_or_else(|| detail(call, answer, before));
    format!("{} {} {}{detail}", call.name.text(), answer.number, named(call, answer)).trim_end().to_string()
}

/// Every kind of answer that there is.
pub fn kinds() -> Vec<String> {
    let verdicts = ["0 clean", "0 mended", "0 lost even", "0 lost beyond", "0 lost both", "0 dead zeros", "0 dead ones"];
    let versions = ["0 version 1", "0 version 2", "11", "10 short", "9 version 0", "9 version 3", "9 version above", "10 field"];
    let ladders: [(&str, &[&str], &[&str]); 9] = [
        ("format", &[], &["0", "1", "2", "3", "4"]),
        ("write", &[], &["0", "1", "2", "3", "4", "6", "7"]),
        ("read", &verdicts, &["1", "2", "3", "4", "6", "7"]),
        ("visit", &verdicts, &["1", "2", "3", "4", "6"]),
        ("ask", &[], &["0 new", "0 again", "0 again-full", "1", "2", "3", "5", "6", "8"]),
        ("turn", &["0 alone", "0 asked", "0 twice", "0 beyond", "0 asked beyond", "0 dead zeros", "0 dead ones"], &["1", "2", "3", "4", "5"]),
        ("file_write", &["0 exact", "0 longer", "0 renewed"], &["1", "2", "3", "4", "11", "12"]),
        ("file_layout", &versions, &["1", "2", "3", "4", "4 uneven"]),
        ("file_read", &versions, &["1", "2", "3", "4 body", "4 uneven", "4 image"]),
    ];
    let mut kinds = Vec::new();
    for (name, first, then) in ladders {
        first.iter().chain(then).for_each(|answer| kinds.push(format!("{name} {answer}")));
    }
    BURSTS.iter().for_each(|answer| kinds.push(format!("visit {answer}")));
    if around::is_on() {
        AROUND.iter().chain(&AROUND_REFUSED).for_each(|answer| kinds.push(format!("visit_around {answer}")));
    }
    kinds
}

/// A stream of so many calls from a seed, into DIR/calls, DIR/expected and DIR/tally.
pub fn write(seed: u64, calls: u64, dir: &str) -> io::Result<()> {
    let open = |name: &str| File::create(format!("{dir}/{name}")).map(BufWriter::new);
    let mut stream = Stream { calls: open("calls")?, expected: open("expected")?, tally: Tally::new() };
    let mut r = Random::new(seed);
    let mut left = calls;
    while left > 0 {
        let length = u64::from(r.from_to(10, 60)).min(left);
        scene(&mut r, &mut stream, length)?;
        left -= length;
    }
    let mut tally = open("tally")?;
    for (kind, count) in &stream.tally {
        writeln!(tally, "{count} {kind}")?;
    }
    stream.calls.flush()?;
    stream.expected.flush()
}

/// Now and then, before a call: flips in the image, a block that dies, another record, bytes of the file overwritten, another file.
fn unsettle(r: &mut Random, stream: &mut Stream, at: Layout, lent: &mut Lent) -> io::Result<()> {
    let b = r.below(u64::from(at.blocks())) as u32;
    if r.chance(25) {
        let flips = generate::harm(r, at, b);
        flips.iter().for_each(|(index, bit)| lent.image[*index] ^= 1 << bit);
        stream.set(&text::flip_line(&flips))?;
    }
    if r.chance(2) {
        let puts = generate::death(r, at, b);
        puts.iter().for_each(|(index, word)| lent.image[*index] = *word);
        stream.set(&text::put_line(&puts))?;
    }
    if r.chance(15) {
        lent.record = generate::any_record(r, at);
        stream.set(&text::record_line(&lent.record))?;
    }
    if r.chance(8) {
        let spoilt = room::spoil(r, at, &lent.file);
        spoil(stream, lent, &spoilt)?;
    }
    if r.chance(2) {
        lent.file = room::any_room(r, at);
        stream.set(&text::file_line(&lent.file))?;
    }
    Ok(())
}

fn spoil(stream: &mut Stream, lent: &mut Lent, spoilt: &[Spoilt]) -> io::Result<()> {
    spoilt.iter().for_each(|(index, byte)| lent.file[*index] = *byte);
    stream.set(&text::spoil_line(spoilt))
}

/// The calls that `renew` makes.
const RENEWING: u64 = 5;

/// The image goes into a file, which is then called version 1, read, and written as version 2; twice, so that the image is what it was.
fn renew(stream: &mut Stream, at: Layout, lent: &mut Lent) -> io::Result<()> {
    let bytes = room::length(at) as u64;
    let call = |name| Call { bytes, ..at.call(name, 0) };
    for _ in 0..2 {
        stream.call(call(Name::FileWrite), lent)?;
        spoil(stream, lent, &[(0, OLD_VERSION)])?;
        stream.call(call(Name::FileRead), lent)?;
    }
    stream.call(call(Name::FileWrite), lent)
}

/// The most blocks of an image that is struck by a burst.
const STRUCK: u32 = 40;

/// Neighbouring words of an image of valid blocks are spoiled, up to s of them or s + 1, and every block is visited once, in any order.
/// The last visit is counted by what became of them all: the model too must find the image as it was after up to s words.
fn strike(r: &mut Random, stream: &mut Stream, at: Layout, lent: &mut Lent) -> io::Result<()> {
    let whole = generate::valid_image(r, at);
    lent.image = whole.clone();
    stream.set(&text::image_line(&lent.image))?;
    let wide = r.chance(50);
    let many = if wide { at.s + 1 } else { r.from_to(1, at.s) };
    let puts = generate::burst(r, at, &whole, many as usize);
    puts.iter().for_each(|(index, word)| lent.image[*index] = *word);
    stream.set(&text::put_line(&puts))?;
    let mut order: Vec<u32> = (0..at.blocks()).collect();
    for i in (1..order.len()).rev() {
        order.swap(i, r.below(i as u64 + 1) as usize);
    }
    let mut lost = false;
    for (i, block) in order.iter().enumerate() {
        let kind = stream.make(at.call(Name::Visit, *block), lent)?;
        lost |= kind.contains("lost") || kind.contains("dead");
        stream.count(if i + 1 < order.len() { kind } else { format!("visit 0 burst {}", became(wide, lost, lent.image == whole)) });
    }
    Ok(())
}

/// What became of a burst of up to s words, or of s + 1.
fn became(wide: bool, lost: bool, as_it_was: bool) -> &'static str {
    match (wide, lost, as_it_was) {
        (false, false, true) => "of up to s words, as it was",
        (true, false, true) => "of s + 1 words, as it was",
        (true, true, false) => "of s + 1 words, lost",
        _ => panic!("a burst was mended to something else"),
    }
}

/// What can become of one.
const BURSTS: [&str; 3] = ["0 burst of up to s words, as it was", "0 burst of s + 1 words, as it was", "0 burst of s + 1 words, lost"];

/// Rows of a block die, and a visit goes around rows that are named. Where it is known what the block was, a mend is counted by what
/// is most telling of it.
fn go_around(r: &mut Random, stream: &mut Stream, at: Layout, lent: &mut Lent) -> io::Result<()> {
    let Work { puts, call, whole } = around::any_work(r, at, lent);
    puts.iter().for_each(|(index, word)| lent.image[*index] = *word);
    stream.set(&text::put_line(&puts))?;
    let (rows, b) = (call.list.clone(), call.block);
    let found: Vec<u32> = puts.iter().map(|(_, word)| *word).collect();
    let kind = stream.make(call, lent)?;
    let mend = match whole {
        Some(whole) if kind.ends_with(" mended") && !rows.is_empty() => telling(&rows, &whole, &found, &store::words_at(&lent.image, at.shape, at.s, b)),
        _ => None,
    };
    stream.count(mend.map_or(kind, |mend| format!("visit_around {mend}")));
    Ok(())
}

/// What is told of a mend around rows: that it made another block than was written, or that a row of note had died, or how many bits it changed.
fn telling(rows: &[u32], whole: &[u32], found: &[u32], left: &[u32]) -> Option<&'static str> {
    let died = |row: usize| rows.contains(&(row as u32)) && found[row - 1] != left[row - 1];
    let inside: u32 = rows.iter().map(|row| *row as usize - 1).map(|k| (found[k] ^ left[k]).count_ones()).sum();
    let outside = (0..left.len()).any(|k| found[k] != left[k] && !rows.contains(&(k as u32 + 1)));
    match rows.len() {
        _ if left != whole => Some("0 mended to another block"),
        _ if died(1) => Some("0 mended row 1"),
        _ if died(2) => Some("0 mended row 2"),
        _ if died(left.len()) => Some("0 mended the last row"),
        1 if inside > 0 && outside => Some("0 mended inside and outside"),
        _ if inside > 32 => Some("0 mended above 32 bits"),
        _ => None,
    }
}

/// What a visit around rows can come to: by the rows named, and where they are known to have died.
const AROUND: [&str; 20] = [
    "0 none clean",
    "0 none mended",
    "0 none lost even",
    "0 none lost beyond",
    "0 none lost both",
    "0 one clean",
    "0 one mended",
    "0 one lost",
    "0 two clean",
    "0 two mended",
    "0 two lost",
    "0 three clean",
    "0 three mended",
    "0 three lost",
    "0 mended to another block",
    "0 mended row 1",
    "0 mended row 2",
    "0 mended the last row",
    "0 mended inside and outside",
    "0 mended above 32 bits",
];

const AROUND_REFUSED: [&str; 13] =
    ["1", "2", "3", "4", "6", "6 too many rows", "6 a bad row", "13", "13 a bad row", "13 beyond 32 bits", "14 row 0", "14 above", "14 twice"];

fn scene(r: &mut Random, stream: &mut Stream, length: u64) -> io::Result<()> {
    let at = generate::any_layout(r);
    let mut lent = Lent { image: generate::any_image(r, at), record: generate::any_record(r, at), file: room::any_room(r, at) };
    stream.set(&text::image_line(&lent.image))?;
    stream.set(&text::record_line(&lent.record))?;
    stream.set(&text::file_line(&lent.file))?;
    let mut left = length;
    while left > 0 {
        unsettle(r, stream, at, &mut lent)?;
        if r.chance(1) && left >= RENEWING && room::length(at) <= lent.file.len().min(LONGEST) {
            renew(stream, at, &mut lent)?;
            left -= RENEWING;
            continue;
        }
        if r.chance(1) && at.blocks() <= STRUCK && left >= u64::from(at.blocks()) {
            strike(r, stream, at, &mut lent)?;
            left -= u64::from(at.blocks());
            continue;
        }
        left -= 1;
        if around::is_on() && r.chance(15) {
            go_around(r, stream, at, &mut lent)?;
            continue;
        }
        let call = generate::any_call(r, at, &lent);
        stream.call(call, &mut lent)?;
    }
    Ok(())
}
