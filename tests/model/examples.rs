//! The specification's own examples, and its claims about the code, run on the model.

use crate::around;
use crate::block::{self, Outcome};
use crate::file;
use crate::lane::{self, Finding, Lane};
use crate::patrol;
use crate::random::Random;
use crate::store;

/// The words of a stored block: the rows named hold these words of the code and the others zero, and rows 1 and 2 stand complemented.
fn rows(shape: u32, named: &[(usize, u32)]) -> Vec<u32> {
    let mut words = vec![0; block::rows(shape)];
    named.iter().for_each(|(row, word)| words[row - 1] = *word);
    (words[0], words[1]) = (words[0] ^ 0xffff_ffff, words[1] ^ 0xffff_ffff);
    words
}

fn data(shape: u32, word: usize, value: u32) -> Vec<u32> {
    let mut data = vec![0; block::data_words(shape)];
    data[word - 1] = value;
    data
}

fn all(shape: u32, named: &[usize], word: u32) -> Vec<u32> {
    rows(shape, &named.iter().map(|row| (*row, word)).collect::<Vec<_>>())
}

/// The words that a write leaves in an image of one block.
fn written(shape: u32, data: &[u32]) -> Vec<u32> {
    let mut image = vec![0x5a5a_5a5a; block::rows(shape)];
    let words = image.len() as u64;
    assert_eq!(store::write(&mut image, words, shape, 1, 1, 0, data), 0);
    image
}

/// What a visit says of an image of one block, and the words that it leaves.
fn visited(before: &[u32]) -> (Outcome, Vec<u32>) {
    let mut image = before.to_vec();
    let shape = if image.len() == 16 { 1 } else { 2 };
    let (number, outcome) = store::visit(&mut image, before.len() as u64, shape, 1, 1, 0);
    assert_eq!(number, 0);
    (outcome, image)
}

fn mends(count: u32, before: Vec<u32>, after: Vec<u32>) {
    assert_eq!(visited(&before), (Outcome { verdict: 2, count, beyond: 0 }, after));
}

fn loses(count: u32, beyond: u32, before: Vec<u32>) {
    assert_eq!(visited(&before), (Outcome { verdict: 3, count, beyond }, before));
}

fn writing() {
    assert_eq!(written(1, &data(1, 1, 1)), all(1, &[1, 2, 3, 16], 1));
    assert_eq!(written(1, &data(1, 11, 0x8000_0000)), all(1, &[1, 2, 4, 8, 15, 16], 0x8000_0000));
    assert_eq!(written(1, &[u32::MAX; 11]), all(1, &(1..=16).collect::<Vec<_>>(), u32::MAX));
    assert_eq!(written(2, &[u32::MAX; 64]), all(2, &(1..=72).collect::<Vec<_>>(), u32::MAX));
    assert_eq!(written(2, &data(2, 64, 1)), all(2, &[1, 2, 4, 64, 71, 72], 1));
}

fn visiting() {
    mends(1, rows(1, &[(5, 1)]), rows(1, &[]));
    mends(32, rows(1, &[(16, u32::MAX)]), rows(1, &[]));
    loses(1, 0, all(1, &[3, 5], 1));
    mends(2, rows(1, &[(3, 1), (5, 2)]), rows(1, &[]));
    loses(1, 0, rows(1, &[(3, 1), (5, 1), (9, 2)]));
    mends(1, all(1, &[1, 2, 4], 1), all(1, &[1, 2, 4, 7], 1));
    loses(0, 1, all(2, &[1, 9, 64], 1));
    loses(1, 2, rows(2, &[(1, 6), (9, 6), (64, 6), (3, 1), (5, 1)]));
}

/// A visit of an image of one block around these rows: what it must say, and the words that it must leave.
fn goes_around(named: &[u32], says: [u32; 3], before: Vec<u32>, after: Vec<u32>) {
    let mut image = before.clone();
    let shape = if image.len() == 16 { 1 } else { 2 };
    let (number, outcome) = store::visit_around(&mut image, before.len() as u64, [shape, 1, 1], 0, named, named.len() as u64);
    assert_eq!((number, outcome.words(), image), (0, says, after));
}

fn going_around() {
    for shape in [1, 2] {
        let last = block::rows(shape);
        let whole = rows(shape, &[]);
        goes_around(&[], [1, 0, 0], whole.clone(), whole.clone());
        goes_around(&[], [2, 0, 1], rows(shape, &[(5, 1)]), whole.clone());
        goes_around(&[], [3, 1, 0], all(shape, &[3, 5], 1), all(shape, &[3, 5], 1));
        goes_around(&[last as u32], [2, 32, 1], rows(shape, &[(last, u32::MAX), (5, 1)]), whole.clone());
        goes_around(&[2, last as u32, 1], [2, 96, 0], all(shape, &[1, 2, last], u32::MAX), whole.clone());
        goes_around(&[9, 3], [2, 33, 0], rows(shape, &[(3, 1), (9, u32::MAX)]), whole.clone());
        goes_around(&[9, 3], [3, 2, 0], rows(shape, &[(5, 6), (9, u32::MAX)]), rows(shape, &[(5, 6), (9, u32::MAX)]));
        goes_around(&[1, 2, 4], [1, 0, 0], whole.clone(), whole.clone());
        goes_around(&[1, 2, 4], [2, 3, 0], rows(shape, &[(7, 1)]), all(shape, &[1, 2, 4, 7], 1));
        goes_around(&[6], [2, 1, 1], all(shape, &[3, 5], 1), all(shape, &[3, 5, 6, last], 1));
    }
    goes_around(&[8], [3, 1, 0], all(2, &[64, 72], 1), all(2, &[64, 72], 1));
}

/// The refusals of a visit around rows, in their order.
fn refusing_rows() {
    let refused = |shape, rows: &[u32]| store::refuse_rows(shape, rows, rows.len() as u64);
    assert_eq!([refused(1, &[]), refused(1, &[16, 1, 2]), refused(2, &[72, 71, 17])], [0; 3]);
    assert_eq!([refused(1, &[0]), refused(1, &[17]), refused(2, &[73]), refused(2, &[3, u32::MAX]), refused(1, &[5, 2, 5])], [14; 5]);
    assert_eq!([refused(1, &[1, 2, 3, 4]), refused(1, &[0, 0, 0, 99]), refused(2, &[7; 100])], [13; 3]);
    assert_eq!(store::refuse_around(16, 1, 1, 1, 1, &[0; 4], 4), 6);
    assert_eq!(store::refuse_around(15, 1, 1, 1, 1, &[0; 4], 4), 4);
}

/// Around rows that died there is one way, the lane that was; around none the way is the search's. The trial does find a second way where
/// there is one: around four rows that can answer for each other.
fn ways_of_lanes(r: &mut Random) {
    for shape in [1, 2] {
        let data: Vec<u32> = (0..block::data_words(shape)).map(|_| r.word()).collect();
        let whole = block::lane_of(&block::valid_block(shape, &data), 3);
        assert_eq!(lane::ways(&whole, &[1, 2, 3, lane::last(&whole)]).len(), 2);
        for rows in 1..=3 {
            let mut named: Vec<usize> = (0..rows).map(|_| r.from_to(1, lane::last(&whole) as u32) as usize).collect();
            named.sort_unstable();
            named.dedup();
            let mut found = whole.clone();
            named.iter().for_each(|row| found[*row] = r.chance(50));
            assert_eq!(lane::ways(&found, &named), vec![whole.clone()]);
            let mut mended = found.clone();
            let lost = match lane::search(&found) {
                Finding::Flipped(row) => {
                    mended[row] = !mended[row];
                    false
                }
                finding => finding != Finding::Valid,
            };
            assert_eq!(lane::around(&found, &[]), if lost { None } else { Some(mended) });
        }
    }
}

/// A dead chip reads all zeros or all ones: 32 lost lanes, all even. A fresh block has ones in rows 1 and 2 alone, and reads as zeros.
fn dead_and_fresh() {
    for shape in [1, 2] {
        let words = block::rows(shape);
        loses(32, 0, vec![0; words]);
        loses(32, 0, vec![u32::MAX; words]);
        let mut image = vec![7; 6 * words];
        store::format(&mut image, 6 * words as u64, shape, 3, 2);
        let ones = |k: usize| (k / 3) % words < 2;
        assert!((0..image.len()).all(|k| image[k] == if ones(k) { 0xffff_ffff } else { 0 }));
        let mut buffer = vec![7; block::data_words(shape)];
        let (_, outcome) = store::read(&image, 6 * words as u64, shape, 3, 2, 4, &mut buffer);
        assert_eq!((outcome.verdict, buffer), (1, vec![0; block::data_words(shape)]));
    }
}

fn layout() {
    assert_eq!((store::index(2, 6, 7, 1), store::index(2, 6, 7, 72)), (433, 859));
    assert_eq!(store::refuse_layout(1, 16, 256), 0);
    assert_eq!(store::refuse_layout(1, 16, 257), 3);
    assert_eq!((store::refuse_layout(1, 0, 1), store::refuse_layout(1, 17, 1)), (2, 2));
}

fn asking() {
    let mut image = vec![0; 48];
    let (_, record) = store::format(&mut image, 48, 1, 1, 3);
    let (_, first, record) = patrol::ask(record, 2);
    let (_, again, record) = patrol::ask(record, 2);
    let (_, report, record) = patrol::turn(record, &mut image, 48);
    let (_, next, _) = patrol::turn(record, &mut image, 48);
    assert_eq!((first, again), (1, 1));
    assert_eq!((report[0].0, report[1].0, report[1].1.verdict), (0, 2, 1));
    assert_eq!((next[0].0, next[1].0, next[1].1.verdict), (1, 0, 0));
}

fn full_list() {
    let mut image = vec![0; 16 * 20];
    let (_, mut record) = store::format(&mut image, 320, 1, 1, 20);
    for b in 0..16 {
        record = patrol::ask(record, b).2;
    }
    assert_eq!(patrol::ask(record, 16), (8, 0, record));
    let record = patrol::turn(record, &mut image, 320).2;
    assert_eq!(patrol::ask(record, 16).1, 16);
}

/// The sample run, a version 1 file, prints what it printed; so does the version 2 file of the same store.
fn sample_run() {
    let mut old = vec![1, 0, 0, 0, 0x44, 1, 1, 0, 1];
    (1..=16).for_each(|row| old.extend([0, 0, 0, if row == 3 { 1 } else { 0 }]));
    let text = "image shape 1 interleave 1 groups 1 blocks 1\nblock 0 mended 1\ntotal clean 0 mended 1 lost 0 bits 1\n";
    assert_eq!((old.len(), file::inspect(&old)), (73, text.to_string()));
    let image = rows(1, &[(3, 1)]);
    assert_eq!((file::old_file_of([1, 1, 1], &image), file::inspect(&file::file_of([1, 1, 1], &image))), (old, text.to_string()));
}

/// Version 1 is read and written as version 2, version 2 gives the same bytes again, and any other is refused.
fn versions() {
    let words: Vec<u32> = (0..32).map(|k| k * 0x0101_0101).collect();
    let image: Vec<u32> = (0..32).map(|k| if k < 4 { !words[k] } else { words[k] }).collect();
    for (version, held) in [(1, &image), (2, &words)] {
        let file = file::bytes_of(version, [1, 2, 1], &words);
        let mut taken = vec![7; 32];
        assert_eq!(file::read(&file, 137, &mut taken, 32), (0, [1, 2, 1]));
        assert_eq!(&taken, held);
        let mut again = vec![7; 137];
        assert_eq!(file::write(&taken, 32, [1, 2, 1], &mut again, 137), (0, 137));
        assert_eq!(again, file::bytes_of(2, [1, 2, 1], held));
    }
    for version in (0..=255).filter(|version| *version != 1 && *version != 2) {
        assert_eq!(file::layout(&file::bytes_of(version, [1, 2, 1], &words), 137), (9, [0; 3]));
    }
    assert!(file::inspect(&file::bytes_of(2, [1, 1, 1], &[0; 16])).contains("\nblock 0 lost 32 0\n"));
    assert!(file::inspect(&file::bytes_of(1, [1, 1, 1], &[0; 16])).contains("\nblock 0 clean 0\n"));
}

/// The largest files that there are, one block more, and a buffer that is just too short.
fn file_edges() {
    let write = |shape, s, g, short: u64| {
        let image = vec![7; block::rows(shape) * (s * g) as usize];
        let mut file = vec![0; 40000];
        let bytes = (file::HEADER + 4 * image.len()) as u64 - short;
        let written = file::write(&image, image.len() as u64, [shape, s, g], &mut file, bytes);
        (written, file::layout(&file, u64::from(written.1)))
    };
    assert_eq!(write(1, 1, 511, 0), ((0, 32713), (0, [1, 1, 511])));
    assert_eq!(write(1, 7, 73, 0), ((0, 32713), (0, [1, 7, 73])));
    assert_eq!(write(2, 1, 113, 0), ((0, 32553), (0, [2, 1, 113])));
    assert_eq!(write(1, 1, 512, 0), ((11, 0), (10, [0; 3])));
    assert_eq!(write(2, 1, 114, 0), ((11, 0), (10, [0; 3])));
    assert_eq!(write(1, 1, 1, 1), ((12, 0), (10, [0; 3])));
}

/// The search for a valid lane agrees with the five lines on random lanes and on lanes with few ones.
fn decision(r: &mut Random) {
    for shape in [1, 2] {
        for _ in 0..3000 {
            let mut lane: Lane = vec![false; block::rows(shape) + 1];
            let few = r.chance(50);
            for row in 1..lane.len() {
                lane[row] = if few { r.chance(4) } else { r.chance(50) };
            }
            assert_eq!(lane::search(&lane), lane::decide(&lane));
        }
    }
}

/// Of all settings of the check rows exactly one is valid, and it is the one that a write stores.
fn one_valid_block(r: &mut Random) {
    for shape in [1, 2] {
        let data: Vec<u32> = (0..block::data_words(shape)).map(|_| r.word()).collect();
        let block = block::valid_block(shape, &data);
        let checks = block::check_rows(shape);
        let lane = block::lane_of(&block, 7);
        let mut valid = Vec::new();
        for setting in 0..1usize << checks.len() {
            let mut tried = lane.clone();
            checks.iter().enumerate().for_each(|(k, row)| tried[*row] = (setting >> k) % 2 == 1);
            if lane::valid(&tried) {
                valid.push(tried);
            }
        }
        assert_eq!(valid, vec![lane]);
    }
}

pub fn run() {
    writing();
    visiting();
    going_around();
    refusing_rows();
    dead_and_fresh();
    layout();
    asking();
    full_list();
    sample_run();
    versions();
    file_edges();
    let mut r = Random::new(1);
    decision(&mut r);
    for _ in 0..20 {
        one_valid_block(&mut r);
        if around::is_on() {
            ways_of_lanes(&mut r);
        }
    }
    println!("model: the specification's examples hold");
}
