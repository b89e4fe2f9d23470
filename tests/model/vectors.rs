//! Calls on tiny images with the model's answers, as big-endian 32-bit words; tests/VECTORS.md has the form.

use std::io::{self, BufWriter, Write};

use crate::around;
use crate::call::{self, Call, Lent, Name};
use crate::generate::{self, Layout};
use crate::random::Random;
use crate::room;

/// No vector lends a longer image or list, and no vector of a file a longer image or more bytes.
const MOST_IMAGE: u64 = 145;
const MOST_LIST: usize = 65;
const MOST_FILE_IMAGE: u64 = 72;
const MOST_BYTES: u64 = 300;

/// The image as it is lent: cut off, or longer by words that the call must not touch.
fn lent_image(image: &[u32], words: u64) -> Vec<u32> {
    let mut lent = image.to_vec();
    lent.resize(words as usize, 0x5a5a_5a5a);
    lent
}

fn fits(call: &Call) -> bool {
    let most = if call.name.takes_file() { MOST_FILE_IMAGE } else { MOST_IMAGE };
    let told = call.name != Name::VisitAround || call.count == call.list.len() as u64;
    (!call.name.takes_image() || call.words <= most) && call.list.len() <= MOST_LIST && told && call.bytes <= MOST_BYTES
}

/// The data, the buffer, the rows named, or the bytes of the file, one a word.
fn lent_list(call: &Call, lent: &Lent) -> Vec<u32> {
    if call.name.takes_file() {
        return lent.file[..call.bytes as usize].iter().map(|byte| u32::from(*byte)).collect();
    }
    call.list.clone()
}

/// One vector, or none where the call lends more than a vector holds.
fn vector(mut call: Call, lent: &mut Lent) -> Option<Vec<u32>> {
    if !fits(&call) {
        return None;
    }
    let words = if call.name.takes_image() { call.words } else { 0 };
    let layout = if call.name.takes_layout() { [call.shape, call.s, call.g] } else { [0; 3] };
    let block = if call.name.takes_file() { 0 } else { call.block };
    let record_words = if call.name.takes_record() { 21 } else { 0 };
    let list = lent_list(&call, lent);
    let mut v = vec![0, call.name as u32 + 1];
    v.extend(layout);
    v.extend([block, words as u32, list.len() as u32, record_words as u32]);
    v.extend(lent_image(&lent.image, words));
    v.extend(list);
    v.extend(&lent.record[..record_words]);
    let answer = call::run(&mut call, lent);
    v.push(answer.number);
    v.extend(answer.report);
    v.push(answer.place);
    v.extend(lent_image(&lent.image, words));
    v.extend(lent_list(&call, lent));
    v.extend(&lent.record[..record_words]);
    v[0] = v.len() as u32 - 1;
    Some(v)
}

fn scene(r: &mut Random, at: Layout, vectors: &mut Vec<Vec<u32>>) {
    let mut lent = Lent { image: generate::any_image(r, at), record: generate::any_record(r, at), file: room::any_room(r, at) };
    for _ in 0..12 {
        if r.chance(35) {
            let b = r.below(u64::from(at.blocks())) as u32;
            generate::harm(r, at, b).iter().for_each(|(index, bit)| lent.image[*index] ^= 1 << bit);
        }
        if r.chance(4) {
            let b = r.below(u64::from(at.blocks())) as u32;
            generate::death(r, at, b).iter().for_each(|(index, word)| lent.image[*index] = *word);
        }
        if r.chance(25) {
            lent.record = generate::any_record(r, at);
        }
        if r.chance(15) {
            room::spoil(r, at, &lent.file).iter().for_each(|(index, byte)| lent.file[*index] = *byte);
        }
        let call = generate::any_call(r, at, &lent);
        vectors.extend(vector(call, &mut lent));
    }
}

/// Asks lend no image, so their records may be of any layout, with full lists.
fn ask_scene(r: &mut Random, vectors: &mut Vec<Vec<u32>>) {
    let at = generate::any_layout(r);
    let mut lent = Lent { image: Vec::new(), record: generate::any_record(r, at), file: Vec::new() };
    for _ in 0..12 {
        let call = generate::any_call(r, at, &lent);
        if call.name == Name::Ask {
            vectors.extend(vector(call, &mut lent));
        }
    }
}

/// Calls on a file of either version that is whole, or spoilt in a way or two.
fn file_scene(r: &mut Random, at: Layout, vectors: &mut Vec<Vec<u32>>) {
    for _ in 0..6 {
        let mut file = room::any_file(r, at);
        file.resize(file.len() + r.pick(&[0, 0, 1, 3, 30]), r.word() as u8);
        if r.chance(65) {
            room::spoil(r, at, &file).iter().for_each(|(index, byte)| file[*index] = *byte);
        }
        let mut lent = Lent { image: generate::any_image(r, at), record: generate::any_record(r, at), file };
        let call = generate::any_call(r, at, &lent);
        if call.name.takes_file() {
            vectors.extend(vector(call, &mut lent));
        }
    }
}

/// Visits around rows, of one image after another.
fn around_scene(r: &mut Random, vectors: &mut Vec<Vec<u32>>) {
    let at = generate::tiny_layout(r);
    let mut lent = Lent { image: generate::any_image(r, at), record: [0; 21], file: Vec::new() };
    for _ in 0..8 {
        let work = around::any_work(r, at, &lent);
        work.puts.iter().for_each(|(index, word)| lent.image[*index] = *word);
        vectors.extend(vector(work.call, &mut lent));
    }
}

/// So many vectors of any calls from a seed, then so many visits around rows, which have random numbers of their own so that the
/// others stay the same, to standard output, and a word 0 at their end.
pub fn write(seed: u64, count: usize, around: usize) -> io::Result<()> {
    let mut r = Random::new(seed);
    let mut vectors = Vec::new();
    while vectors.len() < count {
        let at = generate::tiny_layout(&mut r);
        scene(&mut r, at, &mut vectors);
        file_scene(&mut r, at, &mut vectors);
        ask_scene(&mut r, &mut vectors);
    }
    vectors.truncate(count);
    let mut r = Random::new(!seed);
    while vectors.len() < count + around {
        around_scene(&mut r, &mut vectors);
    }
    let mut out = BufWriter::new(io::stdout().lock());
    for word in vectors[..count + around].iter().flatten().chain(&[0]) {
        out.write_all(&word.to_be_bytes())?;
    }
    out.flush()
}
