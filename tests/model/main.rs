//! An implementation of the specification that shares nothing with the library, and random work for the library made by it.
//!
//!   model examples                     runs the specification's examples on the model itself
//!   model stream SEED CALLS DIR        DIR/calls, DIR/expected, DIR/tally
//!   model tally                        sums tallies from standard input, and fails where a kind of answer is too rare
//!   model files SEED COUNT DIR         DIR/K.image, DIR/K.expected
//!   model old SEED COUNT DIR           the same of version 1 files that are not refused
//!   model inspect                      what the inspecting program must print of the file on standard input
//!   model vectors SEED COUNT AROUND    to standard output, in the form of tests/VECTORS.md: any calls, then visits around rows

mod around;
mod block;
mod call;
mod examples;
mod file;
mod files;
mod generate;
mod lane;
mod patrol;
mod random;
mod room;
mod store;
mod stream;
mod text;
mod vectors;

use std::io::{self, BufRead, Read};
use std::process::exit;

/// One call in so many must be of each kind of answer; fewer calls than these are not held to it.
const RAREST: u64 = 5000;
const FEW: u64 = 100_000;

/// Sums the lines `COUNT KIND`, prints them, and says whether each kind came often enough.
fn tally() -> io::Result<bool> {
    let mut sums = stream::Tally::new();
    for line in io::stdin().lock().lines() {
        let line = line?;
        if let Some((count, kind)) = line.split_once(' ') {
            *sums.entry(kind.to_string()).or_default() += count.parse::<u64>().unwrap_or(0);
        }
    }
    let total: u64 = sums.values().sum();
    let mut enough = true;
    for kind in stream::kinds() {
        let count = sums.remove(&kind).unwrap_or(0);
        let rare = total >= FEW && count * RAREST < total;
        println!("{count:9} {kind}{}", if rare { "   TOO RARE" } else { "" });
        enough &= !rare;
    }
    for (kind, count) in sums {
        println!("{count:9} {kind}   NOT A KIND OF ANSWER");
        enough = false;
    }
    println!("{total:9} calls");
    Ok(enough)
}

fn number(text: &str) -> u64 {
    text.parse().unwrap_or_else(|_| {
        eprintln!("model: not a number: {text}");
        exit(2)
    })
}

fn inspect() -> io::Result<()> {
    let mut bytes = Vec::new();
    io::stdin().lock().read_to_end(&mut bytes)?;
    print!("{}", file::inspect(&bytes));
    Ok(())
}

fn main() -> io::Result<()> {
    let words: Vec<String> = std::env::args().skip(1).collect();
    match words.iter().map(String::as_str).collect::<Vec<_>>()[..] {
        ["examples"] => examples::run(),
        ["stream", seed, calls, dir] => stream::write(number(seed), number(calls), dir)?,
        ["tally"] => exit(if tally()? { 0 } else { 1 }),
        ["files", seed, count, dir] => files::write(number(seed), number(count), dir)?,
        ["old", seed, count, dir] => files::write_old(number(seed), number(count), dir)?,
        ["inspect"] => inspect()?,
        ["vectors", seed, count, around] => vectors::write(number(seed), number(count) as usize, number(around) as usize)?,
        _ => {
            eprintln!("usage: model examples | stream SEED CALLS DIR | tally | files SEED COUNT DIR | old SEED COUNT DIR | inspect | vectors SEED N AROUND");
            exit(2);
        }
    }
    Ok(())
}
