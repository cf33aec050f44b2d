//! `lines`: inputs for `sheetlog`, drawn from a seed.
//!
//! - `lines calls SEED N OPTION`: the calls of one watcher's replica of a simulated group of N
//!   members; OPTION is calm, typical, split, rough or wild.
//! - `lines near SEED COUNT`: lines that are of the form or miss it by a little.
//! - `lines bytes SEED COUNT`: that many bytes of any kind.

use std::io::{stdout, BufWriter, Write};
use std::process::ExitCode;

use reference::layout::{near_sizes, EARLIER_RECORD_WORDS, RECORD_WORDS};
use reference::line::spaced;
use reference::rng::Rng;
use reference::simulate::{simulate, Options};

const USAGE: &str =
    "usage: lines calls SEED N OPTION | lines near SEED COUNT | lines bytes SEED COUNT";

fn main() -> ExitCode {
    let words: Vec<String> = std::env::args().skip(1).collect();
    let words: Vec<&str> = words.iter().map(String::as_str).collect();
    let Some(bytes) = draw(&words) else {
        eprintln!("{USAGE}");
        return ExitCode::FAILURE;
    };
    let mut output = BufWriter::new(stdout().lock());
    match output.write_all(&bytes).and_then(|()| output.flush()) {
        Ok(()) => ExitCode::SUCCESS,
        Err(error) => {
            eprintln!("lines: {error}");
            ExitCode::FAILURE
        }
    }
}

fn draw(words: &[&str]) -> Option<Vec<u8>> {
    match *words {
        ["calls", seed, n, option] => calls(seed.parse().ok()?, n.parse().ok()?, &options(option)?),
        ["near", seed, count] => Some(near(seed.parse().ok()?, count.parse().ok()?)),
        ["bytes", seed, count] => Some(bytes(seed.parse().ok()?, count.parse().ok()?)),
        _ => None,
    }
}

fn options(name: &str) -> Option<Options> {
    match name {
        "calm" => Some(Options::calm()),
        "typical" => Some(Options::typical()),
        "split" => Some(Options::split()),
        "rough" => Some(Options::rough()),
        "wild" => Some(Options::wild()),
        _ => None,
    }
}

/// Calls that lines stand for: none of our own, no bundles, and no pending buffers.
fn calls(seed: u64, n: u32, options: &Options) -> Option<Vec<u8>> {
    let watchers = Options {
        members: 0,
        bundles: 0,
        buffers: 0,
        ..options.clone()
    };
    let run = simulate(seed, n, &watchers);
    let calls = run.replicas.first()?;
    Some(
        calls
            .iter()
            .flat_map(|call| (call.line() + "\n").into_bytes())
            .collect(),
    )
}

/// Lines of every letter and word count, many near those of a record and of one in earlier documents; one
/// in two of them changed at some bytes.
fn near(seed: u64, count: usize) -> Vec<u8> {
    let mut rng = Rng::new(seed);
    let mut output = Vec::new();
    for _ in 0..count {
        let mut line = near_line(&mut rng);
        if rng.percent(50) {
            change(&mut rng, &mut line);
        }
        output.extend(line);
        output.push(b'\n');
    }
    output
}

fn near_line(rng: &mut Rng) -> Vec<u8> {
    let record = RECORD_WORDS as u32;
    let letters = [
        ('O', 1),
        ('V', record),
        ('F', record),
        ('T', 2),
        ('N', 2),
        ('L', 1),
    ];
    let (letter, wanted) = letters[rng.below(6) as usize];
    let near = near_sizes(&[&EARLIER_RECORD_WORDS[..], &[RECORD_WORDS]].concat());
    let near = rng.pick(&near).map_or(0, |&size| size as u32);
    let length = match rng.below(10) {
        0 => rng.below(record + 3),
        1 => near,
        _ => wanted,
    };
    let words: Vec<u32> = (0..length).map(|_| near_word(rng)).collect();
    spaced(letter, &words).into_bytes()
}

fn near_word(rng: &mut Rng) -> u32 {
    match rng.below(4) {
        0 => rng.below(3),
        1 => rng.below(40),
        2 => u32::MAX - rng.below(3),
        _ => rng.word() >> rng.below(32),
    }
}

/// Changes, removes or adds up to three bytes.
fn change(rng: &mut Rng, line: &mut Vec<u8>) {
    for _ in 0..=rng.below(3) {
        let at = rng.below(line.len() as u32 + 1) as usize;
        let byte = [
            b' ', b'0', b'9', b'/', b':', b'+', b'-', b'\r', b'\t', 0, 255,
        ][rng.below(11) as usize];
        match rng.below(3) {
            0 => line.insert(at, byte),
            1 if at < line.len() => line[at] = byte,
            _ if at < line.len() => {
                line.remove(at);
            }
            _ => line.push(byte),
        }
    }
}

/// Bytes of any kind; one in eight is a line feed.
fn bytes(seed: u64, count: usize) -> Vec<u8> {
    let mut rng = Rng::new(seed);
    (0..count)
        .map(|_| {
            if rng.below(8) == 0 {
                b'\n'
            } else {
                rng.below(256) as u8
            }
        })
        .collect()
}
