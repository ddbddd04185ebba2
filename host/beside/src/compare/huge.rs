//! Inputs at and past the greatest length, and past 2^32 bytes.
//!
//! The input is a pattern of 16 MiB mapped again and again (see `mapped`), so that it needs little memory. Each digest of some
//! four billion bytes takes half a minute or so. The oracle is fed once for each variant and asked at each length on the way.
use super::tally::Tally;
use beside::inputs::{Input, Kind};
use beside::mapped::Mapped;
use beside::oracle::{Answer, Fed};
use saltcurtain::{Variant, raw};
use std::process::ExitCode;
use std::sync::Mutex;
use std::sync::atomic::{AtomicUsize, Ordering};
use std::thread;
use std::time::Instant;

/// The greatest length that has a digest.
const MOST: usize = 4_224_281_216;

/// The number of bytes after which every further byte is ignored.
const STOP: usize = 1 << 32;

/// The size of the pattern.
const PATTERN: usize = 1 << 24;

/// What is asked of the port: variant, length, piece and options. Small pieces too, as the state is carried over at each.
const ASKED: [(Variant, usize, usize, u32); 12] = [
    (Variant::Normal, MOST - 1, 65_536, 0),
    (Variant::Normal, MOST, 0, 0),
    (Variant::Normal, MOST, 65_521, 2),
    (Variant::Normal, MOST + 1, 65_536, 0),
    (Variant::Normal, STOP - 1, 0, 31),
    (Variant::Normal, STOP, 1 << 20, 0),
    (Variant::Normal, STOP + 1, 0, 4),
    (Variant::Normal, STOP + 70_000, 65_536, 20),
    (Variant::Short, MOST, 65_536, 0),
    (Variant::Short, STOP + 10, 0, 0),
    (Variant::Long, MOST, 0, 0),
    (Variant::Long, STOP + 10, 65_536, 0),
];

/// The oracle's answers for one variant, in the order of `ASKED`.
fn oracle_of(variant: Variant, bytes: &[u8]) -> Vec<(usize, Answer)> {
    let mut asked: Vec<(usize, usize, u32)> = ASKED
        .iter()
        .enumerate()
        .filter(|(_, asked)| asked.0 == variant)
        .map(|(place, &(_, length, _, options))| (length, place, options))
        .collect();
    asked.sort_unstable();
    let mut fed = Fed::new(variant);
    let mut at = 0;
    let mut answers = Vec::new();
    for (length, place, options) in asked {
        fed.update(&bytes[at..length]);
        at = length;
        answers.push((place, fed.answer(options)));
    }
    answers
}

/// Runs it.
pub fn all(seed: u64, threads: usize) -> ExitCode {
    let begun = Instant::now();
    println!("beside: inputs at and past the greatest length, seed {seed}, {threads} threads");
    let pattern = Input::new(Kind::Gaps, seed, PATTERN);
    let mapped = Mapped::new(&pattern.bytes, STOP + PATTERN).expect("the pattern is mapped");
    let bytes = mapped.bytes();

    // The oracle's three feedings come first in the queue, then the port's digests.
    let answers: Mutex<Vec<Option<Answer>>> = Mutex::new(vec![None; ASKED.len()]);
    let seen: Mutex<Vec<Option<(u32, String)>>> = Mutex::new(vec![None; ASKED.len()]);
    let next = AtomicUsize::new(0);
    thread::scope(|scope| {
        for _ in 0..threads {
            scope.spawn(|| {
                loop {
                    let job = next.fetch_add(1, Ordering::Relaxed);
                    if let Some(&variant) = Variant::ALL.get(job) {
                        for (place, answer) in oracle_of(variant, bytes) {
                            answers.lock().expect("no thread stops here")[place] = Some(answer);
                        }
                    } else if let Some(&(variant, length, piece, options)) = ASKED.get(job - 3) {
                        let mut room = vec![b'.'; variant.text_len()];
                        let number = raw::digest_pieces(variant.number(), options, piece, &bytes[..length], &mut room);
                        let left = String::from_utf8_lossy(&room).into_owned();
                        seen.lock().expect("no thread stops here")[job - 3] = Some((number, left));
                    } else {
                        return;
                    }
                }
            });
        }
    });

    let mut tally = Tally::default();
    let answers = answers.into_inner().expect("no thread stops here");
    let seen = seen.into_inner().expect("no thread stops here");
    for ((asked, wanted), seen) in ASKED.iter().zip(answers).zip(seen) {
        let (variant, length, piece, options) = *asked;
        let (wanted, (number, left)) = (wanted.expect("it was asked"), seen.expect("it was asked"));
        let same = match &wanted {
            Ok(text) => number == 0 && left == *text,
            Err(refusal) => number == *refusal && left.bytes().all(|byte| byte == b'.'),
        };
        println!("{variant:?} {length} bytes, pieces of {piece}, options {options}: {number} {left}");
        tally.case(number, same, || format!("  should    {wanted:?}"));
    }
    tally.print_differences(usize::MAX, "in huge");
    println!(
        "beside: {}, {} differences that are not listed, {:.1} s",
        tally,
        tally.differences,
        begun.elapsed().as_secs_f64()
    );
    super::verdict(tally.differences == 0)
}
