//! `bench`: the port, the Rust and the C++ in one process, in turns, on the same inputs.
//!
//! `bench run [PART]` prints a line for each workload, or for those whose names have that part: its name, the bytes of a call, and
//! the nanoseconds of a call for each side, each the median of several turns. They are the thread's own time, so that what else runs
//! on the machine disturbs little. `bench summary` reads such lines of several processes and prints medians and ratios. bench.sh
//! does both.
//!
//! What is warm and what is cleared: each input is made and read before it is measured. Inputs to 64 KiB are digested again and
//! again, so they are in the nearest caches; 16 MiB and the nine thousand reports (36 MB) are read from front to end each time, so
//! they come from the last cache or from memory. Every call starts from a fresh state, and making and clearing that is part of the
//! call on each side; for the C++ it is also taken from the heap. The destinations are not cleared between the calls.
use beside::inputs::{Input, Kind};
use beside::random::Random;
use beside::{judge, oracle, timed};
use saltcurtain::{Digest, Options, Variant, raw};
use std::cell::RefCell;
use std::ffi::c_int;
use std::hint::black_box;
use std::process::ExitCode;
use std::{env, io};

/// Turns in which each side is measured.
const TURNS: usize = 9;

/// How long a side is measured in one turn, at least: nanoseconds.
const LEAST: f64 = 3e6;

/// The sides, in the order in which they are printed.
const SIDES: [&str; 3] = ["port", "rust", "c++"];

/// A side: one call of it, which says whether there was an answer.
type Side<'a> = Box<dyn FnMut() -> bool + 'a>;

/// Nanoseconds for which this thread has run.
fn own_time() -> f64 {
    const OF_THE_THREAD: c_int = 3;
    unsafe extern "C" {
        fn clock_gettime(clock: c_int, time: *mut [i64; 2]) -> c_int;
    }
    let mut time = [0; 2];
    // SAFETY: a time is two numbers of 64 bits on this machine: seconds and nanoseconds.
    let failed = unsafe { clock_gettime(OF_THE_THREAD, &mut time) };
    assert_eq!(failed, 0);
    time[0] as f64 * 1e9 + time[1] as f64
}

/// Nanoseconds of a call, for each side: the median of the turns. The side that begins changes from turn to turn.
fn measure(sides: &mut [Side]) -> Vec<f64> {
    let time = |side: &mut Side, calls: u32| {
        let begun = own_time();
        for _ in 0..calls {
            assert!(black_box(side()), "a side has no answer for this workload");
        }
        own_time() - begun
    };
    let mut calls = 1;
    while time(&mut sides[0], calls) < LEAST {
        calls *= 2;
    }
    let mut seen = vec![Vec::new(); sides.len()];
    for turn in 0..TURNS {
        for place in 0..sides.len() {
            let place = (place + turn) % sides.len();
            if calls > 1 {
                time(&mut sides[place], 1);
            }
            let took = time(&mut sides[place], calls);
            seen[place].push(took / f64::from(calls));
        }
    }
    seen.into_iter().map(median).collect()
}

/// The middle one, or the middle of the two middle ones.
fn median(mut of: Vec<f64>) -> f64 {
    of.sort_unstable_by(f64::total_cmp);
    let half = of.len() / 2;
    if of.len() % 2 == 1 { of[half] } else { (of[half - 1] + of[half]) / 2.0 }
}

/// Measures a workload and prints its line, where it was asked for; whether it was.
fn work(name: &str, bytes: usize, mut sides: Vec<Side>) -> bool {
    if !name.contains(&env::args().nth(2).unwrap_or_default()) {
        return false;
    }
    print!("{name} {bytes}");
    for (side, time) in SIDES.iter().zip(measure(&mut sides)) {
        print!(" {side}={time:.1}");
    }
    println!();
    true
}

/// Digests of all the inputs, one after the other. A `piece` of 0 is the one-shot digest.
fn digests(name: &str, variant: Variant, piece: usize, inputs: &[Vec<u8>]) {
    let bytes = inputs.iter().map(Vec::len).sum();
    let number = variant.number();
    let room = RefCell::new([0u8; 136]);
    let port = |input: &Vec<u8>| {
        let room = &mut room.borrow_mut()[..];
        match piece {
            0 => raw::digest(number, 0, black_box(input), room) == 0,
            _ => raw::digest_pieces(number, 0, piece, black_box(input), room) == 0,
        }
    };
    let rust = |input: &Vec<u8>| oracle::digest_into(variant, piece, black_box(input), &mut room.borrow_mut()[..]);
    let second = |input: &Vec<u8>| judge::digest(black_box(input), &mut [0; judge::SIZE]);
    let mut sides: Vec<Side> = vec![Box::new(|| inputs.iter().all(port)), Box::new(|| inputs.iter().all(rust))];
    if variant == Variant::Normal && piece == 0 && judge::MISSING.is_none() {
        sides.push(Box::new(|| inputs.iter().all(second)));
    }
    work(name, bytes, sides);
}

/// A text written, a text read, and both.
fn texts(variant: Variant, input: &[u8]) {
    let mut text = [0; 136];
    assert_eq!(raw::digest(variant.number(), 0, input, &mut text), 0);
    let text = &text[..variant.text_len()];
    if timed::MISSING.is_none() {
        writes(variant, text);
        reads(variant, text);
    }
    rewrites(variant, text);
}

/// A text written. Both sides are lent the digest.
fn writes(variant: Variant, text: &[u8]) {
    let (port, rust) = (timed::read(variant.number(), text), oracle::Held::new(variant, text).expect("a good text"));
    let (mut one, mut two) = ([0; 136], [0; 136]);
    let sides: Vec<Side> =
        vec![Box::new(|| timed::write(black_box(&port), &mut one)), Box::new(|| black_box(&rust).write_into(&mut two))];
    if work(&format!("write-{}", variant.number()), text.len(), sides) {
        assert!([one, two].iter().all(|written| written[..text.len()] == *text));
    }
}

/// A text read. Both sides give the digest.
fn reads(variant: Variant, text: &[u8]) {
    let sides: Vec<Side> = vec![
        Box::new(|| black_box(timed::read(variant.number(), black_box(text))).variant == variant.number()),
        Box::new(|| oracle::read(variant, black_box(text))),
    ];
    work(&format!("read-{}", variant.number()), text.len(), sides);
}

/// A text read and written again.
fn rewrites(variant: Variant, text: &[u8]) {
    let name = format!("rewrite-{}", variant.number());
    let size = text.len();
    let (mut one, mut two, mut three) = ([0u8; 136], [0u8; 136], [0u8; judge::SIZE]);
    let mut bare = [0; judge::SIZE];
    let mut sides: Vec<Side> = vec![
        Box::new(|| raw::rewrite(variant.number(), black_box(text), &mut one) == 0),
        Box::new(|| oracle::rewrite_into(variant, black_box(text), &mut two)),
    ];
    if variant == Variant::Normal && judge::MISSING.is_none() {
        bare[..70].copy_from_slice(&text[2..]);
        sides.push(Box::new(|| judge::rewrite(black_box(&bare), &mut three)));
    }
    work(&name, size, sides);
}

/// Two digests compared: both sides are lent what was read.
fn compares(variant: Variant, one: &[u8], other: &[u8]) {
    let port = [one, other].map(|text| Digest::read(variant, text).expect("a good text"));
    let rust = [one, other].map(|text| oracle::Held::new(variant, text).expect("a good text"));
    let known = rust[0].distance(&rust[1]).expect("one variant");
    let sides: Vec<Side> = vec![
        Box::new(|| black_box(&port[0]).distance(black_box(&port[1])) == Ok(known)),
        Box::new(|| black_box(&rust[0]).distance(black_box(&rust[1])) == Some(known)),
    ];
    work(&format!("distance-{}", variant.number()), one.len() + other.len(), sides);
}

/// Two texts read and compared.
fn text_distances(variant: Variant, one: &[u8], other: &[u8]) {
    let number = variant.number();
    let known = oracle::distance(variant, one, other).expect("good texts");
    let bare = [one, other].map(|text| {
        let mut bare = [0; judge::SIZE];
        bare[..text.len().min(72) - 2].copy_from_slice(&text[2..text.len().min(72)]);
        bare
    });
    let mut sides: Vec<Side> = vec![
        Box::new(|| raw::distance(number, black_box(one), number, black_box(other)).distance == known),
        Box::new(|| oracle::distance(variant, black_box(one), black_box(other)) == Some(known)),
    ];
    if variant == Variant::Normal && judge::MISSING.is_none() {
        sides.push(Box::new(|| judge::distance(black_box(&bare[0]), black_box(&bare[1])) == Some(known)));
    }
    work(&format!("text-distance-{number}"), one.len() + other.len(), sides);
}

fn run() {
    let one = |kind, length| [Input::new(kind, 7, length).bytes];
    let kinds = [("random", Kind::Noise), ("report", Kind::Report)];
    for (size, length) in [("1K", 1 << 10), ("4K", 1 << 12), ("64K", 1 << 16), ("16M", 1 << 24)] {
        for (kind, made) in kinds {
            let input = one(made, length);
            for variant in Variant::ALL {
                // The largest takes long: the normal variant speaks for all.
                if length < 1 << 20 || variant == Variant::Normal {
                    digests(&format!("digest-{}-{kind}-{size}", variant.number()), variant, 0, &input);
                }
            }
        }
    }
    let mut random = Random::new(9);
    let reports: Vec<Vec<u8>> =
        (0..9_000).map(|_| Input::new(Kind::Report, random.next(), random.between(3_600, 4_600)).bytes).collect();
    digests("reports-128-9000", Variant::Normal, 0, &reports);
    for piece in [16, 64, 128, 256, 1024, 4096] {
        digests(&format!("pieces-128-report-64K-by-{piece}"), Variant::Normal, piece, &one(Kind::Report, 1 << 16));
    }
    for variant in Variant::ALL {
        texts(variant, &one(Kind::Report, 4096)[0]);
    }
    for variant in Variant::ALL {
        let [first, second] = [7, 8].map(|seed| {
            let input = Input::new(Kind::Report, seed, 4096).bytes;
            saltcurtain::digest(variant, Options::new(), &input).expect("a digest of a report")
        });
        compares(variant, first.as_bytes(), second.as_bytes());
        text_distances(variant, first.as_bytes(), second.as_bytes());
    }
}

/// What several processes measured of one workload: for each, the nanoseconds of each side.
struct Seen {
    name: String,
    bytes: f64,
    times: Vec<Vec<f64>>,
}

/// Reads the lines of several processes.
fn read() -> Result<Vec<Seen>, String> {
    let mut all: Vec<Seen> = Vec::new();
    for line in io::stdin().lines() {
        let line = line.map_err(|e| e.to_string())?;
        let mut words = line.split(' ');
        let wrong = || format!("not a line of `bench run`: {line}");
        let name = words.next().ok_or_else(wrong)?;
        let bytes = words.next().and_then(|word| word.parse().ok()).ok_or_else(wrong)?;
        let times: Option<Vec<f64>> = words.map(|word| word.split_once('=')?.1.parse().ok()).collect();
        let times = times.ok_or_else(wrong)?;
        match all.iter_mut().find(|seen| seen.name == name) {
            Some(seen) => seen.times.push(times),
            None => all.push(Seen { name: name.into(), bytes, times: vec![times] }),
        }
    }
    Ok(all)
}

/// The median of the processes, with the least and the greatest.
fn spread(of: Vec<f64>) -> String {
    let least = of.iter().copied().fold(f64::INFINITY, f64::min);
    let most = of.iter().copied().fold(0.0, f64::max);
    format!("{:.2} ({least:.2} to {most:.2})", median(of))
}

fn summary() -> Result<(), String> {
    println!("| Workload | Port, ns a byte | Port over Rust | Port over C++ |");
    println!("|---|---|---|---|");
    for Seen { name, bytes, times } in read()? {
        let over = |side: usize| -> Option<String> {
            let ratios: Option<Vec<f64>> = times.iter().map(|of| Some(of[0] / of.get(side)?)).collect();
            ratios.map(spread)
        };
        let own = median(times.iter().map(|of| of[0] / bytes).collect());
        let [rust, second] = [1, 2].map(|side| over(side).unwrap_or("-".into()));
        println!("| {name} | {own:.2} | {rust} | {second} |");
    }
    println!(
        "\nEach ratio is the median of the processes, with the least and the greatest; below 1 the port is faster."
    );
    if let Some(why) = judge::MISSING {
        println!("The C++ was SKIPPED: {why}");
    }
    if let Some(why) = timed::MISSING {
        println!("Writing and reading by themselves were SKIPPED: {why}");
    }
    Ok(())
}

fn main() -> ExitCode {
    let words: Vec<String> = std::env::args().skip(1).collect();
    match words.iter().map(String::as_str).collect::<Vec<_>>()[..] {
        ["run"] | ["run", _] => run(),
        ["summary"] => {
            if let Err(why) = summary() {
                eprintln!("bench: {why}");
                return ExitCode::FAILURE;
            }
        }
        _ => {
            eprintln!("bench: `bench run [PART]`, or `bench summary` with the lines of several runs on standard input");
            return ExitCode::from(2);
        }
    }
    ExitCode::SUCCESS
}
