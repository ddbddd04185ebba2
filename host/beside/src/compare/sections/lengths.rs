//! Digests at every small length, and around each length at which something changes.
use super::some_input;
use crate::compare::check::{self, Call};
use crate::compare::tally::Tally;
use beside::inputs::{Input, KINDS};
use beside::oracle::{self, Fed};
use beside::random::Random;
use saltcurtain::Variant;

/// Each length to this one is tried at all options.
const LENGTHS: u64 = 400;

/// Two inputs of each kind at each length.
pub fn all_jobs(scale: u64) -> u64 {
    (LENGTHS + 1) * KINDS.len() as u64 * 2 * scale
}

/// One input, all variants, all options.
pub fn all(job: u64, random: &mut Random, tally: &mut Tally) {
    let kind = KINDS[(job % KINDS.len() as u64) as usize];
    let length = (job / KINDS.len() as u64 % (LENGTHS + 1)) as usize;
    let input = Input::new(kind, random.next(), length);
    for variant in Variant::ALL {
        let fed = Fed::with(variant, 0, &input.bytes);
        for options in 0..32 {
            check::digest(tally, Call::new(variant, options), &input, |_| fed.answer(options));
        }
    }
}

/// Tops to this length are tried in the default run, those to the other in a longer one.
const TOP: usize = 4_100_000;
const TOP_LONG: usize = 100_000_000;

/// The places around which lengths are tried.
fn places(most: usize) -> Vec<usize> {
    let tops = oracle::tops().into_iter().map(|top| top as usize);
    let least = [10, 50, 128];
    let blocks = (1..=8).map(|n| n * 65_536);
    let mut places: Vec<usize> = tops.chain(least).chain(blocks).filter(|&place| place <= most).collect();
    places.sort_unstable();
    places
}

/// Lengths around each place: from two below it to three above it.
const AROUND: u64 = 6;

/// A job for each variant at each length around each place.
pub fn tops_jobs(scale: u64) -> u64 {
    let most = if scale > 1 { TOP_LONG } else { TOP };
    places(most).len() as u64 * AROUND * 3
}

/// Inputs of one length, in one and in pieces.
pub fn tops(job: u64, random: &mut Random, tally: &mut Tally) {
    let variant = Variant::ALL[(job % 3) as usize];
    let place = places(TOP_LONG)[(job / 3 / AROUND) as usize];
    let length = (place + (job / 3 % AROUND) as usize).saturating_sub(2);
    // Around the large ones only the nearest lengths, few inputs and few options: they cost time.
    let (inputs, options): (usize, Vec<u32>) = match length {
        0..=20_000 => (3, (0..32).collect()),
        20_001..=300_000 => (1, vec![0, 2, random.below(32) as u32]),
        _ if length.abs_diff(place) > 1 => return,
        _ => (1, vec![0]),
    };
    for _ in 0..inputs {
        let input = some_input(random, length);
        let fed = Fed::with(variant, 0, &input.bytes);
        for &options in &options {
            let call = Call::new(variant, options);
            check::digest(tally, call, &input, |_| fed.answer(options));
            let piece = Some(random.pick(&[0, 4096, 65_535, 65_536, 65_537, length.saturating_sub(1), length]));
            check::digest(tally, Call { piece, ..call }, &input, |_| fed.answer(options));
        }
    }
}
