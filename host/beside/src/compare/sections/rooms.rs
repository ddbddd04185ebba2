//! Destinations of every size, and the order of the refusals.
use super::{UNKNOWN_VARIANTS, some_input};
use crate::compare::check::{self, Call};
use crate::compare::tally::Tally;
use beside::inputs::{Input, Kind};
use beside::oracle::Fed;
use beside::random::Random;
use saltcurtain::Variant;
use std::cell::OnceCell;

/// Option numbers that no option stands for.
const UNKNOWN_OPTIONS: [u32; 9] = [32, 33, 48, 63, 64, 1 << 16, 1 << 31, (1 << 31) + 5, u32::MAX];

/// As many inputs, the variants in turn.
pub fn sizes_jobs(scale: u64) -> u64 {
    120 * scale
}

/// One input at every size of the destination.
pub fn sizes(job: u64, random: &mut Random, tally: &mut Tally) {
    let variant = Variant::ALL[(job % 3) as usize];
    let length = random.pick(&[0, 3, 9, 40, 49, 50, 127, 128, 300, 1000]);
    let kind = random.pick(&[Kind::Noise, Kind::Report, Kind::Dead, Kind::Constant, Kind::Cycle, Kind::Words]);
    let input = Input::new(kind, random.next(), length);
    let options = random.below(32) as u32;
    let answer = Fed::with(variant, 0, &input.bytes).answer(options);
    for room in 0..=variant.text_len() + 72 {
        let call = Call { room, ..Call::new(variant, options) };
        check::digest(tally, call, &input, |_| answer.clone());
        check::digest(tally, Call { piece: Some(7), ..call }, &input, |_| answer.clone());
    }
}

/// As many inputs.
pub fn order_jobs(scale: u64) -> u64 {
    40 * scale
}

/// One input with all options and variants, known and unknown, in several rooms.
pub fn order(_: u64, random: &mut Random, tally: &mut Tally) {
    let length = random.pick(&[0, 1, 4, 9, 10, 49, 50, 127, 128, 500]);
    let input = some_input(random, length);
    let odd_option = random.word() | 32;
    let odd_variant = random.any_size();
    let options = (0..32).chain(UNKNOWN_OPTIONS).chain([odd_option]);
    let fed: [OnceCell<Fed>; 3] = Default::default();
    for options in options {
        for variant in UNKNOWN_VARIANTS.into_iter().chain([odd_variant, 48, 128, 256]) {
            for room in [0, 31, 32, 71, 72, 135, 136, 200] {
                let piece = random.pick(&[None, Some(0), Some(5)]);
                check::digest(tally, Call { variant, options, piece, room }, &input, |known| {
                    fed[known as usize].get_or_init(|| Fed::with(known, 0, &input.bytes)).answer(options)
                });
            }
        }
    }
}
