//! Inputs cut into pieces, and cases in which everything is random.
use super::some_input;
use crate::compare::check::{self, Call};
use crate::compare::tally::Tally;
use beside::inputs::{Input, Kind};
use beside::oracle::Fed;
use beside::random::Random;
use saltcurtain::Variant;

/// Sizes of pieces that are worth a look: around the window, around vectors, around the sizes where a loop may change, and blocks.
#[rustfmt::skip]
const PIECES: [usize; 38] = [
    0, 1, 2, 3, 4, 5, 6, 7, 8, 9, 15, 16, 17, 31, 32, 33, 63, 64, 65, 95, 96, 97, 111, 112, 113, 127, 128, 129, 255, 256, 257,
    1000, 4095, 4096, 65_535, 65_536, 65_537, usize::MAX,
];

/// Each length to this one is cut into all pieces to one more.
const CUT: u64 = 260;

/// Four jobs for each length.
pub fn cut_jobs(scale: u64) -> u64 {
    (CUT + 1) * 4 * scale
}

/// One input in all its pieces.
pub fn cut(job: u64, random: &mut Random, tally: &mut Tally) {
    // Of four jobs, three cut one length for one variant each, and one takes a longer input.
    if let Some(&variant) = Variant::ALL.get((job % 4) as usize) {
        let length = (job / 4 % (CUT + 1)) as usize;
        let kind = random.pick(&[Kind::Noise, Kind::Report, Kind::Narrow, Kind::Words]);
        let input = Input::new(kind, random.next(), length);
        // The quarter and small options let most inputs through, so that the text is compared and not only the refusal.
        let options = random.pick(&[0, 20, 22, 28]);
        let answer = Fed::with(variant, 0, &input.bytes).answer(options);
        for piece in 0..=length + 1 {
            let call = Call { piece: Some(piece), ..Call::new(variant, options) };
            check::digest(tally, call, &input, |_| answer.clone());
        }
    } else {
        let length = if random.once_in(8) { random.between(60_000, 200_000) } else { random.below(6_000) };
        let input = some_input(random, length);
        let variant = random.pick(&Variant::ALL);
        let options = random.below(32) as u32;
        let answer = Fed::with(variant, 0, &input.bytes).answer(options);
        for piece in PIECES.into_iter().chain([length / 2, length.saturating_sub(1), length, length + 1]) {
            let call = Call { piece: Some(piece), ..Call::new(variant, options) };
            check::digest(tally, call, &input, |_| answer.clone());
        }
    }
}

/// Cases in a job.
const BATCH: usize = 200;

/// As many batches as the default run has time for.
pub fn mixed_jobs(scale: u64) -> u64 {
    3_000 * scale
}

/// A batch of random cases.
pub fn mixed(_: u64, random: &mut Random, tally: &mut Tally) {
    for _ in 0..BATCH {
        let length = match random.below(64) {
            0 => random.below(80_000),
            1..=15 => random.below(5_000),
            _ => random.below(600),
        };
        let input = some_input(random, length);
        let variant = random.pick(&Variant::ALL);
        let options = random.below(32) as u32;
        let piece = match random.below(4) {
            0 => None,
            1 => Some(random.pick(&PIECES)),
            2 => Some(random.below(length + 2)),
            _ => Some(random.below(200)),
        };
        let room = match random.below(16) {
            0 => random.below(variant.text_len()),
            1..=4 => variant.text_len() + random.below(80),
            _ => variant.text_len(),
        };
        let call = Call { variant: variant.number(), options, piece, room };
        check::digest(tally, call, &input, |known| Fed::with(known, piece.unwrap_or(0), &input.bytes).answer(options));
    }
}
