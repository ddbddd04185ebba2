//! Distances: pairs of texts, compared as texts and as digests that were read, in both orders.
use super::UNKNOWN_VARIANTS;
use crate::compare::check;
use crate::compare::tally::Tally;
use beside::fields::Fields;
use beside::judge;
use beside::random::Random;
use saltcurtain::Variant;

fn pair(tally: &mut Tally, one: &Fields, other: &Fields) {
    check::distance(tally, one.variant.number(), &one.text(), other.variant.number(), &other.text());
}

/// One job for each place of a body, one for each length code and each byte of ratios, and batches.
const PLACES: u64 = 48 + 128 + 256;
const CODES: u64 = 256;

/// As many.
pub fn jobs(scale: u64) -> u64 {
    PLACES + CODES + 600 * scale
}

/// All pairs of codes at a place; all pairs with a length code, and with a byte of ratios; or a batch.
pub fn run(job: u64, random: &mut Random, tally: &mut Tally) {
    if job < PLACES {
        let (variant, place) = match job as usize {
            place @ 0..48 => (Variant::Short, place),
            place @ 48..176 => (Variant::Normal, place - 48),
            place => (Variant::Long, place - 176),
        };
        for pairs in 0..16 {
            let (mut one, mut other) = (Fields::random(variant, random), Fields::random(variant, random));
            one.set_code(place, pairs % 4);
            other.set_code(place, pairs / 4);
            pair(tally, &one, &other);
            // And with nothing else that differs.
            let mut near = one;
            near.set_code(place, pairs / 4);
            pair(tally, &one, &near);
        }
    } else if job < PLACES + CODES {
        let value = (job - PLACES) as u8;
        for variant in Variant::ALL {
            for field in [1, 2] {
                let mut one = Fields::random(variant, random);
                one.bytes[field] = value;
                let mut other = one;
                for against in 0..=255 {
                    other.bytes[field] = against;
                    pair(tally, &one, &other);
                }
            }
        }
    } else {
        for _ in 0..1_000 {
            some_pair(random, tally);
        }
        for _ in 0..40 {
            refused(random, tally);
        }
    }
}

/// A pair: equal, a digit or two changed, near the seam of a circle, or any two.
fn some_pair(random: &mut Random, tally: &mut Tally) {
    let variant = random.pick(&Variant::ALL);
    let size = (variant.text_len() - 2) / 2;
    let one = Fields::random(variant, random);
    let mut other = one;
    match random.below(8) {
        0 => {}
        1 | 2 => {
            for _ in 0..random.between(1, 2) {
                let place = random.below(size);
                let from = random.pick(&[0, 4]);
                other.bytes[place] = other.bytes[place] & !(15 << from) | (random.below(16) as u8) << from;
            }
        }
        3 | 4 => {
            let field = random.pick(&[1, 2]);
            other.bytes[field] =
                one.bytes[field].wrapping_add(random.pick(&[1, 2, 16, 32, 127, 128, 129, 240, 254, 255]));
        }
        _ => other = Fields::random(variant, random),
    }
    pair(tally, &one, &other);
}

/// Unknown variants, two variants, and damaged texts: which refusal comes first.
fn refused(random: &mut Random, tally: &mut Tally) {
    let known = random.pick(&Variant::ALL);
    let [one, other] = [(); 2].map(|()| {
        let variant = match random.below(3) {
            0 => random.pick(&UNKNOWN_VARIANTS),
            1 => random.pick(&Variant::ALL).number(),
            _ => known.number(),
        };
        let mut text = Fields::random(known, random).text();
        match random.below(4) {
            0 => text.truncate(random.below(text.len())),
            1 => {
                let place = random.below(text.len());
                text[place] = random.pick(b"GTt1 /:@\xff\0");
            }
            _ => {}
        }
        (variant, text)
    });
    check::distance(tally, one.0, &one.1, other.0, &other.1);
}

/// As many batches beside the second judge, or none where it cannot be asked.
pub fn second_jobs(scale: u64) -> u64 {
    if judge::MISSING.is_some() { 0 } else { 100 * scale }
}

/// Normal pairs beside the second judge.
pub fn second(_: u64, random: &mut Random, tally: &mut Tally) {
    for _ in 0..1_000 {
        let one = Fields::random(Variant::Normal, random);
        let mut other = Fields::random(Variant::Normal, random);
        if random.once_in(2) {
            let place = random.below(35);
            let own = other.bytes[place];
            other = one;
            other.bytes[place] = own;
        }
        check::second_distance(tally, &one.text(), &other.text());
    }
}
