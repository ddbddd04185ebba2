//! The shortest inputs that `beside paths` has found at which the two ratio paths give different digests.
use crate::compare::check::{self, Call};
use crate::compare::tally::Tally;
use beside::oracle::Fed;
use beside::random::Random;
use beside::rules::Source;
use saltcurtain::Variant;

/// One of each variant: how its bytes are made, and how many they are.
const FOUND: [(Variant, Source, usize); 3] = [
    (Variant::Short, Source::Narrow(388), 1_943_979),
    (Variant::Normal, Source::Narrow(139), 10_382_886),
    (Variant::Long, Source::Narrow(72), 10_063_023),
];

/// A job for each.
pub fn jobs(_: u64) -> u64 {
    FOUND.len() as u64
}

/// The input without its last byte, where both paths give one digest, and whole, where they give two.
pub fn run(job: u64, _: &mut Random, tally: &mut Tally) {
    let (variant, ref source, length) = FOUND[job as usize];
    let input = source.bytes(length);
    let mut fed = Fed::new(variant);
    let mut from = 0;
    for (length, differ) in [(length - 1, false), (length, true)] {
        fed.update(&input[from..length]);
        from = length;
        let name = format!("{length} bytes of {source:?}");
        let [floating, integer] = [0, 2].map(|options| fed.answer(options));
        tally.case(0, floating.is_ok() && integer.is_ok() && (floating != integer) == differ, || {
            format!(
                "  input     {name}\n  should    {}\n  the Rust  {floating:?}\n            {integer:?}",
                if differ { "two digests" } else { "one digest" }
            )
        });
        for (options, answer) in [(0, floating), (2, integer)] {
            check::digest_of(tally, Call::new(variant, options), &input[..length], &name, |_| answer);
        }
    }
}
