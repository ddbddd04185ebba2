//! The port beside the second judge.
use super::some_input;
use crate::compare::tally::Tally;
use beside::judge;
use beside::random::Random;
use saltcurtain::raw;

/// As many batches, or none where it cannot be asked.
pub fn jobs(scale: u64) -> u64 {
    if judge::MISSING.is_some() { 0 } else { 400 * scale }
}

/// A batch of random inputs.
pub fn run(_: u64, random: &mut Random, tally: &mut Tally) {
    for _ in 0..100 {
        let length = match random.below(50) {
            0 => random.between(judge::LEAST, 60_000),
            _ => random.between(judge::LEAST, 4_000),
        };
        let input = some_input(random, length);
        let mut theirs = [0; judge::SIZE];
        let given = judge::digest(&input.bytes, &mut theirs);
        let mut ours = [0; 72];
        let number = raw::digest(128, 0, &input.bytes, &mut ours);
        let same = match given {
            true => number == 0 && ours[2..] == theirs[..70],
            // It says not why it gives none: with so many bytes only 3 and 4 are left.
            false => number == 3 || number == 4,
        };
        tally.case(number, same, || {
            let (theirs, ours) = (String::from_utf8_lossy(&theirs), String::from_utf8_lossy(&ours));
            format!("  input     '{input}'\n  the C++   {theirs:?}\n  the port  {number} {ours:?}")
        });
    }
}
