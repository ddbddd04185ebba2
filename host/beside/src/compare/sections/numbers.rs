//! The two entry points on numbers: ratio records and length codes.
use crate::compare::check;
use crate::compare::tally::Tally;
use beside::oracle;
use beside::random::Random;

/// Numbers at which the floating path changes: where 100 q passes 24 bits and 2^32, where the paths first differ, powers of two, and the
/// marked examples.
#[rustfmt::skip]
const EDGES: [u32; 24] = [
    0, 1, 2, 3, 99, 100, 101, 167_772, 167_773, 217_582, 262_146, 297_098, 300_099, 693_565, 753_875, 8_388_608, 16_777_216,
    33_554_432, 42_949_672, 42_949_673, 85_899_346, 128_849_019, 1 << 31, u32::MAX - 2,
];

/// A number at such an edge, or up to two from it.
fn edge(random: &mut Random) -> u32 {
    random.pick(&EDGES).saturating_add(random.below(5) as u32).saturating_sub(2)
}

/// As many batches.
pub fn ratios_jobs(scale: u64) -> u64 {
    200 * scale
}

/// A batch of quartiles, most of them in order.
pub fn ratios(job: u64, random: &mut Random, tally: &mut Tally) {
    if job == 0 {
        // Every small triple, those that are refused too.
        for q3 in 0..70 {
            for q2 in 0..70 {
                for q1 in 0..70 {
                    check::ratios(tally, q1, q2, q3);
                }
            }
        }
    }
    for _ in 0..10_000 {
        let mut q = match random.below(6) {
            0 => [0; 3].map(|_: u32| random.word()),
            1 => [0; 3].map(|_: u32| random.any_size()),
            2 => [0; 3].map(|_: u32| edge(random)),
            3 => [random.any_size(), edge(random), random.any_size()],
            4 => {
                // Where 100 q is close to a whole multiple of q3.
                let q3 = random.any_size().max(1);
                let near = |random: &mut Random| {
                    let whole = u64::from(q3) * random.below(101) as u64 / 100;
                    (whole as u32).saturating_add(random.below(3) as u32).saturating_sub(1).min(q3)
                };
                [near(random), near(random), q3]
            }
            _ => {
                // Equal ones.
                let (one, other) = (random.any_size(), random.any_size());
                random.pick(&[[one, one, one], [one, one, other], [one, other, other]])
            }
        };
        if !random.once_in(8) {
            q.sort_unstable();
        }
        check::ratios(tally, q[0], q[1], q[2]);
    }
}

/// As many batches.
pub fn codes_jobs(scale: u64) -> u64 {
    40 * scale
}

/// A batch of lengths; the first job has those around every top too.
pub fn codes(job: u64, random: &mut Random, tally: &mut Tally) {
    if job == 0 {
        let tops = oracle::tops();
        for top in tops.into_iter().chain([u32::MAX]) {
            for n in top.saturating_sub(4)..=top.saturating_add(4) {
                check::length_code(tally, n);
            }
        }
        for n in 0..70_000 {
            check::length_code(tally, n);
        }
    }
    for _ in 0..10_000 {
        check::length_code(tally, random.any_size());
        check::length_code(tally, random.word());
    }
}
