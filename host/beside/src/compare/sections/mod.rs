//! The kinds of cases. Each section is cut into jobs; what a job does depends on the seed, the section and its number alone.
mod distances;
mod lengths;
mod numbers;
mod paths;
mod pieces;
mod rooms;
mod second;
mod texts;
mod wrap;

use super::tally::Tally;
use beside::inputs::{Input, KINDS};
use beside::random::Random;

/// A section.
pub struct Section {
    /// Its name.
    pub name: &'static str,
    /// What it compares.
    pub about: &'static str,
    /// How many jobs it has in a run that is so many times the default.
    pub jobs: fn(u64) -> u64,
    /// One job.
    pub run: fn(u64, &mut Random, &mut Tally),
}

/// The name of the section that asks the second judge for digests.
pub const SECOND: &str = "c++";

/// The name of the section that asks it for distances.
pub const SECOND_DISTANCE: &str = "c++apart";

/// All sections, those with the longest jobs first.
pub const SECTIONS: [Section; 14] = [
    Section {
        name: "wrap",
        about: "counters so large that 100 q passes 2^32, and that both ratio paths differ",
        jobs: wrap::jobs,
        run: wrap::run,
    },
    Section {
        name: "paths",
        about: "the shortest inputs that were found at which both ratio paths differ",
        jobs: paths::jobs,
        run: paths::run,
    },
    Section {
        name: "tops",
        about: "lengths around each top, each least length and each 64 KiB",
        jobs: lengths::tops_jobs,
        run: lengths::tops,
    },
    Section {
        name: "lengths",
        about: "every length to 400, all options, all kinds of input",
        jobs: lengths::all_jobs,
        run: lengths::all,
    },
    Section {
        name: "pieces",
        about: "every length to 260 cut into every piece, and longer inputs in odd pieces",
        jobs: pieces::cut_jobs,
        run: pieces::cut,
    },
    Section {
        name: "mixed",
        about: "variant, options, kind, length, piece and room at random",
        jobs: pieces::mixed_jobs,
        run: pieces::mixed,
    },
    Section { name: "room", about: "every size of the destination", jobs: rooms::sizes_jobs, run: rooms::sizes },
    Section {
        name: "order",
        about: "unknown options and variants, and which refusal comes first",
        jobs: rooms::order_jobs,
        run: rooms::order,
    },
    Section {
        name: "text",
        about: "texts read and written again, damaged in every way",
        jobs: texts::jobs,
        run: texts::run,
    },
    Section { name: "ratios", about: "ratio records to the bit", jobs: numbers::ratios_jobs, run: numbers::ratios },
    Section { name: "codes", about: "length codes around every top", jobs: numbers::codes_jobs, run: numbers::codes },
    Section {
        name: "distance",
        about: "distances of equal, near and far digests, all pairs of codes, length codes and ratios, and refusals",
        jobs: distances::jobs,
        run: distances::run,
    },
    Section {
        name: SECOND_DISTANCE,
        about: "distances of normal digests beside Trend Micro's C++",
        jobs: distances::second_jobs,
        run: distances::second,
    },
    Section {
        name: SECOND,
        about: "normal digests of 256 bytes and more beside Trend Micro's C++",
        jobs: second::jobs,
        run: second::run,
    },
];

/// Variants that there are not.
pub const UNKNOWN_VARIANTS: [u32; 14] = [0, 1, 2, 16, 47, 49, 64, 127, 129, 192, 255, 257, 512, u32::MAX];

/// A kind of input and a seed for it.
pub fn some_input(random: &mut Random, length: usize) -> Input {
    Input::new(random.pick(&KINDS), random.next(), length)
}
