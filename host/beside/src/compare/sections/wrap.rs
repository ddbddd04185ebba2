//! Counters so large that the ratio paths come to their edges: 100 q past 2^32, and quotients that single precision rounds.
use crate::compare::known::Known;
use crate::compare::tally::Tally;
use beside::mapped::{Mapped, PAGE};
use beside::oracle::Fed;
use beside::random::Random;
use saltcurtain::{Variant, raw};

/// Bytes of a whole turn of a cycle.
const CYCLE: usize = 5;

/// How often a cycle turns, and whether its third quartile is a little above its second.
const TURNS: [(usize, bool); 4] = [
    // 100 q is past 2^32.
    (51_234_567, false),
    (42_949_673, false),
    // It is below 2^32, and the quotient, a little below 100, is rounded up to 100.
    (42_949_672, true),
    (30_000_000, true),
];

/// So many turns of a cycle and some bytes more.
fn length(turns: usize, more: usize) -> usize {
    4 + turns * CYCLE + more
}

/// A cycle, and how many bytes stand past its last turn, which raise some counters once more.
///
/// It is chosen by its second ratio in whole numbers after 10 and after 20 turns. Each counter is then a small multiple of the turns, or
/// a little more. The ratios are 0 where the second quartile is, and such a cycle shows nothing. They are A and F where the
/// quotients are those of 10 and 11 and of 20 and 21.
fn some_cycle(random: &mut Random, apart: bool) -> ([u8; CYCLE], usize) {
    loop {
        let cycle = [0; CYCLE].map(|_: u8| random.next() as u8);
        let more = random.below(CYCLE);
        let ratio = |turns: usize| {
            let input: Vec<u8> = cycle.iter().copied().cycle().take(length(turns, more)).collect();
            let text = Fed::with(Variant::Short, 0, &input).answer(2).ok()?;
            text.chars().nth(7)
        };
        let fits = match (ratio(10), ratio(20)) {
            (Some(ten), Some(twenty)) if apart => (ten, twenty) == ('A', 'F'),
            (_, twenty) => !apart && twenty.is_some_and(|twenty| twenty != '0'),
        };
        if fits {
            return (cycle, more);
        }
    }
}

/// Few: each takes some seconds.
pub fn jobs(scale: u64) -> u64 {
    TURNS.len() as u64 * scale.min(8)
}

/// One input at both ratio paths.
pub fn run(job: u64, random: &mut Random, tally: &mut Tally) {
    let (turns, apart) = TURNS[(job % TURNS.len() as u64) as usize];
    let (cycle, more) = some_cycle(random, apart);
    let length = length(turns, more);
    let pattern: Vec<u8> = cycle.into_iter().cycle().take(CYCLE * PAGE * 64).collect();
    let mapped = Mapped::new(&pattern, length).expect("the pattern is mapped");
    let bytes = &mapped.bytes()[..length];

    let variant = Variant::Short;
    let fed = Fed::with(variant, 0, bytes);
    for options in [0, 2] {
        let wanted = fed.answer(options);
        let mut room = [0; 32];
        let number = raw::digest_pieces(variant.number(), options, 65_536, bytes, &mut room);
        let same = match &wanted {
            Ok(text) => number == 0 && room == text.as_bytes(),
            Err(refusal) => number == *refusal && room == [0; 32],
        };
        tally.case(number, same, || {
            let left = String::from_utf8_lossy(&room);
            format!(
                "  call      variant 48, options {options}, {length} bytes in pieces of 65536: {cycle:?} again and again\n  \
                 should    {wanted:?}\n  answered  {number}, and left {left:?}"
            )
        });
    }
    // The Rust's default is the floating path, whatever its comment says.
    if fed.answer(0) != fed.answer(2) {
        assert_eq!(fed.default_answer(), fed.answer(0), "the Rust's default options are not option number 0");
        tally.known(Known::DefaultRatios);
    }
}
