//! Glue: the 32-bit body distance was not published. The one that a 64-bit machine asks for, of four bytes, takes the steps of the
//! published 64-bit one, so that times of short bodies can be compared; the others go by the definition, one pair of codes after the
//! other.

/// What two codes of two bits cost: their difference, and 6 where it is 3.
fn cost(x: u8, y: u8) -> u32 {
    match x.abs_diff(y) {
        3 => super::BODY_OUTLIER_VALUE,
        less => less as u32,
    }
}

/// The cost of two bodies, four codes in each byte.
fn total(one: &[u8], other: &[u8]) -> u32 {
    let codes = |byte: u8| [0, 2, 4, 6].map(|from| byte >> from & 3);
    let pairs = one.iter().zip(other);
    pairs
        .flat_map(|(&x, &y)| codes(x).into_iter().zip(codes(y)))
        .map(|(x, y)| cost(x, y))
        .sum()
}

/// The cost of four bytes of two bodies: the only one that a 64-bit machine asks for.
#[inline(always)]
pub fn sub_distance(x: u32, y: u32) -> u32 {
    let z = x ^ y;
    let sa = ((y & 0x5555_5555) * 3 ^ x) & z;
    let tb = (0xaaaa_aaaa - (x & 0x5555_5555) ^ x) & z;
    let sb = (tb | tb >> 1) & z;
    let sa = (sa & 0x3333_3333) + (sa >> 2 & 0x3333_3333);
    let sb = (sb & 0x3333_3333) + (sb >> 2 & 0x3333_3333);
    let s = sa + sb;
    let s = (s & 0x0f0f_0f0f) + (s >> 4 & 0x0f0f_0f0f);
    s.wrapping_mul(0x0101_0101) >> 24
}

/// The cost of two short bodies.
pub fn distance_12(x: &[u8; 12], y: &[u8; 12]) -> u32 {
    total(x, y)
}

/// The cost of two normal bodies.
pub fn distance_32(x: &[u8; 32], y: &[u8; 32]) -> u32 {
    total(x, y)
}

/// The cost of two long bodies.
pub fn distance_64(x: &[u8; 64], y: &[u8; 64]) -> u32 {
    total(x, y)
}
