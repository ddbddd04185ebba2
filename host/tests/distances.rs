//! The stored list of the Rust's distances, through the library. It needs no oracle.
use saltcurtain::{Digest, Error, Variant, distance, raw};

const LIST: &str = include_str!("../stored/distances.txt");

#[test]
fn every_distance_is_the_rusts() {
    let mut lines = 0;
    for line in LIST.lines() {
        let words: Vec<&str> = line.split(' ').collect();
        let [number, one, other, wanted] = words[..] else { panic!("no line: {line}") };
        let variant = number.parse().ok().and_then(Variant::from_number).expect("a known variant");
        let wanted: u32 = wanted.parse().expect("a distance");
        assert_eq!(distance(variant, one, variant, other), Ok(wanted), "{line}");
        assert_eq!(distance(variant, other, variant, one), Ok(wanted), "{line}");

        let [a, b] = [one, other].map(|text| Digest::read(variant, text).expect("a text"));
        assert_eq!(a.distance(&b), Ok(wanted), "{line}");
        assert_eq!(b.distance(&a), Ok(wanted), "{line}");
        assert_eq!(a == b, wanted == 0, "{line}");
        lines += 1;
    }
    assert!(lines > 200, "the list is cut");
}

#[test]
fn the_greatest_distances() {
    for (number, greatest) in [(48, 1_993), (128, 2_473), (256, 3_241)] {
        let digest = |body, checksum, length_code, ratios| raw::Digest {
            body: [body; 64],
            head: raw::Head { variant: number, checksum, length_code, ratios },
        };
        let (low, high) = (digest(0, 0, 0, 0), digest(255, 1, 128, 0x88));
        assert_eq!(raw::distance_read(&low, &high), raw::Distance { number: 0, distance: greatest });
    }
}

#[test]
fn the_order_of_the_refusals() {
    let normal = "T14A90024954691E114404124180D942C1450F8423775ADE1510211420456593621A8173";
    let short = "T19090971006A302AA451E86322A81E7";
    let refusal = |variant_a, text_a: &str, variant_b, text_b: &str| {
        let answer = raw::distance(variant_a, text_a.as_bytes(), variant_b, text_b.as_bytes());
        assert_eq!(answer.distance, 0);
        answer.number
    };
    // 6 of either, then 12, before any text is looked at.
    assert_eq!(refusal(49, normal, 128, normal), 6);
    assert_eq!(refusal(128, normal, 0, normal), 6);
    assert_eq!(refusal(49, normal, 50, short), 6);
    assert_eq!(refusal(128, "", 48, ""), 12);
    // Then the first text, then the second.
    let damaged = normal.to_lowercase();
    assert_eq!(refusal(128, short, 128, &damaged), 8);
    assert_eq!(refusal(128, &damaged, 128, short), 9);
    assert_eq!(refusal(128, normal, 128, short), 8);
    assert_eq!(refusal(128, normal, 128, &damaged), 9);

    let [one, other] = [(Variant::Normal, normal), (Variant::Short, short)].map(|(v, t)| Digest::read(v, t).unwrap());
    assert_eq!(one.distance(&other), Err(Error::UnlikeDigests));
    assert_eq!((one.variant(), Error::UnlikeDigests.number()), (Variant::Normal, 12));
    assert_eq!(Digest::read(Variant::Long, normal), Err(Error::TextSize));
}
