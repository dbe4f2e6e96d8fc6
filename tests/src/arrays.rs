//! Parity made in a whole array by the probe: random arrays against the tests' arithmetic and, stripe by stripe, against
//! stripe_make_parity; and what is refused. An array of s stripes is kept by member: the block of member m in stripe t
//! is block m * s + t.

use crate::calls::Call;
use crate::model;
use crate::random::Random;
use crate::refusals::{as_model, near, refused, some_parities, HALF, SOME_PARITIES, TOP, WRAP};
use crate::Outcome;

/// The arrays that are made: every combination of these d, s and b, with one parity and with two, then those at the
/// limits: d, parities, s, b.
const MADE_D: [usize; 4] = [2, 3, 5, 16];
const MADE_S: [usize; 5] = [1, 2, 3, 7, 64];
const MADE_B: [usize; 6] = [1, 15, 64, 65, 127, 512];
const AT_LIMITS: [[usize; 4]; 6] =
    [[2, 1, 65536, 1], [16, 2, 65535, 1], [2, 1, 3, 4096], [2, 2, 3, 4096], [16, 1, 2, 4095], [16, 2, 2, 4095]];

/// Stripe t of an array of s stripes, its blocks of b bytes one after another.
fn cut(s: usize, b: usize, t: usize, array: &[u8]) -> Vec<u8> {
    let members = array.chunks_exact(s * b);
    members.flat_map(|member| &member[t * b..][..b]).copied().collect()
}

/// Fails unless the probe makes the parity of the tests' arithmetic in a random array and stores nothing else, and
/// stripe_make_parity makes the same of each stripe cut out.
fn made([d, parities, s, b]: [usize; 4], random: &mut Random) -> Result<(), String> {
    let before = random.bytes((d + parities) * s * b);
    let after = model::made_all(d, parities, s, b, &before);
    Call::make_all(d, parities, s, b).expect(&before, 0, &after)?;
    for t in 0..s {
        Call::make(d, parities, b)
            .expect(&cut(s, b, t, &before), 0, &cut(s, b, t, &after))
            .map_err(|fault| format!("stripe {t} cut out of {s}: {fault}"))?;
    }
    Ok(())
}

/// Makes all the arrays; hands back how many there are and how many stripes they have.
fn all_made(random: &mut Random) -> Result<[usize; 2], String> {
    let mut counts = [0; 2];
    let shapes = MADE_S.iter().flat_map(|&s| MADE_B.map(|b| (s, b)));
    let products = shapes.flat_map(|(s, b)| MADE_D.map(|d| [[d, 1, s, b], [d, 2, s, b]]));
    for measures in products.flatten().chain(AT_LIMITS) {
        made(measures, random)?;
        counts = [counts[0] + 1, counts[1] + measures[2]];
    }
    Ok(counts)
}

/// The most bytes that a call gets where numbers are refused. An array that would be accepted and is longer is left out.
const MOST: usize = 2 * 65536 + 64;

/// Refused cases: d, parities, s, b, the length told, the number due. Where 1 is due the length is that of
/// (d + parities) * s blocks, of another count, or what a wrap at 8, 16, 32 or 64 bits, of it or of a factor, makes of
/// it. Where 2 is due it is a neighbour of the right length, that of the other count, a wrap of it, or far off.
const REFUSED: [(u32, u32, u32, u32, usize, u32); 78] = [
    (0, 2, 3, 1, 6, 1),
    (1, 2, 3, 1, 9, 1),
    (17, 2, 3, 1, 57, 1),
    (258, 2, 3, 1, 12, 1),
    (65538, 2, 1, 1, 4, 1),
    (HALF, 2, 2, 1, 4, 1),
    (HALF + 2, 2, 2, 5, 40, 1),
    (TOP, 2, 3, 4, 12, 1),
    (TOP, 2, 3, 4, 12 * (WRAP + 1), 1),
    (TOP - 1, 2, 7, 64, 0, 1),
    (TOP - 1, 2, HALF, 2, 0, 1),
    (2, 2, 0, 1, 0, 1),
    (16, 2, 0, 4096, 0, 1),
    (2, 2, 65537, 1, 4, 1),
    (2, 2, 65537, 1, 262148, 1),
    (16, 2, 65537, 4096, 18 * 65537 * 4096, 1),
    (2, 2, 65536 + 3, 5, 60, 1),
    (2, 2, 1 << 17, 1, 0, 1),
    (2, 2, 1 << 30, 1, 0, 1),
    (3, 2, HALF, 2, 0, 1),
    (2, 2, HALF + 3, 2, 24, 1),
    (2, 2, TOP, 1, 4 * TOP as usize, 1),
    (2, 2, TOP, 1, WRAP - 4, 1),
    (2, 2, TOP - 1, 1 << 12, WRAP - (1 << 15), 1),
    (2, 2, 3, 0, 0, 1),
    (16, 2, 65536, 0, 0, 1),
    (2, 2, 3, 4097, 49164, 1),
    (2, 2, 65536, 4097, 65536 * 16388, 1),
    (2, 2, 3, 65536 + 1, 12, 1),
    (2, 2, 1, 1 << 30, 0, 1),
    (2, 2, 3, TOP, WRAP - 12, 1),
    (TOP, 2, TOP, TOP, 1, 1),
    (0, 2, 0, 0, 0, 1),
    (2, 2, 1, 1, 3, 2),
    (2, 2, 1, 1, 5, 2),
    (2, 2, 3, 1, 4, 2),
    (2, 2, 3, 64, 767, 2),
    (2, 2, 3, 64, 769, 2),
    (5, 2, 7, 65, 0, 2),
    (16, 2, 65536, 4096, 18 * 65536 * 4096 - 1, 2),
    (16, 2, 65536, 4096, 18 * 65536 * 4096 + 1, 2),
    (2, 2, 3, 1, WRAP + 12, 2),
    (2, 2, 3, 1, usize::MAX, 2),
    (2, 2, 65536, 1, 0, 2),
    (14, 2, 65536, 4096, 0, 2),
    (16, 2, 65536, 4096, 18 * 65536 * 4096 - WRAP, 2),
    (16, 2, 65536, 3641, 131072, 2),
    (16, 2, 65535, 3641, 65534, 2),
    (2, 0, 3, 1, 6, 1),
    (2, 0, 3, 1, 9, 1),
    (2, 3, 3, 1, 15, 1),
    (2, 3, 3, 1, 12, 1),
    (2, 255, 3, 1, 771, 1),
    (2, 256 + 1, 3, 5, 45, 1),
    (2, 65536 + 2, 3, 5, 60, 1),
    (2, HALF + 1, 2, 5, 30, 1),
    (2, TOP, 3, 1, 3, 1),
    (2, TOP, 3, 1, 3 * (WRAP + 1), 1),
    (16, TOP - 1, 65536, 4096, 0, 1),
    (1, 1, 3, 1, 6, 1),
    (17, 1, 3, 1, 54, 1),
    (TOP, 1, 3, 64, 0, 1),
    (2, 1, 0, 1, 0, 1),
    (2, 1, 65537, 1, 196611, 1),
    (2, 1, 3, 4097, 36873, 1),
    (17, 3, 65537, 0, 0, 1),
    (2, 1, 1, 1, 2, 2),
    (2, 1, 1, 1, 4, 2),
    (2, 1, 3, 64, 575, 2),
    (2, 1, 3, 64, 577, 2),
    (2, 1, 3, 64, 768, 2),
    (2, 2, 3, 64, 576, 2),
    (2, 1, 3, 64, 192, 2),
    (16, 1, 65536, 4096, 18 * 65536 * 4096, 2),
    (16, 1, 65536, 4096, 17 * 65536 * 4096 - WRAP, 2),
    (15, 1, 65536, 4096, 0, 2),
    (2, 1, 3, 1, WRAP + 9, 2),
    (2, 1, 3, 1, usize::MAX, 2),
];

/// The values of d, s and b that the crossing takes, with those of parities: at, around and far from the limits, also
/// modulo 2^8 and 2^16.
const SOME_D: [u32; 11] = [0, 1, 2, 14, 16, 17, 258, 65538, HALF, TOP - 1, TOP];
const SOME_S: [u32; 11] = [0, 1, 2, 7, 65535, 65536, 65537, 1 << 17, HALF, TOP - 1, TOP];
const SOME_B: [u32; 10] = [0, 1, 3, 65, 4095, 4096, 4097, 65537, HALF, TOP];

/// The length of (d + parities) * s blocks of b bytes, modulo 2^64.
fn right_length([d, parities, s, b]: [u32; 4]) -> usize {
    (d as usize + parities as usize).wrapping_mul(s as usize).wrapping_mul(b as usize)
}

/// The lengths that the crossing tells: the right one, those of one parity less and one more, the neighbours of the right
/// one, and what wraps make of it.
fn some_lengths(measures: [u32; 4]) -> [usize; 11] {
    let right = right_length(measures);
    let member = (measures[2] as usize).wrapping_mul(measures[3] as usize);
    [
        right,
        right.wrapping_sub(member),
        right.wrapping_add(member),
        right.wrapping_sub(1),
        right.wrapping_add(1),
        0,
        right % 65536,
        right % WRAP,
        right.wrapping_add(65536),
        right.wrapping_add(WRAP),
        usize::MAX,
    ]
}

/// Fails unless the probe does as the model does. Hands back the number answered; none where the case is left out.
fn tried([d, parities, s, b]: [u32; 4], len: usize, bytes: &[u8]) -> Result<Option<u32>, String> {
    if len > bytes.len() && model::make_all_code(d, parities, s, b, len) == 0 {
        return Ok(None);
    }
    as_model(Call::MakeAll { d, parities, s, b }, bytes, len).map(Some)
}

/// The lengths of some_lengths that the crossing takes, by their places: for a count of 1 or 2 the right one, those of
/// the other counts and one more at random, else one at random.
fn some_of_lengths(parities: u32, random: &mut Random) -> Vec<usize> {
    match parities {
        1 | 2 => vec![0, 1, 2, 3 + random.below(8) as usize],
        _ => vec![random.below(11) as usize],
    }
}

/// Goes through all combinations of the values above, each with some of the lengths; hands back how often each of 0, 1
/// and 2 was answered.
fn crossed(bytes: &[u8], random: &mut Random) -> Result<[usize; 3], String> {
    let mut answers = [0; 3];
    let shapes = SOME_D.iter().flat_map(|&d| SOME_S.iter().flat_map(move |&s| SOME_B.map(|b| (d, s, b))));
    for measures in shapes.flat_map(|(d, s, b)| SOME_PARITIES.map(|parities| [d, parities, s, b])) {
        for at in some_of_lengths(measures[1], random) {
            if let Some(code) = tried(measures, some_lengths(measures)[at], bytes)? {
                answers[code as usize] += 1;
            }
        }
    }
    Ok(answers)
}

/// Makes so many calls with random numbers and lengths, among them those of the other count; fails unless each does as
/// the model does.
fn at_random(count: usize, bytes: &[u8], random: &mut Random) -> Result<(), String> {
    for _ in 0..count {
        let (d, parities, s, b) = (near(16, random), some_parities(random), near(9, random), near(90, random));
        let len = match random.below(6) {
            0 | 1 => random.below(9000) as usize,
            2 => right_length([d, 3u32.wrapping_sub(parities), s, b]),
            _ => right_length([d, parities, s, b]),
        };
        tried([d, parities, s, b], len, bytes)?;
    }
    Ok(())
}

/// Makes the arrays, then goes through the listed, the crossed and the random cases.
pub fn group(seed: u64) -> Outcome {
    let random = &mut Random::new(seed, 5);
    let [arrays, stripes] = all_made(random)?;
    let bytes = random.bytes(MOST);
    for (d, parities, s, b, len, code) in REFUSED {
        refused(Call::MakeAll { d, parities, s, b }, &bytes, len, code)?;
    }
    let [accepted, ones, twos] = crossed(&bytes, random)?;
    at_random(5_000, &bytes, random)?;
    let made = format!("{arrays} arrays made, each of their {stripes} stripes as it is made by itself");
    let crossing = format!("crossed {accepted} accepted, {ones} with 1, {twos} with 2");
    Ok(format!("{made}; {} listed; {crossing}; 5000 random; seed {seed}", REFUSED.len()))
}
