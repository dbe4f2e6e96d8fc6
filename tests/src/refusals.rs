//! The numbers 1, 2, 6 and 11 of the calls on a stripe, with one parity and with two: when each is given, in which order,
//! and that a refused call stores nothing.

use crate::calls::Call;
use crate::model;
use crate::random::Random;
use crate::Outcome;

/// More bytes than any accepted stripe has. A call that is told of a longer buffer gets this many.
const MOST: usize = 18 * 4096 + 64;

pub const TOP: u32 = u32::MAX;
pub const HALF: u32 = 1 << 31;
pub const WRAP: usize = 1 << 32;

/// Cases for both calls: d, parities, b, the length told, the number due. Where 1 is due the length is that of
/// d + parities blocks, of another count, or what a wrap at 8, 16 or 32 bits makes of it.
const MEASURES: [(u32, u32, u32, usize, u32); 63] = [
    (0, 2, 1, 2, 1),
    (1, 2, 1, 3, 1),
    (17, 2, 1, 19, 1),
    (18, 2, 4096, 81920, 1),
    (HALF, 2, 1, HALF as usize + 2, 1),
    (HALF, 2, 2, 4, 1),
    (HALF + 2, 2, 2, 8, 1),
    (TOP, 2, 4, 4, 1),
    (TOP, 2, 1, WRAP + 1, 1),
    (TOP - 1, 2, 64, 0, 1),
    (256 + 2, 2, 1, 4, 1),
    (65536 + 2, 2, 1, 4, 1),
    (65534, 2, 65536, 0, 1),
    (2, 2, 0, 0, 1),
    (16, 2, 0, 0, 1),
    (2, 2, 4097, 16388, 1),
    (16, 2, 4097, 73746, 1),
    (2, 2, 1 << 30, 0, 1),
    (2, 2, TOP, 4 * TOP as usize, 1),
    (2, 2, TOP, WRAP - 4, 1),
    (2, 2, 65536 + 1, 4, 1),
    (TOP, 2, TOP, TOP as usize, 1),
    (0, 2, 0, 0, 1),
    (2, 2, 1, 3, 2),
    (2, 2, 1, 5, 2),
    (3, 2, 64, 0, 2),
    (16, 2, 4096, 73727, 2),
    (16, 2, 4096, 73729, 2),
    (2, 2, 1, 65536 + 4, 2),
    (2, 2, 1, WRAP + 4, 2),
    (16, 2, 4096, usize::MAX, 2),
    (2, 0, 1, 2, 1),
    (2, 0, 1, 3, 1),
    (2, 3, 1, 5, 1),
    (2, 3, 1, 4, 1),
    (2, 255, 1, 257, 1),
    (2, 255, 1, 1, 1),
    (2, 256 + 1, 1, 3, 1),
    (2, 65536 + 2, 1, 4, 1),
    (2, HALF + 1, 2, 6, 1),
    (2, TOP, 1, 1, 1),
    (2, TOP, 1, WRAP + 1, 1),
    (16, 0, 4096, 65536, 1),
    (16, 3, 4096, 77824, 1),
    (16, TOP, 4096, 61440, 1),
    (1, 1, 1, 2, 1),
    (17, 1, 1, 18, 1),
    (TOP, 1, 64, 0, 1),
    (2, 1, 0, 0, 1),
    (2, 1, 4097, 12291, 1),
    (17, 1, 4097, 3, 1),
    (17, 3, 0, 0, 1),
    (2, 1, 1, 2, 2),
    (2, 1, 1, 4, 2),
    (3, 1, 64, 0, 2),
    (3, 1, 64, 320, 2),
    (16, 1, 4096, 69631, 2),
    (16, 1, 4096, 69633, 2),
    (16, 1, 4096, 73728, 2),
    (16, 2, 4096, 69632, 2),
    (2, 1, 1, 65536 + 3, 2),
    (2, 1, 1, WRAP + 3, 2),
    (16, 1, 4096, usize::MAX, 2),
];

/// Cases for stripe_recover: d, parities, b, x, y, the length told, the number due.
const MEMBERS: [(u32, u32, u32, u32, u32, usize, u32); 47] = [
    (2, 2, 1, 4, 0, 4, 6),
    (2, 2, 1, 0, 4, 4, 6),
    (2, 2, 1, 4, 4, 4, 6),
    (2, 2, 1, 3, 4, 4, 6),
    (16, 2, 4096, 18, 0, 73728, 6),
    (16, 2, 4096, 17, 18, 73728, 6),
    (5, 2, 64, TOP, 0, 448, 6),
    (5, 2, 64, 0, TOP, 448, 6),
    (5, 2, 64, TOP, TOP, 448, 6),
    (5, 2, 64, TOP - 6, 1, 448, 6),
    (5, 2, 64, 1, HALF, 448, 6),
    (5, 2, 64, 256, 1, 448, 6),
    (5, 2, 64, 1, 65536, 448, 6),
    (1, 2, 64, 9, 0, 448, 1),
    (5, 2, 0, 0, 9, 448, 1),
    (17, 2, 4097, TOP, TOP, 3, 1),
    (5, 2, 64, 9, 0, 447, 2),
    (5, 2, 64, 0, 9, 449, 2),
    (5, 2, 64, TOP, TOP, 0, 2),
    (5, 2, 64, 6, 6, 449, 2),
    (2, 1, 1, 0, 1, 3, 11),
    (2, 1, 1, 1, 0, 3, 11),
    (2, 1, 1, 2, 0, 3, 11),
    (2, 1, 1, 0, 2, 3, 11),
    (16, 1, 4096, 15, 16, 69632, 11),
    (16, 1, 4096, 14, 15, 69632, 11),
    (2, 1, 1, 3, 0, 3, 6),
    (2, 1, 1, 0, 3, 3, 6),
    (2, 1, 1, 3, 3, 3, 6),
    (2, 1, 1, 2, 3, 3, 6),
    (16, 1, 4096, 17, 17, 69632, 6),
    (16, 1, 4096, 16, 17, 69632, 6),
    (5, 1, 64, TOP, 0, 384, 6),
    (5, 1, 64, 0, TOP, 384, 6),
    (5, 1, 64, TOP, TOP, 384, 6),
    (5, 1, 64, 256 + 1, 1, 384, 6),
    (5, 1, 64, 1, 65536 + 1, 384, 6),
    (5, 1, 64, HALF, HALF, 384, 6),
    (1, 1, 64, 9, 0, 384, 1),
    (5, 0, 64, 0, 1, 320, 1),
    (5, 3, 64, 7, 7, 512, 1),
    (5, TOP, 64, 9, 0, 384, 1),
    (5, 1, 64, 0, 1, 383, 2),
    (5, 1, 64, 9, 0, 385, 2),
    (5, 1, 64, 0, 1, 448, 2),
    (5, 1, 64, 6, 6, 448, 2),
    (5, 2, 64, 0, 1, 384, 2),
];

/// Fails unless the call is refused with the number and leaves the buffer as it was. It gets as many of the bytes as it
/// is told of, or all.
pub fn refused(call: Call, bytes: &[u8], len: usize, code: u32) -> Result<(), String> {
    let lent = &bytes[..len.min(bytes.len())];
    call.expect_with_length(lent, len, code, lent)
}

/// Goes through the listed cases; each of MEASURES also with members that are sound, and with ones that 6 or, with one
/// parity, 11 would refuse.
fn listed(bytes: &[u8]) -> Result<usize, String> {
    let mut cases = 0;
    for (d, parities, b, len, code) in MEASURES {
        refused(Call::Make { d, parities, b }, bytes, len, code)?;
        for (x, y) in [(0, 1), (0, 0), (TOP, 0), (0, TOP)] {
            refused(Call::Recover { d, parities, b, x, y }, bytes, len, code)?;
        }
        cases += 5;
    }
    for (d, parities, b, x, y, len, code) in MEMBERS {
        refused(Call::Recover { d, parities, b, x, y }, bytes, len, code)?;
        cases += 1;
    }
    Ok(cases)
}

/// The values of d, of parities and of b that the crossing takes: at, around and far from the limits, also modulo 2^8
/// and 2^16.
const SOME_D: [u32; 15] = [0, 1, 2, 3, 15, 16, 17, 18, 255, 258, 65538, HALF, HALF + 2, TOP - 1, TOP];
pub const SOME_PARITIES: [u32; 7] = [0, 1, 2, 3, 255, 258, TOP];
const SOME_B: [u32; 11] = [0, 1, 2, 16, 65, 4095, 4096, 4097, 65537, HALF, TOP];

/// The length of d + parities blocks of b bytes, modulo 2^64.
fn right_length(d: u32, parities: u32, b: u32) -> usize {
    (d as usize + parities as usize).wrapping_mul(b as usize)
}

/// The lengths that the crossing tells: the right one, its neighbours, those of one parity less and one more, and what
/// wraps make of it.
fn some_lengths(d: u32, parities: u32, b: u32) -> [usize; 10] {
    let right = right_length(d, parities, b);
    let wrapped = d.wrapping_add(parities).wrapping_mul(b) as usize;
    [
        right,
        right.wrapping_sub(1),
        right.wrapping_add(1),
        right.wrapping_sub(b as usize),
        right.wrapping_add(b as usize),
        0,
        wrapped,
        right.wrapping_add(65536),
        right.wrapping_add(WRAP),
        usize::MAX,
    ]
}

/// The members that the crossing names for d: the first, the last three that are there with two parities and those
/// beyond.
fn some_members(d: u32) -> [u32; 8] {
    [0, d.wrapping_sub(1), d, d.wrapping_add(1), d.wrapping_add(2), d | 256, HALF, TOP]
}

/// The pairs of these that the crossing names: all of them, or every thirteenth, from another one on by turns.
fn some_pairs(d: u32, all: bool, turn: usize) -> impl Iterator<Item = (u32, u32)> {
    let members = some_members(d);
    let (from, step) = if all { (0, 1) } else { (turn % 13, 13) };
    (from..64).step_by(step).map(move |k| (members[k / 8], members[k % 8]))
}

/// Makes a call, accepted or refused, on as many of the bytes as it is told of, or on all; fails unless it does as the
/// model does. Hands back the number answered.
pub fn as_model(call: Call, bytes: &[u8], len: usize) -> Result<u32, String> {
    let lent = &bytes[..len.min(bytes.len())];
    let (code, after) = model::outcome(call, lent, len);
    call.expect_with_length(lent, len, code, &after)?;
    Ok(code)
}

/// Goes through all combinations of the values above, with all pairs of members where they are looked at; hands back how
/// often each of 0 to 11 was answered.
fn crossed(bytes: &[u8]) -> Result<[usize; 12], String> {
    let (mut answers, mut turn) = ([0; 12], 0);
    let mut count = |code: u32| answers[code as usize] += 1;
    let widths = SOME_D.iter().flat_map(|&d| SOME_PARITIES.map(|parities| (d, parities)));
    for (d, parities, b) in widths.flat_map(|(d, parities)| SOME_B.map(|b| (d, parities, b))) {
        for len in some_lengths(d, parities, b) {
            let code = as_model(Call::Make { d, parities, b }, bytes, len)?;
            count(code);
            turn += 1;
            for (x, y) in some_pairs(d, code == 0, turn) {
                count(as_model(Call::Recover { d, parities, b, x, y }, bytes, len)?);
            }
        }
    }
    Ok(answers)
}

/// A random number that is often near the limit and sometimes any of 32 bits.
pub fn near(limit: u64, random: &mut Random) -> u32 {
    match random.below(8) {
        0 => random.next() as u32,
        1 => TOP - random.below(4) as u32,
        _ => random.below(limit + 3) as u32,
    }
}

/// A random count of parities that is mostly 1 or 2.
pub fn some_parities(random: &mut Random) -> u32 {
    match random.below(8) {
        0 => near(2, random),
        k => 1 + (k % 2) as u32,
    }
}

/// Makes so many calls of each kind with random numbers and lengths, among them the length of the other count; fails
/// unless each does as the model does. Hands back how often a recovery got each of 0 to 11.
fn at_random(count: usize, bytes: &[u8], random: &mut Random) -> Result<[usize; 12], String> {
    let mut answers = [0; 12];
    for _ in 0..count {
        let (d, parities, b) = (near(16, random), some_parities(random), near(90, random));
        let len = match random.below(6) {
            0 | 1 => random.below(2000) as usize,
            2 => right_length(d, 3u32.wrapping_sub(parities), b),
            _ => right_length(d, parities, b),
        };
        let (x, other) = (near(u64::from(d) + 1, random), near(u64::from(d) + 1, random));
        let y = if random.below(3) == 0 { x } else { other };
        as_model(Call::Make { d, parities, b }, bytes, len)?;
        answers[as_model(Call::Recover { d, parities, b, x, y }, bytes, len)? as usize] += 1;
    }
    Ok(answers)
}

/// What a row of answers shows, by the number.
fn shown(answers: [usize; 12]) -> String {
    let [accepted, ones, twos, _, _, _, sixes, _, _, _, _, elevens] = answers;
    format!("{accepted} accepted, {ones} with 1, {twos} with 2, {sixes} with 6, {elevens} with 11")
}

/// Goes through the listed, the crossed and the random cases.
pub fn group(seed: u64) -> Outcome {
    let random = &mut Random::new(seed, 4);
    let bytes = random.bytes(MOST);
    let cases = listed(&bytes)?;
    let crossing = shown(crossed(&bytes)?);
    let recoveries = shown(at_random(20_000, &bytes, random)?);
    Ok(format!("{cases} listed; crossed {crossing}; 20000 random stripes made, recovered {recoveries}; seed {seed}"))
}
