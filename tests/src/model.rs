//! What the calls are to answer and to store, written anew from the rules and one column at a time: byte j of every
//! member of a stripe, data 0 to d-1, then P, then, with two parities, Q.

use crate::calls::Call;
use crate::field::{inverse, mul, power};

/// The most members that a stripe has: 16 data, P and Q.
const MEMBERS: usize = 18;

/// One byte of each member; those past the last one are unused.
type Column = [u8; MEMBERS];

/// The number that stripe_make_parity answers: that for an array of one stripe.
pub fn make_code(d: u32, parities: u32, b: u32, len: usize) -> u32 {
    make_all_code(d, parities, 1, b, len)
}

/// The number that stripe_recover answers.
pub fn recover_code(d: u32, parities: u32, b: u32, x: u32, y: u32, len: usize) -> u32 {
    match make_code(d, parities, b, len) {
        0 if u64::from(x.max(y)) >= u64::from(d) + u64::from(parities) => 6,
        0 if parities == 1 && x != y => 11,
        code => code,
    }
}

/// The number that probe_make_parity_all answers.
pub fn make_all_code(d: u32, parities: u32, s: u32, b: u32, len: usize) -> u32 {
    let ranges = [(d, 2..=16), (parities, 1..=2), (s, 1..=65536), (b, 1..=4096)];
    if ranges.iter().any(|(measure, range)| !range.contains(measure)) {
        1
    } else if len as u64 != (u64::from(d) + u64::from(parities)) * u64::from(s) * u64::from(b) {
        2
    } else {
        0
    }
}

/// P of a column: the sum of its data.
fn p_of(d: usize, column: &Column) -> u8 {
    column[..d].iter().fold(0, |sum, byte| sum ^ byte)
}

/// Q of a column: the sum of its data, each times 2 to the power of its number.
fn q_of(d: usize, column: &Column) -> u8 {
    let (mut sum, mut weight) = (0, 1);
    for &byte in &column[..d] {
        sum ^= mul(weight, byte);
        weight = mul(weight, 2);
    }
    sum
}

/// How a byte of data x is had where y is missing too (or is x again): a function of what P and Q lack, which is each
/// of them plus the sum of the data that is there.
fn solver(d: usize, x: usize, y: usize) -> Box<dyn Fn(u8, u8) -> u8> {
    let (weight_x, weight_y) = (power(2, x as u32), power(2, y as u32));
    if y < d && y != x {
        let divided = inverse(weight_x ^ weight_y);
        Box::new(move |p, q| mul(q ^ mul(weight_y, p), divided))
    } else if y == d {
        let divided = inverse(weight_x);
        Box::new(move |_, q| mul(q, divided))
    } else {
        Box::new(|p, _| p)
    }
}

/// A function that fills in the missing members x and y of a column with P and Q.
fn recovery(d: usize, x: usize, y: usize) -> impl Fn(&mut Column) {
    let solvers = [(x, solver(d, x, y)), (y, solver(d, y, x))];
    move |column| {
        let mut rest = *column;
        (rest[x], rest[y]) = (0, 0);
        let lack_p = column[d] ^ p_of(d, &rest);
        let lack_q = column[d + 1] ^ q_of(d, &rest);
        for (member, solve) in solvers.iter().filter(|(member, _)| *member < d) {
            column[*member] = solve(lack_p, lack_q);
        }
        make_missing(d, x, y, column);
    }
}

/// Fills in the missing member x of a column with P alone: any member is the sum of all others.
fn sum_of_others(x: usize, column: &mut Column) {
    column[x] = 0;
    column[x] = column.iter().fold(0, |sum, byte| sum ^ byte);
}

/// Makes P and Q of a column's data, each where it is x or y.
fn make_missing(d: usize, x: usize, y: usize, column: &mut Column) {
    if x == d || y == d {
        column[d] = p_of(d, column);
    }
    if x == d + 1 || y == d + 1 {
        column[d + 1] = q_of(d, column);
    }
}

/// The stripe of so many members with each column changed by a function; only the named members are taken from the
/// changed columns.
fn changed(all: usize, b: usize, stripe: &[u8], named: [usize; 2], change: impl Fn(&mut Column)) -> Vec<u8> {
    let mut after = stripe.to_vec();
    for j in 0..b {
        let mut column = [0; MEMBERS];
        for (member, byte) in column[..all].iter_mut().enumerate() {
            *byte = stripe[member * b + j];
        }
        change(&mut column);
        for member in named {
            after[member * b + j] = column[member];
        }
    }
    after
}

/// The stripe with P, or P and Q, made of its data.
pub fn made(d: usize, parities: usize, b: usize, stripe: &[u8]) -> Vec<u8> {
    let last = d + parities - 1;
    changed(d + parities, b, stripe, [d, last], |column| make_missing(d, d, last, column))
}

/// The stripe with members x and y recovered; with one parity they are the same.
pub fn recovered(d: usize, parities: usize, b: usize, x: usize, y: usize, stripe: &[u8]) -> Vec<u8> {
    match parities {
        1 => changed(d + 1, b, stripe, [x, x], |column| sum_of_others(x, column)),
        _ => changed(d + 2, b, stripe, [x, y], recovery(d, x, y)),
    }
}

/// The array of s stripes, kept by member, with the parity of each of them made. Byte k of every member is a column,
/// just as in a stripe whose blocks are whole members.
pub fn made_all(d: usize, parities: usize, s: usize, b: usize, array: &[u8]) -> Vec<u8> {
    made(d, parities, s * b, array)
}

/// The number that a call is to answer if it is told of a buffer of len bytes.
fn code(call: Call, len: usize) -> u32 {
    match call {
        Call::Make { d, parities, b } => make_code(d, parities, b, len),
        Call::Recover { d, parities, b, x, y } => recover_code(d, parities, b, x, y, len),
        Call::MakeAll { d, parities, s, b } => make_all_code(d, parities, s, b, len),
    }
}

/// The number that a call is to answer if it is told of a buffer of len bytes, and what it is to leave of the bytes.
/// There are fewer bytes than len only where the call is refused.
pub fn outcome(call: Call, bytes: &[u8], len: usize) -> (u32, Vec<u8>) {
    let code = code(call, len);
    if code != 0 {
        return (code, bytes.to_vec());
    }
    let [d, parities, s, b] = call.measures().map(|measure| measure as usize);
    let after = match call {
        Call::Recover { x, y, .. } => recovered(d, parities, b, x as usize, y as usize, bytes),
        _ => made_all(d, parities, s, b, bytes),
    };
    (0, after)
}
