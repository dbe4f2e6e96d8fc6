//! Sound sessions: measures that the program accepts, and call lines that it can read, chosen by the shelf's condition.

use super::lines::call_line;
use super::model::Bench;
use crate::random::Random;
use crate::shelf::cases::sequences;
use crate::shelf::harness::calls::{fetch, read, write, Call, Measures, Shelf};
use crate::shelf::harness::lists::pick;
use crate::shelf::harness::requests;
use crate::shelf::model::events::Seen;

/// The fields of a line, which are joined by single blanks.
pub type Fields = Vec<Vec<u8>>;

/// The line of some fields.
pub fn joined(fields: &[Vec<u8>]) -> Vec<u8> {
    fields.join(&b' ')
}

/// The field of a value.
pub fn digits(value: usize) -> Vec<u8> {
    value.to_string().into_bytes()
}

/// The fields of measures; the layout and the parities are none of them.
pub fn of_measures(m: Measures) -> Fields {
    let Measures { d, s, b, l, h, e, .. } = m;
    [d, s, b, l, h, e].map(digits).to_vec()
}

/// Random measures that the program accepts.
pub fn measures(random: &mut Random) -> Measures {
    loop {
        let m = Measures { layout: 0, parities: 2, ..sequences::measures(random) };
        if Bench::fresh(m).is_some() {
            return m;
        }
    }
}

/// The name of a call and the values that it uses; put back has a name that the program does not know.
fn words(call: Call) -> (&'static str, Vec<usize>) {
    match call {
        Call::Format => ("format", vec![]),
        Call::Start => ("start", vec![]),
        Call::Fail(member) => ("fail", vec![member]),
        Call::PutBack(member) => ("putback", vec![member]),
        Call::NewLog => ("newlog", vec![]),
        Call::Write { address, count } => ("write", vec![address, count]),
        Call::Read { address, count } => ("read", vec![address, count]),
        Call::Fetch { address, count } => ("fetch", vec![address, count]),
        Call::Resync => ("resync", vec![]),
        Call::Rebuild => ("rebuild", vec![]),
        Call::FullResync => ("full", vec![]),
    }
}

/// A value that a call does not use: mostly 0, else at a limit or anything below 2^32.
fn spare(random: &mut Random) -> usize {
    match random.below(8) {
        0 => [1, 255, 256, 257, 65_536][pick(5, random)],
        1 => u32::MAX as usize - pick(2, random),
        2 => pick(1 << 32, random),
        _ => 0,
    }
}

/// The byte of a write: mostly anything, at times at a limit.
fn fill(random: &mut Random) -> usize {
    match random.below(6) {
        0 => [0, 1, 254, 255][pick(4, random)],
        _ => pick(256, random),
    }
}

/// The fields of a call; a value that is none of the program's is put at the upper limit.
fn of_call(call: Call, random: &mut Random) -> Fields {
    let (name, mut given) = words(call);
    let last = if name == "write" { fill(random) } else { spare(random) };
    given.resize_with(2, || spare(random));
    given.push(last);
    let limit = u32::MAX as usize;
    let given = given.into_iter().map(|value| digits(if value > limit { limit - value % 4 } else { value }));
    [name.into()].into_iter().chain(given).collect()
}

/// A random call that the program has.
fn next_call(shelf: &Shelf, is_busy: bool, random: &mut Random) -> Call {
    loop {
        let (call, _) = sequences::next_call(shelf, is_busy, random);
        if !matches!(call, Call::PutBack(_)) {
            return call;
        }
    }
}

/// The call lines of a session over these measures, which the program accepts. Fails if one of them can't be read.
pub fn calls(m: Measures, most: usize, random: &mut Random) -> Result<Vec<Fields>, String> {
    let mut bench = Bench::fresh(m).ok_or_else(|| format!("{m:?} is no shelf of the program"))?;
    let (is_busy, mut calls) = (random.below(2) == 0, Vec::new());
    for _ in 0..pick(most + 1, random) {
        let fields = of_call(next_call(&bench.shelf, is_busy, random), random);
        let line = joined(&fields);
        if call_line(&line).is_none() {
            return Err(format!("a sound line can't be read: {}", line.escape_ascii()));
        }
        bench.answer(&line, &mut Seen::default());
        calls.push(fields);
    }
    Ok(calls)
}

/// Measures of a small shelf with room for all its blocks in log and list.
pub fn roomy(random: &mut Random) -> Measures {
    let (d, s, b, h) = (2 + pick(5, random), 1 + pick(3, random), 1 + pick(3, random), 1 + pick(8, random));
    Measures { d, s, b, l: 4 * d * s, h, e: d * s, layout: 0, parities: 2 }
}

/// The call lines of a session in which members fail after logged writes, the first of them over all blocks of a stripe
/// but one: each block is read by both reads, then the array rebuilt, and each block read again.
pub fn losses(m: Measures, random: &mut Random) -> Vec<Fields> {
    let mut calls = vec![write(0, m.d * m.s), Call::Start];
    calls.push(write(pick(m.s, random) * m.d + pick(2, random), m.d - 1));
    let some_write = |random: &mut Random| requests::at(pick(m.d * m.s, random), m, random).call(write);
    calls.extend((0..pick(5, random)).map(|_| some_write(random)));
    calls.extend((0..1 + pick(2, random)).map(|_| Call::Fail(pick(m.d + 3, random))));
    let reads: Vec<Call> = (0..m.d * m.s).flat_map(|address| [read(address, 1), fetch(address, 1)]).collect();
    calls.extend(&reads);
    calls.push(Call::Rebuild);
    calls.extend(&reads);
    calls.push(Call::Resync);
    calls.into_iter().map(|call| of_call(call, random)).collect()
}
