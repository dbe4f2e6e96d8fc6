//! The tests of the bench program: stored and random inputs, each compared with the model line by line.

mod damage;
mod edges;
mod inputs;
mod lines;
mod model;
mod program;
mod reached;
mod sound;
mod stored;

use std::path::Path;

use crate::random::Random;
use crate::shelf::cases::printed::INPUT;
use crate::shelf::harness::lists::pick;
use crate::shelf::model::events::Seen;
use crate::Outcome;
use inputs::{Maker, KINDS};
use program::Pieces;
use reached::Reached;

/// How often each number of each call, each way of the work and each damage of a line must occur.
const AT_LEAST: usize = 10;

/// The most bytes of a line, and the most lines, of which a fault shows all.
const SHOWN: (usize, usize) = (200, 120);

/// The pieces in which an input is handed over: whole, by bytes, by a few, by thousands, or by sizes of all kinds. Some
/// of them, from the first one or from a later one on, are read one by one.
fn pieces(length: usize, random: &mut Random) -> Pieces {
    let few = 1 + pick(40, random);
    let sizes = match random.below(8) {
        0 | 1 => vec![length],
        2 => vec![1],
        3 | 4 => vec![few],
        5 => vec![1000 + pick(9000, random)],
        6 => vec![4096],
        _ => [1, few, 2, 700, 4096].map(|most| 1 + pick(most, random)).to_vec(),
    };
    let from = [0, pick(200, random)][pick(2, random)];
    Pieces { sizes, awaited: from..from + 40 }
}

/// A line as a fault shows it.
fn shown(line: &[u8]) -> String {
    match line.len() {
        length if length > SHOWN.0 => {
            let (head, tail) = (&line[..SHOWN.0 / 2], &line[length - SHOWN.0 / 4..]);
            format!("`{}`.. {length} bytes ..`{}`", head.escape_ascii(), tail.escape_ascii())
        }
        _ => format!("`{}`", line.escape_ascii()),
    }
}

/// An input as a fault shows it.
fn shown_input(input: &[u8]) -> String {
    let lines: Vec<String> = input.split_inclusive(|&byte| byte == b'\n').take(SHOWN.1).map(shown).collect();
    lines.join("\n")
}

/// The place at which two outputs first differ, if they do: the line's number, what is due, and what is written.
fn difference(due: &[String], written: &[u8]) -> Option<String> {
    let due: Vec<&[u8]> = due.iter().map(|line| line.as_bytes()).chain([&b""[..]]).collect();
    let written: Vec<&[u8]> = written.split(|&byte| byte == b'\n').collect();
    let at = (0..due.len().max(written.len())).find(|&at| due.get(at) != written.get(at))?;
    let [due, written] = [&due, &written].map(|lines| lines.get(at).map_or("nothing".into(), |line| shown(line)));
    Some(format!("line {} is {written}, not {due}", at + 1))
}

/// Runs the program on an input; fails unless it writes the lines that are due.
fn compare(file: &Path, name: &str, input: &[u8], due: &[String], random: &mut Random) -> Result<(), String> {
    let written = program::run(file, input, &pieces(input.len(), random));
    match written.map(|written| difference(due, &written)) {
        Ok(None) => Ok(()),
        Ok(Some(fault)) | Err(fault) => Err(format!("{name}: {fault}; the input:\n{}\n", shown_input(input))),
    }
}

/// Has the stored inputs run, which the model must know too. Hands back how many there are.
fn run_stored(file: &Path, random: &mut Random) -> Result<usize, String> {
    let all = stored::all();
    for stored in &all {
        let input = stored.input.as_bytes();
        if model::output(input, &mut Seen::default()) != stored.output {
            return Err(format!("{}: the model has other lines", stored.name));
        }
        compare(file, stored.name, input, &stored.output, random)?;
    }
    Ok(all.len())
}

/// Has the customer's session run, cut at every byte. Hands back how many inputs that is.
fn run_cuts(file: &Path, random: &mut Random) -> Result<usize, String> {
    let input = INPUT.as_bytes();
    for length in 0..=input.len() {
        let cut = &input[..length];
        compare(file, "the printed session, cut", cut, &model::output(cut, &mut Seen::default()), random)?;
    }
    Ok(input.len() + 1)
}

/// Runs the program on the stored and on the random inputs.
pub fn group(seed: u64) -> Outcome {
    let file = program::file()?;
    let mut maker = Maker { random: Random::new(seed, 10), damages: [0; damage::COUNT] };
    let (mut seen, mut reached) = (Seen::default(), Reached::default());
    let stored = run_stored(&file, &mut maker.random)?;
    let cuts = run_cuts(&file, &mut maker.random)?;
    let (mut kinds, mut total) = (Vec::new(), 0);
    for (kind, count, make) in KINDS {
        for number in 1..=count {
            let input = make(&mut maker)?;
            let due = model::output(&input, &mut seen);
            compare(&file, &format!("input {number} {kind}"), &input, &due, &mut maker.random)?;
            reached.count(&due);
        }
        kinds.push(format!("{count} {kind}"));
        total += count;
    }
    let (answers, ways) = (reached.complete(AT_LEAST)?, seen.of_bench(AT_LEAST)?);
    let damages = maker.damages.into_iter().min().filter(|&least| least >= AT_LEAST).ok_or("a damage is too rare")?;
    Ok(format!(
        "{total} random inputs, {}; {} lines as the model has them, each number of each call {answers} times at least, \
         each way of the work {ways}, each damage of a line {damages}; {stored} inputs by hand, the printed session, \
         the same with fetch, K4 to K13, rebuilds of parity, both reads and seven or eight measures; {cuts} of that \
         session cut at every byte; seed {seed}",
        kinds.join(", "),
        reached.lines()
    ))
}
