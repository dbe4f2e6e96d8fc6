//! What the bench program must write: a shelf as the model of the calls has it, driven by the lines of an input.

use super::lines::{call_line, lines, measures, CallLine};
use crate::shelf::harness::calls::{Buffer, Call, Measures, Record, Shelf};
use crate::shelf::model::due::Due;
use crate::shelf::model::events::Seen;
use crate::shelf::model::numbers::{findings, lengths};
use crate::shelf::model::works::outcome;

/// The line of column names, and the line for measures that are bad or can't be read.
pub const COLUMNS: &str = "call code mode listed next first";
const BAD_MEASURES: &str = "format 1 0 0 0 0";

/// The most bytes that array, log and list have together.
pub const ROOM: u128 = 32_768;

/// The shelf of the program.
pub struct Bench {
    pub shelf: Shelf,
}

impl Bench {
    /// A shelf of these measures that format has set up; none where it gets 1.
    pub fn fresh(m: Measures) -> Option<Bench> {
        if lengths(m).into_iter().sum::<u128>() > ROOM {
            return None;
        }
        let record = Record { measures: m, mode: 3, next: 3, listed: 3, failed: [1; 19] };
        let [array, log, list] = lengths(m).map(|length| Buffer::of(vec![3; length as usize]));
        let shelf = Shelf { record, array, log, list, data: Buffer::empty() };
        let mut bench = Bench { shelf };
        let (code, _) = bench.made(Call::Format, Buffer::empty(), &mut Seen::default());
        (code == 0).then_some(bench)
    }

    /// Makes a call; hands back its number and the first byte read.
    fn made(&mut self, call: Call, data: Buffer, seen: &mut Seen) -> (usize, u8) {
        self.shelf.data = data;
        let code = findings(call, &self.shelf).code();
        let (due, events) = outcome(call, &self.shelf, code);
        seen.count(self.shelf.record.measures, events);
        let first = due.data.as_ref().and_then(|data| data.first().copied());
        self.take(due);
        (code, first.unwrap_or(0))
    }

    /// Takes over what a call leaves.
    fn take(&mut self, due: Due) {
        let shelf = &mut self.shelf;
        shelf.record = due.record;
        due.array.into_iter().for_each(|bytes| shelf.array.bytes = bytes);
        due.log.into_iter().for_each(|bytes| shelf.log.bytes = bytes);
        due.list.into_iter().for_each(|bytes| shelf.list.bytes = bytes);
    }

    /// The caller's data: as many bytes as the count asks for, each the fill byte; none where they are more than the
    /// shelf can have.
    fn data(&self, line: &CallLine) -> Buffer {
        let Some((_, count)) = line.call.blocks() else {
            return Buffer::empty();
        };
        let told = count * self.shelf.record.measures.b;
        let lent = if told as u128 <= ROOM { told } else { 0 };
        Buffer { bytes: vec![line.third as u8; lent], told }
    }

    /// The line to be written after a call.
    fn written(&self, name: &str, code: usize, first: u8) -> String {
        let Record { mode, listed, next, .. } = self.shelf.record;
        format!("{name} {code} {mode} {listed} {next} {first}")
    }

    /// The line to be written for a call line.
    pub fn answer(&mut self, line: &[u8], seen: &mut Seen) -> String {
        match call_line(line) {
            None => self.written("bad", 15, 0),
            Some(read) => {
                let (code, first) = self.made(read.call, self.data(&read), seen);
                self.written(read.name, code, first)
            }
        }
    }
}

/// The lines that the program must write for an input. The ways in which its calls do their work are counted.
pub fn output(input: &[u8], seen: &mut Seen) -> Vec<String> {
    let lines = lines(input);
    let mut output = vec![COLUMNS.to_string()];
    let Some(mut bench) = lines.get(1).and_then(|line| measures(line)).and_then(Bench::fresh) else {
        output.push(BAD_MEASURES.to_string());
        return output;
    };
    output.push(bench.written("format", 0, 0));
    output.extend(lines.iter().skip(3).map(|line| bench.answer(line, seen)));
    output
}
