//! Calls on a shelf with what is due given by hand. The model is not asked.

use super::calls::{Buffer, Call, Measures, Record, Shelf};
use super::reports::Reports;
use super::stand::Stand;
use crate::shelf::model::due::Due;
use crate::shelf::model::numbers::{lengths, NONE};

/// What a call leaves where it is not what was there: array, log, caller's data, the words of the list up to the last
/// one that is not none; or the stripe that resync tells where it is not S.
#[derive(Clone, Copy)]
pub enum Left {
    Array(&'static [u8]),
    Log(&'static [u8]),
    Data(&'static [u8]),
    List(&'static [u32]),
    Stripe(usize),
}

/// A step: the call, the caller's data, the line that is due (code, mode, listed, next), the members that have then
/// failed, and what is left.
pub type Step = (Call, &'static [u8], [usize; 4], &'static [usize], &'static [Left]);

/// The flags of these members.
fn flags(members: &[usize]) -> [u8; 19] {
    let mut flags = [0; 19];
    members.iter().for_each(|&member| flags[member] = 1);
    flags
}

/// A shelf under a script.
pub struct Script {
    shelf: Shelf,
    byte: u8,
    reports: Reports,
}

impl Script {
    /// A shelf of these measures that format has set up; its parity is fixed, P and Q.
    pub fn fresh(d: usize, s: usize, b: usize, [l, h, e]: [usize; 3], stand: &mut Stand) -> Result<Script, String> {
        Script::of(Measures { d, s, b, l, h, e, layout: 0, parities: 2 }, stand)
    }

    /// The same where parity rotates.
    pub fn rotating(d: usize, s: usize, b: usize, [l, h, e]: [usize; 3], stand: &mut Stand) -> Result<Script, String> {
        Script::of(Measures { d, s, b, l, h, e, layout: 1, parities: 2 }, stand)
    }

    /// The same of any measures.
    pub fn of(m: Measures, stand: &mut Stand) -> Result<Script, String> {
        let [array, log, list] = lengths(m).map(|length| Buffer::of(vec![77; length as usize]));
        let record = Record { measures: m, mode: 9, next: 9, listed: 9, failed: [1; 19] };
        let shelf = Shelf { record, array, log, list, data: Buffer::empty() };
        let mut script = Script { shelf, byte: 77, reports: Reports::default() };
        let mut due = Due::nothing(Call::Format, &script.shelf, 0);
        due.record = Record { measures: m, mode: 0, next: 0, listed: 0, failed: [0; 19] };
        due.array = Some(vec![0; script.shelf.array.told]);
        due.log = Some(vec![0; script.shelf.log.told]);
        due.list = Some(vec![255; script.shelf.list.told]);
        stand.expect(Call::Format, &script.shelf, &due)?;
        stand.hand_on(&mut script.shelf);
        Ok(script)
    }

    /// Puts these words into the list, from the first one on; the rest becomes none.
    pub fn put_list(&mut self, words: &[u32]) {
        self.shelf.list.bytes = self.list(words);
    }

    /// The bytes of a list that begins with these words and is none from there on.
    fn list(&self, words: &[u32]) -> Vec<u8> {
        let mut bytes: Vec<u8> = words.iter().flat_map(|word| word.to_le_bytes()).collect();
        bytes.resize(self.shelf.list.told, NONE as u8);
        bytes
    }

    /// Makes the steps one after another, the bytes of failed members changing before each; a member that is put back
    /// holds what it held when it was reported.
    pub fn play(&mut self, steps: &[Step], stand: &mut Stand) -> Result<(), String> {
        for (number, step) in steps.iter().enumerate() {
            self.spoil();
            self.reports.give(step.0, &mut self.shelf);
            self.step(step, stand).map_err(|fault| format!("step {}: {fault}", number + 1))?;
        }
        Ok(())
    }

    /// Overwrites the failed members.
    fn spoil(&mut self) {
        self.byte = self.byte.wrapping_add(59);
        for member in self.shelf.failed() {
            self.shelf.member(member).fill(self.byte);
        }
    }

    /// Makes a step.
    fn step(&mut self, &(call, data, line, failed, left): &Step, stand: &mut Stand) -> Result<(), String> {
        self.shelf.data = Buffer::of(data.to_vec());
        let [code, mode, listed, next] = line;
        let mut due = Due::nothing(call, &self.shelf, code);
        due.record = Record { mode, listed, next, failed: flags(failed), ..self.shelf.record };
        for left in left {
            match *left {
                Left::Array(bytes) => due.array = Some(bytes.to_vec()),
                Left::Log(bytes) => due.log = Some(bytes.to_vec()),
                Left::Data(bytes) => due.data = Some(bytes.to_vec()),
                Left::List(words) => due.list = Some(self.list(words)),
                Left::Stripe(stripe) => due.stripe = Some(stripe),
            }
        }
        stand.expect(call, &self.shelf, &due)?;
        stand.hand_on(&mut self.shelf);
        if code == 0 {
            self.reports.take(call, &mut self.shelf);
        }
        Ok(())
    }
}
