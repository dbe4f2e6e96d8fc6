//! A stand on which calls are made: on copies of the buffers with guard bytes on both sides. The number, the record
//! handed back and all buffers, the caller's data included, are compared with what is due.

use super::calls::{Answered, Call, Record, Shelf};
use crate::shelf::model::due::Due;
use crate::shelf::model::events::Seen;
use crate::shelf::model::numbers;
use crate::shelf::model::works;

/// How many guard bytes stand after a buffer, and at most before it.
const GUARD: usize = 64;

/// A guard byte, by its distance from the start of the room.
fn guard(at: usize) -> u8 {
    (at as u8).wrapping_mul(89).wrapping_add(165)
}

/// A guarded copy of a buffer.
#[derive(Default)]
struct Room {
    start: usize,
    end: usize,
    bytes: Vec<u8>,
}

impl Room {
    /// Takes in a copy of a buffer, moved by 0 to 15 bytes.
    fn take(&mut self, buffer: &[u8], shift: usize) {
        (self.start, self.end) = (GUARD - shift, GUARD - shift + buffer.len());
        self.bytes.clear();
        self.bytes.extend((0..self.start).map(guard));
        self.bytes.extend_from_slice(buffer);
        self.bytes.extend((self.end..self.end + GUARD).map(guard));
    }

    /// The address of the copy.
    fn address(&mut self) -> *mut u8 {
        self.bytes[self.start..].as_mut_ptr()
    }

    /// The bytes that the copy now has.
    fn found(&self) -> &[u8] {
        &self.bytes[self.start..self.end]
    }

    /// Fails if a guard byte was overwritten.
    fn guarded(&self) -> Result<(), String> {
        match (0..self.start).chain(self.end..self.bytes.len()).find(|&at| self.bytes[at] != guard(at)) {
            None => Ok(()),
            Some(at) => Err(format!("byte {} is overwritten", at as isize - self.start as isize)),
        }
    }

    /// Fails unless the copy holds these bytes and no guard byte was overwritten.
    fn holds(&self, expected: &[u8]) -> Result<(), String> {
        self.guarded()?;
        let found = self.found();
        if found == expected {
            return Ok(());
        }
        match (0..expected.len()).find(|&at| found[at] != expected[at]) {
            None => Ok(()),
            Some(at) => Err(format!("byte {at} is {}, not {}", found[at], expected[at])),
        }
    }
}

/// The rooms in which calls are made, the record that the last one handed back, how many were made, and in which ways.
#[derive(Default)]
pub struct Stand {
    array: Room,
    log: Room,
    list: Room,
    data: Room,
    record: Option<Record>,
    pub calls: usize,
    pub seen: Seen,
}

impl Stand {
    /// Makes a call; what it leaves of the buffers stays in the rooms.
    fn made(&mut self, call: Call, shelf: &Shelf) -> Answered {
        self.calls += 1;
        self.array.take(&shelf.array.bytes, self.calls % 16);
        self.log.take(&shelf.log.bytes, self.calls / 16 % 16);
        self.list.take(&shelf.list.bytes, self.calls / 3 % 16);
        self.data.take(&shelf.data.bytes, self.calls / 5 % 16);
        let lent = [
            (self.array.address(), shelf.array.told),
            (self.log.address(), shelf.log.told),
            (self.list.address(), shelf.list.told),
            (self.data.address(), shelf.data.told),
        ];
        // SAFETY: the addresses are those of buffers as long as is told, or the call must not look at the bytes.
        let answer = unsafe { call.made(shelf.record, lent) };
        self.record = Some(answer.2);
        answer
    }

    /// The number that a call answers; fails if it overwrites a guard byte.
    pub fn answer(&mut self, call: Call, shelf: &Shelf) -> Result<usize, String> {
        let (code, ..) = self.made(call, shelf);
        [&self.array, &self.log, &self.list, &self.data].into_iter().try_for_each(Room::guarded)?;
        Ok(code)
    }

    /// Fails unless a call answers and leaves what is due.
    pub fn expect(&mut self, call: Call, shelf: &Shelf, due: &Due) -> Result<(), String> {
        let answer = self.made(call, shelf);
        self.compare(call, shelf, answer, due)
    }

    /// Makes a read; hands back its number and the caller's data after it. Fails if it stores anything but that data,
    /// stores that where it is refused, or hands back another record.
    pub fn read(&mut self, call: Call, shelf: &Shelf) -> Result<(usize, Vec<u8>), String> {
        let answer = self.made(call, shelf);
        let mut due = Due::nothing(call, shelf, answer.0);
        due.data = (answer.0 == 0).then(|| self.data().to_vec());
        self.compare(call, shelf, answer, &due)?;
        Ok((answer.0, self.data().to_vec()))
    }

    /// Fails unless what a call answered and what it left in the rooms are what is due.
    fn compare(&self, call: Call, shelf: &Shelf, answer: Answered, due: &Due) -> Result<(), String> {
        let (code, stripe, record) = answer;
        let fault = |what: String| Err(format!("{call:?} {what}; the shelf: {shelf}"));
        if code != due.code {
            return fault(format!("answers {code}, not {}", due.code));
        }
        if stripe != due.stripe {
            return fault(format!("answers {code} as it must, but tells stripe {stripe:?}, not {:?}", due.stripe));
        }
        if record != due.record {
            return fault(format!("answers {code} as it must, but hands back {record:?}, not {:?}", due.record));
        }
        match self.buffers(shelf, due) {
            Ok(()) => Ok(()),
            Err((name, what)) => fault(format!("answers {code} as it must, but of the {name} {what}")),
        }
    }

    /// Fails unless the buffers hold what is due, and names the one that does not.
    fn buffers(&self, shelf: &Shelf, due: &Due) -> Result<(), (&'static str, String)> {
        let Shelf { array, log, list, data, .. } = shelf;
        self.array.holds(due.array.as_ref().unwrap_or(&array.bytes)).map_err(|what| ("array", what))?;
        self.log.holds(due.log.as_ref().unwrap_or(&log.bytes)).map_err(|what| ("log", what))?;
        self.list.holds(due.list.as_ref().unwrap_or(&list.bytes)).map_err(|what| ("list", what))?;
        self.data.holds(due.data.as_ref().unwrap_or(&data.bytes)).map_err(|what| ("caller's data", what))
    }

    /// Fails unless a call does as the model does. Hands back what the model found. Fails too if the model's two ways to
    /// test a list do not agree.
    pub fn as_model(&mut self, call: Call, shelf: &Shelf) -> Result<numbers::Findings, String> {
        let found = numbers::findings(call, shelf);
        if !found.agree() {
            let (code, names) = (found.code(), found.faults[2].names());
            return Err(format!("by the model {call:?} answers {code} though it finds [{names}]; the shelf: {shelf}"));
        }
        let (due, events) = works::outcome(call, shelf, found.code());
        self.expect(call, shelf, &due)?;
        self.seen.count(shelf.record.measures, events);
        Ok(found)
    }

    /// Hands the record, array, log and list on as the last call left them.
    pub fn hand_on(&self, shelf: &mut Shelf) {
        shelf.record = self.record.unwrap_or(shelf.record);
        for (buffer, room) in
            [(&mut shelf.array, &self.array), (&mut shelf.log, &self.log), (&mut shelf.list, &self.list)]
        {
            buffer.bytes.copy_from_slice(room.found());
        }
    }

    /// The caller's data as the last call left it.
    pub fn data(&self) -> &[u8] {
        self.data.found()
    }
}
