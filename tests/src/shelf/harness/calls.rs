//! The calls on a shelf: what is lent to them, and the functions of the archive.

use std::fmt;

/// The measures of a shelf, in the order of the record. The layout is 0 where parity is fixed, 1 where it rotates. Of
/// parities there are two, P and Q, or one, P alone.
#[repr(C)]
#[derive(Clone, Copy, Debug, PartialEq)]
pub struct Measures {
    pub d: usize,
    pub s: usize,
    pub b: usize,
    pub l: usize,
    pub h: usize,
    pub e: usize,
    pub layout: usize,
    pub parities: usize,
}

impl Measures {
    /// How many members the array has, and so the number of the log, which comes after them; it may be any number where
    /// the measures are not within their ranges.
    pub fn log(self) -> usize {
        self.d.saturating_add(self.parities)
    }
}

/// The record of a shelf. A flag is a byte, 0 or 1.
#[repr(C)]
#[derive(Clone, Copy, Debug, PartialEq)]
pub struct Record {
    pub measures: Measures,
    pub mode: usize,
    pub next: usize,
    pub listed: usize,
    pub failed: [u8; 19],
}

/// What a call hands back.
#[repr(C)]
#[derive(Clone, Copy)]
pub struct Answer {
    pub code: usize,
    pub record: Record,
}

/// What resync hands back.
#[repr(C)]
#[derive(Clone, Copy)]
pub struct Resynced {
    pub code: usize,
    pub stripe: usize,
    pub record: Record,
}

/// The functions of the archive, as include/shelf.h declares them.
mod archive {
    use super::{Answer, Record, Resynced};

    /// A buffer that is stored into, and one that is only looked at.
    type Into = *mut u8;
    type From = *const u8;

    /// Declares calls on some blocks: what they do with the caller's data, and with the three buffers.
    macro_rules! on_blocks {
        ($($name:ident($data:ty, $rest:ty);)*) => {
            extern "C" {
                $(pub fn $name(
                    r: Record,
                    address: usize,
                    count: usize,
                    data: $data,
                    data_len: usize,
                    a: $rest,
                    an: usize,
                    g: $rest,
                    gn: usize,
                    i: $rest,
                    n: usize,
                ) -> Answer;)*
            }
        };
    }

    on_blocks! {
        shelf_write(From, Into);
        shelf_read(Into, From);
        shelf_fetch(Into, From);
    }

    extern "C" {
        pub fn shelf_format(r: Record, a: Into, an: usize, g: Into, gn: usize, i: Into, n: usize) -> Answer;
        pub fn shelf_start(r: Record, a: From, an: usize, g: From, gn: usize, i: From, n: usize) -> Answer;
        pub fn shelf_new_log(r: Record, a: From, an: usize, g: From, gn: usize, i: From, n: usize) -> Answer;
        pub fn shelf_fail(r: Record, m: usize, a: From, an: usize, g: From, gn: usize, i: From, n: usize) -> Answer;
        pub fn shelf_put_back(r: Record, m: usize, a: From, an: usize, g: From, gn: usize, i: From, n: usize)
            -> Answer;
        pub fn shelf_resync(r: Record, a: Into, an: usize, g: From, gn: usize, i: Into, n: usize) -> Resynced;
        pub fn shelf_rebuild(r: Record, a: Into, an: usize, g: From, gn: usize, i: Into, n: usize) -> Answer;
        pub fn shelf_full_resync(r: Record, a: Into, an: usize, g: From, gn: usize, i: Into, n: usize) -> Answer;
    }
}

/// A call on a shelf: the member that fail or put back names, the address and the count of blocks of a write, of a
/// plain read and of a recovering one, which is fetch.
#[derive(Clone, Copy, Debug, PartialEq)]
pub enum Call {
    Format,
    Start,
    Fail(usize),
    PutBack(usize),
    NewLog,
    Write { address: usize, count: usize },
    Read { address: usize, count: usize },
    Fetch { address: usize, count: usize },
    Resync,
    Rebuild,
    FullResync,
}

/// A write of some blocks.
pub const fn write(address: usize, count: usize) -> Call {
    Call::Write { address, count }
}

/// A plain read of them.
pub const fn read(address: usize, count: usize) -> Call {
    Call::Read { address, count }
}

/// A recovering read of them.
pub const fn fetch(address: usize, count: usize) -> Call {
    Call::Fetch { address, count }
}

/// The address of each lent buffer and the length told: array, log, list, the caller's data.
pub type Lent = [(*mut u8, usize); 4];

/// What a call answers: the number, the stripe that resync tells, and the record.
pub type Answered = (usize, Option<usize>, Record);

impl Call {
    /// The call that has this name in the customer's sessions, with the first two values there; none if none has it,
    /// and put back has none.
    pub fn named(name: &str, first: usize, second: usize) -> Option<Call> {
        Some(match name {
            "start" => Call::Start,
            "write" => write(first, second),
            "read" => read(first, second),
            "fetch" => fetch(first, second),
            "fail" => Call::Fail(first),
            "resync" => Call::Resync,
            "rebuild" => Call::Rebuild,
            "newlog" => Call::NewLog,
            "full" => Call::FullResync,
            _ => return None,
        })
    }

    /// The address and the count of the blocks that a write or either read is asked for; none of another call.
    pub fn blocks(self) -> Option<(usize, usize)> {
        match self {
            Call::Write { address, count } | Call::Read { address, count } | Call::Fetch { address, count } => {
                Some((address, count))
            }
            _ => None,
        }
    }

    /// Whether the call is a read, plain or recovering: it stores into the caller's data alone.
    pub fn is_read(self) -> bool {
        matches!(self, Call::Read { .. } | Call::Fetch { .. })
    }

    /// Makes the call.
    ///
    /// # Safety
    /// The addresses are those of buffers as long as is told, or the call must not look at the bytes.
    pub unsafe fn made(self, r: Record, lent: Lent) -> Answered {
        let [(a, an), (g, gn), (i, n), (data, data_len)] = lent;
        let answer = match self {
            Call::Format => archive::shelf_format(r, a, an, g, gn, i, n),
            Call::Start => archive::shelf_start(r, a, an, g, gn, i, n),
            Call::Fail(member) => archive::shelf_fail(r, member, a, an, g, gn, i, n),
            Call::PutBack(member) => archive::shelf_put_back(r, member, a, an, g, gn, i, n),
            Call::NewLog => archive::shelf_new_log(r, a, an, g, gn, i, n),
            Call::Write { address, count } => {
                archive::shelf_write(r, address, count, data, data_len, a, an, g, gn, i, n)
            }
            Call::Read { address, count } => archive::shelf_read(r, address, count, data, data_len, a, an, g, gn, i, n),
            Call::Fetch { address, count } => {
                archive::shelf_fetch(r, address, count, data, data_len, a, an, g, gn, i, n)
            }
            Call::Resync => {
                let Resynced { code, stripe, record } = archive::shelf_resync(r, a, an, g, gn, i, n);
                return (code, Some(stripe), record);
            }
            Call::Rebuild => archive::shelf_rebuild(r, a, an, g, gn, i, n),
            Call::FullResync => archive::shelf_full_resync(r, a, an, g, gn, i, n),
        };
        (answer.code, None, answer.record)
    }
}

/// A buffer that is lent, and the length that the call is told: another than that of the bytes only where the call is
/// to be refused for it, or looks at no byte of this buffer.
#[derive(Clone, Debug, PartialEq)]
pub struct Buffer {
    pub bytes: Vec<u8>,
    pub told: usize,
}

impl Buffer {
    /// A buffer of which the right length is told.
    pub fn of(bytes: Vec<u8>) -> Buffer {
        Buffer { told: bytes.len(), bytes }
    }

    /// A buffer of no byte.
    pub fn empty() -> Buffer {
        Buffer::of(Vec::new())
    }
}

/// What is lent to a call. The caller's data is lent to a write and to both reads only.
#[derive(Clone)]
pub struct Shelf {
    pub record: Record,
    pub array: Buffer,
    pub log: Buffer,
    pub list: Buffer,
    pub data: Buffer,
}

impl Shelf {
    /// The bytes of a member, which the buffers have whole: a part of the array, or the log.
    pub fn member(&mut self, member: usize) -> &mut [u8] {
        let m = self.record.measures;
        match member < m.log() {
            true => &mut self.array.bytes[member * m.s * m.b..][..m.s * m.b],
            false => &mut self.log.bytes,
        }
    }

    /// The members that have failed.
    pub fn failed(&self) -> Vec<usize> {
        (0..19).filter(|&member| self.record.failed[member] != 0).collect()
    }
}

impl fmt::Display for Shelf {
    /// Writes the shelf as a failure names it: the record, the lengths, and a short list whole.
    fn fmt(&self, out: &mut fmt::Formatter) -> fmt::Result {
        let Record { measures, mode, next, listed, .. } = self.record;
        let Measures { d, s, b, l, h, e, layout, parities } = measures;
        write!(out, "d {d}, S {s}, B {b}, L {l}, H {h}, E {e}, layout {layout}, parities {parities}, ")?;
        write!(out, "mode {mode}, next {next}, listed {listed}, ")?;
        write!(out, "failed {:?}, array of {}, log of {}, ", self.failed(), self.array.told, self.log.told)?;
        write!(out, "data of {}, list of {} bytes", self.data.told, self.list.told)?;
        if self.list.bytes.len() > 400 {
            return Ok(());
        }
        let words = self.list.bytes.chunks(4).map(|word| word.iter().rev().map(|byte| format!("{byte:02x}")).collect());
        write!(out, ": {}", words.collect::<Vec<String>>().join(" "))
    }
}
