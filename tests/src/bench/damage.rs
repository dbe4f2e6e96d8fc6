//! Damages of a line of measures or of a call line, each with what becomes of the line.

use super::lines::{call_line, measures};
use super::sound::{digits, joined, Fields};
use crate::random::Random;
use crate::shelf::harness::lists::pick;

/// What becomes of a line: it can't be read, it is read as before, or it can be read.
#[derive(Clone, Copy, Debug, PartialEq)]
pub enum Effect {
    Unreadable,
    Same,
    Readable,
}

use Effect::{Readable, Same, Unreadable};

/// A line by its fields, with the index of its first value: 1 in a call line, 0 in a line of measures.
pub struct Line {
    pub fields: Fields,
    pub first: usize,
}

/// A damage: its name, what becomes of the line, and what is done to it.
type Damage = (&'static str, Effect, fn(&mut Line, &mut Random));

/// The damages of any line.
const OF_ANY: [Damage; 11] = [
    ("number of fields", Unreadable, other_count),
    ("empty field", Unreadable, empty_field),
    ("missing value", Unreadable, missing_value),
    ("white space", Unreadable, white_space),
    ("carriage return", Unreadable, carriage_return),
    ("sign", Unreadable, sign),
    ("too large", Unreadable, too_large),
    ("no number", Unreadable, no_number),
    ("no text", Unreadable, no_text),
    ("leading zeros", Same, leading_zeros),
    ("largest value", Readable, largest),
];

/// The damages of a call line alone.
const OF_CALL: [Damage; 4] = [
    ("misspelt call", Unreadable, misspelt),
    ("unknown call", Unreadable, unknown),
    ("fill above 255", Unreadable, fill_above),
    ("third value at the limit", Readable, third_at_limit),
];

/// How many damages there are.
pub const COUNT: usize = OF_ANY.len() + OF_CALL.len();

/// The bytes that are taken for white space elsewhere.
const WHITE: [u8; 7] = [9, 11, 12, 13, 0, 133, 160];

impl Line {
    /// The index of one of the values.
    fn some_value(&self, random: &mut Random) -> usize {
        self.first + pick(self.fields.len() - self.first, random)
    }

    /// Puts bytes before one of the values.
    fn put_before(&mut self, bytes: &[u8], random: &mut Random) {
        let at = self.some_value(random);
        self.fields[at].splice(0..0, bytes.iter().copied());
    }

    /// Puts a field in place of one of the values.
    fn replace(&mut self, field: Vec<u8>, random: &mut Random) {
        let at = self.some_value(random);
        self.fields[at] = field;
    }

    /// The line with zeros before one of its values, so many bytes long or as long as it is.
    pub fn padded(mut self, length: usize, random: &mut Random) -> Vec<u8> {
        let zeros = length.saturating_sub(joined(&self.fields).len());
        self.put_before(&vec![b'0'; zeros], random);
        joined(&self.fields)
    }
}

/// Fields are missing, up to all, or there are one or two more.
fn other_count(line: &mut Line, random: &mut Random) {
    let right = line.fields.len();
    let count = [pick(right, random), right - 1, right + 1, right + 2][pick(4, random)];
    line.fields.resize(count, b"0".to_vec());
}

/// A blank too many: at either end, or beside another one.
fn empty_field(line: &mut Line, random: &mut Random) {
    let right = line.fields.len();
    let at = [0, right, pick(right + 1, random)][pick(3, random)];
    line.fields.insert(at, Vec::new());
}

/// Nothing in place of a value, between its blanks.
fn missing_value(line: &mut Line, random: &mut Random) {
    line.replace(Vec::new(), random);
}

/// White space other than a blank: in place of a blank, or at either end of a field.
fn white_space(line: &mut Line, random: &mut Random) {
    let white = if random.below(2) == 0 { 9 } else { WHITE[pick(WHITE.len(), random)] };
    let count = line.fields.len();
    match random.below(4) {
        0 => line.fields[pick(count, random)].insert(0, white),
        1 => line.fields[pick(count, random)].push(white),
        _ => {
            let at = pick(count - 1, random);
            let next = line.fields.remove(at + 1);
            line.fields[at].push(white);
            line.fields[at].extend(next);
        }
    }
}

/// The line ends as elsewhere.
fn carriage_return(line: &mut Line, _: &mut Random) {
    line.fields.last_mut().into_iter().for_each(|field| field.push(b'\r'));
}

/// A sign before a value.
fn sign(line: &mut Line, random: &mut Random) {
    line.put_before([b"+", b"-"][pick(2, random)], random);
}

/// A value of 2^32 or more: near it, one that 32 or 64 bits take for the right one, or one of many digits.
fn too_large(line: &mut Line, random: &mut Random) {
    let at = line.some_value(random);
    let right: u128 = String::from_utf8_lossy(&line.fields[at]).parse().unwrap_or(0);
    let mut value = match random.below(8) {
        0 => 1 << 32,
        1 => (1 << 32) + u128::from(random.below(300)),
        2 | 3 => (1 << [32, 33, 40, 63, 64, 65, 96][pick(7, random)]) + right,
        4 => 10_u128.pow(10 + pick(12, random) as u32),
        5 => (1 << 32) + u128::from(random.next()),
        _ => 10_u128.pow(19) + u128::from(random.next() >> 2),
    }
    .to_string();
    if random.below(6) == 0 {
        value = format!("{value}{}", "0123456789".repeat(38 + pick(3, random)));
    }
    if random.below(8) == 0 {
        value = format!("{}{value}", "0".repeat(1 + pick(300, random)));
    }
    line.fields[at] = value.into_bytes();
}

/// A field that is no decimal number, or a value with a byte too many.
fn no_number(line: &mut Line, random: &mut Random) {
    const WORDS: [&str; 16] =
        ["0x1f", "0X0", "1f", "ff", "x", "1e3", "1.0", "1,0", "1_0", "0b1", "0o7", "-", "+", "one", "1/2", "٣"];
    let at = line.some_value(random);
    let field = &mut line.fields[at];
    match random.below(3) {
        0 => *field = WORDS[pick(WORDS.len(), random)].into(),
        1 => field.insert(pick(field.len() + 1, random), b"/:;.,-+_aAlOx'\"*"[pick(16, random)]),
        _ => field[0] |= 128,
    }
}

/// A byte that is no text in any field.
fn no_text(line: &mut Line, random: &mut Random) {
    let byte = [0, 255, 128, 1, 127, 128 + pick(128, random) as u8][pick(6, random)];
    let at = pick(line.fields.len(), random);
    let field = &mut line.fields[at];
    field.insert(pick(field.len() + 1, random), byte);
}

/// Zeros before a value: a few, or hundreds.
fn leading_zeros(line: &mut Line, random: &mut Random) {
    let few = 1 + pick(12, random);
    let zeros = if random.below(3) == 0 { 100 + pick(500, random) } else { few };
    line.put_before(&vec![b'0'; zeros], random);
}

/// A value of 2^32 - 1, but not as the byte of a write.
fn largest(line: &mut Line, random: &mut Random) {
    let last = line.fields.len() - 1;
    let byte = line.fields[last].clone();
    line.replace(digits(u32::MAX as usize), random);
    if line.fields[0] == b"write" {
        line.fields[last] = byte;
    }
}

/// A letter more, less, other or capital in the name.
fn misspelt(line: &mut Line, random: &mut Random) {
    let name = &mut line.fields[0];
    let (at, letter) = (pick(name.len(), random), b'a' + pick(26, random) as u8);
    match random.below(8) {
        0 => name.make_ascii_uppercase(),
        1 => name[0].make_ascii_uppercase(),
        2 => name[at].make_ascii_uppercase(),
        3 => name.insert(at, name[at]),
        4 => name.push([letter, b'0', b'_', b':'][pick(4, random)]),
        5 => name.truncate(name.len() - 1),
        6 => drop(name.remove(at)),
        _ => name[at] = b"_-.#0"[pick(5, random)],
    }
}

/// Another name: of the output, of the library, of the columns, of other programs, or nothing.
fn unknown(line: &mut Line, random: &mut Random) {
    const NAMES: [&str; 19] = [
        "format",
        "bad",
        "call",
        "new_log",
        "new-log",
        "newLog",
        "putback",
        "put_back",
        "put-back",
        "full_resync",
        "resynced",
        "recover",
        "stop",
        "exit",
        "help",
        "#",
        "0",
        "",
        "startwrite",
    ];
    line.fields[0] = NAMES[pick(NAMES.len(), random)].into();
}

/// A write with a fill that is no byte.
fn fill_above(line: &mut Line, random: &mut Random) {
    let fill = [256, 257, 256 + pick(300, random), 511, 512, 65_536, pick(1 << 31, random) + 256, u32::MAX as usize];
    line.fields[0] = b"write".to_vec();
    line.fields[3] = digits(fill[pick(8, random)]);
}

/// A third value at the limit of a byte; above it where the call is no write.
fn third_at_limit(line: &mut Line, random: &mut Random) {
    let values = if line.fields[0] == b"write" { [254, 255, 255, 255] } else { [255, 256, 257, u32::MAX as usize] };
    line.fields[3] = digits(values[pick(4, random)]);
}

/// Fails unless a damage has the effect that it is to have on a line, by what can be read of the line before and after.
pub fn confirm(name: &str, effect: Effect, before: &Line, after: &[u8]) -> Result<(), String> {
    let given = joined(&before.fields);
    let (is_readable, is_same) = match before.first {
        0 => (measures(after).is_some(), measures(after) == measures(&given)),
        _ => (call_line(after).is_some(), call_line(after) == call_line(&given)),
    };
    match (effect, is_readable, is_same) {
        (Unreadable, false, _) | (Same, true, true) | (Readable, true, _) => Ok(()),
        _ => Err(format!("{name}: {} is not {effect:?} after {}", after.escape_ascii(), given.escape_ascii())),
    }
}

/// Damages a sound line in one way; its number is counted.
pub fn damaged(
    fields: &Fields,
    first: usize,
    counts: &mut [usize; COUNT],
    random: &mut Random,
) -> Result<Vec<u8>, String> {
    let number = pick(if first == 0 { OF_ANY.len() } else { COUNT }, random);
    let (name, effect, damage) = OF_ANY.iter().chain(&OF_CALL).nth(number).ok_or("there is no such damage")?;
    let before = Line { fields: fields.clone(), first };
    let mut line = Line { fields: fields.clone(), first };
    damage(&mut line, random);
    let after = joined(&line.fields);
    confirm(name, *effect, &before, &after)?;
    counts[number] += 1;
    Ok(after)
}
