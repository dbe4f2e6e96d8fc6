//! Random inputs of the bench program: sound ones, and ones that are damaged in a named way.

use super::damage::{confirm, damaged, Effect, Line, COUNT};
use super::edges;
use super::model::Bench;
use super::sound::{calls, joined, losses, measures, of_measures, roomy, Fields};
use crate::random::Random;
use crate::shelf::harness::calls::Measures;
use crate::shelf::harness::lists::pick;

/// The lines of names as the customer has them.
pub const NAMES: [&str; 2] = ["data stripes block log slots places", "call a b c"];

/// What makes inputs: the random numbers, and how often each damage of a line was done.
pub struct Maker {
    pub random: Random,
    pub damages: [usize; COUNT],
}

/// An input, or why there is none.
type Made = Result<Vec<u8>, String>;

/// A kind of inputs: its name, how many there are, and what makes one.
pub type Kind = (&'static str, usize, fn(&mut Maker) -> Made);

/// The kinds of inputs.
pub const KINDS: [Kind; 11] = [
    ("sound", 900, Maker::sound),
    ("with losses", 300, Maker::losses),
    ("with damaged calls", 1000, Maker::damaged_calls),
    ("with measures at an edge", 600, Maker::edge),
    ("with damaged measures", 300, Maker::damaged_measures),
    ("with other names", 200, Maker::other_names),
    ("cut", 300, Maker::cut),
    ("with long lines", 400, Maker::long),
    ("with thousands of calls", 8, Maker::many_calls),
    ("with many empty lines", 4, Maker::many_lines),
    ("of loose bytes", 200, Maker::loose),
];

/// An input with its lines still apart: the measures, and the lines of calls.
struct Parts {
    names: [Vec<u8>; 2],
    measures: Vec<u8>,
    calls: Vec<Vec<u8>>,
}

impl Parts {
    /// The input of these measures and call lines, with the customer's names.
    fn of(m: Measures, calls: Vec<Vec<u8>>) -> Parts {
        Parts { names: NAMES.map(|names| names.into()), measures: joined(&of_measures(m)), calls }
    }

    /// The same of calls by their fields.
    fn of_calls(m: Measures, calls: &[Fields]) -> Parts {
        Parts::of(m, calls.iter().map(|call| joined(call)).collect())
    }

    /// The bytes of the input. The last newline may be missing, or there is an empty line after it.
    fn bytes(self, random: &mut Random) -> Vec<u8> {
        let [first, second] = self.names;
        let lines = [vec![first, self.measures, second], self.calls].concat();
        let end = ["", "", "\n", "\n", "\n", "\n", "\n", "\n\n"][pick(8, random)];
        [&lines.join(&b'\n'), end.as_bytes()].concat()
    }
}

impl Maker {
    /// A session over these measures where the program accepts them, else over others.
    fn session(&mut self, m: Measures, most: usize) -> Result<Vec<Fields>, String> {
        let fitting = if Bench::fresh(m).is_some() { m } else { measures(&mut self.random) };
        calls(fitting, most, &mut self.random)
    }

    /// The parts of a sound input of so many calls at the most.
    fn parts(&mut self, most: usize) -> Result<(Measures, Parts), String> {
        let m = measures(&mut self.random);
        let calls = self.session(m, most)?;
        Ok((m, Parts::of_calls(m, &calls)))
    }

    /// A sound input.
    fn sound(&mut self) -> Made {
        let (_, parts) = self.parts(96)?;
        Ok(parts.bytes(&mut self.random))
    }

    /// A sound input in which members fail and each block is read by both reads.
    fn losses(&mut self) -> Made {
        let m = roomy(&mut self.random);
        Ok(Parts::of_calls(m, &losses(m, &mut self.random)).bytes(&mut self.random))
    }

    /// An input in which damaged lines stand in place of calls or before them.
    fn damaged_calls(&mut self) -> Made {
        let m = measures(&mut self.random);
        let mut lines = Vec::new();
        for call in self.session(m, 48)? {
            let is_damaged = self.random.below(3) == 0;
            if is_damaged {
                lines.push(damaged(&call, 1, &mut self.damages, &mut self.random)?);
            }
            if !is_damaged || self.random.below(2) == 0 {
                lines.push(joined(&call));
            }
            if self.random.below(40) == 0 {
                lines.push(Vec::new());
            }
        }
        Ok(Parts::of(m, lines).bytes(&mut self.random))
    }

    /// An input with measures at an edge, and a few calls after them; often all blocks are written and read first.
    fn edge(&mut self) -> Made {
        let m = edges::some(&mut self.random);
        let mut parts = Parts::of_calls(m, &self.session(m, 8)?);
        if self.random.below(2) == 0 {
            let all = m.d * m.s;
            let first = ["write", "read", "fetch"].map(|name| format!("{name} 0 {all} 77").into());
            parts.calls.splice(0..0, first);
        }
        Ok(parts.bytes(&mut self.random))
    }

    /// An input with a damaged line of measures.
    fn damaged_measures(&mut self) -> Made {
        let (m, mut parts) = self.parts(8)?;
        parts.measures = damaged(&of_measures(m), 0, &mut self.damages, &mut self.random)?;
        Ok(parts.bytes(&mut self.random))
    }

    /// A line of names as it may be: empty, like another line, no text, or with anything but a newline in it.
    fn names(&mut self) -> Vec<u8> {
        let random = &mut self.random;
        match random.below(8) {
            0 | 1 => Vec::new(),
            2 => b" ".repeat(1 + pick(8, random)),
            3 => b"3 2 1 4 2 4".to_vec(),
            4 => b"write 0 1 9".to_vec(),
            5 => [b"\r", b"\0", &[255], &[128], b"7"][pick(5, random)].to_vec(),
            _ => {
                let length = pick(90, random);
                random.bytes(length).into_iter().filter(|&byte| byte != b'\n').collect()
            }
        }
    }

    /// An input with other names, or with a line of names that is missing or stands twice.
    fn other_names(&mut self) -> Made {
        let (_, mut parts) = self.parts(12)?;
        parts.names = [self.names(), self.names()];
        let at = pick(2, &mut self.random);
        match self.random.below(8) {
            0 => parts.names = NAMES.map(|names| names.into()),
            1 => parts.names[at] = NAMES[at].into(),
            2 => parts.names[at] = [NAMES[at], NAMES[at]].join("\n").into(),
            3 => {
                let bytes = parts.bytes(&mut self.random);
                return Ok(bytes.split_inclusive(|&byte| byte == b'\n').skip(1).collect::<Vec<&[u8]>>().concat());
            }
            _ => {}
        }
        Ok(parts.bytes(&mut self.random))
    }

    /// An input that ends anywhere: in its first three lines, in the last lines, or in between.
    fn cut(&mut self) -> Made {
        let mut whole = match self.random.below(4) {
            0 => self.damaged_calls()?,
            1 => self.edge()?,
            _ => self.parts(12)?.1.bytes(&mut self.random),
        };
        let random = &mut self.random;
        let length = match random.below(8) {
            0..=3 => pick(80.min(whole.len()), random),
            4 | 5 => whole.len() - pick(30.min(whole.len()), random),
            _ => pick(whole.len() + 1, random),
        };
        whole.truncate(length);
        Ok(whole)
    }

    /// A length about that of a buffer that the program may have, or any up to a few of the largest.
    fn long_length(&mut self) -> usize {
        let random = &mut self.random;
        let about = [64, 128, 256, 512, 4_096, 65_536, 131_072][pick(7, random)];
        match random.below(4) {
            0 => 1 + pick(200_000, random),
            _ => about + pick(5, random) - 2,
        }
    }

    /// A long line: a sound one with zeros before a value, one with anything before or after it, or bytes of one kind.
    fn long_line(&mut self, fields: &Fields, first: usize) -> Made {
        let length = self.long_length();
        let (line, random) = (joined(fields), &mut self.random);
        let byte = b" 0x\0\xff"[pick(5, random)];
        let filler = vec![byte; length.saturating_sub(line.len())];
        match random.below(10) {
            0 => Ok(vec![byte; length]),
            1 => Ok([vec![byte; length], line].concat()),
            2 => Ok([line, filler].concat()),
            3 => Ok([filler, line].concat()),
            _ => {
                let [before, given] = [(); 2].map(|_| Line { fields: fields.clone(), first });
                let padded = given.padded(length, random);
                confirm("long line", Effect::Same, &before, &padded)?;
                Ok(padded)
            }
        }
    }

    /// An input with a long line of names, of measures or of a call, or with two of them.
    fn long(&mut self) -> Made {
        let (m, mut parts) = self.parts(5)?;
        for _ in 0..1 + pick(2, &mut self.random) {
            let fields =
                self.session(m, 4)?.pop().unwrap_or_else(|| ["full", "0", "0", "0"].map(|word| word.into()).to_vec());
            match self.random.below(8) {
                0 => parts.names[0] = self.long_line(&fields, 1)?,
                1 => parts.names[1] = self.long_line(&fields, 1)?,
                2 | 3 => parts.measures = self.long_line(&of_measures(m), 0)?,
                _ => {
                    let at = pick(parts.calls.len() + 1, &mut self.random);
                    parts.calls.insert(at, self.long_line(&fields, 1)?);
                }
            }
        }
        Ok(parts.bytes(&mut self.random))
    }

    /// The parts of a sound input of thousands of calls on a small shelf.
    fn many(&mut self) -> Result<Parts, String> {
        let m = roomy(&mut self.random);
        Ok(Parts::of_calls(m, &calls(m, 6000, &mut self.random)?))
    }

    /// A sound input of thousands of calls.
    fn many_calls(&mut self) -> Made {
        Ok(self.many()?.bytes(&mut self.random))
    }

    /// The same with more empty lines than 16 bits can count.
    fn many_lines(&mut self) -> Made {
        let mut parts = self.many()?;
        let at = pick(parts.calls.len() + 1, &mut self.random);
        parts.calls.splice(at..at, vec![Vec::new(); 65_536]);
        Ok(parts.bytes(&mut self.random))
    }

    /// An input of random bytes, of those alone that lines are made of, or such bytes after sound measures.
    fn loose(&mut self) -> Made {
        let length = pick(400, &mut self.random);
        let mut bytes = self.random.bytes(length);
        if self.random.below(4) != 0 {
            let alphabet = b"0123456789    \n\n\t\r+-startfullwe";
            bytes.iter_mut().for_each(|byte| *byte = alphabet[usize::from(*byte) % alphabet.len()]);
        }
        if self.random.below(4) == 0 {
            return Ok(bytes);
        }
        let (m, _) = self.parts(0)?;
        Ok(Parts::of(m, vec![bytes]).bytes(&mut self.random))
    }
}
