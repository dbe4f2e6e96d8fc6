//! What the bench program can read of its input, written anew from the text: lines, fields, values, measures and calls.

use std::str;

use crate::shelf::harness::calls::{Call, Measures};

/// The lines of an input. A line ends at a newline or at the end of the input; none follows a final newline.
pub fn lines(input: &[u8]) -> Vec<&[u8]> {
    let mut lines: Vec<&[u8]> = input.split(|&byte| byte == b'\n').collect();
    if lines.last().is_some_and(|line| line.is_empty()) {
        lines.pop();
    }
    lines
}

/// The fields of a line, cut at every blank: as many as are asked for, or none.
fn fields<const N: usize>(line: &[u8]) -> Option<[&[u8]; N]> {
    line.split(|&byte| byte == b' ').collect::<Vec<&[u8]>>().try_into().ok()
}

/// The value of a field: decimal digits, below 2^32.
fn value(field: &[u8]) -> Option<usize> {
    if !field.iter().all(u8::is_ascii_digit) {
        return None;
    }
    str::from_utf8(field).ok()?.parse::<u32>().ok().map(|value| value as usize)
}

/// The values of some fields, if each of them has one.
fn values<const N: usize>(fields: [&[u8]; N]) -> Option<[usize; N]> {
    let values: Option<Vec<usize>> = fields.into_iter().map(value).collect();
    values?.try_into().ok()
}

/// The six measures of a line, whether or not they are within their ranges; the layout is fixed, with two parities.
pub fn measures(line: &[u8]) -> Option<Measures> {
    let [d, s, b, l, h, e] = values(fields(line)?)?;
    Some(Measures { d, s, b, l, h, e, layout: 0, parities: 2 })
}

/// A call line that can be read: its name, the call, and the third value.
#[derive(Debug, PartialEq)]
pub struct CallLine<'a> {
    pub name: &'a str,
    pub call: Call,
    pub third: usize,
}

/// The call of a line. The third value of a write is a byte.
pub fn call_line(line: &[u8]) -> Option<CallLine<'_>> {
    let [name, first, second, third] = fields(line)?;
    let [first, second, third] = values([first, second, third])?;
    let name = str::from_utf8(name).ok()?;
    let call = Call::named(name, first, second)?;
    let is_byte = third < 256;
    (is_byte || name != "write").then_some(CallLine { name, call, third })
}
