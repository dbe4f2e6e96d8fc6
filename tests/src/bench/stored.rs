//! The customer's session, the same with the recovering read, marked examples, rebuilds of parity and both reads side by
//! side as sessions of the bench program, with the lines that it must write worked out by hand; and the customer's session in
//! lines of any length. Blocks have one byte, so
//! that a read shows a block. The model is not asked.

use super::inputs::NAMES;
use super::model::COLUMNS;
use crate::shelf::cases::printed::{INPUT, OUTPUT};

/// A session: what it shows, the measures, and each call line with the line that is due for it.
type Session = (&'static str, &'static str, &'static [(&'static str, &'static str)]);

/// The printed session with fetch in place of read, the sessions of K4 to K13, one of rebuilds of parity, and two of both
/// reads.
const SESSIONS: [Session; 13] = [
    ("the printed session with fetch in place of read", "3 2 1 4 2 4", &FETCHED),
    ("K4 and K5", "3 1 1 4 2 3", &K4_K5),
    ("K4 with the parity made afresh", "3 1 1 4 2 3", &K4_REBUILT),
    ("K6 and K7", "2 1 1 4 2 3", &K6_K7),
    ("K8", "3 1 1 4 2 3", &K8),
    ("K9", "3 1 1 4 2 3", &K9),
    ("K10", "3 2 1 4 2 4", &K10),
    ("K11", "3 2 1 4 2 4", &K11),
    ("K12", "3 1 1 3 2 3", &K12),
    ("K13", "2 1 1 2 1 1", &K13),
    ("parity rebuilt in modes 1 and 2", "3 2 1 4 2 4", &PARITY_REBUILT),
    ("both reads in a stale stripe", "3 2 1 4 2 4", &BOTH_READS),
    ("reads that can't be read", "3 1 1 4 2 3", &BAD_READS),
];

/// Disks 0 and 1 gone while the parity of block 1 is put off: fetch gives 7.
const FETCHED: [(&str, &str); 10] = [
    ("start 0 0 0", "start 0 1 0 0 0"),
    ("write 1 1 7", "write 0 1 1 2 0"),
    ("fail 0 0 0", "fail 0 1 1 2 0"),
    ("fail 1 0 0", "fail 0 1 1 2 0"),
    ("fetch 1 1 0", "fetch 0 1 1 2 7"),
    ("rebuild 0 0 0", "rebuild 0 1 1 2 0"),
    ("write 1 1 9", "write 0 1 1 3 0"),
    ("write 4 1 5", "write 0 1 1 3 0"),
    ("resync 0 0 0", "resync 0 0 0 0 0"),
    ("fail 6 0 0", "fail 6 0 0 0 0"),
];

/// Data 1, 2, 3; blocks 0 and 1 come back from block 2, P and Q. A plain read serves block 2 alone.
const K4_K5: [(&str, &str); 12] = [
    ("write 0 1 1", "write 0 0 0 0 0"),
    ("write 1 1 2", "write 0 0 0 0 0"),
    ("write 2 1 3", "write 0 0 0 0 0"),
    ("fail 0 0 0", "fail 0 0 0 0 0"),
    ("fail 1 0 0", "fail 0 0 0 0 0"),
    ("fetch 0 1 0", "fetch 0 0 0 0 1"),
    ("fetch 1 1 0", "fetch 0 0 0 0 2"),
    ("fetch 2 1 0", "fetch 0 0 0 0 3"),
    ("fetch 0 3 0", "fetch 0 0 0 0 1"),
    ("read 0 1 0", "read 16 0 0 0 0"),
    ("read 1 2 0", "read 16 0 0 0 0"),
    ("read 2 1 0", "read 0 0 0 0 3"),
];

/// The same data with P and Q lost and made afresh; then block 2 comes back from Q without P, and block 1 from P
/// without Q.
const K4_REBUILT: [(&str, &str); 13] = [
    ("write 0 1 1", "write 0 0 0 0 0"),
    ("write 1 1 2", "write 0 0 0 0 0"),
    ("write 2 1 3", "write 0 0 0 0 0"),
    ("fail 3 0 0", "fail 0 0 0 0 0"),
    ("fail 4 0 0", "fail 0 0 0 0 0"),
    ("rebuild 0 0 0", "rebuild 0 0 0 0 0"),
    ("fail 2 0 0", "fail 0 0 0 0 0"),
    ("fail 3 0 0", "fail 0 0 0 0 0"),
    ("fetch 2 1 0", "fetch 0 0 0 0 3"),
    ("rebuild 0 0 0", "rebuild 0 0 0 0 0"),
    ("fail 1 0 0", "fail 0 0 0 0 0"),
    ("fail 4 0 0", "fail 0 0 0 0 0"),
    ("fetch 1 1 0", "fetch 0 0 0 0 2"),
];

/// Data 128, 128; block 0 and P come back from block 1 and Q, and P is then right: block 1 comes back from it.
const K6_K7: [(&str, &str); 10] = [
    ("write 0 2 128", "write 0 0 0 0 0"),
    ("fail 0 0 0", "fail 0 0 0 0 0"),
    ("fail 2 0 0", "fail 0 0 0 0 0"),
    ("fetch 0 1 0", "fetch 0 0 0 0 128"),
    ("fetch 1 1 0", "fetch 0 0 0 0 128"),
    ("rebuild 0 0 0", "rebuild 0 0 0 0 0"),
    ("fail 1 0 0", "fail 0 0 0 0 0"),
    ("fail 3 0 0", "fail 0 0 0 0 0"),
    ("fetch 1 1 0", "fetch 0 0 0 0 128"),
    ("fail 0 0 0", "fail 11 0 0 0 0"),
];

/// K4's stripe, block 1 logged as 7, disks 0 and 1 gone: fetch gives 1 and 7.
const K8: [(&str, &str); 9] = [
    ("write 0 1 1", "write 0 0 0 0 0"),
    ("write 1 1 2", "write 0 0 0 0 0"),
    ("write 2 1 3", "write 0 0 0 0 0"),
    ("start 0 0 0", "start 0 1 0 0 0"),
    ("write 1 1 7", "write 0 1 1 2 0"),
    ("fail 0 0 0", "fail 0 1 1 2 0"),
    ("fail 1 0 0", "fail 0 1 1 2 0"),
    ("fetch 0 1 0", "fetch 0 1 1 2 1"),
    ("fetch 1 1 0", "fetch 0 1 1 2 7"),
];

/// The same with the log and disk 0 gone: block 0 is refused with 14, block 2 gives 3.
const K9: [(&str, &str); 9] = [
    ("write 0 1 1", "write 0 0 0 0 0"),
    ("write 1 1 2", "write 0 0 0 0 0"),
    ("write 2 1 3", "write 0 0 0 0 0"),
    ("start 0 0 0", "start 0 1 0 0 0"),
    ("write 1 1 7", "write 0 1 1 2 0"),
    ("fail 5 0 0", "fail 0 2 1 2 0"),
    ("fail 0 0 0", "fail 0 2 1 2 0"),
    ("fetch 0 1 0", "fetch 14 2 1 2 0"),
    ("fetch 2 1 0", "fetch 0 2 1 2 3"),
];

/// Address 4 is stripe 1, index 1: logged and without the log and disk 1 it is withheld. Block 1, on the same disk in
/// stripe 0, is not, nor are blocks 3 and 5, in the same stripe on other disks.
const K10: [(&str, &str); 9] = [
    ("write 1 1 6", "write 0 0 0 0 0"),
    ("start 0 0 0", "start 0 1 0 0 0"),
    ("write 4 1 5", "write 0 1 1 2 0"),
    ("fail 5 0 0", "fail 0 2 1 2 0"),
    ("fail 1 0 0", "fail 0 2 1 2 0"),
    ("fetch 4 1 0", "fetch 14 2 1 2 0"),
    ("fetch 1 1 0", "fetch 0 2 1 2 6"),
    ("fetch 3 1 0", "fetch 0 2 1 2 0"),
    ("fetch 5 1 0", "fetch 0 2 1 2 0"),
];

/// Of six blocks address 5 count 1 passes, address 6 count 1 is 4.
const K11: [(&str, &str); 10] = [
    ("write 5 1 9", "write 0 0 0 0 0"),
    ("write 6 1 8", "write 4 0 0 0 0"),
    ("read 5 1 0", "read 0 0 0 0 9"),
    ("read 6 1 0", "read 4 0 0 0 0"),
    ("read 5 2 0", "read 4 0 0 0 0"),
    ("read 5 0 0", "read 4 0 0 0 0"),
    ("fetch 5 1 0", "fetch 0 0 0 0 9"),
    ("fetch 6 1 0", "fetch 4 0 0 0 0"),
    ("fetch 5 2 0", "fetch 4 0 0 0 0"),
    ("fetch 5 0 0", "fetch 4 0 0 0 0"),
];

/// Blocks 0 and 1 of three written: reconstruction-write, 3 records, 3 listed.
const K12: [(&str, &str); 3] =
    [("start 0 0 0", "start 0 1 0 0 0"), ("write 0 2 5", "write 0 1 3 3 0"), ("resync 0 0 0", "resync 0 0 0 0 0")];

/// Block 0 of two written: read-modify-write, 2 records, 1 listed.
const K13: [(&str, &str); 3] =
    [("start 0 0 0", "start 0 1 0 0 0"), ("write 0 1 7", "write 0 1 1 2 0"), ("resync 0 0 0", "resync 0 0 0 0 0")];

/// P rebuilt in mode 1 with nothing listed, and Q with block 1 listed: mode 1 remains, and the next write is logged
/// from record 0 on. P rebuilt in mode 2 with block 4 listed: the mode becomes 0.
const PARITY_REBUILT: [(&str, &str); 15] = [
    ("start 0 0 0", "start 0 1 0 0 0"),
    ("fail 3 0 0", "fail 0 1 0 0 0"),
    ("rebuild 0 0 0", "rebuild 0 1 0 0 0"),
    ("start 0 0 0", "start 7 1 0 0 0"),
    ("write 1 1 7", "write 0 1 1 2 0"),
    ("fail 4 0 0", "fail 0 1 1 2 0"),
    ("rebuild 0 0 0", "rebuild 0 1 0 0 0"),
    ("write 1 1 8", "write 0 1 1 2 0"),
    ("write 4 1 5", "write 0 1 2 4 0"),
    ("resync 0 0 0", "resync 0 2 1 4 0"),
    ("fail 3 0 0", "fail 0 2 1 4 0"),
    ("rebuild 0 0 0", "rebuild 0 0 0 0 0"),
    ("resync 0 0 0", "resync 7 0 0 0 0"),
    ("start 0 0 0", "start 0 1 0 0 0"),
    ("write 4 1 6", "write 0 1 1 2 0"),
];

/// Block 1 logged as 7 and block 5 written before it: with disk 1 gone both reads give blocks 0 and 5, and block 1 is
/// fetched from the log; with the log gone too it is withheld, and block 4, whose stripe is not stale, comes from parity.
/// The third value is no byte of what is read.
const BOTH_READS: [(&str, &str); 19] = [
    ("write 0 1 3", "write 0 0 0 0 0"),
    ("write 5 1 6", "write 0 0 0 0 0"),
    ("start 0 0 0", "start 0 1 0 0 0"),
    ("write 1 1 7", "write 0 1 1 2 0"),
    ("read 1 1 0", "read 0 1 1 2 7"),
    ("fail 1 0 0", "fail 0 1 1 2 0"),
    ("read 0 1 0", "read 0 1 1 2 3"),
    ("read 1 1 0", "read 16 1 1 2 0"),
    ("fetch 1 1 0", "fetch 0 1 1 2 7"),
    ("read 5 1 0", "read 0 1 1 2 6"),
    ("fetch 5 1 0", "fetch 0 1 1 2 6"),
    ("fail 5 0 0", "fail 0 2 1 2 0"),
    ("read 1 1 0", "read 16 2 1 2 0"),
    ("fetch 1 1 0", "fetch 14 2 1 2 0"),
    ("read 0 1 0", "read 0 2 1 2 3"),
    ("read 4 1 44", "read 16 2 1 2 0"),
    ("fetch 4 1 44", "fetch 0 2 1 2 0"),
    ("fetch 1 1 44", "fetch 14 2 1 2 0"),
    ("read 6 1 0", "read 4 2 1 2 0"),
];

/// Reads with other than three values, or with another name; the third value may be any.
const BAD_READS: [(&str, &str); 14] = [
    ("write 0 1 8", "write 0 0 0 0 0"),
    ("fetch 0 1 0", "fetch 0 0 0 0 8"),
    ("fetch 0 1", "bad 15 0 0 0 0"),
    ("fetch", "bad 15 0 0 0 0"),
    ("fetch 0 1 0 0", "bad 15 0 0 0 0"),
    ("fetch 0 1 ", "bad 15 0 0 0 0"),
    ("read 0 1", "bad 15 0 0 0 0"),
    ("read 0 1 0 0", "bad 15 0 0 0 0"),
    ("Fetch 0 1 0", "bad 15 0 0 0 0"),
    ("fetc 0 1 0", "bad 15 0 0 0 0"),
    ("fetch 0 1 256", "fetch 0 0 0 0 8"),
    ("fetch 0 1 4294967295", "fetch 0 0 0 0 8"),
    ("fetch 0 1 4294967296", "bad 15 0 0 0 0"),
    ("read 0 1 256", "read 0 0 0 0 8"),
];

/// A stored input with what it shows and the lines that are due.
pub struct Stored {
    pub name: &'static str,
    pub input: String,
    pub output: Vec<String>,
}

/// The input and the output of a session.
fn stored(&(name, measures, steps): &Session) -> Stored {
    let (calls, due): (Vec<&str>, Vec<&str>) = steps.iter().copied().unzip();
    let input = [&[NAMES[0], measures, NAMES[1]], &calls[..], &[""]].concat().join("\n");
    let output = [COLUMNS, "format 0 0 0 0 0"].into_iter().chain(due).map(String::from).collect();
    Stored { name, input, output }
}

/// The customer's session with a seventh measure, in which a shelf has its layout, or an eighth too, in which it has
/// its count of parities: neither can be read.
fn with_more(measures: &str) -> Stored {
    let input = INPUT.replacen("3 2 1 4 2 4\n", &format!("3 2 1 4 2 4 {measures}\n"), 1);
    Stored { name: "more measures", input, output: [COLUMNS, "format 1 0 0 0 0"].map(String::from).to_vec() }
}

/// The customer's session with so many zeros before the first measure and before a value of the first call.
fn with_zeros(count: usize) -> Stored {
    let zeros = "0".repeat(count);
    let measures = INPUT.replacen("3 2 1 4 2 4\n", &format!("{zeros}3 2 1 4 2 4\n"), 1);
    let input = measures.replacen("start 0 0 0\n", &format!("start 0 0 {zeros}0\n"), 1);
    Stored { name: "long lines", input, output: OUTPUT.lines().map(String::from).collect() }
}

/// The customer's session as it is printed and with long lines, those worked out by hand, and ones with seven or eight
/// measures.
pub fn all() -> Vec<Stored> {
    let more = ["0", "1", "0 2", "0 1"].map(with_more);
    [0, 110, 70_000].map(with_zeros).into_iter().chain(SESSIONS.iter().map(stored)).chain(more).collect()
}
