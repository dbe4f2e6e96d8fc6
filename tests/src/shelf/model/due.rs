//! What is due of a call: all that it answers and leaves.

use crate::shelf::harness::calls::{Call, Record, Shelf};

/// The number, the stripe that resync tells, the record handed back, and each buffer; none where its bytes stay.
pub struct Due {
    pub code: usize,
    pub stripe: Option<usize>,
    pub record: Record,
    pub array: Option<Vec<u8>>,
    pub log: Option<Vec<u8>>,
    pub list: Option<Vec<u8>>,
    pub data: Option<Vec<u8>>,
}

impl Due {
    /// A number, and nothing changed: resync then tells S, as the record has it.
    pub fn nothing(call: Call, shelf: &Shelf, code: usize) -> Due {
        let stripe = (call == Call::Resync).then_some(shelf.record.measures.s);
        Due { code, stripe, record: shelf.record, array: None, log: None, list: None, data: None }
    }
}
