//! What the failed members of an array held when their failure was reported, so that one can be put back as it was.

use std::collections::BTreeMap;

use super::calls::{Call, Shelf};

/// The bytes of each failed member of the array at the report that was accepted of it.
#[derive(Clone, Default, PartialEq, Eq, Hash)]
pub struct Reports(BTreeMap<usize, Vec<u8>>);

impl Reports {
    /// Takes in an accepted call, with the shelf after it: a report notes what its member holds, and what was noted of
    /// a member goes with its flag.
    pub fn take(&mut self, call: Call, shelf: &mut Shelf) {
        match call {
            Call::Fail(member) if member < shelf.record.measures.log() => {
                self.0.insert(member, shelf.member(member).to_vec());
            }
            _ => self.0.retain(|&member, _| shelf.record.failed[member] != 0),
        }
    }

    /// Whether a failed member of the array holds other bytes than it did.
    pub fn is_changed(&self, member: usize, shelf: &mut Shelf) -> bool {
        self.0.get(&member).is_some_and(|bytes| bytes != shelf.member(member))
    }

    /// Gives a failed member of the array that is to be put back the bytes that it had.
    pub fn give(&self, call: Call, shelf: &mut Shelf) {
        if let Call::PutBack(member) = call {
            self.0.get(&member).into_iter().for_each(|bytes| shelf.member(member).copy_from_slice(bytes));
        }
    }
}
