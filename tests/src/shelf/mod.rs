//! The tests of the shelf: the harness, the model beside its book, and the groups of cases.

pub mod cases;
pub mod harness;
pub mod model;
