//! The groups of cases, one in each file; beside them the trails, which cuts and steps share.

pub mod cuts;
pub mod limits;
pub mod marked;
pub mod order;
pub mod printed;
pub mod random;
pub mod rebuilds;
pub mod returned;
pub mod rotation;
pub mod rows;
pub mod sequences;
pub mod sessions;
pub mod single;
pub mod steps;
pub mod tiny;
mod trails;
pub mod walks;
