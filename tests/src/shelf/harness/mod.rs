//! What the cases are made with: the calls and the stand on which they are made, makers of random shelves and requests,
//! and counts of what was covered.

pub mod calls;
pub mod damage;
pub mod lists;
pub mod pair;
pub mod reads;
pub mod records;
pub mod reports;
pub mod requests;
pub mod script;
pub mod stand;
pub mod tally;
