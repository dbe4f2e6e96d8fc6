//! What the calls are to answer and to leave, written anew. The model goes by the bytes that a call is given; the book
//! goes by the calls alone and shares nothing with the model.

pub mod book;
pub mod clauses;
pub mod conditions;
pub mod due;
pub mod events;
pub mod layout;
pub mod numbers;
pub mod roles;
pub mod works;
