//! What the test programs share: a generator of cases, a plain reading of document 01 to hold answers to, and the
//! words in which cases and answers are written.
pub mod generator;
pub mod protocol;
pub mod reference;
