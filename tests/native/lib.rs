//! What the programs share that call the engine in their own process: its interface, lists between unreadable pages to
//! lend it, a thread with a small stack to call it on, a watch over its calls, and the Rust that was ported beside it
//! (or nothing in its place, where it is not at hand).
pub mod caller;
pub mod captured;
pub mod engine;
pub mod lent;
pub mod lists;
pub mod pages;
pub mod room;
#[cfg_attr(without_rust, path = "no_rust.rs")]
pub mod rust;
pub mod signal;
pub mod silence;
