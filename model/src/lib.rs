//! A model of the broadcast of document 01, written from that document alone,
//! to be compared with a library that follows the same document.
//!
//! - `message`: transactions, identifiers, the nine messages, what is malformed.
//! - `server`: one server's record and its step.
//! - `formed`: the well-formed rules, one clause at a time.
//! - `words`, `bytes`: the same step on lent words and on lent bytes.
//! - `cluster`: servers joined by channels of a bounded depth.
//! - `runs`: the cluster on lent words, its channels rings in one queue.
//! - `script`: the program that runs a script.
//! - `trace`: the checker.
//! - `aims`: seeded scripts of events for it.
//! - `rng`, `gen`, `input`, `coverage`: seeded inputs and what they reach.

pub mod aims;
pub mod bytes;
pub mod cluster;
pub mod coverage;
pub mod formed;
pub mod gen;
pub mod input;
pub mod message;
pub mod rng;
pub mod runs;
pub mod script;
pub mod server;
pub mod trace;
pub mod words;
