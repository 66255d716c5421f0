//! The text of document 01, and of Asks 1 to 3, 5 and 6 of document 02 (4 asks for no call), in plain Rust,
//! which the tests hold beside the proved calls. No code is shared with these: a graph is a set of facts, and
//! each rule is the list of demands that it makes of a graph. An insertion applies the rules again and again
//! until they ask for nothing new; a deletion searches for the largest part and tries every choice that the
//! rules leave; `brute` and `plain` try everything, and test both. It is slow and plain on purpose. Refusals
//! are the documents' numbers here, 0 where there is none.

// Each test uses its own share of this module.
#![allow(dead_code)]

pub mod brute;
pub mod deletion;
pub mod fact;
pub mod graph;
pub mod host;
pub mod image;
pub mod insertion;
pub mod list;
pub mod operator;
pub mod order;
pub mod plain;
pub mod plain_triples;
pub mod preview;
pub mod programs;
pub mod rules;
pub mod script;
pub mod table;
pub mod ticket;
pub mod triples;
