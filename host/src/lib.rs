//! The Rust host of Vimelosa's equipment graph: one RDF/S graph, kept as an image and changed by tickets. The
//! work is done by a proved library behind nine C functions; this crate gives it the types of the field.
//!
//! - [`Graph`] holds an image. [`Graph::apply`] runs one [`Ticket`] and answers the [`Change`] or the
//!   [`Refusal`], [`Graph::apply_all`] runs a list of them.
//! - [`Fact`] and [`Kind`] are what a graph is made of; [`Graph::facts`] reads the facts of a kind off the
//!   image. Look-ups such as [`Graph::members_of`] and [`Graph::holders_of`] read what they say of an id;
//!   [`Graph::diff`] compares two graphs.
//! - [`Ticket::insert_exclusive`] makes a property exclusive: from then on the graph refuses a second
//!   individual with the same value for it.
//! - [`Graph::preview`] shows what a ticket would add and remove, and [`Preview::commit`] runs it only if
//!   that is still what it would do.
//! - [`Graph::apply_as_operator`] and [`Graph::apply_all_as_operator`] run the tickets of shift operators,
//!   who enter devices and readings: whatever they send, the class tree and the properties stay.
//! - [`Names`] keeps names for ids in a file, and writes and reads facts and tickets with them.
//! - [`Graph::to_triples`] and [`Graph::from_triples`] write and read a graph as a text of N-Triples.
//! - [`apply_ticket`], [`apply_list`], [`apply_operator_ticket`], [`apply_operator_list`], [`check_image`],
//!   [`write_triples`] and [`read_triples`] are the calls over bytes that the caller lends; [`call_raw`],
//!   [`call_list_raw`], [`call_operator_raw`], [`call_operator_list_raw`], [`ask_raw`], [`commit_raw`],
//!   [`check_raw`], [`write_triples_raw`] and [`read_triples_raw`] give their numbers as they come.
//!
//! The proved library has no state and takes no memory but the stack, of which 64 KB are enough for its
//! deepest calls known. Calls may run on any threads at once, and none panics.
//!
//! Kind, ticket, image, body, refusal and the mark Literal are the words of the specification, document 01.
//!
//! ```
//! use vimelosa_host::{Change, Fact, Graph, Refusal, Ticket};
//!
//! let (machine, pump, p7) = (2, 3, 4);
//! let mut graph = Graph::fresh();
//!
//! // A class comes with its link to rdfs:Resource.
//! assert_eq!(graph.apply(Ticket::insert_class(machine)), Ok(Change { added: 2, removed: 0 }));
//! graph.apply(Ticket::insert_subclass(pump, machine))?;
//!
//! // A member of a subclass is a member of the class.
//! graph.apply(Ticket::insert_member(p7, pump))?;
//! assert!(graph.has(Fact::Member { individual: p7, class: machine }));
//!
//! // Two classes are never subclasses of each other, and a refused ticket changes nothing.
//! let before = graph.clone();
//! assert_eq!(graph.apply(Ticket::insert_subclass(machine, pump)), Err(Refusal::Clashing));
//! assert_eq!(graph, before);
//! # Ok::<(), Refusal>(())
//! ```

#![deny(unsafe_code)]
#![deny(missing_docs)]

mod call;
mod deletion;
mod diff;
mod fact;
mod facts;
#[allow(unsafe_code)]
mod ffi;
mod graph;
mod image;
mod insertion;
mod kind;
mod list;
mod lookups;
mod name_error;
mod names;
mod names_text;
mod operator;
mod parse;
mod preview;
mod range;
mod refusal;
mod rows;
mod rule;
mod show;
mod ticket;
mod triples;
mod words;

pub use call::{apply_list, apply_operator_list, apply_operator_ticket, apply_ticket, check_image};
pub use call::{Applied, AppliedList, Change};
pub use diff::Diff;
pub use fact::{Fact, RESOURCE};
pub use facts::{AllFacts, Facts};
pub use ffi::{ask_raw, call_list_raw, call_operator_list_raw, call_operator_raw, call_raw, commit_raw};
pub use ffi::{check_raw, read_triples_raw, write_triples_raw};
pub use graph::Graph;
pub use image::{LONGEST_IMAGE, MOST_FACTS};
pub use kind::Kind;
pub use list::RefusedTicket;
pub use name_error::{NameError, NamesError};
pub use names::Names;
pub use parse::ParseError;
pub use preview::Preview;
pub use range::Range;
pub use refusal::Refusal;
pub use rule::Rule;
pub use show::Named;
pub use ticket::{Asked, Ticket};
pub use triples::{read_triples, write_triples, LONGEST_LINE, LONGEST_TEXT};
