//! Program one, program two, `run_calls`, the programs for triples and the calls across the C interface
//! beside the independent implementation. VIMELOSA_TEST_ROUNDS runs each test that many times as long,
//! VIMELOSA_TEST_SEED draws other tickets.

mod check_call;
#[path = "../generator/mod.rs"]
mod generator;
#[macro_use]
mod guarded;
mod guarded_previews;
mod guarded_triples;
mod host_call;
#[path = "../independent/mod.rs"]
mod independent;
mod list_buffers;
mod list_call;
mod operator_call;
mod operator_list_call;
mod preview_call;
#[path = "../process/mod.rs"]
mod process;
mod program_one;
mod program_two;
mod run_calls;
mod triples_call;
mod triples_programs;
mod triples_vectors;
mod triples_written;
#[path = "../vector_files/mod.rs"]
mod vector_files;
