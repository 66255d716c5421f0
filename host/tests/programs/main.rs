//! Programs one and two as processes beside the independent implementation: more input than one read brings,
//! from files and pipes; and input and output that fail. Each test says which wrong programs it sees.

mod failing_input;
mod failing_output;
#[path = "../generator/mod.rs"]
mod generator;
#[path = "../independent/mod.rs"]
mod independent;
mod long_images;
mod long_lists;
#[path = "../process/mod.rs"]
mod process;
mod same;
