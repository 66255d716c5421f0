//! What the program `run_calls` has stored as its output, computed once more by the independent
//! implementation from the same script.

mod independent;

use independent::script::run_script;

const SCRIPT: &str = include_str!("../../crates/run_calls/stdin");
const PRINTED: &str = include_str!("../../crates/run_calls/stdout");

#[test]
fn run_calls_prints_what_the_independent_calls_answer() {
    let printed = run_script(SCRIPT);
    for (line, expected) in
        PRINTED.lines().zip(printed.lines()).enumerate().map(|(place, pair)| (place + 1, pair))
    {
        assert_eq!(expected.0, expected.1, "line {line}");
    }
    assert_eq!(PRINTED, printed);
}
