//! What the command line asks: `--quick` for a short run, `--write` to write the report to docs/.

use std::time::Duration;

pub struct Settings {
    /// How often each process is run.
    pub processes: usize,
    /// How many readings are taken of each host call, and how long it is repeated for one of them.
    pub slices: usize,
    pub slice: Duration,
    /// The lists have so many times fewer tickets.
    pub share: usize,
    pub writes: bool,
}

impl Settings {
    pub fn of(words: &[String]) -> Settings {
        let has = |word: &str| words.iter().any(|other| other == word);
        let writes = has("--write");
        if has("--quick") {
            return Settings { processes: 3, slices: 5, slice: Duration::from_millis(1), share: 10, writes };
        }
        Settings { processes: 11, slices: 61, slice: Duration::from_millis(1), share: 1, writes }
    }
}
