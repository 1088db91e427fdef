//! Which cases a test runs, and what it says of them.

use std::io::Write;

/// What is run: a seed, and the cases from 0 on or one alone.
pub struct Plan {
    file: &'static str,
    test: &'static str,
    pub seed: u64,
    pub cases: std::ops::Range<u64>,
    alone: bool,
}

impl Plan {
    /// All inputs of a test, or one in `part` of them.
    pub fn new(test: &'static str, part: u64) -> Plan {
        Plan::of("differential", test, part)
    }

    /// The same for a test of another file.
    pub fn of(file: &'static str, test: &'static str, part: u64) -> Plan {
        let number = |name: &str| {
            std::env::var(name).ok().map(|text| text.parse().unwrap_or_else(|_| panic!("{name} is no number")))
        };
        let seed = number("RAVNEKET_SEED").unwrap_or(1);
        match number("RAVNEKET_CASE") {
            Some(case) => Plan { file, test, seed, cases: case..case + 1, alone: true },
            None => Plan {
                file,
                test,
                seed,
                cases: 0..(number("RAVNEKET_INPUTS").unwrap_or(100_000) / part).max(1),
                alone: false,
            },
        }
    }

    /// How to run a case again.
    pub fn again(&self, case: u64) -> String {
        format!(
            "RAVNEKET_SEED={} RAVNEKET_CASE={case} cargo test --release --test {} {}",
            self.seed, self.file, self.test
        )
    }

    /// Says what was met, and asks for a good number of each.
    pub fn tell(&self, inputs: u64, what: &str, tally: &[u64], wanted: std::ops::RangeInclusive<usize>) {
        let met: Vec<String> =
            tally.iter().enumerate().filter(|met| *met.1 > 0).map(|(at, met)| format!("{at}: {met}")).collect();
        say(&format!("{}: seed {}, {inputs} inputs, {what} {}", self.test, self.seed, met.join(", ")));
        if self.alone {
            return;
        }
        assert_eq!(inputs, self.cases.end, "every case is an input");
        if inputs >= 10_000 {
            for number in wanted {
                assert!(tally[number] >= inputs / 2_000, "{what} {number} was met {} times only", tally[number]);
            }
        }
    }
}

/// Says a line, also where the test's output is kept back.
pub fn say(line: &str) {
    writeln!(std::io::stderr(), "{line}").expect("standard error takes a line");
}
