//! What a comparison counts, each kind by the words that say it, and the differences that it tells.

use std::fmt::Debug;
use std::process::ExitCode;

/// How many differences are told.
const TOLD: usize = 10;

/// Nothing where it holds, and else what is wrong.
pub fn ensure(holds: bool, what: impl FnOnce() -> String) -> Result<(), String> {
    if holds {
        Ok(())
    } else {
        Err(what())
    }
}

struct Kind {
    words: &'static str,
    count: u64,
    /// The count when a line was last told.
    told: u64,
}

pub struct Tally {
    kinds: Vec<Kind>,
    /// Differences that docs/DIFFERENCES.md does not name.
    unnamed: usize,
}

impl Tally {
    pub fn new(kinds: &[&'static str]) -> Self {
        Self { kinds: kinds.iter().map(|&words| Kind { words, count: 0, told: 0 }).collect(), unnamed: 0 }
    }

    pub fn add(&mut self, words: &str, count: u64) {
        self.kinds.iter_mut().find(|kind| kind.words == words).expect("a kind of this tally").count += count;
    }

    /// One more of a kind.
    pub fn one(&mut self, words: &str) {
        self.add(words, 1);
    }

    pub fn difference(&mut self, what: impl Debug, question: impl Debug) {
        self.unnamed += 1;
        if self.unnamed <= TOLD {
            println!("DIFFERENCE: {what:?}\n  {question:?}");
        }
    }

    fn line(&self, name: &str, count: impl Fn(&Kind) -> u64) {
        let counts: Vec<_> = self.kinds.iter().map(|kind| format!("{:>7} {}", count(kind), kind.words)).collect();
        println!("{name:<34} {}", counts.join(", "));
    }

    /// A line on what was counted since the last one.
    pub fn tell(&mut self, name: &str) {
        self.line(name, |kind| kind.count - kind.told);
        self.kinds.iter_mut().for_each(|kind| kind.told = kind.count);
    }

    /// A line on all that was counted; the exit status is 0 only if no difference is without a name.
    pub fn end(&self) -> ExitCode {
        self.line("all", |kind| kind.count);
        println!("{} differences without a name", self.unnamed);
        if self.unnamed == 0 {
            ExitCode::SUCCESS
        } else {
            ExitCode::FAILURE
        }
    }
}
