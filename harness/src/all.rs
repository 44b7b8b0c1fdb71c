//! All entries beside path.rs, for a set time: round after round, each with a seed of its own.

use std::env;
use std::io;
use std::process::{Command, ExitCode};
use std::time::{Duration, Instant};

/// The commands of a round, and how many networks, questions or files each takes.
const ROUND: [(&str, usize); 6] =
    [("compare", 2000), ("greedy", 1000), ("bisection", 300), ("reconfigure", 1000), ("slice", 500), ("damage", 5000)];

/// Runs one command of this program with a seed, and says whether it ended well.
fn command(name: &str, count: usize, seed: u64) -> io::Result<bool> {
    println!("== {name} {count} {seed}");
    Ok(Command::new(env::current_exe()?).args([name, &count.to_string(), &seed.to_string()]).status()?.success())
}

/// Rounds until the time is up; a round that has begun is ended. The first command that fails ends all.
pub fn run(seconds: u64, first: u64) -> ExitCode {
    let (start, mut seed) = (Instant::now(), first);
    while start.elapsed() < Duration::from_secs(seconds) || seed == first {
        for (name, count) in ROUND {
            match command(name, count, seed) {
                Ok(true) => (),
                Ok(false) => {
                    println!("{name} {count} {seed} FAILED");
                    return ExitCode::FAILURE;
                }
                Err(error) => {
                    println!("{name}: {error}");
                    return ExitCode::FAILURE;
                }
            }
        }
        seed += 1;
    }
    println!(
        "{} rounds in {} s, seeds {first} to {}: no difference without a name",
        seed - first,
        start.elapsed().as_secs(),
        seed - 1
    );
    ExitCode::SUCCESS
}
