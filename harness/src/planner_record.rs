//! The stored cases of the program `planneruns`: greedy's, then bisection's, then improvement's.

use crate::{bisection, greedy, reconfigure, rust};
use std::path::Path;
use std::{fs, io};

/// Writes `stdin` and `stdout` of the program.
pub fn run(folder: &Path) -> io::Result<()> {
    let (mut input, mut output) = (Vec::new(), String::new());
    for sample in [greedy::record::sample, bisection::record::sample, reconfigure::record::sample] {
        let Some((more, lines)) = sample() else {
            println!("{}", rust::MISSING);
            return Ok(());
        };
        input.extend(more);
        output += &lines;
    }
    fs::create_dir_all(folder)?;
    fs::write(folder.join("stdin"), &input)?;
    fs::write(folder.join("stdout"), &output)?;
    println!("{} bytes of input, {} lines of output", input.len(), output.lines().count());
    Ok(())
}
