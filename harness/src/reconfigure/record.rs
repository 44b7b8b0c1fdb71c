//! A sample of the Rust's improvements, stored for the program `planneruns`, which needs no Rust.
//!
//! Its input: a 4-byte count; for each case a byte k, a byte of passes, two bytes of a limit (65,535: none), a 4-byte length and so many bytes of a
//! network file with a tree and flags; high bytes first. Its output, a line a case: `improved`, the rebuild count, the split count, and the left and
//! the right child of each node; or `refused K`.
//!
//! A tree and a rebuild count are stored only if path.rs and the second reading agree on them. path.rs counts no splits and refuses nothing, so the
//! split count and refusals stand by the second reading alone.

use super::{cases, Question};
use crate::networks::SHAPES;
use crate::numbers::Numbers;

const SEED: u64 = 2028;
/// Questions of each shape, and on practice pedigrees.
const EACH: usize = 40;
/// The limit that stands for none.
const NO_LIMIT: u16 = u16::MAX;

fn questions() -> Vec<Question> {
    let mut numbers = Numbers::new(SEED);
    let mut questions = Vec::new();
    for shape in SHAPES {
        questions.extend((0..EACH).map(|_| cases::random(&mut numbers, shape)));
    }
    questions.extend((0..EACH).map(|k| cases::pedigree(&mut numbers, k * 62 / (EACH - 1))));
    questions.extend((3..=12).map(|k| cases::wide(&mut numbers, k)));
    questions
}

/// The line of a question, or what path.rs has instead.
fn line(question: &Question, rust: (crate::case::Tree, u64)) -> Result<String, String> {
    match question.read() {
        Err(number) => Ok(format!("refused {number}")),
        Ok(improved) if rust == (improved.tree.clone(), improved.rebuilt) => {
            let start = format!("improved {} {}", improved.rebuilt, improved.tried);
            Ok(improved.tree.as_flattened().iter().fold(start, |text, child| format!("{text} {child}")))
        }
        Ok(improved) => Err(format!("second reading {improved:?}, Rust {rust:?}")),
    }
}

/// The program's input and output on these cases; none without path.rs.
pub fn sample() -> Option<(Vec<u8>, String)> {
    let (mut input, mut output) = (Vec::new(), String::new());
    let questions = questions();
    for question in &questions {
        output += &(line(question, question.rust()?).expect("path.rs and the second reading agree") + "\n");
        let limit = question.ask.limit.map_or(NO_LIMIT, |limit| limit as u16);
        let file = question.case().file();
        input.extend([question.ask.k as u8, question.ask.passes as u8]);
        input.extend(limit.to_be_bytes());
        input.extend((file.len() as u32).to_be_bytes());
        input.extend(file);
    }
    println!("improvement: {} cases", questions.len());
    Some(([&(questions.len() as u32).to_be_bytes()[..], &input].concat(), output))
}
