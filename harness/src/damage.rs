//! Damaged network files through the port: `loqshyber_plan` and `loqshyber_price`, with canary bytes around each buffer, and the program `planruns`.
//!
//! No answer may crash or hang; each is a plan or a number; no byte past a buffer is touched; the same file has the same answer.

use crate::large;
use crate::listing::{Listing, MOST};
use crate::networks::SHAPES;
use crate::numbers::Numbers;
use crate::port;
use std::fs::File;
use std::io::{self, Write};
use std::path::{Path, PathBuf};
use std::process::{Command, ExitCode, Stdio};
use std::{env, fs};

/// The program that plans many files in one process.
const PLAN_RUNS: &str = concat!(env!("CARGO_MANIFEST_DIR"), "/../crates/planruns/out/planruns");
/// No text is longer.
const TEXT: usize = 131_072;
/// What stands around each buffer, and how many bytes of it.
const CANARY: u8 = 0xc5;
const AROUND: usize = 64;
/// So many files are damaged, each in many ways.
const STARTS: usize = 400;
/// The most leaves of a start: plans of large networks take long.
const LEAVES: usize = 20;
/// How many faults are told.
const TOLD: usize = 10;

/// A buffer with canaries on both sides.
struct Guarded {
    bytes: Vec<u8>,
}

impl Guarded {
    fn new(inside: &[u8]) -> Self {
        Self { bytes: [&[CANARY; AROUND], inside, &[CANARY; AROUND]].concat() }
    }

    fn inside(&mut self) -> &mut [u8] {
        let end = self.bytes.len() - AROUND;
        &mut self.bytes[AROUND..end]
    }

    fn is_kept(&self) -> bool {
        let around = [&self.bytes[..AROUND], &self.bytes[self.bytes.len() - AROUND..]];
        around.concat().iter().all(|&byte| byte == CANARY)
    }
}

/// A network file with or without a tree, with flags, a target or neither.
fn start(numbers: &mut Numbers, k: usize) -> Vec<u8> {
    let leaf_count = numbers.below(LEAVES + 1);
    let mut case = large::case_of(numbers, SHAPES[k % SHAPES.len()], leaf_count);
    if numbers.chance(1, 2) {
        case.tree = None;
    }
    let target = case.flags.is_none() || numbers.chance(1, 2);
    if target {
        case.flags = None;
    }
    let mut file = case.file();
    if target && numbers.chance(2, 3) {
        file.extend([6, 0, 1, numbers.below(40) as u8]);
    }
    file
}

fn range(numbers: &mut Numbers, length: usize, most: usize) -> std::ops::Range<usize> {
    let from = numbers.below(length + 1);
    from..(from + numbers.below(most + 1)).min(length)
}

/// One way of damage: bytes changed, cut off, doubled, taken out, put in; a number where a length stands; bytes at random.
fn damage(numbers: &mut Numbers, file: &mut Vec<u8>) {
    let byte = |numbers: &mut Numbers| {
        if numbers.chance(1, 2) {
            numbers.below(9) as u8
        } else {
            numbers.below(256) as u8
        }
    };
    match numbers.below(16) {
        0..8 if !file.is_empty() => {
            for _ in 0..numbers.pick(&[1, 1, 1, 2, 4]) {
                let at = numbers.below(file.len());
                file[at] = byte(numbers);
            }
        }
        8 => file.truncate(numbers.below(file.len() + 1)),
        9 => {
            let part = range(numbers, file.len(), 64);
            let (end, copy) = (part.end, file[part].to_vec());
            file.splice(end..end, copy);
        }
        10 => {
            let part = range(numbers, file.len(), 16);
            file.drain(part);
        }
        11 => {
            let at = numbers.below(file.len() + 1);
            let bytes: Vec<u8> = (0..1 + numbers.below(6)).map(|_| byte(numbers)).collect();
            file.splice(at..at, bytes);
        }
        12 | 13 if file.len() > 2 => {
            let at = numbers.below(file.len() - 2);
            file[at..at + 2].copy_from_slice(&(numbers.below(70) as u16).to_be_bytes());
        }
        _ => *file = (0..numbers.below(200)).map(|_| byte(numbers)).collect(),
    }
}

/// The damaged files: the starts in turn, each damaged once to three times.
fn files(count: usize, seed: u64) -> Vec<Vec<u8>> {
    let mut numbers = Numbers::new(seed);
    let starts: Vec<Vec<u8>> = (0..STARTS).map(|k| start(&mut numbers, k)).collect();
    let mut all = Vec::with_capacity(count);
    for k in 0..count {
        let mut file = starts[k % STARTS].clone();
        for _ in 0..numbers.pick(&[1, 1, 1, 1, 2, 3]) {
            damage(&mut numbers, &mut file);
        }
        all.push(file);
    }
    all
}

/// The number of a text that says `refused`, or nothing of one that is a plan.
fn refusal(text: &[u8]) -> Result<Option<u32>, String> {
    let text = std::str::from_utf8(text).map_err(|_| "the text is not ASCII")?;
    if let Some(number) = text.strip_prefix("refused ").and_then(|rest| rest.strip_suffix('\n')) {
        let number: u32 = number.parse().map_err(|_| format!("no number: {text:?}"))?;
        return if (1..=13).contains(&number) { Ok(Some(number)) } else { Err(format!("no number of the table: {number}")) };
    }
    let starts = ["plan ", "step ", "total ", "widest ", "slice ", "bits ", "improved ", "splits "];
    let is_plan = text.starts_with("plan ") && text.ends_with('\n');
    if is_plan && text.lines().all(|line| starts.iter().any(|start| line.starts_with(start))) {
        return Ok(None);
    }
    Err(format!("neither a plan nor a number: {text:?}"))
}

/// The text that `loqshyber_plan` writes for a file.
fn plan(file: &[u8]) -> Result<Vec<u8>, String> {
    let (mut lent, mut out) = (Guarded::new(file), Guarded::new(&[CANARY; TEXT]));
    let length = port::loqshyber_plan(lent.inside(), out.inside());
    if !lent.is_kept() || !out.is_kept() || lent.inside() != file {
        return Err("plan: a byte is touched that must not be".into());
    }
    let written = out.inside();
    if length > TEXT || written[length..].iter().any(|&byte| byte != CANARY) {
        return Err(format!("plan: bytes past the text's {length} are touched"));
    }
    Ok(written[..length].to_vec())
}

/// The number that `loqshyber_price` answers; 0 comes with a listing.
fn price(file: &[u8]) -> Result<u32, String> {
    let (mut lent, mut out) = (Guarded::new(file), Guarded::new(&[CANARY; MOST]));
    let number = port::loqshyber_price(lent.inside(), out.inside());
    if !lent.is_kept() || !out.is_kept() || lent.inside() != file {
        return Err("price: a byte is touched that must not be".into());
    }
    let written = out.inside();
    match number {
        0 => Listing::decode(written).map(|_| 0),
        1..=9 if written.iter().all(|&byte| byte == CANARY) => Ok(number),
        1..=9 => Err(format!("price: number {number}, and the listing's bytes are touched")),
        _ => Err(format!("price: no number of the table: {number}")),
    }
}

#[derive(Default)]
struct Counts {
    plans: usize,
    /// Files refused by each number.
    refused: [usize; 14],
    priced: usize,
    faults: usize,
}

/// Both calls on a file. A file that only `price` refuses has no tree; what the file's own bytes are refused by, both say.
fn run_file(file: &[u8], counts: &mut Counts) -> Result<Vec<u8>, String> {
    let text = plan(file)?;
    if plan(file)? != text {
        return Err("another text for the same file".into());
    }
    let (planned, priced) = (refusal(&text)?, price(file)?);
    match planned {
        None => counts.plans += 1,
        Some(number) => counts.refused[number as usize] += 1,
    }
    counts.priced += (priced == 0) as usize;
    match (planned, priced) {
        (Some(number @ 1..=9), priced) if number != priced => Err(format!("plan refuses {number}, price {priced}")),
        (None | Some(10..), 1..=7 | 9) => Err(format!("price alone refuses {priced}")),
        _ => Ok(text),
    }
}

/// What the program `planruns` writes for the files, in one process.
fn program_output(program: &Path, files: &[Vec<u8>]) -> io::Result<Vec<u8>> {
    let input = env::temp_dir().join(format!("loqshyber-damage-{}", std::process::id()));
    let mut bytes = (files.len() as u32).to_be_bytes().to_vec();
    for file in files {
        bytes.extend((file.len() as u32).to_be_bytes());
        bytes.extend(file);
    }
    File::create(&input)?.write_all(&bytes)?;
    let output = Command::new(program).stdin(File::open(&input)?).stderr(Stdio::inherit()).output()?;
    fs::remove_file(&input)?;
    if output.status.success() {
        Ok(output.stdout)
    } else {
        Err(io::Error::other(format!("the program ended with {}", output.status)))
    }
}

/// Whether the program writes the same texts, each after its case's number.
fn compare_program(files: &[Vec<u8>], texts: &[Vec<u8>]) -> Result<&'static str, String> {
    let program = PathBuf::from(PLAN_RUNS);
    if !program.is_file() {
        return Ok("the program planruns is not built (`rt run` in crates/planruns), so it was not run");
    }
    let output = program_output(&program, files).map_err(|error| error.to_string())?;
    let numbered = texts.iter().enumerate().map(|(k, text)| [format!("case {}\n", k + 1).as_bytes(), text].concat());
    if output == numbered.collect::<Vec<_>>().concat() {
        Ok("the program planruns, one process, writes the same texts")
    } else {
        Err("the program planruns writes other texts".into())
    }
}

/// So many damaged files; the exit status is 0 only if there is no fault.
pub fn run(count: usize, seed: u64) -> ExitCode {
    if !port::AT_HAND {
        println!("{}", port::MISSING);
        return ExitCode::FAILURE;
    }
    let (files, mut counts, mut texts) = (files(count, seed), Counts::default(), Vec::with_capacity(count));
    for file in &files {
        let text = run_file(file, &mut counts);
        if let Err(what) = &text {
            counts.faults += 1;
            if counts.faults <= TOLD {
                let hex: String = file.iter().map(|byte| format!("{byte:02x}")).collect();
                println!("FAULT: {what}\n  {hex}");
            }
        }
        texts.push(text.unwrap_or_default());
    }
    println!("{count} damaged files, seed {seed}: {} plans, {} priced, {} faults", counts.plans, counts.priced, counts.faults);
    for (number, refused) in counts.refused.iter().enumerate().filter(|(_, &refused)| refused > 0) {
        println!("  refused {number:>2}: {refused}");
    }
    let program = compare_program(&files, &texts);
    println!("{}", program.as_ref().map_or_else(String::as_str, |line| line));
    if counts.faults == 0 && program.is_ok() {
        ExitCode::SUCCESS
    } else {
        ExitCode::FAILURE
    }
}
