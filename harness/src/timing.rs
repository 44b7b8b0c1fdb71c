//! How the port and the Rust are timed side by side, and how tables of times are printed.

use crate::case::LEAVES;
use crate::{port, rust};
use std::time::Instant;

/// The sizes of the networks that are timed, in tables.
pub const TABLES: [usize; 5] = [8, 22, 41, 64, LEAVES];
/// Growth is told from this size to the largest.
const GROWS_FROM: usize = 22;

/// Microseconds of one call.
pub fn time(call: impl FnOnce()) -> f64 {
    let start = Instant::now();
    call();
    start.elapsed().as_secs_f64() * 1e6
}

/// One side of a row: a call, or `None` where that side is not at hand.
pub type Call<'a> = Option<Box<dyn FnMut() + 'a>>;

/// The least time and the median.
#[derive(Clone, Copy)]
pub struct Times {
    pub least: f64,
    median: f64,
}

impl Times {
    fn of(mut times: Vec<f64>) -> Option<Times> {
        times.sort_by(f64::total_cmp);
        Some(Times { least: *times.first()?, median: times[times.len() / 2] })
    }

    fn show(times: Option<Times>) -> String {
        let digits = times.map_or(0, |times| if times.least < 100.0 { 2 } else { 0 });
        times.map_or("-".into(), |Times { least, median }| format!("{least:.digits$} ({median:.digits$})"))
    }
}

/// A table of times: a row for each size, the port's time beside the Rust's, and at its end how both grow.
pub struct Table {
    columns: &'static [&'static str],
    rows: Vec<(usize, Option<Times>, Option<Times>)>,
}

impl Table {
    pub fn new(title: &str, calls: &str, columns: &'static [&'static str]) -> Table {
        println!("{title}, microseconds a call: the least of {calls}, and the median in brackets");
        Table::line("", "port".into(), "Rust".into(), "ratio".into(), columns.iter().map(|column| column.to_string()));
        Table { columns, rows: Vec::new() }
    }

    fn line(name: &str, port: String, rust: String, ratio: String, rest: impl Iterator<Item = String>) {
        let rest: String = rest.map(|word| format!(" {word:>12}")).collect();
        println!("{name:<44} {port:>20} {rust:>20} {ratio:>8}{rest}");
    }

    /// A row of so many tables, with the times of the port and of the Rust; what stands in the further columns may be made of the port's.
    pub fn row(&mut self, tables: usize, name: &str, times: [Vec<f64>; 2], rest: impl FnOnce(Option<Times>) -> Vec<String>) {
        let [port, rust] = times.map(Times::of);
        let ratio = port.zip(rust).map_or("-".into(), |(port, rust)| format!("{:.2}", port.least / rust.least));
        let rest = rest(port);
        assert_eq!(rest.len(), self.columns.len());
        Table::line(&format!("{tables} tables{name}"), Times::show(port), Times::show(rust), ratio, rest.into_iter());
        self.rows.push((tables, port, rust));
    }

    /// Calls of both sides take turns, so that both meet the same machine.
    pub fn turns(count: usize, mut port: impl FnMut() -> Option<f64>, mut rust: impl FnMut() -> Option<f64>) -> [Vec<f64>; 2] {
        let mut times = [Vec::new(), Vec::new()];
        for _ in 0..count {
            times[0].extend(port());
            times[1].extend(rust());
        }
        times
    }

    /// The power of the number of tables with which a side's least time grows.
    fn power(&self, side: impl Fn(&(usize, Option<Times>, Option<Times>)) -> Option<Times>) -> Option<f64> {
        let at = |size: usize| self.rows.iter().find(|row| row.0 == size).and_then(&side).map(|times| times.least);
        Some((at(LEAVES)? / at(GROWS_FROM)?).ln() / (LEAVES as f64 / GROWS_FROM as f64).ln())
    }

    /// Ends a run of rows of all sizes: how time grows.
    pub fn growth(&mut self) {
        let show = |power: Option<f64>| power.map_or("-".into(), |power| format!("n^{power:.2}"));
        let (port, rust) = (self.power(|row| row.1), self.power(|row| row.2));
        Table::line(
            &format!("from {GROWS_FROM} to {LEAVES} tables, time grows with"),
            show(port),
            show(rust),
            String::new(),
            std::iter::empty(),
        );
        self.rows.clear();
    }
}

/// Says which side is not at hand.
pub fn missing() {
    if !port::AT_HAND {
        println!("{}", port::MISSING);
    }
    if !rust::AT_HAND {
        println!("{}", rust::MISSING);
    }
}
