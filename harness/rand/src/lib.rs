//! A stand-in for the crate `rand`, with the names that path.rs uses.
//!
//! Each draw takes one 64-bit word. A unit draw is the word over 2^11, rounded down, times 2^-53. An index draw below n is the word modulo n.
//! The words come from a list that is lent ([`draws::lend`]), and where none is lent from a generator with the given seed. Every word
//! that is taken is recorded ([`draws::taken`]).

use std::ops::{Range, RangeInclusive};

/// The words of this thread: those that are lent, and those that were taken.
pub mod draws {
    use std::cell::RefCell;

    #[derive(Default)]
    struct Words {
        lent: Option<Vec<u64>>,
        /// Lent words that were taken.
        at: usize,
        /// Seeded words that were taken.
        seeded: Vec<u64>,
        missed: usize,
    }

    /// What was taken since the last [`lend`] or [`record`].
    pub struct Taken {
        pub words: Vec<u64>,
        /// Draws that were due after the last lent word. Each of them got 0.
        pub missed: usize,
    }

    thread_local!(static WORDS: RefCell<Words> = RefCell::default());

    /// From now on draws take these words, in order.
    pub fn lend(words: Vec<u64>) {
        WORDS.set(Words { lent: Some(words), ..Words::default() });
    }

    /// From now on draws take words of the seeded generator.
    pub fn record() {
        WORDS.set(Words::default());
    }

    /// Ends what [`lend`] or [`record`] began, and hands out what was taken.
    pub fn taken() -> Taken {
        let words = WORDS.take();
        let taken = words.lent.map_or(words.seeded, |mut lent| {
            lent.truncate(words.at);
            lent
        });
        Taken { words: taken, missed: words.missed }
    }

    /// How many lent words were taken so far, unless a draw was due past them.
    pub fn so_far() -> Option<usize> {
        WORDS.with_borrow(|words| (words.missed == 0).then_some(words.at))
    }

    /// The word of one draw; `seeded` makes it where no list is lent.
    pub(crate) fn next(seeded: impl FnOnce() -> u64) -> u64 {
        WORDS.with_borrow_mut(|words| match &words.lent {
            None => {
                let word = seeded();
                words.seeded.push(word);
                word
            }
            Some(lent) => match lent.get(words.at) {
                Some(&word) => {
                    words.at += 1;
                    word
                }
                None => {
                    words.missed += 1;
                    0
                }
            },
        })
    }
}

pub mod rngs {
    /// A generator that stands for rand's: Steele, Lea and Flood's SplitMix64.
    #[derive(Clone, Debug)]
    pub struct StdRng {
        pub(crate) state: u64,
    }
}

pub trait SeedableRng {
    fn seed_from_u64(seed: u64) -> Self;
}

impl SeedableRng for rngs::StdRng {
    fn seed_from_u64(seed: u64) -> Self {
        Self { state: seed }
    }
}

impl rngs::StdRng {
    fn seeded_word(&mut self) -> u64 {
        self.state = self.state.wrapping_add(0x9e37_79b9_7f4a_7c15);
        let z = (self.state ^ self.state >> 30).wrapping_mul(0xbf58_476d_1ce4_e5b9);
        let z = (z ^ z >> 27).wrapping_mul(0x94d0_49bb_1331_11eb);
        z ^ z >> 31
    }
}

/// What a word stands for where any value of a type is drawn.
pub trait FromWord {
    fn from_word(word: u64) -> Self;
}

impl FromWord for u64 {
    fn from_word(word: u64) -> Self {
        word
    }
}

impl FromWord for f64 {
    fn from_word(word: u64) -> Self {
        (word >> 11) as f64 / (1u64 << 53) as f64
    }
}

/// What a word stands for where a value of a range is drawn.
pub trait RangeFromWord<T> {
    fn at_word(self, word: u64) -> T;
}

impl RangeFromWord<usize> for Range<usize> {
    fn at_word(self, word: u64) -> usize {
        self.start + (word % (self.end - self.start) as u64) as usize
    }
}

impl RangeFromWord<usize> for RangeInclusive<usize> {
    fn at_word(self, word: u64) -> usize {
        (*self.start()..self.end() + 1).at_word(word)
    }
}

impl RangeFromWord<f64> for Range<f64> {
    fn at_word(self, word: u64) -> f64 {
        self.start + f64::from_word(word) * (self.end - self.start)
    }
}

pub trait Rng {
    fn word(&mut self) -> u64;

    fn random<T: FromWord>(&mut self) -> T {
        T::from_word(self.word())
    }

    fn random_range<T, R: RangeFromWord<T>>(&mut self, range: R) -> T {
        range.at_word(self.word())
    }
}

impl Rng for rngs::StdRng {
    fn word(&mut self) -> u64 {
        draws::next(|| self.seeded_word())
    }
}

#[cfg(test)]
mod tests {
    use super::*;

    #[test]
    fn words_stand_for_draws() {
        let mut rng = rngs::StdRng::seed_from_u64(1);
        draws::lend(vec![7, 0, u64::MAX, 5]);
        assert_eq!(rng.random_range(0..3usize), 1);
        assert_eq!(rng.random::<f64>(), 0.0);
        assert_eq!(rng.random::<f64>(), 1.0 - (-53f64).exp2());
        assert_eq!(rng.random_range(0..=2usize), 2);
        assert_eq!(rng.random_range(0..9usize), 0);
        let taken = draws::taken();
        assert_eq!((taken.words, taken.missed), (vec![7, 0, u64::MAX, 5], 1));
    }

    #[test]
    fn recorded_words_give_the_same_draws() {
        let draw = || {
            let mut rng = rngs::StdRng::seed_from_u64(99);
            (0..100).map(|k| rng.random_range(0..k + 1)).collect::<Vec<usize>>()
        };
        draws::record();
        let first = draw();
        let words = draws::taken().words;
        assert_eq!(words.len(), 100);
        draws::lend(words);
        assert_eq!(draw(), first);
        assert_eq!(draws::taken().missed, 0);
    }
}
