//! The listing that the port's C function writes, and the bytes of it.
//!
//! High byte first: steps (2 bytes); total (1 byte: 0 exact, 1 beyond; 8 bytes, 0 if beyond); widest (1 byte: 0 none, 1 bits; 2 bytes);
//! slice bits (2 bytes); then for each step node, left, right, work bits, size bits (2 bytes each).

use crate::case::LEAVES;

pub const HEAD: usize = 16;
pub const STEP: usize = 10;
pub const MOST: usize = HEAD + STEP * (LEAVES - 1);

#[derive(Clone, Copy, Debug, PartialEq, Eq)]
pub enum Total {
    Exact(u64),
    Beyond,
}

#[derive(Clone, Copy, Debug, PartialEq, Eq)]
pub struct Step {
    pub node: u16,
    pub left: u16,
    pub right: u16,
    pub work_bits: u16,
    pub size_bits: u16,
}

#[derive(Clone, Debug, PartialEq, Eq)]
pub struct Listing {
    pub total: Total,
    pub widest: Option<u16>,
    pub slice_bits: u16,
    pub steps: Vec<Step>,
}

fn number(bytes: &[u8]) -> u64 {
    bytes.iter().fold(0, |n, &b| n << 8 | b as u64)
}

fn total(bytes: &[u8]) -> Result<Total, String> {
    match (bytes[0], number(&bytes[1..])) {
        (0, total) if total < 1 << 53 => Ok(Total::Exact(total)),
        (1, 0) => Ok(Total::Beyond),
        other => Err(format!("no total: {other:?}")),
    }
}

fn widest(bytes: &[u8]) -> Result<Option<u16>, String> {
    match (bytes[0], number(&bytes[1..])) {
        (0, 0) => Ok(None),
        (1, bits) => Ok(Some(bits as u16)),
        other => Err(format!("no widest: {other:?}")),
    }
}

fn step(bytes: &[u8]) -> Step {
    let at = |k: usize| number(&bytes[2 * k..2 * k + 2]) as u16;
    Step { node: at(0), left: at(1), right: at(2), work_bits: at(3), size_bits: at(4) }
}

impl Listing {
    /// The listing at the start of a buffer, and how many bytes it takes.
    pub fn decode(bytes: &[u8]) -> Result<(Self, usize), String> {
        if bytes.len() < HEAD {
            return Err("no room for a head".into());
        }
        let size = HEAD + STEP * number(&bytes[..2]) as usize;
        if bytes.len() < size {
            return Err(format!("{size} bytes of a listing in {}", bytes.len()));
        }
        let listing = Self {
            total: total(&bytes[2..11])?,
            widest: widest(&bytes[11..14])?,
            slice_bits: number(&bytes[14..16]) as u16,
            steps: bytes[HEAD..size].chunks(STEP).map(step).collect(),
        };
        Ok((listing, size))
    }
}

/// The sum of 2 to each number, or beyond from 2^53 on.
pub fn sum_of_powers(bits: impl Iterator<Item = u16>) -> Total {
    let mut sum = 0u64;
    for b in bits {
        sum = if b < 53 { sum + (1 << b) } else { 1 << 53 };
        if sum >= 1 << 53 {
            return Total::Beyond;
        }
    }
    Total::Exact(sum)
}

#[cfg(test)]
mod tests {
    use super::*;

    #[test]
    fn decodes_a_listing() {
        let mut bytes = vec![0, 1, 0, 0, 0, 0, 0, 0, 0, 1, 4, 1, 0, 3, 1, 2];
        bytes.extend([0, 2, 0, 1, 0, 0, 1, 4, 0, 9, 77]);
        let (listing, size) = Listing::decode(&bytes).unwrap();
        assert_eq!(size, 26);
        let step = Step { node: 2, left: 1, right: 0, work_bits: 260, size_bits: 9 };
        assert_eq!(listing, Listing { total: Total::Exact(260), widest: Some(3), slice_bits: 258, steps: vec![step] });
    }

    #[test]
    fn sums_end_at_two_to_the_53() {
        assert_eq!(sum_of_powers([].into_iter()), Total::Exact(0));
        assert_eq!(sum_of_powers([52, 51].into_iter()), Total::Exact((1 << 52) + (1 << 51)));
        assert_eq!(sum_of_powers([52, 52].into_iter()), Total::Beyond);
        assert_eq!(sum_of_powers([2048].into_iter()), Total::Beyond);
    }
}
