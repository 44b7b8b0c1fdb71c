//! The greedy entry of docs/DIFFERENCES.md on both sides, refusals by number, and the second reading by itself.

use super::call;
use super::cases;
use super::model::{self, Rest};
use super::{outcome, Outcome};
use crate::case::{Network, LEGS};
use crate::lent::Given;
use crate::port;

fn network(weights: &[u8], leaves: &[&[u16]]) -> Network {
    Network { weights: weights.to_vec(), leaves: leaves.iter().map(|leaf| leaf.to_vec()).collect(), outputs: Vec::new() }
}

#[test]
fn the_rest_by_whole_bits_and_by_minus_zero() {
    let network = network(&[0], &[&[0], &[]]);
    assert_eq!(model::greedy(&network, Rest::WholeBits).unwrap(), [[0, 1]]);
    assert_eq!(model::greedy(&network, Rest::EmptyFirst).unwrap(), [[1, 0]]);
    if port::AT_HAND {
        assert_eq!(call::answer(&Given::new(&network)).unwrap(), Ok(vec![[0, 1]]));
        if crate::rust::AT_HAND {
            assert_eq!(outcome(&network), Ok(Outcome::Rest));
        }
    }
}

#[test]
fn the_sample() {
    // the sample network of the scope document
    let network = Network { weights: vec![1, 2, 1], leaves: vec![vec![0, 1], vec![1, 2], vec![2]], outputs: vec![0] };
    assert_eq!(model::greedy(&network, Rest::WholeBits).unwrap(), [[0, 1], [3, 2]]);
    if port::AT_HAND {
        assert_eq!(call::answer(&Given::new(&network)).unwrap(), Ok(vec![[0, 1], [3, 2]]));
    }
}

/// The port's number for 40 bits and for 41, as a merged table and as a table of a pair; a table that shares nothing may have any size.
#[test]
fn forty_bits_and_forty_one() {
    if !port::AT_HAND {
        return;
    }
    let number = |network: &Network| call::answer(&Given::new(network)).unwrap().err().unwrap_or(0);
    for (bits, refused) in [(39, 0), (40, 0), (41, 12)] {
        assert_eq!(number(&cases::merging_to(bits)), refused);
        assert_eq!(number(&cases::table_of(bits, false)), refused);
        assert_eq!(number(&cases::later(bits)), refused);
    }
    for network in cases::wide() {
        let given = Given::new(&network);
        let port = call::answer(&given).unwrap();
        let refused = model::greedy(&network, Rest::WholeBits).is_err();
        assert_eq!(port.is_err(), refused, "{network:?}");
        assert!(port.is_ok() || port == Err(12));
    }
}

/// What is lent beside an accepted network: a refusal by the lowest number that holds.
#[test]
fn refusals_by_number() {
    if !port::AT_HAND {
        return;
    }
    let good = Given::new(&network(&[1, 2], &[&[0, 1], &[1]]));
    let number = |change: &dyn Fn(&mut Given)| {
        let mut given = good.clone();
        change(&mut given);
        call::answer(&given).unwrap().err().unwrap_or(0)
    };
    assert_eq!(number(&|_| ()), 0);
    assert_eq!(number(&|g| g.weights = vec![0; 257]), 3);
    assert_eq!(number(&|g| g.leg_counts = vec![0; 129]), 3);
    assert_eq!(number(&|g| g.outputs = vec![0; 33]), 3);
    assert_eq!(number(&|g| g.leg_counts[1] = LEGS as u8 + 1), 3);
    assert_eq!(number(&|g| g.weights[1] = 9), 4);
    assert_eq!(number(&|g| g.legs[1] = 2), 5);
    assert_eq!(number(&|g| g.outputs = vec![2]), 5);
    assert_eq!(number(&|g| g.legs[1] = 0), 6);
    assert_eq!(number(&|g| g.outputs = vec![1, 1]), 6);
    // the lowest number comes first
    assert_eq!(number(&|g| (g.outputs, g.weights[1]) = (vec![2, 2], 9)), 4);
    assert_eq!(number(&|g| g.outputs = vec![2, 2]), 5);
    // past the counts nothing is read
    assert_eq!(number(&|g| g.legs[2] = 999), 0);
    assert_eq!(number(&|g| g.legs.truncate(33)), 0);
}
