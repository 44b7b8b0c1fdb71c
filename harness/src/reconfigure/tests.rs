//! The scope document's sample, refusals by number, and the second reading by itself.

use super::call::{self, Call, NO_LIMIT};
use super::model::{self, Ask, Improved};
use super::{cases, outcome, Question};
use crate::case::{Network, LEGS};
use crate::networks::SHAPES;
use crate::numbers::Numbers;
use crate::port;

fn question(network: Network, tree: &[[u16; 2]], ask: Ask) -> Question {
    Question { network, tree: tree.to_vec(), flags: Vec::new(), ask }
}

/// The sample network of the scope document, and greedy's tree.
fn sample() -> Question {
    let network = Network { weights: vec![1, 2, 1], leaves: vec![vec![0, 1], vec![1, 2], vec![2]], outputs: vec![0] };
    question(network, &[[0, 1], [3, 2]], Ask { k: 8, passes: 4, limit: None })
}

/// Three leaves: six splits a visit of the root, in a pass that rebuilds and one that does not.
#[test]
fn the_sample_is_rebuilt_once() {
    let improved = sample().read().unwrap();
    assert_eq!(improved, Improved { tree: vec![[2, 1], [3, 0]], rebuilt: 1, tried: 12 });
    if port::AT_HAND {
        assert_eq!(outcome(&sample()), Ok(Ok(improved)));
    }
}

/// The most splits of m members, at one visit of the root.
#[test]
fn the_most_splits() {
    for (m, most) in [(3u32, 6), (4, 25), (12, 261_625)] {
        assert_eq!((3u64.pow(m) - 1) / 2 - (2u64.pow(m) - 1), most);
        let network = Network { leaves: vec![Vec::new(); m as usize], ..Network::default() };
        let tree: Vec<_> = (1..m as u16).map(|j| [if j == 1 { 0 } else { m as u16 + j - 2 }, j]).collect();
        let tried = |passes| model::improve(&network, &tree, &[], Ask { k: 12, passes, limit: None }).unwrap().tried;
        // the nodes below the root have fewer members
        let all: u64 = (3..=m).map(|j| (3u64.pow(j) - 1) / 2 - (2u64.pow(j) - 1)).sum();
        assert_eq!((tried(0), tried(1)), (0, all));
    }
}

/// The port's number for what is lent beside a good question: the lowest that holds.
#[test]
fn refusals_by_number() {
    if !port::AT_HAND {
        return;
    }
    let good = sample();
    let number = |change: &dyn Fn(&mut Call)| {
        let mut call = good.call();
        change(&mut call);
        call::answer(&call, &good.tree).unwrap().err().unwrap_or(0)
    };
    assert_eq!(number(&|_| ()), 0);
    assert_eq!(number(&|c| c.ask.passes = 255), 0);
    assert_eq!(number(&|c| c.ask.passes = 256), 3);
    assert_eq!(number(&|c| c.ask.k = usize::MAX), 0);
    assert_eq!(number(&|c| c.given.weights = vec![0; 257]), 3);
    assert_eq!(number(&|c| c.given.leg_counts = vec![0; 129]), 3);
    assert_eq!(number(&|c| c.given.outputs = vec![0; 33]), 3);
    assert_eq!(number(&|c| c.given.leg_counts[1] = LEGS as u8 + 1), 3);
    assert_eq!(number(&|c| c.given.weights[1] = 9), 4);
    assert_eq!(number(&|c| c.given.legs[1] = 3), 5);
    assert_eq!(number(&|c| c.given.legs[1] = 0), 6);
    assert_eq!(number(&|c| c.flags = vec![0; 4]), 9);
    assert_eq!(number(&|c| c.flags = vec![2]), 9);
    assert_eq!(number(&|c| c.given.outputs.clear()), 11);
    assert_eq!(number(&|c| (c.given.outputs, c.flags) = (vec![], vec![2])), 9);
    assert_eq!(number(&|c| (c.ask.passes, c.given.weights[1]) = (256, 9)), 3);
    for tree in [&[[0, 0], [3, 2]][..], &[[0, 1]], &[[0, 1], [3, 2], [4, 4]], &[[0, 1], [5, 2]]] {
        assert_eq!(call::answer(&good.call(), &tree.to_vec()).unwrap(), Err(8), "{tree:?}");
    }
    assert_eq!(call::lend(&good.call(), &[0, 1, 3], call::words(8), 2).unwrap(), Err(8));
}

/// 52 bits of work and 53; with flags, 53 bits again but one of them sliced.
#[test]
fn totals_below_and_beyond() {
    for (last, number) in [(4, None), (5, Some(10))] {
        let network = Network {
            weights: vec![8, 8, 8, 8, 8, 8, last],
            leaves: vec![(0..7).collect(), Vec::new()],
            outputs: (0..7).collect(),
        };
        let mut question = question(network, &[[0, 1]], Ask { k: 8, passes: 1, limit: None });
        assert_eq!(question.read().err(), number);
        if port::AT_HAND {
            assert_eq!(outcome(&question).unwrap().err(), number);
            question.flags = vec![true];
            assert_eq!(outcome(&question).unwrap().err(), None);
        }
    }
}

/// From 65,536 on there is no limit; 65,535 bits is one that no table passes.
#[test]
fn a_limit_of_no_bits_and_none() {
    let mut tight = sample();
    tight.ask.limit = Some(0);
    assert_eq!(tight.read().unwrap(), Improved { tree: vec![[0, 1], [3, 2]], rebuilt: 0, tried: 3 });
    if port::AT_HAND {
        outcome(&tight).unwrap().unwrap();
        for limit in [NO_LIMIT - 1, NO_LIMIT, u32::MAX] {
            let mut wide = sample();
            wide.ask.limit = Some(limit);
            assert_eq!(outcome(&wide).unwrap(), sample().read());
        }
    }
}

/// The second reading has path.rs's trees and rebuild counts.
#[test]
fn the_second_reading_beside_the_rust() {
    let mut numbers = Numbers::new(9);
    for k in 0..3000 {
        let question = if k % 7 == 6 { cases::pedigree(&mut numbers, k) } else { cases::random(&mut numbers, SHAPES[k % 7]) };
        if let (Ok(read), Some(rust)) = (question.read(), question.rust()) {
            assert_eq!((read.tree, read.rebuilt), rust, "{question:?}");
        }
    }
}
