//! The forecast: both ends of each limit, and memory that is sized by it.
use bivelondry::{query_cost, Cost, Refusal, Workspace, MOST_CANDIDATES, MOST_CROSSINGS, MOST_ORDER, MOST_PLANES, MOST_TRIPLES};

const PLANES: u32 = MOST_PLANES as u32;
const TRIPLES: u32 = MOST_TRIPLES as u32;

/// The default of the crossing limit.
const LIMIT: u32 = 8;

fn counts(planes: u32, first: u32, order: u32) -> [u32; MOST_ORDER as usize] {
    query_cost(LIMIT, planes, first, order, 0).unwrap().counts
}

#[test]
fn the_bound_is_met() {
    assert_eq!(counts(6, 6, 8), [3, 13, 64, 320, 1600, 8000, 40000, 200000]);
    assert_eq!(counts(32, 32, 4), [9, 252, 7805, 241934, 0, 0, 0, 0]);
    assert_eq!(counts(256, 256, 8), [1, 1, 1, 1, 1, 4, 977, 249014]);
}

#[test]
fn the_bound_is_not_met() {
    assert_eq!(counts(2, 2, 8), [2; 8]);
    assert_eq!(counts(1, 1, 8), [1, 0, 0, 0, 0, 0, 0, 0]);
    assert_eq!(counts(6, 5, 3), [5, 25, 125, 0, 0, 0, 0, 0]);
    assert_eq!(query_cost(LIMIT, 6, 0, 8, 0), Ok(Cost { words: 2, ..Cost::default() }));
}

#[test]
fn limits() {
    let refused = [[LIMIT, 0, 0, 1, 0], [LIMIT, PLANES + 1, 1, 1, 0], [LIMIT, 2, 2, 0, 0], [LIMIT, 2, 2, 9, 0], [LIMIT, 2, 3, 8, 0], [LIMIT, 2, 2, 8, TRIPLES + 1]];
    for [limit, planes, first, order, triples] in refused.into_iter().chain([[0, 2, 2, 8, 0], [MOST_CROSSINGS + 1, 2, 2, 8, 0]]) {
        assert_eq!(query_cost(limit, planes, first, order, triples), Err(Refusal::Forecast));
    }
    let taken = [[LIMIT, 1, 0, 1, 0], [LIMIT, PLANES, 1, 1, 0], [LIMIT, 2, 2, 1, 0], [LIMIT, 2, 2, 8, 0], [LIMIT, 2, 2, 8, TRIPLES]];
    for [limit, planes, first, order, triples] in taken.into_iter().chain([[1, 2, 2, 8, 0], [MOST_CROSSINGS, 2, 2, 8, 0]]) {
        assert!(query_cost(limit, planes, first, order, triples).is_ok());
    }
}

/// 18 × (limit + 1) × (n + 1) for an image of order n.
#[test]
fn rays_grow_with_the_limit() {
    for limit in 1..=MOST_CROSSINGS {
        let one = query_cost(limit, 1, 1, 8, 0).unwrap();
        assert_eq!((one.candidates, one.rays), (1, 36 * (limit as u64 + 1)));
    }
}

#[test]
fn words_are_the_workspace() {
    let cost = query_cost(LIMIT, PLANES, PLANES, MOST_ORDER, MOST_TRIPLES as u32).unwrap();
    assert_eq!(cost.candidates, MOST_CANDIDATES);
    let taken = Workspace::with_triples(cost.candidates, MOST_TRIPLES).bytes() as u64;
    assert!(4 * cost.words <= taken && taken < 4 * cost.words + 8 * 20);
}
