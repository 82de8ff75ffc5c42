//! The forecast of the port against an enumeration: every sequence is visited one by one, as the Rust's search visits it, and counted by its length.
use crate::random::Random;
use port::{Cost, AREAS, WORDS};

const MOST_IMAGES: u32 = 250_000;
const MOST_PLANES: u32 = 256;
const MOST_ORDER: u32 = 8;
const MOST_TRIPLES: u32 = 4096;
const MOST_CROSSINGS: u32 = 32;

/// All that goes on from a sequence of `depth` planes that ends with `last`; none of the first `first` planes has the source on it.
fn visit(planes: u32, first: u32, order: u32, depth: u32, last: Option<u32>, seen: &mut u32, counts: &mut [u32; 8]) {
    if depth == order {
        return;
    }
    for p in 0..planes {
        if *seen == MOST_IMAGES {
            return;
        }
        let may = last.map_or(p < first, |q| q != p);
        if may {
            *seen += 1;
            counts[depth as usize] += 1;
            visit(planes, first, order, depth + 1, Some(p), seen, counts);
        }
    }
}

/// The forecast by enumeration.
fn counted(limit: u32, planes: u32, first: u32, order: u32, triples: u32) -> Cost {
    let within = (1..=MOST_CROSSINGS).contains(&limit) && (1..=MOST_PLANES).contains(&planes) && (1..=MOST_ORDER).contains(&order) && first <= planes && triples <= MOST_TRIPLES;
    let (mut counts, mut seen) = ([0; 8], 0);
    if !within {
        return Cost { refusal: 14, counts, found: [0; 3] };
    }
    visit(planes, first, order, 0, None, &mut seen, &mut counts);
    let rays: u64 = counts.iter().zip(1..).map(|(&n, order): (&u32, u64)| 18 * (limit as u64 + 1) * (order + 1) * n as u64).sum();
    let words: usize = (0..AREAS).map(|i| WORDS[i] * port::least(i, triples as usize, seen as usize)).sum();
    Cost { refusal: 0, counts, found: [seen as u64, rays, words as u64] }
}

/// Every number of up to 6 planes, of first planes and of orders up to 6, under a crossing limit each, and `count` others, each limit met and passed.
pub fn run(count: u64, seed: u64) {
    let mut r = Random::new(seed);
    let all = (1..=6).flat_map(|planes| (0..=planes).flat_map(move |first| (1..=6).map(move |order| [1 + (7 * planes + 5 * first + order) % MOST_CROSSINGS, planes, first, order, 12])));
    let others = (0..count).map(|_| {
        let planes = [r.below(8), r.below(40), r.below(259), 256][r.below(4)] as u32;
        let first = [planes, r.below(planes as usize + 2) as u32][r.below(2)];
        let triples = [r.below(100), r.below(4099), 4096, 4097][[0, 0, 1, 1, 2, 3][r.below(6)]] as u32;
        let limit = [r.below(35) as u32, [0, 1, 2, 8, 9, 31, 32, 33, u32::MAX][r.below(9)]][r.below(2)];
        [limit, planes, first, r.below(10) as u32, triples]
    });
    let (mut forecasts, mut refused, mut bounded, mut images) = (0u64, 0u64, 0u64, 0u64);
    for asked in all.chain(others) {
        let [limit, planes, first, order, triples] = asked;
        let (mine, theirs) = (port::query_cost(limit, planes, first, order, triples), counted(limit, planes, first, order, triples));
        if mine != theirs {
            eprintln!("compare: crossing limit, planes, first planes, order and triples {asked:?}: the port forecasts {mine:?}, the enumeration {theirs:?}");
            std::process::exit(1);
        }
        forecasts += 1;
        refused += (mine.refusal != 0) as u64;
        bounded += (mine.found[0] == MOST_IMAGES as u64) as u64;
        images += mine.found[0];
    }
    println!("{forecasts} forecasts agree, {refused} of them refusals, {bounded} at the bound of 250,000; {images} images were enumerated");
}
