// Holds the port against the original, in the original's domain, and against the plain model of docs/SCOPE.md elsewhere: random and damaged
// inputs, answers and numbers, every entry written and every entry left alone.
//   agree [SEED [COUNT]]        COUNT rank calls of each kind (1,000,000 where not given), and other calls in proportion
mod calls;
mod documented;
mod random;
mod sums;

use oracle::census::MultisetLattice;
use oracle::model;
use oracle::rng::Rng;
use port::report::Report;
use sums::Listed;

pub struct Agree {
    rng: Rng,
    report: Report,
}

// sizes that are refused
const REFUSED: [(usize, usize); 13] = [
    (0, 0),
    (0, 1),
    (1, 0),
    (65, 1),
    (1, 16),
    (64, 8),
    (64, 15),
    (64, 100),
    (21, 15),
    (usize::MAX, 1),
    (1, usize::MAX),
    (usize::MAX, usize::MAX),
    (1 << 63, 1 << 63),
];

fn main() {
    let args: Vec<u64> = std::env::args().skip(1).map(|a| a.parse().expect("agree [SEED [COUNT]]")).collect();
    let seed = args.first().copied().unwrap_or(1);
    let count = args.get(1).copied().unwrap_or(1_000_000);
    let mut a = Agree { rng: Rng(seed), report: Report::default() };
    a.documented();
    for n in 0..=66 {
        for r in 0..=17 {
            a.sizes(n, r);
        }
    }
    for (n, r) in REFUSED {
        a.refused(n, r);
    }
    for rows in (0..=83).chain([1 << 31, (1 << 32) - 1, 1 << 32, 1 << 63, usize::MAX]) {
        let size = (rows as u128 * (rows as u128 + 1) / 2) as usize;
        for len in [0, 1, 3, size.saturating_sub(1), size, size.saturating_add(1)] {
            if len < 4000 {
                a.pascal(rows, len);
            }
        }
    }
    // ranks: lattices up to the longest
    let new = |(n, r)| MultisetLattice::new(n, r).unwrap();
    let longest = [(64, 7), (27, 12), (20, 15), (64, 1), (1, 1), (1, 15), (2, 15), (27, 7), (63, 7), (33, 10)];
    let mut lattices: Vec<MultisetLattice> = longest.map(new).into();
    while lattices.len() < 60 {
        let (n, r) = (a.rng.between(1, 64), a.rng.between(1, 15));
        if model::sizes_ok(n as u64, r as u64) {
            lattices.push(new((n as usize, r as usize)));
        }
    }
    for lat in lattices.iter().cycle().take(count as usize) {
        a.ranks(lat.num_letters(), lat.rack_size(), Some(lat));
    }
    // boards: lattices that can be listed
    let mut sizes: Vec<(usize, usize)> = (1..=5).flat_map(|n| (1..=4).map(move |r| (n, r))).collect();
    sizes.extend([(1, 15), (2, 15), (3, 9), (64, 1), (27, 2), (6, 6), (64, 2)]);
    for _ in 0..10 {
        let (n, r) = (a.rng.between(1, 30) as usize, a.rng.between(1, 15) as usize);
        if (100..=2100).contains(&model::binom((n + r) as u128, r as u128)) {
            sizes.push((n, r));
        }
    }
    let boards = count / 100_000 + 1;
    let racks = count / 20 / boards / sizes.len() as u64 + 1;
    for &(n, r) in &sizes {
        a.tables(n, r);
        let l = Listed::new(n, r);
        // more sums where they are short
        let sums = if l.m.len() <= 150 { 10 * boards } else { boards };
        for _ in 0..boards {
            a.board(&l, racks);
        }
        for _ in 0..sums {
            a.fuse_board(&l);
            a.weights(&l);
            for _ in 0..20 {
                a.subsets(&l);
                a.best_sums(&l);
            }
        }
    }
    std::process::exit(!a.report.print() as i32);
}
