// The original's calls with many parameters, made in one way.
use crate::census::*;
use crate::model::Mode;
use crate::prob::Pascal;

// the add table, with its ranks letter by letter where asked for
pub fn add_table(lat: &MultisetLattice, letters: bool) -> AddTable {
    let add = AddTable::new_with_threads(lat, 1);
    if letters { add.with_letter_passes(1) } else { add }
}

// what apportion_fused writes
pub struct Sums {
    pub num: Vec<f64>,
    pub den: Vec<f64>,
    pub ways: Vec<f64>,
    pub maxsheet: Vec<i32>,
}

impl Sums {
    // every sum `sum` and every best `best` before the call
    pub fn new(lat: &MultisetLattice, sum: f64, best: i32) -> Self {
        let lo = lat.full_rack_start();
        Self { num: vec![sum; lo], den: vec![sum; lo], ways: vec![sum; lat.len() - lo], maxsheet: vec![best; lat.len()] }
    }

    pub fn clear(&mut self) {
        self.num.fill(0.0);
        self.den.fill(0.0);
        self.ways.fill(0.0);
    }
}

pub fn fused(lat: &MultisetLattice, add: &AddTable, board: &ApportionBoard, mode: Mode, out: &mut Sums) {
    apportion_fused(
        lat,
        add,
        board,
        ApportionOut { num: &mut out.num, den: &mut out.den, ways: &mut out.ways },
        &mut out.maxsheet,
        ApportionMode { zeta: mode.zeta, null_leave: mode.null_leave, scatter: mode.scatter },
    );
}

// the kept letters that the naive search gives, as a tally
pub fn naive(lat: &MultisetLattice, sheet: &[i32], leave: &[i32], tally: &[u8]) -> (i32, Vec<u8>) {
    let (best, letters) = naive_best_equity(lat, sheet, leave, tally);
    let mut kept = vec![0u8; lat.num_letters()];
    for t in letters {
        kept[t as usize] += 1;
    }
    (best, kept)
}

// the rows of Pascal's triangle, one after the other
pub fn pascal(rows: usize) -> Vec<u64> {
    let p = Pascal::with_rows(rows);
    let mut out = Vec::new();
    for n in 0..rows {
        for k in 0..=n {
            out.push(p.binom(n, k));
        }
    }
    out
}
