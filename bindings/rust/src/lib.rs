//! The verified census under the names and types of the Rust that it replaces (`src/census.rs` of wolges, and `Pascal` of its `src/prob.rs`).
//!
//! Every call goes to `libcensus.a`, which `rt lib` in crates/census proves and writes. Where the original panicked, wrapped or read out of
//! bounds, the call is refused: one that gave `()` gives a `Result`, and one that gave a value gives none (`!0`) or [`UNPLAYABLE`].
//! [`sys`] has the same calls with their numbers. A refused call writes nothing. Threads are taken and not used.
//!
//! The example board of docs/SCOPE.md, "The listing":
//!
//! ```
//! use census::{AddTable, MultisetLattice, best_equity_table, dynamic_leave_value};
//!
//! fn main() -> Result<(), Box<dyn std::error::Error + Send + Sync>> {
//!     let lat = MultisetLattice::new(2, 2)?;
//!     let (sheet, leave) = ([0, 2, 1, 10, 30, 5], [0, 4, 7, 1, 3, -2]);
//!     let mut best = vec![0; lat.len()];
//!     best_equity_table(&lat, &sheet, &leave, &mut best)?;
//!     let kept = lat.rank(&[0, 1]) as usize;
//!     assert_eq!(dynamic_leave_value(&lat, &AddTable::new(&lat), &best, &[1, 1], kept, 1), 20);
//!     Ok(())
//! }
//! ```
#![deny(unsafe_code)]

mod lattice;
mod refusal;
#[allow(unsafe_code)]
pub mod sys;

pub use lattice::{AddTable, MultisetLattice, Pascal};
pub use refusal::Refusal;
use refusal::accepted;

/// The value where there is no best, no draw, or a refusal.
pub const UNPLAYABLE: i32 = i32::MIN / 2;

/// The rank where there is none.
pub const NONE: u32 = !0;

/// The best split of a rack and the tiles that it keeps, those of the smallest played tally among equals; `UNPLAYABLE` and no tiles where
/// refused.
pub fn naive_best_equity(lat: &MultisetLattice, sheet: &[i32], leave: &[i32], rack_tally: &[u8]) -> (i32, Vec<u8>) {
    let mut kept = vec![0; lat.num_letters()];
    let best = sys::naive_best_equity(lat.num_letters(), lat.rack_size(), sheet, leave, rack_tally, &mut kept);
    let tiles = (0u8..).zip(&kept).flat_map(|(t, &count)| std::iter::repeat_n(t, count as usize));
    (best.value, tiles.collect())
}

/// The best split of a rack; `UNPLAYABLE` where refused.
pub fn best_equity_of(lat: &MultisetLattice, sheet: &[i32], leave: &[i32], tally: &[u8]) -> i32 {
    sys::best_equity_of(lat.num_letters(), lat.rack_size(), sheet, leave, tally).value
}

/// Writes the best split of every full rack; the entries of leaves stay.
pub fn best_equity_table(lat: &MultisetLattice, sheet: &[i32], leave: &[i32], out: &mut [i32]) -> Result<(), Refusal> {
    accepted(sys::best_equity_table(lat.num_letters(), lat.rack_size(), sheet, leave, out))
}

/// The best leave of `keep` tiles of a rack, its value and its rank, of equal values the smallest rank; `UNPLAYABLE` and none where there is
/// none or the call is refused.
pub fn best_keep_of(lat: &MultisetLattice, leave: &[i32], tally: &[u8], keep: usize) -> (i32, u32) {
    let best = sys::best_keep_of(lat.num_letters(), lat.rack_size(), leave, tally, keep);
    (best.value, best.rank)
}

/// Writes, at each multiset, the greatest entry of `src` over its sub-multisets.
pub fn subset_max_transform(lat: &MultisetLattice, add: &AddTable, src: &[i32], dst: &mut [i32]) -> Result<(), Refusal> {
    accepted(sys::subset_max_transform(lat.num_letters(), lat.rack_size(), &add.add, &add.by_letter, src, dst))
}

/// Writes, at each multiset, the sum of the bests of the hands that hold it, and their number, over sums that are +0.0.
pub fn apportion_table(
    lat: &MultisetLattice,
    best: &[i32],
    unseen: &[u8],
    num: &mut [f64],
    den: &mut [f64],
) -> Result<(), Refusal> {
    accepted(sys::apportion_table(lat.num_letters(), lat.rack_size(), best, unseen, num, den))
}

pub struct ApportionBoard<'a> {
    pub sheet: &'a [i32],
    pub leave: &'a [i32],
    /// The subset maximum of `leave`; read where scatter is in force.
    pub leave_max: &'a [i32],
    pub unseen: &'a [u8],
}

/// Where the sums go, all +0.0 before: `num` and `den` for each leave, `ways` for each full rack.
pub struct ApportionOut<'a> {
    pub num: &'a mut [f64],
    pub den: &'a mut [f64],
    pub ways: &'a mut [f64],
}

pub struct ApportionMode {
    pub zeta: bool,
    pub null_leave: bool,
    pub scatter: bool,
}

/// The same sums for the leaves, the ways of each full rack, and the bests in `maxsheet`.
pub fn apportion_fused(
    lat: &MultisetLattice,
    add: &AddTable,
    board: &ApportionBoard,
    out: ApportionOut,
    maxsheet: &mut [i32],
    mode: ApportionMode,
) -> Result<(), Refusal> {
    accepted(sys::apportion_fused(
        lat.num_letters(),
        lat.rack_size(),
        &add.add,
        &add.by_letter,
        board.sheet,
        board.leave,
        board.leave_max,
        board.unseen,
        out.num,
        out.den,
        out.ways,
        maxsheet,
        mode.zeta,
        mode.null_leave,
        mode.scatter,
    ))
}

/// The mean of `full_v` over the racks that the leave at `s_ridx` makes with `draw` tiles of the pool, cut toward zero; `UNPLAYABLE` where
/// there is no draw or the call is refused.
pub fn dynamic_leave_value(
    lat: &MultisetLattice,
    add: &AddTable,
    full_v: &[i32],
    pool: &[u8],
    s_ridx: usize,
    draw: usize,
) -> i32 {
    sys::dynamic_leave_value(lat.num_letters(), lat.rack_size(), &add.add, full_v, pool, s_ridx, draw).value
}

/// Raises the entries of `sheet` for placed tiles, a letter and a drop each, where at most `num_blanks_eff` of them are blanks. Sorts the
/// placed tiles, unless there are none or more than a rack holds.
pub fn record_blank_variants(
    lat: &MultisetLattice,
    sheet: &mut [i32],
    real_score: i32,
    placed: &mut [(u8, i32)],
    unseen_tally: &[u8],
    num_blanks_eff: usize,
) -> Result<(), Refusal> {
    let (mut letters, mut drops): (Vec<u8>, Vec<i32>) = placed.iter().copied().unzip();
    let (n, r) = (lat.num_letters(), lat.rack_size());
    let number = sys::record_blank_variants(n, r, sheet, real_score, &mut letters, &mut drops, unseen_tally, num_blanks_eff);
    for (slot, tile) in placed.iter_mut().zip(letters.into_iter().zip(drops)) {
        *slot = tile;
    }
    accepted(number)
}
