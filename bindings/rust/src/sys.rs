//! The archive's plain layer: numbers and slices, each answer with its number. `bindings/c/census.h` says what each call reads, writes and
//! refuses. All unsafe code of the crate is here.
//!
//! The calls are safe: the exported functions answer for every number and every contents, a slice's pointer is never null, and one that is
//! written overlaps no other.

/// A rank, a length or a start.
#[repr(C)]
#[derive(Clone, Copy, Debug, PartialEq, Eq)]
pub struct Rank {
    pub number: u8,
    pub value: u32,
}

/// A best or a mean.
#[repr(C)]
#[derive(Clone, Copy, Debug, PartialEq, Eq)]
pub struct Equity {
    pub number: u8,
    pub value: i32,
}

/// The best leave's value and rank.
#[repr(C)]
#[derive(Clone, Copy, Debug, PartialEq, Eq)]
pub struct Leave {
    pub number: u8,
    pub value: i32,
    pub rank: u32,
}

/// A best and the kind of its move: 0 no move, 1 a word, 2 an exchange.
#[repr(C)]
#[derive(Clone, Copy, Debug, PartialEq, Eq)]
pub struct Play {
    pub number: u8,
    pub kind: u8,
    pub value: i32,
}

/// A part of a lent slice.
#[repr(C)]
#[derive(Clone, Copy, Debug, PartialEq, Eq)]
pub struct Part {
    pub start: usize,
    pub len: usize,
}

// A function of the archive, and a safe one over slices. A parameter is a number, `[T]` for a slice that is read, or `mut [T]` for one that
// is written.
macro_rules! exported {
    ($($name:ident = $symbol:ident ($($args:tt)*) -> $result:ty;)*) => {
        $(exported!(@one $name $symbol $result; (); (); (); $($args)*);)*
    };
    (@one $name:ident $symbol:ident $result:ty; ($($safe:tt)*); ($($raw:tt)*); ($($pass:tt)*); $arg:ident : mut [$t:ty], $($more:tt)*) => {
        exported!(@one $name $symbol $result; ($($safe)* $arg: &mut [$t],); ($($raw)* $arg: *mut $t, _: usize,);
            ($($pass)* $arg.as_mut_ptr(), $arg.len(),); $($more)*);
    };
    (@one $name:ident $symbol:ident $result:ty; ($($safe:tt)*); ($($raw:tt)*); ($($pass:tt)*); $arg:ident : [$t:ty], $($more:tt)*) => {
        exported!(@one $name $symbol $result; ($($safe)* $arg: &[$t],); ($($raw)* $arg: *const $t, _: usize,);
            ($($pass)* $arg.as_ptr(), $arg.len(),); $($more)*);
    };
    (@one $name:ident $symbol:ident $result:ty; ($($safe:tt)*); ($($raw:tt)*); ($($pass:tt)*); $arg:ident : $t:ty, $($more:tt)*) => {
        exported!(@one $name $symbol $result; ($($safe)* $arg: $t,); ($($raw)* $arg: $t,); ($($pass)* $arg,); $($more)*);
    };
    (@one $name:ident $symbol:ident $result:ty; ($($safe:tt)*); ($($raw:tt)*); ($($pass:tt)*);) => {
        #[inline]
        #[allow(clippy::too_many_arguments)]
        pub fn $name($($safe)*) -> $result {
            unsafe extern "C" {
                fn $symbol($($raw)*) -> $result;
            }
            // SAFETY: pointer and length are a slice's own, so never null, and what is written is borrowed alone
            unsafe { $symbol($($pass)*) }
        }
    };
}

exported! {
    len = census_len(n: usize, r: usize,) -> Rank;
    full_rack_start = census_full_rack_start(n: usize, r: usize,) -> Rank;
    size_start = census_size_start(n: usize, r: usize, s: usize,) -> Rank;
    rank = census_rank(n: usize, r: usize, tally: [u8],) -> Rank;
    rank_bytes = census_rank_bytes(n: usize, r: usize, tiles: [u8],) -> Rank;
    rank_sparse = census_rank_sparse(n: usize, r: usize, s: usize, letters: [u8], counts: [u8],) -> Rank;
    unrank_into = census_unrank_into(n: usize, r: usize, idx: usize, out: mut [u8],) -> u8;
    pascal_rows = census_pascal_rows(rows: usize, out: mut [u64],) -> u8;
    fill_add = census_fill_add(n: usize, r: usize, add: mut [u32],) -> u8;
    fill_by_letter = census_fill_by_letter(n: usize, r: usize, add: [u32], by_letter: mut [u32],) -> u8;
    letter = census_letter(n: usize, r: usize, by_letter: [u32], t: usize,) -> Part;
    best_equity_of = census_best_equity_of(n: usize, r: usize, sheet: [i32], leave: [i32], tally: [u8],) -> Equity;
    best_equity_table = census_best_equity_table(n: usize, r: usize, sheet: [i32], leave: [i32], out: mut [i32],) -> u8;
    best_keep_of = census_best_keep_of(n: usize, r: usize, leave: [i32], tally: [u8], keep: usize,) -> Leave;
    naive_best_equity = census_naive_best_equity(n: usize, r: usize, sheet: [i32], leave: [i32], tally: [u8], kept: mut [u8],) -> Play;
    subset_max_transform = census_subset_max_transform(n: usize, r: usize, add: [u32], by_letter: [u32], src: [i32],
        dst: mut [i32],) -> u8;
    apportion_table = census_apportion_table(n: usize, r: usize, best: [i32], unseen: [u8], num: mut [f64], den: mut [f64],) -> u8;
    apportion_fused = census_apportion_fused(n: usize, r: usize, add: [u32], by_letter: [u32], sheet: [i32], leave: [i32],
        leave_max: [i32], unseen: [u8], num: mut [f64], den: mut [f64], ways: mut [f64], maxsheet: mut [i32], zeta: bool,
        null_leave: bool, scatter: bool,) -> u8;
    dynamic_leave_value = census_dynamic_leave_value(n: usize, r: usize, add: [u32], full_v: [i32], pool: [u8], s_ridx: usize,
        draw: usize,) -> Equity;
    record_blank_variants = census_record_blank_variants(n: usize, r: usize, sheet: mut [i32], score: i32, letters: mut [u8],
        drops: mut [i32], unseen: [u8], blanks: usize,) -> u8;
}
