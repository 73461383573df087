use crate::refusal::{Refusal, accepted};
use crate::{NONE, sys};

/// The multisets of at most `rack_size` tiles, each with its rank.
#[derive(Clone, Debug)]
pub struct MultisetLattice {
    num_letters: usize,
    rack_size: usize,
    len: usize,
    full_rack_start: usize,
}

impl MultisetLattice {
    /// 1 to 64 letters, racks of 1 to 15 tiles, a length of at most 4,294,967,294; otherwise refused with 1.
    pub fn new(num_letters: usize, rack_size: usize) -> Result<Self, Refusal> {
        let len = sys::len(num_letters, rack_size);
        accepted(len.number)?;
        let full_rack_start = sys::full_rack_start(num_letters, rack_size).value as usize;
        Ok(Self { num_letters, rack_size, len: len.value as usize, full_rack_start })
    }

    #[inline]
    pub fn len(&self) -> usize {
        self.len
    }

    /// Never: the multiset of no tiles is in every lattice.
    #[inline]
    pub fn is_empty(&self) -> bool {
        self.len == 0
    }

    #[inline]
    pub fn num_letters(&self) -> usize {
        self.num_letters
    }

    #[inline]
    pub fn rack_size(&self) -> usize {
        self.rack_size
    }

    #[inline]
    pub fn full_rack_start(&self) -> usize {
        self.full_rack_start
    }

    /// Where multisets of `s` tiles start, `s` up to `rack_size + 1`; beyond, none (4,294,967,295).
    pub fn size_start(&self, s: usize) -> usize {
        sys::size_start(self.num_letters, self.rack_size, s).value as usize
    }

    /// The rank of a tally; `!0` where it is refused.
    pub fn rank(&self, tally: &[u8]) -> u32 {
        sys::rank(self.num_letters, self.rack_size, tally).value
    }

    /// The rank of `s` tiles by ascending letters and their counts; `!0` where refused.
    pub fn rank_sparse(&self, s: usize, items: &[(u8, u8)]) -> u32 {
        self.rank_sparse_iter(s, items.iter().copied())
    }

    /// As `rank_sparse`.
    pub fn rank_sparse_iter(&self, s: usize, items: impl Iterator<Item = (u8, u8)>) -> u32 {
        let (letters, counts): (Vec<u8>, Vec<u8>) = items.unzip();
        sys::rank_sparse(self.num_letters, self.rack_size, s, &letters, &counts).value
    }

    /// The rank of tiles, a letter each, in any order; `!0` where refused.
    pub fn rank_bytes(&self, tiles: &[u8]) -> u32 {
        sys::rank_bytes(self.num_letters, self.rack_size, tiles).value
    }

    /// Writes the tally at a rank.
    pub fn unrank_into(&self, idx: usize, out: &mut [u8]) -> Result<(), Refusal> {
        accepted(sys::unrank_into(self.num_letters, self.rack_size, idx, out))
    }

    /// The tally at a rank; empty where there is no such rank.
    pub fn tally(&self, idx: usize) -> Vec<u8> {
        let mut out = vec![0; self.num_letters];
        match self.unrank_into(idx, &mut out) {
            Ok(()) => out,
            Err(_) => Vec::new(),
        }
    }
}

/// The rank of each leave with one tile more.
#[derive(Clone, Debug)]
pub struct AddTable {
    num_letters: usize,
    rack_size: usize,
    pub(crate) add: Vec<u32>,
    pub(crate) by_letter: Vec<u32>,
}

impl AddTable {
    pub fn new(lat: &MultisetLattice) -> Self {
        let (num_letters, rack_size) = (lat.num_letters, lat.rack_size);
        let mut add = vec![0; lat.full_rack_start * num_letters];
        let number = sys::fill_add(num_letters, rack_size, &mut add);
        assert_eq!(number, 0, "the table has its lattice's length");
        Self { num_letters, rack_size, add, by_letter: Vec::new() }
    }

    /// As `new`: the archive has no threads.
    pub fn new_with_threads(lat: &MultisetLattice, _num_threads: usize) -> Self {
        Self::new(lat)
    }

    /// The table with its ranks also letter by letter, on no threads.
    pub fn with_letter_passes(mut self, _num_threads: usize) -> Self {
        let mut by_letter = vec![0; self.add.len()];
        let number = sys::fill_by_letter(self.num_letters, self.rack_size, &self.add, &mut by_letter);
        assert_eq!(number, 0, "the table is its lattice's");
        self.by_letter = by_letter;
        self
    }

    /// The rank of the leave at `idx` with one tile `t` more; none (4,294,967,295) where there is no such leave or letter.
    #[inline]
    pub fn add(&self, idx: usize, t: usize) -> usize {
        if idx < self.rows() && t < self.num_letters { self.add[idx * self.num_letters + t] as usize } else { NONE as usize }
    }

    /// `add(idx, t)` for every leave, in order of `idx`; `None` where the table was not made with letter passes, or there is no such letter.
    /// The table is not judged again, as `sys::letter` does: nothing changes it after it is filled.
    #[inline]
    pub fn letter(&self, t: usize) -> Option<&[u32]> {
        self.by_letter.chunks_exact(self.rows()).nth(t)
    }

    #[inline]
    fn rows(&self) -> usize {
        self.add.len() / self.num_letters
    }
}

/// Pascal's triangle; an entry above 2^64 - 1 is that.
#[derive(Clone, Debug)]
pub struct Pascal {
    raw: Vec<u64>,
    rows: usize,
}

impl Pascal {
    /// 1 to 81 rows; otherwise none at all.
    pub fn with_rows(num_rows: usize) -> Self {
        let rows = if (1..=81).contains(&num_rows) { num_rows } else { 0 };
        let mut raw = vec![0; rows * (rows + 1) / 2];
        let number = sys::pascal_rows(num_rows, &mut raw);
        assert_eq!(number == 0, rows > 0, "1 to 81 rows are filled");
        Self { raw, rows }
    }

    /// How many rows there are: 0 where refused.
    pub fn rows(&self) -> usize {
        self.rows
    }

    /// C(n, k), 0 where k is above n; `u64::MAX` where row n is not there.
    #[inline]
    pub fn binom(&self, n: usize, k: usize) -> u64 {
        if k > n {
            0
        } else if n < self.rows {
            self.raw[n * (n + 1) / 2 + k]
        } else {
            u64::MAX
        }
    }
}
