// What the original did not answer: refused with docs/SCOPE.md's numbers, nothing written, or answered where docs/SCOPE.md does.
use census::*;

const SHEET: [i32; 6] = [0, 2, 1, 10, 30, 5];
const LEAVE: [i32; 6] = [0, 4, 7, 1, 3, -2];
const LEAVE_MAX: [i32; 6] = [0, 4, 7, 4, 7, 7];
const SCATTER: ApportionMode = ApportionMode { zeta: true, null_leave: false, scatter: true };

// what the fused sums are lent
#[derive(Clone, Debug, PartialEq)]
struct Lent {
    num: Vec<f64>,
    den: Vec<f64>,
    ways: Vec<f64>,
    maxsheet: Vec<i32>,
}

impl Lent {
    fn new(lat: &MultisetLattice) -> Self {
        let (len, lo) = (lat.len(), lat.full_rack_start());
        Self { num: vec![0.0; lo], den: vec![0.0; lo], ways: vec![0.0; len - lo], maxsheet: vec![-7; len] }
    }

    fn scatter(&mut self, lat: &MultisetLattice, add: &AddTable, board: &ApportionBoard) -> Result<(), Refusal> {
        let out = ApportionOut { num: &mut self.num, den: &mut self.den, ways: &mut self.ways };
        apportion_fused(lat, add, board, out, &mut self.maxsheet, SCATTER)
    }

    // the number of a refused call, which writes nothing
    fn refused(&mut self, lat: &MultisetLattice, add: &AddTable, board: &ApportionBoard) -> Refusal {
        let before = self.clone();
        let refusal = self.scatter(lat, add, board).unwrap_err();
        assert_eq!(*self, before);
        refusal
    }
}

fn listing_board<'a>(leave: &'a [i32], leave_max: &'a [i32]) -> ApportionBoard<'a> {
    ApportionBoard { sheet: &SHEET, leave, leave_max, unseen: &[1, 2] }
}

#[test]
fn sizes() {
    for (n, r) in [(0, 1), (65, 1), (1, 0), (1, 16), (64, 8), (usize::MAX, usize::MAX)] {
        assert_eq!(MultisetLattice::new(n, r).err(), Some(Refusal(1)));
    }
    assert_eq!(MultisetLattice::new(64, 7).unwrap().len(), 1_329_890_705);
}

#[test]
fn ranks() {
    let lat = MultisetLattice::new(2, 2).unwrap();
    assert_eq!(lat.size_start(3), 6);
    assert_eq!(lat.size_start(4), NONE as usize);
    assert_eq!([lat.rank(&[0, 0, 1]), lat.rank(&[1]), lat.rank(&[]), lat.rank(&[2, 1])], [NONE; 4]);
    assert_eq!([lat.rank_bytes(&[2]), lat.rank_bytes(&[0; 256])], [NONE; 2]);
    // a letter not below n, letters that do not ascend, counts that do not make s
    assert_eq!([lat.rank_sparse(1, &[(2, 1)]), lat.rank_sparse(2, &[(1, 1), (0, 1)]), lat.rank_sparse(1, &[])], [NONE; 3]);
    let mut out = [9; 2];
    assert_eq!(lat.unrank_into(6, &mut out), Err(Refusal(4)));
    assert_eq!(lat.unrank_into(0, &mut out[..1]), Err(Refusal(2)));
    assert_eq!(out, [9; 2]);
    assert_eq!(lat.tally(6), []);
}

#[test]
fn tables() {
    let lat = MultisetLattice::new(2, 2).unwrap();
    let plain = AddTable::new(&lat);
    let passes = AddTable::new(&lat).with_letter_passes(8);
    assert_eq!([plain.add(3, 0), plain.add(0, 2), plain.add(usize::MAX, 0)], [NONE as usize; 3]);
    assert_eq!([plain.letter(0), passes.letter(2), passes.letter(usize::MAX)], [None; 3]);
    // the part of each letter is the archive's
    let whole: Vec<u32> = (0..2).flat_map(|t| passes.letter(t).unwrap().to_vec()).collect();
    for t in 0..2 {
        let part = sys::letter(2, 2, &whole, t);
        assert_eq!(passes.letter(t), Some(&whole[part.start..part.start + part.len]));
    }
    // a table of the same length, of another lattice
    let other = AddTable::new(&MultisetLattice::new(1, 6).unwrap());
    let mut dst = [9; 6];
    assert_eq!(subset_max_transform(&lat, &other, &LEAVE, &mut dst), Err(Refusal(6)));
    assert_eq!(subset_max_transform(&lat, &plain, &LEAVE, &mut dst[..5]), Err(Refusal(2)));
    assert_eq!(dst, [9; 6]);
    for (asked, rows) in [(0, 0), (1, 1), (81, 81), (82, 0), (usize::MAX, 0)] {
        assert_eq!(Pascal::with_rows(asked).rows(), rows);
    }
    assert_eq!(Pascal::with_rows(3).binom(3, 1), u64::MAX);
}

#[test]
fn bests() {
    let lat = MultisetLattice::new(2, 2).unwrap();
    assert_eq!(naive_best_equity(&lat, &SHEET, &LEAVE, &[2, 1]), (UNPLAYABLE, vec![]));
    assert_eq!(naive_best_equity(&lat, &SHEET, &LEAVE, &[1]), (UNPLAYABLE, vec![]));
    assert_eq!(best_equity_of(&lat, &[536_870_912; 6], &LEAVE, &[1, 1]), UNPLAYABLE);
    assert_eq!(best_keep_of(&lat, &LEAVE[..5], &[1, 1], 1), (UNPLAYABLE, NONE));
    let mut out = [9; 6];
    assert_eq!(best_equity_table(&lat, &SHEET, &LEAVE, &mut out[..5]), Err(Refusal(2)));
    assert_eq!(best_equity_table(&lat, &[536_870_912; 6], &LEAVE, &mut out), Err(Refusal(5)));
    assert_eq!(out, [9; 6]);
}

#[test]
fn scatter_answers_at_racks_of_one_tile() {
    let lat = MultisetLattice::new(1, 1).unwrap();
    let mut lent = Lent::new(&lat);
    let board = ApportionBoard { sheet: &[0, 0], leave: &[0, 1], leave_max: &[0, 1], unseen: &[1] };
    assert_eq!(lent.scatter(&lat, &AddTable::new(&lat), &board), Ok(()));
    assert_eq!(lent, Lent { num: vec![1.0], den: vec![1.0], ways: vec![1.0], maxsheet: vec![0, 1] });
}

#[test]
fn sums() {
    let lat = MultisetLattice::new(2, 2).unwrap();
    let add = AddTable::new(&lat).with_letter_passes(1);
    let mut lent = Lent::new(&lat);
    // leave_max of an older leave
    assert_eq!(lent.refused(&lat, &add, &listing_board(&[0, 5, 7, 1, 3, -2], &LEAVE_MAX)), Refusal(7));
    assert_eq!(lent.refused(&lat, &add, &listing_board(&LEAVE, &LEAVE_MAX[..5])), Refusal(2));
    assert_eq!(lent.scatter(&lat, &add, &listing_board(&LEAVE, &LEAVE_MAX)), Ok(()));
    assert_eq!((&lent.num[..], &lent.den[..]), (&[70.0, 70.0, 60.0][..], &[3.0, 3.0, 2.0][..]));
    // the sums of an earlier call
    assert_eq!(lent.refused(&lat, &add, &listing_board(&LEAVE, &LEAVE_MAX)), Refusal(8));

    // n 1, r 15, pool 64: a best of 57 is above the weight limit
    let heavy = MultisetLattice::new(1, 15).unwrap();
    let mean = |best| dynamic_leave_value(&heavy, &AddTable::new(&heavy), &[best; 16], &[64], 0, 15);
    assert_eq!([mean(56), mean(57)], [56, UNPLAYABLE]);
    let (mut num, mut den) = ([0.0; 16], [0.0; 16]);
    assert_eq!(apportion_table(&heavy, &[57; 16], &[64], &mut num, &mut den), Err(Refusal(9)));
    assert_eq!(apportion_table(&heavy, &[56; 16], &[64], &mut num, &mut den[..15]), Err(Refusal(2)));
    assert_eq!((num, den), ([0.0; 16], [0.0; 16]));
    // two tiles kept, two drawn
    assert_eq!(dynamic_leave_value(&lat, &add, &SHEET, &[2, 2], 3, 2), UNPLAYABLE);
}

#[test]
fn blank_variants() {
    let lat = MultisetLattice::new(3, 2).unwrap();
    let mut sheet = [0; 10];
    let mut refused = |placed: &[(u8, i32)], unseen: &[u8]| {
        let mut tiles = placed.to_vec();
        let refusal = record_blank_variants(&lat, &mut sheet, 20, &mut tiles, unseen, 1).unwrap_err();
        assert_eq!((&tiles[..], sheet), (placed, [0; 10]));
        refusal
    };
    assert_eq!(refused(&[(2, 3), (1, 5)], &[1, 1]), Refusal(2));
    assert_eq!(refused(&[(2, 3), (0, 5)], &[1, 1, 1]), Refusal(3));
    assert_eq!(refused(&[(3, 3), (1, 5)], &[1, 1, 1]), Refusal(3));
    assert_eq!(refused(&[(2, 3), (1, 16_777_216)], &[1, 1, 1]), Refusal(5));
    let mut placed = [(2, 3), (1, 5)];
    assert_eq!(record_blank_variants(&lat, &mut sheet, 20, &mut placed, &[1, 1, 1], 1), Ok(()));
    assert_eq!((placed, sheet), ([(1, 5), (2, 3)], [0, 0, 0, 0, 0, 20, 0, 15, 17, 0]));
}

#[test]
fn a_refusal_is_an_error_with_words() {
    fn of_any_error() -> Result<MultisetLattice, Box<dyn std::error::Error + Send + Sync>> {
        Ok(MultisetLattice::new(0, 1)?)
    }
    assert_eq!(of_any_error().err().unwrap().to_string(), Refusal(1).to_string());
    assert_eq!(Refusal(2).to_string(), "a slice of wrong length");
}
