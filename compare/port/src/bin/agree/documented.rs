// The worked examples of docs/SCOPE.md, and the inputs of docs/DIFFERENCES.md where the original departs from that page: what the port gives is
// held against the page's own words.
use crate::Agree;
use oracle::inputs::HEAVY;
use oracle::model::{Mode, NONE, UNPLAYABLE};
use port::lent::{Entry, Lent};
use port::report::By;
use port::{Equity, Leave, Part, Play, Rank};
use std::fmt::Debug;

const NOTHING: Part = Part { start: 0, len: 0 };

fn at(value: u32) -> Rank {
    Rank { number: 0, value }
}

fn none(number: u8) -> Rank {
    Rank { number, value: NONE }
}

fn no_play(number: u8) -> Equity {
    Equity { number, value: UNPLAYABLE }
}

fn leave(number: u8, value: i32, rank: u32) -> Leave {
    Leave { number, value, rank }
}

// the number, and the slice after the call
fn written<T: Entry>(slice: &[T], call: impl FnOnce(&mut [T]) -> u8) -> (u8, Option<Vec<T>>) {
    let mut s = Lent::new(slice);
    let number = call(s.now());
    (number, s.after().map(<[T]>::to_vec))
}

// what blank variants give on a sheet of zeros: the number, the sheet, the letters and the drops
type Variants = (u8, Vec<i32>, Vec<u8>, Vec<i32>);

fn variants(n: usize, r: usize, len: usize, score: i32, placed: &[(u8, i32)], unseen: &[u8], blanks: usize) -> Variants {
    let mut sheet = vec![0; len];
    let (mut letters, mut drops): (Vec<u8>, Vec<i32>) = placed.iter().copied().unzip();
    let number = port::record_blank_variants(n, r, &mut sheet, score, &mut letters, &mut drops, unseen, blanks);
    (number, sheet, letters, drops)
}

// the same with nothing touched
fn untouched(number: u8, len: usize, placed: &[(u8, i32)]) -> Variants {
    let (letters, drops) = placed.iter().copied().unzip();
    (number, vec![0; len], letters, drops)
}

// a lattice's two tables of ranks
fn tables(n: usize, r: usize) -> [Vec<u32>; 2] {
    let size = port::full_rack_start(n, r).value as usize * n;
    let (mut add, mut letters) = (vec![0; size], vec![0; size]);
    port::fill_add(n, r, &mut add);
    port::fill_by_letter(n, r, &add, &mut letters);
    [add, letters]
}

const BEFORE: i32 = -99;

// what the fused sums give where every sum is `sum` before and every entry of maxsheet BEFORE: the number, num, den and ways, and maxsheet
type Fused = (u8, [Vec<f64>; 3], Vec<i32>);

fn fused(n: usize, r: usize, [sheet, leave, leave_max]: [&[i32]; 3], pool: &[u8], mode: Mode, sum: f64) -> Fused {
    let [add, letters] = tables(n, r);
    let (len, lo) = (port::len(n, r).value as usize, port::full_rack_start(n, r).value as usize);
    let (mut num, mut den, mut ways, mut maxsheet) = (vec![sum; lo], vec![sum; lo], vec![sum; len - lo], vec![BEFORE; len]);
    let (zeta, null_leave, scatter) = (mode.zeta, mode.null_leave, mode.scatter);
    let number = port::apportion_fused(
        n,
        r,
        &add,
        &letters,
        sheet,
        leave,
        leave_max,
        pool,
        &mut num,
        &mut den,
        &mut ways,
        &mut maxsheet,
        zeta,
        null_leave,
        scatter,
    );
    (number, [num, den, ways], maxsheet)
}

const SCATTER: Mode = Mode { zeta: true, null_leave: false, scatter: true };
const SPLIT: Mode = Mode { zeta: false, null_leave: false, scatter: false };
const ALONE: Mode = Mode { zeta: true, null_leave: true, scatter: false };

fn no_move(number: u8) -> Play {
    Play { number, kind: 0, value: UNPLAYABLE }
}

fn mean(value: i32) -> Equity {
    Equity { number: 0, value }
}

impl Agree {
    fn says<T: PartialEq + Debug>(&mut self, call: &'static str, item: &str, got: T, want: T) {
        self.report.compare(call, By::Document, true, &got, &want, || item.to_string());
    }

    pub fn documented(&mut self) {
        self.worked();
        self.sizes_and_ranks();
        self.rows_and_letters();
        self.best_plays();
        self.naive_plays();
        self.maxima();
        self.sums();
        self.draws();
        self.blank_variants();
    }

    // the examples marked [P]
    fn worked(&mut self) {
        let item = "worked example";
        for (tally, rank) in
            [([0, 0, 1], at(1)), ([0, 1, 1], at(5)), ([1, 1, 0], at(8)), ([2, 0, 0], at(9)), ([1, 1, 1], none(4))]
        {
            self.says("rank", item, port::rank(3, 2, &tally), rank);
        }
        self.says("len", item, port::len(64, 7), at(1_329_890_705));
        self.says("len", item, port::len(64, 8), none(1));
        let (sheet, leaves) = ([0, 2, 1, 10, 30, 5], [0, 4, 7, 1, 3, -2]);
        let got = written(&[-1; 6], |out| port::best_equity_table(2, 2, &sheet, &leaves, out));
        self.says("best_equity_table", item, got, (0, Some(vec![-1, -1, -1, 10, 30, 8])));
        let leaves = [0, 4, 4, 0, 0, 0];
        for (keep, want) in [(1, leave(0, 4, 1)), (3, leave(0, UNPLAYABLE, NONE)), (0, leave(0, 0, 0))] {
            self.says("best_keep_of", item, port::best_keep_of(2, 2, &leaves, &[1, 1], keep), want);
        }
        let placed = [(1, 5), (2, 3)];
        for (unseen, blanks, raised) in [([1, 1, 1], 1, [20, 0, 15, 17]), ([1, 0, 1], 1, [0, 0, 15, 0]), ([1, 0, 1], 0, [0; 4])] {
            let mut sheet = vec![0; 10];
            sheet[5..9].copy_from_slice(&raised);
            let want = (0, sheet, vec![1, 2], vec![5, 3]);
            self.says("record_blank_variants", item, variants(3, 2, 10, 20, &placed, &unseen, blanks), want);
        }
    }

    // DIFFERENCES 18 to 21, and the kind of a move
    fn naive_plays(&mut self) {
        let call = "naive_best_equity";
        let naive = |n, r, sheet: &[i32], leaves: &[i32], tally: &[u8], kept: &[u8]| {
            let mut k = Lent::new(kept);
            let got = port::naive_best_equity(n, r, sheet, leaves, tally, k.now());
            (got, k.after().map(<[u8]>::to_vec))
        };
        let three = naive(1, 2, &[0, 5, 9], &[0, 1, 2], &[3], &[7]);
        self.says(call, "18", three, (no_move(4), Some(vec![7])));
        self.says(call, "18", naive(1, 2, &[0, 5, 9], &[0, 1, 2], &[5], &[7]), (no_move(4), Some(vec![7])));
        self.says(call, "19", naive(2, 1, &[0; 3], &[0; 3], &[1], &[7, 7]), (no_move(2), Some(vec![7, 7])));
        self.says(call, "20", naive(1, 1, &[-536_870_912; 2], &[-536_870_912; 2], &[1], &[7]), (no_move(5), Some(vec![7])));
        let (sheet, leaves) = ([0, 2, 1, 10, 30, 5], [0, 4, 7, 1, 3, -2]);
        for (tally, kind, value, kept) in [([0, 2], 1, 10, [0, 0]), ([1, 1], 1, 30, [0, 0]), ([2, 0], 1, 8, [1, 0])] {
            let want = (Play { number: 0, kind, value }, Some(kept.to_vec()));
            self.says(call, "21", naive(2, 2, &sheet, &leaves, &tally, &[9, 9]), want);
        }
        // nothing is worth playing, and the smallest played tally among equals
        let want = (Play { number: 0, kind: 2, value: 0 }, Some(vec![1, 1]));
        self.says(call, "21", naive(2, 2, &[0; 6], &[0; 6], &[1, 1], &[9, 9]), want);
    }

    // DIFFERENCES 24
    fn maxima(&mut self) {
        let call = "subset_max_transform";
        let [add, letters] = tables(1, 2);
        let [shorter, _] = tables(1, 1);
        let max = |add: &[u32], letters: &[u32], src: &[i32], dst: &[i32]| {
            written(dst, |dst| port::subset_max_transform(1, 2, add, letters, src, dst))
        };
        self.says(call, "24", max(&add, &letters, &[0, 3, 2], &[7; 3]), (0, Some(vec![0, 3, 3])));
        for (add, letters, src, dst, number) in [
            (&add[..], &letters[..], &[0, 3][..], &[7; 3][..], 2),
            (&add, &letters, &[0, 3, 2], &[7; 2], 2),
            (&shorter, &[], &[0, 3, 2], &[7; 3], 2),
            (&add, &shorter, &[0, 3, 2], &[7; 3], 2),
            (&[1, 1], &[], &[0, 3, 2], &[7; 3], 6),
            (&add, &[1, 1], &[0, 3, 2], &[7; 3], 6),
        ] {
            self.says(call, "24", max(add, letters, src, dst), (number, Some(dst.to_vec())));
        }
    }

    // the listing's sums and scatter; DIFFERENCES 1 and 25 to 28
    fn sums(&mut self) {
        let call = "apportion_fused";
        let (sheet, leaves, most) = ([0, 2, 1, 10, 30, 5], [0, 4, 7, 1, 3, -2], [0, 4, 7, 4, 7, 7]);
        let listed = [vec![70.0, 70.0, 60.0], vec![3.0, 3.0, 2.0], vec![1.0, 2.0, 0.0]];
        for (mode, maxsheet) in [(SPLIT, vec![BEFORE, BEFORE, BEFORE, 10, 30, BEFORE]), (SCATTER, vec![0, 4, 7, 10, 30, 7])] {
            let got = fused(2, 2, [&sheet, &leaves, &most], &[1, 2], mode, 0.0);
            self.says(call, "worked example", got, (0, listed.clone(), maxsheet));
        }
        let (mut num, mut den) = ([0.0; 6], [0.0; 6]);
        let number = port::apportion_table(2, 2, &[0, 0, 0, 10, 30, 8], &[1, 2], &mut num, &mut den);
        let want = (0, [70.0, 70.0, 60.0, 10.0, 60.0, 0.0], [3.0, 3.0, 2.0, 1.0, 2.0, 0.0]);
        self.says("apportion_table", "worked example", (number, num, den), want);
        let want = (0, [vec![1.0], vec![1.0], vec![1.0]], vec![0, 1]);
        self.says(call, "1", fused(1, 1, [&[0, 0], &[0, 1], &[0, 1]], &[1], SCATTER, 0.0), want);
        let refused = |number, sum| (number, [vec![sum; 2], vec![sum; 2], vec![sum]], vec![BEFORE; 3]);
        for (sheet, leaves, most) in
            [([9, 0, 0], [0; 3], [0; 3]), ([-1; 3], [0; 3], [0; 3]), ([0; 3], [0; 3], [0, 0, 99]), ([0; 3], [0, 1, 0], [0, 1, 0])]
        {
            self.says(call, "25", fused(1, 2, [&sheet, &leaves, &most], &[2], SCATTER, 0.0), refused(7, 0.0));
        }
        let got = fused(1, 2, [&[9, 0, 0], &[0; 3], &[]], &[2], SPLIT, 0.0);
        self.says(call, "25", got, (0, [vec![9.0; 2], vec![1.0; 2], vec![1.0]], vec![BEFORE, BEFORE, 9]));
        self.says(call, "26", fused(1, 2, [&[0; 3], &[0; 3], &[]], &[2], SPLIT, 1.0), refused(8, 1.0));
        let (number, [num, ..], _) = fused(1, 2, [&[0; 3], &[0; 3], &[]], &[2], SPLIT, -0.0);
        self.says(call, "26", (number, num[0].to_bits()), (8, (-0.0f64).to_bits()));
        let (mut num, mut den) = ([1.0; 2], [1.0; 2]);
        let number = port::apportion_table(1, 1, &[0, 1], &[1], &mut num, &mut den);
        self.says("apportion_table", "26", (number, num, den), (8, [1.0; 2], [1.0; 2]));
        let (mut num, mut den) = ([0.0; 16], [0.0; 16]);
        let number = port::apportion_table(1, 15, &[0; 16], &[131], &mut num, &mut den);
        self.says("apportion_table", "27", (number, num, den), (9, [0.0; 16], [0.0; 16]));
        for zeta in [false, true] {
            let got = fused(3, 3, [&HEAVY, &[0; 20], &[]], &[255; 3], Mode { zeta, ..SPLIT }, 0.0);
            self.says(call, "27", got, (9, [vec![0.0; 10], vec![0.0; 10], vec![0.0; 10]], vec![BEFORE; 20]));
        }
        let beyond = [0, 0, 536_870_912];
        self.says(call, "28", fused(1, 2, [&[0; 3], &beyond, &[]], &[2], ALONE, 0.0), refused(5, 0.0));
    }

    // the worked examples; DIFFERENCES 27, 30 to 32
    fn draws(&mut self) {
        let call = "dynamic_leave_value";
        let draw =
            |n, r, best: &[i32], pool: &[u8], idx, draw| port::dynamic_leave_value(n, r, &tables(n, r)[0], best, pool, idx, draw);
        self.says(call, "worked example", draw(2, 2, &[0, 0, 0, 10, 30, 8], &[1, 1], 1, 1), mean(20));
        for (best, want) in [(56, mean(56)), (57, no_play(9))] {
            self.says(call, "worked example", draw(1, 15, &[best; 16], &[64], 0, 15), want);
        }
        let heavy = [0, 0, 0, 0, 0, 0, -793_145_501, 545_421_080, 873_570_948, -771_488_131];
        self.says(call, "27", draw(2, 3, &heavy, &[255, 255], 0, 3), no_play(9));
        self.says(call, "30", draw(1, 1, &[11, 12], &[1], 0, 0), no_play(4));
        self.says(call, "30", draw(2, 1, &[11, 12, 13], &[1, 1], 0, 2), no_play(4));
        for idx in [2, usize::MAX] {
            self.says(call, "31", draw(1, 1, &[11, 12], &[1], idx, 1), no_play(4));
        }
        self.says(call, "32", draw(1, 1, &[11, i32::MIN], &[0], 1, 0), mean(i32::MIN));
        self.says(call, "32", draw(1, 1, &[11, 12], &[0], 0, 1), mean(UNPLAYABLE));
        self.says(call, "6", port::dynamic_leave_value(1, 1, &[0], &[11, 12], &[1], 0, 1), no_play(6));
    }

    // DIFFERENCES 2 to 14
    fn sizes_and_ranks(&mut self) {
        for (item, n, r) in [("2", 1, 0), ("3", 1, 16), ("4", 64, 8), ("4", 21, 15), ("5", 64, 100), ("5", 0, 1), ("5", 65, 1)] {
            self.says("len", item, port::len(n, r), none(1));
        }
        self.says("fill_add", "2", written(&[], |add| port::fill_add(1, 0, add)), (1, Some(vec![])));
        let mut eight = [0; 64];
        eight[0] = 8;
        self.says("rank", "4", port::rank(64, 8, &eight), none(1));
        let mut fifteen = [0; 21];
        fifteen[0] = 15;
        self.says("rank", "4", port::rank(21, 15, &fifteen), none(1));
        self.says("rank", "6", port::rank(2, 2, &[0, 0, 1]), none(2));
        self.says("rank", "6", port::rank(2, 2, &[1]), none(2));
        for (item, n, s, letters, counts, number) in [
            ("7", 2, 1, &[2u8][..], &[1u8][..], 3),
            ("8", 3, 2, &[1, 0], &[1, 1], 3),
            ("8", 3, 2, &[0, 0], &[1, 1], 3),
            ("9", 2, 1, &[], &[], 4),
            ("9", 2, 1, &[1], &[9], 4),
            ("9", 2, 0, &[0], &[1], 4),
            ("9", 3, 0, &[0], &[1], 4),
            ("9", 3, 0, &[0], &[2], 4),
            ("9", 3, 0, &[0], &[255], 4),
        ] {
            self.says("rank_sparse", item, port::rank_sparse(n, 2, s, letters, counts), none(number));
        }
        self.says("rank_sparse", "9", port::rank_sparse(64, 7, 0, &[0], &[1]), none(4));
        for (item, tiles, number) in [("10", vec![0; 256], 4), ("10", vec![0; 257], 4), ("11", vec![0; 2], 4), ("11", vec![1], 3)]
        {
            self.says("rank_bytes", item, port::rank_bytes(1, 1, &tiles), none(number));
        }
        for (item, n, r, idx, size, number) in
            [("12", 1, 1, 2, 1, 4), ("12", 2, 1, 3, 2, 4), ("12", 3, 2, 10, 3, 4), ("13", 2, 1, 0, 3, 2), ("13", 2, 1, 0, 1, 2)]
        {
            let out = vec![9u8; size];
            let got = written(&out, |out| port::unrank_into(n, r, idx, out));
            self.says("unrank_into", item, got, (number, Some(out)));
        }
        self.says("size_start", "14", port::size_start(1, 1, 3), none(4));
    }

    // DIFFERENCES 15 and 17
    fn rows_and_letters(&mut self) {
        self.says("pascal_rows", "15", written(&[], |out| port::pascal_rows(0, out)), (4, Some(vec![])));
        let out = vec![7; 82 * 83 / 2];
        let got = written(&out, |out| port::pascal_rows(82, out));
        self.says("pascal_rows", "15", got, (4, Some(out)));
        self.says("letter", "17", port::letter(1, 1, &[1], 0), Part { start: 0, len: 1 });
        self.says("letter", "17", port::letter(1, 1, &[1], 1), NOTHING);
        self.says("letter", "17", port::letter(1, 1, &[], 0), NOTHING);
    }

    // DIFFERENCES 19, 20, 22, 23
    fn best_plays(&mut self) {
        self.says("best_equity_of", "19", port::best_equity_of(1, 1, &[1, 2, 3], &[0, 0], &[1]), no_play(2));
        self.says("best_equity_of", "19", port::best_equity_of(2, 1, &[0; 3], &[0; 3], &[1]), no_play(2));
        self.says("best_keep_of", "19", port::best_keep_of(1, 1, &[0], &[1], 1), leave(2, UNPLAYABLE, NONE));
        for (sheet, leaves) in [
            ([0, 536_870_912], [0, 0]),
            ([1_073_741_824; 2], [1_073_741_824; 2]),
            ([-536_870_912; 2], [-536_870_912; 2]),
            ([-536_870_913; 2], [-536_870_913; 2]),
        ] {
            self.says("best_equity_of", "20", port::best_equity_of(1, 1, &sheet, &leaves, &[1]), no_play(5));
        }
        for (leaves, tally, keep, want) in [
            ([0, UNPLAYABLE], 1, 1, leave(0, UNPLAYABLE, 1)),
            ([0, UNPLAYABLE - 1], 1, 1, leave(0, UNPLAYABLE, NONE)),
            ([i32::MIN, 0], 0, 0, leave(0, UNPLAYABLE, NONE)),
            ([0, 0], 1, usize::MAX, leave(0, UNPLAYABLE, NONE)),
        ] {
            self.says("best_keep_of", "22", port::best_keep_of(1, 1, &leaves, &[tally], keep), want);
        }
        for (n, sheet, leaves, out) in [
            (2, &[0, 1, 2][..], &[0; 3][..], vec![7; 2]),
            (1, &[0, 1], &[0; 2], vec![7; 3]),
            (2, &[0, 1, 2], &[0; 3], vec![7; 4]),
            (1, &[0], &[0; 2], vec![7; 2]),
        ] {
            let got = written(&out, |out| port::best_equity_table(n, 1, sheet, leaves, out));
            self.says("best_equity_table", "23", got, (2, Some(out)));
        }
    }

    // DIFFERENCES 33 to 37
    fn blank_variants(&mut self) {
        let max = i32::MAX;
        for (item, n, r, len, score, placed, unseen, blanks, number) in [
            ("33", 2, 1, 3, 20, &[(0, 5)][..], &[1, 1][..], 1, 3),
            ("33", 2, 2, 6, 20, &[(0, 5), (1, 3)], &[1, 1], 0, 3),
            ("33", 3, 2, 10, 20, &[(0, 5), (0, 3)], &[2, 1, 1], 1, 3),
            ("34", 2, 1, 3, 20, &[(2, 5)], &[1, 1], 1, 3),
            ("34", 2, 1, 3, 20, &[(2, 5)], &[1, 1, 1], 1, 2),
            ("34", 2, 2, 6, 20, &[(3, 5)], &[1, 1, 1, 1], 0, 2),
            ("35", 3, 1, 4, 20, &[(1, 5)], &[1, 1], 1, 2),
            ("35", 2, 1, 2, 20, &[(1, 5)], &[1, 1], 1, 2),
            ("36", 2, 2, 6, 20, &[(1, max), (1, max)], &[0, 0], 2, 5),
            ("36", 2, 1, 3, i32::MIN, &[(1, 1)], &[0, 0], 1, 5),
            ("36", 2, 1, 3, 536_870_912, &[(1, 1)], &[0, 1], 1, 5),
            ("37", 2, 1, 3, 20, &[(1, 5), (1, 3)], &[1, 1], 2, 0),
        ] {
            let got = variants(n, r, len, score, placed, unseen, blanks);
            self.says("record_blank_variants", item, got, untouched(number, len, placed));
        }
        for (placed, unseen, blanks, sheet, drops) in [
            ([(1, 5), (1, 3)], [2, 0], 1, [0; 6], [3, 5]),
            ([(1, 5), (1, -3)], [0, 2], 1, [0, 0, 0, 20, 23, 0], [-3, 5]),
            ([(1, 5), (1, 3)], [0, 1], usize::MAX, [0, 0, 0, 0, 17, 12], [3, 5]),
        ] {
            let want = (0, sheet.to_vec(), vec![1, 1], drops.to_vec());
            self.says("record_blank_variants", "37", variants(2, 2, 6, 20, &placed, &unseen, blanks), want);
        }
    }
}
