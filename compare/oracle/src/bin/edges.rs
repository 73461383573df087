// What the original does with inputs outside or at the edge of docs/SCOPE.md's domain. Each runs in a process of its own, so that a panic, an
// abort or a crash is told. Run it in both profiles: release (sums wrap) and checked (they panic; unchecked reads abort).
//   edges            all
//   edges NUMBER     one, in this process
use oracle::calls::{self, Sums, add_table};
use oracle::census::*;
use oracle::inputs::HEAVY;
use oracle::model::Mode;
use oracle::prob::Pascal;
use std::process::Command;

// the input; what docs/SCOPE.md says; what the original gives
type Edge = (&'static str, &'static str, fn() -> String);

fn lat(n: usize, r: usize) -> MultisetLattice {
    MultisetLattice::new(n, r).unwrap()
}

fn sums(n: usize, r: usize, board: &ApportionBoard, flags: u8, fill: f64) -> Sums {
    let l = lat(n, r);
    let mut s = Sums::new(&l, fill, 0);
    calls::fused(&l, &add_table(&l, false), board, Mode::of(flags), &mut s);
    s
}

fn fused(n: usize, r: usize, [sheet, leave, leave_max]: [&[i32]; 3], unseen: &[u8], flags: u8, fill: f64) -> String {
    let s = sums(n, r, &ApportionBoard { sheet, leave, leave_max, unseen }, flags, fill);
    format!("maxsheet {:?} num {:?} den {:?} ways {:?}", s.maxsheet, s.num, s.den, s.ways)
}

fn table(n: usize, r: usize, best: &[i32], pool: &[u8]) -> String {
    let l = lat(n, r);
    let (mut num, mut den) = (vec![0.0; l.len()], vec![0.0; l.len()]);
    apportion_table(&l, best, pool, &mut num, &mut den);
    format!("num[0] {:?} den[0] {:?}", num[0], den[0])
}

fn draw(n: usize, r: usize, best: &[i32], pool: &[u8], idx: usize, k: usize) -> String {
    let l = lat(n, r);
    let add = AddTable::new_with_threads(&l, 1);
    dynamic_leave_value(&l, &add, best, pool, idx, k).to_string()
}

fn blanks(n: usize, r: usize, score: i32, placed: &[(u8, i32)], unseen: &[u8], k: usize) -> String {
    let l = lat(n, r);
    let mut sheet = vec![0; l.len()];
    let mut p = placed.to_vec();
    record_blank_variants(&l, &mut sheet, score, &mut p, unseen, k);
    format!("sheet {sheet:?} placed {p:?}")
}

fn heavy(flags: u8) -> String {
    let board = ApportionBoard { sheet: &HEAVY, leave: &[0; 20], leave_max: &[], unseen: &[255; 3] };
    format!("{:.0}", sums(3, 3, &board, flags, 0.0).num[0])
}

const EDGES: &[Edge] = &[
    ("sizes n 0 r 1", "1", || MultisetLattice::new(0, 1).map_or("Err".into(), |l| l.len().to_string())),
    ("sizes n 65 r 1", "1", || MultisetLattice::new(65, 1).map_or("Err".into(), |l| l.len().to_string())),
    ("sizes n 1 r 0", "1", || lat(1, 0).len().to_string()),
    ("sizes n 1 r 0, then AddTable", "1", || {
        AddTable::new_with_threads(&lat(1, 0), 1);
        "made".into()
    }),
    ("sizes n 1 r 16", "1", || lat(1, 16).len().to_string()),
    ("sizes n 21 r 15", "1 (5567902560 is too long)", || lat(21, 15).len().to_string()),
    ("n 21 r 15, rank of 15 blanks", "1", || {
        let mut t = [0u8; 21];
        t[0] = 15;
        lat(21, 15).rank(&t).to_string()
    }),
    ("sizes n 64 r 100 (u64 lengths are passed)", "1", || lat(64, 100).len().to_string()),
    ("n 1 r 1 size_start(3)", "4", || lat(1, 1).size_start(3).to_string()),
    ("n 2 r 2 rank of a tally of length 3, (0,0,1)", "2", || lat(2, 2).rank(&[0, 0, 1]).to_string()),
    ("n 2 r 2 rank of a tally of length 1, (1)", "2", || lat(2, 2).rank(&[1]).to_string()),
    ("n 2 r 2 sparse s 1, letter 2 (not below n)", "3", || lat(2, 2).rank_sparse(1, &[(2, 1)]).to_string()),
    ("n 3 r 2 sparse s 2, letters 1 then 0", "3", || lat(3, 2).rank_sparse(2, &[(1, 1), (0, 1)]).to_string()),
    ("n 3 r 2 sparse s 2, letter 0 twice", "3", || lat(3, 2).rank_sparse(2, &[(0, 1), (0, 1)]).to_string()),
    ("n 2 r 2 sparse s 1, no letters (sum 0)", "4", || lat(2, 2).rank_sparse(1, &[]).to_string()),
    ("n 2 r 2 sparse s 0, letter 0 once (sum 1)", "4", || lat(2, 2).rank_sparse(0, &[(0, 1)]).to_string()),
    ("n 3 r 2 sparse s 0, letter 0 once (sum 1)", "4", || lat(3, 2).rank_sparse(0, &[(0, 1)]).to_string()),
    ("n 3 r 2 sparse s 0, letter 0 two times (sum 2)", "4", || lat(3, 2).rank_sparse(0, &[(0, 2)]).to_string()),
    ("n 3 r 2 sparse s 0, letter 0 255 times", "4", || lat(3, 2).rank_sparse(0, &[(0, 255)]).to_string()),
    ("n 64 r 7 sparse s 0, letter 0 once (sum 1)", "4", || lat(64, 7).rank_sparse(0, &[(0, 1)]).to_string()),
    ("n 2 r 2 sparse s 1, last letter 9 times (sum 9)", "4", || lat(2, 2).rank_sparse(1, &[(1, 9)]).to_string()),
    ("n 1 r 1 rank_bytes of 2 zeros", "4", || lat(1, 1).rank_bytes(&[0; 2]).to_string()),
    ("n 1 r 1 rank_bytes of 256 zeros", "4", || lat(1, 1).rank_bytes(&[0; 256]).to_string()),
    ("n 1 r 1 rank_bytes of 257 zeros", "4", || lat(1, 1).rank_bytes(&[0; 257]).to_string()),
    ("n 1 r 1 unrank 2 (past the end)", "4", || format!("{:?}", lat(1, 1).tally(2))),
    ("n 2 r 1 unrank 3 (past the end)", "4", || format!("{:?}", lat(2, 1).tally(3))),
    ("n 3 r 2 unrank 10 (past the end)", "4", || format!("{:?}", lat(3, 2).tally(10))),
    ("n 2 r 1 unrank 0 into 3 entries of 9", "2", || {
        let mut out = [9u8; 3];
        lat(2, 1).unrank_into(0, &mut out);
        format!("{out:?}")
    }),
    ("n 2 r 1 unrank 0 into 1 entry", "2", || {
        let mut out = [9u8; 1];
        lat(2, 1).unrank_into(0, &mut out);
        format!("{out:?}")
    }),
    ("Pascal 0 rows", "4", || Pascal::with_rows(0).binom(0, 0).to_string()),
    ("letter 1 of a letter table, n 1 r 1", "3", || {
        format!("{:?}", AddTable::new_with_threads(&lat(1, 1), 1).with_letter_passes(1).letter(1))
    }),
    ("naive, rack of 3 tiles in r 2, n 1", "4", || format!("{:?}", naive_best_equity(&lat(1, 2), &[0, 5, 9], &[0, 1, 2], &[3]))),
    ("naive, rack of 5 tiles in r 2, n 1 (no split fits)", "4", || {
        format!("{:?}", naive_best_equity(&lat(1, 2), &[0, 5, 9], &[0, 1, 2], &[5]))
    }),
    ("naive, tally shorter than n", "2", || format!("{:?}", naive_best_equity(&lat(2, 1), &[0; 3], &[0; 3], &[1]))),
    ("best of, sheet entry 536870912 alone", "5", || best_equity_of(&lat(1, 1), &[0, 536_870_912], &[0, 0], &[1]).to_string()),
    ("best of, sheet and leave 1073741824", "5", || {
        best_equity_of(&lat(1, 1), &[1_073_741_824; 2], &[1_073_741_824; 2], &[1]).to_string()
    }),
    ("best of, all entries -536870912", "5", || {
        best_equity_of(&lat(1, 1), &[-536_870_912; 2], &[-536_870_912; 2], &[1]).to_string()
    }),
    ("best of, all entries -536870913 (all sums under UNPLAYABLE)", "5", || {
        best_equity_of(&lat(1, 1), &[-536_870_913; 2], &[-536_870_913; 2], &[1]).to_string()
    }),
    ("naive, all entries -536870912 (kept is not set)", "5", || {
        format!("{:?}", naive_best_equity(&lat(1, 1), &[-536_870_912; 2], &[-536_870_912; 2], &[1]))
    }),
    ("best of, sheet of wrong length", "2", || best_equity_of(&lat(1, 1), &[1, 2, 3], &[0, 0], &[1]).to_string()),
    ("keep 1, value UNPLAYABLE", "(UNPLAYABLE, 1)", || format!("{:?}", best_keep_of(&lat(1, 1), &[0, UNPLAYABLE], &[1], 1))),
    ("keep 1, value under UNPLAYABLE", "(UNPLAYABLE, none)", || {
        format!("{:?}", best_keep_of(&lat(1, 1), &[0, UNPLAYABLE - 1], &[1], 1))
    }),
    ("keep 0 of nothing, value i32::MIN", "(UNPLAYABLE, none)", || {
        format!("{:?}", best_keep_of(&lat(1, 1), &[i32::MIN, 0], &[0], 0))
    }),
    ("keep usize::MAX", "(UNPLAYABLE, none)", || format!("{:?}", best_keep_of(&lat(1, 1), &[0, 0], &[1], usize::MAX))),
    ("best table, out one short", "2", || {
        let mut out = [7; 2];
        best_equity_table(&lat(2, 1), &[0, 1, 2], &[0; 3], &mut out);
        format!("{out:?}")
    }),
    ("best table, out one long", "2", || {
        let mut out = [7; 3];
        best_equity_table(&lat(1, 1), &[0, 1], &[0; 2], &mut out);
        format!("{out:?}")
    }),
    ("best table, n 2 r 1, out one long", "2", || {
        let mut out = [7; 4];
        best_equity_table(&lat(2, 1), &[0, 1, 2], &[0; 3], &mut out);
        format!("{out:?}")
    }),
    ("best table, sheet one short (unchecked reads)", "2", || {
        let mut out = [7; 2];
        best_equity_table(&lat(1, 1), &[0], &[0; 2], &mut out);
        "answers".into()
    }),
    ("subset maximum, dst one short", "2", || {
        let l = lat(1, 1);
        let mut dst = [0; 1];
        subset_max_transform(&l, &AddTable::new_with_threads(&l, 1), &[0, 1], &mut dst);
        format!("{dst:?}")
    }),
    ("scatter in force, n 1 r 1", "accepted", || fused(1, 1, [&[0, 3], &[0, 1], &[0, 1]], &[1], 5, 0.0)),
    ("scatter in force, n 1 r 1, sheet all 0", "accepted", || fused(1, 1, [&[0, 0], &[0, 1], &[0, 1]], &[1], 5, 0.0)),
    ("scatter in force, n 1 r 2", "accepted", || fused(1, 2, [&[0, 3, 0], &[0, 1, 5], &[0, 1, 5]], &[2], 5, 0.0)),
    ("scatter, sheet[0] 9 (played by none)", "7", || fused(1, 2, [&[9, 0, 0], &[0, 0, 0], &[0, 0, 0]], &[2], 5, 0.0)),
    ("split, the same", "accepted", || fused(1, 2, [&[9, 0, 0], &[0, 0, 0], &[0, 0, 0]], &[2], 1, 0.0)),
    ("scatter, sheet all -1", "7", || fused(1, 2, [&[-1; 3], &[0, 0, 0], &[0, 0, 0]], &[2], 5, 0.0)),
    ("scatter, leave_max too great", "7", || fused(1, 2, [&[0; 3], &[0, 0, 0], &[0, 0, 99]], &[2], 5, 0.0)),
    ("fused split with zeta, num den ways 1.0 on entry", "8", || fused(1, 1, [&[0, 1], &[0; 2], &[]], &[1], 1, 1.0)),
    ("fused split, num den ways -0.0 on entry, empty pool", "8", || fused(1, 1, [&[0, 1], &[0; 2], &[]], &[0], 0, -0.0)),
    ("fused, null_leave without zeta: leave counts", "accepted, 9", || fused(1, 1, [&[0, 1], &[0, 9], &[]], &[1], 2, 0.0)),
    ("fused, null_leave with zeta: leave is not read", "accepted, 1", || fused(1, 1, [&[0, 1], &[0, 9], &[]], &[1], 3, 0.0)),
    ("fused, scatter without zeta: best split", "accepted", || {
        fused(2, 2, [&[0, 2, 1, 10, 30, 5], &[0, 4, 7, 1, 3, -2], &[]], &[1, 2], 4, 0.0)
    }),
    ("table, n 1 r 15, pool 64, best 57", "9", || {
        let mut best = [0; 16];
        best[15] = 57;
        table(1, 15, &best, &[64])
    }),
    ("draw, n 1 r 15, pool 255, best 1 (C(255,15) is not exact)", "9", || {
        let mut best = [0; 16];
        best[15] = 1;
        draw(1, 15, &best, &[255], 0, 15)
    }),
    ("table, n 1 r 15, pool 130 (the last C(p, 15) below 2^64)", "9", || table(1, 15, &[1; 16], &[130])),
    ("table, n 1 r 15, pool 131 (the first C(p, 15) beyond u64, cut to 64 bits)", "9", || table(1, 15, &[1; 16], &[131])),
    ("table, n 1 r 15, pool 255", "9", || table(1, 15, &[1; 16], &[255])),
    ("fused, n 1 r 15, pool 255 (no cut: binom in f64)", "9", || {
        let s = fused(1, 15, [&[0; 16], &[0; 16], &[]], &[255], 0, 0.0);
        s[s.find("ways").unwrap()..].to_string()
    }),
    ("draw 0 from a full rack, best i32::MIN", "accepted", || draw(1, 1, &[0, i32::MIN], &[0], 1, 0)),
    ("draw 1 from an empty pool", "accepted, UNPLAYABLE", || draw(1, 1, &[0, 5], &[0], 0, 1)),
    ("draw 0 from no tiles, r 1 (size + draw is not r)", "4", || draw(1, 1, &[11, 5], &[1], 0, 0)),
    ("draw 2 from no tiles, r 1 (too many: unchecked add)", "4", || draw(1, 1, &[11, 5], &[2], 0, 2)),
    ("draw 2 from no tiles, n 2 r 1 pool (1,1) (too many: unchecked add)", "4", || draw(2, 1, &[11, 5, 6], &[1, 1], 0, 2)),
    ("subset maximum n 1 r 2 with the add table of n 1 r 1 (unchecked)", "2", || {
        let mut dst = [0; 3];
        subset_max_transform(&lat(1, 2), &AddTable::new_with_threads(&lat(1, 1), 1), &[3, 1, 0], &mut dst);
        format!("{dst:?}")
    }),
    ("subset maximum n 1 r 2 with the letter table of n 1 r 1", "2", || {
        let mut dst = [0; 3];
        subset_max_transform(&lat(1, 2), &AddTable::new_with_threads(&lat(1, 1), 1).with_letter_passes(1), &[3, 1, 0], &mut dst);
        format!("{dst:?}")
    }),
    ("draw, index past the end (unchecked)", "4", || draw(1, 1, &[11, 5], &[1], 1_000_000_000_000, 0)),
    ("blanks, placed letter 0", "3", || blanks(2, 1, 20, &[(0, 5)], &[1, 1], 1)),
    ("blanks, placed letters 0 and 1, no blank to spend", "3", || blanks(2, 2, 20, &[(0, 5), (1, 3)], &[1, 1], 0)),
    ("blanks, placed letters 0 and 0, 1 blank to spend", "3", || blanks(3, 2, 20, &[(0, 5), (0, 3)], &[2, 1, 1], 1)),
    ("blanks, placed letter n, unseen of length n", "3", || blanks(2, 1, 20, &[(2, 5)], &[1, 1], 1)),
    ("blanks, placed letter n, unseen one longer", "2", || blanks(2, 1, 20, &[(2, 5)], &[1, 1, 1], 1)),
    ("blanks, placed letter n + 1 of 2, unseen two longer, r 2", "2", || blanks(2, 2, 20, &[(3, 5)], &[1, 1, 1, 1], 0)),
    ("blanks, unseen shorter than n but past the letters", "2", || blanks(3, 1, 20, &[(1, 5)], &[1, 1], 1)),
    ("blanks, sheet one short", "2", || {
        let l = lat(2, 1);
        let mut sheet = vec![0; 2];
        record_blank_variants(&l, &mut sheet, 20, &mut [(1, 5)], &[1, 1], 1);
        format!("{sheet:?}")
    }),
    ("blanks, usize::MAX blanks", "accepted", || blanks(2, 2, 20, &[(1, 5), (1, 3)], &[0, 1], usize::MAX)),
    ("blanks, more placed than r", "0, nothing touched", || blanks(2, 1, 20, &[(1, 5), (1, 3)], &[1, 1], 2)),
    ("blanks, negative drops", "accepted", || blanks(2, 2, 20, &[(1, 5), (1, -3)], &[0, 2], 1)),
    ("blanks, forced 2, 1 allowed", "0, sorted", || blanks(2, 2, 20, &[(1, 5), (1, 3)], &[2, 0], 1)),
    ("blanks, forced 1 of 2, 1 allowed", "accepted", || blanks(2, 2, 20, &[(1, 5), (1, 3)], &[2, 1], 1)),
    ("blanks, drops 2147483647 twice", "5", || blanks(2, 2, 20, &[(1, i32::MAX), (1, i32::MAX)], &[0, 0], 2)),
    ("blanks, score i32::MIN, drop 1", "5", || blanks(2, 1, i32::MIN, &[(1, 1)], &[0, 0], 1)),
    ("blanks, score 536870912 (fits)", "5", || blanks(2, 1, 536_870_912, &[(1, 1)], &[0, 1], 1)),
    ("sizes n 64 r 8", "1 (11969016345 is too long)", || lat(64, 8).len().to_string()),
    ("n 64 r 8, rank of eight blanks (true 11969016344)", "1", || {
        let mut t = [0u8; 64];
        t[0] = 8;
        lat(64, 8).rank(&t).to_string()
    }),
    ("Pascal 82 rows, entry 40 of the last", "4", || Pascal::with_rows(82).binom(81, 40).to_string()),
    ("draw 15 from 64 of one letter, best 57", "9", || {
        let mut best = [0; 16];
        best[15] = 57;
        draw(1, 15, &best, &[64], 0, 15)
    }),
    ("draw 3 from (255, 255), sum 7445058816296580 over 21978620 (exactly 338740959)", "9", || {
        let best = [0, 0, 0, 0, 0, 0, -793145501, 545421080, 873570948, -771488131];
        draw(2, 3, &best, &[255, 255], 0, 3)
    }),
    ("fused, n 3 r 3, pool 255 each, sheet HEAVY, without zeta: num[0]", "9", || heavy(0)),
    ("the same with zeta", "9", || heavy(1)),
];

fn main() {
    let args: Vec<String> = std::env::args().collect();
    if let Some(k) = args.get(1) {
        println!("{}", EDGES[k.parse::<usize>().unwrap()].2());
        return;
    }
    for (k, (what, doc, _)) in EDGES.iter().enumerate() {
        let out = Command::new(&args[0]).arg(k.to_string()).env("RUST_BACKTRACE", "0").output().unwrap();
        let got = if out.status.success() {
            String::from_utf8_lossy(&out.stdout).trim().to_string()
        } else {
            let err = String::from_utf8_lossy(&out.stderr).to_string();
            let said: Vec<&str> =
                err.lines().filter(|l| !l.is_empty() && !l.starts_with("note") && !l.starts_with("thread caused")).collect();
            let mut place = "";
            if let Some(l) = said.iter().find(|l| l.contains("panicked at")) {
                place = l.split("panicked at ").nth(1).unwrap_or("");
            }
            let place = place.rsplit('/').next().unwrap_or("");
            let why = said.iter().find(|l| !l.contains("panicked at")).unwrap_or(&"");
            format!("PANIC/ABORT ({}) {place} {why}", out.status)
        };
        println!("{k:3} | {what} | document: {doc} | Rust: {got}");
    }
}
