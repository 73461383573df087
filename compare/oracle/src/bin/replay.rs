// Replays a list through the original: reads nothing but whole numbers, keeps the lattice, pool, sheet, leave and best table that the list
// sets, and compares every answer that came from the original.
//   replay < LIST
use oracle::calls::{self, Sums, add_table};
use oracle::census::*;
use oracle::model::{self, Mode};
use std::io::Read;

struct Numbers {
    all: Vec<i128>,
    at: usize,
}

impl Numbers {
    fn next(&mut self) -> i128 {
        self.at += 1;
        self.all[self.at - 1]
    }

    fn take<T: TryFrom<i128>>(&mut self, n: usize) -> Vec<T> {
        (0..n).map(|_| T::try_from(self.next()).ok().expect("beyond its type")).collect()
    }

    // a length, then as many numbers
    fn counted<T: TryFrom<i128>>(&mut self) -> Vec<T> {
        let n = self.next() as usize;
        self.take(n)
    }
}

fn bits(v: &[f64]) -> Vec<u64> {
    v.iter().map(|x| x.to_bits()).collect()
}

fn main() {
    let mut text = String::new();
    std::io::stdin().read_to_string(&mut text).unwrap();
    let all = text.split_ascii_whitespace().map(|w| w.parse().expect("no whole number")).collect();
    let mut f = Numbers { all, at: 0 };
    let mut lat = MultisetLattice::new(1, 1).unwrap();
    let mut tables: [Option<AddTable>; 2] = [None, None];
    let (mut pool, mut sheet, mut leave, mut best): (Vec<u8>, Vec<i32>, Vec<i32>, Vec<i32>) = Default::default();
    let (mut replayed, mut skipped, mut sizes) = (0, 0, 0);
    let mut per_op = std::collections::BTreeMap::new();
    loop {
        let k = f.next() as usize;
        if k == 0 {
            break;
        }
        let end = f.at + k;
        let op = f.next();
        let document = f.next() == 1;
        if op >= 10 {
            let e = per_op.entry(op).or_insert((0, 0));
            if document { e.1 += 1 } else { e.0 += 1 }
        }
        match op {
            1 => {
                let (n, r) = (f.next(), f.next());
                if !document {
                    lat = MultisetLattice::new(n as usize, r as usize).unwrap();
                    assert_eq!(f.next(), 0);
                    assert_eq!((lat.len() as i128, lat.full_rack_start() as i128), (f.next(), f.next()));
                    tables = [None, None];
                    sizes += 1;
                }
                f.at = end;
                continue;
            }
            2 => pool = f.counted(),
            3 => sheet = f.counted(),
            4 => leave = f.counted(),
            5 => best = f.counted(),
            _ if document => {
                f.at = end;
                skipped += 1;
                continue;
            }
            _ => {
                replayed += 1;
                let n = lat.num_letters();
                let (len, lo) = (lat.len(), lat.full_rack_start());
                // the tables are made only where a call takes them: long lattices have none
                let mut table = |letters: usize| {
                    if tables[letters].is_none() {
                        tables[letters] = Some(add_table(&lat, letters == 1));
                    }
                };
                match op {
                    10 => {
                        let s = f.next() as usize;
                        assert_eq!((0, lat.size_start(s) as i128), (f.next(), f.next()));
                    }
                    11 => {
                        let t: Vec<u8> = f.counted();
                        assert_eq!((0, lat.rank(&t) as i128), (f.next(), f.next()));
                    }
                    12 => {
                        let s = f.next() as usize;
                        let (letters, counts): (Vec<u8>, Vec<u8>) = (f.counted(), f.counted());
                        let items: Vec<(u8, u8)> = letters.into_iter().zip(counts).collect();
                        assert_eq!((0, lat.rank_sparse(s, &items) as i128), (f.next(), f.next()));
                    }
                    13 => {
                        let b: Vec<u8> = f.counted();
                        assert_eq!((0, lat.rank_bytes(&b) as i128), (f.next(), f.next()));
                    }
                    14 => {
                        let (idx, short, fill) = (f.next() as usize, f.next(), f.next() as u8);
                        assert_eq!((short, f.next()), (0, 0));
                        let mut out = vec![fill; n];
                        lat.unrank_into(idx, &mut out);
                        assert_eq!(out, f.take::<u8>(n));
                    }
                    15 => {
                        let (rows, len) = (f.next() as usize, f.next() as usize);
                        assert_eq!(f.next(), 0);
                        assert_eq!(calls::pascal(rows), f.take::<u64>(len));
                    }
                    16 => {
                        assert_eq!((0, 0), (f.next(), f.next()));
                        table(0);
                        let t = tables[0].as_ref().unwrap();
                        let want: Vec<u32> = f.take(lo * n);
                        assert!((0..lo * n).all(|i| t.add(i / n, i % n) as u32 == want[i]));
                    }
                    17 => {
                        assert_eq!((0, 0, 0), (f.next(), f.next(), f.next()));
                        table(1);
                        let t = tables[1].as_ref().unwrap();
                        let want: Vec<u32> = f.take(lo * n);
                        assert!((0..n).all(|l| t.letter(l).unwrap() == &want[l * lo..(l + 1) * lo]));
                    }
                    18 => {
                        let (whole, l) = (f.next() as usize, f.next() as usize);
                        table(whole);
                        let want: Vec<u32> = f.counted();
                        assert_eq!(tables[whole].as_ref().unwrap().letter(l).unwrap_or(&[]), want);
                    }
                    20 => {
                        assert_eq!(f.next(), 0);
                        let t: Vec<u8> = f.counted();
                        let (v, kept) = calls::naive(&lat, &sheet, &leave, &t);
                        assert_eq!((0, v as i128), (f.next(), f.next()));
                        assert_eq!(kept, f.counted::<u8>());
                        // the kind is that of docs/SCOPE.md
                        let played = model::minus(&t, &kept);
                        let kind = if sheet[lat.rank(&played) as usize] > 0 { 1 } else { 2 };
                        assert_eq!(kind, f.next());
                    }
                    21 => {
                        assert_eq!(f.next(), 0);
                        let t: Vec<u8> = f.counted();
                        assert_eq!((0, best_equity_of(&lat, &sheet, &leave, &t) as i128), (f.next(), f.next()));
                    }
                    22 => {
                        assert_eq!(f.next(), 0);
                        let mut out = vec![f.next() as i32; len];
                        assert_eq!(f.next(), 0);
                        best_equity_table(&lat, &sheet, &leave, &mut out);
                        assert_eq!(out, f.take::<i32>(len));
                    }
                    23 => {
                        assert_eq!(f.next(), 0);
                        let t: Vec<u8> = f.counted();
                        let (v, at) = best_keep_of(&lat, &leave, &t, f.next() as u64 as usize);
                        assert_eq!((0, v as i128, at as i128), (f.next(), f.next(), f.next()));
                    }
                    24 => {
                        let which = f.next();
                        assert_eq!(f.next(), 0);
                        let letters = f.next() as usize;
                        assert_eq!(f.next(), 0);
                        let mut dst = vec![f.next() as i32; len];
                        assert_eq!(f.next(), 0);
                        table(letters);
                        subset_max_transform(
                            &lat,
                            tables[letters].as_ref().unwrap(),
                            if which == 0 { &sheet } else { &leave },
                            &mut dst,
                        );
                        assert_eq!(dst, f.take::<i32>(len));
                    }
                    30 => {
                        assert_eq!((0, 0, 0), (f.next(), f.next(), f.next()));
                        let (mut num, mut den) = (vec![0.0; len], vec![0.0; len]);
                        apportion_table(&lat, &best, &pool, &mut num, &mut den);
                        assert_eq!(bits(&num), f.take::<u64>(len));
                        assert_eq!(bits(&den), f.take::<u64>(len));
                    }
                    31 => {
                        let flags: Vec<i128> = f.take(9);
                        let letters = flags[3] as usize;
                        table(letters);
                        let add = tables[letters].as_ref().unwrap();
                        let mut leave_max = vec![0; len];
                        if flags[6] == 1 {
                            subset_max_transform(&lat, add, &leave, &mut leave_max);
                        }
                        let mut got = Sums::new(&lat, 0.0, flags[8] as i32);
                        let (sheet, leave, leave_max, unseen) = (&sheet, &leave, &leave_max, &pool);
                        let board = ApportionBoard { sheet, leave, leave_max, unseen };
                        let mode = Mode { zeta: flags[0] == 1, null_leave: flags[1] == 1, scatter: flags[2] == 1 };
                        calls::fused(&lat, add, &board, mode, &mut got);
                        assert_eq!(f.next(), 0);
                        assert_eq!(got.maxsheet, f.take::<i32>(len));
                        assert_eq!(bits(&got.num), f.take::<u64>(lo));
                        assert_eq!(bits(&got.den), f.take::<u64>(lo));
                        assert_eq!(bits(&got.ways), f.take::<u64>(len - lo));
                    }
                    32 => {
                        let (idx, draw) = (f.next() as usize, f.next() as usize);
                        assert_eq!((0, 0), (f.next(), f.next()));
                        table(0);
                        let v = dynamic_leave_value(&lat, tables[0].as_ref().unwrap(), &best, &pool, idx, draw);
                        assert_eq!((0, v as i128), (f.next(), f.next()));
                    }
                    40 => {
                        let (score, blanks) = (f.next() as i32, f.next() as u64 as usize);
                        assert_eq!(f.next(), 0);
                        let (letters, drops): (Vec<u8>, Vec<i32>) = (f.counted(), f.counted());
                        assert_eq!(f.next(), 0);
                        let mut placed: Vec<(u8, i32)> = letters.into_iter().zip(drops).collect();
                        let mut s = sheet.clone();
                        record_blank_variants(&lat, &mut s, score, &mut placed, &pool, blanks);
                        let k = placed.len();
                        let (letters, drops): (Vec<u8>, Vec<i32>) = placed.into_iter().unzip();
                        assert_eq!(letters, f.take::<u8>(k));
                        assert_eq!(drops, f.take::<i32>(k));
                        assert_eq!(s, f.take::<i32>(len));
                    }
                    _ => panic!("call {op} is unknown"),
                }
            }
        }
        assert_eq!(f.at, end, "a record of call {op} was read to another end");
    }
    assert_eq!(f.at, f.all.len(), "text after the last record");
    println!("{sizes} lattices, {replayed} calls replayed and right, {skipped} from docs/SCOPE.md alone");
    for (op, (rust, document)) in per_op {
        println!("  call {op}: {rust} from the original, {document} from docs/SCOPE.md");
    }
}
