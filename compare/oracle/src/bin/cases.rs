// Writes a list of cases for a replay (format: compare/README.md). Each accepted call goes through the original and through the plain model
// of docs/SCOPE.md; a disagreement is told on standard error, and the exit status is then 1.
//   cases SEED SCALE > LIST        SCALE 0 has ranks and refusals only; each step adds boards and lattices
use oracle::calls::{self, Sums, add_table};
use oracle::census::*;
use oracle::inputs::{self, Placed, pool, value, values};
use oracle::model::{self, Lattice, MOST, MOST_DROP, Mode, NONE, UNPLAYABLE, rank_formula};
use oracle::rng::Rng;
use std::io::Write;

// ---- records

struct List<W: Write> {
    w: W,
    cases: u64,
    // of those, from docs/SCOPE.md alone
    document: u64,
    wrong: u64,
    // what a reader's buffers must hold: the longest lattice with a board, its largest table of ranks, the longest record
    length: usize,
    table: usize,
    record: usize,
}

impl<W: Write> List<W> {
    // source 0: the original gave the answer; 1: docs/SCOPE.md alone does
    fn put(&mut self, op: i128, source: bool, rest: &Rest) {
        let Rest(rest) = rest;
        let mut line = format!("{} {} {}", rest.len() + 2, op, source as i128);
        for x in rest {
            line.push(' ');
            line.push_str(&x.to_string());
        }
        line.push('\n');
        self.w.write_all(line.as_bytes()).unwrap();
        self.record = self.record.max(rest.len() + 2);
        if op >= 10 {
            self.cases += 1;
            self.document += source as u64;
        }
    }

    fn check<T: PartialEq + std::fmt::Debug>(&mut self, what: &str, rust: &T, model: &T) {
        if rust != model {
            self.wrong += 1;
            if self.wrong < 20 {
                eprintln!("{what}: Rust {rust:?}, model {model:?}");
            }
        }
    }
}

// the numbers of a record after its OP and SOURCE
struct Rest(Vec<i128>);

fn rest(head: &[i128]) -> Rest {
    Rest(head.to_vec())
}

impl Rest {
    fn and(mut self, more: &[i128]) -> Self {
        self.0.extend(more);
        self
    }

    fn all<T: Copy + Into<i128>>(mut self, v: &[T]) -> Self {
        self.0.extend(v.iter().map(|&x| x.into()));
        self
    }

    // a length, then as many numbers
    fn counted<T: Copy + Into<i128>>(mut self, v: &[T]) -> Self {
        self.0.push(v.len() as i128);
        self.all(v)
    }

    fn bits(mut self, v: &[f64]) -> Self {
        self.0.extend(v.iter().map(|x| x.to_bits() as i128));
        self
    }
}

fn number<T>(answer: &Result<T, u8>) -> i128 {
    answer.as_ref().err().map_or(0, |&k| k as i128)
}

// whole numbers as f64
fn floats(v: &[i128]) -> Vec<f64> {
    v.iter().map(|&x| x as f64).collect()
}

fn bits(v: &[f64]) -> Vec<u64> {
    v.iter().map(|x| x.to_bits()).collect()
}

// the slice without its last entry, where asked for
fn shorter<T>(v: &[T], yes: bool) -> &[T] {
    if yes { &v[..v.len().saturating_sub(1)] } else { v }
}

// ---- what is wrong with a call's input: the fields of a record

// the slice that is one entry short, and the entry of a table that is one too great, both 0 where none
#[derive(Clone, Copy, Default)]
struct Bad {
    short: usize,
    damage: i128,
    leave_max: i128,
    dirty: i128,
}

const GOOD: Bad = Bad { short: 0, damage: 0, leave_max: 0, dirty: 0 };

struct Draw<'a> {
    best: &'a [i32],
    pool: &'a [u8],
    idx: u64,
    draw: u64,
    short: usize,
    damage: i128,
}

#[derive(Clone)]
struct Board {
    pool: Vec<u8>,
    sheet: Vec<i32>,
    leave: Vec<i32>,
}

// the original's lattice with its tables of ranks, and the model's
struct Both {
    lat: MultisetLattice,
    m: Lattice,
    add: [AddTable; 2],
}

impl Both {
    fn new(n: usize, r: usize) -> Self {
        let lat = MultisetLattice::new(n, r).unwrap();
        let add = [add_table(&lat, false), add_table(&lat, true)];
        Self { lat, m: Lattice::new(n, r), add }
    }
}

// ---- the calls

struct Cases<W: Write> {
    list: List<W>,
    rng: Rng,
}

impl<W: Write> Cases<W> {
    fn sizes(&mut self, n: u64, r: u64) -> bool {
        let ok = model::sizes_ok(n, r);
        let (mut len, mut lo) = (NONE as i128, NONE as i128);
        if ok {
            let lat = MultisetLattice::new(n as usize, r as usize).unwrap();
            (len, lo) = (lat.len() as i128, lat.full_rack_start() as i128);
            self.list.check("length", &len, &(model::binom((n + r) as u128, n as u128) as i128));
            self.list.check("full racks", &lo, &(model::binom((n + r - 1) as u128, n as u128) as i128));
        }
        self.list.put(1, !ok, &rest(&[n as i128, r as i128, !ok as i128, len, lo]));
        ok
    }

    // sizes that are refused, and calls on them: 1, whatever else is wrong
    fn refused_sizes(&mut self, n: u64, r: u64) {
        assert!(!self.sizes(n, r));
        let (none, no_play) = (NONE as i128, UNPLAYABLE as i128);
        self.list.put(3, false, &rest(&[2, 0, MOST as i128 + 1]));
        self.list.put(4, false, &rest(&[2, 0, 0]));
        self.list.put(10, true, &rest(&[0, 1, none]));
        self.list.put(10, true, &rest(&[u64::MAX as i128, 1, none]));
        self.list.put(11, true, &rest(&[1, 0, 1, none]));
        self.list.put(11, true, &rest(&[0, 1, none]));
        self.list.put(12, true, &rest(&[0, 0, 0, 1, none]));
        self.list.put(12, true, &rest(&[1, 1, 255, 0, 1, none]));
        self.list.put(13, true, &rest(&[0, 1, none]));
        self.list.put(13, true, &rest(&[1, 255, 1, none]));
        for tally in [[0u8], [255]] {
            self.list.put(21, true, &rest(&[0]).counted(&tally).and(&[1, no_play]));
            self.list.put(20, true, &rest(&[0]).counted(&tally).and(&[1, no_play, 0, 0]));
            self.list.put(23, true, &rest(&[0]).counted(&tally).and(&[0, 1, no_play, none]));
        }
    }

    // a tally by the three ways of ranking
    fn ranks(&mut self, lat: &MultisetLattice, m: Option<&Lattice>, tally: &[u8]) {
        let (n, r) = (lat.num_letters(), lat.rack_size());
        let want = match model::total(tally) {
            _ if tally.len() != n => Err(2),
            tiles if tiles > r => Err(4),
            _ => Ok(rank_formula(tally)),
        };
        if let Some(m) = m {
            assert_eq!(m.rank(tally), want);
        }
        let at = want.unwrap_or(NONE);
        if want != Err(2) {
            self.list.check("rank", &lat.rank(tally), &at);
        }
        let answer = [number(&want), at as i128];
        self.list.put(11, want.is_err(), &rest(&[]).counted(tally).and(&answer));
        // the same, as letters with counts (at times with a count of 0) and as bytes
        if tally.len() != n || model::total(tally) > 40 {
            return;
        }
        let zeros = self.rng.chance(4);
        let items: Vec<(u8, u8)> = tally.iter().enumerate().map(|(t, &c)| (t as u8, c)).filter(|x| zeros || x.1 > 0).collect();
        let s = model::total(tally);
        let (letters, counts): (Vec<u8>, Vec<u8>) = items.iter().copied().unzip();
        self.list.check("rank_sparse", &lat.rank_sparse(s, &items), &at);
        self.list.put(12, want.is_err(), &rest(&[s as i128]).counted(&letters).counted(&counts).and(&answer));
        let mut bytes = model::tiles_of(tally);
        if self.rng.chance(3) {
            self.rng.shuffle(&mut bytes);
        }
        self.list.check("rank_bytes", &lat.rank_bytes(&bytes), &at);
        self.list.put(13, want.is_err(), &rest(&[]).counted(&bytes).and(&answer));
    }

    fn unrank(&mut self, lat: &MultisetLattice, m: Option<&Lattice>, idx: u64, short: bool) {
        let fill = 9;
        let n = lat.num_letters();
        let mut out = vec![fill; n - short as usize];
        let mut want = Ok(());
        if short {
            want = Err(2);
        } else if idx >= lat.len() as u64 {
            want = Err(4);
        } else {
            lat.unrank_into(idx as usize, &mut out);
            self.list.check("rank of unrank", &rank_formula(&out), &(idx as u32));
        }
        if let Some(m) = m {
            self.list.check("unrank", &want.map(|_| out.clone()), &m.unrank(idx, out.len()));
        }
        self.list.put(14, want.is_err(), &rest(&[idx as i128, short as i128, fill as i128, number(&want)]).all(&out));
    }

    fn starts(&mut self, lat: &MultisetLattice, s: u64) {
        let n = lat.num_letters() as u128;
        let mut want = Err(4);
        if s <= lat.rack_size() as u64 + 1 {
            let at = lat.size_start(s as usize) as u128;
            self.list.check("size_start", &at, &if s == 0 { 0 } else { model::binom(s as u128 + n - 1, n) });
            want = Ok(at as u32);
        }
        self.list.put(10, want.is_err(), &rest(&[s as i128, number(&want), want.unwrap_or(NONE) as i128]));
    }

    fn sparse_refusals(&mut self, m: &Lattice) {
        let (n, r) = (m.n as u8, m.r as u8);
        let tries: Vec<(u64, Vec<u8>, Vec<u8>)> = vec![
            (0, vec![], vec![]),
            (1, vec![], vec![]),
            (1, vec![n], vec![1]),
            (1, vec![n - 1], vec![]),
            (1, vec![255], vec![1]),
            (2, vec![0, 0], vec![1, 1]),
            (2, vec![n - 1, 0], vec![1, 1]),
            (1, vec![0], vec![2]),
            (2, vec![n - 1], vec![1]),
            (r as u64 + 1, vec![n - 1], vec![r + 1]),
            (r as u64, vec![n - 1], vec![r]),
            (r as u64, vec![0], vec![r]),
            (510, vec![0, n - 1], vec![255, 255]),
            (u64::MAX, vec![0], vec![1]),
        ];
        for (s, letters, counts) in tries {
            let want = m.rank_sparse(s, &letters, &counts);
            let answer = [number(&want), want.unwrap_or(NONE) as i128];
            self.list.put(12, true, &rest(&[s as i128]).counted(&letters).counted(&counts).and(&answer));
        }
        let tries: Vec<Vec<u8>> =
            vec![vec![n], vec![0; r as usize + 1], vec![0; 256], vec![n - 1; 257], [vec![0; 300], vec![n]].concat(), vec![255]];
        for bytes in tries {
            let want = m.rank_bytes(&bytes);
            self.list.put(13, true, &rest(&[]).counted(&bytes).and(&[number(&want), want.unwrap_or(NONE) as i128]));
        }
    }

    fn tables(&mut self, b: &Both, refusals: bool) {
        let (n, lo) = (b.m.n, b.m.lo());
        let (add, letters) = (b.m.add_table(), b.m.letter_table());
        let got: Vec<u32> = (0..lo * n).map(|i| b.add[0].add(i / n, i % n) as u32).collect();
        self.list.check("add table", &got, &add);
        let got: Vec<u32> = (0..n).flat_map(|t| b.add[1].letter(t).unwrap().to_vec()).collect();
        self.list.check("letter table", &got, &letters);
        self.list.put(16, false, &rest(&[0, 0]).all(&add));
        self.list.put(17, false, &rest(&[0, 0, 0]).all(&letters));
        for t in [0, n - 1] {
            self.list.put(18, false, &rest(&[1, t as i128]).counted(&letters[t * lo..(t + 1) * lo]));
            self.list.put(18, false, &rest(&[0, t as i128, 0]));
        }
        if refusals {
            let fill = |len: usize| vec![7u32; len];
            self.list.put(18, true, &rest(&[1, n as i128, 0]));
            self.list.put(16, true, &rest(&[1, 2]).all(&fill(lo * n - 1)));
            self.list.put(17, true, &rest(&[1, 0, 2]).all(&fill(lo * n)));
            self.list.put(17, true, &rest(&[2, 0, 2]).all(&fill(lo * n - 1)));
            let damage = 1 + self.rng.below((lo * n) as u64) as i128;
            self.list.put(17, true, &rest(&[0, damage, 6]).all(&fill(lo * n)));
        }
    }

    // the best of one rack, by both searches
    fn splits(&mut self, b: &Both, board: &Board, tally: &[u8], short: usize) {
        let (sheet, leave) = (shorter(&board.sheet, short == 1), shorter(&board.leave, short == 2));
        let want = b.m.naive(sheet, leave, tally);
        let (best, kept, kind) = match &want {
            Ok((best, kept, word)) => {
                let got = calls::naive(&b.lat, sheet, leave, tally);
                self.list.check("naive", &got, &(*best, kept.clone()));
                self.list.check("best of", &best_equity_of(&b.lat, sheet, leave, tally), best);
                (*best, kept.clone(), if *word { 1 } else { 2 })
            }
            Err(_) => (UNPLAYABLE, vec![], 0),
        };
        let head = || rest(&[short as i128]).counted(tally).and(&[number(&want), best as i128]);
        self.list.put(21, want.is_err(), &head());
        self.list.put(20, want.is_err(), &head().counted(&kept).and(&[kind]));
    }

    fn best_table(&mut self, b: &Both, board: &Board, short: usize) {
        let (sheet, leave) = (shorter(&board.sheet, short == 1), shorter(&board.leave, short == 2));
        let fill = -77;
        let mut want = vec![fill; b.m.len() - (short == 3) as usize];
        let no = b.m.best_table(sheet, leave, &mut want);
        if no == 0 {
            let mut got = vec![fill; b.m.len()];
            best_equity_table(&b.lat, sheet, leave, &mut got);
            self.list.check("best table", &got, &want);
        }
        self.list.put(22, no != 0, &rest(&[short as i128, fill as i128, no as i128]).all(&want));
    }

    fn keep(&mut self, b: &Both, leave: &[i32], tally: &[u8], keep: u64, short: usize) {
        let leave = shorter(leave, short == 1);
        let want = b.m.keep(leave, tally, keep);
        let got = best_keep_of(&b.lat, leave, tally, keep as usize);
        self.list.check("keep", &got, &want.unwrap_or((UNPLAYABLE, NONE)));
        let answer = [keep as i128, number(&want), got.0 as i128, got.1 as i128];
        self.list.put(23, want.is_err(), &rest(&[short as i128]).counted(tally).and(&answer));
    }

    // which: 0 sheet, 1 leave
    fn subset(&mut self, b: &Both, board: &Board, which: i128, letters: bool, bad: Bad) {
        let src = if which == 0 { &board.sheet } else { &board.leave };
        let fill = 123;
        let mut got = vec![fill; b.m.len() - (bad.short == 2) as usize];
        let mut want = Ok(());
        if bad.short != 0 {
            want = Err(2);
        } else if bad.damage != 0 {
            want = Err(6);
        } else {
            subset_max_transform(&b.lat, &b.add[letters as usize], src, &mut got);
            self.list.check("subset maximum", &got, &b.m.subset_max(src));
        }
        let head = [which, bad.short as i128, letters as i128, bad.damage, fill as i128, number(&want)];
        self.list.put(24, want.is_err(), &rest(&head).all(&got));
    }

    fn table_sums(&mut self, b: &Both, best: &[i32], pool: &[u8], bad: Bad) {
        let len = b.m.len();
        let mut want = if bad.short != 0 { Err(2) } else { b.m.table_sums(best, pool) };
        // 8 comes before 9
        if bad.dirty != 0 && want.as_ref().err() != Some(&2) {
            want = Err(8);
        }
        let mut num = vec![0.0; len - (bad.short == 3) as usize];
        let mut den = vec![0.0; len - (bad.short == 4) as usize];
        match &want {
            Ok((n, d)) => {
                apportion_table(&b.lat, best, pool, &mut num, &mut den);
                self.list.check("table num", &bits(&num), &bits(&floats(n)));
                self.list.check("table den", &bits(&den), &bits(&floats(d)));
            }
            Err(_) => match bad.dirty {
                1 => num[0] = 1.0,
                2 => *den.last_mut().unwrap() = -0.0,
                _ => {}
            },
        }
        self.list.put(30, want.is_err(), &rest(&[bad.short as i128, bad.dirty, number(&want)]).bits(&num).bits(&den));
    }

    fn fused(&mut self, b: &Both, board: &Board, mode: Mode, letters: bool, bad: Bad) {
        let fill = -5;
        let mut leave_max = if bad.leave_max == 0 { vec![] } else { b.m.subset_max(&board.leave) };
        match bad.leave_max {
            2 => leave_max[0] += 1,
            3 => leave_max.truncate(leave_max.len() - 1),
            _ => {}
        }
        let mut got = Sums::new(&b.lat, 0.0, fill);
        let mut want = if bad.short != 0 {
            Err(2)
        } else {
            b.m.fused(&board.sheet, &board.leave, &leave_max, &board.pool, &got.maxsheet, mode)
        };
        // 6 comes after 5, 8 after 7
        if bad.damage != 0 && !matches!(want, Err(2 | 5)) {
            want = Err(6);
        }
        if bad.dirty != 0 && !matches!(want, Err(2 | 5 | 6 | 7)) {
            want = Err(8);
        }
        let no = number(&want);
        let flags = [mode.zeta, mode.null_leave, mode.scatter, letters].map(|x| x as i128);
        let head = rest(&flags).and(&[bad.short as i128, bad.damage, bad.leave_max, bad.dirty, fill as i128, no]);
        // the original panics where scatter is in force at r = 1
        let document = no != 0 || (mode.scatters() && b.m.r == 1);
        match want {
            Ok(s) => {
                if !document {
                    let (sheet, leave, leave_max, unseen) = (&board.sheet, &board.leave, &leave_max, &board.pool);
                    let board = ApportionBoard { sheet, leave, leave_max, unseen };
                    calls::fused(&b.lat, &b.add[letters as usize], &board, mode, &mut got);
                    let what = format!("{mode:?} n {} r {}", b.m.n, b.m.r);
                    self.list.check(&format!("maxsheet {what}"), &got.maxsheet, &s.maxsheet);
                    self.list.check(&format!("num {what}"), &bits(&got.num), &bits(&floats(&s.num)));
                    self.list.check(&format!("den {what}"), &bits(&got.den), &bits(&floats(&s.den)));
                    self.list.check(&format!("ways {what}"), &bits(&got.ways), &bits(&floats(&s.ways)));
                }
                let (num, den, ways) = (floats(&s.num), floats(&s.den), floats(&s.ways));
                self.list.put(31, document, &head.all(&s.maxsheet).bits(&num).bits(&den).bits(&ways));
            }
            Err(_) => {
                match bad.dirty {
                    1 => got.num[0] = 1.0,
                    2 => *got.den.last_mut().unwrap() = -0.0,
                    3 => *got.ways.last_mut().unwrap() = 1.0,
                    _ => {}
                }
                let maxsheet = shorter(&got.maxsheet, bad.short == 7);
                let (num, den) = (shorter(&got.num, bad.short == 4), shorter(&got.den, bad.short == 5));
                let ways = shorter(&got.ways, bad.short == 6);
                self.list.put(31, document, &head.all(maxsheet).bits(num).bits(den).bits(ways));
            }
        }
    }

    fn draw(&mut self, b: &Both, d: &Draw) {
        let mut want = if d.short != 0 { Err(2) } else { b.m.draw(d.best, d.pool, d.idx, d.draw) };
        if d.damage != 0 && !matches!(want, Err(2 | 4)) {
            want = Err(6);
        }
        if let Ok(v) = want {
            let got = dynamic_leave_value(&b.lat, &b.add[0], d.best, d.pool, d.idx as usize, d.draw as usize);
            self.list.check("draw", &got, &v);
        }
        let head = [d.idx as i128, d.draw as i128, d.short as i128, d.damage];
        self.list.put(32, want.is_err(), &rest(&head).and(&[number(&want), want.unwrap_or(UNPLAYABLE) as i128]));
    }

    // short: 1 the sheet, 2 the pool
    fn blanks(&mut self, b: &Both, board: &Board, p: &Placed, short: usize) {
        let (sheet, pool) = (shorter(&board.sheet, short == 1), shorter(&board.pool, short == 2));
        let (mut letters, mut drops, mut want) = (p.letters.clone(), p.drops.clone(), sheet.to_vec());
        let no = b.m.blanks(&mut want, p.score, &mut letters, &mut drops, pool, p.blanks);
        if no == 0 {
            let mut got = sheet.to_vec();
            let mut placed: Vec<(u8, i32)> = p.letters.iter().copied().zip(p.drops.iter().copied()).collect();
            record_blank_variants(&b.lat, &mut got, p.score, &mut placed, pool, p.blanks as usize);
            self.list.check("blank sheet", &got, &want);
            let sorted: Vec<(u8, i32)> = letters.iter().copied().zip(drops.iter().copied()).collect();
            self.list.check("blank placed", &placed, &sorted);
        }
        let head = rest(&[p.score as i128, p.blanks as i128, short as i128]).counted(&p.letters).counted(&p.drops);
        self.list.put(40, no != 0, &head.and(&[no as i128]).all(&letters).all(&drops).all(&want));
    }

    // ---- boards

    fn set_board(&mut self, b: &Board) {
        self.list.put(2, false, &rest(&[]).counted(&b.pool));
        self.list.put(3, false, &rest(&[]).counted(&b.sheet));
        self.list.put(4, false, &rest(&[]).counted(&b.leave));
    }

    fn set_best(&mut self, best: &[i32]) {
        self.list.put(5, false, &rest(&[]).counted(best));
    }

    // every call on one board
    fn board(&mut self, b: &Both, board: &Board, small: bool) {
        let (m, r, len) = (&b.m, b.m.r, b.m.len());
        self.set_board(board);
        self.best_table(b, board, 0);
        let mut best = vec![0; len];
        let has_best = m.best_table(&board.sheet, &board.leave, &mut best) == 0;
        // racks: all of them in a short lattice, else some
        let racks: Vec<usize> =
            if small && len <= 35 { (0..len).collect() } else { (0..12).map(|_| self.rng.below(len as u64) as usize).collect() };
        for &i in &racks {
            self.splits(b, board, &m.list[i], 0);
            let keep = self.rng.below(r as u64 + 2);
            self.keep(b, &board.leave, &m.list[i], keep, 0);
        }
        for which in 0..2 {
            let letters = self.rng.chance(2);
            self.subset(b, board, which, letters, GOOD);
        }
        let modes: Vec<u64> = if len <= 150 { (0..8).collect() } else { (0..3).map(|_| self.rng.below(8)).collect() };
        for flags in modes {
            let mode = Mode::of(flags as u8);
            let letters = self.rng.chance(2);
            self.fused(b, board, mode, letters, Bad { leave_max: mode.scatters() as i128, ..GOOD });
        }
        if has_best {
            // the leave part of a best table is not read; at times the racks that the pool lacks hold what no sum may meet
            best[..m.lo()].fill(i32::MIN);
            if self.rng.chance(2) {
                for i in m.lo()..len {
                    if !m.drawable(&m.list[i], &board.pool) {
                        best[i] = i32::MIN;
                    }
                }
            }
            self.set_best(&best);
            self.table_sums(b, &best, &board.pool, GOOD);
            for _ in 0..if small { 6 } else { 12 } {
                let idx = self.rng.below(len as u64);
                let draw = (r - model::total(&m.list[idx as usize])) as u64;
                self.draw(b, &Draw { best: &best, pool: &board.pool, idx, draw, short: 0, damage: 0 });
            }
        }
        for _ in 0..4 {
            let p = inputs::placed(&mut self.rng, m.n, r, true);
            self.blanks(b, board, &p, 0);
        }
    }

    // every refusal that a board's calls have, on a small lattice
    fn refusals(&mut self, b: &Both) {
        let (m, n, r, len) = (&b.m, b.m.n, b.m.r, b.m.len());
        let good = Board {
            pool: pool(&mut self.rng, n, r, 2),
            sheet: (0..len).map(|i| if i == 0 { 0 } else { value(&mut self.rng, 5) }).collect(),
            leave: values(&mut self.rng, len, 0),
        };
        let scatter = Mode { zeta: true, null_leave: false, scatter: true };
        let split = Mode { zeta: false, null_leave: true, scatter: true };
        self.set_board(&good);
        let full = m.list[m.lo()].clone();
        let mut over = full.clone();
        over[0] += 1;
        self.splits(b, &good, &full, 1);
        self.splits(b, &good, &full, 2);
        self.splits(b, &good, &full[1..], 0);
        self.splits(b, &good, &over, 0);
        self.keep(b, &good.leave, &over, 1, 0);
        self.keep(b, &good.leave, &full[1..], 1, 0);
        self.keep(b, &good.leave, &full, 1, 1);
        self.keep(b, &good.leave, &full, u64::MAX, 0);
        for short in 1..=3 {
            self.best_table(b, &good, short);
        }
        let damage = 1 + self.rng.below(2 * (m.lo() * n) as u64) as i128;
        // a letter table of one entry, made one shorter, is empty, which is accepted
        let shorter_is_empty = m.lo() * n == 1;
        for short in 1..=if shorter_is_empty { 3 } else { 4 } {
            self.subset(b, &good, 0, true, Bad { short, ..GOOD });
        }
        self.subset(b, &good, 0, true, Bad { damage, ..GOOD });
        self.subset(b, &good, 0, false, Bad { damage: 1, ..GOOD });
        let mut best = vec![0; len];
        m.best_table(&good.sheet, &good.leave, &mut best);
        self.set_best(&best);
        for short in 1..=4 {
            self.table_sums(b, &best, &good.pool, Bad { short, ..GOOD });
        }
        for dirty in 1..=2 {
            self.table_sums(b, &best, &good.pool, Bad { dirty, ..GOOD });
        }
        for short in 1..=if shorter_is_empty { 8 } else { 9 } {
            self.fused(b, &good, scatter, true, Bad { short, leave_max: 1, ..GOOD });
        }
        for leave_max in [0, 2, 3] {
            self.fused(b, &good, scatter, true, Bad { leave_max, ..GOOD });
            self.fused(b, &good, split, true, Bad { leave_max, ..GOOD });
        }
        for dirty in 1..=3 {
            self.fused(b, &good, scatter, true, Bad { dirty, leave_max: 1, ..GOOD });
            self.fused(b, &good, split, true, Bad { dirty, leave_max: 2, damage: 1, ..GOOD });
            self.fused(b, &good, scatter, true, Bad { dirty, leave_max: 2, ..GOOD });
        }
        for idx in [0, len as u64 - 1, len as u64, u64::MAX] {
            for draw in [0, r as u64, r as u64 + 1, u64::MAX] {
                self.draw(b, &Draw { best: &best, pool: &good.pool, idx, draw, short: 0, damage: 0 });
            }
        }
        for (short, damage) in [(1, 0), (2, 0), (3, 0), (0, 1)] {
            self.draw(b, &Draw { best: &best, pool: &good.pool, idx: 0, draw: r as u64, short, damage });
        }
        for short in 1..=2 {
            let p = inputs::placed(&mut self.rng, n, r, false);
            self.blanks(b, &good, &p, short);
        }
        for bad in 0..8 {
            let p = self.bad_placed(n, r, bad);
            self.blanks(b, &good, &p, 0);
        }
        // an entry one beyond the limit, or at an end of i32; some racks do not depend on it
        for (which, v) in [(0, MOST + 1), (1, -MOST - 1), (0, i32::MIN), (1, i32::MAX)] {
            let mut bad = good.clone();
            let at = self.rng.below(len as u64) as usize;
            (if which == 0 { &mut bad.sheet } else { &mut bad.leave })[at] = v;
            self.set_board(&bad);
            self.splits(b, &bad, &full, 0);
            let some = m.list[self.rng.below(len as u64) as usize].clone();
            self.splits(b, &bad, &some, 0);
            self.best_table(b, &bad, 0);
            self.fused(b, &bad, split, true, Bad { damage: 1, ..GOOD });
            self.subset(b, &bad, which as i128, true, GOOD);
            self.keep(b, &bad.leave, &full, 1, 0);
            let p = inputs::placed(&mut self.rng, n, r, false);
            self.blanks(b, &bad, &p, 0);
        }
        // scatter on a negative sheet, or one with a play of nothing
        for (at, v) in [(0, 1), (0, -1), (len - 1, -1)] {
            let mut bad = good.clone();
            bad.sheet[at] = v;
            self.set_board(&bad);
            self.fused(b, &bad, scatter, true, Bad { leave_max: 1, ..GOOD });
            self.fused(b, &bad, split, true, GOOD);
        }
        self.weights(b, scatter, split);
    }

    // placed tiles with something wrong
    fn bad_placed(&mut self, n: usize, r: usize, bad: usize) -> Placed {
        let mut p = inputs::placed(&mut self.rng, n, r, bad % 2 == 0);
        match bad {
            0 | 1 => p.letters.push(0),
            2 => p.letters.push(n as u8),
            3 => p.letters.push(255),
            4 => p.score = [MOST + 1, -MOST - 1][self.rng.below(2) as usize],
            5 => p.score = i32::MIN,
            _ => p.letters.push(if n > 1 { 1 } else { 0 }),
        }
        while bad != 6 && p.drops.len() < p.letters.len() {
            p.drops.push(if bad == 7 { MOST_DROP + 1 } else { 0 });
        }
        p
    }

    // weights just within the limit and just beyond
    fn weights(&mut self, b: &Both, scatter: Mode, split: Mode) {
        let (n, r, len) = (b.m.n, b.m.r, b.m.len());
        let w = model::binom(255 * n as u128, r as u128);
        for extra in 0..2u128 {
            let v = (model::EXACT / w.max(1) + extra).min(MOST as u128) as i32;
            let mut board = Board { pool: vec![255; n], sheet: vec![0; len], leave: vec![0; len] };
            board.sheet[len - 1] = v;
            self.set_board(&board);
            self.fused(b, &board, scatter, true, Bad { leave_max: 1, ..GOOD });
            self.fused(b, &board, split, false, GOOD);
            let mut best = vec![0; len];
            best[len - 1] = -v;
            self.set_best(&best);
            self.table_sums(b, &best, &board.pool, GOOD);
            self.draw(b, &Draw { best: &best, pool: &board.pool, idx: 0, draw: r as u64, short: 0, damage: 0 });
            self.draw(b, &Draw { best: &best, pool: &board.pool, idx: len as u64 - 1, draw: 0, short: 0, damage: 0 });
        }
    }

    // ---- lattices

    fn lattice(&mut self, n: usize, r: usize, boards: usize, small: bool) {
        self.sizes(n as u64, r as u64);
        let b = Both::new(n, r);
        let (m, len) = (&b.m, b.m.len());
        self.list.length = self.list.length.max(len);
        self.list.table = self.list.table.max(m.lo() * n);
        for s in 0..=r as u64 + 1 {
            self.starts(&b.lat, s);
        }
        let some: Vec<usize> =
            if len <= 60 { (0..len).collect() } else { (0..20).map(|_| self.rng.below(len as u64) as usize).collect() };
        for &i in &some {
            self.ranks(&b.lat, Some(m), &m.list[i]);
            self.unrank(&b.lat, Some(m), i as u64, false);
        }
        if len <= 400 {
            self.tables(&b, small);
        }
        if small {
            for s in [r as u64 + 2, u64::MAX] {
                self.starts(&b.lat, s);
            }
            for _ in 0..4 {
                let mut t: Vec<u8> = (0..n).map(|_| self.rng.below(r as u64 + 1) as u8).collect();
                self.ranks(&b.lat, Some(m), &t);
                t[0] = 255;
                self.ranks(&b.lat, Some(m), &t);
                t.push(0);
                self.ranks(&b.lat, Some(m), &t);
            }
            self.unrank(&b.lat, Some(m), len as u64, false);
            self.unrank(&b.lat, Some(m), u64::MAX, false);
            self.unrank(&b.lat, Some(m), 0, true);
            self.sparse_refusals(m);
        }
        for k in 0..boards {
            let kind = (k as u64 + self.rng.below(2)) % 6;
            let (sheet_kind, leave_kind) = (self.rng.below(8), self.rng.below(8));
            let mut board = Board {
                pool: pool(&mut self.rng, n, r, kind),
                sheet: values(&mut self.rng, len, sheet_kind),
                leave: values(&mut self.rng, len, leave_kind),
            };
            // at times one that scatter takes
            if self.rng.chance(2) {
                board.sheet = board.sheet.iter().map(|&v| v.max(0)).collect();
                board.sheet[0] = 0;
            }
            self.board(&b, &board, small);
            // values that only keep, subset maximum and blank variants take
            if k == 0 {
                let wild: Vec<i32> = (0..len).map(|_| inputs::wild(&mut self.rng)).collect();
                let board = Board { pool: board.pool, sheet: wild.clone(), leave: wild };
                self.set_board(&board);
                for _ in 0..6 {
                    let t = m.list[self.rng.below(len as u64) as usize].clone();
                    let keep = self.rng.below(r as u64 + 1);
                    self.keep(&b, &board.leave, &t, keep, 0);
                }
                self.subset(&b, &board, 0, true, GOOD);
                let p = inputs::placed(&mut self.rng, n, r, false);
                self.blanks(&b, &board, &p, 0);
            }
        }
        if small {
            self.refusals(&b);
        }
    }

    // a lattice too long to list
    fn long_lattice(&mut self, n: usize, r: usize) {
        if !self.sizes(n as u64, r as u64) {
            return;
        }
        let lat = MultisetLattice::new(n, r).unwrap();
        for s in 0..=r as u64 + 1 {
            self.starts(&lat, s);
        }
        for k in 0..12 {
            let idx = match k {
                0 => 0,
                1 => lat.len() as u64 - 1,
                2 => lat.full_rack_start() as u64,
                _ => self.rng.below(lat.len() as u64),
            };
            self.unrank(&lat, None, idx, false);
            self.ranks(&lat, None, &lat.tally(idx as usize));
        }
        self.unrank(&lat, None, lat.len() as u64, false);
        let mut t = vec![0u8; n];
        t[n - 1] = r as u8 + 1;
        self.ranks(&lat, None, &t);
    }

    fn pascal(&mut self, rows: u64, len: usize) {
        let want = match rows as u128 * (rows as u128 + 1) / 2 {
            size if size != len as u128 => Err(2),
            _ if !(1..=81).contains(&rows) => Err(4),
            _ => Ok(calls::pascal(rows as usize)),
        };
        if let Ok(got) = &want {
            self.list.check("pascal", got, &model::pascal(rows as usize));
        }
        let head = [rows as i128, len as i128, number(&want)];
        self.list.put(15, want.is_err(), &rest(&head).all(&want.unwrap_or(vec![7; len])));
    }
}

fn main() {
    let args: Vec<String> = std::env::args().collect();
    let (seed, scale): (u64, usize) = (args[1].parse().unwrap(), args[2].parse().unwrap());
    let w = std::io::BufWriter::new(std::io::stdout().lock());
    let list = List { w, cases: 0, document: 0, wrong: 0, length: 0, table: 0, record: 0 };
    let mut g = Cases { list, rng: Rng(seed) };
    for rows in 0..=82u64 {
        if [0, 1, 2, 3, 67, 68, 69, 80, 81, 82].contains(&rows) || g.rng.chance(20) {
            g.pascal(rows, (rows * (rows + 1) / 2) as usize);
        }
    }
    g.pascal(5, 14);
    g.pascal(5, 16);
    g.pascal(82, 5);
    let max = u64::MAX;
    for (n, r) in [(0, 1), (65, 1), (1, 0), (1, 16), (64, 8), (21, 15), (max, 1), (1, max), (max, max)] {
        g.refused_sizes(n, r);
    }
    for (n, r) in [(64, 7), (27, 12), (20, 15), (64, 1), (1, 15), (2, 15), (27, 7), (63, 7), (33, 10)] {
        g.long_lattice(n, r);
    }
    for n in 1..=5 {
        for r in 1..=4 {
            g.lattice(n, r, 2 * scale, true);
        }
    }
    // sizes at the edges, and random ones up to a length of about 2,000
    let mut sizes = vec![(1, 15), (2, 15), (3, 9), (64, 1), (27, 2), (6, 6), (64, 2)];
    while sizes.len() < 7 + 5 * scale {
        let (n, r) = (g.rng.between(1, 30) as usize, g.rng.between(1, 15) as usize);
        if (100..=2100).contains(&model::binom((n + r) as u128, r as u128)) {
            sizes.push((n, r));
        }
    }
    for (n, r) in sizes {
        g.lattice(n, r, 1, false);
    }
    let list = &mut g.list;
    list.w.write_all(b"0\n").unwrap();
    list.w.flush().unwrap();
    eprintln!("{} cases, {} of them from docs/SCOPE.md alone, {} disagreements", list.cases, list.document, list.wrong);
    eprintln!("longest lattice with a board {}, largest table {}, longest record {}", list.length, list.table, list.record);
    std::process::exit((list.wrong > 0) as i32);
}
