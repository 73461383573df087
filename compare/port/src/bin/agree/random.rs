// Random inputs, some of them damaged.
use crate::Agree;
use crate::sums::{Fuse, Listed, Written};
use oracle::calls::add_table;
use oracle::census::*;
use oracle::inputs::{self, Placed, pool, values};
use oracle::model::{self, EXACT, MOST, MOST_DROP, Mode};
use oracle::rng::Rng;
use port::Part;
use port::lent::Entry;
use port::report::By;

// an entry that differs from the slice's own, at a random place
fn damage(rng: &mut Rng, table: &mut [u32]) {
    let at = rng.below(table.len() as u64) as usize;
    table[at] = match rng.below(4) {
        0 => table[at] + 1,
        1 => table[at].wrapping_sub(1),
        2 => u32::MAX - table[at],
        _ => table[at] ^ 1 << rng.below(32),
    };
}

// one entry shorter or longer, or empty, or twice as long
fn other_length<T: Entry>(rng: &mut Rng, slice: &[T], more: T) -> Vec<T> {
    let mut out = slice.to_vec();
    match rng.below(4) {
        0 if !out.is_empty() => out.truncate(out.len() - 1),
        1 if !out.is_empty() => out.clear(),
        2 if !out.is_empty() => out.extend_from_slice(slice),
        _ => out.push(more),
    }
    out
}

impl Agree {
    // a tally of n letters with s tiles, on all letters or on a few
    fn tally(&mut self, n: usize, s: usize) -> Vec<u8> {
        let mut t = vec![0u8; n];
        let few = 1 + self.rng.below(n as u64);
        let from = self.rng.below(n as u64);
        for _ in 0..s {
            let at = (from + self.rng.below(few)) % n as u64;
            t[at as usize] += 1;
        }
        t
    }

    // a tally that may be refused
    fn any_tally(&mut self, n: usize, r: usize) -> Vec<u8> {
        match self.rng.below(16) {
            0 => {
                let t = self.tally(n, r);
                other_length(&mut self.rng, &t, 0)
            }
            1 => self.tally(n, r + 1),
            2 => (0..n).map(|_| [0, 0, 1, 255][self.rng.below(4) as usize]).collect(),
            _ => {
                let s = self.rng.below(r as u64 + 1) as usize;
                self.tally(n, s)
            }
        }
    }

    // one call of each kind on a lattice, or on refused sizes
    pub fn ranks(&mut self, n: usize, r: usize, lat: Option<&MultisetLattice>) {
        // the sizes that inputs are made for
        let (n0, r0) = if lat.is_some() { (n, r) } else { (1 + n % 64, 1 + r % 15) };
        let tally = self.any_tally(n0, r0);
        self.rank(n, r, lat, &tally);

        let (mut s, mut letters, mut counts) = self.sparse(n0, r0);
        match self.rng.below(20) {
            0 => letters = other_length(&mut self.rng, &letters, 255),
            1 => counts = other_length(&mut self.rng, &counts, 0),
            2 if !letters.is_empty() => letters[0] = [n as u8, 255, 0][self.rng.below(3) as usize],
            3 => self.rng.shuffle(&mut letters),
            4 if !counts.is_empty() => counts[0] = [255, 0, 1][self.rng.below(3) as usize],
            5 => s = [0, s + 1, s.wrapping_sub(1), usize::MAX][self.rng.below(4) as usize],
            _ => {}
        }
        self.rank_sparse(n, r, lat, s, &letters, &counts);

        let mut tiles = model::tiles_of(&self.any_tally(n0, r0));
        match self.rng.below(16) {
            0 => tiles.push([n as u8, 255][self.rng.below(2) as usize]),
            1 => tiles.extend(vec![0; self.rng.below(300) as usize]),
            _ => {}
        }
        self.rng.shuffle(&mut tiles);
        self.rank_bytes(n, r, lat, &tiles);

        let len = lat.map_or(7, |l| l.len());
        let idx = match self.rng.below(16) {
            0 => len + self.rng.below(3) as usize,
            1 => [usize::MAX, 1 << 32, (1 << 32) + 1, len - 1][self.rng.below(4) as usize],
            _ => self.rng.below(len as u64) as usize,
        };
        let mut out: Vec<u8> = (0..n0).map(|_| self.rng.next() as u8).collect();
        if self.rng.chance(16) {
            out = other_length(&mut self.rng, &out, 9);
        }
        self.unrank(n, r, lat, idx, &out);
    }

    // tiles as ascending letters with their counts, at times with counts of 0
    pub fn sparse(&mut self, n: usize, r: usize) -> (usize, Vec<u8>, Vec<u8>) {
        let s = self.rng.below(r as u64 + 1) as usize;
        let tally = self.tally(n, s);
        let zeros = self.rng.chance(4);
        let (letters, counts) = (0..n).filter(|&t| zeros || tally[t] > 0).map(|t| (t as u8, tally[t])).unzip();
        (s, letters, counts)
    }

    pub fn tables(&mut self, n: usize, r: usize) {
        const NOTHING: Part = Part { start: 0, len: 0 };
        let lat = MultisetLattice::new(n, r).unwrap();
        let original = add_table(&lat, true);
        let rows = lat.full_rack_start();
        let size = rows * n;
        let add: Vec<u32> = (0..size).map(|i| original.add(i / n, i % n) as u32).collect();
        let letters: Vec<u32> = (0..n).flat_map(|t| original.letter(t).unwrap().to_vec()).collect();
        let fill: Vec<u32> = (0..size).map(|_| self.rng.next() as u32).collect();
        self.fill_add(n, r, 0, &fill, &add);
        self.fill_by_letter(n, r, 0, [&add, &fill, &letters]);
        for t in 0..n {
            self.letter(n, r, By::Original, &letters, t, Part { start: t * rows, len: rows });
        }
        let other = other_length(&mut self.rng, &fill, 7);
        self.fill_add(n, r, 2, &other, &other);
        self.fill_by_letter(n, r, 2, [&add, &other, &other]);
        let short = other_length(&mut self.rng, &add, 7);
        self.fill_by_letter(n, r, 2, [&short, &fill, &fill]);
        let other = other_length(&mut self.rng, &letters, 7);
        if !other.is_empty() {
            self.letter(n, r, By::Document, &other, 0, NOTHING);
        }
        for t in [0, n - 1, n, usize::MAX] {
            self.letter(n, r, By::Document, &[], t, NOTHING);
        }
        for t in [n, n + 1, 1 << 32, usize::MAX] {
            self.letter(n, r, By::Document, &letters, t, NOTHING);
        }
        // tables with one entry wrong, and in the other order
        for _ in 0..8 {
            let mut bad = add.clone();
            damage(&mut self.rng, &mut bad);
            self.fill_by_letter(n, r, 6, [&bad, &fill, &fill]);
            let mut bad = letters.clone();
            damage(&mut self.rng, &mut bad);
            let t = self.rng.below(n as u64) as usize;
            self.letter(n, r, By::Document, &bad, t, NOTHING);
        }
        if add != letters {
            self.fill_by_letter(n, r, 6, [&letters, &fill, &fill]);
            self.letter(n, r, By::Document, &add, 0, NOTHING);
        }
    }

    fn any_placed(&mut self, n: usize, r: usize) -> Placed {
        let mut p = inputs::placed(&mut self.rng, n, r, true);
        match self.rng.below(24) {
            0 => p.letters.push(1),
            1 => p.drops.push(0),
            2 if !p.letters.is_empty() => p.letters[0] = [0, n as u8, 255][self.rng.below(3) as usize],
            3 => p.score = [MOST + 1, -MOST - 1, i32::MIN, i32::MAX][self.rng.below(4) as usize],
            4 if !p.drops.is_empty() => p.drops[0] = [MOST_DROP + 1, -MOST_DROP - 1, i32::MIN][self.rng.below(3) as usize],
            _ => {}
        }
        p
    }

    // so many racks on a random board
    pub fn board(&mut self, l: &Listed, racks: u64) {
        let (n, r, len) = (l.m.n, l.m.r, l.m.len());
        let both = Some((&l.lat, &l.m));
        let (sheet_kind, leave_kind, pool_kind) = (self.rng.below(8), self.rng.below(8), self.rng.below(6));
        let mut sheet = values(&mut self.rng, len, sheet_kind);
        let mut leave = values(&mut self.rng, len, leave_kind);
        let out: Vec<i32> = (0..len).map(|_| self.rng.next() as i32).collect();
        // at times an entry beyond the limit, which some racks depend on
        if self.rng.chance(3) {
            let at = self.rng.below(len as u64) as usize;
            let v = [MOST + 1, -MOST - 1, i32::MIN, i32::MAX][self.rng.below(4) as usize];
            (if self.rng.chance(2) { &mut sheet } else { &mut leave })[at] = v;
        }
        self.best_table(n, r, both, [&sheet, &leave, &out]);
        let wild: Vec<i32> = (0..len).map(|_| inputs::wild(&mut self.rng)).collect();
        for _ in 0..racks {
            let tally = self.any_tally(n, r);
            self.best_of(n, r, both, [&sheet, &leave], &tally);
            let mut kept: Vec<u8> = (0..n).map(|_| self.rng.next() as u8).collect();
            if self.rng.chance(16) {
                kept = other_length(&mut self.rng, &kept, 9);
            }
            self.naive(n, r, both, [&sheet, &leave], &tally, &kept);
            let keep =
                if self.rng.chance(8) { usize::MAX - self.rng.below(2) as usize } else { self.rng.below(r as u64 + 2) as usize };
            let table = if self.rng.chance(4) { &wild } else { &leave };
            self.keep(n, r, both, table, &tally, keep);
            let p = self.any_placed(n, r);
            let unseen = pool(&mut self.rng, n, r, pool_kind);
            let sheet = if self.rng.chance(4) { &wild } else { &sheet };
            self.blanks(n, r, both, sheet, &p, &unseen);
        }
        // slices of other lengths
        let (short_sheet, short_leave) = (other_length(&mut self.rng, &sheet, 1), other_length(&mut self.rng, &leave, 1));
        let short_out = other_length(&mut self.rng, &out, 1);
        let tally = self.any_tally(n, r);
        self.best_table(n, r, both, [&short_sheet, &leave, &out]);
        self.best_table(n, r, both, [&sheet, &short_leave, &out]);
        self.best_table(n, r, both, [&sheet, &leave, &short_out]);
        self.best_of(n, r, both, [&short_sheet, &leave], &tally);
        self.best_of(n, r, both, [&sheet, &short_leave], &tally);
        let kept = vec![7; n];
        self.naive(n, r, both, [&short_sheet, &leave], &tally, &kept);
        self.naive(n, r, both, [&sheet, &short_leave], &tally, &kept);
        self.keep(n, r, both, &short_leave, &tally, 1);
        let p = inputs::placed(&mut self.rng, n, r, true);
        let unseen = pool(&mut self.rng, n, r, pool_kind);
        let short_unseen = other_length(&mut self.rng, &unseen, 1);
        self.blanks(n, r, both, &short_sheet, &p, &unseen);
        self.blanks(n, r, both, &sheet, &p, &short_unseen);
    }

    // a lattice's two tables of ranks, the second at times empty; where `spoilt`, of another length or with an entry wrong
    fn ranks_of(&mut self, l: &Listed, spoilt: bool) -> [Vec<u32>; 2] {
        let mut tables = [l.add.clone(), if self.rng.chance(2) { l.letters.clone() } else { vec![] }];
        if spoilt {
            let which = self.rng.below(2) as usize;
            if self.rng.chance(3) || tables[which].is_empty() {
                tables[which] = other_length(&mut self.rng, &tables[which], 7);
            } else {
                damage(&mut self.rng, &mut tables[which]);
            }
        }
        tables
    }

    // the subset maximum of any i32
    pub fn subsets(&mut self, l: &Listed) {
        let (n, r, len) = (l.m.n, l.m.r, l.m.len());
        let kind = self.rng.below(8);
        let mut src = match self.rng.below(3) {
            0 => (0..len).map(|_| self.rng.next() as i32).collect(),
            1 => (0..len).map(|_| inputs::wild(&mut self.rng)).collect(),
            _ => values(&mut self.rng, len, kind),
        };
        let mut dst: Vec<i32> = (0..len).map(|_| self.rng.next() as i32).collect();
        let spoilt = self.rng.chance(3);
        let [add, letters] = self.ranks_of(l, spoilt);
        match self.rng.below(12) {
            0 => src = other_length(&mut self.rng, &src, 1),
            1 => dst = other_length(&mut self.rng, &dst, 1),
            _ => {}
        }
        self.subset(n, r, Some(l), [&add, &letters], [&src, &dst]);
    }

    // one entry, at times two, that is not +0.0
    fn dirty(&mut self, sums: &mut [f64]) {
        let at = self.rng.below(sums.len() as u64) as usize;
        sums[at] = [1.0, -0.0, f64::NAN, f64::from_bits(1), f64::NEG_INFINITY][self.rng.below(5) as usize];
    }

    // something wrong with what the fused sums are lent
    fn spoil(&mut self, f: &mut Fuse, w: &mut Written, l: &Listed) {
        let rng = &mut self.rng;
        let any = |rng: &mut Rng, len: usize| rng.below(len as u64) as usize;
        match rng.below(18) {
            0 => f.sheet = other_length(rng, &f.sheet, 1),
            1 => f.leave = other_length(rng, &f.leave, 1),
            2 => f.leave_max = other_length(rng, &f.leave_max, 1),
            3 => f.pool = other_length(rng, &f.pool, 1),
            4 => w.num = other_length(rng, &w.num, 0.0),
            5 => w.den = other_length(rng, &w.den, 0.0),
            6 => w.ways = other_length(rng, &w.ways, 0.0),
            7 => w.maxsheet = other_length(rng, &w.maxsheet, 1),
            8 | 9 => [f.add, f.letters] = self.ranks_of(l, true),
            10 | 11 => {
                let v = [MOST + 1, -MOST - 1, i32::MIN, i32::MAX][any(rng, 4)];
                let table = if rng.chance(2) { &mut f.sheet } else { &mut f.leave };
                if !table.is_empty() {
                    let at = any(rng, table.len());
                    table[at] = v;
                }
            }
            // leave_max of an older leave, or one entry off
            12 => {
                let mut older = l.m.list.iter().map(|_| rng.between(-20, 60) as i32).collect::<Vec<i32>>();
                let at = any(rng, older.len());
                older[at] += 1;
                f.leave_max = l.m.subset_max(&older);
            }
            13 if !f.leave_max.is_empty() => {
                let at = any(rng, f.leave_max.len());
                f.leave_max[at] += [1, -1][any(rng, 2)];
            }
            14 if !f.sheet.is_empty() => {
                let at = if rng.chance(2) { 0 } else { any(rng, f.sheet.len()) };
                f.sheet[at] = [-1, 1][any(rng, 2)];
            }
            15 if !w.num.is_empty() => self.dirty(&mut w.num),
            16 if !w.den.is_empty() => self.dirty(&mut w.den),
            17 if !w.ways.is_empty() => self.dirty(&mut w.ways),
            _ => {}
        }
    }

    fn written(&mut self, l: &Listed) -> Written {
        let (lo, len) = (l.m.lo(), l.m.len());
        let maxsheet = (0..len).map(|_| self.rng.next() as i32).collect();
        Written { num: vec![0.0; lo], den: vec![0.0; lo], ways: vec![0.0; len - lo], maxsheet }
    }

    // the fused sums of a random board in all eight settings, with and without the letter table; as many calls again with something wrong
    pub fn fuse_board(&mut self, l: &Listed) {
        let (n, r, len) = (l.m.n, l.m.r, l.m.len());
        let (sheet_kind, leave_kind, pool_kind) = (self.rng.below(8), self.rng.below(8), self.rng.below(6));
        let mut sheet = values(&mut self.rng, len, sheet_kind);
        let leave = values(&mut self.rng, len, leave_kind);
        let leave_max = l.m.subset_max(&leave);
        let pool = pool(&mut self.rng, n, r, pool_kind);
        let words = self.rng.chance(2);
        if words {
            sheet.iter_mut().for_each(|v| *v = (*v).max(0));
            sheet[0] = 0;
        }
        for flags in 0..8 {
            for letters in [vec![], l.letters.clone()] {
                let (sheet, leave, leave_max, pool) = (sheet.clone(), leave.clone(), leave_max.clone(), pool.clone());
                let mut f = Fuse { add: l.add.clone(), letters, sheet, leave, leave_max, pool, mode: Mode::of(flags) };
                let mut w = self.written(l);
                self.fused(n, r, Some(l), &f, &w);
                for _ in 0..1 + self.rng.below(2) {
                    self.spoil(&mut f, &mut w, l);
                }
                self.fused(n, r, Some(l), &f, &w);
            }
        }
    }

    // the table sums and draws over any bests; the leave part of a best table is not read
    pub fn best_sums(&mut self, l: &Listed) {
        let (n, r, lo, len) = (l.m.n, l.m.r, l.m.lo(), l.m.len());
        let (kind, pool_kind) = (self.rng.below(9), self.rng.below(6));
        let mut best =
            if kind == 8 { (0..len).map(|_| self.rng.next() as i32).collect() } else { values(&mut self.rng, len, kind) };
        best[..lo].fill(i32::MIN);
        let mut pool = pool(&mut self.rng, n, r, pool_kind);
        for i in lo..len {
            if !l.m.drawable(&l.m.list[i], &pool) && self.rng.chance(2) {
                best[i] = i32::MIN;
            }
        }
        let (mut num, mut den) = (vec![0.0; len], vec![0.0; len]);
        self.table_sums(n, r, Some(l), &best, &pool, [&num, &den]);
        for _ in 0..4 {
            let idx = self.rng.below(len as u64) as usize;
            let draw = r - model::total(&l.m.list[idx]);
            self.draw(n, r, Some(l), &l.add, &best, &pool, [idx, draw]);
        }
        // something wrong, at times two things
        let mut add = l.add.clone();
        let mut idx = self.rng.below(len as u64) as usize;
        let mut draw = r - model::total(&l.m.list[idx]);
        for _ in 0..1 + self.rng.below(2) {
            let rng = &mut self.rng;
            match rng.below(10) {
                0 => best = other_length(rng, &best, 1),
                1 => pool = other_length(rng, &pool, 1),
                2 => {
                    num = other_length(rng, &num, 0.0);
                    add = other_length(rng, &add, 1);
                }
                3 => den = other_length(rng, &den, 0.0),
                4 if !num.is_empty() => self.dirty(&mut num),
                5 if !den.is_empty() => self.dirty(&mut den),
                6 if !add.is_empty() => damage(rng, &mut add),
                7 => idx = [len, len + 1, usize::MAX, 1 << 32][rng.below(4) as usize],
                8 => draw = [draw.wrapping_add(1), draw.wrapping_sub(1), r, usize::MAX][rng.below(4) as usize],
                _ => pool.fill(255),
            }
        }
        self.table_sums(n, r, Some(l), &best, &pool, [&num, &den]);
        self.draw(n, r, Some(l), &add, &best, &pool, [idx, draw]);
    }

    // weights at the limit and one beyond: a pool of so many tiles that a greatest best within i32 meets it
    pub fn weights(&mut self, l: &Listed) {
        let (n, r, len) = (l.m.n, l.m.r, l.m.len());
        let most = |tiles: usize| EXACT / model::binom(tiles as u128, r as u128).max(1);
        let tiles: Vec<usize> = (0..=255 * n).filter(|&k| (16..=MOST as u128).contains(&most(k))).collect();
        if tiles.is_empty() {
            return;
        }
        let k = tiles[self.rng.below(tiles.len() as u64) as usize];
        let mut pool = vec![0u8; n];
        for _ in 0..k {
            let at = self.rng.below(n as u64) as usize;
            let free = (0..n).map(|i| (at + i) % n).find(|&t| pool[t] < 255).unwrap();
            pool[free] += 1;
        }
        let rack = (l.m.lo()..len).filter(|&i| l.m.drawable(&l.m.list[i], &pool)).max().unwrap();
        for extra in 0..2 {
            let v = (most(k) as i32) + extra;
            let part = self.rng.between(0, v as i64) as i32;
            let (mut sheet, mut leave, mut best) = (vec![0; len], vec![0; len], vec![0; len]);
            sheet[rack] = v - part;
            leave[0] = [part, -part][self.rng.below(2) as usize];
            best[rack] = [v, -v][self.rng.below(2) as usize];
            let leave_max = l.m.subset_max(&leave);
            for flags in 0..8 {
                let [add, letters] = self.ranks_of(l, false);
                let (sheet, leave, leave_max, pool) = (sheet.clone(), leave.clone(), leave_max.clone(), pool.clone());
                let f = Fuse { add, letters, sheet, leave, leave_max, pool, mode: Mode::of(flags) };
                let w = self.written(l);
                self.fused(n, r, Some(l), &f, &w);
            }
            self.table_sums(n, r, Some(l), &best, &pool, [&vec![0.0; len], &vec![0.0; len]]);
            self.draw(n, r, Some(l), &l.add, &best, &pool, [0, r]);
        }
    }

    // every call on sizes that are refused: 1, whatever else is wrong
    pub fn refused(&mut self, n: usize, r: usize) {
        self.sizes(n, r);
        for _ in 0..50 {
            self.ranks(n, r, None);
        }
        let (words, ranks, tally) = ([MOST + 1, 0], [1u32, 2], [1u8, 255]);
        for k in 0..3 {
            let (words, ranks, tally) = (&words[..k], &ranks[..k], &tally[..k]);
            self.fill_add(n, r, 1, ranks, ranks);
            self.fill_by_letter(n, r, 1, [&[], ranks, ranks]);
            self.letter(n, r, By::Document, ranks, k, Part { start: 0, len: 0 });
            self.best_of(n, r, None, [words, &[0]], tally);
            self.best_table(n, r, None, [words, &[0], words]);
            self.keep(n, r, None, words, tally, k);
            self.naive(n, r, None, [words, &[0]], tally, tally);
            self.subset(n, r, None, [ranks, &[]], [words, words]);
            let sums = &[1.0, -0.0][..k];
            self.table_sums(n, r, None, words, tally, [sums, &[]]);
            self.draw(n, r, None, ranks, words, tally, [0, k]);
            let f = Fuse {
                add: ranks.to_vec(),
                letters: vec![9],
                sheet: words.to_vec(),
                leave: vec![0],
                leave_max: vec![],
                pool: tally.to_vec(),
                mode: Mode::of(k as u8),
            };
            let w = Written { num: sums.to_vec(), den: vec![], ways: sums.to_vec(), maxsheet: words.to_vec() };
            self.fused(n, r, None, &f, &w);
            let p = Placed { score: MOST + 1, letters: tally.to_vec(), drops: words.to_vec(), blanks: 1 };
            self.blanks(n, r, None, words, &p, tally);
        }
    }
}
