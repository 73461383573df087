// docs/SCOPE.md written out plainly, independent of the original: ranks by listing every tally, bests by trying every split, sums in whole
// numbers over full racks. Slow; for short lattices. A refused call gives the number of the refusal.
use std::collections::HashMap;

pub const UNPLAYABLE: i32 = -1_073_741_824;
pub const NONE: u32 = 4_294_967_295;
pub const MOST: i32 = 536_870_911;
pub const MOST_DROP: i32 = 16_777_215;
pub const EXACT: u128 = 9_007_199_254_740_992;

// C(n, k), or the largest u128 where a product passes that
pub fn binom(n: u128, k: u128) -> u128 {
    if k > n {
        return 0;
    }
    let k = k.min(n - k);
    let mut c: u128 = 1;
    for i in 0..k {
        c = match c.checked_mul(n - i) {
            Some(x) => x / (i + 1),
            None => return u128::MAX,
        };
    }
    c
}

pub fn sizes_ok(n: u64, r: u64) -> bool {
    (1..=64).contains(&n) && (1..=15).contains(&r) && binom((n + r) as u128, n as u128) <= 4_294_967_294
}

// ---- the numbers of calls on ranks, for any sizes: 0 where accepted

pub fn sizes_number(n: usize, r: usize) -> u8 {
    !sizes_ok(n as u64, r as u64) as u8
}

// the first that applies
fn first(refusals: &[(bool, u8)]) -> u8 {
    refusals.iter().find(|x| x.0).map_or(0, |x| x.1)
}

pub fn size_start_number(n: usize, r: usize, s: u64) -> u8 {
    first(&[(!sizes_ok(n as u64, r as u64), 1), (s > (r as u64).saturating_add(1), 4)])
}

pub fn rank_number(n: usize, r: usize, tally: &[u8]) -> u8 {
    first(&[(!sizes_ok(n as u64, r as u64), 1), (tally.len() != n, 2), (total(tally) > r, 4)])
}

pub fn sparse_number(n: usize, r: usize, s: u64, letters: &[u8], counts: &[u8]) -> u8 {
    let ascend = letters.windows(2).all(|w| w[0] < w[1]);
    let sum = total(counts);
    first(&[
        (!sizes_ok(n as u64, r as u64), 1),
        (letters.len() != counts.len(), 2),
        (!ascend || letters.iter().any(|&l| l as usize >= n), 3),
        (sum > r || sum as u64 != s, 4),
    ])
}

pub fn bytes_number(n: usize, r: usize, tiles: &[u8]) -> u8 {
    first(&[(!sizes_ok(n as u64, r as u64), 1), (tiles.iter().any(|&t| t as usize >= n), 3), (tiles.len() > r, 4)])
}

pub fn unrank_number(n: usize, r: usize, idx: u64, out_len: usize) -> u8 {
    let past = || idx as u128 >= binom((n + r) as u128, n as u128);
    first(&[(!sizes_ok(n as u64, r as u64), 1), (out_len != n, 2), (sizes_ok(n as u64, r as u64) && past(), 4)])
}

pub fn pascal_number(rows: u64, len: usize) -> u8 {
    let size = rows as u128 * (rows as u128 + 1) / 2;
    first(&[(size != len as u128, 2), (!(1..=81).contains(&rows), 4)])
}

fn accept<T>(number: u8, answer: impl FnOnce() -> T) -> Answer<T> {
    if number == 0 { Ok(answer()) } else { Err(number) }
}

// ---- tallies

// every tally of n letters and s tiles, ascending with letter 0 first
fn tallies(n: usize, s: usize, head: &mut Vec<u8>, out: &mut Vec<Vec<u8>>) {
    if n == 0 {
        if s == 0 {
            out.push(head.clone());
        }
        return;
    }
    for c in 0..=s {
        head.push(c as u8);
        tallies(n - 1, s - c, head, out);
        head.pop();
    }
}

// every tally within t, ascending with letter 0 first
pub fn parts(t: &[u8]) -> Vec<Vec<u8>> {
    let mut out = vec![vec![]];
    for &c in t {
        let mut next = Vec::new();
        for p in &out {
            for k in 0..=c {
                let mut q: Vec<u8> = p.clone();
                q.push(k);
                next.push(q);
            }
        }
        out = next;
    }
    out
}

pub fn total(t: &[u8]) -> usize {
    t.iter().map(|&c| c as usize).sum()
}

// the tiles of a tally, letter after letter
pub fn tiles_of(t: &[u8]) -> Vec<u8> {
    t.iter().enumerate().flat_map(|(l, &c)| std::iter::repeat_n(l as u8, c as usize)).collect()
}

// the rank of a tally by the closed form of each letter's share, for lattices too long to list
pub fn rank_formula(tally: &[u8]) -> u32 {
    let n = tally.len() as u128;
    let mut rest = total(tally) as u128;
    let mut at = if rest == 0 { 0 } else { binom(rest + n - 1, n) };
    for (after, &c) in (0..n).rev().zip(tally) {
        at += binom(rest + after, after);
        rest -= c as u128;
        at -= binom(rest + after, after);
    }
    at as u32
}

pub fn minus(t: &[u8], p: &[u8]) -> Vec<u8> {
    t.iter().zip(p).map(|(a, b)| a - b).collect()
}

pub struct Lattice {
    pub n: usize,
    pub r: usize,
    pub list: Vec<Vec<u8>>,
    pub index: HashMap<Vec<u8>, u32>,
    pub start: Vec<usize>,
}

// what a call gives beside its number
pub type Answer<T> = Result<T, u8>;

pub struct Sums {
    pub num: Vec<i128>,
    pub den: Vec<i128>,
    pub ways: Vec<i128>,
    pub maxsheet: Vec<i32>,
}

#[derive(Clone, Copy, Debug)]
pub struct Mode {
    pub zeta: bool,
    pub null_leave: bool,
    pub scatter: bool,
}

impl Mode {
    // bit 0 zeta, bit 1 null_leave, bit 2 scatter
    pub fn of(flags: u8) -> Self {
        Self { zeta: flags & 1 != 0, null_leave: flags & 2 != 0, scatter: flags & 4 != 0 }
    }

    // scatter is in force
    pub fn scatters(self) -> bool {
        self.scatter && self.zeta && !self.null_leave
    }

    pub fn subset_max(self) -> bool {
        self.null_leave && self.zeta
    }
}

impl Lattice {
    // the sizes must be accepted, and the length small
    pub fn new(n: usize, r: usize) -> Self {
        let mut list = Vec::new();
        let mut start = Vec::new();
        for s in 0..=r {
            start.push(list.len());
            tallies(n, s, &mut Vec::new(), &mut list);
        }
        start.push(list.len());
        let index = list.iter().cloned().zip(0..).collect();
        Self { n, r, list, index, start }
    }

    pub fn len(&self) -> usize {
        self.list.len()
    }

    // where full racks start
    pub fn lo(&self) -> usize {
        self.start[self.r]
    }

    pub fn rank(&self, tally: &[u8]) -> Answer<u32> {
        accept(rank_number(self.n, self.r, tally), || self.index[tally])
    }

    pub fn rank_sparse(&self, s: u64, letters: &[u8], counts: &[u8]) -> Answer<u32> {
        accept(sparse_number(self.n, self.r, s, letters, counts), || {
            let mut tally = vec![0u8; self.n];
            for (&l, &c) in letters.iter().zip(counts) {
                tally[l as usize] = c;
            }
            self.index[&tally]
        })
    }

    pub fn rank_bytes(&self, tiles: &[u8]) -> Answer<u32> {
        accept(bytes_number(self.n, self.r, tiles), || {
            let mut tally = vec![0u8; self.n];
            for &t in tiles {
                tally[t as usize] += 1;
            }
            self.index[&tally]
        })
    }

    pub fn unrank(&self, idx: u64, out_len: usize) -> Answer<Vec<u8>> {
        accept(unrank_number(self.n, self.r, idx, out_len), || self.list[idx as usize].clone())
    }

    pub fn plus(&self, idx: usize, t: usize) -> u32 {
        let mut tally = self.list[idx].clone();
        tally[t] += 1;
        self.index[&tally]
    }

    pub fn add_table(&self) -> Vec<u32> {
        (0..self.lo()).flat_map(|i| (0..self.n).map(move |t| (i, t))).map(|(i, t)| self.plus(i, t)).collect()
    }

    pub fn letter_table(&self) -> Vec<u32> {
        (0..self.n).flat_map(|t| (0..self.lo()).map(move |i| (i, t))).map(|(i, t)| self.plus(i, t)).collect()
    }

    pub fn best_split(&self, sheet: &[i32], leave: &[i32], rack: &[u8]) -> (i64, Vec<u8>) {
        let mut best = (i64::MIN, vec![]);
        for p in parts(rack) {
            let k = minus(rack, &p);
            let v = sheet[self.index[&p] as usize] as i64 + leave[self.index[&k] as usize] as i64;
            if v > best.0 {
                best = (v, p);
            }
        }
        best
    }

    fn split_refusal(&self, sheet: &[i32], leave: &[i32], tally: &[u8]) -> u8 {
        if sheet.len() != self.len() || leave.len() != self.len() || tally.len() != self.n {
            return 2;
        }
        if total(tally) > self.r {
            return 4;
        }
        for p in parts(tally) {
            let at = self.index[&p] as usize;
            if beyond(sheet[at]) || beyond(leave[at]) {
                return 5;
            }
        }
        0
    }

    // the best, the kept tally, whether the move is a word
    pub fn naive(&self, sheet: &[i32], leave: &[i32], tally: &[u8]) -> Answer<(i32, Vec<u8>, bool)> {
        match self.split_refusal(sheet, leave, tally) {
            0 => {
                let (v, p) = self.best_split(sheet, leave, tally);
                Ok((v as i32, minus(tally, &p), sheet[self.index[&p] as usize] > 0))
            }
            k => Err(k),
        }
    }

    pub fn best_table_number(&self, sheet: &[i32], leave: &[i32], out: usize) -> u8 {
        let len = self.len();
        first(&[(sheet.len() != len || leave.len() != len || out != len, 2), (sheet.iter().chain(leave).any(|&v| beyond(v)), 5)])
    }

    pub fn best_table(&self, sheet: &[i32], leave: &[i32], out: &mut [i32]) -> u8 {
        let number = self.best_table_number(sheet, leave, out.len());
        if number == 0 {
            for i in self.lo()..self.len() {
                out[i] = self.best_split(sheet, leave, &self.list[i]).0 as i32;
            }
        }
        number
    }

    pub fn keep(&self, leave: &[i32], tally: &[u8], keep: u64) -> Answer<(i32, u32)> {
        if leave.len() != self.len() || tally.len() != self.n {
            return Err(2);
        }
        if total(tally) > self.r {
            return Err(4);
        }
        let mut best: Option<(i32, u32)> = None;
        for p in parts(tally) {
            let at = self.index[&p];
            let v = leave[at as usize];
            if total(&p) as u64 == keep && v >= UNPLAYABLE {
                best = match best {
                    Some((b, k)) if b > v || (b == v && k < at) => best,
                    _ => Some((v, at)),
                };
            }
        }
        Ok(best.unwrap_or((UNPLAYABLE, NONE)))
    }

    pub fn subset_max(&self, src: &[i32]) -> Vec<i32> {
        self.list.iter().map(|t| parts(t).iter().map(|p| src[self.index[p] as usize]).max().unwrap()).collect()
    }

    pub fn drawable(&self, rack: &[u8], pool: &[u8]) -> bool {
        rack.iter().zip(pool).all(|(c, u)| c <= u)
    }

    pub fn ways(&self, rack: &[u8], pool: &[u8]) -> i128 {
        rack.iter().zip(pool).map(|(&c, &u)| binom(u as u128, c as u128)).product::<u128>() as i128
    }

    pub fn scatter(&self, sheet: &[i32], leave: &[i32], leave_max: &[i32], pool: &[u8]) -> Vec<i32> {
        let mut out = leave_max.to_vec();
        for i in self.lo()..self.len() {
            let rack = &self.list[i];
            for p in parts(rack) {
                let k = minus(rack, &p);
                let s = sheet[self.index[&p] as usize];
                if s > 0 && (0..self.n).all(|t| k[t] <= pool[t].saturating_sub(p[t])) {
                    out[i] = out[i].max(s + leave[self.index[&k] as usize]);
                }
            }
        }
        out
    }

    // sums over full racks that hold each multiset
    fn sums(&self, best: &[i32], pool: &[u8], upto: usize) -> (Vec<i128>, Vec<i128>) {
        let (mut num, mut den) = (vec![0i128; upto], vec![0i128; upto]);
        for i in self.lo()..self.len() {
            let w = self.ways(&self.list[i], pool);
            if w == 0 {
                continue;
            }
            for p in parts(&self.list[i]) {
                let at = self.index[&p] as usize;
                if at < upto {
                    num[at] += w * best[i] as i128;
                    den[at] += w;
                }
            }
        }
        (num, den)
    }

    // 2, 9; the caller judges 8
    pub fn table_sums(&self, best: &[i32], pool: &[u8]) -> Answer<(Vec<i128>, Vec<i128>)> {
        if best.len() != self.len() || pool.len() != self.n {
            return Err(2);
        }
        let m = (self.lo()..self.len())
            .filter(|&i| self.drawable(&self.list[i], pool))
            .map(|i| best[i].unsigned_abs() as u128)
            .max()
            .unwrap_or(0);
        if heavy(total(pool), self.r, m) {
            return Err(9);
        }
        Ok(self.sums(best, pool, self.len()))
    }

    pub fn fused(
        &self,
        sheet: &[i32],
        leave: &[i32],
        leave_max: &[i32],
        pool: &[u8],
        maxsheet: &[i32],
        mode: Mode,
    ) -> Answer<Sums> {
        let len = self.len();
        if sheet.len() != len
            || leave.len() != len
            || maxsheet.len() != len
            || pool.len() != self.n
            || (mode.scatters() && leave_max.len() != len)
        {
            return Err(2);
        }
        if sheet.iter().chain(leave).any(|&v| beyond(v)) {
            return Err(5);
        }
        if mode.scatters() && (sheet.iter().any(|&v| v < 0) || sheet[0] != 0 || leave_max != self.subset_max(leave)) {
            return Err(7);
        }
        if heavy(total(pool), self.r, largest(sheet) + largest(leave)) {
            return Err(9);
        }
        let lo = self.lo();
        let mut best = maxsheet.to_vec();
        if mode.subset_max() {
            best = self.subset_max(sheet);
        } else if mode.scatters() {
            best = self.scatter(sheet, leave, leave_max, pool);
        } else {
            for i in lo..len {
                if self.drawable(&self.list[i], pool) {
                    best[i] = self.best_split(sheet, leave, &self.list[i]).0 as i32;
                }
            }
        }
        let (num, den) = self.sums(&best, pool, lo);
        let ways = self.list[lo..].iter().map(|t| self.ways(t, pool)).collect();
        Ok(Sums { num, den, ways, maxsheet: best })
    }

    pub fn draw(&self, best: &[i32], pool: &[u8], idx: u64, draw: u64) -> Answer<i32> {
        if best.len() != self.len() || pool.len() != self.n {
            return Err(2);
        }
        if idx >= self.len() as u64 || total(&self.list[idx as usize]) as u128 + draw as u128 != self.r as u128 {
            return Err(4);
        }
        let kept = &self.list[idx as usize];
        let (mut num, mut den, mut m) = (0i128, 0i128, 0u128);
        for i in self.lo()..self.len() {
            let rack = &self.list[i];
            if rack.iter().zip(kept).any(|(a, b)| a < b) {
                continue;
            }
            let w = self.ways(&minus(rack, kept), pool);
            if w > 0 {
                m = m.max(best[i].unsigned_abs() as u128);
            }
            num += w * best[i] as i128;
            den += w;
        }
        if heavy(total(pool), draw as usize, m) {
            return Err(9);
        }
        Ok(if den == 0 { UNPLAYABLE } else { (num / den) as i32 })
    }

    pub fn blanks_number(&self, sheet: &[i32], score: i32, letters: &[u8], drops: &[i32], pool: &[u8]) -> u8 {
        first(&[
            (sheet.len() != self.len() || letters.len() != drops.len() || pool.len() != self.n, 2),
            (letters.iter().any(|&l| l == 0 || l as usize >= self.n), 3),
            (beyond(score) || drops.iter().any(|&d| d.unsigned_abs() > MOST_DROP as u32), 5),
        ])
    }

    // the number; sheet, letters and drops are changed where accepted
    pub fn blanks(&self, sheet: &mut [i32], score: i32, letters: &mut [u8], drops: &mut [i32], pool: &[u8], blanks: u64) -> u8 {
        let number = self.blanks_number(sheet, score, letters, drops, pool);
        if number != 0 {
            return number;
        }
        let k = letters.len();
        if k == 0 || k > self.r {
            return 0;
        }
        let mut placed: Vec<(u8, i32)> = letters.iter().copied().zip(drops.iter().copied()).collect();
        placed.sort();
        for (i, &(l, d)) in placed.iter().enumerate() {
            letters[i] = l;
            drops[i] = d;
        }
        for chosen in 0u32..1 << k {
            if chosen.count_ones() as u64 > blanks {
                continue;
            }
            let mut tally = vec![0u8; self.n];
            let mut value = score;
            for (i, &(l, d)) in placed.iter().enumerate() {
                if chosen >> i & 1 == 1 {
                    tally[0] += 1;
                    value -= d;
                } else {
                    tally[l as usize] += 1;
                }
            }
            if (1..self.n).all(|t| tally[t] <= pool[t]) {
                let at = self.index[&tally] as usize;
                sheet[at] = sheet[at].max(value);
            }
        }
        0
    }
}

pub fn beyond(v: i32) -> bool {
    v.unsigned_abs() > MOST as u32
}

pub fn largest(v: &[i32]) -> u128 {
    v.iter().map(|x| x.unsigned_abs()).max().unwrap_or(0) as u128
}

pub fn heavy(tiles: usize, drawn: usize, m: u128) -> bool {
    binom(tiles as u128, drawn as u128).saturating_mul(m.max(16)) > EXACT
}

// rows of Pascal's triangle, each entry capped at the largest u64
pub fn pascal(rows: usize) -> Vec<u64> {
    (0..rows)
        .flat_map(|n| (0..=n).map(move |k| (n, k)))
        .map(|(n, k)| binom(n as u128, k as u128).min(u64::MAX as u128) as u64)
        .collect()
}
