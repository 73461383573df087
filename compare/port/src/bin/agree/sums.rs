// The subset maximum, the sums and the draws on one input: where accepted, against the original and the model; where refused, against the
// model. Every slice is lent between guard entries, and sums are compared by all bits.
use crate::Agree;
use oracle::calls::{self, add_table};
use oracle::census::*;
use oracle::model::{self, Answer, Lattice, Mode, UNPLAYABLE};
use port::Equity;
use port::lent::Lent;
use port::report::By;

// a lattice that can be listed: the original's with its tables of ranks, without and with the letter table, and the model's with both tables
pub struct Listed {
    pub lat: MultisetLattice,
    pub m: Lattice,
    tables: [AddTable; 2],
    pub add: Vec<u32>,
    pub letters: Vec<u32>,
}

impl Listed {
    pub fn new(n: usize, r: usize) -> Self {
        let lat = MultisetLattice::new(n, r).unwrap();
        let tables = [add_table(&lat, false), add_table(&lat, true)];
        let m = Lattice::new(n, r);
        let (add, letters) = (m.add_table(), m.letter_table());
        Self { lat, m, tables, add, letters }
    }

    // the lengths of two tables of ranks; no letter table is accepted
    fn long(&self, [add, letters]: [&[u32]; 2]) -> bool {
        add.len() == self.add.len() && (letters.is_empty() || letters.len() == self.letters.len())
    }

    fn right(&self, [add, letters]: [&[u32]; 2]) -> bool {
        add == self.add && (letters.is_empty() || letters == self.letters)
    }

    fn table(&self, letters: &[u32]) -> &AddTable {
        &self.tables[!letters.is_empty() as usize]
    }
}

// none where the sizes are refused
pub type On<'a> = Option<&'a Listed>;

fn clear(sums: &[f64]) -> bool {
    sums.iter().all(|x| x.to_bits() == 0)
}

fn bits(sums: &[f64]) -> Vec<u64> {
    sums.iter().map(|x| x.to_bits()).collect()
}

// whole numbers as the bits of f64
fn whole(sums: &[i128]) -> Vec<u64> {
    sums.iter().map(|&x| (x as f64).to_bits()).collect()
}

// the refusal, unless one with a lower number is there
fn unless_lower<T>(answer: Answer<T>, number: u8) -> Answer<T> {
    Err(answer.err().map_or(number, |k| k.min(number)))
}

// what the fused sums read
#[derive(Clone)]
pub struct Fuse {
    pub add: Vec<u32>,
    pub letters: Vec<u32>,
    pub sheet: Vec<i32>,
    pub leave: Vec<i32>,
    pub leave_max: Vec<i32>,
    pub pool: Vec<u8>,
    pub mode: Mode,
}

// and what they write
#[derive(Clone)]
pub struct Written {
    pub num: Vec<f64>,
    pub den: Vec<f64>,
    pub ways: Vec<f64>,
    pub maxsheet: Vec<i32>,
}

type Fused = (u8, [Option<Vec<u64>>; 3], Option<Vec<i32>>);

fn fused(number: u8, [num, den, ways]: [Vec<u64>; 3], maxsheet: Vec<i32>) -> Fused {
    (number, [Some(num), Some(den), Some(ways)], Some(maxsheet))
}

impl Agree {
    pub fn subset(&mut self, n: usize, r: usize, on: On, tables: [&[u32]; 2], [src, dst]: [&[i32]; 2]) {
        let want = match on {
            None => Err(1),
            Some(l) if !l.long(tables) || src.len() != l.m.len() || dst.len() != l.m.len() => Err(2),
            Some(l) if !l.right(tables) => Err(6),
            Some(l) => Ok(l),
        };
        let (mut a, mut t, mut s, mut d) = (Lent::new(tables[0]), Lent::new(tables[1]), Lent::new(src), Lent::new(dst));
        let got = port::subset_max_transform(n, r, a.now(), t.now(), s.now(), d.now());
        let got = (got, d.after().map(<[i32]>::to_vec));
        let kept = a.untouched() && t.untouched() && s.untouched();
        let [add, letters] = tables.map(<[u32]>::len);
        let input = || format!("n {n} r {r}, tables of {add} and {letters}, {} and {} entries", src.len(), dst.len());
        let call = "subset_max_transform";
        match want {
            Ok(l) => {
                let mut out = dst.to_vec();
                subset_max_transform(&l.lat, l.table(tables[1]), src, &mut out);
                self.report.compare(call, By::Original, kept, &got, &(0, Some(out)), input);
                self.report.compare(call, By::Document, kept, &got, &(0, Some(l.m.subset_max(src))), input);
            }
            Err(number) => self.report.compare(call, By::Document, kept, &got, &(number, Some(dst.to_vec())), input),
        }
    }

    pub fn table_sums(&mut self, n: usize, r: usize, on: On, best: &[i32], pool: &[u8], [num, den]: [&[f64]; 2]) {
        let want = match on {
            None => Err(1),
            Some(l) if num.len() != l.m.len() || den.len() != l.m.len() => Err(2),
            Some(l) => match l.m.table_sums(best, pool) {
                answer if !clear(num) || !clear(den) => unless_lower(answer, 8),
                answer => answer,
            },
        };
        let (mut b, mut p, mut nu, mut de) = (Lent::new(best), Lent::new(pool), Lent::new(num), Lent::new(den));
        let got = port::apportion_table(n, r, b.now(), p.now(), nu.now(), de.now());
        let got = (got, nu.after().map(bits), de.after().map(bits));
        let kept = b.untouched() && p.untouched();
        let input = || format!("n {n} r {r}, {} bests, pool {pool:?}, {} and {} sums", best.len(), num.len(), den.len());
        let call = "apportion_table";
        match want {
            Ok((sums, counts)) => {
                let (mut a, mut c) = (num.to_vec(), den.to_vec());
                apportion_table(&on.unwrap().lat, best, pool, &mut a, &mut c);
                self.report.compare(call, By::Original, kept, &got, &(0, Some(bits(&a)), Some(bits(&c))), input);
                self.report.compare(call, By::Document, kept, &got, &(0, Some(whole(&sums)), Some(whole(&counts))), input);
            }
            Err(number) => {
                self.report.compare(call, By::Document, kept, &got, &(number, Some(bits(num)), Some(bits(den))), input);
            }
        }
    }

    // the model's answer for any lengths, tables and sums
    fn fused_answer(&self, on: On, f: &Fuse, w: &Written) -> Answer<model::Sums> {
        let Some(l) = on else { return Err(1) };
        let (lo, len) = (l.m.lo(), l.m.len());
        let tables = [&f.add[..], &f.letters[..]];
        if !l.long(tables) || w.num.len() != lo || w.den.len() != lo || w.ways.len() != len - lo {
            return Err(2);
        }
        let mut want = l.m.fused(&f.sheet, &f.leave, &f.leave_max, &f.pool, &w.maxsheet, f.mode);
        if !l.right(tables) {
            want = unless_lower(want, 6);
        }
        if !clear(&w.num) || !clear(&w.den) || !clear(&w.ways) {
            want = unless_lower(want, 8);
        }
        want
    }

    pub fn fused(&mut self, n: usize, r: usize, on: On, f: &Fuse, w: &Written) {
        let want = self.fused_answer(on, f, w);
        let (mut add, mut letters, mut pool) = (Lent::new(&f.add), Lent::new(&f.letters), Lent::new(&f.pool));
        let (mut sheet, mut leave, mut leave_max) = (Lent::new(&f.sheet), Lent::new(&f.leave), Lent::new(&f.leave_max));
        let (mut num, mut den, mut ways) = (Lent::new(&w.num), Lent::new(&w.den), Lent::new(&w.ways));
        let mut maxsheet = Lent::new(&w.maxsheet);
        let number = port::apportion_fused(
            n,
            r,
            add.now(),
            letters.now(),
            sheet.now(),
            leave.now(),
            leave_max.now(),
            pool.now(),
            num.now(),
            den.now(),
            ways.now(),
            maxsheet.now(),
            f.mode.zeta,
            f.mode.null_leave,
            f.mode.scatter,
        );
        let got = (number, [&num, &den, &ways].map(|x| x.after().map(bits)), maxsheet.after().map(<[i32]>::to_vec));
        let kept = add.untouched()
            && letters.untouched()
            && sheet.untouched()
            && leave.untouched()
            && leave_max.untouched()
            && pool.untouched();
        let input = || format!("n {n} r {r}, {:?}, tables of {} and {}, pool {:?}", f.mode, f.add.len(), f.letters.len(), f.pool);
        let call = "apportion_fused";
        match want {
            Ok(sums) => {
                let exact = fused(0, [&sums.num, &sums.den, &sums.ways].map(|x| whole(x)), sums.maxsheet);
                self.report.compare(call, By::Document, kept, &got, &exact, input);
                // the original panics where scatter is in force at r = 1
                if !(f.mode.scatters() && r == 1) {
                    let l = on.unwrap();
                    let board = ApportionBoard { sheet: &f.sheet, leave: &f.leave, leave_max: &f.leave_max, unseen: &f.pool };
                    let w = w.clone();
                    let mut out = calls::Sums { num: w.num, den: w.den, ways: w.ways, maxsheet: w.maxsheet };
                    calls::fused(&l.lat, l.table(&f.letters), &board, f.mode, &mut out);
                    let original = fused(0, [&out.num, &out.den, &out.ways].map(|x| bits(x)), out.maxsheet);
                    self.report.compare(call, By::Original, kept, &got, &original, input);
                }
            }
            Err(number) => {
                let same = fused(number, [&w.num, &w.den, &w.ways].map(|x| bits(x)), w.maxsheet.clone());
                self.report.compare(call, By::Document, kept, &got, &same, input);
            }
        }
    }

    pub fn draw(&mut self, n: usize, r: usize, on: On, add: &[u32], best: &[i32], pool: &[u8], [idx, draw]: [usize; 2]) {
        let want = match on {
            None => Err(1),
            Some(l) if add.len() != l.add.len() => Err(2),
            Some(l) => match l.m.draw(best, pool, idx as u64, draw as u64) {
                answer if add != l.add => unless_lower(answer, 6),
                answer => answer,
            },
        };
        let (mut a, mut b, mut p) = (Lent::new(add), Lent::new(best), Lent::new(pool));
        let got = port::dynamic_leave_value(n, r, a.now(), b.now(), p.now(), idx, draw);
        let kept = a.untouched() && b.untouched() && p.untouched();
        let input = || format!("n {n} r {r}, table of {}, {} bests, pool {pool:?}, {idx}, draw {draw}", add.len(), best.len());
        let call = "dynamic_leave_value";
        let document = Equity { number: want.err().unwrap_or(0), value: want.unwrap_or(UNPLAYABLE) };
        self.report.compare(call, By::Document, kept, &got, &document, input);
        if want.is_ok() {
            let l = on.unwrap();
            let value = dynamic_leave_value(&l.lat, l.table(&[]), best, pool, idx, draw);
            self.report.compare(call, By::Original, kept, &got, &Equity { number: 0, value }, input);
        }
    }
}
