// Each call of the port on one input, held against the original where it is accepted, and against the model where it is refused. Every slice
// is lent between guard entries.
use crate::Agree;
use oracle::calls;
use oracle::census::*;
use oracle::inputs::Placed;
use oracle::model::{self, Lattice, NONE, UNPLAYABLE};
use port::lent::Lent;
use port::report::By;
use port::{Equity, Leave, Part, Play, Rank};

// the original's lattice, and the model's; none where the sizes are refused
pub type Both<'a> = Option<(&'a MultisetLattice, &'a Lattice)>;

fn ranked(number: u8, value: u32) -> Rank {
    Rank { number, value: if number == 0 { value } else { NONE } }
}

impl Agree {
    // ---- sizes and starts

    pub fn sizes(&mut self, n: usize, r: usize) {
        let no = model::sizes_number(n, r);
        let lat = (no == 0).then(|| MultisetLattice::new(n, r).unwrap());
        let by = if no == 0 { By::Original } else { By::Document };
        let (len, lo) = lat.as_ref().map_or((0, 0), |l| (l.len(), l.full_rack_start()));
        let input = || format!("n {n} r {r}");
        self.report.compare("len", by, true, &port::len(n, r), &ranked(no, len as u32), input);
        self.report.compare("full_rack_start", by, true, &port::full_rack_start(n, r), &ranked(no, lo as u32), input);
        let beyond = [r.wrapping_add(2), r.wrapping_add(3), 1 << 32, usize::MAX];
        for s in (0..=r.min(17) + 1).chain(beyond) {
            let no = model::size_start_number(n, r, s as u64);
            let by = if no == 0 { By::Original } else { By::Document };
            let at = if no == 0 { lat.as_ref().unwrap().size_start(s) } else { 0 };
            let got = port::size_start(n, r, s);
            self.report.compare("size_start", by, true, &got, &ranked(no, at as u32), || format!("n {n} r {r} s {s}"));
        }
    }

    // ---- ranks

    pub fn rank(&mut self, n: usize, r: usize, lat: Option<&MultisetLattice>, tally: &[u8]) {
        let no = model::rank_number(n, r, tally);
        let (by, at) = match lat {
            Some(lat) if no == 0 => (By::Original, lat.rank(tally)),
            _ => (By::Document, 0),
        };
        let mut t = Lent::new(tally);
        let got = port::rank(n, r, t.now());
        self.report.compare("rank", by, t.untouched(), &got, &ranked(no, at), || format!("n {n} r {r} {tally:?}"));
    }

    pub fn rank_sparse(&mut self, n: usize, r: usize, lat: Option<&MultisetLattice>, s: usize, letters: &[u8], counts: &[u8]) {
        let no = model::sparse_number(n, r, s as u64, letters, counts);
        let (by, at) = match lat {
            Some(lat) if no == 0 => {
                let items: Vec<(u8, u8)> = letters.iter().copied().zip(counts.iter().copied()).collect();
                (By::Original, lat.rank_sparse(s, &items))
            }
            _ => (By::Document, 0),
        };
        let (mut l, mut c) = (Lent::new(letters), Lent::new(counts));
        let got = port::rank_sparse(n, r, s, l.now(), c.now());
        let kept = l.untouched() && c.untouched();
        let input = || format!("n {n} r {r} s {s} letters {letters:?} counts {counts:?}");
        self.report.compare("rank_sparse", by, kept, &got, &ranked(no, at), input);
    }

    pub fn rank_bytes(&mut self, n: usize, r: usize, lat: Option<&MultisetLattice>, tiles: &[u8]) {
        let no = model::bytes_number(n, r, tiles);
        let (by, at) = match lat {
            Some(lat) if no == 0 => (By::Original, lat.rank_bytes(tiles)),
            _ => (By::Document, 0),
        };
        let mut t = Lent::new(tiles);
        let got = port::rank_bytes(n, r, t.now());
        self.report.compare("rank_bytes", by, t.untouched(), &got, &ranked(no, at), || format!("n {n} r {r} {tiles:?}"));
    }

    pub fn unrank(&mut self, n: usize, r: usize, lat: Option<&MultisetLattice>, idx: usize, out: &[u8]) {
        let no = model::unrank_number(n, r, idx as u64, out.len());
        let mut want = out.to_vec();
        let by = match lat {
            Some(lat) if no == 0 => {
                lat.unrank_into(idx, &mut want);
                By::Original
            }
            _ => By::Document,
        };
        let mut o = Lent::new(out);
        let got = port::unrank_into(n, r, idx, o.now());
        let input = || format!("n {n} r {r} index {idx}, {} entries", out.len());
        self.report.compare("unrank_into", by, true, &(got, o.after()), &(no, Some(&want[..])), input);
    }

    // ---- Pascal's rows

    pub fn pascal(&mut self, rows: usize, len: usize) {
        let no = model::pascal_number(rows as u64, len);
        let out: Vec<u64> = (0..len).map(|_| self.rng.next()).collect();
        let (by, want) = if no == 0 { (By::Original, calls::pascal(rows)) } else { (By::Document, out.clone()) };
        let mut o = Lent::new(&out);
        let got = port::pascal_rows(rows, o.now());
        let input = || format!("{rows} rows, {len} entries");
        self.report.compare("pascal_rows", by, true, &(got, o.after()), &(no, Some(&want[..])), input);
    }

    // ---- tables of ranks

    pub fn fill_add(&mut self, n: usize, r: usize, no: u8, add: &[u32], want: &[u32]) {
        let by = if no == 0 { By::Original } else { By::Document };
        let mut a = Lent::new(add);
        let got = port::fill_add(n, r, a.now());
        let input = || format!("n {n} r {r}, {} entries", add.len());
        self.report.compare("fill_add", by, true, &(got, a.after()), &(no, Some(want)), input);
    }

    pub fn fill_by_letter(&mut self, n: usize, r: usize, no: u8, [add, table, want]: [&[u32]; 3]) {
        let by = if no == 0 { By::Original } else { By::Document };
        let (mut a, mut t) = (Lent::new(add), Lent::new(table));
        let got = port::fill_by_letter(n, r, a.now(), t.now());
        let input = || format!("n {n} r {r}, {} and {} entries", add.len(), table.len());
        self.report.compare("fill_by_letter", by, a.untouched(), &(got, t.after()), &(no, Some(want)), input);
    }

    // the part itself, and its entries
    pub fn letter(&mut self, n: usize, r: usize, by: By, table: &[u32], letter: usize, want: Part) {
        let mut t = Lent::new(table);
        let got = port::letter(n, r, t.now(), letter);
        let input = || format!("n {n} r {r}, {} entries, letter {letter}", table.len());
        self.report.compare("letter", by, t.untouched(), &got, &want, input);
    }

    // ---- best plays

    pub fn best_of(&mut self, n: usize, r: usize, both: Both, [sheet, leave]: [&[i32]; 2], tally: &[u8]) {
        let want = both.map_or(Err(1), |(_, m)| m.naive(sheet, leave, tally).map(|x| x.0));
        let (by, want) = match (both, want) {
            (Some((lat, _)), Ok(_)) => (By::Original, Equity { number: 0, value: best_equity_of(lat, sheet, leave, tally) }),
            (_, Ok(value)) => (By::Document, Equity { number: 0, value }),
            (_, Err(number)) => (By::Document, Equity { number, value: UNPLAYABLE }),
        };
        let (mut s, mut l, mut t) = (Lent::new(sheet), Lent::new(leave), Lent::new(tally));
        let got = port::best_equity_of(n, r, s.now(), l.now(), t.now());
        let kept = s.untouched() && l.untouched() && t.untouched();
        let input = || format!("n {n} r {r}, {} and {} entries, {tally:?}", sheet.len(), leave.len());
        self.report.compare("best_equity_of", by, kept, &got, &want, input);
    }

    pub fn naive(&mut self, n: usize, r: usize, both: Both, [sheet, leave]: [&[i32]; 2], tally: &[u8], kept: &[u8]) {
        let want = match both {
            None => Err(1),
            Some(_) if kept.len() != n => Err(2),
            Some((_, m)) => m.naive(sheet, leave, tally),
        };
        let (mut s, mut l, mut t, mut k) = (Lent::new(sheet), Lent::new(leave), Lent::new(tally), Lent::new(kept));
        let got = port::naive_best_equity(n, r, s.now(), l.now(), t.now(), k.now());
        let untouched = s.untouched() && l.untouched() && t.untouched();
        let input = || format!("n {n} r {r}, {} and {} entries, {tally:?}, {} counts", sheet.len(), leave.len(), kept.len());
        let got = (got, k.after().map(<[u8]>::to_vec));
        let call = "naive_best_equity";
        match want {
            Ok((value, rest, word)) => {
                // the kind is that of docs/SCOPE.md
                let kind = if word { 1 } else { 2 };
                let play = |value, rest| (Play { number: 0, kind, value }, Some(rest));
                let (best, letters) = calls::naive(both.unwrap().0, sheet, leave, tally);
                self.report.compare(call, By::Original, untouched, &got, &play(best, letters), input);
                self.report.compare(call, By::Document, untouched, &got, &play(value, rest), input);
            }
            Err(number) => {
                let want = (Play { number, kind: 0, value: UNPLAYABLE }, Some(kept.to_vec()));
                self.report.compare(call, By::Document, untouched, &got, &want, input);
            }
        }
    }

    pub fn best_table(&mut self, n: usize, r: usize, both: Both, [sheet, leave, out]: [&[i32]; 3]) {
        let mut want = out.to_vec();
        let no = both.map_or(1, |(_, m)| m.best_table_number(sheet, leave, out.len()));
        let by = match both {
            Some((lat, _)) if no == 0 => {
                best_equity_table(lat, sheet, leave, &mut want);
                By::Original
            }
            _ => By::Document,
        };
        let (mut s, mut l, mut o) = (Lent::new(sheet), Lent::new(leave), Lent::new(out));
        let got = port::best_equity_table(n, r, s.now(), l.now(), o.now());
        let kept = s.untouched() && l.untouched();
        let input = || format!("n {n} r {r}, {}, {} and {} entries", sheet.len(), leave.len(), out.len());
        self.report.compare("best_equity_table", by, kept, &(got, o.after()), &(no, Some(&want[..])), input);
    }

    pub fn keep(&mut self, n: usize, r: usize, both: Both, leave: &[i32], tally: &[u8], keep: usize) {
        let number = both.map_or(Some(1), |(_, m)| m.keep(leave, tally, keep as u64).err()).unwrap_or(0);
        // the original tests lengths and sums too
        let (by, (value, rank)) = match both {
            Some((lat, _)) => (By::Original, best_keep_of(lat, leave, tally, keep)),
            None => (By::Document, (UNPLAYABLE, NONE)),
        };
        let (mut l, mut t) = (Lent::new(leave), Lent::new(tally));
        let got = port::best_keep_of(n, r, l.now(), t.now(), keep);
        let kept = l.untouched() && t.untouched();
        let input = || format!("n {n} r {r}, {} entries, {tally:?}, keep {keep}", leave.len());
        self.report.compare("best_keep_of", by, kept, &got, &Leave { number, value, rank }, input);
    }

    // ---- blank variants

    pub fn blanks(&mut self, n: usize, r: usize, both: Both, sheet: &[i32], p: &Placed, unseen: &[u8]) {
        let (mut raised, mut letters, mut drops) = (sheet.to_vec(), p.letters.clone(), p.drops.clone());
        let no = both.map_or(1, |(_, m)| m.blanks_number(sheet, p.score, &letters, &drops, unseen));
        let by = match both {
            Some((lat, _)) if no == 0 => {
                let mut placed: Vec<(u8, i32)> = letters.iter().copied().zip(drops.iter().copied()).collect();
                record_blank_variants(lat, &mut raised, p.score, &mut placed, unseen, p.blanks as usize);
                (letters, drops) = placed.into_iter().unzip();
                By::Original
            }
            _ => By::Document,
        };
        let (mut s, mut l, mut d, mut u) = (Lent::new(sheet), Lent::new(&p.letters), Lent::new(&p.drops), Lent::new(unseen));
        let got = port::record_blank_variants(n, r, s.now(), p.score, l.now(), d.now(), u.now(), p.blanks as usize);
        let got = (got, s.after(), l.after(), d.after());
        let want = (no, Some(&raised[..]), Some(&letters[..]), Some(&drops[..]));
        let input = || format!("n {n} r {r}, {} entries, {p:?}, unseen {unseen:?}", sheet.len());
        self.report.compare("record_blank_variants", by, u.untouched(), &got, &want, input);
    }
}
