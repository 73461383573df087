// A program over `subject`, the original or this crate, that says all that it is given. Its boards are inside docs/SCOPE.md's domain.
use crate::inputs;
use crate::rng::Rng;
use subject::{AddTable, ApportionBoard, ApportionMode, ApportionOut, MultisetLattice, Pascal, UNPLAYABLE};

pub fn run(boards: u64) -> Vec<String> {
    let mut said = vec![format!("unplayable {UNPLAYABLE}")];
    rows(&mut said);
    for seed in 0..boards {
        let rng = &mut Rng(seed);
        let (n, r) = (rng.between(1, 5) as usize, rng.between(1, 5) as usize);
        said.push(format!("board {seed}: {n} letters, racks of {r}"));
        let lat = MultisetLattice::new(n, r).unwrap();
        let plain = AddTable::new_with_threads(&lat, 1);
        let passes = AddTable::new(&lat).with_letter_passes(2);
        ranks(&mut said, rng, &lat);
        tables(&mut said, &lat, &plain, &passes);
        bests(&mut said, rng, &lat);
        keeps_and_maxima(&mut said, rng, &lat, &[&plain, &passes]);
        sums_and_draws(&mut said, rng, &lat, &[&plain, &passes]);
        blank_variants(&mut said, rng, &lat);
    }
    said
}

fn rows(said: &mut Vec<String>) {
    let pascal = Pascal::with_rows(81);
    for n in 0..81 {
        said.push(format!("row {n}: {:?}", (0..=n + 1).map(|k| pascal.binom(n, k)).collect::<Vec<_>>()));
    }
}

fn ranks(said: &mut Vec<String>, rng: &mut Rng, lat: &MultisetLattice) {
    let (n, r) = (lat.num_letters(), lat.rack_size());
    let starts: Vec<usize> = (0..=r + 1).map(|s| lat.size_start(s)).collect();
    said.push(format!("{n} {r} {} {} {} {starts:?}", lat.len(), lat.is_empty(), lat.full_rack_start()));
    let mut tally = vec![0u8; n];
    for idx in 0..lat.len() {
        lat.unrank_into(idx, &mut tally);
        let items: Vec<(u8, u8)> = (0u8..).zip(tally.iter().copied()).filter(|item| item.1 > 0).collect();
        let mut tiles: Vec<u8> = items.iter().flat_map(|&(t, count)| vec![t; count as usize]).collect();
        rng.shuffle(&mut tiles);
        let sparse = lat.rank_sparse(tiles.len(), &items);
        let walked = lat.rank_sparse_iter(tiles.len(), items.iter().copied());
        let (dense, bytes) = (lat.rank(&tally), lat.rank_bytes(&tiles));
        said.push(format!("rank {idx}: {tally:?} {:?} {dense} {bytes} {sparse} {walked}", lat.tally(idx)));
    }
    // at times too many tiles, or a letter that is not below n
    for _ in 0..20 {
        let count = rng.below(r as u64 + 3);
        let tiles: Vec<u8> = (0..count).map(|_| rng.below(n as u64 + 1) as u8).collect();
        let tally: Vec<u8> = (0..n).map(|_| rng.below(4) as u8).collect();
        said.push(format!("{tiles:?} {} {tally:?} {}", lat.rank_bytes(&tiles), lat.rank(&tally)));
    }
}

fn tables(said: &mut Vec<String>, lat: &MultisetLattice, plain: &AddTable, passes: &AddTable) {
    for t in 0..lat.num_letters() {
        let adds = |table: &AddTable| (0..lat.full_rack_start()).map(|idx| table.add(idx, t)).collect::<Vec<_>>();
        said.push(format!("with one {t} more: {:?} {:?}", adds(plain), adds(passes)));
        said.push(format!("letter {t}: {:?} {:?}", plain.letter(t), passes.letter(t)));
    }
}

fn bests(said: &mut Vec<String>, rng: &mut Rng, lat: &MultisetLattice) {
    let (of_sheet, of_leave) = (rng.below(7), rng.below(7));
    let (sheet, leave) = (inputs::values(rng, lat.len(), of_sheet), inputs::values(rng, lat.len(), of_leave));
    for idx in 0..lat.len() {
        let tally = lat.tally(idx);
        let best = subject::best_equity_of(lat, &sheet, &leave, &tally);
        let (naive, kept) = subject::naive_best_equity(lat, &sheet, &leave, &tally);
        said.push(format!("best of {tally:?}: {best} {naive} {kept:?}"));
    }
    let over = vec![lat.rack_size() as u8 + 1; lat.num_letters()];
    said.push(format!("best of {over:?}: {}", subject::best_equity_of(lat, &sheet, &leave, &over)));
    let mut best = vec![-7; lat.len()];
    subject::best_equity_table(lat, &sheet, &leave, &mut best);
    said.push(format!("bests {best:?}"));
}

fn keeps_and_maxima(said: &mut Vec<String>, rng: &mut Rng, lat: &MultisetLattice, adds: &[&AddTable]) {
    let kind = rng.below(7);
    let mut leave = inputs::values(rng, lat.len(), kind);
    for _ in 0..rng.below(4) {
        let at = rng.below(lat.len() as u64) as usize;
        leave[at] = inputs::wild(rng);
    }
    for idx in 0..lat.len() {
        let tally = lat.tally(idx);
        let kept: Vec<_> = (0..=lat.rack_size() + 1).map(|keep| subject::best_keep_of(lat, &leave, &tally, keep)).collect();
        said.push(format!("kept of {tally:?}: {kept:?}"));
    }
    for add in adds {
        let mut greatest = vec![0; lat.len()];
        subject::subset_max_transform(lat, add, &leave, &mut greatest);
        said.push(format!("greatest {greatest:?}"));
    }
}

fn sums_and_draws(said: &mut Vec<String>, rng: &mut Rng, lat: &MultisetLattice, adds: &[&AddTable]) {
    let (n, r, len, lo) = (lat.num_letters(), lat.rack_size(), lat.len(), lat.full_rack_start());
    // no extreme values: the sums are within the weight limit
    let [of_sheet, of_leave] = [0, 0].map(|_| [0, 1, 2, 3, 5, 6, 7][rng.below(7) as usize]);
    let (sheet, leave) = (inputs::values(rng, len, of_sheet), inputs::values(rng, len, of_leave));
    // scatter is for sheets without a negative entry, with 0 where nothing is played
    let mut words: Vec<i32> = sheet.iter().map(|&v| v.max(0)).collect();
    words[0] = 0;
    // one letter of 255 tiles is too heavy
    let of_pool = [0, 1, 2, 3, 5][rng.below(5) as usize];
    let unseen = inputs::pool(rng, n, r, of_pool);

    let mut best = vec![0; len];
    subject::best_equity_table(lat, &sheet, &leave, &mut best);
    let (mut num, mut den) = (vec![0.0; len], vec![0.0; len]);
    subject::apportion_table(lat, &best, &unseen, &mut num, &mut den);
    said.push(format!("table of {unseen:?}: {num:?} {den:?}"));

    for add in adds {
        let mut leave_max = vec![0; len];
        subject::subset_max_transform(lat, add, &leave, &mut leave_max);
        for setting in 0..8 {
            let mode = ApportionMode { zeta: setting & 1 > 0, null_leave: setting & 2 > 0, scatter: setting & 4 > 0 };
            let in_force = mode.scatter && mode.zeta && !mode.null_leave;
            // the original's scatter panics at racks of one tile
            if in_force && r == 1 {
                continue;
            }
            let sheet = if in_force { &words } else { &sheet };
            let board = ApportionBoard { sheet, leave: &leave, leave_max: &leave_max, unseen: &unseen };
            let (mut num, mut den, mut ways) = (vec![0.0; lo], vec![0.0; lo], vec![0.0; len - lo]);
            let mut maxsheet = vec![-7; len];
            let out = ApportionOut { num: &mut num, den: &mut den, ways: &mut ways };
            subject::apportion_fused(lat, add, &board, out, &mut maxsheet, mode);
            said.push(format!("setting {setting}: {num:?} {den:?} {ways:?} {maxsheet:?}"));
        }
        let means: Vec<i32> = (0..len)
            .map(|idx| {
                let tiles: usize = lat.tally(idx).iter().map(|&count| count as usize).sum();
                subject::dynamic_leave_value(lat, add, &best, &unseen, idx, r - tiles)
            })
            .collect();
        said.push(format!("means {means:?}"));
    }
}

fn blank_variants(said: &mut Vec<String>, rng: &mut Rng, lat: &MultisetLattice) {
    let kind = rng.below(7);
    let mut sheet = inputs::values(rng, lat.len(), kind);
    for of_pool in 0..6 {
        let unseen = inputs::pool(rng, lat.num_letters(), lat.rack_size(), of_pool);
        let tiles = inputs::placed(rng, lat.num_letters(), lat.rack_size(), true);
        let mut placed: Vec<(u8, i32)> = tiles.letters.into_iter().zip(tiles.drops).collect();
        subject::record_blank_variants(lat, &mut sheet, tiles.score, &mut placed, &unseen, tiles.blanks as usize);
        said.push(format!("placed {placed:?} of {unseen:?}: {sheet:?}"));
    }
}
