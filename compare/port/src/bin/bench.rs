// The port's speed beside the original's: the same process, the same inputs, one thread, both optimised, processor time. Prints docs/SPEED.md.
//   bench [RUNS [small]]        3 runs where not given; `small` leaves the large lattice out
use oracle::calls::{self, add_table};
use oracle::census::*;
use oracle::model::Mode;
use oracle::rng::Rng;
use std::hint::black_box;

// the blank and A to Z of an English set
const ENGLISH: [u8; 27] = [2, 9, 2, 2, 4, 12, 2, 3, 2, 9, 1, 1, 4, 2, 6, 8, 2, 1, 6, 4, 6, 4, 2, 2, 1, 2, 1];

// words that are put on the large sheet, some of them at one entry
const WORDS: usize = 100_000;

// processor time of this process, in seconds
fn processor() -> f64 {
    unsafe extern "C" {
        fn clock_gettime(id: i32, out: *mut [i64; 2]) -> i32;
    }
    const CLOCK_PROCESS_CPUTIME_ID: i32 = 2;
    let mut t = [0i64; 2];
    // SAFETY: two words, as the C library's timespec on 64-bit Linux
    unsafe { clock_gettime(CLOCK_PROCESS_CPUTIME_ID, &mut t) };
    t[0] as f64 + t[1] as f64 / 1e9
}

fn seconds<T>(f: impl FnOnce() -> T) -> (f64, T) {
    let start = processor();
    let x = f();
    (processor() - start, x)
}

// the least seconds of each call
#[derive(Clone)]
struct Race {
    call: String,
    // the ratio asked for
    wanted: Option<f64>,
    original: f64,
    port: f64,
}

struct Bench {
    races: Vec<Race>,
    batches: u32,
}

impl Bench {
    // the two by turns; each closure gives the seconds of one call
    fn race(&mut self, call: &str, wanted: Option<f64>, mut original: impl FnMut() -> f64, mut port: impl FnMut() -> f64) {
        let mut race = Race { call: call.to_string(), wanted, original: f64::MAX, port: f64::MAX };
        for _ in 0..self.batches {
            race.original = race.original.min(original());
            race.port = race.port.min(port());
        }
        eprintln!("{call}: {:.3e} s, {:.3e} s", race.original, race.port);
        self.races.push(race);
    }

    // the last call again, with the port's time less what it takes to judge its tables; the closure gives the seconds of one judging
    fn without_judging(&mut self, wanted: Option<f64>, mut judging: impl FnMut() -> f64) {
        let least = (0..self.batches).map(|_| judging()).fold(f64::MAX, f64::min);
        let last = self.races.last().unwrap();
        let race =
            Race { call: format!("{}, judging left out", last.call), wanted, original: last.original, port: last.port - least };
        eprintln!("{}: {:.3e} s, {:.3e} s", race.call, race.original, race.port);
        self.races.push(race);
    }

    // calls that are short: batches of passes over the items, each of at least 10 ms
    fn race_short<T>(
        &mut self,
        call: &str,
        wanted: Option<f64>,
        items: &[T],
        mut original: impl FnMut(&T) -> u64,
        mut port: impl FnMut(&T) -> u64,
    ) {
        let pass = |f: &mut dyn FnMut(&T) -> u64, passes: u32| {
            let (time, sum) = seconds(|| {
                let mut sum = 0u64;
                for _ in 0..passes {
                    for x in items {
                        sum = sum.wrapping_add(f(black_box(x)));
                    }
                }
                sum
            });
            black_box(sum);
            time
        };
        let enough = |f: &mut dyn FnMut(&T) -> u64| {
            let mut passes = 1;
            while pass(f, passes) < 0.01 {
                passes *= 2;
            }
            passes
        };
        let (a, b) = (enough(&mut original), enough(&mut port));
        let each = |passes: u32| passes as f64 * items.len() as f64;
        self.race(call, wanted, || pass(&mut original, a) / each(a), || pass(&mut port, b) / each(b));
    }
}

struct Board {
    n: usize,
    r: usize,
    lat: MultisetLattice,
    pool: Vec<u8>,
    sheet: Vec<i32>,
    leave: Vec<i32>,
}

// k tiles drawn from the pool, as a tally
fn drawn(rng: &mut Rng, pool: &[u8], k: usize) -> Vec<u8> {
    let mut bag = oracle::model::tiles_of(pool);
    let mut tally = vec![0u8; pool.len()];
    for _ in 0..k {
        let at = rng.below(bag.len() as u64) as usize;
        tally[bag.swap_remove(at) as usize] += 1;
    }
    tally
}

impl Board {
    fn is_large(&self) -> bool {
        self.n == ENGLISH.len()
    }

    // a ratio that is asked for on the large lattice alone
    fn on_large(&self, wanted: f64) -> Option<f64> {
        self.is_large().then_some(wanted)
    }

    // a sheet with about so many words; leaves by a worth for each letter, less for repeats, with some noise; in thousandths of a point
    fn new(rng: &mut Rng, n: usize, r: usize, pool: Vec<u8>, words: usize) -> Self {
        let lat = MultisetLattice::new(n, r).unwrap();
        let mut sheet = vec![0; lat.len()];
        for _ in 0..words {
            let k = rng.between(2, r as i64);
            let at = lat.rank(&drawn(rng, &pool, k as usize)) as usize;
            sheet[at] = sheet[at].max(rng.between(4000, 14000) as i32 * k as i32);
        }
        let worth: Vec<i32> = (0..n).map(|t| if t == 0 { 25000 } else { rng.between(-6000, 8000) as i32 }).collect();
        let mut leave = vec![0; lat.len()];
        let mut t = vec![0u8; n];
        for (i, v) in leave.iter_mut().enumerate().skip(1) {
            lat.unrank_into(i, &mut t);
            let whole: i32 = t.iter().zip(&worth).map(|(&c, &w)| c as i32 * w - 4000 * (c as i32 - 1).max(0)).sum();
            *v = whole + rng.between(-1500, 1500) as i32;
        }
        Self { n, r, lat, pool, sheet, leave }
    }
}

fn tables(bench: &mut Bench, b: &Board) {
    let (n, r, rows) = (b.n, b.r, b.lat.full_rack_start());
    let new = || AddTable::new_with_threads(&b.lat, 1);
    let mut add = vec![0u32; rows * n];
    let filled = |add: &mut [u32]| assert_eq!(port::fill_add(n, r, add), 0);
    // as many calls as take some milliseconds
    let calls = (200_000 / (rows * n)).max(1);
    let each = |time: f64| time / calls as f64;
    let original = || each(seconds(|| (0..calls).for_each(|_| drop(black_box(new())))).0);
    let with_allocation = || {
        each(
            seconds(|| {
                for _ in 0..calls {
                    let mut add = vec![0u32; rows * n];
                    filled(&mut add);
                    black_box(&add);
                }
            })
            .0,
        )
    };
    bench.race("add table, made anew", None, original, with_allocation);
    let original = bench.races.last().unwrap().original;
    let at_hand = || each(seconds(|| (0..calls).for_each(|_| filled(black_box(&mut add)))).0);
    bench.race("add table, into a slice at hand", b.on_large(30.0), || original, at_hand);
    let (filling, wrong) = (bench.races.last().unwrap().port, last_wrong(&add));
    let mut letters = vec![0u32; rows * n];
    bench.race(
        "judging the add table, beside the port's filling of it",
        b.on_large(1.0),
        || filling,
        || {
            each(
                seconds(|| (0..calls).for_each(|_| assert_eq!(port::fill_by_letter(n, r, &wrong, black_box(&mut letters)), 6))).0,
            )
        },
    );
    let theirs = add_table(&b.lat, true);
    assert!((0..rows * n).all(|i| theirs.add(i / n, i % n) as u32 == add[i]));
    bench.race(
        "letter table (the port judges the add table)",
        None,
        || {
            let made: Vec<AddTable> = (0..calls).map(|_| new()).collect();
            each(seconds(|| made.into_iter().for_each(|t| drop(black_box(t.with_letter_passes(1))))).0)
        },
        || each(seconds(|| (0..calls).for_each(|_| assert_eq!(port::fill_by_letter(n, r, &add, black_box(&mut letters)), 0))).0),
    );
    assert!((0..n).all(|t| theirs.letter(t).unwrap() == &letters[t * rows..(t + 1) * rows]));
    bench.race(
        "ranks of a letter (the port judges the table)",
        None,
        || seconds(|| (0..1000).for_each(|t| assert!(black_box(theirs.letter(black_box(t % n))).is_some()))).0 / 1000.0,
        || each(seconds(|| (0..calls).for_each(|_| assert_eq!(port::letter(n, r, black_box(&letters), n - 1).len, rows))).0),
    );
}

fn ranks(bench: &mut Bench, b: &Board, rng: &mut Rng) {
    let (n, r, lat) = (b.n, b.r, &b.lat);
    let racks: Vec<Vec<u8>> = (0..1000).map(|_| drawn(rng, &b.pool, r)).collect();
    bench.race_short("rank of a rack", Some(1.0), &racks, |t| lat.rank(t) as u64, |t| port::rank(n, r, t).value as u64);
    let items: Vec<Vec<(u8, u8)>> =
        racks.iter().map(|t| t.iter().enumerate().filter(|x| *x.1 > 0).map(|(t, &c)| (t as u8, c)).collect()).collect();
    let apart: Vec<(Vec<u8>, Vec<u8>)> = items.iter().map(|x| x.iter().copied().unzip()).collect();
    let both: Vec<_> = items.iter().zip(&apart).collect();
    bench.race_short(
        "rank_sparse of a rack",
        Some(1.0),
        &both,
        |(x, _)| lat.rank_sparse(r, x) as u64,
        |(_, (letters, counts))| port::rank_sparse(n, r, r, letters, counts).value as u64,
    );
    let tiles: Vec<Vec<u8>> = racks.iter().map(|t| oracle::model::tiles_of(t)).collect();
    bench.race_short(
        "rank_bytes of a rack",
        Some(1.0),
        &tiles,
        |t| lat.rank_bytes(t) as u64,
        |t| port::rank_bytes(n, r, t).value as u64,
    );
    let at: Vec<usize> = racks.iter().map(|t| lat.rank(t) as usize).collect();
    let (mut out, mut out2) = (vec![0u8; n], vec![0u8; n]);
    bench.race_short(
        "unrank_into of a full rack",
        Some(1.0),
        &at,
        |&i| {
            lat.unrank_into(i, &mut out);
            out[n - 1] as u64
        },
        |&i| port::unrank_into(n, r, i, &mut out2) as u64 + out2[n - 1] as u64,
    );
}

fn best_plays(bench: &mut Bench, b: &Board, rng: &mut Rng) {
    let (n, r, lat, sheet, leave) = (b.n, b.r, &b.lat, &b.sheet[..], &b.leave[..]);
    let (mut theirs, mut ours) = (vec![0; lat.len()], vec![0; lat.len()]);
    let calls = (20_000 / lat.len()).max(1);
    let each = |time: f64| time / calls as f64;
    bench.race(
        "best table",
        b.on_large(2.0),
        || each(seconds(|| (0..calls).for_each(|_| best_equity_table(lat, sheet, leave, black_box(&mut theirs)))).0),
        || {
            each(
                seconds(|| {
                    (0..calls).for_each(|_| assert_eq!(port::best_equity_table(n, r, sheet, leave, black_box(&mut ours)), 0))
                })
                .0,
            )
        },
    );
    assert!(theirs == ours);
    let racks: Vec<Vec<u8>> = (0..1000).map(|_| drawn(rng, &b.pool, r)).collect();
    bench.race_short(
        "best of a full rack",
        b.on_large(1.0),
        &racks,
        |t| best_equity_of(lat, sheet, leave, t) as u64,
        |t| port::best_equity_of(n, r, sheet, leave, t).value as u64,
    );
    let mut kept = vec![0u8; n];
    bench.race_short(
        "naive search of a full rack",
        b.on_large(0.5),
        &racks,
        |t| naive_best_equity(lat, sheet, leave, t).0 as u64,
        |t| port::naive_best_equity(n, r, sheet, leave, t, &mut kept).value as u64,
    );
    let keep = r / 2 + 1;
    bench.race_short(
        &format!("best leave of {keep} tiles of a full rack"),
        b.on_large(1.0),
        &racks,
        |t| best_keep_of(lat, leave, t, keep).1 as u64,
        |t| port::best_keep_of(n, r, leave, t, keep).rank as u64,
    );
}

// the original's tables of ranks, without and with the letter table, and the port's two
struct Ranks {
    theirs: [AddTable; 2],
    add: Vec<u32>,
    letters: Vec<u32>,
}

impl Ranks {
    fn new(b: &Board) -> Self {
        let size = b.lat.full_rack_start() * b.n;
        let (mut add, mut letters) = (vec![0; size], vec![0; size]);
        assert_eq!(port::fill_add(b.n, b.r, &mut add), 0);
        assert_eq!(port::fill_by_letter(b.n, b.r, &add, &mut letters), 0);
        Self { theirs: [add_table(&b.lat, false), add_table(&b.lat, true)], add, letters }
    }
}

// A table whose last entry is wrong: a call over it is judged to the end, and does no more.
fn last_wrong<T: Copy + std::ops::AddAssign + From<u8>>(table: &[T]) -> Vec<T> {
    let mut wrong = table.to_vec();
    *wrong.last_mut().unwrap() += 1.into();
    wrong
}

fn maxima(bench: &mut Bench, b: &Board, ranks: &Ranks) {
    let (mut theirs, mut ours) = (vec![0; b.lat.len()], vec![0; b.lat.len()]);
    let calls = (200_000 / ranks.add.len()).max(1);
    let each = |time: f64| time / calls as f64;
    for (table, letters, name) in [(0, &[][..], "without"), (1, &ranks.letters, "with")] {
        bench.race(
            &format!("subset maximum {name} the letter table"),
            b.on_large(0.33),
            || {
                let one = |_| subset_max_transform(&b.lat, &ranks.theirs[table], &b.leave, black_box(&mut theirs));
                each(seconds(|| (0..calls).for_each(one)).0)
            },
            || {
                let one =
                    |_| assert_eq!(port::subset_max_transform(b.n, b.r, &ranks.add, letters, &b.leave, black_box(&mut ours)), 0);
                each(seconds(|| (0..calls).for_each(one)).0)
            },
        );
        assert!(theirs == ours);
        // on the small lattice a call takes less time than its judging varies by
        if !b.is_large() {
            continue;
        }
        let wrong = if letters.is_empty() { (last_wrong(&ranks.add), vec![]) } else { (ranks.add.clone(), last_wrong(letters)) };
        bench.without_judging(Some(1.0), || {
            let one = |_| assert_eq!(port::subset_max_transform(b.n, b.r, &wrong.0, &wrong.1, &b.leave, black_box(&mut ours)), 6);
            each(seconds(|| (0..calls).for_each(one)).0)
        });
    }
}

fn same_bits(a: &[f64], b: &[f64]) -> bool {
    a.iter().zip(b).all(|(x, y)| x.to_bits() == y.to_bits())
}

// the sums, which are made +0.0 before each call; that is not timed
fn sums(bench: &mut Bench, b: &Board, ranks: &Ranks, best: &[i32]) {
    let (n, r, lat, len) = (b.n, b.r, &b.lat, b.lat.len());
    let calls = (20_000 / len).max(1);
    // the seconds of one call, of so many
    let timed = |one: &mut dyn FnMut() -> f64| (0..calls).map(|_| one()).sum::<f64>() / calls as f64;
    let zeros = || [vec![0.0; len], vec![0.0; len]];
    let ([mut num, mut den], [mut num2, mut den2]) = (zeros(), zeros());
    bench.race(
        "table sums",
        b.on_large(2.0),
        || {
            timed(&mut || {
                num.fill(0.0);
                den.fill(0.0);
                seconds(|| apportion_table(lat, best, &b.pool, &mut num, &mut den)).0
            })
        },
        || {
            timed(&mut || {
                num2.fill(0.0);
                den2.fill(0.0);
                seconds(|| assert_eq!(port::apportion_table(n, r, best, &b.pool, &mut num2, &mut den2), 0)).0
            })
        },
    );
    assert!(same_bits(&num, &num2) && same_bits(&den, &den2));
    drop([num, den, num2, den2]);
    let mut leave_max = vec![0; len];
    subset_max_transform(lat, &ranks.theirs[1], &b.leave, &mut leave_max);
    let few = drawn(&mut Rng(3), &b.pool, r + 3);
    let few_name = format!("none, {} tiles unseen", r + 3);
    let (mut theirs, mut ours) = (calls::Sums::new(lat, 0.0, 0), calls::Sums::new(lat, 0.0, 0));
    for (flags, name, wanted, pool) in [
        (0, "none", Some(2.0), &b.pool),
        (1, "zeta", Some(1.2), &b.pool),
        (3, "zeta and null_leave", Some(0.9), &b.pool),
        (5, "zeta and scatter", Some(0.9), &b.pool),
        (0, &few_name, None, &few),
    ] {
        let mode = Mode::of(flags);
        let board = ApportionBoard { sheet: &b.sheet, leave: &b.leave, leave_max: &leave_max, unseen: pool };
        let call = |ours: &mut calls::Sums, letters: &[u32], leave_max: &[i32], number: u8| {
            ours.clear();
            let calls::Sums { num, den, ways, maxsheet } = ours;
            let (zeta, null_leave, scatter) = (mode.zeta, mode.null_leave, mode.scatter);
            let (add, sheet, leave) = (&ranks.add, &b.sheet, &b.leave);
            let (time, answer) = seconds(|| {
                port::apportion_fused(
                    n, r, add, letters, sheet, leave, leave_max, pool, num, den, ways, maxsheet, zeta, null_leave, scatter,
                )
            });
            assert_eq!(answer, number);
            time
        };
        bench.race(
            &format!("fused sums, {name}"),
            wanted.and_then(|w| b.on_large(w)),
            || {
                timed(&mut || {
                    theirs.clear();
                    seconds(|| calls::fused(lat, &ranks.theirs[1], &board, mode, &mut theirs)).0
                })
            },
            || timed(&mut || call(&mut ours, &ranks.letters, &leave_max, 0)),
        );
        assert!(same_bits(&theirs.num, &ours.num) && same_bits(&theirs.den, &ours.den));
        assert!(same_bits(&theirs.ways, &ours.ways) && theirs.maxsheet == ours.maxsheet);
        if !b.is_large() || flags < 3 {
            continue;
        }
        // refused at the last entry that is judged: of leave_max where scatter is in force, else of the letter table
        let (letters, max, number) = if mode.scatter {
            (ranks.letters.clone(), last_wrong(&leave_max), 7)
        } else {
            (last_wrong(&ranks.letters), leave_max.clone(), 6)
        };
        bench.without_judging(None, || call(&mut ours, &letters, &max, number));
    }
    if b.is_large() {
        scatter(bench);
    }
}

// The scatter by itself, from calls that differ in it alone: one scatters where the other takes the sheet's subset maximum.
fn scatter(bench: &mut Bench) {
    let of = |call: &str| bench.races.iter().find(|r| r.call == format!("{call}, judging left out")).unwrap();
    let (with, without) = (of("fused sums, zeta and scatter"), of("fused sums, zeta and null_leave"));
    let subsets = of("subset maximum with the letter table");
    let alone = |time: fn(&Race) -> f64| time(with) - time(without) + time(subsets);
    let race = Race {
        call: "scatter, by the difference of calls".to_string(),
        wanted: Some(1.0),
        original: alone(|r| r.original),
        port: alone(|r| r.port),
    };
    eprintln!("{}: {:.3e} s, {:.3e} s", race.call, race.original, race.port);
    bench.races.push(race);
}

fn draws(bench: &mut Bench, b: &Board, ranks: &Ranks, best: &[i32]) {
    let (n, r, pool) = (b.n, b.r, &b.pool[..]);
    bench.race_short(
        &format!("mean best of {r} tiles drawn, none kept"),
        None,
        &[0usize],
        |&idx| dynamic_leave_value(&b.lat, &ranks.theirs[0], best, pool, idx, r) as u64,
        |&idx| port::dynamic_leave_value(n, r, &ranks.add, best, pool, idx, r).value as u64,
    );
    let theirs = dynamic_leave_value(&b.lat, &ranks.theirs[0], best, pool, 0, r);
    assert_eq!(port::dynamic_leave_value(n, r, &ranks.add, best, pool, 0, r), port::Equity { number: 0, value: theirs });
    if b.is_large() {
        let wrong = last_wrong(&ranks.add);
        bench.without_judging(Some(1.0), || {
            seconds(|| assert_eq!(port::dynamic_leave_value(n, r, &wrong, best, pool, 0, r).number, 6)).0
        });
    }
}

fn blanks(bench: &mut Bench, b: &Board, rng: &mut Rng) {
    let (n, r) = (b.n, b.r);
    let words: Vec<Vec<(u8, i32)>> = (0..1000)
        .map(|_| {
            let tiles = rng.between(2, r as i64);
            (0..tiles).map(|_| (rng.between(1, n as i64 - 1) as u8, rng.between(0, 10000) as i32)).collect()
        })
        .collect();
    let (mut theirs, mut ours) = (b.sheet.clone(), b.sheet.clone());
    let mut placed = vec![(0u8, 0i32); r];
    let (mut letters, mut drops) = (vec![0u8; r], vec![0i32; r]);
    bench.race_short(
        &format!("blank variants of 2 to {r} tiles, 2 blanks"),
        b.on_large(1.0),
        &words,
        |w| {
            placed[..w.len()].copy_from_slice(w);
            record_blank_variants(&b.lat, &mut theirs, 40000, &mut placed[..w.len()], &b.pool, 2);
            0
        },
        |w| {
            for (i, &(letter, drop)) in w.iter().enumerate() {
                (letters[i], drops[i]) = (letter, drop);
            }
            let (letters, drops) = (&mut letters[..w.len()], &mut drops[..w.len()]);
            port::record_blank_variants(n, r, &mut ours, 40000, letters, drops, &b.pool, 2) as u64
        },
    );
    assert!(theirs == ours);
}

// every call on one board, the least of so many batches
fn run(b: &Board, batches: u32, long_batches: u32) -> Vec<Race> {
    let mut rng = Rng(7);
    let mut bench = Bench { races: vec![], batches: long_batches };
    tables(&mut bench, b);
    bench.batches = batches;
    ranks(&mut bench, b, &mut rng);
    bench.batches = long_batches;
    best_plays(&mut bench, b, &mut rng);
    let ranks = Ranks::new(b);
    let mut best = vec![0; b.lat.len()];
    best_equity_table(&b.lat, &b.sheet, &b.leave, &mut best);
    maxima(&mut bench, b, &ranks);
    sums(&mut bench, b, &ranks, &best);
    draws(&mut bench, b, &ranks, &best);
    bench.batches = batches;
    blanks(&mut bench, b, &mut rng);
    bench.races
}

fn time(seconds: f64) -> String {
    match seconds {
        t if t < 1e-6 => format!("{:.0} ns", t * 1e9),
        t if t < 1e-3 => format!("{:.1} µs", t * 1e6),
        t if t < 1.0 => format!("{:.1} ms", t * 1e3),
        t => format!("{t:.2} s"),
    }
}

// two digits after the point, or what is left of a ratio that they would make 0
fn shown(ratio: f64) -> String {
    if ratio < 0.01 { format!("{ratio:.1e}") } else { format!("{ratio:.2}") }
}

// a row for each call: the least times of all runs, the ratio in each run, and how far the original's own times lie apart
fn table(runs: &[Vec<Race>]) {
    let columns: Vec<String> = (1..=runs.len()).map(|k| format!("run {k}")).collect();
    println!("| Call | original | port | {} | wanted | noise |", columns.join(" | "));
    println!("|---|{}", "---|".repeat(runs.len() + 4));
    for (i, first) in runs[0].iter().enumerate() {
        let races: Vec<&Race> = runs.iter().map(|r| &r[i]).collect();
        let least = |f: fn(&Race) -> f64| races.iter().map(|r| f(r)).fold(f64::MAX, f64::min);
        let most = races.iter().map(|r| r.original).fold(0.0, f64::max);
        let (original, port) = (least(|r| r.original), least(|r| r.port));
        let ratios: Vec<String> = races.iter().map(|r| shown(r.original / r.port)).collect();
        let wanted = first.wanted.map_or(String::new(), |w| format!("{w}"));
        let noise = (most / original - 1.0) * 100.0;
        println!("| {} | {} | {} | {} | {wanted} | {noise:.0}% |", first.call, time(original), time(port), ratios.join(" | "));
    }
    println!();
}

const INTRODUCTION: &str = "# Speed

The port beside the original: same process, same inputs, one thread, both optimised, processor time, the two by turns, the least of
several batches. A ratio is the original's time over the port's, so above 1 the port is faster; times are the least of all runs. The noise
is by how much the original's slowest run passes its fastest. What the port gives is compared with what the original gives. Written by
`bench RUNS` of `compare/`:

    (cd crates/census && rt lib) && cd docs && cargo run --manifest-path ../compare/Cargo.toml -j1 --release --offline --bin bench -- RUNS > SPEED.md

- The port tests its sizes, lengths and tables at each call, which the original does not. `Judging left out`: the port's time less that of the same call
  over tables of which the last entry is wrong, which are judged to the end and refused; leave_max is such a table where scatter is in force.
- The scatter has no call of its own: its time is that of the fused sums with zeta and scatter, less that with zeta and null_leave, plus the subset
  maximum that the latter takes.
- The fused sums have the letter table at hand. Their four settings are those that run different code; sums are made +0.0 before a call, which is not timed.
- The original allocates its tables of ranks, and makes each on a thread of its own. `Made anew`: the port's side allocates too, so both pay for
  the first touch of the memory; `into a slice at hand` is the port's call alone, against the same time of the original.
";

// what `rt version` says here
fn toolchain() -> String {
    let said = std::process::Command::new("rt").arg("version").output();
    said.map_or("not known".to_string(), |o| String::from_utf8_lossy(&o.stdout).trim().to_string())
}

// the least seconds of a thread that does nothing
fn thread() -> f64 {
    let batch = || seconds(|| (0..1000).for_each(|_| std::thread::scope(|s| drop(s.spawn(|| ()))))).0 / 1000.0;
    (0..12).map(|_| batch()).fold(f64::MAX, f64::min)
}

// A chart of the ratios, by the least times of all runs: a bar to the right of the line is a call that the port does faster. Each tenfold is 150 wide.
fn chart(title: &str, runs: &[Vec<Race>]) -> String {
    let (label, middle, line) = (170.0, 480.0, 20.0);
    let mut bars = String::new();
    for (k, race) in runs[0].iter().enumerate() {
        let least = |f: fn(&Race) -> f64| runs.iter().map(|r| f(&r[k])).fold(f64::MAX, f64::min);
        let ratio = least(|r| r.original) / least(|r| r.port);
        let wide = (ratio.log10() * 150.0).clamp(-300.0, 320.0);
        let (from, y) = (middle + wide.min(0.0), 46.0 + line * k as f64);
        let colour = if ratio < 1.0 { "#c66" } else { "#6a6" };
        bars.push_str(&format!(
            "<text x='{:.0}' y='{:.0}' text-anchor='end'>{}</text>\n<rect x='{from:.1}' y='{:.1}' width='{:.1}' height='13' fill='{colour}'/>\n<text x='{:.0}' y='{:.0}'>{}</text>\n",
            label, y + 11.0, race.call, y, wide.abs(), middle + wide.max(0.0) + 5.0, y + 11.0, shown(ratio),
        ));
    }
    let high = 60.0 + line * runs[0].len() as f64;
    format!(
        "<svg xmlns='http://www.w3.org/2000/svg' viewBox='-330 0 1200 {high:.0}' font-family='sans-serif' font-size='12'>\n<rect x='-330' width='1200' height='{high:.0}' fill='white'/>\n<text x='-320' y='20' font-size='15'>{title}: the original's time over the port's</text>\n{bars}<line x1='{middle}' x2='{middle}' y1='36' y2='{:.0}' stroke='black'/>\n</svg>\n",
        high - 10.0
    )
}

fn main() {
    let args: Vec<String> = std::env::args().skip(1).collect();
    let runs: usize = args.first().map_or(3, |a| a.parse().expect("bench [RUNS [small]]"));
    let mut boards = vec![(Board::new(&mut Rng(4), 4, 3, vec![2, 3, 2, 4], 20), 12, 12)];
    if args.get(1).is_none_or(|a| a != "small") {
        boards.insert(0, (Board::new(&mut Rng(20261115), 27, 7, ENGLISH.to_vec(), WORDS), 12, 3));
    }
    print!("{}", INTRODUCTION.replace("RUNS", &runs.to_string()));
    println!(
        "- A thread that is started and joined and does nothing takes {}: the original's times for its two tables include that.",
        time(thread())
    );
    println!("- The toolchain of the port, as `rt version` names it: {}.\n", toolchain());
    for (b, batches, long_batches) in &boards {
        let words = b.sheet.iter().filter(|&&v| v > 0).count();
        println!(
            "## {} letters, {} tiles: length {}, {} leaves, {words} words on the sheet\n",
            b.n,
            b.r,
            b.lat.len(),
            b.lat.full_rack_start()
        );
        let all: Vec<Vec<Race>> = (0..runs).map(|_| run(b, *batches, *long_batches)).collect();
        table(&all);
        let file = format!("speed-{}-{}.svg", b.n, b.r);
        std::fs::write(&file, chart(&format!("{} letters, {} tiles", b.n, b.r), &all)).expect("the chart is written");
        println!("![the ratios]({file})\n");
    }
}
