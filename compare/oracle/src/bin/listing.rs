// Writes inputs for the census listing with what it must print, K.in and K.out, into a folder. The original has no such program: the sums are
// its apportion_fused over best splits, and the model's; the text and the refusals are docs/SCOPE.md's.
//   listing SEED COUNT FOLDER
// Or runs a listing program on docs/SCOPE.md's text with each byte changed, doubled or taken out, and cut at each place, and compares what it
// prints with a plain reading of the text:
//   listing damaged PROGRAM
use oracle::calls::{self, Sums, add_table};
use oracle::census::*;
use oracle::model::{self, Lattice, Mode};
use oracle::rng::Rng;

// the listing of a board, or the number of its refusal
fn print(n: usize, r: usize, pool: &[u8], sheet: &[i32], leave: &[i32]) -> String {
    let m = Lattice::new(n, r);
    let mode = Mode { zeta: true, null_leave: false, scatter: false };
    let want = match m.fused(sheet, leave, &[], pool, &vec![0; m.len()], mode) {
        Err(no) => return format!("{no}\n"),
        Ok(s) => s,
    };
    let lat = MultisetLattice::new(n, r).unwrap();
    let mut sums = Sums::new(&lat, 0.0, 0);
    let board = ApportionBoard { sheet, leave, leave_max: &[], unseen: pool };
    calls::fused(&lat, &add_table(&lat, false), &board, mode, &mut sums);
    let (num, den) = (&sums.num, &sums.den);
    let mut out = format!("{n} {r} {}\n", den[0]);
    for i in 0..m.lo() {
        assert_eq!((num[i] as i128, den[i] as i128), (want.num[i], want.den[i]));
        let cut = if den[i] > 0.0 { (num[i] / den[i]) as i32 } else { UNPLAYABLE };
        out.push_str(&format!("{i} {} {} {cut}\n", den[i], num[i]));
    }
    out
}

// numbers with gaps of any kind between them
fn text<T: std::fmt::Display>(v: &[T], rng: &mut Rng) -> String {
    let gaps = [" ", "\n", "\t", "  ", " \n "];
    let mut s = String::new();
    for x in v {
        s.push_str(&x.to_string());
        s.push_str(gaps[if rng.chance(4) { rng.below(5) as usize } else { 0 }]);
    }
    s.push('\n');
    s
}

const EXAMPLE: &str = "2 2\n1 2\n0 2 1 10 30 5\n0 4 7 1 3 -2\n";

// a token as a whole number: digits after an optional minus; none where it is no number, or beyond every type
fn number(token: &[u8]) -> Option<i128> {
    let digits = token.strip_prefix(b"-").unwrap_or(token);
    if digits.is_empty() || !digits.iter().all(u8::is_ascii_digit) {
        return None;
    }
    std::str::from_utf8(token).unwrap().parse().ok()
}

// what the listing prints for a text
fn answer(text: &[u8]) -> String {
    let tokens: Vec<_> = text.split(|b| b" \t\n\r".contains(b)).filter(|t| !t.is_empty()).map(number).collect();
    let size = |k: usize| tokens.get(k).copied().flatten().filter(|&v| (0..1 << 64).contains(&v));
    let (Some(n), Some(r)) = (size(0), size(1)) else { return "2\n".into() };
    let served = (1..=64).contains(&n) && (1..=15).contains(&r);
    let len = if served { model::binom((n + r) as u128, n as u128) } else { 0 };
    if len == 0 || len > 512 {
        return "1\n".into();
    }
    let (n, r, len) = (n as usize, r as usize, len as usize);
    let rest: Option<Vec<i128>> = tokens[2..].iter().copied().collect();
    let Some(rest) = rest.filter(|v| v.len() == n + 2 * len) else { return "2\n".into() };
    let pool: Option<Vec<u8>> = rest[..n].iter().map(|&v| v.try_into().ok()).collect();
    let entries: Option<Vec<i32>> = rest[n..].iter().map(|&v| v.try_into().ok()).collect();
    match (pool, entries) {
        (Some(pool), Some(entries)) => print(n, r, &pool, &entries[..len], &entries[len..]),
        _ => "2\n".into(),
    }
}

// the example damaged in every way, each text once
fn damaged() -> std::collections::BTreeSet<Vec<u8>> {
    let good = EXAMPLE.as_bytes();
    let mut texts = std::collections::BTreeSet::from([good.to_vec()]);
    for k in 0..good.len() {
        texts.insert(good[..k].to_vec());
        texts.insert([&good[..k], &good[k + 1..]].concat());
        texts.insert([&good[..=k], &good[k..]].concat());
        for b in *b"0123456789- \n\t\r+x.\0\xff" {
            texts.insert([&good[..k], &[b], &good[k + 1..]].concat());
        }
    }
    texts
}

fn run(program: &str, text: &[u8]) -> Vec<u8> {
    use std::io::Write;
    use std::process::{Command, Stdio};
    let mut child = Command::new(program).stdin(Stdio::piped()).stdout(Stdio::piped()).spawn().unwrap();
    child.stdin.take().unwrap().write_all(text).unwrap();
    child.wait_with_output().unwrap().stdout
}

fn run_damaged(program: &str) {
    let texts = damaged();
    let mut differed = 0;
    for text in &texts {
        let (got, want) = (run(program, text), answer(text));
        if got != want.as_bytes() {
            differed += 1;
            println!("differs: {:?}", String::from_utf8_lossy(text));
        }
    }
    println!("{} agreed, {differed} differed", texts.len() - differed);
    std::process::exit((differed != 0) as i32);
}

fn main() {
    let args: Vec<String> = std::env::args().collect();
    if args[1] == "damaged" {
        return run_damaged(&args[2]);
    }
    let mut rng = Rng(args[1].parse().unwrap());
    let count: usize = args[2].parse().unwrap();
    let folder = &args[3];
    std::fs::create_dir_all(folder).unwrap();
    let mut cases: Vec<(String, String)> =
        vec![(EXAMPLE.into(), print(2, 2, &[1, 2], &[0, 2, 1, 10, 30, 5], &[0, 4, 7, 1, 3, -2]))];
    // sizes: judged before the rest is read
    for (s, no) in [
        ("", 2),
        ("2", 2),
        ("x 2", 2),
        ("-1 2", 2),
        ("18446744073709551616 1", 2),
        ("18446744073709551615 1", 1),
        ("0 1 junk", 1),
        ("65 1", 1),
        ("1 0", 1),
        ("1 16 5", 1),
        ("64 8", 1),
        ("5 8 junk", 1),
        ("4 8 1 1 1 1", 2),
        ("1 1 1 0 0 0", 2),
        ("1 1 1 0 0 0 0 0", 2),
        ("1 1 256 0 0 0 0", 2),
        ("1 1 -1 0 0 0 0", 2),
        ("1 1 1 0 2147483648 0 0", 2),
        ("1 1 1 0 -2147483649 0 0", 2),
        ("1 1 1 0 + 0 0", 2),
        ("1 1 1 0 +1 0 0", 2),
        ("1 1 1 0 1.0 0 0", 2),
        ("1 1 1 0 - 0 0", 2),
        ("1 1 1 0 --1 0 0", 2),
        ("1 1 1 0 1- 0 0", 2),
        ("1 1 1 0 0x1 0 0", 2),
        ("1 1 1 0 1,0 0 0", 2),
        ("1 1 1 0 536870912 0 0", 5),
        ("1 1 1 0 0 0 -536870912", 5),
        ("1 1 1 -2147483648 0 0 0", 5),
    ] {
        cases.push((format!("{s}\n"), format!("{no}\n")));
    }
    // no line end; leading zeros; many gaps
    cases.push(("1 1 1 0 5 0 0".into(), print(1, 1, &[1], &[0, 5], &[0, 0])));
    cases.push(("\n\t 01 001\n0001 -5 00005\t-007 0 \n\n".into(), print(1, 1, &[1], &[-5, 5], &[-7, 0])));
    // the longest lattice that is served (n 2, r 15 is 136; n 3, r 12 is 455; n 1, r 15 is 16), and the weight limit
    let sizes: Vec<(usize, usize)> = (1..=64)
        .flat_map(|n| (1..=15).map(move |r| (n, r)))
        .filter(|&(n, r)| model::binom((n + r) as u128, n as u128) <= 512)
        .collect();
    let near: Vec<(usize, usize)> =
        sizes.iter().copied().filter(|&(n, r)| model::binom((n + r) as u128, n as u128) > 400).collect();
    for v in [56, 57] {
        let mut sheet = vec![0; 16];
        sheet[15] = v;
        cases.push((
            format!("1 15 64\n{}{}", text(&sheet, &mut rng), text(&[0; 16], &mut rng)),
            print(1, 15, &[64], &sheet, &[0; 16]),
        ));
    }
    while cases.len() < count {
        let from = if rng.chance(6) { &near } else { &sizes };
        let (n, r) = from[rng.below(from.len() as u64) as usize];
        if n > 12 && !rng.chance(4) {
            continue;
        }
        let len = model::binom((n + r) as u128, n as u128) as usize;
        let most = [1, 3, r as u64 + 2, 255][rng.below(4) as usize];
        let pool: Vec<u8> = (0..n).map(|_| rng.below(most + 1) as u8).collect();
        let hi = [1, 60, 90000, 536870911][rng.below(4) as usize];
        let sheet: Vec<i32> = (0..len).map(|_| rng.between(-hi / 4, hi) as i32).collect();
        let leave: Vec<i32> = (0..len).map(|_| rng.between(-hi / 2, hi / 2) as i32).collect();
        let input =
            format!("{}{}{}{}", text(&[n, r], &mut rng), text(&pool, &mut rng), text(&sheet, &mut rng), text(&leave, &mut rng));
        cases.push((input, print(n, r, &pool, &sheet, &leave)));
    }
    for (k, (input, out)) in cases.iter().enumerate() {
        std::fs::write(format!("{folder}/{k:03}.in"), input).unwrap();
        std::fs::write(format!("{folder}/{k:03}.out"), out).unwrap();
    }
    let refused = cases.iter().filter(|c| c.1.trim().len() < 3).count();
    eprintln!("{} inputs, {refused} refused", cases.len());
}
