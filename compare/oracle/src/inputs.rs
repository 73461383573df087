// Values, pools and placed tiles for random boards.
use crate::model;
use crate::rng::Rng;

// a value of the kind asked for
pub fn value(rng: &mut Rng, kind: u64) -> i32 {
    match kind {
        0 => rng.between(-20, 60) as i32,
        1 => rng.between(0, 1) as i32,
        2 => 0,
        3 => rng.between(-9, -1) as i32,
        4 => [model::MOST, -model::MOST, 0, 1, -1][rng.below(5) as usize],
        5 => rng.between(0, 40) as i32 * rng.below(2) as i32,
        6 => rng.between(-30000, 90000) as i32,
        _ => rng.between(0, 90000) as i32,
    }
}

pub fn values(rng: &mut Rng, len: usize, kind: u64) -> Vec<i32> {
    (0..len).map(|_| value(rng, kind)).collect()
}

// a value that only keep, subset maximum and blank variants take: the ends of i32, UNPLAYABLE and its neighbour
pub fn wild(rng: &mut Rng) -> i32 {
    [i32::MIN, i32::MAX, model::UNPLAYABLE, model::UNPLAYABLE - 1, -1][rng.below(5) as usize]
}

// kind 0: none; 1: r of each; 2: 0 to 3; 3: 0 or 1; 4: one letter 255, the others 0 or 1; else 0 to r + 2
pub fn pool(rng: &mut Rng, n: usize, r: usize, kind: u64) -> Vec<u8> {
    let lone = rng.below(n as u64) as usize;
    (0..n)
        .map(|t| match kind {
            0 => 0,
            1 => r as u8,
            2 => rng.below(4) as u8,
            3 => rng.below(2) as u8,
            4 if t == lone => 255,
            4 => rng.below(2) as u8,
            _ => rng.below(r as u64 + 3) as u8,
        })
        .collect()
}

// what blank variants take beside a board
#[derive(Clone, Debug)]
pub struct Placed {
    pub score: i32,
    pub letters: Vec<u8>,
    pub drops: Vec<i32>,
    pub blanks: u64,
}

// at most r tiles, or at times r + 1 where `over`
pub fn placed(rng: &mut Rng, n: usize, r: usize, over: bool) -> Placed {
    let most = r as i64 + over as i64;
    let tiles = if n == 1 { 0 } else { rng.between(0, most) as usize };
    let top = if rng.chance(2) { (n as i64 - 1).min(2) } else { n as i64 - 1 };
    let letters = (0..tiles).map(|_| rng.between(1, top) as u8).collect();
    let kind = rng.below(4);
    let drops = (0..tiles)
        .map(|_| match kind {
            0 => rng.between(0, 10) as i32,
            1 => rng.between(-5, 5) as i32,
            2 => [model::MOST_DROP, -model::MOST_DROP][rng.below(2) as usize],
            _ => 3,
        })
        .collect();
    let score = match rng.below(5) {
        0 => model::MOST,
        1 => -model::MOST,
        _ => rng.between(-10, 90) as i32,
    };
    let blanks = match rng.below(6) {
        0 => u64::MAX,
        x => x - 1,
    };
    Placed { score, letters, drops, blanks }
}

// a sheet for n 3, r 3: with 255 of each letter its sums are rounded
pub const HEAVY: [i32; 20] = [
    -155876453, 445554842, -435067004, -220326826, -62950242, 298103718, -402413968, -204481109, -302320194, -232812694,
    -45053729, -523140856, 450731388, 156377995, -425787629, -192006291, 95110387, -209901033, 272484670, -250541478,
];
