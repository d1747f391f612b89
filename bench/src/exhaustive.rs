//! Hand-written Rust for the exhaustive call, from the job's bytes on: the method of crate `exhaustive`, once with a search by halves for
//! each ramp and once with a table, and the plain pass, which prices every crossing by itself.

use crate::read::{read, scaled, Deck, Objects};

/// Cost, x, y.
pub type PricedPlace = (i64, i32, i32);

/// A deck with its lines, in plain tenths. `scaled` has the horizontal ones at the scaled y.
struct Lined {
    deck: Deck,
    objects: Objects,
    vertical: Vec<i32>,
    horizontal: Vec<i32>,
    scaled: Vec<i32>,
}

fn lined(job: &[u8]) -> Lined {
    let (deck, objects) = read(job).unwrap_or_else(|_| panic!("refused"));
    let (vertical, horizontal) = (deck.lines(&objects, true), deck.lines(&objects, false));
    let scaled = scaled(&horizontal, deck.axis.b);
    Lined { deck, objects, vertical, horizontal, scaled }
}

/// The ramps that start behind the last line and up to this one: the sum of their weights, and of weight times start.
#[derive(Clone, Copy, Default)]
struct Ramps {
    weight: i64,
    starts: i64,
}

impl Ramps {
    #[inline(always)]
    fn add(&mut self, weight: i64, start: i32) {
        self.weight += weight;
        self.starts += weight * start as i64;
    }
}

/// A site that reaches the area, at its scaled place, with the number of the first line that is not below it.
struct Site {
    x: i32,
    y: i32,
    visits: i64,
    near: i32,
    line: u32,
}

/// The cheapest crossing, by ramps along each vertical line. `first` numbers the first line that is not below a scaled y, from 0 to the count
/// of lines.
#[inline(always)]
fn by_ramps(lined: &Lined, first: impl Fn(i32) -> usize) -> PricedPlace {
    let Lined { deck, objects, vertical, horizontal, scaled } = lined;
    let area = deck.axis.scaled(deck.area);
    let sites: Vec<Site> = objects
        .sites()
        .filter(|s| s.reaches(area))
        .map(|s| Site { x: s.x, y: s.y, visits: s.visits as i64, near: s.near, line: first(s.y) as u32 })
        .collect();
    let before = objects.before() as i64;
    let mut ramps = vec![Ramps::default(); horizontal.len() + 1];
    let mut best = (i64::MAX, 0, 0);
    for &v in vertical {
        let x = deck.axis.a * v;
        ramps.fill(Ramps::default());
        for s in &sites {
            let r = s.near - (s.x - x).abs();
            if r > 0 {
                ramps[first(s.y - r)].add(-s.visits, s.y - r);
                ramps[s.line as usize].add(2 * s.visits, s.y);
                ramps[first(s.y + r)].add(-s.visits, s.y + r);
            }
        }
        let (mut weight, mut starts) = (0, before);
        for ((&h, &y), ramp) in horizontal.iter().zip(scaled).zip(&ramps) {
            weight += ramp.weight;
            starts -= ramp.starts;
            let cost = starts + weight * y as i64;
            if cost < best.0 {
                best = (cost, v, h);
            }
        }
    }
    best
}

pub fn searched(job: &[u8]) -> PricedPlace {
    let lined = lined(job);
    by_ramps(&lined, |y| lined.scaled.partition_point(|&h| h < y))
}

pub fn looked_up(job: &[u8]) -> PricedPlace {
    let lined = lined(job);
    let (lo, hi, b) = (lined.deck.area.ylo, lined.deck.area.yhi, lined.deck.axis.b);
    // the number for each y of the area, and behind it
    let mut table = vec![0u16; (hi - lo + 2) as usize];
    for (i, pair) in lined.horizontal.windows(2).enumerate() {
        table[(pair[0] - lo + 1) as usize..=(pair[1] - lo) as usize].fill(i as u16 + 1);
    }
    table[(hi - lo + 1) as usize] = lined.horizontal.len() as u16;
    // the least y of the area with start <= b * y, from lo on: (start - b * lo) / b rounded up. The quotient is a product, right below 2^28
    let (less, reciprocal, last) = (b * lo - (b - 1), (1u64 << 32) / b as u64 + 1, table.len() - 1);
    by_ramps(&lined, |start| {
        let n = (start - less).max(0) as u32 as u64;
        table[((n * reciprocal >> 32) as usize).min(last)] as usize
    })
}

pub fn every_crossing(job: &[u8]) -> PricedPlace {
    let Lined { deck, objects, vertical, horizontal, scaled } = lined(job);
    let mut best = (i64::MAX, 0, 0);
    for &v in &vertical {
        for (&h, &y) in horizontal.iter().zip(&scaled) {
            let cost = objects.cost(deck.axis.a * v, y) as i64;
            if cost < best.0 {
                best = (cost, v, h);
            }
        }
    }
    best
}
