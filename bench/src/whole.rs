//! Hand-written Rust for the whole report call: reading, near, lines, the search with its cells in a heap, the text. Three of them, which
//! differ in the stops that a pass of pricing goes over. And for the estimate, which is the first three steps.

use std::cmp::Reverse;
use std::collections::BinaryHeap;

use crate::read::{read, Deck, Objects, Rect, Refused};

// ---- pricing, all of it at scaled places

#[derive(Clone, Copy)]
pub struct Site {
    pub x: i32,
    pub y: i32,
    pub visits: u32,
    pub near: i32,
}

#[inline]
fn outside(v: i32, lo: i32, hi: i32) -> i32 {
    (lo - v).max(0) + (v - hi).max(0)
}

impl Site {
    #[inline]
    fn travel_to(&self, r: Rect) -> i32 {
        outside(self.x, r.xlo, r.xhi) + outside(self.y, r.ylo, r.yhi)
    }

    #[inline]
    pub fn reaches(&self, r: Rect) -> bool {
        self.travel_to(r) < self.near
    }

    #[inline]
    fn pays(&self, travel: i32) -> u64 {
        self.visits as u64 * travel.min(self.near) as u32 as u64
    }

    #[inline]
    fn pays_at(&self, x: i32, y: i32) -> u64 {
        self.pays((self.x - x).abs() + (self.y - y).abs())
    }
}

impl Objects {
    #[inline]
    pub fn sites(&self) -> impl Iterator<Item = Site> + '_ {
        let columns = self.xs.iter().zip(&self.ys).zip(&self.visits).zip(&self.near);
        columns.map(|(((&x, &y), &visits), &near)| Site { x, y, visits, near })
    }

    pub fn before(&self) -> u64 {
        self.visits.iter().zip(&self.near).map(|(&v, &near)| v as u64 * near as u32 as u64).sum()
    }

    pub fn cost(&self, x: i32, y: i32) -> u64 {
        self.sites().map(|s| s.pays_at(x, y)).sum()
    }

    fn bound(&self, r: Rect) -> u64 {
        self.sites().map(|s| s.pays(s.travel_to(r))).sum()
    }

    /// The costs of the two ends of a cut at v, and the bounds of the parts on both sides of it, in one pass.
    fn cut(&self, across: bool, (lo, v, hi): (i32, i32, i32), (near_end, far_end): (i32, i32)) -> ([u64; 2], [u64; 2]) {
        let (us, ws) = if across { (&self.xs, &self.ys) } else { (&self.ys, &self.xs) };
        let (mut low, mut high, mut before, mut behind) = (0u64, 0u64, 0u64, 0u64);
        for (((&u, &w), &visits), &near) in us.iter().zip(ws).zip(&self.visits).zip(&self.near) {
            let pays = |travel: i32| visits as u64 * travel.min(near) as u32 as u64;
            let (along, beside) = ((u - v).abs(), outside(w, near_end, far_end));
            low += pays(along + (w - near_end).abs());
            high += pays(along + (w - far_end).abs());
            before += pays(outside(u, lo, v) + beside);
            behind += pays(outside(u, v, hi) + beside);
        }
        ([low, high], [before, behind])
    }
}

impl Deck {
    /// The lines at the x or the y of the stops that reach the area, and at its edges, in plain tenths.
    pub fn lines(&self, objects: &Objects, across: bool) -> Vec<i32> {
        let (r, area) = (self.area, self.axis.scaled(self.area));
        let (lo, hi, column) = if across { (r.xlo, r.xhi, &self.xs) } else { (r.ylo, r.yhi, &self.ys) };
        let mut lines = Vec::with_capacity(column.len() + 2);
        lines.extend([lo, hi]);
        lines.extend(objects.sites().zip(column).filter(|(s, v)| s.reaches(area) && (lo..=hi).contains(v)).map(|(_, &v)| v));
        lines.sort_unstable();
        lines.dedup();
        lines
    }
}

// ---- the estimate

/// The lines of both axes.
struct Grid {
    vertical: Vec<i32>,
    horizontal: Vec<i32>,
}

impl Grid {
    fn new(deck: &Deck, objects: &Objects) -> Grid {
        Grid { vertical: deck.lines(objects, true), horizontal: deck.lines(objects, false) }
    }

    /// Across, deep, the cut limit, the cells.
    fn estimate(&self, rounds: usize) -> [usize; 4] {
        let (across, deep) = ((self.vertical.len() - 1).max(1), (self.horizontal.len() - 1).max(1));
        [across, deep, across * deep - 1, (rounds + 1).min(across * deep)]
    }
}

/// The estimate from the job's bytes on, by the lines.
pub fn estimate(job: &[u8]) -> Result<[usize; 4], Refused> {
    let (deck, objects) = read(job)?;
    Ok(Grid::new(&deck, &objects).estimate(deck.rounds))
}

// ---- the stops of a cell

/// What a search prices with. `Stops` is what a cell keeps of the stops.
pub trait Pricing {
    type Stops: Copy;

    /// The start: the costs of the area's corners, its bound, its stops.
    fn start(&mut self, area: Rect) -> ([u64; 4], u64, Self::Stops);

    /// A cut of a cell with these stops in two parts: the costs of the two new corners, and the bound and the stops of each part.
    fn cut(&mut self, stops: Self::Stops, first: Rect, second: Rect) -> ([u64; 2], [(u64, Self::Stops); 2]);
}

/// Every pass over all stops.
struct All<'a>(&'a Objects);

impl Pricing for All<'_> {
    type Stops = ();

    fn start(&mut self, r: Rect) -> ([u64; 4], u64, ()) {
        let cost = |x, y| self.0.cost(x, y);
        ([cost(r.xlo, r.ylo), cost(r.xlo, r.yhi), cost(r.xhi, r.ylo), cost(r.xhi, r.yhi)], self.0.bound(r), ())
    }

    fn cut(&mut self, _: (), f: Rect, s: Rect) -> ([u64; 2], [(u64, ()); 2]) {
        let (costs, [before, behind]) = if f.xhi < s.xhi {
            self.0.cut(true, (f.xlo, f.xhi, s.xhi), (f.ylo, f.yhi))
        } else {
            self.0.cut(false, (f.ylo, f.yhi, s.yhi), (f.xlo, f.xhi))
        };
        (costs, [(before, ()), (behind, ())])
    }
}

/// Every pass over the stops that reach the area. The others pay their near wherever in the area the post stands.
struct Reaching {
    objects: Objects,
    others: u64,
}

impl Reaching {
    fn new(deck: &Deck, objects: &Objects) -> Reaching {
        let area = deck.axis.scaled(deck.area);
        let sites: Vec<Site> = objects.sites().filter(|s| s.reaches(area)).collect();
        let reaching = Objects {
            xs: sites.iter().map(|s| s.x).collect(),
            ys: sites.iter().map(|s| s.y).collect(),
            visits: sites.iter().map(|s| s.visits).collect(),
            near: sites.iter().map(|s| s.near).collect(),
        };
        Reaching { others: objects.before() - reaching.before(), objects: reaching }
    }
}

impl Pricing for Reaching {
    type Stops = ();

    fn start(&mut self, area: Rect) -> ([u64; 4], u64, ()) {
        let (costs, bound, ()) = All(&self.objects).start(area);
        (costs.map(|c| c + self.others), bound + self.others, ())
    }

    fn cut(&mut self, stops: (), first: Rect, second: Rect) -> ([u64; 2], [(u64, ()); 2]) {
        let (costs, parts) = All(&self.objects).cut(stops, first, second);
        (costs.map(|c| c + self.others), parts.map(|(bound, ())| (bound + self.others, ())))
    }
}

/// Every cell with a list of the stops that reach it, taken from the list of the cell that was cut.
struct Listed {
    rows: Vec<Site>,
}

/// A part of the rows, and what all other stops pay.
#[derive(Clone, Copy)]
struct List {
    from: usize,
    to: usize,
    others: u64,
}

impl Pricing for Listed {
    type Stops = List;

    fn start(&mut self, r: Rect) -> ([u64; 4], u64, List) {
        let others = self.rows.iter().filter(|s| !s.reaches(r)).map(|s| s.pays(s.near)).sum();
        self.rows.retain(|s| s.reaches(r));
        let cost = |x, y| others + self.rows.iter().map(|s| s.pays_at(x, y)).sum::<u64>();
        let bound = others + self.rows.iter().map(|s| s.pays(s.travel_to(r))).sum::<u64>();
        let costs = [cost(r.xlo, r.ylo), cost(r.xlo, r.yhi), cost(r.xhi, r.ylo), cost(r.xhi, r.yhi)];
        (costs, bound, List { from: 0, to: self.rows.len(), others })
    }

    fn cut(&mut self, stops: List, f: Rect, s: Rect) -> ([u64; 2], [(u64, List); 2]) {
        let mut costs = [stops.others; 2];
        for site in &self.rows[stops.from..stops.to] {
            costs[0] += site.pays_at(s.xlo, s.ylo);
            costs[1] += site.pays_at(f.xhi, f.yhi);
        }
        let parts = [f, s].map(|r| {
            let from = self.rows.len();
            let (mut inside, mut others) = (0, stops.others);
            for i in stops.from..stops.to {
                let site = self.rows[i];
                let travel = site.travel_to(r);
                if travel < site.near {
                    self.rows.push(site);
                    inside += site.pays(travel);
                } else {
                    others += site.pays(site.near);
                }
            }
            (inside + others, List { from, to: self.rows.len(), others })
        });
        (costs, parts)
    }
}

// ---- the search

/// A place with its cost, ordered as the best place is: by cost, then x, then y.
type PricedPlace = (u64, i32, i32);

#[derive(Clone, Copy)]
struct Cell<S> {
    /// First and last line, across and deep.
    x: (u16, u16),
    y: (u16, u16),
    bound: u64,
    stops: S,
}

/// The line strictly inside that is closest to the middle, the smaller on a tie.
fn middle(lines: &[i32], (lo, hi): (u16, u16)) -> u16 {
    let twice = lines[lo as usize] + lines[hi as usize];
    let inside = &lines[lo as usize + 1..hi as usize];
    let at = inside.partition_point(|&v| 2 * v < twice);
    let above = at == 0 || at < inside.len() && 2 * inside[at] - twice < twice - 2 * inside[at - 1];
    lo + 1 + (if above { at } else { at - 1 }) as u16
}

struct Found {
    done: bool,
    best: PricedPlace,
    low: u64,
    rounds: usize,
}

fn search<P: Pricing>(deck: &Deck, grid: &Grid, pricing: &mut P, out: &mut [i64]) -> Found {
    let (vs, hs) = (&grid.vertical[..], &grid.horizontal[..]);
    let edges = |x: (u16, u16), y: (u16, u16)| {
        let ((xlo, xhi), (ylo, yhi)) = ((vs[x.0 as usize], vs[x.1 as usize]), (hs[y.0 as usize], hs[y.1 as usize]));
        Rect { xlo, ylo, xhi, yhi }
    };
    let (a, axis) = (deck.area, deck.axis);
    let (x, y) = ((0, vs.len() as u16 - 1), (0, hs.len() as u16 - 1));
    let (costs, bound, stops) = pricing.start(axis.scaled(a));
    let mut best: PricedPlace = [(costs[0], a.xlo, a.ylo), (costs[1], a.xlo, a.yhi), (costs[2], a.xhi, a.ylo), (costs[3], a.xhi, a.yhi)].into_iter().min().unwrap();
    // lines are in order, so that (xlo, ylo) and the numbers of their lines have the same order
    let key = |c: &Cell<P::Stops>, i: usize| Reverse((c.bound, (c.x.0 as u32) << 16 | c.y.0 as u32, i as u32));
    let can_cut = |c: &Cell<P::Stops>| c.x.1 - c.x.0 > 1 || c.y.1 - c.y.0 > 1;
    let precedes = |c: &Cell<P::Stops>, best: PricedPlace| (c.bound, vs[c.x.0 as usize], hs[c.y.0 as usize]) < best;
    let mut cells: Vec<Cell<P::Stops>> = Vec::with_capacity(deck.rounds * 2 + 1);
    let mut heap = BinaryHeap::with_capacity(deck.rounds + 2);
    let area = Cell { x, y, bound, stops };
    if can_cut(&area) && precedes(&area, best) {
        heap.push(key(&area, 0));
        cells.push(area);
    }
    let mut rounds = 0;
    while rounds < deck.rounds {
        let Some(&Reverse((_, _, i))) = heap.peek() else {
            break;
        };
        let c = cells[i as usize];
        if !precedes(&c, best) {
            break;
        }
        heap.pop();
        rounds += 1;
        let (wide, deep) = (c.x.1 - c.x.0 > 1, c.y.1 - c.y.0 > 1);
        let r = edges(c.x, c.y);
        let (mut first, mut second) = (c, c);
        if wide && (!deep || r.xhi - r.xlo >= r.yhi - r.ylo) {
            let m = middle(vs, c.x);
            first.x.1 = m;
            second.x.0 = m;
        } else {
            let m = middle(hs, c.y);
            first.y.1 = m;
            second.y.0 = m;
        }
        let (f, s) = (edges(first.x, first.y), edges(second.x, second.y));
        let ([low, high], parts) = pricing.cut(c.stops, axis.scaled(f), axis.scaled(s));
        best = best.min((low, s.xlo, s.ylo)).min((high, f.xhi, f.yhi));
        for (mut c, (bound, stops)) in [first, second].into_iter().zip(parts) {
            (c.bound, c.stops) = (bound, stops);
            if can_cut(&c) && precedes(&c, best) {
                heap.push(key(&c, cells.len()));
                cells.push(c);
            }
        }
    }
    let mut live: Vec<_> = heap.into_iter().map(|Reverse(k)| k).filter(|k| precedes(&cells[k.2 as usize], best)).collect();
    live.sort_unstable();
    for (slot, k) in out.chunks_exact_mut(5).zip(&live) {
        let c = &cells[k.2 as usize];
        let r = edges(c.x, c.y);
        slot.copy_from_slice(&[r.xlo as i64, r.ylo as i64, r.xhi as i64, r.yhi as i64, c.bound as i64]);
    }
    out[5 * live.len()..].fill(0);
    Found { done: live.is_empty(), best, low: live.first().map_or(best.0, |k| k.0), rounds }
}

// ---- the text

struct Text<'a> {
    out: &'a mut [u8],
    at: usize,
}

impl Text<'_> {
    fn put(&mut self, bytes: &[u8]) -> &mut Self {
        self.out[self.at..self.at + bytes.len()].copy_from_slice(bytes);
        self.at += bytes.len();
        self
    }

    fn number(&mut self, z: i64) -> &mut Self {
        let (mut digits, mut i, mut n) = ([0u8; 20], 20, z.unsigned_abs());
        loop {
            i -= 1;
            digits[i] = b'0' + (n % 10) as u8;
            n /= 10;
            if n == 0 {
                break;
            }
        }
        if z < 0 {
            i -= 1;
            digits[i] = b'-';
        }
        self.put(&digits[i..])
    }
}

/// 0 for a report, else minus the number of the refusal, as `proved_report`.
fn report_with(job: &[u8], cells: &mut [i64], out: &mut [u8], find: impl FnOnce(&Deck, &Objects, &Grid, &mut [i64]) -> Found) -> i64 {
    let (deck, objects) = match read(job) {
        Ok(read) => read,
        Err((number, _)) => return -number,
    };
    let grid = Grid::new(&deck, &objects);
    if cells.len() < 5 * grid.estimate(deck.rounds)[3] {
        return -7;
    }
    if out.len() < 128 {
        return -8;
    }
    let f = find(&deck, &objects, &grid, cells);
    let mut t = Text { out, at: 0 };
    t.put(b"state=").put(if f.done { b"done" } else { b"stopped" });
    t.put(b"\nat=").number(f.best.1 as i64).put(b",").number(f.best.2 as i64);
    t.put(b"\nhigh=").number(f.best.0 as i64).put(b"\nlow=").number(f.low as i64);
    t.put(b"\nbefore=").number(objects.before() as i64).put(b"\nrounds=").number(f.rounds as i64).put(b"\n");
    0
}

pub fn report(job: &[u8], cells: &mut [i64], out: &mut [u8]) -> i64 {
    report_with(job, cells, out, |deck, objects, grid, cells| search(deck, grid, &mut All(objects), cells))
}

pub fn report_reaching(job: &[u8], cells: &mut [i64], out: &mut [u8]) -> i64 {
    report_with(job, cells, out, |deck, objects, grid, cells| search(deck, grid, &mut Reaching::new(deck, objects), cells))
}

pub fn report_listed(job: &[u8], cells: &mut [i64], out: &mut [u8]) -> i64 {
    report_with(job, cells, out, |deck, objects, grid, cells| search(deck, grid, &mut Listed { rows: objects.sites().collect() }, cells))
}
