//! Hand-written Rust for the same figures: 32-bit columns, iterators, nothing proved.

use std::hint::black_box;

use crate::read::{Axis, Rect};

pub struct Deck {
    area: Rect,
    axis: Axis,
    posts: Vec<(i64, i64)>,
    stops: Vec<(i64, i64, u64)>,
}

/// The sites of a deck at scaled places, one column a field.
pub struct Sites {
    axis: Axis,
    xs: Vec<i32>,
    ys: Vec<i32>,
    visits: Vec<u32>,
    near: Vec<u32>,
}

impl Deck {
    /// A deck over the whole range, from a fixed seed.
    pub fn full(axis: Axis, posts: usize, stops: usize) -> Deck {
        let mut state: u64 = 0x9e37_79b9_7f4a_7c15;
        let mut at = |n: u64| {
            state = state.wrapping_mul(6_364_136_223_846_793_005).wrapping_add(1_442_695_040_888_963_407);
            (state >> 33) % n
        };
        let mut coordinate = || at(40_001) as i64 - 20_000;
        Deck {
            area: Rect { xlo: -20_000, ylo: -20_000, xhi: 20_000, yhi: 20_000 },
            axis,
            posts: (0..posts).map(|_| (coordinate(), coordinate())).collect(),
            stops: (0..stops).map(|_| (coordinate(), coordinate(), (coordinate() + 20_001) as u64)).collect(),
        }
    }

    pub fn spell(&self) -> Vec<u8> {
        let r = &self.area;
        let mut text = format!("area={},{},{},{}\n{}posts={}\n", r.xlo, r.ylo, r.xhi, r.yhi, self.axis.line(), self.posts.len());
        for (x, y) in &self.posts {
            text += &format!("post={x},{y}\n");
        }
        text += &format!("stops={}\n", self.stops.len());
        for (x, y, visits) in &self.stops {
            text += &format!("stop={x},{y},{visits}\n");
        }
        (text + "rounds=0\n").into_bytes()
    }

    pub fn sites(&self) -> Sites {
        self.sites_with(near_by_stops)
    }

    fn sites_with(&self, near: Near) -> Sites {
        let Axis { a, b } = self.axis;
        let px: Vec<i32> = self.posts.iter().map(|p| a * p.0 as i32).collect();
        let py: Vec<i32> = self.posts.iter().map(|p| b * p.1 as i32).collect();
        let xs: Vec<i32> = self.stops.iter().map(|s| a * s.0 as i32).collect();
        let ys: Vec<i32> = self.stops.iter().map(|s| b * s.1 as i32).collect();
        let near = near(&px, &py, &xs, &ys).into_iter().map(|m| m as u32).collect();
        Sites { axis: self.axis, xs, ys, visits: self.stops.iter().map(|s| s.2 as u32).collect(), near }
    }

    /// The lines along an axis, in plain tenths.
    pub fn lines(&self, s: &Sites, across: bool) -> Vec<i64> {
        let (r, area) = (&self.area, self.axis.scaled(self.area));
        let (lo, hi) = if across { (r.xlo, r.xhi) } else { (r.ylo, r.yhi) };
        let (lo, hi) = (lo as i64, hi as i64);
        let mut lines: Vec<i64> = s
            .rows()
            .zip(&self.stops)
            .filter(|&((x, y, _, near), _)| reached(x, y, near, &area))
            .map(|(_, stop)| if across { stop.0 } else { stop.1 })
            .filter(|v| (lo..=hi).contains(v))
            .chain([lo, hi])
            .collect();
        lines.sort();
        lines.dedup();
        lines
    }
}

impl Sites {
    #[inline]
    fn rows(&self) -> impl Iterator<Item = (i32, i32, u32, u32)> + '_ {
        let columns = self.xs.iter().zip(&self.ys).zip(&self.visits).zip(&self.near);
        columns.map(|(((&x, &y), &v), &n)| (x, y, v, n))
    }
}

/// The near of each stop, from the places of the posts and of the stops.
pub type Near = fn(&[i32], &[i32], &[i32], &[i32]) -> Vec<i32>;

pub fn near_by_stops(px: &[i32], py: &[i32], xs: &[i32], ys: &[i32]) -> Vec<i32> {
    let closest = |(&x, &y): (&i32, &i32)| px.iter().zip(py).map(|(&u, &v)| (x - u).abs() + (y - v).abs()).min().unwrap();
    xs.iter().zip(ys).map(closest).collect()
}

#[inline]
fn travel_to(x: i32, y: i32, r: &Rect) -> u32 {
    let dx = (r.xlo - x).max(0) + (x - r.xhi).max(0);
    let dy = (r.ylo - y).max(0) + (y - r.yhi).max(0);
    (dx + dy) as u32
}

#[inline]
fn reached(x: i32, y: i32, near: u32, r: &Rect) -> bool {
    travel_to(x, y, r) < near
}

fn cost(s: &Sites, px: i32, py: i32) -> u64 {
    s.rows().map(|(x, y, v, near)| v as u64 * near.min(((x - px).abs() + (y - py).abs()) as u32) as u64).sum()
}

fn load(s: &Sites, r: &Rect) -> u64 {
    s.rows().map(|(x, y, v, near)| if reached(x, y, near, r) { v } else { 0 }).sum::<u32>() as u64
}

fn bound(s: &Sites, r: &Rect) -> u64 {
    s.rows().map(|(x, y, v, near)| v as u64 * near.min(travel_to(x, y, r)) as u64).sum()
}

/// From the costs of the corners and the load, each found by a pass of its own.
fn corner_bound(s: &Sites, r: &Rect) -> i64 {
    let first = cost(s, r.xlo, r.ylo) + cost(s, r.xhi, r.yhi);
    let second = cost(s, r.xlo, r.yhi) + cost(s, r.xhi, r.ylo);
    let span = (r.xhi - r.xlo + r.yhi - r.ylo) as i64;
    (first.max(second) as i64 - span * load(s, r) as i64 + 1) >> 1
}

/// The line strictly between lo and hi that is closest to the middle, the smaller on a tie; lo where there is none.
fn middle(lines: &[i64], lo: i64, hi: i64) -> i64 {
    let at = lines.partition_point(|&v| v < (lo + hi + 1) >> 1);
    let below = if at == 0 { lo } else { lines[at - 1].max(lo) };
    let above = lines.get(at).map_or(hi, |&v| v.min(hi));
    if lo + hi <= below + above { below } else { above }
}

/// The line of the cut; 0 for none.
fn cut(xs: &[i64], ys: &[i64], r: &Rect) -> i64 {
    let (xlo, ylo, xhi, yhi) = (r.xlo as i64, r.ylo as i64, r.xhi as i64, r.yhi as i64);
    let (x, y) = (middle(xs, xlo, xhi), middle(ys, ylo, yhi));
    match (x > xlo, y > ylo) {
        (false, false) => 0,
        (false, true) => y,
        (true, false) => x,
        (true, true) => if xhi - xlo < yhi - ylo { y } else { x },
    }
}

// ---- the turns of crates/kernels/src/lib.rt

fn spread(t: u64, factor: u64, less: i32) -> i32 {
    ((t % 65_536) * factor % 20_001) as i32 - less
}

fn rect(t: u64) -> Rect {
    Rect { xlo: spread(t, 7919, 20_000), ylo: spread(t, 6007, 20_000), xhi: spread(t, 4409, 0), yhi: spread(t, 3001, 0) }
}

pub fn near_many(deck: &Deck, k: u64, near: Near) -> i64 {
    (0..k).map(|t| black_box(deck).sites_with(near).near.get((t % 512) as usize).copied().unwrap_or(0) as i64).sum()
}

pub fn cost_many(s: &Sites, k: u64) -> i64 {
    (0..k).map(|t| cost(s, s.axis.a * spread(t, 7919, 10_000), s.axis.b * spread(t, 6007, 10_000)) as i64).sum()
}

pub fn load_many(s: &Sites, k: u64) -> i64 {
    (0..k).map(|t| load(s, &s.axis.scaled(rect(t))) as i64).sum()
}

pub fn bound_many(s: &Sites, k: u64) -> i64 {
    (0..k).map(|t| bound(s, &s.axis.scaled(rect(t))) as i64).sum()
}

pub fn corner_bound_many(s: &Sites, k: u64) -> i64 {
    (0..k).filter(|&t| corner_bound(s, &s.axis.scaled(rect(t))) > 0).count() as i64
}

pub fn cut_many(xs: &[i64], ys: &[i64], k: u64) -> i64 {
    (0..k).filter(|&t| cut(xs, ys, &rect(t)) > 0).count() as i64
}
