//! Hand-written Rust for writing a job from a deck's record, and the records that are measured.

use crate::layout::{AxisCosts, Deck, Place, Rect, Stop, POSTS, STOPS};
use crate::read::{read, Axis, Refused};

/// What a writer looks at. Near and before do not count.
struct Held<'a> {
    deck: &'a Deck,
    rounds: u64,
}

// ---- the refusals

/// The coordinates and the natural numbers of a line: all of at most nine digits, and in range.
#[inline]
fn line<const N: usize, const M: usize>(line: usize, xy: [i64; N], naturals: [(u64, u64, u64); M]) -> Result<(), Refused> {
    if xy.iter().all(|v| v.unsigned_abs() <= 20_000) && naturals.iter().all(|(lo, n, hi)| lo <= n && n <= hi) {
        return Ok(());
    }
    let short = xy.iter().all(|v| v.unsigned_abs() < 1_000_000_000) && naturals.iter().all(|&(_, n, _)| n < 1_000_000_000);
    Err((if short { 3 } else { 2 }, line as i64))
}

impl Held<'_> {
    fn posts(&self) -> &[Place] {
        &self.deck.posts[..self.deck.post_count.min(POSTS)]
    }

    fn stops(&self) -> &[Stop] {
        &self.deck.stops[..self.deck.stop_count.min(STOPS)]
    }

    fn area(&self) -> [i64; 4] {
        let Rect { xlo, ylo, xhi, yhi } = self.deck.area;
        [xlo, ylo, xhi, yhi]
    }

    fn writes_axis(&self) -> bool {
        self.deck.axis != AxisCosts { a: 1, b: 1 }
    }

    fn check(&self) -> Result<(), Refused> {
        line(1, self.area(), [])?;
        if self.writes_axis() {
            let AxisCosts { a, b } = self.deck.axis;
            line(2, [], [(1, a, 9), (1, b, 9)])?;
        }
        let at = 2 + self.writes_axis() as usize;
        line(at, [], [(0, self.deck.post_count as u64, POSTS as u64)])?;
        for (i, p) in self.posts().iter().enumerate() {
            line(at + 1 + i, [p.x, p.y], [])?;
        }
        let at = at + 1 + self.deck.post_count;
        line(at, [], [(0, self.deck.stop_count as u64, STOPS as u64)])?;
        for (i, s) in self.stops().iter().enumerate() {
            line(at + 1 + i, [s.at.x, s.at.y], [(1, s.visits, 65_535)])?;
        }
        line(at + 1 + self.deck.stop_count, [], [(0, self.rounds, 1_000)])?;
        let Rect { xlo, ylo, xhi, yhi } = self.deck.area;
        if xlo > xhi || ylo > yhi {
            return Err((4, 0));
        }
        if self.deck.post_count == 0 {
            return Err((5, 0));
        }
        if self.deck.stop_count == 0 {
            return Err((6, 0));
        }
        Ok(())
    }
}

// ---- the text of a record whose numbers are in range

/// The digits of a number of at most five.
#[inline]
fn digits(n: u32) -> usize {
    1 + (n >= 10) as usize + (n >= 100) as usize + (n >= 1_000) as usize + (n >= 10_000) as usize
}

/// The bytes of a coordinate.
#[inline]
fn width(z: i64) -> usize {
    (z < 0) as usize + digits(z.unsigned_abs() as u32)
}

struct Text<'a> {
    out: &'a mut [u8],
    at: usize,
}

impl Text<'_> {
    #[inline]
    fn put(&mut self, bytes: &[u8]) -> &mut Self {
        self.out[self.at..self.at + bytes.len()].copy_from_slice(bytes);
        self.at += bytes.len();
        self
    }

    #[inline]
    fn natural(&mut self, n: u64) -> &mut Self {
        let mut n = n as u32;
        let count = digits(n);
        let place = &mut self.out[self.at..self.at + count];
        for byte in place.iter_mut().rev() {
            *byte = b'0' + (n % 10) as u8;
            n /= 10;
        }
        self.at += count;
        self
    }

    #[inline]
    fn coordinate(&mut self, z: i64) -> &mut Self {
        if z < 0 {
            self.put(b"-");
        }
        self.natural(z.unsigned_abs())
    }
}

impl Held<'_> {
    fn length(&self) -> usize {
        let area = self.area().iter().map(|&z| width(z)).sum::<usize>() + "area=,,,\n".len();
        let posts = self.posts().iter().map(|p| width(p.x) + width(p.y) + "post=,\n".len()).sum::<usize>();
        let stop = |s: &Stop| width(s.at.x) + width(s.at.y) + digits(s.visits as u32) + "stop=,,\n".len();
        let stops = self.stops().iter().map(stop).sum::<usize>();
        let counts = [self.deck.post_count, self.deck.stop_count, self.rounds as usize].iter().map(|&n| digits(n as u32)).sum::<usize>();
        let axis = if self.writes_axis() { "axis=1,1\n".len() } else { 0 };
        area + axis + posts + stops + counts + "posts=\nstops=\nrounds=\n".len()
    }

    fn text(&self, out: &mut [u8]) {
        let [xlo, ylo, xhi, yhi] = self.area();
        let mut t = Text { out, at: 0 };
        t.put(b"area=").coordinate(xlo).put(b",").coordinate(ylo).put(b",").coordinate(xhi).put(b",").coordinate(yhi);
        if self.writes_axis() {
            t.put(b"\naxis=").natural(self.deck.axis.a).put(b",").natural(self.deck.axis.b);
        }
        t.put(b"\nposts=").natural(self.deck.post_count as u64);
        for p in self.posts() {
            t.put(b"\npost=").coordinate(p.x).put(b",").coordinate(p.y);
        }
        t.put(b"\nstops=").natural(self.deck.stop_count as u64);
        for s in self.stops() {
            t.put(b"\nstop=").coordinate(s.at.x).put(b",").coordinate(s.at.y).put(b",").natural(s.visits);
        }
        t.put(b"\nrounds=").natural(self.rounds).put(b"\n");
    }
}

/// The bytes written, or the refusal.
pub fn write(deck: &Deck, rounds: u64, out: &mut [u8]) -> Result<usize, Refused> {
    let held = Held { deck, rounds };
    held.check()?;
    let length = held.length();
    if out.len() < length {
        return Err((8, 0));
    }
    held.text(&mut out[..length]);
    Ok(length)
}

// ---- the records that are measured

/// The record of a job, as it is read, and the rounds.
pub fn record(job: &[u8]) -> (Deck, u64) {
    let (read, objects) = read(job).unwrap_or_else(|_| panic!("refused"));
    let [xlo, ylo, xhi, yhi] = [read.area.xlo, read.area.ylo, read.area.xhi, read.area.yhi].map(i64::from);
    let place = |x: &i32, y: &i32| Place { x: (*x).into(), y: (*y).into() };
    let mut deck = Deck {
        area: Rect { xlo, ylo, xhi, yhi },
        axis: AxisCosts { a: read.axis.a as u64, b: read.axis.b as u64 },
        post_count: read.post_x.len(),
        posts: [Place::default(); POSTS],
        stop_count: read.xs.len(),
        stops: [Stop::default(); STOPS],
        near: [0; STOPS],
        before: objects.before(),
    };
    for (i, (x, y)) in read.post_x.iter().zip(&read.post_y).enumerate() {
        deck.posts[i] = place(x, y);
    }
    for (i, (x, y)) in read.xs.iter().zip(&read.ys).enumerate() {
        deck.stops[i] = Stop { at: place(x, y), visits: objects.visits[i].into() };
        deck.near[i] = objects.near[i] as u64;
    }
    (deck, read.rounds as u64)
}

/// A job of the most posts and stops, all numbers of 1 to 5 digits from a fixed seed.
pub fn mixed(axis: Axis) -> Vec<u8> {
    let mut state: u64 = 0x2545_f491_4f6c_dd1d;
    let mut below = |n: u64| {
        state = state.wrapping_mul(6_364_136_223_846_793_005).wrapping_add(1_442_695_040_888_963_407);
        (state >> 33) % n
    };
    let mut natural = || {
        let size = [10, 100, 1_000, 10_000, 20_001][below(5) as usize];
        below(size)
    };
    let visits: Vec<u64> = (0..STOPS).map(|_| natural() + 1).collect();
    let mut coordinate = || {
        let n = natural() as i64;
        if natural() % 2 == 0 { n } else { -n }
    };
    let [post_x, post_y, stop_x, stop_y] = [POSTS, POSTS, STOPS, STOPS].map(|n| (0..n).map(|_| coordinate()).collect::<Vec<i64>>());
    let mut text = format!("area=-20000,-20000,20000,20000\n{}posts={POSTS}\n", axis.line());
    for (x, y) in post_x.iter().zip(&post_y) {
        text += &format!("post={x},{y}\n");
    }
    text += &format!("stops={STOPS}\n");
    for ((x, y), visits) in stop_x.iter().zip(&stop_y).zip(&visits) {
        text += &format!("stop={x},{y},{visits}\n");
    }
    (text + "rounds=1000\n").into_bytes()
}
