//! Random jobs: valid ones of many shapes, and damaged ones. The generator is a plain xorshift, so that a printed seed repeats a run.

use crate::reference::{spell, spell_out, Axis, Job, Place, Rect, Stop};
use crate::vectors::WRONG_AXIS_LINES;

pub struct Random(u64);

impl Random {
    pub fn new(seed: u64) -> Random {
        Random(seed | 1)
    }

    pub fn next(&mut self) -> u64 {
        self.0 ^= self.0 << 13;
        self.0 ^= self.0 >> 7;
        self.0 ^= self.0 << 17;
        self.0.wrapping_mul(0x2545_F491_4F6C_DD1D)
    }

    /// A number of lo ..= hi.
    pub fn range(&mut self, lo: i64, hi: i64) -> i64 {
        lo + (self.next() >> 11) as i64 % (hi - lo + 1)
    }

    pub fn one_in(&mut self, n: i64) -> bool {
        self.range(1, n) == 1
    }

    pub fn pick<T: Copy>(&mut self, from: &[T]) -> T {
        from[self.range(0, from.len() as i64 - 1) as usize]
    }
}

/// A seed from the environment (SEED) or from the clock; printed, so that a failure can be repeated.
pub fn seed() -> u64 {
    let seed = std::env::var("SEED").ok().and_then(|s| s.parse().ok()).unwrap_or_else(|| {
        std::time::SystemTime::now().duration_since(std::time::UNIX_EPOCH).unwrap().as_nanos() as u64
    });
    println!("SEED={seed}");
    seed
}

/// So many random jobs, one after another.
pub fn each_job(count: usize, bytes: impl Fn(&mut Random) -> Vec<u8>, mut check: impl FnMut(&mut Random, &[u8])) {
    let mut random = Random::new(seed());
    for _ in 0..count {
        let job = bytes(&mut random);
        check(&mut random, &job);
    }
}

/// So many turns, and then more until enough was seen, up to twenty times as many: no test fails by chance.
pub fn turns<T: std::fmt::Debug>(seen: &mut T, count: usize, enough: impl Fn(&T) -> bool, mut turn: impl FnMut(&mut T, usize)) {
    let mut made = 0;
    while made < count || made < 20 * count && !enough(seen) {
        turn(seen, made);
        made += 1;
    }
    println!("{made} turns of {count}: {seen:?}");
    assert!(enough(seen), "{seen:?}");
}

/// Axis costs, 1,1 about half the time.
pub fn axis(random: &mut Random) -> Axis {
    if random.one_in(2) {
        return Axis::PLAIN;
    }
    Axis { a: random.range(1, 9), b: random.range(1, 9) }
}

/// A job's bytes. Axis costs of 1,1 are mostly left out, and sometimes spelled out.
pub fn spelling(random: &mut Random, job: &Job) -> Vec<u8> {
    if random.one_in(8) { spell_out(job) } else { spell(job) }
}

/// The bytes of such jobs.
pub fn spelled(job: impl Fn(&mut Random) -> Job) -> impl Fn(&mut Random) -> Vec<u8> {
    move |random| {
        let j = job(random);
        spelling(random, &j)
    }
}

/// A valid job. Most have small coordinates, so that ties, equal places and stops on edges are common; some are extreme.
pub fn job(random: &mut Random) -> Job {
    let size = match random.range(1, 10) {
        1 => 20_000,
        2 => 1_000,
        3..=5 => 30,
        6..=8 => 8,
        _ => 3,
    };
    let most_stops = match random.range(1, 12) {
        1 => 512,
        2..=4 => 40,
        _ => 6,
    };
    job_of(random, size, most_stops)
}

pub fn job_of(random: &mut Random, size: i64, most_stops: i64) -> Job {
    let centre = if size < 19_000 && random.one_in(4) { random.range(-20_000 + size, 20_000 - size) } else { 0 };
    let at = |random: &mut Random| centre + random.range(-size, size);
    let (x, y) = (at(random), at(random));
    let (mut u, mut v) = (at(random), at(random));
    // points and segments
    if random.one_in(12) {
        u = x;
    }
    if random.one_in(12) {
        v = y;
    }
    let area = Rect { xlo: x.min(u), ylo: y.min(v), xhi: x.max(u), yhi: y.max(v) };
    let most_posts = if random.one_in(8) { 64 } else { 4 };
    let posts: Vec<_> = (0..random.range(1, most_posts)).map(|_| (at(random), at(random))).collect();
    let most_visits = if random.one_in(6) { 65_535 } else { 5 };
    let mut stops: Vec<Stop> = Vec::new();
    for _ in 0..random.range(1, most_stops) {
        let place = match random.range(1, 12) {
            // a stop at a post, at an earlier stop, or the mirror image of one
            1 => random.pick(&posts),
            2 if !stops.is_empty() => random.pick(&stops).at,
            3 if !stops.is_empty() => {
                let s = random.pick(&stops).at;
                (mirrored(s.0, area.xlo, area.xhi), s.1)
            }
            _ => (at(random), at(random)),
        };
        stops.push(Stop { at: place, visits: random.range(1, most_visits) });
    }
    let rounds = match random.range(1, 5) {
        1 => random.range(0, 3),
        2 => 1_000,
        _ => random.range(0, 60),
    };
    Job { area, axis: axis(random), posts, stops, rounds }
}

/// 512 stops anywhere on a deck of twice `width` by twice `depth`, and 64 posts at its left and right ends: a long search.
pub fn crowded(random: &mut Random, width: i64, depth: i64, most_visits: i64) -> Job {
    let stop = |random: &mut Random| Stop {
        at: (random.range(-width, width), random.range(-depth, depth)),
        visits: random.range(1, most_visits),
    };
    Job {
        area: Rect { xlo: -width, ylo: -depth, xhi: width, yhi: depth },
        axis: Axis::PLAIN,
        posts: (0..64).map(|i| (if i % 2 == 0 { -width } else { width }, random.range(-depth, depth))).collect(),
        stops: (0..512).map(|_| stop(random)).collect(),
        rounds: 1_000,
    }
}

fn mirrored(v: i64, lo: i64, hi: i64) -> i64 {
    (lo + hi - v).clamp(-20_000, 20_000)
}

/// A job of at most 10 stops, a few tenths from each other.
pub fn small(random: &mut Random) -> Job {
    let size = random.range(1, 14);
    job_of(random, size, 10)
}

/// A job with one post, far away, and an area that reaches so far on each side of the centre: most stops are within reach of it, and searches
/// are long. Size and stops as in `job_of`.
pub fn far_post(random: &mut Random, size: i64, stops: i64, reach: i64) -> Job {
    let far = Job { posts: vec![(20_000, -20_000)], ..job_of(random, size, stops) };
    Job { area: Rect { xlo: -reach, ylo: -reach, xhi: reach, yhi: reach }, ..far }
}

/// A job of a shape in which many places cost the same, or in which little is left to search.
pub fn special(random: &mut Random) -> Job {
    let size = random.pick(&[2, 5, 9, 40, 1_000, 20_000]);
    let mut j = job_of(random, size, 12);
    let a = j.area;
    match random.range(1, 11) {
        // the same from all four sides: stops and posts mirrored in the middle of the area
        1 => {
            j.stops = j.stops.iter().flat_map(|s| images(s.at, a).map(|at| Stop { at, ..*s })).collect();
            j.posts = j.posts.iter().take(16).flat_map(|&p| images(p, a)).collect();
        }
        // the same with x and y exchanged: the sides of a cell are often equal
        2 => {
            j.axis.b = j.axis.a;
            let (lo, hi) = (a.xlo.min(a.ylo), a.xhi.max(a.yhi));
            j.area = Rect { xlo: lo, ylo: lo, xhi: hi, yhi: hi };
            j.stops = j.stops.iter().flat_map(|s| [s.at, (s.at.1, s.at.0)].map(|at| Stop { at, ..*s })).collect();
            j.posts = j.posts.iter().take(32).flat_map(|&p| [p, (p.1, p.0)]).collect();
        }
        // a lattice
        3 => {
            let (n, step) = (random.range(2, 8), random.range(1, (size / 8).max(1)));
            let visits = random.range(1, 3);
            j.stops = (0..n * n).map(|i| Stop { at: (i / n * step, i % n * step), visits }).collect();
            j.area = Rect { xlo: 0, ylo: 0, xhi: (n - 1) * step, yhi: (n - 1) * step };
        }
        // all stops at one place
        4 => {
            let at = j.stops[0].at;
            j.stops.iter_mut().for_each(|s| s.at = at);
        }
        // each stop at a post: every place costs 0
        5 => {
            let posts = j.posts.clone();
            j.stops.iter_mut().for_each(|s| s.at = random.pick(&posts));
        }
        // the area is a point, or a segment
        6 => j.area = Rect { xhi: a.xlo, yhi: a.ylo, ..a },
        7 => j.area = Rect { xhi: a.xlo, ..a },
        8 => j.area = Rect { yhi: a.ylo, ..a },
        // the stops on the edges of the area
        9 => {
            for s in &mut j.stops {
                match random.range(1, 4) {
                    1 => s.at.0 = a.xlo,
                    2 => s.at.0 = a.xhi,
                    3 => s.at.1 = a.ylo,
                    _ => s.at.1 = a.yhi,
                }
            }
        }
        // each stop beside a post of its own: most cells are out of reach of all stops, and cost before
        10 => {
            j.area = Rect { xlo: -size, ylo: -size, xhi: size, yhi: size };
            let at = |random: &mut Random| (random.range(-size, size), random.range(-size, size));
            j.stops = (0..random.range(4, 16)).map(|_| Stop { at: at(random), visits: random.range(1, 2) }).collect();
            j.posts = j.stops.iter().map(|s| (if s.at.0 < 0 { s.at.0 + 1 } else { s.at.0 - 1 }, s.at.1)).collect();
        }
        // all on one line through the area
        _ => j.stops.iter_mut().for_each(|s| s.at.1 = a.ylo),
    }
    j
}

/// A place and its mirror images in the middle of the area, both ways.
fn images(p: (i64, i64), a: Rect) -> [(i64, i64); 4] {
    let q = (mirrored(p.0, a.xlo, a.xhi), mirrored(p.1, a.ylo, a.yhi));
    [p, (q.0, p.1), (p.0, q.1), q]
}

/// The most stops and posts, at the ends of the range, with the most visits, and often with the most axis costs.
pub fn largest(random: &mut Random) -> Job {
    let far = random.range(1, 3);
    let at = |random: &mut Random| match random.range(1, 3) {
        1 => -20_000,
        2 => 20_000,
        _ if far == 1 => random.range(-20_000, 20_000),
        _ => 0,
    };
    let ends = random.one_in(2);
    let area = if ends {
        Rect { xlo: -20_000, ylo: -20_000, xhi: 20_000, yhi: 20_000 }
    } else {
        rect(random, 20_000)
    };
    let posts = if random.one_in(3) { 1 } else { 64 };
    let stops = 512;
    Job {
        area,
        axis: if random.one_in(3) { Axis { a: 9, b: 9 } } else { axis(random) },
        posts: (0..posts).map(|_| if random.one_in(2) { (20_000, 20_000) } else { (at(random), at(random)) }).collect(),
        stops: (0..stops).map(|_| Stop { at: (at(random), at(random)), visits: if far == 2 { random.range(1, 65_535) } else { 65_535 } }).collect(),
        rounds: 1_000,
    }
}

/// A rectangle within -size ..= size on both axes.
pub fn rect(random: &mut Random, size: i64) -> Rect {
    let (x, y, mut u, mut v) = (random.range(-size, size), random.range(-size, size), random.range(-size, size), random.range(-size, size));
    // points and segments
    if random.one_in(6) {
        u = x;
    }
    if random.one_in(6) {
        v = y;
    }
    Rect { xlo: x.min(u), ylo: y.min(v), xhi: x.max(u), yhi: y.max(v) }
}

/// A rectangle for a job, whether or not a search of it makes such a cell: each edge at a stop, at a post, at an edge of the area, at an end of
/// the range, or within -size ..= size. A part are points and segments.
pub fn any_rect(random: &mut Random, job: &Job, size: i64) -> Rect {
    let a = job.area;
    let edge = |random: &mut Random, along: fn(Place) -> i64| match random.range(1, 8) {
        1 => random.pick(&[-20_000, 20_000]),
        2 => along(random.pick(&[(a.xlo, a.ylo), (a.xhi, a.yhi)])),
        3 => along(random.pick(&job.posts)),
        4 | 5 => along(random.pick(&job.stops).at),
        _ => random.range(-size, size),
    };
    let edges = |random: &mut Random, along| {
        let (v, w) = (edge(random, along), edge(random, along));
        if random.one_in(5) { (v, v) } else { (v.min(w), v.max(w)) }
    };
    let ((xlo, xhi), (ylo, yhi)) = (edges(random, |p| p.0), edges(random, |p| p.1));
    Rect { xlo, ylo, xhi, yhi }
}

/// The bytes of a job, damaged in one of many ways.
pub fn damaged(random: &mut Random) -> Vec<u8> {
    let mut job = job_of(random, 30, 5);
    match random.range(1, 6) {
        1 => job.area.xlo = job.area.xhi + 1,
        2 => job.posts.clear(),
        3 => job.stops.clear(),
        4 => job.rounds = random.range(990, 1_010),
        _ => {}
    }
    let mut text = spelling(random, &job);
    if random.one_in(5) {
        damage_axis(random, &mut text);
    }
    for _ in 0..random.range(0, 2) {
        damage(random, &mut text);
    }
    text
}

/// An axis line twice, in another place, cut off or wrong.
fn damage_axis(random: &mut Random, text: &mut Vec<u8>) {
    let mut lines: Vec<Vec<u8>> = text.split_inclusive(|&b| b == 10).map(<[u8]>::to_vec).collect();
    if !lines[1].starts_with(b"axis=") {
        lines.insert(1, b"axis=2,1\n".to_vec());
    }
    let place = random.range(0, lines.len() as i64 - 1) as usize;
    match random.range(1, 8) {
        1 => lines.insert(2, lines[1].clone()),
        2 => lines.swap(1, place),
        3 => lines.insert(place, lines[1].clone()),
        4 => {
            let end = random.range(0, lines[1].len() as i64 - 1) as usize;
            lines[1].truncate(end);
            if random.one_in(2) {
                lines.truncate(2);
            }
        }
        _ => lines[1] = random.pick(&WRONG_AXIS_LINES).0.into(),
    }
    *text = lines.concat();
}

fn damage(random: &mut Random, text: &mut Vec<u8>) {
    if text.is_empty() {
        return;
    }
    let at = random.range(0, text.len() as i64 - 1) as usize;
    let byte = random.pick(b"0123456789-+,=\n\r aeiopstx\0\xff");
    match random.range(1, 9) {
        1 => text[at] = byte,
        2 => text.insert(at, byte),
        3 => {
            text.remove(at);
        }
        4 => text.truncate(at),
        5 => text.push(byte),
        6 => {
            text.pop();
        }
        7 => number(random, text, at),
        8 => {
            // a line twice, or one line lost
            let start = text[..at].iter().rposition(|&b| b == 10).map_or(0, |i| i + 1);
            let end = text[at..].iter().position(|&b| b == 10).map_or(text.len(), |i| at + i + 1);
            let line = text[start..end].to_vec();
            if random.one_in(2) {
                text.splice(start..start, line);
            } else {
                text.drain(start..end);
            }
        }
        _ => text.extend(std::iter::repeat(b'a').take(random.range(16_000, 17_000) as usize)),
    }
}

/// Another number in the place of one.
fn number(random: &mut Random, text: &mut Vec<u8>, at: usize) {
    let Some(start) = text[at..].iter().position(u8::is_ascii_digit).map(|i| at + i) else {
        return;
    };
    let end = text[start..].iter().position(|b| !b.is_ascii_digit()).map_or(text.len(), |i| start + i);
    let with = match random.range(1, 12) {
        1 => "0".into(),
        2 => "-0".into(),
        3 => "00".into(),
        4 => "1000000000".into(),
        5 => "999999999".into(),
        6 => "-999999999".into(),
        7 => "20000".into(),
        8 => "20001".into(),
        9 => "65536".into(),
        10 => "".into(),
        11 => "01".into(),
        _ => random.range(-25_000, 70_000).to_string(),
    };
    text.splice(start..end, with.into_bytes());
}

/// Bytes without any form.
pub fn noise(random: &mut Random) -> Vec<u8> {
    (0..random.range(0, 200)).map(|_| random.next() as u8).collect()
}
