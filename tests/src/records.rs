//! Random records: those of valid jobs, with numbers behind their lists, and records of any numbers.

use crate::generate::{job, largest, special, Random};
use crate::reference::{Axis, Job, Record, Rect, Stop};

/// The ends of the ranges, of ten digits and of the machine's numbers, and what could be mistaken for a number in range.
#[rustfmt::skip]
pub const COORDINATES: [i64; 27] = [
    0, 1, -1, 9, -10, 19_999, 20_000, -20_000, 20_001, -20_001, 65_535, 65_536, 99_999, -100_000, 999_999_999, -999_999_999,
    1_000_000_000, -1_000_000_000, 1 << 32, (1 << 32) + 5, -(1 << 32) - 5, i32::MIN as i64, i32::MAX as i64,
    i64::MIN, i64::MIN + 1, i64::MAX, i64::MAX - 1,
];
#[rustfmt::skip]
pub const NATURALS: [u64; 29] = [
    0, 1, 2, 9, 10, 63, 64, 65, 511, 512, 513, 999, 1_000, 1_001, 65_534, 65_535, 65_536, 65_537, 999_999_999, 1_000_000_000,
    1_000_000_001, 1 << 32, (1 << 32) + 1, i64::MAX as u64, 1 << 63, (1 << 63) + 1, 9_999_999_999_999_999_999,
    10_000_000_000_000_000_000, u64::MAX,
];
/// One number in so many from these: none.
pub const NEVER: i64 = 1 << 40;

pub fn coordinate(random: &mut Random, ends: i64) -> i64 {
    if random.one_in(ends) {
        return random.pick(&COORDINATES);
    }
    let size = random.pick(&[9, 99, 999, 20_000]);
    random.range(-size, size)
}

pub fn natural(random: &mut Random, ends: i64, lo: i64, hi: i64) -> u64 {
    if random.one_in(ends) {
        return random.pick(&NATURALS);
    }
    random.range(lo, hi) as u64
}

/// Any near and before: zeros, ends, small numbers, numbers that could be right, or numbers of the whole type.
pub fn redraw(random: &mut Random, record: &mut Record) {
    let kind = random.range(1, 5);
    let mut any = || match kind {
        1 => 0,
        2 => random.pick(&NATURALS),
        3 => random.range(0, 9) as u64,
        4 => random.range(0, 720_000) as u64,
        _ => random.next(),
    };
    record.near = [(); 512].map(|()| any());
    record.before = any();
}

/// Numbers for all that does not count: the elements behind the lists, near and before.
pub fn litter(random: &mut Random, record: &mut Record, ends: i64) {
    for i in record.posts.min(64) as usize..64 {
        (record.post_x[i], record.post_y[i]) = (coordinate(random, ends), coordinate(random, ends));
    }
    for i in record.stops.min(512) as usize..512 {
        (record.stop_x[i], record.stop_y[i]) = (coordinate(random, ends), coordinate(random, ends));
        record.visits[i] = natural(random, ends, 1, 65_535);
    }
    redraw(random, record);
}

/// The record of a valid job, with numbers behind its lists and any near and before.
pub fn valid(random: &mut Random, ends: i64) -> Record {
    let mut record = Record::of(&match random.range(1, 12) {
        1 => largest(random),
        2..=4 => special(random),
        _ => job(random),
    });
    litter(random, &mut record, ends);
    record
}

/// Which post and which stop: one that counts, if any does.
pub fn items(random: &mut Random, record: &Record) -> (usize, usize) {
    let mut item = |n: u64, most: u64| random.range(0, n.clamp(1, most) as i64 - 1) as usize;
    (item(record.posts, 64), item(record.stops, 512))
}

/// An end in the place of a number that counts.
pub fn replace(random: &mut Random, record: &mut Record) {
    let (post, stop) = items(random, record);
    let (z, n) = (random.pick(&COORDINATES), random.pick(&NATURALS));
    match random.range(1, 10) {
        1 => record.area[random.range(0, 3) as usize] = z,
        2 => record.posts = n,
        3 => record.post_x[post] = z,
        4 => record.post_y[post] = z,
        5 => record.stops = n,
        6 => record.stop_x[stop] = z,
        7 => record.stop_y[stop] = z,
        8 => record.visits[stop] = n,
        9 => record.axis[random.range(0, 1) as usize] = n,
        _ => record.rounds = n,
    }
}

/// Another number in range in the place of one that counts.
pub fn alter(random: &mut Random, record: &mut Record) {
    let (post, stop) = items(random, record);
    let (which, corner) = (random.range(1, 10), random.range(0, 3) as usize);
    let mut other = |old: i64, lo: i64, hi: i64| loop {
        let new = if random.one_in(2) { random.range(lo, hi) } else { (old + random.range(-1, 1)).clamp(lo, hi) };
        if new != old {
            return new;
        }
    };
    let mut xy = |z: &mut i64| *z = other(*z, -20_000, 20_000);
    match which {
        1 => xy(&mut record.area[corner]),
        2 => xy(&mut record.post_x[post]),
        3 => xy(&mut record.post_y[post]),
        4 => xy(&mut record.stop_x[stop]),
        5 => xy(&mut record.stop_y[stop]),
        6 => record.posts = other(record.posts as i64, 1, 64) as u64,
        7 => record.stops = other(record.stops as i64, 1, 512) as u64,
        8 => record.visits[stop] = other(record.visits[stop] as i64, 1, 65_535) as u64,
        9 => record.axis[corner % 2] = other(record.axis[corner % 2] as i64, 1, 9) as u64,
        _ => record.rounds = other(record.rounds as i64, 0, 1_000) as u64,
    }
}

/// A record of any numbers, one in `ends` of them an end; the area is mostly not an empty one.
pub fn drawn(random: &mut Random, ends: i64) -> Record {
    let mut record = Record::PLAIN;
    litter(random, &mut record, ends);
    record.area.iter_mut().for_each(|z| *z = coordinate(random, ends));
    if !random.one_in(4) {
        let [x, y, u, v] = record.area;
        record.area = [x.min(u), y.min(v), x.max(u), y.max(v)];
    }
    if !random.one_in(3) {
        record.axis = [(); 2].map(|()| natural(random, ends, 1, 9));
    }
    let most = random.pick(&[3, 64, 512]);
    record.posts = natural(random, ends, 0, most.min(64));
    record.stops = natural(random, ends, 0, most);
    record.rounds = natural(random, ends, 0, 1_000);
    record
}

/// A record of numbers of the whole types.
pub fn any_numbers(random: &mut Random) -> Record {
    let mut record = Record::ZEROS;
    record.area = [(); 4].map(|()| random.next() as i64);
    record.axis = [(); 2].map(|()| random.next());
    (record.post_x, record.post_y) = ([(); 64].map(|()| random.next() as i64), [(); 64].map(|()| random.next() as i64));
    (record.stop_x, record.stop_y) = ([(); 512].map(|()| random.next() as i64), [(); 512].map(|()| random.next() as i64));
    (record.visits, record.near) = ([(); 512].map(|()| random.next()), [(); 512].map(|()| random.next()));
    (record.posts, record.stops, record.before, record.rounds) = (random.next(), random.next(), random.next(), random.next());
    record
}

/// The job that a record with numbers in range holds.
pub fn held(record: &Record) -> Job {
    let [xlo, ylo, xhi, yhi] = record.area;
    let stop = |i: usize| Stop { at: (record.stop_x[i], record.stop_y[i]), visits: record.visits[i] as i64 };
    Job {
        area: Rect { xlo, ylo, xhi, yhi },
        axis: Axis { a: record.axis[0] as i64, b: record.axis[1] as i64 },
        posts: (0..record.posts as usize).map(|i| (record.post_x[i], record.post_y[i])).collect(),
        stops: (0..record.stops as usize).map(stop).collect(),
        rounds: record.rounds as i64,
    }
}

/// The record that its file is read as: the same numbers that count, zeros behind the lists, and the right near and before.
pub fn mended(record: &Record) -> Record {
    Record::of(&held(record))
}
