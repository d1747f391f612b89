//! Records for the writer, made of an input: the numbers that stand in its bytes, whatever is between them. And changes: an input's own,
//! which are lines behind its job, or such as are made of the deck that they change.

use crate::mutate::Random;
use reference::{Change, Kind, Record};

/// The ends of the ranges, of ten digits and of the machine's numbers, and their neighbours.
#[rustfmt::skip]
const ENDS: [i128; 34] = [
    0, 1, -1, 2, 9, 10, 64, 65, 512, 513, 1_000, 1_001, 20_000, 20_001, -20_000, -20_001, 65_535, 65_536, 65_537, 99_999, 100_000,
    999_999_999, -999_999_999, 1_000_000_000, -1_000_000_000, 1 << 32, (1 << 32) + 1, -(1 << 32) - 1,
    i64::MIN as i128, i64::MIN as i128 + 1, i64::MAX as i128, 1 << 63, (1 << 63) + 1, u64::MAX as i128,
];

/// The numbers in the order in which they stand. A byte that no job has stands for an end.
fn numbers(bytes: &[u8]) -> Vec<i128> {
    let mut found = Vec::new();
    let (mut inside, mut negative) = (false, false);
    for &b in bytes {
        if b.is_ascii_digit() {
            let digit = i128::from(b - b'0') * if negative { -1 } else { 1 };
            let before = if inside { found.pop().unwrap() } else { 0 };
            found.push((before * 10 + digit) % (1 << 64));
        } else {
            negative = b == b'-';
            if !b.is_ascii_graphic() && b != b'\n' {
                found.push(ENDS[usize::from(b) % ENDS.len()]);
            }
        }
        inside = b.is_ascii_digit();
    }
    found
}

/// Whether the numbers of the second line are axis costs.
fn has_axis_line(bytes: &[u8]) -> bool {
    bytes.split(|&b| b == b'\n').nth(1).is_some_and(|line| line.starts_with(b"axis"))
}

/// A near or before: an end, a number that could be right, or any number.
fn any(random: &mut Random) -> u64 {
    match random.below(4) {
        0 => ENDS[random.below(ENDS.len())] as u64,
        1 => random.below(720_001) as u64,
        _ => random.0,
    }
}

/// A record of these numbers, in the order of a job, and 1 where there are no more. Ends stand behind its lists. Near and before are any
/// numbers.
pub fn of(bytes: &[u8], random: &mut Random) -> Record {
    let (near, before) = ([(); 512].map(|()| any(random)), any(random));
    let mut end = || ENDS[random.below(ENDS.len())];
    let mut record = Record {
        post_x: [end() as i64; 64],
        post_y: [end() as i64; 64],
        stop_x: [end() as i64; 512],
        stop_y: [end() as i64; 512],
        visits: [end() as u64; 512],
        near,
        before,
        ..Record::PLAIN
    };
    let mut found = numbers(bytes).into_iter();
    let mut next = || found.next().unwrap_or(1);
    record.area = [(); 4].map(|()| next() as i64);
    if has_axis_line(bytes) {
        record.axis = [(); 2].map(|()| next() as u64);
    }
    record.posts = next() as u64;
    for i in 0..record.posts.min(64) as usize {
        (record.post_x[i], record.post_y[i]) = (next() as i64, next() as i64);
    }
    record.stops = next() as u64;
    for i in 0..record.stops.min(512) as usize {
        (record.stop_x[i], record.stop_y[i], record.visits[i]) = (next() as i64, next() as i64, next() as u64);
    }
    record.rounds = next() as u64;
    record
}

/// Near such that a record can be changed, if all else is in range: the right one, the travel to any post, small numbers, or others. One of
/// them is sometimes the longest travel, or one more.
pub fn tame(random: &mut Random, record: &mut Record) {
    let kind = random.below(4);
    for i in 0..record.stops.min(512) as usize {
        let travel = |j: usize| {
            let (dx, dy) = (record.post_x[j].abs_diff(record.stop_x[i]), record.post_y[j].abs_diff(record.stop_y[i]));
            record.axis[0].wrapping_mul(dx).wrapping_add(record.axis[1].wrapping_mul(dy)) % 720_001
        };
        let posts = record.posts.clamp(1, 64) as usize;
        record.near[i] = match kind {
            0 => (0..posts).map(travel).min().unwrap(),
            1 => travel(random.below(posts)),
            2 => random.below(20) as u64,
            _ => record.near[i] % 720_001,
        };
    }
    if random.below(8) == 0 {
        let last = record.stops.clamp(1, 512) as usize - 1;
        let stop = if random.below(2) == 0 { last } else { items(random, record).1 };
        record.near[stop] = 720_000 + random.below(2) as u64;
    }
    // behind the lists sometimes the values of one item, or of two
    if random.below(2) == 0 {
        let ((i, j), (k, l)) = (items(random, record), items(random, record));
        let (post, stop) = behind(record);
        (record.post_x[post], record.post_y[post]) = (record.post_x[i], record.post_y[k]);
        (record.stop_x[stop], record.stop_y[stop], record.visits[stop]) = (record.stop_x[j], record.stop_y[l], record.visits[l]);
    }
}

/// The first places behind the lists, or the last ones of all.
fn behind(record: &Record) -> (usize, usize) {
    (record.posts.min(63) as usize, record.stops.min(511) as usize)
}

/// Which post and which stop: one that counts, if any does.
fn items(random: &mut Random, record: &Record) -> (usize, usize) {
    (random.below(record.posts.clamp(1, 64) as usize), random.below(record.stops.clamp(1, 512) as usize))
}

/// One to three numbers of a record replaced by ends, most of them numbers that count.
pub fn replace(random: &mut Random, record: &mut Record) {
    for _ in 0..=random.below(3) {
        let end = ENDS[random.below(ENDS.len())];
        let (z, n) = (end as i64, end as u64);
        let (post, stop) = items(random, record);
        match random.below(10) {
            0 => record.area[random.below(4)] = z,
            1 => record.posts = n,
            2 => record.post_x[post] = z,
            3 => record.post_y[post] = z,
            4 => record.stops = n,
            5 => record.stop_x[stop] = z,
            6 => record.stop_y[stop] = z,
            7 => record.visits[stop] = n,
            8 => record.axis[random.below(2)] = n,
            _ => record.rounds = n,
        }
    }
}

/// An input's job, and the changes behind it: the lines from the first one on that starts with a sign.
pub fn split(bytes: &[u8]) -> (&[u8], Vec<Change>) {
    let mut start = 0;
    for line in bytes.split_inclusive(|&b| b == b'\n') {
        if is_change(line) {
            return (&bytes[..start], bytes[start..].split(|&b| b == b'\n').filter(|line| is_change(line)).map(change).collect());
        }
        start += line.len();
    }
    (bytes, Vec::new())
}

pub fn is_change(line: &[u8]) -> bool {
    matches!(line.first(), Some(b'+' | b'-'))
}

/// `+` adds and `-` removes. The numbers are those of the line, whatever is between them, and 1 where there are no more.
fn change(line: &[u8]) -> Change {
    let stop = line.windows(4).any(|word| word == b"stop");
    let mut found = numbers(line).into_iter();
    let mut next = || found.next().unwrap_or(1);
    Change { kind: Kind::ALL[2 * usize::from(stop) + usize::from(line[0] == b'-')], at: (next() as i64, next() as i64), visits: next() as u64 }
}

/// A change of a record: mostly of an item that it holds, sometimes of one behind it, or with a number beside it or an end.
pub fn any_change(random: &mut Random, record: &Record) -> Change {
    let kind = Kind::ALL[random.below(4)];
    let (post, stop) = if random.below(8) == 0 { behind(record) } else { items(random, record) };
    let (x, y) = if kind.of_a_post() { (record.post_x[post], record.post_y[post]) } else { (record.stop_x[stop], record.stop_y[stop]) };
    let (visits, end) = (record.visits[stop], ENDS[random.below(ENDS.len())]);
    let (at, visits) = match random.below(12) {
        0 => ((end as i64, y), visits),
        1 => ((x, end as i64), visits),
        2 => ((x, y), end as u64),
        3 => ((x.wrapping_add(1), y), visits),
        4 => ((y, x), visits),
        5 => ((x, y), visits.wrapping_add(1)),
        _ => ((x, y), visits),
    };
    Change { kind, at, visits }
}
