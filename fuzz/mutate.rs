//! Changes to a job that keep most of its form. Of what libFuzzer's own changes make, 99 in 100 are refused: a stop more needs another
//! number of stops. Here a job is changed as lines and numbers and mostly gets the right numbers of posts and stops again. Some changes
//! are left to libFuzzer, of the whole job or of one line. Lines with a sign behind the job, which are for the calls that change a deck,
//! come and go.

use crate::record::is_change;

extern "C" {
    fn LLVMFuzzerMutate(data: *mut u8, length: usize, most: usize) -> usize;
}

/// Any state but 0.
pub struct Random(pub u64);

impl Random {
    pub fn below(&mut self, n: usize) -> usize {
        // xorshift64*
        self.0 ^= self.0 >> 12;
        self.0 ^= self.0 << 25;
        self.0 ^= self.0 >> 27;
        (self.0.wrapping_mul(0x2545_f491_4f6c_dd1d) >> 33) as usize % n
    }

    /// From -size to size.
    fn around(&mut self, size: usize) -> i64 {
        self.below(2 * size + 1) as i64 - size as i64
    }
}

/// The ends of the ranges; a step to either side is another change.
const ENDS: [i64; 11] = [0, 1, 9, 64, 512, 1_000, 20_000, -20_000, 65_535, 999_999_999, -999_999_999];

type Line = Vec<u8>;

fn libfuzzer(bytes: &mut Vec<u8>, most: usize) {
    let length = bytes.len();
    bytes.resize(most.max(length), 0);
    let length = unsafe { LLVMFuzzerMutate(bytes.as_mut_ptr(), length, most.max(length)) };
    bytes.truncate(length);
}

/// The lines that start so.
fn all(lines: &[Line], key: &str) -> Vec<usize> {
    (0..lines.len()).filter(|&i| lines[i].starts_with(key.as_bytes())).collect()
}

/// A line's key and its numbers as texts.
fn parts(line: &[u8]) -> Option<(String, Vec<String>)> {
    let (key, rest) = std::str::from_utf8(line).ok()?.split_once('=')?;
    Some((key.to_string(), rest.split(',').map(str::to_string).collect()))
}

/// A number of the job, as often as not of line `i`.
fn any_number(random: &mut Random, lines: &[Line], i: usize) -> Option<i64> {
    let from = if random.below(2) == 0 { i } else { random.below(lines.len()) };
    let (_, numbers) = parts(&lines[from])?;
    numbers[random.below(numbers.len())].parse().ok()
}

fn change_number(random: &mut Random, lines: &mut [Line]) -> Option<()> {
    // the area's line, that of the rounds, or any
    let i = match random.below(4) {
        0 => 0,
        1 => job_lines(lines).saturating_sub(1),
        _ => random.below(lines.len()),
    };
    let (key, mut numbers) = parts(&lines[i])?;
    let field = random.below(numbers.len());
    let old: i64 = numbers[field].parse().ok()?;
    let new = match random.below(8) {
        0 => ENDS[random.below(ENDS.len())],
        1 => old.wrapping_add(random.around(1)),
        2 => old.wrapping_neg(),
        3 => random.around(20_000),
        4 => random.below(1_001) as i64,
        5 => random.around(9),
        // equal to another, or close to it: lines that coincide, ties
        _ => any_number(random, lines, i)?.wrapping_add(random.around(1) * random.below(2) as i64),
    };
    numbers[field] = new.to_string();
    lines[i] = format!("{key}={}", numbers.join(",")).into_bytes();
    Some(())
}

fn change_lines(random: &mut Random, lines: &mut Vec<Line>) -> Option<()> {
    let places = all(lines, if random.below(4) == 0 { "post=" } else { "stop=" });
    if places.is_empty() {
        return None;
    }
    let i = places[random.below(places.len())];
    let j = places[random.below(places.len())];
    match random.below(8) {
        0 => lines.swap(i, j),
        1 | 2 => drop(lines.drain(i.min(j)..=i.max(j))),
        3 => drop(lines.remove(i)),
        4 => {
            let again = lines[i.min(j)..=i.max(j)].to_vec();
            lines.splice(i..i, again);
        }
        5 => {
            // as many as allowed, or one less or more
            let most = if lines[i].starts_with(b"post=") { 63 } else { 511 } + random.below(3);
            for _ in places.len()..most {
                lines.insert(i, lines[i].clone());
            }
        }
        _ => lines.insert(j, lines[i].clone()),
    }
    Some(())
}

/// A stop at the place of a post: its near is 0.
fn move_stop(random: &mut Random, lines: &mut [Line]) -> Option<()> {
    let (posts, stops) = (all(lines, "post="), all(lines, "stop="));
    if posts.is_empty() || stops.is_empty() {
        return None;
    }
    let (_, place) = parts(&lines[posts[random.below(posts.len())]])?;
    let i = stops[random.below(stops.len())];
    let (_, numbers) = parts(&lines[i])?;
    lines[i] = format!("stop={},{}", place.join(","), numbers.last()?).into_bytes();
    Some(())
}

/// The lines of the job: up to the first one with a sign, or the empty one behind the last.
fn job_lines(lines: &[Line]) -> usize {
    lines.iter().position(|line| is_change(line)).unwrap_or(lines.len().saturating_sub(1))
}

/// A line with a sign: that of a post or a stop of the job, or of another such line, or of any.
fn signed_line(random: &mut Random, lines: &[Line]) -> Line {
    let items: Vec<&[u8]> = lines
        .iter()
        .map(|line| if is_change(line) { &line[1..] } else { line })
        .filter(|line| line.starts_with(b"post=") || line.starts_with(b"stop="))
        .collect();
    let mut number = || match random.below(4) {
        0 => ENDS[random.below(ENDS.len())],
        _ => random.around(9),
    };
    let other = [format!("post={},{}", number(), number()), format!("stop={},{},{}", number(), number(), number())];
    let item = match random.below(4) {
        0 => other[random.below(2)].as_bytes(),
        _ if items.is_empty() => other[random.below(2)].as_bytes(),
        _ => items[random.below(items.len())],
    };
    [&[b"+-"[random.below(2)]], item].concat()
}

/// The lines with a sign: one more, one less, two exchanged, one again and again, or none.
fn change_changes(random: &mut Random, lines: &mut Vec<Line>) {
    let first = job_lines(lines);
    let signed = lines.len().saturating_sub(first + 1);
    let mut any = || first + random.below(signed.max(1));
    let (i, j) = (any(), any());
    match random.below(8) {
        1 if signed > 0 => drop(lines.remove(i)),
        2 if signed > 0 => lines.swap(i, j),
        3 if signed > 0 => {
            let again = vec![lines[i].clone(); 1 + random.below(5) * random.below(16)];
            lines.splice(j..j, again);
        }
        4 | 5 if signed > 0 => drop(lines.drain(first..first + signed)),
        _ => {
            let line = signed_line(random, lines);
            lines.insert(first + random.below(signed + 1), line);
        }
    }
}

/// Most are right.
fn axis_line(random: &mut Random) -> Line {
    let mut cost = || match random.below(16) {
        0 => ENDS[random.below(ENDS.len())],
        1 => random.around(10),
        _ => 1 + random.below(9) as i64,
    };
    format!("axis={},{}", cost(), cost()).into_bytes()
}

/// The axis line added, with other numbers, removed, doubled or moved.
fn change_axis(random: &mut Random, lines: &mut Vec<Line>) {
    let Some(&i) = all(lines, "axis=").first() else {
        lines.insert(1, axis_line(random));
        return;
    };
    match random.below(8) {
        0..=3 => lines[i] = axis_line(random),
        4 | 5 => drop(lines.remove(i)),
        6 => lines.insert(i, lines[i].clone()),
        _ => {
            let line = lines.remove(i);
            lines.insert(random.below(lines.len() + 1), line);
        }
    }
}

fn count(lines: &mut [Line]) {
    for (key, each) in [("posts=", "post="), ("stops=", "stop=")] {
        let n = all(lines, each).len();
        for i in all(lines, key) {
            lines[i] = format!("{key}{n}").into_bytes();
        }
    }
}

fn change(random: &mut Random, bytes: &mut Vec<u8>, most: usize) {
    let mut lines: Vec<Line> = bytes.split(|&b| b == b'\n').map(<[u8]>::to_vec).collect();
    for _ in 0..=random.below(4) {
        if lines.is_empty() {
            break;
        }
        // lines with a sign, mostly where there are some
        let has_changes = lines.iter().any(|line| is_change(line));
        if random.below(if has_changes { 2 } else { 32 }) == 0 {
            change_changes(random, &mut lines);
            continue;
        }
        // None: this change does not fit this job
        let _ = match random.below(10) {
            0 => {
                let i = random.below(lines.len());
                libfuzzer(&mut lines[i], 40);
                Some(())
            }
            1..=3 => change_lines(random, &mut lines),
            4 => Some(change_axis(random, &mut lines)),
            5 => move_stop(random, &mut lines),
            _ => change_number(random, &mut lines),
        };
    }
    if random.below(8) > 0 {
        count(&mut lines);
    }
    let new = lines.join(&b'\n');
    if new.len() <= most {
        *bytes = new;
    } else {
        libfuzzer(bytes, most);
    }
}

#[no_mangle]
extern "C" fn LLVMFuzzerCustomMutator(data: *mut u8, length: usize, most: usize, seed: u32) -> usize {
    let mut random = Random(u64::from(seed) << 1 | 1);
    let data = unsafe { std::slice::from_raw_parts_mut(data, most) };
    let mut bytes = data[..length].to_vec();
    if random.below(8) == 0 {
        libfuzzer(&mut bytes, most);
    } else {
        change(&mut random, &mut bytes, most);
    }
    data[..bytes.len()].copy_from_slice(&bytes);
    bytes.len()
}
