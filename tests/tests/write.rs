//! The calls that read a job into a record and write a record as a job (RULES "Change 1", "Change 5"), against the reference: the answer, every
//! number of the record, near and before among them, and every byte of the output.

use siting_tests::decks::{folder, CASE_A};
use siting_tests::generate::{damaged, each_job, job, job_of, largest, noise, seed, special, spelled, Random};
use siting_tests::records::{alter, any_numbers, drawn, litter, mended, redraw, replace, valid, NEVER};
use siting_tests::reference::{read, saved, spell, spell_out, write, Axis, Deck, Job, Record, Refusal};
use siting_tests::text;
use siting_tests::trial;
use siting_tests::vectors::{behind, deep, narrow, refusals, reports};

const LEAST: i64 = i64::MIN;

/// The bytes before and behind the output that must stay too.
const BESIDE: usize = 16;

// ---- checks

/// The numbers that an answer has, from 0, and one that none has.
fn figures(random: &mut Random, answer: Result<i64, Refusal>) -> [(u64, i64); 4] {
    let [value, number, line] = answer.map_or_else(|r| [LEAST, r.number, r.line], |value| [value, 0, 0]);
    let none = random.pick(&[3, 4, 1 << 32, (1 << 32) + 1, 1 << 63, u64::MAX]);
    [(0, value), (1, number), (2, line), (none, LEAST)]
}

/// A record written into an output of `room` bytes, first with its own near and before, then with any others.
fn check_write(random: &mut Random, record: &Record, room: usize) -> Result<Vec<u8>, Refusal> {
    let want = write(record, room);
    let before: Vec<u8> = (0..room + 2 * BESIDE).map(|_| random.next() as u8).collect();
    let mut after = before.clone();
    if let Ok(bytes) = &want {
        after[BESIDE..BESIDE + bytes.len()].copy_from_slice(bytes);
    }
    let answer = want.as_ref().map_or_else(|r| Err(*r), |bytes| Ok(bytes.len() as i64));
    let mut lent = record.clone();
    for (which, figure) in figures(random, answer) {
        let mut out = before.clone();
        let got = trial::write(&lent, &mut out[BESIDE..BESIDE + room], which);
        assert_eq!(got, figure, "figure {which}, output of {room} bytes\n{}", text(&record.text()));
        assert!(out == after, "output of {room} bytes: {}\n{}", text(&out[BESIDE..]), text(&record.text()));
        redraw(random, &mut lent);
    }
    want
}

/// A job's bytes read into a record of other numbers. An accepted job's record takes their place; where the job is refused, they stay.
fn check_read(random: &mut Random, bytes: &[u8]) -> Result<Record, Refusal> {
    let want = read(bytes).map(|job| Record::of(&job));
    for (which, figure) in figures(random, want.as_ref().map_or_else(|r| Err(*r), |record| Ok(record.rounds as i64))) {
        let before = any_numbers(random);
        let mut record = before.clone();
        assert_eq!(trial::read(bytes, &mut record, which), figure, "figure {which}\n{}", text(bytes));
        let after = want.as_ref().map_or(before.clone(), |read| Record { rounds: before.rounds, ..read.clone() });
        assert!(record == after, "{record:?}\n{}", text(bytes));
    }
    want
}

/// An accepted job is read, and written into outputs of just its length, one byte less, more and none. What is written is the job itself, but
/// for a line `axis=1,1`.
fn check_saved(random: &mut Random, bytes: &[u8]) {
    let record = check_read(random, bytes).unwrap();
    let saved = saved(bytes);
    let length = saved.len();
    for room in [length, length + 1, length + random.range(2, 500) as usize] {
        assert!(check_write(random, &record, room).as_ref() == Ok(&saved), "{}", text(bytes));
    }
    for room in [0, length - 1, random.range(1, length as i64 - 1) as usize] {
        assert_eq!(check_write(random, &record, room), Err(Refusal { number: 8, line: 0 }), "{}", text(bytes));
    }
    if saved != bytes {
        assert!(record.axis == [1, 1] && length + "axis=1,1\n".len() == bytes.len(), "{}", text(bytes));
        assert!(check_read(random, &saved) == Ok(record), "{}", text(bytes));
    }
}

/// What the call writes, with more than enough room.
fn written(record: &Record) -> Option<Vec<u8>> {
    let mut out = vec![0; 16_384];
    let n = trial::write(record, &mut out, 0);
    out.truncate(usize::try_from(n).ok()?);
    Some(out)
}

/// How often each answer was seen.
#[derive(Default, Debug)]
struct Seen {
    accepted: usize,
    refusals: [usize; 9],
}

impl Seen {
    fn add<T>(&mut self, answer: Result<T, Refusal>) {
        match answer {
            Ok(_) => self.accepted += 1,
            Err(r) => self.refusals[r.number as usize] += 1,
        }
    }

    /// Whether it has the refusals that it may have, each so often, and no other.
    fn has(&self, numbers: std::ops::RangeInclusive<usize>, often: usize) -> bool {
        println!("{self:?}");
        (0..9).all(|i| if numbers.contains(&i) && i != 7 { self.refusals[i] >= often } else { self.refusals[i] == 0 })
    }
}

// ---- jobs

#[test]
fn accepted_jobs_come_out_in_their_own_bytes() {
    each_job(6_000, spelled(job), check_saved);
    each_job(2_000, spelled(special), check_saved);
    each_job(100, spelled(largest), check_saved);
}

#[test]
fn every_output_length_of_one_job() {
    let mut random = Random::new(seed());
    let j = job_of(&mut random, 30, 6);
    for axis in [Axis::PLAIN, Axis { a: 3, b: 8 }] {
        let bytes = spell(&Job { axis, ..j.clone() });
        let record = check_read(&mut random, &bytes).unwrap();
        let mut seen = Seen::default();
        for room in 0..=bytes.len() + 40 {
            seen.add(check_write(&mut random, &record, room));
        }
        assert_eq!((seen.accepted, seen.refusals[8]), (41, bytes.len()));
    }
}

#[test]
fn jobs_are_read_as_the_reference_reads_them() {
    let mut seen = Seen::default();
    each_job(12_000, damaged, |random, bytes| seen.add(check_read(random, bytes)));
    each_job(2_000, noise, |random, bytes| seen.add(check_read(random, bytes)));
    each_job(
        1_000,
        |random| valid(random, NEVER).text(),
        |random, bytes| {
            seen.add(check_read(random, bytes));
            let end = random.range(0, bytes.len() as i64 - 1) as usize;
            seen.add(check_read(random, &bytes[..end]));
        },
    );
    assert!(seen.has(1..=6, 100) && seen.accepted > 1_000);
}

#[test]
fn the_files_of_examples_and_seeds() {
    let mut random = Random::new(seed());
    let mut seen = Seen::default();
    for folder in [folder(), folder().join("../fuzz/seeds")] {
        for file in std::fs::read_dir(folder).unwrap().map(|f| f.unwrap().path()) {
            if file.extension().is_some_and(|e| e == "job") {
                let bytes = std::fs::read(&file).unwrap();
                let answer = check_read(&mut random, &bytes);
                if answer.is_ok() {
                    check_saved(&mut random, &bytes);
                }
                seen.add(answer);
            }
        }
    }
    println!("{seen:?}");
    assert!(seen.accepted >= 12 && (2..=6).all(|i| seen.refusals[i] > 0), "{seen:?}");
}

#[test]
fn the_vectors_get_what_they_say() {
    let mut random = Random::new(seed());
    for (job, _) in reports() {
        check_saved(&mut random, job.as_bytes());
    }
    for (job, number, line) in refusals() {
        assert_eq!(check_read(&mut random, job.as_bytes()), Err(Refusal { number, line }), "{job}");
    }
}

/// Each number that a job may have, written and read.
#[test]
fn every_number_in_range() {
    let mut random = Random::new(seed());
    let mut visits = 0;
    for first in (1..=65_535).step_by(512) {
        let mut record = Record { posts: 1, stops: 512, ..Record::PLAIN };
        for i in 0..512 {
            record.visits[i] = (first + i as u64).min(65_535);
            visits = visits.max(record.visits[i]);
            let x = (first as i64 + i as i64) % 40_001 - 20_000;
            (record.stop_x[i], record.stop_y[i]) = (x, -x);
        }
        for i in 0..64 {
            (record.post_x[i], record.post_y[i]) = (-record.stop_x[i], record.stop_x[i]);
        }
        record.area = [record.stop_x[0].min(0), -20_000, record.stop_x[0].max(0), 20_000];
        check_saved(&mut random, &record.text());
    }
    assert_eq!(visits, 65_535);
    let mut record = Record { posts: 1, stops: 1, ..Record::PLAIN };
    litter(&mut random, &mut record, NEVER);
    record.visits[0] = 1;
    for rounds in 0..=1_000 {
        record.rounds = rounds;
        record.axis = [rounds % 9 + 1, rounds / 9 % 9 + 1];
        record.posts = rounds % 64 + 1;
        record.stops = rounds % 512 + 1;
        check_saved(&mut random, &record.text());
    }
}

#[test]
fn the_longest_job_has_14_089_bytes() {
    let mut random = Random::new(seed());
    let low = -20_000;
    for (axis, length) in [([1, 1], 14_080), ([9, 9], 14_089)] {
        let record = Record {
            area: [low; 4],
            axis,
            posts: 64,
            post_x: [low; 64],
            post_y: [low; 64],
            stops: 512,
            stop_x: [low; 512],
            stop_y: [low; 512],
            visits: [65_535; 512],
            // each stop is at a post
            near: [0; 512],
            before: 0,
            rounds: 1_000,
        };
        let bytes = check_write(&mut random, &record, length).unwrap();
        assert_eq!(bytes.len(), length);
        assert_eq!(check_write(&mut random, &record, length - 1), Err(Refusal { number: 8, line: 0 }));
        assert!(check_read(&mut random, &bytes) == Ok(record));
        check_saved(&mut random, &bytes);
    }
}

// ---- axis costs

/// 1 for a record whose file has an axis line: all later lines stand one further down.
fn axis_lines(record: &Record) -> i64 {
    (record.axis != [1, 1]) as i64
}

#[test]
fn the_line_is_left_out_for_1_1_only() {
    let mut random = Random::new(seed());
    let plain = Record::of(&read(CASE_A.as_bytes()).unwrap());
    for a in 1..=9 {
        for b in 1..=9 {
            let record = Record { axis: [a, b], ..plain.clone() };
            let spelled_out = behind(1, &format!("axis={a},{b}\n"));
            let want = if (a, b) == (1, 1) { CASE_A } else { &spelled_out };
            assert_eq!(check_write(&mut random, &record, 500).as_deref(), Ok(want.as_bytes()));
            assert!(check_read(&mut random, spelled_out.as_bytes()) == Ok(mended(&record)));
            check_saved(&mut random, spelled_out.as_bytes());
        }
    }
}

/// With the line spelled out and without it: the same record, and the shorter file.
#[test]
fn a_job_that_spells_out_1_1_is_saved_without_the_line() {
    let plain = |random: &mut Random| Job { axis: Axis::PLAIN, ..job(random) };
    each_job(1_000, |random| spell(&plain(random)), |random, bytes| {
        let long = spell_out(&read(bytes).unwrap());
        assert_eq!(long.len(), bytes.len() + 9);
        let record = check_read(random, &long).unwrap();
        assert!(check_read(random, bytes).as_ref() == Ok(&record));
        assert_eq!(check_write(random, &record, bytes.len()).as_deref(), Ok(bytes));
        assert_eq!(check_write(random, &record, long.len()).as_deref(), Ok(bytes));
        assert_eq!(check_write(random, &record, bytes.len() - 1), Err(Refusal { number: 8, line: 0 }));
    });
}

#[test]
fn axis_costs_out_of_range_get_the_refusal_of_their_line() {
    let mut random = Random::new(seed());
    let short = [0, 10, 11, 256, 257, 65_537, 999_999_999].map(|cost| (cost, 3));
    let long = [1_000_000_000, 1_000_000_001, (1 << 32) + 1, i64::MAX as u64, 1 << 63, (1 << 63) + 1, u64::MAX].map(|cost| (cost, 2));
    let wrong = [short, long].concat();
    // other faults, of later lines and of 4, 5, 6 and 8, do not matter
    let records = [small([1, 1]), Record { area: [1, 0, 0, 1], ..Record::ZEROS }, Record { posts: u64::MAX, rounds: 1_001, ..small([1, 1]) }];
    for &(cost, number) in &wrong {
        for axis in [[cost, 1], [1, cost], [cost, 9], [9, cost], [cost, cost]] {
            for record in &records {
                let record = Record { axis, ..record.clone() };
                let room = random.pick(&[0, 500]);
                assert_eq!(check_write(&mut random, &record, room), Err(Refusal { number, line: 2 }), "{axis:?}");
            }
        }
        // 2 before 3 over the whole line
        for &(other, others) in &wrong {
            let record = Record { axis: [cost, other], ..small([1, 1]) };
            assert_eq!(check_write(&mut random, &record, 500), Err(Refusal { number: number.min(others), line: 2 }), "{cost},{other}");
        }
    }
    // the area's line comes first
    let record = Record { area: [20_001, 0, 0, 0], axis: [u64::MAX, 0], ..small([1, 1]) };
    assert_eq!(check_write(&mut random, &record, 500), Err(Refusal { number: 3, line: 1 }));
}

// ---- records of any numbers

#[test]
fn records_are_written_or_refused_as_the_reference_says() {
    let mut random = Random::new(seed());
    let mut seen = Seen::default();
    for i in 0..24_000 {
        let ends = random.pick(&[1, 2, 30, NEVER]);
        let mut record = valid(&mut random, ends);
        if i % 8 == 0 {
            // what 4, 5 and 6 are about
            let corner = random.range(0, 3) as usize;
            record.area.swap(corner, (corner + random.range(0, 1) as usize * 2) % 4);
            record.posts = random.pick(&[0, 1, record.posts]);
            record.stops = random.pick(&[0, 1, record.stops]);
        }
        for _ in 0..i % 4 {
            replace(&mut random, &mut record);
        }
        let length = record.text().len();
        let room = random.pick(&[length, length, length - 1, 0, length + 1, length + 100]);
        seen.add(check_write(&mut random, &record, room));
    }
    assert!(seen.has(2..=8, 200) && seen.accepted > 2_000);
}

#[test]
fn records_of_any_numbers_are_written_or_refused_as_the_reference_says() {
    let mut random = Random::new(seed());
    let mut seen = Seen::default();
    for _ in 0..8_000 {
        let ends = random.pick(&[1, 3, 20, 100, 1_000, 10_000, NEVER]);
        let record = drawn(&mut random, ends);
        let length = record.text().len();
        let room = random.pick(&[length, length, length - 1, 0, length + 1, length + 100]);
        seen.add(check_write(&mut random, &record, room));
    }
    assert!(seen.has(2..=8, 50) && seen.accepted > 500);
}

/// Each number of the longest lists in turn, alone.
#[test]
fn every_number_of_a_full_record_is_looked_at() {
    let mut random = Random::new(seed());
    let record = Record { posts: 64, stops: 512, visits: [1; 512], ..Record::PLAIN };
    // every other record has an axis line
    let mut turn = 0;
    let mut refused = |record: Record, number: i64, line: i64| {
        turn += 1;
        let record = Record { axis: [1, 1 + turn % 2], ..record };
        let line = line + axis_lines(&record);
        assert_eq!(check_write(&mut random, &record, 14_089), Err(Refusal { number, line }));
    };
    let columns: [(fn(&mut Record, usize) -> &mut i64, usize, i64); 4] = [
        (|r, i| &mut r.post_x[i], 64, 3),
        (|r, i| &mut r.post_y[i], 64, 3),
        (|r, i| &mut r.stop_x[i], 512, 68),
        (|r, i| &mut r.stop_y[i], 512, 68),
    ];
    for (number_of, count, first) in columns {
        for i in 0..count {
            for (value, number) in [(20_001, 3), (-20_001, 3), ((1 << 32) + 1, 2), (i64::MIN, 2)] {
                let mut record = record.clone();
                *number_of(&mut record, i) = value;
                refused(record, number, first + i as i64);
            }
        }
    }
    for i in 0..512 {
        for (value, number) in [(0, 3), (65_536, 3), (65_537, 3), (1_000_000_000, 2), ((1 << 32) + 1, 2), ((1 << 63) + 1, 2)] {
            let mut record = record.clone();
            record.visits[i] = value;
            refused(record, number, 68 + i as i64);
        }
    }
}

/// Files longer than any job may be: 1 is not given for them.
#[test]
fn files_of_more_than_16_384_bytes() {
    let mut random = Random::new(seed());
    for (x, y, visits, number) in [
        (i64::MIN, i64::MIN, u64::MAX, 2),
        (i64::MAX, i64::MIN, 1 << 63, 2),
        (-1_000_000_000, 0, 10_000_000_000_000_000_000, 2),
        (-999_999_999, -999_999_999, 999_999_999, 3),
    ] {
        let mut record = Record { posts: 64, stops: 512, visits: [1; 512], axis: [1, random.range(1, 2) as u64], ..Record::ZEROS };
        let more = axis_lines(&record);
        for good in (0..512).rev() {
            // from this stop on
            (record.stop_x[good], record.stop_y[good], record.visits[good]) = (x, y, visits);
            if good % 37 == 0 || good > 500 {
                let room = record.text().len() - good % 2;
                assert_eq!(check_write(&mut random, &record, room), Err(Refusal { number, line: 68 + good as i64 + more }));
            }
        }
        let length = record.text().len();
        assert!(length > 16_384 && read(&record.text()) == Err(Refusal { number: 1, line: 0 }), "{length}");
        // the posts, then the area as well
        (record.post_x, record.post_y) = ([x; 64], [y; 64]);
        assert_eq!(check_write(&mut random, &record, 40_000), Err(Refusal { number, line: 3 + more }));
        record.area = [x; 4];
        assert_eq!(check_write(&mut random, &record, 40_000), Err(Refusal { number, line: 1 }));
        record.rounds = u64::MAX;
        assert_eq!(check_write(&mut random, &record, 0), Err(Refusal { number, line: 1 }));
    }
}

#[test]
fn counts_beyond_the_arrays() {
    let mut random = Random::new(seed());
    let mut seen = Seen::default();
    for n in [0, 1, 64, 65, 512, 513, 999_999_999, 1_000_000_000, 1 << 32, (1 << 32) + 1, i64::MAX as u64, 1 << 63, u64::MAX] {
        let number = if n < 1_000_000_000 { 3 } else { 2 };
        let mut record = valid(&mut random, NEVER);
        record.posts = n;
        let want = check_write(&mut random, &record, 14_089);
        if n > 64 {
            assert_eq!(want, Err(Refusal { number, line: 2 + axis_lines(&record) }));
        }
        seen.add(want);
        let mut record = valid(&mut random, NEVER);
        record.stops = n;
        let want = check_write(&mut random, &record, 14_089);
        if n > 512 {
            assert_eq!(want, Err(Refusal { number, line: 3 + record.posts as i64 + axis_lines(&record) }));
        }
        seen.add(want);
        let mut record = valid(&mut random, 1);
        record.rounds = n;
        let want = check_write(&mut random, &record, 14_089);
        if n > 1_000 {
            assert_eq!(want, Err(Refusal { number, line: 4 + (record.posts + record.stops) as i64 + axis_lines(&record) }));
        }
        seen.add(want);
    }
    assert_eq!((seen.accepted, seen.refusals), (12, [0, 0, 18, 7, 0, 1, 1, 0, 0]));
}

// ---- the order of refusals

/// A record of two posts and three stops: line 1 is the area's, 3 and 4 are posts, 6 to 8 stops, 9 the rounds. Axis costs other than 1,1
/// have line 2, and all behind it stand one further down.
fn small(axis: [u64; 2]) -> Record {
    let job = b"area=-5,-6,7,8\nposts=2\npost=1,-2\npost=3,4\nstops=3\nstop=5,6,7\nstop=-8,9,10\nstop=0,0,65535\nrounds=1000\n";
    Record { axis, ..Record::of(&read(job).unwrap()) }
}

/// Axis costs without a line, and with one; and the last line of `small`.
const SMALL: [([u64; 2], usize); 2] = [([1, 1], 9), ([7, 2], 10)];

/// The numbers of a line of `small`.
fn line_of(record: &mut Record, line: usize) -> (Vec<&mut i64>, Vec<&mut u64>) {
    let more = axis_lines(record) as usize;
    match line {
        1 => (record.area.iter_mut().collect(), vec![]),
        2 if more == 1 => (vec![], record.axis.iter_mut().collect()),
        _ => line_behind(record, line - more),
    }
}

/// The same of a line behind the area, without an axis line.
fn line_behind(record: &mut Record, line: usize) -> (Vec<&mut i64>, Vec<&mut u64>) {
    match line {
        2 => (vec![], vec![&mut record.posts]),
        3 | 4 => (vec![&mut record.post_x[line - 3], &mut record.post_y[line - 3]], vec![]),
        5 => (vec![], vec![&mut record.stops]),
        6..=8 => (vec![&mut record.stop_x[line - 6], &mut record.stop_y[line - 6]], vec![&mut record.visits[line - 6]]),
        _ => (vec![], vec![&mut record.rounds]),
    }
}

/// Number i of a line of `small` spoiled, for refusal 2 or 3. False if the line has no such number.
fn spoil(random: &mut Random, record: &mut Record, line: usize, i: usize, refusal: i64) -> bool {
    let (coordinates, naturals) = line_of(record, line);
    let z = if refusal == 2 { [1_000_000_000, -1_000_000_000, i64::MIN, i64::MAX] } else { [20_001, -20_001, 999_999_999, -999_999_999] };
    let n = if refusal == 2 { [1_000_000_000, 1 << 32, 1 << 63, u64::MAX] } else { [65_536, 65_537, 1_000_000, 999_999_999] };
    let (z, n) = (random.pick(&z), random.pick(&n));
    let count = coordinates.len();
    if let Some(number) = coordinates.into_iter().nth(i) {
        *number = z;
    } else if let Some(number) = naturals.into_iter().nth(i - count) {
        *number = n;
    } else {
        return false;
    }
    true
}

#[test]
fn in_one_line_2_comes_before_3() {
    let mut random = Random::new(seed());
    let mut pairs = 0;
    for (axis, last) in SMALL {
        for line in 1..=last {
            for i in 0..4 {
                let mut record = small(axis);
                if !spoil(&mut random, &mut record, line, i, 3) {
                    continue;
                }
                assert_eq!(check_write(&mut random, &record, 500), Err(Refusal { number: 3, line: line as i64 }));
                for j in (0..4).filter(|&j| j != i) {
                    let mut record = record.clone();
                    if spoil(&mut random, &mut record, line, j, 2) {
                        assert_eq!(check_write(&mut random, &record, 500), Err(Refusal { number: 2, line: line as i64 }));
                        pairs += 1;
                    }
                }
            }
        }
    }
    // 12 of the area's, 2 of each post's, 6 of each stop's, twice; and 2 of the axis costs
    assert_eq!(pairs, 70);
}

#[test]
fn an_earlier_line_comes_before_a_later_one() {
    let mut random = Random::new(seed());
    for (axis, last) in SMALL {
        for first in 1..=last {
            for second in first + 1..=last {
                for (number, other) in [(2, 2), (2, 3), (3, 2), (3, 3)] {
                    for empty in [false, true] {
                        let mut record = small(axis);
                        if empty && first > 1 {
                            record.area.swap(1, 3);
                        }
                        assert!(spoil(&mut random, &mut record, first, 0, number) && spoil(&mut random, &mut record, second, 0, other));
                        let room = if empty { 0 } else { 500 };
                        assert_eq!(check_write(&mut random, &record, room), Err(Refusal { number, line: first as i64 }));
                    }
                }
            }
        }
    }
}

#[test]
fn a_count_out_of_range_comes_before_its_list() {
    let mut random = Random::new(seed());
    for (axis, last) in SMALL {
        for item in [i64::MIN, 20_001, 5] {
            for (count, number) in [(65, 3), (513, 3), (999_999_999, 3), (1_000_000_000, 2), (u64::MAX, 2)] {
                let mut record = Record { posts: count, post_x: [item; 64], ..small(axis) };
                assert_eq!(check_write(&mut random, &record, 500), Err(Refusal { number, line: last as i64 - 7 }));
                record = Record { stops: count.max(513), stop_y: [item; 512], ..small(axis) };
                assert_eq!(check_write(&mut random, &record, 500), Err(Refusal { number, line: last as i64 - 4 }));
                record.rounds = 1_001;
                assert_eq!(check_write(&mut random, &record, 500), Err(Refusal { number, line: last as i64 - 4 }));
            }
        }
    }
}

/// Every selection of faults: the first of them in the order is told.
#[test]
fn two_and_three_then_4_5_6_8() {
    let mut random = Random::new(seed());
    let mut seen = Seen::default();
    for faults in 0..1 << 10 {
        let has = |i: u32| faults >> i & 1 == 1;
        let mut record = small(if has(7) { [7, 2] } else { [1, 1] });
        let (x, y) = (has(0), has(1));
        if x {
            record.area.swap(0, 2);
        }
        if y {
            record.area.swap(1, 3);
        }
        if has(2) {
            record.posts = 0;
        }
        if has(3) {
            record.stops = 0;
        }
        let axis = if has(8) { Some((2, 1_000_000_000)) } else { has(9).then_some((3, 10)) };
        if let Some((_, cost)) = axis {
            record.axis[1] = cost;
        }
        let rounds = if has(5) { Some((2, 1_000_000_000)) } else { has(6).then_some((3, 1_001)) };
        if let Some((_, n)) = rounds {
            record.rounds = n;
        }
        let last = 4 + (record.posts + record.stops) as i64 + axis_lines(&record);
        let want = match (axis, rounds) {
            (Some((number, _)), _) => Some((number, 2)),
            (None, Some((number, _))) => Some((number, last)),
            _ if x || y => Some((4, 0)),
            _ if has(2) => Some((5, 0)),
            _ if has(3) => Some((6, 0)),
            _ => has(4).then_some((8, 0)),
        };
        let room = record.text().len() - has(4) as usize;
        let got = check_write(&mut random, &record, room);
        assert_eq!(got.as_ref().err().copied(), want.map(|(number, line)| Refusal { number, line }), "{faults:b}");
        seen.add(got);
    }
    assert!(seen.has(2..=8, 1) && seen.accepted == 2);
}

// ---- what is saved

#[test]
fn numbers_behind_the_lists_are_left_out() {
    let mut random = Random::new(seed());
    let mut littered = 0;
    for _ in 0..3_000 {
        let ends = random.pick(&[1, 2, 30, NEVER]);
        let record = valid(&mut random, ends);
        let clean = mended(&record);
        let bytes = written(&record).unwrap();
        assert!(written(&clean).as_ref() == Some(&bytes));
        assert!(check_read(&mut random, &bytes).as_ref() == Ok(&clean));
        littered += (record.post_x != clean.post_x || record.stop_x != clean.stop_x || record.visits != clean.visits) as usize;
    }
    assert!(littered > 2_000, "{littered}");
}

#[test]
fn different_records_are_written_in_different_bytes() {
    let mut random = Random::new(seed());
    let (mut pairs, mut same_length) = (0, 0);
    for _ in 0..8_000 {
        let record = valid(&mut random, NEVER);
        let mut other = record.clone();
        alter(&mut random, &mut other);
        // the other's area may be an empty one
        let (bytes, Some(others)) = (written(&record).unwrap(), written(&other)) else {
            continue;
        };
        assert!(bytes != others, "{}", text(&bytes));
        assert!(check_read(&mut random, &bytes) == Ok(mended(&record)));
        assert!(check_read(&mut random, &others) == Ok(mended(&other)));
        pairs += 1;
        same_length += (bytes.len() == others.len()) as usize;
    }
    println!("{pairs} pairs, {same_length} of the same length");
    assert!(pairs > 6_000 && same_length > 1_000);
}

// ---- near and before

/// How many jobs of each kind were read.
#[derive(Default, Debug)]
struct Kinds {
    axis_costs: usize,
    one_post: usize,
    one_stop: usize,
    most_posts: usize,
    most_stops: usize,
    equal_posts: usize,
    stop_at_post: usize,
    longest_travel: usize,
    refused: usize,
}

impl Kinds {
    fn add(&mut self, deck: &Deck) {
        let Job { axis, posts, stops, .. } = deck.job;
        self.axis_costs += (*axis != Axis::PLAIN) as usize;
        self.one_post += (posts.len() == 1) as usize;
        self.one_stop += (stops.len() == 1) as usize;
        self.most_posts += (posts.len() == 64) as usize;
        self.most_stops += (stops.len() == 512) as usize;
        self.equal_posts += (1..posts.len()).any(|i| posts[..i].contains(&posts[i])) as usize;
        self.stop_at_post += deck.near.contains(&0) as usize;
        self.longest_travel += deck.near.contains(&720_000) as usize;
    }
}

/// Near and before in the record that is read: those of the reference, of the deck's figures and, for before, of the report. 0 behind the
/// last stop. Where the job is refused, what they were.
fn check_near_and_before(random: &mut Random, bytes: &[u8], kinds: &mut Kinds) {
    let held = any_numbers(random);
    let mut record = held.clone();
    trial::read(bytes, &mut record, 0);
    let Record { near, before, .. } = record;
    let reported = trial::report_figure(bytes, &mut [0; 5_005], &mut [0; 128], 5);
    let Ok(job) = read(bytes) else {
        assert!(near == held.near && before == held.before, "{}", text(bytes));
        assert_eq!((trial::near(bytes, 0), trial::before(bytes), reported), (-1, -1, LEAST), "{}", text(bytes));
        kinds.refused += 1;
        return;
    };
    let deck = Deck::new(&job);
    assert_eq!([before as i64, trial::before(bytes), reported], [deck.before(); 3], "{}", text(bytes));
    let stops = job.stops.len();
    for i in 0..512 {
        assert_eq!(near[i] as i64, if i < stops { deck.near[i] } else { 0 }, "stop {i}\n{}", text(bytes));
    }
    // some stops only, as each of these calls reads the whole job
    let step = 1 + stops / 40;
    for i in (random.range(0, step as i64 - 1) as usize..stops).step_by(step) {
        assert_eq!(trial::near(bytes, i), near[i] as i64, "stop {i}\n{}", text(bytes));
    }
    kinds.add(&deck);
}

#[test]
fn near_and_before_are_read_as_the_deck_has_them() {
    let mut kinds = Kinds::default();
    let mut check = |random: &mut Random, bytes: &[u8]| check_near_and_before(random, bytes, &mut kinds);
    each_job(6_000, spelled(job), &mut check);
    each_job(3_000, spelled(special), &mut check);
    each_job(300, spelled(largest), &mut check);
    each_job(4_000, damaged, &mut check);
    each_job(500, noise, &mut check);
    assert!(kinds.axis_costs > 3_000 && kinds.one_post > 1_000 && kinds.one_stop > 500, "{kinds:?}");
    assert!(kinds.most_posts > 100 && kinds.most_stops >= 300 && kinds.equal_posts > 500, "{kinds:?}");
    assert!(kinds.stop_at_post > 2_000 && kinds.longest_travel > 3 && kinds.refused > 1_000, "{kinds:?}");
}

/// Worked out by hand.
#[test]
fn near_and_before_of_some_decks() {
    let mut random = Random::new(seed());
    let posts = "area=0,0,1,1\naxis=3,2\nposts=3\npost=-4,-3\npost=4,4\npost=4,4\n";
    let several = format!("{posts}stops=4\nstop=1,-1,5\nstop=4,4,65535\nstop=2,-2,1\nstop=-4,-2,9\nrounds=0\n");
    // from one corner to the opposite one at the highest costs: the longest travel, and with the most visits the greatest before
    let corners = Record { post_x: [20_000; 64], post_y: [20_000; 64], stop_x: [-20_000; 512], stop_y: [-20_000; 512], ..Record::PLAIN };
    let farthest = Record { axis: [9, 9], posts: 64, stops: 512, visits: [65_535; 512], ..corners };
    let decks: [(Vec<u8>, &[u64], u64); 7] = [
        (CASE_A.into(), &[7, 20], 34),
        (narrow("", 10).into(), &[7, 4], 11),
        (narrow("axis=2,1\n", 10).into(), &[9, 6], 15),
        (narrow("axis=1,2\n", 10).into(), &[12, 6], 18),
        (deep(1).into(), &[4, 10], 34),
        // as far from the first post as from the others; at a post; closest to the second, by plain travel to the first; beside the first
        (several.into(), &[19, 0, 18, 2], 5 * 19 + 18 + 9 * 2),
        (farthest.text(), &[720_000; 512], 24_158_822_400_000),
    ];
    for (job, near, before) in decks {
        let record = check_read(&mut random, &job).unwrap();
        assert_eq!((&record.near[..near.len()], record.before), (near, before), "{}", text(&job));
        assert!(record.near[near.len()..].iter().all(|&n| n == 0), "{}", text(&job));
    }
}

/// The numbers of the write call's answer, and the output.
fn given(record: &Record, room: usize) -> ([i64; 3], Vec<u8>) {
    let mut out = vec![b'x'; room];
    ([0, 1, 2].map(|which| trial::write(record, &mut out, which)), out)
}

#[test]
fn writing_looks_at_neither_near_nor_before() {
    let mut random = Random::new(seed());
    let mut seen = Seen::default();
    for i in 0..6_000 {
        let ends = random.pick(&[1, 3, 30, 1_000, NEVER]);
        let mut record = if i % 2 == 0 { valid(&mut random, ends) } else { drawn(&mut random, ends) };
        for _ in 0..i % 3 {
            replace(&mut random, &mut record);
        }
        let length = record.text().len();
        let room = random.pick(&[length, length, length - 1, 0, length + 100]);
        let want = given(&record, room);
        let with = |near: [u64; 512], before: u64| Record { near, before, ..record.clone() };
        let mut others = vec![with([0; 512], 0), with([u64::MAX; 512], u64::MAX), record.clone(), record.clone()];
        others[2..].iter_mut().for_each(|other| redraw(&mut random, other));
        if write(&record, length).is_ok() {
            let right = mended(&record);
            others.push(with(right.near, right.before));
        }
        for other in others {
            assert!(given(&other, room) == want, "output of {room} bytes\n{}", text(&record.text()));
        }
        seen.add(check_write(&mut random, &record, room));
    }
    assert!(seen.has(2..=8, 10) && seen.accepted > 500);
}

/// Each number alone, of full lists and of short ones, written and refused.
#[test]
fn writing_looks_at_no_number_of_near_and_before() {
    let mut random = Random::new(seed());
    for record in [Record::of(&largest(&mut random)), small([7, 2]), Record { rounds: 1_001, ..small([1, 1]) }] {
        let want = given(&record, 14_089);
        for i in 0..513 {
            for n in [0, u64::MAX, random.next()] {
                let mut other = record.clone();
                *(if i < 512 { &mut other.near[i] } else { &mut other.before }) = n;
                assert!(given(&other, 14_089) == want, "number {i}: {n}\n{}", text(&record.text()));
            }
        }
    }
}

/// A record that is read, written and read again is the same. With any other near and before it is read with the right ones.
#[test]
fn a_record_that_is_written_and_read_has_its_near_and_before() {
    let mut wrong = 0;
    let mut check = |random: &mut Random, bytes: &[u8]| {
        let record = check_read(random, bytes).unwrap();
        let mut other = record.clone();
        redraw(random, &mut other);
        wrong += (other != record) as usize;
        for lent in [&record, &other] {
            let saved = written(lent).unwrap();
            assert!(check_read(random, &saved).as_ref() == Ok(&record), "{}", text(bytes));
        }
    };
    each_job(2_000, spelled(job), &mut check);
    each_job(1_000, spelled(special), &mut check);
    each_job(100, spelled(largest), &mut check);
    assert!(wrong > 2_500, "{wrong}");
}
