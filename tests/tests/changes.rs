//! The calls that change a deck's record (RULES "Change 6"), against the reference: the answer and every number of the record after each change
//! of a run, beside the record that the edited job is read as. And changes of records that reading did not make.

use siting_tests::decks::{folder, CASE_A};
use siting_tests::entry;
use siting_tests::generate::{axis, job, largest, rect, seed, special, turns, Random};
use siting_tests::layout::Deck;
use siting_tests::records::{any_numbers, coordinate, drawn, held, items, litter, mended, natural, replace, valid, NATURALS, NEVER};
use siting_tests::reference::{changed, read, spell, spell_out, travel, Axis, Change, Job, Kind, Place, Record, Rect, Refusal, Stop};
use siting_tests::text;
use siting_tests::trial;
use siting_tests::vectors::{change, changes};

const LEAST: i64 = i64::MIN;

// ---- checks

/// Where the numbers of two records differ, for the message of a test that fails.
fn differences(got: &Record, want: &Record) -> String {
    let lines = |record: &Record| format!("{:#?}", Deck::of(record)).lines().map(String::from).collect::<Vec<String>>();
    let (got, want) = (lines(got), lines(want));
    let differ = (0..got.len()).filter(|&i| got[i] != want[i]).map(|i| format!("line {i} is {}, not {}", got[i].trim(), want[i].trim()));
    differ.take(8).collect::<Vec<String>>().join("; ")
}

/// A change of a record: each number of the answer, and one that none has, and with each of them all numbers of the record. The visits of
/// a post are any.
fn check_change(random: &mut Random, record: &Record, change: &Change) -> Result<Record, Refusal> {
    let want = record.changed(change);
    let after = want.as_ref().unwrap_or(record);
    let (number, line) = want.as_ref().map_or_else(|why| (why.number, why.line), |_| (0, 0));
    let none = random.pick(&[2, 3, 7, 1 << 32, (1 << 32) + 1, 1 << 63, u64::MAX]);
    for (which, figure) in [(0, number), (1, line), (none, LEAST)] {
        let visits = if change.kind.of_a_post() { random.pick(&NATURALS) } else { change.visits };
        let mut new = record.clone();
        let got = trial::change(&mut new, change.kind as u64, change.at, visits, which);
        assert_eq!(got, figure, "figure {which}, {change}\n{}", text(&record.text()));
        assert!(new == *after, "figure {which}, {change}: {}\n{}", differences(&new, after), text(&record.text()));
    }
    want
}

/// A change that is refused so, with line 0. All numbers stay.
fn refused(random: &mut Random, record: &Record, change: &Change, number: i64) {
    let got = check_change(random, record, change);
    assert_eq!(got.err(), Some(Refusal { number, line: 0 }), "{change}\n{}", text(&record.text()));
}

/// The record that a job's bytes are read as by the call, put over other numbers.
fn read_anew(random: &mut Random, bytes: &[u8]) -> Record {
    let mut record = any_numbers(random);
    record.rounds = trial::read(bytes, &mut record.clone(), 0) as u64;
    assert_eq!(trial::read(bytes, &mut record, 1), 0, "{}", text(bytes));
    record
}

/// Near and before by their definitions: no post is closer to a stop than its near, and one is as close. Zeros behind the lists.
fn check_figures(job: &Job, record: &Record) {
    let (stops, Axis { a, b }) = (job.stops.len(), job.axis);
    let mut before = 0;
    for (s, &near) in job.stops.iter().zip(&record.near) {
        let travels = || job.posts.iter().map(|p| a as u64 * p.0.abs_diff(s.at.0) + b as u64 * p.1.abs_diff(s.at.1));
        assert!(travels().all(|t| near <= t) && travels().any(|t| near == t), "{s:?}, {near}\n{}", text(&spell(job)));
        before += s.visits as u64 * near;
    }
    assert_eq!(record.before, before, "{}", text(&spell(job)));
    assert_eq!((record.posts, record.stops), (job.posts.len() as u64, stops as u64));
    let behind = |numbers: &[i64], n: usize| numbers[n..].iter().all(|&z| z == 0);
    assert!(behind(&record.post_x, job.posts.len()) && behind(&record.post_y, job.posts.len()));
    assert!(behind(&record.stop_x, stops) && behind(&record.stop_y, stops));
    assert!(record.visits[stops..].iter().chain(&record.near[stops..]).all(|&n| n == 0));
}

/// The refusals that a change of each kind may get.
const MAY_GET: [&[usize]; 4] = [&[3, 10], &[3, 5, 9], &[3, 10], &[3, 6, 9]];

/// How often each answer was seen, by the kind of the change, and how often what makes a change a hard one.
#[derive(Default, Debug)]
struct Seen {
    made: [usize; 4],
    refused: [[usize; 11]; 4],
    /// An item was removed that has equals behind it, and other items between them: the order tells which one went.
    of_equals: usize,
    /// Where a post went or came, the stops with another near; and those as far from a post that went as from another one.
    further: usize,
    closer: usize,
    as_close: usize,
    longest_travel: usize,
    axis_costs: usize,
    one_post: usize,
    one_stop: usize,
    most_posts: usize,
    most_stops: usize,
    written: usize,
}

impl Seen {
    fn answer<T>(&mut self, change: &Change, answer: Result<T, Refusal>) {
        let kind = change.kind as usize;
        match answer {
            Ok(_) => self.made[kind] += 1,
            Err(Refusal { number, line }) => {
                assert!(MAY_GET[kind].contains(&(number as usize)) && line == 0, "{change} gets {number}, line {line}");
                self.refused[kind][number as usize] += 1;
            }
        }
    }

    fn add(&mut self, old: &Standing, change: &Change, new: &Standing) {
        let stop = Stop { at: change.at, visits: change.visits as i64 };
        self.of_equals += match change.kind {
            Kind::RemovePost => goes_before_others(&old.job.posts, &change.at),
            Kind::RemoveStop => goes_before_others(&old.job.stops, &stop),
            _ => false,
        } as usize;
        if change.kind.of_a_post() {
            for i in 0..old.job.stops.len() {
                let (before, after) = (old.record.near[i], new.record.near[i]);
                self.further += (after > before) as usize;
                self.closer += (after < before) as usize;
                let travel = travel(old.job.axis, old.job.stops[i].at, change.at) as u64;
                self.as_close += (change.kind == Kind::RemovePost && before == travel && after == before) as usize;
            }
        }
        self.longest_travel += new.record.near.contains(&720_000) as usize;
        self.axis_costs += (new.job.axis != Axis::PLAIN) as usize;
        self.one_post += (new.record.posts == 1) as usize;
        self.one_stop += (new.record.stops == 1) as usize;
        self.most_posts += (new.record.posts == 64) as usize;
        self.most_stops += (new.record.stops == 512) as usize;
    }

    /// How many changes were made, if each kind was made so often.
    fn made(&self, each: usize) -> usize {
        if self.made.iter().all(|&n| n >= each) { self.made.iter().sum() } else { 0 }
    }

    /// Whether each kind of change got its refusals so often: 3, then 5 or 6, 9, 10.
    fn has(&self, [range, only, not_held, full]: [usize; 4]) -> bool {
        let often = |number: usize| match number {
            3 => range,
            5 | 6 => only,
            9 => not_held,
            _ => full,
        };
        MAY_GET.iter().zip(&self.refused).all(|(may, seen)| may.iter().all(|&number| seen[number] >= often(number)))
    }
}

/// Whether the first item that equals this one has an equal behind it, with another item between.
fn goes_before_others<T: PartialEq>(items: &[T], item: &T) -> bool {
    let first = items.iter().position(|i| i == item).unwrap();
    let other = items[first..].iter().position(|i| i != item);
    other.is_some_and(|other| items[first + other..].contains(item))
}

/// A deck as it stands: the job that it could be read from now, and its record.
#[derive(Clone)]
struct Standing {
    job: Job,
    record: Record,
}

impl Standing {
    fn new(random: &mut Random, job: Job) -> Standing {
        let record = Record::of(&job);
        assert!(read_anew(random, &spell(&job)) == record, "{}", text(&spell(&job)));
        Standing { job, record }
    }

    /// One change, by the job's lists and by the record's numbers.
    fn change(&mut self, random: &mut Random, seen: &mut Seen, change: &Change) -> Result<(), Refusal> {
        let job = changed(&self.job, change);
        let record = check_change(random, &self.record, change);
        assert_eq!(record.as_ref().err(), job.as_ref().err(), "{change}\n{}", text(&spell(&self.job)));
        seen.answer(change, record.as_ref().map_err(|why| *why));
        let new = Standing { job: job?, record: record? };
        seen.add(self, change, &new);
        *self = new;
        check_figures(&self.job, &self.record);
        self.check_read(random);
        if random.one_in(6) {
            self.check_written(random);
            seen.written += 1;
        }
        Ok(())
    }

    /// The job that it could be read from is read as it, with the axis line and, if it can do without, without.
    fn check_read(&self, random: &mut Random) {
        for bytes in [spell(&self.job), spell_out(&self.job)] {
            let anew = read_anew(random, &bytes);
            assert!(anew == self.record, "{}\n{}", differences(&anew, &self.record), text(&bytes));
        }
    }

    /// It is written as that job.
    fn check_written(&self, random: &mut Random) {
        let bytes = spell(&self.job);
        let room = bytes.len() + random.range(0, 9) as usize;
        let mut out = vec![b'x'; room];
        let length = trial::write(&self.record, &mut out, 0);
        assert_eq!(length, bytes.len() as i64, "{}", text(&bytes));
        assert!(out.starts_with(&bytes) && out[bytes.len()..].iter().all(|&b| b == b'x'), "{}\n{}", text(&out), text(&bytes));
    }

    /// Every other call takes that job, and the report has its before.
    fn check_calls(&self) {
        let (bytes, mut out) = (spell(&self.job), [0; 128]);
        assert_eq!(trial::report(&bytes, &mut [0; 5_005], &mut out), 0, "{}", text(&bytes));
        assert_eq!(trial::report_figure(&bytes, &mut [0; 5_005], &mut out, 5) as u64, self.record.before, "{}", text(&bytes));
        assert_eq!((trial::estimate(&bytes, 4), trial::exhaustive(&bytes, 3)), (0, 0), "{}", text(&bytes));
        assert!(entry::report(&bytes, &mut out) > 0, "{}", text(&bytes));
    }
}

// ---- random changes

/// What new items are made of.
struct Pool {
    coordinates: Vec<i64>,
    visits: Vec<u64>,
}

impl Pool {
    /// So few that most items have equals.
    fn few(random: &mut Random) -> Pool {
        let size = random.pick(&[2, 9, 20_000]);
        let coordinates = (0..random.range(1, 3)).map(|_| random.range(-size, size)).collect();
        Pool { coordinates, visits: (0..random.range(1, 2)).map(|_| random.range(1, 65_535) as u64).collect() }
    }

    fn many(random: &mut Random) -> Pool {
        let size = random.pick(&[9, 300, 20_000]);
        let coordinates = (0..400).map(|_| random.range(-size, size)).collect();
        let most = random.pick(&[3, 65_535]);
        Pool { coordinates, visits: (0..400).map(|_| random.range(1, most) as u64).collect() }
    }

    /// The ends of the ranges, and what lies beside them.
    fn ends() -> Pool {
        Pool { coordinates: vec![-20_000, 20_000, -20_000, 20_000, -19_999, 19_999, 0], visits: vec![1, 2, 65_534, 65_535] }
    }

    /// From one corner to the opposite one is the longest travel.
    fn corners() -> Pool {
        Pool { coordinates: vec![-20_000, 20_000], ..Pool::ends() }
    }

    fn any(random: &mut Random) -> Pool {
        match random.range(1, 3) {
            1 => Pool::few(random),
            2 => Pool::many(random),
            _ => Pool::ends(),
        }
    }

    fn place(&self, random: &mut Random) -> Place {
        (random.pick(&self.coordinates), random.pick(&self.coordinates))
    }

    fn stop(&self, random: &mut Random) -> Stop {
        Stop { at: self.place(random), visits: random.pick(&self.visits) as i64 }
    }

    /// A deck with so many posts and stops.
    fn job(&self, random: &mut Random, posts: i64, stops: i64) -> Job {
        Job {
            area: rect(random, 20_000),
            axis: axis(random),
            posts: (0..posts).map(|_| self.place(random)).collect(),
            stops: (0..stops).map(|_| self.stop(random)).collect(),
            rounds: random.range(0, 1_000),
        }
    }
}

fn stop_change(kind: Kind, stop: Stop) -> Change {
    Change { kind, at: stop.at, visits: stop.visits as u64 }
}

fn post_change(kind: Kind, at: Place) -> Change {
    Change { kind, at, visits: 0 }
}

/// The change of an item that the deck holds.
fn of_held(random: &mut Random, job: &Job, kind: Kind) -> Change {
    if kind.of_a_post() {
        post_change(kind, random.pick(&job.posts))
    } else {
        stop_change(kind, random.pick(&job.stops))
    }
}

/// Other values in range, which could be taken for the same.
fn mistake(random: &mut Random, job: &Job, pool: &Pool, change: &mut Change) {
    let (x, y) = change.at;
    let other = random.pick(&job.stops);
    match random.range(1, 8) {
        1 => change.at = (y, x),
        2 => change.at = (-x, y),
        3 => change.at = ((x + random.pick(&[-1, 1])).clamp(-20_000, 20_000), y),
        4 => change.at = (x, (y + random.pick(&[-1, 1])).clamp(-20_000, 20_000)),
        5 => change.at = if change.kind.of_a_post() { other.at } else { random.pick(&job.posts) },
        6 => change.visits = other.visits as u64,
        7 => change.visits = (change.visits + 1).clamp(1, 65_535),
        _ => change.at = pool.place(random),
    }
}

/// What is out of range as a coordinate, whatever the coordinate is that it could be taken for.
fn wrong_coordinates(z: i64) -> [i64; 12] {
    [20_001, -20_001, 40_000, z + 65_536, z - 65_536, z + (1 << 32), z - (1 << 32), z ^ i64::MIN, 1 << 32, i64::MIN, i64::MAX, i64::MIN + 1]
}

/// The same of visits.
fn wrong_visits(n: u64) -> [u64; 8] {
    [0, 65_536, n + 65_536, n + (1 << 32), n + (1 << 63), 1 << 63, n.wrapping_neg(), u64::MAX]
}

/// One value out of range.
fn spoil(random: &mut Random, change: &mut Change) {
    match random.range(1, if change.kind.of_a_post() { 2 } else { 3 }) {
        1 => change.at.0 = random.pick(&wrong_coordinates(change.at.0)),
        2 => change.at.1 = random.pick(&wrong_coordinates(change.at.1)),
        _ => change.visits = random.pick(&wrong_visits(change.visits)),
    }
}

/// Where a run goes for a while: of ten changes so many are of posts, and so many add.
#[derive(Clone, Copy)]
struct Course {
    posts: i64,
    adds: i64,
}

impl Course {
    fn any(random: &mut Random) -> Course {
        Course { posts: random.pick(&[1, 5, 9]), adds: random.pick(&[0, 3, 5, 7, 10]) }
    }

    fn next(self, random: &mut Random, job: &Job, pool: &Pool) -> Change {
        let post = random.range(1, 10) <= self.posts;
        let adds = random.range(1, 10) <= self.adds;
        let kind = Kind::ALL[2 * !post as usize + !adds as usize];
        let mut change = if kind.adds() && !random.one_in(8) { stop_change(kind, pool.stop(random)) } else { of_held(random, job, kind) };
        if random.one_in(10) {
            mistake(random, job, pool, &mut change);
        }
        if random.one_in(12) {
            change.visits = change.visits.max(1);
            spoil(random, &mut change);
        }
        change
    }
}

/// A run of changes of a deck.
fn run(random: &mut Random, seen: &mut Seen, job: Job, pool: &Pool, steps: usize) {
    let mut deck = Standing::new(random, job);
    let mut course = Course::any(random);
    for _ in 0..steps {
        if random.one_in(40) {
            course = Course::any(random);
        }
        let change = course.next(random, &deck.job, pool);
        let _ = deck.change(random, seen, &change);
    }
    deck.check_written(random);
    deck.check_calls();
}

#[test]
fn runs_of_changes_leave_the_record_of_the_edited_job() {
    let mut random = Random::new(seed());
    let enough = |seen: &Seen| {
        let made = seen.made(3_000) > 20_000 && seen.written > 2_000 && seen.axis_costs > 5_000;
        made && seen.has([300, 500, 100, 0]) && [seen.further, seen.closer, seen.as_close].iter().all(|&n| n > 5_000)
    };
    turns(&mut Seen::default(), 150, enough, |seen, i| {
        let job = if i % 3 == 0 { special(&mut random) } else { job(&mut random) };
        let pool = Pool::any(&mut random);
        run(&mut random, seen, job, &pool, 300);
    });
}

/// Few places and visits: of several equal items the first one goes, and the others keep their order.
#[test]
fn runs_of_changes_with_many_equal_items() {
    let mut random = Random::new(seed());
    let enough = |seen: &Seen| {
        let refused = seen.has([100, 100, 30, 0]) && seen.refused[Kind::AddPost as usize][10] > 50;
        refused && seen.made(1_000) > 10_000 && seen.of_equals > 2_000 && seen.as_close > 5_000
    };
    turns(&mut Seen::default(), 60, enough, |seen, _| {
        let pool = Pool::few(&mut random);
        let (posts, stops) = (random.range(1, 64), random.range(1, 60));
        let job = pool.job(&mut random, posts, stops);
        run(&mut random, seen, job, &pool, 400);
    });
}

#[test]
fn runs_of_changes_of_the_fullest_decks() {
    let mut random = Random::new(seed());
    let enough = |seen: &Seen| {
        seen.has([10, 0, 5, 50]) && seen.most_posts > 50 && seen.most_stops > 50 && seen.further > 500 && seen.closer > 500
    };
    turns(&mut Seen::default(), 16, enough, |seen, _| {
        let pool = Pool::any(&mut random);
        let (posts, stops) = (random.range(62, 64), random.range(508, 512));
        let job = if random.one_in(4) { largest(&mut random) } else { pool.job(&mut random, posts, stops) };
        run(&mut random, seen, job, &pool, 250);
    });
}

#[test]
fn runs_of_changes_of_decks_with_one_post_and_one_stop() {
    let mut random = Random::new(seed());
    let enough = |seen: &Seen| seen.has([50, 100, 50, 0]) && seen.one_post > 1_000 && seen.one_stop > 1_000 && seen.made(500) > 4_000;
    turns(&mut Seen::default(), 60, enough, |seen, _| {
        let pool = Pool::any(&mut random);
        let job = pool.job(&mut random, 1, 1);
        let mut deck = Standing::new(&mut random, job);
        // what is added is mostly removed again
        let course = Course { posts: 5, adds: random.range(3, 5) };
        for _ in 0..200 {
            let change = course.next(&mut random, &deck.job, &pool);
            let _ = deck.change(&mut random, seen, &change);
        }
    });
}

/// Coordinates at the ends of the range and the most visits, with the most axis costs and with others.
#[test]
fn runs_of_changes_at_the_ends_of_the_ranges() {
    let mut random = Random::new(seed());
    let enough = |seen: &Seen| {
        seen.has([50, 50, 20, 0]) && seen.longest_travel > 50 && seen.further > 500 && seen.closer > 500
    };
    turns(&mut Seen::default(), 40, enough, |seen, i| {
        let pool = if i % 4 < 2 { Pool::corners() } else { Pool::ends() };
        let (posts, stops) = (random.range(1, 3), random.range(1, if i % 8 == 0 { 512 } else { 30 }));
        let mut job = pool.job(&mut random, posts, stops);
        if i % 2 == 0 {
            job.axis = Axis { a: 9, b: 9 };
        }
        run(&mut random, seen, job, &pool, 250);
    });
}

#[test]
fn runs_of_changes_with_all_axis_costs() {
    let mut random = Random::new(seed());
    let enough = |seen: &Seen| seen.made(200) > 2_000 && seen.axis_costs > 2_000 && seen.further > 200 && seen.closer > 200;
    turns(&mut Seen::default(), 81, enough, |seen, i| {
        let pool = Pool::many(&mut random);
        let (posts, stops) = (random.range(1, 5), random.range(1, 9));
        let (a, b) = (1 + i as i64 % 9, 1 + i as i64 / 9 % 9);
        let job = Job { axis: Axis { a, b }, ..pool.job(&mut random, posts, stops) };
        run(&mut random, seen, job, &pool, 60);
    });
}

/// From one post and one stop up to all that a deck can hold, and down again, three times: from the front, from the back and in any order.
#[test]
fn decks_are_filled_and_emptied() {
    let mut random = Random::new(seed());
    let mut seen = Seen::default();
    let (first, pool) = (Pool::few(&mut random), Pool::many(&mut random));
    let job = first.job(&mut random, 1, 1);
    let mut deck = Standing::new(&mut random, job);
    for turn in 0..3 {
        // a list that is full says so whenever it is asked, until the other one is full too
        while (deck.job.posts.len(), deck.job.stops.len()) != (64, 512) {
            let kind = if random.range(1, 9) == 1 { Kind::AddPost } else { Kind::AddStop };
            let change = stop_change(kind, pool.stop(&mut random));
            let full = if kind == Kind::AddPost { deck.job.posts.len() == 64 } else { deck.job.stops.len() == 512 };
            let answer = deck.change(&mut random, &mut seen, &change);
            assert_eq!(answer, if full { Err(Refusal { number: 10, line: 0 }) } else { Ok(()) });
        }
        while (deck.job.posts.len(), deck.job.stops.len()) != (1, 1) {
            let (posts, stops) = (&deck.job.posts, &deck.job.stops);
            let mut which = |n: usize| match turn {
                0 => 0,
                1 => n - 1,
                _ => random.range(0, n as i64 - 1) as usize,
            };
            let (post, stop) = (posts[which(posts.len())], stops[which(stops.len())]);
            let (posts, stops) = (posts.len(), stops.len());
            let change = if random.range(1, 9) == 1 { post_change(Kind::RemovePost, post) } else { stop_change(Kind::RemoveStop, stop) };
            let only = match change.kind {
                Kind::RemovePost if posts == 1 => Err(Refusal { number: 5, line: 0 }),
                Kind::RemoveStop if stops == 1 => Err(Refusal { number: 6, line: 0 }),
                _ => Ok(()),
            };
            assert_eq!(deck.change(&mut random, &mut seen, &change), only);
        }
    }
    println!("{seen:?}");
    assert_eq!(seen.made, [3 * 63, 3 * 63, 3 * 511, 3 * 511]);
    assert!(seen.most_posts >= 3 && seen.most_stops >= 3 && seen.one_post >= 3 && seen.one_stop >= 3, "{seen:?}");
}

/// An item that is not held yet, added and removed again: the record is what it was.
#[test]
fn adding_and_removing_gives_the_record_back() {
    let mut random = Random::new(seed());
    turns(&mut 0, 1_000, |given_back| *given_back > 1_500, |given_back, _| {
        let job = if random.one_in(20) { largest(&mut random) } else { job(&mut random) };
        let record = Record::of(&job);
        let stop = Stop { at: (random.range(-20_000, 20_000), random.range(-20_000, 20_000)), visits: random.range(1, 65_535) };
        let (post_held, stop_held) = (job.posts.contains(&stop.at), job.stops.contains(&stop));
        for (add, remove, held) in [(Kind::AddPost, Kind::RemovePost, post_held), (Kind::AddStop, Kind::RemoveStop, stop_held)] {
            // a full list takes nothing
            if let (false, Ok(added)) = (held, check_change(&mut random, &record, &stop_change(add, stop))) {
                let back = check_change(&mut random, &added, &stop_change(remove, stop));
                assert!(back.as_ref() == Ok(&record), "{stop:?}\n{}", text(&spell(&job)));
                *given_back += 1;
            }
        }
    });
}

// ---- worked out by hand

#[test]
fn changes_make_what_was_worked_out_by_hand() {
    let mut random = Random::new(seed());
    let mut seen = Seen::default();
    for (text, rows) in changes() {
        let mut deck = Standing::new(&mut random, read(text.as_bytes()).unwrap());
        for row in rows {
            let want = if row.refused == 0 { Ok(()) } else { Err(Refusal { number: row.refused, line: 0 }) };
            assert_eq!(deck.change(&mut random, &mut seen, &row.change), want, "{}", row.change);
            // the record is that of this job, by the call that reads it
            assert_eq!(deck.job, row.job, "{}", row.change);
            assert_eq!((&deck.record.near[..row.near.len()], deck.record.before), (row.near, row.before), "{}", row.change);
        }
    }
    println!("{seen:?}");
    assert!(seen.made.iter().all(|&n| n >= 4), "{seen:?}");
}

/// The lines with a sign that stand behind a job in fuzz/seeds/: all answers that a change can have.
#[test]
fn the_changes_of_the_seeds() {
    let mut random = Random::new(seed());
    let (mut seen, mut files) = (Seen::default(), 0);
    for file in std::fs::read_dir(folder().join("../fuzz/seeds")).unwrap().map(|f| f.unwrap().path()) {
        let bytes = std::fs::read_to_string(&file).unwrap();
        let lines: Vec<&str> = bytes.split_inclusive('\n').collect();
        let (signed, job): (Vec<&str>, Vec<&str>) = lines.iter().partition(|line| line.starts_with(['+', '-']));
        if !signed.is_empty() {
            let job = read(job.concat().as_bytes()).unwrap_or_else(|why| panic!("{}: {why:?}", file.display()));
            let mut deck = Standing::new(&mut random, job);
            for line in signed {
                let _ = deck.change(&mut random, &mut seen, &change(line.trim_end()));
            }
            files += 1;
        }
    }
    println!("{seen:?}");
    assert!(files >= 4 && seen.has([1, 1, 3, 1]), "{files}, {seen:?}");
    assert!(seen.made.iter().all(|&n| n > 3) && seen.of_equals > 3 && seen.longest_travel > 0, "{seen:?}");
}

/// Every order of up to seven items of two values: which one went is seen by what is left.
#[test]
fn the_first_of_equal_items_goes() {
    let mut random = Random::new(seed());
    let mut seen = Seen::default();
    // a stop is another one by its x, its y or its visits
    let pair = |x, y, visits| [Stop { at: (1, 2), visits: 3 }, Stop { at: (x, y), visits }];
    let values = [pair(4, 2, 3), pair(1, 5, 3), pair(1, 2, 6)];
    let start = read(CASE_A.as_bytes()).unwrap();
    for length in 2..=7 {
        for order in 0..1 << length {
            let items = |values: [Stop; 2]| (0..length).map(|i| values[order >> i & 1]).collect::<Vec<Stop>>();
            for (i, values) in values.into_iter().enumerate() {
                let stops = items(values);
                let first = stops.iter().position(|s| *s == values[0]);
                let left = |first: usize| [&stops[..first], &stops[first + 1..]].concat();
                let mut deck = Standing::new(&mut random, Job { stops: stops.clone(), ..start.clone() });
                let answer = deck.change(&mut random, &mut seen, &stop_change(Kind::RemoveStop, values[0]));
                assert_eq!(answer.err().map(|why| why.number), if first.is_none() { Some(9) } else { None });
                assert_eq!(deck.job.stops, first.map_or(stops.clone(), left));
                if i < 2 {
                    let places = |stops: &[Stop]| stops.iter().map(|s| s.at).collect::<Vec<Place>>();
                    let mut deck = Standing::new(&mut random, Job { posts: places(&stops), ..start.clone() });
                    let answer = deck.change(&mut random, &mut seen, &post_change(Kind::RemovePost, values[0].at));
                    assert_eq!(answer.err().map(|why| why.number), if first.is_none() { Some(9) } else { None });
                    assert_eq!(deck.job.posts, first.map_or(places(&stops), |first| places(&left(first))));
                }
            }
        }
    }
    println!("{seen:?}");
    assert!(seen.of_equals > 500, "{seen:?}");
}

// ---- refusals

/// Decks with one post and one stop, with some of both, and with the most of both.
fn decks(random: &mut Random) -> Vec<Job> {
    let pool = Pool::many(random);
    let mut decks = [(1, 1), (1, 3), (3, 1), (5, 6), (64, 512), (64, 1), (1, 512)].map(|(posts, stops)| pool.job(random, posts, stops)).to_vec();
    decks.push(read(CASE_A.as_bytes()).unwrap());
    decks
}

/// Each value in turn, and two of them, on decks that would otherwise get any other answer.
#[test]
fn a_value_out_of_range_comes_before_all() {
    let mut random = Random::new(seed());
    let mut others = [0; 11];
    for job in decks(&mut random) {
        let record = Record::of(&job);
        for kind in Kind::ALL {
            let held = of_held(&mut random, &job, kind);
            let other = Change { kind, at: (-19_998, 19_997), visits: 65_533 };
            for change in [held, other] {
                others[record.changed(&change).map_or_else(|why| why.number as usize, |_| 0)] += 1;
                let Change { at: (x, y), visits, .. } = change;
                let mut wrong = vec![];
                for (z, w) in wrong_coordinates(x).into_iter().zip(wrong_coordinates(y)) {
                    wrong.extend([Change { at: (z, y), ..change }, Change { at: (x, w), ..change }, Change { at: (z, w), ..change }]);
                }
                if !kind.of_a_post() {
                    for (n, z) in wrong_visits(visits).into_iter().zip(wrong_coordinates(x)) {
                        wrong.extend([Change { visits: n, ..change }, Change { visits: n, at: (z, y), ..change }]);
                    }
                }
                for change in wrong {
                    refused(&mut random, &record, &change, 3);
                }
            }
        }
    }
    println!("the right values get {others:?}");
    assert!([0, 5, 6, 9, 10].iter().all(|&i| others[i] > 2) && others[3] == 0, "{others:?}");
}

/// The ends of the ranges themselves do.
#[test]
fn values_at_the_ends_of_the_ranges_are_taken() {
    let mut random = Random::new(seed());
    let mut seen = Seen::default();
    for x in [-20_000, -19_999, 0, 19_999, 20_000] {
        for y in [-20_000, -19_999, 0, 19_999, 20_000] {
            for visits in [1, 2, 65_534, 65_535] {
                for (a, b) in [(1, 1), (9, 9), (1, 9)] {
                    let mut deck = Standing::new(&mut random, Job { axis: Axis { a, b }, ..read(CASE_A.as_bytes()).unwrap() });
                    for kind in [Kind::AddPost, Kind::AddStop, Kind::RemovePost, Kind::RemoveStop] {
                        let change = Change { kind, at: (x, y), visits };
                        assert_eq!(deck.change(&mut random, &mut seen, &change), Ok(()), "{change}");
                    }
                }
            }
        }
    }
    assert_eq!(seen.made, [300; 4]);
}

#[test]
fn the_visits_of_a_post_do_not_matter() {
    let mut random = Random::new(seed());
    for job in decks(&mut random) {
        let record = Record::of(&job);
        for kind in [Kind::AddPost, Kind::RemovePost] {
            let change = of_held(&mut random, &job, kind);
            let want = record.changed(&change);
            for visits in NATURALS {
                let mut new = record.clone();
                let got = trial::change(&mut new, kind as u64, change.at, visits, 0);
                assert_eq!(got, want.as_ref().map_or_else(|why| why.number, |_| 0), "{change}, {visits}");
                assert!(new == *want.as_ref().unwrap_or(&record), "{change}, {visits}");
            }
        }
    }
}

/// 9 where no item has these values; 5 and 6 for the only one alone.
#[test]
fn nine_comes_before_5_and_6() {
    let mut random = Random::new(seed());
    let pool = Pool::many(&mut random);
    for _ in 0..200 {
        let one = pool.job(&mut random, 1, 1);
        let record = Record::of(&one);
        let (post, stop) = (one.posts[0], one.stops[0]);
        refused(&mut random, &record, &post_change(Kind::RemovePost, post), 5);
        refused(&mut random, &record, &stop_change(Kind::RemoveStop, stop), 6);
        let beside = |(x, y): Place| [(x - x.signum().max(0) * 2 + 1, y), (x, y - y.signum().max(0) * 2 + 1)];
        for at in beside(post) {
            refused(&mut random, &record, &post_change(Kind::RemovePost, at), 9);
        }
        for at in beside(stop.at) {
            refused(&mut random, &record, &stop_change(Kind::RemoveStop, Stop { at, ..stop }), 9);
        }
        for visits in [stop.visits % 65_535 + 1, (stop.visits + 6_789) % 65_535 + 1] {
            refused(&mut random, &record, &stop_change(Kind::RemoveStop, Stop { visits, ..stop }), 9);
        }
        // a post is no stop, and a stop no post
        if post != stop.at {
            refused(&mut random, &record, &post_change(Kind::RemovePost, stop.at), 9);
            refused(&mut random, &record, &stop_change(Kind::RemoveStop, Stop { at: post, ..stop }), 9);
        }
        // 0,0 and no visits stand behind the lists
        let origin = Change { kind: Kind::RemovePost, at: (0, 0), visits: 0 };
        refused(&mut random, &record, &origin, if post == (0, 0) { 5 } else { 9 });
        refused(&mut random, &record, &Change { kind: Kind::RemoveStop, ..origin }, 3);
    }
}

/// What was removed is not held any more, though it may stand behind the list: 9.
#[test]
fn an_item_that_went_is_not_found_again() {
    let mut random = Random::new(seed());
    let mut seen = Seen::default();
    for _ in 0..300 {
        let pool = Pool::many(&mut random);
        let (posts, stops) = (random.range(2, 64), random.range(2, 40));
        let job = pool.job(&mut random, posts, stops);
        for kind in [Kind::RemovePost, Kind::RemoveStop] {
            let mut deck = Standing::new(&mut random, job.clone());
            let items: Vec<Change> = match kind {
                Kind::RemovePost => job.posts.iter().map(|&at| post_change(kind, at)).collect(),
                _ => job.stops.iter().map(|&stop| stop_change(kind, stop)).collect(),
            };
            // the last one, whose place in the arrays is free then, and all that equal it
            let last = items[items.len() - 1];
            let equal = items.iter().filter(|item| **item == last).count();
            for _ in 0..equal.min(items.len() - 1) {
                assert_eq!(deck.change(&mut random, &mut seen, &last), Ok(()));
            }
            if equal < items.len() {
                refused(&mut random, &deck.record, &last, 9);
            }
        }
    }
    println!("{seen:?}");
    assert!(seen.made[1] >= 300 && seen.made[3] >= 300, "{seen:?}");
}

/// 10 for a full list, and not for the other one; when an item went, the next one is taken, and goes last.
#[test]
fn a_freed_place_is_taken_again() {
    let mut random = Random::new(seed());
    let mut seen = Seen::default();
    let ten = Err(Refusal { number: 10, line: 0 });
    for turn in 0..12 {
        let pool = if turn % 2 == 0 { Pool::many(&mut random) } else { Pool::few(&mut random) };
        let job = pool.job(&mut random, 64, 512);
        let mut deck = Standing::new(&mut random, job);
        for _ in 0..10 {
            let (post, stop) = (post_change(Kind::AddPost, pool.place(&mut random)), stop_change(Kind::AddStop, pool.stop(&mut random)));
            for (add, remove, change) in [(Kind::AddPost, Kind::RemovePost, post), (Kind::AddStop, Kind::RemoveStop, stop)] {
                assert_eq!(deck.change(&mut random, &mut seen, &change), ten, "{change}");
                // one that is held too
                let held = of_held(&mut random, &deck.job, add);
                assert_eq!(deck.change(&mut random, &mut seen, &held), ten, "{held}");
                let gone = of_held(&mut random, &deck.job, remove);
                assert_eq!(deck.change(&mut random, &mut seen, &gone), Ok(()), "{gone}");
                assert_eq!(deck.change(&mut random, &mut seen, &change), Ok(()), "{change}");
                let last = if add == Kind::AddPost { post_change(add, deck.job.posts[63]) } else { stop_change(add, deck.job.stops[511]) };
                assert_eq!(last, change);
                assert_eq!(deck.change(&mut random, &mut seen, &change), ten, "{change}");
            }
        }
    }
    // the other list has room
    for (posts, stops, add) in [(64, 1, Kind::AddStop), (64, 511, Kind::AddStop), (1, 512, Kind::AddPost), (63, 512, Kind::AddPost)] {
        let pool = Pool::many(&mut random);
        let job = pool.job(&mut random, posts, stops);
        let mut deck = Standing::new(&mut random, job);
        let change = stop_change(add, pool.stop(&mut random));
        assert_eq!(deck.change(&mut random, &mut seen, &change), Ok(()), "{change}");
    }
    assert!(seen.has([0, 0, 0, 360]), "{seen:?}");
}

// ---- records that reading did not make

/// Numbers for near that travel can have, and any before: the right ones, those of other posts, some beside them, or any.
fn some_near(random: &mut Random, record: &mut Record) {
    let kind = random.range(1, 6);
    for i in 0..record.stops as usize {
        let (posts, [a, b]) = (record.posts as usize, record.axis);
        let travel = |j: usize| a * record.post_x[j].abs_diff(record.stop_x[i]) + b * record.post_y[j].abs_diff(record.stop_y[i]);
        let right = (0..posts).map(travel).min().unwrap();
        let of_any = travel(random.range(0, posts as i64 - 1) as usize);
        record.near[i] = match (kind, random.range(1, 4)) {
            (1, _) | (2, 1) => right,
            (2, _) | (3, 1) => of_any,
            (3, _) => (right + random.range(0, 2) as u64).saturating_sub(1).min(720_000),
            (4, _) => random.range(0, 9) as u64,
            (5, 1) => 720_000,
            (5, 2) => 0,
            _ => random.range(0, 720_000) as u64,
        };
    }
    let any = random.next();
    record.before = random.pick(&[0, 1, record.before, any, u64::MAX]);
}

/// The record of a valid job with such figures, and with any numbers behind its lists.
fn changeable(random: &mut Random) -> Record {
    let ends = random.pick(&[1, 2, 30, NEVER]);
    let mut record = valid(random, ends);
    some_near(random, &mut record);
    record
}

#[test]
fn any_record_with_a_file_is_changed_by_its_own_numbers() {
    let mut random = Random::new(seed());
    // stops whose near fell where a post went, or stayed below or above what it should be
    let (fell, below, above) = (0, 0, 0);
    let enough = |(seen, fell, below, above): &(Seen, usize, usize, usize)| {
        seen.made(1_500) > 0 && seen.has([50, 50, 50, 0]) && *fell > 200 && *below > 1_000 && *above > 1_000
    };
    turns(&mut (Seen::default(), fell, below, above), 700, enough, |(seen, fell, below, above), _| {
        let (mut record, pool) = (changeable(&mut random), Pool::any(&mut random));
        for _ in 0..30 {
            let change = Course { posts: 5, adds: 4 }.next(&mut random, &held(&record), &pool);
            let answer = check_change(&mut random, &record, &change);
            seen.answer(&change, answer.as_ref().map_err(|why| *why));
            let Ok(new) = answer else {
                continue;
            };
            if change.kind == Kind::RemovePost {
                let right = mended(&new).near;
                for i in 0..new.stops as usize {
                    *fell += (new.near[i] < record.near[i]) as usize;
                    *below += (new.near[i] < right[i]) as usize;
                    *above += (new.near[i] > right[i]) as usize;
                }
            }
            assert!(new.can_be_changed());
            record = new;
        }
    });
}

/// Numbers of whole machine types anywhere, counts beyond the arrays, empty areas: 3, but where all that counts is in range.
#[test]
fn records_of_any_numbers_are_changed_or_refused_as_the_reference_says() {
    let mut random = Random::new(seed());
    let enough = |(seen, usable, not_usable): &(Seen, usize, usize)| {
        seen.made(500) > 0 && seen.has([1_000, 20, 20, 20]) && *usable > 1_000 && *not_usable > 1_000
    };
    turns(&mut (Seen::default(), 0, 0), 6_000, enough, |(seen, usable, not_usable), i| {
        let ends = random.pick(&[1, 3, 30, 1_000, NEVER]);
        let mut record = match i % 3 {
            0 => drawn(&mut random, ends),
            1 => valid(&mut random, ends),
            _ => changeable(&mut random),
        };
        for _ in 0..random.range(0, 2) {
            replace(&mut random, &mut record);
        }
        *(if record.can_be_changed() { usable } else { not_usable }) += 1;
        for kind in Kind::ALL {
            let (post, stop) = items(&mut random, &record);
            let held = if kind.of_a_post() { (record.post_x[post], record.post_y[post]) } else { (record.stop_x[stop], record.stop_y[stop]) };
            let (at, visits) = match random.range(1, 4) {
                1 => ((coordinate(&mut random, 9), coordinate(&mut random, 9)), natural(&mut random, 9, 1, 65_535)),
                _ => (held, record.visits[stop]),
            };
            let change = Change { kind, at, visits };
            seen.answer(&change, check_change(&mut random, &record, &change));
        }
    });
}

/// Only numbers of the whole types, with counts in range and without.
#[test]
fn records_of_noise_get_3() {
    let mut random = Random::new(seed());
    for i in 0..600 {
        let mut record = any_numbers(&mut random);
        if i % 2 == 0 {
            (record.posts, record.stops) = (random.range(1, 64) as u64, random.range(1, 512) as u64);
        }
        for kind in Kind::ALL {
            let stop = Stop { at: (random.range(-9, 9), random.range(-9, 9)), visits: random.range(1, 9) };
            refused(&mut random, &record, &stop_change(kind, stop), 3);
            refused(&mut random, &record, &Change { kind, at: (record.post_x[0], record.post_y[0]), visits: record.visits[0] }, 3);
        }
    }
}

/// One change of each kind that a record with these lists would take, or refuse with another number than 3.
fn each_kind(record: &Record) -> [Change; 4] {
    let (post, stop) = ((record.post_x[0], record.post_y[0]), (record.stop_x[0], record.stop_y[0]));
    Kind::ALL.map(|kind| Change { kind, at: if kind.of_a_post() { post } else { stop }, visits: record.visits[0] })
}

/// A record whose file would get another refusal gets 3 here, with line 0, in all four calls.
#[test]
fn a_record_without_a_file_gets_3() {
    let mut random = Random::new(seed());
    let good = Record { posts: 2, stops: 2, visits: [7; 512], ..Record::of(&read(CASE_A.as_bytes()).unwrap()) };
    for change in each_kind(&good) {
        assert!(check_change(&mut random, &good, &change).is_ok());
        for posts in [0, 65, 66, 128, 512, 513, 65_537, 999_999_999, 1_000_000_000, 1 << 32, (1 << 32) + 1, i64::MAX as u64, 1 << 63, u64::MAX] {
            refused(&mut random, &Record { posts, ..good.clone() }, &change, 3);
        }
        for stops in [0, 513, 514, 1_024, 65_537, 999_999_999, 1_000_000_000, 1 << 32, (1 << 32) + 1, i64::MAX as u64, 1 << 63, u64::MAX] {
            refused(&mut random, &Record { stops, ..good.clone() }, &change, 3);
        }
        refused(&mut random, &Record { posts: 0, stops: 0, ..good.clone() }, &change, 3);
        for cost in [0, 10, 11, 257, 65_537, (1 << 32) + 1, 1 << 63, u64::MAX] {
            refused(&mut random, &Record { axis: [cost, 1], ..good.clone() }, &change, 3);
            refused(&mut random, &Record { axis: [1, cost], ..good.clone() }, &change, 3);
        }
        for i in 0..4 {
            for wrong in wrong_coordinates(good.area[i]) {
                let mut record = good.clone();
                record.area[i] = wrong;
                refused(&mut random, &record, &change, 3);
            }
        }
        for area in [[1, 0, 0, 0], [0, 1, 0, 0], [20_000, -20_000, -20_000, 20_000], [-20_000, 20_000, 20_000, -20_000]] {
            refused(&mut random, &Record { area, ..good.clone() }, &change, 3);
        }
        refused(&mut random, &Record::ZEROS, &change, 3);
        refused(&mut random, &Record::PLAIN, &change, 3);
    }
}

/// Each number of full lists in turn, alone.
#[test]
fn every_number_of_a_full_record_is_looked_at() {
    let mut random = Random::new(seed());
    let pool = Pool::many(&mut random);
    let good = Record::of(&pool.job(&mut random, 64, 512));
    let kinds = each_kind(&good);
    let mut wrong = |record: &Record| {
        let change = random.pick(&kinds);
        refused(&mut random, record, &change, 3);
    };
    let columns: [(fn(&mut Record, usize) -> &mut i64, usize); 4] =
        [(|r, i| &mut r.post_x[i], 64), (|r, i| &mut r.post_y[i], 64), (|r, i| &mut r.stop_x[i], 512), (|r, i| &mut r.stop_y[i], 512)];
    for (number_of, count) in columns {
        for i in 0..count {
            let mut record = good.clone();
            let z = *number_of(&mut record, i);
            for value in [20_001, -20_001, z + (1 << 32)] {
                *number_of(&mut record, i) = value;
                wrong(&record);
            }
        }
    }
    for i in 0..512 {
        for visits in [0, 65_536, good.visits[i] + 65_536, u64::MAX] {
            let mut record = good.clone();
            record.visits[i] = visits;
            wrong(&record);
        }
        for near in [720_001, good.near[i] + (1 << 32), u64::MAX] {
            let mut record = good.clone();
            record.near[i] = near;
            wrong(&record);
        }
    }
}

/// The longest travel itself does, in any place, and behind the stops any number does.
#[test]
fn near_is_looked_at_up_to_the_last_stop() {
    let mut random = Random::new(seed());
    let pool = Pool::many(&mut random);
    let mut made = [0; 4];
    for stops in [1, 2, 3, 100, 511, 512] {
        let good = Record::of(&pool.job(&mut random, 3, stops));
        let places = [0, 1, stops - 2, stops - 1, stops, stops + 1, 510, 511, random.range(0, 511)];
        for i in places.into_iter().filter(|i| (0..512).contains(i)) {
            for near in [720_000, 720_001, 1 << 32, u64::MAX] {
                let mut record = good.clone();
                record.near[i as usize] = near;
                for change in each_kind(&record) {
                    let answer = check_change(&mut random, &record, &change);
                    let bad = i < stops && near > 720_000;
                    assert_eq!(answer == Err(Refusal { number: 3, line: 0 }), bad, "{change}, near {near} of stop {i}");
                    made[change.kind as usize] += answer.is_ok() as usize;
                }
            }
        }
    }
    println!("{made:?}");
    assert!(made.iter().all(|&n| n > 50), "{made:?}");
}

/// All that does not count keeps its value, but for the place that a list gains or frees.
#[test]
fn numbers_behind_the_lists_stay() {
    let mut random = Random::new(seed());
    let mut made = [0; 4];
    for _ in 0..1_000 {
        let mut record = changeable(&mut random);
        litter(&mut random, &mut record, 1);
        some_near(&mut random, &mut record);
        let (posts, stops) = (record.posts as usize, record.stops as usize);
        for change in each_kind(&record) {
            let Ok(new) = check_change(&mut random, &record, &change) else {
                continue;
            };
            made[change.kind as usize] += 1;
            // the first place of each list that stays
            let (post, stop) = match change.kind {
                Kind::AddPost => (posts + 1, stops),
                Kind::RemovePost => (posts, stops),
                Kind::AddStop => (posts, stops + 1),
                Kind::RemoveStop => (posts, stops),
            };
            assert!(new.post_x[post..] == record.post_x[post..] && new.post_y[post..] == record.post_y[post..], "{change}");
            assert!(new.stop_x[stop..] == record.stop_x[stop..] && new.stop_y[stop..] == record.stop_y[stop..], "{change}");
            assert!(new.visits[stop..] == record.visits[stop..] && new.near[stop..] == record.near[stop..], "{change}");
            assert!((new.area, new.axis) == (record.area, record.axis), "{change}");
            match change.kind {
                Kind::AddPost => assert_eq!((new.post_x[posts], new.post_y[posts]), change.at),
                Kind::RemovePost => assert_eq!((new.post_x[posts - 1], new.post_y[posts - 1]), (0, 0)),
                Kind::AddStop => assert_eq!(((new.stop_x[stops], new.stop_y[stops]), new.visits[stops]), (change.at, change.visits)),
                Kind::RemoveStop => {
                    let freed = (new.stop_x[stops - 1], new.stop_y[stops - 1], new.visits[stops - 1], new.near[stops - 1]);
                    assert_eq!(freed, (0, 0, 0, 0));
                }
            }
        }
    }
    println!("{made:?}");
    assert!(made.iter().all(|&n| n > 100), "{made:?}");
}

/// An item that stands behind its list, or across its end, is not held.
#[test]
fn an_item_behind_the_list_is_not_held() {
    let mut random = Random::new(seed());
    for posts in [1, 2, 5, 63] {
        let area = Rect { xlo: 0, ylo: 0, xhi: 0, yhi: 0 };
        let stops = vec![Stop { at: (1, 1), visits: 1 }; posts];
        let mut record = Record::of(&Job { area, axis: Axis::PLAIN, posts: vec![(1, 1); posts], stops, rounds: 0 });
        for i in posts..64 {
            (record.post_x[i], record.post_y[i]) = (3, 4);
        }
        for i in posts..512 {
            (record.stop_x[i], record.stop_y[i], record.visits[i]) = (3, 4, 5);
        }
        for at in [(3, 4), (1, 4), (3, 1)] {
            refused(&mut random, &record, &Change { kind: Kind::RemovePost, at, visits: 5 }, 9);
            for visits in [1, 5] {
                refused(&mut random, &record, &Change { kind: Kind::RemoveStop, at, visits }, 9);
            }
        }
        refused(&mut random, &record, &Change { kind: Kind::RemoveStop, at: (1, 1), visits: 5 }, 9);
    }
}

/// Worked out by hand: case A, whose stops' near are 7 and 20, with others.
#[test]
fn a_stored_near_is_taken_as_it_is() {
    let mut random = Random::new(seed());
    let case_a = Record::of(&read(CASE_A.as_bytes()).unwrap());
    let two_posts = case_a.changed(&change("+post=10,10")).unwrap();
    assert_eq!((&two_posts.near[..2], two_posts.before), (&[7, 4][..], 18));
    // near at first, a change, near and before then
    let rows: [(&Record, [u64; 2], &str, &[u64], u64); 10] = [
        // the stops are 0 and 13 from the post that comes
        (&case_a, [5, 20], "+post=4,3", &[0, 13], 13),
        (&case_a, [5, 6], "+post=4,3", &[0, 6], 6),
        // 13 and 4 from the one that goes: found anew where near says the same, and kept otherwise
        (&two_posts, [7, 4], "-post=10,10", &[7, 20], 34),
        (&two_posts, [7, 3], "-post=10,10", &[7, 3], 17),
        (&two_posts, [13, 5], "-post=10,10", &[7, 5], 19),
        (&two_posts, [720_000, 4], "-post=10,10", &[720_000, 20], 1_440_020),
        // 7 and 20 from the other one
        (&two_posts, [7, 20], "-post=0,0", &[13, 4], 30),
        (&two_posts, [0, 0], "-post=0,0", &[0, 0], 0),
        // only the new stop is looked at, and what is left moves up
        (&two_posts, [1, 2], "+stop=9,9,3", &[1, 2, 2], 10),
        (&two_posts, [1, 2], "-stop=4,3,2", &[2], 2),
    ];
    for (deck, near, line, after, before) in rows {
        let mut record = Record { before: random.next(), ..deck.clone() };
        record.near[..2].copy_from_slice(&near);
        let new = check_change(&mut random, &record, &change(line)).unwrap();
        assert_eq!((&new.near[..after.len()], new.before), (after, before), "{line}, {near:?}");
        assert!(new.near[after.len()..].iter().all(|&n| n == 0));
    }
    // where nothing changes, before is not brought up to date
    let record = Record { before: 77, ..case_a };
    for (line, number) in [("-post=0,0", 5), ("-post=1,0", 9), ("-stop=4,3,3", 9), ("+stop=4,3,0", 3)] {
        refused(&mut random, &record, &change(line), number);
    }
}

// ---- kinds that there are not

#[test]
fn other_kinds_get_nothing() {
    let mut random = Random::new(seed());
    let good = Record::of(&read(CASE_A.as_bytes()).unwrap());
    for record in [good.clone(), changeable(&mut random), any_numbers(&mut random)] {
        for kind in [4, 5, 6, 7, 8, 256, 1 << 32, (1 << 32) + 1, (1 << 32) + 3, 1 << 63, u64::MAX - 1, u64::MAX] {
            for which in [0, 1, 2, u64::MAX] {
                for (at, visits) in [((4, 3), 2), ((0, 0), 1), ((20_001, 0), 0)] {
                    let mut after = record.clone();
                    assert_eq!(trial::change(&mut after, kind, at, visits, which), LEAST);
                    assert!(after == record);
                }
            }
        }
    }
    // and the four kinds
    for change in each_kind(&good) {
        let answer = check_change(&mut random, &good, &change).map_err(|why| why.number);
        assert_eq!(answer.err(), if change.kind == Kind::RemovePost { Some(5) } else { None });
    }
}
