//! The reference against itself, on random decks: what RULES "Promise 3", "Exhaustive search", "Bound", "Corner bound" and the changes say of
//! the rules. And against the vectors.

use siting_tests::generate::{any_rect, each_job, job, job_of, largest, rect, seed, special, spelled, turns, Random};
use siting_tests::reference::{answer_text, brute_force, changed, exhaustive, read, saved, search, search_by, spell, travel, write};
use siting_tests::reference::{Axis, Change, Deck, Job, Kind, Place, Record, Rect, Refusal, Stop};
use siting_tests::text;
use siting_tests::vectors::{changes, closer, refusals, reports};

#[test]
fn a_finished_search_finds_the_earliest_cheapest_point() {
    let mut random = Random::new(seed());
    for _ in 0..3_000 {
        let size = random.range(1, 12);
        let j = Job { rounds: 1_000, ..job_of(&mut random, size, 8) };
        let found = search(&j);
        assert!(found.done);
        assert_eq!((found.high, found.at), brute_force(&j), "{}", String::from_utf8_lossy(&spell(&j)));
        assert_eq!((found.high, found.at), exhaustive(&j));
        assert_eq!(found.low, found.high);
        // by the other bound it is the same point
        let other = search_by(&j, |deck, r| deck.corner_bound(r));
        assert_eq!((other.done, other.high, other.low, other.at), (true, found.high, found.low, found.at));
    }
}

#[test]
fn low_rises_and_high_falls() {
    let mut random = Random::new(seed());
    for _ in 0..300 {
        let j = job_of(&mut random, 20, 8);
        let mut last = search(&Job { rounds: 0, ..j.clone() });
        for rounds in 1..40 {
            let next = search(&Job { rounds, ..j.clone() });
            assert!(last.low <= next.low && next.high <= last.high);
            assert!(next.done || next.rounds == rounds);
            last = next;
        }
    }
}

#[test]
fn a_spelled_job_is_read_and_written_as_itself() {
    let (mut plain, mut spelled_out) = (0, 0);
    each_job(4_000, spelled(job), |_, bytes| {
        let j = read(bytes).unwrap();
        let text = saved(bytes);
        assert_eq!(text, spell(&j));
        assert_eq!(write(&Record::of(&j), text.len()).as_ref(), Ok(&text));
        assert_eq!(read(&text), Ok(j.clone()));
        // its own bytes, but for the one line
        let lines: Vec<&[u8]> = bytes.split_inclusive(|&b| b == 10).collect();
        let out = lines[1] == b"axis=1,1\n";
        assert_eq!(text, if out { [lines[0], &lines[2..].concat()].concat() } else { bytes.into() });
        plain += (j.axis == Axis::PLAIN) as usize;
        spelled_out += out as usize;
    });
    println!("{plain} with axis costs of 1,1, {spelled_out} of them spelled out");
    assert!((1_800..2_300).contains(&plain) && spelled_out > 150);
}

/// No post is closer to a stop than its near, and one is as close. A further post where one stands changes nothing: its cost is before.
#[test]
fn a_record_has_the_near_of_each_stop_and_before() {
    each_job(2_000, spelled(job), |_, bytes| {
        let j = read(bytes).unwrap();
        let (record, deck) = (Record::of(&j), Deck::new(&j));
        for (s, near) in j.stops.iter().zip(&record.near) {
            let travels: Vec<u64> = j.posts.iter().map(|&p| travel(j.axis, s.at, p) as u64).collect();
            assert!(travels.contains(near) && travels.iter().all(|t| near <= t));
        }
        assert!(record.near[j.stops.len()..].iter().all(|&near| near == 0));
        assert!(j.posts.iter().all(|&p| deck.cost(p) == record.before as i64));
    });
}

// ---- bounds, also of rectangles that no search makes

/// How often each kind of rectangle was seen.
#[derive(Debug, Default)]
struct Bounds {
    rectangles: usize,
    points: usize,
    segments: usize,
    /// The bound is above the corner bound, and the corner bound below 0.
    closer: usize,
    negative: usize,
    /// The bound is 0, and before.
    zero: usize,
    before: usize,
    /// All its points were priced, and, of more than one, some cost no more than the bound.
    whole: usize,
    reached: usize,
    /// A part has a larger bound.
    larger: usize,
}

/// A number of lo ..= hi, mostly a random one.
fn between(random: &mut Random, lo: i64, hi: i64) -> i64 {
    if random.one_in(8) { random.pick(&[lo, hi]) } else { random.range(lo, hi) }
}

/// A rectangle in another.
fn within(random: &mut Random, r: Rect) -> Rect {
    let mut edges = |lo, hi| {
        let (v, w) = (between(random, lo, hi), between(random, lo, hi));
        (v.min(w), v.max(w))
    };
    let ((xlo, xhi), (ylo, yhi)) = (edges(r.xlo, r.xhi), edges(r.ylo, r.yhi));
    Rect { xlo, ylo, xhi, yhi }
}

/// All numbers of lo ..= hi, or of many some.
fn numbers(random: &mut Random, lo: i64, hi: i64) -> Vec<i64> {
    if hi - lo < 20 { (lo..=hi).collect() } else { (0..4).map(|_| between(random, lo, hi)).collect() }
}

fn check_bounds(random: &mut Random, job: &Job, r: Rect, seen: &mut Bounds) {
    let deck = Deck::new(job);
    let (bound, corner_bound) = (deck.bound(r), deck.corner_bound(r));
    let say = || format!("{r:?} {bound} {corner_bound}\n{}", text(&spell(job)));
    assert!(corner_bound <= bound && 0 <= bound && bound <= deck.before(), "{}", say());
    // no point costs less
    let (xs, ys) = (numbers(random, r.xlo, r.xhi), numbers(random, r.ylo, r.yhi));
    let points: Vec<Place> = xs.iter().flat_map(|&x| ys.iter().map(move |&y| (x, y))).collect();
    let least = points.iter().map(|&p| deck.cost(p)).min().unwrap();
    assert!(bound <= least, "{}", say());
    let (width, depth) = (r.xhi - r.xlo, r.yhi - r.ylo);
    let whole = width < 20 && depth < 20;
    if whole {
        // each stop with a post of its own, at the best of all points
        let alone = |s: &Stop| points.iter().map(|&p| travel(job.axis, s.at, p)).min().unwrap();
        let sum: i64 = job.stops.iter().zip(&deck.near).map(|(s, &near)| s.visits * near.min(alone(s))).sum();
        assert_eq!(bound, sum, "{}", say());
    }
    if points.len() == 1 {
        assert_eq!((bound, corner_bound), (least, least), "{}", say());
    }
    // no part has a smaller one
    let at_x = xs.iter().flat_map(|&v| [Rect { xhi: v, ..r }, Rect { xlo: v, ..r }]);
    let at_y = ys.iter().flat_map(|&v| [Rect { yhi: v, ..r }, Rect { ylo: v, ..r }]);
    let others: Vec<Rect> = (0..3).map(|_| within(random, r)).collect();
    let parts: Vec<i64> = at_x.chain(at_y).chain(others).map(|part| deck.bound(part)).collect();
    assert!(parts.iter().all(|&part| bound <= part), "{}", say());
    seen.rectangles += 1;
    seen.points += (points.len() == 1) as usize;
    seen.segments += (points.len() > 1 && width.min(depth) == 0) as usize;
    seen.closer += (corner_bound < bound) as usize;
    seen.negative += (corner_bound < 0) as usize;
    seen.zero += (bound == 0) as usize;
    seen.before += (bound == deck.before()) as usize;
    seen.whole += whole as usize;
    seen.reached += (whole && points.len() > 1 && bound == least) as usize;
    seen.larger += parts.iter().any(|&part| bound < part) as usize;
}

#[test]
fn no_point_costs_less_than_the_bound_and_no_part_has_a_smaller_one() {
    let mut random = Random::new(seed());
    let mut seen = Bounds::default();
    for i in 0..4_000 {
        let size = random.pick(&[2, 5, 12, 12, 1_000, 20_000]);
        let j = match i % 40 {
            0 => largest(&mut random),
            1 => job_of(&mut random, 20_000, 512),
            2..=9 => special(&mut random),
            _ => job_of(&mut random, size, 8),
        };
        for _ in 0..4 {
            let (any, near) = (any_rect(&mut random, &j, size), rect(&mut random, size));
            for r in [any, near, within(&mut random, j.area)] {
                check_bounds(&mut random, &j, r, &mut seen);
            }
        }
        check_bounds(&mut random, &j, Rect { xlo: -20_000, ylo: -20_000, xhi: 20_000, yhi: 20_000 }, &mut seen);
    }
    println!("{seen:?}");
    assert!(seen.points > 1_000 && seen.segments > 5_000 && seen.whole > 10_000 && seen.larger > 10_000, "{seen:?}");
    assert!(seen.closer > 10_000 && seen.negative > 3_000 && seen.zero > 2_000 && seen.before > 5_000 && seen.reached > 5_000, "{seen:?}");
}

/// The same under every pair of axis costs.
#[test]
fn bounds_under_each_axis_cost() {
    let mut random = Random::new(seed());
    let mut seen = Bounds::default();
    for i in 0..10 * 81 {
        let axis = Axis { a: i / 9 % 9 + 1, b: i % 9 + 1 };
        let j = Job { axis, ..job_of(&mut random, 9, 8) };
        for _ in 0..10 {
            let (any, near) = (any_rect(&mut random, &j, 9), rect(&mut random, 9));
            check_bounds(&mut random, &j, any, &mut seen);
            check_bounds(&mut random, &j, near, &mut seen);
        }
    }
    println!("{seen:?}");
    assert!(seen.points > 300 && seen.closer > 3_000 && seen.reached > 2_000 && seen.larger > 3_000, "{seen:?}");
}

#[test]
fn the_bound_saves_a_cut() {
    let job = read(closer(1_000).as_bytes()).unwrap();
    let by_corners = |rounds: i64| search_by(&Job { rounds, ..job.clone() }, |deck, r| deck.corner_bound(r));
    assert_eq!([0, 1, 2, 3].map(|rounds| by_corners(rounds).low), [6, 7, 9, 9]);
    assert_eq!((search(&job).rounds, by_corners(1_000).rounds), (2, 3));
}

// ---- changes

#[test]
fn changes_make_what_was_worked_out_by_hand() {
    for (text, rows) in changes() {
        let mut job = read(text.as_bytes()).unwrap();
        let mut record = Record::of(&job);
        for row in rows {
            let (lists, numbers) = (changed(&job, &row.change), record.changed(&row.change));
            let refused = (row.refused != 0).then_some(Refusal { number: row.refused, line: 0 });
            assert_eq!((lists.as_ref().err(), numbers.as_ref().err()), (refused.as_ref(), refused.as_ref()), "{}", row.change);
            (job, record) = (lists.unwrap_or(job), numbers.unwrap_or(record));
            assert_eq!(job, row.job, "{}", row.change);
            assert!(record == Record::of(&job), "{}", row.change);
            assert_eq!((&record.near[..job.stops.len()], record.before), (row.near, row.before), "{}", row.change);
        }
    }
}

/// A change of one that is held, of one like it, or of any. Few places and visits: items are often equal.
fn any_change(random: &mut Random, job: &Job) -> Change {
    let mut kind = random.pick(&Kind::ALL);
    if random.one_in(3) {
        kind = if kind.of_a_post() { Kind::RemovePost } else { Kind::RemoveStop };
    }
    let (mut at, mut visits) = ((random.range(-2, 2), random.range(-2, 2)), random.range(1, 3) as u64);
    if random.one_in(2) {
        let stop = random.pick(&job.stops);
        at = if kind.of_a_post() { random.pick(&job.posts) } else { stop.at };
        visits = stop.visits as u64;
    }
    match random.range(1, 20) {
        1 => at.0 = random.pick(&[20_001, -20_001, i64::MIN, i64::MAX]),
        2 => visits = random.pick(&[0, 65_536, u64::MAX]),
        _ => {}
    }
    Change { kind, at, visits }
}

/// The two ways in which the reference changes a deck, and what is promised of both.
#[test]
fn a_changed_record_is_that_of_the_changed_job() {
    let mut random = Random::new(seed());
    let mut seen = [0; 11];
    let enough = |seen: &[usize; 11]| seen[0] > 10_000 && [3, 5, 6, 9].iter().all(|&i| seen[i] > 50);
    turns(&mut seen, 300, enough, |seen, _| {
        let size = random.range(1, 3);
        let mut job = job_of(&mut random, size, 8);
        let mut record = Record::of(&job);
        for _ in 0..100 {
            let change = any_change(&mut random, &job);
            let (lists, numbers) = (changed(&job, &change), record.changed(&change));
            assert_eq!(numbers.as_ref().err(), lists.as_ref().err(), "{change}");
            let Ok(next) = lists else {
                seen[lists.unwrap_err().number as usize] += 1;
                continue;
            };
            seen[0] += 1;
            record = numbers.unwrap();
            assert!(record == Record::of(&next), "{change}");
            // near never falls where a post goes, and never rises where one comes
            let near = |job: &Job| Deck::new(job).near;
            match change.kind {
                Kind::AddPost => assert!(near(&next).iter().zip(near(&job)).all(|(new, old)| *new <= old), "{change}"),
                Kind::RemovePost => assert!(near(&next).iter().zip(near(&job)).all(|(new, old)| *new >= old), "{change}"),
                Kind::AddStop => assert_eq!(near(&next)[..job.stops.len()], near(&job), "{change}"),
                Kind::RemoveStop => assert_eq!(next.stops.len() + 1, job.stops.len(), "{change}"),
            }
            job = next;
        }
    });
    assert_eq!([1, 2, 4, 7, 8].map(|i| seen[i]), [0; 5]);
}

#[test]
fn a_full_list_takes_nothing() {
    let area = Rect { xlo: 0, ylo: 0, xhi: 0, yhi: 0 };
    let (posts, stops) = (vec![(1, 1); 64], vec![Stop { at: (1, 1), visits: 1 }; 512]);
    let job = Job { area, axis: Axis::PLAIN, posts, stops, rounds: 0 };
    for kind in [Kind::AddPost, Kind::AddStop] {
        let change = Change { kind, at: (1, 1), visits: 1 };
        let ten = Some(Refusal { number: 10, line: 0 });
        assert_eq!((changed(&job, &change).err(), Record::of(&job).changed(&change).err()), (ten.clone(), ten), "{change}");
    }
}

// ---- axis costs

#[test]
fn the_vectors_get_what_they_say() {
    for (job, report) in reports() {
        assert_eq!(answer_text(job.as_bytes()), report, "{job}");
        let job = read(job.as_bytes()).unwrap();
        assert_eq!(exhaustive(&job), brute_force(&job));
    }
    for (job, number, line) in refusals() {
        assert_eq!(read(job.as_bytes()), Err(Refusal { number, line }), "{job}");
    }
}

/// The same deck with every x multiplied by a and every y by b, and axis costs of 1,1.
fn stretched(j: &Job) -> Job {
    let at = |p: Place| (j.axis.a * p.0, j.axis.b * p.1);
    Job {
        area: stretched_rect(j.axis, j.area),
        axis: Axis::PLAIN,
        posts: j.posts.iter().map(|&p| at(p)).collect(),
        stops: j.stops.iter().map(|s| Stop { at: at(s.at), ..*s }).collect(),
        rounds: j.rounds,
    }
}

fn stretched_rect(Axis { a, b }: Axis, r: Rect) -> Rect {
    Rect { xlo: a * r.xlo, ylo: b * r.ylo, xhi: a * r.xhi, yhi: b * r.yhi }
}

#[test]
fn axis_costs_are_plain_travel_on_a_stretched_deck() {
    let mut random = Random::new(seed());
    for _ in 0..2_000 {
        let size = random.pick(&[2, 5, 12, 1_000, 20_000]);
        let j = job_of(&mut random, size, 8);
        let (deck, other) = (Deck::new(&j), &stretched(&j));
        let wide = Deck::new(other);
        let Axis { a, b } = j.axis;
        assert_eq!((&deck.near, deck.before()), (&wide.near, wide.before()));
        for _ in 0..10 {
            let p = (random.range(-size, size), random.range(-size, size));
            assert_eq!(deck.cost(p), wide.cost((a * p.0, b * p.1)));
            let r = rect(&mut random, size);
            let stretched = stretched_rect(j.axis, r);
            let figures = |deck: &Deck, r: Rect| (deck.load(r), deck.bound(r), deck.corner_bound(r));
            assert_eq!(figures(&deck, r), figures(&wide, stretched));
        }
        let (cost, at) = exhaustive(&j);
        assert_eq!((cost, (a * at.0, b * at.1)), exhaustive(other));
        let scaled = |lines: Vec<i64>, k: i64| lines.iter().map(|v| k * v).collect::<Vec<i64>>();
        assert_eq!((scaled(deck.vertical(), a), scaled(deck.horizontal(), b)), (wide.vertical(), wide.horizontal()));
    }
}
