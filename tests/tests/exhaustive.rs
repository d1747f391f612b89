//! The proved exhaustive call (RULES "Exhaustive search") against the reference's search of all crossings and of all points of a small area,
//! and against done reports of the same job.

use siting_tests::generate::{axis, crowded, damaged, each_job, job, job_of, largest, noise, seed, special, spelled, Random};
use siting_tests::reference::{brute_force, exhaustive, read, search, spell, Axis, Job, Place, Rect, Refusal, Stop};
use siting_tests::text;
use siting_tests::trial;
use siting_tests::vectors::{case_a, case_b, case_c, case_d, narrow, refusals, refused_in_reading, reports};

const LEAST: i64 = i64::MIN;

/// The answer by the call: the cost and the place, or the refusal. All figures are asked for, those that are not there too.
fn answer(random: &mut Random, bytes: &[u8]) -> Result<(i64, Place), Refusal> {
    let f = [0, 1, 2, 3].map(|which| trial::exhaustive(bytes, which));
    let line = trial::exhaustive_line(bytes) as i64;
    for which in [4, 5, u64::MAX - random.range(0, 9) as u64] {
        assert_eq!(trial::exhaustive(bytes, which), LEAST, "figure {which}\n{}", text(bytes));
    }
    if f[3] == 0 {
        assert_eq!(line, 0, "{}", text(bytes));
        assert!(f[..3].iter().all(|&v| v != LEAST), "{}", text(bytes));
        Ok((f[2], (f[0], f[1])))
    } else {
        assert_eq!(f[..3], [LEAST; 3], "{}", text(bytes));
        Err(Refusal { number: f[3], line })
    }
}

/// How often each answer was seen.
#[derive(Default, Debug)]
struct Seen {
    jobs: usize,
    refusals: [usize; 9],
    found: usize,
    axis_costs: usize,
    brute_forced: usize,
    done: usize,
    stopped: usize,
    other_rounds: usize,
}

/// A report by the call: whether it is done, and its cost and place.
fn reported(bytes: &[u8]) -> (bool, (i64, Place)) {
    let f = [0, 1, 2, 3].map(|which| trial::report_figure(bytes, &mut [0; 5_005], &mut [0; 128], which));
    (f[0] == 0, (f[3], (f[1], f[2])))
}

fn points(a: Rect) -> i64 {
    (a.xhi - a.xlo + 1) * (a.yhi - a.ylo + 1)
}

fn check(random: &mut Random, bytes: &[u8], seen: &mut Seen) {
    seen.jobs += 1;
    let found = answer(random, bytes);
    let job = match read(bytes) {
        Err(why) => {
            assert_eq!(found, Err(why), "{}", text(bytes));
            assert!((1..=6).contains(&why.number), "{}", text(bytes));
            seen.refusals[why.number as usize] += 1;
            return;
        }
        Ok(job) => job,
    };
    seen.found += 1;
    seen.axis_costs += (job.axis != Axis::PLAIN) as usize;
    let found = found.unwrap_or_else(|why| panic!("{why:?}\n{}", text(bytes)));
    assert_eq!(found, exhaustive(&job), "{}", text(bytes));
    if points(job.area) * job.stops.len() as i64 <= 20_000 {
        assert_eq!(found, brute_force(&job), "{}", text(bytes));
        seen.brute_forced += 1;
    }
    // with these rounds and others: the same answer, and a done report has it
    for rounds in [job.rounds, 0, random.range(0, 1_000), 1_000] {
        let other = spell(&Job { rounds, ..job.clone() });
        if rounds != job.rounds {
            assert_eq!(answer(random, &other), Ok(found), "rounds {rounds}\n{}", text(bytes));
            seen.other_rounds += 1;
        }
        let (done, best) = reported(&other);
        if done {
            assert_eq!(best, found, "rounds {rounds}\n{}", text(bytes));
            seen.done += 1;
        } else {
            assert!(found <= best, "rounds {rounds}\n{}", text(bytes));
            seen.stopped += 1;
        }
    }
    // no number of rounds that is not allowed
    let line = (job.posts.len() + job.stops.len() + 4 + (job.axis != Axis::PLAIN) as usize) as i64;
    let other = spell(&Job { rounds: 1_001, ..job });
    assert_eq!(answer(random, &other), Err(Refusal { number: 3, line }), "{}", text(bytes));
}

fn check_jobs(count: usize, bytes: impl Fn(&mut Random) -> Vec<u8>) -> Seen {
    let mut seen = Seen::default();
    each_job(count, bytes, |random, b| check(random, b, &mut seen));
    println!("{seen:?}");
    assert_eq!(seen.jobs, count);
    seen
}

// ---- random jobs

#[test]
fn crossings_are_those_of_the_reference() {
    let seen = check_jobs(4_000, spelled(job));
    assert!(seen.found == 4_000 && seen.axis_costs > 1_500 && seen.brute_forced > 1_500 && seen.done > 5_000 && seen.stopped > 1_000, "{seen:?}");
}

#[test]
fn crossings_of_special_decks_are_those_of_the_reference() {
    let seen = check_jobs(6_000, spelled(special));
    assert!(seen.axis_costs > 2_000 && seen.brute_forced > 2_000 && seen.done > 10_000 && seen.stopped > 500, "{seen:?}");
}

/// Small areas, few stops: every point is priced, and most costs are tied.
#[test]
fn every_point_of_a_small_area_costs_at_least_the_answer() {
    let seen = check_jobs(6_000, spelled(|random: &mut Random| {
        let size = random.range(1, 14);
        job_of(random, size, 10)
    }));
    assert!(seen.axis_costs > 2_000 && seen.brute_forced > 5_000 && seen.done > 10_000, "{seen:?}");
}

#[test]
fn crossings_of_the_largest_decks_are_those_of_the_reference() {
    let seen = check_jobs(60, spelled(largest));
    assert!(seen.found == 60 && seen.axis_costs > 20, "{seen:?}");
}

/// Some 500 lines each way: the reference prices a quarter of a million crossings a deck.
#[test]
fn crossings_of_crowded_decks_are_those_of_the_reference() {
    let seen = check_jobs(12, spelled(|random: &mut Random| {
        let (width, depth) = (random.range(300, 20_000), random.range(300, 20_000));
        let mut j = crowded(random, width, depth, 65_535);
        j.axis = axis(random);
        match random.range(1, 3) {
            // one post in a corner: nearly every line reaches nearly every stop
            1 => j.posts = vec![(-20_000, -20_000)],
            2 => j.posts.truncate(random.range(1, 8) as usize),
            _ => {}
        }
        j
    }));
    assert!(seen.found == 12, "{seen:?}");
}

/// The sums of the ramps at their largest: one post in a corner, all stops with the most visits in the opposite one, or all over, and the
/// most axis costs too.
#[test]
fn the_largest_figures_are_those_of_the_reference() {
    let mut random = Random::new(seed());
    let mut seen = Seen::default();
    let whole = Rect { xlo: -20_000, ylo: -20_000, xhi: 20_000, yhi: 20_000 };
    let corners: [Place; 4] = [(-20_000, -20_000), (20_000, -20_000), (-20_000, 20_000), (20_000, 20_000)];
    for post in corners {
        for spread in [0, 1, 50, 40_000] {
            for area in [whole, Rect { xhi: -20_000, ..whole }, Rect { ylo: 20_000, ..whole }, Rect { xlo: 19_990, ylo: 19_990, ..whole }] {
                for (a, b) in [(1, 1), (9, 9), (1, 9)] {
                    let mut across = |v: i64| -v + v.signum() * random.range(0, spread);
                    let stops = (0..512).map(|i| Stop { at: (across(post.0), across(post.1)), visits: if i < 500 { 65_535 } else { 1 } }).collect();
                    let j = Job { area, axis: Axis { a, b }, posts: vec![post], stops, rounds: 0 };
                    check(&mut random, &spell(&j), &mut seen);
                }
            }
        }
    }
    println!("{seen:?}");
    assert!(seen.found == 192, "{seen:?}");
}

#[test]
fn damaged_jobs_are_refused_as_the_reference_refuses_them() {
    let seen = check_jobs(10_000, |random| if random.one_in(5) { noise(random) } else { damaged(random) });
    assert!(seen.refusals[1..7].iter().all(|&n| n > 10), "{seen:?}");
    assert!(seen.refusals[7..] == [0, 0] && seen.found > 700 && seen.axis_costs > 200, "{seen:?}");
}

// ---- RULES "Worked cases"

fn finds(bytes: &str, cost: i64, at: Place) {
    let mut random = Random::new(1);
    assert_eq!(answer(&mut random, bytes.as_bytes()), Ok((cost, at)), "{bytes}");
    let job = read(bytes.as_bytes()).unwrap();
    assert_eq!((exhaustive(&job), brute_force(&job)), ((cost, at), (cost, at)), "{bytes}");
    let found = search(&Job { rounds: 1_000, ..job });
    assert_eq!((found.done, found.high, found.at), (true, cost, at), "{bytes}");
}

#[test]
fn the_marked_decks_have_their_places() {
    for rounds in [0, 1, 2, 3, 10, 1_000] {
        finds(&case_a(rounds), 13, (4, 3));
        finds(&case_b(rounds), 10, (0, 0));
        finds(&case_c(rounds), 16, (5, 5));
        finds(&case_d(rounds), 0, (5, 0));
    }
}

#[test]
fn a_narrow_deck_has_another_place_for_each_of_three_axis_costs() {
    for rounds in [0, 1, 1_000] {
        for axis_line in ["", "axis=1,1\n"] {
            finds(&narrow(axis_line, rounds), 7, (2, 1));
        }
        finds(&narrow("axis=2,1\n", rounds), 9, (2, 4));
        finds(&narrow("axis=1,2\n", rounds), 9, (3, 1));
    }
}

#[test]
fn the_vectors_get_what_they_say() {
    let mut random = Random::new(1);
    let mut seen = Seen::default();
    for (job, _) in reports() {
        check(&mut random, job.as_bytes(), &mut seen);
    }
    assert_eq!(seen.found, reports().len());
    for (job, number, line) in refusals() {
        refused(job.as_bytes(), number, line);
    }
}

fn refused(bytes: &[u8], number: i64, line: i64) {
    let mut random = Random::new(1);
    assert_eq!(answer(&mut random, bytes), Err(Refusal { number, line }), "{}", text(bytes));
}

#[test]
fn refusals_are_those_of_reading() {
    for (job, number, line) in refused_in_reading() {
        refused(&job, number, line);
    }
}
