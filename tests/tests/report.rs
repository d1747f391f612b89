//! The proved report call (RULES "Calls", "Figures", "Cell space") against the reference: answer, text, cell space and all that stays as it
//! was, on random jobs and lent memory.

use siting_tests::generate::{damaged, each_job, far_post, job, job_of, largest, noise, seed, small, special, spelled, spelling, Random};
use siting_tests::reference::{brute_force, estimate, exhaustive, lent_enough, read, refusal_text, report_text, search, spell};
use siting_tests::reference::{Axis, Deck, Estimate, Found, Job, Rect, Refusal, Stop};
use siting_tests::text;
use siting_tests::trial;
use siting_tests::vectors::{case_a, case_b, case_c, case_d, closer, deep, equal_bounds, narrow, refusals, reports};

const LEAST: i64 = i64::MIN;

// ---- lent memory

/// A cell space and an output, full of what they held before.
#[derive(Clone, Debug, PartialEq)]
struct Lent {
    cells: Vec<i64>,
    out: Vec<u8>,
}

fn lent(random: &mut Random, cells: usize, out: usize) -> Lent {
    Lent {
        cells: (0..cells).map(|_| random.next() as i64).collect(),
        out: (0..out).map(|_| random.next() as u8).collect(),
    }
}

// ---- what is expected

/// An accepted job with what it needs and its search.
struct Accepted {
    job: Job,
    estimate: Estimate,
    found: Found,
}

/// What the call gives for a job, if enough is lent, or the refusal.
type Answer = Result<Accepted, Refusal>;

fn answer(bytes: &[u8]) -> Answer {
    read(bytes).map(|job| {
        let (estimate, found) = (estimate(&job), search(&job));
        Accepted { job, estimate, found }
    })
}

/// The answer with what is lent, and what the memory holds then.
fn expected(answer: &Answer, before: &Lent) -> (Result<Found, Refusal>, Lent) {
    let refused = |why| (Err(why), before.clone());
    let (estimate, found) = match answer {
        Err(why) => return refused(*why),
        Ok(accepted) => (&accepted.estimate, &accepted.found),
    };
    if let Err(why) = lent_enough(estimate, before.cells.len(), before.out.len()) {
        return refused(why);
    }
    let mut cells = found.cells.clone();
    cells.resize(before.cells.len(), 0);
    let mut out = report_text(found).into_bytes();
    out.extend_from_slice(&before.out[out.len()..]);
    (Ok(found.clone()), Lent { cells, out })
}

fn figures(answer: &Result<Found, Refusal>) -> [i64; 7] {
    match answer {
        Err(_) => [LEAST; 7],
        Ok(f) => [!f.done as i64, f.at.0, f.at.1, f.high, f.low, f.before, f.rounds],
    }
}

// ---- checks

fn check_figure(bytes: &[u8], before: &Lent, after: &Lent, which: u64, want: i64) {
    let mut m = before.clone();
    assert_eq!(trial::report_figure(bytes, &mut m.cells, &mut m.out, which), want, "figure {which}\n{}", text(bytes));
    assert!(m == *after, "figure {which}, memory\n{}", text(bytes));
}

/// The number, the line and the figures of the answer, each with the whole of the memory: all figures where `whole` is true, else one.
fn check(random: &mut Random, bytes: &[u8], answer: &Answer, before: Lent, whole: bool) -> Result<Found, Refusal> {
    let (want, after) = expected(answer, &before);
    let (number, line) = want.as_ref().map_or_else(|r| (-r.number, r.line), |_| (0, 0));
    // 9 and 10 are those of a change
    assert!((-8..=0).contains(&number), "{}", text(bytes));
    let mut m = before.clone();
    assert_eq!(trial::report(bytes, &mut m.cells, &mut m.out), number, "{}", text(bytes));
    assert_eq!(text(&m.out), text(&after.out), "{}", text(bytes));
    assert!(m == after, "memory\n{}", text(bytes));
    let mut m = before.clone();
    assert_eq!(trial::report_line(bytes, &mut m.cells, &mut m.out) as i64, line, "{}", text(bytes));
    assert!(m == after, "memory\n{}", text(bytes));
    let numbers = figures(&want);
    if whole {
        for (which, v) in numbers.into_iter().enumerate() {
            check_figure(bytes, &before, &after, which as u64, v);
        }
        for which in [7, u64::MAX - random.range(0, 9) as u64] {
            check_figure(bytes, &before, &after, which, LEAST);
        }
    } else {
        let which = random.range(0, 6);
        check_figure(bytes, &before, &after, which as u64, numbers[which as usize]);
    }
    want
}

/// How often each answer was seen.
#[derive(Default, Debug)]
struct Seen {
    jobs: usize,
    axis_costs: usize,
    /// Fewer cells than rounds + 1 suffice.
    few_cells: usize,
    /// A cell space just large enough holds live cells to its end.
    full: usize,
    refusals: [usize; 9],
    done: usize,
    stopped: usize,
    /// Of stopped reports: with a low of 0, and above it.
    low_0: usize,
    low_above_0: usize,
    most_low: i64,
    most_cells: usize,
    most_rounds: i64,
}

impl Seen {
    fn add(&mut self, answer: Result<Found, Refusal>) {
        match answer {
            Err(r) => self.refusals[r.number as usize] += 1,
            Ok(f) => {
                assert!(0 <= f.low && f.low <= f.high && f.high <= f.before, "{f:?}");
                if f.done {
                    self.done += 1;
                } else {
                    self.stopped += 1;
                    *(if f.low == 0 { &mut self.low_0 } else { &mut self.low_above_0 }) += 1;
                    self.most_low = self.most_low.max(f.low);
                }
                self.most_cells = self.most_cells.max(f.cells.len() / 5);
                self.most_rounds = self.most_rounds.max(f.rounds);
            }
        }
    }
}

/// A job with memory of several sizes.
fn check_job(random: &mut Random, bytes: &[u8], seen: &mut Seen) {
    let answer = answer(bytes);
    seen.jobs += 1;
    let need = match &answer {
        Ok(Accepted { job, estimate, found }) => {
            seen.axis_costs += (job.axis != Axis::PLAIN) as usize;
            seen.few_cells += (estimate.cells <= job.rounds) as usize;
            seen.full += (found.cells.len() == estimate.numbers()) as usize;
            estimate.numbers()
        }
        Err(_) => random.range(0, 60) as usize,
    };
    let outs = [127, 128, 129, random.range(0, 600) as usize, random.range(128, 300) as usize];
    let any_out = outs[random.range(0, 4) as usize];
    let large_out = outs[[1, 2, 4][random.range(0, 2) as usize]];
    let more = need + [1, 4, 5, random.range(0, 700) as usize][random.range(0, 3) as usize];
    // enough of both, exactly or more
    let cells = if random.one_in(2) { need } else { more };
    let m = lent(random, cells, large_out);
    seen.add(check(random, bytes, &answer, m, true));
    // too small by one, too short by one, both, and what comes
    for (cells, out) in [(need.saturating_sub(1), large_out), (need, 127), (need.saturating_sub(1), 127), (random.range(0, 6_000) as usize, any_out)] {
        let m = lent(random, cells, out);
        seen.add(check(random, bytes, &answer, m, false));
    }
}

fn check_jobs(count: usize, bytes: impl Fn(&mut Random) -> Vec<u8>) -> Seen {
    let mut seen = Seen::default();
    each_job(count, bytes, |random, b| check_job(random, b, &mut seen));
    println!("{seen:?}");
    assert_eq!(seen.jobs, count);
    seen
}

// ---- random jobs

#[test]
fn reports_are_those_of_the_reference() {
    let seen = check_jobs(20_000, spelled(job));
    assert!(seen.done > 5_000 && seen.stopped > 1_000 && seen.most_cells > 20, "{seen:?}");
    assert!(seen.refusals[7] > 5_000 && seen.refusals[8] > 5_000 && seen.axis_costs > 8_000, "{seen:?}");
    assert!(seen.few_cells > 5_000 && seen.full > 100 && seen.low_0 > 30 && seen.low_above_0 > 1_000, "{seen:?}");
}

#[test]
fn reports_of_special_decks_are_those_of_the_reference() {
    let seen = check_jobs(15_000, spelled(special));
    assert!(seen.done > 5_000 && seen.stopped > 1_000 && seen.axis_costs > 6_000, "{seen:?}");
}

#[test]
fn reports_of_the_largest_decks_are_those_of_the_reference() {
    let seen = check_jobs(300, spelled(largest));
    assert!(seen.done + seen.stopped >= 300 && seen.axis_costs > 150, "{seen:?}");
}

/// Few posts, far away, and a large area: bounds are loose, and most searches end with many cells left.
#[test]
fn long_searches_are_those_of_the_reference() {
    let seen = check_jobs(300, spelled(|random: &mut Random| {
        let mut j = Job { rounds: random.range(20, 1_000), ..job_of(random, 20_000, 512) };
        j.posts = (0..random.range(1, 2)).map(|_| (random.range(19_000, 20_000), random.range(-20_000, -15_000))).collect();
        j.area = Rect { xlo: random.range(-20_000, -10_000), ylo: random.range(-20_000, -10_000), xhi: random.range(5_000, 20_000), yhi: random.range(5_000, 20_000) };
        j
    }));
    assert!(seen.stopped > 50 && seen.most_rounds > 500 && seen.most_cells > 200, "{seen:?}");
}

#[test]
fn damaged_jobs_are_refused_as_the_reference_refuses_them() {
    let seen = check_jobs(15_000, |random| if random.one_in(5) { noise(random) } else { damaged(random) });
    assert!(seen.refusals[1..].iter().all(|&n| n > 10), "{seen:?}");
}

/// Small decks with every number of rounds, from 0 until one is not needed: all figures, the text and the whole of the cell space.
#[test]
fn every_number_of_rounds_gets_what_the_reference_says() {
    let mut random = Random::new(seed());
    let mut seen = Seen::default();
    for i in 0..2_100 {
        let j = match i % 3 {
            0 => special(&mut random),
            1 => small(&mut random),
            _ => far_post(&mut random, 30, 10, 25),
        };
        for rounds in 0.. {
            let bytes = spelling(&mut random, &Job { rounds, ..j.clone() });
            let answer = answer(&bytes);
            let need = answer.as_ref().map_or(0, |accepted| accepted.estimate.numbers());
            let m = lent(&mut random, need + [0, 0, 1, 33][i % 4], 128 + i % 3);
            let f = check(&mut random, &bytes, &answer, m, true).unwrap();
            let needed = f.rounds == rounds;
            seen.add(Ok(f));
            if !needed {
                break;
            }
        }
    }
    println!("{seen:?}");
    assert!(seen.stopped > 5_000 && seen.low_0 > 100 && seen.low_above_0 > 5_000 && seen.most_rounds > 40, "{seen:?}");
}

// ---- brute force

/// A report's figures, by the call alone.
fn reported(random: &mut Random, j: &Job) -> Found {
    let bytes = spell(j);
    let before = lent(random, estimate(j).numbers(), 128);
    let f: Vec<i64> = (0..7)
        .map(|which| {
            let mut m = before.clone();
            trial::report_figure(&bytes, &mut m.cells, &mut m.out, which)
        })
        .collect();
    Found { done: f[0] == 0, at: (f[1], f[2]), high: f[3], low: f[4], before: f[5], rounds: f[6], cells: Vec::new() }
}

#[test]
fn every_point_of_a_small_area_costs_what_the_report_says() {
    let mut random = Random::new(seed());
    let (mut done, mut stopped, mut axis_costs) = (0, 0, 0);
    for i in 0..3_000 {
        let j = if i % 3 == 0 {
            special(&mut random)
        } else {
            let size = random.range(1, 14);
            job_of(&mut random, size, 10)
        };
        let a = j.area;
        if (a.xhi - a.xlo + 1) * (a.yhi - a.ylo + 1) > 2_000 {
            continue;
        }
        axis_costs += (j.axis != Axis::PLAIN) as usize;
        let deck = Deck::new(&j);
        let costs: Vec<i64> = (a.xlo..=a.xhi).flat_map(|x| (a.ylo..=a.yhi).map(move |y| (x, y))).map(|p| deck.cost(p)).collect();
        let cheapest = brute_force(&j);
        let most_cuts = estimate(&j).cut_limit;
        let mut last: Option<Found> = None;
        for rounds in [0, 1, 2, 3, 4, 5, 6, 9, 14, 30, 1_000] {
            let j = Job { rounds, ..j.clone() };
            let f = reported(&mut random, &j);
            let say = || format!("{f:?}\n{}", text(&spell(&j)));
            assert!(a.xlo <= f.at.0 && f.at.0 <= a.xhi && a.ylo <= f.at.1 && f.at.1 <= a.yhi, "{}", say());
            assert_eq!(deck.cost(f.at), f.high, "{}", say());
            assert_eq!(deck.before(), f.before, "{}", say());
            assert!(costs.iter().all(|&c| f.low <= c), "{}", say());
            assert!(cheapest.0 <= f.high && f.rounds <= most_cuts && f.rounds <= rounds, "{}", say());
            if f.done {
                assert_eq!((f.high, f.at), cheapest, "{}", say());
                assert_eq!((f.high, f.at), exhaustive(&j), "{}", say());
                assert_eq!(f.low, f.high, "{}", say());
                done += 1;
            } else {
                assert_eq!(f.rounds, rounds, "{}", say());
                stopped += 1;
            }
            if let Some(l) = &last {
                assert!(l.low <= f.low && f.high <= l.high, "{l:?}\n{}", say());
                assert!(!l.done || *l == f, "{l:?}\n{}", say());
            }
            last = Some(f);
        }
        assert!(last.unwrap().done || most_cuts > 1_000);
    }
    println!("done {done}, stopped {stopped}, with axis costs {axis_costs}");
    assert!(done > 5_000 && stopped > 2_000 && axis_costs > 500);
}

// ---- RULES "Worked cases"

/// The result with `cells` numbers and `out` bytes of garbage, the line, and the memory.
fn call(bytes: &[u8], cells: usize, out: usize) -> (i64, u64, Lent) {
    let mut random = Random::new(1);
    let before = lent(&mut random, cells, out);
    let (mut m, mut n) = (before.clone(), before.clone());
    let r = (trial::report(bytes, &mut m.cells, &mut m.out), trial::report_line(bytes, &mut n.cells, &mut n.out));
    assert!(m == n);
    assert!(r.0 == 0 || m == before, "a refusal changes nothing lent");
    (r.0, r.1, m)
}

fn refused(bytes: &[u8], number: i64, line: i64) {
    let (r, l, _) = call(bytes, 5_005, 128);
    assert_eq!((-r, l as i64), (number, line), "{}", text(bytes));
    assert_eq!(read(bytes), Err(Refusal { number, line }), "{}", text(bytes));
}

fn prints(bytes: &str, want: &str) {
    let (r, line, m) = call(bytes.as_bytes(), 5_005, 200);
    assert_eq!((r, line), (0, 0), "{bytes}");
    assert_eq!(text(&m.out[..want.len()]), want, "{bytes}");
}

#[test]
fn the_marked_decks_print_their_reports() {
    prints(&case_a(10), "state=done\nat=4,3\nhigh=13\nlow=13\nbefore=34\nrounds=3\n");
    prints(&case_a(0), "state=stopped\nat=8,8\nhigh=18\nlow=4\nbefore=34\nrounds=0\n");
    prints(&case_a(1), "state=stopped\nat=4,2\nhigh=16\nlow=4\nbefore=34\nrounds=1\n");
    prints(&case_a(2), "state=stopped\nat=4,3\nhigh=13\nlow=8\nbefore=34\nrounds=2\n");
    prints(&case_a(3), "state=done\nat=4,3\nhigh=13\nlow=13\nbefore=34\nrounds=3\n");
    prints(&case_b(10), "state=done\nat=0,0\nhigh=10\nlow=10\nbefore=110\nrounds=0\n");
    prints(&case_c(10), "state=done\nat=5,5\nhigh=16\nlow=16\nbefore=34\nrounds=0\n");
    prints(&case_d(0), "state=stopped\nat=0,0\nhigh=1\nlow=0\nbefore=1\nrounds=0\n");
    prints(&case_d(1), "state=done\nat=5,0\nhigh=0\nlow=0\nbefore=1\nrounds=1\n");
}

/// The live cells that a report leaves, from a cell space with room for more.
fn live(job: &str) -> Vec<i64> {
    let cells = estimate(&read(job.as_bytes()).unwrap()).numbers() + 7;
    let (r, _, m) = call(job.as_bytes(), cells, 128);
    assert_eq!(r, 0);
    let used = m.cells.chunks(5).take_while(|c| c.iter().any(|&v| v != 0)).count() * 5;
    assert!(m.cells[used..].iter().all(|&v| v == 0));
    m.cells[..used].to_vec()
}

/// Worked out by hand. The lines stand at x 2, 4, 8 and y 2, 3, 8.
#[test]
fn the_live_cells_of_case_a() {
    let live = |rounds: i64| live(&case_a(rounds));
    // 4,3 is inside, and 8,12 is 4 from 8,8
    assert_eq!(live(0), [2, 2, 8, 8, 4]);
    // cut at x 4, where 4,3 is; 8,12 is 4 from 8,8 and 8 from 4,8
    assert_eq!(live(1), [4, 2, 8, 8, 4, 2, 2, 4, 8, 8]);
    // the right one is cut at y 3, and no line is left inside its halves
    assert_eq!(live(2), [2, 2, 4, 8, 8]);
    // so is the left one
    assert_eq!(live(3), []);
    assert_eq!(live(10), []);
}

/// Worked out by hand.
#[test]
fn the_live_cells_of_decks_with_axis_costs() {
    let live_narrow = |rounds: i64| live(&narrow("axis=2,1\n", rounds));
    // 2,4 is inside, and 6,1 is 2 * 3 from 3,1
    assert_eq!(live_narrow(0), [1, 1, 3, 9, 6]);
    // cut at y 4, where 2,4 is: both new corners cost 11. 6,1 is 2 * 3 + 3 from 3,4, its near
    assert_eq!(live_narrow(1), [1, 1, 3, 4, 6, 1, 4, 3, 9, 9]);
    // the front one is cut at x 2: 2,4 costs 9, and the back one's corner is earlier
    assert_eq!(live_narrow(2), [1, 4, 3, 9, 9]);
    assert_eq!(live_narrow(3), []);
    // cut at y 2, as 5 tenths are longer than 3. Both stops are in the front; 3,0, with 3 visits, is 2 from the back: above the best cost, 4
    assert_eq!(live(&deep(1)), [0, 0, 3, 2, 0]);
}

/// Worked out by hand.
#[test]
fn the_live_cells_of_a_closer_bound() {
    // 2,1 is inside, and 9,5 is 5 + 3 from 4,2
    assert_eq!(live(&closer(0)), [0, 0, 4, 2, 8]);
    // cut at x 2, where 2,1 is. 9,5 is 7 + 3 from the left part: above the best cost, 9
    assert_eq!(live(&closer(1)), [2, 0, 4, 2, 8]);
    // cut at y 1, and no line is left inside its halves
    assert_eq!(live(&closer(2)), []);
}

/// Worked out by hand: of equal bounds the smaller x is first, and then the smaller y.
#[test]
fn the_live_cells_of_equal_bounds() {
    // cut at y 1, where both stops are, and the front part at x 1. Left of it 2,1 is 1 away, and no line inside
    assert_eq!(live(&equal_bounds(1)), [0, 0, 3, 1, 0, 0, 1, 3, 4, 0]);
    assert_eq!(live(&equal_bounds(2)), [0, 1, 3, 4, 0, 1, 0, 3, 1, 0]);
}

/// Worked out by hand: the cells that suffice, five numbers each, and the live ones of them. All of the space is written.
#[test]
fn the_cell_space_of_the_marked_decks() {
    let rows: [(String, usize, &[i64]); 13] = [
        (case_a(0), 1, &[2, 2, 8, 8, 4]),
        (case_a(1), 2, &[4, 2, 8, 8, 4, 2, 2, 4, 8, 8]),
        (case_a(2), 3, &[2, 2, 4, 8, 8]),
        (case_a(3), 4, &[]),
        (case_a(4), 4, &[]),
        (case_a(10), 4, &[]),
        (case_a(1_000), 4, &[]),
        (case_b(0), 1, &[]),
        (case_b(10), 1, &[]),
        (case_c(10), 1, &[]),
        (case_d(0), 1, &[0, 0, 9, 0, 0]),
        (case_d(1), 2, &[]),
        (case_d(10), 2, &[]),
    ];
    for (job, cells, live) in rows {
        let (job, numbers) = (job.as_bytes(), 5 * cells);
        for more in [0, 1, 5, 35, 5_005] {
            let (r, _, m) = call(job, numbers + more, 128);
            assert_eq!(r, 0, "{}", text(job));
            assert_eq!(m.cells[..live.len()], *live, "{}", text(job));
            assert!(m.cells[live.len()..].iter().all(|&v| v == 0), "{}", text(job));
        }
        let less = numbers - 1;
        // 7 before 8, with any output
        for (lent, out, number) in [(less, 128, 7), (less, 127, 7), (0, 0, 7), (0, 300, 7), (numbers, 127, 8), (numbers + 1, 0, 8)] {
            let (r, line, _) = call(job, lent, out);
            assert_eq!((-r, line), (number, 0), "{lent} numbers, {out} bytes\n{}", text(job));
        }
    }
}

#[test]
fn the_vectors_get_what_they_say() {
    for (job, report) in reports() {
        prints(&job, report);
    }
    for (job, number, line) in refusals() {
        refused(job.as_bytes(), number, line);
    }
}

#[test]
fn the_byte_cases() {
    refused(&[b'a'; 16_384], 2, 1);
    refused(&[b'a'; 16_385], 1, 0);
    refused(b"", 2, 1);
    assert_eq!(call(case_a(1_000).as_bytes(), 5_005, 128).0, 0);
    refused(case_a(1_001).as_bytes(), 3, 7);
    for line in 1..=7 {
        // byte 13 before byte 10
        let lines: Vec<String> = case_a(10).lines().enumerate().map(|(i, l)| if i + 1 == line { format!("{l}\r\n") } else { format!("{l}\n") }).collect();
        refused(lines.concat().as_bytes(), 2, line as i64);
    }
    let a = case_a(10);
    refused(a.replace("posts=1\n", "posts=65\n").as_bytes(), 3, 2);
    refused(a.replace("2,2,8,8", "8,2,2,8").as_bytes(), 4, 0);
    refused(a.replace("2,2,8,8", "2,8,8,2").as_bytes(), 4, 0);
    refused(a.replace("posts=1\npost=0,0\n", "posts=0\n").as_bytes(), 5, 0);
    refused(a.replace("stops=2\nstop=4,3,2\nstop=8,12,1\n", "stops=0\n").as_bytes(), 6, 0);
    // 4 to 6 come before 7 and 8
    assert_eq!(call(a.replace("2,2,8,8", "8,2,2,8").as_bytes(), 0, 0).0, -4);
    assert_eq!(refusal_text(read(&[b'a'; 16_385]).unwrap_err()), "refused=1\nline=0\n");
}

/// Large figures: one post in a corner, all stops with the most visits in the opposite one, and axis costs up to the most. The area is the
/// whole deck, or a part beside the post, with one of the stops in it.
#[test]
fn the_largest_figures_are_those_of_the_reference() {
    let mut random = Random::new(seed());
    let mut seen = Seen::default();
    let whole = Rect { xlo: -20_000, ylo: -20_000, xhi: 20_000, yhi: 20_000 };
    let corners: [(i64, i64); 4] = [(-20_000, -20_000), (20_000, -20_000), (-20_000, 20_000), (20_000, 20_000)];
    for post in corners {
        let beside = |v: i64| if v < 0 { (-19_900, -19_100) } else { (19_100, 19_900) };
        let ((xlo, xhi), (ylo, yhi)) = (beside(post.0), beside(post.1));
        let part = Rect { xlo, ylo, xhi, yhi };
        for (area, rounds) in [whole, part].into_iter().flat_map(|area| [0, 1, 1_000].map(|rounds| (area, rounds))) {
            for spread in [0, 1, 40_000] {
                for (a, b) in [(1, 1), (9, 9), (1, 9)] {
                    let mut across = |v: i64| -v + v.signum() * random.range(0, spread);
                    let mut stops: Vec<Stop> = (0..512).map(|_| Stop { at: (across(post.0), across(post.1)), visits: 65_535 }).collect();
                    if area == part {
                        stops[0].at = (random.range(xlo, xhi), random.range(ylo, yhi));
                    }
                    let j = Job { area, axis: Axis { a, b }, posts: vec![post], stops, rounds };
                    check_job(&mut random, &spell(&j), &mut seen);
                }
            }
        }
    }
    println!("{seen:?}");
    assert!(seen.done > 10 && seen.stopped > 10 && seen.low_0 > 0 && seen.most_low > 23_000_000_000_000, "{seen:?}");
}
