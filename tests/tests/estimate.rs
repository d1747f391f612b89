//! The proved estimate call (RULES "Change 3") against the reference, and against what the report call takes; the reference's estimate against
//! its search.

use siting_tests::generate::{axis, crowded, damaged, each_job, far_post, job, job_of, largest, noise, seed, small, special, spelled, Random};
use siting_tests::reference::{estimate, read, search, spell, Axis, Deck, Estimate, Job, Rect, Refusal, Stop};
use siting_tests::text;
use siting_tests::trial;
use siting_tests::vectors::{case_a, case_b, case_c, case_d, deep, narrow, refusals, refused_in_reading, reports};
use std::cmp::Ordering;
use std::collections::BTreeSet;

const LEAST: i64 = i64::MIN;

/// The answer by the call. All figures are asked for, those that are not there too.
fn answer(random: &mut Random, bytes: &[u8]) -> Result<Estimate, Refusal> {
    let f = [0, 1, 2, 3, 4, 5].map(|which| trial::estimate(bytes, which));
    for which in [6, 7, u64::MAX - random.range(0, 9) as u64] {
        assert_eq!(trial::estimate(bytes, which), LEAST, "figure {which}\n{}", text(bytes));
    }
    if f[4] == 0 {
        assert_eq!(f[5], 0, "{}", text(bytes));
        Ok(Estimate { across: f[0], deep: f[1], cut_limit: f[2], cells: f[3] })
    } else {
        assert_eq!(f[..4], [LEAST; 4], "{}", text(bytes));
        Err(Refusal { number: f[4], line: f[5] })
    }
}

// ---- lines at other stops

/// How far a number lies outside lo ..= hi.
fn outside(v: i64, lo: i64, hi: i64) -> i64 {
    (lo - v).max(0) + (v - hi).max(0)
}

/// The gaps across and deep if a stop had lines where `keep` says so of its travel to the area and its near.
fn gaps_if(deck: &Deck, keep: fn(i64, i64) -> bool) -> (i64, i64) {
    let (r, Axis { a, b }) = (deck.job.area, deck.job.axis);
    let (mut xs, mut ys) = (BTreeSet::from([r.xlo, r.xhi]), BTreeSet::from([r.ylo, r.yhi]));
    for (stop, &near) in deck.job.stops.iter().zip(&deck.near) {
        let (x, y) = stop.at;
        let (left, front) = (outside(x, r.xlo, r.xhi), outside(y, r.ylo, r.yhi));
        if keep(a * left + b * front, near) {
            xs.extend((left == 0).then_some(x));
            ys.extend((front == 0).then_some(y));
        }
    }
    let gaps = |lines: BTreeSet<i64>| (lines.len() as i64 - 1).max(1);
    (gaps(xs), gaps(ys))
}

// ---- checks

/// How often each kind of job was seen.
#[derive(Default, Debug)]
struct Seen {
    jobs: usize,
    refusals: [usize; 9],
    estimated: usize,
    axis_costs: usize,
    points: usize,
    rows: usize,
    columns: usize,
    /// Jobs that would have other gaps: if all stops had lines, if those of the area had, if those as far as their near had, and if
    /// those beside the area had none.
    any_stop: usize,
    area_out_of_reach: usize,
    as_far_as_near: usize,
    area_only: usize,
    /// With the job's rounds and with others: the product of the gaps beside rounds + 1.
    product_smaller: usize,
    product_equal: usize,
    product_larger: usize,
    no_rounds: usize,
    most_rounds: usize,
}

impl Seen {
    fn add(&mut self, job: &Job, want: &Estimate) {
        let (deck, a, gaps) = (Deck::new(job), job.area, (want.across, want.deep));
        self.estimated += 1;
        self.axis_costs += (job.axis != Axis::PLAIN) as usize;
        match (a.xlo == a.xhi, a.ylo == a.yhi) {
            (true, true) => self.points += 1,
            (true, false) => self.columns += 1,
            (false, true) => self.rows += 1,
            (false, false) => {}
        }
        assert_eq!(gaps_if(&deck, |travel, near| travel < near), gaps, "{}", text(&spell(job)));
        self.any_stop += (gaps_if(&deck, |_, _| true) != gaps) as usize;
        self.area_out_of_reach += (gaps_if(&deck, |travel, near| travel < near || travel == 0) != gaps) as usize;
        self.as_far_as_near += (gaps_if(&deck, |travel, near| travel <= near) != gaps) as usize;
        self.area_only += (gaps_if(&deck, |travel, near| travel < near && travel == 0) != gaps) as usize;
    }

    fn add_rounds(&mut self, product: i64, rounds: i64) {
        match product.cmp(&(rounds + 1)) {
            Ordering::Less => self.product_smaller += 1,
            Ordering::Equal => self.product_equal += 1,
            Ordering::Greater => self.product_larger += 1,
        }
        self.no_rounds += (rounds == 0) as usize;
        self.most_rounds += (rounds == 1_000) as usize;
    }
}

/// The report call with so many numbers of cell space: minus its refusal, the rounds of its report, and the space.
fn reported(bytes: &[u8], numbers: usize) -> (i64, i64, Vec<i64>) {
    let before = vec![-77; numbers];
    let (mut cells, mut again) = (before.clone(), before);
    let refused = trial::report(bytes, &mut cells, &mut [0; 128]);
    let rounds = trial::report_figure(bytes, &mut again, &mut [0; 128], 6);
    assert!(cells == again, "{}", text(bytes));
    (refused, rounds, cells)
}

/// The report call takes the cells of the estimate and no number less, and keeps to its cut limit.
fn check_report(bytes: &[u8], quote: &Estimate) {
    let numbers = quote.numbers();
    let (refused, rounds, cells) = reported(bytes, numbers);
    assert_eq!(refused, 0, "{}", text(bytes));
    assert!(rounds <= quote.cut_limit, "{}", text(bytes));
    // no live cell is all zeros, as its edges differ
    let live = cells.chunks(5).take_while(|c| **c != [0; 5]).count();
    assert!(cells[5 * live..].iter().all(|&v| v == 0), "{}", text(bytes));
    assert_eq!(reported(bytes, numbers - 1), (-7, LEAST, vec![-77; numbers - 1]), "{}", text(bytes));
}

fn check(random: &mut Random, bytes: &[u8], seen: &mut Seen) {
    seen.jobs += 1;
    let got = answer(random, bytes);
    let job = match read(bytes) {
        Err(why) => {
            assert_eq!(got, Err(why), "{}", text(bytes));
            assert!((1..=6).contains(&why.number), "{}", text(bytes));
            // the report call says the same, whatever it is lent
            let line = trial::report_line(bytes, &mut [], &mut []) as i64;
            assert_eq!((-trial::report(bytes, &mut [], &mut []), line), (why.number, why.line), "{}", text(bytes));
            seen.refusals[why.number as usize] += 1;
            return;
        }
        Ok(job) => job,
    };
    let want = estimate(&job);
    assert_eq!(got, Ok(want), "{}", text(bytes));
    check_report(bytes, &want);
    seen.add(&job, &want);
    // the cells alone depend on the rounds
    let product = want.across * want.deep;
    for rounds in [job.rounds, 0, 1, product - 2, product - 1, product, random.range(0, 1_000), 999, 1_000] {
        if (0..=1_000).contains(&rounds) {
            let quote = Estimate { cells: product.min(rounds + 1), ..want };
            assert_eq!(answer(random, &spell(&Job { rounds, ..job.clone() })), Ok(quote), "rounds {rounds}\n{}", text(bytes));
            seen.add_rounds(product, rounds);
        }
    }
}

fn check_jobs(count: usize, bytes: impl Fn(&mut Random) -> Vec<u8>) -> Seen {
    let mut seen = Seen::default();
    each_job(count, bytes, |random, b| check(random, b, &mut seen));
    println!("{seen:?}");
    assert_eq!(seen.jobs, count);
    seen
}

// ---- random jobs

#[test]
fn estimates_are_those_of_the_reference() {
    let seen = check_jobs(10_000, spelled(job));
    assert!(seen.axis_costs > 4_000 && seen.points > 20 && seen.rows > 400 && seen.columns > 400, "{seen:?}");
    assert!(seen.any_stop > 2_000 && seen.area_out_of_reach > 200 && seen.as_far_as_near > 400 && seen.area_only > 2_000, "{seen:?}");
    assert!(seen.product_smaller > 10_000 && seen.product_equal > 5_000 && seen.product_larger > 5_000, "{seen:?}");
    assert!(seen.no_rounds > 10_000 && seen.most_rounds > 10_000, "{seen:?}");
}

#[test]
fn estimates_of_special_decks_are_those_of_the_reference() {
    let seen = check_jobs(10_000, spelled(special));
    assert!(seen.axis_costs > 4_000 && seen.points > 800 && seen.rows > 800 && seen.columns > 800, "{seen:?}");
    assert!(seen.any_stop > 1_000 && seen.area_out_of_reach > 200 && seen.as_far_as_near > 300 && seen.area_only > 1_000, "{seen:?}");
    assert!(seen.product_smaller > 10_000 && seen.product_equal > 5_000 && seen.product_larger > 5_000, "{seen:?}");
}

#[test]
fn estimates_of_the_largest_decks_are_those_of_the_reference() {
    let seen = check_jobs(200, spelled(largest));
    assert!(seen.estimated == 200 && seen.axis_costs > 80 && seen.any_stop > 50 && seen.product_larger > 200, "{seen:?}");
}

/// Up to 514 lines each way, with and without stops in the area that are out of reach.
#[test]
fn estimates_of_crowded_decks_are_those_of_the_reference() {
    let seen = check_jobs(60, spelled(|random: &mut Random| {
        let (width, depth) = (random.range(0, 20_000), random.range(0, 20_000));
        let mut j = crowded(random, width, depth, 9);
        j.axis = axis(random);
        match random.range(1, 3) {
            1 => j.posts = vec![(-20_000, -20_000)],
            2 => j.posts.iter_mut().zip(&j.stops).for_each(|(p, s)| *p = s.at),
            _ => {}
        }
        j
    }));
    assert!(seen.estimated == 60 && seen.area_out_of_reach > 5 && seen.product_larger > 200, "{seen:?}");
}

#[test]
fn damaged_jobs_are_refused_as_the_reference_refuses_them() {
    let seen = check_jobs(15_000, |random| if random.one_in(5) { noise(random) } else { damaged(random) });
    assert!(seen.refusals[1..7].iter().all(|&n| n > 10), "{seen:?}");
    assert!(seen.refusals[7..] == [0, 0] && seen.estimated > 1_000 && seen.axis_costs > 300, "{seen:?}");
}

// ---- the reference's estimate against its search

/// After each number of rounds: the cuts made, and the live cells, which are what the cell space holds.
#[test]
fn no_search_passes_its_estimate() {
    let mut random = Random::new(seed());
    let (mut searches, mut axis_costs, mut all_cuts, mut all_live, mut fewer_cells) = (0, 0, 0, 0, 0);
    for i in 0..2_000 {
        let j = match i % 4 {
            0 => special(&mut random),
            1 => small(&mut random),
            2 => job_of(&mut random, 1_000, 30),
            _ => far_post(&mut random, 200, 8, 150),
        };
        axis_costs += (j.axis != Axis::PLAIN) as usize;
        let last = estimate(&j).cut_limit;
        for rounds in (0..=40.min(last + 1)).chain([last, last + 1, 1_000]) {
            let with = Job { rounds, ..j.clone() };
            let (quote, found) = (estimate(&with), search(&with));
            let live = found.cells.len() as i64 / 5;
            let say = || format!("{quote:?}, {} cuts, {live} live\n{}", found.rounds, text(&spell(&with)));
            assert!(found.rounds <= quote.cut_limit && live <= quote.cells, "{}", say());
            assert!(live <= rounds + 1 && live <= quote.across * quote.deep, "{}", say());
            // no cut is left to make
            assert!(found.done || rounds < last, "{}", say());
            searches += 1;
            all_cuts += (found.rounds == quote.cut_limit && last > 0) as usize;
            all_live += (live == quote.cells) as usize;
            fewer_cells += (quote.cells <= rounds) as usize;
        }
    }
    println!("{searches} searches: all cuts made {all_cuts}, all cells live {all_live}, fewer cells than rounds + 1 {fewer_cells}");
    assert!(axis_costs > 500 && all_cuts > 500 && all_live > 1_000 && fewer_cells > 1_000);
}

// ---- worked out by hand

fn quotes(job: &str, across: i64, deep: i64, cut_limit: i64, cells: i64) {
    let want = Estimate { across, deep, cut_limit, cells };
    assert_eq!(answer(&mut Random::new(1), job.as_bytes()), Ok(want), "{job}");
    assert_eq!(estimate(&read(job.as_bytes()).unwrap()), want, "{job}");
    check_report(job.as_bytes(), &want);
}

#[test]
fn the_marked_decks() {
    // lines at x 2, 4, 8 and y 2, 3, 8; the stop at 8,12 is within reach and beside the area
    for (rounds, cells) in [(0, 1), (1, 2), (2, 3), (3, 4), (4, 4), (10, 4), (1_000, 4)] {
        quotes(&case_a(rounds), 2, 2, 3, cells);
    }
    // one horizontal line, and no gap between lines: at least one
    for rounds in [0, 1, 10, 1_000] {
        quotes(&case_b(rounds), 1, 1, 0, 1);
        quotes(&case_c(rounds), 1, 1, 0, 1);
    }
    for (rounds, cells) in [(0, 1), (1, 2), (2, 2), (10, 2)] {
        quotes(&case_d(rounds), 2, 1, 1, cells);
    }
}

/// The stop at 10,2 is 6 tenths right of the area. Its line at y 2 stands if that costs less than its travel to the post behind it.
#[test]
fn reach_decides_on_a_line() {
    let job = |axis: &str, post: i64| format!("area=0,0,4,4\n{axis}posts=1\npost=10,{post}\nstops=1\nstop=10,2,1\nrounds=5\n");
    quotes(&job("", 9), 1, 2, 1, 2);
    // as far as the post
    quotes(&job("", 8), 1, 1, 0, 1);
    quotes(&job("axis=1,2\n", 8), 1, 2, 1, 2);
    quotes(&job("axis=2,1\n", 9), 1, 1, 0, 1);
    quotes(&job("axis=2,1\n", 14), 1, 1, 0, 1);
    quotes(&job("axis=2,1\n", 15), 1, 2, 1, 2);
    // in the area, at a post, and one tenth off it
    let inside = |x: i64| format!("area=0,0,4,4\nposts=1\npost=2,1\nstops=1\nstop={x},1,1\nrounds=5\n");
    quotes(&inside(2), 1, 1, 0, 1);
    quotes(&inside(3), 2, 2, 3, 4);
}

#[test]
fn other_decks() {
    // x 1, 2, 3 and y 1, 4, 9
    for (axis_line, rounds, cells) in [("", 10, 4), ("axis=2,1\n", 2, 3), ("axis=1,2\n", 0, 1)] {
        quotes(&narrow(axis_line, rounds), 2, 2, 3, cells);
    }
    // x 0, 1, 3 and y 0, 2, 5
    quotes(&deep(3), 2, 2, 3, 4);
    // stops at equal places, in a line with others and on the edges: a line counts once
    let stops = "stops=6\nstop=3,5,1\nstop=3,5,1\nstop=3,7,2\nstop=6,5,1\nstop=0,7,1\nstop=9,9,1\n";
    for (rounds, cells) in [(7, 8), (8, 9), (9, 9)] {
        quotes(&format!("area=0,0,9,9\nposts=1\npost=20,20\n{stops}rounds={rounds}\n"), 3, 3, 8, cells);
    }
    // the most lines, 514 each way
    let area = Rect { xlo: -1, ylo: -1, xhi: 512, yhi: 512 };
    let stops = (0..512).map(|i| Stop { at: (i, 511 - i), visits: 1 }).collect();
    let most = Job { area, axis: Axis::PLAIN, posts: vec![(9_999, 9_999)], stops, rounds: 1_000 };
    quotes(&text(&spell(&most)), 513, 513, 263_168, 1_001);
    quotes(&text(&spell(&Job { rounds: 0, ..most })), 513, 513, 263_168, 1);
}

#[test]
fn the_vectors_get_what_they_say() {
    let mut random = Random::new(1);
    let mut seen = Seen::default();
    for (job, _) in reports() {
        check(&mut random, job.as_bytes(), &mut seen);
    }
    assert!(seen.estimated >= reports().len());
    for (job, number, line) in refusals() {
        refused(job.as_bytes(), number, line);
    }
}

/// The same number and line from the estimate, the report call and the reference.
fn refused(bytes: &[u8], number: i64, line: i64) {
    let want = Refusal { number, line };
    assert_eq!(answer(&mut Random::new(1), bytes), Err(want), "{}", text(bytes));
    let mut cells = [0; 5_005];
    let report = (-trial::report(bytes, &mut cells, &mut [0; 128]), trial::report_line(bytes, &mut cells, &mut [0; 128]) as i64);
    assert_eq!(report, (number, line), "{}", text(bytes));
    assert_eq!(read(bytes), Err(want), "{}", text(bytes));
}

#[test]
fn refusals_are_those_of_reading() {
    for (job, number, line) in refused_in_reading() {
        refused(&job, number, line);
    }
}
