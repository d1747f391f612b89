//! The proved reader (RULES "Job", "Refusals") and the proved pricing (RULES "Near", "Cost", "Reach", "Lines", "Bound", "Corner bound", "Cuts")
//! against the reference, on random bytes and decks.

use siting_tests::generate::{any_rect, damaged, job, job_of, largest, noise, rect, seed, special, spelled, spelling, Random};
use siting_tests::reference::{cut, read, spell, spell_out, travel, Axis, Deck, Job, Place, Rect, Refusal, Stop};
use siting_tests::{text, trial};
use siting_tests::vectors::{case_d, deep, narrow, refusals, reports};

const LEAST: i64 = i64::MIN;

// ---- reading

fn check_read(bytes: &[u8]) {
    let (number, line, rounds) = match read(bytes) {
        Ok(job) => (0, 0, job.rounds),
        Err(Refusal { number, line }) => (number, line, -1),
    };
    let got = (trial::refusal(bytes) as i64, trial::refusal_line(bytes) as i64, trial::rounds(bytes));
    assert_eq!(got, (number, line, rounds), "{}", text(bytes));
}

#[test]
fn jobs_are_read_as_the_reference_reads_them() {
    let mut random = Random::new(seed());
    for _ in 0..8_000 {
        check_read(&spelled(job)(&mut random));
    }
    for _ in 0..16_000 {
        check_read(&damaged(&mut random));
    }
    for _ in 0..6_000 {
        check_read(&noise(&mut random));
    }
    // each start of a valid job with an axis line
    let bytes = spell_out(&job_of(&mut random, 30, 6));
    for end in 0..=bytes.len() {
        check_read(&bytes[..end]);
    }
    // the size limit
    for len in [0, 1, 16_383, 16_384, 16_385, 20_000] {
        check_read(&vec![b'a'; len]);
        let mut long = bytes.clone();
        long.resize(len.max(bytes.len()), b'\n');
        check_read(&long);
    }
    for _ in 0..20 {
        check_read(&spelled(largest)(&mut random));
    }
}

#[test]
fn the_vectors_are_read_as_they_say() {
    for (job, _) in reports() {
        let rounds = read(job.as_bytes()).unwrap().rounds;
        assert_eq!((trial::refusal(job.as_bytes()), trial::refusal_line(job.as_bytes()), trial::rounds(job.as_bytes())), (0, 0, rounds), "{job}");
    }
    for (job, number, line) in refusals() {
        assert_eq!((trial::refusal(job.as_bytes()), trial::refusal_line(job.as_bytes())), (number as u64, line as u64), "{job}");
    }
}

// ---- decks

/// A rectangle with edges at lines of the area, as the cells of a search have them.
fn cell(random: &mut Random, vertical: &[i64], horizontal: &[i64]) -> Rect {
    let mut pick = |lines: &[i64]| {
        let (i, j) = (random.range(0, lines.len() as i64 - 1), random.range(0, lines.len() as i64 - 1));
        (lines[i.min(j) as usize], lines[i.max(j) as usize])
    };
    let ((xlo, xhi), (ylo, yhi)) = (pick(vertical), pick(horizontal));
    Rect { xlo, ylo, xhi, yhi }
}

fn outside(p: i64) -> bool {
    !(-20_000..=20_000).contains(&p)
}

fn check_cost(bytes: &[u8], deck: &Deck, p: Place) {
    let want = if outside(p.0) || outside(p.1) { -1 } else { deck.cost(p) };
    assert_eq!(trial::cost(bytes, p), want, "{p:?} {}", text(bytes));
}

fn check_rect(bytes: &[u8], deck: &Deck, vertical: &[i64], horizontal: &[i64], r: Rect) {
    let none = outside(r.xlo) || outside(r.ylo) || outside(r.xhi) || outside(r.yhi) || r.xhi < r.xlo || r.yhi < r.ylo;
    let (load, bound, corner_bound, axis, line) = if none {
        (-1, -1, LEAST, -1, LEAST)
    } else {
        let (axis, line) = match cut(vertical, horizontal, r) {
            None => (0, LEAST),
            Some((true, x)) => (1, x),
            Some((false, y)) => (2, y),
        };
        (deck.load(r), deck.bound(r), deck.corner_bound(r), axis, line)
    };
    let got = (trial::load(bytes, r), trial::bound(bytes, r), trial::corner_bound(bytes, r), trial::cut(bytes, r));
    assert_eq!(got, (load, bound, corner_bound, (axis, line)), "{r:?} {}", text(bytes));
}

fn check_lines(bytes: &[u8], across: bool, lines: &[i64]) {
    const FILL: i64 = 77_777;
    let n = lines.len();
    for len in [n - 1, n, n + 3] {
        let mut out = vec![FILL; len];
        let got = trial::lines(bytes, across, &mut out);
        let (want, front) = if len < n { (-1, 0) } else { (n as i64, n) };
        assert_eq!(got, want, "{}", text(bytes));
        assert_eq!(out[..front], lines[..front], "{}", text(bytes));
        assert!(out[front..].iter().all(|&v| v == FILL), "{}", text(bytes));
    }
}

/// Every figure of a deck, at `many` places and rectangles.
fn check_deck(random: &mut Random, job: &Job, many: usize) {
    let bytes = spelling(random, job);
    let deck = Deck::new(job);
    assert_eq!(trial::before(&bytes), deck.before(), "{}", text(&bytes));
    let step = 1 + job.stops.len() / 40;
    for (i, &near) in deck.near.iter().enumerate().step_by(step) {
        assert_eq!(trial::near(&bytes, i), near, "{i} {}", text(&bytes));
    }
    for i in [job.stops.len(), 512, usize::MAX] {
        assert_eq!(trial::near(&bytes, i), -1);
    }
    let (vertical, horizontal) = (deck.vertical(), deck.horizontal());
    check_lines(&bytes, true, &vertical);
    check_lines(&bytes, false, &horizontal);
    let a = job.area;
    check_rect(&bytes, &deck, &vertical, &horizontal, a);
    check_rect(&bytes, &deck, &vertical, &horizontal, Rect { xlo: -20_000, ylo: -20_000, xhi: 20_000, yhi: 20_000 });
    let size = [a.xlo, a.ylo, a.xhi, a.yhi].iter().map(|v| v.abs()).max().unwrap().max(3);
    for _ in 0..many {
        let s = job.stops[random.range(0, job.stops.len() as i64 - 1) as usize].at;
        check_cost(&bytes, &deck, s);
        check_cost(&bytes, &deck, (random.range(-size, size), random.range(-size, size)));
        check_cost(&bytes, &deck, (random.range(-20_002, 20_002), random.range(-20_002, 20_002)));
        let c = cell(random, &vertical, &horizontal);
        let r = rect(random, size);
        let (any, wide) = (any_rect(random, job, size), rect(random, 20_001));
        // a point: a stop, or a corner of the area
        let p = if random.one_in(2) { s } else { (a.xlo, a.yhi) };
        let point = Rect { xlo: p.0, ylo: p.1, xhi: p.0, yhi: p.1 };
        for r in [c, r, any, wide, point] {
            check_rect(&bytes, &deck, &vertical, &horizontal, r);
        }
        // edges in the wrong order
        check_rect(&bytes, &deck, &vertical, &horizontal, Rect { xlo: r.xhi, xhi: r.xlo, ..r });
    }
}

/// So many random decks, each with so many places and rectangles.
fn check_decks(count: usize, many: usize, deck: impl Fn(&mut Random) -> Job) {
    let mut random = Random::new(seed());
    for _ in 0..count {
        let j = deck(&mut random);
        check_deck(&mut random, &j, many);
    }
}

#[test]
fn figures_are_those_of_the_reference() {
    check_decks(4_000, 6, job);
    check_decks(1_000, 6, special);
}

#[test]
fn figures_of_the_largest_decks_are_those_of_the_reference() {
    check_decks(300, 4, largest);
    check_decks(200, 4, |random| job_of(random, 20_000, 512));
}

/// The near of every stop.
fn nears(job: &Job) -> Vec<i64> {
    let bytes = spell(job);
    (0..job.stops.len()).map(|i| trial::near(&bytes, i)).collect()
}

/// RULES "Change 4" as it is seen from outside, by jobs with the first posts of a deck: each further post improves the near of the stops that
/// are closer to it, and leaves the others. In the opposite order the posts give the same.
#[test]
fn near_with_each_further_post() {
    let mut random = Random::new(seed());
    let (mut improved, mut left) = (0, 0);
    // a deck may have few posts: up to 20 more, until both counts are reached
    for (deck, stops) in [1, 2, 3, 4, 5, 7, 8, 31, 64, 64, 200, 200].into_iter().chain([200; 20]).enumerate() {
        if deck >= 12 && improved > 200 && left > 5_000 {
            break;
        }
        let mut whole = largest(&mut random);
        whole.stops.truncate(stops);
        let mut so_far = vec![i64::MAX; stops];
        for k in 1..=whole.posts.len() {
            let first = Job { posts: whole.posts[..k].to_vec(), ..whole.clone() };
            for (figure, stop) in so_far.iter_mut().zip(&whole.stops) {
                let new = travel(whole.axis, stop.at, whole.posts[k - 1]);
                if k > 1 {
                    *(if new < *figure { &mut improved } else { &mut left }) += 1;
                }
                *figure = new.min(*figure);
            }
            assert_eq!(nears(&first), so_far, "{}", text(&spell(&first)));
        }
        let back = Job { posts: whole.posts.iter().rev().copied().collect(), ..whole.clone() };
        assert_eq!(nears(&back), so_far, "{}", text(&spell(&back)));
    }
    assert!(improved > 200 && left > 5_000, "{improved} {left}");
}

/// From one corner of the deck to the opposite one at the highest costs, by posts that all stand there, is the longest travel there is.
#[test]
fn the_longest_travel_is_a_near() {
    let corner = 20_000;
    for posts in [1, 2, 64] {
        for (x, y) in [(corner, corner), (corner, -corner), (-corner, corner), (-corner, -corner)] {
            let job = Job {
                area: Rect { xlo: 0, ylo: 0, xhi: 0, yhi: 0 },
                axis: Axis { a: 9, b: 9 },
                posts: vec![(x, y); posts],
                stops: vec![Stop { at: (-x, -y), visits: 1 }, Stop { at: (x, y), visits: 65_535 }, Stop { at: (-x, -y), visits: 65_535 }],
                rounds: 0,
            };
            assert_eq!(nears(&job), [720_000, 0, 720_000]);
            assert_eq!(trial::before(&spell(&job)), 720_000 * 65_536);
        }
    }
}

/// Worked out by hand.
#[test]
fn figures_of_a_deck_with_axis_costs() {
    let job = narrow("axis=2,1\n", 10);
    let bytes = job.as_bytes();
    // the post at 4,6: 2 * 2 + 5 from the stop at 6,1 and 2 * 2 + 2 from that at 2,4
    assert_eq!((trial::near(bytes, 0), trial::near(bytes, 1), trial::before(bytes)), (9, 6, 15));
    assert_eq!([(1, 1), (1, 9), (3, 1), (3, 9), (2, 4)].map(|p| trial::cost(bytes, p)), [14, 15, 11, 15, 9]);
    let whole = Rect { xlo: 1, ylo: 1, xhi: 3, yhi: 9 };
    let back = Rect { ylo: 4, ..whole };
    // 6,1 is 2 * 3 + 3 from 3,4, its near: not within reach
    assert_eq!((trial::load(bytes, whole), trial::load(bytes, back)), (2, 1));
    // 2,4 is inside, and 6,1 is 2 * 3 from 3,1; of the back it pays its near
    assert_eq!((trial::bound(bytes, whole), trial::bound(bytes, back)), (6, 9));
    // corners 14 + 15 and 15 + 11, less (2 * 2 + 8) * 2, halved; 11 + 15, less 2 * 2 + 5
    assert_eq!((trial::corner_bound(bytes, whole), trial::corner_bound(bytes, back)), (3, 9));
    // 5 tenths are longer than 3 at twice the cost
    assert_eq!(trial::cut(deep(0).as_bytes(), Rect { xlo: 0, ylo: 0, xhi: 3, yhi: 5 }), (2, 2));
}

/// Worked out by hand: corner bounds below 0, their halves towards plus infinity, beside bounds of 0.
#[test]
fn the_two_bounds_of_case_d() {
    let job = case_d(0);
    let bounds = |xlo, xhi| {
        let r = Rect { xlo, ylo: 0, xhi, yhi: 0 };
        (trial::bound(job.as_bytes(), r), trial::corner_bound(job.as_bytes(), r))
    };
    // the one stop, at 5,0 with near 1, is inside. The ends cost 1 + 1, 1 + 1, 1 + 1, 0 + 1, 0 + 0, less 9, 8, 5, 4, 0; halved
    assert_eq!(bounds(0, 9), (0, -3));
    assert_eq!(bounds(0, 8), (0, -3));
    assert_eq!(bounds(3, 8), (0, -1));
    assert_eq!(bounds(5, 9), (0, -1));
    assert_eq!(bounds(5, 5), (0, 0));
    // beside it the stop pays its near, at every place
    assert_eq!((bounds(6, 9), bounds(0, 4)), ((1, 1), (1, 1)));
}

/// Every pair of axis costs, on one deck.
#[test]
fn figures_under_each_axis_cost() {
    let mut random = Random::new(seed());
    let j = job_of(&mut random, 20_000, 40);
    for a in 1..=9 {
        for b in 1..=9 {
            check_deck(&mut random, &Job { axis: Axis { a, b }, ..j.clone() }, 10);
        }
    }
}

#[test]
fn extreme_numbers_are_answered_too() {
    let mut random = Random::new(seed());
    let j = job_of(&mut random, 30, 6);
    for axis in [Axis::PLAIN, Axis { a: 9, b: 9 }] {
        let j = Job { axis, ..j.clone() };
        let bytes = spelling(&mut random, &j);
        let deck = Deck::new(&j);
        let (vertical, horizontal) = (deck.vertical(), deck.horizontal());
        let ends = [i64::MIN, i64::MIN + 1, -20_001, -20_000, -1, 0, 1, 20_000, 20_001, i64::MAX - 1, i64::MAX];
        for x in ends {
            for y in ends {
                check_cost(&bytes, &deck, (x, y));
                for u in ends {
                    for v in ends {
                        check_rect(&bytes, &deck, &vertical, &horizontal, Rect { xlo: x, ylo: y, xhi: u, yhi: v });
                    }
                }
            }
        }
    }
}

#[test]
fn a_refused_job_has_no_figures() {
    let mut random = Random::new(seed());
    let mut refused = 0;
    while refused < 2_000 {
        let bytes = damaged(&mut random);
        if read(&bytes).is_ok() {
            continue;
        }
        refused += 1;
        let r = rect(&mut random, 30);
        assert_eq!(trial::before(&bytes), -1);
        assert_eq!(trial::near(&bytes, 0), -1);
        assert_eq!(trial::cost(&bytes, (r.xlo, r.ylo)), -1);
        assert_eq!(trial::load(&bytes, r), -1);
        assert_eq!((trial::bound(&bytes, r), trial::corner_bound(&bytes, r)), (-1, LEAST));
        assert_eq!(trial::cut(&bytes, r), (-1, LEAST));
        let mut out = [5; 600];
        assert_eq!(trial::lines(&bytes, true, &mut out), -1);
        assert_eq!(trial::lines(&bytes, false, &mut out), -1);
        assert!(out.iter().all(|&v| v == 5));
    }
}
