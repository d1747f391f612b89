//! The time of the proved code beside that of hand-written Rust twins: the same answers from the same input, on the same machine in the same run.
//!
//! A proved kernel is repeated inside the exported function of crate `kernels`, which first reads the job. The time of reading is
//! taken with 0 turns and subtracted. The twin starts from the columns, repeats the same turns, and must give the same sum.

use std::hint::black_box;
use std::time::Instant;

mod change;
mod exhaustive;
#[path = "../../tests/src/layout.rs"]
mod layout;
mod read;
mod twin;
mod whole;
mod write;

use layout::{Deck, Stop};
use read::{Axis, Sizes, LARGEST, ONE_EDGE, PLAIN, TYPICAL};

/// A slower bridge.
const SLOWER: Axis = Axis { a: 2, b: 1 };

#[link(name = "trial", kind = "static")]
extern "C" {
    fn trial_reading(job: *const u8, len: usize, which: u64) -> i64;
}

#[link(name = "trial_calls", kind = "static")]
extern "C" {
    fn trial_report(job: *const u8, len: usize, cells: *mut i64, cells_len: usize, out: *mut u8, out_len: usize, which: u64) -> i64;
    fn trial_exhaustive(job: *const u8, len: usize, which: u64) -> i64;
    fn trial_estimate(job: *const u8, len: usize, which: u64) -> i64;
    fn trial_read(job: *const u8, len: usize, deck: *mut Deck, which: u64) -> i64;
    fn trial_write(deck: *const Deck, rounds: u64, out: *mut u8, out_len: usize, which: u64) -> i64;
    fn trial_change(deck: *mut Deck, kind: u64, item: Stop, which: u64) -> i64;
}

#[link(name = "kernels", kind = "static")]
extern "C" {
    fn kernel_sum(job: *const u8, len: usize, which: u64, k: u64) -> i64;
}

/// The numbers by which `kernel_sum` knows its kernels.
#[derive(Clone, Copy)]
enum Kernel {
    Cost,
    Load,
    Bound,
    Cut,
    Near,
    CornerBound,
}

fn proved(kernel: Kernel, job: &[u8], k: u64) -> i64 {
    unsafe { kernel_sum(job.as_ptr(), job.len(), kernel as u64, k) }
}

/// Nanoseconds, and the result.
fn timed(f: impl FnOnce() -> i64) -> (f64, i64) {
    let start = Instant::now();
    let r = black_box(f());
    (start.elapsed().as_nanos() as f64, r)
}

const REPETITIONS: usize = 25;

fn compare(name: &str, job: &[u8], k: u64, kernel: Kernel, twin: impl Fn(u64) -> i64) {
    let (mut reading, mut ours, mut theirs) = (f64::MAX, f64::MAX, f64::MAX);
    for _ in 0..REPETITIONS {
        let (t, _) = timed(|| proved(kernel, black_box(job), 0));
        reading = reading.min(t);
        let (t, a) = timed(|| proved(kernel, black_box(job), k));
        ours = ours.min(t);
        let (t, b) = timed(|| twin(black_box(k)));
        theirs = theirs.min(t);
        assert_eq!(a, b, "{name}: the twin gives another sum");
        assert!(a > 0, "{name}: an empty sum");
    }
    let (ours, theirs) = ((ours - reading) / k as f64, theirs / k as f64);
    println!("{name:<52} {ours:>10.1} {theirs:>10.1} {:>7.2}", ours / theirs);
}

/// 0 for a report, else minus the number of the refusal.
fn proved_report(job: &[u8], cells: &mut [i64], out: &mut [u8]) -> i64 {
    -unsafe { trial_report(job.as_ptr(), job.len(), cells.as_mut_ptr(), cells.len(), out.as_mut_ptr(), out.len(), 7) }
}

type Report = fn(&[u8], &mut [i64], &mut [u8]) -> i64;

/// The report call, `turns` times: text and cell space must be the same. More repetitions than for a kernel, as a call is as long as a
/// machine that is shared leaves one alone.
fn compare_reports(name: &str, job: &[u8], turns: usize, twins: &[(&str, Report)]) {
    let (mut cells, mut out) = ([77i64; 5005], [b'x'; 128]);
    assert_eq!(proved_report(job, &mut cells, &mut out), 0, "{name}: refused");
    println!("{name}: {}", String::from_utf8_lossy(&out).lines().take(6).collect::<Vec<_>>().join(" "));
    let run = |report: Report| {
        let (mut c, mut o) = ([55i64; 5005], [b'x'; 128]);
        let (t, r) = timed(|| (0..turns).map(|_| report(black_box(job), &mut c, &mut o)).sum());
        assert!(r == 0 && c == cells && o == out, "{name}: another text or cell space");
        t / turns as f64
    };
    let mut best = vec![f64::MAX; twins.len() + 1];
    for _ in 0..4 * REPETITIONS {
        best[0] = best[0].min(run(proved_report));
        for (b, twin) in best[1..].iter_mut().zip(twins) {
            *b = b.min(run(twin.1));
        }
    }
    for ((twin, _), t) in twins.iter().zip(&best[1..]) {
        println!("{:<52} {:>10.1} {:>10.1} {:>7.2}", format!("{name}, {twin}"), best[0] / 1e3, t / 1e3, best[0] / t);
    }
}

fn reports() {
    println!();
    println!("{:<52} {:>10} {:>10} {:>7}", "the report call, us a call", "proved", "twin", "ratio");
    let twins: [(&str, Report); 3] = [("all stops", whole::report), ("stops in reach", whole::report_reaching), ("a list a cell", whole::report_listed)];
    let plain = [("largest", LARGEST), ("posts at one edge", ONE_EDGE), ("typical", TYPICAL)];
    for (name, deck) in plain.into_iter().chain(slower()) {
        compare_reports(name, &deck.job(), if deck.rounds == 1_000 { 1 } else { 20 }, &twins);
        compare_reports(&format!("{name}, 0 rounds"), &Sizes { rounds: 0, ..deck }.job(), 20, &twins[..1]);
    }
}

/// Decks with axis costs.
fn slower() -> [(&'static str, Sizes); 2] {
    [("largest, axis 2,1", Sizes { axis: SLOWER, ..LARGEST }), ("typical, axis 2,1", Sizes { axis: SLOWER, ..TYPICAL })]
}

/// Whether the twin's record of a job, near and before in it, is the proved reader's.
fn same_record(job: &[u8]) -> bool {
    let (record, rounds) = write::record(job);
    let mut deck = Deck { post_count: 77, near: [77; 512], before: 77, ..record };
    let same = unsafe { trial_read(job.as_ptr(), job.len(), &mut deck, 0) } == rounds as i64;
    same && deck == record
}

/// Reading a job: the proved reader, with its record of the deck, beside the twin's deck, objects and before.
fn compare_reading(name: &str, job: &[u8]) {
    let turns = 20;
    assert!(same_record(job), "{name}: another record");
    let twin = |job: &[u8]| read::read(job).map(|(deck, objects)| (objects.before(), deck, objects));
    let (mut ours, mut theirs) = (f64::MAX, f64::MAX);
    for _ in 0..4 * REPETITIONS {
        let (t, refused) = timed(|| (0..turns).map(|_| unsafe { trial_reading(black_box(job).as_ptr(), job.len(), 0) }).sum());
        ours = ours.min(t);
        let (t, accepted) = timed(|| (0..turns).filter(|_| black_box(twin(black_box(job))).is_ok()).count() as i64);
        theirs = theirs.min(t);
        assert!(refused == 0 && accepted == turns, "{name}: refused");
    }
    let (ours, theirs) = (ours / turns as f64 / 1e3, theirs / turns as f64 / 1e3);
    println!("{name:<52} {ours:>10.1} {theirs:>10.1} {:>7.2}", ours / theirs);
}

/// How the report call grows: one of the numbers of the largest deck is changed at a time.
fn growth() {
    println!();
    println!("{:<52} {:>10} {:>10} {:>7}", "reading with near and before, us a job", "proved", "twin", "ratio");
    for (name, deck) in [("largest", LARGEST), ("typical", TYPICAL)].into_iter().chain(slower()) {
        compare_reading(name, &deck.job());
    }
    println!();
    println!("{:<52} {:>10} {:>10} {:>7}", "growth of the report call, us a call", "proved", "twin", "ratio");
    let twin: [(&str, Report); 1] = [("all stops", whole::report)];
    for stops in [64, 128, 256, 512] {
        compare_reports(&format!("{stops} stops"), &Sizes { stops, ..LARGEST }.job(), 1, &twin);
    }
    for posts in [1, 8, 64] {
        compare_reports(&format!("{posts} posts"), &Sizes { posts, ..LARGEST }.job(), 1, &twin);
    }
    for rounds in [0, 10, 100, 1_000] {
        compare_reports(&format!("{rounds} rounds"), &Sizes { rounds, ..LARGEST }.job(), 1, &twin);
    }
}

fn proved_estimate(job: &[u8], which: u64) -> i64 {
    unsafe { trial_estimate(job.as_ptr(), job.len(), which) }
}

/// The sum of the figures, or the least number for a refusal.
fn twin_estimate(job: &[u8]) -> i64 {
    whole::estimate(job).map_or(i64::MIN, |figures| figures.iter().sum::<usize>() as i64)
}

/// Microseconds a call, each made `turns` times: the estimate, its twin, and the report call of the same job. Estimate and twin must give
/// the same figures.
fn time_estimate(name: &str, job: &[u8], turns: i64) -> [f64; 3] {
    assert_eq!(proved_estimate(job, 4), 0, "{name}: refused");
    let figures = [0, 1, 2, 3].map(|which| proved_estimate(job, which));
    assert_eq!(whole::estimate(job).map(|f| f.map(|n| n as i64)), Ok(figures), "{name}: the twin gives another estimate");
    let [across, deep, cut_limit, cells] = figures;
    println!("{name}: gaps across {across}, deep {deep}, cut limit {cut_limit}, cells {cells}");
    let (mut space, mut out) = ([77i64; 5005], [b'x'; 128]);
    let mut best = [f64::MAX; 3];
    for _ in 0..4 * REPETITIONS {
        let (t, r) = timed(|| (0..turns).map(|_| proved_estimate(black_box(job), 3)).sum());
        assert_eq!(r, turns * cells, "{name}: another estimate");
        best[0] = best[0].min(t);
        let (t, r) = timed(|| (0..turns).map(|_| twin_estimate(black_box(job))).sum());
        assert_eq!(r, turns * figures.iter().sum::<i64>(), "{name}: another estimate of the twin");
        best[1] = best[1].min(t);
        let (t, r) = timed(|| (0..turns).map(|_| proved_report(black_box(job), &mut space, &mut out)).sum());
        assert_eq!(r, 0, "{name}: refused");
        best[2] = best[2].min(t);
    }
    best.map(|t| t / turns as f64 / 1e3)
}

fn estimates() {
    println!();
    let decks = [("largest", LARGEST), ("typical", TYPICAL)].into_iter().chain(slower());
    let turns = |deck: Sizes| if deck.rounds == 1_000 { 1 } else { 20 };
    let times: Vec<(&str, [f64; 3])> = decks.map(|(name, deck)| (name, time_estimate(name, &deck.job(), turns(deck)))).collect();
    println!("{:<52} {:>10} {:>10} {:>7}", "the estimate, us a call", "proved", "twin", "ratio");
    for (name, [proved, twin, _]) in &times {
        println!("{name:<52} {proved:>10.1} {twin:>10.1} {:>7.2}", proved / twin);
    }
    println!();
    println!("{:<52} {:>10} {:>10} {:>7}", "the estimate beside the report call, us a call", "estimate", "report", "share");
    for (name, [estimate, _, report]) in &times {
        println!("{name:<52} {estimate:>10.1} {report:>10.1} {:>7.3}", estimate / report);
    }
}

/// The bytes written, or the least number for a refusal.
fn proved_write(deck: &Deck, rounds: u64, out: &mut [u8]) -> i64 {
    unsafe { trial_write(deck, rounds, out.as_mut_ptr(), out.len(), 0) }
}

fn twin_write(deck: &Deck, rounds: u64, out: &mut [u8]) -> i64 {
    write::write(deck, rounds, out).map_or(i64::MIN, |length| length as i64)
}

/// Writing a job's record into an output of exactly the job's length: both must write the job.
fn compare_writing(name: &str, job: &[u8]) {
    let turns = 20;
    let ((deck, rounds), length) = (write::record(job), job.len());
    assert_eq!(proved_write(&deck, rounds, &mut vec![b'x'; length - 1]), i64::MIN, "{name}: written in too short an output");
    let run = |write: fn(&Deck, u64, &mut [u8]) -> i64| {
        let mut out = vec![b'x'; length];
        let (t, r) = timed(|| (0..turns).map(|_| write(black_box(&deck), rounds, black_box(&mut out))).sum());
        assert!(r == turns * length as i64 && out == job, "{name}: another text");
        t / turns as f64 / 1e3
    };
    let (mut ours, mut theirs) = (f64::MAX, f64::MAX);
    for _ in 0..4 * REPETITIONS {
        ours = ours.min(run(proved_write));
        theirs = theirs.min(run(twin_write));
    }
    println!("{:<52} {ours:>10.1} {theirs:>10.1} {:>7.2}", format!("{name}, {length} bytes"), ours / theirs);
}

fn writing() {
    println!();
    println!("{:<52} {:>10} {:>10} {:>7}", "writing, us a job", "proved", "twin", "ratio");
    for (axis, name) in [(PLAIN, ""), (SLOWER, ", axis 2,1")] {
        compare_writing(&format!("largest{name}"), &write::mixed(axis));
        compare_writing(&format!("typical{name}"), &Sizes { axis, ..TYPICAL }.job());
    }
}

/// The number of the refusal, 0 for none.
fn proved_change(deck: &mut Deck, change::Change { kind, item }: change::Change) -> i64 {
    unsafe { trial_change(deck, kind, item, 0) }
}

fn proved_read(job: &[u8], deck: &mut Deck) -> i64 {
    unsafe { trial_read(job.as_ptr(), job.len(), deck, 1) }
}

/// Microseconds a change, each made `turns` times: the change, its twin, and reading the edited job anew, all of which must leave the same
/// record. Each call is timed by itself, as a change wants the record from before.
fn time_change(name: &str, m: &change::Measured) -> [f64; 3] {
    let turns = 20;
    let ((before, _), (after, _)) = (write::record(&m.job), write::record(&m.edited));
    let mut deck = before;
    let mut run = |call: &dyn Fn(&mut Deck) -> i64| {
        let mut time = 0.0;
        for _ in 0..turns {
            deck = before;
            let (t, refused) = timed(|| call(black_box(&mut deck)));
            assert_eq!(refused, 0, "{name}: refused");
            time += t;
        }
        assert!(deck == after, "{name}: another record");
        time / turns as f64 / 1e3
    };
    let mut best = [f64::MAX; 3];
    for _ in 0..4 * REPETITIONS {
        best[0] = best[0].min(run(&|deck| proved_change(deck, black_box(m.change))));
        best[1] = best[1].min(run(&|deck| change::change(deck, black_box(m.change))));
        best[2] = best[2].min(run(&|deck| proved_read(black_box(&m.edited), deck)));
    }
    best
}

fn changes() {
    println!();
    let mut times = Vec::new();
    for (name, deck) in [("largest", LARGEST), ("typical", TYPICAL)] {
        for m in change::measured(deck) {
            let name = format!("{name}, {}", m.name);
            times.push((time_change(&name, &m), name));
        }
    }
    println!("{:<52} {:>10} {:>10} {:>7}", "changes, us a change", "proved", "twin", "ratio");
    for ([proved, twin, _], name) in &times {
        println!("{name:<52} {proved:>10.1} {twin:>10.1} {:>7.2}", proved / twin);
    }
    println!();
    println!("{:<52} {:>10} {:>10} {:>7}", "changes beside reading the edited job anew, us a change", "change", "reading", "share");
    for ([change, _, reading], name) in &times {
        println!("{name:<52} {change:>10.1} {reading:>10.1} {:>7.3}", change / reading);
    }
}

/// The exhaustive call, `turns` times: place and cost must be the same. The plain pass over all crossings, last of the twins, is long, and has few repetitions.
fn compare_exhaustive(name: &str, job: &[u8], turns: usize, twins: &[(&str, fn(&[u8]) -> exhaustive::PricedPlace)]) {
    let proved = |job: &[u8], which| unsafe { trial_exhaustive(job.as_ptr(), job.len(), which) };
    assert_eq!(proved(job, 3), 0, "{name}: refused");
    let found = (proved(job, 2), proved(job, 0) as i32, proved(job, 1) as i32);
    println!("{name}: at {},{} cost {}", found.1, found.2, found.0);
    let mut best = vec![f64::MAX; twins.len() + 1];
    for i in 0..4 * REPETITIONS {
        let (t, r) = timed(|| (0..turns).map(|_| proved(black_box(job), 2)).sum());
        assert_eq!(r, turns as i64 * found.0);
        best[0] = best[0].min(t / turns as f64);
        for (j, (b, twin)) in best[1..].iter_mut().zip(twins).enumerate() {
            if j + 1 < twins.len() || i % 10 == 0 {
                let (t, r) = timed(|| (0..turns).filter(|_| twin.1(black_box(job)) == found).count() as i64);
                assert_eq!(r, turns as i64, "{name}, {}: another place or cost", twin.0);
                *b = b.min(t / turns as f64);
            }
        }
    }
    for ((twin, _), t) in twins.iter().zip(&best[1..]) {
        println!("{:<52} {:>10.1} {:>10.1} {:>7.3}", format!("{name}, {twin}"), best[0] / 1e3, t / 1e3, best[0] / t);
    }
}

fn exhaustive_calls() {
    println!();
    println!("{:<52} {:>10} {:>10} {:>7}", "the exhaustive call, us a call", "proved", "twin", "ratio");
    let twins: [(&str, fn(&[u8]) -> exhaustive::PricedPlace); 3] = [("ramps by search", exhaustive::searched), ("ramps by table", exhaustive::looked_up), ("every crossing", exhaustive::every_crossing)];
    let job = |deck: Sizes| Sizes { rounds: 0, ..deck }.job();
    compare_exhaustive("largest", &job(LARGEST), 1, &twins);
    compare_exhaustive("a post in a corner", &read::cornered(job(Sizes { posts: 1, ..LARGEST })), 1, &twins);
    compare_exhaustive("typical", &job(TYPICAL), 20, &twins);
    for (name, deck) in slower() {
        compare_exhaustive(name, &job(deck), if deck.stops == 512 { 1 } else { 20 }, &twins);
    }
}

/// The kernels on one deck. The names of the rows end in `suffix`.
fn kernels(deck: &twin::Deck, suffix: &str) {
    let job = deck.spell();
    let s = deck.sites();
    let row = |name: &str, k: u64, kernel: Kernel, twin: &dyn Fn(u64) -> i64| compare(&format!("{name}{suffix}"), &job, k, kernel, twin);
    row("near of 512 stops x 64 posts", 400, Kernel::Near, &|k| twin::near_many(deck, k, twin::near_by_stops));
    row("the same, twin post by post", 400, Kernel::Near, &|k| twin::near_many(deck, k, read::near_by_posts));
    row("cost of a place, 512 stops", 20_000, Kernel::Cost, &|k| twin::cost_many(&s, k));
    row("load of a rectangle, 512 stops", 20_000, Kernel::Load, &|k| twin::load_many(&s, k));
    row("bound of a cell, 512 stops", 20_000, Kernel::Bound, &|k| twin::bound_many(&s, k));
    row("corner bound, 512 stops (4 costs, load)", 5_000, Kernel::CornerBound, &|k| twin::corner_bound_many(&s, k));
}

fn main() {
    let deck = twin::Deck::full(PLAIN, 64, 512);
    let s = deck.sites();
    let (xs, ys) = (deck.lines(&s, true), deck.lines(&s, false));
    println!("one deck: 64 posts, 512 stops, {} and {} lines; best of {REPETITIONS}, interleaved", xs.len(), ys.len());
    println!("{:<52} {:>10} {:>10} {:>7}", "ns a call", "proved", "twin", "ratio");
    kernels(&deck, "");
    compare("choice of a cut", &deck.spell(), 100_000, Kernel::Cut, |k| twin::cut_many(&xs, &ys, k));
    kernels(&twin::Deck::full(Axis { a: 9, b: 9 }, 64, 512), ", axis 9,9");
    reports();
    exhaustive_calls();
    estimates();
    growth();
    writing();
    changes();
}
