//! The C entry (RULES "Calls") against the reference: result, text, and the bytes that must keep their values.

use siting_tests::decks::examples;
use siting_tests::entry;
use siting_tests::generate::{axis, crowded, damaged, job, job_of, noise, seed, spelled, spelling, Random};
use siting_tests::reference::{read, report_text, search, spell_out, Axis, Job};
use siting_tests::vectors::{refusals, reports};

/// The bytes before and behind what is lent.
const BESIDE: usize = 16;

/// How often each result was seen.
#[derive(Default)]
struct Seen {
    jobs: usize,
    axis_costs: usize,
    refused: [usize; 9],
    done: usize,
    stopped: usize,
}

/// One call with so many bytes of output, against the report's text or the refusal's number.
fn call(random: &mut Random, bytes: &[u8], want: &Result<String, i64>, length: usize) -> i64 {
    // byte 10 and a digit behind the job, which a read past its end would take for its own
    let mut lent_job = vec![b'\n'; random.range(0, 15) as usize];
    let start = lent_job.len();
    lent_job.extend_from_slice(bytes);
    lent_job.extend_from_slice(b"\n0\nrounds=0\n");
    let job_before = lent_job.clone();
    let before: Vec<u8> = (0..length + 2 * BESIDE).map(|_| random.next() as u8).collect();
    let mut lent = before.clone();
    let got = entry::report(&lent_job[start..start + bytes.len()], &mut lent[BESIDE..BESIDE + length]);
    let mut after = before;
    let result = match want {
        Err(number) => -number,
        Ok(_) if length < 128 => -8,
        Ok(text) => {
            after[BESIDE..BESIDE + text.len()].copy_from_slice(text.as_bytes());
            text.len() as i64
        }
    };
    let job = || String::from_utf8_lossy(bytes).into_owned();
    assert_eq!(got, result, "output of {length} bytes\n{}", job());
    // 9 and 10 are those of a change
    assert!(got >= -8, "{}", job());
    assert!(lent == after, "output of {length} bytes: {}\n{}", String::from_utf8_lossy(&lent[BESIDE..]), job());
    assert!(lent_job == job_before, "the job's bytes changed\n{}", job());
    got
}

fn check(random: &mut Random, seen: &mut Seen, bytes: &[u8]) {
    let want = match read(bytes) {
        Ok(job) => {
            let found = search(&job);
            seen.axis_costs += (job.axis != Axis::PLAIN) as usize;
            if found.done {
                seen.done += 1;
            } else {
                seen.stopped += 1;
            }
            Ok(report_text(&found))
        }
        Err(why) => Err(why.number),
    };
    seen.jobs += 1;
    let any = random.range(0, 300) as usize;
    let enough = random.range(128, 300) as usize;
    for length in [any, enough] {
        let got = call(random, bytes, &want, length);
        if got < 0 {
            seen.refused[-got as usize] += 1;
        }
    }
}

#[test]
fn generated_jobs_get_what_the_reference_says() {
    let mut random = Random::new(seed());
    let mut seen = Seen::default();
    for _ in 0..20_000 {
        let bytes = spelled(job)(&mut random);
        check(&mut random, &mut seen, &bytes);
    }
    for _ in 0..10_000 {
        // few places, so that most costs and bounds have equals
        let size = random.range(0, 3);
        let bytes = spelled(|random: &mut Random| job_of(random, size, 10))(&mut random);
        check(&mut random, &mut seen, &bytes);
    }
    for _ in 0..30_000 {
        let bytes = damaged(&mut random);
        check(&mut random, &mut seen, &bytes);
    }
    for _ in 0..10_000 {
        let bytes = noise(&mut random);
        check(&mut random, &mut seen, &bytes);
    }
    println!("{} jobs: {} done, {} stopped, refusals {:?}", seen.jobs, seen.done, seen.stopped, seen.refused);
    assert!(seen.done > 1_000 && seen.stopped > 1_000 && seen.axis_costs > 10_000);
    assert_eq!((seen.refused[0], seen.refused[7]), (0, 0));
    for number in [1, 2, 3, 4, 5, 6, 8] {
        assert!(seen.refused[number] > 100, "refusal {number}");
    }
}

#[test]
fn the_largest_jobs_get_what_the_reference_says() {
    let mut random = Random::new(seed());
    let mut seen = Seen::default();
    for i in 0..60 {
        let size = [300, 3_000, 20_000][random.range(0, 2) as usize];
        let visits = if random.one_in(2) { 65_535 } else { 3 };
        let deck = crowded(&mut random, size, size, visits);
        let rounds = if i < 3 { 1_000 } else { random.range(0, 250) };
        let bytes = spelled(|random: &mut Random| Job { axis: axis(random), rounds, ..deck.clone() })(&mut random);
        check(&mut random, &mut seen, &bytes);
    }
    for _ in 0..1_000 {
        // stops at the ends of the range, with the most visits
        let mut j = job_of(&mut random, 20_000, 512);
        for stop in &mut j.stops {
            let end = |v: i64, random: &mut Random| if random.one_in(3) { v } else { 20_000 * v.signum() };
            stop.at = (end(stop.at.0, &mut random), end(stop.at.1, &mut random));
            stop.visits = 65_535;
        }
        if random.one_in(3) {
            j.axis = Axis { a: 9, b: 9 };
        }
        let bytes = spelling(&mut random, &j);
        check(&mut random, &mut seen, &bytes);
    }
    println!("{} jobs: {} done, {} stopped, {} with axis costs", seen.jobs, seen.done, seen.stopped, seen.axis_costs);
    assert!(seen.done + seen.stopped == 1_060 && seen.axis_costs > 400);
}

#[test]
fn the_vectors_get_what_they_say() {
    let mut random = Random::new(seed());
    for (job, report) in reports() {
        call(&mut random, job.as_bytes(), &Ok(report.into()), 128);
    }
    for (job, number, _) in refusals() {
        call(&mut random, job.as_bytes(), &Err(number), 128);
    }
}

#[test]
fn every_output_length_and_every_start_of_a_job() {
    let mut random = Random::new(seed());
    let mut seen = Seen::default();
    let bytes = spell_out(&job_of(&mut random, 30, 6));
    let text = Ok(report_text(&search(&read(&bytes).unwrap())));
    for length in 0..=300 {
        call(&mut random, &bytes, &text, length);
    }
    for end in 0..=bytes.len() {
        check(&mut random, &mut seen, &bytes[..end]);
    }
    // the whole job alone is accepted, and no start of it is
    assert_eq!((seen.done + seen.stopped, seen.jobs), (1, bytes.len() + 1));
    for length in [16_383, 16_384, 16_385, 16_386, 100_000] {
        check(&mut random, &mut seen, &vec![b'a'; length]);
        let mut long = bytes.clone();
        long.resize(length, b'\n');
        check(&mut random, &mut seen, &long);
    }
    for (_, job) in examples() {
        check(&mut random, &mut seen, &job);
    }
}
