//! The C entry, the program, the report call, the estimate and the calls that read, write and change a record against the reference, one
//! input of libFuzzer at a time. An input is a job's bytes, whole; for the writer the numbers in it are a record too, and for the calls that
//! change one the lines behind the job that start with a sign are changes, as `+post=4,3` or `-stop=4,3,2`. A difference is printed and ends
//! the run; libFuzzer then saves the input.

#![no_main]

extern crate reference;

#[path = "../tests/src/layout.rs"]
mod layout;
#[allow(dead_code)]
#[path = "../tests/src/lent.rs"]
mod lent;
mod mutate;
mod record;

use layout::{Deck, Place, Stop};
use mutate::Random;
use reference::{changed, estimate, lent_enough, read, refusal_text, report_text, saved, search, spell, write};
use reference::{Axis, Change, Estimate, Found, Job, Record, Refusal};
use std::ffi::c_void;
use std::io::{ErrorKind, Write};
use std::process::{abort, Command, Stdio};
use std::sync::{Mutex, MutexGuard};

extern "C" {
    fn siting_report(job: *const u8, job_length: usize, out: *mut u8, out_length: usize) -> i64;
    fn trial_report(job: *const u8, len: usize, cells: *mut i64, cells_len: usize, out: *mut u8, out_len: usize, which: u64) -> i64;
    fn trial_estimate(job: *const u8, len: usize, which: u64) -> i64;
    fn trial_read(job: *const u8, len: usize, deck: *mut Deck, which: u64) -> i64;
    fn trial_write(deck: *const Deck, rounds: u64, out: *mut u8, out_len: usize, which: u64) -> i64;
    fn trial_change(deck: *mut Deck, kind: u64, item: Stop, which: u64) -> i64;
    fn blocks_watch();
    fn blocks_print();
    fn mmap(at: *mut c_void, length: usize, access: i32, flags: i32, file: i32, offset: i64) -> *mut c_void;
    fn mprotect(at: *mut c_void, length: usize, access: i32) -> i32;
    fn signal(number: i32, handler: usize) -> usize;
    fn atexit(last: extern "C" fn()) -> i32;
}

const PAGE: usize = 4_096;
/// The bytes beside what is lent that are looked at too.
const BESIDE: usize = 200;
/// The bytes of a record.
const DECK: usize = std::mem::size_of::<Deck>();
/// The longest job that is accepted, and so the longest file that is written.
const LONGEST: usize = 14_089;
/// The most changes of an input that are made: enough to fill the posts and to add one more.
const CHANGES: usize = 80;

/// Whole pages between two that may not be touched.
struct Lent {
    first: *mut u8,
    length: usize,
}

// only used by the thread that has locked STATE
unsafe impl Send for Lent {}

impl Lent {
    fn new(length: usize) -> Lent {
        unsafe {
            // no access, private and anonymous
            let all = mmap(std::ptr::null_mut(), length + 2 * PAGE, 0, 0x22, -1, 0);
            assert_ne!(all as isize, -1);
            let first = all.cast::<u8>().add(PAGE);
            assert_eq!(mprotect(first.cast(), length, 3), 0);
            Lent { first, length }
        }
    }

    fn bytes(&mut self) -> &mut [u8] {
        unsafe { std::slice::from_raw_parts_mut(self.first, self.length) }
    }
}

/// What the reference has for an accepted job.
struct Accepted {
    estimate: Estimate,
    found: Found,
    text: String,
}

impl Accepted {
    fn new(job: &Job) -> Accepted {
        let found = search(job);
        let text = report_text(&found);
        Accepted { estimate: estimate(job), found, text }
    }

    /// The numbers of a report.
    fn figures(&self) -> [i64; 7] {
        let f = &self.found;
        [i64::from(!f.done), f.at.0, f.at.1, f.high, f.low, f.before, f.rounds]
    }
}

struct State {
    job: Lent,
    out: Lent,
    cells: Lent,
    deck: Lent,
    saved: Lent,
    program: String,
    /// The program gets one input of so many.
    every: u64,
    inputs: u64,
    programs: u64,
    done: u64,
    stopped: u64,
    axis_costs: u64,
    refused: [u64; 9],
    /// The product of the gaps is below rounds + 1, or equal to it.
    product_below: u64,
    product_equal: u64,
    calls: u64,
    reports: u64,
    small_space: u64,
    short_output: u64,
    records: u64,
    written: u64,
    not_written: [u64; 9],
    with_changes: u64,
    changes: u64,
    changed: u64,
    not_changed: [u64; 11],
}

static STATE: Mutex<Option<State>> = Mutex::new(None);

fn state() -> MutexGuard<'static, Option<State>> {
    STATE.lock().unwrap()
}

fn variable(name: &str) -> String {
    std::env::var(name).unwrap_or_else(|_| panic!("{name} is not set: scripts/fuzz sets it"))
}

#[no_mangle]
extern "C" fn LLVMFuzzerInitialize(_: *mut c_void, _: *mut c_void) -> i32 {
    *state() = Some(State {
        job: Lent::new(5 * PAGE),
        out: Lent::new(PAGE),
        cells: Lent::new(10 * PAGE),
        deck: Lent::new(5 * PAGE),
        saved: Lent::new(4 * PAGE),
        program: variable("FUZZ_PROGRAM"),
        every: variable("FUZZ_EVERY").parse().unwrap(),
        inputs: 0,
        programs: 0,
        done: 0,
        stopped: 0,
        axis_costs: 0,
        refused: [0; 9],
        product_below: 0,
        product_equal: 0,
        calls: 0,
        reports: 0,
        small_space: 0,
        short_output: 0,
        records: 0,
        written: 0,
        not_written: [0; 9],
        with_changes: 0,
        changes: 0,
        changed: 0,
        not_changed: [0; 11],
    });
    unsafe {
        // a write to a program that has ended is an error, not a signal: 13 is SIGPIPE, 1 is SIG_IGN
        signal(13, 1);
        blocks_watch();
        atexit(last);
    }
    0
}

extern "C" fn last() {
    if let Some(s) = &*state() {
        let (done, stopped, refused) = (s.done, s.stopped, &s.refused[1..7]);
        println!("{} inputs: {done} done, {stopped} stopped, {} of these with axis costs, refusals 1 to 6 {refused:?}", s.inputs, s.axis_costs);
        println!("{} of them by the program too", s.programs);
        let (below, equal) = (s.product_below, s.product_equal);
        println!("{below} of {} jobs have a product of gaps below rounds + 1, {equal} one equal to it", done + stopped);
        println!("{} of {} report calls gave a report, {} refusal 7, {} refusal 8", s.reports, s.calls, s.small_space, s.short_output);
        println!("{} of {} records written, refusals 2 to 8 {:?}", s.written, s.records, &s.not_written[2..]);
        println!("{} of {} changes made, {} inputs had some; refusals 3 to 10 {:?}", s.changed, s.changes, s.with_changes, &s.not_changed[3..]);
    }
    unsafe { blocks_print() };
}

/// The last `length` bytes of what is lent, or the first, with up to BESIDE more on the other side, and where they start in these.
fn place(lent: &mut Lent, length: usize, at_end: bool, fill: impl Fn(usize) -> u8) -> (&mut [u8], usize) {
    let all = lent.bytes();
    let beside = BESIDE.min(all.len() - length);
    let (bytes, first) = if at_end {
        let start = all.len() - length - beside;
        (&mut all[start..], beside)
    } else {
        (&mut all[..length + beside], 0)
    };
    bytes.iter_mut().enumerate().for_each(|(i, byte)| *byte = fill(i));
    (bytes, first)
}

/// What a place holds before a call.
fn pattern(fill: u8) -> impl Fn(usize) -> u8 {
    move |i| (i as u8).wrapping_mul(31).wrapping_add(fill)
}

/// A job in its place. The bytes beside it could belong to it.
fn place_job<'a>(lent: &'a mut Lent, bytes: &[u8], at_end: bool, fill: u8) -> (&'a mut [u8], usize) {
    let (job, start) = place(lent, bytes.len(), at_end, |_| if fill % 2 == 0 { b'\n' } else { b'0' });
    job[start..start + bytes.len()].copy_from_slice(bytes);
    (job, start)
}

/// The bytes of numbers.
fn bytes_of<T: Copy>(numbers: &[T]) -> &[u8] {
    unsafe { std::slice::from_raw_parts(numbers.as_ptr().cast(), std::mem::size_of_val(numbers)) }
}

/// The place of a record, with what is beside it.
struct Held<'a> {
    bytes: &'a mut [u8],
    first: usize,
}

impl Held<'_> {
    fn new(lent: &mut Lent, at_end: bool, fill: u8) -> Held<'_> {
        let (bytes, first) = place(lent, DECK, at_end, pattern(fill));
        Held { bytes, first }
    }

    fn pointer(&mut self) -> *mut Deck {
        self.bytes[self.first..].as_mut_ptr().cast()
    }

    /// What it holds once it has this record.
    fn with(&self, record: &Record) -> Vec<u8> {
        let mut bytes = self.bytes.to_vec();
        bytes[self.first..self.first + DECK].copy_from_slice(bytes_of(&[Deck::of(record)]));
        bytes
    }
}

/// The numbers of an answer: its value, the number of the refusal, the line. The last stands for numbers that no answer has.
fn figures(answer: Result<i64, Refusal>) -> [i64; 4] {
    answer.map_or_else(|why| [i64::MIN, why.number, why.line, i64::MIN], |value| [value, 0, 0, i64::MIN])
}

/// The end of a job's bytes, which has its rounds.
fn end(bytes: &[u8]) -> String {
    bytes[bytes.len().saturating_sub(12)..].escape_ascii().to_string()
}

fn differs(what: &str, got: &str, want: &str) -> ! {
    eprintln!("DIFFERENCE: {what}\n-- got\n{got}\n-- the reference has\n{want}");
    abort()
}

impl State {
    /// One call of the entry. Job and output stand at the ends of their pages, or at the starts.
    fn call(&mut self, bytes: &[u8], want: &Result<Accepted, Refusal>, length: usize, at_end: bool, fill: u8) {
        let (job, start) = place_job(&mut self.job, bytes, at_end, fill);
        let job_before = job.to_vec();

        let (out, first) = place(&mut self.out, length, at_end, pattern(fill));
        let mut after = out.to_vec();
        let result = match want {
            Err(why) => -why.number,
            Ok(_) if length < 128 => -8,
            Ok(Accepted { text, .. }) => {
                after[first..first + text.len()].copy_from_slice(text.as_bytes());
                text.len() as i64
            }
        };
        let got = unsafe { siting_report(job[start..].as_ptr(), bytes.len(), out[first..].as_mut_ptr(), length) };
        if got != result {
            differs(&format!("the entry's result, output of {length} bytes"), &got.to_string(), &result.to_string());
        }
        if out != after {
            let text = |bytes: &[u8]| bytes.escape_ascii().to_string();
            differs(&format!("the output of {length} bytes from byte {first}"), &text(out), &text(&after));
        }
        if job != job_before {
            differs("the job's bytes", "changed", "not changed");
        }
    }

    /// One report call: number `which` of its answer, all that is lent, and what is beside it. `lent` is how many numbers of cell space and
    /// how many bytes of output.
    fn report(&mut self, bytes: &[u8], want: &Result<Accepted, Refusal>, lent: (usize, usize), which: u64, at_end: bool, fill: u8) {
        let (numbers, length) = lent;
        let (job, start) = place_job(&mut self.job, bytes, at_end, fill);
        let job_before = job.to_vec();
        let (cells, cell) = place(&mut self.cells, 8 * numbers, at_end, pattern(fill));
        let (out, first) = place(&mut self.out, length, at_end, pattern(fill));
        let (mut cells_after, mut out_after) = (cells.to_vec(), out.to_vec());
        let given = match want {
            Err(why) => Err(*why),
            Ok(accepted) => lent_enough(&accepted.estimate, numbers, length).map(|()| accepted),
        };
        self.calls += 1;
        let (figures, number, line) = match given {
            Err(why) => {
                self.small_space += u64::from(why.number == 7);
                self.short_output += u64::from(why.number == 8);
                ([i64::MIN; 7], why.number, why.line)
            }
            Ok(accepted) => {
                self.reports += 1;
                let (text, mut space) = (&accepted.text, accepted.found.cells.clone());
                space.resize(numbers, 0);
                cells_after[cell..cell + 8 * numbers].copy_from_slice(bytes_of(&space));
                out_after[first..first + text.len()].copy_from_slice(text.as_bytes());
                (accepted.figures(), 0, 0)
            }
        };
        let figure = match which {
            0..=6 => figures[which as usize],
            7 => number,
            8 => line,
            _ => i64::MIN,
        };
        let (space, output) = (cells[cell..].as_mut_ptr().cast(), out[first..].as_mut_ptr());
        let got = unsafe { trial_report(job[start..].as_ptr(), bytes.len(), space, numbers, output, length, which) };
        let lent = || format!("with {numbers} numbers of cell space and {length} bytes of output, job up to {}", end(bytes));
        if got != figure {
            differs(&format!("number {which} of the report {}", lent()), &got.to_string(), &figure.to_string());
        }
        if cells != cells_after {
            differs(&format!("the cell space, from byte {cell}, {}", lent()), &format!("{cells:?}"), &format!("{cells_after:?}"));
        }
        if out != out_after {
            let text = |bytes: &[u8]| bytes.escape_ascii().to_string();
            differs(&format!("the output, from byte {first}, {}", lent()), &text(out), &text(&out_after));
        }
        if job != job_before {
            differs("the job's bytes", "changed by the report call", "not changed");
        }
    }

    /// The estimate, and report calls with cell space around what the job needs and with outputs that are long enough and too short.
    fn check_reports(&mut self, bytes: &[u8], want: &Result<Accepted, Refusal>, any: u64) {
        self.estimate(bytes, want, any & 1 == 0, any as u8);
        let need = want.as_ref().map_or(1 + any as usize % 60, |accepted| accepted.estimate.numbers());
        let (more, enough) = (1 + (any >> 12) as usize % 100, 128 + (any >> 20) as usize % 2 * (any as usize % 300));
        let lent = [(need, enough), (need - 1, enough), (need - 1, 127), (need + more, if any >> 21 & 1 == 0 { enough } else { 127 })];
        for (i, lent) in lent.into_iter().enumerate() {
            let which = (any >> 26 ^ i as u64) % 10;
            self.report(bytes, want, lent, which, (any as usize >> 22 ^ i) % 2 == 0, (any >> 8) as u8 ^ i as u8);
        }
    }

    /// An accepted job with other rounds: rounds + 1 is the product of its gaps, or one less or more.
    fn check_other_rounds(&mut self, bytes: &[u8], estimate: Estimate, any: u64) {
        let rounds = estimate.cut_limit + (any >> 16) as i64 % 3 - 1;
        if (0..=1_000).contains(&rounds) {
            let lines: Vec<&[u8]> = bytes.split_inclusive(|&b| b == b'\n').collect();
            let other = [&lines[..lines.len() - 1].concat(), format!("rounds={rounds}\n").as_bytes()].concat();
            let want = read(&other).map(|job| Accepted::new(&job));
            self.check_reports(&other, &want, any >> 3);
        }
    }

    /// The estimate: each of its numbers, and one that no answer has.
    fn estimate(&mut self, bytes: &[u8], want: &Result<Accepted, Refusal>, at_end: bool, fill: u8) {
        let (job, start) = place_job(&mut self.job, bytes, at_end, fill);
        let job_before = job.to_vec();
        const NONE: i64 = i64::MIN;
        let figures = match want {
            Ok(Accepted { estimate: e, .. }) => [e.across, e.deep, e.cut_limit, e.cells, 0, 0, NONE],
            Err(why) => [NONE, NONE, NONE, NONE, why.number, why.line, NONE],
        };
        for (which, figure) in (0..).zip(figures) {
            let got = unsafe { trial_estimate(job[start..].as_ptr(), bytes.len(), which) };
            if got != figure {
                differs(&format!("number {which} of the estimate, job up to {}", end(bytes)), &got.to_string(), &figure.to_string());
            }
        }
        if job != job_before {
            differs("the job's bytes", "changed by the estimate", "not changed");
        }
    }

    /// The call that reads the job: the answer's numbers, and the record, each number of that which was read, or as it was where the job is
    /// refused, with what is beside it.
    fn read(&mut self, bytes: &[u8], want: &Result<Record, Refusal>, at_end: bool, fill: u8) {
        let (job, start) = place_job(&mut self.job, bytes, at_end, fill);
        let job_before = job.to_vec();
        let mut held = Held::new(&mut self.deck, at_end, fill);
        let before = held.bytes.to_vec();
        let after = want.as_ref().map_or_else(|_| before.clone(), |record| held.with(record));
        let answer = want.as_ref().map_or_else(|why| Err(*why), |record| Ok(record.rounds as i64));
        for (which, figure) in (0..).zip(figures(answer)) {
            held.bytes.copy_from_slice(&before);
            let got = unsafe { trial_read(job[start..].as_ptr(), bytes.len(), held.pointer(), which) };
            if got != figure {
                differs(&format!("number {which} of reading"), &got.to_string(), &figure.to_string());
            }
            if held.bytes != after {
                differs("the record that was read, as bytes", &format!("{:?}", held.bytes), &format!("{after:?}"));
            }
        }
        if job != job_before {
            differs("the job's bytes", "changed by reading", "not changed");
        }
    }

    /// The call that writes a record into an output of `length` bytes.
    fn write(&mut self, record: &Record, length: usize, at_end: bool, fill: u8) {
        let want = write(record, length);
        self.records += 1;
        *(want.as_ref().map_or_else(|why| &mut self.not_written[why.number as usize], |_| &mut self.written)) += 1;
        let mut held = Held::new(&mut self.deck, at_end, fill);
        let before = held.with(record);
        held.bytes.copy_from_slice(&before);
        let (out, first) = place(&mut self.saved, length, at_end, pattern(fill));
        let mut after = out.to_vec();
        if let Ok(text) = &want {
            after[first..first + text.len()].copy_from_slice(text);
        }
        let text = |bytes: &[u8]| bytes.escape_ascii().to_string();
        for (which, figure) in (0..).zip(figures(want.map(|text| text.len() as i64))) {
            let got = unsafe { trial_write(held.pointer(), record.rounds, out[first..].as_mut_ptr(), length, which) };
            if got != figure {
                let what = format!("number {which} of writing {}, output of {length} bytes", text(&record.text()));
                differs(&what, &got.to_string(), &figure.to_string());
            }
            if out != after {
                differs(&format!("the record's output of {length} bytes from byte {first}"), &text(out), &text(&after));
            }
        }
        if held.bytes != before {
            differs("the record's numbers", "changed by writing", "not changed");
        }
    }

    /// The job's own record, if it is accepted, and others made of its numbers. Its own is written as the job, but for a line `axis=1,1`,
    /// also with any other near and before.
    fn check_records(&mut self, bytes: &[u8], want: Result<Record, Refusal>, any: u64) {
        let (at_end, fill, some) = (any >> 16 & 1 == 0, (any >> 24) as u8, any as usize % 300);
        self.read(bytes, &want, at_end, fill);
        let mut random = Random(any | 1);
        let mut record = record::of(bytes, &mut random);
        if let Ok(own) = want {
            let saved = saved(bytes);
            if write(&own, saved.len()).as_ref() != Ok(&saved) {
                differs("the reference's own text of an accepted job", &own.text().escape_ascii().to_string(), "the input, without a line axis=1,1");
            }
            self.write(&own, saved.len(), at_end, fill);
            self.write(&Record { near: record.near, before: record.before, ..own }, saved.len() + some, at_end, fill);
            self.write(&record, saved.len() - 1, !at_end, fill);
        } else {
            self.write(&record, (bytes.len() + some).min(LONGEST), at_end, fill);
        }
        record::replace(&mut random, &mut record);
        let length = record.text().len().min(LONGEST);
        let lengths = [0, length - 1, length, length + some, length.min(some)];
        self.write(&record, lengths[random.below(lengths.len())], at_end, fill);
    }

    /// One change of a record: the refusal, its line or a number that no answer has, each with all numbers of the record and what is beside
    /// them. And a kind that there is not.
    fn change(&mut self, record: &Record, change: &Change, at_end: bool, fill: u8) -> Result<Record, Refusal> {
        let want = record.changed(change);
        self.changes += 1;
        *(want.as_ref().map_or_else(|why| &mut self.not_changed[why.number as usize], |_| &mut self.changed)) += 1;
        let mut held = Held::new(&mut self.deck, at_end, fill);
        let (before, after) = (held.with(record), held.with(want.as_ref().unwrap_or(record)));
        let (number, line) = want.as_ref().map_or_else(|why| (why.number, why.line), |_| (0, 0));
        let kind = change.kind as u64;
        let mut calls = vec![(kind, 0, number, &after), if fill % 2 == 0 { (kind, 1, line, &after) } else { (kind, 2, i64::MIN, &after) }];
        if fill % 8 < 2 {
            calls.push((kind + 4 + u64::from(fill), 0, i64::MIN, &before));
        }
        for (kind, which, figure, after) in calls {
            held.bytes.copy_from_slice(&before);
            let item = Stop { at: Place { x: change.at.0, y: change.at.1 }, visits: change.visits };
            let got = unsafe { trial_change(held.pointer(), kind, item, which) };
            let what = || format!("{change} as change {kind} of {}", record.text().escape_ascii());
            if got != figure {
                differs(&format!("number {which} of {}", what()), &got.to_string(), &figure.to_string());
            }
            if held.bytes != after {
                differs(&format!("the record, as bytes, behind {}", what()), &format!("{:?}", held.bytes), &format!("{after:?}"));
            }
        }
        want
    }

    /// The changes behind a job, or, in one of four inputs without any, some of its items: of the job's own record, if it is accepted, and of
    /// one of any numbers. The first must end as the record that the edited job is read as, and is written as that job.
    fn check_changes(&mut self, bytes: &[u8], any: u64) {
        let (text, own) = record::split(bytes);
        self.with_changes += u64::from(!own.is_empty());
        if own.is_empty() && any % 4 > 0 {
            return;
        }
        let (at_end, fill, some) = (any >> 17 & 1 == 0, (any >> 28) as u8, 1 + any as usize / 4 % 4);
        let mut random = Random(any << 1 | 1);
        let mut other = record::of(text, &mut random);
        let job = read(text);
        if job.is_ok() || random.below(2) == 0 {
            record::tame(&mut random, &mut other);
        }
        let mut changes = own;
        if changes.is_empty() {
            changes = (0..some).map(|_| record::any_change(&mut random, &other)).collect();
        }
        changes.truncate(CHANGES);
        if let Ok(mut job) = job {
            let mut record = Record::of(&job);
            for (i, change) in changes.iter().enumerate() {
                let new = self.change(&record, change, at_end, fill.wrapping_add(i as u8));
                let edited = changed(&job, change);
                if new.as_ref().err() != edited.as_ref().err() {
                    differs(&format!("the reference's own answers to {change}"), &format!("{:?}", new.err()), &format!("{:?}", edited.err()));
                }
                (record, job) = (new.unwrap_or(record), edited.unwrap_or(job));
            }
            let edited = spell(&job);
            if record != Record::of(&job) {
                let text = |bytes: &[u8]| bytes.escape_ascii().to_string();
                differs("the reference's own record of a changed deck", &text(&record.text()), &text(&edited));
            }
            self.write(&record, edited.len(), at_end, fill);
            self.read(&edited, &Ok(record), at_end, fill);
        }
        for (i, change) in changes.iter().take(8).enumerate() {
            other = self.change(&other, change, !at_end, fill.wrapping_sub(i as u8)).unwrap_or(other);
        }
    }

    fn run_program(&mut self, bytes: &[u8], want: &str) {
        self.programs += 1;
        let mut child = Command::new(&self.program)
            .stdin(Stdio::piped())
            .stdout(Stdio::piped())
            .stderr(Stdio::piped())
            .spawn()
            .unwrap();
        // a pipe holds more than the longest input, so this waits for nobody
        if let Err(error) = child.stdin.take().unwrap().write_all(bytes) {
            assert_eq!(error.kind(), ErrorKind::BrokenPipe);
        }
        let output = child.wait_with_output().unwrap();
        let got = String::from_utf8_lossy(&output.stdout);
        if got != want {
            differs("what the program prints", &got, want);
        }
        if !output.status.success() || !output.stderr.is_empty() {
            differs("how the program ends", &format!("{output:?}"), "exit status 0, nothing on standard error");
        }
    }

    fn check(&mut self, bytes: &[u8]) {
        let job = read(bytes);
        let record = job.as_ref().map_or_else(|why| Err(*why), |job| Ok(Record::of(job)));
        let want = match job {
            Ok(job) => {
                let accepted = Accepted::new(&job);
                let product = accepted.estimate.across * accepted.estimate.deep;
                self.axis_costs += u64::from(job.axis != Axis::PLAIN);
                self.product_below += u64::from(product < job.rounds + 1);
                self.product_equal += u64::from(product == job.rounds + 1);
                *(if accepted.found.done { &mut self.done } else { &mut self.stopped }) += 1;
                Ok(accepted)
            }
            Err(why) => {
                self.refused[why.number as usize] += 1;
                Err(why)
            }
        };
        self.inputs += 1;
        // FNV-1a: any length from the input's bytes
        let any = bytes.iter().fold(0xcbf2_9ce4_8422_2325u64, |hash, &b| (hash ^ u64::from(b)).wrapping_mul(0x100_0000_01b3)) >> 20;
        let lengths = [0, 1 + any as usize % 126, 127, 128, 129 + any as usize % 300];
        for (i, length) in lengths.into_iter().enumerate() {
            self.call(bytes, &want, length, (any as usize + i) % 2 == 0, (any >> 8) as u8 ^ i as u8);
        }
        self.check_reports(bytes, &want, any);
        if let Ok(accepted) = &want {
            self.check_other_rounds(bytes, accepted.estimate, any);
        }
        self.check_records(bytes, record, any);
        self.check_changes(bytes, any);
        if self.inputs % self.every == 0 {
            self.run_program(bytes, &want.map_or_else(refusal_text, |accepted| accepted.text));
        }
    }
}

#[no_mangle]
extern "C" fn LLVMFuzzerTestOneInput(data: *const u8, length: usize) -> i32 {
    let bytes = if length == 0 { &[] } else { unsafe { std::slice::from_raw_parts(data, length) } };
    let mut state = state();
    let state = state.as_mut().unwrap();
    if bytes.len() <= state.job.length {
        state.check(bytes);
    }
    0
}
