//! The program (RULES "Calls") by pipes, against the reference.

use siting_tests::decks::CASE_A;
use siting_tests::generate::{damaged, job, largest, noise, seed, spelled, Random};
use siting_tests::program::{command, printed, redirected};
use siting_tests::reference::answer_text;
use siting_tests::vectors::{refusals, reports};
use std::fs::File;
use std::io::{ErrorKind, Read, Write};
use std::os::fd::OwnedFd;
use std::os::unix::net::UnixStream;
use std::process::Stdio;
use std::thread::sleep;
use std::time::Duration;

const NO_INPUT: &str = "refused=2\nline=1\n";

/// Writes to a program that may have read enough and ended.
fn put(to: &mut impl Write, bytes: &[u8]) {
    if let Err(error) = to.write_all(bytes) {
        assert_eq!(error.kind(), ErrorKind::BrokenPipe);
    }
}

/// What the program prints for an input that comes in pieces.
fn answer<'a>(pieces: impl IntoIterator<Item = &'a [u8]>, pause: Duration) -> String {
    let mut child = command().stdin(Stdio::piped()).spawn().unwrap();
    let mut to = child.stdin.take().unwrap();
    for piece in pieces {
        put(&mut to, piece);
        sleep(pause);
    }
    drop(to);
    printed(child)
}

fn check(bytes: &[u8]) {
    let got = answer([bytes], Duration::ZERO);
    assert_eq!(got, answer_text(bytes), "{}", String::from_utf8_lossy(bytes));
    // 9 and 10 are those of a change
    assert!(!got.starts_with("refused=9\n") && !got.starts_with("refused=10\n"), "{}", String::from_utf8_lossy(bytes));
}

#[test]
fn jobs_are_answered_as_the_reference_answers_them() {
    let mut random = Random::new(seed());
    for _ in 0..150 {
        check(&spelled(job)(&mut random));
        check(&damaged(&mut random));
    }
    for _ in 0..50 {
        check(&noise(&mut random));
    }
    for _ in 0..5 {
        check(&spelled(largest)(&mut random));
    }
}

#[test]
fn the_vectors_get_what_they_say() {
    for (job, report) in reports() {
        assert_eq!(answer([job.as_bytes()], Duration::ZERO), report, "{job}");
    }
    for (job, number, line) in refusals() {
        assert_eq!(answer([job.as_bytes()], Duration::ZERO), format!("refused={number}\nline={line}\n"), "{job}");
    }
}

#[test]
fn an_input_in_pieces_is_the_same_input() {
    let mut random = Random::new(seed());
    for _ in 0..30 {
        let bytes = spelled(job)(&mut random);
        let longest = bytes.len() as i64 / 6 + 1;
        let mut pieces = Vec::new();
        let mut rest = &bytes[..];
        while !rest.is_empty() {
            let (piece, behind) = rest.split_at(rest.len().min(random.range(1, longest) as usize));
            pieces.push(piece);
            rest = behind;
        }
        assert_eq!(answer(pieces, Duration::from_millis(3)), answer_text(&bytes), "{}", String::from_utf8_lossy(&bytes));
    }
    let bytes = CASE_A.as_bytes();
    assert_eq!(answer(bytes.chunks(1), Duration::from_millis(1)), answer_text(bytes));
}

#[test]
fn no_input_is_an_empty_job() {
    assert_eq!(answer([], Duration::ZERO), NO_INPUT);
    assert_eq!(printed(command().spawn().unwrap()), NO_INPUT);
    assert_eq!(printed(redirected("<&-").spawn().unwrap()), NO_INPUT);
    // a read that fails
    assert_eq!(printed(redirected("</").spawn().unwrap()), NO_INPUT);
}

/// Standard input is a socket that does not wait: behind the bytes that it holds a read fails.
#[test]
fn a_read_that_fails_ends_the_input() {
    let whole = CASE_A.as_bytes();
    for length in [0, 1, 20, whole.len() - 1, whole.len()] {
        let (mut to, from) = UnixStream::pair().unwrap();
        from.set_nonblocking(true).unwrap();
        put(&mut to, &whole[..length]);
        let child = command().stdin(OwnedFd::from(from)).spawn().unwrap();
        assert_eq!(printed(child), answer_text(&whole[..length]), "the first {length} bytes");
        drop(to);
    }
}

#[test]
fn long_inputs_are_refused() {
    for length in [16_383, 16_384, 16_385, 16_386, 20_000, 65_536, 65_537, 1_000_000] {
        check(&vec![b'a'; length]);
        let mut long = CASE_A.as_bytes().to_vec();
        long.resize(length, b'\n');
        check(&long);
    }
    let endless = command().stdin(File::open("/dev/zero").unwrap()).spawn().unwrap();
    assert_eq!(printed(endless), "refused=1\nline=0\n");
}

#[test]
fn a_long_input_is_refused_before_it_ends() {
    let mut child = command().stdin(Stdio::piped()).spawn().unwrap();
    let mut to = child.stdin.take().unwrap();
    put(&mut to, &[b'a'; 16_385]);
    let mut text = String::new();
    child.stdout.take().unwrap().read_to_string(&mut text).unwrap();
    assert_eq!(text, "refused=1\nline=0\n");
    drop(to);
    printed(child);
}

#[test]
fn an_output_that_takes_nothing_is_no_error() {
    for output in [">&-", ">/dev/full"] {
        let mut child = redirected(output).stdin(Stdio::piped()).spawn().unwrap();
        put(&mut child.stdin.take().unwrap(), CASE_A.as_bytes());
        assert_eq!(printed(child), "");
    }
}
