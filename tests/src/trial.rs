//! The exported functions of the crates `trial` and `trial_calls`, each figure behind a safe function. They have no `requires`: every input is
//! allowed. Nothing checks these declarations against crates/trial/src and crates/trial_calls/src, so they are kept in their order.

use crate::layout::{self, Deck, Stop};
use crate::reference::{Place, Record, Rect};

#[link(name = "trial", kind = "static")]
extern "C" {
    fn trial_reading(job: *const u8, len: usize, which: u64) -> i64;
    fn trial_figure(job: *const u8, len: usize, which: u64, xlo: i64, ylo: i64, xhi: i64, yhi: i64) -> i64;
    fn trial_lines(job: *const u8, len: usize, across: bool, out: *mut i64, out_len: usize) -> i64;
}

#[link(name = "trial_calls", kind = "static")]
extern "C" {
    fn trial_report(job: *const u8, len: usize, cells: *mut i64, cells_len: usize, out: *mut u8, out_len: usize, which: u64) -> i64;
    fn trial_exhaustive(job: *const u8, len: usize, which: u64) -> i64;
    fn trial_estimate(job: *const u8, len: usize, which: u64) -> i64;
    fn trial_read(job: *const u8, len: usize, deck: *mut Deck, which: u64) -> i64;
    fn trial_write(deck: *const Deck, rounds: u64, out: *mut u8, out_len: usize, which: u64) -> i64;
    fn trial_change(deck: *mut Deck, kind: u64, item: Stop, which: u64) -> i64;
}

// ---- reading

fn reading(job: &[u8], which: u64) -> i64 {
    unsafe { trial_reading(job.as_ptr(), job.len(), which) }
}

pub fn refusal(job: &[u8]) -> u64 {
    reading(job, 0) as u64
}

pub fn refusal_line(job: &[u8]) -> u64 {
    reading(job, 1) as u64
}

pub fn rounds(job: &[u8]) -> i64 {
    reading(job, 2)
}

// ---- figures of the deck

fn figure(job: &[u8], which: u64, r: Rect) -> i64 {
    unsafe { trial_figure(job.as_ptr(), job.len(), which, r.xlo, r.ylo, r.xhi, r.yhi) }
}

/// A rectangle for a figure that is not one of a rectangle: the numbers that do not matter are out of every range.
fn only(xlo: i64, ylo: i64) -> Rect {
    Rect { xlo, ylo, xhi: i64::MIN, yhi: i64::MIN }
}

/// The job's before; -1 where the job is refused. So of the figures below that say nothing else, and also where what is asked for is out of range.
pub fn before(job: &[u8]) -> i64 {
    figure(job, 0, only(i64::MIN, i64::MIN))
}

/// The near of stop i, counted from 0; -1 where there is none.
pub fn near(job: &[u8], i: usize) -> i64 {
    figure(job, 1, only(i as i64, i64::MIN))
}

/// The cost of a place.
pub fn cost(job: &[u8], p: Place) -> i64 {
    figure(job, 2, only(p.0, p.1))
}

/// The load of a rectangle.
pub fn load(job: &[u8], r: Rect) -> i64 {
    figure(job, 3, r)
}

/// The bound of a rectangle as a cell.
pub fn bound(job: &[u8], r: Rect) -> i64 {
    figure(job, 4, r)
}

/// The corner bound of a rectangle, or i64::MIN where there is none.
pub fn corner_bound(job: &[u8], r: Rect) -> i64 {
    figure(job, 7, r)
}

/// 1 for a cut at an x, 2 for one at a y, 0 for none, -1 for no answer; and the line, or i64::MIN where there is none.
pub fn cut(job: &[u8], r: Rect) -> (i64, i64) {
    (figure(job, 5, r), figure(job, 6, r))
}

/// The lines of an axis at the front of `out`, and how many they are.
pub fn lines(job: &[u8], across: bool, out: &mut [i64]) -> i64 {
    unsafe { trial_lines(job.as_ptr(), job.len(), across, out.as_mut_ptr(), out.len()) }
}

// ---- the calls

fn reported(job: &[u8], cells: &mut [i64], out: &mut [u8], which: u64) -> i64 {
    unsafe { trial_report(job.as_ptr(), job.len(), cells.as_mut_ptr(), cells.len(), out.as_mut_ptr(), out.len(), which) }
}

/// 0 for a report, and minus the number of a refusal.
pub fn report(job: &[u8], cells: &mut [i64], out: &mut [u8]) -> i64 {
    -reported(job, cells, out, 7)
}

pub fn report_line(job: &[u8], cells: &mut [i64], out: &mut [u8]) -> u64 {
    reported(job, cells, out, 8) as u64
}

/// A number that the report carries, from 0: state (1 for stopped), x, y, high, low, before, rounds. The least number where there is none.
/// The exported function has two numbers more, those of `report` and `report_line`.
pub fn report_figure(job: &[u8], cells: &mut [i64], out: &mut [u8], which: u64) -> i64 {
    reported(job, cells, out, if which < 7 { which } else { which.saturating_add(2) })
}

fn exhaustive_figure(job: &[u8], which: u64) -> i64 {
    unsafe { trial_exhaustive(job.as_ptr(), job.len(), which) }
}

/// A number of the exhaustive call's answer, from 0: x, y, cost, the number of the refusal (0 for none). The least number where there is none.
/// The exported function has one number more, that of `exhaustive_line`.
pub fn exhaustive(job: &[u8], which: u64) -> i64 {
    exhaustive_figure(job, if which < 4 { which } else { which.saturating_add(1) })
}

/// The line of its refusal, and 0 for none.
pub fn exhaustive_line(job: &[u8]) -> u64 {
    exhaustive_figure(job, 4) as u64
}

/// A number of the estimate call's answer, from 0: across, deep, cut limit and cells of an `Estimate`, the number of the refusal, its line
/// (0 and 0 for none). The least number where there is none.
pub fn estimate(job: &[u8], which: u64) -> i64 {
    unsafe { trial_estimate(job.as_ptr(), job.len(), which) }
}

// ---- records

/// A number of the read call's answer, from 0: the rounds, the number of the refusal, its line (0 and 0 for none). The least number where
/// there is none. The record gets all numbers of the one that was read, but for its rounds, or stays as it is.
pub fn read(job: &[u8], record: &mut Record, which: u64) -> i64 {
    let mut deck = Deck::of(record);
    let figure = unsafe { trial_read(job.as_ptr(), job.len(), &mut deck, which) };
    *record = deck.record(record.rounds);
    figure
}

/// A number of the write call's answer, from 0: the bytes written, the number of the refusal, its line (0 and 0 for none). The least number
/// where there is none.
pub fn write(record: &Record, out: &mut [u8], which: u64) -> i64 {
    unsafe { trial_write(&Deck::of(record), record.rounds, out.as_mut_ptr(), out.len(), which) }
}

/// A number of a changing call's answer, from 0: the number of the refusal, its line (0 and 0 for none). The least number where there is
/// none. `kind` is the number of a `Kind`; with any other, too, the least number, and nothing changes. The record is as the call leaves it.
pub fn change(record: &mut Record, kind: u64, at: Place, visits: u64, which: u64) -> i64 {
    let (mut deck, at) = (Deck::of(record), layout::Place { x: at.0, y: at.1 });
    let figure = unsafe { trial_change(&mut deck, kind, Stop { at, visits }, which) };
    *record = deck.record(record.rounds);
    figure
}
