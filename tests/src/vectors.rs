//! The decks of RULES "Worked cases". Jobs with an axis line and without one, each with its report or its refusal (RULES "Change 2"). Changes
//! of decks, each with its refusal or with what it makes of the deck (RULES "Change 6").

use crate::decks::CASE_A;
use crate::reference::{read, Change, Job, Kind, Place, Stop};

pub fn case_a(rounds: i64) -> String {
    format!("area=2,2,8,8\nposts=1\npost=0,0\nstops=2\nstop=4,3,2\nstop=8,12,1\nrounds={rounds}\n")
}

/// Stops at both ends of the area: every place between costs the same.
pub fn case_b(rounds: i64) -> String {
    format!("area=0,0,10,0\nposts=1\npost=0,50\nstops=2\nstop=0,0,1\nstop=10,0,1\nrounds={rounds}\n")
}

pub fn case_c(rounds: i64) -> String {
    case_a(rounds).replace("2,2,8,8", "5,5,5,5")
}

pub fn case_d(rounds: i64) -> String {
    format!("area=0,0,9,0\nposts=1\npost=5,1\nstops=1\nstop=5,0,1\nrounds={rounds}\n")
}

/// Jobs that reading refuses, for each of 1 to 6, with the number and the line.
pub fn refused_in_reading() -> Vec<(Vec<u8>, i64, i64)> {
    let a = case_a(10);
    vec![
        (vec![b'a'; 16_385], 1, 0),
        (vec![b'a'; 16_384], 2, 1),
        (vec![], 2, 1),
        (a.as_bytes()[..a.len() - 1].to_vec(), 2, 7),
        ((a.clone() + "\n").into_bytes(), 2, 8),
        (case_a(1_001).into_bytes(), 3, 7),
        (a.replace("posts=1\n", "posts=65\n").into_bytes(), 3, 2),
        (a.replace("2,2,8,8", "8,2,2,8").into_bytes(), 4, 0),
        (a.replace("2,2,8,8", "2,8,8,2").into_bytes(), 4, 0),
        (a.replace("posts=1\npost=0,0\n", "posts=0\n").into_bytes(), 5, 0),
        (a.replace("stops=2\nstop=4,3,2\nstop=8,12,1\n", "stops=0\n").into_bytes(), 6, 0),
    ]
}

/// A narrow deck whose best place is another one under 1,1, under 2,1 and under 1,2.
pub fn narrow(axis_line: &str, rounds: i64) -> String {
    format!("area=1,1,3,9\n{axis_line}posts=1\npost=4,6\nstops=2\nstop=6,1,1\nstop=2,4,1\nrounds={rounds}\n")
}

/// A deck that is deeper than wide by plain tenths, and not so by axis costs.
pub fn deep(rounds: i64) -> String {
    format!("area=0,0,3,5\naxis=2,1\nposts=1\npost=0,4\nstops=2\nstop=1,2,1\nstop=3,0,3\nrounds={rounds}\n")
}

/// A deck that is done after 2 rounds, and would be after 3 by the corner bound.
pub fn closer(rounds: i64) -> String {
    format!("area=0,0,4,2\nposts=1\npost=1,1\nstops=2\nstop=2,1,1\nstop=9,5,1\nrounds={rounds}\n")
}

/// A deck with cells of equal bound, of which one has the smaller x and another the smaller y.
pub fn equal_bounds(rounds: i64) -> String {
    format!("area=0,0,3,4\nposts=1\npost=3,2\nstops=2\nstop=1,1,2\nstop=2,1,3\nrounds={rounds}\n")
}

/// Case A with more text behind its line `line`.
pub fn behind(line: usize, text: &str) -> String {
    let mut lines: Vec<&str> = CASE_A.split_inclusive('\n').collect();
    lines.insert(line, text);
    lines.concat()
}

/// Jobs with their reports.
pub fn reports() -> Vec<(String, &'static str)> {
    let case_a = "state=done\nat=4,3\nhigh=13\nlow=13\nbefore=34\nrounds=3\n";
    let plain = "state=done\nat=2,1\nhigh=7\nlow=7\nbefore=11\nrounds=3\n";
    let wide = "state=done\nat=2,4\nhigh=9\nlow=9\nbefore=15\nrounds=3\n";
    vec![
        (CASE_A.into(), case_a),
        (behind(1, "axis=1,1\n"), case_a),
        (narrow("", 10), plain),
        (narrow("axis=1,1\n", 10), plain),
        (narrow("axis=2,1\n", 0), "state=stopped\nat=3,1\nhigh=11\nlow=6\nbefore=15\nrounds=0\n"),
        (narrow("axis=2,1\n", 1), "state=stopped\nat=1,4\nhigh=11\nlow=6\nbefore=15\nrounds=1\n"),
        (narrow("axis=2,1\n", 3), wide),
        (narrow("axis=2,1\n", 1_000), wide),
        (narrow("axis=1,2\n", 10), "state=done\nat=3,1\nhigh=9\nlow=9\nbefore=18\nrounds=3\n"),
        // all travel nine times as long
        (behind(1, "axis=9,9\n"), "state=done\nat=4,3\nhigh=117\nlow=117\nbefore=306\nrounds=3\n"),
        (deep(1), "state=stopped\nat=3,0\nhigh=4\nlow=0\nbefore=34\nrounds=1\n"),
        (closer(0), "state=stopped\nat=4,2\nhigh=9\nlow=8\nbefore=13\nrounds=0\n"),
        (closer(1), "state=stopped\nat=4,2\nhigh=9\nlow=8\nbefore=13\nrounds=1\n"),
        (closer(2), "state=done\nat=4,2\nhigh=9\nlow=9\nbefore=13\nrounds=2\n"),
        (closer(3), "state=done\nat=4,2\nhigh=9\nlow=9\nbefore=13\nrounds=2\n"),
        (equal_bounds(2), "state=stopped\nat=1,1\nhigh=3\nlow=0\nbefore=12\nrounds=2\n"),
    ]
}

/// What does not do behind the area line of any job, each with the number and the line of the refusal.
#[rustfmt::skip]
pub const WRONG_AXIS_LINES: [(&str, i64, i64); 53] = [
    // two numbers in their form behind the key
    ("axis=\n", 2, 2), ("axis=1\n", 2, 2), ("axis=1,\n", 2, 2), ("axis=,1\n", 2, 2), ("axis=,\n", 2, 2), ("axis=1,1,1\n", 2, 2),
    ("axis=1,1,\n", 2, 2), ("axis=01,1\n", 2, 2), ("axis=1,01\n", 2, 2), ("axis=00,1\n", 2, 2), ("axis=-0,1\n", 2, 2),
    ("axis=1,-0\n", 2, 2), ("axis=+1,1\n", 2, 2), ("axis=1,+1\n", 2, 2), ("axis=1000000000,1\n", 2, 2), ("axis=1,1000000000\n", 2, 2),
    ("axis=18446744073709551617,1\n", 2, 2), ("axis=1,1\r\n", 2, 2), ("axis=1, 1\n", 2, 2), ("axis=1,1 \n", 2, 2),
    (" axis=1,1\n", 2, 2), ("axis =1,1\n", 2, 2), ("Axis=1,1\n", 2, 2), ("axis 1,1\n", 2, 2), ("axis\n", 2, 2), ("axes=1,1\n", 2, 2),
    ("axis=x,1\n", 2, 2), ("axis=1.0,1\n", 2, 2), ("\n", 2, 2), ("axis=1,1\0\n", 2, 2),
    // each 1 to 9
    ("axis=0,1\n", 3, 2), ("axis=1,0\n", 3, 2), ("axis=0,0\n", 3, 2), ("axis=10,1\n", 3, 2), ("axis=1,10\n", 3, 2), ("axis=10,10\n", 3, 2),
    ("axis=-1,1\n", 3, 2), ("axis=1,-1\n", 3, 2), ("axis=-9,9\n", 3, 2), ("axis=999999999,1\n", 3, 2), ("axis=1,-999999999\n", 3, 2),
    // 2 before 3 over the whole line
    ("axis=0,x\n", 2, 2), ("axis=10,01\n", 2, 2), ("axis=0,1000000000\n", 2, 2), ("axis=0\n", 2, 2), ("axis=0,1,1\n", 2, 2),
    ("axis=10,1\r\n", 2, 2),
    // one such line
    ("axis=1,1\naxis=1,1\n", 2, 3), ("axis=2,1\naxis=2,1\n", 2, 3), ("axis=2,1\naxis=0,1\n", 2, 3), ("axis=0,1\naxis=2,1\n", 3, 2),
    ("axis=2,1\n\n", 2, 3), ("axis=2,1\narea=2,2,8,8\n", 2, 3),
];

/// One line of case A replaced, with the refusal that it gets; an axis line in front of it moves its number by one.
const REPLACED: [(&str, &str, i64, i64); 14] = [
    ("posts=1\n", "posts=65\n", 3, 2),
    ("posts=1\n", "posts=\n", 2, 2),
    ("posts=1\n", "posts=2\n", 2, 4),
    ("post=0,0\n", "post=0,20001\n", 3, 3),
    ("post=0,0\n", "post=0\n", 2, 3),
    ("stops=2\n", "stops=513\n", 3, 4),
    ("stops=2\n", "stops=02\n", 2, 4),
    ("stop=4,3,2\n", "stop=4,3,0\n", 3, 5),
    ("stop=8,12,1\n", "stop=8,12\n", 2, 6),
    ("stop=8,12,1\n", "", 2, 6),
    ("rounds=10\n", "rounds=1001\n", 3, 7),
    ("rounds=10\n", "rounds=10", 2, 7),
    ("rounds=10\n", "", 2, 7),
    ("rounds=10\n", "rounds=10\n\n", 2, 8),
];

/// Jobs with the number and the line of their refusals.
pub fn refusals() -> Vec<(String, i64, i64)> {
    let mut jobs: Vec<(String, i64, i64)> = WRONG_AXIS_LINES.map(|(text, number, line)| (behind(1, text), number, line)).into();
    for (old, new, number, line) in REPLACED {
        jobs.push((CASE_A.replace(old, new), number, line));
        jobs.push((behind(1, "axis=2,1\n").replace(old, new), number, line + 1));
    }
    // in another place it is too much, whatever it says
    for place in [0, 2, 3, 4, 5, 6, 7] {
        for text in ["axis=1,1\n", "axis=2,1\n", "axis=0,1\n"] {
            jobs.push((behind(place, text), 2, place as i64 + 1));
        }
    }
    // the file ends early
    for text in ["", "a", "axis", "axis=", "axis=2", "axis=2,", "axis=2,1", "axis=0,1"] {
        jobs.push((format!("area=2,2,8,8\n{text}"), 2, 2));
    }
    jobs.push(("area=2,2,8,8\naxis=2,1\n".into(), 2, 3));
    jobs.push(("area=2,2,8,8\naxis=2,1\nposts=1".into(), 2, 3));
    // the order: an earlier line first, and 4, 5 and 6 behind all lines
    let with = |area: &str, axis: &str, behind: &str| format!("{area}\n{axis}\n{behind}rounds=10\n");
    let lists = "posts=1\npost=0,0\nstops=1\nstop=4,3,2\n";
    jobs.push((with("area=2,2,8,20001", "axis=0,1", lists), 3, 1));
    jobs.push((with("area=2,2,8,20001", "axis=", lists), 3, 1));
    jobs.push((with("area=2,2,8", "axis=0,1", lists), 2, 1));
    jobs.push((with("area=2,2,8,8", "axis=10,1", "posts=x\n"), 3, 2));
    jobs.push((with("area=8,2,2,8", "axis=10,1", lists), 3, 2));
    jobs.push((with("area=8,2,2,8", "axis=9,1", lists), 4, 0));
    jobs.push((with("area=2,8,8,2", "axis=1,1", lists), 4, 0));
    jobs.push((with("area=2,2,8,8", "axis=9,1", "posts=0\nstops=0\n"), 5, 0));
    jobs.push((with("area=2,2,8,8", "axis=9,1", "posts=1\npost=0,0\nstops=0\n"), 6, 0));
    jobs
}

/// The numbers of a text, which stand between commas.
fn numbers(text: &str) -> Vec<i64> {
    text.split(',').map(|n| n.parse().unwrap()).collect()
}

/// A change by its line.
pub fn change(line: &str) -> Change {
    let (key, values) = line.split_once('=').unwrap();
    let kind = Kind::ALL[["+post", "-post", "+stop", "-stop"].iter().position(|k| *k == key).unwrap()];
    let values: Vec<&str> = values.split(',').collect();
    assert_eq!(values.len(), if kind.of_a_post() { 2 } else { 3 }, "{line}");
    Change { kind, at: (values[0].parse().unwrap(), values[1].parse().unwrap()), visits: values.get(2).map_or(0, |n| n.parse().unwrap()) }
}

/// A change, the number of its refusal (0 for none), and the deck behind it: posts, stops, near of each stop, before.
type Row = (&'static str, i64, &'static str, &'static str, &'static [u64], u64);

/// A row of `changes`.
pub struct Changed {
    pub change: Change,
    pub refused: i64,
    pub job: Job,
    pub near: &'static [u64],
    pub before: u64,
}

const CHANGES_OF_CASE_A: [Row; 25] = [
    ("+post=4,3", 0, "0,0 4,3", "4,3,2 8,12,1", &[0, 13], 13),
    ("+post=8,12", 0, "0,0 4,3 8,12", "4,3,2 8,12,1", &[0, 0], 0),
    // the first stop goes back to 0,0, and the second stays at its own post
    ("-post=4,3", 0, "0,0 8,12", "4,3,2 8,12,1", &[7, 0], 14),
    ("-post=0,0", 0, "8,12", "4,3,2 8,12,1", &[13, 0], 26),
    // the only one; 9 comes before 5, and 3 before both
    ("-post=8,12", 5, "8,12", "4,3,2 8,12,1", &[13, 0], 26),
    ("-post=0,0", 9, "8,12", "4,3,2 8,12,1", &[13, 0], 26),
    ("-post=12,8", 9, "8,12", "4,3,2 8,12,1", &[13, 0], 26),
    ("-post=20001,12", 3, "8,12", "4,3,2 8,12,1", &[13, 0], 26),
    ("-post=8,-20001", 3, "8,12", "4,3,2 8,12,1", &[13, 0], 26),
    ("+post=0,20001", 3, "8,12", "4,3,2 8,12,1", &[13, 0], 26),
    ("+stop=8,12,1", 0, "8,12", "4,3,2 8,12,1 8,12,1", &[13, 0, 0], 26),
    ("+stop=4,3,5", 0, "8,12", "4,3,2 8,12,1 8,12,1 4,3,5", &[13, 0, 0, 13], 91),
    ("+stop=8,12,0", 3, "8,12", "4,3,2 8,12,1 8,12,1 4,3,5", &[13, 0, 0, 13], 91),
    ("+stop=8,12,65536", 3, "8,12", "4,3,2 8,12,1 8,12,1 4,3,5", &[13, 0, 0, 13], 91),
    ("-stop=8,12,1", 0, "8,12", "4,3,2 8,12,1 4,3,5", &[13, 0, 13], 91),
    // the place alone is not enough
    ("-stop=4,3,1", 9, "8,12", "4,3,2 8,12,1 4,3,5", &[13, 0, 13], 91),
    ("-stop=4,3,2", 0, "8,12", "8,12,1 4,3,5", &[0, 13], 65),
    ("-stop=4,3,5", 0, "8,12", "8,12,1", &[0], 0),
    ("-stop=8,12,1", 6, "8,12", "8,12,1", &[0], 0),
    ("-stop=8,12,2", 9, "8,12", "8,12,1", &[0], 0),
    ("-stop=8,12,65536", 3, "8,12", "8,12,1", &[0], 0),
    ("-stop=8,12,0", 3, "8,12", "8,12,1", &[0], 0),
    ("+post=0,0", 0, "8,12 0,0", "8,12,1", &[0], 0),
    ("-post=8,12", 0, "0,0", "8,12,1", &[20], 20),
    ("+stop=4,3,2", 0, "0,0", "8,12,1 4,3,2", &[20, 7], 34),
];

const CHANGES_WITH_AXIS_COSTS: [Row; 8] = [
    // the first of two at one place: the other is as close
    ("-post=4,4", 0, "-4,-3 4,4", "1,-1,5 4,4,65535 2,-2,1 -4,-2,9", &[19, 0, 18, 2], 131),
    ("+post=2,-2", 0, "-4,-3 4,4 2,-2", "1,-1,5 4,4,65535 2,-2,1 -4,-2,9", &[5, 0, 0, 2], 43),
    ("-post=4,4", 0, "-4,-3 2,-2", "1,-1,5 4,4,65535 2,-2,1 -4,-2,9", &[5, 18, 0, 2], 1_179_673),
    ("-post=4,4", 9, "-4,-3 2,-2", "1,-1,5 4,4,65535 2,-2,1 -4,-2,9", &[5, 18, 0, 2], 1_179_673),
    ("+post=-4,-3", 0, "-4,-3 2,-2 -4,-3", "1,-1,5 4,4,65535 2,-2,1 -4,-2,9", &[5, 18, 0, 2], 1_179_673),
    ("-post=-4,-3", 0, "2,-2 -4,-3", "1,-1,5 4,4,65535 2,-2,1 -4,-2,9", &[5, 18, 0, 2], 1_179_673),
    ("-stop=4,4,65535", 0, "2,-2 -4,-3", "1,-1,5 2,-2,1 -4,-2,9", &[5, 0, 2], 43),
    ("-post=-4,-3", 0, "2,-2", "1,-1,5 2,-2,1 -4,-2,9", &[5, 0, 18], 187),
];

/// From the longest travel and back to it.
const CHANGES_AT_THE_ENDS: [Row; 6] = [
    ("+post=-20000,20000", 0, "20000,20000 -20000,20000", "-20000,-20000,65535", &[360_000], 23_592_600_000),
    ("+stop=20000,20000,1", 0, "20000,20000 -20000,20000", "-20000,-20000,65535 20000,20000,1", &[360_000, 0], 23_592_600_000),
    ("-post=20000,20000", 0, "-20000,20000", "-20000,-20000,65535 20000,20000,1", &[360_000, 360_000], 23_592_960_000),
    ("+post=20000,20000", 0, "-20000,20000 20000,20000", "-20000,-20000,65535 20000,20000,1", &[360_000, 0], 23_592_600_000),
    ("-post=-20000,20000", 0, "20000,20000", "-20000,-20000,65535 20000,20000,1", &[720_000, 0], 47_185_200_000),
    ("-stop=20000,20000,1", 0, "20000,20000", "-20000,-20000,65535", &[720_000], 47_185_200_000),
];

/// Runs of changes, worked out by hand: the job at first, and each change in turn with what it makes.
pub fn changes() -> Vec<(String, Vec<Changed>)> {
    let stops = "stops=4\nstop=1,-1,5\nstop=4,4,65535\nstop=2,-2,1\nstop=-4,-2,9\n";
    let axis_costs = format!("area=0,0,1,1\naxis=3,2\nposts=3\npost=-4,-3\npost=4,4\npost=4,4\n{stops}rounds=0\n");
    let ends = "area=0,0,0,0\naxis=9,9\nposts=1\npost=20000,20000\nstops=1\nstop=-20000,-20000,65535\nrounds=1000\n";
    let row = |start: &Job, (line, refused, posts, stops, near, before): Row| {
        let items = |text: &str| text.split(' ').map(numbers).collect::<Vec<Vec<i64>>>();
        let posts: Vec<Place> = items(posts).iter().map(|v| (v[0], v[1])).collect();
        let stops = items(stops).iter().map(|v| Stop { at: (v[0], v[1]), visits: v[2] }).collect();
        Changed { change: change(line), refused, job: Job { posts, stops, ..start.clone() }, near, before }
    };
    let runs = [(CASE_A.into(), &CHANGES_OF_CASE_A[..]), (axis_costs, &CHANGES_WITH_AXIS_COSTS), (ends.into(), &CHANGES_AT_THE_ENDS)];
    runs.map(|(text, rows)| {
        let start = read(text.as_bytes()).unwrap();
        (text, rows.iter().map(|&r| row(&start, r)).collect())
    })
    .into()
}
