//! The jobs of examples/, made by plain rules. `cargo run --release --offline --example write_examples` writes them with their reports.

use crate::generate::{crowded, Random};
use crate::reference::{spell, Axis, Job, Place, Rect, Stop};

/// Labware: rows of stops from its front left stop, `pitch` tenths apart, with `visits` of column and row.
fn grid(stops: &mut Vec<Stop>, corner: Place, columns: i64, rows: i64, pitch: i64, visits: fn(i64, i64) -> i64) {
    for row in 0..rows {
        for column in 0..columns {
            let at = (corner.0 + column * pitch, corner.1 + row * pitch);
            stops.push(Stop { at, visits: visits(column, row) });
        }
    }
}

/// A deck 1.5 m wide and 0.7 m deep with two wash posts at its left end. Six racks of 5 × 8 milk vials, 33 mm apart, stand at the back,
/// a plate of 12 × 8 wells, 9 mm apart, and four troughs at the front, the scanner at the left end and the sealer at the right. The
/// free patch is the lane between back and front.
fn milk_lab(axis: Axis, rounds: i64) -> Job {
    let mut stops = Vec::new();
    stops.push(Stop { at: (-6_900, -1_200), visits: 240 });
    for rack in 0..6 {
        grid(&mut stops, (-4_200 + rack * 1_850, 600), 5, 8, 330, |column, row| 2 + (3 * column + row) % 4);
    }
    grid(&mut stops, (-495, -2_900), 12, 8, 90, |column, row| 3 + column % 2 + row % 3);
    for (trough, visits) in [120, 96, 96, 60].into_iter().enumerate() {
        stops.push(Stop { at: (1_500 + 450 * trough as i64, -2_600), visits });
    }
    stops.push(Stop { at: (6_800, -1_500), visits: 96 });
    Job {
        area: Rect { xlo: -2_500, ylo: -1_900, xhi: 5_000, yhi: 200 },
        axis,
        posts: vec![(-7_200, 0), (-7_200, 2_500)],
        stops,
        rounds,
    }
}

/// Four pairs of stops alike around the deck's centre, so that all places between them cost the same, and four stops as far from the area
/// as from their post, so not within its reach.
fn ties() -> Job {
    let mut stops = Vec::new();
    for at in [(200, -100), (-200, 100), (200, 100), (-200, -100)] {
        stops.push(Stop { at, visits: 4 });
        stops.push(Stop { at, visits: 4 });
    }
    for at in [(1_000, 0), (-1_000, 0), (0, 1_000), (0, -1_000)] {
        stops.push(Stop { at, visits: 9 });
    }
    Job {
        area: Rect { xlo: -300, ylo: -300, xhi: 300, yhi: 300 },
        axis: Axis::PLAIN,
        posts: vec![(1_700, 0), (-1_700, 0), (0, 1_700), (0, -1_700), (0, 1_700)],
        stops,
        rounds: 1_000,
    }
}

/// Case A of RULES "Worked cases".
pub const CASE_A: &str = "area=2,2,8,8\nposts=1\npost=0,0\nstops=2\nstop=4,3,2\nstop=8,12,1\nrounds=10\n";

/// The folder examples/.
pub fn folder() -> std::path::PathBuf {
    std::path::Path::new(env!("CARGO_MANIFEST_DIR")).join("../examples")
}

/// Each example's name and bytes.
pub fn examples() -> Vec<(&'static str, Vec<u8>)> {
    let milk = spell(&milk_lab(Axis::PLAIN, 1_000));
    vec![
        ("case-a", CASE_A.into()),
        ("milk-lab", milk.clone()),
        ("milk-lab-stopped", spell(&milk_lab(Axis::PLAIN, 12))),
        // in x so slow that the best place is another one than in milk-lab
        ("heavy-bridge", spell(&milk_lab(Axis { a: 5, b: 1 }, 1_000))),
        ("crowded", spell(&crowded(&mut Random::new(1), 6_000, 3_000, 12))),
        ("ties", spell(&ties())),
        ("refused-line-ends", CASE_A.replace('\n', "\r\n").into()),
        ("refused-cut-off", milk[..milk.len() / 2].into()),
        ("refused-65-posts", CASE_A.replace("posts=1\n", "posts=65\n").into()),
        ("refused-empty-area", CASE_A.replace("area=2,2,8,8", "area=8,2,2,8").into()),
    ]
}
