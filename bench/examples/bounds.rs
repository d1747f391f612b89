//! How close the bound is: for each deck of the benchmarks and of examples/ the rounds until a search is done that goes by the corner bound
//! (RULES "Corner bound"), and one that goes by the bound (RULES "Bound"). Where it is not done after 1,000 rounds, what is left is high - low,
//! also as a share of high. The searches are those of the reference. `cargo run --release --offline --example bounds` prints the table of
//! docs/PERFORMANCE.md.

#![allow(dead_code)]

#[path = "../src/read.rs"]
mod read;
#[path = "../../tests/src/reference.rs"]
mod reference;

use read::{cornered, Axis, Sizes, LARGEST, ONE_EDGE, TYPICAL};
use reference::{search, search_by, Found, Job};

const SLOWER: Axis = Axis { a: 2, b: 1 };

fn measured() -> Vec<(String, Vec<u8>)> {
    let one = |name: &str, deck: Sizes| (name.to_string(), deck.job());
    let mut decks = vec![
        one("largest", LARGEST),
        one("posts at one edge", ONE_EDGE),
        one("typical", TYPICAL),
        one("largest, axis 2,1", Sizes { axis: SLOWER, ..LARGEST }),
        one("typical, axis 2,1", Sizes { axis: SLOWER, ..TYPICAL }),
        ("a post in a corner".into(), cornered(Sizes { posts: 1, ..LARGEST }.job())),
    ];
    decks.extend([64, 128, 256].map(|stops| one(&format!("largest, {stops} stops"), Sizes { stops, ..LARGEST })));
    decks.extend([(1, "largest, 1 post"), (8, "largest, 8 posts")].map(|(posts, name)| one(name, Sizes { posts, ..LARGEST })));
    decks
}

/// The files of examples/, by name.
fn examples() -> Vec<(String, Vec<u8>)> {
    let folder = std::path::Path::new(env!("CARGO_MANIFEST_DIR")).join("../examples");
    let files = std::fs::read_dir(folder).unwrap().map(|file| file.unwrap().path());
    let mut paths: Vec<_> = files.filter(|path| path.extension().is_some_and(|extension| extension == "job")).collect();
    paths.sort_by_key(|path| path.file_stem().unwrap().to_owned());
    paths.iter().map(|path| (format!("`{}`", path.file_stem().unwrap().to_str().unwrap()), std::fs::read(path).unwrap())).collect()
}

/// A number with commas between thousands.
fn thousands(n: i64) -> String {
    let digits = n.to_string();
    let first = 1 + (digits.len() - 1) % 3;
    let rest = digits[first..].as_bytes().chunks(3).map(|three| format!(",{}", std::str::from_utf8(three).unwrap()));
    digits[..first].to_string() + &rest.collect::<String>()
}

fn outcome(f: &Found) -> String {
    if f.done {
        return format!("done after {}", f.rounds);
    }
    let left = f.high - f.low;
    format!("{} left, {:.2} %", thousands(left), 100.0 * left as f64 / f.high as f64)
}

fn main() {
    println!("| deck | by the corner bound | by the bound |\n|---|---|---|");
    let mut seen = Vec::new();
    for (name, bytes) in measured().into_iter().chain(examples()) {
        let Ok(job) = reference::read(&bytes).map(|job| Job { rounds: 1_000, ..job }) else {
            continue;
        };
        if seen.contains(&job) {
            continue;
        }
        let by_corners = search_by(&job, |deck, r| deck.corner_bound(r));
        println!("| {name} | {} | {} |", outcome(&by_corners), outcome(&search(&job)));
        seen.push(job);
    }
}
