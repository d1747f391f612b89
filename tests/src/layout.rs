//! A deck's record as it is lent to the proved code: the structs of crates/deck/src/lib.rt with their fields in their order, as C lays them
//! out. Nothing checks these declarations against that file but the tests: `lent.rs` compares sizes and places, and every number of a record
//! goes both ways. The fuzzer and the benchmarks include this file.

pub const POSTS: usize = 64;
pub const STOPS: usize = 512;

#[repr(C)]
#[derive(Clone, Copy, Debug, Default, PartialEq, Eq)]
pub struct Place {
    pub x: i64,
    pub y: i64,
}

#[repr(C)]
#[derive(Clone, Copy, Debug, Default, PartialEq, Eq)]
pub struct Stop {
    pub at: Place,
    pub visits: u64,
}

#[repr(C)]
#[derive(Clone, Copy, Debug, Default, PartialEq, Eq)]
pub struct Rect {
    pub xlo: i64,
    pub ylo: i64,
    pub xhi: i64,
    pub yhi: i64,
}

#[repr(C)]
#[derive(Clone, Copy, Debug, Default, PartialEq, Eq)]
pub struct AxisCosts {
    pub a: u64,
    pub b: u64,
}

/// The first `post_count` posts and the first `stop_count` stops count.
#[repr(C)]
#[derive(Clone, Copy, Debug, PartialEq, Eq)]
pub struct Deck {
    pub area: Rect,
    pub axis: AxisCosts,
    pub post_count: usize,
    pub posts: [Place; POSTS],
    pub stop_count: usize,
    pub stops: [Stop; STOPS],
    pub near: [u64; STOPS],
    pub before: u64,
}
