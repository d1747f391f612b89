//! The reference's record as one that is lent to the proved code, and back, field by field. The fuzzer includes this file.

use crate::layout::{AxisCosts, Deck, Place, Rect, Stop};
use crate::reference::Record;

impl Deck {
    pub fn of(record: &Record) -> Deck {
        let ([xlo, ylo, xhi, yhi], [a, b]) = (record.area, record.axis);
        let stop = |i| Stop { at: Place { x: record.stop_x[i], y: record.stop_y[i] }, visits: record.visits[i] };
        Deck {
            area: Rect { xlo, ylo, xhi, yhi },
            axis: AxisCosts { a, b },
            post_count: record.posts as usize,
            posts: std::array::from_fn(|i| Place { x: record.post_x[i], y: record.post_y[i] }),
            stop_count: record.stops as usize,
            stops: std::array::from_fn(stop),
            near: record.near,
            before: record.before,
        }
    }

    /// With these rounds.
    pub fn record(&self, rounds: u64) -> Record {
        let Rect { xlo, ylo, xhi, yhi } = self.area;
        Record {
            area: [xlo, ylo, xhi, yhi],
            axis: [self.axis.a, self.axis.b],
            posts: self.post_count as u64,
            post_x: self.posts.map(|p| p.x),
            post_y: self.posts.map(|p| p.y),
            stops: self.stop_count as u64,
            stop_x: self.stops.map(|s| s.at.x),
            stop_y: self.stops.map(|s| s.at.y),
            visits: self.stops.map(|s| s.visits),
            near: self.near,
            before: self.before,
            rounds,
        }
    }
}

#[cfg(test)]
mod tests {
    use super::*;
    use crate::generate::{seed, Random};
    use crate::records::any_numbers;
    use std::mem::{align_of, offset_of, size_of};

    /// Every field is a number of 8 bytes or made of such, so nothing stands between them.
    #[test]
    fn the_layout_is_that_of_c() {
        assert_eq!([size_of::<Place>(), size_of::<Stop>(), size_of::<Rect>(), size_of::<AxisCosts>()], [16, 24, 32, 16]);
        assert_eq!((size_of::<Deck>(), align_of::<Deck>()), (8 * (4 + 2 + 1 + 2 * 64 + 1 + 3 * 512 + 512 + 1), 8));
        assert_eq!([offset_of!(Place, x), offset_of!(Place, y), offset_of!(Stop, at), offset_of!(Stop, visits)], [0, 8, 0, 16]);
        assert_eq!([offset_of!(Rect, xlo), offset_of!(Rect, ylo), offset_of!(Rect, xhi), offset_of!(Rect, yhi)], [0, 8, 16, 24]);
        assert_eq!([offset_of!(AxisCosts, a), offset_of!(AxisCosts, b)], [0, 8]);
        let head = [offset_of!(Deck, area), offset_of!(Deck, axis), offset_of!(Deck, post_count), offset_of!(Deck, posts)];
        assert_eq!(head, [0, 32, 48, 56]);
        let rest = [offset_of!(Deck, stop_count), offset_of!(Deck, stops), offset_of!(Deck, near), offset_of!(Deck, before)];
        assert_eq!(rest, [1_080, 1_088, 13_376, 17_472]);
    }

    #[test]
    fn a_record_is_lent_and_comes_back() {
        let mut random = Random::new(seed());
        for _ in 0..100 {
            let record = any_numbers(&mut random);
            assert!(Deck::of(&record).record(record.rounds) == record);
        }
    }
}
