//! Hand-written Rust for the changes of a deck's record, and the decks that are measured.

use crate::layout::{AxisCosts, Deck, Place, Rect, Stop, POSTS, STOPS};
use crate::read::{Refused, Sizes};
use crate::write::record;

/// A change, by its number from 0: add a post, remove a post, add a stop, remove a stop. A post has the place of `item`.
#[derive(Clone, Copy)]
pub struct Change {
    pub kind: u64,
    pub item: Stop,
}

/// The posts at scaled places: travel is plain between them.
struct ScaledPosts {
    axis: [i32; 2],
    x: [i32; POSTS],
    y: [i32; POSTS],
    count: usize,
}

impl ScaledPosts {
    fn closest_to(&self, at: Place) -> u64 {
        let (x, y) = (self.axis[0] * at.x as i32, self.axis[1] * at.y as i32);
        let posts = self.x[..self.count].iter().zip(&self.y[..self.count]);
        posts.fold(i32::MAX, |near, (&u, &v)| near.min((x - u).abs() + (y - v).abs())) as u64
    }
}

#[inline]
fn in_range(at: Place) -> bool {
    (at.x.wrapping_add(20_000) as u64 <= 40_000) & (at.y.wrapping_add(20_000) as u64 <= 40_000)
}

#[inline]
fn stop_in_range(stop: &Stop) -> bool {
    in_range(stop.at) & (stop.visits.wrapping_sub(1) <= 65_534)
}

/// What the changes do with a record.
trait Changed {
    fn usable(&self) -> bool;
    fn travel(&self, i: usize, to: Place) -> u64;
    fn scaled_posts(&self) -> ScaledPosts;
    fn add_post(&mut self, post: Place) -> Result<(), Refused>;
    fn remove_post(&mut self, post: Place) -> Result<(), Refused>;
    fn add_stop(&mut self, stop: Stop) -> Result<(), Refused>;
    fn remove_stop(&mut self, stop: Stop) -> Result<(), Refused>;
    fn changed(&mut self, change: Change) -> Result<(), Refused>;
}

impl Changed for Deck {
    /// Whether all numbers that count are in range, and no near is longer than the longest travel.
    fn usable(&self) -> bool {
        let (posts, stops) = (self.post_count, self.stop_count);
        let Rect { xlo, ylo, xhi, yhi } = self.area;
        if posts == 0 || posts > POSTS || stops == 0 || stops > STOPS || xlo > xhi || ylo > yhi {
            return false;
        }
        let AxisCosts { a, b } = self.axis;
        [Place { x: xlo, y: ylo }, Place { x: xhi, y: yhi }].into_iter().all(in_range)
            && [a, b].iter().all(|cost| (1..=9).contains(cost))
            && self.posts[..posts].iter().fold(true, |all, p| all & in_range(*p))
            && self.stops[..stops].iter().fold(true, |all, s| all & stop_in_range(s))
            && self.near[..stops].iter().fold(true, |all, near| all & (*near <= 720_000))
    }

    #[inline]
    fn travel(&self, i: usize, to: Place) -> u64 {
        let at = self.stops[i].at;
        let (dx, dy) = ((at.x - to.x).unsigned_abs() as u32, (at.y - to.y).unsigned_abs() as u32);
        (self.axis.a as u32 * dx + self.axis.b as u32 * dy) as u64
    }

    fn scaled_posts(&self) -> ScaledPosts {
        let (a, b) = (self.axis.a as i32, self.axis.b as i32);
        let mut posts = ScaledPosts { axis: [a, b], x: [0; POSTS], y: [0; POSTS], count: self.post_count };
        for (i, post) in self.posts[..self.post_count].iter().enumerate() {
            (posts.x[i], posts.y[i]) = (a * post.x as i32, b * post.y as i32);
        }
        posts
    }

    fn add_post(&mut self, post: Place) -> Result<(), Refused> {
        let n = self.post_count;
        if n == POSTS {
            return Err((10, 0));
        }
        self.posts[n] = post;
        self.post_count += 1;
        for i in 0..self.stop_count {
            self.near[i] = self.near[i].min(self.travel(i, post));
        }
        Ok(())
    }

    fn remove_post(&mut self, post: Place) -> Result<(), Refused> {
        let n = self.post_count;
        let at = self.posts[..n].iter().position(|held| *held == post).ok_or((9, 0))?;
        if n == 1 {
            return Err((5, 0));
        }
        remove(&mut self.posts[..n], at);
        self.post_count -= 1;
        let left = self.scaled_posts();
        for i in 0..self.stop_count {
            if self.near[i] == self.travel(i, post) {
                self.near[i] = left.closest_to(self.stops[i].at);
            }
        }
        Ok(())
    }

    fn add_stop(&mut self, stop: Stop) -> Result<(), Refused> {
        let n = self.stop_count;
        if n == STOPS {
            return Err((10, 0));
        }
        self.stops[n] = stop;
        self.near[n] = self.scaled_posts().closest_to(stop.at);
        self.stop_count += 1;
        Ok(())
    }

    fn remove_stop(&mut self, stop: Stop) -> Result<(), Refused> {
        let n = self.stop_count;
        let at = self.stops[..n].iter().position(|held| *held == stop).ok_or((9, 0))?;
        if n == 1 {
            return Err((6, 0));
        }
        remove(&mut self.stops[..n], at);
        remove(&mut self.near[..n], at);
        self.stop_count -= 1;
        Ok(())
    }

    fn changed(&mut self, Change { kind, item }: Change) -> Result<(), Refused> {
        if !(if kind < 2 { in_range(item.at) } else { stop_in_range(&item) }) || !self.usable() {
            return Err((3, 0));
        }
        match kind {
            0 => self.add_post(item.at),
            1 => self.remove_post(item.at),
            2 => self.add_stop(item),
            _ => self.remove_stop(item),
        }?;
        let paid = |(stop, near): (&Stop, &u64)| stop.visits as u32 as u64 * *near as u32 as u64;
        self.before = self.stops[..self.stop_count].iter().zip(&self.near).map(paid).sum();
        Ok(())
    }
}

fn remove<T: Copy + Default>(items: &mut [T], at: usize) {
    items.copy_within(at + 1.., at);
    items[items.len() - 1] = T::default();
}

/// The number of the refusal, 0 for none.
pub fn change(deck: &mut Deck, change: Change) -> i64 {
    deck.changed(change).map_or_else(|(number, _)| number, |()| 0)
}

// ---- the decks that are measured

/// A change that is measured: its name, the job of the deck and the edited one.
pub struct Measured {
    pub name: &'static str,
    pub change: Change,
    pub job: Vec<u8>,
    pub edited: Vec<u8>,
}

/// The lines of posts and of stops of a job, and what stands around them.
struct Lines {
    head: String,
    posts: Vec<String>,
    stops: Vec<String>,
    rounds: String,
}

impl Lines {
    fn of(job: &[u8]) -> Lines {
        let text = String::from_utf8(job.to_vec()).unwrap();
        let all = |key: &str| text.lines().filter(|l| l.starts_with(key)).map(|l| l.to_string()).collect::<Vec<String>>();
        let head = text.lines().filter(|l| l.starts_with("area=") || l.starts_with("axis=")).map(|l| format!("{l}\n")).collect();
        Lines { head, posts: all("post="), stops: all("stop="), rounds: all("rounds=").concat() }
    }

    fn job(&self) -> Vec<u8> {
        let lines = |lines: &[String]| lines.iter().map(|l| format!("{l}\n")).collect::<String>();
        let (posts, stops) = (self.posts.len(), self.stops.len());
        let (post_lines, stop_lines) = (lines(&self.posts), lines(&self.stops));
        format!("{}posts={posts}\n{post_lines}stops={stops}\n{stop_lines}{}\n", self.head, self.rounds).into_bytes()
    }

    /// One post in the middle of the deck, before all others, which stand at its left and right ends; the stops around the first one. Each
    /// is closest to it.
    fn gathered(mut self) -> Lines {
        for (i, line) in self.posts.iter_mut().enumerate() {
            let [_, y, _] = numbers(line);
            *line = if i == 0 { "post=0,0".into() } else { format!("post={},{y}", if i % 2 == 0 { -20_000 } else { 20_000 }) };
        }
        for line in &mut self.stops {
            let [x, y, visits] = numbers(line);
            *line = format!("stop={},{},{visits}", x / 4, y / 4);
        }
        self
    }
}

/// The numbers of a line, and 0 for visits that it does not have.
fn numbers(line: &str) -> [i64; 3] {
    let mut numbers = line.split(['=', ',']).skip(1).map(|n| n.parse().unwrap());
    [(); 3].map(|()| numbers.next().unwrap_or(0))
}

fn change_of(kind: u64, line: &str) -> Change {
    let [x, y, visits] = numbers(line);
    Change { kind, item: Stop { at: Place { x, y }, visits: visits as u64 } }
}

/// The changes of a deck: its last post or stop is added to the others, its first one removed from all.
pub fn measured(deck: Sizes) -> Vec<Measured> {
    let job = deck.job();
    let lines = || Lines::of(&job);
    let added = |name, kind| {
        let mut before = lines();
        let item = if kind == 0 { before.posts.pop() } else { before.stops.pop() };
        Measured { name, change: change_of(kind, &item.unwrap()), job: before.job(), edited: job.clone() }
    };
    let removed = |name, kind, mut after: Lines| {
        let job = after.job();
        let item = if kind == 1 { after.posts.remove(0) } else { after.stops.remove(0) };
        Measured { name, change: change_of(kind, &item), job, edited: after.job() }
    };
    let gathered = removed("remove the post closest to all stops", 1, lines().gathered());
    let (before, after) = (record(&gathered.job).0.near, record(&gathered.edited).0.near);
    assert!(before.iter().zip(after).take(deck.stops).all(|(&before, after)| before < after));
    vec![added("add a post", 0), removed("remove a post", 1, lines()), gathered, added("add a stop", 2), removed("remove the first stop", 3, lines())]
}
