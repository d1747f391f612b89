//! An independent implementation of docs/RULES.md, which shares nothing with the proved code: reading jobs, pricing places, the search by
//! cells, the exhaustive search, the texts of reports and refusals, the estimate, writing and changing records. Beside these stands a
//! brute-force search, which prices every point of an area. It is written to be read beside that page and is slow on purpose: cells are
//! never dropped, and nothing is kept in order.

use std::cmp::Ordering;

pub type Place = (i64, i64);

#[derive(Clone, Copy, Debug, PartialEq, Eq)]
pub struct Rect {
    pub xlo: i64,
    pub ylo: i64,
    pub xhi: i64,
    pub yhi: i64,
}

/// What a tenth costs in x and in y.
#[derive(Clone, Copy, Debug, PartialEq, Eq)]
pub struct Axis {
    pub a: i64,
    pub b: i64,
}

impl Axis {
    /// Those where the axis line is left out.
    pub const PLAIN: Axis = Axis { a: 1, b: 1 };
}

#[derive(Clone, Copy, Debug, PartialEq, Eq)]
pub struct Stop {
    pub at: Place,
    pub visits: i64,
}

#[derive(Clone, Debug, PartialEq, Eq)]
pub struct Job {
    pub area: Rect,
    pub axis: Axis,
    pub posts: Vec<Place>,
    pub stops: Vec<Stop>,
    pub rounds: i64,
}

#[derive(Clone, Copy, Debug, PartialEq, Eq)]
pub struct Refusal {
    pub number: i64,
    pub line: i64,
}

fn refuse(number: i64, line: usize) -> Refusal {
    Refusal {
        number,
        line: line as i64,
    }
}

// ---- reading: RULES "Numbers", "Job", "Refusals"

/// A number in its form: 1 to 9 digits, `-` if negative, no leading zero, no `-0`.
fn number(text: &[u8]) -> Option<i64> {
    let digits = text.strip_prefix(b"-").unwrap_or(text);
    if digits.is_empty() || digits.len() > 9 || !digits.iter().all(u8::is_ascii_digit) {
        return None;
    }
    if digits[0] == b'0' && (digits.len() > 1 || text.len() > digits.len()) {
        return None;
    }
    std::str::from_utf8(text).ok()?.parse().ok()
}

/// The numbers of a line `key` n1,n2,.. of exactly `count` numbers.
fn fields(line: &[u8], key: &str, count: usize) -> Option<Vec<i64>> {
    let values: Option<Vec<i64>> = line
        .strip_prefix(key.as_bytes())?
        .split(|&b| b == b',')
        .map(number)
        .collect();
    values.filter(|v| v.len() == count)
}

struct Lines<'a> {
    rest: &'a [u8],
    line: usize,
}

impl Lines<'_> {
    /// The next line's numbers: refusal 2 for its form, then 3 for its ranges.
    fn next(&mut self, key: &str, ranges: &[(i64, i64)]) -> Result<Vec<i64>, Refusal> {
        self.line += 1;
        let end = self.rest.iter().position(|&b| b == 10).ok_or(refuse(2, self.line))?;
        let values = fields(&self.rest[..end], key, ranges.len()).ok_or(refuse(2, self.line))?;
        self.rest = &self.rest[end + 1..];
        let good = values.iter().zip(ranges).all(|(v, (lo, hi))| lo <= v && v <= hi);
        if good { Ok(values) } else { Err(refuse(3, self.line)) }
    }
}

const XY: (i64, i64) = (-20_000, 20_000);

pub fn read(bytes: &[u8]) -> Result<Job, Refusal> {
    if bytes.len() > 16_384 {
        return Err(refuse(1, 0));
    }
    read_text(bytes)
}

/// The same for text of any size: refusals 2 to 6.
pub fn read_text(bytes: &[u8]) -> Result<Job, Refusal> {
    let mut lines = Lines { rest: bytes, line: 0 };
    let a = lines.next("area=", &[XY; 4])?;
    let area = Rect { xlo: a[0], ylo: a[1], xhi: a[2], yhi: a[3] };
    let axis = if lines.rest.starts_with(b"axis=") {
        let v = lines.next("axis=", &[(1, 9); 2])?;
        Axis { a: v[0], b: v[1] }
    } else {
        Axis::PLAIN
    };
    let posts = lines.next("posts=", &[(0, 64)])?[0];
    let posts = (0..posts)
        .map(|_| lines.next("post=", &[XY; 2]).map(|v| (v[0], v[1])))
        .collect::<Result<Vec<Place>, Refusal>>()?;
    let stops = lines.next("stops=", &[(0, 512)])?[0];
    let stops = (0..stops)
        .map(|_| lines.next("stop=", &[XY, XY, (1, 65_535)]).map(|v| Stop { at: (v[0], v[1]), visits: v[2] }))
        .collect::<Result<Vec<Stop>, Refusal>>()?;
    let rounds = lines.next("rounds=", &[(0, 1_000)])?[0];
    if !lines.rest.is_empty() {
        return Err(refuse(2, lines.line + 1));
    }
    if area.xlo > area.xhi || area.ylo > area.yhi {
        return Err(refuse(4, 0));
    }
    if posts.is_empty() {
        return Err(refuse(5, 0));
    }
    if stops.is_empty() {
        return Err(refuse(6, 0));
    }
    Ok(Job { area, axis, posts, stops, rounds })
}

/// A job's bytes, with an axis line.
pub fn spell_out(job: &Job) -> Vec<u8> {
    spell_with(job, &format!("axis={},{}\n", job.axis.a, job.axis.b))
}

/// A job's bytes, with an axis line where it has to have one.
pub fn spell(job: &Job) -> Vec<u8> {
    if job.axis == Axis::PLAIN { spell_with(job, "") } else { spell_out(job) }
}

fn spell_with(job: &Job, axis_line: &str) -> Vec<u8> {
    let a = job.area;
    let mut text = format!("area={},{},{},{}\n{axis_line}posts={}\n", a.xlo, a.ylo, a.xhi, a.yhi, job.posts.len());
    for p in &job.posts {
        text += &format!("post={},{}\n", p.0, p.1);
    }
    text += &format!("stops={}\n", job.stops.len());
    for s in &job.stops {
        text += &format!("stop={},{},{}\n", s.at.0, s.at.1, s.visits);
    }
    text += &format!("rounds={}\n", job.rounds);
    text.into_bytes()
}

// ---- writing: RULES "Change 1"

/// A deck's record and the rounds, as they are lent: any number may stand anywhere. The first `posts` and `stops` elements count. Writing
/// looks at neither `near` nor `before`.
#[derive(Clone, Debug, PartialEq, Eq)]
pub struct Record {
    pub area: [i64; 4],
    pub axis: [u64; 2],
    pub posts: u64,
    pub post_x: [i64; 64],
    pub post_y: [i64; 64],
    pub stops: u64,
    pub stop_x: [i64; 512],
    pub stop_y: [i64; 512],
    pub visits: [u64; 512],
    pub near: [u64; 512],
    pub before: u64,
    pub rounds: u64,
}

impl Record {
    /// All numbers 0.
    pub const ZEROS: Record = Record {
        area: [0; 4],
        axis: [0; 2],
        posts: 0,
        post_x: [0; 64],
        post_y: [0; 64],
        stops: 0,
        stop_x: [0; 512],
        stop_y: [0; 512],
        visits: [0; 512],
        near: [0; 512],
        before: 0,
        rounds: 0,
    };

    /// The same with axis costs that a file can have.
    pub const PLAIN: Record = Record { axis: [1; 2], ..Record::ZEROS };

    /// That of a job that was read: near and before as they are (RULES "Change 5"), and zeros behind its lists.
    pub fn of(job: &Job) -> Record {
        let deck = Deck::new(job);
        let (a, axis) = (job.area, [job.axis.a as u64, job.axis.b as u64]);
        let mut record = Record { area: [a.xlo, a.ylo, a.xhi, a.yhi], axis, rounds: job.rounds as u64, ..Record::ZEROS };
        record.posts = job.posts.len() as u64;
        for (i, p) in job.posts.iter().enumerate() {
            (record.post_x[i], record.post_y[i]) = *p;
        }
        record.stops = job.stops.len() as u64;
        for (i, s) in job.stops.iter().enumerate() {
            (record.stop_x[i], record.stop_y[i]) = s.at;
            record.visits[i] = s.visits as u64;
            record.near[i] = deck.near[i] as u64;
        }
        record.before = deck.before() as u64;
        record
    }

    /// The text of its file. The line of axis costs of 1,1 is left out. A count is written as it is; beyond its arrays it counts all of
    /// their elements.
    pub fn text(&self) -> Vec<u8> {
        let [xlo, ylo, xhi, yhi] = self.area;
        let mut text = format!("area={xlo},{ylo},{xhi},{yhi}\n");
        if self.axis != [1, 1] {
            text += &format!("axis={},{}\n", self.axis[0], self.axis[1]);
        }
        text += &format!("posts={}\n", self.posts);
        for i in 0..self.posts.min(64) as usize {
            text += &format!("post={},{}\n", self.post_x[i], self.post_y[i]);
        }
        text += &format!("stops={}\n", self.stops);
        for i in 0..self.stops.min(512) as usize {
            text += &format!("stop={},{},{}\n", self.stop_x[i], self.stop_y[i], self.visits[i]);
        }
        text += &format!("rounds={}\n", self.rounds);
        text.into_bytes()
    }
}

/// The bytes that are written into an output of `room` bytes. The refusal is the one that the record's file would get, 1 aside; then 8.
pub fn write(record: &Record, room: usize) -> Result<Vec<u8>, Refusal> {
    let text = record.text();
    read_text(&text)?;
    if room < text.len() {
        return Err(refuse(8, 0));
    }
    Ok(text)
}

/// What an accepted job comes out as when it is read and saved: its own bytes, but for a line `axis=1,1`.
pub fn saved(bytes: &[u8]) -> Vec<u8> {
    let second = bytes.iter().position(|&b| b == 10).map_or(bytes.len(), |end| end + 1);
    let behind = &bytes[second..];
    [&bytes[..second], behind.strip_prefix(b"axis=1,1\n").unwrap_or(behind)].concat()
}

// ---- changing: RULES "Change 6"

/// The changes of a deck, by their numbers from 0.
#[derive(Clone, Copy, Debug, PartialEq, Eq)]
pub enum Kind {
    AddPost,
    RemovePost,
    AddStop,
    RemoveStop,
}

impl Kind {
    pub const ALL: [Kind; 4] = [Kind::AddPost, Kind::RemovePost, Kind::AddStop, Kind::RemoveStop];

    pub fn adds(self) -> bool {
        matches!(self, Kind::AddPost | Kind::AddStop)
    }

    pub fn of_a_post(self) -> bool {
        matches!(self, Kind::AddPost | Kind::RemovePost)
    }
}

/// A change with its values, which are any numbers. The visits are those of a stop; for a post they do not matter.
#[derive(Clone, Copy, Debug, PartialEq, Eq)]
pub struct Change {
    pub kind: Kind,
    pub at: Place,
    pub visits: u64,
}

impl Change {
    fn in_range(&self) -> bool {
        let xy = |v: i64| XY.0 <= v && v <= XY.1;
        xy(self.at.0) && xy(self.at.1) && (self.kind.of_a_post() || (1..=65_535).contains(&self.visits))
    }
}

impl std::fmt::Display for Change {
    /// A line with a sign, as `+post=4,3` or `-stop=4,3,2`.
    fn fmt(&self, f: &mut std::fmt::Formatter) -> std::fmt::Result {
        let (sign, (x, y)) = (if self.kind.adds() { '+' } else { '-' }, self.at);
        if self.kind.of_a_post() {
            write!(f, "{sign}post={x},{y}")
        } else {
            write!(f, "{sign}stop={x},{y},{}", self.visits)
        }
    }
}

/// A new item goes last: 10 for full lists.
fn add<T>(items: &mut Vec<T>, item: T, most: usize) -> Result<(), Refusal> {
    if items.len() >= most {
        return Err(refuse(10, 0));
    }
    items.push(item);
    Ok(())
}

/// The first item that equals this one is removed, and later ones move up: 9 where there is none, then 5 or 6 for the only one.
fn remove<T: PartialEq>(items: &mut Vec<T>, item: T, only: i64) -> Result<(), Refusal> {
    let first = items.iter().position(|held| *held == item).ok_or(refuse(9, 0))?;
    if items.len() == 1 {
        return Err(refuse(only, 0));
    }
    items.remove(first);
    Ok(())
}

/// The job with the changed lists and all else as it is. Refusal 3, for values out of range, comes before the others.
pub fn changed(job: &Job, change: &Change) -> Result<Job, Refusal> {
    if !change.in_range() {
        return Err(refuse(3, 0));
    }
    let mut job = job.clone();
    let stop = Stop { at: change.at, visits: change.visits as i64 };
    match change.kind {
        Kind::AddPost => add(&mut job.posts, change.at, 64)?,
        Kind::RemovePost => remove(&mut job.posts, change.at, 5)?,
        Kind::AddStop => add(&mut job.stops, stop, 512)?,
        Kind::RemoveStop => remove(&mut job.stops, stop, 6)?,
    }
    Ok(job)
}

/// Element i of the first n leaves an array: later ones of them move up, and 0 stands where the last one stood.
fn take_out<T: Copy + Default>(array: &mut [T], i: usize, n: usize) {
    for j in i + 1..n {
        array[j - 1] = array[j];
    }
    array[n - 1] = T::default();
}

/// The same for a record of any numbers. One that is read from a job becomes the one that is read from the changed job.
impl Record {
    fn travel(&self, stop: usize, to: Place) -> u64 {
        let axis = Axis { a: self.axis[0] as i64, b: self.axis[1] as i64 };
        travel(axis, (self.stop_x[stop], self.stop_y[stop]), to) as u64
    }

    fn closest(&self, stop: usize) -> u64 {
        (0..self.posts as usize).map(|i| self.travel(stop, (self.post_x[i], self.post_y[i]))).min().unwrap()
    }

    /// Whether it has a file that can be read, whatever the rounds are, and each stop a near that a travel can have.
    pub fn can_be_changed(&self) -> bool {
        let file = write(&Record { rounds: 0, ..self.clone() }, usize::MAX);
        file.is_ok() && self.near[..self.stops as usize].iter().all(|&near| near <= 720_000)
    }

    /// The numbers that it holds are taken as they are, near too, and what stands behind the lists stays. One that cannot be changed gets 3.
    pub fn changed(&self, change: &Change) -> Result<Record, Refusal> {
        if !change.in_range() || !self.can_be_changed() {
            return Err(refuse(3, 0));
        }
        let (posts, stops) = (self.posts as usize, self.stops as usize);
        let Change { kind, at, visits } = *change;
        let mut new = self.clone();
        match kind {
            Kind::AddPost => {
                if posts == 64 {
                    return Err(refuse(10, 0));
                }
                (new.post_x[posts], new.post_y[posts]) = at;
                new.posts += 1;
                for i in 0..stops {
                    new.near[i] = self.near[i].min(self.travel(i, at));
                }
            }
            Kind::RemovePost => {
                let first = (0..posts).find(|&i| (self.post_x[i], self.post_y[i]) == at).ok_or(refuse(9, 0))?;
                if posts == 1 {
                    return Err(refuse(5, 0));
                }
                take_out(&mut new.post_x, first, posts);
                take_out(&mut new.post_y, first, posts);
                new.posts -= 1;
                for i in 0..stops {
                    // as far as its near: it may have been the closest
                    if self.near[i] == self.travel(i, at) {
                        new.near[i] = new.closest(i);
                    }
                }
            }
            Kind::AddStop => {
                if stops == 512 {
                    return Err(refuse(10, 0));
                }
                (new.stop_x[stops], new.stop_y[stops]) = at;
                new.visits[stops] = visits;
                new.near[stops] = new.closest(stops);
                new.stops += 1;
            }
            Kind::RemoveStop => {
                let item = (at, visits);
                let first = (0..stops).find(|&i| ((self.stop_x[i], self.stop_y[i]), self.visits[i]) == item).ok_or(refuse(9, 0))?;
                if stops == 1 {
                    return Err(refuse(6, 0));
                }
                take_out(&mut new.stop_x, first, stops);
                take_out(&mut new.stop_y, first, stops);
                take_out(&mut new.visits, first, stops);
                take_out(&mut new.near, first, stops);
                new.stops -= 1;
            }
        }
        new.before = (0..new.stops as usize).map(|i| new.visits[i] * new.near[i]).sum();
        Ok(new)
    }
}

// ---- pricing: RULES "Travel", "Near", "Cost", "Reach", "Lines", "Bound", "Corner bound", "Cuts"

pub fn travel(axis: Axis, p: Place, q: Place) -> i64 {
    axis.a * (p.0 - q.0).abs() + axis.b * (p.1 - q.1).abs()
}

/// A deck with each stop's near.
pub struct Deck<'a> {
    pub job: &'a Job,
    pub near: Vec<i64>,
}

impl Deck<'_> {
    pub fn new(job: &Job) -> Deck<'_> {
        let near = job
            .stops
            .iter()
            .map(|s| job.posts.iter().map(|&p| travel(job.axis, s.at, p)).min().unwrap())
            .collect();
        Deck { job, near }
    }

    fn travel(&self, p: Place, q: Place) -> i64 {
        travel(self.job.axis, p, q)
    }

    fn stops(&self) -> impl Iterator<Item = (&Stop, i64)> {
        self.job.stops.iter().zip(self.near.iter().copied())
    }

    pub fn cost(&self, p: Place) -> i64 {
        self.stops().map(|(s, near)| s.visits * near.min(self.travel(s.at, p))).sum()
    }

    pub fn before(&self) -> i64 {
        self.stops().map(|(s, near)| s.visits * near).sum()
    }

    /// The travel from a stop to the closest point of a rectangle.
    fn travel_to(&self, s: &Stop, r: Rect) -> i64 {
        self.travel(s.at, (s.at.0.clamp(r.xlo, r.xhi), s.at.1.clamp(r.ylo, r.yhi)))
    }

    fn within_reach(&self, r: Rect) -> impl Iterator<Item = &Stop> {
        self.stops().filter(move |(s, near)| self.travel_to(s, r) < *near).map(|(s, _)| s)
    }

    pub fn load(&self, r: Rect) -> i64 {
        self.within_reach(r).map(|s| s.visits).sum()
    }

    pub fn vertical(&self) -> Vec<i64> {
        let a = self.job.area;
        let xs = self.within_reach(a).map(|s| s.at.0).filter(|x| a.xlo <= *x && *x <= a.xhi);
        sorted(xs.chain([a.xlo, a.xhi]).collect())
    }

    pub fn horizontal(&self) -> Vec<i64> {
        let a = self.job.area;
        let ys = self.within_reach(a).map(|s| s.at.1).filter(|y| a.ylo <= *y && *y <= a.yhi);
        sorted(ys.chain([a.ylo, a.yhi]).collect())
    }

    /// Stop by stop: what each pays if it has a post at its own closest point of the rectangle.
    pub fn bound(&self, r: Rect) -> i64 {
        self.stops().map(|(s, near)| s.visits * near.min(self.travel_to(s, r))).sum()
    }

    /// By the costs of the corners. No search goes by it.
    pub fn corner_bound(&self, r: Rect) -> i64 {
        let first = self.cost((r.xlo, r.ylo)) + self.cost((r.xhi, r.yhi));
        let second = self.cost((r.xlo, r.yhi)) + self.cost((r.xhi, r.ylo));
        let Axis { a, b } = self.job.axis;
        let twice = first.max(second) - (a * (r.xhi - r.xlo) + b * (r.yhi - r.ylo)) * self.load(r);
        // towards plus infinity
        -((-twice).div_euclid(2))
    }

    fn priced(&self, p: Place) -> (i64, Place) {
        (self.cost(p), p)
    }
}

fn sorted(mut lines: Vec<i64>) -> Vec<i64> {
    lines.sort();
    lines.dedup();
    lines
}

/// Whether a side is cut, and where: the line strictly inside lo .. hi closest to the middle, the smaller on a tie.
pub fn middle(lines: &[i64], lo: i64, hi: i64) -> Option<i64> {
    lines
        .iter()
        .copied()
        .filter(|v| lo < *v && *v < hi)
        .min_by_key(|v| ((2 * v - lo - hi).abs(), *v))
}

/// The axis (true: x) and the line at which a cell is cut.
pub fn cut(vertical: &[i64], horizontal: &[i64], r: Rect) -> Option<(bool, i64)> {
    let x = middle(vertical, r.xlo, r.xhi);
    let y = middle(horizontal, r.ylo, r.yhi);
    match (x, y) {
        (Some(v), None) => Some((true, v)),
        (None, Some(v)) => Some((false, v)),
        (None, None) => None,
        (Some(v), Some(w)) => Some(if r.xhi - r.xlo >= r.yhi - r.ylo { (true, v) } else { (false, w) }),
    }
}

// ---- the estimate: RULES "Change 3"

/// What a search of a job needs, found from its lines alone.
#[derive(Clone, Copy, Debug, PartialEq, Eq)]
pub struct Estimate {
    pub across: i64,
    pub deep: i64,
    /// No search of the deck makes more cuts, with any number of rounds.
    pub cut_limit: i64,
    /// So many cells suffice for the job's rounds.
    pub cells: i64,
}

impl Estimate {
    /// The numbers of cell space that these cells take.
    pub fn numbers(&self) -> usize {
        5 * self.cells as usize
    }
}

/// The gaps between neighbouring lines, at least one.
fn gaps(lines: &[i64]) -> i64 {
    (lines.len() as i64 - 1).max(1)
}

pub fn estimate(job: &Job) -> Estimate {
    let deck = Deck::new(job);
    let (across, deep) = (gaps(&deck.vertical()), gaps(&deck.horizontal()));
    Estimate { across, deep, cut_limit: across * deep - 1, cells: (job.rounds + 1).min(across * deep) }
}

/// Whether the report call of an accepted job is lent enough: refusal 7 for the numbers of cell space, then 8 for the bytes of output.
pub fn lent_enough(estimate: &Estimate, cells: usize, out: usize) -> Result<(), Refusal> {
    if cells < estimate.numbers() {
        return Err(refuse(7, 0));
    }
    if out < 128 {
        return Err(refuse(8, 0));
    }
    Ok(())
}

// ---- the search by cells: RULES "Live cells", "Rounds", "Figures", "Cell space"

#[derive(Clone, Debug, PartialEq, Eq)]
pub struct Found {
    pub done: bool,
    pub at: Place,
    pub high: i64,
    pub low: i64,
    pub before: i64,
    pub rounds: i64,
    /// The live cells, five numbers each, in the order of the cell space.
    pub cells: Vec<i64>,
}

/// A cell of the partition, with the cut that a round would make of it.
struct Cell {
    bound: i64,
    r: Rect,
    cut: Option<(bool, i64)>,
}

impl Cell {
    /// The order of the cell space, and that in which rounds take the cells.
    fn key(&self) -> (i64, Place) {
        (self.bound, (self.r.xlo, self.r.ylo))
    }

    fn live(&self, best: (i64, Place)) -> bool {
        self.cut.is_some()
            && match self.bound.cmp(&best.0) {
                Ordering::Less => true,
                Ordering::Equal => (self.r.xlo, self.r.ylo) < best.1,
                Ordering::Greater => false,
            }
    }
}

pub fn search(job: &Job) -> Found {
    search_by(job, |deck, r| deck.bound(r))
}

/// The search with any bound of cells, for a comparison of bounds.
pub fn search_by(job: &Job, bound: impl Fn(&Deck, Rect) -> i64) -> Found {
    let deck = Deck::new(job);
    let (vertical, horizontal) = (deck.vertical(), deck.horizontal());
    let cell = |r: Rect| Cell { bound: bound(&deck, r), r, cut: cut(&vertical, &horizontal, r) };
    let a = job.area;
    let mut best = [(a.xlo, a.ylo), (a.xlo, a.yhi), (a.xhi, a.ylo), (a.xhi, a.yhi)]
        .map(|p| deck.priced(p))
        .into_iter()
        .min()
        .unwrap();
    let mut partition = vec![cell(a)];
    let mut rounds = 0;
    while rounds < job.rounds {
        let Some(i) = (0..partition.len())
            .filter(|&i| partition[i].live(best))
            .min_by_key(|&i| partition[i].key())
        else {
            break;
        };
        let Cell { r, cut, .. } = partition.swap_remove(i);
        let (across, v) = cut.unwrap();
        let (first, second, corners) = if across {
            (Rect { xhi: v, ..r }, Rect { xlo: v, ..r }, [(v, r.ylo), (v, r.yhi)])
        } else {
            (Rect { yhi: v, ..r }, Rect { ylo: v, ..r }, [(r.xlo, v), (r.xhi, v)])
        };
        for p in corners {
            best = best.min(deck.priced(p));
        }
        partition.push(cell(first));
        partition.push(cell(second));
        rounds += 1;
    }
    let mut cells: Vec<Cell> = partition.into_iter().filter(|c| c.live(best)).collect();
    cells.sort_by_key(Cell::key);
    Found {
        done: cells.is_empty(),
        at: best.1,
        high: best.0,
        low: cells.iter().map(|c| c.bound).fold(best.0, i64::min),
        before: deck.before(),
        rounds,
        cells: cells.iter().flat_map(|c| [c.r.xlo, c.r.ylo, c.r.xhi, c.r.yhi, c.bound]).collect(),
    }
}

/// The cheapest crossing, the earliest among equals, as cost and place (RULES "Exhaustive search").
pub fn exhaustive(job: &Job) -> (i64, Place) {
    let deck = Deck::new(job);
    let horizontal = deck.horizontal();
    deck.vertical()
        .into_iter()
        .flat_map(|x| horizontal.iter().map(move |&y| (x, y)))
        .map(|p| deck.priced(p))
        .min()
        .unwrap()
}

/// Brute force: of all points of the area, each of which is priced, the cheapest, the earliest among equals.
pub fn brute_force(job: &Job) -> (i64, Place) {
    let deck = Deck::new(job);
    let a = job.area;
    (a.xlo..=a.xhi)
        .flat_map(|x| (a.ylo..=a.yhi).map(move |y| (x, y)))
        .map(|p| deck.priced(p))
        .min()
        .unwrap()
}

// ---- text: RULES "Report"

pub fn report_text(f: &Found) -> String {
    let state = if f.done { "done" } else { "stopped" };
    format!(
        "state={}\nat={},{}\nhigh={}\nlow={}\nbefore={}\nrounds={}\n",
        state, f.at.0, f.at.1, f.high, f.low, f.before, f.rounds
    )
}

pub fn refusal_text(r: Refusal) -> String {
    format!("refused={}\nline={}\n", r.number, r.line)
}

/// What the program prints for its input.
pub fn answer_text(bytes: &[u8]) -> String {
    match read(bytes) {
        Ok(job) => report_text(&search(&job)),
        Err(why) => refusal_text(why),
    }
}

#[cfg(test)]
mod tests {
    use super::*;

    const A: &str = "area=2,2,8,8\nposts=1\npost=0,0\nstops=2\nstop=4,3,2\nstop=8,12,1\nrounds=10\n";

    #[test]
    fn case_a_has_its_figures() {
        let job = read(A.as_bytes()).unwrap();
        assert_eq!(report_text(&search(&job)), "state=done\nat=4,3\nhigh=13\nlow=13\nbefore=34\nrounds=3\n");
        for (rounds, at, high, low) in [(0, (8, 8), 18, 4), (1, (4, 2), 16, 4), (2, (4, 3), 13, 8)] {
            let found = search(&Job { rounds, ..job.clone() });
            assert_eq!((found.done, found.at, found.high, found.low), (false, at, high, low));
        }
        assert_eq!(exhaustive(&job), (13, (4, 3)));
        assert_eq!(brute_force(&job), (13, (4, 3)));
        let needs = estimate(&job);
        assert_eq!(needs, Estimate { across: 2, deep: 2, cut_limit: 3, cells: 4 });
        for (cells, out, refused) in [(20, 128, 0), (19, 128, 7), (19, 127, 7), (20, 127, 8)] {
            assert_eq!(lent_enough(&needs, cells, out).map_or_else(|why| why.number, |()| 0), refused);
        }
        assert_eq!(spell(&job), A.as_bytes());
        let record = Record::of(&job);
        assert_eq!((&record.near[..3], record.before), (&[7, 20, 0][..], 34));
        assert_eq!(write(&record, A.len()), Ok(A.into()));
        assert_eq!(write(&record, A.len() - 1), Err(Refusal { number: 8, line: 0 }));
    }

    #[test]
    fn halves_go_towards_plus_infinity() {
        let of = |stops: &str, xlo: i64, xhi: i64| {
            let job = read(format!("area={xlo},0,{xhi},0\nposts=1\npost=5,1\n{stops}rounds=0\n").as_bytes()).unwrap();
            let deck = Deck::new(&job);
            let lows = (search(&job).low, search_by(&job, |deck, r| deck.corner_bound(r)).low);
            assert_eq!((deck.bound(job.area), deck.corner_bound(job.area)), lows);
            lows
        };
        // the deck of case D, and another area: 1 + 1 - 9, 1 + 1 - 5
        assert_eq!(of("stops=1\nstop=5,0,1\n", 0, 9), (0, -3));
        assert_eq!(of("stops=1\nstop=5,0,1\n", 3, 8), (0, -1));
        // 17 + 12 - 2 * 9
        assert_eq!(of("stops=2\nstop=5,0,1\nstop=20,0,1\n", 0, 9), (11, 6));
    }
}
