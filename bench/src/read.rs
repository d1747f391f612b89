//! Hand-written Rust for reading a job, and the jobs that are measured.

/// The number and the line of a refusal.
pub type Refused = (i64, i64);

struct Reader<'a> {
    job: &'a [u8],
    at: usize,
    line: i64,
}

impl Reader<'_> {
    #[inline(always)]
    fn number(&mut self, end: u8) -> Option<i32> {
        let negative = self.job.get(self.at) == Some(&b'-');
        let start = self.at + negative as usize;
        let (mut i, mut value) = (start, 0u32);
        while i < self.job.len() {
            let digit = self.job[i].wrapping_sub(b'0');
            if digit > 9 {
                break;
            }
            value = value.wrapping_mul(10).wrapping_add(digit as u32);
            i += 1;
        }
        let n = i - start;
        if n == 0 || n > 9 || self.job[start] == b'0' && (n > 1 || negative) || self.job.get(i) != Some(&end) {
            return None;
        }
        self.at = i + 1;
        Some(if negative { -(value as i32) } else { value as i32 })
    }

    /// The numbers of the next line, each with its range.
    #[inline(always)]
    fn line<const N: usize>(&mut self, key: &[u8], ranges: [(i32, i32); N]) -> Result<[i32; N], Refused> {
        self.line += 1;
        let malformed = (2, self.line);
        if !self.job[self.at..].starts_with(key) {
            return Err(malformed);
        }
        self.at += key.len();
        let mut values = [0; N];
        for (i, v) in values.iter_mut().enumerate() {
            *v = self.number(if i + 1 == N { b'\n' } else { b',' }).ok_or(malformed)?;
        }
        if values.iter().zip(ranges).all(|(&v, (lo, hi))| lo <= v && v <= hi) {
            Ok(values)
        } else {
            Err((3, self.line))
        }
    }
}

const XY: (i32, i32) = (-20_000, 20_000);

/// A deck as the job spells it, one column a field.
pub struct Deck {
    pub area: Rect,
    pub axis: Axis,
    pub post_x: Vec<i32>,
    pub post_y: Vec<i32>,
    pub xs: Vec<i32>,
    pub ys: Vec<i32>,
    pub visits: Vec<u32>,
    pub rounds: usize,
}

/// What a tenth costs in x and in y.
#[derive(Clone, Copy, PartialEq)]
pub struct Axis {
    pub a: i32,
    pub b: i32,
}

pub const PLAIN: Axis = Axis { a: 1, b: 1 };

#[derive(Clone, Copy)]
pub struct Rect {
    pub xlo: i32,
    pub ylo: i32,
    pub xhi: i32,
    pub yhi: i32,
}

impl Axis {
    /// A rectangle in travel from the deck's centre.
    #[inline]
    pub fn scaled(self, r: Rect) -> Rect {
        Rect { xlo: self.a * r.xlo, ylo: self.b * r.ylo, xhi: self.a * r.xhi, yhi: self.b * r.yhi }
    }

    /// Its line of a job.
    pub fn line(self) -> String {
        if self == PLAIN { String::new() } else { format!("axis={},{}\n", self.a, self.b) }
    }
}

/// The stops at scaled places, each with its near: travel is plain between them.
pub struct Objects {
    pub xs: Vec<i32>,
    pub ys: Vec<i32>,
    pub visits: Vec<u32>,
    pub near: Vec<i32>,
}

pub fn scaled(column: &[i32], k: i32) -> Vec<i32> {
    column.iter().map(|&v| k * v).collect()
}

/// The near of each stop, post by post over the columns of stops: no reduction inside the loop.
pub fn near_by_posts(px: &[i32], py: &[i32], xs: &[i32], ys: &[i32]) -> Vec<i32> {
    let mut near = vec![i32::MAX; xs.len()];
    for (&u, &v) in px.iter().zip(py) {
        for ((m, &x), &y) in near.iter_mut().zip(xs).zip(ys) {
            *m = (*m).min((x - u).abs() + (y - v).abs());
        }
    }
    near
}

/// The deck and its objects.
pub fn read(job: &[u8]) -> Result<(Deck, Objects), Refused> {
    let mut deck = parse(job)?;
    let Axis { a, b } = deck.axis;
    let (xs, ys) = (scaled(&deck.xs, a), scaled(&deck.ys, b));
    let near = near_by_posts(&scaled(&deck.post_x, a), &scaled(&deck.post_y, b), &xs, &ys);
    let visits = std::mem::take(&mut deck.visits);
    Ok((deck, Objects { xs, ys, visits, near }))
}

fn parse(job: &[u8]) -> Result<Deck, Refused> {
    if job.len() > 16_384 {
        return Err((1, 0));
    }
    let mut r = Reader { job, at: 0, line: 0 };
    let [xlo, ylo, xhi, yhi] = r.line(b"area=", [XY; 4])?;
    let [a, b] = if job[r.at..].starts_with(b"axis=") { r.line(b"axis=", [(1, 9); 2])? } else { [1, 1] };
    let posts = r.line(b"posts=", [(0, 64)])?[0] as usize;
    let (mut post_x, mut post_y) = (Vec::with_capacity(posts), Vec::with_capacity(posts));
    for _ in 0..posts {
        let [x, y] = r.line(b"post=", [XY; 2])?;
        post_x.push(x);
        post_y.push(y);
    }
    let n = r.line(b"stops=", [(0, 512)])?[0] as usize;
    let (mut xs, mut ys, mut visits) = (Vec::with_capacity(n), Vec::with_capacity(n), Vec::with_capacity(n));
    for _ in 0..n {
        let [x, y, v] = r.line(b"stop=", [XY, XY, (1, 65_535)])?;
        xs.push(x);
        ys.push(y);
        visits.push(v as u32);
    }
    let rounds = r.line(b"rounds=", [(0, 1_000)])?[0] as usize;
    if r.at < job.len() {
        return Err((2, r.line + 1));
    }
    if xlo > xhi || ylo > yhi {
        return Err((4, 0));
    }
    if posts == 0 {
        return Err((5, 0));
    }
    if n == 0 {
        return Err((6, 0));
    }
    Ok(Deck { area: Rect { xlo, ylo, xhi, yhi }, axis: Axis { a, b }, post_x, post_y, xs, ys, visits, rounds })
}

/// A deck to measure, over the whole range of coordinates from a fixed seed, with an area of this half side. Posts stand all over the
/// deck, or in a strip of this width along its left edge.
#[derive(Clone, Copy)]
pub struct Sizes {
    pub axis: Axis,
    pub posts: usize,
    pub strip: u64,
    pub stops: usize,
    pub half: i64,
    pub rounds: usize,
}

pub const LARGEST: Sizes = Sizes { axis: PLAIN, posts: 64, strip: 40_001, stops: 512, half: 20_000, rounds: 1_000 };
pub const ONE_EDGE: Sizes = Sizes { strip: 2_000, ..LARGEST };
pub const TYPICAL: Sizes = Sizes { posts: 8, stops: 100, half: 6_325, rounds: 200, ..LARGEST };

impl Sizes {
    pub fn job(self) -> Vec<u8> {
        let mut state: u64 = 0x2545_f491_4f6c_dd1d;
        let mut at = |n: u64| {
            state = state.wrapping_mul(6_364_136_223_846_793_005).wrapping_add(1_442_695_040_888_963_407);
            ((state >> 33) % n) as i64
        };
        let half = self.half;
        let mut text = format!("area=-{half},-{half},{half},{half}\n{}posts={}\n", self.axis.line(), self.posts);
        for _ in 0..self.posts {
            text += &format!("post={},{}\n", at(self.strip) - 20_000, at(40_001) - 20_000);
        }
        text += &format!("stops={}\n", self.stops);
        for _ in 0..self.stops {
            text += &format!("stop={},{},{}\n", at(40_001) - 20_000, at(40_001) - 20_000, at(1_000) + 1);
        }
        (text + &format!("rounds={}\n", self.rounds)).into_bytes()
    }
}

/// A job with all its posts in the first corner of the deck.
pub fn cornered(job: Vec<u8>) -> Vec<u8> {
    let text = String::from_utf8(job).unwrap();
    text.lines().map(|l| if l.starts_with("post=") { "post=-20000,-20000\n".into() } else { format!("{l}\n") }).collect::<String>().into_bytes()
}
