//! The inputs of the benchmark, the same on every machine.

/// The least alpha, and the decay that leads from 1 to it in 300 ticks: 1 - 0.001^(1/300).
pub const LEAST: f64 = 0.001;
pub const COOLING: f64 = 0.02276277904418933;
pub const TICKS: u64 = 300;

pub const DECAY: f64 = 0.6;
pub const RADIUS: f64 = 3.0;

/// Points spread over a square of this side.
const SIDE: f64 = 1000.0;

/// Close pairs: the square's side, and how far the points of a pair are apart along x, so that they part some 40 levels down.
const FAR: f64 = 1073741824.0;
const CLOSE: f64 = 1.0 / 1024.0;

/// A point, by its number, goes in or out. Points go in by ascending numbers from 0, so that these are the insertions' too.
#[derive(Clone, Copy)]
pub enum Edit {
    In(usize),
    Out(usize),
}

pub struct Input {
    /// x, y, vx, vy.
    pub particles: Vec<[f64; 4]>,
    pub strengths: Vec<f64>,
    pub radii: Vec<f64>,
    pub links: Vec<(usize, usize)>,
    pub distances: Vec<f64>,
    pub draws: Vec<f64>,
    /// None unless asked for.
    pub edits: Vec<Edit>,
}

/// A linear congruence.
struct Random(u64);

impl Random {
    fn between(&mut self, low: f64, high: f64) -> f64 {
        self.0 = self.0.wrapping_mul(6364136223846793005).wrapping_add(1442695040888963407);
        low + (self.0 >> 11) as f64 / (1u64 << 53) as f64 * (high - low)
    }

    fn below(&mut self, count: usize) -> usize {
        self.between(0.0, count as f64) as usize
    }
}

/// What records hold, a word for each eight bytes.
pub fn words(sheet: &[u8]) -> Vec<u64> {
    sheet.chunks_exact(8).map(|bytes| u64::from_le_bytes(bytes.try_into().expect("eight bytes"))).collect()
}

impl Input {
    /// Each place may be chosen by those before it.
    fn new(count: usize, place: fn(&mut Random, &[[f64; 4]]) -> [f64; 2]) -> Input {
        let mut random = Random(1);
        let mut particles = Vec::new();
        for _ in 0..count {
            let [x, y] = place(&mut random, &particles);
            particles.push([x, y, random.between(-1.0, 1.0), random.between(-1.0, 1.0)]);
        }
        Input {
            particles,
            strengths: vec![-30.0; count],
            radii: vec![RADIUS; count],
            links: (0..2 * count).map(|_| (random.below(count), random.below(count))).collect(),
            distances: vec![30.0; 2 * count],
            draws: (0..4 * count).map(|_| random.between(-1e-6, 1e-6)).collect(),
            edits: Vec::new(),
        }
    }

    pub fn uniform(count: usize) -> Input {
        Input::new(count, |random, _| [random.between(0.0, SIDE), random.between(0.0, SIDE)])
    }

    pub fn coincident(count: usize) -> Input {
        Input::new(count, |_, _| [500.0, 250.0])
    }

    /// Of every four points the last two are a close pair; else they are spread, far apart.
    pub fn pairs(count: usize) -> Input {
        Input::new(count, |random, before| match before {
            [.., [x, y, ..]] if before.len() % 4 == 3 => [x + CLOSE, *y],
            _ => [random.between(0.0, FAR), random.between(0.0, FAR)],
        })
    }

    /// With as many edits as points, half of them removals: `most` insertions, then a removal and an insertion in turn until half of the points were in, then removals until none is there.
    /// A removal is of any that is there, by chance.
    pub fn edited(mut self, most: usize) -> Input {
        let mut random = Random(2);
        let mut there = Vec::new();
        for i in 0..self.particles.len() / 2 {
            if there.len() == most {
                self.edits.push(Edit::Out(there.swap_remove(random.below(most))));
            }
            self.edits.push(Edit::In(i));
            there.push(i);
        }
        while !there.is_empty() {
            self.edits.push(Edit::Out(there.swap_remove(random.below(there.len()))));
        }
        self
    }

    /// After which edits results are looked at: sixteen times, the last time after all.
    pub fn looks(&self) -> impl Iterator<Item = usize> {
        let all = self.edits.len();
        (1..=16).map(move |k| k * all / 16)
    }

    /// The points that are there after so many edits, ascending.
    pub fn there(&self, edits: usize) -> Vec<usize> {
        let mut there = Vec::new();
        for &edit in &self.edits[..edits] {
            match edit {
                Edit::In(i) => there.push(i),
                Edit::Out(i) => there.retain(|&j| j != i),
            }
        }
        there
    }

    /// Slots lent for the nodes: more than points that are spread evenly need.
    pub fn slots(&self) -> usize {
        4 * self.particles.len()
    }
}
