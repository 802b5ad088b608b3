//! The cases: what each line says, how it is read, and how it is written.

use std::str::SplitWhitespace;

#[derive(Clone, Copy, Debug)]
pub struct Record {
    pub x: f64,
    pub y: f64,
    pub vx: f64,
    pub vy: f64,
    pub flags: u64,
}

#[derive(Clone, Debug)]
pub enum Force {
    Empty,
    ManyBody { strengths: Vec<f64> },
    Collide { strength: f64, iterations: u64, radii: Vec<f64> },
    Link { iterations: u64, links: Vec<(usize, usize)>, strengths: Vec<f64>, distances: Vec<f64> },
    Center { x: f64, y: f64, strength: f64 },
    Unknown(u64),
}

/// What a tick takes.
#[derive(Clone, Debug)]
pub struct Tick {
    pub slots: usize,
    pub alpha: f64,
    pub target: f64,
    pub decay: f64,
    pub velocity_decay: f64,
    pub particles: Vec<Record>,
    pub forces: Vec<Force>,
    pub draws: Vec<f64>,
}

#[derive(Clone, Debug)]
pub enum Case {
    Floor(f64),
    Root(f64),
    Tree { slots: usize, particles: Vec<Record> },
    Visit { particles: Vec<Record>, skips: Vec<usize> },
    Force { slots: usize, force: Force, alpha: f64, particles: Vec<Record>, draws: Vec<f64> },
    Move { decay: f64, particles: Vec<Record> },
    Tick(Tick),
    Step { tick: Tick, min: f64, budget: u64 },
}

pub const KINDS: [&str; 8] = ["floor", "root", "tree", "visit", "force", "move", "tick", "step"];

/// A `force` case with one of the forces, by its letter.
pub const FORCES: [&str; 4] = ["M", "C", "L", "E"];

// ---- reading

struct Words<'a>(SplitWhitespace<'a>);

impl Words<'_> {
    fn whole<N: std::str::FromStr>(&mut self) -> Option<N> {
        self.0.next()?.parse().ok()
    }

    fn float(&mut self) -> Option<f64> {
        let word = self.0.next()?;
        if word.len() != 16 {
            return None;
        }
        u64::from_str_radix(word, 16).ok().map(f64::from_bits)
    }

    fn many<A>(&mut self, one: impl Fn(&mut Self) -> Option<A>) -> Option<Vec<A>> {
        let count: usize = self.whole()?;
        (0..count).map(|_| one(self)).collect()
    }

    fn floats(&mut self) -> Option<Vec<f64>> {
        self.many(Self::float)
    }

    fn particles(&mut self) -> Option<Vec<Record>> {
        self.many(|w| Some(Record { x: w.float()?, y: w.float()?, vx: w.float()?, vy: w.float()?, flags: w.whole()? }))
    }

    fn links(&mut self) -> Option<Vec<(usize, usize)>> {
        self.many(|w| Some((w.whole()?, w.whole()?)))
    }

    fn force(&mut self) -> Option<Force> {
        Some(match self.0.next()? {
            "-" => Force::Empty,
            "M" => Force::ManyBody { strengths: self.floats()? },
            "C" => Force::Collide { strength: self.float()?, iterations: self.whole()?, radii: self.floats()? },
            "L" => Force::Link { iterations: self.whole()?, links: self.links()?, strengths: self.floats()?, distances: self.floats()? },
            "E" => Force::Center { x: self.float()?, y: self.float()?, strength: self.float()? },
            "?" => Force::Unknown(self.whole()?),
            _ => return None,
        })
    }

    /// The one force of a `force` case, which is neither empty nor unknown.
    fn known_force(&mut self) -> Option<Force> {
        self.force().filter(|f| !matches!(f, Force::Empty | Force::Unknown(_)))
    }

    fn tick(&mut self) -> Option<Case> {
        let mut tick = self.settings()?;
        self.lists(&mut tick)?;
        Some(Case::Tick(tick))
    }

    fn step(&mut self) -> Option<Case> {
        let mut tick = self.settings()?;
        let (min, budget) = (self.float()?, self.whole()?);
        self.lists(&mut tick)?;
        Some(Case::Step { tick, min, budget })
    }

    fn settings(&mut self) -> Option<Tick> {
        Some(Tick {
            slots: self.whole()?,
            alpha: self.float()?,
            target: self.float()?,
            decay: self.float()?,
            velocity_decay: self.float()?,
            particles: Vec::new(),
            forces: Vec::new(),
            draws: Vec::new(),
        })
    }

    fn lists(&mut self, tick: &mut Tick) -> Option<()> {
        tick.particles = self.particles()?;
        tick.forces = (0..8).map(|_| self.force()).collect::<Option<_>>()?;
        tick.draws = self.floats()?;
        Some(())
    }

    fn case(&mut self) -> Option<Case> {
        Some(match self.0.next()? {
            "floor" => Case::Floor(self.float()?),
            "root" => Case::Root(self.float()?),
            "tree" => Case::Tree { slots: self.whole()?, particles: self.particles()? },
            "visit" => Case::Visit { particles: self.particles()?, skips: self.many(Self::whole)? },
            "force" => Case::Force {
                slots: self.whole()?,
                force: self.known_force()?,
                alpha: self.float()?,
                particles: self.particles()?,
                draws: self.floats()?,
            },
            "move" => Case::Move { decay: self.float()?, particles: self.particles()? },
            "tick" => self.tick()?,
            "step" => self.step()?,
            _ => return None,
        })
    }
}

/// The case that a line says, or none if it is not one.
pub fn read(line: &str) -> Option<Case> {
    let mut words = Words(line.split_whitespace());
    let case = words.case()?;
    match words.0.next() {
        None => Some(case),
        Some(_) => None,
    }
}

// ---- writing

/// The bits, as 16 hex digits; every NaN is written the same.
pub fn hex(x: f64) -> String {
    format!("{:016x}", canonical(x.to_bits()))
}

/// Apart, and over whole numbers: where a compiler sees a float's test for NaN and that either answer is a NaN, it may leave the test out.
#[inline(never)]
fn canonical(bits: u64) -> u64 {
    const NAN: u64 = 0x7ff8_0000_0000_0000;
    const INFINITY: u64 = 0x7ff0_0000_0000_0000;
    if bits << 1 > INFINITY << 1 {
        NAN
    } else {
        bits
    }
}

/// The bits of an input as they are.
fn bits(x: f64) -> String {
    format!("{:016x}", x.to_bits())
}

/// A count, then each thing.
fn counted(things: impl ExactSizeIterator<Item = String>) -> String {
    let mut text = things.len().to_string();
    for thing in things {
        text.push(' ');
        text.push_str(&thing);
    }
    text
}

fn floats(list: &[f64]) -> String {
    counted(list.iter().map(|&x| bits(x)))
}

fn particles(list: &[Record]) -> String {
    counted(list.iter().map(|p| format!("{} {} {} {} {}", bits(p.x), bits(p.y), bits(p.vx), bits(p.vy), p.flags)))
}

fn force(force: &Force) -> String {
    match force {
        Force::Empty => "-".to_string(),
        Force::ManyBody { strengths } => format!("M {}", floats(strengths)),
        Force::Collide { strength, iterations, radii } => format!("C {} {iterations} {}", bits(*strength), floats(radii)),
        Force::Link { iterations, links, strengths, distances } => {
            let links = counted(links.iter().map(|(s, t)| format!("{s} {t}")));
            format!("L {iterations} {links} {} {}", floats(strengths), floats(distances))
        }
        Force::Center { x, y, strength } => format!("E {} {} {}", bits(*x), bits(*y), bits(*strength)),
        Force::Unknown(kind) => format!("? {kind}"),
    }
}

fn settings(t: &Tick) -> String {
    format!("{} {} {} {} {}", t.slots, bits(t.alpha), bits(t.target), bits(t.decay), bits(t.velocity_decay))
}

fn lists(t: &Tick) -> String {
    let forces: Vec<String> = t.forces.iter().map(force).collect();
    format!("{} {} {}", particles(&t.particles), forces.join(" "), floats(&t.draws))
}

/// The line that says a case.
pub fn write(case: &Case) -> String {
    match case {
        Case::Floor(x) => format!("floor {}", bits(*x)),
        Case::Root(x) => format!("root {}", bits(*x)),
        Case::Tree { slots, particles: ps } => format!("tree {slots} {}", particles(ps)),
        Case::Visit { particles: ps, skips } => format!("visit {} {}", particles(ps), counted(skips.iter().map(usize::to_string))),
        Case::Force { slots, force: f, alpha, particles: ps, draws } => {
            format!("force {slots} {} {} {} {}", force(f), bits(*alpha), particles(ps), floats(draws))
        }
        Case::Move { decay, particles: ps } => format!("move {} {}", bits(*decay), particles(ps)),
        Case::Tick(tick) => format!("tick {} {}", settings(tick), lists(tick)),
        Case::Step { tick, min, budget } => format!("step {} {} {budget} {}", settings(tick), bits(*min), lists(tick)),
    }
}
