//! Sheets of 4,096 particles: spread, on a whole grid, on one place, in close pairs far apart; with 8,192 links.

use crate::case::{self, Case, Force, Record, Tick};
use std::io::{self, Write};

const PARTICLES: usize = 4096;
const LINKS: usize = 8192;
/// As many as 4,096 distinct points can need.
const SLOTS: usize = 1 + 64 * PARTICLES;

/// A linear congruence, the same on every machine.
struct Random(u64);

impl Random {
    fn unit(&mut self) -> f64 {
        self.0 = self.0.wrapping_mul(6364136223846793005).wrapping_add(1442695040888963407);
        (self.0 >> 11) as f64 / (1u64 << 53) as f64
    }

    fn between(&mut self, low: f64, high: f64) -> f64 {
        low + self.unit() * (high - low)
    }

    fn particle(&mut self) -> usize {
        (self.unit() * PARTICLES as f64) as usize
    }

    fn list(&mut self, count: usize, low: f64, high: f64) -> Vec<f64> {
        (0..count).map(|_| self.between(low, high)).collect()
    }
}

fn place(random: &mut Random, way: usize, i: usize) -> (f64, f64) {
    match way {
        0 => (random.between(-1000.0, 1000.0), random.between(-1000.0, 1000.0)),
        1 => ((i % 64) as f64, (i / 64) as f64),
        2 => (0.25, -0.0),
        _ => ((i / 2) as f64 * 16.0, if i % 2 == 0 { 0.0 } else { 2f64.powi(-40) }),
    }
}

fn sheet(random: &mut Random, way: usize) -> Vec<Record> {
    let mut list = Vec::new();
    for i in 0..PARTICLES {
        let (x, y) = place(random, way, i);
        let (vx, vy) = if way == 1 { (0.0, -0.0) } else { (random.between(-2.0, 2.0), random.between(-2.0, 2.0)) };
        list.push(Record { x, y, vx, vy, flags: i as u64 % 4 });
    }
    list
}

/// Links between any two: by chance, all the same, along a chain, all to one.
fn ends(random: &mut Random, way: usize, i: usize) -> (usize, usize) {
    match way {
        0 => (random.particle(), random.particle()),
        1 => (7, 4000),
        2 => (i % PARTICLES, (i + 1) % PARTICLES),
        _ => (i % PARTICLES, 0),
    }
}

fn force(random: &mut Random, kind: &str, way: usize) -> Option<Force> {
    Some(match kind {
        "M" => Force::ManyBody { strengths: random.list(PARTICLES, -40.0, 10.0) },
        "C" => Force::Collide { strength: 0.7, iterations: 2, radii: random.list(PARTICLES, 0.0, 3.0) },
        "L" => {
            let links = (0..LINKS).map(|i| ends(random, way, i)).collect();
            let strengths = if way % 2 == 0 { Vec::new() } else { random.list(LINKS, -1.0, 1.0) };
            Force::Link { iterations: if way == 1 { 64 } else { 2 }, links, strengths, distances: random.list(LINKS, 0.0, 60.0) }
        }
        "E" => Force::Center { x: 3.0, y: -4.0, strength: 0.5 },
        _ => return None,
    })
}

fn tick(random: &mut Random, way: usize, particles: Vec<Record>) -> Tick {
    let mut forces = vec![Force::Empty; 8];
    for (slot, kind) in [(0, "M"), (2, "L"), (3, "C"), (7, "E")] {
        forces[slot] = force(random, kind, way).unwrap_or(Force::Empty);
    }
    let draws = random.list(40 * PARTICLES, -1.0, 1.0);
    Tick { slots: SLOTS, alpha: 1.0, target: 0.0, decay: 0.0228, velocity_decay: 0.6, particles, forces, draws }
}

fn case(random: &mut Random, kind: &str, way: usize) -> Option<Case> {
    let particles = sheet(random, way);
    Some(match kind {
        "tree" => Case::Tree { slots: SLOTS, particles },
        "move" => Case::Move { decay: 0.6, particles },
        "tick" => Case::Tick(tick(random, way, particles)),
        "step" => Case::Step { tick: tick(random, way, particles), min: 0.001, budget: 2 },
        _ => {
            let force = force(random, kind, way)?;
            let draws = random.list(10 * LINKS, -1.0, 1.0);
            Case::Force { slots: SLOTS, force, alpha: 0.9, particles, draws }
        }
    })
}

pub fn write(out: &mut impl Write, seed: u64, kinds: &str) -> io::Result<()> {
    let mut random = Random(seed);
    for kind in kinds.split(',') {
        for way in 0..4 {
            if let Some(case) = case(&mut random, kind, way) {
                writeln!(out, "{}", case::write(&case))?;
            }
        }
    }
    Ok(())
}
