//! Every small sheet: all choices of a few points on a grid, with strengths, radii and links from small sets.

use crate::case::{self, Case, Force, Record, Tick};
use std::io::{self, Write};

/// Every list of so many of these.
fn lists<A: Copy>(of: &[A], length: usize) -> Vec<Vec<A>> {
    (0..length)
        .fold(vec![Vec::new()], |shorter, _| shorter.iter().flat_map(|list| of.iter().map(move |&a| [&list[..], &[a]].concat())).collect())
}

/// Every choice of points on a grid of side by side whole numbers around zero, at rest.
fn sheets(side: usize, points: usize) -> Vec<Vec<Record>> {
    let middle = side as f64 / 2.0;
    let cells: Vec<[f64; 2]> = (0..side * side).map(|i| [(i % side) as f64 - middle, (i / side) as f64 - middle]).collect();
    let at_rest = |place: &[f64; 2]| Record { x: place[0], y: place[1], vx: 0.0, vy: 0.0, flags: 0 };
    lists(&cells, points).iter().map(|places| places.iter().map(at_rest).collect()).collect()
}

/// The same sheet with velocities that meet, pass and cross, and with held axes.
fn moving(sheet: &[Record]) -> Vec<Record> {
    let ways = [(0.5, 0.0), (-0.0, 1.0), (-1.0, -0.25)];
    sheet.iter().enumerate().map(|(i, r)| Record { vx: ways[i % 3].0, vy: ways[i % 3].1, flags: i as u64 % 4, ..*r }).collect()
}

/// Eight draws so many times, and none.
fn draws(times: usize) -> [Vec<f64>; 2] {
    [[0.25, -0.5, 0.0, 9.5367431640625e-7, -1.0, 0.0, 1.0, -0.125].repeat(times), Vec::new()]
}

fn many_bodies(points: usize) -> Vec<Force> {
    lists(&[-30.0, 0.0, 1.5], points).into_iter().map(|strengths| Force::ManyBody { strengths }).collect()
}

fn collides(points: usize) -> Vec<Force> {
    let mut all = Vec::new();
    for radii in lists(&[0.0, 0.75, 2.0], points) {
        for (strength, iterations) in [(1.0, 1), (0.5, 2)] {
            all.push(Force::Collide { strength, iterations, radii: radii.clone() });
        }
    }
    all
}

/// Every list of at most two links, self-links too: by default strengths or given ones, at either distance, once or twice over.
fn links(points: usize) -> Vec<Force> {
    let pairs: Vec<(usize, usize)> = (0..points * points).map(|i| (i / points, i % points)).collect();
    let mut all = Vec::new();
    for links in (0..3).flat_map(|length| lists(&pairs, length)) {
        for distance in [0.0, 1.5] {
            for (strengths, iterations) in [(vec![], 1), (vec![0.5, -2.0], 2)] {
                let strengths = strengths.into_iter().take(links.len()).collect();
                all.push(Force::Link { iterations, links: links.clone(), strengths, distances: vec![distance; links.len()] });
            }
        }
    }
    all
}

fn centers() -> Vec<Force> {
    [(0.0, 0.0, 1.0), (0.5, -3.0, 0.3)].iter().map(|&(x, y, strength)| Force::Center { x, y, strength }).collect()
}

/// Every choice of a force of each kind, or none, for slots 1, 4 and 6.
fn slots(points: usize) -> Vec<Vec<Force>> {
    let ends: Vec<(usize, usize)> = (1..points).map(|i| (i - 1, i)).collect();
    let some = [
        Force::Empty,
        Force::ManyBody { strengths: vec![-30.0; points] },
        Force::Collide { strength: 0.7, iterations: 1, radii: vec![1.0; points] },
        Force::Link { iterations: 1, distances: vec![1.5; ends.len()], links: ends, strengths: vec![] },
        Force::Center { x: 0.0, y: 0.5, strength: 1.0 },
    ];
    let mut all = Vec::new();
    for chosen in lists(&[0, 1, 2, 3, 4], 3) {
        let mut slots = vec![Force::Empty; 8];
        for (slot, which) in [1, 4, 6].iter().zip(chosen) {
            slots[*slot] = some[which].clone();
        }
        all.push(slots);
    }
    all
}

fn ticks(particles: &[Record], points: usize) -> Vec<Tick> {
    let mut all = Vec::new();
    for forces in slots(points) {
        for draws in draws(6) {
            let particles = particles.to_vec();
            let forces = forces.clone();
            all.push(Tick { slots: 256, alpha: 0.5, target: 0.0, decay: 0.25, velocity_decay: 0.6, particles, forces, draws });
        }
    }
    all
}

/// The cases of one kind on a sheet.
fn cases(kind: &str, particles: &[Record], forces: &[Force]) -> Vec<Case> {
    let points = particles.len();
    let particles = particles.to_vec();
    match kind {
        "tree" => vec![Case::Tree { slots: 256, particles }],
        "move" => vec![Case::Move { decay: 0.6, particles }],
        "tick" => ticks(&particles, points).into_iter().map(Case::Tick).collect(),
        "step" => ticks(&particles, points).into_iter().map(|tick| Case::Step { tick, min: 0.25, budget: 4 }).collect(),
        _ => {
            let mut all = Vec::new();
            for force in forces {
                for draws in draws(2) {
                    all.push(Case::Force { slots: 256, force: force.clone(), alpha: 0.5, particles: particles.clone(), draws });
                }
            }
            all
        }
    }
}

pub fn write(out: &mut impl Write, kind: &str, side: usize, points: usize) -> io::Result<()> {
    let forces = match kind {
        "M" => many_bodies(points),
        "C" => collides(points),
        "L" => links(points),
        "E" => centers(),
        _ => Vec::new(),
    };
    for sheet in sheets(side, points) {
        for particles in [moving(&sheet), sheet] {
            for case in cases(kind, &particles, &forces) {
                writeln!(out, "{}", case::write(&case))?;
            }
        }
    }
    Ok(())
}
