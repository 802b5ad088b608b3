//! The forces, formula by formula.

use super::number::{plain_zero, root};
use super::tree::{build, valued, walk, Below, Cell, Point, Tree, Visit};
use crate::answer::Moved;
use crate::case::Force;
use crate::refusal::{refuse, Check, Refusal};

/// What a force changes, uses up and counts.
pub struct Flow<'a> {
    pub velocities: Vec<[f64; 2]>,
    pub draws: &'a [f64],
    pub used: usize,
    pub visits: u64,
}

/// A distance on both axes, and its square.
#[derive(Clone, Copy)]
struct Gap {
    x: f64,
    y: f64,
    l: f64,
}

fn gap(x: f64, y: f64) -> Gap {
    Gap { x, y, l: x * x + y * y }
}

impl Flow<'_> {
    /// The next draw, or 8 if there is none.
    fn draw(&mut self) -> Result<f64, Refusal> {
        match self.draws.get(self.used) {
            None => refuse(8, 0),
            Some(&draw) => {
                self.used += 1;
                Ok(draw)
            }
        }
    }

    /// A draw in place of a zero.
    fn nonzero(&mut self, d: f64) -> Result<f64, Refusal> {
        if d == 0.0 {
            self.draw()
        } else {
            Ok(d)
        }
    }

    /// One draw for x == 0, then one for y == 0, the square growing by theirs.
    fn shake(&mut self, mut g: Gap) -> Result<Gap, Refusal> {
        if g.x == 0.0 {
            g.x = self.draw()?;
            g.l += g.x * g.x;
        }
        if g.y == 0.0 {
            g.y = self.draw()?;
            g.l += g.y * g.y;
        }
        Ok(g)
    }

    fn push(&mut self, i: usize, x: f64, y: f64) {
        self.velocities[i][0] += x;
        self.velocities[i][1] += y;
    }

    fn pull(&mut self, i: usize, x: f64, y: f64) {
        self.velocities[i][0] -= x;
        self.velocities[i][1] -= y;
    }
}

/// ManyBody, Collide or Link on places and velocities.
pub fn run(force: &Force, places: &[Point], slots: usize, alpha: f64, flow: &mut Flow) -> Check {
    match force {
        Force::ManyBody { strengths } => many_body(strengths, places, slots, alpha, flow),
        Force::Collide { strength, iterations, radii } => collide(*strength, *iterations, radii, places, slots, flow),
        Force::Link { iterations, links, strengths, distances } => {
            let ties = ties(links, strengths, distances, places.len());
            (0..*iterations).try_for_each(|_| ties.iter().try_for_each(|tie| pull_together(tie, places, alpha, flow)))
        }
        Force::Empty | Force::Center { .. } | Force::Unknown(_) => Ok(()),
    }
}

// ---- ManyBody

const THETA: f64 = 0.9;
const LEAST: f64 = 1.0;

struct Charge {
    x: f64,
    y: f64,
    strength: f64,
}

fn leaf_charge(chain: &[usize], strengths: &[f64], places: &[Point]) -> Charge {
    let [x, y] = places[chain[0]];
    let rest = chain[1..].iter().fold(0.0, |sum, &i| sum + strengths[i]);
    Charge { x, y, strength: strengths[chain[0]] + rest }
}

fn internal_charge(children: &[&Charge]) -> Charge {
    let (mut x, mut y, mut strength, mut weight) = (0.0, 0.0, 0.0, 0.0);
    for child in children {
        let c = child.strength.abs();
        strength += child.strength;
        weight += c;
        x += c * child.x;
        y += c * child.y;
    }
    Charge { x: x / weight, y: y / weight, strength }
}

fn many_body(strengths: &[f64], places: &[Point], slots: usize, alpha: f64, flow: &mut Flow) -> Check {
    let strengths: Vec<f64> = strengths.iter().map(|&s| plain_zero(s)).collect();
    let tree = match build(places, slots)? {
        None => return Ok(()),
        Some(tree) => valued(tree, &|chain| leaf_charge(chain, &strengths, places), &internal_charge),
    };
    for (i, &place) in places.iter().enumerate() {
        walk(&tree, &mut |node| {
            flow.visits += 1;
            charge_acts(node, i, place, &strengths, alpha, flow)
        })?;
    }
    Ok(())
}

fn charge_acts(node: &Tree<Charge>, i: usize, [x, y]: Point, strengths: &[f64], alpha: f64, flow: &mut Flow) -> Result<Visit, Refusal> {
    let charge = &node.value;
    let seen = gap(charge.x - x, charge.y - y);
    let w = node.cell.x1 - node.cell.x0;
    if w * w / (THETA * THETA) < seen.l {
        let g = kept_apart(flow.shake(seen)?);
        flow.push(i, g.x * charge.strength * alpha / g.l, g.y * charge.strength * alpha / g.l);
        return Ok(Visit::Skip);
    }
    match &node.below {
        Below::Chain(chain) if chain[..] != [i] => {
            let g = kept_apart(flow.shake(seen)?);
            for &j in chain.iter().filter(|&&j| j != i) {
                let w = strengths[j] * alpha / g.l;
                flow.push(i, g.x * w, g.y * w);
            }
        }
        _ => {}
    }
    Ok(Visit::Continue)
}

/// The least distance, in the square.
fn kept_apart(g: Gap) -> Gap {
    let least = LEAST * LEAST;
    if g.l < least {
        Gap { l: root(least * g.l), ..g }
    } else {
        g
    }
}

// ---- Collide

fn collide(strength: f64, iterations: u64, radii: &[f64], places: &[Point], slots: usize, flow: &mut Flow) -> Check {
    let radii: Vec<f64> = radii.iter().map(|&r| plain_zero(r)).collect();
    for _ in 0..iterations {
        let tree = match build(places, slots)? {
            None => return Ok(()),
            Some(tree) => valued(tree, &|chain| radii[chain[0]], &greatest),
        };
        for (i, &place) in places.iter().enumerate() {
            walk(&tree, &mut |node| {
                flow.visits += 1;
                match &node.below {
                    Below::Children(_) if away(&node.cell, place, radii[i] + node.value) => return Ok(Visit::Skip),
                    Below::Chain(chain) if chain[0] > i => meet(i, chain[0], strength, &radii, places, flow)?,
                    _ => {}
                }
                Ok(Visit::Continue)
            })?;
        }
    }
    Ok(())
}

fn greatest(radii: &[&f64]) -> f64 {
    radii.iter().fold(0.0, |most, &&r| if r > most { r } else { most })
}

/// A cell further away than the combined radii.
fn away(cell: &Cell, [x, y]: Point, r: f64) -> bool {
    cell.x0 > x + r || cell.x1 < x - r || cell.y0 > y + r || cell.y1 < y - r
}

/// Particle i against particle j; the own side uses x, the other x + vx.
fn meet(i: usize, j: usize, strength: f64, radii: &[f64], places: &[Point], flow: &mut Flow) -> Check {
    let (ri, rj) = (radii[i], radii[j]);
    let (own, other, other_velocity) = (places[i], places[j], flow.velocities[j]);
    let r = ri + rj;
    let seen = gap(own[0] - other[0] - other_velocity[0], own[1] - other[1] - other_velocity[1]);
    if seen.l < r * r {
        let g = flow.shake(seen)?;
        let l = (r - root(g.l)) / root(g.l) * strength;
        let (x, y) = (g.x * l, g.y * l);
        let share = rj * rj / (ri * ri + rj * rj);
        flow.push(i, x * share, y * share);
        flow.pull(j, x * (1.0 - share), y * (1.0 - share));
    }
    Ok(())
}

// ---- Link

struct Tie {
    source: usize,
    target: usize,
    strength: f64,
    distance: f64,
    bias: f64,
}

fn ties(links: &[(usize, usize)], strengths: &[f64], distances: &[f64], n: usize) -> Vec<Tie> {
    let mut counts = vec![0u32; n];
    for &(source, target) in links {
        counts[source] += 1;
        counts[target] += 1;
    }
    let tie = |(k, &(source, target)): (usize, &(usize, usize))| {
        let (from, to) = (counts[source], counts[target]);
        Tie {
            source,
            target,
            strength: strengths.get(k).copied().unwrap_or(1.0 / f64::from(from.min(to))),
            distance: distances[k],
            bias: f64::from(from) / f64::from(from + to),
        }
    };
    links.iter().enumerate().map(tie).collect()
}

fn pull_together(tie: &Tie, places: &[Point], alpha: f64, flow: &mut Flow) -> Check {
    let (s, t) = (tie.source, tie.target);
    if s == t {
        return Ok(());
    }
    let along = |axis: usize, v: &[[f64; 2]]| places[t][axis] + v[t][axis] - places[s][axis] - v[s][axis];
    let (x, y) = (along(0, &flow.velocities), along(1, &flow.velocities));
    let x = flow.nonzero(x)?;
    let y = flow.nonzero(y)?;
    let d = root(x * x + y * y);
    let l = (d - tie.distance) / d * alpha * tie.strength;
    let back = 1.0 - tie.bias;
    flow.pull(t, x * l * tie.bias, y * l * tie.bias);
    flow.push(s, x * l * back, y * l * back);
    Ok(())
}

// ---- Center and the closing move, on particles

pub fn center(x: f64, y: f64, strength: f64, particles: &mut [Moved]) {
    let sx = offset(particles.iter().map(|p| p.x), x, strength);
    let sy = offset(particles.iter().map(|p| p.y), y, strength);
    for p in particles {
        p.x -= sx;
        p.y -= sy;
    }
}

/// How far the mean lies from where it should, times the strength.
fn offset(along: impl ExactSizeIterator<Item = f64>, wanted: f64, strength: f64) -> f64 {
    let count = along.len() as f64;
    (along.fold(0.0, |sum, x| sum + x) / count - wanted) * strength
}

/// One particle's closing move; a held x axis returns home.
pub fn close(p: &mut Moved, home: Option<f64>, decay: f64) {
    match home {
        Some(x) => {
            p.x = x;
            p.vx = 0.0;
        }
        None => {
            p.x += clamped(p.vx);
            p.vx *= decay;
        }
    }
    p.y += clamped(p.vy);
    p.vy *= decay;
}

fn clamped(v: f64) -> f64 {
    v.clamp(-2147483648.0, 2147483647.0)
}
