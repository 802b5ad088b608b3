//! Refusals 1 to 5 and 10: what is tested of the input before anything is worked out, in the order of document 01.

use crate::case::{Force, Record, Tick};

#[derive(Clone, Copy, Debug, PartialEq)]
pub struct Refusal {
    pub number: u8,
    pub place: usize,
}

pub type Check = Result<(), Refusal>;

pub fn refuse<A>(number: u8, place: usize) -> Result<A, Refusal> {
    Err(Refusal { number, place })
}

fn require(fine: bool, number: u8, place: usize) -> Check {
    if fine {
        Ok(())
    } else {
        refuse(number, place)
    }
}

/// The first that is not fine is refused at its place.
fn require_all<A>(list: &[A], number: u8, fine: impl Fn(&A) -> bool) -> Check {
    match list.iter().position(|a| !fine(a)) {
        None => Ok(()),
        Some(place) => refuse(number, place),
    }
}

// ---- ranges

const LIMIT: f64 = 1_099_511_627_776.0; // 2^40

/// Within 2^40 of zero, which a NaN is not.
pub fn within_limit(x: f64) -> bool {
    x.abs() <= LIMIT
}

fn is_length(x: f64) -> bool {
    (0.0..=LIMIT).contains(&x)
}

fn is_draw(x: f64) -> bool {
    (-1.0..=1.0).contains(&x)
}

fn placed(p: &Record) -> bool {
    within_limit(p.x) && within_limit(p.y)
}

fn moving(p: &Record) -> bool {
    p.vx.is_finite() && p.vy.is_finite()
}

fn setting(x: f64) -> Check {
    require(within_limit(x), 5, 0)
}

fn settings(list: &[f64]) -> Check {
    list.iter().try_for_each(|&x| setting(x))
}

fn draws(list: &[f64]) -> Check {
    require_all(list, 5, |&d| is_draw(d))
}

// ---- particles

fn count(particles: &[Record]) -> Check {
    require(particles.len() <= 4096, 1, 0)
}

/// The first bad record; within it flags, place, velocity.
fn records(particles: &[Record]) -> Check {
    for (i, p) in particles.iter().enumerate() {
        require(p.flags <= 3, 10, i)?;
        require(placed(p), 4, i)?;
        require(moving(p), 5, i)?;
    }
    Ok(())
}

/// All places, then all velocities.
fn columns(particles: &[Record]) -> Check {
    require_all(particles, 4, placed)?;
    require_all(particles, 5, moving)
}

// ---- forces

fn counts(force: &Force) -> Check {
    match force {
        Force::Collide { iterations, .. } => require(*iterations <= 64, 1, 0),
        Force::Link { iterations, links, .. } => require(*iterations <= 64 && links.len() <= 8192, 1, 0),
        _ => Ok(()),
    }
}

/// Every end of a link is a particle.
fn ends(force: &Force, n: usize) -> Check {
    match force {
        Force::Link { links, .. } => require_all(links, 3, |&(s, t)| s < n && t < n),
        _ => Ok(()),
    }
}

/// A slot's lists, then its settings.
fn ranges(force: &Force) -> Check {
    match force {
        Force::Empty => Ok(()),
        Force::ManyBody { strengths } => require_all(strengths, 5, |&s| within_limit(s)),
        Force::Collide { strength, radii, .. } => {
            require_all(radii, 5, |&r| is_length(r))?;
            setting(*strength)
        }
        Force::Link { strengths, distances, .. } => {
            require_all(strengths, 5, |&s| within_limit(s))?;
            require_all(distances, 5, |&d| is_length(d))
        }
        Force::Center { x, y, strength } => settings(&[*x, *y, *strength]),
        Force::Unknown(_) => refuse(5, 0),
    }
}

/// No strengths, for the default, or one a link.
fn strengths_fit(strengths: usize, links: usize) -> bool {
    strengths == 0 || strengths == links
}

/// The lengths of one force's own lists.
fn lengths(force: &Force, n: usize) -> Check {
    let fit = match force {
        Force::ManyBody { strengths } => strengths.len() == n,
        Force::Collide { radii, .. } => radii.len() == n,
        Force::Link { links, strengths, distances, .. } => distances.len() == links.len() && strengths_fit(strengths.len(), links.len()),
        _ => true,
    };
    require(fit, 2, 0)
}

// ---- the calls

pub fn floor(x: f64) -> Check {
    require(within_limit(x), 4, 0)
}

pub fn tree(particles: &[Record]) -> Check {
    count(particles)?;
    records(particles)
}

pub fn closing(decay: f64, particles: &[Record]) -> Check {
    count(particles)?;
    records(particles)?;
    setting(decay)
}

/// One force alone: Center on particles, the others on lists of places and velocities.
pub fn force(force: &Force, alpha: f64, particles: &[Record], lent: &[f64]) -> Check {
    let n = particles.len();
    count(particles)?;
    if let Force::Center { .. } = force {
        records(particles)?;
        return ranges(force);
    }
    counts(force)?;
    lengths(force, n)?;
    ends(force, n)?;
    columns(particles)?;
    ranges(force)?;
    draws(lent)?;
    match force {
        Force::Collide { .. } => Ok(()),
        _ => setting(alpha),
    }
}

/// A tick, with the forces as they are cut from the lists lent end to end.
pub fn tick(tick: &Tick) -> Result<Vec<Force>, Refusal> {
    ticks(tick, 0, &[tick.alpha, tick.target, tick.decay, tick.velocity_decay])
}

pub fn step(tick: &Tick, min: f64, budget: u64) -> Result<Vec<Force>, Refusal> {
    ticks(tick, budget, &[tick.alpha, tick.target, tick.decay, tick.velocity_decay, min])
}

fn ticks(tick: &Tick, budget: u64, last: &[f64]) -> Result<Vec<Force>, Refusal> {
    let n = tick.particles.len();
    count(&tick.particles)?;
    require(budget <= 4096, 1, 0)?;
    tick.forces.iter().try_for_each(counts)?;
    let forces = cut(&tick.forces, n)?;
    forces.iter().try_for_each(|f| ends(f, n))?;
    records(&tick.particles)?;
    forces.iter().try_for_each(ranges)?;
    draws(&tick.draws)?;
    settings(last)?;
    Ok(forces)
}

// ---- lists lent end to end

/// The numbers that a slot lends.
fn lent_by(force: &Force) -> Vec<f64> {
    match force {
        Force::ManyBody { strengths } => strengths.clone(),
        Force::Collide { radii, .. } => radii.clone(),
        Force::Link { strengths, distances, .. } => [&strengths[..], &distances[..]].concat(),
        _ => Vec::new(),
    }
}

/// The numbers that a slot's entry asks for.
fn asked_by(force: &Force, n: usize) -> usize {
    match force {
        Force::ManyBody { .. } | Force::Collide { .. } => n,
        Force::Link { links, strengths, .. } => strengths.len() + links.len(),
        _ => 0,
    }
}

/// The same slot with the lists that its entry asks for, from the numbers lent.
fn refill(force: &Force, n: usize, mut take: impl FnMut(usize) -> Vec<f64>) -> Force {
    let mut cut = force.clone();
    match &mut cut {
        Force::ManyBody { strengths } => *strengths = take(n),
        Force::Collide { radii, .. } => *radii = take(n),
        Force::Link { links, strengths, distances, .. } => {
            *strengths = take(strengths.len());
            *distances = take(links.len());
        }
        _ => {}
    }
    cut
}

fn cut(forces: &[Force], n: usize) -> Result<Vec<Force>, Refusal> {
    for force in forces {
        if let Force::Link { links, strengths, .. } = force {
            require(strengths_fit(strengths.len(), links.len()), 2, 0)?;
        }
    }
    let lent: Vec<f64> = forces.iter().flat_map(lent_by).collect();
    let asked: usize = forces.iter().map(|f| asked_by(f, n)).sum();
    require(lent.len() == asked, 2, 0)?;
    let mut rest = lent.into_iter();
    Ok(forces.iter().map(|f| refill(f, n, |k| rest.by_ref().take(k).collect())).collect())
}
