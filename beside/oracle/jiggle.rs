//! The jiggle that the folder lacks, fed from a list of lent draws, and a door to what the runs need of the folder's inside.

use std::cell::RefCell;

use crate::lcg::Lcg;

pub use super::particle::{Particle, ParticleIndex};
pub use super::simulation::Force;

#[derive(Default)]
struct Lent {
    draws: Vec<f64>,
    used: usize,
    dry: bool,
}

thread_local! {
    static LENT: RefCell<Lent> = RefCell::new(Lent::default());
}

/// Lends these draws from the first on, and forgets what was lent before.
pub fn lend(draws: &[f64]) {
    LENT.with(|l| *l.borrow_mut() = Lent { draws: draws.to_vec(), used: 0, dry: false });
}

/// How many of them were used.
pub fn used() -> usize {
    LENT.with(|l| l.borrow().used)
}

/// Whether more were asked for than lent. What the forces answered is then worth nothing.
pub fn ran_dry() -> bool {
    LENT.with(|l| l.borrow().dry)
}

pub(super) fn jiggle(_: &mut Lcg) -> f64 {
    LENT.with(|l| {
        let mut lent = l.borrow_mut();
        match lent.draws.get(lent.used).copied() {
            Some(draw) => {
                lent.used += 1;
                draw
            }
            None => {
                lent.dry = true;
                0.0
            }
        }
    })
}

/// One force alone, as `Simulation::tick` calls it.
pub fn apply(force: &Force, alpha: f64, particles: &mut [Particle]) {
    let random = &mut Lcg::default();
    match force {
        Force::Collide(f) => f.force(random, particles),
        Force::Center(f) => f.force(particles),
        Force::PositionX(f) => f.force(alpha, particles),
        Force::PositionY(f) => f.force(alpha, particles),
        Force::Link(f) => f.force(alpha, random, particles),
        Force::ManyBody(f) => f.force(alpha, random, particles),
    }
}

/// The closing move alone, as `Simulation::tick` calls it.
pub fn close(velocity_decay: f64, particles: &mut [Particle]) {
    for particle in particles {
        particle.apply_velocities(velocity_decay);
    }
}
