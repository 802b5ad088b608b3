//! Center and the closing move, on a list of particles.
use crate::raw;
use crate::{Particle, Refusal};

/// Center: moves all particles so that their middle goes to (x, y), as far as the strength says.
///
/// # Errors
///
/// 1, 10, 4 or 5 for what is lent, 9 for a result out of range. A refusal leaves all particles as they were, but for the payload of a NaN.
///
/// ```
/// use talemiku::{center, Particle};
/// let mut particles = [Particle::at(0.0, 0.0), Particle::at(2.0, 4.0)];
/// center(&mut particles, 0.0, 0.0, 1.0)?;
/// assert_eq!(particles, [Particle::at(-1.0, -2.0), Particle::at(1.0, 2.0)]);
/// # Ok::<(), talemiku::Refusal>(())
/// ```
pub fn center(particles: &mut [Particle], x: f64, y: f64, strength: f64) -> Result<(), Refusal> {
    Refusal::unless(raw::center(particles, x, y, strength), ())
}

/// The closing move: each particle goes by its velocity, and the velocity is multiplied by the decay. A held axis stays, with velocity 0.
///
/// # Errors
///
/// As for [`center`].
///
/// ```
/// use talemiku::{apply_velocities, Particle};
/// let mut particles = [Particle { vx: 2.0, ..Particle::at(1.0, 0.0) }];
/// apply_velocities(&mut particles, 0.5)?;
/// assert_eq!(particles, [Particle { vx: 1.0, ..Particle::at(3.0, 0.0) }]);
/// # Ok::<(), talemiku::Refusal>(())
/// ```
pub fn apply_velocities(particles: &mut [Particle], decay: f64) -> Result<(), Refusal> {
    Refusal::unless(raw::apply_velocities(particles, decay), ())
}
