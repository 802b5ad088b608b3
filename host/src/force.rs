//! The forces called alone, on plain lists.
use crate::raw;
use crate::Refusal;

/// What a force moves: places in pairs x, y, and velocities in pairs vx, vy, each as the 16 bytes of two little-endian f64, which begin anywhere
/// in a buffer. What lies outside that part isn't changed.
#[derive(Debug)]
pub struct Points<'a> {
    /// Two numbers a particle.
    pub places: &'a [f64],
    /// Where the velocities are, 16 bytes a particle.
    pub buffer: &'a mut [u8],
    /// The byte of the buffer at which they begin.
    pub start: usize,
}

/// What is lent to work with.
#[derive(Debug)]
pub struct Lent<'a> {
    /// The jiggles, from -1 to 1, used in order.
    pub draws: &'a [f64],
    /// Slots for the nodes of a tree, [`SLOT_WORDS`](crate::SLOT_WORDS) words each; zero after a call that is accepted.
    pub work: &'a mut [u64],
}

/// What a force or a tick counted.
#[derive(Clone, Copy, Debug, PartialEq, Eq)]
pub struct Counts {
    /// Nodes handed out by the parent-first walks.
    pub visits: u64,
    /// Draws used.
    pub draws: usize,
}

impl Counts {
    pub(crate) fn of(answer: raw::Counts) -> Result<Counts, Refusal> {
        Refusal::unless(answer.refusal, Counts { visits: answer.visits, draws: answer.draws as usize })
    }
}

/// The bytes of velocities, as a force's buffer holds them.
#[must_use]
pub fn velocity_bytes(velocities: &[f64]) -> Vec<u8> {
    velocities.iter().flat_map(|v| v.to_bits().to_le_bytes()).collect()
}

/// The velocities that bytes hold.
#[must_use]
pub fn velocities_of(bytes: &[u8]) -> Vec<f64> {
    let number = |chunk: &[u8]| {
        let mut word = [0; 8];
        word.copy_from_slice(chunk);
        f64::from_bits(u64::from_le_bytes(word))
    };
    bytes.chunks_exact(8).map(number).collect()
}

/// ManyBody: particles push apart, or pull, by a strength each.
///
/// # Errors
///
/// 1, 2, 4 or 5 for what is lent; 6 or 7 where the tree would pass level 64 or needs more slots; 8 where draws are wanting; 9 for a result out of range. A refusal leaves the
/// buffer as it was.
///
/// ```
/// use talemiku::{many_body, velocities_of, Lent, Points, SLOT_WORDS};
/// let (mut buffer, mut work) = ([0; 32], [0; 3 * SLOT_WORDS]);
/// let points = Points { places: &[0.0, 0.0, 3.0, 3.0], buffer: &mut buffer, start: 0 };
/// let counts = many_body(points, &[-30.0, -30.0], 1.0, Lent { draws: &[], work: &mut work })?;
/// assert_eq!(counts.visits, 6);
/// assert_eq!(velocities_of(&buffer), [-5.0, -5.0, 5.0, 5.0]);
/// # Ok::<(), talemiku::Refusal>(())
/// ```
pub fn many_body(points: Points<'_>, strengths: &[f64], alpha: f64, lent: Lent<'_>) -> Result<Counts, Refusal> {
    let Points { places, buffer, start } = points;
    let Lent { draws, work } = lent;
    Counts::of(raw::many_body(places, buffer, start, strengths, alpha, draws, work))
}

/// Collide: discs of a radius each are parted where they overlap.
///
/// # Errors
///
/// As for [`many_body`], and 1 for too many iterations.
///
/// ```
/// use talemiku::{collide, velocities_of, Lent, Points, SLOT_WORDS};
/// let (mut buffer, mut work) = ([0; 32], [0; 3 * SLOT_WORDS]);
/// let points = Points { places: &[0.0, 0.0, 1.0, 0.0], buffer: &mut buffer, start: 0 };
/// let counts = collide(points, &[1.0, 1.0], 1.0, 1, Lent { draws: &[0.0], work: &mut work })?;
/// assert_eq!(counts.draws, 1);
/// assert_eq!(velocities_of(&buffer), [-0.5, 0.0, 0.5, 0.0]);
/// # Ok::<(), talemiku::Refusal>(())
/// ```
pub fn collide(points: Points<'_>, radii: &[f64], strength: f64, iterations: usize, lent: Lent<'_>) -> Result<Counts, Refusal> {
    let Points { places, buffer, start } = points;
    let Lent { draws, work } = lent;
    Counts::of(raw::collide(places, buffer, start, radii, strength, iterations, draws, work))
}

/// What Link ties.
#[derive(Clone, Copy, Debug)]
pub struct Links<'a> {
    /// Source, target, source, target: the numbers of particles.
    pub ends: &'a [u32],
    /// A strength a link; none for the default.
    pub strengths: &'a [f64],
    /// A distance a link.
    pub distances: &'a [f64],
    /// How often all links are gone through.
    pub iterations: usize,
}

/// Link: pairs of particles are drawn to a distance each.
///
/// # Errors
///
/// As for [`collide`], and 1 for too many links, 3 for an end that is no particle; it builds no tree, so 6 and 7 aren't given.
///
/// ```
/// use talemiku::{link, velocities_of, Lent, Links, Points};
/// let mut buffer = [0; 32];
/// let points = Points { places: &[0.0, 0.0, 3.0, 4.0], buffer: &mut buffer, start: 0 };
/// let links = Links { ends: &[0, 1], strengths: &[], distances: &[0.0], iterations: 1 };
/// link(points, links, 1.0, Lent { draws: &[], work: &mut [] })?;
/// assert_eq!(velocities_of(&buffer), [1.5, 2.0, -1.5, -2.0]);
/// # Ok::<(), talemiku::Refusal>(())
/// ```
pub fn link(points: Points<'_>, links: Links<'_>, alpha: f64, lent: Lent<'_>) -> Result<Counts, Refusal> {
    let Points { places, buffer, start } = points;
    let Links { ends, strengths, distances, iterations } = links;
    let Lent { draws, work } = lent;
    Counts::of(raw::link(places, buffer, start, ends, strengths, distances, iterations, alpha, draws, work))
}
